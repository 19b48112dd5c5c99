"""Files without a clip, under the name of the first fault that they have.

Each fault is worked out by hand from docs/FORMATS.md "The file that is read".
"""

from typing import Dict

import mkv
from mkv import KEY, Id, big_endian, ebml_head, element, master, simple_block, unsigned
from reader import MOST_FRAMES, MOST_RECORD_BYTES, Clip
from variants import UNKNOWN, Builder, bitmap, huge, long_number, opened, void


def bad_elements(it: Builder) -> Dict[str, bytes]:
    """Faulty elements at the top, and faults of headers, sizes and numbers."""
    known = b"".join(it.segment(it.tracks(), it.cluster()))
    between = lambda *pieces: it.of(it.segment(it.tracks(), list(pieces), it.cluster()))
    short = lambda master_id: between(b"".join(mkv.element(master_id, [b"\x42"])))
    return {
        "no bytes": b"",
        "one zero byte": bytes(1),
        "zeros": bytes(10_000),
        "text": b"this is no clip\n" * 20,
        "no EBML header": it.file(head=[]),
        "a Void before the EBML header": b"\xec\x80" + it.file(),
        "an EBML header of 2^56 - 2 bytes": b"".join(huge(Id.EBML)) + known,
        "an EBML header of unknown size": b"".join(opened(Id.EBML, element(Id.DOC_TYPE, [b"matroska"]))) + known,
        "an EBML header with a faulty child": it.file(head=master(Id.EBML, element(Id.DOC_TYPE, [b"matroska"]), [b"\x42"])),
        "another EBML header behind the first, with a faulty child": it.of(master(Id.EBML, [b"\xff\xff"]), [known]),
        "a byte between EBML and Segment": it.of([b"\0"], [known]),
        "a Cluster of unknown size before the Segment": it.of(opened(Id.CLUSTER), [known]),
        "a Segment a byte too long": it.of([known])[:-1],
        "a Segment of 2^56 - 2 bytes": it.of(huge(Id.SEGMENT), it.tracks(), it.cluster()),
        "a Segment of unknown size in the Segment": it.file(after=[opened(Id.SEGMENT)]),
        "an id that begins with four zero bits": between(b"\x0f\x80"),
        "an id of 5 bytes": between(b"\x08\0\0\0\1\x80"),
        "a size that begins with a zero byte": between(b"\xec\x00" + bytes(8)),
        "an id that ends after its Segment": it.of(it.segment(it.tracks(), it.cluster(), [b"\x1f\x43"]), [b"\xb6\x75\x80"]),
        "a size that ends after its Segment": it.of(it.segment(it.tracks(), it.cluster(), [b"\xec\x40"]), [b"\x00"]),
        "a Void of 2^56 - 2 bytes": between(*huge(Id.VOID)),
        "a Void a byte too long": it.of(it.segment(it.tracks(), it.cluster(), [b"\xec\x82\0"]), void()),
        "a Void of unknown size": between(b"\xec\xff"),
        "an Info of unknown size": between(*opened(Id.INFO)),
        **{f"half a header in a {master_id.name}": short(master_id) for master_id in (Id.TRACKS, Id.CLUSTER)},
    }


def bad_tracks(it: Builder) -> Dict[str, bytes]:
    """Faulty elements in and about the Tracks."""
    numbers = (Id.TRACK_NUMBER, Id.TRACK_TYPE)
    pixels = (Id.PIXEL_WIDTH, Id.PIXEL_HEIGHT)
    entry = lambda extra: it.file(it.tracks(extra=[extra]))
    video = lambda extra: it.file(it.tracks(video=it.video(extra=[extra])))
    again = master(Id.TRACKS, it.entry(number=long_number(Id.TRACK_NUMBER)))
    return {
        "Tracks of 2^56 - 2 bytes": it.file(tracks=huge(Id.TRACKS)),
        "Tracks of unknown size": it.file(tracks=opened(Id.TRACKS, it.entry())),
        "a TrackEntry of unknown size": it.file(master(Id.TRACKS, opened(Id.TRACK_ENTRY))),
        "a TrackEntry a byte too long": it.file(master(Id.TRACKS, it.entry(), [b"\xae\x81"])),
        "a Video of unknown size": it.file(it.tracks(video=opened(Id.VIDEO))),
        "a Video of 2^56 - 2 bytes": it.file(it.tracks(video=huge(Id.VIDEO))),
        "a CodecPrivate of 2^56 - 2 bytes": it.file(it.tracks(private=huge(Id.CODEC_PRIVATE))),
        "a CodecPrivate of unknown size": it.file(it.tracks(private=opened(Id.CODEC_PRIVATE, [it.record]))),
        **{f"a {Id(name).name} of 9 bytes behind the first": entry(long_number(name)) for name in numbers},
        **{f"a {Id(name).name} of 9 bytes behind the first": video(long_number(name)) for name in pixels},
        "a PIXEL_WIDTH of 9 bytes in a second Video": entry(master(Id.VIDEO, long_number(Id.PIXEL_WIDTH))),
        "a TRACK_NUMBER of 9 bytes in a sound track": it.file(
            master(Id.TRACKS, it.entry(), master(Id.TRACK_ENTRY, long_number(Id.TRACK_NUMBER)))
        ),
        "a TRACK_NUMBER of 9 bytes in a second Tracks": it.file(after=[again]),
        "half a header in a Video": video([b"\x54"]),
    }


def bad_clusters(it: Builder) -> Dict[str, bytes]:
    """Faulty elements in and about the Clusters."""
    after = lambda *pieces: it.file(cluster=it.cluster(after=[list(pieces)]))
    block = lambda content: after(*element(Id.SIMPLE_BLOCK, [content]))
    group = lambda *parts: after(*master(Id.BLOCK_GROUP, *parts))
    in_open = lambda *parts: it.file(cluster=opened(Id.CLUSTER, *it.blocks(), *parts))
    return {
        "a Cluster of 2^56 - 2 bytes": it.file(cluster=huge(Id.CLUSTER)),
        "a Cluster of unknown size in a Cluster": after(*opened(Id.CLUSTER)),
        "a Void of unknown size in a Cluster of unknown size": in_open(opened(Id.VOID)),
        "a BlockGroup of unknown size in a Cluster of unknown size": in_open(opened(Id.BLOCK_GROUP)),
        "Tags of unknown size after a Cluster of unknown size": in_open(opened(Id.TAGS)),
        "a block that passes the end of a Cluster of unknown size": in_open(huge(Id.SIMPLE_BLOCK)),
        "a Timestamp of 9 bytes": it.file(cluster=it.cluster(long_number(Id.TIMESTAMP))),
        "a Timestamp of 9 bytes behind the first": after(*long_number(Id.TIMESTAMP)),
        "a Timestamp of unknown size": after(*opened(Id.TIMESTAMP)),
        "a BlockGroup of unknown size": after(*opened(Id.BLOCK_GROUP, element(Id.BLOCK, it.contents()[2]))),
        "a BlockGroup of 2^56 - 2 bytes": after(*huge(Id.BLOCK_GROUP)),
        "half a header in a BlockGroup": group([b"\xa1"]),
        "a Block of unknown size": group(opened(Id.BLOCK, it.contents()[2])),
        "a Block of 2^56 - 2 bytes": group(huge(Id.BLOCK)),
        "a Block of 3 bytes": group(element(Id.BLOCK, [b"\x81\0\0"])),
        "a block of no bytes": block(b""),
        "a block of 3 bytes": block(b"\x81\0\0"),
        "a block of 4 bytes whose track number has 2": block(b"\x40\x01\0\0"),
        "a block of another track, of 3 bytes": block(b"\x82\0\0"),
        "a block whose track number is unknown": block(b"\xff\0\0\x80any"),
        "a block whose track number is unknown, in 8 bytes": block(UNKNOWN + b"\0\0\x80any"),
        "a block whose track number is bad": block(b"\0\0\0\0\0\0\0\0\0\0\0\x80any"),
        "a block whose track number passes its end": block(b"\x01\0\0\0\0"),
        "a block of 2^56 - 2 bytes": after(*huge(Id.SIMPLE_BLOCK)),
        "a block of unknown size": after(*opened(Id.SIMPLE_BLOCK, it.contents()[2])),
    }


def other_doc_types(it: Builder) -> Dict[str, bytes]:
    head = lambda *texts: it.file(head=master(Id.EBML, *(element(Id.DOC_TYPE, [text]) for text in texts)))
    return {
        "DocType webm": head(b"webm"),
        "another DocType before it": head(b"webm", b"matroska"),
        "no DocType": head(),
        "a DocType of no bytes": head(b""),
        "a DocType that is a front of it": head(b"matrosk"),
        "a DocType with more after it": head(b"matroska2"),
        "a zero byte before the DocType": head(b"\0matroska"),
        "a DocType in other letters": head(b"Matroska"),
    }


def no_tracks(it: Builder) -> Dict[str, bytes]:
    return {
        "no Segment": it.of(),
        "Void in the place of the Segment": it.of(void(100)),
        "Tracks beside the Segment": it.of(it.tracks(), it.cluster()),
        "no Tracks": it.file(tracks=[]),
        "no TrackEntry": it.file(tracks=master(Id.TRACKS)),
        "an empty Tracks before the Tracks": it.file(after=[it.tracks()], tracks=master(Id.TRACKS)),
        "Tracks in a second Segment": it.of(it.segment(it.cluster()), it.segment(it.tracks())),
        "a sound track": it.file(it.tracks(kind=unsigned(Id.TRACK_TYPE, mkv.AUDIO_TRACK))),
        "no TrackType": it.file(it.tracks(kind=[])),
        "a TrackType of 257": it.file(it.tracks(kind=unsigned(Id.TRACK_TYPE, 257))),
        "a TrackType of 2^32 + 1": it.file(it.tracks(kind=unsigned(Id.TRACK_TYPE, (1 << 32) + 1))),
    }


def other_codecs(it: Builder) -> Dict[str, bytes]:
    codec = lambda *names: it.file(it.tracks(codec=[piece for name in names for piece in element(Id.CODEC_ID, [name])]))
    n = 40 + len(it.record)
    as_sound = it.entry(number=unsigned(Id.TRACK_NUMBER, 2), kind=unsigned(Id.TRACK_TYPE, mkv.AUDIO_TRACK))
    avc = it.other(1, mkv.VIDEO_TRACK, b"V_MPEG4/ISO/AVC")
    return {
        "an H.264 track": codec(b"V_MPEG4/ISO/AVC"),
        "a CodecID with more after it": codec(b"V_FFV10"),
        "a CodecID that is a front of it": codec(b"V_FFV"),
        "a CodecID in other letters": codec(b"v_ffv1"),
        "another CodecID before it": codec(b"V_VP9", b"V_FFV1"),
        "no CodecID": codec(),
        "a sound track with the codec V_FFV1": it.file(master(Id.TRACKS, avc, as_sound)),
        "FOURCC without a CodecPrivate": it.file(it.fourcc([])),
        "FOURCC with a record alone": it.file(it.fourcc(element(Id.CODEC_PRIVATE, [it.record]))),
        "FOURCC with a bitmap header of 39 bytes": it.file(
            it.fourcc(element(Id.CODEC_PRIVATE, [bytes(16) + b"FFV1" + bytes(19)]))
        ),
        "FOURCC of H.264": it.file(it.fourcc(bitmap(n, it.record, b"H264"))),
        "FOURCC in other letters": it.file(it.fourcc(bitmap(n, it.record, b"ffv1"))),
    }


def without_record(it: Builder) -> Dict[str, bytes]:
    none = element(Id.CODEC_PRIVATE, [])
    second = it.entry(number=unsigned(Id.TRACK_NUMBER, 2))
    return {
        "no CodecPrivate": it.file(it.tracks(private=[])),
        "a CodecPrivate of no bytes": it.file(it.tracks(private=none)),
        "an empty CodecPrivate before it": it.file(it.tracks(private=none + element(Id.CODEC_PRIVATE, [it.record]))),
        "no CodecPrivate, and a second FFV1 track": it.file(master(Id.TRACKS, it.entry(private=[]), second)),
        "FOURCC with a bitmap header alone": it.file(it.fourcc(bitmap(40, b""))),
        "FOURCC with a bitmap header alone, biSize past the end": it.file(it.fourcc(bitmap(60, b""))),
    }


def encoded(it: Builder) -> Dict[str, bytes]:
    encodings = element(Id.CONTENT_ENCODINGS, [])
    second = it.entry(number=unsigned(Id.TRACK_NUMBER, 2))
    return {
        "ContentEncodings": it.file(it.tracks(extra=[element(Id.CONTENT_ENCODINGS, [b"any"])])),
        "empty ContentEncodings": it.file(it.tracks(extra=[encodings])),
        "ContentEncodings, and a second FFV1 track": it.file(master(Id.TRACKS, it.entry(extra=[encodings]), second)),
    }


def out_of_limits(it: Builder) -> Dict[str, bytes]:
    video = lambda **parts: it.file(it.tracks(video=it.video(**parts)))
    width = lambda value: video(width=unsigned(Id.PIXEL_WIDTH, value))
    height = lambda value: video(height=unsigned(Id.PIXEL_HEIGHT, value))
    private = lambda size: element(Id.CODEC_PRIVATE, [bytes(size)])
    any_frame = simple_block(1, 80, b"any")
    return {
        "no Video": it.file(it.tracks(video=[])),
        "an empty Video before it": it.file(it.tracks(video=master(Id.VIDEO) + it.video())),
        "no PixelWidth": video(width=[]),
        "no PixelHeight": video(height=[]),
        "a PixelWidth of 0": width(0),
        "a PixelWidth of 8,193": width(8193),
        "a PixelWidth of 2^32 + 64": width((1 << 32) + 64),
        "a PixelHeight of 0": height(0),
        "a PixelHeight of 8,193": height(8193),
        "a PixelHeight of 2^64 - 1": height((1 << 64) - 1),
        "a PixelHeight of no bytes": video(height=element(Id.PIXEL_HEIGHT, [])),
        "a record of 65,537 bytes": it.file(it.tracks(private=private(MOST_RECORD_BYTES + 1))),
        "a FOURCC record of 65,537 bytes": it.file(it.fourcc(bitmap(40, bytes(MOST_RECORD_BYTES + 1)))),
        "a million frames and one": it.file(cluster=it.cluster(after=[any_frame * (MOST_FRAMES - 2)])),
    }


def laced(it: Builder) -> Dict[str, bytes]:
    one, two, three = it.blocks()
    lace = lambda number, flags, time: simple_block(1, time, it.packets[number], flags)
    group = master(Id.BLOCK_GROUP, element(Id.BLOCK, [b"\x81\0\x50\x02", it.packets[2]]))
    return {
        **{f"the flags {flags:02X}": it.with_blocks(one, two, lace(2, flags, 80)) for flags in (2, 4, 6, 0x86)},
        "laced blocks": it.file(cluster=it.cluster(blocks=it.blocks(flags=KEY | 0x02))),
        "a laced Block in a BlockGroup": it.with_blocks(one, two, group),
        "a laced block without a packet": it.with_blocks(one, two, three, simple_block(1, 80, b"", 0x04)),
        "a laced block whose time falls": it.with_blocks(one, two, lace(2, 0x82, 39)),
        "a laced block before one whose time falls": it.with_blocks(one, lace(1, 0x82, 40), lace(2, KEY, 39)),
    }


def out_of_order(it: Builder) -> Dict[str, bytes]:
    one, two, three = it.blocks()
    at = lambda number, time, flags=KEY: simple_block(1, time, it.packets[number], flags)
    stamp = lambda value: unsigned(Id.TIMESTAMP, value)
    second = lambda timestamp, block: it.file(cluster=it.cluster(blocks=[one, two]), after=[it.cluster(timestamp, [block])])
    group = master(Id.BLOCK_GROUP, element(Id.BLOCK, [b"\x81\0\x27\0", it.packets[2]]))
    return {
        "times that fall": it.file(cluster=it.cluster(blocks=it.blocks(times=(0, 40, 39)))),
        "a time that falls from a Cluster to the next": second(stamp(39), at(2, 0)),
        "a time that falls before its Cluster's": second(stamp(80), at(2, -41)),
        "a time that falls for want of a Timestamp": second([], at(2, 39)),
        "a time that falls by 2^63": it.file(
            cluster=it.cluster(stamp(1 << 63), [one, two]), after=[it.cluster(stamp(80), [three])]
        ),
        "a time that falls from the last one that there is": it.file(
            cluster=it.cluster(stamp((1 << 64) - 1), [one, two]), after=[it.cluster(stamp(0), [three])]
        ),
        "a time that falls in a BlockGroup": it.with_blocks(one, two, group),
        "a time that falls behind another track's block": it.with_blocks(one, two, simple_block(2, 0, b"any"), at(2, 39)),
        "a time that falls before a laced block": it.with_blocks(two, at(0, 39), at(2, 80, 0x82)),
        "a time that falls behind its first two": it.with_blocks(one, two, three, at(0, 79)),
    }


def no_frames(it: Builder) -> Dict[str, bytes]:
    number = lambda pieces: it.file(it.tracks(number=pieces))
    return {
        "no Cluster": it.file(cluster=[]),
        "no blocks": it.file(cluster=it.cluster(blocks=[])),
        "blocks of another track alone": it.file(cluster=it.cluster(blocks=it.blocks(track=2))),
        "blocks beside the Clusters alone": it.of(it.segment(it.tracks(), *it.blocks())),
        "Clusters in a second Segment": it.of(it.segment(it.tracks()), it.segment(it.cluster())),
        "no TrackNumber": number([]),
        "another TrackNumber before it": number(unsigned(Id.TRACK_NUMBER, 2) + unsigned(Id.TRACK_NUMBER, 1)),
        "track number 2^56": number(unsigned(Id.TRACK_NUMBER, 1 << 56)),
        "track number 2^56 + 1": number(unsigned(Id.TRACK_NUMBER, (1 << 56) + 1)),
        "a million Clusters without blocks": it.file(cluster=[(big_endian(Id.CLUSTER) + b"\x80") * 1_000_000]),
    }


def two_faults(it: Builder) -> Dict[str, Dict[str, bytes]]:
    """Files with two faults, under the one that comes first."""
    webm, end = ebml_head(b"webm"), [b"\0"]
    avc = it.tracks(codec=element(Id.CODEC_ID, [b"V_MPEG4/ISO/AVC"]), video=[])
    bare = it.tracks(private=[], video=[], extra=[element(Id.CONTENT_ENCODINGS, [])])
    encoded_small = it.tracks(video=[], extra=[element(Id.CONTENT_ENCODINGS, [])])
    fall = it.cluster(blocks=it.blocks(times=(80, 40, 0), flags=0x06))
    return {
        "Ebml": {
            "a faulty end and DocType webm": it.file(head=webm, after=[end]),
            "a faulty end and no Tracks": it.file(tracks=[], after=[end]),
            "a faulty end and H.264": it.file(avc, after=[end]),
            "a faulty end and laced blocks": it.file(cluster=fall, after=[end]),
        },
        "DocType": {"DocType webm and no Segment": b"".join(webm), "DocType webm and H.264": it.file(avc, head=webm)},
        "NoTrack": {"no Tracks and no frames": it.file(tracks=[], cluster=[])},
        "Codec": {"H.264 and no Video": it.file(avc), "H.264 and laced blocks": it.file(avc, fall)},
        "NoPrivate": {"no record, ContentEncodings and no Video": it.file(bare)},
        "Encoded": {"ContentEncodings and no Video": it.file(encoded_small)},
        "Limit": {
            "no Video and laced blocks": it.file(it.tracks(video=[]), fall),
            "no Video and no frames": it.file(it.tracks(video=[]), []),
        },
    }


def refused_files(clip: Clip) -> Dict[str, Dict[str, bytes]]:
    """Each fault's name, and the files that have it first."""
    it = Builder(clip)
    alone = {
        "Ebml": {**bad_elements(it), **bad_tracks(it), **bad_clusters(it)},
        "DocType": other_doc_types(it),
        "NoTrack": no_tracks(it),
        "Codec": other_codecs(it),
        "NoPrivate": without_record(it),
        "Encoded": encoded(it),
        "Limit": out_of_limits(it),
        "Laced": laced(it),
        "TimeOrder": out_of_order(it),
        "NoFrames": no_frames(it),
    }
    beside = two_faults(it)
    return {kind: {**files, **beside.get(kind, {})} for kind, files in alone.items()}


def cuts(data: bytes) -> Dict[str, bytes]:
    """A file of known size cut at a few dozen places behind its EBML header, all of them `Ebml`."""
    near = [41, 44, 45, 48, 50, 52, 55, 58, 60, 70, 90, 94, 100, 110, 120, 150]
    far = [len(data) * part // 16 for part in range(4, 16)]
    late = [len(data) - part for part in (64, 9, 8, 3, 2, 1)]
    return {f"cut at byte {at}": data[:at] for at in sorted({*near, *far, *late}) if at < len(data)}
