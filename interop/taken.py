"""Odd files that have a clip: each is cut like the file of which it is a small change.

Record, packets and size are those of that file, by the rules of docs/FORMATS.md "The file that is read".
"""

from typing import Dict, Tuple

import mkv
from mkv import KEY, TOP_LEVEL, Id, big_endian, ebml_head, element, master, simple_block, unsigned
from reader import MOST_FRAMES, MOST_RECORD_BYTES, Clip
from variants import HUGE, Builder, bitmap, huge, long_number, opened, void


def taken_elements(it: Builder) -> Dict[str, bytes]:
    """What a file may have beside and between the elements that are read."""
    spread = [part for block in it.blocks() for part in (void(), block, element(Id.CRC_32, [bytes(4)]))]
    whole = it.segment(it.tracks(), it.cluster())
    doc_types = lambda *texts: master(Id.EBML, *(element(Id.DOC_TYPE, [text]) for text in texts))
    nested = element(Id.BLOCK_GROUP, [])
    for _ in range(5000):
        nested = [b"".join(element(Id.BLOCK_GROUP, nested))]
    return {
        "as it is": it.file(),
        "each size and number in 8 bytes": it.wide(),
        "no Info": it.of(whole),
        "Void and CRC-32 between the elements": it.file(
            it.tracks(extra=[void()]), it.cluster(blocks=spread, before=[void(0)]), after=[void(200)]
        ),
        "a Void with its size in 1 to 8 bytes": it.file(
            after=[element(Id.VOID, [b"\xff\xff"], width=width) for width in range(1, 9)]
        ),
        "an unknown element of known size": it.file(it.tracks(extra=[element(0x4FFF, [b"any"])])),
        "an element between EBML and Segment": it.of(void(), whole),
        "Tags that hold no elements": it.file(after=[element(Id.TAGS, [b"\x80\x80"])]),
        "another DocType behind the first": it.file(head=doc_types(b"matroska", b"webm")),
        "another EBML behind the first": it.of(ebml_head(b"webm"), whole),
        "a DocType with zero bytes after it": it.file(head=ebml_head(b"matroska\0\0")),
        "two Segments": it.of(whole, it.segment(it.tracks(), it.cluster(blocks=it.blocks()[1:]))),
        "an element after the Segment": it.of(whole, void()),
        "a byte after the Segment": it.of(whole, [b"\0"]),
        "a huge element after the Segment": it.of(whole, huge(Id.CLUSTER)),
        "BlockGroups in one another": it.with_blocks(*it.blocks(), nested),
        "a million Voids": it.file(after=[[b"\xec\x80" * 1_000_000]]),
    }


def taken_tracks(it: Builder) -> Dict[str, bytes]:
    """Other tracks beside the clip's."""
    tracks = lambda *entries: it.file(master(Id.TRACKS, *entries))
    sound, avc = it.other(2, mkv.AUDIO_TRACK, b"A_PCM/INT/LIT"), it.other(2, mkv.VIDEO_TRACK, b"V_MPEG4/ISO/AVC")
    vfw = it.other(2, mkv.VIDEO_TRACK, b"V_MS/VFW/FOURCC")
    as_sound = it.entry(number=unsigned(Id.TRACK_NUMBER, 2), kind=unsigned(Id.TRACK_TYPE, mkv.AUDIO_TRACK))
    second = it.entry(number=unsigned(Id.TRACK_NUMBER, 2), video=it.video(width=unsigned(Id.PIXEL_WIDTH, 0)))
    encoded = it.entry(extra=[element(Id.CONTENT_ENCODINGS, [])])
    from_second = [part for pair in zip(it.blocks((9, 3, 1), 2, KEY | 6), it.blocks()) for part in pair]
    return {
        "two Tracks": it.file(it.tracks(), after=[master(Id.TRACKS, second)]),
        "Tracks after the Clusters": it.of(it.segment(it.cluster(), it.tracks())),
        "a sound track after it": tracks(it.entry(), sound),
        "a sound track before it": tracks(sound, it.entry()),
        "a sound track with the codec V_FFV1 before it": tracks(as_sound, it.entry()),
        "an H.264 track before it": tracks(avc, it.entry()),
        "a hundred thousand sound tracks before it": tracks([b"".join(sound) * 100_000], it.entry()),
        "a FOURCC track without a bitmap before it": tracks(vfw, it.entry()),
        "a second FFV1 track without a width": tracks(it.entry(), second),
        "a second FFV1 track with blocks": it.file(master(Id.TRACKS, it.entry(), second), it.cluster(blocks=from_second)),
        "a second FFV1 track with ContentEncodings": tracks(it.entry(), encoded),
    }


def taken_entries(it: Builder) -> Dict[str, bytes]:
    """The parts of the clip's TrackEntry: in other spellings, missing, and more than once."""
    number = lambda value: it.tracks(number=unsigned(Id.TRACK_NUMBER, value))
    return {
        "track number 127": it.file(number(127), it.cluster(blocks=it.blocks(track=127))),
        "track number 2^56 - 2": it.file(number(HUGE), it.cluster(blocks=it.blocks(track=HUGE))),
        "no TrackNumber, and blocks of track 0": it.file(it.tracks(number=[]), it.cluster(blocks=it.blocks(track=0))),
        "a TrackNumber of no bytes": it.file(
            it.tracks(number=element(Id.TRACK_NUMBER, [])), it.cluster(blocks=it.blocks(track=0))
        ),
        "another TrackNumber behind the first": it.file(
            it.tracks(number=unsigned(Id.TRACK_NUMBER, 1) + unsigned(Id.TRACK_NUMBER, 2))
        ),
        "another TrackType behind the first": it.file(
            it.tracks(kind=unsigned(Id.TRACK_TYPE, mkv.VIDEO_TRACK) + unsigned(Id.TRACK_TYPE, mkv.AUDIO_TRACK))
        ),
        "another CodecID behind the first": it.file(
            it.tracks(codec=element(Id.CODEC_ID, [b"V_FFV1"]) + element(Id.CODEC_ID, [b"V_VP9"]))
        ),
        "another CodecPrivate behind the first": it.file(it.tracks(extra=[element(Id.CODEC_PRIVATE, [])])),
        "another Video behind the first": it.file(it.tracks(extra=[it.video(width=[])])),
        "other sizes behind the first": it.file(
            it.tracks(video=it.video(extra=[unsigned(Id.PIXEL_HEIGHT, 0), unsigned(Id.PIXEL_WIDTH, 9000)]))
        ),
        "a CodecID with zero bytes after it": it.file(it.tracks(codec=element(Id.CODEC_ID, [b"V_FFV1\0\0V"]))),
        "a number of 9 bytes where none is read": it.file(
            it.tracks(video=it.video(extra=[long_number(Id.TRACK_NUMBER)]), extra=[long_number(Id.PIXEL_WIDTH)]),
            after=[long_number(Id.TIMESTAMP)],
        ),
    }


def taken_bitmaps(it: Builder) -> Dict[str, bytes]:
    n, pad = 40 + len(it.record), b"\0\xff\xff"
    return {
        "FOURCC, biSize at the end": it.file(it.fourcc(bitmap(n, it.record))),
        "FOURCC, biSize before the end": it.file(it.fourcc(bitmap(n, it.record + pad))),
        "FOURCC, biSize past the end": it.file(it.fourcc(bitmap(n + 1, it.record))),
        "FOURCC, biSize 2^32 - 1": it.file(it.fourcc(bitmap(0xFFFFFFFF, it.record))),
        "FOURCC, biSize 40": it.file(it.fourcc(bitmap(40, it.record))),
        "FOURCC, biSize 0": it.file(it.fourcc(bitmap(0, it.record))),
    }


def taken_clusters(it: Builder) -> Dict[str, bytes]:
    """Blocks in Clusters of known size."""
    one, two, three = it.blocks()
    stamp = lambda value: unsigned(Id.TIMESTAMP, value)
    stamped = lambda timestamp, *blocks: it.cluster(timestamp, blocks)
    clusters = lambda *given: it.of(it.segment(it.tracks(), *given))
    any_frame = simple_block(1, 80, b"any")
    groups, contents = it.groups(), it.contents()
    both = master(Id.BLOCK_GROUP, *(element(Id.BLOCK, content) for content in contents[1:]))
    stray = element(Id.BLOCK, contents[2])
    wide_track = [element(Id.SIMPLE_BLOCK, [b"\x01" + bytes(6) + b"\x01" + head[1:], packet]) for head, packet in contents]
    return {
        "a frame a Cluster": clusters(*(it.cluster(blocks=[block]) for block in it.blocks())),
        "a Cluster without blocks": it.file(after=[stamped(stamp(120))]),
        "no key flags": it.file(cluster=it.cluster(blocks=it.blocks(flags=0))),
        "all flags but those of lacing": it.file(cluster=it.cluster(blocks=it.blocks(flags=0xF9))),
        "a block's track number in 8 bytes": it.with_blocks(*wide_track),
        "BlockGroups": it.with_blocks(*groups),
        "SimpleBlocks and BlockGroups": it.with_blocks(one, groups[1], three),
        "a BlockGroup with two Blocks": it.with_blocks(one, both),
        "a BlockGroup without a Block": it.with_blocks(one, element(Id.BLOCK_GROUP, []), two, three),
        "a Block outside a BlockGroup": it.with_blocks(one, stray, element(Id.BLOCK, []), two, three),
        "a SimpleBlock in a BlockGroup": it.with_blocks(one, master(Id.BLOCK_GROUP, three), two, three),
        "an empty SimpleBlock in a BlockGroup": it.with_blocks(
            one, master(Id.BLOCK_GROUP, element(Id.SIMPLE_BLOCK, [])), two, three
        ),
        "a BlockGroup in a BlockGroup": it.with_blocks(one, master(Id.BLOCK_GROUP, groups[2]), two, three),
        "a Cluster in a Cluster": it.with_blocks(one, stamped(stamp(0), three), two, three),
        "blocks beside the Clusters": it.of(it.segment(it.tracks(), three, groups[2], it.cluster())),
        "a block of another track": it.with_blocks(one, simple_block(2, 100, b"any"), two, three),
        "a laced block of another track": it.with_blocks(one, simple_block(2, 0, b"any", 0x06), two, three),
        "a block of another track without a packet": it.with_blocks(one, simple_block(0x4000, 0, b""), two, three),
        "a million more Clusters": it.file(after=[[(big_endian(Id.CLUSTER) + b"\x80") * 1_000_000]]),
        "a million more Clusters of unknown size": it.file(after=[[(big_endian(Id.CLUSTER) + b"\xff") * 1_000_000]]),
        "a million frames, and then their Timestamp": it.file(
            cluster=it.cluster([], it.blocks(), after=[any_frame * (MOST_FRAMES - 3), stamp(1)])
        ),
    }


def taken_times(it: Builder) -> Dict[str, bytes]:
    """Timestamps and times that don't fall."""
    at = lambda number, time: simple_block(1, time, it.packets[number])
    stamp = lambda value: unsigned(Id.TIMESTAMP, value)
    stamped = lambda timestamp, *blocks: it.cluster(timestamp, blocks)
    clusters = lambda *given: it.of(it.segment(it.tracks(), *given))
    front = stamped(stamp(0), *it.blocks()[:2])
    return {
        "no Timestamp": it.file(cluster=it.cluster(timestamp=[])),
        "a Timestamp of no bytes": it.file(cluster=it.cluster(element(Id.TIMESTAMP, []))),
        "a Timestamp after its blocks": clusters(front, it.cluster([], [at(2, 0)], after=[stamp(80)])),
        "another Timestamp behind the first": clusters(front, stamped(stamp(80) + stamp(0), at(2, 0))),
        "times before their Cluster's": clusters(stamped(stamp(80), at(0, -80), at(1, -40), at(2, 0))),
        "the last times that there are": clusters(stamped(stamp((1 << 64) - 1), at(0, -1), at(1, 0), at(2, 0x7FFF))),
        "times below 0": clusters(stamped(stamp(0), at(0, -0x8000), at(1, -1), at(2, 0))),
        "a Cluster that begins after its first block": clusters(front, stamped(stamp(1000), at(2, -960))),
        "equal times": it.file(cluster=it.cluster(blocks=it.blocks(times=(7, 7, 7)))),
    }


def taken_unknown_sizes(it: Builder) -> Dict[str, bytes]:
    """Unknown sizes of Segments and Clusters. Where a Cluster ends, a block of its Segment's follows, which isn't read."""
    one, two, three = it.blocks()
    stamp, groups, crc = unsigned(Id.TIMESTAMP, 0), it.groups(), element(Id.CRC_32, [bytes(4)])
    rest = it.cluster(blocks=[two, three])
    ends = lambda name: it.file(cluster=opened(Id.CLUSTER, stamp, one), after=[element(name, []), three, rest])
    return {
        "a Segment of unknown size": it.of(opened(Id.SEGMENT, it.tracks(), it.cluster())),
        "a Segment of unknown size, and a Segment in it": it.of(
            opened(Id.SEGMENT, it.tracks(), it.segment(three), it.cluster())
        ),
        "a Segment and a Cluster of unknown size": it.of(
            opened(Id.SEGMENT, it.tracks(), opened(Id.CLUSTER, stamp, *it.blocks()))
        ),
        "Clusters of unknown size, a frame each": it.file(
            cluster=[], after=[opened(Id.CLUSTER, stamp, block) for block in it.blocks()]
        ),
        "a Cluster of unknown size that ends with its Segment": it.of(
            it.segment(it.tracks(), opened(Id.CLUSTER, stamp, *it.blocks())), three
        ),
        "Void, CRC-32 and an unknown element in a Cluster of unknown size": it.file(
            cluster=opened(Id.CLUSTER, void(), stamp, one, void(0), two, crc, element(0x4FFF, [b"any"]), three)
        ),
        "BlockGroups in a Cluster of unknown size": it.file(cluster=opened(Id.CLUSTER, *groups, stamp)),
        "a million BlockGroups in a Cluster of unknown size": it.file(
            cluster=opened(Id.CLUSTER, [b"\xa0\x80" * 1_000_000], *it.blocks())
        ),
        "an EBML in a Cluster of unknown size": it.file(cluster=opened(Id.CLUSTER, one, ebml_head(), two, three)),
        **{
            f"a Cluster of unknown size, spelled in {width} bytes": it.file(
                cluster=opened(Id.CLUSTER, *it.blocks(), size=((2 << 7 * width) - 1).to_bytes(width, "big"))
            )
            for width in range(1, 9)
        },
        **{f"a Cluster of unknown size that ends before {Id(name).name}": ends(name) for name in sorted(TOP_LEVEL)},
    }


def taken_files(clip: Clip) -> Dict[str, bytes]:
    it = Builder(clip)
    tracks = {**taken_tracks(it), **taken_entries(it), **taken_bitmaps(it)}
    clusters = {**taken_clusters(it), **taken_times(it), **taken_unknown_sizes(it)}
    return {**taken_elements(it), **tracks, **clusters}


def parity(data: bytes) -> bytes:
    """The remainder of the bytes followed by 32 zero bits by the polynomial 04C11DB7 (RFC 9043 section 4.9.3)."""
    left = 0
    for byte in data:
        left ^= byte << 24
        for _ in range(8):
            left = (left << 1) ^ (0x104C11DB7 if left >> 31 else 0)
    return big_endian(left, 4)


def other_records(clip: Clip) -> Dict[str, Tuple[bytes, bytes]]:
    """Files with another record than the clip's, and that record: zero bytes at its end don't change what it says."""
    it = Builder(clip)
    padded = it.record[:-4] + bytes(MOST_RECORD_BYTES - len(it.record))
    longest = padded + parity(padded)
    zero = it.record + b"\0"
    n = 40 + len(zero)
    return {
        "a record of 65,536 bytes": (it.file(it.tracks(private=element(Id.CODEC_PRIVATE, [longest]))), longest),
        "FOURCC, a record of 65,536 bytes": (it.file(it.fourcc(bitmap(40, longest))), longest),
        "FOURCC, a zero byte behind the record, biSize 40": (it.file(it.fourcc(bitmap(40, zero))), zero),
        "FOURCC, a zero byte behind the record, biSize 40 and n": (it.file(it.fourcc(bitmap(n, zero))), zero),
    }
