"""The file that an export must be, byte for byte: docs/FORMATS.md "The written file", computed here anew."""

from typing import List

from mkv import FRAMES_A_CLUSTER, MILLISECOND, Id, big_endian, ebml_head, element, info, master, unsigned

UNKNOWN_SIZE = b"\x01" + b"\xff" * 7


def block_time(frame: int, rate: int) -> int:
    """The time of a frame in milliseconds, rounded to the nearest, halves up."""
    return (1000 * frame + rate // 2) // rate


def tracks(record: bytes, width: int, height: int):
    size = master(
        Id.VIDEO,
        element(Id.PIXEL_WIDTH, [big_endian(width, 2)]),
        element(Id.PIXEL_HEIGHT, [big_endian(height, 2)]),
    )
    entry = master(
        Id.TRACK_ENTRY,
        unsigned(Id.TRACK_NUMBER, 1),
        unsigned(Id.TRACK_UID, 1),
        unsigned(Id.TRACK_TYPE, 1),
        unsigned(Id.FLAG_LACING, 0),
        element(Id.CODEC_ID, [b"V_FFV1"]),
        element(Id.CODEC_PRIVATE, [record], width=4),
        size,
        width=4,
    )
    return master(Id.TRACKS, entry, width=4)


def cluster(packets: List[bytes], start: int, rate: int):
    """The Cluster of some packets, the first of which is frame `start`."""
    begin = block_time(start, rate)
    blocks = []
    for count, packet in enumerate(packets):
        time = block_time(start + count, rate) - begin
        blocks.append(element(Id.SIMPLE_BLOCK, [b"\x81" + big_endian(time, 2) + b"\x80", packet], width=8))
    return master(Id.CLUSTER, element(Id.TIMESTAMP, [big_endian(begin, 8)]), *blocks, width=8)


def cue(time: int, place: int):
    """A CuePoint: a Cluster's time, and its place counted from the first byte of the Segment's content."""
    positions = master(
        Id.CUE_TRACK_POSITIONS,
        unsigned(Id.CUE_TRACK, 1),
        element(Id.CUE_CLUSTER_POSITION, [big_endian(place, 8)]),
    )
    return master(Id.CUE_POINT, element(Id.CUE_TIME, [big_endian(time, 8)]), positions)


def written_file(record: bytes, width: int, height: int, rate: int, packets: List[bytes]) -> bytes:
    head = b"".join(ebml_head()) + big_endian(Id.SEGMENT) + UNKNOWN_SIZE
    content = b"".join(info(MILLISECOND) + tracks(record, width, height))
    clusters, cues = [], []
    place = len(content)
    for start in range(0, len(packets), FRAMES_A_CLUSTER):
        piece = b"".join(cluster(packets[start : start + FRAMES_A_CLUSTER], start, rate))
        cues.append(cue(block_time(start, rate), place))
        clusters.append(piece)
        place += len(piece)
    return head + content + b"".join(clusters) + b"".join(master(Id.CUES, *cues, width=8))
