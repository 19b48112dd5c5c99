"""Matroska as the scripts here write it: the ids of elements, and elements and small files built of them.

Elements are RFC 8794's, their meanings RFC 9559's. Independent of the program: nothing here is taken from it.
An element is a list of pieces, so that packets are never copied.
"""

from enum import IntEnum
from typing import Iterable, List, Tuple


class Id(IntEnum):
    """The elements' ids, with the marker of their length, under the names of RFC 8794 section 11 and RFC 9559 section 5."""

    EBML = 0x1A45DFA3
    EBML_VERSION = 0x4286
    EBML_READ_VERSION = 0x42F7
    EBML_MAX_ID_LENGTH = 0x42F2
    EBML_MAX_SIZE_LENGTH = 0x42F3
    DOC_TYPE = 0x4282
    DOC_TYPE_VERSION = 0x4287
    DOC_TYPE_READ_VERSION = 0x4285
    VOID = 0xEC
    CRC_32 = 0xBF
    SEGMENT = 0x18538067
    SEEK_HEAD = 0x114D9B74
    INFO = 0x1549A966
    TRACKS = 0x1654AE6B
    CLUSTER = 0x1F43B675
    CUES = 0x1C53BB6B
    CHAPTERS = 0x1043A770
    ATTACHMENTS = 0x1941A469
    TAGS = 0x1254C367
    TIMESTAMP_SCALE = 0x2AD7B1
    MUXING_APP = 0x4D80
    WRITING_APP = 0x5741
    TRACK_ENTRY = 0xAE
    TRACK_NUMBER = 0xD7
    TRACK_UID = 0x73C5
    TRACK_TYPE = 0x83
    FLAG_LACING = 0x9C
    CODEC_ID = 0x86
    CODEC_PRIVATE = 0x63A2
    CONTENT_ENCODINGS = 0x6D80
    CONTENT_ENCODING = 0x6240
    CONTENT_COMPRESSION = 0x5034
    CONTENT_COMP_ALGO = 0x4254
    CONTENT_COMP_SETTINGS = 0x4255
    VIDEO = 0xE0
    PIXEL_WIDTH = 0xB0
    PIXEL_HEIGHT = 0xBA
    TIMESTAMP = 0xE7
    SIMPLE_BLOCK = 0xA3
    BLOCK_GROUP = 0xA0
    BLOCK = 0xA1
    REFERENCE_BLOCK = 0xFB
    CUE_POINT = 0xBB
    CUE_TIME = 0xB3
    CUE_TRACK_POSITIONS = 0xB7
    CUE_TRACK = 0xF7
    CUE_CLUSTER_POSITION = 0xF1


# A Cluster of unknown size ends before each of these.
TOP_LEVEL = frozenset(
    [Id.SEEK_HEAD, Id.INFO, Id.TRACKS, Id.CLUSTER, Id.CUES, Id.CHAPTERS, Id.ATTACHMENTS, Id.TAGS]
)

VIDEO_TRACK = 1
AUDIO_TRACK = 2
KEY, LACING = 0x80, 0x06
FRAMES_A_CLUSTER = 25
MILLISECOND = 1_000_000

Pieces = List[bytes]


def big_endian(value: int, width: int = 0) -> bytes:
    """A big-endian number, in its shortest form (of one byte at least) where no width is given."""
    return value.to_bytes(width or max(1, (value.bit_length() + 7) // 8), "big")


def size_bytes(size: int, width: int = 0) -> bytes:
    """A size in its shortest spelling where no width is given. All ones would mean unknown."""
    width = width or next(it for it in range(1, 9) if size < (1 << 7 * it) - 1)
    return (size + (1 << 7 * width)).to_bytes(width, "big")


def element(element_id: int, content: Iterable[bytes], width: int = 0) -> Pieces:
    """An element with that content, its size in `width` bytes."""
    content = list(content)
    return [big_endian(element_id) + size_bytes(sum(map(len, content)), width), *content]


def master(element_id: int, *parts: Pieces, width: int = 0) -> Pieces:
    return element(element_id, [piece for part in parts for piece in part], width)


def unsigned(element_id: int, value: int) -> Pieces:
    return element(element_id, [big_endian(value)])


def simple_block(track: int, time: int, packet: bytes, flags: int = KEY) -> Pieces:
    """A SimpleBlock, its time counted from its Cluster's."""
    return element(Id.SIMPLE_BLOCK, [size_bytes(track) + time.to_bytes(2, "big", signed=True) + bytes([flags]), packet])


def ebml_head(doc_type: bytes = b"matroska") -> Pieces:
    """The EBML header (RFC 8794 section 11.2)."""
    return master(
        Id.EBML,
        unsigned(Id.EBML_VERSION, 1),
        unsigned(Id.EBML_READ_VERSION, 1),
        unsigned(Id.EBML_MAX_ID_LENGTH, 4),
        unsigned(Id.EBML_MAX_SIZE_LENGTH, 8),
        element(Id.DOC_TYPE, [doc_type]),
        unsigned(Id.DOC_TYPE_VERSION, 4),
        unsigned(Id.DOC_TYPE_READ_VERSION, 2),
    )


def info(scale: int) -> Pieces:
    name = b"ffv1-timeline"
    return master(
        Id.INFO,
        unsigned(Id.TIMESTAMP_SCALE, scale),
        element(Id.MUXING_APP, [name]),
        element(Id.WRITING_APP, [name]),
    )


def video(width: int, height: int) -> Pieces:
    return master(Id.VIDEO, unsigned(Id.PIXEL_WIDTH, width), unsigned(Id.PIXEL_HEIGHT, height))


def track_entry(record: bytes, width: int, height: int, *more: Pieces) -> Pieces:
    return master(
        Id.TRACK_ENTRY,
        unsigned(Id.TRACK_NUMBER, 1),
        unsigned(Id.TRACK_UID, 1),
        unsigned(Id.TRACK_TYPE, VIDEO_TRACK),
        element(Id.CODEC_ID, [b"V_FFV1"]),
        element(Id.CODEC_PRIVATE, [record]),
        video(width, height),
        *more,
    )


def cluster(start: int, frames: Iterable[Tuple[int, bytes]]) -> Pieces:
    """A Cluster of track 1 with that Timestamp, over frames with their times."""
    blocks = (simple_block(1, time - start, packet) for time, packet in frames)
    return master(Id.CLUSTER, unsigned(Id.TIMESTAMP, start), *blocks)


def clip_file(record: bytes, width: int, height: int, frames: List[Tuple[int, bytes]], a_cluster: int) -> Pieces:
    """A file with one V_FFV1 track and so many frames a Cluster, all sizes known, without Cues."""
    parts = [frames[start : start + a_cluster] for start in range(0, len(frames), a_cluster)]
    return ebml_head() + master(
        Id.SEGMENT,
        info(MILLISECOND),
        master(Id.TRACKS, track_entry(record, width, height)),
        *(cluster(part[0][0], part) for part in parts),
    )
