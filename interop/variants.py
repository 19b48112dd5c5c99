"""Builds files element by element, each a small change of one file of three frames, over the record and packets of a
real clip. `taken` and `refused` have the tables.
"""

from typing import List

import mkv
from mkv import KEY, Id, Pieces, big_endian, ebml_head, element, info, master, simple_block, size_bytes, unsigned
from reader import Clip

HUGE = (1 << 56) - 2
UNKNOWN = b"\x01" + b"\xff" * 7
TIMES = (0, 40, 80)


def void(size=5) -> Pieces:
    return element(Id.VOID, [bytes(size)])


def huge(element_id: int) -> Pieces:
    """The head of an element that claims the largest size that there is, and a few bytes of it."""
    return [big_endian(element_id) + size_bytes(HUGE, 8) + bytes(8)]


def opened(element_id: int, *parts: Pieces, size=UNKNOWN) -> Pieces:
    """An element of unknown size."""
    return [big_endian(element_id) + size, *(piece for part in parts for piece in part)]


def long_number(element_id: int) -> Pieces:
    """A number of 9 bytes, whose value is 1."""
    return element(element_id, [bytes(8) + b"\1"])


def bitmap(size: int, record: bytes, codec=b"FFV1") -> Pieces:
    """The CodecPrivate of a FOURCC track: a bitmap header of 40 bytes, which begins with biSize, and what follows it."""
    header = size.to_bytes(4, "little") + bytes(12) + codec + bytes(20)
    return element(Id.CODEC_PRIVATE, [header + record])


class Builder:
    """Builds variants of one file: an EBML header, and a Segment with Info, Tracks and one Cluster."""

    def __init__(self, clip: Clip):
        self.record, self.width, self.height = clip.record, clip.width, clip.height
        self.packets = clip.packets()[: len(TIMES)]

    def video(self, width=None, height=None, extra=()) -> Pieces:
        return master(
            Id.VIDEO,
            unsigned(Id.PIXEL_WIDTH, self.width) if width is None else width,
            unsigned(Id.PIXEL_HEIGHT, self.height) if height is None else height,
            *extra,
        )

    def entry(self, number=None, kind=None, codec=None, private=None, video=None, extra=()) -> Pieces:
        """A TrackEntry, with given parts in the place of its own."""
        given = [number, kind, codec, private, video]
        own = [
            unsigned(Id.TRACK_NUMBER, 1),
            unsigned(Id.TRACK_TYPE, mkv.VIDEO_TRACK),
            element(Id.CODEC_ID, [b"V_FFV1"]),
            element(Id.CODEC_PRIVATE, [self.record]),
            self.video(),
        ]
        parts = [its_own if it is None else it for it, its_own in zip(given, own)]
        return master(Id.TRACK_ENTRY, *parts, *extra)

    def other(self, number: int, kind: int, codec: bytes) -> Pieces:
        """The TrackEntry of another track."""
        numbers = [unsigned(Id.TRACK_NUMBER, number), unsigned(Id.TRACK_TYPE, kind)]
        return master(Id.TRACK_ENTRY, *numbers, element(Id.CODEC_ID, [codec]))

    def fourcc(self, private: Pieces) -> Pieces:
        return self.tracks(codec=element(Id.CODEC_ID, [b"V_MS/VFW/FOURCC"]), private=private)

    def tracks(self, **parts) -> Pieces:
        return master(Id.TRACKS, self.entry(**parts))

    def blocks(self, times=TIMES, track=1, flags=KEY) -> List[Pieces]:
        return [simple_block(track, time, packet, flags) for time, packet in zip(times, self.packets)]

    def contents(self) -> List[Pieces]:
        """The content of each block."""
        return [[b"\x81" + big_endian(time, 2) + b"\x80", packet] for time, packet in zip(TIMES, self.packets)]

    def groups(self) -> List[Pieces]:
        """Each block in a BlockGroup."""
        return [master(Id.BLOCK_GROUP, void(1), element(Id.BLOCK, content), void(2)) for content in self.contents()]

    def cluster(self, timestamp=None, blocks=None, before=(), after=()) -> Pieces:
        timestamp = unsigned(Id.TIMESTAMP, 0) if timestamp is None else timestamp
        return master(Id.CLUSTER, *before, timestamp, *(self.blocks() if blocks is None else blocks), *after)

    def segment(self, *parts: Pieces) -> Pieces:
        return master(Id.SEGMENT, *parts)

    def file(self, tracks=None, cluster=None, head=None, after=()) -> bytes:
        """The whole file, with given parts in the place of its own."""
        parts = [
            info(mkv.MILLISECOND),
            self.tracks() if tracks is None else tracks,
            self.cluster() if cluster is None else cluster,
            *after,
        ]
        return b"".join([*(ebml_head() if head is None else head), *self.segment(*parts)])

    def of(self, *parts: Pieces) -> bytes:
        """A file with these top-level parts after its EBML header."""
        return b"".join([*ebml_head(), *(piece for part in parts for piece in part)])

    def with_blocks(self, *blocks: Pieces, **parts) -> bytes:
        """The file with other blocks in its Cluster."""
        return self.file(cluster=self.cluster(blocks=blocks, **parts))

    def wide(self) -> bytes:
        """The file with each size and number in 8 bytes."""
        number = lambda element_id, value: element(element_id, [big_endian(value, 8)], width=8)
        entry = [
            number(Id.TRACK_NUMBER, 1),
            number(Id.TRACK_TYPE, mkv.VIDEO_TRACK),
            element(Id.CODEC_ID, [b"V_FFV1"], width=8),
            element(Id.CODEC_PRIVATE, [self.record], width=8),
            master(Id.VIDEO, number(Id.PIXEL_WIDTH, self.width), number(Id.PIXEL_HEIGHT, self.height), width=8),
        ]
        blocks = [element(Id.SIMPLE_BLOCK, content, width=8) for content in self.contents()]
        cluster = master(Id.CLUSTER, number(Id.TIMESTAMP, 0), *blocks, width=8)
        tracks = master(Id.TRACKS, master(Id.TRACK_ENTRY, *entry, width=8), width=8)
        return b"".join([*ebml_head(), *master(Id.SEGMENT, tracks, cluster, width=8)])
