"""Reads the clip of a Matroska file, or names the fault that it has: docs/FORMATS.md "The file that is read", anew.

Written from those rules and RFC 8794 and 9559, not from the program, for whose answers it stands as the measure.
"""

import mmap
from typing import Iterator, List, NamedTuple, Optional, Tuple

from mkv import LACING, TOP_LEVEL, VIDEO_TRACK, Id

FILE = 0  # where a parent's id is asked for, the file itself
READ = {
    FILE: {Id.EBML, Id.SEGMENT},
    Id.EBML: {Id.DOC_TYPE},
    Id.SEGMENT: {Id.TRACKS, Id.CLUSTER},
    Id.TRACKS: {Id.TRACK_ENTRY},
    Id.TRACK_ENTRY: {
        Id.TRACK_NUMBER,
        Id.TRACK_TYPE,
        Id.CODEC_ID,
        Id.CODEC_PRIVATE,
        Id.CONTENT_ENCODINGS,
        Id.VIDEO,
    },
    Id.VIDEO: {Id.PIXEL_WIDTH, Id.PIXEL_HEIGHT},
    Id.CLUSTER: {Id.TIMESTAMP, Id.SIMPLE_BLOCK, Id.BLOCK_GROUP},
    Id.BLOCK_GROUP: {Id.BLOCK},
}
NUMBERS = {Id.TRACK_NUMBER, Id.TRACK_TYPE, Id.PIXEL_WIDTH, Id.PIXEL_HEIGHT, Id.TIMESTAMP}
BLOCKS = {Id.SIMPLE_BLOCK, Id.BLOCK}
MAY_BE_OPEN = {(FILE, Id.SEGMENT), (Id.SEGMENT, Id.CLUSTER)}
MOST_PIXELS, MOST_RECORD_BYTES, MOST_FRAMES = 8192, 65_536, 1_000_000
BITMAP_BYTES = 40


class Refused(Exception):
    """A file without a clip: the name of its first fault, and the place of the element where it has one."""

    def __init__(self, kind: str, at: Optional[int] = None):
        super().__init__(kind if at is None else f"{kind} at {at}")
        self.kind, self.at = kind, at


class Element(NamedTuple):
    """An element: its id, its first byte, where its content starts and ends, and its children where they are read."""

    id: int
    at: int
    start: int
    end: int
    children: List["Element"]


class Block(NamedTuple):
    """A block: the place of its element, its track, its time in units of the file's scale, its flags, its packet."""

    at: int
    track: int
    time: int
    flags: int
    packet: memoryview


class Clip(NamedTuple):
    """An FFV1 track and its blocks, in file order."""

    codec_id: bytes
    record: bytes
    width: int
    height: int
    blocks: List[Block]

    def packets(self) -> List[bytes]:
        return [bytes(block.packet) for block in self.blocks]


def view_of(path) -> memoryview:
    """The file's bytes, without reading them into memory."""
    with open(path, "rb") as file:
        if file.seek(0, 2) == 0:
            return memoryview(b"")
        return memoryview(mmap.mmap(file.fileno(), 0, access=mmap.ACCESS_READ))


# Elements


def vint(data, at: int, end: int, most: int) -> Optional[Tuple[int, int]]:
    """The number with its marker, and the place after it; None where it is bad or doesn't end by `end`."""
    length = 9 - data[at].bit_length() if at < end else 0
    if not 1 <= length <= most or at + length > end:
        return None
    return int.from_bytes(data[at : at + length], "big"), at + length


def size_at(data, at: int, end: int) -> Optional[Tuple[Optional[int], int]]:
    """The size, None where it is unknown, and the place after it; None where there is no good size."""
    found = vint(data, at, end, 8)
    if found is None:
        return None
    ones = (1 << 7 * (found[1] - at)) - 1
    value = found[0] & ones
    return None if value == ones else value, found[1]


def head_at(data, at: int, end: int):
    """An element's id and size, and where its content starts."""
    name = vint(data, at, end, 4)
    size = size_at(data, name[1], end) if name else None
    if size is None:
        raise Refused("Ebml", at)
    return name[0], *size


def block_of(data, element: Element, cluster_time: int = 0) -> Block:
    """A block's parts (RFC 9559 section 10.1)."""
    track = size_at(data, element.start, element.end)
    if track is None or track[0] is None or track[1] + 3 > element.end:
        raise Refused("Ebml", element.at)
    number, at = track
    time = cluster_time + int.from_bytes(data[at : at + 2], "big", signed=True)
    return Block(element.at, number, time, data[at + 2], data[at + 3 : element.end])


def elements(data, start: int, end: int, parent: int, is_open=False) -> Tuple[List[Element], int]:
    """The elements from `start` on, with all below them that are read, and the place where they end.

    What is open ends before an element of the Segment's own; in the file itself the first Segment is the last one.
    """
    found, at = [], start
    while at < end:
        name, size, content = head_at(data, at, end)
        if is_open and name in TOP_LEVEL:
            break
        stop = end if size is None else content + size
        is_read = name in READ.get(parent, ())
        if size is None and (parent, name) not in MAY_BE_OPEN or stop > end:
            raise Refused("Ebml", at)
        if (parent, at) == (FILE, 0) and name != Id.EBML or is_read and name in NUMBERS and stop - content > 8:
            raise Refused("Ebml", at)
        it = Element(name, at, content, stop, [])
        if is_read and name in BLOCKS:
            block_of(data, it)
        if is_read and name in READ:
            it.children[:], reached = elements(data, content, stop, name, size is None and name == Id.CLUSTER)
            it = it._replace(end=reached if size is None else stop)
        found.append(it)
        at = it.end
        if parent == FILE and name == Id.SEGMENT:
            break
    return found, at


def children_of(data, parent: Optional[Element]) -> List[Element]:
    """The children of a master, also of one that a clip's reader passes over, such as the Cues."""
    return elements(data, parent.start, parent.end, parent.id)[0] if parent else []


def of_id(found: List[Element], *names: int) -> Iterator[Element]:
    return (it for it in found if it.id in names)


def first(found: List[Element], name: int) -> Optional[Element]:
    return next(of_id(found, name), None)


def bytes_of(data, element: Optional[Element]) -> bytes:
    return bytes(data[element.start : element.end]) if element else b""


def number_of(data, element: Optional[Element]) -> int:
    return int.from_bytes(bytes_of(data, element), "big")


def text_of(data, element: Optional[Element]) -> bytes:
    return bytes_of(data, element).split(b"\0")[0]


# The clip


def record_of(codec_id: bytes, private: bytes) -> Optional[bytes]:
    """The configuration record, None where the track isn't FFV1."""
    if codec_id == b"V_FFV1":
        return private
    if codec_id == b"V_MS/VFW/FOURCC" and len(private) >= BITMAP_BYTES and private[16:20] == b"FFV1":
        size = int.from_bytes(private[:4], "little")
        return private[BITMAP_BYTES : size if size > BITMAP_BYTES else None]
    return None


def track_of(data, segment: Optional[Element]) -> Tuple[List[Element], bytes, bytes]:
    """The first FFV1 picture track: its children, codec id and record."""
    tracks = first(segment.children, Id.TRACKS) if segment else None
    entries = [it.children for it in of_id(tracks.children, Id.TRACK_ENTRY)] if tracks else []
    entries = [it for it in entries if number_of(data, first(it, Id.TRACK_TYPE)) == VIDEO_TRACK]
    if not entries:
        raise Refused("NoTrack")
    for entry in entries:
        codec_id = text_of(data, first(entry, Id.CODEC_ID))
        record = record_of(codec_id, bytes_of(data, first(entry, Id.CODEC_PRIVATE)))
        if record is not None:
            return entry, codec_id, record
    raise Refused("Codec")


def blocks_of(data, segment: Element, track: int) -> Iterator[Block]:
    """The track's blocks, in file order."""
    for cluster in of_id(segment.children, Id.CLUSTER):
        time = number_of(data, first(cluster.children, Id.TIMESTAMP))
        for it in of_id(cluster.children, Id.SIMPLE_BLOCK, Id.BLOCK_GROUP):
            alone = [it] if it.id == Id.SIMPLE_BLOCK else of_id(it.children, Id.BLOCK)
            yield from (block for block in (block_of(data, one, time) for one in alone) if block.track == track)


def read_clip(data) -> Clip:
    """The clip of a file, or `Refused` with its first fault. Packets are views into the data."""
    found, _ = elements(data, 0, len(data), FILE)
    if not found:
        raise Refused("Ebml", 0)
    if text_of(data, first(found[0].children, Id.DOC_TYPE)) != b"matroska":
        raise Refused("DocType")
    segment = first(found, Id.SEGMENT)
    entry, codec_id, record = track_of(data, segment)
    video = first(entry, Id.VIDEO)
    sizes = [number_of(data, first(video.children, it)) if video else 0 for it in (Id.PIXEL_WIDTH, Id.PIXEL_HEIGHT)]
    blocks = list(blocks_of(data, segment, number_of(data, first(entry, Id.TRACK_NUMBER))))
    if not record:
        raise Refused("NoPrivate")
    if first(entry, Id.CONTENT_ENCODINGS):
        raise Refused("Encoded")
    is_within = [1 <= it <= MOST_PIXELS for it in sizes] + [len(record) <= MOST_RECORD_BYTES, len(blocks) <= MOST_FRAMES]
    if not all(is_within):
        raise Refused("Limit")
    before = blocks[:1]
    for block in blocks:
        if block.flags & LACING:
            raise Refused("Laced", block.at)
        if before and block.time < before[-1].time:
            raise Refused("TimeOrder", block.at)
        before = [block]
    if not blocks:
        raise Refused("NoFrames")
    return Clip(codec_id, record, *sizes, blocks)


def answer(data) -> str:
    """The name of a file's first fault, or `taken`."""
    try:
        read_clip(data)
    except Refused as fault:
        return fault.kind
    return "taken"
