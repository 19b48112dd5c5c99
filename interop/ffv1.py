"""Reads FFV1 packets, or names the first fault that they have: docs/FORMATS.md "Packets and slices", anew.

Written from those rules and RFC 9043, not from the program, for whose answers it stands as the measure. `ffv1_write` writes.
"""

from collections import defaultdict
from typing import Dict, Iterator, List, NamedTuple, Sequence, Tuple

from ffv1_bits import FRESH_STATE, CLOSING_STATE, RangeReader, SymbolTooLong, fresh_set, parity
from ffv1_record import RICE, Parameters, Shape
from ffv1_rice import BitReader, RiceReader

SIZE_BYTES, CHECK_BYTES = 3, 5


class Fault(Exception):
    """A packet's first fault: its name, and the slice or the cell that it names, counted from 0."""

    def __init__(self, kind: str, place: int = 0):
        super().__init__(f"{kind} at {place}")
        self.kind, self.place = kind, place


class Overrun(Exception):
    """More was taken than the slice has."""


class Plane(NamedTuple):
    """A plane's samples, row by row."""

    width: int
    height: int
    samples: bytearray

    def put(self, left: int, top: int, rows: Sequence[bytes]):
        for number, row in enumerate(rows):
            at = (top + number) * self.width + left
            self.samples[at : at + len(row)] = row

    def area(self, left: int, top: int, width: int, height: int) -> List[bytes]:
        starts = ((top + row) * self.width + left for row in range(height))
        return [bytes(self.samples[at : at + width]) for at in starts]


class Header(NamedTuple):
    """A slice's cells of the grid, and its table sets."""

    column: int
    row: int
    columns: int
    rows: int
    luma_set: int
    chroma_set: int

    def cells(self, grid_columns: int) -> Iterator[int]:
        for row in range(self.row, self.row + self.rows):
            for column in range(self.column, self.column + self.columns):
                yield row * grid_columns + column


Area = Tuple[int, int, int, int]


def divided_up(value: int, shift: int) -> int:
    return -(-value >> shift)


def plane_sizes(shape: Shape, width: int, height: int) -> List[Tuple[int, int]]:
    chroma = (divided_up(width, shape.shift_across), divided_up(height, shape.shift_down))
    return [(width, height), *([chroma] * 2 if shape.has_chroma else [])]


def blank_planes(shape: Shape, width: int, height: int) -> List[Plane]:
    return [Plane(*size, bytearray(size[0] * size[1])) for size in plane_sizes(shape, width, height)]


def areas(parameters: Parameters, width: int, height: int, header: Header) -> List[Area]:
    """The slice's area of each plane: left, top, width, height."""
    left, right = (at * width // parameters.columns for at in (header.column, header.column + header.columns))
    top, bottom = (at * height // parameters.rows for at in (header.row, header.row + header.rows))
    shape = parameters.shape
    across, down = shape.shift_across, shape.shift_down
    luma = (left, top, right - left, bottom - top)
    chroma = (left >> across, top >> down, divided_up(right - left, across), divided_up(bottom - top, down))
    return [luma, *([chroma] * 2 if shape.has_chroma else [])]


# Slices and their headers


def slices_of(parameters: Parameters, packet: bytes) -> List[Tuple[bytes, bytes]]:
    """Each slice's content, and its content with its footer."""
    if not packet:
        raise Fault("Empty")
    footer = SIZE_BYTES + (CHECK_BYTES if parameters.has_parity else 0)
    found, end = [], len(packet)
    while end:
        at = end - footer
        size = int.from_bytes(packet[at : at + SIZE_BYTES], "big") if at >= 0 else 0
        if at < size:
            raise Fault("Chain")
        found.insert(0, (packet[at - size : at], packet[at - size : end]))
        end = at - size
    return found


def read_header(parameters: Parameters, reader: RangeReader, slice_number: int) -> Header:
    states = fresh_set()
    try:
        column, row, columns, rows, luma_set, chroma_set, *_ = [reader.symbol(states) for _ in range(9)]
    except SymbolTooLong:
        raise Fault("Header", slice_number) from None
    if column + columns + 1 > parameters.columns or row + rows + 1 > parameters.rows:
        raise Fault("Header", slice_number)
    if max(luma_set, chroma_set) >= len(parameters.sets):
        raise Fault("TableIndex", slice_number)
    return Header(column, row, columns + 1, rows + 1, luma_set, chroma_set)


def check_cover(parameters: Parameters, headers: Sequence[Header]):
    counts = [0] * (parameters.columns * parameters.rows)
    for header in headers:
        for cell in header.cells(parameters.columns):
            counts[cell] += 1
    for cell, count in enumerate(counts):
        if count != 1:
            raise Fault("Cover", cell)


# Samples


class RangeDifferences:
    """Reads differences as symbols, each by its context's set of states."""

    def __init__(self, reader: RangeReader):
        self.reader = reader
        self.contexts: Dict[int, List[int]] = defaultdict(fresh_set)

    def fresh_contexts(self):
        self.contexts.clear()

    def start_plane(self):
        pass

    def start_line(self, width: int):
        pass

    def read(self, context: int, column: int) -> int:
        return self.reader.symbol(self.contexts[context], signed=True)


def differences_of(parameters: Parameters, reader: RangeReader):
    """What reads a slice's differences, and what knows in the end whether too many bytes were taken."""
    if parameters.coder != RICE:
        return RangeDifferences(reader), reader
    reader.lone_bit(CLOSING_STATE)
    bits = BitReader(reader.rest())
    return RiceReader(bits), bits


def near(tables, row: List[int], above: List[int], above_that: List[int], column: int) -> Tuple[int, int]:
    """The prediction and the context of a sample (RFC 9043 sections 3.3 to 3.5), by rows with their borders."""
    L, l, tl, t, tr = row[column], row[column + 1], *above[column + 1 : column + 4]
    T = above_that[column + 2]
    predicted = sorted((l, t, l + t - tl))[1]
    pairs = ((l, tl), (tl, t), (t, tr), (L, l), (T, t))
    return predicted, sum(table[a - b & 255] for table, (a, b) in zip(tables, pairs))


def blank_row(width: int) -> List[int]:
    """A row of zeros with its borders: two to the left and one to the right."""
    return [0] * (width + 3)


def bordered_row(width: int, above: List[int]) -> List[int]:
    row = blank_row(width)
    row[1] = above[2] if width else 0
    return row


def read_plane(differences, tables, width: int, height: int) -> List[bytes]:
    differences.start_plane()
    above_that, above, rows = blank_row(width), blank_row(width), []
    for _ in range(height if width else 0):
        row = bordered_row(width, above)
        differences.start_line(width)
        for column in range(width):
            predicted, context = near(tables, row, above, above_that, column)
            difference = differences.read(abs(context), column)
            row[column + 2] = predicted + (-difference if context < 0 else difference) & 255
        row[-1] = row[-2]
        rows.append(bytes(row[2:-1]))
        above_that, above = above, row
    return rows


def read_slice(parameters: Parameters, reader: RangeReader, header: Header, slice_areas: Sequence[Area]) -> List[List[bytes]]:
    """The rows of each plane's area. Cr goes on with the contexts that Cb left."""
    differences, end = differences_of(parameters, reader)
    found = []
    for number, (_, _, width, height) in enumerate(slice_areas):
        if number < 2:
            differences.fresh_contexts()
        tables = parameters.sets[header.chroma_set if number else header.luma_set].tables
        found.append(read_plane(differences, tables, width, height))
    if end.is_overrun():
        raise Overrun
    return found


def read_packet(parameters: Parameters, width: int, height: int, packet: bytes) -> List[Plane]:
    """The planes Y, Cb, Cr or Y alone, or `Fault` with the packet's first fault."""
    slices = slices_of(parameters, packet)
    if parameters.has_parity:
        for number, (_, whole) in enumerate(slices):
            if parity(whole):
                raise Fault("Parity", number)
    readers = [RangeReader(content, parameters.transition) for content, _ in slices]
    if not readers[0].lone_bit(FRESH_STATE):
        raise Fault("NotKey")
    headers = [read_header(parameters, reader, number) for number, reader in enumerate(readers)]
    check_cover(parameters, headers)
    planes = blank_planes(parameters.shape, width, height)
    for number, (reader, header) in enumerate(zip(readers, headers)):
        slice_areas = areas(parameters, width, height, header)
        try:
            found = read_slice(parameters, reader, header, slice_areas)
        except SymbolTooLong:
            raise Fault("Symbol", number) from None
        except Overrun:
            raise Fault("Overrun", number) from None
        for plane, (left, top, _, _), rows in zip(planes, slice_areas, found):
            plane.put(left, top, rows)
    return planes


def answer(parameters: Parameters, width: int, height: int, packet: bytes) -> Tuple[str, int, bytes]:
    """The fault's name and place and no samples, or `Ok`, 0 and the samples plane by plane."""
    try:
        planes = read_packet(parameters, width, height, packet)
    except Fault as fault:
        return fault.kind, fault.place, b""
    return "Ok", 0, b"".join(plane.samples for plane in planes)


def reaches_ends(parameters: Parameters, width: int, height: int) -> bool:
    """Whether the last column and row of cells reach the ends of the chroma planes; else samples there are 0."""
    shape = parameters.shape
    sides = ((width, parameters.columns, shape.shift_across), (height, parameters.rows, shape.shift_down))
    starts = [(size, (cells - 1) * size // cells, shift) for size, cells, shift in sides]
    return all((start >> shift) + divided_up(size - start, shift) == divided_up(size, shift) for size, start, shift in starts)


def suits(parameters: Parameters, width: int, height: int) -> bool:
    """Whether pictures of a size can be coded under a record: its grid is at most the size, and reaches the ends of the planes."""
    return parameters.columns <= width and parameters.rows <= height and reaches_ends(parameters, width, height)


def covered(parameters: Parameters, width: int, height: int) -> bytes:
    """For each sample, plane by plane, whether one of the grid's cells has it: 1 or 0."""
    planes = blank_planes(parameters.shape, width, height)
    for cell in range(parameters.columns * parameters.rows):
        row, column = divmod(cell, parameters.columns)
        for plane, (left, top, across, down) in zip(planes, areas(parameters, width, height, Header(column, row, 1, 1, 0, 0))):
            plane.put(left, top, [b"\1" * across] * down)
    return b"".join(plane.samples for plane in planes)
