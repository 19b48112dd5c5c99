"""Writes FFV1 packets, as docs/FORMATS.md says that an own encoder does, and slices with any header for the tests of faults."""

from collections import defaultdict
from typing import Dict, Iterator, List, Sequence, Tuple

from ffv1 import Area, Header, Plane, areas, blank_row, bordered_row, near
from ffv1_bits import CLOSING_STATE, FRESH_STATE, RangeWriter, fresh_set, parity
from ffv1_record import RICE, Parameters
from ffv1_rice import RiceWriter, folded


class RangeDifferencesWriter:
    """Writes differences as symbols, each by its context's set of states."""

    def __init__(self, writer: RangeWriter):
        self.writer = writer
        self.contexts: Dict[int, List[int]] = defaultdict(fresh_set)

    def fresh_contexts(self):
        self.contexts.clear()

    def start_plane(self):
        pass

    def start_line(self, width: int):
        pass

    def write(self, context: int, difference: int):
        self.writer.symbol(self.contexts[context], difference, signed=True)

    def end_line(self):
        pass


def write_plane(differences, tables, rows: Sequence[bytes], width: int):
    differences.start_plane()
    above_that, above = blank_row(width), blank_row(width)
    for samples in rows if width else ():
        row = bordered_row(width, above)
        differences.start_line(width)
        for column, sample in enumerate(samples):
            predicted, context = near(tables, row, above, above_that, column)
            difference = sample - predicted
            differences.write(abs(context), folded(-difference if context < 0 else difference))
            row[column + 2] = sample
        differences.end_line()
        row[-1] = row[-2]
        above_that, above = above, row


def write_planes(differences, parameters: Parameters, planes: Sequence[Plane], slice_areas: Sequence[Area], header: Header):
    for number, (plane, area) in enumerate(zip(planes, slice_areas)):
        if number < 2:
            differences.fresh_contexts()
        tables = parameters.sets[header.chroma_set if number else header.luma_set].tables
        write_plane(differences, tables, plane.area(*area), area[2])


def symbols_of(header: Header) -> List[int]:
    """The nine symbols of a header; picture_structure and the aspect ratio are 0."""
    column, row, columns, rows, luma_set, chroma_set = header
    return [column, row, columns - 1, rows - 1, luma_set, chroma_set, 0, 0, 0]


def head_of(parameters: Parameters, is_first: bool, symbols: Sequence[int], key: int = 1) -> RangeWriter:
    """The key bit, where the slice is the first one, and the header."""
    writer = RangeWriter(parameters.transition)
    if is_first:
        writer.lone_bit(FRESH_STATE, key)
    states = fresh_set()
    for value in symbols:
        writer.symbol(states, value)
    return writer


def content_of(parameters: Parameters, writer: RangeWriter, planes: Sequence[Plane], areas_: Sequence[Area], header: Header) -> bytes:
    """A slice's content, whose head has been written."""
    if parameters.coder == RICE:
        writer.lone_bit(CLOSING_STATE, 0)
        rice = RiceWriter()
        write_planes(rice, parameters, planes, areas_, header)
        return writer.finish() + rice.bits.finish()
    write_planes(RangeDifferencesWriter(writer), parameters, planes, areas_, header)
    writer.lone_bit(CLOSING_STATE, 0)
    return writer.finish()


def with_footer(parameters: Parameters, content: bytes, size: int = -1) -> bytes:
    """A slice: its content and its footer, whose size may be another than the content's."""
    whole = content + (len(content) if size < 0 else size).to_bytes(3, "big")
    if not parameters.has_parity:
        return whole
    whole += b"\0"
    return whole + parity(whole).to_bytes(4, "big")


def grid(parameters: Parameters) -> Iterator[Tuple[int, Header]]:
    """A header for each cell of the grid, row by row."""
    for cell in range(parameters.columns * parameters.rows):
        row, column = divmod(cell, parameters.columns)
        yield cell, Header(column, row, 1, 1, 0, 0)


def write_contents(parameters: Parameters, width: int, height: int, planes: Sequence[Plane]) -> List[bytes]:
    """The content of the slice of each cell."""
    contents = []
    for cell, header in grid(parameters):
        writer = head_of(parameters, cell == 0, symbols_of(header))
        slice_areas = areas(parameters, width, height, header)
        contents.append(content_of(parameters, writer, planes, slice_areas, header))
    return contents


def write_packet(parameters: Parameters, width: int, height: int, planes: Sequence[Plane]) -> bytes:
    contents = write_contents(parameters, width, height, planes)
    return b"".join(with_footer(parameters, content) for content in contents)
