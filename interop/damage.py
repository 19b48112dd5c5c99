"""Damaged packets, made of a whole one: cut, changed byte by byte, with slices out of place, and with headers and samples that no
encoder writes. A change behind a parity stands twice, once with the parities mended, so that the faults behind it are reached.
"""

from itertools import chain
from typing import Callable, Iterator, List, Sequence, Tuple

from ffv1 import Fault, Header, Plane, areas, blank_planes, slices_of
from ffv1_bits import CLOSING_STATE, fresh_set
from ffv1_record import RICE, Parameters
from ffv1_rice import BitWriter
from ffv1_write import content_of, grid, head_of, symbols_of, with_footer, write_contents

Damaged = Tuple[str, bytes]
TOO_LONG = 1 << 32
HUGE = (1, 255, 1 << 16, 1 << 31, TOO_LONG - 1, TOO_LONG)
MOST_SIZE = 0xFFFFFF


class Picture:
    """A picture, its parameters, and its packet as an own encoder writes it."""

    def __init__(self, parameters: Parameters, width: int, height: int, planes: Sequence[Plane]):
        self.parameters, self.width, self.height, self.planes = parameters, width, height, planes
        self.contents = write_contents(parameters, width, height, planes)

    def packet(self) -> bytes:
        return joined(self.parameters, self.contents)


def picture_of(parameters: Parameters, width: int, height: int, sample: Callable[[int, int, int], int]) -> Picture:
    """The picture whose samples are told by plane, column and row."""
    planes = blank_planes(parameters.shape, width, height)
    for number, plane in enumerate(planes):
        for at in range(len(plane.samples)):
            row, column = divmod(at, plane.width)
            plane.samples[at] = sample(number, column, row) & 255
    return Picture(parameters, width, height, planes)


def joined(parameters: Parameters, contents: Sequence[bytes]) -> bytes:
    return b"".join(with_footer(parameters, content) for content in contents)


def mended(parameters: Parameters, packet: bytes) -> bytes:
    """The packet with the right parities, where its slices can be found."""
    try:
        return joined(parameters, [content for content, _ in slices_of(parameters, packet)])
    except Fault:
        return packet


def twice(parameters: Parameters, name: str, packet: bytes) -> Iterator[Damaged]:
    """As it is, and with its parities mended where that makes another packet."""
    yield name, packet
    whole = mended(parameters, packet)
    if whole != packet:
        yield f"{name}, mended", whole


def cuts(packet: bytes, stride: int) -> Iterator[Damaged]:
    """The packet cut before each byte, and without its first bytes."""
    for at in range(0, len(packet), stride):
        yield f"cut at {at}", packet[:at]
        yield f"from {at + 1}", packet[at + 1 :]


def bytes_changed(parameters: Parameters, packet: bytes, stride: int) -> Iterator[Damaged]:
    for at in range(0, len(packet), stride):
        for value in {0x00, 0xFF, packet[at] ^ 1 << at % 8} - {packet[at]}:
            changed = packet[:at] + bytes([value]) + packet[at + 1 :]
            yield from twice(parameters, f"byte {at} {value:02X}", changed)


def slices_moved(picture: Picture) -> Iterator[Damaged]:
    """The slices in another order, twice, lacking, and none but one."""
    contents = picture.contents
    orders: List[Tuple[str, Sequence[bytes]]] = [("backwards", contents[::-1]), ("all twice", contents * 2)]
    for at in range(len(contents)):
        orders.append((f"slice {at} lacking", contents[:at] + contents[at + 1 :]))
        orders.append((f"slice {at} twice", contents[: at + 1] + contents[at:]))
        orders.append((f"slice {at} last", contents[:at] + contents[at + 1 :] + contents[at : at + 1]))
        orders.append((f"slice {at} empty", contents[:at] + [b""] + contents[at + 1 :]))
    for name, order in orders:
        yield name, joined(picture.parameters, order)


def sizes_changed(picture: Picture) -> Iterator[Damaged]:
    """A slice_size that passes the packet, by one byte or by all that it can, or that is too small; in the first and the last slice."""
    parameters, contents = picture.parameters, picture.contents
    for at in {0, len(contents) - 1}:
        before, after = joined(parameters, contents[:at]), joined(parameters, contents[at + 1 :])
        length = len(contents[at])
        for size in {0, length - 1, length + 1, len(before) + length + 1, MOST_SIZE}:
            yield f"slice {at} of size {size}", before + with_footer(parameters, contents[at], size) + after


def contents_cut(picture: Picture, stride: int) -> Iterator[Damaged]:
    """A slice's content cut short or made longer, with a footer that says so."""
    contents = picture.contents
    for at in {0, len(contents) - 1}:
        others = lambda content: joined(picture.parameters, [*contents[:at], content, *contents[at + 1 :]])
        for length in range(0, len(contents[at]), stride):
            yield f"slice {at} of {length} bytes", others(contents[at][:length])
        for more in (b"\0", b"\0\0\0", b"\xff\xff\xff"):
            yield f"slice {at} and {more.hex()}", others(contents[at] + more)


def with_symbols(picture: Picture, at: int, symbols: Sequence[int], key: int = 1) -> bytes:
    """The packet with another header in one slice, whose samples are coded as before."""
    parameters, header = picture.parameters, list(grid(picture.parameters))[at][1]
    writer = head_of(parameters, at == 0, symbols, key)
    slice_areas = areas(parameters, picture.width, picture.height, header)
    content = content_of(parameters, writer, picture.planes, slice_areas, header)
    return joined(parameters, [*picture.contents[:at], content, *picture.contents[at + 1 :]])


def headers_changed(picture: Picture) -> Iterator[Damaged]:
    cells = [header for _, header in grid(picture.parameters)]
    yield "no key", with_symbols(picture, 0, symbols_of(cells[0]), key=0)
    for at in {0, len(cells) - 1}:
        usual = symbols_of(cells[at])
        for place in range(len(usual)):
            for value in HUGE:
                symbols = [*usual[:place], value, *usual[place + 1 :]]
                yield f"slice {at} header {place} {value}", with_symbols(picture, at, symbols)
        whole = Header(0, 0, picture.parameters.columns, picture.parameters.rows, 0, 0)
        yield f"slice {at} of all cells", with_symbols(picture, at, symbols_of(whole))


def samples_changed(picture: Picture) -> Iterator[Damaged]:
    """A first difference that no encoder writes, and nothing behind it."""
    parameters, contents = picture.parameters, picture.contents
    for at, header in ((0, Header(0, 0, 1, 1, 0, 0)), (len(contents) - 1, list(grid(parameters))[-1][1])):
        for value in (127, 128, -128, -129, 255, 1 << 16, -(TOO_LONG - 1), TOO_LONG):
            writer = head_of(parameters, at == 0, symbols_of(header))
            content = rice_start(writer, value) if parameters.coder == RICE else range_start(writer, value)
            yield f"slice {at} begins with {value}", joined(parameters, [*contents[:at], content, *contents[at + 1 :]])


def range_start(writer, value: int) -> bytes:
    writer.symbol(fresh_set(), value, signed=True)
    writer.lone_bit(CLOSING_STATE, 0)
    return writer.finish()


def rice_start(writer, value: int) -> bytes:
    """The end of a run without samples, and an escape for the lowest bits of a value."""
    writer.lone_bit(CLOSING_STATE, 0)
    bits = BitWriter()
    bits.bits(0, 1)
    bits.bits(0, 12)
    bits.bits(value & 255, 8)
    return writer.finish() + bits.finish()


def damaged(picture: Picture, stride: int = 1) -> Iterator[Damaged]:
    """All of these; of changes byte by byte, each `stride`th place."""
    parameters, packet = picture.parameters, picture.packet()
    return chain(
        cuts(packet, stride),
        bytes_changed(parameters, packet, stride),
        slices_moved(picture),
        sizes_changed(picture),
        contents_cut(picture, stride),
        headers_changed(picture),
        samples_changed(picture),
    )
