"""The clips of a session by their frames, and what a recipe renders to and is coded as: docs/SCRIPT.md and docs/FORMATS.md, anew."""

from typing import Dict, List, NamedTuple, Sequence, Union

import cells
import ffv1
from cells import Cell, Side
from ffv1_record import Parameters, read_record
from ffv1_write import write_packet

LUMA_BLACK, CHROMA_BLACK = 16, 128


class Recipe(NamedTuple):
    """What a frame shows: a side, or with a weight above 0 its blend with the side that goes."""

    side: Side
    outgoing: Side = None
    weight: int = 0


class Damage(NamedTuple):
    """A frame of a clip that can't be decoded."""

    clip: str
    frame: int
    kind: str


class Clip(NamedTuple):
    """A clip's name, its record, its size, its packets, and of each the samples or the kind of its first fault."""

    name: str
    record: bytes
    width: int
    height: int
    packets: Sequence[bytes]
    frames: Sequence[Union[bytes, str]]


Picture = Union[bytes, Damage]


def recipe_of(cell: Cell) -> Recipe:
    return Recipe(cell.side, cell.blend.outgoing, cell.blend.weight()) if cell.blend else Recipe(cell.side)


def blended(outgoing: bytes, incoming: bytes, weight: int) -> bytes:
    """Sample by sample (A * (256 - w) + B * w + 128) >> 8."""
    rest = cells.WEIGHTS - weight
    return bytes((a * rest + b * weight + 128) >> 8 for a, b in zip(outgoing, incoming))


def black_samples(parameters: Parameters, width: int, height: int) -> bytes:
    luma, *chroma = (across * down for across, down in ffv1.plane_sizes(parameters.shape, width, height))
    return bytes([LUMA_BLACK]) * luma + bytes([CHROMA_BLACK]) * sum(chroma)


def planes_of(parameters: Parameters, width: int, height: int, samples: bytes) -> List[ffv1.Plane]:
    planes, at = [], 0
    for across, down in ffv1.plane_sizes(parameters.shape, width, height):
        planes.append(ffv1.Plane(across, down, bytearray(samples[at : at + across * down])))
        at += across * down
    return planes


class Media:
    """The clips under a format: a record, a width and a height."""

    def __init__(self, clips: Sequence[Clip], record: bytes, width: int, height: int):
        self.clips, self.record, self.width, self.height = clips, record, width, height
        self.parameters = read_record(record)
        self.rendered: Dict[Recipe, Picture] = {}
        self.coded: Dict[Recipe, bytes] = {}

    def known(self) -> List[cells.Clip]:
        return [cells.Clip(len(it.packets), self.fits(it)) for it in self.clips]

    def fits(self, clip: Clip) -> bool:
        is_same_size = (clip.width, clip.height) == (self.width, self.height)
        return is_same_size and read_record(clip.record).shape == self.parameters.shape

    def picture_of(self, side: Side) -> Picture:
        if side is None:
            return black_samples(self.parameters, self.width, self.height)
        clip, frame = side
        found = self.clips[clip].frames[frame]
        return Damage(self.clips[clip].name, frame, found) if isinstance(found, str) else found

    def render(self, recipe: Recipe) -> Picture:
        """The samples; of two sides that can't be decoded the outgoing one is told."""
        if recipe not in self.rendered:
            incoming = self.picture_of(recipe.side)
            outgoing = self.picture_of(recipe.outgoing) if recipe.weight else incoming
            whole = isinstance(outgoing, bytes) and isinstance(incoming, bytes)
            made = blended(outgoing, incoming, recipe.weight) if whole and recipe.weight else incoming
            self.rendered[recipe] = outgoing if isinstance(outgoing, Damage) else made
        return self.rendered[recipe]

    def is_copied(self, recipe: Recipe) -> bool:
        """Whether a frame is a clip's own, under the very record of the format."""
        return recipe.side is not None and recipe.weight == 0 and self.clips[recipe.side[0]].record == self.record

    def packet(self, recipe: Recipe) -> Union[bytes, Damage]:
        """A frame's packet in an export: a clip's own, or what an own encoder writes."""
        picture = self.render(recipe)
        if isinstance(picture, Damage):
            return picture
        if self.is_copied(recipe):
            clip, frame = recipe.side
            return self.clips[clip].packets[frame]
        if recipe not in self.coded:
            planes = planes_of(self.parameters, self.width, self.height, picture)
            self.coded[recipe] = write_packet(self.parameters, self.width, self.height, planes)
        return self.coded[recipe]


def clip_of(name: str, record: bytes, width: int, height: int, packets: Sequence[bytes]) -> Clip:
    """A clip whose packets are decoded by the reader of this folder."""
    parameters = read_record(record)
    answers = [ffv1.answer(parameters, width, height, it) for it in packets]
    return Clip(name, record, width, height, packets, [samples if kind == "Ok" else kind for kind, _, samples in answers])


def number_in(clips: Sequence[Clip]) -> Dict[str, int]:
    return {it.name: number for number, it in enumerate(clips)}
