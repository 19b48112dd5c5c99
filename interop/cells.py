"""The timeline as cells, one a frame, and what each edit makes of it: the table of edits in docs/SCRIPT.md, anew.

Written from those rules, not from the program, for whose answers it stands as the measure.
"""

from typing import Callable, Dict, List, NamedTuple, Optional, Sequence, Tuple

MOST_FRAMES, MOST_SEGMENTS, MOST_STEPS = 1_000_000, 100_000, 250
WEIGHTS = 256

# A clip's number and one of its frames; None is black.
Side = Optional[Tuple[int, int]]


class Blend(NamedTuple):
    """A step of a dissolve, counted from 1, out of the side that goes."""

    outgoing: Side
    step: int
    total: int

    def weight(self) -> int:
        return WEIGHTS * self.step // (self.total + 1)


class Cell(NamedTuple):
    """A frame of the timeline; a head is the first one of its segment."""

    side: Side
    blend: Optional[Blend] = None
    is_head: bool = False


class Clip(NamedTuple):
    """What an edit has to know of a clip."""

    frames: int
    fits: bool


class Refused(Exception):
    """An edit that isn't made, and why."""

    def __init__(self, why: str):
        super().__init__(why)
        self.why = why


Cells = List[Cell]


def need(is_met: bool, why: str):
    if not is_met:
        raise Refused(why)


def moved(side: Side, by: int) -> Side:
    return None if side is None else (side[0], side[1] + by)


def sides_from(side: Side, count: int) -> List[Side]:
    return [moved(side, by) for by in range(count)]


def segment(side: Side, count: int) -> Cells:
    return [Cell(it, None, number == 0) for number, it in enumerate(sides_from(side, count))]


def headed(cells: Cells) -> Cells:
    return [cells[0]._replace(is_head=True), *cells[1:]] if cells else []


def plain(sides: Sequence[Side]) -> Cells:
    """Cells that go on from the one before them, without a dissolve."""
    return [Cell(it) for it in sides]


def check_taken(clips: Sequence[Clip], sides: Sequence[Side]):
    """Of frames that are taken newly: each clip is there and fits, and has the frame."""
    named = [it for it in sides if it is not None]
    need(all(clip < len(clips) for clip, _ in named), "NoClip")
    need(all(clips[clip].fits for clip, _ in named), "ShapeDiffers")
    need(all(0 <= frame < clips[clip].frames for clip, frame in named), "OutsideClip")


def checked(cells: Cells) -> Cells:
    """The cells, where there aren't too many of them."""
    need(len(cells) <= MOST_FRAMES, "TooManyFrames")
    need(sum(it.is_head for it in cells) <= MOST_SEGMENTS, "TooManySegments")
    return cells


class Timeline:
    """The cells of a session over its clips. Each edit answers the cells that it makes, or raises `Refused`."""

    def __init__(self, clips: Sequence[Clip], cells: Cells):
        self.clips, self.cells = clips, cells

    def bounds(self, at: int) -> Tuple[int, int]:
        """Where the segment that has the frame begins, and where it ends."""
        start, end = at, at + 1
        while not self.cells[start].is_head:
            start -= 1
        while end < len(self.cells) and not self.cells[end].is_head:
            end += 1
        return start, end

    def parts(self, at: int) -> Tuple[Cells, Cells, Cells]:
        """The segment that has the frame, between what is before it and what is after it."""
        need(at < len(self.cells), "PastEnd")
        start, end = self.bounds(at)
        return self.cells[:start], self.cells[start:end], self.cells[end:]

    def insert(self, at: int, side: Side, count: int) -> Cells:
        need(at <= len(self.cells), "PastEnd")
        check_taken(self.clips, sides_from(side, count))
        return self.cells[:at] + segment(side, count) + headed(self.cells[at:])

    def overwrite(self, at: int, side: Side, count: int) -> Cells:
        need(at <= len(self.cells), "PastEnd")
        check_taken(self.clips, sides_from(side, count))
        return self.cells[:at] + segment(side, count) + headed(self.cells[at + count :])

    def extract(self, at: int, count: int) -> Cells:
        need(at + count <= len(self.cells), "PastEnd")
        return self.cells[:at] + headed(self.cells[at + count :])

    def lift(self, at: int, count: int) -> Cells:
        need(at + count <= len(self.cells), "PastEnd")
        return self.overwrite(at, None, count)

    def split(self, at: int) -> Cells:
        need(at < len(self.cells), "PastEnd")
        return self.cells[:at] + headed(self.cells[at:])

    def trimin(self, at: int, by: int) -> Cells:
        before, own, after = self.parts(at)
        if by >= 0:
            need(by < len(own), "PastEnd")
            return before + headed(own[by:]) + after
        first = moved(own[0].side, by)
        check_taken(self.clips, sides_from(first, -by))
        return before + segment(first, -by) + plain([it.side for it in own]) + after

    def trimout(self, at: int, by: int) -> Cells:
        before, own, after = self.parts(at)
        if by >= 0:
            need(by < len(own), "PastEnd")
            return before + own[: len(own) - by] + after
        more = sides_from(moved(own[-1].side, 1), -by)
        check_taken(self.clips, more)
        return before + own + plain(more) + after

    def slip(self, at: int, by: int) -> Cells:
        before, own, after = self.parts(at)
        slipped = [it._replace(side=moved(it.side, by)) for it in own]
        check_taken(self.clips, [it.side for it in slipped])
        return before + slipped + after

    def dissolve(self, at: int, count: int) -> Cells:
        before, own, after = self.parts(at)
        need(at > 0 and self.cells[at].is_head, "NoCut")
        outgoing = sides_from(moved(before[-1].side, 1), min(count, len(own)))
        check_taken(self.clips, outgoing)
        need(count <= min(len(own), MOST_STEPS), "MixTooLong")
        blends = [Blend(it, number + 1, count) for number, it in enumerate(outgoing)]
        blends += [None] * (len(own) - count)
        return before + [it._replace(blend=blend) for it, blend in zip(own, blends)] + after

    def relink(self, at: int, clip: int, first: int) -> Cells:
        before, own, after = self.parts(at)
        sides = sides_from((clip, first), len(own))
        check_taken(self.clips, sides)
        return before + [it._replace(side=side) for it, side in zip(own, sides)] + after

    def replace(self, segments: Sequence) -> Cells:
        """The segments of an edit list, as `edl.build` answers them."""
        made: Cells = []
        for it in segments:
            cells = segment(it.source, it.length)
            outgoing = sides_from(it.outgoing, min(it.steps, it.length))
            blends = [Blend(side, number + 1, it.steps) for number, side in enumerate(outgoing)]
            made += [cell._replace(blend=blend) for cell, blend in zip(cells, blends)] + cells[len(blends) :]
        check_taken(self.clips, [cell.side for cell in made] + [cell.blend.outgoing for cell in made if cell.blend])
        need(all(it.steps <= min(it.length, MOST_STEPS) for it in segments), "MixTooLong")
        return made


class Editor:
    """A timeline with what undo and redo lead to. Each call answers its line."""

    def __init__(self, clips: Sequence[Clip]):
        self.clips = clips
        self.cells: Cells = []
        self.undone: List[Cells] = []
        self.done: List[Cells] = []

    def edit(self, make: Callable[[Timeline], Cells]) -> str:
        try:
            cells = checked(make(Timeline(self.clips, self.cells)))
        except Refused as refusal:
            return f"refused {refusal.why}"
        self.done.append(self.cells)
        self.undone, self.cells = [], cells
        return f"ok {len(cells)}"

    def undo(self) -> str:
        return self.step(self.done, self.undone, "NothingToUndo")

    def redo(self) -> str:
        return self.step(self.undone, self.done, "NothingToRedo")

    def step(self, source: List[Cells], target: List[Cells], why: str) -> str:
        if not source:
            return f"refused {why}"
        target.append(self.cells)
        self.cells = source.pop()
        return f"ok {len(self.cells)}"


def by_call(word: str, values: Sequence, number_of: Dict[str, int]) -> Callable[[Timeline], Cells]:
    """The edit that a line of a script asks for. A name that no clip has is the number of clips."""
    number = lambda name: number_of.get(name, len(number_of))
    if word in ("insert", "overwrite"):
        at, name, first, count = values
        side = None if name == "black" else (number(name), first)
        return lambda it: getattr(it, word)(at, side, count)
    if word == "relink":
        at, name, first = values
        return lambda it: it.relink(at, number(name), first)
    return lambda it: getattr(it, word)(*values)
