"""The board, anew: edits and undos, jobs, filed results, plays, exports and a journal with what is owed, over cells.

Written from docs/ARCHITECTURE.md and the table of edits in docs/SCRIPT.md, not from the program, for whose answers it stands as
the measure. Each call is answered by the words that the tables of crates/core_tests have. The library is that of crates/test_media.
"""

from typing import Callable, Dict, List, NamedTuple, Optional, Tuple

from cells import Blend, Cells, Clip, Editor, Side

TWENTY, TWO = 20, 2
CLIPS = [Clip(TWENTY, True), Clip(TWENTY, True), Clip(TWENTY, False), Clip(TWO, True)]
FAULTY_FRAME, BLACK = 9, 255


class Recipe(NamedTuple):
    """What a frame shows: a side, or its blend with the side that goes."""

    side: Side
    outgoing: Side = None
    weight: int = 0


class Job:
    """A recipe to render: who holds it, and the entry that closed it."""

    def __init__(self, recipe: Recipe):
        self.recipe = recipe
        self.holder: Optional[int] = None
        self.closed: Optional[int] = None

    def is_queued(self) -> bool:
        return self.holder is None and self.closed is None


class Export(NamedTuple):
    name: str
    cells: Cells


class Full(Exception):
    """A call for which the journal has no room."""


def recipe_of(side: Side, blend: Optional[Blend]) -> Recipe:
    return Recipe(side, blend.outgoing, blend.weight()) if blend else Recipe(side)


def side_text(side: Side) -> str:
    return "black" if side is None else f"{side[0]} {side[1]}"


def recipe_text(recipe: Recipe) -> str:
    if not recipe.weight:
        return side_text(recipe.side)
    return f"mix {side_text(recipe.outgoing)} {side_text(recipe.side)} {recipe.weight}"


def segment_text(own: Cells) -> str:
    first = own[0]
    text = f"| {side_text(first.side)} {len(own)}"
    steps = sum(it.blend is not None for it in own)
    if not steps:
        return text
    return f"{text} mix {side_text(first.blend.outgoing)} {first.blend.step - 1} {steps} {first.blend.total}"


def line_text(cells: Cells) -> str:
    heads = [at for at, it in enumerate(cells) if it.is_head] + [len(cells)]
    return " ".join(segment_text(cells[at:end]) for at, end in zip(heads, heads[1:]))


def picture_of(recipe: Recipe) -> str:
    """The picture's number, or the fault of the first side that has one, the outgoing one before."""
    sides = [recipe.outgoing, recipe.side] if recipe.weight else [recipe.side]
    for it in sides:
        if it is not None and it[1] == FAULTY_FRAME:
            return f"fault {it[0]} {it[1]} Empty"
    if recipe.weight:
        return f"frame {recipe.weight}"
    return f"frame {BLACK if recipe.side is None else recipe.side[1]}"


class Board:
    """A machine over calls. `held` has each pass's job, where it holds one."""

    def __init__(self, cache: int, limit: int):
        self.cache, self.limit = cache, limit
        self.editor = Editor(CLIPS)
        self.jobs: List[Job] = []
        self.filed: List[Recipe] = []
        self.asked: List[Export] = []
        self.taken = 0
        self.held: Dict[int, int] = {}
        self.is_stopped = False
        self.entries, self.owed = 0, 1

    def enter(self, need: int = 1):
        """An entry, and room for the others that it will need."""
        if self.entries + self.owed + need > self.limit:
            raise Full
        self.entries += 1
        self.owed += need - 1

    def enter_owed(self):
        self.entries += 1
        self.owed -= 1

    def call(self, make: Callable[[], str]) -> str:
        try:
            return make()
        except Full:
            return f"full {self.entries} {self.owed}"

    def recipes(self) -> List[Recipe]:
        return [recipe_of(it.side, it.blend) for it in self.editor.cells]

    def close(self, is_closed: Callable[[Recipe], bool]) -> int:
        """Closes open jobs by the entry that was just made. How many they are."""
        closed = [it for it in self.jobs if it.closed is None and is_closed(it.recipe)]
        for it in closed:
            it.closed = self.entries
        return len(closed)

    def change(self, make: Callable[[], str]) -> str:
        self.enter()
        told = make()
        there = set(self.recipes())
        if told.startswith("ok"):
            self.close(lambda recipe: recipe not in there)
        return told

    def range(self, first: int, count: int) -> Optional[List[Recipe]]:
        recipes = self.recipes()
        return recipes[first : first + count] if first + count <= len(recipes) else None

    def past(self) -> str:
        return f"past {len(self.editor.cells)}"

    def want(self, first: int, count: int) -> str:
        self.enter()
        recipes, before = self.range(first, count), len(self.jobs)
        if recipes is None:
            return self.past()
        for it in recipes:
            is_open = any(job.recipe == it and job.closed is None for job in self.jobs)
            if it not in self.filed and not is_open:
                self.jobs.append(Job(it))
        return f"wanted {len(self.jobs) - before}"

    def cancel(self, first: int, count: int) -> str:
        self.enter()
        recipes = self.range(first, count)
        return self.past() if recipes is None else f"cancelled {self.close(lambda it: it in recipes)}"

    def claim(self, by: int) -> str:
        if self.is_stopped:
            return f"stopped {self.entries}"
        queued = [number for number, it in enumerate(self.jobs) if it.is_queued()]
        if not queued:
            return f"idle {self.entries}"
        self.enter(2)
        self.jobs[queued[0]].holder = by
        self.held[by] = queued[0]
        return f"claimed {queued[0] + 1} {recipe_text(self.jobs[queued[0]].recipe)}"

    def let_go(self, by: int) -> Job:
        self.enter_owed()
        job = self.jobs[self.held.pop(by)]
        job.holder = None
        return job

    def file(self, by: int) -> str:
        job = self.let_go(by)
        if job.closed is not None:
            return f"closed {job.closed}"
        job.closed = self.entries
        self.filed = [job.recipe, *self.filed][: self.cache]
        return "filed"

    def release(self, by: int) -> str:
        job = self.let_go(by)
        return "released" if job.closed is None else f"closed {job.closed}"

    def seen(self, frame: int, otherwise: str) -> str:
        self.enter()
        recipes = self.range(frame, 1)
        if recipes is None:
            return self.past()
        if recipes[0] not in self.filed:
            return f"{otherwise} {recipe_text(recipes[0])}"
        self.filed.remove(recipes[0])
        self.filed.insert(0, recipes[0])
        return picture_of(recipes[0])

    def ask(self, name: str) -> str:
        cells = self.editor.cells
        self.enter(3 if cells else 1)
        if not cells:
            return "refused EmptyTimeline"
        self.asked.append(Export(name, cells))
        return f"asked {len(self.asked)}"

    def export(self) -> str:
        """A take, and the end of what was taken."""
        if self.taken == len(self.asked):
            return f"{'stopped' if self.is_stopped else 'idle'} {self.entries}"
        self.enter_owed()
        self.enter_owed()
        export = self.asked[self.taken]
        self.taken += 1
        return f"taken {self.taken} {export.name} {line_text(export.cells)}"

    def note(self) -> str:
        self.enter()
        return "noted"

    def stop(self) -> str:
        self.enter_owed()
        self.is_stopped = True
        return "noted"
