#!/usr/bin/env python3
"""The random calls of crates/core_tests, with what the model of board_model.py answers. Run by itself it writes them anew."""

import random
import textwrap
from pathlib import Path
from typing import Callable, List, NamedTuple, Tuple

from board_model import Board
from cells import Timeline
from report import Report

PLACE = Path(__file__).resolve().parent.parent / "crates" / "core_tests" / "src" / "random_calls"
WIDTH, CALLS, SEED = 130, 500, 20
PASSES = (0, 1, 2)
KINDS = ("edit", "undo", "redo", "frame", "job", "ask", "export", "mark", "skip")
EDITS = ("insert", "overwrite", "extract", "lift", "split", "trimin", "trimout", "slip", "dissolve", "relink")
MANY = 40  # frames, from which on a timeline gets no longer


class Plan(NamedTuple):
    """A session: its name, the sizes of its cache and its journal, and the call at which it is stopped."""

    name: str
    cache: int
    limit: int
    stop: int


PLANS = [Plan("ONE", 1, 100_000, 490), Plan("TWO", 2, 100_000, CALLS), Plan("SIX", 6, 100_000, 470), Plan("TIGHT", 4, 330, CALLS)]


class Player:
    """Makes random calls on a board, each with its answer."""

    def __init__(self, plan: Plan, source: random.Random):
        self.plan, self.source = plan, source
        self.board = Board(plan.cache, plan.limit)

    def length(self) -> int:
        return len(self.board.editor.cells)

    def place(self, more: int = 1) -> int:
        return self.source.randint(0, self.length() + more)

    def head(self) -> int:
        """A place where a segment begins, or some other one."""
        heads = [at for at, it in enumerate(self.board.editor.cells) if it.is_head]
        return self.source.choice(heads) if heads and self.source.random() < 0.8 else self.place()

    def frame(self) -> int:
        """A frame of a dissolve, or any other one, or one past the end."""
        mixed = [at for at, it in enumerate(self.board.editor.cells) if it.blend]
        return self.source.choice(mixed) if mixed and self.source.random() < 0.5 else self.place()

    def side(self) -> Tuple[int, int]:
        clip = self.source.choices((0, 1, 2, 3, 4), (10, 10, 1, 2, 1))[0]
        return None if self.source.random() < 0.15 else (clip, self.source.randint(0, 14))

    def edit(self) -> Tuple[str, Callable[[Timeline], list]]:
        source = self.source
        kind = source.choices(EDITS, (9, 3, 3, 1, 2, 3, 3, 4, 14, 3))[0]
        if kind == "insert" and self.length() > MANY:
            kind = "extract"
        if kind in ("insert", "overwrite"):
            values = (self.place(), self.side(), source.randint(1, 9))
        elif kind in ("extract", "lift"):
            values = (self.place(0), source.randint(1, 8 if self.length() < MANY else 20))
        elif kind == "split":
            values = (self.place(),)
        elif kind == "dissolve":
            values = (self.head(), source.randint(0, 6))
        elif kind == "relink":
            values = (self.place(), source.choices((0, 1, 2, 4), (6, 6, 1, 1))[0], source.randint(0, 15))
        else:
            values = (self.place(), source.randint(-4, 4))
        words = ["black" if it is None else " ".join(map(str, it)) if isinstance(it, tuple) else str(it) for it in values]
        return " ".join([kind, *words]), lambda it: getattr(it, kind)(*values)

    def range(self) -> Tuple[int, int]:
        return self.frame(), self.source.randint(1, 4)

    def frame_call(self, by: int) -> Tuple[str, Callable[[], str]]:
        board, source = self.board, self.source
        kind = source.choices(("want", "cancel", "play", "show"), (8, 2, 8, 4))[0]
        if kind in ("want", "cancel"):
            first, count = self.range()
            return f"{kind} {first} {count}", lambda: getattr(board, kind)(first, count)
        frame = self.frame()
        return f"{kind} {frame}", lambda: board.seen(frame, "pending" if kind == "play" else "render")

    def job_call(self, by: int) -> Tuple[str, Callable[[], str]]:
        board = self.board
        if by not in board.held:
            return "claim", lambda: board.claim(by)
        kind = self.source.choices(("file", "release"), (4, 1))[0]
        return kind, lambda: getattr(board, kind)(by)

    def next_call(self, by: int, number: int) -> Tuple[str, Callable[[], str]]:
        board, source = self.board, self.source
        if number == self.plan.stop:
            return "stop", board.stop
        jobs = 34 if board.held or any(it.is_queued() for it in board.jobs) else 3
        redo = 5 if board.editor.undone else 1
        kind = source.choices(KINDS, (22, 6, redo, 34, jobs, 4, 5, 1, 1))[0]
        if kind == "edit":
            words, make = self.edit()
            return f"edit {words}", lambda: board.change(lambda: board.editor.edit(make))
        if kind in ("undo", "redo"):
            return kind, lambda: board.change(getattr(board.editor, kind))
        if kind == "frame":
            return self.frame_call(by)
        if kind == "job":
            return self.job_call(by)
        if kind == "ask":
            return f"ask e{number}", lambda: board.ask(f"e{number}")
        if kind == "export":
            frames = source.randint(0, 9)
            return source.choice(("export sink", f"export {frames}")), board.export
        return (f"mark {number}" if kind == "mark" else "skip"), board.note

    def row(self, number: int) -> str:
        by = 0 if number == self.plan.stop else self.source.choice(PASSES)
        words, make = self.next_call(by, number)
        return f"{by} {words} = {self.board.call(make)}"


def rows_of(plan: Plan, source: random.Random) -> List[str]:
    player = Player(plan, source)
    return [player.row(number) for number in range(CALLS)]


def table_of(plan: Plan, source: random.Random) -> str:
    lines = textwrap.wrap("; ".join(rows_of(plan, source)), WIDTH, break_on_hyphens=False)
    body = "".join(f'    "{it}",\n' for it in lines)
    doc = f"/// {CALLS} calls over {plan.cache} filed results and {plan.limit} entries at most, in pieces."
    return f"{doc}\n#[rattlefmt::skip]\npub static {plan.name}: [&str; {len(lines)}] = [\n{body}];\n"


def files() -> List[Tuple[Path, str]]:
    source = random.Random(SEED)
    head = "//! Random calls with their answers, which interop/board_calls.py writes by a model of its own.\n\n"
    return [(PLACE / f"{plan.name.lower()}.rt", head + table_of(plan, source)) for plan in PLANS]


def check_board_calls(report: Report):
    wrong = [path.name for path, text in files() if path.read_text() != text]
    report.check("the random calls of core_tests", [f"{it} isn't what the model says" for it in wrong])


def main():
    for path, text in files():
        path.parent.mkdir(exist_ok=True)
        path.write_text(text)


if __name__ == "__main__":
    main()
