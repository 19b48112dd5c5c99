"""What a session prints, shows and exports: the script of docs/SCRIPT.md over cells and frames, anew.

Written from those rules, not from the program, for whose answers it stands as the measure. What is printed is told as it is without
workers. Beside them a play may say `pending` in place of its frame, or the frame where that would be pending, and the counts of wants,
cancels and work may be others; nothing else.
"""

from typing import Callable, Dict, List, NamedTuple, Sequence, Tuple

import edl
from cells import Cells, Editor, by_call
from media import Damage, Media, Recipe, number_in, recipe_of
from scripts import Call, Script
from written import written_file

AHEAD = 8
USUAL_CACHE, USUAL_JOURNAL = 64, 1_000_000
FAULTY_EXPORT, FULL = 7, 6


class Export(NamedTuple):
    """What an export's file must be, or must begin, where it ends at a faulty frame."""

    file: str
    data: bytes
    is_whole: bool


class Line(NamedTuple):
    """A line as it is without workers, what it may be beside them, and the picture that the screen gets where it says `frame`."""

    text: str
    others: Sequence[str] = ()
    picture: bytes = b""

    def may_be(self, found: str) -> bool:
        return found == self.text or found in self.others


class Outcome(NamedTuple):
    lines: List[Line]
    exports: List[Export]
    status: int

    def texts(self) -> List[str]:
        return [it.text for it in self.lines]

    def screen(self, found: Sequence[str]) -> bytes:
        """What the screen gets where these lines are printed."""
        return b"".join(line.picture for line, it in zip(self.lines, found) if it.startswith("frame "))


def counted(word: str, most: int) -> List[str]:
    """The lines of a count up to so many: beside workers it depends on how far they are."""
    return [f"{word} {count}" for count in range(most + 1)]


class Full(Exception):
    """A call for which the journal has no room."""


class Journal:
    """How many calls were made, and how many are owed: the stop, and the end of each thing that was begun."""

    def __init__(self, limit: int):
        self.limit, self.length, self.owed = limit, 0, 1

    def enter(self, more_owed: int = 0):
        if self.length + self.owed + 1 + more_owed > self.limit:
            raise Full
        self.length += 1
        self.owed += more_owed

    def enter_owed(self):
        self.length += 1
        self.owed -= 1


class Session:
    """Plays a script's body. `lists` has the edit lists by their files."""

    def __init__(self, script: Script, media: Media, lists: Dict[str, bytes], cache=USUAL_CACHE, journal=USUAL_JOURNAL):
        self.script, self.media, self.lists, self.cache = script, media, lists, cache
        self.editor = Editor(media.known())
        self.journal = Journal(journal)
        self.wanted: List[Recipe] = []
        self.kept: List[Recipe] = []
        self.asked: List[Tuple[str, Cells]] = []
        self.lines: List[Line] = []

    def run(self) -> Outcome:
        status = 0
        try:
            for call in self.script.body:
                self.play(call)
        except Full:
            self.say(f"journal full {self.journal.length} {self.journal.owed}")
            status = FULL
        exports = [self.export(number, *it) for number, it in enumerate(self.asked, 1)]
        if not all(it.is_whole for it in exports):
            status = status or FAULTY_EXPORT
        return Outcome(self.lines, exports, status)

    def say(self, text: str, others: Sequence[str] = (), picture: bytes = b""):
        self.lines.append(Line(text, others, picture))

    def play(self, call: Call):
        table: Dict[str, Callable] = {
            "undo": lambda: self.change(self.editor.undo),
            "redo": lambda: self.change(self.editor.redo),
            "edl": self.replace,
            "want": self.want,
            "cancel": self.cancel,
            "play": self.play_frame,
            "show": self.show,
            "roll": self.roll,
            "work": self.work,
            "export": self.ask,
        }
        if call.word in table:
            table[call.word](*call.values)
        else:
            edit = by_call(call.word, call.values, number_in(self.media.clips))
            self.change(lambda: self.editor.edit(edit))

    # Edits

    def change(self, make: Callable[[], str]):
        self.journal.enter()
        self.say(make())
        there = {recipe_of(cell) for cell in self.editor.cells}
        self.wanted = [it for it in self.wanted if it in there]

    def replace(self, file: str):
        starts = {it.name: it.start for it in self.script.clips}
        rate = self.script.rate
        clips = [edl.Clip(it.name, edl.frame_number(starts[it.name].text(), rate)) for it in self.media.clips]
        try:
            segments = edl.build(edl.read_edl(self.lists[file], rate).events, clips)
        except edl.Fault as fault:
            self.journal.enter()
            self.say(f"edl line {fault.line} {fault.why}")
            return
        self.change(lambda: self.editor.edit(lambda it: it.replace(segments)))

    # Frames

    def range(self, first: int, count: int) -> List[Recipe]:
        """The recipes of a range; none where it passes the end."""
        cells = self.editor.cells
        return [recipe_of(it) for it in cells[first : first + count]] if first + count <= len(cells) else []

    def past(self) -> str:
        return f"past {len(self.editor.cells)}"

    def want(self, first: int, count: int):
        self.journal.enter()
        before = len(self.wanted)
        recipes = self.range(first, count)
        for it in recipes:
            if it not in self.kept and it not in self.wanted:
                self.wanted.append(it)
        self.tell_count("wanted", len(self.wanted) - before, recipes)

    def cancel(self, first: int, count: int):
        self.journal.enter()
        before = len(self.wanted)
        recipes = self.range(first, count)
        self.wanted = [it for it in self.wanted if it not in recipes]
        self.tell_count("cancelled", before - len(self.wanted), recipes)

    def work(self, turns: int):
        """Turns of work, each of which renders what was asked for first and keeps it."""
        self.journal.enter()
        filed = 0
        try:
            while filed < turns and self.wanted:
                self.journal.enter(1)
                recipe = self.wanted.pop(0)
                self.kept = [recipe, *self.kept][: self.cache]
                self.journal.enter_owed()
                filed += 1
        finally:
            self.say(f"worked {filed}", counted("worked", turns))

    def tell_count(self, word: str, count: int, recipes: List[Recipe]):
        if recipes:
            self.say(f"{word} {count}", counted(word, len(set(recipes))))
        else:
            self.say(self.past())

    def given(self, frame: int, recipe: Recipe) -> Tuple[str, bytes]:
        """The line where a frame is given, and its picture."""
        picture = self.media.render(recipe)
        return (f"fault {frame} {picture.kind}", b"") if isinstance(picture, Damage) else (f"frame {frame}", picture)

    def to_front(self, recipe: Recipe) -> bool:
        """Whether a recipe is kept; it is then the latest."""
        if recipe not in self.kept:
            return False
        self.kept.remove(recipe)
        self.kept.insert(0, recipe)
        return True

    def play_frame(self, frame: int):
        self.journal.enter()
        recipes = self.range(frame, 1)
        if not recipes:
            self.say(self.past())
            return
        given, picture = self.given(frame, recipes[0])
        pending = f"pending {frame}"
        text, other = (given, pending) if self.to_front(recipes[0]) else (pending, given)
        self.say(text, [other], picture)

    def show(self, frame: int):
        self.journal.enter()
        recipes = self.range(frame, 1)
        if not recipes:
            self.say(self.past())
            return
        self.to_front(recipes[0])
        given, picture = self.given(frame, recipes[0])
        self.say(given, picture=picture)

    def roll(self, first: int, count: int):
        self.want(first, min(AHEAD, count))
        for number in range(count):
            self.play_frame(first + number)
            if number + AHEAD < count:
                self.want(first + number + AHEAD, 1)

    # Exports

    def ask(self, file: str):
        cells = self.editor.cells
        self.journal.enter(2 if cells else 0)
        if cells:
            self.asked.append((file, cells))
        self.say(f"asked {len(self.asked)}" if cells else "refused EmptyTimeline")

    def export(self, number: int, file: str, cells: Cells) -> Export:
        packets = []
        for at, cell in enumerate(cells):
            packet = self.media.packet(recipe_of(cell))
            if isinstance(packet, Damage):
                self.say(f"export {number} fault {at} {packet.clip} {packet.frame} {packet.kind}")
                return Export(file, self.file_of(packets), False)
            packets.append(packet)
        self.say(f"export {number} done {len(packets)}")
        return Export(file, self.file_of(packets), True)

    def file_of(self, packets: List[bytes]) -> bytes:
        media = self.media
        return written_file(media.record, media.width, media.height, self.script.rate, packets)
