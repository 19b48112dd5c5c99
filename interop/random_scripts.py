"""Makes scripts and edit lists at random, most of whose calls can be made: a model of the session tells how long the timeline is."""

from random import Random
from typing import Callable, Dict, List, Sequence, Tuple

from media import Clip, Media
from scripts import Call, Script
from session_model import Session

LONG = 40
NAMES_OF_NO_CLIP = ("nobody", "A2", "Black")


class Drafter:
    """Draws the lines of a script one by one, and plays each, so that the next one fits."""

    def __init__(self, random: Random, script: Script, media: Media):
        self.random, self.media, self.script = random, media, script
        self.lists: Dict[str, bytes] = {}
        self.session = Session(script, media, self.lists)
        self.exports = 0
        self.calls: List[Call] = []

    def length(self) -> int:
        return len(self.session.editor.cells)

    def draw(self, count: int):
        """Some edits first, then any calls, and an export."""
        for number in range(count):
            word = self.weighted(EDITS if number < 4 or self.random.random() < 0.5 else OTHERS)
            self.add(word, DRAWN[word](self))
        self.add("export", DRAWN["export"](self))

    def weighted(self, table: Sequence[Tuple[str, int]]) -> str:
        words, weights = zip(*table)
        return self.random.choices(words, weights)[0]

    def add(self, word: str, values: Tuple):
        call = Call(word, tuple(values))
        self.calls.append(call)
        self.session.play(call)

    # Places, lengths and clips

    def is_odd(self) -> bool:
        return self.random.random() < 0.08

    def place(self) -> int:
        """A frame of the timeline, mostly."""
        return self.random.randrange(max(1, self.length())) + (self.random.randrange(1, 4) * self.is_odd() * LONG)

    def gap(self) -> int:
        """A place to insert at: also the end."""
        return self.random.randint(0, self.length()) + self.is_odd()

    def head(self) -> int:
        heads = [at for at, cell in enumerate(self.session.editor.cells) if cell.is_head and at]
        return self.random.choice(heads) if heads and not self.is_odd() else self.place()

    def count_from(self, at: int) -> int:
        return self.random.randint(1, max(1, min(8, self.length() - at))) + self.is_odd() * 3

    def clip(self) -> Clip:
        return self.random.choice(self.media.clips)

    def source(self, most: int) -> Tuple[str, int, int]:
        """A clip's name, its first frame that is taken, and how many frames."""
        choice = self.random.random()
        if choice < 0.1:
            return "black", self.random.randrange(20), self.random.randint(1, most)
        if choice < 0.13:
            return self.random.choice(NAMES_OF_NO_CLIP), 0, 1
        clip = self.clip()
        first = self.random.randrange(len(clip.packets))
        return clip.name, first, self.random.randint(1, max(1, min(most, len(clip.packets) - first))) + self.is_odd() * 9

    def taken(self) -> Tuple:
        return self.source(3 if self.length() > LONG else 9)

    def cut_place(self, drawn: Callable[[], int]) -> Tuple[int, int]:
        at = drawn()
        return at, self.count_from(at)

    def by(self) -> int:
        return self.random.choice((-4, -3, -2, -1, -1, 0, 1, 1, 2, 3, 5))

    def edit_list(self) -> str:
        name = f"list{len(self.lists)}.edl"
        self.lists[name] = ListDrafter(self.random, self.script, self.media).text().encode()
        return name

    def export(self) -> str:
        self.exports += 1
        return f"export{self.exports}.mkv"


EDITS = (
    ("insert", 8), ("overwrite", 4), ("extract", 2), ("lift", 2), ("split", 2), ("trimin", 3), ("trimout", 3), ("slip", 2),
    ("dissolve", 7), ("relink", 2), ("edl", 2), ("undo", 3), ("redo", 2),
)  # fmt: skip
OTHERS = (("want", 5), ("cancel", 2), ("play", 6), ("show", 5), ("roll", 1), ("work", 5), ("export", 2))
DRAWN: Dict[str, Callable[[Drafter], Tuple]] = {
    "insert": lambda it: (it.gap(), *it.taken()),
    "overwrite": lambda it: (it.gap(), *it.taken()),
    "extract": lambda it: it.cut_place(it.place),
    "lift": lambda it: it.cut_place(it.place),
    "split": lambda it: (it.place(),),
    "trimin": lambda it: (it.place(), it.by()),
    "trimout": lambda it: (it.place(), it.by()),
    "slip": lambda it: (it.place(), it.by()),
    "dissolve": lambda it: (it.head(), it.random.choice((0, 1, 2, 2, 3, 3, 4, 5, 8))),
    "relink": lambda it: (it.place(), *it.source(3)[:2]),
    "edl": lambda it: (it.edit_list(),),
    "undo": lambda it: (),
    "redo": lambda it: (),
    "want": lambda it: it.cut_place(it.place),
    "cancel": lambda it: it.cut_place(it.place),
    "play": lambda it: (it.place(),),
    "show": lambda it: (it.place(),),
    "roll": lambda it: (it.place(), it.random.randint(1, 12)),
    "work": lambda it: (it.random.randint(1, 9),),
    "export": lambda it: (it.export(),),
}


class ListDrafter:
    """Draws an edit list of a few cuts and dissolves over a session's clips; now and then one that is faulty."""

    def __init__(self, random: Random, script: Script, media: Media):
        self.random, self.media, self.rate = random, media, script.rate
        starts = {it.name: it.start for it in script.clips}
        frames_in = lambda it: (3600 * it.hours + 60 * it.minutes + it.seconds) * self.rate + it.frames
        self.starts = {name: frames_in(start) for name, start in starts.items()}
        self.record = random.choice((0, 3600 * self.rate))
        self.lines: List[str] = []

    def text(self) -> str:
        self.lines = ["TITLE: AT RANDOM", "FCM: NON-DROP FRAME", ""]
        for number in range(1, self.random.randint(2, 5)):
            self.record += self.random.choice((0, 0, 0, 0, 2, 5)) - (self.random.random() < 0.04)
            (self.dissolve if self.random.random() < 0.5 else self.cut)(f"{number:03}")
        end = self.random.choice(("\n", "\r\n"))
        return end.join([*self.lines, ""])

    def timecode(self, frame: int) -> str:
        seconds, frames = divmod(max(0, frame), self.rate)
        return f"{seconds // 3600:02}:{seconds // 60 % 60:02}:{seconds % 60:02}:{frames:02}"

    def times(self, source: int, length: int) -> str:
        longer = self.random.random() < 0.03
        ends = (source, source + length + longer, self.record, self.record + length)
        return " ".join(self.timecode(it) for it in ends)

    def source(self) -> Tuple[str, int, int]:
        """A clip's name, its first frame as a source's, and how many frames it has from there on."""
        clip = self.random.choice(self.media.clips)
        first = self.random.randrange(len(clip.packets))
        early = self.random.random() < 0.02
        return clip.name, self.starts[clip.name] + first - early, len(clip.packets) - first

    def line(self, number: str, reel: str, kind: str, times: str):
        channel = self.random.choice(("V", "V", "V", "B", "AA/V"))
        self.lines.append(f"{number}  {reel:<8} {channel:<5} {kind:<9} {times}")

    def named(self) -> Tuple[str, str, int, int]:
        """A reel, the name that it goes by where it is AX, and its frames."""
        if self.random.random() < 0.1:
            return "BL", "", 0, 9
        name, first, left = self.source()
        reel = self.random.choice(("AX", name)) if self.random.random() < 0.97 else "NOBODY"
        return reel, name if reel == "AX" else "", first, left

    def cut(self, number: str):
        reel, name, first, left = self.named()
        length = self.random.randint(1, max(1, min(9, left))) + (self.random.random() < 0.04)
        self.line(number, reel, "C", self.times(first, length))
        if name:
            self.lines.append(f"* FROM CLIP NAME: {name}")
        if self.random.random() < 0.2:
            self.lines.append(f"{number}  {reel:<8} A     C         {self.times(first, length)}")
        self.record += length

    def dissolve(self, number: str):
        old_reel, old_name, old_first, _ = self.named()
        reel, name, first, left = self.named()
        length = self.random.randint(1, max(1, min(9, left)))
        steps = self.random.randint(0, length) + (self.random.random() < 0.04)
        self.line(number, old_reel, "C", self.times(old_first, 0))
        self.line(number, reel, f"D    {steps:03}", self.times(first, length))
        self.lines += [f"* FROM CLIP NAME: {old_name}"] * bool(old_name) + [f"* TO CLIP NAME:  {name}"] * bool(name)
        self.record += length
