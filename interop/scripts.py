"""Reads scripts, or names the first fault that they have: the whole script of docs/SCRIPT.md, anew.

Written from those rules alone, not from the program, for whose answers it stands as the measure.
"""

import re
from typing import Callable, Dict, List, NamedTuple, Optional, Sequence, Set, Tuple, Union

BLACK = "black"
MOST_LINES, MOST_CLIPS, MOST_NUMBER, MOST_RATE = 100_000, 1000, 1_000_000, 240
MOST_SIDE, MOST_SLICES = 8192, 1024
BLANKS = re.compile(rb"[ \t\r]+")
NUMBER = re.compile("[0-9]{1,7}")
TIMECODE = re.compile("([0-9]{2}):([0-9]{2}):([0-9]{2}):([0-9]{2,3})")

# How often a CHROMA halves the width and the height; `grey` has no chroma planes.
HALVINGS: Dict[str, Optional[Tuple[int, int]]] = {
    "grey": None,
    "444": (0, 0),
    "440": (0, 1),
    "422": (1, 0),
    "420": (1, 1),
    "411": (2, 0),
    "410": (2, 2),
}
CODERS = ("range", "rice")


class Fault(Exception):
    """The first fault of a script: the number of its line, counted from 1, and its name."""

    def __init__(self, line: int, why: str):
        super().__init__(f"line {line} {why}")
        self.line, self.why = line, why


class Timecode(NamedTuple):
    hours: int
    minutes: int
    seconds: int
    frames: int

    def text(self) -> str:
        return ":".join(f"{it:02}" for it in self)


class Clip(NamedTuple):
    name: str
    file: str
    start: Timecode

    def text(self) -> str:
        return f"clip {self.name} {self.file} {self.start.text()}"


class LikeClip(NamedTuple):
    """The format of the clip of a name."""

    name: str

    def text(self) -> str:
        return f"format as {self.name}"


class Format(NamedTuple):
    width: int
    height: int
    chroma: str
    coder: str
    columns: int
    rows: int

    def text(self) -> str:
        return "format " + " ".join(map(str, self))


class Call(NamedTuple):
    """A line of the body: its word, and what stands after it, numbers as numbers."""

    word: str
    values: Tuple[Union[int, str], ...]

    def text(self) -> str:
        return " ".join(map(str, (self.word, *self.values)))


class Script(NamedTuple):
    rate: int
    clips: List[Clip]
    format: Union[LikeClip, Format]
    body: List[Call]


# Words


def lines_of(text: bytes) -> List[bytes]:
    """A line feed ends a line; a last piece without one is a line unless it is empty."""
    *ended, rest = text.split(b"\n")
    return [*ended, rest] if rest else ended


def words_of(line: bytes) -> List[bytes]:
    return [it for it in BLANKS.split(line) if it]


def number_of(word: str, least: int = 0, most: int = MOST_NUMBER) -> int:
    if not NUMBER.fullmatch(word) or not least <= int(word) <= most:
        raise ValueError("Number")
    return int(word)


def count_of(word: str) -> int:
    """A LEN or an N."""
    return number_of(word, 1)


def change_of(word: str) -> int:
    """A BY: one minus may stand before it."""
    return -number_of(word[1:]) if word.startswith("-") else number_of(word)


def timecode_of(word: str, rate: int) -> Timecode:
    found = TIMECODE.fullmatch(word)
    if not found:
        raise ValueError("Timecode")
    timecode = Timecode(*map(int, found.groups()))
    if timecode.hours > 23 or timecode.minutes > 59 or timecode.seconds > 59 or timecode.frames >= rate:
        raise ValueError("Timecode")
    return timecode


Kind = Callable[[str], Union[int, str]]
NAME: Kind = str
FILE: Kind = str
CALLS: Dict[str, Sequence[Kind]] = {
    "insert": (number_of, NAME, number_of, count_of),
    "overwrite": (number_of, NAME, number_of, count_of),
    "extract": (number_of, count_of),
    "lift": (number_of, count_of),
    "split": (number_of,),
    "trimin": (number_of, change_of),
    "trimout": (number_of, change_of),
    "slip": (number_of, change_of),
    "dissolve": (number_of, number_of),
    "relink": (number_of, NAME, number_of),
    "edl": (FILE,),
    "undo": (),
    "redo": (),
    "want": (number_of, count_of),
    "cancel": (number_of, count_of),
    "play": (number_of,),
    "show": (number_of,),
    "roll": (number_of, count_of),
    "work": (count_of,),
    "export": (FILE,),
}
HEADER = ("rate", "clip", "format")


# Formats


def rounded_up(value: int, divisor: int) -> int:
    return -(-value // divisor)


def reaches_end(side: int, parts: int, halvings: int) -> bool:
    """Whether the last column or row of a grid ends where a chroma plane does."""
    start, divisor = (parts - 1) * side // parts, 2**halvings
    return start // divisor + rounded_up(side - start, divisor) == rounded_up(side, divisor)


def is_within_limits(it: Format) -> bool:
    if not (1 <= it.width <= MOST_SIDE and 1 <= it.height <= MOST_SIDE):
        return False
    if it.chroma not in HALVINGS or it.coder not in CODERS:
        return False
    if not (1 <= it.columns <= it.width and 1 <= it.rows <= it.height and it.columns * it.rows <= MOST_SLICES):
        return False
    halvings = HALVINGS[it.chroma]
    return halvings is None or (reaches_end(it.width, it.columns, halvings[0]) and reaches_end(it.height, it.rows, halvings[1]))


# Lines


def counts_of(word: str, rest: Sequence[str]) -> Sequence[int]:
    """How many words may stand after the first one; of a format its second word decides."""
    if word == "rate":
        return (1,)
    if word == "clip":
        return (2, 3)
    if word == "format":
        return (2,) if rest[:1] == ["as"] else (6,)
    return (len(CALLS[word]),)


class Lines:
    """Takes the lines of a script one by one. Of a line's faults the first in the document's order is told."""

    def __init__(self) -> None:
        self.rate: Optional[int] = None
        self.clips: List[Clip] = []
        self.names: Set[str] = set()
        self.format: Union[LikeClip, Format, None] = None
        self.body: List[Call] = []
        self.used_files: Set[str] = set()
        self.exported_files: Set[str] = set()

    def take(self, number: int, line: bytes):
        try:
            self.take_line(number, line)
        except UnicodeDecodeError:
            raise Fault(number, "Utf8") from None
        except ValueError as fault:
            raise Fault(number, str(fault)) from None

    def take_line(self, number: int, line: bytes):
        words = words_of(line)
        if number > MOST_LINES:
            raise ValueError("Limit")
        if line.startswith(b"#") or not words:
            return
        if words[0] == b"clip" and len(self.clips) == MOST_CLIPS:
            raise ValueError("Limit")
        self.take_words([it.decode("utf-8") for it in words])

    def take_words(self, words: Sequence[str]):
        word, *rest = words
        if word not in HEADER and word not in CALLS:
            raise ValueError("Word")
        if not self.may_stand(word):
            raise ValueError("Order")
        if len(rest) not in counts_of(word, rest):
            raise ValueError("Count")
        if word == "rate":
            self.rate = number_of(rest[0], 1, MOST_RATE)
        elif word == "clip":
            self.take_clip(*rest)
        elif word == "format":
            self.take_format(rest)
        else:
            self.take_call(Call(word, tuple(kind(it) for kind, it in zip(CALLS[word], rest))))

    def may_stand(self, word: str) -> bool:
        if word == "rate":
            return self.rate is None
        if word in HEADER:
            return self.rate is not None and self.format is None
        return self.format is not None

    def take_clip(self, name: str, file: str, start: str = "00:00:00:00"):
        clip = Clip(name, file, timecode_of(start, self.rate))
        if name == BLACK or name in self.names:
            raise ValueError("SameName")
        self.clips.append(clip)
        self.names.add(name)
        self.used_files.add(file)

    def take_format(self, rest: Sequence[str]):
        if rest[0] == "as":
            if rest[1] not in self.names:
                raise ValueError("UnknownClip")
            self.format = LikeClip(rest[1])
            return
        width, height, chroma, coder, columns, rows = rest
        it = Format(number_of(width), number_of(height), chroma, coder, number_of(columns), number_of(rows))
        if not is_within_limits(it):
            raise ValueError("Format")
        self.format = it

    def take_call(self, call: Call):
        file = str(call.values[0]) if call.word in ("edl", "export") else ""
        if call.word == "edl":
            if file in self.exported_files:
                raise ValueError("SameExport")
            self.used_files.add(file)
        elif call.word == "export":
            if file in self.used_files or file in self.exported_files:
                raise ValueError("SameExport")
            self.exported_files.add(file)
        self.body.append(call)


def read_script(text: bytes) -> Script:
    """The script, or `Fault`."""
    taken, lines = Lines(), lines_of(text)
    for number, line in enumerate(lines, 1):
        taken.take(number, line)
    if taken.rate is None or taken.format is None:
        raise Fault(len(lines) + 1, "Order")
    return Script(taken.rate, taken.clips, taken.format, taken.body)


def write_script(script: Script) -> str:
    """The script as it is written: without comments and blank lines, words parted by single blanks."""
    lines = [f"rate {script.rate}", *[it.text() for it in script.clips], script.format.text(), *[it.text() for it in script.body]]
    return "".join(f"{it}\n" for it in lines)


def answer(text: bytes) -> str:
    """What the program prints of a script: the script as it is written anew, or the fault."""
    try:
        return write_script(read_script(text))
    except Fault as fault:
        return f"{fault}\n"
