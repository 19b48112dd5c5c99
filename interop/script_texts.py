"""Scripts written by hand, each with its answer, and changed scripts made of them with a fixed seed.

`script_texts.py COMMAND..` compares a program with the reader `scripts` over all of them. The program gets the script on standard input, and
prints `line N WHY`, or the script as it is written anew.
"""

import random
import sys
from typing import Iterator, NamedTuple, Sequence

import scripts
from report import Report, differs
from texts import CHANGES, TOLD, answer_of

SEED, CHANGED_SCRIPTS = 1200, 5000
HEADER = "rate 25\nclip A a.mkv\nclip B b.mkv 01:00:00:24\nformat as B\n"
WRITTEN = "rate 25\nclip A a.mkv 00:00:00:00\nclip B b.mkv 01:00:00:24\nformat as B\n"
CALLS = """insert 0 A 0 1000000
overwrite 3 black 0 2
extract 0 1
lift 0 1
split 7
trimin 0 -5
trimout 0 5
slip 1 -1000000
dissolve 4 0
relink 0 B 5
edl cut.edl
undo
redo
want 0 1
cancel 0 1
play 0
show 1000000
roll 0 1
work 1
export out.mkv
edl cut.edl
"""


class Text(NamedTuple):
    """A script, and what the rules make of it: the script as it is written anew, or its fault."""

    name: str
    content: str
    wanted: str

    def data(self) -> bytes:
        return self.content.encode()


def body(name: str, lines: str, wanted: str) -> Text:
    """Lines after a header, and those that are written, or the fault."""
    return Text(name, HEADER + lines, wanted if wanted.startswith("line ") else WRITTEN + wanted)


def header(name: str, lines: str, wanted: str) -> Text:
    return Text(name, f"rate 25\n{lines}", wanted)


TEXTS = (
    Text("empty", "", "line 1 Order\n"),
    body("every call", CALLS, CALLS),
    body("tabs, returns and leading zeros", "insert\t00 \tA 007  0000001\r\nslip 0 -0\r\n \t\n# insert 0 A 0 0\n", "insert 0 A 7 1\nslip 0 0\n"),
    Text("frames of three digits", "rate 240\nclip A a 00:00:00:239\nformat as A", "rate 240\nclip A a 00:00:00:239\nformat as A\n"),
    header("a format of its own", "format 8 1 411 rice 2 1\n", "rate 25\nformat 8 1 411 rice 2 1\n"),
    header("grey of one sample", "format 1 1 grey range 1 1\n", "rate 25\nformat 1 1 grey range 1 1\n"),
    header("a grid that misses the end of a plane", "format 5 1 411 rice 2 1\n", "line 2 Format\n"),
    header("a side of 8193", "format 8193 2 grey range 1 1\n", "line 2 Format\n"),
    header("more than 1024 slices", "format 64 64 444 range 33 32\n", "line 2 Format\n"),
    header("a size of eight digits", "format 00000008 1 444 range 1 1\n", "line 2 Number\n"),
    header("an unknown clip", "clip A a\nformat as B\n", "line 3 UnknownClip\n"),
    header("a clip twice", "clip A a\nclip A b\n", "line 3 SameName\n"),
    header("a clip named black", "clip black b\n", "line 2 SameName\n"),
    header("a clip without a file", "clip A\n", "line 2 Count\n"),
    header("frames at the rate", "clip A a 00:00:00:25\n", "line 2 Timecode\n"),
    header("no format", "clip A a\n\n", "line 4 Order\n"),
    header("a rate twice", "rate 25\n", "line 2 Order\n"),
    Text("a rate of 0", "rate 0\n", "line 1 Number\n"),
    Text("a rate of 241", "rate 241\n", "line 1 Number\n"),
    Text("a clip before the rate", "clip A a\n", "line 1 Order\n"),
    Text("a comment after a blank", " # no\n", "line 1 Word\n"),
    body("a clip after the format", "clip C c\n", "line 5 Order\n"),
    body("another word", "cut 0\n", "line 5 Word\n"),
    body("a length of 0", "extract 0 0\n", "line 5 Number\n"),
    body("two signs", "slip 0 --5\n", "line 5 Number\n"),
    body("a plus", "slip 0 +5\n", "line 5 Number\n"),
    body("an export of a clip", "export a.mkv\n", "line 5 SameExport\n"),
    body("an export of a list", "edl x\nexport x\n", "line 6 SameExport\n"),
    body("a list of an export", "export x\nedl x\n", "line 6 SameExport\n"),
    body("an export twice", "export x\nundo\nexport x\n", "line 7 SameExport\n"),
)


class Changed(NamedTuple):
    name: str
    content: bytes


def changed_scripts(count: int) -> Iterator[Changed]:
    """Scripts with one to three changes each, always the same ones."""
    chance = random.Random(SEED)
    for number in range(count):
        text = chance.choice(TEXTS)
        content = text.data()
        for _ in range(chance.randint(1, 3)):
            content = chance.choice(CHANGES)(chance, content)
        yield Changed(f"{text.name}, changed {number}", content)


def long_scripts() -> Iterator[Changed]:
    """Scripts at the limits of lines and clips."""
    clips = [f"clip {number} file{number}" for number in range(1001)]
    for count in (1000, 1001):
        lines = ["rate 25", *clips[:count], "format as 0"]
        yield Changed(f"{count} clips", "".join(f"{it}\n" for it in lines).encode())
    for count in (100_000, 100_001):
        lines = [*HEADER.splitlines(), *["undo"] * (count - 5), "# the last"]
        yield Changed(f"{count} lines", "".join(f"{it}\n" for it in lines).encode())


def check_scripts(report: Report, command: Sequence[str] = (), count: int = CHANGED_SCRIPTS):
    """The reader gives what stands beside each script, and the command, where there is one, what the reader gives."""
    for text in TEXTS:
        faults = [differs("the reader's answer", scripts.answer(text.data()), text.wanted)]
        faults += [differs("the program's answer", answer_of(command, text.data()), text.wanted)] if command else []
        report.check(f"script, {text.name}", faults)
    faults, kinds = [], set()
    for it in [*changed_scripts(count), *long_scripts()]:
        wanted = scripts.answer(it.content)
        kinds.add(wanted.split()[2] if wanted.startswith("line ") else "taken")
        if command:
            faults.append(differs(it.name, answer_of(command, it.content), wanted))
    told = [it for it in faults if it]
    report.check(f"{count} changed scripts: {', '.join(sorted(kinds))}", told[:TOLD])


if __name__ == "__main__":
    checked = Report()
    check_scripts(checked, sys.argv[1:])
    sys.exit(checked.close())
