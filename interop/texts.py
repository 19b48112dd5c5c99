"""Edit lists in the manner of many programs, each written by hand, and changed lists made of them with a fixed seed.

`texts.py COMMAND..` compares a program with the reader `edl` over all of them. The program gets the frame rate as its last word and the
list on standard input, and prints `line N WHY`, or one line an event: number reel duration source-in source-out record-in record-out
from to, with `-` for what an event hasn't.
"""

import random
import subprocess
import sys
from typing import Callable, Iterator, List, NamedTuple, Sequence

import edl
from report import Report, differs

SEED, CHANGED_LISTS, TOLD = 3600, 5000, 5


class Text(NamedTuple):
    """A list, the rate that it is for, and what the rules make of it: its events as lines, or its fault."""

    name: str
    rate: int
    lines: str
    wanted: str
    line_end: str = "\n"

    def data(self) -> bytes:
        return self.lines.replace("\n", self.line_end).encode()


TEXTS = (
    Text("empty", 25, "", ""),
    Text(
        "names with blanks and dots",
        25,
        """TITLE: Evening news, reel 2
FCM: NON-DROP FRAME

001  AX       V     C        00:00:10:00 00:00:12:12 01:00:00:00 01:00:02:12
* FROM CLIP NAME:  Harbour at dawn v1.2.mov\x20
002  AX       V     C        00:01:00:00 00:01:01:00 01:00:02:12 01:00:03:12
* FROM CLIP NAME: b.. c
""",
        """1 AX - 250 312 90000 90062 Harbour at dawn v1.2.mov -
2 AX - 1500 1525 90062 90087 b.. c -
""",
    ),
    Text(
        "numbers of two digits, one blank between words",
        24,
        """TITLE: TWO
01 TAPE1 V C 01:00:00:00 01:00:01:00 00:00:00:00 00:00:01:00
02 TAPE2 V C 02:00:00:23 02:00:01:23 00:00:01:00 00:00:02:00""",
        """1 TAPE1 - 86400 86424 0 24 - -
2 TAPE2 - 172823 172847 24 48 - -
""",
    ),
    Text(
        "numbers of six digits, reels of eight characters",
        30,
        """TITLE:   PART_THREE
000001  A012C004 V     C        14:22:09:29 14:22:10:29 10:00:00:00 10:00:01:00
000002  B003C117 B     C        15:00:00:00 15:00:00:15 10:00:01:00 10:00:01:15
""",
        """1 A012C004 - 1551899 1551929 1080000 1080030 - -
2 B003C117 - 1620000 1620015 1080030 1080045 - -
""",
    ),
    Text(
        "tabs, CR LF",
        25,
        """TITLE:\tTabbed\t
001\tTAPE\tV\tC\t00:00:00:00\t00:00:00:10\t00:00:00:00\t00:00:00:10
*\ta comment
\t\x20
""",
        "1 TAPE - 0 10 0 10 - -\n",
        "\r\n",
    ),
    Text(
        "sound beside pictures, and no channel",
        25,
        """001  TAPE     AA/V  C        00:00:05:00 00:00:06:00 01:00:00:00 01:00:01:00
AUD  3    4
002  TAPE     A     C        00:00:05:00 00:00:06:00 01:00:00:00 01:00:01:00
* FROM CLIP NAME: sound
003  TAPE     A2/V  C        00:00:07:00 00:00:08:00 01:00:01:00 01:00:02:00
* FROM CLIP NAME: interview
004  TAPE     NONE  C        00:00:05:00 00:00:06:00 01:00:00:00 01:00:01:00
* FROM CLIP NAME: none
""",
        """1 TAPE - 125 150 90000 90025 - -
3 TAPE - 175 200 90025 90050 interview -
""",
    ),
    Text(
        "comments of every kind",
        25,
        """TITLE: NOTES
TITLE: not this one
* a note
*note
* FROM CLIP: no keyword
  * indented
* FROM CLIP NAME: before any event
SPLIT:    AUDIO DELAY=  00:00:00:05
FINAL CUT PRO REEL: 12 REPLACED BY: 012
>>> SOURCE TAPE 12
BLEND, NONE
001  012      V     C        00:00:00:00 00:00:00:01 00:00:00:00 00:00:00:01
* SOURCE FILE: D:/rushes/012.mxf
* TO CLIP NAME: held
 * FROM CLIP NAME: behind a blank
* FROM CLIP NAME: first
* FROM CLIP NAME: second
* ASC_SOP (1.0 1.0 1.0)(0.0 0.0 0.0)(1.0 1.0 1.0)
""",
        "1 012 - 0 1 0 1 first held\n",
    ),
    Text(
        "a black slug",
        25,
        """TITLE: SLUG
001  BL       V     C        00:00:00:00 00:00:02:00 00:00:00:00 00:00:02:00
002  TAPE     V     C        00:00:00:00 00:00:01:00 00:00:02:00 00:00:03:00
""",
        """1 BL - 0 50 0 50 - -
2 TAPE - 0 25 50 75 - -
""",
    ),
    Text(
        "a dissolve from and to black",
        25,
        """TITLE: FADES
001  BL       V     C        00:00:00:00 00:00:00:00 00:00:00:00 00:00:00:00
001  TAPE     V     D    012 00:00:10:00 00:00:12:00 00:00:00:00 00:00:02:00
* EFFECT NAME: CROSS DISSOLVE
* TO CLIP NAME: harbour
002  TAPE     V     C        00:00:12:00 00:00:12:00 00:00:02:00 00:00:02:00
002  BL       V     D    025 00:00:00:00 00:00:01:00 00:00:02:00 00:00:03:00
* FROM CLIP NAME: harbour
""",
        """1 BL - 0 0 0 0 - harbour
1 TAPE 12 250 300 0 50 - harbour
2 TAPE - 300 300 50 50 harbour -
2 BL 25 0 25 50 75 harbour -
""",
    ),
    Text(
        "sound alone",
        25,
        """TITLE: MIX
001  TAPE     A     C        00:00:05:00 00:00:06:00 01:00:00:00 01:00:01:00
002  TAPE     AA    D    010 00:00:05:00 00:00:06:00 01:00:01:00 01:00:02:00
""",
        "",
    ),
    Text(
        "frames of three digits",
        240,
        """001 CAM V C 00:00:00:239 00:00:01:100 00:00:00:000 00:00:00:101
002 CAM V D 0 00:00:00:00 00:00:00:99 00:00:00:101 00:00:00:200
""",
        """1 CAM - 239 340 0 101 - -
2 CAM 0 0 99 101 200 - -
""",
    ),
    Text("drop frame", 30, "TITLE: D\nFCM: NON-DROP FRAME\nFCM: DROP FRAME\n", "line 3 Drop\n"),
    Text("a drop-frame timecode in sound", 30, "1 T A C 00:00:00;00 00:00:01:00 00:00:00:00 00:00:01:00\n", "line 1 Drop\n"),
    Text("a motion effect", 25, "TITLE: M\nM2   T       050.0       00:00:00:00\n", "line 2 Speed\n"),
    Text("a wipe", 25, "1 T V W001 025 00:00:00:00 00:00:01:00 00:00:00:00 00:00:01:00\n", "line 1 Wipe\n"),
    Text("a key", 25, "1 T V K B 00:00:00:00 00:00:01:00 00:00:00:00 00:00:01:00\n", "line 1 Key\n"),
    Text("frames at the rate", 25, "1 T V C 00:00:00:24 00:00:01:25 00:00:00:00 00:00:01:00\n", "line 1 Timecode\n"),
    Text("a number of seven digits", 25, "0000001 T V C 00:00:00:00 00:00:01:00 00:00:00:00 00:00:01:00\n", "line 1 Unknown\n"),
    Text("a reel of two words", 25, "1 TAPE 1 V C 00:00:00:00 00:00:01:00 00:00:00:00 00:00:01:00\n", "line 1 Unknown\n"),
)

# Changed lists

Change = Callable[[random.Random, bytes], bytes]
TELLING_BYTES = b"0 9;:\t\r\n*VACDWKBLX/\x00\x80\xff"


class Changed(NamedTuple):
    name: str
    rate: int
    content: bytes

    def data(self) -> bytes:
        return self.content


def lines_changed(make: Callable[[List[bytes], int, int], List[bytes]]) -> Change:
    """A change of one or two lines, where there are any."""

    def change(chance: random.Random, content: bytes) -> bytes:
        lines = content.splitlines(keepends=True)
        return b"".join(make(lines, chance.randrange(len(lines)), chance.randrange(len(lines)))) if lines else content

    return change


def swapped(lines: List[bytes], one: int, other: int) -> List[bytes]:
    lines[one], lines[other] = lines[other], lines[one]
    return lines


def byte_changed(chance: random.Random, content: bytes) -> bytes:
    """A byte put in the place of one, dropped, or put before one."""
    at = chance.randrange(len(content) + 1)
    value = bytes([chance.choice(TELLING_BYTES) if chance.random() < 0.7 else chance.randrange(256)])
    return content[:at] + chance.choice((value, b"", value + content[at : at + 1])) + content[at + 1 :]


CHANGES: Sequence[Change] = (
    lines_changed(lambda lines, one, other: lines[: one + 1] + lines[one:]),
    lines_changed(lambda lines, one, other: lines[:one] + lines[one + 1 :]),
    lines_changed(swapped),
    byte_changed,
    byte_changed,
)


def changed_lists(count: int) -> Iterator[Changed]:
    """Lists with one to three changes each, always the same ones."""
    chance = random.Random(SEED)
    for number in range(count):
        text = chance.choice(TEXTS)
        content = text.data()
        for _ in range(chance.randint(1, 3)):
            content = chance.choice(CHANGES)(chance, content)
        yield Changed(f"{text.name}, changed {number}", text.rate, content)


def long_lists() -> Iterator[Changed]:
    """Ten thousand events whose clips have a thousand names: alone, and with a fault in the last line."""
    lines = ["TITLE: LONG\n"]
    for number in range(10_000):
        start, end = (f"{it // 3600:02}:{it // 60 % 60:02}:{it % 60:02}:00" for it in (number, number + 1))
        lines.append(f"{number:06}  AX       V     C        {start} {end} {start} {end}\n* FROM CLIP NAME: {number % 1000}.mkv\n")
    content = "".join(lines).encode()
    yield Changed("10,000 events", 25, content)
    yield Changed("10,000 events and a fault", 25, content + b"M2")


# Checks


def answer_of(command: Sequence[str], content: bytes) -> str:
    """What a program prints of a text; its status isn't looked at."""
    ran = subprocess.run(command, input=content, stdout=subprocess.PIPE, timeout=60)
    return ran.stdout.decode(errors="replace")


def said(command: Sequence[str], content: bytes, rate: int) -> str:
    """What a program prints of a list at a rate."""
    return answer_of([*command, str(rate)], content)


def check_lists(report: Report, command: Sequence[str] = (), count: int = CHANGED_LISTS):
    """The reader gives what stands beside each list, and the command, where there is one, what the reader gives."""
    for text in TEXTS:
        faults = [differs("the reader's answer", edl.answer(text.data(), text.rate), text.wanted)]
        faults += [differs("the program's answer", said(command, text.data(), text.rate), text.wanted)] if command else []
        report.check(f"edit list, {text.name}", faults)
    faults, kinds = [], set()
    for it in [*changed_lists(count), *long_lists()]:
        wanted = edl.answer(it.data(), it.rate)
        kinds.add(wanted.split()[2] if wanted.startswith("line ") else "taken")
        if command:
            faults.append(differs(it.name, said(command, it.data(), it.rate), wanted))
    told = [it for it in faults if it]
    report.check(f"{count} changed edit lists: {', '.join(sorted(kinds))}", told[:TOLD])


if __name__ == "__main__":
    lists = Report()
    check_lists(lists, sys.argv[1:])
    sys.exit(lists.close())
