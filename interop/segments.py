"""What the reader `edl` builds of small edit lists: worked out by hand from docs/EDL.md."""

from typing import NamedTuple, Sequence, Union

import edl
from edl import Clip, Segment, Source
from report import Report, differs

RATE = 25
CLIPS = (Clip("harbour", 100), Clip("TAPE"), Clip("harbour", 0), Clip("tape"))


class Built(NamedTuple):
    """A list's lines in short, and its segments or its fault. An event has number, reel, duration, source in and out, record in and out."""

    name: str
    lines: Sequence[str]
    wanted: Union[Sequence[Segment], str]


def text_of(lines: Sequence[str]) -> bytes:
    """The list of these lines, whose frame numbers are below a minute."""
    rows = []
    for line in lines:
        if line.startswith("*"):
            rows.append(line)
            continue
        number, reel, duration, *frames = line.split()
        kind = "C" if duration == "-" else f"D {duration}"
        rows.append(f"{number} {reel} V {kind} " + " ".join(f"00:00:{int(it) // RATE:02}:{int(it) % RATE:02}" for it in frames))
    return "".join(f"{it}\n" for it in rows).encode()


FROM, TO = "* FROM CLIP NAME: harbour", "* TO CLIP NAME: TAPE"
BUILT = (
    Built("none", (), ()),
    Built("a cut, its record from 0 on", ("1 TAPE - 3 8 500 505",), (Segment(5, Source(1, 3)),)),
    Built("a clip with a start", ("1 AX - 102 104 0 2", FROM), (Segment(2, Source(0, 2)),)),
    Built(
        "black between, in the order of the record",
        ("1 tape - 0 2 10 12", "2 TAPE - 0 3 0 3"),
        (Segment(3, Source(1, 0)), Segment(7, None), Segment(2, Source(3, 0))),
    ),
    Built("a dissolve", ("1 AX - 110 110 0 0", "1 AX 004 7 16 0 9", FROM, TO), (Segment(9, Source(1, 7), 4, Source(0, 10)),)),
    Built("a dissolve from black", ("1 BL - 0 0 0 0", "1 TAPE 4 7 16 0 9"), (Segment(9, Source(1, 7), 4, None),)),
    Built("a dissolve of no duration", ("1 TAPE - 9 9 0 0", "1 AX 000 7 16 0 9", TO), (Segment(9, Source(1, 7)),)),
    Built("a lead alone", ("1 TAPE - 9 9 0 0",), "line 1 PairMissing"),
    Built("a lead of another number", ("1 TAPE - 9 9 0 0", "2 TAPE 4 7 16 0 9"), "line 1 PairMissing"),
    Built("a dissolve alone", ("1 TAPE - 0 9 0 9", "2 TAPE 0 7 16 9 18"), "line 2 PairMissing"),
    Built("a reel in another case", ("1 Tape - 0 9 0 9",), "line 1 UnknownClip"),
    Built("no name to come from", ("1 AX - 0 9 0 9", TO), "line 1 UnknownClip"),
    Built("no name to go to", ("1 AX - 110 110 0 0", "1 AX 004 7 16 0 9", FROM), "line 2 UnknownClip"),
    Built("two lengths", ("1 TAPE - 0 9 0 8",), "line 1 Span"),
    Built("an out before its in", ("1 TAPE - 9 0 9 0",), "line 1 Span"),
    Built("a dissolve of no length", ("1 TAPE - 9 9 0 0", "1 TAPE 4 7 7 0 0"), "line 2 Span"),
    Built("before the start", ("1 AX - 99 101 0 2", FROM), "line 1 OutsideClip"),
    Built("an overlap", ("1 TAPE - 0 9 20 29", "2 TAPE - 0 9 0 9", "3 TAPE - 0 9 8 17", "4 TAPE - 0 5 28 33"), "line 3 Overlap"),
    Built("an overlap, and a later fault", ("1 TAPE - 0 9 0 9", "2 TAPE - 0 9 8 17", "3 TAPE - 0 9 20 28"), "line 3 Span"),
)  # fmt: skip


def built(lines: Sequence[str]) -> Union[Sequence[Segment], str]:
    try:
        return tuple(edl.build(edl.read_edl(text_of(lines), RATE).events, CLIPS))
    except edl.Fault as fault:
        return str(fault)


def check_segments(report: Report):
    for row in BUILT:
        report.check(f"segments, {row.name}", differs("the answer", built(row.lines), row.wanted))
