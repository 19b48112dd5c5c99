"""The realistic session that is measured: two clips of 720x576, an edit list with a cut and a dissolve of ten frames, and its script."""

from typing import List, NamedTuple

from measure import WORK, warm
from session_clips import RATE, Kind, as_in_an_archive, encode

USUAL_FRAMES, STEPS = 500, 10
NOISE = 6  # some grain, as film has
FIRST = Kind("yuv422p", 720, 576, "range_def", noise=NOISE)
OTHER = Kind("yuv422p", 720, 576, "rice", has_parity=False, pattern="testsrc", noise=NOISE)


class Cuts(NamedTuple):
    """The frames of the first clip before the cut, and those of the second one."""

    cut: int
    rest: int

    def length(self) -> int:
        return self.cut + self.rest


def timecode(frame: int) -> str:
    return f"00:{frame // RATE // 60:02}:{frame // RATE % 60:02}:{frame % RATE:02}"


def edit_list(cuts: Cuts) -> str:
    times = lambda *frames: " ".join(map(timecode, frames))
    return (
        f"TITLE: SESSION\n001  AX       V     C        {times(0, cuts.cut, 0, cuts.cut)}\n* FROM CLIP NAME: a.mov\n"
        f"002  AX       V     C        {times(cuts.cut, cuts.cut, cuts.cut, cuts.cut)}\n"
        f"002  AX       V     D    {STEPS:03} {times(0, cuts.rest, cuts.cut, cuts.length())}\n"
        "* FROM CLIP NAME: a.mov\n* TO CLIP NAME: b.mov\n"
    )


def make_clips(frames: int):
    for name, kind, make in (
        (f"a{frames}.mkv", FIRST, encode),
        (f"b{frames}.mkv", OTHER, as_in_an_archive),
        (f"c{frames}.mkv", FIRST._replace(pattern="testsrc"), encode),
    ):
        if not (WORK / name).exists():
            make(kind, frames, WORK / f"part-{name}")
            (WORK / f"part-{name}").rename(WORK / name)
        warm(WORK / name)


def head(first: str, second: str) -> List[str]:
    """The lines of a script of these two files, up to the edit list."""
    return [f"rate {RATE}", f"clip a.mov {first}", f"clip b.mov {second}", "format as a.mov", "edl session.edl"]
