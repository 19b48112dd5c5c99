"""The clips that are cut: a table of what ffmpeg is asked for, and how each is made."""

from itertools import cycle, product
from pathlib import Path
from typing import List, NamedTuple, Tuple

import reader
from tools import ffmpeg

RICE, RANGE = 0, 1
TEST_PATTERN = "testsrc2=size={size}:rate=25"
RAMPS = "nullsrc=size={size}:rate=25,geq=lum=40*N+X:cb=128:cr=128"
RATES = (24, 25, 30, 50, 60, 7, 240, 1)


class Clip(NamedTuple):
    """An FFV1 clip, and the cuts that are made from it: pairs of a length and a rate."""

    size: str
    pix_fmt: str
    coder: int
    slices: int
    slicecrc: int
    frames: int
    cuts: Tuple[Tuple[int, int], ...]

    def name(self) -> str:
        coder = "rice" if self.coder == RICE else "range"
        return f"{self.size}-{self.pix_fmt}-{coder}-{self.slices}-crc{self.slicecrc}-{self.frames}f"


def small() -> List[Clip]:
    """Each chroma, coder and number of slices at a small size; the cut is shorter than the clip."""
    kinds = product(("yuv420p", "yuv422p", "yuv444p", "gray"), (RICE, RANGE), (4, 12))
    return [
        Clip("64x48", pix_fmt, coder, slices, crc, 6, ((4, rate),))
        for (pix_fmt, coder, slices), rate, crc in zip(kinds, cycle(RATES), cycle((0, 1, 1, 0, 1, 0, 0, 1)))
    ]


def broadcast() -> List[Clip]:
    """Each chroma at a broadcast size; the cut is the whole clip."""
    return [
        Clip("720x576", "yuv420p", RANGE, 4, 1, 3, ((3, 25),)),
        Clip("720x576", "yuv422p", RANGE, 12, 1, 3, ((3, 25),)),
        Clip("720x576", "yuv422p", RICE, 4, 0, 3, ((3, 25),)),
        Clip("720x576", "yuv444p", RICE, 12, 1, 3, ((3, 30),)),
        Clip("720x576", "gray", RANGE, 12, 0, 3, ((3, 24),)),
    ]


def odd() -> List[Clip]:
    """Odd sizes whose slices reach the ends of the chroma planes (RFC 9043 section 4.7)."""
    return [
        Clip("65x49", "yuv420p", RANGE, 4, 1, 4, ((3, 25),)),
        Clip("65x49", "yuv420p", RICE, 12, 0, 4, ((3, 50),)),
        Clip("65x49", "yuv422p", RANGE, 12, 1, 4, ((3, 30),)),
        Clip("65x49", "gray", RICE, 4, 1, 4, ((3, 60),)),
    ]


def long() -> List[Clip]:
    """Cuts of one frame, around the 25 frames of a Cluster, and of the whole clip."""
    cuts = ((1, 1), (24, 30), (25, 24), (26, 25), (51, 240), (60, 7))
    return [Clip("64x48", "yuv420p", RANGE, 4, 1, 60, cuts)]


def table() -> List[Clip]:
    return [*small(), *broadcast(), *odd(), *long()]


def encode(clip: Clip, target: Path, pattern: str):
    """Makes the clip from a source of ffmpeg's; those have even sizes only, others come by scaling."""
    width, height = map(int, clip.size.split("x"))
    source = pattern.format(size=f"{width + width % 2}x{height + height % 2}")
    ran = ffmpeg(
        ["-f", "lavfi", "-i", source, "-frames:v", clip.frames, "-vf", f"scale={width}:{height}", "-pix_fmt", clip.pix_fmt]
        + ["-c:v", "ffv1", "-level", 3, "-g", 1, "-coder", clip.coder, "-slices", clip.slices, "-slicecrc", clip.slicecrc]
        + ["-threads", 1, target.name],
        target.parent,
    )
    if ran.status:
        raise RuntimeError(f"ffmpeg made no clip: {ran.err.strip()}")


def make(clip: Clip, folder: Path, pattern=TEST_PATTERN) -> reader.Clip:
    """Makes `a.mkv` in a new folder, straight by ffmpeg, and answers what it has."""
    folder.mkdir(parents=True)
    encode(clip, folder / "a.mkv", pattern)
    return reader.read_clip(reader.view_of(folder / "a.mkv"))
