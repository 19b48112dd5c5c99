"""The clips of the sessions that are checked: straight from ffmpeg, or as they lie in archives."""

from pathlib import Path
from typing import List, NamedTuple

import reader
from frame_clips import decode
from mkv import Id
from tools import ffmpeg, mkvmerge

RATE = 25
PATTERNS = ("testsrc2", "testsrc", "mandelbrot")


class Kind(NamedTuple):
    """What ffmpeg is asked for. Odd sizes come by scaling."""

    chroma: str
    width: int
    height: int
    coder: str
    slices: int = 4
    has_parity: bool = True
    context: int = 0
    pattern: str = PATTERNS[0]
    noise: int = 0

    def name(self) -> str:
        parity = "parity" if self.has_parity else "no parity"
        return f"{self.width}x{self.height} {self.chroma} {self.coder}, {self.slices} slices, {parity}"


class Made(NamedTuple):
    """A clip, and each of its frames as ffmpeg decodes it, plane by plane."""

    clip: reader.Clip
    frames: List[bytes]


def run_ffmpeg(words: List, target: Path):
    ran = ffmpeg([*words, target.name], target.parent)
    if ran.status:
        raise RuntimeError(f"ffmpeg made no {target.name}: {ran.err.strip()}")


def encode(kind: Kind, frames: int, target: Path):
    across, down = (max(96, it + it % 2) for it in (kind.width, kind.height))
    noise = f",noise=alls={kind.noise}:allf=t" if kind.noise else ""
    run_ffmpeg(
        ["-f", "lavfi", "-i", f"{kind.pattern}=size={across}x{down}:rate={RATE}", "-frames:v", frames]
        + ["-vf", f"scale={kind.width}:{kind.height},format={kind.chroma}{noise}", "-pix_fmt", kind.chroma]
        + ["-c:v", "ffv1", "-level", 3, "-g", 1, "-coder", kind.coder, "-context", kind.context, "-slices", kind.slices]
        + ["-slicecrc", int(kind.has_parity), "-threads", 1],
        target,
    )


def open_sizes(path: Path):
    """Spells the sizes of a file's Segment and its Clusters as unknown, as other programs do that write to a pipe."""
    data = bytearray(path.read_bytes())
    segment = reader.first(reader.elements(data, 0, len(data), reader.FILE)[0], Id.SEGMENT)
    for it in (segment, *reader.of_id(segment.children, Id.CLUSTER)):
        width = it.start - it.at - 4
        data[it.at + 4 : it.start] = ((2 << 7 * width) - 1).to_bytes(width, "big")
    path.write_bytes(data)


def as_in_an_archive(kind: Kind, frames: int, target: Path):
    """By way of an AVI into Matroska: the codec id of a FOURCC, sound before the picture, Clusters of unknown size."""
    folder, seconds = target.parent, frames / RATE
    avi, sound = folder / f"{target.stem}.avi", folder / f"{target.stem}.flac"
    encode(kind, frames, avi)
    run_ffmpeg(["-f", "lavfi", "-i", f"sine=frequency=440:duration={seconds}"], sound)
    ran = mkvmerge(["-o", target.name, sound.name, avi.name], folder)
    if ran.status > 1:
        raise RuntimeError(f"mkvmerge made no {target.name}: {ran.out.strip()}")
    open_sizes(target)


def made(kind: Kind, target: Path) -> Made:
    """The clip that a file has, and its frames."""
    clip = reader.read_clip(reader.view_of(target))
    frames = decode(target, kind.chroma, kind.width, kind.height, len(clip.blocks))
    return Made(clip, frames)
