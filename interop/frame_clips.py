"""Small FFV1 clips of ffmpeg's, over chroma, size, coder, context model, slices and parity, and their frames as ffmpeg decodes them."""

from itertools import cycle, product
from pathlib import Path
from typing import Iterator, List, NamedTuple, Optional

import reader
from ffv1_record import Parameters
from tools import ffmpeg

CODERS = ("rice", "range_def", "range_tab")
CHROMAS = ("yuv420p", "yuv422p", "yuv444p", "yuv440p", "yuv411p", "yuv410p", "gray")
SIZES = ((2, 2), (17, 9), (65, 33), (64, 48))
SLICES = (1, 4, 6, 12, 24)
FRAMES = 2


class FrameClip(NamedTuple):
    chroma: str
    width: int
    height: int
    coder: str
    context: int
    slices: int
    has_parity: bool
    is_noisy: bool

    def name(self) -> str:
        parity = "parity" if self.has_parity else "no parity"
        pattern = "noise" if self.is_noisy else "pattern"
        size = f"{self.width}x{self.height}"
        return f"{size} {self.chroma} {self.coder}, context {self.context}, {self.slices} slices, {parity}, {pattern}"


class Made(NamedTuple):
    """A clip's record and packets, and each frame's samples, plane by plane."""

    clip: reader.Clip
    frames: List[bytes]


def table() -> Iterator[FrameClip]:
    """Each chroma, size and coder; the context model, the number of slices, the parity and the pictures go round."""
    kinds = product(SIZES, CHROMAS, CODERS)
    others = zip(cycle((0, 1, 1, 0)), cycle(SLICES), cycle((True, False, False)), cycle((False, True, True, False, False)))
    for ((width, height), chroma, coder), (context, slices, has_parity, is_noisy) in zip(kinds, others):
        yield FrameClip(chroma, width, height, coder, context, slices, has_parity, is_noisy)
    for coder, slices in product(CODERS, SLICES):
        yield FrameClip("yuv420p", 64, 48, coder, 1, slices, slices != 6, slices > 4)


def encode(clip: FrameClip, target: Path) -> str:
    """Makes the clip; what ffmpeg says where it doesn't. Odd sizes come by scaling."""
    noise = ",noise=alls=90:allf=t" if clip.is_noisy else ""
    filters = f"scale={clip.width}:{clip.height},format={clip.chroma}{noise}"
    ran = ffmpeg(
        ["-f", "lavfi", "-i", "testsrc2=size=96x72:rate=25", "-frames:v", FRAMES, "-vf", filters, "-pix_fmt", clip.chroma]
        + ["-c:v", "ffv1", "-level", 3, "-g", 1, "-coder", clip.coder, "-context", clip.context, "-slices", clip.slices]
        + ["-slicecrc", int(clip.has_parity), "-threads", 1, target.name],
        target.parent,
    )
    return ran.err.strip() or "no reason" if ran.status else ""


def decode(file: Path, chroma: str, width: int, height: int, frames: int) -> List[bytes]:
    """Each frame's samples, plane by plane, as ffmpeg decodes them."""
    raw = file.with_suffix(".raw")
    ran = ffmpeg(
        ["-threads", 1, "-i", file.name, "-fps_mode", "passthrough", "-pix_fmt", chroma, "-f", "rawvideo", raw.name], file.parent
    )
    data = raw.read_bytes() if not ran.status else b""
    if not data or len(data) % frames:
        raise RuntimeError(f"ffmpeg decoded {len(data)} bytes of {width}x{height} {chroma}: {ran.err.strip()}")
    size = len(data) // frames
    return [data[at : at + size] for at in range(0, len(data), size)]


def make(clip: FrameClip, folder: Path) -> Optional[Made]:
    """The clip and its frames, made once; None where ffmpeg doesn't take that number of slices at that size."""
    target = folder / "a.mkv"
    if not folder.exists():
        folder.mkdir(parents=True)
        said = encode(clip, target)
        if "Unsupported number" in said:
            target.unlink(missing_ok=True)
        elif said:
            raise RuntimeError(f"ffmpeg made no clip: {said}")
    if not target.exists():
        return None
    read = reader.read_clip(reader.view_of(target))
    return Made(read, decode(target, clip.chroma, clip.width, clip.height, len(read.blocks)))


def has_wrong_cells(parameters: Parameters, width: int, height: int) -> bool:
    """Where each cell has one column or one row, ffmpeg 5.1 writes headers whose cells pass the grid, and can't decode them itself."""
    columns, rows = parameters.columns, parameters.rows
    return columns * rows > 1 and (columns >= width or rows >= height)
