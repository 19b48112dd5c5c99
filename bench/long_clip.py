"""Long clips of few frames: the packets of a short clip over and over. Each is a key frame, so each stands alone."""

import os
from pathlib import Path
from typing import Callable

from measure import WORK  # noqa: F401, which finds interop

import mkv
import reader
from written import block_time


def repeat(short: Path, rate: int, count_of: Callable[[int, int], int], target: Path):
    """A clip of as many frames as `count_of` tells from the number of the short one's packets and of their bytes."""
    clip = reader.read_clip(reader.view_of(short))
    packets = [it.packet for it in clip.blocks]
    count = count_of(len(packets), sum(map(len, packets)))
    frames = [(block_time(frame, rate), packets[frame % len(packets)]) for frame in range(count)]
    part = target.with_suffix(".part")
    with open(part, "wb") as file:
        file.writelines(mkv.clip_file(clip.record, clip.width, clip.height, frames, mkv.FRAMES_A_CLUSTER))
    os.replace(part, target)
