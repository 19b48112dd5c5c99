"""The README's first command, the conform, in a copy of the folder demo: its lines, the copied packets, the dissolve, and what it shows."""

import shutil
from pathlib import Path
from typing import List

import reader
from frame_clips import decode
from media import blended
from report import Report, differs
from tools import HERE, changed, frames_of, sums_of, timeline, without_ratios

FILES = ("conform", "cut.edl", "one.mkv", "two.mkv")
EXPORT, SCREEN = "programme.mkv", "screen.yuv"
LINES = "ok 50\nframe 29\nasked 1\nexport 1 done 50\n"
CUT, STEPS, LENGTH, SHOWN = 25, 10, 50, 29


def wanted_frames(folder: Path) -> List[bytes]:
    """A second of the first clip, a dissolve in which it goes on, and the rest of a second of the other one."""
    one, two = (frames_in(folder, name) for name in ("one", "two"))
    weights = [256 * step // (STEPS + 1) for step in range(1, STEPS + 1)]
    blends = [blended(one[CUT + at], two[at], weight) for at, weight in enumerate(weights)]
    return [*one[:CUT], *blends, *two[STEPS : LENGTH - CUT]]


def frames_in(folder: Path, name: str) -> List[bytes]:
    path = folder / f"{name}.mkv"
    clip = reader.read_clip(reader.view_of(path))
    frames = decode(path, "yuv420p", clip.width, clip.height, len(clip.blocks))
    (folder / f"{name}.raw").unlink()
    return frames


def check_demo(report: Report, work: Path):
    folder = work / "demo"
    folder.mkdir()
    for name in FILES:
        shutil.copy(HERE.parent / "demo" / name, folder)
    before = sums_of(folder)
    ran = timeline([FILES[0]], folder)
    report.check("demo: lines and status", [differs("the status", ran.status, 0), differs("the output", ran.out, LINES), ran.err])
    report.check("demo: no other file changed", changed(before, sums_of(folder), [EXPORT, SCREEN]))
    if not (folder / EXPORT).exists() or not (folder / SCREEN).exists():
        report.check("demo: the export and the screen", "one of them isn't there")
        return
    one, export = (reader.read_clip(reader.view_of(folder / name)) for name in ("one.mkv", EXPORT))
    is_copied = export.packets()[:CUT] == one.packets()[:CUT] and export.record == one.record
    report.check("demo: the first packets", "" if is_copied else "they aren't the clip's")
    wanted, found = wanted_frames(folder), frames_in(folder, "programme")
    report.check("demo: ffmpeg's pictures", "" if found == wanted else "they aren't those of the list")
    shown = (folder / SCREEN).read_bytes()
    report.check("demo: the frame on the screen", "" if shown == found[SHOWN] == wanted[SHOWN] else "it is another picture")
    report.check("demo: ffmpeg warns of nothing", without_ratios(frames_of(EXPORT, folder).said))
