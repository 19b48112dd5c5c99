"""`gen:N`, with several numbers of workers: its lines, its screen, and its export byte by byte, as the formula of docs/SCRIPT.md and the
writers of this folder have it; and a run that is killed in the midst of its export.
"""

import signal
import subprocess
import time
from concurrent.futures import ProcessPoolExecutor
from pathlib import Path
from typing import List, Sequence

from ffv1_record import RANGE, Shape, own_parameters, own_record
from ffv1_write import write_packet
from frame_clips import decode
from media import planes_of
from report import Report, differs
from session_model import counted
from tools import BUILT, SECONDS, WORKERS, frames_of, mkvinfo, timeline, without_ratios
from written import written_file

WIDTH, HEIGHT, RATE = 64, 48, 25
COUNTS = (1, 10, 1000)
PARAMETERS = own_parameters(Shape(True, 1, 1), RANGE, 2, 2)
EXPORT, SCREEN = "gen.mkv", "screen.yuv"
OLD = b"an older export"
ENOUGH = 200_000  # bytes of a part, at which a run is killed
TRIES = 5


def picture(frame: int) -> bytes:
    """The samples of a frame: Y, Cb and Cr, row by row."""
    luma = bytes((x + 2 * y + 3 * frame + 7 * ((x * y + frame) % 5)) % 256 for y in range(HEIGHT) for x in range(WIDTH))
    blue = bytes((128 + x + frame) % 256 for y in range(HEIGHT // 2) for x in range(WIDTH // 2))
    red = bytes((128 + y + 2 * frame) % 256 for y in range(HEIGHT // 2) for x in range(WIDTH // 2))
    return luma + blue + red


def packet(frame: int) -> bytes:
    return write_packet(PARAMETERS, WIDTH, HEIGHT, planes_of(PARAMETERS, WIDTH, HEIGHT, picture(frame)))


def clip_file(packets: Sequence[bytes]) -> bytes:
    return written_file(own_record(PARAMETERS), WIDTH, HEIGHT, RATE, list(packets))


def allowed_lines(frames: int, has_workers: bool) -> List[Sequence[str]]:
    """For each line what it may be."""
    ok, half, wanted = [f"ok {frames}"], frames // 2, min(64, frames)
    cut = ok if half else ["refused NoCut"]
    worked = counted("worked", wanted) if has_workers else [f"worked {wanted}"]
    played = ["frame 0", "pending 0"] if has_workers else ["frame 0"]
    asked = [[f"wanted {wanted}"], worked, played, [f"frame {half}"]]
    return [ok, ok, cut, *asked, ok, ok, ["asked 1"], [f"export 1 done {frames}"]]


def run_faults(folder: Path, frames: int, workers: int, whole: bytes) -> List[str]:
    for path in folder.iterdir():
        path.unlink()
    ran = timeline([f"gen:{frames}", "--workers", str(workers)], folder, BUILT)
    lines, allowed = ran.out.splitlines(), allowed_lines(frames, workers > 0)
    is_right = len(lines) == len(allowed) and all(line in each for line, each in zip(lines, allowed))
    left = {it.name: it.read_bytes() for it in folder.iterdir()}
    shown = b"".join(picture(int(line.split()[1])) for line in lines if line.startswith("frame "))
    faults = [
        differs("the status", ran.status, 0),
        "" if is_right else f"the output is {lines}",
        ran.err,
        differs("the files", sorted(left), sorted([EXPORT, SCREEN])),
        "" if left.get(SCREEN) == shown else "the screen has other pictures",
        "" if left.get(EXPORT) == whole else "the export is another",
    ]
    return [f"with {workers} workers: {it}" for it in faults if it]


def check_read(report: Report, folder: Path, frames: int):
    """ffmpeg and mkvinfo read the export, and ffmpeg decodes the formula's samples."""
    if not (folder / EXPORT).exists():
        report.check(f"gen:{frames}: other programs read it", "there is no export")
        return
    others = [at for at, it in enumerate(decode(folder / EXPORT, "yuv420p", WIDTH, HEIGHT, frames)) if it != picture(at)]
    faults = [f"ffmpeg has other samples in the frames {others[:9]}" if others else ""]
    faults += [without_ratios(frames_of(EXPORT, folder).said), mkvinfo(EXPORT, folder).warnings]
    report.check(f"gen:{frames}: other programs read it", faults)


def size_of(path: Path) -> int:
    try:
        return path.stat().st_size
    except FileNotFoundError:
        return 0


def run_until(part: Path, words: Sequence[str]) -> int:
    """Runs the program in the folder of a part, kills it when the part has grown, and answers how it ended."""
    pipes = {"stdin": subprocess.DEVNULL, "stdout": subprocess.DEVNULL, "stderr": subprocess.DEVNULL}
    child = subprocess.Popen([BUILT, *words], cwd=part.parent, **pipes)
    end = time.monotonic() + SECONDS
    while child.poll() is None and size_of(part) < ENOUGH and time.monotonic() < end:
        time.sleep(0.0005)
    child.kill()
    return child.wait()


def check_killed(report: Report, folder: Path, frames: int, whole: bytes, workers: int):
    """A run that is killed in the midst of an export leaves the older file, and the next one writes the whole."""
    words = [f"gen:{frames}", "--workers", str(workers)]
    part = folder / f"{EXPORT}.part"
    for _ in range(TRIES):
        (folder / EXPORT).write_bytes(OLD)
        status = run_until(part, words)
        if status:
            break
    faults = [differs("the status", status, -signal.SIGKILL), "" if part.exists() else "no part is left"]
    faults.append("" if (folder / EXPORT).read_bytes() == OLD else "the older export is gone")
    report.check(f"a run with {workers} workers that is killed in the midst of its export", faults)
    ran = timeline(words, folder, BUILT)
    faults = [differs("the status", ran.status, 0), "a part is left" if part.exists() else ""]
    faults.append("" if (folder / EXPORT).read_bytes() == whole else "the export isn't whole")
    report.check(f"the run after it, with {workers} workers", faults)


def check_generated(report: Report, work: Path):
    folder = work / "generated"
    folder.mkdir()
    with ProcessPoolExecutor() as pool:
        packets = list(pool.map(packet, range(max(COUNTS)), chunksize=20))
    for frames in COUNTS:
        whole = clip_file(packets[:frames])
        faults = [fault for workers in WORKERS for fault in run_faults(folder, frames, workers, whole)]
        report.check(f"gen:{frames}: lines, screen and export", faults)
        check_read(report, folder, frames)
    for workers in (0, 2):
        check_killed(report, folder, max(COUNTS), clip_file(packets), workers)
