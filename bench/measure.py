"""Time, processor time and peak memory of commands, for the measurements of this folder."""

import os
import subprocess
import sys
import time
from pathlib import Path
from typing import List, NamedTuple, Optional

HERE = Path(__file__).resolve().parent
WORK = HERE / "out"
GNU_TIME = Path("/usr/bin/time")
sys.path.insert(0, str(HERE.parent / "interop"))

from tools import PROGRAM  # noqa: E402

ALONE = ["--workers", "0"]  # the words behind a script for one thread


class Cost(NamedTuple):
    """Seconds on the clock, bytes at the peak, and seconds of processor time."""

    wall: float
    memory: int
    processor: float = 0.0


def call(words: List[str]):
    subprocess.run(words, cwd=WORK, stdin=subprocess.DEVNULL, stdout=subprocess.DEVNULL, check=True)


def measure(words: List[str], target: Optional[str] = None, status=0) -> Cost:
    """One run, which makes `target` and ends with that status.

    Without GNU time the peak also counts this script, some 15 MB, until the command starts.
    """
    if target:
        (WORK / target).unlink(missing_ok=True)
    os.sync()
    told = WORK / "peak"
    timed = [str(GNU_TIME), "-q", "-f", "%M", "-o", str(told), *words] if GNU_TIME.exists() else words
    start = time.perf_counter()
    child = subprocess.Popen(timed, cwd=WORK, stdin=subprocess.DEVNULL, stdout=subprocess.DEVNULL)
    _, ended, used = os.wait4(child.pid, 0)
    wall = time.perf_counter() - start
    child.returncode = os.waitstatus_to_exitcode(ended)
    if child.returncode != status or target and not (WORK / target).exists():
        raise SystemExit(f"{' '.join(words)} failed with status {child.returncode}")
    kibibytes = int(told.read_text()) if GNU_TIME.exists() else used.ru_maxrss
    return Cost(wall, kibibytes * 1024, used.ru_utime + used.ru_stime)


def best(words: List[str], target: Optional[str] = None, status=0, rounds=3) -> Cost:
    """The least times and the least peak of some runs."""
    return least([measure(words, target, status) for _ in range(rounds)])


def least(runs: List[Cost]) -> Cost:
    return Cost(*(min(parts) for parts in zip(*runs)))


def added(costs: List[Cost]) -> Cost:
    """Commands one after another: their times together, and the highest peak."""
    return Cost(sum(it.wall for it in costs), max(it.memory for it in costs), sum(it.processor for it in costs))


def warm(path: Path):
    """Reads a file once, so that it lies in the cache."""
    with open(path, "rb", buffering=0) as file:
        while file.read(1 << 24):
            pass


def need_program():
    """The launcher builds the program here, where it has to: without words that ends with status 2."""
    if subprocess.run([PROGRAM], stdin=subprocess.DEVNULL, stdout=subprocess.DEVNULL).returncode != 2:
        raise SystemExit("there is no program to measure")
