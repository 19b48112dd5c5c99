"""Exports that fail or are cut off, and names that another file, a link or a folder has: what had the name has it
still, or the export has it whole.
"""

import os
import shutil
import signal
from pathlib import Path
from typing import NamedTuple, Sequence

from bad import FRAMES, NOT_WRITTEN, RATE, Ground
from report import Report, differs
from tools import PROGRAM, changed, done, run, script, sums_of

OLD = b"an older export"
# A disk of two pages over the folder `full`, which ends with the run: an old export lies there, and what is left is copied.
ON_A_FULL_DISK = (
    "mount -t tmpfs -o size=8k none full && cp old full/o.mkv || exit 1; "
    '"$0" "$@"; status=$?; cp -a full left; exit $status'
)
# A write past half a KiB or one KiB of a file kills the program.
UNTIL_KILLED = 'ulimit -f 1; exec "$0" "$@"'


class Kept(NamedTuple):
    """A run onto a name that something has: what it prints, its status, and the names that it may change."""

    name: str
    export: str
    out: str = done(FRAMES)
    status: int = 0
    writes: Sequence[str] = ()


RUNS = (
    Kept("a link, which the export replaces", "link.mkv", writes=["link.mkv"]),
    Kept("a link to nothing", "dangling.mkv", writes=["dangling.mkv"]),
    Kept("a hard link", "hard.mkv", writes=["hard.mkv"]),
    Kept("a name whose part a killed run left", "left.mkv", writes=["left.mkv", "left.mkv.part"]),
    Kept("a name whose part is a link", "linked.mkv", writes=["linked.mkv", "linked.mkv.part"]),
    Kept("a folder", "sub", NOT_WRITTEN, 4),
    Kept("a link to a folder", "to-sub", NOT_WRITTEN, 4),
    Kept("a link to /dev/full", "full.mkv", NOT_WRITTEN, 4),
)


def lay(ground: Ground, export: str):
    """The folder's files, and beside them links and what is left of an earlier run."""
    ground.lay({"s": script(length=FRAMES, rate=RATE, export=export), "old": OLD, "left.mkv.part": b"left"})
    folder = ground.folder
    (folder / "link.mkv").symlink_to("bystander")
    (folder / "dangling.mkv").symlink_to("nowhere")
    (folder / "linked.mkv.part").symlink_to("bystander")
    (folder / "to-sub").symlink_to("sub")
    os.link(folder / "old", folder / "hard.mkv")


def is_export(ground: Ground, path: Path) -> bool:
    return path.is_file() and not path.is_symlink() and path.read_bytes() == ground.export


def attempt(report: Report, ground: Ground, it: Kept):
    lay(ground, it.export)
    before = sums_of(ground.folder)
    ran = run([PROGRAM, "s"], ground.folder)
    faults = [differs("the output", ran.out, it.out), differs("the status", ran.status, it.status), ran.err]
    faults.append(changed(before, sums_of(ground.folder), it.writes))
    if it.writes:
        faults.append("" if is_export(ground, ground.folder / it.export) else f"{it.export} isn't the export")
        faults.append("a part is left" if (ground.folder / f"{it.export}.part").exists() else "")
    report.check(f"an export onto {it.name}", faults)


def killed(report: Report, ground: Ground):
    """A run that is killed in the midst of an export, and the next one."""
    lay(ground, "o.mkv")
    before = sums_of(ground.folder)
    ran = run(["sh", "-c", UNTIL_KILLED, PROGRAM, "s"], ground.folder)
    after = sums_of(ground.folder)
    faults = [differs("the status", ran.status, -signal.SIGXFSZ), changed(before, after, ["o.mkv.part"])]
    faults.append("" if "o.mkv.part" in after else "no part is left")
    report.check("an export whose run is killed", faults)
    ran = run([PROGRAM, "s"], ground.folder)
    faults = [differs("the output", ran.out, done(FRAMES)), changed(before, sums_of(ground.folder), ["o.mkv"])]
    faults.append("" if is_export(ground, ground.folder / "o.mkv") else "o.mkv isn't the export")
    report.check("an export after a run that was killed", faults)


def full_disk(report: Report, ground: Ground):
    """An export onto a full disk, where this machine lets a script mount one that ends with the run."""
    alone = ["unshare", "--mount", "sh", "-c"]
    lay(ground, "full/o.mkv")
    if shutil.which("unshare") is None or run([*alone, ON_A_FULL_DISK, "true"], ground.folder).status:
        print("skipped a full disk: no disk can be mounted here", flush=True)
        return
    lay(ground, "full/o.mkv")
    ran = run([*alone, ON_A_FULL_DISK, PROGRAM, "s"], ground.folder)
    left = {it.name: it.read_bytes() for it in (ground.folder / "left").iterdir()}
    faults = [differs("the output", ran.out, NOT_WRITTEN), differs("the status", ran.status, 4), ran.err]
    report.check("an export onto a full disk", [*faults, differs("what the disk has", left, {"o.mkv": OLD})])


def shut_folder(report: Report, ground: Ground):
    """An export into a folder that may not be written, unless this is root, who may write anywhere."""
    if os.geteuid() == 0:
        print("skipped a folder that may not be written: root may", flush=True)
        return
    lay(ground, "sub/o.mkv")
    (ground.folder / "sub").chmod(0o555)
    before = sums_of(ground.folder)
    ran = run([PROGRAM, "s"], ground.folder)
    faults = [differs("the output", ran.out, NOT_WRITTEN), changed(before, sums_of(ground.folder))]
    (ground.folder / "sub").chmod(0o755)
    report.check("an export into a folder that may not be written", faults)


def check_kept(report: Report, work: Path):
    ground = Ground(work, "kept")
    for it in RUNS:
        attempt(report, ground, it)
    killed(report, ground)
    full_disk(report, ground)
    shut_folder(report, ground)
