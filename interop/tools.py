"""Runs the program, ffmpeg and mkvinfo, and takes the sums of a folder's files."""

import hashlib
import os
import re
import subprocess
from pathlib import Path
from typing import Dict, List, NamedTuple, Tuple

HERE = Path(__file__).resolve().parent
PROGRAM = os.environ.get("TIMELINE_PROGRAM") or str(HERE.parent / "timeline")
# The program without its launcher, which looks at all sources before each run.
BUILT = os.environ.get("TIMELINE_PROGRAM") or str(HERE.parent / "crates" / "timeline_main" / "out" / "timeline_main")
SECONDS, TIMED_OUT = 60, 124
WORKERS = (0, 1, 2, 16)  # the numbers of workers that sessions are played with


class Ran(NamedTuple):
    status: int
    out: str
    err: str


def run(words, folder, stdout=subprocess.PIPE) -> Ran:
    """Runs a command in a folder, with no standard input and for at most a minute."""
    words = [str(it) for it in words]
    pipes = {"stdin": subprocess.DEVNULL, "stdout": stdout, "stderr": subprocess.PIPE}
    try:
        ran = subprocess.run(words, cwd=folder, timeout=SECONDS, **pipes)
    except subprocess.TimeoutExpired:
        return Ran(TIMED_OUT, "", f"{words[0]} had not ended after {SECONDS} s")
    return Ran(ran.returncode, (ran.stdout or b"").decode(errors="replace"), ran.stderr.decode(errors="replace"))


def timeline(words, folder, program=PROGRAM, **how) -> Ran:
    return run([program, *words], folder, **how)


def ffmpeg(words, folder) -> Ran:
    return run(["ffmpeg", "-hide_banner", "-nostdin", "-y", "-v", "warning", *words], folder)


def mkvmerge(words, folder) -> Ran:
    return run(["mkvmerge", "--ui-language", "en_US", "-q", *words], folder)


def has_encoder(name: str) -> bool:
    return re.search(rf"(?m)^ V\S* {name} ", run(["ffmpeg", "-hide_banner", "-encoders"], ".").out) is not None


class Frames(NamedTuple):
    """What ffmpeg reads from a file: the size and the MD5 of each packet and of each decoded frame."""

    packets: List[Tuple[str, str]]
    pictures: List[Tuple[str, str]]
    said: str


def hashes_in(path: Path) -> List[Tuple[str, str]]:
    """The last two columns of a framemd5 file, which the times before them leave alone."""
    rows = [line.split(",") for line in path.read_text().splitlines() if line and line[0] != "#"]
    return [(row[-2].strip(), row[-1].strip()) for row in rows]


def frames_of(file: str, folder: Path, stream="0:v:0") -> Frames:
    packets, pictures = folder / f"{file}.packets", folder / f"{file}.pictures"
    copied = ["-map", stream, "-c", "copy", "-f", "framemd5", packets]
    decoded = ["-map", stream, "-fps_mode", "passthrough", "-f", "framemd5", pictures]
    ran = ffmpeg(["-i", file, *copied, *decoded], folder)
    said = ran.err.strip() or (f"ffmpeg ended with status {ran.status}" if ran.status else "")
    found = [hashes_in(it) if it.exists() else [] for it in (packets, pictures)]
    return Frames(*found, said)


# What ffmpeg says of each slice whose aspect ratio is unknown: by RFC 9043 section 4.6 both its numbers are then 0. Of slices that it
# decodes at once one may tell what another has put in its place, 0/1.
UNKNOWN_RATIO = re.compile(r"\[ffv1 @ \w+\] ignoring invalid SAR: 0/[01]\n(    Last message repeated \d+ times\n)?")


def without_ratios(said: str) -> str:
    """What ffmpeg says, but for that."""
    return UNKNOWN_RATIO.sub("", f"{said}\n").strip()


class Listed(NamedTuple):
    """What mkvinfo says of a file: its warnings, and the time of each block in milliseconds."""

    warnings: str
    times: List[float]


BLOCK_TIME = re.compile(r"Simple block: .* timestamp (\d+):(\d\d):(\d\d\.\d+)")


def mkvinfo(file: str, folder: Path) -> Listed:
    ran = run(["mkvinfo", "--ui-language", "en_US", "--all", file], folder)
    told = [it for it in ran.out.splitlines() if re.search(r"warning|error", it, re.I)]
    warnings = "; ".join([*told, *ran.err.splitlines(), *([f"status {ran.status}"] if ran.status else [])])
    times = [(int(h) * 3600 + int(m) * 60 + float(s)) * 1000 for h, m, s in BLOCK_TIME.findall(ran.out)]
    return Listed(warnings, [round(it, 3) for it in times])


def sums_of(folder: Path) -> Dict[str, str]:
    """The SHA-256 of each file below a folder; of a link where it points to; folders stand with no sum."""
    sums = {}
    for path in sorted(folder.rglob("*")):
        name = str(path.relative_to(folder))
        if path.is_symlink():
            sums[name] = f"link to {os.readlink(path)}"
        elif path.is_dir():
            sums[name] = "folder"
        else:
            sums[name] = hashlib.sha256(path.read_bytes()).hexdigest()
    return sums


def changed(before: Dict[str, str], after: Dict[str, str], allowed=()) -> str:
    """The fault that files other than the allowed ones were made, changed or removed, or none."""
    names = {it for it in {*before, *after} if before.get(it) != after.get(it)} - set(allowed)
    return f"other files are not as before: {', '.join(sorted(names))}" if names else ""


def script(clip="a.mkv", length=3, rate=25, export="o.mkv", name="A") -> bytes:
    """The script of one clip, one insert and one export."""
    lines = [f"rate {rate}", f"clip {name} {clip}", f"format as {name}", f"insert 0 {name} 0 {length}", f"export {export}"]
    return "".join(f"{it}\n" for it in lines).encode()


def done(length) -> str:
    """What the program prints where it exports that many frames."""
    return f"ok {length}\nasked 1\nexport 1 done {length}\n"
