"""The realistic session: a list with a cut and a dissolve over two clips of 50 frames, at a broadcast size and over a dozen pairs of
small ones; its frames shown, its exports cut again, and a damaged packet at each kind of place. All of it is played with several numbers
of workers, and each time lines, status and files are the same.

The first 25 frames of the export are the first clip's packets. Ten frames blend it, as it goes on, with the second clip from its first
frame on; then come the frames 10 to 24 of that one. Pictures are ffmpeg's, and a blend is what this script makes of ffmpeg's.
"""

import shutil
from pathlib import Path
from typing import Iterator, List, NamedTuple, Sequence

import ffv1
import reader
from ffv1_record import read_record
from frame_clips import decode
from media import blended
from random_sessions import check_random_sessions
from repeated import check_repeated
from report import Report, differs
from session_clips import RATE, Kind, Made, as_in_an_archive, encode, made
from tools import BUILT, WORKERS, changed, frames_of, mkvinfo, sums_of, timeline, without_ratios
from written import block_time, written_file

FRAMES, CUT, STEPS, LENGTH = 50, 25, 10, 50
WORKERS_OF_LARGE = (0, 2)
EDIT_LIST = """TITLE: FINAL
FCM: NON-DROP FRAME
001  AX       V     C        00:00:00:00 00:00:01:00 01:00:00:00 01:00:01:00
* FROM CLIP NAME: a.mov
001  AX       A     C        00:00:00:00 00:00:01:00 01:00:00:00 01:00:01:00
002  AX       V     C        00:00:01:00 00:00:01:00 01:00:01:00 01:00:01:00
002  AX       V     D    010 00:00:00:00 00:00:01:00 01:00:01:00 01:00:02:00
* EFFECT NAME: CROSS DISSOLVE
* FROM CLIP NAME: a.mov
* TO CLIP NAME: b.mov
"""
HEAD = ("rate 25", "clip a.mov a.mkv", "clip b.mov b.mkv", "format as a.mov", "edl cut.edl")


class Pair(NamedTuple):
    """The kinds of the two clips, and whether the second lies as in an archive."""

    first: Kind
    second: Kind
    is_archived: bool = False

    def name(self) -> str:
        return f"{self.first.name()} and {self.second.coder}, {self.second.slices} slices"


BROADCAST = Pair(Kind("yuv422p", 720, 576, "range_def"), Kind("yuv422p", 720, 576, "rice", has_parity=False, pattern="testsrc"), True)


def small_pairs() -> Iterator[Pair]:
    """Pairs of one shape each, of other settings but for the last pair, whose second clip's frames are copied too."""
    rows = (
        ("gray", 48, 36, ("range_def", 4), ("rice", 6)),
        ("gray", 33, 25, ("rice", 4), ("range_tab", 12)),
        ("yuv420p", 48, 36, ("range_def", 4), ("rice", 4)),
        ("yuv420p", 33, 25, ("rice", 4), ("range_def", 4)),
        ("yuv420p", 48, 36, ("range_tab", 12), ("range_def", 12)),
        ("yuv422p", 48, 36, ("range_def", 12), ("rice", 4)),
        ("yuv422p", 33, 25, ("rice", 4), ("range_def", 4)),
        ("yuv444p", 48, 36, ("range_tab", 4), ("rice", 12)),
        ("yuv444p", 17, 9, ("rice", 4), ("range_tab", 4)),
        ("yuv440p", 48, 36, ("range_def", 4), ("range_tab", 4)),
        ("yuv411p", 48, 36, ("range_def", 4), ("rice", 4)),
        ("yuv411p", 64, 36, ("rice", 12), ("range_def", 4)),
        ("yuv410p", 48, 36, ("range_tab", 4), ("rice", 4)),
        ("yuv420p", 48, 36, ("rice", 4), ("rice", 4)),
    )
    for number, (chroma, width, height, (coder, slices), (other, other_slices)) in enumerate(rows):
        is_same = (coder, slices) == (other, other_slices)
        first = Kind(chroma, width, height, coder, slices, number % 3 > 0, number % 2, noise=60 * (number % 4 == 1))
        second = Kind(chroma, width, height, other, other_slices, number % 3 > 0 if is_same else number % 2 > 0)
        yield Pair(first, second._replace(context=first.context if is_same else 0, pattern="testsrc"))


class Ground(NamedTuple):
    """A pair's folder, its clips, and the frames of the session."""

    folder: Path
    first: Made
    second: Made
    wanted: Sequence[bytes]
    workers: Sequence[int] = WORKERS


def wanted_frames(first: Sequence[bytes], second: Sequence[bytes]) -> List[bytes]:
    weights = [256 * step // (STEPS + 1) for step in range(1, STEPS + 1)]
    blends = [blended(first[CUT + at], second[at], weight) for at, weight in enumerate(weights)]
    return [*first[:CUT], *blends, *second[STEPS : LENGTH - CUT]]


def lay(pair: Pair, folder: Path) -> Ground:
    folder.mkdir(parents=True)
    encode(pair.first, FRAMES, folder / "a.mkv")
    (as_in_an_archive if pair.is_archived else encode)(pair.second, FRAMES, folder / "b.mkv")
    first, second = made(pair.first, folder / "a.mkv"), made(pair.second, folder / "b.mkv")
    for name in ("a", "b"):
        (folder / f"{name}.raw").unlink()
    (folder / "cut.edl").write_text(EDIT_LIST)
    workers = WORKERS_OF_LARGE if pair == BROADCAST else WORKERS
    return Ground(folder, first, second, wanted_frames(first.frames, second.frames), workers)


def write_script(folder: Path, *lines: str):
    (folder / "s").write_text("".join(f"{it}\n" for it in lines))


def run_script(it: Ground, wanted: Sequence[str], status: int, writes: Sequence[str]) -> List[str]:
    """Runs the script `s`, and says what differs from these lines, this status and these files, and which files are others with more
    workers."""
    before, made, faults = sums_of(it.folder), [], []
    for workers in it.workers:
        ran = timeline(["s", "--workers", str(workers)], it.folder, BUILT)
        after = sums_of(it.folder)
        made.append([after.get(name) for name in writes])
        told = [differs("the status", ran.status, status), differs("the output", ran.out.splitlines(), list(wanted)), ran.err]
        told += [changed(before, after, writes), "" if made[-1] == made[0] else "the files aren't those of the first run"]
        faults += [f"with {workers} workers: {fault}" for fault in told if fault]
    return faults


def check_export(report: Report, name: str, pair: Pair, it: Ground):
    write_script(it.folder, *HEAD, "export final.mkv")
    report.check(f"{name}: lines and status", run_script(it, ["ok 50", "asked 1", "export 1 done 50"], 0, ["final.mkv"]))
    export = it.folder / "final.mkv"
    if not export.exists():
        report.check(f"{name}: the export", "there is none")
        return
    data, first, second = reader.view_of(export), it.first.clip, it.second.clip
    clip = reader.read_clip(data)
    packets = clip.packets()
    whole = written_file(first.record, first.width, first.height, RATE, packets)
    faults = [
        differs("the block times", [block.time for block in clip.blocks], [block_time(at, RATE) for at in range(LENGTH)]),
        "" if bytes(data) == whole else "the file isn't the one of docs/FORMATS.md over its packets",
        "" if packets[:CUT] == first.packets()[:CUT] else "the first packets aren't the first clip's",
    ]
    if second.record == first.record:
        is_copied = packets[CUT + STEPS :] == second.packets()[STEPS : LENGTH - CUT]
        faults.append("" if is_copied else "the last packets aren't the second clip's")
    report.check(f"{name}: the file, its record, times and copied packets", faults)
    check_pictures(report, name, pair, it)


def check_pictures(report: Report, name: str, pair: Pair, it: Ground):
    frames = decode(it.folder / "final.mkv", pair.first.chroma, pair.first.width, pair.first.height, LENGTH)
    (it.folder / "final.raw").unlink()
    others = [at for at, (found, wanted) in enumerate(zip(frames, it.wanted)) if found != wanted]
    report.check(f"{name}: ffmpeg's pictures", f"other samples in the frames {others}" if others else "")
    report.check(f"{name}: ffmpeg warns of nothing", without_ratios(frames_of("final.mkv", it.folder).said))
    report.check(f"{name}: mkvinfo warns of nothing", mkvinfo("final.mkv", it.folder).warnings)


def check_shown(report: Report, name: str, it: Ground):
    """Each frame is shown, from the last one on."""
    order = range(LENGTH - 1, -1, -1)
    write_script(it.folder, *HEAD, *(f"show {at}" for at in order))
    faults = run_script(it, ["ok 50", *(f"frame {at}" for at in order)], 0, ["screen.yuv"])
    screen, size = it.folder / "screen.yuv", len(it.wanted[0])
    shown = screen.read_bytes() if screen.exists() else b""
    faults.append(differs("the number of bytes", len(shown), size * LENGTH))
    others = [at for place, at in enumerate(order) if shown[place * size : (place + 1) * size] != it.wanted[at]]
    report.check(f"{name}: frames shown", [*faults, f"other samples in the frames {others}" if others else ""])
    screen.unlink(missing_ok=True)


# Exports that are cut again


def check_cut_again(report: Report, name: str, it: Ground):
    """A part of the export across the cut, the dissolve and its end; and a part of that."""
    packets = reader.read_clip(reader.view_of(it.folder / "final.mkv")).packets()
    for file, export, first, length in (("final.mkv", "part.mkv", 20, 20), ("part.mkv", "less.mkv", 3, 14)):
        write_script(it.folder, "rate 25", f"clip C {file}", "format as C", f"insert 0 C {first} {length}", f"export {export}")
        faults = run_script(it, [f"ok {length}", "asked 1", f"export 1 done {length}"], 0, [export])
        packets = packets[first : first + length]
        path = it.folder / export
        found = reader.read_clip(reader.view_of(path)).packets() if path.exists() else []
        report.check(f"{name}: {file} cut again", [*faults, "" if found == packets else "the packets aren't those of the export"])


# A damaged packet


class Damage(NamedTuple):
    """A clip's frame that is damaged, and the frame of the timeline at which the export ends, if it does."""

    clip: str
    frame: int
    at: int


DAMAGES = (Damage("a.mov", 12, 12), Damage("a.mov", 29, 29), Damage("b.mov", 5, 30), Damage("b.mov", 17, 42), Damage("b.mov", 0, 25))


def damaged(packet: bytes, kind: int) -> bytes:
    """A packet with a bit changed in the sizes at its end, or without its last byte, or without any."""
    changed_at_end = packet[:-1] + bytes([packet[-1] ^ 0x80])
    return (changed_at_end, packet[:-1], b"")[kind % 3]


def check_damaged(report: Report, name: str, it: Ground):
    whole = (it.folder / "final.mkv").read_bytes()
    for number, damage in enumerate(DAMAGES):
        clip, file = (it.first.clip, "a.mkv") if damage.clip == "a.mov" else (it.second.clip, "b.mkv")
        packets = clip.packets()
        packets[damage.frame] = damaged(packets[damage.frame], number)
        kind = ffv1.answer(read_record(clip.record), clip.width, clip.height, packets[damage.frame])[0]
        shutil.move(it.folder / file, it.folder / "kept")
        (it.folder / file).write_bytes(written_file(clip.record, clip.width, clip.height, RATE, packets))
        faults = broken_run(it, damage, kind, whole)
        shutil.move(it.folder / "kept", it.folder / file)
        report.check(f"{name}: frame {damage.frame} of {damage.clip} is {kind}", faults)


def broken_run(it: Ground, damage: Damage, kind: str, whole: bytes) -> List[str]:
    """A session over a damaged clip: the frame can't be shown, the next one can, and the export ends at it."""
    at = damage.at
    next_one = at + 1
    write_script(it.folder, *HEAD, f"show {at}", f"show {next_one}", "export broken.mkv", f"extract {at} 1", "export mended.mkv")
    fault = f"export 1 fault {at} {damage.clip} {damage.frame} {kind}"
    lines = ["ok 50", f"fault {at} {kind}", f"frame {next_one}", "asked 1", "ok 49", "asked 2", fault, "export 2 done 49"]
    faults = run_script(it, lines, 7, ["screen.yuv", "broken.mkv", "mended.mkv"])
    made_files = {name: it.folder / name for name in ("broken.mkv", "mended.mkv", "screen.yuv")}
    content = {name: path.read_bytes() if path.exists() else None for name, path in made_files.items()}
    faults.append("" if content["screen.yuv"] == it.wanted[next_one] else "the screen has another picture")
    front = content["broken.mkv"]
    faults.append("" if front is not None and whole.startswith(front) else "what was written isn't the front of the export")
    clip = it.first.clip
    packets = reader.read_clip(whole).packets()
    mended = written_file(clip.record, clip.width, clip.height, RATE, packets[:at] + packets[next_one:])
    faults.append("" if content["mended.mkv"] == mended else "the other export isn't whole")
    return faults


def check_pair(report: Report, pair: Pair, folder: Path):
    name = pair.name()
    try:
        it = lay(pair, folder)
    except (RuntimeError, reader.Refused) as fault:
        report.check(f"{name}: made", str(fault))
        return
    check_export(report, name, pair, it)
    check_shown(report, name, it)
    if (folder / "final.mkv").exists():
        check_cut_again(report, name, it)
        check_damaged(report, name, it)


def check_sessions(report: Report, work: Path):
    for number, pair in enumerate([BROADCAST, *small_pairs()]):
        check_pair(report, pair, work / "sessions" / str(number))
    check_random_sessions(report, work / "random")
    check_repeated(report, work / "repeated")
