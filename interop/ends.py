"""How sessions end: what stops them, which status counts, what is exported all the same; and sessions at the limits."""

import subprocess
from pathlib import Path
from typing import Callable, NamedTuple, Sequence

from ffv1_record import RANGE, Shape, own_parameters, own_record
from media import black_samples
from report import Report, differs
from tools import BUILT, changed, ffmpeg, sums_of, timeline
from written import written_file

RATE, FRAMES = 25, 4
OWN = own_parameters(Shape(False), RANGE, 1, 1)._replace(has_parity=False)
PACKET = bytes.fromhex("FFFF000002")  # 2x2 samples 0
CLIP = written_file(own_record(OWN), 2, 2, RATE, [PACKET] * FRAMES)
BROKEN = written_file(own_record(OWN), 2, 2, RATE, [PACKET, PACKET, b"", PACKET])
HEAD = ("rate 25", "clip A a.mkv", "clip B broken.mkv", "format as A")
MOST_SEGMENTS, MOST_FRAMES, MOST_CLIPS = 100_000, 1_000_000, 1000
FULL = '"$0" s > /dev/full'
UNTIL_ONE_LINE = '("$0" s; echo $? > status) | head -n 1 | grep -q "ok 2"'


class End(NamedTuple):
    """The lines behind the head, what is printed, the status, and the files that are written."""

    name: str
    lines: Sequence[str]
    wanted: Sequence[str]
    status: int
    writes: Sequence[str] = ()
    lay: Callable[[Path], None] = lambda folder: None


def folder_at(name: str) -> Callable[[Path], None]:
    return lambda folder: (folder / name).mkdir()


ASKED = ("insert 0 A 0 2", "export one.mkv")
SAID, DONE = ("ok 2", "asked 1"), "export 1 done 2"
ENDS = (
    End("a list that isn't there", (*ASKED, "edl no.edl", "undo"), (*SAID, "store no.edl Missing", DONE), 4, ["one.mkv"]),
    End("a list that is a folder", (*ASKED, "edl sub"), (*SAID, "store sub Failed", DONE), 4, ["one.mkv"], folder_at("sub")),
    End("a list over 16 MiB", (*ASKED, "edl big"), (*SAID, "store big TooLarge", DONE), 4, ["one.mkv"],
        lambda folder: (folder / "big").write_bytes(b"*\n" * (1 << 23) + b"\n")),
    End("a screen that is a folder", (*ASKED, "show 1", "undo"), (*SAID, "frame 1", "screen failed", DONE), 4, ["one.mkv"],
        folder_at("screen.yuv")),
    End("a damaged frame", ("insert 0 B 0 4", "export x.mkv", "show 2", "show 3"),
        ("ok 4", "asked 1", "fault 2 Empty", "frame 3", "export 1 fault 2 B 2 Empty"), 7, ["x.mkv", "screen.yuv"]),
    End("a damaged frame, and an export that can't be written", ("insert 0 B 0 4", "export x.mkv", "export no/y.mkv", "export z.mkv"),
        ("ok 4", "asked 1", "asked 2", "asked 3", "export 1 fault 2 B 2 Empty", "export 2 sink", "export 3 fault 2 B 2 Empty"), 4,
        ["x.mkv", "z.mkv"]),
    End("two exports that are one file", (*ASKED, "insert 2 A 0 1", "export ./one.mkv"),
        (*SAID, "ok 3", "asked 2", DONE, "export 2 done 3"), 0, ["one.mkv"]),
    End("an undo of nothing, and a redo", ("undo", "redo", *ASKED), ("refused NothingToUndo", "refused NothingToRedo", *SAID, DONE), 0,
        ["one.mkv"]),
    End("black for another clip", ("insert 0 A 0 2", "relink 0 black 0", "relink 0 A 2"), ("ok 2", "refused NoClip", "ok 2"), 0),
    End("the most frames", (f"insert 0 black 0 {MOST_FRAMES}", "insert 9 A 0 1", "trimout 9 -1", "overwrite 1000000 A 0 1",
        "overwrite 999999 A 0 1", "play 999999", "play 1000000", "undo", "extract 0 1000000"),
        ("ok 1000000", *["refused TooManyFrames"] * 3, "ok 1000000", "pending 999999", "past 1000000", "ok 1000000", "ok 0"), 0),
    End("the longest dissolve", ("insert 0 black 0 300", "insert 300 black 0 300", "dissolve 300 251", "dissolve 300 250", "show 549",
        "dissolve 300 301"), ("ok 300", "ok 600", "refused MixTooLong", "ok 600", "frame 549", "refused MixTooLong"), 0, ["screen.yuv"]),
)  # fmt: skip


def lay(folder: Path, lines: Sequence[str], head: Sequence[str] = HEAD):
    folder.mkdir(parents=True)
    (folder / "a.mkv").write_bytes(CLIP)
    (folder / "broken.mkv").write_bytes(BROKEN)
    (folder / "s").write_text("".join(f"{it}\n" for it in (*head, *lines)))


def check_end(report: Report, it: End, folder: Path):
    lay(folder, it.lines)
    it.lay(folder)
    before = sums_of(folder)
    ran = timeline(["s"], folder)
    faults = [differs("the output", ran.out.splitlines(), list(it.wanted)), differs("the status", ran.status, it.status), ran.err]
    report.check(f"a session with {it.name}", [*faults, changed(before, sums_of(folder), it.writes)])


# Output that takes nothing more, and the screen of an earlier run


def check_output(report: Report, folder: Path):
    """What was asked before the line that wasn't taken is exported, and what comes after it isn't played."""
    lines = (*ASKED, "insert 0 A 0 1", "export two.mkv", *["play 0"] * 20_000)
    lay(folder / "full", lines)
    ran = subprocess.run(["sh", "-c", FULL, BUILT], cwd=folder / "full", capture_output=True, timeout=60)
    made = [it.name for it in (folder / "full").iterdir() if it.name.startswith(("one", "two"))]
    report.check("output onto a full disk", [differs("the status", ran.returncode, 4), differs("what is exported", made, [])])
    lay(folder / "cut", lines)
    subprocess.run(["sh", "-c", UNTIL_ONE_LINE, BUILT], cwd=folder / "cut", capture_output=True, timeout=60)
    status = (folder / "cut" / "status").read_text().strip()
    whole = written_file(own_record(OWN), 2, 2, RATE, [PACKET] * 2)
    made_one = folder / "cut" / "one.mkv"
    is_whole = not made_one.exists() or made_one.read_bytes() == whole
    report.check("output that is cut off", [differs("the status", status, "4"), "" if is_whole else "the export isn't whole"])


def check_screen(report: Report, folder: Path):
    """The first picture takes the place of what an earlier run showed; where nothing is shown it stays."""
    old, new = b"old" * 100, black_samples(OWN, 2, 2)
    for name, lines, wanted in (("kept", ["insert 0 A 0 2"], old), ("replaced", ["insert 0 black 0 2", "show 1"], new)):
        lay(folder / name, lines)
        (folder / name / "screen.yuv").write_bytes(old)
        ran = timeline(["s"], folder / name)
        shown = (folder / name / "screen.yuv").read_bytes()
        report.check(f"the screen of an earlier run is {name}", [differs("the status", ran.status, 0), differs("it", shown, wanted)])


# Limits


def timecode(frame: int) -> str:
    return f"{frame // 90_000:02}:{frame // 1500 % 60:02}:{frame // 25 % 60:02}:{frame % 25:02}"


def cut_at(source: int, record: int) -> str:
    """A cut of one frame of A."""
    return "1 A V C " + " ".join(map(timecode, (source, source + 1, record, record + 1))) + "\n"


def list_of(events: int) -> str:
    """Cuts of a frame each, one after the other."""
    return "".join(cut_at(at % 2, at) for at in range(events))


def far_list(last: int) -> str:
    """Two frames, and black between them."""
    return cut_at(0, 0) + cut_at(1, last)


def check_limits(report: Report, folder: Path):
    lists = {
        "100,000 events": (list_of(MOST_SEGMENTS), f"ok {MOST_SEGMENTS}"),
        "100,001 events": (list_of(MOST_SEGMENTS + 1), "refused TooManySegments"),
        "a million frames": (far_list(MOST_FRAMES - 1), f"ok {MOST_FRAMES}"),
        "a million frames and one": (far_list(MOST_FRAMES), "refused TooManyFrames"),
        "a day": (far_list(24 * 3600 * RATE - 2), "refused TooManyFrames"),
    }
    for number, (name, (text, wanted)) in enumerate(lists.items()):
        lay(folder / str(number), ["edl l.edl", "undo"])
        (folder / str(number) / "l.edl").write_text(text)
        ran = timeline(["s"], folder / str(number))
        undone = "ok 0" if wanted.startswith("ok") else "refused NothingToUndo"
        report.check(f"a list of {name}", differs("the output", ran.out.splitlines(), [wanted, undone]))
    check_clips(report, folder)
    check_long(report, folder / "long")


def check_clips(report: Report, folder: Path):
    """As many clips as there may be, all of one file."""
    clips = [f"clip C{number} a.mkv" for number in range(MOST_CLIPS)]
    body = ["format as C999", "insert 0 C999 0 1", "insert 0 C0 1 1", "insert 2 C500 2 1", "export o.mkv"]
    lay(folder / "clips", body, ("rate 25", *clips))
    ran = timeline(["s"], folder / "clips")
    report.check("a thousand clips", differs("the output", ran.out.splitlines(), ["ok 1", "ok 2", "ok 3", "asked 1", "export 1 done 3"]))
    lay(folder / "more", body, ("rate 25", *clips, "clip D a.mkv"))
    ran = timeline(["s"], folder / "more")
    report.check("a thousand clips and one", differs("the output", ran.out, f"fault line {MOST_CLIPS + 2} Limit\n"))


def check_long(report: Report, folder: Path):
    """A frame whose one slice would have over 16 MiB, and the same in two slices."""
    width, height = 8192, 2304
    folder.mkdir()
    source = f"nullsrc=size={width}x{height}:rate=25,format=gray,noise=alls=100:allf=t,noise=alls=100:allf=t"
    coded = ["-pix_fmt", "gray", "-c:v", "ffv1", "-level", 3, "-g", 1, "-coder", 0, "-slices", 16]
    made = ffmpeg(["-f", "lavfi", "-i", source, "-frames:v", 1, *coded, "a.mkv"], folder)
    if made.status:
        report.check("a frame too long: made", made.err)
        return
    for name, rows, end, status in (("one slice", 1, "long 1", 7), ("two slices", 2, "done 2", 0)):
        head = ["rate 25", "clip A a.mkv", f"format {width} {height} grey rice 1 {rows}"]
        lines = ["insert 0 A 0 1", "insert 0 black 0 1", "export o.mkv"]
        (folder / "s").write_text("".join(f"{it}\n" for it in (*head, *lines)))
        ran = timeline(["s"], folder)
        wanted = ["ok 1", "ok 2", "asked 1", f"export 1 {end}"]
        faults = [differs("the output", ran.out.splitlines(), wanted), differs("the status", ran.status, status)]
        report.check(f"a frame of noise in {name}", faults)


def check_ends(report: Report, work: Path):
    folder = work / "ends"
    for number, it in enumerate(ENDS):
        check_end(report, it, folder / str(number))
    check_output(report, folder)
    check_screen(report, folder)
    check_limits(report, folder / "limits")
