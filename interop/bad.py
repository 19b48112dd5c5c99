"""Bad input: scripts, clips, records, packets, names and outputs that the program must answer with its named line and status,
leaving every other file as it was. Beside them stands odd input that it must take.
"""

import shutil
from pathlib import Path
from typing import Dict, NamedTuple, Optional, Sequence, Tuple

import clips
import reader
from refused import cuts, refused_files
from report import Report, differs
from taken import other_records, taken_files
from tools import PROGRAM, changed, done, run, script, sums_of, timeline
from variants import Builder, bitmap
from written import written_file

USAGE = "usage: timeline SCRIPT [--workers N] [--cache N] [--journal N]\n"
REFUSED = "refused OutsideClip\nrefused EmptyTimeline\n"
NOT_WRITTEN = "ok 3\nasked 1\nexport 1 sink\n"
SCRIPT_LIMIT = 16 << 20
SMALL = 1 << 20
FRAMES, RATE = 3, 25


class Try(NamedTuple):
    """A run of the program: the files that it finds, its words, and what it must print, end with and may write."""

    name: str
    out: str
    status: int
    files: Dict[str, bytes] = {}
    words: Sequence[str] = ("s",)
    writes: Optional[str] = None
    export: Optional[bytes] = None  # where it isn't that of the folder's clip


class Ground:
    """A folder with a script that works, its clip, an old export and a file that has nothing to do with them."""

    def __init__(self, work: Path, name: str):
        self.folder = work / name
        clip = clips.Clip("128x96", "yuv420p", clips.RANGE, 4, 1, FRAMES, ())
        self.clip = clips.make(clip, work / f"{name}-clip")
        self.data = (work / f"{name}-clip" / "a.mkv").read_bytes()
        self.export = self.written(RATE)
        self.files = {
            "s": script(length=FRAMES, rate=RATE),
            "a.mkv": self.data,
            "o.mkv": b"an older export, longer than the new one" * 1000,
            "bystander": b"this file is not the program's",
            "sub/a.mkv": self.data,
        }

    def written(self, rate: int, record: Optional[bytes] = None) -> bytes:
        clip = self.clip
        return written_file(record or clip.record, clip.width, clip.height, rate, clip.packets())

    def lay(self, files: Dict[str, bytes]):
        shutil.rmtree(self.folder, ignore_errors=True)
        for name, content in {**self.files, **files}.items():
            path = self.folder / name
            path.parent.mkdir(parents=True, exist_ok=True)
            path.write_bytes(content)
        (self.folder / "full.mkv").symlink_to("/dev/full")
        (self.folder / "full").mkdir()

    def attempt(self, report: Report, it: Try):
        """Lays the files, runs the program, and checks what it said and what it wrote."""
        self.lay(it.files)
        before = sums_of(self.folder)
        ran = run([PROGRAM, *it.words], self.folder)
        after = sums_of(self.folder)
        faults = [differs("the output", ran.out, it.out), differs("the status", ran.status, it.status), ran.err]
        faults.append(changed(before, after, [it.writes] if it.writes else []))
        if it.writes:
            path = self.folder / it.writes
            is_right = path.is_file() and path.read_bytes() == (it.export or self.export)
            faults.append("" if is_right else f"{it.writes} isn't the right export")
        report.check(it.name, faults)


def faulty(name: str, line: int, why: str, text: bytes) -> Try:
    return Try(f"script {name}", f"fault line {line} {why}\n", 3, {"s": text})


def taken(name: str, text: bytes) -> Try:
    return Try(f"script {name}", done(FRAMES), 0, {"s": text}, writes="o.mkv")


def padded(size: int) -> bytes:
    """The script that works, brought to a size by blanks between two words of its first line."""
    good = script(length=FRAMES, rate=RATE)
    return good.replace(b"rate ", b"rate " + b" " * (size - len(good)), 1)


def changed_line(line: int, text: bytes) -> bytes:
    """The script that works with another line in the place of one, or after the last."""
    lines = script(length=FRAMES, rate=RATE).splitlines()
    lines[line - 1 : line] = [text]
    return b"\n".join([*lines, b""])


def scripts():
    yield from (faulty(name, line, why, text) for name, line, why, text in faulty_scripts())
    for name, (out, text) in odd_scripts().items():
        writes = "o.mkv" if "done" in out else None
        yield Try(f"script {name}", out, 0, {"s": text}, writes=writes)
    good = script(length=FRAMES, rate=RATE)
    yield Try("script of 16 MiB and one byte", "store s TooLarge\n", 4, {"s": padded(SCRIPT_LIMIT + 1)})
    yield taken("of 16 MiB", padded(SCRIPT_LIMIT))
    yield taken("with CR LF line ends", good.replace(b"\n", b"\r\n"))
    yield taken("without its last line end", good[:-1])
    yield taken("with blanks and tabs about its words", good.replace(b" ", b" \t ").replace(b"\n", b" \n"))
    yield taken("with comments and blank lines", b"#\xff\n\n" + good.replace(b"\n", b"\n \t\n# format\n"))


def faulty_scripts():
    """A name, the line and its fault, worked out by hand from docs/SCRIPT.md, and the script."""
    changed_lines = {
        "rate of 0": (1, "Number", b"rate 0"),
        "rate of 241": (1, "Number", b"rate 241"),
        "rate of no number": (1, "Number", b"rate fast"),
        "clip without a file": (2, "Count", b"clip A"),
        "clip named black": (2, "SameName", b"clip black a.mkv"),
        "clip with a drop-frame timecode": (2, "Timecode", b"clip A a.mkv 00:00:00;00"),
        "format as another name": (3, "UnknownClip", b"format as B"),
        "format of two words": (3, "Count", b"format as"),
        "format whose grid is too wide": (3, "Format", b"format 2 2 grey range 3 1"),
        "insert of no frames": (4, "Number", b"insert 0 A 0 0"),
        "insert of 1,000,001 frames": (4, "Number", b"insert 0 A 0 1000001"),
        "insert with a word too many": (4, "Count", b"insert 0 A 0 3 3"),
        "insert at a place with a sign": (4, "Number", b"insert -1 A 0 3"),
        "a second rate": (4, "Order", b"rate 25"),
        "a clip behind the format": (4, "Order", b"clip B a.mkv"),
        "a command in capital letters": (4, "Word", b"Insert 0 A 0 3"),
        "export without a file": (5, "Count", b"export"),
        "export onto a clip's file": (5, "SameExport", b"export a.mkv"),
        "line that isn't UTF-8": (2, "Utf8", b"clip A \xff.mkv"),
        "name that isn't UTF-8": (5, "Utf8", b"export \xc3.mkv"),
        "words of zeros": (1, "Word", bytes(20)),
        "byte order mark": (1, "Word", b"\xef\xbb\xbfrate 25"),
    }
    yield from ((name, line, why, changed_line(line, text)) for name, (line, why, text) in changed_lines.items())
    yield "of no bytes", 1, "Order", b""
    yield "of one line", 2, "Order", b"rate 25\n"
    yield "without a format", 3, "Order", b"rate 25\nclip A a.mkv\n"
    yield "of 16 MiB in one word", 1, "Word", b"x" * SCRIPT_LIMIT
    yield "of 100,001 lines", 100_001, "Limit", script(length=FRAMES, rate=RATE) + b"\n" * 99_996


def odd_scripts() -> Dict[str, Tuple[str, bytes]]:
    """Scripts without a fault, and what they print."""
    good = script(length=FRAMES, rate=RATE)
    empty = "refused EmptyTimeline\n"
    return {
        "with an insert of another name": (f"refused NoClip\n{empty}", changed_line(4, b"insert 0 B 0 3")),
        "with an insert past the end": (f"refused PastEnd\n{empty}", changed_line(4, b"insert 1 A 0 3")),
        "with a want of nothing": (f"past 0\n{empty}", changed_line(4, b"want 0 3")),
        "with a line after its export": (f"ok {FRAMES}\nasked 1\nok 0\nexport 1 done {FRAMES}\n", good + b"undo\n"),
        "without an export": (f"ok {FRAMES}\n", b"".join(good.splitlines(True)[:4])),
        "of a header alone": ("", b"".join(good.splitlines(True)[:3])),
    }


def words():
    for given in ((), ("--nonsense",), ("--help",), ("s", "s"), ("-s",)):
        yield Try(f"words {' '.join(given) or '(none)'}", USAGE, 2, words=given)
    yield Try("a script that isn't there", "store nowhere Missing\n", 4, words=("nowhere",))
    yield Try("a script that is a folder", "store sub Failed\n", 4, words=("sub",))
    yield Try("a script in a folder", done(FRAMES), 0, {"sub/s": script()}, words=("sub/s",), writes="o.mkv")
    yield from option_words()


def option_words():
    """Options within their bounds, at their ends and past them."""
    for given in ("--workers 0", "--workers 16", "--cache 1", "--cache 4096", "--journal 16", "--journal 4000000"):
        yield Try(f"words s {given}", done(FRAMES), 0, words=("s", *given.split()), writes="o.mkv")
    past = ("--workers 17", "--cache 0", "--cache 4097", "--journal 15", "--journal 4000001")
    for given in (*past, "--cache", "--cache 1 --cache 2", "--speed 1"):
        yield Try(f"words s {given}", USAGE, 2, words=("s", *given.split()))


def names():
    asked = lambda **words: {"s": script(length=FRAMES, rate=RATE, **words)}
    yield Try("a clip that isn't there", "store nowhere.mkv Missing\n", 4, asked(clip="nowhere.mkv"))
    yield Try("a clip in a folder that isn't there", "store no/a.mkv Missing\n", 4, asked(clip="no/a.mkv"))
    yield Try("a clip that is a folder", "store sub Failed\n", 4, asked(clip="sub"))
    yield Try("a clip in a folder", done(FRAMES), 0, asked(clip="sub/a.mkv"), writes="o.mkv")
    yield Try("an export in a folder", done(FRAMES), 0, asked(export="sub/o.mkv"), writes="sub/o.mkv")
    yield Try("an export with a name of other letters", done(FRAMES), 0, asked(export="é.mkv"), writes="é.mkv")
    yield Try("an export into a folder that isn't there", NOT_WRITTEN, 4, asked(export="no/o.mkv"))
    yield Try("an export onto a folder", NOT_WRITTEN, 4, asked(export="sub"))
    yield Try("an export onto /dev/full", NOT_WRITTEN, 4, asked(export="full.mkv"))
    yield Try("a cut past the clip", REFUSED, 0, {"s": script(length=FRAMES + 1)})
    yield Try("a cut far past the clip", REFUSED, 0, {"s": script(length=1_000_000)})


def clip_files(ground: Ground):
    for name, data in taken_files(ground.clip).items():
        yield Try(f"clip taken: {name}", done(FRAMES), 0, {"a.mkv": data}, writes="o.mkv")
    yield Try("clip taken: an export of the program", done(FRAMES), 0, {"a.mkv": ground.export}, writes="o.mkv")
    for name, (data, record) in other_records(ground.clip).items():
        export = ground.written(RATE, record)
        yield Try(f"clip taken: {name}", done(FRAMES), 0, {"a.mkv": data}, writes="o.mkv", export=export)
    short = Builder(ground.clip)
    data = short.file(short.fourcc(bitmap(41, short.record)))
    yield Try("clip whose record has one byte: FOURCC, biSize 41", "fault line 2 record Short\n", 3, {"a.mkv": data})
    for kind, files in refused_clips(ground).items():
        for name, data in files.items():
            yield Try(f"clip {kind}: {name}", f"fault line 2 clip {kind}\n", 3, {"a.mkv": data})


def refused_clips(ground: Ground) -> Dict[str, Dict[str, bytes]]:
    files = refused_files(ground.clip)
    return {**files, "Ebml": {**files["Ebml"], **cuts(Builder(ground.clip).file())}}


def check_reader(report: Report, ground: Ground):
    """The reader of this folder, which stands beside the tables: both say the same of each small file."""
    wanted = [(name, data, "taken") for name, data in taken_files(ground.clip).items()]
    for kind, files in refused_clips(ground).items():
        wanted += [(name, data, kind) for name, data in files.items()]
    small = [it for it in wanted if len(it[1]) < SMALL]
    faults = [differs(name, reader.answer(data), kind) for name, data, kind in small]
    report.check(f"the reader of this folder, over {len(small)} clips", faults)


def full_output(report: Report, ground: Ground):
    """Standard output that takes nothing: status 4."""
    ground.lay({})
    before = sums_of(ground.folder)
    with open("/dev/full", "wb") as full:
        ran = timeline(["s"], ground.folder, stdout=full)
    report.check(
        "standard output onto /dev/full",
        [differs("the status", ran.status, 4), ran.err, changed(before, sums_of(ground.folder), ["o.mkv"])],
    )


def check_bad_input(report: Report, work: Path):
    ground = Ground(work, "bad")
    for it in (*scripts(), *words(), *names(), *clip_files(ground)):
        ground.attempt(report, it)
    check_reader(report, ground)
    full_output(report, ground)
