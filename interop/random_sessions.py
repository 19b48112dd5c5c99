"""Random scripts over small clips: lines, screen and exports of each are those of the model in `session_model`, byte by byte.

Each is played with several numbers of workers, but for those whose journal gets full, since what workers do takes room there too.
"""

from pathlib import Path
from random import Random
from typing import Dict, List, NamedTuple, Optional, Sequence, Tuple

from ffv1_record import RANGE, RICE, Shape, own_parameters, own_record
from media import Clip, Media, clip_of
from random_scripts import Drafter
from report import Report, differs
from scripts import Clip as ClipLine
from scripts import Format, LikeClip, Script, Timecode, read_script, write_script
from session_clips import PATTERNS, Kind, encode, made
from session_model import USUAL_JOURNAL, Outcome, Session
from tools import BUILT, WORKERS, frames_of, timeline, without_ratios
from written import written_file

SEED, SCRIPTS, TOLD = 7, 40, 3
CODERS = {"range": RANGE, "rice": RICE}
SHAPES = {"grey": Shape(False), "422": Shape(True, 1, 0), "420": Shape(True, 1, 1)}


class World(NamedTuple):
    """The clips that scripts are made over, the format's line, and which packets of which clip are damaged."""

    name: str
    kinds: Sequence[Tuple[Kind, int]]
    format: Optional[Format] = None
    damages: Dict[int, Sequence[int]] = {}


def kind(chroma: str, size: Tuple[int, int], coder: str, **more) -> Kind:
    return Kind(chroma, *size, coder, **{"slices": 1, "has_parity": True, **more})


WORLDS = (
    World("grey, two coders", ((kind("gray", (16, 10), "range_def"), 12), (kind("gray", (16, 10), "rice"), 9))),
    World("4:2:0, clips of one record", ((kind("yuv420p", (12, 8), "rice"), 14), (kind("yuv420p", (12, 8), "rice", noise=60), 10))),
    World(
        "4:2:2, a format of its own",
        ((kind("yuv422p", (16, 8), "range_def"), 10), (kind("yuv422p", (16, 8), "rice", has_parity=False), 10)),
        Format(16, 8, "422", "rice", 2, 2),
    ),
    World(
        "4:4:4, a table, another shape",
        ((kind("yuv444p", (9, 7), "range_tab"), 9), (kind("yuv444p", (9, 7), "rice"), 8), (kind("yuv420p", (9, 7), "rice"), 9)),
    ),
    World("4:1:1, four slices", ((kind("yuv411p", (32, 16), "rice", slices=4), 8), (kind("yuv411p", (32, 16), "range_tab", slices=4), 8))),
    World(
        "4:1:0, without parity",
        ((kind("yuv410p", (17, 9), "range_def", has_parity=False, context=1), 10), (kind("yuv410p", (17, 9), "rice"), 9)),
    ),
    World(
        "4:2:0, damaged packets",
        ((kind("yuv420p", (12, 8), "range_def"), 10), (kind("yuv420p", (12, 8), "rice", has_parity=False), 10)),
        None,
        {0: (3, 7), 1: (0, 5, 6)},
    ),
    World("grey, a format of another size", ((kind("gray", (8, 6), "rice"), 8),), Format(8, 4, "grey", "range", 1, 1)),
    World(
        "4:4:0, odd sides",
        ((kind("yuv440p", (7, 5), "range_def"), 12), (kind("yuv440p", (7, 5), "range_tab", pattern=PATTERNS[2]), 12)),
    ),
)  # fmt: skip
NAMES = ("A", "tape.mov", "Ü3")


def damaged(packet: bytes, number: int) -> bytes:
    at = len(packet) * (number % 5) // 5
    changed = packet[:at] + bytes([packet[at] ^ 0x55]) + packet[at + 1 :]
    return (changed, packet[:-1], b"", packet[1:])[number % 4]


def make_clip(folder: Path, number: int, world: World) -> Clip:
    """The clip's file, and what is in it; ffmpeg's frames are the reader's."""
    kind, count = world.kinds[number]
    target = folder / f"clip{number}.mkv"
    encode(kind._replace(pattern=kind.pattern if kind.pattern != PATTERNS[0] else PATTERNS[number % 2]), count, target)
    found = made(kind, target)
    packets = found.clip.packets()
    whole = clip_of(NAMES[number], found.clip.record, kind.width, kind.height, packets)
    if list(whole.frames) != found.frames:
        raise RuntimeError(f"{target.name}: ffmpeg has other frames than the reader of this folder")
    for frame in world.damages.get(number, ()):
        packets[frame] = damaged(packets[frame], frame)
    target.write_bytes(written_file(found.clip.record, kind.width, kind.height, 25, packets))
    return clip_of(NAMES[number], found.clip.record, kind.width, kind.height, packets)


def media_of(world: World, clips: Sequence[Clip]) -> Media:
    own = world.format
    if own is None:
        return Media(clips, clips[0].record, clips[0].width, clips[0].height)
    parameters = own_parameters(SHAPES[own.chroma], CODERS[own.coder], own.columns, own.rows)
    return Media(clips, own_record(parameters), own.width, own.height)


class Drawn(NamedTuple):
    """A script, its edit lists, and the words behind its name."""

    text: bytes
    lists: Dict[str, bytes]
    cache: int
    journal: int

    def words(self, workers: int) -> List[str]:
        return ["s", "--workers", str(workers), "--cache", str(self.cache), "--journal", str(self.journal)]

    def outcome(self, media: Media) -> Outcome:
        return Session(read_script(self.text), media, self.lists, self.cache, self.journal).run()

    def workers(self) -> Sequence[int]:
        return WORKERS if self.journal == USUAL_JOURNAL else WORKERS[:1]


def draw(random: Random, world: World, media: Media) -> Drawn:
    rate = random.choice((24, 25, 30, 120))
    starts = [random.choice((0, 0, 7, 4000)) for _ in media.clips]
    timecodes = [Timecode(0, it // rate // 60, it // rate % 60, it % rate) for it in starts]
    lines = [ClipLine(it.name, f"clip{number}.mkv", timecodes[number]) for number, it in enumerate(media.clips)]
    head = Script(rate, lines, world.format or LikeClip(NAMES[0]), [])
    drafter = Drafter(random, head, media)
    drafter.draw(random.randint(8, 45))
    text = write_script(head._replace(body=drafter.calls)).encode()
    is_small = random.random() < 0.15
    journal = random.randint(16, 60) if is_small else USUAL_JOURNAL
    return Drawn(text, drafter.lists, random.choice((1, 2, 5, 64)), journal)


def file_faults(folder: Path, wanted: Outcome, found: Sequence[str], names: Sequence[str]) -> List[str]:
    """What is wrong with the screen, by the lines that were printed, with the exports and the names of files."""
    screen, pictures = folder / "screen.yuv", wanted.screen(found)
    shown = screen.read_bytes() if screen.exists() else b""
    faults = ["" if shown == pictures else "the screen has other pictures"]
    for number, it in enumerate(wanted.exports, 1):
        path = folder / it.file
        data = path.read_bytes() if path.exists() else None
        if data is None:
            faults.append(f"there is no export {number}")
        elif it.is_whole and data != it.data or not it.data.startswith(data):
            faults.append(f"the export {number} is another")
    left = {it.name for it in folder.iterdir()} - set(names) - {it.file for it in wanted.exports}
    faults.append(differs("what else is there", left - ({"screen.yuv"} if pictures else set()), set()))
    return faults


def fault_of(folder: Path, drawn: Drawn, wanted: Outcome, workers: int) -> str:
    """Plays a script in the folder of its clips with so many workers, and says what is wrong."""
    for path in folder.iterdir():
        if not path.name.startswith("clip"):
            path.unlink()
    clips = [path.name for path in folder.iterdir()]
    for name, data in {"s": drawn.text, **drawn.lists}.items():
        (folder / name).write_bytes(data)
    ran = timeline(drawn.words(workers), folder, BUILT)
    found = ran.out.splitlines()
    faults = [differs("the status", ran.status, wanted.status), ran.err, *line_faults(found, wanted, workers)]
    told = "; ".join(it for it in [*faults, *file_faults(folder, wanted, found, [*clips, "s", *drawn.lists])] if it)
    return f"with {workers} workers: {told}" if told else ""


def line_faults(lines: Sequence[str], wanted: Outcome, workers: int) -> List[str]:
    for number, (found, line) in enumerate(zip(lines, wanted.lines), 1):
        if not (line.may_be(found) if workers else found == line.text):
            return [differs(f"line {number} of the output", found, line.text)]
    return [differs("the number of lines", len(lines), len(wanted.lines))]


def decoded_fault(folder: Path, wanted: Outcome) -> str:
    """ffmpeg reads the last export, whose packets the writer of this folder has made: as many frames as there are packets."""
    whole = [it for it in wanted.exports if it.is_whole]
    if not whole:
        return ""
    found = frames_of(whole[-1].file, folder)
    return without_ratios(found.said) or differs("ffmpeg's frames", len(found.pictures), len(found.packets))


def check_world(report: Report, number: int, world: World, folder: Path):
    folder.mkdir(parents=True)
    media = media_of(world, [make_clip(folder, at, world) for at in range(len(world.kinds))])
    for path in folder.glob("*.raw"):
        path.unlink()
    faults, runs = [], 0
    for at in range(SCRIPTS):
        drawn = draw(Random(f"{SEED} {number} {at}"), world, media)
        wanted = drawn.outcome(media)
        told = [fault_of(folder, drawn, wanted, workers) for workers in drawn.workers()]
        runs += len(told)
        told.append(decoded_fault(folder, wanted) if at % 10 == 0 else "")
        faults += [f"script {at}: {fault}" for fault in told if fault]
    more = [f"{len(faults)} in all"] if len(faults) > TOLD else []
    report.check(f"random scripts, {world.name}: {runs} runs of {SCRIPTS}", faults[:TOLD] + more)


def check_random_sessions(report: Report, work: Path):
    for number, world in enumerate(WORLDS):
        try:
            check_world(report, number, world, work / str(number))
        except RuntimeError as fault:
            report.check(f"random scripts, {world.name}: made", str(fault))
