"""Small files cut at each byte, and with each byte changed in turn: a named fault or a clip, as the rules have it.

What is wanted is what the readers of this folder say of each file, its record and its packets, and for the fronts of an export also a
table worked out by hand.
"""

from concurrent.futures import ThreadPoolExecutor
from pathlib import Path
from typing import Dict, Iterator, List, NamedTuple, Optional, Tuple

import clips
import ffv1
import reader
from ffv1_record import RecordFault, read_record
from mkv import AUDIO_TRACK, KEY, Id, ebml_head, element, master, simple_block, unsigned
from report import Report, differs
from tools import BUILT, done, script, timeline
from variants import Builder, bitmap, opened, void
from written import written_file

FRAMES, RATE = 3, 25
WORKERS = 4
CHANGES = (0x01, 0x80, 0xFF)
SHOWN = 5
PAST = "refused OutsideClip\nrefused EmptyTimeline\n"
EBML_END, SEGMENT_HEAD_END, INFO_END, TRACKS_END, CUES_BYTES = 40, 52, 96, 146, 39


def odd_file(it: Builder) -> bytes:
    """A file with something of everything: unknown sizes, a sound track, a FOURCC track, SimpleBlocks and BlockGroups."""
    sound = it.other(2, AUDIO_TRACK, b"A_FLAC")
    entry = it.entry(
        number=unsigned(Id.TRACK_NUMBER, 300),
        codec=element(Id.CODEC_ID, [b"V_MS/VFW/FOURCC\0"]),
        private=bitmap(40 + len(it.record), it.record + b"\0"),
        extra=[element(Id.CRC_32, [bytes(4)])],
    )
    one, three = (simple_block(300, time, it.packets[number]) for number, time in ((0, 0), (2, -20)))
    two = master(Id.BLOCK_GROUP, void(1), element(Id.BLOCK, [b"\x41\x2c\0\x28\0", it.packets[1]]))
    laced = simple_block(2, -5, b"sound", KEY | 6)
    stamp = lambda value: unsigned(Id.TIMESTAMP, value)
    return b"".join(
        ebml_head()
        + void(2)
        + opened(
            Id.SEGMENT,
            master(Id.TRACKS, sound, entry),
            opened(Id.CLUSTER, stamp(300), one, laced, void(3), two, size=b"\xff"),
            master(Id.TAGS, [b"any"]),
            master(Id.CLUSTER, three, stamp(400)),
            element(Id.CUES, [b""]),
        )
    )


class Wanted(NamedTuple):
    """What the program prints of a clip and ends with, and the export, whole or what it begins with."""

    out: str
    status: int
    export: Optional[bytes] = None
    is_whole: bool = True


def wanted_of(data: bytes) -> Wanted:
    try:
        clip = reader.read_clip(data)
        parameters = read_record(clip.record)
    except reader.Refused as fault:
        return Wanted(f"fault line 2 clip {fault.kind}\n", 3)
    except RecordFault as fault:
        return Wanted(f"fault line 2 record {fault}\n", 3)
    if not ffv1.suits(parameters, clip.width, clip.height):
        return Wanted("fault line 2 Slices\n", 3)
    if len(clip.blocks) < FRAMES:
        return Wanted(PAST, 0)
    packets = clip.packets()[:FRAMES]
    export = lambda length: written_file(clip.record, clip.width, clip.height, RATE, packets[:length])
    for at, packet in enumerate(packets):
        kind = ffv1.answer(parameters, clip.width, clip.height, packet)[0]
        if kind != "Ok":
            return Wanted(f"ok {FRAMES}\nasked 1\nexport 1 fault {at} A {at} {kind}\n", 7, export(at), False)
    return Wanted(done(FRAMES), 0, export(FRAMES))


def is_export(made: Optional[bytes], wanted: Wanted) -> bool:
    if made is None or wanted.is_whole:
        return made == wanted.export
    return wanted.export is not None and wanted.export.startswith(made)


def fault_of(folder: Path, name: str, data: bytes) -> str:
    """Runs the program over a clip, in the folder of its own that each worker has."""
    export = folder / "o.mkv"
    export.unlink(missing_ok=True)
    (folder / "a.mkv").write_bytes(data)
    ran = timeline(["s"], folder, BUILT)
    wanted = wanted_of(data)
    made = export.read_bytes() if export.exists() else None
    faults = [differs("the output", ran.out, wanted.out), differs("the status", ran.status, wanted.status), ran.err]
    faults.append("" if is_export(made, wanted) else "the export isn't the right one")
    return ", ".join([name, *faults]) if any(faults) else ""


def check_all(report: Report, name: str, files: Dict[str, bytes], work: Path):
    """One check over many files, of whose faults some are shown."""
    parts = [list(files.items())[number::WORKERS] for number in range(WORKERS)]

    def attempt(number: int) -> List[str]:
        folder = work / str(number)
        folder.mkdir(parents=True, exist_ok=True)
        (folder / "s").write_bytes(script(length=FRAMES, rate=RATE))
        return [fault_of(folder, *it) for it in parts[number]]

    with ThreadPoolExecutor(WORKERS) as pool:
        faults = [fault for found in pool.map(attempt, range(WORKERS)) for fault in found if fault]
    more = [f"{len(faults)} in all"] if len(faults) > SHOWN else []
    report.check(f"{name}: {len(files)} runs", faults[:SHOWN] + more)


def fronts(data: bytes) -> Dict[str, bytes]:
    return {f"the first {length} bytes": data[:length] for length in range(len(data) + 1)}


def changes(data: bytes) -> Iterator[Tuple[str, bytes]]:
    for at, byte in enumerate(data):
        for change in CHANGES:
            yield f"byte {at} {byte:02X} as {byte ^ change:02X}", data[:at] + bytes([byte ^ change]) + data[at + 1 :]


def export_answers(data: bytes, record_bytes: int) -> List[str]:
    """What each front of an export of one Cluster is, by the parts of a written file: all others end within an element."""
    whole = {
        EBML_END: "NoTrack",
        SEGMENT_HEAD_END: "NoTrack",
        INFO_END: "NoTrack",
        TRACKS_END + record_bytes: "NoFrames",
        len(data) - CUES_BYTES: "taken",
        len(data): "taken",
    }
    return [whole.get(length, "Ebml") for length in range(len(data) + 1)]


def check_each_byte(report: Report, work: Path):
    folder = work / "each-byte"
    clip = clips.make(clips.Clip("4x4", "gray", clips.RICE, 4, 0, FRAMES, ()), folder / "clip", clips.RAMPS)
    export = written_file(clip.record, clip.width, clip.height, RATE, clip.packets())
    odd = odd_file(Builder(clip))
    answers = [reader.answer(export[:length]) for length in range(len(export) + 1)]
    wanted = export_answers(export, len(clip.record))
    faults = [differs(f"the first {at}", *it) for at, it in enumerate(zip(answers, wanted))]
    report.check("the reader of this folder, over each front of an export", faults)
    report.check("a file of every kind: its clip", differs("it", reader.read_clip(odd).packets(), clip.packets()))
    check_all(report, "each front of an export", fronts(export), folder)
    check_all(report, "each front of a file of every kind", fronts(odd), folder)
    check_all(report, "each byte of it changed", dict(changes(odd)), folder)
