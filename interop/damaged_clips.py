"""Clips with faulty records, and of damaged packets alone, through the whole program: each fault by its name, each sound frame shown."""

from collections import Counter
from pathlib import Path
from typing import Iterator, List, Tuple

import ffv1
import records
from damage import damaged
from ffv1_record import RANGE, Shape, own_parameters, own_record
from frames import small_pictures
from report import Report, differs
from tools import changed, sums_of, timeline
from written import written_file

TOLD, RATE, MOST_PACKETS = 3, 25, 2000


def write_script(folder: Path, *lines: str):
    head = (f"rate {RATE}", "clip A a.mkv", "format as A")
    (folder / "s").write_text("".join(f"{it}\n" for it in (*head, *lines)))


# Records


def faulty_records() -> Iterator[Tuple[str, bytes, str]]:
    """A name, a record for pictures of 4x2 in 4:2:0, and what the program says of it."""
    own = records.record_of(records.ROWS[0])
    for row in records.ROWS:
        if row.fault:
            yield f"{row.fields or row.runs}"[:60], records.record_of(row), f"record {row.fault}"
    yield "five bytes", own[:5], "record Short"
    yield "a byte cut off", own[:-1], "record Parity"
    yield "a bit changed", bytes([own[0] ^ 1]) + own[1:], "record Parity"


def bad_grids() -> Iterator[Tuple[str, bytes, Tuple[int, int]]]:
    """Records whose grid a size of the picture doesn't suit."""
    record = lambda shape, columns, rows: own_record(own_parameters(shape, RANGE, columns, rows))
    yield "five columns of four samples", record(Shape(False), 5, 1), (4, 2)
    yield "three rows of two samples", record(Shape(False), 1, 3), (4, 2)
    yield "a grid of 3x1 over 5x1 in 4:2:0", record(Shape(True, 1, 1), 3, 1), (5, 1)


def check_records(report: Report, folder: Path):
    rows = [(name, record, (records.WIDTH, records.HEIGHT), said) for name, record, said in faulty_records()]
    rows += [(name, record, size, "Slices") for name, record, size in bad_grids()]
    write_script(folder, "insert 0 A 0 1", "export o.mkv")
    for name, record, (width, height), said in rows:
        (folder / "a.mkv").write_bytes(written_file(record, width, height, RATE, [b"any"]))
        before = sums_of(folder)
        ran = timeline(["s"], folder)
        faults = [differs("the output", ran.out, f"fault line 2 {said}\n"), differs("the status", ran.status, 3), ran.err]
        report.check(f"a clip's record, {name}: {said}", [*faults, changed(before, sums_of(folder))])


# Packets


def check_packets(report: Report, folder: Path):
    """Clips whose packets are each damaged in another way: each frame is shown, or its fault told."""
    for name, picture, stride in small_pictures():
        parameters, size = picture.parameters, (picture.width, picture.height)
        packets = list(dict(damaged(picture, stride)).values())[:MOST_PACKETS]
        answers = [ffv1.answer(parameters, *size, it) for it in packets]
        (folder / "a.mkv").write_bytes(written_file(own_record(parameters), *size, RATE, packets))
        (folder / "screen.yuv").unlink(missing_ok=True)
        write_script(folder, f"insert 0 A 0 {len(packets)}", *(f"show {at}" for at in range(len(packets))), "export o.mkv")
        report.check(f"damaged packets, {name}: {told(answers)}", packet_faults(folder, answers))


def told(answers: List[Tuple]) -> str:
    return ", ".join(f"{kind} {count}" for kind, count in sorted(Counter(kind for kind, _, _ in answers).items()))


def packet_faults(folder: Path, answers: List[Tuple]) -> List[str]:
    kinds = [kind for kind, _, _ in answers]
    shown = [f"frame {at}" if kind == "Ok" else f"fault {at} {kind}" for at, kind in enumerate(kinds)]
    first = next((at for at, kind in enumerate(kinds) if kind != "Ok"), len(kinds))
    end = f"export 1 done {len(kinds)}" if first == len(kinds) else f"export 1 fault {first} A {first} {kinds[first]}"
    ran = timeline(["s"], folder)
    lines = ran.out.splitlines()
    wanted = [f"ok {len(kinds)}", *shown, "asked 1", end]
    others = [differs(f"line {at}", *it) for at, it in enumerate(zip(lines, wanted), 1) if it[0] != it[1]]
    screen = folder / "screen.yuv"
    pictures = screen.read_bytes() if screen.exists() else b""
    is_shown = pictures == b"".join(samples for _, _, samples in answers)
    status = differs("the status", ran.status, 0 if first == len(kinds) else 7)
    count = differs("the number of lines", len(lines), len(wanted))
    return [*others[:TOLD], count, status, "" if is_shown else "the screen has other pictures", ran.err]


def check_damaged_clips(report: Report, work: Path):
    folder = work / "damaged_clips"
    folder.mkdir()
    check_records(report, folder)
    check_packets(report, folder)
