#!/usr/bin/env python3
"""The tables of crates/export_tests, as the reader and the writers of this folder have them: a clip's record and packets, damaged packets
and faulty records with their faults, coded blends, and an export. Run by itself it writes them anew.

What each damaged packet and each record is named here was worked out by hand from docs/FORMATS.md; the reader has to say the same.
"""

from pathlib import Path
from typing import Dict, List, Tuple

import ffv1
from damage import joined, picture_of, range_start, with_symbols
from ffv1_record import RANGE, Shape, own_parameters, own_record, read_record
from ffv1_write import head_of, with_footer
from media import blended
from records import ROWS, fault_of, record_of
from report import Report, differs
from written import written_file

PLACE = Path(__file__).resolve().parent.parent / "crates" / "export_tests" / "src" / "tables.rt"
SIDE, RATE, FRAMES = 2, 25, 51
A_LINE, IN_A_ROW = 20, 12
GREY = own_parameters(Shape(False), RANGE, 1, 1)
# Four samples 0, by a content of two bytes that no own encoder writes.
PACKET = with_footer(GREY, b"\xff\xff")
BLACK, WHITE, STEPS = 16, 235, 3
TOO_LONG = 1 << 32


def flat(sample: int) -> bytes:
    """The packet of four samples, as an own encoder writes it."""
    return picture_of(GREY, SIDE, SIDE, lambda plane, column, row: sample).packet()


def damaged() -> Dict[str, bytes]:
    """A packet of each fault, by the fault's name."""
    flat_picture = picture_of(GREY, SIDE, SIDE, lambda plane, column, row: 0)
    uneven = picture_of(GREY, SIDE, SIDE, lambda plane, column, row: 97 * column + 61 * row + 40)
    symbols = lambda place: [int(it == place) for it in range(9)]
    return {
        "Empty": b"",
        "Chain": PACKET[:4] + b"\x03" + PACKET[5:],
        "Parity": b"\xfe" + PACKET[1:],
        "NotKey": with_footer(GREY, b"\x10\x00"),
        "Header": with_symbols(flat_picture, 0, symbols(0)),
        "TableIndex": with_symbols(flat_picture, 0, symbols(4)),
        "Cover": PACKET * 2,
        "Symbol": joined(GREY, [range_start(head_of(GREY, True, symbols(None)), TOO_LONG)]),
        "Overrun": joined(GREY, [uneven.contents[0][:3]]),
    }


def faulty() -> Dict[str, bytes]:
    """A record of each fault, by the fault's name: of those in `records` the first one."""
    own = record_of(ROWS[0])
    found = {"Short": own[:5], "Parity": own[:-1] + bytes([own[-1] ^ 1])}
    for row in ROWS:
        if row.fault:
            found.setdefault(row.fault, record_of(row))
    return found


def gridded(columns: int) -> bytes:
    """The record of 4:2:0 with so many columns of slices."""
    return own_record(own_parameters(Shape(True, 1, 1), RANGE, columns, 1))


def changed_record() -> bytes:
    """The record with another byte, and so with a wrong parity: no two sound records differ in one byte alone."""
    record = own_record(GREY)
    return record[:2] + bytes([record[2] ^ 1]) + record[3:]


def blends() -> List[bytes]:
    """The steps from black to white, coded."""
    weights = [256 * step // (STEPS + 1) for step in range(1, STEPS + 1)]
    return [flat(blended(bytes([BLACK]), bytes([WHITE]), weight)[0]) for weight in weights]


# The file of tables

FAULTS_WITHOUT_PLACE = ("Empty", "Chain", "NotKey")


def bytes_text(data: bytes, indent: str) -> str:
    lines = [data[at : at + A_LINE] for at in range(0, len(data), A_LINE)]
    return "".join(indent + " ".join(f"0x{it:02X}," for it in line) + "\n" for line in lines)


def slice_text(data: bytes) -> str:
    """A slice of bytes, on one line where it is short."""
    if len(data) <= IN_A_ROW:
        return "&[" + ", ".join(f"0x{it:02X}" for it in data) + "]"
    return "&[\n" + bytes_text(data, "        ") + "    ]"


def static(doc: str, name: str, kind: str, body: str) -> str:
    return f"/// {doc}\n#[rattlefmt::skip]\npub(crate) static {name}: {kind} = [\n{body}];\n"


def bytes_table(doc: str, name: str, data: bytes) -> str:
    return static(doc, name, f"[u8; {len(data)}]", bytes_text(data, "    "))


def fault_text(kind: str) -> str:
    field = "" if kind in FAULTS_WITHOUT_PLACE else f" {{ {'cell' if kind == 'Cover' else 'slice'}: 0 }}"
    return f"FrameFault::{kind}{field}"


def rows_table(doc: str, name: str, kind: str, rows: List[Tuple[bytes, str]]) -> str:
    body = "".join(f"    ({slice_text(data)}, {value}),\n" for data, value in rows)
    return static(doc, name, f"[(&[u8], {kind}); {len(rows)}]", body)


def text() -> str:
    packets = [(data, fault_text(kind)) for kind, data in damaged().items()]
    records = [(data, f"RecordFault::{kind}") for kind, data in faulty().items()]
    steps = "".join(f"    {slice_text(it)},\n" for it in blends())
    whole = written_file(own_record(GREY), SIDE, SIDE, RATE, [PACKET] * FRAMES)
    return "\n".join(
        [
            "//! A clip, damaged packets, faulty records and an export, which interop/exports.py writes without the program.\n",
            "use ffv1_record::RecordFault;\nuse tl_model::FrameFault;\n",
            bytes_table("The record of grey pictures with one slice, the range coder and parities.", "RECORD", own_record(GREY)),
            bytes_table("The same but for its last field, intra, and so for its parity.", "OTHER", own_record(GREY._replace(intra=0))),
            bytes_table("The same but for one byte, and with the parity as it was.", "CHANGED", changed_record()),
            bytes_table("The same of 4:2:0, with one column of slices.", "CHROMA", gridded(1)),
            bytes_table("The same of 4:2:0, with two columns.", "TWO_COLUMNS", gridded(2)),
            bytes_table("The same of 4:2:0, with three columns.", "THREE_COLUMNS", gridded(3)),
            bytes_table("A packet of four samples 0, which is none of an own encoder's.", "PACKET", PACKET),
            bytes_table("The packet of four samples 0 that is coded.", "CODED", flat(0)),
            bytes_table("That of four samples 16.", "BLACK", flat(BLACK)),
            bytes_table("That of four samples 235.", "WHITE", flat(WHITE)),
            static(f"Those of the {STEPS} steps of a dissolve from 16 to 235.", "STEPS", f"[&[u8]; {STEPS}]", steps),
            rows_table("A packet for each fault.", "DAMAGED", "FrameFault", packets),
            rows_table("A record for each fault, but for want of memory.", "FAULTY", "RecordFault", records),
            bytes_table(f"The export of {FRAMES} frames at {RATE} a second, each with that packet of samples 0.", "WHOLE", whole),
        ]
    )


# The checks


def named_faults() -> List[str]:
    """What the reader says of these packets, records and grids."""
    answer = lambda packet: ffv1.answer(GREY, SIDE, SIDE, packet)
    faults = [differs(f"the fault of {kind}", answer(packet)[:2], (kind, 0)) for kind, packet in damaged().items()]
    faults += [differs(f"the fault of {kind}", fault_of(record), kind) for kind, record in faulty().items()]
    faults.append(differs("the fault of the changed record", fault_of(changed_record()), "Parity"))
    for sample, packet in ((0, PACKET), (0, flat(0)), (BLACK, flat(BLACK)), (WHITE, flat(WHITE))):
        faults.append(differs("the samples", answer(packet), ("Ok", 0, bytes([sample] * SIDE * SIDE))))
    suits = lambda columns: ffv1.suits(read_record(gridded(columns)), 5, 1)
    return [*faults, differs("the grids that suit 5x1", [suits(it) for it in (1, 2, 3)], [True, True, False])]


def check_exports(report: Report):
    report.check("the faults of the tables of export_tests", named_faults())
    report.check("the tables of export_tests", "" if PLACE.read_text() == text() else "they aren't what this folder writes")


if __name__ == "__main__":
    PLACE.write_text(text())
