"""Faulty configuration records: each field by a record that is worked out from docs/FORMATS.md, and each byte."""

from typing import Dict, Iterator, NamedTuple, Sequence, Tuple

import ffv1
from damage import Damaged, picture_of
from ffv1_bits import parity
from ffv1_record import (
    OWN_RUNS,
    PARITY_BYTES,
    RANGE,
    RecordFault,
    Shape,
    own_fields,
    own_parameters,
    own_record,
    read_record,
    write_record,
)
from library import Library
from report import Report, differs

WIDTH, HEIGHT, TOLD = 4, 2, 3
TOO_LONG = 1 << 32
OWN = own_parameters(Shape(True, 1, 1), RANGE, 2, 1)
FLAT_RUNS = ((128,),) * 5


class Row(NamedTuple):
    """Fields that are other than an own encoder's, and the fault that comes of them, or none."""

    fields: Dict[str, int]
    fault: str
    deltas: Sequence[int] = ()
    runs: Sequence[Sequence[int]] = OWN_RUNS


ROWS = (
    Row({}, ""),
    Row({"version": 2}, "Version"),
    Row({"version": 4}, "Version"),
    Row({"micro_version": 3}, "Micro"),
    Row({"micro_version": 5}, "Micro"),
    Row({"coder_type": 3}, "Coder"),
    Row({"coder_type": 2}, "Transition", [0] * 255),
    Row({"coder_type": 2}, "", [1] * 7 + [0] * 241 + [1] * 7),
    Row({"coder_type": 2}, "Transition", [1] * 7 + [0] * 241 + [256]),
    Row({"coder_type": 2}, "Transition", [1, -1]),
    Row({"colorspace_type": 1}, "Color"),
    Row({"bits_per_raw_sample": 0}, ""),
    Row({"bits_per_raw_sample": 7}, "Depth"),
    Row({"bits_per_raw_sample": 10}, "Depth"),
    Row({"chroma_planes": 0, "log2_h_chroma_subsample": 9}, ""),
    Row({"log2_h_chroma_subsample": 3}, "Subsample"),
    Row({"log2_v_chroma_subsample": 3}, "Subsample"),
    Row({"extra_plane": 1}, "ExtraPlane"),
    Row({"num_h_slices_minus1": 31, "num_v_slices_minus1": 31}, ""),
    Row({"num_h_slices_minus1": 1024, "num_v_slices_minus1": 0}, "Slices"),
    Row({"num_h_slices_minus1": 0, "num_v_slices_minus1": TOO_LONG - 1}, "Slices"),
    Row({"quant_table_set_count": 0}, "Tables"),
    Row({"quant_table_set_count": 9}, "Tables"),
    Row({}, "", (), FLAT_RUNS),
    Row({}, "Tables", (), ((127, 2), *FLAT_RUNS[1:])),
    Row({}, "Tables", (), ((1,) * 128,) * 5),
    Row({}, "Tables", (), ((1, 1, 1, 1, 1, 1, 1, 121),) * 4 + ((128,),)),
    Row({}, "", (), ((1, 1, 1, 1, 1, 1, 122),) * 4 + ((128,),)),
    Row({"states_coded": 1}, "InitialStates"),
    Row({"ec": 0}, ""),
    Row({"ec": 2}, "Ec"),
    Row({"intra": 0}, ""),
    Row({"intra": 1 << 20}, ""),
    Row({"intra": TOO_LONG}, "Symbol"),
    Row({"version": TOO_LONG}, "Symbol"),
)


def record_of(row: Row) -> bytes:
    return write_record({**own_fields(OWN), **row.fields}, row.deltas, row.runs)


def fault_of(record: bytes) -> str:
    try:
        read_record(record)
    except RecordFault as fault:
        return str(fault)
    return ""


def records_changed(record: bytes) -> Iterator[Damaged]:
    """A record cut short, and with each byte changed, with its parity mended."""
    part = record[:-PARITY_BYTES]
    mended = lambda name, changed: (name, changed + parity(changed).to_bytes(PARITY_BYTES, "big"))
    for at, byte in enumerate(part):
        yield mended(f"cut at {at}", part[:at])
        for value in sorted({byte ^ 1, byte ^ 128, *range(0, 256, 15)} - {byte}):
            yield mended(f"byte {at} {value:02X}", part[:at] + bytes([value]) + part[at + 1 :])


def check_record_reader(report: Report):
    """The reader of this folder names the fault of each row."""
    faults = [differs(f"{it.fields}", fault_of(record_of(it)), it.fault) for it in ROWS]
    record = own_record(OWN)
    faults += [
        differs("the parity", fault_of(record[:-1] + bytes([record[-1] ^ 1])), "Parity"),
        differs("five bytes", fault_of(record[:5]), "Short"),
        differs("what is read", read_record(record), OWN),
    ]
    report.check("configuration records", faults)


def check_faulty_records(report: Report, codec: Library):
    """A record is faulty to the library where it is to the reader; else a packet under it has the same samples or fault."""
    packet = picture_of(OWN, WIDTH, HEIGHT, lambda plane, column, row: 90 * column + row + plane).packet()
    rows = [(f"{it.fields}", record_of(it)) for it in ROWS]
    faults = []
    for name, record in [*rows, *records_changed(own_record(OWN))]:
        wanted, size = wanted_of(record, packet)
        found = codec.decode(record, WIDTH, HEIGHT, packet, size)
        if found != wanted and (found.kind, wanted[0]) != ("Arguments", "Arguments"):
            faults.append(f"{name}: {found[:2]}, not {wanted[:2]}")
    report.check("library, faulty and changed records", faults[:TOLD])


def wanted_of(record: bytes, packet: bytes) -> Tuple[Tuple[str, int, bytes], int]:
    """The reader's answer to a packet under a record, and the number of samples."""
    if fault_of(record):
        return ("Arguments", 0, b""), WIDTH * HEIGHT
    parameters = read_record(record)
    if not ffv1.suits(parameters, WIDTH, HEIGHT):
        return ("Arguments", 0, b""), WIDTH * HEIGHT
    size = sum(across * down for across, down in ffv1.plane_sizes(parameters.shape, WIDTH, HEIGHT))
    return ffv1.answer(parameters, WIDTH, HEIGHT, packet), size
