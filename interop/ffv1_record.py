"""Reads FFV1 configuration records, and writes those of an own encoder: docs/FORMATS.md "The configuration record", anew."""

from typing import Dict, List, NamedTuple, Sequence

from ffv1_bits import (
    DEFAULT_ONE_STATE,
    DEFAULT_TRANSITION,
    RangeReader,
    RangeWriter,
    SymbolTooLong,
    Transition,
    fresh_set,
    parity,
    transition_of,
)

RICE, RANGE, RANGE_WITH_TABLE = 0, 1, 2
VERSION, MICRO_VERSION = 3, 4
LEAST_BYTES, PARITY_BYTES = 6, 4
MOST_SLICES, MOST_SETS, MOST_SCALE, MOST_SHIFT = 1024, 8, 32_768, 2
HALF_TABLE, TABLES = 128, 5
ONE_BIT = {"chroma_planes", "extra_plane", "states_coded"}
OWN_RUNS = ((1, 2, 4, 16, 105),) * 3 + ((128,),) * 2


class RecordFault(Exception):
    """The first fault of a record: the name of the rule that it breaks."""


class TableSet(NamedTuple):
    """Five quantization tables of 256 entries, and the number of contexts that they give."""

    tables: Sequence[Sequence[int]]
    contexts: int


class Shape(NamedTuple):
    """The chroma of pictures: without chroma the shifts are 0."""

    has_chroma: bool
    shift_across: int = 0
    shift_down: int = 0


class Parameters(NamedTuple):
    """What a record tells of its packets."""

    coder: int
    transition: Transition
    shape: Shape
    columns: int
    rows: int
    sets: Sequence[TableSet]
    has_parity: bool
    intra: int


class Fields:
    """Reads a record's fields by one set of states."""

    def __init__(self, part: bytes):
        self.reader, self.states = RangeReader(part), fresh_set()

    def number(self) -> int:
        return self.reader.symbol(self.states)

    def signed(self) -> int:
        return self.reader.symbol(self.states, signed=True)

    def bit(self) -> bool:
        return bool(self.reader.bit(self.states, 0))


def need(is_met: bool, fault: str):
    if not is_met:
        raise RecordFault(fault)


def read_record(record: bytes) -> Parameters:
    """What the record tells, or `RecordFault` with its first fault."""
    need(len(record) >= LEAST_BYTES, "Short")
    need(parity(record) == 0, "Parity")
    try:
        return read_fields(Fields(record[:-PARITY_BYTES]))
    except SymbolTooLong:
        raise RecordFault("Symbol") from None


def read_fields(fields: Fields) -> Parameters:
    need(fields.number() == VERSION, "Version")
    need(fields.number() == MICRO_VERSION, "Micro")
    coder = fields.number()
    need(coder <= RANGE_WITH_TABLE, "Coder")
    transition = read_transition(fields) if coder == RANGE_WITH_TABLE else DEFAULT_TRANSITION
    need(fields.number() == 0, "Color")
    need(fields.number() in (0, 8), "Depth")
    shape = read_shape(fields)
    columns, rows = fields.number() + 1, fields.number() + 1
    need(columns * rows <= MOST_SLICES, "Slices")
    set_count = fields.number()
    need(1 <= set_count <= MOST_SETS, "Tables")
    sets = [read_set(fields.reader) for _ in range(set_count)]
    for _ in sets:
        need(not fields.bit(), "InitialStates")
    error_correction = fields.number()
    need(error_correction <= 1, "Ec")
    intra = fields.number()
    return Parameters(coder, transition, shape, columns, rows, sets, error_correction == 1, intra)


def read_transition(fields: Fields) -> Transition:
    one_state = [0]
    for usual in DEFAULT_ONE_STATE[1:]:
        one_state.append(usual + fields.signed())
        need(1 <= one_state[-1] <= 255, "Transition")
    return transition_of(one_state)


def read_shape(fields: Fields) -> Shape:
    has_chroma, across, down = fields.bit(), fields.number(), fields.number()
    need(not has_chroma or max(across, down) <= MOST_SHIFT, "Subsample")
    need(not fields.bit(), "ExtraPlane")
    return Shape(True, across, down) if has_chroma else Shape(False)


def read_set(reader: RangeReader) -> TableSet:
    scale, tables = 1, []
    for _ in range(TABLES):
        runs = read_runs(reader)
        tables.append(table_of(runs, scale))
        scale *= 2 * len(runs) - 1
        need(scale <= MOST_SCALE, "Tables")
    return TableSet(tables, (scale + 1) // 2)


def read_runs(reader: RangeReader) -> List[int]:
    states, runs, left = fresh_set(), [], HALF_TABLE
    while left:
        runs.append(reader.symbol(states) + 1)
        left -= runs[-1]
        need(left >= 0, "Tables")
    return runs


def table_of(runs: Sequence[int], scale: int) -> List[int]:
    """Entry 256 - k is minus entry k, and entry 128 minus entry 127."""
    half = [scale * run for run, length in enumerate(runs) for _ in range(length)]
    return [*half, -half[-1], *(-it for it in reversed(half[1:]))]


def own_parameters(shape: Shape, coder: int, columns: int, rows: int) -> Parameters:
    """The record of an own encoder, as parameters."""
    tables, scale = [], 1
    for runs in OWN_RUNS:
        tables.append(table_of(runs, scale))
        scale *= 2 * len(runs) - 1
    sets = [TableSet(tables, (scale + 1) // 2)]
    return Parameters(coder, DEFAULT_TRANSITION, shape, columns, rows, sets, True, 1)


def own_fields(own: Parameters) -> Dict[str, int]:
    """The fields of such a record in their order, but for the runs, by the names of RFC 9043 section 4.2."""
    return {
        "version": VERSION,
        "micro_version": MICRO_VERSION,
        "coder_type": own.coder,
        "colorspace_type": 0,
        "bits_per_raw_sample": 8,
        "chroma_planes": int(own.shape.has_chroma),
        "log2_h_chroma_subsample": own.shape.shift_across,
        "log2_v_chroma_subsample": own.shape.shift_down,
        "extra_plane": 0,
        "num_h_slices_minus1": own.columns - 1,
        "num_v_slices_minus1": own.rows - 1,
        "quant_table_set_count": len(own.sets),
        "states_coded": 0,
        "ec": int(own.has_parity),
        "intra": own.intra,
    }


def write_record(fields: Dict[str, int], deltas: Sequence[int] = (), runs: Sequence[Sequence[int]] = OWN_RUNS) -> bytes:
    """The record of these fields, with deltas behind coder_type and one set of runs."""
    writer, states = RangeWriter(), fresh_set()
    for name, value in fields.items():
        if name in ONE_BIT:
            writer.bit(states, 0, value)
        else:
            writer.symbol(states, value)
        if name == "coder_type":
            for delta in deltas:
                writer.symbol(states, delta, signed=True)
        if name == "quant_table_set_count":
            write_runs(writer, runs)
    part = writer.finish()
    return part + parity(part).to_bytes(PARITY_BYTES, "big")


def write_runs(writer: RangeWriter, runs: Sequence[Sequence[int]]):
    for lengths in runs:
        states = fresh_set()
        for length in lengths:
            writer.symbol(states, length - 1)


def own_record(own: Parameters) -> bytes:
    return write_record(own_fields(own))
