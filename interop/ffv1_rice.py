"""Differences in Golomb-Rice mode, read and written by docs/FORMATS.md "Golomb-Rice mode"."""

from collections import defaultdict
from typing import Dict, List

from ffv1_bits import SymbolTooLong

# RFC 9043 section 3.8.2.2.1: a whole run has 2 to the power of this.
LOG2_RUN = (
    *(0, 0, 0, 0, 1, 1, 1, 1, 2, 2, 2, 2, 3, 3, 3, 3, 4, 4, 5, 5, 6, 6, 7, 7),
    *(8, 9, 10, 11, 12, 13, 14, 15, 16, 17, 18, 19, 20, 21, 22, 23, 24),
)
PREFIX_LIMIT, ESCAPE_BITS, ESCAPE_BASE = 12, 8, 11
COUNT_LIMIT = 128


def folded(difference: int) -> int:
    return (difference + 128 & 255) - 128


class BitReader:
    """Reads bits, the highest of a byte first; bits after the end are 0. `taken` counts those too."""

    def __init__(self, data: bytes):
        self.data, self.taken = data, 0

    def bit(self) -> int:
        at, self.taken = self.taken, self.taken + 1
        return self.data[at >> 3] >> (7 - at % 8) & 1 if at >> 3 < len(self.data) else 0

    def bits(self, count: int) -> int:
        value = 0
        for _ in range(count):
            value = 2 * value + self.bit()
        return value

    def code(self, parameter: int) -> int:
        """A signed value (RFC 9043 section 3.8.2.1)."""
        zeros = 0
        while zeros < PREFIX_LIMIT and not self.bit():
            zeros += 1
        if zeros < PREFIX_LIMIT:
            value = (zeros << parameter) + self.bits(parameter)
        else:
            value = self.bits(ESCAPE_BITS) + ESCAPE_BASE
        return -(value >> 1) - 1 if value & 1 else value >> 1

    def is_overrun(self) -> bool:
        return self.taken > 8 * len(self.data)


class BitWriter:
    """Writes bits, the highest of a byte first."""

    def __init__(self):
        self.written: List[int] = []

    def bits(self, value: int, count: int):
        self.written.extend(value >> place & 1 for place in reversed(range(count)))

    def code(self, value: int, parameter: int):
        unsigned = 2 * value if value >= 0 else -2 * value - 1
        zeros = unsigned >> parameter
        if zeros < PREFIX_LIMIT:
            self.bits(1, zeros + 1)
            self.bits(unsigned, parameter)
        else:
            self.bits(0, PREFIX_LIMIT)
            self.bits(unsigned - ESCAPE_BASE, ESCAPE_BITS)

    def finish(self) -> bytes:
        bits = self.written + [0] * (-len(self.written) % 8)
        return int("".join(map(str, [0, *bits])), 2).to_bytes(len(bits) // 8, "big")


class State:
    """What a context has seen of its values (RFC 9043 sections 3.8.2.3 and 3.8.2.4)."""

    __slots__ = ("drift", "error_sum", "bias", "count")

    def __init__(self):
        self.drift, self.error_sum, self.bias, self.count = 0, 4, 0, 1

    def parameter(self) -> int:
        least = 0
        while self.count << least < self.error_sum:
            least += 1
        return least

    def is_flipped(self) -> bool:
        return 2 * self.drift < -self.count

    def read(self, reader: BitReader) -> int:
        value = reader.code(self.parameter())
        if self.is_flipped():
            value = -1 - value
        if not -128 <= value <= 127:
            raise SymbolTooLong
        difference = folded(value + self.bias)
        self.update(value)
        return difference

    def write(self, writer: BitWriter, difference: int):
        value = folded(difference - self.bias)
        writer.code(-1 - value if self.is_flipped() else value, self.parameter())
        self.update(value)

    def update(self, value: int):
        self.error_sum += abs(value)
        self.drift += value
        if self.count == COUNT_LIMIT:
            self.count, self.drift, self.error_sum = self.count >> 1, self.drift >> 1, self.error_sum >> 1
        self.count += 1
        if self.drift <= -self.count:
            self.bias = max(self.bias - 1, -128)
            self.drift = max(self.drift + self.count, 1 - self.count)
        elif self.drift > 0:
            self.bias = min(self.bias + 1, 127)
            self.drift = min(self.drift - self.count, 0)


class RiceReader:
    """Reads the differences of a slice's planes. Outside a run, `left` is 0 and nothing `is_ending`."""

    def __init__(self, bits: BitReader):
        self.bits = bits
        self.states: Dict[int, State] = defaultdict(State)

    def fresh_contexts(self):
        self.states.clear()

    def start_plane(self):
        self.run_index = 0

    def start_line(self, width: int):
        """A run ends with its line at the latest."""
        self.samples = width
        self.in_run = self.is_ending = False
        self.left = 0

    def read(self, context: int, column: int) -> int:
        if context == 0:
            self.in_run = True
        if not self.in_run:
            return self.states[context].read(self.bits)
        if not self.left and not self.is_ending:
            self.start_part(column)
        if self.left:
            self.left -= 1
            return 0
        self.in_run = self.is_ending = False
        difference = self.states[context].read(self.bits)
        return difference + 1 if difference >= 0 else difference

    def start_part(self, column: int):
        """A whole run, or the last part of a run, which may have no samples."""
        log2_run = LOG2_RUN[self.run_index]
        if self.bits.bit():
            self.left = 1 << log2_run
            if column + self.left <= self.samples:
                self.run_index += 1
        else:
            self.left = self.bits.bits(log2_run)
            self.run_index = max(self.run_index - 1, 0)
            self.is_ending = True


class RiceWriter:
    """Writes the differences of a slice's planes, line by line."""

    def __init__(self):
        self.bits = BitWriter()
        self.states: Dict[int, State] = defaultdict(State)

    def fresh_contexts(self):
        self.states.clear()

    def start_plane(self):
        self.run_index = 0

    def start_line(self, width: int):
        self.in_run, self.run = False, 0

    def write(self, context: int, difference: int):
        if context == 0:
            self.in_run = True
        if self.in_run and difference == 0:
            self.run += 1
            return
        if self.in_run:
            self.end_run()
            difference -= difference > 0
        self.states[context].write(self.bits, difference)

    def whole_runs(self):
        while self.run >= 1 << LOG2_RUN[self.run_index]:
            self.bits.bits(1, 1)
            self.run -= 1 << LOG2_RUN[self.run_index]
            self.run_index += 1

    def end_run(self):
        self.whole_runs()
        self.bits.bits(0, 1)
        self.bits.bits(self.run, LOG2_RUN[self.run_index])
        self.run_index = max(self.run_index - 1, 0)
        self.in_run, self.run = False, 0

    def end_line(self):
        """A rest of a run is one bit 1."""
        self.whole_runs()
        if self.run:
            self.bits.bits(1, 1)
