"""The bits of FFV1, read by docs/FORMATS.md "Coded bits": the parity, the range coder, and the symbols that it carries.

Written from those rules and the tables of RFC 9043, not from the program.
"""

from typing import List, NamedTuple, Sequence

# RFC 9043 section 3.8.1.5: the state after a bit 1, for the states that are reached from 128.
DEFAULT_ONE_STATE = (
    *(0, 0, 0, 0, 0, 0, 0, 0, 20, 21, 22, 23, 24, 25, 26, 27),
    *(28, 29, 30, 31, 32, 33, 34, 35, 36, 37, 37, 38, 39, 40, 41, 42),
    *(43, 44, 45, 46, 47, 48, 49, 50, 51, 52, 53, 54, 55, 56, 56, 57),
    *(58, 59, 60, 61, 62, 63, 64, 65, 66, 67, 68, 69, 70, 71, 72, 73),
    *(74, 75, 75, 76, 77, 78, 79, 80, 81, 82, 83, 84, 85, 86, 87, 88),
    *(89, 90, 91, 92, 93, 94, 94, 95, 96, 97, 98, 99, 100, 101, 102, 103),
    *(104, 105, 106, 107, 108, 109, 110, 111, 112, 113, 114, 114, 115, 116, 117, 118),
    *(119, 120, 121, 122, 123, 124, 125, 126, 127, 128, 129, 130, 131, 132, 133, 133),
    *(134, 135, 136, 137, 138, 139, 140, 141, 142, 143, 144, 145, 146, 147, 148, 149),
    *(150, 151, 152, 152, 153, 154, 155, 156, 157, 158, 159, 160, 161, 162, 163, 164),
    *(165, 166, 167, 168, 169, 170, 171, 171, 172, 173, 174, 175, 176, 177, 178, 179),
    *(180, 181, 182, 183, 184, 185, 186, 187, 188, 189, 190, 190, 191, 192, 194, 194),
    *(195, 196, 197, 198, 199, 200, 201, 202, 202, 204, 205, 206, 207, 208, 209, 209),
    *(210, 211, 212, 213, 215, 215, 216, 217, 218, 219, 220, 220, 222, 223, 224, 225),
    *(226, 227, 227, 229, 229, 230, 231, 232, 234, 234, 235, 236, 237, 238, 239, 240),
    *(241, 242, 243, 244, 245, 246, 247, 248, 248, 0, 0, 0, 0, 0, 0, 0),
)
FRESH_STATE, CLOSING_STATE, SET_SIZE = 128, 129, 32
FULL_RANGE, LEAST_RANGE = 0xFF00, 0x100
MOST_EXPONENT = 31
POLYNOMIAL = 0x04C11DB7


class SymbolTooLong(Exception):
    """A symbol or a code of more bits than a value may have."""


class Transition(NamedTuple):
    """The states that follow a state: after a bit 1, and after a bit 0."""

    one: Sequence[int]
    zero: Sequence[int]


def transition_of(one_state: Sequence[int]) -> Transition:
    return Transition(one_state, [0] + [256 - one_state[256 - state] for state in range(1, 256)])


DEFAULT_TRANSITION = transition_of(DEFAULT_ONE_STATE)


def fresh_set() -> List[int]:
    return [FRESH_STATE] * SET_SIZE


def remainder_of(byte: int) -> int:
    rest = byte << 24
    for _ in range(8):
        rest = rest << 1 ^ (POLYNOMIAL if rest >> 31 else 0)
        rest &= 0xFFFFFFFF
    return rest


REMAINDERS = [remainder_of(byte) for byte in range(256)]


def parity(data: bytes) -> int:
    """RFC 9043 section 4.9.3: no inversion, and 0 at first."""
    rest = 0
    for byte in data:
        rest = (rest << 8 & 0xFFFFFFFF) ^ REMAINDERS[rest >> 24 ^ byte]
    return rest


class RangeReader:
    """Reads the bits of one range-coded part (RFC 9043 section 3.8.1.1). `taken` counts bytes past its end too."""

    __slots__ = ("content", "counted", "one_state", "zero_state", "range", "low", "taken")

    def __init__(self, content: bytes, transition: Transition = DEFAULT_TRANSITION):
        self.content, self.counted = content, len(content)
        self.one_state, self.zero_state = transition
        self.range, self.taken = FULL_RANGE, 2
        self.low = int.from_bytes(content[:2].ljust(2, b"\0"), "big")
        if self.low >= FULL_RANGE:
            self.low, self.counted = FULL_RANGE, 0

    def bit(self, states: List[int], place: int) -> int:
        """One bit, by the state at a place of a set, which moves."""
        state = states[place]
        ones = self.range * state >> 8
        zeros = self.range - ones
        bit = self.low >= zeros
        if bit:
            self.low -= zeros
            self.range = ones
            states[place] = self.one_state[state]
        else:
            self.range = zeros
            states[place] = self.zero_state[state]
        while self.range < LEAST_RANGE:
            self.range <<= 8
            self.low = self.low << 8 | self.next_byte()
        return bit

    def next_byte(self) -> int:
        at = self.taken
        self.taken += 1
        return self.content[at] if at < self.counted else 0

    def lone_bit(self, state: int) -> int:
        """One bit with a state of its own."""
        return self.bit([state], 0)

    def symbol(self, states: List[int], signed: bool = False) -> int:
        """RFC 9043 section 3.8.1.2."""
        if self.bit(states, 0):
            return 0
        exponent = 0
        while self.bit(states, 1 + min(exponent, 9)):
            exponent += 1
            if exponent > MOST_EXPONENT:
                raise SymbolTooLong
        value = 1
        for place in reversed(range(exponent)):
            value = 2 * value + self.bit(states, 22 + min(place, 9))
        is_negative = signed and self.bit(states, 11 + min(exponent, 10))
        return -value if is_negative else value

    def rest(self) -> bytes:
        """The content behind a part that ends here."""
        return self.content[self.taken - 1 :]

    def is_overrun(self) -> bool:
        return self.taken > len(self.content) + 2


class RangeWriter:
    """Writes the bits of one range-coded part: `low` is a whole number of any size, as the definition has it."""

    __slots__ = ("one_state", "zero_state", "range", "low", "taken")

    def __init__(self, transition: Transition = DEFAULT_TRANSITION):
        self.one_state, self.zero_state = transition
        self.range, self.low, self.taken = FULL_RANGE, 0, 2

    def bit(self, states: List[int], place: int, bit: int):
        state = states[place]
        ones = self.range * state >> 8
        zeros = self.range - ones
        if bit:
            self.low += zeros
            self.range = ones
            states[place] = self.one_state[state]
        else:
            self.range = zeros
            states[place] = self.zero_state[state]
        while self.range < LEAST_RANGE:
            self.range <<= 8
            self.low <<= 8
            self.taken += 1

    def lone_bit(self, state: int, bit: int):
        self.bit([state], 0, bit)

    def symbol(self, states: List[int], value: int, signed: bool = False):
        magnitude = abs(value)
        self.bit(states, 0, magnitude == 0)
        if not magnitude:
            return
        exponent = magnitude.bit_length() - 1
        for place in range(exponent):
            self.bit(states, 1 + min(place, 9), 1)
        if exponent > MOST_EXPONENT:
            return
        self.bit(states, 1 + min(exponent, 9), 0)
        for place in reversed(range(exponent)):
            self.bit(states, 22 + min(place, 9), magnitude >> place & 1)
        if signed:
            self.bit(states, 11 + min(exponent, 10), value < 0)

    def finish(self) -> bytes:
        """The part, with no closing bit."""
        return ((self.low + 255) // 256).to_bytes(self.taken - 1, "big")
