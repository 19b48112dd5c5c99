"""The proved codec as a library: makes a shared object of what `rt lib` built in crates/codec_c, and calls it.

Its interface in C. All sizes are in bytes; samples stand plane by plane (Y, Cb, Cr, or Y alone), row by row:

    uint64_t codec_c_decode(const uint8_t *record, size_t record_len, uint32_t width, uint32_t height,
                            const uint8_t *packet, size_t packet_len, uint8_t *samples, size_t samples_len);
    uint64_t codec_c_encode(const uint8_t *record, size_t record_len, uint32_t width, uint32_t height,
                            const uint8_t *samples, size_t samples_len, uint8_t *packet, size_t packet_room);

The answer is (kind << 32) + place, with the kinds numbered as in KINDS:
- Ok: 0 from decode, which has written all samples; from encode the bytes of the packet that it has written.
- Arguments: the record is faulty, the shape or the room is wrong, or the record isn't one to encode by.
- Memory: memory was wanted.
- the others: the packet's first fault, its place the slice or the cell, counted from 0, or 0 where it has none.
"""

import ctypes
import os
import shutil
import subprocess
from pathlib import Path
from typing import NamedTuple, Optional

from tools import HERE, run

KINDS = (
    *("Ok", "Arguments", "Memory", "Empty", "Chain", "Parity", "NotKey", "Header", "TableIndex", "Cover"),
    *("Symbol", "Overrun", "SliceTooLong"),
)
ARCHIVE = HERE.parent / "crates" / "codec_c" / "out" / "libcodec_c.a"
BYTES, NUMBER, SIZE = ctypes.c_char_p, ctypes.c_uint32, ctypes.c_size_t


class Answer(NamedTuple):
    """A kind's name and place, and what was written: samples or a packet, empty where the kind isn't Ok."""

    kind: str
    place: int
    written: bytes


def answer_of(number: int, written: bytes) -> Answer:
    kind, place = number >> 32, number & 0xFFFFFFFF
    name = KINDS[kind] if kind < len(KINDS) else f"kind {kind}"
    return Answer(name, place, written if name == "Ok" else b"")


class Library:
    def __init__(self, path: Path):
        loaded = ctypes.CDLL(str(path))
        self.calls = {"decode": loaded.codec_c_decode, "encode": loaded.codec_c_encode}
        for call in self.calls.values():
            call.restype = ctypes.c_uint64
            call.argtypes = [BYTES, SIZE, NUMBER, NUMBER, BYTES, SIZE, BYTES, SIZE]

    def call(self, name: str, record: bytes, width: int, height: int, given: bytes, room: int) -> Answer:
        buffer = ctypes.create_string_buffer(room)
        number = self.calls[name](record, len(record), width, height, given, len(given), buffer, room)
        return answer_of(number, buffer.raw)

    def decode(self, record: bytes, width: int, height: int, packet: bytes, size: int) -> Answer:
        """The samples of a packet; `size` is the number of samples of all planes."""
        return self.call("decode", record, width, height, packet, size)

    def encode(self, record: bytes, width: int, height: int, samples: bytes, room: int) -> Answer:
        """The packet of a picture, where it takes at most `room` bytes."""
        found = self.call("encode", record, width, height, samples, room)
        return found._replace(written=found.written[: found.place])


def kit_archive() -> Path:
    """What the libraries of the kit rest on in C."""
    told = subprocess.run(["rt", "doc"], capture_output=True, text=True, check=True).stdout
    return Path(told.strip().splitlines()[0]).parent / "c" / "liblibc_c.a"


def load(work: Path) -> Optional[Library]:
    """The library; None where it wasn't built or there is no C compiler."""
    compiler = os.environ.get("CC") or "gcc"
    if not ARCHIVE.exists() or not shutil.which(compiler) or not shutil.which("rt"):
        return None
    target = work / "codec.so"
    whole = ["-Wl,--whole-archive", ARCHIVE, "-Wl,--no-whole-archive", kit_archive()]
    ran = run([compiler, "-shared", "-o", target, *whole], work)
    if ran.status:
        raise RuntimeError(f"no shared object: {ran.err.strip()}")
    return Library(target)
