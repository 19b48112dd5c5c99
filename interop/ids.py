"""The ids and the table of the crate mkv_elements against those of this folder, which read ffmpeg's files."""

import re

import reader
from mkv import Id
from report import Report, differs
from tools import HERE

SOURCES = HERE.parent / "crates" / "mkv_elements" / "src"
CONSTANT = re.compile(r"pub const (\w+): u32 =\s*(0x[0-9A-Fa-f_]+);")
ROW_READ = re.compile(r"Row \{ id: (\w+), parent: (\w+), kind: Kind::(\w+), read: true \}")


def check_ids(report: Report):
    known = {it.name: it.value for it in Id}
    told = {name: int(value.replace("_", ""), 16) for name, value in CONSTANT.findall((SOURCES / "lib.rt").read_text())}
    wrong = [f"{name} is {value:X}" for name, value in told.items() if known.get(name) != value]
    report.check("the ids of mkv_elements", wrong or ("" if told else "none were found"))
    check_table(report)


def kinds_of(name: Id):
    """What the table may say that an element holds."""
    sets = {"Master": reader.READ, "Unsigned": reader.NUMBERS, "Block": reader.BLOCKS}
    return [kind for kind, names in sets.items() if name in names] or ["Text", "Binary"]


def check_table(report: Report):
    """The rows that are read. Of ContentEncodings only it is read that they are there, so they may be no such row."""
    rows = [(name, parent, kind) for name, parent, kind in ROW_READ.findall((SOURCES / "table.rt").read_text())]
    told = {(parent, name) for name, parent, _ in rows}
    wanted = {(getattr(parent, "name", "FILE"), name.name) for parent, names in reader.READ.items() for name in names}
    wanted -= {("TRACK_ENTRY", Id.CONTENT_ENCODINGS.name)} - told
    wrong = [f"{name} is {kind}" for name, _, kind in rows if kind not in kinds_of(Id[name])]
    report.check("the table of mkv_elements", [differs("what is read", told, wanted), *wrong])
