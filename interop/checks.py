#!/usr/bin/env python3
"""All checks of this folder, over the program that TIMELINE_PROGRAM or ../timeline names. `run` calls it."""

import shutil
import sys
from pathlib import Path
from typing import List

from bad import check_bad_input
from board_calls import check_board_calls
from damaged_clips import check_damaged_clips
from demo import check_demo
from each_byte import check_each_byte
from ends import check_ends
from exports import check_exports
from frames import check_frames, check_reader
from generated import check_generated
from good import check_clips
from ids import check_ids
from kept import check_kept
from real import check_real
from report import Report
from script_texts import check_scripts
from segments import check_segments
from sessions import check_sessions
from texts import check_lists
from tools import HERE
from whole_texts import check_texts

# The proved program that reads edit lists and scripts as `texts` and `script_texts` say, where it is built.
TEXT_READER = HERE.parent / "crates" / "texts_check" / "out" / "texts_check"

PARTS = {
    "ids": lambda report, work: check_ids(report),
    "board": lambda report, work: check_board_calls(report),
    "exports": lambda report, work: check_exports(report),
    "demo": check_demo,
    "clips": check_clips,
    "real": check_real,
    "bad": check_bad_input,
    "kept": check_kept,
    "bytes": check_each_byte,
    "ffv1": check_reader,
    "frames": check_frames,
    "lists": lambda report, work: check_edit_lists(report),
    "scripts": lambda report, work: check_scripts(report, reader_of("script")),
    "texts": check_texts,
    "damaged": check_damaged_clips,
    "ends": check_ends,
    "generated": check_generated,
    "sessions": check_sessions,
}


def reader_of(kind: str) -> List[str]:
    return [str(TEXT_READER), kind] if TEXT_READER.exists() else []


def check_edit_lists(report: Report):
    check_lists(report, reader_of("edl"))
    check_segments(report)


def attempt(report: Report, part: str, work: Path):
    """One part; whatever stops it counts as a failed check, and the other parts are still tried."""
    try:
        PARTS[part](report, work)
    except Exception as fault:
        report.check(f"the part {part}", f"stopped by {type(fault).__name__}: {fault}")


def main(parts) -> int:
    unknown = [it for it in parts if it not in PARTS]
    if unknown:
        print(f"usage: run [{' | '.join(PARTS)}]..", file=sys.stderr)
        return 2
    work = HERE / "out"
    shutil.rmtree(work, ignore_errors=True)
    work.mkdir()
    report = Report()
    for part in parts or PARTS:
        attempt(report, part, work)
    return report.close()


if __name__ == "__main__":
    sys.exit(main(sys.argv[1:]))
