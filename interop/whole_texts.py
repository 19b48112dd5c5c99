"""Changed edit lists and scripts through the whole program: the lists many to a session, the scripts each by itself."""

from collections import Counter, defaultdict
from pathlib import Path
from typing import Dict, List, Sequence

import edl
import ends
import script_texts
import scripts
import texts
from ffv1_record import own_record
from media import Clip, Media
from report import Report, differs
from session_model import Session
from tools import BUILT, timeline

LISTS, SCRIPTS, TOLD = 5000, 3000, 5
MOST_CELLS = 20_000  # lists that make more are passed over, since the model is slow


def words_only(names: Sequence[str]) -> List[str]:
    """The names that a script can have, each once."""
    found = dict.fromkeys(it for it in names if it and not set(it) & set(" \t\r") and it not in ("AX", "BL", "black"))
    return list(found)


def clip_names() -> List[str]:
    """The reels and names of the lists that the changed ones are made of."""
    events = [event for text in texts.TEXTS if not text.wanted.startswith("line ") for event in edl.read_edl(text.data(), text.rate).events]
    return words_only([name for it in events for name in (it.reel, it.from_name or "", it.to_name or "")])


def is_small(data: bytes, rate: int) -> bool:
    try:
        events = edl.read_edl(data, rate).events
    except edl.Fault:
        return True
    return not events or max(it.record_out for it in events) - min(it.record_in for it in events) < MOST_CELLS


def session_of(rate: int, lists: Dict[str, bytes], names: Sequence[str]) -> str:
    lines = [f"rate {rate}", *(f"clip {name} a.mkv" for name in names), f"format as {names[0]}", *(f"edl {file}" for file in lists)]
    return "".join(f"{it}\n" for it in lines)


def check_lists(report: Report, work: Path):
    names = clip_names()
    clip = lambda name: Clip(name, own_record(ends.OWN), 2, 2, [ends.PACKET] * ends.FRAMES, [bytes(4)] * ends.FRAMES)
    media = Media([clip(name) for name in names], own_record(ends.OWN), 2, 2)
    by_rate: Dict[int, Dict[str, bytes]] = defaultdict(dict)
    for number, it in enumerate(texts.changed_lists(LISTS)):
        if is_small(it.data(), it.rate):
            by_rate[it.rate][f"{number}.edl"] = it.data()
    for rate, lists in by_rate.items():
        folder = work / f"lists-{rate}"
        folder.mkdir(parents=True)
        (folder / "a.mkv").write_bytes(ends.CLIP)
        for file, data in lists.items():
            (folder / file).write_bytes(data)
        text = session_of(rate, lists, names)
        (folder / "s").write_text(text)
        wanted = Session(scripts.read_script(text.encode()), media, lists).run().texts()
        found = timeline(["s"], folder, BUILT).out.splitlines()
        faults = [differs(file, *it) for file, *it in zip(lists, found, wanted) if it[0] != it[1]]
        kinds = Counter(" ".join(it.split()[:1] + it.split()[-1:]) if it.startswith("edl") else it.split()[0] for it in wanted)
        told = ", ".join(f"{kind} {count}" for kind, count in sorted(kinds.items()))
        report.check(f"changed lists at {rate}: {told}", [*faults[:TOLD], differs("the number of lines", len(found), len(wanted))])


def check_scripts(report: Report, work: Path):
    """Each script with a fault is told it; of one without a fault the first clip isn't there."""
    folder = work / "scripts"
    folder.mkdir(parents=True)
    faults, kinds = [], Counter()
    for it in [*script_texts.changed_scripts(SCRIPTS), *script_texts.long_scripts()]:
        try:
            clips = scripts.read_script(it.content).clips
            if not clips or (folder / clips[0].file).exists():
                continue
            wanted = f"store {clips[0].file} Missing\n"
        except scripts.Fault as fault:
            wanted = f"fault line {fault.line} {fault.why}\n"
        (folder / "s").write_bytes(it.content)
        ran = timeline(["s"], folder, BUILT)
        kinds[wanted.split()[-1]] += 1
        fault = differs(it.name, (ran.out, ran.status), (wanted, 3 if wanted.startswith("fault") else 4))
        faults += [fault] if fault else []
    left = sorted(it.name for it in folder.iterdir() if it.name != "s")
    told = ", ".join(f"{kind} {count}" for kind, count in sorted(kinds.items()))
    report.check(f"changed scripts: {told}", [*faults[:TOLD], differs("what else is there", left, [])])


def check_texts(report: Report, work: Path):
    check_lists(report, work / "texts")
    check_scripts(report, work / "texts")
