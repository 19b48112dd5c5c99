"""One session, a hundred times with two workers: each time its lines, its screen, its exports and its status are those of the model."""

from pathlib import Path

from random_sessions import TOLD, WORLDS, Drawn, fault_of, make_clip, media_of
from report import Report
from session_model import USUAL_CACHE, USUAL_JOURNAL

TIMES, WORKERS = 100, 2
# Two clips of 12 and 9 frames, one after the other, with a dissolve.
SCRIPT = """rate 25
clip A clip0.mkv
clip tape.mov clip1.mkv
format as A
insert 0 A 0 8
want 0 8
insert 8 tape.mov 0 9
dissolve 8 4
want 0 17
export one.mkv
roll 0 17
cancel 3 4
undo
play 9
redo
want 0 17
work 5
show 9
export two.mkv
slip 0 1
want 0 17
play 0
roll 4 9
show 0
export three.mkv
"""


def check_repeated(report: Report, folder: Path):
    folder.mkdir(parents=True)
    world = WORLDS[0]
    media = media_of(world, [make_clip(folder, at, world) for at in range(len(world.kinds))])
    for path in folder.glob("*.raw"):
        path.unlink()
    drawn = Drawn(SCRIPT.encode(), {}, USUAL_CACHE, USUAL_JOURNAL)
    wanted = drawn.outcome(media)
    told = [fault_of(folder, drawn, wanted, WORKERS) for _ in range(TIMES)]
    faults = [fault for fault in told if fault]
    more = [f"{len(faults)} in all"] if len(faults) > TOLD else []
    report.check(f"one session {TIMES} times with {WORKERS} workers", faults[:TOLD] + more)
