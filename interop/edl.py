"""Reads edit lists, or names the first fault that they have: docs/EDL.md, anew.

Written from those rules, not from the program, for whose answers it stands as the measure.
"""

import re
from typing import Dict, List, NamedTuple, Optional, Sequence, Tuple

BLANKS = " \t"
BLACK_REEL, CLIP_NAME_REEL = "BL", "AX"
TITLE, FRAME_CODE_MODE, FROM, TO = "TITLE:", "FCM:", "* FROM CLIP NAME:", "* TO CLIP NAME:"
NUMBER = re.compile("[0-9]{1,6}")
DURATION = re.compile("[0-9]{1,3}")
TIMECODE = re.compile("([0-9]{2}):([0-9]{2}):([0-9]{2}):([0-9]{2,3})")


class Fault(Exception):
    """The first fault of a list: the number of its line, counted from 1, and its name."""

    def __init__(self, line: int, why: str):
        super().__init__(f"line {line} {why}")
        self.line, self.why = line, why


class Event(NamedTuple):
    """A video event as its line has it; a cut has no duration. Times are frame numbers, an out the frame after the last."""

    line: int
    number: int
    reel: str
    duration: Optional[int]
    source_in: int
    source_out: int
    record_in: int
    record_out: int
    from_name: Optional[str] = None
    to_name: Optional[str] = None

    def text(self) -> str:
        """The event as one line: its times, and `-` for what it hasn't."""
        times = (self.source_in, self.source_out, self.record_in, self.record_out)
        fields = (self.number, self.reel, self.duration, *times, self.from_name, self.to_name)
        return " ".join("-" if it is None else str(it) for it in fields)


class Edl(NamedTuple):
    title: str
    events: List[Event]


# Lines


def lines_of(text: bytes) -> List[bytes]:
    """A carriage return is dropped before a line feed alone."""
    *ended, rest = text.split(b"\n")
    lines = [it[:-1] if it.endswith(b"\r") else it for it in ended]
    return [*lines, rest] if rest else lines


def words_of(line: str) -> List[str]:
    return [it for it in re.split(f"[{BLANKS}]+", line) if it]


def frame_number(word: str, rate: int) -> int:
    """A timecode's frame number, or the name of its fault as a ValueError."""
    if ";" in word:
        raise ValueError("Drop")
    found = TIMECODE.fullmatch(word)
    hours, minutes, seconds, frames = map(int, found.groups()) if found else (0, 0, 0, rate)
    if hours > 23 or minutes > 59 or seconds > 59 or frames >= rate:
        raise ValueError("Timecode")
    return (3600 * hours + 60 * minutes + seconds) * rate + frames


def event_of(line: int, words: Sequence[str], rate: int) -> Event:
    """The event of a line whose first word begins with a digit; a ValueError names its fault."""
    is_event = len(words) >= 4 and NUMBER.fullmatch(words[0]) is not None
    kind = words[3] if is_event else ""
    is_cut = kind == "C" and len(words) == 8
    is_dissolve = kind == "D" and len(words) == 9 and DURATION.fullmatch(words[4]) is not None
    if not is_cut and not is_dissolve:
        raise ValueError({"W": "Wipe", "K": "Key"}.get(kind[:1], "Unknown"))
    times = [frame_number(it, rate) for it in words[-4:]]
    return Event(line, int(words[0]), words[1], int(words[4]) if is_dissolve else None, *times)


def carries_video(channel: str) -> bool:
    return channel in ("V", "B") or channel.endswith("/V")


class Lines:
    """Takes the lines of a list one by one."""

    def __init__(self, rate: int):
        self.rate = rate
        self.title: Optional[str] = None
        self.events: List[Event] = []
        self.last_number: Optional[int] = None
        self.names: Dict[Tuple[int, str], str] = {}

    def take(self, number: int, data: bytes):
        try:
            self.take_text(number, data.decode("utf-8"))
        except UnicodeDecodeError:
            raise Fault(number, "Unknown") from None
        except ValueError as fault:
            raise Fault(number, str(fault)) from None

    def take_text(self, number: int, line: str):
        words = words_of(line)
        if not words:
            return
        if line.startswith(TITLE):
            if self.title is None:
                self.title = line[len(TITLE) :].strip(BLANKS)
        elif line.startswith(FRAME_CODE_MODE):
            if line[len(FRAME_CODE_MODE) :].strip(BLANKS) == "DROP FRAME":
                raise ValueError("Drop")
        elif line.startswith((FROM, TO)):
            self.take_name(line)
        elif line.startswith("M2"):
            raise ValueError("Speed")
        elif not line.startswith(("*", "AUD")) and words[0][0] in "0123456789":
            self.take_event(event_of(number, words, self.rate), words[2])

    def take_name(self, line: str):
        keyword = FROM if line.startswith(FROM) else TO
        if self.last_number is not None:
            self.names.setdefault((self.last_number, keyword), line[len(keyword) :].strip(BLANKS))

    def take_event(self, event: Event, channel: str):
        self.last_number = event.number
        if carries_video(channel):
            self.events.append(event)

    def named(self, event: Event) -> Event:
        names = (self.names.get((event.number, keyword)) for keyword in (FROM, TO))
        return Event(*event[:8], *names)


def read_edl(text: bytes, rate: int) -> Edl:
    """The title and the video events, or `Fault`."""
    lines = Lines(rate)
    for number, line in enumerate(lines_of(text), 1):
        lines.take(number, line)
    return Edl(lines.title or "", [lines.named(it) for it in lines.events])


def answer(text: bytes, rate: int) -> str:
    """What the program prints of a list: one line for each event, or the fault."""
    try:
        return "".join(f"{it.text()}\n" for it in read_edl(text, rate).events)
    except Fault as fault:
        return f"{fault}\n"


# From events to segments


class Clip(NamedTuple):
    """A clip of a session, and its start timecode as a frame number."""

    name: str
    start: int = 0


class Source(NamedTuple):
    """Frames of a clip from one on; black has no source."""

    clip: int
    first: int


class Segment(NamedTuple):
    """Frames of a source or of black, of which the first `steps` are mixed with those of the outgoing side."""

    length: int
    source: Optional[Source]
    steps: int = 0
    outgoing: Optional[Source] = None


class Taken(NamedTuple):
    """An event that was taken: a cut alone, or a dissolve with the cut before it."""

    outgoing: Optional[Event]
    event: Event


def is_lead(event: Event) -> bool:
    """Whether a line is the first one of a dissolve: a cut of zero record length."""
    return event.duration is None and event.record_in == event.record_out


def clip_of(event: Event, clips: Sequence[Clip]) -> Optional[int]:
    """The first clip that has the event's name."""
    name = event.reel
    if event.reel == CLIP_NAME_REEL:
        name = event.from_name if event.duration is None else event.to_name
    return next((place for place, clip in enumerate(clips) if clip.name == name), None)


def fault_of(events: Sequence[Event], at: int, clips: Sequence[Clip]) -> Optional[str]:
    """The first of the four faults that a line may have by itself and the lines beside it."""
    event = events[at]
    before, after = events[at - 1] if at else None, events[at + 1] if at + 1 < len(events) else None
    if is_lead(event) and not (after and after.duration is not None and after.number == event.number):
        return "PairMissing"
    if event.duration is not None and not (before and is_lead(before) and before.number == event.number):
        return "PairMissing"
    clip = None if event.reel == BLACK_REEL else clip_of(event, clips)
    if clip is None and event.reel != BLACK_REEL:
        return "UnknownClip"
    length = event.record_out - event.record_in
    if min(length, event.source_out - event.source_in) < 0 or event.source_out - event.source_in != length:
        return "Span"
    if event.duration is not None and length == 0:
        return "Span"
    if clip is not None and event.source_in < clips[clip].start:
        return "OutsideClip"
    return None


def taken_events(events: Sequence[Event]) -> List[Taken]:
    """The events in the order of their record in, each dissolve with its lead."""
    pairs = zip([None, *events], events)
    taken = [Taken(lead if it.duration is not None else None, it) for lead, it in pairs if not is_lead(it)]
    return sorted(taken, key=lambda it: it.event.record_in)


def source_of(event: Event, clips: Sequence[Clip]) -> Optional[Source]:
    if event.reel == BLACK_REEL:
        return None
    clip = clip_of(event, clips)
    return Source(clip, event.source_in - clips[clip].start)


def segment_of(taken: Taken, clips: Sequence[Clip]) -> Segment:
    event = taken.event
    length, source = event.record_out - event.record_in, source_of(event, clips)
    if not event.duration:
        return Segment(length, source)
    return Segment(length, source, event.duration, source_of(taken.outgoing, clips))


def build(events: Sequence[Event], clips: Sequence[Clip]) -> List[Segment]:
    """The segments of a list's events, or `Fault`."""
    for at, event in enumerate(events):
        why = fault_of(events, at, clips)
        if why:
            raise Fault(event.line, why)
    taken = taken_events(events)
    overlaps = [later.event.line for it, later in zip(taken, taken[1:]) if later.event.record_in < it.event.record_out]
    if overlaps:
        raise Fault(overlaps[0], "Overlap")
    segments, reached = [], taken[0].event.record_in if taken else 0
    for it in taken:
        gap = it.event.record_in - reached
        segments += [Segment(gap, None)] if gap else []
        segments.append(segment_of(it, clips))
        reached = it.event.record_out
    return segments
