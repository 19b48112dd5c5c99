"""Cuts real clips with the program, and looks at each export from outside."""

import hashlib
from pathlib import Path
from typing import List

import clips
import reader
from mkv import KEY, Id
from report import Report, differs
from tools import Frames, changed, done, ffmpeg, frames_of, hashes_in, mkvinfo, script, sums_of, timeline
from written import block_time, written_file


def cue_faults(data) -> List[str]:
    """The Cues name each Cluster's place and time, counted from the Segment's content (RFC 9559 section 5.1.5.1)."""
    number = lambda children, name: reader.number_of(data, reader.first(children, name))
    below = lambda children, name: reader.children_of(data, reader.first(children, name))
    segment = reader.first(reader.elements(data, 0, len(data), reader.FILE)[0], Id.SEGMENT)
    clusters = reader.of_id(segment.children, Id.CLUSTER)
    found = {it.at - segment.start: number(it.children, Id.TIMESTAMP) for it in clusters}
    named = {}
    for it in below(segment.children, Id.CUES):
        point = reader.children_of(data, it)
        place = number(below(point, Id.CUE_TRACK_POSITIONS), Id.CUE_CLUSTER_POSITION)
        named[place] = number(point, Id.CUE_TIME)
    return [differs("the Cues", named, found)]


def read_faults(data, source: reader.Clip, length: int, rate: int) -> List[str]:
    """What the reader of this folder finds in an export."""
    clip = reader.read_clip(data)
    wanted = [block_time(frame, rate) for frame in range(length)]
    return [
        differs("the CodecID", clip.codec_id, b"V_FFV1"),
        differs("the record", clip.record, source.record),
        differs("the size", (clip.width, clip.height), (source.width, source.height)),
        differs("the block times", [it.time for it in clip.blocks], wanted),
        "" if clip.packets() == source.packets()[:length] else "the packets aren't the source's",
        "" if all(it.flags == KEY for it in clip.blocks) else "a block's flags aren't those of a key frame",
    ]


def check_cut(report: Report, name: str, folder: Path, source: reader.Clip, frames: Frames, length: int, rate: int):
    """Makes one cut of the folder's clip `a.mkv` and checks it."""
    (folder / "s").write_bytes(script(length=length, rate=rate))
    before = sums_of(folder)
    ran = timeline(["s"], folder)
    said = [differs("the status", ran.status, 0), differs("the output", ran.out, done(length)), ran.err]
    report.check(f"{name}: lines and status", said)
    report.check(f"{name}: no other file changed", changed(before, sums_of(folder), ["o.mkv"]))
    if not (folder / "o.mkv").exists():
        report.check(f"{name}: the export", "there is none")
        return
    data = reader.view_of(folder / "o.mkv")
    wanted = written_file(source.record, source.width, source.height, rate, source.packets()[:length])
    report.check(f"{name}: each byte", "" if bytes(data) == wanted else "the file isn't the one of docs/FORMATS.md")
    try:
        report.check(f"{name}: record, size, times and packets", read_faults(data, source, length, rate))
        report.check(f"{name}: cues", cue_faults(data))
    except reader.Refused as fault:
        report.check(f"{name}: reading", str(fault))
    check_tools(report, name, folder, frames, length, rate)


def check_tools(report: Report, name: str, folder: Path, frames: Frames, length: int, rate: int):
    """What ffmpeg and mkvinfo say of the export."""
    export = frames_of("o.mkv", folder)
    report.check(f"{name}: ffmpeg's packets", differs("their hashes", export.packets, frames.packets[:length]))
    report.check(f"{name}: ffmpeg's pictures", differs("their hashes", export.pictures, frames.pictures[:length]))
    report.check(f"{name}: ffmpeg warns of nothing", export.said)
    listed = mkvinfo("o.mkv", folder)
    wanted = [float(block_time(frame, rate)) for frame in range(length)]
    report.check(f"{name}: mkvinfo warns of nothing", listed.warnings)
    report.check(f"{name}: mkvinfo's times", differs("the list", listed.times, wanted))


def check_seek(report: Report, name: str, folder: Path, frames: Frames, second: int, rate: int):
    """ffmpeg finds its way by the Cues to the frame that stands at a whole second."""
    target = folder / "seek.pictures"
    words = ["-ss", second, "-i", "o.mkv", "-map", "0:v:0", "-frames:v", 1, "-fps_mode", "passthrough"]
    ran = ffmpeg([*words, "-f", "framemd5", target], folder)
    found = hashes_in(target) if target.exists() else []
    wanted = frames.pictures[second * rate : second * rate + 1]
    report.check(f"{name}: ffmpeg seeks to second {second}", [ran.err.strip(), differs("the frame", found, wanted)])


def packet_faults(source: reader.Clip, frames: Frames) -> str:
    """What differs between the packets that the reader of this folder takes from a clip and those that ffmpeg takes."""
    sums = [(str(len(it)), hashlib.md5(it).hexdigest()) for it in source.packets()]
    return differs("the packets", frames.packets, sums)


def check_clip(report: Report, clip: clips.Clip, work: Path):
    folder = work / clip.name()
    try:
        source = clips.make(clip, folder)
    except (RuntimeError, reader.Refused) as fault:
        report.check(f"{clip.name()}: made", str(fault))
        return
    frames = frames_of("a.mkv", folder)
    is_made = differs("the number of frames", len(frames.pictures), clip.frames)
    report.check(f"{clip.name()}: made", [is_made, packet_faults(source, frames)])
    for length, rate in clip.cuts:
        check_cut(report, f"{clip.name()}, {length} at {rate}", folder, source, frames, length, rate)
        if length > rate > 1:
            check_seek(report, f"{clip.name()}, {length} at {rate}", folder, frames, 1, rate)


def check_clips(report: Report, work: Path):
    for clip in clips.table():
        check_clip(report, clip, work)
