"""Files as they lie in archives: straight from ffmpeg, or through mkvmerge, each cut as it is; and ones to be refused.

What ffmpeg and mkvmerge write differs between their versions; what is wanted of the program doesn't. So a file's clip
is the one that ffmpeg itself and the reader of this folder find in it, and a refused file is refused for its kind.
"""

import subprocess
from pathlib import Path
from typing import Callable, Dict, Set

import mkv
import reader
from good import check_cut, packet_faults
from mkv import Id
from report import Report, differs
from session_clips import open_sizes
from tools import changed, ffmpeg, frames_of, has_encoder, mkvmerge, script, sums_of, timeline

FRAMES, LENGTH, RATE = 30, 26, 25
PICTURE = ["-f", "lavfi", "-i", f"testsrc2=size=96x64:rate={RATE}", "-frames:v", FRAMES]
FFV1 = ["-pix_fmt", "yuv420p", "-c:v", "ffv1", "-level", 3, "-g", 1, "-slices", 12, "-threads", 1]
CHAPTERS = """;FFMETADATA1
title=A walk
[CHAPTER]
TIMEBASE=1/1000
START=0
END=600
title=one
"""
SUBTITLES = "1\n00:00:00,000 --> 00:00:00,500\nOne\n\n2\n00:00:00,600 --> 00:00:01,000\nTwo\n"


class Bench:
    """A folder with what the files are made of, and the file that is being looked at, `a.mkv`."""

    def __init__(self, folder: Path):
        self.folder = folder
        folder.mkdir(parents=True)
        self.by_ffmpeg(*PICTURE, *FFV1, to="picture.mkv")
        self.by_ffmpeg("-i", "picture.mkv", "-c", "copy", to="picture.avi")
        self.by_ffmpeg("-f", "lavfi", "-i", "sine=frequency=440:duration=1.2", to="sound.wav")
        self.by_ffmpeg("-i", "sound.wav", to="sound.flac")
        record = reader.read_clip(reader.view_of(folder / "picture.mkv")).record
        self.records = [record, record + b"\0"]  # an AVI pads an odd one, and mkvmerge keeps the pad
        (folder / "chapters").write_text(CHAPTERS)
        (folder / "words.srt").write_text(SUBTITLES)
        (folder / "note.txt").write_text("found in a box\n" * 400)

    def by_ffmpeg(self, *words, to="a.mkv"):
        ran = ffmpeg([*words, to], self.folder)
        if ran.status:
            raise RuntimeError(f"ffmpeg made no {to}: {ran.err.strip()}")

    def piped(self, *words):
        """What ffmpeg writes to a pipe, where it can't go back and fill in sizes."""
        words = ["ffmpeg", "-nostdin", "-v", "error", *map(str, words), "-f", "matroska", "-"]
        ran = subprocess.run(words, cwd=self.folder, stdin=subprocess.DEVNULL, stdout=subprocess.PIPE, check=True)
        (self.folder / "a.mkv").write_bytes(ran.stdout)

    def merged(self, *words):
        """By mkvmerge, which ends with status 1 where it only warns."""
        ran = mkvmerge(["-o", "a.mkv", *words], self.folder)
        if ran.status > 1:
            raise RuntimeError(f"mkvmerge made no a.mkv: {ran.out.strip()}")


def has_unknown_size(data, element: reader.Element) -> bool:
    return reader.head_at(data, element.at, len(data))[1] is None


def shapes_of(data) -> Set[str]:
    """What a file has of the things for which the files of the tables are made."""
    segment = reader.first(reader.elements(data, 0, len(data), reader.FILE)[0], Id.SEGMENT)
    clusters = list(reader.of_id(segment.children, Id.CLUSTER))
    tracks = list(reader.of_id(segment.children, Id.TRACKS))
    parts = [part for cluster in clusters for part in cluster.children]
    blocks = [reader.block_of(data, part) for part in reader.of_id(parts, Id.SIMPLE_BLOCK)]
    kind = reader.first(reader.first(tracks[0].children, Id.TRACK_ENTRY).children, Id.TRACK_TYPE)
    shapes = {
        "a Segment of unknown size": has_unknown_size(data, segment),
        "a Cluster of unknown size": any(has_unknown_size(data, cluster) for cluster in clusters),
        "a BlockGroup": any(reader.of_id(parts, Id.BLOCK_GROUP)),
        "a laced block": any(block.flags & mkv.LACING for block in blocks),
        "a second Tracks": len(tracks) > 1,
        "a first track without pictures": reader.number_of(data, kind) != mkv.VIDEO_TRACK,
    }
    return {shape for shape, is_there in shapes.items() if is_there}


def having(it: Bench, shape: str, make: Callable[[], None]) -> Callable[[], None]:
    """Makes a file, and fails where it isn't what it was made for."""

    def made():
        make()
        if shape not in shapes_of(reader.view_of(it.folder / "a.mkv")):
            raise RuntimeError(f"the file has not {shape}")

    return made


def opened(it: Bench, make: Callable[[], None]):
    make()
    open_sizes(it.folder / "a.mkv")


def by_ffmpeg(it: Bench) -> Dict[str, Callable[[], None]]:
    encode = [*PICTURE, *FFV1]
    both = ["-i", "picture.mkv", "-i", "sound.wav", "-c:v", "copy"]
    behind = lambda sound: lambda: it.by_ffmpeg(*both, "-map", "0:v", "-map", "1:a", "-c:a", sound)
    before = lambda sound, *words: having(
        it,
        "a first track without pictures",
        lambda: it.by_ffmpeg(*both, "-map", "1:a", "-map", "0:v", "-c:a", sound, *words),
    )
    live = lambda make: having(it, "a Segment of unknown size", make)
    extras = ["-i", "picture.mkv", "-i", "words.srt", "-i", "chapters", "-map", "0", "-map", "1", "-map_metadata", 2]
    note = ["-attach", "note.txt", "-metadata:s:t", "mimetype=text/plain"]
    return {
        "as it is": lambda: it.by_ffmpeg(*encode),
        "-live 1": live(lambda: it.by_ffmpeg(*encode, "-live", 1)),
        "to a pipe": live(lambda: it.piped(*encode)),
        "to a pipe, -live 1": live(lambda: it.piped(*encode, "-live", 1)),
        "to a pipe, with Clusters of unknown size": having(
            it, "a Cluster of unknown size", lambda: opened(it, lambda: it.piped(*encode))
        ),
        "the Cues before the Clusters": lambda: it.by_ffmpeg(*encode, "-reserve_index_space", 4096),
        "PCM after the picture": behind("pcm_s16le"),
        "PCM before the picture": before("pcm_s24le"),
        "FLAC after the picture": behind("flac"),
        "FLAC before the picture": before("flac"),
        "FLAC before the picture, -live 1": before("flac", "-live", 1),
        "chapters, subtitles, tags and an attachment": lambda: it.by_ffmpeg(*extras, "-c", "copy", *note),
        "a second FFV1 track": lambda: it.by_ffmpeg(
            "-i", "picture.mkv", *PICTURE, "-map", "0:v", "-map", "1:v", *FFV1, "-filter:v:1", "hue=h=90"
        ),
    }


def by_mkvmerge(it: Bench) -> Dict[str, Callable[[], None]]:
    merged = lambda *words: lambda: it.merged(*words)
    grouped = lambda *words: having(it, "a BlockGroup", merged("--engage", "no_simpleblocks", *words))
    chapters = ["--chapters", "chapters.txt", "--attach-file", "note.txt"]
    (it.folder / "chapters.txt").write_text("CHAPTER01=00:00:00.000\nCHAPTER01NAME=one\n")
    return {
        "as it is": merged("picture.mkv"),
        "no_simpleblocks": grouped("picture.mkv"),
        "no_simpleblocks, with FLAC before the picture": grouped("sound.flac", "picture.mkv"),
        "from an AVI": merged("picture.avi"),
        "from an AVI, no_simpleblocks": grouped("picture.avi"),
        "the track headers twice": having(
            it, "a second Tracks", merged("--engage", "write_headers_twice", "picture.mkv")
        ),
        "no Cues": merged("--cues", "0:none", "picture.mkv"),
        "PCM before the picture": having(it, "a laced block", merged("sound.wav", "picture.mkv")),
        "FLAC, subtitles, chapters and an attachment": merged("picture.mkv", "sound.flac", "words.srt", *chapters),
        "compressed subtitles": merged("--compression", "0:zlib", "words.srt", "picture.mkv"),
    }


def two_codecs(it: Bench, encoder: str):
    """A picture track of another codec, and then the FFV1 one."""
    it.by_ffmpeg("-i", "picture.mkv", "-map", "0:v", "-map", "0:v", "-c:v:0", encoder, "-c:v:1", "copy")


def check_real_cut(report: Report, name: str, it: Bench, make: Callable[[], None], stream="0:v:0"):
    """Makes `a.mkv`, sees that ffmpeg and the reader find the same clip in it, and cuts it; and then cuts the cut."""
    try:
        for file in ("a.mkv", "o.mkv"):
            (it.folder / file).unlink(missing_ok=True)
        make()
        source = reader.read_clip(reader.view_of(it.folder / "a.mkv"))
    except (RuntimeError, OSError, subprocess.SubprocessError, reader.Refused) as fault:
        report.check(f"{name}: made", str(fault))
        return
    frames = frames_of("a.mkv", it.folder, stream)
    is_made = differs("the number of frames", len(source.blocks), FRAMES)
    is_record = "" if source.record in it.records else "the record isn't the picture's"
    report.check(f"{name}: made", [is_made, is_record, packet_faults(source, frames)])
    check_cut(report, name, it.folder, source, frames, LENGTH, RATE)


def check_cut_of_cut(report: Report, it: Bench):
    """The export of the last cut is the clip of the next one."""
    whole = it.folder / "a.mkv"
    for length in (LENGTH, LENGTH - 1, 1):
        (it.folder / "o.mkv").replace(whole)
        source, frames = reader.read_clip(reader.view_of(whole)), frames_of("a.mkv", it.folder)
        check_cut(report, f"a cut of a cut, {length}", it.folder, source, frames, length, RATE)


def without_its_front(it: Bench):
    """A file whose packets lack the bytes that they all begin with: ContentCompAlgo 3 (RFC 9559 section 5.1.4.1.31.6)."""
    clip = reader.read_clip(reader.view_of(it.folder / "picture.mkv"))
    packets = [clip.packets()[0]] * FRAMES
    front = packets[0][:6]
    settings = mkv.element(Id.CONTENT_COMP_SETTINGS, [front])
    compression = mkv.master(Id.CONTENT_COMPRESSION, mkv.unsigned(Id.CONTENT_COMP_ALGO, 3), settings)
    encodings = mkv.master(Id.CONTENT_ENCODINGS, mkv.master(Id.CONTENT_ENCODING, compression))
    entry = mkv.track_entry(clip.record, clip.width, clip.height, encodings)
    frames = [(40 * number, packet[len(front) :]) for number, packet in enumerate(packets)]
    pieces = mkv.ebml_head() + mkv.master(
        Id.SEGMENT, mkv.info(mkv.MILLISECOND), mkv.master(Id.TRACKS, entry), mkv.cluster(0, frames)
    )
    (it.folder / "a.mkv").write_bytes(b"".join(pieces))
    if len(frames_of("a.mkv", it.folder).pictures) != FRAMES:
        raise RuntimeError("ffmpeg doesn't read it")


def refused(it: Bench):
    """Each kind of refused file: its name, the fault's name, and how it is made."""
    whole = (it.folder / "picture.mkv").read_bytes()
    put = lambda data: lambda: (it.folder / "a.mkv").write_bytes(data)
    encoded = lambda encoder, *more: lambda: it.by_ffmpeg(*PICTURE, "-c:v", encoder, *more)
    yield "a zlib-compressed picture", "Encoded", lambda: it.merged("--compression", "0:zlib", "picture.mkv")
    yield "a header-stripped picture", "Encoded", lambda: without_its_front(it)
    for encoder in ("libx264", "mpeg4", "libvpx"):
        if has_encoder(encoder):
            yield f"coded by {encoder}", "Codec", encoded(encoder)
    yield "raw pictures", "Codec", encoded("rawvideo", "-allow_raw_vfw", 1)
    if has_encoder("libvpx"):
        yield "a WebM", "DocType", encoded("libvpx", "-f", "webm")
        yield "a WebM to a pipe", "DocType", encoded("libvpx", "-f", "webm", "-live", 1)
    for level in (0, 1):
        yield f"FFV1 of version {level}", "NoPrivate", encoded("ffv1", "-level", level)
    yield "sound alone", "NoTrack", lambda: it.by_ffmpeg("-i", "sound.flac", "-c", "copy")
    yield "subtitles alone", "NoTrack", lambda: it.merged("words.srt")
    yield "an empty file", "Ebml", put(b"")
    yield "an AVI", "Ebml", put((it.folder / "picture.avi").read_bytes())
    yield "a WAV", "Ebml", put((it.folder / "sound.wav").read_bytes())
    yield "a picture that lacks its last byte", "Ebml", put(whole[:-1])
    yield "the first half of a picture", "Ebml", put(whole[: len(whole) // 2])
    yield "a picture that lacks its first byte", "Ebml", put(whole[1:])


def refused_records(it: Bench):
    """FFV1 that archives have too, and that isn't read: its name, the fault's name, and how it is made."""
    ffv1 = ["-c:v", "ffv1", "-level", 3, "-g", 1, "-slices", 4, "-threads", 1]
    of = lambda pixels, *more: lambda: it.by_ffmpeg(*PICTURE, "-pix_fmt", pixels, *ffv1, *more)
    yield "ten bits", "Depth", of("yuv422p10le")
    yield "sixteen bits of grey", "Depth", of("gray16le")
    yield "RGB", "Color", of("bgr0")
    yield "an alpha plane", "ExtraPlane", of("yuva420p")
    yield "two passes", "InitialStates", lambda: two_passes(it)


def two_passes(it: Bench):
    words = [*PICTURE, *FFV1, "-coder", 1, "-passlogfile", "log"]
    it.by_ffmpeg(*words, "-pass", 1, "-f", "null", to="-")
    it.by_ffmpeg(*words, "-pass", 2)


def check_other_frames(report: Report, it: Bench):
    """A clip in which not each frame is a key frame: the first can be exported alone, the second is told."""
    it.by_ffmpeg(*PICTURE, *FFV1, "-g", 12)
    for length, end, status in ((1, "done 1", 0), (2, "fault 1 A 1 NotKey", 7)):
        (it.folder / "s").write_bytes(script(length=length))
        ran = timeline(["s"], it.folder)
        said = differs("the output", ran.out, f"ok {length}\nasked 1\nexport 1 {end}\n")
        report.check(f"-g 12, {length} of its frames", [said, differs("the status", ran.status, status), ran.err])


def check_refused(report: Report, it: Bench, name: str, kind: str, make: Callable[[], None]):
    try:
        (it.folder / "a.mkv").unlink(missing_ok=True)
        make()
    except (RuntimeError, OSError, reader.Refused) as fault:
        report.check(f"{name}: made", str(fault))
        return
    (it.folder / "s").write_bytes(script(length=1))
    before = sums_of(it.folder)
    ran = timeline(["s"], it.folder)
    said = differs("the output", ran.out, f"fault line 2 {kind}\n")
    kept = changed(before, sums_of(it.folder))
    report.check(f"{name}: {kind}", [said, differs("the status", ran.status, 3), ran.err, kept])


def check_real(report: Report, work: Path):
    it = Bench(work / "real")
    for tool, table in {"ffmpeg": by_ffmpeg(it), "mkvmerge": by_mkvmerge(it)}.items():
        for name, make in table.items():
            check_real_cut(report, f"{tool}, {name}", it, make)
    check_cut_of_cut(report, it)
    if has_encoder("libx264"):
        check_real_cut(report, "an H.264 track before the FFV1 one", it, lambda: two_codecs(it, "libx264"), "0:v:1")
    for name, kind, make in refused(it):
        check_refused(report, it, name, f"clip {kind}", make)
    for name, kind, make in refused_records(it):
        check_refused(report, it, name, f"record {kind}", make)
    check_other_frames(report, it)
