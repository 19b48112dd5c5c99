"""The frames of packets: the reader and writer of this folder beside ffmpeg, and the library of the proved codec beside all three.

The part `frames` is passed over, with a line that says so, where the library isn't built: `cd crates/codec_c && rt lib`.
"""

from collections import Counter
from itertools import chain, product
from pathlib import Path
from typing import Iterable, Iterator, List, NamedTuple, Tuple

import ffv1
import frame_clips
import library
from damage import Damaged, Picture, bytes_changed, cuts, damaged, picture_of
from ffv1_record import RANGE, RICE, Parameters, Shape, own_parameters, own_record, read_record
from library import Library
from records import check_faulty_records, check_record_reader
from report import Report, differs
from written import written_file

SHAPES = {
    "gray": Shape(False),
    "yuv444p": Shape(True, 0, 0),
    "yuv440p": Shape(True, 0, 1),
    "yuv422p": Shape(True, 1, 0),
    "yuv420p": Shape(True, 1, 1),
    "yuv411p": Shape(True, 2, 0),
    "yuv410p": Shape(True, 2, 2),
}
SIZES_AND_GRIDS = (((2, 2), (1, 1)), ((17, 9), (1, 1)), ((17, 9), (2, 2)), ((40, 24), (3, 2)), ((64, 48), (4, 4)))
TOLD = 3
# Packets of a few bytes under the record of an own encoder (range coder, no parities), and what they are by hand.
SMALL_PACKETS = (
    # chroma, width, height, columns of the grid, packet, kind, place, samples
    ("yuv420p", 1, 1, 1, "FF FF 00 00 02", "Ok", 0, bytes(3)),
    ("yuv420p", 1, 1, 1, "", "Empty", 0, b""),
    ("yuv420p", 1, 1, 1, "FF FF 00 00 03", "Chain", 0, b""),
    ("yuv420p", 1, 1, 1, "10 00 00 00 02", "NotKey", 0, b""),
    ("gray", 64, 64, 1, "FF FF 00 00 02", "Overrun", 0, b""),
    ("gray", 2, 1, 2, "FF FF 00 00 02", "Cover", 1, b""),
    ("gray", 2, 1, 2, "FF FF 00 00 02 FF FF 00 00 02", "Cover", 0, b""),
    ("gray", 2, 2, 1, "FE EB 00 00 02", "Ok", 0, bytes(4)),
)


class Sample(NamedTuple):
    """A made-up clip: its chroma, and the pictures with the parameters to encode them by."""

    name: str
    chroma: str
    pictures: List[Picture]


def patterns() -> List:
    """Samples by plane, column and row: flat, smooth, with edges, and as good as random."""
    return [
        lambda plane, column, row: 70 * plane,
        lambda plane, column, row: 3 * column + 2 * row + 50 * plane,
        lambda plane, column, row: 200 * (column // 5 % 2) + (column * row + plane) % 3,
        lambda plane, column, row: (column * 7919 + row * 104_729 + plane * 31) ** 2 >> 7,
    ]


def made_up() -> Iterator[Sample]:
    """Each chroma and coder, at sizes and grids that reach the ends of the planes."""
    for (chroma, shape), coder, ((width, height), (columns, rows)) in product(SHAPES.items(), (RANGE, RICE), SIZES_AND_GRIDS):
        own = own_parameters(shape, coder, columns, rows)
        if ffv1.reaches_ends(own, width, height):
            name = f"{width}x{height} {chroma} {'rice' if coder == RICE else 'range'}, grid {columns}x{rows}"
            yield Sample(name, chroma, [picture_of(own, width, height, it) for it in patterns()])


def small_pictures() -> Iterator[Tuple[str, Picture, int]]:
    """The pictures whose packets are damaged, and at each how many bytes that is done."""
    rows = ((1, 1, 1, 1, "gray", 1), (2, 1, 2, 1, "gray", 1), (2, 2, 1, 1, "yuv444p", 1), (17, 9, 2, 2, "yuv420p", 9))
    for coder, (width, height, columns, grid_rows, chroma, stride) in product((RANGE, RICE), rows):
        own = own_parameters(SHAPES[chroma], coder, columns, grid_rows)
        name = f"{width}x{height} {chroma} {'rice' if coder == RICE else 'range'}, grid {columns}x{grid_rows}"
        yield name, picture_of(own, width, height, patterns()[-1]), stride


def samples_of(picture: Picture) -> bytes:
    return b"".join(plane.samples for plane in picture.planes)


def by_ffmpeg(sample: Sample, packets: List[bytes], folder: Path) -> List[bytes]:
    """The frames that ffmpeg decodes from these packets."""
    folder.mkdir(parents=True, exist_ok=True)
    first = sample.pictures[0]
    record = own_record(first.parameters)
    (folder / "a.mkv").write_bytes(written_file(record, first.width, first.height, 25, packets))
    return frame_clips.decode(folder / "a.mkv", sample.chroma, first.width, first.height, len(packets))


def clips(report: Report, work: Path) -> Iterator[Tuple[frame_clips.FrameClip, frame_clips.Made, Parameters]]:
    """The clips of the table that ffmpeg takes, with what their records tell."""
    for number, clip in enumerate(frame_clips.table()):
        try:
            made = frame_clips.make(clip, work / "frame_clips" / str(number))
            if made:
                yield clip, made, read_record(made.clip.record)
        except Exception as fault:
            report.check(f"{clip.name()}: made", f"{type(fault).__name__}: {fault}")


def frame_faults(parameters: Parameters, clip: frame_clips.FrameClip, answers: List, frames: List[bytes]) -> List[str]:
    """Each answer is Ok and has the samples of ffmpeg's frame; those that no slice has are 0, whatever ffmpeg has there."""
    mask = ffv1.covered(parameters, clip.width, clip.height)
    faults = []
    for number, ((kind, place, samples), frame) in enumerate(zip(answers, frames)):
        wanted = bytes(sample if is_covered else 0 for sample, is_covered in zip(frame, mask))
        if (kind, place) != ("Ok", 0):
            faults.append(f"frame {number} is {kind} at {place}")
        elif samples != wanted:
            faults.append(f"frame {number} has other samples")
    return faults


def small_packets() -> Iterator[Tuple[str, Parameters, int, int, bytes, Tuple]]:
    """The rows of that table: a name, the parameters, the size, the packet, the answer."""
    for chroma, width, height, columns, packet, *wanted in SMALL_PACKETS:
        own = own_parameters(SHAPES[chroma], RANGE, columns, 1)._replace(has_parity=False)
        yield f"{width}x{height} {chroma} {packet}", own, width, height, bytes.fromhex(packet), tuple(wanted)


# The part `ffv1`


def check_reader(report: Report, work: Path):
    """The reader decodes ffmpeg's packets to ffmpeg's frames, and ffmpeg and the reader those of the writer."""
    check_record_reader(report)
    rows = [differs(name, ffv1.answer(*where), wanted) for name, *where, wanted in small_packets()]
    report.check("packets of a few bytes", rows)
    for clip, made, parameters in clips(report, work):
        answers = [ffv1.answer(parameters, clip.width, clip.height, packet) for packet in made.clip.packets()]
        if frame_clips.has_wrong_cells(parameters, clip.width, clip.height):
            report.check(f"{clip.name()}: refused", differs("the fault", {it[0] for it in answers}, {"Header"}))
        else:
            report.check(f"{clip.name()}: frames", frame_faults(parameters, clip, answers, made.frames))
    for sample in made_up():
        packets = [it.packet() for it in sample.pictures]
        wanted = [samples_of(it) for it in sample.pictures]
        first = sample.pictures[0]
        read = [ffv1.answer(first.parameters, first.width, first.height, it)[2] for it in packets]
        record = differs("the record", read_record(own_record(first.parameters)), first.parameters)
        own = "" if read == wanted else "the reader reads other samples"
        decoded = "" if by_ffmpeg(sample, packets, work / "ffv1") == wanted else "ffmpeg reads other samples"
        report.check(f"{sample.name}: written", [record, own, decoded])


# The part `frames`


def check_frames(report: Report, work: Path):
    codec = library.load(work)
    if codec is None:
        print("frames: skipped, since the library codec_c isn't built (cd crates/codec_c && rt lib), or gcc isn't here", flush=True)
        return
    check_whole(report, codec, work)
    check_damaged(report, codec)
    check_encoded(report, codec, work)
    check_small(report, codec)
    check_faulty_records(report, codec)
    check_arguments(report, codec)


def check_whole(report: Report, codec: Library, work: Path):
    """ffmpeg's packets: whole, and those of small pictures damaged."""
    for clip, made, parameters in clips(report, work):
        packets, record, size = made.clip.packets(), made.clip.record, len(made.frames[0])
        answers = [codec.decode(record, clip.width, clip.height, it, size) for it in packets]
        if not ffv1.suits(parameters, clip.width, clip.height):
            report.check(f"library, {clip.name()}: refused", differs("the answer", {it[0] for it in answers}, {"Arguments"}))
        elif not frame_clips.has_wrong_cells(parameters, clip.width, clip.height):
            report.check(f"library, {clip.name()}: frames", frame_faults(parameters, clip, answers, made.frames))
        if (clip.width, clip.height, clip.chroma) == (17, 9, "yuv420p"):
            changes = chain(cuts(packets[0], 5), bytes_changed(parameters, packets[0], 5))
            check_answers(report, f"library, {clip.name()}", codec, (record, parameters, clip.width, clip.height), changes)


def check_answers(report: Report, name: str, codec: Library, where: Tuple, packets: Iterable[Damaged]):
    """Each packet is decoded by the library as by the reader, fault by fault."""
    record, parameters, width, height = where
    size = sum(across * down for across, down in ffv1.plane_sizes(parameters.shape, width, height))
    faults, kinds = [], Counter()
    for change, packet in packets:
        wanted = ffv1.answer(parameters, width, height, packet)
        found = codec.decode(record, width, height, packet, size)
        kinds[wanted[0]] += 1
        if found != wanted:
            other = "other samples" if found[:2] == wanted[:2] else f"{found[:2]}, not {wanted[:2]}"
            faults.append(f"{change}: {other}")
    more = [f"and {len(faults) - TOLD} more"] if len(faults) > TOLD else []
    report.check(f"{name}: {told(kinds)}", faults[:TOLD] + more)


def check_damaged(report: Report, codec: Library):
    for name, picture, stride in small_pictures():
        where = (own_record(picture.parameters), picture.parameters, picture.width, picture.height)
        check_answers(report, f"library, damaged {name}", codec, where, damaged(picture, stride))


def check_encoded(report: Report, codec: Library, work: Path):
    """The library's packets are those of the writer, and ffmpeg decodes them to the pictures."""
    for sample in made_up():
        wanted = [samples_of(it) for it in sample.pictures]
        packets, faults = [], []
        for picture, samples in zip(sample.pictures, wanted):
            room = 64 * (len(picture.contents) + len(samples))
            found = codec.encode(own_record(picture.parameters), picture.width, picture.height, samples, room)
            packets.append(found.written)
            faults.append(differs("the answer", found.kind, "Ok"))
            faults.append("" if found.written == picture.packet() else "the packet isn't the writer's")
        if all(packets):
            decoded = by_ffmpeg(sample, packets, work / "encoded")
            faults.append("" if decoded == wanted else "ffmpeg reads other samples")
        report.check(f"library, {sample.name}: encoded", faults)


def check_small(report: Report, codec: Library):
    faults = []
    for name, own, width, height, packet, wanted in small_packets():
        size = sum(across * down for across, down in ffv1.plane_sizes(own.shape, width, height))
        faults.append(differs(name, tuple(codec.decode(own_record(own), width, height, packet, size)), wanted))
    report.check("library, packets of a few bytes", faults)


def told(kinds: Counter) -> str:
    return ", ".join(f"{kind} {count}" for kind, count in sorted(kinds.items()))


def check_arguments(report: Report, codec: Library):
    """Wrong arguments are answered as such: a faulty record, other sizes, no room."""
    picture = picture_of(own_parameters(Shape(True, 1, 1), RANGE, 1, 1), 2, 2, patterns()[1])
    record, packet, samples = own_record(picture.parameters), picture.packet(), samples_of(picture)
    size = len(samples)
    rows = {
        "no record": codec.decode(b"", 2, 2, packet, size),
        "a record cut short": codec.decode(record[:-1], 2, 2, packet, size),
        "no columns": codec.decode(record, 0, 2, packet, 0),
        "too little room for samples": codec.decode(record, 2, 2, packet, size - 1),
        "too much room for samples": codec.decode(record, 2, 2, packet, size + 1),
        "too few samples": codec.encode(record, 2, 2, samples[:-1], 100),
        "no room for the packet": codec.encode(record, 2, 2, samples, len(packet) - 1),
        "a faulty record to encode by": codec.encode(record[1:], 2, 2, samples, 100),
    }
    report.check("library, wrong arguments", [differs(name, it.kind, "Arguments") for name, it in rows.items()])
