#!/usr/bin/env python3
"""Makes the files that the audit is tried on, and what must be printed for them: the same bytes at every run.

    python3 expected/movies.py write [FOLDER]     writes data/, args, stdout and listing/; without FOLDER, where they are kept
    python3 expected/movies.py compare [FOLDER]   makes them again and holds them against what is there
    python3 expected/movies.py hurt FOLDER SEED   writes data/, args and stdout of 420 other damaged files
The built files of expected/cases.py and those of other makers come with verdicts from elsewhere, and expected/audit.py must
say the same. A small file that is cut at every length has its verdicts here. For files that were damaged by chance the
verdict is expected/audit.py's. Whatever it says, a count of the media bytes must bear it out.
"""
import pathlib
import random
import sys

import audit
import boxes
from build import hold, mdat, row
from cases import built, clean, expected
from damage import box, large, u32

TARGET = pathlib.Path(__file__).resolve().parent.parent / "crates" / "framewitness"  # where data, args, stdout and listing are kept
MOST_FILES, MOST_BYTES = 420, 1 << 20  # names in one call; bytes of one file, since the program's buffer may be no larger
LISTED = ("clean_case2", "clean_ctts", "clean_frag_shifts", "clean_frag_defaults", "clean_frag_no_base", "f4_sizes_64")


# FILES OF OTHER MAKERS: ffmpeg 5.1.9, GStreamer 1.22.0, VLC 3.0.24 and libquicktime 1.2.4, as Debian 12 has them. The
# verdicts are those of a separate reading; the number of media bytes it does not tell.

OTHERS = {
    "ff_1frame.mp4": "clean tracks=1 samples=1",
    "ff_audio_only.mp4": "clean tracks=1 samples=189",
    "ff_dashmux_segment.m4s": "refused 8 detail=120",
    "ff_five.mp4": "refused 4 detail=93008",
    "ff_frag_frag_keyframe-empty_moov-default_base_moof.mp4": "clean tracks=2 samples=289",
    "ff_frag_frag_keyframe-empty_moov-omit_tfhd_offset.mp4": "clean tracks=2 samples=289",
    "ff_frag_frag_keyframe.mp4": "refused 10 detail=0",
    "ff_frag_interleave.mp4": "refused 6 detail=1420",
    "ff_hevc_hvc1.mp4": "clean tracks=1 samples=100",
    "ff_ismv.ismv": "refused 5 detail=tfdt",
    "ff_mov_av.mov": "clean tracks=2 samples=289",
    "ff_prog_av.mp4": "clean tracks=2 samples=289",
    "ff_prog_bframes.mp4": "clean tracks=1 samples=100",
    "ff_subs.mp4": "clean tracks=3 samples=294",
    "ff_vfr.mp4": "clean tracks=1 samples=44",
    "ff_vp9.mp4": "clean tracks=1 samples=100",
    "gst_frag_first_moov_then_finalise.mp4": "F6 track=0 sample=0 position=5385 gap=0",
    "gst_frag_v.mp4": "clean tracks=1 samples=60",
    "gst_prog_av.mp4": "clean tracks=2 samples=160",
    "lqt_streamize.mp4": "F4 track=1 sample=1 position=4526 gap=0",
    "vlc_mp4.mp4": "F3 track=1 sample=1 position=0 gap=0",
    "vlc_mp4frag.mp4": "F8 track=1 sample=0 position=9522 gap=30",
}


def others():
    for name, told in OTHERS.items():
        yield name, told, (TARGET / "data" / name).read_bytes()


# CUT AND DAMAGED FILES

SMALLEST = box(b"ftyp") + mdat(0, large) + hold("moov", box(b"mvhd"))


def cut_told(length):
    """What a cut of the smallest file is, whose boxes begin at 0, 8 and 24."""
    if length in (0, 8, 24):
        return "5 moov" if length else "5 ftyp"
    if 12 <= length < 24:
        return "1 12" if length < 16 else "1 16"  # the type is cut, then the 64-bit size
    return f"1 {24 if length > 24 else 8 if length > 8 else 0}"


def cuts():
    yield "cut_none.mp4", clean(0, 0, 0), SMALLEST
    for length in range(len(SMALLEST)):
        yield f"cut_{length:02}.mp4", expected(cut_told(length), b""), SMALLEST[:length]


def fitted(data, node, more):
    """The file with the sizes of the boxes around this one larger by so many bytes."""
    while node.kind:
        at, width = (node.start + 8, 8) if data[node.start:node.start + 4] == u32(1) else (node.start, 4)
        size = boxes.number(data, at, width)
        if size:  # else it reaches to the end anyway
            data = data[:at] + row(size + more, width=width) + data[at + width:]
        node = node.parent
    return data


def damaged(rnd, data):
    """The file with one thing wrong: a number, a bit, its end, a box lost or doubled, media bytes lost or doubled."""
    _, nodes, _ = audit.walked(data)
    node = rnd.choice(nodes)
    what = rnd.random()
    if what < .45:
        at = rnd.randrange(node.start, max(min(node.end, node.start + 120) - 3, node.start + 1), 4)
        old = boxes.number(data, at, 4)
        new = rnd.choice((0, 1, 2, old + 1, old - 1, old + 1, old - 1, old * 2, old ^ 1 << rnd.randrange(32), 0x7FFFFFFF, 0xFFFFFFFF))
        return data[:at] + row(new) + data[at + 4:]
    if what < .55:
        at = rnd.randrange(len(data))
        return data[:at] + bytes([data[at] ^ 1 << rnd.randrange(8)]) + data[at + 1:]
    if what < .6:
        return data[:rnd.randrange(len(data))]
    if what < .75:
        return fitted(data, node.parent, node.start - node.end)[:node.start] + data[node.end:]
    if what < .9:
        return fitted(data, node.parent, node.end - node.start)[:node.end] + data[node.start:]
    node = rnd.choice([node for node in nodes if node.kind == "mdat"] or [node])
    at, end = node.payload(data)
    at = rnd.randrange(at, max(end, at + 1))
    length = min(rnd.choice((1, 2, 10)), end - at)
    if what < .95:
        return fitted(data, node, -length)[:at] + data[at + length:]
    return fitted(data, node, length)[:at] + data[at:at + length] + data[at:]


def one_of_each(name, sources, tries, seed):
    """The first damaged file for each number of an answer."""
    rnd, met = random.Random(seed), set()
    for _ in range(tries):
        data = damaged(rnd, rnd.choice(sources))
        verdict = audit.verdict(data)
        number = verdict.removeprefix("refused ").split()[0].lower()
        if number not in met:
            met.add(number)
            yield f"{name}_{number}.mp4", verdict, data


def sources():
    """Clean files to damage: small ones, and those of other makers."""
    return ([data for _, told, data in built() if told.startswith("clean") and len(data) < 2000],
            [data for _, told, data in others() if told.startswith("clean")])


def damages():
    """Of many damaged files one for each number."""
    small, real = sources()
    yield from one_of_each("hurt", small, 3000, 1)
    yield from one_of_each("lost", real, 400, 2)


def more_damages(seed):
    """By chance alone, every other one of a small file."""
    rnd, both = random.Random(seed), sources()
    for n in range(MOST_FILES):
        data = damaged(rnd, rnd.choice(both[n % 2]))
        yield f"hurt_{n:03}.mp4", audit.verdict(data), data


# A SECOND LOOK AT THE AUDIT

def top_payloads(data):
    at = 0
    while at + 8 <= len(data):
        size, head = boxes.number(data, at, 4), 8
        if size == 1:
            size, head = boxes.number(data, at + 8, 8), 16
        size = size or len(data) - at
        if data[at + 4:at + 8] == b"mdat":
            yield at + head, at + size
        at += size


def whole(data):
    """Whether each media byte is in one sample, and each sample is there and behind the one before: by counting."""
    claims, good, last = [0] * len(data), True, (0, 0)
    for line in list(audit.listing(data))[1:]:
        track, _, at, size, *_ = map(int, line.split("\t"))
        good = good and 0 < size and at + size <= len(data) and (track != last[0] or at > last[1])
        last = track, at
        for i in range(at, min(at + size, len(data))):
            claims[i] += 1
    for begin, end in top_payloads(data):
        good = good and claims[begin:end] == [1] * (end - begin)
        claims[begin:end] = [0] * (end - begin)
    return good and not any(claims)


def looked_at(name, told, data):
    """The verdict, once nothing speaks against it."""
    verdict = audit.verdict(data)
    assert f"{verdict} ".startswith(f"{told} "), f"{name}: {verdict}, and it should be {told}"
    assert len(data) <= MOST_BYTES, name
    if verdict[:2] in ("cl", "F7", "F8"):
        assert whole(data), f"{name}: {verdict}, and bytes are not claimed once"
    elif verdict[:2] in ("F2", "F4", "F5", "F6"):
        assert not whole(data), f"{name}: {verdict}, and all bytes are claimed once"
    return verdict


# THE FOLDER

def made(files):
    """What a folder with these files has, by the names there."""
    found, lines = {}, []
    for name, told, data in files:
        assert f"data/{name}" not in found, name
        found[f"data/{name}"] = data
        lines.append(f"{name}: {looked_at(name, told, data)}")
    assert len(lines) <= MOST_FILES, len(lines)
    found["args"] = "".join(line.split(":")[0] + "\n" for line in lines).encode()
    found["stdout"] = "".join(line + "\n" for line in lines).encode()
    return found


def all_made():
    found = made((*others(), *built(), *cuts(), *damages()))
    for name in LISTED:
        found[f"listing/{name}.txt"] = "".join(line + "\n" for line in audit.listing(found[f"data/{name}.mp4"])).encode()
    return found


def kept(folder):
    """The names in the folder's parts that are written as a whole."""
    return {str(path.relative_to(folder)) for part in ("data", "listing") for path in (folder / part).glob("*")}


def write(folder, found):
    for name in kept(folder) - set(found):
        (folder / name).unlink()
    for name, content in found.items():
        (folder / name).parent.mkdir(parents=True, exist_ok=True)
        (folder / name).write_bytes(content)


def compare(folder, found):
    """Whether the folder has what was made, and nothing else."""
    wrong = kept(folder) - set(found)
    wrong |= {name for name, content in found.items() if not (folder / name).is_file() or (folder / name).read_bytes() != content}
    for name in sorted(wrong):
        print(f"{name} differs from what was made")
    return not wrong


def main():
    what, folder = sys.argv[1:2], pathlib.Path(sys.argv[2]) if len(sys.argv) > 2 else TARGET
    if what == ["write"]:
        write(folder, all_made())
    elif what == ["hurt"] and len(sys.argv) == 4:
        write(folder, made(more_damages(int(sys.argv[3]))))
    elif what == ["compare"]:
        found = all_made()
        if not compare(folder, found):
            return 1
        count, size = found["args"].count(b"\n"), sum(map(len, found.values()))
        print(f"{count} files and {len(LISTED)} listings, {size} bytes, are as they were made")
    else:
        print(__doc__)
        return 2
    return 0


if __name__ == "__main__":
    sys.exit(main())
