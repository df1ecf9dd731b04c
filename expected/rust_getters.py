#!/usr/bin/env python3
"""What the original, the Rust crate mp4 0.14.0, answers by the getters of a track, held against ours: the media, the profile,
the first parameter set of either list, the object type, the frequency, the channels and the bit rate.

Ours are the lines of crates/describe_tracks for a trak with the same boxes. The model of the original is that of
expected/rust_entries.py for the sample entry. Where the answers differ, each single difference must be of a class, which has a
number in docs/DIFFERENCES.md: one of the entry's own reading, or one of the getters.

    python3 expected/rust_getters.py --pack PACK    writes the traks of the fixed list, expected/getters.txt
    python3 expected/rust_getters.py STDOUT         compares the lines of crates/describe_tracks with the list's answers
"""
import collections
import pathlib
import sys

import boxes
import entries
import rust_entries
from build import full, stsz, tkhd, trak
from damage import counted, u16, u32, u64

STORED = pathlib.Path(__file__).resolve().parent / "getters.txt"
# each question with the name of our getter
ASKED = {"media": "media", "profile": "video_profile", "sps": "sps\t0", "pps": "pps\t0", "aot": "audio_profile",
         "freq": "frequency", "chan": "channels", "bitrate": "bitrate"}
MEDIA = {"H264": "h264", "AAC": "aac"}  # the original's words, and ours
# what a difference in the reading of an entry must be about, to make one in a getter's answer: names of rust_entries.MAKES
ABOUT = {"media": set(), "profile": {"avc_profile_indication", "profile_compatibility"}, "sps": {"sequence_parameter_sets"},
         "pps": {"picture_parameter_sets"}, "aot": {"profile", "child"}, "freq": {"freq_index", "child"},
         "chan": {"chan_conf", "child"}, "bitrate": {"avg_bitrate", "child"}}

# `entry` is the box, or nothing; `sizes` are stsz's, with the common one and the count
Track = collections.namedtuple("Track", "kind entry timescale duration common count sizes")


# WHAT IS ASKED

def made_trak(track):
    """For ours."""
    mdhd = full("mdhd", bytes(16) + u32(track.timescale) + u64(track.duration) + u16(0x55C4) + u16(0), version=1)
    hdlr = full("hdlr", bytes(4) + b"vide" + bytes(12) + b"\0")
    return trak(tkhd=tkhd(), mdhd=mdhd, hdlr=hdlr, stsz=stsz(track.sizes, track.common, track.count),
                stsd=counted(b"stsd", 1 if track.entry else 0, track.entry))


def command(track):
    """A line for the original."""
    words = ["track", "id=1", f"mdhd={track.timescale}:{track.duration}", "tkhd=0:0",
             f"stsz={track.common}:{track.count}" + (":" + ",".join(map(str, track.sizes)) if track.sizes else "")]
    if track.kind:
        words.append(f"{track.kind}={track.entry.hex()}")
    return " ".join([*words, "handler=vide", "q=" + ",".join(ASKED)])


# WHAT IS ANSWERED: a value, or None for a refusal; ours has its number and detail

def ours(lines):
    """Our answers, by the lines of a trak."""
    told = {}
    for line in lines:
        for question, name in ASKED.items():
            if line.startswith(name + "\t"):
                words = line[len(name) + 1:].split("\t")
                told[question] = tuple(map(int, words[1:])) if words[0] == "refused" else words[0]
    # a set that is not there is no bytes, and the line behind it tells why
    for question in ("sps", "pps"):
        words = next(line for line in lines if line.startswith(question + "_fault\t0\t")).split("\t")
        if words[2] == "refused":
            told[question] = tuple(map(int, words[3:]))
    return told


def model(track, record):
    """What the original must answer, with its record of the entry, None where it refuses that."""
    told = dict.fromkeys(ASKED)
    if track.kind and record is None:
        return told
    if track.kind == "mp4a":
        told["media"], stream = "aac", record["esds"]
        told["bitrate"] = "0"
        if stream:
            decoder = stream["es_desc"]["dec_config"]
            specific = decoder["dec_specific"]
            told["bitrate"] = str(decoder["avg_bitrate"])
            told["aot"] = taken(entries.object_type, specific["profile"])
            told["freq"] = taken(entries.frequency, specific["freq_index"])
            told["chan"] = taken(entries.channels, specific["chan_conf"])
        return told
    if track.kind == "avc1":
        avcc = record["avcc"]
        told["media"] = "h264"
        # difference 1: never constrained
        told["profile"] = {66: "baseline", 77: "main", 88: "extended", 100: "high"}.get(avcc["avc_profile_indication"])
        for question, name in (("sps", "sequence_parameter_sets"), ("pps", "picture_parameter_sets")):
            told[question] = "x" + bytes(avcc[name][0]["bytes"]).hex() if avcc[name] else None
    if track.timescale == 0:
        told["bitrate"] = "panic"
    else:
        seconds = track.duration * 1_000_000 % (1 << 64) // track.timescale // 1_000_000
        told["bitrate"] = str(total(track) * 8 % (1 << 64) // seconds % (1 << 32) if seconds else 0)
    return told


def taken(conversion, value):
    """A code that the conversion takes; the original's tables are 01's."""
    try:
        return str(conversion(bytes([value]))[0])
    except boxes.Refused:
        return None


def total(track):
    return track.common * track.count if track.common else sum(track.sizes)


# THE DIFFERENCES

def bitrate_class(track, mine, theirs):
    """Of a track whose bit rate is worked out."""
    if track.timescale == 0:
        return 7 if theirs == "panic" and mine[0] == 8 else None
    bits = total(track) * 8
    if track.duration * 1_000_000 >> 64:
        return 114
    if bits >> 64:
        return 113
    return 112 if mine == (9, 0) else None


def classes_of(track, question, mine, theirs, read):
    """The numbers of a difference; none where it has no class."""
    if track.kind and read.record is None:  # the original has no track there
        return [121] if read.refused else [number for number in read.classes if "refused" in rust_entries.MAKES[number]]
    if question == "bitrate" and track.kind != "mp4a":
        number = bitrate_class(track, mine, theirs)
        return [number] if number else []
    if question == "profile" and mine == "constrained" and theirs == "baseline":
        return [1]
    if question == "freq" and mine == (1, 0) and theirs == "96000":
        return [116]  # there is no configuration
    if question == "freq" and not isinstance(mine, tuple) and theirs is None and 48 in read.notes:
        return [115]  # the frequency is told itself
    names = set()
    if isinstance(mine, tuple):
        names.add(f"taken {mine[0]}")
    if mine == "0" or isinstance(mine, tuple) and mine[0] == 5:  # a child that is not found may lie behind a fault
        names |= {"child", "taken 1", "taken 2"}
    found = [number for number in read.classes if rust_entries.MAKES[number] & (names | ABOUT[question])]
    # where our readers refuse what lies behind, the classes of the entry are those of that alone
    noted = read.notes if read.refused else ()
    return found + [number for number in sorted(noted) if number not in found and rust_entries.MAKES[number] & ABOUT[question]]


# of an entry: the model's record, what it noted, the classes of the reading, and whether our readers refuse it or its child
Read = collections.namedtuple("Read", "record notes classes refused")


def readings(track):
    if not track.kind:
        return Read(None, {}, [], False)
    record, place, wrote, notes = rust_entries.boxed(track.entry, track.kind)
    lines = [entries.line(part) for _, part in rust_entries.parts(track.kind, track.entry)]
    own = rust_entries.Ours(track.kind, track.entry, lines)
    found = rust_entries.classes(track.kind, track.entry, own, (record, place, wrote))
    return Read(record, notes, [number for number in found if isinstance(number, int)], own.refused is not None)


def differences(track, lines, theirs):
    """Each question that has another answer, with the numbers of its classes, and the words of the answers."""
    mine, read = ours(lines), readings(track)
    for question in ASKED:
        refusal = isinstance(mine[question], tuple)
        if theirs[question] is None if refusal else mine[question] == theirs[question]:
            continue
        yield (question, classes_of(track, question, mine[question], theirs[question], read),
               f"{question}: {mine[question]} and {theirs[question]}; noted {sorted(read.notes)}, of the entry {read.classes}")


# THE FIXED LIST

def track_words(track):
    """A track in the words of the list; a hyphen is for an entry that is none."""
    sizes = ",".join(map(str, track.sizes)) or "-"
    return " ".join(map(str, (track.kind or "-", track.entry.hex() or "-", *track[2:6], sizes)))


def track_of(line):
    kind, entry, *numbers, sizes = line.split()
    return Track(None if kind == "-" else kind, b"" if entry == "-" else bytes.fromhex(entry), *map(int, numbers),
                 [] if sizes == "-" else [int(size) for size in sizes.split(",")])


def answer_words(theirs):
    return " ".join("refuses" if answer is None else answer for answer in theirs.values())


def answers_of(line):
    return {question: None if word == "refuses" else word for question, word in zip(ASKED, line.split(), strict=True)}


def stored():
    """Its tracks, the original's answers, and the numbers of the differences."""
    with open(STORED) as file:
        rows = [line.rstrip("\n").partition(" ")[2] for line in file if not line.startswith("#")]
    for line, answer, differs in zip(*(rows[i::3] for i in range(3)), strict=True):
        yield track_of(line), answers_of(answer), [int(number) for number in differs.split()]


def classes(track, lines, theirs):
    """The numbers of all differences; a text for one that has none."""
    found = set()
    for _, numbers, text in differences(track, lines, theirs):
        found.update(numbers or [text])
    return sorted(found, key=lambda one: (isinstance(one, str), one))


def replay(told):
    """Compares the lines for that list with the stored answers."""
    met, wrong, total_of = set(), 0, 0
    for (track, theirs, numbers), lines in zip(stored(), told, strict=True):
        got = classes(track, lines, theirs)
        if got != numbers or theirs != model(track, readings(track).record):
            print(f"{track_words(track)}: stored {numbers}, found {got}")
            wrong += 1
        met.update(got)
        total_of += 1
    print(f"{total_of} tracks and the original's {total_of * len(ASKED)} answers to them: differences of {len(met)} classes, "
          f"{wrong} tracks not as stored")
    return wrong == 0


def main():
    if sys.argv[1] == "--pack":
        pathlib.Path(sys.argv[2]).write_bytes(boxes.pack_of(made_trak(track) for track, _, _ in stored()))
        return 0
    told, here = [], False
    for line in pathlib.Path(sys.argv[1]).read_text().splitlines():
        if line.endswith(".pack"):
            here = line == "oracle.pack"
        elif here and line.startswith("trak\t"):
            told.append([])
        elif here:
            told[-1].append(line)
    return 0 if replay(told) else 1


if __name__ == "__main__":
    sys.exit(main())
