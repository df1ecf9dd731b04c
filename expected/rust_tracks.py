#!/usr/bin/env python3
"""What the original, the Rust crate mp4 0.14.0, tells of a track as a whole, held against ours: the count of samples and
their bytes, the duration in microseconds, the frame rate, the width and the height, and the kind of its handler. Of its
samples expected/rust_tables.py has the questions.

Ours are the lines of crates/summarise for a row of the same numbers, and of crates/list_samples for the count and the bytes.
Where they differ, each single difference must be of a class below, which has a number in docs/DIFFERENCES.md. The
original is asked for its bitrate too, and that is held against the model alone: the scope has no such figure.

    python3 expected/rust_tracks.py STDOUT    compares the lines of crates/summarise with the answers of the fixed list,
                                              expected/tracks.txt
"""
import collections
import fractions
import pathlib
import sys

import rust_tables
import summaries
import tables

STORED = pathlib.Path(__file__).resolve().parent / "tracks.txt"
QUESTIONS = ("count", "total", "micros", "fps", "width", "height", "type", "bitrate")
KINDS = {"vide": "Video", "soun": "Audio", "sbtl": "Subtitle"}  # document 01, types

# `counts` has the samples of stsz and their bytes, then how many samples all tables have, and their bytes. The timescale
# and the duration are mdhd's, the width and the height tkhd's, raw. `avc1` has the width and the height of such an entry,
# `mp4a` the mean rate of its esds, in which None is for an absent esds.
Track = collections.namedtuple("Track", "counts timescale duration width height handler avc1 mp4a")


# WHAT IS ASKED

def counts(found):
    """Of the tables of an stbl."""
    total = found.common * found.count if found.common else sum(found.sizes)
    return found.count, total, tables.count(found), tables.total(found)


def command(found, track, entry):
    """A line for the original; the entry is a word, or none."""
    words = rust_tables.command(found).split()[:-1]
    words += ["mdhd=%d:%d" % (track.timescale, track.duration), "tkhd=%d:%d" % (track.width, track.height)]
    return " ".join([*words, "handler=" + track.handler, *entry, "q=" + ",".join(QUESTIONS)])


# WHAT IS ANSWERED

def original(line):
    """Each question's answer as it stands; ERR and PANIC without their texts."""
    told = [one.split(" ", 2) for one in line.split(" | ")]
    return {question: rest[0] if how == "OK" else how for question, how, *rest in told}


def model(track):
    """What the original must answer."""
    count, total = track.counts[:2]
    micros = track.duration * 1_000_000 % (1 << 64) // track.timescale if track.timescale else None
    millis, seconds = (None, None) if micros is None else (micros // 1000, micros // 1_000_000)
    rate = None if micros is None else total * 8 % (1 << 64) // seconds % (1 << 32) if seconds else 0
    if track.mp4a is not None:
        rate = track.mp4a[0] or 0
    width, height = track.avc1 or (track.width >> 16, track.height >> 16)
    frames = None if micros is None else float(count * 1000 // millis) if millis else 0.0
    told = {"count": count, "total": total, "micros": micros, "fps": frames, "width": width, "height": height,
            "type": KINDS.get(track.handler, "ERR"), "bitrate": rate}
    return {question: "PANIC" if answer is None else str(answer) for question, answer in told.items()}


def row(track):
    """The row of crates/summarise."""
    return track.counts[2], track.duration, track.timescale, track.width, track.height


def ours(track, line):
    """Our answers, with the line of that row."""
    told = {"count": track.counts[2], "total": track.counts[3], "type": KINDS.get(track.handler, "ERR")}
    words = line.split("\t")
    if words[0] == "refused":
        refusal = tuple(map(int, words[1:]))
        # the width and the height are tkhd's own, and a refusal of the summary is that of its duration
        return told | {"micros": refusal, "fps": refusal, "width": fractions.Fraction(track.width, 65536),
                       "height": fractions.Fraction(track.height, 65536)}
    rate, width, height = (fractions.Fraction(int(words[i]) * 65536 + int(words[i + 1]), 65536) for i in (0, 2, 4))
    return told | {"fps": rate, "width": width, "height": height, "micros": int(words[6])}


# THE DIFFERENCES

def alike(mine, theirs):
    if isinstance(mine, str):
        return mine == theirs
    return not isinstance(mine, tuple) and theirs not in ("ERR", "PANIC") and mine == fractions.Fraction(theirs)


def class_of(track, question, mine, theirs):
    """The number of a difference, or None."""
    if mine == (8, 0):
        return 7 if track.timescale == 0 and theirs == "PANIC" else None
    if mine == (9, 0):
        return 60 if track.duration * 1_000_000 >= 1 << 64 and theirs == model(track)[question] else None
    if question in ("width", "height"):
        coded = track.avc1 and track.avc1[question == "height"]
        return 8 if theirs == str(mine.numerator // mine.denominator if coded is None else coded) else None
    if question in ("count", "total", "fps"):
        return 82 if track.counts[:2] != track.counts[2:] and theirs == model(track)[question] else None
    return None


def differences(track, line, answer):
    """Each question that has another answer, and the number of its class, or the words of one that has none."""
    mine, theirs = ours(track, line), original(answer)
    for question in mine:
        if not alike(mine[question], theirs[question]):
            number = class_of(track, question, mine[question], theirs[question])
            yield question, number or "%s: %s and %s" % (question, mine[question], theirs[question])


def classes(track, line, answer):
    found = {number for _, number in differences(track, line, answer)}
    return sorted(found, key=lambda one: (isinstance(one, str), one))


# THE FIXED LIST

def told_of(track):
    """A track in the words of the list."""
    def word(part):
        if isinstance(part, tuple):
            return ":".join("absent" if n is None else str(n) for n in part)
        return "-" if part is None else str(part)
    return " ".join(map(word, track))


def track_of(line):
    """And back."""
    def part(word):
        return None if word == "-" else tuple(None if n == "absent" else int(n) for n in word.split(":"))
    words = line.split()
    return Track(part(words[0]), *map(int, words[1:5]), words[5], *map(part, words[6:]))


def stored():
    """Its tracks, the original's answers, and the numbers of the differences."""
    with open(STORED) as file:
        rows = [line.rstrip("\n").partition(" ")[2] for line in file if not line.startswith("#")]
    for line, answer, differs in zip(*(rows[i::3] for i in range(3)), strict=True):
        yield track_of(line), answer, [int(number) for number in differs.split()]


def replay(lines):
    """Compares the lines of crates/summarise for that list with the stored answers."""
    met, wrong, total = set(), 0, 0
    for (track, answer, numbers), line in zip(stored(), lines, strict=True):
        got = classes(track, line, answer)
        if got != numbers or original(answer) != model(track):
            print(f"{track}: stored {numbers}, found {got}")
            wrong += 1
        met.update(got)
        total += 1
    print(f"{total} tracks and the original's {total * len(QUESTIONS)} answers to them: differences of {len(met)} classes, "
          f"{wrong} tracks not as stored")
    return wrong == 0


def main():
    lines = pathlib.Path(sys.argv[1]).read_text().splitlines()
    sys.exit(0 if replay(lines[len(summaries.own()):]) else 1)


if __name__ == "__main__":
    main()
