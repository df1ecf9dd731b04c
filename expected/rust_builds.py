#!/usr/bin/env python3
"""The tables that the original, the Rust crate mp4 0.14.0, builds from samples, held against ours.

The original takes the samples one behind the other, from a place on, and hands out the tables as records: there are no
boxes to compare, so ours are read from the lines of crates/build_tables. Each table is compared by itself; where one
differs, the difference must be of a class below, which has a number in docs/DIFFERENCES.md. That it always answers with
co64 is no difference of the original: it puts the places of its chunks into stco in a file that is not supplied, whose
stand-in never does. So the places are compared, whichever box has them. It also keeps the first sample of each entry of
stsc, which no box has: that is compared with the one that our tables give.

    python3 expected/rust_builds.py STDOUT    compares the lines of crates/build_tables with the answers of the fixed list,
                                              expected/builds.txt
"""
import pathlib
import re
import sys

import builds

STORED = pathlib.Path(__file__).resolve().parent / "builds.txt"
TABLES = ("stts", "ctts", "stsc", "stsz", "places", "stss", "first samples")
CONFIGURATIONS = ("aac", "avc", "vp9", "ttxt")
MOVIE_TIMESCALE = 1000


# WHAT IS ASKED

def command(configuration, timescale, samples):
    """A line for the original; an empty list begins at 0."""
    start = samples[0][0] if samples else 0
    rows = ["%d:%d:%d:%d" % sample[1:] for sample in samples]
    return " ".join(["build", configuration, str(timescale), str(MOVIE_TIMESCALE), str(start), *rows])


def asked(line):
    """The configuration, the timescale and the samples of such a line."""
    _, configuration, timescale, _, start, *rows = line.split()
    return configuration, int(timescale), builds.behind(int(start), *(tuple(map(int, row.split(":"))) for row in rows))


# WHAT IS ANSWERED

def rows_of(text, *names):
    """The named fields of the records in a text."""
    columns = [list(map(int, re.findall(r"\b%s: (-?\d+)" % name, text))) for name in names]
    return list(zip(*columns, strict=True))


def numbers_of(text):
    return list(map(int, re.findall(r"-?\d+", text.partition("[")[2])))


def original(answer):
    """Its tables, the duration of the media and where its writer stands; None where it panics."""
    if answer.startswith("PANIC"):
        return None
    assert answer.startswith("OK "), answer
    told = dict(re.findall(r"(\S+)=(.*?)(?= \S+=|$)", answer))
    stsc = rows_of(told["stsc"], "first_chunk", "samples_per_chunk", "sample_description_index", "first_sample")
    (common, count), = rows_of(told["stsz"], "sample_size", "sample_count")
    return {
        "stts": rows_of(told["stts"], "sample_count", "sample_delta"),
        "ctts": None if told["ctts"] == "None" else rows_of(told["ctts"], "sample_count", "sample_offset"),
        "stsc": [row[:3] for row in stsc],
        "first samples": [row[3] for row in stsc],
        "stsz": (common, count, numbers_of(told["stsz"])),
        "places": numbers_of(told["co64"]),
        "stss": None if told["stss"] == "None" else numbers_of(told["stss"]),
        "duration": int(told["mdhd.duration"]),
        "end": int(told["end"]),
    }


def ours(told):
    """Our tables, from the lines of a list; a refusal in place of those that are refused."""
    read = builds.Tables(told)
    tables = {"stts": read.stts, "ctts": read.ctts, "stsz": (read.common, read.count, read.sizes), "stss": read.stss}
    if read.refused:
        return tables | dict.fromkeys(("stsc", "places", "first samples"), read.refused)
    per = read.counts()
    firsts = [1 + sum(per[:chunk - 1]) for chunk, _, _ in read.stsc]
    return tables | {"stsc": read.stsc, "places": read.places, "first samples": firsts}


# THE MODEL

def chunked(timescale, samples, in_32_bits=True, skips_empty=True):
    """The chunks as the original makes them: their places and counts, and the number of each one's first sample as it
    keeps it. Durations are added in 32 bits (71); a chunk without bytes is not made, and its samples go on to the next
    (69); the last chunk, which is made at the end, has its first sample counted one too far (111)."""
    found, place, count, lasts, size = [], 0, 0, 0, 0
    for number, (offset, length, duration, _, _) in enumerate(samples, 1):
        place = place if count else offset
        count, lasts, size = count + 1, lasts + duration, size + length
        if in_32_bits:
            lasts %= 1 << 32
        if lasts >= timescale and (size or not skips_empty):
            found.append((place, count, number - count + 1))
            count, lasts, size = 0, 0, 0
    if size or count and not skips_empty:
        found.append((place, count, len(samples) + 1 - count + 1))
    return found


def entries(found):
    """The entries of stsc for these chunks, each with its first sample."""
    rows = []
    for chunk, (_, count, first) in enumerate(found, 1):
        if not rows or rows[-1][1] != count:
            rows.append((chunk, count, 1, first))
    return rows


def model(timescale, samples):
    """What the original must answer."""
    if timescale == 0 and samples:
        return None
    sizes = [sample[1] for sample in samples]
    shifts = [sample[3] for sample in samples]
    syncs = [number for number, sample in enumerate(samples, 1) if sample[4]]
    common = sizes[0] if len(set(sizes)) == 1 else 0
    found = chunked(timescale, samples)
    rows = entries(found)
    return {
        "stts": builds.runs(sample[2] for sample in samples),
        "ctts": builds.runs(shifts) if any(shifts) else None,
        "stsc": [row[:3] for row in rows],
        "first samples": [row[3] for row in rows],
        "stsz": (common, len(sizes), [] if common else sizes),
        "places": [place for place, _, _ in found],
        "stss": syncs or None,
        "duration": sum(sample[2] for sample in samples),
        "end": sum(samples[-1][:2]) if samples else 0,
    }


# THE DIFFERENCES

def chunk_classes(timescale, samples):
    """Why the chunks differ: each of the original's ways that changes its chunks when it is taken away, or the right ones
    when it alone is taken."""
    def told(*ways):
        return [row[:2] for row in chunked(timescale, samples, "in_32_bits" in ways, "skips_empty" in ways)]
    both = {"skips_empty": 69, "in_32_bits": 71}
    return [both[way] for way in both if told(way) != told() or told(*both.keys() - {way}) != told(*both)]


def differences(timescale, samples, told, answer):
    """Each table that differs, and the numbers of its classes, or the words of one that has none."""
    mine, theirs = ours(told), original(answer)
    if theirs is None:
        for table in TABLES:
            yield table, [70 if timescale == 0 and samples else "it panics"]
        return
    by_chunks = chunk_classes(timescale, samples)
    right = chunked(timescale, samples, False, False)
    if timescale and (mine["places"], mine["stsc"]) != ([row[0] for row in right], [row[:3] for row in entries(right)]):
        yield "stsc", ["ours are not the chunks of the original without its ways: %s and %s" % (mine, right)]
    for table in TABLES:
        if mine[table] == theirs[table]:
            continue
        numbers = []
        if table == "stss" and theirs["stss"] is None and mine["stss"] == []:
            numbers = [68]
        elif mine[table] == (8, 0) and timescale == 0 and not samples and theirs[table] == []:
            numbers = [110]
        elif table in ("stsc", "places"):
            numbers = by_chunks
        elif table == "first samples":
            past = any(first + count > len(samples) + 1 for _, count, _, first in entries(chunked(timescale, samples)))
            numbers = by_chunks + [111] * past
        yield table, numbers or ["%s: %s and %s" % (table, mine[table], theirs[table])]


def classes(timescale, samples, told, answer):
    found = {number for _, numbers in differences(timescale, samples, told, answer) for number in numbers}
    return sorted(found, key=lambda one: (isinstance(one, str), one))


# THE FIXED LIST

def stored():
    """Its configuration, timescale and samples, the original's answer, and the numbers of the differences."""
    with open(STORED) as file:
        rows = [line.rstrip("\n") for line in file if not line.startswith("#")]
    for line, answer, differs in zip(*(rows[i::3] for i in range(3)), strict=True):
        yield *asked(line), answer.partition(" ")[2], [int(number) for number in differs.split()[1:]]


def replay(told):
    """Compares the lines of crates/build_tables for that list with the stored answers."""
    met, wrong, total = set(), 0, 0
    for (_, timescale, samples, answer, numbers), mine in zip(stored(), told, strict=True):
        got = classes(timescale, samples, mine, answer)
        if got != numbers or original(answer) != model(timescale, samples):
            print(f"{timescale} {samples}: stored {numbers}, found {got}")
            wrong += 1
        met.update(got)
        total += 1
    print(f"{total} lists of samples and the tables that the original builds of them: differences of {len(met)} classes, "
          f"{wrong} lists not as stored")
    return wrong == 0


def lists_of(lines):
    """The lines of each list."""
    found = [[]]
    for line in lines:
        found[-1].append(line)
        if not line:
            found.append([])
    return found[:-1]


def main():
    told = lists_of(pathlib.Path(sys.argv[1]).read_text().splitlines())
    sys.exit(0 if replay(told[len(builds.own()):]) else 1)


if __name__ == "__main__":
    main()
