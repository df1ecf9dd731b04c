#!/usr/bin/env python3
"""Compares our builder of tables with that of the original, the Rust crate mp4 0.14.0, which is built and run.

    python3 expected/oracle_builds.py ORACLE N SEED [PROGRAM]
ORACLE answers a line to each `build ..` with the original's code. N lists of samples, one behind the other, are made: first
those of expected/builds.py that lie so and are small, then others from SEED alone. The original's answer must be that of the
model in expected/rust_builds.py, and each difference from ours must be of a class there: else it ends with 1. PROGRAM is the
built crates/build_tables with the words that start it, in one argument; it must print what expected/builds.py does.
    python3 expected/oracle_builds.py --store ORACLE N SEED
stores some hundred of these lists with the original's answers in expected/builds.txt.
"""
import collections
import random
import sys

import builds
import original
import rust_builds

MOST_BYTES = 1 << 20  # of the standard input that the program reads
MOST_PLACE = 1 << 16  # the original is lent a file of zeros up to where its samples begin


def lies_behind(samples):
    return all(sum(a[:2]) == b[0] for a, b in zip(samples, samples[1:]))


def fixed():
    return [(timescale, samples) for timescale, samples in builds.FIXED
            if lies_behind(samples) and all(sum(sample[:2]) < MOST_PLACE for sample in samples)]


def some_list(rnd):
    timescale, rows = builds.some_rows(rnd, rnd.choice((4, 40, 1000)))
    return timescale, builds.behind(rnd.choice((0, 48, rnd.randrange(MOST_PLACE))) if rows else 0, *rows)


class Builds(original.Domain):
    """A case is a configuration, a timescale and samples."""
    name, crate = "lists", "build_tables"

    def ordered(self):
        return [(configuration, *one) for one in fixed() for configuration in rust_builds.CONFIGURATIONS]

    def chance(self, rnd):
        return (rnd.choice(rust_builds.CONFIGURATIONS), *some_list(rnd))

    def made(self, count, seed):
        rnd = random.Random(seed)
        found = fixed()
        while len(found) < count:
            found.append(some_list(rnd))
        return [(rnd.choice(rust_builds.CONFIGURATIONS), *one) for one in found[:count]]

    def parts(self, case):
        return [builds.list_bytes(*case[1:])]

    def second(self, part):
        (timescale, samples), = builds.lists(part)
        return builds.lines(timescale, samples)

    def run(self, program, parts):
        return original.up_to_empty(original.over_input(program, parts, MOST_BYTES))

    def commands(self, case):
        return [rust_builds.command(*case)]

    def theirs(self, oracle, answers):
        return answers[0]

    def asked(self, case, theirs):
        return rust_builds.TABLES

    def differences(self, case, ours, theirs):
        _, timescale, samples = case
        yield from rust_builds.differences(timescale, samples, ours[0], theirs)
        if rust_builds.original(theirs) != (model := rust_builds.model(timescale, samples)):
            yield "model", [f"the model has another answer: {model}"]
        if not builds.comes_back(timescale, samples, ours[0]):
            yield "samples", ["other samples come back"]


# THE FIXED LIST

HEAD = """# Lists of samples and the tables that the original, the Rust crate mp4 0.14.0, builds of them. Its supplied files were
# compiled as they are, over stand-ins that hold data only, without overflow checks. A list has the configuration, the
# timescale of the track and of the movie, where the samples begin, and of each sample the size, duration, composition
# offset and sync. `differs` has the numbers of docs/DIFFERENCES.md. Made by expected/oracle_builds.py --store ORACLE %d %d,
# which takes of its lists the smallest that show each set of classes and each form of the tables.
"""


def features(timescale, samples, numbers, told):
    """What a list shows: the stored list has some for each."""
    read = builds.Tables(told)
    yield "classes", *numbers
    yield "count", min(len(samples), 4)
    yield "timescale", timescale in (0, 1), timescale >> 31
    yield "common", read.common > 0, min(read.sizes, default=1) == 0
    yield "stts", min(len(read.stts), 4), any(value == 0 for _, value in read.stts)
    yield "ctts", None if read.ctts is None else min(len(read.ctts), 4)
    yield "negative", any(value < 0 for _, value in read.ctts or [])
    yield "stss", None if read.stss is None else (min(len(read.stss), 2), len(read.stss) == len(samples))
    if not read.refused:
        yield "chunks", min(len(read.places), 4), min(len(read.stsc), 4)
        for chunk in builds.chunks(timescale, samples):
            lasts = sum(sample[2] for sample in chunk)
            yield "closes", (lasts > timescale) - (lasts < timescale), min(len(chunk), 3)


def store(found, count, seed):
    met, kept = collections.Counter(), 0
    with open(rust_builds.STORED, "w") as file:
        file.write(HEAD % (count, seed))
        for one in sorted(found, key=lambda one: len(one.case[2])):
            numbers = sorted(one.numbers)
            shown = set(features(*one.case[1:], numbers, one.ours[0]))
            if any(met[feature] < 6 for feature in shown):
                met.update(shown)
                kept += 1
                differs = " ".join(map(str, ["differs", *numbers]))
                file.write(f"{rust_builds.command(*one.case)}\nanswer {one.theirs}\n{differs}\n")
    return kept


if __name__ == "__main__":
    sys.exit(original.main(__doc__, [Builds()], store))
