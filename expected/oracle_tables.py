#!/usr/bin/env python3
"""Compares our sample tables with those of the original, the Rust crate mp4 0.14.0, which is built and run.

    python3 expected/oracle_tables.py ORACLE N SEED [PROGRAM]
ORACLE answers a line to each `track ..` with the original's code. PROGRAM is the built crates/list_samples with the words
that start it, in one argument; without it expected/tables.py answers alone, and with it both answer and must agree. N
sound stbl boxes are made from SEED alone, and N / 4 whose tables disagree on the count. It ends with 1 where a difference is of no class of expected/rust_tables.py.
    python3 expected/oracle_tables.py --broken N SEED PROGRAM
compares the program with expected/tables.py on N broken ones, which the original is not asked about.
    python3 expected/oracle_tables.py --store ORACLE N SEED
stores some of these with the original's answers in expected/tables.txt.
"""
import collections
import random
import re
import sys

import boxes
import original
import rust_tables
import tables


def asked_of(question, there):
    return f"{question} of a sample that is {'there' if there else 'not there'}"


class Samples(original.Domain):
    """A case is an stbl that both can be asked about."""
    crate = "list_samples"

    def parts(self, case):
        return [case]

    def second(self, part):
        return list(tables.lines(part))

    def run(self, program, parts):
        return original.up_to_empty(original.over_packs(program, parts))

    def commands(self, case):
        return [rust_tables.command(tables.tables(case))]

    def theirs(self, oracle, answers):
        """Without the texts of its errors."""
        return re.sub(r" (ERR|PANIC) [^|]*?(?= \||$)", r" \1", answers[0])

    def asked(self, case, theirs):
        found = tables.tables(case)
        for number in rust_tables.numbers_asked(found):
            for question in rust_tables.QUESTIONS:
                yield asked_of(question, 0 < number <= tables.count(found))
        yield from ("count", "total")

    def differences(self, case, ours, theirs):
        for question, there, number in rust_tables.differences(case, ours[0], theirs):
            yield question if question in ("count", "total") else asked_of(question, there), [number]


class Tables(Samples):
    """Sound ones, and some whose tables disagree on the count."""
    name = "tables"

    def chance(self, rnd):
        return (tables.uneven if rnd.randrange(5) == 0 else tables.sound)(rnd)

    def made(self, count, seed):
        """So many sound ones, and a quarter of that whose tables disagree on the count."""
        rnd = random.Random(seed)
        return [make(rnd) for make in [tables.sound] * count + [tables.uneven] * (count // 4)]


class Broken(Samples):
    """Tables that disagree in other ways, or whose numbers were changed."""
    name = "broken tables"

    def chance(self, rnd):
        while True:
            data = tables.broken(rnd)
            try:
                if rust_tables.is_asked(tables.tables(data)):
                    return data
            except boxes.Refused:
                continue


# THE FIXED LIST

def features(one, numbers):
    """What a table shows: the list has some tables for each."""
    found = tables.tables(one)
    yield "classes", *numbers
    yield "chunks", found.wide, max(found.chunks, default=0) >= 1 << 32
    yield "common", found.common > 0
    yield "ctts", None if found.ctts is None else (sum(n for n, _ in found.ctts) > found.count) - (sum(n for n, _ in found.ctts) < found.count)
    yield "negative", any(shift < 0 for _, shift in found.ctts or [])
    yield "stss", None if found.stss is None else min(len(found.stss), 2)
    yield "runs of none", any(n == 0 for n, _ in found.stts), any(n == 0 for n, _ in found.ctts or [])
    yield "entries", min(len(found.stsc), 3), min(len(found.stts), 3)
    yield "count", min(found.count, 3)
    yield "uneven", len(set(rust_tables.counts(found).values())) > 1


def chosen(found):
    met, keep = collections.Counter(), []
    for one in sorted(found, key=lambda one: len(one.case)):
        has = set(features(one.case, sorted(one.numbers)))
        if any(met[feature] < 2 for feature in has):
            met.update(has)
            keep.append(one)
    return keep


HEAD = """# Sample tables (stbl boxes) and what the original, the Rust crate mp4 0.14.0, answers to questions about their samples
# (offset, size, time, cto: composition offset, sync), about sample 0 and three past the end, and for count and total. Its
# supplied files were compiled as they are, over stand-ins that hold data only, without overflow checks. `differs` has the
# numbers of docs/DIFFERENCES.md. Made by expected/oracle_tables.py --store ORACLE %d %d, which takes of its tables
# the smallest that show each set of classes and each form of the tables.
"""


def store(found, count, seed):
    keep = chosen(found)
    with open(rust_tables.STORED, "w") as file:
        file.write(HEAD % (count, seed))
        for one in keep:
            file.write(f"stbl {one.case.hex()}\nanswers {one.theirs}\ndiffers {' '.join(map(str, sorted(one.numbers)))}\n")
    return len(keep)


def broken(count, seed, program):
    """Whether the program and expected/tables.py say the same of so many broken ones."""
    rnd = random.Random(seed)
    parts = [tables.broken(rnd) for _ in range(count)]
    ours = [[list(tables.lines(part))] for part in parts]
    faults = [text for some in original.program_faults(Tables(), program, [[part] for part in parts], ours) for text in some]
    refused = sum(not lines[0].startswith("track") for lines, in ours)
    print(*faults[:10], f"{count} broken tables, {refused} of them refused; the program and expected/tables.py differ at {len(faults)}", sep="\n")
    return 1 if faults else 0


if __name__ == "__main__":
    if sys.argv[1:2] == ["--broken"]:
        sys.exit(broken(int(sys.argv[2]), int(sys.argv[3]), sys.argv[4]))
    sys.exit(original.main(__doc__, [Tables()], store))
