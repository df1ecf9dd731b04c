#!/usr/bin/env python3
"""The sample lookup of the original, the Rust crate mp4 0.14.0, held against our samples: every number of each sample.

The original is asked for the offset, size, time, composition offset and sync of each sample, of sample 0 and of three
that lie past the end, and for the count and the total of bytes. Ours are the lines of crates/list_samples for the same
stbl: the samples of a lane, each the same by lookup, and lookups of the others. Where a sample is not there, they agree if the original says so too. Where they differ, each single difference must
be of a class below, which has a number in docs/DIFFERENCES.md.

    python3 expected/rust_tables.py --pack PACK    writes the stbl boxes of the fixed list, expected/tables.txt
    python3 expected/rust_tables.py STDOUT         compares the lines of crates/list_samples with the list's answers
"""
import pathlib
import sys

import boxes
import tables

STORED = pathlib.Path(__file__).resolve().parent / "tables.txt"
QUESTIONS = ("offset", "size", "time", "cto", "sync")


# WHAT IS ASKED

def counts(found):
    """How many samples each question's table has."""
    placed = sum(per for per, _ in zip(tables.per_chunk(found), found.chunks))
    return {"size": found.count, "time": sum(n for n, _ in found.stts), "offset": placed}


MOST = 64  # samples that are asked for one by one


def numbers_asked(found):
    """All of them, 0 and some past the end; of tables that count more also those around their ends."""
    each = [min(count, MOST) for count in counts(found).values()]
    around = [count + i for count in counts(found).values() for i in (-1, 0, 1) if MOST < count + i < 1 << 32]
    return sorted({*range(max(each) + 3), *around, tables.FAR})


def is_asked(found):
    """Whether the original can be asked about these tables: its reader, which is not supplied, must have a first sample for each
    entry of stsc, and it adds up the sizes before a sample in its chunk one by one."""
    return (tables.count(found) <= MOST and all(per <= 1 << 16 for _, per, _ in found.stsc)
            and all(first < 1 << 32 for first in first_samples(found)))


def first_samples(found):
    """The number of the first sample of each entry of stsc: the original's own reader, which is not supplied, works it
    out."""
    first, firsts = 1, []
    for i, (chunk, per, _) in enumerate(found.stsc):
        firsts.append(first)
        if i + 1 < len(found.stsc):
            first += (found.stsc[i + 1][0] - chunk) * per
    return firsts


def command(found):
    """A line for the original: the tables and the questions."""
    def listed(rows, form):
        return ",".join(form % row for row in rows)
    words = ["track", "stts=" + listed(found.stts, "%dx%d")]
    if found.ctts is not None:
        words.append("ctts=" + listed(found.ctts, "%dx%d"))
    words.append("stsc=" + listed([(chunk, per, first) for (chunk, per, _), first in zip(found.stsc, first_samples(found))], "%d:%d:%d"))
    words.append(("co64=" if found.wide else "stco=") + ",".join(map(str, found.chunks)))
    words.append("stsz=%d:%d:" % (found.common, found.count) + ",".join(map(str, found.sizes)))
    if found.stss is not None:
        words.append("stss=" + ",".join(map(str, found.stss)))
    asked = ["%s:%d" % (question, number) for number in numbers_asked(found) for question in QUESTIONS]
    return " ".join(words + ["q=" + ",".join(asked + ["count", "total"])])


# WHAT IS ANSWERED

def rust_answers(line):
    """For each question the original's answer: a number, a pair, a truth, or a word that tells that there is none."""
    answers = {}
    for one in line.split(" | "):
        question, how, *rest = one.split(" ", 2)
        if how == "OK":
            answers[question] = {"true": True, "false": False}.get(rest[0]) if rest[0] in ("true", "false") else (
                tuple(map(int, rest[0][1:-1].split(", "))) if rest[0][0] == "(" else int(rest[0]))
        else:
            answers[question] = how
    return answers


def tracks(lines):
    """Our answer to each stbl: its lines, up to the empty one."""
    track = []
    for line in lines:
        track.append(line)
        if not line:
            yield track
            track = []


class Ours:
    """Our samples by their numbers; `over` has those that do not fit, and whether each is sync; there is no other."""

    def __init__(self, track):
        head, *rows = [line.split("\t") for line in track[:-1]]
        assert head[0] == "track", track
        self.count, self.total = int(head[1]), int(head[2])
        self.samples, self.over = {}, {}
        for row in rows:
            if row[-1] == "same":
                self.samples[int(row[0])] = list(map(int, row[1:-1]))
            elif row[0] == "sample" and row[2] != "refused":
                self.samples[int(row[1])] = list(map(int, row[2:]))
            elif row[0] == "sample" and row[2:4] == ["refused", "9"]:
                self.over[int(row[1])] = row[-1] == "1"
            elif row[0] == "sample":
                assert row[2:] == ["refused", "11", row[1]] * 2 and not 0 < int(row[1]) <= self.count, track
            else:
                assert row in (["end"], ["refused", "9", "0"]), track
        assert {*self.samples, *self.over} == {*range(1, self.count + 1)}, track

    def answers(self, number):
        """Our answers to the questions about a sample."""
        row = self.samples.get(number)
        return None if row is None else dict(zip(QUESTIONS, (row[0], row[1], (row[2], row[3]), row[4], bool(row[5]))))


# THE DIFFERENCES

def before(found):
    """For each sample that is there its chunk's place and the bytes before it in the chunk."""
    sizes = [found.common] * tables.count(found) if found.common else found.sizes
    number, told = 0, {}
    for per, at in zip(tables.per_chunk(found), found.chunks):
        within = 0
        for size in sizes[number:number + per]:
            number += 1
            told[number] = at, within
            within += size
    return told


def added_in_32_bits(found, number):
    """Where the original has a sample: the sizes before it in its chunk are added in 32 bits (9), and those to the
    chunk's place in 64 (56)."""
    at, within = before(found)[number]
    return (at + within % (1 << 32)) % (1 << 64)


def passes_32_bits(found, question, number):
    """Whether the counts up to the entry of a sample, and 1 before them, have no 32 bits (58)."""
    total = 1
    for count, _ in {"time": found.stts, "cto": found.ctts or []}.get(question, []):
        total += count
        if total >> 32 or number < total:
            return total >> 32 > 0
    return False


def of_sample(found, ours, number, theirs):
    """The differences at one sample: the question, and a number of a class or the words of one that has none."""
    mine = ours.answers(number)
    for question in QUESTIONS:
        told = theirs["%s:%d" % (question, number)]
        answered = told not in ("ERR", "PANIC")
        past = passes_32_bits(found, question, number) and told == {"time": "ERR", "cto": 0}[question]
        if mine is not None:
            if told != mine[question]:
                in_32_bits = question == "offset" and before(found)[number][1] >= 1 << 32 and told == added_in_32_bits(found, number)
                words = "%s of sample %d: %s and %s" % (question, number, mine[question], told)
                yield question, 58 if past else 9 if in_32_bits else words
        elif number in ours.over and (question != "sync" or told != ours.over[number]):
            fits = answered and (question != "offset" or told == added_in_32_bits(found, number))
            yield question, 56 if fits else 58 if past else "%s of sample %d, which does not fit: %s" % (question, number, told)
        elif number not in ours.over and told != "ERR":  # it is not there
            if number == 0:
                yield question, 5
            elif answered and number <= counts(found).get(question, 0):
                yield question, 82
            elif answered and question in ("cto", "sync"):
                yield question, 81
            elif answered and question in ("size", "offset") and found.common:
                yield question, 4
            else:
                yield question, "%s of sample %d, which is not there: %s" % (question, number, told)


def differences(data, track, line):
    """Every difference: the question, whether the sample is there, and its class."""
    found, ours, theirs = tables.tables(data), Ours(track), rust_answers(line)
    for number in numbers_asked(found):
        for question, of_class in of_sample(found, ours, number, theirs):
            yield question, 0 < number <= ours.count, of_class
    for question, mine in (("count", ours.count), ("total", ours.total)):
        if theirs[question] != mine:
            yield question, True, 82 if ours.count < found.count else "%s: %d and %s" % (question, mine, theirs[question])


def classes(data, track, line):
    return sorted({of_class for _, _, of_class in differences(data, track, line)}, key=lambda one: (isinstance(one, str), one))


# THE FIXED LIST

def stored():
    """Its stbl boxes, the original's answers, and the numbers of the differences."""
    with open(STORED) as file:
        lines = [line.rstrip("\n").partition(" ")[2] for line in file if not line.startswith("#")]
    for digits, answer, differs in zip(*(lines[i::3] for i in range(3))):
        yield bytes.fromhex(digits), answer, [int(number) for number in differs.split()]


def replay(lines):
    """Compares the lines of crates/list_samples for that list with the stored answers."""
    asked = wrong = 0
    met = set()
    for (data, answer, numbers), track in zip(stored(), tracks(lines)):
        got = classes(data, track, answer)
        if got != numbers:
            print(f"{data.hex()}: stored {numbers}, found {got}")
            wrong += 1
        asked += answer.count(" | ") + 1
        met.update(got)
    total = sum(1 for _ in stored())
    print(f"{total} sample tables and {asked} stored answers of the original: differences of {len(met)} classes, {wrong} "
          "tables not as stored")
    return wrong == 0


def main():
    if sys.argv[1] == "--pack":
        pathlib.Path(sys.argv[2]).write_bytes(boxes.pack_of(data for data, *_ in stored()))
        return
    lines = pathlib.Path(sys.argv[1]).read_text().splitlines()
    sys.exit(0 if replay(lines[lines.index("oracle.pack") + 1:]) else 1)


if __name__ == "__main__":
    main()
