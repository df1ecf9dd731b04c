#!/usr/bin/env python3
"""Compares the getters of a track with those of the original, the Rust crate mp4 0.14.0, which is built and run.

    python3 expected/oracle_getters.py ORACLE N SEED [PROGRAM]
ORACLE answers a line to each `track ..` with the original's code. N tracks are made from SEED alone, each with a timescale, a
duration, sizes, and an avc1, an mp4a or no sample entry, sound or damaged. The original's answers must be those of the model in
expected/rust_getters.py, and each difference from ours must be of a class: else it ends with 1. PROGRAM is the built
crates/describe_tracks with the words that start it, in one argument; it must print what expected/describe.py does.
    python3 expected/oracle_getters.py --store ORACLE N SEED
stores some of these with the original's answers in expected/getters.txt.
"""
import collections
import functools
import random
import sys

import describe
import oracle_entries
import oracle_tracks
import original
import rust_entries
import rust_getters


# THE TRACKS

def damaged(rnd, content):
    """Bytes of a box's content: cut, some of them changed, or more behind them."""
    way = rnd.randrange(3)
    if way == 0:
        return content[:rnd.randrange(len(content) + 1)]
    if way == 1:
        changed = bytearray(content)
        for _ in range(rnd.randint(1, 3)):
            changed[rnd.randrange(len(changed))] = rnd.choice((0, 1, 3, 4, 5, 6, 0x7F, 0x80, 0xFF, rnd.randrange(256)))
        return bytes(changed)
    return content + rnd.randbytes(rnd.randint(1, 9))


def some_track(rnd):
    kind = rnd.choice(("avc1",) * 5 + ("mp4a",) * 8 + (None,))
    entry = b""
    if kind:
        content = oracle_entries.by_chance(kind, rnd)
        entry = oracle_entries.box(kind, damaged(rnd, content) if rnd.random() < .2 else content)
    common = rnd.choice((0, 0, 1, 0xFFFFFFFF, rnd.randrange(1 << 32)))
    sizes = [rnd.choice((0, 1, 1000, 0xFFFFFFFF, rnd.randrange(1 << 32))) for _ in range(rnd.randrange(9))]
    number = rnd.choice((0, 1, 2, 0xFFFFFFFF, rnd.randrange(1 << 32))) if common else len(sizes)
    return rust_getters.Track(kind, entry, *oracle_tracks.some_time(rnd), common, number, [] if common else sizes)


# THE ANSWERS

def answers_of(line, names):
    """None for all where it does not read the entry; `panic` where a question panics."""
    if line.startswith("PANIC"):
        return dict.fromkeys(rust_getters.ASKED)
    told = {}
    for one in line.split(" | "):
        question, how, *rest = one.split(" ", 2)
        value = rest[0] if rest else ""
        if how != "OK":
            told[question] = "panic" if how == "PANIC" else None
        elif question in ("sps", "pps"):
            told[question] = "x" + bytes(int(n) for n in value.strip("[]").split(",") if n.strip()).hex()
        elif question == "freq":
            told[question] = value.removeprefix("Freq")
        elif question in ("aot", "chan"):
            told[question] = names[question][value]
        elif question == "media":
            told[question] = rust_getters.MEDIA[value]
        else:
            told[question] = rust_entries.PROFILES[value] if question == "profile" else value
    return told


@functools.cache
def names_of(oracle):
    """The original's names of object types and channel configurations."""
    found = {}
    for question in ("aot", "chan"):
        answers = original.ask(oracle, [f"{question} {n}" for n in range(256)])
        found[question] = {answer[3:]: str(n) for n, answer in enumerate(answers) if answer.startswith("OK")}
    return found


def by_trak(lines):
    """The lines of each trak."""
    group = []
    for line in lines:
        if line.startswith("trak\t") and group:
            yield group
            group = []
        group.append(line)
    if group:
        yield group


class Getters(original.Domain):
    """A case is a track of expected/rust_getters.py."""
    name, crate = "getters", "describe_tracks"

    def chance(self, rnd):
        return some_track(rnd)

    def made(self, count, seed):
        rnd = random.Random(seed)
        return [some_track(rnd) for _ in range(count)]

    def parts(self, case):
        return [rust_getters.made_trak(case)]

    def second(self, part):
        return list(describe.lines(part))

    def run(self, program, parts):
        return by_trak(original.over_packs(program, parts))

    def commands(self, case):
        return [rust_getters.command(case)]

    def theirs(self, oracle, answers):
        return answers_of(answers[0], names_of(oracle))

    def asked(self, case, theirs):
        return rust_getters.ASKED

    def differences(self, case, ours, theirs):
        for question, numbers, text in rust_getters.differences(case, ours[0], theirs):
            yield question, numbers or [text]
        if theirs != (model := rust_getters.model(case, rust_getters.readings(case).record)):
            yield "model", [f"the model has another answer: {model}"]


# THE FIXED LIST

HEAD = """# Tracks and what the getters of the original, the Rust crate mp4 0.14.0, answer. Its supplied files were compiled as
# they are, over stand-ins that hold data only, without overflow checks. A track has its sample entry's type and bytes, the
# timescale and the duration, and of stsz the common size, the count and the sizes; a hyphen is for what is not there. The
# answers are the media, the profile, the first SPS and PPS, the object type, the frequency, the channels and the bit rate, in our
# words. `differs` has the numbers of docs/DIFFERENCES.md. Made by expected/oracle_getters.py --store ORACLE %d %d, which takes
# of its tracks some for each class and each answer.
"""


def store(found, count, seed):
    met, kept = collections.Counter(), 0
    with open(rust_getters.STORED, "w") as file:
        file.write(HEAD % (count, seed))
        for one in found:
            track, theirs, numbers = one.case, one.theirs, sorted(one.numbers)
            shown = {("class", number) for number in numbers} | {(track.kind, *numbers)[:3]}
            shown |= {(question, theirs[question]) for question in ("media", "profile", "aot", "freq", "chan")}
            if len(track.entry) < 200 and any(met[feature] < 2 for feature in shown):
                assert rust_getters.track_of(rust_getters.track_words(track)) == track
                assert rust_getters.answers_of(rust_getters.answer_words(theirs)) == theirs
                met.update(shown)
                kept += 1
                differs = " ".join(map(str, ["differs", *numbers]))
                file.write(f"track {rust_getters.track_words(track)}\nanswers {rust_getters.answer_words(theirs)}\n{differs}\n")
    return kept


if __name__ == "__main__":
    sys.exit(original.main(__doc__, [Getters()], store))
