#!/usr/bin/env python3
"""Compares what is told of a track as a whole with the original, the Rust crate mp4 0.14.0, which is built and run.

    python3 expected/oracle_tracks.py ORACLE N SEED [PROGRAM]
ORACLE answers a line to each `track ..` with the original's code. N tracks are made from SEED alone: the tables of
expected/tables.py, of which a fifth disagree on the count, a timescale, a duration, a raw width and height, a handler, and an
avc1, an mp4a or neither. The original's answer must be that of the model in expected/rust_tracks.py, and each difference from
ours must be of a class there: else it ends with 1. PROGRAM is the built crates/summarise with the words that start it, in
one argument; it must print what expected/summaries.py does.
    python3 expected/oracle_tracks.py --store ORACLE N SEED
stores some of these with the original's answers in expected/tracks.txt.
"""
import collections
import random
import sys

import oracle_entries
import original
import rust_tracks
import summaries
import tables
from oracle_entries import box

MOST_BYTES = 2000 * summaries.ROW  # of one standard input of the program


def entry(rnd):
    """A word of a sample entry for the original, and what it tells."""
    way = rnd.randrange(5)
    if way == 0:
        width, height = (rnd.choice((0, 4, 1920, 0xFFFF, rnd.randrange(1 << 16))) for _ in range(2))
        content = oracle_entries.visual(box("avcC", oracle_entries.avcc()), width=width, height=height)
        return ["avc1=" + box("avc1", content).hex()], (width, height), None
    if way == 1:
        rate = rnd.choice((0, 1, 128000, 0xFFFFFFFF, rnd.randrange(1 << 32)))
        inside = oracle_entries.desc(4, oracle_entries.decoder(mean=rate))
        content = oracle_entries.sound(box("esds", oracle_entries.esds(oracle_entries.es(inside=inside))))
        return ["mp4a=" + box("mp4a", content).hex()], None, (rate,)
    if way == 2:
        return ["mp4a=" + box("mp4a", oracle_entries.sound(b"")).hex()], None, (None,)
    return [], None, None


def some_time(rnd):
    """A timescale and a duration: as a recorder has them, at the ends of what fits, or any."""
    timescale = rnd.choice((1, 600, 1000, 48000, 90000, 1_000_000, summaries.LAST32, rnd.randrange(1 << 32),
                            summaries.some(rnd, 32), rnd.choice((0, 1, 1000))))
    duration = rnd.choice((0, timescale // 1000, max(timescale // 1000 - 1, 0), timescale * rnd.randrange(1, 7200), timescale,
                           timescale * 2 - 1 if timescale else 0, summaries.LONGEST, summaries.LONGEST + 1, summaries.LAST64,
                           summaries.some(rnd, 32), summaries.some(rnd, 48), summaries.some(rnd, 64)))
    return timescale, duration


def some_size(rnd):
    """Raw: whole numbers for the most part."""
    return rnd.choice((0, 320 << 16, 1080 << 16, rnd.randrange(1 << 16) << 16, rnd.randrange(1 << 16) << 16, 0x28000, 0xFFFF,
                       summaries.LAST32, summaries.some(rnd, 32)))


def some_track(rnd, make):
    """A command and the track that it tells of; its tables are made so."""
    told = tables.tables(make(rnd))
    word, avc1, mp4a = entry(rnd)
    handler = rnd.choice(("vide", "soun", "sbtl", "vide", "soun", rnd.choice(("hint", "text", "VIDE", "meta", "subt"))))
    track = rust_tracks.Track(rust_tracks.counts(told), *some_time(rnd), some_size(rnd), some_size(rnd), handler, avc1, mp4a)
    return rust_tracks.command(told, track, word), track


class Tracks(original.Domain):
    """A case is a command and the track that it tells of."""
    name, crate = "tracks", "summarise"

    def chance(self, rnd):
        return some_track(rnd, tables.uneven if rnd.randrange(5) == 0 else tables.sound)

    def made(self, count, seed):
        rnd = random.Random(seed)
        return [some_track(rnd, tables.uneven if i % 5 == 0 else tables.sound) for i in range(count)]

    def parts(self, case):
        return [summaries.row_bytes([rust_tracks.row(case[1])])]

    def second(self, part):
        return list(summaries.lines(part))

    def run(self, program, parts):
        return ([line] for line in original.over_input(program, parts, MOST_BYTES))

    def commands(self, case):
        return [case[0]]

    def theirs(self, oracle, answers):
        return answers[0]

    def asked(self, case, theirs):
        return [question for question in rust_tracks.QUESTIONS if question != "bitrate"]

    def differences(self, case, ours, theirs):
        for question, number in rust_tracks.differences(case[1], ours[0][0], theirs):
            yield question, [number]
        if rust_tracks.original(theirs) != (model := rust_tracks.model(case[1])):
            yield "model", [f"the model has another answer: {model}"]


# THE FIXED LIST

HEAD = """# Tracks and what the original, the Rust crate mp4 0.14.0, tells of each as a whole. Its supplied files were compiled
# as they are, over stand-ins that hold data only, without overflow checks. A track has the count of its stsz and the bytes
# of those, the count that all tables have and their bytes; the timescale and the duration; the raw width and height; the
# handler; the width and height of an avc1; the mean rate of an mp4a's esds, or `absent`. A hyphen is for an entry that is
# none such. `differs` has the numbers of docs/DIFFERENCES.md. Made by expected/oracle_tracks.py --store ORACLE %d %d, which
# takes of its tracks some for each set of classes and each form.
"""


def features(track, numbers):
    """What a track shows: the stored list has some for each."""
    yield "classes", *numbers
    yield "entry", track.avc1 is None, track.mp4a is None or track.mp4a[0] is None
    yield "handler", track.handler
    yield "count", min(track.counts[0], 3)
    if track.timescale:
        micros = track.duration * 1_000_000 // track.timescale
        yield "duration", min(micros, 1), min(micros // 1000, 1), min(micros // 1_000_000, 1), micros >> 44 > 0
    yield "timescale", min(track.timescale, 2), track.timescale >> 31
    yield "size", track.width % 65536 == 0, track.width >> 31, track.height % 65536 == 0


def store(found, count, seed):
    met, kept = collections.Counter(), 0
    with open(rust_tracks.STORED, "w") as file:
        file.write(HEAD % (count, seed))
        for one in found:
            track, numbers = one.case[1], sorted(one.numbers)
            shown = set(features(track, numbers))
            if any(met[feature] < 10 for feature in shown):
                assert rust_tracks.track_of(rust_tracks.told_of(track)) == track
                met.update(shown)
                kept += 1
                answer = " | ".join(f"{question} OK {told}" if told not in ("ERR", "PANIC") else f"{question} {told}"
                                    for question, told in rust_tracks.original(one.theirs).items())
                differs = " ".join(map(str, ["differs", *numbers]))
                file.write(f"track {rust_tracks.told_of(track)}\nanswers {answer}\n{differs}\n")
    return kept


if __name__ == "__main__":
    sys.exit(original.main(__doc__, [Tracks()], store))
