#!/usr/bin/env python3
"""Prints what crates/build_tables must print for lists of samples: a second builder of tables, to hold the proved one
against. It also makes such lists: fixed ones, and others by chance.

Written from document 01 (Writer), ISO/IEC 14496-12 (8.6.1, 8.6.2, 8.7.3 to 8.7.5) and readings A56 to A60. A list is the
timescale and the count, then for each sample its offset, size, duration, composition offset and whether it is sync. What
was built is read again by a small reader of its own, and must be the samples of the list.
    python3 expected/builds.py <LISTS          prints the lines
    python3 expected/builds.py --lists >LISTS  makes the lists of crates/build_tables/stdin, with those of
                                               expected/builds.txt behind its own, and one that is cut
"""
import random
import sys

MOST = 64  # samples of a list
WIDTHS = (8, 4, 4, 4, 4)  # offset, size, duration, composition offset, sync
LAST32 = (1 << 32) - 1
LOWEST, HIGHEST = -(1 << 31), (1 << 31) - 1


# THE TABLES

def runs(values):
    """Counts and values, merged to the fewest."""
    found = []
    for value in values:
        if found and found[-1][1] == value:
            found[-1][0] += 1
        else:
            found.append([1, value])
    return [tuple(run) for run in found]


def chunks(timescale, samples):
    """The samples of each chunk: it closes behind the sample with which its durations reach one timescale (A59), and
    before one that does not lie behind the sample before it, since a table has no other place for that."""
    found, lasts = [], 0
    for sample in samples:
        offset, _, duration = sample[:3]
        if not found or lasts >= timescale or offset != sum(found[-1][-1][:2]):
            found.append([])
            lasts = 0
        found[-1].append(sample)
        lasts += duration
    return found


def per_chunk(counts):
    """An entry where the number of samples changes: the chunk, that number, the description."""
    found = []
    for chunk, count in enumerate(counts, 1):
        if not found or found[-1][1] != count:
            found.append((chunk, count, 1))
    return found


# THE BOXES

def u(width, value):
    return (value % (1 << 8 * width)).to_bytes(width, "big")


def box(kind, *fields):
    """A full box of version 0 without flags."""
    content = u(4, 0) + b"".join(fields)
    return u(4, len(content) + 8) + kind.encode() + content


def table(kind, rows, width=4):
    return box(kind, u(4, len(rows)), *(u(width, value) for row in rows for value in row))


def built(timescale, samples):
    """Each table's name and its box; None where it is absent, a refusal's number and detail where there is none."""
    sizes = [size for _, size, _, _, _ in samples]
    shifts = [shift for _, _, _, shift, _ in samples]
    syncs = [number for number, sample in enumerate(samples, 1) if sample[4]]
    yield "stts", table("stts", runs(duration for _, _, duration, _, _ in samples))
    yield "ctts", table("ctts", runs(shifts)) if any(shifts) else None  # A57
    found = chunks(timescale, samples)
    yield "stsc", table("stsc", per_chunk(map(len, found))) if timescale else (8, 0)  # A59
    common = sizes[0] if len(set(sizes)) == 1 else 0  # A58: a size of 0 is listed
    yield "stsz", box("stsz", u(4, common), u(4, len(sizes)), *(u(4, size) for size in sizes if not common))
    places = [(chunk[0][0],) for chunk in found]
    if not timescale:
        yield "stco", (8, 0)
    elif all(place <= LAST32 for place, in places):
        yield "stco", table("stco", places)
    else:
        yield "co64", table("co64", places, 8)
    yield "stss", table("stss", [(number,) for number in syncs]) if samples else None  # A56


def line(name, made):
    if made is None:
        return f"{name}\tabsent"
    if isinstance(made, tuple):
        return f"{name}\trefused\t{made[0]}\t{made[1]}"
    return f"{name}\t{made.hex()}"


def whole(timescale, tables):
    """The stbl of these tables, its stsd without an entry; a timescale of 0 goes before all."""
    if not timescale:
        return 8, 0
    inside = [table("stsd", []), *(made for _, made in tables if made)]
    return u(4, 8 + sum(map(len, inside))) + b"stbl" + b"".join(inside)


def lines(timescale, samples):
    tables = list(built(timescale, samples))
    return [*(line(name, made) for name, made in [*tables, ("stbl", whole(timescale, tables))]), ""]


# THE TABLES READ BACK

class Tables:
    """The tables of the lines of a list: None where there is none."""

    def __init__(self, told):
        self.refused, self.stss, self.ctts, self.wide = None, None, None, False
        for one in told[:-1]:
            name, word, *rest = one.split("\t")
            if name == "stbl":  # its tables are told before it
                continue
            if word == "refused":
                self.refused = tuple(map(int, rest))
            elif word != "absent":
                self.take(name, bytes.fromhex(word))

    def take(self, name, data):
        assert data[:12] == u(4, len(data)) + name.encode() + u(4, 0), data.hex()
        words = [int.from_bytes(data[at:at + 4], "big") for at in range(12, len(data), 4)]
        columns = {"stts": 2, "ctts": 2, "stsc": 3, "co64": 2}.get(name, 1)
        if name == "stsz":
            self.common, self.count, *self.sizes = words
            assert len(self.sizes) == (0 if self.common else self.count), data.hex()
            return
        count, *rest = words
        rows = [tuple(rest[i:i + columns]) for i in range(0, len(rest), columns)]
        assert len(rows) == count and len(rest) == count * columns, data.hex()
        if name == "ctts":
            rows = [(n, shift - (1 << 32) if shift > HIGHEST else shift) for n, shift in rows]
        if name == "co64":
            rows = [(high << 32 | low,) for high, low in rows]
        if name in ("stco", "co64"):
            self.places, self.wide = [place for place, in rows], name == "co64"
        else:
            setattr(self, name, [number for number, in rows] if name == "stss" else rows)

    def counts(self):
        """How many samples each chunk has."""
        told, per = [], {chunk: count for chunk, count, _ in self.stsc}
        for chunk in range(1, len(self.places) + 1):
            told.append(per.get(chunk, told[-1] if told else None))
        return told

    def samples(self):
        sizes = [self.common] * self.count if self.common else self.sizes
        durations = [value for count, value in self.stts for _ in range(count)]
        shifts = [0] * self.count if self.ctts is None else [value for count, value in self.ctts for _ in range(count)]
        found = []
        for place, count in zip(self.places, self.counts()):
            for _ in range(count):
                i = len(found)
                found.append((place, sizes[i], durations[i], shifts[i], int(self.stss is None or i + 1 in self.stss)))
                place += sizes[i]
        assert len(found) == self.count == len(durations) == len(shifts), self.__dict__
        return found


def comes_back(timescale, samples, told):
    """Whether the tables of these lines have the samples of the list, and are as short as can be."""
    read = Tables(told)
    if read.refused:
        return timescale == 0 and read.refused == (8, 0)
    for rows in (read.stts, read.ctts or []):
        if any(a[1] == b[1] for a, b in zip(rows, rows[1:])):
            return False
    wide = any(place > LAST32 for place in read.places)
    return read.samples() == samples and read.wide == wide and (read.ctts is None or any(shift for _, shift in read.ctts))


# THE LISTS

def behind(start, *rows):
    """Samples one behind the other: size and duration, and where they are not 0 and 1 the composition offset and sync."""
    samples = []
    for row in rows:
        samples.append((start, *row, *(0, 1)[len(row) - 2:]))
        start += row[0]
    return samples


FIXED = [
    (1000, []),  # no sample
    (0, []),  # and no timescale
    (1000, behind(48, (10, 1000))),  # one, which fills its chunk
    (1000, behind(48, (10, 999))),
    (1000, behind(48, (0, 1000))),  # no bytes
    (1000, behind(48, (0, 0, 0, 0))),
    (1000, behind(48, (10, 1000, 0, 0))),  # not sync
    (1000, behind(48, (10, 100), (10, 100), (10, 100))),  # a common size
    (1000, behind(48, (10, 100), (10, 100), (11, 100))),
    (1000, behind(48, (10, 100), (0, 100), (10, 100))),
    (1000, behind(48, (0, 1000), (0, 1000), (0, 1000))),
    (1000, behind(48, (0, 1000), (1, 1000), (0, 1000))),
    (1000, behind(48, (10, 100, 0, 1), (20, 100, 0, 1), (30, 100, 0, 1))),  # all sync
    (1000, behind(48, (10, 100, 0, 0), (20, 100, 0, 0), (30, 100, 0, 0))),  # none
    (1000, behind(48, (10, 100, 0, 1), (20, 100, 0, 0), (30, 100, 0, 1))),
    (1000, behind(48, (10, 100, 0, 0), (20, 100, 0, 1), (30, 100, 0, 0))),
    (1000, behind(48, (10, 500), (20, 500), (30, 500), (40, 499), (50, 1), (60, 1))),  # chunks that close exactly
    (1000, behind(48, (10, 500), (20, 501), (30, 500), (40, 498), (50, 1), (60, 1))),  # past it, and below it
    (1000, behind(48, (10, 1000), (20, 1000), (30, 500), (40, 500), (50, 1000))),
    (1000, behind(48, (10, 0), (20, 0), (30, 0))),  # durations of 0
    (1, behind(48, (10, 0), (20, 1), (30, 0), (40, 1))),
    (0, behind(48, (10, 0))),  # timescale 0
    (0, behind(48, (10, 0), (20, 1))),
    (0, [(1 << 32, 1, 1, 1, 0)]),
    (1000, [(48, 10, 100, 0, 1), (60, 20, 100, 0, 1), (80, 30, 100, 0, 1)]),  # a hole
    (1000, [(48, 10, 100, 0, 1), (57, 20, 100, 0, 1), (77, 30, 100, 0, 1)]),  # an overlap
    (1000, [(80, 10, 100, 0, 1), (48, 20, 100, 0, 1), (48, 20, 100, 0, 1)]),  # backwards, and twice in one place
    (1000, [(48, 0, 100, 0, 1), (48, 20, 100, 0, 1), (68, 0, 100, 0, 1)]),
    (1000, [(LAST32, 10, 1000, 0, 1)]),  # the last place of 32 bits, and the next
    (1000, [(LAST32 + 1, 10, 1000, 0, 1)]),
    (1000, behind(LAST32 - 9, (10, 100), (10, 100), (10, 100))),  # in one chunk, whose place fits
    (1000, behind(LAST32 - 9, (10, 1000), (10, 1000), (10, 1000))),
    (1000, [((1 << 64) - 1, LAST32, 1000, 0, 1), (0, 1, 1, 0, 1), (LAST32 - 1, 1, 1, 0, 1)]),  # an end past 64 bits
    (1000, [((1 << 64) - 10, 10, 100, 0, 1), (0, 1, 1, 0, 1)]),
    (1000, behind(48, (LAST32, 100), (LAST32, 100), (1, 100))),  # sizes whose sum has no 32 bits
    (1000, behind(48, (10, 100, 5), (10, 100, -5), (10, 100, 0))),
    (1000, behind(48, (10, 100, 0), (10, 100, 0), (10, 100, -1), (10, 100, -1))),
    (1000, behind(48, (10, 100, LOWEST), (10, 100, HIGHEST))),
    (1000, behind(48, (10, 100, 7), (10, 100, 7), (10, 100, 7))),
    (LAST32, behind(48, (10, LAST32 - 1), (10, 2))),  # durations whose sum has no 32 bits
    (LAST32, behind(48, (10, LAST32 - 1), (10, 2), (10, 1))),
    (LAST32, behind(48, (10, LAST32 - 1), (10, 2), (10, LAST32), (10, LAST32))),
    (LAST32, behind(48, (10, LAST32), (10, LAST32))),
    (LAST32, behind(48, *((10, LAST32 - 1 if i % 2 else LAST32) for i in range(MOST)))),
    (3, behind(48, (5, 1), (5, 1), (5, 1), (5, 1), (5, 1))),  # runs that go on over chunks
    (3, behind(48, *((5 + i % 3, 1 + i % 2, i % 4 - 1, i % 5 == 0) for i in range(MOST)))),
    (1000, behind(48, (10, 1000), (20, 3000), (30, 100), (40, 900), (50, 100), (60, 900))),
]


def some_durations(rnd, timescale, count):
    """As a recorder has them: of one length, or of few, or any; parts of a timescale, so that chunks close exactly."""
    way = rnd.randrange(6)
    whole = max(timescale, 1)
    few = [max(1, whole // rnd.randint(1, 12)) for _ in range(rnd.randint(1, 3))] + rnd.choice(([], [0], [whole], [whole - 1]))
    if way == 0:
        return [few[0]] * count
    if way == 1:
        return [rnd.randrange(1 << 32) for _ in range(count)]
    if way == 2:
        return [rnd.choice((0, 1, whole - 1, whole, min(whole + 1, LAST32))) for _ in range(count)]
    return [rnd.choice(few) if rnd.random() < .4 else few[0] for _ in range(count)]


def some_sizes(rnd, count, most):
    way = rnd.randrange(5)
    if way == 0:
        return [rnd.randrange(1, most)] * count
    if way == 1:
        return [rnd.choice((0, 0, 1, 7)) for _ in range(count)]
    if way == 2:
        return [rnd.choice((5, 5, 5, 6)) for _ in range(count)]
    return [rnd.randrange(1 if way == 3 else 0, most) for _ in range(count)]


def some_shifts(rnd, count):
    way = rnd.randrange(4)
    few = [0, rnd.randint(-3, 3), rnd.randint(LOWEST, HIGHEST), rnd.choice((LOWEST, HIGHEST, -1))]
    return [0 if way == 0 else few[1] if way == 1 else rnd.choice(few[:2] if way == 2 else few) for _ in range(count)]


def some_syncs(rnd, count):
    part = rnd.choice((0, 1, 1, .1, .3, .5))
    return [int(rnd.random() < part) for _ in range(count)]


def some_rows(rnd, most):
    """A timescale, and rows of size, duration, composition offset and sync."""
    timescale = rnd.choice((1, 2, 3, 600, 1000, 48000, 90000, rnd.randrange(1, 1 << 32), LAST32, rnd.choice((0, 1000))))
    count = rnd.choice((rnd.randrange(4), rnd.randrange(12), rnd.randrange(12), rnd.randrange(MOST + 1)))
    return timescale, list(zip(some_sizes(rnd, count, most), some_durations(rnd, timescale, count), some_shifts(rnd, count),
                               some_syncs(rnd, count)))


def by_chance(rnd):
    """A list whose samples lie one behind the other for the most part."""
    timescale, rows = some_rows(rnd, rnd.choice((40, 1 << 16, 1 << 32)))
    at = rnd.choice((0, 48, rnd.randrange(1 << 20), LAST32 - rnd.randrange(200), 1 << 32, rnd.randrange(1 << 63)))
    loose, samples = rnd.choice((0, 0, .1, .5)), []
    for size, *rest in rows:
        if rnd.random() < loose:
            at = rnd.choice((at + 1, at + size, max(at - 1, 0), rnd.randrange(1 << 33)))
        samples.append((at, size, *rest))
        at += size
    return timescale, samples


def list_bytes(timescale, samples):
    return u(4, timescale) + u(4, len(samples)) + b"".join(
        u(width, value) for sample in samples for width, value in zip(WIDTHS, sample))


def lists(data):
    """The lists in these bytes, up to one that is not whole or is too long."""
    at = 0
    while len(data) - at >= 8:
        timescale, count = (int.from_bytes(data[i:i + 4], "big") for i in (at, at + 4))
        at += 8
        if count > MOST or len(data) - at < count * sum(WIDTHS):
            return
        samples = []
        for _ in range(count):
            values = []
            for width in WIDTHS:
                values.append(int.from_bytes(data[at:at + width], "big"))
                at += width
            values[3] -= (1 << 32) if values[3] > HIGHEST else 0
            samples.append(tuple(values))
        yield timescale, samples


def own():
    rnd = random.Random(7)
    return FIXED + [by_chance(rnd) for _ in range(120)]


def main():
    if sys.argv[1:] == ["--lists"]:
        import rust_builds
        stored = [(timescale, samples) for _, timescale, samples, _, _ in rust_builds.stored()]
        cut = list_bytes(1000, behind(48, (10, 100), (20, 100)))[:-1]
        sys.stdout.buffer.write(b"".join(list_bytes(*one) for one in own() + stored) + cut)
        return 0
    if len(sys.argv) > 1:
        print(__doc__)
        return 2
    wrong = 0
    for timescale, samples in lists(sys.stdin.buffer.read()):
        told = lines(timescale, samples)
        if not comes_back(timescale, samples, told):
            wrong += 1
            print("other samples come back:", timescale, samples, file=sys.stderr)
        print("\n".join(told))
    return 1 if wrong else 0


if __name__ == "__main__":
    sys.exit(main())
