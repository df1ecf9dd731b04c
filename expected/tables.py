#!/usr/bin/env python3
"""Prints what crates/list_samples must print for packs of stbl boxes: a second implementation, to hold the proved one
against. It also makes stbl boxes by chance: sound ones, those whose tables disagree on the count, and broken
ones.

Written from document 01, ISO/IEC 14496-12 (8.5.1, 8.6.1, 8.6.2, 8.7.3 to 8.7.5) and readings A9, A13, A14, A21, A30, A50
and A53. The boxes of the tables are read by expected/boxes.py. A pack is a row of entries, as there.
    python3 expected/tables.py PACK ...
    python3 expected/tables.py --pack PACK    makes a pack of fixed ones and of broken ones by chance
"""
import itertools
import pathlib
import random
import sys

import boxes

MOST_SAMPLES = 65536  # of a track: the program tells no more
BEHIND = 64  # so many are looked up behind those that are told
FAR = 4000000000
NEEDED = ("stts", "stsc", "stsz", "stco")


# READING: an stbl and the tables in it

class Tables:
    """The tables as lists. `ctts` and `stss` are None where they are absent; `wide` says that co64 has the chunks."""

    def __init__(self, stts, ctts, stsc, common, count, sizes, chunks, wide, stss):
        self.stts, self.ctts, self.stsc, self.stss = stts, ctts, stsc, stss
        self.common, self.count, self.sizes = common, count, sizes
        self.chunks, self.wide = chunks, wide


def first_boxes(data):
    """Where the first box of each type in an stbl begins and ends."""
    at, end = boxes.header(data)
    if data[4:8] != b"stbl":
        raise boxes.Refused(8, 4)
    found = {}
    while at < end:
        _, after = boxes.header(data, at, end, top=False)
        found.setdefault(data[at + 4:at + 8].decode("latin-1"), (at, after))
        at = after
    return found


def rows(words):
    """The entries of a table among the words of its box."""
    entries = []
    for word in words:
        if word == "[":
            entries.append([])
        elif word != "]":
            entries[-1].append(word)
    return [tuple(entry) for entry in entries]


def read_box(data, kind, place):
    """The words of the box, without version and flags; the position of its fault is counted from the stbl's start."""
    at, end = place
    part = data[at:end]
    try:
        box = boxes.Box(part)
        if part[4:8] != kind.encode():
            raise boxes.Refused(8, 4)
        boxes.READERS[kind.encode()](box)
    except boxes.Refused as fault:
        number, position = fault.args
        raise boxes.Refused(number, at + position) from None
    return box.words[2:]


def tables(data):
    """The tables of an stbl, or the first fault: of the stbl, of a box in this order, then 5."""
    places = first_boxes(data)
    read = {}
    for kind in ("stts", "ctts", "stsc", "stsz", "stco", "co64", "stss"):
        if kind == "stco" and "stco" in places and "co64" in places:
            raise boxes.Refused(6, max(places["stco"][0], places["co64"][0]))
        if kind in places:
            read[kind] = read_box(data, kind, places[kind])
    for kind in NEEDED:
        if kind not in read and (kind != "stco" or "co64" not in read):
            raise boxes.Refused(5, int.from_bytes(kind.encode(), "big"))
    wide = "co64" in read
    chunks = [entry[0] for entry in rows(read["co64" if wide else "stco"][1:])]
    common, count = read["stsz"][:2]
    return Tables(
        rows(read["stts"][1:]), rows(read["ctts"][1:]) if "ctts" in read else None, rows(read["stsc"][1:]),
        common, count, [entry[0] for entry in rows(read["stsz"][2:])], chunks, wide,
        [entry[0] for entry in rows(read["stss"][1:])] if "stss" in read else None)


# THE SAMPLES

def runs(entries):
    """Each value as often as it is counted."""
    return itertools.chain.from_iterable(itertools.repeat(value, count) for count, value in entries)


def per_chunk(tables):
    """How many samples each chunk has: an entry holds up to the next one's first chunk, the last up to the end."""
    firsts = [entry[0] for entry in tables.stsc[1:]] + [len(tables.chunks) + 1]
    return itertools.chain.from_iterable(
        itertools.repeat(per, max(after - first, 0)) for (first, per, _), after in zip(tables.stsc, firsts))


def placed(tables, sizes):
    """The place of each sample, one behind the other in a chunk."""
    for per, at in zip(per_chunk(tables), tables.chunks):
        for size in itertools.islice(sizes, per):
            yield at, size
            at += size


def samples(tables):
    """The samples, as many as all of stsz, stts and stsc have (A14): number, offset, size, time, duration, composition
    offset, sync. Numbers without limit."""
    sizes = itertools.repeat(tables.common, tables.count) if tables.common else iter(tables.sizes)
    shifts = itertools.chain(runs(tables.ctts or []), itertools.repeat(0))
    sync = None if tables.stss is None else set(tables.stss)
    time = 0
    for number, (duration, (offset, size), shift) in enumerate(zip(runs(tables.stts), placed(tables, sizes), shifts), 1):
        yield number, offset, size, time, duration, shift, sync is None or number in sync
        time += duration


def held(sample):
    """Whether it fits (A13)."""
    return sample[1] + sample[2] < 1 << 64 and sample[3] < 1 << 63


def count(tables):
    """How many samples there are, without a look at them: each table may count billions."""
    return min(tables.count, sum(n for n, _ in tables.stts), sum(per for per, _ in zip(per_chunk(tables), tables.chunks)))


def total(tables):
    return tables.common * count(tables) if tables.common else sum(tables.sizes[:count(tables)])


# THE LINES

def words(*row):
    return "\t".join(str(int(word) if isinstance(word, bool) else word) for word in row)


def lookup(found, number):
    """The line of one sample that is looked up."""
    if not 0 < number <= count(found):
        return words("sample", number, "refused", 11, number, "refused", 11, number)
    sample = next(itertools.islice(samples(found), number - 1, None))
    return words("sample", *(sample[:-1] if held(sample) else (number, "refused", 9, 0)), sample[-1])


def lines(data):
    try:
        found = tables(data)
    except boxes.Refused as fault:
        yield words("refused", *fault.args)
        yield ""
        return
    there = count(found)
    yield words("track", there, total(found))
    told, last = 0, "end"
    for sample in itertools.islice(samples(found), MOST_SAMPLES):
        if not held(sample):
            last = words("refused", 9, 0)
            break
        yield words(*sample, "same")
        told += 1
    yield "more" if told == MOST_SAMPLES else last  # whether there are more is not looked at
    behind = range(told + 1, min(told + BEHIND, there) + 1)
    for number in (0, *behind, *([there + 1] if there < FAR else []), FAR):
        yield lookup(found, number)
    yield ""


# STBL BOXES BY CHANCE

def u(width, value):
    return (value % (1 << 8 * width)).to_bytes(width, "big")


def box(kind, content, wide=False):
    if wide:
        return u(4, 1) + kind.encode() + u(8, len(content) + 16) + content
    return u(4, len(content) + 8) + kind.encode() + content


def table(kind, widths, entries, version=0, before=b""):
    content = before + u(4, len(entries)) + b"".join(u(w, v) for entry in entries for w, v in zip(widths, entry))
    return kind, u(1, version) + u(3, 0) + content


def stsz(common, count, sizes):
    return "stsz", u(4, 0) + u(4, common) + u(4, count) + b"".join(u(4, size) for size in sizes)


def some_runs(rnd, count, values):
    """Runs of `count` in all, with runs of none among them."""
    found = []
    while count or rnd.random() < .2:
        run = rnd.choice((0, 1, count, rnd.randrange(count + 1))) if count else 0
        found.append((run, rnd.choice(values)))
        count -= run
    return found


def some_sizes(rnd, count):
    kind = rnd.random()
    if kind < .25:
        return rnd.choice((1, 7, 1000, 0x7FFFFFFF, 0x80000000, 0xFFFFFFFF)), []
    most = rnd.choice((2, 300, 300, 70000))
    sizes = [rnd.randrange(most) for _ in range(count)]
    for _ in range(rnd.choice((0, 0, 0, 1, 3)) if count else 0):
        sizes[rnd.randrange(count)] = rnd.choice((0x7FFFFFFF, 0x80000000, 0xFFFFFFFF, rnd.randrange(1 << 32)))
    return 0, sizes


def sound_parts(rnd, most=40, uneven=False):
    """The boxes of an stbl whose tables agree, but that ctts may have too few samples or too many; where they are uneven
    stts and stsc may too."""
    count = rnd.choice((0, 1, 2, rnd.randrange(most + 1), rnd.randrange(most + 1), rnd.randrange(most + 1)))
    common, sizes = some_sizes(rnd, count)
    parts = [stsz(common, count, sizes)]
    timed, left = (max(count + rnd.choice((0, -1, -3, 1, 3)) * uneven, 0) for _ in range(2))
    parts.append(table("stts", (4, 4), some_runs(rnd, timed, (0, 1, 1000, 1001, 0x7FFFFFFF, 0xFFFFFFFF))))
    if rnd.random() < .7:
        all_of = rnd.choice((count, count, count, rnd.randrange(count + 1), count + 3))
        shifts = some_runs(rnd, all_of, (0, 1, -1, 5, 512, 0x7FFFFFFF, -0x80000000))
        parts.append(table("ctts", (4, 4), shifts, rnd.randrange(2)))
    if rnd.random() < .6:
        chosen = sorted(rnd.sample(range(1, count + 1), rnd.choice((0, count, rnd.randrange(count + 1)))))
        parts.append(table("stss", (4,), [(number,) for number in chosen]))
    groups, chunks, per = [], 0, 0
    while left:
        now = min(left, rnd.choice((per or 1, per or 1, rnd.randrange(1, 6), left)))
        chunks += 1
        if now != per or rnd.random() < .1:
            groups.append((chunks, now, rnd.randrange(1, 3)))
        left, per = left - now, now
    parts.append(table("stsc", (4, 4, 4), groups))
    wide = rnd.random() < .5
    around = (48, 1 << 31, (1 << 32) - 1) + ((1 << 32, 1 << 33, 1 << 62, 1 << 63, (1 << 64) - 1 - rnd.randrange(400)) if wide else ())
    places, at = [], rnd.choice((48, rnd.choice(around)))
    for _ in range(chunks):
        places.append((at % (1 << (64 if wide else 32)),))
        at = rnd.choice((at + rnd.randrange(5000), rnd.choice(around)))
    parts.append(table("co64" if wide else "stco", (8 if wide else 4,), places))
    return parts


def stbl_of(rnd, parts):
    """An stbl of these boxes in any order, with boxes of other types among them."""
    parts = list(parts)
    rnd.shuffle(parts)
    made = [box(kind, content, rnd.random() < .05) for kind, content in parts]
    for _ in range(rnd.choice((0, 0, 0, 1))):
        made.insert(rnd.randrange(len(made) + 1), box(rnd.choice(("free", "stsd", "sgpd")), bytes(rnd.randrange(9))))
    return box("stbl", b"".join(made), rnd.random() < .05)


def sound(rnd):
    return stbl_of(rnd, sound_parts(rnd))


def uneven(rnd):
    return stbl_of(rnd, sound_parts(rnd, uneven=True))


def changed(rnd, content):
    """A table with one of its numbers changed, or cut, or with bytes behind it."""
    content = bytearray(content)
    what = rnd.random()
    if what < .75 and len(content) >= 8:
        at = rnd.randrange(4, len(content) - 3, 4)
        old = int.from_bytes(content[at:at + 4], "big")
        content[at:at + 4] = u(4, rnd.choice((0, 1, 2, old + 1, old - 1, old + 1, rnd.randrange(60), 0x7FFFFFFF, 0xFFFFFFFE, 0xFFFFFFFF)))
    elif what < .8 and content:
        content[0] = rnd.choice((1, 2, 255))
    elif what < .9:
        del content[rnd.randrange(len(content) + 1):]
    else:
        content += rnd.randbytes(rnd.randrange(12))
    return bytes(content)


def broken(rnd):
    """An stbl whose tables disagree, or are refused; a few are sound all the same."""
    parts = sound_parts(rnd, 12)
    for _ in range(rnd.choice((1, 1, 2, 3))):
        i = rnd.randrange(len(parts))
        kind, content = parts[i]
        what = rnd.random()
        if what < .8:
            parts[i] = kind, changed(rnd, content)
        elif what < .85 and len(parts) > 1:
            del parts[i]
        elif what < .9:
            parts.append((kind, changed(rnd, content)))
        elif what < .95:
            parts.append(table(rnd.choice(("stco", "co64")), (4,), []))
        else:
            parts[i] = rnd.choice(("stts", "ctts", "stsc", "stss")), content
    data = bytearray(stbl_of(rnd, parts))
    if rnd.random() < .15:
        data[rnd.randrange(len(data))] ^= 1 << rnd.randrange(8)
    if rnd.random() < .05:
        del data[rnd.randrange(len(data) + 1):]
    if rnd.random() < .05:
        data += rnd.randbytes(rnd.randrange(20))
    return bytes(data)


# THE FIXED ONES

CASE = {"stts": [(3, 1000), (3, 500)], "stsc": [(1, 2, 1), (3, 1, 1)], "stco": [(48,), (78,), (148,), (198,)]}  # cases 1, 2


def fixed():
    """Cases 1 and 2 of document 01, and what differs from them in one thing."""
    def one(**changes):
        made = {kind: table(kind, (4, 4, 4), entries) for kind, entries in CASE.items()}
        made["stsz"] = stsz(0, 6, range(10, 70, 10))
        made.update(changes)
        return box("stbl", b"".join(box(*part) for part in made.values() if part))

    yield one()
    yield one(stss=table("stss", (4,), [(1,), (4,)]), ctts=table("ctts", (4, 4), [(1, -1), (0, 9), (2, 5)]))  # ctts is short
    yield one(stsz=stsz(7, 6, []))
    yield one(stsz=stsz(7, 9, []))  # A14: stts and stsc have 6
    yield one(stts=table("stts", (4, 4), [(2, 10)]))
    yield one(stts=table("stts", (4, 4), [(0, 10), (0xFFFFFFFF, 0xFFFFFFFF)]))
    yield one(stco=table("stco", (4,), [(48,), (78,)]))  # an entry of stsc begins past the last chunk
    yield one(stco=table("stco", (4,), []))
    yield one(stsc=table("stsc", (4, 4, 4), [(1, 0xFFFFFFFF, 1)]))
    yield one(stsc=table("stsc", (4, 4, 4), [(1, 2, 1), (3, 0, 1)]))  # 8
    yield one(stco=None, co64=table("co64", (8,), [((1 << 64) - 30,)] * 4))  # 10 and 20 more end with the last byte: 9
    yield one(stco=None, co64=table("co64", (8,), [((1 << 64) - 31,)] * 4))
    yield one(co64=table("co64", (8,), []))  # 6
    for kind in NEEDED:
        yield one(**{kind: None})  # 5
    yield one(stts=None, stss=table("stss", (4,), [(0,)]))  # 8 comes before 5
    yield box("stbl", b"")
    yield box("stbl", b"", wide=True)
    yield box("stsd", b"")
    yield one()[:-1]
    yield one() + b"\0"
    yield u(4, 0) + one()[4:]
    yield b""


BROKEN, SEED = 400, 1


def main():
    if sys.argv[1] == "--pack":
        rnd = random.Random(SEED)
        made = [*fixed(), *(broken(rnd) for _ in range(BROKEN))]
        pathlib.Path(sys.argv[2]).write_bytes(boxes.pack_of(made) + u(4, 9))  # the last one is cut
        return
    for name in sys.argv[1:]:
        with open(name, "rb") as file:
            pack = file.read(boxes.MOST_BYTES)
        print(name)
        for data in boxes.entries(pack):
            print("\n".join(["cut"] if data is None else lines(data)))


if __name__ == "__main__":
    main()
