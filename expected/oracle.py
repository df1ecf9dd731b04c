#!/usr/bin/env python3
"""Compares our boxes with those of the original, the Rust crate mp4 0.14.0, which is built and run.

    python3 expected/oracle.py ORACLE N SEED [PROGRAM]
ORACLE answers a line to each `read KIND HEX` and `copy KIND HEX` with the original's code; it is started anew where it
hangs or dies. PROGRAM is the built crates/copy_boxes with the words that start it, in one argument; without it
expected/boxes.py answers alone, and with it both answer and must agree. N boxes are made: first the ordered ones (every
length around each boundary, versions, all flags of tfhd and trun, the limits of each field), or as many of them as N
allows, then damaged ones, from SEED alone. It ends with 1 where a difference is of no class of expected/rust.py.
    python3 expected/oracle.py --store ORACLE N SEED
stores some hundreds of these boxes with the original's answers in expected/oracle.txt.
"""
import collections
import functools
import pathlib
import sys

import boxes
import original
import rust

ROOT = pathlib.Path(__file__).resolve().parent.parent
DATA = ROOT / "crates/copy_boxes/data"


def u(width, value):
    return (value % (1 << 8 * width)).to_bytes(width, "big")


def box(kind, content=b"", size=None):
    return u(4, len(content) + 8 if size is None else size) + kind.encode() + content


def large(kind, content=b"", size=None):
    return u(4, 1) + kind.encode() + u(8, len(content) + 16 if size is None else size) + content


def full(version, flags, content=b""):
    return u(1, version) + u(3, flags) + content


# THE CONTENT OF SOUND BOXES: each kind's ordered ones, and one by chance

LIMITS = {1: (0, 1, 0x7F, 0x80, 0xFF),
          2: (0, 1, 0x55C4, 0x7FFF, 0x8000, 0xD5C4, 0xFFFE, 0xFFFF),
          3: (0, 1, 0x800000, 0xFFFFFF),
          4: (0, 1, 2, 1000, 0x7FFFFFFF, 0x80000000, 0xFFFFFFFE, 0xFFFFFFFF),
          8: (0, 1, 0xFFFFFFFF, 1 << 32, (1 << 63) - 1, 1 << 63, (1 << 64) - 2, (1 << 64) - 1)}
VERSIONS = (0, 1, 2, 9, 255)
TFHD_FLAGS = (0x1, 0x2, 0x8, 0x10, 0x20, 0x20000)
TRUN_FLAGS = (0x1, 0x4, 0x100, 0x200, 0x400, 0x800)


def sums(flags):
    """The sums of all sets of these flags."""
    return [sum(flag for i, flag in enumerate(flags) if chosen >> i & 1) for chosen in range(1 << len(flags))]


def each_limit(widths, plain):
    """Rows of numbers: all plain, then each number at each of its limits while the others stay plain."""
    yield plain
    for i, width in enumerate(widths):
        for limit in LIMITS[width]:
            yield plain[:i] + (limit,) + plain[i + 1:]


def row(widths, values):
    return b"".join(map(u, widths, values))


def wide(version):
    return 8 if version == 1 else 4


def mdhd(version, flags, *values):
    w = wide(version)
    return full(version, flags, row((w, w, 4, w, 2, 2), values))


def tfhd(version, flags, *values):
    chosen = [(4, values[0])] + [(w, v) for flag, w, v in zip((1, 2, 8, 16, 32), (8, 4, 4, 4, 4), values[1:]) if flags & flag]
    return full(version, flags, row(*zip(*chosen)))


def elst(version, flags, edits, count=None):
    w = wide(version)
    return full(version, flags, u(4, len(edits) if count is None else count) + b"".join(row((w, w, 2, 2), e) for e in edits))


def trun(version, flags, offset, first, samples, count=None):
    content = u(4, len(samples) if count is None else count)
    content += (u(4, offset) if flags & 1 else b"") + (u(4, first) if flags & 4 else b"")
    for sample in samples:
        content += b"".join(u(4, v) for flag, v in zip(TRUN_FLAGS[2:], sample) if flags & flag)
    return full(version, flags, content)


def emsg(version, flags, scheme, value, timescale, time, duration, ident, message):
    strings = scheme + b"\0" + value + b"\0"
    numbers = row((4, wide(version), 4, 4), (timescale, time, duration, ident))
    return full(version, flags, (numbers + strings if version == 1 else strings + numbers) + message)


def url(flags, location, version=0):
    return box("url ", full(version, flags, location))


def dref(entries, count=None, version=0, flags=0):
    return box("dref", full(version, flags, u(4, len(entries) if count is None else count) + b"".join(entries)))


def ordered_content(kind):
    """Content of boxes in an order that does not change: every version, flag set and limit."""
    if kind == "mdhd":
        for version in VERSIONS:
            w = wide(version)
            for values in each_limit((3, w, w, 4, w, 2, 2), (0, 1, 2, 1000, 5, 0x55C4, 0)):
                yield mdhd(version, *values)
    elif kind == "mfhd":
        for version in VERSIONS:
            for values in each_limit((3, 4), (0, 7)):
                yield full(version, values[0], u(4, values[1]))
    elif kind == "tfdt":
        for version in VERSIONS:
            for values in each_limit((3, wide(version)), (0, 9000)):
                yield full(version, values[0], u(wide(version), values[1]))
    elif kind == "tfhd":
        for version in VERSIONS[:3]:
            for flags in sums(TFHD_FLAGS):
                yield tfhd(version, flags, 1, 2, 3, 4, 5, 6)
        for flags in (0x3B, 0x10000, 0x2003B, 0xFFFFFF):
            for values in each_limit((4, 8, 4, 4, 4, 4), (1, 2, 3, 4, 5, 6)):
                yield tfhd(0, flags, *values)
    elif kind == "elst":
        for version in VERSIONS:
            w = wide(version)
            yield elst(version, 0, [])
            for count in (1, 2, 3, 0xFFFFFFFF):
                yield elst(version, 0, [(5, 0, 1, 0)] * 2, count)
            for values in each_limit((3, w, w, 2, 2), (0, 5, 7, 1, 0)):
                yield elst(version, values[0], [values[1:], (9, 8, 1, 0)])
            yield elst(version, 0, [(5, -1, -1, -1), (6, -2, 1, 0)])
    elif kind == "trun":
        for version in VERSIONS[:3]:
            for flags in sums(TRUN_FLAGS):
                for count in (2, 1, 0):
                    yield trun(version, flags, 100, 0x2000000, [(1, 2, 3, 4), (5, 6, 7, -8)][:count])
                yield trun(version, flags, -100, 0, [(1, 2, 3, 4)], 2)
        for version in (0, 1):
            for values in each_limit((4, 4, 4, 4, 4, 4), (100, 0, 1, 2, 3, 4)):
                yield trun(version, 0xF05, values[0], values[1], [(9, 9, 9, 9), values[2:]])
            yield trun(version, 0xFFFFFF, 1, 2, [(1, 2, 3, 4)])
        for count in (1, 0xFFFF, 0x100000):
            yield trun(0, 0, 0, 0, [], count)
        yield trun(0, 0, 0, 0, [], 0xFFFFFFFF)  # hangs
        yield trun(9, 0x1, 0, 0, [], 0xFFFFFFFF)  # hangs
        for count in (1 << 20, 0x3FFFFFFF, 0x40000000, 0xFFFFFFFF):
            yield trun(0, 0xF00, 0, 0, [(1, 2, 3, 4)], count)
    elif kind == "emsg":
        for version in VERSIONS:
            for values in each_limit((3, 4, wide(version), 4, 4), (0, 1000, 2, 3, 4)):
                yield emsg(version, values[0], b"urn:a", b"1", *values[1:], b"xy")
            for scheme in (b"", b"a", "\u00e9\U0001F600".encode(), b"\xff", b"a\xc3", b"\xed\xa0\x80", b"a\"\\\n\t'\x7f\x01"):
                for value in (b"", b"v", b"\x80"):
                    for message in (b"", b"\0", bytes(range(256))):
                        yield emsg(version, 0, scheme, value, 1, 2, 3, 4, message)
            yield full(version, 0, b"never ends")
    elif kind == "edts":
        for version in VERSIONS:
            for count in (0, 1, 2):
                yield box("elst", elst(version, 0, [(5, -1, 1, 0), (6, 7, 1, 0)][:count]))
        one = box("elst", elst(0, 0, [(5, 0, 1, 0)]))
        yield b""
        for free in (box("free"), box("free", b"abc")):
            yield from (free, free + one, one + free, free + free)
        yield one + one
        yield large("elst", elst(0, 0, [(5, 0, 1, 0)]))
        for size in (*range(8), len(one) - 1, len(one) + 1, len(one) + 8, len(one) + 9, 0xFFFFFFFF):
            yield u(4, size) + one[4:]
            yield u(4, size) + one[4:] + box("free")
    elif kind == "dinf":
        here, there = url(1, b""), url(0, b"http://a/b\0")
        for entries in ([], [here], [there], [here, there], [there, here], [box("free")], [box("urn ", full(0, 0, b"a\0")), here],
                        [url(0, b"ab")], [url(0, b"\xff\0")], [url(0, b"\0")], [url(1, b"a\0b\0")], [large("url ", full(0, 1))]):
            for count in {0, 1, 2, len(entries), len(entries) + 1}:
                yield dref(entries, count)
        for version in VERSIONS:
            yield dref([url(1, b"", version)], version=version)
            yield dref([url(1, b"", version)])
        yield b""
        for free in (box("free"), box("free", b"abc")):
            yield from (free, free + dref([here]), dref([here]) + free)
        yield dref([here]) + dref([there])
        for size in (*range(1, 8), 11, 13, 28, 29, 30, 0xFFFFFFFF):
            yield dref([u(4, size) + here[4:]])
            yield u(4, size) + dref([here])[4:]
        yield box("free", size=0)  # hangs
        yield dref([u(4, 0) + here[4:]], 0xFFFFFFFF)  # hangs


def by_chance(kind, rnd):
    """The content of one box, sound for the most part."""
    def n(width):
        return rnd.choice((rnd.choice(LIMITS[width]), rnd.randrange(1 << 8 * width), rnd.randrange(300)))

    version = rnd.choice((0, 0, 0, 1, 1, 1, 1, rnd.randrange(256)))
    flags = rnd.choice((0, 0, n(3)))
    if kind == "mdhd":
        w = wide(version)
        return mdhd(version, flags, n(w), n(w), n(4), n(w), n(2), rnd.choice((0, 0, n(2))))
    if kind == "mfhd":
        return full(version, flags, u(4, n(4)))
    if kind == "tfdt":
        return full(version, flags, u(wide(version), n(wide(version))))
    if kind == "tfhd":
        flags = rnd.choice((rnd.choice(sums(TFHD_FLAGS)), n(3)))
        return tfhd(rnd.choice((0, 0, version)), flags, n(4), n(8), n(4), n(4), n(4), n(4))
    if kind == "elst":
        w = wide(version)
        edits = [(n(w), rnd.choice((-1, n(w) >> 1, n(w))), n(2), n(2)) for _ in range(rnd.randrange(5))]
        return elst(version, flags, edits, rnd.choice((None, None, None, rnd.randrange(8))))
    if kind == "trun":
        flags = rnd.choice((rnd.choice(sums(TRUN_FLAGS)), rnd.choice(sums(TRUN_FLAGS)), n(3)))
        samples = [tuple(n(4) for _ in range(4)) for _ in range(rnd.randrange(6))]
        return trun(version, flags, n(4), n(4), samples, rnd.choice((None, None, None, rnd.randrange(9))))
    if kind == "emsg":
        def string():
            return rnd.choice((b"", b"urn:mpeg:dash:event:2012", bytes(rnd.randrange(1, 256) for _ in range(rnd.randrange(9)))))
        return emsg(version, flags, string(), string(), n(4), n(8), n(4), n(4), rnd.randbytes(rnd.randrange(20)))
    if kind == "edts":
        children = [box("elst", by_chance("elst", rnd)), box("elst", elst(0, 0, [(n(4), n(4) >> 1, 1, 0)])), box("free", rnd.randbytes(rnd.randrange(5)))]
        return b"".join(rnd.choices(children, weights=(4, 4, 1), k=rnd.choice((0, 1, 1, 1, 1, 1, 1, 2))))
    some = [url(rnd.randrange(2), rnd.choice((b"", b"http://a/b\0", rnd.randbytes(rnd.randrange(6))))) for _ in range(rnd.randrange(4))]
    one = [url(n(3), rnd.choice((b"", b"file:" + bytes(rnd.randrange(1, 128) for _ in range(rnd.randrange(9))) + b"\0")))]
    content = rnd.choice((dref(some, rnd.choice((None, None, rnd.randrange(5)))), dref(one), dref(one, flags=flags)))
    return content + rnd.choice((b"", b"", b"", b"", b"", b"", box("free")))


# THE BOXES

def lengths(kind, content):
    """A box at every length around the ends of its fields: cut there, stated and cut there, stated there with its
    bytes behind it."""
    whole = box(kind, content)
    for length in range(len(whole)):
        if len(whole) < 24 or length % 4 != 2:
            yield whole[:length]
            if length >= 8:
                yield u(4, length) + whole[4:length]
                yield u(4, length) + whole[4:]


def sizes(kind, content):
    """A box whose header says more, nothing (0), too little, or its size in 64 bits; and bytes behind its fields."""
    whole = box(kind, content)
    for size in (*range(8), len(whole) + 1, len(whole) + 8, 0xFFFFFFFF):
        yield u(4, size) + whole[4:]
    for extra in (1, 3, 4, 8):
        yield whole + bytes(extra)
        yield box(kind, content + b"\xAA" * extra)
    for size in (0, 1, 7, 8, 15, 16, 17, len(whole) + 7, len(whole) + 8, len(whole) + 9, 1 << 32, 1 << 62, (1 << 64) - 1):
        yield large(kind, content, size)
    for length in range(8, 20):
        yield large(kind, content)[:length]


def ordered(kind):
    contents = list(ordered_content(kind))
    for i, content in enumerate(contents):
        yield box(kind, content)
        if i % 4 == 0:
            yield large(kind, content)
    # every length of one box of each version and length; of tfhd and trun of one box of each set of flags
    seen = set()
    for i, content in enumerate(contents):
        flags = kind in ("tfhd", "trun")
        shape = content[1:4] if flags else (len(content), content[:1])
        if len(content) < 80 and shape not in seen:
            seen.add(shape)
            yield from lengths(kind, content)
            if not flags or len(seen) % 8 == 1:
                yield from sizes(kind, content)


def damaged(kind, sound, rnd):
    """A copy with bytes changed, cut, added to, or with another size. The type stays: the original never looks at it."""
    data = bytearray(sound)
    for _ in range(rnd.choice((0, 1, 1, 2, 3))):
        i = rnd.randrange(len(data))
        if not 4 <= i < 8:
            data[i] = rnd.choice((0, 1, 7, 8, 0x7F, 0x80, 0xFF, data[i] ^ 1 << rnd.randrange(8), rnd.randrange(256)))
    if rnd.random() < .2:
        data = data[:rnd.randrange(len(data) + 1)]
    if rnd.random() < .2:
        data += rnd.randbytes(rnd.randrange(40))
    if len(data) >= 4 and rnd.random() < .2:
        data[:4] = u(4, rnd.choice((len(data), len(data) + rnd.randrange(-9, 9), rnd.randrange(64))))
    elif len(data) >= 4 and rnd.random() < .9:
        data[:3] = sound[:3]  # few sizes of millions
    data[4:8] = sound[4:8][:max(len(data) - 4, 0)]
    return bytes(data)


@functools.cache
def corpus(kind):
    pack = (DATA / "corpus.pack").read_bytes()
    return [data for data in boxes.entries(pack) if data[4:8] == kind.encode() and len(data) < 4096]


def hangs(kind, data):
    """Whether the original would count for seconds, or for ever."""
    if kind == "trun":
        head = rust.stated(data)[1]
        return not boxes.number(data, head + 1, 3) & 0xF00 and boxes.number(data, head + 4, 4) > 1 << 24
    return kind == "dinf" and (b"\0\0\0\0free" in data or b"\0\0\0\0url " in data or b"\0\0\0\0dref" in data)


class Boxes(original.Domain):
    """A case is a kind and the bytes of a box."""
    name, crate = "boxes", "copy_boxes"

    def ordered(self):
        return list(dict.fromkeys((kind, data) for kind in rust.KINDS for data in ordered(kind)))

    def chance(self, rnd):
        kind = rnd.choice(rust.KINDS)
        sound = corpus(kind)
        if sound and rnd.random() < .3:
            base = rnd.choice(sound)
        else:
            content = by_chance(kind, rnd)
            base = large(kind, content) if rnd.random() < .05 else box(kind, content)
        return kind, base if rnd.random() < .4 else damaged(kind, base, rnd)

    def is_slow(self, case):
        return hangs(*case)

    def parts(self, case):
        return [part for _, part in rust.parts(*case)]

    def second(self, part):
        return [boxes.line(part)]

    def run(self, program, parts):
        return ([line] for line in original.over_packs(program, parts))

    def commands(self, case):
        kind, data = case
        return [f"{command} {kind} {data.hex()}" for command in ("read", "copy")]

    def asked(self, case, theirs):
        return [f"{case[0]} {'read' if theirs[0].startswith('OK') else 'not read'} by the original"]

    def differences(self, case, ours, theirs):
        kind, data = case
        mine = rust.answer(kind, list(rust.parts(kind, data)), [line for line, in ours])
        numbers = rust.classes(kind, data, mine, rust.Rust(*theirs))
        return [(question, numbers) for question in self.asked(case, theirs) if numbers]


# THE FIXED LIST

def chosen(found):
    """Some hundreds of them: of each class and kind the smallest, of each kind some that are alike, and every set of
    flags."""
    keep = set()
    by_class, by_kind = collections.defaultdict(list), collections.defaultdict(list)
    for i, one in enumerate(found):
        kind = one.case[0]
        for number in one.numbers:
            by_class[kind, number].append(i)
        if not one.numbers:
            by_kind[kind, one.theirs[0].startswith("OK")].append(i)
    for place in by_class.values():
        keep.update(sorted(place, key=lambda i: len(found[i].case[1]))[:4])
    for (_, taken), place in by_kind.items():
        keep.update(place[::max(len(place) // (16 if taken else 8), 1)][:16 if taken else 8])
    flags = {box("tfhd", tfhd(0, flags, 1, 2, 3, 4, 5, 6)) for flags in sums(TFHD_FLAGS)}
    flags |= {box("trun", trun(i % 2, flags, 100, 0x2000000, [(1, 2, 3, 4), (5, 6, 7, -8)])) for i, flags in enumerate(sums(TRUN_FLAGS))}
    keep.update(i for i, one in enumerate(found) if one.case[1] in flags)
    return [found[i] for i in sorted(keep) if len(found[i].case[1]) < 512]


HEAD = """# Boxes and what the original, the Rust crate mp4 0.14.0, answers to them: its record and position (read), the bytes
# that it writes of it (copy). Its supplied files were compiled as they are, over stand-ins that hold data only, without
# overflow checks, by rustc 1.95 for Arm; HANG is no answer within two seconds. `differs` has the numbers of
# docs/DIFFERENCES.md. Made by expected/oracle.py --store ORACLE %d %d, which takes of %d boxes the smallest of each
# class, some that are alike, and every set of flags of tfhd and trun.
"""


def store(found, count, seed):
    keep = chosen(found)
    with open(rust.STORED, "w") as file:
        file.write(HEAD % (count, seed, count))
        for one in keep:
            (kind, data), (read, copy) = one.case, one.theirs
            file.write(f"box {kind} {data.hex()}\nread {read}\ncopy {copy}\ndiffers {' '.join(map(str, one.numbers))}\n")
    return len(keep)


if __name__ == "__main__":
    sys.exit(original.main(__doc__, [Boxes()], store))
