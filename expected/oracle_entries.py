#!/usr/bin/env python3
"""Compares our sample entries with those of the original, the Rust crate mp4 0.14.0, which is built and run.

    python3 expected/oracle_entries.py ORACLE N SEED [PROGRAM]
ORACLE answers a line to each command with the original's code. N boxes are made: first the ordered ones (every length of
each kind, stated, cut, or with bytes behind it; every set of ES flags; children in every order), or as many of them as N
allows, then damaged ones, from SEED alone. Then every input of the conversions, and lengths and configurations alone. The
original's answer must be that of the model in expected/rust_entries.py, and each difference from ours must be of a
class: else it ends with 1. PROGRAM is the built crates/copy_entries with the words that start it, in one argument.
    python3 expected/oracle_entries.py --store ORACLE N SEED
stores some hundreds of these boxes with the original's answers in expected/entries.txt.
"""
import collections
import functools
import pathlib
import random
import sys

import collect
import entries
import oracle
import original
import rust_entries
from oracle import u

ROOT = pathlib.Path(__file__).resolve().parent.parent
FILES = ROOT / "crates/framewitness/data"


def box(kind, content=b"", size=None):
    return u(4, len(content) + 8 if size is None else size) + kind.encode() + content


def large(kind, content=b"", size=None):
    return u(4, 1) + kind.encode() + u(8, len(content) + 16 if size is None else size) + content


# SOUND CONTENT

def visual(children=b"", reference=1, width=320, height=240, across=0x480000, down=0x480000, frames=1, name=b"", depth=24,
           reserved=bytes(6), blank=bytes(16), zero=bytes(4), last=0xFFFF):
    return (reserved + u(2, reference) + blank + u(2, width) + u(2, height) + u(4, across) + u(4, down) + zero + u(2, frames)
            + name.ljust(32, b"\0") + u(2, depth) + u(2, last) + children)


def sound(children=b"", reference=1, channels=2, bits=16, rate=48000 << 16, reserved=bytes(6), blank=bytes(8), zero=bytes(4)):
    return reserved + u(2, reference) + blank + u(2, channels) + u(2, bits) + zero + u(4, rate) + children


def words(rest=b"", reference=1, flags=0, justified=(1, -1), colour=(0, 0, 0, 255), place=(0, 0, 0, 0),
          style=bytes((0, 0, 0, 0, 0, 1, 0, 16, 255, 255, 255, 255)), reserved=bytes(6)):
    return (reserved + u(2, reference) + u(4, flags) + b"".join(u(1, n) for n in (*justified, *colour))
            + b"".join(u(2, n) for n in place) + style + rest)


def sets(some):
    return b"".join(u(2, len(one)) + one for one in some)


SPS, PPS = bytes.fromhex("6742001ee900"), bytes.fromhex("68ce3880")


def avcc(version=1, profile=66, compatibility=0, level=30, size=0xFF, sps=(SPS,), pps=(PPS,), high=0xE0, extension=b"",
         counts=(None, None)):
    first, second = (len(some) if count is None else count for some, count in zip((sps, pps), counts))
    return bytes((version, profile, compatibility, level, size, high | first & 0x1F)) + sets(sps) + u(1, second) + sets(pps) + extension


def vpcc(version=1, flags=0, profile=0, level=31, byte=0x82, colour=(5, 6, 7), data=b"", size=None):
    return u(1, version) + u(3, flags) + bytes((profile, level, byte, *colour)) + u(2, len(data) if size is None else size) + data


def desc(tag, content, width=None, length=None):
    """A descriptor; its length in so many bytes."""
    value = len(content) if length is None else length
    digits = entries.length_bytes(value) if width is None else bytes(
        value >> 7 * i & 0x7F | (0x80 if i else 0) for i in reversed(range(width)))
    return u(1, tag) + digits + content


def config(kind=2, index=3, channels=2, frequency=48000, more=""):
    """AudioSpecificConfig: its bits, filled up with zeros."""
    bits = f"{kind:05b}" if kind < 31 else f"{31:05b}{kind - 32:06b}"
    bits += f"{index:04b}" + (f"{frequency:024b}" if index == 15 else "") + f"{channels:04b}" + more
    return int(bits.ljust(-(-len(bits) // 8) * 8, "0"), 2).to_bytes(-(-len(bits) // 8), "big")


def decoder(info=config(), kind=0x40, stream=0x15, buffer=0, most=128000, mean=128000, before=b"", after=b"", width=None):
    content = bytes((kind, stream)) + u(3, buffer) + u(4, most) + u(4, mean) + before
    return content + (desc(5, info, width) if info is not None else b"") + after


def es(number=1, flags=0, depends=7, location=b"a.b", clock=9, inside=None, after=desc(6, b"\2"), before=b"", width=None):
    content = u(2, number) + u(1, flags)
    content += (u(2, depends) if flags & 0x80 else b"") + (u(1, len(location)) + location if flags & 0x40 else b"")
    content += u(2, clock) if flags & 0x20 else b""
    return content + before + (desc(4, decoder(), width) if inside is None else inside) + after


def esds(content=None, version=0, flags=0, width=None, after=b""):
    return u(1, version) + u(3, flags) + desc(3, es(width=width) if content is None else content, width) + after


FREE = box("free", b"abc")
LIMITS = {1: (0, 1, 0x7F, 0x80, 0xFF), 2: (0, 1, 0x7FFF, 0x8000, 0xFFFF), 3: (0, 1, 0xFFFFFF),
          4: (0, 1, 0x10000, 0x7FFFFFFF, 0x80000000, 0xFFFFFFFF)}


def configs():
    for kind in (0, 1, 2, 5, 29, 30, *range(32, 50), 95):
        for index in (0, 3, 12, 13, 15):
            for channels in (0, 1, 2, 7, 15):
                yield config(kind, index, channels, 0x5622, "")
    for kind in (2, 5, 29, 42):
        yield config(kind, 4, 2, 0, "0101" + "00010" + "0" * 11)
    yield config(2, 4, 2) + bytes.fromhex("56e500")
    for length in range(7):
        for first in (0x11, 0x17, 0xF8, 0xFF):
            yield bytes((first, 0x90, 0x56, 0x22, 0x10, 0, 0))[:length]


def esds_ordered():
    for width in (None, 1, 2, 3, 4):
        yield esds(width=width)
    for version in (0, 1, 255):
        yield esds(version=version)
    yield esds(flags=0xFFFFFF)
    for flags in range(0, 256, 8):
        yield esds(es(flags=flags))
        yield esds(es(flags=flags, location=b""))
    for info in configs():
        yield esds(es(inside=desc(4, decoder(info))))
    yield esds(es(inside=desc(4, decoder(None))))
    yield esds(es(inside=b""))
    yield esds(es(inside=b"", after=b""))
    yield esds(es(after=b""))
    other = desc(0x80, b"xy")
    for before, inside, after in ((other, desc(4, decoder()), desc(6, b"\2")), (b"", desc(4, decoder()), other + desc(6, b"\2")),
                                  (b"", desc(4, decoder()), desc(6, b"\2") + other), (desc(6, b"\2"), desc(4, decoder()), b""),
                                  (b"", desc(4, decoder()), desc(6, b"") + b"\0"), (b"", desc(4, decoder()), desc(6, b"")),
                                  (b"", desc(4, decoder()), desc(6, bytes(16))), (b"", desc(4, decoder()), desc(6, b"\1")),
                                  (b"", desc(4, decoder()) * 2, desc(6, b"\2")), (desc(5, config()), desc(4, decoder()), b""),
                                  (desc(3, es()), desc(4, decoder()), b"")):
        yield esds(es(before=before, inside=inside, after=after))
    for before, after in ((other, b""), (b"", other), (b"", desc(5, config(5, 6, 1))), (desc(5, b""), b""), (desc(4, decoder()), b"")):
        yield esds(es(inside=desc(4, decoder(before=before, after=after))))
    for stream in (0x14, 0x15, 0x16, 0x17, 0xFF, 0):
        yield esds(es(inside=desc(4, decoder(stream=stream))))
    for kind, buffer, most in ((0x6B, 0xFFFFFF, 0xFFFFFFFF), (0, 1, 0), (0x66, 0x800000, 1)):
        yield esds(es(inside=desc(4, decoder(kind=kind, buffer=buffer, most=most, mean=most))))
    for after in (b"\0", bytes(4), desc(3, es(number=2)), desc(6, b"\2"), FREE, b"\3", b"\4\x80"):
        yield esds(after=after)
    for tag in (0, 2, 4, 5, 0xFF):
        yield u(4, 0) + desc(tag, es())
    for content in (b"", b"\3", b"\3\x80", b"\3\x80\x80\x80\x80", b"\3\x81\x80\x80\x19", b"\4\x80\x80\x80\x80"):
        yield u(4, 0) + content + es()
    whole = esds()
    for place in (5, 10, 25):  # the lengths of the three descriptors
        for length in range(0, 40):
            yield whole[:place] + bytes((length,)) + whole[place + 1:]
        for digits in ("8000", "8110", "ffffff7f", "80808080", "8080808000", "ffffffff"):
            yield whole[:place] + bytes.fromhex(digits) + whole[place + 1:]


def ordered_content(kind):
    if kind == "avcC":
        for version in (0, 1, 2, 255):
            yield avcc(version)
        for profile in (66, 77, 88, 100, 110):
            for compatibility in (0, 0x40, 0x80, 0xC0, 0xFF):
                yield avcc(1, profile, compatibility)
        for size in (0, 1, 2, 3, 0xFC, 0xFE, 0xFF):
            for high in (0, 0x20, 0xE0):
                yield avcc(size=size, high=high)
        for sps in ((), (SPS,), (SPS, b""), (SPS,) * 31):
            for pps in ((), (PPS,), (PPS, b"a"), (b"",) * 255):
                yield avcc(sps=sps, pps=pps)
        yield avcc(extension=bytes.fromhex("fdf8f800"))
        yield avcc(extension=b"\0")
        for first in (0, 1, 2, 31):
            for second in (0, 1, 2, 255):
                yield avcc(counts=(first, second))
        whole = avcc()
        for length in (0, 5, 6, 7, 11, 12, 13, 14, 15, 0xFF, 0xFFFF):
            yield whole[:6] + u(2, length) + whole[8:]
            yield whole[:15] + u(2, length) + whole[17:]
    elif kind == "vpcC":
        for version in (0, 1, 2, 255):
            yield vpcc(version)
        for byte in (0, 0x80, 0x8F, 0xA1, 0xFF, 0x82):
            yield vpcc(byte=byte)
        for colour in ((0, 0, 0), (1, 1, 1), (2, 2, 2), (5, 6, 7), (255, 254, 253), (0, 5, 6)):
            for profile, level in ((0, 31), (3, 255)):
                yield vpcc(profile=profile, level=level, colour=colour)
        for data, size in ((b"", 0), (b"a", 1), (b"a", 0), (b"a", 2), (b"", 1), (bytes(300), 300), (b"", 256), (b"ab", 1)):
            yield vpcc(data=data, size=size)
            yield vpcc(colour=(0, 0, 0), data=data, size=size)
        yield vpcc(flags=0xABCDEF)
    elif kind == "tx3g":
        yield words()
        for rest in (b"\0", FREE, box("ftab", u(2, 1) + u(2, 1) + b"\5Serif"), bytes(4)):
            yield words(rest)
        for limit in LIMITS[4]:
            yield words(flags=limit)
        for limit in (0, 1, 0x7FFF, -1, -32768):
            for i in range(4):
                yield words(place=tuple(limit if i == j else 7 for j in range(4)))
        for limit in (0, 1, -1, 127, -128):
            yield words(justified=(limit, 1))
            yield words(justified=(1, limit))
        for limit in LIMITS[2]:
            yield words(reference=limit, style=bytes(range(12)), colour=(1, 2, 3, 4))
        yield words(reserved=b"abcdef")
    elif kind == "esds":
        yield from esds_ordered()
    else:
        fields, name, inner = ((sound, "mp4a", box("esds", esds())), (visual, "avc1", box("avcC", avcc())),
                               (visual, "vp09", box("vpcC", vpcc())))[("mp4a", "avc1", "vp09").index(kind)]
        second = {"mp4a": box("esds", esds(es(number=9))), "avc1": box("avcC", avcc(profile=100)), "vp09": box("vpcC", vpcc(level=9))}[kind]
        plain = {"mp4a": inner, "avc1": inner, "vp09": box("vpcC", vpcc(colour=(0, 0, 0)))}[kind]
        for children in (b"", inner, plain, inner + FREE, FREE + inner, FREE, FREE + FREE, inner + second, second + inner,
                         FREE + inner + second, inner + bytes(4), inner + b"\0", bytes(4), inner + box("pasp", u(4, 1) + u(4, 1)),
                         box("btrt", bytes(12)) + inner, large(inner[4:8].decode(), inner[8:]), FREE + large(inner[4:8].decode(), inner[8:]),
                         box("wave", inner)):
            yield fields(children)
        for other in ("avcC", "vpcC", "esds", "free"):
            yield fields(box(other, inner[8:]))
        for size in (*range(10), len(inner) - 1, len(inner) + 1, len(inner) + 8, len(fields(inner)) + 8, len(fields(inner)) + 9, 0xFFFFFFFF):
            yield fields(u(4, size) + inner[4:])
            yield fields(u(4, size) + inner[4:] + FREE)
            yield fields(FREE + u(4, size) + inner[4:])
            yield fields(inner + u(4, size) + FREE[4:])
        numbers = {"reference": 2} | ({"channels": 2, "bits": 2, "rate": 4} if kind == "mp4a" else {
            "width": 2, "height": 2, "across": 4, "down": 4, "frames": 2, "depth": 2})
        for number, width in numbers.items():
            for limit in LIMITS[width]:
                yield fields(inner, **{number: limit})
        constants = {"reserved": b"abcdef", "zero": b"wxyz"} | ({"blank": b"ijklmnop"} if kind == "mp4a" else {
            "blank": b"ijklmnopqrstuvwx", "name": b"\7encoder", "last": 24})
        for number, value in constants.items():
            yield fields(inner, **{number: value})
            yield fields(plain, **{number: value})
        for version in (1, 2):  # of a QuickTime sound entry, whose fields are more
            yield sound(bytes(16) + inner, blank=u(2, version) + bytes(6)) if kind == "mp4a" else visual(inner, blank=u(2, version) + bytes(14))


def by_chance(kind, rnd):
    """The content of one box, sound for the most part."""
    def n(width):
        return rnd.choice((rnd.choice(LIMITS[width]), rnd.randrange(1 << 8 * width), rnd.randrange(300) % (1 << 8 * width)))

    def seldom(value, plain):
        return value if rnd.random() < .1 else plain

    if kind == "avcC":
        def some(most):
            return tuple(rnd.randbytes(rnd.randrange(9)) for _ in range(rnd.choice((1, 1, 1, rnd.randrange(most)))))
        return avcc(seldom(n(1), 1), rnd.choice((66, 77, 88, 100, n(1))), n(1), n(1), rnd.choice((0xFF, n(1))), some(6), some(5),
                    rnd.choice((0xE0, 0xE0, 0, 0x40)), rnd.choice((b"", b"", rnd.randbytes(4))),
                    (seldom(rnd.randrange(32), None), seldom(n(1), None)))
    if kind == "vpcC":
        return vpcc(seldom(n(1), 1), seldom(n(3), 0), n(1), n(1), n(1), rnd.choice(((0, 0, 0), (n(1), n(1), n(1)))),
                    rnd.choice((b"", b"", rnd.randbytes(rnd.randrange(6)))), seldom(n(2), None))
    if kind == "tx3g":
        return words(rnd.choice((b"", FREE, rnd.randbytes(rnd.randrange(9)))), n(2), n(4), (n(1), n(1)), tuple(n(1) for _ in range(4)),
                     tuple(n(2) for _ in range(4)), rnd.randbytes(12), seldom(rnd.randbytes(6), bytes(6)))
    if kind == "esds":
        def width():
            return rnd.choice((None, None, None, 1, 2, 3, 4))
        def extra():
            return rnd.choice((b"", b"", b"", b"", desc(rnd.randrange(256), rnd.randbytes(rnd.randrange(5)), width())))
        info = rnd.choice((config(2, n(1) % 13, n(1) % 8), config(rnd.choice((2, 5, 29, 42, rnd.randrange(32, 96))), n(1) % 16, n(1) % 16, n(3)),
                           rnd.randbytes(rnd.randrange(7)), None))
        inside = desc(4, decoder(info, rnd.choice((0x40, n(1))), rnd.choice((0x15, n(1))), n(3), n(4), n(4), extra(), extra(), width()), width())
        content = es(n(2), seldom(n(1), 0), n(2), rnd.randbytes(rnd.randrange(5)), n(2), seldom(b"", inside),
                     rnd.choice((desc(6, b"\2"), desc(6, b"\2"), b"\6\0\0", b"", extra() + desc(6, b"\2") + extra())), extra())
        return esds(content, seldom(n(1), 0), seldom(n(3), 0), width(), rnd.choice((b"", b"", b"", rnd.randbytes(rnd.randrange(5)))))
    inner = {"mp4a": "esds", "avc1": "avcC", "vp09": "vpcC"}[kind]
    own = rnd.choice((box, box, box, box, large))(inner, by_chance(inner, rnd))
    other = box(rnd.choice(("free", "btrt", "pasp", "colr")), rnd.randbytes(rnd.randrange(9)))
    children = b"".join(rnd.choice(((own,), (own,), (own,), (own, other), (other, own), (), (other,), (own, own), (other, other, own))))
    if kind == "mp4a":
        return sound(children, n(2), n(2), n(2), n(4), seldom(rnd.randbytes(6), bytes(6)), seldom(rnd.randbytes(8), bytes(8)),
                     seldom(rnd.randbytes(4), bytes(4)))
    return visual(children, n(2), n(2), n(2), n(4), n(4), n(2), rnd.choice((b"", b"", rnd.randbytes(32))), n(2),
                  seldom(rnd.randbytes(6), bytes(6)), seldom(rnd.randbytes(16), bytes(16)), seldom(rnd.randbytes(4), bytes(4)),
                  seldom(n(2), 0xFFFF))


# THE BOXES

def lengths(kind, content):
    """A box at every length: cut there, stated and cut there, stated there with its bytes behind it."""
    whole = box(kind, content)
    for length in range(len(whole)):
        yield whole[:length]
        if length >= 8:
            yield u(4, length) + whole[4:length]
            yield u(4, length) + whole[4:]


def ordered(kind):
    contents = list(dict.fromkeys(ordered_content(kind)))
    for i, content in enumerate(contents):
        yield box(kind, content)
        if i % 4 == 0:
            yield large(kind, content)
    for content in contents[:2]:
        yield from lengths(kind, content)
        yield from oracle.sizes(kind, content)
    for data in corpus(kind):
        yield data
        if len(data) < 300:
            yield from lengths(kind, data[8:])


@functools.cache
def corpus(kind):
    """The boxes of this kind in the files, each once."""
    found = {}
    for name in sorted(FILES.iterdir()):
        for data in every(name.read_bytes()):
            if data[4:8] == kind.encode():
                found[data] = True
    return list(found)


FOUND = {}


def every(data):
    """The sample entries of a file and the boxes in them."""
    if data not in FOUND:
        FOUND[data] = []
        for one in collect.walk(data, 0, len(data)):
            if one[4:8] in (b"avc1", b"vp09", b"mp4a", b"tx3g"):
                FOUND[data].append(one)
                behind = {b"mp4a": 36, b"tx3g": len(one)}.get(one[4:8], 86)
                FOUND[data] += list(collect.walk(one, behind, len(one)))
    return FOUND[data]


def some_configuration(rnd):
    return b"asc ", rnd.randbytes(rnd.randrange(8))


def some_length(rnd, tag):
    return b"dput", bytes((tag,)) + u(4, rnd.randrange(1 << rnd.randrange(1, 33)))


def some_descriptor(rnd):
    content = rnd.randbytes(rnd.randrange(4, 200))
    return b"desc", desc(rnd.randrange(256), content, rnd.choice((None, 2, 3, 4)), rnd.choice((None, len(content) + 1, len(content) - 1)))


def some_sound(rnd):
    return b"nmp4", rnd.randbytes(4) + bytes((rnd.randrange(1, 48), rnd.randrange(14), rnd.randrange(1, 8)))


def some_picture(rnd):
    sps = rnd.randbytes(rnd.randrange(4, 60))
    return b"navc", rnd.randbytes(4) + u(2, len(sps)) + sps + rnd.randbytes(rnd.randrange(60))


def questions(count, seed):
    """Letters and bytes: all codes, and lengths and configurations in order and then by chance."""
    rnd = random.Random(seed)
    found = [(letters, bytes((n,))) for letters in (b"aot ", b"freq", b"chan") for n in range(256)]
    found += [(b"prof", bytes((profile, n))) for profile in range(256) for n in (0, 0x40, 0x80, 0xBF, 0xFF)]
    found += [(b"prof", bytes((66, n))) for n in range(256)]
    found += [(b"kind", letters) for letters in (b"vide", b"soun", b"sbtl", b"VIDE", b"hint", b"text", b"subt", b"meta", b"vidf")]
    found += [(b"asc ", data) for data in configs()]
    found += [some_configuration(rnd) for _ in range(count)]
    for length in (0, 1, 127, 128, 129, 16383, 16384, 2097151, 2097152, (1 << 28) - 1, 1 << 28, 0xFFFFFFFF):
        found.append((b"dput", bytes((rnd.randrange(256),)) + u(4, length)))
    found += [some_length(rnd, n % 256) for n in range(count // 4)]
    for head in (b"", b"\3", b"\3\x80", b"\3\x80\x80\x80\x80", b"\3\xff\xff\xff\x7f", b"\3\0", b"\3\x81\0", b"\3\x80\x80\x80\1x", b"\3\2x"):
        found.append((b"desc", head))
    found += [some_descriptor(rnd) for _ in range(count // 4)]
    for kind in (*range(31), *range(32, 64)):
        for index in (0, 3, 12, 15):
            for channels in (1, 2, 7):
                found.append((b"aput", bytes((kind, index)) + u(3, 48000 if index == 15 else 0) + bytes((channels,))))
    return list(dict.fromkeys(found + list(new(count, rnd))))


def new(count, rnd):
    """New entries: every code of the sound with the others usual, sizes at their limits, sets of every short length."""
    for codes in ([(n, 3, 2) for n in range(48)] + [(2, n, 2) for n in range(17)] + [(2, 3, n) for n in range(10)]
                  + [(42, n, 7) for n in range(13)]):
        yield b"nmp4", u(4, 128000) + bytes(codes)
    for bitrate in LIMITS[4]:
        yield b"nmp4", u(4, bitrate) + bytes((2, 4, 1))
    yield from (some_sound(rnd) for _ in range(count // 10))
    for width in LIMITS[2]:
        for height in LIMITS[2]:
            yield b"nvp9", u(2, width) + u(2, height)
            yield b"navc", u(2, width) + u(2, height) + u(2, len(SPS)) + SPS + PPS
    for first in range(10):
        for second in range(3):
            yield b"navc", u(2, 320) + u(2, 240) + u(2, first) + rnd.randbytes(first) + rnd.randbytes(second)
    yield from (some_picture(rnd) for _ in range(count // 10))
    yield b"ntx3", b""


# THE COMPARISONS

class Parts(original.Domain):
    """What copy_entries is asked, a line for each part."""
    crate = "copy_entries"

    def is_known(self, part):
        return rust_entries.is_known(part)

    def second(self, part):
        return [entries.line(part)]

    def run(self, program, parts):
        return ([line] for line in original.over_packs(program, parts))


class Entries(Parts):
    """A case is a kind and the bytes of a box."""
    name = "entries"

    def ordered(self):
        return list(dict.fromkeys((kind, data) for kind in rust_entries.KINDS for data in ordered(kind)))

    def chance(self, rnd):
        kind = rnd.choice(rust_entries.KINDS)
        real = corpus(kind)
        if real and rnd.random() < .3:
            base = rnd.choice(real)
        else:
            content = by_chance(kind, rnd)
            base = large(kind, content) if rnd.random() < .05 else box(kind, content)
        return kind, base if rnd.random() < .4 else oracle.damaged(kind, base, rnd)

    def parts(self, case):
        return [part for _, part in rust_entries.parts(*case)]

    def commands(self, case):
        kind, data = case
        return [f"{command} {kind} {data.hex()}" for command in ("read", "copy")]

    def asked(self, case, theirs):
        return [f"{case[0]} {'read' if theirs[0].startswith('OK') else 'not read'} by the original"]

    def differences(self, case, ours, theirs):
        kind, data = case
        answer, model = rust_entries.original(*theirs), rust_entries.boxed(data, kind)[:3]
        mine = rust_entries.Ours(kind, data, [line for line, in ours])
        numbers = rust_entries.classes(kind, data, mine, answer)
        numbers += [] if answer == model else [f"the model has another answer: {model}"]
        return [(question, numbers) for question in self.asked(case, theirs) if numbers]


def seconds():
    """Streams with a second DecoderConfig of every length, behind the first or before it, and a second DecoderSpecificInfo."""
    layer, one = desc(6, b"\2"), desc(4, decoder())
    other = decoder(config(5, 6, 1), 0x66, 0x11, 9, 7, 8)
    for length in range(len(other) + 1):
        two = desc(4, other[:length])
        for inside in (one + two, two + one):
            yield from (es(inside=inside), es(inside=inside, after=b""))
        yield from (es(after=layer + two), es(after=two + layer))
    for info in (config(5, 6, 1), config(42, 4, 2), config(2, 15, 2)):
        for length in range(len(info) + 1):
            for first in (config(), None, b"", b"\x12"):
                inside = desc(4, decoder(first, after=desc(5, info[:length])))
                yield from (es(inside=inside), es(inside=inside, after=b""))


def any_descriptor(rnd, depth=0):
    """Of any kind, with others in it; now and then its length is another."""
    tag = rnd.choice((3, 4, 4, 4, 5, 5, 6, 0x80, rnd.randrange(256)))

    def perhaps(part):
        return any_descriptor(rnd, depth + 1) if depth < 3 and rnd.random() < part else b""

    content = rnd.randbytes(rnd.randrange(rnd.choice((2, 6, 18))))
    if tag == 4 and rnd.random() < .7:
        content = decoder(rnd.choice((config(), None, rnd.randbytes(rnd.randrange(5)))), rnd.randrange(256), rnd.randrange(256),
                          before=perhaps(.3), after=perhaps(.4))
    elif tag == 5:
        content = rnd.choice((config(5, 6, 1), config(42, 4, 2), rnd.randbytes(rnd.randrange(6))))
    elif tag == 3 and rnd.random() < .5:
        content = es(rnd.randrange(1 << 16), inside=perhaps(1))
    length = None if rnd.random() < .85 else max(len(content) + rnd.randrange(-3, 4), 0)
    return desc(tag, content, rnd.choice((None, None, None, 2, 4)), length)


class Streams(Entries):
    """Entries and esds boxes with rows of descriptors of any kind."""
    name = "streams"

    def ordered(self):
        return list(dict.fromkeys((kind, made) for content in seconds() for kind, made in (
            ("esds", box("esds", esds(content))), ("mp4a", box("mp4a", sound(box("esds", esds(content))))))))

    def chance(self, rnd):
        inside = (desc(4, decoder()) if rnd.random() < .6 else b"") + b"".join(any_descriptor(rnd) for _ in range(rnd.randrange(1, 4)))
        content = es(flags=rnd.choice((0, 0, 0, 0, 0, 0, 0x80, 0x40, 0x20, 0xE0)), inside=inside,
                     after=rnd.choice((desc(6, b"\2"), b"", any_descriptor(rnd))))
        data = box("esds", esds(content, after=rnd.choice((b"", b"", b"", any_descriptor(rnd)))))
        kind = rnd.choice(("esds", "mp4a"))
        data = data if kind == "esds" else box("mp4a", sound(data))
        return kind, data + rnd.choice((b"", b"", b"", b"", rnd.randbytes(rnd.randrange(20))))


class Questions(Parts):
    """A case is the letters of a question and its bytes."""
    name = "questions"

    def ordered(self):
        return questions(0, 0)

    def chance(self, rnd):
        way = rnd.randrange(8)
        if way < 4:
            return some_configuration(rnd)
        return (some_descriptor, some_sound, some_picture)[way - 4](rnd) if way < 7 else some_length(rnd, rnd.randrange(256))

    def made(self, count, seed):
        return questions(count // 10, seed)

    def parts(self, case):
        return [rust_entries.asking(*case)]

    def commands(self, case):
        return [rust_entries.command(*case)]

    def asked(self, case, theirs):
        return [case[0].decode()]

    def differences(self, case, ours, theirs):
        numbers = rust_entries.question_classes(*case, ours[0][0], theirs[0])
        return [(question, numbers) for question in self.asked(case, theirs) if numbers]


# THE FIXED LIST

HEAD = """# Sample entries and questions, and what the original, the Rust crate mp4 0.14.0, answers to them: its record and position
# (read), the bytes that it writes of it (copy). Its supplied files were compiled as they are, over stand-ins that hold data
# only, without overflow checks, by rustc 1.95. `differs` has the numbers of docs/DIFFERENCES.md. Made by
# expected/oracle_entries.py --store ORACLE %d %d, which takes of %d boxes and %d questions the smallest of each class, those
# of the corpus, and some that are alike.
"""


def store(found, asked, count, seed):
    keep = set()
    groups = collections.defaultdict(list)
    for i, one in enumerate(found):
        groups[one.case[0], tuple(one.numbers[:2]), one.theirs[0].startswith("OK")].append(i)
    for (_, numbers, _), place in groups.items():
        keep.update(sorted(place, key=lambda i: len(found[i].case[1]))[:2] if numbers else place[::max(len(place) // 10, 1)][:10])
    real = {data for kind in rust_entries.KINDS for data in corpus(kind)}
    keep |= {i for i, one in enumerate(found) if one.case[1] in real}
    keep = [found[i] for i in sorted(keep) if len(found[i].case[1]) < 1024]
    few = collections.Counter()
    with open(rust_entries.STORED, "w") as file:
        file.write(HEAD % (count, seed, count, len(asked)))
        for one in keep:
            (kind, data), (read, copy) = one.case, one.theirs
            file.write(f"box {kind} {data.hex()}\nread {read}\ncopy {copy}\ndiffers {' '.join(map(str, one.numbers))}\n")
        for one in asked:
            (letters, data), differs = one.case, " ".join(map(str, one.numbers))
            few[letters, differs] += 1
            if few[letters, differs] <= (300 if letters in (b"aot ", b"freq", b"chan") else 20):
                file.write(f"ask {letters.decode().strip()} {data.hex()}\nread {one.theirs[0]}\ncopy -\ndiffers {differs}\n")
    return len(keep)


if __name__ == "__main__":
    sys.exit(original.main(__doc__, [Entries(), Questions()], store))
