#!/usr/bin/env python3
"""Prints what crates/copy_boxes must print for packs of boxes: a second implementation, to hold the proved one against.

Written from document 01, the standards that it names, and readings A4, A5, A9, A18, A20 to A22, A26, A27, A47 to A49,
A52 and A65. A pack is a row of entries, each a length of four bytes and that many bytes: a box from its header on.
    python3 expected/boxes.py PACK ...
"""
import sys

MOST_BYTES = 1 << 20  # of a pack: the program reads no more


class Refused(Exception):
    """A fault: its number and its position."""


def number(data, at, width):
    return int.from_bytes(data[at:at + width], "big")


def signed(value, width):
    return value - (1 << 8 * width) if value >> 8 * width - 1 else value


def header(data, at=0, end=None, top=True):
    """Where the content of the box at `at` begins and where the box ends, in a parent that ends at `end`; A5 has the
    order of the faults. At the top size 0 reaches to the end."""
    left = (len(data) if end is None else end) - at
    if left < 4:
        raise Refused(1, at)
    size, head = number(data, at, 4), 8
    if size == 1:
        size, head = number(data, at + 8, 8) if left >= 16 else None, 16  # None: not known yet
    elif size == 0 and top:
        size = left if left >= 8 else None  # a cut type is judged below
    if size is not None and size > left:
        raise Refused(1, at)
    if size is not None and size < head:
        raise Refused(2, at)
    if left < 8:
        raise Refused(1, at + 4)
    if left < head:
        raise Refused(1, at + 8)
    return at + head, at + size


class Box:
    """A box that is read field after field: each first whole, then allowed. What is read is told and written again."""

    def __init__(self, data):
        self.data = data
        self.at, self.end = header(data)
        self.words, self.made = [], b""
        self.plain = data[:4] == self.end.to_bytes(4, "big")  # the size stands in four bytes, and is not 0

    def take(self, width):
        if self.at + width > self.end:
            raise Refused(1, self.at)
        self.at += width
        return self.data[self.at - width:self.at]

    def field(self, width, least=0, sign=False):
        """A number that is kept."""
        value = number(self.take(width), 0, width)
        if value < least:
            raise Refused(8, self.at - width)
        self.made += value.to_bytes(width, "big")
        self.words.append(signed(value, width) if sign else value)
        return value

    def optional(self, there, width, sign=False):
        """A number that is 0 where it is not there."""
        return self.field(width, sign=sign) if there else self.words.append(0)

    def reserved(self, width):
        """Bytes that must be there and are written as zeros, whatever they were (A22)."""
        if any(self.take(width)):
            self.plain = False
        self.made += bytes(width)

    def full(self, *versions):
        """Version and flags."""
        version = self.take(1)[0]
        if version not in versions:
            raise Refused(7, self.at - 1)
        self.words.append(version)
        self.made += bytes([version])
        return version, self.field(3)

    def string(self):
        """Bytes up to a 0, which is not part of them; 1 at the first byte where there is none in the box (A27)."""
        stop = self.data.find(b"\0", self.at, self.end)
        if stop < 0:
            raise Refused(1, self.at)
        self.bytes(stop)
        self.made += self.take(1)

    def bytes(self, stop=None):
        """Bytes of any kind, to the box's end where no other is given."""
        part = self.take((self.end if stop is None else stop) - self.at)
        self.words.append("x" + part.hex())
        self.made += part

    def table(self, count, entry):
        """As many entries as counted: the fields of each in brackets."""
        for _ in range(count):
            self.words.append("[")
            entry(self)
            self.words.append("]")


# THE BOXES: ISO/IEC 14496-12 but for emsg (23009-1)

def wide(version):
    return 8 if version == 1 else 4


def tkhd(box):  # 8.3.2
    version, _ = box.full(0, 1)
    box.field(wide(version)), box.field(wide(version))  # creation, modification
    box.field(4, least=1)  # track
    box.reserved(4)
    box.field(wide(version))  # duration
    box.reserved(8)
    box.field(2), box.field(2), box.field(2)  # layer, group, volume
    box.reserved(2)
    for _ in range(9 + 2):  # matrix, width and height
        box.field(4)


def mdhd(box):  # 8.4.2
    version, _ = box.full(0, 1)
    box.field(wide(version)), box.field(wide(version))  # creation, modification
    box.field(4, least=1)  # timescale
    box.field(wide(version))  # duration
    box.field(2)  # language
    box.reserved(2)


def hdlr(box):  # 8.4.3
    box.full(0)
    box.reserved(4)
    box.field(4)  # type
    for _ in range(3):
        box.reserved(4)
    box.bytes()  # name


def elst(box):  # 8.6.6
    version, _ = box.full(0, 1)

    def edit(box):
        box.field(wide(version))
        time = signed(box.field(wide(version), sign=True), wide(version))
        if time < -1:
            raise Refused(8, box.at - wide(version))
        box.field(2, sign=True), box.field(2, sign=True)
    box.table(box.field(4), edit)


def stts(box):  # 8.6.1.2
    box.full(0)
    box.table(box.field(4), lambda b: (b.field(4), b.field(4)))


def ctts(box):  # 8.6.1.3, but signed in both versions
    box.full(0, 1)
    box.table(box.field(4), lambda b: (b.field(4), b.field(4, sign=True)))


def stsc(box):  # 8.7.4
    box.full(0)
    last = [0]

    def run(box):
        chunk = box.field(4, least=last[0] + 1)
        if last == [0] and chunk != 1:
            raise Refused(8, box.at - 4)
        last[0] = chunk
        box.field(4, least=1), box.field(4)
    box.table(box.field(4), run)


def stss(box):  # 8.6.2
    box.full(0)
    last = [0]

    def sync(box):
        last[0] = box.field(4, least=last[0] + 1)
    box.table(box.field(4), sync)


def stsz(box):  # 8.7.3.2
    box.full(0)
    common, count = box.field(4), box.field(4)
    box.table(0 if common else count, lambda b: b.field(4))


def stco(box):  # 8.7.5
    box.full(0)
    box.table(box.field(4), lambda b: b.field(4))


def co64(box):  # 8.7.5
    box.full(0)
    box.table(box.field(4), lambda b: b.field(8))


def url(box):  # 8.7.2
    box.full(0)
    box.bytes()  # location


def trex(box):  # 8.8.3
    box.full(0)
    box.field(4, least=1)  # track
    for _ in range(4):
        box.field(4)


def holder(box, *kinds):
    """A box of boxes: where the first of each of these types begins, 0 where there is none. All is written again."""
    first = {}
    content = at = box.at
    while at < box.end:
        _, after = header(box.data, at, box.end, top=False)
        first.setdefault(box.data[at + 4:at + 8], at)
        at = after
    box.words += [first.get(kind, 0) for kind in kinds]
    box.made += box.take(box.end - content)


def edts(box):  # 8.6.5
    holder(box, b"elst")


def dinf(box):  # 8.7.1
    holder(box, b"dref")


def mvex(box):  # 8.8.1
    holder(box, b"trex")


def moof(box):  # 8.8.4
    holder(box, b"mfhd", b"traf")


def traf(box):  # 8.8.6
    holder(box, b"tfhd", b"tfdt", b"trun")


def mfhd(box):  # 8.8.5
    box.full(0)
    box.field(4)


def tfhd(box):  # 8.8.7
    _, flags = box.full(0)
    box.field(4, least=1)  # track
    box.optional(flags & 0x1, 8)
    for flag in (0x2, 0x8, 0x10, 0x20):
        box.optional(flags & flag, 4)


def tfdt(box):  # 8.8.12
    version, _ = box.full(0, 1)
    box.field(wide(version))


def trun(box):  # 8.8.8; composition offsets by version (A49)
    version, flags = box.full(0, 1)
    count = box.field(4)
    box.optional(flags & 0x1, 4, sign=True)
    box.optional(flags & 0x4, 4)

    def sample(box):
        for flag in (0x100, 0x200, 0x400):
            box.optional(flags & flag, 4)
        box.optional(flags & 0x800, 4, sign=version == 1)
    box.table(count if flags & 0xF00 else 0, sample)  # samples that say nothing of themselves are not told


def emsg(box):  # 23009-1, 5.10.3.3
    version, _ = box.full(0, 1)
    if version == 0:
        box.string(), box.string()
    box.field(4), box.field(wide(version)), box.field(4), box.field(4)  # timescale, time, duration, id
    if version == 1:
        box.string(), box.string()
    box.bytes()  # message
    # numbers first in both versions, as in the record
    box.words.sort(key=lambda word: isinstance(word, str))


def dref(box):  # 8.7.2
    box.full(0)
    box.field(4)  # count
    box.bytes()  # the boxes of the references


def stsd(box):  # 8.5.2
    box.full(0)
    box.field(4)  # count
    box.bytes()  # the boxes of the sample entries


READERS = {reader.__name__.ljust(4).encode(): reader for reader in (
    tkhd, mdhd, hdlr, elst, stts, ctts, stsc, stss, stsz, stco, co64, url, trex, mfhd, tfhd, tfdt, trun, emsg, dref, stsd,
    edts, dinf, mvex, moof, traf)}


# THE LINES

def letters(kind):
    return "".join(chr(byte) if 0x20 <= byte <= 0x7E else "?" for byte in kind)


def told(data):
    """The words behind the type, and the box as it is written or nothing."""
    reader = READERS.get(data[4:8])
    if reader is None:
        return ["unknown"], None
    try:
        box = Box(data)
        reader(box)
    except Refused as fault:
        return ["refused", *fault.args], None
    canonical = box.plain and box.at == box.end
    box.words.append("canonical" if canonical else "other")
    made = (len(box.made) + 8).to_bytes(4, "big") + data[4:8] + box.made
    return box.words + (["same"] if made == data[:box.end] else ["wrote", made.hex()]), made


def line(data):
    kind = letters(data[4:8]) if len(data) >= 8 else "-"
    return " ".join(map(str, [kind, *told(data)[0]]))


def entries(pack):
    """The boxes of a pack; a last one that is cut is None."""
    at = 0
    while at + 4 <= len(pack):
        size = number(pack, at, 4)
        at += 4 + size
        if at > len(pack):
            yield None
            return
        yield pack[at - size:at]


def pack_of(boxes):
    pack = b"".join(len(box).to_bytes(4, "big") + box for box in boxes)
    assert len(pack) <= MOST_BYTES
    return pack


def main():
    for name in sys.argv[1:]:
        with open(name, "rb") as file:
            pack = file.read(MOST_BYTES)
        print(name)
        for data in entries(pack):
            print("cut" if data is None else line(data))


if __name__ == "__main__":
    main()
