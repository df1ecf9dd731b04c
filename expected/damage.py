#!/usr/bin/env python3
"""Writes the damaged and built files of crates/print_tree/data into a folder, the same bytes at every run.

    python3 expected/damage.py FOLDER
The one that is cut is made of crates/print_tree/data/ff_1frame.mp4.
"""
import pathlib
import sys

SOUND = pathlib.Path(__file__).resolve().parent.parent / "crates/print_tree/data/ff_1frame.mp4"


def u16(n):
    return n.to_bytes(2, "big")


def u32(n):
    return n.to_bytes(4, "big")


def u64(n):
    return n.to_bytes(8, "big")


def box(kind, content=b"", size=None):
    """A box; `size` is what its header says, where that is not its length."""
    return u32(len(content) + 8 if size is None else size) + kind + content


def large(kind, content=b"", size=None):
    """A box with a 64-bit size."""
    return u32(1) + kind + u64(len(content) + 16 if size is None else size) + content


def nested(depth, content=b""):
    """`content` inside `depth` boxes of type moov."""
    for _ in range(depth):
        content = box(b"moov", content)
    return content


def counted(kind, count, entries):
    return box(kind, u32(0) + u32(count) + entries)


def in_stbl(content):
    """`content` where sample tables stand."""
    for kind in (b"stbl", b"minf", b"mdia", b"trak", b"moov"):
        content = box(kind, content)
    return content


def sound_entry(version, rest):
    """mp4a: six zeros, the data reference, the version, then the fields up to 28 bytes; `rest` comes after them."""
    return box(b"mp4a", bytes(6) + u16(1) + u16(version) + bytes(6) + u16(2) + u16(16) + u32(0) + u32(48000 << 16) + rest)


def picture_entry(kind, rest):
    """avc1 or vp09: 78 bytes of fields, then `rest`."""
    return box(kind, bytes(6) + u16(1) + bytes(70) + rest)


FREE = box(b"free")
ESDS = box(b"esds", bytes(20))


def files():
    sound = SOUND.read_bytes()
    moov = sound.index(b"moov") - 4
    tables = box(b"stts", u32(0) * 2)
    return {
        # cut inside its moov: 1 at the moov's start
        "cut.mp4": sound[:moov + 300],
        # a child that passes its parent by one byte, and not the file: 1
        "past.mp4": box(b"moov", box(b"free", size=9)) + FREE,
        # a box below the top of 7 bytes: 2
        "small.mp4": box(b"moov", box(b"free", size=7)) + FREE,
        # a size of 0 below the top: 2
        "zero.mp4": box(b"moov", box(b"free", size=0)) + FREE,
        # eleven boxes, one inside the other: 3; ten are fine
        "deep.mp4": nested(11),
        "ten.mp4": nested(10),
        # 4,097 boxes: 4; 4,096 are fine
        "many.mp4": FREE * 4097,
        "full.mp4": FREE * 4096,
        # document 01's case 9
        "large16.mp4": large(b"free", size=16) + FREE,
        "large15.mp4": large(b"free", size=15) + FREE,
        # a size of 7 in 5 bytes: 1 and 2 at one position, and 1 wins; the cut type comes after
        "order.mp4": box(b"moov", u32(7) + b"f"),
        # a 64-bit size and a type that are cut, at depth 11: 3 is at the box's start and wins
        "order3.mp4": nested(10, u32(1) + b"f"),
        # a count of 2 with one entry: 1 where the second should begin, though more boxes follow
        "stsd.mp4": in_stbl(counted(b"stsd", 2, picture_entry(b"avc1", box(b"avcC", bytes(7)))) + tables),
        # QuickTime's entry of version 1, with 16 bytes more before its child: elsewhere, and not entered
        "quick.mp4": in_stbl(counted(b"stsd", 1, sound_entry(1, bytes(16) + ESDS)) + tables),
        "empty.mp4": b"",
        # the same child in an entry of version 0 is entered, and in vp09
        "entries.mp4": in_stbl(counted(b"stsd", 3, sound_entry(0, ESDS) + picture_entry(b"vp09", FREE) + FREE) + tables),
        # entries that end inside their fields, and an stsd that ends inside its count: nothing to enter
        "short.mp4": in_stbl(counted(b"stsd", 2, box(b"mp4a", bytes(8) + b"\1") + box(b"avc1", bytes(77))) + box(b"stsd", bytes(7))),
        # bytes after the counted entries are skipped
        "rest.mp4": in_stbl(counted(b"stsd", 1, FREE + b"\0\0\0") + tables),
        # boxes out of their place: plain containers are entered there, stsd and its entries are not
        "foreign.mp4": box(b"trak", counted(b"stsd", 9, b"") + box(b"trak", box(b"tkhd"))) + counted(b"stsd", 9, b"") + tables,
        # 1, 5 and 12 bytes left: the cut field is the size, the type, the 64-bit size
        "left1.mp4": FREE + b"\0",
        "left5.mp4": box(b"moov", u32(1) + b"f"),
        "left12.mp4": box(b"moov", u32(1) + b"free" + u32(0)),
        # seven zero bytes at the end: the type is cut; eight are a box that reaches the end
        "zeros7.mp4": FREE + bytes(7),
        "zeros8.mp4": FREE + bytes(8),
        # a size of 0 at the top takes the rest in, here a moov and what follows it
        "toend.mp4": box(b"moov", box(b"mvhd"), size=0) + FREE,
        # a 64-bit size that would wrap: 1; a sound one below the top
        "wraps.mp4": FREE + large(b"free", size=2**64 - 8),
        "large.mp4": box(b"moov", large(b"trak", box(b"tkhd"))) + FREE,
        # the 4,097th box is too deep besides: 3 is the smaller number
        "both.mp4": FREE * 4086 + nested(11),
        # a type with bytes that are no letters
        "name.mp4": box(b"\xa9n\0~") + box(b"uuid", bytes(4)),
    }


def main():
    folder = pathlib.Path(sys.argv[1])
    for name, content in files().items():
        (folder / name).write_bytes(content)


if __name__ == "__main__":
    main()
