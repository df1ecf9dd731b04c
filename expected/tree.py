#!/usr/bin/env python3
"""Prints the box tree of each file named: a second implementation, to hold the proved one against.

Written from document 01 and readings A2, A3, A5, A6, A7, A11, A24, A44, A45 and A47.
    python3 expected/tree.py FILE ...
"""
import os
import sys

MOST_BYTES, MOST_BOXES, MOST_DEPTH = 1_073_741_824, 4_096, 10

# A2: what is read in which parent. Elsewhere the same box is unknown.
PLACES = {
    b"file": "ftyp moov moof mdat emsg",
    b"moov": "mvhd trak mvex",
    b"mvex": "trex",
    b"trak": "tkhd edts mdia",
    b"edts": "elst",
    b"mdia": "mdhd hdlr minf",
    b"minf": "dinf stbl",
    b"dinf": "dref",
    b"dref": "url_",
    b"stbl": "stsd stts ctts stsc stsz stco co64 stss",
    b"stsd": "avc1 mp4a vp09 tx3g",
    b"avc1": "avcC",
    b"mp4a": "esds",
    b"vp09": "vpcC",
    b"moof": "mfhd traf",
    b"traf": "tfhd tfdt trun",
}
PLACED = {(parent, kind.replace("_", " ").encode()) for parent, kinds in PLACES.items() for kind in kinds.split()}

# A3: boxes that hold boxes and nothing else. They are entered wherever they stand.
PLAIN = {b"moov", b"mvex", b"trak", b"edts", b"mdia", b"minf", b"dinf", b"stbl", b"moof", b"traf"}

# Boxes that are entered in their place alone: those with a count (A47), and those with fields before their children.
COUNTED = {b"stsd", b"dref"}
FIELDS_FIRST = {b"avc1": 78, b"vp09": 78, b"mp4a": 28}


class Refused(Exception):
    """A fault: its number and its position."""


def number(data, at, width):
    return int.from_bytes(data[at:at + width], "big")


def header(data, at, end, depth, count):
    """Type, start of the content and end of the box at `at`, whose parent ends at `end`; A5 has the order of the faults."""
    left = end - at
    if left < 4:
        raise Refused(1, at)
    size, head = number(data, at, 4), 8
    if size == 1:
        size, head = number(data, at + 8, 8) if left >= 16 else None, 16  # None: not known yet
    elif size == 0 and depth == 1:
        size = left if left >= 8 else None  # to the file's end; a cut type is judged below (A45)
    if size is not None and size > left:
        raise Refused(1, at)
    if size is not None and size < head:
        raise Refused(2, at)
    if depth > MOST_DEPTH:
        raise Refused(3, at)
    if count >= MOST_BOXES:
        raise Refused(4, at)
    if left < 8:
        raise Refused(1, at + 4)
    if left < head:
        raise Refused(1, at + 8)
    return data[at + 4:at + 8], at + head, at + size


def one(data, at, end, depth, parent, parent_placed, boxes):
    """Records the box at `at` and all that is in it; the answer is where it ends."""
    kind, content, after = header(data, at, end, depth, len(boxes))
    placed = parent_placed and (parent, kind) in PLACED
    if kind == b"mp4a" and content + 10 <= after and number(data, content + 8, 2) != 0:
        placed = False  # A24: QuickTime's entry of a later version
    boxes.append((depth, kind, at, after - at, placed))
    if kind in PLAIN:
        several(data, content, after, depth + 1, kind, placed, boxes)
    elif placed and kind in COUNTED:
        entries = number(data, content + 4, 4) if content + 8 <= after else 0
        next_at = content + 8
        for _ in range(entries):
            next_at = one(data, next_at, after, depth + 1, kind, placed, boxes)
    elif placed and kind in FIELDS_FIRST:
        several(data, content + FIELDS_FIRST[kind], after, depth + 1, kind, placed, boxes)
    return after


def several(data, at, end, depth, parent, parent_placed, boxes):
    """Records the boxes from `at` to `end`."""
    while at < end:
        at = one(data, at, end, depth, parent, parent_placed, boxes)


def tree(name):
    """The boxes recorded, and the fault or nothing."""
    boxes = []
    if os.path.getsize(name) > MOST_BYTES:
        return boxes, (4, 0)
    with open(name, "rb") as file:
        data = file.read()
    try:
        several(data, 0, len(data), 1, b"file", True, boxes)
    except Refused as fault:
        return boxes, fault.args
    return boxes, None


def letters(kind):
    return "".join(chr(byte) if 0x20 <= byte <= 0x7E else "?" for byte in kind)


def main():
    for name in sys.argv[1:]:
        boxes, fault = tree(name)
        print(name)
        for depth, kind, start, size, placed in boxes:
            print(depth, letters(kind), start, size, "placed" if placed else "elsewhere")
        print(f"{len(boxes)} boxes, " + ("whole" if fault is None else "then refusal %d at %d" % fault))


if __name__ == "__main__":
    main()
