#!/usr/bin/env python3
"""Writes crates/copy_boxes/data/corpus.pack: every box that expected/boxes.py reads, of the files named.

    python3 expected/collect.py PACK FILE ...
Boxes are found by a walk of their own: from each file's top, into the boxes that hold boxes. Equal boxes go in once,
in the order in which they are met, and a box above 64 KiB is left out and named. The stored pack was made of 22 files
of four muxers: ffmpeg 5.1.9, GStreamer 1.22.0, VLC 3.0.24 and libquicktime 1.2.4, as Debian 12 has them.
"""
import sys

import boxes

HOLD = {kind.encode(): 0 for kind in "moov trak mdia minf stbl edts dinf mvex moof traf".split()}
HOLD.update({b"dref": 8, b"stsd": 8})  # how many bytes lie before the boxes
MOST = 65536


def walk(data, at, end):
    """Each box from `at` to `end`, and those in it."""
    while end - at >= 8:
        size, head = boxes.number(data, at, 4), 8
        if size == 1:
            size, head = boxes.number(data, at + 8, 8), 16
        elif size == 0:
            size = end - at
        if size < head or at + size > end:
            return
        kind = data[at + 4:at + 8]
        yield data[at:at + size]
        if kind in HOLD:
            yield from walk(data, at + head + HOLD[kind], at + size)
        at += size


def main():
    found, left_out = {}, 0
    for name in sys.argv[2:]:
        with open(name, "rb") as file:
            data = file.read()
        for box in walk(data, 0, len(data)):
            if box[4:8] in boxes.READERS:
                if len(box) > MOST:
                    print("left out:", name, box[4:8].decode(), len(box))
                    left_out += 1
                else:
                    found[box] = True
    with open(sys.argv[1], "wb") as file:
        file.write(boxes.pack_of(found))
    print(f"{len(found)} boxes, {left_out} left out")


if __name__ == "__main__":
    main()
