#!/usr/bin/env python3
"""The stbl box of a track as a camera writes it, for the counts of docs/PERFORMANCE.md.

    speed/tables.py SAMPLES PER_CHUNK FORM >FILE

One behind the other in the file from byte 48 on lie samples of 100 to 149 bytes, PER_CHUNK in each chunk, each 1,000 long,
every thirtieth sync. FORM says how the tables tell it: `few` with one entry in stts and stsc and no ctts; `many` with an
entry for each sample in stts, for each chunk in stsc, and a ctts with an entry for each sample.
"""
import struct
import sys


def box(kind, *numbers):
    body = struct.pack(">%dI" % (len(numbers) + 1), 0, *numbers)
    return struct.pack(">I4s", 8 + len(body), kind) + body


def rows(*entries):
    """A count, and the numbers of the entries."""
    return (len(entries), *(n for entry in entries for n in entry))


def stbl(samples, per_chunk, form):
    sizes = [100 + i % 50 for i in range(samples)]
    at, chunks = 48, []
    for i, size in enumerate(sizes):
        if i % per_chunk == 0:
            chunks.append(at)
        at += size
    if form == "many":
        stts = [(1, 1000)] * samples
        stsc = [(i + 1, per_chunk, 1) for i in range(len(chunks))]
    else:
        stts, stsc = [(samples, 1000)], [(1, per_chunk, 1)]
    boxes = [box(b"stts", *rows(*stts))]
    if form == "many":
        boxes.append(box(b"ctts", *rows(*[(1, 5)] * samples)))
    boxes.append(box(b"stsc", *rows(*stsc)))
    boxes.append(box(b"stsz", 0, samples, *sizes))
    boxes.append(box(b"stco", *rows(*[(c,) for c in chunks])))
    boxes.append(box(b"stss", *rows(*[(i + 1,) for i in range(0, samples, 30)])))
    body = b"".join(boxes)
    return struct.pack(">I4s", 8 + len(body), b"stbl") + body


if __name__ == "__main__":
    if len(sys.argv) != 4 or sys.argv[3] not in ("few", "many"):
        sys.exit(__doc__)
    sys.stdout.buffer.write(stbl(int(sys.argv[1]), int(sys.argv[2]), sys.argv[3]))
