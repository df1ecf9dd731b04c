#!/usr/bin/env python3
"""A file of two tracks, chunk by chunk one after the other, for the counts of docs/PERFORMANCE.md.

    speed/movie.py SAMPLES PER_CHUNK >FILE

Each track has so many samples of 10 to 19 bytes, PER_CHUNK in each chunk, each 1,000 long, every thirtieth sync. The
media data are zeros: nothing reads them.
"""
import os
import sys

sys.path.insert(0, os.path.join(os.path.dirname(os.path.abspath(__file__)), "..", "expected"))
from build import movie, trak  # noqa: E402


def two(samples, per_chunk):
    sizes = [10 + i % 10 for i in range(samples)]
    at, chunks = 48, ([], [])
    for first in range(0, samples, per_chunk):
        for own in chunks:
            own.append(at)
            at += sum(sizes[first:first + per_chunk])
    whole, rest = divmod(samples, per_chunk)
    stsc = [(1, per_chunk)] + ([(whole + 1, rest)] if rest else [])
    stss = list(range(1, samples + 1, 30))
    tracks = (trak(number, stts=[(samples, 1000)], stsc=stsc, stsz=sizes, stco=own, stss=stss) for number, own in enumerate(chunks, 1))
    return movie(at - 48, *tracks)


if __name__ == "__main__":
    if len(sys.argv) != 3:
        sys.exit(__doc__)
    sys.stdout.buffer.write(two(int(sys.argv[1]), int(sys.argv[2])))
