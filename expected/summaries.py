#!/usr/bin/env python3
"""Prints what crates/summarise must print for rows of 24 bytes: a second implementation, in whole numbers alone, to hold
the proved one against. Written from document 01, Summary and Duration.
    python3 expected/summaries.py <ROWS          prints the lines
    python3 expected/summaries.py --rows >ROWS   makes the rows of crates/summarise/stdin
"""
import random
import sys

WIDTHS = (4, 8, 4, 4, 4)  # count of samples, duration, timescale, width, height
ROW = sum(WIDTHS)
LAST32, LAST64 = (1 << 32) - 1, (1 << 64) - 1
LONGEST = LAST64 // 1_000_000

CASES = [
    (1800, 60_060, 1000, 1920 << 16, 1080 << 16),  # case 4: 29
    (1800, 1_801_800, 30_000, 0x18000, 0xFFFF),  # the same by another timescale, in a picture of 1.5 and almost 1
    (1800, 60_000, 1000, 1, LAST32),
    (1800, 60_001, 1000, 0x10000, 0xFFFF),
    (1800, LONGEST, 1, 0, 0),  # case 5: fits
    (1800, LONGEST + 1, 1, 0, 0),  # case 5: 9
    (1800, LONGEST + 1, LAST32, 0, 0),
    (1800, LONGEST, 0, 0, 0),  # 8
    (1800, LONGEST + 1, 0, 0, 0),  # 8, and not 9
    (1800, LAST64, 1, 0, 0),
    (1800, 0, 0, 0, 0),
    (1800, 0, 1, 0, 0),  # no time: 0
    (1, 999, 1_000_000, 0, 0),
    (1, 1000, 1_000_000, 0, 0),
    (1, 1999, 1_000_000, 0, 0),
    (1, 2000, 1_000_000, 0, 0),
    (LAST32, 1, 1000, LAST32, LAST32),  # the fastest
    (LAST32, LONGEST, LAST32, LAST32, 0x8000),
    (0, 1000, 1000, 0, 0),
]


def line(count, duration, timescale, width, height):
    if timescale == 0:
        return "refused\t8\t0"
    if duration * 1_000_000 > LAST64:
        return "refused\t9\t0"
    micros = duration * 1_000_000 // timescale
    millis = micros // 1000
    rate = count * 1000 // millis if millis else 0
    words = (rate, 0, width >> 16, width & 0xFFFF, height >> 16, height & 0xFFFF, micros)
    return "\t".join(str(word) for word in words)


def some(chance, bits):
    """A number of at most so many bits, often a short one."""
    return chance.getrandbits(chance.randint(1, bits))


def own():
    chance = random.Random(4)
    return CASES + [
        (some(chance, 32), some(chance, 48), some(chance, 24), chance.getrandbits(32), some(chance, 32)) for _ in range(150)
    ]


def row_bytes(some_rows):
    return b"".join(value.to_bytes(width, "big") for row in some_rows for value, width in zip(row, WIDTHS))


def rows():
    """These, then those of expected/tracks.txt, then one that is cut, for which there is no line."""
    import rust_tracks
    return row_bytes(own() + [rust_tracks.row(track) for track, _, _ in rust_tracks.stored()]) + bytes(ROW - 1)


def lines(data):
    for start in range(0, len(data) - ROW + 1, ROW):
        values, at = [], start
        for width in WIDTHS:
            values.append(int.from_bytes(data[at:at + width], "big"))
            at += width
        yield line(*values)


def main():
    if sys.argv[1:] == ["--rows"]:
        sys.stdout.buffer.write(rows())
    elif len(sys.argv) == 1:
        for told in lines(sys.stdin.buffer.read()):
            print(told)
    else:
        print(__doc__)
        return 2
    return 0


if __name__ == "__main__":
    sys.exit(main())
