#!/usr/bin/env python3
"""Prints the verdict on each file named, or the samples of one: a second implementation of the audit, to hold the proved
one against.

Written from document 01 and readings A1 to A55 and A66. The walk is expected/tree.py's, a box's fields are read by
expected/boxes.py, those of a sample entry and its configuration by expected/entries.py, and the samples of tables are listed
by expected/tables.py. What a track tells of itself is expected/describe.py's, and its figures are expected/summaries.py's.
    python3 expected/audit.py FILE ...
    python3 expected/audit.py --list FILE
    python3 expected/audit.py --summary FILE
"""
import decimal
import sys

import boxes
import describe
import entries
import summaries
import tables
import tree
from boxes import Refused

MOST_TRACKS, MOST_SAMPLES, MOST_FRAGMENTS = 4, 65_536, 1_024

# One sentence for each number, for a reader who knows nothing of MP4.
REFUSALS = {
    1: "the file ends too early, or a part of it is larger than the part that holds it",
    2: "a part of the file is said to be smaller than its own heading",
    3: "parts of the file lie more than 10 deep in each other",
    4: "the file has more bytes, tracks, samples, parts or fragments than are examined",
    5: "a part that every such file needs is missing",
    6: "a part that may be there only once is there twice",
    7: "a part of the file has a version that is not known",
    8: "a value in the file is not allowed",
    9: "a place or a time that the file gives is out of range",
    10: "the file has fragments and also samples outside of them",
}
FINDINGS = {
    1: "the tables of a track do not count the same samples",
    2: "a sample has no bytes",
    3: "a sample lasts no time and another follows it",
    4: "a sample lies outside the media data",
    5: "a sample overlaps another one or lies before it",
    6: "a byte of the media data belongs to no sample",
    7: "a fragment's number does not follow the one before",
    8: "a fragment's time does not follow the one before",
}
HEADING = "track number offset size time duration composition sync".split()
FIGURES = "track kind entry language timescale duration microseconds samples bytes frames width height".split()

# Each at most once in its parent (A16). stco and co64 are one of these: a file has the one or the other.
ONCE = set("ftyp moov mvhd mvex tkhd edts mdia elst mdhd hdlr minf dinf dref stbl stsd stts ctts stsc stsz stco stss "
           "avcC esds vpcC mfhd tfhd tfdt trun".split())
HOLDERS = set("edts dinf mvex moof traf".split())  # boxes.py has readers for them too; here the walk has judged them
READERS = {kind.decode("latin-1"): read for kind, read in {**boxes.READERS, **entries.READERS}.items()
           if kind.decode("latin-1") not in HOLDERS}


class Finding(Exception):
    """Number, track, sample, position, gap."""


# THE BOXES

class Node:
    """A box that the walk has recorded. `words` are its numbers, once it is read."""

    def __init__(self, kind="", start=0, end=0, placed=True, parent=None):
        self.kind, self.start, self.end, self.placed, self.parent = kind, start, end, placed, parent
        self.children = {}  # by type and in file order; those in their place alone
        self.words = None

    def slot(self):
        return "stco" if self.kind == "co64" else self.kind

    def all(self, kind):
        return self.children.get(kind, [])

    def first(self, kind):
        return next(iter(self.all(kind)), None)

    def payload(self, data):
        """Where the content begins, and where it ends."""
        return self.start + (16 if boxes.number(data, self.start, 4) == 1 else 8), self.end


def walked(data):
    """The file as a box of boxes, its boxes in file order, and the walk's fault or nothing."""
    rows, fault = [], None
    try:
        tree.several(data, 0, len(data), 1, b"file", True, rows)
    except tree.Refused as met:
        fault = Refused(*met.args)
    file = Node(end=len(data))
    open_boxes, nodes = [file], []
    for depth, kind, start, size, placed in rows:
        node = Node(kind.decode("latin-1"), start, start + size, placed, open_boxes[depth - 1])
        del open_boxes[depth:]
        open_boxes.append(node)
        nodes.append(node)
        if placed:
            node.parent.children.setdefault(node.slot(), []).append(node)
    return file, nodes, fault


class Fields(boxes.Box):
    """A box whose numbers are asked more than its reader asks: `ask` is given each as it is read, with its index."""

    def __init__(self, data, ask):
        super().__init__(data)
        self.ask = ask

    def field(self, width, least=0, sign=False):
        value = super().field(width, least, sign)
        self.ask(len(self.words) - 1, value, self.at - width)
        return value


class Contents:
    """The second pass of A1: the boxes in file order, each in its place and field by field."""

    def __init__(self, data, nodes):
        self.data = data
        self.tracks, self.defaults, self.run_samples = set(), set(), {}
        for node in nodes:
            if node.placed:
                self.place(node)
                if node.kind in READERS:
                    self.read(node)

    def place(self, node):
        """What is wrong with a box being there at all, at its first byte."""
        before = node.parent.all(node.slot()).index(node)
        if before >= {"trak": MOST_TRACKS, "moof": MOST_FRAGMENTS}.get(node.kind, before + 1):
            raise Refused(4, node.start)
        if before and node.slot() in ONCE:
            raise Refused(6, node.start)

    def read(self, node):
        def ask(index, value, at):
            if (node.kind, index) in self.ASKED:
                self.ASKED[node.kind, index](self, node, value, at)
        try:
            box = Fields(self.data[node.start:node.end], ask)
            READERS[node.kind](box)
        except Refused as fault:
            number, position = fault.args
            raise Refused(number, node.start + position) from None
        node.words = box.words

    def new_track(self, _node, track, at):
        if track in self.tracks:
            raise Refused(8, at)
        self.tracks.add(track)

    def known_track(self, _node, track, at):  # A19: among the tracks so far
        if track not in self.tracks:
            raise Refused(8, at)

    def new_default(self, _node, track, _at):  # A17: the box is at fault
        if track in self.defaults:
            raise Refused(6, 0)
        self.defaults.add(track)

    def in_this_file(self, _node, flags, at):  # A25
        if not flags & 1:
            raise Refused(8, at)

    def few(self, _node, count, at):
        if count > MOST_SAMPLES:
            raise Refused(4, at)

    def few_in_all(self, node, count, at):
        """A10: the run's track is in its traf's first tfhd, which may stand behind it."""
        track = self.track_of(node.parent)
        so_far = count + (self.run_samples.get(track, 0) if track else 0)
        if so_far > MOST_SAMPLES:
            raise Refused(4, at)
        self.run_samples[track] = so_far

    def track_of(self, traf):
        """The track's number, or nothing where it can not be read: none there, cut, or of a version not known."""
        tfhd = traf.first("tfhd")
        if tfhd is None:
            return None
        at, end = tfhd.payload(self.data)
        return boxes.number(self.data, at + 4, 4) if at + 8 <= end and self.data[at] == 0 else None

    ASKED = {
        ("tkhd", 4): new_track, ("trex", 2): new_default, ("tfhd", 2): known_track, ("url ", 1): in_this_file,
        ("stsz", 3): few, ("trun", 2): few_in_all,
    }


# THE MOVIE

def need(node, *kinds):
    for kind in kinds:
        if node.first(kind) is None:
            raise Refused(5, kind)


def defaults_of(file):
    """The trex of each track number."""
    mvex = file.first("moov").first("mvex")
    return {trex.words[2]: trex for trex in mvex.all("trex")} if mvex else {}


def complete(file):
    """5, in 01's order."""
    need(file, "ftyp", "moov")
    need(file.first("moov"), "mvhd")
    for trak in file.first("moov").all("trak"):
        need(trak, "tkhd", "mdia")
        need(trak.first("mdia"), "mdhd", "hdlr", "minf")
        need(trak.first("mdia").first("minf"), "dinf", "stbl")
        need(stbl_of(trak), "stsd", "stts", "stsc", "stsz", "stco")
    defaults = defaults_of(file)
    for moof in file.all("moof"):
        need(moof, "mfhd")
        for traf in moof.all("traf"):
            need(traf, "tfhd")
            if traf.first("tfhd").words[2] not in defaults:
                raise Refused(5, "trex")
            need(traf, "tfdt", "trun")


def stbl_of(trak):
    return trak.first("mdia").first("minf").first("stbl")


def tables_of(stbl):
    """The tables as expected/tables.py has them."""
    def entries(kind, before):
        node = stbl.first(kind)
        return None if node is None else tables.rows(node.words[before:])

    common, count = stbl.first("stsz").words[2:4]
    stss = entries("stss", 3)
    return tables.Tables(
        entries("stts", 3), entries("ctts", 3), entries("stsc", 3), common, count,
        [size for size, in entries("stsz", 4)], [chunk for chunk, in entries("stco", 3)],
        stbl.first("stco").kind == "co64", None if stss is None else [number for number, in stss])


class Run:
    """The samples of a traf: offset, size, time, duration, composition offset, sync."""

    def __init__(self, moof, traf, before, default):
        """`before` is the run before in the same moof, or nothing; `default` its track's trex."""
        _, flags, self.track, base, _, duration, size, sample_flags = traf.first("tfhd").words
        if not flags & 0x1:
            base = moof.start if flags & 0x20000 or before is None else before.end
        # what the tfhd does not say the trex does; its numbers behind the track: description, duration, size, flags
        _, whole_duration, whole_size, whole_flags = default.words[3:7]
        duration = duration if flags & 0x8 else whole_duration
        size = size if flags & 0x10 else whole_size
        sample_flags = sample_flags if flags & 0x20 else whole_flags
        self.time = time = traf.first("tfdt").words[2]
        words = traf.first("trun").words
        _, run_flags, count, offset, first_flags = words[:5]
        self.start = at = base + offset  # without a data offset, expected/boxes.py gives 0
        rows = tables.rows(words[5:]) if run_flags & 0xF00 else [(0, 0, 0, 0)] * count
        self.samples = []
        for row in rows:
            lasts = row[0] if run_flags & 0x100 else duration
            length = row[1] if run_flags & 0x200 else size
            own = sample_flags
            if run_flags & 0x400:
                own = row[2]
            elif run_flags & 0x4 and not self.samples:
                own = first_flags
            self.samples.append((at, length, time, lasts, row[3], not own & 0x10000))
            at, time = at + length, time + lasts
        self.end, self.next_time = at, time


class Movie:
    """A file that is not refused: tracks by number in moov order, with their tables and samples, fragments, payloads."""

    def __init__(self, data):
        if len(data) > tree.MOST_BYTES:
            raise Refused(4, 0)
        file, nodes, fault = walked(data)
        Contents(data, nodes)
        if fault:
            raise fault
        complete(file)
        traks = file.first("moov").all("trak")
        self.traks = {trak.first("tkhd").words[4]: data[trak.start:trak.end] for trak in traks}
        self.tables = {trak.first("tkhd").words[4]: tables_of(stbl_of(trak)) for trak in traks}
        self.samples = {track: [sample[1:] for sample in tables.samples(found)] for track, found in self.tables.items()}
        self.payloads = [mdat.payload(data) for mdat in file.all("mdat")]
        self.fragments = [self.fragment(moof, defaults_of(file)) for moof in file.all("moof")]
        runs = [run for _, _, runs in self.fragments for run in runs]
        self.fits(runs)
        if self.fragments and any(found.count for found in self.tables.values()):
            raise Refused(10, 0)
        for run in runs:
            self.samples[run.track] += run.samples

    @staticmethod
    def fragment(moof, defaults):
        """The moof's start, its number and its runs."""
        runs = []
        for traf in moof.all("traf"):
            default = defaults[traf.first("tfhd").words[2]]
            runs.append(Run(moof, traf, runs[-1] if runs else None, default))
        return moof.start, moof.first("mfhd").words[2], runs

    def fits(self, runs):
        """9 (A13)."""
        listed = [sample for samples in self.samples.values() for sample in samples]
        listed += [sample for run in runs for sample in run.samples]
        good = all(at + size < 1 << 64 and time < 1 << 63 for at, size, time, *_ in listed)
        good = good and all(0 <= run.start < 1 << 64 and run.time < 1 << 63 for run in runs)
        good = good and all(-1 << 63 <= gap < 1 << 63 for _, _, gap in self.gaps())
        if not good:
            raise Refused(9, 0)

    def gaps(self):
        """Track, moof's start and gap of each traf but a track's first: by fragment, then by track in moov order, then in
        file order."""
        expected = {}
        for start, _, runs in self.fragments:
            for track in self.tables:
                for run in runs:
                    if run.track == track:
                        if track in expected:
                            yield track, start, run.time - expected[track]
                        expected[track] = run.next_time


# THE AUDIT

def agree(found):
    """Whether a track's tables count the same samples (F1)."""
    per_chunk = [per for per, _ in zip(tables.per_chunk(found), found.chunks)]
    return (found.count == sum(count for count, _ in found.stts) == sum(per_chunk)
            and (found.ctts is None or found.count == sum(count for count, _ in found.ctts))
            and all(first <= len(found.chunks) for first, _, _ in found.stsc)
            and all(number <= found.count for number in found.stss or []))


def sweep(samples, payloads):
    """F4 to F6: p goes over every byte of media data."""
    left = {track: list(enumerate(listed, 1))[::-1] for track, listed in samples.items()}

    def finding(number, track):
        sample, (at, *_) = left[track][-1]
        return Finding(number, track, sample, at, 0)

    def passed_by(track):
        """A sample that p will not come to."""
        at = left[track][-1][1][0]
        return finding(5 if any(begin <= at < end for begin, end in payloads) else 4, track)

    for p, end in payloads:
        while p < end:
            starts = {track: rest[-1][1][0] for track, rest in left.items() if rest}
            below = [track for track, at in starts.items() if at < p]
            here = [track for track, at in starts.items() if at == p]
            if below:
                raise passed_by(below[0])
            if len(here) > 1:
                raise finding(5, here[1])
            if not here:
                raise Finding(6, 0, 0, p, 0)
            p += left[here[0]][-1][1][1]
            if p > end:
                raise finding(4, here[0])
            left[here[0]].pop()
    for track, rest in left.items():
        if rest:
            raise passed_by(track)


def examine(movie):
    """The first finding, in 01's order."""
    for track, found in movie.tables.items():
        if not agree(found):
            raise Finding(1, track, 0, 0, 0)
    for track, samples in movie.samples.items():
        for number, (_, size, _, duration, *_) in enumerate(samples, 1):
            if size == 0:
                raise Finding(2, track, number, 0, 0)
            if duration == 0 and number < len(samples):
                raise Finding(3, track, number, 0, 0)
    sweep(movie.samples, movie.payloads)
    gaps = list(movie.gaps())
    before = None
    for start, number, _ in movie.fragments:
        if before is not None and number != (before + 1) % (1 << 32):
            raise Finding(7, 0, 0, start, 0)
        before = number
        for track, at, gap in gaps:
            if at == start and gap:
                raise Finding(8, track, 0, start, gap)


# THE LINES

def refused(refusal):
    number, detail = refusal.args
    return f"refused {number} detail={detail} ({REFUSALS[number]})"


def verdict(data):
    """What is printed behind the file's name."""
    try:
        movie = Movie(data)
        examine(movie)
    except Refused as refusal:
        return refused(refusal)
    except Finding as finding:
        number, *places = finding.args
        return "F%d track=%d sample=%d position=%d gap=%d (%s)" % (number, *places, FINDINGS[number])
    media = sum(end - begin for begin, end in movie.payloads)
    return f"clean tracks={len(movie.tables)} samples={sum(map(len, movie.samples.values()))} media={media}"


def listing(data):
    """A line for each sample, by track; Refused where the file is."""
    yield "\t".join(HEADING)
    for track, samples in Movie(data).samples.items():
        for number, sample in enumerate(samples, 1):
            yield "\t".join(str(int(word)) for word in (track, number, *sample))


def pixels(raw):
    """A 16.16 number as the shortest decimal that gives it back from 64 bits."""
    return format(decimal.Decimal(repr(raw / 65536)), "f").removesuffix(".0")


def summary(data):
    """A line for each track; Refused where the file is, or where a track's figures are."""
    yield "\t".join(FIGURES)
    movie = Movie(data)
    for track, trak in movie.traks.items():
        sizes = [size for _, size, *_ in movie.samples[track]]
        timescale, duration, _ = describe.media_header(trak)
        width, height = describe.told(trak, b"tkhd")[-2:]
        figures = summaries.line(len(sizes), duration, timescale, width, height).split("\t")
        if figures[0] == "refused":
            raise Refused(int(figures[1]), int(figures[2]))
        kind, entry = (boxes.letters(code.to_bytes(4, "big")) for code in (describe.told(trak, b"hdlr")[2], describe.entry_kind(trak)))
        yield "\t".join(str(word) for word in (
            track, kind, entry if describe.entry_kind(trak) else "-", describe.language(trak), timescale, duration, figures[-1],
            len(sizes), sum(sizes), figures[0], pixels(width), pixels(height)))


def content(name):
    with open(name, "rb") as file:
        return file.read(tree.MOST_BYTES + 1)


def told(rows, name):
    """All rows, or the line that says why there are none."""
    try:
        return "\n".join(list(rows(content(name))))
    except Refused as refusal:
        return f"{name}: {refused(refusal)}"


def main():
    rows = {"--list": listing, "--summary": summary}.get(sys.argv[1])
    if rows:
        print(told(rows, sys.argv[2]))
        return
    for name in sys.argv[1:]:
        print(f"{name}: {verdict(content(name))}")


if __name__ == "__main__":
    main()
