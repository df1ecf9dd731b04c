#!/usr/bin/env python3
"""The answers of the original, the Rust crate mp4 0.14.0, held against ours: every field read and every byte written.

For a box there are three answers: our line (crates/copy_boxes, expected/boxes.py), and the original's to `read` and to
`copy` (its record and its position; the bytes that it writes of it). Where both refuse, they agree: the original tells
no position. Where they differ, each single difference must be of a class below, which has a number in
docs/DIFFERENCES.md, and a test on the box and the two answers.

    python3 expected/rust.py --pack PACK    writes the boxes of the fixed list, expected/oracle.txt
    python3 expected/rust.py STDOUT         compares the lines of crates/copy_boxes with the list's answers
"""
import pathlib
import re
import sys

import boxes

STORED = pathlib.Path(__file__).resolve().parent / "oracle.txt"
KINDS = "mdhd mfhd tfhd tfdt elst edts trun emsg dinf".split()


# WHAT THE ORIGINAL SAYS

TOKEN = re.compile(r'\s*("(?:[^"\\]|\\.)*"|-?\d+|\w+|[{}\[\]():,])')
ESCAPES = {"n": "\n", "r": "\r", "t": "\t", "0": "\0", "'": "'", '"': '"', "\\": "\\"}


def unescaped(text):
    """The bytes of a string as the original prints it."""
    def one(found):
        word = found.group(1)
        return chr(int(word[2:-1], 16)) if word[0] == "u" else ESCAPES[word]
    return re.sub(r"\\(u\{[0-9a-f]+\}|.)", one, text[1:-1], flags=re.S).encode()


def parsed(text):
    """Numbers, bytes for strings, None, lists, and a dictionary for each record."""
    tokens = TOKEN.findall(text)
    at = [0]

    def take():
        at[0] += 1
        return tokens[at[0] - 1]

    def several(stop):
        items = []
        while tokens[at[0]] != stop:
            items.append(value())
            if tokens[at[0]] == ",":
                take()
        take()
        return items

    def value():
        token = take()
        if token[0] == '"':
            return unescaped(token)
        if re.fullmatch(r"-?\d+", token):
            return int(token)
        if token == "[":
            return several("]")
        if token == "None":
            return None
        following = tokens[at[0]] if at[0] < len(tokens) else ""
        if token == "Some":
            take()
            return several(")")[0]
        if following == "{":
            take()
            record = {}
            while tokens[at[0]] != "}":
                name = take()
                take()  # :
                record[name] = value()
                if tokens[at[0]] == ",":
                    take()
            take()
            return record
        return token
    return value()


class Rust:
    """Its answers: `how` is OK, ERR, PANIC, HANG or ABORT at reading; then `record` and `position`, and at writing
    `wrote` (bytes), with `counted`, what it says that it wrote, or `unwritten`, its fault."""

    def __init__(self, read, copy):
        self.how = read.split()[0]
        self.record = self.position = self.wrote = self.counted = self.unwritten = None
        if self.how == "OK":
            place, record = read[len("OK pos="):].split(" ", 1)
            self.position, self.record = int(place), parsed(record)
            if copy.startswith("OK "):
                words = copy.split()
                self.counted = {int(word.split("=")[1]) for word in words[1:4]}
                self.wrote = bytes.fromhex(words[4]) if len(words) > 4 else b""
            else:
                self.unwritten = copy


# WHAT WE SAY

class Ours:
    """Our line of a box: `refused` with its number and position, or the words of the record and the bytes written."""

    def __init__(self, line, data):
        words = line.split(" ")[1:] if line[:4] != "url " else line[5:].split(" ")
        self.refused = self.words = self.wrote = None
        if words[0] == "unknown":
            self.refused = (1, min(len(data) // 4 * 4, 4))
        elif words[0] == "refused":
            self.refused = (int(words[1]), int(words[2]))
        else:
            self.wrote = data[:boxes.header(data)[1]] if words[-1] == "same" else bytes.fromhex(words[-1])
            self.words = words[:-2] if words[-1] == "same" else words[:-3]  # without whether it is canonical
            self.words = [word if word[0] in "x[]" else int(word) for word in self.words]

    def table(self, first):
        """The entries that begin with word `first`."""
        entries = []
        for word in self.words[first:]:
            if word == "[":
                entries.append([])
            elif word != "]":
                entries[-1].append(word)
        return entries


class Held(Ours):
    """Our answers to edts or dinf and to what is read in it: `parts` are its boxes from the first byte of each to the
    end of the box that holds it, with the place of each; `lines` are theirs. A fault of one is a fault of all: `inner`
    is the type of the box in which it lies."""

    def __init__(self, parts, lines):
        super().__init__(lines[0], parts[0][1])
        self.inner, self.inner_at = parts[0][1][4:8], 0
        self.place = parts[1][0] if len(parts) > 1 else 0
        self.held = []
        for (place, part), line in zip(parts[1:], lines[1:]):
            one = Ours(line, part)
            if one.refused and not self.refused:
                self.refused, self.inner, self.inner_at = (one.refused[0], place + one.refused[1]), part[4:8], place
            self.held.append((part[4:8], one))
        fault = counted_fault(parts[-1] if parts[-1][1][4:8] == b"dref" else parts[1] if len(parts) > 1 else None)
        if fault and not self.refused:
            self.refused, self.inner, self.inner_at = fault


def counted(place, part):
    """The boxes that a dref's count says, each with its place; then a fault in their headers, if there is one."""
    try:
        at, end = boxes.header(part)
        count, at = boxes.number(part, at + 4, 4), at + 8
        for _ in range(count):
            _, after = boxes.header(part, at, end, top=False)
            yield place + at, part[at:after]
            at = after
    except boxes.Refused as fault:
        yield (fault.args[0], place + fault.args[1]), None


def counted_fault(found):
    """A fault in the headers of a dref's entries, with the type and the place of the dref."""
    if found is None or found[1][4:8] != b"dref" or boxes.told(found[1])[0][0] == "refused":
        return None
    for place, part in counted(*found):
        if part is None:
            return place, b"dref", found[0]
    return None


def parts(kind, data):
    """The boxes whose lines make our answer, each with its place."""
    yield 0, data
    if kind not in ("edts", "dinf"):
        return
    words = boxes.told(data)[0]
    if words[0] in ("refused", "unknown") or words[0] == 0:
        return
    place, part = words[0], data[words[0]:boxes.header(data)[1]]
    yield place, part
    if kind == "dinf" and boxes.told(part)[0][0] != "refused":
        for place, entry in counted(place, part):
            if entry is not None and entry[4:8] == b"url ":
                yield place, entry


def answer(kind, found, lines):
    return Held(found, lines) if kind in ("edts", "dinf") else Ours(lines[0], found[0][1])


def text(word):
    return bytes.fromhex(word[1:])


# EACH FIELD OF BOTH RECORDS: its name, ours, the original's

def mdhd(ours, rust, written):
    names = "version flags creation_time modification_time timescale duration".split()
    yield from zip(names, ours.words, (rust[name] for name in names))
    first, second, third = (letter & 0x1F for letter in rust["language"])
    yield "language", ours.words[6], first << 10 | second << 5 | third


def mfhd(ours, rust, written):
    names = "version flags sequence_number".split()
    yield from zip(names, ours.words, (rust[name] for name in names))


def tfdt(ours, rust, written):
    names = "version flags base_media_decode_time".split()
    yield from zip(names, ours.words, (rust[name] for name in names))


def present(ours, flags, flag):
    """Ours as the original has it: nothing where the flag is not set, and then ours is 0."""
    return ours if flags & flag else None if ours == 0 else "not 0"


def tfhd(ours, rust, written):
    names = "version flags track_id".split()
    yield from zip(names, ours.words, (rust[name] for name in names))
    names = ("base_data_offset sample_description_index default_sample_duration default_sample_size "
             "default_sample_flags").split()
    for name, word, flag in zip(names, ours.words[3:], (0x1, 0x2, 0x8, 0x10, 0x20)):
        yield name, present(word, ours.words[1], flag), rust[name]


def elst(ours, rust, written):
    names = "version flags".split()
    yield from zip(names, ours.words, (rust[name] for name in names))
    yield "count", ours.words[2], len(rust["entries"])
    names = "segment_duration media_time media_rate media_rate_fraction".split()
    for mine, other in zip(ours.table(3), rust["entries"]):
        yield from zip(names, mine, (other[name] for name in names))
    yield "entries", len(ours.table(3)), len(rust["entries"])


def trun(ours, rust, written):
    names = "version flags sample_count".split()
    yield from zip(names, ours.words, (rust[name] for name in names))
    flags, samples = ours.words[1], ours.table(5)
    yield "data_offset", present(ours.words[3], flags, 0x1), rust["data_offset"]
    yield "first_sample_flags", present(ours.words[4], flags, 0x4), rust["first_sample_flags"]
    columns = ((0x100, "sample_durations"), (0x200, "sample_sizes"), (0x400, "sample_flags"), (0x800, "sample_cts"))
    for i, (flag, name) in enumerate(columns):
        mine = [present(sample[i], flags, flag) for sample in samples]
        if flags & flag:
            yield name + " count", len(mine), len(rust[name])
            for one, other in zip(mine, rust[name]):
                yield name, one, other
        else:
            yield name, [one for one in mine if one is not None], rust[name]


def emsg(ours, rust, written):
    names = "version flags timescale".split()
    yield from zip(names, ours.words, (rust[name] for name in names))
    time = ("presentation_time_delta", "presentation_time")
    yield time[ours.words[0]], ours.words[3], rust[time[ours.words[0]]]
    yield time[1 - ours.words[0]], None, rust[time[1 - ours.words[0]]]
    yield "event_duration", ours.words[4], rust["event_duration"]
    yield "id", ours.words[5], rust["id"]
    yield "scheme_id_uri", text(ours.words[6]), rust["scheme_id_uri"]
    yield "value", text(ours.words[7]), rust["value"]
    yield "message_data", text(ours.words[8]), bytes(rust["message_data"])


def edts(ours, rust, written):
    yield "place", ours.words, [ours.place]
    yield "elst", len(ours.held), 0 if rust["elst"] is None else 1
    if ours.held and rust["elst"] is not None:
        yield from elst(ours.held[0][1], rust["elst"], written)
        yield "elst wrote", ours.held[0][1].wrote, written[8:]


def dinf(ours, rust, written):
    """Of the references the original keeps one, the last."""
    yield "place", ours.words, [ours.place]
    mine, other = [one for kind, one in ours.held if kind == b"dref"], rust["dref"]
    yield from zip(("version", "flags"), mine[0].words, (other["version"], other["flags"]))
    urls = [one for kind, one in ours.held if kind == b"url "]
    yield "url", len(urls), 0 if other["url"] is None else 1
    if urls and other["url"] is not None:
        last = urls[-1].words
        yield from zip(("url version", "url flags"), last, (other["url"]["version"], other["url"]["flags"]))
        yield "location", text(last[2])[:-1] if last[2].endswith("00") else text(last[2]), other["url"]["location"]
        yield "url wrote", urls[-1].wrote, kept_url(other["url"])


FIELDS = {fields.__name__: fields for fields in (mdhd, mfhd, tfdt, tfhd, elst, trun, emsg, edts, dinf)}


# THE DIFFERENCES

class Difference:
    """One of them: its name, the two sides, and the box. `taken` is a box that we refuse and the original does not;
    `refused` is the other way round. `size` and `head` are what the box's header says of the box and of itself."""

    def __init__(self, kind, data, ours, rust, name, mine, other):
        self.kind, self.data, self.ours, self.rust = kind, data, ours, rust
        self.name, self.mine, self.other = name, mine, other
        self.size, self.head = stated(data)

    def version(self):
        return self.data[self.head] if len(self.data) > self.head else None

    def within(self):
        """The same difference of the box inside in which our fault lies."""
        place = self.ours.inner_at
        return Difference(self.ours.inner.decode().strip(), self.data[place:], self.ours, self.rust, self.name,
                          (self.mine[0], self.mine[1] - place), self.other)

    def __str__(self):
        return f"{self.name}: ours {self.mine}, the original's {self.other}"


def stated(data):
    """The size in the header, where it is there, and 8 or 16 for the header itself."""
    if len(data) < 8:
        return None, 8
    size = boxes.number(data, 0, 4)
    if size == 1:
        return boxes.number(data, 8, 8) if len(data) >= 16 else None, 16
    return size, 8


def differences(kind, data, ours, rust):
    """Each as a name and the two sides."""
    if ours.refused and rust.how == "ERR":
        return
    if ours.refused:
        yield "taken", ours.refused, rust.how
        return
    if rust.how != "OK":
        yield "refused", "read", rust.how
        return
    for name, mine, other in FIELDS[kind](ours, rust.record, rust.wrote):
        if mine != other:
            yield name, mine, other
    if boxes.header(data)[1] != rust.position:
        yield "end", boxes.header(data)[1], rust.position
    if rust.unwritten:
        yield "unwritten", ours.wrote, rust.unwritten
    elif ours.wrote != rust.wrote:
        yield "wrote", ours.wrote, rust.wrote
    elif rust.counted != {len(rust.wrote)}:
        yield "counted", len(rust.wrote), rust.counted


CLASSES = {}


def of_class(number):
    """Gives a test its number in docs/DIFFERENCES.md."""
    def keep(test):
        CLASSES[number] = test
        return test
    return keep


def classes(kind, data, ours, rust):
    """The numbers of the differences, each once; a text for one that is of no class."""
    found = []
    for difference in differences(kind, data, ours, rust):
        difference = Difference(kind, data, ours, rust, *difference)
        numbers = [number for number, test in CLASSES.items() if test(difference)]
        found += numbers if numbers else [str(difference)]
    return list(dict.fromkeys(found))


# Sizes

@of_class(11)
def size_2_to_7(d):
    """Of the box, or of one in it."""
    if d.name != "taken" or d.mine[0] not in (1, 2):
        return False
    return (d.mine[1] == 0 or d.kind in ("edts", "dinf") and d.mine[0] == 2) and 2 <= boxes.number(d.data, d.mine[1], 4) < 8


@of_class(12)
def large_size_0(d):
    return d.name == "taken" and d.mine == (2, 0) and (d.size, d.head) == (0, 16)


@of_class(15)
def smaller_than_its_fields(d):
    """The fields go on behind the box's end, and are there."""
    return (d.name == "taken" and d.kind not in ("emsg", "edts", "dinf") and d.mine[0] == 1 and d.mine[1] >= d.head
            and d.other == "OK" and d.head <= d.size < len(d.data) and not mdhd_without_its_end(d))


@of_class(74)
def passes_the_end(d):
    """The box says more bytes than there are; its fields are there all the same, or it asks for so much memory that it
    panics or aborts (emsg), or it counts (28) or goes round (13)."""
    return d.name == "taken" and d.mine == (1, 0) and d.size is not None and d.size > len(d.data)


@of_class(75)
def size_0(d):
    """A box that reaches to the end: the original takes its size for 0."""
    if boxes.number(d.data, 0, 4) != 0:
        return False
    if d.name == "end":
        return d.other == 0
    return (d.name == "refused" and d.kind in ("elst", "trun", "edts", "dinf") and d.other == "ERR"
            or d.name in ("refused", "taken") and d.kind == "emsg" and d.other in ("PANIC", "ABORT"))


# Fields

@of_class(7)
def timescale_0(d):
    return d.kind == "mdhd" and d.name == "taken" and d.mine[0] == 8 and d.other == "OK"


@of_class(18)
def version_unknown(d):
    """The version stands behind the header. A run of such a version may be counted through, as in 28."""
    return (d.name == "taken" and d.mine == (7, d.head) and d.kind in ("mfhd", "tfhd", "trun", "elst", "dref", "url")
            and (d.other == "OK" or d.kind == "trun" and d.other == "HANG"))


@of_class(20)
def mdhd_without_its_end(d):
    last = d.head + {0: 22, 1: 34}.get(d.version(), -99)
    return d.kind == "mdhd" and d.name == "taken" and d.mine == (1, last) and last <= d.size and d.other == "OK"


@of_class(21)
def media_time(d):
    if d.name == "taken":
        return d.kind == "elst" and d.mine[0] == 8 and d.other == "OK"
    return d.name == "media_time" and d.mine == -1 and d.other in ((1 << 32) - 1, (1 << 64) - 1)


@of_class(22)
def media_rate(d):
    return d.name in ("media_rate", "media_rate_fraction") and d.mine < 0 and d.other == d.mine + 65536


@of_class(26)
def composition_offset(d):
    return d.name == "sample_cts" and d.version() == 1 and d.mine < 0 and d.other == d.mine + (1 << 32)


@of_class(27)
def trun_without_sizes(d):
    return (d.kind == "trun" and d.name == "unwritten" and not boxes.number(d.mine, 9, 3) & 0x200
            and d.other.startswith('ERR InvalidData("sample count out of sync") after=')
            and d.mine.startswith(bytes.fromhex(d.other.split("=")[1])))


@of_class(28)
def trun_counted_through(d):
    return (d.kind == "trun" and d.other == "HANG" and not boxes.number(d.data, d.head + 1, 3) & 0xF00
            and boxes.number(d.data, d.head + 4, 4) > 1 << 24)


@of_class(32)
def emsg_smaller_than_its_fields(d):
    """Numbers or strings go on behind the box's end: it panics, or asks for so much memory that it aborts."""
    return (d.kind == "emsg" and d.name == "taken" and d.mine[0] == 1 and d.mine[1] >= d.head
            and d.other in ("PANIC", "ABORT"))


def is_utf8(string):
    try:
        return string.decode() is not None
    except UnicodeDecodeError:
        return False


@of_class(34)
def emsg_not_utf8(d):
    return (d.kind == "emsg" and d.name == "refused" and d.other == "ERR"
            and not all(is_utf8(text(word)) for word in d.ours.words[6:8]))


@of_class(72)
def track_0(d):
    return d.kind == "tfhd" and d.name == "taken" and d.mine == (8, d.head + 4) and d.other == "OK"


@of_class(73)
def language_pad(d):
    if d.kind != "mdhd" or d.name not in ("language", "wrote"):
        return False
    if d.name == "language":
        return d.mine >= 0x8000 and d.other == d.mine - 0x8000
    return d.mine[-4] >= 0x80 and d.other == d.mine[:-4] + bytes([d.mine[-4] - 0x80]) + d.mine[-3:]


# Boxes in edts and dinf

def inside(test):
    """A difference of a box that lies in another."""
    return lambda d: (d.kind in ("edts", "dinf") and d.name == "taken" and d.ours.inner_at > 0
                      and test(d.within()))


for number in (15, 18, 21):
    CLASSES[number] = (lambda alone, within: lambda d: alone(d) or within(d))(CLASSES[number], inside(CLASSES[number]))


def children(d):
    """The places of the children, as far as their headers are sound, and the fault behind them or nothing."""
    places = []
    try:
        at, end = boxes.header(d.data)
        while at < end:
            after = boxes.header(d.data, at, end, top=False)[1]
            places.append(at)
            at = after
    except boxes.Refused as fault:
        return places, fault.args
    return places, None


def child_kind(d, place):
    return d.data[place + 4:place + 8].decode("latin-1")


@of_class(14)
def child_passes(d):
    """A child of edts or dinf, or what is left behind the last of them, passes its parent."""
    return (d.kind in ("edts", "dinf") and d.name == "taken" and d.ours.inner_at == 0 and d.mine[0] == 1
            and d.mine[1] >= d.head and d.other in ("OK", "HANG"))


@of_class(13)
def child_of_size_0(d):
    """Below the top. In dinf it never ends, in edts and dref it is taken."""
    return (d.kind in ("edts", "dinf") and d.name == "taken" and d.mine[0] == 2 and d.mine[1] >= d.head
            and boxes.number(d.data, d.mine[1], 4) in (0, 1))


@of_class(17)
def edts_first_child(d):
    """Of the children of edts the original looks at the first alone, and reads on behind an edts with none."""
    if d.kind != "edts":
        return False
    places, fault = children(d)
    if d.name == "taken":  # a fault behind the first child
        return bool(places) and d.mine[1] > places[0] and d.ours.inner_at != places[0] and d.other == "OK"
    if d.name == "elst" or d.name == "wrote" and as_it_was(d):
        return bool(places) and child_kind(d, places[0]) != "elst" and d.rust.record["elst"] is None
    return d.name == "refused" and not places


def made(kind, content):
    return (len(content) + 8).to_bytes(4, "big") + kind + content


def kept_url(url):
    """A url as the original writes the record that it has of it."""
    location = url["location"]
    return made(b"url ", bytes([url["version"]]) + url["flags"].to_bytes(3, "big") + (location + b"\0" if location else b""))


def kept(d):
    """What the original writes of the dinf that it has kept."""
    dref = d.rust.record["dref"]
    content = bytes([dref["version"]]) + dref["flags"].to_bytes(3, "big") + (1).to_bytes(4, "big")
    return made(b"dinf", made(b"dref", content + (kept_url(dref["url"]) if dref["url"] else b"")))


def entries(d):
    """The references of our dref, counted and behind them."""
    place = d.ours.words[0]
    return list(counted(place, d.data[place:boxes.header(d.data)[1]]))


def urls(d):
    return [one for kind, one in d.ours.held if kind == b"url "]


def as_it_was(d):
    """Ours around the children's bytes."""
    start, end = boxes.header(d.data)
    return d.mine == made(d.kind.encode(), d.data[start:end])


def of_dinf(d):
    return d.kind == "dinf" and d.name == "wrote" and d.other == kept(d) and as_it_was(d)


@of_class(36)
def no_url(d):
    return of_dinf(d) and not urls(d)


@of_class(37)
def several_references(d):
    if d.kind == "dinf" and d.name == "url":
        return d.mine > 1 and d.other == 1
    return of_dinf(d) and len(entries(d)) > 1


def is_faulty(place, dref):
    """Whether we find a fault in a dref, in the heads of its entries or in its urls."""
    def refused(part):
        return boxes.told(part)[0][0] == "refused"
    return refused(dref) or any(part is None or part[4:8] == b"url " and refused(part) for _, part in counted(place, dref))


@of_class(16)
def once_only_twice(d):
    """Two dref: the last one wins, and one with a fault is refused. Our reader of the box takes the first; in a file the
    second is 6."""
    drefs = [place for place in children(d)[0] if child_kind(d, place) == "dref"] if d.kind == "dinf" else []
    if len(drefs) < 2 or d.ours.refused:
        return False
    if d.name == "refused":
        return d.other == "ERR" and any(is_faulty(place, d.data[place:boxes.header(d.data)[1]]) for place in drefs[1:])
    return d.rust.how == "OK" and (d.name in ("version", "flags", "url", "url version", "url flags", "location", "url wrote")
                                   or of_dinf(d))


def behind_the_entries(d):
    """Whether bytes lie in our dref behind the entries that it counts."""
    place = d.ours.words[0]
    ends = [at + len(part) for at, part in entries(d)]
    start, end = boxes.header(d.data, place, None, top=False)
    return (ends[-1] if ends else start + 8) < end


@of_class(76)
def dropped(d):
    """Boxes and bytes that are not read: we write them again."""
    if d.name != "wrote" or d.kind not in ("edts", "dinf"):
        return False
    places, _ = children(d)
    if d.kind == "dinf":
        return of_dinf(d) and (len(places) > 1 or behind_the_entries(d))
    elst = d.rust.record["elst"] and d.ours.held[0][1].wrote
    if d.other != made(b"edts", elst or b"") or not as_it_was(d):
        return False
    return len(places) > 1 or bool(elst) and boxes.header(d.data, places[0], None, top=False)[1] - places[0] > len(elst)


@of_class(77)
def no_dref(d):
    return d.kind == "dinf" and d.name == "refused" and d.other == "ERR" and d.ours.words == [0]


def locations(d):
    """Of our urls, where both read a dinf."""
    return [text(one.words[2]) for one in urls(d)] if d.kind == "dinf" and not d.ours.refused and d.rust.how == "OK" else []


def kept_location(d):
    """That of the url that the original keeps, where it keeps one."""
    url = d.rust.record["dref"]["url"]
    return url and url["location"]


@of_class(38)
def url_not_utf8(d):
    if not locations(d) or is_utf8(locations(d)[-1][:-1]):
        return False
    return d.name in ("location", "url wrote") and kept_location(d) == b"" or of_dinf(d)


@of_class(78)
def url_without_its_0(d):
    if not locations(d) or not locations(d)[-1] or locations(d)[-1][-1] == 0:
        return False
    return d.name in ("location", "url wrote") and kept_location(d) == locations(d)[-1][:-1] or of_dinf(d)


@of_class(79)
def url_of_one_0(d):
    return bool(locations(d)) and locations(d)[-1] == b"\0" and (d.name == "url wrote" or of_dinf(d))


def in_dref(d, mine):
    return (d.kind == "dinf" and d.name == "taken" and d.ours.inner == b"dref" and d.mine[1] >= d.ours.inner_at + 16
            and d.mine[0] == mine and not d.ours.held[0][1].refused)


@of_class(39)
def too_few_references(d):
    """Fewer than counted: the dref ends where the next one should begin, or inside its header."""
    return in_dref(d, 1) and d.ours.inner_at + stated(d.data[d.ours.inner_at:])[0] - d.mine[1] < 8


@of_class(41)
def reference_passes(d):
    return in_dref(d, 1) and d.ours.inner_at + stated(d.data[d.ours.inner_at:])[0] - d.mine[1] >= 8


@of_class(40)
def reference_of_size_0(d):
    return in_dref(d, 2) and boxes.number(d.data, d.mine[1], 4) == 0


@of_class(80)
def large_child(d):
    """A child whose size is in 64 bits: we write it again as it was."""
    return (d.name == "wrote" and d.kind in ("edts", "dinf") and as_it_was(d)
            and any(boxes.number(d.data, place, 4) == 1 for place in
                    children(d)[0] + [place for place, part in (entries(d) if d.kind == "dinf" else []) if part]))


# THE FIXED LIST

def stored():
    """Its boxes: kind, bytes, the original's two answers, and the numbers of the differences."""
    with open(STORED) as file:
        lines = [line.rstrip("\n").partition(" ") for line in file if not line.startswith("#")]
    for box, read, copy, differs in zip(*(lines[i::4] for i in range(4))):
        kind, _, digits = box[2].partition(" ")
        yield kind, bytes.fromhex(digits), read[2], copy[2], [int(number) for number in differs[2].split()]


def pack():
    """The boxes of the list, each with those in it that are read."""
    return boxes.pack_of(part for kind, data, *_ in stored() for _, part in parts(kind, data))


def replay(lines):
    """Compares the lines of crates/copy_boxes for that pack with the stored answers."""
    lines, alike, wrong, met = iter(lines), 0, 0, set()
    for kind, data, read, copy, numbers in stored():
        found = list(parts(kind, data))
        got = classes(kind, data, answer(kind, found, [next(lines) for _ in found]), Rust(read, copy))
        if got != numbers:
            print(f"{kind} {data.hex()}: stored {numbers}, found {got}")
            wrong += 1
        alike += not got
        met.update(got)
    total = sum(1 for _ in stored())
    print(f"{total} boxes and the original's stored answers: {alike} alike, {total - alike} with differences of {len(met)} "
          f"classes, {wrong} not as stored")
    return wrong == 0


def main():
    if sys.argv[1] == "--pack":
        pathlib.Path(sys.argv[2]).write_bytes(pack())
        return
    lines = pathlib.Path(sys.argv[1]).read_text().splitlines()
    first = lines.index("oracle.pack") + 1
    sys.exit(0 if replay(lines[first:]) else 1)


if __name__ == "__main__":
    main()
