#!/usr/bin/env python3
"""What the original, the Rust crate mp4 0.14.0, does with sample entries, and where that differs from ours.

Its readers and writers stand here again, as they are, and note the number in docs/DIFFERENCES.md of each thing that they
do otherwise than the standards. So there are three answers to a box: ours (expected/entries.py), this model's, and the
original's own, which must be the model's in every field and byte. Where ours differs from them, each single difference
must be one that a noted number may make.

    python3 expected/rust_entries.py --pack PACK    writes the boxes of the fixed list, expected/entries.txt
    python3 expected/rust_entries.py STDOUT         compares the lines of crates/copy_entries with the list's answers
"""
import pathlib
import re
import sys

import boxes
import entries
import rust

STORED = pathlib.Path(__file__).resolve().parent / "entries.txt"
KINDS = "avc1 avcC vp09 vpcC tx3g mp4a esds".split()
CHILD = {"avc1": b"avcC", "vp09": b"vpcC", "mp4a": b"esds"}


# THE MODEL

class Failed(Exception):
    """The original refuses."""


class Stream:
    """Bytes, a position, the ends of the boxes and descriptors that it is in, and what was noted: numbers, each with the
    faults that we find there."""

    def __init__(self, data):
        self.data, self.at, self.ends, self.notes = data, 0, [], {}

    def note(self, number, *faults):
        self.notes.setdefault(number, set()).update(faults)

    def passes(self, width):
        """What is read now passes these ends: a field that is cut."""
        for end, number in self.ends:
            if self.at + width > end:
                self.note(number, (1, self.at))

    def take(self, width):
        self.passes(width)
        if self.at + width > len(self.data):
            raise Failed
        self.at += width
        return self.data[self.at - width:self.at]

    def u(self, width):
        return int.from_bytes(self.take(width), "big")

    def i(self, width):
        return int.from_bytes(self.take(width), "big", signed=True)

    def skip(self, width):
        """No byte of these need be there."""
        self.passes(width)
        self.at += width


def header(s, top=False):
    """Type and size. A large size counts as if its header had 8 bytes."""
    start = s.at
    size, kind = s.u(4), s.take(4)
    head = 8
    if size == 1:
        size, head = s.u(8), 16
        if 1 <= size < 16:
            raise Failed
        if size == 0:
            s.note(12, (2, start))
        else:
            size -= 8
    elif 2 <= size < 8:
        s.note(11, (1, start), (2, start))
    elif size == 0:
        s.note(75 if top else 13, (2, start))
    real = size + head - 8 if size else 0
    if top and real > len(s.data):
        s.note(74, (1, 0))
    return kind, size, start + real


def boxed(data, kind):
    """The record of a box, the position after it, the bytes written of it, and the numbers noted; or None and these."""
    s = Stream(data)
    try:
        _, size, end = header(s, top=True)
        s.ends.append((end, 15))
        record = READ[kind](s, size)
    except Failed:
        return None, None, None, s.notes
    return record, s.at, WRITE[kind](record), s.notes


def full(s, version):
    got = s.u(1)
    if got != version:
        s.note(18, (7, s.at - 1))
    return {"version": got, "flags": s.u(3)}


def child(s, size):
    """The header of the first child. It is refused where it says more than its parent's whole size."""
    start = s.at
    s.ends, ends = [], s.ends
    kind, own, end = header(s)
    s.ends = ends
    if own > size:
        raise Failed
    if end > s.ends[-1][0]:
        s.note(14, (1, start))
    left = s.ends[-1][0] - start
    if left < s.at - start:  # the header itself passes the end
        s.note(14, (1, start), (1, start + min(left // 4 * 4, 8)))
    return kind, own, end


def read_child(s, size, end, kind):
    """The child whose header was read. It is written anew, and not as it was."""
    start = s.at - 8
    s.ends.append((end, 15))
    record = READ[kind](s, size)
    s.ends.pop()
    if WRITE[kind](record) != s.data[start:end]:
        s.note(99)
    return record


def read_avc1(s, size):
    start = s.at - 8
    s.take(6)
    record = {"data_reference_index": s.u(2)}
    for width in (2, 2, 4, 4, 4):
        s.take(width)
    for name, width in (("width", 2), ("height", 2), ("horizresolution", 4), ("vertresolution", 4)):
        record[name] = s.u(width)
    s.take(4)
    record["frame_count"] = s.u(2)
    name = s.data[s.at:s.at + 32]
    s.skip(32)
    record["depth"] = s.u(2)
    s.take(2)
    if any(name):
        s.note(83)
    if s.at >= s.ends[-1][0]:
        s.note(84)
    kind, own, end = child(s, size)
    if kind != b"avcC":
        s.note(42)
        raise Failed
    record["avcc"] = read_child(s, own, end, "avcC")
    if s.at < s.ends[-1][0]:
        s.note(85)
    s.at = start + size
    return record


def read_avcC(s, size):
    start = s.at - 8
    names = "configuration_version avc_profile_indication profile_compatibility avc_level_indication".split()
    record = {name: s.u(1) for name in names}
    if record["configuration_version"] != 1:
        s.note(44, (8, s.at - 4))
    record["length_size_minus_one"] = s.u(1) & 3
    ends, s.ends = s.ends, s.ends[:-1] + [(s.ends[-1][0], 43)]
    record["sequence_parameter_sets"] = [{"bytes": list(s.take(s.u(2)))} for _ in range(s.u(1) & 0x1F)]
    record["picture_parameter_sets"] = [{"bytes": list(s.take(s.u(2)))} for _ in range(s.u(1))]
    s.ends = ends
    if s.at < s.ends[-1][0]:
        s.note(86)
    s.at = start + size
    return record


def split(data, *widths):
    """Numbers of these widths."""
    places = [sum(widths[:i]) for i in range(len(widths))]
    return [int.from_bytes(data[at:at + width], "big") for at, width in zip(places, widths)]


def read_vp09(s, size):
    start = s.at - 8
    record = dict(zip(("version", "flags", "start_code"), split(s.take(6), 1, 3, 2)), data_reference_index=s.u(2))
    record["reserved0"] = [byte for width in (2, 2, 4, 4, 4) for byte in s.take(width)]
    record["width"], record["height"] = s.u(2), s.u(2)
    record["horizresolution"], record["vertresolution"] = split(s.take(4), 2, 2), split(s.take(4), 2, 2)
    record["reserved1"] = list(s.take(4))
    record["frame_count"] = s.u(2)
    record["compressorname"] = list(s.take(32))
    record["depth"], record["end_code"] = s.u(2), s.u(2)
    reserved = (record["version"], record["flags"], record["start_code"], record["end_code"])
    if reserved != (0, 0, 0, 0xFFFF) or any(record["reserved0"]) or any(record["reserved1"]):
        s.note(87)
    if s.at >= s.ends[-1][0]:
        s.note(84)
    kind, own, end = child(s, size)
    if kind != b"vpcC":
        s.note(25)
    record["vpcc"] = read_child(s, own, end, "vpcC")
    if s.at < s.ends[-1][0]:
        s.note(85)
    s.at = start + size
    return record


def read_vpcC(s, size):
    start = s.at - 8
    record = full(s, 1)
    record["profile"], record["level"] = s.u(1), s.u(1)
    byte = s.u(1)
    record["bit_depth"], record["chroma_subsampling"] = byte >> 4, byte >> 1 & 7
    record["video_full_range_flag"] = "true" if byte & 1 else "false"
    record["color_primaries"] = 0  # a byte is not read
    s.note(23)
    record["transfer_characteristics"], record["matrix_coefficients"] = s.u(1), s.u(1)
    record["codec_initialization_data_size"] = s.u(2)
    if s.at >= s.ends[-1][0]:
        s.note(24, (1, s.at - 1))
    elif s.at + 1 != s.ends[-1][0] or any(s.data[s.at - 1:s.at + 1]):
        s.note(88, (1, s.ends[-1][0]))  # initialization data, and whether they are there
    s.at = start + size
    return record


def read_tx3g(s, size):
    start = s.at - 8
    s.take(6)
    record = {"data_reference_index": s.u(2), "display_flags": s.u(4)}
    record["horizontal_justification"], record["vertical_justification"] = s.i(1), s.i(1)
    record["bg_color_rgba"] = {name: s.u(1) for name in ("red", "green", "blue", "alpha")}
    record["box_record"] = [s.i(2) for _ in range(4)]
    record["style_record"] = [byte for width in (2, 2, 2, 1, 1, 1, 1, 1, 1) for byte in s.take(width)]
    if s.at < s.ends[-1][0]:
        s.note(85)
    s.at = start + size
    return record


def read_mp4a(s, size):
    start = s.at - 8
    s.take(6)
    record = {"data_reference_index": s.u(2)}
    s.take(8)
    record["channelcount"], record["samplesize"] = s.u(2), s.u(2)
    s.take(2), s.take(2)
    record["samplerate"], record["esds"] = s.u(4), None
    if s.at < start + size:
        kind, own, end = child(s, size)
        if kind == b"esds":
            record["esds"] = read_child(s, own, end, "esds")
        else:
            s.note(52)
        if s.at < s.ends[-1][0]:
            s.note(85)
        s.at = start + size
    return record


# Descriptors

def read_descriptor(s):
    """Tag and length. Where the length is cut, or says too much, we find that at its first byte and at the tag."""
    start = s.at
    tag, length = s.u(1), 0
    for i in range(4):
        for end, number in s.ends:
            if s.at + 1 > end:
                s.note(number, (1, start + 1))
        byte = s.u(1)
        length = length << 7 | byte & 0x7F
        if byte < 0x80:
            break
    else:
        s.note(10, (8, start + 1))
    if s.at + length > s.ends[-1][0]:
        s.note(89, (1, start))
    return tag, length


def inside(s, end, second=None):
    """From here on in a descriptor that says that it ends there, the second of its kind where there was one."""
    s.ends.append((end, 122 if second else 90))


def read_esds(s, size):
    start = s.at - 8
    record = full(s, 0)
    record["es_desc"] = None
    while s.at < start + size:
        if record["es_desc"] is not None:
            s.note(91)
        tag, length = read_descriptor(s)
        if tag != 3:
            break
        inside(s, s.at + length)
        record["es_desc"] = read_es(s, length)
        s.ends.pop()
    if record["es_desc"] is None:
        raise Failed
    s.at = start + size
    return record


def read_es(s, length):
    end = s.at + length
    record = {"es_id": s.u(2)}
    if s.u(1):
        s.note(51)
    decoder = None
    after = False  # behind an SLConfigDescriptor
    while s.at < end:
        if after:
            s.note(92)
        start = s.at
        tag, own = read_descriptor(s)
        if tag == 4:
            if decoder:
                s.note(93)
            inside(s, s.at + own, decoder)
            decoder = read_decoder(s, own)
            s.ends.pop()
        elif tag == 6:
            if own != 1:
                s.note(92)
            s.take(1)
            after = True
        else:
            s.skip(own)
    if decoder is None:
        s.note(95)
        decoder = {name: 0 for name in ("object_type_indication", "stream_type", "up_stream", "buffer_size_db", "max_bitrate",
                                        "avg_bitrate")}
        decoder["dec_specific"] = {"profile": 0, "freq_index": 0, "chan_conf": 0}
    s.note(102)  # an SLConfigDescriptor is written, whatever was there
    record["dec_config"], record["sl_config"] = decoder, "SLConfigDescriptor"
    return record


def read_decoder(s, length):
    end = s.at + length
    record = {"object_type_indication": s.u(1)}
    byte = s.u(1)
    if not byte & 1:
        s.note(96)
    record["stream_type"], record["up_stream"] = byte >> 2, byte & 2
    record["buffer_size_db"], record["max_bitrate"], record["avg_bitrate"] = s.u(3), s.u(4), s.u(4)
    specific = None
    while s.at < end:
        tag, own = read_descriptor(s)
        if tag == 5:
            if specific:
                s.note(97)
            inside(s, s.at + own, specific)
            specific = read_specific(s, own)
            s.ends.pop()
        else:
            s.skip(own)
    if specific is None:
        s.note(98)
    record["dec_specific"] = specific or {"profile": 0, "freq_index": 0, "chan_conf": 0}
    return record


def read_specific(s, length):
    end = s.at + length
    a, b = s.u(1), s.u(1)
    profile = a >> 3
    if profile == 31:
        profile = 32 + (a & 7 | b >> 5)
        s.note(53)  # as it is written
        if a & 7:
            s.note(46)
        index = b >> 1 & 0xF
    else:
        index = (a & 7) << 1 | b >> 7
    if index == 15:
        channels = s.u(3) >> 4 & 0xF
        s.note(48)
    elif profile > 31:
        c = s.u(1)
        channels = b & 1 | c & 0xE0
        if channels != (b & 1) << 3 | c >> 5:
            s.note(47)
    else:
        channels = b >> 3 & 0xF
    if s.at < end:
        s.note(49)
    if s.at > end:
        s.note(50, (1, end))
    if b & 7:
        s.note(94)
    return {"profile": profile, "freq_index": index, "chan_conf": channels}


# Writers

def u(width, value):
    return (value % (1 << 8 * width)).to_bytes(width, "big")


def box(kind, content, size=None):
    return u(4, len(content) + 8 if size is None else size) + kind + content


def write_avc1(r):
    content = bytes(6) + u(2, r["data_reference_index"]) + bytes(16) + u(2, r["width"]) + u(2, r["height"])
    content += u(4, r["horizresolution"]) + u(4, r["vertresolution"]) + bytes(4) + u(2, r["frame_count"]) + bytes(32)
    return box(b"avc1", content + u(2, r["depth"]) + b"\xff\xff" + write_avcC(r["avcc"]))


def write_avcC(r):
    content = bytes([r["configuration_version"], r["avc_profile_indication"], r["profile_compatibility"],
                     r["avc_level_indication"], r["length_size_minus_one"] | 0xFC])
    for name, high in (("sequence_parameter_sets", 0xE0), ("picture_parameter_sets", 0)):
        content += bytes([len(r[name]) | high]) + b"".join(u(2, len(one["bytes"])) + bytes(one["bytes"]) for one in r[name])
    return box(b"avcC", content)


def write_vp09(r):
    content = u(1, r["version"]) + u(3, r["flags"]) + u(2, r["start_code"]) + u(2, r["data_reference_index"]) + bytes(r["reserved0"])
    content += b"".join(u(2, n) for n in [r["width"], r["height"], *r["horizresolution"], *r["vertresolution"]])
    content += bytes(r["reserved1"]) + u(2, r["frame_count"]) + bytes(r["compressorname"]) + u(2, r["depth"]) + u(2, r["end_code"])
    return box(b"vp09", content + write_vpcC(r["vpcc"]))


def write_vpcC(r):
    byte = r["bit_depth"] << 4 | r["chroma_subsampling"] << 1 | (r["video_full_range_flag"] == "true")
    return box(b"vpcC", u(1, r["version"]) + u(3, r["flags"]) + bytes([
        r["profile"], r["level"], byte, r["color_primaries"], r["transfer_characteristics"], r["matrix_coefficients"]])
        + u(2, r["codec_initialization_data_size"]))


def write_tx3g(r):
    content = bytes(6) + u(2, r["data_reference_index"]) + u(4, r["display_flags"])
    content += u(1, r["horizontal_justification"]) + u(1, r["vertical_justification"]) + bytes(r["bg_color_rgba"].values())
    return box(b"tx3g", content + b"".join(u(2, n) for n in r["box_record"]) + bytes(r["style_record"]))


def write_mp4a(r):
    content = bytes(6) + u(2, r["data_reference_index"]) + bytes(8) + u(2, r["channelcount"]) + u(2, r["samplesize"]) + bytes(4)
    return box(b"mp4a", content + u(4, r["samplerate"]) + (write_esds(r["esds"]) if r["esds"] else b""))


def write_esds(r):
    decoder = r["es_desc"]["dec_config"]
    specific = decoder["dec_specific"]
    config = u(1, (specific["profile"] << 3) + (specific["freq_index"] >> 1))
    config += u(1, (specific["freq_index"] << 7) + (specific["chan_conf"] << 3))
    content = u(1, decoder["object_type_indication"]) + u(1, (decoder["stream_type"] << 2) + decoder["up_stream"] + 1)
    content += u(3, decoder["buffer_size_db"]) + u(4, decoder["max_bitrate"]) + u(4, decoder["avg_bitrate"]) + b"\5\2" + config
    content = u(2, r["es_desc"]["es_id"]) + b"\0\4\x11" + content + b"\6\0\0"
    return box(b"esds", u(1, r["version"]) + u(3, r["flags"]) + b"\3\x19" + content)


READ = {"avc1": read_avc1, "avcC": read_avcC, "vp09": read_vp09, "vpcC": read_vpcC, "tx3g": read_tx3g, "mp4a": read_mp4a,
        "esds": read_esds}
WRITE = {"avc1": write_avc1, "avcC": write_avcC, "vp09": write_vp09, "vpcC": write_vpcC, "tx3g": write_tx3g,
         "mp4a": write_mp4a, "esds": write_esds}


# WHAT THE ORIGINAL SAYS

def parsed(text):
    """Its record, with a fixed point number as its raw integer and a pair as a list."""
    text = re.sub(r"FixedPointU16\(Ratio \{ numer: (\d+), denom: \d+ \}\)", r"\1", text)
    return rust.parsed(re.sub(r"\((\d+), (\d+)\)", r"[\1, \2]", text))


def original(read, copy):
    """Its record, position and bytes, as the model has them; None thrice where it refuses. Others are told as they are."""
    if read.startswith("ERR"):
        return None, None, None
    if not read.startswith("OK pos="):
        return read, copy, None
    place, record = read[len("OK pos="):].split(" ", 1)
    words = copy.split()
    assert words[0] == "OK", copy
    return parsed(record), int(place), bytes.fromhex(words[4]) if len(words) > 4 else b""


# WHAT WE SAY

class Ours:
    """Our answers to a box and to what is read in it: its line, that of the first child that it is read for, and that of
    the audio configuration in an esds. A fault of one is a fault of all, at its place in the whole."""

    def __init__(self, kind, data, lines):
        self.kind, self.words, self.inner, self.audio = kind, None, None, None
        found = list(parts(kind, data))
        self.refused = None
        for (place, part), line in zip(found, lines):
            words = spoken(line)
            if words[0] in ("refused", "unknown"):
                fault = (int(words[1]), int(words[2])) if words[0] == "refused" else (1, min(len(part) // 4 * 4, 4))
                self.refused = self.refused or (fault[0], place + fault[1])
            elif part[4:8] == b"asc ":
                self.audio = [int(word) for word in words]
            elif place == 0:
                self.end = boxes.header(data)[1]
                self.wrote = data[:self.end] if words[-1] == "same" else bytes.fromhex(words[-1])
                self.words = record(words)
            else:
                self.inner = record(words)
        fault = child_fault(kind, data) if not self.refused or self.words else None
        if fault and (not self.refused or (fault[1], fault[0]) < (self.refused[1], self.refused[0])):
            self.refused = fault


def spoken(line):
    return (line[1:] if line.startswith("- ") else line[4:]).split()


def record(words):
    """The words of the fields, without those of what is written."""
    return numbers(words[:-1] if words[-1] == "same" else words[:-2] if "wrote" in words else words)


def numbers(words):
    return [int(word) if re.fullmatch(r"\d+", word) else word for word in words]


BEHIND = {"avc1": 78, "vp09": 78, "mp4a": 28}  # bytes of content before the children


def children(kind, data):
    """The children of an entry, each with its place; the last is a fault where a header has one."""
    if kind not in BEHIND or entries.told(data)[0][0] in ("refused", "unknown"):
        return
    at, end = boxes.header(data)
    at += BEHIND[kind]
    try:
        while at < end:
            _, after = boxes.header(data, at, end, top=False)
            yield at, data[at:after]
            at = after
    except boxes.Refused as fault:
        yield fault.args, None


def child_fault(kind, data):
    for place, part in children(kind, data):
        if part is None:
            return place
    return None


def parts(kind, data):
    """The boxes and the question whose lines make our answer, each with its place in the whole."""
    yield 0, data
    place, part = 0, data
    if kind in CHILD:
        found = [(place, part) for place, part in children(kind, data) if part is not None and part[4:8] == CHILD[kind]]
        if not found:
            return
        place, part = found[0]
        yield place, part
    if part[4:8] == b"esds" and entries.told(part)[0][0] not in ("refused", "unknown"):
        start, end = boxes.header(part)
        decoder = entries.Esds(part, start + 4, end).decoder
        if decoder and decoder.info is not None:
            yield place + decoder.place, bytes(4) + b"asc " + decoder.info


# EACH FIELD OF BOTH RECORDS: its name, ours, the original's

def text(word):
    return bytes.fromhex(word[1:])


def fields_avcC(words, rust):
    names = "avc_profile_indication profile_compatibility avc_level_indication length_size_minus_one".split()
    yield from zip(names, words, (rust[name] for name in names))
    at = 4
    for name in ("sequence_parameter_sets", "picture_parameter_sets"):
        count = words[at]
        yield name, [text(word) for word in words[at + 2:at + 1 + 3 * count:3]], [bytes(one["bytes"]) for one in rust[name]]
        at += 1 + 3 * count


def fields_vpcC(words, rust):
    names = ("version flags profile level bit_depth chroma_subsampling video_full_range_flag color_primaries "
             "transfer_characteristics matrix_coefficients codec_initialization_data_size").split()
    other = dict(rust, video_full_range_flag=int(rust["video_full_range_flag"] == "true"))
    yield from zip(names, words, (other[name] for name in names))


def fields_visual(words, rust):
    names = "data_reference_index width height horizresolution vertresolution frame_count".split()
    other = [rust[name] for name in names]
    yield from zip(names, words, [a if isinstance(a, int) else a[0] << 16 | a[1] for a in other])
    yield "depth", words[7], rust["depth"]
    if "compressorname" in rust:
        yield "compressorname", text(words[6]), bytes(rust["compressorname"])


def fields_tx3g(words, rust):
    style = bytes(rust["style_record"])
    yield "data_reference_index", words[0], rust["data_reference_index"]
    yield "display_flags", words[1], rust["display_flags"]
    yield "justification", words[2:4], [rust[name] % 256 for name in ("horizontal_justification", "vertical_justification")]
    yield "bg_color_rgba", words[4:8], list(rust["bg_color_rgba"].values())
    yield "box_record", words[8:12], [n % 65536 for n in rust["box_record"]]
    yield "style_record", b"".join(u(w, n) for w, n in zip((2, 2, 2, 1, 1, 1, 1, 1, 1), words[12:21])), style


def fields_mp4a(words, rust):
    names = "data_reference_index channelcount samplesize samplerate".split()
    yield from zip(names, words, (rust[name] for name in names))


def fields_esds(words, rust, audio):
    es, decoder = rust["es_desc"], rust["es_desc"]["dec_config"]
    yield from zip(("flags", "es_id"), words, (rust["flags"], es["es_id"]))
    own = words[words.index("["):] if "[" in words else [None, 0, 0, 0, 0, 0]
    names = "object_type_indication buffer_size_db max_bitrate avg_bitrate".split()
    yield from zip(names, (own[1], *own[3:6]), (decoder[name] for name in names))
    yield "stream", own[2] & 0xFE, decoder["stream_type"] << 2 | decoder["up_stream"]
    specific = decoder["dec_specific"]
    mine = [audio[0], audio[1], audio[3]] if audio else [0, 0, 0]
    yield from zip(("profile", "freq_index", "chan_conf"), mine, (specific[name] for name in ("profile", "freq_index", "chan_conf")))


def fields(ours, rust):
    if ours.kind == "avcC":
        yield from fields_avcC(ours.words, rust)
    elif ours.kind == "vpcC":
        yield from fields_vpcC(ours.words, rust)
    elif ours.kind == "tx3g":
        yield from fields_tx3g(ours.words, rust)
    elif ours.kind == "esds":
        yield from fields_esds(ours.words, rust, ours.audio)
    elif ours.kind == "mp4a":
        yield from fields_mp4a(ours.words, rust)
        yield "child", ours.inner is not None, rust["esds"] is not None
        if ours.inner and rust["esds"]:
            yield from fields_esds(ours.inner, rust["esds"], ours.audio)
    else:
        yield from fields_visual(ours.words, rust)
        yield "child", ours.inner is not None, True
        if ours.inner:
            yield from (fields_avcC(ours.inner, rust["avcc"]) if ours.kind == "avc1" else fields_vpcC(ours.inner, rust["vpcc"]))


# THE DIFFERENCES

TAKEN = {f"taken {number}" for number in (1, 2, 7, 8)}
AUDIO = {"profile", "freq_index", "chan_conf"}
DECODER = AUDIO | {"object_type_indication", "stream", "buffer_size_db", "max_bitrate", "avg_bitrate"}
VPCC = {"version", "flags", "profile", "level", "bit_depth", "chroma_subsampling", "video_full_range_flag", "color_primaries",
        "transfer_characteristics", "matrix_coefficients", "codec_initialization_data_size"}
# each number, and the differences that it may make
MAKES = {
    10: {"taken 8"}, 11: {"taken 1", "taken 2"}, 12: {"taken 2"}, 13: {"taken 2"}, 14: {"taken 1"}, 15: {"taken 1"},
    18: {"taken 7"},
    23: {"color_primaries", "transfer_characteristics", "matrix_coefficients", "codec_initialization_data_size", "wrote"},
    24: {"taken 1"}, 25: TAKEN | VPCC | {"refused", "child", "wrote"}, 42: {"refused"}, 43: {"taken 1"}, 44: {"taken 8"},
    46: {"profile", "wrote"}, 47: {"chan_conf", "wrote"}, 48: {"chan_conf", "taken 1", "wrote"},
    49: DECODER | TAKEN | {"refused", "wrote"}, 50: {"taken 1"}, 53: {"wrote"},
    51: DECODER | TAKEN | {"refused", "wrote"}, 52: TAKEN | {"child", "wrote"}, 74: {"taken 1"},
    75: TAKEN | {"end", "refused", "child", "wrote"},
    83: {"wrote itself"}, 84: TAKEN | {"refused", "child", "wrote"}, 85: {"taken 1", "taken 2", "wrote"}, 86: {"wrote"}, 87: {"wrote itself"},
    88: {"taken 1", "wrote"}, 89: {"taken 1"}, 90: {"taken 1"}, 91: DECODER | TAKEN | {"es_id", "refused", "wrote"},
    92: DECODER | TAKEN | {"refused", "wrote"}, 93: DECODER | {"wrote"}, 94: {"wrote"}, 95: {"wrote"}, 96: {"wrote"},
    97: AUDIO | {"taken 1", "wrote"}, 98: {"wrote"}, 99: {"wrote"}, 102: {"layer"}, 122: TAKEN | {"refused"},
}


# where the original looks elsewhere than we do, and so takes any fault that we find
ELSEWHERE = (25, 48, 49, 50, 51, 52, 75, 84, 85, 91, 92, 97, 122)


def classes(kind, data, ours, answer):
    """The numbers of the differences, each once; a text for one that none of those noted may make. `answer` is the
    original's or the model's; what is noted is the model's."""
    notes = boxed(data, kind)[3]
    found = []
    for name, mine, other in differences(ours, *answer):
        makes = [number for number in sorted(notes) if name in MAKES[number]
                 and (not name.startswith("taken") or mine in notes[number] or number in ELSEWHERE)]
        found += makes if makes else [f"{name}: ours {mine}, the original's {other}, noted {sorted(notes)}"]
    return list(dict.fromkeys(found))


def differences(ours, record, position, wrote):
    """Each as a name and the two sides."""
    if ours.refused:
        if record is not None:
            yield f"taken {ours.refused[0]}", ours.refused, "read"
        return
    if record is None:
        yield "refused", "read", "refused"
        return
    for name, mine, other in fields(ours, record):
        if mine != other:
            yield name, mine, other
    if ours.end != position:
        yield "end", ours.end, position
    mine = ours.wrote
    if ours.kind == "esds" and mine != wrote:  # with its SLConfig, and then without
        yield "layer", mine, wrote
        mine = with_layer(mine)
    behind = 8 + BEHIND.get(ours.kind, 0)
    if mine[8:behind] != wrote[8:behind]:
        yield "wrote itself", mine[8:behind], wrote[8:behind]
    if mine[behind:] != wrote[behind:]:
        yield "wrote", mine[behind:], wrote[behind:]


def with_layer(data):
    """An esds with the SLConfig that the original writes."""
    start, end = boxes.header(data)
    return box(b"esds", data[start:start + 4] + entries.made_stream(entries.Esds(data, start + 4, end), b"\6\0\0"))


# QUESTIONS: of descriptors, of audio configurations, and of codes

PROFILES = {"AvcConstrainedBaseline": "constrained", "AvcBaseline": "baseline", "AvcMain": "main", "AvcExtended": "extended",
            "AvcHigh": "high"}
TRACKS = {"Video": "video", "Audio": "audio", "Subtitle": "subtitle"}


def command(letters, data):
    """What the original is asked."""
    if letters in (b"asc ", b"desc"):
        return f"{letters.decode().strip()} {data.hex()}"
    if letters == b"aot " or letters in (b"freq", b"chan"):
        return f"{letters.decode().strip()} {data[0]}"
    if letters == b"prof":
        return f"avcprofile {data[0]} {data[1]}"
    if letters == b"kind":
        return f"handler {data.decode()}"
    if letters == b"dput":
        return f"descw {data[0]} {int.from_bytes(data[1:5], 'big')}"
    if letters == b"aput":
        return f"ascw {data[0]} {data[1]} {data[5]}"
    if letters == b"nmp4":
        return "mp4a " + " ".join(map(str, split(data, 4, 1, 1, 1)))
    if letters == b"navc":
        width, height, length = split(data, 2, 2, 2)
        return f"avc1 {width} {height} {hexed(data[6:6 + length])} {hexed(data[6 + length:])}"
    if letters == b"nvp9":
        return "vp09 " + " ".join(map(str, split(data, 2, 2)))
    if letters == b"ntx3":
        return "tx3g"
    raise KeyError(letters)


def hexed(data):
    return data.hex() or "-"


def asked(letters, data, answer):
    """The original's answer as words of ours, and the numbers noted; None where it refuses."""
    notes = {}
    if answer.startswith("ERR"):
        return None, notes
    said = answer[3:]
    if letters == b"asc ":
        s = Stream(data)
        s.ends.append((len(data), 50))
        try:
            model = read_specific(s, len(data))
        except Failed:
            model = None
        found = parsed(said[1:said.rindex(",")])
        assert model == found, (data, model, found)
        return [model["profile"], model["freq_index"], model["chan_conf"]], s.notes
    if letters == b"desc":
        s = Stream(data)
        s.ends.append((len(data), 89))
        tag, length = read_descriptor(s)
        assert said == f"(({tag}, {length}), {s.at})", (data, said)
        return [tag, s.at, s.at + length], s.notes
    if letters == b"prof":
        return [PROFILES[said]], {1: set()} if data[0] == 66 and data[1] & 0x40 else {}
    if letters == b"kind":
        return [TRACKS[said]], notes
    if letters == b"freq":
        return [int(said)], notes
    if letters in (b"aot ", b"chan"):
        return [data[0]], notes  # it tells a name for each number
    if letters == b"dput":
        return ["x" + said.split()[1]], {100: set()} if int.from_bytes(data[1:5], "big") >> 28 else {}
    # it writes the descriptor around the configuration too
    assert said.split()[1][:4] == "0502"
    return ["x" + said.split()[1][4:]], {53: set()} if data[0] > 30 else {101: set()} if data[1] == 15 else {}


# NEW ENTRIES: ours, each thing changed into what the original makes of it

def put(data, at, other):
    return data[:at] + other + data[at + len(other):]


def without_escape(data, specific):
    """An mp4a whose audio configuration has three bytes, with the two that the original writes."""
    for place, width in ((0, 4), (36, 4), (49, 1), (54, 1), (69, 1)):  # the sizes and lengths around it
        data = put(data, place, u(width, int.from_bytes(data[place:place + width], "big") - 1))
    return data[:70] + specific + data[73:]


def changed(letters, data, mine):
    """The numbers of the changes, each with the bytes after it."""
    if letters == b"nmp4":
        _, kind, index, channels = split(data, 4, 1, 1, 1)
        if kind > 31:
            mine = without_escape(mine, u(1, (kind << 3) + (index >> 1)) + u(1, (index << 7) + (channels << 3)))
            yield 53, mine
        if channels == 7:
            mine = put(mine, 24, u(2, 7))
            yield 105, mine
        mine = put(mine, 50, u(2, 1))
        yield 108, mine
        yield 103, mine[:-3] + b"\6\0\0"
    if letters == b"nvp9":
        yield 109, put(mine, 101, bytes(3))
    if letters == b"ntx3":
        yield 106, put(mine, 14, u(2, 0))


def new_classes(letters, data, words, answer):
    """The numbers of the differences between new entries. The frequencies 0 and 1 have more than 16 bits."""
    if words[0] == "refused" and "InvalidData" in answer:
        return []
    if words == ["refused", "13", "0"] and answer.startswith("PANIC index out of bounds") and letters == b"navc":
        return [104]
    if words == ["refused", "13", "0"] and letters == b"nmp4" and data[5] < 2:
        return [2]
    if words[0] == "refused" or not answer.startswith("OK"):
        return [f"ours {words}, the original's {answer}"]
    mine, other = text(words[0]), bytes.fromhex(answer.split()[4])
    found = []
    for number, after in changed(letters, data, mine):
        found += [number] if after != mine else []
        mine = after
    return found if mine == other else [f"ours {mine.hex()}, the original's {other.hex()}"]


NEW = (b"nmp4", b"navc", b"nvp9", b"ntx3")


def question_classes(letters, data, line, answer):
    """The numbers of the differences; a text for one that has none."""
    words = spoken(line)
    if letters in NEW:
        return new_classes(letters, data, words, answer)
    other, notes = asked(letters, data, answer)
    mine = None if words[0] == "refused" else numbers(words)
    if mine and letters == b"asc ":
        mine = [mine[0], mine[1], mine[3]]
    if mine == other:
        return []
    makes = [number for number in sorted(notes) if number not in (49, 94) and (letters != b"asc " or number != 53)]
    return makes if makes else [f"ours {words}, the original's {other}"]


# THE FIXED LIST

def stored():
    """Its boxes and questions: kind, bytes, the original's two answers, and the numbers of the differences."""
    with open(STORED) as file:
        lines = [line.rstrip("\n").partition(" ") for line in file if not line.startswith("#")]
    for box, read, copy, differs in zip(*(lines[i::4] for i in range(4))):
        kind, _, digits = box[2].partition(" ")
        yield box[0], kind, bytes.fromhex(digits), read[2], copy[2], [int(number) for number in differs[2].split()]


def asking(letters, data):
    return bytes(4) + letters + data


# what crates/copy_entries tells; of the others the second implementation alone answers
KNOWN = set(b"avc1 avcC vp09 vpcC tx3g mp4a esds desc dput aput kind medi prof freq inde chan nmp4 navc nvp9 ntx3".split()) | {b"aot ", b"asc "}


def is_known(part):
    return len(part) < 8 or part[4:8] in KNOWN


def members(what, kind, data):
    """What our answer is made of."""
    return [asking(kind.ljust(4).encode(), data)] if what == "ask" else [part for _, part in parts(kind, data)]


def pack():
    return boxes.pack_of(part for what, kind, data, *_ in stored() for part in members(what, kind, data) if is_known(part))


def replay(lines):
    """Compares the lines of crates/copy_entries for that pack with the stored answers."""
    lines, alike, wrong, met, total = iter(lines), 0, 0, set(), 0
    for what, kind, data, read, copy, differs in stored():
        own = [next(lines) if is_known(part) else entries.line(part) for part in members(what, kind, data)]
        if what == "ask":
            got = question_classes(kind.ljust(4).encode(), data, own[0], read)
        else:
            got = classes(kind, data, Ours(kind, data, own), original(read, copy))
        if got != differs:
            print(f"{kind} {data.hex()}: stored {differs}, found {got}")
            wrong += 1
        alike += not got
        total += 1
        met.update(got)
    print(f"{total} entries and questions and the original's stored answers: {alike} alike, {total - alike} with differences of "
          f"{len(met)} classes, {wrong} not as stored")
    return wrong == 0


def main():
    if sys.argv[1] == "--pack":
        pathlib.Path(sys.argv[2]).write_bytes(pack())
        return
    lines = pathlib.Path(sys.argv[1]).read_text().splitlines()
    first = lines.index("oracle.pack") + 1
    sys.exit(0 if replay(lines[first:]) else 1)


if __name__ == "__main__":
    main()
