#!/usr/bin/env python3
"""Prints what crates/copy_entries must print for packs of sample entries: a second implementation, to hold the proved one
against.

Written from document 01, the standards that it names (ISO/IEC 14496-12 for the entries, 14496-15 for avcC, 14496-1 and
14496-3 for esds, the VP codec mapping for vpcC, 3GPP TS 26.245 for tx3g), and readings A22, A28, A29, A52, A63 and A64. A
pack is a row of entries, each a length of four bytes and that many bytes: a box from its header on, or a question: four
zeros, four letters, and what is asked.
    python3 expected/entries.py PACK ...
    python3 expected/entries.py --pack PACK    writes the questions that the original is not asked
"""
import sys

import boxes
from boxes import Box, Refused, number


# THE BOXES. Box.reserved takes zeros as standard; here a constant may be another.

def constant(box, width, value):
    """A field that must be there and is written at its standard value, whatever it was (A22)."""
    if number(box.take(width), 0, width) != value:
        box.plain = False
    box.made += value.to_bytes(width, "big")


def entry(box):
    """SampleEntry, 14496-12, 8.5.2."""
    constant(box, 6, 0)
    box.field(2)  # data reference


def visual(box):
    """VisualSampleEntry, 14496-12, 12.1.3: then boxes, to the end."""
    entry(box)
    constant(box, 2, 0), constant(box, 2, 0)
    for _ in range(3):
        constant(box, 4, 0)
    box.field(2), box.field(2), box.field(4), box.field(4)  # width, height, both resolutions
    constant(box, 4, 0)
    box.field(2)  # frames in a sample
    name = [box.take(8) for _ in range(4)]  # of the compressor: four numbers in the record
    box.words.append("x" + b"".join(name).hex())
    box.made += b"".join(name)
    box.field(2)  # depth
    constant(box, 2, 0xFFFF)
    box.bytes()


def avc1(box):  # 14496-15, 5.3.4
    visual(box)


def vp09(box):  # the VP codec mapping
    visual(box)


def mp4a(box):
    """AudioSampleEntry, 14496-12, 12.2.3: then boxes, to the end."""
    entry(box)
    constant(box, 8, 0)
    box.field(2), box.field(2)  # channels, bits of a sample
    constant(box, 2, 0), constant(box, 2, 0)
    box.field(4)  # rate, 16.16
    box.bytes()


def tx3g(box):
    """TextSampleEntry, 26.245, 5.16: signed numbers are told as their bits. Then boxes, to the end."""
    entry(box)
    box.field(4)
    for width in (1, 1) + 4 * (1,) + 4 * (2,) + (2, 2, 2, 1, 1) + 4 * (1,):
        box.field(width)
    box.bytes()


def low_bits(box, bits):
    """A byte whose bits above these are reserved, and are ones."""
    value = box.take(1)[0]
    high = 0xFF >> bits << bits
    if value & high != high:
        box.plain = False
    box.made += bytes([value | high])
    box.words.append(value & ~high)
    return value & ~high


def avcC(box):  # 14496-15, 5.3.3.1.2
    if box.take(1)[0] != 1:
        raise Refused(8, box.at - 1)  # A28
    box.made += b"\1"
    box.field(1), box.field(1), box.field(1)  # profile, compatibility, level
    low_bits(box, 2)

    def sets(count):
        for _ in range(count):
            length = box.take(2)
            box.made += length
            box.words.append("[")
            box.bytes(box.at + number(length, 0, 2))
            box.words.append("]")
    sets(low_bits(box, 5))
    sets(box.field(1))
    box.bytes()  # the extension of some profiles


def vpcC(box):
    box.full(1)
    box.field(1), box.field(1)  # profile, level
    byte = box.take(1)[0]
    box.made += bytes([byte])
    box.words += [byte >> 4, byte >> 1 & 7, byte & 1]  # bit depth, subsampling, full range
    box.field(1), box.field(1), box.field(1)  # primaries, transfer, matrix
    data = b"".join(box.take(1) for _ in range(box.field(2)))  # a table of bytes (A9)
    box.words.append("x" + data.hex())
    box.made += data


# DESCRIPTORS, 14496-1, 7.2.2 and 8.3.3

def length_at(data, at, end):
    """The length that begins at `at`, and where it ends."""
    value = 0
    for i in range(4):
        if at + i >= end:
            raise Refused(1, at)
        value = value << 7 | data[at + i] & 0x7F
        if data[at + i] < 0x80:
            return value, at + i + 1
    raise Refused(8, at)


def descriptor(data, at, end):
    """Tag, and where the content begins and ends; 1 at the tag where that passes `end` (A29)."""
    if at >= end:
        raise Refused(1, at)
    length, start = length_at(data, at + 1, end)
    if start + length > end:
        raise Refused(1, at)
    return data[at], start, start + length


def length_bytes(value):
    digits = [value & 0x7F]
    while value >> 7:
        value >>= 7
        digits.append(value & 0x7F | 0x80)
    return bytes(reversed(digits))


class Part:
    """Fields of a descriptor's content, one after the other."""

    def __init__(self, data, at, end):
        self.data, self.at, self.end = data, at, end

    def take(self, width):
        if self.at + width > self.end:
            raise Refused(1, self.at)
        self.at += width
        return self.data[self.at - width:self.at]

    def field(self, width):
        return number(self.take(width), 0, width)


class Esds:
    """What an esds says (A29)."""

    def __init__(self, data, at, end):
        if at < end and data[at] != 3:
            raise_tag(data, at, end)
        _, at, end = descriptor(data, at, end)
        part = Part(data, at, end)
        self.es, self.flags = part.field(2), part.field(1)
        self.depends = part.field(2) if self.flags & 0x80 else 0
        self.location = part.take(part.field(1)) if self.flags & 0x40 else b""
        self.clock = part.field(2) if self.flags & 0x20 else 0
        self.decoder = self.layer = None
        at = part.at
        while at < end:
            tag, start, stop = descriptor(data, at, end)
            if tag == 6:
                self.layer = data[start:stop]  # what stands behind it is skipped
                break
            if tag == 4 and not self.decoder:  # the first counts
                self.decoder = Decoder(data, start, stop)
            at = stop


def raise_tag(data, at, end):
    """A tag that is not allowed: 8 there, but 1 there where the descriptor passes its parent, the smaller number."""
    try:
        descriptor(data, at, end)
    except Refused as fault:
        if fault.args == (1, at):
            raise
    raise Refused(8, at)


class Decoder:
    """DecoderConfigDescriptor, 7.2.6.6: its numbers, and the first DecoderSpecificInfo with its place, which has its bytes."""

    def __init__(self, data, at, end):
        part = Part(data, at, end)
        self.numbers = [part.field(width) for width in (1, 1, 3, 4, 4)]
        self.info = None
        at = part.at
        while at < end:
            tag, start, stop = descriptor(data, at, end)
            if tag == 5 and self.info is None:
                self.info, self.place = data[start:stop], start
                try:
                    audio(self.info)
                except Refused as fault:  # A29, vii
                    raise Refused(fault.args[0], start + fault.args[1]) from None
            at = stop


def audio(data):
    """AudioSpecificConfig, 14496-3, 1.6.2.1: object type, index of the frequency, the frequency where it is told, and
    the channel configuration. 1 at the first byte that is not there."""
    bits = "".join(f"{byte:08b}" for byte in data)
    at = 0

    def take(count):
        nonlocal at
        if at + count > len(bits):
            raise Refused(1, len(data))
        at += count
        return int(bits[at - count:at], 2)
    kind = take(5)
    if kind == 31:
        kind = 32 + take(6)
    index = take(4)
    frequency = take(24) if index == 15 else 0
    return [kind, index, frequency, take(4)]


# THE LINES

READERS = {reader.__name__.encode(): reader for reader in (avc1, vp09, mp4a, tx3g, avcC, vpcC)}
QUESTIONS = {}


def esds(box):
    if box.take(1)[0]:
        raise Refused(7, box.at - 1)
    box.made += b"\0"
    box.field(3)
    told = Esds(box.data, box.at, box.end)
    box.words += [told.es, told.flags, told.depends, "x" + told.location.hex(), told.clock]
    if told.decoder:
        info = [] if told.decoder.info is None else ["x" + told.decoder.info.hex()]
        box.words += ["[", *told.decoder.numbers, *info, "]"]
    if told.layer is not None:
        box.words.append("x" + told.layer.hex())
    box.made += made_stream(told, b"" if told.layer is None else made_descriptor(6, told.layer))
    box.plain &= box.made == box.data[8:box.end]
    box.at = box.end


def made_stream(told, layer):
    """An ES descriptor as it is written, with these bytes for its SLConfig."""
    content = told.es.to_bytes(2, "big") + bytes([told.flags])
    content += told.depends.to_bytes(2, "big") if told.flags & 0x80 else b""
    content += bytes([len(told.location)]) + told.location if told.flags & 0x40 else b""
    content += told.clock.to_bytes(2, "big") if told.flags & 0x20 else b""
    if told.decoder:
        inner = b"".join(value.to_bytes(width, "big") for value, width in zip(told.decoder.numbers, (1, 1, 3, 4, 4)))
        info = told.decoder.info
        content += made_descriptor(4, inner + (b"" if info is None else made_descriptor(5, info)))
    return made_descriptor(3, content + layer)


def made_descriptor(tag, content):
    return bytes([tag]) + length_bytes(len(content)) + content


READERS[b"esds"] = esds


# QUESTIONS: what is asked stands behind four zeros and four letters

def asked(letters):
    def keep(answer):
        QUESTIONS[letters] = answer
        return answer
    return keep


@asked(b"asc ")
def configuration(data):
    return audio(data)


@asked(b"desc")
def one_descriptor(data):
    """Tag, and where the content begins and ends."""
    return list(descriptor(data, 0, len(data)))


@asked(b"dput")
def put_descriptor(data):
    """The head of a descriptor of this tag and length, shortest; 13 where four bytes do not hold the length (A64)."""
    length = number(data, 1, 4)
    if length >> 28:
        raise Refused(13, 0)
    return ["x" + (data[:1] + length_bytes(length)).hex()]


@asked(b"aput")
def put_configuration(data):
    """The bytes of an audio configuration: object type, index, frequency in three bytes, channels; 13 where one has no
    such bits."""
    kind, index, frequency, channels = data[0], data[1], number(data, 2, 3), data[5]
    if kind == 31 or kind > 95 or index > 15 or channels > 15 or index < 15 and frequency:
        raise Refused(13, 0)
    bits = f"{kind:05b}" if kind < 31 else f"{31:05b}{kind - 32:06b}"
    bits += f"{index:04b}" + (f"{frequency:024b}" if index == 15 else "") + f"{channels:04b}"
    size = -(-len(bits) // 8)
    return ["x" + int(bits.ljust(size * 8, "0"), 2).to_bytes(size, "big").hex()]


@asked(b"kind")
def handler(data):
    return [one_of({b"vide": "video", b"soun": "audio", b"sbtl": "subtitle"}, data)]


@asked(b"medi")
def media(data):
    return [one_of({b"avc1": "h264", b"hev1": "h265", b"vp09": "vp9", b"mp4a": "aac", b"tx3g": "ttxt"}, data)]


def one_of(names, key):
    if key not in names:
        raise Refused(8, 0)
    return names[key]


@asked(b"prof")
def profile(data):
    indication, compatibility = data
    if indication == 66:
        return ["constrained" if compatibility & 0x40 else "baseline"]
    return [one_of({77: "main", 88: "extended", 100: "high"}, indication)]


@asked(b"aot ")
def object_type(data):
    if data[0] in (0, 10, 11, 18, 31) or data[0] > 46:
        raise Refused(8, 0)
    return [data[0]]


FREQUENCIES = (96000, 88200, 64000, 48000, 44100, 32000, 24000, 22050, 16000, 12000, 11025, 8000, 7350)


@asked(b"freq")
def frequency(data):
    return [one_of(dict(enumerate(FREQUENCIES)), data[0])]


@asked(b"inde")
def index(data):
    return [one_of({frequency: i for i, frequency in enumerate(FREQUENCIES)}, number(data, 0, 4))]


@asked(b"chan")
def channels(data):
    if not 1 <= data[0] <= 7:
        raise Refused(8, 0)
    return [data[0]]


# NEW ENTRIES: the bytes of each, with the box that it holds

def whole(letters, *parts):
    content = b"".join(parts)
    return (len(content) + 8).to_bytes(4, "big") + letters + content


def numbers(width, *values):
    return b"".join(value.to_bytes(width, "big") for value in values)


FIRST = bytes(6) + numbers(2, 1)  # SampleEntry: data references are counted from 1


@asked(b"nmp4")
def new_sound(data):
    """AAC of a bitrate, an object type, an index of a frequency and a channel configuration, of which 7 has 8 channels
    (14496-3, table 1.19). The rate is 16.16: 13 where the frequency has more than 16 bits. The ES_ID is 0 and
    the SLConfig 2 (14496-14, 3.1.2)."""
    (kind,), (rate,), (configuration,) = object_type(data[4:5]), frequency(data[5:6]), channels(data[6:7])
    if rate > 0xFFFF:
        raise Refused(13, 0)
    info = bytes.fromhex(put_configuration(bytes((kind, data[5], 0, 0, 0, configuration)))[0][1:])
    decoder = made_descriptor(4, b"\x40\x15" + bytes(3) + 2 * data[:4] + made_descriptor(5, info))
    stream = made_descriptor(3, numbers(2, 0) + b"\0" + decoder + made_descriptor(6, b"\2"))
    sound = bytes(8) + numbers(2, 8 if configuration == 7 else configuration, 16) + bytes(4) + numbers(4, rate << 16)
    return ["x" + whole(b"mp4a", FIRST, sound, whole(b"esds", bytes(4), stream)).hex()]


def new_picture(letters, size, child):
    """With the template values of 14496-12, 12.1.3."""
    picture = bytes(16) + size + numbers(4, 72 << 16, 72 << 16, 0) + numbers(2, 1) + bytes(32) + numbers(2, 24, 0xFFFF)
    return ["x" + whole(letters, FIRST, picture, child).hex()]


@asked(b"navc")
def new_avc(data):
    """A width, a height, the length of an SPS, that, and a PPS: both in avcC, with the profile, the compatibility and the
    level of the SPS, and lengths of four bytes; 13 where it has fewer than four."""
    length = number(data, 4, 2)
    sps, pps = data[6:6 + length], data[6 + length:]
    if len(sps) < length or length < 4:
        raise Refused(13, 0)
    sets = [numbers(2, len(one)) + one for one in (sps, pps)]
    return new_picture(b"avc1", data[:4], whole(b"avcC", b"\1", sps[1:4], b"\xff\xe1", sets[0], b"\1", sets[1]))


@asked(b"nvp9")
def new_vp9(data):
    """A width and a height. Of profile 0, level 3.1 and 8 bits; nothing is known of its colours (23001-8: 2)."""
    return new_picture(b"vp09", data[:4], whole(b"vpcC", b"\1", bytes(3), b"\0\x1f\x80\2\2\2", bytes(2)))


@asked(b"ntx3")
def new_text(data):
    """Centred at the bottom, white on black, 16 points of the font 1."""
    return ["x" + whole(b"tx3g", FIRST, bytes(4), b"\1\xff\0\0\0\xff", bytes(8), numbers(2, 0, 0, 1), b"\0\x10", 4 * b"\xff").hex()]


# how many bytes are asked with a code, or of a new entry
LEAST = {b"kind": 4, b"medi": 4, b"inde": 4, b"prof": 2, b"aot ": 1, b"freq": 1, b"chan": 1, b"nmp4": 7, b"navc": 6, b"nvp9": 4}


def told(data):
    """The words behind the type, and the box as it is written or nothing."""
    question = QUESTIONS.get(data[4:8])
    reader = READERS.get(data[4:8])
    try:
        if question:
            return question(data[8:]) if len(data) - 8 >= LEAST.get(data[4:8], 0) else ["unknown"], None
        if reader is None:
            return ["unknown"], None
        box = Box(data)
        reader(box)
    except Refused as fault:
        return ["refused", *fault.args], None
    made = (len(box.made) + 8).to_bytes(4, "big") + data[4:8] + box.made
    same = made == data[:box.end]
    assert same == (box.plain and box.at == box.end), data  # what is canonical comes back, and nothing else does
    return box.words + (["same"] if same else ["wrote", made.hex()]), made


def line(data):
    kind = boxes.letters(data[4:8]) if len(data) >= 8 else "-"
    return " ".join(map(str, [kind, *told(data)[0]]))


def own():
    """Questions without a counterpart in the original: the index of a frequency, the media of a sample entry."""
    for value in sorted({n + d for n in (*FREQUENCIES, 1, 0xFFFFFFFE) for d in (-1, 0, 1)}):
        yield bytes(4) + b"inde" + value.to_bytes(4, "big")
    for letters in (b"avc1", b"hev1", b"vp09", b"mp4a", b"tx3g", b"avc3", b"hvc1", b"vp08", b"mp4v", b"AVC1", bytes(4)):
        yield bytes(4) + b"medi" + letters
    for letters in (b"inde", b"medi", b"prof", b"none", b"nmp4", b"navc", b"nvp9"):  # what is asked is not there
        yield bytes(4) + letters
    yield bytes(4) + b"navc" + numbers(2, 320, 240, 5) + b"\x67\x42\0\x1e"  # nor is all of this SPS


def main():
    if sys.argv[1] == "--pack":
        with open(sys.argv[2], "wb") as file:
            file.write(boxes.pack_of(own()))
        return
    for name in sys.argv[1:]:
        with open(name, "rb") as file:
            pack = file.read(boxes.MOST_BYTES)
        print(name)
        for data in boxes.entries(pack):
            print("cut" if data is None else line(data))


if __name__ == "__main__":
    main()
