#!/usr/bin/env python3
"""Prints what crates/describe_tracks must print for packs of traks: a second implementation, to hold the proved one against.

Written from document 01, the standards that it names, readings A2, A14, A29, A47, A52, A63 and A65, and what docs/PROMISES.md
says of a track by its trak: 5 names the first box that is missing on the way, a box's own refusal has its position counted
from that box's first byte, and a box that a fault of a header comes before is missing. The fields of boxes are read by
expected/boxes.py and expected/entries.py. A pack is a row of entries, each a length of four bytes and that many bytes: a
trak from its header on.
    python3 expected/describe.py PACK ...
    python3 expected/describe.py --pack PACK    writes corpus.pack, the traks of some files, or another, built ones
"""
import pathlib
import sys

import boxes
import entries
import summaries
from boxes import Box, Refused, header, number

FILES = pathlib.Path(__file__).resolve().parent.parent / "crates/framewitness/data"


# WHERE BOXES LIE

def content(data, kind):
    """What a box of this type holds; nothing where its header has a fault or it is another box."""
    try:
        start, end = header(data)
    except Refused:
        return b""
    return data[start:end] if data[4:8] == kind else b""


def rows(data):
    """The boxes of a row, up to the first fault."""
    at = 0
    while at < len(data):
        try:
            _, after = header(data, at, len(data), top=False)
        except Refused:
            return
        yield data[at:after]
        at = after


def first(data, kind):
    return next((box for box in rows(data) if box[4:8] == kind), b"")


def way(trak, *kinds):
    """The first box of each type in the one before, from the trak on; or which of them is missing first."""
    part, parent = trak, b"trak"
    for kind in kinds:
        part, parent = first(content(part, parent), kind), kind
        if not part:
            return b"", kind
    return part, None


WAYS = {b"tkhd": (b"tkhd",), b"mdhd": (b"mdia", b"mdhd"), b"hdlr": (b"mdia", b"hdlr"), b"stbl": (b"mdia", b"minf", b"stbl"),
        b"stsz": (b"mdia", b"minf", b"stbl", b"stsz"), b"stsd": (b"mdia", b"minf", b"stbl", b"stsd")}


def letters(kind):
    return number(kind, 0, 4)


def missing(trak, kind):
    """The first that is missing on the way to a box of this type; that type itself where none before it is."""
    lost = way(trak, *WAYS[kind])[1]
    return letters(lost or kind)


def read(part, reader):
    """The words that are told of a box."""
    box = Box(part)
    reader(box)
    return box.words


def told(trak, kind):
    """The same of a box that the trak must have."""
    part, lost = way(trak, *WAYS[kind])
    if lost:
        raise Refused(5, letters(lost))
    return read(part, boxes.READERS[kind])


def blob(word):
    return bytes.fromhex(word[1:])


def entry(trak):
    """The first sample entry; nothing where there is none, or a fault comes before it."""
    try:
        _, _, count, list_of = told(trak, b"stsd")
    except Refused:
        return b""
    return next(rows(blob(list_of)), b"") if count else b""


def entry_kind(trak):
    """0 where there is no entry."""
    told(trak, b"stsd")
    return letters(entry(trak)[4:8])


# WHAT A TRACK TELLS

def track_number(trak):
    return told(trak, b"tkhd")[4]


def media_header(trak):
    """Timescale, duration, language."""
    return told(trak, b"mdhd")[4:7]


def language(trak):
    code = media_header(trak)[2]
    return boxes.letters(bytes(0x60 + (code >> shift & 31) for shift in (10, 5, 0)))


def kind(trak):
    return entries.handler(told(trak, b"hdlr")[2].to_bytes(4, "big"))[0]


def media(trak):
    return entries.media(entry_kind(trak).to_bytes(4, "big"))[0]


def samples(trak):
    return told(trak, b"stsz")[3]


# VIDEO

def child(trak, kind, reader, inside):
    """The first box of a type in an entry that must be of another, and that must be read up to its boxes."""
    if entry_kind(trak) != letters(kind):
        raise Refused(5, letters(kind))
    part = first(blob(read(entry(trak), reader)[-1]), inside)
    if not part:
        raise Refused(5, letters(inside))
    return part


def avcc(trak):
    """Profile, compatibility, and both lists of parameter sets."""
    words = read(child(trak, b"avc1", entries.avc1, b"avcC"), entries.avcC)
    lists, at = [], 4
    for _ in range(2):
        count = words[at]
        lists.append([blob(words[at + 2 + 3 * i]) for i in range(count)])
        at += 1 + 3 * count
    return words[0], words[1], *lists


def video_profile(trak):
    return entries.profile(bytes(avcc(trak)[:2]))[0]


def parameter_set(trak, which, i):
    found = avcc(trak)[which]
    if i >= len(found):
        raise Refused(11, i)
    return found[i]


def set_part(which):
    def answer(trak, i):
        try:
            return "x" + parameter_set(trak, which, i).hex()
        except Refused:
            return "x"
    return answer


def set_fault(which):
    def answer(trak, i):
        parameter_set(trak, which, i)
        return "fine"
    return answer


# AUDIO

def stream(trak):
    part = child(trak, b"mp4a", entries.mp4a, b"esds")
    read(part, entries.esds)  # its version first
    start, end = header(part)
    return entries.Esds(part, start + 4, end)


def configuration(trak):
    """Object type, index, frequency, channels."""
    decoder = stream(trak).decoder
    return entries.audio(b"" if decoder is None or decoder.info is None else decoder.info)


def audio_profile(trak):
    return entries.object_type(bytes(configuration(trak)[:1]))[0]


def frequency(trak):
    """A frequency that is told itself is answered as it is."""
    _, index, itself, _ = configuration(trak)
    return itself if index == 15 else entries.frequency(bytes([index]))[0]


def channels(trak):
    return entries.channels(bytes(configuration(trak)[3:]))[0]


def audio_bitrate(trak):
    """The mean rate; 0 where it is not told."""
    decoder = stream(trak).decoder
    return decoder.numbers[4] if decoder else 0


# HOW LARGE IT IS

def total(trak):
    _, _, common, count, *sizes = told(trak, b"stsz")
    return common * count if common else sum(sizes[1::3])


def bitrate(trak):
    if entry_kind(trak) == letters(b"mp4a"):
        try:
            return audio_bitrate(trak)
        except Refused as fault:
            if fault.args[0] != 5:
                raise
            return 0  # there is no esds
    timescale, duration, _ = media_header(trak)
    bits, seconds = total(trak) * 8, duration // timescale
    if not seconds:
        return 0
    if bits >> 64 or bits // seconds >> 32:
        raise Refused(9, 0)
    return bits // seconds


def summary(trak):
    width, height = told(trak, b"tkhd")[-2:]
    timescale, duration, _ = media_header(trak)
    return summaries.line(samples(trak), duration, timescale, width, height)


# THE LINES

def length(kind):
    return lambda trak: len(way(trak, *WAYS[kind])[0])


SETS = (0, 1, 30, 255)  # of either list
GETTERS = [
    *((name.decode(), length(name)) for name in (b"tkhd", b"mdhd", b"hdlr", b"stbl", b"stsz", b"stsd")),
    ("entry", lambda trak: len(entry(trak))),
    ("missing_in_mdia", lambda trak: missing(trak, b"mdhd")), ("missing_in_stbl", lambda trak: missing(trak, b"stsz")),
    ("entry_kind", entry_kind), ("number", track_number), ("timescale", lambda trak: media_header(trak)[0]),
    ("language", language), ("kind", kind), ("media", media), ("samples", samples), ("video_profile", video_profile),
    *((f"{name}\t{i}", lambda trak, answer=answer, i=i: answer(trak, i)) for i in SETS for name, answer in (
        ("sps", set_part(2)), ("sps_fault", set_fault(2)), ("pps", set_part(3)), ("pps_fault", set_fault(3)))),
    ("audio_profile", audio_profile), ("frequency", frequency), ("channels", channels), ("audio_bitrate", audio_bitrate),
    ("bytes", total), ("bitrate", bitrate), ("summary", summary)]


def lines(trak):
    yield f"trak\t{len(trak)}"
    for name, getter in GETTERS:
        try:
            answer = getter(trak)
        except Refused as fault:
            answer = "refused\t%d\t%d" % fault.args
        yield f"{name}\t{answer}"


# TRAKS OF FILES

CORPUS = ("ff_1frame.mp4", "ff_audio_only.mp4", "ff_subs.mp4", "ff_vp9.mp4", "ff_hevc_hvc1.mp4", "ff_mov_av.mov", "gst_prog_av.mp4",
          "vlc_mp4.mp4", "lqt_streamize.mp4", "ff_frag_interleave.mp4")


def corpus():
    import collect
    found = {}
    for name in CORPUS:
        data = (FILES / name).read_bytes()
        found.update((box, True) for box in collect.walk(data, 0, len(data)) if box[4:8] == b"trak")
    return list(found)


# BUILT ONES

def own():
    import oracle_entries as made
    from build import STSD, box, counted, full, hold, row, stsz, trak
    from damage import large, picture_entry, sound_entry, u16, u32, u64

    def tkhd(track=1, width=320 << 16, height=240 << 16, version=0):
        wide = 8 if version else 4
        return full("tkhd", bytes(2 * wide) + u32(track) + bytes(4 + wide + 52) + row(width, height), version, 3)

    def mdhd(timescale=1000, duration=3000, code=0x55C4, version=0):
        wide = 8 if version else 4
        return full("mdhd", bytes(2 * wide) + u32(timescale) + row(duration, width=wide) + u16(code) + u16(0), version)

    def hdlr(kind=b"vide"):
        return full("hdlr", bytes(4) + kind + bytes(12) + b"name\0")

    def stsd(*some, count=None):
        return counted(b"stsd", len(some) if count is None else count, b"".join(some))

    def track(*some, **parts):
        return trak(**{"tkhd": tkhd(), "mdhd": mdhd(), "hdlr": hdlr(), "stsz": [10, 20, 30], "stsd": stsd(*some) if some else STSD,
                       **parts})

    def avc1(config=None, **fields):
        inside = made.box("avcC", made.avcc(**fields)) if config is None else config
        return made.box("avc1", made.visual(inside))

    def mp4a(inside=None, **fields):
        """An esds with such a DecoderConfig."""
        if inside is None:
            inside = made.box("esds", made.esds(made.es(inside=made.desc(4, made.decoder(**fields)))))
        return made.box("mp4a", made.sound(inside))

    def esds(content):
        return mp4a(made.box("esds", content))

    text = made.box("tx3g", made.words())
    vp09 = made.box("vp09", made.visual(made.box("vpcC", made.vpcc())))
    # each type of entry, and none
    others = (box(b"hev1", bytes(78)), box(b"hvc1", bytes(78)), box(b"AVC1", bytes(78)), box(b"mp4v"))
    for one in (avc1(), mp4a(), vp09, text, *others):
        yield track(one)
    yield track(mp4a(), avc1(), hdlr=hdlr(b"soun"))
    yield track(avc1(), mp4a(), hdlr=hdlr(b"sbtl"))
    yield track(stsd=stsd())
    yield track(stsd=stsd(avc1(), count=0))
    yield track(stsd=stsd(avc1(), count=9))
    yield track(stsd=stsd(count=1))
    yield track(stsd=full("stsd", u32(1) + avc1(), version=1))
    yield track(stsd=full("stsd", b"\0\0\0"))
    yield track(stsd=stsd(box(b"avc1", bytes(78), size=7)))
    yield track(stsd=stsd(box(b"avc1", bytes(78), size=0)))
    yield track(stsd=stsd(box(b"avc1", bytes(78), size=87)))
    yield track(stsd=stsd(large(b"mp4a", mp4a()[8:])))
    # a box that is missing, twice, or behind a fault
    for name in ("tkhd", "mdia", "mdhd", "hdlr", "minf", "stbl", "stsd", "stsz"):
        yield track(avc1(), **{name: b""})
        yield track(mp4a(), **{name: box(b"free", size=7)})
        yield track(avc1(), **{name: box(name.encode())})
    yield track(avc1(), tkhd=tkhd(7) + tkhd(8), mdhd=mdhd(5) + mdhd(6), hdlr=hdlr(b"soun") + hdlr(), stsz=stsz([1]) + stsz([2]))
    yield track(avc1(), tkhd=box(b"free") + tkhd(9), mdhd=large(b"mdhd", mdhd()[8:]), stsz=large(b"stsz", stsz([5, 6])[8:]))
    yield track(mp4a(), dinf=box(b"dinf", size=4))
    yield track(avc1(), hdlr=hdlr() + box(b"free", size=999))
    # numbers of tkhd and mdhd
    for one in (tkhd(0), tkhd(0xFFFFFFFF, 1, 0xFFFFFFFF), tkhd(2, 0x18000, 0xFFFF, version=1), tkhd(version=2), tkhd()[:91]):
        yield track(avc1(), tkhd=u32(len(one)) + one[4:])
    for timescale, duration, version in (
            (0, 3000, 0), (0, 0, 1), (1, 18_446_744_073_709, 1), (1, 18_446_744_073_710, 1), (1, (1 << 64) - 1, 1), (1000, 999, 0),
            (1000, 1000, 0), (1000, 1999, 0), (600, 0, 0), (0xFFFFFFFF, 0xFFFFFFFF, 0), (90000, 1 << 40, 1), (1000, 3000, 2)):
        yield track(vp09, mdhd=mdhd(timescale, duration, version=version))
        yield track(mp4a(), mdhd=mdhd(timescale, duration, version=version))
    for code in (0, 0x7FFF, 0xFFFF, 0x15C7, 0xD5C4, 0x6B9B):
        yield track(text, mdhd=mdhd(code=code))
    for one in (b"vide", b"soun", b"sbtl", b"VIDE", b"text", bytes(4)):
        yield track(text, hdlr=hdlr(one))
    yield track(text, hdlr=full("hdlr", bytes(19)))
    yield track(text, hdlr=full("hdlr", bytes(20), version=1))
    # bit rates up to 32 bits and past them, by sizes in common and by listed ones
    for common, count, timescale, duration in (
            (0xFFFFFFFF, 1, 1, 8), (0xFFFFFFFF, 1, 1, 7), (0x20000000, 1, 1, 1), (0x1FFFFFFF, 1, 1, 1),
            (0xFFFFFFFF, 0xFFFFFFFF, 1, 1), (0x80000000, 0x40000000, 1, 0xFFFFFFFF), (0x80000000, 0x3FFFFFFF, 1, 0xFFFFFFFF),
            (0xFFFFFFFF, 0xFFFFFFFF, 1000, 999), (1, 0, 1, 1), (7, 3, 2, 5)):
        yield track(text, stsz=stsz([], common, count), mdhd=mdhd(timescale, duration))
    yield track(vp09, stsz=stsz([0xFFFFFFFF] * 5), mdhd=mdhd(1, 39))
    yield track(vp09, stsz=stsz([0xFFFFFFFF] * 5), mdhd=mdhd(1, 40))
    yield track(vp09, stsz=stsz([1, 2, 3, 4], count=3))
    yield track(vp09, stsz=stsz([1, 2, 3], count=4))
    yield track(vp09, stsz=full("stsz", row(0, 0), version=1))
    # profiles and parameter sets
    for profile, compatibility in ((66, 0), (66, 0x40), (66, 0xBF), (77, 0x40), (88, 0), (100, 0), (110, 0), (0, 0)):
        yield track(avc1(profile=profile, compatibility=compatibility))
    yield track(avc1(sps=(), pps=()))
    yield track(avc1(sps=(b"",), pps=(b"", b"\x68")))
    yield track(avc1(sps=(made.SPS, b"\x67\1"), pps=()))
    yield track(avc1(sps=[bytes([0x67, i]) for i in range(31)], pps=[bytes([0x68, i]) for i in range(255)]))
    yield track(avc1(sps=(made.SPS,), pps=(b"\1", b"\2"), extension=b"\xfd\xf8\xf8\0"))
    yield track(avc1(version=0))
    yield track(avc1(counts=(2, 1)))
    yield track(avc1(counts=(1, 2)))
    for size in range(8, 15):
        yield track(avc1(made.box("avcC", made.avcc()[:size - 8])))
    yield track(avc1(b""))
    yield track(avc1(made.box("vpcC", made.vpcc())))
    yield track(avc1(box(b"free", size=3) + made.box("avcC", made.avcc())))
    yield track(avc1(box(b"free") + made.box("avcC", made.avcc(profile=77)) + made.box("avcC", made.avcc())))
    yield track(avc1(made.box("avcC", made.avcc(), size=99)))
    for size in (8, 13, 15, 16, 84, 85, 86):
        yield track(made.box("avc1", made.visual()[:size - 8]))
    yield track(picture_entry(b"vp09", made.box("avcC", made.avcc())))
    # audio: object types, frequencies, channels, rates, descriptors
    for one in (0, 1, 2, 5, 9, 10, 11, 12, 17, 18, 19, 29, 30, 32, 42, 46, 47, 95):
        yield track(mp4a(info=made.config(one)))
    for index in range(16):
        yield track(mp4a(info=made.config(index=index, frequency=0x5622)))
    yield track(mp4a(info=made.config(42, 15, 7, 0xFFFFFF)))
    yield track(mp4a(info=made.config(index=15, frequency=0)))
    for one in range(16):
        yield track(mp4a(info=made.config(channels=one)))
    for mean in (0, 1, 128000, 0x7FFFFFFF, 0xFFFFFFFF):
        yield track(mp4a(mean=mean, most=mean // 2), hdlr=hdlr(b"soun"))
    for info in (b"", b"\x11", b"\xf8\x5c", b"\x17\x80\x5d\xc0", made.config() + b"\x56\xe5\0"):
        yield track(mp4a(info=info))
    yield track(mp4a(info=None))
    yield track(mp4a(info=None, after=made.desc(7, b"x") + made.desc(5, made.config(5, 6, 1)) + made.desc(5, b"")))
    yield track(mp4a(b""))
    yield track(mp4a(box(b"free")))
    yield track(mp4a(box(b"free", size=5) + made.box("esds", made.esds())))
    yield track(mp4a(box(b"free") + made.box("esds", made.esds()) + made.box("esds")))
    yield track(mp4a(made.box("esds", made.esds(), size=99)))
    yield track(esds(made.esds(made.es(inside=b""))))
    yield track(esds(made.esds(made.es(inside=b"", after=b""))))
    yield track(esds(made.esds(made.es(inside=made.desc(6, b"\2") + made.desc(4, made.decoder())))))
    yield track(esds(made.esds(made.es(flags=0xE0))))
    yield track(esds(made.esds(width=4)))
    yield track(esds(made.esds(version=1)))
    yield track(esds(bytes(4) + made.desc(4, made.decoder())))
    yield track(esds(bytes(4) + made.desc(3, made.es(), length=99)))
    yield track(esds(bytes(4) + b"\3\x80\x80\x80\x80\1"))
    for size in (*range(0, 8), 10, 12, 20, 24, 27, 28, 30, 33):
        yield track(esds(made.esds()[:size]))
    for size in (8, 13, 15, 16, 23, 34, 35, 36):
        yield track(made.box("mp4a", made.sound()[:size - 8]))
    yield track(sound_entry(1, bytes(16) + made.box("esds", made.esds())))
    yield track(sound_entry(1, made.box("esds", made.esds())))
    # boxes that end early
    for name, whole, sizes in (("tkhd", tkhd(), (8, 11, 12, 16, 20, 24, 40, 91)), ("mdhd", mdhd(), (8, 12, 20, 24, 28, 30, 31)),
                               ("hdlr", hdlr(), (8, 12, 16, 20, 31, 32)), ("stsz", stsz([5, 6]), (8, 12, 16, 20, 24, 27)),
                               ("stsd", stsd(avc1()), (8, 12, 15, 16, 20, 24, 40))):
        for size in sizes:
            yield track(avc1(), **{name: u32(size) + whole[4:size]})
    # the trak itself: cut, of another type, with bytes behind it, by the other sizes
    whole = track(avc1())
    for size in (*range(8), *range(8, len(whole), 36)):
        yield whole[:size]
        yield u32(size) + whole[4:size] if size >= 8 else whole[:4] + b"t" * size
    yield whole[:4] + b"moov" + whole[8:]
    yield whole + mp4a() + b"\0"
    yield bytes(4) + whole[4:]
    yield u32(7) + whole[4:]
    yield large(b"trak", whole[8:])
    yield u32(1) + b"trak" + u64(15) + whole[8:]
    yield hold("trak", whole)


def main():
    if sys.argv[1] == "--pack":
        # by the pack's name: that of some files, or the built one
        name = pathlib.Path(sys.argv[2])
        name.write_bytes(boxes.pack_of(corpus() if name.stem == "corpus" else own()))
        return
    for name in sys.argv[1:]:
        with open(name, "rb") as file:
            pack = file.read(boxes.MOST_BYTES)
        print(name)
        for data in boxes.entries(pack):
            for line in ["cut"] if data is None else lines(data):
                print(line)


if __name__ == "__main__":
    main()
