"""The built files that the audit is tried on, each with its verdict as it was worked out by hand from document 01 and the
readings: not by expected/audit.py, which must say the same.

A file is a name, a verdict and its bytes. A verdict is `clean(..)`, or a refusal's number and detail, or a finding with track,
sample, position and gap; in it @tkhd+8 is 8 bytes after the first box tkhd, @trak#2 the second trak, @end the file's end.
"""
import re

import boxes
from build import (
    FREE, FTYP, HDLR, HERE, MVHD, DREF, STSD, URL, case2, elst, fragments, full, hold, mdat, mdhd, moof, moov, movie, nest, one,
    pairs, plain, row, single, start, stsz, table, tfdt, tfhd, tkhd, traf, trak, trex, two)
from damage import box, counted, large, picture_entry, sound_entry, u16, u32, u64


def clean(tracks, samples, media):
    return f"clean tracks={tracks} samples={samples} media={media}"


def sound():
    yield "case2", clean(1, 6, 210), case2()
    yield "one", clean(1, 3, 60), one()
    yield "two_tracks", clean(2, 6, 120), movie(120, plain(), plain(2, chunks=[108]))
    yield "two_by_turns", clean(2, 4, 40), movie(
        40, plain(2, chunks=[58, 78], sizes=[10, 10]), plain(1, chunks=[48, 68], sizes=[10, 10]))
    yield "three_tracks", clean(3, 9, 180), movie(180, plain(), plain(9, chunks=[168]), plain(0xFFFFFFFF, chunks=[108]))
    yield "four_tracks", clean(4, 12, 240), movie(240, *(plain(n + 1, chunks=[48 + 60 * n]) for n in range(4)))
    yield "co64", clean(1, 3, 60), one(stco=b"", co64=[48])
    yield "mdat_large", clean(1, 3, 60), movie(mdat(60, large), plain(chunks=[56]))
    front = len(FTYP + moov(plain()))
    yield "mdat_to_end", clean(1, 3, 60), FTYP + moov(plain(chunks=[front + 8])) + box(b"mdat", b"m" * 60, size=0)
    yield "empty_mdats", clean(1, 2, 30), movie(
        mdat(0) + mdat(10) + mdat(0) + mdat(20) + mdat(0, large), plain(chunks=[56, 82], sizes=[10, 20]))
    yield "no_mdat", clean(1, 0, 0), movie(b"", trak())
    yield "no_track", clean(0, 0, 0), movie(0)
    yield "last_no_time", clean(1, 3, 60), one(stts=[(2, 1000), (1, 0)])
    yield "runs_of_none", clean(1, 3, 60), one(stts=[(0, 0), (3, 1), (0, 7)], ctts=[(0, 5), (3, 1)])
    yield "ctts", clean(1, 3, 60), one(ctts=table("ctts", [(1, -500), (1, 2000), (1, -(1 << 31))], version=1), stss=[1, 3])
    yield "ctts_0", clean(1, 3, 60), one(ctts=[(3, -1)], stss=[])
    yield "common_size", clean(1, 3, 60), one(stsz=stsz([], 20, 3))
    yield "no_chunks", clean(1, 0, 0), movie(0, trak(stts=[(0, 9)], stss=[], ctts=[]))
    yield "behind_fields", clean(1, 3, 60), one(
        stts=full("stts", row(1, 3, 1000, 7)), stsc=full("stsc", row(1, 1, 3, 1) + b"xyz"), stsz=stsz([10, 20, 30, 40], count=3),
        stco=full("stco", row(1, 48, 49)), tkhd=full("tkhd", bytes(8) + u32(1) + bytes(80), flags=1))
    yield "version_1", clean(1, 3, 60), one(
        tkhd=tkhd(version=1), mdhd=mdhd(version=1), edts=hold("edts", elst((5, -1), (1 << 40, 0), version=1)))
    # a duration that is not known, all ones, has no microseconds: its summary is refused, and nothing else
    yield "duration_unknown", clean(1, 3, 60), one(mdhd=mdhd(version=1, duration=(1 << 64) - 1))
    yield "other_order", clean(1, 3, 60), FTYP + mdat(60) + hold("moov", hold(
        "trak", hold("mdia", hold("minf", hold("stbl", table("stco", [48]), stsz([10, 20, 30]), table("stsc", [(1, 3, 1)]),
                                              table("stts", [(3, 1)]), STSD), hold("dinf")), HDLR, mdhd()), tkhd()), MVHD)
    # boxes out of their place are skipped: a second hdlr, a tkhd of number 0, an mdat, tables, a counted box with nothing in it
    astray = full("hdlr") + tkhd(0) + mdat(5) + stsz([], 1, 70000) + box(b"stsd", row(0, 9)) + full("url ")
    yield "astray", clean(1, 3, 60), (
        FTYP + mdat(60) + hold("moov", astray, MVHD, plain(dinf=hold("dinf", box(b"alis"), DREF) + astray)) + box(b"tkhd"))
    yield "large_headers", clean(1, 3, 60), FTYP + mdat(60) + large(b"moov", MVHD + large(b"trak", large(b"tkhd", tkhd()[8:]) + hold(
        "mdia", mdhd(), HDLR, hold("minf", hold("dinf"), hold(
            "stbl", STSD, large(b"stts", row(0, 1, 3, 1)), table("stsc", [(1, 3, 1)]), large(b"stsz", row(0, 0, 3, 10, 20, 30)),
            large(b"co64", row(0, 1) + u64(48)))))))
    yield "zeros_at_end", clean(1, 3, 60), one() + bytes(8)
    yield "emsg", clean(1, 3, 60), one() + full("emsg", b"a\0b\0" + bytes(16) + b"cd") + full("emsg", bytes(20) + b"a\0\0", 1)
    text = box(b"tx3g", bytes(6) + u16(1) + bytes(30))
    entries = (sound_entry(1, bytes(16) + box(b"esds")) + sound_entry(0, FREE) + picture_entry(b"vp09", FREE) + text
               + picture_entry(b"avc1", FREE))
    yield "entries", clean(1, 3, 60), one(stsd=counted(b"stsd", 5, entries), hdlr=full("hdlr", bytes(20)),
                                          dref=counted(b"dref", 2, URL + box(b"urn ")))
    coded = (picture_entry(b"avc1", FREE + AVCC) + picture_entry(b"vp09", VPCC) + sound_entry(0, ESDS) + text + box(b"hvc1", b"?")
             + sound_entry(2, bytes(20) + box(b"esds", b"?")))
    yield "coded", clean(1, 3, 60), one(stsd=counted(b"stsd", 6, coded))
    yield "depth_10", clean(0, 0, 0), movie(0, nest(9)) + nest(10)
    yield "boxes_4096", clean(1, 3, 60), one() + FREE * (4096 - 20)
    yield "samples_65536", clean(1, 65536, 65536), movie(
        65536, trak(stts=[(65536, 1)], stsc=[(1, 65536)], stsz=stsz([], 1, 65536), stco=[48]))


def most_samples(track=1):
    """A run of one sample less than a track may have, each of one byte and one tick."""
    return traf(track, 0, [()] * 65535, flags=1, tfhd=tfhd(track, HERE | 0x18, row(1, 1)))


def sound_fragments():
    yield "fragments", clean(2, 6, 60), pairs((0, 5000), (1000, 6000), (2000, 7000))
    yield "frag_order", clean(2, 4, 40), pairs((0, 0), (1000, 1000), order=(2, 1), tracks=(2, 1))
    yield "case7", clean(1, 4, 40), fragments((1, [traf(time=9000, samples=[(3000, 10)] * 3)], 30), (2, [traf(time=18000)], 10))
    yield "case8", clean(1, 2, 20), two(numbers=(0xFFFFFFFF, 0))
    yield "frag_number_31", clean(1, 2, 20), two(numbers=(0x7FFFFFFF, 0x80000000))
    yield "frag_far_runs", clean(1, 0, 0), fragments((1, [
        traf(samples=[], tfhd=tfhd(1, 1, u64(base)), offset=offset) for base, offset in ((7, -7), ((1 << 64) - 8, 7))], None))
    media = FTYP + mdat(10) + start()[40:]  # the media lie before the moof, at 48
    base = traf(1, 0, [()], flags=1, tfhd=tfhd(1, HERE | 1, u64(40)), offset=8)
    sized = hold("mvex", trex(1, 5, 10))
    yield "frag_base", clean(1, 1, 10), fragments((1, [base], None), front=FTYP + mdat(10) + start(mvex=sized)[40:])
    yield "frag_behind", clean(1, 1, 10), fragments((1, [traf(offset=48 - len(media))], None), front=media)
    # no base is told: it is the moof for the first traf, and the end of the data before for the others
    yield "frag_no_base", clean(2, 5, 80), fragments((1, [
        traf(1, 0, [(5, 10), (5, 20)], tfhd=tfhd(1, 0)), traf(2, 0, [(9, 30)], flags=0x300, tfhd=tfhd(2, 0)),
        traf(1, 10, [(1, 15)], offset=5, tfhd=tfhd(1, 0)), traf(2, 9, [(1, 5)], offset=-20, tfhd=tfhd(2, 0))], 80), front=start(1, 2))
    # durations, sizes and flags from the run, else from the tfhd, else from the trex
    told = tfhd(2, HERE | 0x3A, row(1, 7, 20, 0x10000))
    lasting = tfhd(1, HERE | 0x28, row(50, 0))
    yield "frag_defaults", clean(2, 10, 130), fragments(
        (5, [traf(1, 1, [()] * 3, flags=0x5, first=u32(0)), traf(2, 0, [()] * 2, at=30, flags=0x1, tfhd=told)], 70),
        (6, [traf(1, 301, [(0x10000,)] * 2, flags=0x401), traf(2, 14, [()], at=20, flags=0x5, first=u32(0), tfhd=told)], 40),
        (7, [traf(1, 501, [()] * 2, flags=0x1, tfhd=lasting)], 20), (8, [traf(1, 601, [])], None),
        front=start(1, 2, mvex=hold("mvex", trex(1, 100, 10, 0x10000), trex(7), trex(2))))
    # composition offsets: without a sign in version 0, with one in version 1; flags of both kinds
    yield "frag_shifts", clean(1, 4, 40), fragments(
        (1, [traf(1, 0, [(1000, 10, 0), (1000, 10, 0xFFFFFFFF)], flags=0xB01)], 20),
        (2, [traf(1, 2000, [(5, 10, 0x10000, -7), (5, 10, 0x2000001, -(1 << 31))], flags=0xF05, first=u32(0), version=1)], 20))
    yield "frag_run_first", clean(1, 1, 10), single(order=("trun", "tfdt", "tfhd"))
    yield "frag_two_trafs", clean(1, 3, 30), fragments(
        (1, [traf(time=5), traf(time=1005, at=10)], 20), (2, [traf(time=2005)], 10))
    yield "frag_empty_run", clean(1, 2, 20), fragments(
        (1, [traf()], 10), (2, [traf(time=1000, samples=[])], 0), (3, [traf(time=1000)], 10))
    yield "frag_no_traf", clean(1, 2, 20), fragments((7, [traf()], 10), (8, [], None), (9, [traf(time=1000)], 10))
    yield "frag_last_no_time", clean(1, 2, 20), fragments(
        (1, [traf(samples=[(9, 10), (0, 10)])], 20), (2, [traf(time=9, samples=[])], None))
    three = pairs((0, 0), (1000, 1000), (2000, 2000))
    yield "frag_end_lost", clean(2, 4, 40), three[:-196]  # a fragment is 168 bytes of moof and 28 of mdat
    yield "frag_last_time", clean(1, 1, 10), single(time=(1 << 63) - 1)
    yield "frag_time_32", clean(1, 2, 20), fragments(
        (1, [traf(tfdt=tfdt(0xFFFFFFFF, 0), samples=[(0xFFFFFFFF, 10)])], 10), (2, [traf(time=0x1FFFFFFFE)], 10))
    yield "frag_moov_alone", clean(1, 0, 0), FTYP + u32(0) + single()[44:]  # a moov of size 0 takes in all that follows
    yield "fragments_1024", clean(1, 0, 0), fragments(*((n, [], None) for n in range(1024)))
    yield "frag_moof_first", clean(1, 0, 0), FTYP + moof(9) + moov(trak()) + moof(10)  # with no traf it needs no track
    yield "frag_65536", clean(1, 65536, 65536), fragments((1, [most_samples(), traf(1, 65535, [(1, 1)], at=65535)], 65536))


# A file that has every box once, to take boxes from.
PARTS = (one(edts=hold("edts", elst((0, -1))), ctts=[(3, 0)], stss=[1]) + single() + full("emsg", bytes(18))
         + table("co64", [48], width=8))


def piece(kind):
    """The bytes of the first box of this type."""
    at = PARTS.index(kind.encode()) - 4
    return PARTS[at:at + boxes.number(PARTS, at, 4)]


def short(content, length):
    """A box cut to so many bytes, as its header says too."""
    return u32(length) + content[4:length]


def with_box(kind, content):
    """A file in which this stands for the box of this type, or for none of it."""
    if kind == "mfhd":
        return fragments((content, [traf()], 10))
    if kind in ("tfhd", "tfdt", "trun"):
        return single(**{kind: content})
    if kind in ("mvex", "trex"):
        return fragments((1, [traf()], 10), front=start(mvex=content if kind == "mvex" else hold("mvex", content)))
    if kind == "ftyp":
        return content + one()[40:]
    if kind == "moov":
        return FTYP + mdat(60) + content
    if kind == "mvhd":
        return FTYP + mdat(60) + hold("moov", content, plain())
    if kind == "elst":
        return one(edts=hold("edts", content))
    if kind == "url ":
        return one(dref=counted(b"dref", 1, content))
    if kind == "emsg":
        return one() + content
    if kind == "co64":
        return one(stco=b"", co64=content)
    return one(**{kind: content})


def cut():
    """1, and 2 and 3: headers."""
    yield "1_moov_cut", "1 @moov", one()[:-1]
    yield "1_mdat_cut", "1 @mdat", FTYP + moov(plain()) + mdat(60)[:-1]
    yield "1_left_in_moov", "1 @end-2", movie(0, bytes(2))
    yield "1_left_in_moof", "1 @end-4", fragments((1, [u32(1) + b"traf" + bytes(4)], None))
    yield "1_past_moov", "1 @free", movie(0, box(b"free", size=9)) + FREE
    yield "1_past_stbl", "1 @free", movie(0, trak(stco=table("stco", []) + large(b"free", size=17)))
    yield "1_past_stsd", "1 @none", one(stsd=counted(b"stsd", 1, box(b"none", size=9)))
    yield "1_past_avc1", "1 @avcC", one(stsd=counted(b"stsd", 1, picture_entry(b"avc1", box(b"avcC", size=9))))
    yield "1_stsd_count", "1 @stts", one(stsd=counted(b"stsd", 2, box(b"none")))
    yield "1_dref_count", "1 @stbl", one(dref=counted(b"dref", 2, URL))
    yield "2_size_7", "2 @free", box(b"free", size=7) + one()
    yield "2_size_0", "2 @free", movie(0, box(b"free", size=0))
    yield "2_large_15", "2 @free", large(b"free", size=15) + one()
    yield "2_zeros_in_entry", "2 @stts-4", one(stsd=counted(b"stsd", 1, picture_entry(b"avc1", FREE + bytes(4))))
    yield "3_depth_11", "3 @edts#10", movie(0, nest(10))
    yield "3_before_4", "3 @edts#11", one() + FREE * (4096 - 20 - 10) + nest(11)


def cut_fields():
    """1: a field that is not whole, at its first byte."""
    for kind, length, at in (
            ("tkhd", 91, 88), ("tkhd", 8, 8), ("mdhd", 30, 30), ("hdlr", 31, 28), ("elst", 27, 26), ("dref", 15, 12), ("url ", 11, 9),
            ("stsd", 15, 12), ("stts", 23, 20), ("ctts", 16, 16), ("stsc", 27, 24), ("stsz", 31, 28), ("stco", 19, 16), ("co64", 23, 16),
            ("stss", 15, 12), ("mfhd", 15, 12), ("trex", 31, 28), ("tfhd", 12, 12), ("tfdt", 19, 12), ("trun", 27, 24), ("emsg", 25, 22)):
        yield f"1_{kind.strip()}_{length}", f"1 @{kind}+{at}", with_box(kind, short(piece(kind), length))
    yield "1_tkhd_wide", "1 @tkhd+100", one(tkhd=short(tkhd(1, 1), 103))
    yield "1_trun_count", "1 @trun+28", single(count=2)
    yield "1_trun_most", "1 @trun+28", single(count=65536)
    yield "1_stsz_count", "1 @stsz+32", one(stsz=stsz([10, 20, 30], count=4))
    yield "1_stts_most", "1 @stts+24", one(stts=table("stts", [(3, 1000)], count=0xFFFFFFFF))
    # A10: the run before a tfhd that is cut is counted alone; what follows the cut would read as the track's number
    run_first = traf(samples=[()] * 2, flags=1, order=("trun", "tfhd", "tfdt"), tfhd=short(tfhd(), 12))
    yield "1_tfhd_behind_run", "1 @tfhd#2+12", fragments((1, [most_samples(20), run_first], 0), front=start(20))
    yield "1_emsg_text", "1 @emsg+14", one() + full("emsg", b"a\0bcdef")


TREE = ("tkhd", "mdia", "mdhd", "hdlr", "minf", "dinf", "stbl", "stsd", "stts", "stsc", "stsz", "stco")  # of a track
FULL = ("tkhd", "mdhd", "hdlr", "elst", "dref", "url ", "stsd", "stts", "ctts", "stsc", "stsz", "stco", "co64", "stss", "mfhd",
        "trex", "tfhd", "tfdt", "trun", "emsg")
WITH_1 = ("tkhd", "mdhd", "elst", "ctts", "tfdt", "trun", "emsg")  # version 1 is known too
AVCC = box(b"avcC", b"\1\x42\0\x1e\xff\xe0\0")
ESDS = box(b"esds", bytes(4) + bytes.fromhex("031900010004114015000000000000000000000005021190060102"))
VPCC = full("vpcC", bytes(8), 1)


def limits():
    """4"""
    yield "4_five_tracks", "4 @trak#5", movie(0, *(trak(n) for n in range(1, 6)))
    yield "4_samples", "4 @stsz+16", one(stsz=stsz([], 1, 65537))
    yield "4_samples_cut", "4 @stsz+16", one(stsz=stsz([], 0, 65537))  # before the sizes, which are not there
    yield "4_boxes", "4 @end-8", one() + FREE * (4097 - 20)
    yield "4_fragments", "4 @moof#1025", fragments(*((n, [], None) for n in range(1025)))
    yield "4_run", "4 @trun+12", single(samples=[], count=65537)
    yield "4_runs", "4 @trun#2+12", fragments((1, [most_samples()], 0), (2, [traf(samples=[], count=2)], 0))
    yield "4_runs_tfhd_last", "4 @trun#2+12", fragments(
        (1, [most_samples()], 0), (2, [traf(samples=[], count=2, order=("trun", "tfhd", "tfdt"))], 0))


def missing():
    """5"""
    for kind in ("ftyp", "moov", "mvhd", *TREE, "mfhd", "tfhd", "mvex", "tfdt", "trun"):
        yield f"5_{kind}", f"5 {'trex' if kind == 'mvex' else kind}", with_box(kind, b"")
    yield "5_trex", "5 trex", with_box("trex", trex(2))
    yield "5_second_track", "5 hdlr", movie(60, plain(), trak(2, hdlr=b"", stts=b""))
    # A10: runs without a tfhd are counted alone, so that none is too long
    alone = [traf(samples=[()] * count, flags=1, tfhd=b"") for count in (65535, 2)]
    yield "5_run_alone", "5 tfhd", fragments((1, [most_samples()], 0), (2, alone, 0))
    yield "5_order", "5 stco", fragments((b"", [traf(tfdt=b"")], 0), front=start(trak(1, stco=b"")))
    yield "5_second_traf", "5 trun", fragments((1, [traf(), traf(time=1000, trun=b"")], 10))
    yield "5_before_9", "5 stsd", movie(0, plain(sizes=[9], stco=b"", co64=[(1 << 64) - 9]), trak(2, stsd=b""))


def twice():
    """6"""
    for kind in ("ftyp", "moov", "mvhd", *TREE, "edts", "elst", "dref", "ctts", "stss", "co64", "mfhd", "tfhd", "tfdt", "trun"):
        yield f"6_{kind}", f"6 @{kind}#2", with_box(kind, piece(kind) * 2)
    yield "6_mvex", "6 @mvex#2", with_box("mvex", hold("mvex", trex(1)) * 2)
    yield "6_stco_co64", "6 @co64", one(co64=[48])
    yield "6_co64_stco", "6 @stco", one(stco=table("co64", [48], width=8) + table("stco", []))
    yield "6_trex", "6 @trex#3", with_box("trex", trex(5) + trex(1) + trex(5))
    yield "6_trex_cut", "6 @trex#2", with_box("trex", trex(1) + short(trex(1), 16))
    yield "6_avcC", "6 @avcC#2", one(stsd=counted(b"stsd", 1, picture_entry(b"avc1", AVCC * 2)))
    yield "6_esds", "6 @esds#2", one(stsd=counted(b"stsd", 1, sound_entry(0, ESDS * 2)))
    yield "6_vpcC", "6 @vpcC#2", one(stsd=counted(b"stsd", 1, picture_entry(b"vp09", VPCC + FREE + VPCC)))


def codings():
    """What is wrong in a sample entry or in its configuration."""
    def entry(made):
        return one(stsd=counted(b"stsd", 1, made))

    def stream(made):
        return entry(sound_entry(0, box(b"esds", bytes(4) + bytes.fromhex(made))))
    picture = bytes(6) + u16(1) + bytes(70)
    yield "1_avc1", "1 @avc1#2+84", entry(box(b"avc1", picture[:-1]))
    yield "1_vp09", "1 @vp09+40", entry(box(b"vp09", picture[:34]))
    yield "1_mp4a", "1 @mp4a+32", entry(box(b"mp4a", picture[:27]))
    yield "1_tx3g", "1 @tx3g+45", entry(box(b"tx3g", picture[:37]))
    yield "8_avcC", "8 @avcC+8", entry(picture_entry(b"avc1", box(b"avcC", b"\2" + AVCC[9:])))
    yield "1_avcC_set", "1 @avcC+16", entry(picture_entry(b"avc1", box(b"avcC", b"\1\x64\0\x0d\xff\xe1\0\5\x67")))
    yield "7_vpcC", "7 @vpcC+8", entry(picture_entry(b"vp09", full("vpcC", bytes(8))))
    yield "1_vpcC_data", "1 @vpcC+20", entry(picture_entry(b"vp09", full("vpcC", bytes(6) + u16(1), 1)))
    yield "7_esds", "7 @esds+8", entry(sound_entry(0, full("esds", ESDS[12:], 1)))
    yield "8_esds_tag", "8 @esds+12", stream("04 00")
    yield "1_esds_past", "1 @esds+12", stream("04 01")
    yield "8_esds_length", "8 @esds+13", stream("03 ff ff ff ff 00")
    yield "1_esds_location", "1 @esds+18", stream("03 05 0001 40 02 61")
    yield "1_esds_information", "1 @esds+35", stream("03 18 0001 00 04 10 40 15 000000 00000000 00000000 05 01 11 06 01 02")
    # a fault in an entry comes before one in a box behind it
    yield "1_avcC_first", "1 @avcC+14", one(stsd=counted(b"stsd", 1, picture_entry(b"avc1", box(b"avcC", AVCC[8:14]))), stts=b"")


def versions():
    """7, at the version byte; nothing behind it is read."""
    for kind in FULL:
        old = piece(kind)
        yield f"7_{kind.strip()}", f"7 @{kind}+8", with_box(kind, old[:8] + bytes([2 if kind in WITH_1 else 1]) + old[9:])


def values():
    """8"""
    yield "8_timescale", "8 @mdhd+20", one(mdhd=mdhd(0))
    yield "8_elst", "8 @elst+32", one(edts=hold("edts", elst((0, -1), (0, -2))))
    yield "8_stsc_first", "8 @stsc+16", one(stsc=[(2, 3)])
    yield "8_stsc_same", "8 @stsc+28", one(stsc=[(1, 3), (1, 3)])
    yield "8_stsc_none", "8 @stsc+32", one(stsc=[(1, 3), (2, 0)])
    yield "8_stss_0", "8 @stss+16", one(stss=[0, 1])
    yield "8_stss_same", "8 @stss+24", one(stss=[1, 2, 2])
    yield "8_before_cut", "8 @stss+20", one(stss=table("stss", [2, 1], count=9))
    yield "8_track_0", "8 @tkhd+20", movie(0, trak(0))
    yield "8_track_twice", "8 @tkhd#3+20", movie(60, plain(3), trak(2), trak(3))
    yield "8_trex_0", "8 @trex+12", with_box("trex", trex(0))
    yield "8_tfhd_0", "8 @tfhd+12", single(track=0)
    yield "8_tfhd_unknown", "8 @tfhd+12", single(track=2)  # with a trex of its own
    yield "8_tfhd_second", "8 @tfhd#2+12", fragments((1, [traf(), traf(0x80000001, at=10)], 20))
    yield "8_moof_first", "8 @tfhd+12", FTYP + moof(1, traf()) + mdat(10) + start()[40:]
    yield "8_url", "8 @url +9", one(dref=counted(b"dref", 1, full("url ", b"http://x\0")))
    yield "8_url_second", "8 @url #2+9", one(dref=counted(b"dref", 3, URL + box(b"urn ") + full("url ", flags=2)))
    # the first fault in file order, of whichever kind; contents of what was recorded go before the walk's fault behind them
    yield "8_then_1", "8 @stsc+16", one(stsc=[(7, 3)]) + bytes(3)
    yield "8_then_5", "8 @mdhd+20", one(mdhd=mdhd(0), hdlr=b"")
    yield "8_then_6", "8 @stss+16", one(stss=table("stss", [0]) * 2)


def sums():
    """9 (A13) and 10, and what is just not these."""
    top = 1 << 64
    yield "9_start", "9 0", movie(0, plain(sizes=[10, 10], stco=b"", co64=[top - 10]))
    yield "9_end", "9 0", movie(0, plain(sizes=[10], stco=b"", co64=[top - 10]))
    yield "9_far_chunk", "9 0", movie(10, plain(chunks=[48, 0], sizes=[10, 10], stco=b"", co64=[48, top - 1]))
    yield "9_run_end", "9 0", single(tfhd=tfhd(1, 1, u64(top - 10)), offset=0)
    yield "9_run_above", "9 0", single(tfhd=tfhd(1, 1, u64(top - 1)), offset=1, samples=[])
    yield "9_run_below", "9 0", single(tfhd=tfhd(1, 1, u64(0)), offset=-1, samples=[])
    yield "9_run_back", "9 0", single(offset=-(1 << 31))
    yield "9_time", "9 0", single(time=1 << 63)
    yield "9_time_of_none", "9 0", single(time=1 << 63, samples=[])
    yield "9_time_second", "9 0", single(time=(1 << 63) - 1000, samples=[(1000, 5), (0, 5)])
    yield "9_gap", "9 0", fragments((1, [traf(time=(1 << 63) - 1, samples=[(2, 10)])], 10), (2, [traf()], 10))
    yield "9_before_10", "9 0", movie(0, plain(sizes=[10], stco=b"", co64=[top - 1])) + moof(1)
    yield "10_both", "10 0", fragments((1, [traf()], 10), front=FTYP + mdat(60) + moov(plain(), hold("mvex", trex())))
    yield "10_no_traf", "10 0", one() + moof(1)
    yield "10_before_f1", "10 0", FTYP + moov(trak(stsz=[5])) + moof(1)


def differ():
    """F1 to F3"""
    yield "1_stts_less", "F1 1 0 0 0", one(stts=[(2, 1000)])
    yield "1_stts_more", "F1 1 0 0 0", one(stts=[(3, 1000), (0xFFFFFFFF, 1), (1, 1)])
    yield "1_stts_wraps", "F1 1 0 0 0", one(stts=[(0xFFFFFFFF, 1), (4, 1)])  # 3, if counted in 32 bits
    yield "1_ctts_less", "F1 1 0 0 0", one(ctts=[(2, 0)])
    yield "1_ctts_more", "F1 1 0 0 0", one(ctts=[(2, 0), (2, 0)])
    yield "1_stsc_less", "F1 1 0 0 0", one(stsc=[(1, 2)])
    yield "1_stsc_more", "F1 1 0 0 0", one(stco=[48, 108])
    yield "1_stsc_none", "F1 1 0 0 0", one(stsc=[])
    yield "1_first_chunk", "F1 1 0 0 0", one(stsc=[(1, 3), (2, 1)])  # past the end, and the total is right
    yield "1_no_chunk", "F1 1 0 0 0", movie(0, trak(stsc=[(1, 1)]))
    yield "1_stss", "F1 1 0 0 0", one(stss=[1, 4])
    yield "1_stsz_more", "F1 1 0 0 0", one(stsz=stsz([10, 20, 30, 40]))
    yield "1_stsz_none", "F1 1 0 0 0", one(stsz=[])
    yield "1_second_track", "F1 7 0 0 0", movie(60, plain(sizes=[0, 60]), trak(7, stts=[(1, 1)]))  # before an F2 of the first
    yield "1_fragments", "F1 1 0 0 0", fragments((1, [traf()], 10), front=start(trak(stts=[(1, 5)])))
    yield "1_not_9", "F1 1 0 0 0", movie(10, plain(sizes=[10, 10], chunks=[48, 0], stts=[(1, 1)], stco=b"", co64=[48, (1 << 64) - 1]))
    yield "2_middle", "F2 1 2 0 0", one(stsz=[10, 0, 50])
    yield "2_last", "F2 1 3 0 0", one(stsz=[10, 50, 0])
    yield "2_before_3", "F2 1 2 0 0", one(stsz=[10, 0, 50], stts=[(1, 1), (2, 0)])
    yield "2_second_track", "F2 2 1 0 0", movie(60, plain(), plain(2, sizes=[0], chunks=[0]))
    yield "2_common", "F2 1 1 0 0", single(samples=[(9,)], flags=0x101)  # neither the tfhd nor the trex has a size
    yield "2_fragments", "F2 1 3 0 0", fragments((1, [traf(samples=[(1, 5), (1, 5)])], 10), (2, [traf(time=2, samples=[(1, 0)])], 0))
    yield "3_first", "F3 1 1 0 0", one(stts=[(1, 0), (2, 1)])
    yield "3_middle", "F3 1 2 0 0", one(stts=[(1, 5), (2, 0)])
    yield "3_before_2", "F3 1 1 0 0", one(stsz=[10, 0, 50], stts=[(1, 0), (2, 1)])
    yield "3_second_track", "F3 2 2 0 0", movie(120, plain(stts=[(2, 1), (1, 0)]), plain(2, [108], stts=[(1, 1), (1, 0), (1, 1)]))
    yield "3_fragments", "F3 1 1 0 0", fragments((1, [traf(samples=[(0, 10)])], 10), (2, [traf()], 10))
    yield "3_two_tracks", "F3 2 1 0 0", fragments(
        (1, [traf(samples=[(0, 10)]), traf(2, samples=[(0, 10)], at=10)], 20), (2, [traf(2)], 10), front=start(1, 2))


def swept():
    """F4 to F6"""
    yield "4_below", "F4 1 1 0 0", one(stco=[0])
    yield "4_below_by_1", "F4 1 1 47 0", one(stco=[47])
    yield "4_below_two", "F4 1 1 40 0", movie(20, plain(chunks=[40], sizes=[10]), plain(2, chunks=[8], sizes=[10]))
    yield "4_passes", "F4 1 3 78 0", one(media=59)
    yield "4_far", "F4 1 2 4294967295 0", movie(10, plain(chunks=[48, 0xFFFFFFFF], sizes=[10, 10]))
    yield "4_at_end", "F4 1 2 58 0", movie(10, plain(chunks=[48, 58], sizes=[10, 10]))
    yield "4_far_64", "F4 1 2 4294967344 0", movie(10, plain(sizes=[10, 10], chunks=[48, 58], stco=b"", co64=[48, (1 << 32) + 48]))
    yield "4_last_place", "F4 1 1 18446744073709551605 0", movie(0, plain(sizes=[10], stco=b"", co64=[(1 << 64) - 11]))
    yield "4_sizes_64", "F4 1 1 48 0", movie(10, plain(sizes=[0xFFFFFFFF, 10]))  # see its listing: sample 2 is not at 47
    yield "4_no_mdat", "F4 1 1 48 0", movie(b"", plain())
    yield "4_empty_mdat", "F4 1 1 48 0", movie(0, plain())
    yield "4_between", "F4 1 2 60 0", movie(mdat(10) + mdat(10), plain(chunks=[48, 60], sizes=[10, 10]))
    yield "4_over_two", "F4 1 1 48 0", movie(mdat(10) + mdat(10), plain(sizes=[28]))
    yield "4_left_second", "F4 2 1 500 0", movie(60, plain(), plain(2, chunks=[500]), trak(3))
    yield "4_in_free", "F4 1 1 48 0", movie(box(b"free", b"m" * 60), plain())
    yield "4_mdat_in_moov", "F4 1 1 48 0", FTYP + moov(plain(), mdat(60))
    front = len(FTYP + moov(plain()))
    yield "4_zeros_between", "F4 1 1 @mdat+8 0", FTYP + moov(plain(chunks=[front + 16])) + bytes(8) + mdat(60)
    yield "4_fragment_cut", "F4 1 3 @end+8 0", pairs((0, 0), (1000, 1000), (2000, 2000))[:-28]  # the last mdat is lost
    yield "4_fragment", "F4 1 2 @moof#2 0", fragments((1, [traf()], 10), (2, [traf(time=1000, offset=0)], 10))
    yield "5_case2", "F5 1 5 147 0", case2(chunks=(48, 78, 147, 198))
    yield "5_overlap", "F5 1 2 57 0", movie(19, plain(chunks=[48, 57], sizes=[10, 10]))
    yield "5_backward", "F5 1 2 48 0", movie(20, plain(chunks=[58, 48], sizes=[10, 10]), plain(2, chunks=[48], sizes=[10]))
    yield "5_two_at_p", "F5 2 1 48 0", movie(10, plain(sizes=[10]), plain(2, sizes=[10]))
    yield "5_two_at_p_turned", "F5 1 1 48 0", movie(10, plain(2, sizes=[10]), plain(1, sizes=[10]))
    yield "5_two_before_passing", "F5 2 1 48 0", movie(10, plain(sizes=[20]), plain(2, sizes=[10]))  # F4 is asked later
    yield "5_three_at_p", "F5 2 1 58 0", movie(
        20, plain(4, sizes=[10]), plain(3, [58], [10]), plain(2, [58], [10]), plain(1, [58], [10]))
    yield "5_two_below", "F5 1 1 52 0", movie(30, plain(3, [48], [20]), plain(1, [52], [10]), plain(2, [50], [10]))
    yield "5_before_two", "F5 3 1 50 0", movie(30, plain(1, [48, 58], [10, 10]), plain(2, [58], [10]), plain(3, [50], [10]))
    yield "5_left", "F5 1 2 48 0", movie(10, plain(chunks=[48, 48], sizes=[10, 10]))
    yield "5_left_first_mdat", "F5 1 3 57 0", movie(mdat(10) + mdat(10), plain(chunks=[48, 66, 57], sizes=[10, 10, 10]))
    yield "5_overlap_then_hole", "F5 1 2 57 0", movie(30, plain(chunks=[48, 57, 68], sizes=[10, 10, 10]))
    yield "5_fragments", "F5 1 2 @mdat+17 0", fragments((1, [traf(), traf(time=1000, at=9)], 20))
    yield "6_case2", "F6 0 0 258 0", case2(media=211)
    yield "6_start", "F6 0 0 48 0", one(media=61, stco=[49])
    yield "6_middle", "F6 0 0 58 0", movie(21, plain(chunks=[48, 59], sizes=[10, 10]))
    yield "6_hole_then_overlap", "F6 0 0 58 0", movie(30, plain(chunks=[48, 59, 68], sizes=[10, 10, 10]))
    yield "6_no_samples", "F6 0 0 48 0", movie(1, trak())
    yield "6_no_track", "F6 0 0 48 0", movie(1)
    yield "6_second_mdat", "F6 0 0 @mdat#2+8 0", one() + mdat(1)
    yield "6_before_passing", "F6 0 0 48 0", movie(10, plain(chunks=[50], sizes=[100]))
    yield "6_order", "F6 0 0 48 0", movie(20, plain(chunks=[58, 48], sizes=[10, 10]))  # p is below both
    yield "6_before_7", "F6 0 0 @mdat#2+18 0", fragments((1, [traf()], 10), (3, [traf(time=1000)], 11))
    yield "6_fragment", "F6 0 0 @mdat+18 0", fragments((1, [traf()], 11))


def follow():
    """F7 and F8"""
    yield "7_skips", "F7 0 0 @moof#2 0", two(numbers=(1, 3))
    yield "7_same", "F7 0 0 @moof#2 0", two(numbers=(5, 5))
    yield "7_falls", "F7 0 0 @moof#2 0", two(numbers=(2, 1))
    yield "7_case8", "F7 0 0 @moof#2 0", two(numbers=(0xFFFFFFFF, 1))
    yield "7_no_traf", "F7 0 0 @moof#3 0", fragments((1, [traf()], 10), (2, [], None), (2, [traf(time=1000)], 10))
    yield "7_before_8", "F7 0 0 @moof#2 0", two(second=999, numbers=(1, 3))
    yield "8_case7", "F8 1 0 @moof#2 -1", fragments(
        (1, [traf(time=9000, samples=[(3000, 10)] * 3)], 30), (2, [traf(time=17999)], 10))
    yield "8_more", "F8 1 0 @moof#2 1", two(second=1001)
    yield "8_large", "F8 1 0 @moof#2 9223372036854774807", two(second=(1 << 63) - 1)
    yield "8_least", "F8 1 0 @moof#2 -9223372036854775808", fragments(
        (1, [traf(time=(1 << 63) - 1, samples=[(1, 10)])], 10), (2, [traf()], 10))
    yield "8_empty_run", "F8 1 0 @moof#2 5", fragments(
        (1, [traf()], 10), (2, [traf(time=1005, samples=[])], None), (3, [traf(time=1000)], 10))
    yield "8_after_empty_run", "F8 1 0 @moof#3 -7", fragments(
        (1, [traf(time=7, samples=[])], None), (2, [traf(time=7)], 10), (3, [traf(time=1000)], 10))
    yield "8_two_trafs", "F8 1 0 @moof 3", fragments((1, [traf(), traf(time=1003, at=10)], 20))
    yield "8_second_track", "F8 2 0 @moof#3 -1000", pairs((0, 0), (1000, 1000), (2000, 1000))
    yield "8_moov_order", "F8 2 0 @moof#2 2", pairs((0, 0), (1001, 1002), order=(1, 2), tracks=(2, 1))
    yield "8_not_traf_order", "F8 1 0 @moof#2 1", pairs((0, 0), (1001, 1002), order=(2, 1))
    yield "8_before_7", "F8 2 0 @moof#2 1", pairs((0, 0), (1000, 1001), (2000, 2000), numbers=(1, 2, 9))


BUILT = (sound, sound_fragments, cut, cut_fields, limits, missing, twice, codings, versions, values, sums, differ, swept, follow)


def place(data, found):
    """What @tkhd#2+8 is in a file."""
    kind, nth, more = found.groups()
    if kind == "end":
        return str(len(data) + int(more))
    at = -1
    for _ in range(int(nth or 1)):
        at = data.index(kind.encode(), at + 1)
    return str(at - 4 + int(more or 0))


def expected(told, data):
    """The verdict in the program's words, up to the bracket."""
    told = re.sub(r"@(end|[a-zA-Z0-9 ]{4})(?:#(\d+))?([+-]\d+)?", lambda found: place(data, found), told)
    if told.startswith("F"):
        return "%s track=%s sample=%s position=%s gap=%s" % tuple(told.split())
    return told if told.startswith("clean") else "refused %s detail=%s" % tuple(told.split())


def built():
    for make in BUILT:
        for name, told, data in make():
            prefix = {"c": "clean_", "F": "f"}.get(told[0], "r")
            yield prefix + name.strip() + ".mp4", expected(told, data), data
