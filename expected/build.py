"""Builds small MP4 files for expected/cases.py from a few words each: boxes, tracks with tables, fragments.

Nothing here says what an audit answers. A box that is needed can be left out, doubled or given as any bytes.
"""
from damage import box, counted, u16, u32

# BOXES AND TRACKS

def full(kind, content=b"", version=0, flags=0):
    """A box with version and flags."""
    return box(kind.encode(), bytes([version]) + flags.to_bytes(3, "big") + content)


def row(*numbers, width=4):
    return b"".join((n % (1 << 8 * width)).to_bytes(width, "big") for n in numbers)


def table(kind, entries, version=0, width=4, count=None):
    """A table whose entries are numbers or rows of them; `count` is what it says, where that is not their number."""
    rows = [entry if isinstance(entry, tuple) else (entry,) for entry in entries]
    return full(kind, u32(len(rows) if count is None else count) + b"".join(row(*r, width=width) for r in rows), version)


def stsz(sizes, common=0, count=None):
    return full("stsz", row(common, len(sizes) if count is None else count, *sizes))


def tkhd(number=1, version=0):
    wide = 8 if version == 1 else 4
    return full("tkhd", bytes(2 * wide) + u32(number) + bytes(4 + wide + 8 + 8 + 36 + 8), version, flags=3)


def mdhd(timescale=1000, version=0, duration=0):
    wide = 8 if version == 1 else 4
    return full("mdhd", bytes(2 * wide) + u32(timescale) + duration.to_bytes(wide, "big") + u16(0x55C4) + u16(0), version)


def elst(*edits, version=0):
    """Edits of a duration and a media time."""
    wide = 8 if version == 1 else 4
    return full("elst", u32(len(edits)) + b"".join(row(*edit, width=wide) + u16(1) + u16(0) for edit in edits), version)


def hold(kind, *parts):
    return box(kind.encode(), b"".join(parts))


URL = full("url ", flags=1)
DREF = counted(b"dref", 1, URL)
STSD = counted(b"stsd", 1, box(b"none", bytes(8)))  # a sample entry that is not read
HDLR = full("hdlr", bytes(4) + b"vide" + bytes(12) + b"\0")
TABLES = ("stts", "ctts", "stsc", "stsz", "stco", "co64", "stss")


def made_table(kind, told):
    if isinstance(told, bytes):
        return told
    if kind == "stsz":
        return stsz(told)
    if kind == "stsc":
        told = [(*entry, 1) for entry in told]
    return table(kind, told, width=8 if kind == "co64" else 4)


def trak(number=1, **parts):
    """A track with tables of no entries. A part may be given: a table by its entries, any box by its bytes, which
    may be none or several boxes."""
    told = {"stts": [], "stsc": [], "stsz": [], "stco": [], **parts}
    found = {kind: made_table(kind, told[kind]) for kind in TABLES if kind in told}
    found.update((kind, content) for kind, content in parts.items() if kind not in TABLES)

    def part(kind, made=b""):
        return found.get(kind, made)
    stbl = part("stbl", hold("stbl", part("stsd", STSD), *(part(kind) for kind in TABLES)))
    minf = part("minf", hold("minf", part("dinf", hold("dinf", part("dref", DREF))), stbl))
    mdia = part("mdia", hold("mdia", part("mdhd", mdhd()), part("hdlr", HDLR), minf))
    return hold("trak", part("tkhd", tkhd(number)), part("edts"), mdia)


FTYP = box(b"ftyp", b"isom" + u32(512) + b"isomiso2avc1mp41" + bytes(8))  # 40 bytes, so that the media begin at 48
MVHD = full("mvhd", bytes(96))
FREE = box(b"free")


def nest(depth):
    """So many boxes, one in the other, of a type that is entered wherever it stands."""
    return box(b"edts", nest(depth - 1) if depth > 1 else b"")


def mdat(length, kind=box):
    return kind(b"mdat", b"m" * length)


def moov(*parts):
    return hold("moov", MVHD, *parts)


def movie(media, *traks):
    """ftyp, an mdat whose payload begins at 48, moov. Media is a length or the boxes themselves."""
    return FTYP + (mdat(media) if isinstance(media, int) else media) + moov(*traks)


def plain(number=1, chunks=(48,), sizes=(10, 20, 30), **parts):
    """A track whose chunks have as many samples each, and which last 1,000 each."""
    told = {"stts": [(len(sizes), 1000)], "stsc": [(1, len(sizes) // len(chunks))], "stsz": list(sizes),
            "stco": list(chunks)}
    return trak(number, **{**told, **parts})


def one(media=60, **parts):
    """A movie of one track: three samples of 10, 20 and 30 bytes in one chunk, from 48 to 108."""
    return movie(media, plain(**parts))


def case2(media=210, chunks=(48, 78, 148, 198), **parts):
    """Cases 1 and 2 of document 01."""
    told = {"stts": [(3, 1000), (3, 500)], "stsc": [(1, 2), (3, 1)], "stsz": [10, 20, 30, 40, 50, 60], "stco": list(chunks)}
    return movie(media, trak(**{**told, **parts}))


# FRAGMENTS

HERE, OWN = 0x20000, 0x301  # tfhd: the base is the moof. trun: data offset, durations and sizes


def trex(number=1, duration=0, size=0, flags=0):
    return full("trex", row(number, 1, duration, size, flags))


def tfhd(track=1, flags=HERE, *values):
    return full("tfhd", u32(track) + b"".join(values), flags=flags)


def tfdt(time, version=1):
    return full("tfdt", row(time, width=8 if version == 1 else 4), version)


def traf(track=1, time=0, samples=((1000, 10),), at=0, flags=OWN, first=b"", version=0, offset=None, count=None, **parts):
    """What makes a traf for a moof of so many bytes. Each sample is the numbers that the run's flags ask for. Its data
    begin `at` bytes into the payload of the mdat behind the moof, or `offset` says where; `first` is the first flags."""
    def made(length):
        where = row(length + 8 + at if offset is None else offset) if flags & 1 else b""
        told = u32(len(samples) if count is None else count) + where + first + b"".join(row(*sample) for sample in samples)
        kinds = {"tfhd": tfhd(track), "tfdt": tfdt(time), "trun": full("trun", told, version, flags), **parts}
        return hold("traf", *(kinds[kind] for kind in parts.get("order", ("tfhd", "tfdt", "trun"))))
    return made


def moof(number, *trafs):
    mfhd = number if isinstance(number, bytes) else full("mfhd", u32(number))

    def made(length):
        return hold("moof", mfhd, *(t if isinstance(t, bytes) else t(length) for t in trafs))
    return made(len(made(0)))


def start(*numbers, **parts):
    """ftyp and a moov with tracks of these numbers, or the traks themselves, and a trex for 1, 2 and 20."""
    traks = [n if isinstance(n, bytes) else trak(n) for n in numbers or (1,)]
    return FTYP + moov(*traks, parts.get("mvex", hold("mvex", *(trex(n) for n in (1, 2, 20)))))


def fragments(*each, front=None):
    """Fragments behind a front: each a number, its trafs and how many bytes its mdat has, or none of them."""
    data = start() if front is None else front
    for number, trafs, media in each:
        data += moof(number, *trafs) + (b"" if media is None else mdat(media))
    return data


def single(**parts):
    """One fragment of one sample."""
    return fragments((1, [traf(**parts)], 10))


def two(first=0, second=1000, numbers=(1, 2)):
    """Two fragments of one sample each, at these times."""
    return fragments((numbers[0], [traf(time=first)], 10), (numbers[1], [traf(time=second)], 10))


def pairs(*times, order=(1, 2), tracks=(1, 2), numbers=(1, 2, 3)):
    """A fragment for each pair of times: of track 1 and of track 2; `order` is the trafs' in a moof, `tracks` the moov's."""
    return fragments(*(
        (number, [traf(track, of[track - 1], at=10 * i) for i, track in enumerate(order)], 20)
        for number, of in zip(numbers, times)), front=start(*tracks))
