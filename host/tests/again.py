"""Results converted again (document 02, request 14): calls of the library, what a reader by links alone finds of two files' columns, and tallies."""
import collections
import ctypes
import dataclasses
import functools
import mmap
import os
import random
import struct

from common import BUILT, expect
from mdf import File
from recordings import any_recording
from steps import GIVEN, LIST, SLICE, U64, WORK, Options, Outcome, Writer, slices, words_of

MAY_MEET = (1, 3, 9, 16, 19, 20, 21)  # refusals of the second call that the request leaves in
SIZES = (1, 7, 8, 64, 100, 1000, 4194304)
UNITS = tuple(8 << k for k in range(10))
MDF = b"MDF     4.20    "


# ---- calls


@functools.lru_cache(maxsize=None)
def converter():
    found = ctypes.CDLL(os.environ.get("SITAUNGO_LIBRARY") or os.path.join(BUILT, "libsitaungo.so")).sitaungo_convert_with
    found.restype, found.argtypes = Outcome, GIVEN + 6 * SLICE
    return found


@dataclasses.dataclass(frozen=True)
class Choices:
    """What both calls have in common."""

    block_size: int = 64
    unit: int = 8
    photos: bool = False


@dataclasses.dataclass(frozen=True)
class Lent:
    """What each call has of its own; the work slices have so many words."""

    ident: bytes = MDF + bytes(48)
    text: bytes = b"converted"
    time: int = 0
    words: tuple = (WORK,) * 4
    list_words: int = LIST


def address_of(data):
    """Where the bytes of a buffer lie that can be written."""
    return ctypes.addressof(ctypes.c_char.from_buffer(data)) if len(data) else None


WORDS = words_of([WORK] * 4)  # whatever a call leaves here, the next may find


def call(image, length, choices, lent, out, out_length, share=False):
    """One call over `length` bytes at `image` into `out_length` bytes at `out`: the outcome and the list."""
    list_ = (U64 * lent.list_words)()
    work = [x for a, n in zip(WORDS, lent.words) for x in (a, n)]
    given = [image, length, choices.block_size, lent.ident, len(lent.ident), lent.text, len(lent.text), lent.time]
    outcome = converter()(*given, Options(choices.unit, share, choices.photos), b"", 0, *work, out, out_length, *slices([list_]))
    return outcome, list_


def convert(image, choices, lent, share=False, behind=b""):
    """The outcome, the output with its last bytes `behind` the file, and the list; the size is asked for before."""
    asked, _ = call(image, len(image), choices, lent, None, 0, share)
    if asked.number != 20:
        return asked, b"", []
    out = bytearray(b"\xa5" * asked.place + behind)
    outcome, list_ = call(image, len(image), choices, lent, address_of(out), len(out), share)
    expect(outcome.accepted and outcome.file_size == asked.place and out[asked.place :] == behind, "after 20 with", asked.place, outcome)
    return outcome, bytes(out), list_[: 1 + 2 * list_[0]]


# ---- columns that links show


@dataclasses.dataclass
class Column:
    """What is compared of a column: addresses stand nowhere in it."""

    records: int
    data_bytes: int
    invalidation: int
    group: bytes  # the data of CG and CN
    channel: bytes
    heads: list  # lengths and numbers of links of DG, CG, CN
    master: int  # the number of its master's column, None for none
    list: tuple  # length, number of links and data of its DL
    blocks: list  # kinds and lengths of its blocks
    payload: bytes
    signal_blocks: list
    signal: bytes
    metadata: list  # kind and data of what stands at name, source, conversion, unit and comments
    references: list  # numbers of attachments, None for a reference of 0

    def width(self):
        return self.data_bytes + self.invalidation


def head(f, at):
    return f.size(at), f.u64(at + 16)


def column(f, dg, groups, attachments):
    dg_links = f.links(dg)
    cg_links = f.links(dg_links[1])
    cn = cg_links[1]
    cn_links, group, channel = f.links(cn), f.body(dg_links[1]), f.body(cn)
    expect([f.kind(at) for at in (dg, dg_links[1], cn)] == [b"DG", b"CG", b"CN"], "kinds of", dg)
    expect(f.body(dg) == bytes(8) and cg_links[0] == cg_links[4] == cn_links[0] == cn_links[1] == 0, "a DG of more than one column", dg)
    _, records, flags, _, _, data_bytes, invalidation = struct.unpack_from("<QQHHIII", group)
    expect(bool(flags & 8) == (len(cg_links) == 7), "flag and link of the master", flags, cg_links)
    dl, blocks, signal = dg_links[2], f.blocks(dg_links[2]), f.blocks(cn_links[5])
    expect(dl == 0 or f.kind(dl) == b"DL", "a data link to", dl)
    texts = (dg_links[3], *(cg_links[k] for k in (2, 3, 5)), *(cn_links[k] for k in (2, 3, 4, 6, 7)))
    found = Column(
        records, data_bytes, invalidation, group, channel, [head(f, at) for at in (dg, dg_links[1], cn)],
        groups.index(cg_links[6]) if flags & 8 else None, (*head(f, dl), f.body(dl)) if dl else None,
        [(f.kind(at), f.size(at)) for at in blocks], b"".join(map(f.body, blocks)), [(f.kind(at), f.size(at)) for at in signal], b"".join(map(f.body, signal)),
        [(f.kind(at), f.body(at)) if at else None for at in texts], [attachments.index(at) if at else None for at in cn_links[8:]],
    )
    expect(len(found.payload) == found.width() * records, "payload of", dg)
    return found


def shown(data):
    """The columns of a file, in order."""
    f = File(data)
    dgs, attachments = list(f.chain(f.links(64)[0])), list(f.chain(f.links(64)[3]))
    groups = [f.links(dg)[1] for dg in dgs]
    return [column(f, dg, groups, attachments) for dg in dgs]


def wide(columns):
    """Whether every column with records has a width above 0."""
    return all(c.records == 0 or c.width() > 0 for c in columns)


def difference(first, second):
    """Where columns differ: a column's number and a field; None where they are the same."""
    if len(first) != len(second):
        return "%d columns and then %d" % (len(first), len(second))
    for number, (a, b) in enumerate(zip(first, second)):
        for field in dataclasses.fields(Column):
            if getattr(a, field.name) != getattr(b, field.name):
                return "column %d: %s" % (number, field.name)
    return None


# ---- twice


@dataclasses.dataclass
class Twice:
    """Both outcomes, the columns of both results, the second list, and in what the second result differs."""

    first: Outcome
    image: bytes = b""  # the first call's output
    before: list = None
    second: Outcome = None
    after: list = None
    list: list = None
    differs: str = None

    def same(self):
        return self.second.accepted and not self.differs

    def wide(self):
        return wide(self.before)


def twice(image, choices, first=Lent(), second=Lent(), share=False, behind=b""):
    """Converts, then what came out: again by the same choices, without sharing."""
    outcome, out, _ = convert(image, choices, first, share, behind)
    found = Twice(outcome)
    if not outcome.accepted:
        return found
    found.image, found.before = out, shown(out)
    found.second, again, found.list = convert(out, choices, second)
    if found.second.accepted:
        found.after = shown(again)
        found.differs = difference(found.before, found.after) or ("the list" if found.list != [0] else differing_report(found))
    return found


def differing_report(found):
    a, b = found.first, found.second
    same = a.time_groups == b.time_groups and a.signal_groups == b.signal_groups and a.data_blocks == b.data_blocks
    return None if same and b.source_groups == len(found.before) and b.shared_time_groups == 0 else "the report"


# ---- by chance


def any_lent(r):
    text = b"" if r.random() < 0.1 else r.randbytes(4096 if r.random() < 0.02 else r.randrange(200))
    return Lent(MDF + r.randbytes(48), text, r.getrandbits(64))


def too_little(r, lent, size):
    """Something short that is lent, the output's length, and the refusal's number."""
    short = list(lent.words)
    short[r.randrange(4)] -= 1
    return r.choice((
        (lent, r.randrange(size), 20), (lent, size - 1, 20), (dataclasses.replace(lent, list_words=0), size, 21),
        (dataclasses.replace(lent, words=tuple(short)), size, 1), (dataclasses.replace(lent, text=bytes(4097)), size, 1),
        (dataclasses.replace(lent, ident=lent.ident[:63]), size, 1), (dataclasses.replace(lent, ident=lent.ident.replace(b"4.20", b"4.10", 1)), size, 1),
    ))


class Tally:
    """Counts by words, and what the request excludes."""

    def __init__(self):
        self.counts, self.wrong = collections.Counter(), []

    def add(self, *words, n=1):
        self.counts[words] += n

    def take(self, name, found, edited, options):
        self.add("recordings")
        self.add("edited", n=edited)
        self.add("first", found.first.number)
        if not found.first.accepted:
            return
        kind = "wide" if found.wide() else "narrow"
        self.add(kind)
        self.add(kind, "edited", n=edited)
        if not found.second.accepted:
            self.add(kind, "refused", found.second.number)
        else:
            self.add(kind, "same" if found.same() else "not the same")
            self.add(kind, "omissions", n=found.list != [0])
        if kind == "wide":
            self.check(name, found, options)

    def check(self, name, found, options):
        if found.same():
            self.features(found)
            for option, value in options.items():
                self.add("by", option, value)
        elif found.second.accepted or found.second.number not in MAY_MEET:
            self.wrong.append("%s: %s" % (name, found.differs or found.second))

    def features(self, found):
        columns = found.before
        self.add("columns", "all", n=len(columns))
        for name, test in (
            ("with records", lambda c: c.records), ("with a master", lambda c: c.master is not None), ("with an invalidation byte", lambda c: c.invalidation),
            ("of several blocks", lambda c: len(c.blocks) > 1), ("with signal data", lambda c: c.signal),
            ("with references to attachments", lambda c: c.references),
            ("of type 3 or 6 with records", lambda c: c.records and c.channel[0] in (3, 6)),
        ):
            self.add("columns", name, n=sum(bool(test(c)) for c in columns))
        self.add("shared", n=found.first.shared_time_groups > 0)
        self.add("behind", n=len(found.image) > found.first.file_size)
        self.add("bytes", n=sum(len(c.payload) + len(c.signal) for c in columns))

    def each(self, *front):
        """`number: how many` for each number but 0."""
        found = sorted((words[-1], n) for words, n in self.counts.items() if words[:-1] == front and words[-1])
        return ", ".join("%s: %s" % (format(number, ","), format(n, ",")) for number, n in found) or "none"

    def table(self):
        c = self.counts
        columns = [(words[1], n) for words, n in c.items() if words[0] == "columns"]
        rows = [
            ("recordings", c["recordings",]), ("of these edited", c["edited",]), ("first call: accepted", c["first", 0]),
            ("first call: refused", self.each("first")),
            ("results whose columns with records are wide", c["wide",]), ("of these from edited recordings", c["wide", "edited"]),
            ("wide: the same columns and an empty list", c["wide", "same"]), ("of these with times that the first call shares", c["shared",]),
            ("of these at the front of a longer output", c["behind",]), ("of these with references kept", c["by", "photos", True]),
            ("of these by unit", self.each("by", "unit")), ("of these by block size", self.each("by", "block_size")),
            ("wide: other columns, or a list that isn't empty", c["wide", "not the same"]), ("wide: second call refused", self.each("wide", "refused")),
            *(("columns compared" if name == "all" else "of these " + name, n) for name, n in columns), ("bytes of payload and signal data", c["bytes",]),
            ("results with a column of width 0 that has records", c["narrow",]), ("width 0: the same columns and an empty list", c["narrow", "same"]),
            ("width 0: other columns, or a list that isn't empty", c["narrow", "not the same"]), ("of these with omissions", c["narrow", "omissions"]),
            ("width 0: second call refused", self.each("narrow", "refused")), ("too little lent for the second call: refused", self.each("too little")),
            ("against the request", len(self.wrong)),
        ]
        return ["| Results converted again | |", "|---|---:|", *("| %s | %s |" % (name, n if isinstance(n, str) else format(n, ",")) for name, n in rows)]


def one(seed, number, tally):
    """Recording `number` of a seed, by choices of its own: the recording."""
    r = random.Random("%d %d" % (seed, number))
    image, edited = any_recording(r)
    share, choices = r.random() < 0.5, Choices(r.choice(SIZES), r.choice(UNITS), r.random() < 0.5)
    behind = r.randbytes(r.randrange(300)) if r.random() < 0.3 else b""
    second, name = any_lent(r), "recording %d of seed %d" % (number, seed)
    found = twice(image, choices, any_lent(r), second, share, behind)
    tally.take(name, found, edited, dataclasses.asdict(choices))
    if found.second and found.second.accepted and r.random() < 0.1:
        lent, room, due = too_little(r, second, found.second.file_size)
        out = bytearray(room)
        outcome, _ = call(found.image, len(found.image), choices, lent, address_of(out), room)
        tally.add("too little", outcome.number)
        if outcome.number != due or any(out):
            tally.wrong.append("%s: %s and not %d with too little lent" % (name, outcome, due))
    return image


# ---- from both sides


@dataclasses.dataclass
class Edge:
    """A recording and the refusals of both calls, 0 for none, with the kind of block at the second one's place."""

    name: str
    image: bytes
    second: int = 0
    at: bytes = None
    first: int = 0
    choices: Choices = Choices(1)


def eight_bytes(records, kinds=(0,), signal=False):
    """A recording of channels of 8 bytes: by block size 1 each record of each is a block. With signal data for a channel of type 1."""
    w = Writer(random.Random(records))
    cn, sd = 0, w.add(b"SD", [], b"\2\0\0\0ab") if signal else 0
    for k, kind in reversed(list(enumerate(kinds))):
        cn = w.named(cn, (8 * k, 8, None), [(5, sd)] if kind == 1 else [], kind)
    cg = w.add(b"CG", [0, cn, 0, 0, 0, 0], struct.pack("<QQHHIII", 0, records, 0, 0, 0, 8 * len(kinds), 0))
    dt = w.add(b"DT", [], w.random.randbytes(8 * len(kinds) * records))
    return w.finish(w.add(b"DG", [0, cg, dt, 0], bytes(8)))


def copied(blocks):
    """The header's comment with what hangs at it: so many blocks that are copied."""
    w = Writer(random.Random(blocks))
    return w.finish(0, comment=w.add(b"SI", [w.add(b"TX", [], bytes(8)) for _ in range(blocks - 1)], bytes(8)))


def history(blocks):
    """A history of so many CC."""
    w, at = Writer(random.Random(blocks)), 0
    for _ in range(blocks):
        at = w.add(b"CC", [at], bytes(24))
    return w.finish(0, history=at)


def attached(count):
    w, at = Writer(random.Random(count)), 0
    for _ in range(count):
        at = w.add(b"AT", [at, w.text("a"), 0, 0], bytes(40))
    return w.finish(0, attachments=at)


def edges():
    """Limits of the second call, from both sides."""
    return [
        Edge("1,024 blocks", eight_bytes(1024)), Edge("1,025 blocks", eight_bytes(1025), 19, b"DV"),
        Edge("512 blocks each of two columns", eight_bytes(512, (2, 0))), Edge("513 blocks each of two columns", eight_bytes(513, (2, 0)), 19, b"DV"),
        Edge("1,023 blocks and an SD", eight_bytes(1023, (1,), True)), Edge("1,024 blocks and an SD", eight_bytes(1024, (1,), True), 19, b"SD"),
        Edge("512 channels", eight_bytes(1, (0,) * 512)), Edge("64 attachments", attached(64)), Edge("65 attachments", attached(65), first=19),
        Edge("2,046 copied blocks", copied(2046)), Edge("2,047 copied blocks", copied(2047), 19, b"MD"), Edge("2,048 copied blocks", copied(2048), 19, b"FH"),
        Edge("2,049 copied blocks", copied(2049), first=19),
        Edge("a history of 63 CC", history(63)), Edge("a history of 64 CC", history(64), 16, b"MD"), Edge("a history of 65 CC", history(65), 16, b"FH"),
        Edge("a history of 66 CC", history(66), first=16),
    ]


def check_edge(edge):
    found = twice(edge.image, edge.choices, second=Lent(text=b"again", time=5))
    told = found.first.number, found.second.number if found.second else 0
    expect(told == (edge.first, edge.second), edge.name, "gives", told)
    if edge.first:
        return "%s: the first call refuses with %d" % (edge.name, edge.first)
    expect(found.wide(), edge.name)
    if edge.second:
        kind = File(found.image).kind(found.second.place)
        expect(kind == edge.at, edge.name, "refused with", edge.second, "at", kind)
        return "%s: refused with %d at its %s" % (edge.name, edge.second, kind.decode())
    expect(found.same(), edge.name, found.differs)
    return "%s: the same" % edge.name


class Room:
    """So many bytes of memory, those that aren't written 0 and without room of their own."""

    def __init__(self, size):
        self.size, self.bytes = size, mmap.mmap(-1, size, mmap.MAP_PRIVATE | mmap.MAP_ANONYMOUS | 0x4000)  # MAP_NORESERVE
        self.address = address_of(self.bytes)


def over_four_gib():
    """A result at the front of an output of 4 GiB and a byte: the whole is refused with 3, without the last byte it isn't."""
    image, choices, out = eight_bytes(20, (2, 0)), Choices(64), Room((1 << 32) + 1)
    first, _ = call(image, len(image), choices, Lent(), out.address, out.size)
    expect(first.accepted, first)
    again = bytearray(first.file_size + 4096)
    told = []
    for length in (out.size, out.size - 1):
        outcome, list_ = call(out.address, length, choices, Lent(text=b"again"), address_of(again), len(again))
        told.append((outcome.number, outcome.place))
    expect(told == [(3, 0), (0, 0)] and list_[0] == 0, told)
    expect(difference(shown(out.bytes[: first.file_size]), shown(bytes(again))) is None, "other columns")
    return "an output of 4 GiB: the same; of one byte more: refused with 3"


def long_list(blocks):
    """A column of so many blocks of 8 bytes from one fragment that is listed 1,024 times: number and kind of the second call's refusal, and the DL's length."""
    w = Writer(random.Random(blocks))
    each, last = 1 << 18, 8 * blocks - 1023 * (1 << 18)
    dts = [w.add(b"DT", [], w.random.randbytes(n)) for n in (each, last)]
    cg = w.add(b"CG", [0, w.named(0, (0, 1, None)), 0, 0, 0, 0], struct.pack("<QQHHIII", 0, 8 * blocks, 0, 0, 0, 1, 0))
    dl = w.add(b"DL", [0, *dts[:1] * 1023, dts[1]], bytes(16))
    image, choices = w.finish(w.add(b"DG", [0, cg, dl, 0], bytes(8))), Choices(1)
    size = call(image, len(image), choices, Lent(), None, 0)[0].place
    out = Room(size)
    first, _ = call(image, len(image), choices, Lent(), out.address, size)
    expect(first.accepted and first.data_blocks == blocks, first)
    second, _ = call(out.address, size, choices, Lent(text=b"again"), None, 0)
    f = File(out.bytes)
    return second.number, f.kind(second.place), f.size(f.links(f.links(64)[0])[2])


def lists_of_256_mib():
    """A DL of 268,435,456 bytes has too many blocks (19), a longer one isn't read (9). This takes 1.4 GiB of memory."""
    most = (1 << 28) // 8 - 6  # 24 + 8 * (most + 1) + 16 bytes
    told = long_list(most), long_list(most + 1)
    expect(told == ((19, b"DV", 1 << 28), (9, b"DL", (1 << 28) + 8)), told)
    return "a DL of 256 MiB: refused with 19 at a DV; of 8 bytes more: refused with 9 at that DL"
