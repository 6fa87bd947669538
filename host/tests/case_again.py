"""Results converted again (document 02, request 14): columns of both results as a reader by links alone finds them, and each limit from both sides."""
import dataclasses
import struct

import rows
from again import Choices, Lent, Tally, address_of, call, check_edge, difference, edges, one, over_four_gib, shown, twice
from case_steps import small
from common import EXAMPLE, SAMPLE, Run, expect, read, test
from mdf import File, blocks_of
from steps import Call, Writer, alone

AGAIN = Lent(b"MDF     4.20    another " + b"\xff" * 40, b"again", 2**64 - 1)
RECORDS = 20


@test
@alone
def results_converted_again():
    """Recordings and choices by chance; --long sets how many."""
    tally, seed = Tally(), Run.random.getrandbits(32)
    for number in range(Run.loops(400)):
        one(seed, number, tally)
    expect(not tally.wrong, *tally.wrong[:5])
    c = tally.counts
    expect(c["wide", "same"] > c["recordings",] // 2 and c["narrow", "same"] == 0, "by far too few", c)
    told = c["wide", "same"], c["columns", "all"], tally.each("wide", "refused"), c["narrow", "not the same"]
    return "%d results the same, %d columns; refused %s; %d with a width of 0 not the same" % told


@test
@alone
def limits_of_results_converted_again():
    """Over 1,024 blocks or 2,046 copied ones (19), a history of over 63 CC (16), over 4 GiB (3)."""
    return "%d recordings" % len([*map(check_edge, edges()), over_four_gib()])


@test
@alone
def larger_recordings_converted_again():
    """The sample, cells and metadata over pages, groups in no order, every data type."""
    calls = [given for given in small() if not given.types] + [Call(read(SAMPLE), size, unit) for size, unit in ((4194304, 8), (4000, 4096))]
    calls += [Call(rows.recording(Run.random, 30), size, unit, share) for size, unit, share in ((4194304, 8, False), (100, 64, True))]
    tally = Tally()
    for number, given in enumerate(calls):
        choices = Choices(given.block_size, given.unit, given.photos)
        tally.take("recording %d" % number, twice(given.image, choices, second=AGAIN, share=given.share), False, dataclasses.asdict(choices))
    expect(not tally.wrong, *tally.wrong)
    c = tally.counts
    told = c["recordings",], c["wide", "same"], c["columns", "all"], tally.each("wide", "refused"), c["narrow", "not the same"]
    return "%d recordings, %d results the same, %d columns; refused %s; %d with a width of 0 not the same" % told


@test
@alone
def example_converted_again():
    """Document 01's: 1,288 bytes, then 1,376 with a text as long, whatever lies behind; what is lent just suffices, or is one short (20, 21, 1)."""
    found = twice(read(EXAMPLE), Choices(64), Lent(text=b"convert"), Lent(text=b"convert"), behind=b"##DG" * 9)
    expect((found.first.file_size, found.second.file_size) == (1288, 1376) and found.same() and found.wide(), found.differs, found.second)
    size = found.second.file_size
    for lent, room, due in (
        (Lent(list_words=1), size, (0, 0)), (Lent(list_words=1), size - 1, (20, size)), (Lent(list_words=0), size, (21, 1)),
        (Lent(text=b"convert", words=(8191, 8192, 8192, 8192)), size, (1, 0)), (Lent(text=bytes(4097)), size, (1, 0)), (Lent(ident=bytes(64)), size, (1, 0)),
    ):
        out, lent = bytearray(room), dataclasses.replace(lent, text=lent.text if len(lent.text) > 4096 else b"convert")
        outcome, _ = call(found.image, len(found.image), Choices(64), lent, address_of(out), room)
        expect((outcome.number, outcome.place) == due and any(out) == outcome.accepted, outcome, "and not", due)


# ---- columns of width 0


def recording(*channels, records=RECORDS):
    """One group with an invalidation byte. A channel is (type, bytes, whether its bit is kept)."""
    w, cn = Writer(Run.random), 0
    for kind, size, kept in reversed(channels):
        cn = w.named(cn, (0, size, 0 if kept else None), kind=kind)
    cg = w.add(b"CG", [0, cn, 0, 0, 0, 0], struct.pack("<QQHHIII", 0, records, 0, 0, 0, 4, 1))
    return w.finish(w.add(b"DG", [0, cg, w.add(b"DT", [], w.random.randbytes(5 * records)), 0], bytes(8)))


def group_at(data, number):
    """Where the CG of a column stands."""
    f = File(data)
    return [f.links(dg)[1] for dg in f.chain(f.links(64)[0])][number]


TIME, COUNTED, SIGNAL, VIRTUAL = (2, 4, False), (3, 0, False), (0, 2, False), (6, 0, False)


def kept(channel):
    return (*channel[:2], True)


@test
@alone
def columns_without_bytes_converted_again():
    """With records it has none the second time, and a signal of another count loses its master (reason 1); with a kept bit or no records: the same."""
    for channels, without, omitted in (  # numbers of columns whose records go, and of those that are omitted for their master
        ((COUNTED, SIGNAL), (0,), (1,)), ((COUNTED, SIGNAL, SIGNAL), (0,), (1, 2)), ((TIME, VIRTUAL, SIGNAL), (1,), (1,)), ((VIRTUAL,), (0,), ()),
        (((0, 0, False), SIGNAL), (0,), ()), ((COUNTED, VIRTUAL), (0, 1), ()),
    ):
        found = twice(recording(*channels), Choices(64), second=AGAIN)
        expect(found.second.accepted and not found.wide() and not found.same(), channels, found.second)
        expect([c.records for c in found.before] == [RECORDS] * len(channels), channels)
        expect([c.records for c in found.after] == [0 if k in without else RECORDS for k in range(len(channels))], channels)
        places = [group_at(found.image, k) for k in omitted]
        expect(found.list == [len(places), *places, *[1] * len(places)], channels, found.list)
        expect(all(found.after[k].master is None and found.before[k].master == 0 for k in omitted), channels)
        found = twice(recording(*channels, records=0), Choices(64), second=AGAIN)
        expect(found.wide() and found.same(), channels, "without records:", found.differs)
        found = twice(recording(*map(kept, channels)), Choices(64), second=AGAIN)
        expect(found.wide() and found.same() and all(c.invalidation == 1 for c in found.after), channels, "with bits kept:", found.differs)


# ---- the comparison itself


def changes(data):
    """The file with one byte of a block's data changed, or one of its links made 0; blocks of the history stay."""
    f = File(data)
    for at, kind, size in blocks_of(data):
        if kind in (b"HD", b"FH", b"MD"):
            continue
        links = f.u64(at + 16)
        for k in range(links):
            if f.links(at)[k]:
                yield (kind, "link", k), data[: at + 24 + 8 * k] + bytes(8) + data[at + 32 + 8 * k :]
        for k in range(at + 24 + 8 * links, at + size):
            yield (kind, "byte", k), data[:k] + bytes([data[k] ^ 1]) + data[k + 1 :]


@test
@alone
def comparison_of_results_converted_again():
    """The comparison misses no changed byte or link of a column."""
    w, told = Writer(Run.random), 0
    sd = w.add(b"SD", [], b"\3\0\0\0abc")
    at = w.add(b"AT", [0, 0, 0, 0], bytes(40))
    cn = w.named(w.named(0, (4, 2, 0), [(6, w.text("V")), (8, at)]), (0, 8, None), [(5, sd)], kind=1, name="texts")
    cg = w.add(b"CG", [0, w.named(cn, (0, 4, None), kind=2, name="time"), w.text("group"), 0, 0, 0], struct.pack("<QQHHIII", 0, 9, 0, 0, 0, 8, 1))
    image = w.finish(w.add(b"DG", [0, cg, w.add(b"DT", [], w.random.randbytes(81)), 0], bytes(8)), attachments=at)
    found = twice(image, Choices(16, 64, True), second=AGAIN)
    expect(found.same() and len(found.before) == 3 and found.before[1].signal and found.before[2].references == [0], found.differs)
    for what, data in changes(found.image):
        if what[0] == b"AT":
            continue
        try:
            missed = difference(found.before, shown(data)) is None
        except (AssertionError, IndexError, ValueError, struct.error):  # no column file any more
            missed = False
        expect(not missed, what)
        told += 1
    return "%d changes" % told
