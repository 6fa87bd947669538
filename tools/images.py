#!/usr/bin/env python3
"""Writes the small recordings of crates/inspect: data/, args (their names) and stdout (what reading finds in each); and those of
crates/columns: stdin (document 01's example), data/, args and stdout (the lines of each).

What is expected is written down here beside each image, from document 01, and not computed by the converter.
Run from the repository's root: tools/images.py
"""
import os
import struct


def block(kind, links, data=b"", size=None, count=None):
    n = len(links)
    size = 24 + 8 * n + len(data) if size is None else size
    return b"##" + kind + bytes(4) + struct.pack("<QQ", size, n if count is None else count) + struct.pack("<%dQ" % n, *links) + data


def cg_data(record_id=0, flags=0, samples=0, inval=0):
    return struct.pack("<QQHHIII", record_id, 0, flags, 0, 0, samples, inval)


def cn_data(kind=0, bit_offset=0, byte_offset=0, bits=0, flags=0, position=0):
    return struct.pack("<BBBBIIII", kind, 0, 0, bit_offset, byte_offset, bits, flags, position) + bytes(52)


class Image:
    """Blocks one after the other from 168 on; HD is put last."""

    def __init__(self, version=b"4.10    "):
        self.bytes = bytearray(b"MDF     " + version + b"images  " + bytes(40) + bytes(104))

    def put(self, b):
        self.bytes += bytes(-len(self.bytes) % 8)
        at = len(self.bytes)
        self.bytes += b
        return at

    def hd(self, dg, history=0, attachment=0, comment=0):
        self.bytes[64:168] = block(b"HD", [dg, history, 0, attachment, 0, comment], bytes(32))
        return bytes(self.bytes)


CASES = []


def case(name, image, line):
    CASES.append((name, bytes(image), line))


def one_group(data_link, ids=0, samples=2, inval=0, m=None, channels=1):
    """One DG with one CG and some CN over a data chain; returns the image and its places."""
    cn = 0
    for _ in range(channels):
        cn = m.put(block(b"CN", [cn] + [0] * 7, cn_data(bits=8 * samples)))
    cg = m.put(block(b"CG", [0, cn, 0, 0, 0, 0], cg_data(samples=samples, inval=inval)))
    dg = m.put(block(b"DG", [0, cg, data_link, 0], bytes([ids]) + bytes(7)))
    return dg, cg, cn


# ---- sound recordings
m = Image()
case("empty", m.hd(0), "items 0 groups 0 fragments 0 counts")

m = Image()
dt = m.put(block(b"DT", [], bytes(range(12))))
dg, _, _ = one_group(dt, ids=1, samples=2, inval=1, m=m)
case("sorted-with-ids", m.hd(dg), "items 3 groups 1 fragments 1 counts 3")

m = Image()
a = m.put(block(b"DT", [], bytes(5)))
b = m.put(block(b"DT", [], bytes(1)))
c = m.put(block(b"DV", [], bytes(4)))
second = m.put(block(b"DL", [0, c, c], bytes(8)))
first = m.put(block(b"DL", [second, a, 0, b], bytes(8)))
hl = m.put(block(b"HL", [first], bytes(8)))
dg, _, _ = one_group(hl, ids=1, samples=2, m=m)
case("dt-and-dv", m.hd(dg), "items 3 groups 1 fragments 4 counts 6")

m = Image()
data = b"\1ab" + b"\2\3\0\0\0xyz" + b"\1cd" + b"\1ef"
x = m.put(block(b"DT", [], data[:5]))
y = m.put(block(b"DT", [], data[5:]))
dl = m.put(block(b"DL", [0, x, y], bytes(8)))
cn = m.put(block(b"CN", [0] * 8, cn_data(bits=16)))
storage = m.put(block(b"CG", [0, 0, 0, 0, 0, 0], cg_data(record_id=2, flags=1)))
cg = m.put(block(b"CG", [storage, cn, 0, 0, 0, 0], cg_data(record_id=1, samples=2)))
dg = m.put(block(b"DG", [0, cg, dl, 0], bytes([1]) + bytes(7)))
case("several-groups", m.hd(dg), "items 4 groups 2 fragments 2 counts 3 1")

m = Image()
dt = m.put(block(b"DT", [], bytes(5)))
dg, _, _ = one_group(dt, samples=2, m=m)
case("part-record", m.hd(dg), "items 3 groups 1 fragments 1 counts 2")

m = Image()
dt = m.put(block(b"DT", [], bytes(9)))
dg, _, _ = one_group(dt, samples=0, m=m)
case("zero-size", m.hd(dg), "items 3 groups 1 fragments 1 counts 0")

m = Image()
name = m.put(block(b"TX", [], b"speed\0"))
other = m.put(block(b"SI", [0, 0, 0], bytes(8)))
cn = m.put(block(b"CN", [0, 0, name, 0, 0, 0, 0, 0], cn_data(bits=8)))
cg = m.put(block(b"CG", [0, cn, other, 0, 0, 0], cg_data(samples=1)))
dg = m.put(block(b"DG", [0, cg, 0, 0], bytes(8)))
case("names", m.hd(dg), "items 3 groups 1 fragments 0 counts 0")

# ---- refusals
case("no-bytes", b"", "refused 4 place 0")
case("not-mdf", b"MDF    x" + Image().hd(0)[8:], "refused 5 place 0")
case("version-unreadable", Image(b"4.x     ").hd(0), "refused 6 place 0")
case("version-byte-over-127", Image(b"4.10.\xc3\xa4 ").hd(0), "refused 6 place 0")
case("version-401", Image(b"4.1     ").hd(0), "refused 7 place 0")
case("header-past-the-image", Image().hd(0)[:80], "refused 4 place 64")
m = Image()
m.hd(0)
m.bytes[64:168] = block(b"HD", [0] * 6, bytes(32), count=11)
case("links-past-the-block", m.bytes, "refused 8 place 64")
m = Image()
m.hd(0)
m.bytes[64:168] = block(b"HD", [0] * 6, bytes(32), size=268435457)
case("too-long", m.bytes, "refused 9 place 64")
m = Image()
m.hd(0)
m.bytes[64:168] = block(b"HD", [0] * 6, bytes(32), size=112)
case("block-past-the-image", m.bytes, "refused 4 place 64")
m = Image()
case("dg-at-hd", m.hd(64), "refused 10 place 64")
m = Image()
dg = m.put(block(b"DG", [0, 0, 0, 0]))
case("dg-without-data", m.hd(dg), "refused 10 place %d" % dg)
m = Image()
dg = m.put(block(b"DG", [168, 0, 0, 0], bytes(8)))
case("circle", m.hd(dg), "refused 11 place %d" % dg)
# a CN chain that leads into an earlier group's: the visited set is not reset at each CN chain
m = Image()
cn = m.put(block(b"CN", [0] * 8, cn_data(bits=8)))
g2 = m.put(block(b"CG", [0, cn, 0, 0, 0, 0], cg_data(samples=1)))
g1 = m.put(block(b"CG", [g2, cn, 0, 0, 0, 0], cg_data(samples=1)))
dg = m.put(block(b"DG", [0, g1, 0, 0], bytes(8)))
case("channel-of-two-groups", m.hd(dg), "refused 11 place %d" % cn)
m = Image()
dl = m.put(block(b"DL", [168], bytes(8)))
dg, _, _ = one_group(dl, m=m)
case("chain-circle", m.hd(dg), "refused 11 place %d" % dl)
m = Image()
dz = m.put(block(b"DZ", [], bytes(24)))
dg, _, _ = one_group(dz, m=m)
case("compressed", m.hd(dg), "refused 12 place %d" % dz)
m = Image()
dg, _, _ = one_group(0, ids=3, m=m)
case("id-size-3", m.hd(dg), "refused 13 place %d" % dg)


def two_groups(ids, record_ids, kind=b"DT", data=b"", size=None):
    m = Image()
    dt = m.put(block(kind, [], data, size=size))
    g2 = m.put(block(b"CG", [0, 0, 0, 0, 0, 0], cg_data(record_id=record_ids[1], samples=1)))
    g1 = m.put(block(b"CG", [g2, 0, 0, 0, 0, 0], cg_data(record_id=record_ids[0], samples=1)))
    dg = m.put(block(b"DG", [0, g1, dt, 0], bytes([ids]) + bytes(7)))
    return m.hd(dg), dg, dt


image, dg, dt = two_groups(1, (7, 7))
case("equal-ids", image, "refused 14 place %d" % dg)
image, dg, dt = two_groups(0, (1, 2))
case("missing-ids", image, "refused 14 place %d" % dg)
image, dg, dt = two_groups(1, (1, 2), kind=b"DV")
case("dv-of-several", image, "refused 14 place %d" % dg)
image, dg, dt = two_groups(1, (1, 2), data=b"\1a", size=4000)
case("fragment-past-the-image", image, "refused 4 place %d" % (dt + 24))
image, dg, dt = two_groups(1, (1, 2), data=b"\1a\2b\3c")
case("unknown-id", image, "refused 15 place %d" % (dt + 28))
image, dg, dt = two_groups(1, (1, 2), data=b"\1a\2")
case("record-ends-early", image, "refused 15 place %d" % (dt + 26))
m = Image()
a = m.put(block(b"DT", [], b"", size=24 + 2**63))
dl = m.put(block(b"DL", [0, a, a], bytes(8)))
dg, _, _ = one_group(dl, samples=1, m=m)
case("bytes-over-64-bits", m.hd(dg), "refused 19 place %d" % dg)
m = Image()
a = m.put(block(b"DT", [], b""))
dl = m.put(block(b"DL", [0] + [a] * 1025, bytes(8)))
dg, _, _ = one_group(dl, samples=1, m=m)
case("fragments-1025", m.hd(dg), "refused 19 place %d" % a)
m = Image()
name = m.put(block(b"TX", [], b"", size=16))
cn = m.put(block(b"CN", [0, 0, name, 0, 0, 0, 0, 0], cn_data(bits=8)))
cg = m.put(block(b"CG", [0, cn, 0, 0, 0, 0], cg_data(samples=1)))
dg = m.put(block(b"DG", [0, cg, 0, 0], bytes(8)))
case("name-under-24", m.hd(dg), "refused 4 place %d" % name)

READ = CASES

# ---- listings: one line for a count, one for each column, one for each omission
CASES = []


def channel(m, after=0, kind=0, byte=0, bits=8, bit=0, flags=0, position=0, below=0, signal=0):
    return m.put(block(b"CN", [after, below, 0, 0, 0, signal, 0, 0], cn_data(kind, bit, byte, bits, flags, position)))


def lines(columns, omitted=()):
    return "\n".join(["columns %d" % len(columns), *columns, "omitted %d" % len(omitted), *omitted])


# document 01's example
m = Image()
dt = m.put(block(b"DT", [], bytes(range(140))))
cn = channel(m, byte=4, bits=16, flags=2)
cn = channel(m, after=cn, kind=2, bits=32)
cg = m.put(block(b"CG", [0, cn, 0, 0, 0, 0], cg_data(samples=6, inval=1)))
dg = m.put(block(b"DG", [0, cg, dt, 0], bytes(8)))
EXAMPLE = m.hd(dg), lines(["0 t 4 0 20 2 80 -", "1 s 2 1 20 2 60 0"])

case("empty", Image().hd(0), lines([]))
case("not-mdf", b"MDF    x" + Image().hd(0)[8:], "refused 5 place 0")
case("too-long", bytes(65537), "input too long")
case("full-length", Image().hd(0) + bytes(65536 - 168), lines([]))

# reasons 2 to 7, and a bit offset over 7
m = Image()
dt = m.put(block(b"DT", [], bytes(8)))
storage = m.put(block(b"CG", [0] * 6, cg_data(record_id=2, flags=1)))
ca = m.put(block(b"CA", [0], bytes(16)))
part = channel(m)
r7 = channel(m, kind=1, bits=64, signal=storage)
r6 = channel(m, after=r7, below=part)
r5 = channel(m, after=r6, below=ca)
r4 = channel(m, after=r5, kind=4)
r3 = channel(m, after=r4, kind=2)
wide = channel(m, after=r3, bits=1, bit=8)
r2 = channel(m, after=wide, byte=7, bits=9)
cn = channel(m, after=r2, kind=3)
cg = m.put(block(b"CG", [storage, cn, 0, 0, 0, 0], cg_data(record_id=1, samples=8)))
dg = m.put(block(b"DG", [0, cg, 0, 0], bytes([1]) + bytes(7)))
case("reasons", m.hd(dg), lines(["0 t 0 0 0 0 0 -"], ["%d 2" % r2, "%d 2" % wide, "%d 3" % r3, "%d 4" % r4, "%d 5" % r5, "%d 6" % r6, "%d 7" % r7]))

# type 4 outside its record: its type is judged before the fit (document 02, request 7); a type 0 channel there doesn't fit
m = Image()
dt = m.put(block(b"DT", [], bytes(2)))
fixed = channel(m, byte=1)
sync = channel(m, after=fixed, kind=4, byte=1)
cn = channel(m, after=sync)
cg = m.put(block(b"CG", [0, cn, 0, 0, 0, 0], cg_data(samples=1)))
dg = m.put(block(b"DG", [0, cg, dt, 0], bytes(8)))
case("sync-outside", m.hd(dg), lines(["0 s 1 0 2 1 2 -"], ["%d 4" % sync, "%d 2" % fixed]))

# reason 1: a remote master of a group with another count; the channel still has its column
m = Image()
one = m.put(block(b"DT", [], bytes(4)))
two = m.put(block(b"DT", [], bytes(6)))
time = channel(m, kind=2)
first = m.put(block(b"CG", [0, time, 0, 0, 0, 0], cg_data(samples=1)))
cn = channel(m)
other = m.put(block(b"CG", [0, cn, 0, 0, 0, 0, first], cg_data(samples=1, flags=8)))
d2 = m.put(block(b"DG", [0, other, two, 0], bytes(8)))
d1 = m.put(block(b"DG", [d2, first, one, 0], bytes(8)))
case("another-count", m.hd(d1), lines(["0 t 1 0 4 1 4 -", "1 s 1 0 6 1 6 -"], ["%d 1" % other]))

# the same with equal counts: the signal column names the other group's time column
m = Image()
one = m.put(block(b"DT", [], bytes(4)))
time = channel(m, kind=2)
first = m.put(block(b"CG", [0, time, 0, 0, 0, 0], cg_data(samples=1)))
cn = channel(m)
other = m.put(block(b"CG", [0, cn, 0, 0, 0, 0, first], cg_data(samples=1, flags=8)))
d2 = m.put(block(b"DG", [0, other, one, 0], bytes(8)))
d1 = m.put(block(b"DG", [d2, first, one, 0], bytes(8)))
case("remote-master", m.hd(d1), lines(["0 t 1 0 4 1 4 -", "1 s 1 0 4 1 4 0"]))

# unsorted records of two groups and of a VLSD storage group
m = Image()
dt = m.put(block(b"DT", [], b"\1ab" + b"\3\2\0\0\0xy" + b"\2c" + b"\1de"))
cn = channel(m)
storage = m.put(block(b"CG", [0] * 6, cg_data(record_id=3, flags=1)))
g2 = m.put(block(b"CG", [storage, cn, 0, 0, 0, 0], cg_data(record_id=2, samples=1)))
cn = channel(m, byte=1)
cn = channel(m, after=cn, kind=2)
g1 = m.put(block(b"CG", [g2, cn, 0, 0, 0, 0], cg_data(record_id=1, samples=2)))
dg = m.put(block(b"DG", [0, g1, dt, 0], bytes([1]) + bytes(7)))
case("unsorted", m.hd(dg), lines(["0 t 1 0 2 1 2 -", "1 s 1 0 2 1 2 0", "2 s 1 0 1 1 1 -"]))

# a channel with signal data: 16 bytes of payload, 11 of signal data
m = Image()
sd = m.put(block(b"SD", [], b"\2\0\0\0xy" + b"\1\0\0\0z"))
dt = m.put(block(b"DT", [], struct.pack("<QQ", 0, 6)))
cn = channel(m, kind=1, bits=64, signal=sd)
cg = m.put(block(b"CG", [0, cn, 0, 0, 0, 0], cg_data(samples=8)))
dg = m.put(block(b"DG", [0, cg, dt, 0], bytes(8)))
case("signal-data", m.hd(dg), lines(["0 s 8 0 2 1 27 -"]))

# signal data in fragments of 6 and 5 bytes and one under 24 bytes, which has none, used by two channels: 16 + 11 bytes each;
# and a channel without records: its 6 bytes of signal data alone
m = Image()
sd = m.put(block(b"SD", [], b"\2\0\0\0xy"))
more = m.put(block(b"SD", [], b"\1\0\0\0z"))
none = m.put(block(b"SD", [], size=16))
dl = m.put(block(b"DL", [0, sd, 0, more, none], bytes(8)))
dt = m.put(block(b"DT", [], struct.pack("<BQQBQQ", 0, 0, 6, 1, 6, 0)))
cn = channel(m, kind=1, byte=9, bits=64, signal=dl)
cn = channel(m, after=cn, kind=1, byte=1, bits=64, signal=dl)
cn = channel(m, after=cn, kind=2)
g1 = m.put(block(b"CG", [0, cn, 0, 0, 0, 0], cg_data(samples=17)))
cn = channel(m, kind=1, bits=64, signal=sd)
g2 = m.put(block(b"CG", [0, cn, 0, 0, 0, 0], cg_data(samples=8)))
d2 = m.put(block(b"DG", [0, g2, 0, 0], bytes(8)))
d1 = m.put(block(b"DG", [d2, g1, dt, 0], bytes(8)))
case("signal-fragments", m.hd(d1), lines(["0 t 1 0 2 1 2 -", "1 s 8 0 2 1 27 0", "2 s 8 0 2 1 27 0", "3 s 8 0 0 0 6 -"]))

# copied metadata, history and an attachment; their refusals
m = Image()
text = m.put(block(b"TX", [], b"speed\0\0\0"))
comment = m.put(block(b"MD", [], b"<a/>\0\0\0\0"))
source = m.put(block(b"SI", [text, text, comment], bytes(8)))
history = m.put(block(b"FH", [0, comment], bytes(16)))
at = m.put(block(b"AT", [0, text, 0, comment], bytes(40) + b"attached"))
dt = m.put(block(b"DT", [], bytes(65)))
cn = m.put(block(b"CN", [0, 0, text, source, 0, 0, text, comment], cn_data(bits=8)))
cg = m.put(block(b"CG", [0, cn, text, source, 0, comment], cg_data(samples=1)))
dg = m.put(block(b"DG", [0, cg, dt, comment], bytes(8)))
case("metadata", m.hd(dg, history, at, comment), lines(["0 s 1 0 65 2 65 -"]))

m = Image()
source = m.put(block(b"SI", [168, 0, 0], bytes(8)))
cn = channel(m)
cg = m.put(block(b"CG", [0, cn, 0, source, 0, 0], cg_data(samples=1)))
dg = m.put(block(b"DG", [0, cg, 0, 0], bytes(8)))
case("circular-copy", m.hd(dg), "refused 16 place %d" % source)
m = Image()
history = m.put(block(b"FH", [], bytes(16)))
case("history-without-links", m.hd(0, history=history), "refused 17 place %d" % history)
m = Image()
at = m.put(block(b"AT", [0, 0, 0], bytes(40)))
case("attachment-of-three-links", m.hd(0, attachment=at), "refused 18 place %d" % at)

# 60,000 records of one byte: 938 blocks; metadata up to 256 + 64 + 104 + 160 + (24 + 8 * 939 + 16) = 8136, 937 blocks of 88 bytes, one of 56
m = Image()
dt = m.put(block(b"DT", [], bytes(60000)))
cn = channel(m)
cg = m.put(block(b"CG", [0, cn, 0, 0, 0, 0], cg_data(samples=1)))
dg = m.put(block(b"DG", [0, cg, dt, 0], bytes(8)))
case("output-too-short", m.hd(dg), "refused 20 place 90648")

LISTED = CASES


def write(folder, cases, stdout):
    os.makedirs(os.path.join(folder, "data"), exist_ok=True)
    for name, image, _ in cases:
        with open(os.path.join(folder, "data", name), "wb") as f:
            f.write(image)
    with open(os.path.join(folder, "args"), "w") as f:
        f.writelines(name + "\n" for name, _, _ in cases)
    with open(os.path.join(folder, "stdout"), "w") as f:
        f.write(stdout)


write(os.path.join("crates", "inspect"), READ, "".join(name + " " + line + "\n" for name, _, line in READ))
write(os.path.join("crates", "columns"), LISTED, EXAMPLE[1] + "\n" + "".join(name + "\n" + line + "\n" for name, _, line in LISTED))
with open(os.path.join("crates", "columns", "stdin"), "wb") as f:
    f.write(EXAMPLE[0])
