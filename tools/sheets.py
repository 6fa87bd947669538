#!/usr/bin/env python3
"""Writes the column files of crates/inventory: stdin (the result of document 01's example), data/, args and stdout (the sheet of each).

A sheet is made here from document 02, request 10, by reading the file's bytes; nothing is shared with the program. What a damaged file
answers is written down beside it. Run from the repository's root: tools/sheets.py
tools/sheets.py --try PROGRAM FILES [SEED]: holds the program, target/bin/inventory, to the sheets of so many random files.
"""
import os
import random
import struct
import subprocess
import sys
import tempfile
from dataclasses import dataclass
from typing import Optional

# ---- a sheet: "pages of at most 60 lines: a heading line `page P of N`, then 59 lines, on the last page those left, one per column"


def number(image, at, size):
    return int.from_bytes(image[at : at + size], "little")


def link(image, block, i):
    """Link i of a block, from 1 as the documents count."""
    return number(image, block + 16 + 8 * i, 8)


def links(image, block):
    return number(image, block + 16, 8)


def data(image, block):
    return block + 24 + 8 * links(image, block)


def columns(image):
    """CG and CN of each column, from HD on by links."""
    found, dg = [], link(image, 64, 1)
    while dg:
        cg = link(image, dg, 2)
        found.append((cg, link(image, cg, 2)))
        dg = link(image, dg, 1)
    return found


def name(image, cn):
    """The first 32 bytes of the CN's name up to a zero byte; bytes outside 32 to 126 as `?`, a missing name as `-`."""
    at = link(image, cn, 3)
    if at == 0 or image[at : at + 4] not in (b"##TX", b"##MD"):
        return "-"
    text = image[at + 24 : at + number(image, at + 8, 8)]
    return "".join(chr(b) if 32 <= b <= 126 else "?" for b in text[:32].split(b"\0")[0])


def master(image, cg, found):
    """The column that the CG's seventh link leads to under flag bit 3, `-` for none."""
    if number(image, data(image, cg) + 16, 2) & 8 and links(image, cg) >= 7:
        for k, (other, _) in enumerate(found):
            if other == link(image, cg, 7):
                return k
    return "-"


def field(value, width):
    """Text at the left, the rest blanks; numbers stand right, one too wide fills its field with `#`."""
    if isinstance(value, str):
        return value.ljust(width)
    return str(value).rjust(width) if len(str(value)) <= width else "#" * width


def column_line(image, found, k):
    cg, cn = found[k]
    kind = "t" if image[data(image, cn)] in (2, 3) else "s"
    size, records = number(image, data(image, cg) + 24, 4), number(image, data(image, cg) + 8, 8)
    values = k, kind, name(image, cn), size, records, master(image, cg, found)
    return " ".join(field(value, width) for value, width in zip(values, (8, 1, 32, 12, 12, 10)))


def sheet(image):
    found = columns(image)
    lines = [column_line(image, found, k) for k in range(len(found))]
    pages = [lines[first : first + 59] for first in range(0, len(lines), 59)] or [[]]
    text = [line for p, page in enumerate(pages) for line in [("page %d of %d" % (p + 1, len(pages))).ljust(80)] + page]
    assert all(len(line) == 80 for line in text)
    return "".join(line + "\n" for line in text)


# ---- column files


def block(kind, refs, content=b"", size=None):
    n = len(refs)
    size = 24 + 8 * n + len(content) if size is None else size
    return b"##" + kind + bytes(4) + struct.pack("<QQ", size, n) + struct.pack("<%dQ" % n, *refs) + content


def tx(text):
    return block(b"TX", [], text)


@dataclass
class Column:
    kind: int = 0  # channel type
    name: bytes = b""  # the block that the CN's third link leads to, none where empty
    group_name: bytes = b""  # and the CG's
    size: int = 1  # data bytes of a record
    inval: int = 0
    records: int = 0
    payload: bytes = b""
    to: Optional[int] = None  # the column whose CG the seventh link leads to
    seventh: Optional[int] = None  # or an address
    flags: Optional[int] = None  # flags of the CG, bit 3 where there is a seventh link if not given


class File:
    """Blocks one after the other, each at the next multiple of 8; HD at 64."""

    def __init__(self):
        self.bytes = bytearray(b"MDF     4.20    sheets  " + bytes(40) + bytes(104))

    def room(self, size):
        self.bytes += bytes(-len(self.bytes) % 8)
        at = len(self.bytes)
        self.bytes += bytes(size)
        return at

    def fill(self, at, b):
        self.bytes[at : at + len(b)] = b

    def put(self, b):
        at = self.room(len(b))
        self.fill(at, b)
        return at

    def put_if(self, b):
        return self.put(b) if b else 0


def dl_of(blocks, size):
    return block(b"DL", [0] + blocks, b"\1\0\0\0" + struct.pack("<IQ", len(blocks), size))


def data_link(f, c):
    if not c.payload:
        return 0
    at = f.put(block(b"DT" if c.inval else b"DV", [], c.payload))
    return f.put(dl_of([at], len(c.payload)))


def file_of(cs):
    f = File()
    places = [(f.room(64), f.room(104 if c.to is None and c.seventh is None else 112), f.room(160)) for c in cs]
    for k, (c, (dg, cg, cn)) in enumerate(zip(cs, places)):
        seventh = [] if c.to is None and c.seventh is None else [c.seventh if c.to is None else places[c.to][1]]
        flags = c.flags if c.flags is not None else 8 * len(seventh)
        after = places[k + 1][0] if k + 1 < len(cs) else 0
        f.fill(dg, block(b"DG", [after, cg, data_link(f, c), 0], bytes(8)))
        of_group = struct.pack("<QQHHIII", 0, c.records, flags, 0, 0, c.size, c.inval)
        f.fill(cg, block(b"CG", [0, cn, f.put_if(c.group_name), 0, 0, 0] + seventh, of_group))
        f.fill(cn, block(b"CN", [0, 0, f.put_if(c.name), 0, 0, 0, 0, 0], bytes([c.kind]) + bytes(71)))
    f.fill(64, block(b"HD", [places[0][0] if cs else 0, 0, 0, 0, 0, 0], bytes(32)))
    return bytes(f.bytes)


def example():
    """The result of document 01's example: metadata up to 1048, column data from 1048 and 1176 on, 1288 bytes."""
    f = File()
    f.bytes[16:64] = b"sitaungo" + bytes(4) + b"\xa4\x01" + bytes(34)
    records = bytes(range(140))
    md = f.put(block(b"MD", [], b"convert\0"))
    fh = f.put(block(b"FH", [0, md], bytes(16)))
    times = [records[7 * i : 7 * i + 4] for i in range(20)]
    values = [records[7 * i + 4 : 7 * i + 6] + bytes([records[7 * i + 6] & 1]) for i in range(20)]
    one = [f.room(n) for n in (64, 104, 160, 64)]
    two = [f.room(n) for n in (64, 112, 160, 64)]
    a = [f.put(block(b"DV", [], b"".join(times[i : i + 16]))) for i in (0, 16)]
    f.room(0)
    b = [f.put(block(b"DT", [], b"".join(values[i : i + 16]))) for i in (0, 16)]
    f.room(0)
    f.fill(64, block(b"HD", [one[0], fh, 0, 0, 0, 0], bytes(32)))
    f.fill(one[0], block(b"DG", [two[0], one[1], one[3], 0], bytes(8)))
    f.fill(one[1], block(b"CG", [0, one[2], 0, 0, 0, 0], struct.pack("<QQHHIII", 0, 20, 0, 0, 0, 4, 0)))
    f.fill(one[2], block(b"CN", [0] * 8, struct.pack("<BBBBII", 2, 0, 0, 0, 0, 32) + bytes(60)))
    f.fill(one[3], dl_of(a, 64))
    f.fill(two[0], block(b"DG", [0, two[1], two[3], 0], bytes(8)))
    f.fill(two[1], block(b"CG", [0, two[2], 0, 0, 0, 0, one[1]], struct.pack("<QQHHIII", 0, 20, 8, 0, 0, 2, 1)))
    f.fill(two[2], block(b"CN", [0] * 8, struct.pack("<BBBBIII", 0, 0, 0, 0, 0, 16, 2) + bytes(56)))
    f.fill(two[3], dl_of(b, 48))
    assert len(f.bytes) == 1288 and a[0] == 1048 and b[0] == 1176
    return bytes(f.bytes)


# ---- the files of crates/inventory

EXAMPLE = (
    "page 1 of 1                                                                     \n"
    "       0 t -                                           4           20 -         \n"
    "       1 s -                                           2           20          0\n"
)
CASES = []


def case(label, image, answer=None):
    CASES.append((label, bytes(image), sheet(image) if answer is None else answer + "\n"))


def numbered(n):
    return file_of([Column() for _ in range(n)])


case("no-columns", numbered(0))
case("one-column", file_of([Column(kind=2, name=tx(b"time\0"), size=8, records=2, payload=bytes(16))]))
for count in 59, 60, 118, 119, 199:
    case("columns-%d" % count, numbered(count))

# names of 31, 32 and 33 bytes; a zero byte at 0, at 31 and at 32; no bytes; bytes at the borders of what is printed; a character cut in half
NAMES = [b"abcdefghijklmnopqrstuvwxyz01234", b"abcdefghijklmnopqrstuvwxyz012345", b"abcdefghijklmnopqrstuvwxyz0123456"]
NAMES += [b"\0lost", b"abcdefghijklmnopqrstuvwxyz01234\0lost", b"abcdefghijklmnopqrstuvwxyz012345\0lost", b"in\0side", b""]
NAMES += [b"\x1f\x20\x7e\x7f\xff", b" blanks  ", b"-", "abcdefghijklmnopqrstuvwxyz01234\u00e4".encode()]
case("names", file_of([Column(name=tx(text)) for text in NAMES]))

# an MD; a TX with links, which are bytes of the name; a CC and an SI, which are none; the CG's name, which is another's
OTHERS = [block(b"MD", [], b"<CNcomment/>\0"), block(b"TX", [0x4142434445464748], b"IJ\0"), block(b"CC", [], b"conversion"), block(b"SI", [], b"source")]
OF_GROUP = [Column(group_name=tx(b"group")), Column(name=tx(b"channel"), group_name=tx(b"group"))]
case("names-of-kinds", file_of([Column(name=text) for text in OTHERS] + OF_GROUP))

case("channel-types", file_of([Column(kind=kind) for kind in (0, 1, 2, 3, 4, 5, 6, 7, 255)]))

# the most data bytes; twelve digits and thirteen, the most records; records with invalidation bytes
wide = [Column(size=2**32 - 1), Column(size=0, records=999999999999), Column(size=0, records=10**12), Column(size=0, records=2**64 - 1)]
case("numbers", file_of(wide + [Column(size=2, inval=1, records=3, payload=bytes(9))]))

# an earlier column, itself, a later one; no column, a CN, 0; without the flag; with other flags too; the flag without a seventh link
far = [Column(to=0), Column(to=1), Column(to=11), Column(seventh=168), Column(seventh=168 + 64 + 112), Column(seventh=0), Column(to=0, flags=0)]
far += [Column(to=0, flags=0xFFF7), Column(to=0, flags=0xFFFF), Column(flags=8), Column(seventh=2**64 - 1), Column(kind=2)]
case("masters", file_of(far))
case("many-masters", file_of([Column(kind=2)] + [Column(to=0, name=tx(b"signal %d" % k)) for k in range(1, 62)] + [Column(to=61)]))

# damaged: no file, an id size, a part of a record, a name under 24 bytes; the length of the input
case("not-mdf", b"MDF    x" + numbered(1)[8:], "refused 5 place 0")
image = bytearray(numbered(2))
image[168 + 64 + 104 + 160 + 56] = 3
case("id-size-3", image, "refused 13 place 496")
case("part-of-a-record", file_of([Column(), Column(size=2, records=1, payload=bytes(3))]), "refused 24 place 0")
case("name-under-24", file_of([Column(name=block(b"TX", [], b"short", size=23))]), "refused 4 place 496")
case("cut-short", numbered(2)[:800], "refused 4 place 664")
case("full-length", numbered(1) + bytes(65536 - len(numbered(1))))
case("too-long", numbered(1) + bytes(65537 - len(numbered(1))), "input too long")


def write(folder):
    os.makedirs(os.path.join(folder, "data"), exist_ok=True)
    for label, image, _ in CASES:
        with open(os.path.join(folder, "data", label), "wb") as f:
            f.write(image)
    with open(os.path.join(folder, "args"), "w") as f:
        f.writelines(label + "\n" for label, _, _ in CASES)
    with open(os.path.join(folder, "stdin"), "wb") as f:
        f.write(example())
    with open(os.path.join(folder, "stdout"), "w") as f:
        f.write(EXAMPLE + "".join(label + "\n" + answer for label, _, answer in CASES))
    assert sheet(example()) == EXAMPLE


# ---- random files


def random_text(r):
    pool = [b"abc XYZ 019", bytes(range(256)), bytes(range(30, 34)) + bytes(range(125, 130))]
    text = bytes(r.choice(r.choice(pool)) for _ in range(r.choice([0, 1, 5, 31, 32, 33, 60])))
    return block(r.choice([b"TX", b"TX", b"MD", b"CC"]), [r.getrandbits(64) for _ in range(r.choice([0, 0, 0, 1]))], text)


def random_column(r, n):
    c = Column(kind=r.choice([0, 1, 2, 3, 4, 6, r.randrange(256)]), name=r.choice([b"", random_text(r)]), group_name=r.choice([b"", random_text(r)]))
    c.inval = r.choice([0, 0, 1, 4])
    shape = r.randrange(3)
    if shape == 0:
        c.size, c.inval, c.records = 0, 0, r.choice([0, 1, r.getrandbits(r.randrange(1, 65)), 10 ** r.randrange(10, 14), 10 ** r.randrange(10, 14) - 1])
    elif shape == 1:
        c.size = r.getrandbits(r.randrange(1, 33))
    else:
        c.size, c.records = r.randrange(1, 9), r.randrange(1, 4)
        c.payload = bytes((c.size + c.inval) * c.records)
    way = r.randrange(4)
    if way == 0:
        c.to = r.randrange(n)
    elif way == 1:
        c.seventh = r.choice([0, 64, 168, r.getrandbits(64)])
    c.flags = r.choice([None, None, 0, r.getrandbits(16)])
    return c


def random_file(r):
    n = r.choice([0, 1, 2, 3, 58, 59, 60, 61, r.randrange(100)])
    return file_of([random_column(r, n) for _ in range(n)])


def hold(program, files, seed):
    r, met = random.Random(seed), 0
    program = os.path.abspath(program)
    while met < files:
        images = [image for image in (random_file(r) for _ in range(50)) if len(image) <= 65536]
        with tempfile.TemporaryDirectory() as folder:
            for i, image in enumerate(images):
                with open(os.path.join(folder, str(i)), "wb") as f:
                    f.write(image)
            run = subprocess.run([program] + [str(i) for i in range(len(images))], cwd=folder, input=b"", capture_output=True, check=True)
        wanted = "refused 4 place 0\n" + "".join("%d\n%s" % (i, sheet(image)) for i, image in enumerate(images))
        if run.stdout.decode() != wanted:
            for got, want in zip(run.stdout.decode().split("\n"), wanted.split("\n")):
                if got != want:
                    sys.exit("after %d files with seed %d:\n%s\n%s" % (met, seed, got, want))
            sys.exit("after %d files with seed %d: another length" % (met, seed))
        met += len(images)
    print("%d files, 0 disagreements" % met)


if __name__ == "__main__":
    if len(sys.argv) > 1 and sys.argv[1] == "--try":
        hold(sys.argv[2], int(sys.argv[3]), int(sys.argv[4]) if len(sys.argv) > 4 else 1)
    else:
        write(os.path.join("crates", "inventory"))
