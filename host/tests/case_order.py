"""The order of stores (document 02, request 4): the result's bytes from the first to the last, one column finished before the next."""
import os
import random
import struct
import subprocess

from common import EXAMPLE, LIBRARY, ROOT, SAMPLE, cc, converts, expect, place, read, run, test, write
from mdf import block, columns_of

RECORDS = 20000


class Recording:
    """An image that grows at its end; links are set when both blocks are there."""

    def __init__(self):
        self.data = bytearray(b"MDF     4.10    tests   " + bytes(40) + block(b"HD", [0] * 6, bytes(32)))

    def put(self, kind, links, data=b""):
        self.data += bytes(-len(self.data) % 8)
        at = len(self.data)
        self.data += block(kind, links, data)
        return at

    def link(self, at, i, to):
        struct.pack_into("<Q", self.data, at + 24 + 8 * i, to)

    def chain(self, links):
        """Each (block, link number) leads to the next block; the last to none."""
        for (at, i), (to, _) in zip(links, links[1:]):
            self.link(at, i, to)

    def group(self, number, widths, master, remote=0, inval=False, signals=False):
        """A CG of channels of so many bytes each; the first is the master if there is one."""
        kept = len(widths) // 8 + 1 if inval else 0
        links = [0] * 6 + ([remote] if remote else [])
        flags = 8 if remote else 0
        cg = self.put(b"CG", links, struct.pack("<QQHHIII", number, RECORDS, flags, 0, 0, sum(widths), kept))
        cns = []
        for i, width in enumerate(widths):
            kind = 2 if master and i == 0 else 0
            sd = self.put(b"SD", [], bytes(range(256)) * 40) if signals and i % 3 == 1 else 0
            data = struct.pack("<BBBBIIII", 1 if sd else kind, kind // 2, 0, 0, sum(widths[:i]), 8 * width, 2 if inval else 0, i) + bytes(52)
            cns.append((self.put(b"CN", [0, 0, 0, 0, 0, sd, 0, 0], data), 0))
        self.chain(cns)
        self.link(cg, 1, cns[0][0])
        return cg

    def dg(self, groups, rows, id_size=0, pieces=3):
        """A DG of groups, its data in so many DT."""
        self.chain([(g, 0) for g in groups])
        cut = len(rows) // pieces + 1
        parts = [self.put(b"DT", [], rows[i : i + cut]) for i in range(0, len(rows), cut)]
        dl = self.put(b"DL", [0, *parts], struct.pack("<BBBBIQ", 1, 0, 0, 0, len(parts), cut))
        return self.put(b"DG", [0, groups[0], dl, 0], bytes([id_size]) + bytes(7))

    def done(self, dgs):
        self.chain([(d, 0) for d in dgs])
        self.link(64, 0, dgs[0])
        return bytes(self.data)


def rows(width, number=None):
    """Records of so many bytes, with an id in front if there is one."""
    front = b"" if number is None else bytes([number])
    return [front + (r * 2654435761).to_bytes(8, "little") * (width // 8) + bytes(width % 8) for r in range(RECORDS)]


def sorted_recording():
    m = Recording()
    g = m.group(0, [8] + [4] * 9 + [1, 2, 3], True)
    h = m.group(0, [8] + [2] * 6, True, inval=True)
    return m.done([m.dg([g], b"".join(rows(50))), m.dg([h], b"".join(rows(21)))])


WIDTHS = {1: [8, 4, 4], 2: [8, 1, 1, 1], 3: [8, 8, 3], 4: [2, 2]}


def unsorted_recording():
    m = Recording()
    groups = [m.group(n, w, n < 4) for n, w in WIDTHS.items()]
    turns = zip(*(rows(sum(w), n) for n, w in WIDTHS.items()))
    return m.done([m.dg(groups, b"".join(x for turn in turns for x in turn), id_size=1)])


def shuffled_recording(pieces=3):
    """The same records; which group's is next is left to chance."""
    m = Recording()
    groups = [m.group(n, w, n < 4) for n, w in WIDTHS.items()]
    turns = [n for n in WIDTHS for _ in range(RECORDS)]
    random.Random(4).shuffle(turns)
    left = {n: iter(rows(sum(w), n)) for n, w in WIDTHS.items()}
    return m.done([m.dg(groups, b"".join(next(left[n]) for n in turns), id_size=1, pieces=pieces)])


def remote_masters():
    """Groups whose time columns are those of groups in later DG: the columns of three DG stand among each other."""
    m = Recording()
    a = m.group(0, [8, 4, 4], True)
    b = [m.group(n, [4, 2], False, remote=a) for n in (1, 2)]
    c = m.group(3, [8, 4], True, signals=True)
    e = m.group(4, [4, 4], False, remote=c)
    turns = zip(*(rows(w, n) for n, w in ((1, 6), (2, 6), (3, 12))))
    data = b"".join(x for turn in turns for x in turn)
    return m.done([m.dg([e], b"".join(rows(8))), m.dg([*b, c], data, id_size=1), m.dg([a], b"".join(rows(16)))])


def in_order(program, recording):
    for size in (64, 10000, 4 << 20):
        r = subprocess.run([program, recording, str(size)], stdout=subprocess.PIPE)
        expect(r.returncode == 0, os.path.basename(recording), "block size", size, r.stdout.decode())
    return int(r.stdout.split()[3])


@test
def pages_in_ascending_order():
    """No store goes back: each page is stored to after the one before, and not again once two more are begun."""
    program = place("pages")
    cc(os.path.join(ROOT, "host", "tests", "pages.c"), LIBRARY, "-o", program)
    pages = [in_order(program, x) for x in (EXAMPLE, SAMPLE)]
    for name, make in (("sorted", sorted_recording), ("unsorted", unsorted_recording), ("shuffled", shuffled_recording), ("remote-masters", remote_masters)):
        pages.append(in_order(program, place(write(name + ".mf4", make()))))
    return "%d pages" % sum(pages)


def due_payloads():
    """Of each column of these groups, in order: its cells one after the other."""
    for n, widths in WIDTHS.items():
        for i, width in enumerate(widths):
            first = 1 + sum(widths[:i])
            yield b"".join(row[first : first + width] for row in rows(sum(widths), n))


@test
def records_in_no_order():
    """Groups of one DG whose records follow each other in no order: what links show of the result are each group's own, in few DT and in many."""
    due = list(due_payloads())
    for pieces in (3, 500):
        write("shuffled.mf4", shuffled_recording(pieces))
        for size in (64, 4 << 20):
            converts(run("shuffled.mf4", "columns.mf4", "--force", "--quiet", "--block-size", size))
            expect([c.payload for c in columns_of(read("columns.mf4"))] == due, "payloads with block size", size, "and", pieces, "DT")
    return "%d records" % (RECORDS * len(WIDTHS))
