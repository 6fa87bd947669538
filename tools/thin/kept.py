"""Holds a new file to the column file it was made of (document 02, request 13), by links alone: payloads, kinds and lengths of data blocks, signal data,
masters, photo references, attachments, metadata trees, history, the data of HD, DG, CG and CN; gaps below the unit, nothing that no link leads to.

It knows no placement and makes no file: what it says of one doesn't depend on how it was made (taken.py) but for the columns' numbers and the unit. Both files
have the reader's form; `differences` raises what it meets in one that hasn't.
"""
import struct

COPIED = (b"##TX", b"##MD", b"##CC", b"##SI", b"##FH")


class Differs(Exception):
    pass


def same(a, b, *what):
    if a != b:
        raise Differs(" ".join(map(str, what)) + ": %r and then %r" % (a, b) if len(repr((a, b))) < 300 else " ".join(map(str, what)))


class Block:
    def __init__(self, data, at):
        self.at, self.kind = at, bytes(data[at : at + 4])
        self.length, count = struct.unpack_from("<QQ", data, at + 8)
        self.links = list(struct.unpack_from("<%dQ" % count, data, at + 24)) if self.kind not in (b"##DT", b"##DV", b"##SD") else []
        self.data = data[at + 24 + 8 * len(self.links) : at + self.length]
        self.end, self.reserved, self.count = at + self.length, bytes(data[at + 4 : at + 8]), count

    def is_new(self, kind, length, links, what):
        """Whether a block that is made anew has this header."""
        same((self.kind, self.reserved, self.length, self.count), (kind, bytes(4), length, links), what, "header of", kind)


class File:
    """A file as links show it; `met` has every block that was looked at."""

    def __init__(self, data):
        self.bytes, self.met = data, {}
        self.head = self.block(64)
        self.columns = [Column(self, dg) for dg in self.chain(self.head.links[0])]
        self.history = [b.at for b in self.chain(self.head.links[1], COPIED)]
        self.attached = [b.at for b in self.chain(self.head.links[3], (b"##AT",))]
        groups = [c.group.at for c in self.columns]
        for c in self.columns:
            c.master = groups.index(c.seventh) if c.seventh else None

    def block(self, at):
        if at not in self.met:
            self.met[at] = Block(self.bytes, at)
        return self.met[at]

    def chain(self, at, kinds=None):
        """Blocks by first links, up to one met before or of another kind."""
        found = []
        while at and at not in [b.at for b in found]:
            if kinds and bytes(self.bytes[at : at + 4]) not in kinds:
                break
            found.append(self.block(at))
            at = found[-1].links[0]
        return found


class Column:
    def __init__(self, f, dg):
        self.dg, self.group = dg, f.block(dg.links[1])
        self.channel = f.block(self.group.links[1])
        self.list = f.block(dg.links[2]) if dg.links[2] else None
        self.blocks = [f.block(at) for at in self.list.links[1:]] if self.list else []
        self.signal = f.block(self.channel.links[5]) if self.channel.data[0] == 1 and self.channel.links[5] else None
        flags = struct.unpack_from("<H", self.group.data, 16)[0]
        self.seventh = self.group.links[6] if flags & 8 and len(self.group.links) > 6 else 0
        count = struct.unpack_from("<H", self.channel.data, 22)[0]
        self.references = self.channel.links[8 : 8 + count]

    def payload(self):
        return b"".join(self.blocks_data())

    def blocks_data(self):
        return [bytes(b.data) if b.length >= 24 else b"" for b in self.blocks]


def data_of(b, size):
    return bytes(b.data[:size]).ljust(size, b"\0")


class Comparison:
    """`before`, and `after` with the columns of these numbers taken out, at this unit."""

    def __init__(self, before, after, numbers, unit):
        self.before, self.after, self.unit = File(before), File(after), unit
        self.kept = [k for k in range(len(self.before.columns)) if k not in numbers]
        self.pairs, self.trees = {}, set()

    def all(self):
        same(self.before.bytes[:64], self.after.bytes[:64], "identification")
        self.header()
        same(len(self.kept), len(self.after.columns), "columns")
        for number, k in enumerate(self.kept):
            self.column(self.before.columns[k], self.after.columns[number], "column %d" % k)
        self.attachments()
        self.places()

    def header(self):
        a, b = self.before.head, self.after.head
        b.is_new(b"##HD", 104, 6, "the file:")
        same((b.links[2], b.links[4]), (0, 0), "links of HD that are none")
        same(data_of(a, 32), bytes(b.data), "data of HD")
        same(len(self.before.history), len(self.after.history), "history")
        for x, y in zip(self.before.history, self.after.history):
            self.pairs[x] = y
        self.tree(a.links[5], b.links[5], "comment of HD")
        for x, y in zip(self.before.history, self.after.history):
            self.tree(x, y, "history")

    def column(self, a, b, what):
        self.heads(a, b, what)
        same(len(a.blocks), len(b.blocks), what, "blocks")
        for x, y in zip(a.blocks, b.blocks):
            y.is_new(x.kind, max(x.length, 24), 0, what)
        same(a.blocks_data(), b.blocks_data(), what, "payload")
        same(a.list.data[8:16] if a.blocks else None, b.list.data[8:16] if b.list else None, what, "length in its DL")
        if b.list:
            b.list.is_new(b"##DL", 48 + 8 * len(a.blocks), 1 + len(a.blocks), what)
            same((b.list.links[0], bytes(b.list.data[:8])), (0, b"\1\0\0\0" + struct.pack("<I", len(a.blocks))), what, "DL")
        if b.signal:
            b.signal.is_new(b"##SD", a.signal.length if a.signal else 0, 0, what)
        same(bytes(self.before.bytes[a.signal.at + 24 : a.signal.end]) if a.signal else None, bytes(b.signal.data) if b.signal else None, what, "signal data")
        same(None if a.master is None else self.kept.index(a.master), b.master, what, "master")
        same([self.number(self.before, at) for at in a.references], [self.number(self.after, at) for at in b.references], what, "photo references")
        for name, x, y, numbers in (("CG", a.group, b.group, (2, 3, 5)), ("CN", a.channel, b.channel, (2, 3, 4, 6, 7)), ("DG", a.dg, b.dg, (3,))):
            for k in numbers:
                self.tree(x.links[k], y.links[k], "%s link %d of %s" % (name, k + 1, what))

    def heads(self, a, b, what):
        """Headers, data, and what 01 makes 0."""
        b.dg.is_new(b"##DG", 64, 4, what)
        b.group.is_new(b"##CG", 112 if a.seventh else 104, 7 if a.seventh else 6, what)
        b.channel.is_new(b"##CN", 160 + 8 * len(a.references), 8 + len(a.references), what)
        for x, y, size in ((a.dg, b.dg, 8), (a.group, b.group, 32), (a.channel, b.channel, 72)):
            same(data_of(x, size), bytes(y.data), what, "data of", x.kind)
        same((b.group.links[0], b.group.links[4], *b.channel.links[:2]), (0, 0, 0, 0), what, "links that are none")
        if not a.signal:
            same(b.channel.links[5], 0, what, "link 6")

    @staticmethod
    def number(f, at):
        return f.attached.index(at) if at else None

    def tree(self, a, b, what):
        """The block at a and what hangs at it is the one at b; each is copied once."""
        if a == 0 or bytes(self.before.bytes[a : a + 4]) not in COPIED:
            return same(b, 0, what)
        if b == 0:
            raise Differs("%s is lost" % what)
        same(self.pairs.setdefault(a, b), b, what, "twice")
        if a in self.trees:
            return None
        self.trees.add(a)
        x, y = self.before.block(a), self.after.block(b)
        same((x.kind, x.length, len(x.links), bytes(x.data)), (y.kind, y.length, len(y.links), bytes(y.data)), what)
        same(y.reserved, bytes(4), what, "reserved bytes")
        chained = a in self.before.history
        if chained:
            following = self.before.history[self.before.history.index(a) + 1 :]
            same(self.pairs[following[0]] if following else 0, y.links[0], what, "next")
        for k in range(len(x.links)):
            if k == 0 and chained:
                continue
            self.tree(0 if k == 0 and x.kind == b"##FH" else x.links[k], y.links[k], "%s, link %d" % (what, k + 1))
        return None

    def attachments(self):
        """The AT in order, with header and bytes past the links as they were."""
        old, new = self.before.attached, self.after.attached
        same(len(old), len(new), "attachments")
        for number, (a, b) in enumerate(zip(old, new)):
            x, y, what = self.before.block(a), self.after.block(b), "attachment %d" % number
            same((x.kind, x.reserved, x.length, len(x.links), bytes(x.data)), (y.kind, y.reserved, y.length, len(y.links), bytes(y.data)), what)
            same(y.links[0], new[number + 1] if number + 1 < len(new) else 0, what, "next")
            for k in range(1, len(x.links)):
                self.tree(x.links[k], y.links[k], "%s, link %d" % (what, k + 1))

    def places(self):
        """Blocks that links lead to lie one behind the other, with fewer zeros between them than the unit has bytes, and none else."""
        after, end, unit = self.after, 64, self.unit
        starts = {c.blocks[0].at for c in after.columns if c.blocks} | {c.signal.at for c in after.columns if c.signal}
        followers = {b.at for c in after.columns for b in c.blocks[1:]}
        for at in sorted(after.met):
            b = after.met[at]
            same(True, 0 <= at - end < unit, "gap before %d after %d" % (at, end))
            same(bytes(after.bytes[end:at]), bytes(at - end), "zeros before %d" % at)
            same(at % (unit if at in starts else 1 if at in followers else 8), 0, "place %d" % at)
            if at not in starts:
                same(True, at - end < (1 if at in followers else 8), "gap before %d" % at)
            end = b.end
        same(True, 0 <= len(after.bytes) - end < 8, "gap at the end after %d" % end)
        same(bytes(after.bytes[end:]), bytes(len(after.bytes) - end), "zeros at the end")


def difference(before, after, numbers, unit):
    """What of the new file isn't as it is due; None where all is."""
    try:
        Comparison(before, after, numbers, unit).all()
    except Differs as why:
        return str(why)
    return None
