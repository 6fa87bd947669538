"""Recordings made at random, mostly sound: groups alone or told apart by ids, every channel type, signal data, remote masters, equal clocks, trees of
metadata, odd histories, attachments and references to them; and edits of these."""
import dataclasses
import struct

import rows
from mdf import block

OTHERS = (b"EV", b"CH", b"CA", b"AT", b"XX")  # kinds that aren't copied


@dataclasses.dataclass
class Group:
    samples: int
    inval: int
    records: int
    id: int
    storage: bool = False
    clock: int = None  # where its time lies, if that is the time of other groups too


class Maker(rows.Writer):
    """`wide`: of nearly all recordings each column with records has a width above 0."""

    def __init__(self, random, wide):
        super().__init__(random)
        self.wide = wide
        self.image[8:16] = random.choice((b"4.10    ", b"4.11    ", b"4.20    ", b"4.+20\0\0\0", b" 5\0\0\0\0\0\0"))
        self.usual = random.choice((0, 1, 3, 5, 8, 9, 20))
        self.shared, self.groups, self.attached, self.places = [], [], [], []
        self.remote, self.clocks = random.choice((0, 30, 80)), random.choice((0, 90))
        self.times, self.spoiled = random.randbytes(4 * 60), self.some(4)

    def some(self, percent):
        return self.random.random() * 100 < percent

    def add(self, *words):
        self.places.append(super().add(*words))
        return self.places[-1]

    def lead(self, at, link, to):
        struct.pack_into("<Q", self.image, at + 24 + 8 * link, to)

    # ---- metadata

    def metadata(self, percent, depth=3):
        """What a link leads to; 0 for nothing."""
        r = self.random
        if depth == 0 or not self.some(percent):
            return 0
        if self.shared and self.some(40):
            return r.choice(self.shared)
        if depth == 3 and self.some(0.4):
            return self.deep(r.choice((63, 64, 65, 65, 66)))
        kind = r.choices((b"TX", b"MD", b"SI", b"CC", b"FH", b"EV"), (24, 24, 20, 26, 3, 3))[0]
        links, size = {b"SI": (3, 8), b"CC": (r.randint(4, 7), r.randint(8, 40)), b"FH": (2, 16), b"EV": (1, 8)}.get(kind, (self.some(4), r.randrange(20)))
        at = self.add(r.choice(OTHERS) if kind == b"EV" else kind, [self.metadata(40, depth - 1) for _ in range(links)], r.randbytes(size))
        self.shared.append(at)
        return at

    def deep(self, blocks):
        """So many blocks, each the only link of the one before."""
        kind, at = self.random.choice((b"TX", b"SI", b"CC")), 0
        for _ in range(blocks):
            at = self.add(kind, [at])
        return at

    def history(self):
        r = self.random
        kinds = [b"FH" if self.some(90) else r.choice((b"CC", b"SI", b"TX", b"MD")) for _ in range(r.choice((0, 0, 0, 1, 1, 2, 3)))]
        if self.some(0.6):
            kinds = [b"CC"] * r.randint(60, 66)
        chain = [self.add(kind, [0, self.metadata(60 if len(kinds) < 9 else 0)], r.randbytes(16)) for kind in kinds]
        end = 0
        if kinds and self.some(10):
            end = r.choice(chain) if set(kinds) == {b"FH"} else self.add(r.choice(OTHERS), [0], bytes(8))
        for at, following in zip(chain, [*chain[1:], end]):
            self.lead(at, 0, following)
        if self.some(20):
            self.shared += chain
        return chain[0] if chain else 0

    def attachments(self):
        r = self.random
        for _ in range(r.choice((0, 0, 1, 1, 2, 3, 5))):
            links = [0] + [self.metadata(50) for _ in range(r.choice((3, 3, 3, 4, 7)))]
            self.attached.append(self.add(b"AT", links, r.randbytes(r.choice((r.randrange(41), 40, r.randint(41, 99))))))
        if not self.attached:
            return 0
        end = self.add(r.choice((b"TX", b"FH")), [0]) if self.some(5) else r.choice(self.attached) if self.some(5) else 0
        for at, following in zip(self.attached, [*self.attached[1:], end]):
            self.lead(at, 0, following)
        return self.attached[0]

    # ---- data

    def rows_of(self, g, ids):
        """Its records, each after `ids` bytes of any value."""
        size, r = ids + g.samples + g.inval, self.random
        if g.storage:
            return [bytes(ids) + struct.pack("<I", n) + r.randbytes(n) for n in (r.randrange(10) for _ in range(g.records))]
        data = bytearray(r.randbytes(size * g.records))
        if g.clock is not None:
            for k in range(g.records):
                at = k * size + ids + g.clock
                data[at : at + 4] = self.times[4 * k : 4 * k + 4]
        return [bytes(data[k * size : (k + 1) * size]) for k in range(g.records)]

    def runs(self, groups, ids):
        """Kinds of block, each with its records."""
        if len(groups) != 1:
            every = [struct.pack("<Q", g.id)[:ids] + row[ids:] for g in groups for row in self.rows_of(g, ids)]
            self.random.shuffle(every)
            return [(b"DT", every)]
        (g,) = groups
        kinds = (b"DT",) if g.inval or g.storage else self.random.choice(((b"DT",), (b"DT",), (b"DV",), (b"DT", b"DV"), (b"DV", b"DT", b"DV")))
        records, found = self.rows_of(g, ids), []
        for k, kind in enumerate(kinds):
            n = len(records) if k + 1 == len(kinds) else self.random.randint(0, len(records))
            found.append((kind, [row[ids:] if kind == b"DV" else row for row in records[:n]]))
            records = records[n:]
        return found

    def fragments(self, kind, records):
        """Blocks of these records, cut anywhere or between records; one of whole records may be listed twice."""
        r, data, whole = self.random, b"".join(records), self.some(40) and bool(records)
        cuts = [r.randint(0, len(data)) for _ in range(r.choice((0, 0, 1, 2, 3, 5)))]
        if whole:
            ends = [0]
            for row in records:
                ends.append(ends[-1] + len(row))
            cuts = [r.choice(ends) for _ in cuts]
        cuts = sorted([0, *cuts, len(data)])
        found = []
        for a, b in zip(cuts, cuts[1:]):
            at = self.add(kind, [], data[a:b])
            found += [at] * (2 if whole and self.some(8) else 1) + [0] * self.some(6)
        return found

    def chain(self, blocks):
        """A link to such blocks."""
        if len(blocks) == 1 and self.some(60) or not blocks:
            return blocks[0] if blocks else 0
        cut = self.random.randint(0, len(blocks)) if self.some(30) else len(blocks)
        second = self.add(b"DL", [0, *blocks[cut:]], bytes(16)) if cut < len(blocks) else 0
        at = self.add(b"DL", [second, *blocks[:cut]], self.random.randbytes(16))
        return self.add(b"HL", [at], bytes(8)) if self.some(20) else at

    def signal(self):
        return self.chain(self.fragments(b"SD", [self.random.randbytes(self.random.choice((0, 1, 6, 50)))]))

    # ---- channels and groups

    def extent(self, kind, g):
        """Byte offset, bit offset and bits, mostly inside the record."""
        r = self.random
        if self.some(4) and not self.wide:
            return r.randrange(g.samples + 4), r.randrange(10), r.randrange(100)
        if self.some(3):
            return g.samples + 1, 0, 8
        if kind in (3, 6):
            return r.randint(0, g.samples), 0, r.choice((0, 64))
        least = min(1 if self.wide else 0, g.samples)
        size = g.samples if self.some(10) else r.randint(least, min(9, g.samples))
        bit = r.randrange(8) if size and self.some(30) else 0
        return r.randint(0, g.samples - size), bit, max(8 * size - bit - (r.randrange(7) if self.some(30) else 0), least)

    def kind_of(self, first, g):
        """A channel type. Where columns are to be wide, one without bytes only where there are no records or a bit can be kept."""
        kind = self.random.choices((2, 3, 0), (55, 8, 37))[0] if first else 0
        if kind == 0:
            kind = self.random.choices((0, 1, 2, 3, 4, 5, 6, self.random.choice((7, 9, 255))), (50, 16, 5, 4, 4, 7, 8, 2))[0]
        return kind if kind not in (3, 6) or not self.wide or g.inval or not g.records else 2 if kind == 3 else 0

    def references(self):
        """Links to attachments, now and then one that leads to none."""
        found = [self.random.choice((0, *self.attached, *self.attached)) for _ in range(self.random.choice((0, 0, 0, 1, 2, 3)))]
        return found + [64] * (self.spoiled and self.some(30))

    def below(self):
        if self.some(92):
            return 0
        return self.random.choice((self.add(b"CA", [0], bytes(16)), self.add(b"CN", [0] * 8, bytes(72)), self.add(b"TX", [])))

    def channel_of(self, following, kind, g):
        r, (byte, bit, bits) = self.random, self.extent(kind, g)
        flags = r.choice((0, 2, 2, 2, 3, 0x1002, 0xFFFFFFFE)) if g.inval else r.choice((0, 0, 0, 1, 2, 0x1000, 0xFFFFFFFD))
        position = r.randrange(8 * g.inval + 3)
        if self.wide and kind in (3, 6) and g.records:
            flags, position = 2, r.randrange(8 * g.inval)
        links = [following, self.below(), self.metadata(90), self.metadata(20), self.metadata(35), 0, self.metadata(30), self.metadata(30)]
        if kind == 1:
            links[5] = r.choice((0, *[self.signal()] * 4, *self.groups[:1]))
        elif self.some(15):
            links[5] = self.metadata(60)
        references = self.references()
        data = struct.pack("<BBBBIIII", kind, r.randrange(5), r.randrange(16), bit, byte, bits, flags, position)
        data += struct.pack("<BBH", r.randrange(256), r.randrange(2), len(references)) + r.randbytes(48)
        return self.add(b"CN", links + references + [64] * self.some(5), data)

    def clock_of(self, following, g):
        """A time channel that equals those of other groups."""
        data = struct.pack("<BBBBIIIIBBH", 2, 1, 0, 0, g.clock, 32, 0, 0, 0, 0, 0)
        return self.add(b"CN", [following, 0, self.metadata(90), 0, 0, 0, 0, self.metadata(20)], data + bytes(48))

    def channels_of(self, g):
        r, cn = self.random, 0
        n = r.randrange(2) if g.storage else r.choice((0, 1, 2, 2, 3, 3, 4, 5))
        for k in reversed(range(n)):
            cn = self.clock_of(cn, g) if k == 0 and g.clock is not None else self.channel_of(cn, self.kind_of(k == 0, g), g)
        return cn

    def group_of(self, number, several, ids):
        r = self.random
        samples = r.randint(17, 40) if self.some(15) else r.randint(4 if self.clocks else 1, 16) if self.some(95) or self.wide else 0
        g = Group(samples, r.randint(1, 3) if self.some(35) else 0, self.usual, 0)
        if self.some(15 if self.clocks else 35):
            g.records = r.randint(20, 60) if self.some(30) else r.randrange(12)
        if self.some(2) and not several:
            g.records = r.randint(900, 1300)
        g.storage = self.some(30 if several and number else 2)
        g.id = number + 1 + (r.randrange(6) << 3 if number == 0 else number << 8 * (ids - 1) if ids > 1 else 0)
        if samples >= 4 and g.records <= 60 and not g.storage and self.some(self.clocks):
            g.clock = r.randint(0, samples - 4)
        return g

    def put_group(self, g):
        r = self.random
        remote, cn = self.some(self.remote), self.channels_of(g)
        flags = r.choice((0, 0, 0, 2, 4, 6, 0x10, 0xFF06)) | g.storage | (8 if remote and self.some(95) else 0)
        about = struct.pack("<QQHHIII", g.id, r.getrandbits(64), flags, r.choice((0, 46)), 0, g.samples, g.inval)
        links = [0, cn, self.metadata(90), self.metadata(20), self.metadata(5), self.metadata(20)] + [0] * (remote and self.some(97))
        self.groups.append(self.add(b"CG", links, about + b"\7" * self.some(5)))
        return self.groups[-1], len(links) == 7

    def put_data_group(self, far):
        r = self.random
        n = r.choice((0, 1, 1, 1, 1, 1, 1, 1, 2, 2, 3))
        ids = r.choice((1, 2, 4, 8)) if n > 1 or self.some(40) else 0
        groups = [self.group_of(k, n > 1, ids) for k in range(n)]
        places = []
        for g in groups:
            cg, remote = self.put_group(g)
            places.append(cg)
            far += [cg] * remote
        for at, following in zip(places, places[1:]):
            self.lead(at, 0, following)
        runs = self.runs(groups, ids) if groups else []
        if runs and self.some(1):
            runs[-1][1].append(b"part"[: r.randint(1, 4)])
        data = self.chain([at for kind, records in runs for at in self.fragments(kind, records)])
        return self.add(b"DG", [0, places[0] if places else 0, data, self.metadata(20)], bytes([ids]) + r.randbytes(7))

    def made(self):
        r, far = self.random, []
        history, attachments = self.history(), self.attachments()
        chain = [self.put_data_group(far) for _ in range(r.choice((0, 1, 1, 1, 1, 2, 2, 2, 3, 4)))]
        for at, following in zip(chain, chain[1:]):
            self.lead(at, 0, following)
        for cg in far:
            self.lead(cg, 6, r.choice(self.groups) if self.some(96) else self.metadata(50))
        head = block(b"HD", [chain[0] if chain else 0, history, 0, attachments, 0, self.metadata(30)], r.randbytes(r.randrange(33) if self.some(10) else 32))
        self.image[64 : 64 + len(head)] = head

    def edit(self):
        """A link to another block, a byte of a block's data, or its kind."""
        r, at = self.random, self.random.choice((64, *self.places))
        size, links = struct.unpack_from("<QQ", self.image, at + 8)
        what = r.randrange(8)
        if what < 4 and links:
            self.lead(at, r.randrange(links), r.choice((0, 64, *self.places)))
        elif what < 7 and size > 24 + 8 * links:
            self.image[at + r.randrange(24 + 8 * links, size)] ^= 1 << r.randrange(8)
        else:
            self.image[at + 2 : at + 4] = r.choice((b"TX", b"MD", b"CC", b"SI", b"FH", b"DT", b"DV", b"XX"))


def any_recording(random):
    """A recording, and whether it was edited."""
    made = Maker(random, random.random() < 0.6)
    made.made()
    edits = random.choice((0, 0, 0, 1, 1, 2))
    for _ in range(edits):
        made.edit()
    return bytes(made.image), edits > 0
