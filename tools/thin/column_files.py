"""Column files made at random that no converter wrote: the reader's form (document 02, request 1) with all that it leaves free, blocks in any order and at any
address, odd histories, trees of metadata, attachments and references to them; and files that are damaged in one place or more."""
import dataclasses
import struct

LATE = 1 << 62  # an address past every file
OTHERS = (b"EV", b"CH", b"CA", b"AT", b"XX", b"DT")  # kinds that aren't copied


class Block:
    """A block whose links are blocks, addresses or None for 0. `length` and `count` where they aren't those of what is in it."""

    def __init__(self, kind, links=(), data=b"", length=None, count=None, reserved=bytes(4)):
        self.kind, self.links, self.data, self.length, self.count, self.reserved = kind, list(links), data, length, count, reserved
        self.at = None

    def size(self):
        return 24 + 8 * len(self.links) + len(self.data)

    def bytes(self):
        links = [to.at if isinstance(to, Block) else to or 0 for to in self.links]
        length = self.size() if self.length is None else self.length
        count = len(links) if self.count is None else self.count
        return b"##" + self.kind + self.reserved + struct.pack("<QQ", length, count) + struct.pack("<%dQ" % len(links), *links) + self.data


@dataclasses.dataclass
class Column:
    """A column's blocks; DG, CG and CN have the reader's form."""

    dg: Block
    cg: Block
    cn: Block
    list: Block = None
    blocks: tuple = ()
    signal: Block = None


class File:
    """Blocks that are laid one behind the other when it is made."""

    def __init__(self, version=b"4.20    "):
        self.front = b"MDF     " + version + b"others  " + bytes(40)
        self.head = Block(b"HD", [None] * 6, bytes(32))
        self.blocks, self.columns, self.attached = [], [], []
        self.shared = []  # metadata that may be referred to again

    def add(self, *words, **more):
        self.blocks.append(Block(*words, **more))
        return self.blocks[-1]

    def made(self, random=None, tight=False):
        """Its bytes; with `random` in any order, now and then with something between blocks."""
        blocks, out = list(self.blocks), bytearray(self.front)
        if random:
            random.shuffle(blocks)
        at, odd = 64 + self.head.size(), random is not None and not tight and random.random() < 0.2
        self.head.at = 64
        for b in blocks:
            at += random.randrange(30) if odd else -at % 8
            b.at, at = at, at + b.size()
        for b in [self.head, *blocks]:
            out += bytes(b.at - len(out)) if not odd else random.randbytes(b.at - len(out))
            out += b.bytes()
        return bytes(out) + (random.randbytes(random.randrange(20)) if odd else bytes(-len(out) % 8))


# ---- by hand


def chained(blocks, link=0):
    """Leads each block to the next one; the first."""
    for b, following in zip(blocks, [*blocks[1:], None]):
        b.links[link] = following
    return blocks[0] if blocks else None


def group_data(cycles=0, data_bytes=1, inval=0, flags=0):
    return struct.pack("<QQHHIII", 0, cycles, flags, 0, 0, data_bytes, inval)


def channel_data(kind=0, count=0):
    return struct.pack("<BBBBIIIIBBH", kind, 0, 0, 0, 0, 8, 0, 0, 0, 0, count) + bytes(48)


def list_data(blocks, length, flags=1):
    return struct.pack("<B3xIQ", flags, blocks % 2**32, length)


def put_list(f, blocks, length):
    return f.add(b"DL", [None, *blocks], list_data(len(blocks), length))


def put_column(f, payloads=(), kind=0, inval=0, data_bytes=1, links=(), references=(), block=b"DV", cg_links=(), dg_data=bytes(8)):
    """A column whose blocks have these payloads, in records of `data_bytes` and `inval`. `links` are pairs of a link of CN, from 1, and a block; references
    stand behind the eighth."""
    blocks = [f.add(block, [], payload) for payload in payloads]
    width = data_bytes + inval
    cycles = sum(map(len, payloads)) // width if width else 0
    cn = f.add(b"CN", [None] * 8 + list(references), channel_data(kind, len(references)))
    for number, to in links:
        cn.links[number - 1] = to
    cg = f.add(b"CG", [None, cn, None, None, None, None, *cg_links], group_data(cycles, data_bytes, inval, 8 if cg_links else 0))
    listed = put_list(f, blocks, len(payloads[0])) if blocks else None
    dg = f.add(b"DG", [None, cg, listed, None], dg_data)
    f.columns.append(Column(dg, cg, cn, listed, tuple(blocks), cn.links[5] if kind == 1 else None))
    return f.columns[-1]


def finish(f, history=(), attached=(), comment=None):
    f.head.links = [chained([c.dg for c in f.columns]), chained(list(history)), None, chained(list(attached)), None, comment]
    return f


# ---- by chance


class Maker:
    def __init__(self, random):
        self.random = r = random
        self.f = File(r.choice((b"4.20    ", b"4.20    ", b"4.10    ", b"4.11\0\0\0\0", b"4.+20\0\0\0", b" 5\0\0\0\0\0\0")))
        self.f.front = self.f.front[:16] + r.randbytes(48)
        self.sound = r.random() < 0.85  # of a file that isn't, some part lacks what is asked of it

    def some(self, percent):
        return self.random.random() * 100 < percent

    def flaw(self, percent):
        return not self.sound and self.some(percent)

    # ---- metadata

    def metadata(self, percent, depth=3):
        """What a link leads to; None for nothing."""
        r, f = self.random, self.f
        if depth == 0 or not self.some(percent):
            return None
        if f.shared and self.some(40):
            return r.choice(f.shared)
        if depth == 3 and self.some(0.7):
            return self.deep(r.choice((62, 63, 64, 64, 65, 66)))
        kind = r.choices((b"TX", b"MD", b"SI", b"CC", b"FH", b"EV"), (24, 24, 20, 26, 4, 3))[0]
        links, size = {b"SI": (3, 8), b"CC": (r.randint(4, 7), r.randint(8, 40)), b"FH": (2, 16), b"EV": (1, 8)}.get(kind, (self.some(4), r.randrange(20)))
        kind = r.choice(OTHERS) if kind == b"EV" else kind
        b = f.add(kind, [self.metadata(40, depth - 1) for _ in range(links)], r.randbytes(size), reserved=r.randbytes(4) if self.some(10) else bytes(4))
        f.shared.append(b)
        return b

    def deep(self, blocks):
        """So many blocks, each the only link of the one before; some of them may be referred to."""
        kind, b = self.random.choice((b"TX", b"SI", b"CC")), None
        for _ in range(blocks):
            b = self.f.add(kind, [b])
            if self.some(3):
                self.f.shared.append(b)
        return b

    def history(self):
        r, f = self.random, self.f
        kinds = [b"FH" if self.some(80) else r.choice((b"CC", b"SI", b"TX", b"MD")) for _ in range(r.choice((0, 0, 1, 1, 2, 3, 5)))]
        if self.some(1):
            kinds = [b"CC"] * r.randint(60, 67)
        blocks = [f.add(kind, [None, self.metadata(60 if len(kinds) < 9 else 0)] + [None] * self.some(20), r.randbytes(16)) for kind in kinds]
        if blocks and self.flaw(10):
            blocks[-1].links = []
        first = chained([b for b in blocks if b.links]) if all(b.links for b in blocks) else (blocks[0] if blocks else None)
        if blocks and blocks[-1].links and self.some(15):
            blocks[-1].links[0] = r.choice(blocks) if set(kinds) == {b"FH"} or self.some(30) else f.add(r.choice(OTHERS), [None], bytes(8))
        if self.some(20):
            f.shared += blocks
        return first

    def attachments(self):
        r, f = self.random, self.f
        count = r.choice((0, 0, 1, 1, 2, 3, 5)) if not self.some(1) else r.choice((63, 64, 65))
        for _ in range(count):
            links = [None] + [self.metadata(50 if count < 9 else 5) for _ in range(r.choice((3, 3, 3, 4, 7)))]
            data = r.randbytes(r.choice((r.randrange(41), 40, r.randint(41, 99))))
            f.attached.append(f.add(b"AT", links[: r.randint(0, 3)] if self.flaw(5) else links, data, reserved=r.randbytes(4) if self.some(30) else bytes(4)))
        linked = [b for b in f.attached if b.links]
        if linked:
            chained(linked)
            if self.some(10):
                linked[-1].links[0] = r.choice(linked) if self.some(50) else f.add(r.choice((b"TX", b"FH")), [None])
        return f.attached[0] if f.attached else None

    # ---- data

    def blocks(self, total, kind):
        """Blocks of so many bytes in all, and the length that their DL says: each but the last has it, the last one any."""
        r, f = self.random, self.f
        equal = r.choice((0, 1, 3, 8, 24, 100, total, r.randint(0, 40)))
        before = r.randint(0, min(total // equal if equal else 5, 6))
        sizes = [equal] * before + [total - equal * before]
        if sizes[-1] == 0 and self.some(70):
            sizes.pop()
        if self.flaw(10) and len(sizes) > 1:
            sizes[0] += 1
        found = []
        for k, size in enumerate(sizes):
            again = found and equal == len(found[0].data) and k + 1 < len(sizes) and self.some(15)
            found.append(r.choice([b for b in found if len(b.data) == equal]) if again else self.block(kind, size))
        if not sizes and self.some(50):
            return None, []
        flags = r.choice((1, 1, 1, 3, 0x81)) if not self.flaw(10) else 0
        number = len(found) if self.some(80) else r.getrandbits(32)
        first = None if not self.flaw(5) else self.f.add(b"DL", [None], bytes(16))
        data = struct.pack("<B3sIQ", flags, r.randbytes(3) if self.some(10) else bytes(3), number, equal if found else r.getrandbits(64))
        links = [first, *found] + [None] * self.flaw(5)
        return f.add(b"DL", links if not self.flaw(2) else [], data[: r.randrange(17)] if self.flaw(5) else data + bytes(8 * self.some(10))), found

    def block(self, kind, size):
        r = self.random
        if self.flaw(3):
            kind = r.choice((b"DT", b"DV", b"DZ", b"SD"))
        more = {"count": r.getrandbits(64)} if self.some(8) else {}
        if size == 0 and self.some(30):
            more["length"] = r.randrange(24)
        return self.f.add(kind, [], r.randbytes(size), reserved=r.randbytes(4) if self.some(10) else bytes(4), **more)

    def signal(self):
        """An SD, with links now and then, which count as its data."""
        r, f = self.random, self.f
        if self.some(10):
            return None
        old = [c.signal for c in f.columns if c.signal]
        if old and self.some(15):
            return r.choice(old)
        kind = b"SD" if not self.flaw(15) else r.choice((b"DL", b"DT", b"HL", b"CG"))
        return f.add(kind, [r.getrandbits(64) for _ in range(r.choice((0, 0, 0, 1, 3)))], r.randbytes(r.choice((0, 1, 6, 50))))

    # ---- columns

    def references(self):
        found = [self.random.choice((None, *self.f.attached, *self.f.attached)) for _ in range(self.random.choice((0, 0, 0, 1, 2, 3)))]
        return found + ([LATE, 64][self.some(50) :][:1] if self.flaw(10) else [])

    def channel(self):
        r, kind = self.random, self.random.choices((0, 1, 2, 3, 4, 5, 6, 9), (40, 25, 10, 5, 4, 4, 4, 2))[0]
        links = [None, self.junk(8), self.metadata(80), self.metadata(20), self.metadata(35), None, self.metadata(30), self.metadata(30)]
        signal = self.signal() if kind == 1 else None
        links[5] = signal if kind == 1 else self.junk(20)
        references = self.references()
        data = struct.pack("<B", kind) + r.randbytes(21) + struct.pack("<H", len(references)) + r.randbytes(48)
        links += references + [self.junk(50) for _ in range(r.choice((0, 0, 0, 1, 3)))]
        if references and self.flaw(10):
            links.pop()
        return self.f.add(b"CN", links, data + bytes(8 * self.some(10))), signal

    def junk(self, percent):
        """What isn't looked at: any address."""
        return self.random.choice((1, 64, LATE, 2**64 - 1, *self.f.blocks[-3:])) if self.some(percent) else None

    def column(self):
        r, f = self.random, self.f
        samples = r.choice((0, 1, 1, 2, 3, 4, 8, 9)) if not self.some(4) else 0
        kind = r.choice((b"DT", b"DV"))
        inval = r.choice((0, 0, 1, 4)) if kind == b"DT" or self.flaw(10) else 0
        width, cycles = samples + inval, r.choice((0, 1, 5, 8, 9, 20, 60))
        of_list = r.choice(f.columns) if f.columns and self.some(12) else None
        if of_list:  # two DG with one DL
            listed, found = of_list.list, of_list.blocks
            samples, inval, cycles = of_list.shape
        else:
            listed, found = self.blocks(width * cycles, kind)
        if width == 0 and not of_list:
            cycles = r.choice((cycles, r.getrandbits(64)))
        if self.flaw(8):
            cycles += 1
        cn, signal = self.channel()
        flags = r.getrandbits(16) & ~8
        about = struct.pack("<QQHHIII", r.getrandbits(64), cycles, flags, r.getrandbits(16), r.getrandbits(32), samples, inval)
        links = [None, cn, self.metadata(80), self.metadata(20), self.junk(15), self.metadata(20)]
        cg = f.add(b"CG", links, about + bytes(8 * self.some(10)))
        dg = f.add(b"DG", [None, cg, listed, self.metadata(20)] + [self.junk(50)] * self.some(10), b"\0" + r.randbytes(r.choice((7, 7, 7, 0, 2, 11))))
        f.columns.append(Column(dg, cg, cn, listed, tuple(found), signal))
        f.columns[-1].shape = samples, inval, cycles

    def masters(self):
        """Seventh links: to an earlier column, a later one, the column itself, none."""
        r, groups = self.random, [c.cg for c in self.f.columns]
        for c in self.f.columns:
            if not self.some(60):
                continue
            to = r.choice(groups[:2] + groups[:1] + [c.cg, None] + groups[-1:])
            if self.flaw(15):
                to = r.choice((64, LATE, c.cn))
            c.cg.links += [to] + [self.junk(50)] * (2 * self.some(15))
            self.flag(c.cg, self.some(93))
        for c in self.f.columns:
            if len(c.cg.links) == 6 and self.some(8):
                self.flag(c.cg, True)  # bit 3 without a seventh link

    @staticmethod
    def flag(cg, on):
        flags = struct.unpack_from("<H", cg.data, 16)[0] & ~8 | 8 * on
        cg.data = cg.data[:16] + struct.pack("<H", flags) + cg.data[18:]

    def file(self):
        r, f = self.random, self.f
        history, attached = self.history(), self.attachments()
        for _ in range(r.choice((0, 1, 2, 2, 3, 3, 4, 6, 9))):
            self.column()
        self.masters()
        first = chained([c.dg for c in f.columns])
        f.head = Block(b"HD", [first, history, self.junk(15), attached, self.junk(15), self.metadata(30)] + [LATE] * self.some(8),
                       r.randbytes(r.choice((32, 32, 32, r.randrange(33), 40))))
        return f.made(r, tight=self.some(50))


def any_file(random):
    """A column file, or nearly one."""
    return Maker(random).file()


# ---- damage


def block_places(data):
    """Where blocks seem to stand."""
    found, at = [], 64
    while True:
        at = data.find(b"##", at)
        if at < 0 or at + 24 > len(data):
            return found
        found.append(at)
        at += 2


def damaged(random, data):
    """The file with a field, a link, a kind or a byte changed, or cut off."""
    r, data = random, bytearray(data)
    places = block_places(data)
    for _ in range(r.choice((1, 1, 1, 2, 3))):
        what = r.randrange(12)
        if not places or what == 0:
            del data[r.randrange(len(data) + 1) :]
            places = [at for at in places if at + 24 <= len(data)]
            continue
        at = r.choice(places)
        length, count = struct.unpack_from("<QQ", data, at + 8)
        count = min(count, (len(data) - at - 24) // 8)
        if what < 5 and count:
            to = r.choice((0, 64, r.choice(places), r.choice(places) + 8, len(data) - 24, len(data) - 23, len(data), LATE, 2**64 - 1))
            struct.pack_into("<Q", data, at + 24 + 8 * r.randrange(count), to)
        elif what < 7:
            field, value = r.choice(((8, length), (16, count)))
            value = r.choice((0, value - 1, value + 1, value + 8, value - 8, 24, 268435456, 268435457, 2**61, 2**63, 2**64 - 1))
            struct.pack_into("<Q", data, at + field, value % 2**64)
        elif what < 8:
            data[at + 2 : at + 4] = r.choice((b"TX", b"MD", b"CC", b"SI", b"FH", b"DT", b"DV", b"SD", b"AT", b"DL", b"HL", b"DG", b"CG", b"CN", b"XX"))
        elif what < 11 and at + length <= len(data) and length > 24 + 8 * count:
            data[at + r.randrange(24 + 8 * count, length)] ^= 1 << r.randrange(8)
        else:
            data[r.randrange(len(data))] = r.randrange(256)
    return bytes(data)
