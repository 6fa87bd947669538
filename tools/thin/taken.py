"""What taking columns out of a column file gives (document 02, request 13): a refusal, or every byte of the new file.

Written from documents 01 and 02 and their readings R1 and R13 (docs/DECISIONS.md). Nothing is shared with the library, with its definitions or with the
reader beside it (kept.py). An image is anything that can be cut into bytes, a mapped file too: data is read only when the new file is made.
"""
import struct

MOST = 2**64 - 1
WORDS = 8192  # of a work slice
MOST_FILE = 2**59
BLOCK = 268435456  # bytes of a block (9)
GROUPS, LISTS, COPIED, ATTACHED, DEPTH = 512, 256, 2050, 64, 64
COPIED_KINDS = (b"##TX", b"##MD", b"##CC", b"##SI", b"##FH")


class Refused(Exception):
    def __init__(self, number, place=0):
        super().__init__(number, place)
        self.number, self.place = number, place


def refuse_if(bad, number, place=0):
    if bad:
        raise Refused(number, place)


def up(at, unit):
    """The next multiple."""
    return -(-at // unit) * unit


class Image:
    def __init__(self, data):
        self.bytes, self.size = data, len(data)

    def u64(self, at):
        return struct.unpack_from("<Q", self.bytes, at)[0]

    def kind(self, at):
        return bytes(self.bytes[at : at + 4])

    def length(self, at):
        return self.u64(at + 8)

    def count(self, at):
        """How many links a block has."""
        return self.u64(at + 16)

    def link(self, at, number):
        """A link, from 1 as the documents count."""
        return self.u64(at + 16 + 8 * number)

    def links(self, at):
        return struct.unpack_from("<%dQ" % self.count(at), self.bytes, at + 24)

    def data_at(self, at):
        return at + 24 + 8 * self.count(at)

    def data(self, at, size=None):
        """The data of a block; cut or filled with zeros where a size is given."""
        start, end = self.data_at(at), at + self.length(at)
        if size is None:
            return bytes(self.bytes[start:end])
        return bytes(self.bytes[start : min(end, start + size)]).ljust(size, b"\0")

    # ---- checks of one block, in 01's order: header range, 8, 9, range, 10

    def header_in(self, at):
        refuse_if(at + 24 > self.size, 4, at)

    def whole_in(self, at, most=BLOCK):
        self.header_in(at)
        refuse_if(24 + 8 * self.count(at) > self.length(at), 8, at)
        refuse_if(self.length(at) > most, 9, at)
        refuse_if(at + self.length(at) > self.size, 4, at)

    def block_in(self, at, kind, links, data):
        self.whole_in(at)
        short = self.count(at) < links or self.length(at) - 24 - 8 * self.count(at) < data
        refuse_if(self.kind(at) != kind or short, 10, at)

    def name_in(self, at):
        """"A name link .. to TX or MD is read for its whole length; under 24 bytes is refusal 4. Other kinds mean no name.\""""
        if at == 0:
            return
        self.header_in(at)
        if self.kind(at) in (b"##TX", b"##MD"):
            refuse_if(self.length(at) < 24 or at + self.length(at) > self.size, 4, at)


# ---- identification


def part_of(text):
    """A decimal 16-bit number, a leading + allowed."""
    digits = text[1:] if text[:1] == b"+" else text
    refuse_if(not digits or any(not 48 <= c <= 57 for c in digits) or int(digits) > 65535, 6)
    return int(digits)


def identified(image):
    refuse_if(image.size < 64, 4)
    refuse_if(bytes(image.bytes[0:8]) != b"MDF     ", 5)
    text = bytes(image.bytes[8:16])
    refuse_if(any(c > 127 for c in text), 6)
    parts = text.rstrip(b"\0").strip(b"\t\n\v\f\r ").split(b".")
    first = part_of(parts[0])
    version = 100 * first + (part_of(parts[1]) if len(parts) > 1 else 0)
    refuse_if(not 410 <= version <= 65535, 7)


# ---- the walk, and the reader's form


class Column:
    """A DG; once it has the reader's form, with its one CG and its one CN."""

    def __init__(self, dg):
        self.dg, self.groups, self.blocks = dg, [], []  # groups: a CG and its CN; blocks: kind, offset and size of a fragment's data
        self.master = self.signal = None  # numbers of its master's column; where its SD is


def listed(image, at):
    image.header_in(at)
    kind = image.kind(at)
    refuse_if(kind not in (b"##DT", b"##DV"), 12, at)
    return kind[2:], at + 24, max(image.length(at) - 24, 0)


def data_chain(image, at):
    """Fragments by link order; 3, 9 for a DL or a data block and the limit on fragments don't apply."""
    met, found = set(), []
    while at:
        refuse_if(at in met, 11, at)
        image.header_in(at)
        kind = image.kind(at)
        if kind not in (b"##DL", b"##HL"):
            return found + [listed(image, at)]
        image.whole_in(at, BLOCK if kind == b"##HL" else MOST)
        refuse_if(len(met) == LISTS, 19, at)
        met.add(at)
        links = image.links(at)
        if kind == b"##DL":
            found += [listed(image, to) for to in links[1:] if to]
        at = links[0] if links else 0
    return found


class Walk:
    def __init__(self, image):
        self.image, self.met, self.counts = image, set(), dict.fromkeys((b"##DG", b"##CG", b"##CN"), 0)

    def visit(self, at, kind, links, data):
        refuse_if(at in self.met, 11, at)
        self.image.block_in(at, kind, links, data)
        refuse_if(self.counts[kind] == GROUPS, 19, at)
        self.counts[kind] += 1
        self.met.add(at)

    def channels(self, at):
        found = []
        while at:
            self.visit(at, b"##CN", 8, 72)
            self.image.name_in(self.image.link(at, 3))
            found.append(at)
            at = self.image.link(at, 1)
        return found

    def groups(self, at):
        found = []
        while at:
            self.visit(at, b"##CG", 6, 32)
            self.image.name_in(self.image.link(at, 3))
            found.append((at, self.channels(self.image.link(at, 2))))
            at = self.image.link(at, 1)
        return found

    def columns(self):
        image, found = self.image, []
        image.block_in(64, b"##HD", 6, 0)
        at = image.link(64, 1)
        while at:
            self.visit(at, b"##DG", 4, 1)
            c = Column(at)
            c.blocks = data_chain(image, image.link(at, 3))
            refuse_if(image.data(at, 1)[0] not in (0, 1, 2, 4, 8), 13, at)
            c.groups = self.groups(image.link(at, 2))
            found.append(c)
            at = image.link(at, 1)
        return found


def list_formed(image, at, blocks):
    """A data link straight to one DL with the equal-length bit, only its first link zero; each block but the last has its length."""
    if at == 0:
        return True
    if image.kind(at) != b"##DL":
        return False
    links, data = image.links(at), image.data(at, 16)
    if not links or links[0] != 0 or 0 in links[1:] or image.length(at) < image.data_at(at) - at + 16 or not data[0] & 1:
        return False
    equal = struct.unpack_from("<Q", data, 8)[0]
    return all(size == equal for _, _, size in blocks[:-1])


def formed(image, c):
    if image.data(c.dg, 1)[0] != 0 or len(c.groups) != 1 or len(c.groups[0][1]) != 1 or not list_formed(image, image.link(c.dg, 3), c.blocks):
        return False
    c.cg, (c.cn,) = c.groups[0]
    _, cycles, c.flags, _, _, data_bytes, inval = struct.unpack("<QQHHIII", image.data(c.cg, 32))
    kinds = {kind for kind, _, _ in c.blocks}
    if len(kinds) > 1 or (kinds == {b"DV"} and inval):
        return False
    return sum(size for _, _, size in c.blocks) == cycles * (data_bytes + inval)


def opened(image):
    """The columns of a file in the reader's form (request 1)."""
    identified(image)
    columns = Walk(image).columns()
    for c in columns:
        for _, offset, size in c.blocks:
            refuse_if(offset + size > image.size, 4, offset)
    refuse_if(not all([formed(image, c) for c in columns]), 24)
    return columns


# ---- "column by column", the list, photos


def follow(image, columns):
    """"a type 1 channel's nonzero link 6 to anything but an SD (its 4 and 8 first) and a nonzero seventh link, under flag bit 3, to no column\""""
    numbers = {c.cg: k for k, c in enumerate(columns)}
    for c in columns:
        c.signal = image.link(c.cn, 6) if image.data(c.cn, 1)[0] == 1 else 0
        if c.signal:
            image.whole_in(c.signal, MOST)
            refuse_if(image.kind(c.signal) != b"##SD", 24)
        seventh = image.link(c.cg, 7) if c.flags & 8 and image.count(c.cg) >= 7 else 0
        refuse_if(seventh and seventh not in numbers, 24)
        c.master = numbers[seventh] if seventh else None


def attachments(image):
    """The AT of the header's chain, by 01's checks up to 19."""
    at, found = image.link(64, 4), []
    while at and at not in found:
        image.header_in(at)
        if image.kind(at) != b"##AT":
            break
        size = 24 + 8 * image.count(at)
        refuse_if(image.count(at) < 4 or size > image.length(at) or size > BLOCK, 18, at)
        refuse_if(at + image.length(at) > image.size, 4, at)
        refuse_if(len(found) == ATTACHED, 19, at)
        found.append(at)
        at = image.link(at, 1)
    return found


def references(image, c, attached):
    count = struct.unpack_from("<H", image.data(c.cn, 72), 22)[0]
    refuse_if(image.count(c.cn) < 8 + count, 28, c.cn)
    found = [image.link(c.cn, 9 + k) for k in range(count)]
    refuse_if(any(at and at not in attached for at in found), 28, c.cn)
    return found


# ---- copies


class Copies:
    """Copied blocks, "each at the next multiple of 8", after what they link to; `at` is where the last one ends."""

    def __init__(self, image, at):
        self.image, self.at, self.places, self.begun, self.history = image, at, {}, 0, []

    def room(self, size):
        at = up(self.at, 8)
        self.at = at + size
        return at

    def copy(self, at, way=()):
        """What a link leads to; `way` has the blocks above it."""
        if at == 0 or at in self.places:
            return
        refuse_if(len(way) > DEPTH or at in way, 16, at)
        self.image.whole_in(at)
        kind = self.image.kind(at)
        if kind not in COPIED_KINDS:
            return
        refuse_if(self.begun == COPIED, 19, at)
        self.begun += 1
        links = self.image.links(at)
        for to in links[1:] if kind == b"##FH" else links:
            self.copy(to, (*way, at))
        self.places[at] = self.room(self.image.length(at))

    def chain(self, at):
        """The history."""
        while at and at not in self.history:
            self.image.whole_in(at)
            if self.image.kind(at) not in COPIED_KINDS:
                break
            refuse_if(self.image.count(at) == 0, 17, at)
            self.copy(at)
            self.history.append(at)
            at = self.image.link(at, 1)

    def to(self, at):
        return self.places.get(at, 0)

    def bytes(self, at):
        """A copied block: links led to the copies, reserved bytes zero. A block of the history leads to the next one, the last one to none."""
        image, links = self.image, [self.to(link) for link in self.image.links(at)]
        if at in self.history:
            following = self.history[self.history.index(at) + 1 :]
            links[0] = self.to(following[0]) if following else 0
        elif image.kind(at) == b"##FH" and links:
            links[0] = 0
        return block(image.kind(at), links, image.data(at))


def block(kind, links, data=b"", size=None):
    """`size` where the data is put elsewhere."""
    size = 24 + 8 * len(links) + len(data) if size is None else size
    return kind + bytes(4) + struct.pack("<QQ", size, len(links)) + struct.pack("<%dQ" % len(links), *links) + data


# ---- the new file


class Taken:
    """The kept columns with the places of all blocks."""

    def __init__(self, image, unit, kept, attached):
        self.image, self.unit, self.kept, self.attached = image, unit, kept, attached
        self.copies = Copies(image, 168)
        self.copies.copy(image.link(64, 6))
        self.copies.chain(image.link(64, 2))
        for c in kept:
            for at in [image.link(c.cg, k) for k in (3, 4, 6)] + [image.link(c.cn, k) for k in (3, 4, 5, 7, 8)] + [image.link(c.dg, 4)]:
                self.copies.copy(at)
        self.place_columns()
        self.place_attachments()

    def place_columns(self):
        room = self.copies.room
        for c in self.kept:
            c.new_dg = room(64)
            c.new_cg = room(104 if c.master is None else 112)
            c.new_cn = room(160 + 8 * len(c.references))
            c.new_dl = room(24 + 8 * (len(c.blocks) + 1) + 16) if c.blocks else 0
        for c in self.kept:
            c.places, c.new_sd = [], 0
            if c.blocks:
                self.copies.at = up(self.copies.at, self.unit)
            for _, _, size in c.blocks:
                c.places.append(self.copies.at)
                self.copies.at += 24 + size
            if c.signal:
                c.new_sd = up(self.copies.at, self.unit)
                self.copies.at = c.new_sd + self.image.length(c.signal)

    def place_attachments(self):
        image, self.moved = self.image, {}
        for at in self.attached:
            for k in range(2, image.count(at) + 1):
                self.copies.copy(image.link(at, k))
            self.moved[at] = self.copies.room(image.length(at))
        self.size = up(self.copies.at, 8)

    # ---- bytes

    def head(self):
        image, copies = self.image, self.copies
        links = [self.kept[0].new_dg if self.kept else 0, copies.to(copies.history[0]) if copies.history else 0, 0]
        links += [self.moved[self.attached[0]] if self.attached else 0, 0, copies.to(image.link(64, 6))]
        return block(b"##HD", links, image.data(64, 32))

    def structure(self, c, following, masters):
        """DG, CG, CN and DL with their places."""
        image, to = self.image, self.copies.to
        yield c.new_dg, block(b"##DG", [following.new_dg if following else 0, c.new_cg, c.new_dl, to(image.link(c.dg, 4))], image.data(c.dg, 8))
        links = [0, c.new_cn, to(image.link(c.cg, 3)), to(image.link(c.cg, 4)), 0, to(image.link(c.cg, 6))]
        links += [] if c.master is None else [masters[c.master].new_cg]
        yield c.new_cg, block(b"##CG", links, image.data(c.cg, 32))
        links = [0, 0, *(to(image.link(c.cn, k)) for k in (3, 4, 5)), c.new_sd, *(to(image.link(c.cn, k)) for k in (7, 8))]
        yield c.new_cn, block(b"##CN", links + [self.moved[at] if at else 0 for at in c.references], image.data(c.cn, 72))
        if c.blocks:
            equal = image.data(image.link(c.dg, 3), 16)[8:]
            yield c.new_dl, block(b"##DL", [0, *c.places], b"\1\0\0\0" + struct.pack("<I", len(c.blocks) % 2**32) + equal)

    def parts(self, masters):
        """Every byte that isn't in a gap: a place and bytes, or a place, an offset and a size."""
        image = self.image
        yield 0, bytes(image.bytes[0:64])
        yield 64, self.head()
        for old, at in self.copies.places.items():
            yield at, self.copies.bytes(old)
        for c, following in zip(self.kept, [*self.kept[1:], None]):
            yield from self.structure(c, following, masters)
            for at, (kind, offset, size) in zip(c.places, c.blocks):
                yield at, block(b"##" + kind, [], size=24 + size)
                yield at + 24, offset, size
            if c.signal:
                length = image.length(c.signal)
                yield c.new_sd, block(b"##SD", [], size=length)
                yield c.new_sd + 24, c.signal + 24, length - 24
        for at, following in zip(self.attached, [*self.attached[1:], 0]):
            links = [self.moved.get(following, 0), *(self.copies.to(to) for to in image.links(at)[1:])]
            whole = bytes(image.bytes[at : at + 24]) + struct.pack("<%dQ" % len(links), *links)
            yield self.moved[at], whole
            yield self.moved[at] + len(whole), at + len(whole), image.length(at) - len(whole)


class Answer:
    """A refusal's number and place, or the size of the new file, whose bytes `file` makes."""

    def __init__(self, number=0, place=0, taken=None, columns=()):
        self.number, self.place, self.taken, self.columns = number, place, taken, columns
        self.accepted, self.size = taken is not None, taken.size if taken else 0

    def __repr__(self):
        return "%d bytes" % self.size if self.accepted else "refused %d place %d" % (self.number, self.place)

    def parts(self):
        return self.taken.parts(self.columns)

    def file(self):
        made = bytearray(self.size)
        for at, *part in self.parts():
            part = part[0] if len(part) == 1 else self.taken.image.bytes[part[0] : part[0] + part[1]]
            made[at : at + len(part)] = part
        assert len(made) == self.size
        return bytes(made)


def decide(image, unit, numbers, room, words):
    """The order of request 13."""
    refuse_if(any(n < WORDS for n in words), 1)
    refuse_if(unit not in [8 << k for k in range(10)], 26)
    image = Image(image)
    columns = opened(image)
    follow(image, columns)
    refuse_if(len(set(numbers)) < len(numbers) or any(k >= len(columns) for k in numbers), 33)
    out = set(numbers)
    kept = [c for k, c in enumerate(columns) if k not in out]
    refuse_if(any(c.master in out for c in kept), 34)
    attached = attachments(image)
    for c in kept:
        c.references = references(image, c, attached)
    taken = Taken(image, unit, kept, attached)
    refuse_if(taken.size > MOST_FILE, 20, MOST)
    refuse_if(room is not None and room < taken.size, 20, taken.size)
    return Answer(taken=taken, columns=columns)


def take_out(image, unit, numbers, room=None, words=(WORDS,) * 4):
    """Takes the columns of these numbers out of a file into an output of `room` bytes (None: enough), with work slices of so many words."""
    try:
        return decide(image, unit, numbers, room, words)
    except Refused as why:
        return Answer(why.number, why.place)
