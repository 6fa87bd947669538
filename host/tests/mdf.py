"""Small MDF recordings made by hand, and a reader of results that goes by links alone."""
import struct


def block(kind, links, data=b"", size=None):
    size = 24 + 8 * len(links) + len(data) if size is None else size
    return b"##" + kind + bytes(4) + struct.pack("<QQ", size, len(links)) + struct.pack("<%dQ" % len(links), *links) + data


def wide_recording(samples, records, channels):
    """The front of a recording whose one DT of so many records is its end, and the DT's offset. A channel is (type, byte, bits)."""
    image = bytearray(b"MDF     4.10    tests   " + bytes(40) + bytes(104))
    cn = 0
    for kind, byte, bits in reversed(channels):
        at = len(image)
        image += block(b"CN", [cn] + [0] * 7, struct.pack("<BBBBII", kind, 0, 0, 0, byte, bits) + bytes(60))
        cn = at
    cg = len(image)
    image += block(b"CG", [0, cn, 0, 0, 0, 0], struct.pack("<QQHHIII", 0, records, 0, 0, 0, samples, 0))
    dg = len(image)
    dt = dg + 64
    image += block(b"DG", [0, cg, dt, 0], bytes(8))
    image += block(b"DT", [], size=24 + samples * records)
    image[64:168] = block(b"HD", [dg, 0, 0, 0, 0, 0], bytes(32))
    return bytes(image), dt


class File:
    def __init__(self, data):
        self.data = data

    def u64(self, at):
        return struct.unpack_from("<Q", self.data, at)[0]

    def kind(self, at):
        assert self.data[at : at + 2] == b"##", at
        return self.data[at + 2 : at + 4]

    def size(self, at):
        return self.u64(at + 8)

    def links(self, at):
        return list(struct.unpack_from("<%dQ" % self.u64(at + 16), self.data, at + 24))

    def body(self, at):
        return self.data[at + 24 + 8 * self.u64(at + 16) : at + self.size(at)]

    def text(self, at):
        return self.body(at).rstrip(b"\0").decode(errors="replace") if at else None

    def blocks(self, at):
        """The blocks behind a data link."""
        if at == 0 or self.kind(at) != b"DL":
            return [at] if at else []
        links = self.links(at)
        assert links[0] == 0
        return links[1:]

    def joined(self, at):
        """The data behind a data link, and its kinds of block."""
        blocks = self.blocks(at)
        return b"".join(self.body(x) for x in blocks), [self.kind(x) for x in blocks]

    def chain(self, at, link=0):
        while at:
            yield at
            at = self.links(at)[link]


class Column:
    """One DG of a result with its one CG and its one CN."""

    def __init__(self, f, dg):
        cg = f.links(dg)[1]
        cn = f.links(cg)[1]
        assert f.links(cg)[0] == 0 and f.links(cn)[0] == 0
        self.cg = cg
        self.group, self.name, self.unit = f.text(f.links(cg)[2]), f.text(f.links(cn)[2]), f.text(f.links(cn)[6])
        self.source, self.conversion = f.links(cg)[3], f.links(cn)[4]
        _, self.records, self.flags, _, _, self.bytes, self.inval = struct.unpack_from("<QQHHIII", f.body(cg))
        self.type = f.body(cn)[0]
        self.references, self.reference_count = f.links(cn)[8:], struct.unpack_from("<H", f.body(cn), 22)[0]
        self.payload, self.kinds = f.joined(f.links(dg)[2])
        self.signal = f.joined(f.links(cn)[5])[0]
        self.blocks, self.signals = f.blocks(f.links(dg)[2]), f.blocks(f.links(cn)[5])
        self.master_cg = f.links(cg)[6] if self.flags & 8 else None
        self.master = None

    def cells(self):
        """Bytes and invalidation byte of each record."""
        width = self.bytes + self.inval
        assert len(self.payload) == width * self.records
        parts = (self.payload[width * r : width * (r + 1)] for r in range(self.records))
        return [(part[: self.bytes], part[self.bytes :]) for part in parts]


def columns_of(data):
    f = File(data)
    assert data[:16] == b"MDF     4.20    " and f.kind(64) == b"HD"
    columns = [Column(f, dg) for dg in f.chain(f.links(64)[0])]
    places = [c.cg for c in columns]
    for c in columns:
        c.master = places.index(c.master_cg) if c.master_cg else None
    return columns


def history_of(data):
    """Text and time of each history entry, and the offset of the last time."""
    f = File(data)
    entries = list(f.chain(f.links(64)[1]))
    return [(f.text(f.links(fh)[1]), struct.unpack_from("<Q", f.body(fh))[0]) for fh in entries], entries[-1] + 40


def without_time(data):
    """A result with the conversion's time as zeros, in the history entry and in its text."""
    f = File(data)
    fh = list(f.chain(f.links(64)[1]))[-1]
    text = f.links(fh)[1]
    for at, length in ((fh + 40, 8), (text + 24, f.size(text) - 24)):
        data = data[:at] + bytes(length) + data[at + length :]
    return data


def blocks_of(data):
    """Offset, kind and length of every block of a result, as they lie."""
    f, at = File(data), 64
    while at < len(data):
        if data[at] == 0:
            at += 1
            continue
        yield at, f.kind(at), f.size(at)
        at += f.size(at)
