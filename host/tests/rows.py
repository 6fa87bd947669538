"""Recordings of every data type made at random, and a decoder of row recordings that shares nothing with the module for Python: it goes by the links
of the recording and decodes each value on its own, with Python's integers."""
import struct
from fractions import Fraction

from mdf import File, block

STRINGS = range(6, 15)
LINEAR, IDENTITY, OTHERS = 1, 0, (2, 4, 6)


# ---- decoding


def bits_of(record, byte, bit, count, big):
    size = (bit + count + 7) // 8
    cell = record[byte : byte + size]
    assert len(cell) == size
    return int.from_bytes(cell, "big" if big else "little") >> bit & (1 << count) - 1


def float_of(bits, count):
    return struct.unpack({16: "<e", 32: "<f", 64: "<d"}[count], bits.to_bytes(count // 8, "little"))[0]


def value_of(record, number, channel, signal):
    """The value of one record, by ASAM MDF 4.2."""
    kind, _, data_type, bit, byte, count = channel[:6]
    big = data_type in (1, 3, 5, 16)
    if kind in (3, 6):
        return number
    if kind == 1:
        place = bits_of(record, byte, bit, count, False)
        length = int.from_bytes(signal[place : place + 4], "little")
        return signal[place + 4 : place + 4 + length]
    if data_type in STRINGS:
        return record[byte : byte + (count + 7) // 8]
    if data_type >= 15:
        half = count // 2
        return complex(*(float_of(bits_of(record, byte + at, 0, half, big), half) for at in (0, half // 8)))
    bits = bits_of(record, byte, bit, count, big)
    if data_type in (4, 5):
        return float_of(bits, count)
    return bits - (1 << count) if data_type in (2, 3) and count and bits >> count - 1 else bits


class Channel:
    """A channel of a row recording: values, which are invalid, conversion."""

    def __init__(self, f, at, records, samples):
        fields = struct.unpack_from("<BBBBIIII", f.body(at))
        links = f.links(at)
        signal = f.joined(links[5])[0] if fields[0] == 1 else b""
        self.name, self.unit, self.fields = f.text(links[2]), f.text(links[6]), fields
        self.values = [value_of(record, number, fields, signal) for number, record in enumerate(records)]
        flags, bit = fields[6:8]
        held = flags & 2 and bit // 8 < len(records[0]) - samples if records else False
        self.invalid = [bool(flags & 1) or bool(held and record[samples + bit // 8] >> bit % 8 & 1) for record in records]
        self.masked = bool(flags & 1 or held)
        self.conversion = None
        if links[4]:
            body = f.body(links[4])
            self.conversion = body[0], struct.unpack_from("<%dd" % struct.unpack_from("<H", body, 6)[0], body, 24)
            self.unit = self.unit or f.text(f.links(links[4])[1])

    def physical(self):
        """Values by a linear conversion, each rounded after the product and after the sum."""
        constant, factor = self.conversion[1]
        return [float(v) * factor + constant for v in self.values]


def channels_of(data):
    """Group by group the channels of a recording, each group alone in its DG or told apart by a one-byte id."""
    f = File(data)
    for dg in f.chain(f.links(64)[0]):
        joined, ids = f.joined(f.links(dg)[2])[0], f.body(dg)[0]
        groups = list(f.chain(f.links(dg)[1]))
        about = {cg: struct.unpack_from("<QQHHIII", f.body(cg)) for cg in groups}
        records = {cg: [] for cg in groups}
        at = 0
        while at < len(joined):
            cg = next(cg for cg in groups if not ids or about[cg][0] == joined[at])
            size = about[cg][5] + about[cg][6]
            records[cg].append(joined[at + ids : at + ids + size])
            at += ids + size
        for cg in groups:
            yield [Channel(f, cn, records[cg], about[cg][5]) for cn in f.chain(f.links(cg)[1])]


# ---- making


class Writer:
    def __init__(self, random):
        self.random, self.image, self.count = random, bytearray(b"MDF     4.10    tests   " + bytes(40) + bytes(104)), 0

    def add(self, *words):
        self.image += bytes(-len(self.image) % 8)
        at = len(self.image)
        self.image += block(*words)
        return at

    def text(self, text, kind=b"TX"):
        return self.add(kind, [], text.encode() + b"\0")

    def conversion(self):
        kind = self.random.choice((None, None, IDENTITY, LINEAR, LINEAR, *OTHERS))
        if kind is None:
            return 0
        values = {IDENTITY: 0, LINEAR: 2, 2: 6, 4: 4, 6: 7}[kind]
        numbers = [self.random.choice((0.1, -3.75, 1e-3, 250.0, float(Fraction(1, 3)))) for _ in range(values)]
        unit = self.text("<CNunit><TX>m/s &amp; %</TX></CNunit>", b"MD") if self.random.random() < 0.3 else 0
        return self.add(b"CC", [0, unit, 0, 0], struct.pack("<BBHHHdd%dd" % values, kind, 0, 0, 0, values, 0.0, 0.0, *numbers))

    def channel(self, following, kind, shape, invalidation, signal=0):
        """A CN of shape (data type, bit, byte, bits) before the one at `following`."""
        data_type, bit, byte, bits = shape
        self.count += 1
        name, conversion = self.text("%d of type %d, %d bits from %d" % (self.count, data_type, bits, bit)), self.conversion()
        unit = self.text("V") if self.random.random() < 0.5 else 0
        flags = self.random.choice((0, 2, 2, 2, 1, 3)) if kind not in (2, 3) else 0
        position = self.random.randrange(8 * invalidation + 4) if invalidation else 0
        data = struct.pack("<BBBBIIII", kind, kind in (2, 3), data_type, bit, byte, bits, flags, position) + bytes(52)
        return self.add(b"CN", [following, 0, name, 0, conversion, signal, unit, 0], data)

    def shapes(self, samples):
        """Every data type; of integers and floats both byte orders and each bit offset."""
        r = self.random
        for data_type in (0, 1, 2, 3):
            for bit in range(8):
                for bits in (r.choice((8, 16, 32, 64)), r.randint(1, 64), r.randint(0, 12)):
                    yield data_type, bit, r.randrange(samples - 9), bits
        for data_type in (4, 5):
            for bits in (16, 32, 64):
                for bit in (0, r.randrange(8)):
                    yield data_type, bit, r.randrange(samples - 9), bits
        for data_type in STRINGS:
            yield data_type, 0, r.randrange(samples - 9), 8 * r.randint(0, 9)
        for data_type in (15, 16):
            for bits in (64, 128):
                yield data_type, 0, r.randrange(samples - 16), bits

    def signal_data(self, records):
        """An SD of as many values, and where each begins."""
        places, data = [], b""
        for _ in range(records):
            value = self.random.choice((b"", b"a", b"text\0", bytes(range(256)))) * self.random.randint(0, 2)
            places.append(len(data))
            data += struct.pack("<I", len(value)) + value
        return self.add(b"SD", [], data), places

    def group(self, records, number, record_id):
        """A CG and its records, without ids: a master, a channel of each shape, a virtual one, one of maximum length, two with signal data."""
        samples, invalidation = 48, self.random.choice((0, 1, 3))
        rows = [bytearray(self.random.randbytes(samples + invalidation)) for _ in range(records)]
        for number_, row in enumerate(rows):
            row[0:8] = struct.pack("<d", number_ / 8)
        signal, places = self.signal_data(records)
        for place, row in zip(places, rows):
            row[8:16] = struct.pack("<Q", place)
        cn = 0
        shapes = list(self.shapes(samples))
        self.random.shuffle(shapes)
        for shape in shapes:
            cn = self.channel(cn, 0, shape, invalidation)
        for kind, shape, at in ((1, (7, 0, 8, 64), signal), (1, (10, 0, 8, 40), signal), (6, (0, 0, 0, 0), 0), (5, (10, 0, 16, 24), 0)):
            cn = self.channel(cn, kind, shape, invalidation, at)
        cn = self.channel(cn, 3 if number % 3 == 2 else 2, (0, 0, 0, 0) if number % 3 == 2 else (4, 0, 0, 64), invalidation)
        about = struct.pack("<QQHHIII", record_id, records, 0, 0, 0, samples, invalidation)
        return self.add(b"CG", [0, cn, self.text("group %d" % number), 0, 0, 0], about), rows

    def data_group(self, following, rows, cg, ids):
        """A DG before the one at `following`, its records in up to three DT."""
        joined = b"".join(rows)
        each = len(joined) // self.random.randint(1, 3) + 1
        parts = [self.add(b"DT", [], joined[at : at + each]) for at in range(0, len(joined), each)]
        offsets = struct.pack("<%dQ" % len(parts), *range(0, len(joined), each))
        dl = self.add(b"DL", [0, *parts], struct.pack("<II", 0, len(parts)) + offsets)
        return self.add(b"DG", [following, cg, dl, 0], bytes([ids]) + bytes(7))


def recording(random, records):
    """Two groups: each alone in its DG, or both in one with ids."""
    w = Writer(random)
    kinds = random.sample(range(3), 2)
    groups = [w.group(records // (1 + k), number, k) for k, number in enumerate(kinds)]
    if random.random() < 0.5:
        dg = 0
        for cg, rows in reversed(groups):
            dg = w.data_group(dg, rows, cg, 0)
    else:
        struct.pack_into("<Q", w.image, groups[0][0] + 24, groups[1][0])  # the next CG
        mixed = [bytes([k]) + row for k, (_, rows) in enumerate(groups) for row in rows]
        random.shuffle(mixed)
        dg = w.data_group(0, mixed, groups[0][0], 1)
    w.image[64:168] = block(b"HD", [dg, 0, 0, 0, 0, 0], bytes(32))
    return bytes(w.image)
