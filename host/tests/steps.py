"""Conversions in steps by the library's own functions, and the definitions of their stores, names and shares as programs
(crates/stores/specs/Stores.antt, crates/passes/specs/Passes.antt)."""
import ctypes
import dataclasses
import functools
import os
import random
import signal
import struct

import rows
from common import BUILT, NotTried, Run, expect
from mdf import block

WORK, LIST, STRETCHES, OFFSETS = 8192, 2049, 4096, 2056
PAGE = 4096
MOST = 2**64 - 1  # the largest number
IDENT = b"MDF     4.20    sitaungo\0\0\0\0\xa4\x01".ljust(64, b"\0")


# ---- the library


def numbers(*names):
    return [(name, ctypes.c_uint64) for name in names]


class Same:
    """Structures with equal fields are equal."""

    def __eq__(self, other):
        return type(self) is type(other) and all(getattr(self, name) == getattr(other, name) for name, _ in self._fields_)

    def __repr__(self):
        return "%s(%s)" % (type(self).__name__, ", ".join("%s=%r" % (name, getattr(self, name)) for name, _ in self._fields_))


class Outcome(Same, ctypes.Structure):
    _fields_ = [
        ("accepted", ctypes.c_bool),
        *numbers("number", "place", "source_groups", "time_groups", "signal_groups", "shared_time_groups", "data_blocks", "metadata_size", "file_size"),
    ]


class Options(ctypes.Structure):
    _fields_ = [("unit", ctypes.c_uint64), ("share", ctypes.c_bool), ("photos", ctypes.c_bool)]


class State(Same, ctypes.Structure):
    _fields_ = [
        *numbers("block_size", "time", "unit"), ("share", ctypes.c_bool), ("photos", ctypes.c_bool), *numbers("items", "pieces", "columns", "omissions"),
        *numbers("history", "chain", "md", "fh", "metadata", "copies", "attachments", "metadata_end", "file_size", "steps", "next"),
        *numbers("count", "name_a", "name_b", "name_c", "name_d", "place_a", "place_b", "place_c", "place_d"),
    ]

    def copy(self):
        return State.from_buffer_copy(self)

    def held(self):
        """The names that are held and their positions."""
        return [(getattr(self, "name_" + k), getattr(self, "place_" + k)) for k in "abcd"][: self.count]


class Begun(ctypes.Structure):
    _fields_ = [("outcome", Outcome), ("conversion", State)]


class Position(ctypes.Structure):
    _fields_ = [("number", ctypes.c_uint64), ("conversion", State)]


class Eight(ctypes.Structure):
    _fields_ = numbers(*"abcdefgh")


class Shares(ctypes.Structure):
    _fields_ = [("number", ctypes.c_uint64), ("shares", Eight)]


U64, SLICE = ctypes.c_uint64, [ctypes.c_void_p, ctypes.c_size_t]
GIVEN = [*SLICE, U64, *SLICE, *SLICE, U64, Options, *SLICE]  # recording, block size, identification, text, time, choices, table
STEPPED = 11 * SLICE + SLICE  # recording, identification, text, table, six of words, file, list


@functools.lru_cache(maxsize=None)
def library():
    found = ctypes.CDLL(os.path.join(BUILT, "libsitaungo.so"))
    for name, answer, words in (
        ("convert_with", Outcome, GIVEN + 6 * SLICE),
        ("list_with", ctypes.c_size_t, [*SLICE, U64, *SLICE, *SLICE, Options, *SLICE, U64, U64] + 5 * SLICE),
        ("begin", Begun, [*GIVEN, U64, U64] + 6 * SLICE),
        ("step", State, [State, *STEPPED]),
        ("advance", State, [State, U64, *STEPPED]),
        ("name", Position, [State, U64]),
        ("recall", Position, [State, U64]),
        ("left", U64, [State]),
        ("share", Shares, [U64, U64, Eight, Eight]),
    ):
        function = getattr(found, "sitaungo_" + name)
        function.restype, function.argtypes = answer, words
    return found


def alone(f):
    """A case in a process of its own: whatever happens there, the others go on."""

    @functools.wraps(f)
    def case():
        reader, writer = os.pipe()
        seed, child = Run.random.getrandbits(64), os.fork()
        if child == 0:
            Run.random = random.Random(seed)
            signal.alarm(1800)
            try:
                answer = b"1" + (f() or "").encode()
            except NotTried as why:
                answer = b"2" + str(why).encode()
            except BaseException as why:
                answer = b"0" + ("%s: %s" % (type(why).__name__, why)).encode("utf-8", "replace")[:20000]
            os.write(writer, answer)
            os._exit(0)
        os.close(writer)
        with open(reader, "rb") as f_:
            answer = f_.read()
        status = os.waitpid(child, 0)[1]
        expect(answer, "it ended with", status)
        if answer[:1] == b"2":
            raise NotTried(answer[1:].decode())
        expect(answer[:1] == b"1", answer[1:].decode())
        return answer[1:].decode()

    return case


# ---- calls


def words_of(lengths, value=MOST):
    """Slices of words, each word with this value."""
    return [(U64 * n).from_buffer_copy(struct.pack("<Q", value) * n) for n in lengths]


def slices(arrays):
    return [x for a in arrays for x in (a, len(a))]


def lent(data):
    """A bytearray as a slice."""
    return (ctypes.c_char * len(data)).from_buffer(data) if len(data) else None, len(data)


@dataclasses.dataclass(frozen=True)
class Call:
    """What a conversion depends on."""

    image: bytes
    block_size: int = 4194304
    unit: int = 8
    share: bool = False
    photos: bool = False
    types: bytes = b""
    text: bytes = b"in steps"
    time: int = 1

    def options(self):
        return Options(self.unit, self.share, self.photos)

    def same(self):
        """What each step is lent again."""
        return [self.image, len(self.image), IDENT, len(IDENT), self.text, len(self.text), self.types, len(self.types)]

    def given(self):
        texts = [IDENT, len(IDENT), self.text, len(self.text)]
        return [self.image, len(self.image), self.block_size, *texts, self.time, self.options(), self.types, len(self.types)]

    def into(self, out, list_):
        """In one go: the outcome."""
        return library().sitaungo_convert_with(*self.given(), *slices(words_of([WORK] * 4)), *lent(out), *slices([list_]))

    def size(self):
        answer = self.into(bytearray(), (U64 * LIST)())
        expect(answer.number == 20, answer)
        return answer.place

    def made(self):
        """In one go: outcome, file and the words of the list."""
        out, list_ = bytearray(self.size()), (U64 * LIST)()
        answer = self.into(out, list_)
        expect(answer.accepted, answer)
        return answer, bytes(out), list(list_[: 1 + 2 * list_[0]])

    def listing(self, out=1 << 40):
        lines = bytearray(200000)
        given = self.given()
        given.pop(7)  # no time
        length = library().sitaungo_list_with(*given, out, LIST, *slices(words_of([WORK] * 4)), *lent(lines))
        return lines[:length].decode()

    def begin(self, out, list_words, words):
        return library().sitaungo_begin(*self.given(), out, list_words, *slices(words))


def lengths_of(stretches=STRETCHES, offsets=OFFSETS):
    return [WORK] * 4 + [stretches, offsets]


class Live:
    """A conversion in steps that goes on: its state, words, file and list."""

    def __init__(self, call, file, lengths=None, list_words=LIST, begin_with=None):
        self.call, self.file, (self.list, *self.words) = call, file, words_of([list_words, *(lengths or lengths_of())])
        begun = call.begin(len(file) if begin_with is None else begin_with, list_words, self.words)
        expect(begun.outcome.accepted, begun.outcome)
        self.outcome, self.state = begun.outcome, begun.conversion.copy()

    def lent(self):
        return [*self.call.same(), *slices(self.words), *lent(self.file), *slices([self.list])]

    def step(self):
        self.state = library().sitaungo_step(self.state, *self.lent())

    def advance(self, stores):
        self.state = library().sitaungo_advance(self.state, stores, *self.lent())

    def name(self, name):
        return self.moved(library().sitaungo_name(self.state, name))

    def recall(self, name):
        return self.moved(library().sitaungo_recall(self.state, name))

    def moved(self, position):
        """The refusal's number; one changes nothing."""
        expect(position.number == 0 or position.conversion == self.state, "a refusal that changes something", position.number)
        self.state = position.conversion.copy()
        return position.number

    def left(self):
        return library().sitaungo_left(self.state)

    def zero(self):
        """Whether every word is zero."""
        return not any(any(bytes(a)) for a in self.words)


# ---- Stores.antt as a program


def pages(size):
    return (size + PAGE - 1) // PAGE


def steps_of(size):
    return pages(size) + 2


def store_of(f, k):
    """Place and bytes of store number k of the finished file f."""
    if k == 0:
        return 0, bytes(8)
    if k - 1 < pages(len(f)):
        at = max(8, PAGE * (k - 1))
        return at, f[at : PAGE * k]
    return 0, f[:8]


def stored(f, k, out):
    at, data = store_of(f, k)
    return out[:at] + data + out[at + len(data) :]


@dataclasses.dataclass
class Running:
    """After some calls: next store, names held with their positions, file, list, and the furthest position reached."""

    file: bytes
    list: list
    next: int = 0
    held: list = dataclasses.field(default_factory=list)
    high: int = 0


def naming(steps, n, r):
    """The refusal's number, or 0."""
    if steps <= r.next:
        return 30
    held = [(a, r.next if a == n else k) for a, k in r.held]
    held += [] if n in dict(held) else [(n, r.next)]
    if len(held) > 4:
        return 30
    r.held = held
    return 0


def recalling(steps, n, r):
    if steps <= r.next:
        return 30
    if n not in dict(r.held):
        return 29
    r.next = dict(r.held)[n]
    return 0


def stepping(f, words, r):
    steps = steps_of(len(f))
    if r.next < steps:
        r.file = stored(f, r.next, r.file)
        if r.next + 1 == steps:
            r.list = words + r.list[len(words) :]
        r.next += 1
        r.high = max(r.high, r.next)


def agrees(live, r):
    """File, list, position and names are the definition's."""
    expect(live.state.next == r.next and live.state.held() == r.held, "at", live.state.next, live.state.held(), "and not", r.next, r.held)
    expect(bytes(live.file) == r.file, "another file after", r.next, "stores")
    expect(list(live.list) == r.list, "another list after", r.next, "stores")


# ---- Passes.antt as a program


def bases_of(u, jobs):
    """The base of each job, a job being (cap, left)."""
    unfinished = sum(left > 0 for _, left in jobs)
    q = u // unfinished if unfinished else 0
    return [min(cap, left, q) for cap, left in jobs]


def shares_of(u, jobs):
    """The refusal's number and no shares, or 0 and each job's."""
    if not 1 <= len(jobs) <= 8:
        return 31, []
    if u == 0 or any(cap == 0 for cap, _ in jobs):
        return 32, []
    bases = bases_of(u, jobs)
    rest, shares = u - sum(bases), []
    for (cap, left), base in zip(jobs, bases):
        more = min(cap, left) - base
        shares.append(base + min(rest, more))
        rest = max(rest - more, 0)
    return 0, shares


# ---- recordings


class Writer(rows.Writer):
    def listed(self, kind, data, piece):
        """Data in blocks of at most so many bytes that a DL lists."""
        parts = [self.add(kind, [], data[at : at + piece]) for at in range(0, len(data), piece)]
        return self.add(b"DL", [0, *parts], struct.pack("<IIQ", 1, len(parts), piece))

    def named(self, following, shape, links=(), kind=0, name="c"):
        """A CN of shape (byte, bytes, invalidation bit or None) before the one at `following`; `links` has others by number."""
        byte, size, bit = shape
        found = [following, 0, self.text(name), 0, 0, 0, 0, 0]
        for k, to in links:
            found[k : k + 1] = [to]  # one past the eighth is appended
        count = max(len(found) - 8, 0)
        data = struct.pack("<BBBBIIIIBBH", kind, kind == 2, 10, 0, byte, 8 * size, 0 if bit is None else 2, bit or 0, 0, 0, count)
        return self.add(b"CN", found, data + bytes(48))

    def finish(self, dg, history=0, attachments=0, comment=0):
        self.image[64:168] = block(b"HD", [dg, history, 0, attachments, 0, comment], bytes(32))
        return bytes(self.image)


def long_blocks():
    """A cell of 9,000 bytes; a name, a conversion's links, signal data and an attachment that are each longer than a page; channels with photos."""
    w, r = Writer(Run.random), Run.random
    texts = [w.text("text %d" % k) for k in range(700)]
    conversion = w.add(b"CC", [0, 0, w.text("u" * 5000), 0, *texts], struct.pack("<BBHHHdd", 7, 0, 0, 700, 0, 0.0, 0.0))
    photo = r.randbytes(9000)
    at = w.add(b"AT", [0, w.text("photo"), 0, 0], struct.pack("<HH4x16sQQ", 1, 0, bytes(16), len(photo), len(photo)) + photo)
    signal = w.listed(b"SD", r.randbytes(20000), 6001)
    wide = w.named(0, (16, 9000, 3), [(4, conversion), (8, at), (9, 0), (10, at)], name="wide")
    texts_ = w.named(wide, (8, 8, None), [(5, signal)], kind=1, name="n" * 10000)
    cn = w.named(texts_, (0, 8, None), kind=2, name="time")
    records = 7
    cg = w.add(b"CG", [0, cn, w.text("group"), 0, 0, 0], struct.pack("<QQHHIII", 0, records, 0, 0, 0, 9016, 1))
    dl = w.listed(b"DT", r.randbytes(records * 9017), 10007)
    dg = w.add(b"DG", [0, cg, dl, 0], bytes(8))
    fh = w.add(b"FH", [0, w.text("<FHcomment>" + "x" * 4200 + "</FHcomment>", b"MD")], bytes(16))
    return w.finish(dg, fh, at, w.text("h" * 4097))


@dataclasses.dataclass
class Mixed:
    """A DG of groups with ids, each with a time of 4 bytes, a signal of so many bytes and an invalidation byte, in random order."""

    widths: tuple
    records: int
    regular: bool = False  # the groups in turn instead


def mixed(*parts):
    """A recording of such DG, their data in DT that split records."""
    w, r, dg = Writer(Run.random), Run.random, 0
    for part in reversed(parts):
        first, turns = 0, [k % len(part.widths) if part.regular else r.randrange(len(part.widths)) for k in range(part.records)]
        for k, width in reversed(list(enumerate(part.widths))):
            cn = w.named(0, (4, width, 0), name="s%d" % k)
            cn = w.named(cn, (0, 4, None), kind=2, name="t%d" % k)
            first = w.add(b"CG", [first, cn, 0, 0, 0, 0], struct.pack("<QQHHIII", k + 1, turns.count(k), 0, 0, 0, 4 + width, 1))
        data = b"".join(bytes([k + 1]) + r.randbytes(5 + part.widths[k]) for k in turns)
        dl = w.listed(b"DT", data, r.randint(len(data) // 9 + 1, len(data) // 2 + 1))
        dg = w.add(b"DG", [dg, first, dl, 0], b"\1" + bytes(7))
    return w.finish(dg)
