"""Calls of the library's sitaungo_take_out beside the model (taken.py), and what a reader by links finds of each new file (kept.py); tallies."""
import collections
import ctypes
import dataclasses
import functools
import os
import random
import struct

import column_files
import kept
import taken
from again import SIZES, UNITS, Choices, address_of, any_lent, convert
from common import BUILT
from recordings import any_recording
from steps import SLICE, U64, WORK, Same, numbers, slices

BAD_UNITS = (0, 1, 4, 7, 9, 12, 24, 8192, 2**32, 2**32 + 8, 2**63, 2**64 - 1)
BEFORE = 0xA5  # what stands in an output before a call


# ---- calls


class Taken(Same, ctypes.Structure):
    _fields_ = [("accepted", ctypes.c_bool), *numbers("number", "place", "bytes")]


@functools.lru_cache(maxsize=None)
def library():
    """The function, None where the library has none."""
    path = os.environ.get("SITAUNGO_LIBRARY") or os.path.join(BUILT, "libsitaungo.so")
    found = getattr(ctypes.CDLL(path), "sitaungo_take_out", None)
    if found is not None:
        found.restype, found.argtypes = Taken, [*SLICE, U64, *SLICE, *4 * SLICE, *SLICE]
    return found


class Wrong(Exception):
    pass


def require(good, *what):
    if not good:
        raise Wrong(" ".join(str(w) for w in what))


@dataclasses.dataclass
class Call:
    """A call; an output of `room` bytes, or None for just enough, with `behind` bytes more."""

    image: object
    unit: int = 8
    numbers: tuple = ()
    room: int = None
    behind: int = 0
    words: tuple = (WORK,) * 4
    length: int = None  # of the image, where that is an address

    def model(self):
        return taken.take_out(self.image, self.unit, list(self.numbers), self.room, self.words)

    def __str__(self):
        room = "" if self.room is None else ", an output of %d" % self.room
        return "unit %d, columns %s out%s, words %s" % (self.unit, list(self.numbers), room, self.words)


def words_before(lengths):
    return [(U64 * n).from_buffer_copy(struct.pack("<Q", 0x0123456789ABCDEF) * n) for n in lengths]


def called(call, out, out_length):
    """The library's answer; work slices are as they are due."""
    work, listed = words_before(call.words), (U64 * len(call.numbers))(*call.numbers)
    before = [bytes(a) for a in work]
    image, length = (call.image, len(call.image)) if call.length is None else (address_of(call.image), call.length)
    answer = library()(image, length, call.unit, listed, len(listed), *slices(work), out, out_length)
    require(list(listed) == list(call.numbers), "the list was changed")
    for a, old in zip(work, before):
        require(bytes(a) == (old if answer.number == 1 else bytes(len(old))), "work words after", answer)
    return answer


def due(answer):
    """The model's answer as the library's."""
    return Taken(answer.accepted, answer.number, answer.place, answer.size)


def compare(call, answer):
    """The library's answer and output beside the model's; the new file or None."""
    file = answer.file() if answer.accepted else None
    room = call.room if call.room is not None else answer.size + call.behind if answer.accepted else 64 + call.behind
    if library() is None:
        return file
    out = bytearray([BEFORE]) * (room + 64)
    got = called(call, address_of(out), room)
    require(got == due(answer), got, "and not", answer)
    front = file if answer.accepted else b""
    require(out[: len(front)] == front, "another file, from", first_difference(out, front))
    require(out[len(front) :] == bytes([BEFORE]) * (len(out) - len(front)), "bytes past the file, or of a refusal, were changed")
    return file


def first_difference(a, b):
    return next((k for k, (x, y) in enumerate(zip(a, b)) if x != y), min(len(a), len(b)))


# ---- lists


def columns_of(image):
    """Of each column of a file the number of its master, or None; none of a file that has no columns to take out."""
    try:
        image = taken.Image(image)
        found = taken.opened(image)
        taken.follow(image, found)
    except taken.Refused:
        return []
    return [c.master for c in found]


def closed(masters, out):
    """The numbers with those that name one of them, and so on: none that is left names one that is taken out."""
    out = set(out)
    while True:
        more = {k for k, m in enumerate(masters) if m in out} - out
        if not more:
            return out
        out |= more


def any_numbers(r, masters):
    n, what = len(masters), r.random()
    out = [k for k in range(n) if r.random() < r.choice((0.1, 0.3, 0.6))]
    if what < 0.8:
        out = list(closed(masters, out))
    elif what < 0.88:
        out = r.choice(([], list(range(n))))
    elif what > 0.94:
        out.append(r.choice((n, n, *out, 2**32, 2**64 - 1, r.getrandbits(64))))
    r.shuffle(out)
    return tuple(out)


def as_one(masters, first, second):
    """Two lists, the second about what the first leaves, as one."""
    left = [k for k in range(len(masters)) if k not in first]
    return tuple(first) + tuple(left[k] for k in second)


# ---- files


def any_origin(r):
    """A file and where it is from: the converter, this call, or neither."""
    what = r.random()
    if what < 0.45:
        image, _ = any_recording(r)
        outcome, file, _ = convert(image, Choices(r.choice(SIZES), r.choice(UNITS), r.random() < 0.7), any_lent(r), r.random() < 0.5)
        if outcome.accepted:
            return file, "the converter"
    if what < 0.65:
        file, _ = any_origin(r)
        masters = columns_of(file)
        answer = taken.take_out(file, r.choice(UNITS), list(closed(masters, [k for k in range(len(masters)) if r.random() < 0.3])))
        if answer.accepted:
            return answer.file(), "this call"
    return column_files.any_file(r), "neither"


def any_call(r, file):
    unit, what = r.choice((8, 8, *UNITS)) if r.random() < 0.97 else r.choice(BAD_UNITS), r.random()
    call = Call(file, unit, any_numbers(r, columns_of(file)), behind=r.choice((0, 0, r.randrange(300))))
    if what < 0.03:
        short = [WORK] * 4
        short[r.randrange(4)] = r.choice((0, 1, WORK - 1))
        call.words = tuple(short)
    elif what < 0.06:
        call.words = tuple(WORK + r.choice((0, 1, 1000)) for _ in range(4))
    elif what < 0.14:
        size = call.model().size
        call.room = r.choice((0, max(size - 1, 0), size, r.randrange(size + 1)))
    return call


# ---- what came out


class Tally:
    def __init__(self):
        self.counts, self.wrong = collections.Counter(), []

    def add(self, *words, n=1):
        self.counts[words] += n

    def answer(self, origin, call, answer):
        self.add("calls")
        self.add(origin, "accepted" if answer.accepted else "refused")
        self.add("refused", answer.number)
        if not answer.accepted:
            return
        self.add("by unit", call.unit)
        self.add("columns out", n=len(call.numbers))
        columns = answer.taken.kept
        for name, test in (
            ("all", lambda c: True), ("with blocks", lambda c: c.blocks), ("of several blocks", lambda c: len(c.blocks) > 1),
            ("with a master", lambda c: c.master is not None),
            ("with a later master or themselves", lambda c: c.master is not None and c.master >= answer.columns.index(c)),
            ("with signal data", lambda c: c.signal), ("with references", lambda c: c.references),
        ):
            self.add("columns", name, n=sum(bool(test(c)) for c in columns))
        self.add("copies", n=len(answer.taken.copies.places))
        self.add("attachments", n=len(answer.taken.attached))
        self.add("bytes", n=answer.size)

    def each(self, *front):
        found = sorted((words[-1], n) for words, n in self.counts.items() if words[:-1] == front and words[-1])
        return ", ".join("%s: %s" % (format(number, ","), format(n, ",")) for number, n in found) or "none"

    def table(self):
        c, origins = self.counts, ("the converter", "this call", "neither", "damaged")
        rows = [
            ("files", c["files",]), *(("of " + origin if origin != "damaged" else "damaged", c["from", origin]) for origin in origins),
            ("calls", c["calls",]), *(("accepted, " + o, c[o, "accepted"]) for o in origins), *(("refused, " + o, c[o, "refused"]) for o in origins),
            ("refused by number", self.each("refused")), ("accepted by unit", self.each("by unit")), ("columns taken out", c["columns out",]),
            *(("columns kept" if words[1] == "all" else "of these " + words[1], n) for words, n in c.items() if words[0] == "columns"),
            ("copied blocks", c["copies",]), ("attachments", c["attachments",]), ("bytes of new files", c["bytes",]),
            ("new files with nothing out and the unit kept, of the converter: the same bytes", c["again", "same"]),
            ("the same length, with other kinds than FH in the history", c["again", "same length"]),
            ("at unit 8 of the converter's and this call's: shorter", c["unit 8", "shorter"]), ("as long", c["unit 8", "as long"]),
            ("twice in a row: the file of both lists in one call", c["twice", "same"]), ("twice in a row: refused", self.each("twice", "refused")),
            ("against the request", len(self.wrong)),
        ]
        head = "Taking columns out" if library() else "Taking columns out: the model alone, without the library"
        return ["| %s | |" % head, "|---|---:|", *("| %s | %s |" % (name, n if isinstance(n, str) else format(n, ",")) for name, n in rows)]


def check(origin, call, tally):
    """One call: library and model, the reader, the size; the answer and the new file."""
    answer = call.model()
    file = compare(call, answer)
    tally.answer(origin, call, answer)
    if file is None:
        return answer, None
    differs = kept.difference(call.image, file, call.numbers, call.unit)
    require(differs is None, differs)
    if call.unit == 8 and origin in ("the converter", "this call"):
        require(len(file) <= len(call.image), "longer than before:", len(file))
        tally.add("unit 8", "shorter" if len(file) < len(call.image) else "as long")
    return answer, file


def check_twice(r, call, file, tally):
    """More of what is left, and both lists at once."""
    masters = columns_of(file)
    second = Call(file, call.unit, tuple(closed(masters, [k for k in range(len(masters)) if r.random() < 0.3])))
    answer, again = check("this call", second, tally)
    if again is None:
        tally.add("twice", "refused", answer.number)
        return
    both = Call(call.image, call.unit, as_one(columns_of(call.image), call.numbers, second.numbers))
    together = both.model()
    once = compare(both, together)
    require(once == again, "twice in a row is not once with both lists", both, together)
    tally.add("twice", "same")


def check_again(origin, file, unit, tally):
    """Nothing out of the converter's, at its own unit."""
    call = Call(file, unit)
    answer = call.model()
    if not answer.accepted:
        return
    made = compare(call, answer)
    odd = any(taken.Image(file).kind(at) != b"##FH" for at in answer.taken.copies.history)
    require(made == file or odd and len(made) == len(file), "nothing out is not the file")
    tally.add("again", "same" if made == file else "same length")


def one(seed, number, tally):
    """File `number` of a seed, with calls of its own: the file."""
    r = random.Random("thin %d %d" % (seed, number))
    file, origin = any_origin(r)
    if r.random() < 0.3:
        file, origin = column_files.damaged(r, file), "damaged"
    tally.add("files")
    tally.add("from", origin)
    call = None
    try:
        for _ in range(2):
            call = any_call(r, file)
            _, new = check(origin, call, tally)
            if new is not None and r.random() < 0.5:
                check_twice(r, call, new, tally)
        if origin == "the converter":
            check_again(origin, file, unit_of(file), tally)
    except Wrong as why:
        tally.wrong.append("file %d of seed %d, %s (%s): %s" % (number, seed, origin, call, why))
    return file


def unit_of(file):
    """A unit that the converter's file may have been made with: the largest on which every column's first block and SD starts."""
    image = taken.Image(file)
    columns = taken.opened(image)
    taken.follow(image, columns)
    starts = [c.blocks[0][1] - 24 for c in columns if c.blocks] + [c.signal for c in columns if c.signal]
    return max(u for u in UNITS if all(at % u == 0 for at in starts)) if starts else 8
