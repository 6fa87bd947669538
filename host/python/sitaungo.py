"""Column files for analysis desks: columns by name or number, their records, with numpy their values.

    import sitaungo
    with sitaungo.ColumnFile("result.mf4") as file:
        speed = file.column("speed")
        time, values = speed.time(), speed.values(physical=True)

A layer over libsitaungo.so (host/build). Whether a file is a column file, and what a range of records holds, is answered by the proved reader alone,
see include/sitaungo.h; this module follows links to names, units and types, and decodes records. `convert` runs the command mdf-columns; `Steps` is a
conversion in steps, `share` what each of several gets of a pass. `take_out` writes a column file without some of its columns.

Python 3.9 or later on x86-64 Linux. Only `values` and `time` need numpy.
"""
import contextlib
import ctypes
import errno
import json
import mmap
import operator
import os
import re
import shutil
import stat
import struct
import subprocess
import tempfile
import time as clock
import typing
import weakref

__all__ = [
    "CONVERSIONS", "Changed", "Column", "ColumnFile", "CommandFailed", "DATA_TYPES", "Description", "Error", "NameMissing", "NameRepeated", "NotApplied",
    "Refused", "Steps", "Undecoded", "convert", "share", "sheet", "take_out",
]

# What the refusals say, by number: of reading, of positions of a conversion in steps, of passes.
WORDS = {
    4: "the file ends too early: a block, a name or data runs past its end",
    5: 'this is not an MDF file: it does not begin with "MDF" and five blanks',
    6: "the MDF version can't be read",
    7: "the MDF version is not supported: 4.10 is the lowest",
    8: "a block is damaged: its links don't fit into its length",
    9: "a block is longer than 256 MiB (268435456 bytes)",
    10: "a link leads to a block that is not the HD, DG, CG or CN it should be, or that lacks links or data",
    11: "a chain of blocks comes back to a block it has passed",
    12: "a data chain holds a block of another kind; compressed data (DZ) is not supported",
    13: "a data group's record ids have a size other than 0, 1, 2, 4 or 8 bytes",
    19: "the file passes a limit: 512 data groups, groups or channels, 256 lists in a chain",
    22: "the file has no such column",
    23: "the column has fewer records",
    24: "the file lacks the form of a column file",
    25: "an entry leaves the destination, or the table has over 256 entries",
    29: "a position is recalled that was never named",
    30: "a fifth name is given to a position, or one is named or recalled after the last store",
    31: "a pass has no job, or over eight",
    32: "a pass has no store to give, or a job's cap is 0",
}

# Those of a conversion, where they say more or something else.
CONVERTING = {
    1: "the converter was called wrongly: work words, identification or history text",
    2: "the block size is 0",
    3: "the recording is larger than 4 GiB (4294967296 bytes)",
    4: "the recording ends too early: a block, a name, an attachment or data runs past its end",
    5: 'this is not an MDF recording: it does not begin with "MDF" and five blanks',
    14: "a data group's records can't be told apart: equal or missing record ids, or DV blocks where only DT can be",
    15: "a record ends early, runs from a DT into a DV block, or has an unknown id",
    16: "comments, units or conversions link to each other in a circle or over 64 deep",
    17: "a block of the file history has no links",
    18: "an attachment is damaged: it has under 4 links, or more than fit",
    19: "the recording passes a limit: 512 data groups, groups or channels, 1024 data blocks, 256 lists in a chain, 2048 copied blocks, 64 attachments, "
    "or blocks of a column",
    20: "the file is too short for the result",
    21: "the omission list is too short",
    26: "the unit is no power of two from 8 to 4096",
    27: "the table of treatments has a wrong count or length, a type over 6 or twice, a treatment over 2, or one that its type can't have",
    28: "a channel's reference to an attachment leads to none of the recording's attachments, or the channel has fewer links than it has references",
}

# Those of taking columns out.
TAKING = {
    1: "the library was called wrongly: work words",
    3: "the file is larger than 128 TiB",
    4: "the file ends too early: a block, a name, an attachment or data runs past its end",
    16: CONVERTING[16],
    17: CONVERTING[17],
    18: CONVERTING[18],
    19: "the file passes a limit: 512 data groups, groups or channels, 256 lists in a chain, 2050 copied blocks, 64 attachments",
    20: "the new file would be larger than 2^59 bytes",
    24: "the file lacks the form of a column file, signal data is no SD block, or a time column is none of the file's",
    26: CONVERTING[26],
    28: "a channel's reference to an attachment leads to none of the file's attachments, or the channel has fewer links than it has references",
    33: "a column that is to be taken out is given twice, or there is no such column",
    34: "a column is to be taken out that is the time column of one that is kept",
}

# ASAM MDF 4.2: data types of a channel, kinds of a conversion, by number.
DATA_TYPES = (
    "unsigned, little-endian", "unsigned, big-endian", "signed, little-endian", "signed, big-endian", "float, little-endian", "float, big-endian",
    "string, Latin-1", "string, UTF-8", "string, UTF-16 little-endian", "string, UTF-16 big-endian", "bytes", "MIME sample", "MIME stream",
    "CANopen date", "CANopen time", "complex, little-endian", "complex, big-endian",
)
CONVERSIONS = (
    "identity", "linear", "rational", "algebraic", "table with interpolation", "table", "table of ranges", "texts", "texts of ranges",
    "numbers of texts", "texts of texts", "texts of bits",
)


# ---- errors


class Error(Exception):
    """What this module raises, but for wrong arguments and files that can't be opened."""


class Refused(Error):
    """A refusal of the library or the command: `number`, `place` (an offset in the file, or 0) and `words`; of read_many also `position`, the entry's
    number from 0. Of Steps and share `path` is None."""

    def __init__(self, path, number, place, words, position=None):
        super().__init__(path, number, place, words, position)
        self.path, self.number, self.place, self.words, self.position = path, number, place, words, position

    def __str__(self):
        file = "" if self.path is None else _shown(self.path) + ": "
        entry = "" if self.position is None else "entry %d: " % self.position
        return "%s%srefused %d place %d: %s" % (file, entry, self.number, self.place, self.words)


class Changed(Error):
    """The file was written to or cut off since it was opened, or its disk failed: what was read from it may be wrong."""


class NameMissing(Error):
    """No column has this name."""


class NameRepeated(Error):
    """Several columns have this name: their `numbers`."""

    def __init__(self, message, numbers):
        super().__init__(message, numbers)
        self.numbers = numbers

    def __str__(self):
        return self.args[0]


class Undecoded(Error):
    """Values that can't be decoded; `records` has their bytes."""


class NotApplied(Undecoded):
    """A conversion that isn't applied: its `conversion` by name."""

    def __init__(self, message, conversion):
        super().__init__(message, conversion)
        self.conversion = conversion

    def __str__(self):
        return self.args[0]


class CommandFailed(Error):
    """The command mdf-columns failed: its `status` (README), what it `said`, and its `report`, if it wrote one."""

    def __init__(self, status, said, report):
        super().__init__(status, said, report)
        self.status, self.said, self.report = status, said, report

    def __str__(self):
        return "mdf-columns ended with status %d: %s" % (self.status, self.said.strip())


def _shown(path):
    return os.fsdecode(path).encode("utf-8", "replace").decode()


# ---- the library


class _Read(ctypes.Structure):
    _fields_ = [("accepted", ctypes.c_bool), ("number", ctypes.c_uint64), ("place", ctypes.c_uint64)]


class _Part(ctypes.Structure):
    _fields_ = [
        ("accepted", ctypes.c_bool), ("split", ctypes.c_bool), ("number", ctypes.c_uint64), ("place", ctypes.c_uint64),
        ("offset", ctypes.c_uint64), ("length", ctypes.c_uint64),
    ]


class _Request(ctypes.Structure):
    _fields_ = [("column", ctypes.c_uint64), ("first", ctypes.c_uint64), ("count", ctypes.c_uint64), ("place", ctypes.c_uint64)]


class _Plotting(ctypes.Structure):
    _fields_ = [("accepted", ctypes.c_bool), ("number", ctypes.c_uint64), ("place", ctypes.c_uint64), ("position", ctypes.c_uint64)]


def _numbers(*names):
    return [(name, ctypes.c_uint64) for name in names]


class _Options(ctypes.Structure):
    _fields_ = [("unit", ctypes.c_uint64), ("share", ctypes.c_bool), ("photos", ctypes.c_bool)]


_COUNTS = ("source_groups", "time_groups", "signal_groups", "shared_time_groups", "data_blocks", "metadata_size", "file_size")


class _Outcome(ctypes.Structure):
    _fields_ = [("accepted", ctypes.c_bool), *_numbers("number", "place", *_COUNTS)]


class _State(ctypes.Structure):
    """What a conversion in steps holds between two calls."""

    _fields_ = [
        *_numbers("block_size", "time", "unit"), ("share", ctypes.c_bool), ("photos", ctypes.c_bool),
        *_numbers("items", "pieces", "columns", "omissions"),
        *_numbers("history", "chain", "md", "fh", "metadata", "copies", "attachments", "metadata_end", "file_size"),
        *_numbers("steps", "next", "count", "name_a", "name_b", "name_c", "name_d", "place_a", "place_b", "place_c", "place_d"),
    ]


class _Begun(ctypes.Structure):
    _fields_ = [("outcome", _Outcome), ("conversion", _State)]


class _Position(ctypes.Structure):
    _fields_ = [("number", ctypes.c_uint64), ("conversion", _State)]


class _Taken(ctypes.Structure):
    _fields_ = [("accepted", ctypes.c_bool), *_numbers("number", "place", "bytes")]


_JOBS = 8  # of a pass


class _Eight(ctypes.Structure):
    _fields_ = _numbers(*"abcdefgh")


class _Shares(ctypes.Structure):
    _fields_ = [("number", ctypes.c_uint64), ("shares", _Eight)]


_TABLE = 256  # entries of one plot
_SHEET = 42201  # bytes that are enough for every sheet
_HERE = os.path.dirname(os.path.abspath(__file__))
_SLICE = [ctypes.c_void_p, ctypes.c_size_t]
_RANGE = [ctypes.c_uint64] * 3
_WORK, _LIST, _STRETCHES, _OFFSETS = 8192, 2049, 4096, 2056  # words of the slices that a conversion in steps is lent; of the last one more a record
_FIXED = 3 * _SLICE + 6 * _SLICE + 2 * _SLICE  # of a step: identification, text and table, words, file and list


def _load():
    """$SITAUNGO_LIBRARY; beside this file, as installed; where host/build puts it."""
    places = [os.path.join(_HERE, "libsitaungo.so"), os.path.join(_HERE, "..", "..", "target", "host", "libsitaungo.so")]
    chosen = os.environ.get("SITAUNGO_LIBRARY") or next(filter(os.path.exists, places), None)
    if chosen is None:
        raise ImportError("there is no libsitaungo.so in %s: run host/build, or set SITAUNGO_LIBRARY" % _HERE)
    library = ctypes.CDLL(os.path.abspath(chosen))
    for name, answer, words in (
        ("sitaungo_read_range", _Read, _SLICE + _RANGE + _SLICE),
        ("sitaungo_range_part", _Part, _SLICE + _RANGE),
        ("sitaungo_plot", _Plotting, _SLICE + _SLICE + _SLICE),
        ("sitaungo_sheet", ctypes.c_size_t, _SLICE + _SLICE),
        ("sitaungo_begin", _Begun, [*_SLICE, ctypes.c_uint64, *_SLICE, *_SLICE, ctypes.c_uint64, _Options, *_SLICE, *_RANGE[:2]] + 6 * _SLICE),
        ("sitaungo_advance", _State, [_State, ctypes.c_uint64, *_SLICE, *_FIXED]),
        ("sitaungo_name", _Position, [_State, ctypes.c_uint64]),
        ("sitaungo_recall", _Position, [_State, ctypes.c_uint64]),
        ("sitaungo_left", ctypes.c_uint64, [_State]),
        ("sitaungo_share", _Shares, [ctypes.c_uint64, ctypes.c_uint64, _Eight, _Eight]),
        ("sitaungo_take_out", _Taken, [*_SLICE, ctypes.c_uint64, *_SLICE] + 4 * _SLICE + _SLICE),
        ("mapped_watch", ctypes.c_int, _SLICE),
        ("mapped_lost", ctypes.c_bool, [ctypes.c_int]),
        ("mapped_hold", ctypes.c_bool, [ctypes.c_void_p, ctypes.c_char_p, ctypes.c_size_t]),
        ("mapped_forget", None, [ctypes.c_int]),
    ):
        function = getattr(library, name, None)
        if function is None:
            raise ImportError("%s lacks %s: it is of another version than this module" % (chosen, name))
        function.restype, function.argtypes = answer, words
    return library


_library = _load()


class _Buffer(ctypes.Structure):
    """CPython's Py_buffer, by which a mapping tells its address."""

    _fields_ = [
        ("buf", ctypes.c_void_p), ("obj", ctypes.py_object), ("len", ctypes.c_ssize_t), ("itemsize", ctypes.c_ssize_t), ("readonly", ctypes.c_int),
        ("ndim", ctypes.c_int), ("format", ctypes.c_void_p), ("shape", ctypes.c_void_p), ("strides", ctypes.c_void_p),
        ("suboffsets", ctypes.c_void_p), ("internal", ctypes.c_void_p),
    ]


@contextlib.contextmanager
def _held(buffer, writable=False):
    """Address and length of a buffer, which stays where it is meanwhile."""
    view = _Buffer()
    ctypes.pythonapi.PyObject_GetBuffer(ctypes.py_object(buffer), ctypes.byref(view), int(writable))
    try:
        yield view.buf, view.len
    finally:
        ctypes.pythonapi.PyBuffer_Release(ctypes.byref(view))


class _Mapping(mmap.mmap):
    """A file's bytes. While they are mapped, a fault in them doesn't end the interpreter (mapped.c)."""

    watched = -1

    def watch(self):
        with _held(self) as (address, _):
            pass
        self.watched = _library.mapped_watch(address, len(self))
        if self.watched < 0:
            raise OSError(errno.EMFILE, "too many mapped files")
        return address

    def lost(self):
        return _library.mapped_lost(self.watched)

    def __del__(self, forget=_library.mapped_forget):
        if self.watched >= 0:
            forget(self.watched)


def _slice(buffer):
    return (ctypes.c_char * len(buffer)).from_buffer(buffer) if len(buffer) else None, len(buffer)


_HELD = 16384  # bytes that are held at a time, whole pages
_COPIED = (b"TX", b"MD", b"CC", b"SI", b"FH")  # kinds of metadata
_FOLLOWED = {b"HD": [0], b"DG": [0, 1, 2], b"CG": [0, 1, 2], b"CN": [0, 2], b"DL": [0], b"HL": [0, 1], b"TX": [], b"MD": []}  # kinds, and their links


class _Image:
    """A mapped file, and calls of the library over it. The mapping goes with its last view."""

    def __init__(self, path):
        self.path = path
        self.descriptor = os.open(path, os.O_RDONLY | os.O_CLOEXEC | os.O_NONBLOCK)
        weakref.finalize(self, os.close, self.descriptor)
        self.found = os.fstat(self.descriptor)
        if not stat.S_ISREG(self.found.st_mode):
            raise OSError(errno.EINVAL, "this is no regular file", path)
        self.length, self.address, self.mapping, self.view = self.found.st_size, None, None, memoryview(b"")
        if self.length:
            self.map()

    def map(self):
        try:
            self.mapping = _Mapping(self.descriptor, self.length, access=mmap.ACCESS_READ)
        except ValueError:  # it is shorter by now
            raise self.changed() from None
        self.address, self.view = self.mapping.watch(), memoryview(self.mapping)
        self.held = set()
        self.hold_blocks()

    def hold(self, at, length):
        """What stands there now stays, whoever writes to the file."""
        for k in range(at // _HELD, (min(at + length, self.length) + _HELD - 1) // _HELD):
            if k not in self.held:
                size = min(_HELD, (self.length + 4095) // 4096 * 4096 - k * _HELD)
                copy = os.pread(self.descriptor, size, k * _HELD).ljust(size, b"\0")
                if not _library.mapped_hold(self.address + k * _HELD, copy, size):
                    raise MemoryError("no memory for the blocks of %s" % _shown(self.path))
                self.held.add(k)

    def hold_blocks(self):
        """Holds the blocks by which the library goes on: it counts on bytes that stay. Sample bytes don't lead it anywhere."""
        self.hold(0, 64)
        ahead, seen = [64], {0}
        while ahead:
            at = ahead.pop()
            if at in seen or len(seen) > 1 << 18:  # more blocks than the library takes
                continue
            seen.add(at)
            self.hold(at, 24)
            block = _block(self.view, at, *_FOLLOWED)
            if block:
                self.hold(at, min(block.end, block.front + 128) - at)
                ahead += map(block.link, _FOLLOWED[block.kind])

    def hold_all(self):
        """Holds all that leads the library anywhere when columns are taken out: metadata, links of attachments and lists, headers of data blocks."""
        ahead, seen = [64], {0}
        while ahead:
            at = ahead.pop()
            if at in seen:
                continue
            seen.add(at)
            self.hold(at, 24)
            block = _block(self.view, at, *_FOLLOWED, *_COPIED, b"AT")
            if block is None:
                continue
            self.hold(at, (block.end if block.kind in _COPIED else block.front + 128) - at)
            links = struct.unpack_from("<%dQ" % block.links, self.view, at + 24)
            if block.kind == b"DL":
                for k in {byte // _HELD for to in links[1:] for byte in (to, to + 23)}:
                    self.hold(k * _HELD, _HELD)
            ahead += links[:1] if block.kind == b"DL" else links

    def changed(self):
        return Changed("%s was written to or cut off since it was opened, or its disk failed" % _shown(self.path))

    def check(self):
        now = os.fstat(self.descriptor)
        if (now.st_size, now.st_mtime_ns) != (self.found.st_size, self.found.st_mtime_ns) or (self.mapping and self.mapping.lost()):
            raise self.changed()

    def call(self, function, *words):
        """An answer of the library over a file that stayed the same."""
        self.check()
        answer = function(self.address, self.length, *words)
        self.check()
        return answer

    def refused(self, answer, position=None):
        return Refused(self.path, answer.number, answer.place, WORDS.get(answer.number, "unknown refusal"), position)

    def part(self, column, first, count):
        """Records as a part of the file's own bytes, None where they are split."""
        at = self.call(_library.sitaungo_range_part, column, first, count)
        if not at.accepted:
            raise self.refused(at)
        if at.split:
            return None
        found = self.view[at.offset : at.offset + at.length]
        if len(found) != at.length:
            raise self.changed()
        return found

    def read(self, column, first, count, buffer):
        """Records into a buffer that has just their length."""
        answer = self.call(_library.sitaungo_read_range, column, first, count, *_slice(buffer))
        if not answer.accepted:
            raise self.refused(answer)

    def plot(self, table, buffer, position):
        """The entries of a table (column, first, count, place) into a buffer; they stand from `position` on."""
        answer = self.call(_library.sitaungo_plot, (_Request * len(table))(*table), len(table), *_slice(buffer))
        if not answer.accepted:
            raise self.refused(answer, position + answer.position)

    def sheet(self):
        """The inventory sheet; a refusal is one line in its place."""
        lines = bytearray(_SHEET)
        length = self.call(_library.sitaungo_sheet, *_slice(lines))
        text = lines[:length].decode("ascii")
        if text.startswith("refused "):
            _, number, _, place = text.split()
            raise self.refused(_Read(False, int(number), int(place)))
        return text

    def has_columns(self, count):
        """Whether they are so many; where the file itself is refused, that is raised."""
        past = self.call(_library.sitaungo_range_part, count, 0, 0)
        if not past.accepted and past.number != 22:
            raise self.refused(past)
        return not past.accepted and (count == 0 or self.call(_library.sitaungo_range_part, count - 1, 0, 0).accepted)


# ---- blocks by links: whatever the bytes are, none outside the file is read


class _Block:
    """A block that lies whole in the file. A link that it lacks is 0, and so are bytes past its end."""

    def __init__(self, view, at, kind, length, links):
        self.view, self.at, self.kind, self.links = view, at, kind, links
        self.front, self.end = at + 24 + 8 * links, at + length

    def link(self, number):
        return struct.unpack_from("<Q", self.view, self.at + 24 + 8 * number)[0] if number < self.links else 0

    def fields(self, form, byte=0):
        size = struct.calcsize(form)
        return struct.unpack(form, bytes(self.view[self.front + byte : min(self.front + byte + size, self.end)]).ljust(size, b"\0"))

    def body(self):
        return self.view[self.front : self.end]


def _block(view, at, *kinds):
    """The block of one of these kinds at an offset, None where there is none."""
    if at == 0 or at + 24 > len(view):
        return None
    mark, kind, length, links = struct.unpack_from("<2s2s4xQQ", view, at)
    if mark != b"##" or kind not in kinds or not 24 <= length <= len(view) - at or links > (length - 24) // 8:
        return None
    return _Block(view, at, kind, length, links)


def _text(view, at):
    """The text of the TX or MD at an offset, None where there is none. An MD's is XML."""
    block = _block(view, at, b"TX", b"MD")
    return bytes(block.body()).split(b"\0", 1)[0].decode("utf-8", "replace") if block else None


def _plain(text):
    """What XML has in its TX; other texts as they are."""
    found = re.search(r"<TX(?:\s[^>]*)?>(.*?)</TX>", text, re.DOTALL) if text and text.startswith("<") else None
    if not found:
        return text
    text = found[1]
    for entity, letter in (("&lt;", "<"), ("&gt;", ">"), ("&quot;", '"'), ("&apos;", "'"), ("&amp;", "&")):
        text = text.replace(entity, letter)
    return text


def _signal_data(view, at):
    """The signal data at an offset: of one SD, or of those that lists have, joined. None where there is none, or another kind among it."""
    block, parts, seen = _block(view, at, b"SD", b"DL", b"HL"), [], set()
    if block and block.kind == b"HL":
        block = _block(view, block.link(0), b"DL")
    if block and block.kind == b"SD":
        return block.body()
    while block and block.at not in seen:
        seen.add(block.at)
        found = [_block(view, link, b"SD") for link in map(block.link, range(1, block.links)) if link]
        parts += (None if part is None else part.body() for part in found)
        following = block.link(0)
        if None in parts or sum(map(len, parts)) > len(view):
            return None
        if following == 0:
            return b"".join(parts)
        block = _block(view, following, b"DL")
    return None


# ---- columns


class Description(typing.NamedTuple):
    """What a file says of a column."""

    number: int
    name: typing.Optional[str]
    unit: typing.Optional[str]  # of its physical values
    comment: typing.Optional[str]  # XML, where the file has that
    kind: str  # "time" or "signal"
    records: int
    data_bytes: int  # of a record
    invalidation_bytes: int
    data_type: int  # see DATA_TYPES
    bit_count: int
    master: typing.Optional[int]  # the number of its time column
    group: typing.Optional[str]
    conversion: typing.Optional[str]  # one of CONVERSIONS, or "unknown"
    channel_type: int
    byte_offset: int  # of its value in a record
    bit_offset: int
    channel_at: int  # offset of its CN


def _conversion(view, channel):
    """The CC of a channel, None without one, and its name."""
    at = channel.link(4)
    block = _block(view, at, b"CC")
    kind = block.fields("<B")[0] if block else len(CONVERSIONS)
    return block, None if at == 0 else CONVERSIONS[kind] if kind < len(CONVERSIONS) else "unknown"


def _described(view, number, group, channel, masters):
    conversion, named = _conversion(view, channel)
    kind, _, data_type, bit_offset, byte_offset, bit_count = channel.fields("<BBBBII")
    _, records, flags, _, _, data_bytes, invalidation_bytes = group.fields("<QQHHIII")
    unit = _text(view, channel.link(6)) or (conversion and _text(view, conversion.link(1)))
    return Description(
        number, _text(view, channel.link(2)), _plain(unit), _text(view, channel.link(7)), "time" if kind in (2, 3) else "signal", records, data_bytes,
        invalidation_bytes, data_type, bit_count, masters.get(group.link(6)) if flags & 8 else None, _text(view, group.link(2)), named, kind,
        byte_offset, bit_offset, channel.at,
    )


def _describe(view):
    """The columns of a file that the library takes: DG by DG the one CG and its one CN."""
    header, found = _block(view, 64, b"HD"), []
    at = header.link(0) if header else 0
    while at and len(found) <= 512:
        data_group = _block(view, at, b"DG")
        group = data_group and _block(view, data_group.link(1), b"CG")
        channel = group and _block(view, group.link(1), b"CN")
        if not channel:
            return None
        found.append((group, channel))
        at = data_group.link(0)
    masters = {group.at: number for number, (group, _) in reversed(list(enumerate(found)))}
    return tuple(_described(view, number, *blocks, masters) for number, blocks in enumerate(found))


def _u64(value, what):
    value = operator.index(value)
    if not 0 <= value < 1 << 64:
        raise ValueError("%s is a number from 0 to 2^64 - 1, not %d" % (what, value))
    return value


def _room(length):
    """Bytes to be written; where they are many, ones that aren't cleared first."""
    return mmap.mmap(-1, length, flags=mmap.MAP_PRIVATE | mmap.MAP_ANONYMOUS) if length > 1 << 20 else bytearray(length)


class ColumnFile:
    """A column file, mapped. `columns` has a Description of each column.

    A file that lacks the form is Refused. Views and arrays that were handed out stay good after `close`. A file that is renamed or replaced by another
    of its name stays the one that was opened; one that is written to or cut off is Changed from the next call on, and bytes past a new end are 0.
    """

    def __init__(self, path):
        self.path = os.fspath(path)
        self._open = _Image(self.path)
        try:
            self._open_columns()
        except BaseException:
            self.close()
            raise

    def _open_columns(self):
        self._open.has_columns(0)
        self.columns = _describe(self._open.view)
        if self.columns is None or not self._open.has_columns(len(self.columns)):
            raise self._open.changed()
        self._numbers = {}
        for column in self.columns:
            self._numbers.setdefault(column.name, []).append(column.number)

    def close(self):
        self._open = None

    def __enter__(self):
        return self

    def __exit__(self, *_):
        self.close()

    def __repr__(self):
        return "<ColumnFile %r%s>" % (self.path, "" if self._open else ", closed")

    @property
    def _image(self):
        if self._open is None:
            raise ValueError("%s is closed" % _shown(self.path))
        return self._open

    def numbers(self, name):
        """Numbers of the columns that have this name, in order."""
        return tuple(self._numbers.get(name, ()))

    def column(self, key):
        """The column of a name, or of a number."""
        return Column(self, self._number(key))

    def _number(self, key):
        if isinstance(key, Column):
            key = key.number
        if not isinstance(key, str):
            number = _u64(key, "a column")
            if number >= len(self.columns):
                self._image.part(number, 0, 0)  # refused with 22
            return number
        numbers = self.numbers(key)
        if not numbers:
            raise NameMissing("%s has no column %r" % (_shown(self.path), key))
        if len(numbers) > 1:
            raise NameRepeated("%s has %d columns %r: numbers %s" % (_shown(self.path), len(numbers), key, ", ".join(map(str, numbers))), numbers)
        return numbers[0]

    def _bytes(self, number, first, count):
        """Bytes of a range of records; 0 where the library refuses it, and no room is needed."""
        if number >= len(self.columns) or first + count > self.columns[number].records:
            return 0
        return count * (self.columns[number].data_bytes + self.columns[number].invalidation_bytes)

    def read_many(self, requests):
        """Ranges of records in one call: of each (column, first, count) the records' bytes, all in one buffer. A column is a name, a number or a Column.

        The first range that can't be read is Refused, with its position."""
        table, place = [], 0
        for column, first, count in requests:
            number = self._number(column) if isinstance(column, (str, Column)) else _u64(column, "a column")
            first, count = _u64(first, "first"), _u64(count, "count")
            table.append((number, first, count, place))
            place += self._bytes(number, first, count)
        buffer = _room(place)
        for k in range(0, len(table), _TABLE):
            self._image.plot(table[k : k + _TABLE], buffer, k)
        ends = [entry[3] for entry in table[1:]] + [place]
        return [memoryview(buffer)[entry[3] : end] for entry, end in zip(table, ends)]


class Column:
    """A column of a file; what the file says of it is `about`."""

    def __init__(self, file, number):
        self.file, self.number, self.about = file, number, file.columns[number]

    def __repr__(self):
        return "<Column %d %r of %r>" % (self.number, self.about.name, self.file.path)

    def __len__(self):
        return self.about.records

    @property
    def name(self):
        return self.about.name

    @property
    def unit(self):
        return self.about.unit

    @property
    def master(self):
        """Its time column, None where it has none."""
        return None if self.about.master is None else self.file.column(self.about.master)

    def _range(self, first, count):
        first = _u64(first, "first")
        return first, max(self.about.records - first, 0) if count is None else _u64(count, "count")

    def part(self, first=0, count=None):
        """Records as a view of the file's own bytes; None where they lie in several blocks. Without count, all from first on."""
        return self.file._image.part(self.number, *self._range(first, count))

    def records(self, first=0, count=None):
        """Records as bytes: of each its data bytes, then its invalidation bytes."""
        first, count = self._range(first, count)
        found = self.file._image.part(self.number, first, count)
        return bytes(self._copied(first, count, bytearray) if found is None else found)

    def _copied(self, first, count, make):
        buffer = make(self.file._bytes(self.number, first, count))
        self.file._image.read(self.number, first, count, buffer)
        return buffer

    # ---- values

    def values(self, first=0, count=None, physical=False):
        """Values as a numpy array; a masked one where the column has invalidation bits. With `physical` its conversion is applied.

        Integers and floats have the type of the file where that is whole bytes, of either byte order, and are a view of the file's own bytes where these
        lie in one block; other integers have the smallest type that holds them. Strings, byte arrays and values of variable length are bytes, as they
        stand in the file."""
        import numpy

        first, count = self._range(first, count)
        rows = self._rows(numpy, first, count)
        invalid = self._invalid(numpy, rows)
        values = self._decoded(numpy, rows, first, invalid)
        if physical:
            values = self._converted(numpy, values)
        return values if invalid is None else numpy.ma.array(values, mask=invalid, copy=False)

    def time(self, first=0, count=None, physical=True):
        """Values of its time column, its own if it is one, by their conversion; None where it has none."""
        column = self if self.about.kind == "time" else self.master
        return None if column is None else column.values(*self._range(first, count), physical=physical)

    def _undecoded(self, words):
        return Undecoded("column %d %r of %s: %s" % (self.number, self.about.name, _shown(self.file.path), words))

    def _rows(self, numpy, first, count):
        """The records' bytes, a row for each."""
        found = self.file._image.part(self.number, first, count)
        if found is None:
            found = self._copied(first, count, lambda length: numpy.empty(length, numpy.uint8))
        width = self.about.data_bytes + self.about.invalidation_bytes
        if count * max(width, 1) > 1 << 62:
            raise MemoryError("%d records" % count)
        return numpy.frombuffer(found, numpy.uint8).reshape(count, width) if len(found) else numpy.empty((count, width), numpy.uint8)

    def _channel(self):
        block = _block(self.file._image.view, self.about.channel_at, b"CN")
        if block is None:
            raise self.file._image.changed()
        return block

    def _invalid(self, numpy, rows):
        """Which records are invalid: flag bit 0 all, bit 1 those with their invalidation bit set. None where none can be."""
        flags, bit = self._channel().fields("<II", 12)
        if flags & 1:
            return numpy.ones(len(rows), bool)
        if not flags & 2 or bit // 8 >= self.about.invalidation_bytes:
            return None
        return rows[:, self.about.data_bytes + bit // 8] >> bit % 8 & 1 == 1

    def _decoded(self, numpy, rows, first, invalid):
        about = self.about
        if about.channel_type in (3, 6):  # virtual: the record's number
            return numpy.arange(len(rows), dtype=numpy.uint64) + numpy.uint64(first)
        size = (about.bit_offset + about.bit_count + 7) // 8
        if about.byte_offset + size > about.data_bytes:
            raise self._undecoded("it doesn't fit into its record")
        if about.channel_type == 1:
            return self._variable(numpy, self._bits(numpy, rows, size, False), invalid)
        if about.data_type <= 3:
            return self._integers(numpy, rows, size)
        if about.data_type <= 5:
            return self._floats(numpy, rows, size)
        if about.data_type in (15, 16):
            return self._complex(numpy, rows)
        return self._strings(numpy, rows, size)

    def _seen(self, numpy, rows, kind):
        """The rows' cells as values of a type, not copied."""
        if len(rows) == 0:
            return numpy.empty(0, kind)
        return numpy.ndarray((len(rows),), kind, rows, self.about.byte_offset, (rows.shape[1],))

    def _cells(self, rows, size):
        return rows[:, self.about.byte_offset : self.about.byte_offset + size]

    def _bits(self, numpy, rows, size, big):
        """Unsigned integers of up to 64 bits from any bit on. Of big-endian ones the bytes are turned round first."""
        about, cells = self.about, self._cells(rows, size)
        if about.bit_count > 64 or about.bit_offset > 7:
            raise self._undecoded("an integer of %d bits from bit %d on" % (about.bit_count, about.bit_offset))
        if big:
            cells = cells[:, ::-1]
        value = numpy.zeros(len(rows), numpy.uint64)
        for k in range(min(size, 8)):
            value |= cells[:, k].astype(numpy.uint64) << numpy.uint64(8 * k)
        value >>= numpy.uint64(about.bit_offset)
        if size == 9:
            value |= cells[:, 8].astype(numpy.uint64) << numpy.uint64(64 - about.bit_offset)
        return value & numpy.uint64((1 << about.bit_count) - 1)

    def _integers(self, numpy, rows, size):
        about, signed = self.about, self.about.data_type >= 2
        order, letter = "<>"[self.about.data_type % 2], "ui"[signed]
        if about.bit_offset == 0 and about.bit_count in (8, 16, 32, 64):
            return self._seen(numpy, rows, "%s%s%d" % (order, letter, size))
        value = self._bits(numpy, rows, size, order == ">")
        if signed and about.bit_count:
            sign = numpy.uint64(1 << about.bit_count - 1)
            value = ((value ^ sign) - sign).view(numpy.int64)
        return value.astype("%s%d" % (letter, next(n for n in (1, 2, 4, 8) if about.bit_count <= 8 * n)))

    def _floats(self, numpy, rows, size):
        about, order = self.about, "<>"[self.about.data_type % 2]
        if about.bit_count not in (16, 32, 64):
            raise self._undecoded("a float of %d bits" % about.bit_count)
        if about.bit_offset == 0:
            return self._seen(numpy, rows, "%sf%d" % (order, size))
        wide = about.bit_count // 8
        return self._bits(numpy, rows, size, order == ">").astype("u%d" % wide).view("f%d" % wide)

    def _complex(self, numpy, rows):
        about, order = self.about, "<>"[self.about.data_type == 16]
        if about.bit_offset or about.bit_count not in (64, 128):
            raise self._undecoded("a complex number of %d bits from bit %d on" % (about.bit_count, about.bit_offset))
        return self._seen(numpy, rows, "%sc%d" % (order, about.bit_count // 8))

    def _strings(self, numpy, rows, size):
        if self.about.bit_offset:
            raise self._undecoded("bytes from bit %d on" % self.about.bit_offset)
        joined = self._cells(rows, size).tobytes()
        return self._objects(numpy, (joined[size * k : size * (k + 1)] for k in range(len(rows))), len(rows))

    def _variable(self, numpy, places, invalid):
        """Each value by its place in the signal data: a 32-bit length, then its bytes. One that is invalid may lie nowhere."""
        data = _signal_data(self.file._image.view, self._channel().link(5)) if len(places) else b""
        if data is None:
            raise self._undecoded("its signal data can't be read")

        def value(record, place):
            if place + 4 <= len(data):
                end = place + 4 + struct.unpack_from("<I", data, place)[0]
                if end <= len(data):
                    return bytes(data[place + 4 : end])
            if invalid is not None and invalid[record]:
                return b""
            raise self._undecoded("record %d of those asked for lies outside its signal data" % record)

        values = self._objects(numpy, (value(record, place) for record, place in enumerate(places.tolist())), len(places))
        self.file._image.check()
        return values

    @staticmethod
    def _objects(numpy, values, count):
        array = numpy.empty(count, object)
        for k, value in enumerate(values):
            array[k] = value
        return array

    def _converted(self, numpy, values):
        conversion, name = _conversion(self.file._image.view, self._channel())
        if name in (None, "identity"):
            return values
        if name != "linear" or values.dtype == object or conversion.fields("<6xH")[0] < 2:
            raise NotApplied("column %d %r of %s: its conversion (%s) is not applied" % (self.number, self.about.name, _shown(self.file.path), name), name)
        constant, factor = conversion.fields("<dd", 24)
        return values.astype(complex if values.dtype.kind == "c" else float) * factor + constant


# ---- the inventory sheet


def sheet(path):
    """The inventory sheet of a column file, as the command prints it (README, --sheet): pages of at most 60 lines, each of 80 characters and a newline,
    with a line for each column. A file that lacks the form is Refused."""
    return _Image(os.fspath(path)).sheet()


# ---- taking columns out


class _New:
    """A file that gets its name once it is whole and synced; until then it stands beside that."""

    def __init__(self, path, source, force):
        self.path, self.force, self.folder = path, force, os.path.dirname(path) or "."
        if os.path.exists(path) and os.path.samestat(os.stat(path), source):
            raise ValueError("%s is the column file itself; the new file needs another name" % _shown(path))
        if os.path.islink(path) or (os.path.exists(path) and not os.path.isfile(path)):
            raise OSError(errno.EINVAL, "this is no regular file", path)
        if os.path.exists(path) and not force:
            raise FileExistsError(errno.EEXIST, "it exists; force=True replaces it", path)

    def store(self, size, fill):
        """`fill` gets the mapped bytes of the file."""
        self.descriptor, self.beside = tempfile.mkstemp(prefix=".%s." % os.path.basename(self.path)[:60], dir=self.folder)
        try:
            os.posix_fallocate(self.descriptor, 0, size)
            with mmap.mmap(self.descriptor, size) as room:
                fill(room)
                room.flush()
            os.fchmod(self.descriptor, self.mode())
            os.fsync(self.descriptor)
            self.name()
        finally:
            os.close(self.descriptor)
            with contextlib.suppress(FileNotFoundError):
                os.unlink(self.beside)

    def mode(self):
        """That of the file it replaces, else what a new file gets."""
        if os.path.exists(self.path):
            return stat.S_IMODE(os.stat(self.path).st_mode)
        mask = os.umask(0)
        os.umask(mask)
        return 0o666 & ~mask

    def name(self):
        if self.force:
            os.replace(self.beside, self.path)
        else:
            os.link(self.beside, self.path)
        folder = os.open(self.folder, os.O_RDONLY | os.O_DIRECTORY)
        try:
            os.fsync(folder)
        finally:
            os.close(folder)


def take_out(source, target, columns, unit=8, *, force=False):
    """Writes a column file without some of its columns, names or numbers, into a new file, and gives that file's bytes. All else of the other columns is kept:
    payloads, signal data, masters, references to attachments, attachments, metadata, history. Each column's data and signal data start on a multiple of the unit.

    The target has its name only once it is whole and synced; one that exists is replaced with force=True, never the source itself. What is not accepted is
    Refused, as a column that is the time column of one that is kept (34); a name that no column has is NameMissing, one that several have NameRepeated."""
    source, target, columns = os.fspath(source), os.fsdecode(target), list(columns)
    if any(isinstance(key, str) for key in columns):
        with ColumnFile(source) as file:
            columns = [file._number(key) if isinstance(key, str) else key for key in columns]
    image = _Image(source)
    new = _New(target, image.found, force)
    numbers = [_u64(key.number if isinstance(key, Column) else key, "a column") for key in columns]
    listed = (ctypes.c_uint64 * len(numbers))(*numbers), len(numbers)
    work = [word for _ in range(4) for word in ((ctypes.c_uint64 * _WORK)(), _WORK)]
    if image.mapping:
        image.hold_all()

    def call(*out):
        return image.call(_library.sitaungo_take_out, _u64(unit, "unit"), *listed, *work, *out)

    def fill(room):
        with _held(room, writable=True) as out:
            answer = call(*out)
        if not answer.accepted:
            raise image.changed()

    asked = call(None, 0)
    if asked.number != 20 or asked.place == 2**64 - 1:
        raise Refused(source, asked.number, asked.place, {**WORDS, **TAKING}.get(asked.number, "unknown refusal"))
    new.store(asked.place, fill)
    return asked.place


# ---- converting in steps

_IDENT = b"MDF     4.20    sitaungo\0\0\0\0\xa4\x01".ljust(64, b"\0")


def _shared_records(view):
    """How many records there are in DG with ids, as cycle counts say; at most an eighth of the recording's bytes."""
    records, seen, header = 0, set(), _block(view, 64, b"HD")
    group = _block(view, header.link(0), b"DG") if header else None
    while group and group.at not in seen:
        seen.add(group.at)
        part = _block(view, group.link(1), b"CG") if group.fields("<B")[0] else None
        while part and part.at not in seen:
            seen.add(part.at)
            records += part.fields("<Q", 8)[0]
            part = _block(view, part.link(0), b"CG")
        group = _block(view, group.link(0), b"DG")
    return min(records, len(view) // 8)


class Steps:
    """A conversion of a recording into a file in steps, both of them buffers in memory, such as mapped files: for machines that may be switched off.

    Each step makes one store of 1 to 4,096 bytes over the file. From the first to the last the file is one that is refused with 5, whatever stood in it
    before; after the last it is the whole result, and what lies past that stays. The last step also gives `omissions`, of each channel left out its
    address and reason. `report` has the seven counts, `steps` how many steps there are.

    The file has at least the bytes that `size` tells; `text`, bytes or str, is the comment of the new history entry, `time` its time in nanoseconds since
    1970, now if not given. Choices are block_size, unit, share_time, photos and types, the bytes of a table of treatments. What is not accepted is Refused.

    All this holds while nobody else changes recording and file. Who stores into a mapped file flushes it after the first store, before the last and after
    it: then it holds on the disk too."""

    def __init__(self, recording, file, text, *, time=None, block_size=4194304, unit=8, share_time=False, photos=False, types=b""):
        self._recording, self._file, self._types = recording, file, bytes(types)
        self._text = text.encode() if isinstance(text, str) else bytes(text)
        self._list, self.omissions = (ctypes.c_uint64 * _LIST)(), None
        with memoryview(recording) as view, view.cast("B") as image, memoryview(file) as lent:
            words, room = _OFFSETS + _shared_records(image), lent.nbytes
        self._words = [(ctypes.c_uint64 * n)() for n in (_WORK, _WORK, _WORK, _WORK, _STRETCHES, words)]
        time = clock.time_ns() if time is None else _u64(time, "time")
        options = _Options(_u64(unit, "unit"), bool(share_time), bool(photos))
        with _held(recording) as image:
            begun = _library.sitaungo_begin(
                *image, _u64(block_size, "block_size"), _IDENT, len(_IDENT), self._text, len(self._text), time, options, self._types, len(self._types),
                room, _LIST, *self._slices(),
            )
        if not begun.outcome.accepted:
            raise Refused(None, begun.outcome.number, begun.outcome.place, {**WORDS, **CONVERTING}.get(begun.outcome.number, "unknown refusal"))
        self._state = begun.conversion
        self.report = {name: getattr(begun.outcome, name) for name in _COUNTS}
        self.steps = self._state.steps

    @classmethod
    def size(cls, recording, text, **choices):
        """Bytes that the file needs."""
        try:
            return cls(recording, bytearray(), text, **choices).report["file_size"]
        except Refused as why:
            if why.number != 20:
                raise
            return why.place

    def _slices(self):
        return [word for words in self._words for word in (words, len(words))]

    @property
    def left(self):
        """How many steps are left."""
        return _library.sitaungo_left(self._state)

    def step(self, stores=1):
        """One step, or so many, or as many as are left."""
        with _held(self._recording) as image, _held(self._file, writable=True) as file:
            self._state = _library.sitaungo_advance(
                self._state, _u64(stores, "stores"), *image, _IDENT, len(_IDENT), self._text, len(self._text), self._types, len(self._types),
                *self._slices(), *file, self._list, len(self._list),
            )
        if self.left == 0 and self.omissions is None:
            count = self._list[0]
            self.omissions = list(zip(self._list[1 : 1 + count], self._list[1 + count : 1 + 2 * count]))

    def name(self, name):
        """Gives the present position a name, a number below 2**64. Four are held; one given again moves. 30 for a fifth and after the last store."""
        self._move(_library.sitaungo_name(self._state, _u64(name, "a name")))

    def recall(self, name):
        """Goes to the position of that name, from which stores are made again. 30 after the last store, then 29 where that name was never given."""
        self._move(_library.sitaungo_recall(self._state, _u64(name, "a name")))

    def _move(self, position):
        if position.number:
            raise Refused(None, position.number, 0, WORDS.get(position.number, "unknown refusal"))
        self._state = position.conversion


def share(stores, jobs):
    """What each job gets of a pass that has so many stores to give. A job, one of up to eight conversions in steps, is its cap for the pass and what it has
    left. Who lets each make as many steps, in any sequence of passes, gets each file as if it were made alone. 31 and 32 are Refused."""
    jobs = [(_u64(cap, "a cap"), _u64(left, "what is left")) for cap, left in jobs]
    caps, left = (_Eight(*(job[k] for job in jobs[:_JOBS])) for k in (0, 1))
    answer = _library.sitaungo_share(_u64(stores, "stores"), len(jobs), caps, left)
    if answer.number:
        raise Refused(None, answer.number, 0, WORDS.get(answer.number, "unknown refusal"))
    return [getattr(answer.shares, name) for name, _ in zip("abcdefgh", jobs)]


# ---- converting


def _command():
    """$SITAUNGO_COMMAND; as installed beside this module; where host/build puts it; on the path."""
    places = [os.path.join(_HERE, "..", "..", *names) for names in (("bin", "mdf-columns"), ("target", "host", "mdf-columns"))]
    chosen = os.environ.get("SITAUNGO_COMMAND") or next(filter(os.path.exists, places), None) or shutil.which("mdf-columns")
    if chosen is None:
        raise FileNotFoundError(errno.ENOENT, "no such command, and none in $SITAUNGO_COMMAND", "mdf-columns")
    return chosen


def _option(name, value):
    """The words of one choice: block_size=1000 is --block-size=1000, force=True is --force."""
    if name in ("check", "d", "folder", "help", "json", "listing", "quiet", "sheet", "take_out", "version"):
        raise TypeError("convert takes no choice %r" % name)
    option = "--" + name.replace("_", "-")
    if value is None or value is False:
        return []
    return [option if value is True else "%s=%s" % (option, os.fsdecode(value) if isinstance(value, (bytes, os.PathLike)) else value)]


def convert(recording, result, **choices):
    """Converts a recording into a column file by the command mdf-columns, and gives its report (README, --json). Choices are the command's options:
    block_size, complete, force, in_place, photos (columns keep references to attachments), resume, sha256, share_time (equal times of several groups become one
    column), types (the file of a table of treatments), unit, verify and what else it has.

    A recording that is not accepted is Refused; any other end but status 0 is CommandFailed, with the status."""
    words = [word for name, value in choices.items() for word in _option(name, value)]
    run = subprocess.run(
        [_command(), *words, "--quiet", "--json", "-", "--", os.fspath(recording), os.fspath(result)],
        stdin=subprocess.DEVNULL, stdout=subprocess.PIPE, stderr=subprocess.PIPE,
    )
    said = run.stderr.decode("utf-8", "replace")
    try:
        report = json.loads(run.stdout.decode("utf-8", "replace").splitlines()[-1])
    except (IndexError, ValueError):
        report = None
    if run.returncode == 0 and report:
        return report
    if run.returncode == 2 and report and "refusal" in report:
        raise Refused(os.fspath(recording), report["refusal"]["number"], report["refusal"]["place"], report["refusal"]["words"])
    raise CommandFailed(run.returncode, said, report)
