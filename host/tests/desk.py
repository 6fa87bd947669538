"""Cases of the module for Python, each in an interpreter of its own: desk.py CASE WORD... The last line printed says what was tried."""
import ctypes
import gc
import mmap
import os
import pathlib
import random
import struct
import sys
import time

sys.path[:0] = [os.path.join(os.path.dirname(os.path.abspath(__file__)), os.pardir, "python")]
import rows  # noqa: E402
import sitaungo  # noqa: E402
from mdf import block, columns_of  # noqa: E402

GIB = 1 << 30


def expect(good, *what):
    if not good:
        raise AssertionError(" ".join(map(str, what)))


def raises(kind, f, *words):
    """The error of this kind that f raises."""
    try:
        answer = f(*words)
    except kind as why:
        expect(str(why), "no words")
        return why
    raise AssertionError("%s was not raised but %r returned" % (kind, answer))


def refuses(number, f, *words):
    why = raises(sitaungo.Refused, f, *words)
    expect(why.number == number and why.words == sitaungo.WORDS[number] and "refused %d place %d: " % (number, why.place) in str(why), number, why)
    return why


def put(path, data):
    with open(path, "wb") as f:
        f.write(data)
    return path


def got(path):
    with open(path, "rb") as f:
        return f.read()


# ---- columns and records


def columns(path):
    """Descriptions, records and parts beside those that a reader by links finds."""
    data = got(path)
    wanted = columns_of(data)
    with sitaungo.ColumnFile(path) as file:
        expect(len(file.columns) == len(wanted), len(file.columns))
        for number, (c, w) in enumerate(zip(file.columns, wanted)):
            expect((c.number, c.name, c.unit, c.group, c.master) == (number, w.name, w.unit, w.group, w.master), c)
            expect((c.records, c.data_bytes, c.invalidation_bytes) == (w.records, w.bytes, w.inval) and c.channel_type == w.type, c)
            expect(c.kind == ("time" if w.type in (2, 3) else "signal"), c)
            column, width = file.column(number), w.bytes + w.inval
            expect(column.name == w.name and len(column) == w.records and column.unit == w.unit, column)
            expect(column.records() == w.payload and column.records(3, 4) == w.payload[3 * width : 7 * width], "records of", c)
            expect(column.records(w.records, 0) == b"" and column.records(5) == w.payload[5 * width :], "the last records of", c)
            part = column.part(1, 2)
            if part is None:
                expect(len(w.kinds) > 1, "split")
            else:
                expect(part.readonly and part == w.payload[width : 3 * width] and isinstance(part, memoryview), "a part of", c)
            if w.name is not None and file.numbers(w.name) == (number,):
                expect(file.column(w.name).number == number, w.name)
        ranges = [(number, number % 3, c.records // 2) for number, c in enumerate(file.columns)]
        found = file.read_many(ranges)
        for (number, first, count), part in zip(ranges, found):
            expect(part == file.column(number).records(first, count), "read_many", number)
        expect(file.read_many([]) == [], "no ranges")
    print("%d columns" % len(wanted))


def split(path):
    """Records over several blocks: no part, but records."""
    wanted = columns_of(got(path))
    with sitaungo.ColumnFile(path) as file:
        for number, w in enumerate(wanted):
            column, width = file.column(number), w.bytes + w.inval
            expect((column.part() is None) == (len(w.kinds) > 1), "the whole of", number)
            for first in range(w.records):
                for count in range(1, w.records - first + 1):
                    part, bytes_ = column.part(first, count), w.payload[first * width : (first + count) * width]
                    expect(column.records(first, count) == bytes_ and part in (None, bytes_), first, count)
    print("%d columns" % len(wanted))


def ranges(path):
    """Records out of range and arguments that are none."""
    file = sitaungo.ColumnFile(path)
    column = file.column(1)
    n = len(column)
    for first, count in ((0, n + 1), (n, 1), (n + 1, 0), (1, 2**64 - 1), (2**64 - 1, 2**64 - 1), (2**63, 2**63)):
        for f in (column.records, column.part):
            refuses(23, f, first, count)
        expect(refuses(23, file.read_many, [(0, 0, 1), (1, 0, n), (1, first, count), (9999, 0, 0)]).position == 2, "position")
    refuses(23, column.part, n + 1)
    expect(column.records(n, 0) == column.records(n) == b"" and column.part(n, 0) == b"", "no records")
    for number in (len(file.columns), 2**32, 2**64 - 1):
        refuses(22, file.column, number)
        expect(refuses(22, file.read_many, [(number, 0, 0)]).position == 0, "position")
    for bad in (-1, 2**64, 2**80):
        for f in (lambda: column.records(bad, 1), lambda: column.part(0, bad), lambda: file.column(bad), lambda: file.read_many([(0, bad, 0)])):
            raises(ValueError, f)
    for bad in (1.5, None, b"0"):
        raises(TypeError, column.records, bad, 1)
        raises(TypeError, file.column, bad)
    raises(TypeError, column.records, 0, 1.0)
    raises(sitaungo.NameMissing, file.column, "no such name")
    # more entries than one call takes; the position counts them all
    many = [(k % len(file.columns), 0, 1) for k in range(700)]
    expect([bytes(x) for x in file.read_many(many)] == [file.column(k).records(0, 1) for k, _, _ in many], "700 entries")
    expect(refuses(23, file.read_many, many + [(1, n, 1)]).position == 700, "position")
    file.close()
    for f in (column.records, column.part, lambda: file.column(0).records(), lambda: file.read_many([(0, 0, 1)])):
        raises(ValueError, f)
    print("ranges")


def repeated(path):
    """Names that occur twice are all listed; by name they are an error that tells the numbers."""
    with sitaungo.ColumnFile(path) as file:
        expect([c.name for c in file.columns] == ["twice", "once", "twice", None], file.columns)
        why = raises(sitaungo.NameRepeated, file.column, "twice")
        expect(why.numbers == (0, 2) == file.numbers("twice") and "numbers 0, 2" in str(why), why)
        raises(sitaungo.NameRepeated, file.read_many, [("twice", 0, 1)])
        expect(file.column("once").number == 1 and bytes(file.read_many([("once", 0, 1)])[0]) == file.column(1).records(0, 1), "once")
    print("names")


# ---- values


def same(a, b):
    return a == b or (a != a and b != b) or (isinstance(a, complex) and same(a.real, b.real) and same(a.imag, b.imag))


def wanted_type(channel):
    kind, _, data_type, bit, _, bits = channel.fields[:6]
    if kind in (3, 6):
        return "<u8"
    if kind == 1 or data_type in rows.STRINGS:
        return "|O"
    if data_type >= 15:
        return "<>"[data_type == 16] + "c%d" % (bits // 8)
    letter, whole = "uuiiff"[data_type], bit == 0 and bits in (8, 16, 32, 64)
    size = next(n for n in (1, 2, 4, 8) if bits <= 8 * n)
    return ("|" if size == 1 else "<>"[data_type % 2] if whole else "<") + letter + str(size)


def check_values(numpy, file, column, channel):
    values = column.values()
    mask = numpy.ma.getmaskarray(values)
    expect(values.dtype.str == wanted_type(channel), values.dtype.str, wanted_type(channel), channel.name)
    found = numpy.ma.getdata(values).tolist()
    expect(len(found) == len(channel.values) and all(map(same, found, channel.values)), "values of", channel.name, found[:5], channel.values[:5])
    expect(mask.tolist() == channel.invalid and isinstance(values, numpy.ma.MaskedArray) == channel.masked, "mask of", channel.name)
    unit = "m/s & %" if (channel.unit or "").startswith("<") else channel.unit
    expect(column.name == channel.name and column.unit == unit, "texts of", channel.name, column.unit)
    first, count = len(found) // 3, len(found) // 2
    some = numpy.ma.getdata(column.values(first, count)).tolist()
    expect(len(some) == count and all(map(same, some, channel.values[first : first + count])), "some values of", channel.name)
    return view_of(numpy, file, column, values)


def view_of(numpy, file, column, values):
    """Whether the values are a view of the file's own bytes."""
    at = numpy.ma.getdata(values).__array_interface__["data"][0]
    image = file._image
    return image.address <= at < image.address + image.length


def check_physical(numpy, column, channel):
    raw = column.values()
    if channel.conversion is None or channel.conversion[0] == rows.IDENTITY:
        expect(column.about.conversion == (None if channel.conversion is None else "identity"), column.about)
        found = column.values(physical=True)
        expect(found.dtype == raw.dtype and all(map(same, numpy.ma.getdata(found).tolist(), channel.values)), "identity", channel.name)
    elif channel.conversion[0] == rows.LINEAR and raw.dtype != object:
        found = column.values(physical=True)
        if raw.dtype.kind != "c":
            expect(found.dtype == numpy.float64 and all(map(same, numpy.ma.getdata(found).tolist(), channel.physical())), "linear", channel.name)
        expect(numpy.ma.getmaskarray(found).tolist() == channel.invalid, "the mask of linear", channel.name)
    else:
        why = raises(sitaungo.NotApplied, lambda: column.values(physical=True))
        expect(why.conversion == sitaungo.CONVERSIONS[channel.conversion[0]] == column.about.conversion and why.conversion in str(why), why)


def values(recording, result):
    """Each value of a result is that of the row recording."""
    import numpy

    numpy.seterr(all="ignore")  # signalling NaN among random bits
    groups = list(rows.channels_of(got(recording)))
    views = numbers = 0
    with sitaungo.ColumnFile(result) as file:
        expect(sum(map(len, groups)) == len(file.columns), len(file.columns))
        for channels in groups:
            master = next(c for c in channels if c.fields[0] in (2, 3))
            for channel in channels:
                column = file.column(channel.name)
                seen = check_values(numpy, file, column, channel)
                whole = wanted_type(channel)[1] in "uifc" and channel.fields[0] not in (3, 6) and len(column) and column.part() is not None
                whole = whole and channel.fields[3] == 0 and channel.fields[5] in (8, 16, 32, 64, 128)
                expect(seen == bool(whole), "view", seen, channel.name, channel.fields)
                views, numbers = views + seen, numbers + 1
                check_physical(numpy, column, channel)
                expect(column.about.master == (None if channel is master else file.numbers(master.name)[0]), "master of", channel.name)
                check_time(numpy, column, master)
    print("%d columns, %d of them views, %d values" % (numbers, views, sum(len(c.values) for g in groups for c in g)))


def check_time(numpy, column, master):
    expect(all(map(same, column.time(physical=False).tolist(), master.values)), "raw time of", column.name)
    if master.conversion and master.conversion[0] == rows.LINEAR:
        expect(all(map(same, column.time(1, 3).tolist(), master.physical()[1:4])), "time of", column.name)
    elif master.conversion and master.conversion[0] != rows.IDENTITY:
        raises(sitaungo.NotApplied, column.time)
    else:
        expect(all(map(same, column.time(1, 3).tolist(), master.values[1:4])), "time of", column.name)


def without_numpy(path):
    """All but values and time works."""
    sys.modules["numpy"] = None
    with sitaungo.ColumnFile(path) as file:
        expect(file.column(0).records(0, 1) and file.column(0).part(0, 1), "records")
        raises(ImportError, file.column(0).values)
        raises(ImportError, file.column(1).time)
    print("without numpy")


# ---- bad files


def read_all(path, numpy):
    """Reads all of a file that may be damaged: the refusal's number, 0 where it is taken."""
    try:
        file = sitaungo.ColumnFile(path)
    except sitaungo.Refused as why:
        expect(why.number in sitaungo.WORDS and str(why), why)
        return why.number
    with file:
        for number, about in enumerate(file.columns):
            column = file.column(number)
            if about.records * (about.data_bytes + about.invalidation_bytes) > 1 << 24:
                continue
            part, records = column.part(), column.records()
            expect(part is None or part == records, "part and records of", about)
            if about.records > 1 << 20:
                continue
            for physical in (False, True):
                try:
                    if numpy:
                        column.values(physical=physical)
                except sitaungo.Undecoded:
                    pass
        file.read_many((number, 0, min(about.records, 3)) for number, about in enumerate(file.columns))
    return 0


def numpy_or_none():
    try:
        import numpy

        numpy.seterr(all="ignore")
        return numpy
    except ImportError:
        return None


def cut(path, folder):
    """A file cut at every length."""
    data, numpy, taken = got(path), numpy_or_none(), 0
    for length in range(len(data) + 1):
        number = read_all(put(os.path.join(folder, "cut.mf4"), data[:length]), numpy)
        taken += number == 0
        expect(number in (0, 4) if length >= 64 else number in (4, 5, 6, 7), length, number)
    expect(number == 0, "the whole file", number)
    print("%d lengths, %d of them taken" % (len(data) + 1, taken))


def damaged(folder):
    """Files that were damaged, each read whole."""
    numpy, told = numpy_or_none(), []
    for name in sorted(os.listdir(folder)):
        told.append(read_all(os.path.join(folder, name), numpy))
    print("%d files, %d taken, refused with %s" % (len(told), told.count(0), ", ".join(map(str, sorted(set(told) - {0})))))


def guarded(folder):
    """The library over images that end right before a page that can't be read: it touches no byte past them."""
    libc = ctypes.CDLL(None, use_errno=True)
    libc.mmap.restype, libc.mmap.argtypes = ctypes.c_void_p, [ctypes.c_void_p, ctypes.c_size_t] + [ctypes.c_int] * 3 + [ctypes.c_long]
    libc.mprotect.argtypes, libc.munmap.argtypes = [ctypes.c_void_p, ctypes.c_size_t, ctypes.c_int], [ctypes.c_void_p, ctypes.c_size_t]
    told = []
    for name in sorted(os.listdir(folder)):
        data = got(os.path.join(folder, name))
        pages = (len(data) + 4095) // 4096 * 4096
        at = libc.mmap(None, pages + 8192, 3, 0x22, -1, 0)  # private, of no file
        image = at + 4096 + pages - len(data)
        ctypes.memmove(image, data, len(data))
        for guard in (at, at + 4096 + pages):
            expect(libc.mprotect(guard, 4096, 0) == 0, "mprotect")
        for column in range(4):
            answer = sitaungo._library.sitaungo_range_part(image, len(data), column, 0, 1)
            buffer = (ctypes.c_char * max(answer.length, 1))()
            sitaungo._library.sitaungo_read_range(image, len(data), column, 0, 1, buffer, answer.length)
            told.append(answer.number)
        libc.munmap(at, pages + 8192)
    print("%d ranges, %d of them read" % (len(told), told.count(0)))


def foreign(*paths):
    """Files that are no column files: refused, or read."""
    told = {}
    for path in paths:
        number = read_all(path, numpy_or_none())
        told[number] = told.get(number, 0) + 1
    print("%d files: %s" % (len(paths), ", ".join("%d times %d" % (n, number) for number, n in sorted(told.items()))))


def no_files(folder):
    """What can't be opened or mapped."""
    raises(FileNotFoundError, sitaungo.ColumnFile, os.path.join(folder, "missing"))
    raises(OSError, sitaungo.ColumnFile, folder)
    fifo = os.path.join(folder, "fifo")
    os.mkfifo(fifo)
    raises(OSError, sitaungo.ColumnFile, fifo)
    raises(OSError, sitaungo.ColumnFile, "/dev/null")
    raises(TypeError, sitaungo.ColumnFile, None)
    raises(ValueError, sitaungo.ColumnFile, "a\0b")
    expect(refuses(4, sitaungo.ColumnFile, put(os.path.join(folder, "empty"), b"")).place == 0, "an empty file")
    path = os.path.join(folder.encode(), b"\xff.mf4")
    refuses(4, sitaungo.ColumnFile, put(path, b"MDF"))
    refuses(5, sitaungo.ColumnFile, put(path, bytes(100)))
    print("no files")


def zero_width(folder):
    """Columns whose records have no bytes, as many as 64 bits hold."""
    for records in (0, 5, 2**40, 2**64 - 1):
        path = put(os.path.join(folder, "zero.mf4"), column_file([(3, (0, 0, 0, 0), 0, records, [])]))
        with sitaungo.ColumnFile(path) as file:
            column = file.column(0)
            expect(column.about.records == records and column.records() == b"" and column.part() == b"", column.about)
            refuses(23, column.records, records, 1) if records < 2**64 - 1 else None
            if numpy_or_none() and records < 10:
                expect(column.values().tolist() == list(range(records)) == column.time().tolist(), column.values())
            elif numpy_or_none():
                raises((MemoryError, ValueError), column.values)
                expect(column.values(records - 3, 3).tolist() == list(range(records - 3, records)), "the last numbers")
    print("records of no bytes")


# ---- files made by hand


def column_file(columns, version=b"4.20"):
    """A column file of (channel type, (data type, bit, byte, bits), data bytes, records, blocks), blocks being their bytes or lengths."""
    image = bytearray(b"MDF     " + version + b"    tests   " + bytes(40) + bytes(104))
    dg = 0
    for kind, (data_type, bit, byte, bits), size, records, blocks in reversed(columns):
        cn = len(image)
        image += block(b"CN", [0] * 8, struct.pack("<BBBBII", kind, 0, data_type, bit, byte, bits) + bytes(60))
        cg = len(image)
        image += block(b"CG", [0, cn, 0, 0, 0, 0], struct.pack("<QQHHIII", 0, records, 0, 0, 0, size, 0))
        dl = len(image) if blocks else 0
        if blocks:
            at = dl + 24 + 8 * (1 + len(blocks)) + 16
            places = []
            for data in blocks:
                places.append(at)
                at += 24 + len(data)
            image += block(b"DL", [0, *places], struct.pack("<IIQ", 1, len(blocks), len(blocks[0])))
            for data in blocks:
                image += block(b"DT", [], data)
            image += bytes(-len(image) % 8)
        image += block(b"DG", [dg, cg, dl, 0], bytes(8))
        dg = len(image) - 64
    image[64:168] = block(b"HD", [dg, 0, 0, 0, 0, 0], bytes(32))
    return bytes(image)


class Long:
    """Bytes of which only the length is asked."""

    def __init__(self, length):
        self.length = length

    def __len__(self):
        return self.length


def over_4_gib(folder):
    """A column of one block of 5 GiB, sparse, with values at its end; a second column past it."""
    path, length = os.path.join(folder, "long.mf4"), 5 * GIB
    front = bytearray(column_file([(0, (0, 0, 0, 64), 8, length // 8, [b""])]))
    at = front.index(b"##DT")
    struct.pack_into("<Q", front, at + 8, 24 + length)
    struct.pack_into("<Q", front, front.index(b"##DL") + 24 + 16 + 8, length)
    dg = bytes(front[at + 24 :])
    with open(path, "wb") as f:
        f.write(front[: at + 24])
        f.seek(at + 24 + length - 16)
        f.write(struct.pack("<QQ", 7, 2**63 + 1))
        f.write(dg)
        f.seek(64)
        f.write(block(b"HD", [at + 24 + length, 0, 0, 0, 0, 0], bytes(32)))
    last = length // 8 - 2
    with sitaungo.ColumnFile(path) as file:
        column = file.column(0)
        expect(len(column) == length // 8 and column.records(last, 2) == struct.pack("<QQ", 7, 2**63 + 1), "the last records")
        expect(len(column.part()) == length and column.part()[-8:] == struct.pack("<Q", 2**63 + 1), "the whole part")
        refuses(23, column.part, last, 3)
        if numpy_or_none():
            every = column.values()
            expect(len(every) == length // 8 and every[-1] == 2**63 + 1 and every[last] == 7 and every[0] == 0, "values")
    os.remove(path)
    print("5 GiB")


# ---- files that change


def replaced(path, other, folder):
    """Another file of its name: the mapped one stays. Written to, cut off, made longer: an error, and views stay readable."""
    here, data = os.path.join(folder, "r.mf4"), got(path)
    put(here, data)
    file = sitaungo.ColumnFile(here)
    column, wanted = file.column(1), file.column(1).records()
    put(here + ".new", got(other))
    os.replace(here + ".new", here)
    expect(column.records() == wanted == bytes(column.part()), "after it was replaced")
    os.remove(here)
    expect(column.records() == wanted, "after it was removed")
    for change in (lambda f: f.truncate(0), lambda f: f.truncate(len(data) // 2), lambda f: f.truncate(len(data) + 1), lambda f: f.write(b"MDF")):
        put(here, data)
        file = sitaungo.ColumnFile(here)
        column = file.column(len(file.columns) - 1)
        part, array = column.part(), numpy_or_none() and column.values()
        before = bytes(part)
        time.sleep(0.02)  # the clock of the file system ticks
        with open(here, "r+b") as f:
            change(f)
        now = bytes(part)
        expect(now in (before, bytes(len(before))), "the view")
        if array is not None:
            array.sum() if array.dtype != object else None
        for f in (column.records, column.part, lambda: file.read_many([(0, 0, 1)]), *([column.values] if array is not None else [])):
            raises(sitaungo.Changed, f)
        file.close()
        expect(bytes(part) == now, "the view after closing")
        del part, array, column, file
        gc.collect()
    print("replaced and changed")


def lost_elsewhere(path, folder):
    """A fault in a mapping that isn't the module's still ends the process, as it would without it."""
    import mmap

    file = sitaungo.ColumnFile(path)
    other = put(os.path.join(folder, "other"), bytes(8192))
    with open(other, "r+b") as f:
        own = mmap.mmap(f.fileno(), 8192, access=mmap.ACCESS_READ)
        f.truncate(0)
    print("faulting", flush=True)
    own[0]
    print("not ended", file)


def keep_writing(path, images, chance):
    """Writes over a file, cuts it, makes it whole again, for ever."""
    descriptor = os.open(path, os.O_RDWR)
    while True:
        image = chance.choice(images)
        if chance.randrange(8) == 0:
            os.ftruncate(descriptor, chance.choice((0, 4096, chance.randrange(len(image)))))
        os.pwrite(descriptor, image, 0)
        os.ftruncate(descriptor, len(image))
        for _ in range(chance.randrange(20)):
            at = chance.randrange(len(image) - 8)
            os.pwrite(descriptor, chance.choice((image[at : at + 8], bytes(8), chance.randbytes(1), struct.pack("<Q", chance.randrange(len(image))))), at)
        os.pwrite(descriptor, image, 0)


def rewritten(path, other, folder, seconds, seed):
    """Read on and on while another process writes over it, cuts it and makes it anew."""
    here, images, numpy, until = os.path.join(folder, "w.mf4"), (got(path), got(other)), numpy_or_none(), time.monotonic() + float(seconds)
    put(here, images[0])
    child, told = os.fork(), {}
    if child == 0:
        keep_writing(here, images, random.Random(int(seed)))
    try:
        while time.monotonic() < until:
            try:
                word = "taken" if read_all(here, numpy) == 0 else "refused"
            except sitaungo.Changed:
                word = "told as changed"
            except AssertionError:  # changed in the tick of the clock in which it was opened, between two calls
                word = "mixed"
            told[word] = told.get(word, 0) + 1
    finally:
        os.kill(child, 9)
        os.waitpid(child, 0)
    print("%d readings: %s" % (sum(told.values()), ", ".join("%s %d" % x for x in sorted(told.items()))))


# ---- inventory sheets


def sheets(folder):
    """The sheet of each file is the text beside it; a refusal there is Refused."""
    told, before = [], len(os.listdir("/proc/self/fd"))
    for name in sorted(name for name in os.listdir(folder) if name.endswith(".mf4")):
        path = os.path.join(folder, name)
        wanted = got(path[:-4] + ".txt").decode("ascii")
        if wanted.startswith("refused"):
            _, number, _, at = wanted.split()
            why = refuses(int(number), sitaungo.sheet, path)
            expect(why.place == int(at) and why.path == path and why.position is None, name, why)
        else:
            text = sitaungo.sheet(path)
            expect(type(text) is str and text == wanted, name, text)
        told.append(wanted[:7])
    why = None
    gc.collect()
    expect(len(os.listdir("/proc/self/fd")) == before, "descriptors that were left open")
    print("%d files, %d refused" % (len(told), told.count("refused")))


def sheets_of_no_files(folder):
    """What can't be opened or mapped, and every form of a path."""
    raises(FileNotFoundError, sitaungo.sheet, os.path.join(folder, "missing"))
    fifo = os.path.join(folder, "fifo")
    os.mkfifo(fifo)
    for path in (folder, fifo, "/dev/null"):
        raises(OSError, sitaungo.sheet, path)
    raises(TypeError, sitaungo.sheet, None)
    raises(ValueError, sitaungo.sheet, "a\0b")
    path = os.path.join(folder.encode(), b"\xff.mf4")
    refuses(5, sitaungo.sheet, put(path, bytes(100)))
    put(path, column_file([(2, (4, 0, 0, 64), 8, 1, [bytes(8)])]))
    wanted = "page 1 of 1".ljust(80) + "\n" + "%8d t %-32s %12d %12d %-10s\n" % (0, "-", 8, 1, "-")
    expect(sitaungo.sheet(path) == sitaungo.sheet(pathlib.Path(os.fsdecode(path))) == wanted, "forms of a path")
    print("no files")


def sheets_changed(*paths):
    """Files that are written to or cut off while the library reads them: Changed, also where they would be refused."""
    own = sitaungo._library.sitaungo_sheet

    def changing(change, path):
        def call(*words):
            answer = own(*words)
            change(path)
            return answer

        return call

    for path in paths:
        for change in (lambda path: os.truncate(path, 0), lambda path: put(path, got(path) + b"more")):
            before = got(path)
            time.sleep(0.02)  # the clock of the file system ticks
            sitaungo._library.sitaungo_sheet = changing(change, path)
            raises(sitaungo.Changed, sitaungo.sheet, path)
            put(path, before)
    print("changed")


# ---- converting


def converting(recording, sample, refused, folder):
    """By the command: its report, its refusals, its statuses."""
    result = os.path.join(folder, "r.mf4")
    report = sitaungo.convert(recording, result)
    expect(report["outcome"] == "converted" and len(report["columns"]) == 2 and report["result"] == result, report)
    with sitaungo.ColumnFile(result) as file:
        expect([c.kind for c in file.columns] == ["time", "signal"], file.columns)
    why = raises(sitaungo.CommandFailed, sitaungo.convert, recording, result)
    expect(why.status == 1 and "exists" in str(why) and why.report is None, why)
    expect(sitaungo.convert(recording, result, resume=True)["outcome"] == "done already", "resume")
    report = sitaungo.convert(recording, result, force=True, block_size=64, verify=True, sha256=True, complete=False)
    expect(report["block_size"] == 64 and len(report["sha256"]) == 64, report)
    table = os.path.join(folder, "table")
    with open(table, "wb") as file:
        file.write(bytes((1, 0, 1)))
    report = sitaungo.convert(recording, result, force=True, types=table, unit=64, share_time=True, photos=True)
    expect(report["types"] == [1, 0, 1] and report["unit"] == 64 and report["share_time"] is True and report["photos"] is True, report)
    expect([o["reason"] for o in report["omissions"]] == [8], report)
    why = raises(sitaungo.Refused, lambda: sitaungo.convert(recording, result, force=True, types=recording))
    expect(why.number == 27 and why.place == 0 and "table of treatments" in why.words, why)
    expect(sitaungo.convert(recording, result, force=True, unit=4096)["unit"] == 4096, "the unit")
    with sitaungo.ColumnFile(result) as file:
        expect([c.blocks[0] % 4096 for c in columns_of(got(result))] == [0, 0] and len(file.column(1)) == 20, "columns on the unit")
    before = got(result)
    why = raises(sitaungo.Refused, lambda: sitaungo.convert(recording, result, force=True, unit=12))
    expect(why.number == 26 and why.place == 0 and "power of two" in why.words and got(result) == before, why)
    why = raises(sitaungo.Refused, lambda: sitaungo.convert(refused, result, force=True))
    expect(why.number == 5 and why.place == 0 and "not an MDF recording" in why.words, why)
    why = raises(sitaungo.CommandFailed, lambda: sitaungo.convert(sample, result, force=True, complete=True))
    expect(why.status == 4 and why.report["omissions"][0]["name"] == "rack.1.99" and got(result) == before, why)
    why = raises(sitaungo.CommandFailed, lambda: sitaungo.convert(recording, result, no_such_choice=True))
    expect(why.status == 1 and "no-such-choice" in why.said, why)
    for choice in ("check", "json", "quiet", "listing", "sheet", "take_out", "d", "folder"):
        raises(TypeError, lambda: sitaungo.convert(recording, result, **{choice: True}))
    dashed = os.path.join(folder, "-d")
    os.chdir(folder)
    expect(sitaungo.convert(recording, "-d")["result"] == "-d" and got(dashed)[:3] == b"MDF", "a name with a dash")
    expect(sitaungo.convert(os.fsencode(recording), b"\xff.mf4")["outcome"] == "converted", "a name that is no text")
    os.environ["SITAUNGO_COMMAND"] = os.path.join(folder, "missing")
    raises(FileNotFoundError, sitaungo.convert, recording, result)
    print("converting")


# ---- taking columns out


def taking_out(path, twice, folder):
    """By names and numbers; what is kept, what isn't done, what is left where it fails."""
    new, old, before = os.path.join(folder, "new.mf4"), got(path), os.listdir(folder)
    size = sitaungo.take_out(path, new, ["rack.0.01", 5, "rack.2.99"])
    expect(size == os.path.getsize(new) < len(old) and got(path) == old, size)
    with sitaungo.ColumnFile(path) as file, sitaungo.ColumnFile(new) as other:
        kept = [c for c in file.columns if c.number not in (1, 5, 298)]
        expect([c.name for c in kept] == [c.name for c in other.columns] and len(kept) == 296, "names")
        for c, d in zip(kept, other.columns):
            expect(bytes(file.column(c.number).records()) == bytes(other.column(d.number).records()), c.name)
            expect((c.unit, c.records, c.data_type, c.kind, c.comment) == (d.unit, d.records, d.data_type, d.kind, d.comment), c.name)
        again = sitaungo.take_out(path, new, [file.column(1), 5, 298], force=True)
    expect(again == size, "by a Column")
    whole = got(new)
    raises(FileExistsError, sitaungo.take_out, path, new, [1])
    raises(ValueError, lambda: sitaungo.take_out(path, path, [1], force=True))
    os.link(path, os.path.join(folder, "link.mf4"))
    raises(ValueError, lambda: sitaungo.take_out(path, os.path.join(folder, "link.mf4"), [1], force=True))
    os.unlink(os.path.join(folder, "link.mf4"))
    raises(OSError, sitaungo.take_out, path, folder, [1])
    raises(FileNotFoundError, sitaungo.take_out, path, os.path.join(folder, "none", "n.mf4"), [1])
    raises(FileNotFoundError, sitaungo.take_out, os.path.join(folder, "none"), new, [1])
    raises(ValueError, sitaungo.take_out, path, os.path.join(folder, "a"), [-1])
    raises(sitaungo.NameMissing, lambda: sitaungo.take_out(path, new, ["none"], force=True))
    why = raises(sitaungo.NameRepeated, lambda: sitaungo.take_out(twice, new, ["twice"], force=True))
    expect(why.numbers == (0, 2), why.numbers)
    for number, columns, unit in ((33, [299], 8), (33, [1, 1], 8), (33, [2**64 - 1], 8), (34, [0], 8), (26, [1], 12)):
        why = raises(sitaungo.Refused, lambda: sitaungo.take_out(path, new, columns, unit, force=True))
        expect((why.number, why.place, why.words, why.path) == (number, 0, sitaungo.TAKING[number], path), why)
    expect(got(new) == whole, "a file that is as it was")
    os.chmod(new, 0o600)
    expect(sitaungo.take_out(os.fsencode(path), pathlib.Path(new), (), unit=4096, force=True) == os.path.getsize(new) > len(old), "forms of a path")
    expect(os.stat(new).st_mode & 0o777 == 0o600, "its mode")
    expect(sitaungo.take_out(path, new, [], force=True) == len(old) and got(new) == old, "nothing out")
    taking_out_changed(path, os.path.join(folder, "other.mf4"))
    os.unlink(new)
    expect(sorted(os.listdir(folder)) == sorted(before), "files that were left", os.listdir(folder))
    print("taking out")


def taking_out_changed(path, new):
    """A file that is written to or cut off while the library reads it: Changed, and no new file."""
    own, before = sitaungo._library.sitaungo_take_out, got(path)
    for change in (lambda: os.truncate(path, 5000), lambda: put(path, before + b"more")):
        for at in (1, 2):
            calls = []

            def call(*words):
                answer = own(*words)
                calls.append(answer)
                if len(calls) == at:
                    change()
                return answer

            time.sleep(0.02)  # the clock of the file system ticks
            sitaungo._library.sitaungo_take_out = call
            raises(sitaungo.Changed, sitaungo.take_out, path, new, [1])
            expect(not os.path.exists(new), "a new file")
            put(path, before)
    sitaungo._library.sitaungo_take_out = own


def taking_out_of(folder):
    """Of each file what stands beside it: the new file, or a refusal."""
    told, new = [], os.path.join(folder, "made")
    for name in sorted(name for name in os.listdir(folder) if name.endswith(".mf4")):
        path = os.path.join(folder, name)
        unit, number, place, *numbers = map(int, got(path[:-4] + ".txt").split())
        try:
            size = sitaungo.take_out(path, new, numbers, unit, force=True)
            expect(number == 0 and got(new) == got(path[:-4] + ".new") and size == os.path.getsize(new), name)
        except sitaungo.Refused as why:
            expect((why.number, why.place) == (number, place), name, why)
        told.append(number)
    print("%d files, %d refused" % (len(told), len(told) - told.count(0)))


# ---- steps


def steps(recording, result, folder):
    """Beside the command's result of the same recording: over a bytearray and a mapped file, with names, from any buffer."""
    image, text = got(recording), "<FHcomment><TX>in steps</TX></FHcomment>"
    size = sitaungo.Steps.size(image, text)
    file = bytearray(b"\xa5") * (size + 5)
    c = sitaungo.Steps(image, file, text, time=1)
    expect(c.steps == (size + 4095) // 4096 + 2 == c.left and c.report["file_size"] == size and c.omissions is None, c.report)
    expect(file == b"\xa5" * (size + 5), "beginning stores")
    for number in (2**64 - 1, 0, 7, 8):
        c.name(number)
        c.step()
        expect(file[:8] == bytes(8) and file[size:] == b"\xa5" * 5, "a store")
    refuses(30, c.name, 9)
    refuses(29, c.recall, 9)
    c.recall(0)
    expect(c.left == c.steps - 1, c.left)
    c.step(c.left - 1)
    expect(file[:8] == bytes(8) and c.left == 1 and c.omissions is None, "before the last store")
    c.step(2**64 - 1)
    expect(c.left == 0 and file[:8] == b"MDF     " and file[size:] == b"\xa5" * 5, "after the last store")
    before = bytes(file)
    c.step()
    refuses(30, c.name, 0)
    refuses(30, c.recall, 9)
    expect(file == before and c.left == 0, "a further step")
    whole = put(os.path.join(folder, "steps.mf4"), before[:size])
    with sitaungo.ColumnFile(whole) as a, sitaungo.ColumnFile(result) as b:
        expect([d._replace(channel_at=0) for d in a.columns] == [d._replace(channel_at=0) for d in b.columns], "other columns")
        expect([a.column(k).records() for k in range(len(a.columns))] == [b.column(k).records() for k in range(len(b.columns))], "other records")
    expect([reason for _, reason in c.omissions] == [4], c.omissions)
    for of in (bytearray, memoryview):
        file = bytearray(size)
        sitaungo.Steps(of(image), memoryview(file), text.encode(), time=1).step(2**64 - 1)
        expect(file == before[:size], "another buffer")
    mapped(image, text, before[:size], os.path.join(folder, "mapped.mf4"))
    refuse_steps(image, text, size)
    print("%d steps" % c.steps)


def mapped(image, text, whole, path):
    """README's way: flushed after the first store, before the last and after it. The mapping can be closed while the conversion is there."""
    with open(path, "wb+") as f:
        f.truncate(len(whole))
        file = mmap.mmap(f.fileno(), len(whole))
        c = sitaungo.Steps(image, file, text, time=1)
        c.step()
        file.flush()
        c.step(c.left - 1)
        file.flush()
        expect(got(path)[:8] == bytes(8) and got(path)[8:] == whole[8:], "before the last store")
        c.step()
        file.flush()
        file.close()
        raises(ValueError, c.step)
    expect(got(path) == whole, "another file")


def refuse_steps(image, text, size):
    """Refusals of a conversion have its words; wrong arguments are no refusals."""
    for number, at, f in (
        (20, size, lambda: sitaungo.Steps(image, bytearray(size - 1), text)), (2, 0, lambda: sitaungo.Steps(image, bytearray(size), text, block_size=0)),
        (26, 0, lambda: sitaungo.Steps.size(image, text, unit=12)), (27, 0, lambda: sitaungo.Steps.size(image, text, types=b"\0")),
        (1, 0, lambda: sitaungo.Steps.size(image, "x" * 4097)), (4, 0, lambda: sitaungo.Steps.size(b"", text)),
        (5, 0, lambda: sitaungo.Steps.size(bytes(1000), text)),
    ):
        why = raises(sitaungo.Refused, f)
        expect((why.number, why.place, why.path) == (number, at, None) and why.words == sitaungo.CONVERTING[number], why.number, why)
        expect(str(why) == "refused %d place %d: %s" % (number, at, why.words), why)
    for f in (
        lambda: sitaungo.Steps(image, bytearray(size), text, time=-1), lambda: sitaungo.Steps(image, bytearray(size), text, unit=2**64),
        lambda: sitaungo.Steps(image, bytearray(size), text).name(-1), lambda: sitaungo.Steps(image, bytearray(size), text).step(2**64),
        lambda: sitaungo.share(-1, [(1, 1)]),
    ):
        raises(ValueError, f)
    raises(BufferError, sitaungo.Steps(image, bytes(size), text).step)
    raises(TypeError, sitaungo.Steps, "text", bytearray(size), text)
    expect(sitaungo.share(10, [(100, 3), (100, 100), (100, 100)]) == [3, 4, 3] and sitaungo.share(7, [(1, 0)] * 8) == [0] * 8, "shares")
    for number, stores, jobs in ((31, 5, []), (31, 0, [(0, 0)] * 9), (32, 0, [(1, 1)]), (32, 5, [(1, 1), (0, 0)])):
        refuses(number, sitaungo.share, stores, jobs)


def passes(*recordings):
    """Several recordings at once: each file as alone."""
    images, text = [got(r) for r in recordings], "in passes"
    files = [bytearray(sitaungo.Steps.size(image, text)) for image in images]
    jobs = [sitaungo.Steps(image, file, text, time=2) for image, file in zip(images, files)]
    while any(job.left for job in jobs):
        for job, stores in zip(jobs, sitaungo.share(20, [(9, job.left) for job in jobs])):
            job.step(stores)
    for image, file in zip(images, files):
        one = bytearray(len(file))
        sitaungo.Steps(image, one, text, time=2).step(2**64 - 1)
        expect(one == file, "another file than alone")
    print("%d files" % len(files))


# ---- speed


def speed(path, turns):
    """All columns whole, beside a plain copy of as many bytes: the thread's processor time, the best of some turns, in milliseconds."""
    numpy = numpy_or_none()
    with sitaungo.ColumnFile(path) as file:
        ranges = [(c.number, 0, c.records) for c in file.columns]
        parts = [bytearray(c.records * (c.data_bytes + c.invalidation_bytes)) for c in file.columns]
        source = bytes(sum(map(len, parts)))

        def timed(f):
            best = None
            for _ in range(int(turns)):
                begun = time.thread_time()
                kept = f()
                best = min(best or 1e9, 1000 * (time.thread_time() - begun))
                del kept
            return best

        told = {"MB": len(source) / 1e6, "columns": len(ranges), "plain copy": timed(lambda: bytearray(source))}
        told["read_many"] = timed(lambda: file.read_many(ranges))
        told["records, one by one"] = timed(lambda: [file.column(k).records() for k, _, _ in ranges])
        if numpy:
            told["values, not copied"] = timed(lambda: [file.column(k).values() for k, _, _ in ranges])
    told["opening"] = timed(lambda: sitaungo.ColumnFile(path).close())
    expect(told["read_many"] < 3 * told["plain copy"], told)
    print(", ".join("%s %.4g" % (name, value) for name, value in told.items()))


if __name__ == "__main__":
    globals()[sys.argv[1]](*sys.argv[2:])
