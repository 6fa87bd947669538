"""Each refusal of request 13 before every one that follows it, and limits from both sides. What is due is written down here by hand: a number, and the
block or address that is its place."""
import kept
import sheets
import taken
from again import Choices, Lent, Room, address_of, convert, copied as recording_of_copies, history as recording_of_history
from column_files import LATE as PAST, Block, File, chained, channel_data, finish, group_data, list_data, put_column
from steps import WORK
from trial import Call, called, compare, due, library, require


# ---- the order


class Site:
    """A file of five columns and a call of it, sound but for the faults that are made in it: c0 a time, c1 its signal with references, c2 and c3 of
    type 1 with signal data, c4 a signal of c0; history, comment, attachments with metadata."""

    def __init__(self):
        f = self.f = File()
        self.unit, self.numbers, self.words, self.short = 8, [], [WORK] * 4, False
        self.at1, self.at2 = (f.add(b"AT", [None, f.add(b"TX", [], b"photo\0\0\0"), None, None], bytes(40)) for _ in range(2))
        self.fh1, self.fh2 = (f.add(b"FH", [None, f.add(b"MD", [], b"history\0")], bytes(16)) for _ in range(2))
        self.comment = f.add(b"MD", [], b"comment\0")
        put_column(f, [b"abcdefgh", b"ijkl"], kind=2)
        time = f.columns[0].cg
        named = [(3, f.add(b"TX", [], b"name one")), (5, f.add(b"CC", [None] * 4, bytes(24)))]
        put_column(f, [b"ABCDEFGH", b"IJ"], references=[self.at1, None, self.at2], cg_links=[time], links=named)
        for letter in b"23":
            sd = f.add(b"SD", [], bytes([letter]) * 9)
            unit = f.add(b"TX", [], b"unit of %c" % letter)
            put_column(f, [bytes([letter]) * 8], kind=1, data_bytes=8, cg_links=[time], links=[(6, sd), (7, unit)])
        put_column(f, [b"xyz"], inval=2, block=b"DT", cg_links=[time])
        finish(f, [self.fh1, self.fh2], [self.at1, self.at2], self.comment)
        for k, c in enumerate(f.columns):
            setattr(self, "c%d" % k, c)

    def bad(self, **fields):
        """A TX that is as it shouldn't be."""
        return setting(self.f.add(b"TX", [None], bytes(8)), **fields)

    def call(self):
        image = self.f.made()
        return Call(image, self.unit, tuple(self.numbers), 0 if self.short else None, words=tuple(self.words))


class Fault:
    """`make` makes it in a site and answers the block or address that is its place. Faults of one `slot` exclude each other."""

    def __init__(self, name, number, slot, make):
        self.name, self.number, self.slot, self.make = name, number, slot, make


def setting(b, result=None, **fields):
    for name, value in fields.items():
        setattr(b, name, value)
    return b if result is None else result


def linking(b, number, to):
    """Leads link `number` of a block, from 1, elsewhere; what it leads to."""
    b.links[number - 1] = to
    return to


HUGE, LONG, OVER = 2**60, 1 << 27, 268435457  # links, and lengths past the image and over 9's


def block_faults(what, slot, of):
    """8, 9, 4 and 10 of a block, in their order."""
    yield Fault(what + ": links", 8, slot, lambda s: setting(of(s), count=HUGE))
    yield Fault(what + ": length", 9, slot, lambda s: setting(of(s), length=OVER))
    yield Fault(what + ": range", 4, slot, lambda s: setting(of(s), length=LONG))
    yield Fault(what + ": kind", 10, slot, lambda s: setting(of(s), kind=b"XX"))


def copy_faults(what, slot, lead):
    """What a link to metadata can meet; `lead(s, to)` leads the link to a block or address."""
    yield Fault(what + ": header", 4, slot, lambda s: lead(s, PAST))
    yield Fault(what + ": links", 8, slot, lambda s: lead(s, s.bad(count=HUGE)))
    yield Fault(what + ": length", 9, slot, lambda s: lead(s, s.bad(length=OVER)))
    yield Fault(what + ": range", 4, slot, lambda s: lead(s, s.bad(length=LONG)))
    yield Fault(what + ": circle", 16, slot, lambda s: lead(s, circle(s)))


def circle(s):
    b = s.bad()
    b.links[0] = b
    return b


def front(s, version, begin=b"MDF     "):
    s.f.front = begin + version + s.f.front[16:]
    return 0


def column_faults(k):
    """Of the walk, at column k, in its order."""
    c = lambda s: s.f.columns[k]  # noqa: E731
    name = "DG %d" % k
    yield Fault(name + " past the image", 4, (k, "before"), lambda s: linking(s.f.columns[k - 1].dg, 1, PAST))
    yield from block_faults(name, (k, "dg"), lambda s: c(s).dg)
    yield Fault(name + ", its list past the image", 4, (k, "dl"), lambda s: linking(c(s).dg, 3, PAST))
    yield Fault(name + ", its list of another kind", 12, (k, "dl"), lambda s: setting(c(s).list, kind=b"DZ"))
    yield Fault(name + ", its list: links", 8, (k, "dl"), lambda s: setting(c(s).list, count=HUGE))
    yield Fault(name + ", its list: range", 4, (k, "dl"), lambda s: setting(c(s).list, length=LONG))
    yield Fault(name + ", a block past the image", 4, (k, "dt"), lambda s: linking(c(s).list, 2, PAST))
    yield Fault(name + ", a block of another kind", 12, (k, "dt"), lambda s: setting(c(s).blocks[0], kind=b"DZ"))
    yield Fault(name + ", its list leads back", 11, (k, "next"), lambda s: linking(c(s).list, 1, c(s).list))
    yield Fault(name + ", its id size", 13, (k, "id"), lambda s: setting(c(s).dg, data=b"\3" + bytes(7)))
    yield Fault(name + ", its CG is met before", 11, (k, "to cg"), lambda s: linking(c(s).dg, 2, s.c0.cg))
    yield from block_faults("CG %d" % k, (k, "cg"), lambda s: c(s).cg)
    yield Fault("CG %d, its name" % k, 4, (k, "cg name"), lambda s: linking(c(s).cg, 3, PAST))
    yield Fault("CG %d, its short name" % k, 4, (k, "cg name"), lambda s: linking(c(s).cg, 3, s.bad(length=23)))
    yield from block_faults("CN %d" % k, (k, "cn"), lambda s: c(s).cn)
    yield Fault("CN %d, its name" % k, 4, (k, "cn name"), lambda s: linking(c(s).cn, 3, PAST))
    yield Fault("CN %d, its long name" % k, 4, (k, "cn name"), lambda s: linking(c(s).cn, 3, s.bad(length=LONG)))


def signal_faults(k):
    """24 "column by column", with an SD's 4 and 8 first."""
    c = lambda s: s.f.columns[k]  # noqa: E731
    yield Fault("SD %d past the image" % k, 4, (k, "sd"), lambda s: linking(c(s).cn, 6, PAST))
    yield Fault("SD %d: links" % k, 8, (k, "sd"), lambda s: setting(c(s).cn.links[5], count=HUGE))
    yield Fault("SD %d: range" % k, 4, (k, "sd"), lambda s: setting(c(s).cn.links[5], length=LONG))
    yield Fault("SD %d: another kind" % k, 24, (k, "sd"), lambda s: setting(c(s).cn.links[5], 0, kind=b"HL"))
    yield Fault("seventh link %d to no column" % k, 24, (k, "seventh"), lambda s: setting(c(s).cg, 0, links=[*c(s).cg.links[:6], c(s).cn]))


def listing(s, *numbers):
    s.numbers += numbers
    return 0


def too_many(s):
    """65 attachments."""
    more = [s.f.add(b"AT", [None] * 4, bytes(40)) for _ in range(63)]
    chained([s.at1, s.at2, *more])
    return more[-1]


def fewer(b):
    b.links.pop()
    return b


def data_block_past(s, k):
    b = setting(s.f.columns[k].blocks[0], length=2**40)
    return lambda: b.at + 24


def faults():
    """In the order of request 13."""
    yield Fault("a work slice too short", 1, "words", lambda s: s.words.__setitem__(3, WORK - 1) or 0)
    yield Fault("the unit", 26, "unit", lambda s: setattr(s, "unit", 12) or 0)
    yield Fault("no MDF", 5, "mdf", lambda s: front(s, s.f.front[8:16], b"MDF 4.20"))
    yield Fault("version unreadable", 6, "version", lambda s: front(s, b"4.2x    "))
    yield Fault("version too old", 7, "version", lambda s: front(s, b"4.09    "))
    yield from block_faults("HD", "hd", lambda s: s.f.head)
    for k in (1, 2):
        yield from column_faults(k)
    yield Fault("DG 1 again", 11, "again", lambda s: linking(s.c4.dg, 1, s.c1.dg))
    yield Fault("a block of column 3 past the image", 4, "range 3", lambda s: data_block_past(s, 3))
    yield Fault("a block of column 4 past the image", 4, "range 4", lambda s: data_block_past(s, 4))
    yield Fault("the form of column 0: cycle count", 24, "form", lambda s: setting(s.c0.cg, 0, data=group_data(13)))
    for k in (2, 3):
        yield from signal_faults(k)
    yield Fault("no such column", 33, "33", lambda s: listing(s, 5))
    yield Fault("a number twice", 33, "33", lambda s: listing(s, 4, 4))
    yield Fault("a column that others name", 34, "34", lambda s: listing(s, 0))
    yield Fault("an attachment past the image", 4, "at", lambda s: linking(s.at1, 1, PAST))
    yield Fault("an attachment of three links", 18, "at", lambda s: fewer(s.at2))
    yield Fault("an attachment: links", 18, "at", lambda s: setting(s.at2, count=HUGE))
    yield Fault("an attachment: range", 4, "at", lambda s: setting(s.at2, length=LONG))
    yield Fault("65 attachments", 19, "at", too_many)
    yield Fault("a reference to no attachment", 28, "28 1", lambda s: setting(s.c1.cn, links=[*s.c1.cn.links[:8], s.at1, None, s.comment]))
    yield Fault("fewer links than references", 28, "28 4", lambda s: setting(s.c4.cn, data=channel_data(0, 1)))
    yield from copy_faults("comment of HD", "comment", lambda s, to: linking(s.f.head, 6, to))
    for name, number, fields in (("links", 8, {"count": HUGE}), ("length", 9, {"length": OVER}), ("range", 4, {"length": LONG}), ("none", 17, {"links": []})):
        yield Fault("history: " + name, number, "history", lambda s, fields=fields: setting(s.fh2, **fields))
    yield Fault("history past the image", 4, "history", lambda s: linking(s.fh1, 1, PAST))
    yield from copy_faults("metadata of history", "history", lambda s, to: linking(s.fh2, 2, to))
    for k in (0, 1):
        for what, link in (("cg", 4), ("cg", 6), ("cn", 4), ("cn", 5), ("cn", 7), ("cn", 8), ("dg", 4)):
            lead = lambda s, to, k=k, what=what, link=link: linking(getattr(s.f.columns[k], what), link, to)  # noqa: E731
            yield from copy_faults("%s link %d of column %d" % (what.upper(), link, k), (k, what, link), lead)
    yield from copy_faults("a link of an attachment", "at 2", lambda s, to: linking(s.at1, 2, to))
    yield from copy_faults("a link of the last attachment", "at 4", lambda s, to: linking(s.at2, 4, to))
    yield Fault("no room", 20, "room", lambda s: setattr(s, "short", True) or 0)


def place_of(made):
    """The address of what a fault was made in, once the file is laid."""
    return made() if callable(made) else made.at if isinstance(made, Block) else made


def clash(a, b):
    """Whether faults are made in one block or in one link, or one cuts off what the other needs."""
    if a.slot == b.slot:
        return True
    together = {("dl", "dt"), ("dl", "next"), ("dt", "next"), ("dg", "id"), ("dg", "to cg"), ("to cg", "cg")}
    return isinstance(a.slot, tuple) and isinstance(b.slot, tuple) and a.slot[0] == b.slot[0] and (a.slot[1], b.slot[1]) in together


def check_order():
    """Each fault alone, and each with every later one: the earlier one is told. It is made last, so that it stands whatever the later one changes."""
    every, tried = list(faults()), 0
    sound = Site().call()
    size = sound.model().size
    require(compare(sound, sound.model()) is not None, "the site is refused", sound.model())
    for i, first in enumerate(every):
        for second in [None, *every[i + 1 :]]:
            if second and clash(first, second):
                continue
            site = Site()
            if second:
                second.make(site)
            made = first.make(site)
            call = site.call()
            answer, place = call.model(), size if first.number == 20 else place_of(made)
            require((answer.number, answer.place) == (first.number, place), first.name, "before %s:" % second.name if second else "alone:", answer)
            compare(call, answer)
            tried += 1
    return "each of %d faults, alone and with each later one: %s calls, the earlier one told" % (len(every), format(tried, ","))


def in_one_block():
    """Several faults in one block, with the one that is due: header range, 8, 9, range, 10; of AT 18 before its range; of a copied block 16 before all, its
    kind after them, 19 after its kind."""
    both = {"count": HUGE, "length": OVER, "kind": b"XX"}, {"length": OVER, "kind": b"XX"}, {"length": LONG, "kind": b"XX"}
    for what in ("dg", "cg", "cn"):
        for number, fields in zip((8, 9, 4), both):
            yield "%s: %s" % (what.upper(), ", ".join(fields)), number, lambda s, what=what, fields=fields: setting(getattr(s.c2, what), **fields)
    for number, fields in zip((8, 9, 4), both):
        yield "HD: " + ", ".join(fields), number, lambda s, fields=fields: setting(s.f.head, **fields)
        yield "HD comment: " + ", ".join(fields), number, lambda s, fields=fields: linking(s.f.head, 6, s.bad(**fields))
        yield "history: " + ", ".join(fields), number, lambda s, fields=fields: setting(s.fh2, links=[], **fields)
    yield "a DL of another kind with too many links", 12, lambda s: setting(s.c2.list, kind=b"XX", count=HUGE)
    yield "a DL of too many links, too long", 8, lambda s: setting(s.c2.list, count=HUGE, length=LONG)
    yield "a DL of over 256 MiB past the image", 4, lambda s: setting(s.c2.list, length=OVER)
    yield "an SD of too many links, too long, of another kind", 8, lambda s: setting(s.c2.cn.links[5], count=HUGE, length=OVER, kind=b"DT")
    yield "an SD of over 256 MiB, past the image, of another kind", 4, lambda s: setting(s.c2.cn.links[5], length=OVER, kind=b"DT")
    yield "an SD under 24 bytes", 8, lambda s: setting(s.c2.cn.links[5], length=23)
    yield "an AT of three links, past the image", 18, lambda s: setting(s.at2, links=[None] * 3, length=LONG)
    yield "an AT of another kind, past the image: the chain ends, and a reference leads to none", 28, lambda s: setting(s.at2, s.c1.cn, kind=b"XX", length=LONG)
    yield "a name of another kind, under 24 bytes, of a column: copied", 8, lambda s: linking(s.c2.cn, 3, s.bad(length=23, kind=b"XX"))
    yield "a name under 24 bytes", 4, lambda s: linking(s.c2.cn, 3, s.bad(length=23))
    yield "the 66th block of a chain, past the image", 16, lambda s: sixty_five(s, PAST)
    yield "the 66th block of a chain, too long", 16, lambda s: sixty_five(s, s.bad(length=OVER))
    yield "the 66th block of a chain, of another kind", 16, lambda s: sixty_five(s, s.bad(kind=b"XX"))
    yield "the 65th block of a chain leads back to the first", 16, lambda s: back_to_the_first(s)


def sixty_five(s, last):
    """The comment of HD is the first of 65 CC, of which the last leads there."""
    top, low = deep(s.f, 65)
    linking(low, 1, last)
    linking(s.f.head, 6, top)
    return last


def back_to_the_first(s):
    top, low = deep(s.f, 65)
    linking(low, 1, top)
    return linking(s.f.head, 6, top)


def check_blocks():
    tried = 0
    for name, number, make in in_one_block():
        site = Site()
        made = make(site)
        call = site.call()
        answer = call.model()
        require((answer.number, answer.place) == (number, place_of(made)), name, answer, "and not", number, place_of(made))
        compare(call, answer)
        tried += 1
    return "several faults in one block: %d calls, the first one told" % tried


# ---- limits


def tree(blocks):
    """An SI with so many blocks, itself counted."""
    f = File()
    return f, f.add(b"SI", [f.add(b"TX", [], bytes(8)) for _ in range(blocks - 1)], bytes(8))


def deep(f, blocks, kind=b"CC"):
    """So many blocks, each the only link of the one before; the first and the last."""
    last = b = f.add(kind, [None], bytes(8))
    for _ in range(blocks - 1):
        b = f.add(kind, [b], bytes(8))
    return b, last


def shown(name, call, number=0, place=None):
    """Model and library say what is due; accepted, the reader finds it right."""
    answer = call.model()
    at = (place.at if isinstance(place, Block) else place or 0) if number else 0
    require((answer.number, answer.place) == (number, at), name, "gives", answer, "and not", number, at)
    file = compare(call, answer)
    if number:
        return "%s: refused with %d" % (name, number)
    differs = kept.difference(call.image, file, call.numbers, call.unit)
    require(differs is None, name, differs)
    return "%s: accepted, %s bytes" % (name, format(len(file), ","))


def copied_blocks():
    found = []
    for blocks, number in ((2050, 0), (2051, 19)):
        f, top = tree(blocks)
        image = finish(f, comment=top).made()
        found.append(shown("%s copied blocks" % format(blocks, ","), Call(image), number, top.links[-1]))
    f, top = tree(2000)
    for c in range(3):
        put_column(f, [b"abcdefgh"], links=[(3 + c, f.add(b"SI", [f.add(b"TX", [], bytes(8)) for _ in range(24)], bytes(8)))])
    image = finish(f, comment=top).made()
    found.append(shown("2,075 copied blocks of three columns", Call(image), 19, f.columns[2].cn.links[4]))
    found.append(shown("the same, a column out", Call(image, numbers=(1,))))
    for name, fields, number in (("of another kind", {"kind": b"XX"}, 0), ("past the image", {"length": LONG}, 4), ("of too many links", {"count": HUGE}, 8)):
        f, top = tree(2051)
        setting(top.links[-1], **fields)
        found.append(shown("2,051 copied blocks, the last one " + name, Call(finish(f, comment=top).made()), number, top.links[-1]))
    return "; ".join(found)


def results_of_copies():
    """The converter's 2,048 copied blocks are 2,050 with its MD and FH."""
    found = []
    for blocks in (2047, 2048):
        outcome, file, _ = convert(recording_of_copies(blocks), Choices(1), Lent())
        require(outcome.accepted, outcome)
        found.append(shown("a result of %s copied blocks, MD and FH" % format(blocks, ","), Call(file)))
        require(taken.take_out(file, 8, []).file() == file, "another file")
    return "; ".join(found)


def depths():
    found = []
    for blocks, number in ((64, 0), (65, 0), (66, 16)):
        for where in ("the header", "a column", "an attachment"):
            f = File()
            top, last = deep(f, blocks)
            at = f.add(b"AT", [None, top if where == "an attachment" else None, None, None], bytes(40))
            put_column(f, [b"abcdefgh"], links=[(5, top)] if where == "a column" else [])
            image = finish(f, attached=[at], comment=top if where == "the header" else None).made()
            found.append(shown("%d CC, each the link of the one before, of %s" % (blocks, where), Call(image), number, last))
    return "; ".join(found)


def deep_once_taken():
    """A chain of 70 CC of which an earlier column has the second half: 16 once that column is out."""
    f = File()
    low, _ = deep(f, 35)
    high = low
    for _ in range(35):
        high = f.add(b"CC", [high], bytes(8))
    put_column(f, [b"abcdefgh"], links=[(5, low)])
    put_column(f, [b"ABCDEFGH"], links=[(5, high)])
    image, block = finish(f).made(), low
    for _ in range(30):
        block = block.links[0]
    return "; ".join([
        shown("70 CC, half of them copied before", Call(image)), shown("the column of that half out", Call(image, numbers=(0,)), 16, block),
        shown("the other column out", Call(image, numbers=(1,))),
    ])


def histories():
    """Without a new entry a history of 65 CC is copied; a result's has one entry more."""
    found = []
    for blocks, number in ((64, 0), (65, 0), (66, 16)):
        f = File()
        chain = [f.add(b"CC", [None], bytes(8)) for _ in range(blocks)]
        found.append(shown("a history of %d CC" % blocks, Call(finish(f, history=chain).made()), number, chain[-1]))
    for blocks, number, kind in ((63, 0, None), (64, 16, b"##MD"), (65, 16, b"##FH")):
        outcome, file, _ = convert(recording_of_history(blocks), Choices(1), Lent())
        answer = taken.take_out(file, 8, [])
        require(kind is None or taken.Image(file).kind(answer.place) == kind, "16 at", answer)
        found.append(shown("the result of a recording with a history of %d CC" % blocks, Call(file), number, answer.place))
    return "; ".join(found)


def many_columns():
    found = []
    for columns, number in ((511, 0), (512, 0), (513, 19)):
        f = File()
        for k in range(columns):
            put_column(f, [bytes([k % 256])], cg_links=[f.columns[0].cg] if k else [])
        image = finish(f).made()
        found.append(shown("%d columns" % columns, Call(image), number, f.columns[-1].dg))
        if number == 0:
            found.append(shown("%d columns, all but the first out" % columns, Call(image, 4096, tuple(range(columns - 1, 0, -1)))))
            found.append(shown("%d columns, all out, one of them twice" % columns, Call(image, 8, (*range(columns), 7)), 33))
    return "; ".join(found)


def attachments():
    found = []
    for count, number in ((63, 0), (64, 0), (65, 19)):
        f = File()
        ats = [f.add(b"AT", [None, f.add(b"TX", [], b"%08d" % k), None, None], bytes(40 + k % 5)) for k in range(count)]
        put_column(f, [b"abcdefgh"], references=[*ats, None, ats[0]])
        found.append(shown("%d attachments, all of them photos of a column" % count, Call(finish(f, attached=ats).made()), number, ats[-1]))
    return "; ".join(found)


def example():
    """Document 01's example file."""
    image, found = sheets.example(), []
    for numbers, size in (((), 1288), ((1,), 776), ((0, 1), 256), ((1, 0), 256)):
        call = Call(image, 8, numbers)
        require(call.model().size == size, "the example's size", call.model())
        found.append(shown("document 01's example, columns %s out" % (", ".join(map(str, numbers)) or "none"), call))
    require(Call(image).model().file() == image, "nothing out is the example itself")
    found += [shown("column 0 out", Call(image, 8, (0,)), 34), shown("an output of 1,287 bytes", Call(image, room=1287), 20, 1288)]
    return "; ".join(found + [shown("an output of 1,288 bytes", Call(image, room=1288))])


def units():
    """Fewer zeros than the unit has bytes before columns and SD."""
    site, found = Site(), []
    image = site.f.made()
    for k in range(10):
        found.append(shown("unit %d" % (8 << k), Call(image, 8 << k, (4,))))
    return "; ".join(found)


# ---- large files, in memory that is never written where nothing but zeros stands


class Huge:
    """A file of two columns: the first has a block of `length` bytes, all zeros, that is listed so often; the second has eight bytes."""

    def __init__(self, listed, length, width):
        f, block = File(), Block(b"DV", [], length=24 + length)
        cn = f.add(b"CN", [None] * 8, channel_data())
        cycles = listed * length // width if width else 0
        cg = f.add(b"CG", [None, cn, None, None, None, None], group_data(cycles, width))
        first = f.add(b"DG", [None, cg, f.add(b"DL", [None] + [block] * listed, list_data(listed, length)), None], bytes(8))
        second = put_column(f, [b"abcdefgh"])
        f.head.links[0], first.links[0] = first, second.dg
        f.blocks.append(block)
        front = f.made()
        self.size = block.at + 24 + length
        self.room = Room(self.size)
        self.room.bytes[: len(front)] = front

    def told(self, name, numbers, room=0):
        """Model and library: the answer, and its words."""
        call = Call(self.room.bytes, 8, numbers, room, length=self.size)
        answer = call.model()
        if library():
            out = bytearray(room)
            got = called(call, address_of(out), room)
            require(got == due(answer), name, got, "and not", answer)
            require(not answer.accepted or bytes(out[: answer.size]) == answer.file(), name, "another file")
        return answer, "%s: %s" % (name, answer)


def over_four_gib():
    """Offsets over 2^32: a column of 5 GiB is taken out, or the other one, whose new file has no room here."""
    huge = Huge(1, 5 << 30, 1024)
    first, said = huge.told("a column of 5 GiB out of a file of 5 GiB", (0,), 4096)
    second, more = huge.told("the other one out, no output", (1,))
    front = 168 + 64 + 104 + 160 + 56  # up to the data of one column
    require(first.size == front + 24 + 8 and (second.number, second.place) == (20, front + 24 + (5 << 30)), first, second)
    return said + "; " + more


def sums():
    """Over 2^59 bytes: 20 with 2^64 - 1, also where the sum passes 2^64; else with the bytes needed."""
    found = []
    for listed, bits in ((1 << 18, 40), (1 << 19, 40), (1 << 20, 44), ((1 << 20) + 3, 44)):
        answer, said = Huge(listed, 1 << bits, 1 << 16).told("a block of 2^%d bytes listed %s times" % (bits, format(listed, ",")), ())
        over = listed << bits >= 1 << 59
        require(answer.number == 20 and (answer.place == 2**64 - 1) == over and answer.place > listed << min(bits, 40), said)
        found.append(said)
    return "; ".join(found)


def long_lists():
    """A DL over 268,435,456 bytes is no fault here. It takes 3 GiB of memory."""
    listed = (1 << 25) + 8
    huge = Huge(listed, 0, 0)
    return "; ".join(huge.told("a DL of %s blocks, column %d out" % (format(listed, ","), k), (k,), 4096)[1] for k in range(2))


def tries(large=False):
    every = [example, check_order, check_blocks, copied_blocks, results_of_copies, depths, deep_once_taken, histories, many_columns, attachments, units, over_four_gib, sums]
    return every + [long_lists] * large
