"""Photos that belong to a channel: references of channels to attachments (document 02, request 9)."""
import dataclasses
import os
import struct

from common import DIFFERENT, EXAMPLE, SAMPLE, any_user, converts, ends, expect, folder, holds, read, report_of, run, write
from mdf import File, block, columns_of, without_time

PHOTOS, SHARE = "--photos", "--share-time"
RECORDS = 9
PAST = 1 << 20
MOST = 65535  # references of a channel
ATTACHMENTS = 64

# Names of attachments: the header's chain has these, in this order; "outside" is a sound one that no chain has.
CHAIN = ("a", "b", "c")


@dataclasses.dataclass
class Channel:
    """A channel of one byte. A link is the name of a block, or an address."""

    name: str
    references: tuple = ()
    type: int = 0
    count: int = None  # of references, where it isn't theirs
    more: tuple = ()  # links behind the references
    flags: int = 0
    below: object = 0  # links 2, 6 and 7
    signal: object = 0
    unit: object = 0
    outside: bool = False  # of its record


@dataclasses.dataclass
class Group:
    channels: tuple
    remote: int = None  # the number of the group whose time it uses
    storage: bool = False
    part: bytes = b""  # behind its records


def time_of(name, *references, **more):
    return Channel(name, references, type=2, **more)


class Recording:
    """Groups, each in a DG of its own; attachments, each with a comment. `end` is what the last attachment leads to."""

    def __init__(self, *groups, chain=CHAIN, end=None):
        self.groups, self.image = groups, bytearray(b"MDF     4.10    tests   " + bytes(40) + bytes(104))
        self.places = {name: self.attachment(name) for name in (*chain, "outside")}
        self.places.update({"HD": 64, "in a": self.places.get("a", 0) + 8, "TX": self.text("another kind"), "DT": self.add(b"DT", [], bytes(8))})
        self.places.update({"SD": self.add(b"SD", [], bytes(8)), "CA": self.add(b"CA", [0], bytes(16)), "CN": self.add(b"CN", [0] * 9, b"\xff" * 72)})
        self.places["SI"] = self.add(b"SI", [0] * 3, bytes(8))
        self.cgs, self.behind = [self.add(b"CG", [0] * 7, bytes(32)) for _ in groups], {}
        self.places["CG"] = self.cgs[-1]
        for at, following in zip(chain, (*chain[1:], end)):
            self.lead(at, following)
        dg = 0
        for number in reversed(range(len(groups))):
            dg = self.group(number, dg)
        self.image[64:168] = block(b"HD", [dg, 0, 0, self.places[chain[0]] if chain else 0, 0, 0], bytes(32))

    def add(self, *words):
        at = len(self.image)
        made = block(*words)
        self.image += made + bytes(-len(made) % 8)
        return at

    def text(self, text):
        return self.add(b"TX", [], text.encode() + b"\0")

    def lead(self, name, following):
        """The first link of a block."""
        struct.pack_into("<Q", self.image, self.places[name] + 24, self.places[following] if following else 0)

    def attachment(self, name):
        photo = ("photo %s " % name).encode() * (1 + len(self.image) % 5)
        return self.add(b"AT", [0, 0, 0, self.text("of " + name)], struct.pack("<HH4x16sQQ", 1, 0, bytes(16), len(photo), len(photo)) + photo)

    def place(self, link):
        return self.places.get(link, link)

    def channel(self, c, byte, following):
        links = [following, self.place(c.below), self.text(c.name), 0, 0, self.place(c.signal), self.place(c.unit), 0]
        links += [self.place(r) for r in (*c.references, *c.more)]
        count = len(c.references) if c.count is None else c.count
        data = struct.pack("<BBBBIIIIBBH", c.type, 0, 0, 0, 99 if c.outside else byte, 8, c.flags, 0, 7, 0, count)
        self.places[c.name] = self.add(b"CN", links, data + bytes(48))
        return self.places[c.name]

    def group(self, number, following):
        g, cn = self.groups[number], 0
        for byte, c in reversed(list(enumerate(g.channels))):
            cn = self.channel(c, byte, cn)
        remote = 0 if g.remote is None else self.cgs[g.remote]
        about = struct.pack("<QQHHIII", 0, RECORDS, g.storage | (8 if remote else 0), 0, 0, len(g.channels), 0)
        made = block(b"CG", [0, cn, self.text("g%d" % number), 0, 0, 0, remote], about)
        self.image[self.cgs[number] : self.cgs[number] + len(made)] = made
        rows = bytes(self.cell(c, r) for r in range(RECORDS) for c in g.channels)
        data = self.add(b"DT", [], rows + g.part)
        self.behind[number] = data + 24 + len(rows)
        return self.add(b"DG", [following, self.cgs[number], data, 0], bytes(8))

    @staticmethod
    def cell(c, r):
        return 3 * r if c.type == 2 else len(c.name) + 7 * r

    def named(self, name):
        return next(c for g in self.groups for c in g.channels if c.name == name)


def put(here, recording, name="a.mf4"):
    return write(os.path.join(here, name), recording.image)


def converted(here, *words, source="a.mf4"):
    """The result, its report and its listing."""
    converts(run(source, "r.mf4", "--force", "--json", "r.json", "--quiet", *words, cwd=here))
    listing = run("--check", source, "r.mf4", "--quiet", "--listing", *words, cwd=here)
    converts(listing)
    (report,) = report_of(os.path.join(here, "r.json"))
    return read(os.path.join(here, "r.mf4")), report, listing.printed


def attachments(data):
    """The attachments of a file's header: address, data and comment of each."""
    f = File(data)
    return [(at, f.body(at), f.text(f.links(at)[3])) for at in f.chain(f.links(64)[3])]


def due(recording, name, chain=CHAIN):
    """What a column's references lead to: an attachment's data and comment, None for 0."""
    f = File(bytes(recording.image))
    places = [recording.place(r) for r in recording.named(name).references]
    expect(all(at == 0 or at in [recording.places[x] for x in chain] for at in places), "a bad reference")
    return [(f.body(at), f.text(f.links(at)[3])) if at else None for at in places]


def led_to(data, column):
    """The same of a column of the result, each reference leading to an attachment of its header's chain."""
    found = {at: (body, text) for at, body, text in attachments(data)}
    expect(column.reference_count == len(column.references) and all(at in found for at in column.references if at), column.name, column.references)
    return [found[at] if at else None for at in column.references]


def check_references(recording, data, chain=CHAIN):
    """Every column has its channel's references; the header's attachments are the recording's, in order. How many references there are."""
    f = File(bytes(recording.image))
    expect([x[1:] for x in attachments(data)] == [(f.body(at), f.text(f.links(at)[3])) for at in (recording.places[x] for x in chain)], "the attachments")
    columns = columns_of(data)
    for c in columns:
        expect(led_to(data, c) == due(recording, c.name, chain), c.name, c.references)
    return sum(len(c.references) for c in columns)


def without_places(report):
    return {name: count for name, count in report["report"].items() if name not in ("metadata_size", "file_size")}


def keeps(here, recording, *words, chain=CHAIN):
    """With the option references are kept; all else is as without it, where no column has any."""
    put(here, recording)
    usual, without, listing = converted(here, *words)
    data, with_, listed = converted(here, PHOTOS, *words)
    count = check_references(recording, data, chain)
    expect((without["photos"], with_["photos"]) == (False, True), without, with_)
    expect(all(c.references == [] and c.reference_count == 0 for c in columns_of(usual)), "references without the option")
    expect(listing == listed and with_["omissions"] == without["omissions"] and with_["columns"] == without["columns"], listed)
    expect(without_places(with_) == without_places(without), with_)
    expect(with_["report"]["metadata_size"] == without["report"]["metadata_size"] + 8 * count and with_["report"]["file_size"] == len(data), with_)
    shown = [[(c.name, c.type, c.payload, c.kinds, c.signal, c.master) for c in columns_of(x)] for x in (usual, data)]
    expect(shown[0] == shown[1], "columns with the option and without")
    expect((count == 0) == (without_time(usual) == without_time(data)), "the bytes with the option and without")
    return data


def refusal(here, *words):
    """Number and place; None where it is converted."""
    r = run("a.mf4", "r.mf4", "--force", "--json", "r.json", *words, cwd=here)
    (report,) = report_of(os.path.join(here, "r.json"))
    expect(r.returncode == report["status"] and ("refusal" in report) == (r.returncode == 2), r.said)
    return (report["refusal"]["number"], report["refusal"]["place"]) if "refusal" in report else None


def refuses(here, recording, without, with_, *words):
    put(here, recording)
    found = refusal(here, *words), refusal(here, PHOTOS, *words)
    expect(found == (without, with_), "without and with the option", found, "and not", (without, with_))


EVERY_FORM = (
    time_of("time", "c"), Channel("none"), Channel("one", ("a",)), Channel("several", ("c", "a", "b")), Channel("zeros", (0, "a", 0, 0, "b", 0)),
    Channel("zero", (0,)), Channel("twice", ("b", "b", "a", "b")), Channel("text", ("a", "c"), type=1, signal="SD"), Channel("virtual", ("b",), type=6),
    Channel("default X", ("a",), more=("HD", "CG", "outside"), flags=0x1000), Channel("more links", (), more=("outside", PAST)),
    Channel("longest", ("c",), type=5), Channel("of its own", ("a", "b"), type=9),
)


@any_user
def references_of_every_form():
    """None, one, several, zeros, the same twice, of a time channel, before further links, of each type that is kept; of two groups; without attachments."""
    with folder() as here:
        data = keeps(here, Recording(Group(EVERY_FORM)))
        sizes = {c.name: File(data).size(File(data).links(c.cg)[1]) for c in columns_of(data)}
        expect((sizes["none"], sizes["one"], sizes["zeros"], sizes["default X"]) == (160, 168, 208, 168), sizes)
        untimed, only_time = Group((Channel("s1", ("c",)), Channel("s2"))), Group((time_of("t3", "a", 0),))
        keeps(here, Recording(Group((time_of("t0"), Channel("s0", ("b", "a")))), untimed, only_time))
        keeps(here, Recording(Group((time_of("t0"), Channel("s0", (0, 0)))), chain=()), chain=())
        keeps(here, Recording(Group((time_of("t0"), Channel("s0")))))


@any_user
def two_references_by_bytes():
    """A reference and a 0: the CN has 176 bytes, 10 links, the count 2, and nothing else is another."""
    recording = Recording(Group((Channel("s", ("a", 0)),)))
    with folder() as here:
        put(here, recording)
        usual, _, _ = converted(here)
        data, _, _ = converted(here, PHOTOS)
        (before,), (after,) = columns_of(usual), columns_of(data)
        a, b, old, new = File(usual), File(data), File(usual).links(before.cg)[1], File(data).links(after.cg)[1]
        expect((b.size(new), len(b.links(new)), after.reference_count) == (176, 10, 2), b.size(new))
        expect(b.links(new) == [*a.links(old), attachments(data)[0][0], 0], b.links(new))
        body = a.body(old)
        expect(b.body(new) == body[:22] + b"\2\0" + body[24:] and body[22:24] == b"\0\0", "the data of CN")
        expect(old == new and len(data) == len(usual) + 16, "places")


@any_user
def references_that_are_not_looked_at():
    """Of channels that are omitted, of VLSD storage groups and below a composition, whatever they lead to; behind a count of 0."""
    bad = {"references": ("outside", PAST), "count": 5}
    with folder() as here:
        for c in (
            Channel("sync", type=4, **bad), Channel("outside it", outside=True, **bad), Channel("second time", type=2, **bad),
            Channel("array", below="CA", **bad), Channel("structure", below="CN", **bad), Channel("stored", type=1, signal="CG", **bad),
        ):
            data = keeps(here, Recording(Group((time_of("time", "a"), c, Channel("s", ("b",))))))
            expect([x.name for x in columns_of(data)] == ["time", "s"], c.name)
        keeps(here, Recording(Group((time_of("time", "a"),)), Group((Channel("in storage", **bad),), storage=True)))
        keeps(here, Recording(Group((time_of("time", "a"), Channel("s", more=("outside", PAST))))))


@any_user
def references_that_are_refused():
    """Too few links for their count; past the image, to an attachment outside the header's chain or behind its end, into one, to another kind: 28 at the CN."""
    short = (
        {"references": ("a",), "count": 2}, {"count": 1}, {"references": ("a",), "count": MOST}, {"references": ("a", "b"), "count": 258},
        {"references": ("a", "b"), "more": ("HD", "CG"), "count": 5},
    )
    elsewhere = (("a", PAST), (2**64 - 1,), ("outside",), ("in a",), ("TX", "a"), ("HD",), (0, "outside"), ("a", "b", "outside"))
    with folder() as here:
        for words in (*short, *({"references": to} for to in elsewhere)):
            for c in (Channel("s", **words), Channel("v", type=1, signal="SD", **words), Channel("t", type=2, **words)):
                front = () if c.type == 2 else (time_of("time", "a"),)
                recording = Recording(Group((*front, c, Channel("good", ("a",)))))
                refuses(here, recording, None, (28, recording.places[c.name]))
        for end in ("a", "b", "TX", "SI"):
            for name, good in (("b", True), ("c", False)):
                recording = Recording(Group((Channel("s", (name,)),)))
                recording.lead("b", end)
                recording.lead("SI", "c")
                refuses(here, recording, None, None if good else (28, recording.places["s"]))


def spoiled(recording, name):
    """The attachment has under 4 links."""
    struct.pack_into("<Q", recording.image, recording.places[name] + 16, 3)
    return recording


@any_user
def order_of_refusals_with_references():
    """The header's attachments first; of a column after what it is omitted for and before its signal data; columns as they are planned."""
    with folder() as here:
        text = {"type": 1, "signal": "DT"}
        r = Recording(Group((time_of("t"), Channel("s", **text))))
        refuses(here, spoiled(r, "c"), (12, r.places["DT"]), (18, r.places["c"]))
        r = Recording(Group((time_of("t"), Channel("s", ("outside",), **text))))
        refuses(here, r, (12, r.places["DT"]), (28, r.places["s"]))
        r = Recording(Group((time_of("t", "outside"), Channel("s", **text))))
        refuses(here, r, (12, r.places["DT"]), (28, r.places["t"]))
        r = Recording(Group((time_of("t"), Channel("first", **text), Channel("s", ("outside",)))))
        refuses(here, r, (12, r.places["DT"]), (12, r.places["DT"]))
        r = Recording(Group((time_of("t"), Channel("s", ("outside",), below=PAST))))
        refuses(here, r, (4, PAST), (4, PAST))
        r = Recording(Group((time_of("t"), Channel("s", ("outside",), type=1, signal=PAST))))
        refuses(here, r, (4, PAST), (4, PAST))
        r = Recording(Group((time_of("t"), Channel("s", ("outside",))), part=b"!"))
        refuses(here, r, (15, r.behind[0]), (28, r.places["s"]))
        r = Recording(Group((Channel("user", ("outside",)),), remote=1), Group((time_of("t", "outside"), Channel("s", ("outside",)))))
        refuses(here, r, None, (28, r.places["t"]))
        r = Recording(Group((time_of("t0"), Channel("s0", ("outside",)))), Group((time_of("t1", "outside"),)))
        refuses(here, r, None, (28, r.places["s0"]))
        unit = Recording(Group((time_of("t", "outside", unit=PAST),)))
        refuses(here, unit, (4, PAST), (4, PAST), SHARE)
        refuses(here, unit, (4, PAST), (28, unit.places["t"]))
        refuses(here, spoiled(unit, "a"), (4, PAST), (18, unit.places["a"]), SHARE)


@any_user
def many_attachments():
    """64 of them, each referred to; one more is 19 before 28, in the stage of attachments without the option."""
    names = tuple("%d" % k for k in range(ATTACHMENTS + 1))
    with folder() as here:
        keeps(here, Recording(Group((time_of("t"), Channel("s", names[:-1]))), chain=names[:-1]), chain=names[:-1])
        r = Recording(Group((time_of("t"), Channel("s", ("outside",)))), chain=names)
        refuses(here, r, (19, r.places[names[-1]]), (19, r.places[names[-1]]))
        r = Recording(Group((time_of("t"), Channel("s", type=1, signal="DT"))), chain=names)
        refuses(here, r, (12, r.places["DT"]), (19, r.places[names[-1]]))


@any_user
def many_references():
    """As many as a channel can have, of a time channel and of a signal: a CN of 524,440 bytes each."""
    references = tuple(("a", 0, "c", "b", "c")[k * k % 5] for k in range(MOST))
    with folder() as here:
        data = keeps(here, Recording(Group((time_of("t", *references), Channel("s", references[::-1]), Channel("u", references[:1])))))
        expect(File(data).size(File(data).links(columns_of(data)[0].cg)[1]) == 524440, "the CN")


@any_user
def references_of_shared_clocks():
    """A column that stands for others has its own channel's references; those of the others aren't looked at."""
    with folder() as here:
        groups = Group((time_of("t0", "b", 0), Channel("s0", ("a",)))), Group((time_of("t1", "c"), Channel("s1", ("c",))))
        data = keeps(here, Recording(*groups), SHARE)
        expect([c.name for c in columns_of(data)] == ["t0", "s0", "s1"], "columns")
        data = keeps(here, Recording(*groups))
        expect([c.name for c in columns_of(data)] == ["t0", "s0", "t1", "s1"], "columns")
        r = Recording(groups[0], Group((time_of("t1", "outside"), Channel("s1"))))
        refuses(here, r, None, (28, r.places["t1"]))
        expect([c.name for c in columns_of(keeps(here, r, SHARE))] == ["t0", "s0", "s1"], "columns")
        r = Recording(Group((Channel("user", ("c",)),), remote=2), Group((time_of("t1", "outside"),)), Group((time_of("t2", "a"),)))
        refuses(here, r, None, (28, r.places["t1"]), SHARE)
        r = Recording(Group((Channel("user", ("c",)),), remote=2), Group((time_of("t1", "b"),)), Group((time_of("t2", "outside"),)))
        expect([c.name for c in columns_of(keeps(here, r, SHARE))] == ["t1", "user"], "columns")


@any_user
def references_with_other_choices():
    """A unit, a block size, a table by which type 4 is kept; recordings without references are converted as without the option."""
    recording = Recording(Group((*EVERY_FORM, Channel("sync", ("b", 0, "a"), type=4, signal="a"))))
    with folder() as here:
        table = write(os.path.join(here, "table"), bytes((1, 4, 0)))
        for words in (("--unit", 4096), ("--block-size", 1), ("--types", table), (SHARE,), ("--unit", 64, "--types", table, "--block-size", 7, SHARE)):
            data = keeps(here, recording, *words)
            sync = [c for c in columns_of(data) if c.name == "sync"]
            expect(len(sync) == ("--types" in words) and all(len(c.references) == 3 and c.signals == [] for c in sync), words)
            starts = [at for c in columns_of(data) for at in c.blocks[:1] + c.signals]
            expect(all(at % (words[1] if "--unit" in words else 8) == 0 for at in starts), words, starts)
        bad = Recording(Group((time_of("t"), Channel("sync", ("outside",), type=4))))
        refuses(here, bad, None, (28, bad.places["sync"]), "--types", table)
        refuses(here, bad, None, None)
        for source in (SAMPLE, EXAMPLE):
            converts(run(source, "with.mf4", PHOTOS, "--force", cwd=here))
            converts(run(source, "without.mf4", "--force", cwd=here))
            expect(without_time(read(os.path.join(here, "with.mf4"))) == without_time(read(os.path.join(here, "without.mf4"))), source)


@any_user
def references_of_a_result():
    """A result that is converted again with the option has the same references."""
    recording = Recording(Group(EVERY_FORM), Group((time_of("t1", "b"), Channel("s1", ("c", 0)))))
    with folder() as here:
        put(here, recording)
        first, _, _ = converted(here, PHOTOS)
        write(os.path.join(here, "again.mf4"), first)
        again, _, _ = converted(here, PHOTOS, source="again.mf4")
        expect([(c.name, c.payload) for c in columns_of(again)] == [(c.name, c.payload) for c in columns_of(first)], "columns")
        check_references(recording, again)
        usual, _, _ = converted(here, source="again.mf4")
        expect(all(c.references == [] for c in columns_of(usual)), "references without the option")


@any_user
def checks_with_references():
    """--verify, --check and --resume need the option if RESULT was made with it, and not if it wasn't."""
    with folder() as here:
        put(here, Recording(Group((time_of("t", "a"), Channel("s", ("b", 0))))))
        converts(run("a.mf4", "r.mf4", PHOTOS, "--verify", cwd=here))
        converts(run("--check", "a.mf4", "r.mf4", PHOTOS, cwd=here))
        r = run("a.mf4", "r.mf4", PHOTOS, "--resume", "--json", "-", cwd=here)
        converts(r)
        expect('"done already"' in r.printed and '"photos": true' in r.printed, r.printed)
        ends(run("--check", "a.mf4", "r.mf4", cwd=here), DIFFERENT, "is not the conversion of")
        ends(run("a.mf4", "r.mf4", "--resume", cwd=here), DIFFERENT)
        converts(run("a.mf4", "r.mf4", "--resume", "--force", cwd=here))
        converts(run("--check", "a.mf4", "r.mf4", cwd=here))
        ends(run("--check", "a.mf4", "r.mf4", PHOTOS, cwd=here), DIFFERENT)
        holds(here, "a.mf4", "r.mf4")


@any_user
def refusal_of_references_in_words():
    recording = Recording(Group((time_of("t"), Channel("s", ("outside",)))))
    with folder() as here:
        put(here, recording)
        r = run("a.mf4", "r.mf4", PHOTOS, cwd=here)
        ends(r, 2, "refused 28 place %d: a channel's reference to an attachment" % recording.places["s"])
        holds(here, "a.mf4")


@any_user
def several_recordings_with_references():
    recording = Recording(Group(EVERY_FORM))
    with folder() as here:
        for name in ("a.mf4", "b.mf4"):
            put(here, recording, name)
        os.mkdir(os.path.join(here, "results"))
        converts(run("-d", "results", "a.mf4", "b.mf4", PHOTOS, cwd=here))
        for name in ("a.mf4", "b.mf4"):
            check_references(recording, read(os.path.join(here, "results", name)))
