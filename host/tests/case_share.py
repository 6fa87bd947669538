"""One clock for many groups (document 02, request 8)."""
import dataclasses
import os
import struct

from common import DIFFERENT, EXAMPLE, SAMPLE, any_user, converts, ends, expect, folder, holds, read, report_of, run, write
from mdf import block, columns_of, without_time

SHARE = "--share-time"
TIMES = (1, 2, 3)
SECOND = (b"TX", b"s\0")
PAST = 1 << 20


@dataclasses.dataclass
class Group:
    """A group whose records have `front` bytes, a time of one byte and a signal of one byte. With `remote` it has no time of its own, and uses that of the
    group of this number."""

    times: tuple = TIMES
    front: int = 0
    remote: int = None
    kind: bytes = b"DT"  # of its data
    part: bytes = b""  # behind its records
    type: int = 2
    sync: int = 1
    data_type: int = 0
    flags: int = 0
    inval: int = 0  # invalidation bytes, all ones
    position: int = 0
    conversion: int = None  # the number of a conversion block
    unit: tuple = None  # kind, bytes, and a length and a link count where they aren't the block's
    comment: int = 0
    below: int = 0  # link 2 of the signal

    def record(self, number, r):
        time = b"" if self.remote is not None else bytes([self.times[r]])
        front = bytes((91 * number + 7 * r + i) % 256 for i in range(self.front))
        return front + time + self.signal(number, r) + b"\xff" * self.inval

    @staticmethod
    def signal(number, r):
        return bytes([(16 * number + r) % 256])


class Rack:
    """A recording of such groups, each in a DG of its own, or all in one with ids of one byte."""

    def __init__(self, *groups, together=False):
        self.groups, self.image = groups, bytearray(b"MDF     4.10    tests   " + bytes(40) + bytes(104))
        self.conversions = [self.add(b"CC", [0] * 4, struct.pack("<BBHHHdd", 0, 0, 0, 0, 0, 0.0, 0.0)) for _ in range(2)]
        self.units = [self.unit(g.unit) for g in groups]
        self.places = [self.add(b"CG", [0] * 7, bytes(32)) for _ in groups]
        for number, g in enumerate(groups):
            self.fill(number, g)
        dg = self.together() if together else self.apart()
        self.image[64:168] = block(b"HD", [dg, 0, 0, 0, 0, 0], bytes(32))

    def add(self, *words):
        at = len(self.image)
        made = block(*words)
        self.image += made + bytes(-len(made) % 8)
        return at

    def unit(self, unit):
        if unit is None:
            return 0
        kind, data, size, links = (*unit, None, None)[:4]
        at = self.add(kind, [], data)
        for offset, number in ((8, size), (16, links)):
            if number is not None:
                struct.pack_into("<Q", self.image, at + offset, number)
        return at

    def text(self, text):
        return self.add(b"TX", [], text.encode() + b"\0")

    def fill(self, number, g):
        own = g.remote is None
        signal = struct.pack("<BBBBIIII", 0, 0, 0, 0, g.front + own, 8, 0, 0) + bytes(52)
        cn = self.add(b"CN", [0, g.below, self.text("s%d" % number), 0, 0, 0, 0, 0], signal)
        if own:
            conversion = 0 if g.conversion is None else self.conversions[g.conversion]
            links = [cn, 0, self.text("t%d" % number), 0, conversion, 0, self.units[number], g.comment]
            cn = self.add(b"CN", links, struct.pack("<BBBBIIII", g.type, g.sync, g.data_type, 0, g.front, 8, g.flags, g.position) + bytes(52))
        remote = 0 if own else self.places[g.remote]
        about = struct.pack("<QQHHIII", number + 1, len(g.times), 0 if own else 8, 0, 0, g.front + own + 1, g.inval)
        at = self.places[number]
        made = block(b"CG", [0, cn, self.text("g%d" % number), 0, 0, 0, remote], about)
        self.image[at : at + len(made)] = made

    def records(self, number):
        g = self.groups[number]
        return [g.record(number, r) for r in range(len(g.times))]

    def apart(self):
        dg = 0
        for number in reversed(range(len(self.groups))):
            g = self.groups[number]
            data = self.add(g.kind, [], b"".join(self.records(number)) + g.part)
            dg = self.add(b"DG", [dg, self.places[number], data, 0], bytes(8))
        return dg

    def together(self):
        for a, b in zip(self.places, self.places[1:]):
            struct.pack_into("<Q", self.image, a + 24, b)
        longest = max(len(g.times) for g in self.groups)
        mixed = [(r, n) for r in range(longest) for n, g in enumerate(self.groups) if r < len(g.times)]
        data = b"".join(bytes([n + 1]) + self.records(n)[r] for r, n in mixed)
        return self.add(b"DG", [0, self.places[0], self.add(b"DT", [], data), 0], b"\1" + bytes(7))

    def axis(self, number):
        """The number of the group whose time it has."""
        remote = self.groups[number].remote
        return number if remote is None else remote

    def times(self, number):
        g = self.groups[self.axis(number)]
        kept = b"\1" if g.flags & 3 == 2 and g.position // 8 < g.inval else b""
        return b"".join(bytes([t]) + kept for t in g.times)


def converted(here, rack, *words):
    """Columns, report, what is printed, listing and the bytes of the result."""
    write(os.path.join(here, "a.mf4"), rack.image)
    r = run("a.mf4", "r.mf4", "--force", "--json", "r.json", *words, cwd=here)
    converts(r)
    listed = run("--check", "a.mf4", "r.mf4", "--listing", "--quiet", *words, cwd=here)
    converts(listed)
    (report,) = report_of(os.path.join(here, "r.json"))
    data = read(os.path.join(here, "r.mf4"))
    check_times(rack, data)
    check_listing(columns_of(data), listed.printed)
    return columns_of(data), report, r.printed, data


def check_times(rack, data):
    """Each signal has its records, and names a time column that has the times of its group."""
    columns = columns_of(data)
    signals = [c for c in columns if c.name.startswith("s")]
    expect([c.name for c in signals] == ["s%d" % n for n in range(len(rack.groups))], [c.name for c in columns])
    for n, c in enumerate(signals):
        g = rack.groups[n]
        expect(c.payload == b"".join(g.signal(n, r) for r in range(len(g.times))), c.name, c.payload)
        expect(columns[c.master].payload == rack.times(n) and columns[c.master].records == c.records == len(g.times), c.name, "names", columns[c.master].name)
        expect(c.master < columns.index(c), c.name, "comes before its time")


def check_listing(columns, printed):
    lines = printed.splitlines()
    kinds = [line.split()[1] for line in lines[1 : 1 + len(columns)]]
    masters = [line.split()[7] for line in lines[1 : 1 + len(columns)]]
    expect(lines[0] == "columns %d" % len(columns) and lines[-1] == "omitted 0", printed)
    expect(kinds == ["t" if c.name.startswith("t") else "s" for c in columns], printed)
    expect(masters == ["-" if c.master is None else str(c.master) for c in columns], printed)


def shares(here, rack, names):
    """With the option the columns have these names, and so many groups' times are shared; without it none, and the result is another."""
    wanted = names.split()
    own = sum(g.remote is None for g in rack.groups)
    shared = own - sum(name.startswith("t") for name in wanted)
    columns, report, printed, data = converted(here, rack, SHARE)
    counts = report["report"]
    expect([c.name for c in columns] == wanted, [c.name for c in columns], "and not", wanted)
    expect((counts["source_groups"], counts["time_groups"], counts["signal_groups"]) == (len(rack.groups), own - shared, len(rack.groups)), counts)
    expect(counts["shared_time_groups"] == shared and report["share_time"] is True, report)
    expect(printed.endswith(", bytes %d, shared time columns %d\n" % (len(data), shared)), printed)
    columns, report, printed, usual = converted(here, rack)
    counts = report["report"]
    expect((counts["time_groups"], counts["shared_time_groups"], report["share_time"]) == (own, 0, False), report)
    expect("shared" not in printed and printed.endswith(", bytes %d\n" % len(usual)), printed)
    expect((without_time(data) == without_time(usual)) == (shared == 0), "the bytes with the option and without")


@any_user
def equal_clocks():
    """At another byte, of records of another size, in DT and DV, of several DG and of one."""
    with folder() as here:
        ten = [Group(front=n % 3, unit=SECOND) for n in range(10)]
        shares(here, Rack(*ten), "t0 s0 s1 s2 s3 s4 s5 s6 s7 s8 s9")
        shares(here, Rack(*ten, together=True), "t0 s0 s1 s2 s3 s4 s5 s6 s7 s8 s9")
        shares(here, Rack(Group(), Group(front=4, kind=b"DV"), Group(front=1)), "t0 s0 s1 s2")
        shares(here, Rack(Group(flags=2, inval=1), Group(flags=2, inval=2, position=9)), "t0 s0 s1")
        shares(here, Rack(Group(times=()), Group(times=())), "t0 s0 s1")


@any_user
def clocks_that_differ():
    """In the last record or the first, in the count, or in what describes the time channel."""
    with folder() as here:
        for other in (
            Group(times=(1, 2, 4)), Group(times=(0, 2, 3)), Group(times=(1, 2)), Group(times=(1, 2, 3, 4)), Group(sync=2), Group(data_type=1),
            Group(flags=0x1000), Group(flags=2), Group(conversion=0), Group(unit=SECOND),
        ):
            for together in (False, True):
                shares(here, Rack(Group(), other, together=together), "t0 s0 t1 s1")
        shares(here, Rack(Group(conversion=0), Group(conversion=0)), "t0 s0 s1")
        shares(here, Rack(Group(conversion=0), Group(conversion=1)), "t0 s0 t1 s1")
        shares(here, Rack(Group(flags=2, inval=1), Group(flags=2, inval=1, position=8)), "t0 s0 t1 s1")


@any_user
def units_of_clocks():
    """Kind and bytes decide; a link to another kind is none."""
    alike = ((None, None), (SECOND, SECOND), (None, (b"SI", bytes(8))), (SECOND, (b"TX", b"s\0")), ((b"MD", b"\xff"), (b"MD", b"\xff")))
    apart = (
        (None, SECOND), (SECOND, (b"MD", b"s\0")), (SECOND, (b"TX", b"s")), (SECOND, (b"TX", b"s\0\0")), ((b"TX", b"\xff\0"), (b"TX", b"\xfe\0")),
        ((b"MD", b"s"), (b"MD", b"\0s")),
    )
    with folder() as here:
        for a, b in alike:
            shares(here, Rack(Group(unit=a), Group(unit=b)), "t0 s0 s1")
        for a, b in apart:
            shares(here, Rack(Group(unit=a), Group(unit=b)), "t0 s0 t1 s1")


@any_user
def several_clocks():
    with folder() as here:
        other = (9, 8, 7)
        shares(here, Rack(Group(), Group(times=other), Group(), Group(times=other)), "t0 s0 t1 s1 s2 s3")
        shares(here, Rack(Group(), Group(times=other), Group(), Group(times=other), together=True), "t0 s0 t1 s1 s2 s3")


@any_user
def remote_users_of_shared_clocks():
    """The first one that needs it gets the time column of the group that stands, before that group itself."""
    with folder() as here:
        for together in (False, True):
            shares(here, Rack(Group(remote=2), Group(), Group(), together=together), "t1 s0 s1 s2")
            shares(here, Rack(Group(), Group(remote=2), Group(), Group(remote=0), together=together), "t0 s0 s1 s2 s3")
        columns, *_ = converted(here, Rack(Group(remote=2), Group(), Group()))
        expect([c.name for c in columns] == ["t2", "s0", "t1", "s1", "s2"], [c.name for c in columns])


def refusal(here, rack, *words):
    """Number and place; None where it is converted."""
    write(os.path.join(here, "a.mf4"), rack.image)
    r = run("a.mf4", "r.mf4", "--force", "--json", "r.json", *words, cwd=here)
    (report,) = report_of(os.path.join(here, "r.json"))
    expect(r.returncode == report["status"] and ("refusal" in report) == (r.returncode == 2), r.said)
    return (report["refusal"]["number"], report["refusal"]["place"]) if "refusal" in report else None


def refuses(here, rack, without, with_):
    found = refusal(here, rack), refusal(here, rack, SHARE)
    expect(found == (without, with_), "without and with the option", found, "and not", (without, with_))


def end_of_records(rack, number):
    """Where the byte behind the records of a group in a DG of its own lies."""
    joined = b"".join(rack.records(number))
    return rack.image.index(joined, rack.places[-1]) + len(joined)


@any_user
def refusals_with_shared_clocks():
    """Unit texts first, then the data of compared groups; a time channel that another stands for isn't copied."""
    short = (b"TX", b"s\0\0\0\0\0\0\0", 23)
    with folder() as here:
        alone = Rack(Group(unit=short))
        refuses(here, alone, (8, alone.units[0]), (4, alone.units[0]))
        first = Rack(Group(part=b"!"), Group(unit=short))
        refuses(here, first, (15, end_of_records(first, 0)), (4, first.units[1]))
        second = Rack(Group(below=PAST), Group(part=b"!"))
        refuses(here, second, (4, PAST), (15, end_of_records(second, 1)))
        refuses(here, Rack(Group(), Group(comment=PAST)), (4, PAST), None)
        refuses(here, Rack(Group(comment=PAST), Group()), (4, PAST), (4, PAST))
        links = Rack(Group(unit=SECOND), Group(unit=(*SECOND, None, 1)))
        refuses(here, links, (8, links.units[1]), None)
        apart = Rack(Group(), Group(times=(1, 2, 4), comment=PAST))
        refuses(here, apart, (4, PAST), (4, PAST))


@any_user
def checks_with_shared_clocks():
    """--verify, --check and --resume need the option if RESULT was made with it, and not if it wasn't."""
    with folder() as here:
        write(os.path.join(here, "a.mf4"), Rack(Group(), Group(front=2), Group(times=(1, 2, 4))).image)
        converts(run("a.mf4", "r.mf4", SHARE, "--verify", cwd=here))
        r = run("--check", "a.mf4", "r.mf4", SHARE, cwd=here)
        converts(r)
        expect(r.printed.endswith(", shared time columns 1\n"), r.printed)
        r = run("a.mf4", "r.mf4", SHARE, "--resume", "--json", "-", cwd=here)
        converts(r)
        expect('"done already"' in r.printed and '"share_time": true' in r.printed and '"shared_time_groups": 1' in r.printed, r.printed)
        ends(run("--check", "a.mf4", "r.mf4", cwd=here), DIFFERENT, "is not the conversion of")
        ends(run("a.mf4", "r.mf4", "--resume", cwd=here), DIFFERENT)
        converts(run("a.mf4", "r.mf4", "--resume", "--force", cwd=here))
        converts(run("--check", "a.mf4", "r.mf4", cwd=here))
        ends(run("--check", "a.mf4", "r.mf4", SHARE, cwd=here), DIFFERENT)
        holds(here, "a.mf4", "r.mf4")


@any_user
def shared_clocks_with_other_choices():
    """A unit, a block size and a table; recordings without equal clocks are converted as without the option; several recordings."""
    rack = Rack(Group(), Group(front=3), Group(remote=1))
    with folder() as here:
        table = write(os.path.join(here, "table"), bytes((1, 0, 2)))
        for words in (("--unit", 4096), ("--block-size", 1), ("--types", table), ("--unit", 64, "--types", table, "--block-size", 7)):
            columns, report, *_ = converted(here, rack, SHARE, *words)
            expect([c.name for c in columns] == ["t0", "s0", "s1", "s2"] and report["report"]["shared_time_groups"] == 1, words, report)
        for recording in (SAMPLE, EXAMPLE):
            converts(run(recording, "with.mf4", SHARE, "--force", cwd=here))
            converts(run(recording, "without.mf4", "--force", cwd=here))
            expect(without_time(read(os.path.join(here, "with.mf4"))) == without_time(read(os.path.join(here, "without.mf4"))), recording)
        os.mkdir(os.path.join(here, "results"))
        write(os.path.join(here, "b.mf4"), rack.image)
        converts(run("-d", "results", "a.mf4", "b.mf4", SHARE, cwd=here))
        for name in ("a.mf4", "b.mf4"):
            expect(len(columns_of(read(os.path.join(here, "results", name)))) == 4, name)
