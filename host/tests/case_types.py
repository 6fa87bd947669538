"""A cell's own treatment of channel types (document 02, requests 6 and 7)."""
import os
import struct
import subprocess

from case_conversions import refuses
from common import (
    DIFFERENT, EXAMPLE, INCOMPLETE, ROOT, SAMPLE, any_user, as_nobody, converts, ends, expect, fails, folder, holds, open_folder, read, report_of, run, test,
    write,
)
from mdf import block, columns_of, without_time

RECORDS, SAMPLES = 5, 32
TEXTS = b"".join(struct.pack("<I", len(text)) + text for text in (b"", b"on", b"off"))

# A channel: its type, byte, bytes, what links 2 and 6 lead to, and what it becomes without a table: the stored type, or less than 0 its reason.
CHANNELS = {
    "time": (2, 0, 4, None, None, 2),
    "fixed": (0, 4, 2, None, None, 0),
    "text": (1, 6, 8, None, "SD", 1),
    "no text": (1, 6, 8, None, None, 1),
    "second time": (2, 0, 4, None, None, -3),
    "sync": (4, 14, 4, None, "AT", -4),
    "sync array": (4, 14, 4, "CA", None, -4),
    "sync outside": (4, 30, 4, None, None, -4),
    "longest": (5, 18, 3, None, "SD", 0),
    "virtual": (6, 0, 0, None, None, 6),
    "own": (7, 21, 1, None, "SD", 7),
    "array": (0, 4, 2, "CA", None, -5),
    "structure": (0, 4, 2, "CN", None, -6),
    "outside": (0, 31, 2, None, None, -2),
    "stored": (1, 22, 8, None, "CG", -7),
    "text array": (1, 22, 8, "CA", "SD", -5),
    "text outside": (1, 30, 8, None, "SD", -2),
}

# A table, and what it changes of that.
SYNC = {"sync": 4, "sync array": -5, "sync outside": -2}
TEXTS_AS_0 = {"text": 0, "no text": 0, "stored": 0}
TABLES = (
    ((), {}),
    ((1, 0, 0), {}),
    ((1, 0, 1), {"fixed": -8, "array": -8, "structure": -8, "outside": -8}),
    ((1, 0, 2), {}),
    ((1, 1, 0), {}),
    ((1, 1, 1), {"text": -8, "no text": -8, "stored": -8, "text array": -8, "text outside": -8}),
    ((1, 1, 2), TEXTS_AS_0),
    ((1, 2, 0), {}),
    ((1, 3, 0), {}),
    ((1, 4, 0), SYNC),
    ((1, 4, 1), {"sync": -8, "sync array": -8, "sync outside": -8}),
    ((1, 4, 2), {**SYNC, "sync": 0}),
    ((1, 5, 1), {"longest": -8}),
    ((1, 5, 2), {}),
    ((1, 6, 0), {}),
    ((1, 6, 1), {"virtual": -8}),
    ((2, 4, 1, 0, 2), {**SYNC, **TEXTS_AS_0}),
    ((7, 6, 5, 4, 3, 2, 1, 0, 1, 1, 1, 0, 0, 1, 1), {name: -8 for name, channel in CHANNELS.items() if channel[0] not in (2, 7)}),
)

# Tables that are none: count or length, a type over 6 or twice, a treatment over 2 or one that the type can't have.
BAD = (
    (0,), (1,), (1, 0), (1, 0, 0, 0), (2, 0, 0), (0, 0, 0), (8, 0, 1, 2, 3, 4, 5, 6, 7, 0, 0, 0, 0, 0, 2, 0, 0), (255, 0, 0), tuple(range(16)),
    (7, 0, 1, 2, 3, 4, 5, 6, 0, 0, 0, 0, 0, 2, 0, 0), bytes(5000), (1, 7, 0), (1, 255, 0), (2, 0, 0, 0, 0), (2, 4, 4, 0, 1), (1, 0, 3), (1, 4, 255), (1, 2, 1),
    (1, 2, 2), (1, 3, 1), (1, 3, 2), (1, 5, 0), (1, 6, 2),
)


class Recording:
    """One group of the channels that are named, and a VLSD storage group beside it. `past` has channels whose link 2 or 6 leads past the end."""

    def __init__(self, names=tuple(CHANNELS), past=()):
        self.image = bytearray(b"MDF     4.10    tests   " + bytes(40) + bytes(104))
        self.past = dict(past)
        self.rows = [bytes((7 * k + r) % 256 for k in range(SAMPLES)) for r in range(RECORDS)]
        self.blocks = {None: 0, "past": 1 << 20}
        self.blocks["CG"] = storage = self.add(b"CG", [0] * 6, struct.pack("<QQHHIII", 2, 0, 1, 0, 0, 0, 0))
        self.blocks["CA"] = self.add(b"CA", [0], bytes(16))
        self.blocks["CN"] = self.add(b"CN", [0] * 8, bytes(72))
        self.blocks["SD"] = self.add(b"SD", [], TEXTS)
        self.blocks["AT"] = self.add(b"AT", [0] * 4, bytes(40))
        self.places, cn = {}, 0
        for name in reversed(names):
            cn = self.places[name] = self.channel(name, cn)
        dt = self.add(b"DT", [], b"".join(b"\1" + row for row in self.rows))
        cg = self.add(b"CG", [storage, cn, self.text("all"), 0, 0, 0], struct.pack("<QQHHIII", 1, RECORDS, 0, 0, 0, SAMPLES, 0))
        dg = self.add(b"DG", [0, cg, dt, 0], b"\1" + bytes(7))
        self.image[64:168] = block(b"HD", [dg, 0, 0, 0, 0, 0], bytes(32))

    def add(self, *words):
        at = len(self.image)
        made = block(*words)
        self.image += made + bytes(-len(made) % 8)
        return at

    def text(self, text):
        return self.add(b"TX", [], text.encode() + b"\0")

    def channel(self, name, following):
        kind, byte, size, below, signal, _ = CHANNELS[name]
        links = [following, self.blocks[below], self.text(name), 0, 0, self.blocks[signal], 0, 0]
        if name in self.past:
            links[self.past[name] - 1] = self.blocks["past"]
        return self.add(b"CN", links, struct.pack("<BBBBII", kind, 0, 0, 0, byte, 8 * size) + bytes(60))

    def cells(self, name):
        _, byte, size, *_ = CHANNELS[name]
        return b"".join(row[byte : byte + size] for row in self.rows)


def table(here, bytes_):
    """The words that choose it; of None none."""
    return () if bytes_ is None else ("--types", write(os.path.join(here, "table"), bytes(bytes_)))


def converted(here, bytes_, *words):
    """The result of the recording there, its report and its listing."""
    words = (*table(here, bytes_), *words)
    converts(run("a.mf4", "r.mf4", "--force", "--json", "r.json", "--quiet", *words, cwd=here))
    listing = run("--check", "a.mf4", "r.mf4", "--quiet", "--listing", *words, cwd=here)
    converts(listing)
    (report,) = report_of(os.path.join(here, "r.json"))
    return read(os.path.join(here, "r.mf4")), report, listing.printed


def check_columns(recording, data, due):
    """Stored type, payload and signal data of each column, by links."""
    wanted = [name for name in CHANNELS if due[name] >= 0]
    columns = columns_of(data)
    expect([c.name for c in columns] == wanted, [c.name for c in columns], wanted)
    for c in columns:
        keeps = CHANNELS[c.name][4] == "SD" and due[c.name] == 1
        expect(c.type == due[c.name], c.name, "type", c.type)
        expect(c.payload == recording.cells(c.name) and c.records == RECORDS, c.name, c.payload)
        expect(len(c.signals) == keeps and c.signal == (TEXTS if keeps else b""), c.name, c.signals, c.signal)
        expect(c.master == (None if c.name == "time" else 0), c.name, c.master)


def check_report(recording, report, listing, due):
    omitted = [name for name in CHANNELS if due[name] < 0]
    expect([(o["name"], o["address"], o["reason"]) for o in report["omissions"]] == [(n, recording.places[n], -due[n]) for n in omitted], report["omissions"])
    expect(all("omits the channel's type" in o["words"] for o in report["omissions"] if o["reason"] == 8), report["omissions"])
    kept = [name for name in CHANNELS if due[name] >= 0]
    filled, signals = [n for n in kept if CHANNELS[n][2]], [n for n in kept if due[n] == 1 and CHANNELS[n][4]]
    counts = report["report"]
    expect((counts["time_groups"], counts["signal_groups"], counts["data_blocks"]) == (1, len(kept) - 1, len(filled) + len(signals)), counts)
    lines = listing.splitlines()
    expect(lines[0] == "columns %d" % len(kept) and lines[len(kept) + 1] == "omitted %d" % len(omitted), lines)
    expect(lines[len(kept) + 2 :] == ["%d %d" % (recording.places[n], -due[n]) for n in omitted], lines)
    sizes = [RECORDS * CHANNELS[n][2] + (len(TEXTS) if n in signals else 0) for n in kept]
    expect([int(line.split()[6]) for line in lines[1 : len(kept) + 1]] == sizes, lines)


@any_user
def every_treatment():
    """Of each type: stored type, payload, signal data, omissions, report and listing."""
    recording = Recording()
    with folder() as here:
        write(os.path.join(here, "a.mf4"), recording.image)
        usual, report, listing = converted(here, None)
        expect(report["types"] == [], report)
        for bytes_, changed in TABLES:
            due = {name: channel[5] for name, channel in CHANNELS.items()} | changed
            data, report, shown = converted(here, bytes_)
            expect(report["types"] == list(bytes_), report)
            check_columns(recording, data, due)
            check_report(recording, report, shown, due)
            expect(bytes_ != () or (without_time(data), shown) == (without_time(usual), listing), "an empty table is built in")


@any_user
def tables_with_other_choices():
    recording = Recording()
    with folder() as here:
        write(os.path.join(here, "a.mf4"), recording.image)
        for words in (("--unit", 4096), ("--block-size", 7), ("--unit", 64, "--block-size", 1)):
            for bytes_, changed in TABLES:
                data, report, _ = converted(here, bytes_, *words)
                expect(report["types"] == list(bytes_), report)
                check_columns(recording, data, {name: channel[5] for name, channel in CHANNELS.items()} | changed)


@any_user
def tables_that_are_refused():
    """After the unit and before all that is read, also by --check and --listing."""
    with folder() as here:
        empty = write(os.path.join(here, "empty"), b"")
        for bad in BAD:
            words = table(here, bad)
            for recording in (EXAMPLE, empty):
                refuses(run(recording, "r.mf4", *words, cwd=here), 27, 0)
                refuses(run(recording, "r.mf4", *words, "--unit", 12, cwd=here), 26, 0)
                refuses(run(recording, "r.mf4", *words, "--block-size", 0, cwd=here), 2, 0)
            refuses(run(EXAMPLE, "r.mf4", *words, "--listing", cwd=here), 27, 0)
            refuses(run("--check", EXAMPLE, empty, *words, cwd=here), 27, 0)
        refuses(run(EXAMPLE, "r.mf4", "--types", "/dev/zero", cwd=here), 27, 0)
        holds(here, "empty", "table")


@any_user
def tables_that_cannot_be_read():
    with folder() as here:
        for name, said in (("missing", "No such file"), (here, "Is a directory")):
            fails(run(EXAMPLE, "r.mf4", "--types", name, cwd=here), "can't read the table of treatments", name, said)
        fails(run(EXAMPLE, "r.mf4", "--types", cwd=here), "usage:")
        holds(here)


@test
def table_without_permission():
    with open_folder() as here:
        os.chmod(write(os.path.join(here, "table"), b""), 0)
        fails(as_nobody(EXAMPLE, os.path.join(here, "r.mf4"), "--types", os.path.join(here, "table")), "can't read the table of treatments", "Permission denied")
        holds(here, "mdf-columns", "table")


@any_user
def table_from_a_pipe():
    with folder() as here:
        r = run(SAMPLE, "r.mf4", "--types", "/dev/stdin", cwd=here, input=bytes((1, 4, 0)))
        converts(r)
        expect("omitted" not in r.said and len(columns_of(read(os.path.join(here, "r.mf4")))) == 300, r.said)


def refusal(here, recording, bytes_):
    """Number and place, None where it is converted."""
    write(os.path.join(here, "a.mf4"), recording.image)
    r = run("a.mf4", "r.mf4", "--force", "--json", "r.json", *table(here, bytes_), cwd=here)
    (report,) = report_of(os.path.join(here, "r.json"))
    expect(r.returncode == report["status"] and ("refusal" in report) == (r.returncode == 2), r.said)
    return (report["refusal"]["number"], report["refusal"]["place"]) if "refusal" in report else None


@any_user
def links_that_are_not_followed():
    """Links 2 and 6 past the recording's end: those of a type that is omitted aren't read."""
    past = (4, 1 << 20)
    with folder() as here:
        for name, link, bytes_, due in (
            ("text", 6, (), past), ("text", 6, (1, 1, 0), past), ("text", 6, (1, 1, 1), None), ("text", 6, (1, 1, 2), None),
            ("text", 2, (), past), ("text", 2, (1, 1, 1), None), ("text", 2, (1, 1, 2), past),
            ("fixed", 6, (1, 0, 1), None), ("fixed", 2, (1, 0, 1), None), ("fixed", 2, (1, 0, 2), past),
            ("sync", 6, (1, 4, 0), None), ("sync", 2, (), None), ("sync", 2, (1, 4, 0), past), ("sync", 2, (1, 4, 1), None), ("sync", 2, (1, 4, 2), past),
            ("longest", 6, (1, 5, 2), None), ("longest", 2, (), past), ("longest", 2, (1, 5, 1), None), ("virtual", 2, (), past),
            ("virtual", 2, (1, 6, 1), None),
        ):
            found = refusal(here, Recording(("time", name), {name: link}), bytes_)
            expect(found == due, name, "link", link, bytes_, found)


@any_user
def signal_data_that_is_not_read():
    """An SD chain of another kind is refused (12) only where the channel keeps its signal data."""
    with folder() as here:
        for bytes_, refused in (((), True), ((1, 1, 0), True), ((1, 1, 1), False), ((1, 1, 2), False)):
            recording = Recording(("time", "text"))
            at = recording.blocks["SD"]
            recording.image[at + 2 : at + 4] = b"DT"
            found = refusal(here, recording, bytes_)
            expect(found == ((12, at) if refused else None), bytes_, found)


@any_user
def checks_with_a_table():
    """--verify, --check and --resume go by the table that RESULT was made with."""
    with folder() as here:
        keeps = table(here, (1, 4, 0))
        converts(run(SAMPLE, "r.mf4", *keeps, "--verify", "--complete", cwd=here))
        converts(run("--check", SAMPLE, "r.mf4", *keeps, cwd=here))
        r = run(SAMPLE, "r.mf4", *keeps, "--resume", "--json", "-", cwd=here)
        converts(r)
        expect('"done already"' in r.printed and '"types": [1, 4, 0]' in r.printed, r.printed)
        ends(run("--check", SAMPLE, "r.mf4", cwd=here), DIFFERENT, "is not the conversion of")
        ends(run(SAMPLE, "r.mf4", "--resume", cwd=here), DIFFERENT)
        other = table(here, (1, 4, 2))
        ends(run("--check", SAMPLE, "r.mf4", *other, cwd=here), DIFFERENT)
        ends(run(SAMPLE, "s.mf4", *table(here, (1, 4, 1)), "--complete", cwd=here), INCOMPLETE, "(reason 8)")
        converts(run(SAMPLE, "r.mf4", *table(here, b""), "--resume", "--force", cwd=here))
        converts(run("--check", SAMPLE, "r.mf4", cwd=here))
        holds(here, "r.mf4", "table")


@any_user
def several_recordings_with_a_table():
    with folder() as here:
        for name in ("a.mf4", "b.mf4"):
            write(os.path.join(here, name), Recording().image)
        os.mkdir(os.path.join(here, "results"))
        converts(run("-d", "results", "a.mf4", "b.mf4", *table(here, (1, 4, 0)), cwd=here))
        for name in ("a.mf4", "b.mf4"):
            expect("sync" in [c.name for c in columns_of(read(os.path.join(here, "results", name)))], name)


@any_user
def table_of_readme():
    """As it stands there."""
    with open(os.path.join(ROOT, "README.md")) as f:
        (line,) = [x.strip() for x in f if x.startswith("    printf ")]
    with folder() as here:
        subprocess.run(["sh", "-c", line], check=True, cwd=here)
        recording = Recording()
        write(os.path.join(here, "a.mf4"), recording.image)
        converts(run("a.mf4", "r.mf4", "--types", "table", cwd=here))
        due = {name: channel[5] for name, channel in CHANNELS.items()} | SYNC | {"virtual": -8}
        check_columns(recording, read(os.path.join(here, "r.mf4")), due)
