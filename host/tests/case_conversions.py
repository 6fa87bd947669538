"""Conversions read back by links alone, and refusals."""
import os
import re
import shutil
import struct
import time

from case_library import MET, check_example
from common import BIG, EXAMPLE, GIB, LISTED, REFUSED, ROOT, SAMPLE, any_user, converts, expect, folder, holds, place, read, run, test, write
from mdf import File, columns_of, history_of, without_time


@any_user
def worked_example():
    r = run(EXAMPLE, "example.mf4", "--block-size", 64, "--listing")
    converts(r)
    data = read("example.mf4")
    listed = LISTED.replace(" 1 80", " 2 80").replace(" 1 60", " 2 60")
    expect(r.printed == "example.mf4: columns 2, omissions 0, bytes %d\n" % len(data) + listed, r.printed)
    check_example(data)


def sample_value(g, k, r):
    v = (r * (k + 1) + 1000 * g + k) % 2**20
    if k == 0:
        return struct.pack("<d", r / (1000, 100, 10)[g])
    form = ("<d", "<B", "<H", "<I", "<f")[k % 5]
    return struct.pack(form, v / 8) if k % 5 in (0, 4) else struct.pack("<I", v)[: struct.calcsize(form)]


def sample_texts(records):
    texts = [b"event %d\0" % r for r in range(records)]
    parts = [struct.pack("<I", len(t)) + t for t in texts]
    starts = [struct.pack("<Q", sum(map(len, parts[:r]))) for r in range(records)]
    return starts, b"".join(parts)


def check_sample_column(c, g, k, records):
    cells = c.cells()
    units = ["s"] if k == 0 else [["V", "A", "bar", "rpm"][k % 4]]
    if (g, k) == (2, 99):
        starts, texts = sample_texts(records)
        expect([x for x, _ in cells] == starts and c.signal == texts and c.type == 1, "the texts")
        units = [None]
    else:
        expect([x for x, _ in cells] == [sample_value(g, k, r) for r in range(records)], "values of", c.name)
    kept = k % 10 == 0 and k > 0
    expect([x for _, x in cells] == [bytes([(r + k) % 7 == 0]) if kept else b"" for r in range(records)], "invalidation of", c.name)
    expect(c.name == "rack.%d.%02d" % (g, k) and c.group == ("fast", "medium", "slow")[g] and c.unit == units[0], "texts of", c.name)
    expect(c.source and bool(c.conversion) == (k % 5 == 2), "source and conversion of", c.name)
    expect(c.master == (None if k == 0 else 100 * g - (g > 1)), "the master of", c.name)


def check_sample(data, records):
    columns = columns_of(data)
    channels = [(g, k) for g in range(3) for k in range(100) if (g, k) != (1, 99)]
    expect(len(columns) == len(channels) == 299, len(columns), "columns")
    for c, (g, k) in zip(columns, channels):
        check_sample_column(c, g, k, records // 10**g)
    f = File(data)
    expect(f.text(f.links(64)[5]) == "<HDcomment><TX>sample recording of a rack</TX></HDcomment>", "the header's comment")
    attachment = f.links(64)[3]
    expect(f.text(f.links(attachment)[1]) == "rack.txt", "the attachment's name")
    expect(f.body(attachment)[40:] == b"slot 1: amplifier\nslot 2: thermocouples\n", "the attachment")


@any_user
def sample_of_300_channels():
    before = time.time_ns()
    r = run(SAMPLE, "sample-columns.mf4")
    after = time.time_ns()
    converts(r)
    data = read("sample-columns.mf4")
    expect(r.printed == "sample-columns.mf4: columns 299, omissions 1, bytes %d\n" % len(data), r.printed)
    check_sample(data, 1000)
    entries, _ = history_of(data)
    expect(len(entries) == 2 and "<TX>recorded</TX>" in entries[0][0], "the recording's history")
    version = run("--version").printed.split()[1]
    text, when = entries[1]
    expect(text.startswith("<FHcomment") and "<tool_id>mdf-columns</tool_id>" in text, "the history text")
    expect("<tool_version>%s</tool_version>" % version in text and "by mdf-columns %s at " % version in text, "the version", text)
    expect(before <= when <= after, "the time")
    spelled = time.strftime("%Y-%m-%dT%H:%M:%S", time.gmtime(when // 10**9)) + ".%09dZ" % (when % 10**9)
    expect(spelled in text, "the time in the text", spelled, text)
    expect(data[16:30] == b"sitaungo" + bytes(4) + b"\xa4\x01" and data[30:64] == bytes(34), "the identification")


@any_user
def phases_and_omissions():
    r = run(SAMPLE, "phases.mf4")
    converts(r)
    size, result = os.path.getsize(SAMPLE), os.path.getsize(place("phases.mf4"))
    wanted = ["reading .*, %d bytes" % size, "taking %d bytes" % result, "converting into ", "syncing %d bytes" % result]
    wanted += [r'omitted "rack.1.99" of group "medium" at \d+: the channel is a synchronization channel \(reason 4\)']
    lines = r.said.splitlines()
    expect(len(lines) == len(wanted) and all(re.search(w, x) for w, x in zip(wanted, lines)), r.said)


@any_user
def quiet_and_listing():
    r = run(SAMPLE, "quiet.mf4", "--quiet", "--listing")
    converts(r)
    lines = r.printed.splitlines()
    expect(lines[0] == "columns 299" and lines[1] == "0 t 8 0 1000 1 8000 -" and lines[11] == "10 s 8 1 1000 1 9000 0", lines[:12])
    expect(lines[299] == "298 s 8 0 10 1 %d 199" % (80 + len(sample_texts(10)[1])), lines[299])
    expect(lines[300] == "omitted 1" and re.fullmatch(r"\d+ 4", lines[301]) and len(lines) == 302, lines[300:])
    expect(len(r.said.splitlines()) == 1 and 'omitted "rack.1.99"' in r.said, r.said)
    r = run(EXAMPLE, "quiet-example.mf4", "--quiet")
    expect(r.returncode == 0 and r.printed == "" and r.said == "", r.said, r.printed)


@any_user
def every_reason_in_words():
    seen = set()
    for name in ("reasons", "another-count"):
        r = run(os.path.join(ROOT, "crates", "columns", "data", name), name + ".mf4", "--quiet")
        converts(r)
        seen.update(re.findall(r'omitted (?:".*"|the time) of group ".*" at \d+: .{20,} \(reason (\d)\)', r.said))
    expect(seen == set("1234567"), "reasons", seen)


@test
def default_block_size():
    converts(run(BIG.path, "blocks.mf4"))
    converts(run(BIG.path, "blocks-4194304.mf4", "--block-size=4194304"))
    data = without_time(read("blocks.mf4"))
    expect(data == BIG.result == without_time(read("blocks-4194304.mf4")), "other results")
    expect(max(len(c.kinds) for c in columns_of(data)) == 1, "blocks")
    converts(run(BIG.path, "blocks-1048576.mf4", "--block-size", 1048576))
    first = columns_of(read("blocks-1048576.mf4"))[0]
    expect(first.records == 300000 and len(first.kinds) == 3, first.kinds)
    for name in ("blocks.mf4", "blocks-4194304.mf4", "blocks-1048576.mf4"):
        os.remove(place(name))


@test
def big_sample_by_links():
    BIG.path
    columns = columns_of(BIG.result)
    for i, (g, k) in ((1, (0, 1)), (50, (0, 50)), (101, (1, 1)), (298, (2, 99))):
        check_sample_column(columns[i], g, k, 300000 // 10**g)


# ---- refusals


def refuses(r, number, at):
    expect(r.returncode == REFUSED, "status", r.returncode, r.said)
    line = [x for x in r.said.splitlines() if "refused" in x]
    expect(len(line) == 1 and re.search(r": refused %d place %d: .{15,}" % (number, at), line[0]), r.said)
    expect(r.printed == "", "printed", r.printed)
    MET.add(number)


def expected_refusals():
    """Name, number and place of each recording that crates/inspect and crates/columns refuse."""
    with open(os.path.join(ROOT, "crates", "inspect", "stdout")) as f:
        for line in f:
            found = re.fullmatch(r"(\S+) refused (\d+) place (\d+)\n", line)
            if found:
                yield os.path.join("inspect", "data", found[1]), int(found[2]), int(found[3])
    with open(os.path.join(ROOT, "crates", "columns", "stdout")) as f:
        for name, number, at in re.findall(r"(\S+)\nrefused (\d+) place (\d+)\n", f.read()):
            if number != "20":
                yield os.path.join("columns", "data", name), int(number), int(at)


@any_user
def refused_recordings():
    with folder() as here:
        for name, number, at in expected_refusals():
            refuses(run(os.path.join(ROOT, "crates", name), os.path.join(here, "r.mf4")), number, at)
            holds(here)
        refuses(run(SAMPLE, os.path.join(here, "r.mf4"), "--block-size", 0), 2, 0)
        holds(here)


@any_user
def over_4_gib():
    path = place("over.mf4")
    shutil.copy(EXAMPLE, path)
    for size in (4 * GIB + 1, 1 << 42):
        os.truncate(path, size)
        with folder() as here:
            refuses(run(path, os.path.join(here, "r.mf4")), 3, 0)
            refuses(run(path, os.path.join(here, "r.mf4"), "--unit", 4096), 3, 0)
            refuses(run(path, os.path.join(here, "r.mf4"), "--unit", 12), 26, 0)
            table = write(os.path.join(here, "table"), b"\0")
            refuses(run(path, os.path.join(here, "r.mf4"), "--types", table), 27, 0)
            holds(here, "table")
    os.remove(path)


@any_user
def units_that_are_refused():
    """After the block size and before all that is read, also by --check and --listing."""
    with folder() as here:
        result = os.path.join(here, "r.mf4")
        empty = write(os.path.join(here, "empty"), b"")
        for unit in (0, 1, 4, 12, 24, 4095, 8192, 2**63, 2**64 - 1):
            for recording in (EXAMPLE, empty):
                refuses(run(recording, result, "--unit", unit), 26, 0)
                refuses(run(recording, result, "--unit", unit, "--listing"), 26, 0)
                refuses(run(recording, result, "--unit", unit, "--block-size", 0), 2, 0)
            refuses(run("--check", EXAMPLE, empty, "--unit", unit), 26, 0)
        holds(here, "empty")


@any_user
def refusal_keeps_an_old_result():
    write("old.mf4", b"old")
    refuses(run(write("empty", b""), "old.mf4", "--force"), 4, 0)
    expect(read("old.mf4") == b"old", "the old result is gone")


@test
def every_refusal_was_met():
    expect(MET == set(range(1, 35)), "not met:", sorted(set(range(1, 35)) - MET))


