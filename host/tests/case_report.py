"""What was done, as JSON; recordings that may not lose a channel."""
import json
import os
import re
import shutil
import struct

from case_conversions import sample_texts
from common import (
    EXAMPLE, INCOMPLETE, REFUSED, ROOT, SAMPLE, STANDING, any_user, converts, ends, expect, fails, folder, holds, read, report_of, run, with_fault,
    write,
)
from mdf import block


COUNTS = ["source_groups", "time_groups", "signal_groups", "shared_time_groups", "data_blocks", "metadata_size", "file_size"]


@any_user
def report_of_a_conversion():
    with folder() as here:
        converts(run(SAMPLE, "r.mf4", "--json", "r.json", "--sha256", cwd=here))
        (d,) = report_of(os.path.join(here, "r.json"))
        size = os.path.getsize(os.path.join(here, "r.mf4"))
        expect(d["mdf-columns"] == run("--version").printed.split()[1] and d["outcome"] == "converted" and d["status"] == 0, d)
        expect((d["recording"], d["recording_bytes"], d["result"]) == (SAMPLE, os.path.getsize(SAMPLE), "r.mf4"), d)
        expect((d["block_size"], d["unit"], d["share_time"], d["photos"], d["types"]) == (4194304, 8, False, False, []), d)
        expect(re.fullmatch(r"20\d\d-\d\d-\d\dT\d\d:\d\d:\d\d\.\d{9}Z", d["time"]), d)
        expect(list(d["report"]) == COUNTS and d["report"]["file_size"] == size and d["report"]["signal_groups"] == 296, d["report"])
        check_columns(d["columns"])
        (left_out,) = d["omissions"]
        expect((left_out["name"], left_out["group"], left_out["reason"]) == ("rack.1.99", "medium", 4) and "synchronization" in left_out["words"], left_out)
        expect(re.fullmatch("[0-9a-f]{64}", d["sha256"]) and "refusal" not in d, d)
        holds(here, "r.mf4", "r.json")


def check_columns(columns):
    expect(len(columns) == 299, len(columns))
    channels = [(g, k) for g in range(3) for k in range(100) if (g, k) != (1, 99)]
    for n, (c, (g, k)) in enumerate(zip(columns, channels)):
        expect(c["number"] == n and c["name"] == "rack.%d.%02d" % (g, k) and c["group"] == ("fast", "medium", "slow")[g], c)
        expect(c["kind"] == ("signal" if k else "time") and c["master"] == (100 * g - (g > 1) if k else None), c)
        texts = len(sample_texts(10)[1]) if n == 298 else 0
        expect(c["records"] == 1000 // 10**g and c["bytes"] == c["records"] * (c["data_bytes"] + c["invalidation_bytes"]) + texts, c)


@any_user
def report_on_standard_output():
    """And nothing else there."""
    with folder() as here:
        r = run(EXAMPLE, os.path.join(here, "r.mf4"), "--json", "-")
        converts(r)
        expect(json.loads(r.printed)["report"]["signal_groups"] == 1 and r.printed.count("\n") == 1, r.printed)


@any_user
def report_of_a_refusal():
    with folder() as here:
        write(os.path.join(here, "empty"), b"")
        ends(run("empty", "r.mf4", "--json", "r.json", cwd=here), REFUSED)
        (d,) = report_of(os.path.join(here, "r.json"))
        expect(d["status"] == REFUSED and d["refusal"]["number"] == 4 and d["refusal"]["place"] == 0 and "ends too early" in d["refusal"]["words"], d)
        holds(here, "empty", "r.json")
        # tried again, the report is replaced: it is one of this command
        converts(run(EXAMPLE, "r.mf4", "--json", "r.json", cwd=here))
        expect(report_of(os.path.join(here, "r.json"))[0]["status"] == 0, "the old report")


@any_user
def report_is_written_as_a_result_is():
    with folder() as here:
        write(os.path.join(here, "notes"), b"notes")
        fails(run(EXAMPLE, "r.mf4", "--json", "notes", cwd=here), "notes exists")
        recording = shutil.copy(EXAMPLE, os.path.join(here, "a.mf4"))
        for force in ((), ("--force",)):
            fails(run("a.mf4", "r.mf4", "--json", "a.mf4", *force, cwd=here), "a.mf4")
            fails(run("a.mf4", "r.mf4", "--json", "r.mf4", *force, cwd=here), "is both result and report")
            fails(run("a.mf4", "r.mf4", "--json", "missing/r.json", *force, cwd=here), "can't open the folder missing")
        expect(read(recording) == read(EXAMPLE) and read(os.path.join(here, "notes")) == b"notes", "a file was changed")
        holds(here, "a.mf4", "notes")
        # the fourth sync is the report's: RESULT stands, the report doesn't
        for fault in ("fsync:4:5", "tmpfile:0:95,fsync:4:5", "linkat:2:5"):
            ends(with_fault(fault, "a.mf4", "r.mf4", "--json", "r.json", cwd=here), STANDING, "r.mf4 is there and whole")
            holds(here, "a.mf4", "notes", "r.mf4")
            converts(run("a.mf4", "r.mf4", "--json", "r.json", "--resume", cwd=here))
            expect(report_of(os.path.join(here, "r.json"))[0]["outcome"] == "done already", "the report")
            os.remove(os.path.join(here, "r.mf4"))
            os.remove(os.path.join(here, "r.json"))


@any_user
def complete_recordings_only():
    with folder() as here:
        r = run(SAMPLE, "r.mf4", "--complete", "--json", "r.json", cwd=here)
        fails(r, 'omitted "rack.1.99" of group "medium"', "--complete", status=INCOMPLETE)
        (d,) = report_of(os.path.join(here, "r.json"))
        expect(d["outcome"] == "incomplete" and d["status"] == INCOMPLETE and d["omissions"][0]["name"] == "rack.1.99", d)
        holds(here, "r.json")
        # nothing is written, not even for a moment
        fails(with_fault("tmpfile:0:before", SAMPLE, "r.mf4", "--complete", cwd=here), status=INCOMPLETE)
        converts(run(EXAMPLE, "r.mf4", "--complete", cwd=here))
        for name in ("reasons", "another-count"):
            fails(run(os.path.join(ROOT, "crates", "columns", "data", name), "s.mf4", "--complete", cwd=here), status=INCOMPLETE)
        holds(here, "r.mf4", "r.json")


def recording_with_name(text):
    """One time channel and one synchronization channel whose name has these bytes."""
    image = bytearray(b"MDF     4.10    tests   " + bytes(40) + bytes(104))
    places = {}

    def add(name, data):
        places[name] = len(image)
        image.extend(data + bytes(-len(data) % 8))

    add("name", block(b"TX", [], text + b"\0"))
    add("sync", block(b"CN", [0, 0, places["name"], 0, 0, 0, 0, 0], struct.pack("<BBBBII", 4, 1, 0, 0, 0, 32) + bytes(60)))
    add("time", block(b"CN", [places["sync"], 0, places["name"], 0, 0, 0, 0, 0], struct.pack("<BBBBII", 2, 1, 0, 0, 0, 32) + bytes(60)))
    add("cg", block(b"CG", [0, places["time"], places["name"], 0, 0, 0], struct.pack("<QQHHIII", 0, 0, 0, 0, 0, 4, 0)))
    add("dg", block(b"DG", [0, places["cg"], 0, 0], bytes(8)))
    image[64:168] = block(b"HD", [places["dg"], 0, 0, 0, 0, 0], bytes(32))
    return bytes(image)


@any_user
def names_that_are_no_plain_text():
    """Control characters and bytes that are no UTF-8 reach neither terminal nor JSON; a name without end is cut."""
    for text, shown, kept in (
        (b"\x1b[2Jred\n", "?[2Jred?", "\x1b[2Jred\n"),
        ("µ\x85\x9bA".encode(), "µ????A", "µ\x85\x9bA"),
        (b"a\xffb\xc0\xaf\xed\xa0\x80\"\\", "a?b??" + '???"\\', "a\ufffdb\ufffd\ufffd\ufffd\ufffd\ufffd\"\\"),
        (b"x" * 5000, "x" * 200, "x" * 5000),
        (b"", "", ""),
    ):
        with folder() as here:
            write(os.path.join(here, "a.mf4"), recording_with_name(text))
            r = run("a.mf4", "r.mf4", "--json", "r.json", cwd=here)
            converts(r)
            expect('omitted "%s" of group "%s" at' % (shown, shown) in r.said, repr(shown), r.said)
            (d,) = report_of(os.path.join(here, "r.json"))
            expect(d["columns"][0]["name"] == d["omissions"][0]["name"] == kept, d)
