"""Columns that start on a drive's units (document 02, request 5)."""
import os

from case_conversions import check_sample
from common import DIFFERENT, EXAMPLE, ROOT, SAMPLE, any_user, converts, ends, expect, folder, read, report_of, run
from mdf import File, blocks_of, columns_of, without_time

UNITS = [8 << i for i in range(10)]
RECORDINGS = ["full-length", "metadata", "remote-master", "signal-data", "signal-fragments", "unsorted"]


def recordings():
    return [SAMPLE, EXAMPLE, *(os.path.join(ROOT, "crates", "columns", "data", name) for name in RECORDINGS)]


def converted(recording, *words):
    """The result, its report and its listing."""
    r = run(recording, "unit.mf4", "--force", "--json", "unit.json", "--quiet", "--block-size", 64, *words)
    converts(r)
    listing = run("--check", recording, "unit.mf4", "--quiet", "--listing", "--block-size", 64, *words)
    converts(listing)
    (report,) = report_of("unit.json")
    return read("unit.mf4"), report, listing.printed


def shown(data):
    """What links show of each column, and of the attachments."""
    f = File(data)
    attached = [f.body(at) for at in f.chain(f.links(64)[3])]
    return [(c.name, c.records, c.kinds, c.payload, c.signal, c.master) for c in columns_of(data)], attached


def check_places(data, metadata, unit):
    """Starts on the unit, blocks of a column 24 + payload apart, all else on 8, gaps of zeros and shorter than the unit."""
    f, starts = File(data), set()
    for c in columns_of(data):
        starts.update(c.blocks[:1] + c.signals)
        expect(all(b == a + f.size(a) for a, b in zip(c.blocks, c.blocks[1:])), "blocks of a column")
    expect(all(at % unit == 0 for at in starts), "starts", sorted(starts))
    end = 64
    for at, kind, size in blocks_of(data):
        expect(at - end < (unit if at in starts else 8), "a gap before", at)
        if at in starts:
            expect(at == -(-max(end, metadata) // unit) * unit, "not the next multiple", at)
        end = at + size
    expect(len(data) - end < 8, "the end")


@any_user
def every_unit():
    for recording in recordings():
        usual, usual_report, usual_listing = converted(recording)
        size = usual_report["report"].pop("file_size")
        for unit in UNITS:
            data, report, listing = converted(recording, "--unit", unit)
            expect(report["unit"] == unit and report["report"].pop("file_size") == len(data), report)
            expect(report["report"] == usual_report["report"] and report["columns"] == usual_report["columns"], recording, unit, report)
            expect(report["omissions"] == usual_report["omissions"] and listing == usual_listing, recording, unit)
            expect(shown(data) == shown(usual), "what links show of", recording, unit)
            check_places(data, report["report"]["metadata_size"], unit)
            expect(unit != 8 or without_time(data) == without_time(usual) and len(data) == size, "unit 8")


@any_user
def sample_with_unit_4096():
    with folder() as here:
        result = os.path.join(here, "r.mf4")
        converts(run(SAMPLE, result, "--unit", 4096, "--verify"))
        check_sample(read(result), 1000)
        converts(run("--check", SAMPLE, result, "--unit", 4096))
        converts(run(SAMPLE, result, "--unit", 4096, "--resume"))
        for words in ((), ("--unit", 8), ("--unit", 2048)):
            ends(run("--check", SAMPLE, result, *words), DIFFERENT, "is not the conversion of")


@any_user
def worked_places():
    """The example's columns and size with four units; the history text is longer than there, so all lies as much further on."""
    for unit in (8, 16, 64, 4096):
        converts(run(EXAMPLE, "places.mf4", "--force", "--quiet", "--unit", unit, "--block-size", 64, "--json", "places.json"))
        (report,) = report_of("places.json")
        data, metadata = read("places.mf4"), report["report"]["metadata_size"]
        first = -(-metadata // unit) * unit
        second = -(-(first + 128) // unit) * unit
        time_, signal_ = columns_of(data)
        expect((time_.blocks[0], signal_.blocks[0], len(data)) == (first, second, second + 112), unit, time_.blocks, signal_.blocks, len(data))
