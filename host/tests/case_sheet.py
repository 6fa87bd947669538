"""The inventory sheet of a column file (document 02, request 10), beside one made from the document alone (tools/sheets.py)."""
import fcntl
import mmap
import os
import re
import shutil
import signal
import struct
import subprocess
import sys

from case_damaged import damaged
from case_ended import CHANGES
from case_photos import EVERY_FORM, Group, Recording
from case_python import desk
from common import (
    EXAMPLE, GIB, REFUSED, ROOT, SAMPLE, Run, any_user, as_nobody, converts, ends, expect, fails, folder, go_on, holds, open_folder, place, read, run,
    stopped_at, test, with_fault, write,
)

sys.path.append(os.path.join(ROOT, "tools"))
import sheets  # noqa: E402
from sheets import Column, block, dl_of, file_of, numbered, tx  # noqa: E402

SHEET = "--sheet"
LONGEST = 42201  # of 512 columns

# Files of two columns without names, as file_of lays them: offsets of HD and of the first DG, CG and CN, and how far the second ones are from them.
HD, DG, CG, CN, APART = 64, 168, 232, 336, 328


def printed_of(path, *words, **more):
    """What the command prints of a column file."""
    r = run(SHEET, path, *words, **more)
    expect(r.returncode == 0 and r.said == "", path, r.returncode, r.said)
    return r.printed


def put(here, image, name="c.mf4"):
    return write(os.path.join(here, name), image)


def is_sheet(text, columns):
    """As many pages and lines as the columns need, of 80 characters each."""
    lines, pages = text.split("\n"), max(1, (columns + 58) // 59)
    expect(lines.pop() == "" and len(lines) == columns + pages and all(len(line) == 80 and line.isascii() for line in lines), columns, text[:200])
    expect([k for k, line in enumerate(lines) if line.startswith("page ")] == [60 * p for p in range(pages)], "headings")
    expect([lines[60 * p].rstrip() for p in range(pages)] == ["page %d of %d" % (p + 1, pages) for p in range(pages)], "headings")


# ---- sheets


@any_user
def sheet_of_results():
    """The sample's, with each way of laying it out, and the worked example's, which the document gives."""
    with folder() as here:
        converts(run(EXAMPLE, "e.mf4", "--quiet", cwd=here))
        expect(printed_of("e.mf4", cwd=here) == sheets.EXAMPLE, "the worked example's sheet")
        os.remove(os.path.join(here, "e.mf4"))
        result = os.path.join(here, "r.mf4")
        for words, columns in (((), 299), (("--block-size", 64), 299), (("--unit", 4096), 299), (("--share-time", "--photos"), 299)):
            converts(run(SAMPLE, result, "--force", "--quiet", *words))
            before = os.stat(result)
            text = printed_of(result)
            expect(text == sheets.sheet(read(result)), words, text[:500])
            is_sheet(text, columns)
            after = os.stat(result)
            expect((after.st_mtime_ns, after.st_ctime_ns, after.st_ino) == (before.st_mtime_ns, before.st_ctime_ns, before.st_ino), "it was changed")
            holds(here, "r.mf4")
        expect(os.path.getsize(result) > 65536, "a result that is longer than what the program reads")
        lines = text.split("\n")
        expect(lines[1].split() == ["0", "t", "rack.0.00", "8", "1000", "-"] and lines[60].startswith("page 2 of 6 "), lines[:2])
        expect(lines[-2].split() == ["298", "s", "rack.2.99", "8", "10", "199"], lines[-2])
        with open(os.path.join(ROOT, "README.md")) as f:
            (shown,) = re.findall("^page 1 of 6\n(?:[^`\n]+\n)+", f.read(), re.MULTILINE)
        expect([line.rstrip() for line in lines[: shown.count("\n")]] == shown.splitlines(), "README's lines", shown)


@any_user
def sheet_with_references():
    """Longer CN, and each channel type that a result can have."""
    with folder() as here:
        converts(run(put(here, Recording(Group(EVERY_FORM)).image, "a.mf4"), os.path.join(here, "r.mf4"), "--photos", "--quiet"))
        expect(printed_of("r.mf4", cwd=here) == sheets.sheet(read(os.path.join(here, "r.mf4"))), "its sheet")


@any_user
def sheets_of_many_columns():
    """Both sides of a page's end; as many as there can be; one more is refused at its DG."""
    with folder() as here:
        for count in (0, 1, 58, 59, 60, 117, 118, 119, 177, 511, 512):
            image = numbered(count)
            text = printed_of(put(here, image))
            expect(text == sheets.sheet(image), count, "columns")
            is_sheet(text, count)
        expect(len(text) == LONGEST, len(text))
        refuses(put(here, numbered(513)), 19, DG + 512 * APART)


@any_user
def sheets_of_every_kind():
    """The files of the program inventory; it alone has a limit to what it reads."""
    with folder() as here:
        for label, image, answer in sheets.CASES:
            path, answer = put(here, image), sheets.sheet(image) if label == "too-long" else answer
            if answer.startswith("refused"):
                refuses(path, *map(int, re.findall(r"\d+", answer)))
            else:
                expect(printed_of(path) == answer, label)
    return "%d files" % len(sheets.CASES)


@any_user
def sheets_of_random_files():
    """--long sets how many."""
    with folder() as here:
        for _ in range(Run.loops(60)):
            image = sheets.random_file(Run.random)
            text = printed_of(put(here, image))
            expect(text == sheets.sheet(image), text)


def write_over_4_gib(path):
    """A time column with one block of 5 GiB, sparse, and behind it a signal with its name."""
    image = bytearray(file_of([Column(kind=2, name=tx(b"time\0"), size=8, records=5 * GIB // 8)]))
    dl = len(image) + -len(image) % 8
    data = dl + 64  # a DL of two links has 56 bytes
    cg = data + 24 + 5 * GIB
    cn, text, dg = cg + 112, cg + 272, cg + 312
    image += bytes(dl - len(image)) + dl_of([data], 5 * GIB)
    image += bytes(data - len(image)) + block(b"DT", [], size=24 + 5 * GIB)
    struct.pack_into("<Q", image, DG + 24, dg)
    struct.pack_into("<Q", image, DG + 40, dl)
    with open(place(path), "wb") as f:
        f.write(image)
        f.seek(cg)
        f.write(block(b"CG", [0, cn, 0, 0, 0, 0, CG], struct.pack("<QQHHIII", 0, 0, 8, 0, 0, 2, 0)) + block(b"CN", [0, 0, text] + [0] * 5, bytes(72)))
        f.write(tx(b"past 4 GiB\0").ljust(40, b"\0") + block(b"DG", [0, cg, 0, 0], bytes(8)))
    return path


@test
def sheet_of_a_file_over_4_gib():
    """By the command and by the module for Python."""
    with folder() as here:
        path = write_over_4_gib(os.path.join(here, "long.mf4"))
        with open(path, "rb") as f, mmap.mmap(f.fileno(), 0, access=mmap.ACCESS_READ) as image:
            wanted = sheets.sheet(image)
        expect("1 s past 4 GiB " in wanted and "0 t time " in wanted, wanted)
        expect(printed_of(path) == wanted, "its sheet")
        answers(here, "long", wanted)
        desk("sheets", here)
        os.truncate(path, os.path.getsize(path) - 1)
        refuses(path, 4, os.path.getsize(path) - 63)


# ---- refusals


def refuses(path, number, at, **more):
    """The refusal's line in place of the sheet; its words on standard error."""
    r = run(SHEET, path, **more)
    expect(r.returncode == REFUSED and r.printed == "refused %d place %d\n" % (number, at), number, at, r.returncode, r.printed[:200])
    expect(re.fullmatch(r"mdf-columns: .*: refused %d place %d: .{15,}\n" % (number, at), r.said), r.said)
    expect("recording" not in r.said.split(": refused ")[1] and "buffer" not in r.said, r.said)


def changed(at, form, *values, image=numbered(2)):
    """A file of two columns with other bytes at an offset."""
    image = bytearray(image)
    struct.pack_into(form, image, at, *values)
    return bytes(image)


ONE = changed(DG + 24, "<Q", 0)  # no link leads to the second column
REFUSED_FILES = (
    (4, 0, b""), (4, 0, b"MDF"), (4, 64, numbered(0)[:64]), (4, 64, numbered(0)[:167]), (4, 1 << 40, changed(DG + 24, "<Q", 1 << 40)),
    (5, 0, changed(7, "1s", b"x")), (5, 0, bytes(100)), (6, 0, changed(8, "4s", b"4.xx")), (7, 0, changed(8, "4s", b"4.09")),
    (8, CG, changed(CG + 16, "<Q", 11)), (10, DG, changed(DG, "4s", b"##CG")), (10, CN, changed(CN, "4s", b"##TX")),
    (11, DG, changed(DG + APART + 24, "<Q", DG)), (12, CN, changed(DG + 40, "<Q", CN)), (13, DG + APART, changed(DG + APART + 56, "B", 5)),
    (24, 0, changed(DG + 56, "B", 1)),
    (24, 0, changed(CG + 24, "<Q", CG + APART, image=ONE)), (24, 0, changed(CN + 24, "<Q", CN + APART, image=ONE)), (24, 0, changed(CG + 80, "<Q", 1)),
)


def refused_recordings():
    """Row-oriented recordings, which lack the form, and a page of text."""
    data = os.path.join(ROOT, "crates", "columns", "data")
    return [(24, 0, SAMPLE), (24, 0, EXAMPLE), (24, 0, os.path.join(data, "reasons")), (5, 0, os.path.join(ROOT, "README.md"))]


@any_user
def sheets_that_are_refused():
    """Each refusal of reading; the line stands in place of the sheet."""
    met = {9, 19}  # in the cases above and below
    with folder() as here:
        for number, at, image in REFUSED_FILES:
            refuses(put(here, image), number, at)
            met.add(number)
        for number, at, path in refused_recordings():
            refuses(path, number, at)
        holds(here, "c.mf4")
        expect(met == {*range(4, 14), 19, 24}, met)
        text = "c.mf4: refused 24 place 0: the file lacks the form of a column file\n"
        ends(run(SHEET, "c.mf4", "--quiet", cwd=here), REFUSED, text)


@any_user
def sheet_of_blocks_over_256_mib():
    """A name may be so long; any other block is refused. In sparse files."""
    with folder() as here:
        for size in (1 << 28, (1 << 28) + 1):
            image = file_of([Column(name=block(b"TX", [], b"long name", size=size))])
            path = put(here, image)
            os.truncate(path, image.index(b"##TX") + size)
            expect(printed_of(path) == sheets.sheet(image), "a long name")
            path = put(here, changed(CN + 8, "<Q", size, image=numbered(1)))
            os.truncate(path, CN + size)
            if size == 1 << 28:
                expect(printed_of(path) == sheets.sheet(numbered(1)), "a long CN")
            else:
                refuses(path, 9, CN)


@test
def sheets_of_damaged_files():
    """Pages or a refusal, whatever the damage; the module for Python answers the same. --long sets how many."""
    named = [Column(kind=2, name=tx(b"time\0")), Column(to=0, name=tx(b"signal\0"), size=2, records=2, payload=bytes(4))]
    originals = [sheets.example(), numbered(3), file_of(named)]
    with folder() as here:
        for k in range(Run.loops(100)):
            r = run(SHEET, put(here, damaged(Run.random.choice(originals)), "%d.mf4" % k))
            expect(r.returncode in (0, REFUSED), r.returncode, r.said)
            if r.returncode == 0:
                is_sheet(r.printed, r.printed.count("\n") - 1)
            else:
                expect(re.fullmatch(r"refused \d+ place \d+\n", r.printed), r.printed)
            answers(here, str(k), r.printed)
        return desk("sheets", here)


# ---- words, files and output that can't be used


@any_user
def sheet_misused():
    """One file, and no option of a conversion."""
    with folder() as here:
        result = os.path.join(here, "c.mf4")
        put(here, numbered(1))
        for words in ((), (result, result), ("-d", here, result), ("--check", EXAMPLE, result), ("--block-size", 64, result), ("--complete", result),
            ("--force", result), ("--json", "r.json", result), ("--json", "-", result), ("--listing", result), ("--photos", result), ("--resume", result),
            ("--sha256", result), ("--share-time", result), ("--types", EXAMPLE, result), ("--unit", 8, result), ("--verify", result)):
            fails(run(SHEET, *words, cwd=here), "usage: mdf-columns RECORDING RESULT", "mdf-columns --sheet FILE")
        fails(run(SHEET, cwd=here), "--sheet needs one FILE")
        fails(run(SHEET, "--force", result, cwd=here), "--sheet converts nothing: only --quiet goes with it")
        fails(run(result, cwd=here), "a RECORDING and a RESULT are needed")
        holds(here, "c.mf4")
        shutil.copy(result, os.path.join(here, "-d"))
        for words in ((SHEET, result), (result, SHEET), (SHEET, "--quiet", result), (result, "--quiet", SHEET), (SHEET, "--", "-d"), (SHEET, SHEET, result)):
            r = run(*words, cwd=here)
            expect(r.returncode == 0 and r.printed == sheets.sheet(numbered(1)) and r.said == "", words, r.said)
        expect("--sheet" in run("--help").printed, "the help")


@any_user
def sheet_of_no_file():
    with folder() as here:
        os.mkfifo(os.path.join(here, "pipe"))
        fails(run(SHEET, "missing.mf4", cwd=here), "can't open the column file missing.mf4: No such file")
        fails(run(SHEET, "pipe", cwd=here, timeout=20), "the column file pipe is a pipe")
        fails(run(SHEET, "/dev/stdin", input=numbered(1)), "is a pipe")
        fails(run(SHEET, here), "is a folder")
        fails(run(SHEET, "/dev/zero"), "is a device")
        fails(with_fault("mmap:1:12", SHEET, put(here, numbered(1))), "can't map the column file")
        with open(os.path.join(here, "c.mf4"), "rb") as f:
            expect(run(SHEET, "/dev/stdin", stdin=f).printed == sheets.sheet(numbered(1)), "by its descriptor")
        os.symlink("c.mf4", os.path.join(here, "link.mf4"))
        expect(printed_of("link.mf4", cwd=here) == sheets.sheet(numbered(1)), "by a symbolic link")
        fails(run(SHEET, "a\x1b\n.mf4", cwd=here), "can't open the column file a??.mf4")


@test
def sheet_without_permission():
    """Reading is all that it needs."""
    with open_folder() as here:
        path = put(here, numbered(2))
        os.chmod(path, 0o444)
        os.chmod(here, 0o555)
        r = as_nobody(SHEET, path)
        expect(r.returncode == 0 and r.printed == sheets.sheet(numbered(2)) and r.said == "", r.said)
        os.chmod(path, 0)
        fails(as_nobody(SHEET, path), "can't open the column file", "Permission denied")
        os.chmod(here, 0o777)
        holds(here, "mdf-columns", "c.mf4")


@any_user
def sheet_that_cannot_be_written():
    """A full disk, a pipe without a reader, no standard output: status 1, of a refusal too. A pipe that is slow gets all of it."""
    with folder() as here:
        good, bad = put(here, numbered(512)), put(here, b"MDF", "bad.mf4")
        for path in (good, bad):
            with open("/dev/full", "wb") as full:
                ends(run(SHEET, path, stdout=full), 1, "standard output can't be written: No space left")
            reader, writer = os.pipe()
            os.close(reader)
            ends(run(SHEET, path, stdout=writer), 1, "standard output can't be written: Broken pipe")
            os.close(writer)
            r = subprocess.run(["sh", "-c", 'exec "$@" >&-', "sh", Run.command, SHEET, path], stderr=subprocess.PIPE)
            expect(r.returncode == 1 and b"standard output can't be written" in r.stderr, r.returncode, r.stderr)
        reader, writer = os.pipe()
        fcntl.fcntl(writer, 1031, 4096)  # F_SETPIPE_SZ
        os.set_blocking(writer, False)
        p = subprocess.Popen([Run.command, SHEET, good], stdout=writer, cwd=Run.here)
        os.close(writer)
        with open(reader, "rb") as f:
            expect(f.read().decode() == sheets.sheet(numbered(512)) and p.wait() == 0, "through a slow pipe")
        holds(here, "c.mf4", "bad.mf4")


# ---- files that change


@any_user
def sheet_of_a_file_that_changes():
    """No sheet, and no refusal, of bytes that are others by then."""
    for image in (read(SAMPLE), numbered(20)):  # refused, and not
        for change in CHANGES:
            with folder() as here:
                os.mkdir(os.path.join(here, "in"))
                path = put(here, image, os.path.join("in", "c.mf4"))
                p = stopped_at("mmap:1:stop", SHEET, path)
                change(path)
                fails(go_on(p), "the column file %s was" % path, "while it was read")


@any_user
def sheet_of_a_file_that_is_cut_off():
    """A fault in the mapped file: the message names it."""
    with folder() as here:
        path = put(here, numbered(119), "c\x1b.mf4")
        p = stopped_at("mmap:1:stop", SHEET, path)
        os.truncate(path, 4096)
        fails(go_on(p), "the column file %s/c?.mf4 can't be read to its end" % here)
        holds(here, "c\x1b.mf4")


@any_user
def sheet_ended_by_a_signal():
    with folder() as here:
        p = stopped_at("mmap:1:stop", SHEET, put(here, numbered(2)))
        p.terminate()
        r = go_on(p)
        expect(r.returncode == -signal.SIGTERM and r.printed == "" and "ended by a signal; nothing was changed" in r.said, r.returncode, r.said)


# ---- the module for Python


def answers(here, name, text):
    """What the module is to answer of a file of that name."""
    write(os.path.join(here, name + ".txt"), text.encode())


@test
def python_sheets():
    """A result, the files of the program inventory, as many columns as there can be, files that are refused."""
    with folder() as here:
        converts(run(SAMPLE, "result.mf4", "--quiet", cwd=here))
        answers(here, "result", sheets.sheet(read(os.path.join(here, "result.mf4"))))
        for label, image, answer in sheets.CASES:
            put(here, image, label + ".mf4")
            answers(here, label, sheets.sheet(image) if label == "too-long" else answer)
        for count in (511, 512):
            put(here, numbered(count), "%d.mf4" % count)
            answers(here, str(count), sheets.sheet(numbered(count)))
        for k, (number, at, image) in enumerate(REFUSED_FILES):
            put(here, image, "refused-%d.mf4" % k)
            answers(here, "refused-%d" % k, "refused %d place %d\n" % (number, at))
        for k, (number, at, path) in enumerate(refused_recordings()):
            shutil.copy(path, os.path.join(here, "recording-%d.mf4" % k))
            answers(here, "recording-%d" % k, "refused %d place %d\n" % (number, at))
        return desk("sheets", here)


@test
def python_sheets_of_bad_files():
    """No files, and files that change meanwhile."""
    with folder() as here:
        desk("sheets_of_no_files", here)
        desk("sheets_changed", put(here, numbered(119)), put(here, numbered(2)[:500], "cut.mf4"))
