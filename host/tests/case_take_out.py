"""Taking columns out of a column file (document 02, request 13): library and command beside a model of the documents (tools/thin/taken.py) and a reader by links
(tools/thin/kept.py)."""
import os
import re
import shutil
import signal
import struct
import subprocess
import sys

from again import Choices, Lent, convert
from case_ended import CHANGES
from case_photos import EVERY_FORM, Group, Recording
from case_python import desk, named_twice
from case_sheet import write_over_4_gib
from common import (
    DIFFERENT, EXAMPLE, GIB, LIBRARY, NAMED, REFUSED, ROOT, SAMPLE, STANDING, NotTried, Run, any_user, cc, converts, ends, expect, fails, folder, go_on, holds, is_leftover,
    limited_files, place, read, run, stopped_at, test, with_fault, write,
)
from steps import alone

sys.path += [os.path.join(ROOT, "tools"), os.path.join(ROOT, "tools", "thin")]
import column_files  # noqa: E402
import edges  # noqa: E402
import kept  # noqa: E402
import sheets  # noqa: E402
import taken  # noqa: E402
import trial  # noqa: E402

TAKE = "--take-out"
USAGE = "mdf-columns --take-out COLUMNS FILE NEW"


# ---- the library


@test
@alone
def columns_taken_out():
    """Files and calls by chance, library and model; --long sets how many."""
    expect(trial.library() is not None, "the library has no sitaungo_take_out")
    tally, seed = trial.Tally(), Run.random.getrandbits(32)
    for number in range(Run.loops(400)):
        trial.one(seed, number, tally)
    expect(not tally.wrong, *tally.wrong[:5])
    c = tally.counts
    accepted = sum(c[origin, "accepted"] for origin in ("the converter", "this call", "neither", "damaged"))
    told = c["calls",], accepted, c["columns out",], tally.each("refused"), c["twice", "same"]
    return "%d calls, %d accepted, %d columns out; refused %s; twice in a row %d" % told


@test
@alone
def refusals_and_limits_of_taking_out():
    """Each refusal before every later one; each limit from both sides."""
    return "%d lines" % len("; ".join(attempt() for attempt in edges.tries()).split("; "))


@test
@alone
def reader_of_files_taken_out():
    """It misses no changed byte of a new file."""
    site = edges.Site()
    image = site.f.made()
    for unit, numbers in ((8, ()), (64, (3,))):
        file = taken.take_out(image, unit, numbers).file()
        expect(kept.difference(image, file, numbers, unit) is None, "the file itself")
        for k in range(len(file)):
            changed = file[:k] + bytes([file[k] ^ 1 << Run.random.randrange(8)]) + file[k + 1 :]
            try:
                missed = kept.difference(image, changed, numbers, unit) is None
            except (IndexError, ValueError, struct.error, MemoryError, OverflowError):  # no column file any more
                missed = False
            expect(not missed, "byte", k)
    return "%d bytes" % len(file)


def takes_out_of_example(program):
    """Document 01's example: nothing out, column 1, both, column 0, which the other names."""
    outcome, result, _ = convert(read(EXAMPLE), Choices(64), Lent(text=b"convert"))
    expect(outcome.accepted and len(result) == 1288, outcome)
    path, new = place(write("example.mf4", result)), place("example-new.mf4")
    for numbers, said in (((), "bytes 1288\n"), ((1,), "bytes 776\n"), ((1, 0), "bytes 256\n"), ((0,), "refused 34 place 0\n"), ((2,), "refused 33 place 0\n")):
        r = subprocess.run([program, path, new, *map(str, numbers)], stdout=subprocess.PIPE)
        expect(r.stdout.decode() == said, numbers, r.stdout)
        if said.startswith("bytes"):
            expect(read(new) == taken.take_out(result, 8, numbers).file(), "another file", numbers)


@test
def taking_out_in_c():
    program = place("take-out-c")
    cc(os.path.join(ROOT, "host", "examples", "take_out.c"), LIBRARY, "-o", program)
    takes_out_of_example(program)
    r = subprocess.run([program], stdout=subprocess.PIPE, stderr=subprocess.PIPE)
    expect(r.returncode == 1 and b"usage: take_out FILE NEW NUMBER..." in r.stderr, r.stderr)


@test
def taking_out_in_rust():
    program = place("take-out-rust")
    words = ["-O", "--edition", "2021", "-L", os.path.dirname(LIBRARY), os.path.join(ROOT, "host", "examples", "take_out.rs"), "-o", program]
    subprocess.run(["rustc", *words], check=True)
    takes_out_of_example(program)


# ---- the command


def result_in(here, *words, recording=SAMPLE, name="f.mf4"):
    converts(run(recording, name, "--quiet", "--force", *words, cwd=here))
    return read(os.path.join(here, name))


def is_new(here, old, numbers, unit=8, name="n.mf4"):
    """The new file is the model's, and the reader finds the other columns in it."""
    new = read(os.path.join(here, name))
    expect(new == taken.take_out(old, unit, numbers).file(), "another file, columns", numbers)
    expect(kept.difference(old, new, numbers, unit) is None, "columns", numbers)
    return new


@any_user
def columns_taken_out_by_the_command():
    """By numbers, ranges and names; the line of success; the old file stays."""
    with folder() as here:
        old = result_in(here)
        before = os.stat(os.path.join(here, "f.mf4"))
        for words, numbers in (
            (["1"], [1]), (["3,7-12"], [3, *range(7, 13)]), (["298,1-1"], [298, 1]), (["rack.0.01"], [1]), (["rack.0.01,5,rack.2.99"], [1, 5, 298]),
            (["=rack.0.01", TAKE, "2-3"], [1, 2, 3]), (["0-298"], range(299)), (["199-298"], range(199, 299)), (["007"], [7]),
        ):
            r = run(TAKE, *words, "f.mf4", "n.mf4", "--force", cwd=here)
            new = is_new(here, old, list(numbers))
            left = 299 - len(numbers)
            expect(r.returncode == 0 and r.printed == "n.mf4: columns %d, taken out %d, bytes %d\n" % (left, len(numbers), len(new)), words, r.printed, r.said)
            expect(len(new) < len(old) and run("--sheet", "n.mf4", cwd=here).printed == sheets.sheet(new), "its sheet")
        phases = ["reading f.mf4, %d bytes" % len(old), "taking %d bytes of disk for the new file" % len(new), "taking columns out into", "syncing %d bytes" % len(new)]
        ends(r, 0, *phases)
        after = os.stat(os.path.join(here, "f.mf4"))
        expect(read(os.path.join(here, "f.mf4")) == old and (after.st_mtime_ns, after.st_ctime_ns) == (before.st_mtime_ns, before.st_ctime_ns), "the old file")
        holds(here, "f.mf4", "n.mf4")


@any_user
def options_of_taking_out():
    with folder() as here:
        old = result_in(here, "--unit", 64, "--block-size", 1000)
        for unit in (8, 64, 4096):
            r = run(TAKE, "2,4", "f.mf4", "n.mf4", "--unit", unit, "--force", "--quiet", cwd=here)
            expect((r.returncode, r.printed, r.said) == (0, "", ""), r.said)
            is_new(here, old, [2, 4], unit)
        r = run("f.mf4", TAKE, "2,4", "v.mf4", "--verify", "--sha256", cwd=here)
        ends(r, 0, "reading a file without a name" if "without a name" in r.said else "reading")
        digest = subprocess.run(["sha256sum", "v.mf4"], cwd=here, stdout=subprocess.PIPE).stdout.decode()
        expect(r.printed.endswith(digest) and r.printed.count("\n") == 2, r.printed)
        expect(is_new(here, old, [2, 4], name="v.mf4"), "verified")
        expect(run(TAKE, "1", "f.mf4", "s.mf4", "--sha256", "--quiet", cwd=here).printed.endswith("  s.mf4\n"), "the digest alone")


@any_user
def taking_out_of_every_kind():
    """Photos, signal data, shared times, a rack's metadata; column files that no converter wrote."""
    with folder() as here:
        photos = write(os.path.join(here, "p.mf4"), Recording(Group(EVERY_FORM)).image)
        files = [result_in(here, "--photos", recording=photos), result_in(here, "--share-time"), sheets.example(), edges.Site().f.made()]
        files += [column_files.any_file(Run.random) for _ in range(Run.loops(20))]
        told = []
        for old in files:
            write(os.path.join(here, "f.mf4"), old)
            masters = trial.columns_of(old)
            numbers = sorted(trial.closed(masters, {k for k in range(len(masters)) if Run.random.random() < 0.4}))
            if not numbers:
                continue
            r = run(TAKE, ",".join(map(str, numbers)), "f.mf4", "n.mf4", "--force", "--quiet", cwd=here)
            due = taken.take_out(old, 8, numbers)
            told.append(due.number)
            if due.accepted:
                converts(r)
                is_new(here, old, numbers)
            else:
                expect(r.returncode == REFUSED and "refused %d place %d: " % (due.number, due.place) in r.said, due, r.said)
    return "%d accepted, %d refused" % (told.count(0), len(told) - told.count(0))


@any_user
def names_of_columns_taken_out():
    """One that no column has, or several: refused with 33, and told; digits are numbers, = leads to any name."""
    with folder() as here:
        result_in(here, recording=write(os.path.join(here, "twice.mf4"), named_twice()))
        for word, said in (
            ("none", 'no column is named "none"'), ("twice", 'columns 0 and 2 are both named "twice"; say which by its number'), ("=1", 'no column is named "1"'),
            ("once,x-1", 'no column is named "x-1"'), ("99999999999999999999", 'no column is named "99999999999999999999"'), ("=a,b", 'no column is named "a,b"'),
        ):
            r = run(TAKE, word, "f.mf4", "n.mf4", cwd=here)
            fails(r, said, "f.mf4: refused 33 place 0: ", status=REFUSED)
        r = run(TAKE, "once", "f.mf4", "n.mf4", "--quiet", cwd=here)
        expect(r.returncode == 0 and r.said == "", r.said)
        is_new(here, read(os.path.join(here, "f.mf4")), [1])
        odd = column_files.File()
        for name in (b"7-12\0", b"a,b\0", "Zündung\0".encode(), b"=x\0", b"control\x1b\0"):
            column_files.put_column(odd, [b"abcdefgh"], links=[(3, odd.add(b"TX", [], name))])
        old = column_files.finish(odd).made()
        write(os.path.join(here, "f.mf4"), old)
        for word, number in (("=7-12", 0), ("=a,b", 1), ("Zündung", 2), ("==x", 3), ("control\x1b", 4)):
            converts(run(TAKE, word, "f.mf4", "n.mf4", "--force", "--quiet", cwd=here))
            is_new(here, old, [number])
        fails(run(TAKE, "x\x1b\n", "f.mf4", "n.mf4", "--force", cwd=here), 'no column is named "x??"', status=REFUSED)


@any_user
def files_that_nothing_is_taken_out_of():
    """A refusal's number, place and words; no new file, an old one as it was."""
    with folder() as here:
        old = result_in(here)
        for word, number, said in (
            ("299", 33, "given twice, or there is no such column"), ("1,1", 33, "given twice"), ("5-18446744073709551615", 33, "no such column"),
            ("18446744073709551615", 33, "no such column"), ("0", 34, "column 0 is the time column of column 1, which is kept"),
            ("100-250", 34, "column 199 is the time column of column 251, which is kept"),
        ):
            fails(run(TAKE, word, "f.mf4", "n.mf4", cwd=here), said, "f.mf4: refused %d place 0: " % number, status=REFUSED)
        fails(run(TAKE, "1", "f.mf4", "n.mf4", "--unit", 12, cwd=here), "f.mf4: refused 26 place 0: the unit is no power of two", status=REFUSED)
        for name, image in (("empty", b""), ("short", old[:63]), ("other", b"x" * 100), ("cut", old[:5000]), ("rows", read(SAMPLE)), ("deep", deep_file())):
            write(os.path.join(here, name), image)
            due = taken.take_out(image, 8, [0])
            r = run(TAKE, "0", name, "n.mf4", cwd=here)
            fails(r, "%s: refused %d place %d: " % (name, due.number, due.place), status=REFUSED)
            expect(not due.accepted and "recording" not in r.said.split(": refused ")[1], r.said)
        write(os.path.join(here, "most.mf4"), sheets.numbered(512))
        for word in ("0-512", "0-511,5", "5,0-511", "1-512"):
            fails(run(TAKE, word, "most.mf4", "n.mf4", cwd=here), "most.mf4: refused 33 place 0: ", status=REFUSED)
        expect(not os.path.exists(os.path.join(here, "n.mf4")), "a new file")
        converts(run(TAKE, "0-511", "most.mf4", "n.mf4", "--quiet", cwd=here))
        expect(len(read(os.path.join(here, "n.mf4"))) == 168, "512 columns out")
        write(os.path.join(here, "n.mf4"), b"old")
        fails(run(TAKE, "0", "f.mf4", "n.mf4", "--force", cwd=here), "refused 34", status=REFUSED)
        expect(read(os.path.join(here, "n.mf4")) == b"old" and read(os.path.join(here, "f.mf4")) == old, "files that are as they were")


def deep_file():
    """A column whose conversion leads on too far."""
    f = column_files.File()
    top, _ = edges.deep(f, 66)
    column_files.put_column(f, [b"abcdefgh"])
    column_files.put_column(f, [b"abcdefgh"], links=[(5, top)])
    return column_files.finish(f).made()


@any_user
def taking_out_misused():
    with folder() as here:
        result_in(here)
        for words in (
            (TAKE,), (TAKE, "1"), (TAKE, "1", "f.mf4"), (TAKE, "1", "f.mf4", "n.mf4", "third"), (TAKE, "1", "-d", here, "f.mf4"), (TAKE, "1", "--sheet", "f.mf4"),
            *((TAKE, "1", "f.mf4", "n.mf4", *more) for more in (
                ("--check",), ("--block-size", 64), ("--complete",), ("--in-place",), ("--json", "r.json"), ("--json", "-"), ("--listing",), ("--photos",), ("--resume",),
                ("--share-time",), ("--types", EXAMPLE), ("--unit",), ("--unit", "x"),
            )),
        ):
            fails(run(*words, cwd=here), "usage: mdf-columns RECORDING RESULT", USAGE)
        for word in ("", ",", "1,", ",1", "1,,2", "12-7", "1-2,4-3", "="):
            fails(run(TAKE, word, "f.mf4", "n.mf4", cwd=here), "--take-out needs columns: numbers, ranges as 7-12 or names", USAGE)
        fails(run(TAKE, "1", "--complete", "f.mf4", "n.mf4", cwd=here), "--take-out converts nothing: only --unit, --force, --verify, --sha256 and --quiet go with it")
        fails(run(TAKE, "1", "f.mf4", cwd=here), "--take-out needs a FILE and the name of a NEW one")
        holds(here, "f.mf4")
        expect(TAKE in run("--help").printed, "the help")


@any_user
def files_named_for_taking_out():
    """The file itself is never replaced, another only with --force, keeping its mode; nothing but files."""
    with folder() as here:
        old = result_in(here)
        for name in ("f.mf4", "./f.mf4"):
            for force in ((), ("--force",)):
                fails(run(TAKE, "1", "f.mf4", name, *force, cwd=here), "is the column file itself; the new file needs another name")
        os.link(os.path.join(here, "f.mf4"), os.path.join(here, "hard.mf4"))
        os.symlink("f.mf4", os.path.join(here, "soft.mf4"))
        for name in ("hard.mf4", "soft.mf4"):
            fails(run(TAKE, "1", "f.mf4", name, "--force", cwd=here), "is the column file itself")
        converts(run(TAKE, "1", "soft.mf4", "n.mf4", cwd=here))
        is_new(here, old, [1])
        fails(run(TAKE, "2", "f.mf4", "n.mf4", cwd=here), "n.mf4 exists; --force replaces it")
        is_new(here, old, [1])
        os.chmod(os.path.join(here, "n.mf4"), 0o640)
        converts(run(TAKE, "2", "f.mf4", "n.mf4", "--force", cwd=here))
        is_new(here, old, [2])
        expect(os.stat(os.path.join(here, "n.mf4")).st_mode & 0o777 == 0o640, "its mode")
        os.mkdir(os.path.join(here, "folder"))
        fails(run(TAKE, "2", "f.mf4", "folder", cwd=here), "folder is a folder; the new file needs the name of a file")
        fails(run(TAKE, "2", "f.mf4", "none/n.mf4", cwd=here), "can't open the folder none")
        fails(run(TAKE, "2", "missing.mf4", "m.mf4", cwd=here), "can't open the column file missing.mf4: No such file")
        fails(run(TAKE, "2", here, "m.mf4", cwd=here), "is a folder")
        expect(read(os.path.join(here, "f.mf4")) == old, "the old file")
        holds(here, "f.mf4", "n.mf4", "hard.mf4", "soft.mf4", "folder")


# ---- ended, changed, without room


@any_user
def taking_out_that_fails():
    """Nothing is left, and an old file is as it was."""
    for fault, said in (
        ("posix_fallocate:1:28", "No space left"), ("msync:1:5", "can't write the new file n.mf4 to the disk"), ("fsync:1:5", "n.mf4"),
        ("fsync:2:5", "can't sync the folder"), ("linkat:1:13", "can't give the new file its name"), ("mmap:2:12", "can't map the temporary file"),
    ):
        for old in (None, b"old"):
            with folder() as here:
                result_in(here)
                if old:
                    write(os.path.join(here, "n.mf4"), old)
                    fault = fault.replace("linkat", "renameat")
                fails(with_fault(fault, TAKE, "1", "f.mf4", "n.mf4", *["--force"] * bool(old), cwd=here), said)
                holds(here, "f.mf4", *["n.mf4"] * bool(old))
                expect(not old or read(os.path.join(here, "n.mf4")) == old, "the old file")
    with folder() as here:
        old = result_in(here)
        ends(with_fault("fsync:3:5", TAKE, "1", "f.mf4", "n.mf4", cwd=here), STANDING, "n.mf4 is there and whole")
        is_new(here, old, [1])
        fails(run(TAKE, "1", "f.mf4", "m.mf4", cwd=here, preexec_fn=limited_files(100000)), "no room for the new file")
        holds(here, "f.mf4", "n.mf4")


@any_user
def taking_out_that_the_disk_forgets():
    """--verify finds a byte that was lost."""
    with folder() as here:
        result_in(here)
        r = with_fault("fsync:1:lose", TAKE, "1", "f.mf4", "n.mf4", "--verify", cwd=here)
        fails(r, "what was stored for n.mf4 is not what was to be", "first differs at", status=DIFFERENT)
        holds(here, "f.mf4")
        expect(with_fault("fsync:1:lose", TAKE, "1", "f.mf4", "n.mf4", cwd=here).returncode == 0, "without it, it isn't found")


@any_user
def file_changed_while_columns_are_taken_out():
    """No new file, and no refusal, of bytes that are others by then."""
    for change in CHANGES:
        for moment, word in (("mmap:1:stop", "299"), ("mmap:1:stop", "1"), ("msync:1:stop", "1"), ("fsync:1:stop", "1"), ("fsync:2:stop", "1")):
            with folder() as here:
                os.mkdir(os.path.join(here, "in"))
                result_in(os.path.join(here, "in"))
                path = os.path.join(here, "in", "f.mf4")
                p = stopped_at(moment, TAKE, word, path, os.path.join(here, "n.mf4"))
                change(path)
                r = go_on(p)
                expect(r.returncode == 1 and ("the column file %s was" % path in r.said or "can't be read to its end" in r.said), change.__name__, moment, r.said)
                expect("n.mf4" not in os.listdir(here), change.__name__, moment)


@any_user
def taking_out_killed_at_each_step():
    """The new file is whole or not there; beside it at most one file, which the next call removes, or names where it may be whole."""
    unnamed = ["tmpfile:1", "posix_fallocate:1", "msync:1", "fsync:1", "fsync:2", "linkat:1", "fsync:3"]
    named = ["flock:1", "posix_fallocate:1", "msync:1", "fsync:1", "fsync:2", "renameat2:1", "fsync:3"]
    told = []
    for front, steps in (("", unnamed), (NAMED, named)):
        for step in steps:
            with folder() as here:
                old = result_in(here)
                r = with_fault("%s%s:before" % (front, step), TAKE, "1", "f.mf4", "n.mf4", cwd=here)
                expect(r.returncode == -signal.SIGKILL, step, r.returncode)
                told.append("n.mf4" in os.listdir(here))
                if told[-1]:
                    is_new(here, old, [1])
                left = set(os.listdir(here)) - {"f.mf4", "n.mf4"}
                expect(len(left) <= bool(front) and all(is_leftover(name, "n.mf4") for name in left), step, left)
                r = run(TAKE, "1", "f.mf4", "n.mf4", "--force", cwd=here)
                converts(r)
                is_new(here, old, [1])
                left = set(os.listdir(here)) - {"f.mf4", "n.mf4"}
                expect(all(name + " may be left" in r.said for name in left), step, left)
    expect(True in told and False in told, told)


@any_user
def taking_out_ended_by_a_signal():
    with folder() as here:
        result_in(here)
        p = stopped_at("msync:1:stop", TAKE, "1", os.path.join(here, "f.mf4"), os.path.join(here, "n.mf4"))
        p.terminate()
        r = go_on(p)
        expect(r.returncode == -signal.SIGTERM and "there is no new file" in r.said, r.returncode, r.said)
        holds(here, "f.mf4")


@test
def taking_out_of_a_file_over_4_gib():
    """Sparse: of 5 GiB a column behind them, and all columns."""
    with folder() as here:
        path = write_over_4_gib(os.path.join(here, "long.mf4"))
        fails(run(TAKE, "0", path, "n.mf4", cwd=here), "column 0 is the time column of column 1", "refused 34", status=REFUSED)
        converts(run(TAKE, "time,past 4 GiB", path, "n.mf4", "--quiet", cwd=here))
        expect(len(read(os.path.join(here, "n.mf4"))) == 168, "all columns out")
        if shutil.disk_usage(here).free < 12 * GIB:
            raise NotTried("a new file of 5 GiB: there is no room for it")
        converts(run(TAKE, "1", path, "n.mf4", "--quiet", "--force", cwd=here))
        size = os.path.getsize(os.path.join(here, "n.mf4"))
        expect(5 * GIB < size < 5 * GIB + 1000, size)
        lines = run("--sheet", "n.mf4", cwd=here).printed.splitlines()
        expect(len(lines) == 2 and re.match(r" +0 t time ", lines[1]), lines)


# ---- the module for Python


@test
def python_taking_out():
    with folder() as here:
        result_in(here)
        result_in(here, recording=write(os.path.join(here, "twice"), named_twice()), name="twice.mf4")
        return desk("taking_out", os.path.join(here, "f.mf4"), os.path.join(here, "twice.mf4"), here)


@test
def python_taking_out_of_any_file():
    """Files by chance, sound and damaged, beside the model; --long sets how many."""
    with folder() as here:
        for k in range(Run.loops(40)):
            file, _ = trial.any_origin(Run.random)
            file = column_files.damaged(Run.random, file) if k % 3 == 0 else file
            numbers, unit = trial.any_numbers(Run.random, trial.columns_of(file)), 8 << Run.random.randrange(10)
            due = taken.take_out(file, unit, numbers)
            write(os.path.join(here, "%d.mf4" % k), file)
            write(os.path.join(here, "%d.new" % k), due.file() if due.accepted else b"")
            write(os.path.join(here, "%d.txt" % k), ("%d %d %d %s" % (unit, due.number, due.place, " ".join(map(str, numbers)))).encode())
        return desk("taking_out_of", here)
