"""The library by its header and by both examples."""
import os
import shutil
import subprocess

from common import EXAMPLE, LIBRARY, LISTED, ROOT, NotTried, any_user, cc, expect, place, read, run, test, write
from mdf import columns_of

MET = set()  # refusals met, here and by the command


def converts_example(program):
    printed = subprocess.run([program, EXAMPLE, program + ".mf4"], check=True, stdout=subprocess.PIPE).stdout.decode()
    expect(printed == LISTED + "metadata 1032 bytes 1224\n", printed)
    data = read(program + ".mf4")
    expect(len(data) == 1224 and data[1032:1036] == b"##DV", "another result")
    check_example(data)


def says_what_is_wrong(program):
    """A file that is missing is no refusal, and without words there is a usage."""
    for words, said in (([program, "missing.mf4"], "No such file"), ([program], "usage: convert RECORDING")):
        r = subprocess.run(words, stdout=subprocess.PIPE, stderr=subprocess.PIPE)
        expect(r.returncode == 1 and r.stdout == b"" and said in r.stderr.decode(), words, r.returncode, r.stdout, r.stderr)


def check_example(data):
    source = bytes(range(140))
    time_, signal_ = columns_of(data)
    expect([c for c, _ in time_.cells()] == [source[7 * r : 7 * r + 4] for r in range(20)], "the time column")
    expect(signal_.cells() == [(source[7 * r + 4 : 7 * r + 6], bytes([source[7 * r + 6] & 1])) for r in range(20)], "the signal column")
    expect(time_.master is None and signal_.master == 0, "the masters")


@test
def example_in_c():
    program = place("convert-c")
    cc(os.path.join(ROOT, "host", "examples", "convert.c"), LIBRARY, "-o", program)
    converts_example(program)
    says_what_is_wrong(program)


@test
def example_in_rust():
    program = place("convert-rust")
    words = ["-O", "--edition", "2021", "-L", os.path.dirname(LIBRARY), os.path.join(ROOT, "host", "examples", "convert.rs"), "-o", program]
    subprocess.run(["rustc", *words], check=True)
    converts_example(program)
    says_what_is_wrong(program)
    expect(read("convert-rust.mf4") == read("convert-c.mf4"), "another result than in C")


def reads_example(program, *, widths):
    """Columns of the example's result with blocks of 64 bytes, the whole of each lying in several blocks."""
    expect(run("--block-size", "64", "--force", EXAMPLE, place("read.mf4")).returncode == 0, "no result")
    cells = [[a + b for a, b in c.cells()] for c in columns_of(read("read.mf4"))]
    for column, first, count, said in (
        (0, 0, 20, b"".join(cells[0]).hex()),
        (1, 3, 2, b"".join(cells[1][3:5]).hex()),
        (1, 0, 20, b"".join(cells[1]).hex()),
        (0, 20, 0, ""),
        (2, 0, 0, "refused 22 place 0"),
        (0, 20, 1, "refused 23 place 0"),
    ):
        words = [str(x) for x in (column, first, count)] + ([str(len(cells[min(column, 1)][0]))] if widths else [])
        r = subprocess.run([program, place("read.mf4"), *words], stdout=subprocess.PIPE)
        expect(r.stdout.decode() == said + "\n", words, r.stdout)
    MET.update((22, 23))


@test
def example_reads_in_c():
    program = place("read-c")
    cc(os.path.join(ROOT, "host", "examples", "read.c"), LIBRARY, "-o", program)
    reads_example(program, widths=False)


@test
def example_reads_in_rust():
    program = place("read-rust")
    words = ["-O", "--edition", "2021", "-L", os.path.dirname(LIBRARY), os.path.join(ROOT, "host", "examples", "read.rs"), "-o", program]
    subprocess.run(["rustc", *words], check=True)
    reads_example(program, widths=True)
    r = subprocess.run([program, place("read.mf4"), "0", "0", "20", "3"], stdout=subprocess.PIPE)
    expect(r.stdout == b"refused 24 place 0\n", r.stdout)
    MET.add(24)


@test
def reader_at_its_borders():
    program = place("reader")
    cc(os.path.join(ROOT, "host", "tests", "reader.c"), LIBRARY, "-o", program)
    r = subprocess.run([program], stdout=subprocess.PIPE)
    expect(r.returncode == 0 and r.stdout.endswith(b" checks, 0 wrong\n"), r.stdout.decode())


def plots_example(program):
    """Three ranges of both columns; a refused entry with those before it; no entries."""
    file = "plotted.mf4"
    expect(run(EXAMPLE, file, "--force").returncode == 0, "no result to plot")
    time_, signal_ = columns_of(read(file))
    whole = [b"".join(a + b for a, b in c.cells()) for c in (time_, signal_)]
    due = whole[0][4 * 3 : 4 * 8] + whole[1][:6] + whole[0][76:]
    entries = ["0", "3", "5", "4", "1", "0", "2", "3", "0", "19", "1", "4"]
    refused = ["1", "19", "2", "3", "0", "0", "1", "4"]
    for words, said in ((entries, due.hex() + "\n"), (entries + refused, due.hex() + "\nrefused 23 place 0 position 3\n"), ([], "\n")):
        r = subprocess.run([program, place(file), *words], stdout=subprocess.PIPE)
        expect(r.stdout.decode() == said, words, r.stdout)


@test
def plot_in_c():
    program = place("plot-c")
    cc(os.path.join(ROOT, "host", "examples", "plot.c"), LIBRARY, "-o", program)
    plots_example(program)


@test
def plot_in_rust():
    program = place("plot-rust")
    words = ["-O", "--edition", "2021", "-L", os.path.dirname(LIBRARY), os.path.join(ROOT, "host", "examples", "plot.rs"), "-o", program]
    subprocess.run(["rustc", *words], check=True)
    plots_example(program)


@test
def library_and_header():
    """Refusals 1, 2, 20, 21 and 25 to 34, every length of the header, units, tables of treatments, references, plots, sheets, taking out, steps and shares."""
    program = place("library")
    cc(os.path.join(ROOT, "host", "tests", "library.c"), LIBRARY, "-o", program)
    r = subprocess.run([program, EXAMPLE], stdout=subprocess.PIPE)
    expect(r.returncode == 0 and r.stdout.endswith(b" checks, 0 wrong\n"), r.stdout.decode())
    MET.update((1, 2, 20, 21, *range(25, 35)))


@test
def header_in_cplusplus():
    compiler = shutil.which("c++")
    if not compiler:
        raise NotTried("there is no c++")
    source = write("header.cpp", b'#include "sitaungo.h"\nint main() { return sitaungo_outcome().accepted; }\n')
    subprocess.run([compiler, "-fsyntax-only", "-Wall", "-Wextra", "-I" + os.path.join(ROOT, "include"), source], check=True, cwd=place())


@any_user
def version_in_header_and_command():
    """One place has it: the header."""
    with open(os.path.join(ROOT, "include", "sitaungo.h")) as f:
        (line,) = [x for x in f if x.startswith("#define SITAUNGO_VERSION ")]
    r = run("--version")
    expect(r.returncode == 0 and r.printed == "mdf-columns %s\n" % line.split('"')[1] and r.said == "", r.printed, r.said)
