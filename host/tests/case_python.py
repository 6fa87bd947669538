"""The module for Python: its cases (desk.py) each in an interpreter of its own, under -X dev, where a warning is an error."""
import functools
import glob
import os
import random
import shutil
import struct
import subprocess
import sys

import rows
from case_damaged import damaged
from case_photos import EVERY_FORM, Group, Recording
from common import BIG, BUILT, EXAMPLE, LIBRARY, ROOT, SAMPLE, NotTried, Run, cc, compiler, converts, expect, folder, place, read, run, test, write
from mdf import block

DESK = os.path.join(ROOT, "host", "tests", "desk.py")
MODULE = os.path.join(ROOT, "host", "python")
RESULT = os.path.join(BUILT, "sample-columns.mf4")


@functools.lru_cache(maxsize=None)
def found_with(*modules):
    """An interpreter that has them: this one, or Debian's; None where neither does."""
    for python in (sys.executable, "/usr/bin/python3"):
        if os.path.exists(python) and subprocess.run([python, "-c", "import " + ", ".join(modules)], stderr=subprocess.DEVNULL).returncode == 0:
            return python
    return None


def with_modules(*modules):
    python = found_with(*modules)
    if not python:
        raise NotTried("there is no Python with " + " and ".join(modules))
    return python


def some_python():
    """One with numpy, where there is one."""
    return found_with("numpy") or sys.executable


def desk(*words, python=None, status=0, **environment):
    """A case in an interpreter of its own: what it tried."""
    r = subprocess.run(
        [python or some_python(), "-B", "-X", "dev", "-W", "error", DESK, *map(str, words)],
        env={**os.environ, **environment}, stdout=subprocess.PIPE, stderr=subprocess.PIPE, cwd=place(), timeout=600,
    )
    printed, said = r.stdout.decode(errors="replace"), r.stderr.decode(errors="replace")
    expect(r.returncode == status, "status", r.returncode, printed, said[-3000:])
    expect(status != 0 or said == "", said[-3000:])
    return printed.strip()


def converted(recording, name, *words):
    converts(run(recording, name, "--force", "--quiet", *words))
    return place(name)


# ---- columns and records


@test
def python_columns_and_records():
    return desk("columns", RESULT)


@test
def python_records_over_blocks():
    with folder() as here:
        desk("columns", converted(SAMPLE, os.path.join(here, "r.mf4"), "--block-size", 64))
        return desk("split", converted(EXAMPLE, os.path.join(here, "s.mf4"), "--block-size", 64))


@test
def python_columns_with_references():
    """A result whose CN are longer by references to attachments."""
    with folder() as here:
        recording = write(os.path.join(here, "a.mf4"), Recording(Group(EVERY_FORM)).image)
        return desk("columns", converted(recording, os.path.join(here, "r.mf4"), "--photos"))


@test
def python_ranges_and_arguments():
    desk("ranges", RESULT)


@test
def python_without_numpy():
    desk("without_numpy", RESULT)


def named_twice():
    """A recording whose channels are called twice, once, twice, and one without a name."""
    image = bytearray(b"MDF     4.10    tests   " + bytes(40) + bytes(104))

    def add(data):
        image.extend(bytes(-len(image) % 8))
        image.extend(data)
        return len(image) - len(data)

    cn = 0
    for byte, name in reversed(list(enumerate((b"twice", b"once", b"twice", b"")))):
        text = add(block(b"TX", [], name + b"\0")) if name else 0
        cn = add(block(b"CN", [cn, 0, text, 0, 0, 0, 0, 0], struct.pack("<BBBBII", 2 * (byte == 0), 0, 0, 0, byte, 8) + bytes(60)))
    cg = add(block(b"CG", [0, cn, 0, 0, 0, 0], struct.pack("<QQHHIII", 0, 3, 0, 0, 0, 4, 0)))
    dt = add(block(b"DT", [], bytes(range(12))))
    dg = add(block(b"DG", [0, cg, dt, 0], bytes(8)))
    image[64:168] = block(b"HD", [dg, 0, 0, 0, 0, 0], bytes(32))
    return bytes(image)


@test
def python_names_that_occur_twice():
    with folder() as here:
        desk("repeated", converted(write(os.path.join(here, "a.mf4"), named_twice()), os.path.join(here, "r.mf4")))


@test
def python_older_and_newer():
    """Every Python from 3.9 on that is on the path."""
    tried = []
    for minor in range(9, 20):
        python = shutil.which("python3.%d" % minor)
        if python and subprocess.run([python, "-c", ""], stdout=subprocess.DEVNULL, stderr=subprocess.DEVNULL).returncode == 0:
            desk("columns", RESULT, python=python)
            desk("ranges", RESULT, python=python)
            tried.append("3.%d" % minor)
    return ", ".join(tried)


# ---- values


@test
def python_values_of_every_type():
    """Generated recordings: each value of the result is what another decoder reads from the rows; --long sets how many."""
    python, told = with_modules("numpy"), [0, 0, 0]
    with folder() as here:
        for k in range(Run.loops(12)):
            image = rows.recording(Run.random, Run.random.choice((9, 40, 200)))
            recording, size = write(os.path.join(here, "a.mf4"), image), (64, 1000, 4194304)[k % 3]
            result = converted(recording, os.path.join(here, "r.mf4"), "--block-size", size)
            words = desk("values", recording, result, python=python).replace(",", "").split()
            told = [a + int(b) for a, b in zip(told, (words[0], words[2], words[6]))]
    return "%d columns, %d of them views of the file, %d values" % tuple(told)


# ---- bad files


@test
def python_files_cut_at_every_length():
    with folder() as here:
        told = desk("cut", converted(EXAMPLE, os.path.join(here, "r.mf4")), here)
        small = rows_of_one_channel()
        return told + "; " + desk("cut", converted(write(os.path.join(here, "a.mf4"), small), os.path.join(here, "s.mf4"), "--block-size", 16), here)


def rows_of_one_channel():
    """A recording with texts in signal data, a name, a unit and a conversion."""
    w = rows.Writer(random.Random(3))
    signal, places = w.signal_data(5)
    unit = w.text("<CNunit><TX>V</TX></CNunit>", b"MD")
    linear = w.add(b"CC", [0, unit, 0, 0], struct.pack("<BBHHHdd2d", 1, 0, 0, 0, 2, 0.0, 0.0, 1.0, 2.0))
    texts = w.add(b"CN", [0, 0, w.text("text"), 0, 0, signal, 0, 0], struct.pack("<BBBBIII", 1, 0, 7, 0, 8, 64, 0) + bytes(56))
    cn = w.add(b"CN", [texts, 0, w.text("time"), 0, linear, 0, 0, 0], struct.pack("<BBBBIII", 2, 1, 4, 0, 0, 64, 0) + bytes(56))
    cg = w.add(b"CG", [0, cn, 0, 0, 0, 0], struct.pack("<QQHHIII", 0, 5, 0, 0, 0, 16, 0))
    dg = w.data_group(0, [struct.pack("<dQ", k, place_) for k, place_ in enumerate(places)], cg, 0)
    w.image[64:168] = block(b"HD", [dg, 0, 0, 0, 0, 0], bytes(32))
    return bytes(w.image)


@test
def python_foreign_files():
    """Recordings, sound and damaged, and files of other kinds."""
    data = [name for crate in ("columns", "inspect") for name in sorted(glob.glob(os.path.join(ROOT, "crates", crate, "data", "*")))]
    told = desk("foreign", SAMPLE, EXAMPLE, *data, os.path.join(ROOT, "README.md"), sys.executable)
    with folder() as here:
        desk("no_files", here)
    return told


@test
def python_records_without_bytes():
    with folder() as here:
        desk("zero_width", here)


@test
def python_files_over_4_gib():
    with folder() as here:
        desk("over_4_gib", here)


@test
def python_files_replaced_while_mapped():
    with folder() as here:
        desk("replaced", RESULT, converted(EXAMPLE, os.path.join(here, "e.mf4")), here)
        r = desk("lost_elsewhere", RESULT, here, status=-7)  # SIGBUS
        expect(r == "faulting", r)


@test
def python_files_written_to_while_read():
    """By another process, at random; --long sets how often."""
    told = []
    with folder() as here:
        result, small = converted(EXAMPLE, os.path.join(here, "e.mf4")), converted(EXAMPLE, os.path.join(here, "s.mf4"), "--block-size", 64)
        wide = converted(write(os.path.join(here, "a.mf4"), rows.recording(Run.random, 40)), os.path.join(here, "r.mf4"))
        for k in range(Run.loops(2)):
            told.append(desk("rewritten", (wide, small)[k % 2], result, here, 4, Run.random.randrange(1 << 30)))
    return "; ".join(told)


def damaged_results(here, count):
    """Results damaged by one to three edits, in a folder."""
    os.mkdir(os.path.join(here, "damaged"))
    bases = [(image, size) for image in (read(EXAMPLE), rows_of_one_channel()) for size in (64, 4194304)] + [(rows.recording(Run.random, 9), 64)]
    results = []
    for image, size in bases:
        recording = write(os.path.join(here, "a.mf4"), image)
        results.append(read(converted(recording, os.path.join(here, "r.mf4"), "--block-size", size)))
    for k in range(count):
        write(os.path.join(here, "damaged", "%d.mf4" % k), damaged(Run.random.choice(results)))
    return os.path.join(here, "damaged")


@test
def python_damaged_results():
    """Each read whole; then the library alone, with pages that can't be read before and behind the file."""
    with folder() as here:
        where = damaged_results(here, Run.loops(100))
        return desk("damaged", where) + "; " + desk("guarded", where)


@test
def python_damaged_results_under_sanitizers():
    """AddressSanitizer and UndefinedBehaviorSanitizer over the shared library, as far as it is C; its loads and stores through libc are watched."""
    sanitized = os.path.join(BUILT, "libsitaungo-sanitized.so")
    flags = ["-g", "-fsanitize=address,undefined", "-fno-sanitize-recover=all", "-shared", "-fPIC", os.path.join(MODULE, "mapped.c")]
    try:
        cc(*flags, "-Wl,--whole-archive", LIBRARY, "-Wl,--no-whole-archive", "-o", sanitized)
        runtime = subprocess.run([*compiler(), "-print-file-name=libasan.so"], stdout=subprocess.PIPE, check=True).stdout.decode().strip()
        expect(os.path.isabs(runtime), runtime)
    except Exception as why:
        raise NotTried("no sanitizers: %s" % why)
    more = {"SITAUNGO_LIBRARY": sanitized, "LD_PRELOAD": os.path.realpath(runtime), "ASAN_OPTIONS": "detect_leaks=0", "PYTHONMALLOC": "malloc"}
    with folder() as here:
        told = desk("damaged", damaged_results(here, Run.loops(100)), **more)
        desk("replaced", RESULT, converted(EXAMPLE, os.path.join(here, "e.mf4")), here, **more)
        desk("columns", RESULT, **more)
    return told


# ---- converting, examples


@test
def python_converting():
    with folder() as here:
        desk("converting", EXAMPLE, SAMPLE, os.path.join(ROOT, "README.md"), here)


@test
def python_steps():
    with folder() as here:
        told = desk("steps", SAMPLE, RESULT, here)
        return told + ", " + desk("passes", SAMPLE, EXAMPLE, *(os.path.join(ROOT, "crates", "columns", "data", name) for name in ("metadata", "unsorted")))


def examples_of_readme():
    """Those parts of README that are marked as Python."""
    with open(os.path.join(ROOT, "README.md")) as f:
        return [part.split("```")[0] for part in f.read().split("```python\n")[1:]]


@test
def python_examples_of_readme():
    """Each as it stands, in the repository."""
    python, found = with_modules("numpy"), examples_of_readme()
    expect(len(found) >= 3, len(found), "examples")
    for script in found:
        words, environment = [python, "-B", "-X", "dev", "-W", "error", "-c", script], {**os.environ, "PYTHONPATH": MODULE}
        r = subprocess.run(words, cwd=ROOT, env=environment, stdout=subprocess.PIPE, stderr=subprocess.PIPE)
        expect(r.returncode == 0 and r.stdout and r.stderr == b"", script, r.stdout.decode(), r.stderr.decode())
    return "%d examples" % len(found)


@test
def python_example_that_draws():
    """README's command; errors in words."""
    python = with_modules("numpy", "matplotlib")
    with open(os.path.join(ROOT, "README.md")) as f:
        (line,) = [x.strip() for x in f if "host/examples/plot.py" in x and x.startswith("    ")]
    words = line.split()
    expect(words[:2] == ["PYTHONPATH=host/python", "python3"], words)
    example, result, columns = words[2], words[3], words[5:]

    def draw(*more):
        environment = {**os.environ, "PYTHONPATH": MODULE, "MPLCONFIGDIR": place()}
        return subprocess.run([python, "-B", example, *more], cwd=ROOT, env=environment, stderr=subprocess.PIPE)

    with folder() as here:
        picture = os.path.join(here, "p.png")
        r = draw(result, picture, *columns)
        expect(r.returncode == 0, r.stderr.decode())
        data = read(picture)
        width, height = struct.unpack_from(">II", data, 16)
        expect(data[:8] == b"\x89PNG\r\n\x1a\n" and width > 500 and height > 300, width, height)
        for more, said in (
            ((result, picture, "missing"), "no column 'missing'"), ((SAMPLE, picture, "0"), "refused 24"), ((result, picture, "rack.2.99"), "no numbers"),
            ((), "usage"),
        ):
            r = draw(*more)
            expect(r.returncode == 1 and said in r.stderr.decode() and "Traceback" not in r.stderr.decode(), more, r.stderr.decode())
        expect(draw(result, picture, "1", "rack.0.00").returncode == 0, "by number")
    return "%d by %d" % (width, height)


@test
def python_installed():
    """Module, library and command below a prefix find each other."""
    with folder() as here:
        subprocess.run([os.path.join(ROOT, "host", "install"), os.path.join(here, "p")], check=True)
        script = "import sitaungo; r = sitaungo.convert(%r, %r); print(sitaungo.__file__, len(sitaungo.ColumnFile(r['result']).columns))"
        r = subprocess.run(
            [sys.executable, "-B", "-X", "dev", "-c", script % (EXAMPLE, os.path.join(here, "r.mf4"))], stdout=subprocess.PIPE, check=True, cwd=here,
            env={**os.environ, "PYTHONPATH": os.path.join(here, "p", "lib", "sitaungo")},
        )
        expect(r.stdout.decode() == "%s 2\n" % os.path.join(here, "p", "lib", "sitaungo", "sitaungo.py"), r.stdout.decode())


@test
def python_300_columns_read():
    """In about the time of a plain copy."""
    BIG.path
    return desk("speed", place("big-columns.mf4"), 5)
