"""What the cases share: places, running the command, what is expected of it, faults of single calls."""
import contextlib
import json
import os
import random
import re
import resource
import shlex
import shutil
import subprocess
import tempfile
import time

from mdf import without_time

ROOT = os.path.dirname(os.path.dirname(os.path.dirname(os.path.abspath(__file__))))
BUILT = os.path.join(ROOT, "target", "host")
SAMPLE = os.path.join(BUILT, "sample.mf4")
EXAMPLE = os.path.join(ROOT, "crates", "columns", "stdin")
LIBRARY = os.path.join(ROOT, "target", "staticlib", "libsitaungo.a")
FAULTS = os.path.join(BUILT, "faults.so")
LISTED = "columns 2\n0 t 4 0 20 1 80 -\n1 s 2 1 20 1 60 0\nomitted 0\n"
GIB = 1 << 30
NOBODY = 65534
FAILED, REFUSED, STANDING, INCOMPLETE, DIFFERENT = 1, 2, 3, 4, 5
NAMED = "tmpfile:0:95,"  # the fault of a file system that has no files without a name

TESTS = []


class Run:
    """This run: folder for files, the command, the seed, and how often loops turn."""

    here = os.path.join(BUILT, "test")
    command = os.path.join(BUILT, "mdf-columns")
    random = random.Random(0)
    turns = None

    @classmethod
    def loops(cls, usual):
        return cls.turns or usual


class NotTried(Exception):
    pass


def test(f):
    """A case. With `any_user` it is tried a second time as another user than root."""
    TESTS.append(f)
    return f


def any_user(f):
    f.any_user = True
    return test(f)


def expect(good, *what):
    if not good:
        raise AssertionError(" ".join(str(w) for w in what))


# ---- files


def place(*names):
    return os.path.join(Run.here, *names)


def read(path):
    with open(place(path), "rb") as f:
        return f.read()


def write(path, data):
    with open(place(path), "wb") as f:
        f.write(data)
    return path


@contextlib.contextmanager
def folder():
    """An empty folder, by its path; its files go when it is left."""
    path = tempfile.mkdtemp(dir=Run.here)
    try:
        yield path
    finally:
        shutil.rmtree(path, ignore_errors=True)


def holds(path, *names):
    expect(sorted(os.listdir(path)) == sorted(names), "the folder holds", os.listdir(path), "and not", names)


def is_leftover(name, result="r.mf4"):
    return re.fullmatch(r"\.%s\.mdf-columns-[0-9a-f]{16}" % re.escape(result), name)


# ---- running the command


def run(*words, **more):
    """The command, ended, with its messages as text."""
    more = {"stdout": subprocess.PIPE, "stderr": subprocess.PIPE, "timeout": 600, "cwd": Run.here, **more}
    r = subprocess.run([Run.command, *map(str, words)], **more)
    r.said = (r.stderr or b"").decode(errors="replace")
    r.printed = (r.stdout or b"").decode(errors="replace")
    return r


def faulty(fault):
    return {**os.environ, "LD_PRELOAD": FAULTS, "FAULT": fault}


def with_fault(fault, *words, **more):
    return run(*words, env=faulty(fault), **more)


def start(*words, until=None, **more):
    """The command, running; once it has said so."""
    p = subprocess.Popen([Run.command, *map(str, words)], stdout=subprocess.PIPE, stderr=subprocess.PIPE, cwd=Run.here, **more)
    while until:
        line = p.stderr.readline()
        expect(line, "ended before", until)
        if until.encode() in line:
            return p
    return p


def end(p):
    printed, said = p.communicate(timeout=600)
    r = subprocess.CompletedProcess(p.args, p.returncode)
    r.said, r.printed = said.decode(errors="replace"), printed.decode(errors="replace")
    return r


def stopped_at(fault, *words):
    """The command, running until it has stopped itself there."""
    p = start(*words, env=faulty(fault))
    while os.waitid(os.P_PID, p.pid, os.WSTOPPED | os.WEXITED | os.WNOWAIT).si_code == os.CLD_EXITED:
        raise AssertionError("it ended before " + fault)
    return p


def go_on(p):
    os.kill(p.pid, 18)  # SIGCONT
    return end(p)


def ends(r, status, *words):
    expect(r.returncode == status, "status", r.returncode, r.said)
    for word in words:
        expect(word in r.said, repr(word), "is not in", r.said)


def fails(r, *words, status=FAILED):
    ends(r, status, *words)
    expect(r.printed == "", "printed", r.printed)


def converts(r):
    ends(r, 0)


def report_of(path):
    with open(place(path)) as f:
        return [json.loads(line) for line in f]


def limited_files(bytes_):
    return lambda: resource.setrlimit(resource.RLIMIT_FSIZE, (bytes_, bytes_))


def as_nobody(*words, **more):
    if os.getuid() != 0:
        return run(*words, **more)
    return run(*words, user=NOBODY, group=NOBODY, extra_groups=[], **more)


@contextlib.contextmanager
def open_folder():
    """A folder outside the repository that another user reaches, with the command in it."""
    path, own = tempfile.mkdtemp(), Run.command
    try:
        os.chmod(path, 0o777)
        Run.command = shutil.copy(own, path)
        yield path
    finally:
        Run.command = own
        shutil.rmtree(path, ignore_errors=True)


@contextlib.contextmanager
def mounted(*words):
    path = tempfile.mkdtemp(dir=Run.here)
    if subprocess.run(["mount", *words, path], stderr=subprocess.DEVNULL).returncode != 0:
        os.rmdir(path)
        raise NotTried("mount " + " ".join(words[:2]) + " is not permitted")
    try:
        yield path
    finally:
        subprocess.run(["umount", path], check=True)
        os.rmdir(path)


# ---- building


def compiler():
    return shlex.split(os.environ.get("CC", "cc"))


def cc(*words):
    subprocess.run([*compiler(), "-std=c11", "-O2", "-Wall", "-Wextra", "-I" + os.path.join(ROOT, "include"), *words], check=True)


def build_faults():
    cc("-shared", "-fPIC", os.path.join(ROOT, "host", "tests", "faults.c"), "-o", FAULTS, "-ldl")


# ---- recordings


def make_sample(path, records):
    subprocess.run([os.path.join(BUILT, "sample"), path, str(records)], check=True)
    return path


class Sized:
    """A sample of so many records, made once, and its result without the time and the seconds it takes."""

    def __init__(self, name, records):
        self.name, self.records = name, records

    def __getattr__(self, name):
        if name not in ("path", "result", "seconds"):
            raise AttributeError(name)
        self.path = make_sample(place(self.name + ".mf4"), self.records)
        self.seconds = min(self.convert() for _ in range(3))
        self.result = without_time(read(self.name + "-columns.mf4"))
        return getattr(self, name)

    def convert(self):
        begun = time.monotonic()
        converts(run(self.path, self.name + "-columns.mf4", "--force"))
        return time.monotonic() - begun

    def forget(self):
        self.__dict__ = {"name": self.name, "records": self.records}


SMALL = Sized("small", 1000)
MEDIUM = Sized("medium", 20000)
BIG = Sized("big", 300000)
SIZES = (SMALL, MEDIUM, BIG)
