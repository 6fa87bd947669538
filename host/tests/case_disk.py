"""Full disks and little memory."""
import contextlib
import os
import resource
import shutil
import subprocess
import time

from case_conversions import refuses
from case_library import check_example
from common import (
    BIG, EXAMPLE, GIB, SAMPLE, SMALL, NotTried, Run, any_user, converts, expect, fails, folder, holds, limited_files, mounted, place, read, run, test,
    with_fault, write,
)
from mdf import columns_of, wide_recording, without_time


@any_user
def file_size_limit():
    with folder() as here:
        result = os.path.join(here, "r.mf4")
        fails(run(SAMPLE, result, preexec_fn=limited_files(100000)), "no room for the result", "File too large")
        holds(here)
        write(result, b"old")
        fails(run(SAMPLE, result, "--force", preexec_fn=limited_files(100000)), "no room for the result")
        expect(read(result) == b"old", "the old result is gone")
        holds(here, "r.mf4")


def fill_up(here):
    """A result that doesn't fit, over none and over an old one; then one that fits."""
    result = os.path.join(here, "r.mf4")
    before = os.listdir(here)
    fails(run(SAMPLE, result), "no room for the result", "No space left")
    holds(here, *before)
    # the file system is asked first: nothing is taken, not even for a moment
    fails(with_fault("posix_fallocate:0:before", SAMPLE, result), "no room for the result", "No space left")
    # one that promises room and has none
    fails(with_fault("fstatvfs:0:38", SAMPLE, result), "no room for the result", "No space left")
    fails(with_fault("tmpfile:0:95,fstatvfs:0:38", SAMPLE, result))
    holds(here, *before)
    write(result, b"old")
    fails(run(SAMPLE, result, "--force"), "no room for the result", "No space left")
    expect(read(result) == b"old", "the old result is gone")
    converts(run(EXAMPLE, result, "--force", "--block-size", 64))
    check_example(read(result))
    holds(here, "r.mf4", *before)


@test
def full_disk_tmpfs():
    with mounted("-t", "tmpfs", "-o", "size=256k", "tmpfs") as here:
        fill_up(here)


@test
def full_disk_ext4():
    if not shutil.which("mkfs.ext4"):
        raise NotTried("there is no mkfs.ext4")
    image = place("ext4.img")
    with open(image, "wb") as f:
        f.truncate(512 << 10)
    subprocess.run(["mkfs.ext4", "-q", "-O", "^has_journal", image], check=True, stderr=subprocess.DEVNULL)
    with mounted("-o", "loop", image) as here:
        fill_up(here)


@test
def disks_of_random_size():
    """Whatever room there is: the whole result, or none and the room free again. --long sets how often."""
    told = []
    with mounted("-t", "tmpfs", "-o", "size=64k", "tmpfs") as here:
        result = os.path.join(here, "r.mf4")
        for k in range(Run.loops(24)):
            size = Run.random.choice((Run.random.randint(1, 300), Run.random.randint(139, 145))) * 4096
            subprocess.run(["mount", "-o", "remount,size=%d" % size, here], check=True)
            fault = Run.random.choice(("", "fstatvfs:0:38", "posix_fallocate:0:95,fstatvfs:0:38", "tmpfile:0:95,fstatvfs:0:38"))
            r = with_fault(fault, SAMPLE, result, *(["--verify"] if k % 2 else []))
            if r.returncode == 0:
                expect(without_time(read(result)) == SMALL.result, "a part of the result")
                holds(here, "r.mf4")
                os.remove(result)
            else:
                fails(r)
                holds(here)
            disk = os.statvfs(here)
            expect(disk.f_bfree == disk.f_blocks, "room is still taken:", disk.f_blocks - disk.f_bfree)
            told.append(r.returncode)
    expect(0 in told and 1 in told, told)
    return "%d whole, %d without room" % (told.count(0), told.count(1))


def converts_there(here):
    """Over nothing and over an old result, verified, with a report; nothing else is left."""
    result = os.path.join(here, "r.mf4")
    before = os.listdir(here)
    for force in ((), ("--force",)):
        converts(run(SAMPLE, result, "--verify", "--json", os.path.join(here, "r.json"), *force))
        expect(without_time(read(result)) == SMALL.result, "another result")
        converts(run("--check", SAMPLE, result))
    holds(here, "r.mf4", "r.json", *before)


@test
def other_file_systems():
    """tmpfs, overlay and those that mkfs can make here."""
    tried = ["tmpfs", "overlay"]
    with mounted("-t", "tmpfs", "tmpfs") as here:
        for name in ("lower", "upper", "work", "tmpfs"):
            os.mkdir(os.path.join(here, name))
        converts_there(os.path.join(here, "tmpfs"))
        parts = "lowerdir=%s/lower,upperdir=%s/upper,workdir=%s/work" % (here, here, here)
        with mounted("-t", "overlay", "-o", parts, "overlay") as above:
            converts_there(above)
    for kind in ("ext2", "ext3", "ext4", "xfs", "btrfs", "vfat"):
        image = place(kind + ".img")
        with open(image, "wb") as f:
            f.truncate(320 << 20)
        if shutil.which("mkfs." + kind):
            subprocess.run(["mkfs." + kind, image], check=True, stdout=subprocess.DEVNULL, stderr=subprocess.DEVNULL)
            with contextlib.suppress(NotTried), mounted("-o", "loop", image) as here:
                converts_there(here)
                tried.append(kind)
        os.remove(image)
    return ", ".join(tried)


@contextlib.contextmanager
def memory_limit(bytes_):
    """Two functions: one for preexec_fn that limits the process, one that tells the most it had, of its mapped files too."""
    for base, limit, peak in (
        ("/sys/fs/cgroup/memory", "memory.limit_in_bytes", "memory.max_usage_in_bytes"),
        ("/sys/fs/cgroup", "memory.max", "memory.peak"),
    ):
        path = os.path.join(base, "mdf-columns-test-%d" % os.getpid())
        try:
            os.mkdir(path)
        except OSError:
            continue
        try:
            with open(os.path.join(path, limit), "w") as f:
                f.write(str(bytes_))
            found = True
        except OSError:
            found = False
        if found:
            break
        os.rmdir(path)
    else:
        raise NotTried("no memory limit (cgroup) is permitted")

    def join():
        with open(os.path.join(path, "cgroup.procs"), "w") as f:
            f.write(str(os.getpid()))

    def most():
        with open(os.path.join(path, peak)) as f:
            return int(f.read())

    try:
        yield join, most
    finally:
        os.rmdir(path)


def out_of_memory(path):
    """Its pages leave memory, so that the next to read it is charged for them."""
    with open(path, "rb+") as f:
        os.fsync(f.fileno())
        os.posix_fadvise(f.fileno(), 0, 0, os.POSIX_FADV_DONTNEED)


def sparse_recording(name, samples, records, size=None):
    """A recording of zeros but for some records: (path, {record: bytes}). Channels: 8 bytes at 0, 2 at 8, 4 at the record's end."""
    front, dt = wide_recording(samples, records, [(2, 0, 64), (0, 8, 16), (0, samples - 4, 32)])
    some = {r: Run.random.randbytes(samples) for r in {0, 1, records // 2, records - 1, *(Run.random.randrange(records) for _ in range(20))}}
    path = place(name)
    with open(path, "wb") as f:
        f.write(front)
        for r, data in some.items():
            f.seek(dt + 24 + samples * r)
            f.write(data)
        f.truncate(size or dt + 24 + samples * records)
    return path, some


def check_sparse(data, samples, records, some):
    for c, (at, n) in zip(columns_of(data), ((0, 8), (8, 2), (samples - 4, 4))):
        expect((c.records, c.bytes, c.inval) == (records, n, 0), "records")
        wanted = bytearray(n * records)
        for r, value in some.items():
            wanted[n * r : n * r + n] = value[at : at + n]
        expect(c.payload == wanted, "values at byte", at)


@test
def sparse_3_gib():
    """Own memory limited to 16 MiB; that of mapped files is the next test's."""
    path, some = sparse_recording("sparse.mf4", 4096, 3 * GIB // 4096)
    begun = time.monotonic()
    converts(run(path, "sparse-columns.mf4", preexec_fn=lambda: resource.setrlimit(resource.RLIMIT_DATA, (16 << 20, 16 << 20))))
    seconds = time.monotonic() - begun
    check_sparse(read("sparse-columns.mf4"), 4096, 3 * GIB // 4096, some)
    sparse_3_gib.made = path, some
    return "%d bytes in %.1f s" % (os.path.getsize(path), seconds)


@test
def sparse_3_gib_in_256_mib():
    path, some = sparse_3_gib.made
    out_of_memory(path)
    with memory_limit(256 << 20) as (join, most):
        begun = time.monotonic()
        converts(run(path, "sparse-columns.mf4", "--force", preexec_fn=join))
        told = "at most %d MiB of memory, mapped files too, in %.1f s" % (most() >> 20, time.monotonic() - begun)
    check_sparse(read("sparse-columns.mf4"), 4096, 3 * GIB // 4096, some)
    os.remove(path)
    return told


@test
def exactly_4_gib():
    samples = 1 << 20
    path, some = sparse_recording("most.mf4", samples, 4095, 4 * GIB)
    converts(run(path, "most-columns.mf4"))
    check_sparse(read("most-columns.mf4"), samples, 4095, some)
    os.truncate(path, 4 * GIB + 1)
    refuses(run(path, "most-columns.mf4", "--force"), 3, 0)
    os.remove(path)


@test
def memory_half_of_the_recording():
    """The 300 channels, 121 MiB, in 64 MiB. Each column reads its DG's data again, here from the disk: many times slower than in enough."""
    out_of_memory(BIG.path)
    with memory_limit(64 << 20) as (join, most):
        begun = time.monotonic()
        converts(run(BIG.path, "little-memory.mf4", preexec_fn=join))
        seconds = time.monotonic() - begun
        told = "at most %d MiB of memory, mapped files too, in %.1f s; %.1f s in enough" % (most() >> 20, seconds, BIG.seconds)
    expect(without_time(read("little-memory.mf4")) == BIG.result, "another result")
    expect(seconds < 120 * BIG.seconds + 30, told)
    return told


@test
def check_in_little_memory():
    """The same with --check: recording, result and the conversion anew, 400 MB, in 64 MiB."""
    out_of_memory(BIG.path)
    with memory_limit(64 << 20) as (join, _):
        begun = time.monotonic()
        converts(run("--check", BIG.path, "big-columns.mf4", preexec_fn=join))
        seconds = time.monotonic() - begun
    expect(seconds < 150 * BIG.seconds + 60, "%.1f s" % seconds)
    return "%.1f s; a conversion in enough %.1f s" % (seconds, BIG.seconds)


