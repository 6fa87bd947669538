"""RESULT held to its recording, read back."""
import hashlib
import os
import shutil
import struct
import subprocess

from common import (
    DIFFERENT, EXAMPLE, INCOMPLETE, NAMED, REFUSED, SAMPLE, any_user, as_nobody, converts, ends, expect, fails, folder, holds, mounted, open_folder, place,
    read, report_of, run, test, with_fault, write,
)
from mdf import File, block, blocks_of


@any_user
def check_of_results():
    with folder() as here:
        converts(run(SAMPLE, "r.mf4", cwd=here))
        before = os.stat(os.path.join(here, "r.mf4"))
        r = run("--check", SAMPLE, "r.mf4", cwd=here)
        converts(r)
        expect(r.printed == "r.mf4: is the conversion of %s, bytes %d\n" % (SAMPLE, before.st_size), r.printed)
        expect('omitted "rack.1.99"' in r.said, r.said)
        after = os.stat(os.path.join(here, "r.mf4"))
        expect((after.st_mtime_ns, after.st_ctime_ns, after.st_ino) == (before.st_mtime_ns, before.st_ctime_ns, before.st_ino), "it was changed")
        ends(run("--check", EXAMPLE, "r.mf4", cwd=here), DIFFERENT, "r.mf4 is not the conversion of")
        ends(run("--check", SAMPLE, "r.mf4", "--block-size", 100, cwd=here), DIFFERENT)
        ends(run("--check", SAMPLE, "r.mf4", "--complete", cwd=here), INCOMPLETE)
        ends(run("--check", write(os.path.join(here, "empty"), b""), "r.mf4", cwd=here), REFUSED)
        ends(run("--check", SAMPLE, "empty", cwd=here), DIFFERENT, "it has 0 bytes")
        fails(run("--check", SAMPLE, "missing.mf4", cwd=here), "can't open missing.mf4")
        holds(here, "r.mf4", "empty")


def history(data):
    """Bytes from which time and version are taken: the header's link to the history, its entries, their texts. A change there may show elsewhere."""
    f, found = File(data), set(range(64, 168))
    for fh in f.chain(f.links(64)[1]):
        text = f.links(fh)[1]
        found |= set(range(fh, fh + f.size(fh))) | set(range(text, text + f.size(text)))
    return found


def flips(data):
    """Offsets of one byte each in the identification, in every part of every block, and in every gap."""
    places = {0, 20, 40, 63}
    f, end = File(data), 64
    for at, kind, size in blocks_of(data):
        links = 8 * f.u64(at + 16)
        places.update({at + 2, at + 5, at + 8, at + 16, at + size - 1})
        places.update({at + 24 + i for i in range(0, links, 8)} | ({at + 24 + links} if size > 24 + links else set()))
        places.update(range(end, at))  # the gap before it
        end = at + size
    fh = list(f.chain(f.links(64)[1]))[-1]
    text = f.links(fh)[1]
    return places | set(range(fh, fh + f.size(fh))) | set(range(text, text + f.size(text)))


@any_user
def damage_of_every_block_is_found():
    """One byte changed in each part of each block, the history entry's time and text at every byte: found, and at that byte."""
    with folder() as here:
        result, recording = os.path.join(here, "r.mf4"), os.path.join(here, "a.mf4")
        shutil.copy(os.path.join(os.path.dirname(EXAMPLE), "data", "metadata"), recording)
        converts(run(recording, result, "--block-size", 64))
        good = read(result)
        for at in sorted(flips(good)):
            write(result, good[:at] + bytes([good[at] ^ 1]) + good[at + 1 :])
            r = run("--check", recording, result, "--quiet", "--block-size", 64)
            ends(r, DIFFERENT, "is not the conversion of")
            expect("first differs at %d," % at in r.said or at in history(good), at, r.said)
        for cut in (0, 1, len(good) // 2, len(good) - 1):
            write(result, good[:cut])
            ends(run("--check", recording, result, "--quiet", "--block-size", 64), DIFFERENT)
        write(result, good + b"\0")
        ends(run("--check", recording, result, "--quiet", "--block-size", 64), DIFFERENT, "differs at %d," % len(good))
        write(result, good)
        converts(run("--check", recording, result, "--quiet", "--block-size", 64))
        return "%d bytes changed, one at a time" % len(flips(good))


@any_user
def check_of_a_bigger_result():
    """Past one chunk; in its last byte; with its report."""
    with folder() as here:
        result = os.path.join(here, "r.mf4")
        recording = os.path.join(here, "a.mf4")
        subprocess.run([os.path.join(os.path.dirname(SAMPLE), "sample"), recording, "20000"], check=True)
        converts(run(recording, result))
        size = os.path.getsize(result)
        for at in (1 << 20, (1 << 20) - 1, size - 1, 5 << 20):
            with open(result, "rb+") as f:
                f.seek(at)
                byte = f.read(1)[0]
                f.seek(at)
                f.write(bytes([byte ^ 64]))
            ends(run("--check", recording, result, "--json", "r.json", "--quiet", cwd=here), DIFFERENT, "differs at %d," % at)
            (d,) = report_of(os.path.join(here, "r.json"))
            expect(d["outcome"] == "different" and d["difference"]["at"] == at and "block at" in d["difference"]["place"], d["difference"])
            with open(result, "rb+") as f:
                f.seek(at)
                f.write(bytes([byte]))
        converts(run("--check", recording, result))


@any_user
def check_in_a_folder_that_cannot_be_written():
    """No room beside RESULT: the conversion anew is made in memory."""
    with folder() as here:
        converts(run(EXAMPLE, "r.mf4", cwd=here))
        for fault in ("tmpfile:0:95", "tmpfile:0:13", "posix_fallocate:0:28"):
            converts(with_fault(fault, "--check", EXAMPLE, "r.mf4", cwd=here))
    with open_folder() as here:
        converts(run(EXAMPLE, "r.mf4", cwd=here))
        shutil.copy(EXAMPLE, os.path.join(here, "a.mf4"))
        os.chmod(here, 0o555)
        converts(as_nobody("--check", "a.mf4", "r.mf4", cwd=here))
        os.chmod(here, 0o755)


@any_user
def storage_that_loses_bytes():
    """A byte that changes after its sync without an error: --verify finds it and there is no result; --check finds it in one."""
    for front in ("", NAMED):
        with folder() as here:
            r = with_fault(front + "fsync:1:lose", SAMPLE, "r.mf4", "--verify", cwd=here)
            fails(r, "what was stored is not the conversion", "first differs at 1000,", status=DIFFERENT)
            holds(here)
            converts(with_fault(front + "fsync:1:lose", SAMPLE, "r.mf4", cwd=here))
            ends(run("--check", SAMPLE, "r.mf4", cwd=here), DIFFERENT, "first differs at 1000,")
            converts(run(SAMPLE, "s.mf4", "--verify", cwd=here))
            converts(run("--check", SAMPLE, "s.mf4", cwd=here))


def with_history(kind):
    """A recording without data whose history is an FH and a block of another kind."""
    image = bytearray(b"MDF     4.10    tests   " + bytes(40) + block(b"HD", [0] * 6, bytes(32)))
    at = len(image)
    image += block(b"FH", [at + 56, 0], bytes(16)) + block(kind, [0, 0], bytes(16))
    struct.pack_into("<Q", image, 64 + 24 + 8, at)
    return bytes(image)


@any_user
def check_with_other_kinds_in_the_history():
    with folder() as here:
        for kind in (b"FH", b"CC", b"SI", b"MD", b"TX"):
            recording = write(os.path.join(here, "a.mf4"), with_history(kind))
            converts(run(recording, "r.mf4", "--force", cwd=here))
            converts(run("--check", recording, "r.mf4", cwd=here))
            converts(run(recording, "r.mf4", "--resume", cwd=here))


@test
def check_reads_the_disk():
    """A byte changed on the device below a mounted file system, whose cache has the old one, is found."""
    image = place("device.img")
    with open(image, "wb") as f:
        f.truncate(16 << 20)
    subprocess.run(["mkfs.ext4", "-q", image], check=True, stderr=subprocess.DEVNULL)
    loop = subprocess.run(["losetup", "--find", "--show", image], stdout=subprocess.PIPE, stderr=subprocess.DEVNULL)
    device = loop.stdout.decode().strip()
    try:
        with mounted(device) as here:
            result = os.path.join(here, "r.mf4")
            converts(run(SAMPLE, result))
            read(result)  # into the cache
            with open(device, "rb+", buffering=0) as f:
                whole = f.read()
                at = whole.index(b"##DV")
                os.lseek(f.fileno(), at + 24, os.SEEK_SET)
                os.write(f.fileno(), bytes([whole[at + 24] ^ 1]))
                os.fsync(f.fileno())
            ends(run("--check", SAMPLE, result), DIFFERENT, "in or after the DV block")
    finally:
        if device:
            subprocess.run(["losetup", "--detach", device], check=True)
        os.remove(image)


# ---- SHA-256


@any_user
def digest_of_the_stored_bytes():
    with folder() as here:
        for name, shown in (("r.mf4", "  r.mf4"), ("a\\b\nc", None)):
            r = run(SAMPLE, name, "--sha256", "--quiet", cwd=here)
            converts(r)
            printed = subprocess.run(["sha256sum", name], cwd=here, stdout=subprocess.PIPE, check=True).stdout.decode()
            expect(r.printed == printed, r.printed, printed)
        digest = hashlib.sha256(read(os.path.join(here, "r.mf4"))).hexdigest()
        for words in (("--check", SAMPLE, "r.mf4"), (SAMPLE, "r.mf4", "--resume")):
            r = run(*words, "--sha256", "--quiet", cwd=here)
            expect(r.returncode == 0 and r.printed == digest + "  r.mf4\n", r.printed, digest)
        # of what is stored, not of what was meant to be
        r = with_fault("fsync:1:lose", SAMPLE, "s.mf4", "--sha256", "--quiet", cwd=here)
        expect(r.printed.split()[0] == hashlib.sha256(read(os.path.join(here, "s.mf4"))).hexdigest(), r.printed)


@any_user
def no_digest_without_libcrypto():
    with folder() as here:
        r = with_fault("dlopen:0:1", SAMPLE, "r.mf4", "--sha256", cwd=here)
        fails(r, "--sha256 needs libcrypto")
        holds(here)
        converts(with_fault("dlopen:0:1", SAMPLE, "r.mf4", cwd=here))


# ---- again


@any_user
def resumed():
    with folder() as here:
        result = os.path.join(here, "r.mf4")
        converts(run(SAMPLE, result, "--resume"))
        before = os.stat(result)
        r = run(SAMPLE, result, "--resume")
        converts(r)
        expect("is the conversion of" in r.printed and os.stat(result).st_ctime_ns == before.st_ctime_ns, r.printed)
        good = read(result)
        write(result, good[:-1])
        ends(run(SAMPLE, result, "--resume"), DIFFERENT)
        expect(read(result) == good[:-1], "it was replaced")
        converts(run(SAMPLE, result, "--resume", "--force"))
        converts(run("--check", SAMPLE, result))
