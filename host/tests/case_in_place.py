"""RESULT stored in place, in steps (document 02, request 11): whatever happens it is as it was, refused with 5, or whole."""
import os
import shutil
import signal
import stat
import time

from case_conversions import check_sample, refuses
from case_ended import CHANGES, counted
from case_power import broken_promises, empty_device, logged_conversion
from common import (
    DIFFERENT, EXAMPLE, FAILED, INCOMPLETE, MEDIUM, SAMPLE, SMALL, Run, any_user, converts, end, ends, expect, fails, faulty, folder, go_on, holds, mounted,
    place, read, report_of, run, start, stopped_at, test, with_fault, write,
)
from mdf import without_time

IN_PLACE = "--in-place"
CUT = "is cut off: it is refused (5) until it is converted again"


def older(longer):
    """An older result that is whole, longer than the sample's or shorter."""
    name = "longer.mf4" if longer else "shorter.mf4"
    if not os.path.exists(place(name)):
        converts(run(*((SAMPLE, name, "--unit", 4096) if longer else (EXAMPLE, name)), "--quiet"))
    return read(name)


def state_of(result, old, whole):
    """What RESULT is: none, old, with zeros behind it perhaps, cut off, which is refused, or whole."""
    if not os.path.exists(result):
        expect(old is None, "the old result is gone")
        return "none"
    data = read(result)
    if old is not None and data.startswith(old) and not data[len(old) :].strip(b"\0"):
        return "old"
    if data[:8] == bytes(8) or not data:
        r = run(result, result + ".again", "--quiet")
        expect(r.returncode == 2 and "refused %d place 0" % (5 if len(data) >= 64 else 4) in r.said, "cut off, but", r.said)
        expect(len(data) >= 64 or old is None, "cut to nothing")
        return "cut"
    expect(without_time(data) == whole, "a part of the result")
    return "whole"


def olds():
    return (None, older(False), older(True))


def into(here, old):
    """RESULT's path, and the words for it."""
    result = os.path.join(here, "r.mf4")
    if old is not None:
        write(result, old)
    return result, [SAMPLE, result, IN_PLACE, *(["--force"] if old is not None else [])]


# ---- results


@any_user
def results_in_place():
    """As without the option, over nothing and over old ones, which keep file, mode and owner."""
    for old in olds():
        with folder() as here:
            result, words = into(here, old)
            if old is not None:
                os.chmod(result, 0o640)
                before = os.stat(result)
                fails(run(SAMPLE, result, IN_PLACE), "exists; --force replaces it")
                expect(read(result) == old, "an old result is stored over")
            r = run(*words, "--listing", "--json", os.path.join(here, "r.json"))
            ends(r, 0, "converting into %s, in 142 stores" % result, 'omitted "rack.1.99"')
            data = read(result)
            expect(without_time(data) == SMALL.result, "another result")
            check_sample(data, 1000)
            expect(r.printed.startswith("%s: columns 299, omissions 1, bytes %d\ncolumns 299\n" % (result, len(data))), r.printed[:200])
            (report,) = report_of(os.path.join(here, "r.json"))
            expect(report["outcome"] == "converted" and len(report["columns"]) == 299 and len(report["omissions"]) == 1, report)
            if old is not None:
                now = os.stat(result)
                expect((now.st_ino, now.st_mode, now.st_uid) == (before.st_ino, before.st_mode, before.st_uid), "another file")
            converts(run("--check", SAMPLE, result))
            holds(here, "r.mf4", "r.json")


@any_user
def in_place_with_other_options():
    with folder() as here:
        result, words = into(here, None)
        ends(run(*words, "--complete"), INCOMPLETE)
        holds(here)
        r = run(*words, "--sha256", "--unit", 512, "--quiet")
        converts(r)
        converts(run("--check", SAMPLE, result, "--unit", 512))
        expect(r.printed.endswith("  %s\n" % result) and len(r.printed.split()[0]) == 64, r.printed)
        before = read(result)
        converts(run(*words, "--resume", "--unit", 512))
        ends(run(*words, "--resume"), DIFFERENT)
        ends(run(*words, "--force", "--complete"), INCOMPLETE)
        refuses(run(write(os.path.join(here, "bad"), b"MDF"), result, IN_PLACE, "--force"), 4, 0)
        expect(read(result) == before, "it was changed")
        converts(run(*words, "--resume", "--force"))
        expect(without_time(read(result)) == SMALL.result, "another result")
        holds(here, "r.mf4", "bad")
        for more in (("--check",), ("--verify",)):
            fails(run(*words, *more), "don't go with it" if more[0] == "--check" else "--verify doesn't go with it")
        fails(run("--sheet", result, IN_PLACE), "only --quiet goes with it")


@any_user
def several_recordings_in_place():
    with folder() as here:
        os.mkdir(os.path.join(here, "out"))
        shutil.copy(EXAMPLE, os.path.join(here, "a.mf4"))
        shutil.copy(SAMPLE, os.path.join(here, "b.mf4"))
        write(os.path.join(here, "c.mf4"), b"MDF")
        write(os.path.join(here, "out", "b.mf4"), older(True))
        ends(run("-d", "out", "a.mf4", "b.mf4", "c.mf4", IN_PLACE, cwd=here), FAILED, "out/b.mf4 exists", "c.mf4: refused 4")
        expect(read(os.path.join(here, "out", "b.mf4")) == older(True), "an old result is stored over")
        ends(run("-d", "out", "a.mf4", "b.mf4", "c.mf4", IN_PLACE, "--force", cwd=here), 2, "c.mf4: refused 4")
        converts(run("--check", "-d", "out", "a.mf4", "b.mf4", cwd=here))
        holds(os.path.join(here, "out"), "a.mf4", "b.mf4")


@any_user
def results_that_cannot_be_stored_into():
    """A symbolic link, a folder, the recording itself, one that may not be written."""
    with folder() as here:
        recording = shutil.copy(SAMPLE, os.path.join(here, "a.mf4"))
        os.link(recording, os.path.join(here, "same"))
        os.symlink("a.mf4", os.path.join(here, "link"))
        os.mkdir(os.path.join(here, "sub"))
        itself = "is the recording itself"
        for name, said in (("same", itself), ("link", itself), ("sub", "is a folder"), ("no/r.mf4", "can't open the folder")):
            fails(run(recording, os.path.join(here, name), IN_PLACE, "--force"), said)
        expect(read(recording) == read(SAMPLE), "the recording was changed")
        closed = write(os.path.join(here, "closed"), b"old")
        os.chmod(closed, 0o400)
        if os.getuid() != 0:
            fails(run(recording, closed, IN_PLACE, "--force"), "can't open the result")
            expect(read(closed) == b"old" and stat.S_IMODE(os.stat(closed).st_mode) == 0o400, "it was changed")


# ---- ended


def points(old):
    """Calls in their order; room is taken where an old result is shorter."""
    return [point for point in POINTS if point != "posix_fallocate:1" or old is None or len(old) < len(SMALL.result)]


POINTS = ("flock:1", "posix_fallocate:1", "msync:1", "msync:2", "fsync:1", "msync:3", "fsync:2")


@any_user
def killed_at_each_step_in_place():
    """From the first store, which is synced, up to the last RESULT is refused; before, an old one is as it was."""
    told = []
    for old in olds():
        for point in points(old):
            for moment in ("before", "after"):
                with folder() as here:
                    result, words = into(here, old)
                    r = with_fault("%s:%s" % (point, moment), *words)
                    expect(r.returncode == -signal.SIGKILL, point, moment, "status", r.returncode, r.said)
                    found = state_of(result, old, SMALL.result)
                    early, late = point in POINTS[:2], point in POINTS[5:]
                    due = ("cut" if old is None else "old",) if early else ("whole",) if late else ("cut",)
                    expect(found in due, point, moment, "leaves", found, "and not", due)
                    told.append(found)
                    holds(here, "r.mf4")
                    converts(run(*into(here, None)[1], "--force"))
                    expect(state_of(result, None, SMALL.result) == "whole", "it can't be made again")
    return counted(told)


@any_user
def killed_at_random_moments_in_place():
    """--long sets how often."""
    told = []
    for k in range(Run.loops(24)):
        with folder() as here:
            result, old = os.path.join(here, "r.mf4"), olds()[k % 3]
            if old is not None:
                write(result, old)
            p = start(MEDIUM.path, result, IN_PLACE, "--force")
            time.sleep(Run.random.uniform(0, 3 * MEDIUM.seconds))
            p.kill()
            end(p)
            told.append(state_of(result, old, MEDIUM.result))
    return counted(told)


@any_user
def signals_in_place():
    """A new RESULT is removed; of an old one it is said whether it is cut off."""
    for old in olds():
        for point in points(old):
            with folder() as here:
                result, words = into(here, old)
                r = with_fault(point + ":term", *words)
                ends(r, -signal.SIGTERM, "ended by a signal")
                found = state_of(result, old, SMALL.result)
                said = [what for what, words_ in (("whole", "is there and whole"), ("cut", CUT), ("none", "there is no new result")) if words_ in r.said]
                expect(said == [{"old": "none"}.get(found, found)] and (old is None) <= (found in ("none", "whole")), point, found, r.said)
                holds(here, *(["r.mf4"] if found != "none" else []))


@any_user
def failures_in_place():
    """Of each call: status 1; a new RESULT is removed, an old one is as it was before the first store, and cut off after it, which is said."""
    for old in olds():
        for fault, said in (
            *([("posix_fallocate:1:28", "no room for the result")] if "posix_fallocate:1" in points(old) else []),
            ("fsync:1:5", "can't sync the folder"), ("msync:1:5", "can't write the result"),
            ("msync:2:5", "can't write the result"), ("msync:3:5", "can't write the result"), ("fsync:2:5", "can't write the result"),
            ("flock:1:11", "another conversion stores into"),
        ):
            with folder() as here:
                result, words = into(here, old)
                r = with_fault(fault, *words)
                fails(r, said)
                found = state_of(result, old, SMALL.result)
                early = fault.startswith(("posix_fallocate", "flock"))
                expect(found == ("none" if old is None else "old" if early else "cut"), fault, "leaves", found)
                expect((CUT in r.said) == (found == "cut"), r.said)
                expect(found != "old" or read(result) == old, "another length")
                converts(run(*into(here, None)[1], "--force"))


@any_user
def omissions_that_cannot_be_said_in_place():
    """They are said before the last store: who can't be told them has no whole RESULT."""
    for old in olds():
        with folder() as here, open("/dev/full", "w") as full:
            result, words = into(here, old)
            expect(run(*words, "--quiet", stderr=full).returncode == FAILED, "another status")
            expect(state_of(result, old, SMALL.result) == ("none" if old is None else "cut"), "a result")


@any_user
def room_is_taken_behind_an_old_result():
    """Where the file system can't take room, zeros are written behind an old result alone."""
    for old in olds():
        with folder() as here:
            result, words = into(here, old)
            p = stopped_at("posix_fallocate:1:95,msync:1:stop", *words)
            data = read(result)
            expect(old is None or data[8 : len(old)] == old[8:], "an old result lost bytes before the first store")
            converts(go_on(p))
            expect(without_time(read(result)) == SMALL.result, "another result")


# ---- others


@any_user
def recording_changed_while_stored_in_place():
    for change in CHANGES:
        for old in olds()[:2]:
            for moment in ("msync:1:stop", "msync:2:stop", "fsync:1:stop"):
                with folder() as here:
                    os.mkdir(os.path.join(here, "in"))
                    recording = shutil.copy(SAMPLE, os.path.join(here, "in", "a.mf4"))
                    result, words = into(here, old)
                    p = stopped_at(moment, recording, *words[1:])
                    change(recording)
                    fails(go_on(p), "a.mf4 was", "while it was read")
                    expect(state_of(result, old, SMALL.result) == ("none" if old is None else "cut"), change.__name__, moment)


@any_user
def two_conversions_into_one_file():
    with folder() as here:
        result, words = into(here, older(False))
        p = stopped_at("msync:2:stop", *words)
        fails(run(*words), "another conversion stores into")
        converts(go_on(p))
        expect(without_time(read(result)) == SMALL.result, "a mixture")
        p = stopped_at("msync:2:stop", *words)
        converts(run(EXAMPLE, result, "--force"))
        fails(go_on(p), "was replaced or removed meanwhile")
        converts(run("--check", EXAMPLE, result))
        p = stopped_at("msync:2:stop", *words)
        os.remove(result)
        fails(go_on(p), "was replaced or removed meanwhile")
        holds(here)


@test
def full_disk_in_place():
    """Over nothing, and over an old result, which stays."""
    with mounted("-t", "tmpfs", "-o", "size=256k", "tmpfs") as here:
        result = os.path.join(here, "r.mf4")
        fails(run(SAMPLE, result, IN_PLACE), "no room for the result", "No space left")
        holds(here)
        fails(with_fault("fstatvfs:0:38", SAMPLE, result, IN_PLACE), "no room for the result", "No space left")
        holds(here)
        old = write(result, older(False)) and older(False)
        for fault in ("", "fstatvfs:0:38", "fstatvfs:0:38,posix_fallocate:0:95"):
            fails(with_fault(fault, SAMPLE, result, IN_PLACE, "--force"), "no room for the result", "No space left")
            expect(read(result) == old, "the old result was changed")
        converts(run(EXAMPLE, result, IN_PLACE, "--force"))
        converts(run("--check", EXAMPLE, result))
        holds(here, "r.mf4")


def judged(data, old):
    """The same of bytes that a power cut left, None where they are nothing that RESULT may be."""
    if data is None:
        return "old" if old is None else None
    try:
        return state_of(write(place("judged.mf4"), data), old, SMALL.result)
    except AssertionError:
        return None


@test
def power_cuts_in_place():
    """At each moment RESULT is as before, refused with 5, or whole; after status 0 it is whole. --long sets how often."""
    image, told = empty_device("ext4"), []
    for old in olds():
        entries, begun, ended = logged_conversion(image, old, "", IN_PLACE)
        expect(sum(e[0] == b"f" for e in entries if begun < e[1] < ended) >= 3, "flushes that reached the device")
        broken, seen = broken_promises(image, entries, begun, ended, old, False, Run.loops(36) // 3 + 1, judged)
        expect(broken == 0, broken, "promises broken over", "an old result" if old else "nothing")
        told.append("%s: %s" % ("over an old result" if old else "new", ", ".join("%s %d" % (k, v) for k, v in sorted(seen.items()))))
    return "; ".join(told)


@test
def power_cuts_in_place_find_a_missing_sync():
    """The same test where no sync reaches the device finds broken promises."""
    image = empty_device("ext4")
    entries, begun, ended = logged_conversion(image, older(True), "fsync:0:skip,msync:0:skip", IN_PLACE)
    broken, _ = broken_promises(image, entries, begun, ended, older(True), False, 40, judged)
    expect(broken > 0, "nothing was found")
    return "%d of 40" % broken
