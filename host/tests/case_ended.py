"""Ended, and changed, in the midst of it."""
import os
import shutil
import signal
import subprocess
import time

from case_library import check_example
from common import (
    BIG, EXAMPLE, MEDIUM, NAMED, SAMPLE, SMALL, NotTried, Run, any_user, converts, end, ends, expect, fails, faulty, folder, go_on, holds, is_leftover,
    read, run, start, stopped_at, test, with_fault, write,
)
from mdf import without_time

def old_or_whole(here, old, whole):
    """Under RESULT stands what stood there before, or the whole result; beside it at most one file that shows what it is."""
    result = os.path.join(here, "r.mf4")
    left = [name for name in os.listdir(here) if name != "r.mf4"]
    expect(len(left) <= 1 and all(map(is_leftover, left)), "left:", left)
    if not os.path.exists(result):
        expect(old is None, "the old result is gone")
        return "none"
    data = read(result)
    if data == old:
        return "old"
    expect(without_time(data) == whole, "a part of the result")
    return "whole"


def counted(told):
    return ", ".join("%s %d" % (what, told.count(what)) for what in sorted(set(told)))


@any_user
def killed_at_random_moments():
    """With an old result and without, with files without a name and without such; --long sets how often."""
    told = []
    for k in range(Run.loops(24)):
        with folder() as here:
            result, old, named = os.path.join(here, "r.mf4"), b"old" if k % 2 else None, k % 4 > 1
            if old:
                write(result, old)
            p = start(MEDIUM.path, result, *(["--force"] if old else []), env=faulty(NAMED if named else ""))
            time.sleep(Run.random.uniform(0, 1.2 * MEDIUM.seconds))
            p.kill()
            end(p)
            told.append(old_or_whole(here, old, MEDIUM.result))
            if not old and not named:
                expect(not [name for name in os.listdir(here) if name != "r.mf4"], "something is left", os.listdir(here))
            converts(run(EXAMPLE, result, "--force"))
            check_example(read(result))
    return counted(told)


@any_user
def signals_at_random_moments():
    """What is said of the result is true; --long sets how often."""
    told = []
    for k in range(Run.loops(24)):
        with folder() as here:
            result = os.path.join(here, "r.mf4")
            p = start(MEDIUM.path, result)
            time.sleep(0.02 + Run.random.uniform(0, 1.2 * MEDIUM.seconds))
            p.terminate()
            r = end(p)
            there = os.path.exists(result)
            if r.returncode == -signal.SIGTERM and r.said:
                none = "there is no new result" in r.said or "nothing was changed" in r.said  # the latter at the very beginning
                expect(none == (not there) and ("is there and whole" in r.said) == there, r.said, there)
            else:
                expect(r.returncode == 0 and there, r.returncode, r.said)
            told.append(old_or_whole(here, None, MEDIUM.result))
            holds(here, *(["r.mf4"] if there else []))
    return counted(told)


@any_user
def signal_after_the_rename():
    """The truth then is that RESULT is there."""
    for fault in ("fsync:3:term", "linkat:1:term"):
        with folder() as here:
            r = with_fault(fault, SAMPLE, os.path.join(here, "r.mf4"))
            ends(r, -signal.SIGTERM, "ended by a signal", "r.mf4 is there and whole")
            expect("no new result" not in r.said, r.said)
            expect(without_time(read(os.path.join(here, "r.mf4"))) == SMALL.result, "a part of the result")
    with folder() as here:
        ends(with_fault("fsync:2:term", SAMPLE, os.path.join(here, "r.mf4")), -signal.SIGTERM, "there is no new result", "r.mf4")
        holds(here)


@any_user
def killed_at_each_step():
    told = []
    unnamed = ["tmpfile:1", "posix_fallocate:1", "msync:1", "fsync:1", "fsync:2", "linkat:1", "fsync:3"]
    named = ["flock:1", "posix_fallocate:1", "msync:1", "fsync:1", "fsync:2", "renameat2:1", "fsync:3"]
    without_rename = ["linkat:1", "unlinkat:1"]  # where RENAME_NOREPLACE is missing
    for front, steps in (("", unnamed), (NAMED, named), (NAMED + "renameat2:1:22,", without_rename)):
        for step in steps:
            for moment in ("before", "after") if step != "tmpfile:1" else ("before",):
                with folder() as here:
                    fault = "%s%s:%s" % (front, step, moment)
                    r = with_fault(fault, SAMPLE, os.path.join(here, "r.mf4"))
                    expect(r.returncode == -signal.SIGKILL, fault, "status", r.returncode)
                    told.append(old_or_whole(here, None, SMALL.result))
                    expect(front or not [x for x in os.listdir(here) if x != "r.mf4"], fault, "something is left", os.listdir(here))
    expect("none" in told and "whole" in told, told)
    for front in ("", NAMED):
        for moment in ("before", "after"):
            with folder() as here:
                write(os.path.join(here, "r.mf4"), b"old")
                with_fault(front + "renameat:1:" + moment, SAMPLE, os.path.join(here, "r.mf4"), "--force")
                expect(old_or_whole(here, b"old", SMALL.result) == ("old" if moment == "before" else "whole"), moment)
    return counted(told)


@any_user
def left_over_file_is_removed():
    """By its mark: one without it stays and is named."""
    with folder() as here:
        result = os.path.join(here, "r.mf4")
        with_fault(NAMED + "msync:1:before", SAMPLE, result)
        (left,) = os.listdir(here)
        expect(is_leftover(left), left)
        others = [".r.mf4.mdf-columns-", ".r.mf4.mdf-columns-1x", ".other.mf4.mdf-columns-1", "r.mf4.mdf-columns-1", ".r.mf4.mdf-columns-" + 16 * "0"]
        for name in others:
            write(os.path.join(here, name), b"")
        r = with_fault(NAMED, SAMPLE, result, "--quiet")
        converts(r)
        expect("removed" in r.said and left in r.said and others[-1] + " may be left" in r.said, r.said)
        holds(here, "r.mf4", *others)
        # with --force too, since a file without a name gets one for a moment
        with_fault(NAMED + "msync:1:before", SAMPLE, result, "--force")
        r = run(SAMPLE, result, "--quiet", "--force")
        converts(r)
        expect("removed" in r.said, r.said)
        holds(here, "r.mf4", *others)


@any_user
def two_at_once():
    """A conversion that runs keeps its temporary file; the one that comes second to the name fails."""
    for front in ("", NAMED):
        with folder() as here:
            result = os.path.join(here, "r.mf4")
            p = stopped_at(front + "msync:1:stop", SAMPLE, result)
            r = run(EXAMPLE, result, "--quiet")
            converts(r)
            expect(r.said == "" and (not front or any(map(is_leftover, os.listdir(here)))), r.said, os.listdir(here))
            fails(go_on(p), "exists")
            check_example(read(result))
            holds(here, "r.mf4")


def in_namespace(option, script, *words, fault=""):
    """The command in a namespace of its own, after this script."""
    shell = ["unshare", option, "sh", "-c", script + ' && exec "$@"', "sh", Run.command, *map(str, words)]
    return subprocess.Popen(shell if option != "--pid" else [*shell[:1], "--fork", *shell[1:]], env=faulty(fault), stdout=subprocess.PIPE, stderr=subprocess.PIPE)


@test
def two_containers_with_one_process_id():
    """Both are process 1 where they run: their temporary files have names of their own."""
    if subprocess.run(["unshare", "--pid", "--fork", "true"], stderr=subprocess.DEVNULL).returncode != 0:
        raise NotTried("unshare is not permitted")
    with folder() as here:
        result = os.path.join(here, "r.mf4")
        both = [in_namespace("--pid", "true", MEDIUM.path, result, "--quiet", fault=NAMED) for _ in range(2)]
        ended = [end(p) for p in both]
        expect(sorted(r.returncode for r in ended) == [0, 1] and any("exists" in r.said for r in ended), [(r.returncode, r.said) for r in ended])
        expect(without_time(read(result)) == MEDIUM.result, "a part of the result")
        holds(here, "r.mf4")


@test
def without_proc():
    """A file without a name is named by way of /proc; where that is missing it has a name from the start."""
    with folder() as here:
        r = end(in_namespace("--mount", "umount -l /proc", SAMPLE, os.path.join(here, "r.mf4"), "--verify"))
        if "unshare" in r.said or "umount" in r.said:
            raise NotTried("unshare is not permitted")
        converts(r)
        expect("converting into %s/.r.mf4.mdf-columns-" % here in r.said, r.said)
        holds(here, "r.mf4")


@any_user
def signals_that_end_it():
    for number in (signal.SIGINT, signal.SIGTERM, signal.SIGHUP, signal.SIGQUIT):
        for front in ("", NAMED):
            with folder() as here:
                p = stopped_at(front + "msync:1:stop", SAMPLE, os.path.join(here, "r.mf4"))
                p.send_signal(number)
                ends(go_on(p), -number, "ended by a signal", "there is no new result", os.path.join(here, "r.mf4"))
                holds(here)


# ---- changed meanwhile


def appended(recording):
    with open(recording, "ab") as f:
        f.write(b"more")


def rewritten(recording):
    with open(recording, "rb+") as f:
        f.seek(2000)
        f.write(b"other")


def rewritten_with_its_time_set_back(recording):
    before = os.stat(recording)
    rewritten(recording)
    os.utime(recording, ns=(before.st_atime_ns, before.st_mtime_ns))


def cut_off(recording):
    os.truncate(recording, os.path.getsize(recording) - 1)


def replaced(recording):
    shutil.copy(recording, recording + ".new")
    os.replace(recording + ".new", recording)


def removed(recording):
    os.remove(recording)


def folder_replaced(recording):
    """Its path leads to another file, though the file itself is as it was."""
    where = os.path.dirname(recording)
    os.rename(where, where + ".old")
    os.mkdir(where)
    shutil.copy(os.path.join(where + ".old", os.path.basename(recording)), recording)


CHANGES = (appended, rewritten, rewritten_with_its_time_set_back, cut_off, replaced, removed, folder_replaced)


@any_user
def recording_changed_while_the_result_is_synced():
    """Between the conversion and the name: no result of a recording that is another by then."""
    for change in CHANGES:
        for moment in ("msync:1:stop", "fsync:1:stop", "fsync:2:stop"):
            with folder() as here:
                os.mkdir(os.path.join(here, "in"))
                recording = shutil.copy(SAMPLE, os.path.join(here, "in", "a.mf4"))
                p = stopped_at(moment, recording, os.path.join(here, "r.mf4"))
                change(recording)
                r = go_on(p)
                fails(r, "a.mf4 was", "while it was read")
                expect("r.mf4" not in os.listdir(here), change.__name__, moment)


@any_user
def recording_changed_before_a_refusal():
    """A passing change must not become a lasting verdict: status 1, not 2."""
    for change in (appended, rewritten, rewritten_with_its_time_set_back, replaced):
        with folder() as here:
            recording = write(os.path.join(here, "a.mf4"), read(SAMPLE)[:5000])
            p = stopped_at("fstatat:1:stop", recording, os.path.join(here, "r.mf4"))
            change(recording)
            fails(go_on(p), "was changed while it was read")


@any_user
def recording_changed_at_random_moments():
    """A result that comes of it is that of the recording as it is afterwards; --long sets how often."""
    told = []
    for k in range(Run.loops(12)):
        with folder() as here:
            recording, result = shutil.copy(MEDIUM.path, os.path.join(here, "a.mf4")), os.path.join(here, "r.mf4")
            time.sleep(0.05)
            p = start(recording, result)
            time.sleep(Run.random.uniform(0, 1.5 * MEDIUM.seconds))
            changed_at = time.time()
            Run.random.choice((appended, rewritten))(recording)
            r = end(p)
            told.append("converted" if r.returncode == 0 else "failed")
            if r.returncode == 0 and os.stat(result).st_ctime > changed_at:
                ends(run("--check", recording, result), 0)
    return counted(told)


@any_user
def recording_cut_off_while_it_is_read():
    """A fault in the mapped recording: the message names the file."""
    with folder() as here:
        recording = shutil.copy(SAMPLE, os.path.join(here, "a\x1b.mf4"))
        p = stopped_at("fstatat:1:stop", recording, os.path.join(here, "r.mf4"))
        os.truncate(recording, 4096)
        fails(go_on(p), "the recording %s/a?.mf4 can't be read to its end" % here)
        holds(here, "a\x1b.mf4")


@any_user
def disk_cut_off_meanwhile():
    """The temporary file loses its bytes: a fault in the mapped output. The message names the file."""
    with folder() as here:
        p = start(BIG.path, os.path.join(here, "s.mf4"), until="converting", env=faulty(NAMED))
        (name,) = [x for x in os.listdir(here) if is_leftover(x, "s.mf4")]
        os.truncate(os.path.join(here, name), 4096)
        fails(end(p), "the result %s/s.mf4 can't be written" % here)
        holds(here)
