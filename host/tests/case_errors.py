"""Words, files and folders that can't be used, and calls that fail."""
import os
import shutil
import subprocess

from case_library import check_example
from common import (
    EXAMPLE, NAMED, SAMPLE, SMALL, STANDING, Run, any_user, as_nobody, converts, ends, expect, fails, folder, holds, is_leftover,
    limited_files, open_folder, place, read, run, stopped_at, go_on, test, with_fault, write,
)
from mdf import without_time


@any_user
def misuse():
    with folder() as here:
        result = os.path.join(here, "r.mf4")
        for words in ((), (SAMPLE,), (SAMPLE, result, "third"), (SAMPLE, result, "--what"), (SAMPLE, result, "--block-size"), (SAMPLE, result, "--unit"),
            ("-d", here), ("--check", SAMPLE), ("--check", "--force", SAMPLE, result), ("--listing", "--json", "-", SAMPLE, result), (SAMPLE, result, "--json")):
            fails(run(*words), "usage: mdf-columns RECORDING RESULT")
        for size in ("", "abc", "-1", "4k", " 1", "0x10", str(2**64)):
            for option in ("--block-size", "--unit"):
                fails(run(SAMPLE, result, option, size), option + " needs a number of bytes", "usage:")
        holds(here)
    r = run("--help")
    expect(r.returncode == 0 and r.printed.startswith("usage:") and r.said == "", r.said)
    converts(run("--quiet", "--force", EXAMPLE, "--block-size", 2**64 - 1, "most.mf4"))


@any_user
def words_in_any_order():
    """README's order too where POSIXLY_CORRECT is set; -- ends the options."""
    for environment in (os.environ, {**os.environ, "POSIXLY_CORRECT": "1"}):
        with folder() as here:
            for words in ((EXAMPLE, "a.mf4", "--quiet"), ("--quiet", EXAMPLE, "b.mf4"), (EXAMPLE, "--quiet", "c.mf4"), ("--quiet", "--", EXAMPLE, "--d")):
                r = run(*words, cwd=here, env=environment)
                expect(r.returncode == 0 and r.said == "", words, r.said)
            holds(here, "a.mf4", "b.mf4", "c.mf4", "--d")


@any_user
def input_that_is_no_file():
    with folder() as here:
        result = os.path.join(here, "r.mf4")
        pipe = place("pipe")
        os.mkfifo(pipe)
        fails(run(pipe, result, timeout=20), "is a pipe")
        fails(run("/dev/stdin", result, input=read(SAMPLE)), "is a pipe")
        fails(run(Run.here, result), "is a folder")
        fails(run("/dev/zero", result), "is a device")
        fails(run("missing.mf4", result), "missing.mf4", "No such file")
        holds(here)
        with open(EXAMPLE, "rb") as f:
            converts(run("/dev/stdin", result, stdin=f))


@test
def no_permission():
    with open_folder() as here:
        recording, shut = shutil.copy(EXAMPLE, here), os.path.join(here, "shut")
        os.mkdir(shut, 0o555)
        fails(as_nobody(recording, os.path.join(shut, "r.mf4")), "can't make a temporary file", "Permission denied")
        holds(shut)
        os.chmod(recording, 0)
        fails(as_nobody(recording, os.path.join(here, "r.mf4")), "can't open the recording", "Permission denied")
        holds(here, "mdf-columns", "stdin", "shut")


@any_user
def existing_result():
    with folder() as here:
        result = os.path.join(here, "r.mf4")
        write(result, b"old")
        fails(run(EXAMPLE, result), "exists", "--force")
        expect(read(result) == b"old", "it was replaced")
        converts(run(EXAMPLE, result, "--force", "--block-size", 64))
        check_example(read(result))
        holds(here, "r.mf4")


@any_user
def result_that_is_the_recording():
    with folder() as here:
        recording = shutil.copy(EXAMPLE, os.path.join(here, "a.mf4"))
        os.symlink("a.mf4", os.path.join(here, "symbolic.mf4"))
        os.link(recording, os.path.join(here, "hard.mf4"))
        pairs = [("a.mf4", "a.mf4"), ("a.mf4", "./a.mf4"), ("a.mf4", "symbolic.mf4"), ("symbolic.mf4", "a.mf4"), ("a.mf4", "hard.mf4")]
        for first, second in pairs:
            for force in ((), ("--force",)):
                fails(run(first, second, *force, cwd=here), "is the recording itself")
        holds(here, "a.mf4", "symbolic.mf4", "hard.mf4")
        expect(read(recording) == read(EXAMPLE), "the recording was changed")


@any_user
def result_that_is_no_file():
    with folder() as here:
        os.mkdir(os.path.join(here, "sub"))
        os.mkfifo(os.path.join(here, "pipe"))
        os.symlink("nowhere", os.path.join(here, "link"))
        fails(run(EXAMPLE, "sub", "--force", cwd=here), "is a folder")
        for name in ("sub/", ".", "sub/..", "/"):
            fails(run(EXAMPLE, name, "--force", cwd=here), "names a folder")
        fails(run(EXAMPLE, "pipe", "--force", cwd=here), "is not a file")
        fails(run(EXAMPLE, "link", "--force", cwd=here), "symbolic link")
        fails(run(EXAMPLE, "/dev/null", "--force"), "is not a file")
        fails(run(EXAMPLE, "/dev/stdout", "--force"), "symbolic link")
        fails(run(EXAMPLE, "missing/r.mf4", cwd=here), "can't open the folder missing")
        fails(run(EXAMPLE, "pipe/r.mf4", cwd=here), "can't open the folder pipe")
        fails(run(EXAMPLE, "n" * 256, cwd=here), "File name too long")
        holds(here, "sub", "pipe", "link")
        converts(run(EXAMPLE, "n" * 255, cwd=here))
        holds(here, "sub", "pipe", "link", "n" * 255)
        r = run(EXAMPLE, "sub\x1b\n/r.mf4", cwd=here)
        fails(r, "sub??")


@any_user
def standard_output_that_cannot_be_written():
    """RESULT is whole all the same: a status of its own says so."""
    with folder() as here:
        result = os.path.join(here, "r.mf4")
        with open("/dev/full", "wb") as full:
            for more in ((), ("--json", "-"), ("--quiet", "--listing"), ("--quiet", "--sha256")):
                r = run(EXAMPLE, result, "--force", *more, stdout=full)
                ends(r, STANDING, "standard output", "r.mf4 is there and whole")
                check_example(read(result))
        reader, writer = os.pipe()
        os.close(reader)
        ends(run(EXAMPLE, result, "--force", stdout=writer), STANDING, "standard output can't be written", "r.mf4 is there and whole")
        os.close(writer)
        holds(here, "r.mf4")
        converts(run(EXAMPLE, result, "--resume"))


@any_user
def closed_descriptors():
    with folder() as here:
        result = os.path.join(here, "r.mf4")
        shell = ["sh", "-c", 'exec "$@" <&- >&- 2>&-', "sh", Run.command, EXAMPLE, result, "--block-size", "64", "--force"]
        expect(subprocess.run(shell).returncode == STANDING, "standard output was closed")
        check_example(read(result))
        expect(subprocess.run(shell + ["--quiet"]).returncode == 0, "quiet")
        check_example(read(result))
        holds(here, "r.mf4")


@any_user
def omissions_that_cannot_be_said():
    """Standard error full or closed: a recording with a channel left out gives no result, one without does."""
    for to in ("2>/dev/full", "2>&-"):
        with folder() as here:
            shell = ["sh", "-c", 'exec "$@" ' + to, "sh", Run.command, "--quiet"]
            expect(subprocess.run([*shell, SAMPLE, os.path.join(here, "r.mf4")]).returncode == 1, to)
            holds(here)
            expect(subprocess.run([*shell, EXAMPLE, os.path.join(here, "r.mf4")]).returncode == 0, to)
            holds(here, "r.mf4")


# ---- calls that fail


@any_user
def failing_calls():
    """An error of each call on the way: no result, no temporary file."""
    EIO, ENOSPC = 5, 28
    with folder() as here:
        result = os.path.join(here, "r.mf4")
        for front in ("", NAMED):
            for call, words in (
                ("posix_fallocate:1:%d" % ENOSPC, "no room"),
                ("msync:1:%d" % EIO, "can't write the result"),
                ("fsync:1:%d" % EIO, "can't write the result"),
                ("fsync:2:%d" % EIO, "can't sync the folder"),
                ("fstatat:1:%d" % EIO, "can't look at"),
                ("fstatat:2:%d" % EIO, "can't look at"),
                (("renameat2:1:%d" if front else "linkat:1:%d") % EIO, "can't give the result its name"),
            ):
                fails(with_fault(front + call, EXAMPLE, result), words, here)
                holds(here)
            write(result, b"old")
            fails(with_fault(front + "renameat:1:%d" % EIO, EXAMPLE, result, "--force"), "can't give the result its name")
            expect(read(result) == b"old", "the old result is gone")
            holds(here, "r.mf4")
            os.remove(result)
            r = with_fault(front + "fsync:3:%d" % EIO, EXAMPLE, result)
            ends(r, STANDING, "the folder", "can't be synced", "r.mf4 is there and whole")
            check_example(read(result))
            holds(here, "r.mf4")
            converts(run(EXAMPLE, result, "--resume"))
            os.remove(result)


@any_user
def temporary_file_that_stays_is_named():
    with folder() as here:
        r = with_fault(NAMED + "msync:1:5,unlinkat:1:13", EXAMPLE, os.path.join(here, "r.mf4"))
        (name,) = os.listdir(here)
        fails(r, "the temporary file", name, "can't be removed")


@any_user
def poorer_file_systems():
    """No files without a name, no preallocation, no RENAME_NOREPLACE, no hard links, no locks, no sync of folders, no word of free room:
    the result is the same."""
    EPERM, EINVAL, ENOLCK, ENOSYS, EOPNOTSUPP = 1, 22, 37, 38, 95
    with folder() as here:
        result = os.path.join(here, "r.mf4")
        for fault in (
            NAMED,
            "tmpfile:0:21",
            "posix_fallocate:1:%d" % EOPNOTSUPP,
            NAMED + "posix_fallocate:1:%d" % EOPNOTSUPP,
            NAMED + "renameat2:1:%d" % EINVAL,
            NAMED + "renameat2:1:%d,linkat:1:%d" % (EINVAL, EPERM),
            NAMED + "flock:1:%d" % ENOLCK,
            "fsync:2:%d,fsync:3:%d" % (EINVAL, EINVAL),
            "fstatvfs:0:%d" % ENOSYS,
        ):
            converts(with_fault(fault, SAMPLE, result))
            expect(without_time(read(result)) == SMALL.result, fault)
            holds(here, "r.mf4")
            os.remove(result)
        r = with_fault("posix_fallocate:1:95", SAMPLE, result, preexec_fn=limited_files(100000))
        fails(r, "no room for the result", "File too large")
        holds(here)


# ---- what stands there already


@any_user
def replaced_result_keeps_mode_and_owner():
    with folder() as here:
        result = os.path.join(here, "r.mf4")
        for mode in (0o600, 0o640, 0o444):
            write(result, b"old")
            os.chmod(result, mode)
            if os.getuid() == 0:
                os.chown(result, 12345, 54321)
            for front in ("", NAMED):
                converts(with_fault(front, EXAMPLE, result, "--force"))
                found = os.stat(result)
                expect(found.st_mode & 0o7777 == mode, "mode", oct(found.st_mode))
                expect(os.getuid() != 0 or (found.st_uid, found.st_gid) == (12345, 54321), "owner", found.st_uid, found.st_gid)
            os.remove(result)
        write(result, b"old")
        r = with_fault("fchown:0:1", EXAMPLE, result, "--force")
        converts(r)


@any_user
def recording_with_the_name_of_a_temporary_file():
    """Neither the recording nor another file is taken for one that was left."""
    with folder() as here:
        names = [".r.mf4.mdf-columns-7", ".r.mf4.mdf-columns-0123456789abcdef"]
        for name in names:
            for front in ("", NAMED):
                shutil.copy(EXAMPLE, os.path.join(here, name))
                converts(with_fault(front, name, "r.mf4", "--force", cwd=here))
                expect(read(os.path.join(here, name)) == read(EXAMPLE), "the recording is gone")
                shutil.copy(os.path.join(here, "r.mf4"), os.path.join(here, name))  # a finished result of that name
                r = with_fault(front, EXAMPLE, "r.mf4", "--force", "--quiet", cwd=here)
                converts(r)
                expect(read(os.path.join(here, name)) != b"", "another file is gone")
                expect((name in r.said) == bool(is_leftover(name)), r.said)
        holds(here, "r.mf4", *names)


@any_user
def temporary_name_taken_by_another_file():
    """What is removed at the end is the file that was made, not one that took its name meanwhile."""
    with folder() as here:
        p = stopped_at(NAMED + "fsync:1:stop", EXAMPLE, os.path.join(here, "r.mf4"))
        (name,) = os.listdir(here)
        expect(is_leftover(name), name)
        write(os.path.join(here, "other"), b"other")
        os.rename(os.path.join(here, "other"), os.path.join(here, name))
        p.terminate()
        r = go_on(p)
        expect(r.returncode == -15 and "there is no new result" in r.said, r.returncode, r.said)
        expect(read(os.path.join(here, name)) == b"other", "it was removed")
