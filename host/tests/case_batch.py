"""Several recordings in one call."""
import os
import pty
import shutil
import signal
import subprocess
import time

from common import (
    DIFFERENT, EXAMPLE, FAILED, INCOMPLETE, MEDIUM, REFUSED, SAMPLE, Run, any_user, converts, end, ends, expect, fails, folder, holds, read,
    report_of, run, start, write,
)
from mdf import without_time


def three(here):
    """Two recordings and between them one that is refused, and the folder for results."""
    os.mkdir(os.path.join(here, "out"))
    shutil.copy(EXAMPLE, os.path.join(here, "a.mf4"))
    write(os.path.join(here, "b.mf4"), b"MDF")
    shutil.copy(SAMPLE, os.path.join(here, "c.mf4"))
    return ["a.mf4", "b.mf4", "c.mf4"]


@any_user
def several_recordings():
    """A refused one stops none; each has its report; a second call passes over what is done."""
    with folder() as here:
        names = three(here)
        r = run("-d", "out", *names, "--json", "all.json", cwd=here, preexec_fn=lambda: signal.signal(signal.SIGCHLD, signal.SIG_IGN))
        ends(r, REFUSED, "b.mf4: refused 4", 'omitted "rack.1.99"')
        expect([line.split(":")[0] for line in r.printed.splitlines()] == ["out/a.mf4", "out/c.mf4"], r.printed)
        expect("reading" not in r.said and "1 of 3" not in r.said, r.said)
        holds(os.path.join(here, "out"), "a.mf4", "c.mf4")
        reports = report_of(os.path.join(here, "all.json"))
        expect([d["outcome"] for d in reports] == ["converted", "refused", "converted"], reports)
        made = {name: os.stat(os.path.join(here, "out", name)).st_ino for name in ("a.mf4", "c.mf4")}
        ends(run("-d", "out", *names, cwd=here), FAILED, "out/a.mf4 exists", "out/c.mf4 exists")
        write(os.path.join(here, "out", "c.mf4"), b"not it")
        ends(run("-d", "out", *names, "--resume", "--json", "all.json", cwd=here), DIFFERENT)
        ends(run("-d", "out", *names, "--resume", "--force", "--json", "all.json", cwd=here), REFUSED)
        expect([d["outcome"] for d in report_of(os.path.join(here, "all.json"))] == ["done already", "refused", "converted"], "the reports")
        expect(os.stat(os.path.join(here, "out", "a.mf4")).st_ino == made["a.mf4"], "a.mf4 was converted again")
        converts(run("--check", "-d", "out", "a.mf4", "c.mf4", cwd=here))
        holds(here, *names, "out", "all.json")


@any_user
def worst_of_several_statuses():
    with folder() as here:
        names = three(here)
        ends(run("-d", "out", "a.mf4", "c.mf4", "--complete", cwd=here), INCOMPLETE)
        ends(run("-d", "out", *names, "--complete", "--resume", cwd=here), REFUSED)
        ends(run("-d", "out", *names, "missing.mf4", "--complete", "--resume", "--json", "all.json", cwd=here), FAILED, "missing.mf4")
        expect([d["status"] for d in report_of(os.path.join(here, "all.json"))] == [0, REFUSED, INCOMPLETE, FAILED], "the reports")
        holds(os.path.join(here, "out"), "a.mf4")


@any_user
def several_of_one_name():
    with folder() as here:
        os.mkdir(os.path.join(here, "out"))
        os.mkdir(os.path.join(here, "other"))
        shutil.copy(EXAMPLE, os.path.join(here, "a.mf4"))
        shutil.copy(EXAMPLE, os.path.join(here, "other", "a.mf4"))
        fails(run("-d", "out", "a.mf4", "other/a.mf4", "--force", cwd=here), "have one name")
        fails(run("-d", ".", "a.mf4", "--force", cwd=here), "is the recording itself")
        fails(run("-d", "missing", "a.mf4", cwd=here), "can't open the folder missing")
        holds(os.path.join(here, "out"))


@any_user
def progress_on_a_terminal():
    with folder() as here:
        names = three(here)
        reader, terminal = pty.openpty()
        run("-d", "out", *names, stderr=terminal, cwd=here)
        os.close(terminal)
        said = b""
        try:
            while True:
                said += os.read(reader, 65536)
        except OSError:  # the terminal's end
            pass
        os.close(reader)
        for line in (b"1 of 3: a.mf4", b"2 of 3: b.mf4", b"3 of 3: c.mf4"):
            expect(line in said, line, said)


@any_user
def several_ended_by_a_signal():
    """To the call alone: the conversion that runs ends too, and nothing is left."""
    for number in (signal.SIGTERM, signal.SIGKILL):
        with folder() as here:
            os.mkdir(os.path.join(here, "out"))
            names = [shutil.copy(MEDIUM.path, os.path.join(here, "%d.mf4" % k)) for k in range(20)]
            p = start("-d", os.path.join(here, "out"), *names, "--json", os.path.join(here, "all.json"))
            while not os.listdir(os.path.join(here, "out")):
                time.sleep(0.005)
            p.send_signal(number)
            r = end(p)
            expect(r.returncode == -number, r.returncode, r.said)
            time.sleep(0.2)
            made = os.listdir(os.path.join(here, "out"))
            expect(0 < len(made) < 20 and "all.json" not in os.listdir(here), made)
            for name in made:
                expect(without_time(read(os.path.join(here, "out", name))) == MEDIUM.result, name)


@any_user
def many_processes_over_one_folder():
    """As an archive runs it: conversions at once, some killed, then all again with --resume."""
    with folder() as here:
        os.mkdir(os.path.join(here, "out"))
        names = ["%02d.mf4" % k for k in range(12)]
        for name in names:
            shutil.copy(SAMPLE, os.path.join(here, name))
        begin = lambda name: subprocess.Popen([Run.command, name, "out/" + name, "--quiet"], cwd=here, stderr=subprocess.DEVNULL)  # noqa: E731
        processes = [begin(name) for name in names]
        for p in processes[::3]:
            p.kill()
        for p in processes:
            p.wait()
        converts(run("-d", "out", *names, "--resume", "--quiet", cwd=here))
        holds(os.path.join(here, "out"), *names)
        converts(run("--check", "-d", "out", *names, "--quiet", cwd=here))
