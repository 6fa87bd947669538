"""Power cuts, over the log of all that reached the device."""
import collections
import os
import shutil
import subprocess
import time

from common import NAMED, SAMPLE, SMALL, NotTried, Run, converts, expect, faulty, mounted, place, read, run, test, write
from mdf import without_time
from power import after_power_cut, logged_device, read_log

MIB = 1 << 20


def empty_device(kind):
    if not shutil.which("mkfs." + kind):
        raise NotTried("there is no mkfs." + kind)
    path = place("empty.img")
    with open(path, "wb") as f:
        f.truncate(16 * MIB)
    subprocess.run(["mkfs." + kind, "-q", path], check=True, stderr=subprocess.DEVNULL)
    return read(path)


def logged_conversion(image, old, fault, *words):
    """The log of a conversion on such a device, and when it had ended."""
    log = place("device.log")
    with logged_device(image, log) as device:
        with mounted(device) as here:
            result = os.path.join(here, "r.mf4")
            if old:
                write(result, old)
                os.sync()
            begun = time.monotonic()
            converts(run(SAMPLE, result, *words, *(["--force"] if old else []), env=faulty(fault)))
            ended = time.monotonic()
            time.sleep(0.1)
    return read_log(log), begun, ended


def found_after(image):
    """What RESULT is on a device that lost power; beside it at most one temporary file."""
    path = place(write("cut.img", image))
    try:
        with mounted("-o", "loop", path) as here:
            names = [name for name in os.listdir(here) if name not in ("lost+found", "r.mf4")]
            expect(len(names) <= 1, "left:", names)
            return (read(os.path.join(here, "r.mf4")) if "r.mf4" in os.listdir(here) else None), names
    except NotTried:
        raise AssertionError("the device can't be mounted")


def old_or_whole(data, old):
    if data == old:
        return "old"
    return "whole" if data is not None and without_time(data) == SMALL.result else None


def broken_promises(image, entries, begun, ended, old, unnamed, cuts, judge=old_or_whole):
    """How often RESULT was nothing that it may be, or not whole after the command had ended with 0; or something was left beside it."""
    first = next(i for i, e in enumerate(entries) if e[1] > begun)
    broken, seen = 0, collections.Counter()
    for _ in range(cuts):
        cut = Run.random.randrange(first, len(entries) + 1)
        data, left = found_after(after_power_cut(image, entries, cut))
        done = cut == len(entries) or entries[cut][1] > ended
        found = judge(data, old)
        if found == "whole" or found and not done:
            seen[found] += 1
        else:
            broken += 1
        expect(not left or not unnamed, "left behind:", left)
    return broken, seen


@test
def power_cuts():
    """At each moment RESULT is as before or whole; after status 0 it is whole. --long sets how often."""
    image, told = empty_device("ext4"), []
    for old, fault in ((None, ""), (b"old" * 2000, ""), (None, NAMED)):
        entries, begun, ended = logged_conversion(image, old, fault)
        expect(sum(e[0] == b"f" for e in entries if begun < e[1] < ended) >= 2, "flushes that reached the device")
        broken, seen = broken_promises(image, entries, begun, ended, old, not old and not fault, Run.loops(36) // 3 + 1)
        expect(broken == 0, broken, "promises broken with", old and "an old result", fault)
        told.append("%s %d as before, %d whole" % ("over an old result" if old else "named" if fault else "unnamed", seen["old"], seen["whole"]))
    return "; ".join(told)


@test
def power_cuts_find_a_missing_sync():
    """The same test where no sync reaches the device finds broken promises."""
    image = empty_device("ext4")
    entries, begun, ended = logged_conversion(image, None, "fsync:0:skip,msync:0:skip")
    broken, _ = broken_promises(image, entries, begun, ended, None, True, 12)
    expect(broken > 0, "nothing was found")
    return "%d of 12" % broken
