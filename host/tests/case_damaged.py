"""Damaged recordings and results, by a command that watches its own memory."""
import glob
import json
import os
import struct

from common import BUILT, DIFFERENT, EXAMPLE, LIBRARY, REFUSED, ROOT, NotTried, Run, cc, expect, folder, read, run, test, write


def bases():
    """Small recordings that are converted."""
    data = [EXAMPLE, *(name for crate in ("columns", "inspect") for name in sorted(glob.glob(os.path.join(ROOT, "crates", crate, "data", "*"))))]
    return [read(name) for name in data if os.path.getsize(name) < 20000 and run(name, "base.mf4", "--force", "--quiet").returncode == 0]


def blocks(image):
    """Offsets where a block seems to begin."""
    found, at = [], image.find(b"##", 64)
    while at >= 0:
        found.append(at)
        at = image.find(b"##", at + 2)
    return found


def damaged(image):
    """One to three edits: a byte, a link to anywhere, a length or number of links, a kind, the end cut off."""
    image = bytearray(image)
    for _ in range(Run.random.randint(1, 2)):
        places = blocks(image)
        if len(image) < 32:
            return bytes(image)
        edit, at = Run.random.choice((0, 0, 0, 0, 1, 1, 2, 3, 4)), Run.random.choice(places or [0])
        if edit == 0:
            image[Run.random.randrange(len(image))] ^= 1 << Run.random.randrange(8)
        elif edit == 1 and at + 96 < len(image):
            value = Run.random.choice([*places, at, len(image) - 8, len(image), 1 << 40, 2**64 - 1, Run.random.randrange(len(image))])
            struct.pack_into("<Q", image, at + 24 + 8 * Run.random.randrange(8), value)
        elif edit == 2 and at + 24 < len(image):
            struct.pack_into("<Q", image, at + Run.random.choice((8, 16)), Run.random.choice((0, 1, 24, 2**32, 2**61, 2**64 - 1, Run.random.randrange(400))))
        elif edit == 3 and at + 4 < len(image):
            image[at + 2 : at + 4] = Run.random.choice((b"TX", b"MD", b"CN", b"CG", b"DG", b"FH", b"DT", b"\xff\x00"))
        else:
            del image[Run.random.randrange(len(image)) :]
    return bytes(image)


def clean(r, *statuses):
    expect("Sanitizer" not in r.said and "runtime error" not in r.said, r.said)
    expect(r.returncode in statuses, r.returncode, r.said)
    return r


@test
def damaged_recordings_under_sanitizers():
    """AddressSanitizer and UndefinedBehaviorSanitizer over the command; --long sets how many recordings."""
    sanitized = os.path.join(BUILT, "mdf-columns-sanitized")
    sources = sorted(os.path.join(ROOT, "host", "command", name) for name in os.listdir(os.path.join(ROOT, "host", "command")) if name.endswith(".c"))
    try:
        cc("-g", "-fsanitize=address,undefined", "-fno-sanitize-recover=all", *sources, LIBRARY, "-ldl", "-o", sanitized)
    except Exception as why:
        raise NotTried("no sanitizers: %s" % why)
    own, Run.command, told = Run.command, sanitized, []
    originals = bases()
    try:
        with folder() as here:
            for k in range(Run.loops(60)):
                told.append(one_damaged(here, damaged(Run.random.choice(originals))))
    finally:
        Run.command = own
    return "%d recordings, %d converted, %d refused" % (len(told), told.count(0), told.count(2))


def one_damaged(here, image):
    recording, result = write(os.path.join(here, "a.mf4"), image), os.path.join(here, "r.mf4")
    words = Run.random.choice(((), ("--verify",), ("--resume",), ("--in-place",), ("--in-place", "--resume")))
    r = clean(run(recording, result, "--json", "-", "--force", "--sha256", *words), 0, REFUSED)
    json.loads(r.printed)
    if r.returncode == 0:
        clean(run("--check", recording, result), 0)
        good = read(result)
        write(result, damaged(good))
        clean(run("--sheet", result), 0, REFUSED)
        columns = Run.random.choice(("0", "1", "0-3,none", "1,0,2", "5-9999999999"))
        clean(run("--take-out", columns, result, os.path.join(here, "thin.mf4"), "--force", "--verify"), 0, REFUSED)
        if read(result) != good:
            json.loads(clean(run("--check", recording, result, "--json", "-"), DIFFERENT).printed)
            clean(run(result, os.path.join(here, "again.mf4"), "--force", "--json", "-"), 0, REFUSED)
    return r.returncode
