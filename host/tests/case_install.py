"""Building and installing."""
import os
import shutil
import subprocess

from common import BUILT, EXAMPLE, ROOT, NotTried, compiler, expect, folder, run, test


def built(*words, **environment):
    r = subprocess.run([os.path.join(ROOT, "host", "build"), *words], env={**os.environ, **environment}, stdout=subprocess.PIPE, stderr=subprocess.PIPE)
    expect(r.returncode == 0, r.stdout.decode(), r.stderr.decode())
    return r.stdout.decode() + r.stderr.decode()


@test
def built_again_without_the_prover():
    """Where only C has changed it isn't asked; what it printed is in a log. A compiler of several words is fine."""
    printed = built(CC="env " + " ".join(compiler()))
    expect("proving" not in printed and "library std" not in printed, printed)
    expect(os.path.exists(os.path.join(BUILT, "prover.log")), "no log")


@test
def static_command():
    try:
        built("--static")
        kind = subprocess.run(["file", "-L", os.path.join(BUILT, "mdf-columns")], stdout=subprocess.PIPE).stdout.decode() if shutil.which("file") else ""
        expect("statically linked" in kind or not kind, kind)
        with folder() as here:
            r = run(EXAMPLE, os.path.join(here, "r.mf4"), "--verify")
            expect(r.returncode == 0, r.said)
            r = run(EXAMPLE, os.path.join(here, "s.mf4"), "--sha256")
            expect(r.returncode == 1 and "the static command can't load" in r.said and os.listdir(here) == ["r.mf4"], r.said)
    finally:
        built()


@test
def installed():
    """Under a prefix and below DESTDIR: the command runs, a program is built by the pkg-config file, the manual page has no error."""
    with folder() as here:
        install = os.path.join(ROOT, "host", "install")
        subprocess.run([install, os.path.join(here, "p")], check=True)
        subprocess.run([install, "/usr"], check=True, env={**os.environ, "DESTDIR": os.path.join(here, "d")})
        expect(subprocess.run([install, "relative"], stderr=subprocess.DEVNULL).returncode == 1, "a relative prefix")
        for top in ("p", os.path.join("d", "usr")):
            found = sorted(os.path.relpath(os.path.join(path, f), os.path.join(here, top)) for path, _, files in os.walk(os.path.join(here, top)) for f in files)
            wanted = ["bin/mdf-columns", "include/sitaungo.h", "lib/libsitaungo.a", "lib/pkgconfig/sitaungo.pc", "lib/sitaungo/libsitaungo.so", "lib/sitaungo/sitaungo.py", "share/man/man1/mdf-columns.1"]
            expect(found == wanted, found)
        program = os.path.join(here, "p", "bin", "mdf-columns")
        version = subprocess.run([program, "--version"], stdout=subprocess.PIPE, check=True).stdout.decode().split()[1]
        with open(os.path.join(here, "p", "share", "man", "man1", "mdf-columns.1")) as f:
            page = f.read()
        expect(version in page and "@" not in page, "the manual page")
        if shutil.which("groff"):
            r = subprocess.run(["groff", "-man", "-ww", "-z"], input=page.encode(), stderr=subprocess.PIPE)
            expect(r.returncode == 0 and r.stderr == b"", r.stderr.decode())
        usage = subprocess.run([program, "--help"], stdout=subprocess.PIPE, check=True).stdout.decode()
        for option in {word.strip(",") for word in usage.split() if word.startswith("--")}:
            expect(option.replace("-", "\\-") in page, option, "is not in the manual page")
        build_by_pkg_config(here, version)


def build_by_pkg_config(here, version):
    if not shutil.which("pkg-config"):
        return
    environment = {**os.environ, "PKG_CONFIG_PATH": os.path.join(here, "p", "lib", "pkgconfig")}
    flags = subprocess.run(["pkg-config", "--cflags", "--libs", "sitaungo"], env=environment, stdout=subprocess.PIPE, check=True).stdout.decode().split()
    shown = subprocess.run(["pkg-config", "--modversion", "sitaungo"], env=environment, stdout=subprocess.PIPE, check=True).stdout.decode().strip()
    expect(shown == version, shown)
    example = os.path.join(ROOT, "host", "examples", "convert.c")
    subprocess.run([*compiler(), example, "-o", os.path.join(here, "convert"), *flags], check=True)
    subprocess.run([os.path.join(here, "convert"), EXAMPLE], check=True, stdout=subprocess.DEVNULL)


@test
def parallel_over_a_folder():
    """The example of docs/ARCHIVE.md, as it stands there."""
    if not shutil.which("parallel"):
        raise NotTried("there is no GNU parallel")
    with open(os.path.join(ROOT, "docs", "ARCHIVE.md")) as f:
        (script,) = [part.split("```")[0] for part in f.read().split("```sh\n")[1:] if "parallel" in part]
    with folder() as here:
        os.mkdir(os.path.join(here, "recordings"))
        os.mkdir(os.path.join(here, "results"))
        for k in range(6):
            shutil.copy(EXAMPLE, os.path.join(here, "recordings", "%d.mf4" % k))
        with open(os.path.join(here, "recordings", "bad.mf4"), "wb") as f:
            f.write(b"MDF")
        path = {**os.environ, "PATH": BUILT + ":" + os.environ["PATH"]}
        for _ in range(2):
            subprocess.run(["bash", "-c", script], cwd=here, env=path, stdout=subprocess.DEVNULL, stderr=subprocess.DEVNULL)
            made = sorted(os.listdir(os.path.join(here, "results")))
            expect([x for x in made if x.endswith(".mf4")] == ["%d.mf4" % k for k in range(6)], made)
        with open(os.path.join(here, "jobs.log")) as f:
            lines = [line.split("\t") for line in f.read().splitlines()[1:]]
        expect(sorted({line[6] for line in lines}) == ["0", "2"], lines)
