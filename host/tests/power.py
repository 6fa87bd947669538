"""A device that keeps a log: a FUSE file below a loop device. Each write and each flush is noted, with its time.

From the log the device is made as a power cut would leave it: what was flushed is there; of what was written after the last flush any part,
down to single blocks of 1 KiB, may be missing.
"""
import contextlib
import ctypes
import os
import struct
import subprocess
import tempfile
import time

from common import NotTried, Run

SECTOR, BLOCK = 512, 1024  # what a size is told in; what the device writes whole or not at all, as ext4 relies on for its superblock
LOOKUP, FORGET, GETATTR, SETATTR, OPEN, READ, WRITE, STATFS, RELEASE, FSYNC, FLUSH, INIT, OPENDIR, READDIR, RELEASEDIR, ACCESS = (
    1, 2, 3, 4, 14, 15, 16, 17, 18, 20, 25, 26, 27, 28, 29, 34)
FALLOCATE, DESTROY, BATCH_FORGET = 43, 38, 42
ENOSYS, ENOENT = 38, 2
ROOT_NODE, FILE_NODE = 1, 2
DIRECT = 1
libc = ctypes.CDLL(None, use_errno=True)


class Server:
    """Serves one file, `device`, from memory, and writes the log: kind, time, offset, length, bytes."""

    def __init__(self, fuse, image, log):
        self.fuse, self.image, self.log = fuse, bytearray(image), log

    def attributes(self, node):
        folder = node == ROOT_NODE
        size = 0 if folder else len(self.image)
        mode = 0o40755 if folder else 0o100600
        return struct.pack("<6Q10I", node, size, size // SECTOR, 0, 0, 0, 0, 0, 0, mode, 1, 0, 0, 0, 4096, 0)

    def note(self, kind, offset=0, data=b""):
        self.log.write(struct.pack("<cdQQ", kind, time.monotonic(), offset, len(data)) + data)
        self.log.flush()

    def answer(self, code, node, body):
        """The body of the answer, or an error number; None for no answer."""
        if code == INIT:
            return struct.pack("<4I2H2I2H8I", 7, 31, 131072, 1 << 5, 12, 10, 131072, 1, 32, 0, *[0] * 8)
        if code == LOOKUP:
            if body != b"device\0":
                return ENOENT
            return struct.pack("<4Q2I", FILE_NODE, 0, 3600, 3600, 0, 0) + self.attributes(FILE_NODE)
        if code in (GETATTR, SETATTR):
            return struct.pack("<Q2I", 3600, 0, 0) + self.attributes(node)
        if code in (OPEN, OPENDIR):
            return struct.pack("<Q2I", 0, DIRECT if code == OPEN else 0, 0)
        if code == READ:
            _, offset, size = struct.unpack_from("<QQI", body)
            return bytes(self.image[offset : offset + size])
        if code == WRITE:
            _, offset, size = struct.unpack_from("<QQI", body)
            data = body[40 : 40 + size]
            self.image[offset : offset + size] = data
            self.note(b"w", offset, data)
            return struct.pack("<2I", size, 0)
        if code == FSYNC:
            self.note(b"f")
            return b""
        if code == STATFS:
            return struct.pack("<5Q10I", 1, 0, 0, 1, 0, 4096, 255, 4096, *[0] * 7)
        if code in (FLUSH, RELEASE, RELEASEDIR, READDIR, ACCESS, DESTROY):
            return b""
        return None if code in (FORGET, BATCH_FORGET) else ENOSYS

    def serve(self):
        while True:
            try:
                request = os.read(self.fuse, 1 << 20)
            except OSError:  # unmounted
                return
            _, code, unique, node = struct.unpack_from("<IIQQ", request)
            body = self.answer(code, node, request[40:])
            if body is None:
                continue
            error, body = (-body, b"") if isinstance(body, int) else (0, body)
            os.write(self.fuse, struct.pack("<IiQ", 16 + len(body), error, unique) + body)


@contextlib.contextmanager
def logged_device(image, log_path):
    """A loop device with these bytes over a file that logs."""
    path = tempfile.mkdtemp(dir=Run.here)
    try:
        fuse = os.open("/dev/fuse", os.O_RDWR | os.O_CLOEXEC)
    except OSError:
        os.rmdir(path)
        raise NotTried("there is no FUSE")
    words = ("fd=%d,rootmode=40000,user_id=0,group_id=0" % fuse).encode()
    if libc.mount(b"power", path.encode(), b"fuse", 0, words) != 0:
        os.rmdir(path)
        raise NotTried("mounting FUSE is not permitted")
    server, device = os.fork(), None
    if server == 0:
        with open(log_path, "wb") as log:
            Server(fuse, image, log).serve()
        os._exit(0)
    os.close(fuse)
    try:
        r = subprocess.run(["losetup", "--find", "--show", os.path.join(path, "device")], stdout=subprocess.PIPE, stderr=subprocess.PIPE)
        if r.returncode != 0:
            raise NotTried("no loop device: " + r.stderr.decode())
        device = r.stdout.decode().strip()
        yield device
    finally:
        if device:
            subprocess.run(["losetup", "--detach", device], check=True)
        subprocess.run(["umount", path], check=True)
        os.waitpid(server, 0)
        os.rmdir(path)


def read_log(path):
    """(kind, time, offset, bytes) of each entry."""
    with open(path, "rb") as f:
        data = f.read()
    head, at, entries = struct.calcsize("<cdQQ"), 0, []
    while at < len(data):
        kind, when, offset, length = struct.unpack_from("<cdQQ", data, at)
        entries.append((kind, when, offset, data[at + head : at + head + length]))
        at += head + length
    return entries


def after_power_cut(image, entries, cut):
    """The device if power goes after so many entries."""
    image = bytearray(image)
    flushed = max((i for i in range(cut) if entries[i][0] == b"f"), default=0)
    for i, (kind, _, offset, data) in enumerate(entries[:cut]):
        if kind != b"w":
            continue
        if i < flushed:
            image[offset : offset + len(data)] = data
            continue
        how = Run.random.randrange(3)  # lost, whole, torn
        for start in range(0, len(data), BLOCK):
            if how == 1 or (how == 2 and Run.random.random() < 0.5):
                image[offset + start : offset + start + BLOCK] = data[start : start + BLOCK]
    return bytes(image)
