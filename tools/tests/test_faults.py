"""Tests of the program itself where calls of the system fail: how often it makes them, and how it
ends."""

import errno
import os
import shutil
import struct
import subprocess
import tempfile
import unittest

from running import STEER

# A library before the system's: its calls of one kind are counted in a file, and fail after some.
SOURCE = r"""
#include <errno.h>
#include <fcntl.h>
#include <stdint.h>
#include <sys/mman.h>
#include <sys/syscall.h>
#include <unistd.h>

static uint32_t *count;

__attribute__((constructor)) static void begin(void) {
    int file = open(COUNT, O_RDWR);
    count = mmap(0, 4, PROT_READ | PROT_WRITE, MAP_SHARED, file, 0);
    close(file);
}

ssize_t read(int file, void *bytes, size_t length) {
    if (!READS) return syscall(SYS_read, file, bytes, length);
    ++*count;
    errno = ERROR;
    return -1;
}

ssize_t write(int file, const void *bytes, size_t length) {
    if (READS || file != 1 || ++*count <= BEFORE) return syscall(SYS_write, file, bytes, length);
    errno = ERROR;
    return -1;
}
"""

# Whether reads fail or writes to standard output, how many are let through, and the error of the
# others; how many are made in all, the status, and how many bytes were written. A write has what
# fits into 65,536 bytes of the lines of 37, 38, 39 and 40: 10, 90, 900 and 666 of them.
CASES = (
    (True, 0, errno.EINTR, 1_000_000, 5, 0),
    (True, 0, errno.EIO, 1, 5, 0),
    (False, 0, errno.EINTR, 1_000_000, 6, 0),
    (False, 0, errno.ENOSPC, 1, 6, 0),
    (False, 1, errno.ENOSPC, 2, 6, 65_530),
)

LINES = {5: b"read fault\n", 6: b"write fault\n"}


def capture(packets):
    """A capture of frames without a flow: each line is `packet N none hash - entry - queue 0`."""
    frame = bytes(12) + b"\x08\x06" + bytes(46)
    record = struct.pack("<4I", 0, 0, len(frame), len(frame)) + frame
    return struct.pack("<IHHiIII", 0xa1b2c3d4, 2, 4, 0, 0, 65_535, 1) + record * packets


def is_executable_file():
    with open(STEER, "rb") as stream:
        return stream.read(4) == b"\x7fELF"


@unittest.skipUnless(shutil.which("cc"), "no C compiler")
@unittest.skipUnless(is_executable_file(), "the program is a script")
class Faults(unittest.TestCase):
    def setUp(self):
        folder = tempfile.TemporaryDirectory()
        self.addCleanup(folder.cleanup)
        self.folder = folder.name
        with open(self.path("a.pcap"), "wb") as stream:
            stream.write(capture(3_000))

    def path(self, name):
        return os.path.join(self.folder, name)

    def hashed(self, reads, before, error):
        """The calls made, the status, and what was written, of `hash` where these calls fail."""
        with open(self.path("count"), "wb") as stream:
            stream.write(bytes(4))
        macros = [f"-DREADS={int(reads)}", f"-DBEFORE={before}", f"-DERROR={error}",
                  '-DCOUNT="%s"' % self.path("count")]
        subprocess.run(["cc", "-shared", "-fPIC", *macros, "-o", self.path("faults.so"), "-xc",
                        "-"], input=SOURCE.encode("utf-8"), check=True)
        ended = subprocess.run([STEER, "hash", self.path("a.pcap")], stdout=subprocess.PIPE,
                               stderr=subprocess.PIPE, timeout=60,
                               env=dict(os.environ, LD_PRELOAD=self.path("faults.so")))
        with open(self.path("count"), "rb") as stream:
            calls, = struct.unpack("=I", stream.read())
        return calls, ended.returncode, ended.stdout, ended.stderr

    def test_a_call_is_made_again_only_if_it_is_interrupted(self):
        for reads, before, error, calls, status, size in CASES:
            with self.subTest(reads=reads, before=before, error=error):
                found = self.hashed(reads, before, error)
                self.assertEqual(found[:2] + (len(found[2]), found[3]),
                                 (calls, status, size, LINES[status]))


if __name__ == "__main__":
    unittest.main()
