"""Tests of packed files: what the programs gzip, xz and zstd made is read as what was packed."""

import os
import shutil
import subprocess
import unittest
from unittest import mock

from inside import inside
from reporting import Folder
from running import example

from steerlib import packed

WEB = example("web.pcap")
PROGRAMS = {"gz": "gzip", "xz": "xz", "zst": "zstd"}


def packed_by(program):
    """The bytes of a capture as a program packs them, or None where it is not installed."""
    if shutil.which(program) is None:
        return None
    return subprocess.run([program, "-c", WEB], stdout=subprocess.PIPE,
                          stderr=subprocess.DEVNULL).stdout


class Packed(unittest.TestCase):
    def each(self):
        """The kinds with the bytes of the capture, of the programs that are installed."""
        found = [(kind, packed_by(program)) for kind, program in PROGRAMS.items()]
        found = [(kind, data) for kind, data in found if data is not None]
        if not found:
            self.skipTest("neither gzip nor xz nor zstd is installed")
        return found

    def test_they_are_read(self):
        wanted = inside("steer-cap", WEB)
        for kind, data in self.each():
            self.assertEqual(packed.kind_of(data[:packed.LONGEST_MAGIC]), kind)
            with Folder() as folder:
                self.assertEqual(inside("steer-cap", folder.write("web", data)), wanted, kind)
            self.assertEqual(inside("steer-cap", "-", data=data), wanted, kind)
        with open(WEB, "rb") as stream:
            self.assertIsNone(packed.kind_of(stream.read(packed.LONGEST_MAGIC)))

    def test_they_are_cut_or_wrong(self):
        for kind, data in self.each():
            status, _, said = inside("steer-cap", "-", data=data[:900])
            self.assertEqual(status, 4)
            self.assertTrue(said.startswith("steer-cap: standard input: the %s data is cut short"
                                            % kind), said)
            status, _, said = inside("steer-cap", "-", data=data[:200] + bytes(400))
            self.assertEqual((status, said.count("\n")), (4, 1), said)

    def test_nothing_that_unpacks(self):
        """It says what is missing."""
        with mock.patch.object(packed, "_module", return_value=None), \
                mock.patch.object(packed.shutil, "which", return_value=None):
            for magic, text in ((b"\xfd7zXZ\0", "it is packed as xz, and this Python has no "
                                 "module lzma: xz -dc unpacks it"),
                                (b"\x28\xb5\x2f\xfd", "it is packed as zst, and there is no "
                                 "program zstd and no Python module zstandard: install one of "
                                 "them, or unpack the file elsewhere")):
                self.assertEqual(inside("steer-cap", "-", data=magic + bytes(20)),
                                 (4, b"", "steer-cap: standard input: %s\n" % text))

    def test_programs_that_run_steer(self):
        """steer itself gets a plain copy."""
        words = [example("rfs.json"), "--pps", "20000", "--speed", "100", "--read"]
        wanted = inside("steer-steps", words[0], WEB, *words[1:])
        for kind, data in self.each():
            with Folder() as folder:
                name = folder.write("web", data)
                self.assertEqual(inside("steer-steps", words[0], name, *words[1:]), wanted, kind)
                self.assertEqual(os.listdir(folder.name), ["web"])


if __name__ == "__main__":
    unittest.main()
