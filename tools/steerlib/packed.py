"""Packed files as streams: gz and xz by Python itself, zst by a module or by the program zstd."""

from __future__ import annotations

import gzip
import importlib
import shutil
import subprocess
import threading
import zlib
from typing import Any

MAGICS = {b"\x1f\x8b": "gz", b"\xfd7zXZ\0": "xz", b"\x28\xb5\x2f\xfd": "zst"}
LONGEST_MAGIC = 6


class Unreadable(Exception):
    """What is packed cannot be unpacked; its text says why."""


def kind_of(start: bytes) -> str | None:
    """How a file that begins with these bytes is packed: gz, xz, zst, or None where it is not."""
    return next((kind for magic, kind in MAGICS.items() if start.startswith(magic)), None)


class _Available:
    """What an unpacker reads: as many bytes of `stream` as are there, at most so many."""

    def __init__(self, stream):
        self.read = stream.read1


class _Program:
    """What a program makes of a stream that it gets as its standard input."""

    def __init__(self, command, plain):
        self.process = subprocess.Popen(command, stdin=subprocess.PIPE, stdout=subprocess.PIPE,
                                        stderr=subprocess.DEVNULL)
        threading.Thread(target=self._feed, args=(plain,), daemon=True).start()

    def _feed(self, plain):
        try:
            data = plain.read1(1 << 16)
            while data:
                self.process.stdin.write(data)
                self.process.stdin.flush()
                data = plain.read1(1 << 16)
            self.process.stdin.close()
        except (OSError, ValueError):
            pass

    def read1(self, size):
        data = self.process.stdout.read1(size)
        if not data and self.process.wait() != 0:
            raise EOFError
        return data

    def close(self):
        self.process.kill()
        self.process.wait()
        self.process.stdout.close()


def _module(name):
    """A module of this name, or None where this Python has none."""
    try:
        return importlib.import_module(name)
    except ImportError:
        return None


def _opened_zst(plain):
    own, other = _module("compression.zstd"), _module("zstandard")
    if own is not None:
        return own.ZstdFile(_Available(plain))
    if other is not None:
        return other.ZstdDecompressor().stream_reader(_Available(plain), read_across_frames=True)
    program = shutil.which("zstd")
    if program is None:
        raise Unreadable("it is packed as zst, and there is no program zstd and no Python module "
                         "zstandard: install one of them, or unpack the file elsewhere")
    return _Program([program, "-dcq"], plain)


def opened(kind: str, plain: Any) -> Any:
    """A stream with read1() and close() of what the buffered stream `plain` has packed.

    Unreadable where nothing is there that unpacks this kind.
    """
    if kind == "gz":
        available: Any = _Available(plain)
        return gzip.GzipFile(fileobj=available, mode="rb")
    if kind == "zst":
        return _opened_zst(plain)
    lzma = _module("lzma")
    if lzma is None:
        raise Unreadable("it is packed as xz, and this Python has no module lzma: xz -dc unpacks "
                         "it")
    return lzma.LZMAFile(_Available(plain))


def reason_of(fault: Exception, kind: str | None) -> str | None:
    """Why a read went wrong, or None where the exception is none of an unpacker or of a file."""
    if isinstance(fault, EOFError):
        return "the %s data is cut short%s" % (kind, " or wrong" if kind == "zst" else "")
    if isinstance(fault, (OSError, ValueError, zlib.error)):
        return getattr(fault, "strerror", None) or str(fault)
    if type(fault).__name__ in ("LZMAError", "ZstdError"):
        return "the %s data is wrong: %s" % (kind, fault)
    return None
