"""What all companion programs share: words, notes, refusals, statuses, input, and steer itself.

Statuses: 0 done, 1 two things differ (steer-diff, steer-compare), 2 wrong words, 3 refused with
the value and the reason, as steer itself ends for a plan, 4 a file that is not of the wanted kind.
"""

from __future__ import annotations

import argparse
import io
import os
import shutil
import signal
import subprocess
import sys
from typing import IO, Any, Callable, List, NoReturn, Optional, Sequence

from . import packed

DONE, DIFFERS, WRONG_WORDS, REFUSED, NOT_THAT_FILE = 0, 1, 2, 3, 4

APART = "This program is a companion of steer; it is not part of the proved program."

STATUSES = ("Statuses: 0 done, 1 differs (steer-diff, steer-compare), 2 wrong words, 3 refused "
            "with the value and the reason, 4 not that kind of file.")

# What a program is: its words to its status, where None is 0.
Main = Callable[[List[str]], Optional[int]]


class WrongWords(Exception):
    """Words on the command line that mean nothing: status 2. WrongWords(reason)."""


class Refused(Exception):
    """What was read cannot be used: status 3. Refused(source, reason, ..), with the values."""

    def __init__(self, source: str, reason: str, *reasons: str) -> None:
        super().__init__(source, reason, *reasons)
        self.source = source
        self.reason = reason
        self.reasons = (reason,) + reasons

    def __str__(self) -> str:
        return "%s: refused: %s" % (self.source, self.reason)


class NoSteer(Refused):
    """There is no program steer to run: status 3."""


class NotThatFile(Exception):
    """A file that cannot be read or is of another kind: status 4. NotThatFile(source, reason)."""

    def __init__(self, source: str, reason: str) -> None:
        super().__init__(source, reason)
        self.source = source
        self.reason = reason

    def __str__(self) -> str:
        return "%s: %s" % (self.source, self.reason)


def program_name() -> str:
    """The name that this program was called by, without its folder."""
    return os.path.basename(sys.argv[0]) or "steer"


def printable(text: str) -> str:
    """`text` with all that a terminal might act upon, or that UTF-8 lacks, written as \\x.. ."""
    if text.isprintable():
        return text
    kept = (c if c.isprintable() or c == "\n" else c.encode("unicode_escape").decode()
            for c in text)
    return "".join(kept)


def say(text: str) -> None:
    """One line on standard error; errors on a closed standard error are ignored."""
    try:
        sys.stderr.write(printable(text) + "\n")
        sys.stderr.flush()
    except (OSError, ValueError):
        pass


def note(text: str) -> None:
    """A guess, a warning or a measure that the user should know of, on standard error."""
    say("note: " + text)


class _Parser(argparse.ArgumentParser):
    def error(self, message):
        raise WrongWords(message + " (--help says more)")


def parser(description: str, example: str, **keywords: Any) -> argparse.ArgumentParser:
    """An argument parser: wrong words have status 2, --help ends with `example` and statuses.

    `description` is prose, `example` lines as typed; `keywords` go to argparse.ArgumentParser.
    """
    lines = "\n".join("  " + line for line in example.strip().splitlines())
    keywords.setdefault("formatter_class", argparse.RawDescriptionHelpFormatter)
    keywords.setdefault("allow_abbrev", False)
    return _Parser(
        prog=program_name(), description=description.strip() + "\n\n" + APART,
        epilog="example:\n" + lines + "\n\n" + STATUSES, **keywords)


def _silence_output():
    """Nothing more is written to a standard output that is closed, also not at exit."""
    try:
        quiet = os.open(os.devnull, os.O_WRONLY)
        os.dup2(quiet, 1)
        os.close(quiet)
    except OSError:
        pass


def guarded(main: Main) -> int:
    """The status of main(words); a fault is said in a line on standard error."""
    name = program_name()
    try:
        status = main(sys.argv[1:])
        sys.stdout.flush()
        return DONE if status is None else status
    except WrongWords as fault:
        say("%s: %s" % (name, fault))
        return WRONG_WORDS
    except Refused as fault:
        for reason in fault.reasons:
            say("%s: %s: refused: %s" % (name, fault.source, reason))
        return REFUSED
    except NotThatFile as fault:
        say("%s: %s" % (name, fault))
        return NOT_THAT_FILE
    except BrokenPipeError:
        _silence_output()
        return DONE
    except (MemoryError, RecursionError):
        say("%s: refused: the input needs more memory than there is" % name)
        return REFUSED
    except OSError as fault:
        _silence_output()
        say("%s: %s: %s" % (name, fault.filename or "input or output", fault.strerror or fault))
        return NOT_THAT_FILE


def run(main: Main) -> NoReturn:
    """Calls main(words), whose result (None is 0) becomes the status, and ends the program.

    Faults become one line on standard error and their status; a closed pipe is silent.
    """
    if sys.stdout is None:
        sys.stdout = open(os.devnull, "w")
    if hasattr(sys.stdout, "reconfigure"):
        sys.stdout.reconfigure(encoding="utf-8", errors="backslashreplace", newline="\n")
    try:
        status: Any = guarded(main)
    except KeyboardInterrupt:
        _silence_output()
        signal.signal(signal.SIGINT, signal.SIG_DFL)
        os.kill(os.getpid(), signal.SIGINT)
        status = 130
    except SystemExit as end:
        status = end.code
        try:
            sys.stdout.flush()
        except BrokenPipeError:
            _silence_output()
    sys.exit(status)


class _Guarded(io.RawIOBase):
    """The bytes of `stream` as they come, with faults of reading that name their source.

    A read waits only where nothing is there; closing it closes `plain` too.
    """

    def __init__(self, stream, source, plain, kind):
        super().__init__()
        self.stream = stream
        self.source = source
        self.plain = plain
        self.kind = kind

    def readable(self):
        return True

    def readinto(self, buffer):
        try:
            data = self.stream.read1(len(buffer))
        except Exception as fault:
            reason = packed.reason_of(fault, self.kind)
            if reason is None:
                raise
            raise NotThatFile(self.source, reason) from None
        buffer[:len(data)] = data
        return len(data)

    def close(self):
        if not self.closed:
            self.stream.close()
            self.plain.close()
        super().close()


def source_name(name: str) -> str:
    """How messages name the file of this word: `-` is standard input."""
    return "standard input" if name == "-" else name


def open_bytes(name: str, unpacked: bool = True) -> io.BufferedReader:
    """A buffered binary stream of the file `name`; `-` is standard input.

    Files that are packed as gz, xz or zst are opened through, but not with `unpacked` false. A
    line, or a `peek`, of a pipe is there as soon as its bytes are, before the pipe ends. Raises
    NotThatFile where the file cannot be opened, and the stream does where it cannot be read.
    """
    source = source_name(name)
    try:
        if name == "-":
            if sys.stdin is None:
                raise NotThatFile(source, "it is closed")
            plain: Any = sys.stdin.buffer
        else:
            plain = open(name, "rb")
        start = plain.peek(packed.LONGEST_MAGIC)[:packed.LONGEST_MAGIC]
    except (OSError, ValueError, AttributeError) as fault:
        raise NotThatFile(source, getattr(fault, "strerror", None) or str(fault)) from None
    kind = packed.kind_of(start) if unpacked else None
    try:
        stream = plain if kind is None else packed.opened(kind, plain)
    except packed.Unreadable as fault:
        raise NotThatFile(source, str(fault)) from None
    return io.BufferedReader(_Guarded(stream, source, plain, kind), 1 << 18)


def read_bytes(name: str) -> bytes:
    """All bytes of the file `name`, as open_bytes opens it."""
    with open_bytes(name) as stream:
        return stream.read()


def read_text(name: str) -> str:
    """The file `name` as text; NotThatFile with the number of the byte that is not UTF-8."""
    data = read_bytes(name)
    try:
        return data.decode("utf-8")
    except UnicodeDecodeError as fault:
        raise NotThatFile(source_name(name), "byte %d (0x%02x) is not UTF-8 text"
                          % (fault.start, data[fault.start])) from None


def find_steer() -> list[str]:
    """The command that runs steer, as a list: $STEER, else on the path, else ../steer.sh.

    $STEER is the name of a program, without words.
    """
    named = os.environ.get("STEER")
    if named:
        found = shutil.which(named)
        if found is None:
            raise NoSteer("$STEER", "%s is no program that can be run" % named)
        return [found]
    found = shutil.which("steer")
    if found is not None:
        return [found]
    here = os.path.dirname(os.path.abspath(__file__))
    beside = os.path.normpath(os.path.join(here, "..", "..", "steer.sh"))
    if os.access(beside, os.X_OK):
        return [beside]
    raise NoSteer("steer", "no such program: $STEER is not set, the path has none, and there is no "
                  "%s as in a checkout" % beside)


def run_steer(words: Sequence[str], out: IO[bytes] | None = None) -> bytes:
    """Runs steer with `words`; its output goes to the binary file `out`, else it is returned.

    Raises Refused(the words, steer's own message) where the status is not 0.
    """
    command = find_steer() + list(words)
    try:
        ended = subprocess.run(command, stdin=subprocess.DEVNULL, stderr=subprocess.PIPE,
                               stdout=subprocess.PIPE if out is None else out)
    except OSError as fault:
        raise Refused(command[0], fault.strerror or str(fault)) from None
    if ended.returncode != 0:
        message = ended.stderr.decode("utf-8", "replace").strip()
        raise Refused("steer " + " ".join(words),
                      message or "status %d without a word" % ended.returncode)
    return ended.stdout
