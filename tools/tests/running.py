"""What the tests of the companions share: running a program, samples, and steer as the judge."""

import concurrent.futures
import contextlib
import importlib
import io
import keyword
import os
import subprocess
import sys
from unittest import mock

TESTS = os.path.dirname(os.path.abspath(__file__))
TOOLS = os.path.dirname(TESTS)
TOP = os.path.dirname(TOOLS)
sys.path.insert(0, TOOLS)

from steerlib import cli  # noqa: E402

_RELEASED = os.path.join(TOP, "release", "steer")
# The program in release/ is asked where none is named, since steer.sh takes ten times as long.
STEER = os.environ.get("STEER") or (
    _RELEASED if os.access(_RELEASED, os.X_OK) else os.path.join(TOP, "steer.sh"))
ENVIRONMENT = dict(os.environ, STEER=STEER)


def sample(*parts):
    """The path of a sample."""
    return os.path.join(TESTS, "samples", *parts)


def sample_text(*parts):
    with open(sample(*parts), encoding="utf-8") as stream:
        return stream.read()


def example(name):
    return os.path.join(TOP, "examples", name)


def run(program, *words, data=None, environment=None):
    """Status, standard output and standard error of a program of tools/ with these words.

    `data` is its standard input, as text or bytes.
    """
    if isinstance(data, str):
        data = data.encode("utf-8")
    ended = subprocess.run([os.path.join(TOOLS, program)] + list(words), input=data or b"",
                           stdout=subprocess.PIPE, stderr=subprocess.PIPE,
                           env=environment or ENVIRONMENT)
    return (ended.returncode, ended.stdout.decode("utf-8", "replace"),
            ended.stderr.decode("utf-8"))


def run_all(calls):
    """The results of run for a list of words, each with its program first, several at once."""
    with concurrent.futures.ThreadPoolExecutor(os.cpu_count()) as pool:
        return list(pool.map(lambda words: run(*words), calls))


def module_of(program):
    """The module of a program in Python, which a dash and a keyword in its name alter."""
    name = program[len("steer-"):].replace("-", "_")
    return importlib.import_module("steerlib.programs." + name + "_" * keyword.iskeyword(name))


def inside(program, *words):
    """As run, of a program in Python and within this process, which takes less time.

    An exception that the program does not turn into a status comes out here.
    """
    path = os.path.join(TOOLS, program)
    out, err = io.TextIOWrapper(io.BytesIO(), "utf-8", "backslashreplace"), io.StringIO()
    with mock.patch.object(sys, "argv", [path] + list(words)), \
            mock.patch.dict(os.environ, STEER=STEER), \
            contextlib.redirect_stdout(out), contextlib.redirect_stderr(err):
        try:
            status = cli.guarded(module_of(program).main)
        except SystemExit as end:
            status = end.code
        out.flush()
    return status, out.buffer.getvalue().decode("utf-8", "replace"), err.getvalue()


def steer(*words):
    """Status, standard output and standard error of steer, as text."""
    ended = subprocess.run([STEER] + list(words), stdin=subprocess.DEVNULL,
                           stdout=subprocess.PIPE, stderr=subprocess.PIPE)
    return ended.returncode, ended.stdout.decode("utf-8"), ended.stderr.decode("utf-8")


def verdict(folder, name, data):
    """Status and message of `steer replay` for a plan of these bytes, over three packets."""
    path = os.path.join(folder, name)
    with open(path, "wb") as stream:
        stream.write(data)
    status, _, message = steer("replay", path, example("three.pcap"))
    os.remove(path)
    return status, message.strip()
