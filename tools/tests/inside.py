"""Runs programs of tools/ within the process of a test, which saves the start of one."""

import io
import os
import sys
from unittest import mock

import running

from steerlib import cli


def inside(name, *words, data=b""):
    """The status, the output as bytes and the messages as text; `data` is standard input."""
    output, said = io.BytesIO(), io.StringIO()
    stdin = mock.Mock(buffer=io.BufferedReader(io.BytesIO(data)))
    stdout = io.TextIOWrapper(output, encoding="utf-8")
    path = os.path.join(running.TOOLS, name)
    with mock.patch.multiple(sys, argv=[path] + list(words), stdin=stdin, stdout=stdout,
                             stderr=said):
        try:
            cli.run(running.module_of(name).main)
        except SystemExit as end:
            status = end.code
    stdout.flush()
    return status, output.getvalue(), said.getvalue()
