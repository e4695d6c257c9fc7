"""Trials over a Dask cluster: a scheduler and workers that others started.

Dask moves the work. A worker needs these companions and steer, and no file of the caller: the
capture travels with what all trials share. That is the result of a task, which the scheduler has
made again where the worker that had it ended; data that is scattered would be lost with it. Named
tuples travel in lists, since Dask takes them apart else.
"""

from __future__ import annotations

import importlib
import logging
import os
import tempfile
from typing import Any, Callable, Sequence

from . import cli, trial
from .outcomes import Outcome

ENOUGH = 10     # seconds in which a scheduler answers
RETRIES = 2     # of a trial, after other ends than that of its worker


def _refused(address, reason):
    return cli.Refused("--dask %s" % address, reason)


def _library(address):
    """The package distributed; Refused where this Python has none."""
    try:
        return importlib.import_module("distributed")
    except ImportError as fault:
        raise _refused(address, "it needs the Python package distributed, in Debian "
                       "python3-distributed (%s)" % fault) from None


def _client(library, address):
    """A client of the scheduler; Refused where none answers."""
    for name in ("distributed", "distributed.client"):
        logging.getLogger(name).setLevel(logging.CRITICAL)
    try:
        client = library.Client("tcp://" + address, timeout=ENOUGH)
    except (OSError, ValueError) as fault:
        raise _refused(address, "no scheduler of Dask answers there (%s)" % fault) from None
    if not client.scheduler_info()["workers"]:
        cli.note("--dask %s: the scheduler has no worker yet; the trials wait for one" % address)
    return client


def shared_of(parts: list[Any]) -> list[Any]:
    """The task that has what all trials share: a Setting and the bytes of the capture."""
    return parts


def attempt(packed: list[trial.Trial], shared: list[Any]) -> Outcome | str:
    """What trial.attempt gives of the one trial in `packed`, on a worker."""
    setting, capture = shared
    with tempfile.TemporaryDirectory(prefix="steer-trial-") as work:
        name = os.path.join(work, "capture")
        with open(name, "wb") as out:
            out.write(capture)
        return trial.attempt(packed[0], setting._replace(capture=name, work=work))


def _result(future, address):
    """What a future gives; Refused where a worker could not do its work."""
    fault = future.exception()
    if fault is not None:
        raise _refused(address, "a trial ended with %s: %s; each worker needs these companions "
                       "and steer, as docs/site.md says" % (type(fault).__name__, fault))
    return future.result()


def at_once(address: str, trials: Sequence[trial.Trial], setting: trial.Setting,
            tell: Callable[[int], None]) -> list[Outcome | str]:
    """The results of trials in their order, made by the workers of the scheduler at HOST:PORT.

    Lines of results are kept here, as each result comes; `tell` gets the number of those that did.
    """
    library = _library(address)
    capture = cli.open_bytes(setting.capture, unpacked=False).read()
    away = setting._replace(results=None, folder=None)
    results: list[Outcome | str] = [""] * len(trials)
    with _client(library, address) as client:
        shared = client.submit(shared_of, [away, capture], pure=False)
        futures = {client.submit(attempt, [one], shared, pure=False, retries=RETRIES): number
                   for number, one in enumerate(trials)}
        for done, future in enumerate(library.as_completed(list(futures)), 1):
            number = futures.pop(future)
            results[number] = _result(future, address)
            trial.keep_line(trials[number], setting, results[number])
            future.release()
            tell(done)
    return results
