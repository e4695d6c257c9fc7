"""A plan and a capture made ready for replays: by the manual's rule, or rewritten by a kernel's."""

from __future__ import annotations

import dataclasses
import os
from typing import NamedTuple

from . import offline as offlines
from . import remap, remap_files
from .plan import Plan


class Ready(NamedTuple):
    """The plan, the file of the capture that goes with it, and what is to be noted."""

    plan: Plan
    capture: str
    notes: list[str]


def made(settings: Plan, source: str, capture: str, shown: str, options: remap.Options | None,
         offline: offlines.Offline | None, folder: str) -> Ready:
    """The plan and the capture ready for schedules; messages name them `source` and `shown`.

    With `options` they are rewritten by a kernel's rule. What is on processors that go offline is
    moved. `folder` is one that may be written into.
    """
    if offline is not None:
        if options is not None and not offline.time:
            target = offlines.heir(settings, offline)
            options = dataclasses.replace(options, readers=[
                offlines.Moved(reader, offline.cpus, target) for reader in options.readers])
        settings = offlines.moved(settings, offline)
    if options is None:
        return Ready(settings, capture, [])
    name = os.path.join(folder, "kernel.pcap")
    result = remap_files.remapped(settings, source, capture, shown, options, name, folder)
    return Ready(result.plan, name, result.notes)
