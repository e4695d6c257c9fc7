"""A remap of a capture in a file, written as a file, and held to the kernel's rule."""

from __future__ import annotations

import os
from typing import Sequence

from . import capture as captures
from . import cli, limits, remap, remap_check
from .plan import Plan


def check_name(name: str, read: Sequence[str]) -> None:
    """Raises WrongWords where a file of this name cannot be written, being one that is read."""
    if name == "-":
        raise cli.WrongWords("--capture: the capture goes into a file")
    for other in read:
        if os.path.exists(name) and os.path.exists(other) and os.path.samefile(name, other):
            raise cli.WrongWords("%s is read, and cannot be written" % name)


def frames_of(name: str, source: str) -> list[captures.Frame]:
    """The frames that steer reads in the capture `name`, as it numbers them.

    Messages name it `source`.
    """
    frames: list[captures.Frame] = []
    passed_over = 0
    with cli.open_bytes(name) as stream:
        capture = captures.Capture(stream, source)
        for frame in capture.frames():
            if frame.kind == captures.OBSOLETE:
                passed_over += 1
                continue
            if frame.link != captures.ETHERNET:
                raise cli.Refused(source, "packet %d has link type %d, and steer reads 1 "
                                  "(Ethernet); steer-cap turns others into it"
                                  % (len(frames), frame.link))
            if len(frames) == limits.MOST_PACKETS:
                raise cli.Refused(source, "more than %d packets; steer-cap takes a part"
                                  % limits.MOST_PACKETS)
            frames.append(frame)
    if passed_over:
        cli.note("%d obsolete packet blocks are left out, since steer passes them over"
                 % passed_over)
    if capture.cut:
        cli.note("the last record is cut and left out: %d bytes of it are there" % capture.cut)
    return frames


def remapped(settings: Plan, source: str, capture: str, shown: str,
             options: remap.Options, name: str, folder: str) -> remap.Remapped:
    """The remap of a plan, which messages name `source`, and of a capture, named `shown`.

    The new capture is written to the file `name`, and held to the kernel's rule. `folder` is one
    that may be written into.
    """
    try:
        result = remap.remap(settings, frames_of(capture, shown), options)
    except cli.Refused as fault:
        if fault.source in ("plan", "readers", "steps", "flows"):
            raise cli.Refused(source, *fault.reasons) from None
        raise
    remap_check.write_frames(result.frames, name, shown)
    remap_check.check_files(result, name, folder, source)
    return result
