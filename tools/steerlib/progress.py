"""Progress on standard error, of work that takes more than two seconds."""

from __future__ import annotations

import sys
import time

from . import cli

PATIENCE = 2.0
EARLIEST = 1.0          # seconds that the work takes, and
LEAST_SHARE = 0.02      # what of it is done, before a time to go is said
TO_LINE_START = "\r\x1b[K"      # and what is on the line is erased


class Progress:
    """Counts work; says each two seconds how much is done, and how long it takes.

    What is left of a `total` is taken to be as fast as what is done; with None nothing is said of
    it, nor while little is done. Where so many are worked on `at_once`, the others are taken to be
    half done when one is done. A terminal has it all on one line, which `end` erases; elsewhere
    each is a line, or nothing is said with `only_terminal`.
    """

    def __init__(self, what: str, total: int | None, only_terminal: bool = False,
                 at_once: int = 1) -> None:
        self.what = what
        self.total = total
        self.at_once = at_once
        self.begun = self.told = time.monotonic()
        self.terminal = sys.stderr is not None and sys.stderr.isatty()
        self.silent = only_terminal and not self.terminal
        self.shown = False

    def at(self, done: int) -> None:
        """Says how much is done, where two seconds went by since the last time."""
        now = time.monotonic()
        if self.silent or now - self.told < PATIENCE:
            return
        self.told = now
        text = "%s: %d" % (self.what, done)
        if self.total is not None:
            rest = self._rest(self.total, done, now - self.begun)
            text += " of %d%s" % (self.total,
                                  ", about %s more" % time_text(rest) if rest >= 1 else "")
        if self.terminal:
            self._write(TO_LINE_START + text)
            self.shown = True
        else:
            cli.say(text)

    def _rest(self, total, done, spent):
        """The seconds to go, or 0 where too little is done to say."""
        if not done or spent < EARLIEST or done < LEAST_SHARE * total:
            return 0
        done += min(self.at_once - 1, total - done) / 2
        return spent * (total - done) / done

    def end(self) -> None:
        """Erases the line of a terminal."""
        if self.shown:
            self._write(TO_LINE_START)
            self.shown = False

    def _write(self, text):
        try:
            sys.stderr.write(text)
            sys.stderr.flush()
        except (OSError, ValueError):
            pass


def time_text(seconds: float) -> str:
    """A time to go: `40 s`, `12 min`, `3 h 20 min`."""
    if seconds < 120:
        return "%.0f s" % seconds
    minutes = round(seconds / 60)
    return "%d min" % minutes if minutes < 120 else "%d h %d min" % divmod(minutes, 60)
