"""The words of a command line that say what is asked of a remap."""

from __future__ import annotations

import argparse
from typing import Sequence

from . import cli, limits, numbers, processors, readers, remap, snapshot, steering
from .plan import Plan


# The names under which the words are kept, by which a program knows whether any is there.
NAMES = ("reader", "tx", "draw", "hash32", "rxhash", "online", "snap", "sockets")


def add_options(parser: argparse._ActionsContainer) -> None:
    """Adds the words that say what is asked of a remap; options_of reads them."""
    parser.add_argument("--reader", metavar="WHAT=CPU", action="append", default=[],
                        type=readers.told,
                        help="flows to the port WHAT, or from or to the address or network WHAT, "
                             "are read on processor CPU of the plan; may be repeated, and the "
                             "first that fits a flow counts")
    parser.add_argument("--tx", action="store_true",
                        help="transmit queues too, by a hash that is drawn for each socket")
    parser.add_argument("--draw", metavar="N", default=1,
                        type=numbers.whole_number(0, limits.MOST_NUMBER),
                        help="the seed by which hashes are drawn that a kernel makes itself "
                             "(%(default)s)")
    parser.add_argument("--hash32", action="store_true",
                        help="flow tables and buckets by hash_32, as kernels from 6.18 on have")
    parser.add_argument("--no-rxhash", dest="rxhash", action="store_false",
                        help="the card does not hand its hashes to the kernel")
    parser.add_argument("--online", metavar="LIST",
                        help="the processors that were online when masks were written (all)")
    parser.add_argument("--snap", metavar="SNAP",
                        help="the snapshot of the plan: its table of any size, where the plan's "
                             "was not changed, its rules and RSS contexts, and whether the card "
                             "hands on its hashes")
    parser.add_argument("--sockets", action="store_true",
                        help="readers by the sockets of SNAP (steer-snap --readers), after those "
                             "of --reader")


def _members(text, cpus):
    """The set of --online."""
    try:
        members = set(processors.parse_list(text))
    except ValueError as fault:
        raise cli.WrongWords("--online: %s" % fault) from None
    if members and max(members) >= cpus:
        raise cli.WrongWords("--online %s: the plan has the processors 0 to %d" % (text, cpus - 1))
    return members


def again(told: argparse.Namespace) -> list[str]:
    """The words from which these were read."""
    words = [word for reader in told.reader for word in ("--reader", reader.text)]
    words += ["--tx"] * told.tx + ["--hash32"] * told.hash32 + ["--sockets"] * told.sockets
    words += ["--no-rxhash"] * (not told.rxhash)
    words += ["--draw", "%d" % told.draw] * (told.draw != 1)
    for name in ("online", "snap"):
        if getattr(told, name) is not None:
            words += ["--" + name, getattr(told, name)]
    return words


def check_kernel(told: argparse.Namespace, parser: argparse.ArgumentParser) -> None:
    """Raises WrongWords where a word of a remap is there without --kernel."""
    if not told.kernel:
        for name in NAMES:
            if hasattr(told, name) and getattr(told, name) != parser.get_default(name):
                word = "--no-rxhash" if name == "rxhash" else "--" + name
                raise cli.WrongWords("%s goes with --kernel" % word)


def options_of(told: argparse.Namespace, settings: Plan,
               first: Sequence[readers.Told] = ()) -> remap.Options:
    """The Options of these words for a plan. WrongWords where they do not go with it.

    The readers `first` come before those of --reader.
    """
    cpus, said = settings["cpus"], [*first, *told.reader]
    options = remap.Options(seed=told.draw, hash32=told.hash32, transmit=told.tx,
                            rxhash=told.rxhash, readers=list(said))
    for reader in said:
        if reader.cpu >= cpus:
            raise cli.WrongWords("--reader: processor %d, and the plan has 0 to %d"
                                 % (reader.cpu, cpus - 1))
    if told.online is not None:
        options.online = _members(told.online, cpus)
    if told.sockets and told.snap is None:
        raise cli.WrongWords("--sockets needs --snap SNAP")
    if told.snap is not None:
        _add_snapshot(snapshot.read_snapshot(told.snap), told.sockets, settings, options)
    return options


def _add_snapshot(snap, sockets, settings, options):
    """Adds what a snapshot says to the options."""
    options.card = steering.card_of(snap, settings)
    if any(line.startswith("receive-hashing: off") for line in snap.ethtool("-k {}")):
        options.rxhash = False
        cli.note("receive-hashing is off: the kernel makes all hashes itself")
    if sockets:
        found = readers.of_snapshot(snap)
        if max(snap.cpus("online")) >= limits.MOST_PROCESSORS:
            raise snap.refused("processors above 31 may have other numbers in the plan, so its "
                               "sockets are not taken; say --reader with the plan's numbers")
        beyond = sorted(cpu for cpu in found.known.values() if cpu >= settings["cpus"])
        if beyond:
            raise snap.refused("a socket's process runs on processor %d, and the plan has 0 to %d"
                               % (beyond[0], settings["cpus"] - 1))
        options.readers.append(found)
