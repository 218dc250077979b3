#!/usr/bin/env python3
"""Turns recorded references of real programs into a trace.

    record.py [options] --run PROGRAM [WORD ...]
    record.py [options] --lackey FILE --lackey FILE ...

Each --lackey, --din or --list is a recording, in the order given; --run comes last and takes all
further words. A file whose name ends with .gz is unpacked, and - is standard input. The trace goes to
standard output, or to --output. The status is 0, or 2 if there is no trace.
"""

import argparse
import contextlib
import os
import shlex
import sys

sys.dont_write_bytecode = True

from children import child_traces
from files import check_names, open_recording, spoken
from keeping import common_of, range_of
from options import add_choices, add_machine, add_output, one_trace, part_of, read_options, run
from programs import start_lackey
from recording import Recorded
from sources import Din, Lackey, Listed
from trace_limits import RecordError


def mapped(word):
    try:
        return range_of(word)
    except (ValueError, RecordError) as fault:
        raise argparse.ArgumentTypeError(str(fault)) from None


def common(word):
    try:
        return common_of(word)
    except (ValueError, RecordError) as fault:
        raise argparse.ArgumentTypeError(str(fault)) from None


class Recordings(argparse.Action):
    """Keeps the recordings of all kinds in the order given."""

    def __call__(self, parser, space, value, option=None):
        space.recordings.append((option.lstrip("-"), value))


def add_recordings(words):
    group = words.add_argument_group("recordings")
    group.add_argument("--lackey", metavar="FILE", action=Recordings,
                       help="output of valgrind --tool=lackey --trace-mem=yes")
    group.add_argument("--din", metavar="FILE", action=Recordings,
                       help="DineroIV's din format: label and address")
    group.add_argument("--list", metavar="FILE", action=Recordings,
                       help="lines `process op address [value]`")
    group.add_argument("--run", nargs=argparse.REMAINDER, metavar="WORD",
                       help="runs a program under valgrind; takes all further words")
    group.add_argument("--whole", action="store_true",
                       help="lets a program run to its end, so that all of its references are counted")
    group.add_argument("--children", action="store_true", help="records the processes that the program starts too, "
                       "each to a trace of its own in the folder --output; all run to their end")


def add_addresses(words):
    group = words.add_argument_group("addresses")
    group.add_argument("--keep-addresses", action="store_true", help="leaves the VAX addresses of a "
                       "list as they are; its lines may be services too")
    group.add_argument("--map", type=mapped, action="append", default=[], metavar="X:ADDRESS:PAGES",
                       help="maps this range of process X, in place of the pages that its list uses")
    group.add_argument("--common", type=common, action="append", default=[],
                       metavar="NAME:LETTERS:ADDRESS:PAGES",
                       help="these processes share this range: it is a section in the page file")


def read_words():
    words = argparse.ArgumentParser(description=__doc__, allow_abbrev=False,
                                    formatter_class=argparse.RawDescriptionHelpFormatter)
    add_recordings(words)
    add_choices(words)
    add_addresses(words)
    add_machine(words)
    add_output(words)
    words.set_defaults(recordings=[])
    options = read_options(words, "record.py")
    check_names([name for _, name in options.recordings], options.output)
    if options.run is not None and not options.run:
        raise RecordError("--run has no program")
    if not options.recordings and not options.run:
        raise RecordError("no recording is given; --help tells how")
    if options.keep_addresses and (options.run or options.text or options.stack or any(
            kind != "list" for kind, _ in options.recordings)):
        raise RecordError("--keep-addresses is for lists, without --stack and --text")
    for name, given in [("--map", options.map), ("--common", options.common)]:
        if given and not options.keep_addresses:
            raise RecordError(f"{name} needs --keep-addresses")
    if options.children and (not options.run or options.recordings or not options.output):
        raise RecordError("--children needs --run, no other recording, and --output with the name of a folder")
    return options


@contextlib.contextmanager
def open_recordings(options):
    """All recordings. Those of a list keep the list's own process names."""
    part = part_of(options)
    with contextlib.ExitStack() as ends:
        opened = []
        for place, (kind, name) in enumerate(options.recordings, 1):
            owner = f"{os.path.basename(spoken(name))} (recording {place})"
            form = {"lackey": lambda: Lackey(owner), "din": lambda: Din(owner, options.size),
                    "list": lambda: Listed(options.size, options.keep_addresses)}[kind]()
            file = ends.enter_context(open_recording(name))
            opened.append(Recorded(spoken(name), form, file, part))
        if options.run:
            child, file = start_lackey(options.run)
            ends.callback(child.wait)
            ends.callback(child.terminate)
            ends.enter_context(file)
            words = shlex.join(options.run)
            opened.append(Recorded(words, Lackey(words), file, part, lambda: not options.whole, child.pid))
        yield opened


def work():
    options = read_words()
    if options.children:
        return child_traces(options)
    with open_recordings(options) as recordings:
        return one_trace(options, recordings)


if __name__ == "__main__":
    sys.exit(run("record", work))
