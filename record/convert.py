#!/usr/bin/env python3
"""Turns recordings of other tools into a trace.

    convert.py FORMAT [options] FILE ...

Each file is a recording, and a process of its own unless the format tells processes. A file whose name ends
with .gz is unpacked, and - is standard input. The trace goes to standard output, or to --output. The status
is 0, or 2 if there is no trace.

The formats:
    lackey          valgrind --tool=lackey --trace-mem=yes
    din             DineroIV: label and address
    din-extended    DineroIV: r, w or i, address and size
    pinatrace       Pin's example of this name: 0x401126: R 0x7ffe1230
    execlog         QEMU's plugin of this name, of one program
    perf            perf script -F pid,event,addr,ip
    oracle-general  libCacheSim's binary records of 24 bytes
    csv             a table whose first line names the columns: address, and process, op, size and value
"""

import argparse
import contextlib
import os
import sys

sys.dont_write_bytecode = True

from files import check_names, open_recording, spoken
from options import add_choices, add_machine, add_output, one_trace, part_of, read_options, run
from other_tools import EVENT_OPS, TABLE_OPS, Execlog, ExtendedDin, OracleGeneral, Perf, Pinatrace, Table
from recording import Recorded
from sources import Din, Lackey
from trace_limits import RecordError

FORMS = {"lackey": lambda owner, options: Lackey(owner), "din": lambda owner, options: Din(owner, options.size),
         "din-extended": ExtendedDin, "pinatrace": Pinatrace, "execlog": Execlog, "perf": Perf,
         "oracle-general": OracleGeneral, "csv": Table}
# the formats that an option is for
ONLY_FOR = {"sizes": ["din-extended"], "event": ["perf"], "column": ["csv"], "op": ["csv"], "base": ["csv"],
            "delimiter": ["csv"], "fetches": ["lackey", "din", "din-extended", "execlog", "csv"]}


def event(word):
    name, _, op = word.rpartition("=")
    if not name or op not in EVENT_OPS:
        raise argparse.ArgumentTypeError(f"\"{word}\" isn't EVENT=OP, such as page-faults=R; an op is "
                                         f"{', '.join(EVENT_OPS)}")
    return name, op


def column(word):
    name, _, called = word.partition("=")
    if name not in Table.NAMES or not called:
        raise argparse.ArgumentTypeError(f"\"{word}\" isn't NAME=COLUMN, such as address=addr; a name is "
                                         f"{', '.join(Table.NAMES)}")
    return name, called


def delimiter(word):
    word = {"tab": "\t"}.get(word, word)
    if len(word) != 1 or word in "\"\r\n0123456789" or not word.isascii():
        raise argparse.ArgumentTypeError(f"\"{word}\" isn't one character between words, or tab")
    return word


def read_words():
    words = argparse.ArgumentParser(description=__doc__, allow_abbrev=False,
                                    formatter_class=argparse.RawDescriptionHelpFormatter)
    words.add_argument("format", choices=FORMS, metavar="FORMAT", help="what the recordings are: one of those above")
    words.add_argument("files", nargs="+", metavar="FILE", help="the recordings, in this order")
    group = words.add_argument_group("what a format leaves open")
    group.add_argument("--sizes", choices=("decimal", "hexadecimal"),
                       help="how din-extended has sizes of several digits")
    group.add_argument("--event", type=event, action="append", default=[], metavar="EVENT=OP",
                       help="what this event of perf is: R, W, M or skip")
    group.add_argument("--column", type=column, action="append", default=[], metavar="NAME=COLUMN",
                       help="how a column of csv is called that isn't called by its name")
    group.add_argument("--op", choices=TABLE_OPS, help="what all references of a csv without the column op are")
    group.add_argument("--base", type=int, choices=(10, 16), help="how csv has numbers without 0x")
    group.add_argument("--delimiter", type=delimiter, metavar="CHARACTER",
                       help="what stands between the words of csv: a character, or tab (,)")
    add_choices(words)
    add_machine(words)
    add_output(words)
    options = read_options(words, "convert.py")
    check_names(options.files, options.output)
    for name, formats in ONLY_FOR.items():
        if getattr(options, name) and options.format not in formats:
            raise RecordError(f"--{name} is for {', '.join(formats)}")
    options.delimiter = options.delimiter or ","
    return options


def work():
    options = read_words()
    with contextlib.ExitStack() as ends:
        opened = []
        for place, name in enumerate(options.files, 1):
            form = FORMS[options.format](f"{os.path.basename(spoken(name))} (recording {place})", options)
            opened.append(Recorded(spoken(name), form, ends.enter_context(open_recording(name)), part_of(options)))
        return one_trace(options, opened)


if __name__ == "__main__":
    sys.exit(run("convert", work))
