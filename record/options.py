"""The options that the recorder and the converter share, and how both end."""

import argparse
import re
import shlex
import signal
import sys

from files import Output
from keeping import SECTION_NAME
from placing import gather, lay_out
from recording import Part
from trace_limits import LETTERS, MOST_REQUESTS, RecordError
from trace_text import check_machine, trace_lines

NUMBER = re.compile(r"[0-9]{1,9}")
SYMBOL = re.compile(r"[A-Za-z_.$?][\w.$@?]{0,254}", re.ASCII)
FAULTY = 2


def number(word):
    if not NUMBER.fullmatch(word):
        raise argparse.ArgumentTypeError(f"\"{word}\" is no decimal number")
    return int(word)


def at_least_one(word):
    if number(word) < 1:
        raise argparse.ArgumentTypeError("the number has to be at least 1")
    return number(word)


def start(word):
    if word == "start":
        return word
    if re.fullmatch(r"0[xX][0-9A-Fa-f]{1,16}", word):
        return "fetch", int(word, 16)
    if NUMBER.fullmatch(word) and int(word):
        return "number", int(word)
    if SYMBOL.fullmatch(word):
        return "symbol", word
    raise argparse.ArgumentTypeError(f"\"{word}\" is none of start, a symbol as main, an address as 0x4010 and "
                                     "the number of a reference from 1 on")


def last(word):
    if at_least_one(word) > MOST_REQUESTS:
        raise argparse.ArgumentTypeError(f"a trace has at most {MOST_REQUESTS} requests")
    return number(word)


def numbers(word):
    return [number(one) for one in word.split(",")]


def widths(word):
    chosen = frozenset(numbers(word))
    if not chosen <= {1, 2, 4} or 1 not in chosen:
        raise argparse.ArgumentTypeError("widths are of 1, 2 and 4, and 1 has to be among them")
    return chosen


def text_section(word):
    name, _, letters = word.partition(":")
    if not SECTION_NAME.fullmatch(name) or not letters:
        raise argparse.ArgumentTypeError(f"\"{word}\" isn't NAME:LETTERS, such as TEXT:AB; a name "
                                         "has 2 to 15 of A to Z, 0 to 9 and _, a letter first")
    if not all(letter in LETTERS for letter in letters):
        raise argparse.ArgumentTypeError(f"\"{letters}\": processes are {LETTERS[0]} to {LETTERS[-1]}")
    return name, letters


def parameter(word):
    name, _, value = word.partition("=")
    return name, number(value)


def add_choices(words):
    group = words.add_argument_group("what is taken")
    group.add_argument("--from", dest="start", type=start, metavar="PLACE",
                       help="where it begins: start, a symbol of the program, 0xADDRESS of an instruction, or the "
                       "number of a reference; main, or the entry point of a program without it, where "
                       "the recording tells it")
    group.add_argument("--skip", type=number, default=0, metavar="N",
                       help="leaves out the first N references from there on, of each recording")
    group.add_argument("--count", type=at_least_one, metavar="N",
                       help="takes N references of each recording (as many as a trace may have)")
    group.add_argument("--last", type=last, metavar="N", help="takes the last N references")
    group.add_argument("--sample", type=at_least_one, default=1, metavar="N",
                       help="takes every Nth window of references")
    group.add_argument("--window", type=at_least_one, default=1000, metavar="N",
                       help="references of a window (1000)")
    group.add_argument("--fetches", action="store_true", help="takes instruction fetches, as reads")
    group.add_argument("--quantum", type=at_least_one, default=100, metavar="N",
                       help="references of one recording before the next one's turn (100)")
    group.add_argument("--widths", type=widths, default=frozenset({1, 2, 4}), metavar="N,N",
                       help="widths of the requests (1,2,4)")
    group.add_argument("--size", type=at_least_one, default=4, metavar="N",
                       help="bytes of a reference whose recording has no size (4)")
    group.add_argument("--zero", action="store_true",
                       help="writes zeros; else the number of the request, where no value is known")


def add_machine(words):
    group = words.add_argument_group("machine")
    group.add_argument("--frames", type=number, default=256, metavar="N", help="page frames (256)")
    group.add_argument("--pagefile", type=at_least_one, metavar="N",
                       help="blocks of the page file (as many as private pages)")
    for name, default, text in [("limit", [32], "working set limit (32)"),
                                ("quota", None, "quota (the limit)"),
                                ("extent", None, "extent (the quota)"),
                                ("locks", [0], "pages that may be locked (0)")]:
        group.add_argument(f"--{name}", type=numbers, default=default, metavar="N,N",
                           help=f"{text}; one number for all processes or one for each")
    group.add_argument("--param", type=parameter, action="append", default=[], metavar="NAME=N",
                       help="a parameter of the trace")
    group.add_argument("--stack", type=at_least_one, metavar="KILOBYTES",
                       help="pages so far below the highest address go to P1")
    group.add_argument("--text", type=text_section, action="append", default=[],
                       metavar="NAME:LETTERS", help="these processes run one program: the pages "
                       "that they fetch from and don't write are a shared section (needs --fetches)")


def add_output(words):
    words.add_argument("--no-comments", dest="comments", action="store_false",
                       help="leaves out the options and the mapping")
    words.add_argument("--output", metavar="FILE", help="where the trace goes")


def read_options(words, script):
    """The options that both have, checked."""
    words.set_defaults(keep_addresses=False, common=[], script=script)
    options = words.parse_args()
    options.words = shlex.join(sys.argv[1:])
    if options.last and (options.count or options.sample > 1):
        raise RecordError("--last can't go with --count or --sample")
    if options.text and not options.fetches:
        raise RecordError("--text needs --fetches")
    options.parameters = dict(options.param)
    if len(options.parameters) != len(options.param):
        raise RecordError("a parameter is given twice")
    names = [name for name, _ in options.text] + [one.name for one in options.common]
    if len(set(names)) != len(names):
        raise RecordError("a section is given twice")
    check_machine(options)
    return options


def part_of(options):
    return Part(options.start, options.skip, options.count, options.last, options.sample,
                options.window, options.fetches)


def write_trace(options, recordings, output):
    """Reads the recordings, writes their trace, and gives what the user should know of it."""
    found = gather(recordings, options)
    head, requests = trace_lines(options, found, lay_out(found, options))
    output.write(head)
    output.write(requests)
    output.write(["END"])
    return [*([] if found.is_whole() else [found.share()]), *found.parts, *found.notes]


def one_trace(options, recordings):
    with Output(options.output) as output:
        told = write_trace(options, recordings, output)
    return told


def run(name, work):
    """Does the work, and says what it tells or why it failed; the exit status."""
    def broken_off(_, __):
        raise KeyboardInterrupt

    signal.signal(signal.SIGTERM, broken_off)
    try:
        told, status = work(), 0
    except RecordError as fault:
        told, status = [fault], FAULTY
    except OSError as fault:
        told, status = [f"{fault.filename or 'a file'}: {fault.strerror}"], FAULTY
    except MemoryError:
        told, status = ["out of memory"], FAULTY
    except KeyboardInterrupt:
        told, status = ["broken off"], FAULTY
    for line in told if sys.stderr else ():
        print(f"{name}: {line}", file=sys.stderr)
    return status
