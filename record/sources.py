"""Reads the lines of recordings: valgrind's lackey, DineroIV's din format, and a plain list.

Each form of recording is a class. Its `parse` gives the references of a line, each as (owner, op, address,
size, value): the owner is the process's name in the recording, the op is R, W, M (read, then write), A
(add) or I (instruction fetch), and the value is None where the recording has none. A line that is no
reference gives none. `data`, `fetches` and `others` are how the lines begin of which each is one data
reference, one fetch, or none, so that lines that aren't taken need not be read; `unended` says whether
the last line may lack its end, as a text that is written by hand may.
"""

import re

from trace_limits import CODES, GREATEST_EXTENT, PAGE_BYTES, RANGE_PAGES, SERVICES, RecordError, check_address

LACKEY = re.compile(r"(I | S| L| M) {1,2}([0-9A-Fa-f]{1,16}),([0-9]{1,9})")
LACKEY_OPS = {"I ": "I", " L": "R", " S": "W", " M": "M"}
DIN_OPS = {"0": "R", "1": "W", "2": "I"}
LIST_OP = re.compile(r"([RWMAI])([0-9]{0,3})")
DECIMAL = re.compile(r"[0-9]{1,9}")
GREATEST_SIZE = 4096
SHOWN_BYTES = 60


def shown(text):
    """The beginning of a text of the recording, as it may stand in a message."""
    return "".join(c if " " <= c <= "~" else "?" for c in text.strip()[:SHOWN_BYTES])


def hexadecimal(word, place):
    digits = word[2:] if word[:2] in ("0x", "0X") else word
    if not re.fullmatch(r"[0-9A-Fa-f]{1,16}", digits):
        raise RecordError(f"{place}: \"{shown(word)}\" is no hexadecimal number of up to 16 digits")
    return int(digits, 16)


def check_size(size, place):
    if not 1 <= size <= GREATEST_SIZE:
        raise RecordError(f"{place}: a reference of {size} bytes; 1 to {GREATEST_SIZE} are read")
    return size


def no_sizes(form, size):
    """What the trace says of a form without sizes."""
    return f"{form} has no sizes, so each reference is taken as {size} byte{'s' * (size > 1)} (--size)"


class Form:
    """What the forms of recordings have in common."""

    data = fetches = others = ()
    unended = False
    record_bytes = None     # of a binary form
    tells_loading = False   # whether its head may say where the program was loaded
    fetch_at = None         # gives the beginning of the line of a fetch at an address
    note = ""               # what the user should know of the form's limits

    def end(self, name):
        """Looks at what is missing once all is read."""


class Lackey(Form):
    """The lines of `valgrind --tool=lackey --trace-mem=yes`. Valgrind's own messages are skipped; one
    that begins with `--` may go on in further lines, which begin with an address or blanks."""

    data = (b" L ", b" S ", b" M ")
    fetches = (b"I  ",)
    others = (b"==", b"--")
    tells_loading = True
    message = re.compile(r"(==|--|0x[0-9a-f]+: \[| {4,}\S)")

    def __init__(self, owner):
        self.owner = owner

    def parse(self, line, where):
        found = LACKEY.fullmatch(line)
        if found:
            op, address, size = found.groups()
            return ((self.owner, LACKEY_OPS[op], int(address, 16), check_size(int(size), where), None),)
        if line.strip() and not self.message.match(line):
            raise RecordError(f"{where}: \"{shown(line)}\" is no line of lackey: it has I, L, S or M, an address, "
                              "a comma and a size, as \" L 1ffefffe78,8\"")
        return ()

    @staticmethod
    def fetch_at(address):
        """How the line of a fetch at this address begins."""
        return b"I  %08x," % address


class Din(Form):
    """The lines `label address` of DineroIV: 0 reads, 1 writes, 2 fetches an instruction. The format
    has no sizes, so all references have the given width. Words after the address, and labels 3 and 4
    (escapes), are left out as that program does."""

    data = (b"0 ", b"1 ")
    fetches = (b"2 ",)
    others = (b"3 ", b"4 ")

    def __init__(self, owner, width):
        self.owner, self.width = owner, width
        self.note = no_sizes("din", width)

    def parse(self, line, where):
        words = line.split()
        if not words or words[0] in ("3", "4"):
            return ()
        if words[0] not in DIN_OPS or len(words) < 2:
            raise RecordError(f"{where}: \"{shown(line)}\" is no line of the din format: it has a label, 0 to 4, and "
                              "an address, as \"0 1ffefffe78\"")
        return ((self.owner, DIN_OPS[words[0]], hexadecimal(words[1], where),
                 check_size(self.width, where), None),)


class Listed(Form):
    """The lines `process op address [value]`. The op is R, W, M, A or I, with its bytes after it. Where
    addresses are kept, a line may also be a service, as a trace has it."""

    unended = True

    def __init__(self, width, kept=False):
        self.width, self.kept = width, kept

    def parse(self, line, where):
        words = line.split()
        if not words or words[0][0] in "#!":
            return ()
        if len(words) > 1 and words[1] in SERVICES:
            return (self.service(words, where),)
        if len(words) not in (3, 4):
            raise RecordError(f"{where}: a line has a process, an op, an address, and may be a value")
        found = LIST_OP.fullmatch(words[1])
        if not found:
            raise RecordError(f"{where}: \"{shown(words[1])}\" is no op; R4, W1, M8, A4 and I2 are some")
        if not words[0].isascii() or words[0].endswith(":"):
            raise RecordError(f"{where}: \"{shown(words[0])}\" is no name of a process: it is ASCII, and ends with no "
                              "colon (convert.py reads pinatrace)")
        size = check_size(int(found.group(2) or self.width), where)
        if found.group(1) == "A" and size != 4:
            raise RecordError(f"{where}: an add has four bytes")
        value = hexadecimal(words[3], where) if len(words) == 4 else None
        address = hexadecimal(words[2], where)
        if self.kept:
            check_address(address, size, where)
        return ((words[0], found.group(1), address, size, value),)

    def service(self, words, where):
        """The service of a line: its size is the pages, and its value the word behind them."""
        if not self.kept:
            raise RecordError(f"{where}: a service needs --keep-addresses")
        name, rest = words[1], words[2:]
        if len(rest) != SERVICES[name] or not all(DECIMAL.fullmatch(one) for one in (
                rest if name == "ADJWSL" else rest[1:2])):
            form = {1: "a limit", 2: "an address and a number of pages",
                    3: "an address, a number of pages and a protection code"}[SERVICES[name]]
            raise RecordError(f"{where}: {name} has {form}")
        if name == "ADJWSL":
            if not 1 <= int(rest[0]) <= GREATEST_EXTENT:
                raise RecordError(f"{where}: a limit is 1 to {GREATEST_EXTENT}")
            return words[0], name, 0, 0, int(rest[0])
        address, pages = hexadecimal(rest[0], where), int(rest[1])
        if address % PAGE_BYTES or not 1 <= pages <= RANGE_PAGES:
            raise RecordError(f"{where}: a range begins at a multiple of {PAGE_BYTES} and has 1 to {RANGE_PAGES} "
                              "pages")
        check_address(address, pages * PAGE_BYTES, where)
        if rest[2:] and rest[2] not in CODES:
            raise RecordError(f"{where}: \"{shown(rest[2])}\" is no protection code; there are "
                              f"{', '.join(CODES)}")
        return words[0], name, address, pages, CODES.index(rest[2]) if rest[2:] else None
