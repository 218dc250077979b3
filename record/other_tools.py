"""Reads the recordings of other tools: the extended din format, Pin's pinatrace, QEMU's execlog, `perf script`,
libCacheSim's oracleGeneral, and tables as CSV. Each is a form, as sources.py says. What isn't of the form is
refused, with what was expected."""

import csv
import re
import struct

from sources import Form, check_size, hexadecimal, no_sizes, shown
from trace_limits import PAGE_BYTES, RecordError

PINATRACE = re.compile(r"0x([0-9a-f]{1,16}): ([RW]) 0x([0-9a-f]{1,16})")
EXECLOG = re.compile(r"[0-9]{1,9}, 0x([0-9a-f]{1,16}), 0x[0-9a-f]{1,8}, \"[^\"]*\""
                     r"((?:, (?:load|store), 0x[0-9a-f]{1,16})*)")
ACCESS = re.compile(r", (load|store), 0x([0-9a-f]+)")
PERF = re.compile(r" *([0-9]{1,9}) +(\S{1,200}): +([0-9a-f]{1,16}) +[0-9a-f]{1,16} *")
MEMORY_EVENT = re.compile(r"(?:.*/)?mem-(loads|stores)(?:[,/:].*)?")
ORACLE = struct.Struct("<IQIq")
ZSTANDARD = b"\x28\xb5\x2f\xfd"
NO_NEXT = -1
OPS = {"r": "R", "w": "W", "i": "I"}
EVENT_OPS = ("R", "W", "M", "skip")
TABLE_OPS = ("R", "W", "M", "A", "I")


class ExtendedDin(Form):
    """The lines `r address size` of DineroIV, with r to read, w to write and i to fetch an instruction. A size
    of several digits is read in the base that the user gives, or not at all."""

    def __init__(self, owner, options):
        self.owner, self.base = owner, {None: 0, "decimal": 10, "hexadecimal": 16}[options.sizes]

    def parse(self, line, where):
        words = line.split()
        if not words:
            return ()
        if len(words) != 3 or words[0] not in OPS:
            raise RecordError(f"{where}: \"{shown(line)}\" is no line of the extended din format: it has r, w or i, an "
                              "address and a size, as \"r 1ffefffe78 8\"")
        return ((self.owner, OPS[words[0]], hexadecimal(words[1], where), self.size(words[2], where), None),)

    def size(self, word, where):
        if len(word) > 1 and not self.base:
            raise RecordError(f"{where}: the size \"{shown(word)}\" has several digits; --sizes decimal or --sizes "
                              "hexadecimal tells how to read it")
        if not re.fullmatch(r"[0-9]{1,4}" if self.base != 16 else r"[0-9A-Fa-f]{1,4}", word):
            raise RecordError(f"{where}: \"{shown(word)}\" is no size")
        return check_size(int(word, self.base or 10), where)


class Pinatrace(Form):
    """The lines `0x4010: R 0x8000` of Pin's example pinatrace, and #eof after the last of them."""

    def __init__(self, owner, options):
        self.owner, self.width = owner, check_size(options.size, "--size")
        self.note = no_sizes("pinatrace", options.size)
        self.ended = False

    def parse(self, line, where):
        found = PINATRACE.fullmatch(line)
        if self.ended or not found and line != "#eof":
            raise RecordError(f"{where}: \"{shown(line)}\" is no line of pinatrace: " + (
                "nothing stands after #eof" if self.ended else
                "it has the instruction's address, R or W and an address, as \"0x401126: R 0x7ffe1230\""))
        self.ended = not found
        return ((self.owner, found[2], int(found[3], 16), self.width, None),) if found else ()

    def end(self, name):
        if not self.ended:
            raise RecordError(f"{name}: its last line isn't #eof, which pinatrace writes at its end, so it is cut")


class Execlog(Form):
    """The lines of QEMU's plugin execlog: an instruction, and its loads and stores."""


    def __init__(self, owner, options):
        self.owner, self.width = owner, check_size(options.size, "--size")
        self.note = no_sizes("execlog", options.size)

    def parse(self, line, where):
        if not line:
            return ()
        found = EXECLOG.fullmatch(line)
        if not found:
            raise RecordError(f"{where}: \"{shown(line)}\" is no line of execlog: it has the processor, 0x and the "
                              "instruction's address, 0x and its bytes, its text in \"\", and load or store with 0x "
                              "and an address for each access; physical addresses with a device aren't read")
        made = [(self.owner, "I", int(found[1], 16), self.width, None)]
        for kind, address in ACCESS.findall(found[2]):
            made.append((self.owner, "R" if kind == "load" else "W", int(address, 16), self.width, None))
        return made


class Perf(Form):
    """The lines of `perf script -F pid,event,addr,ip`: samples of memory events. The event says whether one
    reads or writes, where it is mem-loads or mem-stores; of other events the user says it."""

    def __init__(self, owner, options):
        self.owner, self.width = owner, check_size(options.size, "--size")
        self.events = dict(options.event)
        self.note = no_sizes("perf script", options.size) + "; samples aren't all references"

    def parse(self, line, where):
        if not line:
            return ()
        found = PERF.fullmatch(line)
        if not found:
            raise RecordError(f"{where}: \"{shown(line)}\" is no line of perf script -F pid,event,addr,ip: it has the "
                              "process, the event and a colon, the address and the instruction's address")
        op = self.op(found[2], where)
        owner = f"PID {found[1]} of {self.owner}"
        return ((owner, op, int(found[3], 16), self.width, None),) if op != "skip" else ()

    def op(self, event, where):
        found = MEMORY_EVENT.fullmatch(event)
        op = self.events.get(event, {"loads": "R", "stores": "W"}[found[1]] if found else None)
        if op is None:
            raise RecordError(f"{where}: the event {shown(event)} doesn't say whether it reads or writes; "
                              f"--event {shown(event)}=R tells it ({', '.join(EVENT_OPS)})")
        return op


class OracleGeneral(Form):
    """The binary records of libCacheSim's oracleGeneral, 24 bytes each with the lowest byte first: the time in
    seconds (4), the object (8), its size (4), and the number of the object's next request or -1 (8). Each is a
    read of a page that stands for the object, whatever the object's size."""

    record_bytes = ORACLE.size

    def __init__(self, owner, options):
        self.owner, self.width = owner, check_size(options.size, "--size")
        self.time, self.number = 0, 0
        self.note = "each object is a page, whatever its size"

    def parse(self, record, where):
        if self.number == 0 and record.startswith(ZSTANDARD):
            raise RecordError(f"{where}: it is packed by zstd; zstd -dc FILE | convert.py oracle-general - unpacks it")
        time, thing, _, following = ORACLE.unpack(record)
        why = ""
        if time < self.time:
            why = f"its time is {time}, after {self.time}"
        elif following != NO_NEXT and following <= self.number:
            why = f"its next request has the number {following}"
        if why:
            raise RecordError(f"{where}: {why}, so it is no record of oracleGeneral: the time of 4 bytes, which "
                              "doesn't go back, the object of 8, its size of 4, and the number of its next request of "
                              "8, which is later or -1, each with the lowest byte first")
        self.time, self.number = time, self.number + 1
        return ((self.owner, "R", thing * PAGE_BYTES, self.width, None),)


class Table(Form):
    """A table as CSV. Its first line names the columns: address, and where they are there process, op, size and
    value, or what the user calls them."""

    NAMES = ("process", "op", "address", "size", "value")
    unended = True

    def __init__(self, owner, options):
        self.owner, self.options = owner, options
        self.called = {**{name: name for name in self.NAMES}, **dict(options.column)}
        self.columns = None

    def parse(self, line, where):
        if not line.isascii():
            raise RecordError(f"{where}: it has bytes that aren't ASCII")
        try:
            words = next(csv.reader([line], delimiter=self.options.delimiter, strict=True), [])
        except csv.Error as fault:
            raise RecordError(f"{where}: \"{shown(line)}\" is no line of CSV: {fault}") from None
        if self.columns is None:
            self.read_head(words, where)
            return ()
        if len(words) != self.count:
            raise RecordError(f"{where}: it has {len(words)} words, and the first line has {self.count}")
        return (self.reference({name: words[at].strip() for name, at in self.columns.items()}, where),)

    def read_head(self, words, where):
        words = [word.strip() for word in words]
        self.count, self.columns = len(words), {}
        for name, called in self.called.items():
            if words.count(called) > 1:
                raise RecordError(f"{where}: two columns are called {shown(called)}")
            if called in words:
                self.columns[name] = words.index(called)
            elif called != name or name == "address":
                raise RecordError(f"{where}: no column is called {shown(called)}; the first line names the columns, "
                                  f"and has {shown(', '.join(words))}")
        if "op" not in self.columns and self.options.op is None:
            raise RecordError(f"{where}: no column is called op; --op tells what all references are, R, W, M, A or I")
        self.note = "" if "size" in self.columns else no_sizes("the table", self.options.size)

    def reference(self, words, where):
        op = words.get("op", self.options.op)
        if op not in TABLE_OPS:
            raise RecordError(f"{where}: \"{shown(op)}\" is no op; there are {', '.join(TABLE_OPS)}")
        size = words.get("size", str(self.options.size))
        if not re.fullmatch(r"[0-9]{1,9}", size):
            raise RecordError(f"{where}: \"{shown(size)}\" is no decimal number of bytes")
        size = check_size(int(size), where)
        if op == "A" and size != 4:
            raise RecordError(f"{where}: an add has four bytes")
        owner = words.get("process", self.owner)
        if not owner:
            raise RecordError(f"{where}: the process has no name")
        value = words.get("value", "")
        return owner, op, self.number(words["address"], where), size, self.number(value, where) if value else None

    def number(self, word, where):
        """A number with 0x is hexadecimal; another one is read in the base that the user gives."""
        if word[:2] in ("0x", "0X") or self.options.base == 16:
            return hexadecimal(word, where)
        if self.options.base is None:
            raise RecordError(f"{where}: \"{shown(word)}\" has no 0x; --base 10 or --base 16 tells how to read it")
        if not re.fullmatch(r"[0-9]{1,20}", word) or int(word) >= 1 << 64:
            raise RecordError(f"{where}: \"{shown(word)}\" is no decimal number of up to 64 bits")
        return int(word)

    def end(self, name):
        if self.columns is None:
            raise RecordError(f"{name} is empty; its first line has to name the columns")
