"""Reads a program's file: its symbols, its entry point, and where its instructions lie."""

import difflib
import re
import struct

from trace_limits import RecordError

TABLES = (2, 11)        # section kinds: symbols, and symbols for the dynamic loader
UNTYPED, FUNCTION, INDIRECT = 0, 2, 10
LOADED, EXECUTABLE = 1, 1


class Program:
    """An ELF file of a little-endian machine, of 32 or 64 bits."""

    def __init__(self, name):
        with open(name, "rb") as file:
            self.data = file.read()
        if self.data[:4] != b"\x7fELF" or self.data[5:6] != b"\x01":
            raise ValueError("it is no program of a little-endian machine")
        self.wide = self.data[4] == 2
        self.entry, = self.unpack("<Q" if self.wide else "<I", 24)

    def unpack(self, form, at):
        """Numbers of the file; a struct.error where it ends before them."""
        return struct.unpack_from(form, self.data, min(at, len(self.data)))

    def table(self, head, counts):
        """The places of the headers that the file's head tells of: its address there, and its counts."""
        at, = self.unpack("<Q" if self.wide else "<I", head)
        size, count = self.unpack("<HH", counts)
        return [at + number * size for number in range(count)]

    def code_ranges(self):
        """The addresses of the parts that hold instructions: (first, end)."""
        for at in self.table(32, 54) if self.wide else self.table(28, 42):
            if self.wide:
                kind, flags, _, address, _, _, size = self.unpack("<IIQQQQQ", at)
            else:
                kind, _, address, _, _, size, flags = self.unpack("<IIIIIII", at)
            if kind == LOADED and flags & EXECUTABLE:
                yield address, address + size

    def has_code_at(self, address):
        return any(first <= address < end for first, end in self.code_ranges())

    def sections(self):
        """The section headers: (kind, offset, bytes, the number of a linked section)."""
        form, places = ("<IIQQQQI", (1, 4, 5, 6)) if self.wide else ("<IIIIIII", (1, 4, 5, 6))
        for at in self.table(40, 58) if self.wide else self.table(32, 46):
            words = self.unpack(form, at)
            yield tuple(words[place] for place in places)

    def symbols(self):
        """The functions and labels, as names with addresses."""
        sections = list(self.sections())
        form, step = ("<IBBHQ", 24) if self.wide else ("<IIIBBH", 16)
        for kind, at, size, linked in sections:
            if kind not in TABLES:
                continue
            names = sections[linked][1]
            for place in range(at, at + size - step + 1, step):
                words = self.unpack(form, place)
                name, info, home, address = (words[0], words[1], words[3], words[4]) if self.wide else (
                    words[0], words[3], words[5], words[1])
                if info & 15 in (UNTYPED, FUNCTION, INDIRECT) and home and address:
                    begin = names + name
                    yield self.data[begin:self.data.find(b"\0", begin)].decode("utf-8", "replace"), address

    def addresses_of(self, wanted):
        return sorted({address for name, address in self.symbols() if name == wanted})

    def address_of(self, wanted, file):
        """The one address of a symbol; a RecordError says why there isn't one."""
        found = self.addresses_of(wanted)
        if len(found) == 1:
            return found[0]
        if found:
            raise RecordError(f"{file} has several symbols {wanted}, at {', '.join(f'0x{one:x}' for one in found)}; "
                              "--from takes one of these addresses")
        names = {name for name, _ in self.symbols() if re.fullmatch(r"[ -~]+", name)}
        near = difflib.get_close_matches(wanted, names, 3)
        why = f"near to it are {', '.join(near)}" if near else \
            f"it has {len(names)} symbols of functions" if names else "it has no symbols, as a stripped program"
        raise RecordError(f"{file} has no symbol {wanted}; {why}")
