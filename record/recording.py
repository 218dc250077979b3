"""Takes the part of a recording that was asked for. A recording is read in blocks of whole lines, and
of a block of which nothing is taken only the lines are counted, so a long one costs little."""

import collections
import dataclasses
import zlib

from programs import begin_of, started_others
from trace_limits import RecordError

BLOCK_BYTES = 1 << 16
MOST_LINE_BYTES = 1 << 16


@dataclasses.dataclass
class Part:
    """What is taken: from where on, how many are left out and taken, and every which window."""

    start: object = None    # "start", ("symbol", name), ("fetch", address), ("number", n), or None
    skip: int = 0
    count: int = None
    last: int = None
    sample: int = 1
    window: int = 1000
    fetches: bool = False

    def takes(self, place):
        """Whether the reference with this place, counted from 0 at the start, is taken."""
        place -= self.skip
        return place >= 0 and place // self.window % self.sample == 0

    def takes_one_of(self, low, high):
        """Whether one of the references with the places low to high - 1 is taken."""
        low, high = max(low - self.skip, 0), high - self.skip
        window = -(-(low // self.window) // self.sample) * self.sample
        return low < high and (self.takes(low + self.skip) or window * self.window < high)


class Block:
    """Whole lines of a recording, the first of them with its number."""

    def __init__(self, text, first, form):
        self.text, self.first, self.form = text, first, form
        self.units = text.count(b"\n") + (not text.endswith(b"\n"))

    def count_of(self, prefixes):
        return sum(self.text.count(b"\n" + one) + self.text.startswith(one) for one in prefixes)

    def size(self, fetches):
        """How many references there are, or None where each line has to be read to know it."""
        data, fetched = self.count_of(self.form.data), self.count_of(self.form.fetches)
        if data + fetched + self.count_of(self.form.others) != self.units:
            return None
        return data + fetched if fetches else data

    def lines(self):
        """The lines, with their numbers."""
        text = self.text.decode("ascii", "replace").removesuffix("\n")
        lines = text.split("\n")
        if "\r" in text:
            lines = [line.removesuffix("\r") for line in lines]
        return enumerate(lines, self.first)

    def references(self, name):
        for number, line in self.lines():
            yield from self.form.parse(line, f"{name}, line {number}")

    def numbered(self, fetches):
        """The lines of references, with their numbers; of a block whose size is known."""
        prefixes = self.form.data + (self.form.fetches if fetches else ())
        starts = tuple(one.decode("ascii") for one in prefixes)
        return ((number, line) for number, line in self.lines() if line.startswith(starts))


class RecordBlock:
    """Binary records, the first of them with its number."""

    def __init__(self, data, first, form):
        self.text, self.first, self.form = data, first, form
        self.units = len(data) // form.record_bytes

    def size(self, _):
        """Each record is read, since one may be at fault by what stands before it."""
        return None

    def references(self, name):
        step = self.form.record_bytes
        for number in range(self.units):
            at = (self.first - 1 + number) * step
            yield from self.form.parse(self.text[number * step:(number + 1) * step],
                                       f"{name}, record {self.first + number} (byte {at})")


class Recorded:
    """One recording: its references that are asked for, each with its number from 1 on, and how many there
    were.

    `before` counts those before the start, `after` those from it on, whether they were taken or not;
    `begins` says what stands at the start, and `notes` what the user should know.
    """

    def __init__(self, name, form, opened, part, ended=lambda: False, pid=None):
        self.name, self.form, self.part = name, form, part
        self.file, self.ended, self.pid = opened, ended, pid
        self.before = self.after = 0
        self.unit = 1
        self.over = False
        self.notes = []
        self.begins = ""
        self.left = part.count
        self.taken = self.take()

    def blocks(self):
        read, make = (self.lines, Block) if self.form.record_bytes is None else (self.records, RecordBlock)
        while True:
            text = read()
            if not text:
                self.over = True
                self.form.end(self.name)
                return
            block = make(text, self.unit, self.form)
            self.unit += block.units
            yield block

    def read(self, call, count):
        """What a read of the file gives."""
        try:
            return call(count)
        except (OSError, EOFError, zlib.error) as fault:
            raise RecordError(f"{self.name} can't be read: {getattr(fault, 'strerror', None) or fault}") from None

    def lines(self):
        """Some whole lines, or nothing at the end."""
        text = self.read(self.file.read, BLOCK_BYTES)
        if text and not text.endswith(b"\n"):
            rest = self.read(self.file.readline, MOST_LINE_BYTES)
            text += rest
            if not text.endswith(b"\n"):
                line = self.unit + text.count(b"\n")
                if len(rest) == MOST_LINE_BYTES:
                    raise RecordError(f"{self.name}, line {line}: it has more than {MOST_LINE_BYTES} bytes")
                if not self.form.unended:
                    raise RecordError(f"{self.name}, line {line}: the last line isn't ended, so the recording is "
                                      "cut there")
        return text

    def records(self):
        """Some whole records, or nothing at the end."""
        step = self.form.record_bytes
        data = self.read(self.file.read, max(BLOCK_BYTES // step, 1) * step)
        if len(data) % step:
            at = (self.unit - 1) * step + len(data)
            raise RecordError(f"{self.name}: it has {at} bytes, which is no multiple of the {step} of a record")
        return data

    def wanted(self, block):
        """The references of a block that count: fetches only where they were asked for."""
        return (one for one in block.references(self.name) if self.part.fetches or one[1] != "I")

    def found_start(self, blocks):
        """Finds where the part starts; gives the first block where it is the start, or else the references
        from the start on of the block that has it."""
        head = next(blocks, None)
        start = self.part.start
        if head and start != "start" and (start is None or start[0] != "number"):
            try:
                start, self.begins, note = begin_of(start, head.text, self.form.tells_loading)
            except RecordError as fault:
                raise RecordError(f"{self.name}: {fault}") from None
            self.notes += [note] if note else []
        if start in (None, "start"):
            return head, None
        kind, number = start
        while head:
            found = self.start_in(head, kind, number)
            if found is not None:
                return None, found
            head = next(blocks, None)
        what = f"a fetch at {number:X}" if kind == "fetch" else f"a reference {number}"
        raise RecordError(f"{self.name} never has {what}; --from start takes it from its beginning")

    def start_in(self, block, kind, number):
        """The references of this block from the start on, or None where it doesn't lie here."""
        size = block.size(self.part.fetches)
        if kind == "number":
            if size is not None and self.before + size < number:
                self.before += size
                return None
            return self.split(block, lambda one: self.before + 1 == number)
        if size is not None and self.form.fetch_at and \
                self.form.fetch_at(number) not in block.text:
            self.before += size
            return None
        return self.split(block, lambda one: one[1] == "I" and one[2] == number)

    def split(self, block, begins):
        found = None
        for one in block.references(self.name):
            counts = self.part.fetches or one[1] != "I"
            if found is None and begins(one):
                found = []
            if found is None:
                self.before += counts
            elif counts:
                found.append(one)
        return found

    def take(self):
        blocks = self.blocks()
        head, found = self.found_start(blocks)
        pieces = self.pieces(blocks, head, found)
        yield from self.take_last(pieces) if self.part.last else self.take_first(pieces)

    def pieces(self, blocks, head, found):
        """What is left from the start on: (number of references, the references or a block)."""
        if found is not None:
            yield len(found), found
        if head:
            yield head.size(self.part.fetches), head
        for block in blocks:
            yield block.size(self.part.fetches), block

    def listed(self, piece):
        return self.wanted(piece) if isinstance(piece, (Block, RecordBlock)) else piece

    def take_first(self, pieces):
        for size, piece in pieces:
            if size is not None and (self.left == 0 or
                                     not self.part.takes_one_of(self.after, self.after + size)):
                self.after += size
                continue
            for one in self.chosen(size, piece):
                if self.left != 0:
                    self.left = None if self.left is None else self.left - 1
                    yield self.before + self.after, one
            if self.left == 0 and self.ended():
                return

    def chosen(self, size, piece):
        """The references of a piece that are taken; the lines of the others aren't read further."""
        if size is None or not isinstance(piece, Block):
            for one in self.listed(piece):
                self.after += 1
                if self.part.takes(self.after - 1):
                    yield one
            return
        for number, line in piece.numbered(self.part.fetches):
            self.after += 1
            if self.part.takes(self.after - 1):
                yield from piece.form.parse(line, f"{self.name}, line {number}")

    def take_last(self, pieces):
        """Keeps no more pieces than have the last references."""
        kept, held = collections.deque(), 0
        for size, piece in pieces:
            if size is None:
                piece = list(self.listed(piece))
                size = len(piece)
            self.after += size
            kept.append((size, piece))
            held += size
            while held - kept[0][0] >= self.part.last:
                held -= kept.popleft()[0]
        number = self.before + self.after - held
        first = max(self.before + self.after - self.part.last, self.before + self.part.skip)
        for _, piece in kept:
            for one in self.listed(piece):
                number += 1
                if number > first:
                    yield number, one

    def finish(self):
        """Counts what wasn't read, unless it is a program that is ended now."""
        self.left = 0
        if not self.ended():
            for _ in self.taken:
                pass
        elif self.was_ended():
            self.notes.append("it was ended when enough was recorded; --whole counts all of its references")
        self.file.close()
        if self.pid is not None and started_others(self.pid, self.over):
            self.notes.append("it started other processes, which aren't recorded; --children records them too")

    def was_ended(self):
        """Whether it is of a program that was ended before its own end."""
        return self.ended() and not self.over

    def all(self):
        return self.before + self.after
