"""The bytes of a dump, by docs/FORMATS.md."""

from __future__ import annotations

import dataclasses
from typing import Callable, Optional

from .reports import STATES

MAGIC = b"VMSDUMP1"
STATUSES = ("RESIDENT", "LEAVING", "GONE", "COMING")
SLOTS = {0: "EMPTY", 1: "FILLED", 3: "LOCKED", 5: "PINNED", 7: "LOCKED PINNED"}
KINDS = (None, "PRIVATE", "SHARED")
MOST_PAGE = 2**22 - 1
MOST_SHARED_PAGE = 16383
MOST_NUMBER = 2**32 - 1
# in a valid entry's word the frame has the lower three bytes
FRAME_BITS = 0xFFFFFF


class NoDump(ValueError):
    """Bytes that are no dump: `place` of them begin one, and the next one is wrong, or is missing."""

    def __init__(self, place: int) -> None:
        super().__init__(f"the first {place} bytes begin a dump; the next one is wrong, or is missing")
        self.place = place


@dataclasses.dataclass(frozen=True)
class DumpFrame:
    """A frame. `kind` is PRIVATE, SHARED or None; `owner` is its process's or section's number."""

    state: str
    modify: bool
    kind: Optional[str]
    owner: int
    page: int
    refs: int
    shares: int


@dataclasses.dataclass(frozen=True)
class DumpSlot:
    """A slot of a working set: EMPTY, FILLED, LOCKED, PINNED or LOCKED PINNED, and its page's number."""

    state: str
    page: int


@dataclasses.dataclass(frozen=True)
class ValidEntry:
    """A valid page table entry: its page's number and its word."""

    page: int
    word: int

    @property
    def frame(self) -> int:
        return self.word & FRAME_BITS

    @property
    def modify(self) -> bool:
        return bool(self.word >> 26 & 1)

    @property
    def protection(self) -> int:
        """The protection code, 0 to 15."""
        return self.word >> 27 & 15


@dataclasses.dataclass(frozen=True)
class DumpProcess:
    status: str
    hand: int
    limit: int
    slots: list[DumpSlot]
    valid: list[ValidEntry]


@dataclasses.dataclass(frozen=True)
class Dump:
    """The state of a pager. `open_transfers` are the frames that have one."""

    frames: list[DumpFrame]
    free: list[int]
    modified: list[int]
    blocks: int
    charged: int
    assigned: int
    processes: list[DumpProcess]
    open_transfers: list[int]


class Reader:
    """Bytes from the front on; the first that fits nothing is named."""

    def __init__(self, data: bytes) -> None:
        self.data, self.place = data, 0

    def byte(self, fits: Callable[[int], bool]) -> int:
        if self.place >= len(self.data) or not fits(self.data[self.place]):
            raise NoDump(self.place)
        self.place += 1
        return self.data[self.place - 1]

    def number(self, low: int = 0, high: int = MOST_NUMBER, width: int = 4) -> int:
        """A number from low to high: each byte has to be one with which some such number goes on."""
        number = 0
        for left in range(8 * (width - 1), -8, -8):
            least, most, front = low >> left, high >> left, number << 8
            number = front + self.byte(lambda byte: least <= front + byte <= most)
        return number

    def zeros(self, count: int) -> None:
        for _ in range(count):
            self.byte(lambda byte: byte == 0)

    def rising(self, count: int, below: int, rest: Callable[[], int]) -> list[tuple[int, int]]:
        """So many ascending numbers, each with what stands behind it."""
        rows, least = [], 0
        for more in range(count - 1, -1, -1):
            number = self.number(least, below - more - 1)
            rows.append((number, rest()))
            least = number + 1
        return rows

    def frame(self, processes: int) -> DumpFrame:
        state = self.byte(lambda byte: byte < len(STATES))
        modify = self.byte(lambda byte: byte < 2)
        kind = self.byte(lambda byte: byte < len(KINDS))
        self.zeros(1)
        owner = self.number(0, (0, processes - 1, 63)[kind])
        page = self.number(0, (0, MOST_PAGE, MOST_SHARED_PAGE)[kind])
        return DumpFrame(STATES[state], modify == 1, KINDS[kind], owner, page, self.number(), self.number())

    def slot(self) -> DumpSlot:
        code = self.byte(lambda byte: byte in SLOTS)
        self.zeros(3)
        return DumpSlot(SLOTS[code], self.number(0, MOST_PAGE if code else 0))

    def word(self, frames: int) -> int:
        """A valid entry's word: protection code 1 is reserved, and the bits between are 0."""
        head = self.byte(lambda byte: byte >= 128 and byte % 4 == 0 and byte >> 3 & 15 != 1)
        return (head << 24) + self.number(0, frames - 1, width=3)

    def process(self, frames: int) -> DumpProcess:
        status = self.byte(lambda byte: byte < len(STATUSES))
        self.zeros(3)
        count = self.number(1, 1024)
        hand, limit = self.number(0, count - 1), self.number()
        slots = [self.slot() for _ in range(count)]
        valid = self.rising(self.number(0, count), MOST_PAGE + 1, lambda: self.word(frames))
        return DumpProcess(STATUSES[status], hand, limit, slots, [ValidEntry(page, word) for page, word in valid])


def read_dump(data: bytes) -> Dump:
    """The state that the bytes of a dump say. Bytes that are no dump are a NoDump.

    As a dump need not be of a sound state, the record may be of none either; `show` recounts it.
    """
    if not isinstance(data, (bytes, bytearray, memoryview)):
        raise TypeError(f"a dump is bytes, not {type(data).__name__}")
    reader = Reader(bytes(data))
    for letter in MAGIC:
        reader.byte(lambda byte: byte == letter)
    count = reader.number(8, 16384)
    free, modified, processes = reader.number(0, count), reader.number(0, count), reader.number(1, 16)
    blocks, charged, assigned = reader.number(), reader.number(), reader.number()
    dump = Dump(
        [reader.frame(processes) for _ in range(count)],
        [reader.number(0, count - 1) for _ in range(free)], [reader.number(0, count - 1) for _ in range(modified)],
        blocks, charged, assigned, [reader.process(count) for _ in range(processes)],
        [number for number, _ in reader.rising(reader.number(0, count), count, lambda: 0)])
    if reader.place != len(reader.data):
        raise NoDump(reader.place)
    return dump
