"""The entry lines of a run."""

from __future__ import annotations

import dataclasses
from typing import Any, Optional

# the words of each kind of entry, behind its number and its seat
WORDS = {
    "REUSE": "frame page", "ZERO": "address frame", "BACK": "process address frame state",
    "COLLIDE": "address frame start", "INOK": "frame start", "INFAIL": "frame start before after",
    "OUT": "frame block", "OUTOK": "frame start", "OUTFAIL": "frame start before after",
    "EVICT": "process address frame why state", "LIMIT": "limit faults", "TURN": "process status",
    "IN": "frame block role page",
}
OPERANDS = {
    "CRETVA": "address pages protection", "DELTVA": "address pages", "SETPRT": "address pages protection",
    "LKWSET": "address pages", "ULWSET": "address pages",
    "LCKPAG": "address pages", "ULKPAG": "address pages", "PURGWS": "address pages", "ADJWSL": "limit",
}
# the words that are decimal numbers
NUMBERS = frozenset("pages limit start before after faults".split())


class NoEntry(ValueError):
    """A line that begins as an entry and is none."""


@dataclasses.dataclass(frozen=True)
class Entry:
    """An entry line. What its kind doesn't have is None.

    Addresses and values are text, as the line has them, frames as `F3`, pages as `A/00000200` or
    `LIB/3`, blocks as `P:7`. `entry["kind"]` is `entry.kind`.
    """

    number: int
    seat: str
    kind: str
    op: Optional[str] = None
    service: Optional[str] = None
    address: Optional[str] = None
    pages: Optional[int] = None
    protection: Optional[str] = None
    limit: Optional[int] = None
    value: Optional[str] = None
    reply: Optional[str] = None
    answer: Optional[str] = None
    frame: Optional[str] = None
    page: Optional[str] = None
    block: Optional[str] = None
    role: Optional[str] = None
    process: Optional[str] = None
    state: Optional[str] = None
    why: Optional[str] = None
    start: Optional[int] = None
    before: Optional[int] = None
    after: Optional[int] = None
    faults: Optional[int] = None
    status: Optional[str] = None

    def __getitem__(self, name: str) -> Any:
        value = self.__dict__[name]
        if value is None:
            raise KeyError(name)
        return value

    def words(self) -> dict[str, Any]:
        """Its words by name, without those that its kind doesn't have."""
        return {name: value for name, value in self.__dict__.items() if value is not None}


def request_fields(kind: str, words: list[str]) -> dict[str, str]:
    """The words of a DONE, a DENIED or a SERVED, by name."""
    if kind == "SERVED":
        names = OPERANDS[words[0]].split()
        named = {"service": words[0], **dict(zip(names, words[1:]))}
        return {**named, "answer": " ".join(words[1 + len(names):])}
    named = {"op": words[0], "address": words[1]}
    rest = words[2:]
    if kind == "DENIED":
        named["why"] = rest.pop()
    if rest and "R" not in words[0]:
        named["value"] = rest.pop(0)
    if rest:
        named["reply"] = rest.pop(0)
    return named


def entry_of(line: str) -> dict[str, Any]:
    """An entry line as a dictionary: `number`, an int, `seat`, `kind`, and the other words by name, as text.

    A line that is no entry's is a NoEntry.
    """
    words = line.split(" ")
    try:
        number, seat, kind, rest = int(words[0]), words[1], words[2], words[3:]
        if kind in ("DONE", "DENIED", "SERVED"):
            named = request_fields(kind, rest)
        else:
            names = WORDS[kind].split()
            if len(rest) != len(names):
                raise ValueError
            named = dict(zip(names, rest))
    except (KeyError, IndexError, ValueError):
        raise NoEntry(f"no entry: {line}") from None
    return {"number": number, "seat": seat, "kind": kind, **named}


def record_of(line: str) -> Entry:
    """An entry line as a record."""
    named = entry_of(line)
    try:
        return Entry(**{name: int(word) if name in NUMBERS else word for name, word in named.items()})
    except ValueError:
        raise NoEntry(f"no entry: {line}") from None


def log_lines(text: str) -> list[str]:
    """The lines of a run's output, or those behind the line LOG of a trace with a log."""
    lines = text.splitlines()
    return lines[lines.index("LOG") + 1:] if "LOG" in lines else lines


def read_log(text: str) -> list[Entry]:
    """The entries of a run's output, or of a trace with a log, in their order.

    Lines that don't begin with a number, as those of the report, are left out. A line that begins as an
    entry and is none is a NoEntry.
    """
    return [record_of(line) for line in log_lines(text) if line.split(" ")[0].isdecimal()]
