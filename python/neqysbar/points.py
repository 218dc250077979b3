"""The points of a sweep: each is a pure call of the library, by a trace, a command and settings."""

from __future__ import annotations

import dataclasses
import functools
import hashlib
import itertools
import re
from typing import Any, Iterator, Optional

from .calls import run
from .files import file_bytes
from .measures import COMMANDS, NothingMeasured
from .traces import NotSet, set_lines
from .versions import version

FINISHED = (0, 5)
NO_MEMORY = 7
MOST_VALUES = 100_000


class NotRun(Exception):
    """A point that has no result: it isn't in the table, and is run at the next call."""


@dataclasses.dataclass(frozen=True)
class Point:
    trace: str
    sha256: str
    command: str
    process: Optional[str]
    settings: tuple[tuple[str, int], ...]

    def row(self) -> dict[str, Any]:
        """The columns that tell this point from the others."""
        return {"version": version(), "trace": self.trace, "sha256": self.sha256, "command": self.command,
                "process": self.process or "", **dict(self.settings)}

    def key(self) -> tuple[str, ...]:
        return tuple(str(value) for value in self.row().values())

    def name(self) -> str:
        return " ".join([self.trace, self.command, *(f"{name}={value}" for name, value in self.settings)])


def values_of(text: str) -> list[int]:
    """The numbers of `64,128` or `4:64:4`, from 4 up to 64 in steps of 4, or of both, in their order.

    Another text is a ValueError.
    """
    values: list[int] = []
    for part in text.split(","):
        found = re.fullmatch(r"(\d{1,10})(?::(\d{1,10})(?::(\d{1,10}))?)?", part, re.ASCII)
        if not found:
            raise ValueError(f"{part!r} is neither a number nor FIRST:LAST or FIRST:LAST:STEP")
        first, last, step = int(found[1]), int(found[2] or found[1]), int(found[3] or 1)
        if step == 0 or last < first:
            raise ValueError(f"{part} has no numbers: FIRST is at most LAST, and STEP is at least 1")
        if (last - first) // step >= MOST_VALUES - len(values):
            raise ValueError(f"{text} has more than {MOST_VALUES} numbers")
        values += range(first, last + 1, step)
    return list(dict.fromkeys(values))


def digest(data: bytes) -> str:
    return "sha256:" + hashlib.sha256(data).hexdigest()[:16]


@functools.lru_cache(maxsize=8)
def trace_bytes(path: str, sha256: str) -> bytes:
    """The trace's bytes, kept from point to point."""
    try:
        data = file_bytes(path)
    except OSError as fault:
        raise NotRun(f"{path} can't be read: {fault.strerror}") from None
    if digest(data) != sha256:
        raise NotRun(f"{path} isn't as it was when the sweep began")
    return data


def points_of(traces: list[str], command: str, process: Optional[str], settings: dict[str, list[int]]) -> Iterator[Point]:
    """The whole product of the settings, trace by trace. A trace that can't be read is an OSError."""
    for trace in traces:
        sha256 = digest(file_bytes(trace))
        for values in itertools.product(*settings.values()):
            yield Point(trace, sha256, command, process, tuple(zip(settings, values)))


def fault_text(output: bytes, trace: bytes) -> str:
    """Why a call failed, with the line of the trace that is at fault, as it was set."""
    told = output.decode("ascii", "replace").split("\n")[0]
    found = re.match(r"TRACE (\d+) ", told)
    if not found:
        return told
    line = trace.split(b"\n")[int(found[1]) - 1].strip()[:80]
    return f"{told}: {re.sub(rb'[^ -~]', b'?', line).decode('ascii')}"


def result_of(point: Point) -> dict[str, Any]:
    """The row of a point: its settings, its status, what was measured or why it failed.

    A point that says nothing of the trace, as one for which memory ran out, is a NotRun.
    """
    command = COMMANDS[point.command]
    trace = trace_bytes(point.trace, point.sha256)
    settings = dict(point.settings)
    try:
        trace = set_lines(trace, {name: value for name, value in settings.items() if name not in command.own})
    except NotSet as fault:
        return {**point.row(), "status": "", "failure": str(fault)}
    try:
        status, output = run(command.words(settings, point.process), trace)
    except (OSError, MemoryError) as fault:
        raise NotRun(str(fault) or "out of memory") from None
    if status == NO_MEMORY:
        raise NotRun("out of memory")
    if status not in FINISHED:
        return {**point.row(), "status": status, "failure": fault_text(output, trace)}
    try:
        return {**point.row(), "status": status, "failure": "", **command.counts(output)}
    except NothingMeasured as fault:
        return {**point.row(), "status": status, "failure": str(fault)}
