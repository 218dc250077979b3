"""The report of a run."""

from __future__ import annotations

import dataclasses
import re
from typing import Optional

from .entries import log_lines

STATES = ("FREE", "MODIFIED", "BAD", "RELEASE", "READERROR", "WRITING", "READING", "ACTIVE")
COUNTS = re.compile(" ".join(rf"{state} (\d+)" for state in STATES))
FRAME = re.compile(r"FRAME (\d+) ([A-Z]+) (\S+) MODIFY ([01]) REFS (\d+) SHARES (\d+)")
BAD_FRAME = re.compile(r"FRAME (\d+) BAD")
PAGEFILE = re.compile(r"PAGEFILE (\d+) CHARGED (\d+) ASSIGNED (\d+)")
PROCESS = re.compile(r"PROCESS ([A-P]) ([A-Z]+) COUNT (\d+) LIMIT (\d+)")


class NoReport(ValueError):
    """A text without a report, or with a line in it that isn't one of its lines."""


@dataclasses.dataclass(frozen=True)
class FrameRow:
    """A frame that holds a page, or a bad one, which has a state alone."""

    frame: int
    state: str
    page: Optional[str] = None
    modify: bool = False
    refs: int = 0
    shares: int = 0


@dataclasses.dataclass(frozen=True)
class PageFile:
    blocks: int
    charged: int
    assigned: int


@dataclasses.dataclass(frozen=True)
class ProcessRow:
    process: str
    status: str
    count: int
    limit: int


@dataclasses.dataclass(frozen=True)
class Report:
    """The report, and the DIRTY lines and the status behind it, if they are there.

    `entries` is how many entries came before it, `counts` how many frames are in each state.
    """

    entries: int
    counts: dict[str, int]
    frames: list[FrameRow]
    page_file: PageFile
    processes: list[ProcessRow]
    dirty: list[str]
    status: Optional[int]


def frame_row(line: str) -> FrameRow:
    found = FRAME.fullmatch(line)
    if found:
        return FrameRow(int(found[1]), found[2], found[3], found[4] == "1", int(found[5]), int(found[6]))
    found = BAD_FRAME.fullmatch(line)
    if found:
        return FrameRow(int(found[1]), "BAD")
    raise NoReport(f"no line of a report: {line}")


def matched(pattern: "re.Pattern[str]", line: str) -> tuple[str, ...]:
    found = pattern.fullmatch(line)
    if not found:
        raise NoReport(f"no line of a report: {line}")
    return found.groups()


def last_status(lines: list[str]) -> Optional[int]:
    """The status of a text's last line, if it has one."""
    found = re.fullmatch(r"STATUS (\d)", lines[-1]) if lines else None
    return int(found[1]) if found else None


def read_report(text: str) -> Report:
    """The report of a run's output, or of a trace with a log. A text that has none is a NoReport."""
    lines = log_lines(text)
    starts = [place for place, line in enumerate(lines) if re.fullmatch(r"PFN AT \d+", line)]
    if not starts:
        raise NoReport("there is no line PFN AT, so no report")
    place = starts[0]
    rest = [line for line in lines[place + 1:] if line and not line[0].isdecimal()]
    frames = [line for line in rest if line.startswith("FRAME ")]
    processes = [matched(PROCESS, line) for line in rest if line.startswith("PROCESS ")]
    page_files = [matched(PAGEFILE, line) for line in rest if line.startswith("PAGEFILE ")]
    if not rest or len(page_files) != 1:
        raise NoReport("the report has to have one line PAGEFILE")
    return Report(
        entries=int(lines[place].split(" ")[2]),
        counts=dict(zip(STATES, map(int, matched(COUNTS, rest[0])))),
        frames=[frame_row(line) for line in frames],
        page_file=PageFile(*map(int, page_files[0])),
        processes=[ProcessRow(name, status, int(count), int(limit)) for name, status, count, limit in processes],
        dirty=[line.split(" ", 1)[1] for line in rest if line.startswith("DIRTY ")],
        status=last_status(lines),
    )
