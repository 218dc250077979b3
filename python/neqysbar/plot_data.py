"""The numbers of the pictures, by calls of the library alone."""

from __future__ import annotations

import dataclasses
from typing import Iterable, Sequence

from .calls import run
from .measures import NothingMeasured, counts_of_run, counts_of_study
from .points import FINISHED, fault_text
from .reports import Report, read_report
from .traces import words_of

# the faults of a curve, and those of a run over time, in the order in which they are drawn
CURVES = ("ring", "lru", "least")
KINDS = ("first touch", "from memory", "read")


class NotDrawn(Exception):
    """There is nothing to draw, with the reason."""


def output_of(words: list[str], trace: bytes, name: str) -> bytes:
    """What a command writes. One that fails is a NotDrawn, with what it wrote."""
    status, output = run(words, trace)
    if status not in FINISHED:
        raise NotDrawn(f"{name}: {fault_text(output, trace)}")
    return output


def fault_curves(trace: bytes, name: str, process: str, frames: Iterable[int]) -> list[tuple[int, dict[str, int]]]:
    """For each number of frames the faults of the ring, those with LRU, and the least ones."""
    rows = []
    for number in frames:
        try:
            counts = counts_of_study(output_of(["study", "--process", process, "--frames", str(number)], trace, name))
        except NothingMeasured:
            raise NotDrawn(f"{name} has no references of process {process}") from None
        rows.append((number, {curve: counts[curve] for curve in CURVES}))
    return rows


def body_of(trace: bytes) -> tuple[list[bytes], list[bytes]]:
    """The lines up to BODY, and those of the requests."""
    lines = trace.split(b"\n")
    kinds = [(words_of(line) or [b""])[0] for line in lines]
    start = kinds.index(b"BODY") + 1 if b"BODY" in kinds else len(lines)
    end = kinds.index(b"END", start) if b"END" in kinds[start:] else len(lines)
    return lines[:start], [line for line, kind in zip(lines[start:end], kinds[start:end]) if kind]


def prefix_of(head: list[bytes], requests: list[bytes]) -> bytes:
    """The trace with these requests."""
    return b"\n".join([*head, *requests, b"END", b""])


def places_of(total: int, samples: int) -> list[int]:
    """So many numbers of requests, or fewer, from none to all."""
    step = max(1, -(-total // samples))
    return sorted({*range(0, total, step), total})


def reports_over_time(trace: bytes, name: str, samples: int) -> list[tuple[int, Report]]:
    """The report of the run of the first n requests, for n from none to all of them."""
    output_of(["serial"], trace, name)
    head, requests = body_of(trace)
    return [(number, read_report(output_of(["serial"], prefix_of(head, requests[:number]), name).decode("ascii")))
            for number in places_of(len(requests), samples)]


def fault_kind(words: Sequence[str], coming: set[str]) -> str:
    """Which kind of fault an entry is, if it is one."""
    if words[2] == "ZERO":
        return KINDS[0]
    if words[2] == "COLLIDE" or (words[2] == "BACK" and words[3] not in coming):
        return KINDS[1]
    return KINDS[2] if words[2] == "IN" and words[5] == "FAULT" else ""


def faults_over_time(trace: bytes, name: str, samples: int) -> list[tuple[int, dict[str, int]]]:
    """For each stretch of requests its end, and its faults by kind. The rundown is left out."""
    text = output_of(["serial"], trace, name).decode("ascii")
    total = len(body_of(trace)[1])
    ends = places_of(total, samples)[1:]
    rows = [(end, dict.fromkeys(KINDS, 0)) for end in ends]
    answered, at = 0, 0
    coming: set[str] = set()
    for line in text.split("\nPFN AT ")[0].split("\n"):
        words = line.split(" ")
        if not line[:1].isdecimal() or at == len(rows):
            continue
        kind = fault_kind(words, coming)
        if kind:
            rows[at][1][kind] += 1
        elif words[2] == "TURN":
            (coming.add if words[4] == "COMING" else coming.discard)(words[3])
        elif words[2] in ("DONE", "DENIED", "SERVED"):
            answered += 1
            at += answered == ends[at]
    return rows


@dataclasses.dataclass(frozen=True)
class Load:
    """A run of so many processes: how many references were answered, and how many pages were read or written."""

    processes: int
    answered: int
    transfers: int

    def work(self, cost: int) -> float:
        """The share of the time that references have, in percent, if a page's transfer takes as long as `cost` of them."""
        return 100 * self.answered / max(self.answered + cost * self.transfers, 1)


def loads_of(traces: Iterable[tuple[str, bytes]]) -> list[Load]:
    """The load of each trace, by the number of its processes."""
    loads = []
    for name, trace in traces:
        output = output_of(["serial"], trace, name)
        counts = counts_of_run(output)
        processes = len(read_report(output.decode("ascii")).processes)
        loads.append(Load(processes, counts["references"] - counts["denied"], counts["reads"] + counts["writes"]))
    return sorted(loads, key=lambda load: load.processes)
