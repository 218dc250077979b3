"""What a point of a sweep measures: the numbers of one call, by the command."""

from __future__ import annotations

import dataclasses
from typing import Callable, Mapping, Optional

from .reports import STATES, read_report
from .studies import read_study

# the settings that a trace's lines can have; any other name is a parameter
TRACE_SETTINGS = ("frames", "pagefile", "limit", "quota", "extent", "locks")
# the columns of a run that are counted from its entry lines
COUNTED = ("references", "denied", "services", "hits", "faults", "reads", "writes", "evicted", "failed", "left")
REQUESTS = frozenset(("DONE", "DENIED", "SERVED"))


class NothingMeasured(Exception):
    """The call is done, and there is nothing to measure in what it wrote."""


class Counter:
    """Counts a run's entries. A fault is a ZERO, a BACK of a resident process, an IN for a fault, or a COLLIDE.

    A hit is a DONE without a fault since the process's last answer.
    """

    def __init__(self) -> None:
        self.counts = dict.fromkeys(COUNTED, 0)
        self.coming: set[str] = set()
        self.faulted: set[str] = set()

    def entry(self, words: list[str]) -> None:
        """Counts one entry line, by its words."""
        seat, kind = words[1], words[2]
        if kind in REQUESTS:
            self.answer(seat, kind)
        elif kind in ("ZERO", "COLLIDE"):
            self.fault(seat)
        elif kind == "BACK" and words[3] not in self.coming:
            self.fault(words[3])
        elif kind == "IN":
            self.counts["reads"] += 1
            if words[5] == "FAULT":
                self.fault(seat)
        elif kind == "OUT":
            self.counts["writes"] += 1
        elif kind == "EVICT":
            self.counts["evicted"] += 1
        elif kind in ("INFAIL", "OUTFAIL"):
            self.counts["failed"] += 1
        elif kind == "TURN":
            self.turn(words[3], words[4])

    def answer(self, seat: str, kind: str) -> None:
        counts = self.counts
        counts["services"] += kind == "SERVED"
        counts["references"] += kind != "SERVED"
        counts["denied"] += kind == "DENIED"
        counts["hits"] += kind == "DONE" and seat not in self.faulted
        self.faulted.discard(seat)

    def fault(self, process: str) -> None:
        self.counts["faults"] += 1
        self.faulted.add(process)

    def turn(self, process: str, status: str) -> None:
        (self.coming.add if status == "COMING" else self.coming.discard)(process)
        self.counts["left"] += status == "LEAVING"


def counts_of_run(output: bytes) -> dict[str, int]:
    """The counts of a run's entries, its number of entries, and how many frames are in each state at its report."""
    text = output.decode("ascii")
    counter, entries = Counter(), 0
    for line in text.split("\n"):
        if line[:1].isdecimal():
            counter.entry(line.split(" "))
            entries += 1
    states = read_report(text).counts
    return {**counter.counts, "entries": entries, **{f"{state.lower()}_frames": states[state] for state in STATES}}


def counts_of_study(output: bytes) -> dict[str, int]:
    """The faults that a study says of its frames: the ring's, those with LRU, and the least.

    A study of no references is a NothingMeasured.
    """
    study = read_study(output.decode("ascii"))
    if not study.pages:
        raise NothingMeasured("the trace has no references of this process")
    return {"pages": study.pages, "distinct": study.distinct, "ring": study.ring,
            "lru": study.lru[study.frames], "least": study.least}


@dataclasses.dataclass(frozen=True)
class Command:
    """A command of a sweep.

    `own` are the settings that go into its words; if `rewrites`, the others go into the trace's lines.
    `words` makes the words of the settings and the process, `columns` are what `counts` finds in the
    output.
    """

    own: tuple[str, ...]
    rewrites: bool
    asks_process: bool
    words: Callable[[Mapping[str, int], Optional[str]], list[str]]
    columns: tuple[str, ...]
    counts: Callable[[bytes], dict[str, int]]


# a command that is added here can be swept
COMMANDS = {
    "serial": Command(
        own=(), rewrites=True, asks_process=False, words=lambda settings, process: ["serial"],
        columns=(*COUNTED, "entries", *(f"{state.lower()}_frames" for state in STATES)), counts=counts_of_run),
    "study": Command(
        own=("frames",), rewrites=False, asks_process=True,
        words=lambda settings, process: ["study", "--process", process or "A", "--frames", str(settings["frames"])],
        columns=("pages", "distinct", "ring", "lru", "least"), counts=counts_of_study),
}
