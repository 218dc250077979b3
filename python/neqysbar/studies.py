"""The lines of a study."""

from __future__ import annotations

import dataclasses
from typing import Optional

from .reports import last_status

# how many numbers each line has
NUMBERS = {"PAGES": 1, "RING": 2, "LRU": 2, "LEAST": 2, "DROP": 1, "CUT": 1}


class NoStudy(ValueError):
    """A text that isn't what a study writes."""


@dataclasses.dataclass(frozen=True)
class Study:
    """What a study with `frames` frames says of a process's references.

    `ring` and `least` are faults with that many frames, `lru` the faults with 1 frame and more, by their
    number. `drops` and `cuts` are places in the list of references, from 1.
    """

    pages: int
    distinct: int
    frames: int
    ring: int
    lru: dict[int, int]
    least: int
    drops: list[int]
    cuts: list[int]
    status: Optional[int]


def read_study(text: str) -> Study:
    """What `study` writes, as a record. Another text is a NoStudy, which names the line."""
    lines = text.splitlines()
    rows: dict[str, list[list[int]]] = {kind: [] for kind in NUMBERS}
    distinct = None
    for line in lines:
        words = line.split(" ")
        if words[0] == "STATUS":
            continue
        if words[0] == "PAGES" and len(words) == 4 and words[2] == "DISTINCT" and words[3].isdecimal():
            distinct = int(words[3])
            words = words[:2]
        if len(words) - 1 != NUMBERS.get(words[0], -1) or not all(word.isdecimal() for word in words[1:]):
            raise NoStudy(f"no line of a study: {line}")
        rows[words[0]].append([int(word) for word in words[1:]])
    if distinct is None or any(len(rows[kind]) != 1 for kind in ("PAGES", "RING", "LEAST")):
        raise NoStudy("a study has one line PAGES, one RING and one LEAST")
    return Study(
        pages=rows["PAGES"][0][0], distinct=distinct, frames=rows["RING"][0][0], ring=rows["RING"][0][1],
        lru={frames: faults for frames, faults in rows["LRU"]}, least=rows["LEAST"][0][1],
        drops=[row[0] for row in rows["DROP"]], cuts=[row[0] for row in rows["CUT"]], status=last_status(lines))
