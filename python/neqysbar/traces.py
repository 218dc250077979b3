"""Other settings for a trace: its lines are rewritten in memory."""

from __future__ import annotations

from typing import Mapping

# the settings of a process's line, by the place of their word
PLACES = {"limit": 2, "quota": 3, "extent": 4, "locks": 5}


class NotSet(ValueError):
    """The trace has no line that this setting could change."""


def words_of(line: bytes) -> list[bytes]:
    """The words of a line; none of one that is skipped."""
    words = line.rstrip(b"\r").replace(b"\t", b" ").split(b" ")
    words = [word for word in words if word]
    return [] if words and words[0].startswith(b"!") else words


def changed_line(line: bytes, settings: Mapping[str, int], found: set[str]) -> bytes:
    """The line with the settings that it has a place for, whose names go to `found`."""
    words = words_of(line)
    kind = words[0] if words else b""
    places = {}
    if kind in (b"FRAMES", b"PAGEFILE") and len(words) == 2:
        places = {kind.decode().lower(): 1}
    elif kind == b"PARAM" and len(words) == 3:
        places = {words[1].decode("ascii", "replace"): 2}
    elif kind == b"PROCESS" and len(words) == 6:
        places = PLACES
    named = [name for name in places if name in settings]
    if not named:
        return line
    found.update(named)
    for name in named:
        words[places[name]] = b"%d" % settings[name]
    return b" ".join(words) + (b"\r" if line.endswith(b"\r") else b"")


def set_lines(trace: bytes, settings: Mapping[str, int]) -> bytes:
    """The trace with these settings in place of what its lines say.

    `frames` and `pagefile` are those of the machine, `limit`, `quota`, `extent` and `locks` those of
    each process; any other name is a parameter, whose line is put behind the line PAGEFILE if the trace
    has none. What stands from BODY on isn't touched. Whether the trace is a trace, and stays one, is for
    the program to say. If there is no line to change this is a NotSet.
    """
    lines = trace.split(b"\n")
    body = next((place for place, line in enumerate(lines) if words_of(line)[:1] == [b"BODY"]), len(lines))
    found: set[str] = set()
    head = [changed_line(line, settings, found) for line in lines[:body]]
    page_file = next((place for place, line in enumerate(head) if words_of(line)[:1] == [b"PAGEFILE"]), None)
    for name in settings:
        if name in found:
            continue
        if page_file is None or name in PLACES or name in ("frames", "pagefile"):
            raise NotSet(f"the trace has no line that {name} could be set in")
        page_file += 1
        head.insert(page_file, f"PARAM {name} {settings[name]}".encode())
    return b"\n".join(head + lines[body:])
