"""The table of a sweep: a CSV file to which each finished point is appended as a line."""

from __future__ import annotations

import csv
import io
import os
import pathlib
import stat
from typing import Any, Iterable

from .files import file_bytes
from .measures import COMMANDS

try:
    import fcntl
except ImportError:  # no Unix: two sweeps on one table aren't kept apart
    fcntl = None  # type: ignore[assignment]

FIXED = ("version", "trace", "sha256", "command", "process")


class NoTable(Exception):
    """The table can't be used, with the reason."""


def rows_of(data: bytes, header: list[str], path: str) -> dict[tuple[str, ...], list[str]]:
    """The rows of a table by their keys. A last line that isn't ended is left out."""
    data = data[:data.rfind(b"\n") + 1]
    try:
        rows = list(csv.reader(io.StringIO(data.decode("utf-8"), newline=""), strict=True))
    except (UnicodeDecodeError, csv.Error) as fault:
        raise NoTable(f"{path} is no table of a sweep: {fault}") from None
    if rows and rows[0] != header:
        raise NoTable(f"{path} is no table of this sweep: its columns are {', '.join(rows[0])[:200]}, "
                      f"and would be {', '.join(header)}; another --output does")
    width = header.index("status")
    if any(len(row) != len(header) for row in rows):
        raise NoTable(f"{path} is no table of a sweep: a line has more or fewer words than the first one")
    return {tuple(row[:width]): row for row in rows[1:]}


class Table:
    """A table that is open for one sweep."""

    def __init__(self, path: str, command: str, settings: Iterable[str]) -> None:
        self.path = path
        self.header = [*FIXED, *settings, "status", "failure", *COMMANDS[command].columns]
        try:
            # without a buffer: a line is in the file when `add` returns
            self.file = open(path, "a+b", buffering=0)
        except OSError as fault:
            raise NoTable(f"{path} can't be opened: {fault.strerror}") from None
        if not stat.S_ISREG(os.fstat(self.file.fileno()).st_mode):
            raise NoTable(f"{path} is no file")
        self.take_hold()
        self.file.seek(0)
        data = self.file.read()
        self.rows = rows_of(data, self.header, path)
        whole = data.rfind(b"\n") + 1
        if not whole and not self.line(self.header).startswith(data):
            raise NoTable(f"{path} is no table of a sweep; it is left as it is")
        if whole < len(data):
            self.file.truncate(whole)
        if not whole:
            self.put(self.line(self.header))

    def put(self, data: bytes) -> None:
        try:
            while data:
                data = data[self.file.write(data):]
        except OSError as fault:
            raise NoTable(f"{self.path} can't be written: {fault.strerror}") from None

    def take_hold(self) -> None:
        if not fcntl:
            return
        try:
            fcntl.flock(self.file, fcntl.LOCK_EX | fcntl.LOCK_NB)
        except OSError:
            raise NoTable(f"another sweep writes to {self.path}") from None

    @staticmethod
    def line(row: Iterable[Any]) -> bytes:
        text = io.StringIO(newline="")
        csv.writer(text, lineterminator="\n").writerow(row)
        return text.getvalue().encode("utf-8")

    def add(self, row: dict[str, Any]) -> None:
        """Puts a point's row into the file."""
        words = [str(row.get(name, "")) for name in self.header]
        self.rows[tuple(words[:self.header.index("status")])] = words
        self.put(self.line(words))

    def take(self, path: str) -> None:
        """Puts the rows of another table of the same sweep into this one."""
        try:
            data = file_bytes(path)
        except OSError as fault:
            raise NoTable(f"{path} can't be read: {fault.strerror}") from None
        for key, words in rows_of(data, self.header, path).items():
            if key not in self.rows:
                self.add(dict(zip(self.header, words)))

    def put_in_order(self, keys: Iterable[tuple[str, ...]]) -> None:
        """Puts the rows into the order of the points, with those of other points behind them."""
        first = [key for key in keys if key in self.rows]
        known = set(first)
        ordered = [self.rows[key] for key in [*first, *(key for key in self.rows if key not in known)]]
        beside = f"{self.path}.{os.getpid()}.new"
        try:
            with open(beside, "wb") as out:
                out.write(b"".join(self.line(row) for row in [self.header, *ordered]))
                out.flush()
                os.fsync(out.fileno())
            os.replace(beside, self.path)
        except OSError as fault:
            pathlib.Path(beside).unlink(missing_ok=True)
            raise NoTable(f"{self.path} is whole, but can't be put in order: {fault.strerror}") from None

    def close(self) -> None:
        self.file.close()


def write_parquet(path: str, table: str) -> None:
    """The table as Parquet, by pandas; what a failed point doesn't have is missing there."""
    import pandas

    with open(table, encoding="utf-8", newline="") as source:
        numbers = [name for name in next(csv.reader(source)) if name not in (*FIXED, "failure")]
    rows = pandas.read_csv(table, dtype=dict.fromkeys((*FIXED, "failure"), str), keep_default_na=False,
                           na_values={name: [""] for name in numbers})
    rows.astype(dict.fromkeys(numbers, "Int64")).to_parquet(path, index=False)
