"""Records as rows of a table."""

from __future__ import annotations

import dataclasses
from typing import Any, Iterable

# words that are hexadecimal digits: `0x` before them keeps them text where a table is opened
HEXADECIMAL = frozenset(("address", "value", "reply"))


def row_of(record: Any) -> dict[str, Any]:
    """A record's fields by name; an address, a value and a reply as text with `0x` before it.

    Without that a spreadsheet, or a reader of CSV, takes 00000200 for the number 200 and 00001E05 for
    a power of ten.
    """
    row = {field.name: getattr(record, field.name) for field in dataclasses.fields(record)}
    return {name: f"0x{value}" if name in HEXADECIMAL and value is not None else value for name, value in row.items()}


def to_frame(records: Iterable[Any]) -> Any:
    """A pandas DataFrame with a row for each record: entries, or frames or processes of a report or a dump.

    Numbers that may be missing are of pandas' type Int64, so that they stay whole. Without pandas it is
    an ImportError that says so.
    """
    try:
        import pandas
    except ImportError:
        raise ImportError("to_frame needs pandas, which isn't there") from None
    rows = [row_of(record) for record in records]
    table = pandas.DataFrame(rows)
    for name in table.columns:
        values = [row[name] for row in rows if row[name] is not None]
        if values and all(type(value) is int for value in values):
            table[name] = pandas.array([row[name] for row in rows], dtype="Int64")
    return table
