"""Runs a trace with many settings, and makes a table of what comes out.

    python -m neqysbar.sweep sort.trace --command serial --limit 4:8 --param HILIMIT=2,4 --output sort.csv
    python -m neqysbar.sweep sort.trace --command study --process A --frames 1:64 --output faults.csv

The whole product of the settings is run, each point by one call of the library, on all processors. A
point that is in the table already isn't run again, so a sweep that was broken off goes on with the same
command line. A setting that the trace's rules refuse is a point with a failure, which is named.
"""

from __future__ import annotations

import argparse
import contextlib
import importlib.util
import os
import re
import signal
import sys
from typing import Iterator, Optional

from .calls import library_path
from .measures import COMMANDS, TRACE_SETTINGS
from .point_table import NoTable, Table, write_parquet
from .points import NotRun, Point, points_of, values_of
from .workers import processors, results_of

# exit statuses beside argparse's 2
DONE, FAILED, USAGE, BROKEN_OFF = 0, 1, 2, 130
MOST_NAMED = 20
EPILOG = """VALUES are numbers with commas between them, or FIRST:LAST:STEP, LAST included.

--limit, --quota, --extent and --locks are set for each process. For `study` --frames is how many frames
are studied; for the other commands it is the trace's line FRAMES.

Status 0: each point has its result. 1: points failed, or weren't run; they are named. 2: the command
line, a trace or the table can't be used. 130: broken off; the finished points are in the table."""


class Refused(Exception):
    """The sweep can't begin, with the reason."""


class Progress:
    """A bar of tqdm on a terminal, if tqdm is there, else a line for each tenth."""

    def __init__(self, total: int, before: int) -> None:
        self.total, self.done, self.bar, self.told = total, before, None, 10 * before // max(total, 1)
        if sys.stderr.isatty():
            with contextlib.suppress(ImportError):
                import tqdm
                self.bar = tqdm.tqdm(total=total, initial=before, unit="point")

    def step(self) -> None:
        self.done += 1
        if self.bar is not None:
            self.bar.update()
        elif 10 * self.done // self.total > self.told:
            self.told = 10 * self.done // self.total
            print(f"sweep: {self.done} of {points_text(self.total)}", file=sys.stderr, flush=True)

    def close(self) -> None:
        if self.bar is not None:
            self.bar.close()


def points_text(count: int) -> str:
    return "1 point" if count == 1 else f"{count} points"


def number_list(text: str) -> list[int]:
    try:
        return values_of(text)
    except ValueError as fault:
        raise argparse.ArgumentTypeError(str(fault)) from None


def parameter(text: str) -> tuple[str, list[int]]:
    found = re.fullmatch(r"([A-Z][A-Z0-9]*)=(.*)", text, re.ASCII)
    if not found:
        raise argparse.ArgumentTypeError(f"{text!r} isn't NAME=VALUES, with the name in capitals")
    return found[1], number_list(found[2])


def part(text: str) -> tuple[int, int]:
    found = re.fullmatch(r"(\d{1,6})/(\d{1,6})", text, re.ASCII)
    if not found or not 1 <= int(found[1]) <= int(found[2]):
        raise argparse.ArgumentTypeError(f"{text!r} isn't K/N with K from 1 to N")
    return int(found[1]), int(found[2])


def at_least_one(text: str) -> int:
    if not re.fullmatch(r"[1-9]\d{0,3}", text, re.ASCII):
        raise argparse.ArgumentTypeError(f"{text!r} isn't a number from 1 to 9999")
    return int(text)


def parser() -> argparse.ArgumentParser:
    made = argparse.ArgumentParser(prog="python -m neqysbar.sweep", description=(__doc__ or "").split("\n\n")[0],
                                   epilog=EPILOG, formatter_class=argparse.RawDescriptionHelpFormatter,
                                   allow_abbrev=False)
    made.add_argument("traces", nargs="+", metavar="TRACE", help="a file with a trace")
    made.add_argument("--command", required=True, choices=sorted(COMMANDS), help="what is run at each point")
    made.add_argument("--output", required=True, metavar="FILE", help="the table, as CSV; it is made, or gone on with")
    made.add_argument("--process", metavar="X", choices="ABCDEFGHIJKLMNOP", help="the process that is studied")
    for name in TRACE_SETTINGS:
        made.add_argument(f"--{name}", type=number_list, metavar="VALUES", help=f"values of {name}")
    made.add_argument("--param", type=parameter, action="append", default=[], metavar="NAME=VALUES",
                      help="values of a parameter; may be given again for another one")
    made.add_argument("--jobs", type=at_least_one, metavar="N", help="so many processes (default: one for each processor)")
    made.add_argument("--dask", metavar="ADDRESS", help="the scheduler of a Dask cluster, whose workers run the points")
    made.add_argument("--part", type=part, metavar="K/N", help="run the K-th of N parts of the points alone")
    made.add_argument("--take", action="append", default=[], metavar="FILE",
                      help="take the points that this table has, as of a part; may be given again")
    made.add_argument("--parquet", metavar="FILE", help="write the table as Parquet as well")
    made.add_argument("--list", action="store_true", help="print the points that would be run, and run none")
    return made


def settings_of(words: argparse.Namespace) -> dict[str, list[int]]:
    """The settings by name, each with its values. What the command doesn't take is Refused."""
    command = COMMANDS[words.command]
    given: dict[str, list[int]] = {}
    for name in TRACE_SETTINGS:
        if getattr(words, name):
            given[name] = getattr(words, name)
    for name, values in words.param:
        if name in given:
            raise Refused(f"--param {name} is given twice")
        given[name] = values
    for name in given:
        if name not in command.own and not command.rewrites:
            raise Refused(f"{words.command} looks at the references alone, so {name} would change nothing")
    for name in command.own:
        if name not in given:
            raise Refused(f"{words.command} needs --{name}")
    if command.asks_process and not words.process:
        raise Refused(f"{words.command} needs --process")
    if words.process and not command.asks_process:
        raise Refused(f"{words.command} runs all processes: --process is for study")
    return given


def needed(words: argparse.Namespace) -> None:
    """What the sweep needs is there, else it is Refused, before anything is run."""
    def there(module: str) -> bool:
        return importlib.util.find_spec(module) is not None

    if words.dask and not there("distributed"):
        raise Refused("--dask needs the package distributed, which isn't there")
    if words.parquet and not (there("pandas") and (there("pyarrow") or there("fastparquet"))):
        raise Refused("--parquet needs pandas and pyarrow, which aren't there")
    if words.parquet and os.path.abspath(words.parquet) == os.path.abspath(words.output):
        raise Refused("--parquet and --output are one file")
    if words.dask and words.jobs:
        raise Refused("--jobs is for this machine, --dask for a cluster: give one of them")
    if any(set(path) & set("\r\n") for path in words.traces):
        raise Refused("a trace's name has a line end in it")
    try:
        library_path()
    except OSError as fault:
        raise Refused(str(fault)) from None


def wanted_points(words: argparse.Namespace) -> list[Point]:
    settings = settings_of(words)
    try:
        points = list(points_of(list(dict.fromkeys(words.traces)), words.command, words.process, settings))
    except OSError as fault:
        raise Refused(f"{fault.filename} can't be read: {fault.strerror}") from None
    return points[words.part[0] - 1::words.part[1]] if words.part else points


def run_points(points: list[Point], table: Table, words: argparse.Namespace) -> list[str]:
    """Runs the points that the table doesn't have; returns those that weren't run, with the reason."""
    missing = [point for point in points if point.key() not in table.rows]
    progress = Progress(len(points), len(points) - len(missing))
    left: list[str] = []
    try:
        for point, result in results_of(missing, min(words.jobs or processors(), max(len(missing), 1)), words.dask):
            if isinstance(result, NotRun):
                left.append(f"{point.name()}: not run: {result}")
            else:
                table.add(result)
            progress.step()
    finally:
        progress.close()
    return left


def failures(points: list[Point], table: Table) -> Iterator[str]:
    """The points that have a failure in the table."""
    place = table.header.index("failure")
    for point in points:
        row = table.rows.get(point.key())
        if row and row[place]:
            yield f"{point.name()}: {row[place]}"


def tell(points: list[Point], table: Table, left: list[str]) -> int:
    """Names what failed, and returns the exit status."""
    named = [*left, *failures(points, table)]
    for text in named[:MOST_NAMED]:
        print(f"sweep: {text}", file=sys.stderr)
    if len(named) > MOST_NAMED:
        print(f"sweep: and {len(named) - MOST_NAMED} more; the table names them in its column failure", file=sys.stderr)
    print(f"sweep: {points_text(len(points))} in {table.path}, {len(named) - len(left)} failed, {len(left)} not run",
          file=sys.stderr)
    return FAILED if named else DONE


def sweep(words: argparse.Namespace) -> int:
    needed(words)
    points = wanted_points(words)
    if words.list:
        for point in points:
            print(point.name())
        return DONE
    table = Table(words.output, words.command, settings_of(words))
    try:
        for path in words.take:
            table.take(path)
        left = run_points(points, table, words)
        table.put_in_order(point.key() for point in points)
        if words.parquet:
            write_parquet(words.parquet, words.output)
        return tell(points, table, left)
    finally:
        table.close()


def break_off(number: int, frame: object) -> None:
    raise KeyboardInterrupt


def main(words: Optional[list[str]] = None) -> int:
    signal.signal(signal.SIGTERM, break_off)
    try:
        return sweep(parser().parse_args(words))
    except (Refused, NoTable, OSError) as fault:
        print(f"sweep: {fault}", file=sys.stderr)
        return USAGE
    except KeyboardInterrupt:
        print("sweep: broken off; the finished points are in the table, and the same command goes on", file=sys.stderr)
        return BROKEN_OFF


if __name__ == "__main__":
    sys.exit(main())
