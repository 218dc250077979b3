"""Where the points of a sweep are run: here, on several processors, or on a Dask cluster."""

from __future__ import annotations

import concurrent.futures
import os
import signal
import threading
import time
from concurrent.futures.process import BrokenProcessPool
from typing import Any, Iterator, Optional, Union

from .points import NotRun, Point, result_of

Result = Union["dict[str, Any]", NotRun]
# how often a cluster runs a point again whose worker was lost
RETRIES = 3
SECONDS_TO_REACH = 30


def result_or_fault(point: Point) -> Result:
    """The result of a point, or why it has none."""
    try:
        return result_of(point)
    except NotRun as fault:
        return fault


def processors() -> int:
    """How many processors this process may use."""
    return len(os.sched_getaffinity(0)) if hasattr(os, "sched_getaffinity") else os.cpu_count() or 1


def begin_worker(parent: int) -> None:
    """A worker leaves the interrupt to its parent, and ends when that has ended in any way."""
    def watch() -> None:
        while os.getppid() == parent:
            time.sleep(1)
        os._exit(1)

    signal.signal(signal.SIGINT, signal.SIG_IGN)
    signal.signal(signal.SIGTERM, signal.SIG_DFL)
    threading.Thread(target=watch, daemon=True).start()


def run_here(points: list[Point], jobs: int) -> Iterator[tuple[Point, Result]]:
    """The results as they come, by so many processes; by this one alone if it is one."""
    if jobs == 1:
        for point in points:
            yield point, result_or_fault(point)
        return
    pool = concurrent.futures.ProcessPoolExecutor(jobs, initializer=begin_worker, initargs=(os.getpid(),))
    try:
        point_of = {pool.submit(result_or_fault, point): point for point in points}
        for future in concurrent.futures.as_completed(point_of):
            try:
                yield point_of[future], future.result()
            except BrokenProcessPool:
                yield point_of[future], NotRun("a worker process ended")
    finally:
        pool.shutdown(wait=True, cancel_futures=True)


def run_by_dask(points: list[Point], address: str) -> Iterator[tuple[Point, Result]]:
    """The results as they come, by the workers of the Dask cluster whose scheduler has this address.

    A cluster that can't be reached is an OSError.
    """
    from distributed import Client, as_completed

    try:
        client = Client(address, timeout=SECONDS_TO_REACH)
    except (OSError, ValueError) as fault:
        raise OSError(f"there is no Dask scheduler at {address}: {fault}") from None
    try:
        futures = client.map(result_or_fault, points, pure=False, retries=RETRIES)
        point_of = dict(zip(futures, points))
        for future in as_completed(futures):
            why = future.exception()
            result = future.result() if why is None else NotRun(f"the cluster: {type(why).__name__}: {why}")
            yield point_of[future], result
    finally:
        client.close()


def results_of(points: list[Point], jobs: int, address: Optional[str]) -> Iterator[tuple[Point, Result]]:
    """Each point with its result, in the order in which they come."""
    return run_by_dask(points, address) if address else run_here(points, jobs)
