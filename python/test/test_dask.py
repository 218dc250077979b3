#!/usr/bin/env python3
"""Tests a sweep on a Dask cluster of four worker processes, also when one of them is ended in the middle.

The cluster and the sweep run by the first of this Python and /usr/bin/python3 that has the package
distributed; Debian's package is for the latter. POINTS=10000 in the environment makes the sweep larger.
"""

import os
import pathlib
import shutil
import signal
import subprocess
import sys
import tempfile
import time
import unittest

from places import RECORDED, environment

POINTS = int(os.environ.get("POINTS", "60"))
WORKERS = 4
SECONDS = 120 + POINTS // 10

# A scheduler and so many workers, each a fork of a process that has imported distributed once. It says the scheduler's
# address and the workers' numbers once all are there, within so many seconds, and ends them when its input ends.
CLUSTER = """import asyncio, os, signal, sys
import distributed
ready, tell = os.pipe()

def forked(work, *words):
    number = os.fork()
    if number == 0:
        try:
            asyncio.run(work(*words))
        finally:
            os._exit(1)
    return number

async def serve(server):
    async with server as one:
        os.write(tell, one.address.encode() + b"\\n")
        await one.finished()

async def schedule():
    await serve(distributed.Scheduler(host="127.0.0.1", port=0, dashboard=False))

async def work(address):
    await serve(distributed.Worker(address, nthreads=1, dashboard=False, local_directory=os.getcwd()))

def late(*_):
    sys.exit("the cluster isn't there in time")

signal.signal(signal.SIGALRM, late)
signal.alarm(int(sys.argv[2]))
with os.fdopen(ready) as lines:
    children = [forked(schedule)]
    try:
        address = lines.readline().strip()
        children += [forked(work, address) for _ in range(int(sys.argv[1]))]
        for _ in children[1:]:
            lines.readline()
        signal.alarm(0)
        print(address, *children[1:], flush=True)
        sys.stdin.read()
    finally:
        for number in children:
            os.kill(number, signal.SIGKILL)
            os.waitpid(number, 0)
"""


def python_with_dask():
    for python in (sys.executable, "/usr/bin/python3"):
        if os.path.exists(python) and subprocess.run([python, "-c", "import distributed"], stderr=subprocess.DEVNULL).returncode == 0:
            return python
    return None


class Dask(unittest.TestCase):
    def setUp(self):
        self.python = python_with_dask()
        if not self.python:
            self.skipTest("sweeps on a Dask cluster: there is no package distributed")
        self.folder = pathlib.Path(tempfile.mkdtemp())
        self.addCleanup(shutil.rmtree, self.folder, ignore_errors=True)
        self.words = [str(RECORDED / "vax-sum.trace"), "--command", "serial", "--limit", "4,6",
                      "--param", f"PFRATH=1:{POINTS // 2}"]

    def end(self, process):
        """Closes the input of the cluster, which ends it, and waits for that."""
        process.stdin.close()
        try:
            process.wait(20)
        except subprocess.TimeoutExpired:
            process.kill()
            process.wait()
        process.stdout.close()

    def cluster(self):
        """The address of a scheduler with four workers, and the workers' numbers as processes."""
        log = open(self.folder / "cluster.log", "a", encoding="utf-8")
        self.addCleanup(log.close)
        env = {**environment(), "DASK_DISTRIBUTED__WORKER__PROFILE__ENABLED": "False"}
        process = subprocess.Popen([self.python, "-c", CLUSTER, str(WORKERS), str(SECONDS)], env=env, cwd=self.folder,
                                   stdin=subprocess.PIPE, stdout=subprocess.PIPE, stderr=log, text=True)
        self.addCleanup(self.end, process)
        told = process.stdout.readline().split()
        self.assertEqual(len(told), 1 + WORKERS, (self.folder / "cluster.log").read_text())
        return told[0], [int(number) for number in told[1:]]

    def sweep(self, *words):
        return subprocess.Popen([self.python, "-m", "neqysbar.sweep", *self.words, *words], env=environment(), cwd=self.folder,
                                stderr=subprocess.PIPE, text=True)

    def finished(self, sweep):
        told = sweep.communicate(timeout=SECONDS)[1]
        self.assertEqual(sweep.returncode, 0, told)

    def test_same_table(self):
        """The cluster's table is the local run's, and so it is if a worker is killed when some points are finished."""
        self.finished(self.sweep("--output", "local.csv"))
        wanted = (self.folder / "local.csv").read_bytes()
        self.assertEqual(wanted.count(b"\n"), 2 * (POINTS // 2) + 1)
        address, workers = self.cluster()
        self.finished(self.sweep("--output", "dask.csv", "--dask", address))
        self.assertEqual((self.folder / "dask.csv").read_bytes(), wanted)
        sweep = self.sweep("--output", "ended.csv", "--dask", address)
        ended, until = self.folder / "ended.csv", time.monotonic() + SECONDS
        while not ended.exists() or ended.read_bytes().count(b"\n") < 10:
            self.assertLess(time.monotonic(), until)
            time.sleep(0.01)
        os.kill(workers[0], signal.SIGKILL)
        left = ended.read_bytes().count(b"\n")
        self.assertLess(left, wanted.count(b"\n"), "the sweep was over before the worker was ended")
        self.finished(sweep)
        self.assertEqual(ended.read_bytes(), wanted)

    def test_no_cluster(self):
        sweep = subprocess.run([self.python, "-m", "neqysbar.sweep", *self.words, "--output", "t.csv", "--dask", "127.0.0.1:1"],
                               env={**environment(), "DASK_DISTRIBUTED__COMM__TIMEOUTS__CONNECT": "1s"}, cwd=self.folder,
                               stderr=subprocess.PIPE, text=True, timeout=SECONDS)
        self.assertEqual(sweep.returncode, 2)
        self.assertIn("sweep: there is no Dask scheduler at 127.0.0.1:1: ", sweep.stderr)
        self.assertNotIn("Traceback", sweep.stderr)


if __name__ == "__main__":
    unittest.main()
