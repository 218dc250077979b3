"""Records a program and the processes that it starts, each to a trace of its own."""

import contextlib
import os
import re
import shlex
import shutil
import signal
import subprocess
import tempfile
import time

from files import Output, WriteError
from options import part_of, write_trace
from programs import LACKEY_WORDS, READING, check_there
from recording import Recorded
from sources import Lackey
from trace_limits import RecordError

COMMAND = re.compile(rb"^==\d+== Command: (.*)$", re.M)
PARENT = re.compile(rb"^==\d+== Parent PID: (\d+)$", re.M)
HEAD_BYTES = 1 << 16
NAME_BYTES = 60
WAIT_SECONDS = 0.05


def lives(pid):
    """Whether this process runs still."""
    try:
        with open(f"/proc/{pid}/stat", "rb") as file:
            return file.read().rpartition(b")")[2].split()[0] not in (b"Z", b"X")
    except (OSError, IndexError):
        return False


def recorded_in(folder):
    """The numbers of the processes; a file may also be what the system keeps of one that has failed."""
    return [name for name in os.listdir(folder) if name.isdecimal()]


def run_all(words, folder):
    """Runs the program until it and all processes that it started have ended. Each writes a file of its own,
    under its process's number."""
    with subprocess.Popen([word for word in LACKEY_WORDS if "silent" not in word] + [
            "--trace-children=yes", f"--log-file={folder}/%p", *words], stdin=subprocess.DEVNULL, stdout=2,
            start_new_session=True) as child:
        try:
            child.wait()
            while any(map(lives, recorded_in(folder))):
                time.sleep(WAIT_SECONDS)
        except BaseException:
            with contextlib.suppress(ProcessLookupError):
                os.killpg(child.pid, signal.SIGKILL)
            raise


class Process:
    """One process: what valgrind said of it at the head of its file."""

    def __init__(self, folder, pid):
        self.path, self.pid = os.path.join(folder, pid), int(pid)
        with open(self.path, "rb") as file:
            head = file.read(HEAD_BYTES)
        command, parent = COMMAND.search(head), PARENT.search(head)
        self.command = os.fsdecode(command[1]) if command else "a program"
        self.parent = int(parent[1]) if parent else 0
        self.forked = not READING.search(head)      # it went on in its parent's program
        self.ended = os.stat(self.path).st_mtime_ns
        word = re.sub(r"[^A-Za-z0-9._+-]", "_", os.path.basename(self.command.split(" ")[0]))
        self.name = f"{word[:NAME_BYTES]}.{self.pid}.trace"

    def words(self):
        how = " by a fork, without a program of its own" if self.forked else ""
        return f"process {self.pid}, started by {self.parent}{how}: {self.command}"


def in_order(processes):
    """Each process before those that it started, and these in the order of their ends."""
    known, children = {one.pid for one in processes}, {}
    for one in sorted(processes, key=lambda one: one.ended):
        children.setdefault(one.parent if one.parent in known else None, []).append(one)
    waiting = children.pop(None, [])[::-1]
    while waiting or children:
        # a process whose number was given again may have its parent below it
        one = waiting.pop() if waiting else children[next(iter(children))].pop()
        waiting += children.pop(one.pid, [])[::-1]
        children = {pid: left for pid, left in children.items() if left}
        yield one


def trace_of(options, process, folder):
    """Writes the trace of one process; gives what the user should know of it."""
    part = part_of(options)
    if process.forked and (part.start is None or part.start == ("symbol", "main")):
        part.start = "start"
    with open(process.path, "rb") as file, Output(os.path.join(folder, process.name)) as output:
        told = write_trace(options, [Recorded(process.name, Lackey(process.words()), file, part)], output)
    return [f"{process.name}: {process.words()}", *(f"    {line.removeprefix(process.name + ': ')}" for line in told)]


def child_traces(options):
    """Runs the program and writes all traces, or none; gives what the user should know of them."""
    check_there(options.run)
    goal = os.path.realpath(options.output)
    if os.path.exists(goal) and not os.path.isdir(goal):
        raise RecordError(f"{options.output} is no folder, and --children needs one")
    if not os.path.isdir(os.path.dirname(goal)):
        raise RecordError(f"{options.output} can't be made: {os.path.dirname(goal)} isn't there")
    with contextlib.ExitStack() as ends:
        logs = ends.enter_context(tempfile.TemporaryDirectory(prefix="record-"))
        made = ends.enter_context(tempfile.TemporaryDirectory(prefix=".record-", dir=os.path.dirname(goal)))
        run_all(options.run, logs)
        told = []
        for process in in_order([Process(logs, pid) for pid in recorded_in(logs)]):
            try:
                told += trace_of(options, process, made)
            except WriteError:
                raise
            except RecordError as fault:
                told += [f"{process.name} isn't written: {fault}"]
            os.unlink(process.path)
        if not os.listdir(made):
            raise RecordError(f"no process of {shlex.join(options.run)} gives a trace: {'; '.join(told)}")
        os.makedirs(goal, exist_ok=True)
        for name in sorted(os.listdir(made)):
            shutil.move(os.path.join(made, name), os.path.join(goal, name))
    return told
