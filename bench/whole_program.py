#!/usr/bin/env python3
"""Records a program to its end, and measures the program `neqysbar` on that trace.

    python3 bench/whole_program.py [--program FILE] [--frames N] [--limit N] [PROGRAM WORD ..]

Without a PROGRAM it records `ls -l /etc /usr/share /usr/sbin`, from its first reference on. It prints how many references and
requests that gives, and of `serial`, of `study` of as many frames as the limit, and of `check` of the log that
`serial` wrote how long each took and how much memory. It needs valgrind; the trace isn't kept. Status 0: the
recording reached the program's end, and each of the three ended with status 0. Status 1: not so.
"""

import argparse
import os
import pathlib
import re
import shutil
import subprocess
import sys
import tempfile
import time

TOP = pathlib.Path(__file__).resolve().parent.parent
WHOLE = ["ls", "-l", "/etc", "/usr/share", "/usr/sbin"]


def recorded(trace, frames, limit, words):
    """Records the program; the line that says what part of it was kept."""
    done = subprocess.run([sys.executable, TOP / "record/record.py", "--from", "start", "--whole", "--frames", str(frames),
                           "--limit", str(limit), "--output", trace, "--run", *words],
                          stdout=subprocess.DEVNULL, stderr=subprocess.PIPE, text=True, check=True)
    told = re.search(r"(\d+) of the (\d+) references .*, (\d+) requests", done.stderr)
    if told and told[1] != told[2]:
        sys.exit(f"bench: the recording doesn't reach the program's end: {told[0]}")
    requests = sum(1 for line in open(trace, encoding="ascii") if re.match(r"[A-P] [RWM]\d? ", line))
    return told[0] if told else f"each reference is one request or is kept whole, {requests} requests"


def measured(program, words, source, output):
    """Runs a command; its seconds, and its peak memory in megabytes."""
    with open(source, "rb") as lines, open(output, "wb") as sink:
        begun = time.time()
        child = subprocess.Popen([program, *words], stdin=lines, stdout=sink)
        _, status, usage = os.wait4(child.pid, 0)
        seconds = time.time() - begun
    if os.waitstatus_to_exitcode(status) != 0:
        sys.exit(f"bench: {words[0]} ended with status {os.waitstatus_to_exitcode(status)}")
    return seconds, usage.ru_maxrss * 1024 / 1e6


def main():
    words = argparse.ArgumentParser(description=__doc__, formatter_class=argparse.RawDescriptionHelpFormatter)
    words.add_argument("--program", default=str(TOP / "release/neqysbar"))
    words.add_argument("--frames", type=int, default=256)
    words.add_argument("--limit", type=int, default=64)
    words.add_argument("run", nargs=argparse.REMAINDER)
    options = words.parse_args()
    if not shutil.which("valgrind"):
        sys.exit("bench: there is no valgrind")
    with tempfile.TemporaryDirectory() as name:
        folder = pathlib.Path(name)
        trace, log, both, out = (folder / part for part in ("trace", "log", "both", "out"))
        print(recorded(trace, options.frames, options.limit, options.run or WHOLE), flush=True)
        for command, source, kept in ((["serial"], trace, log),
                                      (["study", "--process", "A", "--frames", str(options.limit)], trace, out),
                                      (["check"], both, out)):
            if command == ["check"]:
                with open(both, "wb") as sink:
                    for part, end in ((trace, b"LOG\n"), (log, b"")):
                        with open(part, "rb") as lines:
                            shutil.copyfileobj(lines, sink)
                        sink.write(end)
            seconds, memory = measured(options.program, command, source, kept)
            print(f"{command[0]}: {seconds:.1f} seconds, {memory:.0f} MB", flush=True)
        with open(log, "rb") as lines:
            entries = sum(1 for line in lines)
        print(f"the log has {entries} lines with its report")


if __name__ == "__main__":
    main()
