"""The ways in which the threads of a program are got out of step, for the races of threads.py.

A way is `plain`, or some of these words with a `+` between them:

    jitter    a library that is loaded before the C library waits at random round the lock's calls of the system
    held      that library holds single threads, wherever they are, for up to a millisecond each
    stopped   the whole program is stopped and let go, by signals
    one       the program is bound to one processor
    robin     real-time round robin, bound to one processor
    napping   no worker that has nothing to do looks up for a second and a half, and that library ends the program
              with status 99 if a thread sleeps on beside a lock that is free: a wake was missed. Else the next turn
              of a worker would make good for it. A run takes some seconds

What can't be had, for want of a compiler or of the right to it, is said by `Way.why_not`.
"""

import os
import random
import shutil
import signal
import subprocess
import time

PLAIN = "plain"
WORDS = ("jitter", "held", "stopped", "one", "robin", "napping")
ALL = (PLAIN, "jitter", "held", "jitter+held", "stopped", "one+jitter", "one+held", "robin+held")

SOURCE = os.path.join(os.path.dirname(os.path.abspath(__file__)), "jitter.c")
LONGEST_STOP = 0.005  # seconds
NAP = 1500  # milliseconds
PRELOADED = {"jitter": "JITTER", "held": "HOLD", "napping": "NAP"}


class Late(Exception):
    """A program didn't end in time. What its threads did then is the exception's text."""


def parts(name):
    return () if name == PLAIN else tuple(name.split("+"))


def is_way(name):
    return all(word in WORDS for word in parts(name))


def library(folder):
    """Makes the library in that folder. Its path, or None where there is no compiler."""
    compiler = shutil.which("cc")
    if compiler is None:
        return None
    made = os.path.join(folder, "jitter.so")
    subprocess.run([compiler, "-shared", "-fPIC", "-O1", "-Wall", "-o", made, SOURCE, "-ldl", "-lpthread"], check=True)
    return made


def threads_of(pid):
    """How many threads of a process are in which state, for instance `1 R, 17 S`."""
    states = {}
    for thread in os.listdir(f"/proc/{pid}/task"):
        with open(f"/proc/{pid}/task/{thread}/stat", encoding="ascii", errors="replace") as f:
            state = f.read().rpartition(")")[2].split()[0]
        states[state] = states.get(state, 0) + 1
    return ", ".join(f"{n} {state}" for state, n in sorted(states.items()))


class Way:
    """A way, with the library that it may need, and a seed."""

    def __init__(self, name, made, seed):
        self.words, self.made, self.seed = parts(name), made, seed

    def bind(self):
        """Binds this process to a processor and chooses the round robin."""
        if "one" in self.words or "robin" in self.words:
            processors = sorted(os.sched_getaffinity(0))
            os.sched_setaffinity(0, {processors[self.seed % len(processors)]})
        if "robin" in self.words:
            os.sched_setscheduler(0, os.SCHED_RR, os.sched_param(os.sched_get_priority_min(os.SCHED_RR)))

    def why_not(self):
        """Why it can't be gone here, or None if it can."""
        if self.made is None and set(PRELOADED) & set(self.words):
            return "there is no C compiler cc"
        try:
            subprocess.run(["true"], preexec_fn=self.bind, check=True)
        except (OSError, AttributeError, subprocess.SubprocessError):
            return "this user mustn't choose round robin" if "robin" in self.words else "a process can't be bound to a processor"
        return None

    def surrounding(self):
        """The environment of a run."""
        kept = dict(os.environ)
        for word, name in PRELOADED.items():
            if word in self.words:
                kept[name] = str(NAP if word == "napping" else self.seed)
                kept["LD_PRELOAD"] = self.made
        return kept

    def stop_and_go(self, child, end):
        """Stops a child and lets it go, again and again, until it has ended or is late."""
        draws = random.Random(self.seed)
        while child.poll() is None and time.monotonic() < end:
            child.send_signal(signal.SIGSTOP)
            time.sleep(draws.uniform(0, LONGEST_STOP))
            child.send_signal(signal.SIGCONT)
            time.sleep(draws.uniform(0, LONGEST_STOP))

    def run(self, words, files, limit):
        """Runs a program from a file to a file. Its status; or Late, with the program ended."""
        with open(files[0], "rb") as source, open(files[1], "wb") as sink:
            child = subprocess.Popen(
                words, stdin=source, stdout=sink, stderr=subprocess.DEVNULL, env=self.surrounding(), preexec_fn=self.bind
            )
        end = time.monotonic() + limit
        try:
            if "stopped" in self.words:
                self.stop_and_go(child, end)
            return child.wait(max(0.001, end - time.monotonic()))
        except subprocess.TimeoutExpired:
            raise Late(threads_of(child.pid)) from None
        finally:
            if child.poll() is None:
                child.kill()
                child.wait()
