"""Opens recordings, and writes traces: a trace has its name only once it is whole."""

import contextlib
import gzip
import itertools
import os
import stat
import sys
import tempfile

from trace_limits import RecordError

LINES_OF_A_WRITE = 4096


class WriteError(RecordError):
    """The trace can't be written."""


def spoken(name):
    """The recording's name in messages."""
    return "standard input" if name == "-" else name


def open_recording(name):
    """A file, one that gzip has packed, or standard input."""
    if name == "-":
        if sys.stdin is None:
            raise RecordError("there is no standard input")
        return sys.stdin.buffer
    try:
        return gzip.open(name, "rb") if name.endswith(".gz") else open(name, "rb")
    except OSError as fault:
        raise RecordError(f"{name} can't be read: {fault.strerror}") from None


def check_names(names, output):
    """Standard input can be read once, and no recording is written over."""
    if names.count("-") > 1:
        raise RecordError("standard input is given twice")
    for name in names:
        with contextlib.suppress(OSError):
            if output and os.path.isfile(output) and os.path.samefile(name, output):
                raise RecordError(f"{output} is a recording, and would be written over")


class Output:
    """Where a trace goes: a file that gets its name at the end, so that a run that fails leaves none; or
    standard output, where the name is None."""

    def __init__(self, name):
        self.name = name
        self.path = None    # the name that it has until then

    def __enter__(self):
        if self.name is None:
            if sys.stdout is None:
                raise WriteError("there is no standard output")
            self.file = sys.stdout
        elif os.path.exists(self.name) and not stat.S_ISREG(os.stat(self.name).st_mode):
            self.file = open(self.name, "w", encoding="ascii")
        else:
            self.name = os.path.realpath(self.name)
            try:
                handle, self.path = tempfile.mkstemp(dir=os.path.dirname(self.name), prefix=".record-")
            except OSError as fault:
                raise WriteError(f"{self.name} can't be written: {fault.strerror}") from None
            os.chmod(self.path, self.mode())
            self.file = os.fdopen(handle, "w", encoding="ascii")
        return self

    def mode(self):
        """The permissions that a new file has, or those of the one that is there."""
        with contextlib.suppress(FileNotFoundError):
            return stat.S_IMODE(os.stat(self.name).st_mode)
        mask = os.umask(0)
        os.umask(mask)
        return 0o666 & ~mask

    def write(self, lines):
        lines = iter(lines)
        try:
            while some := list(itertools.islice(lines, LINES_OF_A_WRITE)):
                self.file.write("\n".join(some) + "\n")
            self.file.flush()
        except OSError as fault:
            if self.name is None:
                # else Python would try it again at its own end
                os.dup2(os.open(os.devnull, os.O_WRONLY), sys.stdout.fileno())
            raise WriteError(f"{self.name or 'standard output'} can't be written: {fault.strerror}") from None

    def __exit__(self, kind, fault, trace):
        if self.name is not None:
            with contextlib.suppress(OSError):
                self.file.close()
        if self.path and kind is None:
            os.replace(self.path, self.name)
        elif self.path:
            os.unlink(self.path)
