"""Runs a program under valgrind, and finds where it begins: at its main, at its entry point, or where the user
says."""

import os
import re
import shutil
import struct
import subprocess

from elf_symbols import Program
from trace_limits import RecordError

READING = re.compile(rb"^--\d+-- Reading syms from (.*)\n(?:--\d+-- +svma 0x([0-9a-f]+), "
                     rb"avma 0x([0-9a-f]+))?", re.M)
# a child that has forked and started no program of its own would write between its parent's lines
LACKEY_WORDS = ["valgrind", "-v", "-v", "--tool=lackey", "--trace-mem=yes", "--child-silent-after-fork=yes"]
CHILDREN_FAULTS = 8     # of the words behind the name in the process's stat: page faults of those that it waited for
NOT_TOLD = "it doesn't say where the program was loaded (valgrind does with -v -v)"
NOT_TOLD_OF = "it doesn't say where the program was loaded (valgrind doesn't of a program without data of its own)"


def loaded_program(head):
    """From the first lines of a lackey recording: the program's file, and how far from its own addresses it
    was loaded."""
    found = READING.search(head)
    if not found:
        raise ValueError(NOT_TOLD)
    name = os.fsdecode(found[1])
    if os.path.basename(name).startswith("lackey-"):    # valgrind's own comes behind the program's
        raise ValueError(NOT_TOLD_OF)
    try:
        if found[2] is None:
            raise ValueError("valgrind doesn't say where it was loaded")
        if os.path.exists(name) and not os.path.isfile(name):
            raise ValueError("it is no file")
        return name, Program(name), int(found[3], 16) - int(found[2], 16)
    except (OSError, ValueError, IndexError, struct.error) as fault:
        raise ValueError(f"{name} can't be looked at: {why_of(fault)}") from None


def why_of(fault):
    if isinstance(fault, OSError):
        return fault.strerror
    return "its tables are damaged" if isinstance(fault, (IndexError, struct.error)) else str(fault)


def place_of(start, head):
    """The run-time address at which a recording begins, and what begins there, in words."""
    name, program, moved = loaded_program(head)
    try:
        if start is not None and start[0] == "fetch":
            if not program.has_code_at(start[1]):
                return start[1], ""
            return start[1] + moved, f"0x{start[1]:x} of {name}"
        if start is not None and start[1] != "main":
            return program.address_of(start[1], name) + moved, f"{start[1]} of {name}"
        mains = program.addresses_of("main")
        if len(mains) == 1:
            return mains[0] + moved, f"main of {name}"
        return program.entry + moved, f"the entry point of {name}"
    except (IndexError, struct.error) as fault:
        raise ValueError(f"{name} can't be looked at: {why_of(fault)}") from None


def begin_of(start, head, tells_loading):
    """Where a recording begins whose first lines are given: "start" or ("fetch", address); what begins there, in
    words; and what the user should know of it. `start` is None where the user hasn't said."""
    if not tells_loading:
        if start is not None and start[0] == "symbol":
            raise RecordError(f"--from {start[1]} needs a recording of valgrind's lackey, which says where the program "
                              "was loaded; --from start takes it from its beginning")
        return start or "start", "", ""
    try:
        address, words = place_of(start, head)
        return ("fetch", address), words, ""
    except ValueError as fault:
        if start is None:
            return "start", "", f"{fault}, so it begins with its first reference"
        if start[0] == "symbol":
            raise RecordError(f"{fault}; --from start takes it from its beginning") from None
        return start, "", ""


def started_others(pid, ended):
    """Whether a process has waited for processes that it started; one that has ended isn't waited for before."""
    try:
        if ended:
            os.waitid(os.P_PID, pid, os.WEXITED | os.WNOWAIT)
        with open(f"/proc/{pid}/stat", "rb") as file:
            words = file.read().rpartition(b")")[2].split()
    except OSError:
        return False
    return int(words[CHILDREN_FAULTS]) > 0


def check_there(words):
    if not shutil.which(words[0]):
        raise RecordError(f"there is no program \"{words[0]}\"")
    if not shutil.which("valgrind"):
        raise RecordError("valgrind isn't there; a recording can be read from a file instead")


def start_lackey(words):
    """Starts a program under lackey; gives the process and the file of its references. What the
    program prints goes to standard error."""
    check_there(words)
    read_end, write_end = os.pipe()
    child = subprocess.Popen([*LACKEY_WORDS, f"--log-fd={write_end}", *words],
                             pass_fds=(write_end,), stdin=subprocess.DEVNULL, stdout=2)
    os.close(write_end)
    return child, os.fdopen(read_end, "rb")
