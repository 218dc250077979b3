"""What the scripts of this folder share: where the program is, numbers within bounds, and how they end.

A script ends with status 0, or with 2 and a line on standard error that says what is wrong.
"""

import argparse
import os
import pathlib
import shutil
import subprocess
import sys

HERE = pathlib.Path(__file__).resolve().parent
# the exit status of a program whose output nobody reads any more
NO_READER = 141


class Refused(Exception):
    """What was asked for can't be done; the text says why."""


def program():
    """The program: that which NEQYSBAR in the environment names, the repository's, or one in the PATH."""
    named = os.environ.get("NEQYSBAR")
    own = HERE.parent / "neqysbar"
    found = named or (str(own) if own.exists() else shutil.which("neqysbar"))
    if not found:
        raise Refused("there is no neqysbar, neither beside this folder nor in the PATH; NEQYSBAR may name one")
    return found


def output_of(words, trace):
    """What the program writes for a trace, given as bytes, and what it says on standard error."""
    path = program()
    try:
        done = subprocess.run([path, *words], input=trace, capture_output=True)
    except OSError as fault:
        raise Refused(f"{path} can't be run: {fault.strerror}") from None
    messages = done.stderr.decode("utf-8", "replace").strip()
    if done.returncode not in (0, 5):
        raise Refused(f"neqysbar {words[0]} ends with status {done.returncode}\n{messages}".rstrip())
    return done.stdout.decode("ascii"), messages


def number(least, most):
    """A reader of numbers in these bounds, for an argument."""
    def read(word):
        if not (word.isascii() and word.isdecimal() and least <= int(word) <= most):
            raise argparse.ArgumentTypeError(f"{word} is not {least} to {most}")
        return int(word)
    return read


def words_of(description):
    """A reader of a script's words, whose help is the script's own text."""
    return argparse.ArgumentParser(description=description, formatter_class=argparse.RawDescriptionHelpFormatter)


def ended(name, main):
    """Runs a script, and ends with its status."""
    try:
        main()
        sys.stdout.flush()
    except Refused as fault:
        print(f"{name}: {fault}", file=sys.stderr)
        sys.exit(2)
    except BrokenPipeError:
        unread()
        sys.exit(NO_READER)
    except OSError as fault:
        unread()
        print(f"{name}: {fault.filename or 'standard output'}: {fault.strerror}", file=sys.stderr)
        sys.exit(2)
    except KeyboardInterrupt:
        unread()
        sys.exit(130)


def unread():
    """Nothing more is written to standard output, also at the end."""
    os.dup2(os.open(os.devnull, os.O_WRONLY), sys.stdout.fileno())
