#!/usr/bin/env python3
"""Records a small program on SIMH's VAX, as a list that record.py reads with --keep-addresses.

    record/simh.py --start 200 PROGRAM.ini > references.txt
    record/record.py --keep-addresses --fetches --list references.txt > program.trace

PROGRAM.ini has commands of the simulator that put a program into memory, as `deposit -m 200 MOVL #5,R0`,
and none that runs it. The program is stepped from the address of --start on until it halts, and the
simulator's registers before each step give the addresses of its operands. Memory mapping is off, so
addresses stand as the program has them. The list has a line for each instruction fetch, each read, each
write with what was written, and each read and write of the stack that calls, returns, pushes and pops make.

The status is 0; 1 if the simulator refuses a command, whose line and fault are told; 2 if the program can't be
recorded. With 1 and 2 no list is written. It needs Python 3.9 and the simulator: the program `vax` of Debian's
package simh, or the one that --simulator names. It was tried with SIMH 3.8-1.
"""

import argparse
import os
import re
import subprocess
import sys
import tempfile

sys.dont_write_bytecode = True

from vax_instructions import REGISTERS, NoRecording, Step, Unknown

HEXADECIMAL = re.compile(r"[0-9A-F]+")
SECONDS = 600
MARK = "@@"


class BadCommand(Exception):
    """The simulator refuses a command of the program."""


def simulate(simulator, commands):
    """What the simulator prints for these commands, without the first lines; and the name by which it calls them."""
    with tempfile.NamedTemporaryFile("w", suffix=".ini") as script:
        script.write("\n".join(commands + ["exit"]) + "\n")
        script.flush()
        try:
            done = subprocess.run([simulator, script.name], stdin=subprocess.DEVNULL, capture_output=True,
                                  text=True, errors="replace", timeout=SECONDS, check=False)
        except FileNotFoundError:
            raise NoRecording(f"there is no {simulator}: it is in Debian's package simh") from None
        except subprocess.TimeoutExpired:
            raise NoRecording(f"the simulator takes more than {SECONDS} seconds") from None
    return done.stdout.splitlines(), script.name


def read_commands(name):
    """The commands of a file, with their lines."""
    with open(name, encoding="ascii") as source:
        return [(number, line.strip()) for number, line in enumerate(source, 1) if line.strip()]


def check_commands(simulator, numbered):
    """Has each command carried out, and raises BadCommand for the first that the simulator refuses."""
    for number, command in numbered:
        if command.split()[0].lower() == "do":
            raise BadCommand(f"line {number}: {command}: its commands have to stand in the file itself")
    marked = [one for number, command in numbered for one in (f"echo {MARK}{number}", command)]
    lines, script = simulate(simulator, [*marked, f"echo {MARK}end"])
    place = None
    for line, following in zip(lines, [*lines[1:], ""]):
        if line.startswith(MARK):
            place = line.removeprefix(MARK)
        elif line.startswith(f"{script}> "):
            raise BadCommand(f"line {place}: {line.removeprefix(f'{script}> ')}: {following}")
    if place != "end":
        raise BadCommand(f"line {place}: the simulator doesn't go on behind this command" if place else
                         "the simulator carries out no command")


def steps_of(lines):
    """The registers before each step, and after the last one."""
    states, state = [], {}
    for line in lines:
        name, _, value = line.partition(":\t")
        if name in REGISTERS and HEXADECIMAL.fullmatch(value.strip()):
            state[name] = int(value, 16)
            if name == "PC":
                states.append(state)
                state = {}
        elif line.startswith("HALT instruction"):
            break
    return states


def looked_at(simulator, commands, start, looks, steps):
    """The bytes in memory: `looks` has for each moment, ("before" or "after", step), pairs of an address and a number
    of bytes. The answer has each byte by its moment and address."""
    script = [f"deposit pc {start:X}"]
    for at in range(steps):
        for moment in (("before", at), ("after", at)):
            script.append(f"echo {MARK}{moment[0]} {at}")
            script += [f"ex -b {address:X}:{address + size - 1:X}" for address, size in looks.get(moment, ())]
            if moment[0] == "before":
                script.append("step")
    found, moment = {}, None
    for line in simulate(simulator, commands + script)[0]:
        words = line.split()
        if line.startswith(MARK):
            moment = words[0].removeprefix(MARK), int(words[1])
        elif len(words) == 2 and words[0].endswith(":") and all(map(HEXADECIMAL.fullmatch, (words[0][:-1], words[1]))):
            found[moment, int(words[0][:-1], 16)] = int(words[1], 16)
    return found


def instructions_at(simulator, commands, places):
    """The text and the bytes of the instruction at each of these addresses."""
    shown, last = {}, None
    for line in simulate(simulator, commands + [f"ex -m {place:X}:{place + 64:X}" for place in places])[0]:
        name, _, text = line.partition(":\t")
        if HEXADECIMAL.fullmatch(name):
            place = int(name, 16)
            if last in places and last < place <= last + 64:
                shown.setdefault(last, (shown_text, place - last))
            last, shown_text = place, text
    return shown


class Program:
    """A program that was stepped: its instructions, and the registers before and after each of them."""

    def __init__(self, simulator, commands, start, most):
        self.simulator, self.commands, self.start = simulator, commands, start
        walk = [f"deposit pc {start:X}"] + ["ex " + ",".join(REGISTERS), "step"] * most
        states = steps_of(simulate(simulator, commands + walk)[0])
        if not states:
            raise NoRecording("the simulator has shown no registers")
        self.shown = instructions_at(simulator, commands, {state["PC"] for state in states})
        if self.shown.get(states[-1]["PC"], ("",))[0] != "HALT":
            raise NoRecording(f"the program doesn't halt within {most} steps; --steps gives more")
        self.walked = list(zip(range(most), states, states[1:]))
        self.halted = states[-1]["PC"]
        if not self.walked:
            raise NoRecording(f"there is nothing but a HALT at {start:X}")
        for _, before, _ in self.walked:
            if before["PC"] not in self.shown:
                raise NoRecording(f"the simulator doesn't show the instruction at {before['PC']:X}")
        self.memory = {}

    def look(self, looks):
        found = looked_at(self.simulator, self.commands, self.start, looks, len(self.walked))
        for moment, wanted in looks.items():
            for address, size in wanted:
                if any((moment, address + n) not in found for n in range(size)):
                    raise NoRecording(f"there is no memory at {address:X}, which step {moment[1] + 1} uses")
        self.memory.update(found)

    def value(self, moment, address, size):
        """What memory has at a moment, the lowest byte first."""
        try:
            return sum(self.memory[moment, address + n] << 8 * n for n in range(size))
        except KeyError:
            raise Unknown(moment, address, size) from None

    def references(self):
        """The references of each step. What they depend on is looked up in as many runs as one thing in memory leads
        to another."""
        made = {}
        while len(made) < len(self.walked):
            looks = {}
            for at, before, after in self.walked:
                if at in made:
                    continue
                text, length = self.shown[before["PC"]]
                try:
                    made[at] = Step(text, before["PC"] + length, before, after, lambda address, size, at=at: self.value(
                        ("before", at), address, size)).references()
                except Unknown as unknown:
                    moment, address, size = unknown.args
                    looks[moment] = [(address, size)]
            if looks:
                self.look(looks)
        return [made[at] for at, _, _ in self.walked]

    def lines(self):
        """The lines of the list."""
        made = self.references()
        self.look({("after", at): [(address, size) for op, size, address in one if op in "WM"]
                   for at, one in enumerate(made)})
        for at, before, _ in self.walked:
            text, length = self.shown[before["PC"]]
            yield f"# {before['PC']:08X} {text}"
            yield f"VAX I{length} {before['PC']:X}"
            for op, size, address in made[at]:
                value = f" {self.value(('after', at), address, size):X}" if op in "WM" else ""
                yield f"VAX {op}{size} {address:X}{value}"


def hexadecimal(word):
    if not re.fullmatch(r"[0-9A-Fa-f]{1,8}", word):
        raise argparse.ArgumentTypeError(f"\"{word}\" is no hexadecimal number of up to eight digits")
    return int(word, 16)


def at_least_one(word):
    if not re.fullmatch(r"[0-9]{1,9}", word) or not int(word):
        raise argparse.ArgumentTypeError(f"\"{word}\" is no decimal number from 1 on")
    return int(word)


def main():
    reader = argparse.ArgumentParser(description=__doc__, formatter_class=argparse.RawDescriptionHelpFormatter)
    reader.add_argument("program", help="commands that put the program into memory")
    reader.add_argument("--start", type=hexadecimal, required=True, help="its first address, hexadecimal")
    reader.add_argument("--steps", type=at_least_one, default=2000,
                        help="at most so many instructions, 2000 if it isn't given")
    reader.add_argument("--simulator", default="vax")
    words = reader.parse_args()
    try:
        numbered = read_commands(words.program)
        check_commands(words.simulator, numbered)
        commands = [command for _, command in numbered]
        program = Program(words.simulator, commands, words.start, words.steps)
        text = "\n".join(program.lines())
        print(text, flush=True)
        print(f"simh: {len(program.walked)} instructions, to the HALT at {program.halted:X}", file=sys.stderr)
    except BadCommand as fault:
        print(f"simh: {words.program}, {fault}", file=sys.stderr)
        return 1
    except UnicodeDecodeError:
        print(f"simh: {words.program}: it has bytes that aren't ASCII", file=sys.stderr)
    except NoRecording as fault:
        print(f"simh: {fault}", file=sys.stderr)
    except OSError as fault:
        print(f"simh: {fault.filename or 'standard output'}: {fault.strerror}", file=sys.stderr)
        if not fault.filename:
            os.dup2(os.open(os.devnull, os.O_WRONLY), sys.stdout.fileno())
    except KeyboardInterrupt:
        print("simh: broken off", file=sys.stderr)
    else:
        return 0
    return 2


if __name__ == "__main__":
    sys.exit(main())
