"""Tests the recorder of VAX programs on SIMH's simulator; test_record.py runs it too."""

import re
import shutil
import subprocess
import unittest

from cases import EXAMPLES, HERE, PROGRAM, Case, body, script, serial

# what calls.ini does in memory, worked out by hand from what the simulator's source does, for each instruction
ROWS = [
    ("PUSHL #6", "W4 1FFC 6"),
    ("PUSHL #2", "W4 1FF8 2"),
    ("CALLS #2,292",
     "R2 292, W4 1FF4 2, W4 1FF0 0, W4 1FEC 0, W4 1FE8 210, W4 1FE4 0, W4 1FE0 0, W4 1FDC 200C0000, W4 "
     "1FD8 0"),
    ("MOVL 8(AP),R2", "R4 1FFC"),
    ("CASEL 4(AP),#1,#2", "R4 1FF8, R2 2A2"),
    ("RET", "R4 1FDC, R4 1FE0, R4 1FE4, R4 1FE8, R4 1FEC, R4 1FF0, R4 1FF4"),
    ("MOVL R0,@#1000", "W4 1000 1E"),
    ("PUSHL #1", "W4 1FFC 1"),
    ("PUSHL #9", "W4 1FF8 9"),
    ("CALLS #2,292",
     "R2 292, W4 1FF4 2, W4 1FF0 0, W4 1FEC 0, W4 1FE8 21F, W4 1FE4 0, W4 1FE0 0, W4 1FDC 200C0000, W4 "
     "1FD8 0"),
    ("MOVL 8(AP),R2", "R4 1FFC"),
    ("CASEL 4(AP),#1,#2", "R4 1FF8"),
    ("RET", "R4 1FDC, R4 1FE0, R4 1FE4, R4 1FE8, R4 1FEC, R4 1FF0, R4 1FF4"),
    ("MOVL R0,@#1004", "W4 1004 FFFFFFFF"),
    ("CALLG 1100,292", "R2 292, W4 1FFC 0, W4 1FF8 0, W4 1FF4 22C, W4 1FF0 0, W4 1FEC 0, W4 1FE8 C0000, W4 1FE4 0"),
    ("MOVL 8(AP),R2", "R4 1108"),
    ("CASEL 4(AP),#1,#2", "R4 1104, R2 2A4"),
    ("MOVL R2,-4(FP)", "W4 1FE0 4A4B4C4D"),
    ("RET", "R4 1FE8, R4 1FEC, R4 1FF0, R4 1FF4, R4 1FF8, R4 1FFC"),
    ("PUSHR #3C", "W4 1FFC 0, W4 1FF8 0, W4 1FF4 0, W4 1FF0 0"),
    ("POPR #3C", "R4 1FF0, R4 1FF4, R4 1FF8, R4 1FFC"),
    ("MOVC3 #D,1102,(R2)",
     "R1 110E, W1 120C 5B, R4 110A, W4 1208 5C5D4A4B, R4 1106, W4 1204 4C4D0000, R4 1102, W4 1200 30000"),
    ("MOVC3 #9,1102,1100", "R4 1102, W4 1100 30000, R4 1106, W4 1104 4C4D0000, R1 110A, W1 1108 4B"),
    ("MOVC5 #3,1100,#2A,#A,1301",
     "R1 1102, W1 1303 3, R1 1101, W1 1302 0, R1 1100, W1 1301 0, W4 1304 2A2A2A2A, W1 1308 2A, W1 1309 "
     "2A, W1 130A 2A"),
    ("EXTZV #5,#6,1103,R4", "R4 1100, R4 1104"),
    ("EXTV #1E,#8,1104,1008", "R4 1104, R4 1108, W4 1008 2D"),
    ("INSV R4,#1D,#7,1204", "R4 1204, R4 1208, W4 1208 5C5D4A40, W4 1204 C4D0000"),
    ("BBSS #B,1208,26C", "M1 1209 4A"),
    ("BBC #3,1209,272", "R1 1209"),
    ("ACBL #3,#1,100C,27A", "M4 100C 1"),
    ("ADDW3 (R6)+,(R6)[R4],1010", "R2 1100, R2 1102, W2 1010 3"),
    ("EDIV #7,1100,1014,1018", "R4 1100, R4 1104, W4 1014 30000, W4 1018 0"),
]


@unittest.skipUnless(shutil.which("vax"), "SIMH's VAX isn't there")
class Simulated(Case):
    def simulated(self, *words):
        """The lines of a program that is stepped on SIMH's VAX, without comments and fetches."""
        return script("simh.py", *words)

    def test_operands(self):
        status, listed, messages = self.simulated("--start", 200, HERE / "operands.ini")
        self.assertEqual(status, 0, messages)
        self.assertEqual([line[4:] for line in listed.splitlines() if line[0] != "#" and line[4] != "I"], [
            "R1 500", "W1 505 0", "R2 5FE", "R4 600", "R4 700", "R4 604", "M4 710 0", "M2 506 1",
            "R4 700", "W4 1FFC 0", "R4 1FFC", "W4 1FFC 0", "R4 600", "R4 604", "W4 680 700", "W4 684 710"])

    def test_vax_program(self):
        status, listed, messages = self.simulated("--start", 200, EXAMPLES / "vax-sum.ini")
        self.assertEqual(status, 0, messages)
        trace = self.trace("--no-comments", "--keep-addresses", "--fetches", "--frames", 16, "--limit", 6, "--quota", 8,
                           "--extent", 8, "--list", self.file("list", listed))
        self.assertEqual(trace, (EXAMPLES / "vax-sum.trace").read_text(encoding="ascii"))
        # the sum of 1 to 12
        self.assertEqual(body(trace)[-1], "A W4 00001000 0000004E")

    def test_calls(self):
        """A program with calls, frames, a case table, moved strings and bit fields, instruction by instruction."""
        status, listed, messages = self.simulated("--start", 200, HERE / "calls.ini")
        self.assertEqual((status, messages), (0, "simh: 43 instructions, to the HALT at 291\n"))
        made = []
        for line in listed.splitlines():
            if line[0] == "#":
                made.append((line[11:], []))
            elif line[4] != "I":
                made[-1][1].append(line[4:])
        self.assertEqual([(name, ", ".join(rows)) for name, rows in made if rows], ROWS)
        trace = self.trace("--keep-addresses", "--fetches", "--frames", 16, "--limit", 6, "--list",
                           self.file("list", listed))
        if PROGRAM:
            status, lines = serial(trace)
            self.assertEqual((status, [line for line in lines if "DENIED" in line]), (0, []))

    def test_writes_are_those_of_memory(self):
        """What memory has before and after each step differs where the list has a write, and nowhere else."""
        listed = self.simulated("--start", 200, HERE / "calls.ini")[1]
        states = self.memory_at_each_step(43)
        self.assertEqual(len(states), 44)
        patched, step = [dict(one) for one in states], 0
        for line in listed.splitlines()[1:]:
            if line[0] == "#":
                step += 1
                continue
            found = re.fullmatch(r"VAX [WM]([124]) ([0-9A-F]+) ([0-9A-F]+)", line)
            if found:
                for n, byte in enumerate(int(found[3], 16).to_bytes(int(found[1]), "little")):
                    patched[step][int(found[2], 16) + n] = byte
                    self.assertEqual(states[step + 1][int(found[2], 16) + n], byte)
        for before, after in zip(patched, states[1:]):
            self.assertEqual(sorted(set(before.items()) ^ set(after.items())), [])

    def memory_at_each_step(self, steps):
        """The bytes that the program works on, before the first step and after each."""
        commands = (HERE / "calls.ini").read_text().splitlines() + ["deposit pc 200"]
        commands += ["echo state", "ex -b 1000:130F", "ex -b 1FC0:2000", "step"] * (steps + 1)
        script_file = self.file("states.ini", "\n".join([*commands, "exit", ""]))
        shown = subprocess.run(["vax", str(script_file)], stdin=subprocess.DEVNULL, capture_output=True, text=True,
                               check=False).stdout
        states = []
        for line in shown.splitlines():
            found = re.fullmatch(r"([0-9A-F]+):\t([0-9A-F]{2})", line)
            if line == "state":
                states.append({})
            elif found:
                states[-1][int(found[1], 16)] = int(found[2], 16)
        return states

    def test_refused(self):
        """A command that the simulator refuses ends it with its text and status 1, other faults with 2."""
        good = (EXAMPLES / "vax-sum.ini").read_text()
        for text, words, wanted in [
                (good.replace("20A MOVL #C", "20A MOVLL #C").replace("deposit -m 20A MOVL", "deposit -m 20A MOVLL"), [],
                 (1, "line 3: deposit -m 20A MOVLL #4000,R1: Invalid argument")),
                ("nonsense here\n", [], (1, "line 1: nonsense here: Unknown command")),
                (good + "\n\nload /no/such/file\n", [], (1, "load /no/such/file: File open error")),
                ("do other.ini\n" + good, [], (1, "line 1: do other.ini: its commands have to stand in the file")),
                ("exit\n" + good, [], (1, "line 1: the simulator doesn't go on behind this command")),
                (good, ["--steps", 3], (2, "doesn't halt within 3 steps")),
                (good, ["--simulator", "no-such-vax"], (2, "there is no no-such-vax")),
                ("", [], (2, "there is nothing but a HALT at 200")),
                ("deposit -m 200 CMPC3 #1,200,201\n", [], (2, "CMPC3 isn't known")),
                ("deposit -m 200 MOVB #\xe4,R0\n", [], (2, "it has bytes that aren't ASCII"))]:
            with self.subTest(wanted):
                status, listed, messages = self.simulated("--start", 200, *words, self.file("other.ini", text))
                self.assertEqual((status, listed, wanted[1] in messages), (wanted[0], "", True), messages)
        status, _, messages = self.simulated("--start", 200, "/no/such/program.ini")
        self.assertEqual((status, messages), (2, "simh: /no/such/program.ini: No such file or directory\n"))


if __name__ == "__main__":
    unittest.main()
