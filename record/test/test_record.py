#!/usr/bin/env python3
"""Tests the recorder and the converter: python3 record/test/test_record.py

What needs valgrind, SIMH's VAX or the built program is left out where they aren't there, and named.
"""

import contextlib
import dataclasses
import gzip
import io
import os
import pathlib
import shutil
import random
import struct
import subprocess
import sys
import time
import unittest
import unittest.mock

sys.dont_write_bytecode = True

from cases import EXAMPLES, HERE, PROGRAM, Case, body, call, changed, lines_of, script, serial
from checker import check

import placing
import record
import recording
import sources
import trace_limits
from test_convert import *
from test_simh import *


def options_of(*words):
    """The options of a command line, without a process of its own."""
    kept, sys.argv = sys.argv, ["record.py", *words]
    try:
        return record.read_words()
    finally:
        sys.argv = kept


class Recordings(Case):
    def test_list_whole(self):
        one = self.file("one", "# two processes\nfirst W4 8000 2A\nsecond R1 0x10\nfirst A4 8200 1\n"
                               "first R2 8002\n")
        self.assertEqual(self.trace("--no-comments", "--frames", 8, "--limit", "4,5", "--extent",
                                    "6", "--list", one), """\
VMTRACE 1
FRAMES 8
PAGEFILE 3
PROCESS A 4 4 6 0
PROCESS B 5 5 6 0
MAPZERO A 00000000 2 UW
MAPZERO B 00000000 1 UW
BODY
A W4 00000000 0000002A
B R1 00000010
A A4 00000200 00000001
A R2 00000002
END
""")

    def test_lackey_kinds(self):
        one = self.file("one", "==7== Lackey\nI  04001000,3\n S 1ffefffe78,8\n L 04222c4,1\n"
                               " M 0421c7cc,4\n==7== end\n")
        self.assertEqual(body(self.trace("--lackey", one)), [
            "A W4 00000078 00000001", "A W4 0000007C 00000002", "A R1 000002C4",
            "A R4 000005CC", "A W4 000005CC 00000005"])
        self.assertEqual(body(self.trace("--fetches", "--zero", "--lackey", one))[:3], [
            "A R2 00000000", "A R1 00000002", "A W4 00000278 00000000"])

    def test_din(self):
        one = self.file("one", "0 1000\n1 1004\n2 2000\n4 0\n0 1007 more words\n")
        self.assertEqual(body(self.trace("--din", one)), [
            "A R4 00000000", "A W4 00000004 00000002", "A R1 00000007", "A R2 00000008",
            "A R1 0000000A"])
        self.assertEqual(len(body(self.trace("--din", one, "--fetches", "--size", 1))), 4)

    def test_split_across_pages(self):
        one = self.file("one", " L 1ff,4\n S 3fe,4\n L 0,16\n")
        self.assertEqual(body(self.trace("--zero", "--lackey", one)), [
            "A R1 000001FF", "A R2 00000200", "A R1 00000202", "A W2 000003FE 0000",
            "A W2 00000400 0000", "A R4 00000000", "A R4 00000004", "A R4 00000008",
            "A R4 0000000C"])

    def test_widths_and_value(self):
        one = self.file("one", "p W4 102 11223344\n")
        self.assertEqual(body(self.trace("--list", one)),
                         ["A W2 00000102 3344", "A W2 00000104 1122"])
        self.assertEqual(body(self.trace("--list", one, "--widths", "1,4")), [
            "A W1 00000102 44", "A W1 00000103 33", "A W1 00000104 22", "A W1 00000105 11"])

    def test_part_and_quantum(self):
        one = self.file("one", "".join(f" L {n * 4:x},4\n" for n in range(6)))
        two = self.file("two", "".join(f" L {n * 4 + 64:x},4\n" for n in range(3)))
        words = ["--lackey", one, "--lackey", two, "--quantum", 2]
        self.assertEqual(body(self.trace(*words)), [
            "A R4 00000000", "A R4 00000004", "B R4 00000040", "B R4 00000044", "A R4 00000008",
            "A R4 0000000C", "B R4 00000048", "A R4 00000010", "A R4 00000014"])
        self.assertEqual(body(self.trace(*words, "--skip", 1, "--count", 2)), [
            "A R4 00000004", "A R4 00000008", "B R4 00000044", "B R4 00000048"])


def elf(symbols):
    """A position independent program of 64 bits, its entry point at 1000 and its instructions from there to 1FFF,
    with these functions."""
    names, table = b"\0", struct.pack("<IBBHQQ", 0, 0, 0, 0, 0, 0)
    for name, address in symbols:
        table += struct.pack("<IBBHQQ", len(names), 2, 0, 1, address, 4)
        names += name.encode() + b"\0"
    code = struct.pack("<IIQQQQQQ", 1, 5, 0x1000, 0x1000, 0x1000, 0x1000, 0x1000, 0x1000)
    begin = 64 + len(code)
    at = begin + len(names) + len(table)
    head = b"\x7fELF\x02\x01\x01" + bytes(9) + struct.pack(
        "<HHIQQQIHHHHHH", 3, 62, 1, 0x1000, 64, at, 0, 64, 56, 1, 64, 2, 0)
    tables = [(2, begin + len(names), len(table), 1), (3, begin, len(names), 0)]
    return head + code + names + table + b"".join(
        struct.pack("<IIQQQQIIQQ", 0, kind, 0, 0, place, size, link, 0, 0, 24)
        for kind, place, size, link in tables)


class Parts(Case):
    """Where a recording begins, and what of it is taken."""

    LINES = "".join(f"I  {0x109000 + n:08x},1\n L {n * 4:x},4\n" for n in range(40))

    def loaded(self, *symbols):
        program = self.file("program", elf(symbols).decode("latin-1"))
        return self.file("one", f"==1== Lackey\n--1-- Reading syms from {program}\n--1--    svma 0x00000"
                         f"01004, avma 0x0000109004\n--1-- a message\n0x30a: [0]=\n{self.LINES}")

    def first(self, *words):
        return body(self.trace(*words))[0]

    def test_begins_at_main(self):
        for symbols, place, word in [([("main", 0x1020)], 32, "main"), ([], 0, "the entry point")]:
            one = self.loaded(*symbols)
            trace = self.trace("--lackey", one)
            self.assertEqual(len(body(trace)), 40 - place)
            self.assertEqual(f"from {word} of" in trace, place > 0)
            self.assertEqual(len(body(self.trace("--from", "start", "--lackey", one))), 40)
        self.assertIn("! 8 of the 40 references of the recording (20 %), 8 requests",
                      self.trace("--lackey", self.loaded(("main", 0x1020))))
        one = self.file("two", "==1== Lackey\n" + self.LINES)
        status, trace, messages = script("record.py", "--lackey", one)
        self.assertEqual((status, len(body(trace))), (0, 40))
        self.assertIn("doesn't say where the program was loaded (valgrind does with -v -v)", messages)
        self.refused("--from start takes it from its beginning", "--from", "main", "--lackey", one)
        one = self.file("one", "--1-- Reading syms from /no/such\n--1--    svma 0x1, avma 0x2\n" + self.LINES)
        self.assertIn("/no/such can't be looked at: No such file", script("record.py", "--lackey", one)[2])

    def test_symbols(self):
        """A symbol, and an address as nm gives it, are found where the program was loaded."""
        one = self.loaded(("main", 0x1020), ("sum", 0x1007), ("twice", 0x1001), ("twice", 0x1002))
        for place, first, words in [("sum", 7, "from sum of"), ("main", 32, "from main of"),
                                    ("0x1009", 9, "from 0x1009"), ("0x109009", 9, ""), ("0x1000", 0, "")]:
            with self.subTest(place):
                trace = self.trace("--from", place, "--zero", "--lackey", one)
                self.assertEqual((body(trace)[0], words in trace), (f"A R4 {first * 4:08X}", True))
        for place, message in [("sun", "has no symbol sun; near to it are sum"),
                               ("0x1fff", "never has a fetch at 109FFF"),
                               ("twice", "has several symbols twice, at 0x1001, 0x1002")]:
            self.refused(message, "--from", place, "--lackey", one)
        self.refused("it has no symbols, as a stripped program", "--from", "sum", "--lackey", self.loaded())

    def test_damaged_program(self):
        """No byte of a program's file, changed or cut off, leads to anything but a trace or a message."""
        one = self.loaded(("main", 0x1020), ("sum", 0x1007))
        program = pathlib.Path(self.folder.name) / "program"
        good = program.read_bytes()
        options = options_of("--from", "sum", "--lackey", str(one))
        for at in range(len(good)):
            for bad in (good[:at], good[:at] + bytes([good[at] ^ 0xFF]) + good[at + 1:]):
                program.write_bytes(bad)
                with contextlib.suppress(trace_limits.RecordError), record.open_recordings(options) as opened:
                    placing.gather(opened, options)

    def test_other_starts(self):
        one = self.file("one", self.LINES)
        for words, first in [(["--from", "0x109007"], 7), (["--from", 9], 8), (["--from", 1], 0),
                             (["--from", "0x109007", "--skip", 2], 9), (["--last", 3], 37),
                             (["--from", "0x109026", "--last", 30], 38), (["--skip", 39, "--last", 9], 39)]:
            with self.subTest(words):
                self.assertEqual(self.first(*words, "--zero", "--lackey", one, "--no-comments"),
                                 f"A R4 {first * 4:08X}")
        two = self.file("two", "p I4 1000\np R4 20\np I4 1004\np R4 24\n")
        self.assertEqual(self.first("--from", "0x1004", "--list", two), "A R4 00000024")
        three = self.file("three", "2 1000\n0 20\n2 1004\n0 24\n")
        self.assertEqual(self.first("--from", "0x1004", "--din", three), "A R4 00000024")
        self.refused("never has a fetch at 999", "--from", "0x999", "--lackey", one)
        self.refused("never has a reference 41", "--from", 41, "--lackey", one)
        self.refused("is none of start, a symbol as main, an address", "--from", "-9", "--lackey", one)
        self.refused("doesn't say where the program was loaded", "--from", "there", "--lackey", one)
        self.refused("--from there needs a recording of valgrind's lackey", "--from", "there", "--din", three)
        self.refused("--last can't go with", "--last", 3, "--count", 3, "--lackey", one)
        self.refused("at most 8000000", "--last", 8_000_001, "--lackey", one)

    def test_windows(self):
        one = self.file("one", self.LINES)
        trace = self.trace("--sample", 3, "--window", 4, "--skip", 1, "--lackey", one)
        self.assertEqual([int(line.split()[2], 16) // 4 for line in body(trace)],
                         [n for n in range(1, 40) if (n - 1) // 4 % 3 == 0])
        self.assertIn("! 15 of the 40 references of the recording (37.5 %), 15 requests", trace)

    def test_blocks_change_nothing(self):
        """A recording that is read in small blocks gives the same as one that is read at once."""
        text = ("==1== Lackey\n" + self.LINES + "0x1: [odd\n" + self.LINES).encode()
        for words in [{}, {"skip": 5}, {"skip": 7, "count": 9}, {"last": 11}, {"sample": 4, "window": 3},
                      {"start": ("fetch", 0x109011), "sample": 2, "window": 5}, {"start": ("number", 33)},
                      {"fetches": True, "last": 7}, {"fetches": True, "start": ("number", 33), "skip": 2}]:
            found = []
            for recording.BLOCK_BYTES in (17, 100, 1 << 16):
                one = recording.Recorded("one", sources.Lackey("one"), io.BytesIO(text),
                                         recording.Part(**{"start": "start", **words}))
                taken = list(one.taken)
                self.assertEqual([number for number, _ in taken], sorted({number for number, _ in taken}))
                found.append((taken, one.before, one.after))
            with self.subTest(words):
                self.assertEqual(found[0], found[2])
                self.assertEqual(found[1], found[2])
                self.assertEqual(sum(found[2][1:]), 160 if words.get("fetches") else 80)

    def test_faults_in_what_is_left_out(self):
        one = self.file("one", self.LINES + "hello\n" + self.LINES)
        self.refused("line 81: \"hello\" is no line of lackey", "--count", 2, "--lackey", one)


class Files(Case):
    """Where recordings come from, and where a trace goes."""

    LINES = " L 1000,8\n S 1008,4\n"

    def test_packed_and_standard_input(self):
        plain = self.trace("--no-comments", "--lackey", self.file("one", self.LINES))
        packed = pathlib.Path(self.folder.name) / "one.gz"
        packed.write_bytes(gzip.compress(self.LINES.encode()))
        self.assertEqual(self.trace("--no-comments", "--lackey", packed), plain)
        done = script("record.py", "--no-comments", "--lackey", "-", input=self.LINES.encode())
        self.assertEqual(done[:2], (0, plain))
        for kind, text in [("--din", "0 1000\n"), ("--list", "p R4 1000\n")]:
            packed.write_bytes(gzip.compress(text.encode()))
            self.assertEqual(len(body(self.trace(kind, packed))), 1)
            self.assertEqual(len(body(script("record.py", kind, "-", input=text.encode())[1])), 1)
        self.refused("standard input is given twice", "--din", "-", "--list", "-")
        for bad, message in [(gzip.compress(self.LINES.encode())[:-9], "Compressed file ended before"),
                             (b"no gzip", "Not a gzipped file"), (gzip.compress(b"x" * 999)[:12] + b"yyyyyyyyyyy", "")]:
            packed.write_bytes(bad)
            self.refused(f"{packed} can't be read: {message}", "--lackey", packed)

    def test_output(self):
        """The trace has its name once it is whole; a run that fails leaves what was there."""
        one, out = self.file("one", self.LINES), pathlib.Path(self.folder.name) / "out"
        self.assertEqual(script("record.py", "--output", out, "--lackey", one)[0], 0)
        good = out.read_text()
        self.assertEqual(check(good), "")
        self.assertEqual(out.stat().st_mode & 0o777, 0o666 & ~os.umask(0o022))
        self.refused("is no line of lackey", "--output", out, "--lackey", self.file("two", self.LINES + "hello\n"))
        self.assertEqual((out.read_text(), sorted(os.listdir(self.folder.name))), (good, ["one", "out", "two"]))
        self.refused("is a recording, and would be written over", "--output", one, "--lackey", one)
        self.refused("/no/such/folder/out can't be written", "--output", "/no/such/folder/out", "--lackey", one)
        self.assertEqual(script("record.py", "--output", "/dev/null", "--lackey", one)[0], 0)
        self.assertTrue(pathlib.Path("/dev/null").is_char_device())
        full = pathlib.Path("/dev/full")
        if full.is_char_device():
            self.refused("/dev/full can't be written: No space left", "--output", full, "--lackey", one)

    def test_what_was_kept(self):
        """References and requests are told, and which references of each recording were kept."""
        one, two = self.file("one", self.LINES), self.file("two", self.LINES * 3)
        words = ["--skip", 1, "--count", 2, "--no-comments", "--lackey", one, "--lackey", two]
        status, trace, messages = script("record.py", *words)
        self.assertEqual((status, check(trace)), (0, ""))
        for line in ["record: 3 of the 8 references of the recordings (37.5 %), 4 requests",
                     f"record: {one}: references 2 to 2 of 2", f"record: {two}: references 2 to 3 of 6"]:
            self.assertIn(line, messages.splitlines())
        trace = self.trace("--sample", 2, "--window", 1, "--lackey", two)
        self.assertIn("two: 3 references from number 1 to 5 of 6", trace)
        messages = script("record.py", "--lackey", one)[2]
        self.assertIn("record: 2 of the 2 references of the recording (100 %), 3 requests", messages)


    def test_broken_off(self):
        """A run that is ended, or whose output is closed, leaves nothing and shows no traceback."""
        folder, out = pathlib.Path(self.folder.name), pathlib.Path(self.folder.name) / "out"
        command = [sys.executable, str(HERE.parent / "record.py")]
        child = subprocess.Popen([*command, "--output", str(out), "--lackey", "-"], stdin=subprocess.PIPE,
                                 stderr=subprocess.PIPE)
        child.stdin.write(b" L 0,4\n" * 10_000)
        child.stdin.flush()
        deadline = time.monotonic() + 60
        while not os.listdir(folder) and time.monotonic() < deadline:
            time.sleep(0.05)
        child.terminate()
        messages = child.communicate()[1]
        self.assertEqual((child.returncode, messages), (2, b"record: broken off\n"))
        self.assertEqual(os.listdir(folder), [])
        one = self.file("one", " L 0,4\n" * 20_000)
        child = subprocess.Popen([*command, "--lackey", str(one)], stdout=subprocess.PIPE, stderr=subprocess.PIPE)
        child.stdout.read(100)
        child.stdout.close()
        self.assertEqual(child.stderr.read(), b"record: standard output can't be written: Broken pipe\n")
        child.stderr.close()
        self.assertEqual(child.wait(), 2)
        for closed, wanted in [("<&-", "record: there is no standard input\n"),
                               (">&-", "record: there is no standard output\n"), ("2>&-", "")]:
            done = subprocess.run(["sh", "-c", f"exec \"$@\" --lackey - {closed}", "sh", *command],
                                  input=b" L 0,8\n", capture_output=True, check=False)
            self.assertEqual((done.returncode, done.stderr.decode()), (2 if wanted else 0, wanted))


class Places(Case):
    def test_stack(self):
        one = self.file("one", " L 1000,4\n S 7fff0000fffc,4\n L 7fff0000f000,4\n L 7fff0000fc00,4\n")
        trace = self.trace("--zero", "--stack", 1, "--lackey", one)
        self.assertEqual(lines_of(trace, "MAPZERO"), ["MAPZERO A 00000000 2 UW",
                                                      "MAPZERO A 7FFFFC00 2 UW"])
        self.assertEqual(body(trace), ["A R4 00000000", "A W4 7FFFFFFC 00000000", "A R4 00000200",
                                       "A R4 7FFFFC00"])
        self.assertIn("! A 7FFFFC00 2 7FFF0000FC00", trace)

    def test_shared_text(self):
        one = self.file("one", "I  4000,4\nI  4200,4\n S 8000,4\nI  4400,4\n S 4400,4\n")
        two = self.file("two", "I  4200,4\nI  4000,4\n L 9000,4\n")
        trace = self.trace("--zero", "--fetches", "--text", "TEXT:AB", "--quantum", 9,
                           "--lackey", one, "--lackey", two)
        self.assertEqual(lines_of(trace, "SECTION", "MAPZERO", "MAPSEC"), [
            "SECTION TEXT SHARED 2", "MAPZERO A 00000000 2 UW", "MAPSEC A 00000400 2 TEXT 0 UR",
            "MAPZERO B 00000000 1 UW", "MAPSEC B 00000200 2 TEXT 0 UR"])
        self.assertEqual(body(trace), [
            "A R4 00000400", "A R4 00000600", "A W4 00000000 00000000", "A R4 00000200",
            "A W4 00000200 00000000", "B R4 00000400", "B R4 00000200", "B R4 00000000"])

    def test_comments_name_the_mapping(self):
        one = self.file("one", " L 1000,4\n L 1200,4\n L 9000,4\n")
        trace = self.trace("--lackey", one)
        for line in ["! process A is one (recording 1)", "! 3 of the 3 references of the recording (100 %), 3 requests",
                     "! A 00000000 2 1000", "! A 00000400 1 9000"]:
            self.assertIn(line, trace.splitlines())
        self.assertNotIn("!", self.trace("--lackey", one, "--no-comments"))

    def test_strange_name(self):
        name = self.file("n\xe4me " + "x" * 200, " L 0,4\n")
        self.assertIn("n?me", self.trace("--lackey", name))


class KeptAddresses(Case):
    LIST = ("p R4 200\np W2 7FFEDC00 1234\np CRETVA 400 2 UW\np W4 400 7\np SETPRT 200 1 UR\n"
            "p PURGWS 0 64\np ADJWSL 20\nq R8 3FC\np DELTVA 400 2\n")

    def test_kept(self):
        trace = self.trace("--no-comments", "--keep-addresses", "--frames", 64, "--list",
                           self.file("one", self.LIST))
        self.assertEqual(trace, """\
VMTRACE 1
FRAMES 64
PAGEFILE 6
PROCESS A 32 32 32 0
PROCESS B 32 32 32 0
MAPZERO A 00000200 1 UW
MAPZERO A 7FFEDC00 1 UW
MAPZERO B 00000200 2 UW
BODY
A R4 00000200
A W2 7FFEDC00 1234
A CRETVA 00000400 2 UW
A W4 00000400 00000007
A SETPRT 00000200 1 UR
A PURGWS 00000000 64
A ADJWSL 20
B R4 000003FC
B R4 00000400
A DELTVA 00000400 2
END
""")
        if PROGRAM:
            status, lines = serial(trace)
            self.assertEqual((status, [line for line in lines if "DENIED" in line]), (0, []))

    def test_ranges(self):
        one = self.file("one", self.LIST)
        status, trace, _ = script("record.py", "--keep-addresses", "--map", "A:200:2", "--map", "A:7FFEDA00:3",
                                  "--list", one)
        self.assertEqual(status, 0)
        self.assertEqual(lines_of(trace, "MAPZERO"), [
            "MAPZERO A 00000200 2 UW", "MAPZERO A 7FFEDA00 3 UW", "MAPZERO B 00000200 2 UW"])

    def test_second_version(self):
        """Pins and sections in the page file are of version 2, and so are many frames."""
        one = self.file("one", "p W4 4000 7\np LCKPAG 4000 1\nq R4 4000\nq W4 200 8\np ULKPAG 4000 2\n")
        trace = self.trace("--no-comments", "--keep-addresses", "--frames", 16, "--limit", 4, "--locks", "1,2",
                           "--common", "COM:AB:4000:2", "--list", one)
        self.assertEqual(trace, """\
VMTRACE 2
FRAMES 16
PAGEFILE 3
SECTION COM PAGED 2
PROCESS A 4 4 4 1
PROCESS B 4 4 4 2
MAPZERO B 00000200 1 UW
MAPSEC A 00004000 2 COM 0 UW
MAPSEC B 00004000 2 COM 0 UW
BODY
A W4 00004000 00000007
A LCKPAG 00004000 1
B R4 00004000
B W4 00000200 00000008
A ULKPAG 00004000 2
END
""")
        if PROGRAM:
            status, lines = serial(trace)
            self.assertEqual(status, 0)
            self.assertIn("B DONE R4 00004000 00000007", "\n".join(lines))
        trace = self.trace("--no-comments", "--frames", 5000, "--list", self.file("two", "p R4 0\n"))
        self.assertEqual(trace.split("\n")[:2], ["VMTRACE 2", "FRAMES 5000"])

    def test_second_version_refused(self):
        one = self.file("one", "p R4 200\np LCKPAG 200 1\np CRETVA 600 1 UW\n")
        for message, words in [
                ("--common needs", ["--common", "COM:A:0:1", "--list", one]),
                ("--common names a process", ["--keep-addresses", "--common", "COM:B:0:1", "--list", one]),
                ("isn't NAME:LETTERS:ADDRESS:PAGES", ["--keep-addresses", "--common", "COM:A:0", "--list", one]),
                ("process A has two sections at one place", [
                    "--keep-addresses", "--common", "ONE:A:0:2", "--common", "TWO:A:200:1", "--list", one]),
                ("process A creates pages where a section is", [
                    "--keep-addresses", "--common", "ONE:A:600:2", "--list", one]),
                ("a section is given twice", [
                    "--keep-addresses", "--common", "ONE:A:0:1", "--common", "ONE:A:200:1", "--list", one]),
                ("--frames is 16385; it has to be from 8 to 16384", [
                    "--keep-addresses", "--frames", 16385, "--list", one]),
                ("the greatest extent, 5, the locks of all processes, 2, and 2 are more than the 8 frames", [
                    "--keep-addresses", "--frames", 8, "--limit", 5, "--locks", 2, "--list", one])]:
            with self.subTest(message):
                self.refused(message, *words)

    def test_refused(self):
        for text, message in [
                ("p R4 80001000\n", "line 1: the address 80001000 lies in system space (S0)"),
                ("p R4 C0000000\n", "lies in the region that a VAX leaves reserved"),
                ("p R4 100000000\n", "more than the 32 bits"),
                ("p R4 1FFFFE\n", "beyond the 4096 pages of P0"),
                ("p R4 7FF7FFFC\n", "outside of the 1024 pages of P1"),
                ("p CRETVA 200 2\n", "CRETVA has an address, a number of pages and a protection code"),
                ("p CRETVA 200 2 XX\n", "\"XX\" is no protection code"),
                ("p DELTVA 204 2\n", "a range begins at a multiple of 512"),
                ("p DELTVA 1FFE00 2\n", "beyond the 4096 pages of P0"), ("p ADJWSL 0\n", "a limit is 1")]:
            with self.subTest(message):
                self.refused(message, "--keep-addresses", "--list", self.file("one", text))
        one = self.file("one", "p R4 200\n")
        self.refused("a service needs --keep-addresses", "--list", self.file("two", "p ADJWSL 9\n"))
        self.refused("--keep-addresses is for lists", "--keep-addresses", "--din", one)
        self.refused("--map needs", "--map", "A:0:1", "--list", one)
        self.refused("--map names a process", "--keep-addresses", "--map", "B:0:1", "--list", one)
        self.refused("isn't PROCESS:ADDRESS:PAGES", "--keep-addresses", "--map", "A:0", "--list", one)


    def test_changed_lists(self):
        """Lists that are cut or have a byte too many or too few give a right trace or a message."""
        chance = random.Random(4714)
        for words in (["--list"], ["--keep-addresses", "--list"]):
            for at in range(200):
                bad = changed(self.LIST.encode(), chance) if at % 2 else self.LIST.encode()[:at]
                with self.subTest(words, bad=bad):
                    self.tried(record, bad, "--no-comments", *words)


class Limits(Case):
    def test_requests(self):
        """A recording with more requests than a trace may have is cut; the limit is a small one here."""
        one = self.file("one", "".join(f" L {n % 64 * 8:x},8\n" for n in range(1003)))
        with unittest.mock.patch.object(placing, "MOST_REQUESTS", 2000):
            status, trace, messages = call(record, "record", "--lackey", one)
        self.assertEqual((status, check(trace), len(body(trace))), (0, "", 2000))
        self.assertIn("cut before reference 1001 of ", messages)
        self.assertIn("! 1000 of the 1003 references of the recording (99.7 %), 2000 requests\n", trace)
        self.assertRegex(trace, r"(?s)! \S+one: references 1 to 1000 of 1003\n! cut before reference 1001 of "
                         r".*one: a trace has at\s(! )?most 2000 requests")

    def test_pages(self):
        one = self.file("one", "".join(f" L {n * 512:x},4\n" for n in range(4098)))
        status, trace, messages = script("record.py", "--lackey", one)
        self.assertEqual((status, check(trace), len(body(trace))), (0, "", 4096))
        self.assertIn("uses more than 4096 pages", messages)
        status, trace, messages = script("record.py", "--lackey", one, "--stack", 2048)
        self.assertEqual((status, check(trace), len(body(trace))), (0, "", 1025))
        self.assertIn("uses more than 1024 stack pages", messages)
        two = self.file("two", "".join(f" L {n * 512 + 508:x},{4 + n // 4095 * 4}\n" for n in range(4097)))
        status, trace, messages = script("record.py", "--lackey", two)
        self.assertEqual((status, check(trace), len(body(trace))), (0, "", 4096))
        self.assertIn(f"cut within reference 4096 of {two}: process A uses more than 4096 pages", messages)

    def test_versions(self):
        """A trace is of the first version that has what it needs; the first two are small ones here."""
        versions = [dataclasses.replace(one, requests=100) for one in trace_limits.VERSIONS[:2]]
        lists = {count: self.file(f"{count}", "p R4 0\n" * count) for count in (100, 101)}
        with unittest.mock.patch.object(trace_limits, "VERSIONS", [*versions, trace_limits.VERSIONS[2]]):
            for words, count, first in [([], 100, "VMTRACE 1"), (["--frames", 4097], 100, "VMTRACE 2"),
                                        ([], 101, "LONGTRACE 2"), (["--frames", 16_384], 101, "LONGTRACE 2")]:
                trace = self.trace(*words, "--list", lists[count])
                self.assertEqual((trace.split("\n")[0], len(body(trace))), (first, count))
            words = ["--frames", 36, "--locks", 3, "--list", lists[101]]
            self.refused("the locks of all processes, 3, and 2 are more than the 36 frames", *words)
            self.assertEqual(self.trace("--count", 100, *words).split("\n")[0], "VMTRACE 1")

    def test_long_trace(self):
        """From 100,001 requests on a trace is a long one."""
        trace = self.trace("--list", self.file("one", "p R4 0\n" * 100_001))
        self.assertEqual((trace.split("\n")[0], len(body(trace))), ("LONGTRACE 2", 100_001))
        self.assertEqual([one.requests for one in trace_limits.VERSIONS], [100_000, 100_000, 8_000_000])

    def test_processes(self):
        text = "".join(f"p{n} R4 {n:x}00\n" for n in range(17))
        self.refused("more than 16 processes", "--list", self.file("one", text))
        one = self.file("one", text.replace("p16", "p15"))
        self.assertEqual(len(lines_of(self.trace("--list", one), "PROCESS")), 16)

    def test_machine(self):
        one = self.file("one", " L 0,4\n")
        for message, words in [
                ("--frames is 7", ["--frames", 7]), ("--pagefile is 16385", ["--pagefile", 16385]),
                ("<= 1024 doesn't hold of 0, 1, 1, 1", ["--limit", 1]),
                ("<= 1024 doesn't hold of 0, 32, 31, 31", ["--quota", 31]),
                ("<= 1024 doesn't hold of 31, 32", ["--locks", 31]),
                ("are more than the 33 frames", ["--frames", 33]),
                ("PFC is 9", ["--param", "PFC=9"]), ("no parameter", ["--param", "PFX=9"]),
                ("LOLIMIT <= HILIMIT", ["--param", "HILIMIT=31"]),
                ("FREELIM <= FREEGOAL", ["--param", "FREELIM=1"]),
                ("parameter is given twice", ["--param", "PFC=1", "--param", "PFC=2"]),
                ("--limit has 2 numbers", ["--limit", "4,4"]),
                ("--text needs --fetches", ["--text", "TEXT:A"]),
                ("isn't NAME:LETTERS", ["--text", "T:A"]), ("1 has to be", ["--widths", "2,4"]),
                ("process B, which", ["--fetches", "--text", "TEXT:B"]),
                ("part that was asked for is empty", ["--skip", 1])]:
            with self.subTest(message):
                self.refused(message, *words, "--lackey", one)

    def test_bad_recordings(self):
        for kind, text, message in [
                ("--lackey", " L 0,4\nhello\n", "line 2: \"hello\" is no line of lackey"),
                ("--lackey", " L 0,0\n", "line 1: a reference of 0 bytes"),
                ("--din", "0 1000\n9 1000\n", "line 2: \"9 1000\" is no line of the din format"),
                ("--din", "0 xyz\n", "line 1: \"xyz\" is no hexadecimal number"),
                ("--list", "p R4\n", "line 1: a line has a process, an op, an address"),
                ("--list", "p Q4 0\n", "line 1: \"Q4\" is no op"),
                ("--list", "p A2 0\n", "line 1: an add has four bytes"),
                ("--list", "p A4 2\n", "an add at 2, which is no multiple of 4"),
                ("--list", "p R4 00000000000000001\n", "is no hexadecimal number")]:
            with self.subTest(message):
                self.refused(message, kind, self.file("one", text))
        self.refused("can't be read", "--din", "/no/such/recording")
        self.refused("no recording is given")
        self.refused("there is no program", "--run", "/no/such/program")


class Checking(Case):
    """The checker finds what it is there for."""

    GOOD = ("VMTRACE 1\nFRAMES 8\nPAGEFILE 4\nSECTION LIB SHARED 2\nPROCESS A 2 2 2 0\n"
            "MAPZERO A 00000000 1 UW\nMAPSEC A 00000200 2 LIB 0 UR\nBODY\nA R4 00000000\n"
            "A W1 00000001 07\nEND\n")

    def test_faults(self):
        self.assertEqual(check(self.GOOD), "")
        self.assertEqual(check(self.GOOD.replace("VMTRACE 1", "LONGTRACE 2")), "")
        for old, new in [("VMTRACE 1", "VMTRACE 3"), ("VMTRACE 1", "LONGTRACE 1"), ("FRAMES 8", "FRAMES 7"), ("PAGEFILE 4", "PAGEFILE 0"),
                         ("PAGEFILE 4\n", "PAGEFILE 4\nPARAM PFC 9\n"), ("LIB SHARED 2", "LIB SHARED 1"),
                         ("2 2 2 0", "2 2 7 0"), ("2 2 2 0", "2 2 2 1"), ("00000000 1 UW", "00000000 2 UW"),
                         ("0 UR", "0 XX"), ("MAPZERO A", "MAPZERO B"), ("A R4 00000000", "A R4 00000002"),
                         ("A R4 00000000", "A R4 00000600"), ("01 07", "01 0007"), ("A R4", "B R4"),
                         ("A R4", "A A2"), ("END\n", ""), ("END\n", "END"), ("BODY", "! " + "x" * 260),
                         ("BODY", "! \xe4"), ("END\n", "END\nEND\n"), ("SECTION LIB", "SECTION lib")]:
            with self.subTest(new):
                self.assertNotEqual(check(self.GOOD.replace(old, new, 1)), "")


class RealPrograms(Case):
    @unittest.skipUnless(shutil.which("valgrind"), "valgrind isn't there")
    def test_record_true(self):
        plain = self.trace("--count", 2000, "--run", "/bin/true")
        self.assertEqual(lines_of(plain, "PROCESS"), ["PROCESS A 32 32 32 0"])
        self.assertGreaterEqual(len(body(plain)), 2000)
        for words in [["--fetches", "--stack", 8192, "--text", "TEXT:A", "--count", 5000],
                      ["--from", "start", "--skip", 3000, "--count", 500, "--no-comments", "--frames",
                       64]]:
            self.trace(*words, "--run", "/bin/true")

    @unittest.skipUnless(shutil.which("valgrind"), "valgrind isn't there")
    def test_begins_at_the_program(self):
        status, trace, messages = script("record.py", "--count", 100, "--run", "/bin/true")
        self.assertEqual((status, check(trace)), (0, ""), messages)
        self.assertRegex(trace, r"! /bin/true: from (main|the entry point) of /\S*true on, after \d+ ")
        self.assertRegex(messages, r"record: \d+ of the \d+ references")

    @unittest.skipUnless(shutil.which("valgrind"), "valgrind isn't there")
    def test_others_are_named(self):
        """A program that starts others is said to do so, where they aren't recorded."""
        for words, wanted in [("/bin/true; :", True), (":; :", False)]:
            messages = script("record.py", "--whole", "--count", 100, "--run", "sh", "-c", words)[2]
            self.assertEqual("it started other processes, which aren't recorded; --children" in messages, wanted, messages)

    @unittest.skipUnless(shutil.which("valgrind"), "valgrind isn't there")
    def test_children(self):
        """A shell, what it forks and what it starts have a trace each, from where the words ask for."""
        folder = pathlib.Path(self.folder.name) / "all"
        words = ["--children", "--count", 300, "--output", folder, "--run", "sh", "-c", "(:; echo) | cat; /bin/true"]
        status, trace, messages = script("record.py", *words)
        self.assertEqual((status, trace), (0, ""), messages)
        names = sorted(name.split(".")[0] for name in os.listdir(folder))
        self.assertEqual(names, ["cat", "sh", "sh", "true"])
        for path in folder.iterdir():
            text = path.read_text()
            self.assertEqual((check(text), "! 300 of the " in text), ("", True))
            self.assertRegex(text, rf"! process A is process {path.name.split('.')[1]}, started by \d+")
            self.assertIn(f"record: {path.name}: process ", messages)
        self.assertEqual(messages.count("by a fork, without a program of its own"), 1)
        self.assertEqual(os.listdir(self.folder.name), ["all"])
        self.refused("no process of /bin/true gives a trace", "--children", "--skip", 10**8, "--output", folder,
                     "--run", "/bin/true")
        self.assertEqual(len(os.listdir(folder)), 4)
        self.refused("is no folder", "--children", "--output", self.file("one", ""), "--run", "/bin/true")
        self.refused("--children needs --run", "--children", "--output", "x", "--list", self.file("one", ""))

    @unittest.skipUnless(PROGRAM, "the program isn't there")
    def test_program_takes_it(self):
        one = self.file("one", "p W4 8000 2A\np R4 8000\np R1 9000\n")
        trace = self.trace("--no-comments", "--frames", 8, "--limit", 4, "--list", one)
        status, lines = serial(trace)
        self.assertEqual((status, lines[-1]), (0, "STATUS 0"))

    @unittest.skipUnless(PROGRAM, "the program isn't there")
    def test_program_takes_the_examples(self):
        for path in sorted(EXAMPLES.glob("*.trace")):
            with self.subTest(path.name):
                self.assertEqual(serial(path.read_text(encoding="ascii"))[0], 0)

    def test_examples_keep_the_format(self):
        for path in sorted(EXAMPLES.glob("*.trace")):
            with self.subTest(path.name):
                self.assertEqual(check(path.read_text(encoding="ascii")), "")


if __name__ == "__main__":
    for needed in ("valgrind", "vax"):
        if not shutil.which(needed):
            print(f"record: there is no {needed}, and what needs it isn't tried")
    if not PROGRAM:
        print("record: the program isn't there, and no trace is run")
    unittest.main()
