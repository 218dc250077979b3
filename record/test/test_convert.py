"""Tests the converter; test_record.py runs it too."""

import random
import re
import struct
import unittest

from cases import PROGRAM, SAMPLES, Case, body, changed, lines_of, serial

import convert

# the samples: format, file, further words, references, requests, processes. The lines of each kind were counted with
# grep: 243 fetches, 36 reads, 37 writes and 4 modifications. With a size of 1 each read and write is one request;
# with the program's own sizes 32 references of eight bytes are two requests each, one that isn't aligned is four, and
# the modifications are two each.
SIZED = ["--sizes", "decimal"]
CONVERTED = [
    ("lackey", "tiny.lackey", ["--widths", "1", "--fetches"], 320, None, 1),
    ("lackey", "tiny.lackey", [], 77, 116, 1),
    ("din", "tiny.din", ["--size", 1], 81, 81, 1),
    ("din", "tiny.din", ["--size", 1, "--fetches"], 324, 324, 1),
    ("din-extended", "tiny.din-extended", SIZED, 81, 116, 1),
    ("pinatrace", "tiny.pinatrace", ["--size", 1], 81, 81, 1),
    ("execlog", "tiny.execlog", ["--size", 1], 81, 81, 1),
    ("execlog", "tiny.execlog", ["--size", 1, "--fetches"], 324, 324, 1),
    ("perf", "true.perf", ["--size", 1, "--event", "page-faults=W"], 50, 50, 1),
    ("perf", "loads.perf", [], 3, 3, 2),
    ("oracle-general", "objects.oracleGeneral", [], 12, 12, 1),
    ("csv", "tiny.csv", [], 77, 116, 1),
]
# the words that each format wants for its sample
SAMPLE_WORDS = {form: (name, [word for word in words if word != "--fetches"])
                for form, name, words, *_ in CONVERTED[1:]}
# the formats whose last line need not be ended
UNENDED = ("csv",)


def references_of_lackey():
    """The reads and writes of the sample, and the fetches, as this reads its lines."""
    for line in (SAMPLES / "tiny.lackey").read_text().splitlines():
        found = re.fullmatch(r"(I | S| L| M) {1,2}([0-9a-f]+),[0-9]+", line)
        for op in {"I ": "I", " S": "W", " L": "R", " M": "RW"}[found[1]] if found else "":
            yield op, int(found[2], 16)


def placed(references):
    """The requests of one byte each that they become: each page has a place in order of first use."""
    places = {}
    for op, address in references:
        place = places.setdefault(address // 512, len(places))
        at = place * 512 + address % 512
        yield f"A R1 {at:08X}" if op in "RI" else f"A W1 {at:08X} 00"


class Samples(Case):
    def test_counts(self):
        """Each sample gives a trace that the program runs, with the references and requests that are told."""
        for form, name, words, references, requests, processes in CONVERTED:
            with self.subTest(name, words=words):
                trace = self.trace(form, *words, SAMPLES / name, tool=convert)
                requests = requests or len(body(trace))
                share = f"! {references} of the {references} references of the recording (100 %), {requests} requests"
                self.assertIn(share, trace.splitlines())
                self.assertEqual((len(body(trace)), len(lines_of(trace, "PROCESS"))), (requests, processes))
                if PROGRAM:
                    status, lines = serial(trace)
                    self.assertEqual((status, sum(" DONE " in line for line in lines)), (0, requests))

    def test_one_program(self):
        """Six tools' recordings of one program have its references in one order."""
        data = list(placed(one for one in references_of_lackey() if one[0] != "I"))
        both = list(placed(references_of_lackey()))
        for form, words in [("din", []), ("execlog", []), ("pinatrace", [])]:
            words = [*words, "--size", 1, "--zero"]
            sample = SAMPLES / f"tiny.{form}"
            self.assertEqual(body(self.trace(form, *words, sample, tool=convert)), data)
            if form != "pinatrace":
                self.assertEqual(body(self.trace(form, "--fetches", *words, sample, tool=convert)), both)
        sized = {form: body(self.trace(form, "--zero", *words, SAMPLES / f"tiny.{form}", tool=convert))
                 for form, words in [("lackey", []), ("din-extended", SIZED), ("csv", [])]}
        self.assertEqual(sized["lackey"], sized["csv"])
        self.assertEqual(sized["lackey"], sized["din-extended"])

    def test_events(self):
        """What a sample of perf is comes from its event, or from the user."""
        trace = self.trace("perf", "--no-comments", "--zero", SAMPLES / "loads.perf", tool=convert)
        self.assertEqual(body(trace), ["A R4 00000110", "A W4 000003D8 00000000", "B R4 000001E0"])
        words = ["--event", "cpu/mem-stores/P=skip", "--event", "cpu/mem-loads,ldlat=30/P=W"]
        trace = self.trace("perf", *words, "--zero", SAMPLES / "loads.perf", tool=convert)
        self.assertEqual(body(trace), ["A W4 00000110 00000000", "B W4 000001E0 00000000"])
        self.refused("the event page-faults doesn't say whether it reads or writes; --event page-faults=R tells it",
                     "perf", SAMPLES / "true.perf", tool=convert)

    def test_objects(self):
        """Each object is a page, in order of first use."""
        pages = {thing: place for place, thing in enumerate([7, 9, 2**63 + 5, 11, 12])}
        trace = self.trace("oracle-general", SAMPLES / "objects.oracleGeneral", tool=convert)
        self.assertEqual(body(trace), [f"A R4 {512 * pages[thing]:08X}" for thing in
                                       [7, 9, 7, 2**63 + 5, 9, 7, 11, 7, 2**63 + 5, 12, 7, 9]])
        self.assertIn(f"! A 00000400 1 {(2**63 + 5) * 512:X}", trace.splitlines())

    def test_tables(self):
        """Columns by their names or the user's, numbers in the base that is told."""
        one = self.file("one", "who;where;what;much;bytes\np;100;W;2A;4\nq;102;R;;2\np;104;A;1;4\n")
        words = ["--delimiter", ";", "--base", 16]
        for name, called in [("process", "who"), ("address", "where"), ("op", "what"), ("value", "much"),
                             ("size", "bytes")]:
            words += ["--column", f"{name}={called}"]
        trace = self.trace("csv", *words, one, tool=convert)
        self.assertEqual(body(trace), ["A W4 00000100 0000002A", "B R2 00000102", "A A4 00000104 00000001"])
        two = self.file("two", "address\n\"1024\"\n0x402\n")
        self.assertEqual(body(self.trace("csv", "--op", "R", "--size", 2, "--base", 10, two, tool=convert)),
                         ["A R2 00000000", "A R2 00000002"])

    def test_parts(self):
        """The recorder's choices hold of the converter too, and several files are several processes."""
        words = ["--size", 1, "--zero", "--skip", 2, "--count", 3, "--quantum", 2]
        sample = SAMPLES / "tiny.pinatrace"
        trace = self.trace("pinatrace", *words, sample, sample, tool=convert)
        self.assertEqual([line[0] for line in body(trace)], list("AABBAB"))
        self.assertIn("! 6 of the 162 references of the recordings (3.7 %), 6 requests", trace.splitlines())
        trace = self.trace("execlog", "--size", 1, "--from", "0x401019", SAMPLES / "tiny.execlog", tool=convert)
        self.assertRegex(trace, r"references \d+ to 81 of 81")
        self.refused("--from main needs a recording of valgrind's lackey", "--from", "main", "execlog",
                     SAMPLES / "tiny.execlog", tool=convert)


class Refused(Case):
    def test_not_of_the_format(self):
        """What isn't of the format is refused with what was expected, and where it failed."""
        record = struct.pack("<IQIq", 5, 7, 1, -1)
        for form, words, text, message in [
                ("lackey", [], " L 0,4\n X 0,4\n", "one, line 2: \"X 0,4\" is no line of lackey: it has I, L, S or M"),
                ("din", [], "0 10\nr 10 4\n", "line 2: \"r 10 4\" is no line of the din format: it has a label"),
                ("din-extended", [], "0 10\n", "is no line of the extended din format: it has r, w or i, an address"),
                ("din-extended", [], "c 10 4\n", "is no line of the extended din format"),
                ("din-extended", [], "r 10 16\n", "line 1: the size \"16\" has several digits; --sizes decimal or"),
                ("din-extended", SIZED, "r 10 1a\n", "line 1: \"1a\" is no size"),
                ("pinatrace", [], "0x1: R 0x2\n0x1: M 0x2\n#eof\n", "line 2: \"0x1: M 0x2\" is no line of pinatrace"),
                ("pinatrace", [], "0x1: R 0x2\n", "its last line isn't #eof, which pinatrace writes at its end"),
                ("pinatrace", [], "0x1: R 0x2\n#eof\n0x1: R 0x2\n", "line 3: \"0x1: R 0x2\" is no line of pinatrace: "
                 "nothing stands after #eof"),
                ("execlog", [], "0, 0x1, 0xb8, \"nop\", load, 0x00000010, RAM\n", "physical addresses with a device"),
                ("perf", [], "            true 26132   787.141111:          1 page-faults:      7f6be0b1ab70 _start\n",
                 "is no line of perf script -F pid,event,addr,ip"),
                ("perf", ["--event", "page-faults=R"], "26132 page-faults:     55a0893ef1e0\n", "is no line of perf"),
                ("oracle-general", [], (record + record[:23]).decode("latin-1"), "it has 47 bytes, which is no "),
                ("oracle-general", [], (record + struct.pack("<IQIq", 4, 7, 1, -1)).decode("latin-1"),
                 "record 2 (byte 24): its time is 4, after 5"),
                ("oracle-general", [], struct.pack("<IQIq", 4, 7, 1, 0).decode("latin-1"), "number 0, so it is no "),
                ("oracle-general", [], "\x28\xb5\x2f\xfd" + "x" * 44, "it is packed by zstd"),
                ("csv", ["--op", "R"], "adress\n1\n", "no column is called address; the first line names the columns"),
                ("csv", [], "address\n0x1\n", "no column is called op; --op tells"),
                ("csv", ["--op", "R"], "address\n10\n", "line 2: \"10\" has no 0x; --base 10 or --base 16"),
                ("csv", ["--op", "R"], "address,address\n", "two columns are called address"),
                ("csv", [], "op,address\nR,0x1,2\n", "line 2: it has 3 words, and the first line has 2"),
                ("csv", [], "op,address\nX,0x1\n", "line 2: \"X\" is no op; there are R, W, M, A, I"),
                ("csv", [], "op,address\nR,\"0x1\n", "line 2: \"R,\"0x1\" is no line of CSV"),
                ("csv", [], "", "is empty; its first line has to name the columns"),
                ("csv", [], "op,address\nA,0x2\n", "an add at 2, which is no multiple of 4"),
                ("csv", [], "op,address,process\nR,0x2,\xe4\n", "line 2: it has bytes that aren't ASCII")]:
            with self.subTest(form, text=text):
                self.refused(message, form, *words, self.file("one", text), tool=convert)

    def test_words(self):
        """Options that a format hasn't are refused, and so is a list that is no list."""
        for message, words in [
                ("--fetches is for lackey", ["pinatrace", "--fetches"]), ("--op is for csv", ["din", "--op", "R"]),
                ("--event is for perf", ["csv", "--event", "x=R"]), ("isn't EVENT=OP", ["perf", "--event", "R"]),
                ("isn't NAME=COLUMN", ["csv", "--column", "at=x"]), ("invalid choice", ["gem5"]),
                ("isn't one character", ["csv", "--delimiter", "ab"]),
                ("a reference of 5000 bytes", ["pinatrace", "--size", 5000])]:
            with self.subTest(message):
                self.refused(message, *words, SAMPLES / "tiny.pinatrace", tool=convert)
        self.refused("is no name of a process", "--list", SAMPLES / "tiny.pinatrace")

    def test_far_addresses(self):
        """Any address of 64 bits is folded: its page has a place in order of first use, as long as there are some."""
        one = self.file("one", "0x1: R 0xffffffffffffffff\n0x1: W 0xfffffffffffffffc\n#eof\n")
        trace = self.trace("pinatrace", "--zero", one, tool=convert)
        self.assertEqual(body(trace), ["A R1 000001FF", "A R2 00000200", "A R1 00000202", "A W4 000001FC 00000000"])
        many = self.file("many", "".join(f"0x1: R 0x{n << 40:x}\n" for n in range(4098)) + "#eof\n")
        trace = self.trace("pinatrace", many, tool=convert)
        self.assertEqual(len(body(trace)), 4096)
        self.assertRegex(trace, r"cut before reference 4097 of \S+many:\s(! )?process A uses more than 4096 pages")


class Mutations(Case):
    """Recordings that are cut, or have a byte, a line or a record too many or too few."""

    CHANGES = 60

    def test_bytes(self):
        for form, (name, words) in SAMPLE_WORDS.items():
            data, chance = (SAMPLES / name).read_bytes(), random.Random(4711)
            statuses = set()
            for _ in range(self.CHANGES):
                bad = changed(data, chance)
                with self.subTest(form, bad=bad):
                    statuses.add(self.tried(convert, bad, form, *words)[0])
            self.assertIn(2, statuses)

    def test_cuts(self):
        """A recording that is cut within a line or a record is refused, and pinatrace's wherever it is cut."""
        for form, (name, words) in SAMPLE_WORDS.items():
            data, chance = (SAMPLES / name).read_bytes(), random.Random(4712)
            for _ in range(40):
                at = chance.randrange(1, len(data))
                whole = at % 24 == 0 if form == "oracle-general" else form != "pinatrace" and data[at - 1:at] == b"\n"
                with self.subTest(form, at=at):
                    status, messages = self.tried(convert, data[:at], form, *words)
                    if form not in UNENDED:
                        empty = "no reference is left" in messages
                        self.assertEqual(status, 0 if whole and not empty else 2, messages)

    def test_lines(self):
        """A foreign line is refused by its number, wherever it stands."""
        for form, (name, words) in SAMPLE_WORDS.items():
            lines, chance = (SAMPLES / name).read_bytes().splitlines(keepends=True), random.Random(4713)
            for at in [chance.randrange(1, len(lines)) for _ in range(20)] if form != "oracle-general" else ():
                with self.subTest(form, at=at):
                    bad = b"".join([*lines[:at], b"hello, world; 1 2\n", *lines[at:]])
                    status, messages = self.tried(convert, bad, form, *words)
                    self.assertEqual((status, f"line {at + 1}: " in messages), (2, True), messages)


if __name__ == "__main__":
    unittest.main()
