#!/usr/bin/env python3
"""Tests the readers: entries, reports, studies and dumps, against what the program writes."""

import io
import random
import unittest

from places import EXAMPLES, RECORDED, examples
import neqysbar

LOG = "1 A ZERO 00000000 F0\n2 A DONE W4 00000000 0000002A\n3 MPW OUTFAIL F1 7 0 1\nPFN AT 3\nSTATUS 0\n"
SEED = 57
CHANGES = 3000


def addresses(page):
    """The first address of a page: a number of 22 bits, and bytes 0 to 511."""
    return f"{page * 512:08X}"


def page_text(frame):
    if frame.kind == "PRIVATE":
        return f"{'ABCDEFGHIJKLMNOP'[frame.owner]}/{addresses(frame.page)}"
    return f"#{frame.owner}/{frame.page}"


def shown(dump):
    """The lines that `show` writes of this state, without those of its recount."""
    yield f"DUMP {len(dump.frames)} {len(dump.processes)}"
    for number, frame in enumerate(dump.frames):
        if frame.state == "BAD":
            yield f"FRAME {number} BAD"
        elif frame.kind:
            yield (f"FRAME {number} {frame.state} {page_text(frame)} MODIFY {int(frame.modify)} "
                   f"REFS {frame.refs} SHARES {frame.shares}")
    for name, members in (("FREE", dump.free), ("MODIFIED", dump.modified)):
        yield f"LIST {name} {len(members)}"
        yield from (f"ON F{frame}" for frame in members)
    for letter, process in zip("ABCDEFGHIJKLMNOP", dump.processes):
        filled = sum(slot.state != "EMPTY" for slot in process.slots)
        yield f"PROCESS {letter} {process.status} COUNT {filled} LIMIT {process.limit} HAND {process.hand}"
        for number, slot in enumerate(process.slots):
            if slot.state != "EMPTY":
                marks = "" if slot.state == "FILLED" else " " + slot.state
                yield f"SLOT {number} {letter}/{addresses(slot.page)}{marks}"
    yield f"PAGEFILE {dump.blocks} CHARGED {dump.charged} ASSIGNED {dump.assigned}"


def dumps():
    """The dumps of all traces here."""
    for path in sorted([*EXAMPLES.glob("*.trace"), *RECORDED.glob("*.trace")]):
        status, data = neqysbar.run(["dump"], path.read_bytes())
        if status == 0:
            yield path.name, data


def bad_place(data):
    """How many bytes begin a dump, as the program says, or None for a dump."""
    status, output = neqysbar.run(["show"], data)
    return int(output.split()[1]) if status == 2 else None


class Entries(unittest.TestCase):
    def test_records(self):
        self.assertEqual([entry.words() for entry in neqysbar.read_log(LOG)], [
            {"number": 1, "seat": "A", "kind": "ZERO", "address": "00000000", "frame": "F0"},
            {"number": 2, "seat": "A", "kind": "DONE", "op": "W4", "address": "00000000", "value": "0000002A"},
            {"number": 3, "seat": "MPW", "kind": "OUTFAIL", "frame": "F1", "start": 7, "before": 0, "after": 1},
        ])
        entry = neqysbar.read_log(LOG)[0]
        self.assertEqual((entry["kind"], entry.kind, entry.op), ("ZERO", "ZERO", None))
        with self.assertRaises(KeyError):
            entry["op"]

    def test_no_entry(self):
        for line in ("1 A ZERO 00000000", "1 A", "1 A NONE 2", "1 A SERVED NONE 1", "1 A LIMIT x 2"):
            with self.assertRaises(neqysbar.NoEntry, msg=line):
                neqysbar.read_log(line + "\n")

    def test_all_lines(self):
        """Each entry line of each example is one record, whose words make the line again."""
        kinds = set()
        for words, data, output in examples():
            text = output.decode() if words == ["serial"] else data.decode()
            lines = [line for line in text.split("\nLOG\n")[-1].splitlines() if line[:1].isdecimal()]
            entries = neqysbar.read_log(text)
            self.assertEqual(len(entries), len(lines))
            for line, entry in zip(lines, entries):
                if entry.kind != "DENIED":
                    self.assertEqual(" ".join(map(str, neqysbar.entry_of(line).values())), line)
                self.assertEqual(sorted(line.split()), sorted(" ".join(map(str, entry.words().values())).split()))
                kinds.add(entry.kind)
        self.assertEqual(len(kinds), 15)


class Reports(unittest.TestCase):
    def test_reports(self):
        """Each line of a report is made again of what was read."""
        tried = 0
        for words, _, output in examples():
            text = output.decode()
            if words == ["serial"] and "PFN AT" in text:
                report = neqysbar.read_report(text)
                self.assertEqual(list(self.lines(report)), [line for line in text.splitlines() if not line[:1].isdecimal()])
                tried += 1
        self.assertGreater(tried, 10)

    def lines(self, report):
        yield f"PFN AT {report.entries}"
        yield " ".join(f"{state} {count}" for state, count in report.counts.items())
        for row in report.frames:
            yield (f"FRAME {row.frame} BAD" if row.state == "BAD" else
                   f"FRAME {row.frame} {row.state} {row.page} MODIFY {int(row.modify)} REFS {row.refs} SHARES {row.shares}")
        pages = report.page_file
        yield f"PAGEFILE {pages.blocks} CHARGED {pages.charged} ASSIGNED {pages.assigned}"
        for row in report.processes:
            yield f"PROCESS {row.process} {row.status} COUNT {row.count} LIMIT {row.limit}"
        yield from (f"DIRTY {page}" for page in report.dirty)
        yield f"STATUS {report.status}"

    def test_no_report(self):
        text = (EXAMPLES / "first-run.out").read_text()
        for changed in ("", "STATUS 1\n", text.replace("REFS", "REF"), text.replace("COUNT", "X"), text.split("FREE")[0],
                        text.replace("PAGEFILE", "PAGES")):
            with self.assertRaises(neqysbar.NoReport, msg=changed):
                neqysbar.read_report(changed)


class Studies(unittest.TestCase):
    def test_studies(self):
        """Each line of a study is made again of what was read."""
        for name, frames in (("sort", 8), ("two-counts", 5), ("vax-sum", 3), ("true", 1)):
            words = ["study", "--process", "A", "--frames", str(frames)]
            text = neqysbar.run(words, (RECORDED / f"{name}.trace").read_bytes())[1].decode()
            study = neqysbar.read_study(text)
            lines = [f"PAGES {study.pages} DISTINCT {study.distinct}", f"RING {study.frames} {study.ring}"]
            lines += [f"LRU {number} {faults}" for number, faults in study.lru.items()]
            lines += [f"LEAST {study.frames} {study.least}", *(f"DROP {place}" for place in study.drops)]
            lines += [*(f"CUT {place}" for place in study.cuts), f"STATUS {study.status}"]
            self.assertEqual(lines, text.splitlines())

    def test_no_study(self):
        for text in ("", "STATUS 1\n", "PAGES 1 DISTINCT 1\nRING 1 x\n", "RING 1 1\nLEAST 1 1\n", "DONE 3 DENIED 1\n"):
            with self.assertRaises(neqysbar.NoStudy, msg=text):
                neqysbar.read_study(text)


class Dumps(unittest.TestCase):
    def test_shown(self):
        """What is read of a dump is what `show` writes of it."""
        tried = 0
        for name, data in dumps():
            lines = neqysbar.run(["show"], data)[1].decode().splitlines()
            lines = [line for line in lines if not line.startswith(("WRONG", "STATUS"))]
            self.assertEqual(list(shown(neqysbar.read_dump(data))), lines, name)
            tried += 1
        self.assertGreater(tried, 15)

    def test_word(self):
        """The example of docs/FORMATS.md: protection code 4, the modify bit and frame 0."""
        entry = neqysbar.read_dump((EXAMPLES / "first-run.dump").read_bytes()).processes[0].valid[0]
        self.assertEqual((entry.page, entry.word, entry.protection, entry.modify, entry.frame), (0, 0xA4000000, 4, True, 0))

    def judged(self, data):
        try:
            neqysbar.read_dump(data)
        except neqysbar.NoDump as fault:
            return fault.place
        return None

    def test_no_dump(self):
        """Cut and changed dumps are refused at the byte that the program names, and no others are."""
        draws = random.Random(SEED)
        dump = (EXAMPLES / "first-run.dump").read_bytes()
        cases = [dump[:end] for end in range(len(dump))] + [dump + b"\0", b"", b"VMTRACE 1\n"]
        kept = [dump, (EXAMPLES / "swapping.dump").read_bytes()]
        for _ in range(CHANGES):
            data = bytearray(draws.choice(kept))
            data[draws.randrange(len(data))] = draws.choice((0, 1, 2, 3, 7, 8, 63, 64, 127, 128, 255, draws.randrange(256)))
            cases.append(bytes(data))
        refused = 0
        for data in cases:
            place = bad_place(data)
            self.assertEqual(self.judged(data), place, data.hex())
            refused += place is not None
        self.assertGreater(refused, CHANGES // 4)
        self.assertLess(refused, len(cases))
        with self.assertRaises(TypeError):
            neqysbar.read_dump("VMSDUMP1")


class Tables(unittest.TestCase):
    def test_to_frame(self):
        try:
            import pandas
        except ImportError:
            with self.assertRaisesRegex(ImportError, "pandas"):
                neqysbar.to_frame([])
            self.skipTest("tables of records: there is no pandas")
        table = neqysbar.to_frame(neqysbar.read_log(LOG))
        self.assertEqual(list(table["address"][:2]), ["0x00000000", "0x00000000"])
        self.assertEqual(list(table["value"].dropna()), ["0x0000002A"])
        again = pandas.read_csv(io.StringIO(table.to_csv(index=False)))
        self.assertEqual(again["address"][1], "0x00000000")
        self.assertEqual([str(table[name].dtype) for name in ("number", "start")], ["Int64", "Int64"])
        report = neqysbar.read_report((EXAMPLES / "swapping.out").read_text())
        self.assertEqual(list(neqysbar.to_frame(report.processes)["status"]), ["RESIDENT", "GONE", "RESIDENT"])


if __name__ == "__main__":
    unittest.main()
