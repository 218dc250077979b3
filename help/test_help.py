#!/usr/bin/env python3
"""Tests the texts of help, and what is made of them: help/test_help.py [PROGRAM [SCRIPT]]

PROGRAM is what the texts are held against; without it that is `release/neqysbar`. SCRIPT is the script
`neqysbar` that answers with them; without it that of the repository. It needs Python 3.9 and no packages.
"""

import os
import pathlib
import re
import shutil
import subprocess
import sys
import tempfile
import unittest

HERE = pathlib.Path(__file__).resolve().parent
TOP = HERE.parent
PROGRAM = TOP / "release" / "neqysbar"
SCRIPT = TOP / "neqysbar"
COMMANDS = "serial replay make check study dump show".split()
# options with values that are accepted
OPTIONS = {"make": {"--seed": 1, "--procs": 1, "--refs": 1}, "study": {"--process": "A", "--frames": 3}}
WIDTH = 79


def run(*words, **named):
    done = subprocess.run([str(word) for word in words], capture_output=True, text=True, timeout=120, **named)
    return done.returncode, done.stdout, done.stderr


def status_of(words, source, sink):
    """The status of the program with these ends."""
    ends = [os.open(source, os.O_RDONLY), os.open(sink, os.O_WRONLY)]
    try:
        return subprocess.run([PROGRAM, *words], stdin=ends[0], stdout=ends[1], stderr=subprocess.DEVNULL).returncode
    finally:
        for end in ends:
            os.close(end)


def text_of(name):
    return (HERE / f"{name}.txt").read_text(encoding="ascii")


def section(name, heading):
    """The lines of a section, without the four blanks before them."""
    found = re.search(rf"^{heading}\n(.*?)(?=^[A-Z]|\Z)", text_of(name), re.M | re.S)
    return [line[4:] for line in found[1].splitlines()]


def explained(name, heading, term):
    """What a section says of a term, in one line."""
    lines, text = section(name, heading), ""
    for at, line in enumerate(lines):
        if line.startswith(term):
            text = re.sub(r"^ +", "", line[len(term):])
            for line in lines[at + 1:]:
                if not line.startswith(" " * 8):
                    break
                text += " " + line.strip()
            return text.strip()
    raise KeyError(f"{name} doesn't explain {term}")


def trace(version=1, frames=40, pagefile=16, lines=(), process="4 4 4 0", processes=1, maps=(), body=(), first="VMTRACE"):
    letters = [chr(65 + number) for number in range(processes)]
    return "\n".join([f"{first} {version}", f"FRAMES {frames}", f"PAGEFILE {pagefile}", *lines,
                      *(f"PROCESS {letter} {process}" for letter in letters), *maps, "BODY", *body, "END", ""])


def sections(count, pages=1):
    return trace(lines=[f"SECTION S{number} SHARED {pages}" for number in range(count)])


def data(count):
    return trace(lines=["SECTION LIB SHARED 1", "DATA LIB 0 " + "2A" * count])


# of a trace: the term, a phrase that the explanation has, the trace for a number, and numbers that are
# accepted, and refused
BOUNDS = (
    ("VMTRACE v", "1 to 2", lambda n: trace(version=n), (1, 2), (0, 3)),
    ("LONGTRACE v", "2 alone", lambda n: trace(n, first="LONGTRACE"), (2,), (0, 1, 3)),
    ("FRAMES n", "8 to 4096,", lambda n: trace(frames=n), (8, 4096), (7, 4097)),
    ("FRAMES n", "in version 2 to 16384", lambda n: trace(2, frames=n), (8, 16384), (7, 16385)),
    ("PAGEFILE n", "1 to 16384", lambda n: trace(pagefile=n), (1, 16384), (0, 16385)),
    ("SECTION name kind n", "64 sections", sections, (1, 64), (65,)),
    ("SECTION name kind n", "16384 pages of them", lambda n: sections(1, n), (1, 16384), (0, 16385)),
    ("SECTION name kind n", "in version 2, PAGED", lambda n: trace(n, lines=["SECTION LIB PAGED 1"]), (2,), (1,)),
    ("DATA name offset hex", "1 to 64", data, (1, 64), (65,)),
    ("PROCESS x limit", "16 at most", lambda n: trace(processes=n), (1, 16), (17,)),
    ("PROCESS x limit", "extent <= 1024", lambda n: trace(frames=2000, process=f"4 4 {n} 0"), (4, 1024), (3, 1025)),
    ("PROCESS x limit", "locks + 2 <= limit", lambda n: trace(process=f"4 4 4 {n}"), (0, 2), (3,)),
    ("PROCESS x limit", "limit <= quota", lambda n: trace(process=f"{n} 4 4 0"), (2, 4), (1, 5)),
    ("PROCESS x limit", "quota <= extent", lambda n: trace(process=f"4 {n} 6 0"), (4, 6), (3, 7)),
    ("BODY", "100000 at most", lambda n: trace(body=["A R1 0"] * n), (0, 100000), (100001,)),
    # that it takes no more than these the tests of the crates show
    ("BODY", "behind LONGTRACE 8000000", lambda n: trace(2, body=["A R1 0"] * n, first="LONGTRACE"), (0, 100001), ()),
    ("x R4", "R1, R2, R4", lambda n: trace(body=[f"A R{n} 0"]), (1, 2, 4), (3, 8)),
    ("x W4", "W1, W2, W4", lambda n: trace(body=[f"A W{n} 0 1"]), (1, 2, 4), (3, 8)),
    ("x W4", "A4 adds", lambda n: trace(body=[f"A A{n} 0 1"]), (4,), (1, 2)),
)


class Texts(unittest.TestCase):
    def test_each_line_fits_a_terminal(self):
        for name in ("neqysbar", *COMMANDS):
            for line in text_of(name).splitlines():
                self.assertLessEqual(len(line), WIDTH, f"{name}: {line}")
                self.assertRegex(line, r"^(\S|$| {4}\S| {12}\S)", name)
        self.assertEqual(sorted(path.stem for path in HERE.glob("*.txt")), sorted(("neqysbar", *COMMANDS)))

    def test_the_files_are_there(self):
        for line in section("neqysbar", "FILES"):
            if "/" in line and not line.startswith(" ") and " " not in line:
                self.assertTrue((TOP / line).exists(), line)

    def test_each_command_is_told_alike(self):
        for name in COMMANDS:
            headings = re.findall(r"^([A-Z]+)$", text_of(name), re.M)
            self.assertEqual(headings, "USAGE OPTIONS INPUT OUTPUT STATUS EXAMPLE".split(), name)
            what = text_of(name).splitlines()[0].removeprefix(f"neqysbar {name} - ")
            self.assertEqual(explained("neqysbar", "COMMANDS", name).lower(), what + ".")

    def test_usage_is_that_of_the_program(self):
        usage = re.sub(r"\s+", " ", run(PROGRAM)[2]).split(" example: ")[0]
        parts = {part.split()[0]: part for part in re.split(r" neqysbar (?=[a-z])", usage)[1:]}
        self.assertEqual(sorted(parts), sorted(COMMANDS))
        for name in COMMANDS:
            line = section(name, "USAGE")[0]
            self.assertIn(line.removeprefix("neqysbar ") + " ", parts[name])
            options = [line.split()[0] for line in section(name, "OPTIONS") if line.startswith("--")]
            self.assertEqual(options, re.findall(r"--[a-z]+", parts[name]))
            for option in options:
                self.assertIn(re.search(r"\w+ to \w+", explained(name, "OPTIONS", option))[0], parts[name])

    def test_statuses_are_those_of_the_formats(self):
        formats = (TOP / "docs" / "FORMATS.md").read_text(encoding="utf-8")
        told = re.findall(r"^\| (\d) \|", formats[formats.index("## Exit statuses"):], re.M)
        terms = re.findall(r"^(\d+) {2}", "\n".join(section("neqysbar", "STATUS")), re.M)
        self.assertEqual(terms, [*told, "126", "127"])

    def test_statuses_are_those_that_a_command_can_end_with(self):
        dirty = trace(lines=["SECTION LIB SHARED 1", "FAIL S:LIB/0 " + " ".join(map(str, range(2, 18)))],
                      maps=["MAPSEC A 0 1 LIB 0 UW"], body=["A W1 0 1"])
        with tempfile.TemporaryDirectory() as room:
            good, dump = pathlib.Path(room, "trace"), pathlib.Path(room, "dump")
            good.write_text(trace() + "LOG\n" + run(PROGRAM, "serial", input=trace())[1])
            dump.write_bytes(subprocess.run([PROGRAM, "dump"], input=trace().encode(), capture_output=True).stdout)
            plain = pathlib.Path(room, "plain")
            plain.write_text(trace())
            bad = {2: "x\n", 5: dirty, 8: trace() + "LOG\n1 A\n"}
            for status, text in bad.items():
                pathlib.Path(room, str(status)).write_text(text)
            for name in COMMANDS:
                words = [name, *(str(word) for pair in OPTIONS.get(name, {}).items() for word in pair)]
                own = {"check": good, "show": dump}.get(name, plain)
                calls = ((words, own, os.devnull), ([*words, "x"], own, os.devnull), (words, "/", os.devnull),
                         (words, own, "/dev/full"), *((words, f"{room}/{status}", os.devnull) for status in bad))
                seen = {status_of(*call) for call in calls}
                told = re.findall(r"^(\d) {2}", "\n".join(section(name, "STATUS")), re.M)
                # want of memory, and what no trace of make does, are tried elsewhere
                self.assertEqual(seen | {7} | ({5} if name == "make" else set()), set(map(int, told)), name)

    def test_options_at_their_bounds(self):
        for name, values in OPTIONS.items():
            for option in values:
                low, high = re.search(r"(\w+) to (\w+)", explained(name, "OPTIONS", option)).groups()
                beyond = (chr(ord(high) + 1), "AB", low.lower()) if low.isalpha() else (int(low) - 1, int(high) + 1, "x")
                for value, status in (*((value, 0) for value in (low, high)), *((value, 1) for value in (*beyond, ""))):
                    for form in ((option, value), (f"{option}={value}",)):
                        rest = [str(word) for other in values if other != option for word in (other, values[other])]
                        found = run(PROGRAM, name, *rest, *form, input=trace())
                        self.assertEqual(found[0], status, f"{name} {form}: {found[2][:80]}")

    def test_traces_at_their_bounds(self):
        for term, phrase, made, good, bad in BOUNDS:
            self.assertIn(phrase, explained("serial", "INPUT", term))
            for number, status in (*((number, 0) for number in good), *((number, 2) for number in bad)):
                found = run(PROGRAM, "serial", input=made(number))
                self.assertEqual(found[0], status, f"{term} {number}: {found[2]}")

    def test_the_services_of_a_trace(self):
        before, after = explained("serial", "INPUT", "x SERVICE ...").split(", in version 2 ")
        operands = {"CRETVA": "0 1 UW", "SETPRT": "0 1 UW", "ADJWSL": "4"}
        for word in re.findall(r"[A-Z]{6}", before) + re.findall(r"[A-Z]{6}", after):
            for version in (1, 2):
                text = trace(version, body=[f"A {word} {operands.get(word, '0 1')}"])
                self.assertEqual(run(PROGRAM, "serial", input=text)[0], 2 if version == 1 and word in after else 0, word)


class Examples(unittest.TestCase):
    def test_each_example_prints_what_it_shows(self):
        with tempfile.TemporaryDirectory() as room:
            room = pathlib.Path(room)
            shutil.copytree(TOP / "examples", room / "examples")
            (room / "neqysbar").symlink_to(PROGRAM)
            surrounding = {**os.environ, "PATH": f"{room}:{os.environ['PATH']}"}
            for name in ("neqysbar", *COMMANDS):
                steps = "\n".join(section(name, "EXAMPLE")).split("$ ")[1:]
                for step in steps:
                    command, *shown = step.strip("\n").splitlines()
                    pattern = "".join(re.escape(line).replace(r"\.\.\.", ".*") + "\n" if line != "..." else "(.*\n)*"
                                      for line in shown)
                    status, output, messages = run("bash", "-c", command, cwd=room, env=surrounding)
                    self.assertEqual((status, messages), (0, ""), command)
                    output += "\n" if output and not output.endswith("\n") else ""
                    self.assertRegex(output, rf"\A{pattern}\Z", command)


class Script(unittest.TestCase):
    def test_what_the_script_answers(self):
        version = (TOP / "VERSION").read_text().strip()
        asked = {("--help",): "neqysbar", ("-h",): "neqysbar", ("help",): "neqysbar", ("help", "help"): "neqysbar"}
        for name in COMMANDS:
            asked.update({("help", name): name, (name, "--help"): name, (name, "-h"): name})
        for words, name in asked.items():
            self.assertEqual(run(SCRIPT, *words), (0, text_of(name), ""), words)
        for word in ("--version", "-V"):
            self.assertEqual(run(SCRIPT, word), (0, f"neqysbar {version}\n", ""))

    def test_no_such_help(self):
        for word in ("frob", "", "../VERSION", "serial.txt", "-x"):
            status, output, messages = run(SCRIPT, "help", word)
            self.assertEqual((status, output), (1, ""))
            self.assertIn("for serial, replay", messages)

    def test_help_that_cannot_be_written(self):
        with open("/dev/full", "wb") as full:
            done = subprocess.run([SCRIPT, "help"], stdout=full, stderr=subprocess.PIPE)
        self.assertNotEqual(done.returncode, 0)

    def test_what_is_handed_on(self):
        if not any(run(TOP / "release" / name)[0] == 0 for name in ("is_of_sources", "is_built")):
            self.skipTest("the program would have to be built first")
        for words in ((), ("",), ("serial",), ("serial", "-H"), ("serial", "help"), ("study", "--process", "A", "--help"),
                      ("--help", "serial"), ("help", "serial", "x"), ("-v",), ("--version", "x"), ("frob", "--help"),
                      ("--", "--help"), ("study", "--process=A", "--frames=3"), ("a b", "c"), ("*",), ("-x",), ("-n",)):
            self.assertEqual(run(SCRIPT, *words, input=trace()), run(PROGRAM, *words, input=trace()), words)


def made(name, **variables):
    """What a script makes of the texts."""
    words = [word for pair in variables.items() for word in ("-v", "=".join(pair))]
    status, output, messages = run("awk", *words, "-f", HERE / name, *(HERE / f"{text}.txt" for text in ("neqysbar", *COMMANDS)))
    assert (status, messages) == (0, ""), messages
    return output


class Made(unittest.TestCase):
    @unittest.skipUnless(shutil.which("groff"), "there is no groff")
    def test_the_man_page(self):
        page = made("man.awk", version="1.2.3")
        status, output, messages = run("groff", "-man", "-Tascii", "-ww", "-rLL=78n", "-P-cbou", input=page)
        self.assertEqual((status, messages), (0, ""))
        words = re.sub(r"(\w)-\n +(\w)", r"\1\2", output)
        words = " ".join(words.split())
        for name in ("neqysbar", *COMMANDS):
            for line in text_of(name).splitlines()[1:]:
                for word in line.split():
                    self.assertIn(word.upper() if line == word else word, words.upper() if line == word else words)
        self.assertIn("neqysbar 1.2.3", words)
        for line in output.splitlines():
            self.assertLessEqual(len(line), WIDTH + 8)

    @unittest.skipUnless(shutil.which("bash"), "there is no bash")
    def test_the_completion_for_bash(self):
        source = made("completion.awk", shell="bash")
        call = ('eval "$1"; shift; compopt() { :; }; COMP_WORDS=("$@"); COMP_CWORD=$(($# - 1)); _neqysbar; echo "${COMPREPLY[*]}"')
        for words, wanted in (
            (("",), " ".join(COMMANDS) + " help --help --version"), (("s",), "serial study show"),
            (("help", ""), " ".join(COMMANDS)), (("help", "serial", ""), ""), (("serial", ""), "--help"),
            (("study", ""), "--process --frames --help"), (("study", "--process", ""), "A B C D E F G H I J K L M N O P"),
            (("study", "--frames", ""), ""), (("study", "--frames", "3", ""), "--process"),
            (("make", "--seed", "1", "--refs", "2", "--"), "--procs"), (("frob", "--frames", ""), ""),
            (("serial", "<", "VERS"), "VERSION"), (("serial", "2>", "VERS"), "VERSION"),
        ):
            found = run("bash", "-c", call, "bash", source, "neqysbar", *words, cwd=TOP)
            self.assertEqual(found, (0, wanted + "\n", ""), words)
        if shutil.which("shellcheck"):
            # what it finds stands on standard output; on a crowded machine it may not get as far
            self.assertEqual(run("shellcheck", "-s", "bash", "-", input=source)[1], "")

    @unittest.skipUnless(shutil.which("zsh"), "there is no zsh")
    def test_the_completion_for_zsh(self):
        with tempfile.TemporaryDirectory() as room:
            path = pathlib.Path(room) / "_neqysbar"
            path.write_text(made("completion.awk", shell="zsh"))
            self.assertEqual(run("zsh", "-n", path), (0, "", ""))


if __name__ == "__main__":
    if len(sys.argv) > 1 and not sys.argv[1].startswith("-"):
        PROGRAM = pathlib.Path(sys.argv.pop(1)).resolve()
    if len(sys.argv) > 1 and not sys.argv[1].startswith("-"):
        SCRIPT = pathlib.Path(sys.argv.pop(1)).resolve()
    unittest.main()
