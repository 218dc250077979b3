#!/usr/bin/env python3
"""The mistakes of a new user: 87 inputs and command lines, each of them wrong or nearly so.

  mistakes.py PROGRAM      writes what the program answers to each: the text of `mistakes.txt`

`mistakes.txt` has for each its name and the exit status, and behind blanks a line of standard output after `|` and one
of standard error after `!`; `!usage` stands for the lines of the program's usage, which come first in the file.
"""

import subprocess
import sys

WIDE = "\ufeff"
TRACE = """VMTRACE 1
FRAMES 8
PAGEFILE 4
PROCESS A 4 4 4 0
MAPZERO A 00000000 4 UW
BODY
A W4 00000000 0000002A
A R4 00000000
A R1 00000800
END
"""
LOG = """1 A ZERO 00000000 F0
2 A DONE W4 00000000 0000002A
3 A DONE R4 00000000 0000002A
4 A DENIED R1 00000800 UNMAPPED
PFN AT 4
FREE 7 MODIFIED 0 BAD 0 RELEASE 0 READERROR 0 WRITING 0 READING 0 ACTIVE 1
FRAME 0 ACTIVE A/00000000 MODIFY 1 REFS 1 SHARES 1
PAGEFILE 4 CHARGED 1 ASSIGNED 0
PROCESS A RESIDENT COUNT 1 LIMIT 4
STATUS 0
"""
# the dump of that run
DUMP = (b"VMSDUMP1" + b"".join(n.to_bytes(4, "big") for n in (8, 7, 0, 1, 4, 1, 0, 0x07010100, 0, 0, 1, 1, *[0] * 35, *range(1, 8), 0, 4, 1,
                                                             4, 0x01000000, *[0] * 7, 1, 0, 0xA4000000, 0)))


def line(number, text):
    """The trace with this in the place of a line."""
    lines = TRACE.splitlines()
    lines[number - 1] = text
    return "\n".join(lines) + "\n"


def before(number, *texts):
    """The trace with these lines in front of one."""
    lines = TRACE.splitlines()
    lines[number - 1:number - 1] = texts
    return "\n".join(lines) + "\n"


def without(number):
    """The trace without a line."""
    lines = TRACE.splitlines()
    del lines[number - 1]
    return "\n".join(lines) + "\n"


def swapped():
    """The trace with FRAMES and PAGEFILE the other way round."""
    lines = TRACE.splitlines()
    lines[1:3] = lines[2:0:-1]
    return "\n".join(lines) + "\n"


HEADERS = [
    ("lower-case-header", line(1, "vmtrace 1")),
    ("version-3", line(1, "VMTRACE 3")),
    ("no-version", without(1)),
    ("remark-with-another-sign", before(2, "# my machine")),
    ("remark-behind-a-line", line(2, "FRAMES 8 ! eight")),
    ("few-frames", line(2, "FRAMES 4")),
    ("many-frames", line(2, "FRAMES 100000")),
    ("frames-below-zero", line(2, "FRAMES -8")),
    ("frames-in-hexadecimal", line(2, "FRAMES 8h")),
    ("no-page-file", line(3, "PAGEFILE 0")),
    ("page-file-before-frames", swapped()),
    ("no-end", without(10)),
    ("no-body", without(6)),
    ("text-behind-end", TRACE + "A R4 00000000\n"),
]

DECLARATIONS = [
    ("process-b-first", line(4, "PROCESS B 4 4 4 0")),
    ("limit-1", line(4, "PROCESS A 1 4 4 0")),
    ("limit-above-quota", line(4, "PROCESS A 5 4 4 0")),
    ("extent-above-frames", line(4, "PROCESS A 4 4 7 0")),
    ("process-without-locks", line(4, "PROCESS A 4 4 4")),
    ("map-inside-a-page", line(5, "MAPZERO A 00000100 4 UW")),
    ("map-of-no-process", line(5, "MAPZERO B 00000000 4 UW")),
    ("protection-rw", line(5, "MAPZERO A 00000000 4 RW")),
    ("map-twice", before(6, "MAPZERO A 00000400 2 UW")),
    ("map-misspelled", line(5, "MAPZREO A 00000000 4 UW")),
    ("parameter-behind-body", before(7, "PARAM PFC 1")),
    ("parameter-unknown", before(4, "PARAM MPW_HILIMIT 4")),
    ("parameter-twice", before(4, "PARAM PFC 1", "PARAM PFC 2")),
    ("hilimit-below-lolimit", before(4, "PARAM HILIMIT 10")),
    ("freelim-above-freegoal", before(4, "PARAM FREELIM 2")),
    ("section-of-one-letter", before(4, "SECTION L SHARED 1")),
    ("section-in-lower-case", before(4, "SECTION lib SHARED 1")),
    ("section-of-version-2", before(4, "SECTION LIB PAGED 1")),
    ("data-of-three-digits", before(4, "SECTION LIB SHARED 1", "DATA LIB 0 414")),
    ("map-before-section", before(6, "MAPSEC A 00000800 1 LIB 0 UR", "SECTION LIB SHARED 1")),
    ("map-beyond-section", before(4, "SECTION LIB SHARED 1").replace("BODY", "MAPSEC A 00000800 2 LIB 0 UR\nBODY")),
]

REQUESTS = [
    ("lower-case-reference", line(7, "A w4 00000000 0000002A")),
    ("reference-of-eight-bytes", line(8, "A R8 00000000")),
    ("reference-of-no-process", line(8, "B R4 00000000")),
    ("reference-inside-a-longword", line(8, "A R4 00000002")),
    ("write-without-value", line(7, "A W4 00000000")),
    ("read-with-value", line(8, "A R4 00000000 5")),
    ("value-of-two-bytes", line(7, "A W1 00000000 1FF")),
    ("address-with-0x", line(8, "A R4 0x00000000")),
    ("address-of-nine-digits", line(8, "A R4 000000000")),
    ("address-of-letters", line(8, "A R4 OOOOOOOO")),
    ("address-of-system-space", line(8, "A R4 80000000")),
    ("address-beyond-2-megabytes", line(9, "A R1 00200000")),
    ("service-of-version-2", line(8, "A LCKPAG 00000000 1")),
    ("service-misspelled", line(8, "A PURGEWS 00000000 1")),
]

INPUTS = [
    ("byte-order-mark", (WIDE + TRACE).encode()),
    ("utf-16", (WIDE + TRACE).encode("utf-16-le")),
    ("no-break-space", line(8, "A\u00a0R4 00000000").encode()),
    ("returns", TRACE.replace("\n", "\r\n")),
    ("nothing", ""),
    ("a-log", LOG),
    ("a-dump", DUMP),
    ("a-picture", b"\x89PNG\r\n\x1a\n\x00\x00\x00\x0dIHDR"),
]

WORDS = [
    ("no-command", ""), ("help-with-dashes", "--help"), ("help-with-a-dash", "-h"), ("help", "help"), ("version", "--version"),
    ("run", "run"), ("command-misspelled", "seral"), ("command-in-capitals", "SERIAL"),
    ("serial-of-a-file", "serial examples/first-run.trace"), ("serial-with-an-option", "serial --verbose"),
    ("replay-with-a-seed", "replay --seed 1"),
    ("study-alone", "study"), ("study-of-no-process", "study --frames 8"), ("study-in-lower-case", "study --process a --frames 8"),
    ("study-of-another-process", "study --process B --frames 2"), ("study-with-no-frames", "study --process A --frames 0"),
    ("study-with-many-frames", "study --process A --frames 2000"), ("study-misspelled", "study --process A --frame 8"),
    ("make-without-seed", "make --procs 2 --refs 5"), ("make-with-many-processes", "make --seed 1 --procs 17 --refs 5"),
    ("make-with-a-seed-below-zero", "make --seed -1 --procs 1 --refs 5"), ("make-with-1e5", "make --seed 1 --procs 1 --refs 1e5"),
    ("make-with-two-seeds", "make --seed 1 --seed 2 --procs 1 --refs 5"),
]

OTHERS = [
    ("check-without-log", "check", TRACE),
    ("check-with-an-empty-log", "check", TRACE + "LOG\n"),
    ("check-with-a-wrong-log", "check", TRACE + "LOG\n" + LOG.replace("F0", "F1", 1)),
    ("check-of-a-log-alone", "check", LOG),
    ("show-of-a-trace", "show", TRACE),
    ("show-of-half-a-dump", "show", DUMP[:100]),
    ("dump-of-a-log", "dump", LOG),
]


def cases():
    """The name, the words and the input of each mistake."""
    traces = [(name, "serial", data) for name, data in HEADERS + DECLARATIONS + REQUESTS + INPUTS]
    lines = [(name, words, TRACE) for name, words in WORDS]
    for name, words, data in traces + lines + OTHERS:
        yield name, words.split(), data if isinstance(data, bytes) else data.encode()


def marked(sign, text):
    """A text's lines, each behind a sign."""
    return "".join(f"  {sign}{line}\n" for line in text.decode().splitlines())


def answers(program):
    """The text of mistakes.txt, by the program."""
    def run(words, data):
        return subprocess.run([program] + words, input=data, capture_output=True, timeout=60, check=False)
    usage = run([], b"").stderr.split(b"\n", 1)[1]
    text = "usage\n" + marked("!", usage)
    for name, words, data in cases():
        done = run(words, data)
        error = done.stderr
        short = b"" if not error.endswith(usage) else b"usage\n"
        rest = error[:len(error) - len(usage)] if short else error
        text += f"{name} {done.returncode}\n" + marked("|", done.stdout) + marked("! ", rest) + marked("!", short)
    return text


def wanted(text):
    """By name the status, standard output and standard error that mistakes.txt has; and the usage by its own name."""
    found, name = {}, None
    for row in text.splitlines():
        if not row.startswith("  "):
            name, _, status = row.partition(" ")
            found[name] = [int(status or 0), b"", b""]
        elif row.startswith("  |"):
            found[name][1] += row[3:].encode() + b"\n"
        elif row == "  !usage":
            found[name][2] += found["usage"][2]
        else:
            found[name][2] += row[3 if name == "usage" else 4:].encode() + b"\n"
    return found


if __name__ == "__main__":
    if len(sys.argv) != 2:
        sys.exit(__doc__)
    sys.stdout.write(answers(sys.argv[1]))
