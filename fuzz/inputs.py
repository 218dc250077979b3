"""Inputs for the fuzzer: valid ones to begin with, and changes of them by the grammar of their lines.

All draws come from the `random.Random` that is handed in, so a seed gives the same inputs everywhere.
"""

import pathlib
import re
import tarfile

TOP = pathlib.Path(__file__).resolve().parent.parent
LARGEST = 60_000  # bytes of an input to begin with

# words of a trace, by what may stand in each other's place
KINDS = (
    "PARAM BAD SECTION DATA PROCESS MAPZERO MAPSEC FAIL BODY END FRAMES PAGEFILE VMTRACE LONGTRACE LOG".split(),
    "R1 R2 R4 W1 W2 W4 A4 KR4 ER1 SW2 UA4".split(),
    "CRETVA DELTVA SETPRT LKWSET ULWSET LCKPAG ULKPAG PURGWS ADJWSL".split(),
    "SHARED CRF PAGED".split(),
    "UW UR KW ERKW NA EW SREW URKW".split(),
    "A B C D P Q".split(),
    "PFC HILIMIT LOLIMIT WAITLIMIT WRTCLUSTER FREELIM FREEGOAL AWSTIME PFRATH PFRATL WSINC WSDEC AWSMIN BORROWLIM".split(),
    "ZERO BACK COLLIDE IN INOK INFAIL OUT OUTOK OUTFAIL EVICT REUSE DONE DENIED SERVED LIMIT TURN".split(),
    "FREE MODIFIED BAD RELEASE READERROR WRITING READING ACTIVE".split(),
    "RESIDENT LEAVING GONE COMING".split(),
    "REPLACE PURGE DELETE LEAVE RUNDOWN".split(),
    "FAULT NEAR COME".split(),
    "UNMAPPED PROTECTED PAGEFILEFULL DISKFAULT OK INUSE LOCKLIMIT BADLIMIT".split(),
    "MPW SWP A B".split(),
)
# numbers at which a rule begins or ends
BOUNDS = (0, 1, 2, 3, 7, 8, 9, 15, 16, 17, 63, 64, 65, 255, 256, 511, 512, 513, 1023, 1024, 1025, 4095, 4096, 4097,
          16383, 16384, 16385, 65535, 100000, 100001, 2**31 - 1, 2**31, 2**32 - 1, 2**32, 2**64)
ADDRESSES = (0, 1, 3, 0x1FF, 0x200, 0x201, 0x400, 0x1FFE00, 0x200000, 0x3FFFFFFF, 0x40000000, 0x7FF7FE00, 0x7FF80000,
             0x7FFFFE00, 0x7FFFFFFC, 0x7FFFFFFF, 0x80000000, 0xFFFFFFFF)
SECOND, LONG = b"VMTRACE 2\n", b"LONGTRACE 2\n"
BYTES = (0, 9, 10, 13, 32, 33, 34, 47, 48, 57, 58, 64, 65, 126, 127, 128, 255)


def as_long(data):
    """A trace of version 2 as a long trace, or None for another one."""
    return LONG + data[len(SECOND):] if data.startswith(SECOND) else None


def stored():
    """The traces, the traces with logs, and the dumps of the repository, as bytes, by what they are."""
    found = {"trace": [], "log": [], "dump": []}

    def add(data):
        if len(data) > LARGEST:
            return
        if data.startswith(b"VMSDUMP1"):
            found["dump"].append(data)
        elif b"VMTRACE" in data:
            one = found["log" if re.search(rb"(?m)^LOG\r?$", data) else "trace"]
            one += [data] if as_long(data) is None else [data, as_long(data)]

    for pattern in ("examples/*.trace", "examples/*.dump", "examples/*/*.trace"):
        for path in sorted(TOP.glob(pattern)):
            add(path.read_bytes())
    with tarfile.open(TOP / "conformance" / "cases.tar.xz") as archive:
        for member in archive.getmembers():
            if member.isfile() and member.name.startswith("in/"):
                add(archive.extractfile(member).read())
    return found


def other_word(draw, word):
    """Another word that may stand in the place of one, or one that nearly does."""
    choice = draw.randrange(6)
    if choice == 0:
        return draw.choice((word.lower(), word.upper(), word + "0", "0" + word, word[:-1], word + word, "-" + word))
    for kind in KINDS:
        if word in kind and choice < 4:
            return draw.choice(kind)
    if re.fullmatch(r"[0-9]+", word) and choice < 4:
        near = int(word) + draw.choice((-2, -1, 1, 2))
        return str(draw.choice((near, draw.choice(BOUNDS)))) if near >= 0 else "0"
    if re.fullmatch(r"[0-9A-Fa-f]{8}", word):
        near = (int(word, 16) + draw.choice((-512, -4, -1, 1, 4, 512))) % 2**32
        return f"{draw.choice((near, draw.choice(ADDRESSES))):08X}"
    if re.fullmatch(r"F[0-9]+", word):
        return f"F{draw.choice((0, 1, 2, 7, int(word[1:]) + 1, 16384))}"
    return draw.choice(draw.choice(KINDS))


def changed_line(draw, line):
    """A line with one word changed, taken out, doubled, or put elsewhere; or with a byte changed."""
    words = line.split(" ")
    at = draw.randrange(len(words))
    choice = draw.randrange(8)
    if choice < 4:
        words[at] = other_word(draw, words[at])
    elif choice == 4:
        del words[at]
    elif choice == 5:
        words.insert(at, words[at])
    elif choice == 6:
        words.insert(draw.randrange(len(words)), words.pop(at))
    else:
        place = draw.randrange(len(line) + 1)
        return line[:place] + chr(draw.choice(BYTES)) + line[place + draw.randrange(2):]
    return draw.choice((" ", " ", " ", "\t", "  ")).join(words)


def changed_text(draw, data):
    """A trace, or a trace with a log, after some changes of its lines."""
    lines = data.decode("latin-1").split("\n")
    for _ in range(draw.choice((1, 1, 1, 2, 3, 8))):
        lines = lines or [""]
        at = draw.randrange(len(lines))
        choice = draw.randrange(10)
        if choice < 6:
            lines[at] = changed_line(draw, lines[at])
        elif choice == 6 and len(lines) > 1:
            del lines[at]
        elif choice == 7:
            lines.insert(draw.randrange(len(lines)), lines[at])
        elif choice == 8:
            lines.insert(at, draw.choice(("", "!", "! a comment", "\r", " \t", "END", "LOG", "BODY", "X" * 255, "X" * 256)))
        else:
            del lines[at + draw.randrange(3):at + draw.randrange(8)]
    text = "\n".join(lines).encode("latin-1")
    return text[:draw.randrange(len(text) + 1)] if draw.randrange(20) == 0 else text


def changed_bytes(draw, data):
    """A dump after some changes of its bytes and its numbers."""
    data = bytearray(data)
    for _ in range(draw.choice((1, 1, 2, 4))):
        at = draw.randrange(len(data) + 1)
        choice = draw.randrange(6)
        if choice == 0:
            data[at:at] = bytes(draw.choice(BYTES) for _ in range(draw.choice((1, 4, 16))))
        elif choice == 1:
            del data[at:at + draw.choice((1, 4, 8, 20))]
        elif choice == 2:
            del data[at:]
        elif choice == 3:
            place = at - at % 4
            data[place:place + 4] = (draw.choice(BOUNDS) % 2**32).to_bytes(4, "big")
        else:
            data[at:at + 1] = bytes([draw.choice(BYTES + tuple(range(8)))])
    return bytes(data)
