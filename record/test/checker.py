"""Checks a trace against the rules of its format, as far as a recorder writes it."""

import re

RANGES = {
    "PFC": (1, 8), "HILIMIT": (0, 16384), "LOLIMIT": (0, 16384), "WAITLIMIT": (1, 16384),
    "WRTCLUSTER": (1, 16), "FREELIM": (0, 4096), "FREEGOAL": (0, 4096), "AWSTIME": (0, 100000),
    "PFRATH": (0, 100000), "PFRATL": (0, 100000), "WSINC": (0, 1024), "WSDEC": (0, 1024),
    "AWSMIN": (2, 1024), "BORROWLIM": (0, 4096)}
CODES = "NA KW KR UW EW ERKW ER SW SREW SRKW SR URSW UREW URKW UR".split()
REQUEST = re.compile(r"([A-P]) (?:R([124])|([WA])([124])) ([0-9A-F]{8})(?: ([0-9A-F]{2,8}))?")
SERVICE = re.compile(r"([A-P]) (?:(ADJWSL) (\d+)|(?:(CRETVA|SETPRT)|(LCKPAG|ULKPAG)|DELTVA|LKWSET|ULWSET|PURGWS) "
                     r"([0-9A-F]{8}) (\d+)(?: ([A-Z]+))?)")


# of each first line its version, and the frames, requests and lines that a trace of it may have
FIRST_LINES = {("VMTRACE", "1"): (1, 4096, 100_000, 200_000), ("VMTRACE", "2"): (2, 16_384, 100_000, 200_000),
               ("LONGTRACE", "2"): (2, 16_384, 8_000_000, 16_000_000)}


class Checker:
    """The state of one check. `fault` is the first rule that a line breaks, or empty."""

    def __init__(self):
        self.place = 0
        self.version = 0
        self.most_frames = self.most_requests = 0
        self.most_lines = 200_000
        self.frames = 0
        self.parameters = {}
        self.sections = {}
        self.extents = []
        self.locks = 0
        self.mapped = set()
        self.requests = 0

    def line(self, text):
        """The rule that this line breaks, or an empty text."""
        if len(text) > 255:
            return "a line of more than 255 bytes"
        if any(not " " <= c <= "~" for c in text):
            return "a byte that no trace has"
        words = text.split()
        if not words or words[0][0] == "!":
            return ""
        if self.place < 3:
            return self.head(words)
        if self.place == 3:
            return self.declaration(words)
        return self.request(text) if self.place == 4 else "a line after END"

    def head(self, words):
        if self.place == 0:
            if tuple(words) not in FIRST_LINES:
                return "the first line is no version"
            self.version, self.most_frames, self.most_requests, self.most_lines = FIRST_LINES[tuple(words)]
        else:
            name, low, high = [("FRAMES", 8, self.most_frames), ("PAGEFILE", 1, 16384)][self.place - 1]
            if words[0] != name or len(words) != 2 or not low <= int(words[1]) <= high:
                return f"the line {name} is missing or out of range"
            self.frames = int(words[1]) if name == "FRAMES" else self.frames
        self.place += 1
        return ""

    def declaration(self, words):
        rule = {"PARAM": self.parameter, "SECTION": self.section, "PROCESS": self.process,
                "MAPZERO": self.map, "MAPSEC": self.map, "BODY": self.body}.get(words[0])
        return rule(words) if rule else f"the word {words[0]}"

    def parameter(self, words):
        low, high = RANGES.get(words[1], (1, 0))
        if words[1] in self.parameters or not low <= int(words[2]) <= high:
            return "a parameter out of range or twice"
        self.parameters[words[1]] = int(words[2])
        return ""

    def section(self, words):
        if not re.fullmatch(r"[A-Z][A-Z0-9_]{1,14}", words[1]) or words[1] in self.sections:
            return "a section's name"
        if words[2] not in (["SHARED", "CRF"] if self.version == 1 else ["SHARED", "CRF", "PAGED"]):
            return "a section's kind"
        self.sections[words[1]] = int(words[3])
        too_many = len(self.sections) > 64 or sum(self.sections.values()) > 16384
        return "the sections' pages" if too_many or int(words[3]) < 1 else ""

    def process(self, words):
        limit, quota, extent, locks = map(int, words[2:])
        if words[1] != chr(65 + len(self.extents)) or len(self.extents) == 16:
            return "a process letter"
        self.extents.append(extent)
        self.locks += locks if self.version == 2 else 0
        good = locks + 2 <= limit <= quota <= extent <= 1024
        return "" if good else "a process's bounds"

    def map(self, words):
        first, pages = int(words[2], 16), int(words[3])
        last = first + pages * 512
        if first % 512 or not 1 <= pages <= 4096:
            return "a range"
        if not (last <= 4096 * 512 or 0x7FF80000 <= first and last <= 0x80000000):
            return "a range outside P0 and P1"
        if ord(words[1]) - 65 not in range(len(self.extents)) or words[-1] not in CODES:
            return "a map's process or code"
        if words[0] == "MAPSEC" and int(words[5]) + pages > self.sections.get(words[4], 0):
            return "a map's section"
        for page in range(first // 512, last // 512):
            if (words[1], page) in self.mapped:
                return "a page mapped twice"
            self.mapped.add((words[1], page))
        return ""

    def body(self, words):
        values = {"LOLIMIT": 32, "HILIMIT": 128, "WAITLIMIT": 256, "FREELIM": 0, "FREEGOAL": 0,
                  **self.parameters}
        self.place = 4
        good = (self.extents and max(self.extents) + self.locks + 2 <= self.frames and len(words) == 1
                and values["LOLIMIT"] <= values["HILIMIT"] <= values["WAITLIMIT"]
                and values["FREELIM"] <= values["FREEGOAL"])
        return "" if good else "the bounds at BODY"

    def request(self, text):
        if text == "END":
            self.place = 5
            return ""
        self.requests += 1
        if SERVICE.fullmatch(text):
            return self.service(SERVICE.fullmatch(text))
        found = REQUEST.fullmatch(text)
        if not found or ord(found[1]) - 65 >= len(self.extents):
            return "a request's words"
        width, address = int(found[2] or found[4]), int(found[5], 16)
        if (found[6] is None) != (found[3] is None) or found[6] and len(found[6]) != 2 * width:
            return "a request's value"
        if address % width or found[3] == "A" and width != 4:
            return "a request's width"
        if (found[1], address // 512) not in self.mapped:
            return "a request of a page that isn't mapped"
        return "more requests than the version has" if self.requests > self.most_requests else ""

    def service(self, found):
        if ord(found[1]) - 65 >= len(self.extents):
            return "a service's process"
        if found[2]:
            return "" if 1 <= int(found[3]) <= 1024 else "a limit"
        if found[5] and self.version == 1:
            return "a service of version 2"
        first, pages = int(found[6], 16), int(found[7])
        if first % 512 or not (1 <= pages and first + pages * 512 <= 4096 * 512
                               or 0x7FF80000 <= first and first + pages * 512 <= 0x80000000):
            return "a service's range"
        if (found[4] is None) != (found[8] is None) or found[8] and found[8] not in CODES:
            return "a service's protection code"
        if found[4] == "CRETVA":
            self.mapped |= {(found[1], first // 512 + page) for page in range(pages)}
        return ""


def check(text):
    """The first fault as `line n: rule`, or an empty text for a trace that keeps the rules."""
    checker = Checker()
    lines = text.split("\n")
    if lines.pop() != "":
        return "the last line isn't ended"
    for number, line in enumerate(lines, 1):
        fault = checker.line(line) if number <= checker.most_lines else "more lines than the version has"
        if fault:
            return f"line {number}: {fault}"
    return "" if checker.place == 5 else "the trace has no END"
