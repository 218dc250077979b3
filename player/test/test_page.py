#!/usr/bin/env python3
"""Tests the player's page in a real browser, through its controls.

    python3 player/test/test_page.py [--part runs|edits|looks] [--timed]

With --part one of three parts alone: what is told of runs, of traces that are edited, and how the page looks. With
--timed a long log has to stand and to step within bounds of time too; test/figures.py measures more.
Status 0: all passed, or there is no browser, which it says. Status 1: something differs.
"""

import argparse
import pathlib
import sys
import tempfile
import time

sys.dont_write_bytecode = True

from browser import Browser, Missing
from edits import test_edits
from long_log import long_log, long_trace
from looks import test_looks

HERE = pathlib.Path(__file__).resolve().parent
PAGE = HERE.parent / "index.html"
LOAD_SECONDS = 4.0
STEP_THOUSANDTHS = 100
PARTS = ["runs", "edits", "looks"]
RIGHT_ARROW = "\ue014"
STEP_BACK = """
const begun = performance.now();
document.getElementById("back").click();
document.body.getBoundingClientRect();
return performance.now() - begun;
"""


class Page:
    """The player's page, and how many comparisons passed and failed."""

    uri = PAGE.as_uri()
    here = HERE

    def __init__(self, browser):
        self.browser = browser
        self.passed = 0
        self.failed = 0

    def open(self, link="", keep=False):
        """Opens the page anew, with nothing kept unless it is to be."""
        if not keep and self.browser.run("return location.protocol") == "file:":
            self.browser.run("localStorage.clear(); sessionStorage.clear(); Player.keepLine = () => {};"
                             "Player.keepPage = Player.keepPacked = () => true")
        self.browser.open("about:blank")
        self.browser.open(self.uri + link)
        self.wait("return typeof Session !== 'undefined' && (Player.programIsHere() || Boolean(Player.programTrouble))",
                  "the page has begun")

    def load(self, *files):
        """Opens the page anew with these files; gives the seconds until they stand."""
        self.open()
        self.wait("return Session.run", "the first example stands")
        return self.add(*files)

    def add(self, *files):
        begun = time.time()
        self.browser.run("window.before = Session.run")
        self.browser.type("#files", "\n".join(str(one) for one in files))
        self.wait("return Session.run && Session.run !== window.before", "the files stand")
        return time.time() - begun

    def wait(self, script, what, seconds=20):
        """Waits until a script answers true."""
        begun = time.time()
        while not self.browser.run(script):
            if time.time() - begun > seconds:
                raise RuntimeError(f"not so after {seconds} seconds: {what}. The page says: "
                                   + self.browser.text("#trouble") + self.browser.text("#ran"))
            time.sleep(0.02)

    def go(self, line):
        self.browser.run("const field = document.getElementById('line'); field.value = ''; field.focus()")
        self.browser.type("#line", f"{line}\ue007")

    def items(self, selector):
        return self.browser.run("return [...document.querySelectorAll(arguments[0])]"
                                ".map((item) => item.textContent)", selector)

    def same(self, name, found, expected):
        if found == expected:
            self.passed += 1
            return
        self.failed += 1
        print(f"{name}: found {found!r}, expected {expected!r}")

    def has(self, name, text, part):
        """A part stands in a text."""
        self.same(f"{name}: {part!r} in {text!r}", part in text, True)

    def frame(self, number):
        """The state and the page of a frame, as its cell's title begins."""
        title = self.browser.run("return document.querySelector(arguments[0]).title",
                                 f"[data-frame='{number}']")
        return " ".join(title.replace(",", "").split()[1:3])


def without_numbers(page):
    if page.browser.run("return Session.numbers"):
        page.browser.click("#numbers")


def test_write_cluster(page):
    page.load(HERE / "write-cluster.log", HERE / "write-cluster.trace")
    without_numbers(page)
    page.go(14)
    page.same("frame 0 is written", page.frame(0), "WRITING A/00000000")
    page.same("three transfers", len(page.items("#flights tr")), 4)
    page.go(18)
    page.same("free list after the cluster", page.items("#free li"),
              ["F0", "F1 A/00000200", "F2 A/00000400"])
    page.go(25)
    page.same("read back", page.frame(1), "ACTIVE A/00000000")
    page.same("page file", page.browser.text("#pagefile-counts"), "8 blocks, 5 charged, 3 assigned")
    page.same("counts", page.items("#counts span"),
              ["FREE 1", "MODIFIED 1", "BAD 4", "RELEASE 0", "READERROR 0", "WRITING 0",
               "READING 0", "ACTIVE 2"])
    page.same("sentence", page.browser.text("#what"),
              "Process A reads the byte at 00000000 and gets 01.")
    page.has("report", page.browser.text("#report"), "agrees")


def test_shared_section(page):
    page.load(HERE / "shared-section.trace", HERE / "shared-section.log")
    log = (HERE / "shared-section.log").read_text().splitlines()
    page.go(0)
    for number, line in enumerate(log, 1):
        page.browser.click("#forward")
        page.same(f"line {number}", page.browser.text("#text"), line)
    page.same("status", page.browser.text("#what"),
              "The program ended with status 0: the run is whole.")
    page.go(5)
    page.has("both share", page.items("[data-frame='0']")[0], "shares 2")
    page.has("the section", page.browser.text("#sections"), "S:LIB/0 F0")
    page.go(8)
    page.same("one is left", page.frame(0), "ACTIVE LIB/0")
    page.has("hand of A", page.browser.run("return document.querySelector('[data-place=\"slot:A:0\"]')"
                                           ".getAttribute('aria-label')"), "the hand stands here")
    page.browser.click("#back")
    page.same("one step back", page.browser.text("#text"), "7 A DONE R1 00000200 00")
    page.browser.type("body", RIGHT_ARROW + RIGHT_ARROW)
    page.same("two keys forward", page.browser.text("#text"), "9 A ZERO 00000400 F2")
    page.load(HERE / "shared-section.log")
    page.go(5)
    page.same("frame of the line without the trace", page.items(".frame.here b"), ["F0"])
    page.has("said", page.browser.text("#rings-note"), "Without the trace")
    page.add(HERE / "shared-section.trace")
    page.same("its trace, opened later", page.browser.run("return Session.run.config.known"), True)


def test_swap(page):
    page.load(HERE / "swap-out-and-back.log", HERE / "swap-out-and-back.trace")
    without_numbers(page)
    page.go(33)
    page.same("A is gone", page.items(".ring h3 span")[:2], ["LEAVING GONE", "0 pages"])
    page.same("swap blocks", page.items("#swap li"),
              [f"X:A/{n} A/{n * 512:08X}" for n in range(5)])
    page.go(57)
    page.same("inswap read", page.items("#flights tr")[1], "57AreadF5X:A/0A/00000000COME")
    page.go(60)
    page.same("A is back", page.items(".ring h3 span")[:2], ["RESIDENT", "5 pages"])
    page.go(34)
    find(page, "#about-what", "F5", "#about-form button")
    page.same("next about F5", page.browser.text("#text"), "43 A OUT F5 X:B/0")
    page.browser.run("document.getElementById('speed').value = '200'")
    page.browser.click("#play")
    page.wait("return Session.line > 50", "it plays")
    page.browser.click("#first")
    page.same("stopped", page.browser.text("#play-word"), "Play")
    page.browser.run("document.getElementById('fault-process').value = 'B'")
    page.browser.click("#fault-form button")
    page.same("first fault of B", page.browser.text("#text"), "11 B ZERO 00000000 F5")
    test_verdicts(page)


def test_verdicts(page):
    said = "43 A OUT F5 X:B/0: the block has an open transfer"
    find(page, "#said-text", f"neqysbar: log line 43: {said}", "#said-form button")
    page.same("the line of which check speaks", page.browser.text("#text"), "43 A OUT F5 X:B/0")
    page.same("what check says", page.browser.text("#verdict"), f"check says of line 43: {said}")
    page.go(44)
    page.same("it says it of that line alone", page.browser.text("#verdict"), "")
    page.browser.click("#judge-form button")
    page.wait("return /^(Legal|Not legal)/.test(document.getElementById('judged').textContent)", "it is judged")
    page.has("judged by the program", page.browser.text("#judged"), "Legal")


def test_judge(page, folder):
    """The program itself says in the page which line of a log isn't legal."""
    log, trace = folder / "wrong.log", folder / "right.trace"
    text = (HERE / "shared-section.log").read_text()
    trace.write_text((HERE / "shared-section.trace").read_text())
    log.write_text(text.replace("9 A ZERO 00000400 F2", "9 A ZERO 00000400 F3"))
    page.load(trace, log)
    page.browser.click("#judge-form button")
    page.wait("return document.getElementById('judged').textContent.startsWith('Not legal')", "it is judged")
    page.same("the line that isn't legal", page.browser.text("#text"), "9 A ZERO 00000400 F3")


def find(page, field, word, button):
    page.browser.run("document.querySelector(arguments[0]).value = arguments[1]", field, word)
    page.browser.click(button)


DROP = """
const files = new DataTransfer();
files.items.add(new File([arguments[0]], "dropped.txt"));
document.dispatchEvent(new DragEvent("drop", {dataTransfer: files, bubbles: true}));
"""


def test_drop(page):
    """One dropped text with the trace, a line LOG, and the log."""
    text = ((HERE / "shared-section.trace").read_text() + "LOG\n"
            + (HERE / "shared-section.log").read_text())
    page.open()
    page.wait("return Session.run", "the first example stands")
    page.browser.run(DROP, text)
    page.wait("return Session.run.config.sections.has('LIB')", "the dropped log stands")
    page.browser.click("#last")
    page.same("dropped", page.browser.text("#text"), "STATUS 0")
    page.same("dropped with its trace", page.browser.run("return Session.run.config.known"), True)


def test_bad_input(page, folder):
    log = folder / "unknown.log"
    log.write_text("1 A ZERO 00000000 F0\n2 A WAITS 00000000\n3 A DONE R4 00000000 00000000\n")
    page.load(log)
    page.has("unknown line", page.browser.text("#trouble"), "line 2: 2 A WAITS 00000000")
    wrong = folder / "wrong.txt"
    wrong.write_text("no log at all\n")
    page.browser.type("#files", str(wrong))
    page.wait("return document.getElementById('trouble').textContent.includes('neither a log nor a trace')",
              "the fault is told")
    page.same("what was there stays", page.browser.run("return Session.run.length"), 3)
    lines = (HERE / "shared-section.log").read_text().replace("SHARES 1", "SHARES 2", 1)
    log.write_text(lines)
    page.load(log, HERE / "shared-section.trace")
    page.has("wrong report", page.browser.text("#report"), "differs")


def test_long(page, folder, timed):
    log, trace = folder / "long.log", folder / "long.trace"
    lines = long_log().splitlines()
    middle = len(lines) // 2
    log.write_text(long_log())
    trace.write_text(long_trace())
    seconds = page.load(log, trace)
    print(f"{len(lines)} lines stand after {seconds:.2f} seconds")
    page.same("loaded in time", not timed or seconds < LOAD_SECONDS, True)
    page.go(middle)
    step = page.browser.run(STEP_BACK)
    print(f"a step back in the middle takes {step:.0f} thousandths of a second")
    page.same("stepped at once", not timed or step < STEP_THOUSANDTHS, True)
    page.same("text in the middle", page.browser.text("#text"),
              lines[middle - 2])
    page.same("fits", page.browser.text("#fit"), "")
    page.same("no trouble", page.browser.run("return document.getElementById('trouble').hidden"),
              True)
    page.browser.run("const line = document.getElementById('timeline'); const box = line.getBoundingClientRect();"
                     "const clientX = box.left + Player.timelinePlace(Session.run.length / 4);"
                     "const at = {clientX, buttons: 1, pointerId: 1};"
                     "line.setPointerCapture = () => {}; line.dispatchEvent(new PointerEvent('pointerdown', at))")
    length = page.browser.run("return Session.run.length")
    off = abs(page.browser.run("return Session.line") - length / 4)
    page.same("a press on the line of time", off < length / 500, True)
    page.same("few rows are drawn", len(page.items("#lines-all > *")) < 100, True)


def test_runs(page, folder, timed):
    test_write_cluster(page)
    test_shared_section(page)
    test_swap(page)
    test_judge(page, folder)
    test_drop(page)
    test_bad_input(page, folder)
    test_long(page, folder, timed)


def run(browser, parts, timed):
    page = Page(browser)
    with tempfile.TemporaryDirectory() as name:
        folder = pathlib.Path(name)
        if "runs" in parts:
            test_runs(page, folder, timed)
        if "edits" in parts:
            test_edits(page, folder)
        if "looks" in parts:
            test_looks(page, HERE, folder)
    print(f"player page, {', '.join(parts)}: {page.passed} passed, {page.failed} failed")
    return 1 if page.failed else 0


def main():
    words = argparse.ArgumentParser(description=__doc__, formatter_class=argparse.RawDescriptionHelpFormatter)
    words.add_argument("--part", choices=PARTS, help="one part alone")
    words.add_argument("--timed", action="store_true", help="asks for the bounds of time too")
    options = words.parse_args()
    try:
        browser = Browser()
    except Missing as fault:
        print(f"player page: not tested, {fault}")
        return 0
    try:
        return run(browser, [options.part] if options.part else PARTS, options.timed)
    finally:
        browser.close()


if __name__ == "__main__":
    sys.exit(main())
