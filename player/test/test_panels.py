#!/usr/bin/env python3
"""Tests the panels in a real browser, on a page of their own, through their controls.

    python3 player/test/test_panels.py [--timed] [PROGRAM]

The program is release/neqysbar where no other is named; a server of the test runs it for the page. With --timed a
step in a long run has to take less than a tenth of a second.
Status 0: all passed, or there is no browser, which it says. Status 1: something differs.
"""

import argparse
import pathlib
import sys
import time

sys.dont_write_bytecode = True

from browser import Browser, Missing
from looks import CONTRASTS, LEAST_CONTRAST
from panel_page import TOP, PanelServer

SIZES = [(390, 844), (844, 390), (1280, 900), (1920, 1080)]
RIGHT, LEFT, DOWN, HOME, END, ENTER = "\ue014", "\ue012", "\ue015", "\ue011", "\ue010", "\ue007"
STEP_THOUSANDTHS = 100
MOST_CELLS = 4000

WRITE = """
const done = arguments[1];
Session.write(arguments[0]).then(() => done(Session.run ? Session.run.length : 0));
"""
WIDEST = """
const wide = document.documentElement.clientWidth;
return [document.documentElement.scrollWidth - wide, ...[...document.querySelectorAll("body *")]
  .filter((one) => one.getBoundingClientRect().right > wide + 1 &&
    !one.closest(".grid-scroll, .plain-box, .numbers-box, pre"))
  .map((one) => one.tagName + "#" + one.id + "." + one.className)].slice(0, 4);
"""
SET = """
const field = document.querySelector(arguments[0]);
field.value = arguments[1];
field.dispatchEvent(new Event("input", { bubbles: true }));
field.dispatchEvent(new Event("change", { bubbles: true }));
"""
CELLS = """
return [...document.querySelectorAll(arguments[0] + " tr")].map((row) =>
  [...row.querySelectorAll("[data-column]")].map((cell) => cell.textContent).join(" "));
"""
COUNT_KEYS = """
window.reached = 0;
document.addEventListener("keydown", () => { window.reached += 1; });
"""
PRESS = """
[...document.querySelectorAll(arguments[0] + " button")].find((one) => one.textContent === arguments[1]).click();
"""


class Panels:
    """The page of the panels, and how many comparisons passed and failed."""

    def __init__(self, browser, uri, timed):
        self.browser = browser
        self.uri = uri
        self.timed = timed
        self.passed = 0
        self.failed = 0

    def same(self, name, found, expected):
        if found == expected:
            self.passed += 1
            return
        self.failed += 1
        print(f"{name}: found {found!r}, expected {expected!r}")

    def load(self, name, change=lambda text: text):
        """Opens the page anew with an example's trace."""
        self.browser.open("about:blank")
        self.browser.open(self.uri)
        self.write(change((TOP / "examples" / f"{name}.trace").read_text()))
        self.wait("return document.querySelector('#grid .grid').rows.length > 0 || !Session.run")

    def write(self, text):
        return self.browser.wait_for(WRITE, text)

    def see(self, panel):
        """Scrolls to a panel, so that it begins its work."""
        self.browser.run("document.querySelector(arguments[0]).scrollIntoView()", panel)

    def wait(self, script, *words):
        begun = time.time()
        while not self.browser.run(script, *words):
            if time.time() - begun > 20:
                raise RuntimeError(f"not so after 20 seconds: {script} {words}")
            time.sleep(0.02)

    def get(self, script, *words):
        return self.browser.run("return " + script, *words)

    def texts(self, selector):
        """The text of each node that the selector finds."""
        return self.browser.run("return [...document.querySelectorAll(arguments[0])].map((one) => one.textContent)",
                                selector)

    def rows(self, table):
        """The texts of a table's cells, a text for each row."""
        return self.browser.run(CELLS, table)

    def note(self):
        return self.browser.text("#compare .note[role=status]")

    def record(self):
        """The line of the log that is shown."""
        return self.get("Session.run.records[Session.line - 1].text")

    def set(self, selector, value):
        self.browser.run(SET, selector, str(value))

    def press(self, panel, text):
        self.browser.run(PRESS, panel, text)

    def line(self):
        return self.get("Session.line")


def test_grid(page):
    page.load("lessons/belady")
    rows = page.rows("#grid table.grid")
    page.same("references", rows[0], "11r 22r 33r 44r 51r 62r 75r 81r 92r 103r 114r 125r")
    page.same("first slot", rows[1], "1 1 1 14 4 4 45 5 5 5 5 5")
    page.same("results", rows[4], "faultzero faultzero faultzero faultzero faultmod faultmod faultzero hit hit "
                                  "faultmod faultmod hit")
    page.same("struck", "".join(page.texts("#grid td s")), "142132")
    page.same("totals", page.texts("#grid .totals tbody tr"),
              ["references12", "hits325.0 %", "faults975.0 %"])
    page.same("one process is no choice", page.get("document.querySelector('#grid .field').hidden"), True)


def test_grid_ways(page):
    """From a cell to the line and back: by click, by keys, and from the player."""
    page.load("lessons/belady")
    page.browser.click("#grid [data-row='1'][data-column='3']")
    page.same("a click on the page that came", page.record(), "8 A ZERO 00000800 F3")
    page.browser.click("#grid [data-row='2'][data-column='7']")
    page.same("a click on a hit", page.record(), "19 A DONE R1 00000200 00")
    page.same("the column is marked", page.get("[...document.querySelectorAll('#grid .here')].map((one) => "
                                               "one.dataset.column).every((at) => at === '7')"), True)
    page.browser.run(COUNT_KEYS)
    page.browser.run("document.querySelector('#grid [tabindex=\"0\"]').focus()")
    page.browser.press(END + HOME + END + LEFT + DOWN + ENTER)
    page.same("by keys", page.get("[document.activeElement.dataset.column, document.activeElement.tabIndex]"),
              ["10", 0])
    page.same("the page's keys are left alone", page.get("window.reached"), 0)
    page.same("Enter", page.line(), 26)
    page.same("said", page.get("document.activeElement.getAttribute('aria-label')"), "request 11, slot 0: page 5")
    page.browser.run("Session.go(12)")
    page.same("from the player", page.get("document.querySelector('#grid .refs .here').dataset.column"), "4")
    page.browser.run("document.querySelectorAll('#grid .strip input')[3].click()")
    page.same("by address", page.rows("#grid table.grid")[0].split(" ")[0], "100000200r")
    page.browser.run("document.querySelectorAll('#grid .strip input')[1].click()")
    page.same("by frames", page.texts("#grid tbody .name"),
              ["F0", "F1", "F2", "F3", "F4", "result"])


def test_grid_kinds(page):
    """Services, refusals, swaps and several processes."""
    page.load("services")
    rows = page.rows("#grid table.grid")
    page.same("services", rows[0].split(" ")[3:7], ["4LKWSET", "5SETPRT", "62w", "7PURGWS"])
    page.same("results", rows[-1], "done faultzero faultzero done done noprot done hit faultmod done done nounmap "
                                   "noin use nounmap done nolimit done")
    page.load("swapping")
    page.same("a swap out", page.rows("#grid table.grid")[-1], "faultzero faultzero faultzero faultzero out hit")
    page.set("#grid select", "B")
    page.same("another process", page.rows("#grid table.grid")[-1], "faultzero faultzero faultzero faultzero out")
    page.load("faulty-line")
    page.same("a faulty trace", page.browser.text("#grid .note"), "There is no run yet.")


def test_grid_long(page):
    """Of a long run the part in view is drawn, and a step goes there at once."""
    page.load("recorded/sort")
    cells = "document.querySelectorAll('#grid [data-column]').length"
    page.same("a part is drawn", 100 < page.get(cells) < MOST_CELLS, True)
    took = page.browser.run("const begun = performance.now(); Session.go(5000); return performance.now() - begun")
    page.same("the column of a far line", page.get("document.querySelector('#grid .refs .here small').textContent"),
              page.get("String(1 + Session.run.records.slice(0, 4999).filter((one) => one.kind === 'DONE').length)"))
    print(f"a step to a far line of a long run: {took:.0f} ms")
    if page.timed:
        page.same("in time", took < STEP_THOUSANDTHS, True)
    page.browser.run("document.querySelector('#grid .grid-scroll').scrollLeft = 1e9")
    page.wait("return Boolean(document.querySelector('#grid .refs [data-column=\"4504\"]'))")
    page.same("still a part", page.get(cells) < MOST_CELLS, True)
    page.browser.run("Session.go(0)")
    page.browser.run("document.querySelector('#grid [tabindex=\"0\"]').focus()")
    page.browser.press(HOME)
    page.same("the first column by keys", page.get("document.activeElement.dataset.column"), "0")


def curve_ready(page, points):
    page.see("#curve")
    page.wait("return document.querySelectorAll('#curve .point').length === arguments[0]", points)


def head_lines(page):
    return page.get("Session.text.split('\\n').filter((line) => /^(FRAMES|PROCESS)/.test(line)).join('; ')")


def test_curve(page):
    page.load("lessons/belady")
    curve_ready(page, 6)
    page.same("the table", page.get("[...document.querySelectorAll('#curve tbody tr')].map((row) => "
                                    "[...row.children].map((one) => one.textContent).join(' '))"),
              ["1 12 12 12", "2 12 12 9", "3 9 10 7", "4 10 8 6", "5 5 5 5", "6 5 5 5"])
    page.same("the anomaly", page.browser.text("#curve .note"),
              "With 4 frames the ring has more faults than with 3, 10 and 9: Belady's anomaly.")
    page.same("the sliders' names", page.get("[...document.querySelectorAll('#curve input[type=range]')].map((one) => "
                                             "one.labels[0].control === one && one.labels[0].innerText.split('\\n')[0])"),
              ["Limit: pages of the working set", "Frames of memory"])
    before = page.get("Session.text")
    page.set("#curve input[type=range]", 4)
    page.wait("return document.querySelector('#curve .curve-cost').textContent.includes('10 faults')")
    page.same("the limit is written", head_lines(page), "FRAMES 16; PROCESS A 4 4 4 0")
    page.same("the row", page.browser.text("#curve [aria-current]"), "41086")
    page.set("#curve input[type=range]", 3)
    page.wait("return document.querySelector('#curve .curve-cost').textContent.includes('9 faults')")
    page.same("back again", page.get("Session.text") == before, True)
    page.set("#curve .slider:nth-of-type(3) input", 9)
    page.wait("return /^FRAMES 9$/m.test(Session.text)")
    page.same("frames", head_lines(page), "FRAMES 9; PROCESS A 3 3 4 0")


def test_curve_keys(page):
    page.load("lessons/belady")
    curve_ready(page, 6)
    page.browser.run(COUNT_KEYS)
    page.browser.run("document.querySelector('#curve .point[tabindex=\"0\"]').focus()")
    page.browser.press(HOME + RIGHT + RIGHT + RIGHT + RIGHT)
    page.same("a point is said", page.get("document.activeElement.getAttribute('aria-label')"),
              "5 frames: ring 5, LRU 5, least 5 faults of process A. Enter: this limit")
    page.browser.press(ENTER)
    page.wait("return document.querySelector('#curve .curve-cost').textContent.includes('5 faults')")
    page.same("Enter sets the limit", head_lines(page), "FRAMES 16; PROCESS A 5 5 5 0")
    page.same("the focus stays", page.get("document.activeElement.dataset.at"), "4")
    page.browser.run("document.querySelector('#curve input').focus()")
    page.browser.press(LEFT)
    page.wait("return /^PROCESS A 4 4 4/m.test(Session.text)")
    page.same("the page's keys are left alone", page.get("window.reached"), 0)
    page.browser.run("document.querySelector('#curve .point').dispatchEvent(new MouseEvent('click', {bubbles: true}))")
    page.same("too small a limit", "at least 2" in page.browser.text("#curve .follows"), True)
    page.write("VMTRACE 1\nFRAMES 7\n")
    page.same("a fault", page.get("document.querySelector('#curve input').disabled"), True)
    page.same("the curve stays", page.get("document.querySelector('#curve .curves').getClientRects().length"), 1)
    page.browser.run("Session.run = null; Session.tell('run')")
    page.same("without a run there is no curve", page.get(
        "document.querySelector('#curve .curves').getClientRects().length"), 0)
    page.see("#grid")
    page.wait("return document.querySelector('#grid .note').textContent === 'There is no run yet.'")
    page.same("nor a grid", page.get("document.querySelector('#grid .grid').getClientRects().length"), 0)


def test_compare(page):
    page.load("lessons/belady")
    page.see("#compare")
    page.wait("return document.querySelectorAll('#compare tr.title').length === 2")
    page.same("the bands", page.texts("#compare tr.title"),
              ["3 slots: 9 faults", "4 slots: 10 faults"])
    page.same("the first difference", page.note(), "They differ first at request 4. At "
              "5 requests one of them hits and the other doesn't.")
    page.same("where it stands", page.get("document.querySelector('#compare .refs .here').dataset.column"), "3")
    page.press("#compare", "Next request")
    page.same("a step", page.texts("#compare .compare-said p"),
              ["3 slots: fault, back from the modified list; page 1 came in; page 2 left. So far 0 hits and 5 faults.",
               "4 slots: hit. So far 1 hit and 4 faults."])
    page.same("totals", page.get("document.querySelectorAll('#compare .totals tr')[3].textContent"), "faults910+1")
    page.set("#compare select", "own")
    page.wait("return document.querySelector('#compare tr.title').textContent.startsWith('3 slots')")
    page.set("#compare .field:nth-of-type(3) select", "frames")
    page.wait("return document.querySelector('#compare tr.title').textContent.startsWith('16 frames')")
    page.same("the same", page.note(), "The two runs are the same for this process.")
    page.set("#compare .field:nth-of-type(3) select", "trace")
    page.wait("return !document.querySelector('#compare .other-trace').hidden")
    page.set("#compare textarea", "VMTRACE 1\nFRAMES 3\n")
    page.press("#compare", "Run it")
    page.wait("return document.querySelector('#compare .note[role=status]').textContent.includes(arguments[0])",
              "line 2 of its trace")
    page.set("#compare textarea", (TOP / "examples" / "lessons" / "second-chance.trace").read_text())
    page.press("#compare", "Run it")
    page.wait("return document.querySelectorAll('#compare tr.page').length === 1")
    page.same("two traces have their own requests", page.texts("#compare tr.page td.page")[0], "0w")


def test_questions(page):
    page.load("lessons/belady")
    page.see("#questions")
    page.wait("return document.querySelectorAll('#questions .asked li').length === 6")
    page.same("nothing is shown yet", page.get("document.querySelectorAll('#questions td b').length"), 0)
    given = ["6", "4", "5", "2", "", "none"]
    for number, text in enumerate(given):
        page.set(f"#answer-{number}", text)
    page.press("#questions", "Check my answers")
    page.same("judged", page.texts("#questions .verdict"),
              ["right", "no: 5", "right", "no: 1", "5", "no: 1"])
    page.same("summed up", page.browser.text("#questions .said"), "2 of 6 answers right.")
    page.same("the grid", page.rows("#questions table")[1], "4 4 4 4 4 42 2 2 2 2 2 2")
    page.press("#questions", "Next exercise")
    page.wait("return document.querySelector('#questions input').value === '2'")
    page.wait("return document.querySelector('#answer-0').value === ''")
    page.press("#questions", "Open it in the page")
    page.wait("return Session.runText.includes('Exercise of seed 2')")
    page.same("lessons", page.get("document.querySelectorAll('#questions .lesson-items li').length"), 4)
    page.same("answers are apart", page.get("[...document.querySelectorAll('#questions .lesson-items details')]"
                                            ".filter((one) => one.open).length"), 0)
    page.set("#questions select", "8")
    page.same("another lesson", page.get("document.querySelectorAll('#questions .lesson-items li').length"), 8)


def test_paper(page):
    page.load("lessons/belady")
    page.see("#questions")
    page.wait("return document.querySelectorAll('#questions .asked li').length === 6")
    page.browser.run("window.print = () => { window.printed = (window.printed || 0) + 1; }")
    seen = "document.querySelector(arguments[0]).offsetParent !== null"
    for count, text, answers in ((1, "Print the sheet", 0), (2, "Print the solution", 11)):
        page.set("#questions form input[type=number]", count)
        page.press("#questions", text)
        page.wait("return window.printed === arguments[0]", count)
        page.browser.command("Emulation.setEmulatedMedia", media="print", features=[])
        page.same(f"{text}: alone", [page.get(seen, "main"), page.get(seen, "#print-sheet h1")], [False, True])
        page.same(f"{text}: answers", len(page.texts("#print-sheet .answer")), answers)
        page.same(f"{text}: seeds", [words[:25] for words in page.texts("#print-sheet .seed")],
                  ["Seed 1, 5 pages, 3 slots,", "Seed 2, 5 pages, 3 slots,"][:count])
        page.same(f"{text}: grid", page.rows("#print-sheet table")[1] != " " * 11, answers > 0)
        page.browser.command("Emulation.setEmulatedMedia", media="", features=[])
    page.browser.run("window.dispatchEvent(new Event('afterprint'))")
    page.same("gone", page.get("document.getElementById('print-sheet')"), None)


def test_looks(page):
    for dark in (False, True):
        for width, height in SIZES:
            page.browser.screen(width, height, dark)
            page.load("lessons/belady")
            for panel in ("#curve", "#compare", "#questions"):
                page.see(panel)
            page.wait("return document.querySelectorAll('#questions .asked li').length === 6")
            page.wait("return document.querySelectorAll('#compare tr.title').length === 2")
            page.press("#questions", "Check my answers")
            page.same(f"nothing scrolls sideways at {width}", page.browser.run(WIDEST), [0])
            page.same(f"contrast at {width}, dark {dark}", page.browser.run(CONTRASTS, LEAST_CONTRAST), [])
    page.browser.screen(1400, 1500)


TESTS = (test_grid, test_grid_ways, test_grid_kinds, test_grid_long, test_curve, test_curve_keys, test_compare,
         test_questions, test_paper, test_looks)


def main():
    parser = argparse.ArgumentParser(description=__doc__.splitlines()[0])
    parser.add_argument("program", nargs="?", default=TOP / "release" / "neqysbar", type=pathlib.Path)
    parser.add_argument("--timed", action="store_true", help="judge the times too")
    words = parser.parse_args()
    try:
        browser = Browser()
    except Missing as fault:
        print(f"not tested: {fault}")
        return 0
    server = PanelServer(words.program.resolve())
    page = Panels(browser, server.uri, words.timed)
    try:
        for test in TESTS:
            test(page)
    finally:
        browser.close()
        server.close()
    print(f"{page.passed} comparisons passed, {page.failed} failed")
    return 1 if page.failed else 0


if __name__ == "__main__":
    sys.exit(main())
