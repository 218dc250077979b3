#!/usr/bin/env python3
"""Tests the page in Firefox and in WebKit through its controls: a smaller round of what test_page.py,
test_panels.py and test_module_page.py do in Chromium.

    python3 player/test/test_browsers.py [--timed] [--part WORD] [firefox | webkit]..

With --timed it says how long each part takes; with --part only parts are tried that have the word in their name.
Status 0: all passed; a browser that isn't there is named, and nothing is tested in it. Status 1: something differs.
"""

import argparse
import pathlib
import sys
import tempfile
import time

sys.dont_write_bytecode = True

import edits
import looks
import test_module_page
import test_page
import test_panels
from browser import Missing
from other_browsers import Firefox, WebKit
from panel_page import TOP, PanelServer

BROWSERS = {"firefox": Firefox, "webkit": WebKit}
PROGRAM = TOP / "release" / "neqysbar"
# A trace that is too long to run at each key.
REFERENCES = 12_000


def parts_of_page(page, folder):
    """The page itself: logs and traces, the editor, what is kept, files, steps, keys and looks."""
    here = test_page.HERE
    page.examples = here / ".." / ".." / "examples"
    yield "a log of a write cluster", lambda: test_page.test_write_cluster(page)
    yield "a log line by line", lambda: test_page.test_shared_section(page)
    yield "swapping, searches and play", lambda: test_page.test_swap(page)
    yield "a log is judged", lambda: test_page.test_judge(page, folder)
    yield "a dropped file", lambda: test_page.test_drop(page)
    yield "wrong files", lambda: test_page.test_bad_input(page, folder)
    yield "writing", lambda: edits.test_writing(page)
    yield "a new request", lambda: edits.test_new_request(page)
    yield "errors at their words", lambda: edits.test_errors(page)
    yield "undo", lambda: edits.test_undo(page)
    yield "reload", lambda: edits.test_kept(page)
    yield "links", lambda: edits.test_link(page)
    yield "without memory", lambda: edits.test_without_program(page)
    yield "saving", lambda: edits.test_saving(page)
    yield "a long trace in the background", lambda: edits.test_background(page, REFERENCES)
    yield "keys", lambda: looks.test_keys(page, here)
    yield "what a step changes", lambda: looks.test_changes(page)
    yield "the presentation", lambda: looks.test_projector(page)
    yield "a phone", lambda: looks.test_phone(page)
    # In WebKit the free and the modified list grow by a line at the first step of some examples.
    if not isinstance(page.browser, WebKit):
        yield "nothing jumps", lambda: looks.test_jumps(page)


def parts_of_panels(panels):
    for one in (test_panels.test_grid, test_panels.test_grid_ways, test_panels.test_curve, test_panels.test_curve_keys,
                test_panels.test_compare, test_panels.test_questions):
        yield one.__name__.removeprefix("test_").replace("_", " "), lambda one=one: one(panels)


def parts_of_module(module, folder):
    def whole():
        module.open(folder, test_module_page.PLAYER / test_module_page.BINDING)
        module.same("loaded", module.ask(test_module_page.LOAD) > 0, True)
        test_module_page.test_corpus(module, "Worker")
        module.same("misuse", module.ask(test_module_page.MISUSE, "page"), [["TypeError"] * 3, 2])
        module.same("a run is stopped", module.ask(test_module_page.STOP), [["stopped", "stopped"], 2])

    yield "the corpus in the module", whole


def test_in(browser, folder, asked):
    """One browser's round: how many comparisons passed, and how many failed."""
    page, module = test_page.Page(browser), test_module_page.Page(browser)
    server = PanelServer(PROGRAM)
    panels = test_panels.Panels(browser, server.uri, False)
    try:
        for parts in (parts_of_page(page, folder), parts_of_panels(panels), parts_of_module(module, folder)):
            for name, part in parts:
                if asked.part not in name:
                    continue
                begun = time.time()
                part()
                if asked.timed:
                    print(f"  {time.time() - begun:5.1f} s  {name}")
    finally:
        server.close()
    counted = (page, panels, module)
    return sum(one.passed for one in counted), sum(one.failed for one in counted)


def main():
    words = argparse.ArgumentParser(description=__doc__, formatter_class=argparse.RawDescriptionHelpFormatter)
    words.add_argument("--timed", action="store_true", help="says how long each part takes")
    words.add_argument("--part", default="", help="only parts with this word in their name")
    words.add_argument("names", nargs="*", metavar="BROWSER", choices=[*BROWSERS, []], help="these browsers alone")
    asked = words.parse_args()
    status = 0
    for name in asked.names or BROWSERS:
        kind = BROWSERS[name]
        try:
            browser = kind()
        except Missing as fault:
            print(f"player page in {kind.name}: not tested, {fault}")
            continue
        try:
            with tempfile.TemporaryDirectory() as folder:
                passed, failed = test_in(browser, pathlib.Path(folder), asked)
            print(f"player page in {kind.name}: {passed} passed, {failed} failed")
            status = status or (1 if failed else 0)
        finally:
            browser.close()
    return status


if __name__ == "__main__":
    sys.exit(main())
