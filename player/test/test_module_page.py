#!/usr/bin/env python3
"""Tests the module for the web in a real browser, in a page that is opened from a file and in a Worker.

    python3 player/test/test_module_page.py

Status 0: all passed, or there is no browser, which it says. Status 1: something differs.
"""

import base64
import functools
import http.server
import pathlib
import shutil
import sys
import tempfile
import threading

sys.dont_write_bytecode = True

from browser import Browser, Missing
from corpus import Corpus

PLAYER = pathlib.Path(__file__).resolve().parents[1]
BINDING = "neqysbar.js"
MODULE = "neqysbar_module.js"

# What a script is that answers by its last word, with what the body returns or with what it throws.
ANSWER = """
const [words, done] = [[...arguments].slice(0, -1), arguments[arguments.length - 1]];
(async function (...words) {{ {body} }})(...words)
  .then((value) => done({{ value }}), (fault) => done({{ fault: [fault.name, fault.kind, fault.message] }}));
"""
LOAD = """
const begun = performance.now();
window.programs = { page: await Neqysbar.load(), Worker: await Neqysbar.loadWorker() };
return performance.now() - begun;
"""
RUN = """
const [place, line, input] = words;
const bytes = Uint8Array.from(atob(input), (letter) => letter.charCodeAt(0));
const { status, output } = await programs[place].run(line, bytes);
let letters = "";
for (let i = 0; i < output.length; i += 4096) letters += String.fromCharCode(...output.subarray(i, i + 4096));
return [status, btoa(letters)];
"""
LONG = '["make", "--seed", "7", "--procs", "16", "--refs", "100000"]'
# The page's own clock goes on while a Worker runs, and what is asked for is answered in order.
BESIDE = f"""
let ticks = 0;
const clock = setInterval(() => (ticks += 1), 1);
const order = [];
const runs = [programs.Worker.run({LONG}, ""), programs.Worker.run(["serial"], ""), programs.Worker.run([], "")];
runs.forEach((run, i) => run.then(() => order.push(i)));
const made = await Promise.all(runs);
clearInterval(clock);
return [made.map((one) => one.status), order, ticks > 5];
"""
STOP = f"""
const runs = [programs.Worker.run({LONG}, ""), programs.Worker.run(["serial"], "")];
setTimeout(() => programs.Worker.stop(), 20);
const kinds = (await Promise.allSettled(runs)).map((one) => one.reason && one.reason.kind);
const next = await programs.Worker.run(["serial"], "");
return [kinds, next.status];
"""
MISUSE = """
const kinds = [];
for (const [line, input] of [[["a\\0b"], ""], [[7], ""], [["serial"], undefined]]) {
  try {
    await programs[words[0]].run(line, input);
  } catch (fault) {
    kinds.push(fault.name);
  }
}
return [kinds, (await programs[words[0]].run(["serial"], "")).status];
"""
MANY = f"""
const sizes = [];
for (let run = 1; run <= 100; run += 1) {{
  programs.page.run(["make", "--seed", "7", "--procs", "4", "--refs", "2000"], "");
  if (run === 10 || run === 100) sizes.push(programs.page.memoryBytes);
}}
return [sizes[0] === sizes[1], programs.page.usedBytes];
"""


# A Worker of the page's own, which imports what it is told to.
OWN_WORKER = """
const code = `try { importScripts(${words.map((word) => JSON.stringify(word)).join()});
  Neqysbar.load().then((program) => postMessage(program.run([], "").status), (fault) => postMessage(fault.message));
} catch (fault) { postMessage(String(fault)); }`;
const worker = new Worker(URL.createObjectURL(new Blob([code])));
return new Promise((resolve) => (worker.onmessage = ({ data }) => resolve(data)));
"""


class Quiet(http.server.SimpleHTTPRequestHandler):
    """Serves files without a line for each."""

    def log_message(self, *words):
        pass


class Page:
    """A page with the binding, and how many comparisons passed and failed."""

    def __init__(self, browser):
        self.browser = browser
        self.passed = 0
        self.failed = 0

    def open(self, folder, binding):
        page = folder / "page.html"
        page.write_text(f'<!doctype html><meta charset="utf-8"><script src="{binding.as_uri()}"></script>')
        self.browser.open(page.as_uri())

    def ask(self, body, *words):
        """What a script in the page returns; a list of name, kind and message is what it throws."""
        answer = self.browser.wait_for(ANSWER.format(body=body), *words)
        return answer["fault"] if "fault" in answer else answer["value"]

    def same(self, name, found, expected):
        if found == expected:
            self.passed += 1
            return
        self.failed += 1
        print(f"{name}: found {found!r}, expected {expected!r}")


def test_corpus(page, place):
    def outcome(words, data):
        answer = page.ask(RUN, place, words, base64.b64encode(data).decode("ascii"))
        if len(answer) != 2:
            return b"", answer[2]
        return base64.b64decode(answer[1]), answer[0]

    corpus = Corpus(outcome)
    corpus.small()
    print(f"the corpus in a {place}: {corpus.passed} passed, {corpus.failed} failed")
    page.same(f"the corpus in a {place}", corpus.failed, 0)


def test_missing_module(page, folder):
    """A module that isn't there is told in words, and is found once it is there."""
    binding = folder / BINDING
    shutil.copy(PLAYER / BINDING, binding)
    page.open(folder, binding)
    for place in ("load", "loadWorker"):
        page.same(f"no module: {place}", page.ask(f"await Neqysbar.{place}();")[1:],
                  ["module", f"Neqysbar can't be loaded: {MODULE} can't be read"])
    (folder / MODULE).write_text('const SOMETHING_ELSE = "";\n')
    page.same("no module in the file", page.ask("await Neqysbar.load();")[1:],
              ["module", f"Neqysbar can't be loaded: {MODULE} holds no module"])
    shutil.copy(PLAYER / MODULE, folder / MODULE)
    page.same("it is there", page.ask('return (await Neqysbar.load()).run([], "").status;'), 1)


def test_served(page):
    """The player's folder on a web server: a page, and a Worker of its own that imports the scripts."""
    server = http.server.ThreadingHTTPServer(("127.0.0.1", 0), functools.partial(Quiet, directory=PLAYER))
    threading.Thread(target=server.serve_forever, daemon=True).start()
    try:
        at = f"http://127.0.0.1:{server.server_port}/"
        page.browser.open(f"{at}{BINDING}")
        page.same("a Worker of one's own", page.ask(OWN_WORKER, at + BINDING, at + MODULE), 1)
        page.same("without the module", page.ask(OWN_WORKER, at + BINDING),
                  f"Neqysbar can't be loaded: {MODULE} isn't there: import it first")
    finally:
        server.shutdown()


def run_all(browser, folder):
    page = Page(browser)
    test_served(page)
    test_missing_module(page, folder)
    page.open(folder, PLAYER / BINDING)
    print(f"loaded after {page.ask(LOAD):.0f} thousandths of a second")
    for place in ("page", "Worker"):
        test_corpus(page, place)
        page.same(f"misuse in a {place}", page.ask(MISUSE, place), [["TypeError"] * 3, 2])
    page.same("runs beside the page", page.ask(BESIDE), [[0, 2, 1], [0, 1, 2], True])
    page.same("a run is stopped", page.ask(STOP), [["stopped", "stopped"], 2])
    page.same("many runs", page.ask(MANY), [True, 0])
    print(f"the module in a browser: {page.passed} passed, {page.failed} failed")
    return 1 if page.failed else 0


def main():
    try:
        browser = Browser()
    except Missing as fault:
        print(f"the module in a browser: not tested, {fault}")
        return 0
    try:
        with tempfile.TemporaryDirectory() as folder:
            return run_all(browser, pathlib.Path(folder))
    finally:
        browser.close()


if __name__ == "__main__":
    sys.exit(main())
