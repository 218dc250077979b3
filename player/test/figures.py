#!/usr/bin/env python3
"""Measures the page in a real browser, and prints each figure beside its bound.

    python3 player/test/figures.py [--bounds]

With --bounds the status is 1 where a figure is above its bound. Status 0 too where there is no browser,
which it says. Each time is the least of some tries, since a machine has other work; of a key it is the median.
"""

import argparse
import gzip
import pathlib
import subprocess
import sys
import tempfile
import time

sys.dont_write_bytecode = True

from browser import Browser, Missing
from long_log import long_log, long_trace

HERE = pathlib.Path(__file__).resolve().parent
PAGE = HERE.parent / "index.html"
PROGRAM = HERE.parents[1] / "release" / "neqysbar"
TRIES = 5
KEYS = 20
REFERENCES = 60_000
FEW_RUNS, MANY_RUNS = 10, 100
MORE_MEMORY = 1.2

FIRST_RUN = "return Session.run ? performance.getEntriesByName('first-run')[0].startTime : 0;"

# Types a letter over one of a request, and times each key: until all is laid out, or until the next picture of the
# screen. The requests are the last ones, one after another, or the first one, with which all that follows changes.
KEYSTROKES = """
const [text, count, first, toScreen, done] = arguments;
Player.editor.change({ text }, false);
const field = document.getElementById("trace");
field.focus();
const times = [];
const end = (begun) => { times.push(performance.now() - begun); setTimeout(next, 30); };
function next() {
  if (times.length === count) { done(times.sort((a, b) => a - b)); return; }
  const request = "A W1 00000";
  const at = request.length + (first ? field.value.indexOf(request)
    : field.value.lastIndexOf(request, field.value.length - 20 * (1 + times.length)));
  field.setSelectionRange(at, at + 1);
  const begun = performance.now();
  document.execCommand("insertText", false, "468A"[times.length % 4]);
  document.body.getBoundingClientRect();
  if (toScreen) { requestAnimationFrame(() => setTimeout(() => end(begun))); } else { end(begun); }
}
next();
"""

IN_WORKER = """
const [text, done] = arguments;
(async () => {
  const times = [];
  for (let i = 0; i < 6; i += 1) {
    const begun = performance.now();
    await Player.runInWorker(["serial"], text);
    times.push(performance.now() - begun);
  }
  done(times);
})();
"""

# The longest wait of steps, of scrolling, and of a jump, each with layout.
SCROLLED = """
const box = document.getElementById("lines");
const times = [];
for (let i = 0; i < 40; i += 1) {
  const begun = performance.now();
  box.scrollTop = (i * 7919 * 97) % box.scrollHeight;
  box.dispatchEvent(new Event("scroll"));
  document.body.getBoundingClientRect();
  times.push(performance.now() - begun);
}
return times;
"""
STEPPED = """
const times = [];
Session.go(Math.floor(Session.run.length / 2));
for (let i = 0; i < 40; i += 1) {
  const begun = performance.now();
  document.getElementById(i % 3 ? "back" : "forward").click();
  document.body.getBoundingClientRect();
  times.push(performance.now() - begun);
}
for (let i = 0; i < 10; i += 1) {
  const begun = performance.now();
  Session.go((i * 37813) % Session.run.length);
  document.body.getBoundingClientRect();
  times.push(performance.now() - begun);
}
return times;
"""

RUNS = """
const [texts, count, done] = arguments;
let left = count;
function next() {
  if (!left) { setTimeout(done, 200); return; }
  left -= 1;
  Player.editor.change({ text: texts[left % texts.length] }, false);
  setTimeout(next, 5);
}
next();
"""


class Figures:
    """What was measured, and how much of it is above its bound."""

    def __init__(self):
        self.above = 0

    def say(self, name, found, unit, bound):
        good = found <= bound
        self.above += 0 if good else 1
        print(f"{name:58} {found:10.1f} {unit:3} (at most {bound:g}){'' if good else '  ABOVE'}")


def trace_of(references, pages=12, limit=5):
    head = ["VMTRACE 1", "! a trace of so many references", "FRAMES 32", "PAGEFILE 64",
            f"PROCESS A {limit} {limit} {limit} 0", f"MAPZERO A 00000000 {pages} UW", "BODY"]
    body = [f"A {'W1' if i % 3 else 'R1'} {(i * i * 7 + i // 5) % pages * 512:08X}" + (" 01" if i % 3 else "")
            for i in range(references)]
    return "\n".join(head + body + ["END", ""])


def four_programs(references):
    """Four processes that each go round pages of their own, and now and then elsewhere."""
    head = ["VMTRACE 1", "FRAMES 256", "PAGEFILE 4096"] + [f"PROCESS {x} 40 60 80 0" for x in "ABCD"]
    head += [f"MAPZERO {x} 00000000 200 UW" for x in "ABCD"] + ["BODY"]
    body = []
    for i in range(references):
        page = (i * 2654435761 >> 9) % 200 if i % 11 == 0 else (i // 4) % 37
        body.append(f"{'ABCD'[i % 4]} W1 {page * 512:08X} {i % 256:02X}")
    return "\n".join(head + body + ["END", ""])


def opened(browser):
    """The page, opened anew with nothing kept, and its first run there."""
    browser.open("about:blank")
    browser.open(PAGE.as_uri() + "#example=belady")
    for _ in range(500):
        found = browser.run(FIRST_RUN)
        if found:
            return found
        time.sleep(0.02)
    raise RuntimeError("the page makes no run")


def heap(browser):
    browser.command("HeapProfiler.collectGarbage")
    return browser.command("Runtime.getHeapUsage")["usedSize"] / 1e6


def native(text):
    times = []
    for _ in range(TRIES):
        begun = time.perf_counter()
        subprocess.run([PROGRAM, "serial"], input=text.encode(), stdout=subprocess.PIPE, check=False)
        times.append(1000 * (time.perf_counter() - begun))
    return min(times)


def measure_size(figures):
    module = HERE.parent / "neqysbar_module.js"
    bytes_of = module.read_bytes()
    figures.say("the module as a script", len(bytes_of) / 1000, "kB", 400)
    figures.say("the same by gzip", len(gzip.compress(bytes_of)) / 1000, "kB", 300)


def least_of_longest(browser, script):
    """The longest wait of many, in the try in which it was shortest."""
    return min(max(browser.run(script)) for _ in range(TRIES))


def measure_long(figures, browser, folder):
    log, trace = folder / "long.log", folder / "long.trace"
    log.write_text(long_log())
    trace.write_text(long_trace())
    opened(browser)
    begun = time.time()
    browser.type("#files", f"{log}\n{trace}")
    while browser.run("return Session.run ? Session.run.length : 0") < 100_000:
        time.sleep(0.02)
    print(f"a log of {browser.run('return Session.run.length')} lines stands after {time.time() - begun:.2f} s, in which "
          "the page answers")
    figures.say("  the longest wait while it is scrolled", least_of_longest(browser, SCROLLED), "ms", 100)
    figures.say("  the longest wait of a step or a jump", least_of_longest(browser, STEPPED), "ms", 100)


def measure_keys(figures, browser):
    text = trace_of(100)
    for first, where in ((False, "at the end"), (True, "that changes all")):
        browser.wait_for(KEYSTROKES, text, KEYS, first, False)
        times = browser.wait_for(KEYSTROKES, text, KEYS, first, False)
        figures.say(f"a keystroke on 100 requests, {where} (median)", middle(times), "ms", 30)
        print(f"  least {times[0]:.1f} ms, most {times[-1]:.1f} ms; its work on the page "
              f"{work_of_key(browser, text, first)}")
        shown = browser.wait_for(KEYSTROKES, text, KEYS, first, True)
        print(f"  until the next picture of the screen: least {shown[0]:.1f} ms, median {middle(shown):.1f} ms")


def middle(times):
    return times[len(times) // 2]


def work_of_key(browser, text, first):
    """What a key costs the page's own thread, as the browser counts it: other programs don't change it much."""
    browser.command("Performance.enable", timeDomain="threadTicks")
    before = counts(browser)
    browser.wait_for(KEYSTROKES, text, KEYS, first, False)
    after = counts(browser)
    browser.command("Performance.disable")
    spent = {name: (after[name] - before[name]) / (KEYS + 1) for name in after}
    return (f"{1000 * spent['ScriptDuration']:.1f} ms of scripts, {1000 * spent['RecalcStyleDuration']:.1f} of styles, "
            f"{1000 * spent['LayoutDuration']:.1f} of layout, {spent['LayoutCount']:.1f} layouts")


def counts(browser):
    return {one["name"]: one["value"] for one in browser.command("Performance.getMetrics")["metrics"]}


def measure(figures, browser, folder):
    measure_size(figures)
    figures.say("from opening the page to its first run", min(opened(browser) for _ in range(TRIES)), "ms", 300)
    measure_keys(figures, browser)
    text = four_programs(REFERENCES)
    own = native(text)
    times = browser.wait_for(IN_WORKER, text)
    figures.say("60,000 references in a worker, by the program's time", min(times) / own, "", 5)
    print(f"  worker: first {times[0]:.0f} ms, best {min(times):.0f} ms; the program: {own:.0f} ms")
    texts = [trace_of(100 + i, 12, 3 + i % 4) for i in range(12)]
    opened(browser)
    browser.wait_for(RUNS, texts, FEW_RUNS)
    few = heap(browser)
    for _ in range(FEW_RUNS, MANY_RUNS, FEW_RUNS):
        browser.wait_for(RUNS, texts, FEW_RUNS)
    many = heap(browser)
    figures.say(f"memory after {MANY_RUNS} runs, by that after {FEW_RUNS}", many / few, "", MORE_MEMORY)
    print(f"  {few:.1f} MB and {many:.1f} MB")
    measure_long(figures, browser, folder)


def main():
    words = argparse.ArgumentParser(description=__doc__, formatter_class=argparse.RawDescriptionHelpFormatter)
    words.add_argument("--bounds", action="store_true", help="status 1 where a figure is above its bound")
    asked = words.parse_args()
    try:
        browser = Browser(1280, 900)
    except Missing as fault:
        print(f"player's figures: not measured, {fault}")
        return 0
    figures = Figures()
    try:
        with tempfile.TemporaryDirectory() as name:
            measure(figures, browser, pathlib.Path(name))
    except RuntimeError as fault:
        print(f"player's figures: not measured to the end, {fault}")
        return 1
    finally:
        browser.close()
    return 1 if asked.bounds and figures.above else 0


if __name__ == "__main__":
    sys.exit(main())
