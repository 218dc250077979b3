"""Tests how the page looks and is used: widths, contrast, sizes, colours to colour-blind eyes, keys, what a screen
reader is told, steps without jumps, changes that are shown, and messages."""

import itertools
import time

SCREENS = [(390, 844), (844, 390), (768, 1024), (1280, 800), (1920, 1080)]
LEAST_CONTRAST = 4.5
LEAST_DISTANCE = 12
LEAST_BUTTON = 44
LEAST_LETTER = 20
RIGHT, LEFT, HOME, END, ENTER, ALT = "\ue014", "\ue012", "\ue011", "\ue010", "\ue007", "\ue00a"
UP, DOWN, PAGE_UP = "\ue013", "\ue015", "\ue00e"

WIDEST = """
const wide = document.documentElement.clientWidth;
return [document.documentElement.scrollWidth - wide, ...[...document.querySelectorAll("body *")]
  .filter((one) => one.getBoundingClientRect().right > wide + 1 &&
    !one.closest("#frames, .queue, .blocks, .slots, .table-cells, .table, #editor, #lines, #report pre, #grid, " +
      "#curve, #compare, #questions, .skip, #arrows"))
  .map((one) => one.tagName + "#" + one.id + "." + one.className)].slice(0, 4);
"""

# The contrast of each element that has text of its own, with the colours as the page computes them.
CONTRASTS = """
function numbers(text) { return text.match(/[\\d.]+/g).map(Number); }
function light(rgb) {
  const [r, g, b] = rgb.slice(0, 3).map((n) => n / 255)
    .map((c) => (c <= 0.03928 ? c / 12.92 : ((c + 0.055) / 1.055) ** 2.4));
  return 0.2126 * r + 0.7152 * g + 0.0722 * b;
}
function ground(node) {
  for (let one = node; one; one = one.parentElement) {
    const found = numbers(getComputedStyle(one).backgroundColor);
    if (found.length < 4 || found[3] > 0) { return found; }
  }
  return [255, 255, 255];
}
return [...document.querySelectorAll("body *")].filter((one) => one.offsetParent !== null &&
  [...one.childNodes].some((child) => child.nodeType === 3 && child.textContent.trim()))
  .map((one) => {
    const [a, b] = [light(numbers(getComputedStyle(one).color)), light(ground(one))];
    return [(Math.max(a, b) + 0.05) / (Math.min(a, b) + 0.05),
      one.tagName + "#" + one.id + "." + one.className + " " + one.textContent.slice(0, 20)];
  }).filter(([found]) => found < arguments[0]).map(([found, name]) => found.toFixed(2) + " " + name);
"""

# The colour of each state's swatch in a picture of the page.
SWATCHES = """
const [shot, done] = arguments;
const image = new Image();
image.onload = () => {
  const canvas = document.createElement("canvas");
  Object.assign(canvas, {width: image.width, height: image.height});
  const context = canvas.getContext("2d");
  context.drawImage(image, 0, 0);
  const scale = image.width / innerWidth;
  done([...document.querySelectorAll("#counts .swatch")].map((one) => {
    const box = one.getBoundingClientRect();
    return [one.textContent, [...context.getImageData((box.left + 3) * scale, (box.top + 4) * scale, 1, 1)
      .data].slice(0, 3)];
  }));
};
image.src = "data:image/png;base64," + shot;
"""


# Buttons, choices, fields and folds in sight that are smaller than a finger; of a check box its label counts.
SMALL = """
return [...document.querySelectorAll("button, select, input, summary, [role=option]")].filter((one) =>
  one.offsetParent !== null && !["checkbox", "radio", "range"].includes(one.type)).map((one) =>
  [one.getBoundingClientRect().height, one.id || one.textContent]).filter(([high]) => high < arguments[0] - 0.5);
"""

# The size of each element's letters that has text of its own and is in sight.
LETTERS = """
return [...document.querySelectorAll("body *")].filter((one) => one.offsetParent !== null && one.tagName !== "OPTION" &&
  [...one.childNodes].some((child) => child.nodeType === 3 && child.textContent.trim()))
  .map((one) => [parseFloat(getComputedStyle(one).fontSize), one.tagName + "#" + one.id + "." + one.className])
  .filter(([size]) => size < arguments[0] - 0.05).slice(0, 5);
"""

# What has a role or may be reached by keys, and no name; and ids or names that stand twice.
NAMELESS = """
const named = (one) => (one.getAttribute("aria-labelledby") || "").split(" ")
  .map((id) => id && document.getElementById(id).textContent).join("");
const nameOf = (one) => (one.getAttribute("aria-label") || (one.labels && one.labels[0] && one.labels[0].textContent) ||
  named(one) || one.textContent || one.title || "").trim();
const seen = [...document.querySelectorAll("button, select, input, textarea, section, [tabindex], [role], table, ol")]
  .filter((one) => one.offsetParent !== null && one.type !== "file" && one.getAttribute("role") !== "status");
const bare = seen.filter((one) => !nameOf(one) && one.id !== "lines-all")
  .map((one) => one.tagName + "#" + one.id + "." + one.className);
const buttons = [...document.querySelectorAll("main button")].filter((one) => one.offsetParent !== null &&
  !one.closest("#curve, #compare, #questions, #grid")).map(nameOf);
const twice = buttons.filter((name, i) => buttons.indexOf(name) !== i && name !== "Request");
const ids = [...document.querySelectorAll("[id]")].map((one) => one.id);
return [...bare, ...twice, ...ids.filter((id, i) => ids.indexOf(id) !== i)];
"""

# Where things stand, to see what jumps in a step.
PLACES = """
return ["#step", "#said", "#grid", "#rings", "#frames", "#free", "#modified", "#timeline", "[data-frame='0']"]
  .map((name) => document.querySelector(name)).map((one) =>
    Math.round(one.getBoundingClientRect().top + (one.closest("#step") ? 0 : scrollY)));
"""


def show_example(page, name, line):
    page.open(f"#example={name}&line={line}")
    page.wait(f"return Session.run && Session.line === {line}", "the example stands")


def test_screens(page):
    for dark in (False, True):
        for width, height in SCREENS:
            page.browser.screen(width, height, dark)
            show_example(page, "swapping", 26)
            name = f"{width} by {height}, dark {dark}"
            page.same(f"nothing scrolls sideways, {name}", page.browser.run(WIDEST), [0])
            page.same(f"contrast, {name}", page.browser.run(CONTRASTS, LEAST_CONTRAST), [])
            page.same(f"what it is stands there, {name}", page.browser.run(
                "return document.querySelector('header p').getBoundingClientRect().bottom < innerHeight / 3"), True)
            page.same(f"line of time in sight, {name}", in_sight(page, "#timeline"), True)
            page.same(f"buttons in sight, {name}", in_sight(page, "#forward"), True)
            page.same(f"words in sight, {name}", in_sight(page, "#what"), True)
            if min(width, height) < 700:
                page.same(f"fingers, {name}", page.browser.run(SMALL, LEAST_BUTTON), [])
    test_faulty_screen(page)
    page.browser.screen(1400, 1500)


def in_sight(page, part):
    return page.browser.run("const box = document.querySelector(arguments[0]).getBoundingClientRect();"
                            "return box.top >= 0 && box.bottom <= innerHeight && box.width > 0", part)


def test_faulty_screen(page):
    for dark in (False, True):
        page.browser.screen(1280, 800, dark)
        page.open("#example=faulty-line")
        page.wait("return Player.error", "the error is there")
        page.same(f"contrast of an error, dark {dark}", page.browser.run(CONTRASTS, LEAST_CONTRAST), [])
        page.same("no run is said", page.browser.run("return document.getElementById('none').hidden"), False)


def test_phone(page):
    """On a phone the words, the grid's place and the buttons are in one view, and nothing jumps in a step."""
    for width, height in [(390, 844), (844, 390)]:
        page.browser.screen(width, height)
        show_example(page, "swapping", 17)
        page.browser.run("document.getElementById('grid').scrollIntoView({ block: 'start' })")
        for part in ("#what", "#forward", "#timeline"):
            page.same(f"{part} beside the grid at {width}", in_sight(page, part), True)
        page.same(f"the grid at {width}", page.browser.run(
            "const box = document.getElementById('grid').getBoundingClientRect(); const cover = "
            "document.getElementById('step').getBoundingClientRect();"
            "return box.top > -1 && box.top < innerHeight && "
            "(cover.left >= box.right - 1 || cover.top >= box.top + 40)"), True)
        page.same(f"the grid's switches are one row at {width}", page.browser.run(
            "return document.querySelector('#grid .controls').getBoundingClientRect().height < 60"), True)
        page.same(f"and are called by their names at {width}", page.browser.run(
            "return [...document.querySelectorAll('#grid legend, #grid .field > span')].map((one) => one.innerText)"),
            ["Process", "Rows", "Pages"])
    page.browser.screen(1400, 1500)


def test_jumps(page):
    """Frames, lists and buttons stand still while one steps."""
    for width, height in [(390, 844), (1280, 800)]:
        page.browser.screen(width, height)
        for name, first in [("swapping", 15), ("belady", 5), ("write-cluster", 8)]:
            show_example(page, name, first)
            page.wait("return document.querySelector('#grid .grid').rows.length > 0", "the grid is drawn")
            before = page.browser.run(PLACES)
            for _ in range(12):
                page.browser.run("document.getElementById('forward').click()")
                page.same(f"{name} stands still at {width}", page.browser.run(PLACES), before)
    page.browser.screen(1400, 1500)


def test_projector(page):
    """In the presentation no letter is smaller than 20 points, and the room is filled."""
    page.browser.screen(1920, 1080)
    show_example(page, "belady", 7)
    page.browser.click("#large")
    page.same("letters", page.browser.run(LETTERS, LEAST_LETTER), [])
    page.same("filled", page.browser.run(
        "return document.getElementById('state').getBoundingClientRect().width > 1750"), True)
    page.same("nothing scrolls sideways", page.browser.run(WIDEST), [0])
    page.same("pressed", page.browser.run("return document.getElementById('large').getAttribute('aria-pressed')"), "true")
    page.open("#example=belady", keep=True)
    page.same("it is kept", page.browser.run("return document.documentElement.dataset.size"), "large")
    page.browser.click("#large")
    page.browser.screen(1400, 1500)


def test_colours(page):
    """The colours follow the system, or the wish."""
    page.browser.screen(1280, 900, True)
    page.open()
    shown = "return document.documentElement.dataset.theme"
    page.same("the system's", page.browser.run(shown), "dark")
    for wanted in ("light", "dark", "dark"):
        page.browser.click("#theme")
        page.same(f"by wish: {page.browser.text('#theme')}", page.browser.run(shown), wanted)
    page.browser.screen(1280, 900, False)
    page.wait("return document.documentElement.dataset.theme === 'light'", "the system's change is followed")
    page.browser.screen(1400, 1500)


def test_changes(page):
    """What a step changes is shown: the victim at its own eviction, who joins a list, and the arrow between."""
    page.browser.screen(1400, 1500)
    show_example(page, "belady", 7)
    page.has("the victim is struck through", page.items(".slots .gone del")[0], "00000200")
    page.same("who joined", page.items("#modified .joined"), ["F0 A/00000200 (1)"])
    page.wait("return document.querySelectorAll('#arrows .way').length === 1", "an arrow is drawn")
    page.same("before and after", page.items("#changes li"), ["F0: ACTIVE \u2192 MODIFIED",
              "A slot 0: 00000200 \u2192 empty", "A's hand: slot 3 \u2192 0", "modified list: 0 \u2192 1"])
    page.browser.click("#forward")
    page.same("who left is still to be seen", page.items("#free .left"), ["F3"])
    page.same("who came", page.items(".slots .came b"), ["4"])
    page.browser.click("#forward")
    page.same("nothing stays of it", page.items("#free .left, .slots .came, .slots .gone, #changes li"),
              ["nothing in frames, lists or working sets"])
    page.same("a fault is told", page.browser.text("#badge"), "done, after a page fault")
    page.go(19)
    page.same("a hit is told", page.browser.text("#badge"), "hit")
    page.browser.click("#numbers")
    page.same("no numbers now", page.items("#free li")[0], "F5")
    page.same("addresses alone", page.items(".slots b")[0], "00000A00")
    page.browser.click("#numbers")
    page.same("numbers again", page.items(".slots b")[0], "5")
    page.same("page table", page.items(".table-cells li"), ["1F0", "2F1", "3F2", "4F3", "5F4"])


def test_eyes(page):
    """Two states never look the same, by the browser's own simulation."""
    for dark in (False, True):
        page.browser.screen(1280, 1400, dark)
        show_example(page, "swapping", 35)
        page.browser.run("document.getElementById('counts').scrollIntoView({ block: 'center' })")
        time.sleep(0.5)
        for eyes in ("none", "deuteranopia", "protanopia", "tritanopia"):
            page.browser.eyes(eyes)
            found = page.browser.wait_for(SWATCHES, page.browser.shot())
            page.same(f"states to {eyes}", len(found), 8)
            close = [f"{one} {other} {distance(a, b):.0f}" for (one, a), (other, b) in
                     itertools.combinations(found, 2) if distance(a, b) < LEAST_DISTANCE]
            page.same(f"states told apart, {eyes}, dark {dark}", close, [])
    page.browser.eyes("none")
    page.browser.screen(1400, 1500)


def distance(one, other):
    return sum((a - b) ** 2 for a, b in zip(one, other)) ** 0.5


def at(page):
    return page.browser.run("return Session.line")


def test_keys(page, here):
    """The arrow keys step wherever the focus is, but in the trace and in fields of words."""
    page.load(here / "swap-out-and-back.log", here / "swap-out-and-back.trace")
    page.go(0)
    press(page, RIGHT)
    page.same("after a file was opened", at(page), 1)
    page.go(30)
    page.same("a line by its number", at(page), 30)
    press(page, RIGHT + RIGHT + LEFT)
    page.same("after a line was typed", at(page), 31)
    page.browser.click("#forward")
    press(page, END + LEFT)
    page.same("on a button", at(page), page.browser.run("return Session.run.length") - 1)
    press(page, HOME)
    page.browser.click("#request-forward")
    page.same("the next request's answer", page.browser.text("#text").split()[2], "DONE")
    page.browser.run("document.querySelector('[data-frame]').focus()")
    press(page, ALT + RIGHT)
    page.same("the next frame", page.browser.run("return document.activeElement.dataset.frame"), "1")
    page.browser.run("document.getElementById('lines').focus()")
    line = at(page)
    press(page, DOWN + DOWN + UP)
    page.same("a line of the list", at(page), line + 1)
    page.same("which a screen reader is told", page.browser.run(
        "const name = document.getElementById('lines').getAttribute('aria-activedescendant');"
        "return document.getElementById(name).textContent"),
        page.browser.text("#text"))
    page.browser.run("document.getElementById('timeline').focus()")
    press(page, PAGE_UP)
    tenth = -(-page.browser.run("return Session.run.length") // 10)
    page.same("a tenth by the line of time", at(page), line + 1 + tenth)
    page.has("which is said", page.browser.run("return document.getElementById('timeline').getAttribute('aria-valuetext')"),
             "faults so far")
    page.browser.run("document.getElementById('run-table').scrollIntoView()")
    page.wait("return document.querySelector('#run-table button').getClientRects().length > 0", "the table is laid out")
    page.browser.click("#run-table tr:nth-child(3) button")
    page.same("and by its table", at(page), round(page.browser.run("return Session.run.length") / 10))


def press(page, keys):
    """Types into what has the focus."""
    page.browser.press(keys)


def test_names(page):
    """All that can be reached has a name of its own."""
    for name, line in [("swapping", 26), ("sharing", 7), ("belady", 7)]:
        show_example(page, name, line)
        for part in ("curve", "compare", "questions"):
            page.browser.run("document.getElementById(arguments[0]).scrollIntoView()", part)
            page.wait(f"return document.getElementById('{part}').querySelectorAll('button, input, select').length > 0",
                      f"{part} is drawn")
            time.sleep(0.3)
        page.same(f"names in {name}", page.browser.run(NAMELESS), [])
    page.same("lines are options", page.browser.run(
        "const one = document.querySelector('#lines .here');"
        "return ['role', 'aria-posinset'].map((name) => one.getAttribute(name))"),
        ["option", "7"])
    page.same("frames are a list", page.browser.run(
        "return document.querySelector('[data-frame]').getAttribute('role')"), "listitem")


def test_still(page):
    """Where the system asks for no motion, nothing moves by itself."""
    page.browser.command("Emulation.setEmulatedMedia", features=[{"name": "prefers-reduced-motion", "value": "reduce"}])
    show_example(page, "belady", 7)
    page.same("no animation", page.browser.run(
        "return document.getAnimations().length"), 0)
    page.browser.command("Emulation.setEmulatedMedia", features=[])


def test_messages(page, here, folder):
    """Wrong files are told in words, and a message goes with the next step."""
    trouble = "return document.getElementById('trouble').textContent"
    page.load(here / "shared-section.log", here / "shared-section.trace")
    page.go("999999")
    page.same("no such line", "is no line of this log" in page.browser.run(trouble), True)
    page.browser.click("#forward")
    page.same("gone", page.browser.run(trouble), "")
    page.browser.click("#about-form button")
    page.same("empty search", page.browser.run(trouble).startswith("Type what the line is"), True)
    page.load(here / "shared-section.log", here / "swap-out-and-back.trace")
    page.same("another trace", page.browser.run(trouble).startswith("This trace isn't this log's: "), True)
    bad = folder / "refused.out"
    for text, message in [("TRACE 3 OUTOFRANGE\nSTATUS 2\n", "its line 3 has an error"),
                          ("TRACE UNFINISHED\nSTATUS 2\n", "ends before its END line"),
                          ("STATUS 1\n", "only the line STATUS 1"), ("", "is empty")]:
        bad.write_text(text)
        page.browser.type("#files", str(bad))
        page.wait(f"return document.getElementById('trouble').textContent.includes({message!r})", "the fault is told")
        page.same("nothing is lost", page.browser.run("return Session.run.length"), 23)


def test_large(page, folder):
    """Of a large machine a frame is named under the mouse and where the focus is."""
    trace = folder / "large.trace"
    trace.write_text("VMTRACE 1\nFRAMES 400\nPAGEFILE 4\nPROCESS A 4 4 4 0\nMAPZERO A 00000000 1 UW\nBODY\n"
                     "A R1 00000000\nEND\n")
    page.load(trace)
    page.go(1)
    page.same("a letter", page.items("[data-frame='0'] .letter"), ["A"])
    page.browser.run("document.querySelector('[data-frame=\"0\"]').focus()")
    page.same("named", page.browser.text("#frame-name").startswith("F0 ACTIVE A/00000000"), True)
    press(page, ALT + RIGHT)
    page.same("the next one named", page.browser.text("#frame-name").startswith("F1 FREE"), True)


def test_print(page):
    """On paper there is the line with its words, frames and working sets, and no button."""
    show_example(page, "swapping", 35)
    page.browser.command("Emulation.setEmulatedMedia", media="print", features=[])
    seen = "return document.querySelector(arguments[0]).offsetParent !== null"
    for part, there in [("#what", True), ("#frames", True), ("#rings", True), (".bar button", False),
                        ("#trace", False), ("#report", False)]:
        page.same(f"{part} on paper", page.browser.run(seen, part), there)
    page.browser.command("Emulation.setEmulatedMedia", media="", features=[])


def test_looks(page, here, folder):
    test_messages(page, here, folder)
    test_keys(page, here)
    test_names(page)
    test_changes(page)
    test_large(page, folder)
    test_print(page)
    test_still(page)
    test_colours(page)
    test_projector(page)
    test_phone(page)
    test_jumps(page)
    test_screens(page)
    test_eyes(page)
