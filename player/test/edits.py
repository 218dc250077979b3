"""Tests the editor of the page: a trace that runs as it is written, errors at their words, undo, what a
reload and a link bring back, long runs in the background, and files that are saved."""

import time

from figures import four_programs

UNDO, REDO, SHIFT, CONTROL, ESCAPE = "z", "z", "\ue008", "\ue009", "\ue00c"
FIRST_RUN = """VMTRACE 1
FRAMES 8
PAGEFILE 4
PROCESS A 4 4 4 0
MAPZERO A 00000000 4 UW
BODY
A W4 00000000 0000002A
A R4 00000000
A R1 00000800
END
"""
WRITE = """
const field = document.getElementById("trace");
field.focus();
field.setRangeText(arguments[0], arguments[1], arguments[2], "end");
field.dispatchEvent(new InputEvent("input", { bubbles: true }));
"""
SAVED = """
const [button, done] = arguments;
const click = HTMLAnchorElement.prototype.click;
HTMLAnchorElement.prototype.click = function () {
  HTMLAnchorElement.prototype.click = click;
  done(this.download);
};
document.querySelector(button).click();
"""


def text_of(page):
    return page.browser.run("return document.getElementById('trace').value")


def write(page, text, start=0, end=None):
    """Puts a text into the editor's field as a key does."""
    page.browser.run(WRITE, text, start, len(text_of(page)) if end is None else end)


def log_of(page):
    return page.browser.run("return Session.run.records.map((one) => one.text)")


def held(page, keys):
    """Presses keys of which the first are held."""
    steps = [{"type": "keyDown", "value": key} for key in keys]
    steps += [{"type": "keyUp", "value": key} for key in reversed(keys)]
    page.browser.ask("POST", "/actions", {"actions": [{"type": "key", "id": "keys", "actions": steps}]})


def test_writing(page):
    """Each key runs the trace, in the program itself: its log is the one of examples/."""
    page.open()
    write(page, FIRST_RUN)
    out = (page.examples / "first-run.out").read_text().splitlines()
    page.same("the log of the program", log_of(page), out)
    page.has("said", page.browser.text("#ran"), "3 references, 1 faults, 10 lines")
    page.same("it is one's own", page.browser.run("return document.getElementById('example').value"), "")
    at = FIRST_RUN.index("0000002A") + 7
    page.browser.run("const field = document.getElementById('trace'); field.focus();"
                     "field.setSelectionRange(arguments[0], arguments[0] + 1)", at)
    page.browser.press("B")
    page.same("one key, one run", log_of(page)[1], "2 A DONE W4 00000000 0000002B")
    page.same("the editor's keys don't step", page.browser.run("return document.activeElement.id"), "trace")
    page.browser.press(ESCAPE)
    page.browser.press("\ue011\ue014\ue014")
    page.same("after Escape they do", page.browser.text("#text"), "2 A DONE W4 00000000 0000002B")
    page.same("its request is marked", page.items("#gutter .here"), ["7"])
    page.browser.click("#gutter [data-row='9']")
    page.same("a number of a line leads to its run", page.browser.text("#text"), "4 A DENIED R1 00000800 UNMAPPED")


def test_new_request(page):
    """A request that is written at the end is shown at its answer; any other change leaves the step where it is."""
    page.open()
    write(page, FIRST_RUN)
    page.go(1)
    longer = FIRST_RUN.replace("END", "A R4 00000004\nEND")
    for name, text, line in [
            ("half of it has an error", FIRST_RUN.replace("END", "A R\nEND"), "1 A ZERO 00000000 F0"),
            ("a request at the end", longer, "5 A DONE R4 00000004 00000000"),
            ("another address", longer.replace("R4 00000004", "R1 00000200"), "6 A DONE R1 00000200 00"),
            ("it is taken away", FIRST_RUN, "FREE 7 MODIFIED 0 BAD 0 RELEASE 0 READERROR 0 WRITING 0 READING 0 ACTIVE 1"),
            ("again", longer, "5 A DONE R4 00000004 00000000"),
            ("a comment at the end", longer.replace("END", "! more\nEND"), "5 A DONE R4 00000004 00000000"),
            ("a request at the begin", longer.replace("BODY", "BODY\nA R1 00000001"), "5 A DENIED R1 00000800 UNMAPPED"),
            ("a frame more", longer.replace("FRAMES 8", "FRAMES 9"), "5 A DONE R4 00000004 00000000")]:
        write(page, text)
        page.same(f"{name}: the step", page.browser.text("#text"), line)
    page.same("its request is marked", page.items("#gutter .here"), ["10"])


def test_errors(page):
    """An error is marked at its word, and the run before it stays."""
    page.open()
    write(page, FIRST_RUN)
    for old, new, line, said, width in [
            ("MAPZERO A 00000000", "MAPZERO A 00000001", "5", "\"00000001\": the address isn't a multiple", 8),
            ("4 UW", "4 RW", "5", "\"RW\"", 2), ("A R4", "B R4", "8", "\"B\"", 1),
            ("FRAMES 8", "FRAMES 7", "2", "\"7\": a number", 1), ("BODY\n", "", "6", "doesn't belong here", None),
            ("END\n", "", "10", "ends before its line END", None)]:
        write(page, FIRST_RUN.replace(old, new))
        page.has(f"{new!r} is said", page.browser.text("#ran"), said)
        page.same(f"{new!r} is marked", page.items("#gutter .error"), [line])
        page.same(f"{new!r} keeps the run", log_of(page)[0], "1 A ZERO 00000000 F0")
        found = page.browser.run("return document.querySelector('#marks .word').style.width")
        page.same(f"{new!r} has its word", width is None or found == f"{width}ch", True)
    page.same("told to a screen reader", page.browser.run(
        "return document.getElementById('trace').getAttribute('aria-invalid')"), "true")
    write(page, FIRST_RUN)
    page.same("mended", page.items("#gutter .error"), [])


def test_undo(page):
    page.open()
    page.wait("return Session.run", "the first example stands")
    first = text_of(page)
    page.browser.run("const list = document.getElementById('example'); list.value = 'swapping';"
                     "list.dispatchEvent(new Event('change'))")
    page.wait("return Session.run.config.processes.length === 3", "the example stands")
    write(page, "! mine\n", 10, 10)
    mine = text_of(page)
    page.browser.click("#undo")
    page.same("the key is undone", page.browser.run("return document.getElementById('example').value"), "swapping")
    page.browser.click("#undo")
    page.same("the example is undone", text_of(page), first)
    page.same("with its run", page.browser.run("return Session.run.config.processes.length"), 1)
    page.browser.click("#redo")
    page.browser.run("document.getElementById('trace').focus()")
    held(page, [CONTROL, SHIFT, REDO])
    page.same("redone by keys", text_of(page), mine)
    held(page, [CONTROL, UNDO])
    page.same("undone by keys", "! mine" in text_of(page), False)


def test_kept(page):
    """A reload brings text and line back; a link's trace leaves what was there to undo."""
    page.open()
    write(page, FIRST_RUN.replace("2A", "77"))
    page.go(2)
    time.sleep(0.5)
    page.open(keep=True)
    page.wait("return Session.run", "it stands again")
    page.same("the text is back", "00000077" in text_of(page), True)
    page.same("and the line", page.browser.text("#text"), "2 A DONE W4 00000000 00000077")
    page.open("#example=swapping&line=35", keep=True)
    page.wait("return Session.run && Session.line === 35", "a link's line")
    page.browser.click("#undo")
    page.same("what was there is not lost", "00000077" in text_of(page), True)


def test_kept_long(page):
    page.open()
    page.wait("return Session.run", "the first example stands")
    long = FIRST_RUN.replace("END\n", "A R4 00000000\n" * 40_000 + "END\n")
    page.browser.run("Player.editor.change({ text: arguments[0] }, false)", long)
    page.wait("return Session.run.length > 40000", "a long trace runs", 60)
    time.sleep(1.5)
    page.open(keep=True)
    page.wait("return Session.run && Session.run.length > 40000", "a long trace is back too", 60)
    page.same("whole", len(text_of(page)), len(long))


def test_link(page):
    page.open()
    text = FIRST_RUN.replace("2A", "55")
    write(page, text)
    page.go(3)
    page.browser.click("#link")
    page.wait("return document.getElementById('link-text').value", "the link is made")
    link = page.browser.run("return document.getElementById('link-text').value")
    page.same("the address has it", page.browser.run("return location.href"), link)
    page.open("#" + link.split("#")[1])
    page.wait("return Session.run && Session.line === 3", "the link's trace stands")
    page.same("the trace of a link", text_of(page), text)
    page.open("#trace=AAAA&line=3")
    page.has("a damaged link", page.browser.text("#trouble"), "The link's trace is damaged")
    page.open("#example=nothing")
    page.has("no such example", page.browser.text("#trouble"), "There is no example \"nothing\"")
    page.open("#example=belady")
    page.go(9)
    page.wait("return location.hash === '#example=belady&line=9'", "the address follows")
    page.browser.run("location.hash = '#example=swapping&line=20'")
    page.wait("return Session.run.config.processes.length === 3 && Session.line === 20", "a changed link is followed")


def test_background(page, references=60_000):
    """A long trace runs in the background, says so, and can be stopped."""
    page.open()
    page.wait("return Session.run", "the first example stands")
    text = four_programs(references)
    page.browser.run("window.texts = []; new MutationObserver(() => texts.push(document.getElementById('ran').textContent))"
                     ".observe(document.getElementById('ran'), { childList: true });"
                     "Player.editor.change({ text: arguments[0] }, false)", text)
    page.wait(f"return Session.run.length > {references}", "the long run stands", 60)
    said = page.browser.run("return texts")
    page.same("it is said", any("in the background" in one for one in said), True)
    page.same("reading is said", any("Reading the log" in one for one in said), True)
    page.has("what it has", page.browser.text("#ran"), f"{references} references")
    before = page.browser.run("return Session.run.length")
    page.browser.run("Player.runInWorker = () => new Promise((ended, stopped) => { window.stopped = stopped; });"
                     "Player.stopWorker = () => window.stopped({ kind: 'stopped' });"
                     "Player.editor.change({ text: arguments[0] }, false)", text.replace("FRAMES 256", "FRAMES 255"))
    page.wait("return !document.getElementById('stop').hidden", "it can be stopped")
    page.browser.click("#stop")
    page.has("stopped", page.browser.text("#ran"), "The run was stopped. The trace is as it was.")
    page.same("the run before stays", page.browser.run("return Session.run.length"), before)
    page.has("the text stays", text_of(page)[:200], "FRAMES 255")


def test_without_program(page):
    """Where the program can't be loaded it is said, and a log can still be opened with its trace."""
    page.open()
    page.wait("return Session.run", "the first example stands")
    for kind, said in [("memory", "there is no memory"), ("trap", "the module ended the run")]:
        page.browser.run("Player.runHere = () => { throw Object.assign(new Error(arguments[1]), { kind: arguments[0] }); }"
                         .replace("arguments[0]", repr(kind)).replace("arguments[1]", repr(said)))
        write(page, FIRST_RUN)
        page.same(f"{kind} is said", page.browser.text("#ran"), f"{said}. The trace is as it was.")
        page.same(f"{kind} loses nothing", text_of(page), FIRST_RUN)
    page.browser.run("Player.runHere = () => ({ status: 7, output: 'STATUS 7\\n' })")
    write(page, FIRST_RUN)
    page.has("status 7", page.browser.text("#ran"), "more memory than there is")


def test_not_loaded(page):
    """Without the program a trace says why it doesn't run, and a log is still played."""
    page.open("#example=racing")
    page.wait("return Session.run", "the log stands")
    page.browser.run("Player.programTrouble = 'The program can\\'t run here.'")
    write(page, FIRST_RUN)
    page.same("it is said", page.browser.text("#ran"), "The program can't run here.")
    page.same("no other run is shown", page.browser.run("return document.getElementById('stage').hidden"), True)
    page.browser.click("#undo")
    page.wait("return Session.run && Session.run.length === 44", "the log is back")


def test_saving(page):
    page.open("#example=first-run")
    page.wait("return Session.run", "the example stands")
    for button, name in [("#save", "first-run.trace"), ("#save-log", "first-run.log")]:
        page.same(f"{button} saves a file", page.browser.wait_for(SAVED, button), name)


def test_lists(page):
    """All lessons and examples are in the list, and each runs to a report that agrees, or is as it says."""
    page.open()
    names = page.browser.run("return Player.EXAMPLES.map((one) => one.name)")
    page.same("as many in the list", page.browser.run("return document.querySelectorAll('#example optgroup option').length"),
              len(names))
    for name in names:
        page.browser.run("window.before = Session.run; const list = document.getElementById('example');"
                         "list.value = arguments[0]; list.dispatchEvent(new Event('change'))", name)
        page.wait("return Session.run !== before || Player.error", f"{name} runs")
        page.same(f"{name}: no trouble", page.browser.text("#trouble"), "")
        if name != "faulty-line":
            page.has(f"{name}: report", page.browser.text("#report"), "agrees")
            page.same(f"{name}: its line", page.browser.run(
                "return Session.line === Player.EXAMPLES.find((one) => one.name === arguments[0]).line", name), True)


def test_edits(page, folder):
    page.examples = page.here / ".." / ".." / "examples"
    test_writing(page)
    test_new_request(page)
    test_errors(page)
    test_undo(page)
    test_kept(page)
    test_kept_long(page)
    test_link(page)
    test_without_program(page)
    test_not_loaded(page)
    test_saving(page)
    test_lists(page)
    test_background(page)
