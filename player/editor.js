"use strict";
// The editor of the trace: lines with numbers, marks for an error and for the request that is shown, and undo
// over everything that changes the text: typing, an example, a file, a link.
(function (Player) {
  const PAUSE = 800;
  const MOST_STEPS = 200;
  const MOST_LETTERS = 20000000;
  const SPARE_ROWS = 4;
  const at = (id) => document.getElementById(id);
  const listeners = [];
  // What is edited: the trace; a log that was opened, or empty where the program makes it; the name of the
  // file or example, and the example that it still is.
  let current = { text: "", log: "", name: "", example: "" };
  const done = [];
  const undone = [];
  let typed = 0;
  let marks = { error: null, request: 0 };
  let rows = 1;
  let drawn = "";
  // What was measured last, so that a key needs no measuring.
  const seen = { row: 24, height: 300, top: 0, left: 0 };

  function trim(steps) {
    let letters = 0;
    for (let i = steps.length - 1; i >= 0; i -= 1) {
      letters += steps[i].text.length + steps[i].log.length;
      if (steps.length - i > MOST_STEPS || letters > MOST_LETTERS) {
        steps.splice(0, i + 1);
        return;
      }
    }
  }

  function place() {
    const field = at("trace");
    return { start: field.selectionStart, end: field.selectionEnd };
  }

  function take(next, typing) {
    current = next;
    if (at("trace").value !== next.text) {
      at("trace").value = next.text;
    }
    if (next.place && !typing) {
      at("trace").setSelectionRange(next.place.start, next.place.end);
    }
    at("undo").disabled = !done.length;
    at("redo").disabled = !undone.length;
    measure();
    listeners.forEach((call) => call(typing));
  }

  // Puts another text into the editor. Of one who types, what comes without a pause is one step of undo.
  function change(next, typing) {
    const now = Date.now();
    if (!typing || now - typed > PAUSE || !done.length) {
      done.push({ ...current, place: current.place || place() });
      trim(done);
    }
    typed = typing ? now : 0;
    undone.length = 0;
    take({ text: "", log: "", name: "", example: "", ...next }, typing);
  }

  function step(from, to) {
    if (from.length) {
      typed = 0;
      to.push({ ...current, place: place() });
      take(from.pop(), false);
    }
  }

  // ---- numbers and marks ----

  function measure() {
    rows = 1;
    for (let i = current.text.indexOf("\n"); i >= 0; i = current.text.indexOf("\n", i + 1)) {
      rows += 1;
    }
    at("editor").style.setProperty("--digits", String(Math.max(2, String(rows).length)));
    draw();
  }

  function look() {
    const field = at("trace");
    Object.assign(seen, { row: parseFloat(getComputedStyle(field).lineHeight) || 24, height: field.clientHeight,
      top: field.scrollTop, left: field.scrollLeft });
    draw();
  }

  function scrolled() {
    const field = at("trace");
    Object.assign(seen, { top: field.scrollTop, left: field.scrollLeft });
    draw();
  }

  function band(className, row, start, end) {
    const node = document.createElement("div");
    node.className = className;
    node.style.top = `${(row - 1) * seen.row - seen.top}px`;
    if (end) {
      node.style.left = `calc(${start}ch - ${seen.left}px)`;
      node.style.width = `${end - start}ch`;
    }
    return node;
  }

  function numberNode(row) {
    const node = document.createElement("span");
    node.textContent = String(row);
    node.dataset.row = row;
    node.style.top = `${(row - 1) * seen.row - seen.top}px`;
    node.classList.toggle("error", Boolean(marks.error) && marks.error.line === row);
    node.classList.toggle("here", marks.request === row);
    return node;
  }

  // Draws the numbers of the rows in sight, and the marks.
  function draw() {
    const first = Math.max(1, Math.floor(seen.top / seen.row) + 1 - SPARE_ROWS);
    const last = Math.min(rows, first + Math.ceil(seen.height / seen.row) + 2 * SPARE_ROWS);
    const { line, start, end } = marks.error || {};
    const key = [first, last, seen.top, seen.left, seen.row, marks.request, line, start, end].join();
    if (key === drawn) {
      return;
    }
    drawn = key;
    const numbers = [];
    for (let row = first; row <= last; row += 1) {
      numbers.push(numberNode(row));
    }
    at("gutter").replaceChildren(...numbers);
    const bands = marks.request ? [band("here", marks.request)] : [];
    if (marks.error) {
      bands.push(band("error", line), band("word", line, start, end));
    }
    at("marks").replaceChildren(...bands);
  }

  // Scrolls so that a row is in sight.
  function reveal(row) {
    const field = at("trace");
    const top = (row - 1) * seen.row;
    if (top < seen.top || top + seen.row > seen.top + seen.height) {
      field.scrollTop = Math.max(0, top - seen.height / 2);
      seen.top = field.scrollTop;
    }
  }

  function mark(next) {
    const moved = next.request && next.request !== marks.request;
    if (!moved && next.error === marks.error && next.request === marks.request) {
      return;
    }
    marks = { error: next.error || null, request: next.request || 0 };
    if (moved && document.activeElement !== at("trace")) {
      reveal(marks.request);
    }
    at("trace").setAttribute("aria-invalid", String(Boolean(marks.error)));
    draw();
  }

  // ---- keys ----

  function isUndo(event) {
    const key = event.key.toLowerCase();
    return (event.ctrlKey || event.metaKey) && !event.altKey && (key === "z" || key === "y");
  }

  function onKey(event) {
    if (isUndo(event)) {
      event.preventDefault();
      const back = event.key.toLowerCase() === "z" && !event.shiftKey;
      step(back ? done : undone, back ? undone : done);
    } else if (event.key === "Escape") {
      at("trace").blur();
    }
  }

  Player.startEditor = function () {
    const field = at("trace");
    field.addEventListener("input", () => change({ text: field.value, name: current.name }, true));
    field.addEventListener("scroll", scrolled, { passive: true });
    field.addEventListener("keydown", onKey);
    field.addEventListener("beforeinput", (event) => {
      if (event.inputType === "historyUndo" || event.inputType === "historyRedo") {
        event.preventDefault();
        step(...(event.inputType === "historyUndo" ? [done, undone] : [undone, done]));
      }
    });
    at("undo").addEventListener("click", () => step(done, undone));
    at("redo").addEventListener("click", () => step(undone, done));
    new ResizeObserver(look).observe(field);
    Session.write = (text) => change({ text, name: current.name }, true);
  };

  Player.editor = { change, mark, look, reveal,
    current: () => current,
    // What is there when the page opens: no step of undo leads before it.
    begin: (first) => take({ text: "", log: "", name: "", example: "", ...first }, false),
    onChange: (call) => listeners.push(call) };
})(globalThis.Player = globalThis.Player || {});
