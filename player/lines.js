"use strict";
// The lines of the log as a list in which only those in sight are drawn: a log of a hundred thousand lines
// scrolls as one of ten. A screen reader hears each line with its place among all.
(function (Player) {
  const { make, element } = Player;
  const SPARE_ROWS = 6;
  // What was measured last, so that a step needs no measuring.
  const seen = { row: 24, height: 200, top: 0 };
  let first = -1;
  let last = -1;

  function countInSight() {
    return Math.ceil(seen.height / seen.row);
  }

  function className(record, line) {
    const request = Player.requestOf(Session.run, line);
    const fault = request && request.faults.includes(line);
    return `${line === Session.line ? "here " : ""}${fault ? "fault " : ""}${
      record.kind === "EVICT" ? "evict" : ""}`.trim();
  }

  function row(line) {
    const record = Session.run.records[line - 1];
    const node = make("div", record.text, className(record, line));
    node.id = `line-${line}`;
    node.dataset.line = line;
    node.style.top = `${(line - 1) * seen.row}px`;
    node.setAttribute("role", "option");
    node.setAttribute("aria-posinset", String(line));
    node.setAttribute("aria-setsize", String(Session.run.length));
    node.setAttribute("aria-selected", String(line === Session.line));
    return node;
  }

  // All that is drawn of a line.
  function keyOf(line) {
    const record = Session.run.records[line - 1];
    return `${line} ${Session.run.length} ${seen.row} ${className(record, line)} ${record.text}`;
  }

  // Draws the rows in sight; unless all are to be drawn anew, only if others are in sight now.
  function draw(anew) {
    if (!Session.run) {
      return;
    }
    const from = Math.max(1, Math.floor(seen.top / seen.row) + 1 - SPARE_ROWS);
    const to = Math.min(Session.run.length, from + countInSight() + 2 * SPARE_ROWS);
    if (!anew && from === first && to === last) {
      return;
    }
    [first, last] = [from, to];
    const lines = Array.from({ length: to - from + 1 }, (unused, i) => from + i);
    Player.patch(element("lines-all"), lines, keyOf, row);
  }

  function reveal(line) {
    const top = (line - 1) * seen.row;
    if (top < seen.top || top + seen.row > seen.top + seen.height) {
      const box = element("lines");
      box.scrollTop = Math.max(0, top - seen.height / 2 + seen.row);
      seen.top = box.scrollTop;
    }
  }

  function showLine() {
    if (!Session.run) {
      return;
    }
    reveal(Session.line);
    draw(true);
    const box = element("lines");
    if (Session.line) {
      box.setAttribute("aria-activedescendant", `line-${Session.line}`);
    } else {
      box.removeAttribute("aria-activedescendant");
    }
  }

  function fit() {
    const height = `${(Session.run ? Session.run.length : 0) * seen.row}px`;
    if (element("lines-all").style.height !== height) {
      element("lines-all").style.height = height;
      seen.top = Math.max(0, Math.min(seen.top, parseFloat(height) - seen.height));
    }
  }

  function measure() {
    const box = element("lines");
    Object.assign(seen, { row: parseFloat(getComputedStyle(box).lineHeight) || 24, height: box.clientHeight,
      top: box.scrollTop });
    fit();
    showLine();
  }

  function onKey(event) {
    const step = { ArrowDown: 1, ArrowUp: -1, PageDown: countInSight(), PageUp: -countInSight() }[event.key];
    if (step && Session.run && !event.altKey && !event.ctrlKey) {
      event.preventDefault();
      Session.go(Session.line + step);
    }
  }

  Player.startLines = function () {
    const box = element("lines");
    box.append(Object.assign(make("div"), { id: "lines-all" }));
    element("lines-all").setAttribute("role", "presentation");
    box.addEventListener("scroll", () => {
      seen.top = box.scrollTop;
      draw(false);
    }, { passive: true });
    box.addEventListener("keydown", onKey);
    box.addEventListener("click", (event) => {
      const found = event.target.closest("[data-line]");
      if (found) {
        Session.go(Number(found.dataset.line));
      }
    });
    Session.on("run", fit);
    Session.on("line", showLine);
    Session.on("look", measure);
    new ResizeObserver(measure).observe(box);
  };
})(globalThis.Player = globalThis.Player || {});
