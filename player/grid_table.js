"use strict";
// Draws grids as one table: references across, slots or frames down, in one band for each run. Of a long
// run the part in view is drawn. One cell has the focus; arrow keys go on from it.
(function (Player) {
  const { make } = Player.panelParts;
  const BESIDE = 6;
  // A grid of at most so many cells is drawn whole; and with so many, all its rows are.
  const MOST_CELLS = 400;
  const MOST_TALL_CELLS = 1500;
  const ROWS_AT_FIRST = 30;

  // ---- the table ----
  // A row that is drawn: its node, the node behind its last cell, and its cells by their columns, each with
  // its node and with what was drawn of it. Of a table of the same shape only cells that look otherwise than
  // before are drawn anew.

  function gap() {
    const node = make("td", "gap");
    node.setAttribute("aria-hidden", "true");
    return node;
  }

  function newRow(view, r) {
    const row = view.rows[r - 1];
    const node = make("tr", r === 0 ? "refs" : row.kind);
    node.setAttribute("aria-rowindex", r + 1);
    node.classList.toggle("last", r > 0 && Boolean(row.last));
    if (r > 0 && row.kind === "title") {
      node.append(make("th", "", make("span")));
      return { node, end: null, cells: new Map() };
    }
    const name = make("th", "name", ...(r === 0
      ? [make("small", "", "request"), make("b", "", "page"), make("i", "", "access")] : [make("span", "", row.name)]));
    name.scope = r === 0 ? "col" : "row";
    const end = gap();
    node.append(name, gap(), end);
    return { node, end, cells: new Map() };
  }

  // Where a cell leads, and what is said of it.
  function putWords(drawn, { line, label }) {
    if (drawn.line !== line) {
      drawn.line = line;
      drawn.node.dataset.line = line || "";
    }
    if (drawn.label !== label) {
      drawn.label = label;
      drawn.node.setAttribute("aria-label", label);
      drawn.node.removeAttribute("title");
    }
  }

  function newCell(cell, look, r, at) {
    const node = make(cell.tag, cell.className, ...cell.parts.map(([tag, className, text]) => make(tag, className, text)));
    if (cell.tag === "th") {
      node.scope = "col";
    }
    node.dataset.row = r;
    node.dataset.column = at;
    node.setAttribute("aria-colindex", at + 2);
    const drawn = { node, look, line: 0, label: "" };
    putWords(drawn, cell);
    return drawn;
  }

  function drawCell(view, drawn, r, at) {
    const cell = Player.gridCell(view, r, at);
    const look = `${cell.className}|${cell.parts.join("|")}`;
    if (drawn && drawn.look === look) {
      putWords(drawn, cell);
      return drawn;
    }
    return newCell(cell, look, r, at);
  }

  function drawRow(view, row, r) {
    if (!row.end) {
      row.node.firstChild.colSpan = view.to - view.from + 3;
      row.node.firstChild.firstChild.textContent = view.rows[r - 1].name;
      return;
    }
    const outside = [...row.cells.keys()].filter((at) => at < view.from || at >= view.to);
    outside.forEach((at) => {
      row.cells.get(at).node.remove();
      row.cells.delete(at);
    });
    let next = row.end;
    for (let at = view.to - 1; at >= view.from; at -= 1) {
      const before = row.cells.get(at);
      const drawn = drawCell(view, before, r, at);
      if (drawn !== before) {
        row.cells.set(at, drawn);
        next.before(drawn.node);
        if (before) {
          before.node.remove();
        }
      }
      next = drawn.node;
    }
  }

  function drawColumns(view) {
    const widths = [view.headWidth, view.from * view.cellWidth,
      ...new Array(view.to - view.from).fill(view.cellWidth), (view.count - view.to) * view.cellWidth];
    while (view.columns.children.length > widths.length) {
      view.columns.lastChild.remove();
    }
    widths.forEach((width, i) => {
      const node = view.columns.children[i] || view.columns.appendChild(make("col"));
      node.style.width = `${width}px`;
    });
  }

  // A row of the height of those that aren't drawn.
  function spacer(view, rows) {
    const node = make("tr", "spacer", make("td"));
    node.setAttribute("aria-hidden", "true");
    node.firstChild.style.height = `${rows * view.rowHeight}px`;
    return node;
  }

  // The numbers of the rows that are drawn: the head, those in view, and the results at the end.
  function rowNumbers(view) {
    const last = view.rows.length;
    const numbers = [0];
    for (let r = 1 + view.top; r <= view.bottom; r += 1) {
      numbers.push(r);
    }
    return view.bottom < last ? [...numbers, last] : numbers;
  }

  function layRows(view) {
    const last = view.rows.length;
    view.drawn = new Map(rowNumbers(view).map((r) => [r, newRow(view, r)]));
    const nodes = [...view.drawn.values()].slice(1).map((row) => row.node);
    if (view.top > 0) {
      nodes.unshift(spacer(view, view.top));
    }
    if (view.bottom < last - 1) {
      nodes.splice(nodes.length - 1, 0, spacer(view, last - 1 - view.bottom));
    }
    view.table.replaceChildren(view.columns, make("thead", "", view.drawn.get(0).node), make("tbody", "", ...nodes));
  }

  // What makes a table another one: its rows, and which of them are drawn how high.
  function shapeOf(view) {
    return [view.frames, view.top, view.bottom, view.rowHeight,
      ...view.rows.map(({ kind, name }) => kind + (kind === "title" ? "" : name))].join();
  }

  function drawTable(view) {
    view.bands.forEach((band) => {
      band.held = Player.gridWindow(band.grid, view.from, view.to, view.frames);
    });
    view.rows = Player.gridRows(view);
    view.table.style.width = `${view.headWidth + view.count * view.cellWidth}px`;
    view.table.setAttribute("aria-rowcount", view.rows.length + 1);
    view.table.setAttribute("aria-colcount", view.count + 1);
    const { focused } = view;
    drawColumns(view);
    const shape = shapeOf(view);
    if (view.shape !== shape) {
      view.shape = shape;
      layRows(view);
    }
    view.drawn.forEach((row, r) => drawRow(view, row, r));
    view.focused = focused;
    showHere(view);
    placeFocus(view);
  }

  // The cells of the column of the line that is shown.
  function showHere(view) {
    const nodes = [...view.drawn.values()].map((row) => row.cells.get(view.here)).filter(Boolean).map(({ node }) => node);
    view.hereNodes.filter((node) => !nodes.includes(node)).forEach((node) => node.classList.remove("here"));
    nodes.forEach((node) => node.classList.add("here"));
    view.hereNodes = nodes;
  }

  // ---- the part in view ----

  function measure(view) {
    ["middle", "wide"].forEach((name) => view.scroll.classList.toggle(name, view.width === name));
    view.measured = view.width;
    const probe = make("div", "probe");
    view.scroll.append(probe);
    const style = getComputedStyle(probe);
    view.cellWidth = Math.max(8, parseFloat(style.width));
    view.rowHeight = Math.max(8, parseFloat(style.height));
    view.headWidth = parseFloat(style.marginLeft);
    probe.remove();
  }

  // Where the box stands and how large it is: noted when the browser tells it, since to ask it after a
  // change makes it lay out the page at once.
  function noteBox(view) {
    const { scrollLeft, clientWidth, scrollTop, clientHeight } = view.scroll;
    Object.assign(view.box, { left: scrollLeft, top: scrollTop, width: clientWidth, height: clientHeight });
  }

  // The columns and rows that have to be there for what is in view.
  function rangeOf(view) {
    const rows = Player.gridRows(view).length;
    const { left, width, top, height } = view.box;
    if (view.count * rows <= MOST_CELLS) {
      return { from: 0, to: view.count, top: 0, bottom: rows };
    }
    const from = Math.max(0, Math.floor(Math.min(left / view.cellWidth, view.count - width / view.cellWidth)) - BESIDE);
    const to = Math.min(view.count, Math.ceil((left + width) / view.cellWidth) + BESIDE);
    if ((to - from) * rows <= MOST_TALL_CELLS || view.bands.length > 1) {
      return { from, to, top: 0, bottom: rows };
    }
    const first = Math.max(0, Math.floor(top / view.rowHeight) - BESIDE);
    const high = height || view.rowHeight * ROWS_AT_FIRST;
    return { from, to, top: first, bottom: Math.min(rows, Math.ceil((top + high) / view.rowHeight) + BESIDE) };
  }

  // Draws the part in view, where it isn't drawn yet.
  function drawView(view, always) {
    view.waiting = 0;
    if (!view.count) {
      return;
    }
    const range = rangeOf(view);
    const whole = (from, to, size, a, b) => (a <= Math.max(0, from + BESIDE - 1) || a === 0) &&
      (b >= Math.min(size, to - BESIDE + 1) || b === size);
    const drawn = !always && whole(range.from, range.to, view.count, view.from, view.to) &&
      whole(range.top, range.bottom, view.rows.length, view.top, view.bottom);
    if (!drawn) {
      Object.assign(view, range);
      drawTable(view);
    }
  }

  function drawSoon(view) {
    if (!view.waiting) {
      view.waiting = requestAnimationFrame(() => drawView(view, false));
    }
  }

  // Scrolls so far that a column, or a row too, can be seen.
  function reveal(view, at, r) {
    const { scroll, cellWidth, rowHeight, headWidth, box } = view;
    if (!box.width) {
      return;
    }
    const left = at * cellWidth;
    const room = box.width - headWidth;
    if (left < box.left || left + cellWidth > box.left + room) {
      scroll.scrollLeft = Math.max(0, left - room / 3);
      noteBox(view);
    }
    const top = r === undefined ? 0 : (r - 1) * rowHeight;
    if (r > 0 && (top < box.top || top + 3 * rowHeight > box.top + box.height)) {
      scroll.scrollTop = Math.max(0, top - box.height / 3);
      noteBox(view);
    }
    drawView(view, false);
  }

  // ---- focus ----

  function nodeAt(view, [r, at]) {
    const cell = view.drawn.has(r) && view.drawn.get(r).cells.get(at);
    return cell ? cell.node : null;
  }

  // The focus stays on its cell where the table is drawn anew; one cell can be reached by Tab.
  function placeFocus(view) {
    const node = nodeAt(view, view.focus) || view.table.querySelector("[data-column]");
    if (!node) {
      return;
    }
    const before = view.reached;
    view.reached = node;
    node.setAttribute("tabindex", 0);
    if (view.focused && document.activeElement !== node) {
      node.focus({ preventScroll: true });
    }
    if (before && before !== node) {
      before.removeAttribute("tabindex");
    }
  }

  function focusOn(view, r, at) {
    view.focus = [r, at];
    view.focused = true;
    reveal(view, at, r);
    view.focused = true;
    placeFocus(view);
  }

  function nextRow(view, r, step) {
    let next = r + step;
    while (next > 0 && next <= view.rows.length && view.rows[next - 1].kind === "title") {
      next += step;
    }
    return next >= 0 && next <= view.rows.length ? next : r;
  }

  function stepFocus(view, event) {
    const [r, at] = view.focus;
    const page = Math.max(1, Math.floor((view.box.width - view.headWidth) / view.cellWidth));
    const steps = { ArrowLeft: [0, -1], ArrowRight: [0, 1], PageUp: [0, -page], PageDown: [0, page],
      Home: [0, -at], End: [0, view.count - 1 - at], ArrowUp: [-1, 0], ArrowDown: [1, 0] };
    const step = steps[event.key];
    if (!step || event.altKey || event.metaKey) {
      return false;
    }
    focusOn(view, step[0] ? nextRow(view, r, step[0]) : r,
      Math.max(0, Math.min(view.count - 1, at + step[1])));
    return true;
  }

  function choose(view, node) {
    if (node && node.dataset.line) {
      view.focus = [Number(node.dataset.row), Number(node.dataset.column)];
      view.go(Number(node.dataset.line), Number(node.dataset.column), node);
    }
  }

  // The page's own keys are for lines; a key that the grid takes doesn't reach it.
  function takeKey(view, event) {
    const chosen = event.key === "Enter" || event.key === " ";
    if (chosen) {
      choose(view, event.target.closest("[data-column]"));
    }
    if (chosen || stepFocus(view, event)) {
      event.preventDefault();
      event.stopPropagation();
    }
  }

  function listen(view) {
    view.table.addEventListener("click", (event) => choose(view, event.target.closest("[data-column]")));
    view.table.addEventListener("keydown", (event) => takeKey(view, event));
    view.table.addEventListener("pointerover", (event) => {
      const node = event.target.closest("[data-column]");
      if (node && !node.title) {
        node.title = node.getAttribute("aria-label") || "";
      }
    });
    view.table.addEventListener("focusin", (event) => {
      const node = event.target.closest("[data-column]");
      view.focused = true;
      view.focus = node ? [Number(node.dataset.row), Number(node.dataset.column)] : view.focus;
    });
    view.table.addEventListener("focusout", (event) => {
      view.focused = event.relatedTarget === null ? !document.hasFocus() : view.table.contains(event.relatedTarget);
    });
  }

  // What changes the part in view: scrolling, and another size of the box or of its type.
  function watch(view) {
    view.scroll.addEventListener("scroll", () => {
      noteBox(view);
      drawSoon(view);
    }, { passive: true });
    new ResizeObserver(() => {
      const before = view.cellWidth;
      const first = !view.box.width;
      measure(view);
      noteBox(view);
      drawView(view, view.cellWidth !== before);
      if (first && view.here >= 0) {
        reveal(view, view.here);
      }
    }).observe(view.scroll);
  }

  // Which width the names of pages need.
  function widthOf(shown) {
    const { config } = shown.bands.length ? shown.bands[0].grid.run : { config: { sections: new Map() } };
    const isLong = (column) => column.kind === "reference" && Player.pageNumber(column.address) > 9999;
    if (shown.byAddress || shown.frames && config.sections.size ||
      shown.bands.some((band) => band.grid.columns.some(isLong))) {
      return "wide";
    }
    return shown.frames && config.processes.length > 1 ? "middle" : "narrow";
  }

  // A whole grid as a plain table; a blank one has its references alone, to be filled in on paper.
  Player.plainGrid = function (grid, blank, caption) {
    const view = { bands: [{ grid, title: "" }], letter: grid.letter, count: grid.columns.length, from: 0,
      to: grid.columns.length, here: -1, marked: -1, frames: false, byAddress: false, blank };
    view.bands[0].held = Player.gridWindow(grid, 0, view.to, false);
    view.rows = Player.gridRows(view);
    const rows = [null, ...view.rows].map((unused, r) => {
      const row = newRow(view, r);
      drawRow(view, row, r);
      return row.node;
    });
    const table = make("table", "grid plain", make("caption", "unseen", caption), make("thead", "", rows[0]),
      make("tbody", "", ...rows.slice(1)));
    table.querySelectorAll(".gap").forEach((node) => node.remove());
    return make("div", "plain-box", table);
  };

  function showBands(view, shown) {
    Object.assign(view, { marked: -1, unlike: null }, shown);
    view.letter = view.bands.length ? view.bands[0].grid.letter : "";
    view.count = view.bands.reduce((most, band) => Math.max(most, band.grid.columns.length), 0);
    view.width = widthOf(view);
    view.focus = [Math.min(view.focus[0], 1), Math.min(view.focus[1], Math.max(0, view.count - 1))];
    view.here = Math.min(view.here, view.count - 1);
    view.scroll.hidden = view.count === 0;
    if (view.measured !== view.width) {
      measure(view);
    }
    drawView(view, true);
  }

  function markColumn(view, at) {
    view.here = at;
    if (at >= 0) {
      reveal(view, at);
    }
    showHere(view);
  }

  // A table in this box; `go` is called with the line of a cell that is chosen, and its column.
  Player.gridTable = function (box, label, go) {
    const table = make("table", "grid");
    Object.entries({ role: "grid", "aria-label": label, "aria-readonly": "true" })
      .forEach(([name, value]) => table.setAttribute(name, value));
    const scroll = make("div", "grid-scroll", table);
    const view = { scroll, table, go, bands: [], rows: [], count: 0, here: -1, marked: -1, focus: [0, 0],
      focused: false, from: 0, to: 0, top: 0, bottom: 0, frames: false, byAddress: false,
      box: { left: 0, top: 0, width: 0, height: 0 }, columns: make("colgroup"), drawn: new Map(), shape: "",
      hereNodes: [], reached: null };
    box.append(scroll);
    listen(view);
    watch(view);
    return {
      // Shows bands, each with a grid and a title; with `frames` frames down in place of slots.
      show: (shown) => showBands(view, shown),
      // Draws anew in another size of type.
      draw() {
        measure(view);
        drawView(view, true);
      },
      // Marks the column of the line that is shown, and scrolls to it.
      mark: (at) => markColumn(view, at),
    };
  };
})(globalThis.Player = globalThis.Player || {});
