"use strict";
// Draws memory: the frames, how many are in each state, and the two lists as queues. What a step changes
// is shown as a change: what was there before stands beside what is there now, struck through.
(function (Player) {
  const ROOMY_FRAMES = 64;
  const SMALL_FRAMES = 256;
  const LIST_HEAD = 240;
  const LIST_TAIL = 40;
  const QUEUE_ROWS = 3;
  const MEMBER_LETTERS = 12.5;
  const LETTERS = { FREE: "F", MODIFIED: "M", BAD: "X", RELEASE: "L", READERROR: "E", WRITING: "W",
    READING: "R", ACTIVE: "A" };
  const shown = { frames: [], keys: [], fresh: new Set(), numbers: null, perRow: 4 };

  function element(id) {
    return document.getElementById(id);
  }

  function make(tag, text, className) {
    const node = document.createElement(tag);
    if (text) {
      node.textContent = text;
    }
    if (className) {
      node.className = className;
    }
    return node;
  }

  // Fills a box, unless what it is filled with is what is there: the key says all that is drawn.
  const filled = new WeakMap();
  function fill(box, key, nodes) {
    if (filled.get(box) !== key) {
      filled.set(box, key);
      box.replaceChildren(...nodes());
    }
  }

  // Fills a box with a node for each item. The key says all that is drawn of an item: where it is the same
  // as before, the node stays.
  const patched = new WeakMap();
  function patch(box, items, keyOf, nodeOf) {
    const before = patched.get(box) || [];
    const keys = items.map(keyOf);
    keys.forEach((key, i) => {
      if (i >= before.length) {
        box.append(nodeOf(items[i]));
      } else if (before[i] !== key) {
        box.children[i].replaceWith(nodeOf(items[i]));
      }
    });
    for (let i = before.length; i > keys.length; i -= 1) {
      box.lastElementChild.remove();
    }
    patched.set(box, keys);
  }

  // An address with its page number behind it, where numbers are wished.
  function numbered(address) {
    return Session.numbers ? `${address} (${Player.pageNumber(address)})` : address;
  }

  // A page's name, with the number of a private page where numbers are wished.
  function pageName(page) {
    return Player.isPrivate(page) ? page.slice(0, 2) + numbered(page.slice(2)) : page;
  }

  // Puts a change of a text: what was, struck through, and what is.
  function putChange(node, was, is) {
    if (was && was !== is) {
      node.append(make("del", was), " ");
    }
    node.append(make("span", is || ""));
  }

  // ---- frames ----

  function frameText(frame, f) {
    const marks = frame.page ? `${pageName(frame.page)}, ${frame.modify ? "modified" : "unmodified"}, refs ${
      Player.refsOf(frame)}, shares ${frame.shares}${frame.flight ? `, transfer ${frame.flight}` : ""}` : "";
    return `F${f} ${frame.state} ${marks}`.trim();
  }

  function frameFoot(frame, before) {
    if (before && before.state !== frame.state) {
      return `was ${before.state}`;
    }
    const number = Session.numbers && frame.page && Player.isPrivate(frame.page)
      ? String(Player.pageNumber(frame.page.slice(2))) : "";
    return [number, frame.page && frame.modify ? "modified" : "", frame.shares > 1 ? `shares ${frame.shares}` : "",
      frame.pins ? "locked" : ""].filter(Boolean).join(", ");
  }

  function drawFrame(cell, frame, f, before) {
    cell.className = `frame ${frame.state}`;
    const head = make("span", "", "head");
    head.append(make("b", `F${f}`), make("i", LETTERS[frame.state], "letter"), make("em", frame.state));
    const page = make("span", "", "page");
    const pageWas = before && before.page !== frame.page ? before.page : "";
    putChange(page, pageWas, frame.page);
    cell.replaceChildren(head, page, make("span", frameFoot(frame, before), "foot"));
    cell.title = frameText(frame, f);
    cell.setAttribute("aria-label", before ? `${cell.title}; before this step: ${frameText(before, f)}` : cell.title);
  }

  function makeFrames(box, count) {
    box.replaceChildren(...Array.from({ length: count }, (unused, f) => {
      const cell = make("div");
      Object.assign(cell.dataset, { frame: f, place: `frame:${f}` });
      cell.setAttribute("role", "listitem");
      cell.tabIndex = f === 0 ? 0 : -1;
      return cell;
    }));
    box.className = count > SMALL_FRAMES ? "small" : count > ROOMY_FRAMES ? "close" : "";
    forgetFrames();
  }

  function forgetFrames() {
    Object.assign(shown, { frames: [], keys: [], fresh: new Set() });
  }

  // All that is drawn of a frame.
  function frameKey({ state, page, modify, shares, flight, pins }) {
    return `${state} ${page} ${modify} ${shares} ${flight} ${pins}`;
  }

  function drawFrames({ state, changes, here }) {
    const box = element("frames");
    if (box.children.length !== state.frames.length) {
      makeFrames(box, state.frames.length);
    }
    const changed = new Map(changes ? changes.frames.map((f) => [f, changes.before.frames[f]]) : []);
    state.frames.forEach((frame, f) => {
      if (shown.frames[f] === frame && !shown.fresh.has(f) && !changed.has(f)) {
        return;
      }
      const key = frameKey(frame) + (changed.has(f) ? frameKey(changed.get(f)) : "");
      shown.frames[f] = frame;
      if (shown.keys[f] !== key || shown.fresh.has(f)) {
        shown.keys[f] = key;
        drawFrame(box.children[f], frame, f, changed.get(f));
      }
    });
    changed.forEach((before, f) => box.children[f].classList.add("changed"));
    const marked = here.filter((f) => f >= 0 && f < state.frames.length);
    marked.forEach((f) => box.children[f].classList.add("here"));
    shown.fresh = new Set([...changed.keys(), ...marked]);
  }

  function drawCounts(state) {
    const counts = Player.countStates(state);
    fill(element("counts"), JSON.stringify(counts), () => Player.STATES.map((name) =>
      Object.assign(make("span", `${name} ${counts[name]}`, `swatch ${name}`),
        { title: `letter ${LETTERS[name]} where frames are drawn small` })));
  }

  // ---- lists ----

  // The nodes of a list, of which a long one is cut in the middle unless it is to be shown whole.
  function cutList(items, makeItem) {
    const cut = items.length > LIST_HEAD + LIST_TAIL && !element("whole-lists").checked;
    if (!cut) {
      return items.map(makeItem);
    }
    const between = items.length - LIST_HEAD - LIST_TAIL;
    return [...items.slice(0, LIST_HEAD).map(makeItem), make("li", `${between} more between`, "gap"),
      ...items.slice(-LIST_TAIL).map(makeItem)];
  }

  function queueItem(state, f, className) {
    const node = make("li", "", className);
    const page = state.frames[f].page;
    node.append(make("b", `F${f}`), page ? ` ${pageName(page)}` : "");
    node.dataset.place = `list:${f}`;
    return node;
  }

  // How many members of a list are about a row of it; measured when its width changes, and not at each step.
  function measureRow() {
    const box = element("free");
    const type = parseFloat(getComputedStyle(box).fontSize) || 13;
    shown.perRow = Math.max(1, Math.floor((box.clientWidth || 400) / (type * MEMBER_LETTERS)));
  }

  function queueNodes({ state, changes }, name, change) {
    const fresh = new Set(change.joined);
    const nodes = cutList(state[name], (f) => queueItem(state, f, fresh.has(f) ? "joined" : ""));
    change.left.slice(0, LIST_TAIL).forEach(({ f, place }) => {
      const ghost = queueItem(changes.before, f, "left");
      ghost.setAttribute("aria-label", `F${f} left the list`);
      nodes.splice(Math.min(place, nodes.length), 0, ghost);
    });
    return nodes.length ? nodes : [make("li", "empty", "gap")];
  }

  // A queue from its head on: who joined in this step is marked, and who left is still to be seen.
  function drawQueue(view, name, most) {
    const { state } = view;
    const box = element(name);
    const change = view.changes ? view.changes.lists[name] : { left: [], joined: [] };
    const key = [state[name].map((f) => f + state.frames[f].page), change.joined, JSON.stringify(change.left),
      Session.numbers, element("whole-lists").checked].join(";");
    fill(box, key, () => queueNodes(view, name, change));
    box.style.setProperty("--rows", String(Math.max(1, Math.min(QUEUE_ROWS, Math.ceil((most + 1) / shown.perRow)))));
    element(`${name}-length`).textContent = `${state[name].length}, from head to tail`;
  }

  // Takes away what a run before had and this one hasn't.
  Player.clearViews = function (config) {
    element("frame-name").textContent = "";
    Player.clearProcesses(config.processes.length);
  };

  Player.drawMemory = function (view) {
    if (shown.numbers !== Session.numbers) {
      shown.numbers = Session.numbers;
      forgetFrames();
    }
    drawFrames(view);
    drawCounts(view.state);
    drawQueue(view, "free", view.most.free);
    drawQueue(view, "modified", view.most.modified);
  };

  // ---- frames by keys and mouse ----

  function rowOfFrames() {
    const cells = [...element("frames").children];
    const top = cells.length ? cells[0].offsetTop : 0;
    const row = cells.findIndex((cell) => cell.offsetTop !== top);
    return row < 1 ? 1 : row;
  }

  // Goes from the frame that has the focus to another one, with Alt and an arrow key.
  Player.stepFrame = function (event) {
    const cell = event.target.closest && event.target.closest("[data-frame]");
    const row = cell ? rowOfFrames() : 1;
    const step = { ArrowLeft: -1, ArrowRight: 1, ArrowUp: -row, ArrowDown: row }[event.key];
    const next = cell && event.altKey && step
      ? element("frames").children[Number(cell.dataset.frame) + step] : null;
    if (next) {
      next.focus();
    }
    return Boolean(cell && event.altKey && step);
  };

  // The name of the frame under the mouse, or of the one that has the focus, where frames are drawn small.
  function nameFrame(event) {
    const cell = event.target.closest("[data-frame]");
    if (cell && element("frames").classList.contains("small")) {
      element("frame-name").textContent = cell.title;
    }
  }

  Player.startViews = function () {
    new ResizeObserver(measureRow).observe(element("free"));
    ["mouseover", "focusin"].forEach((kind) => element("frames").addEventListener(kind, nameFrame));
    element("frames").addEventListener("click", (event) => {
      const cell = event.target.closest("[data-frame]");
      if (cell) {
        element("about-what").value = `F${cell.dataset.frame}`;
      }
    });
  };

  Object.assign(Player, { make, element, fill, patch, numbered, pageName, cutList });
})(globalThis.Player = globalThis.Player || {});
