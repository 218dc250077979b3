"use strict";
// Draws the processes: each working set as its ring of slots with the hand, and the page table. A page
// that left in this step still stands in the slot that it left.
(function (Player) {
  const { make, element, fill, numbered } = Player;
  const ROOMY_PAGES = 48;
  const MOST_CELLS = 512;
  const MOST_SLOTS = 96;
  const ROOMY_SLOTS = 24;

  // Leaves so many cards.
  Player.clearProcesses = function (count) {
    while (element("rings").children.length > count) {
      element("rings").lastChild.remove();
    }
  };

  // ---- the ring ----

  function slotWords(slot, number) {
    const marks = `${slot.locked ? ", locked" : ""}${slot.pinned ? ", locked in memory" : ""}`;
    return `slot ${number}: page ${numbered(slot.address)} in frame F${slot.frame}${marks}`;
  }

  function fillSlot(node, slot) {
    const [big, small] = Session.numbers ? [Player.pageNumber(slot.address), slot.address]
      : [slot.address, ""];
    const page = make("b", String(big));
    page.classList.toggle("long", String(big).length > 4);
    node.append(make("span", `F${slot.frame}`, "in"), page, make("span", slot.pinned ? "in memory"
      : slot.locked ? "locked" : small));
    node.classList.toggle("locked", slot.locked);
    node.classList.toggle("pinned", slot.pinned);
  }

  function slotNode(process, number, { letter, known, change }) {
    const slot = process.slots[number];
    const node = make("li", "", slot ? "" : "empty");
    node.dataset.place = `slot:${letter}:${number}`;
    node.append(make("i", String(number)));
    const gone = change && change.before && !change.after ? change.before : null;
    if (slot) {
      fillSlot(node, slot);
    } else if (gone) {
      const ghost = make("del");
      fillSlot(ghost, gone);
      node.append(ghost);
      node.classList.add("gone");
    }
    const came = Boolean(change && change.after && !change.before);
    node.classList.toggle("came", came);
    const hand = known && number === process.hand;
    node.classList.toggle("hand", hand);
    node.setAttribute("aria-label", `${slot ? slotWords(slot, number) : `slot ${number}: empty`}${
      gone ? `; page ${numbered(gone.address)} has just left it` : ""}${came ? "; it has just come" : ""}${
      hand ? "; the hand stands here" : ""}`);
    return node;
  }

  // Which slots are drawn: all of a small ring; of a large one those that are filled, change, or have the
  // hand, and how many empty ones lie between.
  function slotsDrawn(process, changed) {
    const all = process.slots.length <= MOST_SLOTS;
    const found = [];
    let empty = 0;
    process.slots.forEach((slot, number) => {
      if (all || slot || number === process.hand || changed.has(number)) {
        found.push({ number, empty });
        empty = 0;
      } else {
        empty += 1;
      }
    });
    return { found, empty };
  }

  function ringNodes(process, p, config, changed) {
    const { found, empty } = slotsDrawn(process, changed);
    const nodes = [];
    found.forEach((one) => {
      if (one.empty) {
        nodes.push(make("li", `${one.empty} empty`, "gap"));
      }
      nodes.push(slotNode(process, one.number,
        { letter: Player.letter(p), known: config.known, change: changed.get(one.number) }));
    });
    if (empty) {
      nodes.push(make("li", `${empty} empty`, "gap"));
    }
    return nodes;
  }

  // ---- the page table ----

  const PLACES = {
    valid: "valid", FREE: "on the free list", MODIFIED: "on the modified list", WRITING: "being written",
    READING: "being read", RELEASE: "waiting for its transfer", READERROR: "its read failed",
    disk: "on disk", section: "in its section", zero: "never touched", ACTIVE: "valid for another process",
  };

  // Where the page at a process's page number is.
  function placeOf(state, p, number, slots) {
    const slot = slots.get(number);
    if (slot) {
      return { kind: "valid", where: `F${slot.frame}` };
    }
    const name = Player.pageAt(state, p, Player.pageAddress(number));
    const page = Player.pageOf(state, name);
    if (page.frame >= 0) {
      return { kind: state.frames[page.frame].state, where: `F${page.frame}` };
    }
    const map = state.maps[p].get(number);
    const paged = map.section && state.config.sections.get(map.section).kind === "PAGED";
    if (page.lies) {
      return { kind: "disk", where: page.lies };
    }
    return map.section && !paged && !(Player.isPrivate(name) && page.charged)
      ? { kind: "section", where: `S:${map.section}/${map.index}` } : { kind: "zero", where: "" };
  }

  function tableOf(state, p) {
    const slots = new Map(state.processes[p].slots.filter(Boolean)
      .map((slot) => [Player.pageNumber(slot.address), slot]));
    return [...state.maps[p].keys()].sort((a, b) => a - b)
      .map((number) => ({ number, ...placeOf(state, p, number, slots) }));
  }
  Player.tableOf = tableOf;

  function entryNode(entry, small) {
    const node = make("li", "", entry.kind === "valid" ? "valid" : `off ${entry.kind}`);
    node.title = `page ${entry.number} at ${Player.pageAddress(entry.number)}: ${PLACES[entry.kind]}${
      entry.where ? `, ${entry.where}` : ""}`;
    node.setAttribute("aria-label", node.title);
    if (!small) {
      node.append(make("b", Session.numbers ? String(entry.number) : Player.pageAddress(entry.number)),
        make("span", entry.kind === "zero" ? "zero" : entry.where));
    }
    return node;
  }

  // The cells of a page table; what it has all in all stands above it.
  function tableNodes(card, table) {
    const small = table.length > ROOMY_PAGES;
    const most = element("whole-lists").checked ? table.length : MOST_CELLS;
    const nodes = table.slice(0, most).map((entry) => entryNode(entry, small));
    if (table.length > most) {
      nodes.push(make("li", `${table.length - most} more`, "gap"));
    }
    card.children[3].className = small ? "table-cells small" : "table-cells";
    const counts = new Map();
    table.forEach(({ kind }) => counts.set(kind, (counts.get(kind) || 0) + 1));
    const said = table.length ? `${table.length} page${table.length === 1 ? "" : "s"} mapped: ${
      [...counts].map(([kind, count]) => `${count} ${PLACES[kind]}`).join(", ")}` : "no page mapped";
    card.children[2].textContent = small || !table.length ? `Page table: ${said}` : "Page table";
    card.children[2].title = said;
    card.children[3].setAttribute("aria-description", said);
    return nodes;
  }

  // ---- a process ----

  function titleNodes(process, p, before) {
    const letter = Player.letter(p);
    const fact = (key, text) => {
      const node = make("span", text);
      if (before && before[key] !== process[key]) {
        node.append(make("del", String(before[key])), " ");
      }
      node.append(make("b", String(process[key])));
      return node;
    };
    const faults = `${process.allFaults} fault${process.allFaults === 1 ? "" : "s"}`;
    const pages = `${process.count} page${process.count === 1 ? "" : "s"}`;
    return [make("b", letter, "letter"), fact("status", ""), make("span", pages), fact("limit", "limit "),
      make("span", faults)];
  }

  function cardOf(box, p) {
    if (!box.children[p]) {
      const card = make("div", "", "ring");
      card.append(make("h3"), make("ol", "", "slots"), make("p", "", "note"), make("ol", "", "table-cells"));
      card.children[1].setAttribute("aria-label", `Working set of process ${Player.letter(p)}`);
      card.children[3].setAttribute("aria-label", `Page table of process ${Player.letter(p)}`);
      box.append(card);
    }
    return box.children[p];
  }

  function changedSlots(changes, p) {
    return new Map(changes ? changes.slots.filter((one) => one.p === p).map((one) => [one.slot, one]) : []);
  }

  function slotKey(slot) {
    return slot ? `${slot.address}${slot.frame}${slot.locked}${slot.pinned}` : "";
  }

  // All that is drawn of a process, and before this step.
  function processKey(process, before) {
    const one = (all) => [all.status, all.limit, all.count, all.allFaults, all.hand, all.slots.map(slotKey)].join();
    return `${one(process)};${before ? one(before) : ""}`;
  }

  function drawProcess({ state, changes }, process, p) {
    const card = cardOf(element("rings"), p);
    const before = changes && changes.processes.includes(p) ? changes.before.processes[p] : null;
    const [title, ring] = card.children;
    const key = `${Session.numbers}${state.config.known}${processKey(process, before)}`;
    fill(title, key, () => titleNodes(process, p, before));
    fill(ring, key, () => ringNodes(process, p, state.config, changedSlots(changes, p)));
    ring.classList.toggle("many", process.slots.length > ROOMY_SLOTS);
    card.classList.toggle("away", process.status === "GONE");
  }

  function drawTable({ state }, p) {
    const card = element("rings").children[p];
    const table = state.config.known ? tableOf(state, p) : [];
    card.children[2].hidden = card.children[3].hidden = !state.config.known;
    const key = `${Session.numbers}${element("whole-lists").checked}${
      table.map(({ number, kind, where }) => number + kind + where).join()}`;
    fill(card.children[3], key, () => tableNodes(card, table));
  }

  Player.drawProcesses = function (view) {
    const { state } = view;
    state.processes.forEach((process, p) => {
      drawProcess(view, process, p);
      drawTable(view, p);
    });
    element("rings-note").hidden = state.config.known;
    element("rings-note").textContent = "Without the trace, hands, ring sizes, maps and first limits are not " +
      "known; slots are in order of use.";
  };
})(globalThis.Player = globalThis.Player || {});
