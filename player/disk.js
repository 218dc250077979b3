"use strict";
// Draws the disk: the page file's blocks, swap blocks, sections, and the transfers that are open.
(function (Player) {
  const { make, element, fill, pageName, cutList } = Player;
  const MOST_EMPTY = 32;

  function blockNode({ name, page, lies, fresh, open }) {
    const node = make("li", "", `${page ? "" : "empty"}${lies || !page ? "" : " stale"}${fresh ? " joined" : ""}${
      open ? " open" : ""}`.trim());
    node.dataset.place = `block:${name}`;
    node.append(make("b", name), page ? ` ${pageName(page)}` : "");
    node.title = page && !lies ? "This block is the page's, but doesn't have its bytes: the page was changed, or " +
      "isn't written yet." : "";
    return node;
  }

  // The blocks that transfers and changes of this step are about.
  function busyBlocks(view) {
    const open = new Set([...view.state.flights.values()].map((flight) => flight.block));
    const fresh = new Set(view.record && view.record.block ? [view.record.block] : []);
    (view.changes ? view.changes.pages : []).forEach(({ before, after }) => {
      if (after.lies && after.lies !== before.lies) {
        fresh.add(after.lies);
      }
    });
    return { open, fresh };
  }

  function drawPageFile(view, busy) {
    const { state } = view;
    element("pagefile-counts").textContent = `${state.config.pagefile} blocks, ` +
      `${state.charged} charged, ${state.assigned} assigned`;
    const few = state.owners.length <= MOST_EMPTY;
    const blocks = [];
    state.owners.forEach((page, block) => {
      const name = `P:${block}`;
      if (page || few || busy.fresh.has(name)) {
        blocks.push({ name, page, lies: Boolean(page) && Player.pageOf(state, page).lies === name,
          fresh: busy.fresh.has(name), open: busy.open.has(name) });
      }
    });
    fillBlocks("pagefile", blocks, "no block assigned");
  }

  function blocksKey(blocks) {
    return `${Session.numbers}${element("whole-lists").checked}${JSON.stringify(blocks)}`;
  }

  function fillBlocks(id, blocks, none) {
    fill(element(id), blocksKey(blocks), () => (blocks.length ? cutList(blocks, blockNode)
      : [make("li", none, "gap")]));
  }

  function drawSwap(view, busy) {
    const names = new Map();
    view.state.pages.forEach((page, name) => {
      if (page.lies[0] === "X") {
        names.set(page.lies, name);
      }
    });
    view.state.flights.forEach((flight) => {
      if (flight.block[0] === "X") {
        names.set(flight.block, flight.page);
      }
    });
    const blocks = [...names].sort(([a], [b]) => a.localeCompare(b, "en", { numeric: true }))
      .map(([name, page]) => ({ name, page, lies: true, fresh: busy.fresh.has(name), open: busy.open.has(name) }));
    fillBlocks("swap", blocks, "empty");
  }

  // A section's blocks: which pages are in memory, and in which frame.
  function sectionBlocks(state, name, section, busy) {
    return Array.from({ length: section.pages }, (unused, index) => {
      const block = `S:${name}/${index}`;
      const frame = section.kind === "CRF" ? -1 : Player.pageOf(state, `${name}/${index}`).frame;
      return { name: block, page: frame >= 0 ? `F${frame}` : "", lies: true, fresh: busy.fresh.has(block),
        open: busy.open.has(block) };
    });
  }

  function sectionNode({ name, section, blocks }) {
    const box = make("div", "", "section");
    box.append(make("b", name), make("span", ` ${section.kind}, ${section.pages} page${
      section.pages === 1 ? "" : "s"}`));
    const list = make("ol", "", "blocks");
    list.setAttribute("aria-label", `Pages of section ${name}`);
    list.append(...cutList(blocks, blockNode));
    box.append(list);
    return box;
  }

  function drawSections(view, busy) {
    const { state } = view;
    const known = state.config.known ? [...state.config.sections] : [];
    const sections = known.map(([name, section]) => ({ name, section,
      blocks: sectionBlocks(state, name, section, busy) }));
    element("sections-part").hidden = !known.length;
    fill(element("sections"), blocksKey(sections), () => sections.map(sectionNode));
  }

  function flightRow(flight) {
    const row = make("tr");
    [String(flight.number), flight.seat, flight.kind === "IN" ? "read" : "write", `F${flight.frame}`, flight.block,
      pageName(flight.page || ""), flight.role || ""].forEach((text) => row.append(make("td", text)));
    return row;
  }

  function flightNodes(flights) {
    const head = make("tr");
    ["line", "seat", "what", "frame", "block", "page", "for"].forEach((text) => {
      const cell = make("th", text);
      cell.scope = "col";
      head.append(cell);
    });
    const none = make("tr");
    const cell = make("td", "none");
    cell.colSpan = head.children.length;
    none.append(cell);
    return [head, ...(flights.length ? flights.map(flightRow) : [none])];
  }

  function drawFlights(state) {
    const flights = [...state.flights.values()].sort((a, b) => a.number - b.number);
    fill(element("flights"), `${Session.numbers}${JSON.stringify(flights)}`, () => flightNodes(flights));
  }

  Player.drawDisk = function (view) {
    const busy = busyBlocks(view);
    drawPageFile(view, busy);
    drawSwap(view, busy);
    drawSections(view, busy);
    drawFlights(view.state);
  };
})(globalThis.Player = globalThis.Player || {});
