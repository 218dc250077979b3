"use strict";
// What stands in the cells of a grid, as descriptions that can be compared: so a cell that stays as it is
// isn't drawn again. A description has a tag, a class, its texts as `parts` (each a tag, a class and a text),
// the line of the log to which it leads, and what is said of it.
(function (Player) {
  const STATE_LETTERS = { FREE: "F", MODIFIED: "M", WRITING: "W", READING: "R", RELEASE: "L",
    READERROR: "E", BAD: "X" };
  const RESULTS = { hit: "hit", fault: "fault", service: "done", swapped: "out", rundown: "end" };
  const REFUSALS = { UNMAPPED: "unmap", PROTECTED: "prot", PAGEFILEFULL: "full", DISKFAULT: "disk",
    INUSE: "in use", LOCKLIMIT: "locks", BADLIMIT: "limit" };
  const ACCESS_LETTERS = { R: "r", W: "w", A: "a" };
  const HELD_CLASSES = ["came", "hit", "hand", "locked", "pinned"];

  // ---- rows ----

  // The rows below the head: of each band its title, its own requests where they are other ones than the
  // first band's, what it holds, its limits and its results.
  Player.gridRows = function (view) {
    const rows = [];
    view.bands.forEach((band, b) => {
      if (band.title) {
        rows.push({ kind: "title", band, name: band.title });
      }
      if (band.heads) {
        rows.push({ kind: "page", band, name: "page" });
      }
      const held = view.frames ? band.grid.frames : band.grid.rows;
      for (let number = 0; number < held; number += 1) {
        rows.push({ kind: "held", band, number, name: view.frames ? `F${number}` : `slot ${number}` });
      }
      if (band.grid.limits) {
        rows.push({ kind: "limit", band, name: "limit" });
      }
      rows.push({ kind: "result", band, name: "result", last: b === view.bands.length - 1 });
    });
    return rows;
  };

  function columnAt(view, at) {
    const band = view.bands.find((one) => one.grid.columns[at]);
    return band ? band.grid.columns[at] : null;
  }

  // ---- what a slot or a frame holds ----

  function moveOf(moves, address) {
    return moves.find((one) => one.address === address);
  }

  // Whether a page left and came back within one column, as a process does that is swapped out and in.
  function cameBack(column, slot) {
    return Boolean(slot && moveOf(column.left, slot.address) && moveOf(column.came, slot.address));
  }

  // What a slot held before and after a column, as a page that left, a page that stays or came, and the line.
  function slotHeld(view, column, before, after, number) {
    const [old, now] = [before.slots[number] || null, after.slots[number] || null];
    const changed = (old && old.address) !== (now && now.address) || cameBack(column, old);
    return { left: changed && old ? old.address : "", page: now ? now.address : "",
      came: Boolean(changed && now), hand: after.hand === number,
      locked: Boolean(now && now.locked), pinned: Boolean(now && now.pinned) };
  }

  function slotWithFrame(slots, frame) {
    return slots.find((slot) => slot && slot.frame === frame) || null;
  }

  function frameHeld(view, column, before, after, number) {
    const frame = after.frames[number];
    const [old, now] = [slotWithFrame(before.slots, number), slotWithFrame(after.slots, number)];
    const changed = (old && old.address) !== (now && now.address);
    const held = { left: changed && old ? old.address : "", page: now ? now.address : "",
      came: Boolean(changed && now), hand: false,
      locked: Boolean(now && now.locked), pinned: Boolean(now && now.pinned) };
    if (!now && frame.page) {
      Object.assign(held, { other: otherLabel(view, frame.page), state: frame.state });
    }
    return held;
  }

  // A page that isn't in the working set: its own process's by its number alone.
  function otherLabel(view, page) {
    if (!Player.isPrivate(page)) {
      return page;
    }
    const label = Player.pageLabel(page.slice(2), view.byAddress);
    return page[0] === view.letter ? label : `${page[0]}/${label}`;
  }

  function heldAt(view, row, at) {
    const column = row.band.grid.columns[at];
    if (!column) {
      return null;
    }
    const [before, after] = [row.band.held[at - view.from], row.band.held[at - view.from + 1]];
    const held = (view.frames ? frameHeld : slotHeld)(view, column, before, after, row.number);
    held.hit = column.result === "hit" && held.page !== "" &&
      Player.pageNumber(held.page) === Player.pageNumber(column.address);
    const move = held.came ? moveOf(column.came, held.page) : held.left && moveOf(column.left, held.left);
    held.line = move ? move.line : column.line;
    return held;
  }

  function heldText(view, row, held) {
    const label = (address) => `page ${Player.pageLabel(address, view.byAddress)}`;
    const where = `${view.frames ? "frame" : "slot"} ${row.number}`;
    const words = [];
    if (held.page) {
      words.push(label(held.page) + (held.came ? " came in" : held.hit ? ", hit" : ""));
    } else if (held.other) {
      words.push(`${held.other}, ${held.state === "ACTIVE" ? "in another working set" : held.state}`);
    }
    if (held.left) {
      words.push(`${label(held.left)} left`);
    }
    [["hand", "the hand is here"], ["locked", "locked"], ["pinned", "locked in memory"]]
      .forEach(([name, text]) => held[name] && words.push(text));
    return `${where}: ${words.join("; ") || "empty"}`;
  }

  // ---- cells ----

  function requestText(view, at) {
    const column = columnAt(view, at);
    return column && column.number ? `request ${column.number}` : "between requests";
  }

  function empty(className) {
    return { tag: "td", className, parts: [], line: 0, label: "" };
  }

  function heldCell(view, row, at) {
    const held = view.blank ? null : heldAt(view, row, at);
    if (!held) {
      return empty("held");
    }
    const classes = ["held", ...HELD_CLASSES.filter((name) => held[name])];
    const left = held.left ? Player.pageLabel(held.left, view.byAddress) : "";
    const parts = left ? [["s", "", left]] : [];
    if (held.page) {
      parts.push(["b", "", Player.pageLabel(held.page, view.byAddress)]);
    } else if (held.other) {
      classes.push("other", held.state);
      parts.push(...(held.other === left ? [] : [["i", "", held.other]]),
        ["small", "state", STATE_LETTERS[held.state] || ""]);
    }
    if (held.locked || held.pinned) {
      parts.push(["small", "lock", held.pinned ? "M" : "L"]);
    }
    return { tag: "td", className: classes.join(" "), parts, line: held.line,
      label: `${requestText(view, at)}, ${heldText(view, row, held)}` };
  }

  function resultCell(view, row, at) {
    const column = row.band.grid.columns[at];
    if (!column || view.blank) {
      return empty("result");
    }
    const small = column.result === "fault" ? Player.faultKind(column.faults[0].kind).short
      : REFUSALS[column.why] || "";
    const refused = column.result === "refused" || column.kind === "service" && small !== "";
    return { tag: "td", className: `result ${refused ? "refused" : column.result}`,
      parts: [["b", "", refused ? "no" : RESULTS[column.result]], ["small", "", small]], line: column.line,
      label: Player.columnText(column, view.byAddress) };
  }

  function limitCell(view, row, at) {
    const column = row.band.grid.columns[at];
    if (!column) {
      return empty("limit");
    }
    const { limit } = row.band.held[at - view.from + 1];
    return { tag: "td", className: column.limit ? "limit came" : "limit", parts: [["b", "", String(limit)]],
      line: column.line, label: `${requestText(view, at)}, limit ${limit}` };
  }

  // The head of a column: its request's number, the page, and what is done there.
  function headCell(view, at) {
    const column = columnAt(view, at);
    if (!column) {
      return { ...empty("ref"), tag: "th" };
    }
    const access = Player.accessOf(column);
    const what = column.kind === "reference"
      ? [["b", "", Player.pageLabel(column.address, view.byAddress)], ["i", "", ACCESS_LETTERS[access]]]
      : [["em", "", column.service || RESULTS[column.result]]];
    return { tag: "th", className: `ref ${column.kind} ${access || "none"}`,
      parts: [["small", "", column.number ? String(column.number) : ""], ...what], line: column.line,
      label: Player.columnHead(column, view.byAddress) };
  }

  // A request of a band whose requests aren't those of the head.
  function pageCell(view, row, at) {
    const column = row.band.grid.columns[at];
    if (!column) {
      return empty("page");
    }
    const text = column.kind === "reference" ? Player.pageLabel(column.address, view.byAddress) : column.service;
    return { tag: "td", className: "page",
      parts: [["b", "", text], ["small", "", ACCESS_LETTERS[Player.accessOf(column)] || ""]], line: column.line,
      label: Player.columnText(column, view.byAddress) };
  }

  const CELLS = { held: heldCell, limit: limitCell, result: resultCell, page: pageCell };

  // The cell of a row, of which 0 is the head, in a column.
  Player.gridCell = function (view, r, at) {
    const row = view.rows[r - 1];
    const cell = r === 0 ? headCell(view, at) : CELLS[row.kind](view, row, at);
    const column = columnAt(view, at);
    const marks = [["event", column && column.kind === "event"], ["marked", at === view.marked],
      ["unlike", r === 0 && view.unlike && view.unlike.has(at)]];
    marks.forEach(([name, holds]) => {
      cell.className += holds ? ` ${name}` : "";
    });
    return cell;
  };
})(globalThis.Player = globalThis.Player || {});
