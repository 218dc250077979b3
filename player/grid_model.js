"use strict";
// The textbook's view of one process: a column for each of its requests, with what the request cost and
// which pages came and left, and what its slots hold after it. Columns are made in one pass over the
// log; what is held is taken from the played run, for the columns that are asked for.
(function (Player) {
  // A run of at most so many lines is stood once at each of its columns, to know which slots are used.
  const MOST_LINES_WALKED = 4000;
  // So many slots are shown also where they stay empty, if the limit allows them.
  const EMPTY_ROWS = 12;

  // Where a fault found its page. A fault is counted once for its reference, by its first entry.
  Player.FAULT_KINDS = [
    { name: "zero", group: "touch", short: "zero", words: "first touch of a page of zeros" },
    { name: "free", group: "memory", short: "free", words: "back from the free list" },
    { name: "modified", group: "memory", short: "mod", words: "back from the modified list" },
    { name: "written", group: "memory", short: "writ", words: "back while it was being written" },
    { name: "shared", group: "memory", short: "shar", words: "shared, and in memory already" },
    { name: "collided", group: "memory", short: "coll", words: "collided: another was reading it" },
    { name: "section", group: "disk", short: "sect", words: "read from a section" },
    { name: "pagefile", group: "disk", short: "file", words: "read from the page file" },
    { name: "swap", group: "disk", short: "swap", words: "read from a swap block" },
  ];
  Player.FAULT_GROUPS = [["touch", "first touches"], ["memory", "without a read of their own"],
    ["disk", "with a read from disk"]];
  const BACK_KINDS = { FREE: "free", MODIFIED: "modified", WRITING: "written", RELEASE: "written",
    ACTIVE: "shared" };
  const READ_KINDS = { S: "section", P: "pagefile", X: "swap" };
  const ANSWERS = new Set(["DONE", "DENIED", "SERVED"]);

  Player.faultKind = function (name) {
    return Player.FAULT_KINDS.find((kind) => kind.name === name);
  };

  // A page by its number, or by its first address.
  Player.pageLabel = function (address, byAddress) {
    return byAddress ? Player.pageAddress(Player.pageNumber(address))
      : String(Player.pageNumber(address));
  };

  function emptyColumn(kind, number, first) {
    return { kind, number, first, line: 0, faults: [], came: [], left: [], limit: 0, result: "",
      operation: "", address: "", why: "", service: "" };
  }

  // The kind of fault that an entry is for the process, or nothing.
  function faultOf(record, letter, coming) {
    if (record.kind === "BACK") {
      return record.process === letter && !coming ? BACK_KINDS[record.state] : "";
    }
    if (record.kind === "IN") {
      return record.role === "FAULT" && record.process === letter ? READ_KINDS[record.block[0]] : "";
    }
    return record.seat === letter ? { ZERO: "zero", COLLIDE: "collided" }[record.kind] || "" : "";
  }

  // Whether an entry of another seat changes what the process holds.
  function isAbout(record, letter) {
    return record.process === letter && ["EVICT", "TURN", "BACK", "IN"].includes(record.kind);
  }

  function takeMoves(made, column, record, line) {
    const { letter } = made;
    if (record.kind === "EVICT" && record.process === letter) {
      column.left.push({ address: record.address, line, why: record.why, state: record.state });
    } else if (record.kind === "ZERO" && record.seat === letter ||
      record.kind === "BACK" && record.process === letter) {
      column.came.push({ address: record.address, line });
    } else if (record.kind === "IN" && record.process === letter) {
      made.reads.set(record.frame, record.address);
    } else if (record.kind === "INOK" && made.reads.has(record.frame)) {
      column.came.push({ address: made.reads.get(record.frame), line });
      made.reads.delete(record.frame);
    } else if (record.kind === "INFAIL") {
      made.reads.delete(record.frame);
    } else if (record.kind === "LIMIT" && record.seat === letter) {
      column.limit = record.limit;
    } else if (record.kind === "TURN" && record.process === letter) {
      made.coming = record.status === "COMING";
      column.turn = record.status;
    }
  }

  function answerColumn(made, column, record, line) {
    Object.assign(column, { kind: record.kind === "SERVED" ? "service" : "reference", line,
      address: record.address || "", operation: record.operation || "" });
    column.number = made.requests += 1;
    if (record.kind === "SERVED") {
      column.result = "service";
      column.service = record.service;
      column.why = record.answer;
      column.limit = record.service === "ADJWSL" && record.answer === "OK" ? record.limit : column.limit;
    } else if (record.kind === "DENIED") {
      column.result = "refused";
      column.why = record.why;
    } else {
      column.result = column.faults.length ? "fault" : "hit";
    }
  }

  // Ends a column that others made: a swap out between two requests, or the rundown.
  function closeEvent(made) {
    const event = made.event;
    made.event = null;
    if (event && (event.left.length || event.came.length || event.turn)) {
      event.result = event.left.some((one) => one.why === "RUNDOWN") ? "rundown" : "swapped";
      made.columns.push(event);
    }
  }

  function takeEntry(made, record, line) {
    const { letter } = made;
    made.frames = Math.max(made.frames, (record.frame ?? -1) + 1);
    if (record.seat !== letter && !isAbout(record, letter)) {
      return;
    }
    if (!made.open && (record.seat === letter || !made.events)) {
      closeEvent(made);
      made.open = emptyColumn("reference", 0, line);
    } else if (!made.open) {
      made.event = made.event || emptyColumn("event", 0, line);
      made.event.line = line;
    }
    const column = made.open || made.event;
    const fault = faultOf(record, letter, made.coming);
    if (fault) {
      column.faults.push({ kind: fault, line });
    }
    takeMoves(made, column, record, line);
    if (record.seat === letter && ANSWERS.has(record.kind)) {
      answerColumn(made, column, record, line);
      made.columns.push(column);
      made.open = null;
    }
  }

  function totalsOf(columns) {
    const totals = { requests: 0, references: 0, hits: 0, faults: 0, refused: 0, services: 0,
      left: 0, kinds: Object.fromEntries(Player.FAULT_KINDS.map((kind) => [kind.name, 0])) };
    for (const column of columns) {
      totals.requests += column.kind === "event" ? 0 : 1;
      totals.references += column.kind === "reference" ? 1 : 0;
      totals.hits += column.result === "hit" ? 1 : 0;
      totals.refused += column.result === "refused" ? 1 : 0;
      totals.services += column.kind === "service" ? 1 : 0;
      totals.left += column.left.length;
      if (column.result === "fault") {
        totals.faults += 1;
        totals.kinds[column.faults[0].kind] += 1;
      }
    }
    return totals;
  }
  Player.gridTotals = totalsOf;

  // Hits or faults of the answered references, as a share; null where there are none.
  Player.gridRate = function (totals, what) {
    const answered = totals.references - totals.refused;
    return answered ? totals[what] / answered : null;
  };

  // A run beside the one that is shown: standing it leaves that one where it is.
  function cursorOf(run) {
    return { ...run, state: Player.copyState(run.snapshots[0]), at: 0 };
  }

  function slotsUsed(process) {
    let last = process.slots.length - 1;
    while (last >= 0 && process.slots[last] === null) {
      last -= 1;
    }
    return last + 1;
  }

  // The slots that are ever used: of a long run, as far as its snapshots show; windows may add some.
  function rowsOf(grid) {
    const { run, process } = grid;
    const spec = run.config.processes[process];
    const limits = grid.columns.map((column) => column.limit);
    const most = limits.reduce((a, b) => Math.max(a, b), spec.limit);
    const extent = run.config.known ? Math.min(spec.extent, EMPTY_ROWS) : EMPTY_ROWS;
    const lines = run.length <= MOST_LINES_WALKED ? grid.columns.map((column) => column.line) : [];
    const states = run.snapshots.map((state) => slotsUsed(state.processes[process]))
      .concat(lines.map((line) => slotsUsed(Player.standAt(grid.cursor, line).processes[process])));
    return states.reduce((a, b) => Math.max(a, b), Math.min(extent, most));
  }

  // The grid of a process of a played run: its columns, their totals, and how many slots and frames it
  // needs as rows. Without events there are columns of requests alone, so that two runs of the same
  // requests have the same columns; what others changed before a request is in its column then.
  Player.gridOf = function (run, process, events = true) {
    const made = { events, letter: Player.letter(process), columns: [], requests: 0, frames: 0, coming: false,
      reads: new Map(), open: null, event: null };
    run.records.forEach((record, i) => {
      if (Player.isEntry(record)) {
        takeEntry(made, record, i + 1);
      }
    });
    closeEvent(made);
    const grid = { run, process, letter: made.letter, columns: made.columns, frames: made.frames,
      totals: totalsOf(made.columns), limits: made.columns.some((column) => column.limit),
      cursor: cursorOf(run) };
    grid.rows = rowsOf(grid);
    return grid;
  };

  // What is held after column `at`, or before the first one where it is -1.
  function heldAfter(grid, at, frames) {
    const state = Player.standAt(grid.cursor, at < 0 ? 0 : grid.columns[at].line);
    const process = state.processes[grid.process];
    grid.rows = Math.max(grid.rows, slotsUsed(process));
    return { slots: process.slots, hand: grid.run.config.known ? process.hand : -1,
      limit: process.limit, status: process.status,
      frames: frames ? state.frames.slice(0, grid.frames) : null };
  }

  // What is held before column `from` and after each column up to `to`, which isn't among them.
  Player.gridWindow = function (grid, from, to, frames) {
    const held = [heldAfter(grid, from - 1, frames)];
    for (let at = from; at < Math.min(to, grid.columns.length); at += 1) {
      held.push(heldAfter(grid, at, frames));
    }
    return held;
  };

  // The column to which a line of the log belongs: the first one that ends at it or later, or the last.
  Player.columnOfLine = function (grid, line) {
    let [low, high] = [0, grid.columns.length - 1];
    while (low < high) {
      const middle = (low + high) >> 1;
      if (grid.columns[middle].line >= line) {
        high = middle;
      } else {
        low = middle + 1;
      }
    }
    return line ? high : -1;
  };

  // ---- in words ----

  const ACCESS = { R: "read of", W: "write to", A: "add to" };

  // Whether a reference reads, writes or adds: R, W or A.
  Player.accessOf = function (column) {
    return column.operation.replace(/^[KES]/, "")[0] || "";
  };

  function pagesText(moves, byAddress) {
    const names = moves.map((one) => Player.pageLabel(one.address, byAddress));
    return `page${names.length > 1 ? "s" : ""} ${names.join(", ")}`;
  }

  function resultText(column) {
    if (column.result === "fault") {
      return `fault, ${Player.faultKind(column.faults[0].kind).words}`;
    }
    return { hit: "hit", refused: `refused, ${column.why}`, service: `answered ${column.why}`,
      swapped: "swapped out", rundown: "rundown at the end" }[column.result];
  }

  // What is asked in a column, in words.
  Player.columnHead = function (column, byAddress) {
    const what = { reference: `${ACCESS[Player.accessOf(column)]} page ` +
      `${column.address && Player.pageLabel(column.address, byAddress)}`,
    service: `service ${column.service}`, event: "between requests" }[column.kind];
    return column.number ? `Request ${column.number}, ${what}` : what;
  };

  // What it cost, and which pages came and left.
  Player.outcomeText = function (column, byAddress) {
    const came = column.came.length ? `; ${pagesText(column.came, byAddress)} came in` : "";
    const left = column.left.length ? `; ${pagesText(column.left, byAddress)} left` : "";
    return `${resultText(column)}${came}${left}`;
  };

  Player.columnText = function (column, byAddress) {
    return `${Player.columnHead(column, byAddress)}: ${Player.outcomeText(column, byAddress)}`;
  };
})(globalThis.Player = globalThis.Player || {});
