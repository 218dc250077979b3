"use strict";
// What a step changes: the state before a line and after it, compared. A place has a name:
// "slot:A:0", "frame:3", "list:3" (on whichever list the frame is), "block:P:7".
(function (Player) {
  const LISTS = [["free", "free list"], ["modified", "modified list"]];

  function changedItems(before, after) {
    const found = [];
    for (let i = 0; i < Math.max(before.length, after.length); i += 1) {
      if (before[i] !== after[i]) {
        found.push(i);
      }
    }
    return found;
  }

  // Which frames left a list, each with its place there, and which joined it.
  function listChange(before, after) {
    const [old, now] = [new Set(before), new Set(after)];
    const left = [];
    before.forEach((f, place) => {
      if (!now.has(f)) {
        left.push({ f, place });
      }
    });
    return { left, joined: after.filter((f) => !old.has(f)) };
  }

  function slotChanges(before, after) {
    const found = [];
    after.processes.forEach((process, p) => {
      const old = before.processes[p];
      if (old !== process) {
        changedItems(old.slots, process.slots).forEach((slot) => found.push({ p, slot,
          before: old.slots[slot] || null, after: process.slots[slot] || null }));
      }
    });
    return found;
  }

  function pageChanges(before, after) {
    const found = [];
    after.pages.forEach((page, name) => {
      if (before.pages.get(name) !== page) {
        found.push({ name, before: Player.pageOf(before, name), after: page });
      }
    });
    before.pages.forEach((page, name) => {
      if (!after.pages.has(name)) {
        found.push({ name, before: page, after: Player.pageOf(after, name) });
      }
    });
    return found;
  }

  // ---- from where to where ----

  function slotPlace(changes, f, side) {
    const found = changes.slots.find((one) => one[side] && one[side].frame === f);
    return found ? `slot:${Player.letter(found.p)}:${found.slot}` : "";
  }

  function joined(changes, f) {
    return LISTS.some(([name]) => changes.lists[name].joined.includes(f));
  }

  function left(changes, f) {
    return LISTS.some(([name]) => changes.lists[name].left.some((one) => one.f === f));
  }

  const MOVES = {
    EVICT: (changes, { frame }) => [slotPlace(changes, frame, "before"),
      joined(changes, frame) ? `list:${frame}` : `frame:${frame}`],
    ZERO: (changes, { frame }) => [`list:${frame}`, slotPlace(changes, frame, "after")],
    BACK: (changes, { frame }) => [left(changes, frame) ? `list:${frame}` : `frame:${frame}`,
      slotPlace(changes, frame, "after")],
    IN: (changes, { frame, block }) => [`block:${block}`, `frame:${frame}`],
    INOK: (changes, { frame }) => [`frame:${frame}`,
      joined(changes, frame) ? `list:${frame}` : slotPlace(changes, frame, "after")],
    OUT: (changes, { frame, block }) => [left(changes, frame) ? `list:${frame}` : `frame:${frame}`,
      `block:${block}`],
    OUTOK: (changes, { frame }) => [joined(changes, frame) ? `frame:${frame}` : "", `list:${frame}`],
    OUTFAIL: (changes, { frame }) => [joined(changes, frame) ? `frame:${frame}` : "", `list:${frame}`],
  };

  // Where the line's page or frame was, and where it is: none, or one.
  function movesOf(changes, record) {
    const find = Player.isEntry(record) && MOVES[record.kind];
    const [from, to] = find ? find(changes, record) : ["", ""];
    return from && to ? [{ from, to }] : [];
  }

  // ---- in words ----

  function slotWords({ p, slot, before, after }) {
    const name = `${Player.letter(p)} slot ${slot}`;
    if (!before || !after) {
      return `${name}: ${before ? before.address : "empty"} \u2192 ${after ? after.address : "empty"}`;
    }
    const marks = (one) => (one.locked ? "locked " : "") + (one.pinned ? "locked in memory" : "");
    return `${name}: ${marks(before).trim() || "not locked"} \u2192 ${marks(after).trim() || "not locked"}`;
  }

  function frameWords(before, after, f) {
    const words = [];
    if (before.state !== after.state) {
      words.push(`${before.state} \u2192 ${after.state}`);
    }
    if (before.page !== after.page) {
      words.push(`${before.page || "no page"} \u2192 ${after.page || "no page"}`);
    }
    if (before.modify !== after.modify) {
      words.push(after.modify ? "modified now" : "modify mark cleared");
    }
    if (before.shares !== after.shares && before.state === after.state) {
      words.push(`shares ${before.shares} \u2192 ${after.shares}`);
    }
    return words.length ? `F${f}: ${words.join(", ")}` : "";
  }

  // Where the hand stands isn't known without the trace.
  function processWords(before, after, p, known) {
    const name = Player.letter(p);
    return [["status", `${name}`], ["limit", `${name}'s limit`], ["hand", `${name}'s hand: slot`]]
      .filter(([key]) => before[key] !== after[key] && (known || key !== "hand"))
      .map(([key, said]) => `${said} ${before[key]} \u2192 ${after[key]}`);
  }

  function pageWords({ name, before, after }) {
    const words = [];
    if (before.lies !== after.lies) {
      words.push(after.lies ? `${name} is on disk in ${after.lies}` : `${name} is in no block now`);
    }
    if (before.block !== after.block && after.block >= 0) {
      words.push(`${name} is assigned block P:${after.block}`);
    }
    if (before.charged !== after.charged) {
      words.push(after.charged ? `${name} is charged a block` : `${name} gives up its charge`);
    }
    return words;
  }

  function wordsOf(before, after, changes) {
    const words = changes.frames.map((f) => frameWords(before.frames[f], after.frames[f], f));
    words.push(...changes.slots.map(slotWords));
    changes.processes.forEach((p) => words.push(...processWords(before.processes[p],
      after.processes[p], p, after.config.known)));
    LISTS.filter(([name]) => before[name].length !== after[name].length).forEach(([name, said]) =>
      words.push(`${said}: ${before[name].length} \u2192 ${after[name].length}`));
    changes.pages.forEach((one) => words.push(...pageWords(one)));
    return words.filter(Boolean);
  }

  // What changes from one state to the next, which this record led to; null for the opening state.
  Player.changesOf = function (before, after, record) {
    const changes = { before, frames: changedItems(before.frames, after.frames),
      slots: slotChanges(before, after), processes: changedItems(before.processes, after.processes),
      lists: { free: listChange(before.free, after.free),
        modified: listChange(before.modified, after.modified) },
      pages: pageChanges(before, after) };
    changes.moves = movesOf(changes, record);
    changes.words = wordsOf(before, after, changes);
    return changes;
  };
})(globalThis.Player = globalThis.Player || {});
