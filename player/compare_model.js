"use strict";
// Two runs beside each other, request by request: where they differ first, at which requests the one hits
// and the other doesn't, and what each has cost so far. Both grids are without events.
(function (Player) {
  const PAGE_BYTES = 512;

  // A trace of one process that reads these pages in this order, with so many slots. Memory is large
  // enough that nothing is read from the disk.
  Player.stringTrace = function (title, pages, slots) {
    const most = Math.max(...pages);
    const least = Math.min(...pages);
    return ["VMTRACE 1", `! ${title}`, "FRAMES 32", "PAGEFILE 32", `PROCESS A ${slots} ${slots} ${slots} 0`,
      `MAPZERO A ${Player.hex(least * PAGE_BYTES)} ${most - least + 1} UW`, "BODY",
      ...pages.map((page) => `A R1 ${Player.hex(page * PAGE_BYTES)}`), "END", ""].join("\n");
  };

  // Four rounds of six pages with two slots: all are written to in the first, and read in the others.
  function secondChance(...lines) {
    const rounds = [...new Array(24).keys()].map((i) => (i < 6
      ? `A W1 ${Player.hex(i * PAGE_BYTES)} 0${i + 1}` : `A R1 ${Player.hex(i % 6 * PAGE_BYTES)}`));
    return ["VMTRACE 1", "! The lists as a second chance", "FRAMES 15", "PAGEFILE 8", ...lines, "PROCESS A 2 2 2 0",
      "MAPZERO A 00000000 6 UW", "BODY", ...rounds, "END", ""].join("\n");
  }

  // What can be compared without a trace of one's own: a trace, what differs, and its two values.
  Player.COMPARISONS = [
    { name: "belady", title: "Belady's anomaly: 3 and 4 slots", what: "limit A", values: [3, 4],
      text: Player.stringTrace("Belady's anomaly", [1, 2, 3, 4, 1, 2, 5, 1, 2, 3, 4, 5], 3) },
    { name: "loop", title: "Round five pages: 4 and 5 slots", what: "limit A", values: [4, 5],
      text: Player.stringTrace("Round five pages", [...new Array(20).keys()].map((i) => i % 5 + 1), 4) },
    { name: "frames", title: "A second chance: 15 and 8 frames, three of them bad", what: "frames", values: [15, 8],
      text: secondChance("BAD 5", "BAD 6", "BAD 7") },
    { name: "writer", title: "When the writer begins: HILIMIT 128 and 2", what: "HILIMIT", values: [128, 2],
      text: secondChance("PARAM LOLIMIT 0") },
  ];

  function namesOf(moves) {
    return moves.map((one) => Player.pageNumber(one.address)).sort((a, b) => a - b).join(" ");
  }

  // What a column is, as far as two runs may differ in it.
  function markOf(column) {
    return column ? [column.kind, column.operation, column.address, column.service, column.result, column.why,
      column.faults.length ? column.faults[0].kind : "", namesOf(column.came), namesOf(column.left)].join("|") : "";
  }

  function requestOf(column) {
    return column ? [column.kind, column.operation, column.address, column.service].join("|") : "";
  }

  // The first column in which the two differ, or -1; those with another result; and whether the requests are
  // the same.
  Player.compareGrids = function (one, other) {
    const count = Math.max(one.columns.length, other.columns.length);
    const found = { count, first: -1, unlike: new Set(), same: true };
    for (let at = 0; at < count; at += 1) {
      const [a, b] = [one.columns[at], other.columns[at]];
      if (found.first < 0 && markOf(a) !== markOf(b)) {
        found.first = at;
      }
      if ((a && a.result) !== (b && b.result)) {
        found.unlike.add(at);
      }
      found.same = found.same && requestOf(a) === requestOf(b);
    }
    return found;
  };

  const groupSum = (totals, group) => Player.FAULT_KINDS.filter((kind) => kind.group === group)
    .reduce((sum, kind) => sum + totals.kinds[kind.name], 0);

  // The totals beside each other: rows of a name and two numbers.
  Player.comparedTotals = function (one, other) {
    const rows = [["references", (t) => t.references], ["hits", (t) => t.hits], ["faults", (t) => t.faults],
      ...Player.FAULT_GROUPS.map(([group, words]) => [words, (t) => groupSum(t, group)]),
      ["refused", (t) => t.refused], ["pages that left", (t) => t.left]];
    return rows.map(([name, number]) => [name, number(one), number(other)])
      .filter(([name, a, b]) => a || b || !["refused"].includes(name));
  };
})(globalThis.Player = globalThis.Player || {});
