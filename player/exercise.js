"use strict";
// Exercises that are drawn from a seed. The generator is that of the program's `make`: a linear congruential
// generator of 64 bits, of which each draw is the upper half. So the same seed, pages, slots and references
// give the same exercise everywhere. A reference takes two draws:
//
//   the first, by the pages     which page; where it is the page before, the next one, the first after the last
//   the second, by three        0: it is written to; else it is read
//
// After the references, further draws choose what is asked. The answers are taken from the program's run.
(function (Player) {
  const PAGE_BYTES = 512;
  const FIRST_PAGE = 1;
  const FACTOR = 6364136223846793005n;
  const STEP = 1442695040888963407n;
  const SECTION = "BOOK";
  Player.EXERCISE_BOUNDS = { seed: [0, 4294967295], pages: [3, 9], slots: [2, 6], references: [6, 20] };

  Player.drawsOf = function (seed) {
    let state = BigInt(seed);
    return () => {
      state = BigInt.asUintN(64, state * FACTOR + STEP);
      return Number(state >> 32n);
    };
  };

  function referencesOf(draw, pages, count) {
    const references = [];
    let before = -1;
    for (let i = 0; i < count; i += 1) {
      const drawn = draw() % pages;
      const page = drawn === before ? (drawn + 1) % pages : drawn;
      references.push({ page: page + FIRST_PAGE, write: draw() % 3 === 0 });
      before = page;
    }
    return references;
  }

  function address(page) {
    return Player.hex(page * PAGE_BYTES);
  }

  // A machine in which no page is lost: a page that left keeps its frame, and nothing is written or read
  // along. The pages are those of a section, so that one that was only read goes to the free list.
  function traceOf({ seed, pages, slots, references }) {
    return ["VMTRACE 1", `! Exercise of seed ${seed}: ${pages} pages, ${slots} slots, ${references.length} references`,
      `FRAMES ${slots + pages + 8}`, "PAGEFILE 8", "PARAM PFC 1", `SECTION ${SECTION} SHARED ${pages}`,
      `PROCESS A ${slots} ${slots} ${slots} 0`,
      `MAPSEC A ${address(FIRST_PAGE)} ${pages} ${SECTION} 0 UW`, "BODY",
      ...references.map(({ page, write }, i) => (write
        ? `A W1 ${address(page)} ${(i + 1).toString(16).toUpperCase().padStart(2, "0")}` : `A R1 ${address(page)}`)),
      "END", ""].join("\n");
  }

  // The exercise of a seed: its references and its trace. What is asked is chosen when the run is there.
  Player.exerciseOf = function ({ seed, pages, slots, references: count }) {
    const draw = Player.drawsOf(seed);
    const references = referencesOf(draw, pages, count);
    return { seed, pages, slots, references, choices: [draw(), draw()],
      trace: traceOf({ seed, pages, slots, references }) };
  };

  // The pages of a list after a column, from its head on: frames without a page aren't named.
  Player.listedPages = function (grid, at, name) {
    const state = Player.standAt(grid.cursor, grid.columns[at].line);
    return state[name].map((f) => state.frames[f].page).filter((page) => page !== "")
      .map((page) => Number(page.slice(SECTION.length + 1)) + FIRST_PAGE);
  };

  // How many of the two lists have a page after a column.
  function listsFilled(grid, at) {
    return ["free", "modified"].filter((name) => Player.listedPages(grid, at, name).length).length;
  }

  // The reference after which the lists are asked for: one at which a page leaves, in the second half where
  // there is one, and with as much on the lists as there is; and another one at which a page leaves, if any.
  function askedColumns(grid, choices) {
    const half = Math.floor(grid.columns.length / 2);
    const leaving = [...grid.columns.keys()].filter((at) => grid.columns[at].left.length);
    const late = leaving.filter((at) => at >= half);
    const pool = late.length ? late : leaving.length ? leaving : [grid.columns.length - 1];
    const most = Math.max(...pool.map((at) => listsFilled(grid, at)));
    const best = pool.filter((at) => listsFilled(grid, at) === most);
    const then = best[choices[0] % best.length];
    const others = leaving.filter((at) => at !== then);
    const other = others.length ? [others[choices[1] % others.length]] : [];
    return { then, leaving: leaving.includes(then) ? [...other, then].sort((a, b) => a - b) : other };
  }

  // What is asked of an exercise, with the answers that the run gives: lists of numbers.
  Player.questionsOf = function (exercise, grid) {
    const { choices } = exercise;
    const { totals, columns } = grid;
    const { then, leaving } = askedColumns(grid, choices);
    return [
      { text: `How many of the ${columns.length} references are faults?`, answer: [totals.faults] },
      { text: "How many of these faults read the disk?", answer: [totals.kinds.section] },
      ...leaving.map((at) => ({ text: `Which page leaves the working set at reference ${at + 1}?`,
        answer: columns[at].left.map((one) => Player.pageNumber(one.address)) })),
      ...[["free", "free list"], ["modified", "modified list"]].map(([name, words]) => ({
        text: `Which pages are on the ${words} after reference ${then + 1}, from its head on?`, list: true,
        answer: Player.listedPages(grid, then, name) })),
    ];
  };

  // What a reader wrote, as a list of numbers; null where nothing is there, or it can't be read.
  Player.readAnswer = function (text) {
    const words = text.trim().split(/[\s,;]+/).filter(Boolean);
    if (words.length === 1 && /^(none|-|empty)$/i.test(words[0])) {
      return [];
    }
    return words.length && words.every((word) => /^\d{1,9}$/.test(word)) ? words.map(Number) : null;
  };

  Player.isRight = function (question, found) {
    return found !== null && found.join(" ") === question.answer.join(" ");
  };

  Player.answerText = function (answer) {
    return answer.length ? answer.join(", ") : "none";
  };

  // The rules by which the exercise goes, for the reader.
  Player.exerciseRules = function ({ pages, slots }) {
    return `A process refers to pages 1 to ${pages} of a section; none is in memory at first. Its working set holds ` +
      `${slots} pages in a ring: the page that came first leaves first. A page that leaves keeps its frame, at the ` +
      "tail of the free list, or of the modified list if it was written to since it was read from the disk. A fault " +
      "takes it back from there; the page stays modified.";
  };
})(globalThis.Player = globalThis.Player || {});
