#!/usr/bin/env node
"use strict";
// Writes player/examples.js from the traces of examples/: node player/test/make_examples.js
// With --print it prints what it would write. It needs python3 for the trace of one lesson.
const fs = require("fs");
const path = require("path");
const { execFileSync } = require("child_process");

const TOP = path.join(__dirname, "..", "..");
const LESSONS = "The eight lessons";
const PAGER = "What a pager does";
const PROGRAMS = "Programs, races and errors";

// A trace of examples/, each with what is to be changed in it.
function file(name, ...changes) {
  const text = fs.readFileSync(path.join(TOP, "examples", name), "utf8");
  return changes.reduce((trace, [from, to]) => {
    if (!trace.includes(from)) {
      throw new Error(`${name} has no "${from}"`);
    }
    return trace.replace(from, to);
  }, text);
}

function cycling(procs) {
  return execFileSync("python3", [path.join(TOP, "examples", "cycling_trace.py"), "--procs", procs, "--pages",
    "6", "--frames", "16", "--refs", "60"], { encoding: "utf8" });
}

// Each: its name in links, its group, title, what to look at, the line to begin with, and its trace.
const CHOSEN = () => [
  ["first-touch", LESSONS, "1. First touch and demand zero",
    "Four pages of zeros are mapped, and the page file has three blocks. See which references are page faults, " +
    "and which one is refused.", 1, file("lessons/first-touch.trace")],
  ["belady", LESSONS, "2. First in, first out: three pages",
    "The textbooks' string 1 2 3 4 1 2 5 1 2 3 4 5 in a working set of three pages: 9 faults. Step on, and see " +
    "which page leaves. Then look at the same with four.", 7, file("lessons/belady.trace")],
  ["belady-4", LESSONS, "2. First in, first out: four pages, more faults",
    "The same string in a working set of four pages: 10 faults, one more than with three. This is Belady's " +
    "anomaly.", 15, file("lessons/belady.trace", ["PROCESS A 3 3 4 0", "PROCESS A 4 4 4 0"],
      ["with three\n! pages", "with four\n! pages"])],
  ["sort", LESSONS, "3. LRU and the least, as curves: a program that sorts",
    "4,505 references that were recorded from a program which sorts 300 lines. Look at the curves below: where " +
    "is one frame more worth most?", 0, file("recorded/sort.trace")],
  ["second-chance", LESSONS, "4. The modified list as a second chance: twelve frames",
    "Each of the 24 references is a fault, and none reads the disk: pages that left are taken back from the " +
    "modified list.", 17, file("lessons/second-chance.trace")],
  ["second-chance-4", LESSONS, "4. The same with four frames",
    "With four usable frames pages have to be written, and read again. Neighbours are read along, and wait on " +
    "the free list.", 28, file("lessons/second-chance.trace", ["PAGEFILE 8\n", "PAGEFILE 8\n" +
      [11, 10, 9, 8, 7, 6, 5, 4].map((f) => `BAD ${f}\n`).join("")])],
  ["thrashing", LESSONS, "5. Working sets and thrashing: three processes",
    "Three processes go round six pages each, and there are sixteen frames: two short. Each turn swaps a process " +
    "out.", 37, cycling("3")],
  ["cycling", LESSONS, "5. The same with two processes",
    "Two working sets of six fit into sixteen frames: after the first round nothing is a fault.", 24, cycling("2")],
  ["phases", LESSONS, "6. Page fault frequency: a limit that is adjusted",
    "A goes round three pages, then round eight, then round three again, and its limit follows the faults: look " +
    "for lines LIMIT.", 239, file("lessons/phases.trace")],
  ["sharing", LESSONS, "7. Sharing, and copy on reference",
    "A and B map the same two sections. LIB is one page for both; of IMG each gets a copy of its own.", 7,
    file("lessons/sharing.trace")],
  ["swapping", LESSONS, "8. Swapping, line by line",
    "A and B fill all eight frames. Then C touches a page, and A has to leave memory for it.", 26,
    file("swapping.trace")],
  ["swapping-early", LESSONS, "8. The same with a swapper that begins early",
    "FREELIM and FREEGOAL let the swapper free frames before a process lacks one: its lines are SWP.", 17,
    file("swapping.trace", ["PAGEFILE 16\n", "PAGEFILE 16\nPARAM FREELIM 2\nPARAM FREEGOAL 4\n"])],
  ["first-run", PAGER, "A first run, of three references",
    "A write, a read, and a read of an address that isn't mapped.", 1, file("first-run.trace")],
  ["write-cluster", PAGER, "The modified list, and a write cluster",
    "Four frames for five pages of a working set of two: three pages are written together, and one is read back.",
    12, file("write-cluster.trace")],
  ["read-cluster", PAGER, "A read cluster: neighbours are read along",
    "One fault reads four pages in one go; their own faults find them on the free list.", 5,
    file("read-cluster.trace")],
  ["shared-section", PAGER, "A shared page, and the rundown that writes it back", "Two processes share a page of a " +
    "section. When all is answered it is written back.", 5, file("shared-section.trace")],
  ["copy-on-reference", PAGER, "Copy on reference", "Two processes each get a page of their own from one block.",
    4, file("copy-on-reference.trace")],
  ["paged-section", PAGER, "A section in the page file", "Shared pages without a file: zeros at first, written to " +
    "the page file.", 5, file("paged-section.trace")],
  ["failing-disk", PAGER, "A disk that fails", "A read and a write fail: what becomes of page and frame?", 2,
    file("failing-disk.trace")],
  ["services", PAGER, "System services, and their refusals", "Pages are mapped, locked, purged and deleted.", 3,
    file("services.trace")],
  ["pinned-page", PAGER, "A page that is locked in memory", "It keeps its frame while its process is swapped out.",
    12, file("pinned-page.trace")],
  ["working-set-limit", PAGER, "A limit that rises and falls", "The limit of a working set is adjusted by its " +
    "faults.", 12, file("working-set-limit.trace")],
  ["page-file-full", PAGER, "A page file that is full", "It has one block, so a second page can't be touched.", 3,
    file("page-file-full.trace")],
  ["sort-stack", PROGRAMS, "500 references to the stack of a sorting program", "Four pages are touched, again and " +
    "again: few faults, many hits.", 20, file("sort-stack.trace")],
  ["racing", PROGRAMS, "A race: a log that threads made", "This log isn't serial's: each process ran in a thread " +
    "of its own. A faults on a page that is just being read.", 2, file("racing.trace"), file("racing.log")],
  ["faulty-line", PROGRAMS, "A trace with an error", "A mapping begins inside a page. The trace's line is marked; " +
    "mend it, and it runs.", 0, file("faulty-line.trace")]];

function exampleText() {
  const items = CHOSEN().map(([name, group, title, about, line, trace, log]) => "    { " +
    [["name", name], ["group", group], ["title", title], ["about", about], ["line", line], ["trace", trace],
      ["log", log || ""]].map(([key, value]) => `${key}: ${JSON.stringify(value)}`).join(",\n      ") + " }");
  return `"use strict";
// What the list of the page offers: the lessons and examples of examples/, and what to look at in each.
// \`node player/test/make_examples.js\` writes this file, and the tests compare it with those.
(function (Player) {
  Player.EXAMPLES = [
${items.join(",\n")}];
})(globalThis.Player = globalThis.Player || {});
`;
}

module.exports = exampleText;
if (require.main === module) {
  const text = exampleText();
  if (process.argv[2] === "--print") {
    process.stdout.write(text);
  } else {
    fs.writeFileSync(path.join(__dirname, "..", "examples.js"), text);
  }
}
