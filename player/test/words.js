"use strict";
// Tests what the page says: why a line was made, what a step changes, what is wrong with a trace, and the
// trace in a link. What is expected follows docs/READING_A_RUN.md and docs/FORMATS.md.
const fs = require("fs");
const path = require("path");
const Player = globalThis.Player;

const EXAMPLES = path.join(__dirname, "..", "..", "examples");

function runOf(name, options, logName) {
  const read = (ending) => fs.readFileSync(path.join(name.startsWith("test/") ? path.join(__dirname, "..")
    : EXAMPLES, ending), "utf8");
  return Player.makeRun(read(logName || `${name}.out`), read(`${name}.trace`), options);
}

function wordsAt(run, line) {
  const words = Player.explain(Player.copyState(Player.standAt(run, line - 1)), run.records[line - 1], run, line);
  return `${words.what} ${words.why} ${words.rule}`;
}

// Each: the run, its line, what has to be said, and what may not be.
function reasonCases() {
  const serial = { serial: true };
  const swapping = runOf("swapping", serial);
  const belady = runOf("lessons/belady", serial);
  const sharing = runOf("lessons/sharing", serial);
  const racing = runOf("racing", {}, "racing.log");
  const cluster = runOf("write-cluster", serial);
  const waiting = runOf("test/wait-limit", serial, "test/wait-limit.log");
  const phases = runOf("lessons/phases", serial);
  const writer = Player.makeRun("1 MPW OUT F0 P:0\n",
    "VMTRACE 1\nFRAMES 8\nPAGEFILE 8\nPROCESS A 2 2 2 0\nBODY\nEND\n", serial);
  return [
    ["a process leaves", swapping, 17, ["Process C needs a frame: the free list has 0 frames, and the modified list 0.",
      "that was answered longest ago"], []],
    ["an eviction of one that leaves", swapping, 26, ["Process A: it is being swapped out."], ["the process is being"]],
    ["done after a fault", belady, 12, ["was a page fault: line 11 ", "a soft fault"], ["A hit"]],
    ["done without a fault", belady, 19, ["A hit"], ["page fault"]],
    ["done of one that came back", swapping, 56, ["swapped in for it"], ["A hit"]],
    ["the writer of a serial log", writer, 1, ["more than HILIMIT, 128"], []],
    ["the writer of a log by threads", racing, 18, ["The list has 1 page, more than LOLIMIT, 0"], ["HILIMIT"]],
    ["the rundown of a log by threads", racing, racing.rundown + 12, [], ["HILIMIT"]],
    ["the rundown of a serial log", sharing, sharing.records.findIndex((one) => one.kind === "OUT") + 1,
      ["this is the rundown"], ["HILIMIT", "begins after an answer"]],
    ["a process that lacks a frame", cluster, 12, ["Process A needs a frame: the free list is empty"], ["WAITLIMIT"]],
    ["a further page of its cluster", cluster, 13, ["written together with the page before"], ["needs a frame"]],
    ["a list that is full", waiting, 8, ["The modified list has 1 page, and WAITLIMIT is 1"], ["needs a frame"]],
    ["a limit that rises", phases, 239, ["15 faults in 16 references, more than PFRATH"], []],
    ["the limit of an eviction", belady, 7, ["at its limit, 3 pages"], []],
  ];
}

function testReasons(same) {
  for (const [name, run, line, wanted, barred] of reasonCases()) {
    const said = wordsAt(run, line);
    wanted.forEach((words) => same(`${name}: "${words}" in "${said}"`, said.includes(words), true));
    barred.forEach((words) => same(`${name}: no "${words}" in "${said}"`, said.includes(words), false));
  }
}

// Hits and faults of the textbook's string: as a paper run of first in, first out has them.
function testRequests(same) {
  for (const [limit, hits] of [[3, "000000011001"], [4, "000011000000"]]) {
    const run = limit === 3 ? runOf("lessons/belady") : Player.makeRun(beladyOfFour(), "");
    same(`hits with ${limit}`, run.requests.map((one) => (one.faults.length ? 0 : 1)).join(""), hits);
  }
  const run = runOf("lessons/belady");
  same("lines of the trace", run.requests.map((one) => one.traceLine), [9, 10, 11, 12, 13, 14, 15, 16, 17, 18, 19, 20]);
  same("the request of a line", Player.requestOf(run, 7).index, 3);
  same("the next answer", Player.answerBeside(run, 7, true), 9);
  same("the answer before", Player.answerBeside(run, 7, false), 6);
}

// The log of first in, first out with four slots, drawn up from the string alone: which page is in is all
// that it takes from the pager.
function beladyOfFour() {
  const ring = [];
  const lines = [];
  const put = (text) => lines.push(`${lines.length + 1} A ${text}`);
  const seen = new Map();
  for (const page of [1, 2, 3, 4, 1, 2, 5, 1, 2, 3, 4, 5]) {
    const address = Player.pageAddress(page);
    if (!ring.includes(page)) {
      if (ring.length === 4) {
        const victim = ring.shift();
        put(`EVICT A ${Player.pageAddress(victim)} F${seen.get(victim)} REPLACE MODIFIED`);
      }
      if (seen.has(page)) {
        put(`BACK A ${address} F${seen.get(page)} MODIFIED`);
      } else {
        seen.set(page, seen.size);
        put(`ZERO ${address} F${seen.get(page)}`);
      }
      ring.push(page);
    }
    put(`DONE R1 ${address} 00`);
  }
  return `${lines.join("\n")}\n`;
}

// What a step changes, and from where to where its arrow leads.
function testChanges(same) {
  const run = runOf("lessons/belady");
  const changesAt = (one, line) => {
    const before = Player.copyState(Player.standAt(one, line - 1));
    return Player.changesOf(before, Player.standAt(one, line), one.records[line - 1]);
  };
  const out = changesAt(run, 7);
  same("the victim", out.slots.map(({ slot, before, after }) => [slot, before.address, after]), [[0, "00000200", null]]);
  same("who joined", [out.lists.modified.joined, out.lists.free.joined], [[0], []]);
  same("the way", out.moves, [{ from: "slot:A:0", to: "list:0" }]);
  same("in words", out.words, ["F0: ACTIVE \u2192 MODIFIED", "A slot 0: 00000200 \u2192 empty",
    "A's hand: slot 3 \u2192 0", "modified list: 0 \u2192 1"]);
  same("a way back", changesAt(run, 11).moves, [{ from: "list:0", to: "slot:A:1" }]);
  const cluster = runOf("write-cluster");
  same("a write", changesAt(cluster, 12).moves, [{ from: "list:0", to: "block:P:0" }]);
  same("its landing", changesAt(cluster, 15).moves, [{ from: "frame:0", to: "list:0" }]);
  same("a read", changesAt(cluster, 23).moves, [{ from: "block:P:0", to: "frame:1" }]);
  same("nothing", changesAt(cluster, 4).words, []);
}

// Which word of a faulty line is meant, and what is said of it.
function testErrors(same) {
  const head = ["VMTRACE 1", "FRAMES 8", "PAGEFILE 4", "PROCESS A 4 4 4 0"];
  for (const [lines, output, word, said] of [
    [["MAPZERO A 00000001 4 UW"], "TRACE 5 UNALIGNED", "00000001", "isn't a multiple"],
    [["MAPZREO A 0 4 UW"], "TRACE 5 UNKNOWNWORD", "MAPZREO", "none of those"],
    [["LONGTRACE 2"], "TRACE 5 UNKNOWNWORD", "LONGTRACE", "none of those"],
    [["MAPZERO A 0 4 RW"], "TRACE 5 UNKNOWNWORD", "RW", "none of those"],
    [["BODY", "A R8 0"], "TRACE 6 UNKNOWNWORD", "R8", "none of those"],
    [["MAPZERO B 0 4 UW"], "TRACE 5 NOSUCH", "B", "declares"],
    [["MAPSEC A 0 1 LIB 0 UW"], "TRACE 5 NOSUCH", "LIB", "declares"],
    [["MAPZERO A 0x0 4 UW"], "TRACE 5 BADNUMBER", "0x0", "isn't a number"],
    [["BAD 9"], "TRACE 5 OUTOFRANGE", "9", "beyond its bounds"],
    [["PROCESS B 1 1 1 0"], "TRACE 5 OUTOFRANGE", "", "beyond its bounds"],
    [["BAD 1", "BAD 1"], "TRACE 6 REPEATED", "1", "declared before"],
    [["MAPZERO A 0 4 UW é"], "TRACE 5 NOTASCII", "é", "may not stand"],
    [["END"], "TRACE 5 MISPLACED", "", "doesn't belong here"],
    [["BODY"], "TRACE UNFINISHED", "", "ends before its line END"]]) {
    const error = Player.errorOf([...head, ...lines].join("\n"), `${output}\nSTATUS 2\n`);
    same(`${lines}: word`, error.word, word);
    same(`${lines}: said`, error.said.includes(said), true);
    same(`${lines}: place`, word ? lines[lines.length - 1].slice(error.start, error.end) : "", word);
  }
  same("no error", Player.errorOf(head.join("\n"), "1 A DONE R1 00000000 00\nSTATUS 0\n"), null);
  const formats = fs.readFileSync(path.join(EXAMPLES, "..", "docs", "FORMATS.md"), "utf8");
  const causes = [...formats.matchAll(/^\d\. `([A-Z]+)`/gm)].map((found) => found[1]);
  causes.forEach((cause) => same(`${cause} has a meaning`, cause in Player.ERROR_MEANINGS, true));
}

// A trace comes out of a link as it went in; a damaged link is said.
async function testLinks(same) {
  const texts = ["", "VMTRACE 1\n", fs.readFileSync(path.join(EXAMPLES, "recorded", "sort.trace"), "utf8"), "! é \u2192\n"];
  for (const text of texts) {
    const word = await Player.pack(text);
    same("letters of a link", /^[\w-]*$/.test(word), true);
    same("unpacked", await Player.unpack(word) === text, true);
  }
  const whole = await Player.pack(texts[2]);
  same("shorter than a fifth", whole.length < texts[2].length / 5, true);
  for (const damaged of [whole.slice(0, 50), "%%%", "abcd"]) {
    same(`damaged ${damaged.slice(0, 9)}`, await Player.unpack(damaged).then(() => "", (fault) => fault.message),
      "The link's trace is damaged: some of its letters are missing or changed.");
  }
  same("a short link", Player.linkNote(100), "");
  same("a long link", Player.linkNote(9000).includes("9000 letters"), true);
}

module.exports = async function (same) {
  testReasons(same);
  testRequests(same);
  testChanges(same);
  testErrors(same);
  await testLinks(same);
};
