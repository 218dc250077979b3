#!/usr/bin/env node
"use strict";
// Tests the player's files without a page: node player/test/test_model.js
const fs = require("fs");
const path = require("path");
const Player = require("./load.js")();

const FOLDER = __dirname;
let passed = 0;
let failed = 0;

function same(name, found, expected) {
  if (JSON.stringify(found) === JSON.stringify(expected)) {
    passed += 1;
    return;
  }
  failed += 1;
  console.log(`${name}: found ${JSON.stringify(found)}, expected ${JSON.stringify(expected)}`);
}

function read(...names) {
  return fs.readFileSync(path.join(FOLDER, ...names), "utf8");
}

function checkRun(name, log, trace) {
  const run = Player.makeRun(log, trace);
  same(`${name}: problems`, run.problems, []);
  same(`${name}: unknown lines`, run.unknown, []);
  return run;
}

// The report of each whole log agrees with the state, with the trace and without. Only the trace tells
// which zeros are a page of a section in the page file.
function testReports() {
  const examples = path.join(FOLDER, "..", "..", "examples");
  const pairs = fs.readdirSync(FOLDER).filter((name) => name.endsWith(".trace"))
    .map((name) => [path.join(FOLDER, name), ".log"])
    .concat([examples, path.join(examples, "lessons")].flatMap((folder) =>
      fs.readdirSync(folder).filter((name) => name.endsWith(".trace"))
        .map((name) => [path.join(folder, name), ".out"])));
  for (const [name, ending] of pairs) {
    const log = name.replace(/\.trace$/, ending);
    const text = fs.existsSync(log) ? fs.readFileSync(log, "utf8") : "";
    if (!/^PFN AT /m.test(text)) {
      continue;
    }
    const own = fs.readFileSync(name, "utf8");
    for (const trace of / PAGED /.test(own) ? [own] : [own, ""]) {
      const run = checkRun(path.basename(name), text, trace);
      same(`${path.basename(name)}: report`, run.differences, []);
      same(`${path.basename(name)}: its own trace`,
        trace && Player.foreignTo(run.records, run.config), "");
    }
  }
}

// Standing at a line gives the same state whichever way one comes there.
function testStanding() {
  const run = Player.makeRun(read("swap-out-and-back.log"), read("swap-out-and-back.trace"), { distance: 7 });
  same("snapshots", run.snapshots.length, Math.ceil(run.length / 7));
  const straight = [];
  for (let line = 0; line <= run.length; line += 1) {
    straight.push(JSON.stringify(Player.reportOf(Player.standAt(run, line), line)));
  }
  for (let i = 0; i <= run.length; i += 1) {
    const line = (i * 31) % (run.length + 1);
    same(`line ${line}`, JSON.stringify(Player.reportOf(Player.standAt(run, line), line)),
      straight[line]);
  }
}

// A run that is made in pieces is the run that is made at once.
function testPieces() {
  const [log, text] = [read("swap-out-and-back.log"), read("swap-out-and-back.trace")];
  const run = Player.beginRun(log, text);
  same("not whole yet", run.advance(-1), false);
  while (!run.advance(0)) {
    // goes on
  }
  const whole = Player.makeRun(log, text);
  same("series", run.series, whole.series);
  same("requests", run.requests, whole.requests);
  same("report", run.differences, []);
}

const MACHINE = ["VMTRACE 1", "FRAMES 8", "PAGEFILE 8"];

function trace(...lines) {
  return [...MACHINE, ...lines, "BODY", "END", ""].join("\n");
}

const FIRST_LINES = ["1 A ZERO 00000000 F0", "2 A DONE W1 00000000 01", "3 A ZERO 00000200 F1",
  "4 A DONE W1 00000200 02", "5 A EVICT A 00000000 F0 REPLACE MODIFIED", "6 A ZERO 00000400 F2",
  "7 A DONE W1 00000400 03"];
const THREE_PAGES = trace("PROCESS A 2 2 2 0", "MAPZERO A 00000000 3 UW");

// A page that is changed while it is written is modified again when its write lands.
function testChangedDuringWrite() {
  const lines = [...FIRST_LINES, "8 MPW OUT F0 P:0", "9 A EVICT A 00000200 F1 REPLACE MODIFIED",
    "10 A BACK A 00000000 F0 WRITING", "11 A DONE W1 00000000 09",
    "12 A EVICT A 00000400 F2 REPLACE MODIFIED", "13 A BACK A 00000200 F1 MODIFIED",
    "14 A DONE R1 00000200 02", "15 A EVICT A 00000000 F0 REPLACE RELEASE",
    "16 A BACK A 00000400 F2 MODIFIED", "17 A DONE R1 00000400 03", "18 MPW OUTOK F0 8"];
  const run = checkRun("changed during its write", lines.join("\n"), THREE_PAGES);
  same("refs after line 10", Player.refsOf(Player.standAt(run, 10).frames[0]), 2);
  const state = Player.standAt(run, 18);
  same("modified list", state.modified, [0]);
  same("modify and refs", [state.frames[0].modify, Player.refsOf(state.frames[0])], [1, 0]);
}

// A failed write keeps the change, and the block stays assigned.
function testFailedWrite() {
  const lines = [...FIRST_LINES, "8 MPW OUT F0 P:0", "9 MPW OUTFAIL F0 8 0 1", "10 MPW OUT F0 P:0",
    "11 MPW OUTOK F0 10"];
  const run = checkRun("failed write", lines.join("\n"), THREE_PAGES);
  const failedState = Player.standAt(run, 9);
  same("on the modified list", [failedState.modified, failedState.frames[0].modify], [[0], 1]);
  same("assigned, lies nowhere", Player.pageOf(failedState, "A/00000000"),
    { frame: 0, charged: true, touched: true, lies: "", block: 0 });
  const state = Player.standAt(run, 11);
  same("free list", state.free, [3, 4, 5, 6, 7, 0]);
  same("lies in the block", Player.pageOf(state, "A/00000000").lies, "P:0");
}

// A collided read that fails, and the other process's own read after it.
function testCollision() {
  const lines = ["1 A IN F0 S:LIB/0 FAULT A/00000000", "2 B COLLIDE 00000000 F0 1",
    "3 A INFAIL F0 1 0 1", "4 A REUSE F0 LIB/0", "5 A DENIED R1 00000000 DISKFAULT",
    "6 B IN F0 S:LIB/0 FAULT B/00000000", "7 B INOK F0 6", "8 B DONE R1 00000000 00"];
  const run = checkRun("collided read", lines.join("\n"), trace("SECTION LIB SHARED 1",
    "PROCESS A 4 4 4 0", "PROCESS B 4 4 4 0", "MAPSEC A 00000000 1 LIB 0 UW",
    "MAPSEC B 00000000 1 LIB 0 UW"));
  same("read error", Player.standAt(run, 3).frames[0].state, "READERROR");
  same("faults of A and B", Player.standAt(run, 8).processes.map((one) => one.allFaults), [1, 1]);
  same("next fault of B", Player.nextFault(run, 0, "B"), 6);
  same("next line about LIB/0", Player.nextAbout(run, 5, "LIB/0"), 6);
}

// Services: a lock, refusals, a lower limit, a purge, and what each leaves.
function testServices() {
  const lines = ["1 A ZERO 00000000 F0", "2 A DONE R1 00000000 00", "3 A ZERO 00000200 F1",
    "4 A DONE R1 00000200 00", "5 A SERVED LKWSET 00000000 1 OK 1",
    "6 A SERVED LKWSET 00000200 1 LOCKLIMIT", "7 A SERVED ADJWSL 2 BADLIMIT",
    "8 A SERVED ADJWSL 3 OK", "9 A EVICT A 00000200 F1 PURGE MODIFIED",
    "10 A SERVED PURGWS 00000000 2 OK", "11 A SERVED ULWSET 00000000 2 OK 1",
    "12 A SERVED SETPRT 00000000 1 UR OK", "13 A DENIED W1 00000000 01 PROTECTED"];
  const run = checkRun("services", lines.join("\n"),
    trace("PROCESS A 4 4 4 1", "MAPZERO A 00000000 2 UW"));
  same("locked", Player.standAt(run, 5).processes[0].slots[0].locked, true);
  const state = Player.standAt(run, 13);
  same("unlocked", state.processes[0].slots[0].locked, false);
  same("limit", state.processes[0].limit, 3);
  same("modified list", state.modified, [1]);
  same("protection", state.maps[0].get(0).protection, "UR");
}

// A deleted page gives its frame to the head of the free list, and its charge back.
function testDeletion() {
  const lines = ["1 A ZERO 00000000 F0", "2 A DONE W1 00000000 07",
    "3 A EVICT A 00000000 F0 DELETE MODIFIED", "4 A SERVED DELTVA 00000000 1 OK",
    "5 A ZERO 00000200 F0", "6 A DONE R4 00000200 00000000",
    "7 A SERVED CRETVA 00000000 1 UW OK", "8 A LIMIT 3 2"];
  const run = checkRun("deletion", lines.join("\n"),
    trace("PROCESS A 4 4 4 0", "MAPZERO A 00000000 4 UW"));
  const deleted = Player.standAt(run, 4);
  same("head of the free list", [deleted.free[0], deleted.frames[0].page, deleted.charged],
    [0, "", 0]);
  same("charged again", Player.standAt(run, 8).charged, 1);
  same("limit", Player.standAt(run, 8).processes[0].limit, 3);
}

// The hand stands on the slot that a replacement emptied, past a locked one.
function testHand() {
  const lines = ["1 A ZERO 00000000 F0", "2 A DONE R1 00000000 00", "3 A SERVED LKWSET 00000000 1 OK 1",
    "4 A ZERO 00000200 F1", "5 A DONE R1 00000200 00", "6 A ZERO 00000400 F2",
    "7 A DONE R1 00000400 00", "8 A EVICT A 00000200 F1 REPLACE MODIFIED", "9 A ZERO 00000600 F3"];
  const run = checkRun("hand", lines.join("\n"),
    trace("PROCESS A 3 3 3 1", "MAPZERO A 00000000 4 UW"));
  same("hands", [7, 8, 9].map((line) => Player.standAt(run, line).processes[0].hand), [0, 1, 2]);
  const wrong = Player.makeRun(lines.join("\n").replace("A 00000200 F1 REPLACE", "A 00000400 F2 REPLACE"),
    trace("PROCESS A 3 3 3 1", "MAPZERO A 00000000 4 UW"));
  same("wrong victim", wrong.problems[0],
    { line: 8, text: "slot 2 of A isn't the one that the hand comes to first" });
}

// Each line of the report that differs is shown, and each that is missing.
function testDifferences() {
  const log = read("write-cluster.log");
  const run = Player.makeRun(log.replace("FRAME 2 FREE A/00000400", "FRAME 2 FREE A/00000600")
    .replace("FRAME 7 BAD\n", ""), read("write-cluster.trace"));
  same("differences", run.differences, [
    { logged: "FRAME 2 FREE A/00000600 MODIFY 0 REFS 0 SHARES 0",
      counted: "FRAME 2 FREE A/00000400 MODIFY 0 REFS 0 SHARES 0" },
    { logged: "", counted: "FRAME 7 BAD" }]);
}

// Lines and files that are no part of a log or a trace are named.
function testBadInput() {
  const run = Player.makeRun("1 A ZERO 00000000 F0\n2 A SLEEP 3\n", "");
  same("unknown", run.unknown, [{ line: 2, text: "2 A SLEEP 3" }]);
  for (const line of ["1 A ZERO 0 F0", "01 A ZERO 00000000 F0", "1 Q ZERO 00000000 F0",
    "1 A EVICT A 00000000 F0 WHIM FREE", "1 A SERVED CRETVA 00000000 1 OK", "FRAME 1 FREE", ""]) {
    same(`"${line}"`, Player.parseLine(line).kind, "UNKNOWN");
  }
  for (const [text, message] of [
    ["VMTRACE 1\nFRAMES x\n", "Line 2 of the trace: the number of frames must be a decimal"],
    [trace("PROCESS A 4 4 99999 0"), "Line 4 of the trace: a bound is 99999, and 1024 is the most"],
    ["VMTRACE 1\nWHAT 2\n", "Line 2 of the trace: \"WHAT\" isn't a word of a trace"],
    [trace("MAPZERO A 00000000 1 UW"), "Line 4 of the trace: \"A\" is no process of this trace"],
    ["VMTRACE 1\nFRAMES 8\nPAGEFILE 4\nPROCESS A 4 4 4 0\nBODY\n", "ends before its END line"]]) {
    let found = "";
    try {
      Player.parseTrace(text);
    } catch (fault) {
      found = fault.message;
    }
    same(message, found.includes(message), true);
  }
  for (const [log, problem] of [
    ["1 A ZERO 00000000 F4294967295", "there is no frame F4294967295"],
    ["1 A SERVED CRETVA 00000000 4294967295 UW OK", "a range has at most 4096 pages"],
    ["1 A IN F0 X:A/99999 COME A/00000000\n2 A INOK F0 1", "the ring of A has no slot 99999"],
    ["2 A TURN A LEAVING", "number 2 follows 0"],
    ["1 A INOK F0 7", "F0 has no open transfer that line 7 began"]]) {
    same(log, Player.makeRun(log, "").problems.map((one) => one.text), [problem]);
  }
  const moved = Player.makeRun("1 A ZERO 00000000 F3\n", THREE_PAGES);
  same("frame that isn't the head", moved.problems.length, 1);
}

// Every line of the worked logs is said in words, without holes.
function testWords() {
  for (const name of ["write-cluster", "shared-section", "swap-out-and-back"]) {
    const run = Player.makeRun(read(`${name}.log`), read(`${name}.trace`));
    run.records.forEach((record, i) => {
      const words = Player.explain(Player.standAt(run, i), record);
      const text = `${words.what} ${words.why} ${words.rule}`;
      same(record.text, /undefined|NaN|null/.test(text) || !words.what, false);
    });
  }
}

// The examples that are built in are those of the repository.
function testExamples() {
  same("examples.js", read("..", "examples.js"), require("./make_examples.js")());
  const lessons = Player.EXAMPLES.map((one) => one.title[0]).filter((digit) => /\d/.test(digit));
  same("all eight lessons", [...new Set(lessons)].join(""), "12345678");
  for (const { name, trace: text, log } of Player.EXAMPLES.filter((one) => one.log)) {
    same(`${name}: report`, checkRun(name, log, text).differences, []);
  }
}

// What a text is, and whether a log belongs to a trace.
function testKinds() {
  const [log, own] = [read("shared-section.log"), read("shared-section.trace")];
  same("log", Object.keys(Player.sortText(log, "a")), ["log"]);
  same("trace", Object.keys(Player.sortText(own, "a")), ["trace"]);
  same("both", Player.sortText(`${own}LOG\n${log}`, "a"), { trace: own, log });
  for (const [text, message] of [["", "a is empty"], ["hello\n", "neither a log nor a trace"],
    ["TRACE 3 OUTOFRANGE\nSTATUS 2\n", "its line 3 has an error"],
    ["TRACE UNFINISHED\nSTATUS 2\n", "ends before its END line"],
    ["STATUS 1\n", "only the line STATUS 1"]]) {
    let found = "";
    try {
      Player.sortText(text, "a");
    } catch (fault) {
      found = fault.message;
    }
    same(message, found.includes(message), true);
  }
  const foreign = (lines, ...traceLines) => Player.foreignTo(Player.parseLog(lines.join("\n")),
    Player.parseTrace(`${MACHINE.join("\n")}\n${traceLines.join("\n")}\nEND\n`));
  const head = ["PROCESS A 4 4 4 0", "MAPZERO A 00000000 1 UW", "BODY"];
  same("its own", foreign(["1 A DONE W1 00000000 01", "2 A SERVED ADJWSL 3 OK", "3 A DONE KR1 00000000 01"],
    ...head, "A UW1 0 1", "A ADJWSL 03", "A KR1 00000000"), "");
  same("another request", foreign(["1 A DONE R1 00000000 00"], ...head, "A R2 00000000")
    .includes("in the trace it is \"R2 00000000\""), true);
  same("too many", foreign(["1 A DONE R1 00000000 00"], ...head).includes("hasn't so many"), true);
  same("another process", foreign(["1 B ZERO 00000000 F0"], ...head), "the log has a process B, and the " +
    "trace hasn't");
  same("another frame", foreign(["FRAME 9 BAD", "FRAME 9 FREE A/00000000 MODIFY 0 REFS 0 SHARES 0"], ...head),
    "the log has a frame 9, and the trace has 8 frames");
}

// What `check` says of a line of the log.
function testVerdicts() {
  const said = "81 A ZERO 00000400 F1: the frame doesn't head the free list; F0 does";
  same("a verdict", Player.readVerdict(`LOG FAULT 81\nSTATUS 8\nneqysbar: log line 81: ${said}\n`),
    { line: 81, text: said });
  same("a missing line", Player.readVerdict(
    "neqysbar: log line 6 is missing: the log is right as far as it goes"),
    { line: 6, text: "the log is right as far as it goes" });
  same("no verdict", Player.readVerdict("LOG OK 4\nSTATUS 0\n"), null);
  same("no line", Player.readVerdict("neqysbar: log line 0: x"), null);
}

testReports();
testVerdicts();
testPieces();
testExamples();
testKinds();
testStanding();
testChangedDuringWrite();
testFailedWrite();
testCollision();
testServices();
testDeletion();
testHand();
testDifferences();
testBadInput();
testWords();
require("./words.js")(same).then(() => {
  console.log(`player model: ${passed} passed, ${failed} failed`);
  process.exit(failed ? 1 : 0);
});
