"use strict";
// Tests what the panels count and draw from, without a page, against runs of the program.
//
//     node player/test/test_panels.js [PROGRAM]
//
// Status 0: all is as expected. Status 1: something differs.
const childProcess = require("child_process");
const fs = require("fs");
const path = require("path");
const vm = require("vm");

const Player = require("./load.js")();
const TOP = path.join(__dirname, "..", "..");
const PROGRAM = path.resolve(process.argv[2] || path.join(TOP, "release", "neqysbar"));
const OWN_FILES = ["grid_model.js", "trace_edit.js", "curve_model.js", "compare_model.js", "exercise.js",
  "lessons.js"];
let passed = 0;
let failed = 0;

for (const file of OWN_FILES) {
  const name = path.join(__dirname, "..", file);
  vm.runInThisContext(fs.readFileSync(name, "utf8"), { filename: name });
}

function same(name, found, expected) {
  const [one, other] = [JSON.stringify(found), JSON.stringify(expected)];
  if (one === other) {
    passed += 1;
    return;
  }
  failed += 1;
  console.log(`${name}: found ${one}, expected ${other}`);
}

// Runs the program, once for each of its inputs.
const runs = new Map();
function program(words, text) {
  const key = [...words, text].join("\0");
  if (!runs.has(key)) {
    const run = childProcess.spawnSync(PROGRAM, words, { input: text, maxBuffer: 1 << 28, timeout: 60000 });
    runs.set(key, { status: run.status, output: String(run.stdout) });
  }
  return runs.get(key);
}

function readTrace(name) {
  return fs.readFileSync(path.join(TOP, "examples", `${name}.trace`), "utf8");
}

function gridOf(text, process, events) {
  return Player.gridOf(Player.makeRun(program(["serial"], text).output, text), process, events);
}

function tracesOf(folder) {
  return fs.readdirSync(path.join(TOP, "examples", folder)).filter((name) => name.endsWith(".trace"))
    .map((name) => path.join(folder, name.replace(/\.trace$/, "")))
    .filter((name) => program(["serial"], readTrace(name)).status % 5 === 0);
}

// ---- the grid ----

// What the slots hold after each reference, as the answers of the lesson on first in, first out give it,
// and what the ring of three leaves out: a page is struck where it gives way.
const BELADY = {
  3: ["1..", "12.", "123", "423", "413", "412", "512", "512", "512", "532", "534", "534"],
  4: ["1...", "12..", "123.", "1234", "1234", "1234", "5234", "5134", "5124", "5123", "4123", "4523"],
};
const BELADY_LEFT = { 3: "...1234..12.", 4: "......123451" };

function beladyWith(slots) {
  return readTrace("lessons/belady").replace(/^PROCESS A 3 3/m, `PROCESS A ${slots} ${slots}`);
}

function heldText(grid, at) {
  return grid.slice(0, at).map((slot) => (slot ? Player.pageLabel(slot.address, false) : ".")).join("");
}

function testBelady() {
  for (const slots of [3, 4]) {
    const grid = gridOf(beladyWith(slots), 0);
    const held = Player.gridWindow(grid, 0, grid.columns.length, false).slice(1);
    same(`${slots} slots: held`, held.map((one) => heldText(one.slots, slots)), BELADY[slots]);
    same(`${slots} slots: left`, grid.columns.map((column) => (column.left.length
      ? Player.pageLabel(column.left[0].address, false) : ".")).join(""), BELADY_LEFT[slots]);
    same(`${slots} slots: rows`, grid.rows, slots);
  }
  const grid = gridOf(beladyWith(3), 0);
  same("results", grid.columns.map((column) => column.result[0]).join(""), "fffffffhhffh");
  same("hits", Player.gridRate(grid.totals, "hits"), 0.25);
  same("hands", Player.gridWindow(grid, 0, 5, false).map((one) => one.hand), [0, 1, 2, 3, 1, 2]);
  same("words", Player.columnText(grid.columns[3], false),
    "Request 4, read of page 4: fault, first touch of a page of zeros; page 4 came in; page 1 left");
  same("words by address", Player.columnText(grid.columns[7], true), "Request 8, read of page 00000200: hit");
}

// Where one process meets no other limit, its faults are those of the ring that `study` counts.
function testRing() {
  const cases = [[beladyWith(3), 3], [beladyWith(4), 4], [readTrace("lessons/second-chance"), 2],
    [readTrace("recorded/sort"), 8], [readTrace("recorded/vax-sum"), 6], [readTrace("recorded/true"), 40]];
  for (const [text, frames] of cases) {
    const study = program(["study", "--process", "A", "--frames", String(frames)], text).output;
    same(`ring of ${frames}`, gridOf(text, 0).totals.faults,
      Number(new RegExp(`^RING ${frames} (\\d+)$`, "m").exec(study)[1]));
  }
}

// The rows of summary.py, which counts the entries of a log by another way.
function summaryOf(log) {
  const run = childProcess.spawnSync("python3", [path.join(TOP, "examples", "summary.py"), "--json"],
    { input: log, timeout: 60000 });
  return run.status === 0 ? new Map(String(run.stdout).trim().split("\n").map((line) => JSON.parse(line))
    .map((row) => [row.process, row])) : null;
}

function entriesOf(grid, ...kinds) {
  return grid.columns.reduce((sum, column) =>
    sum + column.faults.filter((fault) => kinds.includes(fault.kind)).length, 0);
}

function sameAsSummary(name, grid, row) {
  const { totals } = grid;
  same(`${name}: references`, [totals.references, totals.hits, totals.refused, totals.services, totals.left],
    [row.references, row.hits, row.denied, row.services, row.evicted]);
  same(`${name}: kinds`, [entriesOf(grid, "zero"), entriesOf(grid, "free"), entriesOf(grid, "modified"),
    entriesOf(grid, "shared"), entriesOf(grid, "written"), entriesOf(grid, "section", "pagefile", "swap"),
    entriesOf(grid, "collided")],
  [row.zero, row.free, row.modified, row.active, row.writing + row.release, row.read, row.collided]);
  same(`${name}: each reference is one thing`, totals.references, totals.hits + totals.faults + totals.refused);
}

function testSummaries() {
  const logs = ["", "lessons", "recorded"].flatMap(tracesOf)
    .map((name) => [name, readTrace(name), program(["serial"], readTrace(name)).output]);
  logs.push(["racing", readTrace("racing"), fs.readFileSync(path.join(TOP, "examples", "racing.log"), "utf8")]);
  for (const [name, text, log] of logs) {
    const rows = summaryOf(log);
    const run = Player.makeRun(log, text);
    run.config.processes.forEach((unused, p) => {
      const row = rows && rows.get(Player.letter(p));
      if (row) {
        sameAsSummary(`${name} ${Player.letter(p)}`, Player.gridOf(run, p), row);
        sameAsSummary(`${name} ${Player.letter(p)}, without events`, Player.gridOf(run, p, false),
          { ...row, evicted: Player.gridOf(run, p, false).totals.left });
      }
    });
  }
}

// A window holds what the run holds at the same lines, whichever window comes first.
function testWindows() {
  const text = readTrace("swapping");
  const run = Player.makeRun(program(["serial"], text).output, text);
  const grid = Player.gridOf(run, 0);
  const slots = (line) => Player.standAt(run, line).processes[0].slots.map((slot) => slot && slot.address);
  const expected = grid.columns.map((column) => slots(column.line));
  for (const [from, to] of [[3, 6], [0, 2], [1, 9], [5, 6]]) {
    const held = Player.gridWindow(grid, from, to, true);
    same(`window ${from} to ${to}`, held.slice(1).map((one) => one.slots.map((slot) => slot && slot.address)),
      expected.slice(from, to));
    same(`before window ${from}`, held[0].slots.map((slot) => slot && slot.address),
      from ? expected[from - 1] : [null, null, null, null]);
    same("frames", held[0].frames.length, 8);
  }
  same("the run stands where it stood", Player.standAt(run, 7) && run.at, 7);
  same("a swap out is a column", grid.columns.map((column) => column.kind[0] + column.left.length).join(" "),
    "r0 r0 r0 r0 e4 r0");
  same("without events", Player.gridOf(run, 0, false).columns.map((column) => column.left.length).join(""), "00004");
  same("columns of lines", [0, 1, 2, 3, 17, 30, 31, 56, 60].map((line) => Player.columnOfLine(grid, line)),
    [-1, 0, 0, 1, 4, 4, 5, 5, 5]);
}

function testServices() {
  const grid = gridOf(readTrace("services"), 0);
  const column = (number) => grid.columns[number - 1];
  same("services and refusals", grid.columns.map((one) => one.result[0]).join(""), "sffssrshfssrsssss");
  same("a refusal", [column(6).result, column(6).why], ["refused", "PROTECTED"]);
  same("words of a refusal", Player.columnText(column(12), false), "Request 12, read of page 2: refused, UNMAPPED");
  same("a limit", [column(10).service, column(10).limit, grid.limits], ["ADJWSL", 6, true]);
  same("a purge", [column(7).left.length, column(7).left[0].why], [1, "PURGE"]);
  const bare = Player.gridOf(Player.makeRun(program(["serial"], beladyWith(3)).output, ""), 0);
  same("a log without its trace", [bare.totals, bare.rows], [gridOf(beladyWith(3), 0).totals, 3]);
  same("its hand isn't known", Player.gridWindow(bare, 0, 1, false).map((one) => one.hand), [-1, -1]);
  same("empty run", gridOf(readTrace("no-requests"), 0).totals.references, 0);
}

// ---- numbers written into a trace ----

const MACHINE = ["VMTRACE 2", "! a comment", "FRAMES\t12  ", "PAGEFILE 8", "PARAM PFC 2", "BAD 3", "BAD 11",
  "PROCESS A 3 4 5 1", "PROCESS B 2 2 2 0", "MAPZERO A 00000000 1 UW", "BODY", "A R1 00000000", "END", ""].join("\n");

function statusOf(text) {
  return program(["serial"], text).status;
}

function linesOf(text, ...words) {
  return text.split("\n").filter((line) => words.includes(line.split(/\s/)[0])).map((line) => line.trim());
}

function testLimits() {
  const cases = [["A", 2, ["FRAMES\t12", "PROCESS A 2 4 5 1"]], ["A", 4, ["FRAMES\t12", "PROCESS A 4 4 5 1"]],
    ["A", 6, ["FRAMES\t12", "PROCESS A 6 6 6 1"]], ["A", 9, ["FRAMES\t14", "PROCESS A 9 9 9 1"]]];
  for (const [letter, limit, expected] of cases) {
    const written = Player.withLimit(MACHINE, letter, limit);
    same(`limit ${limit}`, linesOf(written, "FRAMES", "PROCESS").slice(0, 2), expected);
  }
  same("what it was", Player.withLimit(MACHINE, "A", 3), MACHINE);
  same("another process", linesOf(Player.withLimit(MACHINE, "B", 7), "PROCESS"),
    ["PROCESS A 3 4 5 1", "PROCESS B 7 7 7 0"]);
  same("CRLF stays", Player.withLimit(MACHINE.replaceAll("\n", "\r\n"), "A", 4),
    MACHINE.replaceAll("\n", "\r\n").replace("A 3 4", "A 4 4"));
}

// The program takes each number within the bounds, and refuses the next one beyond them.
function testBounds() {
  const texts = [MACHINE, MACHINE.replace("VMTRACE 2", "VMTRACE 1")];
  for (const text of texts) {
    const config = Player.parseTrace(text);
    const [least, most] = Player.limitBounds(config, 0);
    for (const limit of [least, 5, most]) {
      same(`limit ${limit} runs`, statusOf(Player.withLimit(text, "A", limit)), 0);
    }
    same("less is refused", statusOf(Player.withLimit(text, "A", least - 1)), 2);
    same("more is refused", statusOf(Player.withLimit(text, "A", most + 1)), 2);
    const [few, many] = Player.frameBounds(config);
    same("frames", [few, many, many + 1, 11].map((frames) => statusOf(Player.withFrames(text, frames))), [0, 0, 2, 2]);
  }
  const [few] = Player.frameBounds(Player.parseTrace(Player.withLimit(readTrace("lessons/belady"), "A", 9)));
  const more = Player.withFrames(Player.withLimit(readTrace("lessons/belady"), "A", 9), few);
  same("as few frames as the extent needs", [statusOf(more), statusOf(Player.withFrames(more, few - 1))], [0, 2]);
}

function testParameters() {
  for (const [name, [least, most]] of Object.entries(Player.PARAMETER_BOUNDS)) {
    const statuses = [least, most, most + 1].map((value) => statusOf(Player.withParameter(MACHINE, name, value)));
    same(`${name}`, statuses, [0, 0, 2]);
  }
  const set = (...pairs) => pairs.reduce((text, [name, value]) => Player.withParameter(text, name, value), MACHINE);
  same("a line that is there", linesOf(set(["PFC", 4]), "PARAM"), ["PARAM PFC 4"]);
  same("what follows", linesOf(set(["HILIMIT", 300]), "PARAM"),
    ["PARAM PFC 2", "PARAM HILIMIT 300", "PARAM WAITLIMIT 300"]);
  same("what goes before", linesOf(set(["HILIMIT", 5], ["WAITLIMIT", 3]), "PARAM"),
    ["PARAM PFC 2", "PARAM HILIMIT 3", "PARAM LOLIMIT 3", "PARAM WAITLIMIT 3"]);
  same("where it stands", set(["FREELIM", 2]).split("\n").slice(3, 7),
    ["PAGEFILE 8", "PARAM PFC 2", "PARAM FREELIM 2", "PARAM FREEGOAL 2"]);
}

// ---- the curve ----

// The rows that a document prints behind a command.
function printedRows(command) {
  const text = fs.readFileSync(path.join(TOP, "docs", "TEACHING.md"), "utf8").split(`$ ${command}`)[1];
  return text.split("\n").map((line) => line.trim().split(/ +/).map(Number))
    .filter((row, i) => i > 1 && i < 20 && row.length === 4 && row.every((n) => n > 0));
}

async function testCurves() {
  const cases = [["lessons/belady", "python3 examples/study_curves.py examples/lessons/belady.trace A 5 belady.svg", 5],
    ["recorded/sort", "python3 examples/study_curves.py examples/recorded/sort.trace A 16 sort.svg", 16]];
  for (const [name, command, rows] of cases) {
    let last = null;
    let steps = 0;
    await Player.studyCurve(async (words, text) => program(words, text), readTrace(name), "A", 3, (curve) => {
      last = curve;
      steps += 1;
      return true;
    });
    const printed = printedRows(command);
    same(`${name}: rows`, printed.length, rows);
    same(`${name}: curve`, last.points.slice(0, rows).map((one) => [one.frames, one.ring, one.lru, one.least]),
      printed);
    same(`${name}: all of it`, [last.points.length, last.distinct, steps >= rows], [last.sizes.length, rows, true]);
  }
  const sizes = Player.curveSizes(700, 48);
  same("sizes of many pages", [sizes[0], sizes[sizes.length - 1], sizes.length <= 40, sizes.includes(48),
    sizes.every((size, i) => i === 0 || size > sizes[i - 1])], [1, 701, true, true, true]);
  let asked = 0;
  const stopped = async (words, text) => {
    asked += 1;
    return program(words, text);
  };
  await Player.studyCurve(stopped, readTrace("lessons/belady"), "A", 3, () => false);
  same("stopped", asked, 2);
  same("the key is the requests", Player.curveKey(beladyWith(3), "A"), Player.curveKey(beladyWith(4), "A"));
}

// ---- two runs ----

function testComparison() {
  const [belady, loop] = Player.COMPARISONS;
  const grids = belady.values.map((slots) => gridOf(Player.withLimit(belady.text, "A", slots), 0, false));
  const found = Player.compareGrids(...grids);
  same("Belady: first difference", [found.first, found.same, found.count], [3, true, 12]);
  same("Belady: hit in one alone", [...found.unlike], [4, 5, 7, 8, 11]);
  same("Belady: totals", Player.comparedTotals(grids[0].totals, grids[1].totals).slice(0, 4),
    [["references", 12, 12], ["hits", 3, 2], ["faults", 9, 10], ["first touches", 5, 5]]);
  same("outcomes", grids.map((grid) => Player.outcomeText(grid.columns[3], false)),
    ["fault, first touch of a page of zeros; page 4 came in; page 1 left",
      "fault, first touch of a page of zeros; page 4 came in"]);
  same("the lesson's string", linesOf(belady.text, "A"), linesOf(readTrace("lessons/belady"), "A"));
  const rings = loop.values.map((slots) => gridOf(Player.withLimit(loop.text, "A", slots), 0, false).totals.faults);
  const study = program(["study", "--process", "A", "--frames", "4"], loop.text).output;
  same("loop", rings, [Number(/^RING 4 (\d+)$/m.exec(study)[1]), 5]);
  const itself = Player.compareGrids(grids[0], grids[0]);
  same("itself", [itself.count, itself.first, itself.unlike.size, itself.same], [12, -1, 0, true]);
  const other = gridOf(readTrace("lessons/second-chance"), 0, false);
  const unlike = Player.compareGrids(grids[0], other);
  same("other requests", [unlike.same, unlike.count, unlike.first], [false, 24, 0]);
}

// The rows that lessons.py prints of the same runs: faults, and those from nowhere, from both lists, and read.
function lessonRows(name) {
  const run = childProcess.spawnSync("python3", [path.join(TOP, "examples", "lessons.py"), name],
    { env: { ...process.env, NEQYSBAR: PROGRAM }, timeout: 60000 });
  return run.status === 0 ? new Map(String(run.stdout).trim().split("\n").slice(1)
    .map((line) => line.trim().split(/ +/).map(Number)).map(([first, ...row]) => [first, row.slice(0, 5)])) : null;
}

function testSecondChance() {
  const named = (name) => Player.COMPARISONS.find((one) => one.name === name);
  const found = (text) => {
    const { totals } = gridOf(text, 0);
    return [totals.faults, totals.kinds.zero, totals.kinds.free, totals.kinds.modified, totals.kinds.pagefile];
  };
  const [frames, writer] = [lessonRows("frames"), lessonRows("writing")];
  if (frames && writer) {
    same("frames", named("frames").values.map((value) => found(Player.withFrames(named("frames").text, value))),
      [frames.get(12), frames.get(5)]);
    same("writer", named("writer").values.map((value) =>
      found(Player.withParameter(named("writer").text, "HILIMIT", value))), [writer.get(128), writer.get(2)]);
  }
}

// ---- exercises ----

function pythonDraws(seed, count) {
  const words = "import itertools, sys; sys.dont_write_bytecode = True; sys.path.insert(0, sys.argv[1]); " +
    "import made_trace; print(list(itertools.islice(made_trace.draws(int(sys.argv[2])), int(sys.argv[3]))))";
  const run = childProcess.spawnSync("python3", ["-c", words, path.join(TOP, "examples"), String(seed), String(count)],
    { timeout: 60000 });
  return run.status === 0 ? JSON.parse(String(run.stdout)) : null;
}

// The pages of a list at the end of a run, as `show` prints them of its dump.
function shownList(trace, name) {
  const dump = childProcess.spawnSync(PROGRAM, ["dump"], { input: trace, timeout: 60000 }).stdout;
  const lines = String(childProcess.spawnSync(PROGRAM, ["show"], { input: dump, timeout: 60000 }).stdout).split("\n");
  const begin = lines.findIndex((line) => line.startsWith(`LIST ${name} `));
  const frames = lines.slice(begin + 1, begin + 1 + Number(lines[begin].split(" ")[2])).map((line) => line.slice(4));
  return frames.map((f) => lines.find((line) => line.startsWith(`FRAME ${f} `))).filter(Boolean)
    .map((line) => Number(/#0\/(\d+)/.exec(line)[1]) + 1);
}

function testDraws() {
  for (const seed of [0, 1, 7, 4294967295]) {
    const draws = pythonDraws(seed, 30);
    const draw = Player.drawsOf(seed);
    const { references } = Player.exerciseOf({ seed, pages: 5, slots: 3, references: 12 });
    if (draws) {
      same(`draws of ${seed}`, draws.map(draw), draws);
      same(`writes of ${seed}`, references.map((one) => one.write),
        references.map((one, i) => draws[2 * i + 1] % 3 === 0));
      same(`pages of ${seed}`, references.map((one) => one.page - 1), references.map((one, i) => (i > 0 &&
        draws[2 * i] % 5 === references[i - 1].page - 1 ? (draws[2 * i] + 1) % 5 : draws[2 * i] % 5)));
    }
  }
}

// Each answer is what the program says by another of its commands.
function testAnswers() {
  const cases = [[1, 5, 3, 14], [2, 9, 6, 20], [3, 3, 2, 6], [4, 6, 3, 16], [4294967295, 7, 4, 12]];
  for (const [seed, pages, slots, references] of cases) {
    const name = `exercise ${seed}`;
    const exercise = Player.exerciseOf({ seed, pages, slots, references });
    const grid = gridOf(exercise.trace, 0, false);
    const questions = Player.questionsOf(exercise, grid);
    const study = program(["study", "--process", "A", "--frames", String(slots)], exercise.trace).output;
    same(`${name}: faults`, questions[0].answer, [Number(new RegExp(`^RING ${slots} (\\d+)$`, "m").exec(study)[1])]);
    same(`${name}: reads`, questions[1].answer, [program(["serial"], exercise.trace).output.split("\n")
      .filter((line) => / IN .* FAULT /.test(line)).length]);
    const lists = questions.filter((question) => question.list);
    const at = Number(/after reference (\d+)/.exec(lists[0].text)[1]);
    const lines = exercise.trace.split("\n");
    const cut = [...lines.slice(0, lines.indexOf("BODY") + 1 + at), "END", ""].join("\n");
    same(`${name}: lists`, lists.map((one) => one.answer), [shownList(cut, "FREE"), shownList(cut, "MODIFIED")]);
    same(`${name}: again`, Player.questionsOf(exercise, gridOf(exercise.trace, 0, false)), questions);
  }
  same("answers", ["none", " 3, 1;2 ", "", "x", "0 1"].map(Player.readAnswer), [[], [3, 1, 2], null, null, [0, 1]]);
  same("right", [Player.isRight({ answer: [] }, []), Player.isRight({ answer: [1, 2] }, [2, 1]),
    Player.isRight({ answer: [] }, null)], [true, false, false]);
}

// The lessons' questions and answers are those of the documents.
function testLessons() {
  const { made, FILE } = require("./make_lessons.js");
  same("lessons.js is what make_lessons.js makes", fs.readFileSync(FILE, "utf8") === made(), true);
  same("lessons", Player.LESSONS.map((lesson) => lesson.number), [1, 2, 3, 4, 5, 6, 7, 8]);
  const text = ["TEACHING.md", "ANSWERS.md"].map((name) => fs.readFileSync(path.join(TOP, "docs", name), "utf8"))
    .join("\n");
  const lines = new Set(text.split("\n").map((line) => line.replace(/^\d+\. /, "")));
  const blocks = Player.LESSONS.flatMap((lesson) => lesson.items)
    .flatMap((item) => [...item.question, ...item.answer]);
  same("each text stands there", blocks.filter((block) => !block.code && !lines.has(block)), []);
  same("each code stands there", blocks.filter((block) => block.code && !text.includes(block.code)), []);
}

async function main() {
  const begun = Date.now();
  if (childProcess.spawnSync("python3", ["--version"]).error) {
    console.log("not compared with the Python scripts of examples/: there is no python3");
  }
  for (const test of [testBelady, testRing, testSummaries, testWindows, testServices, testLimits, testBounds,
    testParameters, testCurves, testComparison, testSecondChance, testDraws, testAnswers, testLessons]) {
    await test();
  }
  console.log(`${passed} comparisons passed, ${failed} failed, ${Date.now() - begun} ms`);
  process.exitCode = failed ? 1 : 0;
}

main();
