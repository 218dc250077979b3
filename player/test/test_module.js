#!/usr/bin/env node
"use strict";
// Tests the module for the web in node: node player/test/test_module.js
//
// What it writes is compared, each byte and the status, with what release/neqysbar writes and with what
// stands in examples/, on all examples and each command but replay, and on the whole corpus. Then it is run
// with too little memory, after traps, and a hundred times.
const child = require("child_process");
const fs = require("fs");
const os = require("os");
const path = require("path");
const { Worker, isMainThread } = require("worker_threads");
const zlib = require("zlib");

const TOP = path.join(__dirname, "..", "..");
const PROGRAM = path.join(TOP, "release", "neqysbar");
const BINDING = path.join(TOP, "player", "neqysbar.js");
const MODULE = path.join(TOP, "player", "neqysbar_module.js");
const MOST_SECONDS = 600;
const Neqysbar = require(BINDING);

let passed = 0;
let failed = 0;

function same(name, found, expected) {
  const isSame = expected instanceof Uint8Array ? Buffer.compare(found, expected) === 0 : found === expected;
  if (isSame) {
    passed += 1;
    return;
  }
  failed += 1;
  const shown = (value) => JSON.stringify(value instanceof Uint8Array ? text(value) : value).slice(0, 300);
  console.log(`${name}: found ${shown(found)}, expected ${shown(expected)}`);
}

function text(bytes) {
  return Buffer.from(bytes).toString("latin1");
}

// The kind of the Error of a call or a promise, or "none".
async function kindOf(call) {
  try {
    await call();
  } catch (fault) {
    return fault.kind || fault.name;
  }
  return "none";
}

function examples() {
  const folder = path.join(TOP, "examples");
  return [folder, path.join(folder, "lessons")].flatMap((one) =>
    fs.readdirSync(one).filter((name) => name.endsWith(".trace")).map((name) => path.join(one, name)));
}

// ---- the same as the program ----

function testStored(program) {
  for (const file of examples()) {
    const name = path.basename(file);
    const trace = fs.readFileSync(file);
    const stored = (ending) => fs.readFileSync(file.replace(/trace$/, ending));
    const { status, output } = program.run([/^LOG$/m.test(text(trace)) ? "check" : "serial"], trace);
    same(name, output, stored("out"));
    same(`${name}: status`, `STATUS ${status}\n`, text(output).match(/STATUS \d\n$/)[0]);
    if (fs.existsSync(file.replace(/trace$/, "dump"))) {
      same(`${name}: dump`, program.run(["dump"], trace).output, stored("dump"));
      same(`${name}: show`, program.run(["show"], stored("dump")).output, stored("shown"));
    }
  }
}

function testAgainstProgram(program) {
  const runs = child.spawnSync(PROGRAM, ["serial"], { input: "" });
  if (runs.error) {
    console.log(`not compared with release/neqysbar, which doesn't run here: ${runs.error.message}`);
    return;
  }
  function compare(words, input) {
    const wanted = child.spawnSync(PROGRAM, words, { input, maxBuffer: 1 << 28 });
    const found = program.run(words, input);
    same(`${words.join(" ")}: output`, found.output, wanted.stdout);
    same(`${words.join(" ")}: status`, found.status, wanted.status);
    return found.output;
  }
  for (const file of examples()) {
    const trace = fs.readFileSync(file);
    const log = compare(["serial"], trace);
    compare(["check"], Buffer.concat([trace, Buffer.from("LOG\n"), log]));
    compare(["check"], trace);
    compare(["show"], compare(["dump"], trace));
    compare(["show"], trace);
    for (const frames of ["1", "3", "16", "x"]) {
      compare(["study", "--process", "A", "--frames", frames], trace);
    }
  }
  for (const [seed, procs, refs] of [[0, 1, 1], [7, 4, 500], [4294967295, 16, 3000], [1, 17, 5]]) {
    compare(["make", "--seed", `${seed}`, "--procs", `${procs}`, "--refs", `${refs}`], "");
  }
  for (const words of [[], [""], ["", "serial"], ["serial", "serial"], ["--help"], ["Serial"], ["é"]]) {
    compare(words, "VMTRACE 1\n");
  }
  compare(["serial"], Buffer.from([0, 255, 10, 13, 128]));
}

function testCommandLines(program) {
  same("replay is no command here", program.run(["replay"], fs.readFileSync(examples()[0])).status, 1);
  same("no words", text(program.run([], "").output), "STATUS 1\n");
}

// ---- the corpus ----

// Lines and counted bytes of a stream.
class Reader {
  constructor(stream) {
    this.chunks = stream[Symbol.asyncIterator]();
    this.held = Buffer.alloc(0);
  }

  async more() {
    const { value, done } = await this.chunks.next();
    this.held = done ? this.held : Buffer.concat([this.held, value]);
    return !done;
  }

  async line() {
    while (!this.held.includes(10)) {
      if (!await this.more()) {
        return null;
      }
    }
    const end = this.held.indexOf(10);
    const line = this.held.subarray(0, end).toString();
    this.held = this.held.subarray(end + 1);
    return line;
  }

  async bytes(count) {
    const parts = [this.held];
    let length = this.held.length;
    while (length < count) {
      const { value } = await this.chunks.next();
      parts.push(value);
      length += value.length;
    }
    const whole = Buffer.concat(parts);
    this.held = whole.subarray(count);
    return whole.subarray(0, count);
  }
}

function answered(program, words, input) {
  try {
    return program.run(words, input);
  } catch (fault) {
    return { status: fault.message, output: new Uint8Array(0) };
  }
}

// The corpus's own runner asks for each run, and judges it.
async function testCorpus(program) {
  if (child.spawnSync("python3", ["--version"]).error) {
    console.log("the corpus isn't tried, since there is no python3");
    return;
  }
  const runner = child.spawn("python3", [path.join(__dirname, "corpus.py")],
    { stdio: ["pipe", "pipe", "inherit"] });
  const ended = new Promise((resolve) => runner.on("close", resolve));
  const asked = new Reader(runner.stdout);
  for (let line = await asked.line(); line !== null; line = await asked.line()) {
    const { words, length } = JSON.parse(line);
    const { status, output } = answered(program, words, await asked.bytes(length));
    runner.stdin.write(`${JSON.stringify({ status, length: output.length })}\n`);
    runner.stdin.write(output);
  }
  same("the corpus", await ended, 0);
}

// ---- memory, and what goes wrong ----

function moduleBytes() {
  return zlib.gunzipSync(Buffer.from(require(MODULE), "base64"));
}

// A number of a module's file, seven bits a byte from the lowest on: the number, and where it ends.
function readNumber(bytes, at) {
  let value = 0;
  for (let i = at, shift = 0; ; i += 1, shift += 7) {
    value += (bytes[i] & 127) * 2 ** shift;
    if (bytes[i] < 128) {
      return [value, i + 1];
    }
  }
}

function writtenNumber(value) {
  return value < 128 ? [value] : [value % 128 + 128, ...writtenNumber(Math.floor(value / 128))];
}

// The module, with memory that can't grow beyond so many pages, and how many it begins with.
function boundModule(most) {
  const bytes = moduleBytes();
  const MEMORY = 5;
  for (let at = 8; ;) {
    const [length, begin] = readNumber(bytes, at + 1);
    if (bytes[at] === MEMORY) {
      const [least] = readNumber(bytes, begin + 2);
      const body = [1, 1, ...writtenNumber(least), ...writtenNumber(Math.max(least, most))];
      const section = Buffer.from([MEMORY, body.length, ...body]);
      const bound = Buffer.concat([bytes.subarray(0, at), section, bytes.subarray(begin + length)]);
      return { least, module: new WebAssembly.Module(bound) };
    }
    at = begin + length;
  }
}

// With little memory a run ends with status 7 or an Error that says so, or else as it does with ample memory,
// and so does the next one.
async function testLittleMemory(ample) {
  const sort = fs.readFileSync(path.join(TOP, "examples", "sort-stack.trace"));
  const runs = [...examples().map((file) => [["serial"], fs.readFileSync(file)]), [["dump"], sort], [["check"], sort],
    [["study", "--process", "A", "--frames", "8"], sort],
    [["make", "--seed", "7", "--procs", "4", "--refs", "2000"], ""]];
  const counts = { whole: 0, status7: 0, memory: 0 };
  for (const more of [0, 1, 2, 3, 5, 8, 13, 21, 34, 55, 89, 144, 233]) {
    const program = new Neqysbar(boundModule(boundModule(0).least + more).module);
    for (const [words, input] of runs) {
      try {
        const { status, output } = program.run(words, input);
        const wanted = status === 7 ? { status, output: Buffer.from("STATUS 7\n") } : ample.run(words, input);
        same(`${words[0]} with ${more} pages more`, output, wanted.output);
        same(`${words[0]} with ${more} pages more: status`, status, wanted.status);
        counts[status === 7 ? "status7" : "whole"] += 1;
      } catch (fault) {
        same(`${words[0]} with ${more} pages more: ${fault.message}`, fault.kind, "memory");
        counts.memory += 1;
      }
    }
  }
  for (const [kind, count] of Object.entries(counts)) {
    same(`some run with little memory ends so: ${kind}`, count > 0, true);
  }
}

// After a call with a wild address, or in the middle of a run, the module traps; the run after the next works.
async function testTrap() {
  const module = new WebAssembly.Module(moduleBytes());
  const instance = new WebAssembly.Instance(module);
  const program = new Neqysbar(module, instance);
  const trace = fs.readFileSync(path.join(TOP, "examples", "first-run.trace"));
  const wanted = fs.readFileSync(path.join(TOP, "examples", "first-run.out"));
  const before = Buffer.from(trace);
  let trapped = "";
  try {
    instance.exports.neqysbar_run(0xfffffff0n, 64n, 0n, 0n, 0n, 0n, 0n);
  } catch (fault) {
    trapped = fault.name;
  }
  same("a wild address", trapped, "RuntimeError");
  same("a run after a trap", await kindOf(() => program.run(["serial"], trace)), "trap");
  same("the caller's input is as it was", trace, before);
  same("the run after that", program.run(["serial"], trace).output, wanted);
}

async function testMisuse(program) {
  same("a word with a byte 0", await kindOf(() => program.run(["serial\0x"], "")), "TypeError");
  same("a word that is none", await kindOf(() => program.run([7], "")), "TypeError");
  same("an input that is none", await kindOf(() => program.run(["serial"], undefined)), "TypeError");
  same("and the next run", program.run(["serial"], "").status, 2);
}

function testManyRuns(program) {
  const traces = examples().map((file) => fs.readFileSync(file));
  let afterTen = 0;
  for (let round = 1; round <= 100; round += 1) {
    traces.forEach((trace) => ["serial", "dump", "check"].forEach((command) => program.run([command], trace)));
    afterTen = round === 10 ? program.memoryBytes : afterTen;
  }
  same("memory after 100 rounds of the examples as after 10", program.memoryBytes, afterTen);
  same("nothing is in use", program.usedBytes, 0);
  console.log(`after 100 rounds of the examples the module has ${program.memoryBytes} bytes of memory`);
}

// A module that is damaged or isn't there is told in words, and a later load works.
async function testNoModule() {
  const folder = fs.mkdtempSync(path.join(os.tmpdir(), "neqysbar-"));
  fs.copyFileSync(BINDING, path.join(folder, "neqysbar.js"));
  const fresh = require(path.join(folder, "neqysbar.js"));
  same("no module", await kindOf(() => fresh.load()), "module");
  fs.copyFileSync(MODULE, path.join(folder, "neqysbar_module.js"));
  same("it is there", (await fresh.load()).run([], "").status, 1);
  fs.rmSync(folder, { recursive: true });
}

async function testDamagedModule() {
  delete require.cache[require.resolve(BINDING)];
  const fresh = require(BINDING);
  for (const damaged of ["AAAA", "!", require(MODULE).slice(0, 4000)]) {
    globalThis.NEQYSBAR_MODULE = damaged;
    same("a damaged module", await kindOf(() => fresh.load()), "module");
  }
  delete globalThis.NEQYSBAR_MODULE;
  same("a whole one after it", (await fresh.load()).run([], "").status, 1);
  same("no Worker in node", await kindOf(async () => (await fresh.loadWorker()).run([], "")), "module");
}

async function main() {
  const begun = Date.now();
  const program = await Neqysbar.load();
  const packed = Buffer.from(require(MODULE), "base64").length;
  console.log(`the module has ${moduleBytes().length} bytes, by gzip ${packed}`);
  testStored(program);
  testAgainstProgram(program);
  testCommandLines(program);
  await testMisuse(program);
  await testLittleMemory(program);
  await testTrap();
  testManyRuns(await Neqysbar.load());
  await testNoModule();
  await testDamagedModule();
  await testCorpus(program);
  const seconds = (Date.now() - begun) / 1000;
  console.log(`the module in node: ${passed} passed, ${failed} failed, in ${seconds.toFixed(1)} seconds`);
  process.exit(failed ? 1 : 0);
}

// The tests run in a thread of their own, so that this one ends them if a run has no end.
if (isMainThread) {
  const tests = new Worker(__filename);
  const late = setTimeout(() => {
    console.log(`the module in node: no end in ${MOST_SECONDS} seconds`);
    process.exit(1);
  }, MOST_SECONDS * 1000);
  tests.on("error", (fault) => console.log(`the module in node: ${fault.stack}`));
  tests.on("exit", (code) => {
    clearTimeout(late);
    process.exitCode = code;
  });
} else {
  main();
}
