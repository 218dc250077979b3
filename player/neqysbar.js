"use strict";
/*
 * Neqysbar in JavaScript: the proved library, lowered to WebAssembly. It works in a page, one that is
 * opened from a file too, in a Worker, and in node, and needs no server and no network. It is tested in
 * Chromium and in node 20, and was tried in Firefox 153 and WebKitGTK.
 *
 *     const program = await Neqysbar.load();
 *     const { status, output } = program.run(["serial"], trace);
 *
 * Neqysbar.load()            a promise of a program that runs in the caller's thread. In a page it also loads
 *                            neqysbar_module.js, which lies beside this script, if that isn't there yet; in
 *                            node, by require("./neqysbar.js"), it reads it. A Worker of one's own has to
 *                            import both scripts.
 * program.run(words, input)  runs a command, at once: `words` are the words of a command line without the
 *                            program's name, `input` is what it reads, a Uint8Array or a text, which stands
 *                            for its bytes in UTF-8. Both stay as they are. It returns `status`, a number,
 *                            and `output`, a Uint8Array with what the command writes to standard output;
 *                            `new TextDecoder().decode(output)` is its text. `replay`, which runs by
 *                            threads, is no command here, and its status is 1. A word with a character of
 *                            number 0, or an input of another type, is a TypeError.
 * program.memoryBytes        how many bytes of memory the module has, and
 * program.usedBytes          how many of them are taken.
 *
 * Neqysbar.loadWorker()      a promise of a program that runs in a Worker of its own, so that the page goes
 *                            on meanwhile. In browsers alone.
 * worker.run(words, input)   a promise of the same status and output. Runs that are asked for while one is
 *                            made are made after it, in that order.
 * worker.stop()              ends the runs that were asked for, at once: each of their promises is rejected
 *                            with a Neqysbar.Error of the kind "stopped". The next run starts anew.
 *
 * What goes wrong is a Neqysbar.Error: its `message` is for a reader, and its `kind` one of
 *
 *     "module"    the module isn't there or is damaged, or it can't run here
 *     "memory"    there is no memory for the words, the input or the output
 *     "trap"      the engine broke the run off: the stack was too small, or the module is wrong
 *     "stopped"   the run was ended by stop()
 *
 * If memory runs out in the middle of a run, this is no Error: the status is 7, and the output `STATUS 7`,
 * as of the program. After a status 7, and after an Error, the instance with its memory is given up, and
 * the next run makes a new one.
 */
const Neqysbar = (function make(beside) {
  // The room that an output is first given: so much for each byte of input, as most commands write less,
  // but within these bounds. Where it is too little, the run is made again with enough.
  const ROOM_FOR_A_BYTE = 3;
  const LEAST_ROOM = 1 << 16;
  const MOST_ROOM = 1 << 26;
  const NO_MEMORY = 7;
  const NUMBER_BYTES = 8;

  class NeqysbarError extends Error {
    constructor(kind, message) {
      super(message);
      this.name = "Neqysbar.Error";
      this.kind = kind;
    }
  }

  function asError(kind, said, fault) {
    return fault instanceof NeqysbarError ? fault : new NeqysbarError(kind, `${said}: ${fault.message}`);
  }

  // ---- the module ----

  // NEQYSBAR_MODULE is a constant of the script neqysbar_module.js.
  function packedModule() {
    if (typeof NEQYSBAR_MODULE !== "undefined") {
      return NEQYSBAR_MODULE;
    }
    if (typeof document !== "undefined") {
      return scriptLoaded();
    }
    if (typeof require !== "undefined") {
      return require("./neqysbar_module.js");
    }
    throw new Error("neqysbar_module.js isn't there: import it first");
  }

  function scriptLoaded() {
    return new Promise((resolve, reject) => {
      const script = document.createElement("script");
      script.src = new URL("neqysbar_module.js", beside).href;
      script.onload = () => (typeof NEQYSBAR_MODULE === "undefined"
        ? reject(new Error("neqysbar_module.js holds no module")) : resolve(NEQYSBAR_MODULE));
      script.onerror = () => reject(new Error("neqysbar_module.js can't be read"));
      document.head.append(script);
    });
  }

  // A page that is opened from a file may fetch no other file, so the module is a text in a script.
  async function unpacked(text) {
    const letters = atob(text);
    const packed = new Uint8Array(letters.length);
    for (let i = 0; i < letters.length; i += 1) {
      packed[i] = letters.charCodeAt(i);
    }
    const stream = new Blob([packed]).stream().pipeThrough(new DecompressionStream("gzip"));
    return new Response(stream).arrayBuffer();
  }

  async function compileModule() {
    try {
      return await WebAssembly.compile(await unpacked(await packedModule()));
    } catch (fault) {
      throw asError("module", "Neqysbar can't be loaded", fault);
    }
  }

  let compiled = null;

  // The compiled module, one for all that is loaded; after a failure the next call tries again.
  function compiledModule() {
    if (!compiled) {
      compiled = compileModule();
      compiled.catch(() => {
        compiled = null;
      });
    }
    return compiled;
  }

  // ---- a run ----

  // The words as one text, in which each is ended by a byte 0.
  function lineOf(words) {
    for (const word of words) {
      if (typeof word !== "string" || word.includes("\0")) {
        throw new TypeError("a word of a command line is a text without a character of number 0");
      }
    }
    return new TextEncoder().encode(words.map((word) => `${word}\0`).join(""));
  }

  function bytesOf(input) {
    if (typeof input === "string") {
      return new TextEncoder().encode(input);
    }
    if (input instanceof Uint8Array) {
      return input;
    }
    throw new TypeError("the input of a run is a Uint8Array or a text");
  }

  class Neqysbar {
    #module;
    #instance;
    #length = 0; // of the last output

    // Of a WebAssembly.Module, and of an instance of it if there is one.
    constructor(module, instance = null) {
      this.#module = module;
      this.#instance = instance;
    }

    static async load() {
      const module = await compiledModule();
      try {
        return new Neqysbar(module, await WebAssembly.instantiate(module));
      } catch (fault) {
        throw asError("module", "Neqysbar can't be started", fault);
      }
    }

    static async loadWorker() {
      return new NeqysbarWorker(await compiledModule());
    }

    run(words, input) {
      return this.#written("neqysbar_run", lineOf(words), bytesOf(input));
    }

    get memoryBytes() {
      return this.#exports.memory.buffer.byteLength;
    }

    get usedBytes() {
      return Number(this.#exports.neqysbar_in_use());
    }

    get #exports() {
      try {
        this.#instance ||= new WebAssembly.Instance(this.#module);
      } catch (fault) {
        throw asError("memory", "there is no memory to start Neqysbar anew", fault);
      }
      return this.#instance.exports;
    }

    // What an export of the form of neqysbar_run returns and writes. After a fault nothing is freed: the
    // instance goes whole.
    #written(name, line, input) {
      const exports = this.#exports;
      try {
        const made = this.#called(exports, exports[name], line, input);
        if (made.status === NO_MEMORY) {
          this.#giveUp();
        }
        if (made.status === NO_MEMORY && made.output.length === 0) {
          throw new NeqysbarError("memory", "memory ran out for the words or the output");
        }
        return made;
      } catch (fault) {
        this.#giveUp();
        throw asError("trap", "the WebAssembly engine broke the run off", fault);
      }
    }

    #giveUp() {
      this.#instance = null;
      this.#length = 0;
    }

    // Lengths and addresses are numbers of 64 bits, here BigInts.
    #called(exports, call, line, input) {
      const taken = [this.#put(exports, line), this.#put(exports, input), this.#place(exports, NUMBER_BYTES)];
      const [lineAt, inputAt, numberAt] = taken;
      let room = Math.max(LEAST_ROOM, Math.min(ROOM_FOR_A_BYTE * input.length, MOST_ROOM), this.#length);
      for (;;) {
        const outputAt = this.#place(exports, room);
        const status = call(lineAt, BigInt(line.length), inputAt, BigInt(input.length), outputAt, BigInt(room),
          numberAt);
        this.#length = Number(new DataView(exports.memory.buffer).getBigUint64(Number(numberAt), true));
        if (this.#length <= room) {
          const output = this.#copy(exports, outputAt, this.#length);
          [...taken, outputAt].forEach((at) => exports.neqysbar_free(at));
          return { status, output };
        }
        exports.neqysbar_free(outputAt);
        room = this.#length;
      }
    }

    // Where so many bytes of the module's memory begin that are now the caller's.
    #place(exports, length) {
      const at = exports.neqysbar_room(BigInt(length));
      if (at === 0n) {
        throw new NeqysbarError("memory", `there is no memory for ${length} bytes more`);
      }
      return at;
    }

    #put(exports, bytes) {
      const at = this.#place(exports, bytes.length);
      new Uint8Array(exports.memory.buffer).set(bytes, Number(at));
      return at;
    }

    #copy(exports, at, length) {
      try {
        return new Uint8Array(exports.memory.buffer, Number(at), length).slice();
      } catch (fault) {
        throw asError("memory", `there is no memory for an output of ${length} bytes`, fault);
      }
    }
  }

  // ---- in a Worker ----

  // A Worker is made of a text, since a page that is opened from a file may make none of a file.
  const WORKER_TEXT = `"use strict";\n(${make})().answer();`;

  class NeqysbarWorker {
    #module;
    #worker = null;
    #asked = [];

    constructor(module) {
      this.#module = module;
    }

    // async, so that wrong words and inputs reject too
    async run(words, input) {
      lineOf(words);
      bytesOf(input);
      this.#start();
      return new Promise((resolve, reject) => {
        this.#asked.push({ resolve, reject });
        this.#worker.postMessage({ words, input });
      });
    }

    stop() {
      this.#end(new NeqysbarError("stopped", "the run was stopped"));
    }

    #start() {
      if (this.#worker) {
        return;
      }
      const url = URL.createObjectURL(new Blob([WORKER_TEXT], { type: "text/javascript" }));
      try {
        const worker = new Worker(url);
        worker.onmessage = ({ data }) => this.#answered(data);
        worker.onerror = (event) => {
          this.#end(new NeqysbarError("module", `the Worker ended: ${event.message || "it can't be started"}`));
        };
        worker.postMessage({ module: this.#module });
        this.#worker = worker;
      } catch (fault) {
        throw asError("module", "Neqysbar can't be started in a Worker", fault);
      } finally {
        URL.revokeObjectURL(url);
      }
    }

    #answered({ kind, message, status, output }) {
      const { resolve, reject } = this.#asked.shift();
      if (kind) {
        reject(new NeqysbarError(kind, message));
      } else {
        resolve({ status, output });
      }
    }

    #end(fault) {
      this.#worker?.terminate();
      this.#worker = null;
      this.#asked.splice(0).forEach(({ reject }) => reject(fault));
    }
  }

  // The Worker's own side: a module comes first, and then the runs.
  function answer() {
    let program = null;
    globalThis.onmessage = ({ data }) => {
      if (data.module) {
        program = new Neqysbar(data.module);
        return;
      }
      try {
        const made = program.run(data.words, data.input);
        postMessage(made, [made.output.buffer]);
      } catch ({ kind = "trap", message }) {
        postMessage({ kind, message });
      }
    };
  }

  return Object.assign(Neqysbar, { Error: NeqysbarError, answer });
})(typeof document === "undefined" ? "" : document.currentScript.src);

if (typeof module !== "undefined") {
  module.exports = Neqysbar;
}
