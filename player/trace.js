"use strict";
// Reads a trace: the machine, its sections and processes, their maps, and the requests.
// Where a log comes without its trace, what can be known is gathered from the log.
(function (Player) {
  const PAGE_BYTES = 512;
  const MOST_PAGES = 4096;
  const MOST_SLOTS = 1024;
  const MOST_FRAMES = 16384;
  const MOST_BLOCKS = 16384;
  Player.DEFAULTS = { PFC: 4, HILIMIT: 128, LOLIMIT: 32, WAITLIMIT: 256, WRTCLUSTER: 8, FREELIM: 0,
    FREEGOAL: 0, AWSTIME: 0, PFRATH: 16, PFRATL: 2, WSINC: 8, WSDEC: 4, AWSMIN: 4, BORROWLIM: 16 };

  function emptyConfig() {
    return { version: 1, frames: 0, bad: [], pagefile: 0, parameters: { ...Player.DEFAULTS },
      sections: new Map(), processes: [], maps: [], fails: [], requests: [], requestLines: [],
      known: true };
  }

  function number(word, what, most) {
    if (!/^[0-9]{1,10}$/.test(word || "")) {
      throw new Error(`${what} must be a decimal number, not "${word || ""}"`);
    }
    if (Number(word) > most) {
      throw new Error(`${what} is ${word}, and ${most} is the most`);
    }
    return Number(word);
  }

  function address(word) {
    if (!/^[0-9A-Fa-f]{1,8}$/.test(word || "")) {
      throw new Error(`an address must have one to eight hexadecimal digits, not "${word || ""}"`);
    }
    return parseInt(word, 16);
  }

  // The number of a process, from its letter, where the trace declared it.
  function processOf(config, letter) {
    const process = (letter || "").charCodeAt(0) - 65;
    if ((letter || "").length !== 1 || !(process >= 0 && process < config.processes.length)) {
      throw new Error(`"${letter || ""}" is no process of this trace`);
    }
    return process;
  }

  function sectionOf(config, name) {
    if (!config.sections.has(name)) {
      throw new Error(`"${name || ""}" is no section of this trace`);
    }
    return name;
  }

  function takeRequest(config, words, line) {
    const process = processOf(config, words[0]);
    (config.requests[process] = config.requests[process] || []).push(words.slice(1).join(" "));
    (config.requestLines[process] = config.requestLines[process] || []).push(line);
  }

  const DECLARATIONS = {
    VMTRACE: (config, w) => { config.version = number(w[1], "the version"); },
    LONGTRACE: (config, w) => { config.version = number(w[1], "the version"); },
    FRAMES: (config, w) => { config.frames = number(w[1], "the number of frames", MOST_FRAMES); },
    PAGEFILE: (config, w) => { config.pagefile = number(w[1], "the size of the page file", MOST_BLOCKS); },
    PARAM: (config, w) => { config.parameters[w[1]] = number(w[2], "a parameter"); },
    BAD: (config, w) => { config.bad.push(number(w[1], "a frame", config.frames - 1)); },
    SECTION: (config, w) => {
      config.sections.set(w[1], { kind: w[2], pages: number(w[3], "the number of pages") });
    },
    DATA: () => {},
    FAIL: (config, w) => { config.fails.push(w.slice(1).join(" ")); },
    PROCESS: (config, w) => {
      const [limit, quota, extent, locks] = w.slice(2, 6)
        .map((n) => number(n, "a bound", MOST_SLOTS));
      if (locks === undefined) {
        throw new Error("PROCESS needs a letter and four numbers");
      }
      config.processes.push({ limit, quota, extent, locks });
    },
    MAPZERO: (config, w) => {
      config.maps.push({ process: processOf(config, w[1]), page: address(w[2]) / PAGE_BYTES,
        pages: number(w[3], "the number of pages", MOST_PAGES), section: "", first: 0, protection: w[4] });
    },
    MAPSEC: (config, w) => {
      config.maps.push({ process: processOf(config, w[1]), page: address(w[2]) / PAGE_BYTES,
        pages: number(w[3], "the number of pages", MOST_PAGES), section: sectionOf(config, w[4]),
        first: number(w[5], "the first page"), protection: w[6] });
    },
  };

  // What the lines of a trace declare, up to END. Throws an error with the line's number.
  Player.parseTrace = function (text) {
    const config = emptyConfig();
    let place = "head";
    text.split("\n").forEach((line, i) => {
      const words = line.trim().split(/[ \t\r]+/);
      if (words[0] === "" || words[0][0] === "!" || place === "end") {
        return;
      }
      try {
        place = takeLine(config, words, place, i + 1);
      } catch (error) {
        throw new Error(`Line ${i + 1} of the trace: ${error.message}.`);
      }
    });
    checkConfig(config, place);
    return config;
  };

  function takeLine(config, words, place, line) {
    if (words[0] === "BODY" || words[0] === "END") {
      if ((words[0] === "BODY") !== (place === "head")) {
        throw new Error(`${words[0]} doesn't stand here`);
      }
      return words[0] === "BODY" ? "body" : "end";
    }
    if (place === "body") {
      takeRequest(config, words, line);
    } else if (Object.hasOwn(DECLARATIONS, words[0])) {
      DECLARATIONS[words[0]](config, words);
    } else {
      throw new Error(`"${words[0]}" isn't a word of a trace`);
    }
    return place;
  }

  function checkConfig(config, place) {
    if (!config.frames || !config.pagefile || !config.processes.length) {
      throw new Error("The trace has no FRAMES, no PAGEFILE or no PROCESS line.");
    }
    if (config.processes.length > 16) {
      throw new Error("The trace has more than 16 processes.");
    }
    if (place !== "end") {
      throw new Error("The trace ends before its END line.");
    }
  }

  // Whether a section's pages are shared, as far as the log's own lines show it.
  function sectionsOfLog(records) {
    const sections = new Map();
    for (const record of records) {
      const block = /^S:([A-Z0-9_]+)\//.exec(record.block || "");
      if (block && !sections.has(block[1])) {
        sections.set(block[1], { kind: "CRF", pages: 0 });
      }
    }
    for (const record of records) {
      const page = /^([A-Z][A-Z0-9_]+)\//.exec(record.page || "");
      if (page) {
        const known = sections.has(page[1]);
        sections.set(page[1], { kind: known ? "SHARED" : "PAGED", pages: 0 });
      }
    }
    return sections;
  }

  // What a log without its trace tells of the machine. `known` is false: the limits before the
  // first change, the number of ring slots, and the maps aren't in a log. Where the report isn't
  // there, the page file has the most blocks that it may have.
  Player.configOfLog = function (records) {
    const config = { ...emptyConfig(), known: false };
    config.pagefile = records.some((one) => one.kind === "PAGEFILE") ? 0 : MOST_BLOCKS;
    let processes = 0;
    for (const record of records) {
      if (record.kind === "COUNTS") {
        config.frames = record.FREE + record.MODIFIED + record.BAD + record.RELEASE +
          record.READERROR + record.WRITING + record.READING + record.ACTIVE;
      } else if (record.kind === "BADFRAME") {
        config.bad.push(record.frame);
      } else if (record.kind === "PAGEFILE") {
        config.pagefile = record.size;
      }
      const letter = record.process || (/^[A-P]$/.test(record.seat || "") ? record.seat : "");
      processes = Math.max(processes, letter ? letter.charCodeAt(0) - 64 : 0);
      config.frames = Math.max(config.frames, (record.frame ?? -1) + 1);
    }
    config.frames = Math.min(config.frames, MOST_FRAMES);
    config.pagefile = Math.min(config.pagefile, MOST_BLOCKS);
    config.bad = config.bad.filter((f) => f < config.frames);
    const limits = new Map(records.filter((r) => r.kind === "PROCESS")
      .map((r) => [r.process, r.limit]));
    for (let p = 0; p < processes; p += 1) {
      const limit = limits.get(String.fromCharCode(65 + p)) || 0;
      config.processes.push({ limit, quota: 0, extent: 0, locks: 0 });
    }
    config.sections = sectionsOfLog(records);
    return config;
  };
})(globalThis.Player = globalThis.Player || {});
