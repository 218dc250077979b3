"use strict";
// An error in the trace in words: what its cause means, and which word of the line is meant, where that can
// be told from the line and the lines before it. Else it is the whole line.
(function (Player) {
  const MEANINGS = {
    LINETOOLONG: "the line has more than 255 bytes",
    NOTASCII: "a character of the line may not stand in a trace",
    TOOMANY: "there are more lines, sections, section pages, processes or requests than a trace may have",
    UNKNOWNWORD: "this word is none of those that may stand here",
    MISPLACED: "the line doesn't belong here, or has too many or too few words",
    NOSUCH: "no line before it declares this process, section or block",
    BADNUMBER: "this isn't a number of the form that belongs here",
    OUTOFRANGE: "a number or a range is beyond its bounds, or doesn't fit another one",
    UNALIGNED: "the address isn't a multiple of what it has to be",
    REPEATED: "this was declared before",
  };
  Player.ERROR_MEANINGS = MEANINGS;

  const HEADS = new Set(["VMTRACE", "LONGTRACE", "FRAMES", "PAGEFILE", "PARAM", "BAD", "SECTION", "DATA",
    "PROCESS", "MAPZERO", "MAPSEC", "FAIL", "BODY", "END"]);
  // LONGTRACE is a word of the first line alone.
  const LATER_HEADS = [...HEADS].filter((head) => head !== "LONGTRACE");
  const CODES = new Set("NA KW KR UW EW ERKW ER SW SREW SRKW SR URSW UREW URKW UR".split(" "));
  const OPERATION = /^[KESU]?(?:[RW][124]|A4)$/;
  const SERVICE = /^(?:CRETVA|DELTVA|SETPRT|LKWSET|ULWSET|LCKPAG|ULKPAG|PURGWS|ADJWSL)$/;
  const DECIMAL = /^[0-9]{1,10}$/;
  const HEXADECIMAL = /^[0-9A-Fa-f]{1,8}$/;

  // What each word of a line is, behind its first: p a process, a address, n number, h hexadecimal, s name of
  // a section, c protection code, k kind, m parameter, b block.
  const FORMS = { FRAMES: "n", PAGEFILE: "n", VMTRACE: "n", LONGTRACE: "n", PARAM: "mn", BAD: "n", SECTION: "skn",
    DATA: "snx", PROCESS: "pnnnn", MAPZERO: "panc", MAPSEC: "pansnc", FAIL: "bnnnnnnnnnnnnnnnn" };
  const REQUESTS = { CRETVA: "anc", DELTVA: "an", SETPRT: "anc", LKWSET: "an", ULWSET: "an", LCKPAG: "an",
    ULKPAG: "an", PURGWS: "an", ADJWSL: "n" };

  // The forms of lines, and what may stand in a place, as docs/FORMATS.md has them.
  const LINES = { VMTRACE: "VMTRACE 1 or VMTRACE 2, first of all", LONGTRACE: "LONGTRACE 2, first of all",
    FRAMES: "FRAMES n, second, 8 to 4096 (in version 2 to 16384)",
    PAGEFILE: "PAGEFILE n, third, 1 to 16384", PARAM: "PARAM name n", BAD: "BAD f, a frame below FRAMES",
    SECTION: "SECTION name SHARED n, or CRF n, or in version 2 PAGED n", DATA: "DATA name offset hex",
    PROCESS: "PROCESS x limit quota extent locks, with locks + 2 <= limit <= quota <= extent <= 1024",
    MAPZERO: "MAPZERO x addr n prot", MAPSEC: "MAPSEC x addr n name first prot",
    FAIL: "FAIL block, and 1 to 16 numbers", BODY: "BODY, once, after a PROCESS", END: "END, after BODY and the requests" };
  const REQUEST_LINE = "x R1 addr (or R2, R4), x W1 addr value (or W2, W4, A4), or x and a service";
  const PLACES = { c: `a protection code: ${[...CODES].join(", ")}`, k: "SHARED, CRF, or in version 2 PAGED",
    o: "R1, R2, R4, W1, W2, W4, A4, with K, E, S or U before it, or a service such as CRETVA",
    n: "a decimal number of 1 to 10 digits", a: "1 to 8 hexadecimal digits, without 0x",
    h: "1 to 8 hexadecimal digits, without 0x", p: "a process that a line PROCESS declares",
    s: "a section that a line SECTION declares", b: "a block of the machine, as S:LIB/3, P:7 or X:A/2" };

  // What would be right at a word, or on the line.
  function hintOf(cause, words, word) {
    const first = words.length ? words[0].text : "";
    const kind = word ? formOf(words)[words.indexOf(word)] : "";
    if (cause === "UNKNOWNWORD" && word === words[0]) {
      return `Before BODY a line begins with ${LATER_HEADS.join(", ")}; after it with a process's letter.`;
    }
    if (cause === "UNALIGNED") {
      const width = HEADS.has(first) || REQUESTS[words[1].text] ? 512 : words[1].text.slice(-1);
      return `Here it has to be a multiple of ${width}.`;
    }
    if (cause === "UNKNOWNWORD" && kind === "m") {
      return `The parameters are ${Object.keys(Player.DEFAULTS).join(", ")}.`;
    }
    if (["UNKNOWNWORD", "BADNUMBER", "NOSUCH"].includes(cause) && PLACES[kind]) {
      return `Here belongs ${PLACES[kind]}.`;
    }
    if (cause === "MISPLACED" || cause === "OUTOFRANGE") {
      return LINES[first] ? `The line's form: ${LINES[first]}.` : /^[A-P]$/.test(first) ? `The form: ${REQUEST_LINE}.` : "";
    }
    return "";
  }

  function formOf(words) {
    if (HEADS.has(words[0].text)) {
      return ` ${FORMS[words[0].text] || ""}`;
    }
    const operation = words[1] ? words[1].text : "";
    return `po${REQUESTS[operation] || "ah"}`;
  }

  function wordsOf(line) {
    return [...line.matchAll(/[^ \t\r]+/g)].map((found) => ({ text: found[0], start: found.index }));
  }

  function declaredBefore(lines, number) {
    const before = lines.slice(0, number - 1).map((line) => line.trim().split(/[ \t]+/));
    const names = (head) => new Set(before.filter((words) => words[0] === head).map((words) => words[1]));
    return { processes: names("PROCESS"), sections: names("SECTION") };
  }

  const KNOWN = {
    " ": () => true,
    o: (text) => OPERATION.test(text) || SERVICE.test(text),
    c: (text) => CODES.has(text),
    k: (text) => ["SHARED", "CRF", "PAGED"].includes(text),
    m: (text) => Object.hasOwn(Player.DEFAULTS, text),
  };

  // Whether a word is the one that a cause speaks of.
  const TESTS = {
    UNKNOWNWORD: (kind, text) => kind in KNOWN && !KNOWN[kind](text),
    BADNUMBER: (kind, text) => (kind === "n" && !DECIMAL.test(text)) ||
      ("ah".includes(kind) && !HEXADECIMAL.test(text)),
    NOSUCH: (kind, text, declared) => (kind === "p" && !declared.processes.has(text)) ||
      (kind === "s" && !declared.sections.has(text)) || kind === "b",
    UNALIGNED: (kind) => kind === "a",
    REPEATED: (kind) => "smnpb".includes(kind),
  };

  function wordOf(words, cause, declared) {
    if (cause === "UNKNOWNWORD" && !LATER_HEADS.includes(words[0].text) && !/^[A-P]$/.test(words[0].text)) {
      return words[0];
    }
    const form = formOf(words);
    if (cause === "OUTOFRANGE") {
      const numbers = words.filter((word, i) => form[i] === "n");
      return numbers.length === 1 && words.length === 2 ? numbers[0] : null;
    }
    return TESTS[cause] ? words.find((word, i) => i < form.length && TESTS[cause](form[i], word.text, declared))
      : null;
  }

  // The number of columns that a text takes, its tabs as wide as the editor shows them.
  function columns(text) {
    return [...text].reduce((at, letter) => (letter === "\t" ? at + 8 - (at % 8) : at + 1), 0);
  }

  // The error that the program's output names, or null: its line, what it means, and the columns of its word.
  Player.errorOf = function (text, output) {
    const found = /^TRACE (?:(\d+) ([A-Z]+)|UNFINISHED)$/m.exec(output);
    if (!found) {
      return null;
    }
    const lines = text.split("\n");
    if (!found[1]) {
      return { line: lines.length, cause: "UNFINISHED", word: "", start: 0, end: 0,
        said: "The trace ends before its line END." };
    }
    const [number, cause] = [Number(found[1]), found[2]];
    const line = lines[number - 1] || "";
    const odd = cause === "NOTASCII" ? /[^\t\r -~]/u.exec(line) : null;
    const words = wordsOf(line);
    const word = odd ? { text: odd[0], start: odd.index }
      : words.length ? wordOf(words, cause, declaredBefore(lines, number)) || null : null;
    const start = word ? columns(line.slice(0, word.start)) : 0;
    return { line: number, cause, word: word ? word.text : "", start,
      end: word ? start + columns(word.text) : Math.max(1, columns(line)),
      said: `Line ${number}${word ? `, "${word.text}"` : ""}: ${MEANINGS[cause] || cause}. ${
        hintOf(cause, words, word)}`.trim() };
  };
})(globalThis.Player = globalThis.Player || {});
