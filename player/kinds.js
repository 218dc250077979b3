"use strict";
// What a text is: a log, a trace, both, or what the program prints of a trace that it refuses. And
// whether a log belongs to a trace.
(function (Player) {
  const CAUSES = { LINETOOLONG: "the line is too long", NOTASCII: "it has a byte that a trace hasn't",
    UNKNOWNWORD: "a word isn't one of those that may stand there", MISPLACED: "the line doesn't " +
    "belong there, or has too many or too few words", NOSUCH: "it names something that isn't declared",
    BADNUMBER: "a number isn't one", OUTOFRANGE: "a number is out of its range",
    UNALIGNED: "an address isn't a multiple of what it has to be",
    REPEATED: "something is given twice", TOOMANY: "there is more than a trace may have" };

  function firstLine(text) {
    return text.split("\n", 400).map((line) => line.trim())
      .find((line) => line !== "" && line[0] !== "!") || "";
  }

  // Why the program refused the input, where a text is its output of such a run; else empty.
  function refusal(text) {
    const found = /^TRACE (\d+) ([A-Z]+)\r?$/m.exec(text);
    if (found) {
      return `the program refused the trace: its line ${found[1]} has an error, since ` +
        `${CAUSES[found[2]] || found[2]}`;
    }
    if (/^TRACE UNFINISHED\r?$/m.test(text)) {
      return "the program refused the trace, which ends before its END line";
    }
    const status = /^STATUS ([1-8])\r?\s*$/.exec(text.trim());
    return status ? `it has no run, only the line STATUS ${status[1]}` : "";
  }

  // Sorts a text into { log } or { trace } or both; throws where it is neither.
  Player.sortText = function (text, name) {
    const first = firstLine(text);
    const cut = /^LOG[ \t]*\r?\n/m.exec(text);
    if (/^(VMTRACE|LONGTRACE)\b/.test(first)) {
      return cut ? { trace: text.slice(0, cut.index), log: text.slice(cut.index + cut[0].length) }
        : { trace: text };
    }
    const why = refusal(text);
    if (why) {
      throw new Error(`There is no log in ${name}: ${why}.`);
    }
    if (!first) {
      throw new Error(`${name} is empty.`);
    }
    if (!text.split("\n", 50).some((line) => Player.parseLine(line.trim()).kind !== "UNKNOWN")) {
      throw new Error(`${name} is neither a log nor a trace: its first line is "${
        first.slice(0, 80)}".`);
    }
    return { log: text };
  };

  // What `check` says beside status 8, as the number of the log's line and the words about it; null where a text
  // says nothing of the kind. The words begin with the line itself.
  Player.readVerdict = function (text) {
    const found = /\blog line ([1-9]\d*)(?: is missing)?: (.*\S)/.exec(text);
    return found ? { line: Number(found[1]), text: found[2] } : null;
  };

  function requestText(record) {
    if (record.kind === "SERVED") {
      return `${record.service} ${record.words}`;
    }
    const value = record.operation.includes("R") ? "" : ` ${record.value}`;
    return `${record.operation} ${record.address}${value}`;
  }

  function plainRequest(text) {
    return text.split(" ").map((word, i) => (i && /^[0-9A-Fa-f]+$/.test(word)
      ? word.toUpperCase().replace(/^0+(?=.)/, "") : word.replace(/^U(?=[RWA]\d)/, ""))).join(" ");
  }

  // Where a log can't be of a trace, in words: the first answer of each process has to be of its
  // first request, and so on. Empty where it may be.
  Player.foreignTo = function (records, config) {
    const at = config.processes.map(() => 0);
    for (const record of records) {
      const letter = record.process || (/^[A-P]$/.test(record.seat || "") ? record.seat : "");
      if (letter && Player.processNumber(letter) >= at.length) {
        return `the log has a process ${letter}, and the trace hasn't`;
      }
      if (record.kind === "FRAME" && record.frame >= config.frames) {
        return `the log has a frame ${record.frame}, and the trace has ${config.frames} frames`;
      }
      if (!["DONE", "DENIED", "SERVED"].includes(record.kind)) {
        continue;
      }
      const p = Player.processNumber(record.seat);
      const asked = (config.requests[p] || [])[at[p]];
      at[p] += 1;
      if (!asked) {
        return `the log answers request ${at[p]} of ${record.seat}, and the trace hasn't so many`;
      }
      if (plainRequest(asked) !== plainRequest(requestText(record))) {
        return `line ${record.number} of the log answers ${record.seat}'s request ${at[p]} as ` +
          `"${requestText(record)}", and in the trace it is "${asked}"`;
      }
    }
    return "";
  };
})(globalThis.Player = globalThis.Player || {});
