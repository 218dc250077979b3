"use strict";
// Reads the lines of a log: the sixteen kinds of entry, the report, and the last lines.
// Each line becomes one record. A line that isn't known becomes a record of kind UNKNOWN.
(function (Player) {
  const PROCESS = "[A-P]";
  const ADDRESS = "[0-9A-F]{8}";
  const NUMBER = "(?:0|[1-9][0-9]*)";
  const VALUE = "[0-9A-F]{2}|[0-9A-F]{4}|[0-9A-F]{8}";
  const NAME = "[A-Z][A-Z0-9_]{1,14}";
  const STATE = "FREE|MODIFIED|BAD|RELEASE|READERROR|WRITING|READING|ACTIVE";
  const STATUS = "RESIDENT|LEAVING|GONE|COMING";
  const PAGE = `${PROCESS}/${ADDRESS}|${NAME}/${NUMBER}`;
  const BLOCK = `S:${NAME}/${NUMBER}|P:${NUMBER}|X:${PROCESS}/${NUMBER}`;
  const OPERATION = "[KES]?(?:R[124]|W[124]|A4)";
  const RANGE = `(${ADDRESS}) (${NUMBER})`;

  function whole(pattern) {
    return new RegExp(`^${pattern}$`);
  }

  // One pattern per kind of entry, and the names of its words in order.
  const ENTRIES = {
    DONE: [whole(`(${OPERATION}) (${ADDRESS}) (${VALUE})(?: (${ADDRESS}))?`),
      ["operation", "address", "value", "old"]],
    DENIED: [whole(`(${OPERATION}) (${ADDRESS})(?: (${VALUE}))? ` +
      "(UNMAPPED|PROTECTED|PAGEFILEFULL|DISKFAULT)"),
      ["operation", "address", "value", "why"]],
    REUSE: [whole(`F(${NUMBER}) (${PAGE})`), ["frame", "page"]],
    ZERO: [whole(`(${ADDRESS}) F(${NUMBER})`), ["address", "frame"]],
    BACK: [whole(`(${PROCESS}) (${ADDRESS}) F(${NUMBER}) (FREE|MODIFIED|WRITING|RELEASE|ACTIVE)`),
      ["process", "address", "frame", "state"]],
    COLLIDE: [whole(`(${ADDRESS}) F(${NUMBER}) (${NUMBER})`), ["address", "frame", "start"]],
    IN: [whole(`F(${NUMBER}) (${BLOCK}) (?:(FAULT|COME) (${PROCESS})/(${ADDRESS})|(NEAR) (${PAGE}))`),
      ["frame", "block", "role", "process", "address", "near", "page"]],
    INOK: [whole(`F(${NUMBER}) (${NUMBER})`), ["frame", "start"]],
    INFAIL: [whole(`F(${NUMBER}) (${NUMBER}) (${NUMBER}) (${NUMBER})`),
      ["frame", "start", "before", "after"]],
    OUT: [whole(`F(${NUMBER}) (${BLOCK})`), ["frame", "block"]],
    OUTOK: [whole(`F(${NUMBER}) (${NUMBER})`), ["frame", "start"]],
    OUTFAIL: [whole(`F(${NUMBER}) (${NUMBER}) (${NUMBER}) (${NUMBER})`),
      ["frame", "start", "before", "after"]],
    EVICT: [whole(`(${PROCESS}) (${ADDRESS}) F(${NUMBER}) ` +
      "(REPLACE|PURGE|DELETE|LEAVE|RUNDOWN) (ACTIVE|RELEASE|FREE|MODIFIED)"),
      ["process", "address", "frame", "why", "state"]],
    LIMIT: [whole(`(${NUMBER}) (${NUMBER})`), ["limit", "faults"]],
    TURN: [whole(`(${PROCESS}) (${STATUS})`), ["process", "status"]],
  };

  // The services: words before the answer.
  const SERVICES = {
    CRETVA: [whole(`${RANGE} (NA|KW|KR|UW|EW|ERKW|ER|SW|SREW|SRKW|SR|URSW|UREW|URKW|UR)`),
      ["address", "pages", "protection"]],
    DELTVA: [whole(RANGE), ["address", "pages"]],
    SETPRT: [whole(`${RANGE} (NA|KW|KR|UW|EW|ERKW|ER|SW|SREW|SRKW|SR|URSW|UREW|URKW|UR)`),
      ["address", "pages", "protection"]],
    LKWSET: [whole(RANGE), ["address", "pages"]],
    ULWSET: [whole(RANGE), ["address", "pages"]],
    LCKPAG: [whole(RANGE), ["address", "pages"]],
    ULKPAG: [whole(RANGE), ["address", "pages"]],
    PURGWS: [whole(RANGE), ["address", "pages"]],
    ADJWSL: [whole(`(${NUMBER})`), ["limit"]],
  };
  const ANSWER = whole(`(.*) (OK|OK ${NUMBER}|INUSE|UNMAPPED|LOCKLIMIT|BADLIMIT|DISKFAULT)`);

  // The lines that are no entries.
  const OTHERS = {
    AT: [whole(`PFN AT (${NUMBER})`), ["entries"]],
    COUNTS: [whole(`FREE (${NUMBER}) MODIFIED (${NUMBER}) BAD (${NUMBER}) RELEASE (${NUMBER}) ` +
      `READERROR (${NUMBER}) WRITING (${NUMBER}) READING (${NUMBER}) ACTIVE (${NUMBER})`),
      ["FREE", "MODIFIED", "BAD", "RELEASE", "READERROR", "WRITING", "READING", "ACTIVE"]],
    FRAME: [whole(`FRAME (${NUMBER}) (${STATE}) (${PAGE}) MODIFY ([01]) REFS (${NUMBER}) ` +
      `SHARES (${NUMBER})`), ["frame", "state", "page", "modify", "refs", "shares"]],
    BADFRAME: [whole(`FRAME (${NUMBER}) BAD`), ["frame"]],
    PAGEFILE: [whole(`PAGEFILE (${NUMBER}) CHARGED (${NUMBER}) ASSIGNED (${NUMBER})`),
      ["size", "charged", "assigned"]],
    PROCESS: [whole(`PROCESS (${PROCESS}) (${STATUS}) COUNT (${NUMBER}) LIMIT (${NUMBER})`),
      ["process", "status", "count", "limit"]],
    DIRTY: [whole(`DIRTY (${NAME}/${NUMBER})`), ["page"]],
    STATUS: [whole("STATUS ([0-8])"), ["status"]],
    TRACE: [whole(`TRACE (${NUMBER}) ([A-Z]+)`), ["line", "cause"]],
    UNFINISHED: [whole("TRACE UNFINISHED"), []],
  };

  const DECIMAL = new Set(["frame", "start", "before", "after", "limit", "faults", "pages",
    "entries", "modify", "refs", "shares", "size", "charged", "assigned", "count", "line",
    "FREE", "MODIFIED", "BAD", "RELEASE", "READERROR", "WRITING", "READING", "ACTIVE"]);

  // Puts the words that the pattern found into the record; false where it finds none.
  function take(record, [pattern, names], text) {
    const found = pattern.exec(text);
    if (!found) {
      return false;
    }
    names.forEach((name, i) => {
      const word = found[i + 1];
      if (word !== undefined) {
        record[name] = name === "status" && /^\d$/.test(word) || DECIMAL.has(name)
          ? Number(word) : word;
      }
    });
    return true;
  }

  function takeService(record, text) {
    const blank = text.indexOf(" ");
    record.service = text.slice(0, blank);
    const found = ANSWER.exec(text.slice(blank + 1));
    if (!found || !Object.hasOwn(SERVICES, record.service)) {
      return false;
    }
    const count = /^OK (\d+)$/.exec(found[2]);
    record.answer = count ? "OK" : found[2];
    if (count) {
      record.counted = Number(count[1]);
    }
    record.words = found[1];
    return take(record, SERVICES[record.service], found[1]);
  }

  const HEAD = /^([1-9][0-9]*) ([A-P]|MPW|SWP) ([A-Z]+) (.+)$/;

  function parseEntry(head, text) {
    const record = { kind: head[3], number: Number(head[1]), seat: head[2], text };
    if (record.kind === "SERVED") {
      return takeService(record, head[4]) ? record : null;
    }
    if (!Object.hasOwn(ENTRIES, record.kind) || !take(record, ENTRIES[record.kind], head[4])) {
      return null;
    }
    if (record.near) {
      record.role = record.near;
    }
    return record;
  }

  // The record of one line.
  Player.parseLine = function (text) {
    const head = HEAD.exec(text);
    if (head) {
      return parseEntry(head, text) || { kind: "UNKNOWN", text };
    }
    for (const kind of Object.keys(OTHERS)) {
      const record = { kind, text };
      if (take(record, OTHERS[kind], text)) {
        return record;
      }
    }
    return { kind: "UNKNOWN", text };
  };

  // The lines of a log; an empty end isn't a line.
  Player.logLines = function (text) {
    const lines = (text.includes("\r") ? text.replaceAll("\r\n", "\n") : text).split("\n");
    if (lines[lines.length - 1] === "") {
      lines.pop();
    }
    return lines;
  };

  // All records of a log, one per line.
  Player.parseLog = function (text) {
    return Player.logLines(text).map(Player.parseLine);
  };

  Player.ENTRY_KINDS = [...Object.keys(ENTRIES), "SERVED"];
})(globalThis.Player = globalThis.Player || {});
