"use strict";
// Says a line in words: what happened, why, and by which rule. The state is the one before it.
(function (Player) {
  const { seatName, blockName, counted, costOf, writeReason, limitReason, leavingReason } = Player.reasons;
  const MODES = { K: "kernel", E: "executive", S: "supervisor" };
  const WIDTHS = { 1: "byte", 2: "word", 4: "longword" };
  const EXPLAIN = {};

  function capital(text) {
    return text[0].toUpperCase() + text.slice(1);
  }

  function access(record) {
    const mode = MODES[record.operation[0]] ? ` in ${MODES[record.operation[0]]} mode` : "";
    const bare = mode ? record.operation.slice(1) : record.operation;
    const width = WIDTHS[bare[1]];
    return { mode, width, kind: bare[0] };
  }

  EXPLAIN.DONE = function (state, record, run, line) {
    const { mode, width, kind } = access(record);
    const where = `the ${width} at ${record.address}${mode}`;
    const what = {
      R: `reads ${where} and gets ${record.value}.`,
      W: `writes ${record.value} to ${where}.`,
      A: `adds ${record.value} to ${where} in one interlocked step; it held ${record.old} before.`,
    }[kind];
    const { fault, why } = costOf(run, line);
    return { what: `Process ${record.seat} ${what}`, why,
      rule: `Reference answered: ${fault ? "after its fault the page is valid" : "the page is valid"}` +
        `${kind === "R" ? "." : ", and a write sets the frame's modify mark."}` };
  };

  const DENIALS = {
    UNMAPPED: ["no mapping covers the address", "a reference to an unmapped page is refused"],
    PROTECTED: ["the page's protection code doesn't allow this access in this mode",
      "protection is judged after the mapping and before the page file"],
    PAGEFILEFULL: ["this would be the first touch of the page, and all blocks of the page file are charged to " +
      "other pages already", "a page is charged a block of the page file at its first touch"],
    DISKFAULT: ["a transfer that the process asked for has failed",
      "a failed transfer refuses at most one request, of the process that asked for it"],
  };

  EXPLAIN.DENIED = function (state, record) {
    const { mode, kind, width } = access(record);
    const what = { R: "read of", W: "write to", A: "addition to" }[kind];
    const [why, rule] = DENIALS[record.why];
    return { what: `Process ${record.seat}'s ${what} the ${width} at ${record.address}${mode} is refused: ` +
      `${record.why}.`,
      why: `${capital(why)}. Nothing is read or written.`, rule: `Refusal: ${rule}.` };
  };

  EXPLAIN.ZERO = function (state, record) {
    const page = Player.pageAt(state, Player.processNumber(record.seat), record.address);
    return { what: `Process ${record.seat} touches ${page} for the first time and gets frame ` +
      `F${record.frame}, filled with zeros.`,
      why: "The page is demand zero: it has no bytes on disk yet, so nothing is read. " +
        "It is charged one page file block, and counts as modified.",
      rule: "Demand zero fault: the frame is taken from the head of the free list." };
  };

  const BACK_REASONS = {
    FREE: "The frame is on the free list and still has the page's bytes.",
    MODIFIED: "The frame is on the modified list and still has the page's bytes.",
    WRITING: "The page is just being written to disk. The write goes on.",
    RELEASE: "The page left its working set while it was being written. The write goes on.",
    ACTIVE: "Another page table entry is valid for this frame; both share it now.",
  };

  EXPLAIN.BACK = function (state, record) {
    const page = state.frames[record.frame] ? state.frames[record.frame].page : "its page";
    const process = state.processes[Player.processNumber(record.process)];
    if (process && process.status === "COMING") {
      return { what: `${page} comes back into ${record.process}'s working set in frame ` +
        `F${record.frame}, in the slot that it left.`,
        why: "Process " + record.process + " is being swapped in, and its frame wasn't reused " +
          "meanwhile. It counts as modified again.",
        rule: "Inswap: a page that is still in memory comes back without a read." };
    }
    return { what: `Process ${record.process} has a page fault on ${page}, which is still in frame F${record.frame}.`,
      why: `${BACK_REASONS[record.state]} No read is needed.`,
      rule: record.state === "ACTIVE" ? "Shared page fault: the page table entry names the frame that is in use."
        : "Soft page fault: the page becomes valid again without a transfer." };
  };

  EXPLAIN.COLLIDE = function (state, record) {
    return { what: `${capital(seatName(record.seat))} has a page fault on the page of frame ` +
      `F${record.frame}, which is just being read.`,
      why: `The read that line ${record.start} began is still open. Nothing is read a second time.`,
      rule: "Collided page fault: the later process waits for the read of the first." };
  };

  EXPLAIN.REUSE = function (state, record) {
    const error = state.frames[record.frame] && state.frames[record.frame].state === "READERROR";
    return { what: `Frame F${record.frame} gives up ${record.page} and is empty now.`,
      why: error ? "Its read failed, so its bytes are of no use."
        : "It is at the head of the free list, and a page needs a frame.",
      rule: error ? "Read error: the frame is emptied and goes to the head of the free list."
        : "Frames are taken from the head of the free list; if the page is needed again, it has to be read." };
  };

  // A private page that is read from a section's block is a first copy on reference.
  function copyReason(state, record) {
    const page = Player.pageAt(state, Player.processNumber(record.process), record.address);
    return state.config.known && record.block[0] === "S" && Player.isPrivate(page)
      ? " It is copy on reference: from now on it is the process's own, is charged to the page " +
        "file, and counts as modified." : "";
  }

  EXPLAIN.IN = function (state, record) {
    const from = `A read of ${blockName(record.block)} into frame F${record.frame} begins`;
    if (record.role === "NEAR") {
      return { what: `${from}, for ${record.page}.`,
        why: "Nobody has asked for this page yet. Its block follows the one before in the cluster.",
        rule: "Read cluster: neighbours are read along with the page that was asked for." };
    }
    const page = `${record.process}/${record.address}`;
    return record.role === "COME"
      ? { what: `${from}, for ${page}.`,
        why: `Process ${record.process} is being swapped in, and this page's frame was reused.`,
        rule: "Inswap: pages that are no longer in memory are read from their swap blocks." }
      : { what: `${from}, for ${seatName(record.seat)}'s fault at ${record.address}.`,
        why: "No frame holds the page, so its bytes have to come from disk." +
          copyReason(state, record),
        rule: "Hard page fault: the frame is taken from the head of the free list." };
  };

  EXPLAIN.INOK = function (state, record) {
    const flight = state.flights.get(record.frame);
    const page = flight ? flight.page : "the page";
    const near = flight && flight.role === "NEAR";
    return { what: `The read of ${page} into frame F${record.frame} succeeded.`,
      why: near ? "The page was read as a neighbour. It waits at the tail of the free list."
        : `The page is in the working set of ${flight ? `process ${flight.process}` : "its process"} now.`,
      rule: near ? "Read cluster: neighbours become free pages that a fault can take back."
        : "End of a read: the page table entry becomes valid." };
  };

  function failures(record) {
    return `Failed transfers of this block: ${record.before} before, ${record.after} now.`;
  }

  EXPLAIN.INFAIL = function (state, record) {
    return { what: `The read into frame F${record.frame} that line ${record.start} began has failed.`,
      why: failures(record), rule: "Read error: the next line empties the frame." };
  };

  EXPLAIN.OUT = function (state, record, run, line) {
    const frame = state.frames[record.frame];
    const swap = record.block[0] === "X";
    return { what: `${capital(seatName(record.seat))} begins to write ` +
      `${frame ? frame.page : "a page"} from frame F${record.frame} to ${blockName(record.block)}.`,
      why: swap ? "Its process is leaving memory, and the page goes to the swap block of its slot."
        : `The frame is at the head of the modified list, and can't be reused before its page is written. ${
          writeReason(state, record, run, line)}`,
      rule: swap ? "Outswap: private pages are written to swap blocks."
        : "Modified page writing: pages are taken from the head of the modified list." };
  };

  EXPLAIN.OUTOK = function (state, record) {
    const frame = state.frames[record.frame];
    const flight = state.flights.get(record.frame);
    const where = flight ? blockName(flight.block) : "its block";
    if (frame && frame.modify) {
      return { what: `The write of frame F${record.frame} to ${where} succeeded.`,
        why: "The page was changed while it was written, so it has to be written again.",
        rule: "A change during a write isn't lost: the modify mark stays." };
    }
    return { what: `The write of frame F${record.frame} to ${where} succeeded: ` +
      `${frame ? frame.page : "the page"} is on disk now.`,
      why: frame && frame.shares ? "The page is still in a working set, so its frame stays active."
        : "No working set has the page, so its frame goes to the tail of the free list.",
      rule: "End of a write: the frame of an unmodified page that no working set has is free." };
  };

  EXPLAIN.OUTFAIL = function (state, record) {
    return { what: `The write of frame F${record.frame} that line ${record.start} began has failed.`,
      why: failures(record),
      rule: "A failed write loses nothing: the page counts as modified again." };
  };

  const EVICT_REASONS = {
    REPLACE: ["its working set is at its limit$, and this is the first page, from the hand on, that " +
      "isn't locked", "Replacement: the search begins at the hand, and skips locked pages"],
    PURGE: ["it asked to purge this range", "Purge: pages of the range that aren't locked leave"],
    DELETE: ["it deletes this range", "Deletion: valid pages leave before the range is unmapped"],
    LEAVE: ["it is being swapped out", "Outswap: the working set is emptied"],
    RUNDOWN: ["all requests are answered, and shared pages are written back at the end",
      "Rundown: shared pages leave all working sets"],
  };
  const EVICT_STATES = {
    ACTIVE: "Others still share the frame, so it stays active.",
    RELEASE: "A transfer of the frame is still open, so it is released when that ends.",
    FREE: "The page is unmodified: its frame goes to the tail of the free list.",
    MODIFIED: "The page is modified: its frame goes to the tail of the modified list.",
  };

  EXPLAIN.EVICT = function (state, record) {
    const [reason, rule] = EVICT_REASONS[record.why];
    const process = state.processes[Player.processNumber(record.process)];
    const why = reason.replace("$", process && process.limit ? `, ${process.limit} pages` : "");
    const page = state.frames[record.frame] ? state.frames[record.frame].page : "The page";
    return { what: `${page} in frame F${record.frame} leaves the working set of process ` +
      `${record.process}.`,
      why: `${record.why === "RUNDOWN" ? capital(why) : `Process ${record.process}: ${why}`}. ${
        EVICT_STATES[record.state]}`,
      rule: `${rule}.` };
  };

  EXPLAIN.LIMIT = function (state, record) {
    const process = state.processes[Player.processNumber(record.seat)];
    const old = process ? process.limit : 0;
    const way = record.limit > old ? "is raised" : record.limit < old ? "is lowered" : "stays";
    return { what: `The working set limit of process ${record.seat} ${way}: ${old} before, ` +
      `${record.limit} now.`,
      why: limitReason(state, record),
      rule: "Automatic adjustment: many faults raise the limit, few faults lower it." };
  };

  const TURNS = {
    LEAVING: ["begins to be swapped out", ""],
    GONE: ["is swapped out", "All pages that aren't locked in memory have left its working set."],
    COMING: ["begins to be swapped in", "It has a request to make, and its pages have to be in memory."],
    RESIDENT: ["is in memory again", "All pages that left with it are back in its working set."],
  };

  EXPLAIN.TURN = function (state, record, run) {
    const what = TURNS[record.status][0];
    const why = TURNS[record.status][1] || leavingReason(state, record, run);
    return { what: `Process ${record.process} ${what}; this is the work of ${seatName(record.seat)}.`, why,
      rule: `Swapper: the status of process ${record.process} is ${record.status} now.` };
  };

  const SERVICE_NAMES = {
    CRETVA: "maps new demand zero pages", DELTVA: "deletes pages",
    SETPRT: "sets the protection of pages", LKWSET: "locks pages in its working set",
    ULWSET: "unlocks pages of its working set", LCKPAG: "locks pages in memory",
    ULKPAG: "unlocks pages in memory", PURGWS: "purges pages from its working set",
    ADJWSL: "sets its working set limit",
  };
  const ANSWERS = {
    INUSE: "Refused: some page of the range is mapped already.",
    UNMAPPED: "Refused: some page of the range isn't mapped.",
    LOCKLIMIT: "Refused: more pages would be locked than the process may lock.",
    BADLIMIT: "Refused: the limit would be below what locked pages need, or above the number of slots.",
    DISKFAULT: "Refused: a transfer that the service needed has failed.",
  };

  EXPLAIN.SERVED = function (state, record) {
    const range = record.service === "ADJWSL" ? ` to ${record.limit}`
      : ` (${record.pages} from ${record.address} on)`;
    const count = record.counted === undefined ? "" : `, for ${counted(record.counted, "page")}`;
    return { what: `Process ${record.seat} ${SERVICE_NAMES[record.service]}${range}: ` +
      `${record.answer}.`,
      why: record.answer === "OK" ? `The service is done${count}.` : ANSWERS[record.answer],
      rule: `System service ${record.service}.` };
  };

  // ---- the lines that are no entries ----

  EXPLAIN.AT = (state, record) => ({ what: `The report begins: ${record.entries} entries came ` +
    "before it.", why: "All requests are answered.", rule: "Report of the page frames." });
  EXPLAIN.COUNTS = () => ({ what: "How many frames are in each state.", why: "",
    rule: "Report of the page frames." });
  EXPLAIN.FRAME = (state, record) => ({ what: `Frame F${record.frame} is ${record.state} and holds ` +
    `${record.page}.`,
    why: `It ${record.modify ? "has to be written before it is reused" : "is unmodified"}; ` +
      `page table entries that are valid for it: ${record.shares}; references that hold it: ${record.refs}.`,
    rule: "Report of the page frames." });
  EXPLAIN.BADFRAME = (state, record) => ({ what: `Frame F${record.frame} is bad and never used.`,
    why: "The trace says so.", rule: "Report of the page frames." });
  EXPLAIN.PAGEFILE = (state, record) => ({ what: `The page file has ${record.size} blocks: ` +
    `${record.charged} are charged to pages, and ${record.assigned} are assigned.`, why: "",
    rule: "Report of the page file." });
  EXPLAIN.PROCESS = (state, record) => ({ what: `Process ${record.process} is ${record.status}, ` +
    `with ${record.count} pages in its working set and a limit of ${record.limit}.`, why: "",
    rule: "Report of the processes." });
  EXPLAIN.DIRTY = (state, record) => ({ what: `The change of ${record.page} was never written to ` +
    "its section.", why: "Its last write failed, or it could not leave a working set.",
    rule: "Rundown: each shared page that couldn't be written back is listed." });
  const STATUSES = ["the run is whole", "the command line is wrong",
    "the input isn't a trace", "reading the input failed", "writing the output failed",
    "a change of a shared page wasn't written back", "a block could not be made", "out of memory",
    "the log isn't legal"];
  EXPLAIN.STATUS = (state, record) => ({ what: `The program ended with status ${record.status}: ` +
    `${STATUSES[record.status]}.`, why: "", rule: "Exit status." });
  EXPLAIN.TRACE = (state, record) => ({ what: `Line ${record.line} of the trace was refused: ` +
    `${record.cause}.`, why: "It is the first faulty line.", rule: "Trace format." });
  EXPLAIN.UNFINISHED = () => ({ what: "The trace ended before its END line.", why: "",
    rule: "Trace format." });
  EXPLAIN.UNKNOWN = (state, record) => ({ what: `This line isn't known to the player: ` +
    `${record.text}`, why: "It is skipped. What is shown from here on may be wrong.",
    rule: "No rule of the log's format fits it." });

  // What the line says, why, and by which rule. The state is the one before it. With the run and the
  // number of the line what came before and comes after it is known too.
  Player.explain = function (state, record, run, line) {
    return EXPLAIN[record.kind](state, record, run || null, line || 0);
  };
})(globalThis.Player = globalThis.Player || {});
