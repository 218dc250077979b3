"use strict";
// Why an entry was made, as far as the log tells it. A log that threads made (`replay`) follows other
// rules than one of `serial`, so what holds of serial's alone is said only where the log is known to be one.
(function (Player) {
  const WRITES = new Set(["OUT", "OUTOK", "OUTFAIL"]);
  const FAULT_WORDS = { ZERO: "a first touch, with zeros", BACK: "a soft fault, its frame was taken back",
    IN: "a hard fault, the page was read from disk" };

  function seatName(seat) {
    return { MPW: "the modified page writer", SWP: "the swapper" }[seat] || `process ${seat}`;
  }

  function blockName(block) {
    if (block[0] === "P") {
      return `page file block ${block.slice(2)}`;
    }
    const [owner, number] = block.slice(2).split("/");
    return block[0] === "X" ? `the swap block of ${owner}'s slot ${number}`
      : `block ${number} of section ${owner}`;
  }

  function counted(number, what) {
    return `${number} ${what}${number === 1 ? "" : "s"}`;
  }

  // ---- hit or fault ----

  // Whether the process was swapped in between its last answer and this one.
  function cameBack(run, request) {
    for (let line = request.first; line < request.last; line += 1) {
      const record = run.records[line - 1];
      if (record.kind === "TURN" && record.status === "COMING" &&
        record.process === request.record.seat) {
        return true;
      }
    }
    return false;
  }

  // What an answered reference cost: words, and whether it was a fault.
  function costOf(run, line) {
    const request = run && Player.requestOf(run, line);
    if (!request) {
      return { fault: false, why: "The page is mapped, the access is allowed, and the page is valid now." };
    }
    if (request.faults.length) {
      const last = request.faults[request.faults.length - 1];
      return { fault: true, why: `This reference was a page fault: line ${last} made the page valid first (${
        FAULT_WORDS[run.records[last - 1].kind]}).` };
    }
    return { fault: false, why: cameBack(run, request)
      ? "The reference itself has no fault: the process was swapped in for it, and the page came with it."
      : "A hit: the page was valid already, so nothing had to be done." };
  }

  // ---- writes ----

  // Whether the seat has a write of its cluster under way, of which this one is a further page.
  function inCluster(state, record) {
    return [...state.flights.values()].some((one) => one.kind === "OUT" && one.seat === record.seat &&
      one.block[0] !== "X");
  }

  // What the seat does after this cluster, if that is an eviction.
  function evictsNext(run, record, line) {
    for (let i = line; run && i < run.length; i += 1) {
      const next = run.records[i];
      if (next.seat === record.seat && !WRITES.has(next.kind)) {
        return next.kind === "EVICT";
      }
    }
    return false;
  }

  function writerReason(state, run, line) {
    const { HILIMIT, LOLIMIT, WAITLIMIT } = state.config.parameters;
    const pages = counted(state.modified.length, "page");
    if (run && line > run.rundown) {
      return state.modified.length >= WAITLIMIT && evictsNext(run, { seat: "MPW" }, line)
        ? `The run is over. The modified list has ${pages}, and WAITLIMIT is ${WAITLIMIT}: before a shared page ` +
          "can leave its working set, some are written."
        : "All requests are answered: this is the rundown, which writes changed shared pages back, whatever " +
          "the limits are.";
    }
    return run && run.serial
      ? `The list has ${pages}. The writer begins after an answer when there are more than HILIMIT, ${HILIMIT}, ` +
        `and goes on until at most LOLIMIT, ${LOLIMIT}, are left.`
      : `The list has ${pages}, more than LOLIMIT, ${LOLIMIT}: the writer goes on until at most that many are left.`;
  }

  // A process writes by itself for one of two reasons; the state, and what it does next, tell which.
  function ownWriteReason(state, record, run, line) {
    const { WAITLIMIT } = state.config.parameters;
    const lacks = state.free.length === 0;
    const full = state.modified.length >= WAITLIMIT;
    if (full && (!lacks || evictsNext(run, record, line))) {
      return `The modified list has ${counted(state.modified.length, "page")}, and WAITLIMIT is ${WAITLIMIT}: ` +
        `process ${record.seat} can evict no page to it before some are written.`;
    }
    return lacks ? `Process ${record.seat} needs a frame: the free list is empty, and writing a page frees one.`
      : `Why process ${record.seat} writes just now can't be known from the log: frames are free, and the list ` +
        `has fewer pages than WAITLIMIT, ${WAITLIMIT}.`;
  }

  function swapperReason(state, run) {
    const { FREELIM, FREEGOAL } = state.config.parameters;
    const free = `Frames that are free: ${state.free.length}.`;
    return run && run.serial
      ? `${free} The swapper begins after an answer when there are fewer than FREELIM, ${FREELIM}, and goes ` +
        `on until there are FREEGOAL, ${FREEGOAL}.`
      : `${free} The swapper has work while there are fewer than FREELIM, ${FREELIM}; one of a serial run ` +
        `goes on to FREEGOAL, ${FREEGOAL}.`;
  }

  // Why the page at the head of the modified list is written. The limits are known with the trace alone.
  function writeReason(state, record, run, line) {
    if (inCluster(state, record)) {
      return "It is written together with the page before: its block is the next one.";
    }
    if (!state.config.known) {
      return "Which limit asked for it isn't known without the trace.";
    }
    if (record.seat === "MPW") {
      return writerReason(state, run, line);
    }
    return record.seat === "SWP" ? swapperReason(state, run) : ownWriteReason(state, record, run, line);
  }

  // ---- limits and processes ----

  function limitReason(state, record) {
    const { AWSTIME, PFRATH, PFRATL, WSINC, WSDEC } = state.config.parameters;
    const had = `It had ${counted(record.faults, "fault")}`;
    if (!state.config.known) {
      return `${had} since the last adjustment.`;
    }
    const since = `${had} in ${counted(AWSTIME, "reference")}`;
    if (record.faults > PFRATH) {
      return `${since}, more than PFRATH, ${PFRATH}: it may rise by WSINC, ${WSINC}, up to the quota, and ` +
        "beyond it only where enough frames are free.";
    }
    return record.faults < PFRATL
      ? `${since}, fewer than PFRATL, ${PFRATL}: it falls by WSDEC, ${WSDEC}, as far as AWSMIN and locked pages allow.`
      : `${since}: neither more than PFRATH, ${PFRATH}, nor fewer than PFRATL, ${PFRATL}.`;
  }

  // Why a process has to leave: who lacks frames, and how many there are.
  function leavingReason(state, record, run) {
    if (record.seat === "SWP") {
      return state.config.known ? `No page waits to be written. ${swapperReason(state, run)}`
        : "The swapper needs free frames.";
    }
    const process = state.processes[Player.processNumber(record.seat)];
    const coming = process && process.status !== "RESIDENT" ? ", which is being swapped in," : "";
    const lists = `the free list has ${counted(state.free.length, "frame")}, and the modified list ${
      state.modified.length}`;
    return state.free.length
      ? `Why process ${record.seat}${coming} makes it leave just now can't be known from the log: ${lists}.`
      : `Process ${record.seat}${coming} needs a frame: ${lists}. The resident process that was answered ` +
        "longest ago has to leave.";
  }

  Player.reasons = { seatName, blockName, counted, costOf, writeReason, limitReason, leavingReason };
})(globalThis.Player = globalThis.Player || {});
