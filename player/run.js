"use strict";
// A whole log as a run that can be stood at any line: snapshots every so many lines, the series
// of the chart, the requests and what they cost, the problems that were found, and the searches.
(function (Player) {
  const REPORT_KINDS = new Set(["AT", "COUNTS", "FRAME", "BADFRAME", "PAGEFILE", "PROCESS"]);
  const FAULT_KINDS = new Set(["ZERO", "BACK", "IN"]);
  const ANSWER_KINDS = new Set(["DONE", "DENIED", "SERVED"]);
  const LINES_A_LOOK = 64;
  const NO_FAULTS = Object.freeze([]);

  function snapshotDistance(lines) {
    return Math.max(200, Math.ceil(lines / 200));
  }

  // Begins a run of a log's text and its trace's text; the trace may be empty. The run is whole when its
  // `advance(milliseconds)` has returned true; each call goes on for about so long. Of the options,
  // `serial` says that the log is known to be `serial`'s, and `distance` is that between snapshots.
  Player.beginRun = function (logText, traceText, options = {}) {
    const lines = Player.logLines(logText);
    if (!lines.length) {
      throw new Error("The log has no lines.");
    }
    const config = traceText ? Player.parseTrace(traceText)
      : Player.configOfLog(lines.map(Player.parseLine));
    const series = () => new Float64Array(lines.length + 1);
    const run = { records: [], config, length: lines.length, serial: Boolean(options.serial),
      distance: options.distance || snapshotDistance(lines.length), snapshots: [], problems: [],
      unknown: [], differences: null, compared: 0, requests: [], rundown: lines.length + 1,
      requestAt: new Int32Array(lines.length + 1).fill(-1),
      series: { faults: series(), free: series(), modified: series() } };
    const work = { lines, state: Player.openingState(config), report: { logged: [], counted: null },
      last: 0, faults: 0, open: config.processes.map(() => ({ lines: [], faults: NO_FAULTS })) };
    run.advance = (milliseconds) => advance(run, work, milliseconds);
    return run;
  };

  // The whole run at once.
  Player.makeRun = function (logText, traceText, options) {
    const run = Player.beginRun(logText, traceText, options);
    run.advance(Infinity);
    return run;
  };

  function isEntry(record) {
    return record.number !== undefined;
  }
  Player.isEntry = isEntry;

  function advance(run, work, milliseconds) {
    const until = milliseconds === Infinity ? Infinity : performance.now() + milliseconds;
    while (run.records.length < run.length) {
      playLine(run, work, run.records.length);
      if (run.records.length % LINES_A_LOOK === 0 && performance.now() > until) {
        return false;
      }
    }
    if (!run.state) {
      finish(run, work);
    }
    return true;
  }

  function finish(run, work) {
    notePoint(run, run.length, work);
    if (work.report.counted) {
      run.differences = Player.compareReports(work.report.logged, work.report.counted);
      run.compared = work.report.logged.length;
    }
    run.state = Player.copyState(run.snapshots[0]);
    run.at = 0;
  }

  function playLine(run, work, i) {
    const record = Player.parseLine(work.lines[i]);
    run.records.push(record);
    if (i % run.distance === 0) {
      run.snapshots.push(Player.copyState(work.state));
    }
    notePoint(run, i, work);
    if (!isEntry(record)) {
      takeOther(run, work, record, i + 1);
      return;
    }
    if (record.number !== work.last + 1) {
      run.problems.push({ line: i + 1, text: `number ${record.number} follows ${work.last}` });
    }
    work.last = record.number;
    noteRequest(run, work, record, i + 1);
    for (const text of Player.applyEntry(work.state, record)) {
      run.problems.push({ line: i + 1, text });
    }
  }

  function notePoint(run, line, work) {
    run.series.faults[line] = work.faults;
    run.series.free[line] = work.state.free.length;
    run.series.modified[line] = work.state.modified.length;
  }

  function takeOther(run, work, record, line) {
    if (record.kind === "UNKNOWN") {
      run.unknown.push({ line, text: record.text });
    }
    if (record.kind === "AT") {
      work.report.counted = Player.reportOf(work.state, work.last);
      run.rundown = line;
    }
    if (REPORT_KINDS.has(record.kind)) {
      work.report.logged.push(record.text);
    }
  }

  // Gathers the lines of a process up to its answer into one request: where it begins and ends in the
  // log, its line in the trace, and the lines of its faults. One without faults is a hit, if it is done.
  function noteRequest(run, work, record, line) {
    const p = record.seat.length === 1 ? Player.processNumber(record.seat) : -1;
    const open = work.open[p];
    const fault = isFault(work.state, record);
    work.faults += fault ? 1 : 0;
    if (!open) {
      return;
    }
    open.lines.push(line);
    if (fault) {
      open.faults = [...open.faults, line];
    }
    if (!ANSWER_KINDS.has(record.kind)) {
      return;
    }
    const asked = work.state.processes[p].answered;
    for (const one of open.lines) {
      run.requestAt[one] = run.requests.length;
    }
    run.requests.push({ process: p, index: asked, first: open.lines[0], last: line,
      faults: open.faults, record, text: (run.config.requests[p] || [])[asked] || "",
      traceLine: (run.config.requestLines[p] || [])[asked] || 0 });
    open.lines.length = 0;
    open.faults = NO_FAULTS;
  }

  // Whether an entry is a fault of a process: a first touch, a page taken back by a resident
  // process, or a read that a fault asked for.
  function isFault(state, record) {
    if (!FAULT_KINDS.has(record.kind)) {
      return false;
    }
    if (record.kind === "BACK") {
      const process = state.processes[Player.processNumber(record.process)];
      return Boolean(process) && process.status === "RESIDENT";
    }
    return record.kind !== "IN" || record.role === "FAULT";
  }
  Player.isFault = isFault;

  // The request that a line works for or answers, or null: the writer's and the swapper's lines have none.
  Player.requestOf = function (run, line) {
    const found = line > 0 ? run.requestAt[line] : -1;
    return found >= 0 ? run.requests[found] : null;
  };

  // Stands the run after so many lines; 0 is the opening state.
  Player.standAt = function (run, line) {
    const target = Math.max(0, Math.min(run.length, line));
    if (target < run.at || target - run.at > run.distance) {
      const index = Math.min(run.snapshots.length - 1, Math.floor(target / run.distance));
      run.state = Player.copyState(run.snapshots[index]);
      run.at = index * run.distance;
    }
    while (run.at < target) {
      const record = run.records[run.at];
      if (isEntry(record)) {
        Player.applyEntry(run.state, record);
      }
      run.at += 1;
    }
    return run.state;
  };

  // The next fault line of a process after the given line, or 0. Any process where it is empty.
  Player.nextFault = function (run, from, letter) {
    for (let line = from + 1; line <= run.length; line += 1) {
      const record = run.records[line - 1];
      if (FAULT_KINDS.has(record.kind) && (!letter || (record.process || record.seat) === letter)) {
        if (isFault(Player.standAt(run, line - 1), record)) {
          return line;
        }
      }
    }
    return 0;
  };

  // The line of the next or the last answer, seen from a line; 0 or the last line where there is none.
  Player.answerBeside = function (run, from, forward) {
    const isAnswer = (line) => ANSWER_KINDS.has(run.records[line - 1].kind);
    let line = from + (forward ? 1 : -1);
    while (line > 0 && line <= run.length && !isAnswer(line)) {
      line += forward ? 1 : -1;
    }
    return Math.max(0, Math.min(run.length, line));
  };

  // The words by which a line is found: the frame, page and block that it names, and the page
  // that its frame or its address had.
  function namesOf(state, record) {
    const names = new Set();
    const frame = record.frame !== undefined ? state.frames[record.frame] : null;
    if (record.frame !== undefined) {
      names.add(`F${record.frame}`);
    }
    [record.page, record.block, frame && frame.page].forEach((name) => name && names.add(name));
    if (record.address) {
      const letter = record.process || record.seat;
      const address = Player.pageAddress(Player.pageNumber(record.address));
      const process = Player.processNumber(letter);
      names.add(`${letter}/${address}`).add(Player.pageAt(state, process, address));
      const held = Player.frameAt(state, process, address);
      if (held >= 0) {
        names.add(`F${held}`).add(state.frames[held].page);
      }
    }
    return names;
  }

  // The next line about a frame (F3), a page (A/00000200, LIB/3) or a block (P:7), or 0.
  Player.nextAbout = function (run, from, name) {
    const begun = run.at;
    for (let line = from + 1; line <= run.length; line += 1) {
      const record = run.records[line - 1];
      const state = Player.standAt(run, line - 1);
      if (isEntry(record) ? namesOf(state, record).has(name)
        : record.page === name || `F${record.frame}` === name) {
        return line;
      }
    }
    Player.standAt(run, begun);
    return 0;
  };
})(globalThis.Player = globalThis.Player || {});
