"use strict";
// The report of a state, and where the report in a log differs from it.
(function (Player) {
  const STATES = ["FREE", "MODIFIED", "BAD", "RELEASE", "READERROR", "WRITING", "READING", "ACTIVE"];
  Player.STATES = STATES;

  Player.countStates = function (state) {
    const counts = Object.fromEntries(STATES.map((name) => [name, 0]));
    for (const frame of state.frames) {
      counts[frame.state] += 1;
    }
    return counts;
  };

  function frameLine(frame, f) {
    return frame.state === "BAD" ? `FRAME ${f} BAD`
      : `FRAME ${f} ${frame.state} ${frame.page} MODIFY ${frame.modify} ` +
        `REFS ${Player.refsOf(frame)} SHARES ${frame.shares}`;
  }

  // The lines of the report after so many entries.
  Player.reportOf = function (state, entries) {
    const counts = Player.countStates(state);
    const lines = [`PFN AT ${entries}`, STATES.map((name) => `${name} ${counts[name]}`).join(" ")];
    state.frames.forEach((frame, f) => {
      if (frame.page || frame.state === "BAD") {
        lines.push(frameLine(frame, f));
      }
    });
    lines.push(`PAGEFILE ${state.config.pagefile} CHARGED ${state.charged} ` +
      `ASSIGNED ${state.assigned}`);
    state.processes.forEach((process, p) => {
      lines.push(`PROCESS ${Player.letter(p)} ${process.status} COUNT ${process.count} ` +
        `LIMIT ${process.limit}`);
    });
    return lines;
  };

  // What a report line is about, so that the two reports are compared line by line.
  function subject(line) {
    const words = line.split(" ");
    return words[0] === "FRAME" || words[0] === "PROCESS" ? `${words[0]} ${words[1]}` : words[0];
  }

  // The differences: pairs of the log's line and the player's, either one may be missing.
  Player.compareReports = function (logged, counted) {
    const mine = new Map(counted.map((line) => [subject(line), line]));
    const differences = [];
    for (const line of logged) {
      const other = mine.get(subject(line));
      if (other !== line) {
        differences.push({ logged: line, counted: other || "" });
      }
      mine.delete(subject(line));
    }
    for (const line of mine.values()) {
      differences.push({ logged: "", counted: line });
    }
    return differences;
  };
})(globalThis.Player = globalThis.Player || {});
