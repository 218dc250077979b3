"use strict";
// The step: the line in words, why, by which rule, what it changes, and the state after it.
(function (Player) {
  const { make, element, numbered } = Player;
  const FAULTS = { ZERO: "page fault: first touch", BACK: "page fault: soft", IN: "page fault: from disk",
    COLLIDE: "page fault: collided" };
  let verdict = null;
  let most = { free: 0, modified: 0 };

  // The same words with page numbers behind addresses, where they are wished. Values aren't addresses.
  function withNumbers(text) {
    return Session.numbers
      ? text.replace(/(\b[A-P]\/|\bat )([0-9A-F]{8})\b/g, (all, before, address) => before +
        numbered(address).replace("(", "(page "))
      : text;
  }

  function framesOf(record, state) {
    if (!Player.isEntry(record)) {
      return record.frame === undefined ? [] : [record.frame];
    }
    if (record.frame !== undefined) {
      return [record.frame];
    }
    return record.address ? [Player.frameAt(state, Player.processNumber(record.process || record.seat),
      record.address)] : [];
  }

  // The request that a process's line works for.
  function forRequest(run, line) {
    const request = Player.requestOf(run, line);
    if (!request || request.last === line || !request.text) {
      return "";
    }
    return `For ${Player.letter(request.process)}'s request ${request.index + 1}: ${request.text}`;
  }

  function showBadge(run, line) {
    const badge = element("badge");
    const record = line ? run.records[line - 1] : null;
    const request = Player.requestOf(run, line);
    let [text, kind] = ["", ""];
    if (request && (request.faults.includes(line) || record.kind === "COLLIDE")) {
      [text, kind] = [FAULTS[record.kind], "fault"];
    } else if (record && record.kind === "DONE" && request) {
      [text, kind] = request.faults.length ? ["done, after a page fault", "fault"] : ["hit", "hit"];
    } else if (record && record.kind === "DENIED") {
      [text, kind] = [["PAGEFILEFULL", "DISKFAULT"].includes(record.why) ? "page fault: refused" : "refused", "fault"];
    } else if (record && record.kind === "EVICT") {
      [text, kind] = ["a page leaves", "here"];
    }
    badge.hidden = !text;
    badge.textContent = text;
    badge.className = kind;
  }

  // What `check` says, at the line of which it says it; at the last one, if that line is missing.
  function showVerdict(run, line) {
    const here = verdict && line === Math.min(verdict.line, run.length);
    element("verdict").textContent = here ? `check says of line ${verdict.line}: ${verdict.text}` : "";
  }

  function putWords(words) {
    ["what", "why", "rule", "fit", "for"].forEach((id) => { element(id).textContent = withNumbers(words[id] || ""); });
  }

  function showWords(run, line, before) {
    showVerdict(run, line);
    showBadge(run, line);
    if (line === 0) {
      element("text").textContent = "Before the first line";
      putWords({ what: "All processes are resident with empty working sets, and all frames that aren't bad are " +
        "empty and free." });
      return;
    }
    const record = run.records[line - 1];
    const words = Player.explain(before, record, run, line);
    element("text").textContent = record.text;
    const problems = run.problems.filter((one) => one.line === line).map((one) => one.text);
    putWords({ ...words, for: forRequest(run, line), fit: problems.length
      ? `This line doesn't fit the state before it: ${problems.join("; ")}.` : "" });
  }

  function showChanges(changes) {
    const words = changes ? changes.words : [];
    const said = (words.length ? words : ["nothing in frames, lists or working sets"]).map(withNumbers);
    Player.fill(element("changes"), said.join("\n"), () => said.map((text) => make("li", text)));
  }

  // What is drawn of a line: the state after it, what changed, and which frames the line is about.
  function viewOf(run, line) {
    if (!line) {
      return { state: Player.standAt(run, 0), changes: null, record: null, here: [], most };
    }
    const record = run.records[line - 1];
    const before = Player.copyState(Player.standAt(run, line - 1));
    const state = Player.standAt(run, line);
    return { state, before, record, changes: Player.changesOf(before, state, record),
      here: framesOf(record, state), most };
  }

  function draw() {
    const { run, line } = Session;
    if (!run) {
      return;
    }
    const view = viewOf(run, line);
    showWords(run, line, view.before);
    showChanges(view.changes);
    Player.drawMemory(view);
    Player.drawProcesses(view);
    Player.drawDisk(view);
    Player.drawArrows(view.changes ? view.changes.moves : []);
  }

  // What the comparison of the log's report with the player's own gave.
  function drawReport(run) {
    const box = element("report");
    if (!run.differences) {
      box.replaceChildren(make("p", "The log has no report.", "note"));
    } else if (!run.differences.length) {
      box.replaceChildren(make("p", `The log's report (${run.compared} lines) agrees with the player's own state ` +
        "at its place.", "same"));
    } else {
      box.replaceChildren(make("p", `The log's report differs from the player's own state in ${
        run.differences.length} lines.`, "differs"), make("pre", run.differences.map(({ logged, counted }) =>
        `log:    ${logged || "(no such line)"}\nplayer: ${counted || "(no such line)"}`).join("\n\n")));
    }
  }

  Player.setVerdict = function (found) {
    verdict = found;
  };

  Player.startStep = function () {
    let drawn = null;
    Session.on("run", () => {
      const { run } = Session;
      if (run && run !== drawn) {
        drawn = run;
        verdict = null;
        most = { free: greatest(run.series.free), modified: greatest(run.series.modified) };
        Player.clearViews(run.config);
        drawReport(run);
      }
    });
    Session.on("line", draw);
    Session.on("look", draw);
  };

  function greatest(series) {
    return series.reduce((most, value) => Math.max(most, value), 0);
  }
})(globalThis.Player = globalThis.Player || {});
