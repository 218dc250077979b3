"use strict";
// From the editor to a run: a small trace runs at each key, a long one after a pause, in a Worker, and can be
// stopped. While the trace has an error the run before it stays. An opened log is played as it is.
(function (Player) {
  const { element } = Player;
  const PAUSE = 350;
  const SLICE = 25;
  const TELL_EVERY = 120;
  const SECONDS_EVERY = 500;
  let turn = 0;
  let waiting = 0;
  let clock = 0;
  let wanted = null;
  let foreign = "";

  function say(text, kind) {
    element("ran").textContent = text;
    element("ran").className = kind || "";
  }
  Player.say = say;

  function showStop(running, again) {
    element("stop").hidden = !running && !again;
    element("stop").textContent = running ? "Stop the run" : "Run again";
    element("stop").dataset.running = running ? "yes" : "";
  }

  function endWaiting() {
    clearTimeout(waiting);
    clearInterval(clock);
    if (element("stop").dataset.running) {
      Player.stopWorker();
    }
    showStop(false);
  }

  // ---- what came out ----

  function milliseconds(time) {
    return time < 0.1 ? "under 1 ms" : time < 10 ? `${time.toFixed(1)} ms` : time < 1000 ? `${Math.round(time)} ms`
      : `${(time / 1000).toFixed(1)} s`;
  }

  function counts(run) {
    const references = run.requests.filter(({ record }) => record.kind !== "SERVED").length;
    return `${references} reference${references === 1 ? "" : "s"}, ${run.series.faults[run.length]} faults, ${
      run.length} lines`;
  }

  // How many letters two texts have in common at their begin.
  function sameLetters(text, other) {
    let at = 0;
    while (at < text.length && text.charCodeAt(at) === other.charCodeAt(at)) {
      at += 1;
    }
    return at;
  }

  // The answer of the last request, if the end of the requests is what was changed: there are more of them, or the
  // last one is another; else 0.
  function newAnswer(run, text) {
    const last = run.requests[run.requests.length - 1];
    if (!last || !Session.run || Session.runText === text) {
      return 0;
    }
    const same = text.slice(0, sameLetters(text, Session.runText));
    const row = same.split("\n").length;
    const gone = Session.run.requests.filter((one) => one.traceLine >= row).length;
    return /^[ \t]*BODY/m.test(same) && last.traceLine >= row && gone < 2 ? last.last : 0;
  }

  // The line to stand at: what was asked for; else the answer of a new request at the end; else the same as before.
  function lineFor(run, text) {
    const line = wanted === null ? newAnswer(run, text) || Session.line : wanted;
    wanted = null;
    return Math.min(run.length, line);
  }

  // Says that the run that is shown isn't that of the trace as it is.
  function markStale(words) {
    document.body.classList.toggle("stale", Boolean(words && Session.run));
    element("stale").textContent = words;
  }

  function forgetRun(text) {
    Player.error = null;
    Session.run = null;
    markStale("");
    Session.put(text, null, 0);
  }

  function show(text, run, words) {
    foreign = run.foreign || "";
    showStop(false);
    say(words);
    Player.error = null;
    markStale("");
    Session.put(text, run, lineFor(run, text));
    Player.clearTrouble();
    if (!performance.getEntriesByName("first-run").length) {
      performance.mark("first-run");
    }
  }

  function showTraceError(text, error) {
    Player.error = error;
    markStale("The run before the error in the trace");
    say(error.said, "error");
    showStop(false);
    Session.put(text, null, 0);
    Player.clearTrouble();
  }

  const STATUSES = { 6: "A block could not be made.",
    7: "The run needs more memory than there is in this page. The trace is as it was." };

  // Whether the program made a log; else its answer is said.
  function isLog(text, { status, output }) {
    const error = Player.errorOf(text, output);
    if (error) {
      showTraceError(text, error);
    } else if (status !== 0 && status !== 5) {
      say(STATUSES[status] || `The program ended with status ${status}.`, "error");
      showStop(false, true);
    }
    return !error && (status === 0 || status === 5);
  }

  function showError(error) {
    showStop(false, true);
    say(error.kind === "stopped" ? "The run was stopped. The trace is as it was."
      : `${error.message}. The trace is as it was.`, error.kind === "stopped" ? "" : "error");
  }

  // ---- at once ----

  function runNow(text) {
    try {
      const begun = performance.now();
      const made = Player.runHere(["serial"], text);
      const time = performance.now() - begun;
      if (isLog(text, made)) {
        const run = Player.makeRun(made.output, text, { serial: true });
        show(text, run, `Ran in ${milliseconds(time)}: ${counts(run)}.`);
      }
    } catch (error) {
      showError(error);
    }
  }

  // ---- in pieces ----

  function pause() {
    return new Promise((resolve) => {
      const channel = new MessageChannel();
      channel.port1.onmessage = resolve;
      channel.port2.postMessage(0);
    });
  }

  // Plays a log in slices, so that the page answers meanwhile; null if something else is to be done.
  async function play(log, text, options) {
    const mine = turn;
    const run = Player.beginRun(log, text, options);
    let told = 0;
    while (!run.advance(SLICE)) {
      if (performance.now() - told > TELL_EVERY) {
        told = performance.now();
        say(`Reading the log: ${Math.floor((100 * run.records.length) / run.length)} %.`);
      }
      await pause();
      if (mine !== turn) {
        return null;
      }
    }
    return run;
  }

  async function runLong(text) {
    const mine = turn;
    const begun = performance.now();
    const tell = () => say(`Running in the background: ${Math.round((performance.now() - begun) / 1000)} s so far.`);
    showStop(true);
    markStale("The run before this change");
    say("Running in the background.");
    clock = setInterval(tell, SECONDS_EVERY);
    try {
      const made = await Player.runInWorker(["serial"], text);
      const time = performance.now() - begun;
      clearInterval(clock);
      if (mine === turn && isLog(text, made)) {
        const run = await play(made.output, text, { serial: true });
        if (run) {
          show(text, run, `Ran in ${milliseconds(time)}: ${counts(run)}.`);
        }
      }
    } catch (error) {
      clearInterval(clock);
      if (mine === turn) {
        showError(error);
      }
    }
  }

  // A log that was opened: with its trace, or without.
  async function openLog(log, text) {
    const mine = turn;
    try {
      const run = await play(log, text);
      if (!run) {
        return;
      }
      run.foreign = text ? Player.foreignTo(run.records, run.config) : "";
      show(text, run, `An opened log: ${counts(run)}. ${text ? "Change the trace, and the program runs it instead."
        : "Its trace isn't there: open it too, and rings and maps are exact."}`);
    } catch (error) {
      if (mine === turn) {
        say(error.message, "error");
        Player.showTrouble([error.message]);
      }
    }
  }

  // ---- from the editor ----

  // Runs what the editor has; of one who types a long trace, after a pause.
  function runEdited(typing) {
    const { text, log } = Player.editor.current();
    turn += 1;
    endWaiting();
    if (log) {
      openLog(log, text);
    } else if (!text.trim()) {
      forgetRun(text);
      say("Write a trace here, choose an example, or open a file.");
    } else if (Player.programTrouble) {
      forgetRun(text);
      say(Player.programTrouble, "error");
    } else if (!Player.programIsHere()) {
      say("The program is being loaded.");
    } else if (Player.isSmall(text)) {
      runNow(text);
    } else {
      say("A long trace: it runs when you pause.");
      waiting = setTimeout(() => runLong(text), typing ? PAUSE : 0);
    }
  }

  function onStop() {
    if (element("stop").dataset.running) {
      turn += 1;
      endWaiting();
      showError({ kind: "stopped" });
    } else {
      runEdited(false);
    }
  }

  // The line at which the next run is to stand.
  Player.wantLine = function (line) {
    wanted = line;
  };

  // What is wrong with the run as a whole; it stays as long as the run does.
  Player.troubles = function () {
    const { run } = Session;
    const list = [];
    if (!run) {
      return list;
    }
    if (foreign) {
      list.push(`This trace isn't this log's: ${foreign}. What is shown may be wrong; open the trace that the log ` +
        "was made from.");
    }
    if (run.unknown.length) {
      list.push(`${run.unknown.length} lines of the log aren't known to the player and are skipped:`);
      run.unknown.slice(0, 5).forEach(({ line, text }) => list.push(`  line ${line}: ${text}`));
    }
    if (run.problems.length && !foreign) {
      list.push(`${run.problems.length} lines don't fit the state before them:`);
      run.problems.slice(0, 5).forEach(({ line, text }) => list.push(`  line ${line}: ${text}`));
      if (!run.config.known) {
        list.push("  (The log was opened without its trace. Without it, pages of a section that " +
          "lies in the page file can't be told from private ones.)");
      }
    }
    if (run.differences && run.differences.length) {
      list.push("The log's report differs from the player's own state; see The run in numbers.");
    }
    return list;
  };

  Player.runAgain = () => runEdited(false);

  Player.startRunning = function () {
    element("stop").addEventListener("click", onStop);
    Player.editor.onChange(runEdited);
  };
})(globalThis.Player = globalThis.Player || {});
