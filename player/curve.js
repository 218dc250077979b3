"use strict";
// The panel with sliders for a process's limit and for the frames, and the curve of faults beside them. A
// slider writes its number into the trace, by the rules at the head of trace_edit.js. Numbers that follow
// it are counted from the trace as it was before the first move, so that going back gives that trace again.
(function (Player) {
  const { make, list, plural, percent, table, letters, keepKeys, whenSeen } = Player.panelParts;
  // While a study lasts, the curve so far is drawn each time that so long has passed.
  const LONG_MILLISECONDS = 150;
  // The limit's slider reaches at least so far, and that of the frames so far beyond its beginning.
  const LEAST_SCALE = 8;
  const FRAMES_BEYOND = 16;
  const box = document.getElementById("curve");
  const state = { letter: "A", key: "", curve: null, asked: 0, base: "", written: "", chosen: {} };

  // ---- the sliders ----

  function slider(title, change) {
    const input = Object.assign(make("input"), { type: "range", step: 1 });
    const value = make("b");
    input.addEventListener("input", () => {
      value.textContent = input.value;
      change(Number(input.value));
    });
    return { box: make("label", "slider", make("span", "slider-head", title, value), input), input, value };
  }

  function fill(one, value, [least, most]) {
    Object.assign(one.input, { min: least, max: most });
    one.input.value = value;
    one.value.textContent = String(value);
  }

  // The numbers that were chosen, written into the trace as it was before the sliders moved.
  function write(change) {
    Object.assign(state.chosen, change);
    let text = state.base;
    if (state.chosen.limit) {
      text = Player.withLimit(text, state.letter, state.chosen.limit);
    }
    if (state.chosen.frames) {
      const [least] = Player.frameBounds(Player.parseTrace(text));
      text = Player.withFrames(text, Math.max(least, state.chosen.frames));
    }
    state.written = text;
    Session.write(text);
  }

  function begin(text) {
    Object.assign(state, { base: text, written: "", chosen: {} });
  }

  const process = list("Process", (letter) => {
    state.letter = letter;
    begin(Session.text);
    show();
  });
  const limit = slider("Limit: pages of the working set", (value) => write({ limit: value }));
  const frames = slider("Frames of memory", (value) => write({ frames: value }));
  const note = make("p", "note");
  const follows = make("p", "note follows");
  const place = make("div", "curve-place");
  const cost = make("p", "curve-cost");
  const numbers = make("details", "numbers", make("summary", "", "The numbers"));
  numbers.open = innerWidth > 700;
  cost.setAttribute("role", "status");
  box.append(make("div", "controls", process.box, limit.box, frames.box), cost, note, follows,
    make("div", "curve-wrap", make("div", "curve-parts", place, numbers)));
  const chart = Player.curveChart(place, (value) => chooseLimit(value));
  keepKeys(box);

  function chooseLimit(value) {
    const [least, most] = [Number(limit.input.min), Number(limit.input.max)];
    if (value < least || value > most) {
      follows.textContent = `A limit is at least ${least} here, so ${value} can be studied, but not run.`;
      return;
    }
    write({ limit: value });
  }

  // ---- what is shown ----

  function usableRun() {
    const { run } = Session;
    return run && run.config.known && run.config.processes.length && Session.text ? run : null;
  }

  // The trace that the sliders begin from: the one that is written by hand, and not by them.
  function noteBase() {
    if (Session.text !== state.written && Session.text !== state.base) {
      begin(Session.text);
    }
  }

  function fillSliders(run) {
    const p = Player.processNumber(state.letter);
    const spec = run.config.processes[p];
    const base = Player.parseTrace(state.base);
    const distinct = state.curve ? state.curve.distinct : 0;
    const [least, most] = Player.limitBounds(run.config, p);
    fill(limit, spec.limit, [least, Math.min(most,
      Math.max(distinct + 1, spec.limit, base.processes[p].limit + 2, LEAST_SCALE))]);
    const [leastFrames, mostFrames] = Player.frameBounds(run.config);
    fill(frames, run.config.frames, [leastFrames, Math.min(mostFrames,
      Math.max(2 * base.frames, leastFrames + FRAMES_BEYOND, run.config.frames))]);
    const words = [state.letter, spec.limit, spec.quota, spec.extent, spec.locks];
    follows.replaceChildren(make("code", "", `PROCESS ${words.join(" ")}`), " and ",
      make("code", "", `FRAMES ${run.config.frames}`), ". Quota, extent and frames rise where the limit needs it; " +
      `with this extent there are at least ${leastFrames} frames.`);
  }

  function costText(grid) {
    const { totals } = grid;
    const parts = Player.FAULT_GROUPS.map(([group, words]) => [words, Player.FAULT_KINDS
      .filter((kind) => kind.group === group).reduce((sum, kind) => sum + totals.kinds[kind.name], 0)]);
    return `This run: ${plural(totals.references, "reference")}, ${plural(totals.faults, "fault")} (${
      percent(Player.gridRate(totals, "faults"))}): ${parts.map(([words, n]) => `${n} ${words}`).join(", ")}.`;
  }

  // Where a slot more costs the ring more faults.
  function anomalyText(points) {
    const at = points.findIndex((point, i) => i > 0 && point.ring > points[i - 1].ring);
    return at < 0 ? "" : `With ${points[at].frames} frames the ring has more faults than with ${
      points[at - 1].frames}, ${points[at].ring} and ${points[at - 1].ring}: Belady's anomaly.`;
  }

  function numbersTable(points, chosen) {
    const rows = points.map((point) => [String(point.frames), ...Player.CURVES.map((curve) =>
      String(point[curve.name]))]);
    const node = table("numbers-table", `Faults of process ${state.letter}`,
      [["frames", ...Player.CURVES.map((curve) => curve.short)], ...rows]);
    points.forEach((point, i) => {
      if (point.frames === chosen) {
        node.tBodies[0].rows[i].classList.add("chosen");
        node.tBodies[0].rows[i].setAttribute("aria-current", "true");
      }
    });
    return make("div", "numbers-box", node);
  }

  function showCurve(run, faults) {
    const chosen = run.config.processes[Player.processNumber(state.letter)].limit;
    const points = state.curve ? state.curve.points : [];
    note.textContent = anomalyText(points);
    chart.show({ points, letter: state.letter, limit: chosen, faults });
    numbers.replaceChildren(numbers.firstChild, numbersTable(points, chosen));
  }

  function show() {
    const run = usableRun();
    box.classList.toggle("without", !run);
    if (!run || Session.text !== Session.runText) {
      note.textContent = run ? "The trace has an error; the curve is that of the run before it."
        : "The curve needs a trace with a process.";
      [limit, frames].forEach((one) => { one.input.disabled = true; });
      return;
    }
    note.textContent = "";
    [limit, frames].forEach((one) => { one.input.disabled = false; });
    noteBase();
    state.letter = process.fill(letters(run), state.letter);
    process.box.hidden = run.config.processes.length < 2;
    const key = Player.curveKey(Session.text, state.letter);
    if (key !== state.key) {
      Object.assign(state, { key, curve: null, asked: state.asked + 1 });
      ask(state.asked);
    }
    const grid = Player.gridOf(run, Player.processNumber(state.letter));
    cost.textContent = costText(grid);
    fillSliders(run);
    showCurve(run, grid.totals.faults);
  }

  // ---- the study ----

  async function ask(number) {
    const { letter } = state;
    const run = usableRun();
    let shown = performance.now();
    if (!run) {
      return;
    }
    const chosen = run.config.processes[Player.processNumber(letter)].limit;
    try {
      await Player.studyCurve(Session.program, Session.text, letter, chosen, (curve) => {
        if (number !== state.asked) {
          return false;
        }
        state.curve = curve;
        if (performance.now() - shown > LONG_MILLISECONDS || curve.points.length === curve.sizes.length) {
          shown = performance.now();
          show();
        }
        return true;
      });
    } catch (error) {
      note.textContent = `The curve can't be counted: ${error.message}.`;
    }
  }

  const showSeen = whenSeen(box, show);
  Session.on("run", showSeen);
  Session.on("look", chart.draw);
})(globalThis.Player = globalThis.Player || {});
