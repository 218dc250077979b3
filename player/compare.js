"use strict";
// The panel with two runs under each other: one trace with two limits, frames or parameters, or two traces.
// Both have the same columns, and are stepped by request.
(function (Player) {
  const { make, list, number, button, plural, percent, table, keepKeys, whenSeen } = Player.panelParts;
  const box = document.getElementById("compare");
  const OWN = "own";
  const FRAMES = "frames";
  const TRACE = "trace";
  const PIECE_MILLISECONDS = 25;
  const state = { source: Player.COMPARISONS[0].name, text: "", letter: "A", what: "", values: [0, 0], other: "",
    grids: null, found: null, at: 0, asked: 0 };

  // ---- controls ----

  const source = list("Compare", (name) => takeSource(name));
  const what = list("What differs", (name) => takeWhat(name, null));
  const process = list("Process", (letter) => {
    state.letter = letter;
    runBoth();
  });
  const fields = [0, 1].map((i) => number(["First run", "Second run"][i], 0, [0, 1], (value) => {
    state.values[i] = value;
    runBoth();
  }));
  const otherText = Object.assign(make("textarea"), { rows: 8, spellcheck: false, autocapitalize: "off" });
  otherText.setAttribute("aria-label", "The second run's trace");
  const otherBox = make("div", "other-trace", make("p", "note", "The second run's trace:"), otherText,
    make("p", "", button("Run it", () => takeOther(otherText.value)), " ",
      button("Take the trace of this page", () => takeOther(Session.text))));
  const note = make("p", "note");
  note.setAttribute("role", "status");
  const first = button("", () => step(state.found.first), "first-difference");
  const back = button("Request before", () => step(state.at - 1));
  const forward = button("Next request", () => step(state.at + 1));
  const said = make("div", "compare-said");
  said.setAttribute("aria-live", "polite");
  const place = make("div", "grid-place");
  const totals = make("div", "grid-totals");
  const moves = make("div", "panel-moves", back, forward, first);
  box.append(make("div", "controls", source.box, process.box, what.box, fields[0].box, fields[1].box), otherBox, note,
    moves, said, make("div", "grid-wrap", make("div", "grid-parts compare-parts", place, totals)));
  const drawn = Player.gridTable(place, "Two runs: references, and what the working set holds after each in both",
    (line, at) => step(at));
  keepKeys(box);

  // ---- what is compared ----

  function sources() {
    return [...Player.COMPARISONS.map((one) => [one.name, one.title]), [OWN, "the trace of this page"]];
  }

  function choices(config) {
    const limits = letterValues(config).map(([letter]) => [`limit ${letter}`, `limit of process ${letter}`]);
    const parameters = Object.keys(Player.PARAMETER_BOUNDS).map((name) => [name, `parameter ${name}`]);
    return [...limits, [FRAMES, "frames of memory"], ...parameters, [TRACE, "the whole trace"]];
  }

  function limitProcess(name) {
    return /^limit [A-P]$/.test(name) ? Player.processNumber(name[6]) : -1;
  }

  function boundsOf(config, name) {
    const p = limitProcess(name);
    return p >= 0 ? Player.limitBounds(config, p)
      : name === FRAMES ? Player.frameBounds(config) : Player.PARAMETER_BOUNDS[name];
  }

  function valueOf(config, name) {
    const p = limitProcess(name);
    return p >= 0 ? config.processes[p].limit : name === FRAMES ? config.frames : config.parameters[name];
  }

  function withValue(name, value) {
    return limitProcess(name) >= 0 ? Player.withLimit(state.text, name[6], value)
      : name === FRAMES ? Player.withFrames(state.text, value) : Player.withParameter(state.text, name, value);
  }

  function titleOf(i) {
    const value = state.values[i];
    const p = limitProcess(state.what);
    if (state.what === TRACE) {
      return ["First trace", "Second trace"][i];
    }
    return p >= 0 ? plural(value, "slot") : state.what === FRAMES ? plural(value, "frame") : `${state.what} ${value}`;
  }

  // ---- taking what is chosen ----

  function takeSource(name) {
    const preset = Player.COMPARISONS.find((one) => one.name === name);
    state.source = name;
    state.text = preset ? preset.text : Session.runText;
    const config = configOf(state.text);
    if (!config) {
      showNothing("This page has no trace that runs.");
      return;
    }
    state.letter = process.fill(letterValues(config), state.letter);
    process.box.hidden = config.processes.length < 2;
    takeWhat(what.fill(choices(config), preset ? preset.what : undefined), preset && preset.values);
  }

  function configOf(text) {
    try {
      return text ? Player.parseTrace(text) : null;
    } catch {
      return null;
    }
  }

  // A number beside the one that the trace has: one more, or one less where that is the most.
  function takeWhat(name, values) {
    const config = configOf(state.text);
    state.what = name;
    otherBox.hidden = name !== TRACE;
    fields.forEach((field) => { field.box.hidden = name === TRACE; });
    if (name === TRACE) {
      state.other = state.other || state.text;
      otherText.value = state.other;
    } else {
      const [least, most] = boundsOf(config, name);
      const value = Math.max(least, valueOf(config, name));
      state.values = values || [value, value < most ? value + 1 : value - 1];
      fields.forEach(({ input }, i) => Object.assign(input, { min: least, max: most, value: state.values[i] }));
      state.letter = limitProcess(name) >= 0 ? process.fill(letterValues(config), name[6]) : state.letter;
    }
    runBoth();
  }

  function letterValues(config) {
    return config.processes.map((unused, p) => [Player.letter(p), Player.letter(p)]);
  }

  function takeOther(text) {
    state.other = text;
    otherText.value = text;
    runBoth();
  }

  // ---- the two runs ----

  // The played run; a long one is played in pieces, so that the page stays awake.
  async function played(output, text) {
    const run = Player.beginRun(output, text, { serial: true });
    while (!run.advance(PIECE_MILLISECONDS)) {
      await new Promise((resolve) => setTimeout(resolve));
    }
    return run;
  }

  async function runOne(text) {
    const { status, output } = await Session.program(["serial"], text);
    if (status !== 0 && status !== 5) {
      const found = /^TRACE (\d+) ([A-Z]+)/m.exec(output);
      throw new Error(found ? `line ${found[1]} of its trace has an error (${found[2]})`
        : `it ended with status ${status}`);
    }
    const run = await played(output, text);
    const p = Player.processNumber(state.letter);
    if (p >= run.config.processes.length) {
      throw new Error(`it has no process ${state.letter}`);
    }
    return Player.gridOf(run, p, false);
  }

  async function runBoth() {
    const asked = state.asked += 1;
    const texts = state.what === TRACE ? [state.text, state.other]
      : state.values.map((value) => withValue(state.what, value));
    const grids = [];
    for (const text of texts) {
      try {
        grids.push(await runOne(text));
      } catch (error) {
        if (asked === state.asked) {
          showNothing(`The ${["first", "second"][grids.length]} run can't be shown: ${error.message}.`);
        }
        return;
      }
      if (asked !== state.asked) {
        return;
      }
    }
    state.grids = grids;
    show();
  }

  // ---- what is shown ----

  function showNothing(text) {
    note.textContent = text;
    state.grids = null;
    [moves, said, place, totals].forEach((node) => { node.hidden = true; });
  }

  function faultsTitle(i) {
    return `${titleOf(i)}: ${plural(state.grids[i].totals.faults, "fault")}`;
  }

  function totalsNode() {
    const rows = Player.comparedTotals(state.grids[0].totals, state.grids[1].totals);
    const rate = (i) => percent(Player.gridRate(state.grids[i].totals, "faults"));
    const signed = (difference) => (difference > 0 ? `+${difference}` : String(difference).replace("-", "\u2212"));
    return table("totals compared", "What the runs cost", [["", titleOf(0), titleOf(1), "difference"],
      ...rows.map(([name, a, b]) => [name, String(a), String(b), b === a ? "" : signed(b - a)]),
      ["share of faults", rate(0), rate(1), ""]]);
  }

  function show() {
    const [one, other] = state.grids;
    state.found = Player.compareGrids(one, other);
    [moves, said, place, totals].forEach((node) => { node.hidden = false; });
    const { found } = state;
    note.textContent = found.first < 0 ? "The two runs are the same for this process."
      : `They differ first at request ${found.first + 1}. ${found.unlike.size
        ? `At ${plural(found.unlike.size, "request")} one of them hits and the other doesn't.`
        : "Both hit at the same requests."}`;
    first.hidden = found.first < 0;
    first.textContent = `To the first difference, request ${found.first + 1}`;
    drawn.show({ bands: state.grids.map((grid, i) => ({ grid, title: faultsTitle(i), heads: i > 0 && !found.same })),
      frames: false, byAddress: false, marked: found.first, unlike: found.unlike });
    totals.replaceChildren(totalsNode());
    step(Math.max(0, found.first));
  }

  function stepText(i) {
    const column = state.grids[i].columns[state.at];
    const soFar = Player.gridTotals(state.grids[i].columns.slice(0, state.at + 1));
    const outcome = column ? Player.outcomeText(column, false) : "no such request";
    return make("p", "", make("b", "", `${titleOf(i)}: `), `${outcome}. `,
      make("span", "so-far", `So far ${plural(soFar.hits, "hit")} and ${plural(soFar.faults, "fault")}.`));
  }

  // Stands both at a request.
  function step(at) {
    if (!state.grids || !state.found.count) {
      return;
    }
    state.at = Math.max(0, Math.min(state.found.count - 1, at));
    back.disabled = state.at === 0;
    forward.disabled = state.at === state.found.count - 1;
    const column = state.grids[0].columns[state.at] || state.grids[1].columns[state.at];
    said.replaceChildren(make("h3", "", `${Player.columnHead(column, false)}, of ${state.found.count}`),
      stepText(0), stepText(1));
    drawn.mark(state.at);
  }

  source.fill(sources(), state.source);
  const takeSeen = whenSeen(box, () => takeSource(state.source));
  Session.on("run", () => state.source === OWN && takeSeen());
  Session.on("look", () => state.grids && drawn.draw());
})(globalThis.Player = globalThis.Player || {});
