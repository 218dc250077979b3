"use strict";
// The panel with the grid of one process: references across, what its working set holds down, and the
// totals beside it.
(function (Player) {
  const { make, strip, list, percent, table, letters, keepKeys, whenSeen } = Player.panelParts;
  const box = document.getElementById("grid");
  const shown = { run: null, letter: "A", frames: false, byAddress: false, grid: null, totals: "" };

  // ---- totals ----

  // What the references cost, as rows of texts: what it is, how many, and their share of those answered.
  Player.totalRows = function (totals) {
    const rate = (what) => percent(Player.gridRate(totals, what));
    return [["", "number", "share"], ["references", String(totals.references), ""],
      ["hits", String(totals.hits), rate("hits")], ["faults", String(totals.faults), rate("faults")]];
  };

  function countNode(number, words, short, className) {
    return make("li", className, make("b", "", String(number)), make("span", "", words),
      make("small", "", short));
  }

  // The faults by whether they read the disk, and by where the page was.
  function kindNodes(totals) {
    const nodes = [];
    for (const [group, words] of Player.FAULT_GROUPS) {
      const kinds = Player.FAULT_KINDS.filter((kind) => kind.group === group);
      const number = kinds.reduce((sum, kind) => sum + totals.kinds[kind.name], 0);
      nodes.push(countNode(number, words, group === "touch" ? "zero" : "", number ? "" : "none"));
      if (group !== "touch") {
        nodes.push(...kinds.filter((kind) => totals.kinds[kind.name])
          .map((kind) => countNode(totals.kinds[kind.name], kind.words, kind.short, "part")));
      }
    }
    return nodes;
  }

  Player.totalsNodes = function (totals) {
    const others = [["refused", "refused references, not counted above"], ["services", "services"],
      ["left", "pages that left the working set"]].filter(([name]) => totals[name]);
    return [table("totals", "Hits and faults", Player.totalRows(totals)),
      make("h3", "", "The faults"), make("ul", "kinds", ...kindNodes(totals)),
      make("ul", "kinds others", ...others.map(([name, words]) => countNode(totals[name], words, "", "")))];
  };

  // ---- the panel ----

  const process = list("Process", (letter) => {
    shown.letter = letter;
    draw();
  });
  const down = strip("Rows", [["slots", "slots"], ["frames", "frames"]], "slots", (value) => {
    shown.frames = value === "frames";
    show();
  });
  const names = strip("Pages", [["number", "numbers"], ["address", "addresses"]], "number", (value) => {
    shown.byAddress = value === "address";
    show();
  });
  const note = make("p", "note");
  const place = make("div", "grid-place");
  const totals = make("div", "grid-totals");
  box.append(make("div", "controls", process.box, down, names), note,
    make("div", "grid-wrap", make("div", "grid-parts", place, totals)));
  const drawn = Player.gridTable(place, "References of the process, and what its working set holds after each",
    (line) => Session.go(line));
  place.append(keyNode());
  keepKeys(box);

  // What the marks of the cells mean.
  function keyNode() {
    const marks = [["came", "4", "the page came in"], ["hit", "4", "hit: the page was there"],
      ["left", "1", "the page left"], ["hand", "", "the hand"], ["lock", "L", "locked; M: in memory"]];
    return make("p", "grid-key", ...marks.map(([name, text, words]) =>
      make("span", "", make("i", `mark ${name}`, name === "left" ? make("s", "", text) : text), words)));
  }

  function show() {
    if (!shown.grid) {
      return;
    }
    drawn.show({ bands: [{ grid: shown.grid, title: "" }], frames: shown.frames,
      byAddress: shown.byAddress });
    markLine();
  }

  function draw() {
    const run = Session.run;
    shown.run = run;
    const usable = Boolean(run && run.config.processes.length);
    box.classList.toggle("without", !usable);
    if (!usable) {
      note.textContent = "There is no run yet.";
      shown.grid = null;
      return;
    }
    shown.letter = process.fill(letters(run), shown.letter);
    process.box.hidden = run.config.processes.length < 2;
    shown.grid = Player.gridOf(run, Player.processNumber(shown.letter));
    note.textContent = noteText(run);
    showTotals(shown.grid.totals);
    show();
  }

  function showTotals(counted) {
    const key = JSON.stringify(counted);
    if (shown.totals !== key) {
      shown.totals = key;
      totals.replaceChildren(...Player.totalsNodes(counted));
    }
  }

  function noteText(run) {
    if (!shown.grid.columns.length) {
      return `Process ${shown.letter} makes no request.`;
    }
    return run.config.known ? "" : "Without its trace a log has no hand and no slot numbers: slots are in " +
      "the order of use.";
  }

  function markLine() {
    drawn.mark(shown.grid ? Player.columnOfLine(shown.grid, Session.line) : -1);
  }

  const drawSeen = whenSeen(box, draw);
  Session.on("run", () => Session.run !== shown.run && drawSeen());
  Session.on("line", () => drawSeen.isSeen && shown.run === Session.run && markLine());
  Session.on("look", () => drawSeen.isSeen && drawn.draw());
})(globalThis.Player = globalThis.Player || {});
