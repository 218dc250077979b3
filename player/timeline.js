"use strict";
// The whole run as a line of time, which is also a slider: faults so far, with the scale on the left, and how
// many frames are on the lists, with the scale on the right. The curves differ by colour, by dashes and by a
// letter at their end. A table has the same numbers in words.
(function (Player) {
  const { make, element } = Player;
  const DASHES = { faults: [], free: [8, 3], modified: [2, 3] };
  const TABLE_ROWS = 10;
  const PAGE_KEYS = 10;
  let box = null;
  const picture = document.createElement("canvas");
  // What was measured last, so that a key needs no measuring.
  const seen = { width: 0, high: 64, dense: 1, type: 13, colours: new Map() };

  function colour(name) {
    if (!seen.colours.has(name)) {
      seen.colours.set(name, getComputedStyle(document.documentElement).getPropertyValue(name).trim());
    }
    return seen.colours.get(name);
  }

  function greatest(...lists) {
    return lists.reduce((most, series) => series.reduce((a, b) => Math.max(a, b), most), 1);
  }

  // The corners of a series' curve, as columns of the picture with values: in each column its least, its
  // greatest and its last one. Where it stays the same there is no corner.
  function corners(series, width) {
    const last = series.length - 1;
    const found = [];
    let value = series[0];
    for (let x = 0; x < width; x += 1) {
      const from = Math.floor((x * last) / width);
      const to = Math.max(from, Math.floor(((x + 1) * last) / width));
      let [low, high] = [value, value];
      for (let i = from; i <= to; i += 1) {
        low = Math.min(low, series[i]);
        high = Math.max(high, series[i]);
      }
      if (low !== value || high !== value || x === 0) {
        found.push([x, value], [x, low], [x, high], [x, series[to]]);
        value = series[to];
      }
    }
    return [...found, [width - 1, value]];
  }

  function height(value, most) {
    return box.bottom - (value / most) * (box.bottom - box.top);
  }

  function drawSeries(context, series, most, { name, letter }) {
    const points = corners(series, box.right - box.left);
    context.strokeStyle = colour(name === "faults" ? "--faults" : `--${name}line`);
    context.fillStyle = context.strokeStyle;
    context.setLineDash(DASHES[name]);
    context.lineWidth = name === "faults" ? 2.2 : 1.6;
    context.beginPath();
    points.forEach(([x, value], i) => {
      context[i ? "lineTo" : "moveTo"](box.left + x, height(value, most));
    });
    context.stroke();
    context.setLineDash([]);
    if (letter) {
      drawLetter(context, letter, height(points[points.length - 1][1], most) + box.type / 3);
    }
  }

  // The letter at a curve's end; beside the one before it where both curves end alike.
  function drawLetter(context, letter, y) {
    const beside = Math.abs(y - box.lettered) < box.type;
    context.textAlign = "left";
    context.fillText(letter, box.right + 3 + (beside ? box.type : 0), y);
    box.lettered = y;
  }

  function drawFrame(context, run, most) {
    context.fillStyle = colour("--line");
    context.fillRect(box.left, box.bottom, box.right - box.left, 1);
    context.textAlign = "right";
    context.fillStyle = colour("--faults");
    context.fillText(String(most.faults), box.left - 4, box.top + box.type * 0.8);
    context.fillText("0", box.left - 4, box.bottom);
    context.fillStyle = colour("--soft");
    context.textAlign = "left";
    context.fillText(`${most.lists}`, box.right + box.type * 2.1, box.top + box.type * 0.8);
    if (run.rundown < run.length) {
      const x = placeOf(run, run.rundown);
      context.fillStyle = colour("--empty");
      context.fillRect(x, box.top, box.right - x, box.bottom - box.top);
    }
  }

  function placeOf(run, line) {
    return box.left + (line / Math.max(1, run.length)) * (box.right - box.left);
  }

  // Draws the series once into a picture of its own, as fine as the screen is; the mark of the line is drawn
  // over it.
  function prepare(run, canvas) {
    const { dense, type, width, high } = seen;
    const size = { width: Math.round(width * dense), height: Math.round(high * dense) };
    [canvas, picture].filter((one) => one.width !== size.width || one.height !== size.height)
      .forEach((one) => Object.assign(one, size));
    const context = picture.getContext("2d");
    context.setTransform(dense, 0, 0, dense, 0, 0);
    context.clearRect(0, 0, width, high);
    context.font = `${type}px system-ui, sans-serif`;
    const most = { faults: greatest(run.series.faults), lists: greatest(run.series.free, run.series.modified) };
    box = { left: Math.ceil(type * (0.62 * String(most.faults).length + 0.6)),
      right: Math.floor(width - type * (0.62 * String(most.lists).length + 2.5)), top: 6, bottom: high - 7,
      dense, type, lettered: -Infinity };
    drawFrame(context, run, most);
    drawSeries(context, run.series.free, most.lists, { name: "free", letter: "F" });
    drawSeries(context, run.series.modified, most.lists, { name: "modified", letter: "M" });
    drawSeries(context, run.series.faults, most.faults, { name: "faults", letter: "" });
  }

  function wordsAt(run, line) {
    const { faults, free, modified } = run.series;
    return `${faults[line]} faults so far, ${free[line]} frames on the free list, ${modified[line]} on the ` +
      "modified list";
  }

  function drawLine(run, line, canvas) {
    const context = canvas.getContext("2d");
    context.clearRect(0, 0, canvas.width, canvas.height);
    context.drawImage(picture, 0, 0);
    const x = placeOf(run, line) * box.dense;
    context.fillStyle = colour("--here");
    context.fillRect(x - box.dense, 2 * box.dense, 2 * box.dense, canvas.height - 4 * box.dense);
    context.beginPath();
    context.arc(x, canvas.height - 6 * box.dense, 5 * box.dense, 0, 7);
    context.fill();
    canvas.setAttribute("aria-valuenow", String(line));
    canvas.setAttribute("aria-valuetext", `line ${line} of ${run.length}: ${wordsAt(run, line)}`);
  }

  // The line under a place of the picture.
  function lineAt(run, event) {
    const edges = element("timeline").getBoundingClientRect();
    const share = (event.clientX - edges.left - box.left) / Math.max(1, box.right - box.left);
    return Math.round(Math.max(0, Math.min(1, share)) * run.length);
  }

  function headNode() {
    const head = make("tr");
    ["line", "faults", "free frames", "modified list"].forEach((text) => {
      head.append(Object.assign(make("th", text), { scope: "col" }));
    });
    return head;
  }

  function rowNode(run, line) {
    const row = make("tr");
    const button = make("button", String(line));
    button.type = "button";
    button.setAttribute("aria-label", `Show line ${line}`);
    button.addEventListener("click", () => Session.go(line));
    const first = make("td");
    first.append(button);
    row.append(first, ...["faults", "free", "modified"].map((name) => make("td", String(run.series[name][line]))));
    return row;
  }

  // The run at some lines, in numbers.
  function drawTable(run) {
    const lines = [...new Set(Array.from({ length: TABLE_ROWS + 1 }, (unused, i) =>
      Math.round((i * run.length) / TABLE_ROWS)))];
    Player.patch(element("run-table"), ["head", ...lines], (line) => (line === "head" ? line : line + wordsAt(run, line)),
      (line) => (line === "head" ? headNode() : rowNode(run, line)));
  }

  function onKey(event) {
    const step = { ArrowUp: 1, ArrowDown: -1, PageUp: Math.ceil(Session.run.length / PAGE_KEYS),
      PageDown: -Math.ceil(Session.run.length / PAGE_KEYS) }[event.key];
    if (step && !event.altKey && !event.ctrlKey) {
      event.preventDefault();
      event.stopPropagation();
      Session.go(Session.line + step);
    }
  }

  function measure() {
    const canvas = element("timeline");
    Object.assign(seen, { width: canvas.clientWidth, high: canvas.clientHeight, dense: devicePixelRatio || 1,
      type: parseFloat(getComputedStyle(document.documentElement).fontSize) * 0.8 });
    seen.colours.clear();
    again();
  }

  function again() {
    if (Session.run && seen.width) {
      prepare(Session.run, element("timeline"));
      drawLine(Session.run, Session.line, element("timeline"));
    }
  }

  // Of the line under the pointer while it is held down.
  function follow(canvas) {
    canvas.addEventListener("pointerdown", (event) => {
      canvas.setPointerCapture(event.pointerId);
      Session.go(lineAt(Session.run, event));
    });
    canvas.addEventListener("pointermove", (event) => {
      if (event.buttons & 1) {
        Session.go(lineAt(Session.run, event));
      }
    });
  }

  Player.startTimeline = function () {
    const canvas = element("timeline");
    let drawn = null;
    Session.on("line", () => {
      if (Session.run && drawn !== Session.run) {
        drawn = Session.run;
        canvas.setAttribute("aria-valuemin", "0");
        canvas.setAttribute("aria-valuemax", String(drawn.length));
        again();
        drawTable(drawn);
      } else if (Session.run && seen.width) {
        drawLine(Session.run, Session.line, canvas);
      }
    });
    Session.on("look", measure);
    new ResizeObserver(measure).observe(canvas);
    follow(canvas);
    canvas.addEventListener("keydown", onKey);
  };

  // Where the picture's line stands, for who wants to point at one.
  Player.timelinePlace = (line) => placeOf(Session.run, line);
})(globalThis.Player = globalThis.Player || {});
