"use strict";
// Draws the curve of faults into an SVG picture: three curves, told apart by colour, dashes and marks, the
// limit that is chosen, and the run's own faults there. Each number of frames can be reached by keys.
(function (Player) {
  const { make, plural } = Player.panelParts;
  const SVG = "http://www.w3.org/2000/svg";
  Player.CURVES = [{ name: "ring", words: "ring (first in, first out)", short: "ring", mark: "circle" },
    { name: "lru", words: "LRU", short: "LRU", mark: "square" },
    { name: "least", words: "least possible", short: "least", mark: "triangle" }];
  const STEPS = [1, 2, 5];
  // Of more points than these the marks are small.
  const FEW_POINTS = 20;

  function draw(tag, attributes, ...inside) {
    const node = document.createElementNS(SVG, tag);
    Object.entries(attributes).forEach(([name, value]) => node.setAttribute(name, value));
    node.append(...inside);
    return node;
  }

  // Round marks of a scale, at most so many, from 0 up to the most.
  function marksOf(most, number) {
    let step = 1;
    for (let i = 0; most / step > number; i += 1) {
      step = STEPS[i % 3] * 10 ** Math.floor(i / 3);
    }
    const marks = [];
    for (let mark = 0; mark <= most; mark += step) {
      marks.push(mark);
    }
    return marks;
  }

  function scaleOf(chart, shown) {
    const { rem } = chart;
    const width = Math.max(15 * rem, chart.width);
    const height = Math.max(13 * rem, Math.min(24 * rem, width * 0.55));
    const edge = { left: 3.6 * rem, right: width - 1.4 * rem, top: 1.6 * rem, bottom: height - 3.2 * rem };
    const last = shown.points[shown.points.length - 1].frames;
    const most = shown.points.reduce((high, point) =>
      Math.max(high, point.ring, point.lru, point.least), Math.max(1, shown.faults));
    return { rem, width, height, ...edge, last, most,
      x: (frames) => edge.left + (edge.right - edge.left) * (last > 1 ? (frames - 1) / (last - 1) : 0.5),
      y: (faults) => edge.bottom - (edge.bottom - edge.top) * faults / most };
  }

  function axes(scale) {
    const nodes = [];
    for (const mark of marksOf(scale.most, 6)) {
      const y = scale.y(mark);
      nodes.push(draw("line", { class: "rule", x1: scale.left, x2: scale.right, y1: y, y2: y }),
        draw("text", { x: scale.left - scale.rem / 2, y: y + scale.rem / 3, class: "end" }, String(mark)));
    }
    const room = Math.max(4, Math.floor((scale.right - scale.left) / (2.2 * scale.rem)));
    for (const mark of [1, ...marksOf(scale.last, room).filter((one) => one > 1)]) {
      nodes.push(draw("text", { x: scale.x(mark), y: scale.bottom + 1.2 * scale.rem, class: "middle" }, String(mark)));
    }
    nodes.push(draw("text", { x: (scale.left + scale.right) / 2, y: scale.height - scale.rem / 2,
      class: "middle name" }, "frames, or slots of the working set"),
    draw("text", { x: scale.left - scale.rem / 2, y: scale.rem, class: "name end" }, "faults"));
    return nodes;
  }

  function markAt(kind, x, y, size) {
    if (kind === "circle") {
      return draw("circle", { cx: x, cy: y, r: size });
    }
    const points = { square: [[-1, -1], [1, -1], [1, 1], [-1, 1]], triangle: [[0, -1.2], [1.2, 1], [-1.2, 1]],
      diamond: [[0, -1.7], [1.7, 0], [0, 1.7], [-1.7, 0]] }[kind];
    return draw("polygon", { points: points.map(([a, b]) => `${x + a * size},${y + b * size}`).join(" ") });
  }

  function curveNode(scale, curve, points) {
    const places = points.map((point) => [scale.x(point.frames), scale.y(point[curve.name])]);
    return draw("g", { class: `curve ${curve.name}` },
      draw("polyline", { points: places.map((place) => place.join(",")).join(" ") }),
      ...places.map(([x, y]) => markAt(curve.mark, x, y, scale.rem * (points.length > FEW_POINTS ? 0.16 : 0.24))));
  }

  function pointText(point, letter) {
    return `${plural(point.frames, "frame")}: ${Player.CURVES.map((curve) =>
      `${curve.short} ${point[curve.name]}`).join(", ")} faults of process ${letter}`;
  }

  // A point to focus and to press: as wide as the way to its neighbours, over the whole height.
  function pointNode(chart, scale, at) {
    const { points, letter } = chart.shown;
    const beside = (i) => scale.x(points[Math.max(0, Math.min(points.length - 1, i))].frames);
    const x = scale.x(points[at].frames);
    const [from, to] = [(beside(at - 1) + x) / 2, (beside(at + 1) + x) / 2];
    const node = draw("rect", { class: "point", x: Math.min(from, x - scale.rem * 0.6), y: scale.top - scale.rem / 2,
      width: Math.max(to, x + scale.rem * 0.6) - Math.min(from, x - scale.rem * 0.6),
      height: scale.bottom - scale.top + scale.rem, rx: 4, role: "button", tabindex: -1,
      "aria-label": `${pointText(points[at], letter)}. Enter: this limit` });
    node.dataset.at = at;
    return node;
  }

  function limitNodes(scale, shown) {
    if (shown.limit < 1 || shown.limit > scale.last) {
      return [];
    }
    const x = scale.x(shown.limit);
    const nodes = [draw("line", { class: "limit", x1: x, x2: x, y1: scale.top - scale.rem / 2, y2: scale.bottom })];
    const end = x > (scale.left + scale.right) / 2;
    nodes.push(draw("text", { class: `limit ${end ? "end" : ""}`, x: x + (end ? -1 : 1) * scale.rem / 2,
      y: scale.top }, `limit ${shown.limit}`));
    if (shown.faults !== null) {
      nodes.push(draw("g", { class: "own" }, markAt("diamond", x, scale.y(shown.faults), scale.rem * 0.26)));
    }
    return nodes;
  }

  // The sizes are noted when they change: to ask for them after a change lays out the page at once.
  function measure(chart) {
    const rem = parseFloat(getComputedStyle(document.documentElement).fontSize);
    if (chart.width !== chart.box.clientWidth || chart.rem !== rem) {
      Object.assign(chart, { rem, width: chart.box.clientWidth });
      drawChart(chart);
    }
  }

  function drawChart(chart) {
    const { shown, picture } = chart;
    if (!shown || !shown.points.length) {
      picture.replaceChildren();
      return;
    }
    const scale = scaleOf(chart, shown);
    picture.setAttribute("viewBox", `0 0 ${scale.width} ${scale.height}`);
    picture.setAttribute("height", scale.height);
    const { focused } = chart;
    picture.replaceChildren(...axes(scale), ...Player.CURVES.map((curve) => curveNode(scale, curve, shown.points)),
      ...limitNodes(scale, shown), ...shown.points.map((unused, at) => pointNode(chart, scale, at)));
    chart.focused = focused;
    const limit = shown.points.findIndex((point) => point.frames === shown.limit);
    chart.at = Math.min(chart.at < 0 ? limit : chart.at, shown.points.length - 1);
    const node = picture.querySelector(`[data-at="${Math.max(0, chart.at)}"]`);
    node.setAttribute("tabindex", 0);
    if (chart.focused) {
      node.focus();
    }
  }

  function focusOn(chart, at) {
    chart.at = Math.max(0, Math.min(chart.shown.points.length - 1, at));
    chart.picture.querySelectorAll(".point").forEach((node) => {
      node.setAttribute("tabindex", Number(node.dataset.at) === chart.at ? 0 : -1);
    });
    chart.picture.querySelector(`[data-at="${chart.at}"]`).focus();
  }

  function takeKey(chart, event) {
    const node = event.target.closest(".point");
    const at = node ? Number(node.dataset.at) : -1;
    const next = { ArrowLeft: at - 1, ArrowRight: at + 1, Home: 0, End: Infinity }[event.key];
    if (!node || event.altKey || event.ctrlKey || event.metaKey) {
      return;
    }
    if (next !== undefined) {
      focusOn(chart, next);
    } else if (event.key === "Enter" || event.key === " ") {
      chart.choose(chart.shown.points[at].frames);
    } else {
      return;
    }
    event.preventDefault();
    event.stopPropagation();
  }

  function listen(chart) {
    const say = (event) => {
      const node = event.target.closest(".point");
      if (node) {
        chart.said.textContent = `${pointText(chart.shown.points[Number(node.dataset.at)], chart.shown.letter)}.`;
      }
    };
    chart.picture.addEventListener("pointerover", say);
    chart.picture.addEventListener("focusin", (event) => {
      const node = event.target.closest(".point");
      chart.focused = true;
      chart.at = node ? Number(node.dataset.at) : chart.at;
      say(event);
    });
    chart.picture.addEventListener("focusout", () => { chart.focused = false; });
    chart.picture.addEventListener("keydown", (event) => takeKey(chart, event));
    chart.picture.addEventListener("click", (event) => {
      const node = event.target.closest(".point");
      if (node) {
        chart.choose(chart.shown.points[Number(node.dataset.at)].frames);
      }
    });
    new ResizeObserver(() => measure(chart)).observe(chart.box);
  }

  function keyNode() {
    const sample = (curve) => draw("svg", { viewBox: "0 0 40 12", width: "40", height: "12", "aria-hidden": "true" },
      draw("g", { class: `curve ${curve.name}` }, draw("polyline", { points: "1,6 39,6" }),
        markAt(curve.mark, 20, 6, 3.6)));
    const own = draw("svg", { viewBox: "0 0 14 12", width: "14", height: "12", "aria-hidden": "true" },
      draw("g", { class: "own" }, markAt("diamond", 7, 6, 3.4)));
    return make("p", "curve-key", ...Player.CURVES.map((curve) => make("span", "", sample(curve), curve.words)),
      make("span", "", own, "this run"));
  }

  // A chart in this box; `choose` is called with the frames of a point that is pressed.
  Player.curveChart = function (box, choose) {
    const picture = draw("svg", { class: "curves", width: "100%", role: "group",
      "aria-label": "Faults by frames; the arrow keys go from point to point, Enter sets the limit" });
    const chart = { box: make("div", "curve-box", picture), picture, said: make("p", "note said"), choose, shown: null,
      at: -1, focused: false, rem: 16, width: 0 };
    box.append(keyNode(), chart.box, chart.said);
    listen(chart);
    return {
      // Shows points, the process's letter, its limit and how many faults the run has there, or null.
      show(shown) {
        chart.at = chart.focused ? chart.at : -1;
        chart.shown = shown;
        const chosen = shown.points.find((point) => point.frames === shown.limit);
        chart.said.textContent = chosen ? `${pointText(chosen, shown.letter)}.` : "";
        drawChart(chart);
      },
      // Draws anew in another size of type.
      draw: () => measure(chart),
    };
  };
})(globalThis.Player = globalThis.Player || {});
