"use strict";
// The curve of faults: for some numbers of frames the faults of the ring, of LRU and the least ones, as the
// program's `study` counts them. They follow from the references alone, which stand behind BODY.
(function (Player) {
  const MOST_POINTS = 32;
  const MOST_FRAMES = 1024;
  const CURVES = ["ring", "lru", "least"];

  // Puts the numbers of a study's lines into the points, by the number of frames; returns how many
  // references and distinct pages there are.
  Player.readStudy = function (points, output) {
    const counts = { references: 0, distinct: 0 };
    for (const line of output.split("\n")) {
      const [word, first, second, third] = line.split(" ");
      if (word === "PAGES" && second === "DISTINCT") {
        Object.assign(counts, { references: Number(first), distinct: Number(third) });
      } else if (CURVES.includes(word.toLowerCase()) && second !== undefined) {
        const frames = Number(first);
        const point = points.get(frames) || { frames };
        point[word.toLowerCase()] = Number(second);
        points.set(frames, point);
      }
    }
    return counts;
  };

  // The numbers of frames that are studied: each up to one more than there are pages, or some of them
  // where those are many; and the limit with its neighbours.
  Player.curveSizes = function (distinct, limit) {
    const last = Math.min(MOST_FRAMES, Math.max(distinct + 1, 4));
    const sizes = new Set([1, last]);
    for (let i = 0; i < MOST_POINTS; i += 1) {
      sizes.add(last <= MOST_POINTS ? Math.min(last, i + 1)
        : Math.max(Math.min(i + 1, last), Math.round(last ** (i / (MOST_POINTS - 1)))));
    }
    [limit - 1, limit, limit + 1].filter((size) => size >= 1 && size <= MOST_FRAMES && size <= 2 * last)
      .forEach((size) => sizes.add(size));
    return [...sizes].sort((a, b) => a - b);
  };

  // What the curve depends on, of a trace's text: the requests.
  Player.curveKey = function (text, letter) {
    const body = /^[ \t]*BODY[ \t\r]*$/m.exec(text);
    return `${letter} ${body ? text.slice(body.index) : ""}`;
  };

  // Studies a process and calls `step` with the points so far, in the order of their frames, each time that
  // there are more. It stops where `step` returns false.
  Player.studyCurve = async function (program, text, letter, limit, step) {
    const points = new Map();
    const study = async (frames) => {
      const { status, output } = await program(["study", "--process", letter, "--frames", String(frames)], text);
      if (status !== 0) {
        throw new Error(`the study of ${frames} frames ended with status ${status}`);
      }
      return Player.readStudy(points, output);
    };
    const counts = await study(1);
    const sizes = Player.curveSizes(counts.distinct, limit);
    const whole = (size) => points.has(size) && CURVES.every((name) => points.get(size)[name] !== undefined);
    const told = () => step({ ...counts, sizes,
      points: sizes.filter(whole).map((size) => points.get(size)) });
    for (const size of [...sizes].reverse()) {
      if (!whole(size)) {
        await study(size);
      }
      if (told() === false) {
        return;
      }
    }
  };
})(globalThis.Player = globalThis.Player || {});
