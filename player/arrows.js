"use strict";
// The arrow of a step: from where a page or frame was to where it is now, drawn over the state.
(function (Player) {
  const SVG = "http://www.w3.org/2000/svg";
  const HEAD = 7;
  const MARGIN = 4;
  let moves = [];
  let asked = 0;

  function svg(name, attributes) {
    const node = document.createElementNS(SVG, name);
    Object.entries(attributes).forEach(([key, value]) => node.setAttribute(key, value));
    return node;
  }

  // The place as it is drawn: of a list the mark of who left or joined, of a slot the slot.
  function find(place) {
    return document.querySelector(`#state [data-place="${place}"]`);
  }

  function boxOf(node, origin) {
    const box = node.getBoundingClientRect();
    return { left: box.left - origin.left, right: box.right - origin.left, top: box.top - origin.top,
      bottom: box.bottom - origin.top, x: (box.left + box.right) / 2 - origin.left,
      y: (box.top + box.bottom) / 2 - origin.top };
  }

  // Whether a place is scrolled out of the box that holds it.
  function outOfSight(node) {
    const holder = node.closest("#frames, .queue, .blocks, .slots");
    const [box, around] = [node.getBoundingClientRect(), holder.getBoundingClientRect()];
    return box.bottom < around.top + MARGIN || box.top > around.bottom - MARGIN || !box.width;
  }

  // Where a line from one middle to another crosses the edge of a box.
  function edge(box, toward) {
    const [dx, dy] = [toward.x - box.x, toward.y - box.y];
    const across = dx ? (box.right - box.left) / 2 / Math.abs(dx) : Infinity;
    const down = dy ? (box.bottom - box.top) / 2 / Math.abs(dy) : Infinity;
    const share = Math.min(across, down, 1);
    return { x: box.x + dx * share, y: box.y + dy * share };
  }

  function curve(from, to) {
    const [start, end] = [edge(from, to), edge(to, from)];
    const [dx, dy] = [end.x - start.x, end.y - start.y];
    const bend = Math.min(60, Math.hypot(dx, dy) / 4);
    const long = Math.hypot(dx, dy) || 1;
    const middle = { x: (start.x + end.x) / 2 - (dy / long) * bend, y: (start.y + end.y) / 2 + (dx / long) * bend };
    return { start, middle, end };
  }

  function arrow({ start, middle, end }) {
    const angle = Math.atan2(end.y - middle.y, end.x - middle.x);
    const corner = (turn) => `${end.x - HEAD * 1.6 * Math.cos(angle + turn)},${end.y - HEAD * 1.6 * Math.sin(angle + turn)}`;
    return [svg("path", { class: "way", pathLength: 1,
      d: `M${start.x},${start.y} Q${middle.x},${middle.y} ${end.x},${end.y}` }),
    svg("path", { class: "tip", d: `M${end.x},${end.y} L${corner(0.45)} L${corner(-0.45)} Z` }),
    svg("circle", { class: "tip", cx: start.x, cy: start.y, r: 4 })];
  }

  function draw() {
    asked = 0;
    const picture = Player.element("arrows");
    const found = moves.map(({ from, to }) => [find(from), find(to)])
      .filter((nodes) => nodes.every(Boolean) && nodes[0] !== nodes[1] && !nodes.some(outOfSight));
    if (!found.length) {
      picture.replaceChildren();
      return;
    }
    const origin = picture.getBoundingClientRect();
    picture.replaceChildren(...found.flatMap((nodes) => arrow(curve(...nodes.map((node) => boxOf(node, origin))))));
  }

  // Drawn with the next picture of the screen, when everything else stands.
  Player.drawArrows = function (next) {
    moves = next;
    asked = asked || requestAnimationFrame(draw);
  };

  Player.startArrows = function () {
    const again = () => Player.drawArrows(moves);
    new ResizeObserver(again).observe(Player.element("state"));
    Player.element("state").addEventListener("scroll", again, { passive: true, capture: true });
  };
})(globalThis.Player = globalThis.Player || {});
