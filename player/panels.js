"use strict";
// What the panels of the page share: nodes, choices, and numbers as text.
(function (Player) {
  const parts = {};
  // So near to the view a panel begins its work.
  const NEAR = "200px";
  let fieldNumber = 0;

  // A node with a class, and with texts or nodes in it.
  parts.make = function (tag, className, ...inside) {
    const node = document.createElement(tag);
    if (className) {
      node.className = className;
    }
    node.append(...inside.filter((one) => one !== "" && one !== null && one !== undefined));
    return node;
  };

  parts.button = function (text, action, className) {
    const node = parts.make("button", className || "", text);
    node.type = "button";
    node.addEventListener("click", action);
    return node;
  };

  // A row of values of which one is chosen: radio buttons drawn as one strip.
  parts.strip = function (title, values, chosen, changed) {
    const name = `strip-${fieldNumber += 1}`;
    const box = parts.make("fieldset", "strip", parts.make("legend", "", title));
    for (const [value, text] of values) {
      const input = Object.assign(parts.make("input"), { type: "radio", name, value,
        checked: value === chosen });
      input.addEventListener("change", () => changed(value));
      box.append(parts.make("label", "", input, parts.make("span", "", text)));
    }
    return box;
  };

  // A choice from a list; `fill` puts other values into it, and keeps the chosen one where it can.
  parts.list = function (title, changed) {
    const select = parts.make("select");
    const box = parts.make("label", "field", parts.make("span", "", title), select);
    select.addEventListener("change", () => changed(select.value));
    let filled = "";
    const fill = (values, chosen) => {
      const wanted = chosen === undefined ? select.value : chosen;
      if (filled !== JSON.stringify(values)) {
        filled = JSON.stringify(values);
        select.replaceChildren(...values.map(([value, text]) =>
          Object.assign(parts.make("option", "", text), { value })));
      }
      select.value = values.some(([value]) => value === wanted) ? wanted : (values[0] || [""])[0];
      return select.value;
    };
    return { box, select, fill };
  };

  // A number in a field of its own, within bounds. What isn't in them is told to the user by the browser.
  parts.number = function (title, value, [least, most], changed) {
    const input = Object.assign(parts.make("input"), { type: "number", min: least, max: most, value,
      inputMode: "numeric", required: true });
    input.addEventListener("change", () => input.reportValidity() && changed(Number(input.value)));
    return { box: parts.make("label", "field", parts.make("span", "", title), input), input };
  };

  parts.percent = function (share) {
    return share === null ? "-" : `${(100 * share).toFixed(1)} %`;
  };

  parts.plural = function (number, word) {
    return `${number} ${word}${number === 1 ? "" : "s"}`;
  };

  // A table of rows of texts, of which the first is the head; the first text of each row names it.
  parts.table = function (className, caption, rows) {
    const line = (texts, head) => parts.make("tr", "", ...texts.map((text, i) => {
      const node = parts.make(head || i === 0 ? "th" : "td", "", text);
      if (head || i === 0) {
        node.scope = head ? "col" : "row";
      }
      return node;
    }));
    return parts.make("table", className, parts.make("caption", "", caption),
      parts.make("thead", "", line(rows[0], true)),
      parts.make("tbody", "", ...rows.slice(1).map((row) => line(row, false))));
  };

  const FIELD_KEYS = new Set(["ArrowLeft", "ArrowRight", "ArrowUp", "ArrowDown", "Home", "End", "PageUp",
    "PageDown", " ", "Enter"]);

  // Keys that a field of this box needs don't reach the page, which steps by them.
  parts.keepKeys = function (box) {
    box.addEventListener("keydown", (event) => {
      if (event.target.closest("input, select, textarea, summary, button") && FIELD_KEYS.has(event.key)) {
        event.stopPropagation();
      }
    });
  };

  // Draws at once while the box is in view, or near it, and else when it comes there. Returns the function
  // that asks for it; `isSeen` of it says whether the box is in view.
  parts.whenSeen = function (box, draw) {
    let stale = true;
    const ask = () => {
      stale = !ask.isSeen;
      if (ask.isSeen) {
        draw();
      }
    };
    ask.isSeen = false;
    new IntersectionObserver((entries) => {
      ask.isSeen = entries[entries.length - 1].isIntersecting;
      if (ask.isSeen && stale) {
        ask();
      }
    }, { rootMargin: NEAR }).observe(box);
    return ask;
  };

  // The letters of a run's processes as the values of a choice.
  parts.letters = function (run) {
    return run.config.processes.map((unused, p) => [Player.letter(p), Player.letter(p)]);
  };

  Player.panelParts = parts;
})(globalThis.Player = globalThis.Player || {});
