"use strict";
// Writes lessons.js: the questions of the lessons as they stand in docs/TEACHING.md, and their answers as
// they stand in docs/ANSWERS.md.
//
//     node player/test/make_lessons.js           writes it
//
// The tests compare the file with what this makes.
const fs = require("fs");
const path = require("path");

const TOP = path.join(__dirname, "..", "..");
const FILE = path.join(__dirname, "..", "lessons.js");

// The parts of a document from its second headings on: the heading, and the lines up to the next one.
function partsOf(text) {
  return text.split(/^## /m).slice(1).map((part) => {
    const lines = part.split("\n");
    return { title: lines[0].trim(), lines: lines.slice(1) };
  });
}

// The numbered items of some lines, each as blocks: a text, or { code } with the lines of a code block.
function itemsOf(lines) {
  const items = [];
  let code = null;
  for (const line of lines) {
    const item = /^(\d+)\. (.*)$/.exec(line);
    if (/^```/.test(line)) {
      if (code) {
        items[items.length - 1].push({ code: code.join("\n") });
      }
      code = code ? null : [];
    } else if (code) {
      code.push(line);
    } else if (item && Number(item[1]) === items.length + 1) {
      items.push([item[2].trim()]);
    } else if (line.trim() && items.length) {
      items[items.length - 1].push(line.trim());
    }
  }
  return items;
}

function lessonsOf(questions, answers) {
  const replies = new Map(partsOf(answers).map((part) => [Number(/(\d+)/.exec(part.title)[1]), itemsOf(part.lines)]));
  return partsOf(questions).map((part) => {
    const [, number, title] = /^(\d+)\. (.*)$/.exec(part.title);
    const begin = part.lines.indexOf("Questions:");
    const items = itemsOf(part.lines.slice(begin + 1));
    const given = replies.get(Number(number)) || [];
    if (begin < 0 || !items.length || items.length !== given.length) {
      throw new Error(`lesson ${number} has ${items.length} questions and ${given.length} answers`);
    }
    return { number: Number(number), title, items: items.map((question, i) => ({ question, answer: given[i] })) };
  });
}

function made() {
  const read = (name) => fs.readFileSync(path.join(TOP, "docs", name), "utf8");
  const lessons = lessonsOf(read("TEACHING.md"), read("ANSWERS.md"));
  return `"use strict";
// The questions of the lessons and their answers, as they stand in docs/TEACHING.md and docs/ANSWERS.md.
// \`node player/test/make_lessons.js\` writes this file, and the tests compare it with those.
(function (Player) {
  Player.LESSONS = ${JSON.stringify(lessons, null, 1).replace(/\n/g, "\n  ")};
})(globalThis.Player = globalThis.Player || {});
`;
}

module.exports = { made, FILE };

if (require.main === module) {
  fs.writeFileSync(FILE, made());
}
