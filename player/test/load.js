"use strict";
// Loads the player's files without a page, in the order in which the page loads them.
const fs = require("fs");
const path = require("path");
const vm = require("vm");

const FILES = ["log.js", "trace.js", "model.js", "changes.js", "report.js", "run.js", "difference.js",
  "reasons.js", "explain.js", "examples.js", "kinds.js",
  "errors.js", "keep.js"];

module.exports = function loadPlayer() {
  for (const file of FILES) {
    const name = path.join(__dirname, "..", file);
    if (fs.existsSync(name)) {
      vm.runInThisContext(fs.readFileSync(name, "utf8"), { filename: name });
    }
  }
  return globalThis.Player;
};
