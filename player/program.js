"use strict";
// Runs the program: a small input at once in the page's own thread, a large one in a Worker, which can
// be stopped.
(function (Player) {
  // So many bytes of input run in less time than a key takes to be seen.
  const SMALL_INPUT = 24000;
  const decoder = new TextDecoder();
  let here = null;
  let runs = null;
  let panels = null;

  function textOf({ status, output }) {
    return { status, output: decoder.decode(output) };
  }

  Player.loadProgram = async function () {
    if (typeof Neqysbar === "undefined") {
      throw new Error("neqysbar.js isn't beside this page");
    }
    here = await Neqysbar.load();
    return here;
  };

  Player.isSmall = function (text) {
    return text.length <= SMALL_INPUT;
  };

  Player.programIsHere = function () {
    return here !== null;
  };

  // Runs at once, and returns what it wrote.
  Player.runHere = function (words, text) {
    return textOf(here.run(words, text));
  };

  // Runs in a Worker; the promise is rejected with kind "stopped" by stopWorker.
  Player.runInWorker = async function (words, text) {
    runs = runs || await Neqysbar.loadWorker();
    return textOf(await runs.run(words, text));
  };

  Player.stopWorker = function () {
    if (runs) {
      runs.stop();
    }
  };

  // What is asked beside the run has a Worker of its own, so that stopping the run doesn't end it.
  Session.program = async function (words, text) {
    if (!here) {
      await Player.loadProgram();
    }
    if (Player.isSmall(text)) {
      return Player.runHere(words, text);
    }
    panels = panels || await Neqysbar.loadWorker();
    return textOf(await panels.run(words, text));
  };
})(globalThis.Player = globalThis.Player || {});
