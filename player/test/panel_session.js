"use strict";
// A session for the panels' tests: the page's own without its editor. The program runs in the server
// of the test.
(function (Player) {
  const listeners = { run: [], line: [], look: [] };
  const tell = (name) => listeners[name].forEach((call) => call());

  async function program(words, text) {
    const answer = await fetch("program", { method: "POST", body: JSON.stringify({ words, text }) });
    return answer.json();
  }

  globalThis.Session = {
    text: "", runText: "", run: null, line: 0, numbers: true, program, tell,
    on(name, call) { listeners[name].push(call); },
    go(line) {
      Session.line = Math.max(0, Math.min(Session.run ? Session.run.length : 0, line));
      tell("line");
    },
    async write(text) {
      Session.text = text;
      const { status, output } = await program(["serial"], text);
      if (status === 0 || status === 5) {
        Session.run = Player.makeRun(output, text);
        Session.runText = text;
        Session.line = 0;
      }
      tell("run");
      tell("line");
    },
  };
})(globalThis.Player = globalThis.Player || {});
