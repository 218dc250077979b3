"use strict";
// What the parts of the page share: the trace as it is edited, the run that is shown, and its line.
//
//   Session.text      the trace as it is edited
//   Session.run       the played log, as Player.makeRun gives it, or null
//   Session.runText   the trace that this run is of: other than `text` while the edited one has an error
//   Session.line      the line that is shown: 0 is before the first one
//   Session.numbers   whether page numbers are wished beside addresses
//   Session.go(line)  shows a line
//   Session.on(name, f)           calls f after "run" (text or run changed), "line", or "look" (colours,
//                                 size of type or page numbers changed); "run" comes before its "line"
//   Session.program(words, text)  a promise of {status, output}, both as of the program; output is a text
//   Session.write(text)           puts a trace into the editor, as if it were typed: undo takes it back
(function () {
  const NAMES = ["run", "line", "look"];
  const listeners = new Map(NAMES.map((name) => [name, []]));

  function tell(name) {
    listeners.get(name).forEach((call) => call());
  }

  const Session = {
    text: "",
    run: null,
    runText: "",
    line: 0,
    numbers: false,

    on(name, call) {
      listeners.get(name).push(call);
    },

    go(line) {
      const most = Session.run ? Session.run.length : 0;
      Session.line = Math.max(0, Math.min(most, Math.trunc(line) || 0));
      tell("line");
    },

    // Another text, and its run if there is one; the run before it stays where there is none.
    put(text, run, line) {
      Session.text = text;
      if (run) {
        Session.run = run;
        Session.runText = text;
        Session.line = Math.max(0, Math.min(run.length, line));
      }
      tell("run");
      tell("line");
    },

    tell,

    // The page puts what these do in their place: program.js, and editor.js.
    program: () => Promise.reject(new Error("the program isn't loaded yet")),
    write: () => {},
  };

  globalThis.Session = Session;
})();
