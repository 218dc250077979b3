"use strict";
// Buttons and keys: steps, play, the searches, and how the page looks.
(function (Player) {
  const { make, element } = Player;
  const LEAST_FRAME = 50;
  const SWIPE = 45;
  const MOVES = { first: () => 0, back: () => Session.line - 1, forward: () => Session.line + 1,
    last: () => Session.run.length,
    "request-back": () => Player.answerBeside(Session.run, Session.line, false),
    "request-forward": () => Player.answerBeside(Session.run, Session.line, true) };
  const KEYS = { ArrowLeft: "back", ArrowRight: "forward", Home: "first", End: "last" };
  let timer = 0;

  function stop() {
    clearInterval(timer);
    timer = 0;
    element("play-word").textContent = "Play";
    element("play").classList.remove("playing");
  }
  Player.stopPlaying = stop;

  function playOrStop() {
    if (timer) {
      stop();
      return;
    }
    const perSecond = Number(element("speed").value);
    const stride = Math.max(1, Math.round((perSecond * LEAST_FRAME) / 1000));
    element("play-word").textContent = "Stop";
    element("play").classList.add("playing");
    if (Session.line >= Session.run.length) {
      Session.go(0);
    }
    timer = setInterval(() => {
      Session.go(Session.line + stride);
      if (Session.line >= Session.run.length) {
        stop();
      }
    }, (1000 * stride) / perSecond);
  }

  function move(name) {
    stop();
    Player.clearTrouble();
    Session.go(MOVES[name]());
  }

  // ---- searches ----

  function goToLine() {
    const word = element("line").value.trim();
    const { run } = Session;
    if (!/^\d+$/.test(word) || Number(word) > run.length) {
      Player.showTrouble([`"${word}" is no line of this log. Its lines are 1 to ${run.length}.`]);
      return;
    }
    Session.go(Number(word));
  }

  function findLine(found, what) {
    if (!found) {
      Player.showTrouble([`No later line is ${what}.`]);
      return;
    }
    Session.go(found);
  }

  function findFault() {
    const word = element("fault-process").value;
    const found = Player.nextFault(Session.run, Session.line, word === "any" ? "" : word);
    findLine(found, word === "any" ? "a fault" : `a fault of process ${word}`);
  }

  function findAbout() {
    const word = element("about-what").value.trim().toUpperCase();
    if (!word) {
      Player.showTrouble(["Type what the line is to be about: a frame as F3, a page as A/00000200 or LIB/3, or " +
        "a block as P:7."]);
      return;
    }
    findLine(Player.nextAbout(Session.run, Session.line, word), `about "${word}"`);
  }

  function showSaid() {
    const found = Player.readVerdict(element("said-text").value);
    const { run } = Session;
    if (!found || found.line > run.length + 1) {
      Player.showTrouble([found ? `This log has no line ${found.line}. Its lines are 1 to ${run.length}.`
        : "Paste what check writes to standard error: a line that begins with \"neqysbar: log line\"."]);
      return;
    }
    Player.setVerdict(found);
    Session.go(found.line);
  }

  // The words for what `check` writes of the log that is shown.
  function judgedWords(output) {
    const fault = /^LOG FAULT (\d+)$/m.exec(output);
    const good = /^LOG OK (\d+)$/m.exec(output);
    if (good) {
      return { line: 0, said: `Legal: a run of this trace writes this log, with its ${good[1]} entries.` };
    }
    return fault ? { line: Number(fault[1]), said: `Not legal: line ${fault[1]} of the log is the first that no run ` +
      "of this trace writes after those before it." }
      : { line: 0, said: "The trace has an error, so no log is one of its runs." };
  }

  async function judge() {
    const { run, runText } = Session;
    if (!runText) {
      Player.showTrouble(["The program judges a log by its trace: open the trace too."]);
      return;
    }
    element("judged").textContent = "The program is judging the log.";
    const log = run.records.map((record) => `${record.text}\n`).join("");
    try {
      const { output } = await Session.program(["check"], `${runText.replace(/\n*$/, "\n")}LOG\n${log}`);
      const { line, said } = judgedWords(output);
      element("judged").textContent = said;
      if (line && Session.run === run) {
        Session.go(line);
      }
    } catch (fault) {
      element("judged").textContent = `The log couldn't be judged: ${fault.message}.`;
    }
  }

  // ---- keys ----

  // Whether a key is meant for the field that has the focus: text and choices keep the keys that they need
  // themselves. The field of the line gives up the arrows, since it is filled by each step.
  function keptByField(event) {
    const field = event.target;
    if (event.ctrlKey || event.metaKey || event.altKey || /^(SELECT|TEXTAREA)$/.test(field.tagName)) {
      return true;
    }
    if (field.tagName !== "INPUT" || ["checkbox", "radio"].includes(field.type)) {
      return event.key === " " && /^(INPUT|BUTTON|SUMMARY|A)$/.test(field.tagName);
    }
    return field.id !== "line" || event.key === " ";
  }

  function onKey(event) {
    if (!Session.run || event.defaultPrevented) {
      return;
    }
    if (Player.stepFrame(event)) {
      event.preventDefault();
    } else if (keptByField(event)) {
      if (event.key === "Escape") {
        event.target.blur();
      }
    } else if (event.key === " ") {
      event.preventDefault();
      playOrStop();
    } else if (KEYS[event.key]) {
      event.preventDefault();
      const requests = event.shiftKey && event.key.startsWith("Arrow");
      move(requests ? `request-${KEYS[event.key]}` : KEYS[event.key]);
    } else if (event.key === "Enter" && event.target.dataset.frame) {
      element("about-what").value = `F${event.target.dataset.frame}`;
    }
  }

  // ---- fingers ----

  // A finger that moves across the words steps forward or back.
  function listenToSwipes() {
    let from = null;
    element("now").addEventListener("touchstart", ({ changedTouches: [touch] }) => {
      from = { x: touch.clientX, y: touch.clientY };
    }, { passive: true });
    element("now").addEventListener("touchend", ({ changedTouches: [touch] }) => {
      const [dx, dy] = from ? [touch.clientX - from.x, touch.clientY - from.y] : [0, 0];
      from = null;
      if (Math.abs(dx) > SWIPE && Math.abs(dx) > 2 * Math.abs(dy)) {
        move(dx < 0 ? "forward" : "back");
      }
    });
  }

  // ---- how the page looks ----

  function showLook() {
    element("numbers").setAttribute("aria-pressed", String(Look.numbers));
    element("large").setAttribute("aria-pressed", String(Look.large));
    element("theme").textContent = `Colours: ${Look.theme}`;
    Session.numbers = Look.numbers;
  }

  function listenToLook() {
    const set = (change) => () => {
      change();
      showLook();
      Session.tell("look");
    };
    element("numbers").addEventListener("click", set(() => Look.set("numbers", !Look.numbers)));
    element("large").addEventListener("click", set(() => Look.set("large", !Look.large)));
    element("theme").addEventListener("click", set(Look.nextTheme));
    element("print").addEventListener("click", () => window.print());
    Look.onSystemChange(() => Session.tell("look"));
    showLook();
  }

  function listenToForms() {
    [["line-form", goToLine], ["fault-form", findFault], ["about-form", findAbout],
      ["said-form", showSaid], ["judge-form", judge]]
      .forEach(([id, action]) => element(id).addEventListener("submit", (event) => {
        event.preventDefault();
        stop();
        Player.clearTrouble();
        action();
      }));
  }

  Player.startControls = function () {
    Object.keys(MOVES).forEach((id) => element(id).addEventListener("click", () => move(id)));
    element("play").addEventListener("click", playOrStop);
    element("speed").addEventListener("change", () => {
      if (timer) {
        stop();
        playOrStop();
      }
    });
    element("whole-lists").addEventListener("change", () => Session.tell("look"));
    document.addEventListener("keydown", onKey);
    listenToForms();
    listenToSwipes();
    listenToLook();
    Session.on("line", () => { element("line").value = String(Session.line); });
    Session.on("run", () => {
      const { run } = Session;
      element("stage").hidden = element("log-part").hidden = !run;
      element("none").hidden = Boolean(run);
      element("of-lines").textContent = run ? `of ${run.length}` : "";
      element("length").textContent = run ? `${run.length} lines` : "";
      element("judged").textContent = "";
      const letters = (run ? run.config.processes : []).map((spec, p) => Player.letter(p));
      Player.fill(element("fault-process"), letters.join(), () => ["any", ...letters].map((text) => make("option", text)));
    });
  };
})(globalThis.Player = globalThis.Player || {});
