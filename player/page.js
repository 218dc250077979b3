"use strict";
// The page as a whole: the list of examples, messages, what is kept for a reload, the address, and the start.
(function (Player) {
  const { make, element } = Player;
  const FIRST_EXAMPLE = "belady";
  const KEEP_EVERY = 300;
  // As in player.css: there the trace and the settings are folded at first.
  const PHONE = "(max-width: 44rem), (max-height: 30rem)";
  let later = 0;
  let linked = null;
  let kept = { text: "", log: "", example: "" };

  // ---- messages ----

  function showTrouble(lines) {
    element("trouble").hidden = !lines.length;
    element("trouble").textContent = lines.join("\n");
  }
  Player.showTrouble = showTrouble;

  Player.clearTrouble = function () {
    showTrouble(Player.troubles());
  };

  // ---- examples ----

  Player.exampleNamed = function (name) {
    const found = Player.EXAMPLES.find((one) => one.name === name);
    if (!found) {
      throw new Error(`There is no example "${name}". There are ${
        Player.EXAMPLES.map((one) => one.name).join(", ")}.`);
    }
    return { text: found.trace, log: found.log, name: found.name, example: found.name };
  };

  function offerExamples() {
    const own = make("option", "Your own trace");
    own.value = "";
    const groups = [...new Set(Player.EXAMPLES.map((one) => one.group))].map((label) => {
      const group = make("optgroup");
      group.label = label;
      group.append(...Player.EXAMPLES.filter((one) => one.group === label)
        .map((one) => Object.assign(make("option", one.title), { value: one.name })));
      return group;
    });
    element("example").replaceChildren(own, ...groups);
    element("example").addEventListener("change", (event) => {
      Player.stopPlaying();
      if (event.target.value) {
        openExample(event.target.value);
      } else {
        showExample();
      }
    });
  }

  function openExample(name, line) {
    const opened = Player.exampleNamed(name);
    Player.wantLine(line ?? Player.EXAMPLES.find((one) => one.name === name).line);
    Player.editor.change(opened, false);
  }

  function showExample() {
    const { example, log } = Player.editor.current();
    const found = Player.EXAMPLES.find((one) => one.name === example);
    element("example").value = found ? example : "";
    element("about").textContent = found ? found.about : log ? "An opened log, with what was opened beside it."
      : "Your own trace: it is kept in this browser, and a link can carry it.";
  }

  // ---- what is kept, and the address ----

  // Keeps what changed since it was kept last. At the page's end there is no time to compress it.
  async function keep(atEnd) {
    clearTimeout(later);
    later = 0;
    const now = Player.editor.current();
    Player.keepLine(Session.line);
    noteAddress();
    if (kept.text === now.text && kept.log === now.log && kept.example === now.example) {
      return;
    }
    kept = { text: now.text, log: now.log, name: now.name, example: now.example };
    const packed = Player.isMuch(kept) && !atEnd;
    const done = packed ? await Player.keepPacked(kept) : Player.keepPage(kept);
    if (!done && now.text) {
      Player.say("This trace is too long for the browser to keep: a reload would lose it. Save it as a file.",
        "error");
    }
  }

  function keepLater() {
    later = later || setTimeout(() => keep(false), KEEP_EVERY);
  }

  // The address is the link to the line, as long as what is shown is an example or a link's trace.
  function noteAddress() {
    const { text, log, example } = Player.editor.current();
    const words = example ? `example=${example}`
      : linked && linked.text === text && linked.log === log ? linked.words : "";
    const wanted = words ? `#${words}&line=${Session.line}` : "";
    if (location.hash !== wanted) {
      history.replaceState(null, "", wanted || location.pathname + location.search);
    }
  }

  Player.noteLink = function (words) {
    const { text, log } = Player.editor.current();
    linked = { text, log, words };
  };

  function linkWords(hash) {
    return hash.replace(/^#/, "").replace(/&?line=\d+/, "");
  }

  async function followLink() {
    try {
      const found = await Player.readLink(location.hash);
      if (found && found.opened) {
        const same = found.opened.text === Session.text;
        Player.wantLine(found.line ?? startOf(found.opened));
        if (same) {
          Session.go(found.line ?? Session.line);
          Player.wantLine(null);
        } else {
          Player.editor.change(found.opened, false);
        }
        Player.noteLink(linkWords(location.hash));
      } else if (found) {
        Session.go(found.line);
      }
    } catch (error) {
      showTrouble([error.message]);
    }
  }

  function startOf(opened) {
    const found = Player.EXAMPLES.find((one) => one.name === opened.example);
    return found ? found.line : 0;
  }

  // ---- the start ----

  // What the page opens with: a link's trace, else what was there before, else an example. Undo leads from a
  // link's trace to what was there before.
  async function begin() {
    const before = await Player.keptPage();
    let found = null;
    let trouble = "";
    try {
      found = await Player.readLink(location.hash);
    } catch (error) {
      trouble = error.message;
    }
    const first = before || Player.exampleNamed(FIRST_EXAMPLE);
    const opened = found && found.opened;
    Player.wantLine(before ? before.line : startOf(first));
    Player.editor.begin(first);
    if (opened && opened.text !== first.text) {
      Player.wantLine(found.line ?? startOf(opened));
      Player.editor.change(opened, false);
    } else if (found) {
      Player.wantLine(found.line ?? (opened ? startOf(opened) : 0));
    }
    if (opened) {
      Player.noteLink(linkWords(location.hash));
    }
    return trouble;
  }

  function listenToGutter() {
    element("gutter").addEventListener("click", (event) => {
      const row = Number(event.target.dataset.row);
      const found = Session.run && Session.run.requests.find((one) => one.traceLine === row);
      if (found) {
        Session.go(found.first);
      }
    });
  }

  function markRequest() {
    const request = Session.run && Session.runText === Session.text
      ? Player.requestOf(Session.run, Session.line) : null;
    Player.editor.mark({ error: Player.error, request: request ? request.traceLine : 0 });
  }

  async function start() {
    const loading = Player.loadProgram();
    const phone = matchMedia(PHONE).matches;
    ["trace-part", "view"].forEach((id) => { element(id).open = !phone; });
    [Player.startViews, Player.startLines, Player.startTimeline, Player.startStep, Player.startControls,
      Player.startEditor, Player.startRunning, Player.startFiles, Player.startArrows, offerExamples, listenToGutter]
      .forEach((begun) => begun());
    Session.on("line", markRequest);
    Session.on("line", keepLater);
    Session.on("run", showExample);
    Session.on("look", Player.editor.look);
    window.addEventListener("hashchange", followLink);
    window.addEventListener("pagehide", () => keep(true));
    const trouble = await begin();
    try {
      await loading;
    } catch (error) {
      Player.programTrouble = `The program can't run here: ${error.message}. A log can be opened with its trace.`;
    }
    Player.runAgain();
    if (trouble) {
      showTrouble([trouble]);
    }
  }

  start();
})(globalThis.Player = globalThis.Player || {});
