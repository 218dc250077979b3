"use strict";
// Files in and out: a trace, a log that anything made, or both; and the link that carries a trace.
(function (Player) {
  const { element } = Player;

  // ---- in ----

  // Of several files and what the page has: the trace and the log that belong together.
  async function readFiles(files) {
    const taken = { name: "" };
    for (const file of files) {
      const found = Player.sortText(await file.text(), file.name);
      Object.assign(taken, found);
      taken.name = taken.name || file.name.replace(/\.[^.]*$/, "");
    }
    return taken;
  }

  function fits(log, trace) {
    try {
      return !Player.foreignTo(Player.parseLog(log), Player.parseTrace(trace));
    } catch {
      return false;
    }
  }

  // A log alone keeps the trace that is there if it may be its own; a trace alone keeps a log that stands
  // without one.
  async function takeFiles(files) {
    Player.clearTrouble();
    try {
      const taken = await readFiles(files);
      const { text, log } = Player.editor.current();
      const trace = taken.trace ?? (fits(taken.log, text) ? text : "");
      const kept = taken.log ?? (log && !text && fits(log, taken.trace) ? log : "");
      Player.editor.change({ text: trace, log: kept, name: taken.name }, false);
    } catch (error) {
      Player.showTrouble([error.message]);
    }
  }

  function isFiles(event) {
    return [...(event.dataTransfer ? event.dataTransfer.types : [])].includes("Files");
  }

  function listenToDrops() {
    document.addEventListener("dragover", (event) => {
      if (isFiles(event)) {
        event.preventDefault();
        document.body.classList.add("dragging");
      }
    });
    document.addEventListener("dragleave", (event) => {
      if (!event.relatedTarget) {
        document.body.classList.remove("dragging");
      }
    });
    document.addEventListener("drop", (event) => {
      document.body.classList.remove("dragging");
      if (event.dataTransfer.files.length) {
        event.preventDefault();
        takeFiles([...event.dataTransfer.files]);
      }
    });
  }

  // ---- out ----

  function saveText(text, name) {
    const link = document.createElement("a");
    link.href = URL.createObjectURL(new Blob([text], { type: "text/plain" }));
    link.download = name;
    link.click();
    setTimeout(() => URL.revokeObjectURL(link.href), 1000);
  }

  function nameOf() {
    return (Player.editor.current().name || "my").replace(/[^\w.-]+/g, "-");
  }

  function saveLog() {
    if (Session.run) {
      saveText(Session.run.records.map((record) => `${record.text}\n`).join(""), `${nameOf()}.log`);
    }
  }

  // ---- links ----

  async function linkOf() {
    const { text, log, example } = Player.editor.current();
    const words = example && !log ? `example=${example}`
      : `trace=${await Player.pack(text)}${log ? `&log=${await Player.pack(log)}` : ""}`;
    return `${location.href.split("#")[0]}#${words}&line=${Session.line}`;
  }

  async function copied(text) {
    try {
      await navigator.clipboard.writeText(text);
      return true;
    } catch {
      element("link-text").select();
      return document.execCommand("copy");
    }
  }

  async function copyLink() {
    Player.clearTrouble();
    try {
      const link = await linkOf();
      const note = Player.linkNote(link.length);
      element("link-part").hidden = false;
      element("link-text").value = link;
      Player.noteLink(link.slice(link.indexOf("#") + 1).replace(/&line=\d+$/, ""));
      history.replaceState(null, "", link.slice(link.indexOf("#")));
      const done = await copied(link);
      Player.say(`${done ? "The link is copied" : "Copy the link below"}: it carries the trace, and opens this ` +
        `line.${note}`);
    } catch (error) {
      Player.showTrouble([error.message]);
    }
  }

  // What a link asks for: an example or a trace, with a line; null where it asks for neither.
  Player.readLink = async function (hash) {
    const words = new URLSearchParams(hash.replace(/^#/, ""));
    const line = /^\d+$/.test(words.get("line") || "") ? Number(words.get("line")) : null;
    if (words.get("trace")) {
      return { line: line || 0, opened: { text: await Player.unpack(words.get("trace")),
        log: words.get("log") ? await Player.unpack(words.get("log")) : "", name: "linked" } };
    }
    if (words.get("example")) {
      return { line, opened: Player.exampleNamed(words.get("example")) };
    }
    return words.has("line") ? { line: line || 0, opened: null } : null;
  };

  Player.startFiles = function () {
    element("open").addEventListener("click", () => element("files").click());
    element("files").addEventListener("change", (event) => {
      takeFiles([...event.target.files]);
      event.target.value = "";
    });
    element("save").addEventListener("click", () => saveText(Session.text, `${nameOf()}.trace`));
    element("save-log").addEventListener("click", saveLog);
    element("link").addEventListener("click", copyLink);
    Player.editor.onChange(() => { element("link-part").hidden = true; });
    listenToDrops();
  };
})(globalThis.Player = globalThis.Player || {});
