"use strict";
// What lasts: the text that a reload brings back, and a trace in a link, compressed.
(function (Player) {
  const NAME = "neqysbar.page";
  const LINE = "neqysbar.line";
  // Links that are longer are cut by some mail programs, and refused by some browsers.
  const LONG_LINK = 8000;
  const MOST_LINK = 1500000;
  const CHUNK = 32768;
  // So many letters are compressed before they are kept.
  const MUCH = 300000;

  // A page may be refused what the browser keeps, or find it full.
  function attempt(what) {
    try {
      return what();
    } catch {
      return null;
    }
  }

  function put(name, text) {
    const inTab = attempt(() => { sessionStorage.setItem(name, text); return true; });
    const beyond = attempt(() => { localStorage.setItem(name, text); return true; });
    return Boolean(inTab || beyond);
  }

  function get(name) {
    return attempt(() => sessionStorage.getItem(name)) || attempt(() => localStorage.getItem(name));
  }

  // Keeps what is edited, in this tab and for the next one; false if there was no room for it.
  Player.keepPage = function (kept) {
    return put(NAME, JSON.stringify(kept));
  };

  Player.isMuch = function ({ text, log }) {
    return text.length + log.length > MUCH;
  };

  // The same of much text: compressed first, without a wait.
  Player.keepPacked = async function (kept) {
    const [text, log] = await Promise.all([Player.pack(kept.text), Player.pack(kept.log)]);
    return put(NAME, JSON.stringify({ ...kept, text, log, packed: true }));
  };

  // The line is kept apart, since it changes at each step.
  Player.keepLine = function (line) {
    put(LINE, String(line));
  };

  async function unpacked(kept) {
    try {
      return { ...kept, text: await Player.unpack(kept.text), log: await Player.unpack(kept.log) };
    } catch {
      return null;
    }
  }

  Player.keptPage = async function () {
    const text = get(NAME);
    const kept = text ? attempt(() => JSON.parse(text)) : null;
    if (!kept || typeof kept.text !== "string" || typeof kept.log !== "string") {
      return null;
    }
    const { packed, ...found } = { ...(kept.packed ? await unpacked(kept) : kept) };
    return typeof found.text === "string" ? { ...found, line: Number(get(LINE)) || 0 } : null;
  };

  function toLetters(bytes) {
    let letters = "";
    for (let i = 0; i < bytes.length; i += CHUNK) {
      letters += String.fromCharCode(...bytes.subarray(i, i + CHUNK));
    }
    return btoa(letters).replaceAll("+", "-").replaceAll("/", "_").replace(/=+$/, "");
  }

  function fromLetters(text) {
    const letters = atob(text.replaceAll("-", "+").replaceAll("_", "/"));
    return Uint8Array.from(letters, (letter) => letter.charCodeAt(0));
  }

  async function through(bytes, stream) {
    return new Uint8Array(await new Response(new Blob([bytes]).stream().pipeThrough(stream)).arrayBuffer());
  }

  // A text as a word of a link.
  Player.pack = async function (text) {
    return toLetters(await through(new TextEncoder().encode(text), new CompressionStream("deflate-raw")));
  };

  Player.unpack = async function (word) {
    try {
      const bytes = await through(fromLetters(word), new DecompressionStream("deflate-raw"));
      return new TextDecoder("utf-8", { fatal: true }).decode(bytes);
    } catch {
      throw new Error("The link's trace is damaged: some of its letters are missing or changed.");
    }
  };

  // What is to be said of a link of so many letters; a refusal is an error.
  Player.linkNote = function (length) {
    if (length > MOST_LINK) {
      throw new Error(`The trace is too long for a link: it would have ${length} letters. Save it as a file.`);
    }
    return length > LONG_LINK
      ? ` It has ${length} letters: some mail programs cut so long a link, so a file may be better.` : "";
  };
})(globalThis.Player = globalThis.Player || {});
