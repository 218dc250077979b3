"use strict";
// Writes one number of a trace anew, and with it the numbers that have to follow:
//
//   the limit of a process    its quota is raised to the limit, its extent to the quota, and FRAMES to what
//                             the greatest extent needs. A number that is large enough stays as it is
//   FRAMES                    nothing follows: it isn't less than the extents and the bad frames need
//   a parameter               LOLIMIT <= HILIMIT <= WAITLIMIT and FREELIM <= FREEGOAL: those below it are
//                             lowered to it, those above it raised. One without a line gets a line
//
// Only these words change; comments, blanks and all other lines stay.
(function (Player) {
  const MOST_SLOTS = 1024;
  const LEAST_FRAMES = 8;
  const MOST_FRAMES = { 1: 4096, 2: 16384 };
  const CHAINS = [["LOLIMIT", "HILIMIT", "WAITLIMIT"], ["FREELIM", "FREEGOAL"]];
  const LIMIT_WORD = 2;

  // The least and the greatest value of each parameter.
  Player.PARAMETER_BOUNDS = { PFC: [1, 8], HILIMIT: [0, 16384], LOLIMIT: [0, 16384], WAITLIMIT: [1, 16384],
    WRTCLUSTER: [1, 16], FREELIM: [0, 4096], FREEGOAL: [0, 4096], AWSTIME: [0, 100000],
    PFRATH: [0, 100000], PFRATL: [0, 100000], WSINC: [0, 1024], WSDEC: [0, 1024], AWSMIN: [2, 1024],
    BORROWLIM: [0, 4096] };

  function wordsOf(line) {
    return line.trim().split(/[ \t\r]+/);
  }

  // The lines before BODY, each with its number among all lines.
  function declarations(text) {
    const lines = text.split("\n");
    const end = lines.findIndex((line) => wordsOf(line)[0] === "BODY");
    return { lines, end: end < 0 ? lines.length : end };
  }

  // Puts other words into the first declaration that begins with these words; false where there is none.
  function putWords({ lines, end }, begin, change) {
    const at = lines.findIndex((line, i) => i < end && begin.every((word, n) => wordsOf(line)[n] === word));
    if (at < 0) {
      return false;
    }
    let place = 0;
    lines[at] = lines[at].replace(/[^ \t\r]+/g, (word) => {
      const found = change[place] === undefined ? word : String(change[place]);
      place += 1;
      return found;
    });
    return true;
  }

  // How many frames are no process's: the bad ones, two more, and in version 2 one for each page that may
  // be locked.
  function sparedFrames(config) {
    const locks = config.processes.reduce((sum, process) => sum + process.locks, 0);
    return config.bad.length + 2 + (config.version === 2 ? locks : 0);
  }

  function neededFrames(config) {
    return config.processes.reduce((most, process) => Math.max(most, process.extent), 0) +
      sparedFrames(config);
  }

  // The least and the greatest limit that a process may have.
  Player.limitBounds = function (config, process) {
    return [config.processes[process].locks + 2,
      Math.min(MOST_SLOTS, MOST_FRAMES[config.version] - sparedFrames(config))];
  };

  Player.frameBounds = function (config) {
    const lastBad = config.bad.reduce((most, frame) => Math.max(most, frame + 1), 0);
    return [Math.max(LEAST_FRAMES, neededFrames(config), lastBad), MOST_FRAMES[config.version]];
  };

  Player.withLimit = function (text, letter, limit) {
    const config = Player.parseTrace(text);
    const spec = config.processes[Player.processNumber(letter)];
    const quota = Math.max(spec.quota, limit);
    const extent = Math.max(spec.extent, quota);
    Object.assign(spec, { limit, quota, extent });
    const parts = declarations(text);
    putWords(parts, ["PROCESS", letter], { [LIMIT_WORD]: limit, [LIMIT_WORD + 1]: quota,
      [LIMIT_WORD + 2]: extent });
    if (neededFrames(config) > config.frames) {
      putWords(parts, ["FRAMES"], { 1: neededFrames(config) });
    }
    return parts.lines.join("\n");
  };

  Player.withFrames = function (text, frames) {
    const parts = declarations(text);
    putWords(parts, ["FRAMES"], { 1: frames });
    return parts.lines.join("\n");
  };

  function putParameter(parts, name, value) {
    if (putWords(parts, ["PARAM", name], { 2: value })) {
      return;
    }
    const last = parts.lines.findLastIndex((line, i) => i < parts.end &&
      ["PAGEFILE", "PARAM"].includes(wordsOf(line)[0]));
    parts.lines.splice(last + 1, 0, `PARAM ${name} ${value}`);
    parts.end += 1;
  }

  Player.withParameter = function (text, name, value) {
    const { parameters } = Player.parseTrace(text);
    const parts = declarations(text);
    putParameter(parts, name, value);
    const chain = CHAINS.find((names) => names.includes(name)) || [];
    chain.forEach((other, place) => {
      const below = place < chain.indexOf(name);
      if (below ? parameters[other] > value : parameters[other] < value) {
        putParameter(parts, other, value);
      }
    });
    return parts.lines.join("\n");
  };
})(globalThis.Player = globalThis.Player || {});
