"use strict";
// The pager's state, and what each entry changes in it. Records of frames, pages and processes
// are never changed in place: a change puts a new record, so a snapshot is a copy of lists.
(function (Player) {
  const PAGE_BYTES = 512;
  const MOST_SLOTS = 1024;
  const NO_PAGE = Object.freeze({ frame: -1, charged: false, touched: false, lies: "", block: -1 });

  Player.hex = function (number) {
    return number.toString(16).toUpperCase().padStart(8, "0");
  };

  Player.pageNumber = function (address) {
    return Math.floor(parseInt(address, 16) / PAGE_BYTES);
  };

  function pageAddress(number) {
    return Player.hex(number * PAGE_BYTES);
  }
  Player.pageAddress = pageAddress;

  function processNumber(letter) {
    return letter.charCodeAt(0) - 65;
  }
  Player.processNumber = processNumber;

  Player.letter = function (process) {
    return String.fromCharCode(65 + process);
  };

  function openingFrames(config) {
    const free = Object.freeze({ state: "FREE", page: "", modify: 0, shares: 0, flight: 0, pins: 0,
      failed: "" });
    const frames = new Array(config.frames).fill(free);
    for (const f of config.bad) {
      frames[f] = Object.freeze({ ...free, state: "BAD" });
    }
    return frames;
  }

  function openingMaps(config) {
    const maps = config.processes.map(() => new Map());
    for (const map of config.maps) {
      for (let i = 0; i < map.pages; i += 1) {
        maps[map.process].set(map.page + i,
          { section: map.section, index: map.first + i, protection: map.protection });
      }
    }
    return maps;
  }

  // The state before the first entry.
  Player.openingState = function (config) {
    const frames = openingFrames(config);
    return {
      config, frames,
      free: frames.map((frame, f) => f).filter((f) => frames[f].state === "FREE"),
      modified: [],
      pages: new Map(), owners: new Array(config.pagefile).fill(""), charged: 0, assigned: 0,
      maps: openingMaps(config), mapsShared: false, flights: new Map(), problems: [],
      processes: config.processes.map((spec) => Object.freeze({ status: "RESIDENT",
        limit: spec.limit, hand: 0, slots: new Array(spec.extent).fill(null), count: 0,
        faults: 0, references: 0, allFaults: 0, answered: 0, collided: 0 })),
    };
  };

  // A copy that shares all records with the state.
  Player.copyState = function (state) {
    state.mapsShared = true;
    return { ...state, frames: state.frames.slice(), free: state.free.slice(),
      modified: state.modified.slice(), pages: new Map(state.pages), owners: state.owners.slice(),
      maps: state.maps.slice(), flights: new Map(state.flights),
      processes: state.processes.slice(), problems: [] };
  };

  function problem(state, text) {
    state.problems.push(text);
  }

  function setFrame(state, f, change) {
    if (!state.frames[f]) {
      throw new Error(`there is no frame F${f}`);
    }
    state.frames[f] = { ...state.frames[f], ...change };
  }

  Player.pageOf = function (state, name) {
    return state.pages.get(name) || NO_PAGE;
  };

  function setPage(state, name, change) {
    state.pages.set(name, { ...Player.pageOf(state, name), ...change });
  }

  function setProcess(state, p, change) {
    if (!state.processes[p]) {
      throw new Error(`there is no process ${Player.letter(p)}`);
    }
    state.processes[p] = { ...state.processes[p], ...change };
  }

  function isPrivate(page) {
    return page[1] === "/";
  }
  Player.isPrivate = isPrivate;

  // A page whose place is the page file: a private one, or one of a section without a file.
  function isPaged(state, page) {
    const section = state.config.sections.get(page.slice(0, page.indexOf("/")));
    return isPrivate(page) || Boolean(section && section.kind === "PAGED");
  }

  Player.refsOf = function (frame) {
    return (frame.shares > 0 ? 1 : 0) + (frame.flight ? 1 : 0) + frame.pins;
  };

  // The page at an address of a process, as its map has it.
  function pageAt(state, p, address) {
    const number = Player.pageNumber(address);
    const map = state.maps[p] && state.maps[p].get(number);
    const kind = map && map.section ? state.config.sections.get(map.section).kind : "CRF";
    return kind === "CRF" ? `${Player.letter(p)}/${pageAddress(number)}`
      : `${map.section}/${map.index}`;
  }
  Player.pageAt = pageAt;

  // The frame that holds the page at an address of a process, or -1. The working set tells it
  // also without the trace.
  Player.frameAt = function (state, p, address) {
    const process = state.processes[p];
    const slot = process ? Player.slotOf(process, pageAddress(Player.pageNumber(address))) : -1;
    return slot >= 0 ? process.slots[slot].frame
      : Player.pageOf(state, pageAt(state, p, address)).frame;
  };

  // The page of a fault's read. Without the trace the block tells it.
  function faultPage(state, p, address, block) {
    if (state.config.known) {
      return pageAt(state, p, address);
    }
    const [kind, place] = [block[0], block.slice(2)];
    const section = state.config.sections.get(place.slice(0, place.indexOf("/")));
    if (kind === "S" && section && section.kind === "SHARED") {
      return place;
    }
    const owner = kind === "P" ? state.owners[Number(place)] : "";
    return owner || pageAt(state, p, address);
  }

  function listOf(state, name) {
    return name === "FREE" ? state.free : state.modified;
  }

  function leaveList(state, f) {
    const name = state.frames[f] ? state.frames[f].state : "";
    if (name !== "FREE" && name !== "MODIFIED") {
      return;
    }
    const list = listOf(state, name);
    if (list[0] === f) {
      list.shift();
      return;
    }
    list.splice(list.indexOf(f), 1);
  }

  // A frame with no shares and no flight goes to the tail of the list that its mark says.
  function settle(state, f) {
    const name = state.frames[f].modify ? "MODIFIED" : "FREE";
    setFrame(state, f, { state: name });
    listOf(state, name).push(f);
  }

  function ownMap(state, p) {
    if (state.mapsShared) {
      state.maps = state.maps.map((map) => new Map(map));
      state.mapsShared = false;
    }
    return state.maps[p];
  }

  // ---- rings ----

  Player.slotOf = function (process, address) {
    return process.slots.findIndex((slot) => slot !== null && slot.address === address);
  };

  // The first empty slot from the hand on, going round; without the trace the first empty one.
  function emptySlot(state, process) {
    if (!state.config.known) {
      const slot = process.slots.indexOf(null);
      return slot < 0 ? process.slots.length : slot;
    }
    const extent = process.slots.length;
    for (let i = 0; i < extent; i += 1) {
      const slot = (process.hand + i) % extent;
      if (process.slots[slot] === null) {
        return slot;
      }
    }
    throw new Error("the ring has no empty slot");
  }

  function putSlot(state, p, slot, address, frame, step) {
    const process = state.processes[p];
    if (!(slot < (state.config.known ? process.slots.length : MOST_SLOTS))) {
      throw new Error(`the ring of ${Player.letter(p)} has no slot ${slot}`);
    }
    if (process.slots[slot]) {
      problem(state, `slot ${slot} of ${Player.letter(p)} is already filled`);
    }
    const slots = process.slots.slice();
    while (slots.length < slot) {
      slots.push(null);
    }
    slots[slot] = { address, frame, locked: false, pinned: false };
    setProcess(state, p, { slots, count: process.count + 1,
      hand: step ? (slot + 1) % slots.length : process.hand });
  }

  // The entry at an address becomes valid in the ring's place, and that is one more fault.
  function placeFault(state, p, address, frame) {
    putSlot(state, p, emptySlot(state, state.processes[p]), address, frame, true);
    countFault(state, p);
  }

  function countFault(state, p) {
    const process = state.processes[p];
    setProcess(state, p, { faults: process.faults + 1, allFaults: process.allFaults + 1 });
  }

  function markSlots(state, p, entry, change) {
    const first = Player.pageNumber(entry.address);
    let pins = 0;
    const slots = state.processes[p].slots.map((slot) => {
      const number = slot ? Player.pageNumber(slot.address) : -1;
      if (number < first || number >= first + entry.pages) {
        return slot;
      }
      if ("pinned" in change && slot.pinned !== change.pinned) {
        const frame = state.frames[slot.frame];
        setFrame(state, slot.frame, { pins: frame.pins + (change.pinned ? 1 : -1) });
        pins += 1;
      }
      return { ...slot, ...change };
    });
    setProcess(state, p, { slots });
    return pins;
  }

  Object.assign(Player, { modelParts: { problem, setFrame, setPage, setProcess, isPaged, faultPage,
    leaveList, settle, ownMap, putSlot, placeFault, countFault, markSlots, emptySlot } });
})(globalThis.Player = globalThis.Player || {});
