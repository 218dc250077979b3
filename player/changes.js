"use strict";
// What each of the sixteen kinds of entry changes in the state.
(function (Player) {
  const { problem, setFrame, setPage, setProcess, isPaged, faultPage, leaveList, settle, ownMap,
    putSlot, placeFault, countFault, markSlots } = Player.modelParts;
  const CHANGES = {};
  const MOST_PAGES = 4096;

  function own(entry) {
    return Player.processNumber(entry.seat);
  }

  function expectState(state, f, ...names) {
    const frame = state.frames[f];
    if (!frame) {
      throw new Error(`there is no frame F${f}`);
    }
    if (!names.includes(frame.state)) {
      problem(state, `F${f} is ${frame.state} here, not ${names.join(" or ")}`);
    }
    return frame;
  }

  // Counts an answer: how many requests of the process were answered, and its references.
  function answer(state, p, references) {
    const process = state.processes[p];
    setProcess(state, p, { answered: process.answered + 1,
      references: process.references + references });
  }

  CHANGES.DONE = function (state, entry) {
    const p = own(entry);
    answer(state, p, 1);
    const slot = Player.slotOf(state.processes[p],
      Player.pageAddress(Player.pageNumber(entry.address)));
    if (slot < 0) {
      problem(state, `${entry.seat}'s page at ${entry.address} isn't in its working set`);
      return;
    }
    const f = state.processes[p].slots[slot].frame;
    const page = state.frames[f].page;
    if (!Player.pageOf(state, page).touched) {
      setPage(state, page, { touched: true });
    }
    if (!entry.operation.includes("R") && !state.frames[f].modify) {
      setFrame(state, f, { modify: 1 });
    }
  };

  CHANGES.DENIED = function (state, entry) {
    answer(state, own(entry), 1);
  };

  CHANGES.REUSE = function (state, entry) {
    const f = entry.frame;
    const frame = expectState(state, f, "FREE", "READERROR");
    if (frame.page !== entry.page) {
      problem(state, `F${f} holds ${frame.page || "no page"}, not ${entry.page}`);
    }
    leaveList(state, f);
    setFrame(state, f, { state: "FREE", page: "", modify: 0, failed: "" });
    state.free.unshift(f);
    setPage(state, entry.page, { frame: -1 });
    if (frame.failed[0] === "S" && Player.isPrivate(entry.page)) {
      setPage(state, entry.page, { charged: false });
      state.charged -= 1;
    }
  };

  // Takes the frame at the head of the free list, which has to be empty.
  function takeFree(state, f, change) {
    const frame = expectState(state, f, "FREE");
    if (state.free[0] !== f || frame.page) {
      problem(state, `F${f} isn't an empty frame at the head of the free list`);
    }
    leaveList(state, f);
    setFrame(state, f, { modify: 0, ...change });
  }

  function charge(state, page) {
    setPage(state, page, { charged: true });
    state.charged += 1;
  }

  CHANGES.ZERO = function (state, entry) {
    const p = own(entry);
    const page = Player.pageAt(state, p, entry.address);
    takeFree(state, entry.frame, { state: "ACTIVE", page, modify: 1, shares: 1 });
    setPage(state, page, { frame: entry.frame });
    charge(state, page);
    placeFault(state, p, entry.address, entry.frame);
  };

  CHANGES.BACK = function (state, entry) {
    const p = Player.processNumber(entry.process);
    const frame = expectState(state, entry.frame, entry.state);
    leaveList(state, entry.frame);
    setFrame(state, entry.frame, { state: "ACTIVE", shares: frame.shares + 1 });
    if (state.processes[p].status === "COMING") {
      const slot = Number(Player.pageOf(state, frame.page).lies.split("/")[1]);
      comeBack(state, p, slot, entry.address, entry.frame);
    } else {
      placeFault(state, p, entry.address, entry.frame);
    }
  };

  // A page comes back to the slot that it left, as modified, and lies nowhere then.
  function comeBack(state, p, slot, address, f) {
    putSlot(state, p, slot, address, f, false);
    setFrame(state, f, { modify: 1 });
    setPage(state, state.frames[f].page, { lies: "" });
  }

  CHANGES.COLLIDE = function (state, entry) {
    expectState(state, entry.frame, "READING");
    setProcess(state, own(entry), { collided: entry.start });
  };

  CHANGES.IN = function (state, entry) {
    const p = Player.processNumber(entry.process || "A");
    const page = entry.page || (entry.role === "COME" ? `${entry.process}/${entry.address}`
      : faultPage(state, p, entry.address, entry.block));
    takeFree(state, entry.frame, { state: "READING", page, flight: entry.number });
    setPage(state, page, { frame: entry.frame });
    if (entry.block[0] === "S" && Player.isPrivate(page)) {
      charge(state, page);
    }
    if (entry.role === "FAULT") {
      countFault(state, p);
    }
    state.flights.set(entry.frame, { ...entry, page });
  };

  // Ends the frame's open transfer and gives it.
  function land(state, entry, kind) {
    const flight = state.flights.get(entry.frame);
    if (!flight || flight.number !== entry.start || flight.kind !== kind) {
      throw new Error(`F${entry.frame} has no open transfer that line ${entry.start} began`);
    }
    state.flights.delete(entry.frame);
    setFrame(state, entry.frame, { flight: 0 });
    return flight;
  }

  CHANGES.INOK = function (state, entry) {
    const f = entry.frame;
    const flight = land(state, entry, "IN");
    if (flight.role === "NEAR") {
      settle(state, f);
      return;
    }
    const p = Player.processNumber(flight.process);
    setFrame(state, f, { state: "ACTIVE", shares: 1 });
    if (flight.role === "COME") {
      comeBack(state, p, Number(flight.block.split("/")[1]), flight.address, f);
      return;
    }
    const slot = Player.modelParts.emptySlot(state, state.processes[p]);
    putSlot(state, p, slot, flight.address, f, true);
    if (flight.block[0] === "S" && Player.isPrivate(flight.page)) {
      setFrame(state, f, { modify: 1 });
    }
  };

  CHANGES.INFAIL = function (state, entry) {
    const flight = land(state, entry, "IN");
    setFrame(state, entry.frame, { state: "READERROR", failed: flight.block });
  };

  CHANGES.OUT = function (state, entry) {
    const f = entry.frame;
    const frame = expectState(state, f, "MODIFIED", "ACTIVE");
    const block = entry.block[0] === "P" ? Number(entry.block.slice(2)) : -1;
    if (frame.state === "MODIFIED") {
      if (state.modified[0] !== f) {
        problem(state, `F${f} isn't at the head of the modified list`);
      }
      leaveList(state, f);
      setFrame(state, f, { state: "WRITING" });
    }
    if (block >= state.owners.length) {
      throw new Error(`the page file has no block ${block}`);
    }
    if (block >= 0 && Player.pageOf(state, frame.page).block !== block) {
      setPage(state, frame.page, { block });
      state.owners[block] = frame.page;
      state.assigned += 1;
    }
    setFrame(state, f, { modify: 0, flight: entry.number });
    state.flights.set(f, { ...entry, page: frame.page });
  };

  function settleUnshared(state, f) {
    if (state.frames[f].shares === 0) {
      settle(state, f);
    }
  }

  CHANGES.OUTOK = function (state, entry) {
    const flight = land(state, entry, "OUT");
    if (!state.frames[entry.frame].modify && isPaged(state, flight.page)) {
      setPage(state, flight.page, { lies: flight.block });
    }
    settleUnshared(state, entry.frame);
  };

  CHANGES.OUTFAIL = function (state, entry) {
    land(state, entry, "OUT");
    setFrame(state, entry.frame, { modify: 1 });
    settleUnshared(state, entry.frame);
  };

  // The first slot from the hand on whose page is neither locked nor pinned, or -1.
  function victimOf(process) {
    const extent = process.slots.length;
    for (let i = 0; i < extent; i += 1) {
      const slot = process.slots[(process.hand + i) % extent];
      if (slot && !slot.locked && !slot.pinned) {
        return (process.hand + i) % extent;
      }
    }
    return -1;
  }

  // Empties the slot of the page; with REPLACE the hand stands on it then.
  function clearSlot(state, p, entry) {
    const process = state.processes[p];
    const slot = Player.slotOf(process, entry.address);
    if (entry.why === "REPLACE" && state.config.known && slot !== victimOf(process)) {
      problem(state, `slot ${slot} of ${entry.process} isn't the one that the hand comes to first`);
    }
    if (slot < 0) {
      throw new Error(`${entry.process}'s page at ${entry.address} isn't in its working set`);
    }
    if (process.slots[slot].pinned) {
      setFrame(state, entry.frame, { pins: state.frames[entry.frame].pins - 1 });
    }
    const slots = process.slots.slice();
    slots[slot] = null;
    const hand = entry.why === "REPLACE" ? slot : process.hand;
    setProcess(state, p, { slots, hand, count: process.count - 1 });
  }

  CHANGES.EVICT = function (state, entry) {
    const f = entry.frame;
    const frame = expectState(state, f, "ACTIVE");
    clearSlot(state, Player.processNumber(entry.process), entry);
    setFrame(state, f, { shares: frame.shares - 1 });
    if (frame.shares === 1 && frame.flight) {
      setFrame(state, f, { state: "RELEASE" });
    } else if (frame.shares === 1) {
      settle(state, f);
    }
    expectState(state, f, entry.state);
  };

  CHANGES.LIMIT = function (state, entry) {
    const process = state.processes[own(entry)];
    if (process.faults !== entry.faults && state.config.known) {
      problem(state, `${process.faults} faults were counted here, not ${entry.faults}`);
    }
    setProcess(state, own(entry), { limit: entry.limit, faults: 0, references: 0 });
  };

  CHANGES.TURN = function (state, entry) {
    const p = Player.processNumber(entry.process);
    setProcess(state, p, { status: entry.status });
    if (entry.status === "LEAVING") {
      const slots = state.processes[p].slots;
      setProcess(state, p, { slots: slots.map((slot) => slot && { ...slot, locked: false }) });
    }
  };

  // ---- services ----

  function range(entry) {
    if (entry.pages > MOST_PAGES) {
      throw new Error(`a range has at most ${MOST_PAGES} pages`);
    }
    const first = Player.pageNumber(entry.address);
    return Array.from({ length: entry.pages }, (unused, i) => first + i);
  }

  // A deleted private page gives up its charge, its block and its frame.
  function forget(state, name) {
    const page = Player.pageOf(state, name);
    if (page.frame >= 0) {
      leaveList(state, page.frame);
      setFrame(state, page.frame, { state: "FREE", page: "", modify: 0 });
      state.free.unshift(page.frame);
    }
    if (page.block >= 0) {
      state.owners[page.block] = "";
      state.assigned -= 1;
    }
    state.charged -= page.charged ? 1 : 0;
    state.pages.delete(name);
  }

  const SERVICES = {
    CRETVA: (state, p, entry) => {
      const map = ownMap(state, p);
      range(entry).forEach((n) => map.set(n,
        { section: "", index: 0, protection: entry.protection }));
    },
    DELTVA: (state, p, entry) => {
      for (const n of range(entry)) {
        const name = Player.pageAt(state, p, Player.pageAddress(n));
        if (Player.isPrivate(name)) {
          forget(state, name);
        }
      }
      const map = ownMap(state, p);
      range(entry).forEach((n) => map.delete(n));
    },
    SETPRT: (state, p, entry) => {
      const map = ownMap(state, p);
      range(entry).forEach((n) => {
        const old = map.get(n) || { section: "", index: 0 };
        map.set(n, { ...old, protection: entry.protection });
      });
    },
    LKWSET: (state, p, entry) => { markSlots(state, p, entry, { locked: true }); },
    ULWSET: (state, p, entry) => { markSlots(state, p, entry, { locked: false }); },
    LCKPAG: (state, p, entry) => { markSlots(state, p, entry, { pinned: true }); },
    ULKPAG: (state, p, entry) => { markSlots(state, p, entry, { pinned: false }); },
    PURGWS: () => {},
    ADJWSL: (state, p, entry) => { setProcess(state, p, { limit: entry.limit }); },
  };

  CHANGES.SERVED = function (state, entry) {
    const p = own(entry);
    answer(state, p, 0);
    if (entry.answer === "OK") {
      SERVICES[entry.service](state, p, entry);
    }
  };

  // Applies one line's record. What doesn't fit the state is put into state.problems.
  Player.applyEntry = function (state, entry) {
    state.problems = [];
    try {
      CHANGES[entry.kind](state, entry);
    } catch (fault) {
      if (!(fault instanceof Error)) {
        throw fault;
      }
      problem(state, fault.message);
    }
    return state.problems;
  };
})(globalThis.Player = globalThis.Player || {});
