"""The pager's state that a judge of causes needs, kept from the entries of a legal log.

Each entry is believed: whether it is legal is for `check` to say. So what an entry names is taken from it, and only
what it doesn't name is worked out here: the slot in which a page comes to stand, and the list to which a frame goes
when a write ends.
"""

from logs import PAGE_BYTES, Mapped, block_of, frame_of, page_of, process_of, vpn_of

RIGHTS = 'KESU'


def is_allowed(protection, mode, changes):
    """Whether a page with this code may be read, or changed, in the mode: a code names the least privileged mode that may
    write, before its W, and the least that may read, before its R, if that is another one."""
    if protection == 'NA':
        return False
    writes = protection[protection.index('W') - 1] if 'W' in protection else None
    reads = protection[protection.index('R') - 1] if 'R' in protection else writes
    least = writes if changes else reads
    return least is not None and RIGHTS.index(mode) <= RIGHTS.index(least)


class Slot:
    def __init__(self, vpn):
        self.vpn, self.locked, self.pinned = vpn, False, False

    def is_fixed(self):
        return self.locked or self.pinned


class Flight:
    def __init__(self, start, seat, frame, block, role):
        self.start, self.seat, self.frame, self.block, self.role = start, seat, frame, block, role

    def reads(self):
        return self.role is not None


class Frame:
    def __init__(self, state):
        self.state, self.page, self.modify, self.flights = state, None, False, 0


class Process:
    def __init__(self, spec):
        self.status = 'RESIDENT'
        self.slots = [None] * spec.extent
        self.hand = 0
        self.limit = spec.limit
        self.extent, self.locks = spec.extent, spec.locks
        self.map = {}
        self.valid = {}
        self.swapped = {}
        self.answered = 0
        self.count = 0

    def from_hand(self):
        size = len(self.slots)
        return [(self.hand + n) % size for n in range(size)]

    def victim(self):
        """The first slot from the hand on with a page that isn't fixed."""
        return next((n for n in self.from_hand() if self.slots[n] and not self.slots[n].is_fixed()), None)

    def slot_with(self, vpn):
        return next(n for n, slot in enumerate(self.slots) if slot and slot.vpn == vpn)

    def fill(self, n, vpn):
        self.slots[n] = Slot(vpn)
        self.count += 1

    def place(self, vpn):
        """Puts a page into the first empty slot from the hand on, behind which the hand then stands."""
        n = next(n for n in self.from_hand() if self.slots[n] is None)
        self.fill(n, vpn)
        self.hand = (n + 1) % len(self.slots)


class Carrier:
    """A seat's flights from one that was begun while it had none open."""

    def __init__(self):
        self.open = self.begun = self.landed = 0
        self.last = None


class State:
    """The state after some entries."""

    def __init__(self, config):
        self.config = config
        self.frames = [Frame('BAD' if f in config.bad else 'FREE') for f in range(config.frames)]
        self.free = sum(frame.state == 'FREE' for frame in self.frames)
        self.modified = {}
        self.processes = [Process(spec) for spec in config.processes]
        self.carriers = [Carrier() for _ in range(len(config.processes) + 2)]
        self.flights = {}
        self.holder = {}
        self.filed = {}
        self.lying = {}
        self.shares = [0] * config.frames
        self.touched = set()
        self.awaits_reuse = False
        for process, vpn, section, page, protection in config.maps:
            behind, paged = config.behind(process, vpn, section, page)
            self.processes[process].map[vpn] = Mapped(behind, paged, protection)

    # -- what is asked ------------------------------------------------------------------------------------------------

    def next_request(self, p):
        """The first request of the process that isn't answered, or None."""
        requests = self.config.requests[p]
        answered = self.processes[p].answered
        return requests[answered] if answered < len(requests) else None

    def is_all_answered(self):
        return all(self.next_request(p) is None for p in range(len(self.processes)))

    def is_any_leaving(self):
        return any(process.status == 'LEAVING' for process in self.processes)

    def following(self, flight):
        """The page that follows the one that is read: of its process or section, in the next block; or None."""
        before, block = self.frames[flight.frame].page, flight.block
        if block[0] == 'section' and block[2] + 1 < self.config.sections[block[1]].pages:
            page = ('shared', block[1], block[2] + 1)
        else:
            page = self.lying.get(block[1] + 1) if block[0] == 'pagefile' else None
        return page if page and page[:2] == before[:2] else None

    def refuses(self, p, reference):
        """Whether memory without frames and disk refuses the reference."""
        mapped = self.processes[p].map.get(reference.address // PAGE_BYTES)
        if mapped is None or not is_allowed(mapped.protection, reference.mode, reference.changes):
            return True
        return mapped.paged and mapped.page not in self.touched and len(self.touched) == self.config.pagefile

    def goes_to(self, frame):
        """Where a frame goes that loses one of its entries now."""
        if self.shares[frame] > 1:
            return 'ACTIVE'
        if self.frames[frame].flights:
            return 'RELEASE'
        return 'MODIFIED' if self.frames[frame].modify else 'FREE'

    # -- parts of the changes -----------------------------------------------------------------------------------------

    def put(self, f, state):
        """The frame is in this state, and on the list that it names."""
        frame = self.frames[f]
        self.free += (state == 'FREE') - (frame.state == 'FREE')
        if frame.state == 'MODIFIED':
            del self.modified[f]
        if state == 'MODIFIED':
            self.modified[f] = None
        frame.state = state

    def hold(self, f, page):
        held = self.frames[f].page
        if held is not None:
            del self.holder[held]
        self.frames[f].page = page
        if page is not None:
            self.holder[page] = f

    def lie(self, page, number):
        """The page lies in this block of the page file, or in none of it."""
        if page in self.filed:
            del self.lying[self.filed.pop(page)]
        if number is not None:
            self.filed[page], self.lying[number] = number, page

    def make_valid(self, p, vpn, f):
        self.processes[p].valid[vpn] = f
        self.shares[f] += 1
        self.put(f, 'ACTIVE')

    def settle(self, f):
        if self.shares[f] == 0:
            self.put(f, 'MODIFIED' if self.frames[f].modify else 'FREE')

    def begin(self, entry, f, block, role):
        carrier = self.carriers[entry.seat]
        if carrier.open == 0:
            carrier.begun = carrier.landed = 0
        carrier.open += 1
        carrier.begun += 1
        carrier.last = self.flights[entry.number] = Flight(entry.number, entry.seat, f, block, role)
        self.frames[f].flights += 1

    def land(self, entry):
        flight = self.flights.pop(int(entry.words[1]))
        self.carriers[entry.seat].open -= 1
        self.carriers[entry.seat].landed += 1
        self.frames[flight.frame].flights -= 1
        return flight

    # -- the sixteen kinds --------------------------------------------------------------------------------------------

    def after(self, entry):
        """Goes on to the state after the entry."""
        self.awaits_reuse = False
        getattr(self, 'after_' + entry.kind.lower())(entry, entry.words)

    def after_done(self, entry, words):
        request = self.next_request(entry.seat)
        process = self.processes[entry.seat]
        vpn = request.address // PAGE_BYTES
        if request.changes:
            self.frames[process.valid[vpn]].modify = True
        if process.map[vpn].paged:
            self.touched.add(process.map[vpn].page)
        process.answered += 1

    def after_denied(self, entry, words):
        self.processes[entry.seat].answered += 1

    def after_served(self, entry, words):
        process, request = self.processes[entry.seat], self.next_request(entry.seat)
        process.answered += 1
        if 'OK' not in words:
            return
        if request.name == 'ADJWSL':
            process.limit = int(words[1])
            return
        first = request.address // PAGE_BYTES
        for vpn in range(first, first + request.pages):
            self.serve_page(entry.seat, process, request, vpn)

    def serve_page(self, p, process, request, vpn):
        mapped = process.map.get(vpn)
        if request.name == 'CRETVA':
            process.map[vpn] = Mapped(('private', p, vpn), True, request.protection)
        elif request.name == 'SETPRT':
            process.map[vpn] = Mapped(mapped.page, mapped.paged, request.protection)
        elif request.name == 'DELTVA':
            del process.map[vpn]
            if mapped.page[0] == 'private':
                self.forget(mapped.page)
        elif request.name != 'PURGWS' and vpn in process.valid:
            slot = process.slots[process.slot_with(vpn)]
            if request.name in ('LKWSET', 'ULWSET'):
                slot.locked = request.name == 'LKWSET'
            else:
                slot.pinned = request.name == 'LCKPAG'

    def forget(self, page):
        self.touched.discard(page)
        self.lie(page, None)
        f = self.holder.get(page)
        if f is not None:
            self.put(f, 'FREE')
            self.hold(f, None)
            self.frames[f].modify = False

    def after_reuse(self, entry, words):
        f = frame_of(words[0])
        self.put(f, 'FREE')
        self.hold(f, None)
        self.frames[f].modify = False

    def after_zero(self, entry, words):
        vpn, f = vpn_of(words[0]), frame_of(words[1])
        process = self.processes[entry.seat]
        self.hold(f, process.map[vpn].page)
        self.frames[f].modify = True
        process.place(vpn)
        self.make_valid(entry.seat, vpn, f)

    def after_back(self, entry, words):
        p, vpn, f = process_of(words[0]), vpn_of(words[1]), frame_of(words[2])
        process = self.processes[p]
        if process.status == 'COMING':
            self.frames[f].modify = True
            process.fill(self.take_from_swap(process, self.frames[f].page), vpn)
        else:
            process.place(vpn)
        self.make_valid(p, vpn, f)

    def take_from_swap(self, process, page):
        slot = next(n for n, lies in process.swapped.items() if lies == page)
        del process.swapped[slot]
        return slot

    def after_collide(self, entry, words):
        pass

    def after_in(self, entry, words):
        f, block = frame_of(words[0]), block_of(self.config, words[1])
        if words[2] == 'NEAR':
            role = ('NEAR', None, None)
            page = page_of(self.config, words[3])
        else:
            p, vpn = process_of(words[3][0]), vpn_of(words[3][2:])
            role = (words[2], p, vpn)
            page = self.processes[p].map[vpn].page
        self.put(f, 'READING')
        self.hold(f, page)
        self.begin(entry, f, block, role)

    def after_inok(self, entry, words):
        flight = self.land(entry)
        kind, p, vpn = flight.role
        frame = self.frames[flight.frame]
        frame.modify = False
        if kind == 'NEAR':
            self.put(flight.frame, 'FREE')
            return
        if kind == 'FAULT':
            frame.modify = frame.page[0] == 'private' and flight.block[0] == 'section'
            self.processes[p].place(vpn)
        else:
            frame.modify = True
            self.take_from_swap(self.processes[p], frame.page)
            self.processes[p].fill(flight.block[2], vpn)
        self.make_valid(p, vpn, flight.frame)

    def after_infail(self, entry, words):
        self.put(self.land(entry).frame, 'READERROR')
        self.awaits_reuse = True

    def after_out(self, entry, words):
        f, block = frame_of(words[0]), block_of(self.config, words[1])
        if block[0] != 'swap':
            self.put(f, 'WRITING')
        self.frames[f].modify = False
        self.begin(entry, f, block, None)

    def after_outok(self, entry, words):
        flight = self.land(entry)
        frame = self.frames[flight.frame]
        if not frame.modify:
            self.lie(frame.page, flight.block[1] if flight.block[0] == 'pagefile' else None)
            if flight.block[0] == 'swap':
                self.processes[flight.block[1]].swapped[flight.block[2]] = frame.page
        self.settle(flight.frame)

    def after_outfail(self, entry, words):
        flight = self.land(entry)
        self.frames[flight.frame].modify = True
        self.settle(flight.frame)

    def after_evict(self, entry, words):
        p, vpn, f = process_of(words[0]), vpn_of(words[1]), frame_of(words[2])
        process = self.processes[p]
        n = process.slot_with(vpn)
        process.slots[n] = None
        process.count -= 1
        if words[3] == 'REPLACE':
            process.hand = n
        del process.valid[vpn]
        self.shares[f] -= 1
        self.put(f, words[4])

    def after_limit(self, entry, words):
        self.processes[entry.seat].limit = int(words[0])

    def after_turn(self, entry, words):
        process = self.processes[process_of(words[0])]
        process.status = words[1]
        if words[1] == 'LEAVING':
            for slot in process.slots:
                if slot:
                    slot.locked = False
