"""Logs that are legal and have entries without a cause, made on purpose.

It stands on the reference (see `make`): the run is the reference's serial run, with steps between two requests that
nothing asks for. Of each such entry it keeps the number, so that a judge of causes can be tried on it. Where a step might
have its cause by chance it isn't made.
"""

import random

import vmref

KINDS = ('purge', 'delete', 'replace', 'write', 'reuse', 'swap', 'come', 'fault', 'collide', 'cluster')
CHANCE = 0.2
MOST_STEPS = 50


class Causeless(vmref.Serial):
    """A serial run with needless steps of one kind: once, or after each answer."""

    def __init__(self, config, seed, kind, always):
        super().__init__(config, vmref.make_blocks(config, vmref.MemoryDepot()))
        self.random, self.kind, self.always = random.Random(seed), kind, always
        self.made = []

    # -- what is asked for --------------------------------------------------------------------------------------------

    def next_of(self, p):
        requests = [request for process, request in self.config.body if process == p]
        asked = self.pager.procs[p].asked
        return requests[asked] if asked < len(requests) else None

    def wanted_by(self, p):
        """The page number that the process's next request wants, or None."""
        request, process = self.next_of(p), self.pager.procs[p]
        if not isinstance(request, vmref.Ref) or self.pager.refusal(process, request):
            return None
        vpn = request.addr // vmref.PAGE
        return vpn if process.map[vpn].frame is None else None

    def is_missed(self, seat):
        """Whether a write or a swap by this seat might have its cause."""
        pager, params = self.pager, self.params
        return not pager.free or len(pager.modified) >= params['WAITLIMIT'] or pager.all_answered() \
            or (seat == pager.mpw and len(pager.modified) > params['LOLIMIT']) \
            or (seat == pager.swp and len(pager.free) < params['FREEGOAL'])

    # -- needless steps -----------------------------------------------------------------------------------------------

    def make(self, *entry):
        self.state.do(*entry)
        self.made.append(self.pager.number())

    def evict(self, p, n, why):
        process = self.pager.procs[p]
        mapped = process.map[process.slots[n].vpn]
        if not self.pager.eviction_stopped(mapped):
            self.make('EVICT', p, p, process.slots[n].vpn * vmref.PAGE, mapped.frame, why, self.pager.after_eviction(mapped))

    def needless_purge(self, p):
        for n, slot in enumerate(list(self.pager.procs[p].slots)):
            if slot and not slot.locked and not slot.pinned and isinstance(self.next_of(p), (vmref.Ref, type(None))):
                self.evict(p, n, 'PURGE')

    def needless_delete(self, p):
        filled = [n for n, slot in enumerate(self.pager.procs[p].slots) if slot]
        if filled and isinstance(self.next_of(p), (vmref.Ref, type(None))):
            self.evict(p, filled[0], 'DELETE')

    def needless_replace(self, p):
        what, n = self.pager.choice(self.pager.procs[p])
        if what == 'VICTIM' and self.wanted_by(p) is None:
            self.evict(p, n, 'REPLACE')

    def needless_write(self, p):
        seat = self.random.choice([p, self.pager.mpw, self.pager.swp])
        if self.pager.modified and not self.is_missed(seat):
            carrier = []
            self.made.append(self.pager.number() + 1)
            vmref.begin(self.state, seat, 'NEED', carrier)
            self.carry(carrier)

    def needless_reuse(self, p):
        f = self.pager.head(self.pager.free)
        comes = any(process.status == vmref.COMING for process in self.pager.procs)
        if f is not None and self.pager.frames[f].page is not None and not comes and self.wanted_by(p) is None:
            self.make('REUSE', self.random.choice([p, self.pager.mpw, self.pager.swp]), f, self.pager.frames[f].page.key)

    def needless_swap(self, p):
        residents = [process.n for process in self.pager.procs if process.status == vmref.RESIDENT]
        seat = self.random.choice([p, self.pager.swp])
        if residents and not self.is_missed(seat):
            leaver = self.random.choice(residents)
            self.make('TURN', seat, leaver, vmref.LEAVING)
            self.leave(seat, leaver)

    def needless_come(self, p):
        gone = [process for process in self.pager.procs if process.status == vmref.GONE and process.todo == 0]
        if not gone or any(process.status == vmref.COMING for process in self.pager.procs):
            return
        comer = gone[0]
        self.make('TURN', p, comer.n, vmref.COMING)
        for _ in range(MOST_STEPS):
            carrier, before = [], self.pager.number()
            answer = vmref.come_some(self.state, p, comer.n, carrier)
            new = range(before + 1, self.pager.number() + 1)
            self.made += [n for n in new if self.pager.entries[n - 1][0] in ('IN', 'BACK', 'REUSE')]
            if answer == 'CARRY':
                self.carry(carrier)
            elif answer != 'MORE':
                return

    def needless_fault(self, p):
        process = self.pager.procs[p]
        if process.count >= process.limit or self.wanted_by(p) is not None:
            return
        invalid = [vpn for vpn, mapped in process.map.items() if mapped.frame is None]
        if invalid:
            self.fault(p, self.random.choice(invalid))

    def fault(self, p, vpn):
        pager, page = self.pager, self.pager.procs[p].map[vpn].page
        if page.frame is not None:
            self.make('BACK', p, p, vpn * vmref.PAGE, page.frame, pager.frames[page.frame].state)
            return
        f = pager.head(pager.free)
        if f is None or (page.paged and not page.charged and pager.charged >= pager.size):
            return
        if pager.frames[f].page is not None:
            self.make('REUSE', p, f, pager.frames[f].page.key)
        if page.paged and not page.crf and not page.charged:
            self.state.zero(p, vpn * vmref.PAGE, f)
            self.made.append(pager.number())
            return
        carrier = []
        self.state.begin_in(p, f, page.home if page.lies is None else page.lies, ('FAULT', p, vpn * vmref.PAGE), carrier)
        self.made.append(pager.number())
        self.carry(carrier)

    def needless_collide(self, p):
        """It is made while a read is open: see `carry`."""

    def needless_cluster(self, p):
        """It is made while reads are open: see `carry`."""

    def carry(self, carrier):
        if self.always or not self.made:
            if self.kind == 'collide':
                for lift in carrier:
                    if not lift.write:
                        self.collide(lift)
            if self.kind == 'cluster' and carrier and not carrier[-1].write:
                self.reuse_behind(carrier)
        return super().carry(carrier)

    def reuse_behind(self, carrier):
        """A frame gives up its page behind a cluster that might have one more read, but which no page follows."""
        pager, last = self.pager, carrier[-1]
        f, block = pager.head(pager.free), vmref.next_block(last.block)
        pages = list(pager.shared.values()) + [mapped.page for process in pager.procs for mapped in process.map.values()]
        follows = any(page.lies == block and page.frame is None for page in pages)
        comes = any(process.status == vmref.COMING for process in pager.procs)
        if f is not None and pager.frames[f].page is not None and not follows and not comes:
            self.make('REUSE', last.seat, f, pager.frames[f].page.key)

    def collide(self, lift):
        page = self.pager.frames[lift.f].page
        for process in self.pager.procs:
            here = [vpn for vpn, mapped in process.map.items() if mapped.page is page and self.wanted_by(process.n) != vpn]
            if here and process.n != lift.seat and process.status == vmref.RESIDENT and process.collided != lift.k:
                self.make('COLLIDE', process.n, here[0] * vmref.PAGE, lift.f, lift.k)

    def after_answer(self, p):
        super().after_answer(p)
        is_time = self.always or (not self.made and self.random.random() < CHANCE)
        if is_time and self.pager.procs[p].status == vmref.RESIDENT:
            try:
                getattr(self, 'needless_' + self.kind)(p)
            except vmref.AllFailed:
                pass
