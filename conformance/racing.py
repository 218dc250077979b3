"""Runs as threads make them, by a schedule that is drawn: each turn is that of a seat drawn at random.

It stands on the reference (see `make`): the steps are the reference's, and the turns are those of seat_turns. So it
gives racing logs of every kind that threads may make, also those that are rare on a machine with few processors.
"""

import random

import vmref

MOST_ENTRIES = 40000
MOST_IDLE = 3000


class GivenUp(Exception):
    """The schedule swaps processes out and in again without end, or all seats wait."""


class Racing(vmref.Serial):
    def __init__(self, config, seed):
        super().__init__(config, vmref.make_blocks(config, vmref.MemoryDepot()))
        self.random = random.Random(seed)
        count = len(config.procs)
        self.asks = [[request for p, request in config.body if p == process] for process in range(count)]
        self.carriers = [[] for _ in range(count + 2)]
        self.reading = [False] * count
        self.made = []

    # -- a seat's turn ------------------------------------------------------------------------------------------------

    def land_out(self, seat, reading):
        """Lands what the seat has out; whether it was lost."""
        carrier = self.carriers[seat]
        if not carrier:
            return False
        landed = self.state.land(carrier)
        return landed.good == 0 or (reading and landed.first_bad)

    def write_for_room(self, seat):
        return vmref.begin(self.state, seat, 'NEED', self.carriers[seat]) == 'CARRY'

    def go_on_leaving(self, seat, process):
        answer = vmref.leave_some(self.state, seat, process, self.carriers[seat])
        if answer == ('AGAIN', 'ModifiedFull'):
            return self.write_for_room(seat)
        return answer in ('CARRY', 'MORE', 'SETTLED')

    def turn_victim(self, seat, but):
        victim = vmref.victim(self.pager, but)
        if victim is not None:
            self.state.do('TURN', seat, victim, vmref.LEAVING)
        return victim is not None

    def lowest_leaving(self, but):
        return next((q.n for q in self.pager.procs if q.status == vmref.LEAVING and q.n != but), None)

    def find_frame(self, p):
        if self.pager.modified:
            return self.write_for_room(p)
        leaving = self.lowest_leaving(p)
        return self.turn_victim(p, p) if leaving is None else self.go_on_leaving(p, leaving)

    def turn_gone(self, p):
        pager = self.pager
        coming = next((q.n for q in pager.procs if q.status == vmref.COMING), None)
        if coming is None:
            self.state.do('TURN', p, p, vmref.COMING)
            return True
        comes = any(flight.role and flight.role[:2] == ('COME', coming) for flight in pager.flights.values())
        if comes or pager.seats[coming].open:
            return False
        self.state.do('TURN', p, coming, vmref.LEAVING)
        return True

    def bring_back(self, p):
        status = self.pager.procs[p].status
        if status == vmref.LEAVING:
            return self.go_on_leaving(p, p)
        if status == vmref.GONE:
            return self.turn_gone(p)
        answer = vmref.come_some(self.state, p, p, self.carriers[p])
        return self.find_frame(p) if answer == ('AGAIN', 'NoFrame') else answer in ('CARRY', 'MORE', 'SETTLED')

    def is_refused(self, p, request):
        process = self.pager.procs[p]
        if process.status != vmref.RESIDENT:
            return True
        if not isinstance(request, vmref.Ref):
            return request.name in ('DELTVA', 'PURGWS')
        mapped = process.map.get(request.addr // vmref.PAGE)
        return mapped is not None and mapped.frame is None

    def meet(self, p, why):
        work = {'NotResident': self.bring_back, 'ModifiedFull': self.write_for_room, 'NoFrame': self.find_frame}
        return work[why](p) if why in work else False

    def ask(self, p):
        request, is_reference = self.asks[p][0], isinstance(self.asks[p][0], vmref.Ref)
        had, lost = bool(self.carriers[p]), self.land_out(p, self.reading[p])
        self.reading[p] = False
        if lost and self.is_refused(p, request):
            self.state.do('DENIED' if is_reference else 'SERVED', p, request, 'DISKFAULT')
            answer = 'ANSWERED'
        elif is_reference:
            answer = vmref.advance(self.state, p, request, self.carriers[p])
        else:
            answer = vmref.serve(self.state, p, request)
        if answer == 'ANSWERED':
            self.asks[p].pop(0)
        self.reading[p] = answer == 'CARRY'
        return self.meet(p, answer[1]) or had if answer[0] == 'AGAIN' else True

    def write_turn(self, seat):
        if self.carriers[seat]:
            self.land_out(seat, False)
            return True
        return vmref.begin(self.state, seat, 'HIGH', self.carriers[seat]) == 'CARRY'

    def swap_turn(self, seat):
        if self.carriers[seat]:
            self.land_out(seat, False)
            return True
        leaving = self.lowest_leaving(None)
        if leaving is not None:
            return self.go_on_leaving(seat, leaving)
        return len(self.pager.free) < self.params['FREELIM'] and self.turn_victim(seat, None)

    # -- the run ------------------------------------------------------------------------------------------------------

    def turn(self, seat):
        """The seat carries what it has out, and takes a turn; whether it made something."""
        self.state.carry([lift for lift in self.carriers[seat] if getattr(lift, 'result', None) is None])
        if seat == self.pager.mpw:
            return self.write_turn(seat)
        return self.swap_turn(seat) if seat == self.pager.swp else self.ask(seat)

    def requests(self):
        idlers = [self.pager.mpw, self.pager.swp]
        haste = [self.random.choice([1, 1, 3, 10]) for _ in self.carriers]
        idle = 0
        while True:
            asking = [p for p, requests in enumerate(self.asks) if requests]
            seats = asking + idlers if asking else [seat for seat in idlers if self.carriers[seat]]
            if not seats:
                break
            seat = self.random.choices(seats, [haste[seat] for seat in seats])[0]
            idle = 0 if self.turn(seat) else idle + 1
            if idle > MOST_IDLE or self.pager.number() > MOST_ENTRIES:
                raise GivenUp()
        self.at = self.pager.number()
