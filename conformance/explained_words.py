"""The words of `explained`: the facts of an entry, in the state before it and after it."""

from kept_state import State
from logs import PAGE_BYTES, block_of, frame_of, letter, process_of, vpn_of

FROM = {'FREE': 'from the free list', 'MODIFIED': 'from the modified list', 'WRITING': 'while being written',
        'RELEASE': 'while being written', 'ACTIVE': 'shared in memory'}
MODE_NAMES = {'K': 'kernel', 'E': 'executive', 'S': 'supervisor', 'U': 'user'}


def block_name(config, block):
    kind, *place = block
    if kind == 'pagefile':
        return 'block %d of the page file' % place[0]
    if kind == 'section':
        return 'block %d of section %s' % (place[1], config.sections[place[0]].name)
    return 'swap block %d of %s' % (place[1], letter(place[0]))


def request_words(p, request):
    return "%s's request %d (%s)" % (letter(p), request.place, request.text)


def counted(n, word):
    return '%d %s%s' % (n, word, '' if n == 1 else 's')


class Told:
    """A state with what is told of it beyond what causes need."""

    def __init__(self, config):
        self.config = config
        self.state = State(config)
        self.valid_since = {}
        self.charged = set()
        self.fault_of_request = [None] * len(config.processes)
        self.references = [0] * len(config.processes)
        self.first_of_carrier = {}
        self.failed = [None] * (len(config.processes) + 2)

    def page_name(self, page):
        return self.config.page_name(page)

    def kind_of_fault(self, entry):
        """The usual name of the fault that the entry is, or None if it is none."""
        if entry.kind == 'ZERO':
            return 'demand zero'
        if entry.kind == 'BACK' and self.state.processes[process_of(entry.words[0])].status == 'RESIDENT':
            return FROM[entry.words[3]]
        if entry.kind == 'IN' and entry.words[2] == 'FAULT':
            return 'read from a section' if entry.words[1][0] == 'S' else 'read from the page file'
        return None

    def after(self, entry):
        state, kind, words, seat = self.state, entry.kind, entry.words, entry.seat
        fault = self.kind_of_fault(entry)
        if fault:
            self.fault_of_request[seat] = entry.number
        if kind in ('IN', 'OUT') and not state.carriers[seat].open:
            self.first_of_carrier[seat] = entry.number
        if kind == 'INOK' and state.flights[int(words[1])].role[0] != 'NEAR':
            role = state.flights[int(words[1])].role
            self.valid_since[role[1], role[2]] = entry.number
        if kind == 'ZERO':
            self.valid_since[seat, vpn_of(words[0])] = entry.number
        if kind == 'BACK':
            self.valid_since[process_of(words[0]), vpn_of(words[1])] = entry.number
        if kind in ('INFAIL', 'OUTFAIL'):
            self.failed[seat] = entry.number
        if kind in ('DONE', 'DENIED', 'LIMIT'):
            self.references[seat] = 0 if kind == 'LIMIT' else self.references[seat] + 1
        state.after(entry)
        self.charge(entry)
        if kind in ('DONE', 'DENIED', 'SERVED'):
            self.fault_of_request[seat] = None

    def charge(self, entry):
        """A page is charged with its ZERO, or with its first read from a section."""
        if entry.kind == 'ZERO' or (entry.kind == 'IN' and entry.words[2] == 'FAULT'):
            page = self.state.frames[frame_of(entry.words[-1] if entry.kind == 'ZERO' else entry.words[0])].page
            if entry.kind == 'ZERO' or page[0] == 'private':
                self.charged.add(page)
        mapped = {m.page for process in self.state.processes for m in process.map.values()}
        if entry.kind == 'SERVED':
            self.charged = {page for page in self.charged if page[0] == 'shared' or page in mapped}

    def now(self, entry):
        """What is so after the entry."""
        state, kind, words = self.state, entry.kind, entry.words
        if kind == 'ZERO':
            return ['the page file has now promised %d of its %d blocks' % (len(self.charged), self.config.pagefile)]
        if kind == 'EVICT':
            return [self.gone_to(frame_of(words[2]))]
        if kind in ('OUTOK', 'OUTFAIL') and state.shares[frame_of(words[0])] == 0:
            return [self.gone_to(frame_of(words[0]))]
        return []

    def gone_to(self, f):
        state = self.state
        where = state.frames[f].state
        if where == 'FREE':
            return 'F%d goes to the tail of the free list, now %d' % (f, state.free)
        if where == 'MODIFIED':
            most = self.config.parameters['WAITLIMIT']
            return 'it was modified, so F%d goes to the modified list, now %d, with WAITLIMIT %d' % (f, len(state.modified), most)
        if where == 'ACTIVE':
            others = '1 process still has' if state.shares[f] == 1 else '%d processes still have' % state.shares[f]
            return 'F%d stays active: %s the page' % (f, others)
        return 'F%d is still being written, and goes on no list' % f


# -- why ---------------------------------------------------------------------------------------------------------------


def why_of(told, cause):
    """The cause in words, or None if legality alone says it."""
    config, state = told.config, told.state
    if cause is None:
        return 'nothing asks for it'
    name, *facts = cause
    if name == 'WANTED':
        return '%s wants it' % request_words(*facts)
    if name == 'ASKS':
        return '%s asks for it' % request_words(*facts)
    if name == 'FEW FREE':
        name = 'FREELIM' if facts[0] < config.parameters['FREELIM'] else 'FREEGOAL'
        return 'fewer frames are free, %d, than %s %d' % (facts[0], name, config.parameters[name])
    if name == 'LONG':
        name = 'HILIMIT' if facts[0] > config.parameters['HILIMIT'] else 'LOLIMIT'
        return 'the modified list has %s, more than %s %d' % (counted(facts[0], 'page'), name, config.parameters[name])
    if name == 'READS ON':
        return 'read %d of at most %d in the cluster of line %d follows' % (
            facts[0] + 1, config.parameters['PFC'], told.first_of_carrier[told.seat])
    if name == 'WRITES ON':
        return 'write %d of at most %d in the cluster of line %d' % (
            facts[0] + 1, config.parameters['WRTCLUSTER'], told.first_of_carrier[told.seat])
    if name == 'FAILED READ':
        return 'its read failed in the line before'
    if name == 'HELD UP':
        p, vpn, request = facts
        for_what = ', which %s needs,' % request_words(p, request) if request else ''
        return 'the eviction of %s/%08X%s is held up: the modified list has %d pages, and WAITLIMIT is %d' % (
            letter(p), vpn * PAGE_BYTES, for_what, len(state.modified), config.parameters['WAITLIMIT'])
    if name == 'RUNDOWN':
        return 'every request is answered, and %s %s on the modified list' % (
            counted(facts[0], 'shared page'), 'is' if facts[0] == 1 else 'are')
    return None


def lacking(told, cause):
    """A frame that is missed, and who wants it."""
    if cause and cause[0] in ('WANTED', 'ASKS'):
        verb = 'needs one' if cause[0] == 'WANTED' else 'needs one for a page of its swap blocks'
        return 'no frame is free, and %s %s' % (request_words(*cause[1:]), verb)
    return why_of(told, cause)


# -- the kinds ---------------------------------------------------------------------------------------------------------


def facts_done(told, entry, cause):
    request = told.state.next_request(entry.seat)
    vpn = request.address // PAGE_BYTES
    f = told.state.processes[entry.seat].valid[vpn]
    fault = told.fault_of_request[entry.seat]
    since = told.valid_since[entry.seat, vpn]
    first = 'hit: the page is valid since line %d, in F%d' % (since, f) if fault is None else \
        'answered after the fault of line %d: the page is in F%d' % (fault, f)
    return [first + ('; it is modified now' if request.changes and not told.state.frames[f].modify else '')]


def facts_denied(told, entry, cause):
    request, why = told.state.next_request(entry.seat), entry.words[-1]
    mapped = told.state.processes[entry.seat].map.get(request.address // PAGE_BYTES)
    if why == 'UNMAPPED':
        return ['refused: nothing is mapped at %08X' % request.address]
    if why == 'PROTECTED':
        verb = 'write' if request.changes else 'read'
        return ["refused: code %s doesn't let %s mode %s" % (mapped.protection, MODE_NAMES[request.mode], verb)]
    if why == 'PAGEFILEFULL':
        return ['refused: the page was never touched, and all %d blocks of the page file are for touched pages' % told.config.pagefile]
    return ['refused: the transfer for it failed in line %d' % told.failed[entry.seat]]


def facts_served(told, entry, cause):
    return ['%s is answered' % request_words(entry.seat, told.state.next_request(entry.seat))]


def facts_reuse(told, entry, cause):
    f, page = frame_of(entry.words[0]), entry.words[1]
    if cause and cause[0] == 'FAILED READ':
        return ['F%d gives %s up: %s' % (f, page, why_of(told, cause))]
    if cause and cause[0] == 'WANTED':
        why = '%s needs a frame' % request_words(*cause[1:])
    elif cause and cause[0] == 'ASKS':
        why = '%s needs a frame for a page of its swap blocks' % request_words(*cause[1:])
    else:
        why = why_of(told, cause)
    return ['F%d heads the free list of %d and loses %s, which was free longest: %s' % (f, told.state.free, page, why)]


def facts_zero(told, entry, cause):
    page = told.page_name(told.state.processes[entry.seat].map[vpn_of(entry.words[0])].page)
    return ['fault, demand zero: %s; %s was never touched, so it begins with zeros' % (why_of(told, cause), page),
            'F%d headed the free list of %d' % (frame_of(entry.words[1]), told.state.free)]


def facts_back(told, entry, cause):
    p, f = process_of(entry.words[0]), frame_of(entry.words[2])
    if told.state.processes[p].status == 'COMING':
        return ['%s comes back: %s; the page is still in F%d, on the free list' % (letter(p), why_of(told, cause), f)]
    if entry.words[3] == 'ACTIVE':
        return ['fault, shared in memory: %s; another process has it in F%d, so nothing is read' % (
            why_of(told, cause), f)]
    return ['fault, %s: %s; the page is still in F%d, so nothing is read' % (FROM[entry.words[3]], why_of(told, cause), f)]


def facts_collide(told, entry, cause):
    flight = told.state.flights[int(entry.words[2])]
    return ['fault, collided: %s; %s reads the page since line %d, so it waits' % (
        why_of(told, cause), told.config.seat_name(flight.seat), flight.start)]


def facts_in(told, entry, cause):
    f, block, role = frame_of(entry.words[0]), block_name(told.config, block_of(told.config, entry.words[1])), entry.words[2]
    if role == 'NEAR':
        return ['a neighbour: %s follows, and is read %d of at most %d in the cluster of line %d' % (
            block, told.state.carriers[entry.seat].begun + 1, told.config.parameters['PFC'], told.first_of_carrier[entry.seat])]
    if role == 'COME':
        return ['%s comes back: %s; the page lies in %s' % (entry.words[3][0], why_of(told, cause), block)]
    return ['fault, %s: %s; the page is in no frame, and lies in %s' % (told.kind_of_fault(entry), why_of(told, cause), block),
            'F%d headed the free list of %d' % (f, told.state.free)]


def facts_inok(told, entry, cause):
    flight = told.state.flights[int(entry.words[1])]
    kind, p, vpn = flight.role
    if kind == 'NEAR':
        return ['F%d goes to the tail of the free list with the page, now %d' % (flight.frame, told.state.free + 1)]
    return ['the page is valid for %s, which has now %d of %d pages in its working set' % (
        letter(p), told.state.processes[p].count + 1, told.state.processes[p].limit)]


def facts_failed(told, entry, cause):
    return ['the transfer that line %s began failed: it is failure %s of the block' % (entry.words[1], entry.words[3])]


def facts_out(told, entry, cause):
    f, block = frame_of(entry.words[0]), block_of(told.config, entry.words[1])
    page = told.page_name(told.state.frames[f].page)
    if block[0] == 'swap':
        return ["%s leaves memory, and %s isn't saved yet: it goes to %s" % (
            letter(block[1]), page, block_name(told.config, block))]
    why = lacking(told, cause)
    first = '%s headed the modified list of %d, and goes to %s' % (page, len(told.state.modified), block_name(told.config, block))
    return [first, why]


def facts_outok(told, entry, cause):
    flight = told.state.flights[int(entry.words[1])]
    if told.state.frames[flight.frame].modify:
        return ['the write that line %d began is done, but the page was changed meanwhile' % flight.start]
    return ['the write that line %d began is done: the page lies in %s' % (flight.start, block_name(told.config, flight.block))]


def facts_evict(told, entry, cause):
    p, why = process_of(entry.words[0]), entry.words[3]
    process = told.state.processes[p]
    n = process.slot_with(vpn_of(entry.words[1]))
    if why == 'REPLACE':
        why = '%s needs one more' % request_words(*cause[1:]) if cause else why_of(told, cause)
        return ["%s's working set has %d of %s: %s, and slot %d is the first from the hand on that may go" % (
            letter(p), process.count, counted(process.limit, 'page'), why, n)]
    if why == 'LEAVE':
        return ['%s leaves memory, with %s left in its working set' % (letter(p), counted(process.count - 1, 'page'))]
    if why == 'RUNDOWN':
        return ['every request is answered, and shared pages are written back']
    return [why_of(told, cause)]


def facts_limit(told, entry, cause):
    before, now, faults = told.state.processes[entry.seat].limit, int(entry.words[0]), int(entry.words[1])
    verb = 'rises' if now > before else 'falls' if now < before else 'stays'
    return ['%s had %s in %s: its limit %s, from %d to %d' % (
        letter(entry.seat), counted(faults, 'fault'), counted(told.references[entry.seat], 'reference'), verb, before, now)]


def facts_turn(told, entry, cause):
    q, status = entry.words[0], entry.words[1]
    if status == 'LEAVING':
        return ['%s is swapped out: %s' % (q, lacking(told, cause))]
    if status == 'COMING':
        return ['%s is swapped in: %s' % (q, why_of(told, cause))]
    ends = {'GONE': 'no page of %s is left in its working set but those that are pinned',
            'RESIDENT': 'no page of %s is left in its swap blocks'}
    return [ends[status] % q]


KINDS = {'DONE': facts_done, 'DENIED': facts_denied, 'SERVED': facts_served, 'REUSE': facts_reuse, 'ZERO': facts_zero,
         'BACK': facts_back, 'COLLIDE': facts_collide, 'IN': facts_in, 'INOK': facts_inok, 'INFAIL': facts_failed,
         'OUT': facts_out, 'OUTOK': facts_outok, 'OUTFAIL': facts_failed, 'EVICT': facts_evict, 'LIMIT': facts_limit,
         'TURN': facts_turn}


def facts_of(told, entry, cause):
    """What is said of the entry by the state before it."""
    told.seat = entry.seat
    return [fact for fact in KINDS[entry.kind](told, entry, cause) if fact]
