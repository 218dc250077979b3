"""The cause of an entry, one function a kind, by the words of the definitions in crates/entry_causes/specs.

`cause_of(state, entry)` says for what an entry is made, in the state before it: a pair of a name and facts, or None if
it has no cause. It was written from the definitions' words, and from no proof.
"""

from logs import PAGE_BYTES, Reference, Service, process_of, vpn_of

# what a row asks for, told of an entry without a cause
ROWS = {
    'COLLIDE': "the process's next request isn't a reference to this page that memory grants, or the page is valid",
    'ZERO': "the process's next request isn't a reference to this page that memory grants, or the page is valid",
    'BACK': "the process is resident, and its next request isn't a reference to this page that memory grants; or it is "
            "coming, and has no request that isn't answered",
    'IN': "it is for a fault, and the process's next request isn't a reference to this page that memory grants; or for a "
          "coming process, which has no request that isn't answered",
    'REUSE': "no read of the frame has failed; the seat's process wants no frame for a fault; the seat reads no cluster "
             "that may have one more read, and whose last page a page follows that is out; and no process wants a frame to "
             "come",
    'EVICT': "for REPLACE: the process's next request isn't a reference to a page that memory grants and that isn't valid; "
             "for PURGE and DELETE: it isn't that service for a range with this page, or will be refused",
    'TURN': "to LEAVING: it isn't the swapper's with fewer frames free than FREEGOAL; and frames are free, or pages wait to "
            "be written, or a process is leaving, or no other one wants a frame; and it isn't coming while another one is "
            "gone and has a request; "
            "to COMING: the process has no request that isn't answered",
    'OUT': "the seat goes on with no cluster; it isn't the writer's with more modified pages than LOLIMIT, nor the "
           "swapper's with fewer free frames than FREEGOAL; a frame is free, or no process wants one; no eviction is held "
           "up at WAITLIMIT; and it isn't the rundown's, with a shared page on the modified list",
}


def wanted(state, p):
    """The reference and the page number that the process wants: of its next request, if memory grants it and the page
    isn't valid; or None."""
    request = state.next_request(p)
    if not isinstance(request, Reference) or state.refuses(p, request):
        return None
    vpn = request.address // PAGE_BYTES
    return None if vpn in state.processes[p].valid else (request, vpn)


def is_wanted(state, p, vpn):
    found = wanted(state, p)
    return ('WANTED', p, found[0]) if found and found[1] == vpn else None


def asks(state, p):
    request = state.next_request(p)
    return request and ('ASKS', p, request)


def wants_frame_for_fault(state, p):
    """It is resident, wants a page that is out, and has room for it below its limit."""
    process = state.processes[p]
    found = wanted(state, p)
    if process.status != 'RESIDENT' or not found or process.count >= process.limit:
        return None
    if process.map[found[1]].page in state.holder:
        return None
    return ('WANTED', p, found[0])


def wants_frame_to_come(state, p):
    """It is coming for a request, and a page that lies in one of its swap blocks is out."""
    process = state.processes[p]
    if process.status != 'COMING' or all(page in state.holder for page in process.swapped.values()):
        return None
    return asks(state, p)


def wants_frame(state, p):
    return wants_frame_for_fault(state, p) or wants_frame_to_come(state, p)


def some_process(state, test):
    """The first process that passes, as what the test says of it."""
    return next(filter(None, (test(state, p) for p in range(len(state.processes)))), None)


def few_free(state, seat):
    if seat == state.config.swapper() and state.free < state.config.parameters['FREEGOAL']:
        return ('FEW FREE', state.free)
    return None


def frame_missed(state):
    return None if state.free else some_process(state, wants_frame)


# -- evictions that are held up ---------------------------------------------------------------------------------------


def service_pages(state, p, name):
    """The valid page numbers of the range that the process's next request asks this service for."""
    request = state.next_request(p)
    if not isinstance(request, Service) or request.name != name:
        return set()
    first = request.address // PAGE_BYTES
    pages = range(first, first + request.pages)
    process = state.processes[p]
    if name == 'DELTVA' and not all(vpn in process.map for vpn in pages):
        return set()
    return process.valid.keys() & set(pages)


def asked_away(state, p):
    """The page numbers that a resident process's next request puts out of its working set."""
    process = state.processes[p]
    if process.status != 'RESIDENT':
        return set()
    if wanted(state, p) and process.count >= process.limit:
        n = process.victim()
        return set() if n is None else {process.slots[n].vpn}
    loose = {slot.vpn for slot in process.slots if slot and not slot.is_fixed()}
    return service_pages(state, p, 'DELTVA') | (service_pages(state, p, 'PURGWS') & loose)


def shared_pages(state, p, with_pinned):
    process = state.processes[p]
    slots = [slot for slot in process.slots if slot and (with_pinned or not slot.pinned)]
    return {slot.vpn for slot in slots if state.frames[process.valid[slot.vpn]].page[0] == 'shared'}


def may_go(state, p):
    """The page numbers of a process whose evictions have a cause and are legal but for the wait limit. Of private pages of
    a leaving process none goes to the modified list: they leave once they are written."""
    pages = asked_away(state, p)
    if state.processes[p].status == 'LEAVING':
        pages |= shared_pages(state, p, False)
    if state.is_all_answered():
        pages |= shared_pages(state, p, True)
    return pages


def held_up(state):
    if len(state.modified) < state.config.parameters['WAITLIMIT']:
        return None
    for p, process in enumerate(state.processes):
        for vpn in may_go(state, p):
            if state.goes_to(process.valid[vpn]) == 'MODIFIED':
                return ('HELD UP', p, vpn, state.next_request(p))
    return None


# -- the rows ---------------------------------------------------------------------------------------------------------


def reads_on(state, seat):
    carrier = state.carriers[seat]
    if not carrier.open or carrier.landed or carrier.begun >= state.config.parameters['PFC']:
        return None
    role = carrier.last.role
    if not role or role[0] not in ('FAULT', 'NEAR'):
        return None
    page = state.following(carrier.last)
    return None if page is None or page in state.holder else ('READS ON', carrier.begun)


def cause_of_reuse(state, entry):
    if state.awaits_reuse:
        return ('FAILED READ',)
    own = entry.seat < len(state.processes) and wants_frame_for_fault(state, entry.seat)
    return own or reads_on(state, entry.seat) or some_process(state, wants_frame_to_come)


def cause_of_fault(state, entry):
    return is_wanted(state, entry.seat, vpn_of(entry.words[0]))


def cause_of_back(state, entry):
    p = process_of(entry.words[0])
    if state.processes[p].status == 'COMING':
        return asks(state, p)
    return is_wanted(state, p, vpn_of(entry.words[1]))


def cause_of_in(state, entry):
    role = entry.words[2]
    if role == 'NEAR':
        return ('LEGAL',)
    p, vpn = process_of(entry.words[3][0]), vpn_of(entry.words[3][2:])
    return asks(state, p) if role == 'COME' else is_wanted(state, p, vpn)


def rundown_write(state, seat):
    if seat != state.config.writer() or not state.is_all_answered():
        return None
    shared = [f for f in state.modified if state.frames[f].page[0] == 'shared']
    return ('RUNDOWN', len(shared)) if shared else None


def cause_of_out(state, entry):
    if entry.words[1].startswith('X:'):
        return ('LEGAL',)
    if state.carriers[entry.seat].open:
        return ('WRITES ON', state.carriers[entry.seat].begun)
    if entry.seat == state.config.writer() and len(state.modified) > state.config.parameters['LOLIMIT']:
        return ('LONG', len(state.modified))
    return few_free(state, entry.seat) or frame_missed(state) or held_up(state) or rundown_write(state, entry.seat)


def cause_of_evict(state, entry):
    p, vpn, why = process_of(entry.words[0]), vpn_of(entry.words[1]), entry.words[3]
    if why in ('LEAVE', 'RUNDOWN'):
        return ('LEGAL',)
    if why == 'REPLACE':
        found = wanted(state, p)
        return found and ('WANTED', p, found[0])
    name = 'PURGWS' if why == 'PURGE' else 'DELTVA'
    return ('ASKS', p, state.next_request(p)) if vpn in service_pages(state, p, name) else None


def coming_barred(state, q):
    if state.processes[q].status != 'COMING':
        return None
    return some_process(state, lambda state, p: state.processes[p].status == 'GONE' and asks(state, p))


def cause_of_turn(state, entry):
    q, status = process_of(entry.words[0]), entry.words[1]
    if status == 'COMING':
        return asks(state, q)
    if status != 'LEAVING':
        return ('LEGAL',)
    found = few_free(state, entry.seat)
    if not found and not state.free and not state.modified and not state.is_any_leaving():
        found = some_process(state, lambda state, p: p != q and wants_frame(state, p))
    return found or coming_barred(state, q)


RULES = {'REUSE': cause_of_reuse, 'ZERO': cause_of_fault, 'COLLIDE': cause_of_fault, 'BACK': cause_of_back, 'IN': cause_of_in,
         'OUT': cause_of_out, 'EVICT': cause_of_evict, 'TURN': cause_of_turn}


def cause_of(state, entry):
    """For what the entry is made; ('LEGAL',) if legality and order say it; None if for nothing."""
    rule = RULES.get(entry.kind)
    return rule(state, entry) if rule else ('LEGAL',)
