"""Reads a trace with a log behind it, as `check` does, for the judge of causes.

It reads right traces and logs alone: whether a line is right is for `check` to say. What it gives: the configuration,
the requests of each process, and the entries of the log with their numbers and texts.

Pages are ('private', process, page number) or ('shared', section, page of it); blocks ('section', section, page),
('pagefile', number) or ('swap', process, slot). Processes, sections and frames are their numbers.
"""

from collections import namedtuple

PAGE_BYTES = 512
PARAMETERS = {'PFC': 4, 'HILIMIT': 128, 'LOLIMIT': 32, 'WAITLIMIT': 256, 'WRTCLUSTER': 8, 'FREELIM': 0, 'FREEGOAL': 0}
SEATS = ('MPW', 'SWP')
SERVICES = ('CRETVA', 'DELTVA', 'SETPRT', 'LKWSET', 'ULWSET', 'LCKPAG', 'ULKPAG', 'PURGWS', 'ADJWSL')
MODES = 'KESU'

Reference = namedtuple('Reference', 'place text mode changes address')
Service = namedtuple('Service', 'place text name address pages protection')
Process = namedtuple('Process', 'limit quota extent locks')
Section = namedtuple('Section', 'name kind pages')
Mapped = namedtuple('Mapped', 'page paged protection')
Entry = namedtuple('Entry', 'number seat kind words text')


class Config:
    """What a trace declares, and what its processes ask for, each process's requests in their order."""

    def __init__(self):
        self.frames = self.pagefile = 0
        self.bad = set()
        self.parameters = dict(PARAMETERS)
        self.sections = []
        self.section_numbers = {}
        self.processes = []
        self.maps = []
        self.requests = []
        self.asked = 0

    def behind(self, process, vpn, section, page):
        """The page that a process has at a page number, which is demand zero or of a section, and whether it is paged."""
        if section is None:
            return ('private', process, vpn), True
        kind = self.sections[section].kind
        if kind == 'CRF':
            return ('private', process, vpn), True
        return ('shared', section, page), kind == 'PAGED'

    def writer(self):
        return len(self.processes)

    def swapper(self):
        return len(self.processes) + 1

    def seat_name(self, seat):
        return letter(seat) if seat < len(self.processes) else SEATS[seat - len(self.processes)]

    def page_name(self, page):
        kind, owner, number = page
        if kind == 'private':
            return '%s/%08X' % (letter(owner), number * PAGE_BYTES)
        return '%s/%d' % (self.sections[owner].name, number)


def letter(process):
    return chr(ord('A') + process)


def process_of(word):
    return ord(word) - ord('A')


def vpn_of(word):
    return int(word, 16) // PAGE_BYTES


def frame_of(word):
    return int(word[1:])


def page_of(config, word):
    name, number = word.split('/')
    if len(name) == 1:
        return ('private', process_of(name), vpn_of(number))
    return ('shared', config.section_numbers[name], int(number))


def block_of(config, word):
    kind, rest = word.split(':')
    if kind == 'P':
        return ('pagefile', int(rest))
    name, number = rest.split('/')
    if kind == 'S':
        return ('section', config.section_numbers[name], int(number))
    return ('swap', process_of(name), int(number))


def words_of(line):
    """The words of a line of a trace; none of one that is skipped."""
    words = line.removesuffix('\r').replace('\t', ' ').split()
    return [] if words and words[0].startswith('!') else words


def read_request(place, words):
    op = words[0]
    if op in SERVICES:
        if op == 'ADJWSL':
            return Service(place, ' '.join(words), op, 0, 0, None)
        protection = words[3] if op in ('CRETVA', 'SETPRT') else None
        address, pages = int(words[1], 16), int(words[2])
        return Service(place, '%s %08X %d' % (op, address, pages), op, address, pages, protection)
    mode = op[0] if op[0] in MODES else 'U'
    address = int(words[1], 16)
    return Reference(place, '%s %08X' % (op, address), mode, op.lstrip(MODES)[0] != 'R', address)


def read_mapping(config, words):
    process, first, pages = process_of(words[1]), vpn_of(words[2]), int(words[3])
    section, page = None, 0
    if words[0] == 'MAPSEC':
        section, page = config.section_numbers[words[4]], int(words[5])
    for i in range(pages):
        config.maps.append((process, first + i, section, page + i, words[-1]))


def read_declaration(config, words):
    kind = words[0]
    if kind == 'FRAMES':
        config.frames = int(words[1])
    elif kind == 'PAGEFILE':
        config.pagefile = int(words[1])
    elif kind == 'PARAM':
        config.parameters[words[1]] = int(words[2])
    elif kind == 'BAD':
        config.bad.add(int(words[1]))
    elif kind == 'SECTION':
        config.section_numbers[words[1]] = len(config.sections)
        config.sections.append(Section(words[1], words[2], int(words[3])))
    elif kind == 'PROCESS':
        config.processes.append(Process(*map(int, words[2:6])))
        config.requests.append([])
    elif kind in ('MAPZERO', 'MAPSEC'):
        read_mapping(config, words)


def read_trace(lines):
    """The configuration of the lines up to LOG, or to their end."""
    config = Config()
    in_body = False
    for line in lines:
        words = words_of(line)
        if not words or words[0] == 'END':
            continue
        if words[0] == 'BODY':
            in_body = True
        elif in_body:
            config.asked += 1
            config.requests[process_of(words[0])].append(read_request(config.asked, words[1:]))
        else:
            read_declaration(config, words)
    return config


def read_entry(config, line):
    number, seat, kind, *words = line.split(' ')
    seat = config.writer() + SEATS.index(seat) if seat in SEATS else process_of(seat)
    return Entry(int(number), seat, kind, words, line)


def read(text):
    """A configuration, and the entries of its log; the log's other lines have no causes, and are passed over."""
    lines = text.split('\n')
    ends = [n for n, line in enumerate(lines) if words_of(line) == ['LOG']]
    if not ends:
        raise SystemExit('causes: there is no line LOG')
    config = read_trace(lines[:ends[0]])
    entries = []
    for line in lines[ends[0] + 1:]:
        words = line.split(' ')
        if len(words) > 2 and words[0].isdigit() and (words[1] in SEATS or len(words[1]) == 1):
            entries.append(read_entry(config, line))
    return config, entries
