"""The large inputs of the corpus, made and not stored: traces at the greatest sizes that the format allows, several at
once. Each is the same at every call. `LARGE` lists the cases: a name, the program's words, and what makes the input,
or the name of the case on whose output `check` is tried."""

LETTERS = 'ABCDEFGHIJKLMNOP'
P0_PAGES, P1_FIRST = 4096, 0x7FF80000


class Draws:
    """Draws of 32 bits by a linear congruence."""

    def __init__(self, seed):
        self.state = seed

    def below(self, n):
        self.state = (self.state * 6364136223846793005 + 1442695040888963407) % 2 ** 64
        return (self.state >> 32) % n


def text(lines):
    return ('\n'.join(lines) + '\n').encode()


def head(frames, pagefile, version=1):
    return ['VMTRACE %d' % version, 'FRAMES %d' % frames, 'PAGEFILE %d' % pagefile]


def request(draws, process, address):
    kind = draws.below(8)
    if kind < 4:
        return '%s R4 %08X' % (process, address)
    if kind < 7:
        return '%s W4 %08X %08X' % (process, address, draws.below(2 ** 32))
    return '%s A4 %08X %08X' % (process, address, draws.below(2 ** 32))


def all_frames(count, stretch):
    """16 processes with 1,000 pages each in 4,096 frames: more than fit, so processes are swapped. Each has the
    processor for so many references."""
    draws = Draws(1)
    lines = head(4096, 16384) + ['PARAM FREELIM 64', 'PARAM FREEGOAL 256', 'PARAM PFC 8', 'PARAM WRTCLUSTER 16']
    for x in LETTERS:
        lines += ['PROCESS %s 1024 1024 1024 8' % x, 'MAPZERO %s 00000000 1000 UW' % x]
    lines.append('BODY')
    for n in range(count):
        lines.append(request(draws, LETTERS[n // stretch % 16], 512 * draws.below(1000) + 4 * draws.below(128)))
    return text(lines + ['END'])


def all_section_pages():
    """64 sections with 16,384 pages together, shared and copy on reference, mapped by 16 processes."""
    draws = Draws(2)
    lines = head(1200, 16384)
    for s in range(64):
        lines.append('SECTION S%02d %s 256' % (s, 'CRF' if s % 4 == 3 else 'SHARED'))
        for k in range(8):
            lines.append('DATA S%02d %d %s' % (s, 16384 * k + 256 * s + k, '%08x' % (s * 65536 + k)))
    for p, x in enumerate(LETTERS):
        lines.append('PROCESS %s 60 64 70 4' % x)
        for k in range(16):
            lines.append('MAPSEC %s %08X 256 S%02d 0 UW' % (x, k * 256 * 512, (16 * (p % 4) + k) % 64))
    lines.append('BODY')
    for n in range(6000):
        page = draws.below(4096) if draws.below(3) == 0 else 256 * draws.below(16) + draws.below(8)
        lines.append(request(draws, LETTERS[draws.below(16)], 512 * page + 4 * draws.below(128)))
    return text(lines + ['END'])


def whole_page_file():
    """16,384 pages are touched, one for each block of the page file, and some more, which are refused."""
    lines = head(4096, 16384)
    for x in 'ABCDE':
        lines += ['PROCESS %s 1024 1024 1024 0' % x, 'MAPZERO %s 00000000 4096 UW' % x, 'MAPZERO %s 7FF80000 1024 UW' % x]
    lines.append('BODY')
    for x in 'ABCD':
        for v in range(4096):
            lines.append('%s W1 %08X %02X' % (x, 512 * v + v % 512, v % 256))
    for v in range(40):
        lines.append('%s W2 %08X 00FF' % ('ABCDE'[v % 5], P1_FIRST + 512 * 25 * v))
    for v in range(0, 4096, 64):
        lines.append('%s R1 %08X' % ('ABCD'[v // 64 % 4], 512 * v + v % 512))
    return text(lines + ['END'])


def body(count, lines_in_all):
    """So many requests of two processes, with comments between them up to so many lines."""
    draws = Draws(3)
    lines = head(64, 200) + ['SECTION COM SHARED 8']
    for x in 'AB':
        lines += ['PROCESS %s 20 24 30 2' % x, 'MAPZERO %s 00000000 40 UW' % x, 'MAPSEC %s 00010000 8 COM 0 UW' % x]
    lines.append('BODY')
    spare = lines_in_all - len(lines) - 1 - count
    for n in range(count):
        page = draws.below(40) if draws.below(4) else 128 + draws.below(8)
        lines.append(request(draws, 'AB'[draws.below(2)], 512 * page + 4 * draws.below(128)))
        if spare > 0:
            spare -= 1
            lines.append('! %d' % n)
    lines += ['!'] * spare
    return text(lines + ['END'])


def long_body(count):
    """So many requests of four processes in a long trace. Their pages fit the working sets, but each thousandth is a
    page more, which takes another's place, and each ten thousandth is pinned or unpinned."""
    draws = Draws(9)
    lines = ['LONGTRACE 2', 'FRAMES 128', 'PAGEFILE 400']
    for x in 'ABCD':
        lines += ['PROCESS %s 20 24 30 4' % x, 'MAPZERO %s 00000000 40 UW' % x]
    lines.append('BODY')
    for n in range(count):
        x = 'ABCD'[draws.below(4)]
        if n % 10000 == 9999:
            lines.append('%s %s 00000000 1' % (x, 'LCKPAG' if n // 10000 % 2 else 'ULKPAG'))
        else:
            page = draws.below(40) if n % 1000 == 0 else draws.below(16)
            lines.append(request(draws, x, 512 * page + 4 * draws.below(128)))
    return text(lines + ['END'])


def most_entries():
    """100,000 requests, each of which evicts a page that is written before the next one and reads one back."""
    lines = head(8, 16384) + ['PARAM PFC 8', 'PARAM WRTCLUSTER 16', 'PARAM HILIMIT 0', 'PARAM LOLIMIT 0',
                              'PROCESS A 2 2 2 0', 'MAPZERO A 00000000 16 UW', 'BODY']
    lines += ['A W4 %08X %08X' % (512 * (n % 16), n) for n in range(100000)]
    return text(lines + ['END'])


def failing_blocks():
    """1,000 blocks that fail at 16 calls each."""
    draws = Draws(4)
    lines = head(64, 600) + ['PARAM WAITLIMIT 4', 'PARAM HILIMIT 3', 'PARAM LOLIMIT 1', 'PARAM FREELIM 4', 'PARAM FREEGOAL 8',
                             'SECTION COM SHARED 100', 'SECTION IMG CRF 100']
    blocks = ['S:COM/%d' % i for i in range(100)] + ['S:IMG/%d' % i for i in range(100)] + ['P:%d' % i for i in range(600)]
    for x in 'ABCDEFGH':
        lines += ['PROCESS %s 20 25 30 2' % x, 'MAPZERO %s 00000000 100 UW' % x, 'MAPSEC %s 00020000 100 COM 0 UW' % x,
                  'MAPSEC %s 00040000 100 IMG 0 UW' % x]
        blocks += ['X:%s/%d' % (x, n) for n in range(25)]
    for block in blocks:
        calls = sorted({1 + draws.below(40) for _ in range(60)})[:16]
        while len(calls) < 16:
            calls.append(100 + len(calls))
        lines.append('FAIL %s %s' % (block, ' '.join(str(n) for n in calls)))
    lines.append('BODY')
    turn = 0
    for n in range(8000):
        if draws.below(50) == 0:
            turn = draws.below(8)
        page = (0, 256, 512)[draws.below(3)] + draws.below(100)
        lines.append(request(draws, 'ABCDEFGH'[turn], 512 * page + 4 * draws.below(128)))
    return text(lines + ['END'])


def single_mappings():
    """Each page that a process may map, by a mapping of its own; and 2,000 bad frames."""
    draws = Draws(5)
    lines = head(4096, 6000)
    lines += ['BAD %d' % (2 * f + 1) for f in range(2000)]
    lines += ['PROCESS A 900 950 1000 0']
    for v in range(P0_PAGES):
        lines.append('MAPZERO A %08X 1 %s' % (512 * v, ('UW', 'URSW', 'SW')[v % 3]))
    for v in range(1024):
        lines.append('MAPZERO A %08X 1 UW' % (P1_FIRST + 512 * v))
    lines.append('BODY')
    for n in range(8000):
        page = draws.below(5120)
        lines.append(request(draws, 'A', (512 * page if page < 4096 else P1_FIRST + 512 * (page - 4096)) + 4 * draws.below(128)))
    return text(lines + ['END'])


def all_slots():
    """16 processes with up to 1,024 slots each, locks, purges, limits and deletions."""
    draws = Draws(6)
    lines = head(4096, 16384) + ['PARAM AWSTIME 50', 'PARAM WSINC 100', 'PARAM WSDEC 50', 'PARAM BORROWLIM 100']
    for x in LETTERS:
        lines += ['PROCESS %s 300 600 1024 200' % x, 'MAPZERO %s 00000000 1024 UW' % x, 'MAPZERO %s 7FF80000 200 UW' % x]
    lines.append('BODY')
    for n in range(10000):
        x = LETTERS[draws.below(4) if draws.below(8) else draws.below(16)]
        kind = draws.below(60)
        at = 512 * draws.below(900)
        if kind == 0:
            lines.append('%s LKWSET %08X %d' % (x, at, 1 + draws.below(60)))
        elif kind == 1:
            lines.append('%s ULWSET %08X %d' % (x, at, 1 + draws.below(100)))
        elif kind == 2:
            lines.append('%s PURGWS %08X %d' % (x, at, 1 + draws.below(100)))
        elif kind == 3:
            lines.append('%s ADJWSL %d' % (x, 190 + draws.below(850)))
        elif kind == 4:
            lines.append('%s DELTVA %08X %d' % (x, at, 1 + draws.below(20)))
        elif kind == 5:
            lines.append('%s CRETVA %08X %d UW' % (x, at, 1 + draws.below(20)))
        else:
            p1 = draws.below(10) == 0
            lines.append(request(draws, x, (P1_FIRST + 512 * draws.below(200) if p1 else 512 * draws.below(1024)) + 4 * draws.below(128)))
    return text(lines + ['END'])


def all_frames_of_version_two():
    """64 sections in the page file with 16,384 pages together, in as many frames: each page is touched, so that each
    block is promised, and each frame is in use. Each of 16 processes maps 16 of the sections, four of which it
    touches first, and pins and locks some pages."""
    draws = Draws(8)
    lines = head(16384, 16384, 2) + ['PARAM PFC 8', 'PARAM WRTCLUSTER 16', 'PARAM FREELIM 32', 'PARAM FREEGOAL 64']
    lines += ['SECTION S%02d PAGED 256' % s for s in range(64)]
    for p, x in enumerate(LETTERS):
        lines.append('PROCESS %s 1024 1024 1024 64' % x)
        for k in range(16):
            lines.append('MAPSEC %s %08X 256 S%02d 0 UW' % (x, k * 256 * 512, (4 * p + k) % 64))
    lines.append('BODY')
    for v in range(1024):
        lines += ['%s W1 %08X %02X' % (x, 512 * v + v % 512, v % 256) for x in LETTERS]
    for n in range(9000):
        x = LETTERS[n // 300 % 16]
        at = 512 * draws.below(1024)
        kind = draws.below(100)
        if kind < 4:
            lines.append('%s %s %08X %d' % (x, ('LCKPAG', 'ULKPAG', 'LKWSET', 'ULWSET')[kind], at, 1 + draws.below(20)))
        elif kind == 4:
            lines.append('%s PURGWS %08X %d' % (x, at, 1 + draws.below(20)))
        else:
            page = draws.below(4096) if draws.below(4) == 0 else draws.below(1200)
            lines.append(request(draws, x, 512 * page + 4 * draws.below(128)))
    return text(lines + ['END'])


def study_round():
    """A process refers to 4,096 pages, 100,000 times."""
    draws = Draws(7)
    lines = head(64, 16384) + ['PROCESS A 20 24 30 2', 'MAPZERO A 00000000 4096 UW', 'BODY']
    for n in range(100000):
        page = n % 1025 if draws.below(8) else draws.below(4096)
        lines.append('A R4 %08X' % (512 * page + 4 * draws.below(128)))
    return text(lines + ['END'])


def nothing():
    return b''


LARGE = [
    ('all-frames', ['serial'], lambda: all_frames(40000, 2000)),
    ('all-frames-briefly', ['serial'], lambda: all_frames(6000, 600)),
    ('all-frames-briefly-log', ['check'], 'all-frames-briefly'),
    ('all-section-pages', ['serial'], all_section_pages),
    ('all-section-pages-log', ['check'], 'all-section-pages'),
    ('whole-page-file', ['serial'], whole_page_file),
    ('many-requests', ['serial'], lambda: body(30000, 199999)),
    ('many-requests-log', ['check'], 'many-requests'),
    ('most-lines', ['serial'], lambda: body(1000, 200000)),
    ('most-entries', ['serial'], most_entries),
    ('a-line-too-many', ['serial'], lambda: body(99000, 200001)),
    ('a-request-too-many', ['serial'], lambda: body(100001, 150000)),
    ('million-requests', ['serial'], lambda: long_body(1000000)),
    ('failing-blocks', ['serial'], failing_blocks),
    ('failing-blocks-log', ['check'], 'failing-blocks'),
    ('single-mappings', ['serial'], single_mappings),
    ('single-mappings-log', ['check'], 'single-mappings'),
    ('all-slots', ['serial'], all_slots),
    ('all-slots-log', ['check'], 'all-slots'),
    ('all-frames-of-version-two', ['serial'], all_frames_of_version_two),
    ('study-round', ['study', '--process', 'A', '--frames', '1024'], study_round),
    ('study-frames', ['study', '--process', 'C', '--frames', '1000'], lambda: all_frames(40000, 2000)),
    ('make-most', ['make', '--seed', '1', '--procs', '16', '--refs', '100000'], nothing),
    ('make-greatest-seed', ['make', '--seed', '4294967295', '--procs', '9', '--refs', '60000'], nothing),
]


def inputs(output_of):
    """Name, words and input of each case. `output_of` gives the output of a case that came before."""
    makers = {name: maker for name, _words, maker in LARGE}
    for name, words, maker in LARGE:
        if isinstance(maker, str):
            yield name, words, makers[maker]() + b'LOG\n' + output_of(maker)
        else:
            yield name, words, maker()
