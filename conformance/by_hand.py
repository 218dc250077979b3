"""Cases of the corpus that were written by hand: a name, the program's words and the input."""


def trace(*lines):
    return ('\n'.join(('VMTRACE 1',) + lines) + '\nEND\n').encode()


ONE = trace('FRAMES 8', 'PAGEFILE 4', 'PROCESS A 4 4 4 0', 'MAPZERO A 00000000 4 UW', 'BODY', 'A W1 00000000 07', 'A R1 00000000')

# shared pages whose writes all fail stay dirty: one, and three
DIRTY_ONE = trace('FRAMES 16', 'PAGEFILE 4', 'SECTION COM SHARED 4', 'PROCESS A 4 4 8 0', 'MAPSEC A 00000000 4 COM 0 UW',
                  'FAIL S:COM/0 2 3 4 5', 'BODY', 'A W1 00000000 07')
DIRTY_THREE = trace('FRAMES 16', 'PAGEFILE 4', 'SECTION COM SHARED 4', 'PROCESS A 4 4 8 0', 'MAPSEC A 00000000 4 COM 0 UW',
                    'FAIL S:COM/0 2 3 4 5', 'FAIL S:COM/1 2 3 4 5', 'FAIL S:COM/3 2 3 4 5', 'BODY', 'A W1 00000000 07',
                    'A W1 00000200 08', 'A W1 00000400 09', 'A W1 00000600 0A')

# a page comes back from the page file, and its read fails: the reference is refused, with no section in the trace
REFUSED = trace('FRAMES 8', 'PAGEFILE 16', 'PARAM PFC 1', 'PARAM HILIMIT 0', 'PARAM LOLIMIT 0', 'PROCESS A 2 2 2 0',
                'MAPZERO A 00000000 16 UW', 'FAIL P:0 2 3', 'BODY', *('A W1 %08X %02X' % (512 * v, v) for v in range(12)),
                'A R1 00000000', 'A R1 00000000', 'A R1 00000000')

WORDS = [
    [], ['serial', 'x'], ['Serial'], ['seriel'], ['--help'], ['-h'], ['help'], ['--version'], ['--'], [''],
    ['serial', ''], ['check', '--'], ['x' * 300], ['serial', 'y' * 300], ['study', '--process', 'A', '--frames', '0' * 300],
    ['serial'] + ['x'] * 8, ['make'] + ['--seed=7'] * 8, ['study'] + ['A'] * 20,
    ['study', '--process', 'A'], ['study', '--frames', '4'], ['study', '--process', 'a', '--frames', '4'],
    ['study', '--process', 'A', '--frames', '0'], ['study', '--process', 'A', '--frames', '1025'],
    ['study', '--process', 'A', '--frames', '4', '--'], ['study', '--', '--process', 'A', '--frames', '4'],
    ['study', '--process=A', '--frames=4'], ['study', '--frames', '4', '--process', 'A'], ['study', '--proc', 'A', '--frames', '4'],
    ['study', '--process', '--frames', '4'], ['study', '--process=', '--frames=4'], ['study', '--process=A', '--process=A', '--frames=4'],
    ['make', '--seed', '7', '--procs', '3'], ['make', '--seed', '7', '--procs', '17', '--refs', '10'],
    ['make', '--seed', '4294967296', '--procs', '1', '--refs', '10'], ['make', '--seed', '-1', '--procs', '1', '--refs', '10'],
    ['make', '--refs=10', '--seed=7', '--procs=2'], ['make', '--seed', '7', '--procs', '2', '--refs', '100001'],
    ['make', '--seed', '+7', '--procs', '2', '--refs', '10'], ['make', '--seed', '0000000007', '--procs', '02', '--refs', '10'],
    ['make', '--seed', '00000000007', '--procs', '2', '--refs', '10'],
]

CASES = [
    ('one-page', ['serial'], ONE),
    ('no-input', ['serial'], b''),
    ('no-input-to-check', ['check'], b''),
    ('no-log', ['check'], ONE),
    ('a-dirty-page', ['serial'], DIRTY_ONE),
    ('three-dirty-pages', ['serial'], DIRTY_THREE),
    ('a-refused-reference', ['serial'], REFUSED),
] + [('words-%d' % n, words, ONE) for n, words in enumerate(WORDS)]
