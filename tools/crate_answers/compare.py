#!/usr/bin/env python3
"""Sets the Rust crate's answers beside those of replay and of CPython.

CRATE is the unpacked archive of rustpython-vm 0.4.0, whose byte methods bodies.py takes out and builds: over the crate bstr,
whose searches they call, or with --marks over searches that are written by the meaning of marks and cuts (marks.rs).

The cases are the stored ones of replay, random short and middle ones, and long ones: texts with the most bytes that there can
be. Their answers are CPython's. The program replay has to be built (rt run in crates/replay).
"""
import argparse
import collections
import math
import os
import random
import subprocess
import sys

HERE = os.path.dirname(os.path.abspath(__file__))
ROOT = os.path.dirname(os.path.dirname(HERE))
sys.path.insert(0, os.path.dirname(HERE))
import bodies
import replay_cases as cases

ALPHABETS = [b'ab', b'a,', b'ab,;', b' \t\n\r\x0b\x0cab', b'\r\na', cases.ALL]
BOUNDS = [-1, 0, 1, 2, 3, 7, 100, cases.MOST, cases.LEAST]
LONG = 16_777_216
MOST_ROOM = LONG + 1


def drawn(rng, alphabet, size):
    """So many bytes of an alphabet."""
    return rng.randbytes(size).translate(bytes(alphabet[i % len(alphabet)] for i in range(256)))


def some(rng, alphabet, most):
    return drawn(rng, alphabet, rng.randint(0, most))


def sized(rng, least, most):
    """A number between two, as often near the least as near the most."""
    return round(math.exp(rng.uniform(math.log(least), math.log(most))))


def repeating(rng, alphabet, size):
    """A needle of so many bytes, which may overlap itself."""
    unit = drawn(rng, alphabet, min(size, rng.choice([1, 2, 7, size])))
    return (unit * (size // len(unit) + 1))[:size]


def planted(rng, alphabet, size, needle, gap):
    """A text of so many bytes in which a needle stands again and again, its beginnings too, with gaps of up to so many bytes."""
    text = bytearray()
    while len(text) < size:
        text += rng.choice([needle, needle[:rng.randrange(len(needle))], b'']) + some(rng, alphabet, gap)
    return bytes(text[:size])


def any_number(rng, most):
    return rng.choice([None, 0, 1, -1, cases.MOST, cases.LEAST, rng.randint(-most, most)])


def add(rng, t, a, b, lists, most_places, rooms):
    """A case of one of the methods on a text, with a needle, what replaces it, and lists for maketrans."""
    which, room = rng.randrange(8), rng.choice(rooms)
    if which == 0:
        cases.split('bytes', t, rng.choice([a, None]), rng.choice(BOUNDS), room)
    elif which == 1:
        cases.rsplit('bytes', t, rng.choice([a, None]), rng.choice(BOUNDS), room)
    elif which == 2:
        cases.splitlines('bytes', t, rng.random() < 0.5, room)
    elif which == 3:
        most = len(t) + 3
        cases.sought(t, rng.choice([a, a, rng.randint(-3, 258)]), any_number(rng, most), any_number(rng, most))
    elif which == 4:
        ends = [sorted(rng.choices(range(len(t) + 1), k=2)) for _ in range(rng.randint(0, most_places))]
        cases.join('bytes', a, t, ends, room)
    elif which == 5:
        table = rng.choice([None, drawn(rng, cases.ALL, rng.choice([256, 256, 255, 257]))])
        cases.translate(t, table, rng.choice([None, a]), room)
    elif which == 6:
        cases.maketrans(*lists, room)
    else:
        cases.replace('bytes', t, a, b, rng.choice([None, *BOUNDS]), room)


def add_short(rng):
    alphabet = rng.choice(ALPHABETS)
    t, a, b = some(rng, alphabet, 12), some(rng, alphabet, 3), some(rng, alphabet, 3)
    lists = some(rng, alphabet, 5), some(rng, alphabet, 5)
    add(rng, t, a, b, lists, 4, [0, 1, 3, 10, 255, 256, 300])


def add_middle(rng):
    alphabet, size = rng.choice(ALPHABETS), sized(rng, 100, 100_000)
    needle = repeating(rng, alphabet, min(size, sized(rng, 1, 5000)))
    t = planted(rng, alphabet, size, needle, sized(rng, 1, size))
    b = rng.choice([b'', drawn(rng, alphabet, len(needle)), some(rng, alphabet, 100)])
    lists = [drawn(rng, cases.ALL, n) for n in (size, rng.choice([size, size, size - 1]))]
    add(rng, t, rng.choice([needle] * 9 + [b'']), b, lists, 50, [size // 50, size, MOST_ROOM, MOST_ROOM])


def add_long(rng):
    """Every method on texts of the most bytes that there can be, case after case."""
    sheet = drawn(rng, b'abcdefgh,;.: \t\r\n', LONG)
    lines = drawn(rng, b'\r\n\x0b\x0c\x1c\x85ab', LONG)
    waves = b'ab' * (LONG // 2)
    # of one letter and many
    for back in (False, True):
        for sep, maxsplit in ((b',', -1), (b',', 1000), (b'a,', -1), (None, -1), (None, 1000), (sheet, -1)):
            yield cases.split('bytes', sheet, sep, maxsplit, MOST_ROOM, back)
        for t, sep in ((b',' * LONG, b','), (b'a ' * (LONG // 2), None), (waves, b'ab' * 2000), (waves, b'ab' * 2000 + b'a')):
            yield cases.split('bytes', t, sep, -1, MOST_ROOM, back)
        for t in (sheet, lines):
            yield cases.splitlines('bytes', t, back, MOST_ROOM)
    for sub in (b';', 59, b'', sheet, sheet[1:], sheet[:-1]):
        yield cases.sought(sheet, sub)
    yield cases.sought(waves, b'ab' * 2000 + b'a')
    for a, b, maxcount in ((b'', b'-', 1), (b'', b'-', None), (sheet, b'-', None), (b',', b'', 1000), (b',', b'', None), (b',', sheet, 1)):
        yield cases.replace('bytes', sheet, a, b, maxcount, MOST_ROOM)
    # needles
    for size in (2, 100, 5000, 1_000_000):
        needle = drawn(rng, cases.ALL, size)
        t = planted(rng, cases.ALL, LONG, needle, max(200, size))
        for back in (False, True):
            for maxsplit in (-1, 5):
                yield cases.split('bytes', t, needle, maxsplit, MOST_ROOM, back)
        yield cases.sought(t, needle)
        yield cases.sought(t, needle, size // 2, -LONG // 3)
        yield cases.sought(t, needle[:-1] + bytes([needle[-1] ^ 1]))
        for b, maxcount in ((b'', None), (needle[::-1], None), (b'-', None), (needle + b'-', None), (b'-', 3)):
            yield cases.replace('bytes', t, needle, b, maxcount, MOST_ROOM)
        places = [sorted(rng.choices(range(LONG - size, LONG + 1), k=2)) for _ in range(10)]
        yield cases.join('bytes', needle, t, places, MOST_ROOM)
    # parts and tables
    yield cases.join('bytes', sheet, b'', [(0, 0), (0, 0)], MOST_ROOM)
    yield cases.join('bytes', b'', sheet, [(LONG // 2, LONG), (0, LONG // 2)], MOST_ROOM)
    turned = cases.ALL[::-1]
    for table, delete in ((turned, None), (turned, b',;'), (None, sheet), (turned, cases.ALL)):
        yield cases.translate(sheet, table, delete, MOST_ROOM)
    for a in (sheet, drawn(rng, cases.ALL, LONG)):
        yield cases.maketrans(a, lines, MOST_ROOM)


def batches(options):
    """Adds one batch of cases after another, and says how long they are."""
    rng = random.Random(options.seed)
    cases.write()
    yield 'stored'
    for _ in range(options.short):
        add_short(rng)
    yield 'short'
    for _ in range(options.middle):
        add_middle(rng)
    yield 'middle'
    for _ in add_long(rng):
        yield 'long'


def answers(program, lines):
    done = subprocess.run([program], input='\n'.join(lines) + '\n', capture_output=True, text=True, check=True)
    return done.stdout.splitlines()


def compared(crate, replay):
    """Each case that was added, with its answers by the port, the crate and CPython; the cases are then gone."""
    some = [case for case in cases.CASES if case[1] != 'unreadable']
    cases.CASES.clear()
    lines = [line for line, _ in some]
    for (line, cpython), port, of_crate in zip(some, answers(replay, lines), answers(crate, lines), strict=True):
        yield line, port, of_crate, cpython


def clipped(words):
    return words if len(words) <= 1000 else f'{words[:500]} ... {words[-500:]}'


def main():
    options = argparse.ArgumentParser(description=__doc__, formatter_class=argparse.RawDescriptionHelpFormatter)
    options.add_argument('crate', metavar='CRATE')
    options.add_argument('--marks', action='store_true', help='put searches by the meaning of marks and cuts in place of bstr')
    options.add_argument('--short', type=int, default=150_000, help='how many random short cases (%(default)s)')
    options.add_argument('--middle', type=int, default=4000, help='how many middle ones (%(default)s)')
    options.add_argument('--seed', type=int, default=1)
    options = options.parse_args()
    crate = bodies.build(options.crate, os.path.join(HERE, 'driver.rs'), options.marks)
    replay = os.path.join(ROOT, 'crates', 'replay', 'out', 'replay')
    count = collections.defaultdict(collections.Counter)
    for length in batches(options):
        for line, port, of_crate, cpython in compared(crate, replay):
            differs = port != cpython or of_crate not in ('-', port)
            count[length].update(cases=1, asked=of_crate != '-', differ=differs)
            if differs:
                print('\n'.join(map(clipped, (line, f'  port    {port}', f'  crate   {of_crate}', f'  CPython {cpython}'))))
    for length, n in count.items():
        print(f'{length}: {n["cases"]} cases, {n["asked"]} of them asked of the crate, {n["differ"]} with different answers')
    sys.exit(any(n['differ'] for n in count.values()))


if __name__ == '__main__':
    main()
