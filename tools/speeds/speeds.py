#!/usr/bin/env python3
"""Measures calls of the port beside the same calls of the Rust crate and of CPython, all in one run.

CRATE is the unpacked archive of rustpython-vm 0.4.0, whose byte methods tools/crate_answers/bodies.py takes out and builds.
Each call is done over a whole sheet for some turns, by one program after the other, round after round, so that what else the
machine does falls on all three. A table of the medians goes to the standard output, in millions of bytes of the sheet per
second, and a picture of it into a file. The three have to give the same numbers; where not, that is told, with status 1.
"""
import argparse
import os
import re
import statistics
import subprocess
import sys

import sheets
from cpython import ROWS
from picture import picture, shown
from programs import CPYTHON, NAMES, PROGRAM, ROOT, Job, built, differing, measure, short

PLACE = os.path.join(ROOT, 'target', 'speeds')
# as many bytes as a text may have, and as the longest sheet in use has
SIZES = [16 * 1024 * 1024, 212480]
# about as many bytes a program goes over for a call in a round
BYTES_A_ROUND = 40_000_000
GROWING = [16384, 2 * 16384, 4 * 16384]
GROWING_TURNS = 9


def turns_on(size):
    """An odd number of turns, so that one time is the median."""
    return BYTES_A_ROUND // size // 2 * 2 + 1


def stored(name, text):
    """A file with a sheet."""
    path = os.path.join(PLACE, 'sheets', name)
    os.makedirs(os.path.dirname(path), exist_ok=True)
    with open(path, 'w', newline='') as f:
        f.write(text)
    return path


def table(head, rows):
    """A markdown table with code on the left and numbers on the right."""
    lines = [head, ['---' if cell.startswith('`') else '---:' for cell in rows[0]], *rows]
    return '\n'.join('| ' + ' | '.join(cell.replace('|', r'\|') for cell in line) + ' |' for line in lines)


def found(pattern, text):
    """The first group of the pattern in the text."""
    match = re.search(pattern, text)
    return match.group(1) if match else 'unknown'


def conditions(rounds):
    """On what and with what was measured."""
    processor = found('Model name: *(.*)', subprocess.run(['lscpu'], capture_output=True, text=True).stdout)
    rustc = found('rustc ([^ ]*)', subprocess.run(['rustc', '--version'], capture_output=True, text=True).stdout)
    with open(os.path.join(PLACE, 'Cargo.lock')) as f:
        lock = f.read()
    bstr, memchr = (found(f'name = "{name}"\nversion = "(.*)"', lock) for name in ('bstr', 'memchr'))
    return (f'{processor}; rustc {rustc}, bstr {bstr}, memchr {memchr}; CPython {sys.version.split()[0]}; '
            f'medians of {rounds} rounds')


def speeds_of(of_job, size):
    """The median speed of each program, and the least and the greatest ratio of a round."""
    times = [[one.median for one in of_job[name]] for name in NAMES]
    ratios = [min(crate, cpython) / port for port, crate, cpython in zip(*times)]
    return [size * 1000 / statistics.median(of_one) for of_one in times], min(ratios), max(ratios)


def line_of(row, of_job, size):
    speeds, least, most = speeds_of(of_job, size)
    ratio = speeds[0] / max(speeds[1:])
    return [f'`{short(row)}`', *(f'{speed:,.0f}' for speed in speeds), shown(ratio), f'{shown(least)} to {shown(most)}']


def report_speeds(commands, rows, sizes, rounds, file):
    """Prints the tables and stores the picture; gives a line for each job with different numbers."""
    jobs = []
    for size in sizes:
        paths = {sep: stored(f'{name}-{size}', sheets.index(size, sep)) for sep, name in ((',', 'commas'), ('<|>', 'bars'))}
        jobs += [Job(row, paths[sheets.separator(row)], turns_on(size)) for row in rows]
    told = measure(commands, jobs, rounds)
    print(conditions(rounds))
    panels = []
    for i, size in enumerate(sizes):
        of_size = list(zip(rows, told[i * len(rows):]))
        print(f'\n{size:,} bytes, in MB/s:\n')
        print(table(['call', *NAMES, 'port to the better', 'in the rounds'], [line_of(row, of_job, size) for row, of_job in of_size]))
        panels.append((f'{size:,} bytes', [(short(row), *speeds_of(of_job, size)[0]) for row, of_job in of_size]))
    with open(file, 'w') as f:
        f.write(picture('Speed of the port, as a multiple of the better of the Rust crate and CPython', panels))
    return list(differing(jobs, told))


def growth_of(least):
    """The factors from each time to the next; in bold where both are far above those of the text."""
    factors = [least[1] / least[0], least[2] / least[1]]
    shown = ' '.join(f'{factor:.1f}' for factor in factors)
    return f'**{shown}**' if min(factors) > 3 else shown


def growing_line(case, told):
    least = {name: [min(one.least for one in of_job[name]) for of_job in told] for name in NAMES}
    return [f'`{short(case.row(GROWING[0]))}`', f'`{case.name}`', *(f'{time / 1000:,.1f}' for time in least['port']),
            *(growth_of(least[name]) for name in NAMES)]


def report_growth(commands, cases, rounds):
    """Prints a table; gives a line for each job with different numbers."""
    jobs = [Job(case.row(n), stored(f'growing-{i}-{n}', case.text(n)), GROWING_TURNS) for i, case in enumerate(cases) for n in GROWING]
    told = measure(commands, jobs, rounds)
    print(f'Times of the port in µs on {", ".join(f"{n:,}" for n in GROWING)} bytes, the least of {rounds * GROWING_TURNS} turns; '
          'then for each program the factor of its time at each doubling (a long needle is doubled too)\n')
    steps = len(GROWING)
    print(table(['call', 'text', 'n', '2n', '4n', *NAMES],
                [growing_line(case, told[i * steps:(i + 1) * steps]) for i, case in enumerate(cases)]))
    return list(differing(jobs, told))


def store():
    """Writes the program's stored answers, which are CPython's."""
    with open(os.path.join(PROGRAM, 'stdin')) as sheet, open(os.path.join(PROGRAM, 'stdout'), 'w') as answers:
        subprocess.run(CPYTHON, stdin=sheet, stdout=answers, check=True)


def main():
    args = argparse.ArgumentParser(description=__doc__, formatter_class=argparse.RawDescriptionHelpFormatter)
    args.add_argument('crate', metavar='CRATE', nargs='?')
    args.add_argument('--growth', action='store_true', help='tell how times grow as sheets are doubled, hard ones among them')
    args.add_argument('--rounds', type=int, default=5, help='5 unless told')
    args.add_argument('--bytes', type=int, nargs='+', default=SIZES, help='the lengths of the sheets')
    args.add_argument('--only', default='', help='only the calls that begin so')
    args.add_argument('--picture', default=os.path.join(PLACE, 'speeds.svg'), help='target/speeds/speeds.svg unless told')
    args.add_argument('--store', action='store_true', help="only write crates/speeds/stdout, with CPython's answers")
    asked = args.parse_args()
    if asked.store:
        return store()
    if asked.crate is None:
        args.error('CRATE is missing')
    rows = [row for row in ROWS if row.startswith(asked.only)]
    cases = [case for case in sheets.growing(ROWS) if case.row(0).startswith(asked.only)]
    if not (cases if asked.growth else rows):
        args.error(f'no call begins with {asked.only}')
    commands = built(asked.crate)
    if asked.growth:
        wrong = report_growth(commands, cases, asked.rounds)
    else:
        wrong = report_speeds(commands, rows, asked.bytes, asked.rounds, asked.picture)
    for line in wrong:
        print(f'\ndifferent numbers: {line}')
    sys.exit(len(wrong) > 0)


if __name__ == '__main__':
    main()
