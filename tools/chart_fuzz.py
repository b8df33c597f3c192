#!/usr/bin/env python3
"""Calls the built chart on damaged sheets with damaged words, for so many seconds: chart_fuzz.py [SECONDS [SEED]].

Each call has to end with status 0 or 1, and with a message where it shows nothing; what a call with good words shows has to be what
chart_cases.py says of it, with CPython's answers. Prints the first calls that differ, and how many there were.
"""
import os
import random
import subprocess
import sys
import time

import chart_cases

CHART = os.path.join(chart_cases.ROOT, 'crates', 'chart', 'out', 'chart')
PIECES = [b',', b';', b'-', b'--', b'-9999', b'\n', b'\r', b'\r\n', b'\t', b'\\', b'"', b' ', b'a', b'Quay', b'101', b'WGS 84', 'ü'.encode(), '€'.encode(), b'\xff', b'\xc3', b'\x00']
WORDS = [',', ';', 'a', 'Quay', '\\t', '\\n', '\\r\\n', '\\\\', '\\x2c', '\\xc3', '\\xff', 'ü', '1', '0', '-1', '99999999999999999999', 'keep', '', '\\q', '\\', '-x', '--',
         '--rows', '--bytes', '--format', 'tsv', '--sep', '--fields', '--bound', '--file', '2', 'next', 'skip:1', 'skip:x', 'rest', 'pour:; ', 'pour:\\t', '--help', 'spilt',
         'nothing here', *chart_cases.METHODS, 'check', 'cut', 'help']
CALLS = ['next', 'skip:0', 'skip:1', 'skip:2', 'rest', 'pour:; ', 'pour:']


def sheet_of(dice):
    return b''.join(dice.choice(PIECES) for _ in range(dice.randrange(40)))


def sep_of(dice, sheet):
    """A separator that the sheet's kind can have."""
    return dice.choice([',', ';', 'a', '\\n', '\\t', 'ü', 'Quay', '\\\\'] + (['\\xff', '\\xc3'] if chart_cases.text_of(sheet) is None else []))


def text_of(dice, sheet):
    """A text for a method: it may begin with a hyphen."""
    return dice.choice([sep_of(dice, sheet)] * 3 + ['-', '--', '---', '-x', '-1', '-9999', '--x', '-,', '-\\n', '\\x2d-rows'])


def good_words(dice, sheet):
    """Words that chart_cases.py can answer."""
    sep = sep_of(dice, sheet)
    text = text_of(dice, sheet)
    tsv = dice.choice([[], [], ['--format', 'tsv']])
    rows = dice.choice([[], ['--rows']])
    name = dice.choice(['view', 'check', 'split', 'words', 'rsplit', 'lines', 'find', 'rfind', 'count', 'replace', 'join', 'cut'])
    if name == 'view':
        return ['--sep', sep] + tsv
    if name == 'check':
        return ['check', '--sep', sep] + dice.choice([[], ['--fields', '2']]) + tsv
    if name in ('split', 'rsplit'):
        return [name, text] + dice.choice([[], [str(dice.randrange(-1, 4))]]) + rows + tsv
    if name == 'words':
        return [dice.choice(['split', 'rsplit'])] + rows + tsv
    if name == 'lines':
        return ['lines'] + dice.choice([[], ['keep']]) + tsv
    if name == 'replace':
        return ['replace', text, text_of(dice, sheet)] + dice.choice([[], ['2'], ['-1']])
    if name == 'cut':
        return ['cut', sep if text == '--' else text, '--bound', str(dice.randrange(-1, 4))] + [dice.choice(CALLS) for _ in range(dice.randrange(1, 6))]
    return [name, text]


def run(words, sheet):
    return subprocess.run([CHART, *words], input=sheet, capture_output=True, timeout=20)


def amiss(dice):
    """What is wrong with one call, if anything is."""
    sheet = sheet_of(dice)
    if dice.random() < 0.5:
        words = [dice.choice(WORDS) for _ in range(dice.randrange(6))]
        ended = run(words, sheet)
        if ended.returncode not in (0, 1):
            return words, sheet, f'status {ended.returncode}'
        if not ended.stdout and (not ended.stderr.strip()) and (sheet or words) and 'tsv' not in words:
            return words, sheet, 'nothing shown and nothing said'
        if ended.returncode == 1 and not ended.stderr.strip() and 'check' not in words:
            return words, sheet, 'status 1 without a message'
        return None
    words = good_words(dice, sheet)
    wanted, status = chart_cases.answer(sheet, words)
    ended = run(words, sheet)
    if (ended.returncode, ended.stdout, ended.stderr) != (status, chart_cases.lines(wanted), b''):
        return words, sheet, f'status {ended.returncode} {ended.stdout!r} {ended.stderr!r}, where {status} {chart_cases.lines(wanted)!r} was wanted'
    return None


def main():
    seconds = float(sys.argv[1]) if len(sys.argv) > 1 else 60
    seed = int(sys.argv[2]) if len(sys.argv) > 2 else random.randrange(1 << 32)
    dice = random.Random(seed)
    end = time.monotonic() + seconds
    calls = bad = 0
    while time.monotonic() < end and bad < 5:
        wrong = amiss(dice)
        calls += 1
        if wrong:
            bad += 1
            print(*map(repr, wrong[:2]), wrong[2])
    print(f'{calls} calls with seed {seed}, {bad} amiss')
    return 1 if bad else 0


if __name__ == '__main__':
    sys.exit(main())
