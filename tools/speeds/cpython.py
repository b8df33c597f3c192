#!/usr/bin/env python3
"""Does calls over the sheet at the standard input by CPython's methods, with the words and lines of the program speeds.

usage: cpython.py [TURNS [ROW..]]
"""
import statistics
import sys
import time

PUNCTUATION = '!"#$%&\'()*+-./:=>?@[\\]^_`{}~'
ALL_BUT_SMALL = 'ABCDEFGHIJKLMNOPQRSTUVWXYZ0123456789' + PUNCTUATION
ROWS = ['split ,', 'split <|>', 'split', 'rsplit ,', 'rsplit <|>', 'splitlines',
        'find Kattegat', 'find ~', 'rfind Kattegat', 'rfind ~', 'count ,', 'count <|>',
        'replace , <|>', 'replace <|> ,', 'replace , ;',
        'translate', 'translate aei', f'translate {ALL_BUT_SMALL}', 'join , ;', 'script Kattegat']
OPPOSITES = bytes(range(255, -1, -1))


def or_length(offset, text):
    return len(text) if offset < 0 else offset


def script(sheet, word):
    """The sum of what the script's steps give on each line: fields, the word's offset, the length with other separators."""
    total = 0
    for line in sheet.splitlines():
        fields = line.split(b',')
        offset = line.find(word)
        made = line.replace(b',', b';')
        total += len(fields) + or_length(offset, line) + len(made)
    return total


def ready(row, sheet):
    """A row's call, with what it is given made before, and how its number is read from what it gives."""
    name, *words = row.split(' ')
    words = [word.encode() for word in words]
    if name == 'join':
        parts = sheet.split(words[0])
        return lambda: words[1].join(parts), len
    if name == 'script':
        return lambda: script(sheet, words[0]), int
    if name == 'translate':
        words.insert(0, OPPOSITES)
    method = getattr(sheet, name)
    if name == 'count':
        number = int
    elif name in ('find', 'rfind'):
        number = lambda offset: or_length(offset, sheet)
    else:
        number = len
    return lambda: method(*words), number


def take_turns(row, sheet, turns):
    """The row's number, and the nanoseconds of each turn; what a turn gives is dropped after its time is taken."""
    call, number = ready(row, sheet)
    times = []
    for _ in range(turns):
        start = time.perf_counter_ns()
        answer = call()
        times.append(time.perf_counter_ns() - start)
        last = number(answer)
        del answer
    return last, times


def main():
    turns = int(sys.argv[1]) if len(sys.argv) > 1 else None
    sheet = sys.stdin.buffer.read()
    sheet = b'x' + sheet[1:] if sheet else sheet
    for row in sys.argv[2:] or ROWS:
        number, times = take_turns(row, sheet, turns or 1)
        print(number, row)
        if turns is not None:
            print(min(times), int(statistics.median(times)), row, file=sys.stderr)


if __name__ == '__main__':
    main()
