"""The sheets that calls are measured on."""
import collections
import random

WORDS = ('Approaches to Kiel Bight Lotse Fehmarn Sund Schlei Harbour North West Inner Outer Anchorage Channel Light Buoy '
         'Reef Entrance Plan Roads Haven Bank Ferry Berth of and Great Little').split()
REMARKS = ['', '', 'see note', 'new edition', 'cancelled', 'soundings in metres', 'restricted area']


def index_row(rng, number, sep):
    """A row of a chart index, of some 80 bytes."""
    name = ' '.join(rng.choices(WORDS, k=rng.randint(3, 5)))
    scale = f'1:{rng.choice([5, 12, 25, 50, 100, 250])}000'
    place = f'{rng.randint(0, 89)}-{rng.randint(0, 59):02}N {rng.randint(0, 179)}-{rng.randint(0, 59):02}E'
    date = f'{rng.randint(1990, 2024)}-{rng.randint(1, 12):02}-{rng.randint(1, 28):02}'
    return sep.join([str(number), name, scale, place, rng.choice(['BSH', 'UKHO', 'NGA', '']), date, rng.choice(REMARKS)]) + '\n'


def index(size, sep):
    """A chart index of so many bytes; the same at each run."""
    rng = random.Random(1)
    rows, made = [], 0
    while made < size:
        rows.append(index_row(rng, len(rows) + 1, sep))
        made += len(rows[-1])
    return ''.join(rows)[:size]


def repeated(unit):
    """By a length, the text that repeats the unit."""
    return lambda n: (unit * (n // len(unit) + 1))[:n]


# Needles for a text of a's, by a length: each makes a plain search go far at each offset, from one end or the other.
NEEDLES = {
    'aa..ab': lambda k: 'a' * (k - 1) + 'b',
    'baa..a': lambda k: 'b' + 'a' * (k - 1),
    'aa..baa..': lambda k: 'a' * (k // 2) + 'b' + 'a' * (k - k // 2 - 1),
    'aa..a': lambda k: 'a' * k,
}
SEARCHES = ['split {}', 'rsplit {}', 'find {}', 'rfind {}', 'count {}', 'replace {} ;']
OF_TEXTS = {
    ',,,,': (repeated(','), ['split ,', 'rsplit ,', 'count ,', 'replace , <|>', 'replace , ;', 'join , ;', 'script Kattegat']),
    '<|><|>': (repeated('<|>'), ['split <|>', 'rsplit <|>', 'count <|>', 'replace <|> ,']),
    'no separator': (repeated('z'), ['split ,', 'rsplit ,', 'split', 'rsplit', 'splitlines', 'find ~', 'rfind ~', 'count ,',
                                     'replace , ;', 'join , ;', 'script Kattegat']),
    'aaaa': (repeated('a'), ['split aa', 'rsplit aa', 'count aa', 'replace aa b']),
    'a a a ': (repeated('a '), ['split', 'rsplit']),
    'blanks': (repeated(' '), ['split', 'rsplit']),
    r'\n\n\n': (repeated('\n'), ['splitlines', 'script Kattegat']),
    r'\r\n\r\n': (repeated('\r\n'), ['splitlines']),
}


# what grows: the name of a text, and by a length the text and the row
Case = collections.namedtuple('Case', 'name text row')


def separator(row):
    """The separator of the index that a row is done on."""
    return '<|>' if row.split(' ')[1:2] == ['<|>'] else ','


def growing(rows):
    """The rows on an index, and then the hard cases."""
    for row in rows:
        yield Case('index', lambda n, sep=separator(row): index(n, sep), lambda n, row=row: row)
    for name, needle in NEEDLES.items():
        for row in SEARCHES:
            yield Case(f'{name} in aaaa', repeated('a'), lambda n, row=row, needle=needle: row.format(needle(n // 4)))
    for name, (text, rows_of_text) in OF_TEXTS.items():
        for row in rows_of_text:
            yield Case(name, text, lambda n, row=row: row)
