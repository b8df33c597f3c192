#!/usr/bin/env python3
"""Writes the stored cases of the program replay: crates/replay/stdin and crates/replay/stdout.

Every answer is CPython's own (bytes.split, rsplit, splitlines, find, rfind, count, join, translate, maketrans, replace,
bytes.decode for well-formed UTF-8, re for sets and line ends). CPython gives pieces and no offsets, so offsets are found by
laying the pieces end to end. Where CPython raises an error, the refusal's number is told by which error it is. What CPython
has no word for (a list or a tray that is too small, a cutter's skip) is counted from CPython's own result. One answer is
not CPython's: of a byte that maketrans is given twice the first position counts.
"""
import os
import re
import sys

WHITE = b' \t\n\r\x0c\x0b'
LINE_END = rb'\r\n|\r|\n'


def x(b):
    return 'x' + b.hex()


def opt(v):
    return '-' if v is None else str(v)


def optx(v):
    return '-' if v is None else x(v)


def refused(number, value=0):
    return f'refused {number} {value}'


def formed(kind, *texts):
    """The refusal of the first text that cannot be of the kind, or none."""
    if kind == 'text':
        for t in texts:
            try:
                t.decode('utf-8')
            except UnicodeDecodeError as e:
                return refused(10, e.start)
    return None


def boundary(kind, t, p):
    if not 0 <= p <= len(t):
        return False
    if kind == 'bytes':
        return True
    try:
        t[:p].decode('utf-8')
        return True
    except UnicodeDecodeError:
        return False


def listed(places, room):
    if len(places) > room:
        return refused(7, len(places))
    return ' '.join([f'places {len(places)}'] + [f'{a}-{e}' for a, e in places])


def held(result, room):
    return refused(7, len(result)) if len(result) > room else f'bytes {x(result)}'


def laid(pieces, gap):
    """Offsets of pieces that lie end to end with a gap of so many bytes between them."""
    places, at = [], 0
    for p in pieces:
        places.append((at, at + len(p)))
        at += len(p) + gap
    return places


def words_laid(t, pieces):
    places, at = [], 0
    for p in pieces:
        while at < len(t) and t[at] in WHITE:
            at += 1
        places.append((at, at + len(p)))
        at += len(p)
    return places


def rwords_laid(t, pieces):
    places, at = [], len(t)
    for p in reversed(pieces):
        while at and t[at - 1] in WHITE:
            at -= 1
        places.append((at - len(p), at))
        at -= len(p)
    return places[::-1]


CASES = []


def case(line, answer):
    CASES.append((line, answer))


def split(kind, t, sep, maxsplit, room, back=False):
    name = 'rsplit' if back else 'split'
    line = f'{name} {kind} {x(t)} {optx(sep)} {maxsplit} {room}'
    bad = formed(kind, t, *([] if sep is None else [sep]))
    if bad:
        return case(line, bad)
    try:
        pieces = getattr(t, name)(sep, maxsplit)
    except ValueError:
        return case(line, refused(1))
    if sep is None:
        places = rwords_laid(t, pieces) if back else words_laid(t, pieces)
    else:
        places = laid(pieces, len(sep))
    assert [t[a:e] for a, e in places] == pieces
    case(line, listed(places, room))


def rsplit(*args):
    split(*args, back=True)


def splitlines(kind, t, keep, room):
    line = f'splitlines {kind} {x(t)} {int(keep)} {room}'
    bad = formed(kind, t)
    if bad:
        return case(line, bad)
    kept = laid(t.splitlines(True), 0)
    bare = t.splitlines()
    places = kept if keep else [(a, a + len(p)) for (a, _), p in zip(kept, bare)]
    assert [t[a:e] for a, e in places] == t.splitlines(keep)
    case(line, listed(places, room))


def find(t, sub, start=None, end=None, name='find'):
    shown = x(sub) if isinstance(sub, bytes) else str(sub)
    line = f'{name} {x(t)} {shown} {opt(start)} {opt(end)}'
    try:
        r = getattr(t, name)(sub, start, end)
    except ValueError:
        return case(line, refused(2))
    if name == 'count':
        return case(line, f'count {r}')
    case(line, 'none' if r < 0 else f'found {r}')


def sought(t, sub, start=None, end=None):
    for name in ('find', 'rfind', 'count'):
        find(t, sub, start, end, name)


def join(kind, sep, t, places, room):
    shown = ','.join(f'{a}-{e}' for a, e in places) or '.'
    line = f'join {kind} {x(sep)} {x(t)} {shown} {room}'
    bad = formed(kind, sep, t)
    if bad:
        return case(line, bad)
    for i, (a, e) in enumerate(places):
        if a > e or not boundary(kind, t, a) or not boundary(kind, t, e):
            return case(line, refused(12, i))
    case(line, held(sep.join([t[a:e] for a, e in places]), room))


def translate(t, table, delete, room):
    line = f'translate {x(t)} {optx(table)} {optx(delete)} {room}'
    try:
        result = t.translate(table) if delete is None else t.translate(table, delete)
    except ValueError:
        return case(line, refused(4))
    case(line, held(result, room))


def maketrans(a, b, room):
    line = f'maketrans {x(a)} {x(b)} {room}'
    if len(a) == len(b):
        # the first position of a repeated byte counts here; CPython lets the last one win
        firsts = [i for i in range(len(a)) if a.index(a[i]) == i]
        result = bytes.maketrans(bytes(a[i] for i in firsts), bytes(b[i] for i in firsts))
        return case(line, held(result, room))
    try:
        bytes.maketrans(a, b)
    except ValueError:
        case(line, refused(3))


def replace(kind, t, a, b, count, room):
    line = f'replace {kind} {x(t)} {x(a)} {x(b)} {opt(count)} {room}'
    bad = formed(kind, t, a, b)
    if bad:
        return case(line, bad)
    n = -1 if count is None else count
    if kind == 'text':
        result = t.decode().replace(a.decode(), b.decode(), n).encode()
    else:
        result = t.replace(a, b, n)
    case(line, held(result, room))


def element(kind, t, p):
    line = f'element {kind} {x(t)} {p}'
    bad = formed(kind, t)
    if bad:
        return case(line, bad)
    if p >= len(t) or not boundary(kind, t, p):
        return case(line, 'none')
    one = t[p:p + 1] if kind == 'bytes' else t[p:].decode()[0].encode()
    case(line, f'element {x(one)}')


def getbytes(kind, t, a, b):
    line = f'getbytes {kind} {x(t)} {a} {b}'
    bad = formed(kind, t)
    if bad:
        return case(line, bad)
    if a > b or not boundary(kind, t, a) or not boundary(kind, t, b):
        return case(line, refused(12))
    case(line, f'bytes {x(t[a:b])}')


def marks(t, searcher):
    """Every mark of a searcher, overlapping ones too."""
    if searcher == 'lines':
        return [m.span() for m in re.finditer(LINE_END, t)]
    what, _, hexed = searcher.partition(':x')
    arg = bytes.fromhex(hexed)
    if what == 'set':
        return [(i, i + 1) for i in range(len(t)) if t[i] in arg]
    return [(m.start(), m.start() + len(arg)) for m in re.finditer(b'(?=' + re.escape(arg) + b')', t)] if arg else []


def unmade(kind, t, searcher):
    """The refusal of the text or the searcher, or none."""
    bad = formed(kind, t)
    what, _, hexed = searcher.partition(':x')
    arg = bytes.fromhex(hexed)
    if bad is None and what == 'sub':
        bad = formed(kind, arg) or (refused(1) if not arg else None)
    if bad is None and what == 'set' and kind == 'text' and any(b >= 128 for b in arg):
        bad = refused(11, min(b for b in arg if b >= 128))
    return bad


def mark(kind, t, searcher, p, back=False):
    line = f'{"rmark" if back else "mark"} {kind} {x(t)} {searcher} {p}'
    bad = unmade(kind, t, searcher)
    if bad:
        return case(line, bad)
    if back:
        some = [m for m in marks(t, searcher) if m[1] <= p]
        r = max(some, key=lambda m: m[1]) if some else None
    else:
        some = [m for m in marks(t, searcher) if m[0] >= p]
        r = some[0] if some else None
    case(line, 'none' if r is None else f'mark {r[0]}-{r[1]}')


def rmark(*args):
    mark(*args, back=True)


def everywhere(kind, t, searcher):
    """The marks from and before every offset, and some past the end."""
    for p in (*range(len(t) + 4), TOP):
        mark(kind, t, searcher, p)
        rmark(kind, t, searcher, p)


def pieces_of(t, searcher, bound):
    """Pieces with the ends of their marks, by CPython's split or re.split."""
    if searcher.startswith('sub:'):
        sep = bytes.fromhex(searcher[5:])
        pieces = t.split(sep, bound)
        return [(a, e) for a, e in laid(pieces, len(sep))]
    pattern = LINE_END if searcher == 'lines' else b'[' + re.escape(bytes.fromhex(searcher[5:])) + b']'
    if bound == 0 or pattern == b'[]':
        return [(0, len(t))]
    parts = re.split(b'(' + pattern + b')', t, maxsplit=max(bound, 0))
    flat = laid(parts, 0)
    return flat[0::2]


def cutter(kind, t, searcher, bound, *calls):
    line = ' '.join([f'cutter {kind} {x(t)} {searcher} {bound}'] + list(calls))
    bad = unmade(kind, t, searcher)
    if bad:
        return case(line, bad)
    pieces, at, answers = pieces_of(t, searcher, bound), 0, []
    place = lambda k: pieces[k][0] if k < len(pieces) else len(t)
    for call in calls:
        word, _, arg = call.partition(':')
        if word == 'next':
            answers.append(f'piece {pieces[at][0]}-{pieces[at][1]}' if at < len(pieces) else 'none')
            at = min(at + 1, len(pieces))
        elif word == 'skip':
            if int(arg) <= len(pieces) - at:
                at += int(arg)
                answers.append('ok')
            else:
                answers.append(refused(9, len(pieces) - at))
        elif word == 'rest':
            answers.append(f'rest {place(at)}-{len(t)}')
        else:
            to, _, room = arg.partition(':')
            to = bytes.fromhex(to[1:])
            bad = formed(kind, to)
            result = to.join([t[a:e] for a, e in pieces[at:]])
            if bad:
                answers.append(bad)
            elif at >= len(pieces):
                answers.append(refused(8))
            elif len(result) > int(room):
                answers.append(refused(7, len(result)))
            else:
                answers.append(f'poured {x(result)}')
                at = len(pieces)
    case(line, ' | '.join(answers))


MOST = 2 ** 63 - 1
LEAST = -2 ** 63
TOP = 2 ** 64 - 1
ALL = bytes(range(256))
EURO = '€'.encode()
MIXED = 'aé€𝄞'.encode()
EUROS = 'a€é€'.encode()

# the edges of the table of well-formed sequences, and sequences that are cut off
EDGES = [b'', b'\x7f', b'\x80', b'\xc1\xbf', b'\xc0\x80', b'\xc2\x7f', b'\xc2\x80', b'\xdf\xbf', b'\xe0\x9f\xbf', b'\xe0\xa0\x80', b'\xed\x9f\xbf',
         b'\xed\xa0\x80', b'\xee\x80\x80', b'\xef\xbf\xbf', b'\xf0\x8f\xbf\xbf', b'\xf0\x90\x80\x80', b'\xf4\x8f\xbf\xbf', b'\xf4\x90\x80\x80',
         b'\xf5\x80\x80\x80', b'\xff', b'a\x80', b'\xc3(', b'a\xc3(', b'\xe2\x82(', b'a\xf4\x90\x80\x80', b'\xc2', b'\xe0\xa0', b'\xf0', b'a\xe2\x82',
         b'a\xf0\x9f\x9a', b'\xe2\x82\xac\xc3', b'\xf0\x9d\x84\x9ea\xed', b'\xc3\xa9\xe2\x82\xac', b'ab\xe2\x82', b'a\xed\xa0\x80']

# a text and what is sought in it
NEEDLES = [(b'aaaa', b'aa'), (b'aa', b'aa'), (b'aa', b'aaa'), (b'', b'a'), (b'abab', b'ba'), (b'aab', b'ab'), (b'aab', b'aa'), (EUROS, EURO),
           (EUROS, 'é€'.encode()), (EUROS, 'è'.encode()), (EUROS, '𝄞'.encode()), (EURO, b'\x82'), (b'aaaa', b''), (b'', b'')]

# every pair of a return, a feed and a letter, and longer texts
LINES = [b'', b'a', b'\r', b'\n', b'\r\r', b'\r\n', b'\ra', b'\n\r', b'\n\n', b'\na', b'a\r', b'a\n', b'aa', b'a\r\nb', b'a\r\n\r\nb\n\rc', b'\r\r\n\n',
         b'\n\r\n\r', b'a\nb\r\nc\rd', b'\r\n\r\n', b'\x0b\x0c\x1c\r', b'\r\n\n', 'é\r\n€\n\r𝄞'.encode()]

# a text, a separator, a bound, and calls
CUTTERS = [(b'a,b', b',', -1, 'skip:3 skip:2 next pour:x2b:9 rest'),
           (b'a,b', b',', -1, f'skip:{TOP} rest next rest next next'),
           (b'a,b', b',', -1, f'skip:{TOP} rest next skip:2 next'),
           (b'a,b', b',', -1, 'skip:0 skip:1 rest skip:1 skip:0 skip:1'),
           (b'a,b', b',', -1, 'rest next rest next rest next rest'),
           (b'a,b', b',', -1, 'pour:x2d2b2d:4 pour:x2d2b2d:5 pour:x2d2b2d:8'),
           (b'a,b', b',', -1, 'pour:x2d2b2d:0 pour:x2d2b2d:6 next rest'),
           (b'a,b,c', b',', 0, 'skip:2 next next'),
           (b'a,b,c', b',', 0, 'next next'),
           (b'a,b,c', b',', 0, 'pour:x2d2d:4 pour:x2d2d:5'),
           (b'a,b,c', b',', 1, 'next rest pour:x3b20:3 pour:x3b20:2 rest'),
           (b'a,b,c', b',', 1, 'skip:3 skip:1 next next'),
           (b'a,b,c', b',', 1, 'next next next'),
           (b'a,b,c', b',', 1, 'pour:x2d2d:5 pour:x2d2d:8'),
           (b'a,b,c', b',', 2, 'next next next next'),
           (b'a,b,c', b',', -1, 'pour:x3b20:6 rest pour:x3b20:7 pour:x3b20:7'),
           (b'a,b,c', b',', LEAST, 'next next next next'),
           (b'a,b,c', b',', MOST, 'pour:x:2 pour:x:3'),
           (b'a,b,c,d', b',', 2, 'next pour:x2d2d:5 pour:x2d2d:6'),
           (b'aaa', b'aa', -1, 'next rest next next'),
           (b'aaa', b'aa', -1, 'next next next'),
           (b'aaa', b'aa', -1, 'pour:x62:1 rest pour:x62:2'),
           (b'a,', b',', -1, 'next skip:1 skip:0 skip:1'),
           (b'a,', b',', -1, 'next rest next next'),
           (b',', b',', -1, 'next next next'),
           (b'', b',', -1, 'rest next next pour:x:0'),
           (b'', b',', -1, 'next next'),
           (b'', b',', -1, f'skip:2 next skip:{TOP}'),
           (b'', b',', -1, 'pour:x2b:0 pour:x2b:0'),
           (MIXED, EURO, -1, 'next rest pour:x2d:4'),
           (EUROS, EURO, -1, 'next next next next'),
           (EUROS, EURO, -1, 'pour:x65:4 pour:x65:5'),
           (b'a,b', b'', -1, 'next')]


# as many bytes as are looked at side by side, half of them and twice as many, and one less and more
ACROSS = (31, 32, 33, 63, 64, 65, 127, 128, 129)


def strewn(size, mark):
    """A text with the mark at both ends, and before, across and behind each offset at which a look side by side may end."""
    t = bytearray(b'x' * size)
    for at in (0, 24, 32 - len(mark) // 2, 40, 56, 64 - len(mark) // 2, 72, 128 - len(mark) // 2, size - len(mark)):
        if at + len(mark) <= size:
            t[at:at + len(mark)] = mark
    return bytes(t)


def across():
    """Marks across the offsets that are looked at side by side, in texts of about as many bytes."""
    turned = bytes(255 - i for i in range(256))
    for size in ACROSS:
        for kind, m in (('bytes', b','), ('bytes', b'<|>'), ('text', EURO)):
            t = strewn(size, m)
            for n in (-1, 2):
                split(kind, t, m, n, 20)
                rsplit(kind, t, m, n, 20)
            replace(kind, t, m, b';', None, 400)
            cutter(kind, t, 'sub:' + x(m), -1, 'next', 'skip:1', 'rest', 'pour:' + x(m * 2) + ':400', 'next')
            for p in (0, 1, 25, 33, 41, 64, 65, size - len(m), size):
                mark(kind, t, 'sub:' + x(m), p)
                rmark(kind, t, 'sub:' + x(m), p)
        sought(strewn(size, b'<|>'), b'<|>')
        sought(strewn(size, b'<|>'), b'<|>', 30, -1)
        sought(strewn(size, b','), b',')
        sought(b'x' * size, b'xxx')
        sought(b'x' * size, b'y')
        t = strewn(size, b' \r\n')
        for n in (-1, 2):
            split('text', t, None, n, 40)
            rsplit('bytes', t, None, n, 40)
        splitlines('text', t, False, 40)
        splitlines('bytes', t, True, 40)
        for members in (b'\n,', b'\x00\x01\x02\x03\x04\x05\x06\x07\n'):
            for p in (0, 1, 33, 64, 66, size):
                mark('bytes', t, 'set:' + x(members), p)
                rmark('bytes', t, 'set:' + x(members), p)
        translate(t, turned, None, 400)
        translate(t, turned, b'\rx', 400)
        translate(t, turned, b'\rx', 1)
    # needles about as long, which stand nearly everywhere
    for size in ACROSS[3:6]:
        for needle in (b'a' * (size - 1) + b'b', b'b' + b'a' * (size - 1), b'a' * size):
            for t in (b'a' * 200, b'a' * 90 + needle + needle + b'a' * 20, needle):
                sought(t, needle)
                split('bytes', t, needle, -1, 20)
                rsplit('bytes', t, needle, -1, 20)
                replace('bytes', t, needle, b'c', None, 400)


def write():
    for kind in ('bytes', 'text'):
        # what the Reference prints of split, rsplit and splitlines
        split(kind, b'1,2,3', b',', -1, 9)
        split(kind, b'1,2,3', b',', 1, 9)
        split(kind, b'1,2,,3,', b',', -1, 9)
        split(kind, b'1,,2', b',', -1, 9)
        split(kind, b'1<>2<>3', b'<>', -1, 9)
        split(kind, b'1 2 3', None, -1, 9)
        split(kind, b'1 2 3', None, 1, 9)
        split(kind, b'   1   2   3   ', None, -1, 9)
        splitlines(kind, b'ab c\n\nde fg\rkl\r\n', False, 9)
        splitlines(kind, b'ab c\n\nde fg\rkl\r\n', True, 9)
        splitlines(kind, b'', False, 9)
        splitlines(kind, b'One line\n', False, 9)
        split(kind, b'', b'\n', -1, 9)
        split(kind, b'Two lines\n', b'\n', -1, 9)
        # sheets
        for t, sep in ((b'a,,b,', b','), (b'', b','), (b'aaa', b'aa'), (b'aaaa', b'aa'), (b',', b','), (b'abc', b'abc')):
            for n in (-1, 0, 1, MOST, LEAST):
                split(kind, t, sep, n, 9)
            rsplit(kind, t, sep, -1, 9)
            rsplit(kind, t, sep, 1, 9)
        for t in (b'  n s e ', b'', b' ', b'a', b'\x0b a\x0cb\x1cc\t\r\n', b'a\ta\t'):
            for n in (-1, 0, 1, 2):
                split(kind, t, None, n, 9)
                rsplit(kind, t, None, n, 9)
        for n in (MOST, LEAST, LEAST + 1):
            split(kind, b'a\ta\t', None, n, 9)
            rsplit(kind, b'a\ta\t', None, n, 9)
        for room in (3, 4):
            split(kind, b'a,,b,', b',', -1, room)
            rsplit(kind, b'a,,b,', b',', -1, room)
        split(kind, b'n s e', None, -1, 2)
        rsplit(kind, b'n s e', None, -1, 2)
        split(kind, b'abc', b'', -1, 9)
        rsplit(kind, b'abc', b'', -1, 9)
        split(kind, MIXED, EURO, -1, 9)
        rsplit(kind, MIXED + EURO + b'x', EURO, 1, 9)
        splitlines(kind, b'a\r\n\rb\n', False, 9)
        splitlines(kind, b'a\r\n\rb\n', True, 9)
        splitlines(kind, b'a\r\n\rb\n', True, 2)
        splitlines(kind, b'a\x0bb\x0cc\x1cd\xc2\x85e', False, 9)
        splitlines(kind, b'\n', False, 9)
        splitlines(kind, b'\r\n\n\r', True, 9)
        # join, replace
        join(kind, b', ', b'abcdef', [(0, 1), (2, 4), (5, 6)], 9)
        join(kind, b', ', b'abcdef', [(0, 1), (2, 4), (5, 6)], 7)
        join(kind, b',', b'abc', [], 0)
        join(kind, b',', b'abc', [(1, 2)], 1)
        join(kind, EURO, MIXED, [(0, 1), (1, 3), (3, 3), (6, 10)], 20)
        join(kind, b',', MIXED, [(0, 1), (1, 2)], 20)
        join(kind, b',', b'abc', [(0, 1), (2, 1), (0, 9)], 20)
        join(kind, b',', b'abc', [(3, 3), (3, 4)], 20)
        replace(kind, b'abc', b'a', b'f', None, 9)
        replace(kind, b'aaa', b'aa', b'b', None, 9)
        replace(kind, b'aaa', b'aa', b'b', 0, 9)
        replace(kind, b'Py', b'', b'.', None, 9)
        replace(kind, b'Py', b'', b'.', 2, 9)
        replace(kind, b'', b'', b'.', None, 9)
        replace(kind, b'', b'', b'A', 1, 9)
        replace(kind, b'Py', b'', b'', None, 9)
        replace(kind, b'a,b,c', b',', b'; ', -1, 9)
        replace(kind, b'a,b,c', b',', b'; ', 1, 9)
        replace(kind, b'a,b,c', b',', b'; ', MOST, 9)
        replace(kind, b'a,b,c', b',', b'', LEAST, 9)
        replace(kind, b'a,b,c', b',', b'; ', None, 6)
        replace(kind, b'Py', b'', b'.', None, 4)
        replace(kind, b'Py', b'', b'.', None, 5)
        replace(kind, MIXED, b'', b'-', None, 20)
        replace(kind, MIXED, b'', EURO, 3, 30)
        replace(kind, MIXED, EURO, b'e', None, 20)
        # texts
        for p in (*range(len(MIXED) + 2), TOP):
            element(kind, MIXED, p)
        for a, b in ((0, 0), (0, 1), (1, 3), (3, 6), (0, 10), (6, 6), (10, 10), (1, 2), (2, 3), (4, 4), (7, 9), (3, 1), (10, 0),
                     (10, 11), (0, 11), (11, 11), (0, TOP), (TOP, TOP), (3, 3)):
            getbytes(kind, MIXED, a, b)
        element(kind, b'', 0)
        for t in EDGES:
            getbytes(kind, t, 0, len(t))
        # marks
        for t, needle in NEEDLES:
            everywhere(kind, t, 'sub:' + x(needle))
        for t in LINES:
            everywhere(kind, t, 'lines')
            splitlines(kind, t, False, 9)
            splitlines(kind, t, True, 9)
        for members in (b'', b' ,', b',\x82', b'\x00a\x7f', b'\x80', b'\xff', b'a\xc8\x82', b'\xff\x80a\x80', b'a\xc3\xa9', ALL):
            everywhere(kind, 'é, €'.encode(), 'set:' + x(members))
        for members in (b'', b';', ALL[:128], ALL):
            everywhere(kind, b'a;b', 'set:' + x(members))
        # cutters
        for t, sep, bound, calls in CUTTERS:
            cutter(kind, t, 'sub:' + x(sep), bound, *calls.split())
        cutter(kind, b'a;b c', 'set:x3b20', -1, 'next', 'next', 'next', 'next')
        cutter(kind, b'a;b c', 'set:xff', -1, 'next', 'next')
        cutter(kind, b'a\r\nb', 'set:x0d0a', -1, 'next', 'next', 'next', 'next')
        cutter(kind, b'a\r\nb', 'set:x0d0a', -1, 'pour:x7c:3', 'pour:x7c:8')
        cutter(kind, EURO, 'set:x82', -1, 'next', 'pour:x7c:8')
        cutter(kind, b'a\r\nb\rc\n', 'lines', -1, 'skip:2', 'rest', 'pour:x7c:2', 'next')
        cutter(kind, b'a\r\nb\rc\n', 'lines', 1, 'next', 'pour:x7c:9')
        cutter(kind, b'a\r\n\nb', 'lines', -1, 'next', 'next', 'next', 'next')
        cutter(kind, b'a\r\n\nb', 'lines', 1, 'skip:3', 'next', 'next')
        cutter(kind, b'a\r\nb\rc', 'lines', -1, 'pour:x7c:4', 'pour:x7c:5')
        # ill-formed as Text, plain as Bytes
        split(kind, b'\xc3\x28', b'(', -1, 9)
        split(kind, b'a(', b'\xc3', -1, 9)
    # sets of any byte
    for members in (b'', b'b', b'\xffaa'):
        everywhere('bytes', b'ab\xffb', 'set:' + x(members))
    for p in (0, 1, 127, 128, 255, 256):
        mark('bytes', ALL, 'set:' + x(ALL), p)
        rmark('bytes', ALL, 'set:' + x(ALL), p)
    rmark('bytes', ALL, 'set:' + x(ALL), TOP)
    for b in ALL:
        mark('bytes', bytes([b ^ 1, b, b]), 'set:' + x(bytes([b])), 0)
    # find, rfind, count
    sought(b'spam, spam, spam', b'spam')
    sought(b'spam, spam, spam', b'spam', 1)
    sought(b'spam, spam, spam', b'spam', 1, -1)
    sought(b'Python', b'Py')
    sought(b'anna', b'n', -3)
    sought(b'anna', b'n', 5)
    sought(b'anna', b'')
    sought(b'anna', b'', 1, 3)
    sought(b'anna', b'', 4)
    sought(b'anna', b'', 5)
    sought(b'anna', b'', 3, 1)
    sought(b'', b'')
    sought(b'', b'', 1)
    sought(b'aaa', b'aa')
    sought(b'a\xffa', 255)
    sought(b'a\x00a', 0)
    sought(b'anna', 256)
    sought(b'anna', -1)
    sought(b'anna', MOST)
    sought(b'anna', LEAST)
    sought(b'anna', 97, LEAST, MOST)
    sought(b'anna', b'a', MOST, LEAST)
    sought(b'anna', b'annas')
    # tables
    turned = bytes(255 - i for i in range(256))
    translate(b'read this short text', None, b'aeiou', 99)
    translate(b'abc', turned, None, 3)
    translate(b'abc', turned, b'', 3)
    translate(b'abc', turned, b'ac', 3)
    translate(b'abcabc', turned, b'ac', 1)
    translate(b'', turned, None, 0)
    translate(b'abc', None, None, 2)
    translate(b'abc', turned[:255], None, 9)
    translate(b'abc', turned + b'a', b'abc', 9)
    translate(bytes(range(256)), turned, bytes(range(0, 256, 2)), 128)
    maketrans(b'abc', b'xyz', 256)
    maketrans(b'abc', b'xyz', 255)
    maketrans(b'', b'', 300)
    maketrans(b'aa', b'xy', 256)
    maketrans(b'abc', b'xy', 256)
    maketrans(bytes(range(256)), turned, 256)
    across()
    # lines that are no case
    for line in ('', 'split', 'split bytes x61 x2c', 'split bytes xg1 x2c -1 9', 'split runes x61 x2c -1 9', 'find x61 x61 - - -',
                 'join bytes x2c x61 0-1,1 9', 'cutter bytes x61 sub:x61 -1 leap', 'element bytes x61 -1', 'splitlines text x61 2 9'):
        case(line, 'unreadable')


if __name__ == '__main__':
    write()
    folder = os.path.join(os.path.dirname(os.path.abspath(__file__)), '..', 'crates', 'replay')
    for name, column in (('stdin', 0), ('stdout', 1)):
        with open(os.path.join(folder, name), 'w') as f:
            f.writelines(c[column] + '\n' for c in CASES)
    print(f'{len(CASES)} cases', file=sys.stderr)
