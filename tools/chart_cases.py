#!/usr/bin/env python3
"""Writes the stored calls of chart: in tests/chart a sheet NAME, the words NAME.args, and what is to be shown: NAME.stdout, NAME.stderr
where that is anything, and NAME.status where that is not 0. What is shown of the sample sheet without words goes to crates/chart/stdout too.

Every place, offset, number and byte is what CPython's methods give; the layout and the messages are written down here once more.
"""
import glob
import os

ROOT = os.path.join(os.path.dirname(os.path.abspath(__file__)), '..')
HERE = os.path.join(ROOT, 'tests', 'chart')

SPELLED = {'\t': '\\t', '\n': '\\n', '\r': '\\r', '\\': '\\\\'}
NAMED = {spelled[1]: c.encode() for c, spelled in SPELLED.items()}


def text_of(sheet):
    try:
        return sheet.decode('utf-8')
    except UnicodeDecodeError:
        return None


def escaped(part, as_text=None):
    """A part of a sheet as it is shown: by its characters where it is text, and else by its bytes."""
    if as_text is None:
        as_text = text_of(part) is not None

    def one(c):
        if c in SPELLED:
            return SPELLED[c]
        plain = ' ' <= c <= '~' or (as_text and c > '\x7f')
        return c if plain else f'\\x{ord(c):02x}'

    return ''.join(map(one, part.decode('utf-8' if as_text else 'latin-1')))


def unescaped(word):
    """The bytes that a word names."""
    head, *rest = word.split('\\', 1)
    if not rest:
        return head.encode()
    rest = rest[0]
    if rest[0] == 'x':
        return head.encode() + bytes.fromhex(rest[1:3]) + unescaped(rest[3:])
    return head.encode() + NAMED[rest[0]] + unescaped(rest[1:])


def laid(pieces, gap=0, start=0):
    places, at = [], start
    for p in pieces:
        places.append((at, at + len(p)))
        at += len(p) + gap
    return places


def words_laid(sheet, pieces, back):
    """Offsets of words: each is sought behind the one before it, or before the one behind it."""
    places, at = [], len(sheet) if back else 0
    for p in reversed(pieces) if back else pieces:
        start = sheet.rindex(p, 0, at) if back else sheet.index(p, at)
        places.append((start, start + len(p)))
        at = start if back else start + len(p)
    return places[::-1] if back else places


def rows_of(sheet):
    kept = laid(sheet.splitlines(True))
    return [(a, a + len(p)) for (a, _), p in zip(kept, sheet.splitlines())]


class Sheet:
    """A sheet, and how parts of it are shown."""

    def __init__(self, sheet, options):
        self.sheet = sheet
        self.as_text = text_of(sheet) is not None and '--bytes' not in options
        self.tsv = '--format' in options
        self.by_rows = '--rows' in options

    def part(self, number, place, row=None):
        a, e = place
        content = escaped(self.sheet[a:e], self.as_text)
        if self.tsv:
            return f'{number if row is None else f"{row}.{number}"}\t{a}\t{e}\t{content}'
        return f'    {number:>4}  {a:>8}..{e:<8}  "{content}"'

    def row(self, number, place):
        a, e = place
        return [self.part(number, place)] if self.tsv else ['', f'row {number:>4}  {a:>8}..{e}']

    def last(self, line):
        return [] if self.tsv else [line]

    def listed(self, method, name):
        """The places that a method lists, on the whole sheet or on each row."""
        if not self.by_rows:
            places = method(self.sheet)
            return [self.part(n, p) for n, p in enumerate(places, 1)] + self.last(f'{name} {len(places)}')
        out, total = [], 0
        for number, (a, e) in enumerate(rows_of(self.sheet), 1):
            places = [(a + s, a + t) for s, t in method(self.sheet[a:e])]
            out += [] if self.tsv else self.row(number, (a, e))
            out += [self.part(n, p, number) for n, p in enumerate(places, 1)]
            total += len(places)
        return out + self.last(f'{name} {total}')


def view(s, sep=b','):
    rows = rows_of(s.sheet)
    out = s.last(f'sheet  {len(s.sheet)} bytes')
    if s.as_text:
        out += s.last(f'text   well formed, {len(text_of(s.sheet))} characters')
    else:
        try:
            s.sheet.decode('utf-8')
        except UnicodeDecodeError as e:
            out += s.last(f'text   not well formed from offset {e.start} on (refusal 10)')
    fields = 0
    empty = 0
    for number, (a, e) in enumerate(rows, 1):
        out += s.row(number, (a, e))
        pieces = s.sheet[a:e].split(sep)
        fields += len(pieces)
        empty += pieces.count(b'')
        out += [s.part(n, p, number) for n, p in enumerate(laid(pieces, len(sep), a), 1)]
    if s.tsv:
        return out
    counts = (('rows', len(rows)), ('fields', fields), ('empty fields', empty), ('tabs', s.sheet.count(b'\t')), ('blanks', s.sheet.count(b' ')))
    return out + [''] + [f'{name:<14}{n:>8}' for name, n in counts]


def check(s, sep=b',', fields=None):
    rows = [(n, (a, e), len(s.sheet[a:e].split(sep))) for n, (a, e) in enumerate(rows_of(s.sheet), 1)]
    expected = fields if fields is not None else rows[0][2] if rows else 0
    other = [r for r in rows if r[2] != expected]
    out = [
        s.part(n, p) if s.tsv else f'row {n:>4}  {p[0]:>8}..{p[1]:<8}  fields {f}, expected {expected}  "{escaped(s.sheet[p[0]:p[1]], s.as_text)}"'
        for n, p, f in other
    ]
    return out + s.last(f'deviating rows {len(other)}'), 1 if other else 0


def split(sep=None, maxsplit=b'-1', back=False):
    def places(text):
        pieces = (text.rsplit if back else text.split)(sep, int(maxsplit))
        return laid(pieces, len(sep)) if sep else words_laid(text, pieces, back)

    return places


def made(result):
    s = Sheet(result, ())
    return [s.part(n, p) for n, p in enumerate(laid(result.splitlines(True)), 1)] + [f'bytes {len(result)}']


def found(at):
    return [f'found at {at}' if at >= 0 else 'none']


METHODS = {
    'split': lambda s, *args: s.listed(split(*args), 'places'),
    'rsplit': lambda s, *args: s.listed(split(*args, back=True), 'places'),
    'lines': lambda s, keep=None: s.listed(lambda text: laid(text.splitlines(True)) if keep else rows_of(text), 'lines'),
    'find': lambda s, sub: found(s.sheet.find(sub)),
    'rfind': lambda s, sub: found(s.sheet.rfind(sub)),
    'count': lambda s, sub: [f'times {s.sheet.count(sub)}'],
    'replace': lambda s, old, new, maxcount=b'-1': made(replaced(s, old, new, int(maxcount))),
    'translate': lambda s, old, new, delete=b'': made(s.sheet.translate(bytes.maketrans(old, new), delete)),
    'join': lambda s, sep: made(sep.join(s.sheet.splitlines())),
}


def replaced(s, old, new, maxcount):
    """By characters where the sheet is looked at so, which an empty `old` tells apart."""
    if s.as_text:
        return text_of(s.sheet).replace(old.decode(), new.decode(), maxcount).encode()
    return s.sheet.replace(old, new, maxcount)


def word(w):
    return w if w and all(c.isascii() and (c.isalnum() or c == '-') for c in w) else f'"{escaped(w.encode())}"'


def cut(s, sep, *calls, bound=-1):
    """A cutter, played by CPython's split of the rest."""
    place, made_cuts, spent, tray, out = 0, 0, False, None, []

    def left():
        return [] if spent else s.sheet[place:].split(sep, -1 if bound < 0 else bound - made_cuts)

    def next_():
        nonlocal place, made_cuts, spent
        pieces = left()
        a, e = place, place + len(pieces[0])
        spent = len(pieces) == 1
        place = e if spent else e + len(sep)
        made_cuts += 0 if spent else 1
        return a, e

    def shown(place):
        return f'{place[0]:>8}..{place[1]:<8}  "{escaped(s.sheet[place[0]:place[1]], s.as_text)}"'

    for call in calls:
        name, _, arg = call.partition(':')
        if name == 'next':
            answer = shown(next_()) if left() else 'none'
        elif name == 'skip' and int(arg) <= len(left()):
            for _ in range(int(arg)):
                next_()
            answer = 'ok'
        elif name == 'skip':
            answer = f'refused (9): the pieces left are only {len(left())}'
        elif name == 'rest':
            answer = shown((place, len(s.sheet)))
        elif spent:
            answer = 'refused (8): the cutter has no piece left'
        else:
            tray, spent, place, answer = unescaped(arg).join(left()), True, len(s.sheet), 'ok'
        out.append(f'    {name:<8}{answer}')
    return out + [f'tray    "{escaped(tray or b"")}"']


VALUES = {'--format', '--file', '--sep', '--fields', '--bound'}
FLAGS = {'--bytes', '--rows'}


def answer(sheet, words):
    """What a call shows, and its status. A word that begins with a hyphen and is no option is one like any other; but for `--` in a cut."""
    places, named, options, skip = [], {}, set(), None
    ends = words.index('--') if words[:1] == ['cut'] and '--' in words else len(words)
    for n, w in enumerate(words):
        if n >= ends:
            places += words[ends + 1:]
            break
        if skip:
            named[skip], skip = w, None
        elif w in VALUES | FLAGS:
            options.add(w)
            skip = w if w in VALUES else None
        else:
            places.append(w)
    s = Sheet(sheet, options)
    sep = unescaped(named.get('--sep', ','))
    if not places or os.path.sep in places[0]:
        return view(s, sep), 0
    name, *args = places
    if name == 'check':
        return check(s, sep, int(named['--fields']) if '--fields' in named else None)
    if name == 'cut':
        return cut(s, unescaped(args[0]), *args[1:], bound=int(named.get('--bound', -1))), 0
    kind = ' bytes of text' if s.as_text else ' bytes'
    head = ''.join(word(w) + ' ' for w in words) + f' on {len(sheet)}{kind}'
    if name in ('find', 'rfind', 'count', 'replace', 'translate', 'join', 'split', 'rsplit'):
        args = [unescaped(a) for a in args]
    return s.last(head) + METHODS[name](s, *args), 0


def put(name, content):
    if content:
        with open(os.path.join(HERE, name), 'wb') as f:
            f.write(content)


def lines(ls):
    return ''.join(l + '\n' for l in ls).encode()


def store(name, sheet, words, out, err, status):
    with open(os.path.join(HERE, name), 'wb') as f:
        f.write(sheet)
    with open(os.path.join(HERE, name + '.args'), 'wb') as f:
        f.write(lines(words))
    put(name + '.stdout', lines(out))
    put(name + '.stderr', lines(err))
    put(name + '.status', b'%d\n' % status if status else b'')


def write(name, sheet, words, of=None):
    """A call that shows something: of the sheet at the standard input, or of the one that is named."""
    out, status = answer(sheet if of is None else of, words)
    store(name, sheet if of is None else b'', words, out, [], status)


def misuse(name, words, message):
    """A call that the library for the words refuses, in its lines."""
    store(name, b'a,b', words, [], message.split('\n') + ['', "For more information, try '--help'."], 1)


def refuse(name, words, message):
    """A call that shows nothing and ends with a message and status 1."""
    store(name, b'a,b', words, [], [f'chart: {message}'], 1)


def main():
    os.makedirs(HERE, exist_ok=True)
    for old in glob.glob(os.path.join(HERE, '*')):
        os.remove(old)
    with open(os.path.join(ROOT, 'crates', 'chart', 'stdin'), 'rb') as f:
        sample = f.read()
    odd = b'a\xff,b\t\\,\x00c\r'
    path = 'crates/chart/stdin'

    write('view', sample, [])
    with open(os.path.join(ROOT, 'crates', 'chart', 'stdout'), 'wb') as f:
        f.write(lines(answer(sample, [])[0]))
    write('view-file', b'', [path], sample)
    write('view-sep', b'a;b,c\n;d\n', ['--sep', ';'])
    write('view-sep-tab', b'a\tb,c\n\td\n', ['--sep', '\\t'])
    write('view-bytes', odd, [])
    write('view-nothing', b'', [])
    write('view-tsv', sample, ['--format', 'tsv'])
    refuse('view-no-file', ['no/such/file'], "'no/such/file' cannot be read: No such file or directory (os error 2)")
    refuse('view-folder', ['docs'], "'docs' cannot be read: Is a directory (os error 21)")
    refuse('view-empty-sep', ['--sep', ''], 'refused (1): nothing to look for, or to separate at')
    refuse('view-bad-sep', ['--sep', '\\xff'], 'refused (10): what is given is not well-formed text, from byte 0')

    shifted = b'Chart,Name,Scale\n101,Quay,1:2500\n102,Inner, Outer Basin,1:5000\n103,1:2500\n'
    write('check', shifted, ['check'])
    write('check-none', b'a,b\nc,d\n', ['check'])
    write('check-nothing', b'', ['check'])
    write('check-fields', shifted, ['check', '--fields', '4'])
    write('check-sep', shifted, ['check', '--sep', ':'])
    write('check-file', b'', ['check', path], sample)
    write('check-tsv', shifted, ['check', '--format', 'tsv'])
    write('check-bytes', odd, ['check', '--fields', '2'])
    refuse('check-empty-sep', ['check', '--sep', ''], 'refused (1): nothing to look for, or to separate at')

    write('split', sample, ['split', ','])
    write('split-bounded', sample, ['split', ',', '2'])
    write('split-negative', b'a,b,c', ['split', ',', '-1'])
    write('split-words', b' n s\te ', ['split'])
    write('split-odd', odd, ['split', ','])
    write('split-bytes', 'Kühl,a'.encode(), ['split', '\\xc3', '--bytes'])
    write('split-nothing', b'', ['split', ','])
    write('split-rows', sample, ['split', '--rows', ','])
    write('split-rows-words', sample, ['split', '--rows'])
    write('split-rows-tsv', sample, ['split', '--rows', '--format', 'tsv', ',', '1'])
    write('split-tsv', odd, ['split', '--format', 'tsv', ','])
    write('split-file', b'', ['split', '\\r\\n', '--file', path], sample)
    write('split-line-end', b'a\nb\r\n', ['split', '\\n'])
    refuse('split-empty', ['split', ''], 'refused (1): nothing to look for, or to separate at')
    write('rsplit', sample, ['rsplit', 'WGS', '1'])
    write('rsplit-words', b'  n s e ', ['rsplit'])
    write('rsplit-rows', sample, ['rsplit', '--rows', ',', '1'])
    write('rsplit-bytes', 'Kühl,a'.encode(), ['rsplit', '--bytes', '\\xbc', '1'])
    write('rsplit-tsv', sample, ['rsplit', '--format', 'tsv', ',', '3'])
    write('lines', sample, ['lines'])
    write('lines-keep', sample, ['lines', 'keep'])
    write('lines-rows', b'a\n\nb', ['lines', '--rows'])
    write('lines-bytes', 'Kühl\nb'.encode(), ['lines', '--bytes'])
    write('lines-tsv', sample, ['lines', '--format', 'tsv'])
    write('find', sample, ['find', 'Quay'])
    write('find-none', sample, ['find', 'Wharf'])
    write('find-tab', sample, ['find', '\\t'])
    write('find-bytes', 'Kühl'.encode(), ['find', '--bytes', '\\xbc'])
    write('find-file', b'', ['find', 'Quay', '--file', path], sample)
    write('rfind', sample, ['rfind', 'WGS 84'])
    write('rfind-bytes', sample, ['rfind', '--bytes', '\\x0a'])
    write('count', sample, ['count', ','])
    write('count-line-ends', sample, ['count', '\\r\\n', '--bytes'])
    write('replace', sample, ['replace', 'WGS 84', 'UTM'])
    write('replace-bounded', sample, ['replace', '', '.', '3'])
    write('replace-odd', odd, ['replace', ',', ';'])
    write('replace-line-ends', sample, ['replace', '\\r', '\\n'])
    write('replace-bytes', 'ü'.encode(), ['replace', '--bytes', '', '.'])
    write('replace-backslash', b'a\\b', ['replace', '\\\\', '\\x2F'])
    write('translate', sample, ['translate', 'abc', 'xyz', ',\\t'])
    write('translate-bytes', 'ü'.encode(), ['translate', '--bytes', '\\xbc', '\\xb6'])
    write('join', sample, ['join', ' | '])
    write('join-bytes', 'ü\nb'.encode(), ['join', '\\xff', '--bytes'])
    refuse('translate-unequal', ['translate', 'ab', 'x'], 'refused (3): FROM and TO have unequal lengths')

    write('cut', b'N;;S;W', ['cut', ';', 'next', 'rest', 'skip:1', 'pour:, ', 'next', 'pour:x'])
    write('cut-bound', b'N;;S;W', ['cut', ';', '--bound', '1', 'next', 'next', 'next'])
    write('cut-refused', b'a,b', ['cut', ',', 'skip:3', 'skip:2', 'rest', 'next', 'skip:0'])
    write('cut-tab', b'a\tb\tc', ['cut', '\\t', 'pour:\\n'])
    write('cut-pours', b'a,b', ['cut', ',', 'skip:2', 'pour:x'])
    write('cut-bytes', 'aüb'.encode(), ['cut', '--bytes', '\\xc3', 'next', 'next'])
    write('cut-file', b'', ['cut', ',', 'next', 'skip:3', 'next', '--file', path], sample)
    refuse('cut-empty', ['cut', '', 'next'], 'refused (1): nothing to look for, or to separate at')
    refuse('cut-no-call', ['cut', ',', 'nxt'], "'nxt' is no call on a cutter: next, skip:N, rest and pour:TO are")
    refuse('cut-no-number', ['cut', ',', 'skip:-1'], "'skip:-1' is no call on a cutter: next, skip:N, rest and pour:TO are")

    hyphens = b'a--b -9999 -x a -33.9 -h\n--rows,-1\n'
    write('hyphen-split', hyphens, ['split', '-x'])
    write('hyphen-split-once', hyphens, ['split', '-9999', '1', '--rows'])
    write('hyphen-split-number', hyphens, ['split', '-1', '-1'])
    write('hyphen-rsplit', hyphens, ['rsplit', '--bytes', '-', '2'])
    write('hyphen-find', hyphens, ['find', '-33.9'])
    write('hyphen-rfind', hyphens, ['rfind', '-h\\n'])
    write('hyphen-count', hyphens, ['count', '-9999', '--bytes'])
    write('hyphen-count-long', hyphens, ['count', '--b '])
    write('hyphen-count-help', hyphens, ['count', '\\x2dh'])
    write('hyphen-replace', hyphens, ['replace', '-9999', 'NA'])
    write('hyphen-replace-to', hyphens, ['replace', ',', '-9999', '-1'])
    write('hyphen-translate', hyphens, ['translate', '-x', '-y', '-'])
    write('hyphen-join', hyphens, ['join', '-x'])
    write('hyphen-cut', hyphens, ['cut', '-x', 'next', 'rest'])
    write('hyphen-option', hyphens, ['count', '\\x2d-rows'])
    write('hyphens-split', hyphens, ['split', '--'])
    write('hyphens-split-once', hyphens, ['split', '--', '1'])
    write('hyphens-split-rows', hyphens, ['split', '--', '--rows'])
    write('hyphens-rsplit', hyphens, ['rsplit', '--', '1'])
    write('hyphens-count', hyphens, ['count', '--'])
    write('hyphens-replace', hyphens, ['replace', 'a', '--', '1'])
    write('hyphens-replace-both', hyphens, ['replace', '--', '--', '1'])
    write('hyphens-translate', hyphens, ['translate', 'a', 'b', '--'])
    write('hyphens-join', hyphens, ['join', '--'])
    write('hyphens-cut', hyphens, ['cut', '--', '--', 'next', 'rest'])
    misuse('hyphens-number', ['split', ',', '--'], "error: invalid value '--' for '[MAXSPLIT]': invalid digit found in string")
    misuse('hyphens-behind', ['find', '-a', '--'], "error: unexpected argument '--' found\n\nUsage: chart find [OPTIONS] <SUB>")
    refuse('hyphens-keep', ['lines', '--'], "'--' is not 'keep', the one word that lines takes")
    misuse('near-option', ['split', '--row', ','],
           "error: unexpected argument '--row' found\n\n  tip: a similar argument exists: '--rows'\n\nUsage: chart split --rows [SEP] [MAXSPLIT]")

    escapes = '; \\t, \\n, \\r, \\\\ and \\xHH are escapes'
    refuse('escape-unknown', ['split', 'a\\q'], "SEP: a backslash before 'q' is no escape" + escapes)
    refuse('escape-digits', ['find', '\\x4'], 'SUB: \\x wants two hexadecimal digits after it' + escapes)
    refuse('escape-cut', ['join', '\\'], 'SEP: nothing stands after the backslash at the end' + escapes)
    refuse('escape-pour', ['cut', ',', 'pour:\\y'], "TO: a backslash before 'y' is no escape" + escapes)
    refuse('escape-sep', ['check', '--sep', '\\0'], "SEP: a backslash before '0' is no escape" + escapes)

    refuse('near-word', ['spilt', ','], "'spilt' is no word of chart; did you mean 'split'? See 'chart help'")
    refuse('near-file', ['chek'], "'chek' cannot be read: No such file or directory (os error 2); did you mean the word 'check'?")
    refuse('no-keep', ['lines', 'kept'], "'kept' is not 'keep', the one word that lines takes")


if __name__ == '__main__':
    main()
