"""The byte methods of the Rust crate, taken out of its published sources and built over stand-ins for its interpreter.

CRATE is the unpacked archive of rustpython-vm 0.4.0. Its byte methods are taken from src/bytesinner.rs and src/anystr.rs as
they stand there, put over stand-ins for the interpreter (stand_ins.rs) and over the searches they call, and built with sums
that wrap. The searches are those of the crate bstr, which cargo has to find in its registry or in Debian's librust-bstr-dev,
or stand-ins too, which are written by the meaning of marks and cuts (marks.rs).
"""
import os
import re
import subprocess

HERE = os.path.dirname(os.path.abspath(__file__))
ROOT = os.path.dirname(os.path.dirname(HERE))

ANYSTR = ['pub struct SplitArgs', 'impl<T: TryFromObject + AnyStrWrapper> SplitArgs', 'pub struct SplitLinesArgs', 'fn saturate_to_isize',
          'pub fn adjust_indices', 'pub trait StringRange', 'impl StringRange', 'pub trait AnyStrWrapper', 'pub trait AnyStrContainer']
OF_TRAIT = ['py_split', 'py_split_whitespace', 'py_rsplit_whitespace', 'py_find', 'py_count', 'py_join', 'py_bytes_splitlines']
BYTESINNER = ['pub struct PyBytesInner', 'impl From<Vec<u8>> for PyBytesInner', 'pub struct ByteInnerFindOptions', 'impl ByteInnerFindOptions',
              'pub struct ByteInnerTranslateOptions', 'impl ByteInnerTranslateOptions', 'pub type ByteInnerSplitOptions', 'fn count_substring',
              'pub trait ByteOr', 'impl ByteOr', 'impl AnyStrWrapper', 'impl AnyStrContainer', 'const ASCII_WHITESPACES', 'impl AnyStr for']
METHODS = ['as_bytes', 'len', 'is_empty', 'count', 'join', 'find', 'maketrans', 'translate', 'split', 'rsplit', 'splitlines',
           'replace_interleave', 'replace_delete', 'replace_in_place', 'replace_general', 'replace']

MANIFEST = '''[package]
name = "{name}"
version = "0.1.0"
edition = "2021"

[profile.release]
overflow-checks = false

[dependencies]
'''
BSTR = 'bstr = { version = ">=0.2, <2", default-features = false, features = ["std"] }\n'

# where Debian's packages put crates, and how cargo is told to take them from there
DEBIAN_CRATES = '/usr/share/cargo/registry'
DEBIAN = ['--config', 'source.crates-io.replace-with="debian"', '--config', f'source.debian.directory="{DEBIAN_CRATES}"']


def item(source, head):
    """The item that begins with these words, with its derived traits, up to its closing brace or semicolon."""
    start = re.search(r'^(#\[derive\([^\n]*\n)?[ ]*' + re.escape(head) + r'\b', source, re.M).start()
    depth = 0
    for i in range(start, len(source)):
        c = source[i]
        depth += (c in '{([') - (c in '})]')
        if depth == 0 and (c == ';' or c == '}'):
            return source[start:i + 1] + '\n'
    raise SystemExit(f'no end of {head}')


def method(source, name):
    public = re.search(r'^    pub fn ' + name + r'\b', source, re.M)
    return item(source, ('pub fn ' if public else 'fn ') + name)


def trait(source):
    """The trait AnyStr with what every kind has to give, and those of its functions that the methods call."""
    whole = item(source, 'pub trait AnyStr')
    required = whole[:whole.index('    fn py_add')]
    return required + ''.join(method(whole, name) for name in OF_TRAIT) + '}\n'


def read(*path):
    """A file without its comments, which may have braces of their own."""
    with open(os.path.join(*path)) as f:
        return re.sub(r'//[^\n]*', '', f.read())


def program(crate, driver, marks):
    """The methods with a driver's main."""
    anystr, inner = read(crate, 'src', 'anystr.rs'), read(crate, 'src', 'bytesinner.rs')
    parts = [read(HERE, 'stand_ins.rs')]
    parts += ['mod bstr {\n' + read(HERE, 'marks.rs') + '}\n'] if marks else []
    parts += [item(read(crate, 'src', 'function', 'argument.rs'), 'pub enum OptionalArg')]
    parts += [item(read(crate, 'src', 'function', 'either.rs'), 'pub enum Either')]
    parts += [item(anystr, head) for head in ANYSTR] + [trait(anystr)]
    parts += [item(inner, head) for head in BYTESINNER]
    own = inner[inner.index('\nimpl PyBytesInner {'):]
    parts += ['impl PyBytesInner {\n' + ''.join(method(own, name) for name in METHODS) + '}\n']
    parts += [read(driver)]
    text = '\n'.join(parts)
    return re.sub(r'#\[derive\(FromArgs\)\]|#\[pyarg\([^\n]*\)\]|, result_like::\w+|, is_macro::\w+|pub\(super\) ', '', text)


def build(crate, driver, marks=False):
    """Builds the methods with a driver, in a folder of target/ that is named as the driver's; gives the program's path."""
    name = os.path.basename(os.path.dirname(driver)) + '_marks' * marks
    place = os.path.join(ROOT, 'target', name)
    os.makedirs(os.path.join(place, 'src'), exist_ok=True)
    for path, text in (('Cargo.toml', MANIFEST.format(name=name) + BSTR * (not marks)), ('src/main.rs', program(crate, driver, marks))):
        with open(os.path.join(place, path), 'w') as f:
            f.write(text)
    from_debian = DEBIAN if os.path.isdir(DEBIAN_CRATES) else []
    # for the processor that the port is compiled for
    flags = os.environ | {'RUSTFLAGS': '-C target-cpu=x86-64-v2'}
    subprocess.run(['cargo', *from_debian, 'build', '--release', '--quiet'], cwd=place, env=flags, check=True)
    return os.path.join(place, 'target', 'release', name)
