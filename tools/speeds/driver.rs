// Does calls over the sheet at the standard input by the crate's methods: words, lines and numbers are those of the
// program speeds. What a method is given is made before the clock runs, and what it gives is dropped after.
use std::hint::black_box;
use std::io::Read;
use std::time::Instant;

const VM: VirtualMachine = VirtualMachine;

fn owned(bytes: &[u8]) -> PyBytesInner {
    bytes.to_vec().into()
}

// At each separator, or at whitespace where there is none.
fn everywhere(sep: Option<&[u8]>) -> SplitArgs<PyBytesInner> {
    SplitArgs {
        sep: sep.map(owned),
        maxsplit: -1,
    }
}

// A byte string, in the whole text.
fn anywhere(sub: &[u8]) -> ByteInnerFindOptions {
    ByteInnerFindOptions {
        sub: Either::A(owned(sub)),
        start: None,
        end: None,
    }
}

const WITHOUT_ENDS: SplitLinesArgs = SplitLinesArgs { keepends: false };

// Where a part stands in the text, which is all that the port gives of it: the interpreter copies it into an object.
fn place(text: &PyBytesInner, part: &[u8]) -> (usize, usize) {
    let start = part.as_ptr() as usize;
    (start.wrapping_sub(text.elements.as_ptr() as usize), part.len())
}

fn placed(text: &PyBytesInner) -> impl Fn(&[u8], &VirtualMachine) -> PyObjectRef + '_ {
    |part, _| {
        let (start, len) = place(text, part);
        PyObjectRef::Place(start, len)
    }
}

// The sum of what the script's steps give on each line: the number of its fields, the offset of the word, and the
// length with other separators.
fn script(sheet: &PyBytesInner, word: &[u8]) -> usize {
    let lines = sheet.splitlines(WITHOUT_ENDS, owned);
    let steps = |line: &PyBytesInner| {
        let fields = line.split(everywhere(Some(b",")), placed(line), &VM);
        let offset = line.find(anywhere(word), |h, n| h.find(n), &VM).unwrap();
        let made = line.replace(owned(b","), owned(b";"), OptionalArg::Missing, &VM);
        fields.unwrap().len() + offset.unwrap_or(line.len()) + made.unwrap().len()
    };
    lines.iter().map(steps).sum()
}

// The number that `number` reads from what the call gives, and how long the call takes, in nanoseconds.
fn timed<R>(call: impl FnOnce() -> R, number: impl Fn(&R) -> usize) -> (usize, u128) {
    let start = Instant::now();
    let answer = black_box(call());
    let time = start.elapsed().as_nanos();
    (number(&answer), time)
}

fn listed(call: impl FnOnce() -> PyResult<Vec<PyObjectRef>>) -> (usize, u128) {
    timed(call, |places| places.as_ref().unwrap().len())
}

fn made(call: impl FnOnce() -> PyResult<Vec<u8>>) -> (usize, u128) {
    timed(call, |bytes| bytes.as_ref().unwrap().len())
}

fn found(len: usize, call: impl FnOnce() -> PyResult<Option<usize>>) -> (usize, u128) {
    timed(call, |offset| offset.as_ref().unwrap().unwrap_or(len))
}

fn turn(row: &str, sheet: &PyBytesInner) -> (usize, u128) {
    let words: Vec<&[u8]> = row.split(' ').map(str::as_bytes).collect();
    let first = words.get(1).copied();
    let sub = || anywhere(first.unwrap());
    match (words[0], words.get(2)) {
        (b"split", None) => {
            let args = everywhere(first);
            listed(|| sheet.split(args, placed(sheet), &VM))
        }
        (b"rsplit", None) => {
            let args = everywhere(first);
            listed(|| sheet.rsplit(args, placed(sheet), &VM))
        }
        (b"splitlines", None) => timed(
            || sheet.splitlines(WITHOUT_ENDS, |line| place(sheet, line)),
            Vec::len,
        ),
        (b"find", None) => {
            let options = sub();
            found(sheet.len(), || sheet.find(options, |h, n| h.find(n), &VM))
        }
        (b"rfind", None) => {
            let options = sub();
            found(sheet.len(), || sheet.find(options, |h, n| h.rfind(n), &VM))
        }
        (b"count", None) => {
            let options = sub();
            timed(|| sheet.count(options, &VM), |n| *n.as_ref().unwrap())
        }
        (b"replace", Some(to)) => {
            let (from, to) = (owned(first.unwrap()), owned(to));
            made(|| sheet.replace(from, to, OptionalArg::Missing, &VM))
        }
        (b"translate", None) => {
            let options = ByteInnerTranslateOptions {
                table: Some(PyObjectRef::Bytes((0..=255).rev().collect())),
                delete: OptionalArg::Present(PyObjectRef::Bytes(first.unwrap_or(b"").to_vec())),
            };
            made(|| sheet.translate(options, &VM))
        }
        (b"join", Some(with)) => {
            let parts = sheet.elements.split_str(first.unwrap()).map(owned);
            let (with, parts) = (owned(with), ArgIterable(parts.collect()));
            made(|| with.join(parts, &VM))
        }
        (b"script", None) => timed(|| script(sheet, first.unwrap()), |sum| *sum),
        _ => panic!("no call: {row}"),
    }
}

fn main() {
    let words: Vec<String> = std::env::args().skip(1).collect();
    let turns: usize = words[0].parse().unwrap();
    let mut bytes = Vec::new();
    std::io::stdin().read_to_end(&mut bytes).unwrap();
    if let Some(first) = bytes.first_mut() {
        *first = b'x';
    }
    let sheet = PyBytesInner::from(bytes);
    for row in &words[1..] {
        let taken: Vec<(usize, u128)> = (0..turns).map(|_| turn(row, black_box(&sheet))).collect();
        let mut times: Vec<u128> = taken.iter().map(|(_, time)| *time).collect();
        times.sort_unstable();
        println!("{} {row}", taken[0].0);
        eprintln!("{} {} {row}", times[0], times[turns / 2]);
    }
}
