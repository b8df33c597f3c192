// Answers lines of replay that ask a method of a text of bytes; `-` for any other line.
use std::io::{BufRead, Write};

fn bytes(word: &str) -> Vec<u8> {
    (1..word.len())
        .step_by(2)
        .map(|i| u8::from_str_radix(&word[i..i + 2], 16).unwrap())
        .collect()
}

fn some<T>(word: &str, read: impl Fn(&str) -> T) -> Option<T> {
    (word != "-").then(|| read(word))
}

fn number(word: &str) -> i64 {
    word.parse().unwrap()
}

fn index(word: &str) -> PyIntRef {
    PyIntRef(BigInt(number(word)))
}

fn object(word: &str) -> PyObjectRef {
    PyObjectRef::Bytes(bytes(word))
}

fn optional<T>(value: Option<T>) -> OptionalArg<T> {
    value.map_or(OptionalArg::Missing, OptionalArg::Present)
}

fn refused(error: PyError, value_error: &str) -> String {
    let code = if error == PyError::Overflow {
        "5"
    } else {
        value_error
    };
    format!("refused {code} 0")
}

// The crate's results have all the room that there is; a case may lend less.
fn roomed(size: usize, room: &str, answer: String) -> String {
    if size > room.parse().unwrap() {
        format!("refused 7 {size}")
    } else {
        answer
    }
}

fn held(result: PyResult<Vec<u8>>, room: &str, value_error: &str) -> String {
    match result {
        Ok(made) => {
            let hex: String = made.iter().map(|b| format!("{b:02x}")).collect();
            roomed(made.len(), room, format!("bytes x{hex}"))
        }
        Err(error) => refused(error, value_error),
    }
}

fn listed(result: PyResult<Vec<(usize, usize)>>, room: &str) -> String {
    match result {
        Ok(places) => {
            let each: String = places
                .iter()
                .map(|(start, end)| format!(" {start}-{end}"))
                .collect();
            roomed(places.len(), room, format!("places {}{each}", places.len()))
        }
        Err(error) => refused(error, "1"),
    }
}

// Where a part stands that was lent from the text.
fn place(text: &PyBytesInner, part: &[u8]) -> (usize, usize) {
    let start = part.as_ptr() as usize - text.elements.as_ptr() as usize;
    (start, start + part.len())
}

// Where pieces stand that have a gap between each and the next: an empty piece is not always lent from the text.
fn laid(text: &PyBytesInner, pieces: Vec<PyObjectRef>, gap: usize) -> Vec<(usize, usize)> {
    let mut start = 0;
    let mut places = Vec::new();
    for piece in pieces.into_iter().map(PyObjectRef::into_bytes) {
        let end = start + piece.len();
        assert_eq!(text.elements[start..end], piece[..]);
        places.push((start, end));
        start = end + gap;
    }
    places
}

fn split(words: &[&str]) -> String {
    let text = PyBytesInner::from(bytes(words[2]));
    let sep = some(words[3], |word| PyBytesInner::from(bytes(word)));
    let gap = sep.as_ref().map(|sep| sep.len());
    let options = SplitArgs {
        sep,
        maxsplit: number(words[4]) as isize,
    };
    let runs = std::cell::RefCell::new(Vec::new());
    let convert = |part: &[u8], _: &VirtualMachine| {
        if gap.is_none() {
            runs.borrow_mut().push(place(&text, part));
        }
        PyObjectRef::Bytes(part.to_vec())
    };
    let back = words[0] == "rsplit";
    let pieces = if back {
        text.rsplit(options, convert, &VirtualMachine)
    } else {
        text.split(options, convert, &VirtualMachine)
    };
    let mut runs = runs.into_inner();
    if back {
        runs.reverse();
    }
    let places = pieces.map(|pieces| match gap {
        Some(gap) => laid(&text, pieces, gap),
        None => runs,
    });
    listed(places, words[5])
}

fn splitlines(words: &[&str]) -> String {
    let text = PyBytesInner::from(bytes(words[2]));
    let options = SplitLinesArgs {
        keepends: words[3] == "1",
    };
    listed(
        Ok(text.splitlines(options, |part: &[u8]| place(&text, part))),
        words[4],
    )
}

fn sought(words: &[&str]) -> String {
    let text = PyBytesInner::from(bytes(words[1]));
    let sub = match words[2] {
        hex if hex.starts_with('x') => Either::A(PyBytesInner::from(bytes(hex))),
        byte => Either::B(index(byte)),
    };
    let options = ByteInnerFindOptions {
        sub,
        start: some(words[3], index),
        end: some(words[4], index),
    };
    let vm = &VirtualMachine;
    let found = match words[0] {
        "find" => text.find(options, |h, n| h.find(n), vm),
        "rfind" => text.find(options, |h, n| h.rfind(n), vm),
        _ => text.count(options, vm).map(Some),
    };
    match (words[0], found) {
        (_, Err(error)) => refused(error, "2"),
        ("count", Ok(Some(n))) => format!("count {n}"),
        (_, Ok(Some(offset))) => format!("found {offset}"),
        (_, Ok(None)) => "none".to_owned(),
    }
}

// The parts at the places, if all can be cut out: the crate is passed the parts themselves.
fn parts(text: &[u8], places: &str) -> Option<Vec<PyBytesInner>> {
    let places = places.split(',').filter(|place| *place != ".");
    places
        .map(|place| {
            let (start, end) = place.split_once('-')?;
            Some(
                text.get(start.parse().ok()?..end.parse().ok()?)?
                    .to_vec()
                    .into(),
            )
        })
        .collect()
}

fn join(words: &[&str]) -> String {
    let sep = PyBytesInner::from(bytes(words[2]));
    match parts(&bytes(words[3]), words[4]) {
        Some(parts) => held(sep.join(ArgIterable(parts), &VirtualMachine), words[5], ""),
        None => "-".to_owned(),
    }
}

fn translate(words: &[&str]) -> String {
    let text = PyBytesInner::from(bytes(words[1]));
    let options = ByteInnerTranslateOptions {
        table: some(words[2], object),
        delete: optional(some(words[3], object)),
    };
    held(text.translate(options, &VirtualMachine), words[4], "4")
}

fn maketrans(words: &[&str]) -> String {
    let table = PyBytesInner::maketrans(
        bytes(words[1]).into(),
        bytes(words[2]).into(),
        &VirtualMachine,
    );
    held(table, words[3], "3")
}

fn replace(words: &[&str]) -> String {
    let text = PyBytesInner::from(bytes(words[2]));
    let maxcount = optional(some(words[5], |word| number(word) as isize));
    let result = text.replace(
        bytes(words[3]).into(),
        bytes(words[4]).into(),
        maxcount,
        &VirtualMachine,
    );
    held(result, words[6], "")
}

fn answer(line: &str) -> String {
    let words: Vec<&str> = line.split(' ').collect();
    match (words[0], words.get(1)) {
        ("split" | "rsplit", Some(&"bytes")) => split(&words),
        ("splitlines", Some(&"bytes")) => splitlines(&words),
        ("find" | "rfind" | "count", _) => sought(&words),
        ("join", Some(&"bytes")) => join(&words),
        ("translate", _) => translate(&words),
        ("maketrans", _) => maketrans(&words),
        ("replace", Some(&"bytes")) => replace(&words),
        _ => "-".to_owned(),
    }
}

fn main() {
    let mut out = std::io::BufWriter::new(std::io::stdout());
    for line in std::io::stdin().lock().lines() {
        writeln!(out, "{}", answer(&line.unwrap())).unwrap();
    }
}
