// The searches of bstr that the crate's methods call, by the meaning of marks and cuts alone. The marks of a needle are the
// stretches where it stands; an empty one stands at every offset.

// Where the mark starts that starts first at or after an offset.
fn first_mark(text: &[u8], needle: &[u8], from: usize) -> Option<usize> {
    (from..=text.len()).find(|&start| text[start..].starts_with(needle))
}

// Where the mark starts that ends last at or before an offset.
fn last_mark(text: &[u8], needle: &[u8], before: usize) -> Option<usize> {
    let end = (0..=before)
        .rev()
        .find(|&end| text[..end].ends_with(needle));
    end.map(|end| end - needle.len())
}

// The starts of the cuts from the front: of each the first mark behind the cut before, so that no two overlap.
fn cuts<'a>(text: &'a [u8], needle: &'a [u8]) -> impl Iterator<Item = usize> + 'a {
    let mut place = 0;
    std::iter::from_fn(move || {
        let start = first_mark(text, needle, place)?;
        place = start + needle.len().max(1);
        Some(start)
    })
}

// The pieces between so many cuts from the front, or all there are.
fn pieces<'a>(text: &'a [u8], needle: &[u8], bound: usize) -> Vec<&'a [u8]> {
    let mut pieces = Vec::new();
    let mut place = 0;
    for start in cuts(text, needle).take(bound) {
        pieces.push(&text[place..start]);
        place = start + needle.len();
    }
    pieces.push(&text[place..]);
    pieces
}

// The pieces between so many cuts from the end, or all there are, the last piece first.
fn back_pieces<'a>(text: &'a [u8], needle: &[u8], bound: usize) -> Vec<&'a [u8]> {
    let mut pieces = Vec::new();
    let mut place = text.len();
    while pieces.len() < bound {
        let Some(start) = last_mark(text, needle, place) else {
            break;
        };
        pieces.push(&text[start + needle.len()..place]);
        place = start;
    }
    pieces.push(&text[..place]);
    pieces
}

pub trait ByteSlice {
    fn bytes(&self) -> &[u8];

    fn find(&self, needle: &[u8]) -> Option<usize> {
        first_mark(self.bytes(), needle, 0)
    }

    fn rfind(&self, needle: &[u8]) -> Option<usize> {
        last_mark(self.bytes(), needle, self.bytes().len())
    }

    fn find_iter<'a>(&'a self, needle: &'a [u8]) -> impl Iterator<Item = usize> + 'a {
        cuts(self.bytes(), needle)
    }

    fn split_str(&self, needle: &[u8]) -> std::vec::IntoIter<&[u8]> {
        pieces(self.bytes(), needle, usize::MAX).into_iter()
    }

    // So many pieces at most are one cut fewer.
    fn splitn_str(&self, most: usize, needle: &[u8]) -> std::vec::IntoIter<&[u8]> {
        pieces(self.bytes(), needle, most - 1).into_iter()
    }

    fn rsplit_str(&self, needle: &[u8]) -> std::vec::IntoIter<&[u8]> {
        back_pieces(self.bytes(), needle, usize::MAX).into_iter()
    }

    fn rsplitn_str(&self, most: usize, needle: &[u8]) -> std::vec::IntoIter<&[u8]> {
        back_pieces(self.bytes(), needle, most - 1).into_iter()
    }

    fn find_byte(&self, byte: u8) -> Option<usize> {
        self.bytes().iter().position(|b| *b == byte)
    }

    fn find_byteset(&self, set: impl AsRef<[u8]>) -> Option<usize> {
        self.bytes().iter().position(|b| set.as_ref().contains(b))
    }

    fn rfind_byteset(&self, set: impl AsRef<[u8]>) -> Option<usize> {
        self.bytes().iter().rposition(|b| set.as_ref().contains(b))
    }

    // No method that is asked takes a text's characters.
    fn chars(&self) -> std::iter::Empty<char> {
        std::iter::empty()
    }
}

impl ByteSlice for [u8] {
    fn bytes(&self) -> &[u8] {
        self
    }
}
