//! ASCII STL, read as it streams by. Not proved: the planner's own reader is of binary files.
//!
//! Such a file carries no count. What tells a copy that broke off is its grammar: a facet that is not whole, or no `endsolid`.

/// What one facet holds, word by word; `#` is a number of the normal, `*` one of a corner.
const FACET: [&str; 21] = [
    "facet", "normal", "#", "#", "#", "outer", "loop", "vertex", "*", "*", "*", "vertex", "*", "*", "*", "vertex", "*", "*", "*",
    "endloop", "endfacet",
];

/// No word that is read is longer than this.
const LONGEST: usize = 1024;

#[derive(Clone, Copy, PartialEq)]
enum Place {
    Outside,
    Solid,
    Facet(usize),
}

/// Why an ASCII file is not whole.
#[derive(Clone, Debug, PartialEq)]
pub enum Broken {
    /// It ends without `endsolid`.
    NoEnd,
    /// In this line something else stands than a facet has there.
    Facet { line: u64 },
    /// Behind the last `endsolid`, in this line, stands something else than another solid.
    Surplus { line: u64 },
}

/// The reader's state, fed chunk by chunk.
pub struct Ascii {
    place: Place,
    word: Vec<u8>,
    skip_line: bool,
    line: u64,
    solids: u64,
    corners: Vec<f64>,
    most: usize,
    /// Whole triangles so far.
    pub triangles: u64,
    /// The numbers of the first triangles, nine each, as many as may be kept.
    pub numbers: Vec<f64>,
    /// The first number that is not finite: the triangle, which of its nine.
    pub not_finite: Option<(u64, u32)>,
    pub broken: Option<Broken>,
}

impl Ascii {
    pub fn new(most: usize) -> Ascii {
        Ascii {
            place: Place::Outside,
            word: Vec::new(),
            skip_line: false,
            line: 1,
            solids: 0,
            corners: Vec::with_capacity(9),
            most,
            triangles: 0,
            numbers: Vec::new(),
            not_finite: None,
            broken: None,
        }
    }

    /// Whether a file that begins so is an ASCII one: it says `solid`, and its first bytes are text. The length has been asked before.
    pub fn begins(head: &[u8]) -> bool {
        let head = &head[..head.len().min(1024)];
        let start = head.iter().position(|b| !b.is_ascii_whitespace()).unwrap_or(head.len());
        head[start..].len() >= 5
            && head[start..start + 5].eq_ignore_ascii_case(b"solid")
            && head.iter().all(|b| *b >= 32 || b.is_ascii_whitespace())
    }

    pub fn feed(&mut self, bytes: &[u8]) {
        let mut rest = bytes;
        while self.broken.is_none() && !rest.is_empty() {
            let end = match self.skip_line {
                true => rest.iter().position(|byte| *byte == b'\n'),
                false => rest.iter().position(u8::is_ascii_whitespace),
            };
            let word = &rest[..end.unwrap_or(rest.len())];
            let last = end.is_some_and(|end| rest[end] == b'\n');
            match (self.skip_line, end) {
                (true, None) => return,
                (true, _) => self.skip_line = false,
                (false, None) => return self.kept(word),
                (false, _) if self.word.is_empty() && word.is_empty() => {}
                (false, _) if self.word.is_empty() => self.take(word, last),
                // its beginning stood in the chunk before
                (false, _) => {
                    self.kept(word);
                    let word = std::mem::take(&mut self.word);
                    self.take(&word, last);
                }
            }
            self.line += u64::from(last);
            rest = &rest[word.len() + 1..];
        }
    }

    /// Keeps the beginning of a word until its end comes. A word without end is none.
    fn kept(&mut self, word: &[u8]) {
        self.word.extend_from_slice(&word[..word.len().min(LONGEST)]);
        if self.word.len() > LONGEST {
            self.broken = Some(Broken::Facet { line: self.line });
        }
    }

    /// The end of the file.
    pub fn finish(&mut self) {
        if !self.word.is_empty() && self.broken.is_none() {
            let word = std::mem::take(&mut self.word);
            self.take(&word, true);
        }
        if self.broken.is_none() && (self.place != Place::Outside || self.solids == 0) {
            self.broken = Some(Broken::NoEnd);
        }
        // what is wrong outside a solid stands behind one
        if let (Some(Broken::Facet { line }), Place::Outside) = (&self.broken, self.place) {
            self.broken = Some(Broken::Surplus { line: *line });
        }
    }

    /// Takes a word that has come to its end; `last` if its line has too.
    fn take(&mut self, word: &[u8], last: bool) {
        let is = |name: &str| word.eq_ignore_ascii_case(name.as_bytes());
        let place = self.place;
        match place {
            Place::Outside if is("solid") => {
                self.solids += 1;
                (self.place, self.skip_line) = (Place::Solid, !last);
            }
            Place::Solid if is("endsolid") => (self.place, self.skip_line) = (Place::Outside, !last),
            Place::Solid if is("facet") => self.place = Place::Facet(1),
            Place::Facet(step) if self.fits(FACET[step], word) => {
                if step + 1 == FACET.len() {
                    self.triangle();
                } else {
                    self.place = Place::Facet(step + 1);
                }
            }
            _ => self.broken = Some(Broken::Facet { line: self.line }),
        }
    }

    fn fits(&mut self, wanted: &str, word: &[u8]) -> bool {
        if wanted != "#" && wanted != "*" {
            return word.eq_ignore_ascii_case(wanted.as_bytes());
        }
        let Some(number) = std::str::from_utf8(word).ok().and_then(|word| word.parse::<f64>().ok()) else {
            return false;
        };
        if wanted == "*" {
            self.corners.push(number);
        }
        true
    }

    fn triangle(&mut self) {
        if let (None, Some(bad)) = (self.not_finite, self.corners.iter().position(|x| !x.is_finite())) {
            self.not_finite = Some((self.triangles, bad as u32));
        }
        if self.numbers.len() / 9 < self.most {
            self.numbers.extend_from_slice(&self.corners);
        }
        self.corners.clear();
        self.triangles += 1;
        self.place = Place::Solid;
    }
}

#[cfg(test)]
mod tests {
    use super::*;

    const ONE: &str = "facet normal 0 0 1\nouter loop\nvertex 0 0 2\nvertex 4 0 2\nvertex 0 4 2e0\nendloop\nendfacet\n";

    fn read(text: &str, chunk: usize) -> (u64, Option<Broken>, Vec<f64>) {
        let mut ascii = Ascii::new(100);
        text.as_bytes().chunks(chunk).for_each(|part| ascii.feed(part));
        ascii.finish();
        (ascii.triangles, ascii.broken, ascii.numbers)
    }

    #[test]
    fn whole_in_any_chunks() {
        let text = format!("solid a facet of a name\n{ONE}  {ONE}endsolid a facet of a name\nsolid\n{ONE}endsolid");
        for chunk in 1..40 {
            let (triangles, broken, numbers) = read(&text, chunk);
            assert_eq!((triangles, broken), (3, None));
            assert_eq!(&numbers[..9], &[0., 0., 2., 4., 0., 2., 0., 4., 2.]);
        }
    }

    #[test]
    fn every_cut_is_told() {
        let text = format!("solid a\n{ONE}{ONE}endsolid");
        for length in 0..text.len() {
            let (triangles, broken, _) = read(&text[..length], 7);
            assert!(broken.is_some(), "{length}");
            assert_eq!(triangles, text[..length].matches("endfacet").count() as u64);
        }
    }

    #[test]
    fn surplus_and_broken_lines() {
        let more = format!("solid a\n{ONE}endsolid a\nmore");
        assert_eq!(read(&more, 3).1, Some(Broken::Surplus { line: 10 }));
        let endless = format!("solid a\n{ONE}{}", "x".repeat(5000));
        assert_eq!([1, 7, 6000].map(|chunk| read(&endless, chunk).1), [(); 3].map(|()| Some(Broken::Facet { line: 9 })));
        let bent = format!("solid a\n{ONE}facet normal 0 0 up\n");
        assert_eq!(read(&bent, 3).1, Some(Broken::Facet { line: 9 }));
    }
}
