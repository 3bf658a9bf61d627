//! A sheet of totals over many texts.
use crate::raw;
use crate::record::verdict;
use crate::{Code, Kind, Refusal};
use std::fmt;

/// How many numbers a sheet has.
pub const SHEET_NUMBERS: usize = 96;

/// A sheet is full with so many texts.
pub const SHEET_TEXTS: u64 = 1024;

const IN_TOKENS: usize = 54;
const IN_WHITESPACE: usize = 55;
const IN_COMMENTS: usize = 56;
const DROPPED: usize = 57;
const ADVANCES: usize = 58;
const FAILED: usize = 59;
const TAKEN: usize = 60;
const DEEPEST: usize = 61;
const TALLY: usize = 64;

/// What became of a text that a [`Sheet`] was handed.
#[derive(Clone, Copy, Debug, PartialEq, Eq, Hash)]
pub enum Taken {
    /// It was read to its end, and its totals were added.
    Whole,
    /// It ended in this error, which was tallied; nothing else of it was added.
    Tallied(Refusal),
    /// It was refused: the sheet stays as it was.
    Refused(Refusal),
}

/// A sheet of totals, which takes texts one after another: what many grammars hold. A new one is empty.
///
/// ```
/// use teykonasir::{Code, Kind, Refusal, Sheet, Taken};
/// let mut sheet = Sheet::new();
/// assert_eq!(sheet.take("#![a] \u{e9} /* x */ #"), Taken::Whole);
/// assert_eq!((sheet.tokens(Kind::ShebangAttribute), sheet.tokens(Kind::Id), sheet.tokens(Kind::Hash)), (1, 1, 1));
/// assert_eq!((sheet.in_tokens(), sheet.in_whitespace(), sheet.in_comments(), sheet.dropped()), (7, 2, 7, 1));
/// assert_eq!((sheet.failed(), sheet.deepest()), (1, 1));
/// // an error is tallied, and nothing else of its text is added
/// let error = Refusal { code: Code::UnterminatedBlockComment, place: 2 };
/// assert_eq!(sheet.take("b /*"), Taken::Tallied(error));
/// assert_eq!((sheet.texts(), sheet.tally(error.code), sheet.tokens(Kind::Id)), (2, 1, 1));
/// // a text that is refused is not counted
/// assert_eq!(sheet.take(b"b\xFF"), Taken::Refused(Refusal { code: Code::NotUtf8, place: 1 }));
/// assert_eq!(sheet.texts(), 2);
/// ```
#[derive(Clone, PartialEq, Eq, Hash)]
pub struct Sheet {
    numbers: [u64; SHEET_NUMBERS],
}

impl Sheet {
    /// An empty sheet.
    pub const fn new() -> Sheet {
        Sheet { numbers: [0; SHEET_NUMBERS] }
    }

    /// The sheet of these numbers, as [`numbers`](Sheet::numbers) tells them. All are allowed; some are no sheet's, and then every text is refused.
    pub const fn of(numbers: [u64; SHEET_NUMBERS]) -> Sheet {
        Sheet { numbers }
    }

    /// Takes a text: it is read with shift 0 and a work limit of 2^50, and needs no room for its tokens.
    ///
    /// Refused are, in this order: `TooLong` (place 0), `NotUtf8` (the first byte of the first ill-formed sequence), `SheetFull` (a 1,025th text; place 0),
    /// `BadRecord` (a number above 2^50 for each text taken, which no sheet that was new ever has; place 0).
    pub fn take(&mut self, text: impl AsRef<[u8]>) -> Taken {
        let (text, mut answer, before) = (text.as_ref(), [0; 2], self.texts());
        let numbers = &mut self.numbers;
        let code = unsafe { raw::teyk_sheet_take(text.as_ptr(), text.len(), numbers.as_mut_ptr(), numbers.len(), answer.as_mut_ptr(), answer.len()) };
        match verdict(code, answer[1]) {
            Ok(()) => Taken::Whole,
            // a text that was taken is counted
            Err(error) if self.texts() != before => Taken::Tallied(error),
            Err(refusal) => Taken::Refused(refusal),
        }
    }

    /// The tokens of a kind.
    pub const fn tokens(&self, kind: Kind) -> u64 {
        self.numbers[kind.number() as usize]
    }

    /// The characters in tokens. With those in whitespace, in comments and dropped they are all characters of the texts that were read to their end.
    pub const fn in_tokens(&self) -> u64 {
        self.numbers[IN_TOKENS]
    }

    /// The characters in whitespace.
    pub const fn in_whitespace(&self) -> u64 {
        self.numbers[IN_WHITESPACE]
    }

    /// The characters in comments.
    pub const fn in_comments(&self) -> u64 {
        self.numbers[IN_COMMENTS]
    }

    /// The characters dropped after attributes.
    pub const fn dropped(&self) -> u64 {
        self.numbers[DROPPED]
    }

    /// The advances: those characters, and what failed attempts cost.
    pub const fn advances(&self) -> u64 {
        self.numbers[ADVANCES]
    }

    /// The failed attribute attempts.
    pub const fn failed(&self) -> u64 {
        self.numbers[FAILED]
    }

    /// The texts taken, those that ended in an error counted.
    pub const fn texts(&self) -> u64 {
        self.numbers[TAKEN]
    }

    /// The greatest depth of block comments, before, after and in the code of tokens, as [`read`](crate::read) tells them: the largest of all texts that were
    /// read to their end, and no sum. A plain comment has 1.
    ///
    /// ```
    /// let mut sheet = teykonasir::Sheet::new();
    /// for (text, deepest) in [("// /*", 0), ("a /* /* */ */", 2), ("=> /**/;", 2), ("=> /*/*/**/*/*/;", 3), ("/*/*/*/* */*/*/*/ .", 3)] {
    ///     sheet.take(text);
    ///     assert_eq!(sheet.deepest(), deepest);
    /// }
    /// ```
    pub const fn deepest(&self) -> u64 {
        self.numbers[DEEPEST]
    }

    /// The texts that ended in an error of this code.
    pub const fn tally(&self, code: Code) -> u64 {
        self.numbers[TALLY + code.number() as usize]
    }

    /// All its numbers, as include/teykonasir.h lays them out.
    pub const fn numbers(&self) -> &[u64; SHEET_NUMBERS] {
        &self.numbers
    }
}

impl Default for Sheet {
    fn default() -> Sheet {
        Sheet::new()
    }
}

impl fmt::Debug for Sheet {
    fn fmt(&self, f: &mut fmt::Formatter<'_>) -> fmt::Result {
        f.debug_tuple("Sheet").field(&&self.numbers[..]).finish()
    }
}

#[cfg(test)]
mod tests {
    use super::*;
    use crate::run_to_vec;

    const REFUSED: fn(Code, u64) -> Taken = |code, place| Taken::Refused(Refusal { code, place });

    #[test]
    fn a_sheet_is_full_with_1024_texts() {
        let mut sheet = Sheet::default();
        for i in 0..SHEET_TEXTS {
            assert_eq!(sheet.take(if i % 2 == 0 { "a " } else { "." }) == Taken::Whole, i % 2 == 0);
        }
        let full = sheet.clone();
        assert_eq!((sheet.take("a "), sheet.take("a\u{e9}")), (REFUSED(Code::SheetFull, 0), REFUSED(Code::SheetFull, 0)));
        assert_eq!(sheet, full);
        assert_eq!((full.texts(), full.tokens(Kind::Id), full.in_tokens(), full.in_whitespace(), full.advances()), (1024, 512, 512, 512, 1024));
        assert_eq!((full.tally(Code::HalfSymbol), full.numbers().iter().sum::<u64>()), (512, 1024 + 512 * 6));
    }

    #[test]
    fn numbers_that_are_no_sheet_are_refused_and_kept() {
        for (i, n, texts) in [(0, 1, 0), (95, 1, 0), (62, (3 << 50) + 1, 3), (54, u64::MAX, 1023)] {
            let mut numbers = [0; SHEET_NUMBERS];
            numbers[TAKEN] = texts;
            numbers[i] = n;
            let mut sheet = Sheet::of(numbers);
            assert_eq!((sheet.take(""), sheet.take("a\n")), (REFUSED(Code::BadRecord, 0), REFUSED(Code::BadRecord, 0)));
            assert_eq!(sheet.take(b"a\xFF"), REFUSED(Code::NotUtf8, 1));
            assert_eq!(sheet.numbers(), &numbers);
        }
        let mut numbers = [0; SHEET_NUMBERS];
        numbers[TAKEN] = 3;
        numbers[62] = 3 << 50;
        let mut sheet = Sheet::of(numbers);
        assert_eq!((sheet.take(""), sheet.texts()), (Taken::Whole, 4));
    }

    /// The tokens are those of a run, and the characters are those of the text.
    #[test]
    fn a_sheet_tells_what_a_run_does() {
        let (mut sheet, mut records) = (Sheet::new(), vec![]);
        let text = "// \u{e9}\n#![a]\u{3000}use a::{b}; #\nA: B = \"x\" /* /* */ \u{e9} */ => f(<>),";
        let ran = run_to_vec(text, 0, u64::MAX, &mut records);
        assert_eq!((ran.how, sheet.take(text)), (Ok(()), Taken::Whole));
        for kind in Kind::ALL {
            assert_eq!(sheet.tokens(*kind), records.iter().filter(|r| r.kind() == *kind).count() as u64);
        }
        assert_eq!(sheet.in_tokens() + sheet.in_whitespace() + sheet.in_comments() + sheet.dropped(), text.chars().count() as u64);
        assert_eq!((sheet.advances(), sheet.dropped(), sheet.failed(), sheet.in_comments()), (ran.advances, 1, 1, 4 + 13));
        assert_eq!(sheet.deepest(), 2);
    }
}
