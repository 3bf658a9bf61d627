//! Runs in either reading that tell how deep comments go.
use crate::raw;
use crate::record::verdict;
use crate::run::{first_room, wants_room};
use crate::{Ran, Record};
use std::fmt;

/// How many numbers such a record is to the C function, and how many its answer has.
const NUMBERS: usize = 9;
const ANSWER: usize = 6;

/// How a text is read.
#[derive(Clone, Copy, Debug, Default, PartialEq, Eq, Hash)]
pub enum Reading {
    /// LALRPOP's own, which [`run`](crate::run) has: one character is dropped after an attribute, a regex in code is closed by one hash fewer than it has, and
    /// in code no quoted literal may end the text.
    #[default]
    Old = 0,
    /// The one that keeps the letter: nothing is dropped after an attribute, a regex in code is closed by as many hashes as it has, with its error at its `r`,
    /// and in code a closed quoted literal, or a quote and one character, may end the text. All else is the old one's.
    Kept = 1,
}

/// A token, and how deep the block comments before it and in its code go: 0 without one, 1 for a plain one, 2 for one with another in it. The greatest counts.
/// Only `Use`, `EqualsGreaterThanCode` and `EqualsGreaterThanQuestionCode` have code; every other kind has 0.
#[repr(C)]
#[derive(Clone, Copy, Default, PartialEq, Eq, Hash)]
pub struct DeepRecord {
    /// The token, as [`run`](crate::run) has it.
    pub record: Record,
    /// The depth of the gap before it.
    pub gap_depth: u64,
    /// The depth of its code.
    pub code_depth: u64,
    // the C function writes two numbers more, which it does not tell yet: no value is made of them
    not_told: [u64; 2],
}

impl fmt::Debug for DeepRecord {
    fn fmt(&self, f: &mut fmt::Formatter<'_>) -> fmt::Result {
        write!(f, "{:?} depths {}, {}", self.record, self.gap_depth, self.code_depth)
    }
}

/// How a run that tells depths ended.
#[derive(Clone, Copy, Debug, PartialEq, Eq)]
pub struct DeepRan {
    /// What [`run`](crate::run) answers.
    pub ran: Ran,
    /// The depth of the gap after the last token; none where the end of the text was not reached.
    pub last_depth: Option<u64>,
}

/// Reads a text in a reading, with the refusals of [`run`](crate::run), and tells depths. In the old reading it is read as [`run`](crate::run) does.
///
/// ```
/// use teykonasir::{read, DeepRecord, Kind, Reading, Record};
/// let mut records = [DeepRecord::default(); 2];
/// let deep = read("/* /* */ */ a => f(/**/)", Reading::Old, 7, u64::MAX, &mut records);
/// assert_eq!((deep.ran.stored, deep.ran.how, deep.last_depth), (2, Ok(()), Some(0)));
/// assert_eq!(records[0].record, Record::new(Kind::Id, 19..20, 19..20));
/// assert_eq!((records[0].gap_depth, records[0].code_depth), (2, 0));
/// assert_eq!((records[1].gap_depth, records[1].code_depth), (0, 1));
///
/// // the last gap's is told at the end of the text only
/// assert_eq!(read("a /*/**/*/", Reading::Old, 0, u64::MAX, &mut records).last_depth, Some(2));
/// assert_eq!(read("a /*/**/*/ .", Reading::Old, 0, u64::MAX, &mut records).last_depth, None);
///
/// // the letter after an attribute
/// read("#![a]xb", Reading::Old, 0, u64::MAX, &mut records);
/// assert_eq!(records[1].record, Record::new(Kind::Id, 6..7, 6..7));
/// read("#![a]xb", Reading::Kept, 0, u64::MAX, &mut records);
/// assert_eq!(records[1].record, Record::new(Kind::Id, 5..7, 5..7));
/// ```
pub fn read(text: impl AsRef<[u8]>, reading: Reading, shift: u64, limit: u64, records: &mut [DeepRecord]) -> DeepRan {
    let (text, mut answer) = (text.as_ref(), [0; ANSWER]);
    // a `DeepRecord` is nine u64 and nothing else, so n of them are 9 n numbers
    let code = unsafe {
        raw::teyk_read(text.as_ptr(), text.len(), reading as u64, shift, limit, records.as_mut_ptr().cast(), NUMBERS * records.len(), answer.as_mut_ptr(), answer.len())
    };
    let ran = Ran { stored: answer[2] as usize, how: verdict(code, answer[1]), advances: answer[3] };
    DeepRan { ran, last_depth: ran.how.ok().map(|()| answer[4]) }
}

/// Reads a text as [`read`] does, into a list that grows as it is wanted; what the list holds stays before them. It is refused as in [`read`], but never with
/// `NoRoom`: where the list was too short, the text is read once more from its start.
///
/// ```
/// let mut records = vec![];
/// let deep = teykonasir::read_to_vec("a /**/ b // /*\n c", teykonasir::Reading::Old, 0, u64::MAX, &mut records);
/// assert_eq!((deep.ran.how, deep.last_depth), (Ok(()), Some(0)));
/// let gaps: Vec<u64> = records.iter().map(|r| r.gap_depth).collect();
/// assert_eq!(gaps, [0, 1, 0]);
/// ```
pub fn read_to_vec(text: impl AsRef<[u8]>, reading: Reading, shift: u64, limit: u64, records: &mut Vec<DeepRecord>) -> DeepRan {
    let (text, held) = (text.as_ref(), records.len());
    let mut room = first_room(text.len() / 8);
    loop {
        records.resize(held + room, DeepRecord::default());
        let deep = read(text, reading, shift, limit, &mut records[held..]);
        records.truncate(held + deep.ran.stored);
        if !wants_room(&deep.ran.how) {
            return deep;
        }
        room *= 4;
    }
}

#[cfg(test)]
mod tests {
    use super::*;
    use crate::{run_to_vec, Code, Kind, Refusal};

    fn depths(text: &str) -> (Vec<(u64, u64)>, Option<u64>) {
        let mut records = vec![];
        let deep = read_to_vec(text, Reading::Old, 9, u64::MAX, &mut records);
        (records.iter().map(|r| (r.gap_depth, r.code_depth)).collect(), deep.last_depth)
    }

    #[test]
    fn depths_of_gaps_and_code() {
        let comments = [("", 0), ("// /*\n", 0), ("/* */", 1), ("/*/**/*/", 2), ("/* /* */ */ /* */", 2), ("/* // /* */ */", 2), ("/**/ /*/*/**/*/*/ /**/", 3)];
        for (comment, depth) in comments {
            assert_eq!(depths(comment), (vec![], Some(depth)));
            assert_eq!(depths(&format!("{}a{}", comment, comment)), (vec![(depth, 0)], Some(depth)));
            assert_eq!(depths(&format!("{}=>{};{}$", comment, comment, comment)), (vec![(depth, depth), (0, 0)], None));
            assert_eq!(depths(&format!("use{}", comment)), (vec![(0, depth)], Some(0)));
        }
        assert_eq!(depths("\"/*\" `/*` #![/*] => \"/*\" '/' r#\"/*\";"), (vec![(0, 0); 5], Some(0)));
    }

    #[test]
    fn what_is_beyond_the_count_stays() {
        let other = DeepRecord { record: Record::new(Kind::Bang, 1..2, 3..4), gap_depth: 5, code_depth: 6, not_told: [7, 8] };
        let mut records = [other; 3];
        let deep = read("a/**/b c", Reading::Old, 0, u64::MAX, &mut records[..2]);
        assert_eq!((deep.ran.stored, deep.last_depth), (2, None));
        assert_eq!(deep.ran.how, Err(Refusal { code: Code::NoRoom, place: 7 }));
        assert_eq!((records[1].gap_depth, records[1].not_told, records[2]), (1, [u64::MAX; 2], other));
        let ran = read(b"a\xFF", Reading::Old, 0, u64::MAX, &mut records[2..]).ran;
        assert_eq!((ran.stored, ran.how, records[2]), (0, Err(Refusal { code: Code::NotUtf8, place: 1 }), other));
    }

    /// A list that holds something, is too short at first, and then a text that is refused.
    #[test]
    fn a_list_grows() {
        let (text, mut five, mut nine) = ("/**/;".repeat(500), vec![], vec![DeepRecord::default()]);
        let (ran, deep) = (run_to_vec(&text, 3, u64::MAX, &mut five), read_to_vec(&text, Reading::Old, 3, u64::MAX, &mut nine));
        assert_eq!((deep.ran, deep.last_depth, ran.stored, nine.len()), (ran, Some(0), 500, 501));
        assert!(nine[1..].iter().zip(&five).all(|(n, f)| n.record == *f && n.gap_depth == 1));
        let deep = read_to_vec("a .", Reading::Old, 0, u64::MAX, &mut nine);
        assert_eq!((deep.ran.stored, deep.last_depth, nine.len()), (1, None, 502));
    }

    /// The three places where the readings differ, and texts where they do not.
    #[test]
    fn the_readings() {
        fn both(text: &str) -> [(Vec<(Kind, u64, u64)>, Result<(), Refusal>, u64); 2] {
            [Reading::Old, Reading::Kept].map(|reading| {
                let mut records = vec![];
                let ran = read_to_vec(text, reading, 0, u64::MAX, &mut records).ran;
                (records.iter().map(|r| (r.record.kind(), r.record.start, r.record.end)).collect(), ran.how, ran.advances)
            })
        }
        let refused = |code, place, advances| (vec![], Err(Refusal { code, place }), advances);
        let code = |end, advances| (vec![(Kind::EqualsGreaterThanCode, 0, end)], Ok(()), advances);
        let attribute = (Kind::ShebangAttribute, 0, 5);
        assert_eq!(both("#![a]]"), [(vec![attribute], Ok(()), 6), (vec![attribute, (Kind::RightBracket, 5, 6)], Ok(()), 6)]);
        assert_eq!(both("=>r#\"a\"b\"#"), [refused(Code::UnterminatedStringLiteral, 8, 10), code(10, 10)]);
        assert_eq!(both("=>r#\"a\""), [code(7, 7), refused(Code::UnterminatedStringLiteral, 2, 7)]);
        assert_eq!(both("=>r#"), [refused(Code::UnterminatedStringLiteral, 3, 4), refused(Code::UnterminatedStringLiteral, 2, 4)]);
        for (text, end) in [("=>'a'", 5), ("=>''", 4), ("=>\u{27}\u{27}\u{27}", 5), ("=>'a", 4), ("=>'\\n'", 6)] {
            assert_eq!(both(text), [refused(Code::UnterminatedCharacterLiteral, 2, end), code(end, end)]);
        }
        assert_eq!(both("=>('a"), [refused(Code::UnterminatedCharacterLiteral, 3, 5), refused(Code::UnterminatedCode, 0, 5)]);
        for text in ["=>'", "=>'\\", "=>'\\'", "=>r#1", "=>'a';", "#![a]", "r#\"a\"b\"#", "'a'", "a => b"] {
            let [old, kept] = both(text);
            assert_eq!(old, kept);
        }
    }
}
