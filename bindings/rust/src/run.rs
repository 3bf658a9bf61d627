//! Runs.
use crate::raw;
use crate::record::verdict;
use crate::{Code, Ran, Record, Refusal, State};

/// How many numbers a record is to the C functions.
pub(crate) const NUMBERS: usize = 5;

/// Reads a text to its end or to the first refusal, into a lent slice.
///
/// Places are bytes plus `shift`; `limit` bounds the advances. The records before a refusal stand; those beyond `stored` are as they were. The
/// refusals, by their order: `TooLong`, `ShiftTooLarge` (place 0), `NotUtf8` (the first byte of the first ill-formed sequence), then LALRPOP's own, with
/// `HalfSymbol` or `StrayCharacter` for its `UnrecognizedToken`; `NoRoom` names the start of a token that had no room, and `WorkLimit` the place where
/// a call would begin that goes above the limit.
/// A text of n bytes has at most n tokens ([`most_records`]).
///
/// ```
/// use teykonasir::{run, Code, Kind, Ran, Record, Refusal};
/// let mut records = [Record::default(); 2];
/// let ran = run("a \"x\"", 7, u64::MAX, &mut records);
/// assert_eq!(ran, Ran { stored: 2, how: Ok(()), advances: 5 });
/// assert_eq!(records[1], Record::new(Kind::StringLiteral, 9..12, 10..11));
///
/// let ran = run("a b c", 0, u64::MAX, &mut records);
/// assert_eq!(ran.how, Err(Refusal { code: Code::NoRoom, place: 4 }));
/// assert_eq!(run(b"a \xff", 0, u64::MAX, &mut records).how, Err(Refusal { code: Code::NotUtf8, place: 2 }));
/// ```
pub fn run(text: impl AsRef<[u8]>, shift: u64, limit: u64, records: &mut [Record]) -> Ran {
    let (text, mut answer) = (text.as_ref(), [0; 4]);
    // a `Record` is five u64 and nothing else, so n of them are 5 n numbers
    let code = unsafe {
        raw::teyk_run(text.as_ptr(), text.len(), shift, limit, records.as_mut_ptr().cast(), NUMBERS * records.len(), answer.as_mut_ptr(), answer.len())
    };
    ran(code, answer)
}

/// Reads on from where `state` stands, as [`run`] does, and leaves it there where it stopped.
///
/// With `NoRoom` and `WorkLimit` nothing is lost: the next call, with more room or a higher limit, goes on. Once the end or one of LALRPOP's errors
/// was answered, further calls repeat it. `BadRecord`, place 0, nothing changed: `state` is none of this text. Every call checks the whole text's
/// UTF-8 first, so ask for more and more.
///
/// ```
/// use teykonasir::{resume, Code, Kind, Ran, Record, Refusal, State};
/// let (mut state, mut one) = (State::default(), [Record::default(); 1]);
/// let ran = resume("ab cd", 0, u64::MAX, &mut state, &mut one);
/// assert_eq!(ran, Ran { stored: 1, how: Err(Refusal { code: Code::NoRoom, place: 3 }), advances: 2 });
/// assert_eq!((one[0].kind(), one[0].end, state.cursor, state.is_over()), (Kind::Id, 2, 2, false));
///
/// let ran = resume("ab cd", 0, u64::MAX, &mut state, &mut one);
/// assert_eq!(ran, Ran { stored: 1, how: Ok(()), advances: 5 });
/// assert_eq!((one[0].start, state.cursor, state.is_over()), (3, 5, true));
/// ```
pub fn resume(text: impl AsRef<[u8]>, shift: u64, limit: u64, state: &mut State, records: &mut [Record]) -> Ran {
    let (text, mut answer) = (text.as_ref(), [0; 4]);
    let state: *mut State = state;
    // a `State` is four u64 and nothing else
    let code = unsafe {
        raw::teyk_resume(
            text.as_ptr(),
            text.len(),
            shift,
            limit,
            state.cast(),
            4,
            records.as_mut_ptr().cast(),
            NUMBERS * records.len(),
            answer.as_mut_ptr(),
            answer.len(),
        )
    };
    ran(code, answer)
}

fn ran(code: u64, answer: [u64; 4]) -> Ran {
    Ran { stored: answer[2] as usize, how: verdict(code, answer[1]), advances: answer[3] }
}

/// Reads a text to its end or to the first refusal, into a list that grows as it is wanted; what the list holds stays before them. It is refused as in
/// [`run`], but never with `NoRoom`.
///
/// ```
/// use teykonasir::{run_to_vec, Code, Kind, Refusal};
/// let mut records = vec![];
/// assert_eq!(run_to_vec("pub A = <B>;", 0, u64::MAX, &mut records).how, Ok(()));
/// let kinds: Vec<Kind> = records.iter().map(|r| r.kind()).collect();
/// use Kind::*;
/// assert_eq!(kinds, [Pub, Id, Equals, LessThan, Id, GreaterThan, Semi]);
///
/// let ran = run_to_vec("a /* b", 0, u64::MAX, &mut records);
/// assert_eq!((ran.stored, records.len()), (1, 8));
/// assert_eq!(ran.how, Err(Refusal { code: Code::UnterminatedBlockComment, place: 2 }));
/// ```
pub fn run_to_vec(text: impl AsRef<[u8]>, shift: u64, limit: u64, records: &mut Vec<Record>) -> Ran {
    let (text, mut state, held) = (text.as_ref(), State::default(), records.len());
    // a token of a grammar takes some eight bytes with its gap
    let mut room = first_room(text.len() / 8);
    loop {
        let from = records.len();
        records.resize(from + room, Record::default());
        let ran = resume(text, shift, limit, &mut state, &mut records[from..]);
        records.truncate(from + ran.stored);
        if !wants_room(&ran.how) {
            return Ran { stored: records.len() - held, ..ran };
        }
        room *= 2;
    }
}

pub(crate) fn first_room(wanted: usize) -> usize {
    wanted.max(16)
}

pub(crate) fn wants_room(how: &Result<(), Refusal>) -> bool {
    matches!(how, Err(Refusal { code: Code::NoRoom, .. }))
}

/// The longest text that is read: 2^31 - 1 bytes.
pub const MOST_BYTES: usize = 2147483647;

/// A text of so many bytes has at most so many tokens: each takes a byte.
pub const fn most_records(bytes: usize) -> usize {
    bytes
}

/// A run of a text of so many bytes, at most [`MOST_BYTES`], takes at most so many advances. It is what the proved bound gives if every third byte starts
/// an attribute: with N characters, H signs `#` and B of them in `#![`, a run takes at most N + 2 (H - B) + B N.
///
/// ```
/// let hostile = "#![".repeat(40);
/// let ran = teykonasir::run_to_vec(&hostile, 0, u64::MAX, &mut vec![]);
/// assert_eq!(ran.advances, 2540);
/// assert!(ran.advances <= teykonasir::most_advances(hostile.len()));
/// ```
pub const fn most_advances(bytes: usize) -> u64 {
    let n = bytes as u64;
    n.saturating_mul(3).saturating_add((n / 3).saturating_mul(n))
}

#[cfg(test)]
mod tests {
    use super::*;

    #[test]
    fn a_state_of_no_run_is_refused_and_kept() {
        let text = "é a";
        let none = [(1, 0), (5, 0), (u64::MAX, 0), (0, 30), (0, 31), (0, 33)].map(|(cursor, done)| State { cursor, advances: 7, done, place: 8 });
        for state in none {
            let (mut kept, mut records) = (state, [Record::new(crate::Kind::Bang, 1..2, 3..4); 2]);
            let ran = resume(text, 0, u64::MAX, &mut kept, &mut records);
            assert_eq!((ran.stored, ran.how), (0, Err(Refusal { code: Code::BadRecord, place: 0 })));
            assert_eq!((kept, records), (state, [Record::new(crate::Kind::Bang, 1..2, 3..4); 2]));
        }
    }

    #[test]
    fn too_long_a_shift() {
        let mut records = vec![];
        assert_eq!(run_to_vec("ab", u64::MAX - 2, u64::MAX, &mut records).how, Ok(()));
        assert_eq!((records[0].start, records[0].end), (u64::MAX - 2, u64::MAX));
        assert_eq!(run_to_vec("ab", u64::MAX - 1, u64::MAX, &mut records).how, Err(Refusal { code: Code::ShiftTooLarge, place: 0 }));
    }
}
