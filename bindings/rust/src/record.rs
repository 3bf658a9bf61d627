//! What goes in and out of a run: records, the tokenizer's state, how a run ended.
use crate::{Code, Kind};
use std::error;
use std::fmt;
use std::ops::Range;

/// A token: its kind, its span and the span of its payload, in bytes, with the shift of its run. A kind without a payload has it empty, at the start.
///
/// ```
/// use teykonasir::{Kind, Record};
/// let record = Record::new(Kind::StringLiteral, 9..12, 10..11);
/// assert_eq!((record.kind(), record.start, record.end), (Kind::StringLiteral, 9, 12));
/// // a text that was read with shift 7
/// assert_eq!(record.spelling("a \"x\"", 7), Some("\"x\""));
/// assert_eq!(record.payload("a \"x\"", 7), Some("x"));
/// // of another text there may be no such part
/// assert_eq!(record.payload("a", 7), None);
/// ```
#[repr(C)]
#[derive(Clone, Copy, Default, PartialEq, Eq, Hash)]
pub struct Record {
    // the C functions write five numbers here; only those of kinds are ever written
    number: u64,
    /// Where it starts.
    pub start: u64,
    /// Where it ends.
    pub end: u64,
    /// Where its payload starts.
    pub payload_start: u64,
    /// Where its payload ends.
    pub payload_end: u64,
}

impl Record {
    /// A record of these parts.
    pub const fn new(kind: Kind, span: Range<u64>, payload: Range<u64>) -> Record {
        Record { number: kind.number(), start: span.start, end: span.end, payload_start: payload.start, payload_end: payload.end }
    }

    /// Its kind.
    pub fn kind(&self) -> Kind {
        Kind::of(self.number).expect("the archive's kinds are those of this crate")
    }

    /// The token as it stands in its text, which was read with this shift.
    pub fn spelling<'a>(&self, text: &'a str, shift: u64) -> Option<&'a str> {
        part(text, shift, self.start, self.end)
    }

    /// Its payload in its text, which was read with this shift.
    pub fn payload<'a>(&self, text: &'a str, shift: u64) -> Option<&'a str> {
        part(text, shift, self.payload_start, self.payload_end)
    }
}

fn part(text: &str, shift: u64, start: u64, end: u64) -> Option<&str> {
    text.get(start.checked_sub(shift)? as usize..end.checked_sub(shift)? as usize)
}

impl fmt::Debug for Record {
    fn fmt(&self, f: &mut fmt::Formatter<'_>) -> fmt::Result {
        write!(f, "{:?} {}..{} ({}..{})", self.kind(), self.start, self.end, self.payload_start, self.payload_end)
    }
}

/// A refusal: why, and where.
///
/// ```
/// let refused = teykonasir::expand("a\\q", 5).unwrap_err();
/// assert_eq!(refused.to_string(), "UnrecognizedEscape at 7: an escape that is none");
/// ```
#[derive(Clone, Copy, Debug, PartialEq, Eq, Hash)]
pub struct Refusal {
    /// Why.
    pub code: Code,
    /// Where; the functions say what place they name.
    pub place: u64,
}

impl fmt::Display for Refusal {
    fn fmt(&self, f: &mut fmt::Formatter<'_>) -> fmt::Result {
        write!(f, "{} at {}: {}", self.code.name(), self.place, self.code)
    }
}

impl error::Error for Refusal {
    fn source(&self) -> Option<&(dyn error::Error + 'static)> {
        Some(&self.code)
    }
}

pub(crate) fn verdict(code: u64, place: u64) -> Result<(), Refusal> {
    if code == 0 {
        return Ok(());
    }
    Err(Refusal { code: Code::of(code).expect("the archive's codes are those of this crate"), place })
}

/// How a run ended.
#[derive(Clone, Copy, Debug, PartialEq, Eq)]
pub struct Ran {
    /// How many records this call stored.
    pub stored: usize,
    /// `Ok` at the end of the text, or why it stopped.
    pub how: Result<(), Refusal>,
    /// The advances, in all: characters passed, failed attribute attempts included.
    pub advances: u64,
}

/// A tokenizer between two calls of [`resume`](crate::resume): four numbers. `State::default()` stands at the start of a text.
#[repr(C)]
#[derive(Clone, Copy, Debug, Default, PartialEq, Eq, Hash)]
pub struct State {
    /// Where it stands: a byte of the text, with no shift.
    pub cursor: u64,
    /// The advances so far.
    pub advances: u64,
    /// 0 while it runs, 32 once it has ended, else the number of the error's [`Code`].
    pub done: u64,
    /// The place of that error, with the shift.
    pub place: u64,
}

impl State {
    /// Whether the end or an error was answered: then every further call repeats it.
    pub const fn is_over(&self) -> bool {
        self.done != 0
    }
}
