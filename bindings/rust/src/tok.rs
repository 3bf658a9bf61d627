//! The tokenizer with the shape of LALRPOP's own module `tok`: put in its place,
//!
//! ```text
//! extern crate teykonasir;
//! pub use self::teykonasir::tok::*;
//! ```
//!
//! as the whole of LALRPOP's `src/tok/mod.rs`, it compiles with no other change. The names [`Tok`], [`Error`], [`ErrorCode`], [`Tokenizer`], [`Spanned`] and
//! [`apply_string_escapes`], their fields, variants and signatures are LALRPOP's (the repository's NOTICE has its licences).
//!
//! It reads ahead: 16 tokens when the first is asked for, and then twice as many each time. So a text that is left early costs little, and one that is
//! read to its end has its UTF-8 checked a few times. One difference is listed: after an error the iterator is over, where LALRPOP's may go on.
use crate::run::{first_room, resume, wants_room};
use crate::{expand, Code, Kind, Record, Refusal, State};
use std::borrow::Cow;
use std::error;
use std::fmt;
use std::iter::FusedIterator;

/// An error and its place, the shift added.
#[derive(Clone, Copy, Debug, PartialEq, Eq)]
pub struct Error {
    /// Where.
    pub location: usize,
    /// Why.
    pub code: ErrorCode,
}

/// LALRPOP's errors, in its order: the first ten of [`Code`].
#[derive(Clone, Copy, Debug, PartialEq, Eq)]
#[allow(missing_docs)]
pub enum ErrorCode {
    UnrecognizedToken,
    UnterminatedEscape,
    UnterminatedAsciiEscape,
    UnrecognizedEscape,
    UnterminatedStringLiteral,
    UnterminatedCharacterLiteral,
    UnterminatedAttribute,
    UnterminatedCode,
    ExpectedStringLiteral,
    UnterminatedBlockComment,
}

/// A token with its payload, in LALRPOP's order: the kinds of [`Kind`], and five that no text has.
#[derive(Clone, Debug, PartialEq, Eq)]
#[allow(missing_docs)]
pub enum Tok<'input> {
    Enum,
    Extern,
    Grammar,
    Match,
    Else,
    If,
    Mut,
    Pub,
    In,
    Type,
    Where,
    For,
    Dyn,
    Use(&'input str),
    Escape(&'input str),
    Id(&'input str),
    MacroId(&'input str),
    Lifetime(&'input str),
    StringLiteral(&'input str),
    CharLiteral(&'input str),
    RegexLiteral(&'input str),
    Ampersand,
    BangEquals,
    BangTilde,
    Colon,
    ColonColon,
    Comma,
    DotDot,
    Equals,
    EqualsEquals,
    EqualsGreaterThanCode(&'input str),
    EqualsGreaterThanQuestionCode(&'input str),
    EqualsGreaterThanLookahead,
    EqualsGreaterThanLookbehind,
    Hash,
    GreaterThan,
    LeftBrace,
    LeftBracket,
    LeftParen,
    LessThan,
    Lookahead,
    Lookbehind,
    MinusGreaterThan,
    Plus,
    Question,
    RightBrace,
    RightBracket,
    RightParen,
    Semi,
    Star,
    TildeTilde,
    Underscore,
    Bang,
    ShebangAttribute(&'input str),
    // LALRPOP's parser starts with one of these; no tokenizer gives them
    StartGrammar,
    StartPattern,
    StartMatchMapping,
    StartGrammarWhereClauses,
    StartTypeRef,
}

/// A start, something, and its end.
pub type Spanned<T> = (usize, T, usize);

/// The tokens of a text, up to its end or to the first error.
///
/// ```
/// use teykonasir::tok::{Error, ErrorCode, Tok, Tokenizer};
/// let mut tokens = Tokenizer::new("=> a(b, c), $", 100);
/// assert_eq!(tokens.next(), Some(Ok((100, Tok::EqualsGreaterThanCode(" a(b, c)"), 110))));
/// assert_eq!(tokens.next(), Some(Ok((110, Tok::Comma, 111))));
/// assert_eq!(tokens.next(), Some(Err(Error { location: 112, code: ErrorCode::UnrecognizedToken })));
/// assert_eq!(tokens.next(), None);
/// ```
#[derive(Clone, Debug)]
pub struct Tokenizer<'input> {
    text: &'input str,
    shift: usize,
    state: State,
    /// How many tokens were last asked for.
    room: usize,
    /// What was read; the first `given` of it are out.
    records: Vec<Record>,
    given: usize,
    after: After,
}

/// What comes after the records that were read.
#[derive(Clone, Copy, Debug)]
enum After {
    More,
    Error(Error),
    Nothing,
}

impl<'input> Tokenizer<'input> {
    /// The tokenizer at the start of a text; `shift` is added to every place. Nothing is read yet.
    ///
    /// # Panics
    ///
    /// The first `next` panics for what LALRPOP has no error code for: a text of more than [`MOST_BYTES`](crate::MOST_BYTES), or a shift that takes
    /// its length above 2^64 - 1.
    pub fn new(text: &'input str, shift: usize) -> Tokenizer<'input> {
        Tokenizer { text, shift, state: State::default(), room: 0, records: Vec::new(), given: 0, after: After::More }
    }

    fn read(&mut self) {
        self.room = first_room(2 * self.room);
        // what is left holds no more tokens than bytes
        let most = self.room.min(self.text.len() - self.state.cursor as usize);
        self.records.resize(most, Record::default());
        let ran = resume(self.text, self.shift as u64, u64::MAX, &mut self.state, &mut self.records);
        self.records.truncate(ran.stored);
        self.given = 0;
        self.after = match ran.how {
            Ok(()) => After::Nothing,
            how if wants_room(&how) => After::More,
            Err(refusal) => After::Error(error_of(refusal)),
        };
    }
}

impl<'input> Iterator for Tokenizer<'input> {
    type Item = Result<Spanned<Tok<'input>>, Error>;

    fn next(&mut self) -> Option<Result<Spanned<Tok<'input>>, Error>> {
        if self.given == self.records.len() && matches!(self.after, After::More) {
            self.read();
        }
        if let Some(record) = self.records.get(self.given) {
            self.given += 1;
            return Some(Ok((record.start as usize, tok_of(record, self.text, self.shift), record.end as usize)));
        }
        match self.after {
            After::Error(error) => {
                self.after = After::Nothing;
                Some(Err(error))
            }
            _ => None,
        }
    }
}

impl FusedIterator for Tokenizer<'_> {}

fn tok_of<'input>(record: &Record, text: &'input str, shift: usize) -> Tok<'input> {
    let payload = || record.payload(text, shift as u64).expect("a payload is a part of its text");
    match record.kind() {
        Kind::Enum => Tok::Enum,
        Kind::Extern => Tok::Extern,
        Kind::Grammar => Tok::Grammar,
        Kind::Match => Tok::Match,
        Kind::Else => Tok::Else,
        Kind::If => Tok::If,
        Kind::Mut => Tok::Mut,
        Kind::Pub => Tok::Pub,
        Kind::In => Tok::In,
        Kind::Type => Tok::Type,
        Kind::Where => Tok::Where,
        Kind::For => Tok::For,
        Kind::Dyn => Tok::Dyn,
        Kind::Use => Tok::Use(payload()),
        Kind::Escape => Tok::Escape(payload()),
        Kind::Id => Tok::Id(payload()),
        Kind::MacroId => Tok::MacroId(payload()),
        Kind::Lifetime => Tok::Lifetime(payload()),
        Kind::StringLiteral => Tok::StringLiteral(payload()),
        Kind::CharLiteral => Tok::CharLiteral(payload()),
        Kind::RegexLiteral => Tok::RegexLiteral(payload()),
        Kind::Ampersand => Tok::Ampersand,
        Kind::BangEquals => Tok::BangEquals,
        Kind::BangTilde => Tok::BangTilde,
        Kind::Colon => Tok::Colon,
        Kind::ColonColon => Tok::ColonColon,
        Kind::Comma => Tok::Comma,
        Kind::DotDot => Tok::DotDot,
        Kind::Equals => Tok::Equals,
        Kind::EqualsEquals => Tok::EqualsEquals,
        Kind::EqualsGreaterThanCode => Tok::EqualsGreaterThanCode(payload()),
        Kind::EqualsGreaterThanQuestionCode => Tok::EqualsGreaterThanQuestionCode(payload()),
        Kind::EqualsGreaterThanLookahead => Tok::EqualsGreaterThanLookahead,
        Kind::EqualsGreaterThanLookbehind => Tok::EqualsGreaterThanLookbehind,
        Kind::Hash => Tok::Hash,
        Kind::GreaterThan => Tok::GreaterThan,
        Kind::LeftBrace => Tok::LeftBrace,
        Kind::LeftBracket => Tok::LeftBracket,
        Kind::LeftParen => Tok::LeftParen,
        Kind::LessThan => Tok::LessThan,
        Kind::Lookahead => Tok::Lookahead,
        Kind::Lookbehind => Tok::Lookbehind,
        Kind::MinusGreaterThan => Tok::MinusGreaterThan,
        Kind::Plus => Tok::Plus,
        Kind::Question => Tok::Question,
        Kind::RightBrace => Tok::RightBrace,
        Kind::RightBracket => Tok::RightBracket,
        Kind::RightParen => Tok::RightParen,
        Kind::Semi => Tok::Semi,
        Kind::Star => Tok::Star,
        Kind::TildeTilde => Tok::TildeTilde,
        Kind::Underscore => Tok::Underscore,
        Kind::Bang => Tok::Bang,
        Kind::ShebangAttribute => Tok::ShebangAttribute(payload()),
    }
}

/// A refusal as LALRPOP's error, which does not tell half a symbol from a stray character; it panics for those that LALRPOP has no code for.
fn error_of(refusal: Refusal) -> Error {
    let code = match refusal.code.rust_code() {
        Code::UnrecognizedToken => ErrorCode::UnrecognizedToken,
        Code::UnterminatedEscape => ErrorCode::UnterminatedEscape,
        Code::UnterminatedAsciiEscape => ErrorCode::UnterminatedAsciiEscape,
        Code::UnrecognizedEscape => ErrorCode::UnrecognizedEscape,
        Code::UnterminatedStringLiteral => ErrorCode::UnterminatedStringLiteral,
        Code::UnterminatedCharacterLiteral => ErrorCode::UnterminatedCharacterLiteral,
        Code::UnterminatedAttribute => ErrorCode::UnterminatedAttribute,
        Code::UnterminatedCode => ErrorCode::UnterminatedCode,
        Code::ExpectedStringLiteral => ErrorCode::ExpectedStringLiteral,
        Code::UnterminatedBlockComment => ErrorCode::UnterminatedBlockComment,
        _ => panic!("{}", refusal),
    };
    Error { location: refusal.place as usize, code }
}

/// Expands the escapes of a string literal's payload, whose first byte is at `idx0`; [`expand`] with LALRPOP's names.
///
/// # Panics
///
/// For a lone last backslash, as LALRPOP's does (no string literal has one), and for texts and places as in [`Tokenizer::new`].
///
/// ```
/// use teykonasir::tok::{apply_string_escapes, Error, ErrorCode};
/// assert_eq!(apply_string_escapes("a\\tb", 1).unwrap(), "a\tb");
/// assert_eq!(apply_string_escapes("\\xFF", 1), Err(Error { location: 2, code: ErrorCode::UnrecognizedEscape }));
/// ```
pub fn apply_string_escapes(code: &str, idx0: usize) -> Result<Cow<'_, str>, Error> {
    expand(code, idx0 as u64).map_err(error_of)
}

impl fmt::Display for ErrorCode {
    fn fmt(&self, f: &mut fmt::Formatter<'_>) -> fmt::Result {
        Code::ALL[*self as usize].fmt(f)
    }
}

impl fmt::Display for Error {
    fn fmt(&self, f: &mut fmt::Formatter<'_>) -> fmt::Result {
        write!(f, "{:?} at {}: {}", self.code, self.location, self.code)
    }
}

impl error::Error for Error {}

#[cfg(test)]
mod tests {
    use super::*;

    #[test]
    fn a_text_left_early_costs_little() {
        let text = "grammar;".to_string() + &"#![".repeat(4000);
        let mut tokens = Tokenizer::new(&text, 0);
        assert_eq!(tokens.state.advances, 0);
        assert_eq!(tokens.nth(3), Some(Ok((9, Tok::Bang, 10))));
        // five of the 4,000 attempts at an attribute were read, of 12,000 characters each at the most
        assert!(tokens.state.advances < 60000);
        assert_eq!(tokens.count(), 3 * 4000 - 2);
    }

    #[test]
    fn it_asks_for_twice_as_many() {
        let text = "a ".repeat(500);
        let mut tokens = Tokenizer::new(&text, 0);
        let mut rooms = vec![];
        while tokens.next().is_some() {
            if rooms.last() != Some(&tokens.room) {
                rooms.push(tokens.room);
            }
        }
        assert_eq!(rooms, [16, 32, 64, 128, 256, 512]);
        assert_eq!(tokens.next(), None);
    }

    #[test]
    #[should_panic(expected = "ShiftTooLarge at 0")]
    fn too_large_a_shift() {
        Tokenizer::new("a", usize::MAX).next();
    }

    #[test]
    #[should_panic(expected = "TrailingBackslash at 7")]
    fn a_lone_last_backslash() {
        let _ = apply_string_escapes("ab\\", 5);
    }
}
