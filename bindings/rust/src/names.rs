//! The kinds of token and the refusals, with their numbers and names.
use std::error;
use std::fmt;

macro_rules! numbered {
    ($(#[$about:meta])* $name:ident { $($number:literal $variant:ident $doc:literal,)* }) => {
        $(#[$about])*
        #[derive(Clone, Copy, Debug, PartialEq, Eq, PartialOrd, Ord, Hash)]
        #[repr(u8)]
        pub enum $name {
            $(#[doc = $doc] $variant = $number,)*
        }

        impl $name {
            /// All of them, in the order of their numbers.
            pub const ALL: &'static [$name] = &[$($name::$variant,)*];

            /// Its number, as the C functions and the LTK file have it.
            pub const fn number(self) -> u64 {
                self as u64
            }

            /// The one that has a number, if there is one.
            pub const fn of(number: u64) -> Option<$name> {
                match number {
                    $($number => Some($name::$variant),)*
                    _ => None,
                }
            }

            /// Its name, as the listing prints it.
            pub const fn name(self) -> &'static str {
                match self {
                    $($name::$variant => stringify!($variant),)*
                }
            }

            const fn doc(self) -> &'static str {
                match self {
                    $($name::$variant => $doc,)*
                }
            }
        }
    };
}

numbered! {
    /// The kind of a token: 0 to 53, in the order of LALRPOP's `Tok`.
    ///
    /// ```
    /// use teykonasir::Kind;
    /// assert_eq!(Kind::of(13), Some(Kind::Use));
    /// assert_eq!(Kind::ShebangAttribute.number(), 53);
    /// assert_eq!(Kind::of(54), None);
    /// assert_eq!(Kind::MacroId.to_string(), "MacroId");
    /// assert_eq!(Kind::ALL.len(), 54);
    /// ```
    Kind {
        0 Enum "`enum`",
        1 Extern "`extern`",
        2 Grammar "`grammar`",
        3 Match "`match`",
        4 Else "`else`",
        5 If "`if`",
        6 Mut "`mut`",
        7 Pub "`pub`",
        8 In "`in`",
        9 Type "`type`",
        10 Where "`where`",
        11 For "`for`",
        12 Dyn "`dyn`",
        13 Use "`use`; payload: its code",
        14 Escape "between backticks; payload: without them",
        15 Id "a word; payload: all of it",
        16 MacroId "a word with `<` directly after it; payload: all of it",
        17 Lifetime "a word after a quote; payload: all of it, with its quote",
        18 StringLiteral "a string; payload: between the quotes",
        19 CharLiteral "a character; payload: between the quotes",
        20 RegexLiteral "a regex; payload: between the quotes",
        21 Ampersand "`&`",
        22 BangEquals "`!=`",
        23 BangTilde "`!~`",
        24 Colon "`:`",
        25 ColonColon "`::`",
        26 Comma "`,`",
        27 DotDot "`..`",
        28 Equals "`=`",
        29 EqualsEquals "`==`",
        30 EqualsGreaterThanCode "`=>`; payload: its code",
        31 EqualsGreaterThanQuestionCode "`=>?`; payload: its code",
        32 EqualsGreaterThanLookahead "`=>@L`",
        33 EqualsGreaterThanLookbehind "`=>@R`",
        34 Hash "`#`",
        35 GreaterThan "`>`",
        36 LeftBrace "`{`",
        37 LeftBracket "`[`",
        38 LeftParen "`(`",
        39 LessThan "`<`",
        40 Lookahead "`@L`",
        41 Lookbehind "`@R`",
        42 MinusGreaterThan "`->`",
        43 Plus "`+`",
        44 Question "`?`",
        45 RightBrace "`}`",
        46 RightBracket "`]`",
        47 RightParen "`)`",
        48 Semi "`;`",
        49 Star "`*`",
        50 TildeTilde "`~~`",
        51 Underscore "`_`",
        52 Bang "`!`",
        53 ShebangAttribute "`#![..]`; payload: all of it",
    }
}

numbered! {
    /// Why something is refused: 1 to 29, of which 1 to 10 are LALRPOP's. LALRPOP's 1 is answered as 22 or 23 ([`Code::rust_code`] is the way back); no text is answered 1 or any above 23. It is
    /// shown as a sentence; [`Code::name`] is its name.
    ///
    /// ```
    /// use teykonasir::Code;
    /// assert_eq!(Code::of(10), Some(Code::UnterminatedBlockComment));
    /// assert_eq!(Code::of(0), None);
    /// assert_eq!(Code::UnterminatedBlockComment.name(), "UnterminatedBlockComment");
    /// assert_eq!(Code::UnterminatedBlockComment.to_string(), "a comment is not closed");
    /// ```
    Code {
        1 UnrecognizedToken "no token starts here, or half a symbol",
        2 UnterminatedEscape "a backtick is not closed",
        3 UnterminatedAsciiEscape "`\\x` with fewer than two characters after it",
        4 UnrecognizedEscape "an escape that is none",
        5 UnterminatedStringLiteral "a string or a regex is not closed",
        6 UnterminatedCharacterLiteral "a quoted character is not closed",
        7 UnterminatedAttribute "an attribute is not closed (never shown: it is read as `#`)",
        8 UnterminatedCode "the text ends in action code",
        9 ExpectedStringLiteral "after `r` and hashes, neither a quote nor a word",
        10 UnterminatedBlockComment "a comment is not closed",
        11 NotUtf8 "ill-formed UTF-8",
        12 TooLong "the text or the list is too long",
        13 ShiftTooLarge "shift plus text length above 2^64 - 1",
        14 NoRoom "the lent slice is too short",
        15 WorkLimit "the next call would take the advances above the limit",
        16 TrailingBackslash "a lone last backslash",
        17 BadMark "the file's mark is wrong or cut",
        18 UnknownVersion "the file's version is not 1",
        19 BadLength "the file's length does not fit its count",
        20 BadRecord "a record or a state that no run gives, or no sheet",
        21 SheetFull "the sheet takes no further text",
        22 HalfSymbol "half a symbol",
        23 StrayCharacter "a character that starts nothing",
        24 UnknownReading "no such reading",
        25 TooDeep "too many brackets are open at once",
        26 TextMismatch "the text does not give these records",
        27 ChangeListFull "one more change than the list holds",
        28 BadEdit "the edit does not fit the texts",
        29 StaleRecords "records that the old text does not give",
    }
}

impl Kind {
    /// What it is, in a word or two.
    pub const fn about(self) -> &'static str {
        self.doc()
    }
}

impl Code {
    /// The code that LALRPOP has for it: `UnrecognizedToken` is both `HalfSymbol` and `StrayCharacter`; any other code stays.
    ///
    /// ```
    /// use teykonasir::Code;
    /// assert_eq!(Code::HalfSymbol.rust_code(), Code::UnrecognizedToken);
    /// assert_eq!(Code::UnterminatedCode.rust_code(), Code::UnterminatedCode);
    /// ```
    pub const fn rust_code(self) -> Code {
        match self {
            Code::HalfSymbol | Code::StrayCharacter => Code::UnrecognizedToken,
            other => other,
        }
    }
}

impl fmt::Display for Kind {
    fn fmt(&self, f: &mut fmt::Formatter<'_>) -> fmt::Result {
        f.pad(self.name())
    }
}

impl fmt::Display for Code {
    fn fmt(&self, f: &mut fmt::Formatter<'_>) -> fmt::Result {
        f.pad(self.doc())
    }
}

impl error::Error for Code {}

#[cfg(test)]
mod tests {
    use super::*;
    use crate::raw;

    type NameOf = unsafe extern "C" fn(u64, *mut u8, usize, *mut u64, usize) -> u64;

    /// What the archive answers: the code, the name's length and the buffer.
    fn ask(f: NameOf, number: u64, room: usize) -> (u64, usize, Vec<u8>) {
        let (mut buffer, mut answer) = (vec![b'.'; room], [77]);
        let code = unsafe { f(number, buffer.as_mut_ptr(), room, answer.as_mut_ptr(), 1) };
        (code, answer[0] as usize, buffer)
    }

    fn said(f: NameOf, number: u64, name: &str) {
        let mut padded = name.as_bytes().to_vec();
        padded.resize(64, b'.');
        assert_eq!(ask(f, number, 64), (0, name.len(), padded));
        assert_eq!(ask(f, number, name.len() - 1), (14, 0, vec![b'.'; name.len() - 1]));
    }

    #[test]
    fn the_archive_has_these_names() {
        for (n, kind) in Kind::ALL.iter().enumerate() {
            assert_eq!((kind.number(), Kind::of(n as u64)), (n as u64, Some(*kind)));
            said(raw::teyk_name_of_kind, kind.number(), kind.name());
        }
        for (n, code) in Code::ALL.iter().enumerate() {
            assert_eq!((code.number(), Code::of(n as u64 + 1)), (n as u64 + 1, Some(*code)));
            said(raw::teyk_name_of_code, code.number(), code.name());
        }
        assert_eq!(ask(raw::teyk_name_of_kind, 54, 64), (20, 0, vec![b'.'; 64]));
        for none in [0, 30, u64::MAX] {
            assert_eq!(ask(raw::teyk_name_of_code, none, 64), (20, 0, vec![b'.'; 64]));
        }
    }
}
