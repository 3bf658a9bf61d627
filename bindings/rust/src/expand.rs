//! String expansion, and places.
use crate::raw;
use crate::record::verdict;
use crate::Refusal;
use std::borrow::Cow;

/// Expands the escapes of a string literal's payload: `\\ \" \n \r \t \0 \xHL` (H octal, L hexadecimal). `idx0` is the place of its first byte.
///
/// Without a backslash the answer is the text itself. Refused are, with the place (idx0 added): `UnterminatedAsciiEscape`, `UnrecognizedEscape`,
/// `TrailingBackslash`; `TooLong` and `ShiftTooLarge` as in [`run`](crate::run). An expansion is no longer than its text.
///
/// ```
/// use std::borrow::Cow;
/// use teykonasir::{expand, Code, Refusal};
/// assert!(matches!(expand("plain", 0), Ok(Cow::Borrowed("plain"))));
/// assert_eq!(expand("a\\x41\\n", 0).unwrap(), "aA\n");
/// assert_eq!(expand("a\\", 10), Err(Refusal { code: Code::TrailingBackslash, place: 11 }));
/// ```
pub fn expand(text: &str, idx0: u64) -> Result<Cow<'_, str>, Refusal> {
    if !text.contains('\\') {
        // refusals of a text with no escape are those of its checks
        return expand_into(text, idx0, &mut [], 0).map(|_| Cow::Borrowed(text));
    }
    let mut buffer = vec![0; text.len()];
    let length = expand_into(text, idx0, &mut buffer, 0)?.len();
    buffer.truncate(length);
    Ok(Cow::Owned(String::from_utf8(buffer).expect("the expansion of a text is a text")))
}

/// Expands as [`expand`] does, into a lent buffer from `place` on, and answers the part of the text or of the buffer that holds the expansion.
///
/// Without a backslash the buffer is not looked at. All its other bytes stay; a refusal writes nothing. Two more refusals: `NotUtf8`, and `NoRoom`,
/// place `idx0`, if place plus length goes beyond the buffer and nothing else is refused.
///
/// ```
/// use teykonasir::{expand_into, Code, Refusal};
/// let mut buffer = *b"......";
/// assert_eq!(expand_into("a\\n", 0, &mut buffer, 1), Ok(&b"a\n"[..]));
/// assert_eq!(&buffer, b".a\n...");
/// assert_eq!(expand_into("a\\n", 7, &mut buffer, 5), Err(Refusal { code: Code::NoRoom, place: 7 }));
/// ```
pub fn expand_into<'a, T: AsRef<[u8]> + ?Sized>(text: &'a T, idx0: u64, buffer: &'a mut [u8], place: usize) -> Result<&'a [u8], Refusal> {
    let (text, mut answer) = (text.as_ref(), [0; 4]);
    let code = unsafe { raw::teyk_expand(text.as_ptr(), text.len(), idx0, buffer.as_mut_ptr(), buffer.len(), place as u64, answer.as_mut_ptr(), answer.len()) };
    verdict(code, answer[0])?;
    let held: &'a [u8] = if answer[1] == 0 { text } else { buffer };
    Ok(&held[answer[2] as usize..answer[3] as usize])
}

/// The line and the column of a place, which is a byte of the text with no shift, as the Language Server Protocol counts them: both from 0, the column in
/// UTF-16 units. A line ends at LF, CR LF or a lone CR.
///
/// A place between CR and LF belongs to the line that they end, and its column counts the CR. One inside a character is answered as its first byte, one
/// beyond the text as its end. Refused are, with the place: `TooLong`, then `NotUtf8`.
///
/// ```
/// use teykonasir::{place, Code, Refusal};
/// let text = "a\r\n\u{e9}b\r\u{1f600}c";
/// assert_eq!(place(text, 5), Ok((1, 1)));
/// assert_eq!(place(text, 11), Ok((2, 2)));
/// // between CR and LF, inside a character, beyond the text
/// assert_eq!(place(text, 2), Ok((0, 2)));
/// assert_eq!(place(text, 4), Ok((1, 0)));
/// assert_eq!(place(text, 99), Ok((2, 3)));
/// assert_eq!(place(b"a\xFF", 0), Err(Refusal { code: Code::NotUtf8, place: 1 }));
/// ```
pub fn place(text: impl AsRef<[u8]>, at: u64) -> Result<(u64, u64), Refusal> {
    let (text, mut answer) = (text.as_ref(), [0; 2]);
    let code = unsafe { raw::teyk_place(text.as_ptr(), text.len(), at, answer.as_mut_ptr(), answer.len()) };
    verdict(code, answer[0])?;
    Ok((answer[0], answer[1]))
}

/// The way back: the place of a line and a column as [`place`] counts them, always at a character's start or at the text's end.
///
/// A column beyond the line is the line's end, before its CR or LF; one inside a pair of units is the first byte of their character; a line beyond the
/// last is the text's end. Refused is what [`place`] refuses.
///
/// ```
/// use teykonasir::{place_at, Code, Refusal};
/// let text = "a\r\n\u{e9}b\r\u{1f600}c";
/// assert_eq!(place_at(text, 1, 1), Ok(5));
/// assert_eq!(place_at(text, 2, 2), Ok(11));
/// // beyond the line, inside a pair, beyond the last line
/// assert_eq!(place_at(text, 0, 9), Ok(1));
/// assert_eq!(place_at(text, 2, 1), Ok(7));
/// assert_eq!(place_at(text, 3, 0), Ok(12));
/// assert_eq!(place_at(b"a\xFF", 0, 0), Err(Refusal { code: Code::NotUtf8, place: 1 }));
/// ```
pub fn place_at(text: impl AsRef<[u8]>, line: u64, column: u64) -> Result<u64, Refusal> {
    let (text, mut answer) = (text.as_ref(), [0]);
    let code = unsafe { raw::teyk_place_at(text.as_ptr(), text.len(), line, column, answer.as_mut_ptr(), answer.len()) };
    verdict(code, answer[0])?;
    Ok(answer[0])
}
