//! The LTK file, version 1: kinds and spans.
use crate::raw;
use crate::record::verdict;
use crate::run::NUMBERS;
use crate::{Record, Refusal};

const HEAD: usize = 9;
const EACH: usize = 9;

/// The bytes of an LTK file with so many records.
///
/// ```
/// assert_eq!(teykonasir::ltk_length(2), 27);
/// ```
pub const fn ltk_length(records: usize) -> usize {
    HEAD + EACH * records
}

/// Reads an LTK file. The records' payloads are empty, at their start.
///
/// Refused are, in this order: `BadMark` (place 0), `BadLength` with fewer than 9 bytes (9), `UnknownVersion` (3), `BadLength` where the length does not
/// fit the count (9), `BadRecord` (the record's first byte).
///
/// ```
/// use teykonasir::{ltk_read, ltk_write, run_to_vec, Code, Kind, Record, Refusal};
/// let mut records = vec![];
/// run_to_vec("a \"x\"", 0, u64::MAX, &mut records).how?;
/// let file = ltk_write(&records)?;
/// assert_eq!(ltk_read(&file)?, [Record::new(Kind::Id, 0..1, 0..0), Record::new(Kind::StringLiteral, 2..5, 2..2)]);
/// assert_eq!(ltk_read(&file[..26]), Err(Refusal { code: Code::BadLength, place: 9 }));
/// # Ok::<(), Refusal>(())
/// ```
pub fn ltk_read(file: impl AsRef<[u8]>) -> Result<Vec<Record>, Refusal> {
    let file = file.as_ref();
    let mut records = vec![Record::default(); file.len().saturating_sub(HEAD) / EACH];
    let count = ltk_read_into(file, &mut records)?;
    records.truncate(count);
    Ok(records)
}

/// Reads an LTK file into a lent slice, and answers how many records it has. One more refusal, the last: `NoRoom`, place 0. A refusal writes nothing.
///
/// ```
/// use teykonasir::{ltk_read_into, Record};
/// assert_eq!(ltk_read_into(b"LTK\x01\0\0\0\0\0", &mut [Record::default(); 3]), Ok(0));
/// ```
pub fn ltk_read_into(file: impl AsRef<[u8]>, records: &mut [Record]) -> Result<usize, Refusal> {
    let (file, mut answer) = (file.as_ref(), [0; 3]);
    let code =
        unsafe { raw::teyk_ltk_read(file.as_ptr(), file.len(), records.as_mut_ptr().cast(), NUMBERS * records.len(), answer.as_mut_ptr(), answer.len()) };
    verdict(code, answer[1])?;
    Ok(answer[2] as usize)
}

/// Writes records, of a run with shift 0, as an LTK file; payloads are not stored.
///
/// Refused are 2^32 records or more (`TooLong`, place 0), then a record that no such run gives (`BadRecord`; the place it would have in the file).
///
/// ```
/// use teykonasir::{ltk_write, Code, Kind, Record, Refusal};
/// assert_eq!(ltk_write(&[Record::new(Kind::Semi, 3..4, 3..3)])?, b"LTK\x01\0\x01\0\0\0\x30\x03\0\0\0\x04\0\0\0");
/// assert_eq!(ltk_write(&[Record::new(Kind::Semi, 3..3, 3..3)]), Err(Refusal { code: Code::BadRecord, place: 9 }));
/// # Ok::<(), Refusal>(())
/// ```
pub fn ltk_write(records: &[Record]) -> Result<Vec<u8>, Refusal> {
    let mut file = vec![0; ltk_length(records.len())];
    let length = ltk_write_into(records, &mut file)?;
    file.truncate(length);
    Ok(file)
}

/// Writes an LTK file into a lent buffer, and answers how many bytes it has. One more refusal, the last: `NoRoom`, place 0. A refusal writes nothing.
///
/// ```
/// use teykonasir::{ltk_write_into, Code, Refusal};
/// assert_eq!(ltk_write_into(&[], &mut [0; 10]), Ok(9));
/// assert_eq!(ltk_write_into(&[], &mut [0; 8]), Err(Refusal { code: Code::NoRoom, place: 0 }));
/// ```
pub fn ltk_write_into(records: &[Record], file: &mut [u8]) -> Result<usize, Refusal> {
    let mut answer = [0; 3];
    let code =
        unsafe { raw::teyk_ltk_write(records.as_ptr().cast(), NUMBERS * records.len(), file.as_mut_ptr(), file.len(), answer.as_mut_ptr(), answer.len()) };
    verdict(code, answer[1])?;
    Ok(answer[2] as usize)
}
