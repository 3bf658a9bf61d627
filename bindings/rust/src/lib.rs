//! The proved tokenizer of LALRPOP grammars.
//!
//! Every function calls one of the archives that the repository makes (`tools/archives teykonasir`, for [`Sheet`] `tools/archives teykonasir_sheet`, for [`read`]
//! `tools/archives teykonasir_read`), which is proved to answer what its contract says for all texts; this crate lends it slices and gives the numbers names. It
//! takes no memory that it is not asked for: [`run`], [`resume`], [`read`], [`expand_into`], [`ltk_read_into`] and [`ltk_write_into`] fill lent slices, the
//! others make what they answer.
//!
//! ```
//! use teykonasir::{place, run_to_vec, Kind};
//!
//! let text = "pub Term: i32 = <n:Num> => n,\n";
//! let mut records = vec![];
//! run_to_vec(text, 0, u64::MAX, &mut records).how?;
//! let code = records.iter().find(|r| r.kind() == Kind::EqualsGreaterThanCode).unwrap();
//! assert_eq!(code.payload(text, 0), Some(" n"));
//! assert_eq!(place(text, code.start)?, (0, 24));
//! # Ok::<(), teykonasir::Refusal>(())
//! ```
//!
//! Who comes from LALRPOP finds its own module's shape in [`tok`].
#![warn(missing_docs)]

mod expand;
mod ltk;
mod names;
mod raw;
mod read;
mod record;
mod run;
mod sheet;
pub mod tok;

pub use expand::{expand, expand_into, place, place_at};
pub use ltk::{ltk_length, ltk_read, ltk_read_into, ltk_write, ltk_write_into};
pub use names::{Code, Kind};
pub use read::{read, read_to_vec, DeepRan, DeepRecord, Reading};
pub use record::{Ran, Record, Refusal, State};
pub use run::{most_advances, most_records, resume, run, run_to_vec, MOST_BYTES};
pub use sheet::{Sheet, Taken, SHEET_NUMBERS, SHEET_TEXTS};
