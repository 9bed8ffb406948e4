//! The text trace: one access a line, turned into records by [`assemble`] and back by [`Lister`].
//!
//! ```text
//! # comment
//! out4 CONFIG_ADDRESS 80000070h      in4 CFCh
//! read4 67FFFCh                      smm read4 700000h      fetch4 1000h
//! write1 WINDOW+ABCh 55h             write FENCE0 21h       read2 MMIO+2022h
//! master read4 1000h                 master write4 1000h 7
//! config write dev0.SMRAM BEh        config read4 dev1.2Ch
//! entry 10 A0000h                    entries 0..15 100000h
//! word 100000h noop flush            bytes 1000h 0A FF      string 1000h "key"
//! set KEY A0000h                     include setup.trace
//! run 1000                           reset
//! raw 02 04 00 00 F8 0C 00 00 00 00 00 80 00 00 00 00
//! ```
//!
//! A digit after `read`, `write`, `fetch`, `in` and `out` is the width; a register's name gives its own.
//! A comment that starts with `#>` says what is expected of its line's access, or of the nearest one
//! above.
//!
//! ```
//! use mitrophel::{record, replay, trace, Board};
//!
//! let assembled = trace::assemble("config read4 dev0.VID  #> 71208086h\n")?;
//! let (mut memory, mut answers) = (vec![0; 8 << 20], vec![0; assembled.records.len()]);
//! replay(Board::I82810, &mut memory, &assembled.records, &mut answers, &mut [])?;
//! let answers: Vec<_> = record::decode_answers(&answers).collect();
//! let expected = &assembled.expectations[0];
//! assert_eq!(expected.records, 0..2);
//! assert_eq!(format!("{:08X}h", answers[1].value), expected.text);
//! # Ok::<(), Box<dyn std::error::Error>>(())
//! ```

mod assemble;
mod errors;
pub mod follow;
mod line;
pub mod listing;
pub mod names;
pub mod numbers;
mod reader;
mod statement;
pub mod words;

pub use assemble::{assemble, assemble_with, Assembled, Expectation, Place};
pub use errors::{acts_on_terminals, Errors, TraceError, Warning};
pub use listing::{statement, Lister, REDACTED};
