//! The Rust host of a machine-proved model of Intel's 82810 and 82810-DC100 graphics hub (GMCH):
//! configuration registers, address routing, translation table, fences, ring parser, interrupts.
//!
//! The model is one call. It starts cold, replays a list of records, each an access of the processor, of
//! management mode, of a hub master or of a port, a run of the ring parser or a reset, and answers each.
//! Here it selects register 0 of device 0 and reads its two ids:
//!
//! ```
//! use mitrophel::{replay_records, Board, Record, Target};
//!
//! let mut memory = vec![0; 8 << 20];
//! let records = [Record::io_write(0xCF8, 4, 0x8000_0000), Record::io_read(0xCFC, 4)];
//! let answers = replay_records(Board::I82810, &mut memory, &records, &mut [])?;
//!
//! assert_eq!(answers[1].refusal(), None);
//! assert_eq!(answers[1].target(), Some(Target::Register));
//! assert_eq!(answers[1].value, 0x7120_8086);
//! # Ok::<(), mitrophel::WrongArgument>(())
//! ```
//!
//! # The parts
//!
//! * [`replay_records`] and [`replay`] make the call, on records and answers field by field or as bytes;
//!   [`call`] has the C function as it is. A call that is refused as a whole says which argument is wrong:
//!   [`WrongArgument`]. A record that is refused has its reason in its answer: [`Refusal`].
//! * [`record`] has a [`Record`] for each kind of access and the [`Answer`] to it, and turns them into bytes
//!   and back. [`board`] has the four boards.
//! * [`trace`] is a list of records as text, one access a line, for people to write and read.
//! * [`mod@reference`] is the same replay in ordinary Rust, written from the papers alone, to compare the model
//!   with. It goes record by record, so it can be asked between two records what its registers hold, and
//!   why a record went where it went. What it says is tested, not proved.
//!
//! # What a call needs
//!
//! It needs 72 KiB of stack, since it keeps the translation table there, and makes no other memory: a
//! thread with a small stack is to be made with more. It keeps nothing from one call to the next, so calls
//! are independent, and calls on different memories may run on several threads at once:
//!
//! ```
//! use mitrophel::{replay_records, Board, Record};
//! use std::thread;
//!
//! let desks = [7, 8].map(|data| {
//!     thread::spawn(move || {
//!         let records = [Record::write(0x1000, 4, data, false), Record::read(0x1000, 4, false)];
//!         replay_records(Board::I82810, &mut vec![0; 8 << 20], &records, &mut []).map(|answers| answers[1].value)
//!     })
//! });
//! assert_eq!(desks.map(|desk| desk.join().expect("no panic")), [Ok(7), Ok(8)]);
//! ```
//!
//! A list has at most [`MAX_RECORDS`](record::MAX_RECORDS) records, and a memory is a multiple of 8 MiB
//! from 8 to 1,024 MiB ([`is_memory_length`]). A DC100 has a display cache of 4 MiB beside it, which the call is
//! lent too; for the other boards that argument is empty ([`Board::display_bytes`]). Within these bounds every
//! byte string is a legal list: the call returns, answers each record, and reads and writes nothing outside what
//! it was lent.
//!
//! # Where to go next
//!
//! `README.md` says what is proved and what is not, `docs/CLAIMS.md` has every sentence of the paper with
//! its proof and its test, and `examples/` has traces to start from. The program `mitrophel`, made from this
//! library, replays and explains them: `mitrophel --help`.

#![deny(unsafe_code)]
#![warn(missing_docs)]

pub mod board;
pub mod call;
#[cfg(feature = "faults")]
pub mod faults;
#[cfg(not(feature = "faults"))]
mod faults;
pub mod record;
pub mod reference;
pub mod trace;

pub use board::{Board, DISPLAY_BYTES};
pub use call::{is_memory_length, replay, replay_records, WrongArgument, MOST_MEMORY};
pub use record::{Answer, Kind, Record, Refusal, Target};

// README's Rust, as a doc test.
#[cfg(doctest)]
#[doc = include_str!("../../README.md")]
struct Readme;

#[cfg(test)]
mod tests {
    /// Tests check sums for overflow and keep debug assertions: `--release` is no profile for them.
    #[test]
    #[should_panic(expected = "attempt to add with overflow")]
    fn tests_check_sums() {
        debug_assert_eq!(std::hint::black_box(u8::MAX) + 1, 0);
    }
}
