//! The call to the proved model: the only unsafe code of the library.
//!
//! The call needs 72 KiB of stack, most of it for the translation table, which it keeps there. It makes
//! no other memory, keeps nothing between calls, and calls on different memories may run side by side.

use crate::board::Board;
use crate::record::{self, Answer, Record, MAX_RECORDS, RECORD_BYTES};
use std::fmt;

/// Which argument of a call is wrong. The call gives code 1 for all of them and touches neither of the two
/// memories nor answers.
///
/// ```
/// use mitrophel::{replay, Board, WrongArgument};
///
/// let wrong = replay(Board::I82810, &mut [0; 4096], &[], &mut [], &mut []).unwrap_err();
/// assert_eq!(wrong, WrongArgument::Memory { bytes: 4096 });
/// assert_eq!(wrong.to_string(), "memory: expected a multiple of 8 MiB from 8 to 1,024 MiB, found 4096 bytes");
///
/// let wrong = replay(Board::Dc100, &mut vec![0; 8 << 20], &[], &mut [], &mut []).unwrap_err();
/// assert_eq!(wrong, WrongArgument::Display { bytes: 0, board: Board::Dc100 });
/// assert_eq!(wrong.to_string(), "display cache: expected 4194304 bytes on board dc100, found 0");
/// ```
#[derive(Clone, Copy, Debug, PartialEq, Eq)]
pub enum WrongArgument {
    /// The memory's length is no multiple of 8 MiB from 8 to 1,024 MiB.
    Memory {
        /// Its length.
        bytes: usize,
    },
    /// The records' length is no multiple of 16, or they are more than 65,535.
    Records {
        /// Their length.
        bytes: usize,
    },
    /// The answers' length is not the records'.
    Answers {
        /// Their length.
        bytes: usize,
        /// The records' length.
        expected: usize,
    },
    /// The display cache's length is not the board's.
    Display {
        /// Its length.
        bytes: usize,
        /// The board, whose [`Board::display_bytes`] it is to be.
        board: Board,
    },
}

impl WrongArgument {
    /// The first argument that the call would refuse.
    fn of(board: Board, memory: usize, records: usize, answers: usize, display: usize) -> Option<WrongArgument> {
        if !is_memory_length(memory) {
            return Some(WrongArgument::Memory { bytes: memory });
        }
        if !records.is_multiple_of(RECORD_BYTES) || records / RECORD_BYTES > MAX_RECORDS {
            return Some(WrongArgument::Records { bytes: records });
        }
        if answers != records {
            return Some(WrongArgument::Answers { bytes: answers, expected: records });
        }
        (display != board.display_bytes()).then_some(WrongArgument::Display { bytes: display, board })
    }
}

impl fmt::Display for WrongArgument {
    fn fmt(&self, f: &mut fmt::Formatter<'_>) -> fmt::Result {
        match *self {
            WrongArgument::Memory { bytes } => {
                write!(f, "memory: expected a multiple of 8 MiB from 8 to 1,024 MiB, found {bytes} bytes")
            }
            WrongArgument::Records { bytes } => {
                write!(f, "records: expected 16 bytes each, at most {MAX_RECORDS} of them, found {bytes} bytes")
            }
            WrongArgument::Answers { bytes, expected } => {
                write!(f, "answers: expected {expected} bytes, the records' length, found {bytes}")
            }
            WrongArgument::Display { bytes, board } => match board.display_bytes() {
                0 => write!(f, "display cache: expected none on board {board}, found {bytes} bytes"),
                expected => write!(f, "display cache: expected {expected} bytes on board {board}, found {bytes}"),
            },
        }
    }
}

impl std::error::Error for WrongArgument {}

/// The length of the largest memory: 1,024 MiB, which request 6 of document 02 raised from 512 MiB.
///
/// ```
/// use mitrophel::MOST_MEMORY;
///
/// assert_eq!(MOST_MEMORY, 1 << 30);
/// ```
pub const MOST_MEMORY: usize = 1024 << 20;

/// Whether a board can have a memory of this length: a multiple of 8 MiB, 8 to 1,024 MiB.
///
/// ```
/// use mitrophel::{is_memory_length, MOST_MEMORY};
///
/// assert!(is_memory_length(8 << 20) && is_memory_length(520 << 20) && is_memory_length(MOST_MEMORY));
/// assert!(!is_memory_length(0) && !is_memory_length(12 << 20));
/// assert!(!is_memory_length(MOST_MEMORY + 1) && !is_memory_length(MOST_MEMORY + (8 << 20)));
/// ```
pub const fn is_memory_length(bytes: usize) -> bool {
    bytes.is_multiple_of(8 << 20) && 8 << 20 <= bytes && bytes <= MOST_MEMORY
}

/// Replays records from a cold start on a board with `memory` as its main memory and `display` as its display cache,
/// of which only a DC100 has one ([`Board::display_bytes`]), and writes one answer of 16 bytes for each record. It needs
/// 72 KiB of stack.
///
/// # Errors
///
/// [`WrongArgument`], which is code 1 of the call and is found before it is made: all is as it was.
///
/// ```
/// use mitrophel::{record, replay, Board, Record};
///
/// let records = record::encode(&[Record::write(0x1000, 4, 7, false), Record::read(0x1000, 4, false)]);
/// let (mut memory, mut answers) = (vec![0; 8 << 20], vec![0; records.len()]);
/// replay(Board::I82810, &mut memory, &records, &mut answers, &mut [])?;
/// assert_eq!(memory[0x1000], 7);
/// assert_eq!(answers[16 + 8], 7);
/// # Ok::<(), mitrophel::WrongArgument>(())
/// ```
pub fn replay(
    board: Board,
    memory: &mut [u8],
    records: &[u8],
    answers: &mut [u8],
    display: &mut [u8],
) -> Result<(), WrongArgument> {
    if let Some(wrong) = WrongArgument::of(board, memory.len(), records.len(), answers.len(), display.len()) {
        return Err(wrong);
    }
    let result = gmch_replay(board.number(), memory, records, answers, display);
    assert_eq!(result, 0, "the call refuses wrong arguments alone");
    Ok(())
}

/// [`replay`] on records and answers field by field.
///
/// # Errors
///
/// As [`replay`]'s.
///
/// ```
/// use mitrophel::{replay_records, Board, Record};
///
/// let (board, mut memory) = (Board::Dc100, vec![0; 8 << 20]);
/// let mut display = vec![0; board.display_bytes()];
/// let records = [Record::io_write(0xCF8, 4, 0x8000_0000), Record::io_read(0xCFC, 4)];
/// let answers = replay_records(board, &mut memory, &records, &mut display)?;
/// assert_eq!(answers[1].value, 0x7122_8086);
/// # Ok::<(), mitrophel::WrongArgument>(())
/// ```
pub fn replay_records(
    board: Board,
    memory: &mut [u8],
    records: &[Record],
    display: &mut [u8],
) -> Result<Vec<Answer>, WrongArgument> {
    let records = record::encode(records);
    let mut answers = vec![0; records.len()];
    replay(board, memory, &records, &mut answers, display)?;
    Ok(record::decode_answers(&answers).collect())
}

/// The call as C has it: any board number, 0 for done, 1 for wrong arguments.
///
/// ```
/// use mitrophel::call::gmch_replay;
///
/// let mut memory = vec![0; 8 << 20];
/// assert_eq!(gmch_replay(2, &mut memory, &[], &mut [], &mut []), 0);
/// assert_eq!(gmch_replay(4, &mut memory, &[], &mut [], &mut []), 1);
/// ```
#[allow(unsafe_code)]
pub fn gmch_replay(board: u32, memory: &mut [u8], records: &[u8], answers: &mut [u8], display: &mut [u8]) -> u32 {
    mod archive {
        extern "C" {
            pub fn gmch_replay(
                board: u32,
                memory: *mut u8,
                memory_len: usize,
                records: *const u8,
                records_len: usize,
                answers: *mut u8,
                answers_len: usize,
                display: *mut u8,
                display_len: usize,
            ) -> u32;
        }
    }
    // SAFETY: each pointer and length is one slice's own, so the bytes are there for the call's time;
    // the borrow checker keeps the four apart and keeps the three mutable ones from anybody else. The
    // function asks nothing of its arguments' values, keeps no pointer and does not unwind.
    unsafe {
        archive::gmch_replay(
            board,
            memory.as_mut_ptr(),
            memory.len(),
            records.as_ptr(),
            records.len(),
            answers.as_mut_ptr(),
            answers.len(),
            display.as_mut_ptr(),
            display.len(),
        )
    }
}
