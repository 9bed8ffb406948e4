//! Code 1: "board kind, memory length, record length (not 16n, or n over 65,535) or answer length
//! wrong". It "is the call's own result and leaves memory and answers untouched".

mod common;

use common::{blank_display, MIB};
use mitrophel::{call, record, reference, replay, Board, Record, Target, WrongArgument};

/// A byte that neither memory nor answers hold by themselves.
const UNTOUCHED: u8 = 0xC3;

/// Bytes whose every 64 KiB starts with a marked page; the rest is zero and costs no memory.
fn marked(length: usize) -> Vec<u8> {
    let mut bytes = vec![0; length];
    for part in bytes.chunks_mut(64 << 10) {
        let end = part.len().min(4096);
        part[..end].fill(UNTOUCHED);
    }
    bytes
}

fn is_marked(bytes: &[u8]) -> bool {
    bytes.chunks(64 << 10).all(|part| {
        let (mark, rest) = part.split_at(part.len().min(4096));
        mark.iter().all(|&byte| byte == UNTOUCHED) && *rest == [0; 64 << 10][..rest.len()]
    })
}

/// Records that would write memory, registers and answers if they were replayed.
fn writes(count: usize) -> Vec<u8> {
    let write = |i: usize| Record::write(0x1000 + 4 * (i as u32 % 1024), 4, 0x1234_5678, false);
    record::encode(&(0..count).map(write).collect::<Vec<_>>())
}

/// Asks that the call and the reference refuse the arguments and touch nothing.
fn assert_refused(board: u32, memory: &mut [u8], records: &[u8], answers_length: usize) {
    let mut answers = vec![UNTOUCHED; answers_length];
    let display = &mut blank_display(board);
    assert_eq!(call::gmch_replay(board, memory, records, &mut answers, display), 1);
    assert_eq!(reference::replay(board, memory, records, &mut answers, display), 1);
    assert!(answers.iter().all(|&byte| byte == UNTOUCHED), "answers were touched");
    assert!(is_marked(memory), "memory was touched");
}

/// "at most 65,535 records"
#[test]
fn record_counts_up_to_65_535_are_good() {
    let mut memory = vec![0; 8 * MIB];
    for count in [0, 1, 2, 65_534, 65_535] {
        let records = writes(count);
        let mut answers = vec![UNTOUCHED; records.len()];
        assert_eq!(call::gmch_replay(0, &mut memory, &records, &mut answers, &mut []), 0, "{count}");
        let mut expected = vec![0; records.len()];
        assert_eq!(reference::replay(0, &mut memory, &records, &mut expected, &mut []), 0, "{count}");
        assert!(answers == expected, "{count}");
        assert!(record::decode_answers(&answers).all(|answer| answer.target() == Some(Target::Memory)));
    }
}

/// "n over 65,535"
#[test]
fn record_counts_over_65_535_are_refused() {
    let mut memory = marked(8 * MIB);
    for count in [65_536, 65_537, 131_072] {
        let records = writes(count);
        assert_refused(0, &mut memory, &records, records.len());
    }
}

/// "not 16n"
#[test]
fn record_lengths_that_are_no_multiple_of_16_are_refused() {
    let mut memory = marked(8 * MIB);
    let records = writes(65_536);
    for length in [1, 8, 15, 17, 24, 31, 33, 1_048_559, 1_048_561, 1_048_575] {
        assert_refused(0, &mut memory, &records[..length], length);
    }
}

/// "answers are as long as records"
#[test]
fn answers_of_another_length_are_refused() {
    let mut memory = marked(8 * MIB);
    let records = writes(4);
    for length in [0, 1, 15, 16, 48, 63, 65, 80, 1_048_576] {
        assert_refused(0, &mut memory, &records, length);
    }
    for length in [1, 16] {
        assert_refused(0, &mut memory, &[], length);
    }
}

/// "a multiple of 8 MiB", of which 8 MiB is the least. `one_gibibyte.rs` has the largest.
#[test]
fn memory_of_a_wrong_length_is_refused() {
    let mut memory = marked(520 * MIB);
    let records = writes(4);
    let lengths = [
        0,
        1,
        4096,
        4 * MIB,
        8 * MIB - 1,
        8 * MIB + 1,
        8 * MIB + 4096,
        12 * MIB,
        16 * MIB - 1,
        504 * MIB + 1,
        512 * MIB - 1,
        512 * MIB + 1,
        512 * MIB + 4096,
        516 * MIB,
        520 * MIB - 1,
    ];
    for length in lengths {
        assert_refused(0, &mut memory[..length], &records, records.len());
    }
}

/// A memory has its last word just below its length.
#[test]
fn memory_of_8_to_520_mib_is_good() {
    for length in [8 * MIB, 16 * MIB, 504 * MIB, 512 * MIB, 520 * MIB] {
        let mut memory = vec![0; length];
        let top = length as u32;
        let records = record::encode(&[
            Record::write(top - 4, 4, 0x8281_0000, false),
            Record::read(top - 2, 2, false),
            Record::read(top, 4, false),
        ]);
        let mut answers = vec![UNTOUCHED; records.len()];
        assert_eq!(call::gmch_replay(1, &mut memory, &records, &mut answers, &mut blank_display(1)), 0);
        let answers: Vec<_> = record::decode_answers(&answers).collect();
        assert_eq!(answers[1], common::reached(Target::Memory, top - 2, 0x8281));
        assert_eq!(answers[2], common::reached(Target::Hub, top, 0));
        assert_eq!(memory[length - 4..], 0x8281_0000_u32.to_le_bytes());
    }
}

/// "Board kind 0 is 82810, 1 is DC100." Request 10 of document 02: "Add board kinds 2 (82810) and 3 (DC100)".
#[test]
fn board_kinds_0_to_3_are_good() {
    let records = writes(4);
    for board in 0..4 {
        let mut memory = vec![0; 8 * MIB];
        let mut answers = vec![UNTOUCHED; records.len()];
        assert_eq!(
            call::gmch_replay(board, &mut memory, &records, &mut answers, &mut blank_display(board)),
            0,
            "{board}"
        );
        assert!(record::decode_answers(&answers).all(|answer| answer.target() == Some(Target::Memory)));
        assert_eq!(memory[0x1000..0x1004], 0x1234_5678_u32.to_le_bytes());
        assert_eq!(
            reference::replay(board, &mut memory, &records, &mut answers, &mut blank_display(board)),
            0,
            "{board}"
        );
    }
}

/// The lengths are asked of each board.
#[test]
fn wrong_lengths_are_refused_on_every_board() {
    let mut memory = marked(8 * MIB);
    let records = writes(4);
    for board in 0..4 {
        assert_refused(board, &mut memory[..8 * MIB - 1], &records, records.len());
        assert_refused(board, &mut memory, &records[1..], records.len() - 1);
        assert_refused(board, &mut memory, &records, records.len() - 16);
    }
}

#[test]
fn every_other_board_kind_is_refused() {
    let mut memory = marked(8 * MIB);
    let records = writes(4);
    for board in [4, 5, 6, 7, 8, 255, 256, 257, 258, 259, 65_536, 65_538, 1 << 31, (1 << 31) + 2, u32::MAX] {
        assert_refused(board, &mut memory, &records, records.len());
    }
}

/// Several wrong arguments are code 1 too.
#[test]
fn everything_wrong_at_once_is_refused() {
    let mut memory = marked(8 * MIB + 1);
    assert_refused(u32::MAX, &mut memory, &writes(65_537)[1..], 5);
    assert_refused(4, &mut [], &[0], 0);
}

/// The error says which argument the call refused.
#[test]
fn a_wrong_argument_is_named() {
    let mut memory = vec![0; 8 * MIB];
    let wrong = |memory: &mut [u8], records: usize, answers: usize| {
        let records = vec![0; records];
        replay(Board::I82810, memory, &records, &mut vec![0; answers], &mut [])
    };
    assert_eq!(wrong(&mut memory, 32, 32), Ok(()));
    assert_eq!(wrong(&mut [], 0, 0), Err(WrongArgument::Memory { bytes: 0 }));
    assert_eq!(wrong(&mut memory[1..], 0, 0), Err(WrongArgument::Memory { bytes: 8 * MIB - 1 }));
    assert_eq!(wrong(&mut memory, 17, 17), Err(WrongArgument::Records { bytes: 17 }));
    assert_eq!(wrong(&mut memory, 65_536 * 16, 65_536 * 16), Err(WrongArgument::Records { bytes: 65_536 * 16 }));
    assert_eq!(wrong(&mut memory, 16, 32), Err(WrongArgument::Answers { bytes: 32, expected: 16 }));
    assert!(WrongArgument::Answers { bytes: 32, expected: 16 }.to_string().starts_with("answers: expected 16 bytes"));
}

/// "It needs 72 KiB of stack": a thread with little more is enough.
#[test]
fn a_call_needs_no_more_stack_than_its_documentation_says() {
    for board in 0..4 {
        let call = move || {
            let records = record::encode(&[Record::run(7), Record::read(0x1000, 4, false), Record::reset()]);
            let (mut memory, mut answers) = (vec![0; 8 * MIB], vec![0; records.len()]);
            call::gmch_replay(board, &mut memory, &records, &mut answers, &mut blank_display(board))
        };
        let thread = std::thread::Builder::new().stack_size((72 << 10) + (8 << 10)).spawn(call).expect("a thread");
        assert_eq!(thread.join().expect("the stack is enough"), 0);
    }
}
