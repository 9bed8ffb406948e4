//! Every example of document 01, through the call and through the reference.

mod common;

use common::{ran, reached, refused_at, Script, MIB};
use mitrophel::{call, reference, Record, Target};

/// "Whole case, board 0, two records".
#[test]
fn the_whole_case_gives_its_answers() {
    let records: [u8; 32] = [
        0x02, 0x04, 0x00, 0x00, 0xF8, 0x0C, 0x00, 0x00, 0x00, 0x00, 0x00, 0x80, 0x00, 0x00, 0x00, 0x00, //
        0x01, 0x04, 0x00, 0x00, 0xFC, 0x0C, 0x00, 0x00, 0x00, 0x00, 0x00, 0x00, 0x00, 0x00, 0x00, 0x00,
    ];
    let expected: [u8; 32] = [
        0x00, 0x02, 0x00, 0x00, 0xF8, 0x0C, 0x00, 0x00, 0x00, 0x00, 0x00, 0x00, 0x00, 0x00, 0x00, 0x00, //
        0x00, 0x02, 0x00, 0x00, 0x00, 0x00, 0x00, 0x00, 0x86, 0x80, 0x20, 0x71, 0x00, 0x00, 0x00, 0x00,
    ];
    let mut memory = vec![0; 8 * MIB];
    let mut answers = [0xFF; 32];
    assert_eq!(call::gmch_replay(0, &mut memory, &records, &mut answers, &mut []), 0);
    assert_eq!(answers, expected);
    answers.fill(0xFF);
    assert_eq!(reference::replay(0, &mut memory, &records, &mut answers, &mut []), 0);
    assert_eq!(answers, expected);
    assert!(memory.iter().all(|&byte| byte == 0));
}

/// The constructors make the whole case's bytes.
#[test]
fn the_whole_case_is_written_by_the_constructors() {
    let records = [Record::io_write(0xCF8, 4, 0x8000_0000), Record::io_read(0xCFC, 4)];
    let answers = common::replay_both(0, &mut vec![0; 8 * MIB], &records);
    assert_eq!(answers, [reached(Target::Register, 0xCF8, 0), reached(Target::Register, 0, 0x7120_8086)]);
}

/// "TOM 8 MiB. SMRAM written BEh: *U = 680000h. *67FFFCh: memory. *680000h: hub, no error."
#[test]
fn usable_memory_ends_at_680000h() {
    let mut script = Script::new();
    script.smram(0xBE);
    let below = script.push(Record::read(0x67_FFFC, 4, false));
    let above = script.push(Record::read(0x68_0000, 4, false));
    let error = script.read_smram();
    let answers = script.replay();
    assert_eq!(answers[below], reached(Target::Memory, 0x67_FFFC, 0));
    assert_eq!(answers[above], reached(Target::Hub, 0x68_0000, 0));
    assert_eq!(answers[error], reached(Target::Register, 0x70, 0xBE));
}

/// "*700000h: hub, error; in management: memory. *Then writing 01h leaves BEh."
#[test]
fn the_tseg_sets_the_error_bit_and_serves_management_mode() {
    let mut script = Script::new();
    script.smram(0xBE);
    let outside = script.push(Record::read(0x70_0000, 4, false));
    let error = script.read_smram();
    let management = script.push(Record::read(0x70_0000, 4, true));
    script.smram(0x01);
    let cleared = script.read_smram();
    let answers = script.replay();
    assert_eq!(answers[outside], reached(Target::Hub, 0x70_0000, 0));
    assert_eq!(answers[error], reached(Target::Register, 0x70, 0xBF));
    assert_eq!(answers[management], reached(Target::Memory, 0x70_0000, 0));
    assert_eq!(answers[cleared], reached(Target::Register, 0x70, 0xBE));
}

/// "*Entries stored before the lock, translation on: 0009F001h reached at offset ABCh as 9FABCh;
/// *000A0001h code 6; *006FF001h reached; *00700001h code 6; *00800001h code 7; 0 code 4."
#[test]
fn entries_stored_before_the_lock_are_reached_or_refused() {
    let entries = [0x0009_F001, 0x000A_0001, 0x006F_F001, 0x0070_0001, 0x0080_0001, 0];
    let mut script = Script::new();
    script.graphics();
    for (number, entry) in entries.iter().enumerate() {
        script.entry(number as u32, *entry);
    }
    script.translation_on();
    script.smram(0xBE);
    let first = script.window_read(0xABC, 4);
    for page in 1..6 {
        script.window_read(page << 12, 4);
    }
    let answers = script.replay();
    let expected = [
        reached(Target::Memory, 0x9_FABC, 0),
        refused_at(6, 0x1000),
        reached(Target::Memory, 0x6F_F000, 0),
        refused_at(6, 0x3000),
        refused_at(7, 0x4000),
        refused_at(4, 0x5000),
    ];
    assert_eq!(answers[first..], expected);
}

/// "*Entry data FFFFFFFFh stores 3FFFF007h."
#[test]
fn an_entry_stores_its_named_bits() {
    let mut script = Script::new();
    script.graphics();
    script.entry(16_383, 0xFFFF_FFFF);
    let read = script.register_read(0x1_FFFC);
    assert_eq!(script.replay()[read], reached(Target::MemoryMapped, 0x1_FFFC, 0x3FFF_F007));
}

/// "*Fence 21h: offset 700 becomes 2236, 8192 stays."
#[test]
fn fence_21h_moves_700_and_leaves_8192() {
    let mut script = Script::new();
    script.graphics();
    for page in 0..3 {
        script.entry(page, 0x10_0001 + (page << 12));
    }
    script.translation_on();
    script.register_write(0x2000, 0x21);
    let moved = script.window_read(700, 4);
    let stays = script.window_read(8192, 4);
    let answers = script.replay();
    assert_eq!(answers[moved], reached(Target::Memory, 0x10_0000 + 2236, 0));
    assert_eq!(answers[stays], reached(Target::Memory, 0x10_0000 + 8192, 0));
}

/// "*Ring of 4,096, head 4,092, tail 0, a zero word: offset 0, one wrap."
#[test]
fn a_ring_wraps_after_its_last_word() {
    let mut script = Script::new();
    script.graphics();
    script.entry(0, 0x10_0001);
    script.translation_on();
    script.ring(0, 0x0000_0001, 4092, 0);
    let run = script.run(1);
    assert_eq!(script.replay()[run], ran(0, 1 << 21, 1));
}

/// "Zero records: result 0."
#[test]
fn zero_records_give_result_0() {
    let mut memory = vec![0xC3; 8 * MIB];
    assert_eq!(call::gmch_replay(0, &mut memory, &[], &mut [], &mut []), 0);
    assert_eq!(reference::replay(0, &mut memory, &[], &mut [], &mut []), 0);
    assert!(memory.iter().all(|&byte| byte == 0xC3));
}
