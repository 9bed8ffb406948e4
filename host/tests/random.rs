//! The proved call and the reference, compared byte for byte on random lists.

mod common;

use common::compare::{undo, Lists};
use common::{lists, seed, Coverage, Random, Script, MIB};
use mitrophel::{call, record, reference, Board, DISPLAY_BYTES};
use std::time::Instant;

/// Demand 2 as a test: "Each call is a cold start, replays all records in order and returns 0", and
/// every answer and every byte of both memories is what document 01 and requests 3, 5, 8, 9, 10 and 11 of document 02 say.
/// On every board every code, every write of a power state, and all of a display cache, of forbidden entries and of shadow
/// memory and the hole must have been met, and so must every kind, target, rule and event, and every place of a refusal.
#[test]
fn call_and_reference_agree_on_random_lists() {
    let started = Instant::now();
    let mut lists_of = Lists::new(seed());
    let (mut memory, mut display) = (lists_of.pristine.clone(), lists_of.pristine_display.clone());
    let mut answers = Vec::new();
    let mut coverage = Coverage::default();
    let (count, mut records) = (lists(20_000), 0);
    for number in 0..count {
        let list = lists_of.make(number);
        records += list.records.len() / 16;
        answers.clear();
        answers.resize(list.records.len(), 0xA5);
        let (memory_lent, display_lent) = (&mut memory[..list.tom], &mut display[..list.display]);
        let result = call::gmch_replay(list.board, memory_lent, &list.records, &mut answers, display_lent);
        assert_eq!(result, 0, "list {number}");
        if let Err(why) = lists_of.check(&list, &answers, &memory, &display) {
            panic!("{why}");
        }
        // A write where the reference wrote nothing stays in memory until this sees it.
        if number % 64 == 63 || number + 1 == count {
            assert!(memory == lists_of.expected, "memory differs after one of the 64 lists up to {number}");
            assert!(display == lists_of.expected_display, "the display cache differs, 64 lists up to {number}");
        }
        undo(&mut memory, &lists_of.pristine, &list.writes);
        undo(&mut display, &lists_of.pristine_display, &list.display_writes);
        lists_of.restore(&list);
        coverage.add(&list.coverage);
    }
    println!("{count} lists, {records} records, {:.1} s", started.elapsed().as_secs_f64());
    print!("{coverage}");
    assert_eq!(coverage.missing(), Vec::<String>::new(), "never met");
}

/// Any bytes are records: noise that keeps the layout half of the time, at any address. Half of it is for the ranges that
/// PAMR and FDHC steer, whose values are noise, too.
#[test]
fn call_and_reference_agree_on_noise() {
    let mut random = Random::new(seed());
    let (mut memory, mut expected_memory) = (vec![0; 16 * MIB], vec![0; 16 * MIB]);
    let (mut display, mut expected_display) = (vec![0; DISPLAY_BYTES], vec![0; DISPLAY_BYTES]);
    for list in 0..lists(20_000).min(200) {
        let mut records: Vec<u8> = (0..16 * random.below(500)).map(|_| random.word() as u8).collect();
        for record in records.chunks_exact_mut(16).filter(|_| random.one_in(2)) {
            record[0] %= 11;
            record[1] = 1 << (record[1] % 3);
            record[2] = 0;
            record[3] = 0;
            record[12..].fill(0);
            if record[0] != 5 {
                record[8..12].fill(0);
            }
            // C0000h-FFFFFh, and F00000h-FFFFFFh.
            (record[6], record[7]) = match (record[6], record[7] % 4) {
                (noise, 0) => (0x0C + noise % 4, 0),
                (noise, 1) => (0xF0 | noise, 0),
                _ => (record[6], record[7]),
            };
        }
        let mut steered = Script::new();
        steered.config_write(0, 0x50, 2, random.word());
        steered.config_write(0, 0x58, 1, random.word());
        records.splice(0..0, record::encode(&steered.records));
        let (mut answers, mut expected) = (vec![0xA5; records.len()], vec![0x5A; records.len()]);
        let board = random.below(Board::ALL.len() as u32);
        let length = Board::ALL[board as usize].display_bytes();
        let (lent, expected_lent) = (&mut display[..length], &mut expected_display[..length]);
        assert_eq!(call::gmch_replay(board, &mut memory, &records, &mut answers, lent), 0);
        assert_eq!(reference::replay(board, &mut expected_memory, &records, &mut expected, expected_lent), 0);
        assert!(answers == expected, "list {list}");
    }
    assert!(memory == expected_memory, "memory differs");
    assert!(display == expected_display, "the display cache differs");
}

/// The reference's own loop over a list gives what its single steps gave while the list was made.
#[test]
fn reference_replays_a_list_as_it_made_it() {
    let mut lists_of = Lists::new(seed());
    let (mut memory, mut display) = (lists_of.pristine.clone(), lists_of.pristine_display.clone());
    for number in 0..lists(20_000).min(500) {
        let list = lists_of.make(number);
        let mut answers = vec![0; list.records.len()];
        let (memory_lent, display_lent) = (&mut memory[..list.tom], &mut display[..list.display]);
        assert_eq!(reference::replay(list.board, memory_lent, &list.records, &mut answers, display_lent), 0);
        if let Err(why) = lists_of.check(&list, &answers, &memory, &display) {
            panic!("{why}");
        }
        undo(&mut memory, &lists_of.pristine, &list.writes);
        undo(&mut display, &lists_of.pristine_display, &list.display_writes);
        lists_of.restore(&list);
    }
}
