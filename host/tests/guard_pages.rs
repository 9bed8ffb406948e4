//! Memory safety at run time: each buffer lies flush against a page that cannot be touched, on either
//! side in turn, and the records cannot be written. A byte read or written outside a buffer ends the
//! test with a fault. Linux on x86-64.
#![cfg(all(target_os = "linux", target_arch = "x86_64"))]

mod common;

use common::compare::{undo, Lists};
use common::generate::LIST_MEMORY;
use common::guarded::{ends_of_tables, Guarded, Side, FILL, PAGE};
use common::{blank_display, lists, seed, Script};
use mitrophel::{call, record, reference, Board, Record, DISPLAY_BYTES};

/// The most bytes of a random list, with room to spare.
const MOST_BYTES: usize = 256 << 10;

/// "memory", "records", "answers" and the display cache are all that the call touches: "Main memory is a lent byte
/// slice", and "The host lends a second memory".
#[test]
fn the_call_stays_inside_each_buffer() {
    let mut lists_of = Lists::new(seed());
    // Memory is whole pages, so it is flush on both sides; its sizes have a mapping each.
    let mut memories: Vec<Guarded> = [8, 16, 24].map(|size| Guarded::new(size << 20)).into();
    for memory in &mut memories {
        let length = memory.room;
        memory.whole().copy_from_slice(&lists_of.pristine[..length]);
    }
    assert_eq!(memories.last().map(|memory| memory.room), Some(LIST_MEMORY));
    let mut records = Guarded::new(MOST_BYTES);
    let mut answers = Guarded::new(MOST_BYTES);
    // The display cache is whole pages or, where a board has none, a place beside a page that cannot be touched.
    let mut display = Guarded::new(DISPLAY_BYTES);
    display.whole().copy_from_slice(&lists_of.pristine_display);
    for number in 0..lists(2_000).min(2_000) {
        let side = |bit: u64| if number >> bit & 1 == 0 { Side::After } else { Side::Before };
        let list = lists_of.make(number);
        let length = list.records.len();
        let memory = memories.iter_mut().find(|memory| memory.room == list.tom).expect("a mapping of this size");

        records.part(length, side(0)).copy_from_slice(&list.records);
        let result = records.read_only(length, side(0), |lent| {
            let answers = answers.part(length, side(1));
            call::gmch_replay(list.board, memory.whole(), lent, answers, display.part(list.display, side(2)))
        });
        assert_eq!(result, 0);

        let checked = lists_of.check(&list, answers.part(length, side(1)), memory.whole(), display.whole());
        assert_eq!(checked, Ok(()));
        assert!(records.is_clean_beside(length, side(0)), "list {number}: bytes beside the records");
        assert!(answers.is_clean_beside(length, side(1)), "list {number}: bytes beside the answers");
        undo(memory.whole(), &lists_of.pristine, &list.writes);
        undo(display.whole(), &lists_of.pristine_display, &list.display_writes);
        lists_of.restore(&list);
    }
    assert!(display.whole() == lists_of.pristine_display, "written, where the reference wrote nothing");
}

/// Request 10 of document 02: the table's words are bytes of memory, up to its very ends and no further. Tables that end
/// where memory does, that begin there, that run past the end or past 4 GiB, and one that begins where memory does.
#[test]
fn a_table_in_memory_stays_inside_memory() {
    const TOP: u32 = 8 << 20;
    let mut memory = Guarded::new(TOP as usize);
    for base in [TOP - 0x1_0000, TOP - 0xF000, TOP - 0x1000, TOP, 0xFFFF_0000, 0xFFFF_F000, 0] {
        let script = ends_of_tables(base, TOP);
        let records = record::encode(&script.records);
        for board in Board::ALL.map(Board::number) {
            let (mut expected, mut expected_memory) = (vec![0; records.len()], vec![0; TOP as usize]);
            let mut lent = blank_display(board);
            assert_eq!(reference::replay(board, &mut expected_memory, &records, &mut expected, &mut lent), 0);
            memory.whole().fill(0);
            let mut answers = vec![0xA5; records.len()];
            assert_eq!(call::gmch_replay(board, memory.whole(), &records, &mut answers, &mut blank_display(board)), 0);
            assert!(answers == expected, "board kind {board}, table at {base:X}h: the answers differ");
            assert!(memory.whole() == expected_memory, "board kind {board}, table at {base:X}h: memory differs");
        }
    }
}

/// Request 11 of document 02: the display cache is reached up to its very ends and no further, through the window and by
/// the parser. Its pages are flush on both sides.
#[test]
fn a_display_cache_stays_inside_its_buffer() {
    const LAST: u32 = DISPLAY_BYTES as u32 - 4;
    let mut lent = Guarded::new(DISPLAY_BYTES);
    let mut script = Script::new();
    script.graphics();
    script.register_write(0x2020, 0x20_0001);
    script.register_write(0x3000, 1);
    let page = |address: u32| address & !0xFFF | 3;
    for (number, address) in [0, LAST, LAST + 4, 2 * LAST, 0x3FFF_F000].into_iter().enumerate() {
        let number = number as u32;
        script.entry(number, page(address));
        for (at, width) in [(0, 1), (0, 2), (0, 4), (0xFFC, 4), (0xFFE, 2), (0xFFF, 1)] {
            script.push(Record::write(Script::WINDOW + (number << 12 | at), width, 0x0102_0304, false));
            script.window_read(number << 12 | at, width);
        }
        // From the last word of the page to its first.
        script.ring(number << 12, 1, 0xFFC, 8);
        script.run(u32::MAX);
    }
    let records = record::encode(&script.records);
    for board in Board::ALL {
        let (number, length) = (board.number(), board.display_bytes());
        let (mut expected, mut expected_memory) = (vec![0; records.len()], vec![0; 8 << 20]);
        let mut expected_display = vec![0; length];
        let display = &mut expected_display;
        assert_eq!(reference::replay(number, &mut expected_memory, &records, &mut expected, display), 0);
        for side in [Side::Before, Side::After] {
            lent.part(length, side).fill(0);
            let (mut memory, mut answers) = (vec![0; 8 << 20], vec![0xA5; records.len()]);
            let display = lent.part(length, side);
            assert_eq!(call::gmch_replay(number, &mut memory, &records, &mut answers, display), 0);
            assert!(answers == expected, "board {board}: the answers differ");
            assert!(memory == expected_memory, "board {board}: memory differs");
            assert!(display == expected_display, "board {board}: the display cache differs");
            assert!(lent.is_clean_beside(length, side), "board {board}: bytes beside the display cache");
        }
    }
}

/// The same for arguments that are refused: lengths that are wrong by one must not be believed.
#[test]
fn a_refused_call_stays_inside_each_buffer() {
    let mut memory = Guarded::new(8 << 20);
    let mut records = Guarded::new(PAGE);
    let mut answers = Guarded::new(PAGE);
    let mut display = Guarded::new(2 * DISPLAY_BYTES);
    let sides = [Side::Before, Side::After];
    for (side, board) in sides.into_iter().flat_map(|side| [(side, 0), (side, 1), (side, 2), (side, 3)]) {
        let own = blank_display(board).len();
        // Lengths of memory, records, answers and display cache.
        let wrong = [
            ((8 << 20) - 1, 64, 64, own),
            (0, 64, 64, own),
            (8 << 20, 63, 63, own),
            (8 << 20, 64, 63, own),
            (8 << 20, 64, 48, own),
            (8 << 20, 48, 64, own),
            (8 << 20, 0, 16, own),
            (8 << 20, 16, 0, own),
            (8 << 20, 64, 64, DISPLAY_BYTES - own),
            (8 << 20, 64, 64, own + 1),
            (8 << 20, 64, 64, DISPLAY_BYTES - 1),
            (8 << 20, 64, 64, 2 * DISPLAY_BYTES),
        ];
        for (memory_length, records_length, answers_length, display_length) in wrong {
            records.part(records_length, side).fill(5);
            let result = call::gmch_replay(
                board,
                memory.part(memory_length, side),
                records.part(records_length, side),
                answers.part(answers_length, side),
                display.part(display_length, side),
            );
            assert_eq!(result, 1);
            assert!(records.is_clean_beside(records_length, side));
            assert!(answers.whole().iter().all(|&byte| byte == FILL), "answers were touched");
            assert!(memory.whole().iter().all(|&byte| byte == FILL), "memory was touched");
            assert!(display.whole().iter().all(|&byte| byte == FILL), "the display cache was touched");
        }
    }
}

/// No records, no answers, and memory of no length: pointers that must not be followed.
#[test]
fn empty_buffers_are_not_followed() {
    let mut memory = Guarded::new(8 << 20);
    for board in Board::ALL.map(Board::number) {
        assert!(call::gmch_replay(board, &mut [], &[], &mut [], &mut []) == 1);
        assert!(call::gmch_replay(board, memory.whole(), &[], &mut [], &mut blank_display(board)) == 0);
    }
    assert!(memory.whole().iter().all(|&byte| byte == FILL));
}
