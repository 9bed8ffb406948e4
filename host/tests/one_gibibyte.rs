//! Request 6 of document 02, "One gibibyte": each of its sentences with the answers it asks for. Every list goes through
//! the call and through the reference, on every board. The call's memory lies flush against a page that cannot be
//! touched, behind it and before it in turn: a byte read or written outside it ends the test with a fault. Linux on
//! x86-64.
#![cfg(all(target_os = "linux", target_arch = "x86_64"))]

mod common;

use common::compare::{range, undo, Lists};
use common::guarded::{ends_of_tables, Guarded, Side, PAGE};
use common::isolation::two_runs_on_zeros;
use common::{
    blank_display, hub, is_answered, lists, mapped, ran, reached, refused, refused_at, seed, Coverage, Script, Watch,
    MIB,
};
use mitrophel::faults::Faultless;
use mitrophel::reference::{self, replay_with, Touch};
use mitrophel::{call, record, replay, Answer, Board, Record, Target, WrongArgument, MOST_MEMORY};
use std::sync::{Mutex, PoisonError};

const TOP: u32 = 0x4000_0000;
const ALL: [u32; 4] = [0, 1, 2, 3];
/// The boards whose table is in main memory.
const MAIN: [u32; 2] = [2, 3];
const SIDES: [Side; 2] = [Side::After, Side::Before];

/// Room for the largest memory and for lengths just above.
const ROOM: usize = MOST_MEMORY + 8 * MIB;

/// The memory that the call is lent, and the reference's. All bytes are zero between two lists.
struct Memories {
    lent: Guarded,
    expected: Vec<u8>,
}

/// Lends the memories to one test after another, and asks after each that the call's is all zero. A test that fails
/// takes them with it.
fn on_memories(test: impl FnOnce(&mut Memories)) {
    static MEMORIES: Mutex<Option<Memories>> = Mutex::new(None);
    let mut kept = MEMORIES.lock().unwrap_or_else(PoisonError::into_inner);
    let make = || Memories { lent: Guarded::zeros(ROOM), expected: vec![0; ROOM] };
    let mut memories = kept.take().unwrap_or_else(make);
    test(&mut memories);
    assert_zero(memories.lent.whole());
    *kept = Some(memories);
}

/// A write where the reference wrote nothing stays in memory until this sees it.
#[track_caller]
fn assert_zero(memory: &[u8]) {
    if let Some(page) = memory.chunks(PAGE).position(|page| *page != [0; PAGE]) {
        panic!("{:X}h bytes into the mapping: written, where the reference wrote nothing", page * PAGE);
    }
}

fn clear(memory: &mut [u8], writes: &[Touch]) {
    for touch in writes {
        memory[range(touch)].fill(0);
    }
}

impl Memories {
    /// The answers of one board with a memory of this length.
    #[track_caller]
    fn replay_on(&mut self, board: u32, tom: usize, script: &Script) -> Vec<Answer> {
        let records = record::encode(&script.records);
        let mut expected = vec![0xA5; records.len()];
        let mut watch = Watch::default();
        let memory = &mut self.expected[..tom];
        let (mut display_lent, watching) = (blank_display(board), &mut watch);
        let result = replay_with(board, memory, &records, &mut expected, &mut display_lent, watching, Faultless);
        assert_eq!(result, 0);
        for side in SIDES {
            let mut actual = vec![0x5A; records.len()];
            let lent = self.lent.part(tom, side);
            assert_eq!(call::gmch_replay(board, lent, &records, &mut actual, &mut blank_display(board)), 0);
            let pairs = record::decode_answers(&expected).zip(record::decode_answers(&actual));
            for (record, (expected, actual)) in script.records.iter().zip(pairs) {
                assert_eq!(actual, expected, "board {board}, {record}");
            }
            for touch in &watch.writes {
                assert_eq!(lent[range(touch)], memory[range(touch)], "board {board}, {:X}h", touch.address);
            }
            clear(lent, &watch.writes);
        }
        clear(memory, &watch.writes);
        record::decode_answers(&expected).collect()
    }

    /// The answers of these boards with 1 GiB, which are the same.
    #[track_caller]
    fn replay_same(&mut self, boards: &[u32], script: &Script) -> Vec<Answer> {
        let first = self.replay_on(boards[0], MOST_MEMORY, script);
        for &board in &boards[1..] {
            assert_eq!(self.replay_on(board, MOST_MEMORY, script), first, "boards {} and {board}", boards[0]);
        }
        first
    }

    #[track_caller]
    fn replay(&mut self, script: &Script) -> Vec<Answer> {
        self.replay_same(&ALL, script)
    }
}

fn memory(address: u32) -> Answer {
    reached(Target::Memory, address, 0)
}

/// The register of word `number`.
fn word(number: u32) -> u32 {
    0x1_0000 + 4 * number
}

fn read(script: &mut Script, address: u32) -> usize {
    script.push(Record::read(address, 4, false))
}

/// Whether SMRAM's error bit is set, as this read of SMRAM has it.
fn error(answers: &[Answer], smram: usize) -> bool {
    answers[smram].value & 1 != 0
}

/// Graphics on, and translation on. The table is at 1 MiB on boards that have it in main memory.
fn graphics() -> Script {
    let mut script = Script::new();
    script.graphics();
    script.register_write(0x2020, 0x10_0001);
    script
}

/// Each SMRAM with GMS and USMM, with G and T.
fn smrams() -> impl Iterator<Item = (u8, u32, u32)> {
    let gms = [(0x00, 0), (0x40, 0), (0x80, 0x8_0000), (0xC0, 0x10_0000)];
    let usmm = [(0x00, 0), (0x10, 0), (0x20, 0x8_0000), (0x30, 0x10_0000)];
    gms.into_iter().flat_map(move |(gms, taken)| usmm.map(|(usmm, tseg)| (gms | usmm, taken, tseg)))
}

/// "Raise the largest TOM from 512 MiB to 1,024 MiB": memory goes on at 20000000h, up to its last byte at 3FFFFFFFh.
#[test]
fn memory_is_reached_up_to_its_last_byte() {
    let mut script = Script::new();
    let write = script.push(Record::write(0x3FFF_FFFC, 4, 0x8281_0DC1, false));
    let parts = [(0x3FFF_FFFC, 4), (0x3FFF_FFFC, 2), (0x3FFF_FFFE, 2), (0x3FFF_FFFF, 1)]
        .map(|(address, width)| script.push(Record::read(address, width, false)));
    let others = [
        Record::read(0x3FFF_FFFC, 4, true),
        Record::code_read(0x3FFF_FFFC, 4, false),
        Record::code_read(0x3FFF_FFFC, 4, true),
        Record::master_read(0x3FFF_FFFC, 4),
    ]
    .map(|record| script.push(record));
    let middle = [0x1FFF_FFFC, 0x2000_0000, 0x2000_0004, 0x3000_0000].map(|address| read(&mut script, address));
    let crossing = script.push(Record::read(0x3FFF_FFFF, 2, false));
    let above = [0x4000_0000, 0x4000_0004, 0x6000_0000, 0x8000_0000].map(|address| read(&mut script, address));
    let master_above = script.push(Record::master_write(0x4000_0000, 4, 0xFFFF_FFFF));
    on_memories(|memories| {
        let answers = memories.replay(&script);
        assert_eq!(answers[write], memory(0x3FFF_FFFC));
        let values = [
            reached(Target::Memory, 0x3FFF_FFFC, 0x8281_0DC1),
            reached(Target::Memory, 0x3FFF_FFFC, 0x0DC1),
            reached(Target::Memory, 0x3FFF_FFFE, 0x8281),
            reached(Target::Memory, 0x3FFF_FFFF, 0x82),
        ];
        assert_eq!(parts.map(|i| answers[i]), values);
        assert_eq!(others.map(|i| answers[i]), [values[0]; 4]);
        assert_eq!(middle.map(|i| answers[i]), [0x1FFF_FFFC, 0x2000_0000, 0x2000_0004, 0x3000_0000].map(memory));
        assert_eq!(answers[crossing], refused(2));
        assert_eq!(above.map(|i| answers[i]), [0x4000_0000, 0x4000_0004, 0x6000_0000, 0x8000_0000].map(hub));
        assert_eq!(answers[master_above], hub(0x4000_0000));
    });
}

/// "U = TOM - T - G": below it memory, then taken memory, which is the hub's and sets no error bit, then the TSEG, which
/// is management mode's and sets it.
#[test]
fn u_and_the_tseg_are_counted_from_1_gib() {
    on_memories(|memories| {
        for (smram, taken, tseg) in smrams() {
            let usable = TOP - tseg - taken;
            let mut script = Script::new();
            script.smram(smram);
            let below = script.push(Record::write(usable - 4, 4, 0x8281_0000, false));
            let below_read = read(&mut script, usable - 4);
            let edges = |from: u32, to: u32| if from < to { vec![from, to - 4] } else { vec![] };
            let in_taken: Vec<_> = edges(usable, TOP - tseg)
                .into_iter()
                .flat_map(|address| [false, true].map(|management| Record::write(address, 4, 0x0BAD_0BAD, management)))
                .map(|record| script.push(record))
                .collect();
            let no_error = script.read_smram();
            let in_tseg: Vec<_> = edges(TOP - tseg, TOP)
                .into_iter()
                .map(|address| {
                    let closed = script.push(Record::write(address, 4, 0x0BAD_0BAD, false));
                    let error = script.read_smram();
                    // Writing 1 clears the error bit.
                    script.smram(smram | 1);
                    let open = script.push(Record::write(address, 4, !address, true));
                    let back = script.push(Record::code_read(address, 4, true));
                    let cleared = script.read_smram();
                    (address, closed, error, open, back, cleared)
                })
                .collect();
            let answers = memories.replay(&script);
            assert_eq!(answers[below], memory(usable - 4), "SMRAM {smram:02X}h");
            assert_eq!(answers[below_read], reached(Target::Memory, usable - 4, 0x8281_0000));
            for i in in_taken {
                assert_eq!(answers[i], hub(script.records[i].address), "SMRAM {smram:02X}h");
            }
            assert!(!error(&answers, no_error), "SMRAM {smram:02X}h");
            for (address, closed, set, open, back, cleared) in in_tseg {
                assert_eq!(answers[closed], hub(address), "SMRAM {smram:02X}h");
                assert_eq!(answers[open], memory(address), "SMRAM {smram:02X}h");
                assert_eq!(answers[back], reached(Target::Memory, address, !address), "SMRAM {smram:02X}h");
                assert!(error(&answers, set) && !error(&answers, cleared), "SMRAM {smram:02X}h");
            }
        }
    });
}

/// The examples at the edges of document 01 on 1 GiB: "SMRAM written BEh: U = 680000h. 67FFFCh: memory. 680000h: hub, no
/// error. 700000h: hub, error; in management: memory. Then writing 01h leaves BEh." 8 MiB become 1 GiB in each number.
/// Of the entries, 00700001h becomes 3FF00001h; 00800001h, which is code 7, has none that it could become.
#[test]
fn the_examples_at_the_edges_hold_on_1_gib() {
    let mut script = graphics();
    let entries = [0x0009_F001, 0x000A_0001, 0x3FEF_F001, 0x3FF0_0001, 0x3FFF_F001, 0];
    for (number, entry) in entries.into_iter().enumerate() {
        script.entry(number as u32, entry);
    }
    script.smram(0xBE);
    let usable = read(&mut script, 0x3FE7_FFFC);
    let taken = read(&mut script, 0x3FE8_0000);
    let last_taken = read(&mut script, 0x3FEF_FFFC);
    let no_error = script.read_smram();
    let tseg = read(&mut script, 0x3FF0_0000);
    let with_error = script.read_smram();
    let management = script.push(Record::read(0x3FF0_0000, 4, true));
    script.smram(0x01);
    let left = script.read_smram();
    let first = script.window_read(0xABC, 4);
    for page in 1..6 {
        script.window_read(page << 12 | 0xABC, 4);
    }
    on_memories(|memories| {
        let answers = memories.replay(&script);
        let routed = [usable, taken, last_taken, tseg, management].map(|i| answers[i]);
        let expected = [memory(0x3FE7_FFFC), hub(0x3FE8_0000), hub(0x3FEF_FFFC), hub(0x3FF0_0000), memory(0x3FF0_0000)];
        assert_eq!(routed, expected);
        assert_eq!([no_error, with_error, left].map(|i| answers[i].value), [0xBE, 0xBF, 0xBE]);
        let expected = [
            memory(0x9_FABC),
            refused_at(6, 0x1ABC),
            memory(0x3FEF_FABC),
            refused_at(6, 0x3ABC),
            refused_at(6, 0x4ABC),
            refused_at(4, 0x5ABC),
        ];
        assert_eq!(answers[first..], expected);
    });
}

/// "Hub masters: memory by rules 1, 4 ...; else hub, no error bit": up to U.
#[test]
fn hub_masters_reach_memory_up_to_u() {
    on_memories(|memories| {
        for (smram, taken, tseg) in smrams() {
            let usable = TOP - tseg - taken;
            let mut script = Script::new();
            script.smram(smram);
            let first = script.records.len();
            let reached_there = [0x1FFF_FFFC, 0x2000_0000, usable - 4];
            let others = [usable, TOP - tseg - 4, TOP - tseg, TOP - 4, TOP].into_iter().filter(|&at| at >= usable);
            let addresses: Vec<_> = reached_there.into_iter().chain(others).collect();
            for &address in &addresses {
                script.push(Record::master_write(address, 4, address));
                script.push(Record::master_read(address, 4));
            }
            let smram_read = script.read_smram();
            let answers = memories.replay(&script);
            for (i, &address) in addresses.iter().enumerate() {
                let expected = match address < usable {
                    true => [memory(address), reached(Target::Memory, address, address)],
                    false => [hub(address); 2],
                };
                assert_eq!(answers[first + 2 * i..][..2], expected, "SMRAM {smram:02X}h, {address:X}h");
            }
            assert!(!error(&answers, smram_read), "SMRAM {smram:02X}h");
        }
    });
}

/// Both bases, and device 1's memory access on.
fn bases(smram: u8, window: u32, registers: u32) -> Script {
    let mut script = Script::new();
    script.smram(smram);
    script.config_write(1, 0x10, 4, window);
    script.config_write(1, 0x14, 4, registers);
    script.config_write(1, 0x04, 1, 0x06);
    script
}

/// "The address map's order stays.": memory below U comes before the registers and the window.
#[test]
fn memory_hides_the_registers_and_the_window() {
    on_memories(|memories| {
        for (window, registers) in
            [(0x3C00_0000, 0x3FF8_0000), (0x2000_0000, 0x2000_0000), (0x1C00_0000, 0x1FF8_0000), (0, 0x10_0000)]
        {
            let mut script = bases(0x40, window, registers);
            let first = script.records.len();
            let addresses = [window + 0x10_0000, window + 0x3FF_FFFC, registers + 0x2020, registers + 0x7_FFFC];
            for address in addresses {
                script.push(Record::write(address, 4, !address, false));
                read(&mut script, address);
            }
            let answers = memories.replay(&script);
            let expected =
                addresses.map(|address| [memory(address), reached(Target::Memory, address, !address)]).concat();
            assert_eq!(answers[first..], expected, "window {window:X}h, registers {registers:X}h");
        }
    });
}

/// "The address map's order stays.": so does rule 5, where it says hub and where it says memory.
#[test]
fn rule_5_hides_the_registers_and_the_window() {
    // The last MiB is taken.
    let mut script = bases(0xC0, 0x3C00_0000, 0x3FF8_0000);
    let taken = [0x3FF0_0000, 0x3FF8_2020, 0x3FFF_FFFC].map(|address| read(&mut script, address));
    let no_error = script.read_smram();
    // It is the TSEG.
    script.smram(0x70);
    let tseg = [0x3FF0_0000, 0x3FF8_2020, 0x3FFF_FFFC].map(|address| read(&mut script, address));
    let with_error = script.read_smram();
    let management = [0x3FF0_0000, 0x3FF8_2020, 0x3FFF_FFFC].map(|address| script.push(Record::read(address, 4, true)));
    on_memories(|memories| {
        let answers = memories.replay(&script);
        let hubs = [0x3FF0_0000, 0x3FF8_2020, 0x3FFF_FFFC].map(hub);
        assert_eq!([taken, tseg].map(|reads| reads.map(|i| answers[i])), [hubs; 2]);
        assert!(!error(&answers, no_error) && error(&answers, with_error));
        assert_eq!(management.map(|i| answers[i]), [0x3FF0_0000, 0x3FF8_2020, 0x3FFF_FFFC].map(memory));
    });
}

/// From TOM up the registers and the window are seen, the registers first.
#[test]
fn at_1_gib_the_registers_and_the_window_are_seen() {
    // Translation is off, so that a window access is refused with its offset.
    on_memories(|memories| {
        for (window, registers, expected) in [
            (TOP, 0xF000_0000, [refused_at(3, 0), refused_at(3, 0x8_0000), refused_at(3, 0x3FF_FFFC)]),
            (0xC000_0000, TOP, [mapped(0, 0), hub(0x4008_0000), hub(0x43FF_FFFC)]),
            (TOP, TOP, [mapped(0, 0), refused_at(3, 0x8_0000), refused_at(3, 0x3FF_FFFC)]),
            (0xC000_0000, 0xF000_0000, [hub(0x4000_0000), hub(0x4008_0000), hub(0x43FF_FFFC)]),
        ] {
            let mut script = bases(0x40, window, registers);
            let below = read(&mut script, 0x3FFF_FFFC);
            let seen = [0x4000_0000, 0x4008_0000, 0x43FF_FFFC].map(|address| read(&mut script, address));
            let past = read(&mut script, 0x4400_0000);
            let answers = memories.replay(&script);
            assert_eq!(answers[below], memory(0x3FFF_FFFC));
            assert_eq!(seen.map(|i| answers[i]), expected, "window {window:X}h, registers {registers:X}h");
            assert_eq!(answers[past], hub(0x4400_0000));
        }
    });
}

/// "Entry pages reach that far.": the last page, read and written through the window up to its last byte.
#[test]
fn the_last_page_is_reached_through_the_window() {
    // FFFFF001h and FFFFFFFFh store 3FFFF001h and 3FFFF007h, of type 11.
    on_memories(|memories| {
        for (data, stored) in
            [(0x3FFF_F001, 0x3FFF_F001), (0x3FFF_F007, 0x3FFF_F007), (0xFFFF_F001, 0x3FFF_F001), (!0, 0x3FFF_F007)]
        {
            let mut script = graphics();
            script.entry(7, data);
            let entry = script.register_read(word(7));
            let first = script.push(Record::write(Script::WINDOW + 0x7000, 4, 0x1234_5678, false));
            script.push(Record::write(Script::WINDOW + 0x7FFC, 4, 0x8281_0DC1, false));
            script.window_read(0x7000, 4);
            script.window_read(0x7FFC, 4);
            script.window_read(0x7FFF, 1);
            read(&mut script, 0x3FFF_FFFC);
            let answers = memories.replay(&script);
            assert_eq!(answers[entry], mapped(word(7), stored), "{data:X}h");
            let expected = [
                memory(0x3FFF_F000),
                memory(0x3FFF_FFFC),
                reached(Target::Memory, 0x3FFF_F000, 0x1234_5678),
                reached(Target::Memory, 0x3FFF_FFFC, 0x8281_0DC1),
                reached(Target::Memory, 0x3FFF_FFFF, 0x82),
                reached(Target::Memory, 0x3FFF_FFFC, 0x8281_0DC1),
            ];
            assert_eq!(answers[first..], expected, "{data:X}h");
        }
    });
}

/// "a lookup uses the named bits": an ordinary write stores FFFFF001h where the table is in main memory.
#[test]
fn a_word_with_every_page_bit_leads_to_the_last_page() {
    let mut script = graphics();
    script.push(Record::write(0x10_001C, 4, 0xFFFF_F001, false));
    let raw = script.register_read(word(7));
    let last = script.window_read(0x7FFC, 4);
    on_memories(|memories| {
        let answers = memories.replay_same(&MAIN, &script);
        assert_eq!(answers[raw], mapped(word(7), 0xFFFF_F001));
        assert_eq!(answers[last], memory(0x3FFF_FFFC));
    });
}

/// "Entry pages reach that far.": an entry for each 64 KiB of memory, so that bits 29:16 take every value, and none is
/// refused.
#[test]
fn no_entry_is_above_1_gib() {
    let page = |number: u32| number << 16 | 0xF000;
    let mut script = graphics();
    for number in 0..16_384 {
        script.entry(number, page(number) | 1);
    }
    let first = script.records.len() as u32;
    for number in 0..16_384 {
        script.window_read(number << 12 | 0xFFC, 4);
    }
    on_memories(|memories| {
        for board in ALL {
            let answers = memories.replay_on(board, MOST_MEMORY, &script);
            for number in 0..16_384 {
                // Some of these words are the table's.
                let answer = Answer { value: 0, ..answers[(first + number) as usize] };
                assert_eq!(answer, memory(page(number) | 0xFFC), "board {board}");
            }
        }
    });
}

/// "Protected: ... and the TSEG": the last pages of memory. The page below is reached, also where it is taken memory.
#[test]
fn pages_in_the_tseg_are_refused_with_code_6() {
    on_memories(|memories| {
        for (smram, below, first) in
            [(0x60, 0x3FF7_F000, 0x3FF8_0000), (0x70, 0x3FEF_F000, 0x3FF0_0000), (0xF2, 0x3FEF_F000, 0x3FF0_0000)]
        {
            let mut script = graphics();
            for (number, page) in [below, first, 0x3FFF_F000].into_iter().enumerate() {
                script.entry(number as u32, page | 1);
            }
            script.smram(smram);
            let mut asked = Vec::new();
            for management in [false, true] {
                for page in [0x0FFC, 0x1000, 0x1FFC, 0x2000, 0x2FFC] {
                    asked.push(script.push(Record::write(Script::WINDOW + page, 4, 0x0BAD_0BAD, management)));
                }
            }
            let smram_read = script.read_smram();
            let answers = memories.replay(&script);
            let each = [
                memory(below | 0xFFC),
                refused_at(6, 0x1000),
                refused_at(6, 0x1FFC),
                refused_at(6, 0x2000),
                refused_at(6, 0x2FFC),
            ];
            let answered: Vec<_> = asked.iter().map(|&i| answers[i]).collect();
            assert_eq!(answered, [each, each].concat(), "SMRAM {smram:02X}h");
            assert!(!error(&answers, smram_read), "no error bit through the window");
        }
    });
}

/// A ring in the last page: the parser fetches the last word of memory, unless that is in the TSEG.
#[test]
fn the_parser_fetches_the_last_word() {
    let mut script = graphics();
    script.entry(5, 0x3FFF_F001);
    script.entry(6, 0x3FEF_F001);
    // A user interrupt in the last word, no-ops before it and in the first.
    script.push(Record::write(0x3FFF_FFFC, 4, 0x0100_0000, false));
    script.push(Record::write(0x3FEF_FFFC, 4, 0x0100_0000, false));
    script.register_write(0x20A8, 0);
    script.register_write(0x20A0, 2);
    script.ring(0x5000, 1, 0xFF0, 8);
    let before = script.run(3);
    let last = script.run(1);
    let wrapped = script.run(u32::MAX);
    script.register_write(0x20A4, 2);
    // The same in the last page below the TSEG, and then in it.
    script.smram(0x70);
    script.ring(0x6000, 1, 0xFFC, 8);
    let below = script.run(u32::MAX);
    script.register_write(0x20A4, 2);
    script.ring(0x5000, 1, 0xFFC, 8);
    let inside = script.run(u32::MAX);
    on_memories(|memories| {
        let answers = memories.replay(&script);
        let up = |answer| Answer { line: 1, ..answer };
        assert_eq!(answers[before], ran(0, 0xFFC, 3));
        assert_eq!(answers[last], up(ran(0, 1 << 21, 1)));
        assert_eq!(answers[wrapped], up(ran(0, 1 << 21 | 8, 2)));
        assert_eq!(answers[below], up(ran(0, 1 << 21 | 8, 3)));
        assert_eq!(answers[inside], ran(6, 0xFFC, 0));
    });
}

/// Each use of a table word: a write and a read of its register, a read through the window and a run.
fn uses(script: &mut Script, number: u32, entry: u32) -> [usize; 4] {
    script.ring(number << 12, 1, 0, 8);
    [
        script.entry(number, entry),
        script.register_read(word(number)),
        script.window_read(number << 12, 4),
        script.run(1),
    ]
}

/// "word i is at 2020h bits 31:12 plus 4i": the table ends where memory does, or a page higher, or is above it.
#[test]
fn a_table_may_end_at_1_gib() {
    let answered = |number: u32| [mapped(word(number), 0), mapped(word(number), 1), memory(0), ran(0, 4, 1)];
    let refused_with =
        |code: u8, number: u32| [refused(code), refused(code), refused_at(code, number << 12), ran(code, 0, 0)];
    let cases = [
        (0x3FFF_0000, 0, 0),
        (0x3FFF_0000, 16_383, 0),
        (0x3FFF_1000, 15_359, 0),
        (0x3FFF_1000, 15_360, 7),
        (0x3FFF_1000, 16_383, 7),
        (0x3FFF_F000, 1023, 0),
        (0x3FFF_F000, 1024, 7),
        (0x4000_0000, 0, 7),
        (0x4000_0000, 16_383, 7),
        // Bits 29:12 of these are pages of memory.
        (0x5000_0000, 0, 7),
        (0x8000_0000, 0, 7),
        (0xFFFF_F000, 1024, 7),
    ];
    on_memories(|memories| {
        for (base, number, code) in cases {
            let mut script = Script::new();
            script.graphics();
            script.register_write(0x2020, base | 1);
            let asked = uses(&mut script, number, 1);
            let answers = memories.replay_same(&MAIN, &script);
            let expected = if code == 0 { answered(number) } else { refused_with(code, number) };
            assert_eq!(asked.map(|i| answers[i]), expected, "base {base:X}h, word {number}");
            // A private table is nowhere in memory.
            let answers = memories.replay_same(&[0, 1], &script);
            assert_eq!(asked.map(|i| answers[i]), answered(number), "base {base:X}h, word {number}");
        }
    });
}

/// "one in protected memory code 6": a table of which a part is in the TSEG.
#[test]
fn words_in_the_tseg_are_refused_with_code_6() {
    on_memories(|memories| {
        for (base, number, code) in
            [(0x3FEF_F000, 1023, 0), (0x3FEF_F000, 1024, 6), (0x3FFF_0000, 16_383, 6), (0x3FFF_1000, 15_360, 7)]
        {
            let mut script = Script::new();
            script.graphics();
            script.register_write(0x2020, base | 1);
            script.smram(0x72);
            let asked = uses(&mut script, number, 1);
            let answers = memories.replay_same(&MAIN, &script);
            let codes = asked.map(|i| answers[i].code);
            assert_eq!(codes, [code; 4], "base {base:X}h, word {number}");
        }
    });
}

/// The last word of memory is the entry that maps it.
#[test]
fn the_last_word_may_map_its_own_page() {
    let mut script = Script::new();
    script.graphics();
    script.register_write(0x2020, 0x3FFF_0001);
    script.entry(16_383, 0x3FFF_F001);
    let own = script.window_read(16_383 << 12 | 0xFFC, 4);
    on_memories(|memories| {
        let answers = memories.replay_same(&MAIN, &script);
        assert_eq!(answers[own], reached(Target::Memory, 0x3FFF_FFFC, 0x3FFF_F001));
    });
}

/// Request 9: with the lock set, "a table write whose stored word is valid, of type 00 or 11, and names a protected page
/// gets new code 16". The TSEG is at the top of 1 GiB; bit 29 of a page counts, and no page is above memory.
#[test]
fn entries_of_protected_pages_are_refused_with_code_16_up_to_1_gib() {
    // SMRAM, pages that are refused, pages that are stored.
    let cases: [(u8, &[u32], &[u32]); 3] = [
        // A0000h-BFFFFh and a TSEG of 1 MiB; 512 KiB are taken below it.
        (
            0xBE,
            &[0xA_0000, 0xB_F000, 0x3FF0_0000, 0x3FFA_5000, 0x3FFF_F000],
            &[0x9_F000, 0xC_0000, 0x70_0000, 0x1FF0_0000, 0x1FFF_F000, 0x200A_0000, 0x3FE8_0000, 0x3FEF_F000],
        ),
        // A TSEG of 512 KiB with general memory at A0000h.
        (0x66, &[0x3FF8_0000, 0x3FFF_F000], &[0xA_0000, 0x78_0000, 0x1FF8_0000, 0x2000_0000, 0x3FF7_F000]),
        // No TSEG.
        (0x4E, &[0xA_0000, 0xB_F000], &[0x200A_0000, 0x3FF0_0000, 0x3FFF_F000]),
    ];
    on_memories(|memories| {
        for (smram, closed, stored) in cases {
            let mut script = graphics();
            script.smram(smram);
            let mut expected = Vec::new();
            let first = script.records.len();
            for bits in [0b001, 0b111] {
                for page in closed {
                    script.entry(5, page | bits);
                    // Bits 31:30 are not stored.
                    script.push(Record::write(Script::REGISTERS + word(5), 4, 0xC000_0000 | page | bits, true));
                    expected.extend([refused(16); 2]);
                }
                for page in stored {
                    script.entry(5, page | bits);
                    script.register_read(word(5));
                    expected.extend([mapped(word(5), 0), mapped(word(5), page | bits)]);
                }
            }
            assert_eq!(memories.replay(&script)[first..], expected, "SMRAM {smram:X}h");
        }
    });
}

/// Tables and pages at the very ends of memory: the call touches nothing beside it.
#[test]
fn a_table_at_the_ends_of_memory_stays_inside_it() {
    on_memories(|memories| {
        for base in [TOP - 0x1_0000, TOP - 0xF000, TOP - 0x1000, TOP, 0xFFFF_0000, 0xFFFF_F000, 0] {
            let script = ends_of_tables(base, TOP);
            for board in ALL {
                memories.replay_on(board, MOST_MEMORY, &script);
            }
        }
    });
}

/// "a multiple of 8 MiB": each of them up to 1,024 MiB is good on each board, and has its last word just below TOM. An
/// entry reaches the last page, and is code 7 from TOM on where it can name that.
#[test]
fn every_multiple_of_8_mib_up_to_1_gib_is_good() {
    on_memories(|memories| {
        for length in (8..=1024).step_by(8) {
            let top = (length * MIB) as u32;
            let mut script = graphics();
            let last = script.push(Record::write(top - 4, 4, 0x8281_0000, false));
            let above = read(&mut script, top);
            script.entry(0, (top - 0x1000) | 1);
            script.entry(1, top | 1);
            let page = script.window_read(0xFFC, 4);
            let page_above = script.window_read(0x1000, 4);
            for board in ALL {
                let answers = memories.replay_on(board, length * MIB, &script);
                assert_eq!(answers[last], memory(top - 4), "{length} MiB");
                assert_eq!(answers[above], hub(top), "{length} MiB");
                assert_eq!(answers[page], reached(Target::Memory, top - 4, 0x8281_0000), "{length} MiB");
                // 40000001h stores 1.
                let expected = if length == 1024 { memory(0) } else { refused_at(7, 0x1000) };
                assert_eq!(answers[page_above], expected, "{length} MiB");
            }
        }
    });
}

/// Asks that call and reference refuse this memory, and that nothing changes in its last word and where the records would
/// write.
#[track_caller]
fn assert_refused(memory: &mut [u8]) {
    let length = memory.len();
    let addresses = [0, 0x1000, 0x1FFF_FFFC, 0x2000_0000, 0x3FFF_FFFC, 0x4000_0000];
    let records = record::encode(&addresses.map(|address| Record::write(address, 4, 0x0BAD_0BAD, false)));
    let written = addresses.into_iter().map(|address| address as usize).filter(|address| address + 4 <= length);
    let marks: Vec<_> = written.chain([length - 4]).map(|at| at..at + 4).collect();
    for mark in &marks {
        memory[mark.clone()].fill(0xC3);
    }
    for board in ALL {
        let mut answers = vec![0xC3; records.len()];
        let display = &mut blank_display(board);
        assert_eq!(call::gmch_replay(board, memory, &records, &mut answers, display), 1, "{length} bytes");
        assert_eq!(reference::replay(board, memory, &records, &mut answers, display), 1, "{length} bytes");
        assert!(answers.iter().all(|&byte| byte == 0xC3), "{length} bytes: answers were touched");
    }
    for mark in &marks {
        assert_eq!(memory[mark.clone()], [0xC3; 4], "{length} bytes: memory was touched");
    }
    for mark in marks {
        memory[mark].fill(0);
    }
}

/// "Lengths just above are still code 1.": 1,032 MiB, 1,024 MiB and one byte, and what lies between; and so is what is
/// no multiple of 8 MiB below.
#[test]
fn lengths_just_above_1_gib_are_refused() {
    let lengths = [
        ROOM,
        ROOM - 1,
        MOST_MEMORY + 4 * MIB,
        MOST_MEMORY + MIB,
        MOST_MEMORY + 4096,
        MOST_MEMORY + 4,
        MOST_MEMORY + 1,
        MOST_MEMORY - 1,
        MOST_MEMORY - 4096,
        MOST_MEMORY - 4 * MIB,
        MOST_MEMORY - 8 * MIB + 1,
        768 * MIB + 1,
        520 * MIB + 1,
        520 * MIB - 1,
    ];
    on_memories(|memories| {
        for length in lengths {
            for side in SIDES {
                assert_refused(memories.lent.part(length, side));
            }
        }
        let wrong = replay(Board::I82810, memories.lent.part(ROOM, Side::After), &[], &mut [], &mut []);
        assert_eq!(wrong, Err(WrongArgument::Memory { bytes: 1_082_130_432 }));
        let words = "memory: expected a multiple of 8 MiB from 8 to 1,024 MiB, found 1082130432 bytes";
        assert_eq!(wrong.map_err(|wrong| wrong.to_string()), Err(words.to_string()));
    });
}

/// A length is looked at whole: its low 30, 31 or 32 bits would be good ones.
#[test]
fn lengths_far_above_1_gib_are_refused() {
    let mut memory = Guarded::zeros((4 << 30) + 8 * MIB);
    for length in [MOST_MEMORY + 512 * MIB, 2 << 30, (2 << 30) + 8 * MIB, 3 << 30, 4 << 30, (4 << 30) + 8 * MIB] {
        assert_refused(memory.part(length, Side::Before));
    }
}

/// Random lists on 1 GiB: every answer and every byte of memory agree. On every board every code that can be has been
/// met, and every place near the top of memory; code 7 was never that of an entry with a page of main memory.
#[test]
fn call_and_reference_agree_on_the_largest_memory() {
    let mut coverage = Coverage::default();
    agree_on_random_lists(MOST_MEMORY, lists(20_000).min(2_000), &mut coverage);
    print!("{}", coverage.top);
    assert_eq!(coverage.top.missing(), Vec::<String>::new(), "never met");
    assert_eq!(coverage.top.entries_above, 0, "code 7 of an entry");
    for (board, codes) in Board::ALL.into_iter().zip(coverage.codes) {
        for (code, &count) in codes.iter().enumerate() {
            // Code 7 is a table word's in main memory, or an entry's of type 01.
            let above = board.table_in_memory() || board.display_bytes() != 0;
            let possible = is_answered(code as u8) && (code != 7 || above);
            assert_eq!(count > 0, possible, "code {code}, board {board}");
        }
    }
}

/// The same on memories between 512 MiB and 1 GiB, where entries can name pages above TOM.
#[test]
fn call_and_reference_agree_on_memories_from_520_to_1016_mib() {
    for length in [520, 768, 1016] {
        let mut coverage = Coverage::default();
        agree_on_random_lists(length * MIB, lists(20_000).min(100), &mut coverage);
        assert!(coverage.top.entries_above > 0, "{length} MiB: code 7 of an entry");
    }
}

fn agree_on_random_lists(tom: usize, count: u64, coverage: &mut Coverage) {
    let mut lists_of = Lists::on_zeros(seed(), tom);
    let mut display = lists_of.pristine_display.clone();
    on_memories(|memories| {
        for number in 0..count {
            let list = lists_of.make(number);
            let mut answers = vec![0xA5; list.records.len()];
            let lent = memories.lent.part(tom, SIDES[number as usize % 2]);
            let display_lent = &mut display[..list.display];
            assert_eq!(call::gmch_replay(list.board, lent, &list.records, &mut answers, display_lent), 0);
            if let Err(why) = lists_of.check(&list, &answers, lent, &display) {
                panic!("{why}");
            }
            clear(lent, &list.writes);
            undo(&mut display, &lists_of.pristine_display, &list.display_writes);
            lists_of.restore(&list);
            coverage.add(&list.coverage);
        }
    });
}

/// Demand 3 on 1 GiB: two runs with other keys in its TSEG cannot be told apart. Each trial compares all of memory.
#[test]
fn two_runs_on_1_gib_cannot_be_told_apart() {
    let outcome =
        two_runs_on_zeros(seed(), MOST_MEMORY, lists(20_000).min(24), |board, memory, records, answers, display| {
            call::gmch_replay(board, memory, records, answers, display) == 0
        });
    let tally = outcome.unwrap_or_else(|why| panic!("{why}"));
    println!("{tally:#?}");
    assert!(tally.differing_bytes > 0 && tally.different_values > 0 && tally.protected_pages > 0);
}
