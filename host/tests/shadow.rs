//! Request 8 of document 02, "Shadow memory": each of its sentences, and the sections 3.4.14 and 3.4.17 of the datasheet
//! that it names, with the answers they ask for. Every list goes through the call and through the reference, on every board.

mod common;

use common::{hub, mapped, ran, reached, register, replay_both, Script, MIB};
use mitrophel::reference::{Gmch, TABLE_WORDS};
use mitrophel::{Answer, Board, Kind, Record, Target};
use std::ops::Range;

const ALL: [u32; 4] = [0, 1, 2, 3];
/// The boards whose table is in main memory.
const MAIN: [u32; 2] = [2, 3];
const PAMR: u32 = 0x51;
const FDHC: u32 = 0x58;
const PAGE: u32 = 4096;

/// "7:6 Seg_F Access Control. This field controls accesses to 000F0000 to 000FFFFF." and so on: the lowest bit of each
/// field and its range.
const SEGMENTS: [(u32, Range<u32>); 4] =
    [(6, 0xF_0000..0x10_0000), (4, 0xE_0000..0xF_0000), (2, 0xD_0000..0xE_0000), (0, 0xC_0000..0xD_0000)];

/// "00 = Disabled, all accesses are forwarded to the ICH", "01 = Read Only, reads are directed to system memory DRAM and
/// writes are forwarded to the ICH", "10 = Write Only, writes are directed to system memory DRAM and reads are forwarded to
/// the ICH", "11 = Read/Write, all accesses are directed to system memory DRAM": whether reads and writes reach memory.
const FIELD: [[bool; 2]; 4] = [[false, false], [true, false], [false, true], [true, true]];

/// "0 = Disabled (Default) 1 = Enabled (15MB-16MB; 1MB size)"
const HOLE: Range<u32> = 0xF0_0000..0x100_0000;

/// What the datasheet's table says of an access in C0000h-FFFFFh.
fn reaches_memory(pamr: u8, address: u32, write: bool) -> bool {
    let (bit, _) = SEGMENTS.iter().find(|(_, range)| range.contains(&address)).expect("an address that PAMR steers");
    FIELD[usize::from(pamr >> bit & 3)][usize::from(write)]
}

/// Each sort of access: of the processor, of its management mode, and of a hub master.
fn accesses(address: u32, width: u8, data: u32) -> [Record; 8] {
    [
        Record::read(address, width, false),
        Record::write(address, width, data, false),
        Record::code_read(address, width, false),
        Record::read(address, width, true),
        Record::write(address, width, !data, true),
        Record::code_read(address, width, true),
        Record::master_read(address, width),
        Record::master_write(address, width, data.rotate_left(8)),
    ]
}

fn is_write(record: &Record) -> bool {
    record.kind().is_some_and(Kind::is_write)
}

fn is_master(record: &Record) -> bool {
    matches!(record.kind(), Some(Kind::MasterRead | Kind::MasterWrite))
}

fn memory(address: u32, value: u32) -> Answer {
    reached(Target::Memory, address, value)
}

/// A memory that holds no 0, with bytes that mostly differ from those beside them.
fn full(bytes: usize) -> Vec<u8> {
    (0..bytes).map(|at| (at ^ at >> 8 ^ at >> 16) as u8 % 251 + 1).collect()
}

/// Takes an access to memory at its own address, or to the hub: its answer.
fn carry_out(held: &mut [u8], record: &Record, to_memory: bool) -> Answer {
    if !to_memory {
        return hub(record.address);
    }
    let bytes = &mut held[record.address as usize..][..usize::from(record.width)];
    let mut value = [0; 4];
    match is_write(record) {
        true => bytes.copy_from_slice(&record.data.to_le_bytes()[..bytes.len()]),
        false => value[..bytes.len()].copy_from_slice(bytes),
    }
    memory(record.address, u32::from_le_bytes(value))
}

/// The answers on zeros of this length, which are the same on each of these boards.
#[track_caller]
fn replay_on(boards: &[u32], length: usize, script: &Script) -> Vec<Answer> {
    let mut answers = boards.iter().map(|&board| replay_both(board, &mut vec![0; length], &script.records));
    let first = answers.next().expect("a board");
    assert!(answers.all(|other| other == first), "the boards differ");
    first
}

#[track_caller]
fn replay(script: &Script) -> Vec<Answer> {
    replay_on(&ALL, 8 * MIB, script)
}

/// Records with the answers expected of them, and memory as it is to be then.
struct Expected {
    script: Script,
    answers: Vec<(usize, Answer)>,
    held: Vec<u8>,
}

impl Expected {
    fn on(length: usize) -> Expected {
        Expected { script: Script::new(), answers: Vec::new(), held: full(length) }
    }

    /// An access that goes to memory or to the hub.
    fn access(&mut self, record: Record, to_memory: bool) {
        let answer = carry_out(&mut self.held, &record, to_memory);
        self.expect(record, answer);
    }

    fn expect(&mut self, record: Record, answer: Answer) {
        let at = self.script.push(record);
        self.answers.push((at, answer));
    }

    #[track_caller]
    fn check(&self, name: &str) {
        let full = full(self.held.len());
        for board in ALL {
            let mut memory = full.clone();
            let answers = replay_both(board, &mut memory, &self.script.records);
            for &(at, answer) in &self.answers {
                assert_eq!(answers[at], answer, "{name}, board {board}, record {at}: {}", self.script.records[at]);
            }
            assert!(memory == self.held, "{name}, board {board}: memory differs");
        }
    }
}

// PAMR --------------------------------------------------------------------------------------------

/// "The Programmable Attributes Register controls accesses to the memory range 000C0000h to 000FFFFFh": all its values at
/// both ends of each segment and on both sides of the range, in each width, by every sort of access. Memory holds at the
/// end what the writes that reached it left there, and no others. A0000h-BFFFFh is "not controlled by attribute bits".
#[test]
fn each_value_of_pamr_sends_each_access_where_the_datasheet_says() {
    // BFFFFh goes to the hub, and is general memory; with the lock set PAMR is written all the same.
    for (smram, below) in [(0x00, false), (0x46, true)] {
        let mut expected = Expected::on(8 * MIB);
        expected.script.smram(smram);
        for pamr in 0..=0xFF {
            expected.script.config_write(0, PAMR, 1, pamr.into());
            for width in [1, 2, 4] {
                let last = |end: u32| end - u32::from(width);
                let data = u32::from(pamr) << 16 | 0xA500_5A3C ^ u32::from(width);
                for (_, range) in SEGMENTS {
                    for record in [range.start, last(range.end)].iter().flat_map(|&at| accesses(at, width, data)) {
                        expected.access(record, reaches_memory(pamr, record.address, is_write(&record)));
                    }
                }
                for record in accesses(last(0xC_0000), width, data) {
                    expected.access(record, below);
                }
                for record in accesses(0x10_0000, width, data) {
                    expected.access(record, true);
                }
            }
        }
        expected.check(&format!("SMRAM {smram:02X}h"));
    }
}

/// Every page of C0000h-FFFFFh, with each value of its segment's field beside each value of the next one's: "This field
/// controls accesses to" its own segment and no other.
#[test]
fn every_page_of_a_segment_obeys_its_own_field() {
    let mut expected = Expected::on(8 * MIB);
    for pamr in [0x00, 0x1B, 0x6C, 0xB1, 0xC6, 0xE4, 0x93, 0x4E, 0x39, 0xFF] {
        expected.script.config_write(0, PAMR, 1, u32::from(pamr));
        for page in (0xC_0000..0x10_0000).step_by(PAGE as usize) {
            for record in accesses(page + 0x7A4, 4, page ^ 0x1234_5678) {
                expected.access(record, reaches_memory(pamr, page, is_write(&record)));
            }
        }
    }
    expected.check("pages");
}

/// "which segments read from memory, which write to it, what goes to the hub": a write that goes to the hub does not reach
/// memory, which keeps what it had, and a read that goes to the hub gives 0, whatever memory holds.
#[test]
fn what_goes_to_the_hub_neither_changes_nor_shows_memory() {
    for (bit, range) in SEGMENTS {
        let at = range.start + 0x1230;
        let write = |data| Record::write(at, 4, data, false);
        let read = Record::read(at, 4, false);
        let steps = [
            (0b11, write(0x1111_1111), memory(at, 0)),
            (0b01, read, memory(at, 0x1111_1111)),
            (0b01, write(0x2222_2222), hub(at)),
            (0b01, read, memory(at, 0x1111_1111)),
            (0b10, write(0x3333_3333), memory(at, 0)),
            (0b10, read, hub(at)),
            (0b00, write(0x4444_4444), hub(at)),
            (0b00, read, hub(at)),
            (0b01, read, memory(at, 0x3333_3333)),
            (0b10, Record::master_write(at, 4, 0x5555_5555), memory(at, 0)),
            (0b10, Record::master_read(at, 4), hub(at)),
            (0b01, Record::master_write(at, 4, 0x6666_6666), hub(at)),
            (0b01, Record::master_read(at, 4), memory(at, 0x5555_5555)),
            (0b11, Record::code_read(at, 4, true), memory(at, 0x5555_5555)),
        ];
        let mut script = Script::new();
        let mut expected = Vec::new();
        for (pair, record, answer) in steps {
            // The other segments are shut where this one is open, and else open.
            let others = if pair == 0b11 { 0x00 } else { 0xFF };
            script.config_write(0, PAMR, 1, others & !(3 << bit) | pair << bit);
            expected.push((script.push(record), answer));
        }
        let answers = replay(&script);
        for (at, answer) in expected {
            assert_eq!(answers[at], answer, "{range:X?}: {}", script.records[at]);
        }
    }
}

/// What start-up code does with it: it copies itself from the hub into the memory behind, with reads from the hub and
/// writes to memory, then reads memory alone.
#[test]
fn start_up_code_is_copied_and_then_write_protected() {
    let mut script = Script::new();
    script.config_write(0, PAMR, 1, 0b10 << 6);
    let from = script.push(Record::read(0xF_FFF0, 4, false));
    let to = script.push(Record::write(0xF_FFF0, 4, 0x0011_90EA, false));
    script.config_write(0, PAMR, 1, 0b01 << 6);
    let fetched = script.push(Record::code_read(0xF_FFF0, 4, false));
    let late = script.push(Record::write(0xF_FFF0, 4, 0xDEAD_BEEF, false));
    let again = script.push(Record::code_read(0xF_FFF0, 4, false));
    let answers = replay(&script);
    let copied = memory(0xF_FFF0, 0x0011_90EA);
    let seen = [from, to, fetched, late, again].map(|at| answers[at]);
    assert_eq!(seen, [hub(0xF_FFF0), memory(0xF_FFF0, 0), copied, hub(0xF_FFF0), copied]);
}

/// "CD Hole (DC000h-DFFFFh)": its register, 50h, is not added, so bits 3:2 alone speak for segment D.
#[test]
fn the_holes_of_register_50h_do_not_exist() {
    let mut script = Script::new();
    script.config_write(0, 0x50, 1, 0xFF);
    let unlisted = script.config_read(0, 0x50, 1);
    script.config_write(0, PAMR, 1, 0b11 << 2);
    let ends = [0xD_7FFC, 0xD_8000, 0xD_BFFC, 0xD_C000, 0xD_FFFC];
    let reads = ends.map(|at| script.push(Record::read(at, 4, false)));
    let writes = ends.map(|at| script.push(Record::write(at, 4, 7, false)));
    let answers = replay(&script);
    assert_eq!(answers[unlisted], register(0x50, 0));
    assert_eq!(reads.map(|at| answers[at]), ends.map(|at| memory(at, 0)));
    assert_eq!(writes.map(|at| answers[at]), ends.map(|at| memory(at, 0)));
}

// The registers -------------------------------------------------------------------------------------

/// "Address Offset: 51h Default Value: 00h Access: Read/Write Size: 8 bits", and of 58h "6:0 Reserved": every value, by
/// each access that covers them. Their neighbours read 0 and ignore writes.
#[test]
fn pamr_keeps_all_bits_and_fdhc_bit_7() {
    let shapes = [
        (PAMR, PAMR, 1),
        (PAMR, 0x50, 2),
        (PAMR, 0x51, 2),
        (PAMR, 0x50, 4),
        (FDHC, FDHC, 1),
        (FDHC, FDHC, 2),
        (FDHC, FDHC, 4),
    ];
    for (own, at, width) in shapes {
        let kept = if own == PAMR { 0xFF } else { 0x80 };
        let shift = 8 * (own - at);
        let mut script = Script::new();
        let default = script.config_read(0, own & !3, 4);
        let mut expected = vec![(default, register(own & !3, 0))];
        for value in 0..=0xFF {
            // What is written to the neighbours is not kept.
            let write = script.config_write(0, at, width, 0xFFFF_FFFF ^ 0xFF << shift | value << shift);
            let same = script.config_read(0, at, width);
            let whole = script.config_read(0, own & !3, 4);
            let alone = script.config_read(0, own, 1);
            expected.push((write, register(at, 0)));
            expected.push((same, register(at, (value & kept) << shift)));
            expected.push((whole, register(own & !3, (value & kept) << (8 * (own % 4)))));
            expected.push((alone, register(own, value & kept)));
        }
        let answers = replay(&script);
        for (record, answer) in expected {
            assert_eq!(answers[record], answer, "{at:X}h, width {width}: {}", script.records[record]);
        }
    }
}

/// A write beside them leaves both.
#[test]
fn writes_beside_the_two_registers_leave_them() {
    let mut script = Script::new();
    script.config_write(0, PAMR, 1, 0x5A);
    script.config_write(0, FDHC, 1, 0x80);
    for (at, width) in
        [(0x50, 1), (0x52, 1), (0x52, 2), (0x53, 1), (0x54, 4), (0x59, 1), (0x59, 2), (0x5A, 2), (0x5C, 4)]
    {
        script.config_write(0, at, width, 0xFFFF_FFFF);
        script.config_write(0, at, width, 0);
    }
    let [pamr, fdhc] = [0x50, 0x58].map(|at| script.config_read(0, at, 4));
    let answers = replay(&script);
    assert_eq!([answers[pamr].value, answers[fdhc].value], [0x5A00, 0x80]);
}

/// SMRAM's lock holds neither: the datasheet locks SMRAM and the row population register alone.
#[test]
fn the_lock_holds_neither_register() {
    let mut script = Script::new();
    script.smram(0xBE);
    script.config_write(0, PAMR, 1, 0xA7);
    script.config_write(0, FDHC, 1, 0xFF);
    let [pamr, fdhc] = [PAMR, FDHC].map(|at| script.config_read(0, at, 1));
    let shadow = script.push(Record::read(0xC_0000, 4, false));
    script.config_write(0, PAMR, 1, 0);
    script.config_write(0, FDHC, 1, 0);
    let [shut, off] = [PAMR, FDHC].map(|at| script.config_read(0, at, 1));
    let smram = script.read_smram();
    let answers = replay(&script);
    let values = [pamr, fdhc, shut, off, smram].map(|at| answers[at].value);
    assert_eq!(values, [0xA7, 0x80, 0, 0, 0xBE]);
    assert_eq!(answers[shadow], memory(0xC_0000, 0));
}

/// "Reset restores defaults": both are 00h again, and what memory holds behind them stays.
#[test]
fn a_reset_shuts_the_segments_and_closes_the_hole() {
    let mut script = Script::new();
    script.config_write(0, PAMR, 1, 0xFF);
    script.push(Record::write(0xE_0000, 4, 0x0BAD_CAFE, false));
    script.push(Record::write(0xF1_0000, 4, 0x0000_F00D, false));
    script.config_write(0, FDHC, 1, 0x80);
    let hidden = script.push(Record::read(0xF1_0000, 4, false));
    script.push(Record::reset());
    let [pamr, fdhc] = [PAMR, FDHC].map(|at| script.config_read(0, at, 1));
    let shut = script.push(Record::read(0xE_0000, 4, false));
    let back = script.push(Record::read(0xF1_0000, 4, false));
    script.config_write(0, PAMR, 1, 0x10);
    let kept = script.push(Record::read(0xE_0000, 4, false));
    let answers = replay_on(&ALL, 16 * MIB, &script);
    assert_eq!([pamr, fdhc].map(|at| answers[at].value), [0, 0]);
    let expected = [hub(0xF1_0000), hub(0xE_0000), memory(0xF1_0000, 0xF00D), memory(0xE_0000, 0x0BAD_CAFE)];
    assert_eq!([hidden, shut, back, kept].map(|at| answers[at]), expected);
}

// The hole ------------------------------------------------------------------------------------------

/// T, G and U of this SMRAM.
fn top(smram: u8, tom: u32) -> (u32, u32) {
    const SIZES: [u32; 4] = [0, 0, 0x8_0000, 0x10_0000];
    let (taken, tseg) = (SIZES[usize::from(smram >> 6)], SIZES[usize::from(smram >> 4 & 3)]);
    (tom - tseg, tom - tseg - taken)
}

/// Where rules 4, 5 and 9 take an access from 100000h up, on a board without registers and window, and whether it sets the
/// error bit: "Host cycles matching an enabled hole are passed on to the ICH", and "The hole acts only on addresses below U".
fn from_1_mib(record: &Record, smram: u8, tom: u32, hole: bool) -> (bool, bool) {
    let (tseg, usable) = top(smram, tom);
    match record.address {
        address if address < usable => (!(hole && HOLE.contains(&address)), false),
        address if (tseg..tom).contains(&address) && !is_master(record) => {
            (record.is_management(), !record.is_management())
        }
        _ => (false, false),
    }
}

/// The borders of the hole, of U, of the TSEG and of memory, on 8, 16 and 24 MiB: with 8 MiB the hole never acts, with 16
/// MiB and a TSEG or taken memory "the part at or above U stays under rule 5". No access in the hole sets the error bit.
#[test]
fn the_hole_is_f00000h_to_ffffffh_as_far_as_it_is_below_u() {
    for length in [8 * MIB, 16 * MIB, 24 * MIB] {
        let tom = length as u32;
        let mut expected = Expected::on(length);
        for case in 0..4 * 4 * 2 * 2 {
            let smram = (case & 3) << 6 | (case >> 2 & 3) << 4 | if case & 16 == 0 { 0 } else { 0x0C };
            let hole = case & 32 != 0;
            let (tseg, usable) = top(smram, tom);
            expected.script.config_write(0, FDHC, 1, if hole { 0xFF } else { 0x7F });
            expected.script.smram(smram);
            let inside = [HOLE.start, HOLE.start + 0x5_A5A4, 0xF7_FFFC, 0xF8_0000, HOLE.end - 4];
            let beside = [0xE0_0000, HOLE.start - 4, HOLE.end, HOLE.end + 0xF_FFFC, HOLE.end + 0x10_0000];
            for at in [usable - 4, usable, tseg - 4, tseg, tom - 4].into_iter().chain(inside).chain(beside) {
                for record in accesses(at, 4, at ^ 0x7654_3210) {
                    let (to_memory, error) = from_1_mib(&record, smram, tom, hole);
                    // Memory ends at TOM; what is above it goes to the hub.
                    expected.access(record, to_memory && at < tom);
                    // SMRAM stays selected.
                    expected.expect(Record::io_read(0xCFC, 1), register(0x70, u32::from(smram) | u32::from(error)));
                    if error {
                        expected.script.push(Record::io_write(0xCFC, 1, u32::from(smram) | 1));
                    }
                }
            }
        }
        expected.check(&format!("{} MiB", length / MIB));
    }
}

/// Its first and last bytes in each width, with the hole on and off: "1MB size".
#[test]
fn each_byte_at_the_holes_ends_is_in_it_or_out() {
    let mut expected = Expected::on(24 * MIB);
    for hole in [true, false] {
        expected.script.config_write(0, FDHC, 1, u32::from(hole) << 7);
        for border in [HOLE.start, HOLE.end] {
            for width in [1, 2, 4_u8] {
                for at in (border - 4..border + 4).filter(|at| at % 4 + u32::from(width) <= 4) {
                    for record in accesses(at, width, 0x8899_AABB ^ at) {
                        expected.access(record, !(hole && HOLE.contains(&at)));
                    }
                }
            }
        }
    }
    expected.check("ends");
}

/// "Note that the hole is not re-mapped": a write in it does not reach memory, a read gives 0, and memory is found there
/// again when the hole is closed.
#[test]
fn memory_behind_the_hole_keeps_what_it_held() {
    let mut script = Script::new();
    let at = 0xF1_2340;
    script.push(Record::write(at, 4, 0x1234_5678, false));
    script.config_write(0, FDHC, 1, 0x80);
    let hidden = accesses(at, 4, 0x9ABC_DEF0).map(|record| script.push(record));
    script.config_write(0, FDHC, 1, 0x7F);
    let back = script.push(Record::read(at, 4, false));
    let answers = replay_on(&ALL, 16 * MIB, &script);
    assert_eq!(hidden.map(|record| answers[record]), [hub(at); 8]);
    assert_eq!(answers[back], memory(at, 0x1234_5678));
}

/// "in the places of rules 3 and 4": the hub at once, although rules 7 and 8 would take the address. Where memory ends
/// below the hole there is none, and they do.
#[test]
fn the_hole_comes_before_registers_and_window() {
    let mut script = Script::new();
    script.smram(0x40);
    script.config_write(1, 0x10, 4, 0);
    script.config_write(1, 0x14, 4, 0xF0_0000);
    script.config_write(1, 0x04, 1, 0x06);
    script.config_write(0, FDHC, 1, 0x80);
    let registers = script.push(Record::read(0xF0_2020, 4, false));
    let window = script.push(Record::read(0xF8_1234, 4, false));
    let seen = |answers: Vec<Answer>| [answers[registers], answers[window]];
    for length in [16 * MIB, 24 * MIB] {
        assert_eq!(seen(replay_on(&ALL, length, &script)), [hub(0xF0_2020), hub(0xF8_1234)]);
    }
    let refused = Answer { code: 3, address: 0xF8_1234, ..Answer::default() };
    assert_eq!(seen(replay(&script)), [mapped(0x2020, 0), refused]);
}

// What goes through the table -----------------------------------------------------------------------

/// Pages that PAMR and the hole keep direct accesses from.
const BEHIND: [u32; 6] = [0xC_0000, 0xD_8000, 0xE_F000, 0xF_F000, 0xF0_0000, 0xFF_F000];

/// Graphics on, translation on with a table of main memory at this address, all segments shut and the hole on.
fn shut(table: u32) -> Script {
    let mut script = Script::new();
    script.graphics();
    script.register_write(0x2020, table | 1);
    script.config_write(0, PAMR, 1, 0x00);
    script.config_write(0, FDHC, 1, 0x80);
    script
}

/// "Entries that name those pages through the table are still reached.": reads and writes through the window, and the
/// parser's fetches, whatever both registers hold. With the lock set such an entry is stored: it is of no protected page.
#[test]
fn entries_reach_pages_that_pamr_and_the_hole_keep_others_from() {
    for page in BEHIND {
        for lock in [false, true] {
            let mut script = shut(0x20_0000);
            script.smram(if lock { 0x4E } else { 0x4C });
            let stored = script.entry(5, page | 1);
            let writes: Vec<usize> = (0..4)
                .map(|word| {
                    let instruction = if word == 2 { 0x0100_0000 } else { 0 };
                    script.push(Record::write(Script::WINDOW + 5 * PAGE + 4 * word, 4, instruction, false))
                })
                .collect();
            let value = script.push(Record::write(Script::WINDOW + 5 * PAGE + 0xABC, 4, 0x0102_0304, true));
            let direct = script.push(Record::read(page + 0xABC, 4, true));
            let through = script.window_read(5 * PAGE + 0xABC, 4);
            script.ring(5 * PAGE, 1, 0, 0x10);
            script.register_write(0x20A8, 0);
            let run = script.run(u32::MAX);
            let identity = script.register_read(0x20A4);
            script.config_write(0, PAMR, 1, 0xFF);
            script.config_write(0, FDHC, 1, 0x00);
            let open = script.push(Record::read(page + 0xABC, 4, false));
            let answers = replay_on(&ALL, 16 * MIB, &script);
            assert_eq!(answers[stored], mapped(0x1_0014, 0), "{page:X}h");
            for (word, &at) in writes.iter().enumerate() {
                assert_eq!(answers[at], memory(page + 4 * word as u32, 0), "{page:X}h");
            }
            assert_eq!(answers[value], memory(page + 0xABC, 0), "{page:X}h");
            assert_eq!(answers[direct], hub(page + 0xABC), "{page:X}h");
            assert_eq!([answers[through], answers[open]], [memory(page + 0xABC, 0x0102_0304); 2], "{page:X}h");
            assert_eq!(answers[run], ran(0, 0x10, 4), "{page:X}h");
            assert_eq!(answers[identity].value, 2, "{page:X}h: the third word is a user interrupt");
        }
    }
}

/// The same of a table in main memory: its words are there for registers and lookups, and a direct write does not reach
/// them.
#[test]
fn table_words_are_reached_where_pamr_and_the_hole_keep_others_from_memory() {
    for page in BEHIND {
        let mut script = shut(page);
        let stored = script.entry(7, 0x30_0001);
        let read = script.register_read(0x1_001C);
        let direct = script.push(Record::write(page + 0x1C, 4, 0, false));
        let master = script.push(Record::master_write(page + 0x1C, 4, 0));
        let lookup = script.window_read(7 * PAGE + 0x10, 4);
        script.push(Record::write(0x30_0000, 4, 0x0100_0000, false));
        script.ring(7 * PAGE, 1, 0, 8);
        let run = script.run(1);
        let answers = replay_on(&MAIN, 16 * MIB, &script);
        assert_eq!(answers[stored], mapped(0x1_001C, 0), "{page:X}h");
        assert_eq!(answers[read], mapped(0x1_001C, 0x30_0001), "{page:X}h");
        assert_eq!([answers[direct], answers[master]], [hub(page + 0x1C); 2], "{page:X}h");
        assert_eq!(answers[lookup], memory(0x30_0010, 0), "{page:X}h");
        assert_eq!(answers[run], ran(0, 4, 1), "{page:X}h");
    }
}

/// With the segments open a direct write changes a table word there: "Ordinary writes may change them".
#[test]
fn a_write_to_shadow_memory_changes_a_table_word() {
    let mut script = shut(0xD_0000);
    script.config_write(0, PAMR, 1, 0b10 << 2);
    let written = script.push(Record::write(0xD_001C, 4, 0x30_0001, false));
    let read = script.register_read(0x1_001C);
    let lookup = script.window_read(7 * PAGE, 4);
    let answers = replay_on(&MAIN, 8 * MIB, &script);
    assert_eq!(answers[written], memory(0xD_001C, 0));
    assert_eq!([answers[read], answers[lookup]], [mapped(0x1_001C, 0x30_0001), memory(0x30_0000, 0)]);
}

// Protected memory ----------------------------------------------------------------------------------

/// "Protected: A0000h-BFFFFh if LSMM is 10 or 11, or HSEG acts; and the TSEG. Locked or not."
fn protected(smram: u8, tom: u32) -> Vec<Range<u32>> {
    let (usmm, lsmm) = (smram >> 4 & 3, smram >> 2 & 3);
    let compatible = (lsmm >= 2 || lsmm == 0 && usmm != 0).then_some(0xA_0000..0xC_0000);
    let tseg = Some(top(smram, tom).0..tom).filter(|range| !range.is_empty());
    compatible.into_iter().chain(tseg).collect()
}

/// "Neither register's value then changes which bytes are protected": every SMRAM, every PAMR, the hole on and off, on 16
/// MiB, where the TSEG is in F00000h-FFFFFFh.
#[test]
fn neither_register_changes_which_bytes_are_protected() {
    for smram in 0..=0xFF {
        let (mut lent, mut table) = (vec![0; 16 * MIB], Box::new([0; TABLE_WORDS]));
        let mut gmch = Gmch::new(Board::I82810, &mut lent, &mut table, &mut []).expect("16 MiB is a memory");
        let write = |gmch: &mut Gmch<'_>, register: u32, data: u32| {
            gmch.answer(&Record::io_write(0xCF8, 4, 0x8000_0000 | register & 0xFC));
            gmch.answer(&Record::io_write(0xCFC + register % 4, 1, data));
        };
        write(&mut gmch, 0x70, smram);
        let ranges = protected(smram as u8, 16 << 20);
        for hole in [0x00, 0x80] {
            write(&mut gmch, FDHC, hole);
            for pamr in 0..=0xFF {
                write(&mut gmch, PAMR, pamr);
                assert_eq!((gmch.pamr(), gmch.hole()), (pamr as u8, hole != 0));
                let told = gmch.protected_ranges().eq(ranges.iter().cloned());
                assert!(told, "SMRAM {smram:02X}h, PAMR {pamr:02X}h, FDHC {hole:02X}h");
                for page in
                    [0x9_F000, 0xA_0000, 0xB_F000, 0xC_0000, 0xD_0000, 0xF_F000, 0xEF_F000, 0xF0_0000, 0xFF_F000]
                {
                    let inside = ranges.iter().any(|range| range.contains(&page));
                    assert_eq!(gmch.protected(page), inside, "SMRAM {smram:02X}h, {page:X}h");
                }
            }
        }
    }
}

/// "or which accesses land in them: show it": under each of these values of both registers the same accesses land in
/// protected memory, with the same answers and, at the end, the same bytes there.
#[test]
fn neither_register_changes_which_accesses_land_in_protected_memory() {
    let tom = 16 << 20;
    let full = full(tom as usize);
    let places: Vec<u32> = (0xA_0000..0x10_0000)
        .step_by(0x2000)
        .chain((0xE0_0000..tom).step_by(0x4000))
        .chain((0xFEEA_0000..0xFEEC_0000).step_by(0x2000))
        .chain((Script::WINDOW..Script::WINDOW + 0x10_0000).step_by(0x7000))
        .collect();
    for smram in [0x4E, 0x4A, 0x52, 0x7E, 0x62, 0xBE, 0xB2, 0xF6] {
        let ranges = protected(smram, tom);
        let landed = |pamr: u32, fdhc: u32| {
            let mut script = Script::new();
            script.graphics();
            script.register_write(0x2020, 0x20_0001);
            // Pages of A0000h-BFFFFh, of the segments, of the hole and of the TSEG.
            for entry in 0..256 {
                let page = [0xA_0000, 0xC_0000, 0xF0_0000, 0xF8_0000][entry as usize % 4] + entry / 4 * PAGE;
                script.entry(entry, page | 1);
            }
            script.smram(smram);
            script.config_write(0, PAMR, 1, pamr);
            script.config_write(0, FDHC, 1, fdhc);
            let first = script.records.len();
            for &at in &places {
                script.records.extend(accesses(at, 4, at.rotate_left(5)));
            }
            let mut seen = Vec::new();
            for board in ALL {
                let mut memory = full.clone();
                let answers = replay_both(board, &mut memory, &script.records);
                let landing = answers[first..].iter().enumerate().filter(|(_, answer)| {
                    let memory = answer.target() == Some(Target::Memory);
                    memory && ranges.iter().any(|range| range.contains(&answer.address))
                });
                let landing: Vec<(usize, Answer)> = landing.map(|(at, answer)| (at, *answer)).collect();
                let bytes: Vec<Vec<u8>> =
                    ranges.iter().map(|range| memory[range.start as usize..range.end as usize].to_vec()).collect();
                seen.push((landing, bytes));
            }
            seen
        };
        let plain = landed(0x00, 0x00);
        assert!(plain.iter().all(|(landing, _)| !landing.is_empty()), "SMRAM {smram:02X}h: nothing lands");
        for (pamr, fdhc) in [(0xFF, 0x80), (0x55, 0x80), (0xAA, 0x80), (0xFF, 0x00), (0x00, 0x80), (0x1B, 0x80)] {
            assert!(landed(pamr, fdhc) == plain, "SMRAM {smram:02X}h, PAMR {pamr:02X}h, FDHC {fdhc:02X}h");
        }
    }
}
