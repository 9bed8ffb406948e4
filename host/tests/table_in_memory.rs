//! Request 10 of document 02, "The table where Intel put it": each of its sentences with the answers it asks for. Every
//! list goes through the call and through the reference, on board kind 2 and on board kind 3.

mod common;

use common::{mapped, ran, reached, refused, refused_at, replay_both, Script, MIB};
use mitrophel::{Answer, Record, Target};

const TOP: u32 = 8 << 20;
/// The table of most lists: 64 KiB of ordinary memory.
const TABLE: u32 = 0x20_0000;
/// GMS 10, USMM 11, LSMM 11: U is 680000h, taken memory 680000h-6FFFFFh, the TSEG 700000h-7FFFFFh.
const CLOSED: u8 = 0xBC;
const LOCK: u8 = 0x02;

fn memory(address: u32) -> Answer {
    reached(Target::Memory, address, 0)
}

/// The register of word `number`.
fn word(number: u32) -> u32 {
    0x1_0000 + 4 * number
}

/// Graphics on, and the table at this base with translation on.
fn table_at(base: u32) -> Script {
    let mut script = Script::new();
    script.graphics();
    script.register_write(0x2020, base | 1);
    script
}

/// The answers of board kind 2, which kind 3 gives too.
#[track_caller]
fn replay_on(script: &Script, memory: &mut [u8]) -> Vec<Answer> {
    let mut other = memory.to_vec();
    let answers = replay_both(2, memory, &script.records);
    assert_eq!(replay_both(3, &mut other, &script.records), answers);
    assert!(memory == other, "memory differs between board kinds 2 and 3");
    answers
}

/// The same on 8 MiB of zeros.
#[track_caller]
fn replay(script: &Script) -> Vec<Answer> {
    replay_on(script, &mut vec![0; 8 * MIB])
}

/// Eight MiB of zeros with these words in them.
fn holding(words: &[(u32, u32)]) -> Vec<u8> {
    let mut memory = vec![0; 8 * MIB];
    for &(address, word) in words {
        memory[address as usize..][..4].copy_from_slice(&word.to_le_bytes());
    }
    memory
}

fn word_of(memory: &[u8], address: u32) -> u32 {
    u32::from_le_bytes(memory[address as usize..][..4].try_into().expect("four bytes"))
}

/// "Add board kinds 2 (82810) and 3 (DC100)": with their ids.
#[test]
fn the_new_boards_have_the_ids_of_the_old_ones() {
    let mut script = Script::new();
    script.smram(0x40);
    let zero = script.config_read(0, 0, 4);
    let one = script.config_read(1, 0, 4);
    for (board, ids) in [(2, [0x7120_8086, 0x7121_8086]), (3, [0x7122_8086, 0x7123_8086])] {
        let answers = replay_both(board, &mut vec![0; 8 * MIB], &script.records);
        assert_eq!([answers[zero].value, answers[one].value], ids, "board kind {board}");
    }
}

/// "word i is at 2020h bits 31:12 plus 4i": bits 11:1 of 2020h are not kept, and bit 0 is no part of it.
#[test]
fn word_i_is_at_the_base_plus_4i() {
    for control in [TABLE, TABLE | 1, TABLE | 0xFFF, 0x7F_0001] {
        let base = control & 0xFFFF_F000;
        let mut script = Script::new();
        script.graphics();
        script.register_write(0x2020, control);
        let numbers = [0, 1, 18, 1023, 1024, 8191, 16_383];
        let first = script.records.len();
        for number in numbers {
            script.entry(number, number << 12 | 1);
            script.push(Record::read(base + 4 * number, 4, false));
        }
        let mut memory = vec![0; 8 * MIB];
        let answers = replay_on(&script, &mut memory);
        for (i, number) in numbers.into_iter().enumerate() {
            let entry = number << 12 | 1;
            assert_eq!(answers[first + 2 * i], mapped(word(number), 0));
            assert_eq!(answers[first + 2 * i + 1], reached(Target::Memory, base + 4 * number, entry));
            assert_eq!(word_of(&memory, base + 4 * number), entry);
        }
        let written = memory.iter().filter(|&&byte| byte != 0).count();
        let expected = numbers.iter().flat_map(|number| (number << 12 | 1).to_le_bytes()).filter(|&byte| byte != 0);
        assert_eq!(written, expected.count(), "nothing else is written");
    }
}

/// "Kinds 0 and 1 stay": 2020h keeps a base there, and the table is private all the same.
#[test]
fn the_old_boards_keep_their_private_table() {
    let mut script = table_at(TABLE);
    script.entry(0, 0x0010_0001);
    let window = script.window_read(0x44, 4);
    // What lies at the base is no entry, and an entry is not stored there.
    let at_base = script.push(Record::write(TABLE, 4, 0x0030_0001, false));
    let again = script.window_read(0x44, 4);
    let read = script.register_read(word(0));
    script.register_write(0x2020, 0xFFFF_F001);
    let no_memory = script.window_read(0x44, 4);
    for board in [0, 1] {
        let memory_lent = &mut vec![0; 8 * MIB];
        let answers = replay_both(board, memory_lent, &script.records);
        assert_eq!([window, again, no_memory].map(|i| answers[i]), [memory(0x10_0044); 3]);
        assert_eq!(answers[at_base], memory(TABLE));
        assert_eq!(answers[read], mapped(word(0), 0x0010_0001));
        assert_eq!(word_of(memory_lent, TABLE), 0x0030_0001);
    }
}

/// "Table reads and writes through 10000h and every lookup go to that word": whoever wrote it last, in the next record.
#[test]
fn ordinary_writes_change_the_words() {
    let mut script = table_at(TABLE);
    let off = script.window_read(0x44, 4);
    script.push(Record::write(TABLE, 4, 0x0010_0001, false));
    let by_processor = script.window_read(0x44, 4);
    script.push(Record::master_write(TABLE, 4, 0x0011_0001));
    let by_master = script.window_read(0x44, 4);
    let read = script.register_read(word(0));
    script.entry(0, 0x0012_0001);
    let by_register = script.window_read(0x44, 4);
    script.push(Record::write(TABLE + 2, 1, 0x13, true));
    let by_byte = script.window_read(0x44, 4);
    // Page 1 of the window is the table's own page: entry 0 is written through it.
    script.entry(1, TABLE | 1);
    script.push(Record::write(Script::WINDOW + 0x1000, 4, 0x0014_0001, false));
    let by_window = script.window_read(0x44, 4);
    let answers = replay(&script);
    assert_eq!(answers[off], refused_at(4, 0x44));
    assert_eq!(answers[read], mapped(word(0), 0x0011_0001));
    let looked_up = [by_processor, by_master, by_register, by_byte, by_window].map(|i| answers[i]);
    assert_eq!(looked_up, [0x10_0044, 0x11_0044, 0x12_0044, 0x13_0044, 0x14_0044].map(memory));
}

/// The same of the parser's lookups.
#[test]
fn ordinary_writes_change_what_the_parser_fetches() {
    let mut script = table_at(TABLE);
    script.ring(0, 1, 0, 0x20);
    script.push(Record::write(TABLE, 4, 0x0010_0001, false));
    let first = script.run(1);
    script.push(Record::master_write(TABLE, 4, 0x0011_0001));
    let second = script.run(1);
    script.push(Record::write(TABLE, 1, 0, false));
    let third = script.run(1);
    // A no-op at 100000h, and what is no instruction at 110004h.
    let answers = replay_on(&script, &mut holding(&[(0x11_0004, 0xFFFF_FFFF)]));
    assert_eq!([first, second, third].map(|i| answers[i]), [ran(0, 4, 1), ran(12, 4, 0), ran(4, 4, 0)]);
}

/// An entry may map its own table, and a write through it may change that very entry.
#[test]
fn an_entry_that_maps_its_own_table_can_be_rewritten_through_itself() {
    let mut script = table_at(TABLE);
    script.entry(5, TABLE | 1);
    let own = Script::WINDOW + 0x5000 + 4 * 5;
    let read = script.push(Record::read(own, 4, false));
    let write = script.push(Record::write(own, 4, 0x0040_0001, false));
    let elsewhere = script.push(Record::read(own, 4, false));
    let answers = replay(&script);
    assert_eq!(answers[read], reached(Target::Memory, TABLE + 20, TABLE | 1));
    assert_eq!(answers[write], memory(TABLE + 20));
    assert_eq!(answers[elsewhere], memory(0x40_0014));
}

/// "a write masks as in 01, a read does not, a lookup uses the named bits"; "answered reads and writes there keep
/// target 5".
#[test]
fn a_write_masks_a_read_does_not_and_a_lookup_uses_the_named_bits() {
    let mut script = table_at(TABLE);
    let write = script.entry(2, 0xFFFF_FFFF);
    let stored = script.register_read(word(2));
    // Bits 31:30 and 11:3 set, page 100000h, types 00 and 11.
    script.push(Record::write(TABLE + 12, 4, 0xC010_0FF9, false));
    script.push(Record::write(TABLE + 16, 4, 0xC010_0FFF, false));
    let raw = [3, 4].map(|number| script.register_read(word(number)));
    let looked_up = [3, 4].map(|page| script.window_read(page << 12, 4));
    let answers = replay(&script);
    assert_eq!(answers[write], mapped(word(2), 0));
    assert_eq!(answers[stored], mapped(word(2), 0x3FFF_F007));
    assert_eq!(raw.map(|i| answers[i]), [mapped(word(3), 0xC010_0FF9), mapped(word(4), 0xC010_0FFF)]);
    assert_eq!(looked_up.map(|i| answers[i]), [memory(0x10_0000); 2]);
}

/// The four ways to use a word: a read through the window, a parser run, a read and a write of its register. Each is
/// refused with the code, and changes nothing but what is given.
#[track_caller]
fn each_use_is_refused(mut script: Script, number: u32, code: u8, memory_lent: &mut [u8]) {
    script.ring(number << 12, 1, 0, 0x20);
    let before = memory_lent.to_vec();
    let first = script.records.len();
    for management in [false, true] {
        let (window, register) = (Script::WINDOW + (number << 12), Script::REGISTERS + word(number));
        script.push(Record::read(window, 4, management));
        script.push(Record::code_read(window, 4, management));
        script.push(Record::write(window, 4, 0x0BAD_0BAD, management));
        script.push(Record::read(register, 4, management));
        script.push(Record::code_read(register, 4, management));
        script.push(Record::write(register, 4, 0x0010_0001, management));
    }
    let run = script.run(1);
    let smram = script.read_smram();
    let answers = replay_on(&script, memory_lent);
    let (window, register) = (refused_at(code, number << 12), refused(code));
    let each_mode = [window, window, window, register, register, register];
    assert_eq!(answers[first..run], [each_mode, each_mode].concat());
    assert_eq!(answers[run], ran(code, 0, 0));
    assert_eq!(answers[smram].value & 1, 0, "no error bit");
    assert!(memory_lent == before, "a refusal changes no byte");
}

/// Each of these uses is answered, on a word that holds the entry.
#[track_caller]
fn each_use_is_answered(mut script: Script, number: u32, entry: u32, memory_lent: &mut [u8]) {
    script.ring(number << 12, 1, 0, 0x20);
    let write = script.entry(number, entry);
    let read = script.register_read(word(number));
    let window = script.window_read((number << 12) + 0x44, 4);
    let run = script.run(1);
    let answers = replay_on(&script, memory_lent);
    assert_eq!(answers[write], mapped(word(number), 0));
    assert_eq!(answers[read], mapped(word(number), entry));
    assert_eq!(answers[window], memory((entry & 0x3FFF_F000) + 0x44));
    assert_eq!(answers[run], ran(0, 4, 1));
}

/// "The sum does not wrap at 32 bits."
#[test]
fn a_word_past_4_gib_is_not_one_at_the_bottom_of_memory() {
    // Where a sum of 32 bits would lead there is an entry that could be used.
    for (base, number) in [(0xFFFF_F000, 1024), (0xFFFF_F000, 16_383), (0xFFFF_1000, 15_360)] {
        let wrapped = u32::wrapping_add(base, 4 * number);
        assert!(wrapped < TOP);
        each_use_is_refused(table_at(base), number, 7, &mut holding(&[(wrapped, 0x0010_0001)]));
    }
    for number in [0, 1023] {
        each_use_is_refused(table_at(0xFFFF_F000), number, 7, &mut holding(&[]));
    }
}

/// "A word at or above TOM gives code 7": each word by itself, up to the last below TOM.
#[test]
fn a_word_at_or_above_the_top_of_memory_is_refused_with_code_7() {
    for (base, last) in [(TOP - 0x1000, 1023), (TOP - 0x8000, 8191), (TOP - 0xF000, 15_359)] {
        each_use_is_answered(table_at(base), 0, 0x0010_0001, &mut holding(&[]));
        each_use_is_answered(table_at(base), last, 0x0010_0001, &mut holding(&[]));
        each_use_is_refused(table_at(base), last + 1, 7, &mut holding(&[]));
    }
    // The whole table below TOM, and none of it.
    each_use_is_answered(table_at(TOP - 0x1_0000), 16_383, 0x0010_0001, &mut holding(&[]));
    for base in [TOP, TOP + 0x1000, 0x2000_0000, 0x8000_0000] {
        each_use_is_refused(table_at(base), 0, 7, &mut holding(&[]));
    }
}

/// "one in protected memory code 6": A0000h-BFFFFh, locked or not, "if LSMM is 10 or 11, or HSEG acts". What the
/// word holds is not looked at. Management mode is no exception.
#[test]
fn a_word_in_a0000h_to_bffffh_is_refused_where_that_is_protected() {
    for (smram, protected) in [
        (0x40, false),
        (0x44, false),
        (0x74, false),
        (0x48, true),
        (0x4C, true),
        (0x50, true),
        (0x60, true),
        (0x7C, true),
    ] {
        for lock in [0, LOCK] {
            for base in [0xA_0000, 0xB_0000] {
                let mut script = table_at(base);
                script.smram(smram | lock);
                // An entry that could be used, one that is not valid and one above TOM.
                for entry in [0x0010_0001, 0, 0x0080_0001] {
                    let address = base + 4 * 7;
                    if protected {
                        each_use_is_refused(script.clone(), 7, 6, &mut holding(&[(address, entry)]));
                    }
                }
                if !protected {
                    each_use_is_answered(script, 7, 0x0010_0001, &mut holding(&[]));
                }
            }
        }
    }
}

/// The borders of A0000h-BFFFFh inside one table.
#[test]
fn each_word_is_protected_by_itself_at_the_borders_of_a0000h_to_bffffh() {
    for (base, number, closed) in [
        (0x9_F000, 1023, false),
        (0x9_F000, 1024, true),
        (0xB_F000, 1023, true),
        (0xB_F000, 1024, false),
        (0x9_1000, 15_359, false),
        (0x9_1000, 15_360, true),
    ] {
        let mut script = table_at(base);
        script.smram(0x4C | LOCK);
        match closed {
            true => each_use_is_refused(script, number, 6, &mut holding(&[(base + 4 * number, 0x0010_0001)])),
            false => each_use_is_answered(script, number, 0x0010_0001, &mut holding(&[])),
        }
    }
}

/// "and the TSEG": up to the top of memory, where code 7 takes over.
#[test]
fn each_word_is_protected_by_itself_at_the_borders_of_the_tseg() {
    for (base, number, code) in [
        (0x6F_F000, 1023, 0),
        (0x6F_F000, 1024, 6),
        (0x70_0000, 0, 6),
        (0x7F_F000, 1023, 6),
        (0x7F_F000, 1024, 7),
        (0x7F_0000, 16_383, 6),
    ] {
        for lock in [0, LOCK] {
            let mut script = table_at(base);
            script.smram(CLOSED | lock);
            match code {
                0 => each_use_is_answered(script, number, 0x0010_0001, &mut holding(&[])),
                code => each_use_is_refused(script, number, code, &mut holding(&[])),
            }
        }
    }
}

/// Only TOM and protection are asked: not whether the processor would reach the word there.
#[test]
fn a_word_in_taken_memory_or_below_1_mib_is_reached() {
    for base in [0, 0x1_0000, 0x9_0000, 0xC_0000, 0xF_0000, 0x68_0000, 0x6A_5000, 0x6F_0000] {
        let mut script = table_at(base);
        script.smram(CLOSED | LOCK);
        let number = 77;
        each_use_is_answered(script, number, 0x0010_0001, &mut holding(&[]));
    }
}

/// "after code 3 for a lookup": "9, 3, 4, 5, 7, 6" with the word's 7 and 6 after 3, and before what the entry says.
#[test]
fn the_codes_of_a_window_access_come_in_their_order() {
    // The word is at TOM; the word is protected and holds 0.
    for (base, code) in [(TOP, 7), (0xA_0000, 6)] {
        let mut script = table_at(base);
        script.smram(0x4C);
        let word_itself = script.window_read(0, 4);
        script.register_write(0x2020, base);
        let off = script.window_read(0, 4);
        // Fence 0 is ill-formed over the first 512 KiB.
        script.register_write(0x2000, 0x1001);
        let fenced = script.window_read(0, 4);
        script.register_write(0x2020, base | 1);
        let fenced_and_on = script.window_read(0, 4);
        let answers = replay(&script);
        let at_0 = |code| refused_at(code, 0);
        assert_eq!([word_itself, off, fenced, fenced_and_on].map(|i| answers[i]), [code, 3, 9, 9].map(at_0));
    }
    // Words that are reached: the entry's own codes, as document 01 has them.
    let entries = [0x0080_0002, 0x0080_0003, 0x000A_0005, 0x0080_0007, 0x000A_0007, 0x0010_0007];
    let mut script = table_at(TABLE);
    for (number, entry) in entries.into_iter().enumerate() {
        script.entry(number as u32, entry);
    }
    script.smram(0x4C);
    let first = script.records.len();
    for page in 0..6 {
        script.window_read(page << 12, 4);
    }
    let answers = replay(&script);
    let expected = [
        refused_at(4, 0),
        refused_at(5, 0x1000),
        refused_at(5, 0x2000),
        refused_at(7, 0x3000),
        refused_at(6, 0x4000),
        memory(0x10_0000),
    ];
    assert_eq!(answers[first..], expected);
}

/// A fence moves an offset before its entry is looked up.
#[test]
fn the_word_is_the_fenced_offsets() {
    let mut script = table_at(TOP - 0x1000);
    script.register_write(0x2000, 0x51);
    // P = 4096: y = 17, x = 4092 becomes 2048 x 63 + 252, which is in page 31 and not 17.
    script.entry(31, 0x0010_0001);
    let moved = script.window_read(17 * 4096 + 4092, 4);
    let answers = replay(&script);
    assert_eq!(answers[moved], memory(0x10_0000 + (2048 * 63 + 252) % 4096));
}

/// "For the parser: 11, then empty check, then 8, 3, 4, 5, 7, 6, 12", with the word's 7 and 6 after 3.
#[test]
fn the_codes_of_a_fetch_come_in_their_order() {
    for (base, code) in [(TOP, 7), (0xA_0000, 6)] {
        let mut script = table_at(base);
        script.smram(0x4C);
        script.ring(0, 1, 0, 0x20);
        let word_itself = script.run(9);
        script.register_write(0x2020, base);
        let off = script.run(9);
        script.config_write(0, 0x72, 1, 1);
        script.register_write(0x2038, 0x0200_0000);
        let outside = script.run(9);
        script.register_write(0x2030, 0);
        let empty = script.run(9);
        script.register_write(0x2030, 0x1000);
        let range = script.run(9);
        let answers = replay(&script);
        let runs = [word_itself, off, outside, empty, range].map(|i| answers[i]);
        assert_eq!(runs, [ran(code, 0, 0), ran(3, 0, 0), ran(8, 0, 0), ran(0, 0, 0), ran(11, 0, 0)]);
    }
}

/// "A parser run refused ... keeps its completed steps and reports head and count", up to a page whose word is refused.
#[test]
fn a_run_ends_at_the_page_whose_word_is_refused() {
    // Entry 1023 is the last of a page of the table, and 1024 the first of the next, past a border.
    for (base, code) in [(TOP - 0x1000, 7), (0x9_F000, 6)] {
        let mut script = table_at(base);
        script.smram(0x4C | LOCK);
        script.entry(1023, 0x0010_0001);
        script.ring(1023 << 12, 0x1001, 0x0FF0, 0x1010);
        let run = script.run(u32::MAX);
        assert_eq!(replay(&script)[run], ran(code, 0x1000, 4), "base {base:X}h");
    }
}

/// "after code 10 for a register access".
#[test]
fn a_register_that_is_not_accessed_exactly_is_refused_with_code_10_first() {
    for (base, exact) in [(TOP, 7), (0xA_0000, 6)] {
        let mut script = table_at(base);
        script.smram(0x4C);
        let first = script.records.len();
        for (at, width) in [(0, 1), (0, 2), (1, 2), (2, 2), (3, 1), (0, 4)] {
            script.push(Record::read(Script::REGISTERS + word(3) + at, width, false));
            script.push(Record::write(Script::REGISTERS + word(3) + at, width, 0xFFFF_FFFF, true));
        }
        let expected = [10, 10, 10, 10, 10, 10, 10, 10, 10, 10, exact, exact].map(refused);
        assert_eq!(replay(&script)[first..], expected);
    }
}

/// "translation off does not stop register access."
#[test]
fn registers_reach_their_words_with_translation_off() {
    for (base, code) in [(TABLE, 0), (TOP, 7), (0xA_0000, 6)] {
        let mut script = Script::new();
        script.graphics();
        script.register_write(0x2020, base);
        script.smram(0x4C);
        let write = script.entry(9, 0x0010_0001);
        let read = script.register_read(word(9));
        let answers = replay(&script);
        let expected = match code {
            0 => [mapped(word(9), 0), mapped(word(9), 0x0010_0001)],
            code => [refused(code); 2],
        };
        assert_eq!([answers[write], answers[read]], expected, "base {base:X}h");
    }
}

/// "A reset leaves those words", and makes 2020h zero as it does the other registers.
#[test]
fn a_reset_leaves_the_words() {
    let mut script = table_at(TABLE);
    script.entry(3, 0x0010_0001);
    script.push(Record::reset());
    script.graphics();
    let control = script.register_read(0x2020);
    // The base is 0 now.
    let at_zero = script.register_read(word(3));
    let off = script.window_read(0x3044, 4);
    script.register_write(0x2020, TABLE | 1);
    let there = script.register_read(word(3));
    let window = script.window_read(0x3044, 4);
    let memory_lent = &mut holding(&[(12, 0x0BAD_0BAD)]);
    let answers = replay_on(&script, memory_lent);
    assert_eq!(answers[control], mapped(0x2020, 0));
    assert_eq!(answers[at_zero], mapped(word(3), 0x0BAD_0BAD));
    assert_eq!(answers[off], refused_at(3, 0x3044));
    assert_eq!(answers[there], mapped(word(3), 0x0010_0001));
    assert_eq!(answers[window], memory(0x10_0044));
    assert_eq!(word_of(memory_lent, TABLE + 12), 0x0010_0001);
}

/// "Each call is a cold start": 2020h is zero, and the words are what memory holds.
#[test]
fn a_cold_start_finds_the_words_in_memory() {
    let memory_lent = &mut holding(&[(TABLE + 12, 0x0010_0001)]);
    let mut script = Script::new();
    script.graphics();
    let control = script.register_read(0x2020);
    script.register_write(0x2020, TABLE | 1);
    let window = script.window_read(0x3044, 4);
    let answers = replay_on(&script, memory_lent);
    assert_eq!(answers[control], mapped(0x2020, 0));
    assert_eq!(answers[window], memory(0x10_0044));
}

/// "the check at use is": an entry that was good when it was stored is looked at anew, and so is where its word lies.
#[test]
fn what_is_protected_is_asked_at_each_use() {
    let mut script = table_at(0xA_0000);
    script.smram(0x44);
    script.entry(0, 0x0010_0001);
    script.entry(1, 0x000A_0001);
    let open = script.window_read(0x44, 4);
    script.smram(0x4C);
    let closed = script.window_read(0x44, 4);
    let register = script.register_read(word(0));
    // The table elsewhere, and an entry for the same page.
    script.register_write(0x2020, TABLE | 1);
    script.entry(1, 0x000A_0001);
    let page = script.window_read(0x1044, 4);
    script.smram(0x44);
    let page_open = script.window_read(0x1044, 4);
    let answers = replay(&script);
    assert_eq!(answers[open], memory(0x10_0044));
    let expected = [refused_at(6, 0x44), refused(6), refused_at(6, 0x1044)];
    assert_eq!([closed, register, page].map(|i| answers[i]), expected);
    assert_eq!(answers[page_open], memory(0xA_0044));
}

/// A refusal's answer "holds the code and the interrupt line", the word's refusals too.
#[test]
fn the_words_refusals_carry_the_interrupt_line() {
    let mut script = table_at(TABLE);
    script.entry(0, 0x0010_0001);
    script.ring(0, 1, 0, 8);
    script.register_write(0x20A8, 0);
    script.register_write(0x20A0, 2);
    script.run(1);
    script.register_write(0x2020, TOP | 1);
    let first = script.window_read(0x44, 4);
    script.register_read(word(0));
    script.entry(0, 1);
    let answers = replay_on(&script, &mut holding(&[(0x10_0000, 0x0100_0000)]));
    let up = [refused_at(7, 0x44), refused(7), refused(7)].map(|answer| Answer { line: 1, ..answer });
    assert_eq!(answers[first..], up);
}

/// The examples at the edges of document 01, on a table in main memory: "Entries stored before the lock, translation
/// on: 0009F001h reached at offset ABCh as 9FABCh; 000A0001h code 6; 006FF001h reached; 00700001h code 6; 00800001h
/// code 7; 0 code 4."
#[test]
fn the_examples_at_the_edges_hold_for_a_table_in_memory() {
    let mut script = table_at(TABLE);
    for (number, entry) in [0x0009_F001, 0x000A_0001, 0x006F_F001, 0x0070_0001, 0x0080_0001, 0].into_iter().enumerate()
    {
        script.entry(number as u32, entry);
    }
    script.smram(CLOSED | LOCK);
    let first = script.window_read(0xABC, 4);
    for page in 1..6 {
        script.window_read(page << 12, 4);
    }
    let expected = [
        memory(0x9_FABC),
        refused_at(6, 0x1000),
        memory(0x6F_F000),
        refused_at(6, 0x3000),
        refused_at(7, 0x4000),
        refused_at(4, 0x5000),
    ];
    assert_eq!(replay(&script)[first..], expected);
}
