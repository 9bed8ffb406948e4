//! Request 9 of document 02, "No bad entries after the lock": each of its sentences with the answers it asks for, and those
//! of request 10 that name its code 16. Every list goes through the call and through the reference, on each board that it
//! is for. A memory of 1 GiB has its test in `one_gibibyte`.

mod common;

use common::{mapped, ran, reached, refused, refused_at, register_width, replay_both, Script, MIB};
use mitrophel::{Answer, Record, Target};

const TOP: u32 = 8 << 20;
const PAGE: u32 = 4096;
const ALL: [u32; 4] = [0, 1, 2, 3];
/// The boards whose table is in main memory.
const MAIN: [u32; 2] = [2, 3];
/// Where they have it. The others keep this base and do not look at it.
const TABLE: u32 = 0x20_0000;
const LOCK: u8 = 0x02;
/// An entry's bits: valid, of type 00 and of type 11.
const TYPE_00: u32 = 0b001;
const TYPE_11: u32 = 0b111;
/// GMS 10, USMM 11, LSMM 11: U is 680000h, taken memory 680000h-6FFFFFh, the TSEG 700000h-7FFFFFh.
const CLOSED: u8 = 0xBC;

/// What SMRAM may be with GMS 01, and protected pages of 8 MiB then: the first, one inside and the last of a range.
const GUARDS: [(u8, &[u32]); 9] = [
    // LSMM 10, LSMM 11.
    (0x48, &[0xA_0000, 0xA_5000, 0xB_F000]),
    (0x4C, &[0xA_0000, 0xB_0000, 0xB_F000]),
    // HSEG, by each USMM.
    (0x50, &[0xA_0000, 0xB_8000, 0xB_F000]),
    (0x60, &[0xA_0000, 0xA_1000, 0xB_F000]),
    (0x70, &[0xA_0000, 0xB_E000, 0xB_F000]),
    // A TSEG of 512 KiB and of 1 MiB, with A0000h-BFFFFh general memory.
    (0x64, &[0x78_0000, 0x7A_5000, 0x7F_F000]),
    (0x74, &[0x70_0000, 0x77_F000, 0x7F_F000]),
    // The same with LSMM 11.
    (0x6C, &[0xA_0000, 0xB_F000, 0x78_0000, 0x7F_F000]),
    (0x7C, &[0xA_0000, 0xB_F000, 0x70_0000, 0x7F_F000]),
];

fn memory(address: u32) -> Answer {
    reached(Target::Memory, address, 0)
}

/// The register of entry `number`.
const fn word(number: u32) -> u32 {
    0x1_0000 + 4 * number
}

/// A write of entry `number`.
fn entry(number: u32, data: u32, management: bool) -> Record {
    Record::write(Script::REGISTERS + word(number), 4, data, management)
}

/// Graphics on, translation on, nothing protected.
fn open() -> Script {
    let mut script = Script::new();
    script.graphics();
    script.register_write(0x2020, TABLE | 1);
    script
}

/// The same with this SMRAM, locked.
fn locked(smram: u8) -> Script {
    let mut script = open();
    script.smram(smram | LOCK);
    script
}

/// The answers on 8 MiB of zeros, which are the same on each of these boards.
#[track_caller]
fn replay_on(boards: &[u32], script: &Script) -> Vec<Answer> {
    let mut answers = boards.iter().map(|&board| replay_both(board, &mut vec![0; TOP as usize], &script.records));
    let first = answers.next().expect("a board");
    assert!(answers.all(|other| other == first), "the boards differ");
    first
}

#[track_caller]
fn replay(script: &Script) -> Vec<Answer> {
    replay_on(&ALL, script)
}

/// "With the lock set, a table write whose stored word is valid, of type 00 or 11, and names a protected page gets new code
/// 16": whatever protects the page, in either type, with translation on or off. Management mode makes no difference.
#[test]
fn an_entry_of_a_protected_page_is_refused_with_code_16_once_smram_is_locked() {
    for (smram, pages) in GUARDS {
        for control in [TABLE | 1, TABLE] {
            let mut script = locked(smram);
            script.register_write(0x2020, control);
            let first = script.records.len();
            for page in pages {
                for bits in [TYPE_00, TYPE_11] {
                    script.push(entry(18, page | bits, false));
                    script.push(entry(18, page | bits, true));
                }
            }
            let read = script.register_read(word(18));
            let answers = replay(&script);
            for (record, answer) in script.records[first..read].iter().zip(&answers[first..read]) {
                assert_eq!(*answer, refused(16), "SMRAM {smram:X}h, {record}");
            }
            assert_eq!(answers[read], mapped(word(18), 0), "SMRAM {smram:X}h");
        }
    }
}

/// "Protected: A0000h-BFFFFh if LSMM is 10 or 11, or HSEG acts; and the TSEG."
fn is_protected(smram: u8, page: u32, top: u32) -> bool {
    let (usmm, lsmm) = (smram >> 4 & 3, smram >> 2 & 3);
    let tseg = [0, 0, 0x8_0000, 0x10_0000][usize::from(usmm)];
    match page {
        0xA_0000..=0xB_FFFF => lsmm == 2 || lsmm == 3 || lsmm == 0 && usmm != 0,
        _ => top - tseg <= page && page < top,
    }
}

/// "Any other entry is still stored.": every page of memory and those above it, each type, valid and not, with each SMRAM
/// that shows the registers. What is stored is read back.
#[test]
fn every_page_is_refused_or_stored_as_its_protection_says() {
    let above = [TOP, TOP + PAGE, 0x2000_0000, 0x200A_0000, 0x3FFF_F000];
    let pages: Vec<u32> = (0..TOP).step_by(PAGE as usize).chain(above).collect();
    for smram in (0x40..=0xFC).step_by(4) {
        let mut script = locked(smram);
        let first = script.records.len();
        let words: Vec<u32> = pages.iter().flat_map(|page| (0..8).map(move |bits| page | bits)).collect();
        for (number, &data) in words.iter().enumerate() {
            script.push(entry(number as u32 % 16_384, data, false));
            script.register_read(word(number as u32 % 16_384));
        }
        // A table in main memory has the same answers; one board of each is enough here.
        let answers = replay_on(&[0, 3], &script);
        let mut held = vec![0; 16_384];
        for (number, &data) in words.iter().enumerate() {
            let bad = matches!(data & 7, TYPE_00 | TYPE_11) && is_protected(smram, data & 0x3FFF_F000, TOP);
            let at = word(number as u32 % 16_384);
            let expected = if bad { refused(16) } else { mapped(at, 0) };
            assert_eq!(answers[first + 2 * number], expected, "SMRAM {smram:X}h, entry {data:X}h");
            if !bad {
                held[number % 16_384] = data;
            }
            assert_eq!(answers[first + 2 * number + 1], mapped(at, held[number % 16_384]), "SMRAM {smram:X}h");
        }
    }
}

/// The borders: the pages around A0000h-BFFFFh, around the TSEG and at the top of memory, on every board.
#[test]
fn the_pages_beside_protected_memory_are_stored() {
    // SMRAM; pages that are stored; pages that are refused.
    let cases: [(u8, &[u32], &[u32]); 6] = [
        (0x4C, &[0x9_F000, 0xC_0000, 0x7F_F000, TOP], &[0xA_0000, 0xB_F000]),
        (0x60, &[0x9_F000, 0xC_0000, 0x77_F000, TOP], &[0xA_0000, 0xB_F000, 0x78_0000, 0x7F_F000]),
        (0x70, &[0x9_F000, 0xC_0000, 0x6F_F000, TOP], &[0xA_0000, 0xB_F000, 0x70_0000, 0x7F_F000]),
        // General memory: A0000h-BFFFFh is open, the TSEG is not.
        (0x64, &[0xA_0000, 0xB_F000, 0x77_F000, TOP], &[0x78_0000, 0x7F_F000]),
        // Taken memory is not protected: 680000h-6FFFFFh, and 700000h-7FFFFFh without a TSEG.
        (CLOSED, &[0x67_F000, 0x68_0000, 0x6A_5000, 0x6F_F000, 0x3FFF_F000], &[0x70_0000, 0x7F_F000]),
        (0xCC, &[0x6F_F000, 0x70_0000, 0x7F_F000, TOP], &[0xA_0000, 0xB_F000]),
    ];
    for (smram, stored, closed) in cases {
        let mut script = locked(smram);
        let mut expected = Vec::new();
        let first = script.records.len();
        for bits in [TYPE_00, TYPE_11] {
            for page in stored {
                script.push(entry(5, page | bits, false));
                script.register_read(word(5));
                expected.extend([mapped(word(5), 0), mapped(word(5), page | bits)]);
            }
            for page in closed {
                script.push(entry(5, page | bits, false));
                expected.push(refused(16));
            }
        }
        assert_eq!(replay(&script)[first..], expected, "SMRAM {smram:X}h");
    }
}

/// The same where memory is larger: the TSEG is at its top, and the last MiB of 8 is ordinary.
#[test]
fn a_larger_memory_has_its_protected_pages_at_its_own_top() {
    for (length, tseg) in [(16 * MIB, 0xF0_0000), (24 * MIB, 0x170_0000)] {
        let mut script = locked(CLOSED);
        let first = script.records.len();
        let pages = [tseg - PAGE, tseg, length as u32 - PAGE, length as u32, 0x70_0000, 0x7F_F000];
        for page in pages {
            script.push(entry(0, page | TYPE_00, false));
        }
        for board in ALL {
            let answers = replay_both(board, &mut vec![0; length], &script.records);
            let expected = pages.map(|page| match is_protected(CLOSED, page, length as u32) {
                true => refused(16),
                false => mapped(word(0), 0),
            });
            assert_eq!(answers[first..], expected, "board {board}, {length} bytes");
        }
    }
}

/// "a table write": of each of the 16,384 entries, those past a window of 32 MiB too.
#[test]
fn every_entry_of_the_table_is_asked() {
    for window in [0, 1] {
        let mut script = open();
        script.config_write(0, 0x72, 1, window);
        script.smram(CLOSED | LOCK);
        let first = script.records.len();
        for number in 0..16_384 {
            script.push(entry(number, 0x0070_0000 | TYPE_00, false));
        }
        assert!(replay(&script)[first..].iter().all(|answer| *answer == refused(16)), "72h is {window}");
    }
}

/// "whose stored word": data AND 3FFFF007h. Bits 31:30 and 11:3 of the data do not hide a page, and bit 29 counts.
#[test]
fn the_stored_word_decides_and_not_the_data() {
    let mut script = locked(CLOSED);
    let first = script.records.len();
    let bad = [0xC00A_0001, 0x400A_0001, 0x800B_F007, 0x000A_0FF9, 0x000A_0009, 0x0070_0807, 0xC07F_FFFF];
    for data in bad {
        script.push(entry(0, data, false));
    }
    // Not valid in its stored bits; types 01 and 10; page 200A0000h, which is above memory.
    let good = [0xC00A_0FF8, 0xC00A_0FFB, 0xC00A_0FFD, 0x200A_0001, 0xE00A_0FF9];
    for data in good {
        script.push(entry(0, data, false));
        script.register_read(word(0));
    }
    let stored = good.iter().flat_map(|data| [mapped(word(0), 0), mapped(word(0), data & 0x3FFF_F007)]);
    let expected: Vec<Answer> = bad.iter().map(|_| refused(16)).chain(stored).collect();
    assert_eq!(replay(&script)[first..], expected);
}

/// Reads of everything that a table write could change: both devices, the registers, the table, and what the entries lead
/// to.
fn everything() -> Script {
    let mut script = Script::new();
    for device in 0..2 {
        for register in (0..256).step_by(4) {
            script.config_read(device, register, 4);
        }
    }
    let fences = (0x2000..0x2020).step_by(4);
    for offset in fences.chain([0x2020, 0x2030, 0x2034, 0x2038, 0x203C, 0x20A0, 0x20A4, 0x20A8]) {
        script.register_read(offset);
    }
    for number in 0..16_384 {
        script.register_read(word(number));
    }
    for page in 0..8 {
        script.window_read(page << 12, 4);
    }
    script
}

/// "gets new code 16 and changes nothing": after refused writes every register, table word and byte is what it is without
/// them, whatever the entry held before.
#[test]
fn a_refused_write_changes_nothing() {
    let mut before = open();
    // Nothing; a good entry; one that is not valid; those that are refused now.
    for (number, data) in [(1, 0x0010_0001), (2, 0x000A_0000), (3, 0x000A_0001), (4, 0x0070_0007)] {
        before.entry(number, data);
    }
    before.smram(CLOSED | LOCK);
    let mut refusals = Script::new();
    for number in 0..5 {
        for data in [0x000A_0001, 0x000A_0007, 0x007F_F001, 0xC00B_FFFF] {
            refusals.push(entry(number, data, number % 2 == 0));
        }
    }
    let after = everything();
    for board in ALL {
        let (mut plain, mut tried) = (vec![0x11; TOP as usize], vec![0x11; TOP as usize]);
        let without = [&before.records[..], &after.records].concat();
        let with = [&before.records[..], &refusals.records, &after.records].concat();
        let expected = replay_both(board, &mut plain, &without);
        let answers = replay_both(board, &mut tried, &with);
        let (first, refused_here) = (before.records.len(), refusals.records.len());
        assert!(answers[first..first + refused_here].iter().all(|answer| *answer == refused(16)), "board {board}");
        assert!(answers[first + refused_here..] == expected[first..], "board {board}: something changed");
        assert!(plain == tried, "board {board}: a byte changed");
    }
}

/// A refusal's answer "holds the code and the interrupt line, all else zero": request 5's offset is a window access's.
#[test]
fn code_16_shows_nothing_but_the_interrupt_line() {
    let mut script = open();
    script.entry(0, 0x0010_0001);
    script.ring(0, 1, 0, 8);
    script.register_write(0x20A8, 0);
    script.register_write(0x20A0, 2);
    script.smram(CLOSED | LOCK);
    let down = script.entry(18, 0x000A_0001);
    script.run(1);
    let up = script.entry(18, 0x000A_0001);
    script.push(entry(16_383, 0x0070_0007, true));
    // A user interrupt.
    let memory_lent = |board| {
        let mut memory = vec![0; TOP as usize];
        memory[0x10_0003] = 0x01;
        replay_both(board, &mut memory, &script.records)
    };
    for answers in ALL.map(memory_lent) {
        assert_eq!(answers[down].to_bytes(), [16, 0, 0, 0, 0, 0, 0, 0, 0, 0, 0, 0, 0, 0, 0, 0]);
        for answer in &answers[up..] {
            assert_eq!(answer.to_bytes(), [16, 0, 1, 0, 0, 0, 0, 0, 0, 0, 0, 0, 0, 0, 0, 0]);
        }
    }
}

/// "It comes after code 10.": where the data as it is, or the bytes with those that are there, would be such an entry.
#[test]
fn code_10_comes_before_code_16() {
    let mut script = open();
    // All but the valid bit, and all but the byte that makes its page a protected one.
    script.entry(3, 0x000A_0000);
    script.entry(4, 0x0000_0001);
    script.smram(CLOSED | LOCK);
    let first = script.records.len();
    for (at, width) in [(0, 1), (0, 2), (1, 1), (1, 2), (2, 1), (2, 2), (3, 1)] {
        for management in [false, true] {
            for data in [0x000A_0001, 0x0001, 0x000A] {
                script.push(Record::write(Script::REGISTERS + word(3) + at, width, data, management));
                script.push(Record::write(Script::REGISTERS + word(4) + at, width, data, management));
            }
        }
    }
    let reads = [3, 4].map(|number| script.register_read(word(number)));
    // Codes 2 and 13 come before both.
    let crossing = script.push(Record::write(Script::REGISTERS + word(3) + 1, 4, 0x000A_0001, false));
    let broken = script.push(Record { reserved: 1, ..entry(3, 0x000A_0001, false) });
    let answers = replay(&script);
    assert!(answers[first..reads[0]].iter().all(|answer| *answer == refused(10)));
    assert_eq!(reads.map(|i| answers[i]), [mapped(word(3), 0x000A_0000), mapped(word(4), 1)]);
    assert_eq!([crossing, broken].map(|i| answers[i]), [refused(2), refused(13)]);
}

/// Every use of the entry of page `number` of the window, each refused with code 6, and the read of its register.
fn uses(script: &mut Script, number: u32, word_held: u32) -> Vec<(usize, Answer)> {
    let offset = number * PAGE + 0xABC;
    let mut expected = Vec::new();
    for management in [false, true] {
        let at = Script::WINDOW + offset;
        for record in [
            Record::read(at, 4, management),
            Record::code_read(at, 2, management),
            Record::write(at, 1, 0x0BAD, management),
        ] {
            expected.push((script.push(record), refused_at(6, offset)));
        }
    }
    script.ring(number * PAGE, 1, 0, 8);
    expected.push((script.run(9), ran(6, 0, 0)));
    expected.push((script.register_read(word(number)), mapped(word(number), word_held)));
    expected
}

/// "Before the lock, and for entries already there, the check at use remains.": such an entry is stored and read before the
/// lock, is still there after it, and is refused with code 6 whenever it is used, in management mode too.
#[test]
fn before_the_lock_and_for_entries_already_there_the_check_at_use_remains() {
    for (smram, pages) in GUARDS {
        let mut script = open();
        script.smram(smram);
        let mut expected = Vec::new();
        let entries: Vec<(u32, u32)> =
            (0..).zip(pages.iter().flat_map(|page| [page | TYPE_00, page | TYPE_11])).collect();
        for &(number, data) in &entries {
            expected.push((script.push(entry(number, data, number % 2 == 0)), mapped(word(number), 0)));
            expected.extend(uses(&mut script, number, data));
        }
        let lock = script.smram(smram | LOCK);
        expected.push((lock, reached(Target::Register, 0x70, 0)));
        for &(number, data) in &entries {
            expected.extend(uses(&mut script, number, data));
            // The same once more is an attempt like any other.
            expected.push((script.push(entry(number, data, false)), refused(16)));
            expected.extend(uses(&mut script, number, data));
        }
        let answers = replay(&script);
        for (i, answer) in expected {
            assert_eq!(answers[i], answer, "SMRAM {smram:X}h, {}", script.records[i]);
        }
    }
}

/// An entry already there may be replaced by any that is not refused, and then does not come back.
#[test]
fn an_entry_already_there_can_be_cleared_and_does_not_come_back() {
    for replacement in [0, 0x000A_0000, 0x0010_0001, 0x000A_0003, 0x0080_0001] {
        let mut script = open();
        script.entry(7, 0x000A_0001);
        script.smram(0x4C | LOCK);
        let first = script.entry(7, replacement);
        script.register_read(word(7));
        script.entry(7, 0x000A_0001);
        script.register_read(word(7));
        let held = mapped(word(7), replacement);
        let expected = [mapped(word(7), 0), held, refused(16), held];
        assert_eq!(replay(&script)[first..], expected, "{replacement:X}h");
    }
}

/// "Any other entry is still stored.", and is used as before: codes 4, 5 and 7, or a page that is reached.
#[test]
fn any_other_entry_is_still_stored_and_used() {
    // Entry, and the code of an access through it.
    let entries = [
        (0x000A_0000, 4),
        (0x0070_0006, 4),
        (0x000A_0003, 5),
        (0x0070_0003, 5),
        (0x000A_0005, 5),
        (0x007F_F005, 5),
        (0x0080_0001, 7),
        (0x3FFF_F007, 7),
        (0x0009_F001, 0),
        (0x000C_0007, 0),
        (0x006F_F001, 0),
        (0x0000_0007, 0),
    ];
    let mut script = locked(CLOSED);
    let mut expected = Vec::new();
    for (number, (data, code)) in (0..).zip(entries) {
        let offset = number * PAGE + 0xABC;
        let used = if code == 0 { memory((data & 0x3FFF_F000) + 0xABC) } else { refused_at(code, offset) };
        expected.push((script.entry(number, data), mapped(word(number), 0)));
        expected.push((script.register_read(word(number)), mapped(word(number), data)));
        expected.push((script.window_read(offset, 4), used));
    }
    let answers = replay(&script);
    for (i, answer) in expected {
        assert_eq!(answers[i], answer, "{}", script.records[i]);
    }
}

/// Request 11: the display cache "is never protected". An entry of type 01 is stored, and reaches it, where main memory's
/// page of the same number is protected.
#[test]
fn an_entry_of_the_display_cache_is_still_stored() {
    let mut script = locked(0x7C);
    script.register_write(0x3000, 1);
    let first = script.entry(1, 0x000A_0003);
    script.window_read(0x1ABC, 4);
    let expected = [mapped(word(1), 0), reached(Target::DisplayCache, 0xA_0ABC, 0)];
    assert_eq!(replay_on(&[1, 3], &script)[first..], expected);
}

/// "A word at or above TOM gives code 7 and one in protected memory code 6, ... after code 10 for a register access, 7
/// first, then Item 9's 16; translation off does not stop register access."
#[test]
fn the_words_7_and_6_come_before_code_16() {
    // The word's base, its number, and the code of a write of an entry that is refused and of one that is not.
    let cases = [
        (TOP, 0, 7, 7),
        (TOP - 0x1000, 1024, 7, 7),
        (0xFFFF_F000, 1024, 7, 7),
        (0xA_0000, 0, 6, 6),
        (0x9_F000, 1024, 6, 6),
        (0x70_0000, 16_383, 6, 6),
        (TOP - 0x1000, 1023, 6, 6),
        // The last word before each border.
        (0x9_F000, 1023, 16, 0),
        (0x6F_F000, 1023, 16, 0),
        (0xC_0000, 0, 16, 0),
        (0x68_0000, 77, 16, 0),
    ];
    for (base, number, bad, good) in cases {
        for control in [base, base | 1] {
            let mut script = open();
            script.register_write(0x2020, control);
            script.smram(CLOSED | LOCK);
            let first = script.entry(number, 0x000A_0001);
            script.push(entry(number, 0x007F_F007, true));
            script.entry(number, 0x0010_0001);
            let narrow = script.push(Record::write(Script::REGISTERS + word(number), 2, 0x000A_0001, false));
            let good = if good == 0 { mapped(word(number), 0) } else { refused(good) };
            let expected = [refused(bad), refused(bad), good, refused(10)];
            let answers = replay_on(&MAIN, &script);
            assert_eq!(answers[first..=narrow], expected, "base {base:X}h, word {number}");
        }
    }
}

/// "Ordinary writes may change them, so Item 9's refusal is no longer a guarantee there; the check at use is."
#[test]
fn ordinary_writes_still_make_bad_words_which_are_refused_at_use() {
    let at = TABLE + 4 * 7;
    let through = Script::WINDOW + 0x1000 + 4 * 7;
    for data in [0x000A_0001, 0x007F_F007] {
        let writes = [
            Record::write(at, 4, data, false),
            Record::write(at, 4, data, true),
            Record::master_write(at, 4, data),
            Record::write(through, 4, data, false),
        ];
        for write in writes {
            let mut script = open();
            // Page 1 of the window is the table's own.
            script.entry(1, TABLE | TYPE_00);
            script.smram(CLOSED | LOCK);
            let mut expected = vec![(script.push(entry(7, data, false)), refused(16))];
            expected.push((script.push(write), memory(at)));
            expected.extend(uses(&mut script, 7, data));
            expected.push((script.push(entry(7, data, true)), refused(16)));
            expected.extend(uses(&mut script, 7, data));
            let answers = replay_on(&MAIN, &script);
            for (i, answer) in expected {
                assert_eq!(answers[i], answer, "{}", script.records[i]);
            }
        }
    }
    // Byte by byte, which no register write could do.
    let mut script = locked(CLOSED);
    script.push(Record::write(at + 2, 1, 0x0A, false));
    script.push(Record::master_write(at, 1, 0x01));
    let expected = uses(&mut script, 7, 0x000A_0001);
    let answers = replay_on(&MAIN, &script);
    for (i, answer) in expected {
        assert_eq!(answers[i], answer, "{}", script.records[i]);
    }
}

/// "With the lock set": by the write that sets it, whose other bits count, and by no later one. A write of SMRAM that the
/// lock refuses does not open the table.
#[test]
fn the_lock_holds_from_the_write_that_sets_it() {
    let mut script = open();
    let open_still = script.entry(0, 0x000A_0001);
    script.smram(0x4C);
    let closed = script.entry(0, 0x000A_0007);
    script.smram(0x40);
    script.smram(0x4C | LOCK);
    let first = script.entry(0, 0x000A_0001);
    for smram in [0x00, 0x40, 0x44, 0xFF] {
        script.smram(smram);
        script.entry(0, 0x000A_0001);
    }
    let answers = replay(&script);
    assert_eq!([open_still, closed].map(|i| answers[i]), [mapped(word(0), 0); 2]);
    let tried = (first..answers.len()).filter(|&i| script.records[i] == entry(0, 0x000A_0001, false));
    assert_eq!(tried.map(|i| answers[i]).collect::<Vec<_>>(), [refused(16); 5]);
}

/// A locked board on which nothing is protected stores every entry: LSMM 00 or 01 without a USMM, and LSMM 01 with HSEG.
#[test]
fn a_locked_board_that_protects_nothing_refuses_nothing() {
    for smram in [0x40, 0x44, 0x54, 0x80, 0xC4] {
        let mut script = locked(smram);
        let first = script.records.len();
        for page in [0x9_F000, 0xA_0000, 0xB_F000, 0xC_0000, 0x70_0000, 0x7F_F000, TOP, 0x3FFF_F000] {
            script.push(entry(0, page | TYPE_00, false));
            script.push(entry(0, page | TYPE_11, true));
        }
        let answers = replay(&script);
        assert!(answers[first..].iter().all(|answer| *answer == mapped(word(0), 0)), "SMRAM {smram:X}h");
    }
}

/// "Reset restores defaults": the lock goes, so that a bad entry is stored again until the next lock.
#[test]
fn a_reset_opens_the_table_again() {
    let mut script = locked(CLOSED);
    let refused_first = script.entry(9, 0x000A_0001);
    script.push(Record::reset());
    script.graphics();
    script.register_write(0x2020, TABLE | 1);
    script.smram(CLOSED);
    let stored = script.entry(9, 0x000A_0001);
    let read = script.register_read(word(9));
    let window = script.window_read(0x9ABC, 4);
    script.smram(CLOSED | LOCK);
    let refused_again = script.entry(9, 0x000A_0007);
    let there = script.register_read(word(9));
    let answers = replay(&script);
    assert_eq!([refused_first, refused_again].map(|i| answers[i]), [refused(16); 2]);
    assert_eq!(answers[stored], mapped(word(9), 0));
    assert_eq!([read, there].map(|i| answers[i]), [mapped(word(9), 0x000A_0001); 2]);
    assert_eq!(answers[window], refused_at(6, 0x9ABC));
}

/// "a table write": no read, no other register, and no access that does not arrive at the registers.
#[test]
fn nothing_but_a_table_write_gets_code_16() {
    let mut script = open();
    script.entry(0, 0x000A_0001);
    script.smram(CLOSED | LOCK);
    let mut expected = Vec::new();
    for management in [false, true] {
        let at = Script::REGISTERS + word(0);
        expected.push((script.push(Record::read(at, 4, management)), mapped(word(0), 0x000A_0001)));
        expected.push((script.push(Record::code_read(at, 4, management)), mapped(word(0), 0x000A_0001)));
    }
    // The other registers, whose words could be such entries, and what is not listed before and after the table.
    for offset in [0x2000, 0x201C, 0x2020, 0x2030, 0x2034, 0x2038, 0x203C, 0xFFFC, 0x2_0000] {
        let at = Script::REGISTERS + offset;
        expected.push((script.push(Record::write(at, register_width(offset), 0x000A_0001, false)), mapped(offset, 0)));
    }
    // Hub masters do not reach the registers, and memory is memory.
    let hub = reached(Target::Hub, Script::REGISTERS + word(0), 0);
    expected.push((script.push(Record::master_write(Script::REGISTERS + word(0), 4, 0x000A_0001)), hub));
    expected.push((script.push(Record::write(0x10_0000, 4, 0x000A_0001, false)), memory(0x10_0000)));
    // With device 1's memory access off nobody does.
    script.config_write(1, 0x04, 1, 0);
    expected.push((script.push(entry(0, 0x000A_0001, true)), hub));
    let answers = replay(&script);
    for (i, answer) in expected {
        assert_eq!(answers[i], answer, "{}", script.records[i]);
    }
}

/// Document 01: "Entry data FFFFFFFFh stores 3FFFF007h." and, of the examples at the edges, "Entries stored before the
/// lock". The same entries after it.
#[test]
fn the_examples_at_the_edges_after_the_lock() {
    let mut script = locked(CLOSED);
    let entries = [0x0009_F001, 0x000A_0001, 0x006F_F001, 0x0070_0001, 0x0080_0001, 0, 0xFFFF_FFFF];
    let first = script.records.len();
    for (number, data) in (0..).zip(entries) {
        script.entry(number, data);
    }
    let read = script.register_read(word(6));
    let answers = replay(&script);
    let codes: Vec<u8> = answers[first..read].iter().map(|answer| answer.code).collect();
    assert_eq!(codes, [0, 16, 0, 16, 0, 0, 0]);
    assert_eq!(answers[read], mapped(word(6), 0x3FFF_F007));
}
