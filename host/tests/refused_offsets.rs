//! Request 5 of document 02, "Say where it was refused": each of its sentences with the answers it asks for. Every list
//! goes through the call and through the reference, on every board that it is for.

mod common;

use common::{ran, reached, refused, refused_at, replay_both, Script, MIB};
use mitrophel::{Answer, Record, Target};

const TOP: u32 = 8 << 20;
/// Where boards that have their table in main memory have it. The others keep this base and do not look at it.
const TABLE: u32 = 0x20_0000;
/// LSMM 11: A0000h-BFFFFh is protected.
const CLOSED: u8 = 0x4C;
/// 512 KiB from 0 with P = 4096. Offset 73724 has y = 17 and x = 4092, which is tile row 1 of 32 tiles, tile 31, row 1,
/// byte 124: 2048 x (32 + 31) + 128 + 124 = 129276. So an access in page 17 looks entry 31 up.
const FENCE: u32 = 0x51;
const BEFORE: u32 = 73_724;
const AFTER: u32 = 129_276;

/// Graphics on, A0000h-BFFFFh protected, translation on, and a good entry for the page before fencing.
fn scene() -> Script {
    let mut script = Script::new();
    script.graphics();
    script.smram(CLOSED);
    script.register_write(0x2020, TABLE | 1);
    script.entry(BEFORE / 4096, 0x0010_0001);
    script
}

/// A write of a register.
const fn set(offset: u32, data: u32) -> Record {
    Record::write(Script::REGISTERS + offset, 4, data, false)
}

/// A write of an entry.
const fn entry(number: u32, data: u32) -> Record {
    set(0x1_0000 + 4 * number, data)
}

/// What makes a window access at [`AFTER`] refused with each of the codes that come after fencing.
const CAUSES: [(u8, Record); 8] = [
    (3, set(0x2020, TABLE)),
    (4, entry(AFTER / 4096, 0)),
    (4, entry(AFTER / 4096, 0x0010_0006)),
    (5, entry(AFTER / 4096, 0x0010_0003)),
    (5, entry(AFTER / 4096, 0x0010_0005)),
    (7, entry(AFTER / 4096, TOP | 1)),
    (6, entry(AFTER / 4096, 0x000A_0001)),
    (6, entry(AFTER / 4096, 0x000B_F007)),
];

/// The answers, which are the same on each of these boards.
#[track_caller]
fn replay_on(boards: &[u32], script: &Script) -> Vec<Answer> {
    let mut answers = boards.iter().map(|&board| replay_both(board, &mut vec![0; 8 * MIB], &script.records));
    let first = answers.next().expect("a board");
    assert!(answers.all(|other| other == first), "the boards differ");
    first
}

#[track_caller]
fn replay(script: &Script) -> Vec<Answer> {
    replay_on(&[0, 1, 2, 3], script)
}

/// Reads, code reads and writes of every width at every place in the word at this offset of the window, in management
/// mode and not; with the offset of each in the word.
fn accesses(offset: u32) -> Vec<(u32, Record)> {
    let places = [(0, 4), (0, 2), (1, 2), (2, 2), (0, 1), (1, 1), (2, 1), (3, 1)];
    let each = places.into_iter().flat_map(|(at, width)| {
        let address = Script::WINDOW + offset + at;
        [false, true].into_iter().flat_map(move |management| {
            [
                (at, Record::read(address, width, management)),
                (at, Record::code_read(address, width, management)),
                (at, Record::write(address, width, 0x0BAD_0BAD, management)),
            ]
        })
    });
    each.collect()
}

/// Each of the [`accesses`] at `before` is refused with the code and shows `after`, on each of these boards.
#[track_caller]
fn each_access_shows(boards: &[u32], script: &Script, before: u32, code: u8, after: u32) {
    let mut script = script.clone();
    let first = script.records.len();
    let (places, records): (Vec<u32>, Vec<Record>) = accesses(before).into_iter().unzip();
    script.records.extend(records);
    let answers = replay_on(boards, &script);
    let asked = script.records[first..].iter().zip(&answers[first..]);
    for (at, (record, answer)) in places.into_iter().zip(asked) {
        assert_eq!(*answer, refused_at(code, after + at), "{record}");
    }
}

/// "Field staff see code 4 and cannot tell which entry.": entry 18 of offset 12ABCh, to the byte.
#[test]
fn code_4_shows_the_byte_offset() {
    each_access_shows(&[0, 1, 2, 3], &scene(), 0x1_2ABC, 4, 0x1_2ABC);
    each_access_shows(&[0, 1, 2, 3], &scene(), 0x1_2000, 4, 0x1_2000);
    each_access_shows(&[0, 1, 2, 3], &scene(), 0, 4, 0);
}

/// "after fencing for the others": codes 3 to 7, by accesses of every kind, width and mode. Of the page before fencing
/// the entry is good.
#[test]
fn codes_3_to_7_show_the_offset_after_fencing() {
    for (code, cause) in CAUSES {
        let mut script = scene();
        script.push(cause);
        script.register_write(0x2000, FENCE);
        each_access_shows(&[0, 1, 2, 3], &script, BEFORE, code, AFTER);
    }
}

/// The same without a fence, and with one that is not valid.
#[test]
fn codes_3_to_7_show_the_offset_itself_where_no_fence_matches() {
    for (code, cause) in CAUSES {
        let mut script = scene();
        script.push(cause);
        each_access_shows(&[0, 2], &script, AFTER, code, AFTER);
        script.register_write(0x2000, FENCE & !1);
        // The next 512 KiB.
        script.register_write(0x2004, 0x0008_0000 | FENCE);
        each_access_shows(&[0, 2], &script, AFTER, code, AFTER);
    }
}

/// "the offset before fencing for 9": an ill-formed fence moves nothing, and its code comes before 3.
#[test]
fn code_9_shows_the_offset_before_fencing() {
    // Walk 1; size 7; size 7 and walk 1; pitch 6; pitch 7; 1 MiB from 80000h.
    for (fence, offset) in [
        (FENCE | 0x1000, BEFORE),
        (FENCE | 0x0700, BEFORE),
        (FENCE | 0x1700, BEFORE),
        (0x61, BEFORE),
        (0x71, BEFORE),
        (0x0008_0151, 0x8_0000 + BEFORE),
    ] {
        let mut script = scene();
        script.register_write(0x2000, fence);
        // A good one over the same place, which is not looked at.
        script.register_write(0x2004, FENCE);
        each_access_shows(&[0, 1, 2, 3], &script, offset, 9, offset);
        script.register_write(0x2020, TABLE);
        each_access_shows(&[0, 2], &script, offset, 9, offset);
    }
}

/// Codes 7 and 6 of a table word in main memory "are 7 or 6 of a window access": after fencing.
#[test]
fn a_refused_table_word_shows_the_offset_after_fencing() {
    // At TOM; past 4 GiB; in A0000h-BFFFFh.
    for (base, code) in [(TOP, 7), (0xFFFF_F000, 7), (0xA_0000, 6), (0xB_F000, 6)] {
        let mut script = scene();
        script.register_write(0x2020, base | 1);
        each_access_shows(&[2, 3], &script, BEFORE, code, BEFORE);
        script.register_write(0x2000, FENCE);
        each_access_shows(&[2, 3], &script, BEFORE, code, AFTER);
        // Code 3 comes first, and 9 before it.
        script.register_write(0x2020, base);
        each_access_shows(&[2, 3], &script, BEFORE, 3, AFTER);
        script.register_write(0x2000, FENCE | 0x1000);
        each_access_shows(&[2, 3], &script, BEFORE, 9, BEFORE);
    }
    // Word 1,024 of a table at FFFFF000h is past 4 GiB.
    let mut script = scene();
    script.register_write(0x2020, 0xFFFF_F001);
    each_access_shows(&[2, 3], &script, 0x40_0ABC, 7, 0x40_0ABC);
}

/// "result start + 2048((y/16)(P/128) + x/128) + 128(y mod 16) + x mod 128", worked out by hand, for each pitch.
#[test]
fn each_pitch_moves_the_offset_that_is_shown() {
    // Fence, offset, offset after fencing.
    let cases = [
        // P = 128: every offset stays.
        (0x01, 0x1234, 0x1234),
        // P = 256: y = 20, x = 200: tile row 1 of 2 tiles, tile 1, row 4, byte 72.
        (0x11, 5320, 2048 * (2 + 1) + 128 * 4 + 72),
        // P = 512: y = 1, x = 188: tile 1, row 1, byte 60. Document 01 has this one.
        (0x21, 700, 2236),
        // P = 1024: y = 5, x = 1000: tile 7, row 5, byte 104.
        (0x31, 6120, 2048 * 7 + 128 * 5 + 104),
        // P = 2048: y = 33, x = 260: tile row 2 of 16 tiles, tile 2, row 1, byte 4.
        (0x41, 67_844, 2048 * (32 + 2) + 128 + 4),
        (FENCE, BEFORE, AFTER),
        // Start 512 KiB, P = 512.
        (0x0008_0021, 0x8_0000 + 700, 0x8_0000 + 2236),
        // 32 MiB from 32 MiB, P = 4096.
        (0x0200_0651, 0x0200_0000 + BEFORE, 0x0200_0000 + AFTER),
        // 1 MiB from 1 MiB, P = 512: its last word stays the last.
        (0x0010_0121, 0x1F_FFFC, 0x1F_FFFC),
    ];
    for (fence, before, after) in cases {
        let mut script = Script::new();
        script.graphics();
        script.register_write(0x2020, TABLE | 1);
        // The last fence, and no other.
        script.register_write(0x201C, fence);
        each_access_shows(&[0, 2], &script, before, 4, after);
        script.register_write(0x2020, TABLE);
        each_access_shows(&[0, 2], &script, before, 3, after);
        script.register_write(0x201C, fence | 0x1000);
        each_access_shows(&[0, 2], &script, before, 9, before);
    }
}

/// "lowest matching number wins": it is its offset that is shown.
#[test]
fn the_lowest_matching_fence_moves_the_offset_that_is_shown() {
    let mut script = scene();
    script.register_write(0x2008, 0x21);
    script.register_write(0x200C, FENCE);
    script.register_write(0x2010, FENCE | 0x1000);
    let lowest = script.window_read(700, 4);
    script.register_write(0x2008, 0x0008_0021);
    let next = script.window_read(BEFORE, 4);
    script.register_write(0x200C, 0);
    let ill_formed = script.window_read(BEFORE, 4);
    script.register_write(0x2010, 0);
    let none = script.window_read(BEFORE + 0x1000, 4);
    let answers = replay(&script);
    let shown = [lowest, next, ill_formed, none].map(|i| answers[i]);
    assert_eq!(shown, [refused_at(4, 2236), refused_at(4, AFTER), refused_at(9, BEFORE), refused_at(4, 77_820)]);
}

/// The formula of document 01, for a fence of 512 KiB.
fn formula(start: u32, pitch: u32, offset: u32) -> u32 {
    let d = offset - start;
    let (y, x) = (d / pitch, d % pitch);
    start + 2048 * ((y / 16) * (pitch / 128) + x / 128) + 128 * (y % 16) + x % 128
}

/// Every byte of four pages, two on each side of the border between two rows of tiles: codes 4 and 3 show what the
/// formula gives, code 9 the offset itself.
#[test]
fn every_offset_around_a_row_of_tiles_is_shown() {
    for (code, start) in [(0, 0x18_0000), (1, 0), (2, 0x18_0000), (3, 0x3F8_0000), (4, 0x08_0000), (5, 0x18_0000)] {
        let pitch = 128 << code;
        let border = start + 16 * pitch.max(512);
        let offsets = border - 0x2000..border + 0x2000;
        let fence = start | code << 4 | 1;
        for (fence, control, refusal) in [(fence, 1, 4), (fence, 0, 3), (fence | 0x1000, 1, 9)] {
            let mut script = Script::new();
            script.graphics();
            script.register_write(0x2020, TABLE | control);
            script.register_write(0x2000, fence);
            let first = script.records.len();
            for offset in offsets.clone() {
                script.window_read(offset, 1);
            }
            let answers = replay_on(&[0, 2], &script);
            let shown = |offset| if refusal == 9 { offset } else { formula(start, pitch, offset) };
            for (offset, answer) in offsets.clone().zip(&answers[first..]) {
                assert_eq!(*answer, refused_at(refusal, shown(offset)), "P = {pitch}, {offset:X}h");
            }
            let moved = offsets.clone().filter(|&offset| shown(offset) != offset).count();
            assert_eq!(moved == 0, refusal == 9 || pitch == 128, "P = {pitch}: {moved} offsets moved");
        }
    }
}

/// The window's offset, wherever the window is: from its base as it counts, up to its last byte.
#[test]
fn the_offset_is_from_the_windows_base_to_its_last_byte() {
    // GMADR as written, register 72 bit 0, the base that counts, the first address above memory in it, its last one.
    for (written, small, base, first, last) in [
        (0xC000_0000, 0, 0xC000_0000, 0xC000_0000, 0xC3FF_FFFF),
        // Bit 25 does not count at 64 MiB, and does at 32.
        (0xC200_0000, 0, 0xC000_0000, 0xC000_0000, 0xC3FF_FFFF),
        (0xC200_0000, 1, 0xC200_0000, 0xC200_0000, 0xC3FF_FFFF),
        (0xFC00_0000, 0, 0xFC00_0000, 0xFC00_0000, 0xFFFF_FFFF),
        (0xFE00_0000, 1, 0xFE00_0000, 0xFE00_0000, 0xFFFF_FFFF),
        // What is below TOM is memory.
        (0, 0, 0, TOP, 0x03FF_FFFF),
    ] {
        let mut script = scene();
        script.config_write(0, 0x72, 1, small);
        script.config_write(1, 0x10, 4, written);
        let asked = [first, first + 0x1ABC, last].map(|address: u32| {
            (address, script.push(Record::read(address, 1, false)), script.push(Record::write(address, 1, 1, true)))
        });
        let answers = replay(&script);
        for (address, read, write) in asked {
            assert_eq!([answers[read], answers[write]], [refused_at(4, address - base); 2], "{address:X}h");
        }
    }
}

/// "01's sentence that all else is zero is amended for these alone": a refusal changes no register, no table word and no
/// byte, as before, and has the interrupt line.
#[test]
fn nothing_else_changes() {
    for (code, cause) in CAUSES.into_iter().chain([(9, set(0x2000, FENCE | 0x1000))]) {
        let mut script = scene();
        script.register_write(0x2000, FENCE);
        script.push(cause);
        // A user interrupt, at 100000h through entry 17, with the line up.
        script.push(Record::write(0x10_0000, 4, 0x0100_0000, false));
        script.ring(17 << 12, 1, 0, 0x20);
        script.register_write(0x20A8, 0);
        script.register_write(0x20A0, 2);
        let control = script.register_read(0x2020);
        script.register_write(0x2020, TABLE | 1);
        script.run(1);
        script.register_write(0x2020, if code == 3 { TABLE } else { TABLE | 1 });
        let state = |script: &mut Script| {
            let first = script.records.len();
            for offset in (0x2000..=0x203C).step_by(4).chain([0x20A0, 0x20A4, 0x20A8, 0x20AC]) {
                script.register_read(offset);
            }
            for entry in [0, 1, 17, 31, 32] {
                script.register_read(0x1_0000 + 4 * entry);
            }
            for device in [0, 1] {
                for register in (0..256).step_by(4) {
                    script.config_read(device, register, 4);
                }
            }
            first..script.records.len()
        };
        let before = state(&mut script);
        let (places, records): (Vec<u32>, Vec<Record>) = accesses(BEFORE).into_iter().unzip();
        let refusals = script.records.len();
        script.records.extend(records);
        let after = state(&mut script);
        for board in 0..4 {
            let mut memory: Vec<u8> = (0..8 * MIB).map(|at| (at % 251) as u8).collect();
            let mut until_then = memory.clone();
            memory[TABLE as usize..][..0x1_0000].fill(0);
            until_then[TABLE as usize..][..0x1_0000].fill(0);
            let answers = replay_both(board, &mut memory, &script.records);
            replay_both(board, &mut until_then, &script.records[..refusals]);
            assert!(memory == until_then, "code {code}, board {board}: memory changed");
            assert_eq!(answers[control].value & 1, u32::from(code != 3));
            assert_eq!(answers[before.clone()], answers[after.clone()], "code {code}, board {board}");
            let shown = if code == 9 { BEFORE } else { AFTER };
            for (at, answer) in places.iter().zip(&answers[refusals..]) {
                assert_eq!(*answer, Answer { line: 1, ..refused_at(code, shown + at) }, "board {board}");
            }
        }
    }
}

/// "The offset does not depend on protected bytes, so demand 3 stands as it is.": pages of the key, and a table in it.
#[test]
fn the_offset_is_the_same_for_two_different_keys() {
    let mut script = scene();
    script.entry(AFTER / 4096, 0x000A_0001);
    script.register_write(0x2000, FENCE);
    script.smram(CLOSED | 0x02);
    let page = script.window_read(BEFORE, 4);
    script.register_write(0x2020, 0xA_0001);
    let word = script.window_read(BEFORE, 4);
    for board in 0..4 {
        // Words that are no entries, good entries, and entries of another type.
        for key in [0x0000_0000_u32, 0x0010_0001, 0xFFFF_FFFB] {
            let mut memory = vec![0; 8 * MIB];
            for bytes in memory[0xA_0000..0xC_0000].chunks_exact_mut(4) {
                bytes.copy_from_slice(&key.to_le_bytes());
            }
            let answers = replay_both(board, &mut memory, &script.records);
            assert_eq!([answers[page], answers[word]], [refused_at(6, AFTER); 2], "board {board}, key {key:X}h");
        }
    }
}

/// "for these alone": codes 2 and 13 at an address in the window, and code 10, have zero there as before.
#[test]
fn codes_2_13_and_10_show_nothing() {
    let mut script = scene();
    script.register_write(0x2000, FENCE);
    let window = Script::WINDOW + 0x1_2ABC;
    let first = script.push(Record::read(window, 3, false));
    script.push(Record::read(window + 1, 4, true));
    script.push(Record::code_read(window + 3, 2, false));
    script.push(Record::write(window, 0, 7, false));
    script.push(Record { tail: 1, ..Record::read(window, 4, false) });
    script.push(Record { flags: 2, ..Record::code_read(window, 4, false) });
    script.push(Record { reserved: 1, ..Record::write(window, 4, 7, true) });
    script.push(Record { kind: 10, ..Record::read(window, 4, false) });
    script.push(Record { data: 1, ..Record::read(window, 3, false) });
    for (at, width) in [(0x2020, 2), (0x2021, 1), (0x20A0, 4), (0x20A8, 1), (0x1_0048, 2), (0x1_004B, 1)] {
        script.push(Record::read(Script::REGISTERS + at, width, false));
        script.push(Record::write(Script::REGISTERS + at, width, 7, true));
    }
    let codes = [2, 2, 2, 2, 13, 13, 13, 13, 13, 10, 10, 10, 10, 10, 10, 10, 10, 10, 10, 10, 10];
    assert_eq!(replay(&script)[first..], codes.map(refused));
}

/// The same of codes 7 and 6 of a table word whose register is accessed, beside the window access that looks it up.
#[test]
fn a_register_whose_table_word_is_refused_shows_nothing() {
    for (base, code) in [(TOP, 7), (0xA_0000, 6)] {
        let mut script = scene();
        script.register_write(0x2020, base | 1);
        let first = script.register_read(0x1_0048);
        script.entry(18, 0x0010_0001);
        script.push(Record::code_read(Script::REGISTERS + 0x1_0048, 4, true));
        script.window_read(0x1_2ABC, 4);
        let expected = [refused(code), refused(code), refused(code), refused_at(code, 0x1_2ABC)];
        assert_eq!(replay_on(&[2, 3], &script)[first..], expected);
    }
}

/// Hub masters are not routed by rule 8: they are not refused, and show their own address.
#[test]
fn hub_masters_at_the_windows_addresses_are_answered() {
    let mut script = scene();
    script.register_write(0x2000, FENCE | 0x1000);
    let address = Script::WINDOW + BEFORE;
    let first = script.push(Record::master_read(address, 4));
    script.push(Record::master_write(address, 4, 7));
    assert_eq!(replay(&script)[first..], [reached(Target::Hub, address, 0); 2]);
}

/// "Parser refusals keep the head there.": wraps and all, whatever offset the fetch had, and unfenced.
#[test]
fn a_refused_run_shows_the_head() {
    // The ring is at 10000h, and the fetch at 117FCh, which is in page 17. A fence is over it, good or bad.
    let head = 5 << 21 | 0x17FC;
    let causes = [
        (3, set(0x2020, TABLE)),
        (4, entry(17, 0)),
        (5, entry(17, 0x0010_0003)),
        (7, entry(17, TOP | 1)),
        (6, entry(17, 0x000A_0001)),
        (8, set(0x2038, 0x03FF_F000)),
        (11, set(0x2030, 0x2000)),
        (12, Record::write(0x10_07FC, 4, 0xFFFF_FFFF, false)),
        (0, entry(17, 0x0010_0001)),
    ];
    for (code, cause) in causes {
        for fence in [0, FENCE, FENCE | 0x1000] {
            let mut script = scene();
            script.ring(16 << 12, 0x1001, head, 0x1800);
            script.register_write(0x2000, fence);
            script.push(cause);
            let run = script.run(9);
            let expected = if code == 0 { ran(0, head + 4, 1) } else { ran(code, head, 0) };
            assert_eq!(replay(&script)[run], expected, "fence {fence:X}h");
        }
    }
    // A table word in main memory.
    for (base, code) in [(TOP, 7), (0xA_0000, 6)] {
        let mut script = scene();
        script.ring(16 << 12, 0x1001, head, 0x1800);
        script.register_write(0x2020, base | 1);
        let run = script.run(9);
        assert_eq!(replay_on(&[2, 3], &script)[run], ran(code, head, 0));
    }
}

/// A run that is refused after some steps shows where the head is then, and a window access to the same place its offset.
#[test]
fn a_run_and_a_window_access_at_the_same_place_show_different_things() {
    let mut script = scene();
    // Four no-ops at the end of page 17, then entry 18, which is not valid.
    script.ring(17 << 12, 0x1001, 0xFF0, 0x1010);
    let run = script.run(u32::MAX);
    let read = script.window_read(18 << 12, 4);
    let answers = replay(&script);
    assert_eq!([answers[run], answers[read]], [ran(4, 0x1000, 4), refused_at(4, 0x1_2000)]);
}
