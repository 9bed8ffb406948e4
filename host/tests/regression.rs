//! Faults of earlier models of this hub, each as a named test.

mod common;

use common::{ran, reached, refused_at, Script, MIB};
use mitrophel::{Answer, Record, Target};

/// GMS 10, USMM 11, LSMM 11: U is 680000h, taken memory 680000h-6FFFFFh, the TSEG 700000h-7FFFFFh.
const CLOSED: u8 = 0xBC;
const LOCK: u8 = 0x02;

/// Graphics on, these entries from entry 0 on, translation on, then SMRAM as given.
fn scene(entries: &[u32], smram: u8) -> Script {
    let mut script = Script::new();
    script.graphics();
    for (number, entry) in entries.iter().enumerate() {
        script.entry(number as u32, *entry);
    }
    script.translation_on();
    script.smram(smram);
    script
}

/// Reads, code reads and writes at this offset of the window, with and without management mode.
fn all_accesses(script: &mut Script, offset: u32) -> std::ops::Range<usize> {
    let first = script.records.len();
    let address = Script::WINDOW + offset;
    for management in [false, true] {
        script.push(Record::read(address, 4, management));
        script.push(Record::code_read(address, 4, management));
        script.push(Record::write(address, 4, 0x0BAD_0BAD, management));
    }
    first..script.records.len()
}

/// "Protected: A0000h-BFFFFh if LSMM is 10 or 11, or HSEG acts; and the TSEG. Locked or not."
/// "Letting management mode reach protected pages through the window: refused there too."
#[test]
fn an_entry_aimed_at_a0000h_is_refused_before_and_after_the_lock_for_management_mode_too() {
    // LSMM 10; LSMM 11; HSEG acting.
    for smram in [0x48, 0x4C, 0x50, 0x60, 0x70, 0xBC] {
        let mut script = scene(&[0x000A_0001, 0x000B_F001], smram);
        let mut asked = Vec::new();
        asked.extend(all_accesses(&mut script, 0));
        asked.extend(all_accesses(&mut script, 0x1FFC));
        script.smram(smram | LOCK);
        asked.extend(all_accesses(&mut script, 0));
        asked.extend(all_accesses(&mut script, 0x1FFC));
        let mut memory = vec![0x5E; 8 * MIB];
        let answers = script.replay_on(&mut memory);
        for i in asked {
            let offset = script.records[i].address - Script::WINDOW;
            assert_eq!(answers[i], refused_at(6, offset), "SMRAM {smram:X}h, {}", script.records[i]);
        }
        assert!(memory.iter().all(|&byte| byte == 0x5E));
    }
}

/// "Testing the window offset against key memory instead of the final page."
#[test]
fn an_entry_at_a_harmless_offset_with_a_protected_page_is_refused() {
    let mut script = scene(&[0x000A_0001, 0x0070_0001, 0x007F_F001, 0x000B_F007], CLOSED | LOCK);
    let asked: Vec<usize> = (0..4).flat_map(|page| all_accesses(&mut script, page << 12)).collect();
    let answers = script.replay();
    for i in asked {
        let offset = script.records[i].address - Script::WINDOW;
        assert_eq!(answers[i], refused_at(6, offset), "{}", script.records[i]);
    }
}

/// The reverse: the offset is the number of a protected byte, the page is not protected.
#[test]
fn an_entry_at_a_protected_looking_offset_with_a_harmless_page_is_reached() {
    for offset in [0xA_0000, 0xB_F000, 0x70_0000, 0x7F_F000] {
        let mut script = scene(&[], CLOSED);
        script.entry(offset >> 12, 0x0012_3001);
        script.smram(CLOSED | LOCK);
        let read = script.window_read(offset + 0x44, 4);
        let write = script.push(Record::write(Script::WINDOW + offset + 0x48, 4, 0x600D, false));
        let mut memory = vec![0; 8 * MIB];
        memory[0x12_3044] = 0x99;
        let answers = script.replay_on(&mut memory);
        assert_eq!(answers[read], reached(Target::Memory, 0x12_3044, 0x99));
        assert_eq!(answers[write], reached(Target::Memory, 0x12_3048, 0));
        assert_eq!(memory[0x12_3048..0x12_304C], 0x600D_u32.to_le_bytes());
    }
}

/// "006FF001h reached"; "Treating taken graphics memory as protected."
#[test]
fn the_last_page_below_u_taken_memory_and_the_page_below_the_tseg_are_reached_through_the_table() {
    // The last page below U, the first and a middle page of taken memory, the page below the TSEG.
    let pages = [0x67_F000, 0x68_0000, 0x6A_5000, 0x6F_F000];
    let entries = pages.map(|page| page | 1);
    let mut script = scene(&entries, CLOSED | LOCK);
    let first = script.records.len();
    for page in 0..4 {
        script.push(Record::write(Script::WINDOW + (page << 12) + 0xFFC, 4, 0xF00D_0000 + page, false));
        script.window_read((page << 12) + 0xFFC, 4);
    }
    let error = script.read_smram();
    let mut memory = vec![0; 8 * MIB];
    let answers = script.replay_on(&mut memory);
    for (i, page) in pages.into_iter().enumerate() {
        let value = 0xF00D_0000 + i as u32;
        assert_eq!(answers[first + 2 * i], reached(Target::Memory, page + 0xFFC, 0));
        assert_eq!(answers[first + 2 * i + 1], reached(Target::Memory, page + 0xFFC, value));
    }
    assert_eq!(answers[error].value, u32::from(CLOSED | LOCK), "no error bit");
}

/// With no TSEG the last page below TOM is ordinary, and taken memory reaches up to TOM.
#[test]
fn the_last_page_below_tom_is_reached_where_there_is_no_tseg() {
    for smram in [0x40, 0x80, 0xC0] {
        let mut script = scene(&[0x007F_F001, 0x0080_0001], smram);
        let last = script.window_read(0xFFC, 4);
        let above = script.window_read(0x1000, 4);
        let answers = script.replay();
        assert_eq!(answers[last], reached(Target::Memory, 0x7F_FFFC, 0), "SMRAM {smram:X}h");
        assert_eq!(answers[above], refused_at(7, 0x1000), "SMRAM {smram:X}h");
    }
}

/// A run over these entries, from a memory that holds `key` in every protected byte and zeros, which
/// are no-ops, elsewhere.
fn run_over(entries: &[u32], length: u32, head: u32, tail: u32, key: u8) -> Answer {
    let mut script = scene(entries, CLOSED);
    script.ring(0, length, head, tail);
    script.smram(CLOSED | LOCK);
    let run = script.run(u32::MAX);
    let mut memory = vec![0; 8 * MIB];
    memory[0xA_0000..0xC_0000].fill(key);
    memory[0x70_0000..].fill(key);
    script.replay_on(&mut memory)[run]
}

/// "Demand 3 is a single claim about the whole list": a run's answer must not depend on the key.
#[test]
fn a_runs_code_head_and_count_are_the_same_for_two_different_keys() {
    let rings: [(&[u32], Answer); 5] = [
        // The key's own pages, low and high.
        (&[0x000A_0001], ran(6, 0, 0)),
        (&[0x0070_0001], ran(6, 0, 0)),
        // No-ops up to the key.
        (&[0x0010_0001, 0x000A_0001], ran(6, 0x1000, 1024)),
        (&[0x0010_0001, 0x006F_F001, 0x0070_0001], ran(6, 0x2000, 2048)),
        // Never near the key.
        (&[0x0010_0001, 0x006F_F001, 0x0067_F001], ran(0, 0x2FF8, 3070)),
    ];
    for (entries, expected) in rings {
        // A key of no-ops, of user interrupts and of what is no instruction.
        for key in [0x00, 0x01, 0xFF] {
            assert_eq!(run_over(entries, 0x2001, 0, 0x2FF8, key), expected, "{entries:X?}, key {key:X}h");
        }
    }
}
