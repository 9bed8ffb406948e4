//! Request 11 of document 02, "Display cache": each of its sentences with the answers it asks for. Every list goes
//! through the call and through the reference, which must agree in every answer and every byte of both memories, on each
//! board that it is for.

mod common;

use common::{blank_display, mapped, ran, reached, refused, refused_at, replay_with_display, Script, MIB};
use mitrophel::{call, record, reference, replay, Answer, Board, Record, Target, WrongArgument, DISPLAY_BYTES};

/// Where the display cache ends.
const END: u32 = 4 << 20;
/// The boards that have one, and those that have none.
const OWN: [u32; 2] = [1, 3];
const OTHERS: [u32; 2] = [0, 2];
const ALL: [u32; 4] = [0, 1, 2, 3];
/// Where boards that have their table in main memory have it. The others keep this base and do not look at it.
const TABLE: u32 = 0x60_0000;
/// An entry's bits: type 01, valid.
const DISPLAY: u32 = 0b011;
/// What main memory holds at the addresses of these tests, and what the cache does.
const IN_MEMORY: u8 = 0x11;
const IN_CACHE: u8 = 0xDC;

fn cached(address: u32, value: u32) -> Answer {
    reached(Target::DisplayCache, address, value)
}

/// Graphics on, translation on.
fn cache_off() -> Script {
    let mut script = Script::new();
    script.graphics();
    script.register_write(0x2020, TABLE | 1);
    script
}

/// The display cache on, too.
fn cache_on() -> Script {
    let mut script = cache_off();
    script.register_write(0x3000, 1);
    script
}

fn window_write(script: &mut Script, offset: u32, width: u8, data: u32) -> usize {
    script.push(Record::write(Script::WINDOW + offset, width, data, false))
}

/// Eight MiB of main memory, zero where the table may lie, and a display cache of the board's length.
fn memories(board: u32) -> [Vec<u8>; 2] {
    let mut memory = vec![IN_MEMORY; 8 * MIB];
    memory[TABLE as usize..TABLE as usize + 0x1_0000].fill(0);
    [memory, vec![IN_CACHE; blank_display(board).len()]]
}

/// The answers of one board, and what it leaves in the two memories.
#[track_caller]
fn replay_on(board: u32, script: &Script) -> (Vec<Answer>, [Vec<u8>; 2]) {
    let [mut memory, mut display] = memories(board);
    let answers = replay_with_display(board, &mut memory, &script.records, &mut display);
    (answers, [memory, display])
}

/// The answers of these boards, which are the same.
#[track_caller]
fn replay_same(boards: &[u32], script: &Script) -> Vec<Answer> {
    let (first, _) = replay_on(boards[0], script);
    for &board in &boards[1..] {
        assert_eq!(replay_on(board, script).0, first, "boards {} and {board}", boards[0]);
    }
    first
}

/// Asks that a script leaves main memory as it was, but for a table there.
#[track_caller]
fn assert_memory_stays(board: u32, memory: &[u8]) {
    let [before, _] = memories(board);
    let table = TABLE as usize..TABLE as usize + 0x1_0000;
    assert!(memory[..table.start] == before[..table.start], "board {board}: memory below the table changed");
    assert!(memory[table.end..] == before[table.end..], "board {board}: memory above the table changed");
}

/// "Entry type 01 reaches it": window reads and writes of every width, code reads and management mode. "Answers use
/// target 6 and the final address in it." Main memory is not touched.
#[test]
fn type_01_reaches_the_display_cache() {
    for board in OWN {
        let mut script = cache_on();
        script.entry(5, 0x12_3000 | DISPLAY);
        let first = script.records.len();
        for (at, width, data) in [(0x5678, 4, 0x8281_0DC1), (0x5ABD, 1, 0xFFFF_FF42), (0x5ABE, 2, 0xFFFF_1234)] {
            window_write(&mut script, at, width, data);
        }
        script.push(Record::write(Script::WINDOW + 0x5FFC, 4, 7, true));
        for (at, width) in [(0x5678, 4), (0x567A, 2), (0x567B, 1), (0x5ABC, 4), (0x5000, 2), (0x5FFC, 4)] {
            script.window_read(at, width);
        }
        script.push(Record::code_read(Script::WINDOW + 0x5678, 2, false));
        script.push(Record::read(Script::WINDOW + 0x5679, 1, true));
        script.push(Record::code_read(Script::WINDOW + 0x5ABC, 4, true));
        let (answers, [memory, display]) = replay_on(board, &script);
        let expected = [
            cached(0x12_3678, 0),
            cached(0x12_3ABD, 0),
            cached(0x12_3ABE, 0),
            cached(0x12_3FFC, 0),
            cached(0x12_3678, 0x8281_0DC1),
            cached(0x12_367A, 0x8281),
            cached(0x12_367B, 0x82),
            cached(0x12_3ABC, 0x1234_42DC),
            cached(0x12_3000, 0xDCDC),
            cached(0x12_3FFC, 7),
            cached(0x12_3678, 0x0DC1),
            cached(0x12_3679, 0x0D),
            cached(0x12_3ABC, 0x1234_42DC),
        ];
        assert_eq!(answers[first..], expected, "board {board}");
        assert_memory_stays(board, &memory);
        assert_eq!(display[0x12_3678..0x12_367C], 0x8281_0DC1_u32.to_le_bytes());
        assert_eq!(display[0x12_3ABC..0x12_3AC0], [IN_CACHE, 0x42, 0x34, 0x12]);
        let changed = display.iter().filter(|&&byte| byte != IN_CACHE).count();
        assert_eq!(changed, 11, "board {board}: no other byte of the cache is written");
    }
}

/// "with page below 4 MiB, else code 7", whatever TOM is. The refusal names the window offset.
#[test]
fn a_page_at_or_above_4_mib_is_code_7() {
    for (number, page) in [0, 0x1000, END / 2, END - 0x2000, END - 0x1000].into_iter().enumerate() {
        let mut script = cache_on();
        script.entry(number as u32, page | DISPLAY);
        let at = number as u32 * 4096 + 0xFFC;
        window_write(&mut script, at, 4, 0x0BAD_CAFE);
        let read = script.window_read(at + 3, 1);
        assert_eq!(replay_same(&OWN, &script)[read - 1..], [cached(page + 0xFFC, 0), cached(page + 0xFFF, 0x0B)]);
    }
    for page in [END, END + 0x1000, 2 * END - 0x1000, 2 * END, 0x2000_0000, 0x3FFF_F000] {
        let mut script = cache_on();
        script.entry(18, page | DISPLAY);
        let first = script.window_read(0x1_2ABC, 4);
        window_write(&mut script, 0x1_2ABD, 1, 0);
        script.push(Record::code_read(Script::WINDOW + 0x1_2FFE, 2, true));
        let expected = [0x1_2ABC, 0x1_2ABD, 0x1_2FFE].map(|offset| refused_at(7, offset));
        assert_eq!(replay_same(&OWN, &script)[first..], expected, "page {page:X}h");
    }
}

/// The last byte of the cache is reached, and the one after it is not.
#[test]
fn the_last_page_ends_where_the_cache_does() {
    for board in OWN {
        let mut script = cache_on();
        script.entry(0, (END - 0x1000) | DISPLAY);
        script.entry(1, END | DISPLAY);
        let last = window_write(&mut script, 0xFFF, 1, 0x99);
        window_write(&mut script, 0x1000, 1, 0x99);
        let (answers, [memory, display]) = replay_on(board, &script);
        assert_eq!(answers[last..], [cached(END - 1, 0), refused_at(7, 0x1000)]);
        assert_eq!(display[DISPLAY_BYTES - 2..], [IN_CACHE, 0x99]);
        assert_memory_stays(board, &memory);
    }
}

/// "It is never protected.": not where main memory is, in whichever way, locked or not. Main memory's bytes stay.
#[test]
fn the_display_cache_is_never_protected() {
    // LSMM 10, LSMM 11, HSEG; the last with the TSEG and locked.
    for smram in [0x48, 0x4C, 0x60, 0x4E, 0x7E] {
        for board in OWN {
            let mut script = cache_on();
            for page in 0..32 {
                script.entry(page, (0xA_0000 + (page << 12)) | DISPLAY);
            }
            script.entry(32, 0xA_0001);
            script.smram(smram);
            let first = script.records.len();
            for page in 0..32 {
                window_write(&mut script, page << 12, 4, page);
                script.window_read(page << 12, 4);
            }
            let closed = script.window_read(0x2_0000, 4);
            let (answers, [memory, _]) = replay_on(board, &script);
            for page in 0..32 {
                let at = first + 2 * page as usize;
                let address = 0xA_0000 + (page << 12);
                assert_eq!(answers[at..at + 2], [cached(address, 0), cached(address, page)], "SMRAM {smram:X}h");
            }
            let hidden = smram & 0x0C == 0 && smram & 0x30 != 0x20;
            let expected =
                if hidden { reached(Target::Memory, 0xA_0000, 0x1111_1111) } else { refused_at(6, 0x2_0000) };
            assert_eq!(answers[closed], expected, "SMRAM {smram:X}h");
            assert_memory_stays(board, &memory);
        }
    }
}

/// "Other kinds answer 5 as before", with every page and whatever is written to 3000h.
#[test]
fn other_kinds_answer_5() {
    for page in [0, 0xA_0000, END - 0x1000, END, 0x3FFF_F000] {
        let mut script = cache_on();
        script.entry(18, page | DISPLAY);
        let first = script.window_read(0x1_2ABC, 4);
        window_write(&mut script, 0x1_2ABC, 4, 7);
        script.ring(0x1_2000, 1, 0, 8);
        let run = script.run(1);
        let answers = replay_same(&OTHERS, &script);
        assert_eq!(answers[first..first + 2], [refused_at(5, 0x1_2ABC); 2], "page {page:X}h");
        assert_eq!(answers[run], ran(5, 0, 0), "page {page:X}h");
    }
}

/// "as type 10 does everywhere": on every board, the display cache on or off.
#[test]
fn type_10_is_code_5_everywhere() {
    for mut script in [cache_off(), cache_on()] {
        for page in [0, 0x10_0000, END, 0x3FFF_F000] {
            script.entry(18, page | 0b101);
            script.window_read(0x1_2ABC, 4);
            window_write(&mut script, 0x1_2ABC, 2, 7);
        }
        script.ring(0x1_2000, 1, 0, 8);
        let run = script.run(1);
        let answers = replay_same(&ALL, &script);
        let refusals = script.records.iter().zip(&answers).filter(|(record, _)| record.address == 0xC001_2ABC);
        assert!(refusals.map(|(_, answer)| *answer).eq([refused_at(5, 0x1_2ABC); 8]));
        assert_eq!(answers[run], ran(5, 0, 0));
    }
}

/// "Add 3000h to 3002h with the datasheet's defaults 00h, 17h, 08h, one byte each, listed for kinds 1 and 3 only"
#[test]
fn the_registers_have_the_datasheets_defaults() {
    let mut script = cache_off();
    let first = script.register_read(0x3000);
    for offset in [0x3001, 0x3002, 0x3003] {
        script.register_read(offset);
    }
    let own = [mapped(0x3000, 0x00), mapped(0x3001, 0x17), mapped(0x3002, 0x08), mapped(0x3003, 0)];
    assert_eq!(replay_same(&OWN, &script)[first..], own);
    let others = [0x3000, 0x3001, 0x3002, 0x3003].map(|offset| mapped(offset, 0));
    assert_eq!(replay_same(&OTHERS, &script)[first..], others);
}

/// "3000h keeps bit 0, the others all bits": every value of each. A write's data past its width is ignored.
#[test]
fn a_register_keeps_its_bits() {
    let mut script = cache_off();
    let mut expected = Vec::new();
    for value in 0..=0xFF {
        for (offset, bits) in [(0x3000, 0x01), (0x3001, 0xFF), (0x3002, 0xFF)] {
            script.register_write(offset, 0x1234_5600 | value);
            let read = script.register_read(offset);
            expected.push((read, offset, value & bits));
        }
    }
    // None of them is another.
    for (offset, value) in [(0x3000, 1), (0x3001, 0xFF), (0x3002, 0xFF)] {
        expected.push((script.register_read(offset), offset, value));
    }
    let (own, others) = (replay_same(&OWN, &script), replay_same(&OTHERS, &script));
    for (read, offset, value) in expected {
        assert_eq!(own[read], mapped(offset, value));
        assert_eq!(own[read - 1].code, 0);
        assert_eq!(others[read], mapped(offset, 0));
    }
}

/// Code 10, "access touches a listed memory-mapped register without being exactly it"; 3003h is not listed. Where the
/// three are not listed, every access is answered, reads 0 and changes nothing.
#[test]
fn an_access_must_be_exactly_the_one_byte() {
    let shapes = [(0x3000, 2), (0x3000, 4), (0x3001, 2), (0x3002, 2)];
    let mut script = cache_off();
    let first = script.records.len();
    for (offset, width) in shapes {
        script.push(Record::write(Script::REGISTERS + offset, width, 0xFFFF_FFFF, false));
        script.push(Record::read(Script::REGISTERS + offset, width, true));
    }
    script.register_write(0x3003, 0xFF);
    for offset in 0x3000..0x3004 {
        script.register_read(offset);
    }
    let untouched =
        [mapped(0x3003, 0), mapped(0x3000, 0), mapped(0x3001, 0x17), mapped(0x3002, 0x08), mapped(0x3003, 0)];
    let answers = replay_same(&OWN, &script);
    assert_eq!(answers[first..first + 8], [refused(10); 8]);
    assert_eq!(answers[first + 8..], untouched);
    let answers = replay_same(&OTHERS, &script);
    let offsets = shapes.into_iter().flat_map(|(offset, _)| [offset; 2]).chain([0x3003]).chain(0x3000..0x3004);
    assert!(answers[first..].iter().copied().eq(offsets.map(|offset| mapped(offset, 0))));
}

/// "bit 0 of 3000h at 0 means type 01 is code 5": at the start, after it was on, and whichever page; what the cache held
/// is there when it is on again. Code 4 comes first.
#[test]
fn bit_0_of_3000h_turns_type_01_off() {
    let mut script = cache_off();
    script.entry(0, 0x3000 | DISPLAY);
    script.entry(1, END | DISPLAY);
    script.entry(2, 0x3000 | DISPLAY & !1);
    script.entry(3, END | DISPLAY & !1);
    let look = |script: &mut Script| {
        (0..4).for_each(|entry| {
            script.window_read(entry << 12 | 0xABC, 4);
        });
        script.records.len() - 4
    };
    let at_start = look(&mut script);
    script.register_write(0x3000, 1);
    window_write(&mut script, 0xABC, 4, 0x0BAD_CAFE);
    let on = look(&mut script);
    script.register_write(0x3000, 0xFE);
    let off = look(&mut script);
    window_write(&mut script, 0xABC, 4, 0);
    script.register_write(0x3000, 0xFF);
    let on_again = look(&mut script);
    let answers = replay_same(&OWN, &script);
    let refusals = |codes: [u8; 4]| {
        let at = [0xABC, 0x1ABC, 0x2ABC, 0x3ABC];
        std::array::from_fn::<_, 4, _>(|i| refused_at(codes[i], at[i]))
    };
    for first in [at_start, off] {
        assert_eq!(answers[first..first + 4], refusals([5, 5, 4, 4]));
    }
    for first in [on, on_again] {
        let [_, rest @ ..] = refusals([0, 7, 4, 4]);
        assert_eq!(answers[first], cached(0x3ABC, 0x0BAD_CAFE));
        assert_eq!(answers[first + 1..first + 4], rest);
    }
}

/// Request 5: refusals name the window offset after fencing; and the final address in the cache is the one after fencing
/// too. The fence has 512 KiB from 0 with P = 4096: 73724 becomes 129276, which is in page 31.
#[test]
fn fences_come_before_the_display_cache() {
    for (entry, on, expected) in [
        (0x8000 | DISPLAY, 1, cached(0x8000 + 129_276 % 4096, 0xDCDC_DCDC)),
        (0x8000 | DISPLAY, 0, refused_at(5, 129_276)),
        (END | DISPLAY, 1, refused_at(7, 129_276)),
        (END | DISPLAY, 0, refused_at(5, 129_276)),
        (END | DISPLAY & !1, 1, refused_at(4, 129_276)),
    ] {
        let mut script = cache_off();
        script.register_write(0x3000, on);
        script.register_write(0x2000, 0x51);
        script.entry(31, entry);
        let read = script.window_read(73_724, 4);
        assert_eq!(replay_same(&OWN, &script)[read], expected, "entry {entry:X}h, 3000h {on}");
    }
}

/// The parser's fetch goes where the window's access does: words of the cache are instructions, and main memory's at the
/// same address are not looked at. A fetch is unfenced.
#[test]
fn the_parser_fetches_from_the_display_cache() {
    for board in OWN {
        let mut script = cache_on();
        script.register_write(0x20A8, 0);
        script.register_write(0x20A0, 2);
        // The ring's first page is in the cache, its second in main memory.
        script.entry(0, 0xA_0000 | DISPLAY);
        script.entry(1, 0x10_0001);
        for (at, word) in [(0, 0), (4, 0x0200_0000), (8, 0x0100_0000), (0x1FF8, 0), (0x1FFC, 0x0200_0000)] {
            window_write(&mut script, at, 4, word);
        }
        script.smram(0x4C);
        script.register_write(0x2000, 0x51);
        script.ring(0, 0x1001, 0x1FF8, 0x10);
        let run = script.run(u32::MAX);
        let (answers, [memory, _]) = replay_on(board, &script);
        // Two words of main memory, then three of the cache, then its next, DCDCDCDCh, which is no instruction.
        assert_eq!(answers[run], Answer { line: 1, ..ran(12, 1 << 21 | 12, 5) }, "board {board}");
        assert_eq!(memory[0xA_0000..0xA_0010], [IN_MEMORY; 16]);
    }
}

/// A fetch by an entry of type 01 is refused as an access is, with the head as address: 4, 5 and 7.
#[test]
fn a_fetch_by_type_01_is_refused_as_an_access_is() {
    for (entry, on, code) in [
        (0x3000 | DISPLAY & !1, 1, 4),
        (0x3000 | DISPLAY, 0, 5),
        (END | DISPLAY, 0, 5),
        (END | DISPLAY, 1, 7),
        (0x3FFF_F000 | DISPLAY, 1, 7),
    ] {
        let mut script = cache_off();
        script.register_write(0x3000, on);
        script.entry(2, entry);
        script.ring(0x2000, 1, 0x7E0_0010, 0x20);
        let run = script.run(8);
        assert_eq!(replay_same(&OWN, &script)[run], ran(code, 0x7E0_0010, 0), "entry {entry:X}h, 3000h {on}");
    }
}

/// "Reset restores defaults ... memory stays": the three registers are at 00h, 17h and 08h again, and the cache keeps its
/// bytes.
#[test]
fn a_reset_restores_the_registers_and_leaves_the_cache() {
    for board in OWN {
        let mut script = cache_on();
        script.entry(0, 0x3000 | DISPLAY);
        window_write(&mut script, 0, 4, 0x0BAD_CAFE);
        script.register_write(0x3001, 0xAA);
        script.register_write(0x3002, 0x55);
        script.push(Record::reset());
        script.graphics();
        script.register_write(0x2020, TABLE | 1);
        let first = script.register_read(0x3000);
        script.register_read(0x3001);
        script.register_read(0x3002);
        script.entry(0, 0x3000 | DISPLAY);
        let off = script.window_read(0, 4);
        script.register_write(0x3000, 1);
        let on = script.window_read(0, 4);
        let (answers, [_, display]) = replay_on(board, &script);
        assert_eq!(answers[first..first + 3], [mapped(0x3000, 0), mapped(0x3001, 0x17), mapped(0x3002, 0x08)]);
        assert_eq!([answers[off], answers[on]], [refused_at(5, 0), cached(0x3000, 0x0BAD_CAFE)]);
        assert_eq!(display[0x3000..0x3004], 0x0BAD_CAFE_u32.to_le_bytes());
    }
}

/// The table of board kind 3 is in main memory, below 4 MiB too: an entry is not looked for in the cache, and a write of
/// the cache changes none.
#[test]
fn the_table_is_never_in_the_display_cache() {
    const LOW: u32 = 0x20_0000;
    let mut script = Script::new();
    script.graphics();
    script.register_write(0x2020, LOW | 1);
    script.register_write(0x3000, 1);
    // Entry 1 leads to the cache's page at the table's own address.
    script.entry(0, 0x5000 | DISPLAY);
    script.entry(1, LOW | DISPLAY);
    let written = window_write(&mut script, 0x1000, 4, 0x6000 | DISPLAY);
    let register = script.register_read(0x1_0000);
    let read = script.window_read(0, 4);
    let (answers, [memory, display]) = replay_on(3, &script);
    assert_eq!(answers[written], cached(LOW, 0));
    assert_eq!(answers[register], mapped(0x1_0000, 0x5003));
    assert_eq!(answers[read], cached(0x5000, 0xDCDC_DCDC));
    assert_eq!(memory[LOW as usize..][..8], [0x03, 0x50, 0, 0, 0x03, 0, 0x20, 0]);
    assert_eq!(display[LOW as usize..][..4], [0x03, 0x60, 0, 0]);
}

/// The window alone leads to the cache: the same addresses of the processor, of management mode and of hub masters are
/// main memory's, with the cache on.
#[test]
fn addresses_below_4_mib_are_main_memory() {
    let mut script = cache_on();
    script.entry(0, 0x3000 | DISPLAY);
    let first = window_write(&mut script, 0, 4, 0x0BAD_CAFE);
    script.push(Record::read(0x3000, 4, false));
    script.push(Record::read(0x3000, 4, true));
    script.push(Record::master_read(0x3000, 4));
    script.push(Record::master_write(0x3000, 4, 7));
    script.window_read(0, 4);
    let memory = reached(Target::Memory, 0x3000, 0x1111_1111);
    let expected =
        [cached(0x3000, 0), memory, memory, memory, reached(Target::Memory, 0x3000, 0), cached(0x3000, 0x0BAD_CAFE)];
    assert_eq!(replay_same(&OWN, &script)[first..], expected);
}

/// "The host lends a second memory of 4 MiB for kinds 1 and 3, and of length 0 for the others; else code 1." Nothing is
/// touched.
#[test]
fn a_display_cache_of_another_length_is_refused() {
    let lengths = [0, 1, 4096, DISPLAY_BYTES - 1, DISPLAY_BYTES, DISPLAY_BYTES + 1, 2 * DISPLAY_BYTES];
    let mut script = cache_on();
    script.entry(0, DISPLAY);
    window_write(&mut script, 0, 4, 0x0BAD_CAFE);
    script.push(Record::write(0x1000, 4, 0x0BAD_CAFE, false));
    let records = record::encode(&script.records);
    for board in Board::ALL {
        for length in lengths {
            let (mut memory, mut answers) = (vec![IN_MEMORY; 8 * MIB], vec![0xA5; records.len()]);
            let mut display = vec![IN_CACHE; length];
            let number = board.number();
            let good = length == board.display_bytes();
            let expected = u32::from(!good);
            assert_eq!(call::gmch_replay(number, &mut memory, &records, &mut answers, &mut display), expected);
            if good {
                continue;
            }
            assert_eq!(reference::replay(number, &mut memory, &records, &mut answers, &mut display), 1);
            let wrong = replay(board, &mut memory, &records, &mut answers, &mut display);
            assert_eq!(wrong, Err(WrongArgument::Display { bytes: length, board }));
            assert!(answers.iter().all(|&byte| byte == 0xA5), "board {board}, {length} bytes: answers were touched");
            assert!(memory.iter().all(|&byte| byte == IN_MEMORY), "board {board}, {length} bytes: memory was touched");
            assert!(display.iter().all(|&byte| byte == IN_CACHE), "board {board}, {length} bytes: it was touched");
        }
    }
}

/// The error says what is wrong, and of several wrong arguments it names the first.
#[test]
fn a_wrong_display_cache_is_named() {
    let wrong = |board, memory: usize, display: usize| {
        let outcome = replay(board, &mut vec![0; memory], &[], &mut [], &mut vec![0; display]);
        outcome.map_err(|wrong| wrong.to_string())
    };
    let named = |text: &str| Err(text.to_string());
    let own = "display cache: expected 4194304 bytes on board dc100-main, found 5";
    assert_eq!(wrong(Board::Dc100Main, 8 * MIB, 5), named(own));
    let other = "display cache: expected none on board 82810, found 4194304 bytes";
    assert_eq!(wrong(Board::I82810, 8 * MIB, DISPLAY_BYTES), named(other));
    assert!(wrong(Board::Dc100, 1, 1).is_err_and(|wrong| wrong.starts_with("memory: ")));
    assert_eq!(wrong(Board::Dc100, 8 * MIB, DISPLAY_BYTES), Ok(()));
    assert_eq!(wrong(Board::I82810Main, 8 * MIB, 0), Ok(()));
}
