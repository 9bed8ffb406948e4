//! Single sentences of document 01 that are easy to read in two ways, each with the answers it asks
//! for. Every list goes through the call and through the reference.

mod common;

use common::{hub, mapped, ran, reached, refused, refused_at, register, replay_both, Script, MIB};
use mitrophel::{Answer, Kind, Record, Target};

const TOP: u32 = 8 << 20;

fn memory(address: u32) -> Answer {
    reached(Target::Memory, address, 0)
}

/// The answers to these records on 8 MiB of zeros.
#[track_caller]
fn answers(records: &[Record]) -> Vec<Answer> {
    replay_both(0, &mut vec![0; 8 * MIB], records)
}

/// A board with graphics on, entry 0 at 1 MiB and translation on.
fn graphics() -> Script {
    let mut script = Script::new();
    script.graphics();
    script.entry(0, 0x0010_0001);
    script.translation_on();
    script
}

// Records and codes 13 and 2 ----------------------------------------------------------------------

/// "Order: 13, 2, then routing": the layout is looked at before the width.
#[test]
fn a_broken_layout_comes_before_a_wrong_width() {
    let records = [
        Record::io_write(65_536, 3, 0),
        Record { tail: 1, ..Record::read(3, 4, false) },
        Record { flags: 2, width: 0, ..Record::read(0, 4, false) },
        Record { kind: 0, ..Record::read(0, 3, false) },
    ];
    assert_eq!(answers(&records), [refused(13); 4]);
}

/// "2 | kinds 1 to 7: width not 1, 2, 4": in no kind a wrong width breaks the layout.
#[test]
fn a_wrong_width_is_code_2_in_every_kind_of_access() {
    for kind in Kind::ALL.into_iter().filter(|kind| kind.is_access()) {
        for width in [0, 3, 5, 8, 255] {
            let record = Record { kind: kind.number(), width, ..Record::default() };
            assert_eq!(answers(&[record]), [refused(2)], "{record}");
        }
    }
}

/// "Kinds 8 and 9 have width and address 0."
#[test]
fn a_width_or_address_in_a_run_or_reset_is_code_13() {
    for record in [Record::run(1), Record::reset()] {
        let broken = [Record { width: 4, ..record }, Record { address: 4, ..record }];
        assert_eq!(answers(&broken), [refused(13); 2]);
    }
}

/// "the access crosses an aligned 4-byte word": two bytes at 4k + 1 do not.
#[test]
fn an_access_need_only_stay_inside_its_word() {
    let records = [
        Record::read(0x1001, 2, false),
        Record::read(0x1003, 1, false),
        Record::read(0x1003, 2, false),
        Record::read(0x1001, 4, false),
        Record::io_read(0xFFFF, 1),
        Record::io_read(0xFFFF, 2),
        Record::read(0xFFFF_FFFF, 2, false),
    ];
    let expected = [memory(0x1001), memory(0x1003), refused(2), refused(2), hub(0xFFFF), refused(2), refused(2)];
    assert_eq!(answers(&records), expected);
}

/// "a write's data past its width is ignored"; "value read, zero-extended".
#[test]
fn data_past_the_width_is_ignored() {
    let records = [
        Record::write(0x1000, 4, 0x1122_3344, false),
        Record::write(0x1001, 1, 0xFFFF_FF55, false),
        Record::master_write(0x1002, 2, 0xFFFF_6677),
        Record::read(0x1000, 4, false),
        Record::read(0x1001, 2, false),
    ];
    let answers = answers(&records);
    assert_eq!(answers[3].value, 0x6677_5544);
    assert_eq!(answers[4].value, 0x7755);
}

/// "its answer holds the code and the interrupt line, all else zero": every refusal but those of a window access, 13 and
/// 2 too.
#[test]
fn a_refusal_carries_the_interrupt_line() {
    let mut script = interrupted();
    let first = script.push(Record { tail: 1, ..Record::reset() });
    script.push(Record::read(0, 3, false));
    script.push(Record::read(Script::REGISTERS + 0x20A4, 4, false));
    script.push(Record { width: 1, ..Record::run(1) });
    let memory = &mut instructions(&[0x0100_0000]);
    let up = [13, 2, 10, 13].map(|code| Answer { line: 1, ..refused(code) });
    assert_eq!(script.replay_on(memory)[first..], up);
}

// Configuration space -----------------------------------------------------------------------------

/// "CF8h takes 4-byte accesses only and stores data AND 80FFFFFCh"; "narrower CF8h accesses and every
/// other port, goes to the hub".
#[test]
fn cf8h_takes_four_bytes_and_keeps_its_bits() {
    let records = [
        Record::io_write(0xCF8, 4, 0xFFFF_FFFF),
        Record::io_read(0xCF8, 4),
        Record::io_write(0xCF8, 2, 0),
        Record::io_write(0xCF8, 1, 0),
        Record::io_write(0xCFB, 1, 0),
        Record::io_write(0xCFA, 2, 0),
        Record::io_read(0xCF8, 4),
    ];
    let expected = [
        register(0xCF8, 0),
        register(0xCF8, 0x80FF_FFFC),
        hub(0xCF8),
        hub(0xCF8),
        hub(0xCFB),
        hub(0xCFA),
        register(0xCF8, 0x80FF_FFFC),
    ];
    assert_eq!(answers(&records), expected);
}

/// "If bit 31 is set"; "Bus 0 function 0 device 0 is ours; device 1 too while GMS is not 00. All else
/// ... goes to the hub", with the record's address.
#[test]
fn a_configuration_access_that_is_not_ours_goes_to_the_hub() {
    for select in
        [0x0000_0000, 0x8001_0000, 0x80FF_0000, 0x8000_0100, 0x8000_0700, 0x8000_0800, 0x8000_1000, 0x8000_F800]
    {
        let records = [Record::io_write(0xCF8, 4, select), Record::io_read(0xCFD, 1), Record::io_write(0xCFC, 4, 1)];
        assert_eq!(answers(&records)[1..], [hub(0xCFD), hub(0xCFC)], "{select:X}h");
    }
}

/// "register 7:2 plus the port's low two bits"; "device x 256 + register".
#[test]
fn the_answer_names_device_and_register() {
    let mut script = Script::new();
    script.smram(0x40);
    let read = script.config_read(1, 0x2D, 2);
    let id = script.config_read(1, 0x02, 2);
    let answers = script.replay();
    assert_eq!(answers[read], register(0x12D, 0));
    assert_eq!(answers[id], register(0x102, 0x7121));
}

/// "02 7120h/7122h" and "02 7121h/7123h".
#[test]
fn the_two_boards_differ_in_their_device_ids() {
    let mut script = Script::new();
    script.smram(0x40);
    let zero = script.config_read(0, 0, 4);
    let one = script.config_read(1, 0, 4);
    for (board, ids) in [(0, [0x7120_8086, 0x7121_8086]), (1, [0x7122_8086, 0x7123_8086])] {
        let answers = replay_both(board, &mut vec![0; 8 * MIB], &script.records);
        assert_eq!([answers[zero].value, answers[one].value], ids);
    }
}

/// What each device's 64 words read at cold start, and after FFFFFFFFh and then 0 were written to
/// each: "a fixed table of default and writable bits (unlisted: read 0, writes ignored)".
#[test]
fn every_configuration_word_has_its_default_and_its_writable_bits() {
    // Register, default, after ones, after zeros.
    let device_0 = [
        (0x00, 0x7120_8086, 0x7120_8086, 0x7120_8086),
        (0x04, 0x0080_0006, 0x0080_0106, 0x0080_0006),
        (0x08, 0x0600_0002, 0x0600_0002, 0x0600_0002),
        // PAMR at 51h and FDHC at 58h: request 8 of document 02.
        (0x50, 0x0000_0000, 0x0000_FF00, 0x0000_0000),
        (0x58, 0x0000_0000, 0x0000_0080, 0x0000_0000),
        (0x70, 0x0000_0000, 0x0001_00FE, 0x0000_00FE),
        (0x80, 0x0000_0000, 0x0000_00FF, 0x0000_0000),
        (0x90, 0xFFFF_0000, 0xFFFF_0000, 0x0000_0000),
    ];
    let device_1 = [
        (0x00, 0x7121_8086, 0x7121_8086, 0x7121_8086),
        (0x04, 0x0000_0004, 0x0000_0007, 0x0000_0004),
        (0x08, 0x0300_0000, 0x0300_0000, 0x0300_0000),
        // The window is 64 MiB when this is read: bit 25 reads 0.
        (0x10, 0x0000_0008, 0xFC00_0008, 0x0000_0008),
        (0x14, 0x0000_0000, 0xFFF8_0000, 0x0000_0000),
        // Write once: the second write is not taken.
        (0x2C, 0x0000_0000, 0xFFFF_FFFF, 0xFFFF_FFFF),
        (0x34, 0x0000_00DC, 0x0000_00DC, 0x0000_00DC),
        (0x3C, 0x0000_0100, 0x0000_01FF, 0x0000_0100),
        (0xDC, 0x0021_0001, 0x0021_0001, 0x0021_0001),
        // Bits 1:0 take 11 and 00, and nothing else: request 3 of document 02.
        (0xE0, 0x0000_0000, 0x0000_0103, 0x0000_0000),
    ];
    for (device, rows) in [(0, &device_0[..]), (1, &device_1[..])] {
        for register in (0..256).step_by(4) {
            let mut script = Script::new();
            if device == 1 {
                script.smram(0x40);
            }
            let default = script.config_read(device, register, 4);
            script.config_write(device, register, 4, 0xFFFF_FFFF);
            let ones = script.config_read(device, register, 4);
            script.config_write(device, register, 4, 0);
            let zeros = script.config_read(device, register, 4);
            let row = rows.iter().find(|row| row.0 == register).copied().unwrap_or((register, 0, 0, 0));
            let answers = script.replay();
            let seen = (register, answers[default].value, answers[ones].value, answers[zeros].value);
            assert_eq!(seen, row, "device {device}: {seen:X?} is not {row:X?}");
        }
    }
}

/// "A write touches only its bytes."
#[test]
fn a_write_touches_only_its_bytes() {
    let mut script = Script::new();
    script.config_write(0, 0x92, 1, 0x12);
    let low = script.config_read(0, 0x92, 2);
    script.config_write(0, 0x93, 1, 0x34);
    let both = script.config_read(0, 0x92, 2);
    script.config_write(0, 0x71, 2, 0xFFFF);
    let between = script.config_read(0, 0x70, 4);
    let answers = script.replay();
    assert_eq!(answers[low].value, 0xFF12);
    assert_eq!(answers[both].value, 0x3412);
    assert_eq!(answers[between].value, 0x0001_0000);
}

/// Device 1's bytes stay while GMS is 00 hides it, and a write that went to the hub is not taken.
#[test]
fn device_1_keeps_its_bytes_while_it_is_hidden() {
    let mut script = Script::new();
    script.smram(0x40);
    script.config_write(1, 0x3C, 1, 0x5A);
    script.smram(0x00);
    let hidden = script.config_read(1, 0x3C, 1);
    script.config_write(1, 0x2C, 4, 0x1111_1111);
    script.smram(0x80);
    let back = script.config_read(1, 0x3C, 1);
    script.config_write(1, 0x2C, 4, 0x2222_2222);
    let first = script.config_read(1, 0x2C, 4);
    let answers = script.replay();
    assert_eq!(answers[hidden], hub(0xCFC));
    assert_eq!(answers[back], register(0x13C, 0x5A));
    assert_eq!(answers[first], register(0x12C, 0x2222_2222));
}

/// "write once: the first write touching either byte is taken for the bytes it touches, and the 16
/// bits are then fixed until reset".
#[test]
fn the_first_write_fixes_both_bytes_of_a_write_once_register() {
    // The first write, and what 2C to 2F read after 4 bytes of EEh were written second.
    let cases = [
        (0x2C, 1, 0x11, 0xEEEE_0011),
        (0x2D, 1, 0x22, 0xEEEE_2200),
        (0x2D, 2, 0x3322, 0x0033_2200),
        (0x2E, 2, 0x4433, 0x4433_EEEE),
        (0x2F, 1, 0x44, 0x4400_EEEE),
        (0x2C, 4, 0x4433_2211, 0x4433_2211),
        (0x2C, 1, 0x00, 0xEEEE_0000),
        (0x2C, 4, 0x0000_0000, 0x0000_0000),
    ];
    for (register, width, data, expected) in cases {
        let mut script = Script::new();
        script.smram(0x40);
        script.config_write(1, register, width, data);
        script.config_write(1, 0x2C, 4, 0xEEEE_EEEE);
        let read = script.config_read(1, 0x2C, 4);
        script.push(Record::reset());
        script.smram(0x40);
        let after_reset = script.config_read(1, 0x2C, 4);
        script.config_write(1, 0x2C, 4, 0x5555_5555);
        let again = script.config_read(1, 0x2C, 4);
        let answers = script.replay();
        assert_eq!(answers[read].value, expected, "{width} bytes at {register:X}h");
        assert_eq!(answers[after_reset].value, 0);
        assert_eq!(answers[again].value, 0x5555_5555);
    }
}

/// "At 64, GMADR bit 25 is kept but reads and counts as 0": it can be written at 64 and shows at 32.
#[test]
fn gmadr_bit_25_is_kept_and_masked_at_64_mib() {
    let mut script = graphics();
    script.config_write(1, 0x10, 4, 0xC200_0000);
    let at_64 = script.config_read(1, 0x10, 4);
    let byte = script.config_read(1, 0x13, 1);
    let counts = script.push(Record::read(0xC000_0000, 4, false));
    script.config_write(0, 0x72, 1, 1);
    let at_32 = script.config_read(1, 0x10, 4);
    let below = script.push(Record::read(0xC000_0000, 4, false));
    let inside = script.push(Record::read(0xC200_0000, 4, false));
    let beyond = script.push(Record::read(0xC400_0000, 4, false));
    let answers = script.replay();
    assert_eq!(answers[at_64].value, 0xC000_0008);
    assert_eq!(answers[byte].value, 0xC0);
    assert_eq!(answers[counts], memory(0x10_0000));
    assert_eq!(answers[at_32].value, 0xC200_0008);
    assert_eq!(answers[below], hub(0xC000_0000));
    assert_eq!(answers[inside], memory(0x10_0000));
    assert_eq!(answers[beyond], hub(0xC400_0000));
}

// SMRAM -------------------------------------------------------------------------------------------

/// "Bit 1 lock, bit 0 error, cleared by writing 1. The write that sets the lock takes its other bits
/// too; afterwards only bit 0 obeys writes, until reset".
#[test]
fn the_lock_holds_all_but_the_error_bit() {
    let mut script = Script::new();
    script.smram(0xB1);
    let stored = script.read_smram();
    script.push(Record::read(TOP - 4, 4, false));
    let error = script.read_smram();
    script.smram(0x30);
    let kept = script.read_smram();
    // The locking write takes its other bits and clears the error in one.
    script.smram(0xBF);
    let locked = script.read_smram();
    script.smram(0x00);
    let zero = script.read_smram();
    script.push(Record::write(TOP - 4, 4, 0, false));
    let again = script.read_smram();
    script.config_write(0, 0x70, 4, 0x0000_0041);
    let cleared = script.config_read(0, 0x70, 4);
    script.push(Record::reset());
    let reset = script.read_smram();
    let answers = script.replay();
    let values = [stored, error, kept, locked, zero, again, cleared, reset].map(|i| answers[i].value);
    assert_eq!(values, [0xB0, 0xB1, 0x31, 0xBE, 0xBE, 0xBF, 0xBE, 0x00]);
}

/// Register 72 "bit 0 plain" has no lock.
#[test]
fn the_window_size_is_writable_under_the_lock() {
    let mut script = Script::new();
    script.smram(0x42);
    script.config_write(0, 0x70, 4, 0x0001_00FF);
    let read = script.config_read(0, 0x70, 4);
    assert_eq!(script.replay()[read].value, 0x0001_0042);
}

// Where an address goes ---------------------------------------------------------------------------

/// The answer to one processor access under this SMRAM, and whether the error bit was set.
#[track_caller]
fn under(smram: u8, record: Record) -> (Answer, bool) {
    let mut script = Script::new();
    script.smram(smram);
    let asked = script.push(record);
    let error = script.read_smram();
    let answers = script.replay();
    (answers[asked], answers[error].value & 1 != 0)
}

/// Rules 1, 3 and 4, which no mode and no initiator changes. Rule 3 is the hub as long as PAMR is 00h, and rule 4 memory as
/// long as there is no hole: request 8 of document 02 has the rest.
#[test]
fn ordinary_memory_and_the_bios_range_are_the_same_for_all() {
    for smram in [0x00, 0x40, 0x70, 0x4C] {
        for make in [
            |address| Record::read(address, 1, false),
            |address| Record::code_read(address, 1, true),
            |address| Record::write(address, 1, 7, true),
            |address| Record::master_read(address, 1),
            |address| Record::master_write(address, 1, 7),
        ] {
            for address in [0, 0x9_FFFF, 0x10_0000, 0x5F_FFFF] {
                assert_eq!(under(smram, make(address)), (memory(address), false));
            }
            for address in [0xC_0000, 0xF_FFFF] {
                assert_eq!(under(smram, make(address)), (hub(address), false));
            }
        }
    }
}

/// Rule 2: "memory if LSMM 01; or LSMM 10, management code read; or LSMM 11, management. Else VGA, or
/// hub if GMS 00." Hub masters reach it "by 2 with LSMM 01".
#[test]
fn a0000h_to_bffffh_goes_where_lsmm_says() {
    let accesses = [
        Record::read(0xA_0010, 4, false),
        Record::code_read(0xA_0010, 4, false),
        Record::write(0xA_0010, 4, 0, false),
        Record::read(0xA_0010, 4, true),
        Record::code_read(0xA_0010, 4, true),
        Record::write(0xA_0010, 4, 0, true),
        Record::master_read(0xA_0010, 4),
        Record::master_write(0xA_0010, 4, 0),
    ];
    let reaches_memory = [
        [false; 8],
        [true; 8],
        [false, false, false, false, true, false, false, false],
        [false, false, false, true, true, true, false, false],
    ];
    for (lsmm, row) in reaches_memory.into_iter().enumerate() {
        // With HSEG chosen too: where LSMM is 00 it acts, and does not open this range.
        for (gms, usmm) in [(0, 0), (1, 0), (0, 1), (1, 1), (3, 3)] {
            for (access, reaches) in accesses.into_iter().zip(row) {
                let master = matches!(access.kind(), Some(Kind::MasterRead | Kind::MasterWrite));
                let expected = match (reaches, gms == 0 || master) {
                    (true, _) => memory(0xA_0010),
                    (false, true) => hub(0xA_0010),
                    (false, false) => reached(Target::Vga, 0x10, 0),
                };
                let smram = gms << 6 | usmm << 4 | (lsmm as u8) << 2;
                assert_eq!(under(smram, access), (expected, false), "SMRAM {smram:X}h, {access}");
            }
        }
    }
}

/// The borders of rule 2.
#[test]
fn vga_offsets_count_from_a0000h() {
    assert_eq!(under(0x40, Record::read(0xA_0000, 4, false)).0, reached(Target::Vga, 0, 0));
    assert_eq!(under(0x40, Record::write(0xB_FFFF, 1, 9, true)).0, reached(Target::Vga, 0x1_FFFF, 0));
}

/// Rule 5: "from TOM - T, management: memory. Else hub; a non-management access at or above TOM - T
/// sets the error bit." Masters: "else hub, no error bit".
#[test]
fn the_top_of_memory_is_tseg_above_taken_memory() {
    for (smram, tseg, taken) in
        [(0x40, 0, 0), (0x90, 0, 0x8_0000), (0xE0, 0x8_0000, 0x10_0000), (0xB0, 0x10_0000, 0x8_0000)]
    {
        let (tseg, usable) = (TOP - tseg, TOP - tseg - taken);
        for address in [usable - 4, usable, tseg - 4, tseg, TOP - 4] {
            let in_tseg = (tseg..TOP).contains(&address);
            for (record, management) in [
                (Record::read(address, 4, false), false),
                (Record::write(address, 4, 0, false), false),
                (Record::code_read(address, 4, false), false),
                (Record::read(address, 4, true), true),
                (Record::code_read(address, 4, true), true),
                (Record::write(address, 4, 0, true), true),
            ] {
                let expected = match address < usable || in_tseg && management {
                    true => memory(address),
                    false => hub(address),
                };
                assert_eq!(under(smram, record), (expected, in_tseg && !management), "SMRAM {smram:X}h, {record}");
            }
            let expected = if address < usable { memory(address) } else { hub(address) };
            assert_eq!(under(smram, Record::master_read(address, 4)), (expected, false));
            assert_eq!(under(smram, Record::master_write(address, 4, 0)), (expected, false));
        }
    }
}

/// Rule 6: "FEEA0000h-FEEBFFFFh with HSEG acting: management reaches A0000h up; else hub, error bit
/// set." "HSEG acts only if LSMM is 00."
#[test]
fn hseg_acts_only_with_lsmm_00() {
    for smram in [0x10, 0x50, 0x60, 0x70] {
        assert_eq!(under(smram, Record::read(0xFEEA_0000, 4, true)), (memory(0xA_0000), false));
        assert_eq!(under(smram, Record::write(0xFEEB_FFFF, 1, 3, true)), (memory(0xB_FFFF), false));
        assert_eq!(under(smram, Record::read(0xFEEA_0000, 4, false)), (hub(0xFEEA_0000), true));
        assert_eq!(under(smram, Record::write(0xFEEB_FFFF, 1, 3, false)), (hub(0xFEEB_FFFF), true));
        assert_eq!(under(smram, Record::master_read(0xFEEA_0000, 4)), (hub(0xFEEA_0000), false));
        for outside in [0xFEE9_FFFF, 0xFEEC_0000] {
            assert_eq!(under(smram, Record::read(outside, 1, false)), (hub(outside), false));
        }
    }
    for smram in [0x00, 0x40, 0x54, 0x78, 0x5C] {
        for management in [false, true] {
            assert_eq!(under(smram, Record::read(0xFEEA_0000, 4, management)), (hub(0xFEEA_0000), false));
        }
    }
}

/// Rules 7 and 8 act "only if GMS is not 00 and device 1 register 04 bit 1 is set".
#[test]
fn registers_and_window_need_graphics_and_the_memory_enable() {
    for (gms, enable, decodes) in [(0x40, 2, true), (0x40, 1, false), (0x00, 2, false), (0xC0, 3, true)] {
        let mut script = graphics();
        script.config_write(1, 0x04, 1, enable);
        script.smram(gms);
        let window = script.push(Record::read(Script::WINDOW, 4, false));
        let registers = script.push(Record::read(Script::REGISTERS + 0x2020, 4, false));
        let answers = script.replay();
        if decodes {
            assert_eq!([answers[window], answers[registers]], [memory(0x10_0000), mapped(0x2020, 1)]);
        } else {
            assert_eq!([answers[window], answers[registers]], [hub(Script::WINDOW), hub(Script::REGISTERS + 0x2020)]);
        }
    }
}

/// "First match": memory before both, registers before the window, HSEG before both; and ranges that
/// end at 4 GiB.
#[test]
fn the_first_rule_that_matches_decides() {
    let mut script = graphics();
    // GMADR 0: the window is what lies above memory.
    script.config_write(1, 0x10, 4, 0);
    let below = script.push(Record::read(TOP - 4, 4, false));
    script.entry(TOP >> 12, 0x0020_0001);
    let above = script.push(Record::read(TOP + 8, 4, false));
    let end = script.push(Record::read(0x0400_0000, 4, false));
    // MMADR inside the window.
    script.config_write(1, 0x14, 4, TOP);
    let registers = script.push(Record::read(TOP + 8, 4, false));
    // Both at the end of the 4 GiB, over HSEG's range.
    script.config_write(1, 0x10, 4, 0xFC00_0000);
    script.config_write(1, 0x14, 4, 0xFFF8_0000);
    let last = script.push(Record::read(0xFFFF_FFFF, 1, false));
    let over_hseg = script.push(Record::read(0xFEEA_0000, 4, false));
    script.smram(0x50);
    let hseg = script.push(Record::read(0xFEEA_0000, 4, true));
    let beside = script.push(Record::read(0xFEE9_FFFC, 4, true));
    let answers = script.replay();
    assert_eq!(answers[below], memory(TOP - 4));
    assert_eq!(answers[above], memory(0x20_0008));
    assert_eq!(answers[end], hub(0x0400_0000));
    assert_eq!(answers[registers], mapped(8, 0));
    assert_eq!(answers[last], mapped(0x7_FFFF, 0));
    assert_eq!(answers[over_hseg], refused_at(4, 0x02EA_0000));
    assert_eq!(answers[hseg], memory(0xA_0000));
    assert_eq!(answers[beside], refused_at(4, 0x02E9_FFFC));
}

/// Hub masters: "memory by rules 1, 4 and by 2 with LSMM 01; else hub".
#[test]
fn hub_masters_reach_neither_registers_nor_window() {
    let mut script = graphics();
    let first = script.push(Record::master_read(Script::WINDOW, 4));
    script.push(Record::master_write(Script::REGISTERS + 0x2020, 4, 0));
    assert_eq!(script.replay()[first..], [hub(Script::WINDOW), hub(Script::REGISTERS + 0x2020)]);
}

// Memory-mapped registers -------------------------------------------------------------------------

/// "access touches a listed memory-mapped register without being exactly it"; "Others read 0, ignore
/// writes."
#[test]
fn a_listed_register_is_accessed_exactly_or_not_at_all() {
    let mut script = graphics();
    let asked = [
        (0x20A0, 4, 10),
        (0x20A0, 1, 10),
        (0x20A1, 1, 10),
        (0x20A1, 2, 10),
        (0x20AC, 4, 10),
        (0x201E, 1, 10),
        (0x2020, 2, 10),
        (0x2033, 1, 10),
        (0x1_0000, 1, 10),
        (0x1_FFFE, 2, 10),
        (0x20A2, 1, 0),
        (0x20A2, 2, 0),
        (0x20A3, 1, 0),
        (0x2024, 4, 0),
        (0x202F, 1, 0),
        (0x2040, 4, 0),
        (0x20B0, 4, 0),
        (0xFFFC, 4, 0),
        (0x2_0000, 4, 0),
        (0x7_FFFC, 4, 0),
        (0x0000, 4, 0),
    ];
    let first = script.records.len();
    for (offset, width, _) in asked {
        script.push(Record::write(Script::REGISTERS + offset, width, 0xFFFF_FFFF, false));
        script.push(Record::read(Script::REGISTERS + offset, width, false));
    }
    let answers = script.replay();
    for (i, (offset, width, code)) in asked.into_iter().enumerate() {
        let expected = if code == 0 { mapped(offset, 0) } else { refused(code) };
        assert_eq!(answers[first + 2 * i], expected, "write of {width} at {offset:X}h");
        assert_eq!(answers[first + 2 * i + 1], expected, "read of {width} at {offset:X}h");
    }
}

/// "other bits read 0", "unnamed bits read 0"; "All listed registers default to 0 but 20A8h".
#[test]
fn every_listed_register_has_its_default_and_keeps_its_named_bits() {
    let mut rows = vec![
        (0x2020, 0, 0xFFFF_F001),
        (0x2030, 0, 0x001F_FFF8),
        (0x2034, 0, 0xFFFF_FFFC),
        (0x2038, 0, 0x03FF_F000),
        (0x203C, 0, 0x001F_F001),
        (0x20A0, 0, 0xFFFF),
        (0x20A4, 0, 0),
        (0x20A8, 0xFFFF, 0xFFFF),
        (0x20AC, 0, 0),
    ];
    rows.extend((0..8).map(|fence| (0x2000 + 4 * fence, 0, 0x03F8_1771)));
    rows.extend([0, 1, 8191, 8192, 16_383].map(|entry| (0x1_0000 + 4 * entry, 0, 0x3FFF_F007)));
    // Entries past the window's end are registers too.
    for miscc in [0, 1] {
        for &(offset, default, ones) in &rows {
            let mut script = Script::new();
            script.graphics();
            script.config_write(0, 0x72, 1, miscc);
            let before = script.register_read(offset);
            script.register_write(offset, 0xFFFF_FFFF);
            let after = script.register_read(offset);
            script.push(Record::reset());
            script.graphics();
            let reset = script.register_read(offset);
            let answers = script.replay();
            let values = [before, after, reset].map(|i| answers[i].value);
            assert_eq!(values, [default, ones, default], "{offset:X}h");
        }
    }
}

// Table and fences --------------------------------------------------------------------------------

/// "then 10, or 9, 3, 4, 5, 7, 6": of several that hold, the first in this order is given.
#[test]
fn the_codes_of_a_window_access_come_in_their_order() {
    // Invalid type 01 entry above TOM; type 01 above TOM; type 10 at a protected page; type 11 above
    // TOM; type 11 at a protected page; type 11 at a good page.
    let entries = [0x0080_0002, 0x0080_0003, 0x000A_0005, 0x0080_0007, 0x000A_0007, 0x0010_0007];
    let mut script = Script::new();
    script.graphics();
    for (number, entry) in entries.into_iter().enumerate() {
        script.entry(number as u32, entry);
    }
    script.smram(0x4C);
    let off = script.window_read(0, 4);
    // Fence 0 is ill-formed over the first 512 KiB.
    script.register_write(0x2000, 0x1001);
    let fenced = script.window_read(0, 4);
    script.register_write(0x2000, 0);
    script.translation_on();
    let first = script.records.len();
    for page in 0..6 {
        script.window_read(page << 12, 4);
    }
    let answers = script.replay();
    assert_eq!([answers[off], answers[fenced]], [refused_at(3, 0), refused_at(9, 0)]);
    let expected = [
        refused_at(4, 0),
        refused_at(5, 0x1000),
        refused_at(5, 0x2000),
        refused_at(7, 0x3000),
        refused_at(6, 0x4000),
        memory(0x10_0000),
    ];
    assert_eq!(answers[first..], expected);
}

/// "Protected: A0000h-BFFFFh if LSMM is 10 or 11, or HSEG acts": not with LSMM 01, whatever USMM is.
#[test]
fn general_memory_is_not_protected() {
    for (smram, code) in [(0x40, 0), (0x44, 0), (0x74, 0), (0x48, 6), (0x4C, 6), (0x50, 6), (0x7C, 6)] {
        let mut script = graphics();
        script.entry(1, 0x000A_0001);
        script.smram(smram);
        let read = script.window_read(0x1000, 4);
        let expected = if code == 0 { memory(0xA_0000) } else { refused_at(code, 0x1000) };
        assert_eq!(script.replay()[read], expected, "SMRAM {smram:X}h");
    }
}

/// "Ill-formed: size 7, pitch 6 or 7, walk 1, start no multiple of the size."
#[test]
fn each_ill_formed_fence_is_refused_with_code_9() {
    let ill_formed = [0x0000_0701, 0x0000_0061, 0x0000_0071, 0x0000_1001, 0x0008_0101, 0x0008_0701];
    for fence in ill_formed {
        let mut script = graphics();
        script.entry(0x80, 0x0010_0001);
        script.register_write(0x2000, fence);
        let offset = fence & 0x03F8_0000;
        let read = script.window_read(offset, 4);
        script.register_write(0x2000, fence & !1);
        let unfenced = script.window_read(offset, 4);
        let answers = script.replay();
        assert_eq!(answers[read], refused_at(9, offset), "{fence:X}h");
        assert_eq!(answers[unfenced], memory(0x10_0000), "{fence:X}h");
    }
}

/// "lowest matching number wins", good or bad; "start <= o < start + size, size code 7 read as
/// 32 MiB".
#[test]
fn the_lowest_matching_fence_alone_is_looked_at() {
    let mut script = graphics();
    for page in 0..16 {
        script.entry(page, 0x0010_0001 + (page << 12));
    }
    // 5: pitch 512. 6: ill-formed over the same place. 7: pitch 256.
    script.register_write(0x2014, 0x21);
    script.register_write(0x2018, 0x61);
    script.register_write(0x201C, 0x11);
    let good = script.window_read(700, 4);
    script.register_write(0x2010, 0x1721);
    let bad = script.window_read(700, 4);
    script.register_write(0x2010, 0x0008_0021);
    let elsewhere = script.window_read(700, 4);
    // Size code 7 matches up to 32 MiB.
    script.register_write(0x2000, 0x0701);
    let last = script.window_read(0x01FF_FFFC, 4);
    let beyond = script.window_read(0x0200_0000, 4);
    let answers = script.replay();
    assert_eq!(answers[good], memory(0x10_0000 + 2236));
    assert_eq!(answers[bad], refused_at(9, 700));
    assert_eq!(answers[elsewhere], memory(0x10_0000 + 2236));
    assert_eq!(answers[last], refused_at(9, 0x01FF_FFFC));
    assert_eq!(answers[beyond], refused_at(4, 0x0200_0000));
}

/// "result start + 2048((y/16)(P/128) + x/128) + 128(y mod 16) + x mod 128", worked out by hand.
#[test]
fn a_fence_moves_an_offset_into_its_tile() {
    // Fence, offset in the window, result.
    let cases = [
        // P = 128: every offset stays.
        (0x01, 0x1234, 0x1234),
        // P = 256: y = 3, x = 132: tile 1, row 3.
        (0x11, 3 * 256 + 132, 2048 + 3 * 128 + 4),
        // P = 4096, y = 17, x = 4092: tile row 1 of 32 tiles, tile 31, row 1, byte 124.
        (0x51, 17 * 4096 + 4092, 2048 * (32 + 31) + 128 + 124),
        // Start 512 KiB.
        (0x0008_0021, 0x8_0000 + 700, 0x8_0000 + 2236),
        // 1 MiB at 1 MiB, P = 512, its last word stays the last.
        (0x0010_0121, 0x1F_FFFC, 0x1F_FFFC),
    ];
    for (fence, offset, result) in cases {
        let mut script = Script::new();
        script.graphics();
        script.entry(result >> 12, 0x0030_0001);
        script.translation_on();
        script.register_write(0x2004, fence);
        let read = script.window_read(offset, 4);
        assert_eq!(script.replay()[read], memory(0x30_0000 + result % 4096), "{fence:X}h at {offset:X}h");
    }
}

// Ring --------------------------------------------------------------------------------------------

/// Memory whose page at 1 MiB holds these instructions.
fn instructions(words: &[u32]) -> Vec<u8> {
    let mut memory = vec![0; 8 * MIB];
    for (i, word) in words.iter().enumerate() {
        memory[0x10_0000 + 4 * i..0x10_0004 + 4 * i].copy_from_slice(&word.to_le_bytes());
    }
    memory
}

/// A ring of one page at 1 MiB from the head up to the tail.
fn ring(head: u32, tail: u32) -> Script {
    let mut script = graphics();
    script.ring(0, 1, head, tail);
    script
}

/// The interrupt line up, by a user interrupt at the ring's first word.
fn interrupted() -> Script {
    let mut script = ring(0, 8);
    script.register_write(0x20A8, 0);
    script.register_write(0x20A0, 2);
    script.run(1);
    script
}

/// "Not enabled (seen before code 11), or offsets equal: a run ends with code 0"; "11, then empty
/// check".
#[test]
fn the_enable_comes_before_code_11_and_code_11_before_empty() {
    for (length, head, tail, expected) in [
        (0x0, 0x1000, 0x1000, ran(0, 0x1000, 0)),
        (0x1, 0x1000, 0x1000, ran(11, 0x1000, 0)),
        (0x1, 0x1000, 0x0000, ran(11, 0x1000, 0)),
        (0x1, 0x0000, 0x1000, ran(11, 0x0000, 0)),
        (0x1, 0x0008, 0x0008, ran(0, 0x0008, 0)),
        (0x1, 0x0020_0008, 0x0008, ran(0, 0x0020_0008, 0)),
    ] {
        let mut script = graphics();
        script.ring(0, length, head, tail);
        let run = script.run(5);
        let nothing = script.run(0);
        let answers = script.replay();
        assert_eq!(answers[run], expected);
        // "budget 0 checks nothing"
        assert_eq!(answers[nothing], ran(0, head, 0));
    }
}

/// "the budget is used up, which is code 0 with nothing further checked. Count = completed steps".
#[test]
fn a_budget_ends_a_run_before_the_next_word_is_looked_at() {
    let memory = &mut instructions(&[0, 0x0200_0000, 0x0080_0000]);
    let mut script = ring(0, 0x20);
    let two = script.run(2);
    let refused = script.run(1);
    script.register_write(0x2034, 0);
    let all = script.run(100);
    let answers = script.replay_on(memory);
    assert_eq!(answers[two], ran(0, 8, 2));
    assert_eq!(answers[refused], ran(12, 8, 0));
    assert_eq!(answers[all], ran(12, 8, 2));
}

/// "Bits 31:29 zero and 28:23: 00h nothing, 02h user interrupt, 04h flush (nothing), else 12; other
/// bits are not looked at."
#[test]
fn three_instructions_are_known() {
    for high in (0..512_u32).filter(|high| *high < 66 || high.is_multiple_of(37)) {
        let memory = &mut instructions(&[high << 23 | 0x007F_FFFF]);
        let mut script = ring(0, 8);
        let run = script.run(1);
        let expected = if matches!(high, 0 | 2 | 4) { ran(0, 4, 1) } else { ran(12, 0, 0) };
        assert_eq!(script.replay_on(memory)[run], expected, "{high:X}h");
    }
}

/// "Head moves 4, modulo the length; at the wrap 31:21 counts up modulo 2,048", in a ring whose
/// length is no power of two too.
#[test]
fn the_wraps_count_modulo_2048() {
    for (length, last) in [(0x0001, 0x0FFC), (0x2001, 0x2FFC)] {
        for (wraps, after) in [(0, 1), (2046, 2047), (2047, 0)] {
            let mut script = graphics();
            for page in 0..3 {
                script.entry(page, 0x0010_0001);
            }
            script.ring(0, length, wraps << 21 | last, 8);
            let run = script.run(u32::MAX);
            assert_eq!(script.replay()[run], ran(0, after << 21 | 8, 3), "{last:X}h, {wraps} wraps");
        }
    }
}

/// "parser address at or above the window size": by register 72, and before translation.
#[test]
fn a_fetch_at_the_windows_end_is_refused_with_code_8() {
    for (miscc, start, expected) in [
        (0, 0x01FF_F000, ran(0, 0x1008, 3)),
        (1, 0x01FF_F000, ran(8, 0x1000, 1)),
        (0, 0x03FF_F000, ran(8, 0x1000, 1)),
        (1, 0x0200_0000, ran(8, 0x0FFC, 0)),
    ] {
        let mut script = graphics();
        script.config_write(0, 0x72, 1, miscc);
        for entry in [0x1FFF, 0x2000, 0x2001, 0x3FFF] {
            script.entry(entry, 0x0010_0001);
        }
        script.ring(start, 0x1001, 0x0FFC, 0x1008);
        let run = script.run(9);
        assert_eq!(script.replay()[run], expected, "{start:X}h, register 72 {miscc}");
    }
}

/// A step is refused with 3, 4, 5, 7 or 6 as a window access is, "and reports head and count".
#[test]
fn a_fetch_is_translated_and_refused_like_a_window_access() {
    for (entry, code) in [(0x0010_0000, 4), (0x0010_0003, 5), (0x0010_0005, 5), (0x0080_0001, 7), (0x000A_0001, 6)] {
        let mut script = ring(0x0FF8, 0x1008);
        script.register_write(0x203C, 0x1001);
        script.entry(1, entry);
        script.smram(0x4C);
        let run = script.run(9);
        script.register_write(0x2020, 0);
        let off = script.run(9);
        let answers = script.replay();
        assert_eq!(answers[run], ran(code, 0x1000, 2), "{entry:X}h");
        assert_eq!(answers[off], ran(3, 0x1000, 0));
    }
}

/// "A step fetches the word at start + offset, unfenced."
#[test]
fn a_fence_does_not_move_a_fetch() {
    // The word at offset 700 is no instruction; a fence would take the fetch to 2236, a no-op.
    let mut words = [0; 1024];
    words[700 / 4] = 0xFFFF_FFFF;
    let mut script = ring(696, 712);
    script.register_write(0x2000, 0x21);
    let run = script.run(9);
    assert_eq!(script.replay_on(&mut instructions(&words))[run], ran(12, 700, 1));
}

/// "A run ignores GMS", and device 1's memory enable, which rules 7 and 8 alone ask for.
#[test]
fn a_run_ignores_graphics_off() {
    let mut script = ring(0, 16);
    script.config_write(1, 0x04, 1, 0);
    let disabled = script.run(1);
    script.smram(0x00);
    let off = script.run(1);
    let answers = script.replay();
    assert_eq!([answers[disabled], answers[off]], [ran(0, 4, 1), ran(0, 8, 1)]);
}

// Interrupts and reset ----------------------------------------------------------------------------

/// "A user interrupt sets identity bit 1 if mask bit 1 is 0. Line = identity AND enable nonzero."
#[test]
fn mask_enable_and_identity_make_the_line() {
    let memory = &mut instructions(&[0x0100_0000; 8]);
    let mut script = ring(0, 0x20);
    let masked = script.run(1);
    // A masked interrupt is lost.
    script.register_write(0x20A8, 0xFFFD);
    script.register_write(0x20A0, 0xFFFF);
    let lost = script.register_read(0x20A4);
    script.register_write(0x20A0, 0);
    let disabled = script.run(1);
    let identity = script.register_read(0x20A4);
    let enabled = script.register_write(0x20A0, 2);
    let other = script.register_write(0x20A0, 0xFFFD);
    let again = script.register_write(0x20A0, 2);
    let kept = script.register_write(0x20A4, 0xFFFD);
    let cleared = script.register_write(0x20A4, 0x0002);
    let run = script.run(1);
    let answers = script.replay_on(memory);
    assert_eq!(answers[masked], ran(0, 4, 1));
    assert_eq!(answers[lost], mapped(0x20A4, 0));
    assert_eq!(answers[disabled], ran(0, 8, 1));
    assert_eq!(answers[identity], mapped(0x20A4, 2));
    let lines = [enabled, other, again, kept, cleared].map(|i| answers[i].line);
    assert_eq!(lines, [1, 0, 1, 1, 0]);
    assert_eq!(answers[run], Answer { line: 1, ..ran(0, 12, 1) });
}

/// "A parser run refused other than by 13 instead keeps its completed steps", their interrupts too.
#[test]
fn a_refused_run_keeps_the_interrupts_of_its_steps() {
    let memory = &mut instructions(&[0x0100_0000, 0xFFFF_FFFF]);
    let mut script = ring(0, 0x20);
    script.register_write(0x20A8, 0);
    script.register_write(0x20A0, 2);
    let run = script.run(9);
    assert_eq!(script.replay_on(memory)[run], Answer { line: 1, ..ran(12, 4, 1) });
}

/// "Reset restores defaults and zeroes the table; memory stays." "A reset gives target 0, address,
/// value and count 0", and the line is down after it.
#[test]
fn reset_restores_defaults_and_leaves_memory() {
    let memory = &mut instructions(&[0x0100_0000]);
    let mut script = interrupted();
    script.push(Record::write(0x2000, 4, 0xCAFE, false));
    script.smram(0xFE);
    let reset = script.push(Record::reset());
    let config_address = script.push(Record::io_read(0xCF8, 4));
    let smram = script.read_smram();
    let stays = script.push(Record::read(0x2000, 4, false));
    script.graphics();
    let entry = script.register_read(0x1_0000);
    let head = script.register_read(0x2034);
    let mask = script.register_read(0x20A8);
    let answers = script.replay_on(memory);
    assert_eq!(answers[reset], Answer::default());
    assert_eq!(answers[config_address], register(0xCF8, 0));
    assert_eq!(answers[smram], register(0x70, 0));
    assert_eq!(answers[stays].value, 0xCAFE);
    assert_eq!([entry, head, mask].map(|i| answers[i].value), [0, 0, 0xFFFF]);
}

/// "Each call is a cold start": nothing but memory outlives a call.
#[test]
fn each_call_is_a_cold_start() {
    let memory = &mut vec![0; 8 * MIB];
    let mut script = graphics();
    script.smram(0xFE);
    script.push(Record::write(0x3000, 4, 0x1234, false));
    script.replay_on(memory);
    let mut script = Script::new();
    let config_address = script.push(Record::io_read(0xCF8, 4));
    let smram = script.read_smram();
    let stays = script.push(Record::read(0x3000, 4, false));
    script.graphics();
    let entry = script.register_read(0x1_0000);
    let answers = script.replay_on(memory);
    assert_eq!([config_address, smram, entry].map(|i| answers[i].value), [0; 3]);
    assert_eq!(answers[stays].value, 0x1234);
}
