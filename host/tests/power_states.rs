//! Request 3 of document 02, "Power states that do not exist": each of its sentences with the answers it asks for. Every
//! list goes through the call and through the reference, on every board.

mod common;

use common::{reached, refused, replay_both, Script, MIB};
use mitrophel::{Answer, Record, Target};

/// The power states that are supported: D0 and D3.
const SUPPORTED: [u32; 2] = [0b00, 0b11];
const ENABLE: u32 = 0x100;

/// The answers, which are the same on every board.
#[track_caller]
fn replay(script: &Script) -> Vec<Answer> {
    let [first, others @ ..] = [0, 1, 2, 3].map(|board| replay_both(board, &mut vec![0; 8 * MIB], &script.records));
    assert!(others.iter().all(|other| *other == first), "the boards differ");
    first
}

/// Device 1 is there.
fn scene() -> Script {
    let mut script = Script::new();
    script.smram(0x40);
    script
}

/// The answer to an access at device 1's register E0h.
fn register(value: u32) -> Answer {
    reached(Target::Register, 0x1E0, value)
}

/// Writes the state and bit 8 that are to be held; the state is a supported one.
fn hold(script: &mut Script, held: u32) {
    script.config_write(1, 0xE0, 2, held);
}

/// A write at E0h, then the register in 4, 2 and 1 bytes, and its high byte: their numbers.
fn write(script: &mut Script, width: u8, data: u32) -> [usize; 5] {
    [
        script.config_write(1, 0xE0, width, data),
        script.config_read(1, 0xE0, 4),
        script.config_read(1, 0xE0, 2),
        script.config_read(1, 0xE0, 1),
        script.config_read(1, 0xE1, 1),
    ]
}

/// The answers to these once the register holds `after`.
fn writes_and_reads(after: u32) -> [Answer; 5] {
    let high = reached(Target::Register, 0x1E1, after >> 8);
    [register(0), register(after), register(after), register(after & 0xFF), high]
}

/// "Only 00 and 11 are supported. So a write touching that byte with 01 or 10 leaves the two bits; the other bits of the
/// same write still act.": each state written where each is held, in each width, with bit 8 both ways in both, and the
/// read-only bits written 0 and 1. SMRAM's lock, which does not hold this register, is set or not.
#[test]
fn every_state_written_where_each_is_held() {
    // State held, state written, state afterwards.
    let states = [
        (0b00, 0b00, 0b00),
        (0b00, 0b01, 0b00),
        (0b00, 0b10, 0b00),
        (0b00, 0b11, 0b11),
        (0b11, 0b00, 0b00),
        (0b11, 0b01, 0b11),
        (0b11, 0b10, 0b11),
        (0b11, 0b11, 0b11),
    ];
    let mut script = scene();
    let mut asked = Vec::new();
    for smram in [0x40, 0xC2] {
        script.smram(smram);
        for (held, written, state) in states {
            for (held_enable, enable) in [(0, 0), (0, ENABLE), (ENABLE, 0), (ENABLE, ENABLE)] {
                for other in [0, 0xFFFF_FEFC] {
                    // One byte does not reach bit 8.
                    for (width, after) in [(1, held_enable | state), (2, enable | state), (4, enable | state)] {
                        hold(&mut script, held_enable | held);
                        let before = script.config_read(1, 0xE0, 4);
                        let numbers = write(&mut script, width, other | enable | written);
                        asked.push((before, held_enable | held, numbers, after));
                    }
                }
            }
        }
    }
    let answers = replay(&script);
    assert_eq!(asked.len(), 2 * 8 * 4 * 2 * 3);
    for (before, held, numbers, after) in asked {
        let record = script.records[numbers[0]];
        assert_eq!(answers[before], register(held));
        assert_eq!(numbers.map(|i| answers[i]), writes_and_reads(after), "{record}, where {held:X}h is held");
    }
}

/// "an unsupported state is discarded while the write completes": the write is answered as any other, and nothing else
/// changes in either device's space.
#[test]
fn the_write_completes() {
    for held in SUPPORTED {
        for (width, data) in [(1, 0b01), (1, 0b10), (2, 0b01), (2, 0b10), (4, 0b01), (4, 0b10)] {
            let mut script = Script::new();
            script.graphics();
            hold(&mut script, held);
            let space = |script: &mut Script| {
                let first = script.records.len();
                for device in [0, 1] {
                    for register in (0..256).step_by(4) {
                        script.config_read(device, register, 4);
                    }
                }
                first..script.records.len()
            };
            let before = space(&mut script);
            let discarded = script.config_write(1, 0xE0, width, data);
            let after = space(&mut script);
            // The device ids differ from board to board.
            for board in 0..4 {
                let answers = replay_both(board, &mut vec![0; 8 * MIB], &script.records);
                assert_eq!(answers[discarded], register(0));
                assert_eq!(
                    answers[before.clone()],
                    answers[after.clone()],
                    "{data:X}h in {width} bytes, board {board}"
                );
            }
        }
    }
}

/// From state to state: what is discarded leaves the last one that was taken, however often.
#[test]
fn the_last_supported_state_stays() {
    let mut script = scene();
    let steps = [
        (0b01, 0b00),
        (0b10, 0b00),
        (0b11, 0b11),
        (0b10, 0b11),
        (0b01, 0b11),
        (0b01, 0b11),
        (0b11, 0b11),
        (0b10, 0b11),
        (0b00, 0b00),
        (0b10, 0b00),
        (0b01, 0b00),
        (0b11, 0b11),
        (0b00, 0b00),
    ];
    let seen = steps.map(|(written, _)| {
        script.config_write(1, 0xE0, 1, written);
        script.config_read(1, 0xE0, 1)
    });
    let answers = replay(&script);
    assert_eq!(seen.map(|i| answers[i].value), steps.map(|(_, state)| state));
}

/// "a write touching that byte": one that begins at E1h, E2h or E3h does not, whatever its data.
#[test]
fn a_write_past_the_byte_leaves_the_state_and_still_acts() {
    let mut script = scene();
    let mut asked = Vec::new();
    for held in [0x000, 0x003, 0x100, 0x103] {
        for data in [0b00, 0b01, 0b10, 0b11, 0x0100, 0x0103, 0xFFFF_FFFD, 0xFFFF_FFFE] {
            for (at, width) in [(0xE1, 1), (0xE1, 2), (0xE2, 1), (0xE2, 2), (0xE3, 1)] {
                hold(&mut script, held);
                let written = script.config_write(1, at, width, data);
                let read = script.config_read(1, 0xE0, 4);
                // Bit 0 at E1h is bit 8 of the register.
                let after = if at == 0xE1 { (data & 1) << 8 | held & 0b11 } else { held };
                asked.push((at, written, read, after));
            }
        }
    }
    let answers = replay(&script);
    for (at, written, read, after) in asked {
        let record = script.records[written];
        let expected = [reached(Target::Register, 0x100 + at, 0), register(after)];
        assert_eq!([answers[written], answers[read]], expected, "{record}");
    }
}

/// "This mends 01's row.", which is "E0 0000h, bits 8 and 1:0 plain": each bit of the word written alone, and left out
/// alone.
#[test]
fn each_bit_alone() {
    let mut script = scene();
    let default = script.config_read(1, 0xE0, 4);
    let mut asked = Vec::new();
    for bit in 0..32 {
        hold(&mut script, 0);
        script.config_write(1, 0xE0, 4, 1 << bit);
        let one = script.config_read(1, 0xE0, 4);
        hold(&mut script, 0x103);
        script.config_write(1, 0xE0, 4, !(1 << bit));
        let zero = script.config_read(1, 0xE0, 4);
        asked.push((bit, one, zero));
    }
    let answers = replay(&script);
    assert_eq!(answers[default], register(0));
    for (bit, one, zero) in asked {
        let expected = match bit {
            8 => [0x100, 0x003],
            // Bit 0 or 1 alone is 01 or 10, and so is the other without it.
            _ => [0x000, 0x103],
        };
        assert_eq!([answers[one].value, answers[zero].value], expected, "bit {bit}");
    }
}

/// Reset gives 0000h, and an unsupported state leaves that.
#[test]
fn reset_gives_state_00() {
    let mut script = scene();
    hold(&mut script, 0x103);
    let before = script.config_read(1, 0xE0, 4);
    script.push(Record::reset());
    script.smram(0x40);
    let after = script.config_read(1, 0xE0, 4);
    script.config_write(1, 0xE0, 4, 0b10);
    let discarded = script.config_read(1, 0xE0, 4);
    let answers = replay(&script);
    assert_eq!([before, after, discarded].map(|i| answers[i].value), [0x103, 0, 0]);
}

/// "device 1 too while GMS is not 00": while it is hidden its register is the hub's, and keeps what it holds.
#[test]
fn a_hidden_device_keeps_its_state() {
    for held in [0x000, 0x003, 0x100, 0x103] {
        let mut script = scene();
        hold(&mut script, held);
        script.smram(0x00);
        let hidden = [0b00, 0b01, 0b10, 0b11].map(|state| script.config_write(1, 0xE0, 4, ENABLE ^ held ^ state));
        let read = script.config_read(1, 0xE0, 4);
        script.smram(0x80);
        let back = script.config_read(1, 0xE0, 4);
        let answers = replay(&script);
        assert_eq!(hidden.map(|i| answers[i]), [reached(Target::Hub, 0xCFC, 0); 4]);
        assert_eq!(answers[read], reached(Target::Hub, 0xCFC, 0));
        assert_eq!(answers[back], register(held));
    }
}

/// "device 1 register E0h": device 0's is unlisted, reads 0 and ignores writes.
#[test]
fn device_0_has_no_power_state() {
    let mut script = scene();
    hold(&mut script, 0x103);
    for data in [0b00, 0b01, 0b10, 0b11, 0xFFFF_FFFF] {
        let written = script.config_write(0, 0xE0, 4, data);
        let read = script.config_read(0, 0xE0, 4);
        let of_device_1 = script.config_read(1, 0xE0, 4);
        let answers = replay(&script);
        assert_eq!([answers[written], answers[read]], [reached(Target::Register, 0xE0, 0); 2], "{data:X}h");
        assert_eq!(answers[of_device_1], register(0x103));
    }
}

/// The rule is E0h's alone: other bytes whose bits 1:0 are plain take 01 and 10.
#[test]
fn other_registers_take_every_value() {
    for value in [0b00, 0b01, 0b10, 0b11] {
        let mut script = scene();
        let read = [(1, 0x04), (1, 0x2C), (1, 0x3C), (0, 0x80), (0, 0x92)].map(|(device, register)| {
            script.config_write(device, register, 1, value);
            script.config_read(device, register, 1)
        });
        let answers = replay(&script);
        assert_eq!(read.map(|i| answers[i].value), [value | 0b100, value, value, value, value]);
    }
}

/// "2 | ... width not 1, 2, 4, or the access crosses an aligned 4-byte word": refused before the state is looked at.
#[test]
fn a_write_that_is_not_whole_in_the_word_is_code_2() {
    for held in [0x000, 0x103] {
        let mut script = scene();
        hold(&mut script, held);
        let first = script.records.len();
        // CF8h is at E0h.
        for (port, width) in [(0xCFD, 4), (0xCFE, 4), (0xCFF, 2), (0xCFF, 4), (0xCFC, 0), (0xCFC, 3), (0xCFC, 5)] {
            for state in [0b00, 0b01, 0b10, 0b11] {
                script.push(Record::io_write(port, width, ENABLE ^ held & ENABLE | state));
            }
        }
        let read = script.config_read(1, 0xE0, 4);
        let answers = replay(&script);
        assert_eq!(answers[first..first + 7 * 4], [refused(2); 7 * 4]);
        assert_eq!(answers[read], register(held));
    }
}

/// Document 01 has nothing that looks at the power state: registers, window and parser answer in D3 as in D0.
#[test]
fn nothing_looks_at_the_state() {
    let [in_d0, in_d3] = SUPPORTED.map(|state| {
        let mut script = Script::new();
        script.graphics();
        hold(&mut script, state);
        let first = script.register_write(0x2020, 0x20_0001);
        script.entry(0, 0x0010_0001);
        script.push(Record::write(Script::WINDOW + 0x10, 4, 0x1234_5678, false));
        script.window_read(0x10, 4);
        script.register_read(0x1_0000);
        script.ring(0, 1, 0, 0x10);
        script.run(u32::MAX);
        script.config_write(1, 0x3C, 1, 0x5A);
        script.config_read(1, 0x3C, 1);
        replay(&script)[first..].to_vec()
    });
    assert_eq!(in_d0[3], reached(Target::Memory, 0x10_0010, 0x1234_5678));
    assert_eq!(in_d0[9].count, 4);
    assert_eq!(in_d3, in_d0);
}
