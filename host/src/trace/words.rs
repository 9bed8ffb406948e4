//! Register values and faults of records in words.

use super::{names, numbers};
use crate::record::{Kind, Record};
use crate::reference::{Fence, Lsmm, Smram};
use std::ops::Range;

/// SMRAM's fields: `graphics on, 512 KiB taken; TSEG 1 MiB; A0000h-BFFFFh for management mode; locked`.
///
/// ```
/// use mitrophel::{reference::Smram, trace::words};
///
/// assert_eq!(words::smram(Smram(0x62)), "graphics on, nothing taken; TSEG 512 KiB; HSEG; locked");
/// ```
pub fn smram(smram: Smram) -> String {
    let mut parts = vec![match (smram.graphics_on(), smram.taken_bytes()) {
        (false, _) => "graphics off".to_string(),
        (true, 0) => "graphics on, nothing taken".to_string(),
        (true, taken) => format!("graphics on, {} taken", numbers::bytes(taken.into())),
    }];
    if smram.tseg_bytes() != 0 {
        parts.push(format!("TSEG {}", numbers::bytes(smram.tseg_bytes().into())));
    }
    if smram.hseg_acts() {
        parts.push("HSEG".to_string());
    }
    match smram.lsmm() {
        Lsmm::Off => {}
        Lsmm::General => parts.push("A0000h-BFFFFh general memory".to_string()),
        Lsmm::ManagementCodeReads => parts.push("A0000h-BFFFFh for management code reads".to_string()),
        Lsmm::ManagementAll => parts.push("A0000h-BFFFFh for management mode".to_string()),
    }
    if smram.locked() {
        parts.push("locked".to_string());
    }
    if smram.0 & 1 != 0 {
        parts.push("error bit set".to_string());
    }
    parts.join("; ")
}

/// The fields of PM_CS (device 1 register E0, two bytes) that an access at this register has: the power state in bits
/// 1:0, PME enable in bit 8. `value` is what was read or written there.
///
/// ```
/// use mitrophel::trace::words;
///
/// assert_eq!(words::power(0xE0, 2, 0x0103).as_deref(), Some("power state D3, PME enabled"));
/// assert_eq!(words::power(0xE0, 1, 0x00).as_deref(), Some("power state D0"));
/// assert_eq!(words::power(0xE1, 1, 0x01).as_deref(), Some("PME enabled"));
/// assert_eq!(words::power(0xE2, 2, 0x0000), None);
/// ```
pub fn power(at: u32, width: u8, value: u32) -> Option<String> {
    let enable = |bit: u32| if value >> bit & 1 != 0 { "PME enabled" } else { "PME not enabled" };
    match (at, width) {
        (0xE0, 1) => Some(power_state(value).to_string()),
        (0xE0, 2 | 4) => Some(format!("{}, {}", power_state(value), enable(8))),
        (0xE1, 1 | 2) => Some(enable(0).to_string()),
        _ => None,
    }
}

/// "Only 00 and 11 are supported" (request 3 of document 02).
fn power_state(value: u32) -> &'static str {
    match value & 3 {
        0b00 => "power state D0",
        0b01 => "unsupported power state 01",
        0b10 => "unsupported power state 10",
        _ => "power state D3",
    }
}

/// The power state in what is written at device 1 register E0, if it is discarded: "a write touching that byte with 01 or
/// 10 leaves the two bits" (request 3 of document 02).
///
/// ```
/// use mitrophel::trace::words;
///
/// assert_eq!(words::discarded_power_state(0x0101).as_deref(), Some("unsupported power state 01 discarded"));
/// assert_eq!(words::discarded_power_state(0x0103), None);
/// ```
pub fn discarded_power_state(data: u32) -> Option<String> {
    matches!(data & 3, 0b01 | 0b10).then(|| format!("{} discarded", power_state(data)))
}

/// The addresses that PAMR steers: C0000h-FFFFFh, in four segments of 64 KiB (request 8 of document 02).
///
/// ```
/// use mitrophel::trace::words;
///
/// assert_eq!((words::SHADOW.start, words::SHADOW.end), (0xC_0000, 0x10_0000));
/// ```
pub const SHADOW: Range<u32> = 0xC_0000..0x10_0000;

/// The length of a segment that PAMR steers.
///
/// ```
/// use mitrophel::trace::words;
///
/// assert_eq!(4 * words::SEGMENT_BYTES, words::SHADOW.end - words::SHADOW.start);
/// ```
pub const SEGMENT_BYTES: u32 = 64 << 10;

/// The addresses of the hole that FDHC's bit 7 makes: F00000h-FFFFFFh (request 8 of document 02).
///
/// ```
/// use mitrophel::trace::words;
///
/// assert_eq!(words::HOLE.end, 16 << 20);
/// ```
pub const HOLE: Range<u32> = 0xF0_0000..0x100_0000;

/// The first address of the segment that has an address in [`SHADOW`], and the bit of PAMR that decides there: the low
/// one of a pair for reads, the high one for writes.
///
/// ```
/// use mitrophel::trace::words;
///
/// assert_eq!(words::segment(0xC_ABCD, false), (0xC_0000, 0));
/// assert_eq!(words::segment(0xF_FFFF, true), (0xF_0000, 7));
/// ```
pub fn segment(address: u32, write: bool) -> (u32, u32) {
    let number = address.wrapping_sub(SHADOW.start) / SEGMENT_BYTES;
    (address - address % SEGMENT_BYTES, 2 * number + u32::from(write))
}

/// PAMR's fields: what reaches memory in C0000h-FFFFFh.
///
/// ```
/// use mitrophel::trace::words;
///
/// assert_eq!(words::pamr(0x00), "C0000h-FFFFFh to the hub");
/// assert_eq!(words::pamr(0xFF), "C0000h-FFFFFh reads and writes memory");
/// assert_eq!(words::pamr(0x85), "C0000h-DFFFFh reads memory; F0000h-FFFFFh writes memory; else hub");
/// ```
pub fn pamr(pamr: u8) -> String {
    let mut runs: Vec<(Range<u32>, u8)> = Vec::new();
    for (number, first) in SHADOW.step_by(SEGMENT_BYTES as usize).enumerate() {
        let (pair, end) = (pamr >> (2 * number) & 3, first + SEGMENT_BYTES);
        match runs.last_mut() {
            Some((run, own)) if *own == pair => run.end = end,
            _ => runs.push((first..end, pair)),
        }
    }
    let told = |(run, pair): &(Range<u32>, u8)| {
        let verb = match pair {
            0b01 => "reads",
            0b10 => "writes",
            0b11 => "reads and writes",
            _ => return None,
        };
        Some(format!("{} {verb} memory", range(run)))
    };
    let mut parts: Vec<String> = runs.iter().filter_map(told).collect();
    match parts.is_empty() {
        true => format!("{} to the hub", range(&SHADOW)),
        false => {
            parts.extend((pamr != 0xFF).then(|| "else hub".to_string()));
            parts.join("; ")
        }
    }
}

/// The first and the last address of a range.
fn range(range: &Range<u32>) -> String {
    format!("{:X}h-{:X}h", range.start, range.end - 1)
}

/// FDHC's bit 7, where the length of memory is not known.
///
/// ```
/// use mitrophel::trace::words;
///
/// assert_eq!([true, false].map(words::hole), ["hole at F00000h-FFFFFFh", "no hole"]);
/// ```
pub const fn hole(on: bool) -> &'static str {
    match on {
        true => "hole at F00000h-FFFFFFh",
        false => "no hole",
    }
}

/// The same where ordinary memory ends at U: "The hole acts only on addresses below U" (request 8 of document 02).
///
/// ```
/// use mitrophel::trace::words;
///
/// assert_eq!(words::hole_below(true, 0x200_0000), "hole at F00000h-FFFFFFh");
/// assert_eq!(words::hole_below(true, 0xF8_0000), "hole at F00000h-FFFFFFh, acts only below U, F80000h");
/// assert_eq!(words::hole_below(true, 0x80_0000), "hole at F00000h-FFFFFFh, acts nowhere: U is 800000h");
/// assert_eq!(words::hole_below(false, 0x80_0000), "no hole");
/// ```
pub fn hole_below(on: bool, usable_top: u32) -> String {
    let hole = hole(on);
    if !on || usable_top >= HOLE.end {
        hole.to_string()
    } else if usable_top > HOLE.start {
        format!("{hole}, acts only below U, {usable_top:X}h")
    } else {
        format!("{hole}, acts nowhere: U is {usable_top:X}h")
    }
}

/// What PAMR and FDHC (device 0 registers 51 and 58, one byte each) hold, as far as an access at this register has them.
/// `value` is what was read or written there.
///
/// ```
/// use mitrophel::trace::words;
///
/// assert_eq!(words::shadow(0x51, 1, 0x03).as_deref(), Some("C0000h-CFFFFh reads and writes memory; else hub"));
/// assert_eq!(words::shadow(0x50, 2, 0xFF00).as_deref(), Some("C0000h-FFFFFh reads and writes memory"));
/// assert_eq!(words::shadow(0x58, 1, 0x80).as_deref(), Some("hole at F00000h-FFFFFFh"));
/// assert_eq!(words::shadow(0x50, 1, 0xFF), None);
/// ```
pub fn shadow(at: u32, width: u8, value: u32) -> Option<String> {
    match (at, width) {
        (0x50, 2 | 4) => Some(pamr((value >> 8) as u8)),
        (0x51, 1 | 2) => Some(pamr(value as u8)),
        (0x58, 1 | 2 | 4) => Some(hole(value & 0x80 != 0).to_string()),
        _ => None,
    }
}

/// A fence register's fields, good or ill-formed.
///
/// ```
/// use mitrophel::{reference::Fence, trace::words};
///
/// assert_eq!(words::fence(Fence(0x21)), "512 KiB at 0h, pitch 512");
/// ```
pub fn fence(fence: Fence) -> String {
    if fence.0 & 1 == 0 {
        return "not valid".to_string();
    }
    if let Some(reason) = ill_formed(fence) {
        return format!("ill-formed: {reason}");
    }
    let size = numbers::bytes(fence_size(fence).into());
    format!("{size} at {:X}h, pitch {}", fence_start(fence), 128 << (fence.0 >> 4 & 7))
}

/// "Ill-formed: size 7, pitch 6 or 7, walk 1, start no multiple of the size."
///
/// ```
/// use mitrophel::{reference::Fence, trace::words};
///
/// assert_eq!(words::ill_formed(Fence(0x61)).as_deref(), Some("pitch code 6"));
/// assert_eq!(words::ill_formed(Fence(0x21)), None);
/// ```
pub fn ill_formed(fence: Fence) -> Option<String> {
    let (size, pitch) = (fence.0 >> 8 & 7, fence.0 >> 4 & 7);
    if size == 7 {
        Some("size code 7".to_string())
    } else if pitch >= 6 {
        Some(format!("pitch code {pitch}"))
    } else if fence.0 >> 12 & 1 != 0 {
        Some("walk bit 1".to_string())
    } else if !fence_start(fence).is_multiple_of(fence_size(fence)) {
        let size = numbers::bytes(fence_size(fence).into());
        Some(format!("start {:X}h is no multiple of its size, {size}", fence_start(fence)))
    } else {
        None
    }
}

fn fence_start(fence: Fence) -> u32 {
    fence.0 & 0x03F8_0000
}

/// For size codes 0 to 6.
fn fence_size(fence: Fence) -> u32 {
    (512 << 10) << (fence.0 >> 8 & 7)
}

/// A table entry's fields.
///
/// ```
/// use mitrophel::trace::words;
///
/// assert_eq!(words::entry(0x000A_0001), "page A0000h");
/// assert_eq!(words::entry(0x000A_0003), "display cache page A0000h");
/// ```
pub fn entry(word: u32) -> String {
    let page = entry_page(word);
    match (word & 1, entry_kind(word)) {
        (0, _) => "not valid".to_string(),
        (_, 0 | 3) => format!("page {page:X}h"),
        (_, 1) => format!("display cache page {page:X}h"),
        _ => "type 10".to_string(),
    }
}

/// What bit 0 of DRT says of the display cache: "bit 0 of 3000h at 0 means type 01 is code 5" (request 11 of document 02).
///
/// ```
/// use mitrophel::trace::words;
///
/// assert_eq!([true, false].map(words::display), ["on: DRT bit 0 is 1", "off: DRT bit 0 is 0"]);
/// ```
pub const fn display(on: bool) -> &'static str {
    match on {
        true => "on: DRT bit 0 is 1",
        false => "off: DRT bit 0 is 0",
    }
}

/// The page that a table entry names: "page 29:12".
///
/// ```
/// use mitrophel::trace::words;
///
/// assert_eq!(words::entry_page(0xC00A_0001), 0xA_0000);
/// ```
pub fn entry_page(word: u32) -> u32 {
    word & 0x3FFF_F000
}

/// A table entry's "type 2:1 (00, 11 main memory; 01 display cache)".
///
/// ```
/// use mitrophel::trace::words;
///
/// assert_eq!(words::entry_kind(0x000A_0003), 0b01);
/// ```
pub fn entry_kind(word: u32) -> u32 {
    word >> 1 & 3
}

/// The value of CF8h in words: what CFCh then reaches.
///
/// ```
/// use mitrophel::trace::words;
///
/// assert_eq!(words::selection(0x8000_0070), "selects dev0.SMRAM/MISCC");
/// ```
pub fn selection(value: u32) -> String {
    if value & 1 << 31 == 0 {
        return "bit 31 is clear: CFCh goes to the hub".to_string();
    }
    let (bus, device, function) = (value >> 16 & 0xFF, value >> 11 & 0x1F, value >> 8 & 7);
    match (bus, device, function) {
        (0, 0 | 1, 0) => format!("selects {}", config_word(device as usize, value & 0xFC)),
        _ => format!("selects bus {bus}, device {device}, function {function}: the hub's"),
    }
}

/// The configuration registers of one aligned word: `dev0.SMRAM`, or `dev0.70h` where no name starts there.
fn config_word(device: usize, at: u32) -> String {
    let rows = names::DEVICES[device & 1].iter();
    let names: Vec<&str> = rows.filter(|row| row.at & 0xFC == at).map(|row| row.name).collect();
    match names.as_slice() {
        [] => format!("dev{device}.{at:02X}h"),
        names => format!("dev{device}.{}", names.join("/")),
    }
}

/// What breaks the layout of a record that [`Record::keeps_layout`] says breaks it.
///
/// ```
/// use mitrophel::{trace::words, Record};
///
/// let record = Record { reserved: 5, ..Record::reset() };
/// assert_eq!(words::layout_fault(&record), "byte 3 is 05h, not 0");
/// ```
pub fn layout_fault(record: &Record) -> String {
    let Some(kind) = record.kind() else {
        return format!("kind {} is none of 1 to 9", record.kind);
    };
    let whose = format!("kind {} ({kind})", record.kind);
    if record.flags & !Record::MANAGEMENT != 0 {
        format!("flags are {:02X}h, of which only bit 0 may be set", record.flags)
    } else if record.is_management() && !kind.is_processor() {
        format!("{whose} has no management mode")
    } else if record.reserved != 0 {
        format!("byte 3 is {:02X}h, not 0", record.reserved)
    } else if record.tail != 0 {
        format!("bytes 12-15 are {:X}h, not 0", record.tail)
    } else if matches!(kind, Kind::Run | Kind::Reset) && record.width != 0 {
        format!("{whose} has width {}, not 0", record.width)
    } else if matches!(kind, Kind::Run | Kind::Reset) && record.address != 0 {
        format!("{whose} has address {:X}h, not 0", record.address)
    } else if matches!(kind, Kind::IoRead | Kind::IoWrite) && record.address > 0xFFFF {
        format!("port {:X}h is above FFFFh", record.address)
    } else {
        format!("{whose} has data {:X}h, not 0", record.data)
    }
}

/// What is wrong with the width of a record that code 2 refuses.
///
/// ```
/// use mitrophel::{trace::words, Record};
///
/// let record = Record::read(0x1000, 3, false);
/// assert_eq!(words::width_fault(&record), "width 3 is none of 1, 2 and 4");
/// ```
pub fn width_fault(record: &Record) -> String {
    match record.width {
        1 => "1 byte".to_string(),
        2 | 4 => format!("{} bytes at {:X}h cross an aligned 4-byte word", record.width, record.address),
        width => format!("width {width} is none of 1, 2 and 4"),
    }
}

#[cfg(test)]
mod tests {
    use super::*;

    #[test]
    fn smram_is_said_in_words() {
        assert_eq!(
            smram(Smram(0xBE)),
            "graphics on, 512 KiB taken; TSEG 1 MiB; A0000h-BFFFFh for management mode; locked"
        );
        assert_eq!(smram(Smram(0x00)), "graphics off");
        assert_eq!(smram(Smram(0x51)), "graphics on, nothing taken; HSEG; error bit set");
        assert_eq!(smram(Smram(0x44)), "graphics on, nothing taken; A0000h-BFFFFh general memory");
    }

    #[test]
    fn pm_cs_is_said_in_words_as_far_as_an_access_has_it() {
        for (state, words) in
            ["power state D0", "unsupported power state 01", "unsupported power state 10", "power state D3"]
                .into_iter()
                .enumerate()
        {
            for enable in 0..2 {
                let value = 0xFFFF_FEFC | enable << 8 | state as u32;
                let pme = if enable == 0 { "PME not enabled" } else { "PME enabled" };
                assert_eq!(power(0xE0, 1, value).as_deref(), Some(words));
                for width in [2, 4] {
                    assert_eq!(power(0xE0, width, value), Some(format!("{words}, {pme}")));
                }
                for width in [1, 2] {
                    assert_eq!(power(0xE1, width, value >> 8).as_deref(), Some(pme));
                }
                let discarded = matches!(state, 1 | 2).then(|| format!("{words} discarded"));
                assert_eq!(discarded_power_state(value), discarded);
            }
        }
        // Other registers, and accesses that are refused.
        for (at, width) in [(0xDE, 2), (0xDF, 1), (0xE0, 0), (0xE0, 3), (0xE1, 4), (0xE2, 1), (0xE2, 2), (0xE3, 1)] {
            assert_eq!(power(at, width, u32::MAX), None, "{width} bytes at {at:X}h");
        }
    }

    /// Each value of PAMR names each segment with a bit set once, and says what happens to all others.
    #[test]
    fn pamr_is_said_in_words() {
        assert_eq!(
            pamr(0xB1),
            "C0000h-CFFFFh reads memory; E0000h-EFFFFh reads and writes memory; F0000h-FFFFFh writes memory; else hub"
        );
        assert_eq!(pamr(0x14), "D0000h-EFFFFh reads memory; else hub");
        for value in 0..=0xFF_u8 {
            let words = pamr(value);
            for address in SHADOW.step_by(SEGMENT_BYTES as usize) {
                let [read, write] = [false, true].map(|write| {
                    let (first, bit) = segment(address + 0xFFFC, write);
                    assert_eq!(first, address);
                    value >> bit & 1 != 0
                });
                let run = words.split("; ").find_map(|part| {
                    let (range, verb) = part.split_once(' ')?;
                    let (first, last) = range.split_once('-')?;
                    let number = |text: &str| u32::from_str_radix(text.trim_end_matches('h'), 16).ok();
                    (number(first)?..=number(last)?).contains(&address).then_some(verb)
                });
                let expected = match (read, write) {
                    (false, false) => None,
                    (true, false) => Some("reads memory"),
                    (false, true) => Some("writes memory"),
                    (true, true) => Some("reads and writes memory"),
                };
                assert_eq!(run.filter(|verb| *verb != "to the hub"), expected, "{value:02X}h, {address:X}h: {words}");
            }
            assert_eq!(words.ends_with("hub"), value != 0xFF, "{words}");
        }
    }

    #[test]
    fn pamr_and_fdhc_are_said_in_words_as_far_as_an_access_has_them() {
        for value in [0x00, 0x31, 0x80, 0xFF] {
            let noise = 0x5A5A_0000;
            for (at, width, shifted) in [(0x51, 1, value), (0x51, 2, noise | value), (0x50, 2, value << 8 | 0x5A)] {
                assert_eq!(shadow(at, width, shifted), Some(pamr(value as u8)));
            }
            assert_eq!(shadow(0x50, 4, noise | value << 8), Some(pamr(value as u8)));
            for width in [1, 2, 4] {
                assert_eq!(shadow(0x58, width, noise | value).as_deref(), Some(hole(value & 0x80 != 0)));
            }
        }
        // Other registers, and accesses that are refused.
        for (at, width) in [(0x50, 1), (0x50, 3), (0x51, 4), (0x52, 2), (0x53, 1), (0x57, 1), (0x59, 1), (0x5A, 2)] {
            assert_eq!(shadow(at, width, u32::MAX), None, "{width} bytes at {at:X}h");
        }
    }

    /// The words and the reference agree on which fences are ill-formed.
    #[test]
    fn every_ill_formed_fence_has_a_reason() {
        for start in 0..128 {
            for low in 0..0x2000 {
                let fence = Fence(start << 19 | low & 0x1771);
                assert_eq!(ill_formed(fence).is_some(), fence.ill_formed(), "{:X}h", fence.0);
            }
        }
        assert_eq!(super::fence(Fence(0x21)), "512 KiB at 0h, pitch 512");
        assert_eq!(super::fence(Fence(0x0008_0101)), "ill-formed: start 80000h is no multiple of its size, 1 MiB");
    }

    #[test]
    fn selections_name_their_registers() {
        assert_eq!(selection(0x8000_0070), "selects dev0.SMRAM/MISCC");
        assert_eq!(selection(0x8000_0810), "selects dev1.GMADR");
        assert_eq!(selection(0x8000_0040), "selects dev0.40h");
        assert_eq!(selection(0x8003_F800), "selects bus 3, device 31, function 0: the hub's");
        assert_eq!(selection(0x70), "bit 31 is clear: CFCh goes to the hub");
    }
}
