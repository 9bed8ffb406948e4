//! The names of ports, configuration registers and memory-mapped registers.
//!
//! The configuration registers' are those of the datasheet's two tables, the memory-mapped ones'
//! those of the programmer's manual.

use crate::board::Board;
use crate::reference::{Gmch, Observer};

/// The bytes at MMADR.
pub const REGISTERS_BYTES: u32 = 512 << 10;

/// The first table entry's offset among the memory-mapped registers, and one past the last one's.
const ENTRIES: std::ops::Range<u32> = 0x1_0000..0x2_0000;

/// PGTBL_CTL's offset among the memory-mapped registers: bit 0 has translation on, and on a board whose translation
/// table is in main memory bits 31:12 are where.
pub const PGTBL_CTL: u32 = 0x2020;

/// DRT's offset among the memory-mapped registers, which DC100 boards alone have: bit 0 has the display cache on (request
/// 11 of document 02).
pub const DRT: u32 = 0x3000;

/// The entries of the translation table.
pub const ENTRY_COUNT: u32 = (ENTRIES.end - ENTRIES.start) / 4;

/// Ports with a name.
const PORTS: [(&str, u32); 2] = [("CONFIG_ADDRESS", CONFIG_ADDRESS), ("CONFIG_DATA", CONFIG_DATA)];

/// The port that selects a configuration register.
pub const CONFIG_ADDRESS: u32 = 0xCF8;
/// The first of the four ports that reach the register selected.
pub const CONFIG_DATA: u32 = 0xCFC;

/// A register with a fixed place and size.
///
/// ```
/// use mitrophel::trace::names;
///
/// let fence = names::mapped_named("FENCE1").expect("there are eight");
/// assert_eq!((fence.at, fence.bytes, fence.name), (0x2004, 4, "FENCE1"));
/// ```
#[derive(Clone, Copy, Debug, PartialEq, Eq)]
pub struct Register {
    /// Its offset.
    pub at: u32,
    /// Its size.
    pub bytes: u8,
    /// In capitals.
    pub name: &'static str,
}

const fn register(at: u32, bytes: u8, name: &'static str) -> Register {
    Register { at, bytes, name }
}

/// The configuration registers of device 0.
const DEVICE_0: &[Register] = &[
    register(0x00, 2, "VID"),
    register(0x02, 2, "DID"),
    register(0x04, 2, "PCICMD"),
    register(0x06, 2, "PCISTS"),
    register(0x08, 1, "RID"),
    register(0x0A, 1, "SUBC"),
    register(0x0B, 1, "BCC"),
    register(0x0D, 1, "MLT"),
    register(0x0E, 1, "HDR"),
    register(0x2C, 2, "SVID"),
    register(0x2E, 2, "SID"),
    register(0x34, 1, "CAPPTR"),
    register(0x50, 1, "GMCHCFG"),
    register(0x51, 1, "PAMR"),
    register(0x52, 1, "DRP"),
    register(0x53, 1, "DRAMT"),
    register(0x58, 1, "FDHC"),
    register(0x70, 1, "SMRAM"),
    register(0x72, 2, "MISCC"),
    register(0x80, 1, "MISCC2"),
    register(0x92, 2, "BUFF_SC"),
];

/// The configuration registers of device 1.
const DEVICE_1: &[Register] = &[
    register(0x00, 2, "VID"),
    register(0x02, 2, "DID"),
    register(0x04, 2, "PCICMD"),
    register(0x06, 2, "PCISTS"),
    register(0x08, 1, "RID"),
    register(0x09, 1, "PI"),
    register(0x0A, 1, "SUBC"),
    register(0x0B, 1, "BCC"),
    register(0x0C, 1, "CLS"),
    register(0x0D, 1, "MLT"),
    register(0x0E, 1, "HDR"),
    register(0x0F, 1, "BIST"),
    register(0x10, 4, "GMADR"),
    register(0x14, 4, "MMADR"),
    register(0x2C, 2, "SVID"),
    register(0x2E, 2, "SID"),
    register(0x30, 4, "ROMADR"),
    register(0x34, 1, "CAPPOINT"),
    register(0x3C, 1, "INTRLINE"),
    register(0x3D, 1, "INTRPIN"),
    register(0x3E, 1, "MINGNT"),
    register(0x3F, 1, "MAXLAT"),
    register(0xDC, 2, "PM_CAPID"),
    register(0xDE, 2, "PM_CAP"),
    register(0xE0, 2, "PM_CS"),
];

/// The configuration registers of the two devices that are ours.
pub const DEVICES: [&[Register]; 2] = [DEVICE_0, DEVICE_1];

/// The listed memory-mapped registers but the table's. The last three are listed on boards with a display cache only.
pub const MAPPED: &[Register] = &[
    register(0x2000, 4, "FENCE0"),
    register(0x2004, 4, "FENCE1"),
    register(0x2008, 4, "FENCE2"),
    register(0x200C, 4, "FENCE3"),
    register(0x2010, 4, "FENCE4"),
    register(0x2014, 4, "FENCE5"),
    register(0x2018, 4, "FENCE6"),
    register(0x201C, 4, "FENCE7"),
    register(PGTBL_CTL, 4, "PGTBL_CTL"),
    register(0x2030, 4, "LP_RING_TAIL"),
    register(0x2034, 4, "LP_RING_HEAD"),
    register(0x2038, 4, "LP_RING_START"),
    register(0x203C, 4, "LP_RING_LENGTH"),
    register(0x20A0, 2, "IER"),
    register(0x20A4, 2, "IIR"),
    register(0x20A8, 2, "IMR"),
    register(0x20AC, 2, "ISR"),
    register(DRT, 1, "DRT"),
    register(0x3001, 1, "DRAMCL"),
    register(0x3002, 1, "DRAMCH"),
];

/// The register of a device with this name, in letters of either case.
///
/// ```
/// use mitrophel::trace::names;
///
/// assert_eq!(names::config_named(0, "smram").map(|smram| smram.at), Some(0x70));
/// assert_eq!(names::config_named(0, "PAMR").map(|pamr| (pamr.at, pamr.bytes)), Some((0x51, 1)));
/// assert_eq!(names::config_named(0, "FDHC").map(|hole| (hole.at, hole.bytes)), Some((0x58, 1)));
/// assert_eq!(names::config_named(1, "SMRAM"), None);
/// ```
pub fn config_named(device: usize, name: &str) -> Option<Register> {
    find(DEVICES.get(device)?, name)
}

/// A configuration register in words, `dev0.SMRAM` or `dev0.71h`, with whether it is a whole named one.
///
/// ```
/// use mitrophel::trace::names;
///
/// assert_eq!(names::config_register(0, 0x70, 1), ("dev0.SMRAM".to_string(), true));
/// assert_eq!(names::config_register(0, 0x70, 4), ("dev0.70h".to_string(), false));
/// ```
pub fn config_register(device: usize, at: u32, width: u8) -> (String, bool) {
    let rows = DEVICES.get(device).copied().unwrap_or_default();
    match rows.iter().find(|row| row.at == at && row.bytes == width) {
        Some(row) => (format!("dev{device}.{}", row.name), true),
        None => (format!("dev{device}.{at:02X}h"), false),
    }
}

/// The memory-mapped register with this name, in letters of either case; the table's entries have none.
///
/// ```
/// use mitrophel::trace::names;
///
/// assert_eq!(names::mapped_named("PGTBL_CTL").map(|control| control.at), Some(0x2020));
/// ```
pub fn mapped_named(name: &str) -> Option<Register> {
    find(MAPPED, name)
}

fn find(registers: &[Register], name: &str) -> Option<Register> {
    registers.iter().find(|row| row.name.eq_ignore_ascii_case(name)).copied()
}

/// The register that has the byte at this offset, listed on some board: its name, offset and size.
///
/// ```
/// use mitrophel::trace::names;
///
/// assert_eq!(names::mapped_at(0x20A1), Some(("IER".to_string(), 0x20A0, 2)));
/// assert_eq!(names::mapped_at(0x1_0028), Some(("GTT[10]".to_string(), 0x1_0028, 4)));
/// assert_eq!(names::mapped_at(0x3002), Some(("DRAMCH".to_string(), 0x3002, 1)));
/// ```
pub fn mapped_at(offset: u32) -> Option<(String, u32, u8)> {
    if let Some(entry) = entry_at(offset) {
        return Some((format!("GTT[{entry}]"), entry_offset(entry), 4));
    }
    let holds = |row: &&Register| (row.at..row.at + u32::from(row.bytes)).contains(&offset);
    MAPPED.iter().find(holds).map(|row| (row.name.to_string(), row.at, row.bytes))
}

/// The same, listed on this board: 3000h to 3002h are "listed for kinds 1 and 3 only" (request 11 of document 02).
///
/// ```
/// use mitrophel::{trace::names, Board};
///
/// let listed = Board::ALL.map(|board| names::listed_at(board, 0x3001).is_some());
/// assert_eq!(listed, [false, true, false, true]);
/// ```
pub fn listed_at(board: Board, offset: u32) -> Option<(String, u32, u8)> {
    let display = (DRT..=0x3002).contains(&offset);
    mapped_at(offset).filter(|_| !display || board.display_bytes() != 0)
}

/// The number of the table entry that has the byte at this offset.
///
/// ```
/// use mitrophel::trace::names;
///
/// assert_eq!(names::entry_at(0x1_0005), Some(1));
/// assert_eq!(names::entry_at(0x2_0000), None);
/// ```
pub fn entry_at(offset: u32) -> Option<u32> {
    ENTRIES.contains(&offset).then(|| (offset - ENTRIES.start) / 4)
}

/// The offset of a table entry among the memory-mapped registers.
///
/// ```
/// use mitrophel::trace::names;
///
/// assert_eq!(names::entry_offset(10), 0x1_0028);
/// ```
pub fn entry_offset(entry: u32) -> u32 {
    ENTRIES.start + 4 * entry
}

/// The port with this name, in letters of either case.
///
/// ```
/// use mitrophel::trace::names;
///
/// assert_eq!(names::port_named("config_data"), Some(0xCFC));
/// ```
pub fn port_named(name: &str) -> Option<u32> {
    PORTS.iter().find(|(own, _)| own.eq_ignore_ascii_case(name)).map(|(_, port)| *port)
}

/// A port in words: `CONFIG_DATA+2` or `CF9h`.
///
/// ```
/// use mitrophel::trace::names;
///
/// assert_eq!(names::port(0xCFE), "CONFIG_DATA+2");
/// ```
pub fn port(port: u32) -> String {
    match port {
        CONFIG_ADDRESS => "CONFIG_ADDRESS".to_string(),
        CONFIG_DATA => "CONFIG_DATA".to_string(),
        0xCFD..=0xCFF => format!("CONFIG_DATA+{}", port - CONFIG_DATA),
        _ => format!("{port:X}h"),
    }
}

/// The instructions of the ring parser, by their bits 28:23.
const INSTRUCTIONS: [(&str, u32); 3] = [("NOOP", 0x00), ("USER_INTERRUPT", 0x02), ("FLUSH", 0x04)];

/// The word of the ring parser's instruction with this name, in letters of either case, with Intel's `MI_`
/// before it or not.
///
/// ```
/// use mitrophel::trace::names;
///
/// assert_eq!(names::instruction_named("MI_USER_INTERRUPT"), Some(0x0100_0000));
/// assert_eq!(names::instruction_named("flush"), Some(0x0200_0000));
/// ```
pub fn instruction_named(name: &str) -> Option<u32> {
    let prefixed = name.get(..3).is_some_and(|start| start.eq_ignore_ascii_case("MI_"));
    let name = if prefixed { &name[3..] } else { name };
    INSTRUCTIONS.iter().find(|(own, _)| own.eq_ignore_ascii_case(name)).map(|(_, opcode)| opcode << 23)
}

/// Whether a trace knows this name: a register's, a port's, a range's or an instruction's.
pub(super) fn is_known(name: &str) -> bool {
    let other = ["WINDOW", "MMIO", "GTT", "DEV0", "DEV1"].iter().any(|own| own.eq_ignore_ascii_case(name));
    let configuration = (0..DEVICES.len()).any(|device| config_named(device, name).is_some());
    let named = mapped_named(name).is_some() || port_named(name).is_some() || instruction_named(name).is_some();
    other || configuration || named
}

/// The value of CF8h that selects a configuration register of bus 0, function 0.
///
/// ```
/// use mitrophel::trace::names;
///
/// assert_eq!(names::selection(0, 0x72), 0x8000_0070);
/// ```
pub fn selection(device: usize, at: u32) -> u32 {
    0x8000_0000 | (device as u32) << 11 | at & 0xFC
}

/// The device and the register (a multiple of 4) that [`selection`] makes this value of.
///
/// ```
/// use mitrophel::trace::names;
///
/// assert_eq!(names::selected(0x8000_0810), Some((1, 0x10)));
/// assert_eq!(names::selected(0x0000_0810), None);
/// ```
pub fn selected(value: u32) -> Option<(usize, u32)> {
    let (device, at) = ((value >> 11 & 1) as usize, value & 0xFC);
    (selection(device, at) == value).then_some((device, at))
}

/// What `WINDOW` and the memory-mapped registers' names stand for at one record of a list.
///
/// ```
/// use mitrophel::trace::names::Bases;
///
/// let bases = Bases { registers: 0xF000_0000, window: 0xC000_0000, window_bytes: 64 << 20 };
/// assert_eq!(bases.register_offset(0xF000_2020), Some(0x2020));
/// assert_eq!(bases.window_offset(0xC000_A000), Some(0xA000));
/// assert_eq!(bases.window_offset(0xC400_0000), None);
/// ```
#[derive(Clone, Copy, Debug, Default, PartialEq, Eq)]
pub struct Bases {
    /// MMADR's base; 0 where it has none yet.
    pub registers: u32,
    /// GMADR's base; 0 where it has none yet.
    pub window: u32,
    /// The window's size.
    pub window_bytes: u32,
}

impl Bases {
    /// As this hub has them.
    pub fn of<O: Observer>(hub: &Gmch<'_, O>) -> Bases {
        Bases { registers: hub.registers_base(), window: hub.window_base(), window_bytes: hub.window_bytes() }
    }

    /// The offset of an address among the memory-mapped registers, if they have a base.
    pub fn register_offset(self, address: u32) -> Option<u32> {
        let offset = address.wrapping_sub(self.registers);
        (self.registers != 0 && offset < REGISTERS_BYTES).then_some(offset)
    }

    /// The offset of an address in the window, if it has a base.
    pub fn window_offset(self, address: u32) -> Option<u32> {
        let offset = address.wrapping_sub(self.window);
        (self.window != 0 && offset < self.window_bytes).then_some(offset)
    }
}

#[cfg(test)]
mod tests {
    use super::*;

    #[test]
    fn every_name_is_found_and_no_two_registers_overlap() {
        for (device, rows) in DEVICES.iter().enumerate() {
            for row in *rows {
                assert_eq!(config_named(device, &row.name.to_lowercase()), Some(*row));
                assert_eq!(config_register(device, row.at, row.bytes), (format!("dev{device}.{}", row.name), true));
            }
            assert!(rows.is_sorted_by(|a, b| a.at + u32::from(a.bytes) <= b.at));
        }
        for row in MAPPED {
            assert_eq!(mapped_named(row.name), Some(*row));
            for byte in 0..u32::from(row.bytes) {
                assert_eq!(mapped_at(row.at + byte), Some((row.name.to_string(), row.at, row.bytes)));
            }
        }
    }

    #[test]
    fn entries_have_their_offsets() {
        assert_eq!(ENTRY_COUNT, 16_384);
        assert_eq!(mapped_at(0x1_0000), Some(("GTT[0]".to_string(), 0x1_0000, 4)));
        assert_eq!(mapped_at(0x1_FFFF), Some(("GTT[16383]".to_string(), 0x1_FFFC, 4)));
        assert_eq!(entry_at(0x2_0000), None);
        for entry in [0, 1, 10, 16_383] {
            assert_eq!(entry_at(entry_offset(entry)), Some(entry));
        }
    }

    #[test]
    fn a_selection_is_undone() {
        for device in [0, 1] {
            for at in (0..256).step_by(4) {
                assert_eq!(selected(selection(device, at)), Some((device, at)));
            }
        }
        for other in [0, 0x70, 0x8000_0071, 0x8100_0070, 0x8001_0070, 0x8000_0170, 0x8000_1070] {
            assert_eq!(selected(other), None, "{other:X}h");
        }
    }
}
