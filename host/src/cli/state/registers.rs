//! The registers by name, with their fields in words where document 01, or a request of document 02 that is in force, gives
//! them a meaning.

use super::Page;
use crate::cli::names::{self, Register};
use crate::cli::pair::Hub;
use crate::cli::survey::translation_on;
use crate::cli::told::Tone;
use crate::cli::{numbers, words};
use mitrophel::{Board, Refusal};

/// "A user interrupt sets identity bit 1".
const USER_INTERRUPT: u32 = 1 << 1;

/// CF8h and the configuration registers of both devices.
pub fn configuration(page: &mut Page, hub: &Hub<'_>, board: Board) {
    page.heading("Configuration registers");
    let selected = hub.config_address();
    page.row(&format!("CF8h  {selected:08X}h"), &words::selection(selected));
    let shown = hub.smram().graphics_on();
    for (device, rows) in names::DEVICES.into_iter().enumerate() {
        let title = match (device, shown) {
            (0, _) => "Device 0, host bridge",
            (_, true) => "Device 1, graphics",
            (_, false) => "Device 1, graphics (hidden while GMS is 00)",
        };
        page.heading(title);
        for row in rows {
            let value = numbers::data(config_value(hub, device, row), row.bytes);
            let left = format!("{:02X}h  {:<8}  {value:>9}", row.at, row.name);
            page.row(&left, &config_words(hub, board, device, row));
        }
    }
}

fn config_value(hub: &Hub<'_>, device: usize, row: &Register) -> u32 {
    let byte = |at: u32| hub.config_byte(device, at as usize).map_or(0, u32::from);
    (0..u32::from(row.bytes)).fold(0, |value, number| value | byte(row.at + number) << (8 * number))
}

fn config_words(hub: &Hub<'_>, board: Board, device: usize, row: &Register) -> String {
    let value = config_value(hub, device, row);
    let memory_on = value & 2 != 0;
    match (device, row.name) {
        (_, "VID") => "Intel".to_string(),
        (_, "DID") => chip(board).to_string(),
        (0, "SMRAM") => words::smram(hub.smram()),
        (0, "PAMR") => words::pamr(hub.pamr()),
        (0, "FDHC") => words::hole_below(hub.hole(), hub.usable_top()),
        (0, "MISCC") => format!("window of {}", numbers::bytes(hub.window_bytes().into())),
        (1, "PCICMD") if hub.graphics_decodes() => "memory enabled: window and registers are on".to_string(),
        (1, "PCICMD") if memory_on => "memory enabled, but graphics is off".to_string(),
        (1, "PCICMD") => "memory not enabled: window and registers are off".to_string(),
        (1, "GMADR") => format!("window at {:X}h", hub.window_base()),
        (1, "MMADR") => format!("registers at {:X}h", hub.registers_base()),
        (1, "PM_CS") => words::power(row.at, row.bytes, value).unwrap_or_default(),
        _ => String::new(),
    }
}

/// The board's chip as Intel writes it.
pub fn chip(board: Board) -> &'static str {
    match board {
        Board::I82810 | Board::I82810Main => "82810",
        Board::Dc100 | Board::Dc100Main => "82810-DC100",
    }
}

/// The memory-mapped registers but the table's.
pub fn mapped(page: &mut Page, hub: &Hub<'_>) {
    page.heading("Memory-mapped registers");
    for &Register { at, bytes, name } in names::MAPPED {
        let Some(value) = hub.register(at) else { continue };
        let left = format!("{at:X}h  {name:<14}  {:>9}", numbers::data(value, bytes));
        let words = mapped_words(hub, name, value);
        let tone = if words.contains("refused") { Tone::Refused } else { Tone::Reached };
        page.toned(&left, &words, tone);
    }
    let up = register(hub, 0x20A0) & register(hub, 0x20A4) != 0;
    page.row("interrupt line", if up { "up: IIR and IER have a bit in common" } else { "down" });
}

fn mapped_words(hub: &Hub<'_>, name: &str, value: u32) -> String {
    let ring = hub.ring();
    let bit = |meaning: &str| match value & USER_INTERRUPT {
        0 => format!("user interrupt (bit 1) not {meaning}"),
        _ => format!("user interrupt (bit 1) {meaning}"),
    };
    match name {
        "PGTBL_CTL" => {
            let state = if translation_on(hub) { "translation on" } else { "translation off" };
            let home = hub.table_word_address(0).map(|home| format!(", table at {home:X}h"));
            format!("{state}{}", home.unwrap_or_default())
        }
        "LP_RING_TAIL" => ring_offset(hub, ring.tail),
        "LP_RING_HEAD" => {
            let wraps = numbers::counted(ring.wraps().into(), "wrap");
            format!("{}, {wraps}", ring_offset(hub, ring.head_offset()))
        }
        "LP_RING_START" => format!("at graphics offset {:X}h", ring.start),
        "LP_RING_LENGTH" => {
            let state = if ring.enabled() { "enabled" } else { "not enabled" };
            format!("{}, {state}", numbers::bytes(ring.bytes().into()))
        }
        "IER" => bit("enabled"),
        "IIR" => bit("pending"),
        "IMR" => bit("masked"),
        "ISR" => "always 0".to_string(),
        "DRT" if value & 1 != 0 => "display cache on: type 01 reaches it".to_string(),
        "DRT" => "display cache off: type 01 is refused 5".to_string(),
        fence => fence.strip_prefix("FENCE").and_then(|number| fence_words(hub, number)).unwrap_or_default(),
    }
}

/// An offset of the head or the tail, which must be below the ring's length.
fn ring_offset(hub: &Hub<'_>, offset: u32) -> String {
    let bytes = hub.ring().bytes();
    match offset < bytes {
        true => format!("offset {offset:X}h"),
        false => format!("offset {offset:X}h, not below {bytes:X}h: refused {}", Refusal::RingOffset.code()),
    }
}

fn fence_words(hub: &Hub<'_>, number: &str) -> Option<String> {
    let fence = hub.fence(number.parse().ok()?)?;
    let words = words::fence(fence);
    Some(match (fence.0 & 1, fence.ill_formed()) {
        (0, _) => words,
        (_, true) => format!("valid, {words}: refused {}", Refusal::FenceIllFormed.code()),
        (_, false) => format!("valid, {words}, tiled"),
    })
}

fn register(hub: &Hub<'_>, at: u32) -> u32 {
    hub.register(at).unwrap_or_default()
}
