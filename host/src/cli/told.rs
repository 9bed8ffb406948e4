//! One answer in words: where the access went, by which rule, or why it was refused.

use super::names::Bases;
use super::pair::Step;
use super::survey::display_on;
use super::{listing, names, numbers, words};
use mitrophel::reference::{Fence, Gmch, Lsmm, Observer, Rule, TableWord, TABLE_WORDS};
use mitrophel::trace::REDACTED;
use mitrophel::{Kind, Record, Refusal, Target};
use std::ops::Range;

/// How an answer is coloured.
#[derive(Clone, Copy, Debug, PartialEq, Eq)]
pub enum Tone {
    /// It reached memory or a register.
    Reached,
    /// It went to the hub or to VGA.
    Passed,
    /// It went to the hub and set SMRAM's error bit.
    Error,
    Refused,
}

/// Whether values of protected memory are shown.
#[derive(Clone, Copy, Debug, PartialEq, Eq)]
pub enum Secrets {
    Hidden,
    /// `--show-protected`
    Shown,
}

/// What there is to say about a record and its answer.
pub struct Told {
    pub tone: Tone,
    /// The record as a statement of a trace.
    pub asked: String,
    /// Where it went, or `refused 4: entry 18 (window offset 12ABCh) is not valid`.
    pub outcome: String,
    /// The rule, or what else explains the outcome.
    pub reason: String,
    /// The interrupt line is up.
    pub line: bool,
    /// Its values are those of protected memory, and left out.
    pub hidden: bool,
    /// The page that a table word named is, since the word is of protected memory.
    pub hidden_page: bool,
}

impl Told {
    pub fn of(step: &Step<'_, '_>, secrets: Secrets) -> Told {
        let hidden = step.secret && secrets == Secrets::Hidden;
        let hidden_page = step.secret_page && secrets == Secrets::Hidden;
        let (tone, outcome) = outcome(step, hidden, hidden_page);
        let asked = asked(&step.record, step.bases, hidden);
        let reason = reason(step, hidden_page);
        Told { tone, asked, outcome, reason, line: step.answer.line != 0, hidden, hidden_page }
    }

    /// What an expectation of a trace says of it, with or without the reason.
    pub fn expectation(&self, reasons: bool) -> String {
        let line = if self.line { ", interrupt line up" } else { "" };
        let reason = if reasons && !self.reason.is_empty() { format!(" ({})", self.reason) } else { String::new() };
        format!("{}{line}{reason}", self.outcome)
    }

    /// Whether it is what an expectation says.
    pub fn meets(&self, expectation: &str) -> bool {
        [false, true].iter().any(|&reasons| self.expectation(reasons) == expectation)
    }
}

/// A record as a statement, without what it writes where that is hidden.
pub fn asked(record: &Record, bases: Bases, hidden: bool) -> String {
    match hidden {
        true => listing::redacted(record, bases),
        false => listing::statement(record, bases),
    }
}

fn outcome(step: &Step<'_, '_>, hidden: bool, hidden_page: bool) -> (Tone, String) {
    let answer = &step.answer;
    let (kind, target) = (step.record.kind(), answer.target());
    if let Some(refusal) = answer.refusal() {
        let end = if has_run(step) { format!(" ({})", run_end(step)) } else { String::new() };
        return (
            Tone::Refused,
            format!("refused {}: {}{end}", refusal.code(), why(step, refusal, hidden, hidden_page)),
        );
    }
    match (kind, target) {
        (Some(Kind::Run), _) => {
            (Tone::Reached, format!("{}, head {:08X}h", numbers::counted(answer.count.into(), "step"), answer.address))
        }
        (Some(Kind::Reset), _) if step.hub.board().table_in_memory() => {
            (Tone::Reached, "registers at their defaults, table words stay".to_string())
        }
        (Some(Kind::Reset), _) => (Tone::Reached, "registers at their defaults, table zeroed".to_string()),
        (_, Some(Target::Hub)) if matches!(step.rule, Some(Rule::TsegError | Rule::HsegError)) => {
            (Tone::Error, "hub, error bit set".to_string())
        }
        (_, Some(Target::Hub)) => (Tone::Passed, "hub".to_string()),
        (_, Some(Target::Vga)) => (Tone::Passed, format!("VGA offset {:X}h", answer.address)),
        (_, Some(Target::Memory)) => (Tone::Reached, memory(step, "memory", hidden, hidden_page)),
        (_, Some(Target::DisplayCache)) => (Tone::Reached, memory(step, "display cache", hidden, hidden_page)),
        (_, Some(Target::Register)) => (Tone::Reached, register(step, &config_name(step), hidden)),
        (_, Some(Target::MemoryMapped)) => (Tone::Reached, mapped(step, hidden)),
        _ => (Tone::Passed, answer.to_string()),
    }
}

/// A place of main memory or of the display cache, with what was read or written.
fn memory(step: &Step<'_, '_>, name: &str, hidden: bool, hidden_page: bool) -> String {
    let (width, written) = (step.record.width, is_write(step));
    let at = if hidden_page { REDACTED.to_string() } else { format!("{:X}h", step.answer.address) };
    let kept = match width {
        1 => step.record.data & 0xFF,
        2 => step.record.data & 0xFFFF,
        _ => step.record.data,
    };
    let verb = if written { "takes" } else { "=" };
    let value = if hidden {
        REDACTED.to_string()
    } else {
        numbers::data(if written { kept } else { step.answer.value }, width)
    };
    format!("{name} {at} {verb} {value}")
}

fn is_write(step: &Step<'_, '_>) -> bool {
    step.record.kind().is_some_and(Kind::is_write)
}

/// A register of this name, with what was read or what it holds now.
fn register(step: &Step<'_, '_>, name: &str, hidden: bool) -> String {
    let shown = |value| if hidden { REDACTED.to_string() } else { numbers::data(value, step.record.width) };
    match step.now {
        Some(now) => format!("{name} is now {}", shown(now)),
        None => format!("{name} = {}", shown(step.answer.value)),
    }
}

fn config_name(step: &Step<'_, '_>) -> String {
    match step.answer.address {
        names::CONFIG_ADDRESS => "CF8h".to_string(),
        at => names::config_register((at >> 8) as usize, at & 0xFF, step.record.width).0,
    }
}

fn mapped(step: &Step<'_, '_>, hidden: bool) -> String {
    let offset = step.answer.address;
    match names::listed_at(step.hub.board(), offset) {
        Some((name, _, _)) => register(step, &name, hidden),
        None if is_write(step) => format!("MMIO+{offset:X}h is not listed: ignored"),
        None => format!("MMIO+{offset:X}h is not listed: reads 0"),
    }
}

/// Why a record was refused, with the numbers that decided.
fn why(step: &Step<'_, '_>, refusal: Refusal, hidden: bool, hidden_page: bool) -> String {
    if let Some(offset) = refused_offset(step) {
        return refused_in_window(step, refusal, offset, hidden_page);
    }
    if let Some(entry) = names::forbidden_entry(&step.record, &step.answer) {
        let page = unless_hidden(hidden, || format!("{:X}h", words::entry_page(step.record.data)));
        return names::forbidden_reason(entry, &format!("protected page {page}"));
    }
    if let Some(word) = refused_word(step, refusal) {
        return bad_word(step.hub, refusal, word.number, "", word.address);
    }
    match refusal {
        Refusal::Layout => words::layout_fault(&step.record),
        Refusal::Width => words::width_fault(&step.record),
        Refusal::NotExactlyRegister => not_exact(step),
        Refusal::TranslationOff => format!("translation is off: {TRANSLATION_BIT}"),
        Refusal::OutsideWindow => {
            let size = numbers::bytes(step.hub.window_bytes().into());
            format!("parser address {:X}h is at or above the window size, {size}", fetch_offset(step))
        }
        Refusal::RingOffset => ring_offset(step),
        Refusal::UnknownInstruction if hidden => format!("word {REDACTED} is no instruction"),
        Refusal::UnknownInstruction => unknown_instruction(step),
        _ if has_run(step) => bad_entry(step.hub, refusal, fetch_offset(step), hidden_page),
        _ => refusal.reason().to_string(),
    }
}

const TRANSLATION_BIT: &str = "PGTBL_CTL bit 0 is 0";

/// The window offset in the answer to an access that rule 8 took and that was refused: request 5 of document 02.
fn refused_offset(step: &Step<'_, '_>) -> Option<u32> {
    (step.rule == Some(Rule::Window) && step.answer.code != 0).then_some(step.answer.address)
}

/// The word of a table in main memory whose own refusal this is.
fn refused_word(step: &Step<'_, '_>, refusal: Refusal) -> Option<TableWord> {
    step.word.filter(|word| word.refusal == Some(refusal))
}

/// Why an access through the window was refused, and where.
fn refused_in_window(step: &Step<'_, '_>, refusal: Refusal, offset: u32, hidden_page: bool) -> String {
    let (hub, entry, at) = (step.hub, offset / 4096, format!(" (window offset {offset:X}h)"));
    if let Some(word) = refused_word(step, refusal) {
        return bad_word(hub, refusal, word.number, &at, word.address);
    }
    let page = || entry_page(hub, entry, hidden_page);
    match refusal {
        Refusal::FenceIllFormed => ill_formed(step, offset, &at),
        Refusal::TranslationOff => format!("translation is off{at}: {TRANSLATION_BIT}"),
        Refusal::EntryNotValid => format!("entry {entry}{at} is not valid"),
        Refusal::EntryType => format!("entry {entry}{at} has type {}", entry_type(hub, entry, hidden_page)),
        Refusal::PageProtected => format!("page {} of entry {entry}{at} is protected", page()),
        Refusal::PageAboveMemory => {
            format!("page {} of entry {entry}{at} is at or above {}", page(), memory_end(hub, entry, hidden_page))
        }
        _ => refusal.reason().to_string(),
    }
}

fn not_exact(step: &Step<'_, '_>) -> String {
    let Some(offset) = register_offset(step) else {
        return Refusal::NotExactlyRegister.reason().to_string();
    };
    let width = step.record.width;
    let touched = (0..u32::from(width)).find_map(|byte| names::mapped_at(offset + byte));
    match touched {
        Some((name, at, bytes)) => {
            let [accessed, own] = [width, bytes].map(|bytes| numbers::counted(bytes.into(), "byte"));
            format!("{accessed} at offset {offset:X}h, not {name} as it is, {own} at {at:X}h")
        }
        None => Refusal::NotExactlyRegister.reason().to_string(),
    }
}

fn register_offset(step: &Step<'_, '_>) -> Option<u32> {
    (step.rule == Some(Rule::Registers)).then(|| step.record.address.wrapping_sub(step.hub.registers_base()))
}

/// Which fence is ill-formed, and why; the offset is the one before fencing.
fn ill_formed(step: &Step<'_, '_>, offset: u32, at: &str) -> String {
    match matching_fence(step, offset) {
        Some((number, fence)) => {
            format!("fence {number}{at} is ill-formed: {}", words::ill_formed(fence).unwrap_or_default())
        }
        None => Refusal::FenceIllFormed.reason().to_string(),
    }
}

/// The offset in the window, before fencing, of an access that rule 8 took.
fn window_offset(step: &Step<'_, '_>) -> Option<u32> {
    (step.rule == Some(Rule::Window)).then(|| step.record.address.wrapping_sub(step.hub.window_base()))
}

/// "lowest matching number wins"
fn matching_fence(step: &Step<'_, '_>, offset: u32) -> Option<(usize, Fence)> {
    (0..8).find_map(|number| step.hub.fence(number).filter(|fence| fence.matches(offset)).map(|fence| (number, fence)))
}

/// The graphics offset of the word at the ring's head.
fn fetch_offset(step: &Step<'_, '_>) -> u32 {
    let ring = step.hub.ring();
    ring.start.wrapping_add(ring.head_offset())
}

/// Why the entry of a graphics offset that the parser fetches from is refused, or its word in main memory; `hidden`
/// leaves out what the word says.
pub fn bad_entry<O: Observer>(hub: &Gmch<'_, O>, refusal: Refusal, offset: u32, hidden: bool) -> String {
    let entry = offset / 4096;
    if let Some(address) = hub.table_word_address(entry as usize) {
        if hub.table_word(entry as usize) == Err(refusal) {
            return bad_word(hub, refusal, entry as usize, "", address);
        }
    }
    let page = || entry_page(hub, entry, hidden);
    match refusal {
        Refusal::EntryNotValid => format!("entry {entry}, {}, is not valid", entry_shown(hub, entry, hidden)),
        Refusal::EntryType => format!("entry {entry} has type {}", entry_type(hub, entry, hidden)),
        Refusal::PageProtected => format!("entry {entry}'s page {} is protected", page()),
        Refusal::PageAboveMemory => {
            format!("entry {entry}'s page {} is at or above {}", page(), memory_end(hub, entry, hidden))
        }
        _ => refusal.reason().to_string(),
    }
}

/// An entry's word; 0 where it is refused itself, or where there is none.
fn entry_word<O: Observer>(hub: &Gmch<'_, O>, entry: u32) -> u32 {
    match entry as usize {
        number if number < TABLE_WORDS => hub.table_word(number).unwrap_or_default(),
        _ => 0,
    }
}

/// What a table word says, unless it is hidden.
fn unless_hidden(hidden: bool, text: impl FnOnce() -> String) -> String {
    if hidden {
        REDACTED.to_string()
    } else {
        text()
    }
}

fn entry_shown<O: Observer>(hub: &Gmch<'_, O>, entry: u32, hidden: bool) -> String {
    unless_hidden(hidden, || format!("{:08X}h", entry_word(hub, entry)))
}

fn entry_page<O: Observer>(hub: &Gmch<'_, O>, entry: u32, hidden: bool) -> String {
    unless_hidden(hidden, || format!("{:X}h", words::entry_page(entry_word(hub, entry))))
}

/// The type of an entry that is refused for it.
fn entry_type<O: Observer>(hub: &Gmch<'_, O>, entry: u32, hidden: bool) -> String {
    unless_hidden(hidden, || match (words::entry_kind(entry_word(hub, entry)), display_on(hub)) {
        (0b01, None) => "01, display cache".to_string(),
        (0b01, Some(on)) => format!("01, display cache, which is {}", words::display(on)),
        _ => "10".to_string(),
    })
}

/// The end of the memory that an entry's type leads to, where its page is not below that. Which memory it is the word
/// says, which may be hidden.
fn memory_end<O: Observer>(hub: &Gmch<'_, O>, entry: u32, hidden: bool) -> String {
    match (hub.board().display_bytes(), words::entry_kind(entry_word(hub, entry))) {
        (0, _) => format!("the top of memory, {:X}h", hub.tom()),
        _ if hidden => "the top of memory or of the display cache".to_string(),
        (length, 0b01) => format!("the top of the display cache, {length:X}h"),
        _ => format!("the top of memory, {:X}h", hub.tom()),
    }
}

/// Why a word of a table in main memory is refused: request 10 of document 02. `at` says where the access was.
fn bad_word<O: Observer>(hub: &Gmch<'_, O>, refusal: Refusal, number: usize, at: &str, address: u64) -> String {
    let word = format!("word {number} of the table{at}, at {address:X}h,");
    match refusal {
        Refusal::PageProtected => format!("{word} is protected"),
        _ => format!("{word} is at or above the top of memory, {:X}h", hub.tom()),
    }
}

fn ring_offset(step: &Step<'_, '_>) -> String {
    let ring = step.hub.ring();
    let (name, offset) = match ring.head_offset() >= ring.bytes() {
        true => ("head", ring.head_offset()),
        false => ("tail", ring.tail),
    };
    format!("ring {name} offset {offset:X}h is not below the ring's length, {:X}h", ring.bytes())
}

fn unknown_instruction(step: &Step<'_, '_>) -> String {
    let offset = fetch_offset(step);
    match step.hub.fetch_address(offset) {
        Ok(place) => format!("word {:08X}h is no instruction", step.hub.word(place)),
        Err(_) => Refusal::UnknownInstruction.reason().to_string(),
    }
}

/// The rule that routed an access, or what else there is to say.
fn reason(step: &Step<'_, '_>, hidden_page: bool) -> String {
    if has_run(step) {
        // A refused run tells its end with the refusal: the steps are part of the answer.
        return if step.answer.code == 0 { run_end(step) } else { String::new() };
    }
    let Some(rule) = step.rule else { return String::new() };
    let hub = step.hub;
    match rule {
        Rule::ConfigAddress => words::selection(step.hub.config_address()),
        Rule::DeviceZero | Rule::DeviceOne => config_reason(step),
        Rule::OtherPort => port_reason(step),
        Rule::Low => "rule 1: below A0000h".to_string(),
        Rule::CompatibleMemory | Rule::CompatibleVga => format!("rule 2: {}", compatible(step)),
        Rule::CompatibleHub => format!("rule 2: {}, graphics off", compatible(step)),
        Rule::ShadowMemory | Rule::ShadowHub => format!("rule 3: {}", shadow(step)),
        Rule::Hole => format!("rule 4: {HOLE}"),
        Rule::Main => format!("rule 4: below U, {:X}h", hub.usable_top()),
        Rule::TsegMemory => "rule 5: TSEG, management mode".to_string(),
        Rule::TsegError => "rule 5: TSEG, not management mode".to_string(),
        Rule::Taken => "rule 5: taken memory".to_string(),
        Rule::HsegMemory => "rule 6: HSEG, management mode".to_string(),
        Rule::HsegError => "rule 6: HSEG, not management mode".to_string(),
        Rule::Registers => registers_reason(step),
        Rule::Window => match refused_offset(step) {
            Some(offset) => refused_window_reason(step, offset, hidden_page),
            None => window_reason(step),
        },
        Rule::Elsewhere => "rule 9: nothing else claims it".to_string(),
        Rule::MasterLow => "hub master by rule 1: below A0000h".to_string(),
        Rule::MasterCompatible => "hub master by rule 2: LSMM 01, general memory".to_string(),
        Rule::MasterMain => format!("hub master by rule 4: below U, {:X}h", hub.usable_top()),
        Rule::MasterShadow => format!("hub master by rule 3: {}", shadow(step)),
        Rule::MasterHole => format!("hub master by rule 4: {HOLE}"),
        Rule::MasterHub => master_reason(step),
    }
}

const HOLE: &str = "the hole at F00000h-FFFFFFh, FDHC bit 7";

/// The bit of PAMR that took an access in C0000h-FFFFFh to memory or to the hub: request 8 of document 02.
fn shadow(step: &Step<'_, '_>) -> String {
    let (first, bit) = words::segment(step.record.address, is_write(step));
    let segment = format!("{first:X}h-{:X}h", first + words::SEGMENT_BYTES - 1);
    let verb = if is_write(step) { "writes" } else { "reads" };
    match step.hub.pamr() >> bit & 1 {
        0 => format!("{segment}, PAMR bit {bit} is 0: {verb} go to the hub"),
        _ => format!("{segment} {verb} memory by PAMR bit {bit}"),
    }
}

fn compatible(step: &Step<'_, '_>) -> &'static str {
    match step.hub.smram().lsmm() {
        Lsmm::Off => "LSMM 00, shut",
        Lsmm::General => "LSMM 01, general memory",
        Lsmm::ManagementCodeReads => "LSMM 10, management code reads only",
        Lsmm::ManagementAll => "LSMM 11, management mode only",
    }
}

/// An answered access to an entry says where its word lies in main memory, and one to DRT whether the display cache is on.
fn registers_reason(step: &Step<'_, '_>) -> String {
    let answered = step.answer.code == 0;
    match (step.word, display_on(step.hub)) {
        (Some(word), _) if answered => format!("rule 7: registers, word at {:X}h", word.address),
        (None, Some(on)) if answered && step.answer.address == names::DRT => {
            format!("rule 7: registers, display cache {}", if on { "on" } else { "off" })
        }
        _ => "rule 7: registers".to_string(),
    }
}

/// An answered access, by offset, fence and entry.
fn window_reason(step: &Step<'_, '_>) -> String {
    let Some(before) = window_offset(step) else { return String::new() };
    let mut reason = format!("rule 8: window offset {before:X}h");
    let mut offset = before;
    if let Some((number, fence)) = matching_fence(step, before) {
        offset = fence.tiled(before);
        reason.push_str(&format!(", tiled to {offset:X}h by fence {number}"));
    }
    format!("{reason}, entry {}", offset / 4096)
}

/// What the outcome of a refused access does not say already: it has the offset that the answer holds.
fn refused_window_reason(step: &Step<'_, '_>, offset: u32, hidden_page: bool) -> String {
    let before = window_offset(step).unwrap_or(offset);
    let fence = matching_fence(step, before).filter(|(_, fence)| !fence.ill_formed());
    let reason = match fence {
        Some((number, _)) if before != offset => format!("rule 8: window offset {before:X}h before fence {number}"),
        Some((number, _)) => format!("rule 8: the window, not moved by fence {number}"),
        None => "rule 8: the window".to_string(),
    };
    match step.answer.refusal() {
        Some(Refusal::EntryNotValid) => {
            format!("{reason}, the entry is {}", entry_shown(step.hub, offset / 4096, hidden_page))
        }
        _ => reason,
    }
}

/// Why a hub master's access goes to the hub by no rule, or by PAMR.
fn master_reason(step: &Step<'_, '_>) -> String {
    if words::SHADOW.contains(&step.record.address) {
        return format!("hub master by rule 3: {}", shadow(step));
    }
    let ranges = master_ranges(step.hub, is_write(step));
    let mut ranges: Vec<String> = ranges.iter().map(|range| format!("{}-{:X}h", start(range), range.end - 1)).collect();
    let last = ranges.pop().unwrap_or_default();
    match ranges.is_empty() {
        true => format!("hub masters reach {last}"),
        false => format!("hub masters reach {} and {last}", ranges.join(", ")),
    }
}

fn start(range: &Range<u32>) -> String {
    match range.start {
        0 => "0".to_string(),
        start => format!("{start:X}h"),
    }
}

/// The memory that hub masters read or write: "memory by rules 1, 4 and by 2 with LSMM 01", and by request 8 of document
/// 02 the segments that PAMR opens, without the hole.
fn master_ranges<O: Observer>(hub: &Gmch<'_, O>, write: bool) -> Vec<Range<u32>> {
    let (hole, top) = (words::HOLE, hub.usable_top());
    let segments = words::SHADOW.step_by(words::SEGMENT_BYTES as usize).map(|first| {
        let (_, bit) = words::segment(first, write);
        (first..first + words::SEGMENT_BYTES, hub.pamr() >> bit & 1 != 0)
    });
    let low = [(0..0xA_0000, true), (0xA_0000..0xC_0000, hub.smram().lsmm() == Lsmm::General)];
    let main = [
        (words::SHADOW.end..hole.start.min(top), true),
        (hole.start..hole.end.min(top), !hub.hole()),
        (hole.end..top, true),
    ];
    let mut ranges: Vec<Range<u32>> = Vec::new();
    for (range, reached) in low.into_iter().chain(segments).chain(main) {
        match ranges.last_mut() {
            _ if range.is_empty() || !reached => {}
            Some(before) if before.end == range.start => before.end = range.end,
            _ => ranges.push(range),
        }
    }
    ranges
}

/// What a configuration register's value means, for those that decide where addresses go and for the power state.
fn config_reason(step: &Step<'_, '_>) -> String {
    let hub = step.hub;
    let (device, at) = (step.answer.address >> 8, step.answer.address & 0xFF);
    let other = || format!("configuration, device {device}");
    match (device, at) {
        (0, 0x70) => words::smram(hub.smram()),
        (0, 0x72) => format!("window of {}", numbers::bytes(hub.window_bytes().into())),
        (0, 0x58) => words::hole_below(hub.hole(), hub.usable_top()),
        (0, _) => shadow_reason(step, at).unwrap_or_else(other),
        (1, 0x04) if hub.graphics_decodes() => "registers and window on".to_string(),
        (1, 0x04) => "registers and window off".to_string(),
        (1, 0x10..=0x13) => format!("window at {:X}h", hub.window_base()),
        (1, 0x14..=0x17) => format!("registers at {:X}h", hub.registers_base()),
        (1, _) => power_reason(step, at).unwrap_or_else(other),
        _ => other(),
    }
}

/// PAMR as an access reads or leaves it: request 8 of document 02.
fn shadow_reason(step: &Step<'_, '_>, at: u32) -> Option<String> {
    words::shadow(at, step.record.width, step.now.unwrap_or(step.answer.value))
}

/// PM_CS as an access reads or leaves it, and the power state that a write brought in vain: request 3 of document 02.
fn power_reason(step: &Step<'_, '_>, at: u32) -> Option<String> {
    let fields = words::power(at, step.record.width, step.now.unwrap_or(step.answer.value))?;
    let touched = is_write(step) && at == 0xE0;
    match words::discarded_power_state(step.record.data).filter(|_| touched) {
        Some(discarded) => Some(format!("{fields}; {discarded}")),
        None => Some(fields),
    }
}

fn port_reason(step: &Step<'_, '_>) -> String {
    let selected = step.hub.config_address();
    match step.record.address {
        0xCF8..=0xCFB => "CF8h takes 4-byte accesses only".to_string(),
        0xCFC..=0xCFF if names::selected(selected).is_some_and(|(device, _)| device == 1) => {
            "device 1 is hidden while GMS is 00".to_string()
        }
        0xCFC..=0xCFF if selected >> 31 == 0 => "CF8h bit 31 is clear".to_string(),
        0xCFC..=0xCFF => {
            let (bus, device, function) = (selected >> 16 & 0xFF, selected >> 11 & 0x1F, selected >> 8 & 7);
            format!("bus {bus}, device {device}, function {function} is not ours")
        }
        _ => "not a port of ours".to_string(),
    }
}

/// Whether the parser ran, if only up to a refusal.
fn has_run(step: &Step<'_, '_>) -> bool {
    step.record.kind() == Some(Kind::Run) && step.answer.code != Refusal::Layout.code()
}

/// Why a run ended.
fn run_end(step: &Step<'_, '_>) -> String {
    let (answer, ring) = (&step.answer, step.hub.ring());
    let steps = numbers::counted(answer.count.into(), "step");
    if answer.code != 0 {
        format!("after {steps}, head {:08X}h", answer.address)
    } else if step.record.data == 0 {
        "budget 0 checks nothing".to_string()
    } else if answer.count == step.record.data {
        "budget used up".to_string()
    } else if !ring.enabled() {
        "the ring is not enabled".to_string()
    } else {
        "the ring is empty".to_string()
    }
}
