//! Where each address goes, found by asking.
//!
//! At each address where something may change, the proved call and the reference are given a read by the
//! processor, by management mode (data and code) and by a hub master; and where PAMR may send writes
//! elsewhere than reads, in C0000h-FFFFFh, a write by each of the three, after all reads. What graphics
//! reaches is asked in a call of its own: a table entry names each page, and the processor reads through the
//! window. The reference, which must give the same answers, names the rules.

use super::failure::Failure;
use super::follow::{Follower, Ground};
use super::load::{List, Memory};
use super::pair::{Pair, Step};
use super::{names, numbers, words};
use mitrophel::record::{self, MAX_RECORDS, RECORD_BYTES};
use mitrophel::reference::{Gmch, Observer, Rule, Smram, TABLE_WORDS};
use mitrophel::{Board, Record, Refusal, DISPLAY_BYTES};
use std::ops::Range;

/// Where one kind of access goes.
#[derive(Clone, Debug, PartialEq, Eq)]
pub struct Cell {
    pub class: Class,
    pub text: String,
}

/// What a cell is coloured by.
#[derive(Clone, Copy, Debug, PartialEq, Eq)]
pub enum Class {
    Memory,
    Registers,
    Window,
    Vga,
    Hub,
    /// Reads go to one of memory and hub, and writes to the other.
    Split,
    Error,
    Refused,
    Nothing,
}

/// Who accesses, in the order of a row's cells.
pub const COLUMNS: [&str; 4] = ["processor", "management mode", "hub master", "graphics"];

/// Addresses that all go the same way.
#[derive(Clone, Debug)]
pub struct Row {
    pub first: u32,
    pub last: u32,
    pub cells: [Cell; 4],
    pub protected: bool,
    pub name: &'static str,
}

/// Entries of the table, one after the other, of which the same is to be said.
#[derive(Clone, Copy, Debug, PartialEq, Eq)]
pub struct Mapping {
    pub first: u32,
    pub last: u32,
    pub found: Found,
}

/// What entries are.
#[derive(Clone, Copy, Debug, PartialEq, Eq)]
pub enum Found {
    /// Valid entries of one type whose pages count up from this one and are all reached or all refused for the same
    /// reason.
    Pages {
        page: u32,
        /// "type 2:1 (00, 11 main memory; 01 display cache)"
        kind: u32,
        reach: Reach,
    },
    /// Words in main memory that are refused themselves.
    Refused(Refusal),
    /// Words in main memory whose values are not for everybody, whatever they are.
    Hidden,
}

impl Mapping {
    /// `entry 3` or `entries 0..15`, and of words that are not looked at `word 3` or `words 0..15`
    pub fn entries(&self) -> String {
        let (one, many) = match self.found {
            Found::Pages { .. } => ("entry", "entries"),
            Found::Refused(_) | Found::Hidden => ("word", "words"),
        };
        match self.first == self.last {
            true => format!("{one} {}", self.first),
            false => format!("{many} {}..{}", self.first, self.last),
        }
    }

    /// How many entries.
    pub fn count(&self) -> u64 {
        u64::from(self.last - self.first) + 1
    }
}

/// What becomes of a valid entry.
#[derive(Clone, Copy, Debug, PartialEq, Eq)]
pub enum Reach {
    /// Main memory, or the display cache with type 01.
    Reached,
    /// No memory is of its type, or the display cache is off.
    OtherMemory,
    /// At or above the end of the memory of its type.
    AboveMemory,
    Protected,
}

impl Reach {
    /// Of an entry of this type and page.
    fn of<O: Observer>(hub: &Gmch<'_, O>, kind: u32, page: u32) -> Reach {
        let length = match (kind, display_on(hub)) {
            (0b01, Some(true)) => hub.board().display_bytes() as u32,
            (0b01 | 0b10, _) => return Reach::OtherMemory,
            _ => hub.tom(),
        };
        if page >= length {
            Reach::AboveMemory
        } else if kind != 0b01 && hub.protected(page) {
            Reach::Protected
        } else {
            Reach::Reached
        }
    }
}

/// The translation table.
#[derive(Clone, Debug, Default, PartialEq, Eq)]
pub struct Table {
    pub translation: bool,
    /// The first word's address, where the table is in main memory.
    pub home: Option<u64>,
    /// Whether the display cache is on, where there is one.
    pub display: Option<bool>,
    pub mappings: Vec<Mapping>,
}

/// How many mappings are shown of a table in main memory, whose words may be anything.
const MOST_MAPPINGS: usize = 64;

impl Table {
    /// The table of a hub. Values of guarded memory are not for everybody.
    pub fn of<O: Observer>(hub: &Gmch<'_, O>, guarded: &[Range<u32>]) -> Table {
        let words = (0..TABLE_WORDS).map(|number| match hub.table_word(number) {
            _ if hides_word(hub, guarded, number) => Word::Hidden,
            Ok(word) => Word::Shown(word),
            Err(refusal) => Word::Refused(refusal),
        });
        let mappings = runs(words, |kind, page| Reach::of(hub, kind, page));
        Table { translation: translation_on(hub), home: hub.table_word_address(0), display: display_on(hub), mappings }
    }

    /// The mappings that are shown, and how many entries the others have.
    pub fn shown(&self) -> (&[Mapping], u64) {
        let most = if self.home.is_some() { MOST_MAPPINGS } else { usize::MAX };
        let (shown, others) = self.mappings.split_at(most.min(self.mappings.len()));
        (shown, others.iter().map(Mapping::count).sum())
    }

    /// Where the words of a mapping lie in main memory, first and last byte.
    pub fn places(&self, mapping: &Mapping) -> Option<(u64, u64)> {
        let place = |number: u32| Some(self.home? + 4 * u64::from(number));
        Some((place(mapping.first)?, place(mapping.last)? + 3))
    }

    /// Where the whole table lies in main memory, first and last byte.
    pub fn home(&self) -> Option<(u64, u64)> {
        self.home.map(|home| (home, home + 4 * TABLE_WORDS as u64 - 1))
    }

    /// The refusal of every word, where all have the same.
    pub fn refusal(&self) -> Option<Refusal> {
        match self.mappings[..] {
            [Mapping { found: Found::Refused(refusal), .. }] if self.mappings[0].count() == TABLE_WORDS as u64 => {
                Some(refusal)
            }
            _ => None,
        }
    }

    /// What the reader of a map is told of a table in main memory.
    fn line(&self) -> Option<String> {
        let (first, last) = self.home()?;
        let all = match self.refusal() {
            Some(Refusal::PageProtected) => ", protected: every word is refused 6",
            Some(_) => ", at or above TOM: every word is refused 7",
            None => "",
        };
        Some(format!("Translation table: in main memory, {first:X}h-{last:X}h (PGTBL_CTL){all}."))
    }
}

/// Whether a word of the table is reached and lies in guarded memory.
pub fn hides_word<O: Observer>(hub: &Gmch<'_, O>, guarded: &[Range<u32>], number: usize) -> bool {
    let place = hub.table_word_address(number).and_then(|address| u32::try_from(address).ok());
    let hides = place.is_some_and(|address| guarded.iter().any(|range| range.contains(&address)));
    hides && hub.table_word(number).is_ok()
}

/// The whole map.
pub struct Map {
    pub title: String,
    pub lines: Vec<String>,
    pub rows: Vec<Row>,
    pub table: Table,
}

impl Map {
    /// What the reader of the map needs to know.
    pub fn notes(&self) -> Vec<&'static str> {
        let split = self.rows.iter().any(|row| row.cells.iter().any(|cell| cell.class == Class::Split));
        NOTES.into_iter().chain(split.then_some("a/b: reads go to a, writes to b.")).collect()
    }
}

const NOTES: [&str; 2] = [
    "(n): document 01's rule. error: SMRAM's error bit is set.",
    "Graphics reaches a page through a table entry that names it; '-': none can.",
];

/// Where the map may change, from 0 up.
fn edges(hub: &Gmch<'_>, tom: u32) -> Vec<u32> {
    let (tseg, taken) = (hub.smram().tseg_bytes(), hub.smram().taken_bytes());
    let mut edges: Vec<u64> = [0, 0xA_0000, PAST_PAGES.into(), 0xFEEA_0000, 0xFEEC_0000].to_vec();
    edges.extend(segments().map(u64::from));
    let hole = words::HOLE;
    edges.extend([words::SHADOW.end, hole.start, hole.end, tom - tseg - taken, tom - tseg, tom].map(u64::from));
    if hub.graphics_decodes() {
        let (registers, window) = (u64::from(hub.registers_base()), u64::from(hub.window_base()));
        edges.extend([registers, registers + u64::from(names::REGISTERS_BYTES)]);
        edges.extend([window, window + u64::from(hub.window_bytes())]);
    }
    edges.sort_unstable();
    edges.dedup();
    edges.into_iter().filter_map(|edge| u32::try_from(edge).ok()).collect()
}

/// The first addresses of the segments that PAMR steers.
fn segments() -> impl Iterator<Item = u32> {
    words::SHADOW.step_by(words::SEGMENT_BYTES as usize)
}

/// One read for each column but the last; management mode reads data and code.
fn probes(edge: u32) -> [Record; 4] {
    [
        Record::read(edge, 4, false),
        Record::read(edge, 4, true),
        Record::code_read(edge, 4, true),
        Record::master_read(edge, 4),
    ]
}

/// One write for each column but the last. It reaches memory or the hub and nothing else in C0000h-FFFFFh, where nothing is
/// protected.
fn write_probes(segment: u32) -> [Record; 3] {
    [Record::write(segment, 4, 0, false), Record::write(segment, 4, 0, true), Record::master_write(segment, 4, 0)]
}

/// The registers of device 0 that the map is asked with: SMRAM, PAMR and FDHC.
const ASKED: [u32; 3] = [0x70, 0x51, 0x58];

/// What is asked in the last call of a list: the registers, and the columns but the last. Writes come last, when
/// everything else that is shown has been looked at: a table in main memory may be where they go.
fn questions(edges: &[u32]) -> Vec<Record> {
    let registers = ASKED.into_iter().flat_map(|at| {
        let select = Record::io_write(names::CONFIG_ADDRESS, 4, names::selection(0, at));
        [select, Record::io_read(names::CONFIG_DATA + at % 4, 1)]
    });
    let reads = edges.iter().flat_map(|edge| probes(*edge));
    registers.chain(reads).chain(segments().flat_map(write_probes)).collect()
}

/// How many of the questions are about registers.
const REGISTER_QUESTIONS: usize = 2 * ASKED.len();

/// A write of a configuration register.
pub fn config_write(device: usize, at: u32, width: u8, data: u32) -> [Record; 2] {
    let select = Record::io_write(names::CONFIG_ADDRESS, 4, names::selection(device, at));
    [select, Record::io_write(names::CONFIG_DATA + at % 4, width, data)]
}

/// Pages from here on are named by no entry: "page 29:12".
const PAST_PAGES: u32 = 0x4000_0000;

/// Pages on both sides of the display cache's ends.
fn display_pages() -> [u32; 3] {
    [0, DISPLAY_BYTES as u32 - 4096, DISPLAY_BYTES as u32]
}

/// What graphics meets with each of these table words.
///
/// Pages are protected or not by SMRAM and the memory's length alone, and locked or not; and the display cache is on or
/// off by DRT alone. So it is asked on a board that is like the one in force in these and in PAMR and FDHC, which make no
/// difference to an entry, with the window and the registers above all memory; with graphics on, which protects nothing
/// and without which there is no window; and without the lock, with which the entries would not be stored.
fn graphics_codes(
    pair: &mut Pair,
    [smram, pamr, fdhc]: [u8; 3],
    drt: Option<u32>,
    words: &[u32],
) -> Result<Vec<u8>, Failure> {
    const WINDOW: u32 = 0xC000_0000;
    const REGISTERS: u32 = 0xF000_0000;
    let on = if Smram(smram).graphics_on() { smram } else { smram | 0x40 } & !0x02;
    let asked = ASKED.into_iter().zip([on, pamr, fdhc]).map(|(at, value)| (0, at, 1, value.into()));
    let writes = asked.chain([(1, 0x10, 4, WINDOW), (1, 0x14, 4, REGISTERS), (1, 0x04, 1, 0x06)]);
    let mut records: Vec<Record> =
        writes.flat_map(|(device, at, width, data)| config_write(device, at, width, data)).collect();
    records.push(Record::write(REGISTERS + names::PGTBL_CTL, 4, 1, false));
    records.extend(drt.map(|drt| Record::write(REGISTERS + names::DRT, 1, drt, false)));
    let first = records.len();
    for word in words {
        records.push(Record::write(REGISTERS + names::entry_offset(0), 4, *word, false));
        records.push(Record::read(WINDOW, 4, false));
    }
    let answers = pair.replay(&record::encode(&records), |_| Ok(()))?;
    Ok(record::decode_answers(&answers).skip(first + 1).step_by(2).map(|answer| answer.code).collect())
}

impl Map {
    /// The map in force after the list's records.
    pub fn after(board: Board, memory: &Memory, list: &List) -> Result<Map, Failure> {
        let guarded = list.guarded(memory.length());
        let mut pair = Pair::new(board, [memory.fresh(), memory.fresh()]).guarding(guarded.clone());
        let setup = last_call(&mut pair, list)?;
        let edges = edges_after(setup, memory.length() as u32);
        let questions = questions(&edges);
        let records = [setup, &record::encode(&questions)].concat();
        if records.len() / RECORD_BYTES > MAX_RECORDS {
            let place = list.place(list.records.len().saturating_sub(RECORD_BYTES) / RECORD_BYTES);
            let room = MAX_RECORDS - questions.len();
            return Err(Failure::input(format!(
                "{place}: the map asks {} questions in the last call: expected at most {} records there",
                questions.len(),
                numbers::grouped(room as u64)
            )));
        }
        let first = setup.len() / RECORD_BYTES;
        let mut asked = Asked { probes: first + REGISTER_QUESTIONS, edges, guarded, ..Asked::default() };
        let answers = pair.replay(&records, |step| {
            asked.note(step, board);
            Ok(())
        })?;
        let read: Vec<u8> = record::decode_answers(&answers).skip(first).map(|answer| answer.value as u8).collect();
        let registers = [1, 3, 5].map(|at| read.get(at).copied().unwrap_or_default());
        let pages = asked.edges.iter().filter(|edge| **edge < PAST_PAGES).map(|page| page | 0b001);
        let display = display_pages().map(|page| page | 0b011);
        let words: Vec<u32> = pages.chain(display).collect();
        asked.graphics = graphics_codes(&mut pair, registers, asked.drt, &words)?;
        asked.display = asked.graphics.split_off(words.len() - display.len());
        Ok(asked.finish())
    }
}

/// The edges as the records leave them.
fn edges_after(records: &[u8], tom: u32) -> Vec<u32> {
    let mut ground = Ground::new();
    let mut follower = Follower::new(&mut ground);
    record::decode(records).for_each(|record| follower.note(&record));
    edges(follower.hub(), tom)
}

/// The answers to the probes as they come.
#[derive(Default)]
struct Asked {
    edges: Vec<u32>,
    /// Records before the first probe.
    probes: usize,
    /// Memory whose values are not for everybody.
    guarded: Vec<Range<u32>>,
    rules: Vec<Option<Rule>>,
    /// What graphics meets at the edges that are pages.
    graphics: Vec<u8>,
    /// DRT, and what entries of type 01 meet at [`display_pages`], where there is a display cache.
    drt: Option<u32>,
    display: Vec<u8>,
    usable_top: u32,
    title: String,
    lines: Vec<String>,
    table: Table,
}

impl Asked {
    fn note(&mut self, step: &Step<'_, '_>, board: Board) {
        let Some(number) = step.index.checked_sub(self.probes) else { return };
        if number == 0 {
            self.describe(step, board);
        }
        self.rules.push(step.rule);
    }

    fn describe(&mut self, step: &Step<'_, '_>, board: Board) {
        let hub = step.hub;
        let memory = numbers::bytes(hub.tom().into());
        self.usable_top = hub.usable_top();
        self.title = format!("Address map: board {board}, {memory}, SMRAM {:02X}h", hub.smram().0);
        self.lines.push(format!("SMRAM: {}.", words::smram(hub.smram())));
        if hub.pamr() != 0 {
            self.lines.push(format!("PAMR {:02X}h: {}.", hub.pamr(), words::pamr(hub.pamr())));
        }
        self.lines.push(format!(
            "Memory ends at TOM, {:X}h, ordinary memory at U, {:X}h.",
            hub.tom(),
            hub.usable_top()
        ));
        if hub.hole() {
            self.lines.push(format!("FDHC 80h: {}.", words::hole_below(true, hub.usable_top())));
        }
        if hub.graphics_decodes() {
            let size = numbers::bytes(hub.window_bytes().into());
            // Memory comes first.
            let hidden = |base: u32| if base < hub.tom() { ", hidden below TOM" } else { "" };
            let (window, registers) = (hub.window_base(), hub.registers_base());
            self.lines.push(format!("Window: {size} at {window:X}h (GMADR){}.", hidden(window)));
            self.lines.push(format!("Registers: 512 KiB at {registers:X}h (MMADR){}.", hidden(registers)));
        } else {
            self.lines.push("Window and registers are off.".to_string());
        }
        self.drt = hub.register(names::DRT);
        self.table = Table::of(hub, &self.guarded);
    }

    fn finish(mut self) -> Map {
        self.lines.extend(self.display_line());
        self.lines.extend(self.table.line());
        let mut rows: Vec<Row> = Vec::new();
        for (at, &first) in self.edges.iter().enumerate() {
            let last = self.edges.get(at + 1).map_or(u32::MAX, |next| next - 1);
            let Some(row) = self.row(at, first, last) else { continue };
            match rows.last_mut() {
                Some(before) if before.cells == row.cells && before.name == row.name => before.last = last,
                _ => rows.push(row),
            }
        }
        Map { title: self.title, lines: self.lines, rows, table: self.table }
    }

    /// What the reader of a map is told of the display cache.
    fn display_line(&self) -> Option<String> {
        self.drt?;
        let size = numbers::bytes(DISPLAY_BYTES as u64);
        let on = self.display == [0, 0, Refusal::PageAboveMemory.code()];
        let reached = match on {
            true => format!("entries of type 01 reach its pages, 0h to {:X}h", DISPLAY_BYTES - 4096),
            false => "every entry of type 01 is refused 5".to_string(),
        };
        Some(format!("Display cache: {size}, {}; {reached}.", words::display(on)))
    }

    fn row(&self, at: usize, first: u32, last: u32) -> Option<Row> {
        let rules: Vec<Rule> = self.rules.get(4 * at..4 * at + 4)?.iter().flatten().copied().collect();
        let [processor, data, code_read, master] = rules[..] else { return None };
        let code = self.graphics.get(at).copied();
        let mut reads = [cell(processor), management(data, code_read), cell(master)];
        if words::SHADOW.contains(&first) {
            let writes = self.writes(first)?;
            reads = [0, 1, 2].map(|column| split(&reads[column], &writes[column]));
        }
        let [processor_cell, management, master] = reads;
        let cells = [processor_cell, management, master, graphics(code)];
        let protected = code == Some(Refusal::PageProtected.code());
        Some(Row { first, last, cells, protected, name: self.name(first, processor) })
    }

    /// Where writes go in the segment of C0000h-FFFFFh that starts here.
    fn writes(&self, first: u32) -> Option<[Cell; 3]> {
        let number = segments().position(|segment| segment == first)?;
        let from = 4 * self.edges.len() + 3 * number;
        let rules: Vec<Rule> = self.rules.get(from..from + 3)?.iter().flatten().copied().collect();
        let [processor, management, master] = rules[..] else { return None };
        Some([processor, management, master].map(cell))
    }

    fn name(&self, first: u32, processor: Rule) -> &'static str {
        match processor {
            Rule::CompatibleMemory | Rule::CompatibleVga | Rule::CompatibleHub => "VGA",
            Rule::ShadowMemory | Rule::ShadowHub => "BIOS",
            Rule::Hole => "hole",
            Rule::TsegMemory | Rule::TsegError => "TSEG",
            Rule::Taken => "taken",
            Rule::HsegMemory | Rule::HsegError => "HSEG",
            Rule::Registers => "MMIO",
            Rule::Window => "WINDOW",
            _ if first < self.usable_top => "main",
            _ => "",
        }
    }
}

/// Where a rule takes an address.
fn cell(rule: Rule) -> Cell {
    let (class, text) = match rule {
        Rule::Low => (Class::Memory, "memory (1)"),
        Rule::CompatibleMemory => (Class::Memory, "memory (2)"),
        Rule::CompatibleVga => (Class::Vga, "VGA (2)"),
        Rule::CompatibleHub => (Class::Hub, "hub (2)"),
        Rule::ShadowMemory | Rule::MasterShadow => (Class::Memory, "memory (3)"),
        Rule::ShadowHub => (Class::Hub, "hub (3)"),
        Rule::Hole | Rule::MasterHole => (Class::Hub, "hub (4)"),
        Rule::Main => (Class::Memory, "memory (4)"),
        Rule::TsegMemory => (Class::Memory, "memory (5)"),
        Rule::TsegError => (Class::Error, "hub, error (5)"),
        Rule::Taken => (Class::Hub, "hub (5)"),
        Rule::HsegMemory => (Class::Memory, "A0000h up (6)"),
        Rule::HsegError => (Class::Error, "hub, error (6)"),
        Rule::Registers => (Class::Registers, "registers (7)"),
        Rule::Window => (Class::Window, "window (8)"),
        Rule::Elsewhere => (Class::Hub, "hub (9)"),
        Rule::MasterLow => (Class::Memory, "memory (1)"),
        Rule::MasterCompatible => (Class::Memory, "memory (2)"),
        Rule::MasterMain => (Class::Memory, "memory (4)"),
        Rule::MasterHub => (Class::Hub, "hub"),
        Rule::ConfigAddress | Rule::DeviceZero | Rule::DeviceOne | Rule::OtherPort => (Class::Nothing, "port"),
    };
    Cell { class, text: text.to_string() }
}

/// What an entry that names a page meets; none can where there is no code.
fn graphics(code: Option<u8>) -> Cell {
    match code {
        None => Cell { class: Class::Nothing, text: "-".to_string() },
        Some(0) => Cell { class: Class::Memory, text: "memory".to_string() },
        Some(code) => Cell { class: Class::Refused, text: format!("refused {code}") },
    }
}

/// Management mode's data and code reads in one cell.
fn management(data: Rule, code: Rule) -> Cell {
    let (data, code) = (cell(data), cell(code));
    if data == code {
        return data;
    }
    // Rule 2 with LSMM 10: code reads reach memory, all else goes where the processor's goes.
    Cell { class: code.class, text: "code memory (2)".to_string() }
}

/// Reads and writes in one cell. A hub master's hub has no rule, nor has a cell that says it with another.
fn split(read: &Cell, write: &Cell) -> Cell {
    if read == write {
        return read.clone();
    }
    let parts = |cell: &Cell| match cell.text.split_once(' ') {
        Some((place, rule)) => (place.to_string(), Some(rule.to_string())),
        None => (cell.text.clone(), None),
    };
    let ((read, rule), (write, own)) = (parts(read), parts(write));
    let rule = rule.filter(|rule| own.as_ref() == Some(rule)).map(|rule| format!(" {rule}"));
    Cell { class: Class::Split, text: format!("{read}/{write}{}", rule.unwrap_or_default()) }
}

/// PGTBL_CTL bit 0.
pub fn translation_on<O: Observer>(hub: &Gmch<'_, O>) -> bool {
    hub.register(names::PGTBL_CTL).is_some_and(|control| control & 1 != 0)
}

/// Whether the display cache is on, where the board has one.
pub fn display_on<O: Observer>(hub: &Gmch<'_, O>) -> Option<bool> {
    (hub.board().display_bytes() != 0).then(|| hub.display_on())
}

/// A word of the table as a reader is shown it.
#[derive(Clone, Copy)]
enum Word {
    Shown(u32),
    Refused(Refusal),
    Hidden,
}

/// The words in runs, but for those that are not valid; `reach` says what becomes of a type and a page.
fn runs(words: impl IntoIterator<Item = Word>, reach: impl Fn(u32, u32) -> Reach) -> Vec<Mapping> {
    let mut mappings: Vec<Mapping> = Vec::new();
    for (entry, word) in (0..).zip(words) {
        let found = match word {
            Word::Shown(word) if word & 1 == 0 => continue,
            Word::Shown(word) => {
                let (page, kind) = (words::entry_page(word), words::entry_kind(word));
                Found::Pages { page, kind, reach: reach(kind, page) }
            }
            Word::Refused(refusal) => Found::Refused(refusal),
            Word::Hidden => Found::Hidden,
        };
        match mappings.last_mut() {
            Some(run) if run.last + 1 == entry && continues(run, found) => run.last = entry,
            _ => mappings.push(Mapping { first: entry, last: entry, found }),
        }
    }
    mappings
}

/// Whether the entry after a run's last one belongs to it.
fn continues(run: &Mapping, next: Found) -> bool {
    match run.found {
        Found::Pages { page, kind, reach } => {
            next == Found::Pages { page: page + 4096 * run.count() as u32, kind, reach }
        }
        found => next == found,
    }
}

/// Replays all calls of a list but the last, whose records are given.
pub fn last_call<'a>(pair: &mut Pair, list: &'a List) -> Result<&'a [u8], Failure> {
    let mut calls = list.calls()?;
    let last = calls.pop().unwrap_or(0..0);
    for call in calls {
        pair.replay(&list.records[call], |_| Ok(()))?;
    }
    Ok(&list.records[last])
}

#[cfg(test)]
mod tests {
    use super::super::load::Lent;
    use super::*;
    use mitrophel::call::gmch_replay;
    use mitrophel::reference::Observer;
    use mitrophel::{Answer, Target};

    #[derive(Default)]
    struct Heard(Option<Rule>);

    impl Observer for Heard {
        fn routed(&mut self, rule: Rule) {
            self.0 = Some(rule);
        }
    }

    fn setup(smram: u32, window: u32, registers: u32, small: u32) -> Vec<Record> {
        let writes =
            [(0, 0x72, 1, small), (0, 0x70, 1, smram), (1, 0x10, 4, window), (1, 0x14, 4, registers), (1, 0x04, 1, 2)];
        writes.into_iter().flat_map(|(device, at, width, data)| config_write(device, at, width, data)).collect()
    }

    /// PAMR and FDHC: request 8 of document 02.
    fn shadow(pamr: u32, fdhc: u32) -> Vec<Record> {
        [config_write(0, 0x51, 1, pamr), config_write(0, 0x58, 1, fdhc)].concat()
    }

    /// A board that the proved call is asked about.
    struct Proved {
        board: Board,
        lent: Lent,
        /// What PAMR and FDHC are written.
        shadow: Vec<Record>,
    }

    impl Proved {
        /// The proved call's answers to the last records of a list.
        fn asked(&mut self, list: &[Record], last: usize) -> Vec<Answer> {
            let records = record::encode(list);
            let mut answers = vec![0; records.len()];
            let Lent { memory, display } = &mut self.lent;
            assert_eq!(gmch_replay(self.board.number(), memory, &records, &mut answers, display), 0);
            record::decode_answers(&answers).skip(list.len() - last).collect()
        }

        /// What the proved call does with an access after these records: a cell's words without the rule.
        fn goes(&mut self, setup: &[Record], probe: Record) -> &'static str {
            let list = [setup, &[probe], &config_write(0, 0x70, 4, 0)[..1], &[Record::io_read(0xCFC, 1)]].concat();
            let [answer, _, smram] = self.asked(&list, 3)[..] else { panic!("three answers") };
            match (answer.refusal(), answer.target()) {
                (None, Some(Target::Memory)) if answer.address == probe.address => "memory",
                (None, Some(Target::Memory)) if answer.address + 0xFEE0_0000 == probe.address => "A0000h up",
                (None, Some(Target::Hub)) if smram.value & 1 != 0 => "hub, error",
                (None, Some(Target::Hub)) => "hub",
                (None, Some(Target::Vga)) => "VGA",
                (None, Some(Target::MemoryMapped)) => "registers",
                // The setups leave translation off.
                (Some(Refusal::TranslationOff), _) => "window",
                other => panic!("{other:?}"),
            }
        }

        /// What the proved call does with an entry that names a page: by a fetch of the parser, which needs no
        /// window of the board's own. A table in main memory is at 20000h. Not locked, so that the entry is stored.
        fn met(&mut self, smram: u32, page: u32) -> &'static str {
            let on = if smram & 0xC0 == 0 { smram | 0xC0 } else { smram } & !2;
            let mut list = [setup(on, 0x8000_0000, 0x4000_0000, 1), self.shadow.clone()].concat();
            let registers =
                [(names::PGTBL_CTL, 0x2_0001), (0x1_0010, page | 1), (0x2038, 0x4000), (0x203C, 1), (0x2030, 8)];
            list.extend(registers.map(|(at, data)| Record::write(0x4000_0000 + at, 4, data, false)));
            list.push(Record::run(1));
            match self.asked(&list, 1)[0] {
                Answer { code: 0, count: 1, .. } => "memory",
                Answer { code: 6, .. } => "refused 6",
                Answer { code: 7, .. } => "refused 7",
                other => panic!("{other}"),
            }
        }

        /// Each column at this address, and the mark, as the proved call has them.
        fn check(&mut self, row: &Row, setup: &[Record], smram: u32, address: u32) {
            let [processor, data, code, master] = probes(address).map(|probe| self.goes(setup, probe));
            let management = if data == code { data } else { "code memory" };
            let mut expected = [processor, management, master].map(str::to_string);
            if words::SHADOW.contains(&address) {
                let writes = write_probes(address).map(|probe| self.goes(setup, probe));
                for (read, write) in expected.iter_mut().zip(writes).filter(|(read, write)| read != write) {
                    read.push_str(&format!("/{write}"));
                }
            }
            let found = row.cells.each_ref().map(|cell| cell.text.split(" (").next().unwrap_or_default());
            assert_eq!(found[..3], expected, "{address:X}h, SMRAM {smram:X}h");
            let graphics = if address < 0x4000_0000 { self.met(smram, address & !0xFFF) } else { "-" };
            assert_eq!(found[3], graphics, "{address:X}h, SMRAM {smram:X}h");
            assert_eq!(row.protected, graphics == "refused 6", "{address:X}h, SMRAM {smram:X}h");
        }
    }

    /// SMRAM at each of these, at bases below, around and above memory: each row is right at its ends, next to them
    /// and inside, by the reference and by the proved call, and the rows cover all addresses. How many were asked.
    fn every_row_is_right(board: Board, smrams: impl Iterator<Item = u32>) -> usize {
        let bases = [(0, 0), (0xC000_0000, 0xF000_0000), (0xFC00_0000, 0xFFF8_0000), (0, 0x0200_0000), (0, 0x10_0000)];
        let memory = Memory::zeros(board, 8 << 20);
        let mut asked = 0;
        for smram in smrams {
            // Every other one locked.
            let smram = smram | smram >> 1 & 2;
            for (number, (window, registers)) in bases.into_iter().enumerate().skip(smram as usize / 4 % 2).step_by(2) {
                let records = setup(smram, window, registers, number as u32 & 1);
                let list = List::binary(String::new(), record::encode(&records)).expect("whole records");
                let map = Map::after(board, &memory, &list).expect("a map");
                asked += check(&map, board, &memory, &records, smram, &[]);
            }
        }
        asked
    }

    /// Request 8 of document 02: each segment with each pair, and the hole with U below it, in it and above it.
    #[test]
    fn every_address_of_shadow_memory_goes_where_its_row_says() {
        let mut asked = 0;
        // U is F00000h, F80000h, 1000000h, 1700000h and 800000h.
        for (number, (mebibytes, smram)) in
            [(16, 0x7C), (16, 0x80), (16, 0x00), (24, 0x4E | 0x30), (8, 0x48)].into_iter().enumerate()
        {
            let board = Board::ALL[number % 4];
            let memory = Memory::zeros(board, mebibytes << 20);
            for (pamr, fdhc) in [(0x00, 0x80), (0x1B, 0x00), (0xB1, 0xFF), (0x6C, 0x80), (0xC6, 0x7F), (0xFF, 0x80)] {
                let shadow = shadow(pamr, fdhc);
                let records = [setup(smram, 0xC000_0000, 0xF000_0000, 0), shadow.clone()].concat();
                let list = List::binary(String::new(), record::encode(&records)).expect("whole records");
                let map = Map::after(board, &memory, &list).expect("a map");
                asked += check(&map, board, &memory, &records, smram, &shadow);
                let named = |name| map.rows.iter().filter(|row| row.name == name).count();
                assert_eq!(named("hole"), usize::from(fdhc & 0x80 != 0 && number != 0 && number != 4));
                let segments = match pamr {
                    0x00 | 0xFF => 1,
                    _ => 4,
                };
                assert_eq!(named("BIOS"), segments, "PAMR {pamr:02X}h");
            }
        }
        assert!(asked > 1_000, "{asked}");
    }

    /// The map's own writes come after the table was looked at: it is shown as the list left it, wherever it lies.
    #[test]
    fn a_table_in_shadow_memory_is_shown_as_it_was_left() {
        let board = Board::I82810Main;
        let memory = Memory::zeros(board, 8 << 20);
        let mut records = [setup(0x4C, 0xC000_0000, 0xF000_0000, 0), shadow(0xFF, 0)].concat();
        records.push(Record::write(0xF000_0000 + names::PGTBL_CTL, 4, 0xC_0001, false));
        // The words at C0000h, and those where a segment starts.
        let entries = [0_u32, 1, 0x4000 - 1].map(|entry| (entry, (0x10_0000 + 4096 * entry) | 1));
        records.extend(entries.map(|(entry, word)| Record::write(0xC_0000 + 4 * entry, 4, word, false)));
        let list = List::binary(String::new(), record::encode(&records)).expect("whole records");
        let map = Map::after(board, &memory, &list).expect("a map");
        let runs: Vec<(u32, u32)> = map.table.mappings.iter().map(|mapping| (mapping.first, mapping.last)).collect();
        assert_eq!(runs, [(0, 1), (0x3FFF, 0x3FFF)]);
    }

    #[test]
    fn every_address_of_a_row_goes_where_the_row_says() {
        let asked = every_row_is_right(Board::I82810, (0..=0xFF).step_by(4));
        assert!(asked > 5_000, "{asked}");
    }

    #[test]
    fn a_table_in_main_memory_leaves_the_map() {
        let asked = every_row_is_right(Board::Dc100Main, (0..=0xFF).step_by(28));
        assert!(asked > 500, "{asked}");
    }

    fn check(map: &Map, board: Board, memory: &Memory, setup: &[Record], smram: u32, shadow: &[Record]) -> usize {
        let mut proved = Proved { board, lent: memory.fresh(), shadow: shadow.to_vec() };
        let (mut lent, mut table) = (memory.fresh(), Box::new([0; TABLE_WORDS]));
        let Lent { memory, display } = &mut lent;
        let mut hub = Gmch::observed(board, memory, &mut table, display, Heard::default()).expect("a board");
        for record in setup {
            hub.answer(record);
        }
        let mut asked = 0;
        let mut next = 0;
        for row in &map.rows {
            assert_eq!(u64::from(row.first), next, "the rows leave no gap");
            next = u64::from(row.last) + 1;
            let inside = row.first + (row.last - row.first) / 3;
            for address in [row.first, row.first + 4, inside & !3, row.last & !3] {
                let mut goes = |probe| {
                    hub.answer(&probe);
                    hub.observer().0.take().expect("every address is routed")
                };
                let rules = probes(address).map(&mut goes);
                let mut found = [cell(rules[0]), management(rules[1], rules[2]), cell(rules[3])];
                if words::SHADOW.contains(&address) {
                    let writes = write_probes(address).map(|probe| cell(goes(probe)));
                    found = [0, 1, 2].map(|column| split(&found[column], &writes[column]));
                }
                assert_eq!(found, row.cells[..3], "{address:X}h");
                assert_eq!(hub.protected(address), row.protected, "{address:X}h");
                proved.check(row, setup, smram, address);
                asked += 1;
            }
        }
        assert_eq!(next, 1 << 32);
        asked
    }

    #[test]
    fn entries_that_count_up_are_one_mapping() {
        let mut table = [0; 16];
        table[1] = 0x0010_0001;
        table[2] = 0x0010_1007;
        table[3] = 0x0010_3001;
        table[4] = 0x0010_4001;
        table[5] = 0x0010_3003;
        table[6] = 0x0070_0005;
        table[8] = 0x0080_0001;
        table[9] = 0x0080_1003;
        table[10] = 0x0080_2003;
        table[11] = 0x0080_4003;
        let reach = |kind, page| match kind {
            0b01 | 0b10 => Reach::OtherMemory,
            _ if page >= 0x80_0000 => Reach::AboveMemory,
            _ => Reach::Reached,
        };
        let mapping =
            |first, last, page, kind, reach| Mapping { first, last, found: Found::Pages { page, kind, reach } };
        let expected = [
            mapping(1, 1, 0x10_0000, 0b00, Reach::Reached),
            mapping(2, 2, 0x10_1000, 0b11, Reach::Reached),
            mapping(3, 4, 0x10_3000, 0b00, Reach::Reached),
            mapping(5, 5, 0x10_3000, 0b01, Reach::OtherMemory),
            mapping(6, 6, 0x70_0000, 0b10, Reach::OtherMemory),
            mapping(8, 8, 0x80_0000, 0b00, Reach::AboveMemory),
            mapping(9, 10, 0x80_1000, 0b01, Reach::OtherMemory),
            mapping(11, 11, 0x80_4000, 0b01, Reach::OtherMemory),
        ];
        assert_eq!(runs(table.map(Word::Shown), reach), expected);
    }

    /// Request 11 of document 02: what an entry of each type reaches, on each board, with DRT's bit 0 at 0 and at 1.
    #[test]
    fn entries_reach_the_memory_of_their_type() {
        // The key's page, the first and the last page of memory and of the display cache, and the first past them.
        let pages = [0xA_0000, 0, 0x3F_F000, 0x40_0000, 0x7F_F000, 0x80_0000];
        let main =
            [Reach::Protected, Reach::Reached, Reach::Reached, Reach::Reached, Reach::Reached, Reach::AboveMemory];
        let cache = [
            Reach::Reached,
            Reach::Reached,
            Reach::Reached,
            Reach::AboveMemory,
            Reach::AboveMemory,
            Reach::AboveMemory,
        ];
        let none = [Reach::OtherMemory; 6];
        for (board, drt) in Board::ALL.into_iter().flat_map(|board| [(board, 0), (board, 1)]) {
            let (mut lent, mut table) = (Memory::zeros(board, 8 << 20).fresh(), Box::new([0; TABLE_WORDS]));
            let Lent { memory, display } = &mut lent;
            let mut hub = Gmch::new(board, memory, &mut table, display).expect("a board");
            let mut records = setup(0x4C, 0xC000_0000, 0xF000_0000, 0);
            records.push(Record::write(0xF000_0000 + names::DRT, 1, drt, false));
            records.iter().for_each(|record| assert_eq!(hub.answer(record).code, 0));
            let with = board.display_bytes() != 0;
            assert_eq!(display_on(&hub), with.then_some(drt == 1));
            for (kind, expected) in
                [(0b00, main), (0b01, if with && drt == 1 { cache } else { none }), (0b10, none), (0b11, main)]
            {
                assert_eq!(
                    pages.map(|page| Reach::of(&hub, kind, page)),
                    expected,
                    "{board}, DRT {drt}, type {kind:02b}"
                );
            }
        }
    }

    /// A hub with its table in main memory, at the base that PGTBL_CTL is given, in a memory of 8 MiB.
    fn table_in_memory(smram: u32, base: u32, words: &[(usize, u32)], guarded: Range<u32>) -> Table {
        let (mut memory, mut table) = (vec![0; 8 << 20], Box::new([0; TABLE_WORDS]));
        for &(at, word) in words {
            memory[at..at + 4].copy_from_slice(&word.to_le_bytes());
        }
        let mut hub = Gmch::new(Board::I82810Main, &mut memory, &mut table, &mut []).expect("a board");
        let mut records = setup(smram, 0xC000_0000, 0xF000_0000, 0);
        records.push(Record::write(0xF000_0000 + names::PGTBL_CTL, 4, base, false));
        for record in &records {
            assert_eq!(hub.answer(record).code, 0);
        }
        Table::of(&hub, &[guarded])
    }

    /// Words that are refused and words that are not for everybody are told by range, whatever is in them.
    #[test]
    fn words_of_a_table_in_main_memory_are_told_by_range() {
        let words = [(0x9_FFF8, 0x10_0001), (0x9_FFFC, 0xC010_1FF9), (0xA_0000, 0x10_2001), (0xA_0FFC, 0x10_3001)];
        let mapping = |first, last, found| Mapping { first, last, found };
        let pages = Found::Pages { page: 0x10_0000, kind: 0, reach: Reach::Reached };
        let shut = table_in_memory(0x4C, 0x9_F001, &words, 0xA_0000..0xC_0000);
        let expected = [mapping(1022, 1023, pages), mapping(1024, 16383, Found::Refused(Refusal::PageProtected))];
        assert_eq!(shut, Table { translation: true, home: Some(0x9_F000), display: None, mappings: expected.to_vec() });
        assert_eq!(shut.places(&expected[1]), Some((0xA_0000, 0xA_EFFF)));
        assert_eq!((shut.home(), shut.refusal()), (Some((0x9_F000, 0xA_EFFF)), None));
        // Open now, and protected at another time.
        let open = table_in_memory(0x44, 0x9_F000, &words, 0xA_0000..0xC_0000);
        assert_eq!(open.mappings, [mapping(1022, 1023, pages), mapping(1024, 16383, Found::Hidden)]);
        assert!(!open.translation);
        // Never protected.
        let never = table_in_memory(0x44, 0x9_F000, &words, 0..0);
        let last = mapping(2047, 2047, Found::Pages { page: 0x10_3000, kind: 0, reach: Reach::Reached });
        assert_eq!(never.mappings, [mapping(1022, 1024, pages), last]);
    }

    #[test]
    fn a_table_out_of_reach_is_said_to_be() {
        for (smram, base, refusal, part) in [
            (0x4C, 0xA_0001, Refusal::PageProtected, "A0000h-AFFFFh (PGTBL_CTL), protected: every word is refused 6."),
            (0x70, 0x70_0000, Refusal::PageProtected, "700000h-70FFFFh (PGTBL_CTL), protected: "),
            (
                0x40,
                0x80_0000,
                Refusal::PageAboveMemory,
                "800000h-80FFFFh (PGTBL_CTL), at or above TOM: every word is refused 7.",
            ),
            (0x40, 0xFFFF_F000, Refusal::PageAboveMemory, "FFFFF000h-10000EFFFh (PGTBL_CTL), at or above TOM: "),
        ] {
            let table = table_in_memory(smram, base, &[], 0..0);
            assert_eq!(table.refusal(), Some(refusal));
            let line = table.line().expect("it is in main memory");
            assert!(line.contains(part), "{line}");
        }
        let reached = table_in_memory(0x4C, 0x20_0001, &[], 0..0);
        assert_eq!((reached.refusal(), reached.mappings.len()), (None, 0));
        let line = "Translation table: in main memory, 200000h-20FFFFh (PGTBL_CTL).";
        assert_eq!(reached.line().as_deref(), Some(line));
        assert_eq!(Table::default().line(), None);
    }

    /// Any memory may be taken for a table.
    #[test]
    fn of_a_long_table_in_main_memory_some_lines_are_shown() {
        let words: Vec<(usize, u32)> = (0..16_384).map(|word| (0x20_0000 + 4 * word, 0x10_0001)).collect();
        let table = table_in_memory(0x40, 0x20_0001, &words, 0..0);
        let (shown, left) = table.shown();
        assert_eq!((shown.len(), left, table.mappings.len()), (64, 16_320, 16_384));
        let private = Table { home: None, ..table };
        assert_eq!((private.shown().0.len(), private.shown().1), (16_384, 0));
    }
}
