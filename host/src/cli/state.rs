//! `state`: what the records of a list leave in the hub.
//!
//! The values are those of the reference, which agrees with the proved call in every answer and in every
//! byte of memory. No byte of memory is shown that is protected at some time: of the ring's words and of those of a
//! translation table in main memory those that lie there are left out.

mod dump;
mod registers;
mod ring;

use super::args::Grammar;
use super::failure::{Failure, Status};
use super::load::{List, Memory};
use super::pair::{Hub, Pair};
use super::style::Style;
use super::survey::{self, Found, Mapping, Reach, Table};
use super::told::Tone;
use super::{numbers, say, words};
use mitrophel::record::RECORD_BYTES;
use mitrophel::trace::REDACTED;
use mitrophel::{Board, Refusal};
use std::ffi::OsString;
use std::ops::Range;

pub const GRAMMAR: Grammar = Grammar {
    command: "state",
    values: &["--board", "--memory", "--image", "--display", "--color"],
    switches: &["--text", "--binary", "--lspci"],
    files: 1,
};

/// `mitrophel state`
pub fn run(words: &[OsString]) -> Result<Status, Failure> {
    let options = GRAMMAR.parse(words)?;
    let board = options.board()?;
    let style = Style::new(options.colour()?);
    let form = options.form()?;
    let source = options.source()?;
    options.one_standard_input()?;
    let memory = Memory::given(&options, board)?;
    let list = List::read(&source, form)?;
    let guarded = list.guarded(memory.length());
    let mut pair = Pair::new(board, [memory.fresh(), memory.fresh()]).guarding(guarded.clone());
    let last = survey::last_call(&mut pair, &list)?;
    let text = pair.look(last, |hub| match options.has("--lspci") {
        true => dump::devices(hub, board),
        false => whole(hub, &guarded, board, list.records.len() / RECORD_BYTES, style),
    })?;
    say(&text)
}

/// All sections. Values of guarded memory are not for everybody.
fn whole(hub: &Hub<'_>, guarded: &[Range<u32>], board: Board, records: usize, style: Style) -> String {
    let after = numbers::counted(records as u64, "record");
    let title = format!("State: board {board}, {}, after {after}", numbers::bytes(hub.tom().into()));
    let mut page = Page { style, text: format!("{}\n", style.bold(&title)) };
    memory(&mut page, hub);
    registers::configuration(&mut page, hub, board);
    registers::mapped(&mut page, hub);
    table(&mut page, &Table::of(hub, guarded), hub.smram().locked());
    ring::words(&mut page, hub, guarded);
    page.heading("Configuration space, as 'lspci -F' reads it");
    page.text.push_str(dump::devices(hub, board).trim_end());
    page.text.push('\n');
    page.text
}

/// The text as it grows.
struct Page {
    style: Style,
    text: String,
}

impl Page {
    fn heading(&mut self, title: &str) {
        let title = self.style.bold(title);
        self.text.push_str(&format!("\n{title}\n"));
    }

    /// What something is, and beside it words that are wrapped.
    fn row(&mut self, left: &str, words: &str) {
        self.toned(left, words, Tone::Reached);
    }

    fn toned(&mut self, left: &str, words: &str, tone: Tone) {
        let column = left.chars().count() + 4;
        let lines = words::wrapped(words, words::WIDTH - column);
        if lines.is_empty() {
            self.text.push_str(&format!("  {}\n", left.trim_end()));
        }
        let lines: Vec<String> = lines.iter().map(|line| self.style.tone(tone, line)).collect();
        for line in words::beside(left, column, &lines) {
            self.text.push_str(&format!("{line}\n"));
        }
    }
}

/// Where memory ends, what of it the hole hides and what is protected.
fn memory(page: &mut Page, hub: &Hub<'_>) {
    page.heading("Memory");
    page.row(&format!("TOM        {:8X}h", hub.tom()), "memory ends");
    page.row(&format!("U          {:8X}h", hub.usable_top()), "ordinary memory ends");
    let hole = words::HOLE.start..words::HOLE.end.min(hub.usable_top());
    if hub.hole() && !hole.is_empty() {
        page.row(&format!("hole       {:8X}h", hole.start), &format!("to {:X}h goes to the hub", hole.end - 1));
    }
    for range in hub.protected_ranges() {
        page.row(&format!("protected  {:8X}h", range.start), &format!("to {:X}h", range.end - 1));
    }
    if let Some(on) = survey::display_on(hub) {
        let words = format!("the display cache's length; it is {}", words::display(on));
        page.row(&format!("display    {:8X}h", hub.board().display_bytes()), &words);
    }
}

/// The valid entries of the translation table, and where it is in main memory.
fn table(page: &mut Page, table: &Table, locked: bool) {
    page.heading(match table.translation {
        true => "Translation table",
        false => "Translation table (off: every access through it is refused 3)",
    });
    let beside = |what: &str, more: &str| format!("{what:<20}  {more:<19}");
    let row = |what: &str, range: (u64, u64)| beside(what, &format!("{:X}h-{:X}h", range.0, range.1));
    if let Some(home) = table.home() {
        page.row(&row("in main memory", home), "by PGTBL_CTL's bits 31:12");
    }
    let (mappings, left) = table.shown();
    if mappings.is_empty() {
        page.row("no valid entry", "");
    }
    for mapping in mappings {
        let range = match mapping.found {
            Found::Pages { page, .. } => Some((page.into(), u64::from(page) + 4096 * mapping.count() - 1)),
            Found::Refused(_) | Found::Hidden => table.places(mapping),
        };
        let (tone, words) = reached(mapping, table.display);
        page.toned(&row(&mapping.entries(), range.unwrap_or_default()), &words, tone);
    }
    if left != 0 {
        page.row(&format!(".. and {}", numbers::counted(left, "more word")), "");
    }
    if locked {
        let (tone, count, words) = protected_pages(table);
        page.toned(&beside("of protected pages", &count), words, tone);
    }
}

/// What an auditor asks once SMRAM is locked: how many entries name a protected page all the same, and why. Of words that
/// are not for everybody nothing is said.
fn protected_pages(table: &Table) -> (Tone, String, &'static str) {
    let protected = |mapping: &&Mapping| matches!(mapping.found, Found::Pages { reach: Reach::Protected, .. });
    let count: u64 = table.mappings.iter().filter(protected).map(Mapping::count).sum();
    let hidden = table.mappings.iter().any(|mapping| mapping.found == Found::Hidden);
    let counted = match (count, hidden) {
        (0, false) => "none".to_string(),
        (0, true) => "none of those shown".to_string(),
        (1, false) => "1 entry".to_string(),
        (_, false) => format!("{} entries", numbers::grouped(count)),
        (_, true) => format!("{} of those shown", numbers::grouped(count)),
    };
    let words = match (count, table.home) {
        (0, None) => "and none can come: SMRAM is locked",
        (0, Some(_)) => "ordinary writes may put one there",
        (_, None) => "from before the lock",
        (_, Some(_)) => "from before, or by ordinary writes",
    };
    (if count == 0 { Tone::Reached } else { Tone::Refused }, counted, words)
}

/// What a mapping reaches, or its refusal; `display` says whether the display cache is on, where there is one.
fn reached(mapping: &Mapping, display: Option<bool>) -> (Tone, String) {
    let (kind, reach) = match mapping.found {
        Found::Pages { kind, reach, .. } => (kind, reach),
        Found::Refused(Refusal::PageProtected) => return (Tone::Refused, "refused 6: in protected memory".to_string()),
        Found::Refused(_) => return (Tone::Refused, "refused 7: at or above TOM".to_string()),
        Found::Hidden => return (Tone::Reached, REDACTED.to_string()),
    };
    let name = match kind {
        0b01 => "display cache (type 01)",
        0b10 => "type 10",
        0b11 => "main memory (type 11)",
        _ => "main memory",
    };
    match reach {
        Reach::Reached => (Tone::Reached, name.to_string()),
        Reach::OtherMemory if kind == 0b01 && display == Some(false) => {
            (Tone::Refused, "refused 5: display cache is off".to_string())
        }
        Reach::OtherMemory => (Tone::Refused, format!("refused 5: {name}")),
        Reach::Protected => (Tone::Refused, format!("refused 6: protected {name}")),
        Reach::AboveMemory if kind == 0b01 => (Tone::Refused, "refused 7: past the display cache".to_string()),
        Reach::AboveMemory => (Tone::Refused, "refused 7: at or above TOM".to_string()),
    }
}
