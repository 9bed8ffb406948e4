//! What random lists on the largest memory must have met near its top (request 6 of document 02).

use super::words::Meets;
use mitrophel::reference::{Rule, TableWord, Touch};
use mitrophel::{Answer, Board, Kind, Record, Refusal};
use std::fmt;
use std::ops::Range;

const MIB: u32 = 1 << 20;
/// Where the largest memory of document 01 ends.
const OLD_TOP: u32 = 512 * MIB;

/// A record with its answer, and what it met.
pub struct Met<'a> {
    pub meets: &'a Meets,
    pub rule: Option<Rule>,
    pub word: Option<TableWord>,
    /// The entry that it looked up, a run's last.
    pub entry: Option<u32>,
    pub landing: Option<Touch>,
    pub record: &'a Record,
    pub answer: &'a Answer,
}

impl Met<'_> {
    /// Whether one of these rules routed it.
    pub fn by(&self, rules: &[Rule]) -> bool {
        self.rule.is_some_and(|rule| rules.contains(&rule))
    }

    /// Whether it reached memory here.
    fn landed(&self, range: Range<u32>) -> bool {
        self.answer.code == 0 && self.landing.is_some_and(|touch| range.contains(&touch.address))
    }

    /// Whether its table word was refused.
    fn word_refused(&self) -> bool {
        self.word.is_some_and(|word| word.refusal.is_some())
    }

    /// Whether it is a write of an entry with a page here that was refused with code 16.
    fn forbidden(&self, pages: Range<u32>) -> bool {
        self.answer.code == 16 && pages.contains(&(self.record.data & 0x3FFF_F000))
    }

    /// Whether an entry's page in the TSEG was refused. A0000h-BFFFFh is open, so that it is no page there.
    fn page_in_tseg(&self) -> bool {
        self.answer.code == 6 && !self.word_refused() && !self.meets.compatible_protected
    }
}

/// How many [`places`] there are.
const PLACES: usize = 26;

/// Each place, and whether the record met it.
fn places(met: &Met) -> [(&'static str, bool); PLACES] {
    let Meets { tom, usable_top, tseg, graphics, registers_base, window_base, window_bytes, .. } = *met.meets;
    let address = met.record.address;
    let last_page = tom.saturating_sub(4096)..tom;
    let main = met.by(&[Rule::Main]);
    let rule_5 = met.by(&[Rule::Taken, Rule::TsegMemory, Rule::TsegError]);
    let registers = graphics && address.wrapping_sub(registers_base) < MIB / 2;
    let window = graphics && address.wrapping_sub(window_base) < window_bytes;
    let above = address.wrapping_sub(tom) < 64 * MIB;
    let master_hub = met.by(&[Rule::MasterHub]);
    let by_window = met.by(&[Rule::Window]);
    let run = met.record.kind() == Some(Kind::Run) && met.answer.code != 13;
    [
        ("memory from 512 MiB up", main && address >= OLD_TOP),
        ("last word below U", main && address.wrapping_add(4) & !3 == usable_top),
        ("last word of memory", (main || rule_5) && address.wrapping_add(4) & !3 == tom),
        ("taken memory", met.by(&[Rule::Taken])),
        ("TSEG", met.by(&[Rule::TsegError])),
        ("TSEG in management mode", met.by(&[Rule::TsegMemory])),
        ("registers in the 64 MiB above TOM", met.by(&[Rule::Registers]) && above),
        ("window in the 64 MiB above TOM", by_window && above),
        ("hub in the 64 MiB above TOM", met.by(&[Rule::Elsewhere]) && above),
        ("registers hidden by memory", main && registers),
        ("registers hidden by rule 5", rule_5 && registers),
        ("window hidden by memory", main && window),
        ("window hidden by rule 5", rule_5 && window),
        ("hub master: memory from 512 MiB up", met.by(&[Rule::MasterMain]) && address >= OLD_TOP),
        ("hub master: taken memory", master_hub && (usable_top..tseg).contains(&address)),
        ("hub master: TSEG", master_hub && (tseg..tom).contains(&address)),
        ("hub master: the 64 MiB above TOM", master_hub && above),
        ("window access: memory from 512 MiB up", by_window && met.landed(OLD_TOP..tom)),
        ("window access: taken memory", by_window && met.landed(usable_top..tseg)),
        ("window access: last page of memory", by_window && met.landed(last_page.clone())),
        ("window access: page in the TSEG", by_window && met.page_in_tseg()),
        ("fetch: memory from 512 MiB up", run && met.landed(OLD_TOP..tom)),
        ("fetch: last page of memory", run && met.landed(last_page)),
        ("fetch: page in the TSEG", run && met.page_in_tseg()),
        ("table write refused with 16: page in the TSEG", met.forbidden(tseg..tom)),
        ("table write refused with 16: last page of memory", met.forbidden(tom.saturating_sub(4096)..tom)),
    ]
}

/// How many [`words`] there are.
const WORDS: usize = 4;

/// The same of a table word in main memory.
fn words(met: &Met) -> [(&'static str, bool); WORDS] {
    let reached = |from: u64| met.word.is_some_and(|word| word.refusal.is_none() && word.address >= from);
    let refused = |refusal| met.word.filter(|word| word.refusal == Some(refusal));
    let tseg = u64::from(met.meets.tseg);
    [
        ("table word from 512 MiB up", reached(u64::from(OLD_TOP))),
        ("table word: last of memory", reached(u64::from(met.meets.tom.saturating_sub(4)))),
        ("table word in the TSEG", refused(Refusal::PageProtected).is_some_and(|word| word.address >= tseg)),
        ("table word at or above TOM", refused(Refusal::PageAboveMemory).is_some()),
    ]
}

/// How often each place was met on a memory above 512 MiB, on each board, and how often code 7 was given to an entry that
/// names a page of main memory.
#[derive(Clone, Default)]
pub struct Top {
    places: [[u64; PLACES]; Board::ALL.len()],
    words: [[u64; WORDS]; Board::ALL.len()],
    pub entries_above: u64,
}

impl Top {
    pub fn note(&mut self, board: usize, met: &Met) {
        if met.meets.tom <= OLD_TOP {
            return;
        }
        for (count, (_, holds)) in self.places[board].iter_mut().zip(places(met)) {
            *count += u64::from(holds);
        }
        for (count, (_, holds)) in self.words[board].iter_mut().zip(words(met)) {
            *count += u64::from(holds);
        }
        let of_memory = met.entry.is_some_and(|entry| entry >> 1 & 3 != 1);
        self.entries_above += u64::from(met.answer.code == 7 && !met.word_refused() && of_memory);
    }

    pub fn add(&mut self, other: &Top) {
        let (places, words) = (self.places.iter_mut().flatten(), self.words.iter_mut().flatten());
        let others = other.places.iter().flatten().chain(other.words.iter().flatten());
        for (own, other) in places.chain(words).zip(others) {
            *own += other;
        }
        self.entries_above += other.entries_above;
    }

    /// Each count with its name; table words only where they are in main memory.
    fn named(&self) -> Vec<(String, u64)> {
        let met = Met {
            meets: &Meets::default(),
            rule: None,
            word: None,
            entry: None,
            landing: None,
            record: &Record::default(),
            answer: &Answer::default(),
        };
        let mut named = Vec::new();
        for (number, board) in Board::ALL.into_iter().enumerate() {
            let places = places(&met).into_iter().zip(self.places[number]);
            let words = words(&met).into_iter().zip(self.words[number]).filter(|_| board.table_in_memory());
            named.extend(places.chain(words).map(|((name, _), count)| (format!("{name}, board {board}"), count)));
        }
        named
    }

    /// What was never met.
    pub fn missing(&self) -> Vec<String> {
        self.named().into_iter().filter(|(_, count)| *count == 0).map(|(name, _)| name).collect()
    }
}

impl fmt::Display for Top {
    fn fmt(&self, f: &mut fmt::Formatter<'_>) -> fmt::Result {
        self.named().iter().try_for_each(|(name, count)| writeln!(f, "{count:>10}  {name}"))
    }
}
