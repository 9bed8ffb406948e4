//! What random lists must have met of entries that a locked board does not store (request 9 of document 02).

use super::words::{Event, Meets};
use mitrophel::reference::{Rule, Smram};
use mitrophel::{Answer, Board, Kind, Record, Target};

const PAGE: u32 = 4096;
/// The bits that an entry's register stores.
const STORED: u32 = 0x3FFF_F007;

/// Why a page is protected.
#[derive(Clone, Copy, PartialEq, Eq)]
enum Protection {
    CodeReadsOnly,
    ManagementOnly,
    Hseg,
    Tseg512KiB,
    Tseg1MiB,
}

impl Protection {
    const ALL: [(Protection, &str); 5] = [
        (Protection::CodeReadsOnly, "LSMM 10"),
        (Protection::ManagementOnly, "LSMM 11"),
        (Protection::Hseg, "HSEG"),
        (Protection::Tseg512KiB, "TSEG of 512 KiB"),
        (Protection::Tseg1MiB, "TSEG of 1 MiB"),
    ];

    /// "Protected: A0000h-BFFFFh if LSMM is 10 or 11, or HSEG acts; and the TSEG."
    fn of(page: u32, meets: &Meets) -> Option<Protection> {
        let (usmm, lsmm) = (meets.smram >> 4 & 3, meets.smram >> 2 & 3);
        match page {
            0xA_0000..=0xB_FFFF => match (lsmm, usmm) {
                (2, _) => Some(Protection::CodeReadsOnly),
                (3, _) => Some(Protection::ManagementOnly),
                (0, 1..) => Some(Protection::Hseg),
                _ => None,
            },
            _ if !(meets.tseg..meets.tom).contains(&page) => None,
            _ if usmm == 2 => Some(Protection::Tseg512KiB),
            _ => Some(Protection::Tseg1MiB),
        }
    }
}

/// The page that a word names.
fn page_of(word: u32) -> u32 {
    word & 0x3FFF_F000
}

/// A record with its answer, and what it met.
pub struct Met<'a> {
    pub meets: &'a Meets,
    pub rule: Option<Rule>,
    /// The entry that it looked up, a run's last, and who wrote it where it is a word in main memory.
    pub entry: Option<u32>,
    pub writer: Option<Event>,
    /// Whether a reset has opened a locked board.
    pub reopened: bool,
    pub record: &'a Record,
    pub answer: &'a Answer,
}

impl Met<'_> {
    fn locked(&self) -> bool {
        Smram(self.meets.smram).locked()
    }

    /// The number of the entry whose register it touches, be it in part.
    fn number(&self) -> Option<u32> {
        let offset = self.record.address.wrapping_sub(self.meets.registers_base);
        let touched = self.rule == Some(Rule::Registers) && (0x1_0000..0x2_0000).contains(&offset);
        touched.then(|| (offset - 0x1_0000) / 4)
    }

    /// Whether it writes a register of the table, in so many bytes.
    fn writes(&self, widths: &[u8]) -> bool {
        self.number().is_some() && self.record.kind() == Some(Kind::Write) && widths.contains(&self.record.width)
    }

    /// The word that a table write stores, its page, and why that is protected.
    fn word(&self) -> u32 {
        self.record.data & STORED
    }

    fn page(&self) -> u32 {
        page_of(self.word())
    }

    fn protection(&self) -> Option<Protection> {
        Protection::of(self.page(), self.meets)
    }

    /// Whether that page is of A0000h-BFFFFh.
    fn compatible(&self) -> bool {
        (0xA_0000..0xC_0000).contains(&self.page())
    }

    fn has_tseg(&self) -> bool {
        self.meets.tseg < self.meets.tom
    }

    /// Whether a word is valid and of type 00 or 11.
    fn of_main_memory(word: u32) -> bool {
        matches!(word & 7, 0b001 | 0b111)
    }

    /// Whether a word is forbidden as SMRAM stands.
    fn forbids(&self, word: u32) -> bool {
        self.locked() && Met::of_main_memory(word) && Protection::of(page_of(word), self.meets).is_some()
    }

    /// A table write that is refused with code 16.
    fn refused(&self) -> bool {
        self.writes(&[4]) && self.locked() && self.answer.code == 16
    }

    /// A table write with the lock set that is answered, although its page is protected.
    fn harmless(&self, bits: u32) -> bool {
        self.writes(&[4])
            && self.locked()
            && self.answer.code == 0
            && self.protection().is_some()
            && self.word() & 7 == bits
    }

    /// One of a valid entry of type 00 or 11, whose page is not.
    fn allowed(&self) -> bool {
        let good = Met::of_main_memory(self.word()) && self.protection().is_none();
        self.writes(&[4]) && self.locked() && self.answer.code == 0 && good
    }

    /// One that is answered, and would be refused if the lock were set.
    fn early(&self) -> bool {
        let bad = Met::of_main_memory(self.word()) && self.protection().is_some();
        self.writes(&[4]) && !self.locked() && self.answer.code == 0 && bad
    }

    /// One that would be refused with code 16 if another code did not come first.
    fn preceded(&self, widths: &[u8], code: u8) -> bool {
        self.writes(widths) && self.answer.code == code && self.forbids(self.word())
    }

    /// The word there with the one or two bytes that it writes.
    fn completed(&self) -> Option<u32> {
        let shift = 8 * (self.record.address % 4);
        let bits = ((1 << (8 * self.record.width)) - 1) << shift;
        self.meets.held.map(|held| held & !bits | self.record.data << shift & bits)
    }

    /// A use of a forbidden entry that is there: by a window access or by a fetch.
    fn uses(&self) -> bool {
        self.answer.code == 6 && self.entry.is_some_and(|entry| self.forbids(entry))
    }

    fn by_window(&self) -> bool {
        self.rule == Some(Rule::Window)
    }

    fn by_fetch(&self) -> bool {
        self.record.kind() == Some(Kind::Run)
    }

    /// A write of four bytes that lands on a table word in main memory and makes it a forbidden entry.
    fn changes(&self, rules: &[Rule]) -> bool {
        let table = self.meets.table.map(|base| base..base + 0x1_0000);
        let landed =
            self.answer.target() == Some(Target::Memory) && self.rule.is_some_and(|rule| rules.contains(&rule));
        let written = self.record.kind().is_some_and(Kind::is_write) && self.record.width == 4;
        let there = table.is_some_and(|words| words.contains(&u64::from(self.answer.address)));
        landed && written && there && self.forbids(self.record.data)
    }
}

/// On which boards something can be met.
#[derive(Clone, Copy, PartialEq, Eq)]
enum On {
    All,
    /// Those whose table is private.
    Private,
    /// Those whose table is in main memory.
    Main,
}

impl On {
    fn has(self, board: Board) -> bool {
        self == On::All || (self == On::Main) == board.table_in_memory()
    }
}

/// Something that may be the case, the boards on which it may, and whether it is.
type Fact = (&'static str, On, fn(&Met) -> bool);

const FACTS: &[Fact] = &[
    ("refused: data bits 31:30 set", On::All, |met| met.refused() && met.record.data >> 30 != 0),
    ("refused: data bits 11:3 set", On::All, |met| met.refused() && met.record.data & 0xFF8 != 0),
    ("refused: translation on", On::All, |met| met.refused() && met.meets.translation_on),
    ("refused: translation off", On::All, |met| met.refused() && !met.meets.translation_on),
    ("refused: interrupt line up", On::All, |met| met.refused() && met.answer.line != 0),
    ("refused: past a window of 32 MiB", On::All, |met| {
        met.refused() && met.number().is_some_and(|number| number >= met.meets.window_bytes / PAGE)
    }),
    ("refused: over a valid entry", On::All, |met| met.refused() && met.meets.held.is_some_and(|held| held & 1 != 0)),
    ("refused: over the same entry", On::All, |met| met.refused() && met.meets.held == Some(met.word())),
    ("refused: page A0000h", On::All, |met| met.refused() && met.page() == 0xA_0000),
    ("refused: page BF000h", On::All, |met| met.refused() && met.page() == 0xB_F000),
    ("refused: first page of the TSEG", On::All, |met| met.refused() && met.page() == met.meets.tseg),
    ("refused: last page of memory", On::All, |met| met.refused() && met.page() + PAGE == met.meets.tom),
    ("stored, locked: not valid, type 00", On::All, |met| met.harmless(0b000)),
    ("stored, locked: not valid, type 11", On::All, |met| met.harmless(0b110)),
    ("stored, locked: type 01", On::All, |met| met.harmless(0b011)),
    ("stored, locked: type 10", On::All, |met| met.harmless(0b101)),
    ("stored, locked: page 9F000h, the next protected", On::All, |met| {
        met.allowed() && met.page() == 0x9_F000 && met.meets.compatible_protected
    }),
    ("stored, locked: page C0000h, the one before protected", On::All, |met| {
        met.allowed() && met.page() == 0xC_0000 && met.meets.compatible_protected
    }),
    ("stored, locked: page of A0000h-BFFFFh, open", On::All, |met| met.allowed() && met.compatible()),
    ("stored, locked: page before the TSEG", On::All, |met| {
        met.allowed() && met.has_tseg() && met.page() + PAGE == met.meets.tseg
    }),
    ("stored, locked: taken memory", On::All, |met| {
        met.allowed() && (met.meets.usable_top..met.meets.tseg).contains(&met.page())
    }),
    ("stored, locked: last page of memory, no TSEG", On::All, |met| {
        met.allowed() && !met.has_tseg() && met.page() + PAGE == met.meets.tom
    }),
    ("stored, locked: TOM, after a TSEG", On::All, |met| {
        met.allowed() && met.has_tseg() && met.page() == met.meets.tom
    }),
    ("stored, locked: page above TOM", On::All, |met| met.allowed() && met.page() > met.meets.tom),
    ("stored, locked: page 3FFFF000h", On::All, |met| met.allowed() && met.page() == 0x3FFF_F000),
    ("stored, locked: ordinary page", On::All, |met| {
        met.allowed() && (0x10_0000..met.meets.usable_top).contains(&met.page())
    }),
    ("stored after a reset of a locked board", On::All, |met| met.reopened && met.early()),
    ("code 10 first: the data as it is", On::All, |met| met.preceded(&[1, 2], 10)),
    ("code 10 first: the bytes there", On::All, |met| {
        let narrow = met.writes(&[1, 2]) && met.answer.code == 10;
        narrow && met.completed().is_some_and(|word| met.forbids(word))
    }),
    ("code 7 of the word first", On::Main, |met| met.preceded(&[4], 7)),
    ("code 6 of the word first", On::Main, |met| met.preceded(&[4], 6)),
    ("read of one that is there", On::All, |met| {
        let reads = met.number().is_some() && met.record.kind().is_some_and(|kind| !kind.is_write());
        reads && met.answer.code == 0 && met.forbids(met.answer.value)
    }),
    ("use of one that is there: window access", On::Private, |met| met.uses() && met.by_window()),
    ("use of one that is there: fetch", On::All, |met| met.uses() && met.by_fetch()),
    ("use of one that its register wrote", On::Main, |met| met.uses() && met.writer == Some(Event::ByRegister)),
    ("use of one that the processor wrote", On::Main, |met| met.uses() && met.writer == Some(Event::ByProcessor)),
    ("use of one that a hub master wrote", On::Main, |met| met.uses() && met.writer == Some(Event::ByMaster)),
    ("use of one that was written through the window", On::Main, |met| {
        met.uses() && met.writer == Some(Event::ByWindow)
    }),
    ("ordinary write of one: processor", On::Main, |met| met.changes(&[Rule::Low, Rule::Main])),
    ("ordinary write of one: hub master", On::Main, |met| met.changes(&[Rule::MasterLow, Rule::MasterMain])),
    ("ordinary write of one: through the window", On::Main, |met| met.changes(&[Rule::Window])),
];

const TYPES: [(u32, &str); 2] = [(0, "00"), (3, "11")];
const MODES: [&str; 2] = ["", ", management mode"];

/// How often a valid entry of type 00 or 11 whose page is protected was written, by type, by what protects it and by mode.
type Writes = [[[u64; MODES.len()]; Protection::ALL.len()]; TYPES.len()];

/// On each board, how often such an entry was refused with code 16 and how often it was stored before the lock, and how
/// often each fact was the case.
#[derive(Clone)]
pub struct Forbidden {
    refused: [Writes; Board::ALL.len()],
    early: [Writes; Board::ALL.len()],
    facts: [[u64; FACTS.len()]; Board::ALL.len()],
}

// An array of so many facts has no default of its own.
impl Default for Forbidden {
    fn default() -> Forbidden {
        let (refused, early) = Default::default();
        Forbidden { refused, early, facts: [[0; FACTS.len()]; Board::ALL.len()] }
    }
}

/// The count of a write.
fn count<'a>(writes: &'a mut Writes, met: &Met) -> &'a mut u64 {
    let memory_type = TYPES.iter().position(|(number, _)| met.word() & 7 == number << 1 | 1);
    let protection =
        met.protection().and_then(|protection| Protection::ALL.iter().position(|(other, _)| *other == protection));
    let (memory_type, protection) = memory_type.zip(protection).expect("code 16 is given to nothing else");
    &mut writes[memory_type][protection][usize::from(met.record.is_management())]
}

impl Forbidden {
    pub fn note(&mut self, board: usize, met: &Met) {
        if met.refused() {
            *count(&mut self.refused[board], met) += 1;
        }
        if met.early() {
            *count(&mut self.early[board], met) += 1;
        }
        for (count, (_, _, holds)) in self.facts[board].iter_mut().zip(FACTS) {
            *count += u64::from(holds(met));
        }
    }

    /// How many table writes were refused with code 16 on each board.
    pub fn refused(&self) -> [u64; Board::ALL.len()] {
        self.refused.map(|writes| writes.iter().flatten().flatten().sum())
    }

    pub fn counts(&self) -> impl Iterator<Item = &u64> {
        let writes = self.refused.iter().chain(&self.early).flatten().flatten().flatten();
        writes.chain(self.facts.iter().flatten())
    }

    pub fn counts_mut(&mut self) -> impl Iterator<Item = &mut u64> {
        let writes = self.refused.iter_mut().chain(&mut self.early).flatten().flatten().flatten();
        writes.chain(self.facts.iter_mut().flatten())
    }

    /// What each of the counts is of; none for what cannot be on its board.
    pub fn names() -> Vec<Option<String>> {
        let mut names = Vec::new();
        for outcome in ["refused with 16", "stored before the lock"] {
            for board in Board::ALL {
                for (_, memory_type) in TYPES {
                    for (_, protection) in Protection::ALL {
                        let write = format!("entry {outcome}: type {memory_type}, {protection}");
                        names.extend(MODES.map(|mode| Some(format!("{write}{mode}, board {board}"))));
                    }
                }
            }
        }
        for board in Board::ALL {
            let facts = FACTS.iter().map(|(name, on, _)| (name, on.has(board)));
            names.extend(
                facts.map(|(name, possible)| possible.then(|| format!("forbidden entry: {name}, board {board}"))),
            );
        }
        names
    }
}
