//! What random lists must have met of shadow memory and of the hole below 16 MiB (request 8 of document 02).

use super::top::Met;
use mitrophel::reference::{Rule, Smram, WordUse};
use mitrophel::{Board, Kind, Record, Target};
use std::ops::Range;

/// What PAMR steers, in segments of 64 KiB.
const SHADOW: Range<u32> = 0xC_0000..0x10_0000;
const SEGMENTS: [&str; 4] = ["C0000h", "D0000h", "E0000h", "F0000h"];
const HOLE: Range<u32> = 0xF0_0000..0x100_0000;

/// Who makes an access, and what it does.
const ACCESSES: [&str; 8] = [
    "read",
    "write",
    "code read",
    "management read",
    "management write",
    "management code read",
    "master read",
    "master write",
];

fn access(record: &Record) -> Option<usize> {
    let management = if record.is_management() { 3 } else { 0 };
    Some(match record.kind()? {
        Kind::DataRead => management,
        Kind::Write => management + 1,
        Kind::CodeRead => management + 2,
        Kind::MasterRead => 6,
        Kind::MasterWrite => 7,
        _ => return None,
    })
}

/// Where an access is answered.
const ENDS: [&str; 2] = ["hub", "memory"];

fn end(met: &Met) -> Option<usize> {
    match met.answer.target()? {
        Target::Hub => Some(0),
        Target::Memory => Some(1),
        _ => None,
    }
}

/// Which word of a segment.
const WORDS: [&str; 2] = ["first word", "last word"];

impl Met<'_> {
    fn at(&self) -> u32 {
        self.record.address
    }

    fn word_is(&self, address: u32) -> bool {
        self.at() & !3 == address
    }

    fn master(&self) -> bool {
        matches!(self.record.kind(), Some(Kind::MasterRead | Kind::MasterWrite))
    }

    /// An access with the hole on that ended in the hub, or in memory.
    fn beside_hole(&self, address: u32, end: Target, master: bool) -> bool {
        let ended = self.answer.code == 0 && self.answer.target() == Some(end) && access(self.record).is_some();
        ended && self.meets.hole && self.word_is(address) && self.master() == master
    }

    /// An access where the hole would be if it did not end at U.
    fn past_hole(&self, rules: &[Rule]) -> bool {
        self.meets.hole && HOLE.contains(&self.at()) && self.by(rules)
    }

    /// Whether this byte is in the hole.
    fn hides(&self, address: u32) -> bool {
        self.meets.hole && HOLE.contains(&address) && address < self.meets.usable_top
    }

    /// Whether PAMR sends direct accesses to this byte to the hub.
    fn shut(&self, address: u32, write: bool) -> bool {
        let bit = if write { 0b10 } else { 0b01 };
        SHADOW.contains(&address) && self.meets.pamr >> (2 * ((address - SHADOW.start) >> 16)) & bit == 0
    }

    /// Where a window access of this sort landed.
    fn through_window(&self, write: bool) -> Option<u32> {
        let through = self.by(&[Rule::Window]) && self.record.kind().is_some_and(Kind::is_write) == write;
        let landed = self.landing.filter(|_| through && self.answer.target() == Some(Target::Memory));
        landed.map(|touch| touch.address)
    }

    /// Where a run's last fetch was, if no other step followed it.
    fn fetched(&self) -> Option<u32> {
        let fetched = match self.answer.code {
            0 => self.answer.count > 0,
            code => code == 12,
        };
        self.landing.filter(|_| fetched && self.record.kind() == Some(Kind::Run)).map(|touch| touch.address)
    }

    /// Where a table word is that was read or stored.
    fn table_word(&self, by: WordUse) -> Option<u32> {
        self.word.filter(|word| word.by == by && word.value.is_some()).map(|word| word.address as u32)
    }

    /// The byte that an access to device 0 has for this register, if it touches it.
    fn config_byte(&self, register: u32, write: bool) -> Option<u8> {
        let kind = if write { Kind::IoWrite } else { Kind::IoRead };
        let first = self.answer.address;
        let touches = self.by(&[Rule::DeviceZero]) && (first..first + u32::from(self.record.width)).contains(&register);
        let value = if write { self.record.data } else { self.answer.value };
        (touches && self.record.kind() == Some(kind)).then(|| (value >> (8 * (register - first))) as u8)
    }

    fn fdhc(&self) -> u8 {
        u8::from(self.meets.hole) << 7
    }

    /// A write that changes PAMR, or FDHC.
    fn changes_pamr(&self) -> bool {
        self.config_byte(0x51, true).is_some_and(|byte| byte != self.meets.pamr)
    }

    fn changes_fdhc(&self) -> bool {
        self.config_byte(0x58, true).is_some_and(|byte| (byte ^ self.fdhc()) & 0x80 != 0)
    }

    fn locked(&self) -> bool {
        Smram(self.meets.smram).locked()
    }

    /// An access of this width to this register of device 0.
    fn shaped(&self, register: u32, width: u8) -> bool {
        self.answer.address == register && self.record.width == width
    }

    fn reset(&self) -> bool {
        self.record.kind() == Some(Kind::Reset) && self.answer.code == 0
    }

    /// Whether any of the facts can be the case: all others are passed over, since there are many.
    fn concerns(&self) -> bool {
        let near = |address| matches!(address, 0xB_FFFC..=0x10_0003 | 0xEF_FFFC..=0x100_0003);
        match self.rule {
            Some(Rule::DeviceZero) => matches!(self.answer.address, 0x50..=0x5B),
            Some(Rule::Window | Rule::Registers) | None => {
                let touched = [self.landing.map(|touch| touch.address), self.word.map(|word| word.address as u32)];
                near(self.at()) || touched.into_iter().flatten().any(near) || self.reset()
            }
            _ => near(self.at()),
        }
    }
}

/// On which boards something can be met.
#[derive(Clone, Copy, PartialEq, Eq)]
enum On {
    All,
    /// Those whose table is in main memory.
    Main,
}

/// Something that may be the case, the boards on which it may, and whether it is.
type Fact = (&'static str, On, fn(&Met) -> bool);

const FACTS: &[Fact] = &[
    ("PAMR changed, one byte", On::All, |met| met.changes_pamr() && met.shaped(0x51, 1)),
    ("PAMR changed, two bytes at 50h", On::All, |met| met.changes_pamr() && met.shaped(0x50, 2)),
    ("PAMR changed, two bytes at 51h", On::All, |met| met.changes_pamr() && met.shaped(0x51, 2)),
    ("PAMR changed, four bytes", On::All, |met| met.changes_pamr() && met.shaped(0x50, 4)),
    ("PAMR changed, locked", On::All, |met| met.changes_pamr() && met.locked()),
    ("PAMR read, not 0", On::All, |met| met.config_byte(0x51, false).is_some_and(|byte| byte != 0)),
    ("PAMR read in four bytes, not 0", On::All, |met| {
        met.shaped(0x50, 4) && met.config_byte(0x51, false).is_some_and(|byte| byte != 0)
    }),
    ("50h written other than 0", On::All, |met| met.config_byte(0x50, true).is_some_and(|byte| byte != 0)),
    ("50h read", On::All, |met| met.config_byte(0x50, false).is_some()),
    ("FDHC changed, one byte", On::All, |met| met.changes_fdhc() && met.shaped(0x58, 1)),
    ("FDHC changed, two bytes", On::All, |met| met.changes_fdhc() && met.shaped(0x58, 2)),
    ("FDHC changed, four bytes", On::All, |met| met.changes_fdhc() && met.shaped(0x58, 4)),
    ("FDHC changed, locked", On::All, |met| met.changes_fdhc() && met.locked()),
    ("FDHC written with bits 6:0 alone", On::All, |met| {
        met.config_byte(0x58, true).is_some_and(|byte| byte < 0x80 && byte != 0)
    }),
    ("FDHC read as 80h", On::All, |met| met.config_byte(0x58, false) == Some(0x80)),
    ("FDHC read as 00h", On::All, |met| met.config_byte(0x58, false) == Some(0)),
    ("reset with PAMR set", On::All, |met| met.reset() && met.meets.pamr != 0),
    ("reset with the hole on", On::All, |met| met.reset() && met.meets.hole),
    ("BFFFFh with PAMR set", On::All, |met| met.word_is(0xB_FFFC) && met.rule.is_some() && met.meets.pamr != 0),
    ("100000h with PAMR set", On::All, |met| met.word_is(0x10_0000) && met.by(&[Rule::Main]) && met.meets.pamr != 0),
    ("word before the hole", On::All, |met| met.beside_hole(HOLE.start - 4, Target::Memory, false)),
    ("word before the hole, master", On::All, |met| met.beside_hole(HOLE.start - 4, Target::Memory, true)),
    ("first word of the hole", On::All, |met| met.beside_hole(HOLE.start, Target::Hub, false)),
    ("first word of the hole, master", On::All, |met| met.beside_hole(HOLE.start, Target::Hub, true)),
    ("last word of the hole", On::All, |met| met.beside_hole(HOLE.end - 4, Target::Hub, false)),
    ("last word of the hole, master", On::All, |met| met.beside_hole(HOLE.end - 4, Target::Hub, true)),
    ("word after the hole", On::All, |met| met.beside_hole(HOLE.end, Target::Memory, false)),
    ("word after the hole, master", On::All, |met| met.beside_hole(HOLE.end, Target::Memory, true)),
    ("last word below U in the hole", On::All, |met| {
        met.by(&[Rule::Hole]) && (met.at() | 3) + 1 == met.meets.usable_top && HOLE.contains(&met.meets.usable_top)
    }),
    ("first word above U where the hole would be", On::All, |met| {
        met.past_hole(&[Rule::Taken, Rule::TsegError, Rule::TsegMemory]) && met.word_is(met.meets.usable_top)
    }),
    ("TSEG where the hole would be, error bit raised", On::All, |met| {
        met.past_hole(&[Rule::TsegError]) && met.meets.smram & 1 == 0
    }),
    ("TSEG where the hole would be, management", On::All, |met| met.past_hole(&[Rule::TsegMemory])),
    ("taken memory where the hole would be", On::All, |met| met.past_hole(&[Rule::Taken])),
    ("TSEG or taken memory where the hole would be, master", On::All, |met| {
        met.past_hole(&[Rule::MasterHub]) && met.at() < met.meets.tom
    }),
    ("window above TOM where the hole would be", On::All, |met| met.past_hole(&[Rule::Window])),
    ("registers above TOM where the hole would be", On::All, |met| met.past_hole(&[Rule::Registers])),
    ("hub above TOM where the hole would be", On::All, |met| met.past_hole(&[Rule::Elsewhere])),
    ("hole before the registers", On::All, |met| {
        let inside = met.at().wrapping_sub(met.meets.registers_base) < 0x8_0000;
        met.by(&[Rule::Hole]) && met.meets.graphics && inside
    }),
    ("hole before the window", On::All, |met| {
        let inside = met.at().wrapping_sub(met.meets.window_base) < met.meets.window_bytes;
        met.by(&[Rule::Hole]) && met.meets.graphics && inside
    }),
    ("window read of a segment shut to reads", On::All, |met| {
        met.through_window(false).is_some_and(|at| met.shut(at, false))
    }),
    ("window write of a segment shut to writes", On::All, |met| {
        met.through_window(true).is_some_and(|at| met.shut(at, true))
    }),
    ("window read in the hole", On::All, |met| met.through_window(false).is_some_and(|at| met.hides(at))),
    ("window write in the hole", On::All, |met| met.through_window(true).is_some_and(|at| met.hides(at))),
    ("fetch in a segment shut to reads", On::All, |met| met.fetched().is_some_and(|at| met.shut(at, false))),
    ("fetch in the hole", On::All, |met| met.fetched().is_some_and(|at| met.hides(at))),
    ("lookup in a segment shut to reads", On::Main, |met| {
        met.table_word(WordUse::Lookup).is_some_and(|at| met.shut(at, false))
    }),
    ("lookup in the hole", On::Main, |met| met.table_word(WordUse::Lookup).is_some_and(|at| met.hides(at))),
    ("table word read in a segment shut to reads", On::Main, |met| {
        met.table_word(WordUse::Read).is_some_and(|at| met.shut(at, false))
    }),
    ("table word read in the hole", On::Main, |met| met.table_word(WordUse::Read).is_some_and(|at| met.hides(at))),
    ("table word written in a segment shut to writes", On::Main, |met| {
        met.table_word(WordUse::Write).is_some_and(|at| met.shut(at, true))
    }),
    ("table word written in the hole", On::Main, |met| met.table_word(WordUse::Write).is_some_and(|at| met.hides(at))),
];

/// The counts of one board.
#[derive(Clone)]
struct Counts {
    /// In C0000h-FFFFFh, by segment, by access and by its end.
    segments: [[[u64; ENDS.len()]; ACCESSES.len()]; SEGMENTS.len()],
    /// Of these the ones in a segment's first and in its last word, with reads and writes by anybody.
    words: [[[[u64; ENDS.len()]; 2]; WORDS.len()]; SEGMENTS.len()],
    /// In F00000h-FFFFFFh below U, by access: the hub where the hole is on, and memory where it is off.
    hole: [[u64; ENDS.len()]; ACCESSES.len()],
    facts: [u64; FACTS.len()],
}

// An array of so many facts has no default of its own.
impl Default for Counts {
    fn default() -> Counts {
        let (segments, words, hole) = Default::default();
        Counts { segments, words, hole, facts: [0; FACTS.len()] }
    }
}

/// For each board, how often each access in each segment and in the hole ended where, and how often each fact was the case.
#[derive(Clone, Default)]
pub struct Shadow {
    boards: [Counts; Board::ALL.len()],
}

impl Shadow {
    pub fn note(&mut self, board: usize, met: &Met) {
        if !met.concerns() {
            return;
        }
        let counts = &mut self.boards[board];
        if let (Some(access), Some(end), 0) = (access(met.record), end(met), met.answer.code) {
            let at = met.at();
            if SHADOW.contains(&at) {
                let segment = ((at - SHADOW.start) >> 16) as usize;
                counts.segments[segment][access][end] += 1;
                let word = [0, 0xFFFC].iter().position(|&word| at & 0xFFFC == word);
                if let Some(word) = word {
                    let write = met.record.kind().is_some_and(Kind::is_write);
                    counts.words[segment][word][usize::from(write)][end] += 1;
                }
            }
            if HOLE.contains(&at) && at < met.meets.usable_top {
                counts.hole[access][end] += 1;
            }
        }
        for (count, (_, _, holds)) in counts.facts.iter_mut().zip(FACTS) {
            *count += u64::from(holds(met));
        }
    }

    /// How many accesses in C0000h-FFFFFh went to the hub and to memory, and how many of the processor and of hub masters
    /// met the hole.
    pub fn seen(&self) -> [u64; 3] {
        let mut seen = [0; 3];
        for counts in &self.boards {
            for ends in counts.segments.iter().flatten() {
                seen[0] += ends[0];
                seen[1] += ends[1];
            }
            seen[2] += counts.hole.iter().map(|ends| ends[0]).sum::<u64>();
        }
        seen
    }

    /// How many writes changed PAMR, and how many FDHC, with the lock set.
    pub fn changed_when_locked(&self) -> [u64; 2] {
        ["PAMR changed, locked", "FDHC changed, locked"].map(|name| {
            let at = FACTS.iter().position(|(fact, _, _)| *fact == name).expect("a fact");
            self.boards.iter().map(|counts| counts.facts[at]).sum()
        })
    }

    pub fn counts(&self) -> impl Iterator<Item = &u64> {
        self.boards.iter().flat_map(|counts| {
            let segments = counts.segments.iter().flatten().flatten();
            let words = counts.words.iter().flatten().flatten().flatten();
            segments.chain(words).chain(counts.hole.iter().flatten()).chain(&counts.facts)
        })
    }

    pub fn counts_mut(&mut self) -> impl Iterator<Item = &mut u64> {
        self.boards.iter_mut().flat_map(|counts| {
            let segments = counts.segments.iter_mut().flatten().flatten();
            let words = counts.words.iter_mut().flatten().flatten().flatten();
            segments.chain(words).chain(counts.hole.iter_mut().flatten()).chain(&mut counts.facts)
        })
    }

    /// What each of the counts is of; none for what cannot be on its board.
    pub fn names() -> Vec<Option<String>> {
        let mut names = Vec::new();
        for board in Board::ALL {
            for segment in SEGMENTS {
                for access in ACCESSES {
                    names.extend(ENDS.map(|end| Some(format!("{access} in segment {segment}: {end}, board {board}"))));
                }
            }
            for segment in SEGMENTS {
                for word in WORDS {
                    for access in ["read", "write"] {
                        let what = format!("{access} of the {word} of segment {segment}");
                        names.extend(ENDS.map(|end| Some(format!("{what}: {end}, board {board}"))));
                    }
                }
            }
            for access in ACCESSES {
                let where_to = ["with the hole on: hub", "with the hole off: memory"];
                names.extend(where_to.map(|end| Some(format!("{access} in F00000h-FFFFFFh {end}, board {board}"))));
            }
            let possible = |on| on == On::All || board.table_in_memory();
            let facts =
                FACTS.iter().map(|&(name, on, _)| possible(on).then(|| format!("shadow: {name}, board {board}")));
            names.extend(facts);
        }
        names
    }
}
