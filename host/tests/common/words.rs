//! What a list does with the words of a translation table in main memory (request 10 of document 02).

use super::Coverage;
use mitrophel::reference::{Rule, TableWord, Touch, WordUse};
use mitrophel::Refusal;
use std::collections::HashMap;
use std::fmt;

macro_rules! events {
    ($($name:ident = $text:literal,)*) => {
        /// Something that random lists must have met.
        #[derive(Clone, Copy, Debug, PartialEq, Eq)]
        pub enum Event { $(#[doc = $text] $name,)* }

        impl Event {
            pub const ALL: &[Event] = &[$(Event::$name,)*];
        }

        impl fmt::Display for Event {
            fn fmt(&self, f: &mut fmt::Formatter<'_>) -> fmt::Result {
                f.write_str(match self { $(Event::$name => $text,)* })
            }
        }
    };
}

events! {
    WindowWordAbove = "window access: word at or above TOM",
    WindowWordProtected = "window access: word protected",
    FetchWordAbove = "fetch: word at or above TOM",
    FetchWordProtected = "fetch: word protected",
    ReadOn = "word's register read, translation on",
    ReadOnAbove = "word's register read, translation on: at or above TOM",
    ReadOnProtected = "word's register read, translation on: protected",
    ReadOff = "word's register read, translation off",
    ReadOffAbove = "word's register read, translation off: at or above TOM",
    ReadOffProtected = "word's register read, translation off: protected",
    WriteOn = "word's register written, translation on",
    WriteOnAbove = "word's register written, translation on: at or above TOM",
    WriteOnProtected = "word's register written, translation on: protected",
    WriteOff = "word's register written, translation off",
    WriteOffAbove = "word's register written, translation off: at or above TOM",
    WriteOffProtected = "word's register written, translation off: protected",
    ByRegister = "lookup by a word that its register wrote",
    ByProcessor = "lookup by a word that the processor wrote",
    ByMaster = "lookup by a word that a hub master wrote",
    ByWindow = "lookup by a word that was written through the window",
    LookupOfUnnamedBits = "lookup by a word with unnamed bits set",
    ReadOfUnnamedBits = "word's register read, unnamed bits set",
    PastFourGib = "word's address at or above 4 GiB",
    InBios = "word in C0000h-FFFFFh reached",
    InTaken = "word in taken memory reached",
    LastWord = "last word of memory reached",
    ResetLeavesWord = "reset leaves a word that is not zero",
}

impl Event {
    /// The word is protected.
    pub const PROTECTED: [Event; 6] = [
        Event::WindowWordProtected,
        Event::FetchWordProtected,
        Event::ReadOnProtected,
        Event::ReadOffProtected,
        Event::WriteOnProtected,
        Event::WriteOffProtected,
    ];
}

/// The bits that an entry does not name: all but 3FFFF007h.
const UNNAMED: u32 = !0x3FFF_F007;

/// What the observer is not told, as the record meets it.
#[derive(Clone, Copy, Default)]
pub struct Meets {
    pub translation_on: bool,
    pub tom: u32,
    pub usable_top: u32,
    /// Where the TSEG begins, which is TOM where there is none.
    pub tseg: u32,
    /// Whether A0000h-BFFFFh is protected.
    pub compatible_protected: bool,
    /// Whether rules 7 and 8 act.
    pub graphics: bool,
    pub registers_base: u32,
    pub window_base: u32,
    pub window_bytes: u32,
    pub fences: [u32; 8],
    /// Device 1's register E0h.
    pub pm_cs: u16,
    /// SMRAM, PAMR, and whether the hole is on.
    pub smram: u8,
    pub pamr: u8,
    pub hole: bool,
    /// The word whose register the record touches, as it is before, and where a table in main memory begins.
    pub held: Option<u32>,
    pub table: Option<u64>,
    /// Whether type 01 reaches a display cache, and 3000h to 3002h, which are 0 where they are not listed.
    pub display_on: bool,
    pub display_registers: [u8; 3],
}

/// Counts the [`Event`]s of one list.
#[derive(Default)]
pub struct Words {
    pub meets: Meets,
    /// The rule by which the record was routed; none for a parser run.
    rule: Option<Rule>,
    /// The lookup under way, and whether the touch of its own word is still to come.
    lookup: Option<TableWord>,
    own_touch: bool,
    /// The record's table word, the last one of a run.
    word: Option<TableWord>,
    /// How each word of memory was written last.
    writers: HashMap<u32, Event>,
}

impl Words {
    pub fn routed(&mut self, rule: Rule) {
        self.rule = Some(rule);
    }

    pub fn rule(&self) -> Option<Rule> {
        self.rule
    }

    pub fn word(&self) -> Option<TableWord> {
        self.word
    }

    /// How the record's table word was written last.
    pub fn writer(&self) -> Option<Event> {
        self.word.and_then(|word| self.writers.get(&u32::try_from(word.address).ok()?).copied())
    }

    /// Whether the record is an access through the window.
    pub fn by_window(&self) -> bool {
        self.rule == Some(Rule::Window)
    }

    /// Whether the record's table word was refused.
    pub fn word_refused(&self) -> bool {
        self.word.is_some_and(|word| word.refusal.is_some())
    }

    pub fn answered(&mut self) {
        self.rule = None;
        self.lookup = None;
        self.word = None;
    }

    pub fn table_word(&mut self, word: TableWord, coverage: &mut Coverage) {
        self.own_touch = word.value.is_some();
        self.word = Some(word);
        self.lookup = (word.by == WordUse::Lookup && word.refusal.is_none()).then_some(word);
        if let Some(event) = self.outcome(word) {
            coverage.note(event);
        }
        if word.address >= 1 << 32 {
            coverage.note(Event::PastFourGib);
        }
        if word.value.is_none() {
            return;
        }
        let Meets { tom, usable_top, .. } = self.meets;
        match word.address as u32 {
            0xC_0000..=0xF_FFFF => coverage.note(Event::InBios),
            address if address + 4 == tom => coverage.note(Event::LastWord),
            address if address >= usable_top => coverage.note(Event::InTaken),
            _ => {}
        }
        if word.by == WordUse::Read && word.value.is_some_and(|value| value & UNNAMED != 0) {
            coverage.note(Event::ReadOfUnnamedBits);
        }
    }

    /// Which of the outcomes this use of a word is; none for a lookup that reads its word, and for a write of an entry that
    /// is forbidden.
    fn outcome(&self, word: TableWord) -> Option<Event> {
        let above = word.refusal.map(|refusal| refusal == Refusal::PageAboveMemory);
        let by_window = self.by_window();
        Some(match (word.by, self.meets.translation_on, above) {
            (WordUse::Lookup, _, None) => return None,
            (WordUse::Write, _, None) if word.value.is_none() => return None,
            (WordUse::Lookup, _, Some(true)) if by_window => Event::WindowWordAbove,
            (WordUse::Lookup, _, Some(false)) if by_window => Event::WindowWordProtected,
            (WordUse::Lookup, _, Some(true)) => Event::FetchWordAbove,
            (WordUse::Lookup, _, Some(false)) => Event::FetchWordProtected,
            (WordUse::Read, true, None) => Event::ReadOn,
            (WordUse::Read, true, Some(true)) => Event::ReadOnAbove,
            (WordUse::Read, true, Some(false)) => Event::ReadOnProtected,
            (WordUse::Read, false, None) => Event::ReadOff,
            (WordUse::Read, false, Some(true)) => Event::ReadOffAbove,
            (WordUse::Read, false, Some(false)) => Event::ReadOffProtected,
            (WordUse::Write, true, None) => Event::WriteOn,
            (WordUse::Write, true, Some(true)) => Event::WriteOnAbove,
            (WordUse::Write, true, Some(false)) => Event::WriteOnProtected,
            (WordUse::Write, false, None) => Event::WriteOff,
            (WordUse::Write, false, Some(true)) => Event::WriteOffAbove,
            (WordUse::Write, false, Some(false)) => Event::WriteOffProtected,
        })
    }

    /// A touch that is not the looked up word's own is where the lookup led.
    pub fn touched(&mut self, touch: Touch, coverage: &mut Coverage) {
        if self.own_touch {
            self.own_touch = false;
        } else if let Some(word) = self.lookup.take() {
            if let Some(&writer) = self.writers.get(&(word.address as u32)) {
                coverage.note(writer);
            }
            if word.value.is_some_and(|value| value & UNNAMED != 0) {
                coverage.note(Event::LookupOfUnnamedBits);
            }
        }
        if touch.write {
            let writer = match self.rule {
                Some(Rule::Registers) => Event::ByRegister,
                Some(Rule::Window) => Event::ByWindow,
                Some(Rule::MasterLow | Rule::MasterCompatible | Rule::MasterShadow | Rule::MasterMain) => {
                    Event::ByMaster
                }
                _ => Event::ByProcessor,
            };
            self.writers.insert(touch.address & !3, writer);
        }
    }
}
