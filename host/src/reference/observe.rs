//! Looking at a replay from outside, at no cost to one that nobody looks at.

use crate::record::{Answer, Record, Refusal};
use std::fmt;

/// Is told what a replay does. Every method does nothing unless it is overridden.
///
/// ```
/// use mitrophel::reference::{Gmch, Observer, Rule, Touch, TABLE_WORDS};
/// use mitrophel::{Answer, Board, Record};
///
/// #[derive(Default)]
/// struct Log(Vec<String>);
/// impl Observer for Log {
///     fn routed(&mut self, rule: Rule) {
///         self.0.push(rule.to_string());
///     }
///     fn touched(&mut self, touch: Touch) {
///         self.0.push(format!("{:X}h", touch.address));
///     }
///     fn answered(&mut self, _: &Record, answer: &Answer) {
///         self.0.push(answer.to_string());
///     }
/// }
/// let (mut memory, mut table, mut log) = (vec![0; 8 << 20], [0; TABLE_WORDS], Log::default());
/// let mut gmch = Gmch::observed(Board::I82810, &mut memory, &mut table, &mut [], &mut log).expect("a memory");
/// gmch.answer(&Record::read(0x1000, 4, false));
/// assert_eq!(log.0, ["rule 1: memory", "1000h", "memory at 1000h, value 0h"]);
/// ```
pub trait Observer {
    /// A port or an address was routed by this rule.
    #[inline(always)]
    fn routed(&mut self, _rule: Rule) {}

    /// Bytes of main memory were read or written.
    #[inline(always)]
    fn touched(&mut self, _touch: Touch) {}

    /// Bytes of the display cache were read or written, which is never protected.
    #[inline(always)]
    fn display_touched(&mut self, _touch: Touch) {}

    /// A graphics offset's entry was looked up, in either home of the table. What it leads to comes next.
    #[inline(always)]
    fn looked_up(&mut self, _entry: u32) {}

    /// A word of a translation table in main memory was asked for. Where it was read or stored,
    /// [`Observer::touched`] comes next, with its four bytes.
    #[inline(always)]
    fn table_word(&mut self, _word: TableWord) {}

    /// A record was answered.
    #[inline(always)]
    fn answered(&mut self, _record: &Record, _answer: &Answer) {}
}

/// Nobody looks.
///
/// ```
/// use mitrophel::reference::{Gmch, Unobserved, TABLE_WORDS};
/// use mitrophel::Board;
///
/// let (mut memory, mut table) = (vec![0; 8 << 20], [0; TABLE_WORDS]);
/// let gmch: Option<Gmch<'_, Unobserved>> = Gmch::new(Board::I82810, &mut memory, &mut table, &mut []);
/// assert!(gmch.is_some());
/// ```
#[derive(Clone, Copy, Debug, Default)]
pub struct Unobserved;

impl Observer for Unobserved {}

impl<O: Observer> Observer for &mut O {
    #[inline(always)]
    fn routed(&mut self, rule: Rule) {
        (**self).routed(rule);
    }

    #[inline(always)]
    fn touched(&mut self, touch: Touch) {
        (**self).touched(touch);
    }

    #[inline(always)]
    fn display_touched(&mut self, touch: Touch) {
        (**self).display_touched(touch);
    }

    #[inline(always)]
    fn looked_up(&mut self, entry: u32) {
        (**self).looked_up(entry);
    }

    #[inline(always)]
    fn table_word(&mut self, word: TableWord) {
        (**self).table_word(word);
    }

    #[inline(always)]
    fn answered(&mut self, record: &Record, answer: &Answer) {
        (**self).answered(record, answer);
    }
}

/// One access to main memory, or to the display cache, at its final address there.
///
/// ```
/// use mitrophel::reference::{Gmch, Observer, Touch, TABLE_WORDS};
/// use mitrophel::{Board, Record};
///
/// #[derive(Default)]
/// struct Last(Option<Touch>);
/// impl Observer for Last {
///     fn touched(&mut self, touch: Touch) {
///         self.0 = Some(touch);
///     }
/// }
/// let (mut memory, mut table) = (vec![0; 8 << 20], [0; TABLE_WORDS]);
/// let gmch = Gmch::observed(Board::I82810, &mut memory, &mut table, &mut [], Last::default());
/// let mut gmch = gmch.expect("a memory");
/// gmch.answer(&Record::write(0x1000, 4, 7, false));
/// let touch = Touch { address: 0x1000, width: 4, write: true, protected: false };
/// assert_eq!(gmch.observer().0, Some(touch));
/// ```
#[derive(Clone, Copy, Debug, PartialEq, Eq)]
pub struct Touch {
    /// The first byte.
    pub address: u32,
    /// How many bytes.
    pub width: u32,
    /// Whether the bytes were written.
    pub write: bool,
    /// Whether the bytes are protected.
    pub protected: bool,
}

/// What a word of the translation table in main memory was asked for.
#[derive(Clone, Copy, Debug, PartialEq, Eq, Hash)]
pub enum WordUse {
    /// An access through the window, or the parser's fetch, looks its entry up.
    Lookup,
    /// Its register is read.
    Read,
    /// Its register is written.
    Write,
}

/// One use of a word of a translation table in main memory: request 10 of document 02. With [`TableWord::refusal`] a
/// code 7 or 6 is the word's own, and without it the entry's. A write that is refused with code 16 reached its word, but
/// stored nothing there: it has neither a refusal nor a value.
///
/// ```
/// use mitrophel::reference::{Gmch, Observer, TableWord, WordUse, TABLE_WORDS};
/// use mitrophel::{Board, Record, Refusal};
///
/// #[derive(Default)]
/// struct Last(Option<TableWord>);
/// impl Observer for Last {
///     fn table_word(&mut self, word: TableWord) {
///         self.0 = Some(word);
///     }
/// }
/// let (mut memory, mut table) = (vec![0; 8 << 20], [0; TABLE_WORDS]);
/// let gmch = Gmch::observed(Board::I82810Main, &mut memory, &mut table, &mut [], Last::default());
/// let mut gmch = gmch.expect("a memory");
/// # for (register, data) in [(0x70, 0x40), (0x814, 0xF000_0000), (0x804, 2)] {
/// #     gmch.answer(&Record::io_write(0xCF8, 4, 0x8000_0000 | register));
/// #     gmch.answer(&Record::io_write(0xCFC, 4, data));
/// # }
/// // The registers are at F0000000h, and the table is at the end of memory.
/// gmch.answer(&Record::write(0xF000_2020, 4, 0x80_0000, false));
/// let answer = gmch.answer(&Record::read(0xF001_0048, 4, false));
/// let refusal = Some(Refusal::PageAboveMemory);
/// assert_eq!(answer.refusal(), refusal);
/// let word = TableWord { number: 18, address: 0x80_0048, by: WordUse::Read, value: None, refusal };
/// assert_eq!(gmch.observer().0, Some(word));
/// ```
#[derive(Clone, Copy, Debug, PartialEq, Eq)]
pub struct TableWord {
    /// Its number, below [`TABLE_WORDS`](super::TABLE_WORDS).
    pub number: usize,
    /// Where it lies, which may be past 32 bits.
    pub address: u64,
    /// What it was asked for.
    pub by: WordUse,
    /// What was read or stored; none where the word was refused, or where what was to be stored is
    /// [forbidden](Refusal::ForbiddenEntry).
    pub value: Option<u32>,
    /// The word's own code 7 or 6.
    pub refusal: Option<Refusal>,
}

macro_rules! rules {
    ($($name:ident = $text:literal,)*) => {
        /// The rule by which a port or an address was routed (document 01, "Configuration space" and
        /// "Where an address goes"), with its outcome where it has several.
        ///
        /// ```
        /// use mitrophel::reference::Rule;
        ///
        /// assert_eq!(Rule::TsegError.to_string(), "rule 5: hub, error bit");
        /// assert!(Rule::ALL.contains(&Rule::Window));
        /// ```
        #[derive(Clone, Copy, Debug, PartialEq, Eq, Hash)]
        pub enum Rule { $(#[doc = $text] $name,)* }

        impl Rule {
            /// Every rule.
            pub const ALL: &[Rule] = &[$(Rule::$name,)*];
        }

        impl fmt::Display for Rule {
            fn fmt(&self, f: &mut fmt::Formatter<'_>) -> fmt::Result {
                f.write_str(match self { $(Rule::$name => $text,)* })
            }
        }
    };
}

rules! {
    ConfigAddress = "port CF8h",
    DeviceZero = "configuration, device 0",
    DeviceOne = "configuration, device 1",
    OtherPort = "port to hub",
    Low = "rule 1: memory",
    CompatibleMemory = "rule 2: memory",
    CompatibleVga = "rule 2: VGA",
    CompatibleHub = "rule 2: hub",
    ShadowMemory = "rule 3: memory",
    ShadowHub = "rule 3: hub",
    Main = "rule 4: memory",
    Hole = "rule 4: hub",
    TsegMemory = "rule 5: management, TSEG",
    TsegError = "rule 5: hub, error bit",
    Taken = "rule 5: hub, taken memory",
    HsegMemory = "rule 6: management, HSEG",
    HsegError = "rule 6: hub, error bit",
    Registers = "rule 7: registers",
    Window = "rule 8: window",
    Elsewhere = "rule 9: hub",
    MasterLow = "master by rule 1: memory",
    MasterCompatible = "master by rule 2: memory",
    MasterShadow = "master by rule 3: memory",
    MasterMain = "master by rule 4: memory",
    MasterHole = "master by rule 4: hub",
    MasterHub = "master: hub",
}
