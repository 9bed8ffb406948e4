//! Entries that a locked board does not store (request 9 of document 02, "No bad entries after the lock").

use super::registers::ENTRY_BITS;
use super::routing::Mode;
use super::window::entry_page;
use super::{Access, Gmch, Lsmm, Observer, MIB, TABLE_WORDS};
use crate::board::Board;
use crate::faults::{Fault, Faults};
use crate::record::{Answer, Kind, Record, Refusal, Target};

const PAGE: u32 = 4096;

impl<O: Observer, F: Faults> Gmch<'_, O, F> {
    /// Whether a table write that would store this word gets code 16, as SMRAM stands: "With the lock set, a table write
    /// whose stored word is valid, of type 00 or 11, and names a protected page gets new code 16 and changes nothing."
    ///
    /// ```
    /// # use mitrophel::reference::{Gmch, TABLE_WORDS};
    /// # use mitrophel::{Board, Record};
    /// # let (mut memory, mut table) = (vec![0; 8 << 20], [0; TABLE_WORDS]);
    /// # let mut gmch = Gmch::new(Board::I82810, &mut memory, &mut table, &mut []).expect("8 MiB is a memory");
    /// gmch.answer(&Record::io_write(0xCF8, 4, 0x8000_0070));
    /// gmch.answer(&Record::io_write(0xCFC, 1, 0x4C)); // A0000h-BFFFFh for management mode
    /// assert!(!gmch.forbids_entry(0x000A_0001));
    /// gmch.answer(&Record::io_write(0xCFC, 1, 0x4E)); // locked
    /// assert!(gmch.forbids_entry(0x000A_0001) && gmch.forbids_entry(0x000B_F007));
    /// // Not valid; type 01; not protected; at the top of memory.
    /// assert!(![0x000A_0000, 0x000A_0003, 0x000C_0001, 0x0080_0001].iter().any(|&word| gmch.forbids_entry(word)));
    /// ```
    #[inline]
    pub fn forbids_entry(&self, word: u32) -> bool {
        self.lock_forbids() && self.names_main_memory(word) && self.forbids_page(entry_page(word))
    }

    /// "With the lock set"; "Before the lock ... the check at use remains."
    #[inline]
    fn lock_forbids(&self) -> bool {
        match self.smram().locked() {
            true => !self.wrong(Fault::ForbiddenUntilLocked),
            false => self.wrong(Fault::ForbiddenWithoutLock) || self.wrong(Fault::ForbiddenUntilLocked),
        }
    }

    /// "valid, of type 00 or 11"
    #[inline]
    fn names_main_memory(&self, word: u32) -> bool {
        let valid = word & 1 != 0 || self.wrong(Fault::InvalidEntryForbidden);
        let of_main_memory = match word >> 1 & 3 {
            0 => !self.wrong(Fault::Type00NotForbidden),
            1 => self.wrong(Fault::Type01Forbidden),
            2 => self.wrong(Fault::Type10Forbidden),
            _ => !self.wrong(Fault::Type11NotForbidden),
        };
        valid && of_main_memory
    }

    /// "names a protected page". None at or above TOM is: "Any other entry is still stored."
    #[inline]
    fn forbids_page(&self, page: u32) -> bool {
        let smram = self.smram();
        let compatible = (0xA_0000..=0xB_FFFF).contains(&page);
        let forgotten = self.wrong(Fault::TsegNotForbidden) && !compatible
            || self.wrong(Fault::CompatibleRangeNotForbidden) && compatible
            || self.wrong(Fault::HsegNotForbidden) && compatible && smram.hseg_acts()
            || self.wrong(Fault::CodeReadsOnlyNotForbidden) && compatible && smram.lsmm() == Lsmm::ManagementCodeReads
            || self.wrong(Fault::FirstPageNotForbidden) && self.protected_ranges().any(|range| range.start == page)
            || self.wrong(Fault::LastPageNotForbidden) && self.protected_ranges().any(|range| range.end == page + PAGE);
        let besides = self.wrong(Fault::PageAboveMemoryForbidden) && page >= self.tom
            || self.wrong(Fault::TakenPageForbidden) && (self.usable_top()..self.tom).contains(&page)
            || self.wrong(Fault::OpenRangeForbidden) && compatible
            || self.wrong(Fault::LastMebibyteForbidden) && (self.tom - MIB..self.tom).contains(&page)
            || self.wrong(Fault::PageBeforeForbidden)
                && self.protected_ranges().any(|range| range.start == page + PAGE)
            || self.wrong(Fault::PageAfterForbidden) && self.protected_ranges().any(|range| range.end == page);
        let tested = if self.wrong(Fault::ForbiddenOf29Bits) { page & 0x1FFF_FFFF } else { page };
        self.protected(tested) && !forgotten || besides
    }

    /// The word that a write of this data to entry `number` stores, in either home of the table, or code 16. "It comes
    /// after code 10" and, where the table is in main memory, after 7 and 6 of the word: "7 first, then Item 9's 16". No
    /// mode is an exception, and neither is translation that is off.
    #[inline]
    pub(super) fn stored_word(&self, number: usize, data: u32, mode: Mode) -> Result<u32, Refusal> {
        let word = data & self.entry_bits();
        if !self.refuses(number, data, word, mode) {
            Ok(word)
        } else if self.wrong(Fault::ForbiddenIgnored) {
            Ok(self.table_word(number).unwrap_or(0))
        } else if self.wrong(Fault::ForbiddenStoredInvalid) {
            Ok(word & !1)
        } else if self.wrong(Fault::ForbiddenIsCode6) {
            Err(Refusal::PageProtected)
        } else {
            Err(Refusal::ForbiddenEntry)
        }
    }

    /// [`Gmch::forbids_entry`]; only wrong references look at more than the word.
    #[inline]
    fn refuses(&self, number: usize, data: u32, word: u32, mode: Mode) -> bool {
        if self.wrong(Fault::LockedTableClosed) && self.smram().locked() {
            return true;
        }
        if self.wrong(Fault::ForbiddenByOffset) {
            return self.lock_forbids() && self.names_main_memory(word) && self.protected(number as u32 * PAGE);
        }
        let stored = self.wrong(Fault::ForbiddenEntryStored)
            || self.wrong(Fault::ForbiddenHighBitsCount) && data >> 30 != 0
            || self.wrong(Fault::ForbiddenLowBitsCount) && data & 0xFF8 != 0
            || self.wrong(Fault::ManagementStoresForbidden) && matches!(mode, Mode::Processor { management: true, .. })
            || self.wrong(Fault::ForbiddenInPrivateTableOnly) && self.table_in_memory()
            || self.wrong(Fault::ForbiddenInMainMemoryOnly) && !self.table_in_memory()
            || self.wrong(Fault::ForbiddenOn82810Only) && matches!(self.board, Board::Dc100 | Board::Dc100Main)
            || self.wrong(Fault::ForbiddenNeedsTranslation) && !self.translation_on()
            || self.wrong(Fault::ForbiddenInWindowOnly) && number as u32 >= self.window_bytes() / PAGE
            || self.wrong(Fault::SameEntryStored) && self.table_word(number) == Ok(word);
        self.forbids_entry(word) && !stored
    }

    /// What a refused table write stores all the same, perhaps with the error bit set: "changes nothing", but in wrong
    /// references.
    #[inline]
    pub(super) fn stored_although_refused(&mut self, data: u32) -> Option<u32> {
        if self.wrong(Fault::ForbiddenSetsError) {
            self.set_error(Access { address: 0, width: 4, data: Some(data) });
        }
        let lands = match self.table_in_memory() {
            true => self.wrong(Fault::ForbiddenWordLands),
            false => self.wrong(Fault::ForbiddenEntryLands),
        };
        match lands {
            true => Some(data & ENTRY_BITS),
            false => self.wrong(Fault::ForbiddenClearsEntry).then_some(0),
        }
    }

    /// What only wrong references do, before code 10 or before the word's codes, with an access that touches the register
    /// of entry `number`.
    #[inline]
    pub(super) fn wrong_entry_access(&self, number: usize, access: Access) -> Option<Result<u32, Refusal>> {
        let whole = access.width == 4;
        let forbidden = match access.data {
            Some(data) if whole => {
                let before_word = self.wrong(Fault::ForbiddenBeforeWord) && self.table_in_memory()
                    || self.wrong(Fault::ForbiddenBeforeProtectedWord)
                        && self.table_word(number) == Err(Refusal::PageProtected);
                before_word && self.forbids_entry(data & ENTRY_BITS)
            }
            Some(data) => {
                self.wrong(Fault::ForbiddenBeforeExactness) && self.forbids_entry(data & ENTRY_BITS)
                    || self.wrong(Fault::ForbiddenBytesBeforeExactness) && self.completes_forbidden(number, access)
            }
            None => {
                let asked = self.wrong(Fault::ForbiddenReadsZero) || self.wrong(Fault::ForbiddenReadRefused);
                asked && whole && self.table_word(number).is_ok_and(|word| self.forbids_entry(word))
            }
        };
        let answered = self.wrong(Fault::ForbiddenReadsZero);
        forbidden.then_some(if answered { Ok(0) } else { Err(Refusal::ForbiddenEntry) })
    }

    /// Whether the bytes of a narrow write, with those that stay, are an entry that is forbidden.
    fn completes_forbidden(&self, number: usize, access: Access) -> bool {
        let shift = 8 * (access.address % 4);
        let touched = ((1 << (8 * access.width)) - 1) << shift;
        let written = access.data.unwrap_or(0) << shift & touched;
        self.table_word(number).is_ok_and(|held| self.forbids_entry(held & !touched | written))
    }

    /// Whether a wrong reference refuses a write to main memory, before it is routed: "Ordinary writes may change them, so
    /// Item 9's refusal is no longer a guarantee there; the check at use is."
    #[inline]
    pub(super) fn refuses_ordinary_write(&self, kind: Kind, access: Access) -> bool {
        let refuses = match kind {
            Kind::Write => self.wrong(Fault::OrdinaryWriteForbidden),
            Kind::MasterWrite => self.wrong(Fault::MasterWriteForbidden),
            _ => false,
        };
        let by_rules_1_and_4 = || !matches!(access.address, 0xA_0000..=0xF_FFFF) && access.address < self.usable_top();
        refuses
            && by_rules_1_and_4()
            && !self.in_hole(access, Mode::Master)
            && self.makes_forbidden_word(access.address, access)
    }

    /// Whether a write of four bytes that lands here makes a forbidden entry of a table word. Only wrong references ask.
    pub(super) fn makes_forbidden_word(&self, address: u32, access: Access) -> bool {
        let words = self.table_word_address(0).map(|base| base..base + 4 * TABLE_WORDS as u64);
        let there = words.is_some_and(|words| words.contains(&u64::from(address)));
        there && access.width == 4 && access.data.is_some_and(|data| self.forbids_entry(data))
    }

    /// Zeroes the entries of the private table that may not be stored any more ([`Fault::LockDropsEntries`]).
    pub(super) fn drop_forbidden(&mut self) {
        for number in 0..TABLE_WORDS {
            if self.forbids_entry(self.table[number]) {
                self.table[number] = 0;
            }
        }
    }

    /// What only wrong references show of code 16, whose answer "holds the code and the interrupt line, all else zero".
    #[inline]
    pub(super) fn show_forbidden(&self, record: &Record, answer: &mut Answer) {
        if self.wrong(Fault::Code16ShowsPage) {
            answer.address = entry_page(record.data);
        }
        if self.wrong(Fault::Code16ShowsWord) {
            answer.value = record.data & ENTRY_BITS;
        }
        if self.wrong(Fault::Code16WithTarget) {
            answer.target = Target::MemoryMapped.number();
        }
    }
}

#[cfg(test)]
mod tests {
    use super::*;
    use crate::reference::{TableWord, Touch, WordUse};

    /// What the last record did with memory and with a table there.
    #[derive(Default)]
    struct Heard {
        word: Option<TableWord>,
        touches: Vec<Touch>,
    }

    impl Observer for Heard {
        fn table_word(&mut self, word: TableWord) {
            self.word = Some(word);
        }

        fn touched(&mut self, touch: Touch) {
            self.touches.push(touch);
        }
    }

    /// A write that is refused with code 16 touches no memory. Its word is told without a value and without a refusal of
    /// its own, but for that of a word that is refused itself.
    #[test]
    fn a_forbidden_entry_is_told_by_a_word_that_has_neither_value_nor_refusal() {
        let (mut memory, mut table) = (vec![0; 8 << 20], Box::new([0; TABLE_WORDS]));
        let heard = Heard::default();
        let mut hub = Gmch::observed(Board::I82810Main, &mut memory, &mut table, &mut [], heard).expect("a memory");
        for (register, data) in [(0x70, 0x40), (0x814, 0xF000_0000), (0x804, 2), (0x70, 0x4E)] {
            hub.answer(&Record::io_write(0xCF8, 4, 0x8000_0000 | register));
            hub.answer(&Record::io_write(0xCFC, 4, data));
        }
        let code_7 = Some(Refusal::PageAboveMemory);
        let told = |address, value, refusal| TableWord { number: 10, address, by: WordUse::Write, value, refusal };
        for (base, entry, code, word) in [
            (0x10_0000, 0x000A_0001, 16, told(0x10_0028, None, None)),
            (0x10_0000, 0x000C_0001, 0, told(0x10_0028, Some(0x000C_0001), None)),
            (0x80_0000, 0x000A_0001, 7, told(0x80_0028, None, code_7)),
        ] {
            hub.answer(&Record::write(0xF000_2020, 4, base, false));
            *hub.observer() = Heard::default();
            assert_eq!(hub.answer(&Record::write(0xF001_0028, 4, entry, false)).code, code);
            let Heard { word: last, touches } = std::mem::take(hub.observer());
            assert_eq!(last, Some(word));
            assert_eq!(touches.len(), usize::from(code == 0));
        }
    }
}
