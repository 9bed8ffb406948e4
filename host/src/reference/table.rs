//! The words of the translation table in their two homes: private to the model (document 01) or in main memory
//! (request 10 of document 02).

use super::registers::ENTRY_BITS;
use super::routing::Mode;
use super::{reached, Access, Gmch, Observer, TableWord, Touch, WordUse, TABLE_WORDS};
use crate::board::Board;
use crate::faults::{Fault, Faults};
use crate::record::{Answer, Refusal, Target};

impl WordUse {
    /// What a register access asks its word for.
    #[inline]
    pub(super) fn of(access: Access) -> WordUse {
        match access.data {
            None => WordUse::Read,
            Some(_) => WordUse::Write,
        }
    }
}

impl<O: Observer, F: Faults> Gmch<'_, O, F> {
    /// Where word `number` of the table lies in main memory: "word i is at 2020h bits 31:12 plus 4i", and "The sum does
    /// not wrap at 32 bits." None where the table is private, and past its last word.
    ///
    /// ```
    /// # use mitrophel::reference::{Gmch, TABLE_WORDS};
    /// # use mitrophel::{Board, Record};
    /// # let (mut memory, mut table) = (vec![0; 8 << 20], [0; TABLE_WORDS]);
    /// # let mut gmch = Gmch::new(Board::I82810Main, &mut memory, &mut table, &mut []).expect("8 MiB is a memory");
    /// # for (register, data) in [(0x70, 0x40), (0x814, 0xF000_0000), (0x804, 2)] {
    /// #     gmch.answer(&Record::io_write(0xCF8, 4, 0x8000_0000 | register));
    /// #     gmch.answer(&Record::io_write(0xCFC, 4, data));
    /// # }
    /// // The registers are at F0000000h.
    /// gmch.answer(&Record::write(0xF000_2020, 4, 0xFFFF_F001, false));
    /// assert_eq!(gmch.table_word_address(0), Some(0xFFFF_F000));
    /// assert_eq!(gmch.table_word_address(1024), Some(0x1_0000_0000));
    /// assert_eq!(gmch.table_word_address(TABLE_WORDS), None);
    /// ```
    #[inline]
    pub fn table_word_address(&self, number: usize) -> Option<u64> {
        (self.table_in_memory() && number < TABLE_WORDS).then(|| self.word_address(number))
    }

    #[inline]
    fn word_address(&self, number: usize) -> u64 {
        let bits = if self.wrong(Fault::TableBaseOf64KiB) {
            0xFFFF_0000
        } else if self.wrong(Fault::TableBaseOf30Bits) {
            0x3FFF_F000
        } else {
            0xFFFF_F000
        };
        let base = self.table_control & bits;
        match self.wrong(Fault::TableAddressWraps) {
            true => u64::from(base.wrapping_add(4 * number as u32)),
            false => u64::from(base) + 4 * number as u64,
        }
    }

    /// Whether the table is in main memory; see [`Board::table_in_memory`].
    #[inline]
    pub(super) fn table_in_memory(&self) -> bool {
        let kept_private = match self.board {
            Board::I82810Main => self.wrong(Fault::PrivateTableOnKind2),
            Board::Dc100Main => self.wrong(Fault::PrivateTableOnKind3),
            _ => false,
        };
        self.board.table_in_memory() && !kept_private
    }

    /// Word `number` of the table as a lookup gets it, or the word's own refusal, 7 or 6. A read of its register gives
    /// the same: "a write masks as in 01, a read does not".
    ///
    /// # Panics
    ///
    /// Where the number is not below [`TABLE_WORDS`].
    ///
    /// ```
    /// # use mitrophel::reference::{Gmch, TABLE_WORDS};
    /// # use mitrophel::{Board, Record, Refusal};
    /// # let (mut memory, mut table) = (vec![0; 8 << 20], [0; TABLE_WORDS]);
    /// # let mut gmch = Gmch::new(Board::I82810Main, &mut memory, &mut table, &mut []).expect("8 MiB is a memory");
    /// # for (register, data) in [(0x70, 0x40), (0x814, 0xF000_0000), (0x804, 2)] {
    /// #     gmch.answer(&Record::io_write(0xCF8, 4, 0x8000_0000 | register));
    /// #     gmch.answer(&Record::io_write(0xCFC, 4, data));
    /// # }
    /// // The registers are at F0000000h, and the table in the last page of memory.
    /// gmch.answer(&Record::write(0xF000_2020, 4, 0x7F_F001, false));
    /// gmch.answer(&Record::write(0x7F_F028, 4, 0xFFFF_FFFF, false));
    /// assert_eq!(gmch.table_word(10), Ok(0xFFFF_FFFF));
    /// assert_eq!(gmch.table_word(1024), Err(Refusal::PageAboveMemory));
    /// ```
    #[inline]
    pub fn table_word(&self, number: usize) -> Result<u32, Refusal> {
        assert!(number < TABLE_WORDS, "the table has {TABLE_WORDS} words");
        match self.table_in_memory() {
            true => self.reach_word(number, WordUse::Lookup).map(|address| self.word_at(address)),
            false => Ok(self.table[number]),
        }
    }

    /// "A word at or above TOM gives code 7 and one in protected memory code 6 ... 7 first": where a word in main memory
    /// lies. Nothing else is asked of its address.
    #[inline]
    pub(super) fn reach_word(&self, number: usize, by: WordUse) -> Result<u32, Refusal> {
        let address = self.word_address(number);
        let last = if self.wrong(Fault::WholeTableBelowTop) { self.word_address(TABLE_WORDS - 1) } else { address };
        let top =
            if self.wrong(Fault::LastWordRefused) { self.tom - 4 } else { self.top_unless(Fault::HighWordRefused) };
        if last >= u64::from(top) {
            return Err(match by {
                WordUse::Lookup if self.wrong(Fault::WordAboveMemoryNotValid) => Refusal::EntryNotValid,
                _ => Refusal::PageAboveMemory,
            });
        }
        let address = address as u32;
        let opened = match by {
            WordUse::Lookup => Fault::LookupReadsProtectedWords,
            WordUse::Read => Fault::RegisterReadsProtectedWords,
            WordUse::Write => Fault::RegisterWritesProtectedWords,
        };
        if self.word_closed(address) && !self.wrong(opened) {
            return Err(Refusal::PageProtected);
        }
        Ok(address)
    }

    /// Whether a word here gets code 6.
    #[inline]
    fn word_closed(&self, address: u32) -> bool {
        let tested = if self.wrong(Fault::ProtectionOfTableBase) {
            self.word_address(0) as u32
        } else if self.wrong(Fault::WordProtectionOf29Bits) {
            address & 0x1FFF_FFFF
        } else {
            address
        };
        self.protected(tested)
            || self.wrong(Fault::TakenWordRefused) && address >= self.usable_top()
            || self.wrong(Fault::BiosWordRefused) && (0xC_0000..=0xF_FFFF).contains(&address)
    }

    /// A lookup in main memory: "every lookup go to that word".
    #[inline]
    pub(super) fn look_up(&mut self, number: usize) -> Result<u32, Refusal> {
        let word = self.reach_word(number, WordUse::Lookup).map(|address| {
            match self.wrong(Fault::LookupsSeeRegisterWritesOnly) {
                true => self.table[number],
                false if self.lookup_kept_from(address) => 0,
                false => self.word_at(address),
            }
        });
        self.tell_of_word(number, WordUse::Lookup, word.err(), word.ok());
        word
    }

    /// The register of a word in main memory: "Table reads and writes through 10000h ... go to that word; a write masks
    /// as in 01, a read does not ... answered reads and writes there keep target 5." "translation off does not stop
    /// register access", and no mode is an exception.
    #[inline]
    pub(super) fn word_access(
        &mut self,
        number: usize,
        offset: u32,
        access: Access,
        mode: Mode,
    ) -> Result<Answer, Refusal> {
        if self.wrong(Fault::TranslationOffStopsRegisters) && !self.translation_on() {
            return Err(Refusal::TranslationOff);
        }
        let place = self.reach_word(number, WordUse::of(access));
        let result = place.and_then(|address| match access.data {
            _ if self.register_kept_from(address, access.data.is_some()) => Ok(0),
            None if self.wrong(Fault::MemoryWordReadMasked) => Ok(self.word_at(address) & ENTRY_BITS),
            None => Ok(self.word_at(address)),
            Some(data) => self.write_word(number, address, data, mode),
        });
        self.tell_of_word(number, WordUse::of(access), place.err(), result.ok());
        if place == Err(Refusal::PageProtected) {
            if self.wrong(Fault::ProtectedWordSetsError) {
                self.set_error(access);
            }
            let management = matches!(mode, Mode::Processor { management: true, .. });
            if self.wrong(Fault::ManagementReadsProtectedWords) && management && access.data.is_none() {
                return Ok(reached(Target::MemoryMapped, offset, self.open_word(number)));
            }
        }
        let word = result?;
        // "value read, zero-extended (0 for writes)"
        let value = if access.data.is_none() { word } else { 0 };
        Ok(match self.wrong(Fault::WordAnsweredAsMemory) {
            true => reached(Target::Memory, self.word_address(number) as u32, value),
            false => reached(Target::MemoryMapped, offset, value),
        })
    }

    /// A write of an entry in the private table: "Entry i (10000h + 4i) stores data AND 3FFFF007h".
    #[inline]
    pub(super) fn write_entry(&mut self, number: usize, data: u32, mode: Mode) -> Result<(), Refusal> {
        match self.stored_word(number, data, mode) {
            Ok(_) if self.wrong(Fault::EntryStoredWhole) => self.table[number] = data,
            Ok(word) => self.table[number] = word,
            Err(refusal) => {
                if let Some(word) = self.stored_although_refused(data) {
                    self.table[number] = word;
                }
                return Err(refusal);
            }
        }
        Ok(())
    }

    /// A write of a word in main memory, "a write masks as in 01": the word as it is stored.
    #[inline]
    fn write_word(&mut self, number: usize, address: u32, data: u32, mode: Mode) -> Result<u32, Refusal> {
        let stored = self.stored_word(number, data, mode);
        match stored {
            Ok(_) if self.wrong(Fault::MemoryWordStoredWhole) => self.store_word(number, address, data),
            Ok(word) => self.store_word(number, address, word),
            Err(_) => {
                if let Some(word) = self.stored_although_refused(data) {
                    self.store_word(number, address, word);
                    self.observer.touched(Touch { address, width: 4, write: true, protected: false });
                }
            }
        }
        stored
    }

    #[inline]
    fn store_word(&mut self, number: usize, address: u32, word: u32) {
        let at = address as usize;
        self.memory[at..at + 4].copy_from_slice(&word.to_le_bytes());
        if self.wrong(Fault::LookupsSeeRegisterWritesOnly) {
            self.table[number] = word;
        }
    }

    /// Tells the observer of a word in main memory: its own refusal, and what was read or stored.
    #[inline]
    fn tell_of_word(&mut self, number: usize, by: WordUse, refusal: Option<Refusal>, value: Option<u32>) {
        let address = self.word_address(number);
        self.observer.table_word(TableWord { number, address, by, value, refusal });
        if value.is_some() {
            let (address, write) = (address as u32, by == WordUse::Write);
            self.observer.touched(Touch { address, width: 4, write, protected: self.protected(address) });
        }
    }

    /// Zeroes the words in main memory that a register write would reach ([`Fault::ResetClearsWords`]).
    pub(super) fn clear_words(&mut self) {
        for number in 0..TABLE_WORDS {
            if let Ok(address) = self.reach_word(number, WordUse::Write) {
                self.store_word(number, address, 0);
                self.tell_of_word(number, WordUse::Write, None, Some(0));
            }
        }
    }

    /// A word in main memory that is below TOM, protected or not. Only wrong references ask.
    pub(super) fn open_word(&self, number: usize) -> u32 {
        self.word_at(self.word_address(number) as u32)
    }
}
