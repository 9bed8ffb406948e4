//! The window: fences and translation (document 01, "Table, fences, ring, interrupts").

use super::routing::Mode;
use super::{reached, Access, Gmch, Observer, Place, Refused, WordUse, KIB, MIB};
use crate::faults::{Fault, Faults};
use crate::record::{Answer, Refusal, Target};

/// A fence register.
///
/// ```
/// use mitrophel::reference::Fence;
///
/// let fence = Fence(0x0008_0021); // 512 KiB from 80000h, a pitch of 512 bytes, valid
/// assert!(fence.matches(0x8_0000) && !fence.matches(0x10_0000));
/// assert!(!fence.ill_formed());
/// assert_eq!(fence.tiled(0x8_0000 + 512), 0x8_0000 + 128); // row 1 of the first tile
/// assert!(Fence(0x0008_0121).ill_formed()); // 1 MiB from 80000h
/// ```
#[derive(Clone, Copy, Debug, PartialEq, Eq)]
pub struct Fence(pub u32);

impl Fence {
    /// "start 25:19, walk 12, size 512 KiB x 2^(10:8), pitch P = 128 x 2^(6:4), valid 0; other bits
    /// read 0"
    pub(super) const BITS: u32 = 0x03F8_1771;

    #[inline]
    const fn start(self) -> u32 {
        self.0 & 0x03F8_0000
    }

    /// "size code 7 read as 32 MiB"
    #[inline]
    const fn size(self) -> u32 {
        match self.0 >> 8 & 7 {
            7 => 32 * MIB,
            code => (512 * KIB) << code,
        }
    }

    #[inline]
    const fn pitch(self) -> u32 {
        128 << (self.0 >> 4 & 7)
    }

    /// "Matching means valid and start <= o < start + size".
    #[inline]
    pub const fn matches(self, offset: u32) -> bool {
        self.0 & 1 != 0 && self.start() <= offset && offset < self.start() + self.size()
    }

    /// "Ill-formed: size 7, pitch 6 or 7, walk 1, start no multiple of the size."
    #[inline]
    pub const fn ill_formed(self) -> bool {
        self.fields_ill_formed() || !self.start().is_multiple_of(self.size())
    }

    #[inline]
    const fn fields_ill_formed(self) -> bool {
        self.0 >> 8 & 7 == 7 || self.0 >> 4 & 7 >= 6 || self.0 >> 12 & 1 != 0
    }

    /// "With d = o - start, y = d / P, x = d mod P: result start + 2048((y/16)(P/128) + x/128) +
    /// 128(y mod 16) + x mod 128."
    #[inline]
    pub const fn tiled(self, offset: u32) -> u32 {
        self.tiled_in_rows(offset, 16)
    }

    /// A tile is 128 bytes wide and `rows` high; in truth 16.
    #[inline]
    const fn tiled_in_rows(self, offset: u32, rows: u32) -> u32 {
        let pitch = self.pitch();
        let d = offset - self.start();
        let (y, x) = (d / pitch, d % pitch);
        self.start() + 128 * rows * ((y / rows) * (pitch / 128) + x / 128) + 128 * (y % rows) + x % 128
    }
}

impl<O: Observer, F: Faults> Gmch<'_, O, F> {
    /// A processor access through the window.
    #[inline]
    pub(super) fn window_access(&mut self, offset: u32, access: Access, mode: Mode) -> Result<Answer, Refused> {
        let result = self.through_window(offset, access, mode);
        result.map_err(|refused| Refused { offset: self.shown(refused, offset, access, mode), ..refused })
    }

    /// The codes come in the order "9, 3, 4, 5, 7, 6", with 7 and 6 of a table word in main memory "after code 3". A
    /// refusal has its window offset.
    #[inline]
    fn through_window(&mut self, offset: u32, access: Access, mode: Mode) -> Result<Answer, Refused> {
        if self.wrong(Fault::TranslationBeforeFence) && !self.translation_on() {
            return Err(Refused { refusal: Refusal::TranslationOff, offset });
        }
        let offset = self.fenced(offset)?;
        let management = matches!(mode, Mode::Processor { management: true, .. });
        let translated = match (self.table_in_memory(), self.may_reach_display()) {
            (false, false) => self.translate::<false, false>(offset),
            (false, true) => self.translate::<false, true>(offset),
            (true, false) => self.translate::<true, false>(offset),
            (true, true) => self.translate::<true, true>(offset),
        };
        let place = match translated {
            Err(refused @ Refused { refusal: Refusal::PageProtected, .. })
                if management && self.wrong(Fault::ManagementExemptInWindow) =>
            {
                let entry = self.table_word(offset as usize / 4096).map_err(|_| refused)?;
                Place::Memory(entry_page(entry) + offset % 4096)
            }
            result => result?,
        };
        Ok(match place {
            Place::Memory(address)
                if self.wrong(Fault::WindowWriteForbidden) && self.makes_forbidden_word(address, access) =>
            {
                return Err(Refused { refusal: Refusal::ForbiddenEntry, offset });
            }
            Place::Memory(address) if self.window_kept_from(address, access) => reached(Target::Hub, access.address, 0),
            Place::Memory(address) => self.memory_access(address, access),
            Place::DisplayCache(address) => self.display_access(address, access),
        })
    }

    /// What the answer shows of a refused window access: the offset that the refusal has. Only wrong references show
    /// something else, which may be the offset `before` fencing.
    #[inline]
    fn shown(&self, Refused { refusal, offset }: Refused, before: u32, access: Access, mode: Mode) -> u32 {
        let (management, code) = match mode {
            Mode::Processor { management, code } => (management, code),
            Mode::Master => (false, false),
        };
        let own = || self.table_in_memory() && self.table_word(offset as usize / 4096) == Err(refusal);
        let unfenced = match refusal {
            Refusal::TranslationOff => self.wrong(Fault::Code3BeforeFencing),
            Refusal::EntryNotValid => self.wrong(Fault::Code4BeforeFencing),
            Refusal::EntryType => self.wrong(Fault::Code5BeforeFencing),
            Refusal::PageProtected => {
                self.wrong(Fault::Code6BeforeFencing) && !own() || self.wrong(Fault::Word6BeforeFencing) && own()
            }
            Refusal::PageAboveMemory => {
                self.wrong(Fault::Code7BeforeFencing) && !own() || self.wrong(Fault::Word7BeforeFencing) && own()
            }
            _ => false,
        };
        let zero = self.wrong(Fault::Code3ShowsZero) && refusal == Refusal::TranslationOff
            || self.wrong(Fault::Code9ShowsZero) && refusal == Refusal::FenceIllFormed
            || self.wrong(Fault::WordShowsZero) && own()
            || self.wrong(Fault::DisplayOffShowsZero) && refusal == Refusal::EntryType && self.has_display()
            || self.wrong(Fault::DisplayPageShowsZero)
                && refusal == Refusal::PageAboveMemory
                && self.names_display(offset)
            || self.wrong(Fault::WriteShowsZero) && access.data.is_some()
            || self.wrong(Fault::CodeReadShowsZero) && code
            || self.wrong(Fault::ManagementShowsZero) && management;
        if zero {
            0
        } else if unfenced {
            before
        } else if self.wrong(Fault::Code9AfterFencing) && refusal == Refusal::FenceIllFormed {
            self.fences.iter().find(|fence| fence.matches(before)).map_or(before, |fence| fence.tiled(before))
        } else if self.wrong(Fault::ProtectedWordShown) && refusal == Refusal::PageProtected && own() {
            self.open_word(offset as usize / 4096)
        } else if self.wrong(Fault::PageOffsetShown) {
            offset & !0xFFF
        } else if self.wrong(Fault::WordOffsetShown) {
            offset & !3
        } else if self.wrong(Fault::EntryNumberShown) {
            offset / 4096
        } else if self.wrong(Fault::RecordAddressShown) {
            access.address
        } else {
            offset
        }
    }

    /// "Eight fences, processor window accesses only, lowest matching number wins". Code 9 has "the offset before
    /// fencing".
    #[inline]
    pub(super) fn fenced(&self, offset: u32) -> Result<u32, Refused> {
        let skip = self.wrong(Fault::IllFormedFenceSkipped);
        let mut matching = self.fences.iter().filter(|fence| fence.matches(offset) && !(skip && fence.ill_formed()));
        let fence = if self.wrong(Fault::HighestFenceWins) { matching.next_back() } else { matching.next() };
        let Some(fence) = fence else {
            return Ok(offset);
        };
        let ill_formed = match self.wrong(Fault::FenceStartNotChecked) {
            true => fence.fields_ill_formed(),
            false => fence.ill_formed(),
        };
        if ill_formed {
            Err(Refused { refusal: Refusal::FenceIllFormed, offset })
        } else if self.wrong(Fault::TileOfEightRows) {
            Ok(fence.tiled_in_rows(offset, 8))
        } else {
            Ok(fence.tiled(offset))
        }
    }

    /// Whether the entry of this offset is of type 01. Only wrong references ask.
    fn names_display(&self, offset: u32) -> bool {
        self.table_word(offset as usize / 4096).is_ok_and(|entry| entry >> 1 & 3 == 1)
    }

    /// "2020h keeps 31:12 and bit 0, translation on."
    #[inline]
    pub(super) fn translation_on(&self) -> bool {
        self.table_control & 1 != 0
    }

    /// Where a graphics offset leads, or its refusal with this offset: "The translation's own result must carry it".
    #[inline(always)]
    pub(super) fn translate<const IN_MEMORY: bool, const DISPLAY: bool>(
        &mut self,
        offset: u32,
    ) -> Result<Place, Refused> {
        self.look_up_page::<IN_MEMORY, DISPLAY>(offset).map_err(|refusal| Refused { refusal, offset })
    }

    /// "Graphics offset o reads entry o / 4096". The codes come in the order 3, then the entry's own 4, 5, 7, 6. Between
    /// them, where the table is in main memory, come 7 and 6 of the entry's word, "after code 3 for a lookup". The home,
    /// and whether there may be a display cache, are parameters so that a run asks for them once and not at each step.
    #[inline(always)]
    fn look_up_page<const IN_MEMORY: bool, const DISPLAY: bool>(&mut self, offset: u32) -> Result<Place, Refusal> {
        let number = offset as usize / 4096;
        if IN_MEMORY && self.wrong(Fault::WordBeforeTranslationOff) {
            self.reach_word(number, WordUse::Lookup)?;
        }
        if !self.translation_on() {
            return Err(Refusal::TranslationOff);
        }
        if !IN_MEMORY {
            self.observer.looked_up(self.table[number]);
            return self.translate_by::<DISPLAY>(self.table[number], offset);
        }
        let entry = self.look_up(number);
        if entry == Err(Refusal::PageProtected) && self.wrong(Fault::EntryBeforeWord) {
            self.translate_by::<DISPLAY>(self.open_word(number), offset)?;
        }
        let entry = entry?;
        self.observer.looked_up(entry);
        self.translate_by::<DISPLAY>(entry, offset)
    }

    /// "the result is page start + o mod 4096", by this entry; the codes come in the order 4, 5, 7, 6.
    #[inline(always)]
    pub(super) fn translate_by<const DISPLAY: bool>(&self, entry: u32, offset: u32) -> Result<Place, Refusal> {
        self.check_entry::<DISPLAY>(entry)?;
        if DISPLAY && self.is_display_type(entry) {
            return self.display_place(entry_page(entry), offset);
        }
        let page = if self.wrong(Fault::HighEntryBitsCount) {
            entry & 0xFFFF_F000
        } else if self.wrong(Fault::EntryBit29NotUsed) {
            entry & 0x1FFF_F000
        } else {
            entry_page(entry)
        };
        let top = if self.wrong(Fault::LastPageRefused) {
            self.tom - 4096
        } else if self.wrong(Fault::TopOf30Bits) {
            entry_page(self.tom)
        } else {
            self.top_unless(Fault::HighPageRefused)
        };
        if page >= top || self.refuses_page_in_hole(page) {
            return Err(Refusal::PageAboveMemory);
        }
        let tested = if self.wrong(Fault::ProtectionOfOffset) {
            offset
        } else if self.wrong(Fault::ProtectionOf29Bits) {
            page & 0x1FFF_FFFF
        } else {
            page
        };
        if self.protected(tested) && !self.wrong(Fault::ProtectionNotChecked) && !self.checked_at_store() {
            return Err(match self.wrong(Fault::UseAfterLockIsCode16) && self.smram().locked() {
                true => Refusal::ForbiddenEntry,
                false => Refusal::PageProtected,
            });
        }
        Ok(Place::Memory(page + offset % 4096))
    }

    /// Whether a wrong reference trusts that no such entry is there: "Before the lock, and for entries already there, the
    /// check at use remains."
    #[inline]
    fn checked_at_store(&self) -> bool {
        let trusts = match self.table_in_memory() {
            true => self.wrong(Fault::LockEndsCheckOfWords),
            false => self.wrong(Fault::LockEndsCheckAtUse),
        };
        trusts && self.smram().locked()
    }

    /// "Entry type 01 reaches it", the display cache.
    #[inline]
    fn is_display_type(&self, entry: u32) -> bool {
        match entry >> 1 & 3 {
            1 => true,
            2 => self.wrong(Fault::Type10ReachesDisplay),
            _ => false,
        }
    }

    /// Codes 4 and 5: "type 2:1 (00, 11 main memory; 01 display cache), valid 0". Of type 01 request 11 of document 02
    /// has "Other kinds answer 5 as before, as type 10 does everywhere", and code 5 where the cache is off.
    #[inline(always)]
    fn check_entry<const DISPLAY: bool>(&self, entry: u32) -> Result<(), Refusal> {
        let invalid = entry & 1 == 0 || entry & 0xC000_0FF8 != 0 && self.wrong(Fault::UnnamedEntryBitsRefused);
        let other_memory = match entry >> 1 & 3 {
            1 => !(DISPLAY && self.display_on()),
            2 if self.wrong(Fault::Type10ReachesDisplay) => !(DISPLAY && self.display_on()),
            2 => !self.wrong(Fault::Type10ReachesMemory),
            3 => self.wrong(Fault::Type11Refused),
            _ => false,
        };
        let mut codes = (Refusal::EntryNotValid, Refusal::EntryType);
        if self.wrong(Fault::Codes4And5Exchanged) {
            codes = (codes.1, codes.0);
        }
        let display = entry >> 1 & 3 == 1;
        if other_memory && self.wrong(Fault::TypeBeforeValid) {
            Err(codes.1)
        } else if invalid && !(display && self.wrong(Fault::InvalidEntryReachesDisplay)) {
            Err(codes.0)
        } else if display && entry_page(entry) >= 4 * MIB && self.wrong(Fault::DisplayPageBeforeType) {
            Err(Refusal::PageAboveMemory)
        } else if other_memory {
            Err(codes.1)
        } else {
            Ok(())
        }
    }
}

/// "page 29:12". Request 6 of document 02: "Entry pages reach that far", to 1,024 MiB, so that there none is above TOM.
#[inline]
pub(super) const fn entry_page(entry: u32) -> u32 {
    entry & 0x3FFF_F000
}
