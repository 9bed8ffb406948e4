//! The ring parser (document 01, "Table, fences, ring, interrupts").

use super::{Gmch, Observer, Place, Touch, KIB, MIB};
use crate::faults::{Fault, Faults};
use crate::record::{Answer, Refusal};

/// The ring's four registers.
///
/// ```
/// use mitrophel::reference::Ring;
///
/// let ring = Ring { tail: 0x20, head: 3 << 21 | 0x10, start: 0x1_0000, length: 0x1001 };
/// assert!(ring.enabled());
/// assert_eq!((ring.bytes(), ring.head_offset(), ring.wraps()), (0x2000, 0x10, 3));
/// ```
#[derive(Clone, Copy, Debug, Default, PartialEq, Eq)]
pub struct Ring {
    /// 2030h
    pub tail: u32,
    /// 2034h
    pub head: u32,
    /// 2038h
    pub start: u32,
    /// 203Ch
    pub length: u32,
}

impl Ring {
    /// 203Ch bit 0.
    #[inline]
    pub const fn enabled(&self) -> bool {
        self.length & 1 != 0
    }

    /// "pages less one 20:12": 4 KiB to 2 MiB.
    #[inline]
    pub const fn bytes(&self) -> u32 {
        (self.length & 0x001F_F000) + 4 * KIB
    }

    /// The head's "offset 20:2".
    #[inline]
    pub const fn head_offset(&self) -> u32 {
        self.head & 0x001F_FFFC
    }

    /// The head's "wraps 31:21".
    #[inline]
    pub const fn wraps(&self) -> u32 {
        self.head >> 21
    }
}

impl<O: Observer, F: Faults> Gmch<'_, O, F> {
    /// "a run takes step after step until it ends so, a step is refused, or the budget is used up,
    /// which is code 0 with nothing further checked. Count = completed steps". "A parser run gives
    /// target 0, the head register afterwards as address, value 0 and the count."
    pub(super) fn run(&mut self, budget: u32) -> Answer {
        match (self.table_in_memory(), self.may_reach_display()) {
            (false, false) => self.run_by::<false, false>(budget),
            (false, true) => self.run_by::<false, true>(budget),
            (true, false) => self.run_by::<true, false>(budget),
            (true, true) => self.run_by::<true, true>(budget),
        }
    }

    /// [`Gmch::run`] with the table in this home, with a display cache or without.
    fn run_by<const IN_MEMORY: bool, const DISPLAY: bool>(&mut self, budget: u32) -> Answer {
        let mut answer = Answer::default();
        if budget == 0 && self.wrong(Fault::BudgetZeroChecks) {
            answer.code = self.next_word::<IN_MEMORY, DISPLAY>().map_or_else(Refusal::code, |_| 0);
        }
        // "A run ignores GMS".
        let idle = self.wrong(Fault::RunNeedsGraphics) && !self.smram().graphics_on();
        while answer.count < budget && !idle {
            match self.step::<IN_MEMORY, DISPLAY>() {
                Ok(true) => answer.count += 1,
                Ok(false) => break,
                Err(refusal) => {
                    answer.code = refusal.code();
                    answer.count += u32::from(self.wrong(Fault::RefusedStepCounted));
                    break;
                }
            }
        }
        let offset_shown = match answer.code {
            3..=7 => self.wrong(Fault::FetchOffsetShown),
            8 => self.wrong(Fault::OutsideOffsetShown),
            _ => false,
        };
        answer.address = if offset_shown { self.ring.start + self.ring.head_offset() } else { self.ring.head };
        answer
    }

    /// One step: true if it was completed, false where the run ends by itself.
    #[inline(always)]
    fn step<const IN_MEMORY: bool, const DISPLAY: bool>(&mut self) -> Result<bool, Refusal> {
        let Some(place) = self.next_word::<IN_MEMORY, DISPLAY>()? else {
            return Ok(false);
        };
        let touch = |address, protected| Touch { address, width: 4, write: false, protected };
        match place {
            Place::Memory(address) => self.observer.touched(touch(address, self.protected(address))),
            Place::DisplayCache(address) => self.observer.display_touched(touch(address, false)),
        }
        let word = if self.fetch_kept_from(place) { 0 } else { self.word(place) };
        self.execute(word)?;
        self.advance();
        Ok(true)
    }

    /// Where the word at the head lies; none where the ring is "not enabled (seen before
    /// code 11), or offsets equal". The codes come in the order "11, then empty check, then 8, 3, 4,
    /// 5, 7, 6", with 7 and 6 of a table word in main memory "after code 3". "A step fetches the word
    /// at start + offset, unfenced." Of translation's refusal the offset is dropped: "Parser refusals keep the head
    /// there."
    #[inline(always)]
    fn next_word<const IN_MEMORY: bool, const DISPLAY: bool>(&mut self) -> Result<Option<Place>, Refusal> {
        let Ring { tail, start, .. } = self.ring;
        let head = self.ring.head_offset();
        if !self.ring.enabled() || head == tail && self.wrong(Fault::EmptyBeforeRange) {
            return Ok(None);
        }
        let bytes = self.ring_bytes();
        if head >= bytes || tail >= bytes {
            return Err(Refusal::RingOffset);
        }
        if head == tail {
            return Ok(None);
        }
        let offset = start + head;
        let window = if self.wrong(Fault::ParserWindowAlways64) { 64 * MIB } else { self.window_bytes() };
        if offset >= window {
            return Err(Refusal::OutsideWindow);
        }
        let offset = match self.wrong(Fault::FetchFenced) {
            true => self.fenced(offset).map_err(|refused| refused.refusal)?,
            false => offset,
        };
        match self.translate::<IN_MEMORY, DISPLAY>(offset).map_err(|refused| refused.refusal) {
            Err(Refusal::PageProtected) if IN_MEMORY && self.wrong(Fault::FetchReadsProtectedWords) => {
                self.translate_by::<DISPLAY>(self.open_word(offset as usize / 4096), offset).map(Some)
            }
            Ok(Place::DisplayCache(_)) if self.wrong(Fault::DisplayFetchRefused) => Err(Refusal::EntryType),
            Ok(Place::Memory(0x2000_0000..)) if self.wrong(Fault::HighFetchRefused) => Err(Refusal::PageAboveMemory),
            result => result.map(Some),
        }
    }

    /// "Bits 31:29 zero and 28:23: 00h nothing, 02h user interrupt, 04h flush (nothing), else 12;
    /// other bits are not looked at."
    #[inline]
    fn execute(&mut self, word: u32) -> Result<(), Refusal> {
        if self.wrong(Fault::InstructionLowBitsChecked) && word & 0x007F_FFFF != 0 {
            return Err(Refusal::UnknownInstruction);
        }
        let opcode = word >> 23;
        // Not 00h, 02h or 04h, without a branch for each.
        if opcode > 0x04 || !opcode.is_multiple_of(2) {
            return Err(Refusal::UnknownInstruction);
        }
        self.user_interrupt_if(opcode == 0x02);
        Ok(())
    }

    /// "Head moves 4, modulo the length; at the wrap 31:21 counts up modulo 2,048."
    #[inline]
    fn advance(&mut self) {
        let (mut offset, mut wraps) = (self.ring.head_offset() + 4, self.ring.wraps());
        if offset == self.ring_bytes() {
            offset = 0;
            let kept = self.wrong(Fault::WrapNotCounted) || wraps == 2047 && self.wrong(Fault::WrapsSaturate);
            wraps = if kept { wraps } else { (wraps + 1) % 2048 };
        }
        if self.wrong(Fault::StepConsumesRing) {
            offset = self.ring.tail;
        }
        self.ring.head = wraps << 21 | offset;
    }

    #[inline]
    fn ring_bytes(&self) -> u32 {
        self.ring.bytes() - if self.wrong(Fault::RingPagesNotPlusOne) { 4 * KIB } else { 0 }
    }

    /// The ring's registers.
    ///
    /// ```
    /// # use mitrophel::reference::{Gmch, TABLE_WORDS};
    /// # use mitrophel::{Board, Record};
    /// # let (mut memory, mut table) = (vec![0; 8 << 20], [0; TABLE_WORDS]);
    /// # let mut gmch = Gmch::new(Board::I82810, &mut memory, &mut table, &mut []).expect("8 MiB is a memory");
    /// assert!(!gmch.ring().enabled());
    /// ```
    #[inline]
    pub fn ring(&self) -> Ring {
        self.ring
    }

    /// Where the parser would fetch the word at this offset of the window, or why it would be refused.
    ///
    /// ```
    /// # use mitrophel::reference::{Gmch, Place, TABLE_WORDS};
    /// # use mitrophel::{Board, Record, Refusal};
    /// # let (mut memory, mut table) = (vec![0; 8 << 20], [0; TABLE_WORDS]);
    /// # let mut gmch = Gmch::new(Board::I82810, &mut memory, &mut table, &mut []).expect("8 MiB is a memory");
    /// # for (register, data) in [(0x70, 0x40), (0x814, 0xF000_0000), (0x804, 2)] {
    /// #     gmch.answer(&Record::io_write(0xCF8, 4, 0x8000_0000 | register));
    /// #     gmch.answer(&Record::io_write(0xCFC, 4, data));
    /// # }
    /// // The registers are at F0000000h: translation on, and entry 0 at 100000h.
    /// gmch.answer(&Record::write(0xF000_2020, 4, 1, false));
    /// gmch.answer(&Record::write(0xF001_0000, 4, 0x10_0001, false));
    /// assert_eq!(gmch.fetch_address(0x10), Ok(Place::Memory(0x10_0010)));
    /// assert_eq!(gmch.fetch_address(0x1000), Err(Refusal::EntryNotValid));
    /// ```
    pub fn fetch_address(&self, offset: u32) -> Result<Place, Refusal> {
        if offset >= self.window_bytes() {
            return Err(Refusal::OutsideWindow);
        }
        if !self.translation_on() {
            return Err(Refusal::TranslationOff);
        }
        self.translate_by::<true>(self.table_word(offset as usize / 4096)?, offset)
    }
}
