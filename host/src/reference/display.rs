//! The display cache of the DC100 boards and its three registers (request 11 of document 02).

use super::{reached, Access, Gmch, Observer, Touch, MIB};
use crate::board::Board;
use crate::faults::{Fault, Faults};
use crate::record::{Answer, Refusal, Target};

/// "Add 3000h to 3002h with the datasheet's defaults 00h, 17h, 08h"
pub(super) const DEFAULTS: [u8; 3] = [0x00, 0x17, 0x08];

/// Where a table entry leads.
///
/// ```
/// use mitrophel::reference::Place;
///
/// assert_eq!(Place::DisplayCache(0x3F_FFFC).address(), 0x3F_FFFC);
/// ```
#[derive(Clone, Copy, Debug, PartialEq, Eq)]
pub enum Place {
    /// A physical address of main memory.
    Memory(u32),
    /// An address in the display cache.
    DisplayCache(u32),
}

impl Place {
    /// The address in that memory.
    #[inline]
    pub const fn address(self) -> u32 {
        match self {
            Place::Memory(address) | Place::DisplayCache(address) => address,
        }
    }
}

impl<O: Observer, F: Faults> Gmch<'_, O, F> {
    /// Whether the board has the cache and its three registers: "kinds 1 and 3 only".
    #[inline]
    pub(super) fn has_display(&self) -> bool {
        matches!(self.board, Board::Dc100 | Board::Dc100Main)
    }

    /// Whether an entry of type 01 can reach a display cache on this board. Only wrong references can without having one.
    #[inline]
    pub(super) fn may_reach_display(&self) -> bool {
        self.has_display() || self.wrong(Fault::DisplayCacheOnKind0) || self.wrong(Fault::DisplayCacheOnKind2)
    }

    /// Whether an entry of type 01 reaches the display cache: "Other kinds answer 5 as before", and "bit 0 of 3000h at 0
    /// means type 01 is code 5".
    ///
    /// ```
    /// # use mitrophel::reference::{Gmch, TABLE_WORDS};
    /// # use mitrophel::{Board, Record};
    /// # let (mut memory, mut table, mut display) = (vec![0; 8 << 20], [0; TABLE_WORDS], vec![0; 4 << 20]);
    /// # let mut gmch = Gmch::new(Board::Dc100, &mut memory, &mut table, &mut display).expect("a DC100");
    /// # for (register, data) in [(0x70, 0x40), (0x814, 0xF000_0000), (0x804, 2)] {
    /// #     gmch.answer(&Record::io_write(0xCF8, 4, 0x8000_0000 | register));
    /// #     gmch.answer(&Record::io_write(0xCFC, 4, data));
    /// # }
    /// // The registers are at F0000000h.
    /// assert!(!gmch.display_on());
    /// gmch.answer(&Record::write(0xF000_3000, 1, 1, false));
    /// assert!(gmch.display_on());
    /// ```
    #[inline]
    pub fn display_on(&self) -> bool {
        match self.board {
            Board::I82810 => self.wrong(Fault::DisplayCacheOnKind0),
            Board::I82810Main => self.wrong(Fault::DisplayCacheOnKind2),
            Board::Dc100 | Board::Dc100Main => {
                self.display_registers[0] & 1 != 0 || self.wrong(Fault::DisplayCacheAlwaysOn)
            }
        }
    }

    /// Where a valid entry of type 01 leads that reaches the cache: "Entry type 01 reaches it, with page below 4 MiB,
    /// else code 7. It is never protected."
    #[inline]
    pub(super) fn display_place(&self, page: u32, offset: u32) -> Result<Place, Refusal> {
        let end = if self.wrong(Fault::DisplayPageBelowTom) {
            self.tom
        } else if self.wrong(Fault::DisplayPageAtEndAccepted) {
            4 * MIB + 4096
        } else if self.wrong(Fault::LastDisplayPageRefused) {
            4 * MIB - 4096
        } else {
            4 * MIB
        };
        if page >= end {
            return Err(Refusal::PageAboveMemory);
        }
        if self.wrong(Fault::DisplayPageProtected) && self.protected(page) {
            return Err(Refusal::PageProtected);
        }
        Ok(Place::DisplayCache(page + offset % 4096))
    }

    /// "Answers use target 6 and the final address in it."
    #[inline]
    pub(super) fn display_access(&mut self, address: u32, access: Access) -> Answer {
        let (width, write) = (access.width, access.data.is_some());
        let in_memory = match write {
            true => self.wrong(Fault::DisplayWriteLandsInMemory),
            false => self.wrong(Fault::DisplayReadFromMemory),
        };
        let value = if in_memory {
            self.memory_access(address, access).value
        } else {
            let at = address as usize;
            // Only wrong references go past the end.
            self.display.get_mut(at..at + width as usize).map_or(0, |bytes| {
                self.observer.display_touched(Touch { address, width, write, protected: false });
                access.carry_out(bytes)
            })
        };
        let target = if self.wrong(Fault::DisplayAnsweredAsMemory) { Target::Memory } else { Target::DisplayCache };
        let shown = if self.wrong(Fault::DisplayAddressOfPage) { address & !0xFFF } else { address };
        reached(target, shown, value)
    }

    /// The word at a place that translation led to, which is a multiple of 4.
    ///
    /// ```
    /// # use mitrophel::reference::{Gmch, Place, TABLE_WORDS};
    /// # use mitrophel::Board;
    /// let (mut memory, mut table, mut display) = (vec![1; 8 << 20], [0; TABLE_WORDS], vec![6; 4 << 20]);
    /// let gmch = Gmch::new(Board::Dc100, &mut memory, &mut table, &mut display).expect("a DC100");
    /// assert_eq!(gmch.word(Place::Memory(0x1000)), 0x0101_0101);
    /// assert_eq!(gmch.word(Place::DisplayCache(0x1000)), 0x0606_0606);
    /// ```
    #[inline(always)]
    pub fn word(&self, place: Place) -> u32 {
        match place {
            Place::Memory(address) => self.word_at(address),
            Place::DisplayCache(address) if self.wrong(Fault::DisplayFetchReadsMemory) => self.word_at(address),
            Place::DisplayCache(address) => {
                let bytes = self.display.get(address as usize..).and_then(|bytes| bytes.first_chunk());
                // Only wrong references go past the end.
                bytes.map_or(0, |bytes| u32::from_le_bytes(*bytes))
            }
        }
    }

    /// "3000h keeps bit 0, the others all bits": a register's value after a write.
    #[inline]
    pub(super) fn write_display_register(&mut self, number: usize, data: u8) {
        let bits = match number {
            0 if self.wrong(Fault::DisplayControlKeepsAllBits) => 0xFF,
            0 => 0x01,
            1 if self.wrong(Fault::Register3001KeepsBit0) => 0x01,
            2 if self.wrong(Fault::Register3002Keeps5Bits) => 0x1F,
            _ => 0xFF,
        };
        self.display_registers[number] = data & bits;
    }

    /// What only wrong references do with the word at 3000h.
    #[inline]
    pub(super) fn wrong_display_access(&mut self, offset: u32, access: Access) -> Option<Result<Answer, Refusal>> {
        if offset == 0x3003 && self.wrong(Fault::Byte3003Refused) && self.has_display() {
            return Some(Err(Refusal::NotExactlyRegister));
        }
        let together = match (offset, access.width) {
            (0x3000, 4) => self.wrong(Fault::DisplayRegistersAsWord),
            (0x3001, 2) => self.wrong(Fault::DisplayRegistersAsHalf),
            (0x3002, 2) => self.wrong(Fault::TwoBytesAt3002Accepted),
            _ => false,
        };
        if !(together && self.has_display()) {
            return None;
        }
        let mut bytes = [0; 4];
        for (number, byte) in (offset as usize % 4..3).zip(&mut bytes[..access.width as usize]) {
            match access.data {
                None => *byte = self.display_registers[number],
                Some(data) => self.write_display_register(number, (data >> (8 * (number as u32 - offset % 4))) as u8),
            }
        }
        Some(Ok(reached(Target::MemoryMapped, offset, u32::from_le_bytes(bytes))))
    }

    /// The three registers at cold start and after a reset.
    pub(super) fn display_defaults(&self) -> [u8; 3] {
        let [mut control, mut low, mut high] = DEFAULTS;
        if self.wrong(Fault::DisplayCacheOnByDefault) {
            control = 0x01;
        }
        if self.wrong(Fault::Register3001DefaultsToZero) {
            low = 0;
        }
        if self.wrong(Fault::Register3002DefaultsToZero) {
            high = 0;
        }
        [control, low, high]
    }

    /// Zeroes the cache ([`Fault::ResetClearsDisplay`]).
    pub(super) fn clear_display(&mut self) {
        self.display.fill(0);
        for address in (0..self.display.len() as u32).step_by(4096) {
            self.observer.display_touched(Touch { address, width: 4096, write: true, protected: false });
        }
    }
}

/// Whether a board can be lent a display cache of this length: "The host lends a second memory of 4 MiB for kinds 1 and
/// 3, and of length 0 for the others; else code 1."
pub(super) fn is_display_length(board: Board, bytes: usize, faults: &impl Faults) -> bool {
    let (right, accepted) = match board {
        Board::Dc100 | Board::Dc100Main => {
            let short = bytes == 0 && faults.has(Fault::NoDisplayAccepted);
            let long = bytes > 4 << 20 && faults.has(Fault::LongDisplayAccepted);
            (4 << 20, short || long)
        }
        Board::I82810 | Board::I82810Main => (0, bytes == 4 << 20 && faults.has(Fault::DisplayLentToOthers)),
    };
    bytes == right || accepted
}
