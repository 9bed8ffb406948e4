//! The memory-mapped registers (document 01, "Table, fences, ring, interrupts").

use super::routing::Mode;
use super::{reached, Access, Fence, Gmch, Observer, WordUse};
use crate::board::Board;
use crate::faults::{Fault, Faults};
use crate::record::{Answer, Refusal, Target};

/// The listed registers.
#[derive(Clone, Copy, Debug, PartialEq, Eq)]
enum Listed {
    /// FENCE, 2000h to 201Ch
    Fence(usize),
    /// PGTBL_CTL, 2020h
    TableControl,
    /// LP_RING tail, 2030h
    RingTail,
    /// LP_RING head, 2034h
    RingHead,
    /// LP_RING start, 2038h
    RingStart,
    /// LP_RING length, 203Ch
    RingLength,
    /// IER, 20A0h
    InterruptEnable,
    /// IIR, 20A4h
    InterruptIdentity,
    /// IMR, 20A8h
    InterruptMask,
    /// ISR, 20ACh
    InterruptStatus,
    /// A word of the translation table (GTT), 10000h to 1FFFCh
    Entry(usize),
    /// DRT, DRAMCL and DRAMCH, 3000h to 3002h
    Display(usize),
}

impl Listed {
    /// The first register that an access at `offset` can touch inside its aligned word, if one is listed there:
    /// "fences 2000h to 201Ch and 2020h, 2030h, 2034h, 2038h, 203Ch, 10000h-1FFFCh, four bytes each; 20A0h, 20A4h,
    /// 20A8h, 20ACh, two bytes each"; and by request 11 of document 02 "3000h to 3002h ... one byte each", where
    /// `display` says that they are listed.
    #[inline]
    const fn touched(offset: u32, display: bool) -> Option<Listed> {
        let listed = match offset & !3 {
            word @ 0x1_0000..=0x1_FFFC => Listed::Entry((word - 0x1_0000) as usize / 4),
            word @ 0x2000..=0x201C => Listed::Fence((word - 0x2000) as usize / 4),
            0x2020 => Listed::TableControl,
            0x2030 => Listed::RingTail,
            0x2034 => Listed::RingHead,
            0x2038 => Listed::RingStart,
            0x203C => Listed::RingLength,
            0x20A0 => Listed::InterruptEnable,
            0x20A4 => Listed::InterruptIdentity,
            0x20A8 => Listed::InterruptMask,
            0x20AC => Listed::InterruptStatus,
            0x3000 if display && offset <= 0x3002 => Listed::Display((offset - 0x3000) as usize),
            _ => return None,
        };
        if offset % 4 < listed.start() + listed.bytes() {
            Some(listed)
        } else {
            None
        }
    }

    /// Where it starts in its aligned word.
    #[inline]
    const fn start(self) -> u32 {
        match self {
            Listed::Display(i) => i as u32,
            _ => 0,
        }
    }

    #[inline]
    const fn bytes(self) -> u32 {
        match self {
            Listed::Display(_) => 1,
            Listed::InterruptEnable | Listed::InterruptIdentity | Listed::InterruptMask | Listed::InterruptStatus => 2,
            _ => 4,
        }
    }
}

/// "Entry i (10000h + 4i) stores data AND 3FFFF007h".
pub(super) const ENTRY_BITS: u32 = 0x3FFF_F007;
/// "2020h keeps 31:12 and bit 0"
const TABLE_CONTROL_BITS: u32 = 0xFFFF_F001;
/// "2030h tail 20:3"
const RING_TAIL_BITS: u32 = 0x001F_FFF8;
/// "2034h head, wraps 31:21, offset 20:2"
const RING_HEAD_BITS: u32 = 0xFFFF_FFFC;
/// "2038h start 25:12"
const RING_START_BITS: u32 = 0x03FF_F000;
/// "203Ch pages less one 20:12, enable 0"
const RING_LENGTH_BITS: u32 = 0x001F_F001;
/// "A user interrupt sets identity bit 1".
const USER_INTERRUPT: u16 = 1 << 1;

impl<O: Observer, F: Faults> Gmch<'_, O, F> {
    /// Code 10: "access touches a listed memory-mapped register without being exactly it". Others
    /// "read 0, ignore writes". The codes of a table word in main memory come "after code 10 for a register access", and
    /// so does code 16 of what is to be stored.
    #[inline]
    pub(super) fn register_access(&mut self, offset: u32, access: Access, mode: Mode) -> Result<Answer, Refusal> {
        if let Some(wrong) = self.wrong_display_access(offset, access) {
            return wrong;
        }
        let value = match Listed::touched(offset, self.lists_display(offset)) {
            Some(listed) => {
                let exact = offset % 4 == listed.start() && access.width == listed.bytes();
                let inside = offset % 4 + access.width <= listed.start() + listed.bytes();
                let word = match listed {
                    Listed::Entry(i) if self.table_in_memory() => Some(i),
                    _ => None,
                };
                if let Listed::Entry(i) = listed {
                    if let Some(wrong) = self.wrong_entry_access(i, access) {
                        return wrong.map(|value| reached(Target::MemoryMapped, offset, value));
                    }
                }
                if let (Some(i), true) = (word, self.wrong(Fault::WordBeforeExactness)) {
                    self.reach_word(i, WordUse::of(access))?;
                }
                if !(exact || inside && self.wrong(Fault::PartOfRegisterAccepted)) {
                    return Err(Refusal::NotExactlyRegister);
                }
                match (word, access.data) {
                    (Some(i), _) => return self.word_access(i, offset, access, mode),
                    (None, None) => self.register_read(listed),
                    (None, Some(data)) => {
                        self.register_write(listed, data, mode)?;
                        0
                    }
                }
            }
            None => 0,
        };
        Ok(reached(Target::MemoryMapped, offset, value))
    }

    /// The listed memory-mapped register at this offset, as a read of it gives it; none where none starts, or where
    /// the read would be refused, as that of a table word in main memory can be.
    ///
    /// ```
    /// # use mitrophel::reference::{Gmch, TABLE_WORDS};
    /// # use mitrophel::{Board, Record};
    /// # let (mut memory, mut table) = (vec![0; 8 << 20], [0; TABLE_WORDS]);
    /// # let mut gmch = Gmch::new(Board::I82810, &mut memory, &mut table, &mut []).expect("8 MiB is a memory");
    /// assert_eq!(gmch.register(0x20A8), Some(0xFFFF)); // the interrupt mask
    /// assert_eq!(gmch.register(0x20AA), None);
    /// ```
    pub fn register(&self, offset: u32) -> Option<u32> {
        match Listed::touched(offset, self.has_display()).filter(|listed| offset % 4 == listed.start())? {
            Listed::Entry(i) => self.table_word(i).ok(),
            listed => Some(self.register_read(listed)),
        }
    }

    /// A listed register; a table word is one of the private table.
    #[inline]
    fn register_read(&self, listed: Listed) -> u32 {
        match listed {
            Listed::Fence(i) => self.fences[i].0,
            Listed::TableControl => self.table_control,
            Listed::RingTail => self.ring.tail,
            Listed::RingHead => self.ring.head,
            Listed::RingStart => self.ring.start,
            Listed::RingLength => self.ring.length,
            Listed::InterruptEnable => u32::from(self.interrupt_enable),
            Listed::InterruptIdentity => u32::from(self.interrupt_identity),
            Listed::InterruptMask => u32::from(self.interrupt_mask),
            // "20ACh reads 0 and ignores writes"
            Listed::InterruptStatus => 0,
            Listed::Entry(i) => self.table[i],
            Listed::Display(i) => u32::from(self.display_registers[i]),
        }
    }

    /// Whether 3000h to 3002h are listed: "for kinds 1 and 3 only".
    #[inline]
    fn lists_display(&self, offset: u32) -> bool {
        self.has_display()
            || offset == 0x3001 && self.board == Board::I82810Main && self.wrong(Fault::Register3001OnKind2)
            || self.board == Board::I82810 && self.wrong(Fault::DisplayRegistersOnKind0)
    }

    /// A listed register; a table word is one of the private table, and may be refused.
    #[inline]
    fn register_write(&mut self, listed: Listed, data: u32, mode: Mode) -> Result<(), Refusal> {
        match listed {
            Listed::Fence(i) => self.fences[i] = Fence(data & Fence::BITS),
            Listed::TableControl => self.table_control = data & TABLE_CONTROL_BITS,
            Listed::RingTail => self.ring.tail = data & RING_TAIL_BITS,
            Listed::RingHead => self.ring.head = data & RING_HEAD_BITS,
            Listed::RingStart => self.ring.start = data & RING_START_BITS,
            Listed::RingLength => self.ring.length = data & RING_LENGTH_BITS,
            // "20A0h enable, 20A8h mask (FFFFh), both plain, 20A4h identity (write 1 clears)"
            Listed::InterruptEnable => self.interrupt_enable = data as u16,
            Listed::InterruptIdentity => self.interrupt_identity &= !(data as u16),
            Listed::InterruptMask => {
                self.interrupt_mask = data as u16;
                if self.interrupt_mask & USER_INTERRUPT == 0 && self.faults.take_interrupt() {
                    self.interrupt_identity |= USER_INTERRUPT;
                }
            }
            Listed::InterruptStatus => {}
            Listed::Entry(i) => return self.write_entry(i, data, mode),
            Listed::Display(i) => self.write_display_register(i, data as u8),
        }
        Ok(())
    }

    /// What an entry's register write stores.
    #[inline]
    pub(super) fn entry_bits(&self) -> u32 {
        if self.wrong(Fault::EntryBit29NotStored) {
            ENTRY_BITS & !(1 << 29)
        } else {
            ENTRY_BITS
        }
    }

    /// "A user interrupt sets identity bit 1 if mask bit 1 is 0." Whether there is one is no branch, which the processor
    /// could not foresee.
    #[inline]
    pub(super) fn user_interrupt_if(&mut self, raised: bool) {
        let masked = self.interrupt_mask & USER_INTERRUPT != 0;
        let disabled = self.interrupt_enable & USER_INTERRUPT == 0;
        if raised && masked && self.wrong(Fault::MaskedInterruptStaysPending) {
            self.faults.hold_interrupt();
        }
        let lost = masked && !self.wrong(Fault::MaskIgnored) || disabled && self.wrong(Fault::EnableGatesIdentity);
        self.interrupt_identity |= u16::from(raised & !lost) << 1;
    }

    /// "Line = identity AND enable nonzero".
    #[inline]
    pub(super) fn line(&self) -> bool {
        self.interrupt_identity & self.interrupt_enable != 0
    }
}
