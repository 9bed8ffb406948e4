//! Where an address goes, and access to main memory (document 01, "Where an address goes").

use super::{reached, Access, Gmch, Lsmm, Observer, Refused, Rule, Smram, Touch, KIB, MIB};
use crate::faults::{Fault, Faults};
use crate::record::{Answer, Refusal, Target};
use std::ops::Range;

/// Who makes an access, as far as routing looks at it.
#[derive(Clone, Copy, PartialEq, Eq)]
pub(super) enum Mode {
    Processor { management: bool, code: bool },
    Master,
}

/// Where routing takes an address.
#[derive(Clone, Copy, PartialEq, Eq)]
pub(super) enum Route {
    /// Main memory, at this physical address.
    Memory(u32),
    /// The hub, with the record's address.
    Hub,
    /// The hub, and SMRAM's error bit is set.
    HubWithError,
    /// The VGA range, at this offset from A0000h.
    Vga(u32),
    /// The memory-mapped registers, at this offset.
    Registers(u32),
    /// The window, at this offset.
    Window(u32),
}

impl<O: Observer, F: Faults> Gmch<'_, O, F> {
    /// An access of the processor or of a hub master.
    #[inline]
    pub(super) fn addressed(&mut self, access: Access, mode: Mode) -> Result<Answer, Refused> {
        let (rule, route) = match mode {
            Mode::Processor { management, code } => self.route_processor(access, management, code),
            Mode::Master => self.route_master(access),
        };
        self.observer.routed(rule);
        match route {
            Route::Memory(address) => {
                let answer = self.memory_access(address, access);
                Ok(self.show_shadow(rule, access, answer))
            }
            Route::Hub => Ok(self.hub_access(rule, access)),
            Route::HubWithError => {
                self.set_error(access);
                Ok(reached(Target::Hub, access.address, 0))
            }
            Route::Vga(offset) => Ok(reached(Target::Vga, offset, 0)),
            Route::Registers(offset) => {
                self.register_access(offset, access, mode).map_err(|refusal| self.refused_register(refusal, offset))
            }
            Route::Window(offset) => self.window_access(offset, access, mode),
        }
    }

    /// A refused register access: "01's sentence that all else is zero is amended for these alone", the window's.
    #[inline]
    fn refused_register(&self, refusal: Refusal, offset: u32) -> Refused {
        let shown = match refusal {
            Refusal::NotExactlyRegister => self.wrong(Fault::Code10ShowsOffset),
            Refusal::ForbiddenEntry => self.wrong(Fault::Code16ShowsOffset),
            _ => self.wrong(Fault::RegisterWordShowsOffset),
        };
        Refused { refusal, offset: if shown { offset } else { 0 } }
    }

    /// "T = TSEG size, G = taken size, U = TOM - T - G."
    ///
    /// ```
    /// # use mitrophel::reference::{Gmch, TABLE_WORDS};
    /// # use mitrophel::{Board, Record};
    /// # let (mut memory, mut table) = (vec![0; 8 << 20], [0; TABLE_WORDS]);
    /// # let mut gmch = Gmch::new(Board::I82810, &mut memory, &mut table, &mut []).expect("8 MiB is a memory");
    /// gmch.answer(&Record::io_write(0xCF8, 4, 0x8000_0070));
    /// gmch.answer(&Record::io_write(0xCFC, 1, 0xBE)); // 512 KiB taken, TSEG of 1 MiB
    /// assert_eq!(gmch.usable_top(), 0x68_0000);
    /// ```
    #[inline]
    pub fn usable_top(&self) -> u32 {
        let top = self.top_unless(Fault::UsableTopBelow512Mib);
        top - self.smram().tseg_bytes() - self.smram().taken_bytes()
    }

    /// "First match, processor", rules 1 to 9. Request 6 of document 02: "The address map's order stays." Rules 3 and 4
    /// are those of request 8: shadow memory "in the places of rules 3 and 4".
    #[inline]
    fn route_processor(&self, access: Access, management: bool, code: bool) -> (Rule, Route) {
        let mode = Mode::Processor { management, code };
        match access.address {
            address @ 0..=0x9_FFFF => (Rule::Low, Route::Memory(address)),
            address @ 0xA_0000..=0xB_FFFF => self.route_compatible(address, management, code, access.data.is_some()),
            0xC_0000..=0xF_FFFF => match self.route_shadow(access, mode) {
                Some(memory) => (Rule::ShadowMemory, memory),
                None if self.wrong(Fault::ShadowHubSetsError) => (Rule::ShadowHub, Route::HubWithError),
                None => (Rule::ShadowHub, Route::Hub),
            },
            address if self.over_memory(address) => self.route_graphics(address),
            address if self.hole_past_top(access, mode) => self.route_hole(address),
            address if address < self.usable_top() => match self.in_hole(access, mode) {
                true => self.route_hole(address),
                false => match self.pamr_beside(address, access.data.is_some()) {
                    Some(false) => (Rule::Main, Route::Hub),
                    _ => (Rule::Main, self.main_memory(address)),
                },
            },
            address if address < self.tom => self.route_top(address, management),
            address @ 0xFEEA_0000..=0xFEEB_FFFF if self.hseg_acts() => match management {
                true => (Rule::HsegMemory, Route::Memory(0xA_0000 + (address - 0xFEEA_0000))),
                false => (Rule::HsegError, Route::HubWithError),
            },
            address if self.graphics_decodes() => self.route_graphics(address),
            _ => (Rule::Elsewhere, Route::Hub),
        }
    }

    /// Rule 2: "memory if LSMM 01; or LSMM 10, management code read; or LSMM 11, management. Else
    /// VGA, or hub if GMS 00."
    fn route_compatible(&self, address: u32, management: bool, code: bool, write: bool) -> (Rule, Route) {
        let smram = self.smram();
        let memory = match smram.lsmm() {
            Lsmm::Off => management && smram.hseg_acts() && self.wrong(Fault::HsegOpensCompatibleRange),
            Lsmm::General => true,
            Lsmm::ManagementCodeReads if self.wrong(Fault::ManagementDataReadsOpened) => management && !write,
            Lsmm::ManagementCodeReads => management && code && !self.wrong(Fault::ManagementCodeReadsShut),
            Lsmm::ManagementAll => management,
        };
        if memory || self.pamr_beside(address, write) == Some(true) {
            (Rule::CompatibleMemory, Route::Memory(address))
        } else if smram.graphics_on() || self.wrong(Fault::VgaWithoutGraphics) {
            (Rule::CompatibleVga, Route::Vga(address - 0xA_0000))
        } else {
            (Rule::CompatibleHub, Route::Hub)
        }
    }

    /// Rule 5: "from TOM - T, management: memory. Else hub; a non-management access at or above
    /// TOM - T sets the error bit."
    fn route_top(&self, address: u32, management: bool) -> (Rule, Route) {
        match (self.in_tseg(address), management) {
            (true, true) => (Rule::TsegMemory, Route::Memory(address)),
            (true, false) => (Rule::TsegError, Route::HubWithError),
            (false, true) if self.wrong(Fault::ManagementReachesTakenMemory) => (Rule::Taken, Route::Memory(address)),
            (false, false) if self.wrong(Fault::ErrorForTakenMemory) => (Rule::Taken, Route::HubWithError),
            (false, _) => (Rule::Taken, Route::Hub),
        }
    }

    /// Whether the registers or the window are found below TOM, which only wrong references do.
    #[inline]
    fn over_memory(&self, address: u32) -> bool {
        let registers = || address.wrapping_sub(self.registers_base()) < 512 * KIB;
        let window = || address.wrapping_sub(self.window_base()) < self.window_bytes();
        let high = || (512 * MIB..self.tom).contains(&address);
        let top = || (self.usable_top()..self.tom).contains(&address);
        let over = self.wrong(Fault::RegistersOverMemory) && high() && registers()
            || self.wrong(Fault::WindowOverMemory) && high() && window()
            || self.wrong(Fault::GraphicsOverTop) && top() && (registers() || window());
        over && self.graphics_decodes()
    }

    /// Rules 7 to 9: "512 KiB at MMADR, 8. the window at GMADR", "9. hub". Both bases are multiples
    /// of the sizes, so a difference below the size is inside, also at the end of the 4 GiB.
    #[inline]
    pub(super) fn route_graphics(&self, address: u32) -> (Rule, Route) {
        let register = address.wrapping_sub(self.registers_base());
        let window = address.wrapping_sub(self.window_base());
        let ignored = self.window_base() == 0 && self.wrong(Fault::WindowAtZeroIgnored);
        let in_window = window < self.window_bytes() && !ignored;
        let hidden = in_window && self.wrong(Fault::WindowBeforeRegisters);
        if register < 512 * KIB && !hidden {
            (Rule::Registers, Route::Registers(register))
        } else if in_window {
            (Rule::Window, Route::Window(window))
        } else {
            (Rule::Elsewhere, Route::Hub)
        }
    }

    /// "Hub masters: memory by rules 1, 4 and by 2 with LSMM 01; else hub, no error bit." Request 8 of document 02 has
    /// rules 3 and 4 for "processor and hub master accesses" alike.
    #[inline]
    fn route_master(&self, access: Access) -> (Rule, Route) {
        let address = access.address;
        let opened = match self.smram().lsmm() {
            Lsmm::General => true,
            Lsmm::ManagementAll => self.wrong(Fault::MastersReachManagementMemory),
            _ => false,
        };
        match address {
            0..=0x9_FFFF => (Rule::MasterLow, Route::Memory(address)),
            0xA_0000..=0xB_FFFF if opened => (Rule::MasterCompatible, Route::Memory(address)),
            0xC_0000..=0xF_FFFF => match self.route_shadow(access, Mode::Master) {
                Some(memory) => (Rule::MasterShadow, memory),
                None => (Rule::MasterHub, Route::Hub),
            },
            0x2000_0000.. if self.wrong(Fault::MastersBelow512Mib) => (Rule::MasterHub, Route::Hub),
            0x10_0000.. if address < self.usable_top() => match self.in_hole(access, Mode::Master) {
                true if self.wrong(Fault::MasterHoleSetsError) => (Rule::MasterHole, Route::HubWithError),
                true => (Rule::MasterHole, Route::Hub),
                false => (Rule::MasterMain, self.main_memory(address)),
            },
            _ if self.wrong(Fault::ErrorForMasters) && self.in_tseg(address) => (Rule::MasterHub, Route::HubWithError),
            _ => (Rule::MasterHub, Route::Hub),
        }
    }

    #[inline]
    fn in_tseg(&self, address: u32) -> bool {
        let top = self.top_unless(Fault::TsegBelow512Mib);
        (top - self.smram().tseg_bytes()..top).contains(&address)
    }

    /// "HSEG acts only if LSMM is 00."
    #[inline]
    fn hseg_acts(&self) -> bool {
        let smram = self.smram();
        smram.hseg_acts() || self.wrong(Fault::HsegActsBesideLsmm) && smram.has_hseg()
    }

    /// "Protected: A0000h-BFFFFh if LSMM is 10 or 11, or HSEG acts; and the TSEG. Locked or not."
    ///
    /// ```
    /// # use mitrophel::reference::{Gmch, TABLE_WORDS};
    /// # use mitrophel::{Board, Record};
    /// # let (mut memory, mut table) = (vec![0; 8 << 20], [0; TABLE_WORDS]);
    /// # let mut gmch = Gmch::new(Board::I82810, &mut memory, &mut table, &mut []).expect("8 MiB is a memory");
    /// gmch.answer(&Record::io_write(0xCF8, 4, 0x8000_0070));
    /// gmch.answer(&Record::io_write(0xCFC, 1, 0xBE)); // 512 KiB taken, TSEG of 1 MiB
    /// assert!(gmch.protected(0xA_0000) && gmch.protected(0x7F_FFFF));
    /// assert!(!gmch.protected(0x6F_FFFF));
    /// ```
    #[inline]
    pub fn protected(&self, address: u32) -> bool {
        let smram: Smram = self.smram();
        if self.wrong(Fault::ProtectedOnlyWhenLocked) && !smram.locked() {
            return false;
        }
        if self.wrong(Fault::TakenMemoryProtected) && (self.usable_top()..self.tom).contains(&address)
            || self.protected_by_shadow(address)
        {
            return true;
        }
        let closed = matches!(smram.lsmm(), Lsmm::ManagementCodeReads | Lsmm::ManagementAll) || self.hseg_acts();
        (0xA_0000..=0xB_FFFF).contains(&address) && closed || self.in_tseg(address)
    }

    /// Where [`Gmch::protected`] bytes lie, from the lowest address up: A0000h-BFFFFh and the TSEG, as far as
    /// they are protected.
    ///
    /// ```
    /// # use mitrophel::reference::{Gmch, TABLE_WORDS};
    /// # use mitrophel::{Board, Record};
    /// # let (mut memory, mut table) = (vec![0; 8 << 20], [0; TABLE_WORDS]);
    /// # let mut gmch = Gmch::new(Board::I82810, &mut memory, &mut table, &mut []).expect("8 MiB is a memory");
    /// assert_eq!(gmch.protected_ranges().count(), 0);
    /// gmch.answer(&Record::io_write(0xCF8, 4, 0x8000_0070));
    /// gmch.answer(&Record::io_write(0xCFC, 1, 0xBE)); // 512 KiB taken, TSEG of 1 MiB
    /// assert!(gmch.protected_ranges().eq([0xA_0000..0xC_0000, 0x70_0000..0x80_0000]));
    /// ```
    pub fn protected_ranges(&self) -> impl Iterator<Item = Range<u32>> {
        let tseg = self.tom - self.smram().tseg_bytes()..self.tom;
        let ranges = [0xA_0000..0xC_0000, tseg].map(|range| self.protected(range.start).then_some(range));
        ranges.into_iter().flatten()
    }

    /// An access that reaches main memory.
    #[inline]
    pub(super) fn memory_access(&mut self, address: u32, access: Access) -> Answer {
        let (width, write) = (access.width, access.data.is_some());
        self.observer.touched(Touch { address, width, write, protected: self.protected(address) });
        let at = address as usize;
        let value = access.carry_out(&mut self.memory[at..at + width as usize]);
        reached(Target::Memory, address, value)
    }

    /// The word of main memory at this address, which is below TOM and a multiple of 4.
    #[inline]
    pub(super) fn word_at(&self, address: u32) -> u32 {
        u32::from_le_bytes(*self.memory[address as usize..].first_chunk().expect("four bytes below TOM"))
    }
}

#[cfg(test)]
mod tests {
    use super::super::TABLE_WORDS;
    use super::*;
    use crate::{Board, Record};

    /// The ranges are the protected bytes, page by page.
    #[test]
    fn the_ranges_hold_what_is_protected() {
        let (mut memory, mut table) = (vec![0; 16 << 20], Box::new([0; TABLE_WORDS]));
        let mut hub = Gmch::new(Board::I82810, &mut memory, &mut table, &mut []).expect("16 MiB is a memory");
        for smram in 0..=0xFF {
            hub.answer(&Record::reset());
            hub.answer(&Record::io_write(0xCF8, 4, 0x8000_0070));
            hub.answer(&Record::io_write(0xCFC, 1, smram));
            for page in (0..hub.tom() + 4096).step_by(4096) {
                let within = hub.protected_ranges().any(|range| range.contains(&page));
                assert_eq!(within, hub.protected(page), "SMRAM {smram:02X}h, {page:X}h");
            }
            assert!(hub.protected_ranges().all(|range| !range.is_empty()), "SMRAM {smram:02X}h");
        }
    }
}
