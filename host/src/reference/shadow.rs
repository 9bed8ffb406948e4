//! Shadow memory and the hole below 16 MiB (request 8 of document 02): PAMR steers rule 3 and FDHC rule 4, by the
//! datasheet's sections 3.4.14 and 3.4.17.

use super::routing::{Mode, Route};
use super::{reached, Access, Gmch, Observer, Place, Rule, KIB, MIB};
use crate::faults::{Fault, Faults};
use crate::record::{Answer, Target};
use std::ops::Range;

const PAGE: u32 = 4 * KIB;
/// What PAMR steers.
const SHADOW: Range<u32> = 0xC_0000..0x10_0000;

impl<O: Observer, F: Faults> Gmch<'_, O, F> {
    /// Whether PAMR sends a read or a write of this address in C0000h-FFFFFh to memory. Each pair of its bits is one
    /// segment's, from 1:0 for C0000h-CFFFFh up to 7:6 for F0000h-FFFFFh: "01 = Read Only, reads are directed to system
    /// memory DRAM and writes are forwarded to the ICH", "10 = Write Only", "11 = Read/Write".
    #[inline]
    fn shadowed(&self, address: u32, write: bool) -> bool {
        let Some(pair) = self.pair(address) else {
            return false;
        };
        let (reads, writes) = (pair & 0b01 != 0, pair & 0b10 != 0);
        if self.wrong(Fault::EitherPairBitOpens) {
            reads || writes
        } else if self.wrong(Fault::BothPairBitsNeeded) {
            reads && writes
        } else if write != self.wrong(Fault::PairBitsExchanged) {
            writes
        } else {
            reads
        }
    }

    /// The pair of PAMR's bits that an address in C0000h-FFFFFh obeys, with those above it. Only wrong references have
    /// addresses without one.
    #[inline]
    fn pair(&self, address: u32) -> Option<u8> {
        let offset = address - SHADOW.start;
        let shut = self.wrong(Fault::ShadowIgnored)
            || self.wrong(Fault::CdHoleActs) && (0xD_C000..0xE_0000).contains(&address)
            || self.wrong(Fault::D8HoleActs) && (0xD_8000..0xE_0000).contains(&address);
        let segment = if self.wrong(Fault::SegmentsReversed) {
            3 - offset / (64 * KIB)
        } else if self.wrong(Fault::SegmentsOneOff) {
            (offset / (64 * KIB) + 3) % 4
        } else if self.wrong(Fault::SegmentsOf32KiB) {
            offset / (32 * KIB)
        } else if self.wrong(Fault::SegmentsOf16KiB) {
            offset / (16 * KIB)
        } else if self.wrong(Fault::SegmentBeginsLate) {
            offset.wrapping_sub(PAGE) / (64 * KIB)
        } else if self.wrong(Fault::SegmentEndsEarly) {
            (offset + PAGE) / (64 * KIB)
        } else {
            offset / (64 * KIB)
        };
        (segment < 4 && !shut).then(|| self.pamr() >> (2 * segment))
    }

    /// Where rule 3 takes an access to memory; none where it goes to the hub. Code reads are reads, and neither management
    /// mode nor a hub master is an exception.
    #[inline]
    pub(super) fn route_shadow(&self, access: Access, mode: Mode) -> Option<Route> {
        let (address, write) = (access.address, access.data.is_some());
        let (opened, shut) = match mode {
            Mode::Processor { management, code } => (
                management && self.wrong(Fault::ManagementAlwaysShadowed),
                management && self.wrong(Fault::ManagementNotShadowed)
                    || code && self.wrong(Fault::CodeReadsNotShadowed),
            ),
            Mode::Master => (
                self.wrong(Fault::MastersAlwaysShadowed),
                self.wrong(Fault::MastersNotShadowed) || write && self.wrong(Fault::MasterWritesNotShadowed),
            ),
        };
        let memory = (self.shadowed(address, write) || opened) && !shut;
        let at_top = self.wrong(Fault::ShadowAtTop);
        memory.then(|| Route::Memory(if at_top { address - SHADOW.start + self.tom - 256 * KIB } else { address }))
    }

    /// Whether PAMR steers an access outside C0000h-FFFFFh, which only wrong references do; where it does, whether to
    /// memory.
    #[inline]
    pub(super) fn pamr_beside(&self, address: u32, write: bool) -> Option<bool> {
        let beside = self.wrong(Fault::PamrCoversCompatible) && (0xA_0000..0xC_0000).contains(&address)
            || self.wrong(Fault::PamrCovers64KiBMore) && (0x10_0000..0x11_0000).contains(&address);
        beside.then(|| self.shadowed(SHADOW.start, write))
    }

    /// Whether an access to an address below U is in the hole: "15MB-16MB; 1MB size". "Host cycles matching an enabled
    /// hole are passed on", reads and writes, and hub masters' accesses go where else they go, to the hub.
    #[inline]
    pub(super) fn in_hole(&self, access: Access, mode: Mode) -> bool {
        self.hole() && self.hole_bytes().contains(&access.address) && !self.passes_hole(access, mode)
    }

    #[inline]
    fn hole_bytes(&self) -> Range<u32> {
        let (first, end) = (15 * MIB, 16 * MIB);
        if self.wrong(Fault::HoleAt14MiB) {
            first - MIB..first
        } else if self.wrong(Fault::HoleAt16MiB) {
            end..end + MIB
        } else if self.wrong(Fault::HoleOf2MiB) {
            first - MIB..end
        } else if self.wrong(Fault::HoleOf512KiB) {
            first..first + 512 * KIB
        } else if self.wrong(Fault::HoleBeginsLate) {
            first + PAGE..end
        } else if self.wrong(Fault::HoleBeginsEarly) {
            first - PAGE..end
        } else if self.wrong(Fault::HoleEndsEarly) {
            first..end - PAGE
        } else if self.wrong(Fault::HoleEndsLate) {
            first..end + PAGE
        } else if self.wrong(Fault::HoleEndsMemory) {
            first..self.tom
        } else {
            first..end
        }
    }

    /// Whether the hole does not act on an access, which is so in wrong references alone.
    #[inline]
    fn passes_hole(&self, access: Access, mode: Mode) -> bool {
        let by_mode = match mode {
            Mode::Processor { management, code } => {
                self.wrong(Fault::HoleForMastersOnly)
                    || management && self.wrong(Fault::HoleNotForManagement)
                    || code && self.wrong(Fault::HoleNotForCode)
            }
            Mode::Master => self.wrong(Fault::HoleNotForMasters),
        };
        let by_kind = match access.data {
            None => self.wrong(Fault::HoleForWritesOnly),
            Some(_) => self.wrong(Fault::HoleForReadsOnly),
        };
        self.wrong(Fault::HoleIgnored) || by_mode || by_kind
    }

    /// Whether the hole acts on an address that is not below U, which only wrong references do: "The hole acts only on
    /// addresses below U (H), so with 16 MiB and a TSEG the part at or above U stays under rule 5."
    #[inline]
    pub(super) fn hole_past_top(&self, access: Access, mode: Mode) -> bool {
        let past = self.wrong(Fault::HoleOverTseg) && (self.usable_top()..self.tom).contains(&access.address)
            || self.wrong(Fault::HoleAboveMemory) && access.address >= self.tom;
        past && self.in_hole(access, mode)
    }

    /// Where rule 4 takes an address in the hole: the hub, at once and without the error bit.
    #[inline]
    pub(super) fn route_hole(&self, address: u32) -> (Rule, Route) {
        if self.wrong(Fault::HoleFallsThrough) && self.graphics_decodes() {
            self.route_graphics(address)
        } else if self.wrong(Fault::HoleSetsError) {
            (Rule::Hole, Route::HubWithError)
        } else {
            (Rule::Hole, Route::Hub)
        }
    }

    /// Where rule 4 takes an address below U that is not in the hole: "Note that the hole is not re-mapped".
    #[inline]
    pub(super) fn main_memory(&self, address: u32) -> Route {
        let lower = self.wrong(Fault::HoleRemapped) && self.hole() && address >= 16 * MIB;
        Route::Memory(if lower { address - MIB } else { address })
    }

    /// An access that goes to the hub: "hub 3 (the record's address, value 0)". Nothing of it reaches the memory behind.
    #[inline]
    pub(super) fn hub_access(&mut self, rule: Rule, access: Access) -> Answer {
        if rule == Rule::MasterHole && self.wrong(Fault::MasterHoleUnanswered) {
            return Answer::default();
        }
        let (by_hole, by_pamr) = match access.data {
            None => (Fault::HoleReadGivesMemory, Fault::HubReadGivesMemory),
            Some(_) => (Fault::HoleWriteReachesMemory, Fault::HubWriteReachesMemory),
        };
        let behind = self.wrong(by_hole) && matches!(rule, Rule::Hole | Rule::MasterHole)
            || self.wrong(by_pamr) && SHADOW.contains(&access.address);
        let value = if behind { self.memory_access(access.address, access).value } else { 0 };
        reached(Target::Hub, access.address, value)
    }

    /// What only wrong references answer to an access that reached memory in C0000h-FFFFFh.
    #[inline]
    pub(super) fn show_shadow(&self, rule: Rule, access: Access, answer: Answer) -> Answer {
        match rule {
            Rule::ShadowMemory | Rule::MasterShadow if self.wrong(Fault::ShadowAnsweredAsHub) => {
                reached(Target::Hub, access.address, 0)
            }
            Rule::ShadowMemory | Rule::MasterShadow if self.wrong(Fault::ShadowShowsOffset) => {
                Answer { address: access.address - SHADOW.start, ..answer }
            }
            _ => answer,
        }
    }

    /// Whether a wrong reference has these bytes protected: "Neither register's value then changes which bytes are
    /// protected".
    #[inline]
    pub(super) fn protected_by_shadow(&self, address: u32) -> bool {
        self.wrong(Fault::ReadOnlySegmentProtected)
            && SHADOW.contains(&address)
            && self.pair(address).is_some_and(|pair| pair & 0b11 == 0b01)
            || self.wrong(Fault::HoleProtected) && self.hides(address)
    }

    /// Whether the hole is before this byte.
    #[inline]
    fn hides(&self, address: u32) -> bool {
        self.hole() && self.hole_bytes().contains(&address) && address < self.usable_top()
    }

    /// Whether a wrong reference refuses an entry's page because the hole is before it.
    #[inline]
    pub(super) fn refuses_page_in_hole(&self, page: u32) -> bool {
        self.wrong(Fault::HolePageRefused) && self.hides(page)
    }

    /// Whether PAMR or the hole keep an access that translation led here from memory, in a reference that is wrong by one
    /// of these faults: "Entries that name those pages through the table are still reached."
    #[inline]
    fn keeps_from(&self, address: u32, write: bool, by_pamr: Fault, by_hole: Fault) -> bool {
        self.wrong(by_pamr) && SHADOW.contains(&address) && !self.shadowed(address, write)
            || self.wrong(by_hole) && self.hides(address)
    }

    /// Such an access through the window.
    #[inline]
    pub(super) fn window_kept_from(&self, address: u32, access: Access) -> bool {
        match access.data {
            None => self.keeps_from(address, false, Fault::WindowReadObeysPamr, Fault::WindowReadObeysHole),
            Some(_) => self.keeps_from(address, true, Fault::WindowWriteObeysPamr, Fault::WindowWriteObeysHole),
        }
    }

    /// Such a fetch.
    #[inline]
    pub(super) fn fetch_kept_from(&self, place: Place) -> bool {
        match place {
            Place::Memory(address) => self.keeps_from(address, false, Fault::FetchObeysPamr, Fault::FetchObeysHole),
            Place::DisplayCache(_) => false,
        }
    }

    /// Such a lookup by a table word.
    #[inline]
    pub(super) fn lookup_kept_from(&self, address: u32) -> bool {
        self.keeps_from(address, false, Fault::LookupObeysPamr, Fault::LookupObeysHole)
    }

    /// Such an access to a table word's register.
    #[inline]
    pub(super) fn register_kept_from(&self, address: u32, write: bool) -> bool {
        self.keeps_from(address, write, Fault::WordRegisterObeysPamr, Fault::WordRegisterObeysHole)
    }
}

#[cfg(test)]
mod tests {
    use super::super::TABLE_WORDS;
    use super::*;
    use crate::{Board, Record};

    /// The rule by which the last record was routed.
    struct Last(Option<Rule>);

    impl Observer for Last {
        fn routed(&mut self, rule: Rule) {
            self.0 = Some(rule);
        }
    }

    /// Segment C is open to reads, segment D to writes, and the hole is on.
    #[test]
    fn the_rule_told_says_where_an_access_went() {
        let (mut memory, mut table) = (vec![0; 16 << 20], Box::new([0; TABLE_WORDS]));
        let hub = Gmch::observed(Board::I82810, &mut memory, &mut table, &mut [], Last(None));
        let mut hub = hub.expect("16 MiB is a memory");
        for (register, data) in [(0x50, 0b1001 << 8), (0x58, 0x80)] {
            hub.answer(&Record::io_write(0xCF8, 4, 0x8000_0000 | register));
            hub.answer(&Record::io_write(0xCFC, 4, data));
        }
        for (address, read, write, by_master) in [
            (0xC_FFFC, Rule::ShadowMemory, Rule::ShadowHub, [Rule::MasterShadow, Rule::MasterHub]),
            (0xD_0000, Rule::ShadowHub, Rule::ShadowMemory, [Rule::MasterHub, Rule::MasterShadow]),
            (0xEF_FFFC, Rule::Main, Rule::Main, [Rule::MasterMain; 2]),
            (0xF0_0000, Rule::Hole, Rule::Hole, [Rule::MasterHole; 2]),
        ] {
            for (record, rule) in [
                (Record::read(address, 4, false), read),
                (Record::code_read(address, 4, true), read),
                (Record::write(address, 4, 7, false), write),
                (Record::master_read(address, 4), by_master[0]),
                (Record::master_write(address, 4, 7), by_master[1]),
            ] {
                hub.answer(&record);
                assert_eq!(hub.observer().0.take(), Some(rule), "{record}");
            }
        }
    }
}
