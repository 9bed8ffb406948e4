//! Configuration space: CF8h, the registers of the two devices, SMRAM (document 01, "Configuration
//! space").

use super::{reached, Access, Gmch, Observer, Rule, KIB, MIB};
use crate::board::Board;
use crate::faults::{Fault, Faults};
use crate::record::{Answer, Target};

/// One register of "a fixed table of default and writable bits".
struct Row {
    at: usize,
    bytes: usize,
    default: u32,
    /// Bits that take the data written.
    plain: u32,
    /// Bits that clear on 1.
    clears: u32,
}

const fn row(at: usize, bytes: usize, default: u32, plain: u32, clears: u32) -> Row {
    Row { at, bytes, default, plain, clears }
}

/// Device 0. The device id at 02 is the 82810's; see [`device_ids`].
const DEVICE_0: [Row; 12] = [
    row(0x00, 2, 0x8086, 0, 0),
    row(0x02, 2, 0x7120, 0, 0),
    row(0x04, 2, 0x0006, 0x0100, 0),
    row(0x06, 2, 0x0080, 0, 0x7000),
    row(0x08, 1, 0x02, 0, 0),
    row(0x0B, 1, 0x06, 0, 0),
    row(PAMR, 1, 0x00, 0xFF, 0),
    row(FDHC, 1, 0x00, HOLE as u32, 0),
    row(SMRAM, 1, 0x00, 0xFE, 0x01),
    row(MISCC, 2, 0x0000, 0x0001, 0),
    row(0x80, 1, 0x00, 0xFF, 0),
    row(0x92, 2, 0xFFFF, 0xFFFF, 0),
];

/// Device 1.
const DEVICE_1: [Row; 14] = [
    row(0x00, 2, 0x8086, 0, 0),
    row(0x02, 2, 0x7121, 0, 0),
    row(COMMAND, 2, 0x0004, 0x0003, 0),
    row(0x0B, 1, 0x03, 0, 0),
    row(GMADR, 4, 0x0000_0008, 0xFE00_0000, 0),
    row(MMADR, 4, 0x0000_0000, 0xFFF8_0000, 0),
    row(0x2C, 2, 0x0000, 0xFFFF, 0),
    row(0x2E, 2, 0x0000, 0xFFFF, 0),
    row(0x34, 1, 0xDC, 0, 0),
    row(0x3C, 1, 0x00, 0xFF, 0),
    row(0x3D, 1, 0x01, 0, 0),
    row(0xDC, 2, 0x0001, 0, 0),
    row(0xDE, 2, 0x0021, 0, 0),
    row(PM_CS, 2, 0x0000, 0x0103, 0),
];

/// "02 7120h/7122h" and "02 7121h/7123h", by device: the 82810's and the DC100's. Board kinds 2 and 3 are
/// "(82810)" and "(DC100)" too (request 10 of document 02).
const fn device_ids(board: Board) -> [u16; 2] {
    match board {
        Board::I82810 | Board::I82810Main => [0x7120, 0x7121],
        Board::Dc100 | Board::Dc100Main => [0x7122, 0x7123],
    }
}

/// Request 8 of document 02: the datasheet's programmable attributes, section 3.4.14.
const PAMR: usize = 0x51;
/// The datasheet's fixed hole, section 3.4.17. Its bits 6:0 are "Reserved" and read 0, as unnamed bits do.
const FDHC: usize = 0x58;
/// "Hole Enable (HEN)", bit 7 of FDHC.
const HOLE: u8 = 0x80;
const SMRAM: usize = 0x70;
const MISCC: usize = 0x72;
const COMMAND: usize = 0x04;
const GMADR: usize = 0x10;
const MMADR: usize = 0x14;
/// Power management control and status.
const PM_CS: usize = 0xE0;
const PM_CS_HIGH: usize = 0xE1;
/// The power state in PM_CS's low byte: 00 is D0, 11 is D3.
const POWER_STATE: u8 = 0b11;

/// A device's rows, byte by byte; "unlisted: read 0, writes ignored".
struct Layout {
    default: [u8; 256],
    plain: [u8; 256],
    clears: [u8; 256],
}

const fn layout(rows: &[Row]) -> Layout {
    let mut layout = Layout { default: [0; 256], plain: [0; 256], clears: [0; 256] };
    let mut r = 0;
    while r < rows.len() {
        let row = &rows[r];
        let mut i = 0;
        while i < row.bytes {
            layout.default[row.at + i] = (row.default >> (8 * i)) as u8;
            layout.plain[row.at + i] = (row.plain >> (8 * i)) as u8;
            layout.clears[row.at + i] = (row.clears >> (8 * i)) as u8;
            i += 1;
        }
        r += 1;
    }
    layout
}

static LAYOUTS: [Layout; 2] = [layout(&DEVICE_0), layout(&DEVICE_1)];

/// Whether data written at PM_CS has power state 01 or 10.
const fn unsupported(data: u32) -> bool {
    matches!(data as u8 & POWER_STATE, 0b01 | 0b10)
}

/// A device's 256 bytes at cold start.
pub(super) fn default_bytes(board: Board, device: usize) -> [u8; 256] {
    let mut bytes = LAYOUTS[device].default;
    bytes[2..4].copy_from_slice(&device_ids(board)[device].to_le_bytes());
    bytes
}

/// Device 0 register 70.
///
/// ```
/// use mitrophel::reference::{Lsmm, Smram};
///
/// // Graphics on with 512 KiB taken, TSEG of 1 MiB, A0000h-BFFFFh for management mode, locked.
/// let smram = Smram(0xBE);
/// assert!(smram.graphics_on() && smram.locked());
/// assert_eq!((smram.taken_bytes(), smram.tseg_bytes()), (512 << 10, 1 << 20));
/// assert_eq!(smram.lsmm(), Lsmm::ManagementAll);
/// assert!(!smram.hseg_acts());
/// assert!(Smram(0x10).hseg_acts());
/// ```
#[derive(Clone, Copy, Debug, PartialEq, Eq)]
pub struct Smram(pub u8);

/// "3:2 LSMM (off; general memory; management code reads only; management all)"
///
/// ```
/// use mitrophel::reference::{Lsmm, Smram};
///
/// let open = [0x00, 0x04, 0x08, 0x0C].map(|bits| Smram(bits).lsmm());
/// assert_eq!(open, [Lsmm::Off, Lsmm::General, Lsmm::ManagementCodeReads, Lsmm::ManagementAll]);
/// ```
#[derive(Clone, Copy, Debug, PartialEq, Eq)]
pub enum Lsmm {
    /// 00
    Off,
    /// 01
    General,
    /// 10
    ManagementCodeReads,
    /// 11
    ManagementAll,
}

impl Smram {
    const LOCK: u8 = 0x02;
    const ERROR: u8 = 0x01;

    /// GMS is not 00.
    #[inline]
    pub const fn graphics_on(self) -> bool {
        self.0 >> 6 != 0
    }

    /// G: "graphics off; on, 0 taken; 512 KiB; 1 MiB". Taken memory is also called stolen memory.
    #[inline]
    pub const fn taken_bytes(self) -> u32 {
        match self.0 >> 6 {
            0 | 1 => 0,
            2 => 512 * KIB,
            _ => MIB,
        }
    }

    /// T: "none; HSEG; 512 KiB TSEG and HSEG; 1 MiB TSEG and HSEG".
    #[inline]
    pub const fn tseg_bytes(self) -> u32 {
        match self.0 >> 4 & 3 {
            0 | 1 => 0,
            2 => 512 * KIB,
            _ => MIB,
        }
    }

    /// USMM is not 00.
    #[inline]
    pub(super) const fn has_hseg(self) -> bool {
        self.0 >> 4 & 3 != 0
    }

    /// "HSEG acts only if LSMM is 00."
    #[inline]
    pub const fn hseg_acts(self) -> bool {
        self.has_hseg() && matches!(self.lsmm(), Lsmm::Off)
    }

    /// LSMM, bits 3:2.
    #[inline]
    pub const fn lsmm(self) -> Lsmm {
        match self.0 >> 2 & 3 {
            0 => Lsmm::Off,
            1 => Lsmm::General,
            2 => Lsmm::ManagementCodeReads,
            _ => Lsmm::ManagementAll,
        }
    }

    /// Bit 1.
    #[inline]
    pub const fn locked(self) -> bool {
        self.0 & Smram::LOCK != 0
    }
}

impl<O: Observer, F: Faults> Gmch<'_, O, F> {
    /// An I/O access. "CF8h takes 4-byte accesses only ... If bit 31 is set, CFCh-CFFh reach bus
    /// 23:16, device 15:11, function 10:8 ... All else, narrower CF8h accesses and every other port,
    /// goes to the hub."
    pub(super) fn port(&mut self, access: Access) -> Answer {
        match access.address {
            0xCF8 if access.width == 4 => self.config_address_port(access),
            0xCF8..=0xCFB if self.wrong(Fault::NarrowConfigAddressAccepted) => self.config_address_port(access),
            0xCFC..=0xCFF => match self.selected_device() {
                Some(device) => self.config_data_port(device, access),
                None => self.other_port(access),
            },
            _ => self.other_port(access),
        }
    }

    fn other_port(&mut self, access: Access) -> Answer {
        self.observer.routed(Rule::OtherPort);
        reached(Target::Hub, access.address, 0)
    }

    /// "stores data AND 80FFFFFCh (default 0)"
    fn config_address_port(&mut self, access: Access) -> Answer {
        self.observer.routed(Rule::ConfigAddress);
        match access.data {
            None => reached(Target::Register, access.address, self.config_address),
            Some(data) => {
                self.config_address = data & 0x80FF_FFFC;
                reached(Target::Register, access.address, 0)
            }
        }
    }

    /// "Bus 0 function 0 device 0 is ours; device 1 too while GMS is not 00."
    fn selected_device(&self) -> Option<usize> {
        // Bit 31, the bus and the function.
        if self.config_address & 0x80FF_0700 != 0x8000_0000 {
            return None;
        }
        match self.config_address >> 11 & 0x1F {
            0 => Some(0),
            1 if self.smram().graphics_on() || self.wrong(Fault::DeviceOneAlwaysVisible) => Some(1),
            _ => None,
        }
    }

    /// "register 7:2 plus the port's low two bits"; the target's address is "device x 256 + register".
    fn config_data_port(&mut self, device: usize, access: Access) -> Answer {
        self.observer.routed(if device == 0 { Rule::DeviceZero } else { Rule::DeviceOne });
        let register = (self.config_address & 0xFC | access.address & 3) as usize;
        let value = match access.data {
            None => self.config_read(device, register, access.width as usize),
            Some(data) => {
                self.config_write(device, register, access.width as usize, data);
                let discarded = (device, register) == (1, PM_CS) && unsupported(data);
                if discarded && self.wrong(Fault::DiscardedWriteToHub) {
                    return reached(Target::Hub, access.address, 0);
                }
                0
            }
        };
        reached(Target::Register, (device * 256 + register) as u32, value)
    }

    fn config_read(&self, device: usize, register: usize, width: usize) -> u32 {
        let touched = register..register + width;
        let mut value = [0; 4];
        value[..width].copy_from_slice(&self.devices[device][touched.clone()]);
        // "At 64, GMADR bit 25 is kept but reads and counts as 0": bit 1 of byte 13.
        let masked = self.window_is_64() && !self.wrong(Fault::Bit25Reads);
        if device == 1 && touched.contains(&(GMADR + 3)) && masked {
            value[GMADR + 3 - register] &= !0x02;
        }
        u32::from_le_bytes(value)
    }

    /// "A write touches only its bytes."
    fn config_write(&mut self, device: usize, register: usize, width: usize, data: u32) {
        let touched = register..register + width;
        let (written, locked) = (self.subsystem_written, self.smram().locked());
        for (at, mut byte) in touched.zip(data.to_le_bytes()) {
            let mut plain = LAYOUTS[device].plain[at];
            let mut clears = LAYOUTS[device].clears[at];
            match (device, at) {
                (0, 0x50) if self.wrong(Fault::Register50Stored) => plain = 0xFF,
                (0, PAMR) => plain = self.pamr_mask(width, plain),
                (0, FDHC) => (byte, plain) = self.fdhc_mask(byte, width, plain),
                (0, SMRAM) => (plain, clears) = self.smram_masks(byte, plain, clears),
                (1, 0x2C..=0x2F) => {
                    plain = self.subsystem_mask(at - 0x2C, written);
                    self.subsystem_written |= 1 << (at - 0x2C);
                }
                (1, PM_CS) => (byte, plain) = self.power_state(byte, width, plain),
                (1, PM_CS_HIGH) => plain = self.pme_mask(register, data, plain),
                _ => {}
            }
            let old = self.devices[device][at];
            self.devices[device][at] = (old & !plain | byte & plain) & !(byte & clears);
        }
        if self.wrong(Fault::LockDropsEntries) && !locked && self.smram().locked() {
            self.drop_forbidden();
        }
    }

    /// PAMR's plain bits for a write of this width: all, locked or not. Only wrong references look at more.
    fn pamr_mask(&self, width: usize, plain: u8) -> u8 {
        if self.wrong(Fault::PamrLocked) && self.smram().locked()
            || self.wrong(Fault::ShadowRegistersTakeOneByte) && width != 1
        {
            0
        } else if self.wrong(Fault::PamrKeeps33) {
            0x33
        } else if self.wrong(Fault::PamrKeeps3F) {
            0x3F
        } else {
            plain
        }
    }

    /// FDHC's byte as written, and its plain bits: bit 7 alone, locked or not. Only wrong references look at more.
    fn fdhc_mask(&self, byte: u8, width: usize, plain: u8) -> (u8, u8) {
        if self.wrong(Fault::HoleLocked) && self.smram().locked()
            || self.wrong(Fault::ShadowRegistersTakeOneByte) && width != 1
        {
            (byte, 0)
        } else if self.wrong(Fault::HoleKeepsAllBits) {
            (byte, 0xFF)
        } else if self.wrong(Fault::HoleByBit0) {
            (byte, 0x01)
        } else if self.wrong(Fault::HoleByAnyBit) {
            (if byte == 0 { 0 } else { 0xFF }, plain)
        } else {
            (byte, plain)
        }
    }

    /// "The write that sets the lock takes its other bits too; afterwards only bit 0 obeys writes,
    /// until reset": the plain and the clearing bits of SMRAM for this write.
    fn smram_masks(&self, byte: u8, plain: u8, clears: u8) -> (u8, u8) {
        if self.smram().locked() && !self.wrong(Fault::LockDoesNotHold) {
            (0, clears)
        } else if byte & Smram::LOCK != 0 && self.wrong(Fault::LockingWriteTakesNothingElse) {
            (Smram::LOCK, clears)
        } else if self.wrong(Fault::ErrorBitPlain) {
            (plain | Smram::ERROR, 0)
        } else {
            (plain, clears)
        }
    }

    /// "2C and 2E ... write once: the first write touching either byte is taken for the bytes it
    /// touches, and the 16 bits are then fixed until reset". `written` is as the write found it.
    fn subsystem_mask(&self, byte: usize, written: u8) -> u8 {
        let own = if self.wrong(Fault::WriteOncePerByte) { 1 << byte } else { 0b11 << (byte & 2) };
        match written & own {
            0 => 0xFF,
            _ => 0,
        }
    }

    /// Request 3 of document 02, "Power states that do not exist": "Only 00 and 11 are supported. So a write touching
    /// that byte with 01 or 10 leaves the two bits". PM_CS's low byte as written, and its plain bits for this write.
    fn power_state(&self, byte: u8, width: usize, plain: u8) -> (u8, u8) {
        let taken = match byte & POWER_STATE {
            0b00 => !self.wrong(Fault::State00Discarded),
            0b01 => self.wrong(Fault::State01Stored),
            0b10 => self.wrong(Fault::State10Stored),
            _ => !self.wrong(Fault::State11Discarded),
        };
        let taken_by_width = match width {
            1 => self.wrong(Fault::AnyStateStoredByOneByte),
            2 => self.wrong(Fault::AnyStateStoredByTwoBytes),
            _ => self.wrong(Fault::AnyStateStoredByFourBytes),
        };
        let reserved = byte & !POWER_STATE != 0 && self.wrong(Fault::WholeByteIsState);
        if (taken || taken_by_width || self.wrong(Fault::AnyStateStored)) && !reserved {
            (byte, plain)
        } else if self.wrong(Fault::DiscardedStateIs00) {
            (0b00, plain)
        } else if self.wrong(Fault::DiscardedStateIs11) {
            (0b11, plain)
        } else {
            (byte, plain & !POWER_STATE)
        }
    }

    /// "the other bits of the same write still act": the plain bits of PM_CS's high byte for a write that begins at this
    /// register. Only wrong references look at its power state.
    fn pme_mask(&self, register: usize, data: u32, plain: u8) -> u8 {
        let looks = match register {
            PM_CS => self.wrong(Fault::WholeWriteDiscarded),
            _ => self.wrong(Fault::StateLookedForAtE1),
        };
        match looks && unsupported(data) {
            true => 0,
            false => plain,
        }
    }

    /// Sets SMRAM's error bit, which the lock does not hold: it stops writes only.
    pub(super) fn set_error(&mut self, access: Access) {
        let frozen = self.smram().locked() && self.wrong(Fault::ErrorBitFrozenByLock);
        let passed_over = access.data.is_some() && self.wrong(Fault::ErrorForReadsOnly);
        if !frozen && !passed_over {
            self.devices[0][SMRAM] |= Smram::ERROR;
        }
    }

    /// What only wrong references have in device 0 at cold start and after a reset.
    pub(super) fn put_wrong_defaults(&mut self) {
        if self.wrong(Fault::PamrDefaultsToFF) {
            self.devices[0][PAMR] = 0xFF;
        }
        if self.wrong(Fault::PamrDefaultsTo33) {
            self.devices[0][PAMR] = 0x33;
        }
        if self.wrong(Fault::HoleByDefault) {
            self.devices[0][FDHC] = HOLE;
        }
        if self.wrong(Fault::Register50Reads60) {
            self.devices[0][0x50] = 0x60;
        }
    }

    /// Puts PAMR and FDHC back after a reset ([`Fault::ResetKeepsPamr`], [`Fault::ResetKeepsHole`]).
    pub(super) fn put_back_shadow(&mut self, pamr: u8, hole: bool) {
        if self.wrong(Fault::ResetKeepsPamr) {
            self.devices[0][PAMR] = pamr;
        }
        if self.wrong(Fault::ResetKeepsHole) && hole {
            self.devices[0][FDHC] = HOLE;
        }
    }

    /// Puts a locked SMRAM back after a reset ([`Fault::ResetKeepsLock`]).
    pub(super) fn put_back(&mut self, smram: Smram) {
        self.devices[0][SMRAM] = smram.0;
    }

    /// Puts PM_CS back after a reset ([`Fault::ResetKeepsPowerState`]).
    pub(super) fn put_back_power(&mut self, pm_cs: [u8; 2]) {
        self.devices[1][PM_CS..=PM_CS_HIGH].copy_from_slice(&pm_cs);
    }

    /// Power management control and status, low byte first.
    pub(super) fn pm_cs(&self) -> [u8; 2] {
        [self.devices[1][PM_CS], self.devices[1][PM_CS_HIGH]]
    }

    /// A byte of a device's configuration space, as a read gives it; none where there is none.
    ///
    /// ```
    /// # use mitrophel::reference::{Gmch, TABLE_WORDS};
    /// # use mitrophel::{Board, Record};
    /// # let (mut memory, mut table) = (vec![0; 8 << 20], [0; TABLE_WORDS]);
    /// # let mut gmch = Gmch::new(Board::I82810, &mut memory, &mut table, &mut []).expect("8 MiB is a memory");
    /// assert_eq!(gmch.config_byte(0, 0x00), Some(0x86)); // the low byte of Intel's number
    /// assert_eq!(gmch.config_byte(2, 0x00), None);
    /// ```
    pub fn config_byte(&self, device: usize, register: usize) -> Option<u8> {
        let exists = device < self.devices.len() && register < self.devices[0].len();
        exists.then(|| self.config_read(device, register, 1) as u8)
    }

    /// SMRAM, device 0 register 70.
    ///
    /// ```
    /// # use mitrophel::reference::{Gmch, TABLE_WORDS};
    /// # use mitrophel::{Board, Record};
    /// # let (mut memory, mut table) = (vec![0; 8 << 20], [0; TABLE_WORDS]);
    /// # let mut gmch = Gmch::new(Board::I82810, &mut memory, &mut table, &mut []).expect("8 MiB is a memory");
    /// gmch.answer(&Record::io_write(0xCF8, 4, 0x8000_0070));
    /// gmch.answer(&Record::io_write(0xCFC, 1, 0x4E));
    /// assert_eq!(gmch.smram().0, 0x4E);
    /// ```
    #[inline]
    pub fn smram(&self) -> Smram {
        Smram(self.devices[0][SMRAM])
    }

    /// PAMR, device 0 register 51: the pairs of bits that steer C0000h-FFFFFh.
    ///
    /// ```
    /// # use mitrophel::reference::{Gmch, TABLE_WORDS};
    /// # use mitrophel::{Board, Record};
    /// # let (mut memory, mut table) = (vec![0; 8 << 20], [0; TABLE_WORDS]);
    /// # let mut gmch = Gmch::new(Board::I82810, &mut memory, &mut table, &mut []).expect("8 MiB is a memory");
    /// gmch.answer(&Record::io_write(0xCF8, 4, 0x8000_0050));
    /// gmch.answer(&Record::io_write(0xCFD, 1, 0x93));
    /// assert_eq!(gmch.pamr(), 0x93);
    /// ```
    #[inline]
    pub fn pamr(&self) -> u8 {
        self.devices[0][PAMR]
    }

    /// Whether the hole at F00000h-FFFFFFh is on: FDHC, device 0 register 58, bit 7.
    ///
    /// ```
    /// # use mitrophel::reference::{Gmch, TABLE_WORDS};
    /// # use mitrophel::{Board, Record};
    /// # let (mut memory, mut table) = (vec![0; 8 << 20], [0; TABLE_WORDS]);
    /// # let mut gmch = Gmch::new(Board::I82810, &mut memory, &mut table, &mut []).expect("8 MiB is a memory");
    /// assert!(!gmch.hole());
    /// gmch.answer(&Record::io_write(0xCF8, 4, 0x8000_0058));
    /// gmch.answer(&Record::io_write(0xCFC, 1, 0x80));
    /// assert!(gmch.hole());
    /// ```
    #[inline]
    pub fn hole(&self) -> bool {
        let bit = if self.wrong(Fault::HoleByBit0) { 0x01 } else { HOLE };
        self.devices[0][FDHC] & bit != 0
    }

    /// "Register 72 bit 0: window 32 MiB if 1, else 64."
    #[inline]
    fn window_is_64(&self) -> bool {
        self.devices[0][MISCC] & 1 == 0
    }

    /// The window's size.
    ///
    /// ```
    /// # use mitrophel::reference::{Gmch, TABLE_WORDS};
    /// # use mitrophel::{Board, Record};
    /// # let (mut memory, mut table) = (vec![0; 8 << 20], [0; TABLE_WORDS]);
    /// # let mut gmch = Gmch::new(Board::I82810, &mut memory, &mut table, &mut []).expect("8 MiB is a memory");
    /// assert_eq!(gmch.window_bytes(), 64 << 20);
    /// gmch.answer(&Record::io_write(0xCF8, 4, 0x8000_0070));
    /// gmch.answer(&Record::io_write(0xCFE, 2, 1));
    /// assert_eq!(gmch.window_bytes(), 32 << 20);
    /// ```
    #[inline]
    pub fn window_bytes(&self) -> u32 {
        match self.window_is_64() {
            true => 64 * MIB,
            false => 32 * MIB,
        }
    }

    /// The window's base: GMADR bits 31:25, of which bit 25 "counts as 0" at 64 MiB.
    ///
    /// ```
    /// # use mitrophel::reference::{Gmch, TABLE_WORDS};
    /// # use mitrophel::{Board, Record};
    /// # let (mut memory, mut table) = (vec![0; 8 << 20], [0; TABLE_WORDS]);
    /// # let mut gmch = Gmch::new(Board::I82810, &mut memory, &mut table, &mut []).expect("8 MiB is a memory");
    /// for (register, data) in [(0x70, 0x40), (0x810, 0xC200_0000)] {
    ///     gmch.answer(&Record::io_write(0xCF8, 4, 0x8000_0000 | register));
    ///     gmch.answer(&Record::io_write(0xCFC, 4, data));
    /// }
    /// assert_eq!(gmch.window_base(), 0xC000_0000);
    /// ```
    #[inline]
    pub fn window_base(&self) -> u32 {
        let bits = if self.wrong(Fault::Bit25Counts) { 0xFE00_0000 } else { !(self.window_bytes() - 1) };
        self.device_word(1, GMADR) & bits
    }

    /// The base of the memory-mapped registers: MMADR bits 31:19.
    ///
    /// ```
    /// # use mitrophel::reference::{Gmch, TABLE_WORDS};
    /// # use mitrophel::{Board, Record};
    /// # let (mut memory, mut table) = (vec![0; 8 << 20], [0; TABLE_WORDS]);
    /// # let mut gmch = Gmch::new(Board::I82810, &mut memory, &mut table, &mut []).expect("8 MiB is a memory");
    /// for (register, data) in [(0x70, 0x40), (0x814, 0xF000_0000)] {
    ///     gmch.answer(&Record::io_write(0xCF8, 4, 0x8000_0000 | register));
    ///     gmch.answer(&Record::io_write(0xCFC, 4, data));
    /// }
    /// assert_eq!(gmch.registers_base(), 0xF000_0000);
    /// ```
    #[inline]
    pub fn registers_base(&self) -> u32 {
        self.device_word(1, MMADR) & 0xFFF8_0000
    }

    /// Rules 7 and 8 act "only if GMS is not 00 and device 1 register 04 bit 1 is set".
    ///
    /// ```
    /// # use mitrophel::reference::{Gmch, TABLE_WORDS};
    /// # use mitrophel::{Board, Record};
    /// # let (mut memory, mut table) = (vec![0; 8 << 20], [0; TABLE_WORDS]);
    /// # let mut gmch = Gmch::new(Board::I82810, &mut memory, &mut table, &mut []).expect("8 MiB is a memory");
    /// assert!(!gmch.graphics_decodes());
    /// for (register, data) in [(0x70, 0x40), (0x804, 2)] {
    ///     gmch.answer(&Record::io_write(0xCF8, 4, 0x8000_0000 | register));
    ///     gmch.answer(&Record::io_write(0xCFC, 4, data));
    /// }
    /// assert!(gmch.graphics_decodes());
    /// ```
    #[inline]
    pub fn graphics_decodes(&self) -> bool {
        let asleep = self.wrong(Fault::D3StopsDecoding) && self.devices[1][PM_CS] & POWER_STATE == 0b11;
        self.smram().graphics_on() && self.devices[1][COMMAND] & 2 != 0 && !asleep
    }

    #[inline]
    fn device_word(&self, device: usize, register: usize) -> u32 {
        u32::from_le_bytes(*self.devices[device][register..].first_chunk().expect("four of 256 bytes"))
    }
}

#[cfg(test)]
mod tests {
    use super::super::TABLE_WORDS;
    use super::*;
    use crate::Record;
    use std::collections::HashSet;
    use std::{fs, path::Path};

    /// What PM_CS reads once it held this word and so many bytes of data were written at one of its bytes. No run from
    /// cold start holds a state that is not supported, so the word is put there.
    fn written(hub: &mut Gmch<'_>, held: u32, register: u32, width: u8, data: u32) -> u32 {
        hub.devices[0][SMRAM] = 0x40;
        hub.devices[1][PM_CS..][..4].copy_from_slice(&held.to_le_bytes());
        hub.answer(&Record::io_write(0xCF8, 4, 0x8000_08E0));
        let answer = hub.answer(&Record::io_write(0xCFC + register % 4, width, data));
        assert_eq!(answer, reached(Target::Register, 0x100 + register, 0));
        hub.answer(&Record::io_read(0xCFC, 4)).value
    }

    /// The state afterwards, by the state held and the state written.
    const AFTER: [[u32; 4]; 4] = [
        // 00    01    10    11
        [0b00, 0b00, 0b00, 0b11],
        [0b00, 0b01, 0b01, 0b11],
        [0b00, 0b10, 0b10, 0b11],
        [0b00, 0b11, 0b11, 0b11],
    ];

    /// Each state held and each state written, in 1, 2 and 4 bytes, with bit 8 both ways in each: an unsupported state
    /// leaves whatever is held.
    #[test]
    fn an_unsupported_power_state_leaves_the_two_bits() {
        let (mut memory, mut table) = (vec![0; 8 << 20], Box::new([0; TABLE_WORDS]));
        let mut hub = Gmch::new(Board::I82810, &mut memory, &mut table, &mut []).expect("8 MiB is a memory");
        for case in 0..4 * 4 * 2 * 2 {
            let (old, new, held_8, data_8) = (case & 3, case >> 2 & 3, case >> 4 & 1, case >> 5);
            // Read-only bits are written 0 and 1.
            for other in [0, 0xFFFF_FEFC] {
                let (held, data) = (held_8 << 8 | old, other | data_8 << 8 | new);
                let state = AFTER[old as usize][new as usize];
                let after = [1, 2, 4].map(|width| written(&mut hub, held, 0xE0, width, data));
                // One byte does not reach bit 8.
                let expected = [held_8 << 8 | state, data_8 << 8 | state, data_8 << 8 | state];
                assert_eq!(after, expected, "{held:04X}h, written {data:X}h");
            }
        }
    }

    /// "a write touching that byte": no other write is one, whatever its data.
    #[test]
    fn a_write_past_the_low_byte_leaves_the_power_state() {
        let (mut memory, mut table) = (vec![0; 8 << 20], Box::new([0; TABLE_WORDS]));
        let mut hub = Gmch::new(Board::I82810, &mut memory, &mut table, &mut []).expect("8 MiB is a memory");
        for held in [0x000, 0x001, 0x002, 0x003, 0x100, 0x101, 0x102, 0x103] {
            for data in 0..=0xFF {
                for other in [0, 0xFFFF_FF00] {
                    let taken = held & 3 | (data & 1) << 8;
                    let at_e1 = [1, 2].map(|width| written(&mut hub, held, 0xE1, width, other | data));
                    assert_eq!(at_e1, [taken; 2], "{held:04X}h, {data:02X}h at E1h");
                    let past = [(0xE2, 1), (0xE2, 2), (0xE3, 1)];
                    let past = past.map(|(register, width)| written(&mut hub, held, register, width, other | data));
                    assert_eq!(past, [held; 3], "{held:04X}h, {data:02X}h past E1h");
                }
            }
        }
    }

    /// What the proved function prints for each state held, each state written and each width.
    #[test]
    fn the_proved_function_leaves_what_the_reference_leaves() {
        let (mut memory, mut table) = (vec![0; 8 << 20], Box::new([0; TABLE_WORDS]));
        let mut hub = Gmch::new(Board::I82810, &mut memory, &mut table, &mut []).expect("8 MiB is a memory");
        let path = Path::new(env!("CARGO_MANIFEST_DIR")).join("../crates/vectors/stdout");
        let text = fs::read_to_string(path).expect("what the proved functions print");
        let number = |digits: &str| u32::from_str_radix(digits, 16).expect("hexadecimal digits");
        let mut met = HashSet::new();
        for line in text.lines().filter(|line| line.starts_with("PM_CS ")) {
            // PM_CS 00000001, written 00000102 in 00000002 bytes: 00000101
            let words: Vec<&str> = line.split([' ', ',', ':']).filter(|word| !word.is_empty()).collect();
            let ["PM_CS", held, "written", data, "in", width, "bytes", after] = words[..] else {
                panic!("{line}");
            };
            let [held, data, width, after] = [held, data, width, after].map(number);
            assert!(held <= 3 && [1, 2, 4].contains(&width), "{line}");
            assert_eq!(written(&mut hub, held, 0xE0, width as u8, data), after, "{line}");
            assert!(met.insert((held, data & 3, width)), "{line}: met before");
        }
        assert_eq!(met.len(), 4 * 4 * 3, "pairs of states, by width");
    }
}
