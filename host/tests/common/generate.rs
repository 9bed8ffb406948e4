//! Random lists of records that reach the corners of document 01 and of requests 3, 5, 6, 8, 9, 10 and 11 of document 02.
//!
//! A list is made while the reference replays it, so that each record can aim at the state that it
//! will meet: at the borders of the map as they stand, at entries and fences that are set, at the
//! words that the ring will fetch. The reference's answers are the list's expected answers.

use super::words::{Event, Meets};
use super::{register_width, Random, Watch};
use mitrophel::faults::Faultless;
use mitrophel::reference::{Fence, Gmch, Place, Table, TABLE_WORDS};
use mitrophel::{Answer, Board, Record, DISPLAY_BYTES};

const KIB: u32 = 1 << 10;
const MIB: u32 = 1 << 20;
const PAGE: u32 = 4096;
/// What PAMR steers, where the hole begins, and where it ends.
const SHADOW: u32 = 0xC_0000;
const HOLE: u32 = 15 * MIB;
const HOLE_END: u32 = 16 * MIB;

/// The largest memory that a list gets where it chooses one itself.
pub const LIST_MEMORY: usize = 24 << 20;

/// What memory holds before each list. A page holds no-ops, known instructions or noise, by its
/// number, so that parser runs are long, eventful or short.
pub fn pristine_memory() -> Vec<u8> {
    pages_of(LIST_MEMORY, 0x0082_8100)
}

/// The same of a display cache, with other noise.
pub fn pristine_display() -> Vec<u8> {
    pages_of(DISPLAY_BYTES, 0xDC_0100)
}

fn pages_of(bytes: usize, seed: u64) -> Vec<u8> {
    let mut memory = vec![0; bytes];
    let mut random = Random::new(seed);
    for page in memory.chunks_exact_mut(PAGE as usize) {
        let class = random.below(4);
        for word in page.chunks_exact_mut(4) {
            let noise = random.word();
            let value = match class {
                0 => 0,
                1 => instruction(noise),
                _ => noise,
            };
            word.copy_from_slice(&value.to_le_bytes());
        }
    }
    memory
}

/// An instruction that the parser knows, with noise in the bits that are not looked at.
fn instruction(noise: u32) -> u32 {
    let opcode = [0x00, 0x02, 0x04, 0x00][(noise >> 30) as usize];
    opcode << 23 | noise & 0x007F_FFFF
}

/// Which board a list is for: its kind and its memory. The hole is above 8 MiB, and with 16 MiB it ends where memory does.
pub fn board(random: &mut Random) -> (u32, usize) {
    let tom = match random.below(20) {
        0..=2 => 24,
        3..=6 => 16,
        _ => 8,
    };
    (random.below(Board::ALL.len() as u32), tom << 20)
}

/// A table that a generator can borrow.
pub fn table() -> Box<Table> {
    vec![0; TABLE_WORDS].into_boxed_slice().try_into().expect("as many words")
}

/// A list in the making.
pub struct Generator<'m> {
    pub random: Random,
    pub hub: Gmch<'m, Watch, Faultless>,
    pub records: Vec<Record>,
    pub answers: Vec<Answer>,
    /// Pages of the window that this list keeps coming back to.
    pages: Vec<u32>,
    /// Whether resets may be carried out.
    pub resets: bool,
}

impl<'m> Generator<'m> {
    pub fn new(
        random: Random,
        board: u32,
        memory: &'m mut [u8],
        table: &'m mut Table,
        display: &'m mut [u8],
    ) -> Generator<'m> {
        table.fill(0);
        let watch = Watch { board: board as usize, ..Watch::default() };
        let hub = Gmch::with_faults(board, memory, table, display, watch, Faultless).expect("a good board");
        let mut generator =
            Generator { random, hub, records: Vec::new(), answers: Vec::new(), pages: Vec::new(), resets: true };
        for _ in 0..6 {
            let page = generator.any_window_page();
            generator.pages.push(page);
        }
        generator
    }

    /// A whole list: a scene, then `actions` actions and, at the end of some, the lock.
    pub fn fill(&mut self, actions: u32) {
        if !self.random.one_in(12) {
            self.scene();
        }
        self.act_for(actions);
        if self.random.one_in(4) {
            self.lock_over_entries();
        }
    }

    pub fn act_for(&mut self, actions: u32) {
        for _ in 0..actions {
            self.act();
        }
    }

    fn emit(&mut self, record: Record) {
        let meets = Meets {
            translation_on: self.translation_on(),
            tom: self.hub.tom(),
            usable_top: self.hub.usable_top(),
            tseg: self.hub.tom() - self.hub.smram().tseg_bytes(),
            compatible_protected: self.hub.protected(0xA_0000),
            graphics: self.hub.graphics_decodes(),
            registers_base: self.hub.registers_base(),
            window_base: self.hub.window_base(),
            window_bytes: self.hub.window_bytes(),
            fences: std::array::from_fn(|number| self.hub.fence(number).map_or(0, |fence| fence.0)),
            smram: self.hub.smram().0,
            pamr: self.hub.pamr(),
            hole: self.hub.hole(),
            held: self.held_by_register(record.address),
            table: self.hub.table_word_address(0),
            pm_cs: u16::from_le_bytes([0xE0, 0xE1].map(|at| self.hub.config_byte(1, at).unwrap_or(0))),
            display_on: self.hub.display_on(),
            display_registers: [0x3000, 0x3001, 0x3002].map(|at| self.hub.register(at).unwrap_or(0) as u8),
        };
        self.hub.observer().words.meets = meets;
        let answer = self.hub.answer(&record);
        self.records.push(record);
        self.answers.push(answer);
    }

    /// The table word whose register is at this address, if it is there and can be read.
    fn held_by_register(&self, address: u32) -> Option<u32> {
        let offset = address.wrapping_sub(self.hub.registers_base());
        let number = (0x1_0000..0x2_0000).contains(&offset).then(|| (offset - 0x1_0000) as usize / 4)?;
        self.hub.table_word(number).ok()
    }

    // Setting a scene ---------------------------------------------------------------------------

    /// A board on which most things work: graphics on, bases set, translation on, entries, fences, a
    /// ring with instructions; locked at the end or not.
    pub fn scene(&mut self) {
        let graphics = if self.random.one_in(10) { 0 } else { 0x40 };
        let smram = self.random.word() as u8 & !0x02;
        self.set_smram(smram | graphics);
        if self.random.one_in(3) {
            self.set_window_size();
        }
        self.set_bases();
        self.enable_device();
        if self.random.one_in(2) {
            self.set_pamr();
        }
        if self.random.one_in(3) {
            self.set_hole();
        }
        if self.random.one_in(8) {
            let device = self.random.below(2);
            self.config_read(device, 0x00, 4);
        }
        if self.random.one_in(4) {
            self.register_read(0x2020);
        }
        if !self.random.one_in(10) {
            let control = self.table_control();
            self.register_write(0x2020, 4, control);
        }
        for _ in 0..4 + self.random.below(12) {
            self.write_entry();
        }
        for _ in 0..self.random.below(4) {
            self.write_fence();
        }
        if self.random.one_in(2) {
            let on = self.random.word() & 0xFE | 1;
            self.register_write(0x3000, 1, on);
        }
        self.set_ring();
        self.place_instructions();
        if self.random.one_in(2) {
            self.register_write(0x20A8, 2, 0);
            self.register_write(0x20A0, 2, 0xFFFF);
        }
        if self.random.one_in(3) {
            let smram = self.random.word() as u8;
            self.set_smram(smram | 0x42);
        }
    }

    fn act(&mut self) {
        if !self.reaches_registers() && self.random.one_in(3) {
            self.repair();
        }
        if self.table_in_memory() && self.random.one_in(8) {
            return self.move_table();
        }
        if self.hub.smram().locked() && self.random.one_in(12) {
            return self.write_near_protected();
        }
        if self.hub.tom() > HOLE && self.random.one_in(24) {
            return self.access_hole();
        }
        match self.random.below(73) {
            0..=8 => self.access_window(),
            9..=14 => self.access_border(),
            15..=18 => self.access_memory(),
            19..=21 => self.access_as_master(),
            22..=25 => self.write_entry(),
            26..=28 => self.write_fence(),
            29..=30 => self.set_ring(),
            31..=32 => self.write_ring_register(),
            33..=34 => self.place_instructions(),
            35..=38 => self.run(),
            39..=41 => self.access_interrupts(),
            42 => self.access_registers(),
            43 => match self.random.below(3) {
                0 => self.access_registers(),
                _ => self.access_display_registers(),
            },
            44..=46 => self.access_configuration(),
            47..=48 => self.read_smram(),
            49 => {
                let smram = self.random.word() as u8;
                let lock = if self.random.one_in(4) { 0x02 } else { 0 };
                self.set_smram(smram & !0x02 | lock);
            }
            50 => match self.random.below(4) {
                0 => self.set_window_size(),
                1 => self.set_bases(),
                2 => self.enable_device(),
                _ => {
                    let control = if self.random.one_in(2) { self.random.word() } else { self.table_control() };
                    self.register_write(0x2020, 4, control);
                }
            },
            51..=52 => self.access_port(),
            53..=54 => self.break_record(),
            55 => self.subsystem(),
            56 => self.power_management(),
            57 => self.overlap(),
            58..=62 => self.parse(),
            63..=65 => self.access_owned(),
            66 => self.refuse_after_fencing(),
            67..=68 => self.use_display(),
            69 => self.access_shadow(),
            70 => self.access_hole(),
            71 => self.reach_behind(),
            _ => self.reset(),
        }
    }

    /// Whether the processor's accesses to the memory-mapped registers arrive there.
    fn reaches_registers(&self) -> bool {
        self.hub.graphics_decodes() && self.hub.registers_base() >= self.hub.tom()
    }

    /// Makes the registers reachable, as far as the lock allows.
    fn repair(&mut self) {
        if !self.hub.smram().graphics_on() {
            let smram = self.random.word() as u8 & !0x02;
            self.set_smram(smram | 0x40);
        }
        self.config_write(1, 0x04, 1, 0x02);
        if !self.reaches_registers() {
            self.set_bases();
        }
        if !self.translation_on() {
            let control = self.table_control();
            self.register_write(0x2020, 4, control);
        }
    }

    fn reset(&mut self) {
        if !self.random.one_in(3) {
            return;
        }
        if self.resets {
            let words = self.pages.iter().map(|&page| self.hub.table_word(page as usize % TABLE_WORDS));
            if self.table_in_memory() && words.flatten().any(|word| word != 0) {
                self.hub.observer().coverage.note(Event::ResetLeavesWord);
            }
            self.emit(Record::reset());
            if !self.random.one_in(4) {
                self.read_smram();
                self.scene();
            }
            if self.random.one_in(2) {
                self.config_read(1, 0xE0, 4);
            }
            if self.random.one_in(2) {
                self.config_read(0, 0x50, 4);
                self.config_read(0, 0x58, 1);
            }
            if self.random.one_in(2) {
                self.read_after_reset();
            }
        }
    }

    /// The three registers of the display cache, as a reset left them or as the scene after it set them, and a byte of
    /// the cache.
    fn read_after_reset(&mut self) {
        for offset in 0x3000..0x3003 {
            self.register_read(offset);
        }
        self.use_display();
    }

    // Configuration -----------------------------------------------------------------------------

    fn select(&mut self, device: u32, register: u32) {
        let mut address = 0x8000_0000 | device << 11 | register & 0xFC;
        if self.random.one_in(8) {
            // Bits that CF8h does not store.
            address |= self.random.word() & 0x7F00_0003;
        }
        self.emit(Record::io_write(0xCF8, 4, address));
    }

    pub fn config_write(&mut self, device: u32, register: u32, width: u8, data: u32) {
        self.select(device, register);
        self.emit(Record::io_write(0xCFC + register % 4, width, data));
    }

    fn config_read(&mut self, device: u32, register: u32, width: u8) {
        self.select(device, register);
        self.emit(Record::io_read(0xCFC + register % 4, width));
    }

    /// SMRAM, sometimes together with its neighbours.
    pub fn set_smram(&mut self, value: u8) {
        let noise = self.random.word() & 0xFFFF_FF00;
        match self.random.below(8) {
            0 => self.config_write(0, 0x70, 4, noise | u32::from(value)),
            1 => self.config_write(0, 0x70, 2, noise | u32::from(value)),
            _ => self.config_write(0, 0x70, 1, noise | u32::from(value)),
        }
    }

    fn read_smram(&mut self) {
        self.config_read(0, 0x70, 1);
    }

    fn set_window_size(&mut self) {
        let data = self.random.word();
        self.config_write(0, 0x72, 2, data);
    }

    fn set_bases(&mut self) {
        let window = match self.random.below(12) {
            0 => 0,
            1 => 0x0200_0000,
            2 => 0xFC00_0000,
            3 => 0xFE00_0000,
            4 => self.random.word(),
            5 => 0xC200_0000,
            // A large memory's last 64 MiB, which it hides, and what follows.
            6 if self.hub.tom() >= 64 * MIB => self.hub.tom() - 64 * MIB,
            7 if self.hub.tom() >= 64 * MIB => self.hub.tom(),
            _ => 0xC000_0000,
        };
        let registers = match self.random.below(16) {
            0 => 0,
            1 => 0xFFF8_0000,
            2 => 0xFEE8_0000,
            3 => self.random.word(),
            4 => window & 0xFC00_0000 | self.random.word() & 0x01FF_FFFF,
            5 => self.hub.tom(),
            6 => self.hub.tom() - 512 * KIB,
            _ => 0xF000_0000,
        };
        let noise = self.random.word() & 0x0007_FFFF;
        self.config_write(1, 0x10, 4, window | noise);
        if self.random.one_in(4) {
            let (at, width) = self.random.pick(&[(0x10, 4), (0x12, 2), (0x13, 1), (0x11, 2)]);
            self.config_read(1, at, width);
        }
        self.config_write(1, 0x14, 4, registers | noise);
    }

    fn enable_device(&mut self) {
        let data = self.random.pick(&[0, 2, 2, 2, 3, 6, 7, 0xFF, 0xFFFF_FFFF, 0x02]);
        let width = self.random.pick(&[1, 2, 4]);
        self.config_write(1, 0x04, width, data);
    }

    /// The write-once registers, by parts.
    fn subsystem(&mut self) {
        for _ in 0..3 {
            let (at, width) = self.random.pick(&[
                (0x2C, 1),
                (0x2D, 1),
                (0x2C, 2),
                (0x2D, 2),
                (0x2E, 1),
                (0x2E, 2),
                (0x2F, 1),
                (0x2C, 4),
            ]);
            let data = if self.random.one_in(4) { 0 } else { self.random.word() };
            self.config_write(1, at, width, data);
        }
        self.config_read(1, 0x2C, 4);
    }

    /// The power state and bit 8, by parts, with what they then read.
    fn power_management(&mut self) {
        for _ in 0..4 {
            let (at, width) = self.random.pick(&[
                (0xE0, 1),
                (0xE0, 1),
                (0xE0, 2),
                (0xE0, 2),
                (0xE0, 4),
                (0xE0, 4),
                (0xE1, 1),
                (0xE1, 2),
                (0xE2, 1),
                (0xE2, 2),
                (0xE3, 1),
            ]);
            // Half of the time in the writable bits alone.
            let bits = self.random.pick(&[0x0000_0103, 0xFFFF_FFFF]);
            let data = self.random.word() & bits;
            self.config_write(1, at, width, data);
            self.config_read(1, 0xE0, 4);
        }
    }

    fn access_configuration(&mut self) {
        const LISTED: [u32; 22] = [
            0x00, 0x02, 0x04, 0x06, 0x08, 0x0B, 0x50, 0x58, 0x70, 0x72, 0x80, 0x92, 0x10, 0x14, 0x2C, 0x2E, 0x34, 0x3C,
            0x3D, 0xDC, 0xDE, 0xE0,
        ];
        let device = match self.random.below(16) {
            0 => 2 + self.random.below(30),
            n => n % 2,
        };
        let register = if self.random.one_in(6) {
            self.random.below(256)
        } else {
            self.random.pick(&LISTED) + self.random.below(2)
        };
        let mut address = 0x8000_0000 | device << 11 | register & 0xFC;
        match self.random.below(24) {
            0 => address |= self.random.below(256) << 16,
            1 => address |= self.random.below(8) << 8,
            2 => address &= 0x7FFF_FFFF,
            _ => {}
        }
        // The lock is set on purpose elsewhere; here it would end too many lists' variety.
        let smram = device == 0 && register & 0xFC == 0x70;
        self.emit(Record::io_write(0xCF8, 4, address));
        for _ in 0..1 + self.random.below(2) {
            let (at, width) = self.shape(register % 4);
            let port = 0xCFC + at;
            let data = self.random.word() & if smram { !0x02 } else { !0 };
            let record = if self.random.one_in(2) || smram && at != 0 {
                Record::io_read(port, width)
            } else {
                Record::io_write(port, width, data)
            };
            self.emit(record);
        }
    }

    fn access_port(&mut self) {
        let port = match self.random.below(6) {
            0 => self.random.pick(&[0, 0x60, 0xCF4, 0xCF7, 0xD00, 0xFFFC, 0xFFFE, 0xFFFF]),
            1 => self.random.pick(&[0x1_0000, 0x1_0CF8, 0x8000_0CFC, 0xFFFF_FFFF]),
            2 | 3 => 0xCF8 + self.random.below(4),
            _ => 0xCFC + self.random.below(4),
        };
        let width = if self.random.one_in(3) { self.random.below(6) as u8 } else { self.random.pick(&[1, 2, 4]) };
        let data = self.random.word();
        let write = self.random.one_in(3);
        self.emit(if write { Record::io_write(port, width, data) } else { Record::io_read(port, width) });
        if write {
            self.emit(Record::io_read(0xCF8, 4));
        }
    }

    // Addresses ---------------------------------------------------------------------------------

    /// A width, and the address moved so that the access usually stays inside one word.
    fn shape(&mut self, address: u32) -> (u32, u8) {
        if self.random.one_in(40) {
            return (address, self.random.below(6) as u8);
        }
        if self.random.one_in(200) {
            return (address, self.random.word() as u8);
        }
        let width = self.random.pick(&[1, 2, 4, 4]);
        let room = 4 - u32::from(width);
        let moved = if address % 4 > room { address - address % 4 + self.random.below(room + 1) } else { address };
        (moved, width)
    }

    /// A processor access of any kind and mode.
    fn access(&mut self, address: u32) {
        let (address, width) = self.shape(address);
        let management = self.random.one_in(3);
        let data = self.random.word();
        let record = match self.random.below(6) {
            0..=2 => Record::read(address, width, management),
            3 => Record::code_read(address, width, management),
            _ => Record::write(address, width, data, management),
        };
        self.emit(record);
    }

    /// A few bytes around a border of the map as it stands.
    fn border(&mut self) -> u32 {
        let smram = self.hub.smram();
        let tom = self.hub.tom();
        let borders = [
            0,
            0xA_0000,
            0xB_0000,
            0xC_0000,
            0x10_0000,
            HOLE,
            self.hub.usable_top(),
            self.hub.usable_top(),
            tom - smram.tseg_bytes(),
            tom - smram.tseg_bytes(),
            tom - 512 * KIB,
            tom,
            tom,
            0xFEEA_0000,
            0xFEEC_0000,
            self.hub.registers_base(),
            self.hub.registers_base().wrapping_add(512 * KIB),
            self.hub.window_base(),
            self.hub.window_base().wrapping_add(32 * MIB),
            self.hub.window_base().wrapping_add(64 * MIB),
        ];
        self.random.pick(&borders).wrapping_add(self.random.below(8)).wrapping_sub(4)
    }

    fn access_border(&mut self) {
        let address = match self.random.below(8) {
            // Inside the ranges that management mode owns.
            0 => 0xA_0000 + self.random.below(128 * KIB),
            1 => 0xFEEA_0000 + self.random.below(128 * KIB),
            2 => self.hub.tom() - 1 - self.random.below(3 * MIB),
            _ => self.border(),
        };
        self.access(address);
        if self.random.one_in(3) {
            self.read_smram();
        }
    }

    /// Accesses where management mode has memory of its own, or could have.
    fn access_owned(&mut self) {
        let smram = self.hub.smram();
        for _ in 0..3 {
            let address = match self.random.below(3) {
                0 => 0xA_0000 + self.random.below(128 * KIB),
                1 if smram.hseg_acts() => 0xFEEA_0000 + self.random.below(128 * KIB),
                _ => self.hub.tom() - 1 - self.random.below(smram.tseg_bytes().max(PAGE)),
            };
            let (address, width) = self.shape(address);
            let management = !self.random.one_in(3);
            let data = self.random.word();
            let record = match self.random.below(3) {
                0 => Record::read(address, width, management),
                1 => Record::code_read(address, width, management),
                _ => Record::write(address, width, data, management),
            };
            self.emit(record);
        }
    }

    fn access_memory(&mut self) {
        let address = match self.random.below(6) {
            0 => self.random.below(0xA_0000),
            1 => self.random.word(),
            2 => 0xC_0000 + self.random.below(256 * KIB),
            3 => self.hub.tom() + self.random.below(64 * MIB),
            _ => self.random.below(self.hub.tom()),
        };
        self.access(address);
    }

    fn access_as_master(&mut self) {
        let address = match self.random.below(6) {
            0 => 0xA_0000 + self.random.below(128 * KIB),
            1 => self.random.below(self.hub.tom()),
            2 => self.hub.tom() - 1 - self.random.below(2 * MIB),
            3 => self.hub.window_base().wrapping_add(self.random.below(64 * MIB)),
            _ => self.border(),
        };
        self.master_access(address);
        if self.random.one_in(4) {
            self.read_smram();
        }
    }

    fn master_access(&mut self, address: u32) {
        let (address, width) = self.shape(address);
        let data = self.random.word();
        let write = self.random.one_in(2);
        self.emit(if write { Record::master_write(address, width, data) } else { Record::master_read(address, width) });
    }

    // The window --------------------------------------------------------------------------------

    /// A page of the window: low ones, ones whose offset is a protected physical address, and ones at
    /// the ends of both window sizes.
    fn any_window_page(&mut self) -> u32 {
        let tom = self.hub.tom() / PAGE;
        match self.random.below(11) {
            0 => 0xA0 + self.random.below(32),
            1 => (tom - 1 - self.random.below(256)) % TABLE_WORDS as u32,
            2 => self.random.pick(&[8190, 8191, 8192, 16382, 16383]),
            // Their words are the last and the first of a page.
            10 => self.random.pick(&[1023, 1023, 1024, 2047, 2048]),
            3 => self.random.below(TABLE_WORDS as u32),
            4 => 128 * self.random.below(8) + self.random.below(3),
            _ => self.random.below(24),
        }
    }

    fn window_page(&mut self) -> u32 {
        if self.random.one_in(10) {
            return self.any_window_page();
        }
        let near = if self.random.one_in(4) { self.random.below(3) } else { 0 };
        (self.random.pick(&self.pages.clone()) + near) % TABLE_WORDS as u32
    }

    fn access_window(&mut self) {
        let offset = match self.random.below(12) {
            0 => self.fence_border(),
            1 => self.hub.ring().start + self.hub.ring().head_offset() + 4 * self.random.below(8),
            2 => (self.hub.window_bytes() - 8).wrapping_add(self.random.below(16)),
            _ => self.window_page() * PAGE + self.random.below(PAGE),
        };
        self.access(self.hub.window_base().wrapping_add(offset));
    }

    /// A few bytes around the start or the end of a fence.
    fn fence_border(&mut self) -> u32 {
        let number = self.random.below(8) as usize;
        let Some(fence) = self.hub.fence(number) else { return 0 };
        let start = fence.0 & 0x03F8_0000;
        let size = (512 * KIB) << (fence.0 >> 8 & 7).min(6);
        let border = if self.random.one_in(2) { start } else { start + size };
        border.wrapping_add(self.random.below(8)).wrapping_sub(4)
    }

    /// A table entry of any class.
    fn entry(&mut self) -> u32 {
        let smram = self.hub.smram();
        let tom = self.hub.tom();
        let usable = self.hub.usable_top();
        let tseg = tom - smram.tseg_bytes();
        let page = match self.random.below(18) {
            0 => 0xA_0000 + self.random.below(128 * KIB),
            1 => self.random.pick(&[0x9_F000, 0xA_0000, 0xB_F000, 0xC_0000]),
            2 => self.address_behind(),
            3 => usable - PAGE,
            4 => usable + self.random.below(tseg - usable),
            5 => tseg - PAGE,
            6 => tseg,
            7 => tseg + self.random.below(tom - tseg),
            8 => tom - PAGE,
            9 => tom,
            10 => self.random.pick(&[tom + PAGE, 0x2000_0000, 0x3FFF_F000, 0x3000_0000]),
            11 => tom - 1 - self.random.below(2 * MIB),
            12 => self.random.word(),
            13 => self.random.below(0xA_0000),
            _ => self.random.below(tom),
        };
        let memory_type = self.random.pick(&[0, 0, 0, 0, 0, 3, 3, 1, 2]);
        let page = if memory_type == 1 && self.random.one_in(2) { self.display_page() } else { page };
        let valid = u32::from(!self.random.one_in(8));
        let noise = if self.random.one_in(3) { self.random.word() & 0xC000_0FF8 } else { 0 };
        page & 0x3FFF_F000 | memory_type << 1 | valid | noise
    }

    /// A page of a display cache: anywhere in it, where main memory can be protected, at its ends, or past its end.
    fn display_page(&mut self) -> u32 {
        const END: u32 = DISPLAY_BYTES as u32;
        let protected: Vec<_> = self.hub.protected_ranges().filter(|range| range.start < END).collect();
        match self.random.below(12) {
            0 => 0xA_0000 + self.random.below(128 * KIB),
            1 => self.random.pick(&[0, 0, PAGE, END - 2 * PAGE]),
            2 | 3 => END - PAGE,
            4 => END,
            5 => END + self.random.below(4 * MIB),
            6 => self.random.pick(&[END + PAGE, 2 * END, 0x3FFF_F000, self.hub.tom()]),
            7 if !protected.is_empty() => {
                self.random.pick(&protected.iter().map(|range| range.start).collect::<Vec<_>>())
            }
            _ => self.random.below(END),
        }
    }

    fn write_entry(&mut self) {
        let mut page = self.window_page();
        let run = if self.random.one_in(6) { 1 + self.random.below(6) } else { 1 };
        for _ in 0..run {
            let entry = self.entry();
            self.store_entry(page, entry);
            page = (page + 1) % TABLE_WORDS as u32;
        }
        if self.random.one_in(6) {
            self.register_read(0x1_0000 + 4 * page);
        }
    }

    fn write_fence(&mut self) {
        let size = match self.random.below(8) {
            0 => self.random.below(8),
            1 => 7,
            _ => self.random.below(3),
        };
        let pitch = if self.random.one_in(8) { self.random.below(8) } else { self.random.below(6) };
        // A fence over one of the list's pages, aligned to its size or not.
        let over = self.random.pick(&self.pages.clone()) * PAGE;
        let start = match self.random.below(6) {
            0 => self.random.word() & 0x03F8_0000,
            1 => over & 0x03F8_0000,
            _ => over & !(((512 * KIB) << size.min(6)) - 1),
        };
        let walk = u32::from(self.random.one_in(12));
        let valid = u32::from(!self.random.one_in(8));
        let noise = if self.random.one_in(4) { self.random.word() & !0x03F8_1771 } else { 0 };
        let number = self.random.below(8);
        self.register_write(0x2000 + 4 * number, 4, start | walk << 12 | size << 8 | pitch << 4 | valid | noise);
    }

    /// Several fences over one place and translation sometimes off, then accesses there.
    fn overlap(&mut self) {
        for _ in 0..3 {
            self.write_fence();
        }
        // A private table has no base: any will do.
        let base = if self.table_in_memory() { self.hub.register(0x2020).unwrap_or(0) } else { 0xFFFF_FFFF };
        if self.random.one_in(2) {
            self.register_write(0x2020, 4, base & !1);
        }
        for _ in 0..3 {
            self.access_window();
        }
        self.register_write(0x2020, 4, base | 1);
    }

    /// A well-formed fence, an entry where it leads that is mostly refused, and accesses through both.
    fn refuse_after_fencing(&mut self) {
        let offset = self.window_page() * PAGE + self.random.below(PAGE);
        let fence = offset & 0x03F8_0000 | (1 + self.random.below(5)) << 4 | 1;
        let number = self.random.below(3);
        self.register_write(0x2000 + 4 * number, 4, fence);
        let protected: Vec<_> = self.hub.protected_ranges().collect();
        let entry = match self.random.below(8) {
            0..=3 if !protected.is_empty() => {
                let range = &protected[self.random.below(protected.len() as u32) as usize];
                (range.start + self.random.below(range.end - range.start)) & !(PAGE - 1) | 1
            }
            4 => (self.hub.tom() + PAGE * self.random.below(4096)) | 1,
            5 => self.entry() & !7 | self.random.pick(&[3, 5]),
            _ => self.entry(),
        };
        self.store_entry(Fence(fence).tiled(offset) / PAGE, entry);
        for _ in 0..2 + self.random.below(2) {
            self.access(self.hub.window_base().wrapping_add(offset));
        }
    }

    // Entries that a locked board does not store --------------------------------------------------

    /// An entry of protected memory or of a page beside it, with any bits that its register does not store.
    fn entry_near_protected(&mut self) -> u32 {
        let protected: Vec<_> = self.hub.protected_ranges().collect();
        let within = match protected.len() as u32 {
            0 => 0xA_0000..0xC_0000,
            ranges => protected[self.random.below(ranges) as usize].clone(),
        };
        let page = match self.random.below(10) {
            0 => within.start,
            1 => within.end - PAGE,
            2 => within.start - PAGE,
            3 => within.end,
            4 => self.hub.tom() - self.random.below(MIB),
            5 => self.hub.tom() + PAGE * self.random.below(4096),
            _ => within.start + self.random.below(within.end - within.start),
        };
        let memory_type = self.random.pick(&[0, 0, 0, 3, 3, 3, 1, 2]);
        let valid = u32::from(!self.random.one_in(6));
        let noise = if self.random.one_in(2) { self.random.word() & 0xC000_0FF8 } else { 0 };
        page & 0x3FFF_F000 | memory_type << 1 | valid | noise
    }

    /// Writes such an entry in one of the ways there are, and looks what became of it.
    fn write_near_protected(&mut self) {
        let number = match self.random.below(4) {
            0 => self.random.below(TABLE_WORDS as u32),
            _ => self.window_page() % TABLE_WORDS as u32,
        };
        let register = 0x1_0000 + 4 * number;
        let entry = self.entry_near_protected();
        match self.random.below(10) {
            // A part of the register, with the whole entry as data or with the byte that makes it valid.
            0 => {
                let (at, width) = self.random.pick(&[(0, 1), (0, 2), (1, 2), (2, 2), (3, 1)]);
                self.register_write(register + at, width, entry);
            }
            1 => {
                self.register_write(register, 4, entry & !1);
                self.register_write(register, 1, entry & 0xFF | 1);
            }
            // The same twice, whether it is stored or not.
            2 => {
                self.store_entry(number, entry);
                self.register_write(register, 4, entry);
            }
            3 if self.table_in_memory() => {
                let before = self.hub.register(0x2020).unwrap_or(0);
                let base = self.table_base(number);
                self.register_write(0x2020, 4, base | before & 1);
                self.register_write(register, 4, entry);
                self.register_write(0x2020, 4, before);
            }
            4 | 5 => self.store_entry(number, entry),
            _ => self.write_in_either_mode(number, entry),
        }
        if !self.random.one_in(4) {
            self.register_read(register);
        }
        if self.random.one_in(2) {
            let offset = number * PAGE + self.random.below(PAGE);
            self.access(self.hub.window_base().wrapping_add(offset));
        }
        if self.random.one_in(6) {
            self.fetch_by(number);
        }
        if self.random.one_in(6) {
            self.read_smram();
        }
    }

    fn write_in_either_mode(&mut self, number: u32, entry: u32) {
        let register = self.hub.registers_base().wrapping_add(0x1_0000 + 4 * number);
        let management = self.random.one_in(3);
        self.emit(Record::write(register, 4, entry, management));
    }

    /// Entries of what is protected are stored, then the lock is set, and the entries are used and written again.
    fn lock_over_entries(&mut self) {
        if !self.reaches_registers() {
            self.repair();
        }
        if !self.hub.smram().locked() {
            let smram = self.random.word() as u8 & !0x02 | 0x40;
            self.set_smram(smram);
        }
        let numbers: Vec<u32> = (0..3).map(|_| self.window_page() % TABLE_WORDS as u32).collect();
        let entries: Vec<u32> = numbers.iter().map(|_| self.entry_near_protected()).collect();
        for (&number, &entry) in numbers.iter().zip(&entries) {
            self.write_in_either_mode(number, entry);
        }
        let smram = self.hub.smram().0;
        self.set_smram(smram | 0x02);
        for (&number, &entry) in numbers.iter().zip(&entries) {
            self.register_read(0x1_0000 + 4 * number);
            let offset = number * PAGE + self.random.below(PAGE);
            self.access(self.hub.window_base().wrapping_add(offset));
            if self.random.one_in(3) {
                self.fetch_by(number);
            }
            self.register_write(0x1_0000 + 4 * number, 4, entry);
        }
        for _ in 0..4 {
            self.write_near_protected();
        }
    }

    // The display cache -------------------------------------------------------------------------

    /// An access to the three registers, to the byte after them, or to some of them at once, with what they then read.
    fn access_display_registers(&mut self) {
        let (offset, width) = self.random.pick(&[
            (0x3000, 1),
            (0x3000, 1),
            (0x3001, 1),
            (0x3001, 1),
            (0x3002, 1),
            (0x3002, 1),
            (0x3003, 1),
            (0x3000, 2),
            (0x3001, 2),
            (0x3002, 2),
            (0x3000, 4),
        ]);
        if self.random.one_in(3) {
            let management = self.random.one_in(4);
            self.emit(Record::read(self.hub.registers_base().wrapping_add(offset), width, management));
        } else {
            let data = self.random.word();
            self.register_write(offset, width, data);
        }
        if self.random.one_in(2) {
            let offset = self.random.pick(&[0x3000, 0x3001, 0x3002]);
            self.register_read(offset);
        }
    }

    /// The display cache on or off, and entries of type 01 with accesses and fetches by them.
    fn use_display(&mut self) {
        if self.random.one_in(2) {
            self.access_display_registers();
        }
        if !self.hub.display_on() && !self.random.one_in(4) {
            let noise = self.random.word() & 0xFE;
            self.register_write(0x3000, 1, 1 | noise);
        }
        let number = self.window_page() % TABLE_WORDS as u32;
        let valid = u32::from(!self.random.one_in(8));
        let noise = if self.random.one_in(4) { self.random.word() & 0xC000_0FF8 } else { 0 };
        let entry = self.display_page() & 0x3FFF_F000 | 2 | valid | noise;
        self.store_entry(number, entry);
        for _ in 0..2 + self.random.below(3) {
            let offset = self.random.pick(&[0, PAGE - 4, PAGE - 1]) + self.random.below(4);
            let offset = if self.random.one_in(2) { self.random.below(PAGE) } else { offset % PAGE };
            self.access(self.hub.window_base().wrapping_add(number * PAGE + offset));
        }
        if self.random.one_in(2) {
            let word = instruction(self.random.word());
            self.emit(Record::write(self.hub.window_base().wrapping_add(number * PAGE), 4, word, false));
            self.fetch_by(number);
        }
        if self.random.one_in(6) {
            // Main memory at the same address.
            let address = (entry & 0x3FFF_F000) + self.random.below(PAGE);
            self.access(address);
        }
        if self.random.one_in(8) {
            self.access_display_registers();
        }
    }

    // Shadow memory and the hole --------------------------------------------------------------------

    /// PAMR by one of the writes that touch it, and what it then reads.
    fn set_pamr(&mut self) {
        let (at, width) = self.random.pick(&[(0x51, 1), (0x51, 1), (0x51, 1), (0x50, 2), (0x51, 2), (0x50, 4)]);
        let data = self.random.word();
        self.config_write(0, at, width, data);
        if self.random.one_in(6) {
            self.config_read(0, at, width);
        }
    }

    /// FDHC likewise, with any bits that it does not keep.
    fn set_hole(&mut self) {
        let width = self.random.pick(&[1, 1, 2, 4]);
        let on = if self.random.one_in(3) { 0 } else { 0x80 };
        let data = self.random.word() & !0x80 | on;
        self.config_write(0, 0x58, width, data);
        if self.random.one_in(6) {
            self.config_read(0, 0x58, width);
        }
    }

    /// An access of the processor or of a hub master.
    fn access_by_any(&mut self, address: u32) {
        match self.random.one_in(4) {
            true => self.master_access(address),
            false => self.access(address),
        }
    }

    /// One place in C0000h-FFFFFh, or beside it, read and written under one PAMR and another.
    fn access_shadow(&mut self) {
        let segment = SHADOW + 64 * KIB * self.random.below(4);
        let address = match self.random.below(4) {
            0 => segment + self.random.below(4),
            1 => segment + 64 * KIB - 1 - self.random.below(4),
            2 => self.random.pick(&[SHADOW - 1, SHADOW - 4, SHADOW + 256 * KIB]),
            _ => segment + self.random.below(64 * KIB),
        };
        for _ in 0..2 {
            if !self.random.one_in(3) {
                self.set_pamr();
            }
            for _ in 0..1 + self.random.below(2) {
                self.access_by_any(address);
            }
        }
    }

    /// One place in the hole, or beside it, read and written with the hole on and off. Registers or window may be there,
    /// too, which memory hides.
    fn access_hole(&mut self) {
        let usable = self.hub.usable_top();
        let address = match self.random.below(8) {
            0 => HOLE - 4 + self.random.below(8),
            1 => HOLE_END - 4 + self.random.below(8),
            2 if (HOLE..HOLE_END).contains(&usable) => usable - 4 + self.random.below(8),
            2 => HOLE_END + self.random.below(PAGE),
            3 => self.hub.tom() - 1 - self.random.below(2 * MIB),
            _ => HOLE + self.random.below(MIB),
        };
        let moved = self.random.one_in(4);
        if moved {
            let (register, base) = self.random.pick(&[(0x10, 0), (0x14, address & !(512 * KIB - 1))]);
            self.config_write(1, register, 4, base);
        }
        for _ in 0..2 {
            if !self.random.one_in(3) {
                self.set_hole();
            }
            for _ in 0..1 + self.random.below(2) {
                self.access_by_any(address);
            }
        }
        if self.random.one_in(4) {
            self.read_smram();
        }
        if moved {
            self.set_bases();
        }
    }

    /// An address that PAMR or the hole may keep direct accesses from.
    fn address_behind(&mut self) -> u32 {
        match self.hub.tom() > HOLE && self.random.one_in(2) {
            true => HOLE + self.random.below(MIB),
            false => SHADOW + self.random.below(256 * KIB),
        }
    }

    /// A page there by an entry, for accesses through the window and for fetches, and a table word there.
    fn reach_behind(&mut self) {
        let address = self.address_behind();
        match address < HOLE {
            true => self.set_pamr(),
            false => self.set_hole(),
        }
        let number = self.window_page() % TABLE_WORDS as u32;
        let before = self.hub.register(0x2020).unwrap_or(0);
        let moved = self.table_in_memory() && self.random.one_in(2);
        if moved {
            let base = (address & !(PAGE - 1)).wrapping_sub((4 * number) & !(PAGE - 1));
            self.register_write(0x2020, 4, base | 1);
            let entry = self.entry();
            self.register_write(0x1_0000 + 4 * number, 4, entry);
            self.register_read(0x1_0000 + 4 * number);
        } else {
            self.register_write(0x1_0000 + 4 * number, 4, address & !(PAGE - 1) | 1);
        }
        for _ in 0..1 + self.random.below(2) {
            let offset = number * PAGE + self.random.below(PAGE);
            self.access(self.hub.window_base().wrapping_add(offset));
        }
        if self.random.one_in(2) {
            self.fetch_by(number);
        }
        if moved {
            self.register_write(0x2020, 4, before);
        }
    }

    // The table in main memory --------------------------------------------------------------------

    fn table_in_memory(&self) -> bool {
        self.hub.board().table_in_memory()
    }

    fn translation_on(&self) -> bool {
        self.hub.register(0x2020).is_some_and(|control| control & 1 != 0)
    }

    /// 2020h with translation on, and a table that can mostly be used.
    fn table_control(&mut self) -> u32 {
        if !self.table_in_memory() {
            return 1;
        }
        let page = self.window_page();
        let base = if self.random.one_in(4) { self.table_base(page) } else { self.plain_base() };
        base | 1
    }

    /// A base with the whole table in ordinary memory above 1 MiB.
    fn plain_base(&mut self) -> u32 {
        let room = self.hub.usable_top() - MIB - 64 * KIB;
        (MIB + self.random.below(room)) & !(PAGE - 1)
    }

    /// A base anywhere: in each part of the map, at its top, or where this page's word is among the last before a
    /// border or among the first after it.
    fn table_base(&mut self, page: u32) -> u32 {
        let tom = self.hub.tom();
        let usable = self.hub.usable_top();
        let tseg = tom - self.hub.smram().tseg_bytes();
        let base = match self.random.below(16) {
            0 => self.random.below(0xA_0000),
            1 => 0xA_0000 + self.random.below(128 * KIB),
            2 => self.address_behind(),
            3 => usable + self.random.below(tseg - usable),
            4 => tseg + self.random.below(tom - tseg),
            // The table ends where memory does.
            5 => tom - 64 * KIB,
            6 => self.random.pick(&[0xFFFF_F000, 0xFFFF_0000, 0x8000_0000]),
            7 => self.random.word(),
            8 => self.plain_base(),
            // 0 stands for 4 GiB.
            _ => {
                let border = self.random.pick(&[0xA_0000, 0xC_0000, MIB, usable, tseg, tom, tom, 0]);
                border.wrapping_sub((page / 1024 + self.random.below(2)) * PAGE)
            }
        };
        base & !(PAGE - 1)
    }

    /// The table somewhere else for a while: accesses through it there, then perhaps back.
    fn move_table(&mut self) {
        let before = self.hub.register(0x2020).unwrap_or(0);
        let page = self.window_page() % TABLE_WORDS as u32;
        let on = u32::from(!self.random.one_in(4));
        let noise = if self.random.one_in(4) { self.random.below(2048) << 1 } else { 0 };
        let base = self.table_base(page);
        self.register_write(0x2020, 4, base | noise | on);
        for _ in 0..2 + self.random.below(4) {
            match self.random.below(8) {
                0 | 1 => {
                    let offset = page * PAGE + self.random.below(PAGE);
                    self.access(self.hub.window_base().wrapping_add(offset));
                }
                2 | 3 => self.access_word(page),
                4 | 5 => {
                    let entry = self.entry();
                    self.store_entry(page, entry);
                }
                6 => self.run(),
                _ => self.fetch_by(page),
            }
        }
        if self.random.one_in(3) {
            self.read_smram();
        }
        if self.random.one_in(2) {
            self.register_write(0x2020, 4, before);
        }
    }

    /// An access to a word's register, or to the word itself where it lies.
    fn access_word(&mut self, page: u32) {
        match self.hub.table_word_address(page as usize) {
            Some(address) if self.random.one_in(4) => self.access(address as u32),
            _ if self.random.one_in(3) => self.register_read(0x1_0000 + 4 * page),
            _ => {
                let offset = 0x1_0000 + 4 * page + if self.random.one_in(3) { self.random.below(4) } else { 0 };
                self.access(self.hub.registers_base().wrapping_add(offset));
            }
        }
    }

    /// A run whose first fetch looks this page's word up.
    fn fetch_by(&mut self, page: u32) {
        self.register_write(0x203C, 4, 1);
        self.register_write(0x2038, 4, page * PAGE);
        self.register_write(0x2034, 4, 0);
        self.register_write(0x2030, 4, 0x20);
        self.run();
    }

    /// Stores an entry: through its register or, where its word is in main memory, in one of the other ways there.
    fn store_entry(&mut self, number: u32, entry: u32) {
        let address = self.hub.table_word_address(number as usize).and_then(|address| u32::try_from(address).ok());
        let management = self.random.one_in(8);
        match (address, self.random.below(8)) {
            (Some(address), 0) => self.emit(Record::write(address, 4, entry, management)),
            (Some(address), 1) => self.emit(Record::master_write(address, 4, entry)),
            (Some(address), 2) => self.store_through_window(address, entry),
            // A part of the word.
            (Some(address), 3) => {
                let (address, width) = self.random.pick(&[(address, 1), (address + 1, 1), (address + 2, 2)]);
                self.emit(Record::write(address, width, entry >> (8 * (address % 4)), management));
            }
            _ => self.register_write(0x1_0000 + 4 * number, 4, entry),
        }
    }

    /// Maps the table's own page into the window, and stores an entry there.
    fn store_through_window(&mut self, address: u32, entry: u32) {
        let page = self.window_page();
        self.register_write(0x1_0000 + 4 * page, 4, address & !(PAGE - 1) | 1);
        let through = self.hub.window_base().wrapping_add(page * PAGE + address % PAGE);
        self.emit(Record::write(through, 4, entry, false));
    }

    // Registers, ring, interrupts ---------------------------------------------------------------

    fn register_write(&mut self, offset: u32, width: u8, data: u32) {
        let management = self.random.one_in(8);
        self.emit(Record::write(self.hub.registers_base().wrapping_add(offset), width, data, management));
    }

    fn register_read(&mut self, offset: u32) {
        self.emit(Record::read(self.hub.registers_base().wrapping_add(offset), register_width(offset), false));
    }

    /// A register access that may be wide, narrow, off by some bytes or at an unlisted offset.
    fn access_registers(&mut self) {
        const OFFSETS: [u32; 24] = [
            0x2000, 0x201C, 0x2020, 0x2024, 0x2030, 0x2034, 0x2038, 0x203C, 0x2040, 0x209C, 0x20A0, 0x20A4, 0x20A8,
            0x20AC, 0x20B0, 0x2FFC, 0x3000, 0x3000, 0x3004, 0xFFFC, 0x1_0000, 0x1_FFFC, 0x2_0000, 0x7_FFFC,
        ];
        let offset = match self.random.below(8) {
            0 => self.random.below(512 * KIB),
            1 => 0x1_0000 + self.random.below(64 * KIB),
            _ => self.random.pick(&OFFSETS) + self.random.below(4),
        };
        self.access(self.hub.registers_base().wrapping_add(offset));
    }

    /// An offset into a ring of `length` bytes: at its ends, beyond them or anywhere.
    fn ring_offset(&mut self, length: u32) -> u32 {
        match self.random.below(10) {
            0 => length - 4,
            1 => length - 8,
            2 => length,
            3 => length + 4,
            4 => 0,
            5 => 0x001F_FFFC,
            6 => self.random.word(),
            7 => 4 * self.random.below(4),
            _ => self.random.below(length),
        }
    }

    fn head(&mut self, length: u32) -> u32 {
        let wraps = self.random.pick(&[0, 0, 1, 0x7FE, 0x7FF, 0x7FF]);
        let offset =
            if self.random.one_in(2) { length - 4 * (1 + self.random.below(4)) } else { self.ring_offset(length) };
        if self.random.one_in(12) {
            self.random.word()
        } else {
            wraps << 21 | offset & 0x001F_FFFF
        }
    }

    fn ring_start(&mut self) -> u32 {
        match self.random.below(10) {
            0 => 0x03FF_F000,
            1 => 0x01FF_F000,
            2 => self.random.pick(&[0x03FF_E000, 0x01FF_E000, 0x0200_0000]),
            3 => self.random.word(),
            _ => self.window_page() * PAGE,
        }
    }

    fn ring_length(&mut self) -> u32 {
        let pages = self.random.pick(&[0, 0, 0, 0, 1, 1, 2, 4, 6, 511]);
        let enable = u32::from(!self.random.one_in(12));
        let noise = if self.random.one_in(4) { self.random.word() & !0x001F_F001 } else { 0 };
        pages << 12 | enable | noise
    }

    fn set_ring(&mut self) {
        let length = self.ring_length();
        let bytes = (length & 0x001F_F000) + PAGE;
        let head = self.head(bytes);
        let tail = match self.random.below(8) {
            0 => self.ring_offset(bytes),
            1 => head,
            // Some words ahead of the head, perhaps around the end.
            _ => ((head & 0x001F_FFFC) + 8 + 8 * self.random.below(4)) % bytes,
        };
        let start = self.ring_start();
        self.register_write(0x203C, 4, length);
        self.register_write(0x2038, 4, start);
        self.register_write(0x2034, 4, head);
        self.register_write(0x2030, 4, tail);
        // Entries for the head's page and for the first, so that fetches are usually answered.
        for offset in [head & 0x001F_FFFC, 0] {
            let entry = match self.random.below(8) {
                0 => self.entry(),
                1 => self.entry() & !0x06 | 1,
                2 => continue,
                // A display cache's page.
                4 if self.hub.display_on() => self.random.below(DISPLAY_BYTES as u32) & !(PAGE - 1) | 3,
                // A large memory's last page.
                3 if self.hub.tom() >= 64 * MIB => (self.hub.tom() - PAGE) | 1,
                _ => self.random.below(self.hub.usable_top()) & !(PAGE - 1) | 1,
            };
            let number = ((start & 0x03FF_F000) + offset) / PAGE % TABLE_WORDS as u32;
            self.store_entry(number, entry);
        }
    }

    /// A ring with instructions, runs over it, and the interrupts that come of it.
    fn parse(&mut self) {
        if !self.random.one_in(3) {
            self.set_ring();
        }
        self.place_instructions();
        self.access_interrupts();
        for _ in 0..1 + self.random.below(3) {
            self.run();
            if self.random.one_in(3) {
                self.access_interrupts();
            }
        }
        if self.random.one_in(3) {
            // A refusal with the line as it stands.
            self.emit(Record::read(0, 3, false));
        }
        if self.random.one_in(2) {
            // Open the mask, enable, and look.
            self.register_write(0x20A8, 2, 0);
            self.register_write(0x20A0, 2, 2);
            self.register_read(0x20A4);
        }
    }

    fn write_ring_register(&mut self) {
        let bytes = self.hub.ring().bytes();
        match self.random.below(4) {
            0 => {
                let tail = self.ring_offset(bytes);
                self.register_write(0x2030, 4, tail);
            }
            1 => {
                let head = self.head(bytes);
                self.register_write(0x2034, 4, head);
            }
            2 => {
                let start = self.ring_start();
                self.register_write(0x2038, 4, start);
            }
            _ => {
                let length = self.ring_length();
                self.register_write(0x203C, 4, length);
            }
        }
        let offset = self.random.pick(&[0x2030, 0x2034, 0x2038, 0x203C]);
        self.register_read(offset);
    }

    /// Puts instructions where the ring will fetch them: directly, by a master or through the window.
    fn place_instructions(&mut self) {
        let ring = self.hub.ring();
        let mut offset = ring.head_offset() % ring.bytes();
        for _ in 0..1 + self.random.below(6) {
            let noise = self.random.word();
            let word = match self.random.below(12) {
                0 => 0x01 << 23,
                1 => noise,
                2 => 0x2000_0000 | noise & 0x007F_FFFF,
                3 => self.random.below(64) << 23,
                4 => 0x0100_0000,
                5 => 0,
                _ => instruction(noise),
            };
            let through = self.hub.window_base().wrapping_add(ring.start + offset);
            let management = self.random.one_in(8);
            match self.hub.fetch_address(ring.start + offset) {
                Ok(Place::Memory(address)) if self.random.one_in(2) => {
                    self.emit(Record::write(address, 4, word, management));
                }
                Ok(Place::Memory(address)) if self.random.one_in(2) => {
                    self.emit(Record::master_write(address, 4, word));
                }
                _ => self.emit(Record::write(through, 4, word, management)),
            }
            offset = (offset + 4) % ring.bytes();
        }
    }

    fn run(&mut self) {
        if self.random.one_in(12) && !self.hub.smram().locked() {
            // Graphics off, which a run ignores.
            let smram = self.random.word() as u8;
            self.set_smram(smram & 0x3D);
        }
        let ring = self.hub.ring();
        let between = (ring.tail.wrapping_sub(ring.head_offset()) & 0x001F_FFFF) / 4;
        let budget = match self.random.below(10) {
            0 => 0,
            1 | 2 => 1,
            3 => self.random.below(8),
            4 => between,
            5 => between.wrapping_sub(1),
            6 => self.random.word(),
            _ => u32::MAX,
        };
        self.emit(Record::run(budget));
    }

    fn access_interrupts(&mut self) {
        let offset = self.random.pick(&[0x20A0, 0x20A0, 0x20A4, 0x20A8, 0x20A8, 0x20AC]);
        let noise = self.random.word();
        let data = self.random.pick(&[0, 0, 2, 2, 0xFFFD, 0xFFFF, 0xFFFF_0000, noise]);
        match self.random.below(3) {
            0 => self.register_read(offset),
            _ => self.register_write(offset, 2, data),
        }
    }

    // Records that break the layout --------------------------------------------------------------

    fn break_record(&mut self) {
        let address = match self.random.one_in(3) {
            true => self.hub.window_base().wrapping_add(self.window_page() * PAGE + self.random.below(PAGE)),
            false => self.border(),
        };
        let data = self.random.word();
        let good = match self.random.below(9) {
            0 => Record::io_read(0xCFC, 4),
            1 => Record::io_write(0xCF8, 4, data),
            2 => Record::read(address & !3, 4, true),
            3 => Record::code_read(address & !3, 4, false),
            4 => Record::write(address & !3, 4, data, false),
            5 => Record::master_read(address & !3, 4),
            6 => Record::master_write(address & !3, 4, data),
            7 => Record::run(u32::MAX),
            _ => Record::reset(),
        };
        let bit = 1 << self.random.below(32);
        let broken = match self.random.below(9) {
            0 => Record { kind: self.random.word() as u8, ..good },
            1 => Record { kind: self.random.pick(&[0, 10, 255]), ..good },
            2 => Record { flags: good.flags ^ 1 << self.random.below(8), ..good },
            3 => Record { reserved: 1 << self.random.below(8), ..good },
            4 => Record { tail: bit, ..good },
            5 => Record { data: bit, ..good },
            6 => Record { width: self.random.below(6) as u8, ..good },
            7 => Record { address: good.address | bit, ..good },
            _ => Record::from_bytes(
                &(u128::from(self.random.next()) << 64 | u128::from(self.random.next())).to_le_bytes(),
            ),
        };
        // Changing one field can also make a good reset.
        if broken != Record::reset() {
            self.emit(broken);
        }
    }
}
