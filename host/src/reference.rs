//! The replay in ordinary Rust, from document 01 section by section, and from the requests of document 02 that have
//! landed.
//!
//! It is what the proved call is compared with, and what its speed is measured against. It shares no
//! text with the model's definitions. Every index is bounds-checked, and the only memory it makes is
//! the translation table, on the stack.
//!
//! Each function quotes the sentence that it implements. `wrong` asks for a deliberate fault, which only
//! tests have, and is constantly false in [`replay`].

mod configuration;
mod display;
mod forbidden;
mod observe;
mod registers;
mod ring;
mod routing;
mod shadow;
mod table;
mod window;

pub use configuration::{Lsmm, Smram};
pub use display::Place;
pub use observe::{Observer, Rule, TableWord, Touch, Unobserved, WordUse};
pub use ring::Ring;
pub use window::Fence;

use crate::board::Board;
use crate::call::{is_memory_length, MOST_MEMORY};
use crate::faults::{Fault, Faultless, Faults};
use crate::record::{Answer, Kind, Record, Refusal, Target, MAX_RECORDS, RECORD_BYTES};
use configuration::default_bytes;
use display::is_display_length;
use routing::Mode;

const KIB: u32 = 1 << 10;
const MIB: u32 = 1 << 20;

/// "The translation table is 16,384 words of 32 bits".
///
/// ```
/// use mitrophel::reference::{Table, TABLE_WORDS};
///
/// assert_eq!(size_of::<Table>(), 64 << 10);
/// assert_eq!(4096 * TABLE_WORDS, 64 << 20); // a page for each entry: the window's size
/// ```
pub const TABLE_WORDS: usize = 16_384;

/// The translation table (GTT), where it is private to the model.
///
/// ```
/// use mitrophel::reference::{Gmch, Table, TABLE_WORDS};
/// use mitrophel::Board;
///
/// // 64 KiB: a small stack keeps it on the heap.
/// let mut table: Box<Table> = Box::new([0; TABLE_WORDS]);
/// assert!(Gmch::new(Board::I82810, &mut vec![0; 8 << 20], &mut table, &mut []).is_some());
/// ```
pub type Table = [u32; TABLE_WORDS];

/// Replays all records from a cold start: 0, or 1 where the arguments are wrong.
///
/// "Each call is a cold start, replays all records in order and returns 0."
///
/// ```
/// use mitrophel::call::gmch_replay;
/// use mitrophel::{record, reference, Record};
///
/// let records = record::encode(&[Record::io_write(0xCF8, 4, 0x8000_0000), Record::io_read(0xCFC, 4)]);
/// let [mut proved, mut beside] = [vec![0; records.len()], vec![0; records.len()]];
/// assert_eq!(gmch_replay(0, &mut vec![0; 8 << 20], &records, &mut proved, &mut []), 0);
/// assert_eq!(reference::replay(0, &mut vec![0; 8 << 20], &records, &mut beside, &mut []), 0);
/// assert_eq!(proved, beside);
/// ```
pub fn replay(board: u32, memory: &mut [u8], records: &[u8], answers: &mut [u8], display: &mut [u8]) -> u32 {
    replay_with(board, memory, records, answers, display, Unobserved, Faultless)
}

/// [`replay`] with an observer and faults.
///
/// ```
/// # #[cfg(feature = "faults")] {
/// use mitrophel::faults::{Fault, OneFault};
/// use mitrophel::reference::{replay, replay_with, Unobserved};
/// use mitrophel::{record, Record};
///
/// let records = record::encode(&[Record::read(0x1002, 1, false), Record::read(0x1001, 2, false)]);
/// let [mut right, mut wrong] = [vec![0; records.len()], vec![0; records.len()]];
/// replay(0, &mut vec![0; 8 << 20], &records, &mut right, &mut []);
/// let fault = OneFault::new(Fault::NaturalAlignmentAsked);
/// replay_with(0, &mut vec![0; 8 << 20], &records, &mut wrong, &mut [], Unobserved, fault);
/// assert_ne!(right, wrong);
/// # }
/// ```
#[cfg_attr(not(feature = "faults"), doc(hidden))]
pub fn replay_with<O: Observer, F: Faults>(
    board: u32,
    memory: &mut [u8],
    records: &[u8],
    answers: &mut [u8],
    display: &mut [u8],
    observer: O,
    faults: F,
) -> u32 {
    const WRONG: u32 = Refusal::Arguments.code() as u32;
    // "record length (not 16n, or n over 65,535) or answer length wrong"
    let (list, rest) = records.as_chunks::<RECORD_BYTES>();
    if !rest.is_empty() || list.len() > MAX_RECORDS || answers.len() != records.len() {
        return WRONG;
    }
    let mut table = [0; TABLE_WORDS];
    let Some(mut hub) = Gmch::with_faults(board, memory, &mut table, display, observer, faults) else {
        return WRONG;
    };
    for (record, answer) in list.iter().zip(answers.as_chunks_mut::<RECORD_BYTES>().0) {
        *answer = hub.answer(&Record::from_bytes(record)).to_bytes();
    }
    0
}

/// TOM of a memory of this length; none where the length is wrong. "its length is TOM: a multiple of 8 MiB, 8 to 512
/// MiB", which request 6 of document 02 amends: "Raise the largest TOM from 512 MiB to 1,024 MiB. ... Lengths just above
/// are still code 1."
fn top_of_memory(board: Board, bytes: usize, faults: &impl Faults) -> Option<u32> {
    let bytes = if faults.has(Fault::LengthRoundedDown) { bytes - bytes % (8 << 20) } else { bytes };
    let most = match board {
        _ if faults.has(Fault::LargestMemory512Mib) => 512 << 20,
        Board::I82810 | Board::Dc100 if faults.has(Fault::OldBoardsHave512Mib) => 512 << 20,
        _ if faults.has(Fault::LargestMemory1016Mib) => 1016 << 20,
        _ => MOST_MEMORY,
    };
    let between = 512 << 20 < bytes && bytes < MOST_MEMORY;
    let good = is_memory_length(bytes) && bytes <= most && !(between && faults.has(Fault::NothingBetween))
        || bytes == 1032 << 20 && faults.has(Fault::LargestMemory1032Mib);
    u32::try_from(bytes).ok().filter(|_| good)
}

/// A read or write of 1, 2 or 4 bytes inside one aligned word.
#[derive(Clone, Copy)]
struct Access {
    address: u32,
    width: u32,
    /// What a write stores; none for a read.
    data: Option<u32>,
}

impl Access {
    /// Reads or writes these bytes, which are as many as the access is wide: "value read, zero-extended (0 for writes)";
    /// "a write's data past its width is ignored".
    #[inline]
    fn carry_out(self, bytes: &mut [u8]) -> u32 {
        match (self.data, bytes) {
            (None, &mut [a]) => u32::from(a),
            (None, &mut [a, b]) => u32::from(u16::from_le_bytes([a, b])),
            (None, &mut [a, b, c, d]) => u32::from_le_bytes([a, b, c, d]),
            (None, _) => 0,
            (Some(data), bytes) => {
                bytes.copy_from_slice(&data.to_le_bytes()[..self.width as usize]);
                0
            }
        }
    }
}

/// Why an access is refused, and where: request 5 of document 02, "Say where it was refused". Fence and translation give
/// the window offset that they were handed, "before fencing for 9, after fencing for the others"; every other refusal
/// has 0.
#[derive(Clone, Copy)]
struct Refused {
    refusal: Refusal,
    offset: u32,
}

impl Refused {
    /// "Any other refusal changes no register, table word or memory byte; its answer holds the code and the interrupt
    /// line, all else zero", which request 5 amends: "shall put the window offset in the answer's address field". The
    /// line is filled in at the end.
    #[inline]
    fn answer(self) -> Answer {
        Answer { code: self.refusal.code(), address: self.offset, ..Answer::default() }
    }
}

impl From<Refusal> for Refused {
    #[inline]
    fn from(refusal: Refusal) -> Refused {
        Refused { refusal, offset: 0 }
    }
}

/// The GMCH between two records.
///
/// ```
/// use mitrophel::reference::{Gmch, TABLE_WORDS};
/// use mitrophel::{Board, Record};
///
/// let (mut memory, mut table) = (vec![0; 8 << 20], [0; TABLE_WORDS]);
/// let mut gmch = Gmch::new(Board::I82810, &mut memory, &mut table, &mut []).expect("8 MiB is a memory");
/// gmch.answer(&Record::io_write(0xCF8, 4, 0x8000_0070));
/// gmch.answer(&Record::io_write(0xCFC, 1, 0xBE));
/// assert!(gmch.smram().locked() && gmch.protected(0xA_0000));
/// ```
pub struct Gmch<'m, O = Unobserved, F = Faultless> {
    memory: &'m mut [u8],
    table: &'m mut Table,
    /// The display cache; empty where the board has none.
    display: &'m mut [u8],
    tom: u32,
    board: Board,
    /// CF8h
    config_address: u32,
    devices: [[u8; 256]; 2],
    /// Bytes of device 1's 2C to 2F that a write has touched, bit 0 for 2C.
    subsystem_written: u8,
    fences: [Fence; 8],
    table_control: u32,
    ring: Ring,
    interrupt_enable: u16,
    interrupt_identity: u16,
    interrupt_mask: u16,
    /// 3000h to 3002h, where the board has them.
    display_registers: [u8; 3],
    observer: O,
    faults: F,
}

impl<'m> Gmch<'m> {
    /// The GMCH at cold start, which zeroes the table; none where the length of memory or of the display cache is
    /// wrong.
    ///
    /// ```
    /// use mitrophel::reference::{Gmch, TABLE_WORDS};
    /// use mitrophel::Board;
    ///
    /// let (mut memory, mut table) = (vec![0; 12 << 20], [0; TABLE_WORDS]);
    /// assert!(Gmch::new(Board::I82810, &mut memory, &mut table, &mut []).is_none());
    /// ```
    pub fn new(board: Board, memory: &'m mut [u8], table: &'m mut Table, display: &'m mut [u8]) -> Option<Self> {
        Gmch::observed(board, memory, table, display, Unobserved)
    }
}

impl<'m, O: Observer> Gmch<'m, O> {
    /// [`Gmch::new`] with an observer, which is told what each record does.
    ///
    /// ```
    /// use mitrophel::reference::{Gmch, Observer, Rule, TABLE_WORDS};
    /// use mitrophel::{Board, Record};
    ///
    /// #[derive(Default)]
    /// struct Last(Option<Rule>);
    /// impl Observer for Last {
    ///     fn routed(&mut self, rule: Rule) {
    ///         self.0 = Some(rule);
    ///     }
    /// }
    /// let (mut memory, mut table) = (vec![0; 8 << 20], [0; TABLE_WORDS]);
    /// let gmch = Gmch::observed(Board::I82810, &mut memory, &mut table, &mut [], Last::default());
    /// let mut gmch = gmch.expect("a memory");
    /// gmch.answer(&Record::read(0x1000, 4, false));
    /// assert_eq!(gmch.observer().0, Some(Rule::Low));
    /// ```
    pub fn observed(
        board: Board,
        memory: &'m mut [u8],
        table: &'m mut Table,
        display: &'m mut [u8],
        observer: O,
    ) -> Option<Self> {
        table.fill(0);
        Gmch::with_faults(board.number(), memory, table, display, observer, Faultless)
    }
}

impl<'m, O: Observer, F: Faults> Gmch<'m, O, F> {
    /// The GMCH at cold start, with faults; none where the board kind or the length of one of its two memories is
    /// wrong. The table must be all zero, as it is at cold start.
    ///
    /// "Board kind 0 is 82810, 1 is DC100." Request 10 of document 02: "Add board kinds 2 (82810) and 3 (DC100)".
    #[cfg_attr(not(feature = "faults"), doc(hidden))]
    pub fn with_faults(
        board: u32,
        memory: &'m mut [u8],
        table: &'m mut Table,
        display: &'m mut [u8],
        observer: O,
        faults: F,
    ) -> Option<Self> {
        let board = Board::from_number(board)?;
        let tom = top_of_memory(board, memory.len(), &faults)?;
        if !is_display_length(board, display.len(), &faults) {
            return None;
        }
        let mut hub = Gmch {
            memory,
            table,
            display,
            tom,
            board,
            config_address: 0,
            devices: [[0; 256]; 2],
            subsystem_written: 0,
            fences: [Fence(0); 8],
            table_control: 0,
            ring: Ring::default(),
            interrupt_enable: 0,
            interrupt_identity: 0,
            interrupt_mask: 0,
            display_registers: [0; 3],
            observer,
            faults,
        };
        hub.restore_defaults();
        Some(hub)
    }

    /// "Reset restores defaults and zeroes the table; memory stays", that of the display cache too. Of a table in main
    /// memory: "A reset leaves those words."
    fn reset(&mut self) {
        let display_registers = self.display_registers;
        if self.wrong(Fault::ResetClearsDisplay) {
            self.clear_display();
        }
        let (smram, table_control, pm_cs) = (self.smram(), self.table_control, self.pm_cs());
        let (pamr, hole) = (self.pamr(), self.hole());
        let in_memory = self.table_in_memory();
        if in_memory && self.wrong(Fault::ResetClearsWords) {
            self.clear_words();
        }
        self.restore_defaults();
        self.put_back_shadow(pamr, hole);
        if in_memory && self.wrong(Fault::ResetKeepsTableControl) {
            self.table_control = table_control;
        }
        if !in_memory && !self.wrong(Fault::ResetKeepsTable) {
            self.table.fill(0);
        }
        if smram.locked() && self.wrong(Fault::ResetKeepsLock) {
            self.put_back(smram);
        }
        if self.wrong(Fault::ResetKeepsPowerState) {
            self.put_back_power(pm_cs);
        }
        if self.wrong(Fault::ResetKeepsDisplayRegisters) {
            self.display_registers = display_registers;
        }
    }

    fn restore_defaults(&mut self) {
        self.config_address = 0;
        let board = match self.board {
            Board::I82810Main if self.wrong(Fault::NewBoardIdsExchanged) => Board::Dc100Main,
            Board::Dc100Main if self.wrong(Fault::NewBoardIdsExchanged) => Board::I82810Main,
            board => board,
        };
        self.devices = [default_bytes(board, 0), default_bytes(board, 1)];
        self.put_wrong_defaults();
        self.subsystem_written = 0;
        self.fences = [Fence(0); 8];
        self.table_control = 0;
        self.ring = Ring::default();
        self.interrupt_enable = 0;
        self.interrupt_identity = 0;
        // "All listed registers default to 0 but 20A8h."
        self.interrupt_mask = 0xFFFF;
        self.display_registers = self.display_defaults();
    }

    /// Carries out one record and answers it.
    ///
    /// ```
    /// use mitrophel::reference::{Gmch, TABLE_WORDS};
    /// use mitrophel::{Board, Record, Refusal};
    ///
    /// let (mut memory, mut table) = (vec![0; 8 << 20], [0; TABLE_WORDS]);
    /// let mut gmch = Gmch::new(Board::I82810, &mut memory, &mut table, &mut []).expect("8 MiB is a memory");
    /// gmch.answer(&Record::write(0x1000, 4, 7, false));
    /// assert_eq!(gmch.answer(&Record::read(0x1000, 4, false)).value, 7);
    /// assert_eq!(gmch.answer(&Record::default()).refusal(), Some(Refusal::Layout));
    /// ```
    // Always: the replay's loop is what speed is measured against, and others call this too.
    #[inline(always)]
    pub fn answer(&mut self, record: &Record) -> Answer {
        let line_before = self.line();
        let mut answer = self.carry_out(record).unwrap_or_else(Refused::answer);
        answer.line = u8::from(self.line());
        if self.wrong(Fault::LineBeforeAccess) {
            answer.line = u8::from(line_before);
        }
        if self.wrong(Fault::RefusalWithoutLine) && answer.code != 0 {
            answer.line = 0;
        }
        self.show_more(record, &mut answer);
        self.observer.answered(record, &answer);
        answer
    }

    /// What only wrong references show of a refused processor access.
    #[inline]
    fn show_more(&self, record: &Record, answer: &mut Answer) {
        let by_processor = || record.kind().is_some_and(Kind::is_processor);
        let offset_shown = match answer.code {
            2 => self.wrong(Fault::Code2ShowsOffset),
            13 => self.wrong(Fault::Code13ShowsOffset),
            _ => false,
        };
        if offset_shown && by_processor() && self.graphics_decodes() {
            let offset = record.address.wrapping_sub(self.window_base());
            answer.address = if offset < self.window_bytes() { offset } else { 0 };
        }
        let named = answer.code != 0 && answer.address != 0;
        if self.wrong(Fault::RefusedWithTarget) && named && by_processor() {
            answer.target = Target::Memory.number();
        }
        if answer.code == Refusal::ForbiddenEntry.code() {
            self.show_forbidden(record, answer);
        }
    }

    /// "Order: 13, 2, then routing".
    #[inline]
    fn carry_out(&mut self, record: &Record) -> Result<Answer, Refused> {
        if self.wrong(Fault::WidthBeforeLayout) && record.kind().is_some_and(Kind::is_access) {
            self.check_width(record)?;
        }
        let kind = record.kind().filter(|_| record.keeps_layout()).ok_or(Refusal::Layout)?;
        if kind.is_access() {
            self.check_width(record)?;
        }
        let access = Access {
            address: record.address,
            width: u32::from(record.width),
            data: kind.is_write().then_some(record.data),
        };
        if self.refuses_ordinary_write(kind, access) {
            return Err(Refusal::ForbiddenEntry.into());
        }
        let management = record.is_management();
        match kind {
            Kind::IoRead | Kind::IoWrite => Ok(self.port(access)),
            Kind::DataRead | Kind::Write => self.addressed(access, Mode::Processor { management, code: false }),
            Kind::CodeRead => self.addressed(access, Mode::Processor { management, code: true }),
            Kind::MasterRead | Kind::MasterWrite => self.addressed(access, Mode::Master),
            Kind::Run => Ok(self.run(record.data)),
            Kind::Reset => {
                self.reset();
                Ok(Answer::default())
            }
        }
    }

    /// Code 2: "width not 1, 2, 4, or the access crosses an aligned 4-byte word".
    #[inline]
    fn check_width(&self, record: &Record) -> Result<(), Refusal> {
        let width = u32::from(record.width);
        let within = record.address % 4 + width <= 4;
        let aligned = !self.wrong(Fault::NaturalAlignmentAsked) || record.address & width.wrapping_sub(1) == 0;
        match width {
            1 | 2 | 4 if within && aligned => Ok(()),
            _ => Err(Refusal::Width),
        }
    }

    /// Whether this replay has the fault; always false in the reference itself.
    #[inline(always)]
    fn wrong(&self, fault: Fault) -> bool {
        self.faults.has(fault)
    }

    /// TOM, or 512 MiB at most in a replay with this fault.
    #[inline(always)]
    fn top_unless(&self, fault: Fault) -> u32 {
        if self.wrong(fault) {
            self.tom.min(512 * MIB)
        } else {
            self.tom
        }
    }

    /// CF8h.
    ///
    /// ```
    /// # use mitrophel::reference::{Gmch, TABLE_WORDS};
    /// # use mitrophel::{Board, Record};
    /// # let (mut memory, mut table) = (vec![0; 8 << 20], [0; TABLE_WORDS]);
    /// # let mut gmch = Gmch::new(Board::I82810, &mut memory, &mut table, &mut []).expect("8 MiB is a memory");
    /// gmch.answer(&Record::io_write(0xCF8, 4, 0x8000_0073));
    /// assert_eq!(gmch.config_address(), 0x8000_0070);
    /// ```
    #[inline]
    pub fn config_address(&self) -> u32 {
        self.config_address
    }

    /// The private translation table. A board whose table is in main memory leaves it all zero; see
    /// [`Gmch::table_word`].
    ///
    /// ```
    /// # use mitrophel::reference::{Gmch, TABLE_WORDS};
    /// # use mitrophel::{Board, Record};
    /// # let (mut memory, mut table) = (vec![0; 8 << 20], [0; TABLE_WORDS]);
    /// # let mut gmch = Gmch::new(Board::I82810, &mut memory, &mut table, &mut []).expect("8 MiB is a memory");
    /// # for (register, data) in [(0x70, 0x40), (0x814, 0xF000_0000), (0x804, 2)] {
    /// #     gmch.answer(&Record::io_write(0xCF8, 4, 0x8000_0000 | register));
    /// #     gmch.answer(&Record::io_write(0xCFC, 4, data));
    /// # }
    /// // The registers are at F0000000h.
    /// gmch.answer(&Record::write(0xF001_0028, 4, 0x10_0001, false));
    /// assert_eq!(gmch.table()[10], 0x10_0001);
    /// ```
    #[inline]
    pub fn table(&self) -> &Table {
        self.table
    }

    /// A fence register; none past number 7.
    ///
    /// ```
    /// # use mitrophel::reference::{Gmch, TABLE_WORDS};
    /// # use mitrophel::{Board, Record};
    /// # let (mut memory, mut table) = (vec![0; 8 << 20], [0; TABLE_WORDS]);
    /// # let mut gmch = Gmch::new(Board::I82810, &mut memory, &mut table, &mut []).expect("8 MiB is a memory");
    /// # use mitrophel::reference::Fence;
    /// assert_eq!(gmch.fence(7), Some(Fence(0)));
    /// assert_eq!(gmch.fence(8), None);
    /// ```
    pub fn fence(&self, number: usize) -> Option<Fence> {
        self.fences.get(number).copied()
    }

    /// TOM, the memory's length.
    ///
    /// ```
    /// # use mitrophel::reference::{Gmch, TABLE_WORDS};
    /// # use mitrophel::{Board, Record};
    /// # let (mut memory, mut table) = (vec![0; 8 << 20], [0; TABLE_WORDS]);
    /// # let mut gmch = Gmch::new(Board::I82810, &mut memory, &mut table, &mut []).expect("8 MiB is a memory");
    /// assert_eq!(gmch.tom(), 8 << 20);
    /// ```
    #[inline]
    pub fn tom(&self) -> u32 {
        self.tom
    }

    /// The board.
    ///
    /// ```
    /// # use mitrophel::reference::{Gmch, TABLE_WORDS};
    /// # use mitrophel::{Board, Record};
    /// # let (mut memory, mut table) = (vec![0; 8 << 20], [0; TABLE_WORDS]);
    /// # let mut gmch = Gmch::new(Board::I82810, &mut memory, &mut table, &mut []).expect("8 MiB is a memory");
    /// assert_eq!(gmch.board(), Board::I82810);
    /// ```
    #[inline]
    pub fn board(&self) -> Board {
        self.board
    }

    /// The display cache lent; empty where the board has none.
    ///
    /// ```
    /// # use mitrophel::reference::{Gmch, TABLE_WORDS};
    /// # use mitrophel::Board;
    /// let (mut memory, mut table, mut display) = (vec![0; 8 << 20], [0; TABLE_WORDS], vec![7; 4 << 20]);
    /// let gmch = Gmch::new(Board::Dc100, &mut memory, &mut table, &mut display).expect("a DC100");
    /// assert!(gmch.display() == [7; 4 << 20]);
    /// ```
    #[inline]
    pub fn display(&self) -> &[u8] {
        self.display
    }

    /// The memory lent.
    ///
    /// ```
    /// # use mitrophel::reference::{Gmch, TABLE_WORDS};
    /// # use mitrophel::{Board, Record};
    /// # let (mut memory, mut table) = (vec![0; 8 << 20], [0; TABLE_WORDS]);
    /// # let mut gmch = Gmch::new(Board::I82810, &mut memory, &mut table, &mut []).expect("8 MiB is a memory");
    /// gmch.answer(&Record::master_write(0x1000, 2, 0x1234));
    /// assert_eq!(gmch.memory()[0x1000..0x1002], [0x34, 0x12]);
    /// ```
    #[inline]
    pub fn memory(&self) -> &[u8] {
        self.memory
    }

    /// The observer.
    ///
    /// ```
    /// use mitrophel::reference::{Gmch, Observer, Touch, TABLE_WORDS};
    /// use mitrophel::{Board, Record};
    ///
    /// #[derive(Default)]
    /// struct Touched(u32);
    /// impl Observer for Touched {
    ///     fn touched(&mut self, touch: Touch) {
    ///         self.0 += touch.width;
    ///     }
    /// }
    /// let (mut memory, mut table) = (vec![0; 8 << 20], [0; TABLE_WORDS]);
    /// let gmch = Gmch::observed(Board::I82810, &mut memory, &mut table, &mut [], Touched::default());
    /// let mut gmch = gmch.expect("a memory");
    /// gmch.answer(&Record::read(0x1000, 4, false));
    /// assert_eq!(std::mem::take(gmch.observer()).0, 4);
    /// ```
    #[inline]
    pub fn observer(&mut self) -> &mut O {
        &mut self.observer
    }
}

/// An access that was answered; the line is filled in at the end.
#[inline]
fn reached(target: Target, address: u32, value: u32) -> Answer {
    Answer { target: target.number(), address, value, ..Answer::default() }
}
