//! Records and answers: 16 bytes each, little-endian, no header
//! (document 01, "Records and answers").
//!
//! Decoding is total: any 16 bytes are a [`Record`], and encoding gives the same bytes back.
//! Whether a record keeps the layout is asked of [`Record::keeps_layout`].

use std::fmt;

/// Bytes of one record, and of one answer.
///
/// ```
/// use mitrophel::record::{encode, RECORD_BYTES};
/// use mitrophel::Record;
///
/// assert_eq!(encode(&[Record::reset(); 3]).len(), 3 * RECORD_BYTES);
/// ```
pub const RECORD_BYTES: usize = 16;

/// "at most 65,535 records"
///
/// ```
/// use mitrophel::record::MAX_RECORDS;
/// use mitrophel::{replay_records, Board, Record};
///
/// let (mut memory, records) = (vec![0; 8 << 20], vec![Record::reset(); MAX_RECORDS + 1]);
/// assert!(replay_records(Board::I82810, &mut memory, &records[1..], &mut []).is_ok());
/// assert!(replay_records(Board::I82810, &mut memory, &records, &mut []).is_err());
/// ```
pub const MAX_RECORDS: usize = 65_535;

/// What a record asks for. The discriminant is byte 0 of the record.
///
/// ```
/// use mitrophel::{Kind, Record};
///
/// let record = Record::code_read(0xA_0000, 4, true);
/// assert_eq!(record.kind(), Some(Kind::CodeRead));
/// assert_eq!(Kind::CodeRead.number(), 4);
/// assert_eq!(Kind::CodeRead.to_string(), "processor code read");
/// assert!(Kind::CodeRead.is_access() && Kind::CodeRead.is_processor() && !Kind::CodeRead.is_write());
/// ```
#[derive(Clone, Copy, Debug, PartialEq, Eq, Hash)]
#[repr(u8)]
pub enum Kind {
    /// An I/O port is read.
    IoRead = 1,
    /// An I/O port is written.
    IoWrite = 2,
    /// The processor reads data.
    DataRead = 3,
    /// The processor reads code.
    CodeRead = 4,
    /// The processor writes.
    Write = 5,
    /// A hub master reads.
    MasterRead = 6,
    /// A hub master writes.
    MasterWrite = 7,
    /// The ring parser runs.
    Run = 8,
    /// Reset.
    Reset = 9,
}

impl Kind {
    /// Every kind, in the order of its number.
    pub const ALL: [Kind; 9] = [
        Kind::IoRead,
        Kind::IoWrite,
        Kind::DataRead,
        Kind::CodeRead,
        Kind::Write,
        Kind::MasterRead,
        Kind::MasterWrite,
        Kind::Run,
        Kind::Reset,
    ];

    /// The kind of a record's byte 0, if it is one.
    ///
    /// ```
    /// # use mitrophel::Kind;
    /// assert_eq!(Kind::from_number(9), Some(Kind::Reset));
    /// assert_eq!(Kind::from_number(0), None);
    /// ```
    #[inline]
    pub const fn from_number(number: u8) -> Option<Kind> {
        Some(match number {
            1 => Kind::IoRead,
            2 => Kind::IoWrite,
            3 => Kind::DataRead,
            4 => Kind::CodeRead,
            5 => Kind::Write,
            6 => Kind::MasterRead,
            7 => Kind::MasterWrite,
            8 => Kind::Run,
            9 => Kind::Reset,
            _ => return None,
        })
    }

    /// The record's byte 0.
    #[inline]
    pub const fn number(self) -> u8 {
        self as u8
    }

    /// Kinds 1 to 7, which have an address and a width.
    ///
    /// ```
    /// # use mitrophel::Kind;
    /// let others: Vec<Kind> = Kind::ALL.into_iter().filter(|kind| !kind.is_access()).collect();
    /// assert_eq!(others, [Kind::Run, Kind::Reset]);
    /// ```
    #[inline]
    pub const fn is_access(self) -> bool {
        !matches!(self, Kind::Run | Kind::Reset)
    }

    /// Kinds 2, 5 and 7, whose data is stored.
    ///
    /// ```
    /// # use mitrophel::Kind;
    /// let writes: Vec<Kind> = Kind::ALL.into_iter().filter(|kind| kind.is_write()).collect();
    /// assert_eq!(writes, [Kind::IoWrite, Kind::Write, Kind::MasterWrite]);
    /// ```
    #[inline]
    pub const fn is_write(self) -> bool {
        matches!(self, Kind::IoWrite | Kind::Write | Kind::MasterWrite)
    }

    /// Kinds 3 to 5: the processor's, which alone may be in management mode.
    ///
    /// ```
    /// # use mitrophel::Kind;
    /// let processor: Vec<Kind> = Kind::ALL.into_iter().filter(|kind| kind.is_processor()).collect();
    /// assert_eq!(processor, [Kind::DataRead, Kind::CodeRead, Kind::Write]);
    /// ```
    #[inline]
    pub const fn is_processor(self) -> bool {
        matches!(self, Kind::DataRead | Kind::CodeRead | Kind::Write)
    }
}

impl fmt::Display for Kind {
    fn fmt(&self, f: &mut fmt::Formatter<'_>) -> fmt::Result {
        f.write_str(match self {
            Kind::IoRead => "I/O read",
            Kind::IoWrite => "I/O write",
            Kind::DataRead => "processor data read",
            Kind::CodeRead => "processor code read",
            Kind::Write => "processor write",
            Kind::MasterRead => "hub master read",
            Kind::MasterWrite => "hub master write",
            Kind::Run => "parser run",
            Kind::Reset => "reset",
        })
    }
}

/// One record, good or bad, field by field.
///
/// ```
/// use mitrophel::Record;
///
/// let records = [
///     Record::io_write(0xCF8, 4, 0x8000_0070), // select SMRAM
///     Record::io_read(0xCFC, 1),
///     Record::write(0xA_0000, 4, 7, true), // in management mode
///     Record::read(0xA_0000, 4, false),
///     Record::code_read(0xA_0000, 2, false),
///     Record::master_write(0x1000, 4, 7),
///     Record::master_read(0x1000, 4),
///     Record::run(100),
///     Record::reset(),
/// ];
/// assert!(records.iter().all(Record::keeps_layout));
/// assert_eq!(records[2].to_string(), "processor write at A0000h, width 4, data 7h, management mode");
/// ```
#[derive(Clone, Copy, Debug, Default, PartialEq, Eq, Hash)]
pub struct Record {
    /// Byte 0; see [`Kind`].
    pub kind: u8,
    /// Byte 1: bytes accessed.
    pub width: u8,
    /// Byte 2: bit 0 is management mode.
    pub flags: u8,
    /// Byte 3: zero in a record that keeps the layout.
    pub reserved: u8,
    /// Bytes 4-7.
    pub address: u32,
    /// Bytes 8-11: what a write stores, or a run's budget.
    pub data: u32,
    /// Bytes 12-15: zero in a record that keeps the layout.
    pub tail: u32,
}

impl Record {
    /// Management mode, the only flag.
    ///
    /// ```
    /// # use mitrophel::Record;
    /// assert_eq!(Record::read(0, 4, true).flags, Record::MANAGEMENT);
    /// ```
    pub const MANAGEMENT: u8 = 1;

    const fn access(kind: Kind, width: u8, management: bool, address: u32, data: u32) -> Record {
        Record { kind: kind as u8, width, flags: management as u8, reserved: 0, address, data, tail: 0 }
    }

    /// A read of an I/O port (kind 1).
    pub const fn io_read(port: u32, width: u8) -> Record {
        Record::access(Kind::IoRead, width, false, port, 0)
    }

    /// A write of an I/O port (kind 2).
    pub const fn io_write(port: u32, width: u8, data: u32) -> Record {
        Record::access(Kind::IoWrite, width, false, port, data)
    }

    /// A processor data read (kind 3).
    pub const fn read(address: u32, width: u8, management: bool) -> Record {
        Record::access(Kind::DataRead, width, management, address, 0)
    }

    /// A processor code read (kind 4).
    pub const fn code_read(address: u32, width: u8, management: bool) -> Record {
        Record::access(Kind::CodeRead, width, management, address, 0)
    }

    /// A processor write (kind 5).
    pub const fn write(address: u32, width: u8, data: u32, management: bool) -> Record {
        Record::access(Kind::Write, width, management, address, data)
    }

    /// A hub master's read (kind 6).
    pub const fn master_read(address: u32, width: u8) -> Record {
        Record::access(Kind::MasterRead, width, false, address, 0)
    }

    /// A hub master's write (kind 7).
    pub const fn master_write(address: u32, width: u8, data: u32) -> Record {
        Record::access(Kind::MasterWrite, width, false, address, data)
    }

    /// A parser run of at most `budget` steps (kind 8).
    pub const fn run(budget: u32) -> Record {
        Record::access(Kind::Run, 0, false, 0, budget)
    }

    /// A reset (kind 9).
    pub const fn reset() -> Record {
        Record::access(Kind::Reset, 0, false, 0, 0)
    }

    /// The fields of any 16 bytes.
    ///
    /// ```
    /// # use mitrophel::Record;
    /// let record = Record::from_bytes(&[3, 4, 0, 0, 0x00, 0x10, 0, 0, 0, 0, 0, 0, 0, 0, 0, 0]);
    /// assert_eq!(record, Record::read(0x1000, 4, false));
    /// ```
    #[inline]
    pub const fn from_bytes(bytes: &[u8; RECORD_BYTES]) -> Record {
        let [kind, width, flags, reserved, a0, a1, a2, a3, d0, d1, d2, d3, t0, t1, t2, t3] = *bytes;
        Record {
            kind,
            width,
            flags,
            reserved,
            address: u32::from_le_bytes([a0, a1, a2, a3]),
            data: u32::from_le_bytes([d0, d1, d2, d3]),
            tail: u32::from_le_bytes([t0, t1, t2, t3]),
        }
    }

    /// The 16 bytes of a record; the inverse of [`Record::from_bytes`].
    ///
    /// ```
    /// # use mitrophel::Record;
    /// assert_eq!(Record::run(0x1234).to_bytes(), [8, 0, 0, 0, 0, 0, 0, 0, 0x34, 0x12, 0, 0, 0, 0, 0, 0]);
    /// ```
    #[inline]
    pub const fn to_bytes(self) -> [u8; RECORD_BYTES] {
        let [a0, a1, a2, a3] = self.address.to_le_bytes();
        let [d0, d1, d2, d3] = self.data.to_le_bytes();
        let [t0, t1, t2, t3] = self.tail.to_le_bytes();
        [self.kind, self.width, self.flags, self.reserved, a0, a1, a2, a3, d0, d1, d2, d3, t0, t1, t2, t3]
    }

    /// The kind, if byte 0 names one.
    ///
    /// ```
    /// # use mitrophel::{Kind, Record};
    /// assert_eq!(Record::run(1).kind(), Some(Kind::Run));
    /// assert_eq!(Record::default().kind(), None);
    /// ```
    #[inline]
    pub const fn kind(&self) -> Option<Kind> {
        Kind::from_number(self.kind)
    }

    /// Whether flag bit 0 is set.
    #[inline]
    pub const fn is_management(&self) -> bool {
        self.flags & Record::MANAGEMENT != 0
    }

    /// Whether the record keeps the layout; one that does not is refused with code 13. The width of
    /// kinds 1 to 7 is no part of it: code 2 is for that.
    ///
    /// ```
    /// # use mitrophel::Record;
    /// assert!(Record::read(0, 3, false).keeps_layout());
    /// assert!(!Record { reserved: 1, ..Record::read(0, 4, false) }.keeps_layout());
    /// assert!(!Record::io_read(0x1_0000, 4).keeps_layout());
    /// ```
    #[inline]
    pub const fn keeps_layout(&self) -> bool {
        let Some(kind) = self.kind() else { return false };
        let flags_free = if kind.is_processor() { Record::MANAGEMENT } else { 0 };
        if self.flags & !flags_free != 0 || self.reserved != 0 || self.tail != 0 {
            return false;
        }
        match kind {
            Kind::IoRead => self.data == 0 && self.address <= 0xFFFF,
            Kind::IoWrite => self.address <= 0xFFFF,
            Kind::DataRead | Kind::CodeRead | Kind::MasterRead => self.data == 0,
            Kind::Write | Kind::MasterWrite => true,
            Kind::Run => self.width == 0 && self.address == 0,
            Kind::Reset => self.width == 0 && self.address == 0 && self.data == 0,
        }
    }
}

impl fmt::Display for Record {
    fn fmt(&self, f: &mut fmt::Formatter<'_>) -> fmt::Result {
        let Some(kind) = self.kind() else {
            return write!(f, "no kind {}", self.kind);
        };
        match kind {
            Kind::Run => write!(f, "{kind}, budget {}", self.data),
            Kind::Reset => write!(f, "{kind}"),
            _ => {
                write!(f, "{kind} at {:X}h, width {}", self.address, self.width)?;
                if kind.is_write() {
                    write!(f, ", data {:X}h", self.data)?;
                }
                if self.is_management() {
                    f.write_str(", management mode")?;
                }
                Ok(())
            }
        }
    }
}

/// Where an access went. The discriminant is byte 1 of the answer.
///
/// ```
/// use mitrophel::{replay_records, Board, Record, Target};
///
/// let mut memory = vec![0; 8 << 20];
/// let answers = replay_records(Board::I82810, &mut memory, &[Record::read(0xFFFF_0000, 4, false)], &mut [])?;
/// assert_eq!(answers[0].target(), Some(Target::Hub));
/// assert_eq!(Target::Hub.number(), 3);
/// assert_eq!(Target::ALL.map(Target::number), [0, 1, 2, 3, 4, 5, 6]);
/// assert_eq!(Target::MemoryMapped.to_string(), "memory-mapped register");
/// # Ok::<(), mitrophel::WrongArgument>(())
/// ```
#[derive(Clone, Copy, Debug, PartialEq, Eq, Hash)]
#[repr(u8)]
pub enum Target {
    /// No target: a refusal, a parser run or a reset.
    None = 0,
    /// Main memory; the answer's address is the final physical one.
    Memory = 1,
    /// CF8h, or a configuration register: device x 256 + register.
    Register = 2,
    /// Passed on to the hub interface; the answer's address is the record's.
    Hub = 3,
    /// The VGA range; the answer's address is the offset from A0000h.
    Vga = 4,
    /// A memory-mapped register; the answer's address is its offset.
    MemoryMapped = 5,
    /// The display cache of a DC100; the answer's address is the final one in it.
    DisplayCache = 6,
}

impl Target {
    /// Every target, in the order of its number.
    pub const ALL: [Target; 7] = [
        Target::None,
        Target::Memory,
        Target::Register,
        Target::Hub,
        Target::Vga,
        Target::MemoryMapped,
        Target::DisplayCache,
    ];

    /// The target of an answer's byte 1, if it is one.
    ///
    /// ```
    /// # use mitrophel::Target;
    /// assert_eq!(Target::from_number(4), Some(Target::Vga));
    /// assert_eq!(Target::from_number(7), None);
    /// ```
    #[inline]
    pub const fn from_number(number: u8) -> Option<Target> {
        Some(match number {
            0 => Target::None,
            1 => Target::Memory,
            2 => Target::Register,
            3 => Target::Hub,
            4 => Target::Vga,
            5 => Target::MemoryMapped,
            6 => Target::DisplayCache,
            _ => return None,
        })
    }

    /// The answer's byte 1.
    #[inline]
    pub const fn number(self) -> u8 {
        self as u8
    }
}

impl fmt::Display for Target {
    fn fmt(&self, f: &mut fmt::Formatter<'_>) -> fmt::Result {
        f.write_str(match self {
            Target::None => "none",
            Target::Memory => "memory",
            Target::Register => "register",
            Target::Hub => "hub",
            Target::Vga => "VGA",
            Target::MemoryMapped => "memory-mapped register",
            Target::DisplayCache => "display cache",
        })
    }
}

/// Why a record was refused: an answer's code, which is the discriminant. Code 1 is the call's own; see
/// [`WrongArgument`](crate::WrongArgument).
///
/// ```
/// use mitrophel::{replay_records, Board, Record, Refusal};
///
/// let mut memory = vec![0; 8 << 20];
/// let answers = replay_records(Board::I82810, &mut memory, &[Record::read(0x1002, 4, false)], &mut [])?;
/// assert_eq!(answers[0].refusal(), Some(Refusal::Width));
/// assert_eq!(Refusal::Width.code(), 2);
/// assert_eq!(Refusal::PageProtected.to_string(), "refused 6: entry's page is protected");
/// # Ok::<(), mitrophel::WrongArgument>(())
/// ```
#[derive(Clone, Copy, Debug, PartialEq, Eq, Hash)]
#[repr(u8)]
pub enum Refusal {
    /// The call's own result; never in an answer.
    Arguments = 1,
    /// Width not 1, 2 or 4, or the access crosses an aligned word.
    Width = 2,
    /// Translation off.
    TranslationOff = 3,
    /// Entry not valid.
    EntryNotValid = 4,
    /// Entry type 10, or type 01 where there is no display cache or it is off.
    EntryType = 5,
    /// Entry's page protected. Also a table word in protected memory, where the table is in main memory.
    PageProtected = 6,
    /// Entry's page at or above TOM or, with type 01, at or above 4 MiB. Also a table word at or above TOM, where the
    /// table is in main memory.
    PageAboveMemory = 7,
    /// Parser address at or above the window size.
    OutsideWindow = 8,
    /// The matching fence is ill-formed.
    FenceIllFormed = 9,
    /// Access touches a listed memory-mapped register without being exactly it.
    NotExactlyRegister = 10,
    /// Ring head or tail offset not below the ring length.
    RingOffset = 11,
    /// Unknown instruction.
    UnknownInstruction = 12,
    /// Record breaks the layout.
    Layout = 13,
    /// With the lock set, a table write would store a valid entry of type 00 or 11 whose page is protected. Nothing is
    /// stored.
    ForbiddenEntry = 16,
}

impl Refusal {
    /// Every refusal, in the order of its code.
    pub const ALL: [Refusal; 14] = [
        Refusal::Arguments,
        Refusal::Width,
        Refusal::TranslationOff,
        Refusal::EntryNotValid,
        Refusal::EntryType,
        Refusal::PageProtected,
        Refusal::PageAboveMemory,
        Refusal::OutsideWindow,
        Refusal::FenceIllFormed,
        Refusal::NotExactlyRegister,
        Refusal::RingOffset,
        Refusal::UnknownInstruction,
        Refusal::Layout,
        Refusal::ForbiddenEntry,
    ];

    /// The refusal of a code; none for 0 and for numbers that are no code.
    ///
    /// ```
    /// # use mitrophel::Refusal;
    /// assert_eq!(Refusal::from_code(13), Some(Refusal::Layout));
    /// assert_eq!(Refusal::from_code(0), None);
    /// ```
    #[inline]
    pub const fn from_code(code: u8) -> Option<Refusal> {
        Some(match code {
            1 => Refusal::Arguments,
            2 => Refusal::Width,
            3 => Refusal::TranslationOff,
            4 => Refusal::EntryNotValid,
            5 => Refusal::EntryType,
            6 => Refusal::PageProtected,
            7 => Refusal::PageAboveMemory,
            8 => Refusal::OutsideWindow,
            9 => Refusal::FenceIllFormed,
            10 => Refusal::NotExactlyRegister,
            11 => Refusal::RingOffset,
            12 => Refusal::UnknownInstruction,
            13 => Refusal::Layout,
            16 => Refusal::ForbiddenEntry,
            _ => return None,
        })
    }

    /// The number of document 01's table of codes, or of the request that adds it.
    #[inline]
    pub const fn code(self) -> u8 {
        self as u8
    }

    /// The reason in words, without the number.
    ///
    /// ```
    /// # use mitrophel::Refusal;
    /// assert_eq!(Refusal::EntryNotValid.reason(), "entry is not valid");
    /// ```
    pub const fn reason(self) -> &'static str {
        match self {
            Refusal::Arguments => "board kind, memory length, record length, answer length or display length is wrong",
            Refusal::Width => "width is not 1, 2 or 4, or the access crosses an aligned 4-byte word",
            Refusal::TranslationOff => "translation is off",
            Refusal::EntryNotValid => "entry is not valid",
            Refusal::EntryType => "entry's type is 01 or 10",
            Refusal::PageProtected => "entry's page is protected",
            Refusal::PageAboveMemory => "entry's page is at or above the top of its memory",
            Refusal::OutsideWindow => "parser address is at or above the window size",
            Refusal::FenceIllFormed => "the matching fence is ill-formed",
            Refusal::NotExactlyRegister => "access touches a listed memory-mapped register without being exactly it",
            Refusal::RingOffset => "ring head or tail offset is not below the ring length",
            Refusal::UnknownInstruction => "unknown instruction",
            Refusal::Layout => "record breaks the layout",
            Refusal::ForbiddenEntry => "SMRAM is locked and the entry's page is protected",
        }
    }
}

impl fmt::Display for Refusal {
    fn fmt(&self, f: &mut fmt::Formatter<'_>) -> fmt::Result {
        write!(f, "refused {}: {}", self.code(), self.reason())
    }
}

impl std::error::Error for Refusal {}

/// One answer, field by field.
///
/// ```
/// use mitrophel::{replay_records, Answer, Board, Record};
///
/// let mut memory = vec![0; 8 << 20];
/// memory[0x1000] = 0x12;
/// let answers = replay_records(Board::I82810, &mut memory, &[Record::read(0x1000, 1, false)], &mut [])?;
/// assert_eq!(answers[0], Answer { target: 1, address: 0x1000, value: 0x12, ..Answer::default() });
/// assert_eq!(answers[0].to_string(), "memory at 1000h, value 12h");
/// # Ok::<(), mitrophel::WrongArgument>(())
/// ```
///
/// An access through the window that is refused says where. The window is at C0000000h, and entry 18 is not valid:
///
/// ```
/// # use mitrophel::{replay_records, Answer, Board, Record};
/// let set = |(at, data)| [Record::io_write(0xCF8, 4, 0x8000_0000_u32 | at), Record::io_write(0xCFC, 4, data)];
/// let mut records = [(0x70, 0x40), (0x810, 0xC000_0000), (0x814, 0xF000_0000), (0x804, 2)].map(set).concat();
/// records.push(Record::write(0xF000_2020, 4, 1, false)); // translation on
/// records.push(Record::read(0xC001_2ABC, 4, false));
/// let answers = replay_records(Board::I82810, &mut vec![0; 8 << 20], &records, &mut [])?;
/// assert_eq!(answers[9], Answer { code: 4, address: 0x1_2ABC, ..Answer::default() });
/// # Ok::<(), mitrophel::WrongArgument>(())
/// ```
#[derive(Clone, Copy, Debug, Default, PartialEq, Eq, Hash)]
pub struct Answer {
    /// Byte 0: 0, or the code of a [`Refusal`].
    pub code: u8,
    /// Byte 1; see [`Target`].
    pub target: u8,
    /// Byte 2: the interrupt line after the access, 0 or 1.
    pub line: u8,
    /// Byte 3: zero.
    pub reserved: u8,
    /// Bytes 4-7: where the access went, or the ring's head register after a run. A refused access has zero here,
    /// except that an access through the window refused with 3 to 7 or 9 has its byte offset in the window: for 9 the
    /// one before fencing, for the others the one after.
    pub address: u32,
    /// Bytes 8-11: the value read, zero-extended.
    pub value: u32,
    /// Bytes 12-15: steps that a run completed.
    pub count: u32,
}

impl Answer {
    /// The fields of any 16 bytes.
    ///
    /// ```
    /// # use mitrophel::{Answer, Target};
    /// let answer = Answer::from_bytes(&[0, 1, 0, 0, 0x00, 0x10, 0, 0, 0x12, 0, 0, 0, 0, 0, 0, 0]);
    /// assert_eq!((answer.target(), answer.address, answer.value), (Some(Target::Memory), 0x1000, 0x12));
    /// ```
    #[inline]
    pub const fn from_bytes(bytes: &[u8; RECORD_BYTES]) -> Answer {
        let [code, target, line, reserved, a0, a1, a2, a3, v0, v1, v2, v3, c0, c1, c2, c3] = *bytes;
        Answer {
            code,
            target,
            line,
            reserved,
            address: u32::from_le_bytes([a0, a1, a2, a3]),
            value: u32::from_le_bytes([v0, v1, v2, v3]),
            count: u32::from_le_bytes([c0, c1, c2, c3]),
        }
    }

    /// The 16 bytes of an answer; the inverse of [`Answer::from_bytes`].
    ///
    /// ```
    /// # use mitrophel::Answer;
    /// let answer = Answer { count: 3, ..Answer::default() };
    /// assert_eq!(answer.to_bytes()[12..], [3, 0, 0, 0]);
    /// ```
    #[inline]
    pub const fn to_bytes(self) -> [u8; RECORD_BYTES] {
        let [a0, a1, a2, a3] = self.address.to_le_bytes();
        let [v0, v1, v2, v3] = self.value.to_le_bytes();
        let [c0, c1, c2, c3] = self.count.to_le_bytes();
        [self.code, self.target, self.line, self.reserved, a0, a1, a2, a3, v0, v1, v2, v3, c0, c1, c2, c3]
    }

    /// The refusal, or none where the record was answered with code 0.
    ///
    /// ```
    /// # use mitrophel::{Answer, Refusal};
    /// assert_eq!(Answer { code: 6, ..Answer::default() }.refusal(), Some(Refusal::PageProtected));
    /// assert_eq!(Answer::default().refusal(), None);
    /// ```
    #[inline]
    pub const fn refusal(&self) -> Option<Refusal> {
        Refusal::from_code(self.code)
    }

    /// The target, if byte 1 names one.
    ///
    /// ```
    /// # use mitrophel::{Answer, Target};
    /// assert_eq!(Answer { target: 2, ..Answer::default() }.target(), Some(Target::Register));
    /// assert_eq!(Answer { target: 9, ..Answer::default() }.target(), None);
    /// ```
    #[inline]
    pub const fn target(&self) -> Option<Target> {
        Target::from_number(self.target)
    }
}

impl fmt::Display for Answer {
    fn fmt(&self, f: &mut fmt::Formatter<'_>) -> fmt::Result {
        match (self.code, self.refusal(), self.target()) {
            (0, _, Some(target)) => write!(f, "{target} at {:X}h, value {:X}h", self.address, self.value)?,
            (0, _, None) => write!(f, "no target {}", self.target)?,
            (_, Some(refusal), _) => write!(f, "{refusal}")?,
            (code, None, _) => write!(f, "no code {code}")?,
        }
        // A window offset, or a run's head.
        if self.code != 0 && self.address != 0 {
            write!(f, ", address {:X}h", self.address)?;
        }
        if self.count != 0 {
            write!(f, ", count {}", self.count)?;
        }
        if self.line != 0 {
            f.write_str(", interrupt line up")?;
        }
        Ok(())
    }
}

/// The bytes of a list of records, as [`crate::call::replay`] takes them.
///
/// ```
/// use mitrophel::{record, Record};
///
/// let records = [Record::run(1), Record::reset()];
/// assert!(record::decode(&record::encode(&records)).eq(records));
/// ```
pub fn encode(records: &[Record]) -> Vec<u8> {
    records.iter().flat_map(|record| record.to_bytes()).collect()
}

/// The records of a byte string. Up to 15 bytes past the last whole record are left out.
///
/// ```
/// use mitrophel::record;
///
/// assert_eq!(record::decode(&[0; 40]).len(), 2);
/// ```
pub fn decode(bytes: &[u8]) -> impl ExactSizeIterator<Item = Record> + '_ {
    bytes.as_chunks::<RECORD_BYTES>().0.iter().map(Record::from_bytes)
}

/// The answers of a byte string. Up to 15 bytes past the last whole answer are left out.
///
/// ```
/// use mitrophel::{record, replay, Board, Record};
///
/// let records = record::encode(&[Record::run(1), Record::read(0, 4, false)]);
/// let (mut memory, mut answers) = (vec![7; 8 << 20], vec![0; records.len()]);
/// replay(Board::I82810, &mut memory, &records, &mut answers, &mut [])?;
/// let values: Vec<u32> = record::decode_answers(&answers).map(|answer| answer.value).collect();
/// assert_eq!(values, [0, 0x0707_0707]);
/// # Ok::<(), mitrophel::WrongArgument>(())
/// ```
pub fn decode_answers(bytes: &[u8]) -> impl ExactSizeIterator<Item = Answer> + '_ {
    bytes.as_chunks::<RECORD_BYTES>().0.iter().map(Answer::from_bytes)
}

#[cfg(test)]
mod tests {
    use super::*;

    /// Sixteen bytes that are all different.
    const BYTES: [u8; 16] = [1, 2, 3, 4, 5, 6, 7, 8, 9, 10, 11, 12, 13, 14, 15, 16];

    /// "Each is 16 bytes, little-endian": byte 0 kind, 1 width, 2 flags, 4-7 address, 8-11 data.
    #[test]
    fn any_sixteen_bytes_decode_and_encode_to_the_same() {
        for shift in 0..=u8::MAX {
            let bytes = BYTES.map(|byte| byte.wrapping_mul(37).wrapping_add(shift));
            assert_eq!(Record::from_bytes(&bytes).to_bytes(), bytes);
            assert_eq!(Answer::from_bytes(&bytes).to_bytes(), bytes);
        }
        let record = Record::from_bytes(&BYTES);
        assert_eq!((record.kind, record.width, record.flags, record.reserved), (1, 2, 3, 4));
        assert_eq!((record.address, record.data, record.tail), (0x0807_0605, 0x0C0B_0A09, 0x100F_0E0D));
    }

    #[test]
    fn every_number_names_its_kind_target_and_refusal() {
        for number in 0..=u8::MAX {
            assert_eq!(Kind::from_number(number).map(Kind::number), (1..=9).contains(&number).then_some(number));
            assert_eq!(Target::from_number(number).map(Target::number), (number <= 6).then_some(number));
            assert_eq!(
                Refusal::from_code(number).map(Refusal::code),
                (matches!(number, 1..=13 | 16)).then_some(number)
            );
        }
        assert_eq!(Kind::ALL.map(Kind::number), [1, 2, 3, 4, 5, 6, 7, 8, 9]);
        assert_eq!(Target::ALL.map(Target::number), [0, 1, 2, 3, 4, 5, 6]);
        assert_eq!(Refusal::ALL.map(Refusal::code), [1, 2, 3, 4, 5, 6, 7, 8, 9, 10, 11, 12, 13, 16]);
    }

    /// "Kinds: 1 I/O read, ... 9 reset", and each constructor keeps the layout.
    #[test]
    fn each_constructor_makes_its_kind_and_keeps_the_layout() {
        let made = [
            Record::io_read(0xCFC, 4),
            Record::io_write(0xCF8, 4, 0x8000_0000),
            Record::read(0x1000, 4, true),
            Record::code_read(0x1000, 2, true),
            Record::write(0x1000, 1, 0xFFFF_FFFF, true),
            Record::master_read(0x1000, 4),
            Record::master_write(0x1000, 4, 7),
            Record::run(9),
            Record::reset(),
        ];
        for (record, kind) in made.iter().zip(Kind::ALL) {
            assert_eq!(record.kind(), Some(kind));
            assert!(record.keeps_layout(), "{record}");
        }
        assert_eq!(decode(&encode(&made)).collect::<Vec<_>>(), made);
    }

    /// Code 13: "record breaks the layout above".
    #[test]
    fn every_broken_field_breaks_the_layout() {
        let read = Record::read(0, 4, false);
        let broken = [
            Record { kind: 0, ..read },
            Record { kind: 10, ..read },
            Record { flags: 2, ..read },
            Record { flags: 1, ..Record::io_read(0, 1) },
            Record { flags: 1, ..Record::master_read(0, 1) },
            Record { flags: 1, ..Record::run(0) },
            Record { reserved: 1, ..read },
            Record { tail: 1 << 31, ..read },
            Record { data: 1, ..read },
            Record { data: 1, ..Record::io_read(0, 1) },
            Record { data: 1, ..Record::code_read(0, 1, false) },
            Record { data: 1, ..Record::master_read(0, 1) },
            Record { data: 1, ..Record::reset() },
            Record { width: 1, ..Record::reset() },
            Record { width: 4, ..Record::run(1) },
            Record { address: 4, ..Record::run(1) },
            Record { address: 1 << 31, ..Record::reset() },
            Record::io_read(65_536, 1),
            Record::io_write(65_536, 1, 0),
        ];
        for record in broken {
            assert!(!record.keeps_layout(), "{record:?}");
        }
    }

    #[test]
    fn a_part_of_a_record_at_the_end_is_left_out() {
        assert_eq!(decode(&[0; 31]).len(), 1);
        assert_eq!(decode_answers(&[0; 15]).len(), 0);
    }

    #[test]
    fn words_say_what_was_refused() {
        assert_eq!(Refusal::PageProtected.to_string(), "refused 6: entry's page is protected");
        assert_eq!(Answer { code: 14, ..Answer::default() }.to_string(), "no code 14");
        let refused = Answer { code: 4, address: 0x1_2ABC, ..Answer::default() };
        assert_eq!(refused.to_string(), "refused 4: entry is not valid, address 12ABCh");
        assert_eq!(
            Answer { target: 1, address: 0x9FABC, value: 0x12, line: 1, ..Answer::default() }.to_string(),
            "memory at 9FABCh, value 12h, interrupt line up"
        );
    }
}
