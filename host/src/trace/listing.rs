//! Records turned into a text trace. [`assemble`](super::assemble) gives the same bytes back for every
//! list of records, unless values of protected memory are left out.

use super::follow::{Follower, Ground, Guard};
use super::names::{self, Bases};
use super::{numbers, words};
use crate::record::{self, Kind, Record};
use crate::reference::{Fence, Smram};
use std::io::{self, Write};

/// Where a comment starts, if the statement leaves room.
const COMMENT_COLUMN: usize = 44;

/// One record as a statement of a trace, without macros.
///
/// ```
/// use mitrophel::{trace::{self, names::Bases}, Record};
///
/// let record = Record::write(0xF000_2000, 4, 0x21, false);
/// assert_eq!(trace::statement(&record, Bases::default()), "write4 F0002000h 00000021h");
/// let bases = Bases { registers: 0xF000_0000, ..Bases::default() };
/// assert_eq!(trace::statement(&record, bases), "write FENCE0 00000021h");
/// ```
pub fn statement(record: &Record, bases: Bases) -> String {
    let Some(kind) = record.kind().filter(|_| record.keeps_layout()) else {
        return raw(record);
    };
    let management = if record.is_management() { "smm " } else { "" };
    let width = record.width;
    let data = || numbers::data(record.data, width);
    match kind {
        Kind::IoRead => format!("in{width} {}", names::port(record.address)),
        Kind::IoWrite => format!("out{width} {} {}", names::port(record.address), data()),
        Kind::DataRead => format!("{management}read{}", place(record, bases)),
        Kind::CodeRead => format!("{management}fetch{}", place(record, bases)),
        Kind::Write => format!("{management}write{} {}", place(record, bases), data()),
        Kind::MasterRead => format!("master read{}", place(record, bases)),
        Kind::MasterWrite => format!("master write{} {}", place(record, bases), data()),
        Kind::Run => format!("run {}", record.data),
        Kind::Reset => "reset".to_string(),
    }
}

/// What stands for a value of protected memory. It is no data for [`assemble`](super::assemble).
pub const REDACTED: &str = "\u{B7}\u{B7}";

/// The same without the data of a write.
///
/// ```
/// use mitrophel::{trace::{listing, names::Bases}, Record};
///
/// let record = Record::write(0xA_0000, 4, 0x4B45_5921, true);
/// assert_eq!(listing::redacted(&record, Bases::default()), "smm write4 A0000h \u{B7}\u{B7}");
/// ```
pub fn redacted(record: &Record, bases: Bases) -> String {
    let statement = statement(record, bases);
    let data = numbers::data(record.data, record.width);
    if !record.kind().is_some_and(Kind::is_write) {
        return statement;
    }
    if !record.keeps_layout() {
        // Bytes 8 to 11 are the data.
        let words = statement.split(' ').enumerate();
        return words
            .map(|(at, word)| if (9..13).contains(&at) { REDACTED } else { word })
            .collect::<Vec<_>>()
            .join(" ");
    }
    match statement.strip_suffix(&data) {
        Some(start) => format!("{start}{REDACTED}"),
        None => statement,
    }
}

/// Any sixteen bytes.
fn raw(record: &Record) -> String {
    let bytes = record.to_bytes().map(|byte| format!(" {byte:02X}"));
    format!("raw{}", bytes.concat())
}

/// The width and the address of an access: `4 67FFFCh`, or ` FENCE0`, whose width goes without saying.
fn place(record: &Record, bases: Bases) -> String {
    let (address, width) = (record.address, record.width);
    if let Some(offset) = bases.register_offset(address) {
        return match names::mapped_at(offset) {
            Some((name, at, bytes)) if at == offset && bytes == width => format!(" {name}"),
            Some((name, at, _)) if at == offset => format!("{width} {name}"),
            _ => format!("{width} MMIO+{offset:X}h"),
        };
    }
    match bases.window_offset(address) {
        Some(offset) => format!("{width} WINDOW+{offset:X}h"),
        None => format!("{width} {address:X}h"),
    }
}

/// Writes a list of records as a trace.
///
/// ```
/// use mitrophel::{record, trace, Record};
///
/// let records = record::encode(&[Record::io_write(0xCF8, 4, 0x8000_0070), Record::io_write(0xCFC, 1, 0x40)]);
/// let mut text = Vec::new();
/// trace::Lister { macros: true, comments: false, show_protected: false }.write(&records, &mut text)?;
/// assert_eq!(text, b"config write dev0.SMRAM 40h\n");
/// # Ok::<(), std::io::Error>(())
/// ```
pub struct Lister {
    /// Whether several records may become one line.
    pub macros: bool,
    /// Whether values are explained in comments.
    pub comments: bool,
    /// Whether values are shown that are written to places which SMRAM protects at some time of the list
    /// ([`Guard`]). They are [`REDACTED`] otherwise, and the trace does not give the same bytes back.
    pub show_protected: bool,
}

impl Lister {
    /// The trace of these records, whose length is a multiple of 16.
    ///
    /// # Errors
    ///
    /// Those of the writer.
    pub fn write(&self, bytes: &[u8], out: &mut impl Write) -> io::Result<()> {
        let records: Vec<Record> = record::decode(bytes).collect();
        let mut ground = Ground::new();
        let mut follower = Follower::new(&mut ground);
        let guard = if self.show_protected { Guard::default() } else { Guard::of(&records) };
        let mut rest = records.as_slice();
        while let Some(record) = rest.first() {
            let bases = follower.bases();
            let line = if guard.hides(record, &follower) {
                Line { taken: 1, text: redacted(record, bases), comment: None }
            } else {
                let whole = || Line { taken: 1, text: statement(record, bases), comment: comment(record, bases) };
                let shown = |record: &Record| !guard.hides(record, &follower);
                let folded = if self.macros { folded(rest, bases, shown) } else { None };
                folded.unwrap_or_else(whole)
            };
            self.line(&line, out)?;
            let (taken, left) = rest.split_at(line.taken);
            taken.iter().for_each(|record| follower.note(record));
            rest = left;
        }
        Ok(())
    }

    fn line(&self, line: &Line, out: &mut impl Write) -> io::Result<()> {
        match &line.comment {
            Some(comment) if self.comments => writeln!(out, "{:<COMMENT_COLUMN$} # {comment}", line.text),
            _ => writeln!(out, "{}", line.text),
        }
    }
}

/// A line, and how many records it stands for.
struct Line {
    taken: usize,
    text: String,
    comment: Option<String>,
}

/// The macro that the next records are, if they are one. It has those alone whose data is shown.
fn folded(records: &[Record], bases: Bases, shown: impl Fn(&Record) -> bool) -> Option<Line> {
    config(records).or_else(|| entries(records, bases, shown))
}

/// `config`: CF8h, then CFCh to CFFh.
fn config(records: &[Record]) -> Option<Line> {
    let [select, access, ..] = records else { return None };
    let (device, word) = selection(select)?;
    if !access.keeps_layout() || !(0xCFC..=0xCFF).contains(&access.address) {
        return None;
    }
    let at = word + access.address % 4;
    let (name, whole) = names::config_register(device, at, access.width);
    let width = if whole { String::new() } else { access.width.to_string() };
    let text = match access.kind()? {
        Kind::IoRead => format!("config read{width} {name}"),
        Kind::IoWrite => format!("config write{width} {name} {}", numbers::data(access.data, access.width)),
        _ => return None,
    };
    let fields = match (access.kind()?, device) {
        (Kind::IoWrite, 0) if name == "dev0.SMRAM" => Some(words::smram(Smram(access.data as u8 & !1))),
        (Kind::IoWrite, 0) => words::shadow(at, access.width, access.data),
        (Kind::IoWrite, 1) => words::power(at, access.width, access.data),
        _ => None,
    };
    Some(Line { taken: 2, text, comment: fields.map(|fields| as_written(&fields)) })
}

/// The configuration register that a record selects, if it is the write that a macro makes.
fn selection(record: &Record) -> Option<(usize, u32)> {
    let (device, at) = names::selected(record.data)?;
    (*record == Record::io_write(names::CONFIG_ADDRESS, 4, record.data)).then_some((device, at))
}

/// `entry` and `entries`: valid entries of main memory whose numbers and pages count up together.
fn entries(records: &[Record], bases: Bases, shown: impl Fn(&Record) -> bool) -> Option<Line> {
    let (first, page) = entry(records.first()?, bases)?;
    let same =
        |(n, record): &(u32, &Record)| entry(record, bases) == Some((first + n, page + 4096 * n)) && shown(record);
    let taken = (0..names::ENTRY_COUNT).zip(records).take_while(same).count();
    let text = match taken {
        1 => format!("entry {first} {page:X}h"),
        _ => format!("entries {first}..{} {page:X}h", first as usize + taken - 1),
    };
    Some(Line { taken, text, comment: None })
}

/// The number and the page of an entry that a record writes as the macro does.
fn entry(record: &Record, bases: Bases) -> Option<(u32, u32)> {
    let entry = names::entry_at(bases.register_offset(record.address)?)?;
    let page = words::entry_page(record.data);
    let address = bases.registers + names::entry_offset(entry);
    (*record == Record::write(address, 4, page | 1, false)).then_some((entry, page))
}

/// What a value says. Whether it gets where it is written to depends on what came before.
fn as_written(text: &str) -> String {
    format!("as written: {text}")
}

/// What a reader may want to know of a record, as far as it shows it alone.
fn comment(record: &Record, bases: Bases) -> Option<String> {
    if !record.keeps_layout() {
        return Some(words::layout_fault(record));
    }
    if *record == Record::io_write(names::CONFIG_ADDRESS, 4, record.data) {
        return Some(words::selection(record.data));
    }
    if record.kind() != Some(Kind::Write) {
        return None;
    }
    let offset = bases.register_offset(record.address)?;
    if (offset, record.width) == (names::DRT, 1) {
        return Some(as_written(&format!("display cache {}", if record.data & 1 != 0 { "on" } else { "off" })));
    }
    if record.width != 4 {
        return None;
    }
    match offset {
        offset @ 0x2000..=0x201C if offset.is_multiple_of(4) => Some(as_written(&words::fence(Fence(record.data)))),
        offset if names::entry_at(offset).is_some() => Some(as_written(&words::entry(record.data))),
        _ => None,
    }
}

#[cfg(test)]
mod tests {
    use super::super::assemble;
    use super::*;
    use crate::record::Target;
    use crate::reference::{Gmch, TABLE_WORDS};
    use crate::Board;

    /// splitmix64
    struct Random(u64);

    impl Random {
        fn next(&mut self) -> u32 {
            self.0 = self.0.wrapping_add(0x9E37_79B9_7F4A_7C15);
            let z = (self.0 ^ (self.0 >> 30)).wrapping_mul(0xBF58_476D_1CE4_E5B9);
            let z = (z ^ (z >> 27)).wrapping_mul(0x94D0_49BB_1331_11EB);
            ((z ^ (z >> 31)) >> 32) as u32
        }

        fn below(&mut self, bound: u32) -> u32 {
            ((u64::from(self.next()) * u64::from(bound)) >> 32) as u32
        }

        fn one_in(&mut self, n: u32) -> bool {
            self.below(n) == 0
        }

        fn pick<T: Copy>(&mut self, from: &[T]) -> T {
            from[self.below(from.len() as u32) as usize]
        }

        fn width(&mut self) -> u8 {
            if self.one_in(20) {
                self.next() as u8
            } else {
                self.pick(&[1, 2, 4])
            }
        }

        /// Near the places that have names.
        fn address(&mut self) -> u32 {
            let base = self.pick(&[0_u32, 0x1000, 0xA_0000, 0xC000_0000, 0xF000_0000, 0xFFF8_0000, 0xFEEA_0000]);
            let offset = match self.below(4) {
                0 => self.below(0x2_0000),
                1 => 0x2000 + self.below(0x100),
                2 => 0x1_0000 + 4 * self.below(0x4000),
                _ => self.next(),
            };
            base.wrapping_add(offset)
        }

        fn data(&mut self) -> u32 {
            match self.below(4) {
                0 => self.below(256),
                1 => self.below(0x4_0000) << 12 | 1,
                2 => 0x8000_0000 | self.below(2) << 11 | self.below(64) << 2,
                _ => self.next(),
            }
        }

        fn push(&mut self, records: &mut Vec<Record>) {
            let (address, width, data) = (self.address(), self.width(), self.data());
            match self.below(16) {
                0 => {
                    let rows = [(1, 0x10), (1, 0x14), (0, 0x70), (0, 0x72), (1, 0x04), (0, 0x51), (0, 0x58)];
                    let (device, at) = self.pick(&rows);
                    records.push(Record::io_write(0xCF8, 4, names::selection(device, at)));
                    let port = if self.one_in(8) { 0xCFC + self.below(5) } else { 0xCFC + at % 4 };
                    records.push(Record::io_write(port, width, data));
                }
                1 => records.push(Record::io_write(0xCF8, 4, data)),
                2 => records.push(Record::io_read(0xCF0 + self.below(24), width)),
                3 => records.push(Record::io_write(0xCF0 + self.below(24), width, data)),
                4 => records.push(Record::read(address, width, self.one_in(2))),
                5 => records.push(Record::code_read(address, width, self.one_in(2))),
                6 => records.push(Record::write(address, width, data, self.one_in(2))),
                7 => records.push(Record::master_read(address, width)),
                8 => records.push(Record::master_write(address, width, data)),
                9 => records.push(Record::run(data)),
                10 if self.one_in(6) => records.push(Record::reset()),
                11 => {
                    let (first, page) = (self.below(0x4000), data & 0x3FFF_F000);
                    for n in 0..self.below(5) {
                        let address = 0xF001_0000 + 4 * (first + n);
                        records.push(Record::write(address, 4, page.wrapping_add(4096 * n) | 1, false));
                    }
                }
                12 => records.push(self.malformed()),
                _ => records.push(Record::write(address, 4, data, false)),
            }
        }

        fn malformed(&mut self) -> Record {
            let mut bytes = match self.below(3) {
                0 => Record::read(self.address(), 4, false).to_bytes(),
                1 => Record::reset().to_bytes(),
                _ => [(); 16].map(|()| self.next() as u8),
            };
            bytes[self.below(16) as usize] = self.next() as u8;
            Record::from_bytes(&bytes)
        }
    }

    /// Graphics on and both bases set, most times.
    fn setup(random: &mut Random) -> Vec<Record> {
        let mut records = Vec::new();
        for (device, at, data) in [(0, 0x70, 0x40), (1, 0x10, 0xC000_0000), (1, 0x14, 0xF000_0000), (1, 0x04, 2)] {
            if !random.one_in(10) {
                records.push(Record::io_write(0xCF8, 4, names::selection(device, at)));
                records.push(Record::io_write(0xCFC, 4, data));
            }
        }
        records
    }

    #[test]
    fn disasm_then_asm_gives_the_same_bytes_for_every_list() {
        let mut lines_seen = 0;
        for seed in 0..300 {
            let mut random = Random(seed);
            let mut records = if random.one_in(5) { Vec::new() } else { setup(&mut random) };
            for _ in 0..random.below(300) {
                random.push(&mut records);
            }
            let bytes = record::encode(&records);
            for (macros, comments) in [(true, true), (false, false)] {
                let mut text = Vec::new();
                Lister { macros, comments, show_protected: true }.write(&bytes, &mut text).expect("a vector takes all");
                let text = String::from_utf8(text).expect("a listing is UTF-8");
                let again = assemble(&text).unwrap_or_else(|errors| panic!("seed {seed}: {errors}"));
                assert!(again.records == bytes, "seed {seed}, macros {macros}:\n{text}");
                lines_seen += text.lines().count();
            }
        }
        assert!(lines_seen > 80_000, "{lines_seen}");
    }

    /// Every write that management mode lands in protected memory, by the reference on boards with several
    /// lengths of memory, is left out of the listing.
    #[test]
    fn no_landed_write_of_protected_memory_is_listed() {
        const EDGES: [u32; 12] = [
            0x9_FFFC,
            0xA_0000,
            0xB_FFFC,
            0xC_0000,
            0x70_0000,
            0x78_0000,
            0x7F_FFFC,
            0xF0_0000,
            0x170_0000,
            0x178_0000,
            0xFEEA_0000,
            0xFEEB_FFFC,
        ];
        let mut landed = 0;
        for seed in 0..60 {
            let mut random = Random(seed);
            let mut records = Vec::new();
            for _ in 0..200 {
                match random.below(8) {
                    0 => {
                        records.push(Record::io_write(0xCF8, 4, 0x8000_0070));
                        let smram = random.next() & if random.one_in(8) { 0xFF } else { 0xFD };
                        records.push(Record::io_write(0xCFC, 1, smram));
                    }
                    1 if random.one_in(4) => records.push(Record::reset()),
                    // PAMR and FDHC, which change nothing of it.
                    1 => {
                        records.push(Record::io_write(0xCF8, 4, random.pick(&[0x8000_0050, 0x8000_0058])));
                        records.push(Record::io_write(0xCFC, 4, random.next()));
                    }
                    _ => {
                        let address = random.pick(&EDGES) + random.below(4);
                        records.push(Record::write(address, random.pick(&[1, 2, 4]), random.next(), !random.one_in(4)));
                    }
                }
            }
            let mut text = Vec::new();
            let lister = Lister { macros: false, comments: true, show_protected: false };
            lister.write(&record::encode(&records), &mut text).expect("a vector takes all");
            let text = String::from_utf8(text).expect("a listing is UTF-8");
            for mib in [8, 16, 24] {
                let (mut memory, mut table) = (vec![0; mib << 20], Box::new([0; TABLE_WORDS]));
                let mut hub = Gmch::new(Board::I82810, &mut memory, &mut table, &mut []).expect("a board");
                for (record, line) in records.iter().zip(text.lines()) {
                    let answer = hub.answer(record);
                    let reached = record.is_management() && answer.target() == Some(Target::Memory);
                    if reached && hub.protected(answer.address) {
                        assert!(line.ends_with(REDACTED), "seed {seed}, {mib} MiB: {line}");
                        landed += 1;
                    }
                }
            }
        }
        assert!(landed > 1000, "{landed}");
    }

    /// The same where the table is in main memory, and of every write of an entry that lands in memory which is
    /// protected at another time.
    #[test]
    fn no_landed_write_of_a_table_word_in_protected_memory_is_listed() {
        let (mut landed, mut shown) = (0, 0);
        for seed in 0..60 {
            let mut random = Random(seed);
            let mut records = setup(&mut Random(1));
            // Most have words on both sides of an edge.
            let table = random.pick(&[0x9_F000, 0xA_0000, 0xB_F000, 0x6F_F000, 0x7F_F000]);
            for _ in 0..200 {
                match random.below(8) {
                    0 => {
                        records.push(Record::io_write(0xCF8, 4, 0x8000_0070));
                        records.push(Record::io_write(0xCFC, 1, random.pick(&[0x40, 0x44, 0x4C, 0x50, 0x7C])));
                    }
                    1 => records.push(Record::write(0xF000_2020, 4, random.pick(&[table, 0x20_0000]), false)),
                    _ => {
                        let (first, page) = (random.pick(&[0, 1022, 1023, 1024]), random.below(0x800) << 12);
                        for entry in first..first + 1 + random.below(4) {
                            let data = (page + 4096 * (entry - first)) | 1;
                            records.push(Record::write(0xF001_0000 + 4 * entry, 4, data, random.one_in(3)));
                        }
                    }
                }
            }
            let bytes = record::encode(&records);
            let lists = [true, false].map(|macros| {
                let mut text = Vec::new();
                let lister = Lister { macros, comments: false, show_protected: false };
                lister.write(&bytes, &mut text).expect("a vector takes all");
                String::from_utf8(text).expect("a listing is UTF-8")
            });
            // A macro takes no record whose data is left out.
            assert_eq!(lists[0].matches(REDACTED).count(), lists[1].matches(REDACTED).count(), "seed {seed}");
            let (mut memory, mut table) = (vec![0; 8 << 20], Box::new([0; TABLE_WORDS]));
            let mut display = vec![0; Board::Dc100Main.display_bytes()];
            let mut hub = Gmch::new(Board::Dc100Main, &mut memory, &mut table, &mut display).expect("a board");
            for (record, line) in records.iter().zip(lists[1].lines()) {
                let answer = hub.answer(record);
                let entry = Some(answer.address).filter(|_| answer.target() == Some(Target::MemoryMapped));
                let word = entry.and_then(names::entry_at).and_then(|entry| hub.table_word_address(entry as usize));
                let Some(word) = word.filter(|_| answer.code == 0) else { continue };
                let low = (0xA_0000..0xC_0000).contains(&word);
                if low || record.is_management() && (0x70_0000..0x80_0000).contains(&word) {
                    assert!(line.ends_with(REDACTED), "seed {seed}: {line}");
                    landed += 1;
                } else if !line.ends_with(REDACTED) {
                    shown += 1;
                }
            }
        }
        assert!(landed > 500 && shown > 1000, "{landed} {shown}");
    }

    /// Every record of one byte set, and every single byte of a good record changed.
    #[test]
    fn disasm_then_asm_gives_the_same_bytes_for_single_odd_records() {
        let mut bytes = Vec::new();
        for good in [
            Record::io_write(0xCF8, 4, 0x8000_0070),
            Record::write(0x1000, 4, 7, true),
            Record::run(5),
            Record::default(),
        ] {
            for at in 0..16 {
                for value in 0..=255 {
                    let mut record = good.to_bytes();
                    record[at] = value;
                    bytes.extend(record);
                }
            }
        }
        let mut text = Vec::new();
        Lister { macros: true, comments: true, show_protected: true }
            .write(&bytes, &mut text)
            .expect("a vector takes all");
        let text = String::from_utf8(text).expect("a listing is UTF-8");
        assert!(assemble(&text).expect("a listing is a trace").records == bytes);
    }

    /// Comments say what is written to PAMR and FDHC, as far as the access has them: request 8 of document 02.
    #[test]
    fn shadow_memory_is_explained_as_it_is_written() {
        for (text, words) in [
            ("config write dev0.PAMR 85h", "C0000h-DFFFFh reads memory; F0000h-FFFFFh writes memory; else hub"),
            ("config write dev0.PAMR 00h", "C0000h-FFFFFh to the hub"),
            ("config write2 dev0.50h 3000h", "E0000h-EFFFFh reads and writes memory; else hub"),
            ("config write dev0.FDHC 80h", "hole at F00000h-FFFFFFh"),
            ("config write dev0.FDHC 7Fh", "no hole"),
            ("config write dev0.GMCHCFG FFh", ""),
            ("config read dev0.PAMR", ""),
            ("config read dev0.FDHC", ""),
        ] {
            let records = assemble(&format!("{text}\n")).expect("a trace").records;
            let mut listed = Vec::new();
            Lister { macros: true, comments: true, show_protected: false }
                .write(&records, &mut listed)
                .expect("a vector takes all");
            let expected = match words {
                "" => format!("{text}\n"),
                _ => format!("{text:<COMMENT_COLUMN$} # as written: {words}\n"),
            };
            assert_eq!(String::from_utf8_lossy(&listed), expected);
        }
    }

    #[test]
    fn macros_stand_for_their_records() {
        let text = "\
config write dev0.SMRAM 40h
config write dev1.MMADR F0000000h
config write4 dev0.72h 00000001h
config read dev1.VID
entries 0..3 100000h
entry 10 A0000h
write PGTBL_CTL 00000001h
read2 MMIO+2022h
smm write GTT[11] 00000003h
";
        let assembled = assemble(text).expect("a good trace");
        let lines: Vec<u32> = assembled.places.iter().map(|place| place.line).collect();
        assert_eq!(lines, [1, 1, 2, 2, 3, 3, 4, 4, 5, 5, 5, 5, 6, 7, 8, 9]);
        let mut listed = Vec::new();
        Lister { macros: true, comments: false, show_protected: false }
            .write(&assembled.records, &mut listed)
            .expect("a vector takes all");
        assert_eq!(String::from_utf8_lossy(&listed), text);
    }
}
