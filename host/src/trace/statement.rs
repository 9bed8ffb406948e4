//! One statement, told by its words.

use super::errors::acts_on_terminals;
use super::line::{Fault, Word};
use super::names;
use super::numbers;
use super::reader::Reader;
use crate::record::{Record, RECORD_BYTES};

/// What a statement asks for.
pub(super) enum Statement<'a> {
    Records(Vec<Record>),
    /// The statements of the file with this name, which the word has.
    Include(Word<'a>, String),
    /// A constant of this name, in lower case.
    Set(String, u32),
}

const STATEMENTS: &str = "an access (in, out, read, fetch, write, word, bytes, string, smm, master, config, entry, \
                          entries, run, reset or raw), set or include";
const MANAGEMENT: &str = "read, fetch, write, word, bytes or string";
const MASTER: &str = "read, write, word, bytes or string";

/// The statement of these words.
pub(super) fn statement<'a>(reader: &mut Reader<'a, '_>) -> Result<Statement<'a>, Fault> {
    let word = reader.next(STATEMENTS)?;
    let statement = match word.text.to_ascii_lowercase().as_str() {
        "set" => set(reader)?,
        "include" => include(reader)?,
        _ => Statement::Records(records(word, reader)?),
    };
    reader.finish()?;
    Ok(statement)
}

/// The records of a statement that starts with this word.
fn records(word: Word<'_>, reader: &mut Reader<'_, '_>) -> Result<Vec<Record>, Fault> {
    Ok(match word.text.to_ascii_lowercase().as_str() {
        "smm" => {
            let word = reader.next(MANAGEMENT)?;
            processor(word, reader, true)?
        }
        "master" => master(reader)?,
        "config" => config(reader)?,
        "entry" => entry(reader)?,
        "entries" => entries(reader)?,
        "run" => vec![Record::run(reader.number("the run's budget")?)],
        "reset" => vec![Record::reset()],
        "raw" => vec![raw(reader)?],
        name if name.starts_with("in") || name.starts_with("out") => vec![io(word, reader)?],
        _ => processor(word, reader, false)?,
    })
}

/// A word such as `read4`: its letters, in lower case, and its width.
fn mnemonic(word: Word<'_>, known: &[&'static str], what: &str) -> Result<(&'static str, Option<u8>), Fault> {
    let letters = word.text.trim_end_matches(|c: char| c.is_ascii_digit());
    let digits = &word.text[letters.len()..];
    let name = known.iter().find(|name| name.eq_ignore_ascii_case(letters)).ok_or_else(|| word.expected(what))?;
    let width = match digits {
        "" => None,
        digits => Some(digits.parse().map_err(|_| word.expected("a width of at most 255"))?),
    };
    Ok((name, width))
}

fn no_width(word: Word<'_>, name: &str) -> Fault {
    word.expected(&format!("{name} with its width: {name}1, {name}2 or {name}4"))
}

const DATA: &str = "the data";

fn io(word: Word<'_>, reader: &mut Reader<'_, '_>) -> Result<Record, Fault> {
    let (name, width) = mnemonic(word, &["in", "out"], STATEMENTS)?;
    let width = width.ok_or_else(|| no_width(word, name))?;
    let port = reader.port()?;
    Ok(match name {
        "in" => Record::io_read(port, width),
        _ => Record::io_write(port, width, reader.data(DATA)?),
    })
}

fn processor(word: Word<'_>, reader: &mut Reader<'_, '_>, management: bool) -> Result<Vec<Record>, Fault> {
    if let Some(filling) = Filling::named(word.text) {
        return filling.records(reader, |address, width, data| Record::write(address, width, data, management));
    }
    let what = if management { MANAGEMENT } else { STATEMENTS };
    let (name, width) = mnemonic(word, &["read", "fetch", "write"], what)?;
    let place = reader.place()?;
    let width = width.or(place.bytes).ok_or_else(|| no_width(word, name))?;
    Ok(vec![match name {
        "read" => Record::read(place.address, width, management),
        "fetch" => Record::code_read(place.address, width, management),
        _ => Record::write(place.address, width, reader.data(DATA)?, management),
    }])
}

fn master(reader: &mut Reader<'_, '_>) -> Result<Vec<Record>, Fault> {
    let word = reader.next(MASTER)?;
    if let Some(filling) = Filling::named(word.text) {
        return filling.records(reader, Record::master_write);
    }
    let (name, width) = mnemonic(word, &["read", "write"], MASTER)?;
    let place = reader.place()?;
    let width = width.or(place.bytes).ok_or_else(|| no_width(word, name))?;
    Ok(vec![match name {
        "read" => Record::master_read(place.address, width),
        _ => Record::master_write(place.address, width, reader.data(DATA)?),
    }])
}

/// The statements that fill memory.
#[derive(Clone, Copy)]
enum Filling {
    Word,
    Bytes,
    String,
}

impl Filling {
    fn named(name: &str) -> Option<Filling> {
        let all = [("word", Filling::Word), ("bytes", Filling::Bytes), ("string", Filling::String)];
        all.into_iter().find(|(own, _)| own.eq_ignore_ascii_case(name)).map(|(_, filling)| filling)
    }

    fn records(
        self,
        reader: &mut Reader<'_, '_>,
        write: impl Fn(u32, u8, u32) -> Record,
    ) -> Result<Vec<Record>, Fault> {
        let place = reader.place()?;
        let mut bytes = self.bytes(reader)?;
        while !reader.is_empty() && !matches!(self, Filling::String) {
            bytes.extend(self.bytes(reader)?);
        }
        if bytes.len() as u64 > (1 << 32) - u64::from(place.address) {
            let count = numbers::counted(bytes.len() as u64, "byte");
            return Err(place.word.expected(&format!("a place with {count} up to FFFFFFFFh")));
        }
        Ok(writes(place.address, &bytes, write))
    }

    /// What the next word stands for.
    fn bytes(self, reader: &mut Reader<'_, '_>) -> Result<Vec<u8>, Fault> {
        const TEXT: &str = "a text in quotes, of at least one byte";
        Ok(match self {
            Filling::Word => reader.data("a value")?.to_le_bytes().to_vec(),
            Filling::Bytes => vec![reader.byte()?],
            Filling::String => {
                let word = reader.next(TEXT)?;
                Some(word.quoted(TEXT)?).filter(|text| !text.is_empty()).ok_or_else(|| word.expected(TEXT))?
            }
        })
    }
}

/// As few writes as possible that put these bytes there, each inside one aligned word.
fn writes(mut address: u32, mut bytes: &[u8], write: impl Fn(u32, u8, u32) -> Record) -> Vec<Record> {
    let mut records = Vec::new();
    while !bytes.is_empty() {
        let width = match bytes.len().min(4 - address as usize % 4) {
            4 => 4,
            2 | 3 => 2,
            _ => 1,
        };
        let (now, later) = bytes.split_at(width);
        let mut data = [0; 4];
        data[..width].copy_from_slice(now);
        records.push(write(address, width as u8, u32::from_le_bytes(data)));
        address = address.wrapping_add(width as u32);
        bytes = later;
    }
    records
}

/// A configuration access: CF8h, then CFCh and the register's low two bits.
fn config(reader: &mut Reader<'_, '_>) -> Result<Vec<Record>, Fault> {
    let word = reader.next("read or write")?;
    let (name, width) = mnemonic(word, &["read", "write"], "read or write")?;
    let register = reader.config_register()?;
    let width = width.or(register.bytes).ok_or_else(|| no_width(word, name))?;
    let port = names::CONFIG_DATA + register.at % 4;
    let access = match name {
        "read" => Record::io_read(port, width),
        _ => Record::io_write(port, width, reader.data(DATA)?),
    };
    let selection = names::selection(register.device, register.at);
    Ok(vec![Record::io_write(names::CONFIG_ADDRESS, 4, selection), access])
}

/// "page 29:12"
const LAST_PAGE: u32 = 0x3FFF_F000;

/// A valid table entry of main memory.
fn entry(reader: &mut Reader<'_, '_>) -> Result<Vec<Record>, Fault> {
    let word = reader.next("an entry's number")?;
    let entry = reader.entry_number(word)?;
    let (page, _) = reader.page(LAST_PAGE)?;
    Ok(vec![Record::write(reader.entry_address(word, entry)?, 4, page | 1, false)])
}

/// Valid table entries, one after the other, that name pages one after the other.
fn entries(reader: &mut Reader<'_, '_>) -> Result<Vec<Record>, Fault> {
    const RANGE: &str = "the first and the last entry, such as 0..15";
    let word = reader.next(RANGE)?;
    let (first, _) = word.text.split_once("..").ok_or_else(|| word.expected(RANGE))?;
    let last = reader.entry_number(word.after(first.len() + 2))?;
    let first = reader.entry_number(Word { text: first, ..word })?;
    if last < first {
        return Err(word.expected("a last entry that is not below the first"));
    }
    let (start, place) = reader.page(LAST_PAGE)?;
    let end = start + 4096 * (last - first);
    if end > LAST_PAGE {
        return Err(place.expected(&format!("pages up to 3FFFF000h (the last would be {end:X}h)")));
    }
    let address = reader.entry_address(word, first)?;
    let write = |n| Record::write(address + 4 * n, 4, (start + 4096 * n) | 1, false);
    Ok((0..=last - first).map(write).collect())
}

/// Sixteen bytes in hexadecimal.
fn raw(reader: &mut Reader<'_, '_>) -> Result<Record, Fault> {
    let mut bytes = [0; RECORD_BYTES];
    for (at, byte) in bytes.iter_mut().enumerate() {
        let what = format!("byte {at} of 16, two hexadecimal digits");
        let word = reader.next(&what)?;
        *byte = numbers::hexadecimal_byte(word.text).ok_or_else(|| word.expected(&what))?;
    }
    Ok(Record::from_bytes(&bytes))
}

/// `include FILE`: the name is in quotes or not. It is shown in messages, so no character in it acts on terminals.
fn include<'a>(reader: &mut Reader<'a, '_>) -> Result<Statement<'a>, Fault> {
    const NAME: &str = "a file's name";
    let word = reader.next(NAME)?;
    let bytes = if word.text.starts_with('"') { word.quoted(NAME)? } else { word.text.into() };
    let name = String::from_utf8(bytes).ok().filter(|name| !name.is_empty() && !name.contains(acts_on_terminals));
    Ok(Statement::Include(word, name.ok_or_else(|| word.expected(NAME))?))
}

/// `set NAME VALUE`
fn set<'a>(reader: &mut Reader<'a, '_>) -> Result<Statement<'a>, Fault> {
    let word = reader.next("a constant's name")?;
    let name = constant_name(word)?;
    let value = reader.data("the constant's value")?;
    match reader.set_to(name) {
        Some(old) if old != value => {
            Err(word
                .fault(format!("expected a name that is not set to another value, found '{name}', which is {old:X}h")))
        }
        _ => Ok(Statement::Set(name.to_ascii_lowercase(), value)),
    }
}

/// A name that means nothing yet.
fn constant_name(word: Word<'_>) -> Result<&str, Fault> {
    let name = word.text;
    let formed = name.len() >= 2
        && name.starts_with(|c: char| c.is_ascii_alphabetic())
        && name.bytes().all(|c| c.is_ascii_alphanumeric() || c == b'_');
    if !formed {
        return Err(word.expected("a name of two or more letters, digits and underscores that starts with a letter"));
    }
    let number = numbers::number(name).is_ok() || name.bytes().all(|digit| digit.is_ascii_hexdigit());
    if number {
        return Err(word.expected("a name that cannot be taken for a number"));
    }
    if is_statement(name) || names::is_known(name) {
        return Err(word.expected("a name that does not stand for anything else"));
    }
    Ok(name)
}

/// Whether a statement may start with this word, or with it and a width.
fn is_statement(name: &str) -> bool {
    const WORDS: [&str; 18] = [
        "in", "out", "read", "fetch", "write", "word", "bytes", "string", "smm", "master", "config", "entry",
        "entries", "run", "reset", "raw", "set", "include",
    ];
    let letters = name.trim_end_matches(|c: char| c.is_ascii_digit());
    WORDS.iter().any(|word| word.eq_ignore_ascii_case(letters))
}

#[cfg(test)]
mod tests {
    use super::super::assemble::assemble;
    use super::super::errors::{Errors, TraceError, MOST_ERRORS};
    use super::*;
    use crate::record::decode;

    /// Graphics on, the window at C0000000h, the registers at F0000000h.
    const SETUP: &str = "config write dev0.SMRAM 40h\nconfig write dev1.GMADR C0000000h\n\
                         config write dev1.MMADR F0000000h\n";

    /// The records of one line after [`SETUP`].
    fn line(text: &str) -> Vec<Record> {
        let text = format!("{SETUP}{text}\n");
        let assembled = assemble(&text).unwrap_or_else(|errors| panic!("{errors}"));
        decode(&assembled.records).skip(6).collect()
    }

    fn error(text: &str) -> TraceError {
        let Errors(mut errors) = assemble(&format!("{SETUP}{text}")).expect_err(text);
        assert_eq!(errors.len(), 1, "{text}");
        errors.remove(0)
    }

    #[test]
    fn every_statement_makes_its_records() {
        let cases: [(&str, &[Record]); 22] = [
            ("", &[]),
            ("   # only a comment", &[]),
            ("in4 CONFIG_DATA", &[Record::io_read(0xCFC, 4)]),
            ("in1 config_data+3 # a comment", &[Record::io_read(0xCFF, 1)]),
            ("out4 0xCF8 2147483648", &[Record::io_write(0xCF8, 4, 0x8000_0000)]),
            ("read4 67FFFCh", &[Record::read(0x67_FFFC, 4, false)]),
            ("\tREAD3\t5", &[Record::read(5, 3, false)]),
            ("smm read4 700000h", &[Record::read(0x70_0000, 4, true)]),
            ("fetch2 0", &[Record::code_read(0, 2, false)]),
            ("smm fetch4 A0000h", &[Record::code_read(0xA_0000, 4, true)]),
            ("write1 WINDOW+ABCh 1FFh", &[Record::write(0xC000_0ABC, 1, 0x1FF, false)]),
            ("read1 WINDOW", &[Record::read(0xC000_0000, 1, false)]),
            ("smm write FENCE7 21h", &[Record::write(0xF000_201C, 4, 0x21, true)]),
            ("read IIR", &[Record::read(0xF000_20A4, 2, false)]),
            ("read2 pgtbl_ctl+1", &[Record::read(0xF000_2021, 2, false)]),
            ("write gtt[16383] 1", &[Record::write(0xF001_FFFC, 4, 1, false)]),
            ("master write2 1000h 7", &[Record::master_write(0x1000, 2, 7)]),
            ("master read GTT[0Ah]", &[Record::master_read(0xF001_0028, 4)]),
            ("run 4294967295", &[Record::run(u32::MAX)]),
            ("reset", &[Record::reset()]),
            ("raw 02 04 00 00 f8 0c 00 00 00 00 00 80 00 00 00 00", &[Record::io_write(0xCF8, 4, 0x8000_0000)]),
            ("config read1 dev1.2Dh", &[Record::io_write(0xCF8, 4, 0x8000_082C), Record::io_read(0xCFD, 1)]),
        ];
        for (text, records) in cases {
            assert_eq!(line(text), records, "{text}");
        }
        let entries = [Record::write(0xF001_0028, 4, 0xA_0001, false), Record::write(0xF001_002C, 4, 0xA_1001, false)];
        assert_eq!(line("entries 10..11 A0000h"), entries);
        assert_eq!(line("entry 10 A0000h"), entries[..1]);
    }

    /// Bytes go into as few records as possible, each inside one aligned word.
    #[test]
    fn memory_is_filled_word_by_word() {
        let write = |address, width, data| Record::write(address, width, data, false);
        let master = Record::master_write;
        let cases: [(&str, &[Record]); 13] = [
            ("word 1000h 1 FFFFFFFFh", &[write(0x1000, 4, 1), write(0x1004, 4, u32::MAX)]),
            (
                "word 1002h 44332211h 88776655h",
                &[write(0x1002, 2, 0x2211), write(0x1004, 4, 0x6655_4433), write(0x1008, 2, 0x8877)],
            ),
            ("smm word A0000h 5", &[Record::write(0xA_0000, 4, 5, true)]),
            ("master word 1000h 5", &[master(0x1000, 4, 5)]),
            ("word FENCE0 21h 80021h", &[write(0xF000_2000, 4, 0x21), write(0xF000_2004, 4, 0x8_0021)]),
            ("bytes 1000h 10", &[write(0x1000, 1, 0x10)]),
            ("bytes 1001h 01 0x02 3", &[write(0x1001, 2, 0x0201), write(0x1003, 1, 3)]),
            ("bytes 1000h ff 255 0FFh", &[write(0x1000, 2, 0xFFFF), write(0x1002, 1, 0xFF)]),
            ("bytes 1001h 01 02", &[write(0x1001, 2, 0x0201)]),
            (
                "BYTES 1003h 01 02 03 04 05 06",
                &[write(0x1003, 1, 1), write(0x1004, 4, 0x0504_0302), write(0x1008, 1, 6)],
            ),
            ("string 1000h \"A # b\" # a comment", &[write(0x1000, 4, 0x2023_2041), write(0x1004, 1, 0x62)]),
            (
                "smm string 1000h \"\\n\\t\\\\\\\"\\0\\xfe\u{e9}\"",
                &[Record::write(0x1000, 4, 0x225C_090A, true), Record::write(0x1004, 4, 0xA9C3_FE00, true)],
            ),
            ("string FFFFFFFEh \"ab\"", &[write(0xFFFF_FFFE, 2, 0x6261)]),
        ];
        for (text, records) in cases {
            assert_eq!(line(text), records, "{text}");
        }
    }

    #[test]
    fn instructions_of_the_ring_parser_are_data() {
        let words = line("word 100000h noop MI_USER_INTERRUPT Flush mi_noop user_interrupt 7");
        let data: Vec<u32> = words.iter().map(|record| record.data).collect();
        assert_eq!(data, [0, 0x0100_0000, 0x0200_0000, 0, 0x0100_0000, 7]);
        assert_eq!(line("out4 CONFIG_DATA flush"), [Record::io_write(0xCFC, 4, 0x0200_0000)]);
    }

    #[test]
    fn constants_stand_for_numbers_of_every_sort() {
        let set = "set KEY A0000h\nset five 5\nset Ring_2 user_interrupt\nset KEY A0000h\nset AFTER key+5\n";
        for (text, same) in [
            ("smm write4 key 12345678h", "smm write4 A0000h 12345678h"),
            ("read1 KEY+3", "read1 A0003h"),
            ("read1 Key+FIVE", "read1 A0005h"),
            ("read4 WINDOW+KEY", "read4 WINDOW+A0000h"),
            ("read1 GTT[FIVE]+2", "read1 GTT[5]+2"),
            ("in4 FIVE", "in4 5"),
            ("in1 CONFIG_DATA+FIVE", "in1 D01h"),
            ("out4 CF8h FIVE+1", "out4 CF8h 6"),
            ("write4 1000h ring_2", "write4 1000h 01000000h"),
            ("config read1 dev0.FIVE", "config read1 dev0.05h"),
            ("config write dev0.SMRAM five+1", "config write dev0.SMRAM 6"),
            ("entry FIVE KEY", "entry 5 A0000h"),
            ("entries FIVE..FIVE+2 KEY+1000h", "entries 5..7 A1000h"),
            ("run AFTER", "run 655365"),
            ("bytes KEY FIVE 06", "bytes A0000h 05 06"),
        ] {
            assert_eq!(line(&format!("{set}{text}")), line(same), "{text}");
        }
    }

    /// As setpci reads them.
    #[test]
    fn configuration_registers_are_hexadecimal() {
        for text in ["dev0.70", "dev0.70h", "dev0.0x70", "DEV0.70H"] {
            assert_eq!(line(&format!("config read1 {text}")), line("config read dev0.SMRAM"), "{text}");
        }
        assert_eq!(line("config read2 dev1.de"), line("config read dev1.PM_CAP"));
    }

    #[test]
    fn decimal_numbers_where_hexadecimal_ones_are_usual_are_warned_of() {
        let warned = |text: &str| -> Vec<(u32, String)> {
            let assembled = assemble(&format!("{SETUP}{text}\n")).unwrap_or_else(|errors| panic!("{errors}"));
            assembled.warnings.into_iter().map(|warning| (warning.column, warning.message)).collect()
        };
        let message = "700000 is decimal (AAE60h); if it is meant as hexadecimal write 700000h".to_string();
        assert_eq!(warned("read4 700000"), [(7, message)]);
        for (text, column) in [
            ("smm write4 00010 5", 12),
            ("master read4 4096", 14),
            ("in4 3320", 5),
            ("entry 10 4096", 10),
            ("entries 10..12 4096", 16),
            ("read4 WINDOW+4096", 14),
            ("word 4096 5", 6),
        ] {
            assert_eq!(warned(text).iter().map(|(column, _)| *column).collect::<Vec<_>>(), [column], "{text}");
        }
        for text in ["read4 9", "read4 1000h", "write4 0 4096", "run 4096", "entry 4096 0", "set TEN 10", "read10 0"] {
            assert_eq!(warned(text), [], "{text}");
        }
        assert_eq!(warned(&"read4 1000\n".repeat(30)).len(), 20);
    }

    #[test]
    fn every_mistake_is_told_with_its_column() {
        for (text, column, part) in [
            ("peek 5", 1, "expected an access (in, out, read,"),
            ("  peek 5", 3, "found 'peek'"),
            ("invalid", 1, "expected an access"),
            ("smm", 4, "expected read, fetch, write, word, bytes or string, found the end of the line"),
            ("smm in4 5", 5, "expected read, fetch, write, word, bytes or string, found 'in4'"),
            ("in CFCh", 1, "expected in with its width: in1, in2 or in4, found 'in'"),
            ("in4", 4, "expected a port, found the end of the line"),
            ("in4 FOO", 5, "expected a port: a number, CONFIG_ADDRESS or CONFIG_DATA"),
            ("in4 10000h", 5, "expected a port of at most FFFFh, found '10000h'"),
            ("in4 CONFIG_DATA+x", 17, "expected what '+' adds"),
            ("in4 CFCh 5", 10, "expected the end of the line, found '5'"),
            ("out4 CF8h", 10, "expected the data, found the end of the line"),
            ("out4 CF8h BEEF", 11, "a number such as 4096, 0x1000 or 1000h, found 'BEEF'"),
            ("out4 CF8h 100000000h", 11, "at most 32 bits"),
            ("read 5", 1, "expected read with its width: read1, read2 or read4"),
            ("read256 5", 1, "expected a width of at most 255, found 'read256'"),
            ("read4", 6, "expected an address"),
            ("read4 FENCE8", 7, "or a register's name such as FENCE0, found 'FENCE8'"),
            ("read4 GTT[16384]", 11, "expected an entry from 0 to 16383, found '16384'"),
            ("read4 GTT[5", 7, "closing ']'"),
            ("read4 GTT[]", 11, "expected an entry's number"),
            ("read4 WINDOW+4000000h", 7, "expected an offset below 4000000h, the window's size"),
            ("read4 MMIO+80000h", 7, "expected an offset below 80000h"),
            ("read WINDOW+4", 1, "expected read with its width"),
            ("read FENCE0+4", 1, "expected read with its width"),
            ("master fetch4 5", 8, "expected read, write, word, bytes or string, found 'fetch4'"),
            ("config poke dev0.SMRAM", 8, "expected read or write, found 'poke'"),
            ("config read SMRAM", 13, "expected a configuration register such as dev0.SMRAM"),
            ("config read dev2.SMRAM", 13, "expected a configuration register such as dev0.SMRAM"),
            ("config read dev0.GMADR", 13, "expected a register of device 0 (GMADR is one of device 1)"),
            ("config read1 dev0.100h", 19, "expected a register from 00h to FFh, found '100h'"),
            ("config read dev0.70h", 8, "expected read with its width"),
            ("config write dev0.SMRAM", 24, "expected the data"),
            ("entry 5", 8, "expected a page"),
            ("entry 5 A0001h", 9, "expected a page, a multiple of 1000h up to 3FFFF000h, found 'A0001h'"),
            ("entry 5 40000000h", 9, "expected a page, a multiple of 1000h"),
            ("entries 5 A0000h", 9, "expected the first and the last entry, such as 0..15"),
            ("entries 5..4 A0000h", 9, "expected a last entry that is not below the first"),
            ("entries 5..16384 0", 12, "expected an entry from 0 to 16383"),
            ("entries 0..1 3FFFF000h", 14, "expected pages up to 3FFFF000h"),
            ("run", 4, "expected the run's budget"),
            ("run -1", 5, "expected the run's budget, a number"),
            ("reset now", 7, "expected the end of the line, found 'now'"),
            ("raw 02 04", 10, "expected byte 2 of 16, two hexadecimal digits, found the end of the line"),
            ("raw 02 4", 8, "expected byte 1 of 16"),
            ("raw +2", 5, "expected byte 0 of 16"),
            ("word 1000h", 11, "expected a value, found the end of the line"),
            ("word 1000h 1 x", 14, "expected a value, a number such as"),
            ("bytes 1000h 100h", 13, "expected a byte, two hexadecimal digits or a number to 255, found '100h'"),
            ("bytes 1000h", 12, "expected a byte, two hexadecimal digits or a number to 255, found the end"),
            ("string 1000h", 13, "expected a text in quotes, of at least one byte, found the end of the line"),
            ("string 1000h abc", 14, "expected a text in quotes"),
            ("string 1000h \"\"", 14, "expected a text in quotes, of at least one byte"),
            ("string 1000h \"abc", 14, "expected a closing '\"', found '\"abc'"),
            ("string 1000h \"abc\\\"", 14, "expected a closing '\"'"),
            ("string 1000h \"a\\q\"", 16, "expected one of \\n, \\t, \\\\, \\\", \\0 and \\xHH, found '\\q'"),
            ("string 1000h \"\u{e9}\\x+1\"", 16, "expected one of"),
            ("string 1000h \"a\" \"b\"", 18, "expected the end of the line"),
            ("string 1000h \"a\"b", 17, "expected the end of the line, found 'b'"),
            ("word FFFFFFFEh 5", 6, "expected a place with 4 bytes up to FFFFFFFFh"),
            ("master set", 8, "expected read, write, word, bytes or string"),
            ("set", 4, "expected a constant's name"),
            ("set KEY", 8, "expected the constant's value"),
            ("set K 5", 5, "expected a name of two or more letters, digits and underscores"),
            ("set 2K 5", 5, "that starts with a letter"),
            ("set K-1 5", 5, "expected a name of two or more"),
            ("set BEh 5", 5, "expected a name that cannot be taken for a number, found 'BEh'"),
            ("set BEEF 5", 5, "expected a name that cannot be taken for a number"),
            ("set fence0 5", 5, "expected a name that does not stand for anything else, found 'fence0'"),
            ("set SMRAM 5", 5, "does not stand for anything else"),
            ("set window 5", 5, "does not stand for anything else"),
            ("set read4 5", 5, "does not stand for anything else"),
            ("set mi_flush 5", 5, "does not stand for anything else"),
            ("set CONFIG_DATA 5", 5, "does not stand for anything else"),
            ("set KEY 5 6", 11, "expected the end of the line"),
            ("config read1 dev0.100", 19, "expected a register from 00h to FFh, found '100'"),
            ("config read1 dev0.", 14, "expected a configuration register"),
            ("read4 GTT[5]x", 7, "expected an address"),
            ("r\u{e9}ad4 5", 1, "found 'r\u{e9}ad4'"),
            ("read4 \u{e9}\u{e9}+5", 7, "expected an address"),
            ("read4 GT\u{e9}[", 7, "expected an address"),
        ] {
            let TraceError { line, column: found, message, .. } = error(text);
            assert_eq!((line, found), (4, column), "{text}: {message}");
            assert!(message.contains(part), "{text}: {message}");
        }
        let again = assemble("set KEY 5\nset key 6\n").expect_err("two values").to_string();
        assert!(again.starts_with("trace:2:5: expected a name that is not set to another value"), "{again}");
        assert!(again.contains("found 'key', which is 5h"), "{again}");
        let large = assemble("set KEY FFFFFFFFh\nread4 KEY+1\n").expect_err("33 bits").to_string();
        assert!(large.starts_with("trace:2:7: expected a sum of at most 32 bits"), "{large}");
    }

    #[test]
    fn names_follow_the_records_before_them() {
        let Errors(early) = assemble("write FENCE0 21h\nread4 WINDOW+0\n").expect_err("no base yet");
        assert_eq!((early[0].line, early[0].column), (1, 7));
        assert!(early[0].message.contains("MMADR, which is 0 here"), "{}", early[0].message);
        assert!(early[1].message.contains("GMADR, which is 0 here"), "{}", early[1].message);
        let hidden = assemble("config write dev1.MMADR F0000000h\nread FENCE0\n");
        assert_eq!(hidden.expect_err("device 1 is hidden").list().len(), 1, "the write went to the hub");
        let reset = format!("{SETUP}read FENCE0\nreset\nread FENCE0\n");
        assert_eq!(assemble(&reset).expect_err("a reset takes the base away").list()[0].line, 6);
        let small = line("config write dev0.MISCC 1\nconfig write dev1.GMADR C2000000h\nread4 WINDOW+4");
        assert_eq!(small.last(), Some(&Record::read(0xC200_0004, 4, false)));
    }

    #[test]
    fn a_report_shows_the_line_and_marks_the_column() {
        let text = "reset\n\tread4 FOO # why\n";
        let report = assemble(text).expect_err("FOO is no address").to_string();
        assert!(report.starts_with("trace:2:8: expected an address"), "{report}");
        assert!(report.ends_with("\n    \tread4 FOO # why\n    \t      ^"), "{report}");
        let many = "x\n".repeat(50);
        let errors = assemble(&many).expect_err("fifty mistakes");
        assert_eq!(errors.list().len(), MOST_ERRORS);
        assert!(errors.to_string().ends_with("\ntrace: stopped after 20 errors"), "{errors}");
    }

    #[test]
    fn control_characters_of_a_mistake_are_not_shown() {
        let text = "read4 \u{1b}[31mred\n";
        let report = assemble(text).expect_err("an escape is no address").to_string();
        assert!(!report.contains('\u{1b}'), "{report:?}");
    }

    #[test]
    fn a_trace_may_have_a_byte_order_mark_and_other_line_ends() {
        let assembled = assemble("\u{feff}reset\r\n\r\nrun 1\r\n").expect("a good trace");
        assert_eq!(assembled.places.iter().map(|place| place.line).collect::<Vec<_>>(), [1, 3]);
    }

    /// Traces with characters changed, taken away and put in: no panic, and every error inside its line.
    #[test]
    fn damaged_traces_are_errors_or_good() {
        let good: Vec<char> = format!(
            "{SETUP}read4 WINDOW+4\nsmm write GTT[10] A0001h\nentries 0..3 100000h\nraw 02 04 00 00 F8 0C 00 00 00 \
             00 00 80 00 00 00 00\nin1 CONFIG_DATA+2\nrun 5\nset KEY 5\nread1 KEY+5\nstring 5 \"a\\x41\"\nbytes 0 41\n"
        )
        .chars()
        .collect();
        let odd: Vec<char> = "#>+.[]h0xFG \t\n\"\\\u{e9}\u{0}\u{1b}-5".chars().collect();
        let mut seed = 1_u64;
        let mut below = |bound: usize| {
            seed = seed.wrapping_mul(6_364_136_223_846_793_005).wrapping_add(1_442_695_040_888_963_407);
            (seed >> 33) as usize % bound
        };
        for _ in 0..2000 {
            let mut text = good.clone();
            for _ in 0..1 + below(3) {
                let (at, c) = (below(text.len()), odd[below(odd.len())]);
                match below(3) {
                    0 => text[at] = c,
                    1 => drop(text.remove(at)),
                    _ => text.insert(at, c),
                }
            }
            let text: String = text.into_iter().collect();
            for error in assemble(&text).err().iter().flat_map(|errors| errors.list()) {
                let length = error.source.chars().count() as u32;
                assert!((1..=length + 1).contains(&error.column), "{error:?}");
            }
        }
    }
}
