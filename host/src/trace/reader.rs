//! The words of a statement, and the numbers, ports, places and registers that they stand for.

use super::line::{Fault, Word};
use super::names::{self, Bases};
use super::numbers;
use std::collections::HashMap;

/// What `set` has set, by name in lower case.
pub(super) type Constants = HashMap<String, u32>;

/// Reads the words of a statement, left to right.
pub(super) struct Reader<'a, 'c> {
    words: std::vec::IntoIter<Word<'a>>,
    /// The column past the last word.
    end: usize,
    bases: Bases,
    constants: &'c Constants,
    /// What is legal but looks like a slip.
    pub warnings: Vec<Fault>,
}

/// An address, the word that has it, and the size of the register that it names.
pub(super) struct Location<'a> {
    pub word: Word<'a>,
    pub address: u32,
    pub bytes: Option<u8>,
}

/// A configuration register and, for a name, its size.
pub(super) struct ConfigRegister {
    pub device: usize,
    pub at: u32,
    pub bytes: Option<u8>,
}

const PLACE: &str = "an address: a number, WINDOW+.., MMIO+.., GTT[n] or a register's name such as FENCE0";
const PORT: &str = "a port: a number, CONFIG_ADDRESS or CONFIG_DATA";
const CONFIG: &str = "a configuration register such as dev0.SMRAM, dev1.GMADR or dev0.70h";

impl<'a, 'c> Reader<'a, 'c> {
    pub fn new(words: Vec<Word<'a>>, bases: Bases, constants: &'c Constants) -> Reader<'a, 'c> {
        let end = words.last().map_or(1, |word| word.column + word.text.chars().count());
        Reader { words: words.into_iter(), end, bases, constants, warnings: Vec::new() }
    }

    pub fn next(&mut self, what: &str) -> Result<Word<'a>, Fault> {
        let message = || format!("expected {what}, found the end of the line");
        self.words.next().ok_or_else(|| Fault { column: self.end, message: message() })
    }

    pub fn is_empty(&self) -> bool {
        self.words.len() == 0
    }

    pub fn finish(&mut self) -> Result<(), Fault> {
        match self.words.next() {
            None => Ok(()),
            Some(word) => Err(word.expected("the end of the line")),
        }
    }

    /// The next word as a number or a constant.
    pub fn number(&mut self, what: &str) -> Result<u32, Fault> {
        let word = self.next(what)?;
        self.value(word, what)
    }

    /// The next word as what is written: a number, a constant or an instruction of the ring parser.
    pub fn data(&mut self, what: &str) -> Result<u32, Fault> {
        let word = self.next(what)?;
        match names::instruction_named(word.text) {
            Some(instruction) => Ok(instruction),
            None => self.value(word, what),
        }
    }

    /// The next word as a byte: two hexadecimal digits, or a number.
    pub fn byte(&mut self) -> Result<u8, Fault> {
        const BYTE: &str = "a byte, two hexadecimal digits or a number to 255";
        let word = self.next(BYTE)?;
        match numbers::hexadecimal_byte(word.text) {
            Some(byte) => Ok(byte),
            None => u8::try_from(self.value(word, BYTE)?).map_err(|_| word.expected(BYTE)),
        }
    }

    fn value(&self, word: Word<'a>, what: &str) -> Result<u32, Fault> {
        match self.constant(word)? {
            Some(value) => Ok(value),
            None => word.number(what),
        }
    }

    /// The value that a name was set to.
    pub fn set_to(&self, name: &str) -> Option<u32> {
        self.constants.get(&name.to_ascii_lowercase()).copied()
    }

    /// What a constant stands for, perhaps with a number added; none for other words.
    fn constant(&self, word: Word<'a>) -> Result<Option<u32>, Fault> {
        let (name, added) = parts(word);
        let Some(value) = self.set_to(name) else {
            return Ok(None);
        };
        let sum = value.checked_add(added.map_or(Ok(0), |added| self.added(added))?);
        sum.map(Some).ok_or_else(|| word.expected("a sum of at most 32 bits (FFFFFFFFh)"))
    }

    /// What stands after a `+`.
    fn added(&self, word: Word<'a>) -> Result<u32, Fault> {
        self.set_to(word.text).map_or_else(|| word.number("what '+' adds"), Ok)
    }

    /// Warns of a decimal number where people write hexadecimal ones.
    fn doubt_decimal(&mut self, word: Word<'a>) {
        let decimal = word.text.bytes().all(|digit| digit.is_ascii_digit());
        if let (true, Ok(value @ 10..)) = (decimal, numbers::number(word.text)) {
            let message = format!("{value} is decimal ({value:X}h); if it is meant as hexadecimal write {value}h");
            self.warnings.push(word.fault(message));
        }
    }

    /// The next word as a port: a number, `CONFIG_ADDRESS` or `CONFIG_DATA`, perhaps with a number added.
    pub fn port(&mut self) -> Result<u32, Fault> {
        let word = self.next("a port")?;
        let (name, added) = parts(word);
        let port = match (names::port_named(name), added) {
            (Some(port), Some(added)) => port.checked_add(self.added(added)?),
            (Some(port), None) => Some(port),
            (None, _) => {
                self.doubt_decimal(word);
                Some(self.value(word, PORT)?)
            }
        };
        port.filter(|&port| port <= 0xFFFF).ok_or_else(|| word.expected("a port of at most FFFFh"))
    }

    /// The next word as an address: a number, the name of a memory-mapped register, `GTT[n]`, `MMIO+..`,
    /// `WINDOW+..` or a constant.
    pub fn place(&mut self) -> Result<Location<'a>, Fault> {
        let word = self.next(PLACE)?;
        if word.text.starts_with(|c: char| c.is_ascii_digit()) || numbers::number(word.text).is_ok() {
            self.doubt_decimal(word);
            return Ok(Location { word, address: word.number("an address")?, bytes: None });
        }
        if let Some(address) = self.constant(word)? {
            return Ok(Location { word, address, bytes: None });
        }
        let (name, added) = parts(word);
        let window = name.eq_ignore_ascii_case("WINDOW");
        let (at, bytes) = if window { (0, None) } else { self.register(word, name)? };
        let offset = added.map_or(Ok(0), |added| self.added(added))?;
        if let Some(added) = added {
            self.doubt_decimal(added);
        }
        if window {
            return self.in_window(word, offset);
        }
        let at = at.checked_add(offset).filter(|&at| at < names::REGISTERS_BYTES);
        let at = at.ok_or_else(|| word.expected("an offset below 80000h, the registers' 512 KiB"))?;
        Ok(Location { word, address: self.registers(word, name)? + at, bytes: bytes.filter(|_| added.is_none()) })
    }

    /// The offset and the size of a memory-mapped register.
    fn register(&self, word: Word<'a>, name: &str) -> Result<(u32, Option<u8>), Fault> {
        if name.eq_ignore_ascii_case("MMIO") {
            return Ok((0, None));
        }
        if let Some(entry) = self.table_entry(word)? {
            return Ok((names::entry_offset(entry), Some(4)));
        }
        let register = names::mapped_named(name).ok_or_else(|| word.expected(PLACE))?;
        Ok((register.at, Some(register.bytes)))
    }

    /// Where the memory-mapped registers stand, of which the word names one.
    fn registers(&self, word: Word<'_>, name: &str) -> Result<u32, Fault> {
        match self.bases.registers {
            0 => Err(word.fault(format!(
                "{name} stands at MMADR, which is 0 here: expected a write of dev1.MMADR before this line \
                 (device 1 answers only while GMS is not 00)"
            ))),
            base => Ok(base),
        }
    }

    fn in_window(&self, word: Word<'a>, offset: u32) -> Result<Location<'a>, Fault> {
        let Bases { window, window_bytes, .. } = self.bases;
        if window == 0 {
            return Err(word.fault(
                "WINDOW stands at GMADR, which is 0 here: expected a write of dev1.GMADR before this line \
                 (device 1 answers only while GMS is not 00)",
            ));
        }
        if offset >= window_bytes {
            return Err(word.expected(&format!("an offset below {window_bytes:X}h, the window's size")));
        }
        Ok(Location { word, address: window + offset, bytes: None })
    }

    /// The number in `GTT[n]`, if the word starts with one.
    fn table_entry(&self, word: Word<'a>) -> Result<Option<u32>, Fault> {
        if !word.text.get(..4).is_some_and(|start| start.eq_ignore_ascii_case("GTT[")) {
            return Ok(None);
        }
        let (entry, after) =
            word.after(4).text.split_once(']').ok_or_else(|| word.expected("GTT[n] with its closing ']'"))?;
        if !after.is_empty() && !after.starts_with('+') {
            return Err(word.expected(PLACE));
        }
        self.entry_number(Word { text: entry, ..word.after(4) }).map(Some)
    }

    /// A word as the number of a table entry.
    pub fn entry_number(&self, word: Word<'a>) -> Result<u32, Fault> {
        match self.value(word, "an entry's number")? {
            entry if entry < names::ENTRY_COUNT => Ok(entry),
            _ => Err(word.expected("an entry from 0 to 16383")),
        }
    }

    /// The address of a table entry, which the word names.
    pub fn entry_address(&self, word: Word<'a>, entry: u32) -> Result<u32, Fault> {
        Ok(self.registers(word, &format!("GTT[{entry}]"))? + names::entry_offset(entry))
    }

    /// The next word as a page up to the last one that an entry can name.
    pub fn page(&mut self, last: u32) -> Result<(u32, Word<'a>), Fault> {
        let word = self.next("a page")?;
        self.doubt_decimal(word);
        match self.value(word, "a page")? {
            page if page <= last && page.is_multiple_of(4096) => Ok((page, word)),
            _ => Err(word.expected(&format!("a page, a multiple of 1000h up to {last:X}h"))),
        }
    }

    /// The next word as a configuration register: `dev0.SMRAM`, `dev0.70h` or, as setpci has it, `dev0.70`.
    pub fn config_register(&mut self) -> Result<ConfigRegister, Fault> {
        let word = self.next(CONFIG)?;
        let (device, name) = word.text.split_once('.').ok_or_else(|| word.expected(CONFIG))?;
        let device = ["dev0", "dev1"].iter().position(|own| own.eq_ignore_ascii_case(device));
        let device = device.ok_or_else(|| word.expected(CONFIG))?;
        if let Some(register) = names::config_named(device, name) {
            return Ok(ConfigRegister { device, at: register.at, bytes: Some(register.bytes) });
        }
        if names::config_named(1 - device, name).is_some() {
            let other = 1 - device;
            return Err(word.expected(&format!("a register of device {device} ({name} is one of device {other})")));
        }
        let after = word.after("dev0.".len());
        let digits = !name.is_empty() && name.bytes().all(|digit| digit.is_ascii_hexdigit());
        let at = match digits {
            true => u32::from_str_radix(name, 16).unwrap_or(u32::MAX),
            false => self.value(after, CONFIG).map_err(|_| word.expected(CONFIG))?,
        };
        match at {
            0..=0xFF => Ok(ConfigRegister { device, at, bytes: None }),
            _ => Err(after.expected("a register from 00h to FFh")),
        }
    }
}

/// `NAME+NUMBER`: the name and the number.
fn parts(word: Word<'_>) -> (&str, Option<Word<'_>>) {
    match word.text.find('+') {
        Some(at) => (&word.text[..at], Some(word.after(at + 1))),
        None => (word.text, None),
    }
}
