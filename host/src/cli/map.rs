//! `map`: where each address goes, as a table and as a picture.

use super::args::{Grammar, Options};
use super::failure::{Failure, Status};
use super::files::{self, Secrecy, Sink, Source};
use super::load::{List, Memory};
use super::style::Style;
use super::survey::{config_write, Cell, Class, Found, Map, Mapping, Reach, COLUMNS};
use super::{names, numbers, svg, words};
use mitrophel::record;
use mitrophel::reference::Smram;
use mitrophel::trace::REDACTED;
use std::ffi::OsString;
use std::io::{self, Write};

pub const GRAMMAR: Grammar = Grammar {
    command: "map",
    values: &[
        "--board",
        "--memory",
        "--image",
        "--display",
        "--smram",
        "--pam",
        "--window",
        "--registers",
        "--window-size",
        "--svg",
        "--color",
    ],
    switches: &["--text", "--binary", "--hole"],
    files: 1,
};

/// The columns' widths in the table.
const WIDTHS: [usize; 4] = [14, 15, 10, 9];

/// `mitrophel map`
pub fn run(words: &[OsString]) -> Result<Status, Failure> {
    let options = GRAMMAR.parse(words)?;
    let board = options.board()?;
    let style = Style::new(options.colour()?);
    let sink = options.value("--svg").map(Sink::named);
    if sink.as_ref().is_some_and(|sink| *sink != Sink::Standard && sink.same(&Sink::Standard)) {
        return Err(options.usage("--svg names the file that the map is printed to"));
    }
    options.one_standard_input()?;
    if let Some(sink) = &sink {
        options.spares("--svg", sink, options.sources().into_iter().chain(options.image()).chain(options.display()))?;
    }
    let memory = Memory::given(&options, board)?;
    let list = match options.source() {
        Ok(source) => traced(&options, &source)?,
        Err(_) => described(&options)?,
    };
    let map = Map::after(board, &memory, &list)?;
    if let Some(sink) = &sink {
        files::save(sink, svg::draw(&map).as_bytes(), Secrecy::Open)?;
    }
    if sink != Some(Sink::Standard) {
        let mut out = io::BufWriter::new(io::stdout().lock());
        map.print(&mut out, style)?;
        out.flush()?;
    }
    Ok(Status::Done)
}

/// The list of a file.
fn traced(options: &Options, source: &Source) -> Result<List, Failure> {
    let only_without = ["--smram", "--pam", "--hole", "--window", "--registers", "--window-size"];
    if let Some(option) = only_without.iter().find(|option| options.has(option)) {
        return Err(options.usage(format!("{option} and FILE exclude each other: FILE's records decide")));
    }
    List::read(source, options.form()?)
}

/// The list that sets up what the options describe.
fn described(options: &Options) -> Result<List, Failure> {
    let (smram, pam) = (byte(options, "--smram")?, byte(options, "--pam")?);
    let small = options.converted("--window-size", |text| match numbers::size(text) {
        Some(size) if size == 32 << 20 => Ok(true),
        Some(size) if size == 64 << 20 => Ok(false),
        _ => Err("32M or 64M".to_string()),
    })?;
    let small = small.unwrap_or(false);
    let window = aligned(options, "--window", if small { 32 << 20 } else { 64 << 20 })?;
    let registers = aligned(options, "--registers", names::REGISTERS_BYTES)?;
    if !Smram(smram as u8).graphics_on() && window.or(registers).is_some() {
        return Err(options.usage("--window and --registers act only while GMS (SMRAM bits 7:6) is not 00"));
    }
    let mut records = config_write(0, 0x72, 1, u32::from(small)).to_vec();
    records.extend(config_write(0, 0x70, 1, smram));
    records.extend(config_write(0, 0x51, 1, pam));
    records.extend(config_write(0, 0x58, 1, if options.has("--hole") { 0x80 } else { 0 }));
    if let Some(base) = window {
        records.extend(config_write(1, 0x10, 4, base));
    }
    if let Some(base) = registers {
        records.extend(config_write(1, 0x14, 4, base));
    }
    if window.or(registers).is_some() {
        records.extend(config_write(1, 0x04, 1, 0x06));
    }
    List::binary(String::new(), record::encode(&records))
}

/// An option's value for a register of one byte; 0 where it is not given.
fn byte(options: &Options, name: &str) -> Result<u32, Failure> {
    match options.number(name)?.unwrap_or(0) {
        value if value > 0xFF => Err(options.usage(format!("{name}: expected a byte, found {value:X}h"))),
        value => Ok(value),
    }
}

/// An option's address, which must be a multiple of the size of what stands there.
fn aligned(options: &Options, name: &str, size: u32) -> Result<Option<u32>, Failure> {
    match options.number(name)? {
        Some(base) if !base.is_multiple_of(size) => {
            Err(options.usage(format!("{name}: expected a multiple of {size:X}h, found {base:X}h")))
        }
        base => Ok(base),
    }
}

impl Map {
    fn print(&self, out: &mut impl Write, style: Style) -> io::Result<()> {
        writeln!(out, "{}", style.bold(&self.title))?;
        for line in self.lines.iter().flat_map(|line| words::wrapped(line, words::WIDTH)) {
            writeln!(out, "{line}")?;
        }
        let headings: Vec<String> = COLUMNS.iter().zip(WIDTHS).map(|(name, width)| format!("{name:<width$}")).collect();
        let heading = format!("  {:<8} {:<8}  {} range", "from", "to", headings.join(" "));
        writeln!(out, "\n{}", style.bold(&heading))?;
        for row in &self.rows {
            let mark = if row.protected { style.bad("*") } else { " ".to_string() };
            let cells: Vec<String> =
                row.cells.iter().zip(WIDTHS).map(|(cell, width)| paint(style, cell, width)).collect();
            let line = format!("{mark} {:08X}-{:08X}  {} {}", row.first, row.last, cells.join(" "), row.name);
            writeln!(out, "{}", line.trim_end())?;
        }
        write!(out, "\n*: protected. ")?;
        self.notes().iter().try_for_each(|note| writeln!(out, "{note}"))?;
        self.print_table(out, style)
    }

    fn print_table(&self, out: &mut impl Write, style: Style) -> io::Result<()> {
        let (mappings, left) = self.table.shown();
        if mappings.is_empty() {
            return Ok(());
        }
        let state = if self.table.translation { "on" } else { "off: every access through it is refused 3" };
        writeln!(out, "\n{}", style.bold(&format!("Translation table ({state})")))?;
        for mapping in mappings {
            let window = format!("{:07X}-{:07X}", mapping.first * 4096, mapping.last * 4096 + 4095);
            writeln!(out, "  window {window}  {:<21} {}", mapping.entries(), self.goes(mapping, style))?;
        }
        match left {
            0 => Ok(()),
            left => writeln!(out, "  .. and {}", numbers::counted(left, "more word")),
        }
    }

    /// Where entries go.
    fn goes(&self, mapping: &Mapping, style: Style) -> String {
        let range = |(first, last)| format!("{first:08X}-{last:08X}");
        let words = self.table.places(mapping).map(range).unwrap_or_default();
        match mapping.found {
            Found::Pages { page, kind, reach } => {
                let pages = range((page.into(), u64::from(page) + 4096 * mapping.count() - 1));
                let memory = if kind == 0b01 { "display cache" } else { "memory" };
                match reach {
                    Reach::Reached => format!("{memory} {pages}"),
                    Reach::OtherMemory => style.bad(&format!("refused 5: type {kind:02b}")),
                    Reach::AboveMemory if kind == 0b01 => style.bad(&format!("refused 7: {memory} {pages}")),
                    Reach::AboveMemory => style.bad(&format!("refused 7: {pages}")),
                    Reach::Protected => style.bad(&format!("refused 6: {pages}")),
                }
            }
            Found::Refused(refusal) => style.bad(&format!("refused {}: {words}", refusal.code())),
            Found::Hidden => format!("{REDACTED} {words}"),
        }
    }
}

fn paint(style: Style, cell: &Cell, width: usize) -> String {
    let text = format!("{:<width$}", cell.text);
    match cell.class {
        Class::Refused => style.bad(&text),
        Class::Error => style.warning(&text),
        Class::Hub | Class::Vga | Class::Nothing => style.dim(&text),
        Class::Memory | Class::Registers | Class::Window | Class::Split => text,
    }
}
