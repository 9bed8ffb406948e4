//! Records and their answers as `replay` prints them: text in columns, JSON or CSV.

use super::pair::Step;
use super::style::Style;
use super::told::{Told, Tone};
use super::{names, words};
use mitrophel::{Kind, Target};
use std::io::{self, Write};

/// How records are printed.
#[derive(Clone, Copy, Debug, PartialEq, Eq)]
pub enum Format {
    Text,
    /// One object a line.
    Json,
    /// A line of names, then one line a record.
    Csv,
}

/// One record to print.
pub struct Entry<'a, 's, 'm> {
    /// From 1.
    pub number: usize,
    /// The trace's file and line; none for the binary form.
    pub place: Option<(&'a str, u32)>,
    /// The line as it stands beside the number, where that is asked for.
    pub line: Option<String>,
    pub step: &'a Step<'s, 'm>,
    pub told: &'a Told,
}

/// Prints records.
pub struct Report {
    pub format: Format,
    pub style: Style,
    /// The terminal's width; none where lines may be of any length.
    pub columns: Option<usize>,
}

impl Report {
    /// What stands before the first record.
    pub fn start(&self, out: &mut impl Write) -> io::Result<()> {
        match self.format {
            Format::Csv => writeln!(out, "{}", FIELDS.join(",")),
            Format::Text | Format::Json => Ok(()),
        }
    }

    pub fn record(&self, out: &mut impl Write, entry: &Entry<'_, '_, '_>) -> io::Result<()> {
        match self.format {
            Format::Json => writeln!(out, "{}", json(entry)),
            Format::Csv => writeln!(out, "{}", csv(entry)),
            Format::Text => self.text(out, entry),
        }
    }

    fn text(&self, out: &mut impl Write, entry: &Entry<'_, '_, '_>) -> io::Result<()> {
        let mut lead = format!("{:>6}", entry.number);
        if let Some(line) = &entry.line {
            lead.push_str(&format!(" {line:>6}"));
        }
        let (asked, outcome) = if self.columns.is_some_and(|columns| columns < WIDE) { NARROW } else { COLUMNS };
        let told = entry.told;
        let mut page = Page { style: self.style, columns: self.columns, text: String::new(), width: 0, due: 0 };
        page.put(&lead, Paint::Dim, 0);
        page.put(&told.asked, Paint::Plain, asked);
        page.put(&told.outcome, Paint::Tone(told.tone), outcome);
        if told.tone == Tone::Refused && !told.reason.is_empty() {
            page.due = 1;
            page.put(&format!("({})", told.reason), Paint::Plain, 0);
        } else if !told.reason.is_empty() {
            page.put(&told.reason, Paint::Dim, 0);
        }
        if told.line {
            page.put("interrupt line up", Paint::Warning, 0);
        }
        writeln!(out, "{}", page.text)
    }
}

/// Columns of the record and of where it went, and where a terminal has no room for them.
const COLUMNS: (usize, usize) = (34, 36);
const NARROW: (usize, usize) = (24, 26);
const WIDE: usize = 120;

/// Where a piece goes on that has no room beside the one before.
const INDENT: usize = 10;

/// Pieces of text side by side, which go on below where the terminal is too narrow.
struct Page {
    style: Style,
    columns: Option<usize>,
    text: String,
    /// Characters on the last line.
    width: usize,
    /// Spaces before the next piece.
    due: usize,
}

enum Paint {
    Plain,
    Dim,
    Warning,
    Tone(Tone),
}

impl Page {
    /// Adds a piece. The next one stands two spaces after it, or after so many columns of it.
    fn put(&mut self, piece: &str, paint: Paint, columns: usize) {
        let length = piece.chars().count();
        let fits = |room: usize| self.columns.is_none_or(|columns| room <= columns);
        if fits(self.width + self.due + length) {
            self.text.push_str(&" ".repeat(self.due));
            self.text.push_str(&self.painted(piece, &paint));
            self.width += self.due + length;
        } else {
            let room = self.columns.unwrap_or_default().saturating_sub(INDENT).max(INDENT);
            for line in words::wrapped(piece, room) {
                self.text.push_str(&format!("\n{}{}", " ".repeat(INDENT), self.painted(&line, &paint)));
                self.width = INDENT + line.chars().count();
            }
        }
        self.due = 2 + columns.saturating_sub(length);
    }

    fn painted(&self, piece: &str, paint: &Paint) -> String {
        match paint {
            Paint::Plain => piece.to_string(),
            Paint::Dim => self.style.dim(piece),
            Paint::Warning => self.style.warning(piece),
            Paint::Tone(tone) => self.style.tone(*tone, piece),
        }
    }
}

/// A field of a record in JSON and CSV.
enum Value {
    Number(u32),
    Flag(bool),
    Text(String),
    None,
}

/// The fields' names, which programs rely on: they stay, and new ones come after them.
const FIELDS: [&str; 19] = [
    "record",
    "file",
    "line",
    "statement",
    "kind",
    "width",
    "smm",
    "address",
    "data",
    "code",
    "refusal",
    "target",
    "interrupt",
    "at",
    "value",
    "steps",
    "outcome",
    "reason",
    "redacted",
];

fn fields(entry: &Entry<'_, '_, '_>) -> [Value; FIELDS.len()] {
    let Entry { number, place, step, told, .. } = entry;
    let (record, answer) = (&step.record, &step.answer);
    let text = |text: &str| Value::Text(text.to_string());
    let unless_hidden = |value| if told.hidden { Value::None } else { Value::Number(value) };
    [
        Value::Number(*number as u32),
        place.map_or(Value::None, |(file, _)| text(file)),
        place.map_or(Value::None, |(_, line)| Value::Number(line)),
        text(&told.asked),
        record.kind().map_or(Value::None, |kind| text(kind_name(kind))),
        Value::Number(record.width.into()),
        Value::Flag(record.is_management()),
        Value::Number(record.address),
        unless_hidden(record.data),
        Value::Number(answer.code.into()),
        answer.refusal().map_or(Value::None, |refusal| text(names::refusal_name(refusal))),
        answer.target().map_or(Value::None, |target| text(target_name(target))),
        Value::Flag(answer.line != 0),
        if told.hidden_page && answer.code == 0 { Value::None } else { Value::Number(answer.address) },
        unless_hidden(answer.value),
        Value::Number(answer.count),
        text(&told.outcome),
        text(&told.reason),
        Value::Flag(told.hidden || told.hidden_page),
    ]
}

fn kind_name(kind: Kind) -> &'static str {
    match kind {
        Kind::IoRead => "in",
        Kind::IoWrite => "out",
        Kind::DataRead => "read",
        Kind::CodeRead => "fetch",
        Kind::Write => "write",
        Kind::MasterRead => "master-read",
        Kind::MasterWrite => "master-write",
        Kind::Run => "run",
        Kind::Reset => "reset",
    }
}

fn target_name(target: Target) -> &'static str {
    match target {
        Target::None => "none",
        Target::Memory => "memory",
        Target::Register => "register",
        Target::Hub => "hub",
        Target::Vga => "vga",
        Target::MemoryMapped => "mmio",
        Target::DisplayCache => "display",
    }
}

fn json(entry: &Entry<'_, '_, '_>) -> String {
    let fields = FIELDS.iter().zip(fields(entry)).map(|(name, value)| {
        let value = match value {
            Value::Number(number) => number.to_string(),
            Value::Flag(flag) => flag.to_string(),
            Value::Text(text) => quoted(&text),
            Value::None => "null".to_string(),
        };
        format!("\"{name}\":{value}")
    });
    format!("{{{}}}", fields.collect::<Vec<_>>().join(","))
}

/// A string of JSON.
fn quoted(text: &str) -> String {
    let escaped = text.chars().map(|c| match c {
        '"' | '\\' => format!("\\{c}"),
        c if c.is_control() => format!("\\u{:04x}", u32::from(c)),
        c => c.to_string(),
    });
    format!("\"{}\"", escaped.collect::<String>())
}

fn csv(entry: &Entry<'_, '_, '_>) -> String {
    let values = fields(entry).map(|value| match value {
        Value::Number(number) => number.to_string(),
        Value::Flag(flag) => flag.to_string(),
        Value::Text(text) if text.contains(['"', ',', '\n', '\r']) => format!("\"{}\"", text.replace('"', "\"\"")),
        Value::Text(text) => text,
        Value::None => String::new(),
    });
    values.join(",")
}

#[cfg(test)]
mod tests {
    use super::*;

    fn page(columns: Option<usize>) -> String {
        let mut page = Page { style: Style { colour: false }, columns, text: String::new(), width: 0, due: 0 };
        page.put("     1", Paint::Dim, 0);
        page.put("read4 A0000h", Paint::Plain, 14);
        page.put("VGA offset 0h", Paint::Plain, 15);
        page.put("rule 2: LSMM 11, management mode only", Paint::Dim, 0);
        page.text
    }

    #[test]
    fn a_piece_without_room_goes_on_below() {
        assert_eq!(page(None), "     1  read4 A0000h    VGA offset 0h    rule 2: LSMM 11, management mode only");
        assert_eq!(page(Some(78)), page(None));
        let narrow = "     1  read4 A0000h    VGA offset 0h\n          rule 2: LSMM 11, management mode only";
        assert_eq!(page(Some(77)), narrow);
        let narrower =
            "     1  read4 A0000h    VGA offset 0h\n          rule 2: LSMM 11, management\n          mode only";
        assert_eq!(page(Some(40)), narrower);
    }

    #[test]
    fn strings_of_json_are_escaped() {
        assert_eq!(quoted("a \"b\" \\ \u{1b}\u{B7}"), "\"a \\\"b\\\" \\\\ \\u001b\u{B7}\"");
    }
}
