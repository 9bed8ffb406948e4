//! Record lists and memories as commands take them.

use super::args::Options;
use super::blocks::{self, Blocks, BLOCK};
use super::failure::{complain, shown, Failure, Status};
use super::files::{Input, Source};
use super::follow::{Follower, Ground};
use super::{numbers, pair, trace};
use mitrophel::record::{self, MAX_RECORDS, RECORD_BYTES};
use mitrophel::trace::{Assembled, Expectation, Place, Warning};
use mitrophel::{is_memory_length, Board, Record, MOST_MEMORY};
use std::io;
use std::ops::Range;
use std::path::Path;

/// The two forms of a list.
#[derive(Clone, Copy, Debug, PartialEq, Eq)]
pub enum Form {
    Text,
    Binary,
}

/// As much of a list as its form is told by.
const FORM_BYTES: usize = 64 << 10;

impl Form {
    /// Told by the first 64 KiB: a text trace has no control characters but tabs and line ends. A good
    /// record has a zero byte, so a list with one good record there is never taken for a text.
    pub fn of(bytes: &[u8]) -> Form {
        let control = |byte: &u8| (*byte < 0x20 && !b"\t\n\r".contains(byte)) || *byte == 0x7F;
        let start = &bytes[..bytes.len().min(FORM_BYTES)];
        if start.iter().any(control) {
            Form::Binary
        } else {
            Form::Text
        }
    }
}

impl Input {
    /// The form of a list, told by its start unless it is given.
    pub fn form(&mut self, given: Option<Form>) -> Result<Form, Failure> {
        self.fill(FORM_BYTES)?;
        Ok(given.unwrap_or_else(|| Form::of(&self.bytes)))
    }
}

/// A list of records and where each came from.
pub struct List {
    /// The list's own name first, then what it includes.
    files: Vec<String>,
    pub records: Vec<u8>,
    /// The place of each record of a text trace; of a binary list, nothing.
    places: Vec<Place>,
    expectations: Vec<Expectation>,
    pub warnings: Vec<Warning>,
}

impl List {
    /// Reads a list. Its form is told by its content unless it is given.
    pub fn read(source: &Source, form: Option<Form>) -> Result<List, Failure> {
        List::of(source, source.read()?, form)
    }

    /// The same, of what was read.
    pub fn of(source: &Source, bytes: Vec<u8>, form: Option<Form>) -> Result<List, Failure> {
        match form.unwrap_or_else(|| Form::of(&bytes)) {
            Form::Text => List::text(source, &bytes).map(List::warned),
            Form::Binary => List::binary(source.name(), bytes),
        }
    }

    /// Reads the text trace that a source must be. Records are refused by their form, and nothing of them is
    /// told, since they may hold a key.
    pub fn read_trace(source: &Source) -> Result<List, Failure> {
        let bytes = source.read()?;
        if bytes[..bytes.len().min(FORM_BYTES)].contains(&0) {
            let found = "expected a text trace, found the binary form, which 'mitrophel disasm' lists";
            return Err(Failure::input(format!("{}: {found}", source.name())));
        }
        List::text(source, &bytes).map(List::warned)
    }

    /// Reads the records that a source must be.
    pub fn read_records(source: &Source) -> Result<List, Failure> {
        let bytes = source.read()?;
        if Form::of(&bytes) == Form::Text && !bytes.is_empty() {
            let found = "has no control characters, as a text trace has none; 'mitrophel asm' makes records of one";
            complain(&format!("{}: warning: {found}", source.name()));
        }
        List::binary(source.name(), bytes)
    }

    /// Whether it was a text trace, or may have been one: an empty list has no form.
    pub fn is_text(&self) -> bool {
        !self.places.is_empty() || self.records.is_empty()
    }

    /// The same list, its warnings told.
    fn warned(self) -> List {
        self.warnings.iter().for_each(|warning| complain(&warning.to_string()));
        self
    }

    /// The text trace that a source is. Its warnings are yet to be told.
    pub fn of_text(input: &mut Input) -> Result<List, Failure> {
        input.fill_whole()?;
        List::text(&input.source, &input.bytes)
    }

    /// A text trace.
    pub fn text(source: &Source, bytes: &[u8]) -> Result<List, Failure> {
        let text = String::from_utf8_lossy(bytes);
        let mut status = Status::Input;
        let include = &mut |path: &str| included(source, path, &mut status);
        let assembled = trace::assemble_with(&source.name(), &text, include);
        let assembled = assembled.map_err(|errors| Failure::trace(status, errors.to_string()))?;
        let Assembled { records, places, files, expectations, warnings } = assembled;
        Ok(List { files, records, places, expectations, warnings })
    }

    pub fn binary(name: String, records: Vec<u8>) -> Result<List, Failure> {
        whole_records(&name, records.len() as u64)?;
        Ok(List { files: vec![name], records, places: Vec::new(), expectations: Vec::new(), warnings: Vec::new() })
    }

    /// A record, from 0.
    pub fn record(&self, index: usize) -> Record {
        record::decode(&self.records[index * RECORD_BYTES..]).next().unwrap_or_default()
    }

    /// The place of a record, from 0: `FILE:LINE` or `FILE: record 3`.
    pub fn place(&self, index: usize) -> String {
        match self.line(index) {
            Some((file, line)) => format!("{file}:{line}"),
            None => format!("{}: record {}", self.files[0], numbers::grouped(index as u64 + 1)),
        }
    }

    /// The file and the line of a record, from 0; none in the binary form.
    pub fn line(&self, index: usize) -> Option<(&str, u32)> {
        self.places.get(index).map(|place| self.named(*place))
    }

    /// The line of a record, from 0, after the file's name if it is not the trace's own; `-` in the binary form.
    pub fn short_line(&self, index: usize) -> String {
        match self.places.get(index) {
            Some(place) if place.file == 0 => place.line.to_string(),
            Some(_) => self.place(index),
            None => "-".to_string(),
        }
    }

    /// The name of a place's file, and its line.
    pub fn named(&self, place: Place) -> (&str, u32) {
        (&self.files[place.file as usize], place.line)
    }

    pub fn name(&self) -> &str {
        &self.files[0]
    }

    pub fn expectations(&self) -> &[Expectation] {
        &self.expectations
    }

    /// The statements of the trace itself that have records, with their places.
    pub fn statements(&self) -> Vec<(Place, Range<usize>)> {
        let mut statements: Vec<(Place, Range<usize>)> = Vec::new();
        for (index, &place) in self.places.iter().enumerate().filter(|(_, place)| place.file == 0) {
            match statements.last_mut().filter(|(last, _)| *last == place) {
                Some((_, records)) => records.end = index + 1,
                None => statements.push((place, index..index + 1)),
            }
        }
        statements
    }

    /// The memory, of this length, that is protected at some time of the list. Its values are not for everybody: a
    /// key is put there before, and is still there after a reset.
    pub fn guarded(&self, length: usize) -> Vec<Range<u32>> {
        let mut ground = Ground::with_memory(length);
        let mut follower = Follower::new(&mut ground);
        let mut ranges = Vec::new();
        for record in record::decode(&self.records) {
            follower.note(&record);
            for range in follower.hub().protected_ranges() {
                if !ranges.contains(&range) {
                    ranges.push(range);
                }
            }
        }
        ranges
    }

    /// The bytes of each call that the list needs.
    pub fn calls(&self) -> Result<Vec<Range<usize>>, Failure> {
        let mut calls = Vec::new();
        let mut from = 0;
        loop {
            let length = pair::first_call(&self.records[from..]);
            let length = length.ok_or_else(|| uncut(&self.place(from / RECORD_BYTES)))?;
            calls.push(from..from + length);
            from += length;
            if from == self.records.len() {
                return Ok(calls);
            }
        }
    }
}

/// The text of a file that a trace includes, or the status to end with. The path starts with the trace's folder
/// as messages show it.
fn included(trace: &Source, path: &str, status: &mut Status) -> io::Result<String> {
    let folder = match trace {
        Source::Standard => Path::new(""),
        Source::File(own) => own.parent().unwrap_or(Path::new("")),
    };
    let path = Path::new(path).strip_prefix(shown(folder)).map_or(path.into(), |inside| folder.join(inside));
    let source = Source::File(path);
    let bytes = source.read().map_err(|failure| {
        *status = failure.status;
        let own = format!("{}: ", source.name());
        io::Error::other(failure.message.strip_prefix(&own).unwrap_or(&failure.message).to_string())
    })?;
    Ok(String::from_utf8_lossy(&bytes).into_owned())
}

/// A list that no reset divides into calls.
pub fn uncut(place: &str) -> Failure {
    let most = numbers::grouped(MAX_RECORDS as u64);
    Failure::input(format!(
        "{place}: a call takes {most} records and starts cold, so a longer list is cut in front of reset records; \
         expected one among the {most} records after this one, found none"
    ))
}

/// Asks that a binary list ends with a whole record.
pub fn whole_records(name: &str, length: u64) -> Result<(), Failure> {
    let rest = length % RECORD_BYTES as u64;
    if rest == 0 {
        return Ok(());
    }
    Err(Failure::input(format!(
        "{name}: byte {}: expected a whole number of 16-byte records, found {} after {} (a text trace has no \
         control characters)",
        numbers::grouped(length - rest),
        numbers::counted(rest, "byte"),
        numbers::counted(length / RECORD_BYTES as u64, "record"),
    )))
}

/// What a call is lent: main memory, and the display cache, which is empty where the board has none.
#[derive(Clone, Debug, Default, PartialEq, Eq)]
pub struct Lent {
    pub memory: Vec<u8>,
    pub display: Vec<u8>,
}

/// What a call is lent, as it is at the start.
pub struct Memory {
    length: usize,
    image: Blocks,
    display_length: usize,
    display: Blocks,
}

const LENGTHS: &str = "a multiple of 8M from 8M to 1G";

impl Memory {
    /// `--memory`, `--image` and `--display`.
    pub fn given(options: &Options, board: Board) -> Result<Memory, Failure> {
        options.has_display(board)?;
        let (length, image) = main_memory(options)?;
        let display_length = board.display_bytes();
        let display = options.display().map(|source| whole_display(&source, display_length)).transpose()?;
        Ok(Memory { length, image, display_length, display: display.unwrap_or_default() })
    }

    /// Zeros for a board; `length` must be one that a call takes.
    #[cfg(test)]
    pub fn zeros(board: Board, length: usize) -> Memory {
        let display_length = board.display_bytes();
        Memory { length, image: Blocks::default(), display_length, display: Blocks::default() }
    }

    /// What is lent, as it is at the start.
    pub fn fresh(&self) -> Lent {
        self.filled(Lent { memory: vec![0; self.length], display: vec![0; self.display_length] })
    }

    /// The same, made of what was used. Reading all of it is then cheap, since the system has mapped its pages.
    pub fn renewed(&self, mut used: Lent) -> Lent {
        blocks::clear(&mut used.memory);
        blocks::clear(&mut used.display);
        self.filled(used)
    }

    fn filled(&self, mut zeros: Lent) -> Lent {
        self.image.put(&mut zeros.memory);
        self.display.put(&mut zeros.display);
        zeros
    }

    pub fn length(&self) -> usize {
        self.length
    }
}

/// `--memory` and `--image`: a length, by default the image's or 8M, and what stands at address 0.
fn main_memory(options: &Options) -> Result<(usize, Blocks), Failure> {
    let length = options.size("--memory")?.map(|length| usize::try_from(length).unwrap_or(usize::MAX));
    if let Some(text) = options.value("--memory").filter(|_| !length.is_none_or(is_memory_length)) {
        return Err(options.usage(format!("--memory: expected {LENGTHS}, found '{}'", shown(text))));
    }
    let Some(source) = options.image() else { return Ok((length.unwrap_or(8 << 20), Blocks::default())) };
    let most = length.unwrap_or(MOST_MEMORY);
    let (image, bytes) = read_image(&source, most)?;
    let (expected, found) = (format!("{}: expected an image of", source.name()), found(bytes, most));
    match length {
        Some(length) if bytes > most => {
            Err(Failure::input(format!("{expected} at most {length} bytes, the memory's length, found {found}")))
        }
        Some(length) => Ok((length, image)),
        None if is_memory_length(bytes) => Ok((bytes, image)),
        None => Err(Failure::input(format!(
            "{expected} {LENGTHS}, found {found}; with --memory a shorter one stands at address 0"
        ))),
    }
}

/// `--display`: what stands in the display cache, all of it, since its length is the board's.
fn whole_display(source: &Source, length: usize) -> Result<Blocks, Failure> {
    let (image, bytes) = read_image(source, length)?;
    if bytes == length {
        return Ok(image);
    }
    let (name, found) = (source.name(), found(bytes, length));
    Err(Failure::input(format!("{name}: expected {length} bytes, the display cache's length, found {found}")))
}

/// How many bytes an image has, of which at most one more than `most` was read.
fn found(bytes: usize, most: usize) -> String {
    if bytes > most {
        "more".to_string()
    } else {
        format!("{bytes} bytes")
    }
}

/// An image and its length, of which at most one byte more than `most` is read: it tells that there are too many.
fn read_image(source: &Source, most: usize) -> Result<(Blocks, usize), Failure> {
    let (mut input, mut image, mut length) = (source.open()?, Blocks::default(), 0);
    loop {
        input.fill(BLOCK.min(most + 1 - length))?;
        image.keep(length, &input.bytes);
        length += input.bytes.len();
        if input.ended || length > most {
            return Ok((image, length));
        }
        input.bytes.clear();
    }
}

#[cfg(test)]
mod tests {
    use super::*;

    #[test]
    fn a_list_with_a_good_record_is_binary_and_a_trace_is_text() {
        assert_eq!(Form::of(b"# a comment\r\n\tread4 1000h\n"), Form::Text);
        assert_eq!(Form::of("# K\u{e4}rtchen\n".as_bytes()), Form::Text);
        assert_eq!(Form::of(b""), Form::Text);
        for record in [Record::reset(), Record::run(0x2020_2020), Record::write(0x2020_2020, 32, 0x2020_2020, false)] {
            let mut bytes = vec![b'A'; 160];
            bytes.extend(record::encode(&[record]));
            assert_eq!(Form::of(&bytes), Form::Binary);
        }
    }

    fn list(length: usize, resets: &[usize]) -> List {
        let mut records = vec![Record::read(0, 4, false); length];
        for &at in resets {
            records[at] = Record::reset();
        }
        List::binary("night.rec".to_string(), record::encode(&records)).expect("whole records")
    }

    #[test]
    fn a_long_list_is_cut_at_resets_or_refused_with_its_place() {
        assert_eq!(list(0, &[]).calls().expect("one call").len(), 1);
        let calls = list(150_000, &[10, 60_000, 65_000, 120_000]).calls().expect("three calls");
        assert_eq!(calls, [0..65_000 * 16, 65_000 * 16..120_000 * 16, 120_000 * 16..150_000 * 16]);
        let failure = list(150_000, &[10, 60_000, 130_000]).calls().expect_err("no reset from 60,001 to 125,535");
        assert!(failure.message.starts_with("night.rec: record 60,001: "), "{}", failure.message);
    }
}
