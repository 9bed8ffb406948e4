//! `demo`: an embedded sample told part by part, each outcome checked, and the whole list replayed again
//! with another key.
//!
//! The sample is a trace whose comments tell it: `#=` starts a part, `#:` is its text, `#>` is the outcome
//! of the access before it, as `replay` prints it, `#>>` has the reason shown too, and `#@ picture` draws
//! the lobby picture from memory.

use super::args::Grammar;
use super::compare::{Field, Protected};
use super::failure::{Failure, Status};
use super::load::Lent;
use super::names::Bases;
use super::pair::{Call, Pair};
use super::picture::{self, Glyphs};
use super::style::Style;
use super::told::{Secrets, Told, Tone};
use super::words::{self, wrapped, WIDTH};
use super::{numbers, trace};
use mitrophel::call::gmch_replay;
use mitrophel::record;
use mitrophel::trace::Expectation;
use mitrophel::{Answer, Board, Kind, Record, Target};
use std::ffi::OsString;
use std::io::{self, Write};

const SAMPLE: &str = include_str!("../../../examples/desk.trace");

const BOARD: Board = Board::I82810;
const MEMORY: usize = 8 << 20;

/// Where the sample draws: rows of the window, and the pixels of each.
const ROWS: u32 = 36;
const PITCH: u32 = 512;
const LEFT: u32 = 96;
const COLUMNS: u32 = 72;

const INTRODUCTION: &str = "Mitrophel: a machine-proved model of Intel's 82810 graphics hub. Every answer below is \
                            the proved call's; the reasons are the reference's, which replays the same records.";

pub const GRAMMAR: Grammar = Grammar { command: "demo", values: &["--color"], switches: &["--ascii"], files: 0 };

/// `mitrophel demo`
pub fn run(words: &[OsString]) -> Result<Status, Failure> {
    let options = GRAMMAR.parse(words)?;
    let style = Style::new(options.colour()?);
    let glyphs = if options.has("--ascii") { Glyphs::Ascii } else { Glyphs::of_locale() };
    let mut out = io::BufWriter::new(io::stdout().lock());
    Demo { sample: SAMPLE, call: gmch_replay, style, glyphs }.tell(&mut out)?;
    out.flush()?;
    Ok(Status::Done)
}

/// What is told, by which call, and how it looks.
struct Demo<'a> {
    sample: &'a str,
    call: Call,
    style: Style,
    glyphs: Glyphs,
}

impl Demo<'_> {
    fn tell(&self, out: &mut impl Write) -> Result<(), Failure> {
        let sample = trace::assemble(self.sample).map_err(|errors| Failure::disagreement(errors.to_string()))?;
        let run = Run::of(&sample.records, self.call)?;
        let text = INTRODUCTION.to_string();
        let (style, glyphs) = (self.style, self.glyphs);
        let mut teller = Teller { out, style, glyphs, run: &run, text, column: 0, part: 0, checked: 0 };
        let lines: Vec<&str> = self.sample.lines().collect();
        for (number, line) in lines.iter().enumerate() {
            if line.starts_with("#= ") {
                teller.column = outcome_column(&lines[number + 1..]);
            }
            let here = |expected: &&Expectation| expected.place.line as usize == number + 1;
            teller.line(line, sample.expectations.iter().find(here))?;
        }
        if teller.checked == 0 {
            return Err(Failure::disagreement("the sample expects nothing of its accesses, so nothing was checked"));
        }
        teller.two_keys(&Replay::of(run.other_key(), self.call)?)?;
        // The reference beside the other key's list as well.
        board(self.call).replay(&record::encode(&run.other_key()), |_| Ok(()))?;
        let checked = teller.checked;
        writeln!(
            out,
            "\n{}",
            style.good(&format!("{checked} outcomes checked: all as documents 01 and 02 have them."))
        )?;
        Ok(())
    }
}

/// The desk at its start.
fn board(call: Call) -> Pair {
    let lent = || Lent { memory: vec![0; MEMORY], display: vec![0; BOARD.display_bytes()] };
    Pair::by(BOARD, [lent(), lent()], call)
}

/// Where outcomes start in a part, whose lines these begin with.
fn outcome_column(lines: &[&str]) -> usize {
    let part = lines.iter().take_while(|line| !line.starts_with("#= "));
    let statements = part.filter(|line| line.contains("#>")).map(|line| statement(line).len());
    statements.max().unwrap_or_default() + 4
}

/// A line without its comment.
fn statement(line: &str) -> &str {
    line.split('#').next().unwrap_or_default().trim()
}

/// What a call makes of the sample's records.
struct Replay {
    records: Vec<Record>,
    answers: Vec<Answer>,
    memory: Vec<u8>,
}

impl Replay {
    /// By the call alone.
    fn of(records: Vec<Record>, call: Call) -> Result<Replay, Failure> {
        let bytes = record::encode(&records);
        let (mut memory, mut answers) = (vec![0; MEMORY], vec![0; bytes.len()]);
        match call(BOARD.number(), &mut memory, &bytes, &mut answers, &mut vec![0; BOARD.display_bytes()]) {
            0 => Ok(Replay { records, answers: record::decode_answers(&answers).collect(), memory }),
            code => Err(Failure::disagreement(format!("the proved call refused good arguments with {code}"))),
        }
    }

    /// The completed steps of each parser run.
    fn steps(&self) -> Vec<String> {
        let runs = self.records.iter().zip(&self.answers).filter(|(record, _)| record.kind() == Some(Kind::Run));
        runs.map(|(_, answer)| numbers::grouped(answer.count.into())).collect()
    }
}

/// The replay that is told.
struct Run {
    replay: Replay,
    told: Vec<Told>,
    /// What the names stood for at each record.
    bases: Vec<Bases>,
    /// Whether each record landed in protected memory, as management mode's alone do.
    landed: Vec<bool>,
    /// What is protected at the end.
    protected: Protected,
}

impl Run {
    fn of(bytes: &[u8], call: Call) -> Result<Run, Failure> {
        let mut pair = board(call);
        let (mut told, mut bases, mut landed) = (Vec::new(), Vec::new(), Vec::new());
        let mut protected = Protected::default();
        let answers = pair.replay(bytes, |step| {
            told.push(Told::of(step, Secrets::Shown));
            bases.push(step.bases);
            landed.push(step.protected);
            protected = Protected::of(step.hub);
            Ok(())
        })?;
        let replay = Replay {
            records: record::decode(bytes).collect(),
            answers: record::decode_answers(&answers).collect(),
            memory: pair.lent().memory.clone(),
        };
        Ok(Run { replay, told, bases, landed, protected })
    }

    /// What is told of an expectation's statement: of its first record that was refused, or of its last.
    fn told_of(&self, expected: &Expectation) -> Option<&Told> {
        let told = self.told.get(expected.records.clone())?;
        told.iter().find(|told| told.tone == Tone::Refused).or(told.last())
    }

    /// The same list with other data in the management-mode writes that landed in protected memory.
    fn other_key(&self) -> Vec<Record> {
        let mut records = self.replay.records.clone();
        for (record, landed) in records.iter_mut().zip(&self.landed) {
            if *landed && record.kind() == Some(Kind::Write) {
                record.data = !record.data;
            }
        }
        records
    }

    /// How many management-mode reads of protected memory differ from another replay's. Nothing else may.
    fn differing_reads(&self, other: &Replay) -> Result<u64, Failure> {
        let mut reads = 0;
        for (number, (one, two)) in self.replay.answers.iter().zip(&other.answers).enumerate() {
            match Field::differing(one, two) {
                None => {}
                Some(Field::Value) if self.landed[number] => reads += 1,
                Some(_) => {
                    let asked = &self.told[number].asked;
                    return Err(Failure::disagreement(format!("'{asked}' is answered otherwise with another key")));
                }
            }
        }
        if self.protected.difference_outside(&self.replay.memory, &other.memory).is_some() {
            return Err(Failure::disagreement("memory outside the protected ranges depends on the key"));
        }
        Ok(reads)
    }

    /// The pixels of the lobby picture, from memory: each where the answer to its write says it went.
    fn picture(&self) -> Vec<Vec<u8>> {
        let mut rows = vec![vec![0; COLUMNS as usize]; ROWS as usize];
        let Replay { records, answers, memory } = &self.replay;
        for ((record, answer), bases) in records.iter().zip(answers).zip(&self.bases) {
            let offset = bases.window_offset(record.address).filter(|_| record.kind() == Some(Kind::Write));
            let Some(offset) = offset.filter(|_| answer.target() == Some(Target::Memory)) else { continue };
            for byte in 0..u32::from(record.width) {
                let (row, column) = ((offset + byte) / PITCH, ((offset + byte) % PITCH).wrapping_sub(LEFT));
                let pixel = rows.get_mut(row as usize).and_then(|row| row.get_mut(column as usize));
                if let (Some(pixel), Some(value)) = (pixel, memory.get((answer.address + byte) as usize)) {
                    *pixel = *value;
                }
            }
        }
        rows
    }
}

/// Tells the sample.
struct Teller<'a, W> {
    out: &'a mut W,
    style: Style,
    glyphs: Glyphs,
    run: &'a Run,
    /// Text that was not yet told.
    text: String,
    /// Where outcomes start.
    column: usize,
    part: usize,
    checked: usize,
}

impl<W: Write> Teller<'_, W> {
    /// One line of the sample, and what it expects.
    fn line(&mut self, line: &str, expected: Option<&Expectation>) -> Result<(), Failure> {
        if let Some(text) = line.strip_prefix("#: ") {
            self.text.push_str(text);
            self.text.push(' ');
        } else if let Some(title) = line.strip_prefix("#= ") {
            self.heading(title)?;
        } else if line == "#@ picture" {
            self.tell()?;
            for line in picture::lines(&self.run.picture(), self.glyphs, self.style) {
                writeln!(self.out, "{}", format!("   {line}").trim_end())?;
            }
        } else if let Some(expected) = expected {
            self.tell()?;
            self.outcome(line, expected)?;
        }
        Ok(())
    }

    fn heading(&mut self, title: &str) -> Result<(), Failure> {
        self.tell()?;
        self.part += 1;
        let heading = format!("{}. {title}", self.part);
        writeln!(self.out, "\n{}", self.style.bold(&heading))?;
        Ok(())
    }

    /// Tells what text there is.
    fn tell(&mut self) -> Result<(), Failure> {
        for line in wrapped(&std::mem::take(&mut self.text), WIDTH) {
            writeln!(self.out, "{line}")?;
        }
        Ok(())
    }

    /// Shows an outcome, and asks that it is as the sample says.
    fn outcome(&mut self, line: &str, expected: &Expectation) -> Result<(), Failure> {
        let nothing = || Failure::disagreement(format!("the sample has no access for its '{}'", expected.text));
        let told = self.run.told_of(expected).ok_or_else(nothing)?;
        if !told.meets(&expected.text) {
            let (asked, text, found) = (&told.asked, &expected.text, told.expectation(true));
            return Err(Failure::disagreement(format!("the sample's '{asked}' should be '{text}' and is '{found}'")));
        }
        self.checked += 1;
        let width = WIDTH.saturating_sub(self.column);
        let mut lines: Vec<String> =
            wrapped(&told.outcome, width).iter().map(|line| self.style.tone(told.tone, line)).collect();
        if told.line {
            lines.push(self.style.warning("interrupt line up"));
        }
        if line.contains("#>>") {
            lines.extend(wrapped(&told.reason, width).iter().map(|line| self.style.dim(line)));
        }
        self.beside(statement(line), &lines)
    }

    /// A statement, and lines in the column of outcomes.
    fn beside(&mut self, statement: &str, lines: &[String]) -> Result<(), Failure> {
        for line in words::beside(statement, self.column, lines) {
            writeln!(self.out, "{line}")?;
        }
        Ok(())
    }

    /// The two runs of demand 3: another key changes nothing that anybody but management mode sees.
    fn two_keys(&mut self, second: &Replay) -> Result<(), Failure> {
        let first = &self.run.replay;
        let reads = self.run.differing_reads(second)?;
        let writes = first.records.iter().zip(&second.records).filter(|(one, other)| one != other).count();
        if writes == 0 {
            return Err(Failure::disagreement("the sample writes no key, so there is no other key to try"));
        }
        self.heading("The whole list again with another key")?;
        self.column = 36;
        self.text = format!(
            "The same {} records, but for the data of {}.",
            numbers::grouped(first.records.len() as u64),
            numbers::counted(writes as u64, "management-mode write")
        );
        self.tell()?;
        self.beside("steps of the runs, first key", &[first.steps().join(", ")])?;
        self.beside("steps of the runs, another key", &[second.steps().join(", ")])?;
        self.text = format!(
            "Only {} of the key differ, in the value read. Every other answer is the same byte for byte, and so is \
             all memory outside the protected ranges.",
            numbers::counted(reads, "management-mode read"),
        );
        self.checked += 1;
        self.tell()
    }
}

#[cfg(test)]
mod tests {
    use super::*;

    /// What becomes of a sample by this call: the tale, or the message.
    fn told(sample: &str, call: Call) -> Result<String, String> {
        let mut out = Vec::new();
        let demo = Demo { sample, call, style: Style { colour: false }, glyphs: Glyphs::Ascii };
        match demo.tell(&mut out) {
            Ok(()) => Ok(String::from_utf8(out).expect("the tale is text")),
            Err(failure) => {
                assert_eq!(failure.status, Status::Disagreement);
                Err(failure.message)
            }
        }
    }

    /// Whether the sample's key lies in memory, not another one.
    fn is_first_key(memory: &[u8]) -> bool {
        memory[0xA_0000] == 0x4C
    }

    /// Counts a step less in the sample's last run, the last record but one, if the key is another one.
    fn telling_answers(board: u32, memory: &mut [u8], records: &[u8], answers: &mut [u8], display: &mut [u8]) -> u32 {
        let result = gmch_replay(board, memory, records, answers, display);
        let count = answers.len() - 2 * record::RECORD_BYTES + 12;
        answers[count] -= u8::from(!is_first_key(memory));
        result
    }

    /// Leaves another byte of ordinary memory if the key is another one.
    fn telling_memory(board: u32, memory: &mut [u8], records: &[u8], answers: &mut [u8], display: &mut [u8]) -> u32 {
        let result = gmch_replay(board, memory, records, answers, display);
        memory[0x30_0004] = u8::from(!is_first_key(memory));
        result
    }

    /// Spoils the key in protected memory if it is another one, which only the reference can see.
    fn spoiling(board: u32, memory: &mut [u8], records: &[u8], answers: &mut [u8], display: &mut [u8]) -> u32 {
        let result = gmch_replay(board, memory, records, answers, display);
        memory[0xA_0000] ^= u8::from(!is_first_key(memory));
        result
    }

    fn expectations() -> Vec<Expectation> {
        trace::assemble(SAMPLE).expect("the sample is a trace").expectations
    }

    #[test]
    fn the_sample_is_told_and_every_expectation_counted() {
        let tale = told(SAMPLE, gmch_replay).expect("the sample holds");
        let expected = expectations().len();
        assert!(expected > 40);
        let end = format!("\n{} outcomes checked: all as documents 01 and 02 have them.\n", expected + 1);
        assert!(tale.ends_with(&end), "{tale}");
    }

    /// An outcome is compared to its end: each expectation that lacks its last character is found.
    #[test]
    fn each_wrong_expectation_is_found() {
        for expected in expectations() {
            let mut lines: Vec<&str> = SAMPLE.lines().collect();
            let line = &mut lines[expected.place.line as usize - 1];
            *line = &line[..line.len() - 1];
            let message = told(&lines.join("\n"), gmch_replay).expect_err("a wrong expectation");
            let (text, short) = (&expected.text, &expected.text[..expected.text.len() - 1]);
            assert!(message.starts_with("the sample's '"), "{message}");
            assert!(message.contains(&format!("' should be '{short}' and is '{text}")), "{message}");
        }
    }

    #[test]
    fn an_expectation_may_stand_below_and_give_the_reason() {
        let below = SAMPLE.replace("#> dev0.SMRAM = BFh", "\n#> dev0.SMRAM = BFh (graphics on");
        let message = told(&below, gmch_replay).expect_err("half a reason");
        let start = "the sample's 'in1 CONFIG_DATA' should be 'dev0.SMRAM = BFh (graphics on' and is ";
        assert!(message.starts_with(start), "{message}");
        let whole = "dev0.SMRAM = BFh (graphics on, 512 KiB taken; TSEG 1 MiB; A0000h-BFFFFh for management mode; \
                     locked; error bit set)";
        let below = SAMPLE.replace("#> dev0.SMRAM = BFh", &format!("\n#> {whole}"));
        told(&below, gmch_replay).expect("the whole reason");
    }

    #[test]
    fn a_sample_that_checks_nothing_does_not_pass() {
        let message = told(&SAMPLE.replace("#>", "# "), gmch_replay).expect_err("no expectation");
        assert!(message.contains("nothing was checked"), "{message}");
        let message = told("#> hub\nread4 C0000h\n", gmch_replay).expect_err("no access");
        assert!(message.contains("expected an access before '#>'"), "{message}");
        let message = told("read4 C0000h  #> hub\n", gmch_replay).expect_err("no key");
        assert!(message.contains("no other key"), "{message}");
    }

    #[test]
    fn a_call_that_tells_of_the_key_is_found() {
        let message = told(SAMPLE, telling_answers).expect_err("another count");
        assert_eq!(message, "'run 100000' is answered otherwise with another key");
        let message = told(SAMPLE, telling_memory).expect_err("another byte");
        assert_eq!(message, "memory outside the protected ranges depends on the key");
        let message = told(SAMPLE, spoiling).expect_err("another key");
        assert!(message.contains("DISAGREE about memory: byte A0000h"), "{message}");
    }

    #[test]
    fn another_key_differs_in_the_landed_writes_alone() {
        let sample = trace::assemble(SAMPLE).expect("the sample is a trace");
        let run = Run::of(&sample.records, gmch_replay).expect("the two agree");
        let (records, other) = (&run.replay.records, run.other_key());
        let changed: Vec<&Record> = records.iter().zip(&other).filter(|(a, b)| a != b).map(|(a, _)| a).collect();
        assert_eq!(changed.len(), 3);
        assert!(changed.iter().all(|record| record.is_management() && record.kind() == Some(Kind::Write)));
        let other = Replay::of(other, gmch_replay).expect("good arguments");
        assert_eq!(run.differing_reads(&other).expect("the key is not seen"), 2);
    }
}
