//! `audit`: many lists, call after call, how often each code and target was answered, and at which table entry most was
//! refused.

use super::args::{Grammar, Options};
use super::complain;
use super::failure::{shown, Failure, Status};
use super::files::{Input, Source};
use super::load::{self, Form, Lent, List, Memory};
use super::names;
use super::numbers;
use super::pair::{self, Call, Pair};
use super::progress::Progress;
use super::style::Style;
use mitrophel::call::gmch_replay;
use mitrophel::record::{self, MAX_RECORDS, RECORD_BYTES};
use mitrophel::reference::TABLE_WORDS;
use mitrophel::trace::Warning;
use mitrophel::{Answer, Board, Record, Refusal, Target};
use std::collections::BTreeMap;
use std::ffi::OsString;
use std::io::{self, Write};
use std::mem;
use std::num::NonZero;
use std::sync::atomic::{AtomicUsize, Ordering};
use std::sync::mpsc::{self, Receiver, Sender};
use std::sync::{Mutex, MutexGuard, PoisonError};
use std::thread;

pub const GRAMMAR: Grammar = Grammar {
    command: "audit",
    values: &["--deny", "--board", "--memory", "--image", "--display", "--jobs", "--color"],
    switches: &["--compare", "--text", "--binary"],
    files: usize::MAX,
};

/// `mitrophel audit`
pub fn run(words: &[OsString]) -> Result<Status, Failure> {
    let options = GRAMMAR.parse(words)?;
    let style = Style::new(options.colour()?);
    let audit = Audit::given(&options, gmch_replay)?;
    let (tally, status) = audit.files(&options.sources())?;
    if tally.files == 0 {
        return Ok(status);
    }
    let mut out = io::BufWriter::new(io::stdout().lock());
    tally.print(&mut out, style, &audit.deny)?;
    out.flush()?;
    Ok(status)
}

/// The refusals that `--deny` names.
fn denied(options: &Options) -> Result<Vec<Refusal>, Failure> {
    let mut denied = Vec::new();
    for value in options.values("--deny") {
        let value = value.to_string_lossy();
        for name in value.split(',') {
            if name.eq_ignore_ascii_case("all") {
                denied.extend(names::REFUSALS.map(|(refusal, _)| refusal));
            } else {
                denied.push(names::refusal_named(name).ok_or_else(|| unknown_kind(options, name))?);
            }
        }
    }
    Ok(denied)
}

fn unknown_kind(options: &Options, name: &str) -> Failure {
    let known = names::REFUSALS.map(|(refusal, name)| format!("{} {name}", refusal.code())).join(", ");
    options.usage(format!("--deny: expected 'all' or one of {known}, found '{}'", shown(name)))
}

/// `--jobs`, as many as there are cores where none are given.
fn jobs(options: &Options) -> Result<usize, Failure> {
    let jobs = options.converted("--jobs", |text| {
        let jobs = numbers::number(text).ok().filter(|&jobs| jobs > 0);
        jobs.ok_or_else(|| "a number above 0".to_string())
    })?;
    Ok(jobs.map_or_else(|| thread::available_parallelism().map_or(1, NonZero::get), |jobs| jobs as usize))
}

/// How every list is replayed.
struct Audit {
    board: Board,
    memory: Memory,
    form: Option<Form>,
    deny: Vec<Refusal>,
    compare: bool,
    /// How many files are replayed side by side at most.
    jobs: usize,
    call: Call,
}

impl Audit {
    /// What the options say, by this call.
    fn given(options: &Options, call: Call) -> Result<Audit, Failure> {
        options.source()?;
        options.one_standard_input()?;
        let board = options.board()?;
        Ok(Audit {
            board,
            form: options.form()?,
            deny: denied(options)?,
            compare: options.has("--compare"),
            jobs: jobs(options)?,
            memory: Memory::given(options, board)?,
            call,
        })
    }

    /// Why a record was refused, as far as its answer tells.
    fn reason(&self, record: &Record, answer: &Answer, refusal: Refusal) -> String {
        match (names::refused_offset(record, answer), names::forbidden_entry(record, answer)) {
            (Some(offset), _) => names::refusal_reason_at(refusal, self.board, offset),
            (None, Some(entry)) => names::forbidden_reason(entry, "a protected page"),
            (None, None) => names::refusal_reason(refusal, Some(self.board)).to_string(),
        }
    }

    /// Replays every file, several side by side. One that fails is told and left out.
    fn files(&self, sources: &[Source]) -> Result<(Tally, Status), Failure> {
        let lengths: Option<Vec<u64>> = sources.iter().map(Source::length).collect();
        let progress = Progress::new(lengths.map(|lengths| lengths.iter().sum()));
        let night = Night {
            audit: self,
            sources,
            next: AtomicUsize::new(0),
            last: AtomicUsize::new(usize::MAX),
            progress: Mutex::new(progress),
        };
        let result = thread::scope(|scope| {
            let (done, results) = mpsc::channel();
            let job = |_: &usize| {
                let (night, done) = (&night, done.clone());
                thread::Builder::new().spawn_scoped(scope, move || night.job(&done)).is_ok()
            };
            // Where the system has no more threads, fewer do the same work, and be it this one alone.
            if (0..self.jobs.min(sources.len())).filter(job).count() == 0 {
                night.job(&done);
            }
            drop(done);
            night.collect(results)
        });
        let mut progress = night.progress.into_inner().unwrap_or_else(PoisonError::into_inner);
        progress.clear();
        let (total, failed) = result?;
        progress.finish();
        let status = if total.denied != 0 { Status::Unmet } else { failed.unwrap_or(Status::Done) };
        Ok((total, status))
    }
}

/// A file's number, what its reader warns of, and what came of it.
type Done = (usize, Vec<Warning>, Result<Tally, Failure>);

/// What the jobs of an audit share.
struct Night<'a> {
    audit: &'a Audit,
    sources: &'a [Source],
    /// The first file that no job has taken.
    next: AtomicUsize,
    /// The last file that is wanted: the first one that ends the audit.
    last: AtomicUsize,
    progress: Mutex<Progress>,
}

impl Night<'_> {
    /// Takes file after file.
    fn job(&self, done: &Sender<Done>) {
        loop {
            let index = self.next.fetch_add(1, Ordering::Relaxed);
            let Some(source) = self.sources.get(index).filter(|_| self.wants(index)) else { return };
            let mut warnings = Vec::new();
            let result = self.file(index, source, &mut warnings);
            if result.as_ref().is_err_and(|failure| !leaves_out(failure)) {
                self.last.fetch_min(index, Ordering::Relaxed);
            }
            // Nobody listens once the audit has ended.
            let _ = done.send((index, warnings, result));
        }
    }

    fn wants(&self, index: usize) -> bool {
        index <= self.last.load(Ordering::Relaxed)
    }

    /// Replays one file from a cold start on fresh memory, for as long as it is wanted.
    fn file(&self, index: usize, source: &Source, warnings: &mut Vec<Warning>) -> Result<Tally, Failure> {
        let audit = self.audit;
        let mut calls = Calls::open(source, audit.form)?;
        if let Some(list) = &mut calls.list {
            warnings.append(&mut list.warnings);
        }
        let mut engine = Engine::new(audit);
        let mut tally = Tally { files: 1, ..Tally::default() };
        while let Some(records) = calls.next()?.filter(|_| self.wants(index)) {
            let answers = engine.replay(&records).map_err(|failure| failure.in_file(&source.name()))?;
            let (records_read, _) = records.as_chunks();
            for (at, answer) in record::decode_answers(&answers).enumerate() {
                tally.count(&answer);
                let (Some(refusal), Some(record)) = (answer.refusal(), records_read.get(at)) else { continue };
                let record = Record::from_bytes(record);
                if let Some(entry) = names::refused_entry(&record, &answer) {
                    tally.entries.count(answer.code, entry);
                }
                if audit.deny.contains(&refusal) {
                    let reason = || audit.reason(&record, &answer, refusal);
                    tally.deny(|| format!("{}: refused {}: {}", calls.place(at), refusal.code(), reason()));
                }
            }
            tally.calls += 1;
            self.progress().add(calls.taken(&records), records.len() as u64 / RECORD_BYTES as u64);
        }
        Ok(tally)
    }

    /// Adds up what the jobs found. What there is to say about a file is said in the files' order, whichever
    /// was done first; the status is that of the last file that failed.
    fn collect(&self, results: Receiver<Done>) -> Result<(Tally, Option<Status>), Failure> {
        let mut total = Tally::default();
        let mut failed = None;
        let mut waiting = BTreeMap::new();
        let mut said = 0;
        for (index, warnings, result) in results {
            let result = result.map(|tally| {
                total.add(&tally);
                tally.denials(&self.sources[index].name())
            });
            waiting.insert(index, (warnings, result));
            while let Some((warnings, result)) = waiting.remove(&said) {
                said += 1;
                for warning in warnings {
                    self.say(|| complain(&warning.to_string()));
                }
                match result {
                    Ok(None) => {}
                    Ok(Some(denials)) => self.say(|| complain(&denials)),
                    Err(failure) if leaves_out(&failure) => {
                        self.say(|| failure.tell());
                        total.left_out += 1;
                        failed = Some(failure.status);
                    }
                    Err(failure) => return Err(failure),
                }
            }
        }
        Ok((total, failed))
    }

    /// Says something where the bar is, which no job draws meanwhile.
    fn say(&self, say: impl FnOnce()) {
        let mut progress = self.progress();
        progress.clear();
        say();
    }

    fn progress(&self) -> MutexGuard<'_, Progress> {
        self.progress.lock().unwrap_or_else(PoisonError::into_inner)
    }
}

/// Whether a failure is one of its file alone.
fn leaves_out(failure: &Failure) -> bool {
    matches!(failure.status, Status::Input | Status::File)
}

/// What replays: the proved call alone, or with the reference beside it.
enum Engine {
    Alone { call: Call, board: Board, lent: Lent },
    Compared(Pair),
}

impl Engine {
    fn new(audit: &Audit) -> Engine {
        match audit.compare {
            // A list is read as it goes: what will be protected later is not known yet.
            true => {
                let lent = [audit.memory.fresh(), audit.memory.fresh()];
                Engine::Compared(Pair::by(audit.board, lent, audit.call).without_values())
            }
            false => Engine::Alone { call: audit.call, board: audit.board, lent: audit.memory.fresh() },
        }
    }

    fn replay(&mut self, records: &[u8]) -> Result<Vec<u8>, Failure> {
        match self {
            Engine::Compared(pair) => pair.replay(records, |_| Ok(())),
            Engine::Alone { call, board, lent: Lent { memory, display } } => {
                let mut answers = vec![0; records.len()];
                match call(board.number(), memory, records, &mut answers, display) {
                    0 => Ok(answers),
                    code => Err(Failure::disagreement(format!("the call refused good arguments with {code}"))),
                }
            }
        }
    }
}

/// The calls of one file, read as they are needed.
struct Calls {
    /// The records of a binary list that are not yet given out.
    input: Input,
    /// A text trace, which is read whole.
    list: Option<List>,
    /// The bytes of a text trace.
    text: u64,
    /// There is nothing more to give out.
    finished: bool,
    /// Records given out in the calls before the last one, and in all.
    before: u64,
    given: u64,
}

impl Calls {
    fn open(source: &Source, form: Option<Form>) -> Result<Calls, Failure> {
        let mut calls = Calls { input: source.open()?, list: None, text: 0, finished: false, before: 0, given: 0 };
        if calls.input.form(form)? == Form::Text {
            calls.list = Some(List::of_text(&mut calls.input)?);
            calls.text = mem::take(&mut calls.input.bytes).len() as u64;
        }
        Ok(calls)
    }

    /// The records of the next call; none at the end. An empty file is one call without records.
    fn next(&mut self) -> Result<Option<Vec<u8>>, Failure> {
        if self.finished {
            return Ok(None);
        }
        self.before = self.given;
        let records = match &self.list {
            Some(list) => {
                let left = &list.records[self.given as usize * RECORD_BYTES..];
                let (call, rest) = left.split_at(self.length(left)?);
                self.finished = rest.is_empty();
                call.to_vec()
            }
            None => self.read()?,
        };
        self.given += (records.len() / RECORD_BYTES) as u64;
        Ok(Some(records))
    }

    /// The next call of a binary list.
    fn read(&mut self) -> Result<Vec<u8>, Failure> {
        self.input.fill((MAX_RECORDS + 1) * RECORD_BYTES)?;
        if self.input.ended {
            let length = self.given * RECORD_BYTES as u64 + self.input.bytes.len() as u64;
            load::whole_records(&self.input.source.name(), length)?;
        }
        let rest = self.input.bytes.split_off(self.length(&self.input.bytes)?);
        let records = mem::replace(&mut self.input.bytes, rest);
        self.finished = self.input.ended && self.input.bytes.is_empty();
        Ok(records)
    }

    /// The length of the call that the records left start with.
    fn length(&self, left: &[u8]) -> Result<usize, Failure> {
        pair::first_call(left).ok_or_else(|| load::uncut(&self.place(0)))
    }

    /// The place of a record of the last call.
    fn place(&self, index: usize) -> String {
        let index = self.before as usize + index;
        match &self.list {
            Some(list) => list.place(index),
            None => format!("{}: record {}", self.input.source.name(), numbers::grouped(index as u64 + 1)),
        }
    }

    /// The bytes of the file that these records of the last call stand for.
    fn taken(&self, records: &[u8]) -> u64 {
        match &self.list {
            None => records.len() as u64,
            Some(list) if list.records.is_empty() => self.text,
            Some(list) => (self.text as f64 * records.len() as f64 / list.records.len() as f64) as u64,
        }
    }
}

/// How often each code and target was answered.
struct Tally {
    files: u64,
    left_out: u64,
    calls: u64,
    records: u64,
    /// Completed steps of parser runs.
    steps: u64,
    codes: [u64; 256],
    targets: [u64; 256],
    entries: Entries,
    denied: u64,
    /// The first denied refusal of a file.
    first_denied: Option<String>,
}

impl Default for Tally {
    fn default() -> Tally {
        Tally {
            files: 0,
            left_out: 0,
            calls: 0,
            records: 0,
            steps: 0,
            codes: [0; 256],
            targets: [0; 256],
            entries: Entries::default(),
            denied: 0,
            first_denied: None,
        }
    }
}

impl Tally {
    fn count(&mut self, answer: &Answer) {
        self.records += 1;
        self.steps += u64::from(answer.count);
        self.codes[usize::from(answer.code)] += 1;
        self.targets[usize::from(answer.target)] += 1;
    }

    /// Counts a denied refusal, which is told in these words if it is the first.
    fn deny(&mut self, words: impl FnOnce() -> String) {
        self.denied += 1;
        self.first_denied.get_or_insert_with(words);
    }

    /// Names the first denied refusal of a file, and counts the others.
    fn denials(&self, name: &str) -> Option<String> {
        let mut denials = format!("mitrophel: {} (denied)", self.first_denied.as_ref()?);
        if self.denied > 1 {
            let more = numbers::counted(self.denied - 1, "more denied refusal");
            denials.push_str(&format!("\nmitrophel: {name}: {more}"));
        }
        Some(denials)
    }

    fn add(&mut self, other: &Tally) {
        self.files += other.files;
        self.calls += other.calls;
        self.records += other.records;
        self.steps += other.steps;
        self.denied += other.denied;
        let pairs = self.codes.iter_mut().zip(&other.codes);
        for (own, other) in pairs.chain(self.targets.iter_mut().zip(&other.targets)) {
            *own += other;
        }
        self.entries.add(&other.entries);
    }

    fn print(&self, out: &mut impl Write, style: Style, deny: &[Refusal]) -> io::Result<()> {
        write!(out, "{}, ", numbers::counted(self.files, "file"))?;
        write!(out, "{} in {}, ", numbers::counted(self.records, "record"), numbers::counted(self.calls, "call"))?;
        writeln!(out, "{}", numbers::counted(self.steps, "parser step"))?;
        if self.left_out != 0 {
            let left_out = format!("{} left out: unreadable or malformed", numbers::counted(self.left_out, "file"));
            writeln!(out, "{}", style.bad(&left_out))?;
        }
        self.print_codes(out, style, deny)?;
        self.print_targets(out, style)?;
        self.print_entries(out, style)
    }

    fn print_codes(&self, out: &mut impl Write, style: Style, deny: &[Refusal]) -> io::Result<()> {
        writeln!(out, "\n{}", style.bold(&format!("  code  {:<24} {:>16}", "answered or refused", "records")))?;
        for code in 0..=u8::MAX {
            let count = self.codes[usize::from(code)];
            let known = names::REFUSALS.iter().find(|(refusal, _)| refusal.code() == code);
            let name = match (code, known) {
                (0, _) => "answered",
                (_, Some((_, name))) => name,
                _ if count == 0 => continue,
                _ => "no code of document 01",
            };
            let denied = known.is_some_and(|(refusal, _)| deny.contains(refusal));
            let mark = if denied { "  denied" } else { "" };
            let line = format!("  {code:>4}  {name:<24} {:>16}{mark}", numbers::grouped(count));
            writeln!(out, "{}", painted(style, &line, count, denied))?;
        }
        Ok(())
    }

    fn print_targets(&self, out: &mut impl Write, style: Style) -> io::Result<()> {
        writeln!(out, "\n{}", style.bold(&format!("target  {:<24} {:>16}", "reached", "records")))?;
        for target in 0..=u8::MAX {
            let count = self.targets[usize::from(target)];
            let name = match Target::from_number(target) {
                Some(Target::None) => "refusal, run or reset".to_string(),
                Some(target) => target.to_string(),
                None if count == 0 => continue,
                None => "no target of document 01".to_string(),
            };
            let line = format!("{target:>6}  {name:<24} {:>16}", numbers::grouped(count));
            writeln!(out, "{}", painted(style, &line, count, false))?;
        }
        Ok(())
    }

    /// Of each code the entry at which most accesses were refused.
    fn print_entries(&self, out: &mut impl Write, style: Style) -> io::Result<()> {
        if self.entries.counts.is_empty() {
            return Ok(());
        }
        writeln!(out, "\n{}", style.bold(&format!("  code  {:<24} {:>16}", "refused most at", "records")))?;
        for code in BY_ENTRY {
            if let Some((entry, count)) = self.entries.most(code) {
                let entry = format!("entry {entry}");
                writeln!(out, "  {code:>4}  {entry:<24} {:>16}", numbers::grouped(count))?;
            }
        }
        Ok(())
    }
}

/// The codes that an access through the window gets for its table entry, and the one that a write of an entry gets.
const BY_ENTRY: [u8; 5] = [
    Refusal::EntryNotValid.code(),
    Refusal::EntryType.code(),
    Refusal::PageProtected.code(),
    Refusal::PageAboveMemory.code(),
    Refusal::ForbiddenEntry.code(),
];

/// How many accesses were refused for a table entry.
#[derive(Default)]
struct Entries {
    /// For each of [`BY_ENTRY`] a count for each entry, one row after the other; empty while all are 0.
    counts: Vec<u64>,
}

impl Entries {
    /// Where the row of a code begins.
    fn row(code: u8) -> Option<usize> {
        BY_ENTRY.iter().position(|own| *own == code).map(|row| row * TABLE_WORDS)
    }

    /// Counts a refusal at this entry, if its code is one of [`BY_ENTRY`].
    fn count(&mut self, code: u8, entry: u32) {
        let entry = entry as usize;
        let Some(row) = Entries::row(code).filter(|_| entry < TABLE_WORDS) else { return };
        if self.counts.is_empty() {
            self.counts = vec![0; BY_ENTRY.len() * TABLE_WORDS];
        }
        self.counts[row + entry] += 1;
    }

    fn add(&mut self, other: &Entries) {
        if self.counts.is_empty() {
            self.counts.clone_from(&other.counts);
            return;
        }
        for (own, other) in self.counts.iter_mut().zip(&other.counts) {
            *own += other;
        }
    }

    /// The entry with most refusals of this code, of several the first, and how many they are.
    fn most(&self, code: u8) -> Option<(usize, u64)> {
        let row = Entries::row(code)?;
        let counts = self.counts.get(row..row + TABLE_WORDS)?.iter().copied().enumerate();
        counts.rev().max_by_key(|(_, count)| *count).filter(|(_, count)| *count > 0)
    }
}

/// A line of the table: what never happened is dim, what is denied and happened stands out.
fn painted(style: Style, line: &str, count: u64, denied: bool) -> String {
    match (count, denied) {
        (0, _) => style.dim(line),
        (_, true) => style.bad(line),
        (_, false) => line.to_string(),
    }
}

#[cfg(test)]
mod tests {
    use super::super::pair::wrong::leaking;
    use super::*;

    /// The example in which an entry is aimed at the key.
    const EXAMPLE: &str = concat!(env!("CARGO_MANIFEST_DIR"), "/../examples/fault-1-entry-aimed-at-the-key.trace");

    fn audited(words: &[&str], call: Call) -> Result<Status, Failure> {
        let words: Vec<OsString> = words.iter().map(OsString::from).collect();
        let options = GRAMMAR.parse(&words)?;
        let (_, status) = Audit::given(&options, call)?.files(&options.sources())?;
        Ok(status)
    }

    /// The reference is asked where `--compare` is given, and only there.
    #[test]
    fn a_disagreement_is_found_by_comparing() {
        assert_eq!(audited(&[EXAMPLE], leaking).expect("nothing to compare with"), Status::Done);
        let failure = audited(&["--compare", EXAMPLE], leaking).expect_err("the two disagree");
        assert_eq!(failure.status, Status::Disagreement);
        assert!(
            failure.message.contains("key.trace: THE PROVED CALL AND THE REFERENCE DISAGREE"),
            "{}",
            failure.message
        );
        assert_eq!(audited(&["--compare", EXAMPLE], gmch_replay).expect("the two agree"), Status::Done);
    }

    /// A disagreement ends the audit as it does where one file is replayed after the other: the first in the
    /// files' order is told, whichever is found first.
    #[test]
    fn the_first_disagreement_of_the_files_ends_the_audit() {
        let good = concat!(env!("CARGO_MANIFEST_DIR"), "/../examples/02-records-and-answers.trace");
        let other = concat!(env!("CARGO_MANIFEST_DIR"), "/../examples/fault-3-pages-near-the-top.trace");
        for jobs in ["--jobs=1", "--jobs=3", "--jobs=9"] {
            for bad in [EXAMPLE, other] {
                let words = [jobs, "--compare", good, good, bad, good, EXAMPLE, other, "/no/file"];
                let failure = audited(&words, leaking).expect_err("the two disagree");
                assert_eq!(failure.status, Status::Disagreement);
                assert!(failure.message.starts_with(&format!("{bad}: ")), "{jobs}: {}", failure.message);
            }
        }
    }

    /// Counts of several files are added up; what no table has is left out.
    #[test]
    fn entries_are_counted_by_code_and_file() {
        let counted = |refusals: &[(u8, u32)]| {
            let mut entries = Entries::default();
            refusals.iter().for_each(|&(code, offset)| entries.count(code, offset / 4096));
            entries
        };
        let none = counted(&[(3, 0), (8, 0), (9, 0), (4, 64 << 20), (7, u32::MAX)]);
        assert!(none.counts.is_empty());
        let first = counted(&[(4, 0x3FF_FFFF), (4, 0x5ABC), (4, 0x3FF_F000), (7, 0), (16, 0xA000)]);
        let second = counted(&[(4, 0x5000), (4, 0x5FFF), (6, 0x1000)]);
        let mut total = Entries::default();
        [&none, &first, &none, &second, &first].iter().for_each(|own| total.add(own));
        assert_eq!((first.most(4), second.most(4), total.most(4)), (Some((16383, 2)), Some((5, 2)), Some((5, 4))));
        assert_eq!([3, 5, 6, 7, 8].map(|code| total.most(code)), [None, None, Some((1, 1)), Some((0, 2)), None]);
        assert_eq!([13, 14, 16].map(|code| total.most(code)), [None, None, Some((10, 2))]);
    }

    /// A call that takes one board alone.
    fn only_dc100(board: u32, memory: &mut [u8], records: &[u8], answers: &mut [u8], display: &mut [u8]) -> u32 {
        match Board::from_number(board) {
            Some(Board::Dc100) => gmch_replay(board, memory, records, answers, display),
            _ => 1,
        }
    }

    #[test]
    fn the_board_that_is_named_is_replayed() {
        for words in [&[EXAMPLE][..], &["--compare", EXAMPLE]] {
            let failure = audited(words, only_dc100).expect_err("another board");
            assert_eq!(failure.status, Status::Disagreement);
            let words = [&["--board", "dc100"], words].concat();
            assert_eq!(audited(&words, only_dc100).expect("that board"), Status::Done);
        }
    }
}
