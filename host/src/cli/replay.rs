//! `replay`.

use super::args::{Grammar, Options};
use super::expect::Expectations;
use super::failure::{Failure, Status};
use super::files::{self, Pending, Secrecy, Sink, Source};
use super::load::{Lent, List, Memory};
use super::numbers;
use super::only::Only;
use super::pair::{Call, Pair, Step};
use super::report::{Entry, Format, Report};
use super::style::Style;
use super::system;
use super::told::{Secrets, Told};
use mitrophel::call::gmch_replay;
use mitrophel::record::RECORD_BYTES;
use std::ffi::OsString;
use std::io::{self, IsTerminal, Write};
use std::mem;
use std::ops::Range;

pub const GRAMMAR: Grammar = Grammar {
    command: "replay",
    values: &[
        "--board",
        "--memory",
        "--image",
        "--display",
        "--only",
        "--answers",
        "--dump",
        "--dump-display",
        "--color",
    ],
    switches: &[
        "--check",
        "--bless",
        "--reasons",
        "--json",
        "--csv",
        "--lines",
        "--show-protected",
        "--redact",
        "--text",
        "--binary",
    ],
    files: 1,
};

/// `mitrophel replay`
pub fn run(words: &[OsString]) -> Result<Status, Failure> {
    run_by(words, gmch_replay)
}

/// The same, by this call.
fn run_by(words: &[OsString], call: Call) -> Result<Status, Failure> {
    let options = GRAMMAR.parse(words)?;
    let board = options.board()?;
    let form = options.form()?;
    let source = options.source()?;
    let task = Task::given(&options, &source)?;
    let outputs = Outputs::given(&options, &source, !matches!(task, Task::Silent))?;
    options.one_standard_input()?;
    let memory = Memory::given(&options, board)?;
    let bytes = source.read()?;
    let text = matches!(task, Task::Bless { .. }).then(|| bytes.clone());
    let list = List::of(&source, bytes, form)?;
    let calls = list.calls()?;
    let mut expectations = task.expectations(&list)?;

    let mut guarded = Guarded { ranges: list.guarded(memory.length()), answers: false };
    let mut pair = Pair::by(board, [memory.fresh(), memory.fresh()], call).guarding(guarded.ranges.clone());
    let mut out = io::BufWriter::new(io::stdout().lock());
    let mut answers = Vec::new();
    let mut printed = task.start(&mut out);
    for call in calls {
        let first = call.start / RECORD_BYTES;
        answers.extend(pair.replay(&list.records[call], |step| {
            let index = first + step.index;
            guarded.note(step);
            expectations.note(index, step);
            if printed.is_ok() {
                printed = task.record(&mut out, &list, index, step);
            }
            if outputs.is_none() {
                mem::replace(&mut printed, Ok(()))?;
            }
            Ok(())
        })?);
    }
    let printed = printed.map_err(Failure::from);
    let printed = printed.and_then(|()| task.conclude(&mut out, &list, &expectations, text));
    let printed = printed.and_then(|status| Ok(out.flush().map(|()| status)?));
    drop(out);
    // A reader of the lines who leaves before the end wants no more lines; the dump is for another.
    match printed {
        Err(failure) if failure.status != Status::ClosedPipe => Err(failure),
        printed => outputs.write(&answers, pair.into_lent(), &guarded).and(printed),
    }
}

/// What is made of the records and their answers.
enum Task {
    /// They are printed.
    Print(Printer),
    /// They go to a file, and nothing is printed.
    Silent,
    /// They are compared with what the trace expects.
    Check { secrets: Secrets, style: Style },
    /// The trace is written anew with what came.
    Bless { sink: Sink, secrets: Secrets, reasons: bool },
}

impl Task {
    fn given(options: &Options, source: &Source) -> Result<Task, Failure> {
        let one_of = ["--check", "--bless", "--json", "--csv"];
        let given: Vec<&str> = one_of.into_iter().filter(|name| options.has(name)).collect();
        if let [first, second, ..] = given[..] {
            return Err(options.usage(format!("{first} and {second} exclude each other")));
        }
        let printed = ["--only", "--lines"].into_iter().find(|name| options.has(name));
        let instead = match given.first() {
            Some(&name) => Some(name).filter(|name| ["--check", "--bless"].contains(name)),
            None => Some("--answers").filter(|name| options.has(name)),
        };
        if let (Some(name), Some(instead)) = (printed, instead) {
            return Err(options.usage(format!("{name} is about what is printed, which {instead} replaces")));
        }
        if options.has("--reasons") && !options.has("--bless") {
            return Err(options.usage("--reasons is about what --bless writes"));
        }
        let style = Style::new(options.colour()?);
        let format = match given.first() {
            Some(&"--check") => return Ok(Task::Check { secrets: options.secrets(), style }),
            Some(&"--bless") => {
                let Source::File(path) = source else {
                    return Err(options.usage("--bless writes the trace anew: expected a file, found standard input"));
                };
                let (secrets, reasons) = (options.secrets(), options.has("--reasons"));
                return Ok(Task::Bless { sink: Sink::File(path.clone()), secrets, reasons });
            }
            Some(&"--json") => Format::Json,
            Some(_) => Format::Csv,
            None if options.has("--answers") => return Ok(Task::Silent),
            None => Format::Text,
        };
        let columns = system::columns(1).filter(|_| io::stdout().is_terminal());
        let report = Report { format, style, columns };
        let (lines, secrets) = (options.has("--lines"), options.secrets());
        Ok(Task::Print(Printer { report, only: Only::given(options)?, lines, secrets }))
    }

    /// What is printed before the first record.
    fn start(&self, out: &mut impl Write) -> io::Result<()> {
        match self {
            Task::Print(printer) => printer.report.start(out),
            _ => Ok(()),
        }
    }

    /// What is printed of a record, counted from 0.
    fn record(&self, out: &mut impl Write, list: &List, index: usize, step: &Step<'_, '_>) -> io::Result<()> {
        match self {
            Task::Print(printer) => printer.record(out, list, index, step),
            _ => Ok(()),
        }
    }

    /// What is left to do after the last record; `text` is the trace to write anew.
    fn conclude(
        &self,
        out: &mut impl Write,
        list: &List,
        expectations: &Expectations,
        text: Option<Vec<u8>>,
    ) -> Result<Status, Failure> {
        match (self, text) {
            (Task::Check { secrets, style }, _) if !expectations.compare(list, *secrets, *style, out)? => {
                return Ok(Status::Unmet)
            }
            (Task::Bless { sink, secrets, reasons }, Some(text)) => {
                let not_text = |_| Failure::input(format!("{}: expected UTF-8, since it is written anew", list.name()));
                let text = String::from_utf8(text).map_err(not_text)?;
                let (blessed, new) = expectations.blessed(&text, *secrets, *reasons);
                files::save(sink, blessed.as_bytes(), Secrecy::Open)?;
                writeln!(out, "{}: {} written", list.name(), numbers::counted(new as u64, "new expectation"))?;
            }
            _ => {}
        }
        Ok(Status::Done)
    }

    /// The expectations that are to be compared or written.
    fn expectations(&self, list: &List) -> Result<Expectations, Failure> {
        let own = match self {
            Task::Print(_) | Task::Silent => return Ok(Expectations::default()),
            Task::Check { .. } | Task::Bless { .. } if !list.is_text() => {
                let found = "expected a text trace, since '#>' stands in it, found the binary form";
                return Err(Failure::input(format!("{}: {found}", list.name())));
            }
            Task::Check { .. } | Task::Bless { .. } => Expectations::of(list)?,
        };
        match self {
            Task::Bless { .. } if own.is_all_included() => Ok(Expectations::for_each_statement(list)),
            Task::Check { .. } if own.is_empty() => Err(Failure::input(format!(
                "{}: expected a trace with expectations ('#>'), found none; --bless writes them",
                list.name()
            ))),
            _ => Ok(own),
        }
    }
}

/// What is printed of the records, and how.
struct Printer {
    report: Report,
    only: Only,
    /// Whether the trace's line stands beside the record.
    lines: bool,
    secrets: Secrets,
}

impl Printer {
    /// Prints a record, counted from 0, if it is of a kind that is told.
    fn record(&self, out: &mut impl Write, list: &List, index: usize, step: &Step<'_, '_>) -> io::Result<()> {
        if !self.only.tells(step) {
            return Ok(());
        }
        let told = &Told::of(step, self.secrets);
        let line = self.lines.then(|| list.short_line(index));
        self.report.record(out, &Entry { number: index + 1, place: list.line(index), line, step, told })
    }
}

/// What of a replay is not for everybody.
struct Guarded {
    /// Memory that is protected at some time. A key is put there before, and is still there after a reset.
    ranges: Vec<Range<u32>>,
    /// An answer holds a value of it.
    answers: bool,
}

impl Guarded {
    fn note(&mut self, step: &Step<'_, '_>) {
        let value = step.secret && step.record.kind().is_some_and(|kind| !kind.is_write());
        // A refusal's address is no page: a window offset, or a run's head.
        self.answers |= value || step.secret_page && step.answer.code == 0;
    }
}

/// `--answers`, `--dump` and `--dump-display`
struct Outputs {
    answers: Option<Sink>,
    dump: Option<Sink>,
    display: Option<Sink>,
    /// `--redact`: the dump has zeros where memory was protected.
    redact: bool,
}

impl Outputs {
    /// Those that are given, with their options.
    fn all(&self) -> impl Iterator<Item = (&'static str, &Sink)> {
        let all = [("--answers", &self.answers), ("--dump", &self.dump), ("--dump-display", &self.display)];
        all.into_iter().filter_map(|(name, sink)| Some((name, sink.as_ref()?)))
    }

    fn is_none(&self) -> bool {
        self.all().next().is_none()
    }

    /// `printed` says that something is printed beside them.
    fn given(options: &Options, source: &Source, printed: bool) -> Result<Outputs, Failure> {
        let sink = |name: &str| options.value(name).map(Sink::named);
        let outputs = Outputs {
            answers: sink("--answers"),
            dump: sink("--dump"),
            display: sink("--dump-display"),
            redact: options.has("--redact"),
        };
        if outputs.redact && outputs.dump.is_none() {
            return Err(options.usage("--redact is about the dump: give --dump FILE"));
        }
        for (number, (name, sink)) in outputs.all().enumerate() {
            if let Some((other, _)) = outputs.all().skip(number + 1).find(|(_, other)| other.same(sink)) {
                return Err(options.usage(format!("{name} and {other} name the same file")));
            }
        }
        if let Some((name, sink)) = outputs.all().find(|(_, sink)| sink.same(&Sink::Standard)).filter(|_| printed) {
            return Err(options.usage(match sink {
                Sink::Standard if outputs.answers.is_none() => {
                    format!("{name} - needs --answers FILE, since the answers are printed otherwise")
                }
                Sink::Standard => format!("{name} - would stand among what is printed: give a file"),
                _ => format!("{name} names the file that the answers are printed to"),
            }));
        }
        for (name, sink) in outputs.all() {
            // A dump may take the place of what it goes on from.
            let image = options.image().filter(|_| name != "--dump");
            let display = options.display().filter(|_| name != "--dump-display");
            options.spares(name, sink, [source.clone()].into_iter().chain(image).chain(display))?;
        }
        if outputs.all().any(|(_, sink)| *sink == Sink::Standard) && io::stdout().is_terminal() {
            return Err(options.usage("answers and memory are no text for a terminal: give a file, or pipe them"));
        }
        Ok(outputs)
    }

    /// Writes all of them whole before any stands in its place. A reader of one who leaves does not keep the
    /// others from being written.
    fn write(&self, answers: &[u8], mut lent: Lent, guarded: &Guarded) -> Result<(), Failure> {
        if self.redact {
            guarded.ranges.iter().for_each(|range| lent.memory[range.start as usize..range.end as usize].fill(0));
        }
        let holds_secrets = !self.redact && !guarded.ranges.is_empty();
        let pending = |sink: &Option<Sink>, bytes, secret| {
            sink.as_ref().map(|sink| Pending::new(sink, bytes, Secrecy::of(secret))).transpose()
        };
        let answers = pending(&self.answers, answers, guarded.answers)?;
        let dump = pending(&self.dump, &lent.memory, holds_secrets)?;
        // It is never protected.
        let display = pending(&self.display, &lent.display, false)?;
        let mut result = Ok(());
        for pending in [answers, dump, display].into_iter().flatten() {
            match pending.commit() {
                Err(failure) if failure.status == Status::ClosedPipe => result = Err(failure),
                committed => committed?,
            }
        }
        result
    }
}

#[cfg(test)]
mod tests {
    use super::super::pair::wrong::leaking;
    use super::*;
    use std::{env, fs, process};

    /// A call that lets an entry reach the key: exit status 5, a loud message, and no file.
    #[test]
    fn a_disagreement_has_its_own_status_and_writes_nothing() {
        let folder = env::temp_dir().join(format!("mitrophel-disagreement-{}", process::id()));
        fs::create_dir_all(&folder).expect("a folder");
        let example = "/../examples/fault-1-entry-aimed-at-the-key.trace";
        let trace = format!("{}{example}", env!("CARGO_MANIFEST_DIR"));
        let (answers, dump) = (folder.join("answers"), folder.join("dump"));
        let words: Vec<OsString> = vec!["--answers".into(), answers.into(), "--dump".into(), dump.into(), trace.into()];
        let failure = run_by(&words, leaking).expect_err("the two disagree");
        assert_eq!(failure.status, Status::Disagreement);
        let message = "THE PROVED CALL AND THE REFERENCE DISAGREE at record 17 of the call: read4 WINDOW+A000h";
        assert!(failure.message.starts_with(message), "{}", failure.message);
        assert_eq!(fs::read_dir(&folder).expect("the folder").count(), 0);
        run(&words).expect("the two agree");
        assert_eq!(fs::read_dir(&folder).expect("the folder").count(), 2);
        fs::remove_dir_all(&folder).expect("the folder goes");
    }
}
