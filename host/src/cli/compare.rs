//! `compare`: the two runs of demand 3, side by side.
//!
//! A trace is replayed twice, each time with another key in the memory that is protected once SMRAM's lock
//! is set, and in what management mode writes there. From the lock to the next reset nothing may differ but
//! the values that management mode reads from that memory. Answers and memory are the proved call's;
//! registers and a private table are the reference's, which stands beside it. For a table in main memory demand 3
//! reads "table words in unprotected memory", which are among the unprotected bytes. It "counts" the display cache
//! "as unprotected, equal at the start" (request 11 of document 02).

mod judge;
mod runs;

use super::args::{Grammar, Options};
use super::failure::{Failure, Status};
use super::files::Source;
use super::load::{Lent, List, Memory};
use super::numbers::{self, counted, grouped};
use super::style::Style;
use super::told::{self, Secrets};
use super::words::{beside, wrapped, WIDTH};
use judge::{alike_at_lock, forbidden, seen, Difference, Seen, Verdict};
use mitrophel::call::gmch_replay;
use mitrophel::record::RECORD_BYTES;
use mitrophel::trace::REDACTED;
use mitrophel::{Board, Kind};
use runs::{Machine, Run, Scope};
use std::ffi::{OsStr, OsString};
use std::fs::File;
use std::io::{self, Read, Write};
use std::ops::Range;
use std::path::Path;

pub use judge::Field;
pub use runs::Protected;

/// Bytes of a key at most. Two of them fit into the least memory that can be protected, 128 KiB, so keys
/// that differ make memories that differ.
const KEY_BYTES: usize = 64 << 10;

/// Bytes of a random key.
const RANDOM_BYTES: usize = 32;

/// How many of the differences before the lock are shown.
const FEW: usize = 5;

pub const GRAMMAR: Grammar = Grammar {
    command: "compare",
    values: &["--key", "--board", "--memory", "--image", "--display", "--color"],
    switches: &["--text", "--binary", "--show-protected"],
    files: 1,
};

/// `mitrophel compare`
pub fn run(words: &[OsString]) -> Result<Status, Failure> {
    let options = GRAMMAR.parse(words)?;
    let board = options.board()?;
    let style = Style::new(options.colour()?);
    let form = options.form()?;
    let source = options.source()?;
    let secrets = options.secrets();
    options.one_standard_input()?;
    let keys = Key::both(&options)?;
    let memory = Memory::given(&options, board)?;
    let list = List::read(&source, form)?;

    let machine = Machine::new(board, &memory, gmch_replay);
    let scope = Scope::of(&machine, &list)?;
    let runs = [Run::of(&machine, &list, &scope, &keys[0])?, Run::of(&machine, &list, &scope, &keys[1])?];
    alike_at_lock(&list, &scope, &runs)?;
    let report = Report { board, list: &list, scope: &scope, runs: &runs, keys: &keys, secrets, style };
    report.tell(&mut io::BufWriter::new(io::stdout().lock()))
}

/// What stands in protected memory in one of the runs.
struct Key {
    name: String,
    bytes: Vec<u8>,
}

impl Key {
    /// `--key`, twice; what is not given is random.
    fn both(options: &Options) -> Result<[Key; 2], Failure> {
        let given: Vec<&OsStr> = options.values("--key").collect();
        if given.len() > 2 {
            return Err(options.usage("--key is given more than twice"));
        }
        let keys = [Key::named(options, given.first())?, Key::named(options, given.get(1))?];
        let length = keys[0].bytes.len() + keys[1].bytes.len();
        if keys[0].repeated().take(length).eq(keys[1].repeated().take(length)) {
            return Err(options.usage("--key: the two keys are the same, so the comparison would show nothing"));
        }
        Ok(keys)
    }

    fn named(options: &Options, word: Option<&&OsStr>) -> Result<Key, Failure> {
        match word {
            Some(&file) if file != "random" => Key::read(options, &Source::named(file)),
            _ => Key::random(),
        }
    }

    fn read(options: &Options, source: &Source) -> Result<Key, Failure> {
        let bytes = source.read_within(KEY_BYTES)?;
        let found = match bytes.len() {
            0 => "none",
            1..=KEY_BYTES => return Ok(Key { name: source.name(), bytes }),
            _ => "more",
        };
        let expected = grouped(KEY_BYTES as u64);
        Err(options.usage(format!("--key: expected 1 to {expected} bytes in {}, found {found}", source.name())))
    }

    fn random() -> Result<Key, Failure> {
        let path = Path::new("/dev/urandom");
        let mut bytes = vec![0; RANDOM_BYTES];
        let read = File::open(path).and_then(|mut file| file.read_exact(&mut bytes));
        read.map_err(|error| Failure::file(path, &error))?;
        Ok(Key { name: "random".to_string(), bytes })
    }

    /// The key over and over.
    fn repeated(&self) -> impl Iterator<Item = u8> + '_ {
        self.bytes.iter().copied().cycle()
    }
}

/// Tells what was seen.
struct Report<'a> {
    board: Board,
    list: &'a List,
    scope: &'a Scope,
    runs: &'a [Run; 2],
    keys: &'a [Key; 2],
    secrets: Secrets,
    style: Style,
}

const RUNS: [&str; 2] = ["first", "second"];

impl Report<'_> {
    fn tell(&self, out: &mut impl Write) -> Result<Status, Failure> {
        self.heading(out)?;
        let seen = seen(self.scope, self.runs);
        let of = |verdict| seen.iter().filter(move |seen| seen.verdict == verdict).copied().collect::<Vec<Seen>>();
        let (before, allowed) = (of(Verdict::BeforeLock), of(Verdict::Allowed));
        self.group(out, "Before the lock, of which demand 3 does not speak:", &before, FEW)?;
        self.group(out, "Allowed: values that management mode read from protected memory:", &allowed, usize::MAX)?;
        self.group(out, &self.style.bad("FORBIDDEN:"), &of(Verdict::Forbidden), FEW)?;
        let forbidden = forbidden(self.scope, self.runs);
        if forbidden.is_none() {
            writeln!(out)?;
            self.equal(out, allowed.len())?;
        }
        self.left_out(out)?;
        out.flush()?;
        let Some(difference) = forbidden else { return Ok(Status::Done) };
        Err(Failure::unmet(format!("{LOUD}: {}\n{ADVICE}", self.in_words(&difference))))
    }

    fn heading(&self, out: &mut impl Write) -> io::Result<()> {
        let Scope { lock, protected, carriers, .. } = self.scope;
        let [first, second] = self.keys.each_ref().map(|key| &key.name);
        writeln!(out, "{}", self.style.bold("Two runs of one trace that differ in the key alone"))?;
        self.lines(out, "first key", first)?;
        self.lines(out, "second key", second)?;
        self.lines(out, "lock", &format!("record {}, {}", grouped(*lock as u64 + 1), self.list.place(*lock)))?;
        self.lines(out, "protected", &protected.in_words())?;
        let mut places = format!("in {} from the start", counted(protected.bytes() as u64, "protected byte"));
        if !carriers.is_empty() {
            places += &format!(", and in {}", counted(carriers.len() as u64, "write"));
        }
        self.lines(out, "the key is", &places)
    }

    /// A label and text beside it.
    fn lines(&self, out: &mut impl Write, label: &str, text: &str) -> io::Result<()> {
        const COLUMN: usize = 14;
        let lines = beside(label, COLUMN, &wrapped(text, WIDTH - COLUMN));
        lines.iter().try_for_each(|line| writeln!(out, "{line}"))
    }

    /// Records that differ for one reason, at most so many.
    fn group(&self, out: &mut impl Write, title: &str, seen: &[Seen], most: usize) -> io::Result<()> {
        if seen.is_empty() {
            return Ok(());
        }
        writeln!(out, "\n{title}")?;
        let columns = format!("{:>8} {:>7}  {:<36}{:>12}{:>12}", "record", "line", "statement", RUNS[0], RUNS[1]);
        writeln!(out, "{}", self.style.dim(&columns))?;
        for seen in seen.iter().take(most) {
            let line = self.list.short_line(seen.index);
            let [first, second] = self.values(seen);
            let number = grouped(seen.index as u64 + 1);
            writeln!(out, "{number:>8} {line:>7}  {:<36}{first:>12}{second:>12}", self.statement(seen.index))?;
        }
        match seen.len().saturating_sub(most) {
            0 => Ok(()),
            more => writeln!(out, "{:>8} {:>7}  and {}", "", "", counted(more as u64, "more record")),
        }
    }

    /// What each run answers in the field that differs.
    fn values(&self, seen: &Seen) -> [String; 2] {
        let width = self.runs[0].records[seen.index].width;
        // Where the two runs reach different places, a table word that differs has named their pages. What differs in
        // a refusal is no window offset.
        let head = self.runs[0].records[seen.index].kind() == Some(Kind::Run);
        seen.values.map(|value| match seen.field {
            Field::Value if self.secrets == Secrets::Hidden => REDACTED.to_string(),
            Field::Address if !head && self.secrets == Secrets::Hidden => REDACTED.to_string(),
            Field::Value => numbers::data(value, width),
            Field::Code => format!("code {value}"),
            Field::Target => format!("target {value}"),
            Field::Line => format!("line {value}"),
            Field::Reserved => format!("byte {value:02X}h"),
            Field::Address => format!("{value:08X}h"),
            Field::Count => counted(value.into(), "step"),
        })
    }

    /// The trace's own record, whose data may be the key's.
    fn statement(&self, index: usize) -> String {
        let hidden = self.secrets == Secrets::Hidden && self.scope.carriers.binary_search(&index).is_ok();
        told::asked(&self.list.record(index), self.scope.bases[index], hidden)
    }

    /// What was compared and is equal.
    fn equal(&self, out: &mut impl Write, allowed: usize) -> io::Result<()> {
        let records = counted(self.scope.compared().len() as u64, "record");
        let answers = match allowed {
            0 => "no answer differs".to_string(),
            1 => "1 answer differs, a value that management mode read from protected memory: allowed".to_string(),
            count => format!(
                "{} answers differ, all of them values that management mode read from protected memory: allowed",
                grouped(count as u64)
            ),
        };
        let Lent { memory, display } = &self.runs[0].lent;
        let others: usize = self.scope.protected.others(memory.len()).iter().map(Range::len).sum();
        let unprotected = counted((others + display.len()) as u64, "unprotected byte");
        let compared = match (self.board.table_in_memory(), display.is_empty()) {
            (false, true) => format!("Registers, table and {unprotected}: equal."),
            (false, false) => format!("Registers, table and {unprotected}, the display cache's among them: equal."),
            (true, true) => format!("Registers and {unprotected}, the table words among them: equal."),
            (true, false) => {
                format!("Registers and {unprotected}, the table words and the display cache's among them: equal.")
            }
        };
        for text in [
            format!("{records} after the lock, {answers}."),
            compared,
            "Protected bytes: the same ones throughout, changed only where a management-mode write landed.".to_string(),
        ] {
            for line in wrapped(&text, WIDTH) {
                writeln!(out, "{}", self.style.good(&line))?;
            }
        }
        Ok(())
    }

    /// The records from a reset on.
    fn left_out(&self, out: &mut impl Write) -> io::Result<()> {
        let left = self.list.records.len() / RECORD_BYTES - self.scope.end;
        if left == 0 {
            return Ok(());
        }
        let (records, place) = (counted(left as u64, "record"), self.list.place(self.scope.end));
        let text = format!("Not compared: {records}, from {place} on. The reset there ends what demand 3 says.");
        for line in wrapped(&text, WIDTH) {
            writeln!(out, "{}", self.style.warning(&line))?;
        }
        Ok(())
    }

    fn in_words(&self, difference: &Difference) -> String {
        match difference {
            Difference::Answer(seen) => {
                let [first, second] = self.values(seen);
                let (place, statement) = (self.list.place(seen.index), self.statement(seen.index));
                let field = seen.field.name();
                format!("{place}: {statement}: the answer's {field} differs: {first} and {second}")
            }
            Difference::Register(name, values) => format!("{name} differs at the end{}", self.both(values)),
            Difference::Byte(at, values) => {
                format!("the unprotected byte at {at:X}h differs at the end{}", self.both(values))
            }
            Difference::Display(at, values) => {
                format!("the display cache's byte at {at:X}h differs at the end{}", self.both(values))
            }
            Difference::Unwritten(run, at) => format!(
                "in the {} run the protected byte at {at:X}h changed though no management-mode write landed on it",
                RUNS[*run]
            ),
            Difference::Moved(run, index) => format!(
                "{}: in the {} run other bytes are protected from here on than at the lock",
                self.list.place(*index),
                RUNS[*run]
            ),
        }
    }

    /// Two values, which may be the key's.
    fn both(&self, [first, second]: &[u32; 2]) -> String {
        match self.secrets {
            Secrets::Shown => format!(": {first:X}h and {second:X}h"),
            Secrets::Hidden => String::new(),
        }
    }
}

const LOUD: &str = "THE TWO RUNS DIFFER WHERE DEMAND 3 FORBIDS IT";
const ADVICE: &str = "Keep no secret on this model. Please report the trace with this message.";

#[cfg(test)]
mod tests {
    use super::super::pair::wrong::leaking;
    use super::super::pair::Call;
    use super::*;
    use mitrophel::record;

    const LEAK: &str = "config write dev0.SMRAM 4Ch\nconfig write dev1.GMADR C0000000h\n\
                        config write dev1.MMADR F0000000h\nconfig write dev1.PCICMD 2\nentry 10 A0000h\n\
                        write PGTBL_CTL 1\nconfig write dev0.SMRAM 4Eh\nread4 WINDOW+A000h\n";

    fn machine(memory: &Memory, call: Call) -> Machine<'_> {
        Machine::new(Board::I82810, memory, call)
    }

    fn keys() -> [Key; 2] {
        [b"OPEN", b"SHUT"].map(|bytes| Key { name: "key".to_string(), bytes: bytes.to_vec() })
    }

    /// A call that shows the key through the window: the reference beside it notices first.
    #[test]
    fn a_disagreement_does_not_show_the_key() {
        let memory = Memory::zeros(Board::I82810, 8 << 20);
        let list = List::text(&Source::File("leak.trace".into()), LEAK.as_bytes()).expect("a trace");
        let scope = Scope::of(&machine(&memory, gmch_replay), &list).expect("it locks");
        let failure = Run::of(&machine(&memory, leaking), &list, &scope, &keys()[0]).err().expect("the two disagree");
        assert_eq!(failure.status, Status::Disagreement);
        assert!(failure.message.contains("DISAGREE at record 13 of the call"), "{}", failure.message);
        assert!(!failure.message.contains("4F 50 45 4E"), "{}", failure.message);
    }

    /// Without a reference beside it, the comparison notices the same leak, and tells it without the key.
    #[test]
    fn a_leak_through_the_window_is_forbidden() {
        let memory = Memory::zeros(Board::I82810, 8 << 20);
        let list = List::text(&Source::File("leak.trace".into()), LEAK.as_bytes()).expect("a trace");
        let scope = Scope::of(&machine(&memory, gmch_replay), &list).expect("it locks");
        let keys = keys();
        let runs = keys.each_ref().map(|key| {
            let mut run = Run::of(&machine(&memory, gmch_replay), &list, &scope, key).expect("the two agree");
            let mut answers = vec![0; list.records.len()];
            assert_eq!(leaking(0, &mut run.lent.memory, &list.records, &mut answers, &mut []), 0);
            run.answers = record::decode_answers(&answers).collect();
            run
        });
        for (secrets, values) in [(Secrets::Hidden, "·· and ··"), (Secrets::Shown, "4E45504Fh and 54554853h")] {
            let style = Style { colour: false };
            let report =
                Report { board: Board::I82810, list: &list, scope: &scope, runs: &runs, keys: &keys, secrets, style };
            let expected = format!("leak.trace:8: read4 WINDOW+A000h: the answer's value differs: {values}");
            let mut out = Vec::new();
            let failure = report.tell(&mut out).expect_err("the key was read");
            assert_eq!(failure.status, Status::Unmet);
            assert!(failure.message.starts_with(&format!("{LOUD}: {expected}\n")), "{}", failure.message);
            let text = String::from_utf8(out).expect("a report");
            assert!(text.contains("FORBIDDEN") && !text.contains("equal"), "{text}");
        }
    }

    /// A refusal's address that differs is no window offset, and may be the key's. A run's head is told.
    #[test]
    fn a_refusal_whose_address_differs_is_forbidden() {
        let memory = Memory::zeros(Board::I82810, 8 << 20);
        let source = Source::File("leak.trace".into());
        let text = format!("{LEAK}write LP_RING_TAIL 8\nwrite LP_RING_START A000h\nwrite LP_RING_LENGTH 1\nrun 1\n");
        let list = List::text(&source, text.as_bytes()).expect("a trace");
        let scope = Scope::of(&machine(&memory, gmch_replay), &list).expect("it locks");
        let keys = keys();
        for (index, expected, secrets) in [
            (12, ":8: read4 WINDOW+A000h: the answer's address differs: ·· and ··\n", Secrets::Hidden),
            (12, ":8: read4 WINDOW+A000h: the answer's address differs: 0000A000h and 4B455921h\n", Secrets::Shown),
            (16, ":12: run 1: the answer's address differs: 00000000h and 4B455921h\n", Secrets::Hidden),
        ] {
            let mut runs = keys
                .each_ref()
                .map(|key| Run::of(&machine(&memory, gmch_replay), &list, &scope, key).expect("the two agree"));
            assert_eq!(runs[0].answers[index].code, 6);
            runs[1].answers[index].address = 0x4B45_5921;
            let style = Style { colour: false };
            let report =
                Report { board: Board::I82810, list: &list, scope: &scope, runs: &runs, keys: &keys, secrets, style };
            let failure = report.tell(&mut Vec::new()).expect_err("an address differs");
            assert_eq!(failure.status, Status::Unmet);
            assert!(failure.message.contains(expected), "{}", failure.message);
        }
    }

    /// Request 11 of document 02: "Demand 3 counts this memory as unprotected".
    #[test]
    fn a_display_cache_that_differs_is_forbidden() {
        let memory = Memory::zeros(Board::Dc100, 8 << 20);
        let list = List::text(&Source::File("leak.trace".into()), LEAK.as_bytes()).expect("a trace");
        let machine = Machine::new(Board::Dc100, &memory, gmch_replay);
        let scope = Scope::of(&machine, &list).expect("it locks");
        let keys = keys();
        let mut runs = keys.each_ref().map(|key| Run::of(&machine, &list, &scope, key).expect("the two agree"));
        // At the key's own address in main memory.
        runs[1].lent.display[0xA_0000] = 0x4F;
        for (secrets, values) in [(Secrets::Hidden, ""), (Secrets::Shown, ": 0h and 4Fh")] {
            let style = Style { colour: false };
            let report =
                Report { board: Board::Dc100, list: &list, scope: &scope, runs: &runs, keys: &keys, secrets, style };
            let failure = report.tell(&mut Vec::new()).expect_err("the two differ");
            assert_eq!(failure.status, Status::Unmet);
            let expected = format!("{LOUD}: the display cache's byte at A0000h differs at the end{values}\n");
            assert!(failure.message.starts_with(&expected), "{}", failure.message);
        }
    }

    #[test]
    fn registers_are_named() {
        let memory = Memory::zeros(Board::I82810, 8 << 20);
        let list = List::text(&Source::File("leak.trace".into()), LEAK.as_bytes()).expect("a trace");
        let machine = machine(&memory, gmch_replay);
        let scope = Scope::of(&machine, &list).expect("it locks");
        let state = Run::of(&machine, &list, &scope, &keys()[0]).expect("the two agree").at_end;
        let value = |name: &str| state.registers.iter().find(|(own, _)| own == name).map(|(_, value)| *value);
        assert_eq!(value("CF8h"), Some(0x8000_0070));
        assert_eq!(value("dev0.SMRAM"), Some(0x4E));
        assert_eq!(value("PGTBL_CTL"), Some(1));
        assert_eq!(value("IMR"), Some(0xFFFF));
        assert_eq!(state.registers.len(), 1 + 2 * 256 + 17);
        assert_eq!(state.table[10], 0xA_0001);
        let memory = Memory::zeros(Board::Dc100, 8 << 20);
        let machine = Machine::new(Board::Dc100, &memory, gmch_replay);
        let state = Run::of(&machine, &list, &scope, &keys()[0]).expect("the two agree").at_end;
        let last = state.registers.iter().skip(1 + 2 * 256 + 17).map(|(name, value)| (name.as_str(), *value));
        assert_eq!(last.collect::<Vec<_>>(), [("DRT", 0), ("DRAMCL", 0x17), ("DRAMCH", 8)]);
    }
}
