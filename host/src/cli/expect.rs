//! Expectations of a trace, the texts after `#>`: compared with what came (`--check`), or written anew
//! (`--bless`).

use super::failure::{shown, Failure};
use super::load::List;
use super::numbers;
use super::pair::Step;
use super::style::Style;
use super::told::{Secrets, Told, Tone};
use mitrophel::trace::{Expectation, Place};
use std::collections::BTreeMap;
use std::io::{self, Write};
use std::ops::Range;

/// Expectations, each with what came of its records.
#[derive(Default)]
pub struct Expectations {
    entries: Vec<Entry>,
    /// The entries by the first of their records, and how many of them have begun. An `include` begins before
    /// what it includes and stands after it.
    order: Vec<usize>,
    begun: usize,
    /// Those that have begun and have records to come.
    open: Vec<usize>,
}

struct Entry {
    place: Place,
    /// The records that it speaks of.
    records: Range<usize>,
    /// Empty where there is none yet.
    text: String,
    found: Option<Found>,
}

/// What came: of a statement with several records the first that was refused, or the last.
struct Found {
    hidden: Told,
    /// With the values of protected memory.
    shown: Told,
}

impl Expectations {
    /// Those that stand in a list.
    pub fn of(list: &List) -> Result<Expectations, Failure> {
        let given = list.expectations();
        let mut entries = Vec::with_capacity(given.len());
        // The one statement of an included file has the records of its `include`.
        for group in given.chunk_by(|a, b| a.records == b.records && a.place.file == b.place.file) {
            entries.extend(group_entries(group).ok_or_else(|| uneven(list, group))?);
        }
        Ok(Expectations::new(entries))
    }

    /// One for each statement of the trace itself, still without a text.
    pub fn for_each_statement(list: &List) -> Expectations {
        let statements = list.statements();
        let entry = |(place, records)| Entry { place, records, text: String::new(), found: None };
        Expectations::new(statements.into_iter().map(entry).collect())
    }

    fn new(entries: Vec<Entry>) -> Expectations {
        let mut order: Vec<usize> = (0..entries.len()).collect();
        order.sort_by_key(|&entry| entries[entry].records.start);
        Expectations { entries, order, ..Expectations::default() }
    }

    pub fn is_empty(&self) -> bool {
        self.entries.is_empty()
    }

    /// Whether none stands in the trace itself, whatever the files have that it includes.
    pub fn is_all_included(&self) -> bool {
        self.entries.iter().all(|entry| entry.place.file != 0)
    }

    /// Takes note of a record, counted from 0 in the whole list. All are noted, one after the other.
    pub fn note(&mut self, index: usize, step: &Step<'_, '_>) {
        let entries = &mut self.entries;
        let begins = |entry: &&usize| entries[**entry].records.start <= index;
        let begin: Vec<usize> = self.order[self.begun..].iter().take_while(begins).copied().collect();
        self.begun += begin.len();
        self.open.extend(begin);
        self.open.retain(|&entry| entries[entry].records.end > index);
        for &entry in &self.open {
            let found = &mut entries[entry].found;
            if found.as_ref().is_none_or(|found| found.hidden.tone != Tone::Refused) {
                let [hidden, shown] = [Secrets::Hidden, Secrets::Shown].map(|secrets| Told::of(step, secrets));
                *found = Some(Found { hidden, shown });
            }
        }
    }

    /// Says which expectations are not met, and how many; whether all are.
    pub fn compare(&self, list: &List, secrets: Secrets, style: Style, out: &mut impl Write) -> io::Result<bool> {
        let mut unmet = 0;
        for entry in self.entries.iter().filter(|entry| !entry.met()) {
            unmet += 1;
            let (file, line) = list.named(entry.place);
            writeln!(out, "{}", style.bold(&format!("{file}:{line}: {}", entry.asked(secrets))))?;
            writeln!(out, "{}", style.bad(&format!("- {}", shown(&entry.text))))?;
            writeln!(out, "{}", style.good(&format!("+ {}", entry.came(secrets))))?;
        }
        let all = numbers::counted(self.entries.len() as u64, "expectation");
        match unmet {
            0 if self.entries.len() == 1 => writeln!(out, "{}: {all}, met", list.name())?,
            0 => writeln!(out, "{}: {all}, all met", list.name())?,
            _ => writeln!(out, "{}: {all}, {} not met", list.name(), numbers::grouped(unmet))?,
        }
        Ok(unmet == 0)
    }

    /// The trace's text with every expectation as it came, and how many of them are new.
    pub fn blessed(&self, text: &str, secrets: Secrets, reasons: bool) -> (String, usize) {
        let own = self.entries.iter().filter(|entry| entry.place.file == 0);
        let unmet: BTreeMap<u32, &Entry> =
            own.filter(|entry| !entry.met()).map(|entry| (entry.place.line, entry)).collect();
        let mut blessed = String::with_capacity(text.len());
        for (number, line) in text.split_inclusive('\n').enumerate() {
            let (line, end) = without_end(line);
            blessed.push_str(&match unmet.get(&(number as u32 + 1)) {
                Some(entry) => entry.written(line, end, secrets, reasons),
                None => line.to_string(),
            });
            blessed.push_str(end);
        }
        (blessed, unmet.len())
    }
}

/// One expectation for all records of its statement, or one for each.
fn group_entries(group: &[Expectation]) -> Option<Vec<Entry>> {
    let all = &group[0].records;
    let records: Vec<Range<usize>> = match group.len() {
        1 => vec![all.clone()],
        count if count == all.len() => all.clone().map(|index| index..index + 1).collect(),
        _ => return None,
    };
    let entries = group.iter().zip(records).map(|(expectation, records)| Entry {
        place: expectation.place,
        records,
        text: expectation.text.clone(),
        found: None,
    });
    Some(entries.collect())
}

fn uneven(list: &List, group: &[Expectation]) -> Failure {
    let (file, line) = list.named(group[0].place);
    Failure::input(format!(
        "{file}:{line}: expected one expectation, or one for each of the statement's {}, found {}",
        numbers::counted(group[0].records.len() as u64, "record"),
        group.len()
    ))
}

impl Entry {
    fn met(&self) -> bool {
        let meets = |found: &Found| found.hidden.meets(&self.text) || found.shown.meets(&self.text);
        self.found.as_ref().is_some_and(meets)
    }

    /// What came.
    fn told(&self, secrets: Secrets) -> Option<&Told> {
        self.found.as_ref().map(|found| match secrets {
            Secrets::Hidden => &found.hidden,
            Secrets::Shown => &found.shown,
        })
    }

    fn asked(&self, secrets: Secrets) -> &str {
        self.told(secrets).map_or("", |told| &told.asked)
    }

    /// What came, with its reason if the expectation has one.
    fn came(&self, secrets: Secrets) -> String {
        self.as_it_came(secrets, self.text.ends_with(')'))
    }

    fn as_it_came(&self, secrets: Secrets, reasons: bool) -> String {
        self.told(secrets).map(|told| told.expectation(reasons)).unwrap_or_default()
    }

    /// Its line with what came in place of what was expected, or added.
    fn written(&self, line: &str, end: &str, secrets: Secrets, reasons: bool) -> String {
        let came = self.as_it_came(secrets, reasons || self.text.ends_with(')'));
        if let Some(start) = line.trim_end().strip_suffix(&self.text).filter(|start| is_mark(start)) {
            return format!("{} {came}", start.trim_end());
        }
        let beside = format!("{:<BESIDE$}  #> {came}", line.trim_end());
        if beside.chars().count() <= LONGEST {
            beside
        } else {
            format!("{}{}    #> {came}", line.trim_end(), if end.is_empty() { "\n" } else { end })
        }
    }
}

/// Where an expectation starts, if its line leaves room, and how long a line may become.
const BESIDE: usize = 38;
const LONGEST: usize = 120;

/// Whether a line up to an expectation's text ends with its mark.
fn is_mark(start: &str) -> bool {
    let start = start.trim_end();
    start.ends_with("#>") || start.ends_with("#>>")
}

/// A line and its end, of either kind.
fn without_end(line: &str) -> (&str, &str) {
    let end = ["\r\n", "\n"].into_iter().find(|end| line.ends_with(end)).unwrap_or_default();
    line.split_at(line.len() - end.len())
}
