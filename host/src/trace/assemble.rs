//! A trace's lines turned into records.

use super::errors::{Errors, TraceError, Warning, MOST_ERRORS, MOST_WARNINGS};
use super::follow::{Follower, Ground};
use super::line::{Fault, Line, Word};
use super::numbers;
use super::reader::{Constants, Reader};
use super::statement::{self, Statement};
use crate::record::Record;
use std::io;
use std::ops::Range;
use std::path::Path;

/// The records of a trace.
///
/// ```
/// let assembled = mitrophel::trace::assemble("reset\n\nconfig read dev0.DID\n")?;
/// assert_eq!(assembled.records.len(), 3 * 16);
/// let lines: Vec<u32> = assembled.places.iter().map(|place| place.line).collect();
/// assert_eq!(lines, [1, 3, 3]);
/// assert_eq!(assembled.files, ["trace"]);
/// # Ok::<(), mitrophel::trace::Errors>(())
/// ```
#[derive(Clone, Debug, Default)]
pub struct Assembled {
    /// The records' bytes.
    pub records: Vec<u8>,
    /// Where each record comes from.
    pub places: Vec<Place>,
    /// The names of the files read: the trace's own first, then what it includes.
    pub files: Vec<String>,
    /// What the trace expects of its records (`#>`).
    pub expectations: Vec<Expectation>,
    /// What is legal but looks like a slip: the first 20.
    pub warnings: Vec<Warning>,
}

/// A line of one of the files of a trace.
#[derive(Clone, Copy, Debug, PartialEq, Eq, Hash, PartialOrd, Ord)]
pub struct Place {
    /// Which one of [`Assembled::files`].
    pub file: u32,
    /// From 1.
    pub line: u32,
}

/// What a trace expects of a statement's records: the text after `#>` or `#>>`.
///
/// ```
/// let trace = "read4 A0000h  # a guest looks  #> hub\n#> rule 2\n";
/// let assembled = mitrophel::trace::assemble(trace)?;
/// let texts: Vec<&str> = assembled.expectations.iter().map(|expected| expected.text.as_str()).collect();
/// assert_eq!(texts, ["hub", "rule 2"]);
/// assert_eq!(assembled.expectations[1].place.line, 2);
/// assert_eq!(assembled.expectations[1].records, 0..1);
/// # Ok::<(), mitrophel::trace::Errors>(())
/// ```
#[derive(Clone, Debug, PartialEq, Eq)]
pub struct Expectation {
    /// Where the `#>` stands.
    pub place: Place,
    /// The records of the statement that it belongs to: by index, at least one.
    pub records: Range<usize>,
    /// Without blanks around it.
    pub text: String,
}

/// The records of a text trace that includes no other.
///
/// # Errors
///
/// The first errors in it. `include` is one: there is no folder to look in.
///
/// ```
/// use mitrophel::{record, trace, Record};
///
/// let assembled = trace::assemble("smm read4 700000h\n")?;
/// assert_eq!(assembled.records, record::encode(&[Record::read(0x70_0000, 4, true)]));
/// # Ok::<(), trace::Errors>(())
/// ```
pub fn assemble(text: &str) -> Result<Assembled, Errors> {
    assemble_with("trace", text, &mut |_| Err(io::Error::other("a trace on its own has no folder to look in")))
}

/// The same for a trace of this name, which may include others: `include` gives the text of the file with
/// the path that it is asked for. That is the path in the trace, relative to the including file's folder
/// as its name has it.
///
/// # Errors
///
/// The first errors in any of the files.
///
/// ```
/// use mitrophel::trace;
///
/// let mut asked = Vec::new();
/// let assembled = trace::assemble_with("desks/lobby.trace", "include setup.trace\nreset\n", &mut |path| {
///     asked.push(path.to_string());
///     Ok("config write dev0.SMRAM 40h\n".to_string())
/// })?;
/// assert_eq!(asked, ["desks/setup.trace"]);
/// assert_eq!(assembled.files, ["desks/lobby.trace", "desks/setup.trace"]);
/// assert_eq!(assembled.places[0], trace::Place { file: 1, line: 1 });
/// # Ok::<(), trace::Errors>(())
/// ```
pub fn assemble_with(
    name: &str,
    text: &str,
    include: &mut dyn FnMut(&str) -> io::Result<String>,
) -> Result<Assembled, Errors> {
    let mut ground = Ground::new();
    let follower = Follower::new(&mut ground);
    let assembled = Assembled { files: vec![name.to_string()], ..Assembled::default() };
    let mut assembler = Assembler {
        follower,
        include,
        open: Vec::new(),
        includes: 0,
        constants: Constants::new(),
        assembled,
        errors: Vec::new(),
    };
    assembler.file(0, text);
    match assembler.errors.is_empty() {
        true => Ok(assembler.assembled),
        false => Err(Errors(assembler.errors)),
    }
}

/// The lines of a trace, without a byte order mark.
fn lines(text: &str) -> impl Iterator<Item = &str> {
    text.strip_prefix('\u{FEFF}').unwrap_or(text).lines()
}

/// Files that may include one another.
const DEEPEST: usize = 16;

/// Files that include many that include many are soon more than any machine holds.
const MOST_INCLUDES: usize = 1000;

/// The nearest statement above a comment, in the same file.
enum Above {
    Nothing,
    /// It was told of; its comments need not be.
    Mistake,
    Records(Range<usize>),
}

struct Assembler<'g, 'i> {
    follower: Follower<'g>,
    include: &'i mut dyn FnMut(&str) -> io::Result<String>,
    /// The `include` statements that are being carried out, outermost first.
    open: Vec<Place>,
    /// How many were carried out.
    includes: usize,
    constants: Constants,
    assembled: Assembled,
    errors: Vec<TraceError>,
}

impl Assembler<'_, '_> {
    /// The statements of a file, whose name is the one at this index.
    fn file(&mut self, file: u32, text: &str) {
        let mut above = Above::Nothing;
        for (number, source) in lines(text).enumerate() {
            let place = Place { file, line: number as u32 + 1 };
            let line = Line::of(source);
            let alone = line.words.is_empty();
            if !alone {
                above = match self.statement(line.words, place) {
                    Ok(above) => above,
                    Err(fault) => self.mistake(place, source, fault),
                };
            }
            if let Some((mark, text)) = line.comment.and_then(|comment| comment.expectation(alone)) {
                if let Err(fault) = self.expect(place, mark, text, &above) {
                    self.mistake(place, source, fault);
                }
            }
            if self.errors.len() >= MOST_ERRORS {
                return;
            }
        }
    }

    fn mistake(&mut self, place: Place, source: &str, fault: Fault) -> Above {
        let file = self.name(place).to_string();
        let Fault { column, message } = fault;
        let source = source.to_string();
        self.errors.push(TraceError { file, line: place.line, column: column as u32, message, source });
        Above::Mistake
    }

    /// The name of a place's file.
    fn name(&self, place: Place) -> &str {
        &self.assembled.files[place.file as usize]
    }

    fn statement(&mut self, words: Vec<Word<'_>>, place: Place) -> Result<Above, Fault> {
        let from = self.assembled.places.len();
        let mut reader = Reader::new(words, self.follower.bases(), &self.constants);
        let statement = statement::statement(&mut reader)?;
        for warning in std::mem::take(&mut reader.warnings) {
            self.warn(place, warning);
        }
        match statement {
            Statement::Records(records) => self.add(place, &records),
            Statement::Set(name, value) => drop(self.constants.insert(name, value)),
            Statement::Include(word, name) => {
                let told = self.errors.len();
                self.included(place, word, &name)?;
                if self.errors.len() != told {
                    return Ok(Above::Mistake);
                }
            }
        }
        Ok(Above::Records(from..self.assembled.places.len()))
    }

    fn warn(&mut self, place: Place, Fault { column, message }: Fault) {
        if self.assembled.warnings.len() < MOST_WARNINGS {
            let file = self.name(place).to_string();
            self.assembled.warnings.push(Warning { file, line: place.line, column: column as u32, message });
        }
    }

    fn add(&mut self, place: Place, records: &[Record]) {
        for record in records {
            self.follower.note(record);
            self.assembled.records.extend(record.to_bytes());
            self.assembled.places.push(place);
        }
    }

    /// The statements of another file, which the word names.
    fn included(&mut self, place: Place, word: Word<'_>, name: &str) -> Result<(), Fault> {
        let path = self.beside(place, name);
        self.open.push(place);
        let result = self.read(word, &path);
        self.open.pop();
        result
    }

    /// A path as the file of this place means it: relative to its folder.
    fn beside(&self, place: Place, path: &str) -> String {
        let folder = Path::new(self.name(place)).parent().unwrap_or(Path::new(""));
        folder.join(path).display().to_string()
    }

    fn read(&mut self, word: Word<'_>, path: &str) -> Result<(), Fault> {
        if self.open.iter().any(|&open| self.name(open) == path) {
            return Err(word.fault(format!("expected a file that does not include itself: {}", self.chain(path))));
        }
        if self.open.len() > DEEPEST {
            return Err(word.fault(format!("expected at most {DEEPEST} files in one another: {}", self.chain(path))));
        }
        self.includes += 1;
        if self.includes > MOST_INCLUDES {
            return Err(word.fault(format!("expected at most {} includes", numbers::grouped(MOST_INCLUDES as u64))));
        }
        let text = (self.include)(path).map_err(|error| {
            let reason = error.to_string();
            let reason = reason.split(" (os error").next().unwrap_or_default();
            word.fault(format!("'{path}' cannot be read: {reason}"))
        })?;
        let known = self.assembled.files.iter().position(|name| name == path);
        let file = known.unwrap_or_else(|| {
            self.assembled.files.push(path.to_string());
            self.assembled.files.len() - 1
        });
        self.file(file as u32, &text);
        Ok(())
    }

    /// How a file came to be included: `a:1 includes b, b:2 includes c`.
    fn chain(&self, path: &str) -> String {
        let included = self.open.iter().skip(1).map(|&open| self.name(open)).chain([path]);
        let links = self.open.iter().zip(included);
        let links: Vec<String> =
            links.map(|(&open, file)| format!("{}:{} includes {file}", self.name(open), open.line)).collect();
        links.join(", ")
    }

    fn expect(&mut self, place: Place, mark: Word<'_>, text: &str, above: &Above) -> Result<(), Fault> {
        let records = match above {
            Above::Mistake => return Ok(()),
            Above::Records(records) if !records.is_empty() => records.clone(),
            Above::Records(_) => return Err(mark.fault("expected an access before '#>', found one without a record")),
            Above::Nothing => return Err(mark.fault("expected an access before '#>', found none above it")),
        };
        self.assembled.expectations.push(Expectation { place, records, text: text.to_string() });
        Ok(())
    }
}

#[cfg(test)]
mod tests {
    use super::*;

    /// Each expectation of a good trace: its line, its records, its text.
    fn expectations(text: &str) -> Vec<(u32, Range<usize>, String)> {
        let assembled = assemble(text).unwrap_or_else(|errors| panic!("{errors}"));
        let expectations = assembled.expectations.into_iter();
        expectations.map(|expected| (expected.place.line, expected.records, expected.text)).collect()
    }

    #[test]
    fn an_expectation_belongs_to_its_line_or_to_the_nearest_statement_above() {
        let text = "\
# '#>' in a comment of its own is no expectation
reset #> a
config read dev0.VID # a guest looks  #>> b #> c

  #> d
# between
#>e
run 5 # no expectation > here
run 6 #>>
";
        let expected = [(2, 0..1, "a"), (3, 1..3, "b #> c"), (5, 1..3, "d"), (7, 1..3, "e"), (9, 4..5, "")];
        assert_eq!(expectations(text), expected.map(|(line, records, text)| (line, records, text.to_string())));
    }

    #[test]
    fn an_expectation_without_an_access_is_an_error() {
        for (text, line, column, part) in [
            ("#> a\nreset\n", 1, 1, "found none above it"),
            ("# only\n\n  #> a\n", 3, 3, "found none above it"),
            ("set KEY 5 #> a\n", 1, 11, "found one without a record"),
            ("reset\nset KEY 5\n#> a\n", 3, 1, "found one without a record"),
        ] {
            let errors = assemble(text).expect_err(text);
            let error = &errors.list()[0];
            assert_eq!((errors.list().len(), error.line, error.column), (1, line, column), "{errors}");
            assert!(error.message.contains(part), "{errors}");
        }
        let errors = assemble("peek #> a\n#> b\n").expect_err("no access");
        assert_eq!(errors.list().len(), 1, "one mistake, one error: {errors}");
    }

    /// Assembles the first file; the others can be included.
    fn files(files: &[(&str, &str)]) -> Result<Assembled, Errors> {
        let (name, text) = files[0];
        assemble_with(name, text, &mut |path| {
            let found = files.iter().find(|(name, _)| *name == path).map(|(_, text)| text.to_string());
            found.ok_or(io::Error::from(io::ErrorKind::NotFound))
        })
    }

    #[test]
    fn included_statements_stand_in_place_with_their_own_lines() {
        let assembled = files(&[
            ("d/a", "reset\ninclude sub/b #> all\nread FENCE0\ninclude \"sub/b\"\n"),
            ("d/sub/b", "# setup\nconfig write dev0.SMRAM 40h\nconfig write dev1.MMADR F0000000h #> in b\ninclude c\n"),
            ("d/sub/c", "run 1"),
        ])
        .unwrap_or_else(|errors| panic!("{errors}"));
        assert_eq!(assembled.files, ["d/a", "d/sub/b", "d/sub/c"]);
        let places: Vec<_> = assembled.places.iter().map(|place| (place.file, place.line)).collect();
        let b = [(1, 2), (1, 2), (1, 3), (1, 3), (2, 1)];
        assert_eq!(places, [&[(0, 1)], &b[..], &[(0, 3)], &b[..]].concat());
        let ranges: Vec<_> = assembled.expectations.iter().map(|expected| expected.records.clone()).collect();
        assert_eq!(ranges, [3..5, 1..6, 9..11]);
    }

    #[test]
    fn errors_of_an_included_file_carry_its_name() {
        let errors = files(&[("a", "include b\n#> after a mistake\nalso wrong\n"), ("b", "reset\nwrong\n")]);
        let report = errors.expect_err("two mistakes").to_string();
        assert!(report.starts_with("b:2:1: expected an access"), "{report}");
        assert!(report.contains("\n    wrong\n    ^\na:3:1: expected an access"), "{report}");
    }

    #[test]
    fn an_include_that_cannot_be_is_told_with_its_chain() {
        let deep: Vec<(String, String)> = (0..20).map(|n| (format!("f{n}"), format!("include f{}\n", n + 1))).collect();
        let deep: Vec<(&str, &str)> = deep.iter().map(|(name, text)| (name.as_str(), text.as_str())).collect();
        let many = "include b\n".repeat(40);
        for (list, place, part) in [
            (
                &[("a", "reset\ninclude b"), ("b", "include \"a\"")][..],
                "b:1:9",
                "itself: a:2 includes b, b:1 includes a",
            ),
            (&[("a", "include a")], "a:1:9", "itself: a:1 includes a"),
            (&deep, "f16:1:9", "at most 16 files in one another: f0:1 includes f1, f1:1 includes f2,"),
            (&[("a", &many), ("b", &many.replace('b', "c")), ("c", "")], "b:16:9", "at most 1,000 includes"),
            (&[("a", "include none")], "a:1:9", "'none' cannot be read: entity not found"),
            (&[("a", "include")], "a:1:8", "expected a file's name, found the end of the line"),
            (&[("a", "include x y")], "a:1:11", "expected the end of the line, found 'y'"),
            (&[("a", "include \"x")], "a:1:9", "expected a closing '\"'"),
            (&[("a", "include \"\"")], "a:1:9", "expected a file's name"),
            (&[("a", "include \"\\x1b\"")], "a:1:9", "expected a file's name"),
            (&[("a", "include b #> x"), ("b", "# nothing")], "a:1:11", "found one without a record"),
        ] {
            let errors = files(list).expect_err(part);
            let report = errors.to_string();
            assert!(report.starts_with(&format!("{place}: ")) && report.contains(part), "{part}: {report}");
        }
        let alone = assemble("include x").expect_err("no folder").to_string();
        assert!(alone.contains("'x' cannot be read: a trace on its own has no folder to look in"), "{alone}");
    }
}
