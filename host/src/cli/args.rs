//! The words of a command line.

use super::failure::{shown, Failure};
use super::files::{Sink, Source};
use super::load::Form;
use super::numbers;
use super::style::Colour;
use super::told::Secrets;
use mitrophel::Board;
use std::ffi::{OsStr, OsString};
use std::os::unix::ffi::OsStrExt;

/// The options of a command.
pub struct Grammar {
    pub command: &'static str,
    /// Options with a value.
    pub values: &'static [&'static str],
    /// Options without one.
    pub switches: &'static [&'static str],
    /// How many files it takes at most.
    pub files: usize,
}

/// What was given.
#[derive(Debug)]
pub struct Options {
    command: &'static str,
    given: Vec<(&'static str, OsString)>,
    files: Vec<OsString>,
}

/// Options that may be given more than once.
pub const REPEATED: &[&str] = &["--deny", "--key", "--only"];

/// The values of `--color`.
pub const COLOURS: [(&str, Colour); 3] = [("auto", Colour::Auto), ("always", Colour::Always), ("never", Colour::Never)];

/// Short forms.
pub const SHORT: &[(&str, &str)] = &[("-o", "--output")];

impl Grammar {
    /// Takes the words after the command apart. They are bytes: a file's name need not be UTF-8.
    pub fn parse(&self, words: &[OsString]) -> Result<Options, Failure> {
        let mut options = Options { command: self.command, given: Vec::new(), files: Vec::new() };
        let mut words = words.iter();
        while let Some(word) = words.next() {
            match word.as_bytes() {
                b"--" => options.files.extend(words.by_ref().cloned()),
                [b'-', _, ..] => {
                    let (name, value) = self.option(word)?;
                    let value = if self.switches.contains(&name) {
                        self.no_value(name, value)?
                    } else {
                        self.some_value(name, value.or_else(|| words.next().map(OsString::as_os_str)))?
                    };
                    if options.has(name) && !REPEATED.contains(&name) {
                        return Err(self.usage(format!("{name} is given twice")));
                    }
                    options.given.push((name, value));
                }
                _ => options.files.push(word.clone()),
            }
        }
        if options.files.iter().any(|file| file.is_empty()) {
            return Err(self.usage("expected a file, found ''".to_string()));
        }
        match options.files.get(self.files) {
            Some(file) if self.files == 0 => Err(self.usage(format!("expected no file, found '{}'", shown(file)))),
            Some(file) => Err(self.usage(format!("expected one file, found '{}' too", shown(file)))),
            None => Ok(options),
        }
    }

    fn no_value(&self, name: &str, value: Option<&OsStr>) -> Result<OsString, Failure> {
        match value {
            None => Ok(OsString::new()),
            Some(_) => Err(self.usage(format!("{name} takes no value"))),
        }
    }

    fn some_value(&self, name: &str, value: Option<&OsStr>) -> Result<OsString, Failure> {
        let value = value.filter(|value| !value.is_empty()).map(OsStr::to_os_string);
        value.ok_or_else(|| self.usage(format!("{name} needs a value")))
    }

    /// The option's full name, and the value in the same word: after `=`, or after a short option's letter.
    fn option<'a>(&self, word: &'a OsStr) -> Result<(&'static str, Option<&'a OsStr>), Failure> {
        let bytes = word.as_bytes();
        let end = bytes.iter().position(|byte| *byte == b'=').unwrap_or(bytes.len());
        let short = SHORT.iter().find(|(short, _)| bytes.starts_with(short.as_bytes()));
        let (name, rest) = match short {
            Some((short, long)) => (long.as_bytes(), &bytes[short.len()..]),
            None => bytes.split_at(end),
        };
        let value = match rest {
            [] => None,
            [b'=', value @ ..] | value => Some(OsStr::from_bytes(value)),
        };
        match self.values.iter().chain(self.switches).find(|known| known.as_bytes() == name) {
            Some(known) => Ok((known, value)),
            None => Err(self.usage(format!("unknown option '{}'", shown(OsStr::from_bytes(&bytes[..end]))))),
        }
    }

    fn usage(&self, message: String) -> Failure {
        usage(self.command, &message)
    }
}

/// A wrong command line of this command.
pub fn usage(command: &str, message: &str) -> Failure {
    Failure::usage(format!("{message}\nTry 'mitrophel {command} --help'."))
}

impl Options {
    pub fn has(&self, name: &str) -> bool {
        self.value(name).is_some()
    }

    pub fn value(&self, name: &str) -> Option<&OsStr> {
        self.given.iter().find(|(own, _)| *own == name).map(|(_, value)| value.as_os_str())
    }

    /// Every value of an option that may be repeated.
    pub fn values<'a>(&'a self, name: &'a str) -> impl Iterator<Item = &'a OsStr> {
        self.given.iter().filter(move |(own, _)| *own == name).map(|(_, value)| value.as_os_str())
    }

    pub fn usage(&self, message: impl AsRef<str>) -> Failure {
        usage(self.command, message.as_ref())
    }

    /// The files, as many as were given.
    pub fn sources(&self) -> Vec<Source> {
        self.files.iter().map(|file| Source::named(file)).collect()
    }

    /// The one file that the command needs.
    pub fn source(&self) -> Result<Source, Failure> {
        let missing = || self.usage("expected a file ('-' is standard input)");
        self.files.first().map(|file| Source::named(file)).ok_or_else(missing)
    }

    /// Asks that standard input is named once at most, as a file or by an option that reads one.
    pub fn one_standard_input(&self) -> Result<(), Failure> {
        let given = |name: &'static str| self.values(name).map(move |file| (name, file));
        let options = ["--image", "--display", "--key"].into_iter().flat_map(given);
        let files = self.files.iter().map(|file| ("FILE", file.as_os_str()));
        let named: Vec<&str> = files.chain(options).filter(|(_, file)| *file == "-").map(|(name, _)| name).collect();
        match named[..] {
            [first, second, ..] if first != second => {
                Err(self.usage(format!("{first} and {second} cannot both be standard input")))
            }
            [_, _, ..] => Err(self.usage("standard input can be read only once")),
            _ => Ok(()),
        }
    }

    /// Asks that no option about the display cache is given for a board that has none.
    pub fn has_display(&self, board: Board) -> Result<(), Failure> {
        let given = ["--display", "--dump-display"].into_iter().find(|name| self.has(name));
        let Some(name) = given.filter(|_| board.display_bytes() == 0) else { return Ok(()) };
        let with = Board::ALL.into_iter().filter(|board| board.display_bytes() != 0).map(Board::name);
        let with = with.collect::<Vec<_>>().join(" and ");
        Err(self.usage(format!("{name}: board {board} has no display cache; {with} have one")))
    }

    /// Asks that an option's output is none of the files that are read, which it would replace.
    pub fn spares(&self, name: &str, sink: &Sink, read: impl IntoIterator<Item = Source>) -> Result<(), Failure> {
        match read.into_iter().find(|source| sink.replaces(source)) {
            Some(source) => Err(self.usage(format!("{name} names a file that is read: {}", source.name()))),
            None => Ok(()),
        }
    }

    /// `--image`
    pub fn image(&self) -> Option<Source> {
        self.value("--image").map(Source::named)
    }

    /// `--display`
    pub fn display(&self) -> Option<Source> {
        self.value("--display").map(Source::named)
    }

    /// An option's value as a number of 32 bits.
    pub fn number(&self, name: &str) -> Result<Option<u32>, Failure> {
        self.converted(name, |text| numbers::number(text).map_err(|why| why.expected().to_string()))
    }

    /// An option's value as a number of bytes.
    pub fn size(&self, name: &str) -> Result<Option<u64>, Failure> {
        self.converted(name, |text| numbers::size(text).ok_or_else(|| "a size such as 16M".to_string()))
    }

    /// An option's value as what `convert` makes of it; its error says what was expected.
    pub fn converted<T>(
        &self,
        name: &str,
        convert: impl FnOnce(&str) -> Result<T, String>,
    ) -> Result<Option<T>, Failure> {
        let Some(value) = self.value(name) else { return Ok(None) };
        let text = value.to_string_lossy();
        let wrong = |expected| self.usage(format!("{name}: expected {expected}, found '{}'", shown(value)));
        convert(&text).map(Some).map_err(wrong)
    }

    /// `--board`, by its name or its kind's number; the 82810 where none is named.
    pub fn board(&self) -> Result<Board, Failure> {
        let numbered = |text: &str| numbers::number(text).ok().and_then(Board::from_number);
        let known = || Board::ALL.map(|board| format!("{} {board}", board.number())).join(", ");
        let board = self.converted("--board", |text| {
            let board = Board::named(text).or_else(|| numbered(text));
            board.ok_or_else(|| format!("the number or the name of one of {}", known()))
        })?;
        Ok(board.unwrap_or_default())
    }

    /// `--text` or `--binary`, none where the content is to decide.
    pub fn form(&self) -> Result<Option<Form>, Failure> {
        match (self.has("--text"), self.has("--binary")) {
            (true, true) => Err(self.usage("--text and --binary exclude each other")),
            (true, false) => Ok(Some(Form::Text)),
            (false, true) => Ok(Some(Form::Binary)),
            (false, false) => Ok(None),
        }
    }

    /// `--show-protected`
    pub fn secrets(&self) -> Secrets {
        if self.has("--show-protected") {
            Secrets::Shown
        } else {
            Secrets::Hidden
        }
    }

    /// `--color`
    pub fn colour(&self) -> Result<Colour, Failure> {
        let colour = self.converted("--color", |text| {
            let named = COLOURS.iter().find(|(name, _)| *name == text);
            named.map(|(_, colour)| *colour).ok_or_else(|| "auto, always or never".to_string())
        })?;
        Ok(colour.unwrap_or(Colour::Auto))
    }
}

#[cfg(test)]
mod tests {
    use super::*;

    const GRAMMAR: Grammar =
        Grammar { command: "replay", values: &["--board", "--deny", "--output"], switches: &["--text"], files: 1 };

    fn parse(words: &[&str]) -> Result<Options, String> {
        let words: Vec<OsString> = words.iter().map(OsString::from).collect();
        GRAMMAR.parse(&words).map_err(|failure| failure.message)
    }

    #[test]
    fn options_stand_before_or_after_the_file_with_or_without_an_equals_sign() {
        for words in [["--board", "dc100", "-"], ["-", "--board", "dc100"]] {
            let options = parse(&words).expect("good words");
            assert_eq!(options.board().expect("a board"), Board::Dc100);
            assert_eq!(options.files, ["-"]);
        }
        let options = parse(&["--board=DC100", "-o", "x", "--", "--text"]).expect("good words");
        assert_eq!(options.board().expect("a board"), Board::Dc100);
        assert_eq!(options.value("--output"), Some(OsStr::new("x")));
        assert_eq!(options.files, ["--text"]);
        assert!(!options.has("--text"));
        for board in Board::ALL {
            for word in [board.name().to_string(), board.name().to_uppercase(), board.number().to_string()] {
                let options = parse(&["--board", &word]).expect("good words");
                assert_eq!(options.board().expect("a board"), board, "{word}");
            }
        }
        let options = parse(&["--deny=6", "--deny", "7"]).expect("good words");
        assert_eq!(options.values("--deny").collect::<Vec<_>>(), ["6", "7"]);
    }

    #[test]
    fn a_value_may_stand_in_its_options_word_and_need_not_be_utf8() {
        for word in ["-ox=y", "-o=x=y", "--output=x=y"] {
            assert_eq!(parse(&[word]).expect("good words").value("--output"), Some(OsStr::new("x=y")), "{word}");
        }
        let odd = OsStr::from_bytes(b"--output=\xFF").to_os_string();
        let options = GRAMMAR.parse(&[odd]).expect("good words");
        assert_eq!(options.value("--output"), Some(OsStr::from_bytes(b"\xFF")));
        assert_eq!(options.files, [""; 0]);
    }

    #[test]
    fn wrong_words_are_named() {
        for (words, part) in [
            (&["--bord", "1"][..], "unknown option '--bord'"),
            (&["--bord=1"], "unknown option '--bord'"),
            (&["-xy=1"], "unknown option '-xy'"),
            (&["-t=1"], "unknown option '-t'"),
            (&["-\u{20ac}"], "unknown option '-\u{20ac}'"),
            (&["--board"], "--board needs a value"),
            (&["-o="], "--output needs a value"),
            (&["-o"], "--output needs a value"),
            (&["--text=1"], "--text takes no value"),
            (&["--board=0", "--board=1"], "--board is given twice"),
            (&["a", "b"], "expected one file, found 'b' too"),
        ] {
            let message = parse(words).expect_err("wrong words");
            assert!(message.contains(part), "{message}");
            assert!(message.contains("mitrophel replay --help"), "{message}");
        }
    }
}
