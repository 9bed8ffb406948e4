//! How a command ends.

use mitrophel::trace::acts_on_terminals;
use std::ffi::OsStr;
use std::io::{self, Write};
use std::os::unix::ffi::OsStrExt;
use std::path::Path;

/// The exit status of the program. The numbers are in the manual page.
#[derive(Clone, Copy, Debug, PartialEq, Eq)]
#[repr(u8)]
pub enum Status {
    /// All was done.
    Done = 0,
    /// A check that was asked for failed: `audit --deny`, `replay --check`, `compare`.
    Unmet = 1,
    /// The command line is wrong.
    Usage = 2,
    /// An input is malformed, or cannot be replayed as it stands.
    Input = 3,
    /// A file or stream cannot be read or written.
    File = 4,
    /// The proved call and the reference disagree.
    Disagreement = 5,
    /// The reader of the output went away; the number is the shell's for a broken pipe.
    ClosedPipe = 141,
}

/// Why a command ended early.
#[derive(Debug)]
pub struct Failure {
    pub status: Status,
    /// What to say on standard error; empty for nothing.
    pub message: String,
    /// The message stands alone, without the program's name before it.
    bare: bool,
}

impl Failure {
    fn new(status: Status, message: String) -> Failure {
        Failure { status, message, bare: false }
    }

    pub fn unmet(message: impl Into<String>) -> Failure {
        Failure::new(Status::Unmet, message.into())
    }

    pub fn usage(message: impl Into<String>) -> Failure {
        Failure::new(Status::Usage, message.into())
    }

    pub fn input(message: impl Into<String>) -> Failure {
        Failure::new(Status::Input, message.into())
    }

    /// Errors of a text trace, which start with `FILE:LINE:COLUMN:`, where editors look for it.
    pub fn trace(status: Status, report: String) -> Failure {
        Failure { bare: true, ..Failure::new(status, report) }
    }

    /// No command was given: the help that was not asked for.
    pub fn no_command(help: &str) -> Failure {
        Failure { bare: true, ..Failure::usage(help) }
    }

    pub fn disagreement(message: impl Into<String>) -> Failure {
        Failure::new(Status::Disagreement, message.into())
    }

    /// The same, in this file.
    pub fn in_file(self, name: &str) -> Failure {
        Failure { message: format!("{name}: {}", self.message), ..self }
    }

    /// Says on standard error what there is to say.
    pub fn tell(&self) {
        match (self.message.as_str(), self.bare) {
            ("", _) => {}
            (message, true) => complain(message),
            (message, false) => complain(&format!("mitrophel: {message}")),
        }
    }

    /// A file could not be read or written.
    pub fn file(path: &Path, error: &io::Error) -> Failure {
        Failure::stream(&shown(path), error)
    }

    /// A file or stream of this name could not be read or written.
    pub fn stream(name: &str, error: &io::Error) -> Failure {
        if error.kind() == io::ErrorKind::BrokenPipe {
            return Failure::new(Status::ClosedPipe, String::new());
        }
        let reason = error.to_string();
        let reason = reason.split(" (os error").next().unwrap_or_default();
        Failure::new(Status::File, format!("{name}: {reason}"))
    }
}

/// Every error of this type that is not given a place is one of writing the output.
impl From<io::Error> for Failure {
    fn from(error: io::Error) -> Failure {
        Failure::stream("standard output", &error)
    }
}

/// What the user gave, as it may stand in a message: bytes of control characters, of those that end a line
/// or turn the direction of text, and of no character at all are shown as `\x1b`.
pub fn shown(text: impl AsRef<OsStr>) -> String {
    let escaped = |bytes: &[u8]| bytes.iter().map(|byte| format!("\\x{byte:02x}")).collect::<String>();
    let mut shown = String::new();
    for chunk in text.as_ref().as_bytes().utf8_chunks() {
        for c in chunk.valid().chars() {
            if acts_on_terminals(c) {
                shown.push_str(&escaped(c.to_string().as_bytes()));
            } else {
                shown.push(c);
            }
        }
        shown.push_str(&escaped(chunk.invalid()));
    }
    shown
}

/// Lines on standard error. If even that is closed, there is nobody to tell.
pub fn complain(text: &str) {
    let _ = writeln!(io::stderr(), "{text}");
}

#[cfg(test)]
mod tests {
    use super::*;

    #[test]
    fn what_acts_on_a_terminal_is_shown_as_bytes() {
        assert_eq!(shown("K\u{e4}rtchen 1.rec"), "K\u{e4}rtchen 1.rec");
        assert_eq!(shown("\x1b[31m\n\t\x7f"), "\\x1b[31m\\x0a\\x09\\x7f");
        assert_eq!(shown("\u{9b}\u{202e}"), "\\xc2\\x9b\\xe2\\x80\\xae");
        assert_eq!(shown(OsStr::from_bytes(b"a\xFFb\xC3")), "a\\xffb\\xc3");
    }
}
