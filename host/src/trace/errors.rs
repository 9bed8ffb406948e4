//! What is told about a trace.

use super::line::visible;
use std::fmt;

/// Errors told at once.
pub(super) const MOST_ERRORS: usize = 20;

/// Warnings kept.
pub(super) const MOST_WARNINGS: usize = 20;

/// Whether a character does something to a terminal instead of being seen there: control characters, and those
/// that end a line or turn the direction of text.
///
/// ```
/// use mitrophel::trace::acts_on_terminals;
///
/// assert!("\u{1b}\n\u{9b}\u{202e}".chars().all(acts_on_terminals));
/// assert!(!"K\u{e4}rtchen 1 \u{b7}".contains(acts_on_terminals));
/// ```
pub fn acts_on_terminals(c: char) -> bool {
    let turns = matches!(c, '\u{61C}' | '\u{200E}' | '\u{200F}' | '\u{202A}'..='\u{202E}' | '\u{2066}'..='\u{2069}');
    c.is_control() || turns || matches!(c, '\u{2028}' | '\u{2029}')
}

/// A line that is no access.
///
/// ```
/// let errors = mitrophel::trace::assemble("reset\nread4 FENCE9\n").expect_err("there are eight fences");
/// let error = &errors.list()[0];
/// assert_eq!((error.line, error.column), (2, 7));
/// assert!(error.message.ends_with("found 'FENCE9'"));
/// ```
#[derive(Clone, Debug, PartialEq, Eq)]
pub struct TraceError {
    /// The file's name.
    pub file: String,
    /// From 1.
    pub line: u32,
    /// In characters, from 1.
    pub column: u32,
    /// What was expected, and what was found.
    pub message: String,
    /// The line itself.
    pub source: String,
}

/// `FILE:LINE:COLUMN: MESSAGE`, the line, and a mark below it.
impl fmt::Display for TraceError {
    fn fmt(&self, f: &mut fmt::Formatter<'_>) -> fmt::Result {
        let TraceError { file, line, column, message, source } = self;
        write!(f, "{file}:{line}:{column}: {message}")?;
        if source.chars().count() <= 200 {
            let shown: String = source.chars().map(visible).collect();
            let before = source.chars().take((*column as usize).saturating_sub(1));
            let below: String = before.map(|c| if c == '\t' { '\t' } else { ' ' }).collect();
            write!(f, "\n    {shown}\n    {below}^")?;
        }
        Ok(())
    }
}

impl std::error::Error for TraceError {}

/// The first errors of a trace, at least one and at most 20, in the form of a compiler's.
///
/// ```
/// let errors = mitrophel::trace::assemble("peek 5\n").expect_err("no such access");
/// assert!(errors.to_string().starts_with("trace:1:1: expected an access ("));
/// assert!(errors.to_string().ends_with("\n    peek 5\n    ^"));
/// ```
#[derive(Clone, Debug, PartialEq, Eq)]
pub struct Errors(pub(super) Vec<TraceError>);

impl Errors {
    /// Each error, in the order of the trace.
    pub fn list(&self) -> &[TraceError] {
        &self.0
    }
}

impl fmt::Display for Errors {
    fn fmt(&self, f: &mut fmt::Formatter<'_>) -> fmt::Result {
        for (number, error) in self.0.iter().enumerate() {
            let end = if number == 0 { "" } else { "\n" };
            write!(f, "{end}{error}")?;
        }
        if let [.., last] = self.0.as_slice() {
            if self.0.len() >= MOST_ERRORS {
                write!(f, "\n{}: stopped after {MOST_ERRORS} errors", last.file)?;
            }
        }
        Ok(())
    }
}

impl std::error::Error for Errors {}

/// What is legal but looks like a slip.
///
/// ```
/// let assembled = mitrophel::trace::assemble("read4 700000\n").expect("an address");
/// assert_eq!(
///     assembled.warnings[0].to_string(),
///     "trace:1:7: warning: 700000 is decimal (AAE60h); if it is meant as hexadecimal write 700000h"
/// );
/// ```
#[derive(Clone, Debug, PartialEq, Eq)]
pub struct Warning {
    /// The file's name.
    pub file: String,
    /// From 1.
    pub line: u32,
    /// In characters, from 1.
    pub column: u32,
    /// What it looks like, and how to say it without doubt.
    pub message: String,
}

/// `FILE:LINE:COLUMN: warning: MESSAGE`
impl fmt::Display for Warning {
    fn fmt(&self, f: &mut fmt::Formatter<'_>) -> fmt::Result {
        let Warning { file, line, column, message } = self;
        write!(f, "{file}:{line}:{column}: warning: {message}")
    }
}
