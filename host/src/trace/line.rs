//! One line of a trace: its words and its comment.

use super::errors::acts_on_terminals;
use super::listing::REDACTED;
use super::numbers::{self, NotANumber};

/// What is wrong in a line, and where.
pub(super) struct Fault {
    /// In characters, from 1.
    pub column: usize,
    pub message: String,
}

/// A part of a line.
#[derive(Clone, Copy)]
pub(super) struct Word<'a> {
    pub text: &'a str,
    /// In characters, from 1.
    pub column: usize,
}

impl<'a> Word<'a> {
    pub fn fault(&self, message: impl Into<String>) -> Fault {
        Fault { column: self.column, message: message.into() }
    }

    pub fn expected(&self, what: &str) -> Fault {
        if self.text == REDACTED {
            return self.fault("a redacted value: list the records with --show-protected");
        }
        let shown: String = self.text.chars().take(40).map(visible).collect();
        let found = match self.text.chars().count() {
            0 => "nothing".to_string(),
            1..=40 => format!("'{shown}'"),
            _ => format!("'{shown}..'"),
        };
        self.fault(format!("expected {what}, found {found}"))
    }

    pub fn number(&self, what: &str) -> Result<u32, Fault> {
        numbers::number(self.text).map_err(|why| match why {
            NotANumber::Form => self.expected(&format!("{what}, {}", why.expected())),
            NotANumber::Large => self.expected(why.expected()),
        })
    }

    /// What stands after the first so many bytes, which end at a character.
    pub fn after(&self, bytes: usize) -> Word<'a> {
        let (before, text) = self.text.split_at(bytes);
        Word { text, column: self.column + before.chars().count() }
    }

    /// The bytes that a word in quotes stands for.
    pub fn quoted(&self, what: &str) -> Result<Vec<u8>, Fault> {
        let inside = self.text.strip_prefix('"').ok_or_else(|| self.expected(what))?;
        let end = closing_quote(inside).ok_or_else(|| self.expected("a closing '\"'"))?;
        let inside = Word { text: &inside[..end], column: self.column + 1 };
        let mut bytes = Vec::new();
        let mut rest = inside;
        while let Some(at) = rest.text.find('\\') {
            bytes.extend(rest.text[..at].bytes());
            let (byte, length) = rest.after(at).escape()?;
            bytes.push(byte);
            rest = rest.after(at + length);
        }
        bytes.extend(rest.text.bytes());
        Ok(bytes)
    }

    /// The byte of the escape that a text starts with, and the escape's length.
    fn escape(&self) -> Result<(u8, usize), Fault> {
        let simple = [("\\n", b'\n'), ("\\t", b'\t'), ("\\\\", b'\\'), ("\\\"", b'"'), ("\\0", 0)];
        if let Some((_, byte)) = simple.iter().find(|(escape, _)| self.text.starts_with(escape)) {
            return Ok((*byte, 2));
        }
        let digits = self.text.strip_prefix("\\x").and_then(|rest| rest.get(..2));
        let byte = digits.and_then(numbers::hexadecimal_byte).ok_or_else(|| {
            let shown = Word { text: self.text.get(..4).unwrap_or(self.text), ..*self };
            shown.expected("one of \\n, \\t, \\\\, \\\", \\0 and \\xHH")
        })?;
        Ok((byte, 4))
    }

    /// Of a comment: the `#>` in it and what it expects. Beside a statement other words may stand before
    /// it; a comment alone on its line starts with it.
    pub fn expectation(&self, alone: bool) -> Option<(Word<'a>, &'a str)> {
        let at = self.text.find("#>").filter(|&at| at == 0 || !alone)?;
        let mark = self.after(at);
        let text = mark.text.strip_prefix("#>").unwrap_or_default();
        Some((mark, text.strip_prefix('>').unwrap_or(text).trim()))
    }
}

/// A character as it may be shown on a terminal.
pub(super) fn visible(c: char) -> char {
    if acts_on_terminals(c) && c != '\t' {
        '\u{FFFD}'
    } else {
        c
    }
}

/// A line in parts.
pub(super) struct Line<'a> {
    pub words: Vec<Word<'a>>,
    /// From its `#` on.
    pub comment: Option<Word<'a>>,
}

impl<'a> Line<'a> {
    pub fn of(line: &'a str) -> Line<'a> {
        let mut parts = Line { words: Vec::new(), comment: None };
        let mut rest = Word { text: line, column: 1 };
        loop {
            rest = rest.after(rest.text.len() - rest.text.trim_start().len());
            if rest.text.is_empty() {
                return parts;
            }
            if rest.text.starts_with('#') {
                parts.comment = Some(rest);
                return parts;
            }
            let length = word_length(rest.text);
            parts.words.push(Word { text: &rest.text[..length], ..rest });
            rest = rest.after(length);
        }
    }
}

/// The bytes of the word that a text starts with. In quotes a word may have blanks and a `#`.
fn word_length(text: &str) -> usize {
    match text.strip_prefix('"') {
        Some(inside) => 1 + closing_quote(inside).map_or(inside.len(), |at| at + 1),
        None => text.find(|c: char| c.is_whitespace() || c == '#').unwrap_or(text.len()),
    }
}

/// Where the quotation ends that a text starts in.
fn closing_quote(text: &str) -> Option<usize> {
    let mut escaped = false;
    text.char_indices().find_map(|(at, c)| {
        let closes = c == '"' && !escaped;
        escaped = c == '\\' && !escaped;
        closes.then_some(at)
    })
}
