//! Colour, on a terminal only.

use super::told::Tone;
use std::env;
use std::io::{self, IsTerminal};

/// `--color`
#[derive(Clone, Copy, Debug, PartialEq, Eq)]
pub enum Colour {
    Auto,
    Always,
    Never,
}

impl Colour {
    /// Whether to colour standard output.
    pub fn on(self) -> bool {
        match self {
            Colour::Always => true,
            Colour::Never => false,
            Colour::Auto => io::stdout().is_terminal() && terminal_has_colour(),
        }
    }
}

/// NO_COLOR, where it is set and not empty, and a dumb terminal forbid colour.
fn terminal_has_colour() -> bool {
    let forbidden = env::var_os("NO_COLOR").is_some_and(|value| !value.is_empty());
    !forbidden && !is_dumb()
}

/// Whether the terminal knows no escape sequences.
pub fn is_dumb() -> bool {
    env::var_os("TERM").is_some_and(|term| term == "dumb")
}

/// Puts text in colour, or leaves it.
#[derive(Clone, Copy, Debug)]
pub struct Style {
    pub colour: bool,
}

impl Style {
    pub fn new(colour: Colour) -> Style {
        Style { colour: colour.on() }
    }

    fn wrapped(self, text: &str, codes: &str) -> String {
        if self.colour {
            format!("\x1b[{codes}m{text}\x1b[0m")
        } else {
            text.to_string()
        }
    }

    pub fn bold(self, text: &str) -> String {
        self.wrapped(text, "1")
    }

    /// What matters less.
    pub fn dim(self, text: &str) -> String {
        self.wrapped(text, "2")
    }

    pub fn good(self, text: &str) -> String {
        self.wrapped(text, "32")
    }

    pub fn bad(self, text: &str) -> String {
        self.wrapped(text, "1;31")
    }

    pub fn warning(self, text: &str) -> String {
        self.wrapped(text, "33")
    }

    pub fn tone(self, tone: Tone, text: &str) -> String {
        match tone {
            Tone::Reached => text.to_string(),
            Tone::Passed => self.dim(text),
            Tone::Error => self.warning(text),
            Tone::Refused => self.bad(text),
        }
    }
}
