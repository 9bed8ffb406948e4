//! `asm` and `disasm`.

use super::args::Grammar;
use super::failure::{Failure, Status};
use super::files::{self, Secrecy, Sink};
use super::follow;
use super::listing::Lister;
use super::load::List;
use std::ffi::OsString;
use std::io::{self, IsTerminal};

pub const ASM: Grammar = Grammar { command: "asm", values: &["--output"], switches: &[], files: 1 };

pub const DISASM: Grammar = Grammar {
    command: "disasm",
    values: &["--output"],
    switches: &["--no-macros", "--no-comments", "--show-protected"],
    files: 1,
};

/// `mitrophel asm`
pub fn asm(words: &[OsString]) -> Result<Status, Failure> {
    let options = ASM.parse(words)?;
    let source = options.source()?;
    let sink = options.value("--output").map_or(Sink::Standard, Sink::named);
    if sink == Sink::Standard && io::stdout().is_terminal() {
        return Err(options.usage("records are no text for a terminal: give --output FILE, or pipe them"));
    }
    options.spares("--output", &sink, [source.clone()])?;
    let list = List::read_trace(&source)?;
    files::save(&sink, &list.records, Secrecy::of(follow::holds_secrets(&list.records)))?;
    Ok(Status::Done)
}

/// `mitrophel disasm`
pub fn disasm(words: &[OsString]) -> Result<Status, Failure> {
    let options = DISASM.parse(words)?;
    let source = options.source()?;
    let sink = options.value("--output").map_or(Sink::Standard, Sink::named);
    options.spares("--output", &sink, [source.clone()])?;
    let list = List::read_records(&source)?;
    let lister = Lister {
        macros: !options.has("--no-macros"),
        comments: !options.has("--no-comments"),
        show_protected: options.has("--show-protected"),
    };
    let mut text = Vec::new();
    lister.write(&list.records, &mut text)?;
    let secret = lister.show_protected && follow::holds_secrets(&list.records);
    files::save(&sink, &text, Secrecy::of(secret))?;
    Ok(Status::Done)
}
