//! The command line.

mod args;
mod audit;
mod blocks;
mod compare;
mod completion;
mod convert;
mod demo;
mod expect;
mod explain;
mod failure;
mod files;
mod help;
mod load;
mod map;
mod names;
mod only;
mod pair;
mod picture;
mod progress;
mod replay;
mod report;
mod state;
mod style;
mod survey;
mod svg;
mod system;
mod told;
mod words;

use args::Grammar;
use failure::{complain, shown, Failure, Status};
use mitrophel::trace::{self, follow, listing, numbers};
use std::env;
use std::ffi::OsString;
use std::process::ExitCode;

type Run = fn(&[OsString]) -> Result<Status, Failure>;

/// Every command with its options and what runs it, in the order of the help.
const COMMANDS: &[(Grammar, Run)] = &[
    (replay::GRAMMAR, replay::run),
    (convert::ASM, convert::asm),
    (convert::DISASM, convert::disasm),
    (state::GRAMMAR, state::run),
    (map::GRAMMAR, map::run),
    (audit::GRAMMAR, audit::run),
    (compare::GRAMMAR, compare::run),
    (demo::GRAMMAR, demo::run),
    (explain::GRAMMAR, explain::run),
    (completion::GRAMMAR, completion::run),
];

/// Runs the command that the program's arguments name.
pub fn main() -> ExitCode {
    let words: Vec<OsString> = env::args_os().skip(1).collect();
    let status = run(&words).unwrap_or_else(|failure| {
        failure.tell();
        failure.status
    });
    ExitCode::from(status as u8)
}

fn run(words: &[OsString]) -> Result<Status, Failure> {
    let Some((command, rest)) = words.split_first() else {
        return Err(Failure::no_command(help::overview().trim_end()));
    };
    let command = command.to_string_lossy();
    match command.as_ref() {
        "-h" | "--help" => return say(&help::overview()),
        "-V" | "--version" => {
            return match rest {
                [] => say(&version()),
                [word, ..] => Err(Failure::usage(format!("expected nothing after {command}, found '{}'", shown(word)))),
            }
        }
        "help" => return help_of(rest),
        _ => {}
    }
    let known = COMMANDS.iter().find(|(grammar, _)| grammar.command == command);
    let (Some((_, run)), Some(help)) = (known, help::of(&command)) else {
        let known: Vec<&str> = help::COMMANDS.iter().map(|(name, _, _)| *name).collect();
        let found = shown(&words[0]);
        return Err(Failure::usage(format!("expected a command ({}), found '{found}'", known.join(", "))));
    };
    if asks_for_help(rest) {
        return say(help);
    }
    run(rest)
}

/// `-h` or `--help` before any `--`.
fn asks_for_help(words: &[OsString]) -> bool {
    words.iter().take_while(|word| *word != "--").any(is_help)
}

fn is_help(word: &OsString) -> bool {
    word == "-h" || word == "--help"
}

/// `mitrophel help`, of which help may be asked too.
fn help_of(words: &[OsString]) -> Result<Status, Failure> {
    match words.iter().filter(|word| !is_help(word)).collect::<Vec<_>>()[..] {
        [] => say(&help::overview()),
        [command] => match help::of(&command.to_string_lossy()) {
            Some(help) => say(help),
            None => Err(Failure::usage(format!("no help on '{}'", shown(command)))),
        },
        _ => Err(Failure::usage("expected one command after 'help'")),
    }
}

fn say(text: &str) -> Result<Status, Failure> {
    files::print(text.as_bytes())?;
    Ok(Status::Done)
}

/// `sha256sum` of the archive gives the same sum.
fn version() -> String {
    let answers = "answers by the machine-proved archive below (SHA-256), reasons by the reference";
    let archive = concat!(env!("MITROPHEL_ARCHIVE_SHA256"), "  libdesk.a");
    let toolchain = concat!("proved by ", env!("MITROPHEL_TOOLCHAIN"));
    format!("mitrophel {}\n{answers}\n{archive}\n{toolchain}\n", env!("CARGO_PKG_VERSION"))
}

#[cfg(test)]
mod tests {
    use super::*;

    /// The options at the start of a help's line, and the word for the value of the last one.
    fn options(line: &str) -> (Vec<&str>, Option<&str>) {
        let mut words = line.split_whitespace().peekable();
        let mut options = Vec::new();
        while let Some(option) = words.next_if(|word| word.starts_with('-')) {
            options.push(option.trim_end_matches(','));
        }
        let value = words.next().filter(|word| word.chars().all(|c| c.is_ascii_uppercase()));
        (options, value)
    }

    #[test]
    fn every_option_is_in_its_commands_help_and_the_other_way_round() {
        for ((grammar, _), (command, _, help)) in COMMANDS.iter().zip(help::COMMANDS) {
            assert_eq!(grammar.command, *command);
            let mut told: Vec<(&str, bool)> = Vec::new();
            for line in help.lines().filter(|line| line.trim_start().starts_with('-')) {
                let (options, value) = options(line);
                told.extend(options.iter().map(|option| (*option, value.is_some())));
            }
            let values = grammar.values.iter().map(|option| (*option, true));
            let mut taken: Vec<(&str, bool)> =
                values.chain(grammar.switches.iter().map(|option| (*option, false))).collect();
            let shorts = args::SHORT.iter().filter(|(_, long)| grammar.values.contains(long));
            taken.extend(shorts.map(|(short, _)| (*short, true)));
            told.sort();
            taken.sort();
            assert_eq!(told, taken, "{command}");
        }
        assert_eq!(COMMANDS.len(), help::COMMANDS.len());
    }
}
