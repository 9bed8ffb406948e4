//! `completion`: scripts by which shells complete a command line, made from the table of commands.

use super::args::{self, Grammar};
use super::failure::{shown, Failure, Status};
use super::{explain, help, names, only, say, COMMANDS};
use mitrophel::Board;
use std::ffi::OsString;

pub const GRAMMAR: Grammar = Grammar { command: "completion", values: &[], switches: &[], files: 0 };

type Script = fn() -> String;

const SHELLS: [(&str, Script); 3] = [("bash", bash), ("zsh", zsh), ("fish", fish)];

/// `mitrophel completion`
pub fn run(words: &[OsString]) -> Result<Status, Failure> {
    match words {
        [word] => match SHELLS.iter().find(|(name, _)| word == name) {
            Some((_, script)) => say(&script()),
            None => Err(usage(&format!("expected bash, zsh or fish, found '{}'", shown(word)))),
        },
        _ => Err(usage("expected one shell: bash, zsh or fish")),
    }
}

fn usage(message: &str) -> Failure {
    args::usage(GRAMMAR.command, message)
}

/// What can stand at some place of a command line.
enum Offer {
    Files,
    /// One of these; none where a shell cannot know.
    Words(Vec<&'static str>),
}

/// The value of an option.
fn value(option: &str) -> Offer {
    Offer::Words(match option {
        "--board" => Board::ALL.map(Board::name).to_vec(),
        "--color" => args::COLOURS.map(|(name, _)| name).to_vec(),
        "--deny" => refusals().chain(["all"]).collect(),
        "--only" => only::NAMES.iter().map(|(name, _)| *name).chain(refusals()).collect(),
        "--memory" => vec!["8M", "16M", "32M", "64M", "128M", "256M", "512M", "1G"],
        "--window-size" => vec!["32M", "64M"],
        "--smram" | "--pam" | "--window" | "--registers" | "--jobs" => Vec::new(),
        _ => return Offer::Files,
    })
}

fn refusals() -> impl Iterator<Item = &'static str> {
    names::REFUSALS.iter().map(|(_, name)| *name)
}

/// What a command takes besides options.
fn operand(grammar: &Grammar) -> Offer {
    match grammar.command {
        "explain" => Offer::Words(explain::names()),
        "completion" => Offer::Words(SHELLS.map(|(name, _)| name).to_vec()),
        _ if grammar.files > 0 => Offer::Files,
        _ => Offer::Words(Vec::new()),
    }
}

fn commands() -> Vec<&'static str> {
    COMMANDS.iter().map(|(grammar, _)| grammar.command).collect()
}

/// An option's short form.
fn short(option: &str) -> Option<&'static str> {
    args::SHORT.iter().find(|(_, long)| *long == option).map(|(short, _)| *short)
}

/// Every option of a command, as a list of words.
fn options(grammar: &Grammar) -> String {
    [grammar.values, grammar.switches, &["--help"]].concat().join(" ")
}

fn bash() -> String {
    let offer = |offer| match offer {
        Offer::Files => "compopt -o default".to_string(),
        Offer::Words(words) => format!("offered='{}'", words.join(" ")),
    };
    let mut cases = String::new();
    for (grammar, _) in COMMANDS {
        let command = grammar.command;
        for option in grammar.values {
            let short = short(option).map_or(String::new(), |short| format!("'{command} {short}' | "));
            cases.push_str(&format!("    {short}'{command} {option}') {} ;;\n", offer(value(option))));
        }
        let (options, operand) = (options(grammar), offer(operand(grammar)));
        let either = format!("case $word in -*) offered='{options}' ;; *) {operand} ;; esac");
        cases.push_str(&format!("    '{command} '*) {either} ;;\n"));
    }
    let commands = commands().join(" ");
    format!(
        "\
# bash completion for mitrophel
_mitrophel() {{
    local word=${{COMP_WORDS[COMP_CWORD]}} before=${{COMP_WORDS[COMP_CWORD - 1]}} offered=''
    # '--board=dc' comes as three words.
    if [ \"$word\" = = ]; then word=''; elif [ \"$before\" = = ]; then before=${{COMP_WORDS[COMP_CWORD - 2]}}; fi
    if [ \"$COMP_CWORD\" -eq 1 ]; then set -- ''; else set -- \"${{COMP_WORDS[1]}} $before\"; fi
    case $1 in
    '') offered='{commands} help --help --version' ;;
    'help help') offered='{commands}' ;;
{cases}    esac
    mapfile -t COMPREPLY < <(compgen -W \"$offered\" -- \"$word\")
}}
complete -F _mitrophel mitrophel
"
    )
}

fn zsh() -> String {
    let offer = |offer| match offer {
        Offer::Files => ":file:_files".to_string(),
        Offer::Words(words) => format!(":word:({})", words.join(" ")),
    };
    let mut cases = String::new();
    for (grammar, _) in COMMANDS {
        let mut words = vec!["'(- *)--help'".to_string()];
        for option in grammar.values {
            let again = if args::REPEATED.contains(option) { "*" } else { "" };
            words.extend(short(option).map(|short| format!("'{short}{}'", offer(value(option)))));
            words.push(format!("'{again}{option}={}'", offer(value(option))));
        }
        words.extend(grammar.switches.iter().map(|option| format!("'{option}'")));
        match operand(grammar) {
            Offer::Files => words.push("'*:file:_files'".to_string()),
            operand => words.push(format!("'1{}'", offer(operand))),
        }
        cases.push_str(&format!("{}) _arguments {} ;;\n", grammar.command, words.join(" ")));
    }
    let described: Vec<String> = help::COMMANDS
        .iter()
        .map(|(name, line, _)| format!("    '{name}:{}'\n", line.replace('\'', "'\\''")))
        .collect();
    let (described, commands) = (described.concat(), commands().join(" "));
    format!(
        "\
#compdef mitrophel
if (( CURRENT == 2 )); then
    local -a offered=(
{described}    'help:tell more about a command'
    )
    _describe command offered
    return
fi
shift words
(( CURRENT -= 1 ))
case $words[1] in
help) _arguments '1:word:({commands})' ;;
{cases}esac
"
    )
}

fn fish() -> String {
    let offer = |offer| match offer {
        Offer::Files => "-F".to_string(),
        Offer::Words(words) => format!("-f -a '{}'", words.join(" ")),
    };
    let mut script = "# fish completion for mitrophel\ncomplete -c mitrophel -f\n".to_string();
    let mut line = |condition: &str, rest: &str| {
        script.push_str(&format!("complete -c mitrophel -n '{condition}' {rest}\n"));
    };
    for (name, about, _) in help::COMMANDS {
        line("__fish_use_subcommand", &format!("-a {name} -d '{}'", about.replace('\'', "\\'")));
    }
    line("__fish_use_subcommand", "-a help -d 'tell more about a command'");
    line("__fish_seen_subcommand_from help", &format!("-a '{}'", commands().join(" ")));
    for (grammar, _) in COMMANDS {
        let condition = format!("__fish_seen_subcommand_from {}", grammar.command);
        line(&condition, &offer(operand(grammar)));
        for option in grammar.values {
            let short = short(option).map_or(String::new(), |short| format!("-s {} ", &short[1..]));
            line(&condition, &format!("{short}-l {} -r {}", &option[2..], offer(value(option))));
        }
        for option in grammar.switches.iter().chain(&["--help"]) {
            line(&condition, &format!("-l {}", &option[2..]));
        }
    }
    script
}
