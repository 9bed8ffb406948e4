//! What the program says about itself.

mod cli;

use cli::{folder, run, word, DONE, USAGE};
use mitrophel::Board;
use std::fs;
use std::path::{Path, PathBuf};
use std::process::Command;

/// The archive that is in the program is the one that lies in `target`, by the tool that a user has.
#[test]
fn the_version_has_the_archives_sum_and_its_toolchain() {
    let archive = Path::new(env!("CARGO_MANIFEST_DIR")).join("../target/staticlib/libdesk.a");
    let sum = Command::new("sha256sum").arg(archive).output().expect("sha256sum runs");
    let sum = String::from_utf8(sum.stdout).expect("a sum");
    let sum = sum.split(' ').next().expect("a sum");
    assert_eq!(sum.len(), 64);
    let version = run(&["--version"]);
    assert_eq!(version.status, DONE);
    assert!(version.text.contains(&format!("\n{sum}  libdesk.a\n")), "{}", version.text);
    assert!(version.text.lines().all(|line| line.len() <= 80), "{}", version.text);
    assert!(version.text.contains("\nproved by rattle-kit-"), "{}", version.text);
    let more = run(&["--version", "x"]);
    assert_eq!((more.status, more.text.as_str()), (USAGE, ""), "{}", more.errors);
}

/// The commands of the overview.
fn commands() -> Vec<String> {
    let overview = run(&["--help"]).text;
    let lines = overview.lines().skip_while(|line| !line.is_empty()).skip(1).take_while(|line| !line.is_empty());
    lines.filter_map(|line| line.split_whitespace().next().map(str::to_string)).collect()
}

/// What bash completes the last of these words to; `compopt -o default` is its own completion of files.
fn completed(script: &Path, words: &[&str]) -> Vec<String> {
    let call = r#"source "$0"; compopt() { echo "compopt $*"; }
        COMP_WORDS=(mitrophel "$@"); COMP_CWORD=$#; _mitrophel; [ -z "${COMPREPLY[*]}" ] || printf '%s\n' "${COMPREPLY[@]}""#;
    let run = Command::new("bash").args(["-euc", call]).arg(script).args(words).output().expect("bash runs");
    assert!(run.status.success() && run.stderr.is_empty(), "{run:?}");
    String::from_utf8(run.stdout).expect("words").lines().map(str::to_string).collect()
}

#[test]
fn bash_completes_commands_options_and_values() {
    let script = folder("completion").join("mitrophel");
    let printed = run(&["completion", "bash"]);
    assert_eq!((printed.status, printed.errors.as_str()), (DONE, ""));
    fs::write(&script, printed.out).expect("the script is written");
    for (words, expected) in [
        (&["re"][..], &["replay"][..]),
        (&["--v"], &["--version"]),
        (&["help", "au"], &["audit"]),
        (&["replay", "--bo"], &["--board"]),
        (&["replay", "--board", ""], &["82810", "dc100", "82810-main", "dc100-main"]),
        (&["replay", "--board", "=", "d"], &["dc100", "dc100-main"]),
        (&["replay", "--board", "="], &["82810", "dc100", "82810-main", "dc100-main"]),
        (&["state", "--board", "82810-"], &["82810-main"]),
        (&["audit", "--color", "a"], &["auto", "always"]),
        (&["map", "--memory", "1"], &["16M", "128M", "1G"]),
        (&["audit", "night.rec", "--deny", "pro"], &["protected"]),
        (&["map", "--smram", ""], &[]),
        (&["map", "--pam", ""], &[]),
        (&["map", "--h"], &["--hole", "--help"]),
        (&["replay", "--only", "=", "sh"], &["shadow"]),
        (&["audit", "--jobs", ""], &[]),
        (&["explain", "prot"], &["protected"]),
        (&["completion", "z"], &["zsh"]),
        (&["demo", ""], &[]),
        (&["replay", "--text", ""], &["compopt -o default"]),
        (&["replay", "--image", ""], &["compopt -o default"]),
        (&["asm", "-o", ""], &["compopt -o default"]),
        (&["audit", "a.rec", ""], &["compopt -o default"]),
    ] {
        assert_eq!(completed(&script, words), expected, "{words:?}");
    }
    let mut all = commands();
    assert!(all.len() >= 8, "{all:?}");
    all.extend(["help", "--help", "--version"].map(str::to_string));
    assert_eq!(completed(&script, &[""]), all);
    for command in commands() {
        assert!(completed(&script, &[&command, "--he"]) == ["--help"], "{command}");
    }
}

#[test]
fn every_shell_has_every_command_and_option() {
    for shell in ["bash", "zsh", "fish"] {
        let script = run(&["completion", shell]);
        assert_eq!((script.status, script.errors.as_str()), (DONE, ""));
        for command in commands() {
            assert!(script.text.contains(&command), "{shell} {command}");
            let help = run(&[&command, "--help"]).text;
            for line in help.lines().filter(|line| line.trim_start().starts_with('-')) {
                let option = line.split_whitespace().find_map(|word| word.strip_prefix("--")).expect("a long option");
                let option = option.trim_end_matches(',');
                let written = if shell == "fish" { format!(" -l {option}") } else { format!("--{option}") };
                assert!(script.text.contains(&written), "{shell} {command} {option}");
            }
        }
    }
    for (shell, boards) in
        [("zsh", "'--board=:word:("), ("fish", "-l board -r -f -a '"), ("bash", "--board') offered='")]
    {
        let boards = format!("{boards}82810 dc100 82810-main dc100-main");
        assert_eq!(run(&["completion", shell]).text.matches(&boards).count(), 5, "{shell}");
    }
    for words in [&["completion"][..], &["completion", "csh"], &["completion", "bash", "zsh"]] {
        let run = run(words);
        assert_eq!((run.status, run.text.as_str()), (USAGE, ""));
        assert!(run.errors.contains("bash, zsh or fish"), "{}", run.errors);
    }
}

/// Pasted into a shell, every example of a code that an answer holds gives that code on its last access.
#[test]
fn every_code_is_explained_with_an_example_that_runs() {
    let program = Path::new(env!("CARGO_BIN_EXE_mitrophel")).parent().expect("the program lies in a folder");
    let path = format!("{}:{}", program.display(), std::env::var("PATH").expect("a PATH"));
    for code in (2..=13).chain([16]) {
        let told = run(&["explain", &code.to_string()]);
        assert_eq!((told.status, told.errors.as_str()), (DONE, ""));
        let examples: Vec<&str> = told.text.split("mitrophel replay").skip(1).collect();
        // 6 and 7 are also given to a word of a table in main memory: in the window here, and at its register. 5 and 7
        // are given to entries of the display cache, and 10 at its registers. 16 is given to a register in both homes.
        let homes: &[&str] = match code {
            5 => &["entry 1 (window offset 1000h) has type 01", "entry 1 (window offset 1000h) has type 01, display c"],
            6 => &["page A0000h of entry 1 ", "word 1 of the table (window offset 1000h), at A0004h, "],
            7 => &["page 800000h of entry 1 ", "word 1 of the table, at 800004h, ", "page 400000h of entry 1 "],
            10 => &["2 bytes at offset 2020h", "4 bytes at offset 3000h, not DRT as it is, 1 byte at 3000h"],
            16 => &["entry 1 would name protected page A0000h, and SMRAM is locked"; 2],
            _ => &[""],
        };
        assert_eq!(examples.len(), homes.len(), "{}", told.text);
        for (example, home) in examples.iter().zip(homes) {
            let script = format!("mitrophel replay{example}");
            let run = Command::new("bash").args(["-c", &script]).env("PATH", &path).output().expect("bash runs");
            let printed = String::from_utf8(run.stdout).expect("text");
            let last = printed.lines().last().unwrap_or_else(|| panic!("{script}: no answer"));
            assert!(last.contains(&format!(" refused {code}: {home}")), "{last}");
        }
    }
}

/// Where the table is in main memory, a word's 7 and 6 stand before the entry's own.
#[test]
fn the_orders_of_both_homes_of_the_table_are_told() {
    for (code, orders) in [
        (
            "6",
            &["13, 2, 10, 7, [6], 16", "13, 2, 9, 3, 7, [6], 4, 5, 7, [6]", "13, 11, 8, 3, 7, [6], 4, 5, 7, [6], 12"][..],
        ),
        (
            "7",
            &["13, 2, 10, [7], 6, 16", "13, 2, 9, 3, [7], 6, 4, 5, [7], 6", "13, 11, 8, 3, [7], 6, 4, 5, [7], 6, 12"],
        ),
        ("3", &["13, 2, 9, [3], 7, 6, 4, 5, 7, 6", "13, 2, 9, [3], 4, 5, 7, 6"]),
        ("10", &["13, 2, [10], 16", "13, 2, [10], 7, 6, 16"]),
        ("16", &["13, 2, 10, [16]", "13, 2, 10, 7, 6, [16]"]),
    ] {
        let told = run(&["explain", code]).text;
        for order in orders {
            assert!(told.lines().any(|line| line.ends_with(&format!("  {order}"))), "{order}\n{told}");
        }
    }
    for (code, part) in [("6", "entry's own word"), ("7", "does not wrap at 32 bits"), ("1", "board kind not 0 to 3")] {
        let told = run(&["explain", code]).text.split_whitespace().collect::<Vec<_>>().join(" ");
        assert!(told.contains(part), "{told}");
    }
}

/// Help, manual page and explanations have the bounds of memory: request 6 of document 02.
#[test]
fn the_longest_memory_is_told() {
    let page = fs::read_to_string(concat!(env!("CARGO_MANIFEST_DIR"), "/mitrophel.1")).expect("the manual page");
    assert!(page.contains("Length of main memory: a multiple of 8M, 8M to 1G. "));
    assert!(page.contains("at the end of every multiple of 8 MiB up to\n1,024 MiB. "));
    for command in ["replay", "state", "map", "audit", "compare"] {
        let help = run(&[command, "--help"]).text;
        let line = help.lines().find(|line| line.trim_start().starts_with("--memory SIZE")).expect("the option");
        assert!(line.ends_with("main memory: a multiple of 8M, 8M to 1G"), "{command}: {line}");
    }
    for (code, part) in
        [("1", "multiple of 8 MiB from 8 to 1,024 MiB;"), ("7", "memory's length; none can with 1 GiB.")]
    {
        let told = run(&["explain", code]).text.split_whitespace().collect::<Vec<_>>().join(" ");
        assert!(told.contains(part), "{told}");
    }
}

/// Help and manual page name every board.
#[test]
fn every_board_is_in_the_help_and_in_the_manual_page() {
    let page = fs::read_to_string(concat!(env!("CARGO_MANIFEST_DIR"), "/mitrophel.1")).expect("the manual page");
    let page = page.replace("\\-", "-");
    for board in Board::ALL {
        assert!(page.contains(&format!("{board} \" ({})", board.number())), "{board}");
        for command in ["replay", "state", "map", "audit", "compare"] {
            let help = run(&[command, "--help"]).text;
            let line = help.lines().find(|line| line.trim_start().starts_with("--board NAME")).expect("the option");
            assert!(line.contains(&format!(" {board}")), "{command} {board}: {line}");
        }
    }
    assert!(page.contains("at the address that bits 31:12 of PGTBL_CTL hold"));
}

#[test]
fn a_code_has_a_number_and_a_name() {
    let list = run(&["explain"]);
    assert_eq!((list.status, list.errors.as_str()), (DONE, ""));
    let mut codes = 0;
    for line in list.text.lines().filter(|line| !line.starts_with("   ")) {
        let mut words = line.split_whitespace();
        let [number, name] = [(); 2].map(|()| words.next().expect("a number and a name"));
        let told = run(&["explain", number]);
        assert_eq!(told.text, run(&["explain", &name.to_uppercase()]).text);
        assert!(told.text.starts_with(&format!("{number} {name}: ")), "{}", told.text);
        codes += 1;
    }
    assert_eq!(codes, 14);
    for words in
        [&["explain", "0"][..], &["explain", "14"], &["explain", "17"], &["explain", "--all"], &["explain", "2", "3"]]
    {
        let run = run(words);
        assert_eq!((run.status, run.text.as_str()), (USAGE, ""));
        assert!(run.errors.contains("expected "), "{}", run.errors);
    }
}

/// `make` of this target, below a folder, with the program under test and nothing built.
fn make(target: &str, folder: &Path) {
    let mut make = Command::new("make");
    make.args(["-C", concat!(env!("CARGO_MANIFEST_DIR"), "/.."), "-o", "build", target, "PREFIX=/opt/desk"]);
    make.arg(format!("DESTDIR={}", word(folder))).arg(concat!("PROGRAM=", env!("CARGO_BIN_EXE_mitrophel")));
    let run = make.env_remove("MAKEFLAGS").env_remove("MAKELEVEL").output().expect("make runs");
    assert!(run.status.success(), "{run:?}");
}

/// The files below a folder.
fn files(folder: &Path) -> Vec<PathBuf> {
    let entries = fs::read_dir(folder).expect("a folder").map(|entry| entry.expect("an entry").path());
    entries.flat_map(|path| if path.is_dir() { files(&path) } else { vec![path] }).collect()
}

#[test]
fn an_installation_is_whole_and_goes_whole() {
    let folder = folder("make install");
    make("install", &folder);
    let share = folder.join("opt/desk/share");
    for (file, shell) in [
        ("bash-completion/completions/mitrophel", "bash"),
        ("zsh/site-functions/_mitrophel", "zsh"),
        ("fish/vendor_completions.d/mitrophel.fish", "fish"),
    ] {
        assert_eq!(fs::read(share.join(file)).expect("a script"), run(&["completion", shell]).out);
    }
    let page = fs::read(concat!(env!("CARGO_MANIFEST_DIR"), "/mitrophel.1")).expect("the manual page");
    assert_eq!(fs::read(share.join("man/man1/mitrophel.1")).expect("the manual page"), page);
    let program = Command::new(folder.join("opt/desk/bin/mitrophel")).arg("--version").output().expect("it runs");
    assert_eq!(program.stdout, run(&["--version"]).out);
    assert_eq!(files(&folder).len(), 5);
    make("uninstall", &folder);
    assert!(files(&folder).is_empty(), "{:?}", files(&folder));
}
