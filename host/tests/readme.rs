//! README's worked example prints what README says. Its Rust is a doc test of the library.

mod cli;

use cli::{finished, folder, program, DONE};
use std::fs;

/// The console blocks' commands, each with the lines below it.
fn commands(readme: &str) -> Vec<(&str, Vec<&str>)> {
    let mut commands: Vec<(&str, Vec<&str>)> = Vec::new();
    let mut inside = false;
    for line in readme.lines() {
        if line.starts_with("```") {
            inside = line == "```console";
        } else if let (true, Some(command)) = (inside, line.strip_prefix("$ ")) {
            commands.push((command, Vec::new()));
        } else if inside && !line.is_empty() {
            commands.last_mut().expect("a console block starts with a command").1.push(line);
        }
    }
    commands
}

#[test]
fn the_worked_example_prints_what_readme_says() {
    let readme = fs::read_to_string(concat!(env!("CARGO_MANIFEST_DIR"), "/../README.md")).expect("README.md");
    let folder = folder("readme");
    let mut runs = 0;
    for (command, printed) in commands(&readme) {
        let words: Vec<&str> = command.split(' ').collect();
        let (words, last) = match words[..] {
            ["cat", trace] => {
                fs::write(folder.join(trace), printed.join("\n")).expect("a file is written");
                continue;
            }
            ["host/target/release/mitrophel", ref words @ .., "|", "tail", "-n", count] => {
                (words.to_vec(), count.parse().expect("a number of lines"))
            }
            ["host/target/release/mitrophel", ref words @ ..] => (words.to_vec(), usize::MAX),
            _ => panic!("README has a command that no test tries: {command}"),
        };
        let run = finished(program().args(words).current_dir(&folder).output().expect("the program runs"));
        assert_eq!((run.status, run.errors.as_str()), (DONE, ""), "{command}");
        let lines: Vec<&str> = run.text.lines().collect();
        assert_eq!(lines[lines.len().saturating_sub(last)..], printed, "{command}");
        runs += 1;
    }
    assert!(runs >= 2, "README's worked example is gone");
}
