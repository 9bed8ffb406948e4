//! What the tests of the command line share: the program run as a user runs it.
#![allow(dead_code)]

use std::env;
use std::ffi::OsStr;
use std::fs;
use std::hash::{DefaultHasher, Hash, Hasher};
use std::io::{Read, Write};
use std::path::{Path, PathBuf};
use std::process::{Command, Output, Stdio};

/// Exit statuses of the manual page.
pub const DONE: i32 = 0;
pub const UNMET: i32 = 1;
pub const USAGE: i32 = 2;
pub const INPUT: i32 = 3;
pub const FILE: i32 = 4;
pub const CLOSED_PIPE: i32 = 141;

/// How a run of the program ended.
pub struct Run {
    pub status: i32,
    pub out: Vec<u8>,
    pub text: String,
    pub errors: String,
}

/// The program, with an environment that does not depend on the user's.
pub fn program() -> Command {
    let mut command = Command::new(env!("CARGO_BIN_EXE_mitrophel"));
    for name in ["NO_COLOR", "LC_CTYPE", "LANG", "COLUMNS"] {
        command.env_remove(name);
    }
    command.env("LC_ALL", "C.UTF-8").env("TERM", "xterm-256color");
    command
}

/// Runs the program without input.
pub fn run<S: AsRef<OsStr>>(words: &[S]) -> Run {
    run_with(words, b"")
}

/// Runs the program with this standard input.
pub fn run_with<S: AsRef<OsStr>>(words: &[S], input: &[u8]) -> Run {
    let mut command = program();
    command.args(words).stdin(Stdio::piped()).stdout(Stdio::piped()).stderr(Stdio::piped());
    let mut child = command.spawn().expect("the program starts");
    let mut stdin = child.stdin.take().expect("a pipe");
    let input = input.to_vec();
    // From its own thread: the program may write before it has read everything, or not read at all.
    let writer = std::thread::spawn(move || drop(stdin.write_all(&input)));
    let output = child.wait_with_output().expect("the program ends");
    writer.join().expect("the writer ends");
    finished(output)
}

/// Runs a command whose reader leaves after the output's start, as `head` does.
pub fn left_early(command: &mut Command) -> Run {
    let mut child = command.stdout(Stdio::piped()).stderr(Stdio::piped()).spawn().expect("the program starts");
    let mut stdout = child.stdout.take().expect("a pipe");
    stdout.read_exact(&mut [0; 16]).expect("the output's start");
    drop(stdout);
    finished(child.wait_with_output().expect("the program ends"))
}

/// What a finished run left.
pub fn finished(output: Output) -> Run {
    let run = Run {
        status: output.status.code().expect("the program was not killed"),
        text: String::from_utf8_lossy(&output.stdout).into_owned(),
        out: output.stdout,
        errors: String::from_utf8(output.stderr).expect("messages are UTF-8").trim_end().to_string(),
    };
    assert!(!run.errors.contains("panicked"), "{}", run.errors);
    run
}

/// The sample traces.
pub fn examples() -> PathBuf {
    Path::new(env!("CARGO_MANIFEST_DIR")).join("..").join("examples")
}

/// A sample trace, as a word of a command line.
pub fn example(name: &str) -> String {
    word(&examples().join(name))
}

/// An empty folder of this test's own. It lies outside of the repository, where `rt ci` would refuse the links and the
/// lists of crates that tests make; another checkout's tests have theirs.
pub fn folder(name: &str) -> PathBuf {
    let mut checkout = DefaultHasher::new();
    env!("CARGO_TARGET_TMPDIR").hash(&mut checkout);
    let all = env::temp_dir().join(format!("mitrophel-tests-{:016x}", checkout.finish()));
    let folder = all.join(format!("cli-{name}"));
    let _ = fs::remove_dir_all(&folder);
    fs::create_dir_all(&folder).expect("a folder for the test");
    folder
}

/// The names of a folder's files, hidden ones too.
pub fn names(folder: &Path) -> Vec<String> {
    let entries = fs::read_dir(folder).expect("a folder");
    let mut names: Vec<String> =
        entries.map(|entry| entry.expect("an entry").file_name().to_string_lossy().into_owned()).collect();
    names.sort();
    names
}

/// A path as a word of a command line.
pub fn word(path: &Path) -> String {
    path.to_str().expect("a UTF-8 path").to_string()
}
