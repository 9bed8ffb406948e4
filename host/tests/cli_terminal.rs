//! The program in a terminal, which the test opens itself: colour, the progress bar, and no records sent
//! to it. Linux.
#![cfg(target_os = "linux")]

mod cli;

use cli::{example, examples, finished, folder, program, word, DONE, USAGE};
use mitrophel::{record, Record};
use std::ffi::{c_char, c_int, c_ulong, c_ushort, CStr, OsStr};
use std::fs::{self, File};
use std::io::Read;
use std::os::fd::FromRawFd;
use std::os::unix::ffi::OsStrExt;
use std::os::unix::fs::OpenOptionsExt;
use std::process::Stdio;

const O_RDWR: c_int = 2;
const O_NOCTTY: c_int = 0o400;
const O_CLOEXEC: c_int = 0o2_000_000;
const TIOCSWINSZ: c_ulong = 0x5414;

extern "C" {
    fn posix_openpt(flags: c_int) -> c_int;
    fn grantpt(master: c_int) -> c_int;
    fn unlockpt(master: c_int) -> c_int;
    fn ptsname_r(master: c_int, name: *mut c_char, length: usize) -> c_int;
    fn ioctl(descriptor: c_int, request: c_ulong, ...) -> c_int;
}

/// A terminal of so many columns: what it shows can be read from the first file, the second is the
/// program's.
fn terminal(columns: c_ushort) -> (File, File) {
    let mut name = [0; 64];
    let size: [c_ushort; 4] = [24, columns, 0, 0];
    // SAFETY: the descriptor is new and belongs to the file alone; the name's buffer has the length that
    // is given, and the size is the four shorts that are asked for.
    let master = unsafe {
        let master = posix_openpt(O_RDWR | O_NOCTTY | O_CLOEXEC);
        assert!(master >= 0, "no pseudo-terminal: is /dev/ptmx there?");
        assert_eq!((grantpt(master), unlockpt(master)), (0, 0));
        assert_eq!(ptsname_r(master, name.as_mut_ptr(), name.len()), 0);
        assert_eq!(ioctl(master, TIOCSWINSZ, size.as_ptr()), 0);
        File::from_raw_fd(master)
    };
    // SAFETY: `ptsname_r` has written a C string.
    let name = OsStr::from_bytes(unsafe { CStr::from_ptr(name.as_ptr()) }.to_bytes());
    let slave = File::options().read(true).write(true).custom_flags(O_NOCTTY).open(name).expect("the terminal");
    (master, slave)
}

/// What a terminal of so many columns shows, and the exit status.
fn in_terminal_of(columns: c_ushort, words: &[&str], environment: &[(&str, &str)]) -> (i32, String) {
    let (mut master, slave) = terminal(columns);
    let mut command = program();
    command.args(words).envs(environment.iter().copied()).stdin(Stdio::null());
    command.stdout(slave.try_clone().expect("the terminal")).stderr(slave);
    let child = command.spawn().expect("the program starts");
    // The terminal is the program's alone from here on: there is nothing more to read once it ends.
    drop(command);
    let mut shown = Vec::new();
    let ended = master.read_to_end(&mut shown);
    assert!(ended.is_ok() || ended.is_err_and(|error| error.raw_os_error() == Some(5)), "EIO is a terminal's end");
    let run = finished(child.wait_with_output().expect("the program ends"));
    let text = String::from_utf8(shown).expect("a terminal is sent UTF-8");
    assert!(!text.contains("panicked"), "{text}");
    (run.status, text)
}

/// The same in 80 columns.
fn in_terminal(words: &[&str], environment: &[(&str, &str)]) -> (i32, String) {
    in_terminal_of(80, words, environment)
}

#[test]
fn a_terminal_has_colour_unless_no_color_or_a_dumb_terminal_forbids_it() {
    let trace = example("fault-1-entry-aimed-at-the-key.trace");
    let red = "\u{1b}[1;31mrefused 6: page A0000h of entry 10 (window offset A000h) is protected\u{1b}[0m";
    let (status, text) = in_terminal(&["replay", &trace], &[]);
    assert_eq!(status, DONE);
    assert!(text.contains(red), "{text}");
    for (environment, coloured) in [(("NO_COLOR", "1"), false), (("NO_COLOR", ""), true), (("TERM", "dumb"), false)] {
        let (_, text) = in_terminal(&["replay", &trace], &[environment]);
        assert_eq!(text.contains('\u{1b}'), coloured, "{environment:?}: {text}");
    }
    let (_, text) = in_terminal(&["replay", &trace, "--color=never"], &[]);
    assert!(text.contains("refused 6") && !text.contains('\u{1b}'), "{text}");
}

#[test]
fn the_picture_is_drawn_in_colour() {
    let (status, text) = in_terminal(&["demo"], &[]);
    assert_eq!(status, DONE);
    assert!(text.contains("\u{1b}[38;5;178;48;5;178m\u{2580}"), "gold above gold");
    let (_, plain) = in_terminal(&["demo"], &[("NO_COLOR", "1")]);
    assert!(plain.contains("\u{2588}\u{2588}") && !plain.contains('\u{1b}'));
}

/// An audit of two long lists.
fn audit(name: &str, columns: c_ushort, environment: &[(&str, &str)]) -> String {
    let mut records = Vec::new();
    for _ in 0..8 {
        records.push(Record::reset());
        records.extend(vec![Record::read(0x1000, 4, false); 50_000]);
    }
    let list = folder(name).join("long.rec");
    fs::write(&list, record::encode(&records)).expect("a list");
    let (status, text) = in_terminal_of(columns, &["audit", &word(&list), &word(&list)], environment);
    assert_eq!(status, DONE);
    assert!(text.contains("800,016 records in "), "{text}");
    assert!(text.contains("2 files, 800,016 records in 16 calls"), "{text}");
    text
}

const BACK: &str = "\r\u{1b}[K";

#[test]
fn an_audit_draws_a_bar_and_takes_it_away() {
    let text = audit("bar", 80, &[]);
    assert!(text.contains("%  ") && text.contains("/s"), "{text}");
    let after = text.rsplit(BACK).next().expect("what follows the bar");
    assert!(!after.contains("[####") && after.contains("records/s"), "the bar is taken away: {after}");
}

/// A line that is as long as the terminal is wide would wrap, and could not be taken away again.
#[test]
fn the_bar_stays_on_the_line_of_a_narrow_terminal() {
    for (columns, environment) in [(40, &[][..]), (20, &[]), (80, &[("COLUMNS", "40")])] {
        let text = audit(&format!("narrow-{columns}"), columns, environment);
        let width = if environment.is_empty() { usize::from(columns) } else { 40 };
        // Between the first going back and the last stand the bars.
        let bars: Vec<&str> = text.split(BACK).collect();
        let bars = &bars[1..bars.len() - 1];
        assert!(bars.iter().any(|bar| bar.contains('%')), "{text}");
        assert!(bars.iter().all(|bar| bar.len() < width && !bar.contains('\n')), "{columns}: {bars:?}");
    }
}

#[test]
fn a_dumb_terminal_has_the_last_words_alone() {
    let text = audit("dumb", 80, &[("TERM", "dumb")]);
    assert!(!text.contains('\u{1b}') && !text.contains('%'), "{text}");
    assert!(text.starts_with("800,016 records in ") && text.contains("records/s\r\n2 files"), "{text}");
}

#[test]
fn records_are_not_sent_to_a_terminal() {
    let desk = example("desk.trace");
    let answers = word(&folder("terminal-answers").join("answers"));
    for words in [
        &["asm", &desk][..],
        &["asm", "-o", "/dev/stdout", &desk],
        &["replay", "--answers", "-", &desk],
        &["replay", "--answers", &answers, "--dump", "-", &desk],
    ] {
        let (status, text) = in_terminal(words, &[]);
        assert_eq!(status, USAGE, "{text}");
        assert!(text.contains("no text for a terminal"), "{text}");
    }
}

/// What `replay` prints fits the terminal and loses no word.
#[test]
fn a_replay_fits_the_terminal() {
    let words = |text: &str| -> Vec<String> { text.split_whitespace().map(str::to_string).collect() };
    for example in ["05-where-an-address-goes", "06-table-fences-ring-interrupts", "02-records-and-answers"] {
        let trace = word(&examples().join(example).with_extension("trace"));
        let wide = cli::run(&["replay", &trace]).text;
        for (columns, options) in [(80, &[][..]), (80, &["--lines"]), (60, &[]), (132, &[])] {
            let (status, text) =
                in_terminal_of(columns, &[&["replay", "--color=never"], options, &[&trace]].concat(), &[]);
            assert_eq!(status, DONE);
            let longest = text.lines().map(|line| line.chars().count()).max();
            assert!(longest <= Some(columns.into()), "{example}: {longest:?} columns\n{text}");
            if options.is_empty() {
                assert_eq!(words(&text), words(&wide), "{example}");
            }
        }
    }
}
