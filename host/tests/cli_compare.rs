//! `mitrophel compare`, run as a user runs it.

mod cli;

use cli::*;
use mitrophel::{record, Record};
use std::fs;
use std::path::Path;

/// A0000h-BFFFFh is for management mode, and there are a window and registers.
const DESK: &str = "config write dev0.SMRAM 4Ch\nconfig write dev1.GMADR C0000000h\n\
                    config write dev1.MMADR F0000000h\nconfig write dev1.PCICMD 2\n";

/// A file of this folder.
fn file(folder: &Path, name: &str, bytes: &[u8]) -> String {
    let path = folder.join(name);
    fs::write(&path, bytes).expect("a file");
    word(&path)
}

/// How a record that differs is shown, after its number and its line.
fn row(statement: &str, first: &str, second: &str) -> String {
    format!("  {statement:<36}{first:>12}{second:>12}\n")
}

#[test]
fn the_examples_differ_in_reads_of_the_key_alone() {
    for (name, records, reads) in [("07-two-runs-first.trace", 23, 4), ("desk.trace", 681, 2)] {
        let run = run(&["compare", &example(name)]);
        assert_eq!((run.status, run.errors.as_str()), (DONE, ""), "{name}");
        let joined = run.text.split_whitespace().collect::<Vec<_>>().join(" ");
        let summary = format!(
            "{records} records after the lock, {reads} answers differ, all of them values that management mode read from \
             protected memory: allowed. Registers, table and 7,208,960 unprotected bytes: equal."
        );
        assert!(joined.contains(&summary), "{}", run.text);
        assert_eq!(run.text.lines().filter(|line| line.ends_with("··")).count(), reads, "{}", run.text);
        assert!(run.text.lines().all(|line| line.chars().count() <= 80), "{}", run.text);
    }
}

/// The key's bytes appear when they are asked for and only then, and nothing is written.
#[test]
fn the_key_is_shown_only_when_asked_for() {
    let folder = folder("compare-keys");
    let (one, two) = (file(&folder, "one", b"ABCDEFG"), file(&folder, "two", b"abcdefgh"));
    let trace = fs::canonicalize(example("07-two-runs-first.trace")).expect("the example");
    let words = ["compare", "--key", &one, &word(&trace), "--key", &two];
    let hidden = run(&words);
    assert_eq!(hidden.status, DONE, "{}", hidden.errors);
    assert!(hidden.text.contains(&row("smm read4 A0000h", "··", "··")), "{}", hidden.text);
    let shown = finished(program().args(words).arg("--show-protected").current_dir(&folder).output().expect("it runs"));
    for (statement, first, second) in [
        ("smm read4 A0000h", "44434241h", "64636261h"),
        ("smm read1 A0007h", "41h", "68h"),
        ("smm fetch4 700000h", "45444342h", "64636261h"),
    ] {
        assert!(shown.text.contains(&row(statement, first, second)), "{}", shown.text);
        assert!(!hidden.text.contains(first) && !hidden.text.contains(second));
    }
    assert_eq!(names(&folder), ["one", "two"]);
}

/// The keys of two random runs, as the last read shows them.
#[test]
fn random_keys_are_new_each_time() {
    let words = ["compare", &example("07-two-runs-first.trace"), "--key=random", "--show-protected"];
    let last = |text: &str| -> Vec<String> {
        let row = text.lines().rfind(|line| line.contains("smm read4")).expect("a read of the key");
        row.split_whitespace().rev().take(2).map(str::to_string).collect()
    };
    let (one, two) = (run(&words), run(&words));
    assert_ne!(last(&one.text), last(&two.text));
    assert_ne!(last(&one.text)[0], last(&one.text)[1]);
}

/// A key written before the lock is another key in each run too.
#[test]
fn writes_before_the_lock_carry_the_key() {
    let trace = b"config write dev0.SMRAM 4Ch\nsmm write2 A0010h 4B45h\nsmm read4 A0010h\n\
                  config write dev0.SMRAM 4Eh\nsmm read4 A0010h\nread4 A0010h\n";
    let folder = folder("compare-before");
    let (one, two) = (file(&folder, "one", b"ABCDEFGHI"), file(&folder, "two", b"abcdefghi"));
    let run = run_with(&["compare", "--key", &one, "--key", &two, "--show-protected", "-"], trace);
    assert_eq!(run.status, DONE, "{}", run.errors);
    let at = run.text.find("Before the lock, of which demand 3 does not speak:").expect("a read before the lock");
    let (before, after) = run.text[at..].split_once("Allowed").expect("a read after it");
    // The bytes there are the key's 8th, 9th, 1st and 2nd; the write has put its first two over two of them.
    for (part, place) in [(before, "       4       3"), (after, "       7       5")] {
        let row = row("smm read4 A0010h", "42414241h", "62616261h");
        assert!(part.contains(&format!("{place}{row}")), "{part}");
    }
    assert!(after.contains("2 records after the lock, 1 answer differs, a value"), "{after}");
}

/// Start-up code may put the key in place while the memory is open to all.
#[test]
fn ordinary_writes_before_the_lock_carry_the_key_too() {
    for write in ["write4 A0010h 0", "master write4 A0010h 0", "smm write4 A0010h 0"] {
        let trace = format!("config write dev0.SMRAM 44h\n{write}\nconfig write dev0.SMRAM 4Eh\nsmm read4 A0010h\n");
        let run = run_with(&["compare", "-"], trace.as_bytes());
        assert_eq!(run.status, DONE, "{}", run.errors);
        assert!(run.text.contains("and in 1 write\n"), "{write}: {}", run.text);
        assert!(run.text.contains("1 answer differs, a value that management mode read"), "{write}: {}", run.text);
    }
}

/// What the parser met before the lock can be in a register, and then the two runs are not demand 3's.
#[test]
fn runs_that_differ_at_the_lock_are_refused() {
    let trace = "config write dev0.SMRAM 44h\nconfig write dev1.GMADR C0000000h\nconfig write dev1.MMADR F0000000h\n\
                 config write dev1.PCICMD 2\nentry 0 A0000h\nwrite PGTBL_CTL 1\nwrite LP_RING_START 0\n\
                 write LP_RING_LENGTH 1\nwrite LP_RING_TAIL 8\nrun 9\nconfig write dev0.SMRAM 4Eh\nrun 1\n";
    let folder = folder("compare-parser");
    let (one, two) = (file(&folder, "one", &[0]), file(&folder, "two", &[0xFF]));
    let words = ["compare", "--key", &one, "--key", &two, "-"];
    let run = run_with(&words, trace.as_bytes());
    assert_eq!((run.status, run.text.as_str()), (INPUT, ""));
    let start = "mitrophel: standard input:11: when the lock is set, LP_RING_HEAD depends on the key: ";
    assert!(run.errors.starts_with(start), "{}", run.errors);
    // The start-up code may put the head back.
    let mended = trace.replace("run 9\n", "run 9\nwrite LP_RING_HEAD 0\n");
    let run = run_with(&words, mended.as_bytes());
    assert_eq!(run.status, DONE, "{}", run.errors);
    assert!(run.text.contains(&row("run 9", "code 0", "code 12")), "{}", run.text);
    assert!(run.text.contains("1 record after the lock, no answer differs."), "{}", run.text);
}

/// Demand 3 reads "table words in unprotected memory" for a table in main memory (request 10 of document 02).
#[test]
fn words_of_a_table_in_main_memory_are_among_the_unprotected_bytes() {
    let trace = format!(
        "{DESK}write PGTBL_CTL 200001h\nentry 0 A0000h\nentry 1 100000h\nconfig write dev0.SMRAM 4Eh\n\
         read4 WINDOW+0\nwrite4 WINDOW+1000h 7\nread GTT[0]\nwrite GTT[2] 345001h\nsmm write4 A0000h 0\n\
         write PGTBL_CTL A0001h\nread GTT[0]\nread4 WINDOW+0\nwrite GTT[0] 1\nwrite LP_RING_LENGTH 1\n\
         write LP_RING_TAIL 8\nrun 1\nsmm read4 A0000h\n"
    );
    for (board, bytes) in [
        ("82810-main", "8,257,536 unprotected bytes, the table words among them"),
        ("3", "12,451,840 unprotected bytes, the table words and the display cache's among them"),
    ] {
        let run = run_with(&["compare", "--board", board, "-"], trace.as_bytes());
        assert_eq!((run.status, run.errors.as_str()), (DONE, ""));
        let joined = run.text.split_whitespace().collect::<Vec<_>>().join(" ");
        let summary = format!(
            "13 records after the lock, 1 answer differs, a value that management mode read from protected memory: \
             allowed. Registers and {bytes}: equal."
        );
        assert!(joined.contains(&summary), "{}", run.text);
    }
    let sample = run(&["compare", "--board=2", &example("request-10-table-in-main-memory.trace")]);
    assert_eq!((sample.status, sample.errors.as_str()), (DONE, ""));
    assert!(sample.text.contains("7,208,960 unprotected bytes, the table words among them: equal."), "{}", sample.text);
}

/// A table that lay in the key's bytes before the lock has led writes to places that depend on the key.
#[test]
fn unprotected_bytes_that_differ_at_the_lock_are_refused() {
    let folder = folder("compare-table");
    let (one, two) =
        (file(&folder, "one", &0x0034_5001_u32.to_le_bytes()), file(&folder, "two", &0x0034_6001_u32.to_le_bytes()));
    let words = ["compare", "--board=2", "--key", &one, "--key", &two, "-"];
    let open = DESK.replace("4Ch", "44h");
    let trace = format!("{open}write PGTBL_CTL A0001h\nwrite4 WINDOW+ABCh 7\nconfig write dev0.SMRAM 4Eh\n");
    let run = run_with(&words, trace.as_bytes());
    assert_eq!((run.status, run.text.as_str()), (INPUT, ""));
    let start =
        "mitrophel: standard input:7: when the lock is set, the unprotected byte at 345ABCh depends on the key: ";
    assert!(run.errors.starts_with(start), "{}", run.errors);
    assert!(run.errors.contains("or the table was there"), "{}", run.errors);
    // What is read there is no failure, and where it was read from is the key's.
    let reads = trace.replace("write4 WINDOW+ABCh 7", "read4 WINDOW+ABCh\nread GTT[0]");
    for (options, address, value) in [
        (&[][..], ["\u{B7}\u{B7}"; 2], ["\u{B7}\u{B7}"; 2]),
        (&["--show-protected"], ["00345ABCh", "00346ABCh"], ["00345001h", "00346001h"]),
    ] {
        let run = run_with(&[&words[..], options].concat(), reads.as_bytes());
        assert_eq!((run.status, run.errors.as_str()), (DONE, ""));
        assert!(run.text.contains(&row("read4 WINDOW+ABCh", address[0], address[1])), "{}", run.text);
        assert!(run.text.contains(&row("read GTT[0]", value[0], value[1])), "{}", run.text);
    }
    // The private table comes from the list.
    let private = run_with(&[&words[..1], &words[2..]].concat(), trace.as_bytes());
    assert_eq!((private.status, private.errors.as_str()), (DONE, ""));
    assert!(private.text.contains("Registers, table and 8,257,536 unprotected bytes: equal."), "{}", private.text);
}

/// Of many differences before the lock a few are shown.
#[test]
fn differences_before_the_lock_are_few() {
    let trace = format!("config write dev0.SMRAM 44h\n{}config write dev0.SMRAM 4Eh\n", "read4 A0000h\n".repeat(30));
    let run = run_with(&["compare", "-"], trace.as_bytes());
    assert_eq!(run.status, DONE, "{}", run.errors);
    assert_eq!(run.text.matches("read4 A0000h").count(), 5);
    assert!(run.text.contains("and 25 more records\n"), "{}", run.text);
    assert!(run.text.contains("0 records after the lock, no answer differs."), "{}", run.text);
}

#[test]
fn a_trace_must_set_the_lock_over_some_memory() {
    let run = run_with(&["compare", "-"], b"config write dev0.SMRAM BCh\nsmm read4 A0000h\n");
    let message = "mitrophel: standard input: expected a write that sets SMRAM's lock, bit 1, such as \
                   'config write dev0.SMRAM 4Eh', found none";
    assert_eq!((run.status, run.text.as_str(), run.errors.as_str()), (INPUT, "", message));
    let run = run_with(&["compare", "-"], b"config write dev0.SMRAM 42h\n");
    assert_eq!((run.status, run.text.as_str()), (INPUT, ""));
    assert!(run.errors.contains("the lock is set with no memory protected"), "{}", run.errors);
}

#[test]
fn a_reset_ends_the_comparison() {
    let trace = b"reset\nconfig write dev0.SMRAM 4Eh\nsmm read4 A0000h\nraw 09 01 00 00 00 00 00 00 00 00 00 00 00 00 \
                  00 00\nreset\nconfig write dev0.SMRAM 44h\nread4 A0000h\n";
    let run = run_with(&["compare", "-"], trace);
    assert_eq!((run.status, run.errors.as_str()), (DONE, ""));
    // A record that breaks the layout is no reset.
    assert!(run.text.contains("2 records after the lock, 1 answer differs"), "{}", run.text);
    let end = "Not compared: 4 records, from standard input:5 on. The reset there ends what\ndemand 3 says.\n";
    assert!(run.text.ends_with(end), "{}", run.text);
}

/// More records than a call takes, in the binary form: the second call has the lock.
#[test]
fn a_long_list_is_cut_as_replay_cuts_it() {
    let mut records = vec![Record::read(0x1000, 4, false); 65_534];
    records.push(Record::reset());
    records.extend([Record::io_write(0xCF8, 4, 0x8000_0070), Record::io_write(0xCFC, 1, 0x4E)]);
    records.extend([Record::read(0xA_0000, 4, true), Record::reset(), Record::reset()]);
    let run = run_with(&["compare", "-"], &record::encode(&records));
    assert_eq!((run.status, run.errors.as_str()), (DONE, ""));
    assert!(run.text.contains("  65,538       -  smm read4 A0000h "), "{}", run.text);
    assert!(run.text.contains("Not compared: 2 records, from standard input: record 65,539 on."), "{}", run.text);
}

#[test]
fn wrong_keys_are_told() {
    let folder = folder("compare-wrong");
    let (key, twice) = (file(&folder, "key", b"ab"), file(&folder, "twice", b"abab"));
    let (empty, large) = (file(&folder, "empty", b""), file(&folder, "large", &[7; 65_537]));
    let most = file(&folder, "most", &[7; 65_536]);
    let trace = example("07-two-runs-first.trace");
    for (words, part) in [
        (vec!["--key", &key, "--key", &key, &trace], "the two keys are the same"),
        (vec!["--key", &key, "--key", &twice, &trace], "the two keys are the same"),
        (vec!["--key", &empty, &trace], "expected 1 to 65,536 bytes in "),
        (vec!["--key", &large, &trace], "large, found more"),
        (vec!["--key=random", "--key=random", "--key=random", &trace], "--key is given more than twice"),
        (vec!["--key", "-", "-"], "FILE and --key cannot both be standard input"),
        (vec!["--key=-", "--key=-", &trace], "standard input can be read only once"),
        (vec!["--key=-", "--image=-", &trace], "--image and --key cannot both be standard input"),
        (vec!["--key", &key], "expected a file"),
    ] {
        let run = run(&[&["compare"], words.as_slice()].concat());
        assert_eq!((run.status, run.text.as_str()), (USAGE, ""), "{words:?}");
        assert!(run.errors.contains(part), "{}", run.errors);
    }
    let run = run(&["compare", "--key", &example("no-such-key"), &trace]);
    assert_eq!((run.status, run.text.as_str()), (FILE, ""));
    let run = run_with(&["compare", "--key", &most, "--key", "-", &trace], b"a key that is piped");
    assert_eq!((run.status, run.errors.as_str()), (DONE, ""));
}

/// The image is the memory of both runs but for the key.
#[test]
fn an_image_is_the_rest_of_memory() {
    let folder = folder("compare-image");
    let image = file(&folder, "image", &vec![0x5A; 0xA_0008]);
    let trace = b"config write dev0.SMRAM 4Eh\nread1 9FFFFh\nsmm read1 A0000h\n";
    let words = ["compare", "--image", &image, "--memory=16M", "--board=dc100", "--text", "--color=never", "-"];
    let run = run_with(&words, trace);
    assert_eq!((run.status, run.errors.as_str()), (DONE, ""));
    let summary = "Registers, table and 20,840,448 unprotected bytes, the display cache's among\nthem: equal.\n";
    assert!(run.text.contains(summary), "{}", run.text);
}
