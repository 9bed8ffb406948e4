//! The night audit: what each list is replayed on.

mod cli;

use cli::{example, folder, run, run_with, word, Run, DONE, FILE, INPUT, UNMET, USAGE};
use mitrophel::{record, Record};
use std::fs;
use std::path::Path;

/// A ring of eight words at memory 180000h, and a run over it: eight no-ops where memory is zero.
const RING: &str = "\
config write dev0.SMRAM 40h
config write dev1.GMADR C0000000h
config write dev1.MMADR F0000000h
config write dev1.PCICMD 6
entries 128..129 180000h
write PGTBL_CTL 1
write LP_RING_START 80000h
write LP_RING_TAIL 20h
write LP_RING_LENGTH 1001h
run 10
";

/// Where the ring's last word lies, and an instruction that the parser does not know.
const LAST: u32 = 0x18_001C;
const UNKNOWN: u32 = 0x0380_0000;

fn records(trace: &str) -> Vec<Record> {
    let run = run_with(&["asm", "-"], trace.as_bytes());
    assert_eq!(run.status, DONE, "{}", run.errors);
    record::decode(&run.out).collect()
}

fn save(path: &Path, records: &[Record]) {
    fs::write(path, record::encode(records)).expect("a list");
}

/// An audit that denies unknown instructions.
fn audit(words: &[&str]) -> Run {
    run(&[&["audit", "--deny", "instruction"], words].concat())
}

#[test]
fn an_audit_starts_every_file_with_the_image() {
    let folder = folder("audit-image");
    let (ring, image) = (word(&folder.join("ring.rec")), word(&folder.join("image.bin")));
    save(ring.as_ref(), &records(RING));
    let mut memory = vec![0; LAST as usize];
    memory.extend(UNKNOWN.to_le_bytes());
    fs::write(&image, memory).expect("an image");
    for compare in [&[][..], &["--compare"]] {
        let zeros = audit(&[compare, &[&ring, &ring]].concat());
        assert_eq!(zeros.status, DONE, "{}", zeros.errors);
        assert!(zeros.text.starts_with("2 files, 30 records in 2 calls, 16 parser steps\n"), "{}", zeros.text);
        let imaged = audit(&[compare, &["--memory", "8M", "--image", &image, &ring, &ring]].concat());
        assert_eq!(imaged.status, UNMET, "{}", imaged.errors);
        assert!(imaged.text.starts_with("2 files, 30 records in 2 calls, 14 parser steps\n"), "{}", imaged.text);
        assert!(imaged.text.contains("12  instruction                             2  denied"), "{}", imaged.text);
    }
}

/// The calls of one list share their memory, as those of different lists do not.
#[test]
fn the_calls_of_a_long_list_share_its_memory() {
    let folder = folder("audit-calls");
    let mut first = vec![Record::read(0x1000, 4, false); 65_000];
    first.push(Record::write(LAST, 4, UNKNOWN, false));
    let mut second = vec![Record::reset()];
    second.extend(records(RING));
    second.extend(vec![Record::read(0x1000, 4, false); 65_000]);
    let paths = ["first.rec", "second.rec", "both.rec"].map(|name| folder.join(name));
    save(&paths[0], &first);
    save(&paths[1], &second);
    save(&paths[2], &[first, second].concat());
    let [first, second, both] = paths.map(|path| word(&path));
    for compare in [&[][..], &["--compare"]] {
        let apart = audit(&[compare, &[&first, &second]].concat());
        assert_eq!(apart.status, DONE, "{}", apart.errors);
        assert!(apart.text.starts_with("2 files, 130,017 records in 2 calls, 8 parser steps\n"), "{}", apart.text);
        let joined = audit(&[compare, &[&both]].concat());
        assert_eq!(joined.status, UNMET, "{}", joined.errors);
        assert!(joined.text.starts_with("1 file, 130,017 records in 2 calls, 7 parser steps\n"), "{}", joined.text);
    }
}

/// However many files are replayed side by side, the same is printed and said in the same order.
#[test]
fn jobs_change_nothing_of_what_is_told() {
    let folder = folder("audit-jobs");
    let fault = example("fault-1-entry-aimed-at-the-key.trace");
    let mut words = Vec::new();
    for number in 0..24 {
        let path = folder.join(format!("{number:02}.rec"));
        // The first files take longest, so that later ones are done before them.
        let mut records = vec![Record::read(0x1000, 4, false); 60_000 >> number.min(15)];
        if number % 2 == 0 {
            records.extend(vec![Record::read(0x1001, 4, false); 1 + number]);
        }
        match number % 5 {
            2 => fs::write(&path, "read4 4096\nread4 1001h\n").expect("a trace that is warned of"),
            3 => fs::write(&path, [0; 17]).expect("a list that is cut off"),
            4 => {}
            _ => save(&path, &records),
        }
        words.push(word(&path));
    }
    words.insert(7, "-".to_string());
    words.push(fault);
    let told = |jobs: &[&str]| {
        let own: Vec<&str> = words.iter().map(String::as_str).collect();
        let run = run_with(&[&["audit", "--deny", "width,protected"], jobs, &own].concat(), b"read4 1001h\n");
        (run.status, run.text, run.errors)
    };
    let one = told(&["--jobs", "1"]);
    assert_eq!(one.0, UNMET);
    assert!(one.1.starts_with("17 files, "), "{}", one.1);
    assert!(one.2.lines().count() > 20, "{}", one.2);
    assert!(one.2.contains("mitrophel: standard input:1: refused 2"), "{}", one.2);
    assert_eq!(one.2.matches("warning: 4096 is decimal").count(), 5, "{}", one.2);
    for jobs in [&["--jobs=2"][..], &["--jobs", "5"], &["--jobs", "4000000000"], &[]] {
        assert_eq!(told(jobs), one, "{jobs:?}");
    }
}

/// The status of several failed files is the last one's, in the files' order.
#[test]
fn jobs_keep_the_status_of_the_last_file_that_failed() {
    let folder = folder("audit-status");
    let (long, short) = (word(&folder.join("long.rec")), word(&folder.join("missing.rec")));
    let mut records = record::encode(&vec![Record::read(0x1000, 4, false); 60_000]);
    records.push(0);
    fs::write(&long, records).expect("a list that is cut off");
    for jobs in ["--jobs=1", "--jobs=2"] {
        assert_eq!(run(&["audit", jobs, &short, &long]).status, INPUT, "{jobs}");
        assert_eq!(run(&["audit", jobs, &long, &short]).status, FILE, "{jobs}");
    }
}

#[test]
fn a_wrong_number_of_jobs_is_told() {
    for (jobs, part) in [("0", "found '0'"), ("-1", "found '-1'"), ("many", "found 'many'"), ("1.5", "found '1.5'")] {
        let run = run(&["audit", "--jobs", jobs, "-"]);
        assert_eq!(run.status, USAGE);
        assert!(run.errors.contains(&format!("--jobs: expected a number above 0, {part}")), "{}", run.errors);
    }
}
