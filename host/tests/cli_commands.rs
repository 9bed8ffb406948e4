//! The commands as a user gives them: files, pipes, options, and what they leave behind.

mod cli;

use cli::{example, folder, names, run, run_with, word, CLOSED_PIPE, DONE, FILE, INPUT, UNMET, USAGE};
use mitrophel::reference::{Gmch, TABLE_WORDS};
use mitrophel::{record, Board, Record};
use std::fs;
use std::io::Write;
use std::process::Stdio;

/// "Whole case, board 0, two records", as a trace and as answers.
const WHOLE_CASE: &[u8] = b"out4 CF8h 80000000h\nin4 CFCh\n";
const WHOLE_ANSWERS: [u8; 32] = [
    0x00, 0x02, 0x00, 0x00, 0xF8, 0x0C, 0x00, 0x00, 0x00, 0x00, 0x00, 0x00, 0x00, 0x00, 0x00, 0x00, //
    0x00, 0x02, 0x00, 0x00, 0x00, 0x00, 0x00, 0x00, 0x86, 0x80, 0x20, 0x71, 0x00, 0x00, 0x00, 0x00,
];

const COMMANDS: [&str; 10] =
    ["replay", "asm", "disasm", "state", "map", "audit", "compare", "demo", "explain", "completion"];

#[test]
fn every_command_has_help_with_an_example() {
    for command in COMMANDS {
        for words in [vec![command, "--help"], vec![command, "-h"], vec!["help", command]] {
            let run = run(&words);
            assert_eq!((run.status, run.errors.as_str()), (DONE, ""));
            assert!(run.text.starts_with(&format!("Usage: mitrophel {command} ")), "{}", run.text);
            assert!(run.text.contains("\nExample:"), "{}", run.text);
            assert!(run.text.lines().all(|line| line.len() < 80), "{}", run.text);
        }
    }
    for words in [vec!["--help"], vec!["-h"], vec!["help"]] {
        let run = run(&words);
        assert_eq!(run.status, DONE);
        assert!(COMMANDS.iter().all(|command| run.text.contains(command)), "{}", run.text);
        assert!(run.text.lines().all(|line| line.len() < 80), "{}", run.text);
    }
    let version = run(&["--version"]);
    assert_eq!(version.status, DONE);
    assert!(version.text.starts_with("mitrophel 0."), "{}", version.text);
}

/// The manual page names every command, every option and every exit status.
#[test]
fn the_manual_page_has_every_option_of_the_help() {
    let page = fs::read_to_string(concat!(env!("CARGO_MANIFEST_DIR"), "/mitrophel.1")).expect("the manual page");
    assert!(page.starts_with(&format!(".TH MITROPHEL 1 \"\" \"mitrophel {}\"", env!("CARGO_PKG_VERSION"))));
    let page = page.replace("\\-", "-");
    for command in COMMANDS {
        assert!(page.contains(&format!("mitrophel {command}")), "{command}");
        for word in run(&[command, "--help"]).text.split(|c: char| !(c.is_ascii_alphanumeric() || c == '-')) {
            assert!(!word.starts_with("--") || word == "--help" || page.contains(word), "{command} {word}");
        }
    }
    for status in [DONE, UNMET, USAGE, INPUT, FILE, 5, CLOSED_PIPE] {
        assert!(page.contains(&format!("\n.B {status}\n")), "exit status {status}");
    }
}

#[test]
fn the_whole_case_is_replayed_from_text_and_from_binary() {
    for form in [WHOLE_CASE.to_vec(), run_with(&["asm", "-"], WHOLE_CASE).out] {
        let run = run_with(&["replay", "-"], &form);
        assert_eq!(run.status, DONE, "{}", run.errors);
        assert!(run.text.contains("dev0.00h = 71208086h"), "{}", run.text);
        let run = run_with(&["replay", "--answers", "-", "-"], &form);
        assert_eq!((run.status, run.out), (DONE, WHOLE_ANSWERS.to_vec()));
    }
    let dc100 = run_with(&["replay", "--board", "dc100", "-"], WHOLE_CASE);
    assert!(dc100.text.contains("71228086h"), "{}", dc100.text);
}

/// Every board by its name, in letters of either case, and by its kind's number.
#[test]
fn every_board_has_a_name_and_a_number() {
    let ids = ["71208086h", "71228086h", "71208086h", "71228086h"];
    for (board, id) in Board::ALL.into_iter().zip(ids) {
        for word in [board.name().to_string(), board.name().to_uppercase(), board.number().to_string()] {
            let run = run_with(&["replay", "--board", &word, "-"], WHOLE_CASE);
            assert_eq!((run.status, run.errors.as_str()), (DONE, ""), "{word}");
            assert!(run.text.contains(id), "{word}: {}", run.text);
        }
        for command in ["state", "map", "audit"] {
            let run = run_with(&[command, "--board", board.name(), "-"], WHOLE_CASE);
            assert_eq!((run.status, run.errors.as_str()), (DONE, ""), "{command} {board}");
            let named = run.text.lines().next().is_some_and(|line| line.contains(&format!(": board {board}, 8 MiB, ")));
            assert_eq!(named, command != "audit", "{}", run.text);
        }
    }
}

#[test]
fn an_empty_list_is_replayed() {
    for command in ["replay", "asm", "disasm", "map"] {
        let run = run(&[command, "-"]);
        assert_eq!((run.status, run.errors.as_str()), (DONE, ""), "{command}");
        assert_eq!(run.out.is_empty(), command != "map", "{command}");
    }
    let audit = run(&["audit", "-"]);
    assert_eq!(audit.status, DONE);
    assert!(audit.text.starts_with("1 file, 0 records in 1 call, "), "{}", audit.text);
}

#[test]
fn answers_and_memory_go_to_their_files_and_nothing_else_stays() {
    let folder = folder("outputs");
    let (answers, dump, image) = (folder.join("answers.bin"), folder.join("memory.bin"), folder.join("image.bin"));
    fs::write(&image, b"\x11\x22\x33\x44").expect("an image");
    fs::write(&answers, b"old").expect("an old file");
    let trace = b"read4 0\nwrite4 FFFFFCh 12345678h\n";
    let words = ["--image", &word(&image), "--answers", &word(&answers), "--dump", &word(&dump)];
    let run = run_with(&[&["replay", "--memory", "16M", "-"], &words[..]].concat(), trace);
    assert_eq!((run.status, run.text.as_str(), run.errors.as_str()), (DONE, "", ""));
    let answers = fs::read(answers).expect("the answers");
    assert_eq!(record::decode_answers(&answers).next().expect("two answers").value, 0x4433_2211);
    let memory = fs::read(dump).expect("the memory");
    assert_eq!(memory.len(), 16 << 20);
    assert_eq!(memory[..4], [0x11, 0x22, 0x33, 0x44]);
    assert_eq!(memory[0xFF_FFFC..], 0x1234_5678_u32.to_le_bytes());
    assert_eq!(names(&folder), ["answers.bin", "image.bin", "memory.bin"]);
}

/// A dump is an image: the memory's length is then the image's.
#[test]
fn a_dump_can_be_the_next_image() {
    let folder = folder("image");
    let dump = word(&folder.join("memory.bin"));
    let first = run_with(&["replay", "--memory", "16M", "--dump", &dump, "-"], b"write4 FFFFFCh CAFE0016h\n");
    assert_eq!(first.status, DONE, "{}", first.errors);
    let second = run_with(&["replay", "--image", &dump, "-"], b"read4 FFFFFCh\nread4 1000000h\n");
    assert!(second.text.contains("memory FFFFFCh = CAFE0016h"), "{}", second.text);
    assert!(second.text.contains("hub"), "{}", second.text);
    let longer = run_with(&["replay", "--image", &dump, "--memory", "24M", "-"], b"read4 1000000h\n");
    assert!(longer.text.contains("memory 1000000h = 00000000h"), "{}", longer.text);
}

#[test]
fn a_file_that_is_written_anew_keeps_its_permissions_and_its_link() {
    use std::os::unix::fs::{symlink, PermissionsExt};
    let folder = folder("links");
    let (file, link) = (folder.join("list.rec"), folder.join("link.rec"));
    fs::write(&file, b"old").expect("a file");
    fs::set_permissions(&file, fs::Permissions::from_mode(0o640)).expect("permissions");
    symlink("list.rec", &link).expect("a link");
    let run = run_with(&["asm", "-o", &word(&link), "-"], WHOLE_CASE);
    assert_eq!(run.status, DONE, "{}", run.errors);
    assert_eq!(fs::read(&file).expect("the file").len(), 32);
    assert_eq!(fs::metadata(&file).expect("the file").permissions().mode() & 0o777, 0o640);
    assert!(fs::symlink_metadata(&link).expect("the link").is_symlink());
    assert_eq!(names(&folder), ["link.rec", "list.rec"]);
}

#[test]
fn an_output_may_be_a_device_and_its_failure_is_told() {
    let null = run_with(&["asm", "-o", "/dev/null", "-"], WHOLE_CASE);
    assert_eq!((null.status, null.errors.as_str()), (DONE, ""));
    let full = run_with(&["asm", "-o", "/dev/full", "-"], WHOLE_CASE);
    assert_eq!(full.status, FILE);
    assert!(full.errors.starts_with("mitrophel: /dev/full: "), "{}", full.errors);
}

/// A reader that goes away, as `head` does, ends the program quietly.
#[test]
fn a_closed_pipe_ends_quietly() {
    let folder = folder("pipe");
    let list = folder.join("long.rec");
    let reads = vec![Record::read(0x1000, 4, false); 60_000];
    fs::write(&list, record::encode(&reads)).expect("a list");
    for words in [vec!["replay"], vec!["disasm", "--no-macros"], vec!["replay", "--answers", "-"]] {
        let run = cli::left_early(cli::program().args(&words).arg(&list));
        assert_eq!((run.status, run.errors.as_str()), (CLOSED_PIPE, ""), "{words:?}");
    }
}

#[test]
fn a_closed_standard_error_is_no_panic() {
    let mut command = cli::program();
    command.args(["replay", "no such file"]).stdout(Stdio::null());
    command.stderr(fs::File::options().write(true).open("/dev/full").expect("a device"));
    assert_eq!(command.status().expect("the program ends").code(), Some(FILE));
}

/// Lists longer than a call are cut in front of resets, and every answer is the single replay's.
#[test]
fn a_long_list_is_replayed_in_calls_that_keep_its_meaning() {
    let folder = folder("long");
    let mut records = Vec::new();
    for round in 0..3 {
        records.push(Record::reset());
        records.push(Record::write(0x1000 + 4 * round, 4, round + 1, false));
        records.extend(vec![Record::read(0x1000, 4, false); 40_000]);
        records.push(Record::io_write(0xCF8, 4, 0x8000_0070));
    }
    records.push(Record::read(0x1008, 4, false));
    let list = folder.join("long.rec");
    fs::write(&list, record::encode(&records)).expect("a list");
    let run = run(&["replay", "--answers", "-", &word(&list)]);
    assert_eq!((run.status, run.errors.as_str()), (DONE, ""));
    let answers: Vec<_> = record::decode_answers(&run.out).collect();
    assert_eq!(answers.len(), records.len());
    let (mut memory, mut table) = (vec![0; 8 << 20], [0; TABLE_WORDS]);
    let mut hub = Gmch::new(Board::I82810, &mut memory, &mut table, &mut []).expect("a board");
    for (record, answer) in records.iter().zip(answers) {
        assert_eq!(answer, hub.answer(record));
    }

    let printed = cli::run(&["replay", &word(&list)]);
    assert!(printed.text.lines().last().is_some_and(|line| line.starts_with("120010  read4 1008h")));
    let audit = cli::run(&["audit", "--compare", &word(&list)]);
    assert!(audit.text.starts_with("1 file, 120,010 records in 3 calls, "), "{}", audit.text);
}

#[test]
fn a_long_list_without_resets_is_refused_with_its_place() {
    let folder = folder("uncut");
    let mut records = vec![Record::read(0x1000, 4, false); 65_536];
    let list = folder.join("long.rec");
    fs::write(&list, record::encode(&records)).expect("a list");
    for command in ["replay", "audit", "map"] {
        let run = run(&[command, &word(&list)]);
        assert_eq!(run.status, INPUT);
        let place = format!("mitrophel: {}: record 1: a call takes 65,535 records", word(&list));
        assert!(run.errors.starts_with(&place), "{}", run.errors);
    }
    let answers = folder.join("answers.bin");
    run(&["replay", "--answers", &word(&answers), &word(&list)]);
    assert_eq!(names(&folder), ["long.rec"]);

    // A reset that breaks the layout cuts nothing; a good one does.
    records[9] = Record { data: 1, ..Record::reset() };
    fs::write(&list, record::encode(&records)).expect("a list");
    assert_eq!(run(&["audit", &word(&list)]).status, INPUT);
    records[9] = Record::reset();
    fs::write(&list, record::encode(&records)).expect("a list");
    assert_eq!(run(&["audit", &word(&list)]).status, DONE);
    let text = run(&["disasm", &word(&list)]);
    let long = run_with(&["replay", "-"], text.text.replace("reset\n", "read4 1000h\n").as_bytes());
    assert!(long.errors.starts_with("mitrophel: standard input:1: a call takes"), "{}", long.errors);
}

/// 65,535 records are one call.
#[test]
fn the_largest_call_needs_no_reset() {
    let records = record::encode(&vec![Record::read(0x1000, 4, false); 65_535]);
    let run = run_with(&["audit", "-"], &records);
    assert_eq!(run.status, DONE, "{}", run.errors);
    assert!(run.text.starts_with("1 file, 65,535 records in 1 call, "), "{}", run.text);
}

#[test]
fn an_audit_counts_codes_and_targets_over_files_and_standard_input() {
    let codes = example("03-codes.trace");
    let fault = example("fault-1-entry-aimed-at-the-key.trace");
    let run = run_with(&["audit", &codes, &fault, "-"], WHOLE_CASE);
    assert_eq!((run.status, run.errors.as_str()), (DONE, ""));
    assert!(run.text.starts_with("3 files, 107 records in 3 calls, 0 parser steps\n"), "{}", run.text);
    let count = |name: &str| -> u64 {
        let line = run.text.lines().find(|line| line.contains(name)).unwrap_or_else(|| panic!("no {name}"));
        line.split_whitespace().last().expect("a number").replace(',', "").parse().expect("a number")
    };
    assert_eq!(count(" 13  layout"), 1);
    assert_eq!(count("  6  protected"), 13);
    assert_eq!(count("  1  memory "), 7);
    let targets: u64 = ["0  refusal", "1  memory ", "2  register ", "3  hub", "4  VGA", "5  memory-mapped"]
        .iter()
        .map(|name| count(name))
        .sum();
    assert_eq!(targets, 107);
}

#[test]
fn an_audit_ends_with_status_1_if_a_denied_refusal_was_seen() {
    let fault = example("fault-1-entry-aimed-at-the-key.trace");
    for deny in
        [&["--deny", "protected"][..], &["--deny=6"], &["--deny", "3,PROTECTED"], &["--deny", "2", "--deny=all"]]
    {
        let run = run(&[&["audit"], deny, &[&fault]].concat());
        assert_eq!(run.status, UNMET, "{deny:?}");
        let entry = "page of entry 10 (window offset A000h)";
        let first = format!("mitrophel: {fault}:18: refused 6: {entry} is protected (denied)\n");
        assert!(run.errors.starts_with(&first), "{}", run.errors);
        assert!(run.errors.ends_with(": 11 more denied refusals"), "{}", run.errors);
        assert!(run.text.contains("protected                              12  denied"), "{}", run.text);
    }
    assert_eq!(run(&["audit", "--deny", "layout,width", &fault]).status, DONE);
}

/// Where the table is in main memory, the code alone does not say whether the page or the word is protected.
#[test]
fn an_audit_names_the_table_word_where_it_may_be_meant() {
    let fault = example("fault-1-entry-aimed-at-the-key.trace");
    let run = run(&["audit", "--board=82810-main", "--compare", "--deny=6", &fault]);
    assert_eq!(run.status, UNMET);
    let entry = "page or table word of entry 10 (window offset A000h)";
    let first = format!("mitrophel: {fault}:18: refused 6: {entry} is protected (denied)\n");
    assert!(run.errors.starts_with(&first), "{}", run.errors);
}

/// A file that fails is told and left out; the others are counted.
#[test]
fn an_audit_goes_on_after_a_bad_file() {
    let folder = folder("bad-file");
    let (short, wrong) = (folder.join("short.rec"), folder.join("wrong.trace"));
    fs::write(&short, [2; 37]).expect("a file");
    fs::write(&wrong, "reset\nread4\n").expect("a file");
    let missing = word(&folder.join("missing.rec"));
    let good = example("fault-1-entry-aimed-at-the-key.trace");
    let words = ["audit", &word(&short), &missing, &good, &word(&wrong)];
    let run = cli::run(&words);
    assert_eq!(run.status, INPUT);
    assert!(run.text.starts_with("1 file, 51 records in 1 call, "), "{}", run.text);
    assert!(run.text.contains("\n3 files left out: unreadable or malformed\n"), "{}", run.text);
    for part in
        ["short.rec: byte 32: expected a whole number", "missing.rec: No such file", "wrong.trace:2:6: expected"]
    {
        assert!(run.errors.contains(part), "{}", run.errors);
    }
    let denied = cli::run(&[&words[..], &["--deny", "6"]].concat());
    assert_eq!(denied.status, UNMET);
    assert_eq!(cli::run(&["audit", &missing]).status, FILE);
}

#[test]
fn a_map_shows_who_reaches_what() {
    let run = run(&["map", "--memory", "512M", "--smram", "0x60", "--window", "E0000000h", "--registers", "FFF80000h"]);
    assert_eq!((run.status, run.errors.as_str()), (DONE, ""));
    for line in [
        "* 000A0000-000BFFFF  VGA (2)        VGA (2)         hub        refused 6 VGA",
        "* 1FF80000-1FFFFFFF  hub, error (5) memory (5)      hub        refused 6 TSEG",
        "  20000000-3FFFFFFF  hub (9)        hub (9)         hub        refused 7",
        "  E0000000-E3FFFFFF  window (8)     window (8)      hub        -         WINDOW",
        "  FEEA0000-FEEBFFFF  hub, error (6) A0000h up (6)   hub        -         HSEG",
        "  FFF80000-FFFFFFFF  registers (7)  registers (7)   hub        -         MMIO",
    ] {
        assert!(run.text.lines().any(|found| found == line), "{line}\n{}", run.text);
    }
    assert!(run.text.lines().all(|line| line.len() <= 80), "{}", run.text);
    let code = cli::run(&["map", "--smram=48h"]);
    assert!(code.text.contains("code memory (2)"), "{}", code.text);
}

/// Where the table is in main memory, and what of it is out of reach: request 10 of document 02.
#[test]
fn a_map_shows_a_table_in_main_memory() {
    let setup = "config write dev0.SMRAM 7Ch\nconfig write dev1.GMADR C0000000h\nconfig write dev1.MMADR F0000000h\n\
                 config write dev1.PCICMD 2\n";
    let map = |trace: &str| {
        let run = run_with(&["map", "--board", "dc100-main", "-"], format!("{setup}{trace}").as_bytes());
        assert_eq!((run.status, run.errors.as_str()), (DONE, ""), "{trace}");
        assert!(run.text.lines().all(|line| line.chars().count() <= 80), "{}", run.text);
        run.text
    };
    let text = map("write PGTBL_CTL 6FF001h\nentries 0..15 100000h\nentry 16 A0000h\nwrite GTT[17] 100003h\n");
    assert!(text.starts_with("Address map: board dc100-main, 8 MiB, SMRAM 7Ch\n"), "{text}");
    assert!(text.contains("\nTranslation table: in main memory, 6FF000h-70EFFFh (PGTBL_CTL).\n"), "{text}");
    let table = "\nTranslation table (on)\n\
                 \x20 window 0000000-000FFFF  entries 0..15         memory 00100000-0010FFFF\n\
                 \x20 window 0010000-0010FFF  entry 16              refused 6: 000A0000-000A0FFF\n\
                 \x20 window 0011000-0011FFF  entry 17              refused 5: type 01\n\
                 \x20 window 0400000-3FFFFFF  words 1024..16383     refused 6: 00700000-0070EFFF\n";
    assert!(text.ends_with(table), "{text}");
    let past = map("write PGTBL_CTL FFFFF000h\n");
    let line = "\nTranslation table: in main memory, FFFFF000h-10000EFFFh (PGTBL_CTL), at or above\n\
                TOM: every word is refused 7.\n";
    assert!(past.contains(line), "{past}");
    assert!(
        past.ends_with("  window 0000000-3FFFFFF  words 0..16383        refused 7: FFFFF000-10000EFFF\n"),
        "{past}"
    );
    let key = map("write PGTBL_CTL A0001h\n");
    let line = "\nTranslation table: in main memory, A0000h-AFFFFh (PGTBL_CTL), protected: every\nword is refused 6.\n";
    assert!(key.contains(line), "{key}");
    let cold = run(&["map", "--board=2", "--svg=-"]);
    assert!(cold.text.contains("Translation table: in main memory, 0h-FFFFh (PGTBL_CTL)."), "{}", cold.text);
    assert!(!run(&["map"]).text.contains("Translation table"));
}

/// The map's own questions need room in the last call.
#[test]
fn a_map_after_too_long_a_call_is_refused() {
    let records = record::encode(&vec![Record::read(0x1000, 4, false); 65_530]);
    let run = run_with(&["map", "-"], &records);
    assert_eq!((run.status, run.out.as_slice()), (INPUT, &b""[..]));
    assert!(run.errors.contains("standard input: record 65,530: the map asks "), "{}", run.errors);
    assert_eq!(run_with(&["map", "-"], &records[..16 * 65_400]).status, DONE);
}

/// Every tag of the picture is closed, and nothing of the map is missing.
#[test]
fn a_picture_is_well_formed() {
    let run = run(&["map", "--smram", "BEh", "--window", "C0000000h", "--registers", "F0000000h", "--svg", "-"]);
    assert_eq!((run.status, run.errors.as_str()), (DONE, ""));
    assert!(run.text.starts_with("<svg xmlns=\"http://www.w3.org/2000/svg\""));
    let mut open = Vec::new();
    for tag in run.text.split('<').skip(1) {
        let tag = tag.split('>').next().expect("a tag ends");
        let name = tag.split([' ', '\n']).next().expect("a tag has a name");
        match name.strip_prefix('/') {
            Some(name) => assert_eq!(open.pop(), Some(name)),
            None if tag.ends_with('/') => {}
            None => open.push(name),
        }
    }
    assert!(open.is_empty(), "{open:?}");
    for part in
        ["processor", "management mode", "hub master", "graphics", "00700000h", "protected", "prefers-color-scheme"]
    {
        assert!(run.text.contains(part), "{part}");
    }
}

#[test]
fn the_demo_can_be_drawn_in_ascii() {
    let ascii = run(&["demo", "--ascii"]);
    assert_eq!(ascii.status, DONE);
    assert!(ascii.text.is_ascii());
    let mut command = cli::program();
    let locale = cli::finished(command.arg("demo").env("LC_ALL", "C").output().expect("the program ends"));
    assert_eq!(locale.text, ascii.text);
}

/// Colour only where it is asked for or there is a terminal.
#[test]
fn a_pipe_has_no_colour_unless_it_is_asked_for() {
    let fault = example("fault-1-entry-aimed-at-the-key.trace");
    assert!(!run(&["replay", &fault]).text.contains('\u{1b}'));
    assert!(!run(&["replay", "--color=never", &fault]).text.contains('\u{1b}'));
    let colour = run(&["replay", "--color=always", &fault]).text;
    let red = "\u{1b}[1;31mrefused 6: page A0000h of entry 10 (window offset A000h) is protected\u{1b}[0m";
    assert!(colour.contains(red), "{colour}");
}

/// Random bytes in, as a list and as a trace: no panic, and a listing that gives the same bytes back.
#[test]
fn any_bytes_are_a_list() {
    let mut seed = 7_u64;
    let mut byte = move || {
        seed = seed.wrapping_mul(6_364_136_223_846_793_005).wrapping_add(1_442_695_040_888_963_407);
        (seed >> 56) as u8
    };
    for round in 0..20 {
        let bytes: Vec<u8> = (0..16 * 100).map(|at| if at % 16 == 0 { byte() % 11 } else { byte() & round }).collect();
        let listing = run_with(&["disasm", "--show-protected", "-"], &bytes);
        assert_eq!(listing.status, DONE, "{}", listing.errors);
        assert!(run_with(&["asm", "-"], &listing.out).out == bytes);
        let replay = run_with(&["replay", "--binary", "-"], &bytes);
        assert_eq!(replay.status, DONE, "{}", replay.errors);
        assert_eq!(replay.text.lines().count(), 100);
        let text: Vec<u8> = (0..1000).map(|_| byte()).collect();
        assert_eq!(run_with(&["asm", "-"], &text).status, INPUT);
    }
}

#[test]
fn a_trace_may_come_from_a_pipe_that_is_closed_at_its_end() {
    let mut command = cli::program();
    command.args(["replay", "-"]).stdin(Stdio::piped()).stdout(Stdio::piped()).stderr(Stdio::piped());
    let mut child = command.spawn().expect("the program starts");
    child.stdin.take().expect("a pipe").write_all(b"read4 5\n").expect("a trace is read");
    let run = cli::finished(child.wait_with_output().expect("the program ends"));
    assert_eq!(run.status, DONE);
    assert!(run.text.contains("refused 2: 4 bytes at 5h cross an aligned 4-byte word"), "{}", run.text);
}
