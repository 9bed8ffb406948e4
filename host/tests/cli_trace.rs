//! Text traces: what their names stand for, and what goes from text to records and back.

mod cli;

use cli::{folder, run, run_with, word, DONE, FILE, INPUT};
use mitrophel::trace::{assemble, names};
use mitrophel::{record, replay, Answer, Board, Record, Target};
use std::fs;

/// The proved call's answers to a trace.
fn answers(trace: &str) -> Vec<Answer> {
    answers_on(Board::I82810, trace)
}

/// The same on another board.
fn answers_on(board: Board, trace: &str) -> Vec<Answer> {
    let records = assemble(trace).unwrap_or_else(|errors| panic!("{errors}")).records;
    let (mut memory, mut answers) = (vec![0; 8 << 20], vec![0; records.len()]);
    let mut display = vec![0; board.display_bytes()];
    replay(board, &mut memory, &records, &mut answers, &mut display).expect("good arguments");
    record::decode_answers(&answers).collect()
}

/// The datasheet's two tables: symbol, offset, size; and what a cold 82810 reads there, which is 0 for a
/// register that document 01 does not list.
const CONFIGURATION: [&[(&str, u32, u8, u32)]; 2] = [
    &[
        ("VID", 0x00, 2, 0x8086),
        ("DID", 0x02, 2, 0x7120),
        ("PCICMD", 0x04, 2, 0x0006),
        ("PCISTS", 0x06, 2, 0x0080),
        ("RID", 0x08, 1, 0x02),
        ("SUBC", 0x0A, 1, 0),
        ("BCC", 0x0B, 1, 0x06),
        ("MLT", 0x0D, 1, 0),
        ("HDR", 0x0E, 1, 0),
        ("SVID", 0x2C, 2, 0),
        ("SID", 0x2E, 2, 0),
        ("CAPPTR", 0x34, 1, 0),
        ("GMCHCFG", 0x50, 1, 0),
        ("PAMR", 0x51, 1, 0),
        ("DRP", 0x52, 1, 0),
        ("DRAMT", 0x53, 1, 0),
        ("FDHC", 0x58, 1, 0),
        ("SMRAM", 0x70, 1, 0x40),
        ("MISCC", 0x72, 2, 0),
        ("MISCC2", 0x80, 1, 0),
        ("BUFF_SC", 0x92, 2, 0xFFFF),
    ],
    &[
        ("VID", 0x00, 2, 0x8086),
        ("DID", 0x02, 2, 0x7121),
        ("PCICMD", 0x04, 2, 0x0004),
        ("PCISTS", 0x06, 2, 0),
        ("RID", 0x08, 1, 0),
        ("PI", 0x09, 1, 0),
        ("SUBC", 0x0A, 1, 0),
        ("BCC", 0x0B, 1, 0x03),
        ("CLS", 0x0C, 1, 0),
        ("MLT", 0x0D, 1, 0),
        ("HDR", 0x0E, 1, 0),
        ("BIST", 0x0F, 1, 0),
        ("GMADR", 0x10, 4, 0x0000_0008),
        ("MMADR", 0x14, 4, 0),
        ("SVID", 0x2C, 2, 0),
        ("SID", 0x2E, 2, 0),
        ("ROMADR", 0x30, 4, 0),
        ("CAPPOINT", 0x34, 1, 0xDC),
        ("INTRLINE", 0x3C, 1, 0),
        ("INTRPIN", 0x3D, 1, 0x01),
        ("MINGNT", 0x3E, 1, 0),
        ("MAXLAT", 0x3F, 1, 0),
        ("PM_CAPID", 0xDC, 2, 0x0001),
        ("PM_CAP", 0xDE, 2, 0x0021),
        ("PM_CS", 0xE0, 2, 0),
    ],
];

/// Device 1 answers while graphics is on.
const GRAPHICS: &str = "config write dev0.SMRAM 40h\n";

#[test]
fn every_configuration_register_is_reached_by_its_name() {
    for (device, rows) in CONFIGURATION.iter().enumerate() {
        let known: Vec<&str> = names::DEVICES[device].iter().map(|register| register.name).collect();
        assert_eq!(rows.iter().map(|row| row.0).collect::<Vec<_>>(), known, "device {device}: a row for each name");
        for (name, at, bytes, cold) in *rows {
            let trace = format!("{GRAPHICS}config read dev{device}.{name}\n");
            let answer = *answers(&trace).last().expect("an answer");
            assert_eq!((answer.code, answer.target()), (0, Some(Target::Register)), "dev{device}.{name}");
            assert_eq!((answer.address, answer.value), (device as u32 * 256 + at, *cold), "dev{device}.{name}");
            let access = record::decode(&assemble(&trace).expect("a trace").records).last();
            assert_eq!(access.map(|access| access.width), Some(*bytes), "dev{device}.{name}");
        }
    }
}

/// Symbol, offset, size, and a value that the register keeps; none where it does not keep what is written.
const MAPPED: [(&str, u32, u8, Option<u32>); 20] = [
    ("FENCE0", 0x2000, 4, Some(0x0008_0001)),
    ("FENCE1", 0x2004, 4, Some(0x0010_0011)),
    ("FENCE2", 0x2008, 4, Some(0x0018_0021)),
    ("FENCE3", 0x200C, 4, Some(0x0020_0031)),
    ("FENCE4", 0x2010, 4, Some(0x0028_0041)),
    ("FENCE5", 0x2014, 4, Some(0x0030_0051)),
    ("FENCE6", 0x2018, 4, Some(0x0038_0061)),
    ("FENCE7", 0x201C, 4, Some(0x0040_0071)),
    ("PGTBL_CTL", 0x2020, 4, Some(0xABCD_E001)),
    ("LP_RING_TAIL", 0x2030, 4, Some(0x0012_3458)),
    ("LP_RING_HEAD", 0x2034, 4, Some(0x0043_2104)),
    ("LP_RING_START", 0x2038, 4, Some(0x0123_4000)),
    ("LP_RING_LENGTH", 0x203C, 4, Some(0x0000_5001)),
    ("IER", 0x20A0, 2, Some(0x0002)),
    ("IIR", 0x20A4, 2, None),
    ("IMR", 0x20A8, 2, Some(0xFFFD)),
    ("ISR", 0x20AC, 2, None),
    ("DRT", 0x3000, 1, Some(0x01)),
    ("DRAMCL", 0x3001, 1, Some(0x5A)),
    ("DRAMCH", 0x3002, 1, Some(0xC3)),
];

/// Graphics on and decoding, the registers at F0000000h.
fn registers() -> String {
    format!("{GRAPHICS}config write dev1.MMADR F0000000h\nconfig write dev1.PCICMD 2\n")
}

#[test]
fn every_memory_mapped_register_is_reached_by_its_name() {
    let known: Vec<&str> = names::MAPPED.iter().map(|register| register.name).collect();
    assert_eq!(MAPPED.map(|row| row.0).to_vec(), known, "a row for each name");
    let entries = [("GTT[0]", 0x1_0000, 4, Some(0x1001)), ("GTT[16383]", 0x1_FFFC, 4, Some(0x2001))];
    for (name, at, bytes, kept) in MAPPED.into_iter().chain(entries) {
        // A register is reached by exactly its own width alone.
        let read = *answers_on(Board::Dc100, &format!("{}read {name}\n", registers())).last().expect("an answer");
        assert_eq!((read.code, read.target(), read.address), (0, Some(Target::MemoryMapped), at), "{name}");
        let Some(kept) = kept else { continue };
        let trace = format!("{}write {name} {kept}\nread{bytes} MMIO+{at:X}h\n", registers());
        assert_eq!(answers_on(Board::Dc100, &trace).last().map(|answer| answer.value), Some(kept), "{name}");
    }
}

/// A pending user interrupt is seen in IIR and ISR alone, and IIR is cleared by its own bit.
#[test]
fn the_two_registers_that_keep_no_data_are_told_apart() {
    let ring = "entry 0 100000h\nwrite PGTBL_CTL 1\nwrite LP_RING_START 0\nwrite LP_RING_LENGTH 1\n\
                write4 100000h 01000000h\nwrite LP_RING_TAIL 8\nwrite IMR FFFDh\nwrite IER 2\nrun 1\n";
    let after = |statements: &str| {
        let answers = answers(&format!("{}{ring}{statements}", registers()));
        answers.last().expect("an answer").value
    };
    assert_eq!(after("read IIR\n"), 2);
    assert_eq!(after("read2 MMIO+20A4h\n"), 2);
    assert_eq!(after("write IIR 2\nread2 MMIO+20A4h\n"), 0);
    assert_eq!(after("write ISR 2\nread2 MMIO+20A4h\n"), 2);
}

#[test]
fn the_two_ports_are_reached_by_their_names() {
    let trace = "out4 CONFIG_ADDRESS 80000000h\nin4 CF8h\nin2 CONFIG_DATA+2\n";
    let values: Vec<u32> = answers(trace).iter().map(|answer| answer.value).collect();
    assert_eq!(values, [0, 0x8000_0000, 0x7120]);
}

/// More than 16,777,216 records.
#[test]
fn a_trace_may_have_any_number_of_records() {
    let trace = format!("{GRAPHICS}config write dev1.MMADR F0000000h\n{}", "entries 0..16383 0\n".repeat(1025));
    let run = run_with(&["asm", "-", "-o", "/dev/null"], trace.as_bytes());
    assert_eq!((run.status, run.errors.as_str()), (DONE, ""));
}

/// After the lock a write of SMRAM has no effect, an entry's write may go anywhere, and a power state may be discarded: a
/// comment says what the value says, not what happens.
#[test]
fn comments_of_a_listing_say_what_is_written() {
    let trace = format!(
        "{}config write dev0.SMRAM 42h\nconfig write dev0.SMRAM 8Ch\nreset\nconfig write dev0.SMRAM 40h\n\
         config write dev1.MMADR 00100000h\nwrite4 MMIO+10000h 3\nwrite4 MMIO+2000h 21h\n\
         config write dev1.PM_CS 103h\nconfig write dev1.PM_CS 2\nconfig write4 dev1.E0h 101h\n\
         config write1 dev1.E0h 1\nconfig write1 dev1.E1h 2\nconfig write1 dev1.E2h 2\nconfig read dev1.PM_CS\n\
         config write2 dev0.E0h 103h\n",
        registers()
    );
    let listing = run_with(&["disasm", "-"], &run_with(&["asm", "-"], trace.as_bytes()).out);
    let comments: Vec<&str> = listing.text.lines().filter_map(|line| line.split_once(" # ")).map(|(_, c)| c).collect();
    assert_eq!(
        comments,
        [
            "as written: graphics on, nothing taken",
            "as written: graphics on, nothing taken; locked",
            "as written: graphics on, 512 KiB taken; A0000h-BFFFFh for management mode",
            "as written: graphics on, nothing taken",
            "as written: display cache page 0h",
            "as written: 512 KiB at 0h, pitch 512",
            "as written: power state D3, PME enabled",
            "as written: unsupported power state 10, PME not enabled",
            "as written: unsupported power state 01, PME enabled",
            "as written: unsupported power state 01",
            "as written: PME not enabled",
        ]
    );
}

/// A ring program by its mnemonics: two steps and an interrupt.
#[test]
fn a_ring_program_may_be_written_in_words() {
    let trace = format!(
        "{}set RING 100000h\nword RING noop user_interrupt flush 0\nentry 0 RING\nwrite PGTBL_CTL 1\n\
         write LP_RING_LENGTH 1\nwrite LP_RING_TAIL 10h\nrun 10\nread IIR\n",
        registers()
    );
    let answers = answers(&trace);
    let [.., ran, _] = answers.as_slice() else { panic!("an answer for each record") };
    assert_eq!((ran.code, ran.count), (0, 4));
}

#[test]
fn a_trace_includes_others_of_its_folder() {
    let folder = folder("include");
    fs::create_dir(folder.join("parts and more")).expect("a folder");
    let (desk, setup) = (folder.join("desk.trace"), folder.join("parts and more/setup.trace"));
    fs::write(&desk, "include \"parts and more/setup.trace\"\nread4 WINDOW+KEY\n").expect("a trace");
    fs::write(&setup, "include more.inc\nconfig write dev1.GMADR C0000000h\n").expect("a trace");
    fs::write(folder.join("parts and more/more.inc"), "set KEY 8\nconfig write dev0.SMRAM 40h\n").expect("a trace");
    let found = run(&["asm", &word(&desk)]);
    assert_eq!((found.status, found.errors.as_str()), (DONE, ""));
    assert_eq!(record::decode(&found.out).last(), Some(Record::read(0xC000_0008, 4, false)));

    // From standard input: relative to the current folder.
    let standard = format!("include \"{}\"\nread4 WINDOW+KEY\n", word(&setup));
    assert!(run_with(&["asm", "-"], standard.as_bytes()).out == found.out);
    let mut command = cli::program();
    command.args(["asm", "desk.trace"]).current_dir(&folder);
    assert!(command.output().expect("the program ends").stdout == found.out);

    // A denied refusal and a mistake are told where they stand.
    fs::write(folder.join("parts and more/more.inc"), "read3 0\n").expect("a trace");
    let denied = run(&["audit", "--deny", "all", &word(&desk)]);
    assert_eq!(denied.status, INPUT, "WINDOW has no base now");
    fs::write(&desk, "include \"parts and more/more.inc\"\n").expect("a trace");
    let denied = run(&["audit", "--deny", "all", &word(&desk)]);
    assert!(denied.errors.contains("parts and more/more.inc:1: refused 2"), "{}", denied.errors);
}

#[test]
fn an_include_that_cannot_be_read_is_a_file_error() {
    let folder = folder("no-include");
    let desk = folder.join("desk.trace");
    fs::write(&desk, "reset\ninclude none.trace\n").expect("a trace");
    let missing = run(&["asm", &word(&desk)]);
    let place = format!(
        "{}:2:9: '{}' cannot be read: No such file or directory\n",
        word(&desk),
        word(&folder.join("none.trace"))
    );
    assert_eq!((missing.status, missing.out.len()), (FILE, 0));
    assert!(missing.errors.starts_with(&place), "{}", missing.errors);
    fs::write(&desk, "include desk.trace\n").expect("a trace");
    let cycle = run(&["asm", &word(&desk)]);
    assert_eq!(cycle.status, INPUT);
    assert!(cycle.errors.contains("expected a file that does not include itself: "), "{}", cycle.errors);
}

#[test]
fn a_decimal_address_is_warned_of_and_taken() {
    let trace = "read4 4096\n".repeat(30);
    let found = run_with(&["asm", "-"], trace.as_bytes());
    assert_eq!((found.status, found.out.len()), (DONE, 30 * 16));
    let warning = "standard input:1:7: warning: 4096 is decimal (1000h); if it is meant as hexadecimal write 4096h";
    assert_eq!(found.errors.lines().next(), Some(warning));
    assert_eq!(found.errors.lines().count(), 20);
}

/// Every protected place in turn, and beside it one that is not.
const KEYS: &str = "\
write4 A0000h 00000000h
config write dev0.SMRAM 44h
write4 A0000h 0BADCAFEh
master write2 BFFFCh CAFEh
config write dev0.SMRAM 4Ch
smm write4 A0000h 0BADCAFEh
write4 A0000h 00000004h
smm write2 BFFFEh CAFEh
smm write4 9FFFCh 00000001h
config write dev0.SMRAM 20h
smm write1 FEEA0000h FEh
smm write4 1FFFFFFCh 0BADCAFEh
smm write4 3FFFFFFCh 0BADCAFEh
smm write4 6FFFFCh 00000002h
config write dev0.SMRAM BEh
smm write4 700000h 0BADCAFEh
smm write4 3FF00000h 0BADCAFEh
smm write4 3FEFFFFCh 00000005h
smm write4 407FFFFCh 00000006h
write4 700000h 00000003h
smm read4 700000h
";

#[test]
fn a_listing_leaves_out_what_management_mode_writes_into_protected_memory() {
    let records = run_with(&["asm", "-"], KEYS.as_bytes()).out;
    let hidden = run_with(&["disasm", "--no-comments", "-"], &records);
    assert_eq!((hidden.status, hidden.errors.as_str()), (DONE, ""));
    let redacted = ["0BADCAFEh", "CAFEh", "FEh"]
        .iter()
        .fold(KEYS.to_string(), |text, value| text.replace(&format!(" {value}\n"), " \u{B7}\u{B7}\n"));
    assert_eq!(redacted.matches("\u{B7}\u{B7}").count(), 9);
    assert_eq!(hidden.text, redacted);

    let again = run_with(&["asm", "-"], &hidden.out);
    assert_eq!(again.status, INPUT);
    let first = "standard input:3:15: a redacted value: list the records with --show-protected\n";
    assert!(again.errors.starts_with(first), "{}", again.errors);

    let shown = run_with(&["disasm", "--no-comments", "--show-protected", "-"], &records);
    assert_eq!(shown.text, KEYS);
    assert!(run_with(&["asm", "-"], &shown.out).out == records);
}

/// On a board with the table in main memory, an entry is a word of it. A list does not name its board.
#[test]
fn a_listing_leaves_out_entries_whose_words_are_in_protected_memory() {
    let table = "config write dev0.SMRAM 44h\nconfig write dev1.MMADR F0000000h\nconfig write dev1.PCICMD 0002h\n\
                 write PGTBL_CTL 0009F001h\n";
    // The last three are past A0000h.
    let entries = "entries 1022..1026 5678000h\n";
    let later = "config write dev0.SMRAM 4Eh\n";
    let listed = |trace: &str, options: &[&str]| {
        let records = run_with(&["asm", "-"], trace.as_bytes()).out;
        let run = run_with(&[&["disasm", "--no-comments"], options, &["-"]].concat(), &records);
        assert_eq!((run.status, run.errors.as_str()), (DONE, ""));
        run.text
    };
    let trace = format!("{table}{entries}{later}");
    let redacted: String = (1024..=1026).map(|entry| format!("write GTT[{entry}] \u{B7}\u{B7}\n")).collect();
    assert_eq!(listed(&trace, &[]), format!("{table}entries 1022..1023 5678000h\n{redacted}{later}"));
    assert_eq!(listed(&trace, &["--show-protected"]), trace);
    // Never protected, or elsewhere.
    for trace in [format!("{table}{entries}"), trace.replace("0009F001h", "0008F001h")] {
        assert_eq!(listed(&trace, &[]), trace);
    }
}

/// Nor does a record that breaks the layout show what it was to write.
#[test]
fn a_raw_line_leaves_out_what_was_meant_for_protected_memory() {
    let trace = b"config write dev0.SMRAM 4Eh\nraw 05 04 01 01 00 00 0A 00 FE CA AD 0B 00 00 00 00\n";
    let listing = run_with(&["disasm", "-"], &run_with(&["asm", "-"], trace).out);
    let raw = "raw 05 04 01 01 00 00 0A 00 \u{B7}\u{B7} \u{B7}\u{B7} \u{B7}\u{B7} \u{B7}\u{B7} 00 00 00 00";
    assert_eq!(listing.text.lines().last(), Some(raw));
    let again = run_with(&["asm", "-"], &listing.out);
    assert!(
        again.errors.contains(":2:29: a redacted value: list the records with --show-protected"),
        "{}",
        again.errors
    );
}

/// Comments and macros do not tell what is left out either.
#[test]
fn a_listing_that_leaves_nothing_out_gives_the_same_bytes_back() {
    let trace = format!("{}entries 0..3 100000h\nsmm write FENCE0 21h\nsmm write4 700000h 5\n", registers());
    let records = run_with(&["asm", "-"], trace.as_bytes()).out;
    let listing = run_with(&["disasm", "-"], &records);
    assert!(run_with(&["asm", "-"], &listing.out).out == records);

    // The registers stand where a TSEG may be.
    let trace = "config write dev0.SMRAM 70h\nconfig write dev1.MMADR 00780000h\nsmm write4 GTT[5] 0BADC001h\n\
                 smm write4 FENCE0 0BADC001h\n";
    let listing = run_with(&["disasm", "-"], &run_with(&["asm", "-"], trace.as_bytes()).out);
    assert!(
        listing.text.ends_with("smm write GTT[5] \u{B7}\u{B7}\nsmm write FENCE0 \u{B7}\u{B7}\n"),
        "{}",
        listing.text
    );
}
