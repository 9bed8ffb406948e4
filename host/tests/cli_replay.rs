//! What `replay` prints, checks, writes and keeps to itself.

mod cli;

use cli::{examples, folder, run, run_with, word, DONE, INPUT, UNMET, USAGE};
use std::fs;
use std::os::unix::fs::PermissionsExt;

/// A key at A0000h, locked, and a guest that looks for it.
const KEY: &str = "\
config write dev0.SMRAM 4Ch
config write dev1.GMADR C0000000h
config write dev1.MMADR F0000000h
config write dev1.PCICMD 2
smm write4 A0000h 4B455921h
entry 10 A0000h
write PGTBL_CTL 1
config write dev0.SMRAM 4Eh
read4 A0000h
read4 WINDOW+A000h
smm read4 A0000h
";

#[test]
fn a_trace_is_a_test() {
    let trace = "read4 A0000h #> hub\nreset   # and\n    #> registers at their defaults, table zeroed\n";
    let met = run_with(&["replay", "--check", "-"], trace.as_bytes());
    assert_eq!((met.status, met.text.as_str()), (DONE, "standard input: 2 expectations, all met\n"));

    let wrong = trace.replace("hub", "memory A0000h = 00000000h");
    let unmet = run_with(&["replay", "--check", "-"], wrong.as_bytes());
    let diff = "standard input:1: read4 A0000h\n- memory A0000h = 00000000h\n+ hub\n\
                standard input: 2 expectations, 1 not met\n";
    assert_eq!((unmet.status, unmet.text.as_str(), unmet.errors.as_str()), (UNMET, diff, ""));
}

/// A value of protected memory that is not as expected is shown only where that is asked for.
#[test]
fn an_unmet_expectation_shows_protected_values_if_asked() {
    let trace = format!("{KEY}#> memory A0000h = 00000000h\n");
    for (options, came) in [(&[][..], "\u{B7}\u{B7}"), (&["--show-protected"], "4B455921h")] {
        let run = run_with(&[&["replay", "--check", "-"], options].concat(), trace.as_bytes());
        assert_eq!(run.status, UNMET);
        let diff = format!(":12: smm read4 A0000h\n- memory A0000h = 00000000h\n+ memory A0000h = {came}\n");
        assert!(run.text.contains(&diff), "{}", run.text);
    }
}

/// Expectations are compared whole; only the reason may be left out.
#[test]
fn an_expectation_is_exact() {
    for (expectation, status) in [
        ("memory 1000h = 00000000h", DONE),
        ("memory 1000h = 00000000h (rule 1: below A0000h)", DONE),
        ("memory 1000h", UNMET),
        ("memory 1000h = 00000000h (rule 2)", UNMET),
        ("memory 1000h = 00000000h, interrupt line up", UNMET),
    ] {
        let run = run_with(&["replay", "--check", "-"], format!("read4 1000h #> {expectation}\n").as_bytes());
        assert_eq!(run.status, status, "{expectation}");
    }
}

/// A statement of several records: the first that is refused, else the last; or one expectation for each.
#[test]
fn an_expectation_speaks_of_all_records_of_its_line() {
    let check = |trace: &str| run_with(&["replay", "--check", "-"], trace.as_bytes());
    assert_eq!(check("config read dev0.VID #> dev0.VID = 8086h\n").status, DONE);
    let each = "config read dev0.VID #> CF8h is now 80000000h\n#> dev0.VID = 8086h\n";
    assert_eq!(check(each).status, DONE);
    let three = check(&format!("{each}#> dev0.VID = 8086h\n"));
    assert_eq!(three.status, INPUT);
    assert!(three.errors.contains(":1: expected one expectation, or one for each"), "{}", three.errors);
    // The first two bytes are half of FENCE7, the next four PGTBL_CTL.
    let half = "refused 10: 2 bytes at offset 201Eh, not FENCE7 as it is, 4 bytes at 201Ch";
    let refused = check(&format!("{KEY}bytes MMIO+201Eh 0 0 1 0 0 0 #> {half}\n"));
    assert_eq!(refused.status, DONE, "{}", refused.text);
}

/// An `include` speaks of all that it includes, whatever the included lines expect.
#[test]
fn an_expectation_of_an_include_speaks_of_all_records_of_the_file() {
    let folder = folder("check-include");
    let check = |included: &str, expected: &str| {
        fs::write(folder.join("inner"), included).expect("a trace");
        fs::write(folder.join("outer"), format!("include inner  #> {expected}\nread4 0\n")).expect("a trace");
        run(&["replay", "--check", &word(&folder.join("outer"))])
    };
    let refused = "refused 2: width 3 is none of 1, 2 and 4";
    let zero = "memory 0h = 00000000h";
    let first = check(&format!("read3 0\nread4 0  #> {zero}\nread4 0\n"), refused);
    assert_eq!(first.status, DONE, "{}", first.text);
    let last = check(&format!("read4 0  #> {zero}\nreset\nread4 4\n"), "memory 4h = 00000000h");
    assert_eq!(last.status, DONE, "{}", last.text);
    // One line with as many records as the `include` itself.
    let alone = check(&format!("read4 0  #> {zero}\n"), zero);
    assert_eq!(alone.status, DONE, "{}{}", alone.text, alone.errors);
    let select = "config read dev0.VID  #> dev0.VID = 8086h\n";
    assert_eq!(check(select, "dev0.VID = 8086h").status, DONE);
    assert_eq!(check(select, "CF8h is now 80000000h").status, UNMET);
}

#[test]
fn a_trace_without_expectations_is_no_test() {
    let run = run_with(&["replay", "--check", "-"], b"reset\n");
    assert_eq!(run.status, INPUT);
    assert!(run.errors.contains("expected a trace with expectations ('#>'), found none"), "{}", run.errors);
}

#[test]
fn bless_writes_what_came_and_nothing_else() {
    let folder = folder("bless");
    let trace = folder.join("key.trace");
    // Line ends of both kinds, a comment, and no end of the last line.
    let text = KEY.replace("4Eh\n", "4Eh  # locked\r\n");
    fs::write(&trace, text.trim_end()).expect("a trace");
    let blessed = run(&["replay", "--bless", &word(&trace)]);
    assert_eq!((blessed.status, blessed.errors.as_str()), (DONE, ""));
    assert_eq!(blessed.text, format!("{}: 11 new expectations written\n", trace.display()));
    let text = fs::read_to_string(&trace).expect("the trace");
    assert!(text.contains("4Eh  # locked"), "{text}");
    assert!(text.contains("  #> dev0.SMRAM is now 4Eh\r\nread4 A0000h  "), "{text}");
    assert!(
        text.contains("\nread4 WINDOW+A000h                      #> refused 6: page A0000h of entry 10 (window"),
        "{text}"
    );
    assert!(text.ends_with("#> memory A0000h = \u{B7}\u{B7}"), "{text}");
    assert!(!text.contains("4B455921h  #"), "{text}");
    assert_eq!(run(&["replay", "--check", &word(&trace)]).status, DONE);

    // Blessing again changes nothing; a changed expectation alone is written anew, and with its reason if it
    // had one.
    run(&["replay", "--bless", &word(&trace)]);
    assert_eq!(fs::read_to_string(&trace).expect("the trace"), text);
    let wrong = text.replace("#> VGA offset 0h", "#> hub (rule 9)");
    fs::write(&trace, &wrong).expect("a trace");
    run(&["replay", "--bless", &word(&trace)]);
    let again = text.replace("#> VGA offset 0h", "#> VGA offset 0h (rule 2: LSMM 11, management mode only)");
    assert_eq!(fs::read_to_string(&trace).expect("the trace"), again);
    run(&["replay", "--bless", "--reasons", "--show-protected", &word(&trace)]);
    assert_eq!(fs::read_to_string(&trace).expect("the trace"), again, "expectations that are met stay");
}

#[test]
fn bless_renews_only_the_expectations_that_are_there() {
    let folder = folder("bless-some");
    let trace = folder.join("some.trace");
    fs::write(&trace, "reset\nread4 A0000h #>\nreset\n").expect("a trace");
    let blessed = run(&["replay", "--bless", "--reasons", &word(&trace)]);
    assert_eq!((blessed.status, blessed.errors.as_str()), (DONE, ""));
    let text = fs::read_to_string(&trace).expect("the trace");
    assert_eq!(text, "reset\nread4 A0000h #> hub (rule 2: LSMM 00, shut, graphics off)\nreset\n");
}

/// What is expected in an included file is none of the trace's own expectations.
#[test]
fn bless_writes_a_trace_whose_included_files_alone_have_expectations() {
    let folder = folder("bless-included");
    let [trace, setup] = ["desk.trace", "setup.trace"].map(|name| folder.join(name));
    fs::write(&setup, "reset #> hub\n").expect("a trace");
    fs::write(&trace, "include setup.trace\nread4 A0000h\n").expect("a trace");
    let blessed = run(&["replay", "--bless", &word(&trace)]);
    assert_eq!(blessed.text, format!("{}: 1 new expectation written\n", trace.display()));
    let text = fs::read_to_string(&trace).expect("the trace");
    assert_eq!(text, "include setup.trace\nread4 A0000h                            #> hub\n");
    assert_eq!(fs::read_to_string(&setup).expect("the other"), "reset #> hub\n");
}

#[test]
fn options_exclude_what_makes_no_sense_beside_them() {
    for (words, part) in [
        (&["--check", "--bless", "x"][..], "--check and --bless exclude each other"),
        (&["--check", "--json", "x"], "--check and --json exclude each other"),
        (&["--json", "--csv", "x"], "--json and --csv exclude each other"),
        (&["--check", "--lines", "x"], "--lines is about what is printed, which --check replaces"),
        (&["--answers", "y", "--only", "refused", "x"], "--only is about what is printed, which --answers replaces"),
        (&["--answers", "y", "--lines", "x"], "--lines is about what is printed, which --answers replaces"),
        (&["--json", "--answers", "-", "x"], "--answers - would stand among what is printed: give a file"),
        (&["--csv", "--answers", "y", "--dump", "-", "x"], "--dump - would stand among what is printed"),
        (&["--check", "--answers", "/dev/stdout", "x"], "--answers - would stand among what is printed"),
        (&["--reasons", "x"], "--reasons is about what --bless writes"),
        (&["--bless", "-"], "--bless writes the trace anew: expected a file"),
        (&["--redact", "x"], "--redact is about the dump"),
        (&["--only", "refusd", "x"], "--only: expected refused, answered, memory"),
    ] {
        let run = run(&[&["replay"], words].concat());
        assert_eq!(run.status, USAGE, "{words:?}");
        assert!(run.errors.contains(part), "{}", run.errors);
    }
}

/// What management mode writes and reads in protected memory is not printed in any form.
#[test]
fn values_of_protected_memory_are_not_shown() {
    for form in [&[][..], &["--json"], &["--csv"], &["--lines"]] {
        let hidden = run_with(&[&["replay", "-"], form].concat(), KEY.as_bytes());
        assert_eq!(hidden.status, DONE, "{}", hidden.errors);
        for key in ["4B455921", "4b455921", "1262836001"] {
            assert!(!hidden.text.contains(key), "{form:?}: {}", hidden.text);
        }
        assert!(hidden.text.contains("smm write4 A0000h \u{B7}\u{B7}"), "{form:?}: {}", hidden.text);
        assert!(hidden.text.contains("memory A0000h = \u{B7}\u{B7}"), "{form:?}: {}", hidden.text);
        let shown = run_with(&[&["replay", "--show-protected", "-"], form].concat(), KEY.as_bytes());
        assert!(shown.text.contains("memory A0000h = 4B455921h"), "{form:?}: {}", shown.text);
        assert!(!shown.text.contains('\u{B7}'), "{form:?}: {}", shown.text);
    }
    // The same address is everybody's while SMRAM leaves it open, and so is memory beside it.
    let open = run_with(&["replay", "-"], b"config write dev0.SMRAM 44h\nsmm write4 A0000h 7\nwrite4 9FFFCh 8\n");
    assert!(open.text.contains("takes 00000007h") && open.text.contains("takes 00000008h"), "{}", open.text);
}

/// The key is put in its place before SMRAM protects it, is still there after a reset, and may be in a write that
/// is refused.
#[test]
fn values_of_memory_that_is_protected_at_some_time_are_not_shown() {
    let before = "config write dev0.SMRAM 44h\nwrite4 A0000h 4B455921h\nread4 A0000h\n";
    let refused = "config write dev0.SMRAM 4Ch\nsmm write3 A0000h 4B455921h\nsmm write4 BFFFEh 4B455921h\n\
                   config write dev0.SMRAM 30h\nsmm write8 FEEA0000h 4B455921h\nwrite3 7FFFFCh 4B455921h\nsmm write4 9FFFEh 4B455921h\n\
                   raw 05 04 01 00 00 00 0A 00 21 59 45 4B 01 00 00 00\n";
    let after = "reset\nconfig write dev0.SMRAM 44h\nread4 A0000h\nmaster read4 A0000h\n\
                 config write dev1.MMADR F0000000h\nconfig write dev1.PCICMD 2\nentry 0 A0000h\nwrite PGTBL_CTL 1\n\
                 write LP_RING_TAIL 8\nwrite LP_RING_LENGTH 1\nrun 1\n";
    let trace = format!("{before}{refused}{after}");
    for form in [&[][..], &["--json"], &["--csv"]] {
        let hidden = run_with(&[&["replay", "-"], form].concat(), trace.as_bytes());
        assert_eq!(hidden.status, DONE, "{}", hidden.errors);
        for key in ["4B455921", "1262836001", "21 59 45 4B"] {
            assert!(!hidden.text.contains(key), "{form:?}: {}", hidden.text);
        }
        let shown = run_with(&[&["replay", "--show-protected", "-"], form].concat(), trace.as_bytes());
        assert!(shown.text.matches("4B455921h").count() >= 10, "{form:?}: {}", shown.text);
    }
    let run = run_with(&["replay", "-"], trace.as_bytes());
    assert!(run.text.contains("refused 12: word \u{B7}\u{B7} is no instruction"), "{}", run.text);
    assert!(run.text.contains("smm write8 FEEA0000h \u{B7}\u{B7}"), "{}", run.text);
    assert!(run.text.contains("raw 05 04 01 00 00 00 0A 00 \u{B7}\u{B7} \u{B7}\u{B7} "), "{}", run.text);
}

/// A value that management mode meant for protected memory is not shown because it did not get there.
#[test]
fn values_that_were_refused_by_protected_memory_are_not_shown() {
    for (smram, writes) in [
        ("4Eh", "smm write3 A0000h 4B455921h\nsmm write4 A0002h 4B455921h\n"),
        ("4Ah", "smm write4 A0000h 4B455921h\n"),
        ("B2h", "smm write3 700000h 4B455921h\nsmm write4 FEEA0002h 4B455921h\nsmm write4 A0000h 4B455921h\n"),
    ] {
        let trace = format!("config write dev0.SMRAM {smram}\n{writes}");
        for form in ["--lines", "--json", "--csv"] {
            let hidden = run_with(&["replay", form, "-"], trace.as_bytes());
            assert_eq!(hidden.status, DONE);
            let shown = run_with(&["replay", form, "--show-protected", "-"], trace.as_bytes());
            for value in ["4B455921", "1262836001"].iter().filter(|value| shown.text.contains(**value)) {
                assert!(!hidden.text.contains(value), "{smram} {form}: {}", hidden.text);
            }
            assert_ne!(hidden.text, shown.text, "{smram} {form}");
        }
    }
}

/// PM_CS as an access of so many bytes at E0h is told.
fn power(width: u8, state: u32, enable: u32) -> String {
    let state = if state == 0 { "power state D0" } else { "power state D3" };
    match width {
        1 => state.to_string(),
        _ => format!("{state}, {}", pme(enable)),
    }
}

/// The same at E1h.
fn pme(enable: u32) -> &'static str {
    if enable == 0 {
        "PME not enabled"
    } else {
        "PME enabled"
    }
}

/// Request 3 of document 02: each state written over each state held, in one, two and four bytes, with bit 8 held and
/// written both ways; then reads of the same widths.
#[test]
fn a_power_state_is_told_and_whether_one_was_discarded() {
    let mut trace = "config write dev0.SMRAM 40h\n".to_string();
    for (held, held_enable) in [(0, 0), (0, 1), (3, 0), (3, 1)] {
        for (written, enable) in (0..4).flat_map(|state| [(state, 0), (state, 1)]) {
            // The last one with all the bits that read 0.
            for (width, other) in [(1, 0), (2, 0), (4, 0), (4, 0xFFFF_FEFC)] {
                let (state, discarded) = match written {
                    1 => (held, "; unsupported power state 01 discarded"),
                    2 => (held, "; unsupported power state 10 discarded"),
                    _ => (written, ""),
                };
                // A single byte has no bit 8.
                let (enable, data) = match width {
                    1 => (held_enable, written),
                    _ => (enable, other | enable << 8 | written),
                };
                let (before, after) = (held_enable << 8 | held, enable << 8 | state);
                let (name, now) = match width {
                    1 => ("dev1.E0h", format!("{state:02X}h")),
                    2 => ("dev1.PM_CS", format!("{after:04X}h")),
                    _ => ("dev1.E0h", format!("{after:08X}h")),
                };
                let [one, two, four] = [1, 2, 4].map(|width| power(width, state, enable));
                let (set, left, pme) = (power(2, held, held_enable), power(width, state, enable), pme(enable));
                trace.push_str(&format!(
                    "config write dev1.PM_CS {before:X}h #> dev1.PM_CS is now {before:04X}h ({set})\n\
                     config write{width} dev1.E0h {data:X}h #> {name} is now {now} ({left}{discarded})\n\
                     config read1 dev1.E0h #> dev1.E0h = {state:02X}h ({one})\n\
                     config read1 dev1.E1h #> dev1.E1h = {enable:02X}h ({pme})\n\
                     config read2 dev1.E1h #> dev1.E1h = {enable:04X}h ({pme})\n\
                     config read dev1.PM_CS #> dev1.PM_CS = {after:04X}h ({two})\n\
                     config read4 dev1.E0h #> dev1.E0h = {after:08X}h ({four})\n\
                     config read2 dev1.E2h #> dev1.E2h = 0000h (configuration, device 1)\n",
                ));
            }
        }
    }
    for board in ["82810", "dc100", "82810-main", "dc100-main"] {
        let run = run_with(&["replay", "--check", "--board", board, "-"], trace.as_bytes());
        let all = "standard input: 1,024 expectations, all met\n";
        assert_eq!((run.status, run.text.as_str(), run.errors.as_str()), (DONE, all, ""), "{board}");
    }
    // Each of the two states is written 32 times; an expectation that does not say so is not met.
    for state in ["; unsupported power state 01 discarded", "; unsupported power state 10 discarded"] {
        let run = run_with(&["replay", "--check", "-"], trace.replace(state, "").as_bytes());
        assert_eq!(run.status, UNMET);
        assert!(run.text.ends_with(" expectations, 32 not met\n"), "{}", run.text);
    }
}

/// "a write touching that byte": E1h has PME enable alone, E2h and E3h nothing, and device 0 lists none of them.
#[test]
fn a_write_beside_the_power_state_discards_none() {
    for state in [0, 3] {
        let mut trace = format!("config write dev0.SMRAM 40h\nconfig write dev1.PM_CS {state}\n");
        for data in [0x01, 0x02, 0x03, 0x00, 0xFD, 0xFE] {
            let enable = data & 1;
            let (pme, whole) = (pme(enable), power(2, state, enable));
            trace.push_str(&format!(
                "config write1 dev1.E1h {data:X}h #> dev1.E1h is now {enable:02X}h ({pme})\n\
                 config write2 dev1.E1h {:X}h #> dev1.E1h is now {enable:04X}h ({pme})\n\
                 config write1 dev1.E2h {data:X}h #> dev1.E2h is now 00h (configuration, device 1)\n\
                 config write2 dev1.E2h {data:X}h #> dev1.E2h is now 0000h (configuration, device 1)\n\
                 config write1 dev1.E3h {data:X}h #> dev1.E3h is now 00h (configuration, device 1)\n\
                 config write1 dev0.E0h {data:X}h #> dev0.E0h is now 00h (configuration, device 0)\n\
                 config write4 dev0.E0h {data:X}h #> dev0.E0h is now 00000000h (configuration, device 0)\n\
                 config read dev1.PM_CS #> dev1.PM_CS = {enable:02X}{state:02X}h ({whole})\n",
                0xFF00 | data,
            ));
        }
        let run = run_with(&["replay", "--check", "-"], trace.as_bytes());
        let all = "standard input: 48 expectations, all met\n";
        assert_eq!((run.status, run.text.as_str(), run.errors.as_str()), (DONE, all, ""));
    }
}

/// "the write completes": its answer is that of every other write, and the words are in both forms for programs.
#[test]
fn a_discarded_power_state_is_no_refusal() {
    let setup = "config write dev0.SMRAM 40h\nconfig write dev1.PM_CS 103h\n";
    let answers = [0, 1, 2, 3].map(|state| {
        let trace = format!("{setup}config write dev1.PM_CS 10{state}h\n");
        run_with(&["replay", "--answers", "-", "-"], trace.as_bytes()).out.split_off(5 * 16)
    });
    assert_eq!(answers, [[0, 2, 0, 0, 0xE0, 1, 0, 0, 0, 0, 0, 0, 0, 0, 0, 0]; 4]);
    let trace = format!("{setup}config write dev1.PM_CS 2\n");
    let last = |form| run_with(&["replay", form, "-"], trace.as_bytes()).text.lines().last().map(str::to_string);
    let words = "power state D3, PME not enabled; unsupported power state 10 discarded";
    let json = format!(
        "\"code\":0,\"refusal\":null,\"target\":\"register\",\"interrupt\":false,\"at\":480,\"value\":0,\"steps\":0,\
         \"outcome\":\"dev1.PM_CS is now 0003h\",\"reason\":\"{words}\",\"redacted\":false}}"
    );
    assert!(last("--json").is_some_and(|line| line.ends_with(&json)), "{:?}", last("--json"));
    let csv = format!(",0,,register,false,480,0,0,dev1.PM_CS is now 0003h,\"{words}\",false");
    assert!(last("--csv").is_some_and(|line| line.ends_with(&csv)), "{:?}", last("--csv"));
}

/// The manual page's line is the one that is printed.
#[test]
fn the_manual_page_has_the_words_of_a_discarded_power_state() {
    let page = fs::read_to_string(concat!(env!("CARGO_MANIFEST_DIR"), "/mitrophel.1")).expect("the manual page");
    let line = page.lines().find(|line| line.starts_with("dev1.PM_CS is now ")).expect("a line");
    let trace = format!(
        "config write dev0.SMRAM 40h\nconfig write dev1.PM_CS 3\nconfig write dev1.PM_CS 101h\n    #> {line}\n"
    );
    let run = run_with(&["replay", "--check", "-"], trace.as_bytes());
    assert_eq!((run.status, run.errors.as_str()), (DONE, ""), "{}", run.text);
    assert!(line.ends_with(" discarded)"), "{line}");
}

/// The table in main memory, over the key and past the top: request 10 of document 02.
const TABLE: &str = "\
config write dev0.SMRAM 4Ch
config write dev1.GMADR C0000000h
config write dev1.MMADR F0000000h
config write dev1.PCICMD 2
write PGTBL_CTL 200001h
entry 18 100000h
";

/// A word's own refusal is told from its entry's.
#[test]
fn a_word_of_a_table_in_main_memory_is_told_with_its_place() {
    let accesses = "read GTT[18] #> GTT[18] = 00100001h (rule 7: registers, word at 200048h)
smm write GTT[18] FFFFFFFFh #> GTT[18] is now 3FFFF007h (rule 7: registers, word at 200048h)
read4 WINDOW+12000h
    #> refused 7: page 3FFFF000h of entry 18 (window offset 12000h) is at or above the top of memory, 800000h
write GTT[18] A0001h #> GTT[18] is now 000A0001h
read4 WINDOW+12000h #> refused 6: page A0000h of entry 18 (window offset 12000h) is protected
read4 WINDOW+0 #> refused 4: entry 0 (window offset 0h) is not valid (rule 8: the window, the entry is 00000000h)
write4 200000h C5678FFEh
read4 WINDOW+0 #> refused 4: entry 0 (window offset 0h) is not valid (rule 8: the window, the entry is C5678FFEh)
read2 GTT[18] #> refused 10: 2 bytes at offset 10048h, not GTT[18] as it is, 4 bytes at 10048h (rule 7: registers)
write PGTBL_CTL A0001h #> PGTBL_CTL is now 000A0001h (rule 7: registers)
read GTT[18] #> refused 6: word 18 of the table, at A0048h, is protected (rule 7: registers)
smm fetch4 WINDOW+12000h
    #> refused 6: word 18 of the table (window offset 12000h), at A0048h, is protected (rule 8: the window)
write LP_RING_START 12000h
write LP_RING_LENGTH 1
write LP_RING_TAIL 8
run 3 #> refused 6: word 18 of the table, at A0048h, is protected (after 0 steps, head 00000000h)
write PGTBL_CTL 800001h
write GTT[18] 0
    #> refused 7: word 18 of the table, at 800048h, is at or above the top of memory, 800000h (rule 7: registers)
read4 WINDOW+12000h
    #> refused 7: word 18 of the table (window offset 12000h), at 800048h, is at or above the top of memory, 800000h
run 3
    #> refused 7: word 18 of the table, at 800048h, is at or above the top of memory, 800000h (after 0 steps, head 00000000h)
write FENCE0 31h
read4 WINDOW+2BCh
    #> refused 7: word 2 of the table (window offset 283Ch), at 800008h, is at or above the top of memory, 800000h
reset #> registers at their defaults, table words stay
";
    let trace = format!("{TABLE}{accesses}");
    for board in ["82810-main", "3"] {
        let run = run_with(&["replay", "--check", "--board", board, "-"], trace.as_bytes());
        assert_eq!((run.status, run.errors.as_str()), (DONE, ""), "{}", run.text);
        let refused = run_with(&["replay", "--only", "6,7", "--board", board, "-"], trace.as_bytes());
        assert_eq!(refused.text.lines().count(), 9, "{}", refused.text);
    }
}

/// Of an entry in memory that is protected at some time, neither the word nor the page that it names is shown.
#[test]
fn entries_in_memory_that_is_protected_at_some_time_are_not_shown() {
    let key = "config write dev0.SMRAM 44h\nword A0000h 5678001h 345001h 5678000h 5678003h A0001h\n";
    let table = "config write dev1.GMADR C0000000h\nconfig write dev1.MMADR F0000000h\nconfig write dev1.PCICMD 2\n\
                 write PGTBL_CTL A0001h\n";
    let accesses = "read GTT[0]\nwrite GTT[9] 5678001h\nread4 WINDOW+0\nread4 WINDOW+1ABCh\nwrite4 WINDOW+1ABCh 7\n\
                    read4 WINDOW+2000h\nread4 WINDOW+3000h\nread4 WINDOW+4000h\nwrite2 GTT[0] 5678h\n\
                    write LP_RING_START 2000h\nwrite LP_RING_LENGTH 1\nwrite LP_RING_TAIL 8\nrun 1\n";
    let locked = "config write dev0.SMRAM 4Eh\nwrite GTT[7] 5678001h\n";
    let open = format!("{key}{table}{accesses}");
    let trace = format!("{open}{locked}");
    for form in [&[][..], &["--json"], &["--csv"], &["--lines"]] {
        let words = [&["replay", "--board=2", "-"], form].concat();
        let hidden = run_with(&words, trace.as_bytes());
        assert_eq!((hidden.status, hidden.errors.as_str()), (DONE, ""));
        // 90669057, 3429057 and 3431100 are 5678001h, 345001h and 345ABCh.
        for part in ["5678", "345001", "345ABC", "90669057", "3429057", "3431100", "page A0000h", "type 01"] {
            assert!(!hidden.text.contains(part), "{form:?} {part}: {}", hidden.text);
        }
        for part in [
            "GTT[0] = \u{B7}\u{B7}",
            "GTT[9] is now \u{B7}\u{B7}",
            "refused 7: page \u{B7}\u{B7} of entry 0 (window offset 0h) is at or above the top of memory, 800000h",
            "memory \u{B7}\u{B7} = 00000000h",
            "memory \u{B7}\u{B7} takes 00000007h",
            "refused 4: entry 2 (window offset 2000h) is not valid",
            "rule 8: the window, the entry is \u{B7}\u{B7}",
            "refused 5: entry 3 (window offset 3000h) has type \u{B7}\u{B7}",
            "memory \u{B7}\u{B7} = \u{B7}\u{B7}",
            "write2 GTT[0] \u{B7}\u{B7}",
            "refused 4: entry 2, \u{B7}\u{B7}, is not valid (after 0 steps, head 00000000h)",
            "write GTT[7] \u{B7}\u{B7}",
            "refused 6: word 7 of the table, at A001Ch, is protected",
        ] {
            assert!(hidden.text.contains(part), "{form:?} {part}: {}", hidden.text);
        }
        // --show-protected, or nothing that is ever protected.
        let shown = run_with(&[&words[..], &["--show-protected"]].concat(), trace.as_bytes());
        let never = run_with(&words, open.as_bytes());
        for text in [&shown.text, &never.text] {
            assert!(!text.contains('\u{B7}'), "{form:?}: {text}");
            for part in [
                "GTT[0] = 05678001h",
                "entry 2, 05678000h, is",
                "the window, the entry is 05678000h",
                "memory 345ABCh = 00000000h",
                "type 01, display",
            ] {
                assert!(text.contains(part), "{form:?} {part}: {text}");
            }
        }
    }
    let json = run_with(&["replay", "--board=2", "--json", "-"], trace.as_bytes()).text;
    let [read, run] = ["read4 WINDOW+1ABCh", "run 1"].map(|statement| {
        let statement = format!("\"statement\":\"{statement}\"");
        json.lines().find(|line| line.contains(&statement)).expect("a record")
    });
    assert!(read.contains("\"at\":null,\"value\":0,") && read.ends_with("\"redacted\":true}"), "{read}");
    assert!(run.contains("\"at\":0,\"value\":0,") && run.ends_with("\"redacted\":true}"), "{run}");

    // An answer's address is such a value, too.
    let folder = folder("table-answers");
    for (name, access, secret) in [
        ("read", "read4 WINDOW+1ABCh", true),
        ("write", "write4 WINDOW+1ABCh 7", true),
        ("refused", "read4 WINDOW+2000h", false),
    ] {
        let answers = folder.join(name);
        let trace = format!("{key}{table}{access}\n{locked}");
        run_with(&["replay", "--board=2", "--answers", &word(&answers), "-"], trace.as_bytes());
        let mode = fs::metadata(&answers).expect("answers").permissions().mode() & 0o777;
        assert_eq!(mode == 0o600, secret, "{name}: {mode:o}");
    }
}

/// The registers may stand over protected memory, which comes before them: a write there is none of an entry.
#[test]
fn registers_over_protected_memory_show_no_value_of_it() {
    let trace = "config write dev0.SMRAM 70h\nconfig write dev1.MMADR 700000h\nconfig write dev1.PCICMD 2\n\
                 smm write4 GTT[5] 4B455921h\nsmm write3 GTT[5] 4B455921h\nwrite3 GTT[5] 4B455921h\nsmm read GTT[5]\n";
    for board in ["82810", "82810-main"] {
        let words = ["replay", "--board", board, "-"];
        let hidden = run_with(&words, trace.as_bytes());
        assert_eq!((hidden.status, hidden.errors.as_str()), (DONE, ""));
        assert!(!hidden.text.contains("4B455921"), "{}", hidden.text);
        let shown = run_with(&[&words[..], &["--show-protected"]].concat(), trace.as_bytes());
        assert_eq!(shown.text.matches("4B455921h").count(), 5, "{}", shown.text);
    }
}

#[test]
fn a_dump_is_whole_and_private_or_redacted_and_open() {
    let folder = folder("dump");
    let tseg = "config write dev0.SMRAM BCh\nsmm write4 A0000h 4B455921h\nsmm write4 7FFFFCh 4B455922h\n\
                write4 9FFFCh 11111111h\nsmm read4 A0000h\nreset\n";
    let dump = |name: &str, options: &[&str], trace: &str| {
        let file = folder.join(name);
        let run = run_with(&[&["replay", "--dump", &word(&file)], options, &["-"]].concat(), trace.as_bytes());
        assert_eq!(run.status, DONE, "{}", run.errors);
        let mode = fs::metadata(&file).expect("a dump").permissions().mode() & 0o777;
        (fs::read(&file).expect("a dump"), mode)
    };
    let words = |memory: &[u8]| [0x9_FFFC, 0xA_0000, 0x7F_FFFC].map(|at: usize| memory[at]);
    let (whole, mode) = dump("whole", &[], tseg);
    assert_eq!((words(&whole), mode), ([0x11, 0x21, 0x22], 0o600));
    let (redacted, mode) = dump("redacted", &["--redact"], tseg);
    assert_eq!(words(&redacted), [0x11, 0, 0]);
    assert_ne!(mode, 0o600, "nothing in it is a secret");
    let (_, mode) = dump("open", &[], "write4 1000h 7\n");
    assert_ne!(mode, 0o600, "nothing in it is a secret");

    let before = "config write dev0.SMRAM 44h\nread4 A0000h\nconfig write dev0.SMRAM 4Eh\n";
    let after = "config write dev0.SMRAM 4Eh\nreset\nconfig write dev0.SMRAM 44h\nread4 A0000h\n";
    let beside = "config write dev0.SMRAM 4Eh\nread4 A0000h\nread4 9FFFCh\nsmm write4 A0000h 7\n";
    for (name, trace, secret) in
        [("during", tseg, true), ("before", before, true), ("after", after, true), ("beside", beside, false)]
    {
        let answers = folder.join(name);
        run_with(&["replay", "--answers", &word(&answers), "-"], trace.as_bytes());
        let mode = fs::metadata(&answers).expect("answers").permissions().mode() & 0o777;
        assert_eq!(mode == 0o600, secret, "{name}: {mode:o}");
    }
}

#[test]
fn json_has_one_object_a_record_with_stable_names() {
    let run = run_with(&["replay", "--json", "-"], b"smm write4 A0000h 7  # \"\nrun 3\n");
    assert_eq!((run.status, run.errors.as_str()), (DONE, ""));
    let lines: Vec<&str> = run.text.lines().collect();
    assert_eq!(
        lines[0],
        "{\"record\":1,\"file\":\"standard input\",\"line\":1,\"statement\":\"smm write4 A0000h 00000007h\",\
         \"kind\":\"write\",\"width\":4,\"smm\":true,\"address\":655360,\"data\":7,\"code\":0,\"refusal\":null,\
         \"target\":\"hub\",\"interrupt\":false,\"at\":655360,\"value\":0,\"steps\":0,\"outcome\":\"hub\",\
         \"reason\":\"rule 2: LSMM 00, shut, graphics off\",\"redacted\":false}"
    );
    assert!(lines[1].contains("\"line\":2,\"statement\":\"run 3\",\"kind\":\"run\""), "{}", lines[1]);
    let binary = run_with(&["asm", "-"], b"reset\n").out;
    let run = run_with(&["replay", "--json", "-"], &binary);
    assert!(run.text.contains("\"file\":null,\"line\":null,\"statement\":\"reset\""), "{}", run.text);
}

#[test]
fn csv_has_a_line_of_names_and_quotes_what_needs_it() {
    let run = run_with(&["replay", "--csv", "-"], b"run 3\n");
    let lines: Vec<&str> = run.text.lines().collect();
    assert_eq!(lines.len(), 2);
    assert_eq!(lines[0].split(',').count(), 19);
    assert!(lines[0].starts_with("record,file,line,statement,kind,width,smm,address,data,code,refusal,target,"));
    assert!(lines[1].starts_with("1,standard input,1,run 3,run,0,false,0,3,0,,none,false,0,0,0,"), "{}", lines[1]);
    assert!(lines[1].contains("\"0 steps, head 00000000h\",the ring is not enabled,false"), "{}", lines[1]);
}

/// Each name of `--only` keeps some records of this list and leaves out others.
#[test]
fn only_keeps_the_records_that_it_names() {
    let trace = format!(
        "{KEY}in4 CF8h\nfetch4 1000h\nmaster write4 1000h 7\nmaster read4 C0000h\nconfig write dev0.SMRAM 4Fh\n\
         write IER 2\nwrite IMR 0\nread2 MMIO+2021h\nread4 3\nword 2000h 1000000h 0\nentry 0 2000h\n\
         write LP_RING_TAIL 8\nwrite LP_RING_LENGTH 1\nrun 2\nreset\nconfig write dev0.SMRAM 30h\nread4 7FFFFCh\n"
    );
    let all = run_with(&["replay", "-"], trace.as_bytes());
    assert_eq!(all.status, DONE, "{}", all.errors);
    let names = [
        "refused",
        "answered",
        "memory",
        "register",
        "hub",
        "vga",
        "mmio",
        "window",
        "error",
        "interrupt",
        "io",
        "read",
        "fetch",
        "write",
        "smm",
        "master",
        "run",
        "reset",
        "6",
        "protected",
        "width",
        "10",
    ];
    for name in names {
        let only = run_with(&["replay", "--only", name, "-"], trace.as_bytes());
        let (kept, total) = (only.text.lines().count(), all.text.lines().count());
        assert!(0 < kept && kept < total, "{name}: {kept} of {total}\n{}", all.text);
        assert!(only.text.lines().all(|line| all.text.contains(line)), "{name}: {}", only.text);
    }
    let count = |names: &str| run_with(&["replay", "--only", names, "-"], trace.as_bytes()).text.lines().count();
    assert_eq!(count("refused,answered"), all.text.lines().count());
    assert_eq!(count("refused"), 3);
    assert_eq!(count("6,2"), 2);
    let refused = run_with(&["replay", "--only", "refused", "-"], trace.as_bytes());
    assert!(refused.text.lines().all(|line| line.contains("refused ")), "{}", refused.text);
}

#[test]
fn lines_stand_beside_the_records() {
    let run = run_with(&["replay", "--lines", "-"], b"\nreset\nconfig read dev0.VID\n");
    let starts: Vec<&str> = run.text.lines().map(|line| &line[..15]).collect();
    assert_eq!(starts, ["     1      2  ", "     2      3  ", "     3      3  "]);

    // A line of an included file has its name.
    let folder = folder("lines");
    let [trace, setup] = ["desk.trace", "setup.trace"].map(|name| folder.join(name));
    fs::write(&setup, "\n\nreset\n").expect("a trace");
    fs::write(&trace, "include setup.trace\nreset\n").expect("a trace");
    let text = cli::run(&["replay", "--lines", &word(&trace)]).text;
    let place = format!("     1 {}:3  reset  ", setup.display());
    assert!(text.starts_with(&place) && text.contains("\n     2      2  reset  "), "{text}");
}

/// The two runs of demand 3 as they are printed: equal, since the key is not shown.
#[test]
fn two_keys_print_the_same() {
    let [first, second] = ["07-two-runs-first.trace", "07-two-runs-second.trace"].map(|name| examples().join(name));
    let [first, second] = [first, second].map(|trace| run(&["replay", &word(&trace)]).text);
    assert_eq!(first, second);
}
