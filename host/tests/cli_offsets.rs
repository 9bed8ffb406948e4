//! Where an access was refused: the window offset as each command tells it (request 5 of document 02).

mod cli;

use cli::{example, folder, run, run_with, word, Run, DONE, UNMET};
use mitrophel::{record, Answer, Kind, Record};
use std::fs;
use std::os::unix::fs::PermissionsExt;

const DESK: &str = "\
config write dev0.SMRAM 4Ch
config write dev1.GMADR C0000000h
config write dev1.MMADR F0000000h
config write dev1.PCICMD 2
write PGTBL_CTL 1
";

/// At a pitch of 4,096 bytes this fence takes 152BCh, which is 21 lines and 5 x 128 + 60 bytes, to
/// (32 + 5) x 2,048 + 5 x 128 + 60, which is 12ABCh.
const FENCE: &str = "write FENCE0 51h\n";

/// What makes the next access to entry 18 refused, and the words for it.
const REFUSED: [(&str, &str); 6] = [
    ("", "refused 4: entry 18 (window offset 12ABCh) is not valid"),
    ("write GTT[18] 100003h\n", "refused 5: entry 18 (window offset 12ABCh) has type 01, display cache"),
    ("write GTT[18] 100005h\n", "refused 5: entry 18 (window offset 12ABCh) has type 10"),
    ("entry 18 A0000h\n", "refused 6: page A0000h of entry 18 (window offset 12ABCh) is protected"),
    (
        "entry 18 800000h\n",
        "refused 7: page 800000h of entry 18 (window offset 12ABCh) is at or above the top of memory, 800000h",
    ),
    ("write PGTBL_CTL 0\n", "refused 3: translation is off (window offset 12ABCh): PGTBL_CTL bit 0 is 0"),
];

/// The same on boards whose table is in main memory, of a table word.
const WORDS: [(&str, &str); 2] = [
    (
        "write PGTBL_CTL 800001h\n",
        "refused 7: word 18 of the table (window offset 12ABCh), at 800048h, is at or above the top of memory, 800000h",
    ),
    ("write PGTBL_CTL A0001h\n", "refused 6: word 18 of the table (window offset 12ABCh), at A0048h, is protected"),
];

/// The same on boards with a display cache, of an entry of type 01: request 11 of document 02.
const DISPLAY: [(&str, &str); 2] = [
    (
        "write GTT[18] 100003h\n",
        "refused 5: entry 18 (window offset 12ABCh) has type 01, display cache, which is off: DRT bit 0 is 0",
    ),
    (
        "write DRT 1\nwrite GTT[18] 400003h\n",
        "refused 7: page 400000h of entry 18 (window offset 12ABCh) is at or above the top of the display cache, 400000h",
    ),
];

/// All that is refused on a board.
fn refused(board: &str) -> Vec<(&'static str, &'static str)> {
    let words = if board.ends_with("main") { &WORDS[..] } else { &[] };
    let display = if board.starts_with("dc100") { &DISPLAY[..] } else { &[] };
    let other = |own: &&(&str, &str)| !display.iter().any(|(setup, _)| *setup == own.0);
    REFUSED.iter().filter(other).chain(words).chain(display).copied().collect()
}

fn replay(board: &str, options: &[&str], trace: &str) -> Run {
    let run = run_with(&[&["replay", "--board", board], options, &["-"]].concat(), trace.as_bytes());
    assert_eq!(run.errors, "");
    run
}

fn check(board: &str, trace: &str) -> Run {
    replay(board, &["--check"], trace)
}

/// The answers of a trace, by its records.
fn answers(words: &[&str], trace: &str) -> Vec<(Record, Answer)> {
    let records = run_with(&["asm", "-"], trace.as_bytes()).out;
    let run = run_with(&[&["replay", "--answers", "-"], words, &["-"]].concat(), trace.as_bytes());
    assert_eq!((run.status, run.errors.as_str()), (DONE, ""));
    record::decode(&records).zip(record::decode_answers(&run.out)).collect()
}

/// Every kind of access, each width, and management mode: the words are the same.
#[test]
fn each_code_is_told_with_its_window_offset() {
    let accesses = ["read4 WINDOW+12ABCh", "fetch2 WINDOW+12ABCh", "write1 WINDOW+12ABCh 7", "smm read4 WINDOW+12ABCh"];
    for board in ["82810", "dc100", "82810-main", "dc100-main"] {
        // A table of zeros, wherever it is.
        let desk = DESK.replace("PGTBL_CTL 1", "PGTBL_CTL 200001h");
        for (setup, outcome) in refused(board) {
            for access in accesses {
                for end in ["", " (rule 8: the window)"] {
                    // Code 4 has the entry's word with its reason.
                    let end = match end {
                        "" => "",
                        _ if outcome.starts_with("refused 4") => " (rule 8: the window, the entry is 00000000h)",
                        end => end,
                    };
                    let run = check(board, &format!("{desk}{setup}{access} #> {outcome}{end}\n"));
                    assert_eq!(run.status, DONE, "{board}: {}", run.text);
                }
            }
        }
    }
}

/// "the offset before fencing for 9, after fencing for the others": what the outcome does not say is in the reason.
#[test]
fn a_fence_that_moved_the_offset_is_in_the_reason() {
    for board in ["82810", "82810-main", "dc100", "dc100-main"] {
        let desk = DESK.replace("PGTBL_CTL 1", "PGTBL_CTL 200001h") + FENCE;
        for (setup, outcome) in refused(board) {
            let word = if outcome.starts_with("refused 4") { ", the entry is 00000000h" } else { "" };
            let expected = format!("{outcome} (rule 8: window offset 152BCh before fence 0{word})");
            let run = check(board, &format!("{desk}{setup}smm write4 WINDOW+152BCh 7 #> {expected}\n"));
            assert_eq!(run.status, DONE, "{board}: {}", run.text);
        }
        let expected = "refused 4: entry 0 (window offset 3Ch) is not valid \
                        (rule 8: the window, not moved by fence 0, the entry is 00000000h)";
        let run = check(board, &format!("{desk}read4 WINDOW+3Ch #> {expected}\n"));
        assert_eq!(run.status, DONE, "{board}: {}", run.text);
        for (fence, fault) in [("1051h", "walk bit 1"), ("71h", "pitch code 7"), ("61h", "pitch code 6")] {
            let expected =
                format!("refused 9: fence 0 (window offset 152BDh) is ill-formed: {fault} (rule 8: the window)");
            for translation in ["", "write PGTBL_CTL 0\n"] {
                let list = format!("{desk}{translation}write FENCE0 {fence}\nread1 WINDOW+152BDh #> {expected}\n");
                let run = check(board, &list);
                assert_eq!(run.status, DONE, "{board}: {}", run.text);
            }
        }
        let last = "refused 9: fence 7 (window offset 3F80000h) is ill-formed: pitch code 7";
        let run = check(board, &format!("{desk}write FENCE7 3F80071h\nread4 WINDOW+3F80000h #> {last}\n"));
        assert_eq!(run.status, DONE, "{board}: {}", run.text);
    }
}

/// Another offset is another outcome, and so are the words without one.
#[test]
fn an_expectation_with_another_offset_is_not_met() {
    for (expected, status) in [
        ("refused 4: entry 18 (window offset 12ABCh) is not valid", DONE),
        ("refused 4: entry 18 (window offset 12AB8h) is not valid", UNMET),
        ("refused 4: entry 18 (window offset 12000h) is not valid", UNMET),
        ("refused 4: entry 18 (window offset 152BCh) is not valid", UNMET),
        ("refused 4: entry 18 is not valid", UNMET),
        ("refused 4: entry 18, 00000000h, is not valid", UNMET),
    ] {
        let run = check("82810", &format!("{DESK}{FENCE}read4 WINDOW+152BCh #> {expected}\n"));
        assert_eq!(run.status, status, "{}", run.text);
        let came = "+ refused 4: entry 18 (window offset 12ABCh) is not valid\n";
        assert_eq!(run.text.contains(came), status == UNMET, "{}", run.text);
    }
}

/// "for these alone": nothing else that is refused has an offset, in words or in its answer.
#[test]
fn no_other_refusal_has_an_offset() {
    let list = "read2 PGTBL_CTL\nsmm read1 GTT[18]\nread4 WINDOW+12ABEh\nread3 WINDOW+12ABCh\n\
                raw 03 04 00 01 BC 2A 01 C0 00 00 00 00 00 00 00 00\n";
    let words = "write PGTBL_CTL A0001h\nread GTT[18]\nread GTT[0]\nwrite PGTBL_CTL 800001h\nsmm write GTT[18] 7\n";
    for (board, list, count) in [("0", list.to_string(), 5), ("2", format!("{list}{words}"), 8)] {
        let list = format!("{DESK}{list}");
        let told = replay(board, &["--only", "refused"], &list).text;
        assert_eq!(told.lines().count(), count, "{told}");
        assert!(!told.contains("window offset"), "{told}");
        for (record, answer) in answers(&["--board", board], &list).iter().filter(|(_, answer)| answer.code != 0) {
            assert_eq!(*answer, Answer { code: answer.code, ..Answer::default() }, "{record}");
        }
    }
}

/// "Parser refusals keep the head there."
#[test]
fn a_refused_run_keeps_its_words_and_its_head() {
    let ring =
        "write LP_RING_START 12000h\nwrite LP_RING_HEAD 200008h\nwrite LP_RING_TAIL AB8h\nwrite LP_RING_LENGTH 1\n";
    for (setup, words) in [
        ("", "refused 4: entry 18, 00000000h, is not valid"),
        ("write GTT[18] 100003h\n", "refused 5: entry 18 has type 01, display cache"),
        ("entry 18 A0000h\n", "refused 6: entry 18's page A0000h is protected"),
        ("entry 18 800000h\n", "refused 7: entry 18's page 800000h is at or above the top of memory, 800000h"),
        ("write PGTBL_CTL 0\n", "refused 3: translation is off: PGTBL_CTL bit 0 is 0"),
        ("write LP_RING_TAIL 1000h\n", "refused 11: ring tail offset 1000h is not below the ring's length, 1000h"),
    ] {
        let list = format!("{DESK}{FENCE}{ring}{setup}run 1 #> {words} (after 0 steps, head 00200008h)\n");
        let run = check("82810", &list);
        assert_eq!(run.status, DONE, "{}", run.text);
        let answers = answers(&[], &list);
        assert_eq!(answers.last().map(|(_, answer)| answer.address), Some(0x20_0008));
        let json = replay("82810", &["--json", "--only", "run"], &list).text;
        assert!(json.contains("\"target\":\"none\",\"interrupt\":false,\"at\":2097160,\"value\":0,"), "{json}");
    }
}

/// The field `at` is the answer's address: 12ABCh is 76476, and 152BCh 86716.
#[test]
fn json_and_csv_hold_the_offset() {
    let list = format!(
        "{DESK}read4 WINDOW+12ABCh\n{FENCE}fetch4 WINDOW+152BCh\nsmm write1 WINDOW+152BFh 7\nwrite FENCE0 71h\n\
         read4 WINDOW+152BCh\nread2 PGTBL_CTL\nread3 WINDOW+12ABCh\n"
    );
    let json = replay("82810", &["--json", "--only", "refused"], &list).text;
    let csv = replay("82810", &["--csv", "--only", "refused"], &list).text;
    let expected = [
        ("4", "not-valid", "76476", "entry 18 (window offset 12ABCh)", "rule 8: the window, the entry is 00000000h"),
        ("4", "not-valid", "76476", "entry 18 (window offset 12ABCh)", "rule 8: window offset 152BCh before fence 0, "),
        ("4", "not-valid", "76479", "entry 18 (window offset 12ABFh)", "rule 8: window offset 152BFh before fence 0, "),
        ("9", "fence", "86716", "fence 0 (window offset 152BCh)", "rule 8: the window"),
        ("10", "not-exact", "0", "2 bytes at offset 2020h, not PGTBL_CTL", "rule 7: registers"),
        ("2", "width", "0", "width 3 is none of 1, 2 and 4", ""),
    ];
    assert_eq!((json.lines().count(), csv.lines().count()), (expected.len(), 1 + expected.len()));
    let lines = json.lines().zip(csv.lines().skip(1));
    for ((code, name, at, outcome, reason), (json, csv)) in expected.iter().zip(lines) {
        let answer = format!(
            "\"code\":{code},\"refusal\":\"{name}\",\"target\":\"none\",\"interrupt\":false,\"at\":{at},\"value\":0,\
             \"steps\":0,\"outcome\":\"refused {code}: {outcome}"
        );
        assert!(json.contains(&answer), "{answer}\n{json}");
        assert!(json.contains(&format!("\"reason\":\"{reason}")) && json.ends_with("\"redacted\":false}"), "{json}");
        assert!(csv.contains(&format!(",{code},{name},none,false,{at},0,0,")), "{csv}");
        assert!(csv.contains(outcome) && csv.contains(reason) && csv.ends_with(",false"), "{csv}");
    }
}

/// Of an entry in memory that is protected at some time the word, type and page are not shown; the offset is no secret.
#[test]
fn an_offset_is_shown_where_the_entry_is_not() {
    let key = "config write dev0.SMRAM 44h\nword A0048h 5678000h 5678003h 5678001h\n";
    let table = format!("{}write PGTBL_CTL A0001h\n{FENCE}", &DESK[DESK.find('\n').expect("lines") + 1..]);
    // 5, 7 and 9 x 128 + 60 bytes in line 21: after fencing they are two tiles, a page, apart.
    let accesses = "read4 WINDOW+152BCh\nread4 WINDOW+153BCh\nread4 WINDOW+154BCh\n";
    let list = format!("{key}{table}{accesses}config write dev0.SMRAM 4Eh\n");
    let offsets = ["12ABCh", "13ABCh", "14ABCh"];
    let dots = "\u{B7}\u{B7}";
    let outcomes = [
        format!("refused 4: entry 18 (window offset {}) is not valid", offsets[0]),
        format!("refused 5: entry 19 (window offset {}) has type {dots}", offsets[1]),
        format!("refused 7: page {dots} of entry 20 (window offset {}) is at or above the top of", offsets[2]),
    ];
    for form in ["--lines", "--json", "--csv"] {
        let hidden = replay("2", &[form, "--only", "window"], &list).text;
        let hidden =
            hidden.strip_prefix("record,").map_or(hidden.as_str(), |csv| &csv[csv.find('\n').expect("lines") + 1..]);
        assert!(!hidden.contains("5678") && !hidden.contains("type 01"), "{form}: {hidden}");
        let shown = replay("2", &[form, "--only", "window", "--show-protected"], &list).text;
        assert!(shown.contains("the entry is 05678000h") && shown.contains("page 5678000h of entry 20"), "{shown}");
        assert!(hidden.contains(&format!("before fence 0, the entry is {dots}")), "{form}: {hidden}");
        for (line, outcome) in hidden.lines().zip(&outcomes) {
            assert!(line.contains(outcome), "{form}: {line}");
        }
    }
    let json = replay("2", &["--json", "--only", "window"], &list).text;
    for (line, at) in json.lines().zip(["76476", "80572", "84668"]) {
        assert!(line.contains(&format!("\"at\":{at},")) && line.ends_with("\"redacted\":true}"), "{line}");
    }
    // So the answers may be read by everybody, and say the same.
    let file = folder("offset-answers").join("answers");
    run_with(&["replay", "--board=2", "--answers", &word(&file), "-"], list.as_bytes());
    assert_ne!(fs::metadata(&file).expect("answers").permissions().mode() & 0o777, 0o600);
    let answers = fs::read(&file).expect("answers");
    let refused: Vec<(u8, u32)> = record::decode_answers(&answers)
        .filter(|answer| answer.code != 0)
        .map(|answer| (answer.code, answer.address))
        .collect();
    assert_eq!(refused, [(4, 0x1_2ABC), (5, 0x1_3ABC), (7, 0x1_4ABC)]);
}

/// What the samples expect in words is what their answers hold: an offset, a run's head or 0. No offset is told twice.
#[test]
fn the_words_of_the_samples_are_their_answers() {
    let mut seen = [0; 14];
    for (name, board) in [
        ("request-5-where-it-was-refused.trace", "82810"),
        ("request-5-word-of-the-table.trace", "82810-main"),
        ("request-10-table-in-main-memory.trace", "82810-main"),
        ("03-codes.trace", "82810"),
    ] {
        let text = fs::read_to_string(example(name)).expect("a trace");
        let trace = mitrophel::trace::assemble(&text).expect("a good trace");
        let answers = answers(&["--board", board], &text);
        for expected in &trace.expectations {
            let (record, answer) = &answers[expected.records.end - 1];
            let Some((_, offset)) = expected.text.split_once(" (window offset ") else {
                let head = expected.text.rsplit_once(", head ").map(|(_, head)| &head[..8]);
                let head = head.map_or(0, |head| u32::from_str_radix(head, 16).expect("a number"));
                if answer.code != 0 {
                    assert_eq!(
                        (answer.target, answer.address, answer.value),
                        (0, head, 0),
                        "{name}: {}",
                        expected.text
                    );
                }
                continue;
            };
            let (offset, rest) = offset.split_once("h)").expect("an offset");
            let address = u32::from_str_radix(offset, 16).expect("a number");
            let refused = Answer { code: answer.code, address, ..Answer::default() };
            assert_eq!(*answer, refused, "{name}: {}", expected.text);
            assert!(matches!(answer.code, 3..=7 | 9), "{}", expected.text);
            assert!(record.kind().is_some_and(Kind::is_processor), "{record}");
            assert!(!rest.contains(&format!("window offset {offset}h")), "{}", expected.text);
            seen[usize::from(answer.code)] += 1;
        }
    }
    for code in [3, 4, 5, 6, 7, 9] {
        assert!(seen[code] >= 4, "code {code}: {}", seen[code]);
    }
}

/// Demand 3 stands: with two keys no offset differs, on a trace of nothing but refusals in the window after the lock.
#[test]
fn two_keys_have_the_same_offsets() {
    for (board, setup) in [("82810", "entry 18 A0000h\n"), ("82810-main", "write PGTBL_CTL A0001h\n")] {
        let accesses = "read4 WINDOW+152BCh\nsmm write4 WINDOW+152BCh 7\nread4 WINDOW+12ABCh\n";
        let list = format!("{DESK}{FENCE}{setup}config write dev0.SMRAM 4Eh\n{accesses}");
        let run = run_with(&["compare", "--board", board, "-"], list.as_bytes());
        assert_eq!((run.status, run.errors.as_str()), (DONE, ""));
        assert!(run.text.contains("3 records after the lock, no answer differs."), "{}", run.text);
    }
    let run = run(&["compare", &example("request-5-where-it-was-refused.trace")]);
    assert_eq!((run.status, run.errors.as_str()), (DONE, ""));
    assert!(run.text.contains("4 records after the lock, 1 answer differs"), "{}", run.text);
}

/// The audit names the entry of the first denied refusal, and of each code the one that was refused most often.
#[test]
fn an_audit_names_entry_and_offset() {
    let ring = "write LP_RING_START 7000h\nwrite LP_RING_TAIL 8\nwrite LP_RING_LENGTH 1\n";
    let list = format!(
        "{DESK}read4 WINDOW+12ABCh\nread4 WINDOW+13000h\nsmm read1 WINDOW+13FFFh\nread4 WINDOW+12000h\n\
         {FENCE}fetch4 WINDOW+152BCh\nwrite FENCE0 71h\nread4 WINDOW+152BCh\nwrite FENCE0 0\nentry 3 A0000h\n\
         read4 WINDOW+3ABCh\n{ring}run 1\nrun 1\nrun 1\nrun 1\nwrite PGTBL_CTL 0\nread4 WINDOW+0h\n"
    );
    for (deny, first) in [
        ("4", "6: refused 4: entry 18 (window offset 12ABCh) is not valid"),
        ("9", "13: refused 9: the matching fence (window offset 152BCh) is ill-formed"),
        ("6", "16: refused 6: page of entry 3 (window offset 3ABCh) is protected"),
        ("3", "25: refused 3: translation is off (window offset 0h)"),
    ] {
        for compare in [&[][..], &["--compare"]] {
            let run = run_with(&[&["audit", "--deny", deny], compare, &["-"]].concat(), list.as_bytes());
            assert_eq!(run.status, UNMET);
            assert!(run.errors.starts_with(&format!("mitrophel: standard input:{first} (denied)")), "{}", run.errors);
            // Parser runs, of which four are refused 4 at entry 7, have no offset.
            let most = [
                "  code  refused most at                   records",
                "     4  entry 18                                3",
            ];
            let most = format!("\n\n{}\n     6  entry 3                                 1\n", most.join("\n"));
            assert!(run.text.ends_with(&most), "{}", run.text);
        }
    }
    // Of entries that were refused equally often the first.
    let equal = format!("{DESK}read4 WINDOW+5000h\nread4 WINDOW+4000h\n");
    let told = run_with(&["audit", "-"], equal.as_bytes()).text;
    assert!(told.ends_with("     4  entry 4                                 1\n"), "{told}");
    let none = run_with(&["audit", "-"], DESK.as_bytes()).text;
    assert!(!none.contains("refused most at"), "{none}");
}

/// Where the table is in main memory, a register is refused 6 and 7 too. It has no offset, the window's first byte has.
#[test]
fn an_audit_tells_the_window_from_a_register() {
    let table = DESK.replace("PGTBL_CTL 1", "PGTBL_CTL A0001h");
    for (access, words) in [
        ("read4 WINDOW+0", "page or table word of entry 0 (window offset 0h) is protected"),
        ("read4 WINDOW+ABCh", "page or table word of entry 0 (window offset ABCh) is protected"),
        ("read GTT[0]", "entry's page or table word is protected"),
        ("smm write GTT[18] 7", "entry's page or table word is protected"),
    ] {
        let list = format!("{table}{access}\n");
        let run = run_with(&["audit", "--board=2", "--compare", "--deny=all", "-"], list.as_bytes());
        let first = format!("mitrophel: standard input:6: refused 6: {words} (denied)");
        assert_eq!((run.status, run.errors), (UNMET, first));
        assert_eq!(run.text.contains("refused most at"), access.contains("WINDOW"), "{}", run.text);
    }
}

/// What an answer holds, by its code.
#[test]
fn what_an_answer_holds_is_explained() {
    let paragraph = |code: u32| {
        let text = run(&["explain", &code.to_string()]).text;
        let answer = &text[text.find("\nAnswer ").expect("a paragraph")..text.find("\nExample").expect("an example")];
        answer.split_whitespace().collect::<Vec<_>>().join(" ")
    };
    for code in (2..=13).chain([16]) {
        let answer = paragraph(code);
        assert_eq!(answer.contains("the byte offset in the window after fencing"), (3..=7).contains(&code), "{answer}");
        assert_eq!(answer.contains("the byte offset in the window before fencing"), code == 9, "{answer}");
        assert_eq!(answer.contains("holds head and count instead."), (3..=7).contains(&code), "{answer}");
        assert_eq!(answer.contains("the ring's head and the count"), [8, 11, 12].contains(&code), "{answer}");
        assert_eq!(answer.contains("register has address 0"), [6, 7].contains(&code), "{answer}");
        let zero = "Answer The code and the interrupt line, all else zero.";
        assert_eq!(answer.starts_with(zero), [2, 10, 13, 16].contains(&code), "{answer}");
    }
    let when = run(&["explain", "not-valid"]).text.split_whitespace().collect::<Vec<_>>().join(" ");
    assert!(when.contains("Which entry it was, the answer tells: its address / 4096"), "{when}");
}

/// The manual page's refusals are those that are printed.
#[test]
fn the_manual_page_has_the_words_of_each_refusal() {
    let page = fs::read_to_string(concat!(env!("CARGO_MANIFEST_DIR"), "/mitrophel.1")).expect("the manual page");
    let section =
        &page[page.find("\n.SH REFUSALS\n").expect("a section")..page.find("\n.SH TEXT TRACE\n").expect("the next")];
    let fence = "write FENCE7 3F80071h\nread4 WINDOW+3F80000h\n";
    let mut printed = replay("82810", &["--only", "refused"], &format!("{DESK}{fence}")).text;
    for (setup, _) in REFUSED {
        printed += &replay("82810", &["--only", "refused"], &format!("{DESK}{setup}read4 WINDOW+12ABCh\n")).text;
    }
    printed += &replay("2", &["--only", "refused"], &format!("{DESK}{}read4 WINDOW+12ABCh\n", WORDS[0].0)).text;
    for (setup, _) in DISPLAY {
        printed += &replay("1", &["--only", "refused"], &format!("{DESK}{setup}read4 WINDOW+12ABCh\n")).text;
    }
    let locked = format!("{DESK}config write dev0.SMRAM 4Eh\nentry 10 A0000h\n");
    printed += &replay("82810", &["--only", "refused"], &locked).text;
    let refused: Vec<String> =
        section.lines().filter(|line| line.starts_with("refused ")).map(|line| line.replace("\\-", "-")).collect();
    assert_eq!(refused.len(), 10);
    for line in refused {
        let rule = if line.starts_with("refused 16") { "rule 7: registers" } else { "rule 8: the window" };
        assert!(printed.contains(&format!(" {line} ({rule}")), "{line}\n{printed}");
    }
}
