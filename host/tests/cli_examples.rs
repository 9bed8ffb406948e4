//! Every sample trace meets its own expectations, `mitrophel replay --check`; `--bless` writes them anew, to
//! be looked at in a diff. The demo's tale and the map stand in files beside, which
//! `MITROPHEL_WRITE_EXPECTED=1` writes.

mod cli;

use cli::{example, examples, folder, run, run_with, word, DONE, UNMET};
use mitrophel::{record, Answer, Kind, Record};
use std::fs;
use std::path::{Path, PathBuf};

macro_rules! samples {
    ($($test:ident: $trace:literal,)*) => {
        /// Every sample trace.
        const SAMPLES: &[&str] = &[$($trace,)*];

        $(#[test]
        fn $test() {
            meets_its_expectations($trace);
        })*
    };
}

samples! {
    section_the_board_and_its_host: "01-board-and-host",
    section_records_and_answers: "02-records-and-answers",
    section_codes: "03-codes",
    section_configuration_space: "04-configuration-space",
    section_where_an_address_goes: "05-where-an-address-goes",
    section_table_fences_ring_interrupts: "06-table-fences-ring-interrupts",
    section_the_two_runs_first: "07-two-runs-first",
    section_the_two_runs_second: "07-two-runs-second",
    section_what_every_signature_must_carry: "08-what-every-signature-must-carry",
    section_examples_at_the_edges: "09-examples-at-the-edges",
    section_easy_to_get_wrong: "10-easy-to-get-wrong",
    fault_of_the_first_model_an_entry_aimed_at_the_key: "fault-1-entry-aimed-at-the-key",
    fault_of_the_second_model_address_compared_before_translation: "fault-2-address-compared-before-translation",
    fault_of_the_third_model_pages_near_the_top: "fault-3-pages-near-the-top",
    fault_of_the_third_model_step_count_with_a_key_of_no_ops: "fault-3-step-count-no-ops",
    fault_of_the_third_model_step_count_with_a_key_of_interrupts: "fault-3-step-count-interrupts",
    request_2_cheaper_fences: "request-2-cheaper-fences",
    request_3_power_states: "request-3-power-states",
    request_5_where_it_was_refused: "request-5-where-it-was-refused",
    request_5_word_of_the_table: "request-5-word-of-the-table",
    request_6_one_gibibyte: "request-6-one-gibibyte",
    request_8_shadow_memory: "request-8-shadow-memory",
    request_8_table_in_main_memory: "request-8-table-in-main-memory",
    request_9_no_bad_entries: "request-9-no-bad-entries",
    request_9_table_in_main_memory: "request-9-table-in-main-memory",
    request_10_table_in_main_memory: "request-10-table-in-main-memory",
    request_11_display_cache: "request-11-display-cache",
    request_11_no_display_cache: "request-11-no-display-cache",
    the_desk_of_the_demo: "desk",
}

/// Every statement has an expectation, and every expectation is met.
fn meets_its_expectations(sample: &str) {
    let trace = examples().join(sample).with_extension("trace");
    let run = run(&replay(&trace, &word(&trace), &["--check"]));
    let text = fs::read_to_string(&trace).expect("a trace");
    let assembled = mitrophel::trace::assemble(&text).expect("a good trace");
    let mut statements = assembled.places;
    statements.dedup();
    let count = if sample == "desk" { assembled.expectations.len() } else { statements.len() };
    let summary = format!("{}: {count} expectations, all met\n", trace.display());
    assert_eq!((run.status, run.text, run.errors.as_str()), (DONE, summary, ""), "{sample}");
}

fn traces() -> impl Iterator<Item = PathBuf> {
    SAMPLES.iter().map(|sample| examples().join(sample).with_extension("trace"))
}

#[test]
fn every_trace_of_the_folder_is_tested() {
    let entries = fs::read_dir(examples()).expect("the folder of examples");
    let mut found: Vec<PathBuf> = entries.map(|entry| entry.expect("an entry").path()).collect();
    found.retain(|path| path.extension().is_some_and(|extension| extension == "trace"));
    found.sort();
    let mut tested: Vec<PathBuf> = traces().collect();
    tested.sort();
    assert_eq!(found, tested);
}

/// The options of a trace's first line, `# mitrophel replay OPTIONS examples/NAME.trace`.
fn options(trace: &Path) -> Vec<String> {
    let text = fs::read_to_string(trace).expect("a trace");
    let name = trace.file_name().expect("a name").to_string_lossy();
    let first = text.lines().next().expect("a first line");
    let line = first.strip_prefix("# mitrophel replay").unwrap_or_else(|| panic!("{name}: {first}"));
    let options = line.strip_suffix(&format!("examples/{name}")).unwrap_or_else(|| panic!("{name}: {first}"));
    options.split_whitespace().map(str::to_string).collect()
}

/// The words of `mitrophel replay` for a trace, or for another form of it.
fn replay(trace: &Path, file: &str, more: &[&str]) -> Vec<String> {
    let mut words = vec!["replay".to_string()];
    words.extend(options(trace));
    words.extend(more.iter().map(|more| more.to_string()));
    words.push(file.to_string());
    words
}

fn expect(file: &Path, found: &str) {
    if std::env::var_os("MITROPHEL_WRITE_EXPECTED").is_some() {
        fs::write(file, found).expect("an expected output is written");
    }
    let expected = fs::read_to_string(file).unwrap_or_else(|error| panic!("{}: {error}", file.display()));
    for (number, (found, expected)) in found.lines().zip(expected.lines()).enumerate() {
        assert_eq!(found, expected, "{}:{}", file.display(), number + 1);
    }
    assert_eq!(found.lines().count(), expected.lines().count(), "{}", file.display());
}

#[test]
fn the_binary_form_of_a_trace_gives_the_same_output() {
    let folder = folder("binary-form");
    for trace in traces() {
        let records = run(&["asm", &word(&trace)]).out;
        let binary = folder.join("list.rec");
        fs::write(&binary, &records).expect("a file is written");
        let text = run(&replay(&trace, &word(&trace), &[])).out;
        assert!(run(&replay(&trace, &word(&binary), &[])).out == text, "{}", trace.display());
        assert!(run_with(&replay(&trace, "-", &[]), &records).out == text, "{}", trace.display());
    }
}

#[test]
fn every_trace_goes_to_records_and_back_and_gives_the_same_bytes() {
    for trace in traces() {
        let records = run(&["asm", &word(&trace)]).out;
        for switches in [&[][..], &["--no-macros"], &["--no-comments"]] {
            let listing = run_with(&[&["disasm", "--show-protected"], switches, &["-"]].concat(), &records);
            assert_eq!((listing.status, listing.errors.as_str()), (DONE, ""));
            assert!(run_with(&["asm", "-"], &listing.out).out == records, "{}", trace.display());
        }
    }
}

fn answers(name: &str) -> (Vec<Record>, Vec<Answer>) {
    let trace = examples().join(name);
    let records = run(&["asm", &word(&trace)]).out;
    let run = run(&replay(&trace, &word(&trace), &["--answers", "-"]));
    assert_eq!(run.status, DONE, "{}", run.errors);
    (record::decode(&records).collect(), record::decode_answers(&run.out).collect())
}

/// "The two lists are equally long and equal byte for byte, except bytes 8-11 of management-mode writes
/// ... Answers are compared in all 16 bytes, except bytes 8-11 for a management-mode read".
#[test]
fn two_keys_differ_only_in_what_management_mode_writes_and_reads() {
    for pair in [
        ["07-two-runs-first.trace", "07-two-runs-second.trace"],
        ["fault-3-step-count-no-ops.trace", "fault-3-step-count-interrupts.trace"],
    ] {
        let [(records, first), (others, second)] = pair.map(answers);
        assert_eq!(records.len(), others.len());
        let (mut writes, mut reads) = (0, 0);
        for (number, (record, other)) in records.iter().zip(&others).enumerate() {
            if record != other {
                assert_eq!(Record { data: other.data, ..*record }, *other);
                assert!(record.is_management() && record.kind() == Some(Kind::Write));
                writes += 1;
            }
            if first[number] != second[number] {
                assert_eq!(Answer { value: second[number].value, ..first[number] }, second[number], "{record}");
                assert!(record.is_management() && record.kind() != Some(Kind::Write), "{record}");
                reads += 1;
            }
        }
        assert!(writes >= 3 && reads >= 1, "{pair:?}: {writes} writes, {reads} reads");
        let counts = |answers: &[Answer]| answers.iter().map(|answer| answer.count).collect::<Vec<_>>();
        assert_eq!(counts(&first), counts(&second));
        assert!(counts(&first).contains(&1024));
    }
}

/// Request 10 of document 02: "Add board kinds 2 (82810) and 3 (DC100)". They differ in their ids, and in the display
/// cache, which is off here; and kind 0 does what document 01 says, table and all.
#[test]
fn the_boards_with_the_table_in_main_memory_differ_in_their_ids() {
    let trace = examples().join("request-10-table-in-main-memory.trace");
    let text = fs::read_to_string(&trace).expect("a trace");
    let check = |board: &str, text: &str| run_with(&["replay", "--check", "--board", board, "-"], text.as_bytes());
    let dc100 = [
        ("dev0.DID = 7120h", "dev0.DID = 7122h"),
        ("dev1.DID = 7121h", "dev1.DID = 7123h"),
        ("type 01, display cache (", "type 01, display cache, which is off: DRT bit 0 is 0 ("),
    ];
    let dc100 = dc100.iter().fold(text.clone(), |text, (old, new)| text.replace(old, new));
    for (board, text) in [("82810-main", &text), ("dc100-main", &dc100), ("2", &text), ("3", &dc100)] {
        let run = check(board, text);
        assert_eq!((run.status, run.errors.as_str()), (DONE, ""), "{board}: {}", run.text);
    }
    assert_eq!(check("dc100-main", &text).text.matches("\n+ ").count(), 3);
    let private = check("82810", &text);
    assert_eq!((private.status, private.errors.as_str()), (UNMET, ""));
    for part in
        ["+ memory 200048h = 00000000h (rule 4: below U, 680000h)\n", "+ registers at their defaults, table zeroed\n"]
    {
        assert!(private.text.contains(part), "{part}\n{}", private.text);
    }
}

/// Request 6 of document 02: the sample has the same answers whatever the board, and needs the whole length.
#[test]
fn one_gibibyte_is_what_the_sample_needs() {
    let trace = example("request-6-one-gibibyte.trace");
    let [private, in_memory] = ["82810", "dc100-main"].map(|board| {
        let run = run(&["replay", "--memory", "1024M", "--board", board, "--answers", "-", &trace]);
        assert_eq!((run.status, run.errors.as_str()), (DONE, ""), "{board}");
        run.out
    });
    assert!(private == in_memory);
    for length in ["512M", "1016M"] {
        let run = run(&["replay", "--check", "--memory", length, &trace]);
        assert_eq!((run.status, run.errors.as_str()), (UNMET, ""), "{length}");
        for part in ["\n- memory 3FFFFFFCh = 00001024h (rule 4", "\n+ refused 7: page 3FFFF000h of entry 1 "] {
            assert!(run.text.contains(part), "{length}: {part}\n{}", run.text);
        }
    }
}

/// Request 11 of document 02: what the display cache answers does not depend on the table's home, and the other boards
/// have none.
#[test]
fn a_display_cache_is_the_dc100s_wherever_the_table_is() {
    let trace = example("request-11-display-cache.trace");
    let answers = |board: &str| -> Vec<Answer> {
        let run = run(&["replay", "--board", board, "--answers", "-", &trace]);
        assert_eq!((run.status, run.errors.as_str()), (DONE, ""), "{board}");
        record::decode_answers(&run.out).collect()
    };
    let reached = |answers: &[Answer]| answers.iter().filter(|answer| answer.target == 6).count();
    let [private, in_memory] = ["dc100", "dc100-main"].map(answers);
    assert!(private == in_memory);
    assert!(reached(&private) > 20);
    assert_eq!(["82810", "82810-main"].map(|board| reached(&answers(board))), [0, 0]);
    let other = example("request-11-no-display-cache.trace");
    let [private, in_memory] = ["82810", "82810-main"].map(|board| {
        let run = run(&["replay", "--board", board, "--answers", "-", &other]);
        assert_eq!((run.status, run.errors.as_str()), (DONE, ""), "{board}");
        run.out
    });
    assert!(private == in_memory);
    let run = run(&["replay", "--board", "dc100", "--check", &other]);
    assert_eq!((run.status, run.errors.as_str()), (UNMET, ""));
}

#[test]
fn the_demo_tells_its_expected_tale() {
    let run = run(&["demo"]);
    assert_eq!((run.status, run.errors.as_str()), (DONE, ""));
    expect(&examples().join("demo.expected"), &run.text);
    assert!(run.text.lines().all(|line| line.chars().count() <= 80), "a line is longer than 80 columns");
    assert!(run.text.contains("refused 6: page A0000h of entry 10 (window offset\n"));
}

#[test]
fn the_map_after_the_desk_is_as_expected() {
    let folder = folder("map");
    let picture = folder.join("map.svg");
    let run = run(&["map", "--svg", &word(&picture), &example("desk.trace")]);
    assert_eq!((run.status, run.errors.as_str()), (DONE, ""));
    expect(&examples().join("desk.map.expected"), &run.text);
    expect(&examples().join("desk.map.svg"), &fs::read_to_string(picture).expect("a picture"));
}
