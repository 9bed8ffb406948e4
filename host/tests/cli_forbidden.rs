//! Code 16, request 9 of document 02: a table write refused at the store, as every command tells it.

mod cli;

use cli::{example, run, run_with, DONE, UNMET};
use mitrophel::Board;
use std::fs;

/// Window and registers on, A0000h-BFFFFh protected, the table at 200000h where it is in main memory.
const DESK: &str = "config write dev0.SMRAM 4Ch\nconfig write dev1.GMADR C0000000h\n\
                    config write dev1.MMADR F0000000h\nconfig write dev1.PCICMD 2\nwrite PGTBL_CTL 200001h\n";
const LOCK: &str = "config write dev0.SMRAM 4Eh\n";

/// The last lines that a replay prints, one for each of so many records.
fn last(board: &str, options: &[&str], list: &str, lines: usize) -> Vec<String> {
    let run = run_with(&[&["replay", "--board", board], options, &["-"]].concat(), list.as_bytes());
    assert_eq!((run.status, run.errors.as_str()), (DONE, ""), "{list}");
    let printed: Vec<String> = run.text.lines().map(str::to_string).collect();
    printed[printed.len() - lines..].to_vec()
}

/// The answer has no address, so entry and page are the record's; of the page those bits that are stored.
#[test]
fn a_refused_store_is_told_by_entry_and_page() {
    let accesses = "entry 10 A0000h\nwrite GTT[0] C00BFFFFh\nsmm write GTT[16383] A0001h\n";
    for board in Board::ALL.map(Board::name) {
        let list = format!("{DESK}{LOCK}{accesses}");
        let told = last(board, &[], &list, 3);
        for (line, (entry, page)) in told.iter().zip([(10, "A0000h"), (0, "BF000h"), (16383, "A0000h")]) {
            let outcome = format!("refused 16: entry {entry} would name protected page {page}, and SMRAM is locked");
            assert!(line.contains(&format!(" {outcome} (rule 7: registers)")), "{board}: {line}");
        }
        assert!(told[0].contains("write GTT[10] 000A0001h"), "{}", told[0]);
        let json = &last(board, &["--json"], &list, 3)[0];
        for field in ["\"data\":655361", "\"code\":16", "\"refusal\":\"forbidden\"", "\"at\":0", "\"redacted\":false"] {
            assert!(json.contains(field), "{field}: {json}");
        }
        let csv = &last(board, &["--csv"], &list, 3)[2];
        assert!(csv.contains(",16,forbidden,none,"), "{csv}");
        for only in ["forbidden", "16", "FORBIDDEN"] {
            assert_eq!(last(board, &["--only", only], &list, 3), told);
        }
        let unlocked = last(board, &[], &format!("{DESK}{accesses}"), 3);
        assert!(unlocked.iter().all(|line| line.contains(" is now ")), "{unlocked:?}");
    }
}

/// A0000h-BFFFFh is protected at another time, and the word that would be stored there is not for everybody.
#[test]
fn the_page_is_hidden_where_its_word_is() {
    let list = format!(
        "{DESK}reset\nconfig write dev0.SMRAM 76h\nconfig write dev1.MMADR F0000000h\nconfig write dev1.PCICMD 2\n\
         write PGTBL_CTL A0001h\nwrite GTT[18] 712001h\n"
    );
    let told = |board: &str, options: &[&str]| last(board, options, &list, 1).remove(0);
    let hidden = told("82810-main", &[]);
    let outcome = |page: &str| format!("refused 16: entry 18 would name protected page {page}, and SMRAM is locked");
    assert!(hidden.contains("write GTT[18] ··") && hidden.contains(&outcome("··")), "{hidden}");
    assert!(told("82810-main", &["--show-protected"]).contains(&outcome("712000h")));
    assert!(told("82810", &[]).contains(&outcome("712000h")), "a private table is no memory");
    for format in ["--json", "--csv"] {
        let printed = told("dc100-main", &[format]);
        assert!(printed.contains(&outcome("··")), "{printed}");
        for part in ["712", "7413761"] {
            assert!(!printed.contains(part), "{part}: {printed}");
        }
    }
    // An audit, which does not know what is protected later, names no page.
    let audit = run_with(&["audit", "--board", "82810-main", "--deny", "16", "-"], list.as_bytes());
    assert_eq!(audit.status, UNMET);
    let denied = "standard input:11: refused 16: entry 18 would name a protected page, and SMRAM is locked (denied)";
    assert_eq!(audit.errors, format!("mitrophel: {denied}"));
}

#[test]
fn an_audit_counts_and_names_entries_refused_at_the_store() {
    let list = format!("{DESK}{LOCK}entry 7 A0000h\nentry 10 A0000h\nentry 7 100000h\nentry 10 BF000h\n");
    for board in Board::ALL.map(Board::name) {
        for deny in ["forbidden", "16", "all"] {
            let words = ["audit", "--compare", "--board", board, "--deny", deny, "-"];
            let run = run_with(&words, list.as_bytes());
            assert_eq!(run.status, UNMET, "{}", run.errors);
            let lines: Vec<&str> = run.errors.lines().collect();
            let first = "refused 16: entry 7 would name a protected page, and SMRAM is locked (denied)";
            assert_eq!(lines[0], format!("mitrophel: standard input:7: {first}"), "{board}");
            assert_eq!(lines[1], "mitrophel: standard input: 2 more denied refusals");
            assert!(run.text.contains("    16  forbidden                               3  denied\n"), "{}", run.text);
            assert!(run.text.ends_with("    16  entry 10                                2\n"), "{}", run.text);
        }
        let run = run_with(&["audit", "--board", board, "--deny", "protected", "-"], list.as_bytes());
        assert_eq!((run.status, run.errors.as_str()), (DONE, ""));
    }
}

/// What management mode writes to the key and what is refused at the store stay apart, whatever the key.
#[test]
fn two_keys_are_refused_the_same_stores() {
    let accesses = "smm write4 A0ABCh 59454B21h\nentry 10 A0000h\nsmm write GTT[11] A0001h\nread GTT[10]\n\
                    smm read4 A0ABCh\n";
    for board in Board::ALL.map(Board::name) {
        let run = run_with(&["compare", "--board", board, "-"], format!("{DESK}{LOCK}{accesses}").as_bytes());
        assert_eq!((run.status, run.errors.as_str()), (DONE, ""), "{board}");
        assert!(run.text.contains("5 records after the lock, 1 answer differs, a value that "), "{}", run.text);
    }
    for (board, name) in [("dc100", "no-bad-entries"), ("82810-main", "table-in-main-memory")] {
        let run = run(&["compare", "--board", board, &example(&format!("request-9-{name}.trace"))]);
        assert_eq!((run.status, run.errors.as_str()), (DONE, ""), "{board}");
        assert!(run.text.contains(" 1 answer differs, a value that management mode read\n"), "{}", run.text);
    }
}

/// The row of `state` that counts entries of protected pages.
fn counted(board: &str, list: &str) -> Option<String> {
    let run = run_with(&["state", "--board", board, "-"], list.as_bytes());
    assert_eq!((run.status, run.errors.as_str()), (DONE, ""), "{list}");
    assert!(run.text.lines().all(|line| line.chars().count() <= 80), "{}", run.text);
    let row = run.text.lines().find_map(|line| line.strip_prefix("  of protected pages    "))?;
    Some(row.split_whitespace().collect::<Vec<_>>().join(" "))
}

/// What an auditor asks: entries from before the lock are counted, and in main memory what ordinary writes put there.
#[test]
fn the_state_counts_entries_of_protected_pages_once_locked() {
    let none = "entry 10 9F000h\nwrite GTT[11] A0000h\nwrite GTT[12] A0003h\n";
    let bad = "entries 20..21 A0000h\nwrite GTT[30] BF007h\n";
    for (board, clean, after) in [
        ("82810", "none and none can come: SMRAM is locked", "3 entries from before the lock"),
        ("dc100", "none and none can come: SMRAM is locked", "3 entries from before the lock"),
        ("82810-main", "none ordinary writes may put one there", "3 entries from before, or by ordinary writes"),
        ("dc100-main", "none ordinary writes may put one there", "3 entries from before, or by ordinary writes"),
    ] {
        assert_eq!(counted(board, &format!("{DESK}{none}{bad}")), None, "{board}: not locked");
        assert_eq!(counted(board, &format!("{DESK}{none}{LOCK}")).as_deref(), Some(clean), "{board}");
        assert_eq!(counted(board, &format!("{DESK}{none}{bad}{LOCK}")).as_deref(), Some(after), "{board}");
        assert_eq!(counted(board, &format!("{DESK}{LOCK}{none}{bad}")).as_deref(), Some(clean), "{board}: refused");
        let one = counted(board, &format!("{DESK}{LOCK}write4 200050h A0001h\n"));
        let expected = if board.ends_with("main") { "1 entry from before, or by ordinary writes" } else { clean };
        assert_eq!(one.as_deref(), Some(expected), "{board}: an ordinary write");
    }
    // Words in memory that is protected at another time are not for everybody.
    let moved = "reset\nconfig write dev0.SMRAM 76h\nconfig write dev1.MMADR F0000000h\nconfig write dev1.PCICMD 2\n";
    for (table, expected) in [
        ("A0000h", "none of those shown ordinary writes may put one there"),
        ("9F000h", "1 of those shown from before"),
    ] {
        let words = "write4 9F004h 700001h\nwrite4 A0004h 700001h\n";
        let row = counted("82810-main", &format!("{DESK}{moved}write PGTBL_CTL {table}\n{words}"));
        assert!(row.as_ref().is_some_and(|row| row.starts_with(expected)), "{table}: {row:?}");
    }
}

/// The map asks the proved call with entries of its own, which the lock does not keep out.
#[test]
fn a_locked_board_has_the_map_of_an_unlocked_one() {
    for board in Board::ALL.map(Board::name) {
        let rows = |smram: &str| -> Vec<String> {
            let run = run(&["map", "--board", board, "--smram", smram, "--registers", "F0000000h"]);
            assert_eq!((run.status, run.errors.as_str()), (DONE, ""));
            run.text.lines().filter(|line| line.contains('-') && line.contains("(")).map(str::to_string).collect()
        };
        let [open, locked] = ["BCh", "BEh"].map(rows);
        assert_eq!(open, locked);
        assert_eq!(locked.iter().filter(|row| row.starts_with("* ") && row.contains("refused 6")).count(), 2);
    }
}

#[test]
fn code_16_is_explained_where_codes_are() {
    let words = |text: &str| text.split_whitespace().collect::<Vec<_>>().join(" ");
    let told = words(&run(&["explain", "forbidden"]).text);
    for part in [
        "16 forbidden: SMRAM is locked and the entry's page is protected",
        "its data AND 3FFFF007h, that is valid (bit 0), of main memory (bits 2:1 are 00 or 11)",
        "Which entry it was, the record tells:",
        "Any other word is stored: one that is not valid, of type 01 or 10, of a page at or above the top of memory",
        "refused when it is used, with 6.",
    ] {
        assert!(told.contains(part), "{part}\n{told}");
    }
    let six = words(&run(&["explain", "6"]).text);
    assert!(six.contains("refused already, with 16; the check when it is used remains"), "{six}");
    assert!(words(&run(&["audit", "--help"]).text).contains("13 layout, 16 forbidden; 'all' is every kind."));
    assert!(words(&run(&["explain", "--help"]).text).contains("a number, 1 to 13 or 16, or a short name"));
    assert!(run(&["explain", "14"]).errors.contains("expected a code, 1 to 13, 16 or arguments, "));
    let page = fs::read_to_string(concat!(env!("CARGO_MANIFEST_DIR"), "/mitrophel.1")).expect("the manual page");
    for part in [".BR forbidden ,\nor the codes 2 to 13 and 16 in this order", "refused with code 16", "1 to 13 or 16,"]
    {
        assert!(page.contains(part), "{part}");
    }
}
