//! Request 11 of document 02 on the command line: a DC100's display cache at the start and at the end, in the map and in the
//! state, in answers, explanations and listings.

mod cli;

use cli::{example, folder, names, run, run_with, word, DONE, FILE, INPUT, UNMET, USAGE};
use mitrophel::{record, Board, DISPLAY_BYTES};
use std::fs::{self, File};
use std::os::unix::fs::PermissionsExt;
use std::path::Path;
use std::process::Stdio;

/// A0000h-BFFFFh for management mode; window, registers, translation and display cache on; entries 0 and 1 are the cache's
/// first and last page, entry 2 is its page at A0000h. The table is at 300000h where it is in main memory.
const DESK: &str = "config write dev0.SMRAM 4Ch\nconfig write dev1.GMADR C0000000h\n\
                    config write dev1.MMADR F0000000h\nconfig write dev1.PCICMD 2\nwrite PGTBL_CTL 300001h\n\
                    write DRT 1\nwrite GTT[0] 3h\nwrite GTT[1] 3FF003h\nwrite GTT[2] A0003h\n";

const WITH: [&str; 2] = ["dc100", "dc100-main"];
const WITHOUT: [&str; 2] = ["82810", "82810-main"];

/// The commands that lend memory.
const COMMANDS: [&str; 5] = ["replay", "state", "map", "audit", "compare"];

/// A display cache in which the word at each of its two ends and at A0ABCh says where it is.
fn cache() -> Vec<u8> {
    let mut cache = vec![0; DISPLAY_BYTES];
    for (at, value) in [(0, 0x0000_1111_u32), (0xA_0ABC, 0x0000_2222), (DISPLAY_BYTES - 4, 0x0000_3333)] {
        cache[at..at + 4].copy_from_slice(&value.to_le_bytes());
    }
    cache
}

/// A file of these bytes, as a word.
fn file(folder: &Path, name: &str, bytes: &[u8]) -> String {
    let path = folder.join(name);
    fs::write(&path, bytes).expect("a file");
    word(&path)
}

/// What a command says of a trace that comes from standard input.
fn said(words: &[&str], trace: &str) -> String {
    let run = run_with(&[words, &["-"]].concat(), trace.as_bytes());
    assert_eq!((run.status, run.errors.as_str()), (DONE, ""), "{words:?}");
    run.text
}

fn expect_lines(text: &str, lines: &[&str]) {
    for line in lines {
        assert!(text.lines().any(|found| found == *line), "{line}\n{text}");
    }
}

/// Text without its line ends.
fn joined(text: &str) -> String {
    text.split_whitespace().collect::<Vec<_>>().join(" ")
}

#[test]
fn the_display_cache_starts_as_the_file_has_it_or_zero() {
    let folder = folder("display-start");
    let image = file(&folder, "cache", &cache());
    let trace =
        file(&folder, "trace", format!("{DESK}read4 WINDOW+0\nread4 WINDOW+1FFCh\nread4 WINDOW+2ABCh\n").as_bytes());
    let values = |words: &[&str], stdin: Stdio| -> Vec<u32> {
        let mut command = cli::program();
        command.args(["replay", "--answers", "-"]).args(words).arg(&trace).stdin(stdin);
        let run = cli::finished(command.output().expect("the program ends"));
        assert_eq!((run.status, run.errors.as_str()), (DONE, ""), "{words:?}");
        let answers: Vec<_> = record::decode_answers(&run.out).collect();
        let last = &answers[answers.len() - 3..];
        assert!(last.iter().all(|answer| answer.target == 6), "{last:?}");
        assert_eq!([0, 1, 2].map(|at| last[at].address), [0, 0x3F_FFFC, 0xA_0ABC]);
        last.iter().map(|answer| answer.value).collect()
    };
    for board in WITH {
        assert_eq!(values(&["--board", board], Stdio::null()), [0, 0, 0]);
        assert_eq!(values(&["--board", board, "--display", &image], Stdio::null()), [0x1111, 0x3333, 0x2222]);
        let piped = File::open(&image).expect("the file");
        assert_eq!(values(&["--board", board, "--display=-"], piped.into()), [0x1111, 0x3333, 0x2222]);
    }
}

/// Of the two memories each has its own dump, and each is what the other call goes on from.
#[test]
fn a_dump_of_the_display_cache_is_whole_and_can_be_gone_on_from() {
    let folder = folder("display-dump");
    let (image, dump, memory) = (file(&folder, "cache", &cache()), folder.join("dump"), folder.join("memory"));
    let writes = format!("{DESK}write4 WINDOW+10h 4444h\nwrite1 WINDOW+1FFFh 55h\nwrite4 A0010h 7\nwrite4 10h 6666h\n");
    let mut expected = cache();
    expected[0x10..0x12].copy_from_slice(&[0x44, 0x44]);
    expected[DISPLAY_BYTES - 1] = 0x55;
    for board in WITH {
        let outputs = ["--dump", &word(&memory), "--dump-display", &word(&dump)];
        let told = said(&[&["replay", "--board", board, "--display", &image], &outputs[..]].concat(), &writes);
        assert!(told.contains("display cache 3FFFFFh takes 55h"), "{told}");
        assert!(fs::read(&dump).expect("the dump") == expected, "{board}");
        let main = fs::read(&memory).expect("the dump");
        assert_eq!((main.len(), &main[0x10..0x14]), (8 << 20, &[0x66, 0x66, 0, 0][..]));
        assert!(main[0x3F_FFFC..0x40_0000] == [0; 4]);
        // It is never protected, though main memory is at its addresses.
        let mode = |path: &Path| fs::metadata(path).expect("a file").permissions().mode() & 0o777;
        assert_eq!(mode(&memory), 0o600);
        assert_eq!(mode(&dump), mode(&folder.join("cache")));
        assert_eq!(names(&folder), ["cache", "dump", "memory"]);
        // In its own place.
        let again = ["--display", &word(&dump), "--dump-display", &word(&dump)];
        said(&[&["replay", "--board", board], &again[..]].concat(), &format!("{DESK}write1 WINDOW+2000h 77h\n"));
        let mut later = expected.clone();
        later[0xA_0000] = 0x77;
        assert!(fs::read(&dump).expect("the dump") == later, "{board}");
        fs::remove_file(&dump).expect("the dump goes");
        fs::remove_file(&memory).expect("the dump goes");
    }
    // To standard output, if the answers go elsewhere.
    let answers = word(&folder.join("answers"));
    let words = ["replay", "--board=1", "--display", &image, "--answers", &answers, "--dump-display", "-", "-"];
    let run = run_with(&words, writes.as_bytes());
    assert_eq!((run.status, run.errors.as_str()), (DONE, ""));
    assert!(run.out == expected);
}

/// A reset and the cold start of a second call leave the display cache.
#[test]
fn a_long_list_keeps_the_display_cache_from_call_to_call() {
    let filler = "read4 1000h\n".repeat(40_000);
    let list = format!("{DESK}write4 WINDOW+4 C0FFEEh\nreset\n{filler}reset\n{filler}reset\n{DESK}read4 WINDOW+4\n");
    let audit = said(&["audit", "--compare", "--board=dc100"], &list);
    assert!(audit.contains(" in 2 calls, "), "{audit}");
    let told = said(&["replay", "--board=dc100", "--only=display"], &list);
    assert_eq!(told.lines().count(), 2, "{told}");
    assert!(
        told.contains("display cache 4h takes 00C0FFEEh") && told.contains("display cache 4h = 00C0FFEEh"),
        "{told}"
    );
}

/// Shorter, longer and endless files, no file, and boards that have no display cache: nothing is written.
#[test]
fn a_wrong_display_cache_is_told_and_nothing_is_written() {
    let folder = folder("display-wrong");
    let trace = file(&folder, "trace", b"config write dev0.SMRAM 4Eh\n");
    let short = file(&folder, "short", &vec![0; DISPLAY_BYTES - 1]);
    let long = file(&folder, "long", &vec![0; DISPLAY_BYTES + 1]);
    let (empty, gone) = (file(&folder, "empty", b""), word(&folder.join("gone")));
    let good = file(&folder, "good", &cache());
    let before = names(&folder);
    let outputs: Vec<String> = ["answers", "dump", "dump-display"]
        .into_iter()
        .flat_map(|name| [format!("--{name}"), word(&folder.join(name))])
        .collect();
    for command in COMMANDS {
        let outputs: Vec<&str> = outputs.iter().filter(|_| command == "replay").map(String::as_str).collect();
        let expected = "expected 4194304 bytes, the display cache's length, found";
        for (board, image, status, part) in [
            ("dc100", &short, INPUT, format!("short: {expected} 4194303 bytes")),
            ("dc100-main", &long, INPUT, format!("long: {expected} more")),
            ("1", &empty, INPUT, format!("empty: {expected} 0 bytes")),
            ("3", &"/dev/zero".to_string(), INPUT, format!("/dev/zero: {expected} more")),
            ("dc100", &gone, FILE, "gone: No such file or directory".to_string()),
            ("82810", &good, USAGE, "--display: board 82810 has no display cache; dc100 and dc100-main have".into()),
            ("82810-main", &good, USAGE, "--display: board 82810-main has no display cache; dc100 and".into()),
            ("82810", &gone, USAGE, "--display: board 82810 has no display cache".into()),
        ] {
            let words = [&[command, "--board", board, "--display", image], &outputs[..], &[&trace]].concat();
            let run = run(&words);
            assert_eq!((run.status, run.text.as_str()), (status, ""), "{words:?}: {}", run.errors);
            assert!(run.errors.starts_with("mitrophel: ") && run.errors.contains(&part), "{words:?}: {}", run.errors);
            assert_eq!(names(&folder), before, "{words:?}");
        }
    }
    assert!(fs::read(&good).expect("the file") == cache());
}

#[test]
fn wrong_dumps_of_the_display_cache_are_told_and_nothing_is_written() {
    let folder = folder("display-outputs");
    let trace = file(&folder, "trace", b"reset\n");
    let (image, display) = (file(&folder, "image", &[1]), file(&folder, "cache", &cache()));
    let before = names(&folder);
    let (one, two, bad) = (word(&folder.join("one")), word(&folder.join("two")), word(&folder.join("no").join("file")));
    let read = ["--memory=8M", "--image", &image, "--display", &display];
    for (words, status, part) in [
        (&["--dump-display", &bad][..], FILE, "file: No such file or directory"),
        (&["--answers", &one, "--dump", &two, "--dump-display", &bad], FILE, "file: No such file or directory"),
        (&["--answers", &bad, "--dump", &two, "--dump-display", &one], FILE, "file: No such file or directory"),
        (&["--dump-display", &word(&folder)], FILE, "is a directory"),
        (&["--dump", &one, "--dump-display", &one], USAGE, "--dump and --dump-display name the same file"),
        (&["--answers", &one, "--dump-display", &one], USAGE, "--answers and --dump-display name the same file"),
        (&["--dump-display", "-"], USAGE, "--dump-display - needs --answers FILE, since the answers are printed"),
        (&["--check", "--answers", &one, "--dump-display=-"], USAGE, "--dump-display - would stand among what is"),
        (&["--dump-display", &trace], USAGE, "--dump-display names a file that is read: "),
        (&["--dump-display", &image], USAGE, "--dump-display names a file that is read: "),
        (&["--dump", &display], USAGE, "--dump names a file that is read: "),
        (&["--answers", &display], USAGE, "--answers names a file that is read: "),
        (&["--redact", "--dump-display", &one], USAGE, "--redact is about the dump: give --dump FILE"),
    ] {
        let words = [&["replay", "--board=dc100"], &read[..], words, &[&trace]].concat();
        let run = run(&words);
        assert_eq!(run.status, status, "{words:?}: {}", run.errors);
        assert!(run.errors.to_lowercase().contains(&part.to_lowercase()), "{words:?}: {}", run.errors);
        assert_eq!(names(&folder), before, "{words:?}");
    }
    let svg = run(&["map", "--board=3", "--display", &display, "--svg", &display]);
    assert_eq!(svg.status, USAGE);
    assert!(svg.errors.contains("--svg names a file that is read: "), "{}", svg.errors);
    for board in WITHOUT {
        let run = run(&["replay", "--board", board, "--dump-display", &one, &trace]);
        assert_eq!((run.status, run.text.as_str()), (USAGE, ""));
        let part = format!("--dump-display: board {board} has no display cache; dc100 and dc100-main have one");
        assert!(run.errors.contains(&part), "{}", run.errors);
    }
    assert_eq!(names(&folder), before);
    assert!(fs::read(&display).expect("the file") == cache());
}

/// Every command looks at the same content: the ring of a list is in it.
#[test]
fn every_command_lends_the_display_cache() {
    let folder = folder("display-commands");
    let mut bytes = cache();
    bytes[..12].copy_from_slice(&[0, 0, 0, 1, 0, 0, 0, 2, 0, 0, 0, 0]);
    let image = file(&folder, "cache", &bytes);
    let ring = "write LP_RING_LENGTH 1\nwrite LP_RING_TAIL 10h\n";
    for board in WITH {
        let options = ["--board", board, "--display", &image];
        let state = said(&[&["state"], &options[..]].concat(), &format!("{DESK}{ring}"));
        let lines = [
            "  00000h         0h       1  user_interrupt, in the display cache",
            "  00004h         4h       1  flush, in the display cache",
            "  00008h         8h       2  noop, in the display cache",
        ];
        expect_lines(&state, &lines);
        let list = format!("{DESK}{ring}run 4\nread4 WINDOW+1FFCh\n");
        for compare in [&["audit"][..], &["audit", "--compare"]] {
            let audit = said(&[compare, &options].concat(), &list);
            assert!(audit.starts_with("1 file, ") && audit.contains(", 4 parser steps\n"), "{audit}");
            assert!(audit.contains("\n     6  display cache                           1\n"), "{audit}");
        }
        let map = said(&[&["map"], &options[..]].concat(), &list);
        assert!(map.contains("display cache 003FF000-003FFFFF"), "{map}");
        let list = list.replace("run 4", "config write dev0.SMRAM 4Eh\nrun 4");
        let compare = joined(&said(&[&["compare"], &options[..]].concat(), &list));
        assert!(compare.contains("2 records after the lock, no answer differs."), "{compare}");
        assert!(compare.contains("12,451,840 unprotected bytes, "), "{compare}");
    }
}

/// Its size, whether it is on, and how entries reach it.
#[test]
fn the_map_shows_the_display_cache() {
    let (on, off) = (
        "Display cache: 4 MiB, on: DRT bit 0 is 1; entries of type 01 reach its pages, 0h to 3FF000h.",
        "Display cache: 4 MiB, off: DRT bit 0 is 0; every entry of type 01 is refused 5.",
    );
    let entries = format!("{DESK}write GTT[3] 400003h\nwrite GTT[4] 5h\nentry 5 A0000h\n");
    for board in WITH {
        let cold = run(&["map", "--board", board]);
        assert_eq!((cold.status, cold.errors.as_str()), (DONE, ""));
        assert!(joined(&cold.text).contains(off), "{}", cold.text);
        let map = said(&["map", "--board", board], &entries);
        assert!(joined(&map).contains(on), "{map}");
        let lines = [
            "  window 0000000-0000FFF  entry 0               display cache 00000000-00000FFF",
            "  window 0001000-0001FFF  entry 1               display cache 003FF000-003FFFFF",
            "  window 0002000-0002FFF  entry 2               display cache 000A0000-000A0FFF",
            "  window 0003000-0003FFF  entry 3               refused 7: display cache 00400000-00400FFF",
            "  window 0004000-0004FFF  entry 4               refused 5: type 10",
            "  window 0005000-0005FFF  entry 5               refused 6: 000A0000-000A0FFF",
        ];
        expect_lines(&map, &lines);
        let map = said(&["map", "--board", board], &format!("{entries}write DRT FEh\n"));
        assert!(joined(&map).contains(off), "{map}");
        expect_lines(&map, &["  window 0000000-0000FFF  entry 0               refused 5: type 01"]);
        // The registers need not be where they were, nor graphics on.
        let map = said(&["map", "--board", board], &format!("{entries}config write dev0.SMRAM 0\n"));
        assert!(joined(&map).contains(on), "{map}");
        let picture = said(&["map", "--svg=-", "--board", board], &entries);
        assert!(picture.contains(&format!(">{on}</text>")), "{picture}");
    }
    for board in WITHOUT {
        let map = said(&["map", "--board", board], &entries);
        assert!(!map.to_lowercase().contains("display cache"), "{map}");
        expect_lines(&map, &["  window 0000000-0000FFF  entry 0               refused 5: type 01"]);
    }
}

#[test]
fn the_state_shows_the_display_cache_its_registers_and_its_entries() {
    let trace = format!("{DESK}write DRAMCL 5Ah\nwrite GTT[3] 400003h\nwrite GTT[4] 5h\nentry 5 A0000h\n");
    for board in WITH {
        let on = said(&["state", "--board", board], &trace);
        let lines = [
            "  display      400000h  the display cache's length; it is on: DRT bit 0 is 1",
            "  3000h  DRT                   01h  display cache on: type 01 reaches it",
            "  3001h  DRAMCL                5Ah",
            "  3002h  DRAMCH                08h",
            "  entry 0               0h-FFFh              display cache (type 01)",
            "  entry 1               3FF000h-3FFFFFh      display cache (type 01)",
            "  entry 2               A0000h-A0FFFh        display cache (type 01)",
            "  entry 3               400000h-400FFFh      refused 7: past the display cache",
            "  entry 4               0h-FFFh              refused 5: type 10",
            "  entry 5               A0000h-A0FFFh        refused 6: protected main memory",
        ];
        expect_lines(&on, &lines);
        let off = said(&["state", "--board", board], &format!("{trace}write DRT 0\n"));
        let lines = [
            "  display      400000h  the display cache's length; it is off: DRT bit 0 is 0",
            "  3000h  DRT                   00h  display cache off: type 01 is refused 5",
            "  entry 0               0h-FFFh              refused 5: display cache is off",
            "  entry 3               400000h-400FFFh      refused 5: display cache is off",
        ];
        expect_lines(&off, &lines);
        for text in [on, off] {
            assert!(text.lines().all(|line| line.chars().count() <= 80), "{text}");
        }
    }
    for board in WITHOUT {
        let text = said(&["state", "--board", board], &trace);
        assert!(!text.contains("3000h") && !text.contains("DRAMC") && !text.contains("display  "), "{text}");
        expect_lines(&text, &["  entry 0               0h-FFFh              refused 5: display cache (type 01)"]);
    }
}

/// A ring that goes on from main memory into the display cache at the next address is two runs of words.
#[test]
fn the_states_ring_tells_the_two_memories_apart() {
    let ring = "entry 16 FF000h\nwrite GTT[17] 100003h\nentry 18 101000h\nwrite LP_RING_START 10000h\n\
                write LP_RING_LENGTH 2001h\nwrite LP_RING_TAIL 2FF8h\n";
    let text = said(&["state", "--board=dc100"], &format!("{DESK}{ring}"));
    let lines = [
        "  00000h     FF000h   1,024  noop",
        "  01000h    100000h   1,024  noop, in the display cache",
        "  02000h    101000h   1,022  noop",
    ];
    expect_lines(&text, &lines);
    // Words of it are shown at the addresses of protected memory too, and those of main memory are not.
    let ring = ring.replace("100003h", "A0003h").replace("101000h", "A0000h");
    let key = "smm write4 A0000h 4B455921h\nwrite4 WINDOW+2000h 02000001h\n";
    let text = said(&["state", "--board=dc100"], &format!("{DESK}{key}{ring}config write dev0.SMRAM 44h\n"));
    expect_lines(&text, &["  01000h     A0000h       1  flush (02000001h), in the display cache"]);
    expect_lines(&text, &["  02000h     A0000h   1,022  \u{B7}\u{B7}"]);
    assert!(!text.contains("4B455921"), "{text}");
}

#[test]
fn answers_name_the_display_cache() {
    let trace = format!("{DESK}write4 WINDOW+2ABCh C0FFEEh\nread2 WINDOW+2ABCh\nread4 A0ABCh\n");
    for board in WITH {
        let told = said(&["replay", "--board", board, "--only", "display"], &trace);
        assert_eq!(told.lines().count(), 2, "{told}");
        for part in ["display cache A0ABCh takes 00C0FFEEh ", "display cache A0ABCh = FFEEh "] {
            assert!(told.contains(part), "{told}");
        }
        let json = said(&["replay", "--board", board, "--json", "--only=display,vga"], &trace);
        assert_eq!(json.matches(r#""target":"display","interrupt":false,"at":658108,"#).count(), 2, "{json}");
        assert!(json.contains(r#""value":65518,"#) && json.contains(r#""target":"vga""#), "{json}");
        let csv = said(&["replay", "--board", board, "--csv", "--only=display"], &trace);
        assert_eq!(csv.matches(",display,false,658108,").count(), 2, "{csv}");
    }
    let none = said(&["replay", "--only", "display"], &trace);
    assert_eq!(none, "");
    let check = |text: &str, board: &str| run_with(&["replay", "--check", "--board", board, "-"], text.as_bytes());
    let expected = format!("{DESK}read4 WINDOW+1000h  #> display cache 3FF000h = 00000000h\n");
    assert_eq!(check(&expected, "dc100").status, DONE);
    let other = check(&expected, "82810");
    assert_eq!(other.status, UNMET);
    assert!(
        other.text.contains("\n+ refused 5: entry 1 (window offset 1000h) has type 01, display cache\n"),
        "{}",
        other.text
    );
}

/// An address of the display cache is none of main memory: what is protected there hides nothing here, and what is
/// protected stays hidden, whatever the display cache has at its address.
#[test]
fn the_display_cache_is_not_taken_for_protected_memory() {
    let trace = format!(
        "{DESK}smm write4 A0ABCh 4B455921h\nsmm write4 WINDOW+2ABCh 600D0001h\nread4 WINDOW+2ABCh\nsmm read4 A0ABCh\n\
         write LP_RING_START 2000h\nwrite LP_RING_HEAD ABCh\nwrite LP_RING_TAIL AC0h\nwrite LP_RING_LENGTH 1\nrun 1\n\
         config write dev0.SMRAM 4Eh\n"
    );
    for board in WITH {
        let told = said(&["replay", "--board", board], &trace);
        for part in [
            "smm write4 A0ABCh \u{B7}\u{B7}",
            "smm write4 WINDOW+2ABCh 600D0001h",
            "display cache A0ABCh takes 600D0001h",
            "display cache A0ABCh = 600D0001h",
            "memory A0ABCh = \u{B7}\u{B7}",
            "refused 12: word 600D0001h is no instruction",
        ] {
            assert!(told.contains(part), "{board}: {part}\n{told}");
        }
        assert!(!told.contains("4B455921"), "{told}");
    }
    // But what was meant for A0000h, by the HSEG's addresses, is the key's, though a window there has led to the cache.
    let high = DESK.replace("C0000000h", "FC000000h");
    let key = format!("{high}write GTT[11936] A0003h\nsmm write4 FEEA0ABCh 4B455921h\n");
    let told = said(&["replay", "--board=dc100"], &key);
    assert!(told.contains("display cache A0ABCh takes \u{B7}\u{B7}") && !told.contains("4B455921"), "{told}");
    let records = run_with(&["asm", "-"], trace.as_bytes()).out;
    let listing = run_with(&["disasm", "-"], &records).text;
    for line in ["smm write4 A0ABCh \u{B7}\u{B7}", "smm write4 WINDOW+2ABCh 600D0001h"] {
        expect_lines(&listing, &[line]);
    }
}

/// A table word in memory that is protected at another time names the page in the display cache: the page is hidden, the
/// bytes of the display cache are not.
#[test]
fn a_page_of_the_display_cache_that_the_key_names_is_hidden() {
    let open = DESK.replace("4Ch", "44h").replace("300001h", "A0001h");
    for (word, outcome) in [
        ("345003h", "display cache \u{B7}\u{B7} = 00000000h "),
        (
            "745003h",
            "refused 7: page \u{B7}\u{B7} of entry 9 (window offset 9000h) is at or above the top of memory or of",
        ),
        (
            "845001h",
            "refused 7: page \u{B7}\u{B7} of entry 9 (window offset 9000h) is at or above the top of memory or of",
        ),
        ("345005h", "refused 5: entry 9 (window offset 9000h) has type \u{B7}\u{B7}"),
    ] {
        let trace = format!("{open}write4 A0024h {word}\nread4 WINDOW+9000h\nconfig write dev0.SMRAM 4Eh\n");
        let told = said(&["replay", "--board=dc100-main"], &trace);
        assert!(told.contains(outcome), "{outcome}\n{told}");
        assert!(!told.contains("45000h") && !told.contains("45003h"), "{told}");
        let json = said(&["replay", "--board=dc100-main", "--json", "--only=display"], &trace);
        let hidden = json.lines().filter(|line| line.contains("\"at\":null") && line.contains("\"value\":0,"));
        assert_eq!(hidden.count(), usize::from(word == "345003h"), "{json}");
    }
}

#[test]
fn an_audit_tells_the_display_cache() {
    let trace =
        format!("{DESK}write GTT[3] 400003h\nread4 WINDOW+3000h\nwrite DRT 0\nread4 WINDOW+0\nread4 WINDOW+4\n");
    for (board, page) in [("dc100", "page"), ("dc100-main", "page or table word")] {
        for (code, part) in [
            ("7", format!("refused 7: {page} of entry 3 (window offset 3000h) is at or above the top of memory or of the display cache")),
            ("5", "refused 5: entry 0 (window offset 0h) has type 10, or 01 with the display cache off".to_string()),
        ] {
            let run = run_with(&["audit", "--board", board, "--deny", code, "-"], trace.as_bytes());
            assert_eq!(run.status, UNMET);
            assert!(run.errors.contains(&part), "{}", run.errors);
            assert!(run.text.contains("\n     6  display cache                           0\n"), "{}", run.text);
            assert!(run.text.contains("\n     7  entry 3                                 1\n"), "{}", run.text);
        }
    }
}

/// Demand 3: a table over the key's bytes that has led into the display cache before the lock is told.
#[test]
fn compare_asks_that_the_display_caches_are_alike_at_the_lock() {
    let folder = folder("display-compare");
    let [one, two] = [[0x03, 0x10, 0, 0], [0x03, 0x20, 0, 0]].map(|key| file(&folder, &format!("{:X}", key[1]), &key));
    let open = DESK.replace("4Ch", "44h").replace("write GTT[0] 3h\nwrite GTT[1] 3FF003h\nwrite GTT[2] A0003h\n", "");
    let compare = |board: &str, list: &str| {
        let words = ["compare", "--board", board, "--key", &one, "--key", &two, "-"];
        run_with(&words, list.as_bytes())
    };
    let table = open.replace("300001h", "A0001h");
    let written = compare("dc100-main", &format!("{table}write4 WINDOW+5000h 77h\nconfig write dev0.SMRAM 4Eh\n"));
    assert_eq!((written.status, written.text.as_str()), (INPUT, ""));
    let part = "when the lock is set, the display cache's byte at 1000h depends on the key: before, ";
    assert!(written.errors.contains(part), "{}", written.errors);
    // Only read: the two addresses differ before the lock, of which demand 3 does not speak.
    let read =
        compare("dc100-main", &format!("{table}read4 WINDOW+5000h\nconfig write dev0.SMRAM 4Eh\nread4 WINDOW+5000h\n"));
    assert_eq!((read.status, read.errors.as_str()), (DONE, ""));
    assert!(
        read.text.contains("read4 WINDOW+5000h                            \u{B7}\u{B7}          \u{B7}\u{B7}\n"),
        "{}",
        read.text
    );
    // Somewhere else, and after the lock: equal. What management mode writes there carries no key.
    let list = format!("{DESK}config write dev0.SMRAM 4Eh\nsmm write4 WINDOW+2ABCh 7\nread4 WINDOW+2ABCh\n");
    for board in WITH {
        let run = compare(board, &list);
        assert_eq!((run.status, run.errors.as_str()), (DONE, ""));
        let text = joined(&run.text);
        assert!(
            text.contains("no answer differs.") && text.contains("the display cache's among them: equal."),
            "{text}"
        );
    }
}

/// The names of the three registers in a listing, whatever the board, and of what is no whole register its offset.
#[test]
fn a_listing_names_the_three_registers() {
    let trace =
        "config write dev0.SMRAM 40h\nconfig write dev1.MMADR F0000000h\nread DRT\nwrite DRT 01h\nread DRAMCL\n\
                 write DRAMCH 08h\nread4 DRT\nread2 DRAMCL\nread1 MMIO+3003h\nwrite GTT[7] 001A0003h\n";
    let records = run_with(&["asm", "-"], trace.as_bytes());
    assert_eq!((records.status, records.errors.as_str()), (DONE, ""));
    let listed = run_with(&["disasm", "--no-comments", "-"], &records.out);
    assert_eq!((listed.status, listed.text.as_str()), (DONE, trace));
    let commented = run_with(&["disasm", "-"], &records.out).text;
    for part in [
        "write DRT 01h                                # as written: display cache on\n",
        "# as written: display cache page 1A0000h\n",
    ] {
        assert!(commented.contains(part), "{commented}");
    }
}

#[test]
fn help_manual_page_and_explanations_have_the_display_cache() {
    let page = fs::read_to_string(concat!(env!("CARGO_MANIFEST_DIR"), "/mitrophel.1")).expect("the manual page");
    let page = page.replace("\\-", "-");
    for part in [
        "\n.SH DISPLAY CACHE\n",
        "\n.BI --display \" file\"\n",
        "\n.BI --dump-display \" file\"\n",
        " DRT, DRAMCL, DRAMCH, ",
    ] {
        assert!(page.contains(part), "{part}");
    }
    for command in COMMANDS {
        let help = run(&[command, "--help"]).text;
        assert!(help.lines().any(|line| line.trim_start().starts_with("--display FILE ")), "{help}");
        for board in Board::ALL {
            assert!(help.contains(board.name()), "{command} {board}");
        }
    }
    for shell in ["bash", "zsh", "fish"] {
        let script = run(&["completion", shell]).text;
        let (display, dump) = match shell {
            "fish" => (" -l display -r -F", " -l dump-display -r -F"),
            "zsh" => ("'--display=:file:_files'", "'--dump-display=:file:_files'"),
            _ => ("--display') compopt -o default", "--dump-display') compopt -o default"),
        };
        assert_eq!([display, dump].map(|part| script.matches(part).count()), [5, 1], "{shell}");
    }
    for (code, parts) in [
        ("1", &["display cache not of 4 MiB for kinds 1 and 3, or not of length 0 for the others"][..]),
        ("5", &["entry's type is 10, or 01 where no display cache is on", "DRT (3000h) bit 0 is 0", "--board dc100 "]),
        ("6", &["The display cache, which entries of type 01 name pages of, is never protected."]),
        (
            "7",
            &[
                "or its page that of the display cache",
                "names a page at or above 4 MiB, where that ends.",
                "--board dc100 ",
            ],
        ),
        ("10", &["3000h, 3001h and 3002h, which are listed on boards dc100 and dc100-main only, 1;", "--board dc100 "]),
    ] {
        let told = joined(&run(&["explain", code]).text);
        for part in parts {
            assert!(told.contains(part), "{code}: {part}\n{told}");
        }
    }
}

/// The sample that shows all of it is replayed alike by both, on every board.
#[test]
fn the_sample_is_audited_on_every_board() {
    for (board, cache) in [("82810", false), ("dc100", true), ("82810-main", false), ("dc100-main", true)] {
        let run = run(&["audit", "--compare", "--board", board, &example("request-11-display-cache.trace")]);
        assert_eq!((run.status, run.errors.as_str()), (DONE, ""), "{board}");
        let line =
            run.text.lines().find(|line| line.starts_with("     6  display cache ")).expect("a line for target 6");
        assert_eq!(line.ends_with(" 0"), !cache, "{board}: {line}");
    }
}
