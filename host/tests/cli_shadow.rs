//! PAMR and FDHC, request 8 of document 02: shadow memory in C0000h-FFFFFh and the hole below 16 MiB, as every command
//! takes and tells them.

mod cli;

use cli::{example, folder, names, run, run_with, word, DONE, USAGE};
use mitrophel::Board;
use std::fs;

/// The map's text by these options, all lines of it at most 80 columns wide.
fn map(options: &[&str]) -> String {
    map_after(options, "")
}

/// The same after a trace, where there is one.
fn map_after(options: &[&str], trace: &str) -> String {
    let file: &[&str] = if trace.is_empty() { &[] } else { &["-"] };
    let run = run_with(&[&["map"], options, file].concat(), trace.as_bytes());
    assert_eq!((run.status, run.errors.as_str()), (DONE, ""), "{options:?} {trace}");
    assert!(run.text.lines().all(|line| line.chars().count() <= 80), "{}", run.text);
    run.text
}

/// The rows of a map whose first address is at or above the one and below the other.
fn rows(text: &str, from: u32, to: u32) -> Vec<&str> {
    let first =
        |row: &str| u32::from_str_radix(row.get(2..10)?, 16).ok().filter(|_| row.as_bytes().get(10) == Some(&b'-'));
    text.lines().filter(|row| first(row).is_some_and(|first| (from..to).contains(&first))).collect()
}

const NOTE: &str = "\na/b: reads go to a, writes to b.\n";

/// What a replay prints of a trace's last records.
fn told(options: &[&str], trace: &str, lines: usize) -> Vec<String> {
    let run = run_with(&[&["replay", "--memory", "16M"], options, &["-"]].concat(), trace.as_bytes());
    assert_eq!((run.status, run.errors.as_str()), (DONE, ""), "{trace}");
    let printed: Vec<String> = run.text.lines().map(str::to_string).collect();
    printed[printed.len().saturating_sub(lines)..].to_vec()
}

/// "01 sends C0000h-FFFFFh to the hub": so does a map that nothing is said of.
#[test]
fn a_default_map_has_one_row_of_c0000h_to_fffffh_and_no_hole() {
    for memory in ["8M", "16M", "32M"] {
        let text = map(&["--memory", memory]);
        let expected = "  000C0000-000FFFFF  hub (3)        hub (3)         hub        memory    BIOS";
        assert_eq!(rows(&text, 0xC_0000, 0x10_0000), [expected]);
        assert_eq!(rows(&text, 0x10_0000, 0x4000_0000).len(), 2, "{text}");
        for part in ["PAMR", "FDHC", "hole", "a/b"] {
            assert!(!text.contains(part), "{part}: {text}");
        }
        assert_eq!(map(&["--memory", memory, "--pam", "0"]), text);
    }
}

/// Each pair of bits in each segment, and segments that are alike in one row.
#[test]
fn a_map_shows_the_segments_that_pamr_describes() {
    let text = map(&["--pam", "1Bh"]);
    let header = "\nPAMR 1Bh: C0000h-CFFFFh reads and writes memory; D0000h-DFFFFh writes memory;\n\
                  E0000h-EFFFFh reads memory; else hub.\n";
    assert!(text.contains(header), "{text}");
    let segments = [
        "  000C0000-000CFFFF  memory (3)     memory (3)      memory (3) memory    BIOS",
        "  000D0000-000DFFFF  hub/memory (3) hub/memory (3)  hub/memory memory    BIOS",
        "  000E0000-000EFFFF  memory/hub (3) memory/hub (3)  memory/hub memory    BIOS",
        "  000F0000-000FFFFF  hub (3)        hub (3)         hub        memory    BIOS",
    ];
    assert_eq!(rows(&text, 0xC_0000, 0x10_0000), segments);
    assert!(text.ends_with(NOTE), "{text}");
    for (pam, header, count, note) in [
        ("E4h", "PAMR E4h: D0000h-DFFFFh reads memory; E0000h-EFFFFh writes memory; F0000h-FFFFFh", 4, true),
        ("0x55", "PAMR 55h: C0000h-FFFFFh reads memory; else hub.", 1, true),
        ("AAh", "PAMR AAh: C0000h-FFFFFh writes memory; else hub.", 1, true),
        ("255", "PAMR FFh: C0000h-FFFFFh reads and writes memory.", 1, false),
        ("0F0h", "PAMR F0h: E0000h-FFFFFh reads and writes memory; else hub.", 2, false),
        ("14h", "PAMR 14h: D0000h-EFFFFh reads memory; else hub.", 3, true),
    ] {
        let text = map(&["--pam", pam]);
        assert!(text.contains(&format!("\n{header}\n")), "{pam}: {text}");
        assert_eq!(rows(&text, 0xC_0000, 0x10_0000).len(), count, "{pam}: {text}");
        assert_eq!(text.contains(NOTE), note, "{pam}: {text}");
    }
}

/// "The hole acts only on addresses below U": U above it, in it and below it.
#[test]
fn a_map_shows_the_hole_as_far_as_it_acts() {
    let hole = "hub (4)        hub (4)         hub (4)    memory    hole";
    let main = "memory (4)     memory (4)      memory (4) memory    main";
    let tseg = "hub, error (5) memory (5)      hub        refused 6 TSEG";
    let taken = "hub (5)        hub (5)         hub        memory    taken";
    type Rows<'a> = &'a [(&'a str, &'a str)];
    let cases: [(&str, &str, &str, Rows<'_>); 5] = [
        (
            "32M",
            "0",
            "FDHC 80h: hole at F00000h-FFFFFFh.",
            &[("  00100000-00EFFFFF", main), ("  00F00000-00FFFFFF", hole), ("  01000000-01FFFFFF", main)],
        ),
        (
            "16M",
            "0",
            "FDHC 80h: hole at F00000h-FFFFFFh.",
            &[("  00100000-00EFFFFF", main), ("  00F00000-00FFFFFF", hole)],
        ),
        (
            "16M",
            "6Ch",
            "FDHC 80h: hole at F00000h-FFFFFFh, acts only below U, F80000h.",
            &[("  00100000-00EFFFFF", main), ("  00F00000-00F7FFFF", hole), ("* 00F80000-00FFFFFF", tseg)],
        ),
        (
            "16M",
            "ACh",
            "FDHC 80h: hole at F00000h-FFFFFFh, acts nowhere: U is F00000h.",
            &[("  00100000-00EFFFFF", main), ("  00F00000-00F7FFFF", taken), ("* 00F80000-00FFFFFF", tseg)],
        ),
        ("8M", "0", "FDHC 80h: hole at F00000h-FFFFFFh, acts nowhere: U is 800000h.", &[("  00100000-007FFFFF", main)]),
    ];
    for (memory, smram, header, expected) in cases {
        let text = map(&["--memory", memory, "--smram", smram, "--hole"]);
        assert!(text.contains(&format!("\n{header}\n")), "{text}");
        let expected: Vec<String> = expected.iter().map(|(range, cells)| format!("{range}  {cells}")).collect();
        let found = rows(&text, 0x10_0000, 0x200_0000);
        assert_eq!(found[..expected.len()], expected, "{text}");
        assert!(!text.contains("a/b"), "{text}");
        assert_eq!(text.matches(" hole\n").count(), expected.iter().filter(|row| row.ends_with("hole")).count());
    }
}

/// The options describe what a trace writes; a list of several calls, and a lock that holds neither register, too.
#[test]
fn a_map_after_a_trace_has_what_the_trace_wrote() {
    for board in Board::ALL.map(Board::name) {
        for (pam, hole) in [(0x1B, true), (0x6C, false), (0xFF, true)] {
            let (byte, fdhc) = (format!("{pam:02X}h"), if hole { "FFh" } else { "7Fh" });
            let mut options = vec!["--board", board, "--memory", "24M"];
            let list = format!(
                "config write dev0.SMRAM 7Eh\nconfig write dev0.PAMR {byte}\nconfig write dev0.FDHC {fdhc}\n\
                 write4 C0000h 11111111h\n"
            );
            let traced = map_after(&options, &list);
            options.extend(["--smram", "7Eh", "--pam", &byte]);
            options.extend(hole.then_some("--hole"));
            assert_eq!(map(&options), traced, "{board}");
        }
    }
    // A reset makes both 00h.
    let reset = map_after(&["--memory", "16M"], "config write dev0.PAMR FFh\nconfig write dev0.FDHC 80h\nreset\n");
    assert_eq!(reset, map(&["--memory", "16M"]));
    let binary = run_with(&["asm", "-"], b"config write2 dev0.50h B100h\n").out;
    let run = run_with(&["map", "--binary", "-"], &binary);
    assert_eq!(run.text, map(&["--pam", "B1h"]));
}

/// The map's own writes go to a copy, and the table is shown as the trace left it, where they go, too. Keys are not shown.
#[test]
fn a_map_changes_nothing_and_shows_no_key() {
    let folder = folder("shadow-map");
    let image = folder.join("image.bin");
    let mut bytes = vec![0; 8 << 20];
    for segment in [0xC_0000, 0xD_0000, 0xE_0000, 0xF_0000] {
        bytes[segment..segment + 4].copy_from_slice(&0x0010_0001_u32.to_le_bytes());
    }
    bytes[0xA_0000..0xA_0004].copy_from_slice(&0x0057_5001_u32.to_le_bytes());
    fs::write(&image, &bytes).expect("an image");
    let list = "config write dev0.SMRAM 4Ch\nconfig write dev1.GMADR C0000000h\nconfig write dev1.MMADR F0000000h\n\
                config write dev1.PCICMD 2\nconfig write dev0.PAMR FFh\nwrite PGTBL_CTL ";
    let image_word = word(&image);
    for base in ["C0001h", "D0001h", "E0001h", "F0001h"] {
        let text = map_after(&["--board", "82810-main", "--image", &image_word], &format!("{list}{base}\n"));
        assert!(
            text.contains("\n  window 0000000-0000FFF  entry 0               memory 00100000-00100FFF\n"),
            "{text}"
        );
        let key = map_after(&["--board", "82810-main", "--image", &image_word], &format!("{list}A0001h\n"));
        assert!(!key.contains("575"), "{key}");
    }
    assert!(fs::read(&image).expect("the image") == bytes);
    assert_eq!(names(&folder), ["image.bin"]);
}

#[test]
fn a_picture_shows_what_the_map_shows() {
    let run = run(&["map", "--memory", "16M", "--pam", "93h", "--hole", "--svg", "-"]);
    assert_eq!((run.status, run.errors.as_str()), (DONE, ""));
    let texts: Vec<&str> = run.text.lines().filter(|line| line.starts_with("<text")).collect();
    let words =
        |line: &&str| line.split_once('>').and_then(|(_, rest)| rest.strip_suffix("</text>")).map(str::to_string);
    let words: Vec<String> = texts.iter().filter_map(words).collect();
    for part in [
        "PAMR 93h: C0000h-CFFFFh reads and writes memory; E0000h-EFFFFh reads memory; F0000h-FFFFFh writes memory; else",
        "hub.",
        "FDHC 80h: hole at F00000h-FFFFFFh.",
        "memory (3)",
        "memory/hub (3)",
        "hub/memory (3)",
        "memory/hub",
        "hub (4)",
        "hole",
        "00F00000h",
        "00FFFFFFh",
        "a/b: reads go to a, writes to b.",
    ] {
        assert!(words.iter().any(|words| words == part), "{part}: {words:#?}");
    }
    assert!(words.iter().all(|line| line.chars().count() <= 112), "{words:#?}");
    // Two segments are split, for three columns each; and both styles have the colour.
    assert_eq!(run.text.matches("<rect class=\"cell split\"").count(), 6);
    assert_eq!(run.text.matches(".split { fill").count(), 2);
    // Nothing is drawn below the picture's end.
    let number = |line: &str, name: &str| -> usize {
        let (_, rest) = line.split_once(&format!(" {name}=\"")).expect("an attribute");
        rest.split('"').next().and_then(|number| number.parse().ok()).expect("a number")
    };
    let height = number(&run.text, "height");
    assert!(texts.iter().all(|line| number(line, "y") < height), "{height}");
    let plain = cli::run(&["map", "--svg", "-"]);
    assert!(!plain.text.contains("a/b") && !plain.text.contains("cell split"));
}

#[test]
fn wrong_options_are_told_with_exit_status_2() {
    for (words, message) in [
        (&["map", "--pam", "100h"][..], "--pam: expected a byte, found 100h"),
        (&["map", "--pam=256"], "--pam: expected a byte, found 100h"),
        (&["map", "--pam", "B1"], "--pam: expected a number such as 4096, 0x1000 or 1000h, found 'B1'"),
        (&["map", "--pam", "-1"], "--pam: expected a number such as"),
        (&["map", "--pam", "100000000h"], "--pam: expected"),
        (&["map", "--pam"], "--pam needs a value"),
        (&["map", "--pam="], "--pam needs a value"),
        (&["map", "--pam", "1", "--pam", "2"], "--pam is given twice"),
        (&["map", "--hole=80h"], "--hole takes no value"),
        (&["map", "--hole", "--hole"], "--hole is given twice"),
        (&["map", "--pam", "1", "-"], "--pam and FILE exclude each other: FILE's records decide"),
        (&["map", "--hole", "-"], "--hole and FILE exclude each other: FILE's records decide"),
        (&["map", "--hole", "80h"], "--hole and FILE exclude each other: FILE's records decide"),
        (&["replay", "--pam", "1", "-"], "unknown option '--pam'"),
        (&["state", "--hole", "-"], "unknown option '--hole'"),
        (&["replay", "--only", "shadows", "-"], "window, shadow, hole, error, interrupt, "),
    ] {
        let run = run(words);
        assert_eq!((run.status, run.text.as_str()), (USAGE, ""), "{words:?}: {}", run.errors);
        assert!(run.errors.contains(message), "{words:?}: {}", run.errors);
    }
    // A picture that is not drawn is not left behind.
    let folder = folder("shadow-errors");
    let picture = word(&folder.join("map.svg"));
    assert_eq!(run(&["map", "--pam", "100h", "--svg", &picture]).status, USAGE);
    assert_eq!(run(&["map", "--hole", "--svg", &picture, "-"]).status, USAGE);
    assert!(names(&folder).is_empty());
}

#[test]
fn the_state_has_both_registers_in_words() {
    // All words, single blanks between them.
    let state = |memory: &str, trace: &str| {
        let run = run_with(&["state", "--memory", memory, "-"], trace.as_bytes());
        assert_eq!((run.status, run.errors.as_str()), (DONE, ""), "{trace}");
        assert!(run.text.lines().all(|line| line.chars().count() <= 80), "{}", run.text);
        run.text.split_whitespace().collect::<Vec<_>>().join(" ")
    };
    let cold = " 51h PAMR 00h C0000h-FFFFFh to the hub 52h DRP 00h 53h DRAMT 00h 58h FDHC 00h no hole 70h SMRAM ";
    let text = state("16M", "");
    assert!(text.contains(cold) && !text.contains("hole F00000h"), "{text}");
    let both = "config write dev0.PAMR 85h\nconfig write dev0.FDHC FFh\n";
    for (memory, smram, hole, more) in [
        ("32M", "00h", Some("FFFFFFh"), ""),
        ("16M", "00h", Some("FFFFFFh"), ""),
        ("16M", "6Ch", Some("F7FFFFh"), ", acts only below U, F80000h"),
        ("16M", "7Ch", None, ", acts nowhere: U is F00000h"),
        ("8M", "00h", None, ", acts nowhere: U is 800000h"),
    ] {
        let list = format!("config write dev0.SMRAM {smram}\n{both}");
        let text = state(memory, &list);
        let pamr = " 51h PAMR 85h C0000h-DFFFFh reads memory; F0000h-FFFFFh writes memory; else hub 52h DRP ";
        for part in [pamr, &format!(" 58h FDHC 80h hole at F00000h-FFFFFFh{more} 70h SMRAM ")] {
            assert!(text.contains(part), "{part}: {text}");
        }
        let row = hole.map(|last| format!(" ordinary memory ends hole F00000h to {last} goes to the hub "));
        assert_eq!(text.contains("hole F00000h"), row.is_some(), "{text}");
        assert!(row.is_none_or(|row| text.contains(&row)), "{text}");
        assert!(state(memory, &format!("{list}reset\n")).contains(cold));
    }
    let dump = run_with(&["state", "--lspci", "-"], both.as_bytes());
    assert!(dump.text.contains("\n50: 00 85 00 00 00 00 00 00 80 00 00 00"), "{}", dump.text);
}

/// Which bit took an access to memory or to the hub, for everybody that rule 3 is for.
#[test]
fn a_replay_tells_the_bit_that_decided() {
    for (segment, number) in [(0xC_0000_u32, 0), (0xD_0000, 1), (0xE_0000, 2), (0xF_0000, 3)] {
        let range = format!("{segment:X}h-{:X}h", segment + 0xFFFF);
        for pair in 0..4_u32 {
            let list = format!("config write dev0.PAMR {:02X}h\n", pair << (2 * number));
            for (access, write, by) in [
                ("read4", false, "rule 3"),
                ("fetch4", false, "rule 3"),
                ("smm read4", false, "rule 3"),
                ("smm fetch4", false, "rule 3"),
                ("master read4", false, "hub master by rule 3"),
                ("write4", true, "rule 3"),
                ("smm write4", true, "rule 3"),
                ("master write4", true, "hub master by rule 3"),
            ] {
                let (bit, verb, data) = match write {
                    false => (2 * number, "reads", ""),
                    true => (2 * number + 1, "writes", " 00C0FFEEh"),
                };
                let memory = pair >> u32::from(write) & 1 != 0;
                for address in [segment, segment + 0xFFFC] {
                    let statement = format!("{access} {address:X}h{data}");
                    let line = told(&[], &format!("{list}{statement}\n"), 1).remove(0);
                    let place = match (memory, write) {
                        (false, _) => "hub  ".to_string(),
                        (true, false) => format!("memory {address:X}h = 00000000h  "),
                        (true, true) => format!("memory {address:X}h takes 00C0FFEEh  "),
                    };
                    let reason = match memory {
                        false => format!("  {by}: {range}, PAMR bit {bit} is 0: {verb} go to the hub"),
                        true => format!("  {by}: {range} {verb} memory by PAMR bit {bit}"),
                    };
                    assert!(line.contains(&format!("  {statement}  ")), "{line}");
                    assert!(line.contains(&place) && line.ends_with(&reason), "PAMR pair {pair}: {line}");
                }
            }
        }
    }
}

#[test]
fn a_replay_tells_the_hole_and_what_the_registers_say() {
    let hole = "rule 4: the hole at F00000h-FFFFFFh, FDHC bit 7";
    let accesses = "read4 F00000h\nfetch4 FFFFFCh\nsmm read4 F80000h\nwrite1 F00001h 5\nsmm write4 FFFFFCh 5\n";
    let masters = "master read4 F00000h\nmaster write4 FFFFFCh 5\n";
    let list = format!("config write dev0.FDHC 80h\n{accesses}{masters}");
    let lines = told(&[], &list, 7);
    for line in &lines[..5] {
        assert!(line.contains("  hub  ") && line.ends_with(&format!("  {hole}")), "{line}");
    }
    for line in &lines[5..] {
        assert!(line.contains("  hub  ") && line.ends_with(&format!("  hub master by {hole}")), "{line}");
    }
    assert_eq!(told(&["--only", "hole"], &format!("read4 F00000h\n{list}"), 9).len(), 7);
    let json = &told(&["--json"], &list, 1)[0];
    for field in
        ["\"code\":0", "\"target\":\"hub\"", "\"at\":16777212", &format!("\"reason\":\"hub master by {hole}\"")]
    {
        assert!(json.contains(field), "{field}: {json}");
    }
    for (statement, reason) in [
        ("config write dev0.PAMR 30h", "E0000h-EFFFFh reads and writes memory; else hub"),
        ("config read dev0.PAMR", "C0000h-FFFFFh to the hub"),
        ("config write2 dev0.50h FF00h", "C0000h-FFFFFh reads and writes memory"),
        ("config read4 dev0.50h", "C0000h-FFFFFh to the hub"),
        ("config write dev0.GMCHCFG FFh", "configuration, device 0"),
        ("config write dev0.FDHC 80h", "hole at F00000h-FFFFFFh"),
        ("config write dev0.FDHC 7Fh", "no hole"),
        ("config read4 dev0.58h", "no hole"),
    ] {
        let line = told(&[], &format!("{statement}\n"), 1).remove(0);
        assert!(line.ends_with(&format!("  {reason}")), "{statement}: {line}");
    }
    let small = run_with(&["replay", "-"], b"config write dev0.FDHC 80h\n").text;
    assert!(small.ends_with("  hole at F00000h-FFFFFFh, acts nowhere: U is 800000h\n"), "{small}");
}

/// Rule 3's memory alone; what went to the hub is with `--only hub`.
#[test]
fn shadow_memory_is_a_kind_of_record() {
    let list = "config write dev0.PAMR 09h\nread4 C0000h\nwrite4 C0000h 5\nread4 D0000h\nwrite4 D0000h 5\n\
                master read4 C0000h\nmaster write4 D0000h 5\nmaster read4 D0000h\nread4 9FFFCh\nread4 100000h\n";
    let lines = told(&["--only", "shadow"], list, 99);
    assert_eq!(lines.len(), 4, "{lines:#?}");
    assert!(lines.iter().all(|line| line.contains("memory by PAMR bit ")), "{lines:#?}");
    assert_eq!(told(&["--only", "SHADOW,hub"], list, 99).len(), 7);
}

/// What a hub master reaches where no rule takes it to memory: all of it, for reads and for writes.
#[test]
fn a_hub_masters_reach_follows_both_registers() {
    for (smram, pamr, fdhc, read, write) in [
        ("00h", "00h", "00h", "0-9FFFFh and 100000h-FFFFFFh", "0-9FFFFh and 100000h-FFFFFFh"),
        ("00h", "00h", "80h", "0-9FFFFh and 100000h-EFFFFFh", "0-9FFFFh and 100000h-EFFFFFh"),
        (
            "00h",
            "09h",
            "00h",
            "0-9FFFFh, C0000h-CFFFFh and 100000h-FFFFFFh",
            "0-9FFFFh, D0000h-DFFFFh and 100000h-FFFFFFh",
        ),
        ("00h", "40h", "80h", "0-9FFFFh and F0000h-EFFFFFh", "0-9FFFFh and 100000h-EFFFFFh"),
        ("04h", "FFh", "00h", "0-FFFFFFh", "0-FFFFFFh"),
        ("60h", "41h", "80h", "0-9FFFFh, C0000h-CFFFFh and F0000h-EFFFFFh", "0-9FFFFh and 100000h-EFFFFFh"),
        ("60h", "00h", "00h", "0-9FFFFh and 100000h-F7FFFFh", "0-9FFFFh and 100000h-F7FFFFh"),
    ] {
        let list = format!(
            "config write dev0.SMRAM {smram}\nconfig write dev0.PAMR {pamr}\nconfig write dev0.FDHC {fdhc}\n\
             master read4 1000000h\nmaster write4 1000000h 5\n"
        );
        let lines = told(&[], &list, 2);
        for (line, reach) in lines.iter().zip([read, write]) {
            assert!(line.ends_with(&format!("  hub masters reach {reach}")), "{line}");
        }
    }
    // With memory above the hole.
    let list = "config write dev0.FDHC 80h\nmaster read4 2000000h\n";
    let run = run_with(&["replay", "--memory", "32M", "-"], list.as_bytes());
    let reach = "  hub masters reach 0-9FFFFh, 100000h-EFFFFFh and 1000000h-1FFFFFFh\n";
    assert!(run.text.ends_with(reach), "{}", run.text);
}

#[test]
fn a_listing_explains_both_registers_and_is_undone() {
    let trace =
        "config write dev0.PAMR 93h\nconfig read dev0.PAMR\nconfig write dev0.FDHC 80h\nconfig read dev0.FDHC\n\
                 config write2 dev0.50h 0000h\nconfig write dev0.FDHC 00h\nwrite4 C0000h 00C0FFEEh\n";
    let records = run_with(&["asm", "-"], trace.as_bytes()).out;
    let listing = run_with(&["disasm", "-"], &records);
    assert_eq!((listing.status, listing.errors.as_str()), (DONE, ""));
    let comments: Vec<&str> =
        listing.text.lines().filter_map(|line| line.split_once(" # as written: ")).map(|(_, c)| c).collect();
    assert_eq!(
        comments,
        [
            "C0000h-CFFFFh reads and writes memory; E0000h-EFFFFh reads memory; F0000h-FFFFFh writes memory; else hub",
            "hole at F00000h-FFFFFFh",
            "C0000h-FFFFFh to the hub",
            "no hole",
        ]
    );
    assert_eq!(run_with(&["disasm", "--no-comments", "-"], &records).text, trace);
    assert!(run_with(&["asm", "-"], &listing.out).out == records);
    let raw = run_with(&["disasm", "--no-macros", "-"], &records).text;
    assert!(raw.contains("out4 CONFIG_ADDRESS 80000050h") && raw.contains("out1 CONFIG_DATA+1 93h"), "{raw}");
    assert!(raw.contains("# selects dev0.GMCHCFG/PAMR/DRP/DRAMT") && raw.contains("# selects dev0.FDHC"), "{raw}");
}

#[test]
fn the_samples_hold_on_every_board() {
    let shadow = example("request-8-shadow-memory.trace");
    let answers = Board::ALL.map(|board| {
        let run = run(&["replay", "--memory", "16M", "--board", board.name(), "--answers", "-", &shadow]);
        assert_eq!((run.status, run.errors.as_str()), (DONE, ""), "{board}");
        run.out
    });
    assert!(answers.iter().all(|board| *board == answers[0]));
    for (board, name, differ) in [
        ("82810", "shadow-memory", " 4 answers differ, "),
        ("dc100-main", "table-in-main-memory", " no answer differs."),
    ] {
        let run = run(&["compare", "--memory", "16M", "--board", board, &example(&format!("request-8-{name}.trace"))]);
        assert_eq!((run.status, run.errors.as_str()), (DONE, ""), "{board}");
        assert!(run.text.contains(differ), "{}", run.text);
    }
    let audit = run(&["audit", "--compare", "--memory", "16M", "--deny", "all", &shadow]);
    assert_eq!(audit.status, cli::UNMET);
    assert_eq!(audit.errors.lines().count(), 2, "{}", audit.errors);
    assert!(audit.errors.contains(": refused 6: page of entry 10 (window offset AABCh) is protected (denied)"));
}

/// Nothing protected is shown of what goes by PAMR and FDHC, nor hidden.
#[test]
fn values_of_shadow_memory_are_for_everybody() {
    let list = "config write dev0.SMRAM 7Eh\nconfig write dev0.PAMR FFh\nconfig write dev0.FDHC 80h\n\
                smm write4 C0000h 11111111h\nsmm read4 C0000h\nsmm write4 A0000h 59454B21h\nsmm write4 F00000h 59454B21h\n\
                smm read4 A0000h\nsmm read4 F00000h\n";
    let lines = told(&[], list, 6);
    assert!(lines[0].contains("memory C0000h takes 11111111h") && lines[1].contains("memory C0000h = 11111111h"));
    for line in &lines[2..] {
        assert!(line.contains("\u{B7}\u{B7}") && !line.contains("59454B21"), "{line}");
    }
    let shown = told(&["--show-protected"], list, 6);
    assert!(shown.iter().filter(|line| line.contains("59454B21h")).count() >= 4, "{shown:#?}");
    let listed = run_with(&["disasm", "-"], &run_with(&["asm", "-"], list.as_bytes()).out).text;
    assert!(listed.contains("smm write4 C0000h 11111111h") && !listed.contains("59454B21"), "{listed}");
}

#[test]
fn both_registers_are_in_help_manual_and_completions() {
    let words = |text: &str| text.split_whitespace().collect::<Vec<_>>().join(" ");
    for (command, parts) in [
        (
            "map",
            &[
                "--pam BYTE PAMR as written (default 0)",
                "--hole the hole at F00000h-FFFFFFh",
                "'memory/hub' reads from",
            ][..],
        ),
        (
            "replay",
            &["the bit of dev0.PAMR that takes it to memory or to the hub", "shadow (memory in C0000h-FFFFFh), hole,"],
        ),
        ("asm", &["dev0.SMRAM, dev0.PAMR, dev0.FDHC, dev1.GMADR and so on"]),
        ("state", &["where its hole is and what is protected"]),
    ] {
        let help = words(&run(&[command, "--help"]).text);
        parts.iter().for_each(|part| assert!(help.contains(part), "{part}\n{help}"));
    }
    for (shell, parts) in [
        ("bash", &["--smram --pam --window", "'map --pam') offered='' ;;", "--text --binary --hole --help"][..]),
        ("zsh", &["'--pam=:word:()'", "'--hole'"]),
        ("fish", &["-l pam -r", "-l hole\n"]),
    ] {
        let script = run(&["completion", shell]).text;
        parts.iter().for_each(|part| assert!(script.contains(part), "{shell}: {part}"));
        assert!(script.contains("window shadow hole error"), "{shell}");
    }
    let page = fs::read_to_string(concat!(env!("CARGO_MANIFEST_DIR"), "/mitrophel.1")).expect("the manual page");
    for part in [
        ".SH SHADOW MEMORY\n",
        ".BI \\-\\-pam \" byte\"\n",
        ".B \\-\\-hole\n",
        "(SMRAM, PAMR, FDHC, MISCC,",
        "hub (rule 4: the hole at F00000h\\-FFFFFFh, FDHC bit 7)\n",
    ] {
        assert!(page.contains(part), "{part}");
    }
    // What the page shows is what is told.
    let list = "config write dev0.PAMR AAh\nwrite4 C0000h 00C0FFEEh\nconfig write dev0.PAMR 01h\nread4 C0000h\n\
                write4 C0000h 5\nmaster read4 F0000h\nconfig write dev0.FDHC 80h\nread4 F00000h\n";
    let lines = told(&[], list, 99);
    for line in page.lines().filter(|line| line.contains("(rule 3: ") || line.contains("(hub master by rule 3: ")) {
        let (outcome, reason) = line.trim_end_matches(')').split_once(" (").expect("a reason");
        let reason = reason.replace("\\-", "-");
        let told = |printed: &String| printed.contains(&format!("  {outcome}  ")) && printed.ends_with(&reason);
        assert!(lines.iter().any(told), "{line}");
    }
}
