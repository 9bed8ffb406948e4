//! `mitrophel state`: registers, table and ring as a list leaves them.

mod cli;

use cli::{example, run, run_with, DONE, INPUT, USAGE};
use mitrophel::{record, Record};

/// Graphics on, A0000h-BFFFFh and the TSEG for management mode; window, registers and translation on.
const DESK: &str = "config write dev0.SMRAM 7Ch\nconfig write dev1.GMADR C0000000h\n\
                    config write dev1.MMADR F0000000h\nconfig write dev1.PCICMD 2\nwrite PGTBL_CTL 1\n";

/// What the command says of a trace.
fn state(trace: &str) -> String {
    state_on("82810", trace)
}

/// The same on another board.
fn state_on(board: &str, trace: &str) -> String {
    let run = run_with(&["state", "--board", board, "-"], trace.as_bytes());
    assert_eq!((run.status, run.errors.as_str()), (DONE, ""), "{trace}");
    assert!(run.text.lines().all(|line| line.chars().count() <= 80), "{}", run.text);
    run.text
}

/// The rows of a section, without their indent.
fn section<'a>(text: &'a str, heading: &str) -> Vec<&'a str> {
    let from = text.lines().skip_while(|line| !line.starts_with(heading));
    let rows: Vec<&str> = from.skip(1).take_while(|line| !line.is_empty()).map(str::trim_start).collect();
    assert!(!rows.is_empty(), "{heading}: {text}");
    rows
}

fn expect_rows(text: &str, heading: &str, rows: &[&str]) {
    let found = section(text, heading);
    for row in rows {
        assert!(found.contains(row), "{row} is not among\n{}", found.join("\n"));
    }
}

#[test]
fn an_empty_list_shows_the_cold_start() {
    let text = state("");
    assert!(text.starts_with("State: board 82810, 8 MiB, after 0 records\n"), "{text}");
    expect_rows(&text, "Memory", &["TOM          800000h  memory ends", "U            800000h  ordinary memory ends"]);
    expect_rows(&text, "Device 0, host bridge", &["70h  SMRAM           00h  graphics off"]);
    let hidden = "Device 1, graphics (hidden while GMS is 00)";
    expect_rows(&text, hidden, &["04h  PCICMD        0004h  memory not enabled: window and registers are off"]);
    let line = ["20A8h  IMR                 FFFFh  user interrupt (bit 1) masked", "interrupt line  down"];
    expect_rows(&text, "Memory-mapped registers", &line);
    assert_eq!(section(&text, "Translation table (off: every access through it is refused 3)"), ["no valid entry"]);
    assert!(text.contains("\nRing, 0 words from head to tail (not enabled: a run takes no step)\n"), "{text}");
    assert!(text.contains("\n00:00.0 Host bridge: ") && !text.contains("00:01.0"), "{text}");
    assert!(run(&["state", "--board", "dc100", "-"]).text.contains("02h  DID           7122h  82810-DC100"));
}

/// Every register's value is what the proved call answers to a read of it.
#[test]
fn every_register_is_as_a_read_finds_it() {
    let setup = format!(
        "{DESK}config write dev0.PAMR B1h\nconfig write dev0.FDHC FFh\nconfig write dev0.MISCC2 5Ah\n\
         config write dev1.SVID 1234h\nconfig write dev1.GMADR C2000008h\nconfig write dev0.BUFF_SC 1234h\n\
         config write dev1.PM_CS 3\nconfig write dev1.PM_CS 102h\nwrite FENCE3 03F81771h\n\
         write LP_RING_TAIL 12340h\nwrite LP_RING_HEAD A0000104h\nwrite LP_RING_START 3FFF000h\n\
         write LP_RING_LENGTH 1F001h\nwrite IER 1234h\nwrite IMR 4321h\nread4 700000h\n"
    );
    let text = state(&setup);
    let mut asked = Vec::new();
    for (device, heading) in ["Device 0, host bridge", "Device 1, graphics"].into_iter().enumerate() {
        let rows = section(&text, heading);
        let named = rows.iter().filter(|row| row.as_bytes()[2] == b'h');
        asked
            .extend(named.map(|row| (format!("config read dev{device}."), row.split_whitespace().collect::<Vec<_>>())));
    }
    let rows = section(&text, "Memory-mapped registers");
    asked.extend(
        rows.iter().filter(|row| row.starts_with("20")).map(|row| ("read ".into(), row.split_whitespace().collect())),
    );
    assert_eq!(asked.len(), 21 + 25 + 17);
    let reads: Vec<String> = asked.iter().map(|(read, row)| format!("{read}{}\n", row[1])).collect();
    let replay = run_with(&["replay", "-"], format!("{setup}{}", reads.concat()).as_bytes());
    assert_eq!(replay.status, DONE, "{}", replay.errors);
    let answers: Vec<&str> = replay.text.lines().filter(|line| line.contains(" = ")).collect();
    assert_eq!(answers.len(), asked.len(), "{}", replay.text);
    for ((_, row), answer) in asked.iter().zip(answers) {
        assert!(answer.contains(&format!("{} = {}", row[1], row[2])), "{row:?}: {answer}");
    }
    expect_rows(&text, "Device 0", &["A0000h-BFFFFh for management mode; error bit set"]);
    let rows =
        ["10h  GMADR     C0000008h  window at C0000000h", "E0h  PM_CS         0103h  power state D3, PME enabled"];
    expect_rows(&text, "Device 1", &rows);
}

/// Request 3 of document 02: the state that is left is shown, not the one that was written.
#[test]
fn the_power_state_is_told() {
    let hidden = "Device 1, graphics (hidden while GMS is 00)";
    expect_rows(&state(""), hidden, &["E0h  PM_CS         0000h  power state D0, PME not enabled"]);
    for (held, name) in [(0, "D0"), (3, "D3")] {
        for (written, left, left_name) in [(0, 0, "D0"), (1, held, name), (2, held, name), (3, 3, "D3")] {
            for (enable, pme) in [(0, "PME not enabled"), (1, "PME enabled")] {
                let writes = format!("config write dev1.PM_CS {held}\nconfig write dev1.PM_CS {enable}0{written}h\n");
                let row = format!("E0h  PM_CS         0{enable}0{left}h  power state {left_name}, {pme}");
                expect_rows(&state(&format!("{DESK}{writes}")), "Device 1, graphics", &[&row]);
            }
        }
    }
}

#[test]
fn registers_are_told_in_words() {
    let text = state(&format!(
        "{DESK}config write dev0.MISCC 1\nwrite FENCE0 21h\nwrite FENCE1 80101h\nwrite FENCE2 721h\n\
         write LP_RING_LENGTH 1001h\nwrite LP_RING_HEAD 00402004h\nwrite LP_RING_TAIL 10h\n"
    ));
    let device = ["72h  MISCC         0001h  window of 32 MiB"];
    expect_rows(&text, "Device 0", &device);
    let rows = [
        "2000h  FENCE0          00000021h  valid, 512 KiB at 0h, pitch 512, tiled",
        "2004h  FENCE1          00080101h  valid, ill-formed: start 80000h is no",
        "multiple of its size, 1 MiB: refused 9",
        "2008h  FENCE2          00000721h  valid, ill-formed: size code 7: refused 9",
        "200Ch  FENCE3          00000000h  not valid",
        "2020h  PGTBL_CTL       00000001h  translation on",
        "2030h  LP_RING_TAIL    00000010h  offset 10h",
        "2034h  LP_RING_HEAD    00402004h  offset 2004h, not below 2000h: refused 11, 2",
        "203Ch  LP_RING_LENGTH  00001001h  8 KiB, enabled",
    ];
    expect_rows(&text, "Memory-mapped registers", &rows);
    let refused = "every step  refused 11: ring head or tail offset is not below the ring length";
    assert_eq!(section(&text, "Ring"), [refused]);
    let off = state("config write dev0.SMRAM 40h\nconfig write dev1.PCICMD 2\nconfig write dev0.SMRAM 0\n");
    let row = "04h  PCICMD        0006h  memory enabled, but graphics is off";
    expect_rows(&off, "Device 1, graphics (hidden while GMS is 00)", &[row]);
}

#[test]
fn the_table_is_shown_by_range() {
    let text = state(&format!(
        "{DESK}entries 0..15 100000h\nwrite GTT[16] 110007h\nwrite GTT[17] 111007h\nwrite GTT[18] 112003h\n\
         write GTT[19] 113005h\nentries 20..21 6FF000h\nentries 22..23 7FF000h\nwrite GTT[24] 700000h\n\
         write GTT[16383] 3FFFF001h\n"
    ));
    let rows = [
        "entries 0..15         100000h-10FFFFh      main memory",
        "entries 16..17        110000h-111FFFh      main memory (type 11)",
        "entry 18              112000h-112FFFh      refused 5: display cache (type 01)",
        "entry 19              113000h-113FFFh      refused 5: type 10",
        "entry 20              6FF000h-6FFFFFh      main memory",
        "entry 21              700000h-700FFFh      refused 6: protected main memory",
        "entry 22              7FF000h-7FFFFFh      refused 6: protected main memory",
        "entry 23              800000h-800FFFh      refused 7: at or above TOM",
        "entry 16383           3FFFF000h-3FFFFFFFh  refused 7: at or above TOM",
    ];
    assert_eq!(section(&text, "Translation table"), rows);
}

/// Request 10 of document 02: the words are main memory's, whoever wrote them.
#[test]
fn a_table_in_main_memory_is_shown_with_its_place() {
    let text = state_on(
        "82810-main",
        &format!(
            "{DESK}write PGTBL_CTL 200001h\nentries 0..15 100000h\nword 200040h C0110FFFh C0111007h 112003h\n\
             master write4 20004Ch 6FF001h\nwrite GTT[20] 700000h\nentry 21 700000h\nwrite4 20FFFCh FFFFFFF9h\n"
        ),
    );
    assert!(text.starts_with("State: board 82810-main, 8 MiB, after "), "{text}");
    expect_rows(&text, "Device 0, host bridge", &["02h  DID           7120h  82810"]);
    let control = "2020h  PGTBL_CTL       00200001h  translation on, table at 200000h";
    expect_rows(&text, "Memory-mapped registers", &[control]);
    let rows = [
        "in main memory        200000h-20FFFFh      by PGTBL_CTL's bits 31:12",
        "entries 0..15         100000h-10FFFFh      main memory",
        "entries 16..17        110000h-111FFFh      main memory (type 11)",
        "entry 18              112000h-112FFFh      refused 5: display cache (type 01)",
        "entry 19              6FF000h-6FFFFFh      main memory",
        "entry 21              700000h-700FFFh      refused 6: protected main memory",
        "entry 16383           3FFFF000h-3FFFFFFFh  refused 7: at or above TOM",
    ];
    assert_eq!(section(&text, "Translation table"), rows);
    let cold = state_on("dc100-main", "");
    expect_rows(&cold, "Device 0, host bridge", &["02h  DID           7122h  82810-DC100"]);
    let rows = ["in main memory        0h-FFFFh             by PGTBL_CTL's bits 31:12", "no valid entry"];
    assert_eq!(section(&cold, "Translation table (off: every access through it is refused 3)"), rows);
}

/// Words that no access reaches are told by range.
#[test]
fn a_table_that_is_protected_or_past_the_top_is_told() {
    for (base, rows) in [
        ("A0001h", &["words 0..16383        A0000h-AFFFFh        refused 6: in protected memory"][..]),
        ("6FF001h", &["words 1024..16383     700000h-70EFFFh      refused 6: in protected memory"]),
        (
            "7FF001h",
            &[
                "words 0..1023         7FF000h-7FFFFFh      refused 6: in protected memory",
                "words 1024..16383     800000h-80EFFFh      refused 7: at or above TOM",
            ],
        ),
        ("FFFFF001h", &["words 0..16383        FFFFF000h-10000EFFFh  refused 7: at or above TOM"]),
    ] {
        let ring = "write LP_RING_START 400000h\nwrite LP_RING_LENGTH 1\nwrite LP_RING_TAIL 10h\n";
        let text = state_on("2", &format!("{DESK}write PGTBL_CTL {base}\n{ring}"));
        assert_eq!(&section(&text, "Translation table")[1..], rows, "{base}");
        let refused = match base {
            "A0001h" => "refused 6: word 1024 of the table, at A1000h, is",
            "6FF001h" => "refused 6: word 1024 of the table, at 700000h, is",
            "7FF001h" => "refused 7: word 1024 of the table, at 800000h, is",
            _ => "refused 7: word 1024 of the table, at 100000000h,",
        };
        expect_rows(&text, "Ring, 4 words", &[&format!("00000h                  4  {refused}")]);
    }
}

/// Any memory may be taken for a table: an image of valid words that do not count up.
#[test]
fn a_long_table_in_main_memory_is_cut() {
    let image = cli::folder("long-table").join("image");
    std::fs::write(&image, [0x01, 0x00, 0x10, 0x00].repeat(16_384)).expect("an image");
    let words = ["state", "--board=3", "--memory=8M", "--image", &cli::word(&image), "-"];
    let run = run(&words);
    assert_eq!((run.status, run.errors.as_str()), (DONE, ""));
    let rows = section(&run.text, "Translation table");
    assert_eq!((rows.len(), rows[65]), (66, ".. and 16,320 more words"));
    let map = cli::run(&[&["map"], &words[1..]].concat());
    assert!(
        map.text.ends_with(
            "  window 003F000-003FFFF  entry 63              memory 00100000-00100FFF\n  .. and 16,320 more words\n"
        ),
        "{}",
        map.text
    );
}

/// A ring of two pages whose head has passed the tail.
#[test]
fn the_rings_words_are_named_from_head_to_tail() {
    let ring = "entry 0 100000h\nentry 1 A0000h\nwrite LP_RING_LENGTH 1001h\nwrite LP_RING_HEAD FECh\n\
                write LP_RING_TAIL 20h\nwrite4 100FF0h 01000000h\nwrite4 100FF4h 02000000h\n\
                write4 100FF8h 02000001h\nwrite4 100FFCh 12345678h\nwrite4 10001Ch 01000000h\n";
    let text = state(&format!("{DESK}{ring}"));
    let rows = [
        "offset    address   words  instruction",
        "00FECh    100FECh       1  noop",
        "00FF0h    100FF0h       1  user_interrupt",
        "00FF4h    100FF4h       1  flush",
        "00FF8h    100FF8h       1  flush (02000001h)",
        "00FFCh    100FFCh       1  unknown 12345678h: refused 12",
        "01000h              1,024  refused 6: entry 1's page A0000h is protected",
        "00000h    100000h       7  noop",
        "0001Ch    10001Ch       1  user_interrupt",
    ];
    assert_eq!(section(&text, "Ring, 1,037 words from head to tail"), rows);
    let off = state(&format!("{DESK}{ring}write PGTBL_CTL 0\n"));
    let found = section(&off, "Ring, 1,037 words from head to tail");
    assert_eq!(found[1], "00FECh              1,029  refused 3: translation is off");
    assert_eq!(found[2], "00000h                  8  refused 3: translation is off");
}

#[test]
fn a_long_ring_is_cut() {
    let ring = "entries 0..511 100000h\nwrite LP_RING_LENGTH 1FF001h\nwrite LP_RING_TAIL 1FFFF8h\n";
    let words: String = (0..40).map(|word| format!("write4 {:X}h {word}\n", 0x10_0000 + 4 * word)).collect();
    let text = state(&format!("{DESK}{ring}{words}"));
    let found = section(&text, "Ring, 524,286 words from head to tail");
    assert_eq!(found.len(), 34);
    assert_eq!(found[32], "0007Ch    10007Ch       1  noop (0000001Fh)");
    assert_eq!(found[33], ".. and 524,254 more words");
}

/// Neither the key nor anything that depends on it is shown, wherever ring and table are aimed.
#[test]
fn nothing_depends_on_the_key() {
    let text = |key: &str| {
        let keys: String =
            ["A0000h", "A0004h", "A1000h", "700000h", "7FFFF8h"].map(|at| format!("smm write4 {at} {key}\n")).concat();
        let ring = "entries 0..1 A0000h\nentry 2 700000h\nentry 3 100000h\nentry 4 7FF000h\nwrite LP_RING_TAIL 4FF8h\n\
                    write LP_RING_LENGTH 4001h\nrun 10\nconfig write dev0.SMRAM 7Eh\n";
        state(&format!("{DESK}{keys}{ring}"))
    };
    let first = text("4B455921h");
    assert_eq!(first, text("01000000h"));
    assert!(!first.contains("4B455921"), "{first}");
    expect_rows(&first, "Ring", &["03000h    100000h   1,024  noop"]);
}

/// Nor does what was protected before a reset, or will be: the parser's fetch is answered there.
#[test]
fn the_rings_words_in_memory_that_is_protected_at_some_time_are_left_out() {
    let ring = "config write dev1.GMADR C0000000h\nconfig write dev1.MMADR F0000000h\nconfig write dev1.PCICMD 2\n\
                entry 0 A0000h\nwrite PGTBL_CTL 1\nwrite LP_RING_LENGTH 1\nwrite LP_RING_TAIL 10h\n";
    let key = "smm word A0000h 4B455921h 4B455921h 01000000h\n";
    let before = format!("config write dev0.SMRAM 44h\n{key}{ring}");
    let after = format!("config write dev0.SMRAM 4Ch\n{key}reset\nconfig write dev0.SMRAM 44h\n{ring}");
    let open = state(&before);
    expect_rows(&open, "Ring", &["00000h     A0000h       2  unknown 4B455921h: refused 12"]);
    for list in
        [format!("{before}reset\nconfig write dev0.SMRAM 4Eh\nreset\nconfig write dev0.SMRAM 44h\n{ring}"), after]
    {
        let text = state(&list);
        assert!(!text.contains("4B455921"), "{text}");
        expect_rows(&text, "Ring", &["00000h     A0000h       4  \u{B7}\u{B7}"]);
    }
}

/// Nor do the words of a table there, nor anything that they lead to: protected now, before, or later.
#[test]
fn a_table_in_memory_that_is_protected_at_some_time_is_left_out() {
    let list = |key: &str, smram: &str, open: &str| {
        let setup =
            format!("config write dev0.SMRAM {smram}\nsmm word A0000h {key}\nreset\nconfig write dev0.SMRAM {open}\n");
        let ring = "config write dev1.GMADR C0000000h\nconfig write dev1.MMADR F0000000h\nconfig write dev1.PCICMD 2\n\
                    write PGTBL_CTL 9F001h\nwrite LP_RING_START 3FF000h\nwrite LP_RING_LENGTH 2001h\nwrite LP_RING_TAIL 2FF8h\n\
                    write4 9FFFCh 100001h\n";
        format!("{setup}{ring}")
    };
    // A good entry, one that is not valid, of another type, of a protected page, past the top.
    let keys = ["345001h 346001h", "345000h 346000h", "345003h 346001h", "A0001h 346001h", "12345001h 12346001h"];
    for board in ["82810-main", "dc100-main"] {
        for open in ["44h", "40h"] {
            let texts = keys.map(|key| state_on(board, &list(key, "4Ch", open)));
            assert!(texts.iter().all(|text| *text == texts[0]), "{}", texts[0]);
            let rows = [
                "in main memory        9F000h-AEFFFh        by PGTBL_CTL's bits 31:12",
                "entry 1023            100000h-100FFFh      main memory",
                "words 1024..16383     A0000h-AEFFFh        \u{B7}\u{B7}",
            ];
            assert_eq!(section(&texts[0], "Translation table"), rows);
            let rows = ["00000h    100000h   1,024  noop", "01000h         \u{B7}\u{B7}   2,046  \u{B7}\u{B7}"];
            assert_eq!(&section(&texts[0], "Ring, 3,070 words")[1..], rows);
            let map = |key: &str| run_with(&["map", "--board", board, "-"], list(key, "4Ch", open).as_bytes()).text;
            assert_eq!(map(keys[0]), map(keys[1]));
            let row = "  window 0400000-3FFFFFF  words 1024..16383     \u{B7}\u{B7} 000A0000-000AEFFF\n";
            assert!(map(keys[0]).ends_with(row), "{}", map(keys[0]));
        }
    }
    // Never protected: it is everybody's.
    let shown = state_on("82810-main", &list(keys[0], "44h", "44h"));
    expect_rows(&shown, "Translation table", &["entries 1024..1025    345000h-346FFFh      main memory"]);
}

/// The bytes of each device of a dump.
fn dumped(text: &str) -> Vec<(String, Vec<u8>)> {
    let mut devices: Vec<(String, Vec<u8>)> = Vec::new();
    for line in text.lines().filter(|line| !line.is_empty()) {
        match line.split_once(": ") {
            Some((at, bytes)) if at.len() == 2 => {
                let device = &mut devices.last_mut().expect("a device's line first").1;
                assert_eq!(usize::from_str_radix(at, 16), Ok(device.len()), "{line}");
                device.extend(bytes.split(' ').map(|byte| u8::from_str_radix(byte, 16).expect("a byte")));
            }
            _ => devices.push((line.to_string(), Vec::new())),
        }
    }
    devices
}

#[test]
fn configuration_space_is_dumped_for_lspci() {
    let desk = example("desk.trace");
    let alone = run(&["state", "--lspci", &desk]);
    assert_eq!((alone.status, alone.errors.as_str()), (DONE, ""));
    let devices = dumped(&alone.text);
    let names: Vec<&str> = devices.iter().map(|(name, _)| name.as_str()).collect();
    assert_eq!(
        names,
        ["00:00.0 Host bridge: Intel Corporation 82810", "00:01.0 VGA compatible controller: Intel Corporation 82810"]
    );
    assert!(devices.iter().all(|(_, bytes)| bytes.len() == 256));
    assert_eq!(devices[0].1[..4], [0x86, 0x80, 0x20, 0x71]);
    assert_eq!(devices[0].1[0x70], 0xBF);
    assert_eq!(devices[1].1[0x10..0x18], [0x08, 0, 0, 0xC0, 0, 0, 0, 0xF0]);
    assert!(run(&["state", &desk]).text.ends_with(&format!("\n{}\n", alone.text.trim_end())));
    assert_eq!(dumped(&run(&["state", "--lspci", "-"]).text).len(), 1);
}

/// A list longer than a call, whose last call is as long as a call may be, on the memory of all.
#[test]
fn a_long_list_is_replayed_in_calls() {
    let setup = run_with(&["asm", "-"], format!("{DESK}entry 0 100000h\nwrite LP_RING_LENGTH 1\n").as_bytes()).out;
    let mut records = vec![Record::write(0x10_0000, 4, 0x0100_0000, false), Record::reset()];
    records.extend(record::decode(&setup));
    records.push(Record::write(0xF000_2030, 4, 8, false));
    records.resize(65_536, Record::read(0x1000, 4, false));
    let run = run_with(&["state", "-"], &record::encode(&records));
    assert_eq!((run.status, run.errors.as_str()), (DONE, ""));
    assert!(run.text.starts_with("State: board 82810, 8 MiB, after 65,536 records\n"), "{}", run.text);
    expect_rows(&run.text, "Ring, 2 words", &["00000h    100000h       1  user_interrupt"]);
    records[1] = Record::read(0x1000, 4, false);
    assert_eq!(run_with(&["state", "-"], &record::encode(&records)).status, INPUT);
}

#[test]
fn wrong_words_are_told() {
    for (words, part) in [
        (&["state"][..], "expected a file ('-' is standard input)"),
        (&["state", "--image", "-", "-"], "FILE and --image cannot both be standard input"),
        (&["state", "--lspci=1", "-"], "--lspci takes no value"),
    ] {
        let run = run(words);
        assert_eq!(run.status, USAGE);
        assert!(run.errors.contains(part), "{}", run.errors);
    }
}
