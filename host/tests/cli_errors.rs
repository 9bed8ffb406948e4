//! Wrong command lines and malformed input: a message that names the place, the right exit status, and
//! nothing written.

mod cli;

use cli::{examples, folder, names, run, run_with, word, DONE, FILE, INPUT, UNMET, USAGE};
use std::fs;

#[test]
fn a_wrong_command_line_is_told_with_status_2() {
    for (words, part) in [
        (&["play"][..], "expected a command (replay, asm, disasm, "),
        (&["help", "play"], "no help on 'play'"),
        (&["help", "map", "demo"], "expected one command after 'help'"),
        (&["replay"], "expected a file ('-' is standard input)"),
        (&["asm"], "expected a file"),
        (&["disasm"], "expected a file"),
        (&["audit"], "expected a file"),
        (&["replay", "a", "b"], "expected one file, found 'b' too"),
        (&["demo", "a"], "expected no file, found 'a'"),
        (&["replay", "--bord", "82810", "-"], "unknown option '--bord'"),
        (&["replay", "-x", "-"], "unknown option '-x'"),
        (&["replay", "-", "--board"], "--board needs a value"),
        (&["replay", "-", "--answers", ""], "--answers needs a value"),
        (&["replay", "-", "--answers="], "--answers needs a value"),
        (&["replay", ""], "expected a file, found ''"),
        (&["replay", "--board", "82815", "-"], "--board: expected the number or the name of one of 0 82810, 1 dc100, "),
        (&["map", "--board=4"], "one of 0 82810, 1 dc100, 2 82810-main, 3 dc100-main, found '4'"),
        (&["state", "--board", "main", "-"], "found 'main'"),
        (&["audit", "--board=-1", "-"], "found '-1'"),
        (&["compare", "--board", "dc100-", "-"], "found 'dc100-'"),
        (&["replay", "--board=82810", "--board=dc100", "-"], "--board is given twice"),
        (&["replay", "--memory", "16X", "-"], "--memory: expected a size such as 16M, found '16X'"),
        (&["replay", "--memory", "12M", "-"], "--memory: expected a multiple of 8M from 8M to 1G, found '12M'"),
        (&["replay", "--memory", "0", "-"], "--memory: expected a multiple of 8M"),
        (&["replay", "--memory", "1032M", "-"], "--memory: expected a multiple of 8M from 8M to 1G, found '1032M'"),
        (&["state", "--memory", "1073741825", "-"], "--memory: expected a multiple of 8M from 8M to 1G, found '1073"),
        (&["map", "--memory=40800000h"], "--memory: expected a multiple of 8M from 8M to 1G, found '40800000h'"),
        (&["compare", "--memory", "2G", "-"], "--memory: expected a multiple of 8M from 8M to 1G, found '2G'"),
        (&["audit", "--memory", "4G", "-"], "--memory: expected a multiple of 8M from 8M to 1G, found '4G'"),
        (&["replay", "--memory", "4194305G", "-"], "--memory: expected a multiple of 8M from 8M to 1G"),
        (&["replay", "--memory", "99999999999G", "-"], "--memory: expected a size such as 16M"),
        (&["replay", "--text", "--binary", "-"], "--text and --binary exclude each other"),
        (&["replay", "--text=yes", "-"], "--text takes no value"),
        (&["replay", "--color", "sometimes", "-"], "--color: expected auto, always or never, found 'sometimes'"),
        (&["replay", "--image", "-", "-"], "FILE and --image cannot both be standard input"),
        (&["map", "--image", "-", "-"], "FILE and --image cannot both be standard input"),
        (&["replay", "--board=1", "--display", "-", "-"], "FILE and --display cannot both be standard input"),
        (&["map", "--board=1", "--display=-", "--image=-"], "--image and --display cannot both be standard input"),
        (&["replay", "--answers", "x", "--dump", "x", "-"], "--answers and --dump name the same file"),
        (&["replay", "--answers", "-", "--dump", "-", "-"], "--answers and --dump name the same file"),
        (&["replay", "--dump", "-", "-"], "--dump - needs --answers FILE"),
        (&["map", "--smram", "100h"], "--smram: expected a byte, found 100h"),
        (&["map", "--smram", "BE"], "--smram: expected a number such as 4096, 0x1000 or 1000h, found 'BE'"),
        (&["map", "--smram", "40h", "-"], "--smram and FILE exclude each other"),
        (&["map", "--smram", "40h", "--window", "C2000000h"], "--window: expected a multiple of 4000000h"),
        (&["map", "--smram", "40h", "--registers", "F0001000h"], "--registers: expected a multiple of 80000h"),
        (&["map", "--window", "C0000000h"], "act only while GMS (SMRAM bits 7:6) is not 00"),
        (&["map", "--window-size", "16M"], "--window-size: expected 32M or 64M, found '16M'"),
        (&["audit", "--deny", "pages", "-"], "--deny: expected 'all' or one of 2 width, 3 translation-off"),
        (&["audit", "--deny", "1", "-"], "found '1'"),
        (&["audit", "--deny", "6,", "-"], "found ''"),
        (&["audit", "-", "-"], "standard input can be read only once"),
        (&["audit", "--image", "-", "-"], "FILE and --image cannot both be standard input"),
    ] {
        let run = run(words);
        assert_eq!(run.status, USAGE, "{words:?}: {}", run.errors);
        assert!(run.errors.contains(part), "{words:?}: {}", run.errors);
        assert!(run.errors.starts_with("mitrophel: "), "{words:?}: {}", run.errors);
        assert!(run.out.is_empty(), "{words:?}");
    }
}

#[test]
fn no_command_at_all_gives_the_overview_on_standard_error() {
    let run = run::<&str>(&[]);
    assert_eq!((run.status, run.out.as_slice()), (USAGE, &b""[..]));
    assert!(run.errors.starts_with("Usage: mitrophel COMMAND"), "{}", run.errors);
}

/// Every kind of malformed input, for every command that reads it.
#[test]
fn malformed_input_is_told_with_its_place_and_nothing_is_written() {
    let folder = folder("malformed");
    let output = word(&folder.join("output"));
    let dump = word(&folder.join("dump"));
    let trace = |command: &'static str| match command {
        "replay" => vec!["replay", "--answers", &output, "--dump", &dump, "-"],
        "asm" => vec!["asm", "-o", &output, "-"],
        "disasm" => vec!["disasm", "-o", &output, "-"],
        "map" => vec!["map", "--svg", &output, "-"],
        command => vec![command, "-"],
    };
    let texts: [(&[u8], &str); 7] = [
        (b"reset\nread4\n", "standard input:2:6: expected an address"),
        (b"reset\r\n  peek 5\r\n", "standard input:2:3: expected an access"),
        (b"write FENCE0 21h\n", "standard input:1:7: FENCE0 stands at MMADR, which is 0 here"),
        (b"raw 01\n", "standard input:1:7: expected byte 1 of 16"),
        (b"run 99999999999\n", "standard input:1:5: expected a number of at most 32 bits"),
        (b"read4 5 6", "standard input:1:9: expected the end of the line, found '6'"),
        ("read4 \u{20ac}\n".as_bytes(), "standard input:1:7: expected an address"),
    ];
    for (text, part) in texts {
        for command in ["replay", "asm", "map", "audit"] {
            let run = run_with(&trace(command), text);
            assert_eq!(run.status, INPUT, "{command}: {}", run.errors);
            assert!(run.errors.starts_with(part), "{command}: {}", run.errors);
            assert!(run.out.is_empty(), "{command}: {}", run.text);
            assert_eq!(names(&folder), [""; 0], "{command}");
        }
    }
    for length in [1, 15, 17, 31, 16 * 65_535 + 1] {
        let part = format!("expected a whole number of 16-byte records, found {} byte", length % 16);
        for command in ["replay", "disasm", "map", "audit"] {
            let run = run_with(&trace(command), &vec![0; length]);
            assert_eq!(run.status, INPUT, "{command}: {}", run.errors);
            assert!(run.errors.contains(&part), "{command}: {}", run.errors);
            assert!(run.out.is_empty(), "{command}: {}", run.text);
            assert_eq!(names(&folder), [""; 0], "{command}");
        }
    }
}

/// What is no text is an error of a text's reader, and what is no list one of a list's.
#[test]
fn the_wrong_form_is_told() {
    let trace = fs::read(examples().join("02-records-and-answers.trace")).expect("a trace");
    let records = run_with(&["asm", "-"], &trace).out;
    let asm = run_with(&["asm", "-"], &records);
    assert_eq!(asm.status, INPUT);
    let lists =
        "mitrophel: standard input: expected a text trace, found the binary form, which 'mitrophel disasm' lists";
    assert_eq!(asm.errors, lists, "nothing of the records is shown: they may hold a key");
    let disasm = run_with(&["disasm", "-"], &trace);
    assert_eq!(disasm.status, INPUT);
    let makes = "standard input: warning: has no control characters, as a text trace has none; 'mitrophel asm' makes";
    assert!(disasm.errors.starts_with(makes), "{}", disasm.errors);
    let listed = run_with(&["disasm", "-"], b"read4 1000h #16\n");
    assert_eq!(listed.status, DONE, "any bytes are a list");
    assert!(listed.errors.starts_with(makes) && listed.text.starts_with("raw 72 65 61 64 34 "), "{}", listed.text);
    let file = word(&folder("wrong-form").join("list"));
    fs::write(&file, &records).expect("a list");
    for option in ["--check", "--bless"] {
        let run = run(&["replay", option, &file]);
        assert_eq!(run.status, INPUT, "{option}");
        assert!(run.errors.contains("expected a text trace, since '#>' stands in it, found the bin"), "{}", run.errors);
    }
    let text = run_with(&["replay", "--text", "-"], &records);
    assert_eq!(text.status, INPUT);
    assert!(!text.errors.contains('\u{0}'), "control characters are not shown");
}

#[test]
fn an_image_that_does_not_fit_is_told() {
    let folder = folder("images");
    let image = word(&folder.join("image.bin"));
    fs::write(&image, vec![0; (8 << 20) + 1]).expect("an image");
    let run = run_with(&["replay", "--memory", "8M", "--image", &image, "-"], b"");
    assert_eq!(run.status, INPUT);
    assert!(run.errors.contains("expected an image of at most 8388608 bytes"), "{}", run.errors);
    let run = run_with(&["replay", "--image", &image, "-"], b"");
    assert_eq!(run.status, INPUT);
    assert!(
        run.errors.contains("expected an image of a multiple of 8M from 8M to 1G, found 8388609"),
        "{}",
        run.errors
    );
    let run = run_with(&["replay", "--memory", "16M", "--image", &image, "-"], b"");
    assert_eq!(run.status, 0, "{}", run.errors);
}

#[test]
fn files_that_cannot_be_read_or_written_are_told_with_status_4() {
    let folder = folder("unreadable");
    let (inside, own) = (word(&folder.join("no").join("file")), word(&folder));
    for (words, part) in [
        (vec!["replay", &inside], "file: No such file or directory"),
        (vec!["disasm", &inside], "file: No such file or directory"),
        (vec!["audit", &inside], "file: No such file or directory"),
        (vec!["replay", &own], "Is a directory"),
        (vec!["asm", "-", "-o", &inside], "file: No such file or directory"),
        (vec!["asm", "-", "-o", &own], "is a directory"),
        (vec!["map", "--svg", &inside], "file: No such file or directory"),
        (vec!["replay", "-", "--image", &inside], "file: No such file or directory"),
        (vec!["replay", "-", "--answers", &inside], "file: No such file or directory"),
    ] {
        let run = run(&words);
        assert_eq!(run.status, FILE, "{words:?}: {}", run.errors);
        assert!(run.errors.to_lowercase().contains(&part.to_lowercase()), "{words:?}: {}", run.errors);
        assert_eq!(names(&folder), [""; 0]);
    }
}

/// If one of two outputs cannot be written, the other is not there either.
#[test]
fn two_outputs_appear_together_or_not_at_all() {
    let folder = folder("together");
    let (good, bad) = (word(&folder.join("good")), word(&folder.join("no").join("bad")));
    for words in [["--answers", &good, "--dump", &bad], ["--answers", &bad, "--dump", &good]] {
        let run = run_with(&[&["replay", "-"], &words[..]].concat(), b"reset\n");
        assert_eq!(run.status, FILE);
        assert_eq!(names(&folder), [""; 0]);
    }
}

/// Control characters of an input are never sent to the terminal.
#[test]
fn messages_hold_no_control_characters_of_the_input() {
    let run = run_with(&["asm", "-"], b"read4 \x1b[31mFOO\x07\n");
    assert_eq!(run.status, INPUT);
    assert!(!run.errors.contains(['\x1b', '\x07']), "{:?}", run.errors);
    let run = run_with(&["replay", "--check", "--text", "-"], "reset #> \x1b[31mhub\u{9b}\n".as_bytes());
    assert_eq!(run.status, UNMET);
    assert!(run.text.contains("\n- \\x1b[31mhub\\xc2\\x9b\n"), "{:?}", run.text);
    for text in ["read4 \u{202e}1000h\n", "include a\u{202e}b\n", "include \"gone\u{2028}\"\n"] {
        let run = run_with(&["asm", "-"], text.as_bytes());
        assert_eq!(run.status, INPUT, "{text:?}");
        assert!(!run.errors.contains(['\u{202e}', '\u{2028}']), "{text:?}: {:?}", run.errors);
    }
}
