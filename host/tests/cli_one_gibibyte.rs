//! Request 6 of document 02, "One gibibyte", as a user meets it: the length in each command, images and dumps of it, what
//! is told of its top, and that memory which nobody has touched takes up nothing.

mod cli;

use cli::{finished, folder, names, program, run, run_with, word, DONE, INPUT};
use std::ffi::c_int;
use std::fs::{self, File};
use std::io::Read;
use std::os::unix::fs::{FileExt, MetadataExt};
use std::path::Path;
use std::process::{Command, Stdio};

const GIB: u64 = 1 << 30;

/// 512 KiB taken from 3FE80000h, the TSEG from 3FF00000h, and entries of the pages on both sides of the TSEG's start.
const TOP: &str = "\
config write dev0.SMRAM BCh
config write dev1.GMADR C0000000h
config write dev1.MMADR F0000000h
config write dev1.PCICMD 2
write PGTBL_CTL 00300001h
entry 0 3FEFF000h
entry 1 3FF00000h
entry 2 3FFFF000h
smm write4 3FF00000h 4B455921h
config write dev0.SMRAM BEh
write4 WINDOW+FFCh 600D0001h
read4 WINDOW+1000h
smm read4 3FFFFFFCh
";

extern "C" {
    fn getrusage(who: c_int, usage: *mut [i64; 18]) -> c_int;
}

/// The most memory, in bytes, that a program that this one has run and waited for had at once.
fn most_resident() -> i64 {
    const CHILDREN: c_int = -1;
    const MOST_KIB: usize = 4;
    let mut usage = [0; 18];
    // SAFETY: it fills the structure, two times of two numbers each and 14 numbers, and keeps no pointer.
    assert_eq!(unsafe { getrusage(CHILDREN, &mut usage) }, 0);
    usage[MOST_KIB] << 10
}

#[test]
fn every_command_takes_one_gibibyte_and_little_memory() {
    let allowed = "Registers, table and 1,072,562,176 unprotected bytes: equal.";
    let main = "Registers and 1,072,562,176 unprotected bytes, the table words among them:\n";
    for (words, part) in [
        (&["replay", "--memory", "1G", "-"][..], "memory 3FEFFFFCh takes 600D0001h"),
        (&["state", "--memory=1024M", "-"], "State: board 82810, 1 GiB, after 18 records\n"),
        (&["map", "--memory", "1073741824", "-"], "Memory ends at TOM, 40000000h, ordinary memory at U, 3FE80000h.\n"),
        (&["audit", "--memory", "40000000h", "-"], "     6  protected                               1\n"),
        (&["audit", "--compare", "--memory", "1g", "-"], "     6  entry 1                                 1\n"),
        (&["compare", "--memory", "0x40000000", "-"], allowed),
        (&["compare", "--memory", "1G", "--board", "82810-main", "-"], main),
    ] {
        let run = run_with(words, TOP.as_bytes());
        assert_eq!((run.status, run.errors.as_str()), (DONE, ""), "{words:?}");
        assert!(run.text.contains(part), "{words:?}: {}", run.text);
    }
    let most = most_resident();
    assert!((1 << 20..128 << 20).contains(&most), "{most} bytes");
}

/// Lengths between the old bound and the new one are good.
#[test]
fn the_last_word_of_each_length_is_memory() {
    for (length, last) in [("520M", "207FFFFCh"), ("1016M", "3F7FFFFCh")] {
        let run = run_with(&["replay", "--memory", length, "-"], format!("read4 {last}\n").as_bytes());
        assert_eq!((run.status, run.errors.as_str()), (DONE, ""), "{length}");
        assert!(run.text.contains(&format!("memory {last} = 00000000h")), "{length}: {}", run.text);
    }
}

/// An image, from a file or from a pipe; and one of a byte more, of which nothing comes.
#[test]
fn an_image_has_one_gibibyte_at_most() {
    let folder = folder("gibibyte-image");
    let (image, trace) = (word(&folder.join("image")), word(&folder.join("trace")));
    fs::write(&trace, "read4 0h\nread4 3FFFFFFCh\n").expect("a trace");
    let file = File::create(&image).expect("an image");
    file.write_all_at(&[0x24, 0x10, 0, 0], GIB - 4).expect("the image's last word");
    let asked = |words: &[&str], input: Stdio| {
        let mut command = program();
        command.arg("replay").args(words).arg(&trace).stdin(input);
        let run = finished(command.output().expect("the program ends"));
        assert_eq!((run.status, run.errors.as_str()), (DONE, ""), "{words:?}");
        assert!(run.text.contains("memory 3FFFFFFCh = 00001024h"), "{words:?}: {}", run.text);
    };
    asked(&["--image", &image], Stdio::null());
    let mut cat = Command::new("cat").arg(&image).stdout(Stdio::piped()).spawn().expect("cat starts");
    asked(&["--memory", "1G", "--image", "-"], cat.stdout.take().expect("a pipe").into());
    assert!(cat.wait().expect("cat ends").success());
    file.set_len(GIB + 1).expect("a longer image");
    let outputs = ["--answers", &word(&folder.join("answers")), "--dump", &word(&folder.join("dump"))];
    for (words, part) in [
        (&["--image", &image][..], "image: expected an image of a multiple of 8M from 8M to 1G, found more; with"),
        (
            &["--memory", "1G", "--image", &image],
            "image: expected an image of at most 1073741824 bytes, the memory's length, found more",
        ),
    ] {
        let run = run(&[&["replay"], words, &outputs, &[&trace]].concat());
        assert_eq!((run.status, run.text.as_str()), (INPUT, ""), "{words:?}");
        assert!(run.errors.contains(part), "{words:?}: {}", run.errors);
        assert_eq!(names(&folder), ["image", "trace"]);
    }
}

/// Asks that there is 1 GiB of zeros but for these words.
fn holds(mut dump: impl Read, words: &[(u64, u32)]) {
    const BLOCK: usize = 1 << 20;
    let (mut found, mut expected) = (vec![0; BLOCK], vec![0; BLOCK]);
    for start in (0..GIB).step_by(BLOCK) {
        expected.fill(0);
        for (place, value) in words.iter().filter(|(place, _)| (start..start + BLOCK as u64).contains(place)) {
            let at = (place - start) as usize;
            expected[at..at + 4].copy_from_slice(&value.to_le_bytes());
        }
        dump.read_exact(&mut found).expect("1 GiB");
        assert!(found == expected, "from {start:X}h");
    }
    assert_eq!(dump.read(&mut found).expect("the end"), 0);
}

/// Whether a file system has holes.
fn has_holes(folder: &Path) -> bool {
    let path = folder.join("hole");
    File::create(&path).and_then(|file| file.set_len(GIB)).expect("a file");
    let blocks = fs::metadata(&path).expect("the file").blocks();
    fs::remove_file(path).expect("the file goes");
    blocks == 0
}

/// Whole in a file, where zeros take up no room, and through a pipe.
#[test]
fn a_dump_has_one_gibibyte() {
    let folder = folder("gibibyte-dump");
    let (dump, trace) = (folder.join("dump"), word(&folder.join("trace")));
    let words = [(0x1_0000, 1), (0x2000_0000, 0x0051_3000), (0x3FEF_FFFC, 0x600D_0001), (GIB - 4, 0x1024)];
    let writes = words.map(|(place, value)| format!("write4 {place:X}h {value:X}h\n"));
    fs::write(&trace, writes.concat()).expect("a trace");
    let run = run(&["replay", "--memory", "1G", "--dump", &word(&dump), &trace]);
    assert_eq!((run.status, run.errors.as_str()), (DONE, ""));
    let file = File::open(&dump).expect("the dump");
    for (place, value) in words {
        let mut around = [9; 12];
        let start = (place - 4).min(GIB - 12);
        file.read_exact_at(&mut around, start).expect("a place of the dump");
        let mut expected = [0; 12];
        expected[(place - start) as usize..][..4].copy_from_slice(&u32::to_le_bytes(value));
        assert_eq!(around, expected, "{place:X}h");
    }
    let data = file.metadata().expect("the dump");
    assert_eq!(data.len(), GIB);
    assert!(512 * data.blocks() < 1 << 20 || !has_holes(&folder), "{} blocks", data.blocks());
    assert_eq!(names(&folder), ["dump", "trace"]);

    let mut command = program();
    command.args(["replay", "--memory", "1G", "--answers", "/dev/null", "--dump", "-", &trace]);
    let mut child = command.stdout(Stdio::piped()).spawn().expect("the program starts");
    holds(child.stdout.take().expect("a pipe"), &words);
    assert!(child.wait().expect("the program ends").success());
}

#[test]
fn a_map_shows_the_top_of_one_gibibyte() {
    let map = |words: &[&str]| {
        let run = run(&[&["map", "--memory", "1G"], words].concat());
        assert_eq!((run.status, run.errors.as_str()), (DONE, ""), "{words:?}");
        run.text
    };
    let above = map(&["--smram", "BEh", "--window", "40000000h", "--registers", "80000000h"]);
    for line in [
        "Address map: board 82810, 1 GiB, SMRAM BEh",
        "Window: 64 MiB at 40000000h (GMADR).",
        "Registers: 512 KiB at 80000000h (MMADR).",
        "  00100000-3FE7FFFF  memory (4)     memory (4)      memory (4) memory    main",
        "  3FE80000-3FEFFFFF  hub (5)        hub (5)         hub        memory    taken",
        "* 3FF00000-3FFFFFFF  hub, error (5) memory (5)      hub        refused 6 TSEG",
        "  40000000-43FFFFFF  window (8)     window (8)      hub        -         WINDOW",
        "  44000000-7FFFFFFF  hub (9)        hub (9)         hub        -",
        "  80000000-8007FFFF  registers (7)  registers (7)   hub        -         MMIO",
    ] {
        assert!(above.lines().any(|found| found == line), "{line}\n{above}");
    }
    assert!(!above.contains("refused 7"), "every page that an entry can name is below TOM\n{above}");
    // "The address map's order stays."
    let below = map(&["--smram", "BEh", "--window", "20000000h", "--registers", "3FF80000h", "--svg", "-"]);
    for part in [
        ">Window: 64 MiB at 20000000h (GMADR), hidden below TOM.<",
        ">Registers: 512 KiB at 3FF80000h (MMADR), hidden below TOM.<",
        "<title>protected: 3FF00000h-3FFFFFFFh</title>",
        ">40000000h<",
    ] {
        assert!(below.contains(part), "{part}\n{below}");
    }
    assert!(!below.contains("window (8)") && !below.contains("registers (7)"), "{below}");
}

#[test]
fn the_state_shows_the_top_of_one_gibibyte() {
    let shown = |board: &str| {
        let ring = "write LP_RING_START 2000h\nwrite LP_RING_LENGTH 1\nwrite LP_RING_TAIL 8\n";
        let run = run_with(&["state", "--memory", "1G", "--board", board, "-"], format!("{TOP}{ring}").as_bytes());
        assert_eq!((run.status, run.errors.as_str()), (DONE, ""), "{board}");
        run.text
    };
    let text = shown("82810");
    for line in [
        "  TOM        40000000h  memory ends",
        "  U          3FE80000h  ordinary memory ends",
        "  protected  3FF00000h  to 3FFFFFFFh",
        "  entry 0               3FEFF000h-3FEFFFFFh  main memory",
        "  entry 1               3FF00000h-3FF00FFFh  refused 6: protected main memory",
        "  entry 2               3FFFF000h-3FFFFFFFh  refused 6: protected main memory",
        "  00000h                  2  refused 6: entry 2's page 3FFFF000h is protected",
    ] {
        assert!(text.lines().any(|found| found == line), "{line}\n{text}");
    }
    assert!(shown("dc100-main").contains("  in main memory        300000h-30FFFFh      by PGTBL_CTL's bits 31:12\n"));
}

/// An entry that no memory had is one of main memory now; a table in main memory may still reach past TOM.
#[test]
fn only_words_of_the_table_are_above_one_gibibyte() {
    let list = TOP.replace("BCh", "40h").replace("BEh", "42h").replace("00300001h", "3FFFF001h");
    let list = format!("{list}read4 WINDOW+2FFCh\nread GTT[1023]\nread GTT[1024]\n");
    for (board, length, above) in [("82810", "512M", 3), ("82810", "1G", 0), ("82810-main", "1G", 1)] {
        let audit = run_with(&["audit", "--memory", length, "--board", board, "-"], list.as_bytes());
        assert_eq!((audit.status, audit.errors.as_str()), (DONE, ""));
        let line = format!("     7  above-memory             {above:>16}\n");
        assert!(audit.text.contains(&line), "{board} {length}: {}", audit.text);
    }
    let run = run_with(&["replay", "--memory", "1G", "--board", "82810-main", "-"], list.as_bytes());
    assert_eq!((run.status, run.errors.as_str()), (DONE, ""));
    for part in [
        "GTT[1023] = 00000000h                 rule 7: registers, word at 3FFFFFFCh",
        "refused 7: word 1024 of the table, at 40000000h, is at or above the top of memory, 40000000h",
    ] {
        assert!(run.text.contains(part), "{part}\n{}", run.text);
    }
}
