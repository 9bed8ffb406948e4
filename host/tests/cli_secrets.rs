//! Nothing that the program prints unasked depends on the key, wherever table, window and ring are aimed.

mod cli;
mod common;

use cli::{run_with, DONE};
use common::Random;
use mitrophel::{trace, Board};

/// What a key is written to: each place is protected at some time of the list, and is a place of the table's words.
const KEYS: &[&str] = &["A0000h", "A0004h", "A0FFCh", "A1000h", "B0000h", "700000h", "700004h", "7FFFFCh"];
const TABLES: &[&str] = &["A0001h", "9F001h", "A0000h", "B0001h", "700001h", "6FF001h", "7FF001h", "200001h"];
const SMRAMS: &[&str] = &["40h", "44h", "48h", "4Ch", "50h", "60h", "74h", "7Ch", "BCh"];
/// Locked: the TSEG, A0000h-BFFFFh or both are protected.
const LOCKS: &[&str] = &["76h", "4Eh", "76h", "7Eh"];
const BASES: &str =
    "config write dev1.GMADR C0000000h\nconfig write dev1.MMADR F0000000h\nconfig write dev1.PCICMD 2\nwrite DRT 1\n";

/// A list in which `KEY` is what management mode writes; locked from its start and after each reset, or not.
fn list(random: &mut Random, locked: bool) -> String {
    let (first, smrams, start): (&[&str], _, _) = match locked {
        true => (LOCKS, LOCKS, "config write dev0.SMRAM 7Ch\nreset\n"),
        false => (&["44h", "4Ch", "7Ch", "BCh"], SMRAMS, ""),
    };
    let mut list = format!("{start}config write dev0.SMRAM {}\n{BASES}", random.pick(first));
    for _ in 0..150 {
        let entry = random.pick(&[0, 1, 2, 1022, 1023, 1024, 1025, 2048]);
        let offset = 4096 * entry + 4 * random.below(1024);
        let (mode, who) = (random.pick(&["", "smm "]), random.pick(&["", "smm ", "master "]));
        // Where it is locked, entries are written more often.
        let more = locked && random.below(3) == 0;
        list += &match if more { 4 } else { random.below(14) } {
            0 => format!("config write dev0.SMRAM {}\n", random.pick(smrams)),
            1 => format!("write PGTBL_CTL {}\n", random.pick(TABLES)),
            2 => format!("smm write4 {} KEY\n", random.pick(KEYS)),
            3 => format!("{mode}read GTT[{entry}]\n"),
            4 => {
                let words = ["0", "A0001h", "100001h", "200001h", "700001h", "A0003h", "100003h", "700003h"];
                format!("{mode}write GTT[{entry}] {}\n", random.pick(&words))
            }
            5 => format!("{who}read4 {}\n", random.pick(KEYS)),
            6 => format!("write LP_RING_START {:X}h\nwrite LP_RING_LENGTH 1001h\n", 4096 * entry),
            7 => format!("write LP_RING_TAIL {:X}h\nrun {}\n", 8 * random.below(1024), random.below(2000)),
            8 => format!("{mode}write4 WINDOW+{offset:X}h 0\n"),
            9 => format!("write FENCE0 {}\n", random.pick(&["0", "31h", "51h", "71h"])),
            10 if random.below(3) == 0 => format!("reset\nconfig write dev0.SMRAM {}\n{BASES}", random.pick(smrams)),
            // Neither changes what is protected: request 8 of document 02.
            13 if random.below(2) == 0 => format!("config write dev0.FDHC {}\n", random.pick(&["0", "80h"])),
            13 => format!("config write dev0.PAMR {}\n", random.pick(&["0", "55h", "AAh", "FFh"])),
            _ => format!("{mode}read{} WINDOW+{offset:X}h\n", random.pick(&["1", "2", "4"])),
        };
    }
    list + "config write dev0.SMRAM 7Ch\n"
}

/// The same list for 16 MiB, where the TSEG lies in the hole's range.
fn moved(list: &str) -> String {
    let places = [("70000", "F0000"), ("7FF", "FFF"), ("6FF001h", "EFF001h")];
    places.iter().fold(list.to_string(), |list, (old, new)| list.replace(&format!(" {old}"), &format!(" {new}")))
}

/// Two keys that are good entries, of main memory or of the display cache, and name pages that nothing else is in.
#[test]
fn what_is_printed_does_not_depend_on_the_key() {
    let commands: [&[&str]; 5] = [&["replay"], &["replay", "--json"], &["state"], &["map"], &["disasm"]];
    let (mut hidden, mut offsets, mut forbidden, mut shut) = ([0; 3], [0; 3], [0; 3], [0; 1]);
    for seed in 0..128 {
        let large = seed % 3 == 1;
        let list = list(&mut Random::new(seed), seed >= 80);
        let list = if large { moved(&list) } else { list };
        let keys = if seed / 4 % 2 == 0 { ["00345001h", "00346001h"] } else { ["00345003h", "00346003h"] };
        let [first, second] = keys
            .map(|key| trace::assemble(&list.replace("KEY", key)).unwrap_or_else(|errors| panic!("{errors}")).records);
        let board = Board::ALL[seed as usize % 4].name();
        for command in commands {
            let memory = if large { "16M" } else { "8M" };
            let options: &[&str] = match command {
                ["disasm"] => &["-"],
                _ => &["--board", board, "--memory", memory, "--binary", "-"],
            };
            let [one, two] = [&first, &second].map(|records| run_with(&[command, options].concat(), records));
            assert_eq!((one.status, one.errors.as_str()), (DONE, ""), "seed {seed}, board {board}");
            for (one, two) in one.text.lines().zip(two.text.lines()) {
                assert_eq!(one, two, "seed {seed}, board {board}, {command:?}");
            }
            assert_eq!(one.out, two.out, "seed {seed}, board {board}, {command:?}");
            // Pages that the key named, in each memory; and what is in the display cache where main memory has the key.
            let parts = ["memory \u{B7}\u{B7} ", "display cache \u{B7}\u{B7} ", "display cache A0"];
            for (seen, part) in hidden.iter_mut().zip(parts) {
                *seen += one.text.matches(part).count();
            }
            // The offset of a refusal in the window: told, moved by a fence, and told where the entry is not.
            let offset = |line: &&str| line.contains(" (window offset ");
            for line in one.text.lines().filter(offset) {
                offsets[0] += 1;
                offsets[1] += usize::from(line.contains(" before fence 0"));
                offsets[2] += usize::from(line.contains('\u{B7}'));
            }
            // A store that is refused with 16: its page is told, or not where its word would be among the key's.
            let parts = ["protected page 700000h", "protected page F00000h", "protected page \u{B7}\u{B7},"];
            for (seen, part) in forbidden.iter_mut().zip(parts) {
                *seen += one.text.matches(part).count();
            }
            // The hole, where the key is at another time.
            shut[0] += one.text.matches("the hole at F00000h-FFFFFFh").count();
        }
    }
    let mut seen = hidden.iter().chain(&offsets).chain(&forbidden).chain(&shut);
    assert!(seen.all(|seen| *seen > 20), "{hidden:?}, {offsets:?}, {forbidden:?}, {shut:?}");
}
