//! `explain`: when each code is given, by document 01's table and order and by the requests of document 02 that are in
//! force, with an example that runs.

use super::args::{self, Grammar};
use super::failure::{shown, Failure, Status};
use super::{names, say, words};
use mitrophel::{Board, Refusal};
use std::ffi::OsString;

pub const GRAMMAR: Grammar = Grammar { command: "explain", values: &[], switches: &[], files: 0 };

/// Columns of the text.
const WIDTH: usize = 79;

/// The short name of code 1, which no answer holds and `--deny` does not take.
const ARGUMENTS: &str = "arguments";

/// The order in which the codes are looked at: "13, 2, then routing; then 10, or 9, 3, 4, 5, 7, 6. For the
/// parser: 11, then empty check, then 8, 3, 4, 5, 7, 6, 12." Where the table is in main memory, a word of it gives 7 or 6
/// "after code 3 for a lookup and after code 10 for a register access, 7 first, then Item 9's 16" (request 10 of document
/// 02); where it is private, 16 "comes after code 10" (request 9).
const ORDERS: [(&str, &[u8]); 7] = [
    ("at a memory-mapped register", &[13, 2, 10, 16]),
    (WINDOW, &[13, 2, 9, 3, 4, 5, 7, 6]),
    ("any other access", &[13, 2]),
    (PARSER, &[13, 11, 8, 3, 4, 5, 7, 6, 12]),
    ("table in memory: register", &[13, 2, 10, 7, 6, 16]),
    ("table in memory: window", &[13, 2, 9, 3, 7, 6, 4, 5, 7, 6]),
    ("table in memory: parser run", &[13, 11, 8, 3, 7, 6, 4, 5, 7, 6, 12]),
];

const WINDOW: &str = "through the window";
const PARSER: &str = "parser run";

const UNCHANGED: &str = "No register, table word or memory byte changes.";

/// Starts most examples.
const DESK: &str = "\
config write dev0.SMRAM 4Ch        # graphics on; A0000h-BFFFFh protected
config write dev1.GMADR C0000000h  # the window
config write dev1.MMADR F0000000h  # the registers
config write dev1.PCICMD 2         # both on
";

/// What there is to say of a code.
struct Code {
    refusal: Refusal,
    /// When it is given, and what to look at.
    when: &'static str,
    /// None for code 1; of the others the first is on the board that is taken where none is named.
    examples: &'static [Example],
}

/// A trace whose last access alone is refused, with the example's code.
struct Example {
    board: Board,
    /// What is said of it; nothing of the first.
    note: &'static str,
    /// What it starts with.
    start: &'static str,
    /// Its own lines.
    own: &'static str,
}

const fn example(start: &'static str, own: &'static str) -> Example {
    Example { board: Board::I82810, note: "", start, own }
}

/// The same on a board whose table is in main memory.
const fn in_memory(start: &'static str, own: &'static str) -> Example {
    Example { board: Board::I82810Main, note: "# The same for a word of a table in main memory.\n", start, own }
}

/// The same on a board with a display cache.
const fn in_display(start: &'static str, own: &'static str) -> Example {
    Example { board: Board::Dc100, note: "# The same on a board with a display cache.\n", start, own }
}

const CODES: [Code; 14] = [
    Code {
        refusal: Refusal::Arguments,
        when: "The call's own result: board kind not 0 to 3; memory no multiple of 8 MiB from 8 to 1,024 MiB; records \
               not 16 bytes each, or more than 65,535; answers not as long as the records; display cache not of 4 MiB \
               for kinds 1 and 3, or not of length 0 for the others. This program makes no such call: it refuses a \
               wrong --board or --memory, and --display for a board without a display cache, with exit status 2, and a \
               file that ends within a record or has a wrong length with exit status 3.",
        examples: &[],
    },
    Code {
        refusal: Refusal::Width,
        when: "An access, kinds 1 to 7, whose width is not 1, 2 or 4, or whose bytes do not lie in one aligned word of \
               4 bytes. Give it as two accesses.",
        examples: &[example("", "read4 1002h  # 2 bytes in each of two words\n")],
    },
    Code {
        refusal: Refusal::TranslationOff,
        when: "The window or the parser is used while PGTBL_CTL (2020h) bit 0 is 0. It is 0 after a reset. Registers of \
               the table are reached all the same.",
        examples: &[example(DESK, "entry 0 100000h\nread4 WINDOW+ABCh\n")],
    },
    Code {
        refusal: Refusal::EntryNotValid,
        when: "The table entry of the graphics offset, offset / 4096 and after fencing, has bit 0 clear. All entries \
               have after a reset, but in a table in main memory, which a reset leaves as it is. Which entry it was, the \
               answer tells: its address / 4096 for an access through the window, and for a parser run the ring's start \
               + the head's offset, / 4096.",
        examples: &[example(DESK, "write PGTBL_CTL 1\nread4 WINDOW+12ABCh  # entry 18\n")],
    },
    Code {
        refusal: Refusal::EntryType,
        when: "The table entry is valid and its bits 2:1 are 10; or they are 01, display cache, and the board has none \
               (boards 82810 and 82810-main), or has one (dc100 and dc100-main) that is off: DRT (3000h) bit 0 is 0, as \
               it is after a reset. Main memory is 00 or 11.",
        examples: &[
            example(DESK, "write PGTBL_CTL 1\nwrite GTT[1] 100003h  # valid, type 01\nread4 WINDOW+1000h\n"),
            in_display(
                DESK,
                "write PGTBL_CTL 1\n\
                 write GTT[1] 100003h  # valid, type 01\n\
                 write DRT 1           # the display cache is on\n\
                 read4 WINDOW+1000h    # and answers\n\
                 write DRT 0           # off\n\
                 read4 WINDOW+1000h\n",
            ),
        ],
    },
    Code {
        refusal: Refusal::PageProtected,
        when: "The table entry names a page of protected memory: A0000h-BFFFFh if SMRAM's LSMM (bits 3:2) is 10 or 11, \
               or if HSEG acts; and the TSEG. Locked or not, and in management mode too. Somebody has aimed the window \
               or the ring at the key. Once SMRAM is locked, storing such an entry is refused already, with 16; the \
               check when it is used remains, whoever put it there. Where the table is in main memory (boards \
               82810-main and dc100-main), also: the entry's own word, at PGTBL_CTL's bits 31:12 + 4 x entry, lies in \
               protected memory. An access to the entry's register is then refused, too. The display cache, which \
               entries of type 01 name pages of, is never protected.",
        examples: &[
            example(DESK, "write PGTBL_CTL 1\nentry 1 A0000h\nread4 WINDOW+1000h\n"),
            in_memory(DESK, "write PGTBL_CTL A0001h\nread4 WINDOW+1000h  # the word at A0004h\n"),
        ],
    },
    Code {
        refusal: Refusal::PageAboveMemory,
        when: "The table entry names a page at or above the top of memory, which is memory's length; none can with 1 \
               GiB. Or it has type 01, on boards dc100 and dc100-main with the display cache on, and names a page at or \
               above 4 MiB, where that ends. Where the table is in main memory (boards 82810-main and dc100-main), \
               also: the entry's own word, at PGTBL_CTL's bits 31:12 + 4 x entry, a sum that does not wrap at 32 bits, \
               lies at or above the top of memory. An access to the entry's register is then refused, too.",
        examples: &[
            example(DESK, "write PGTBL_CTL 1\nentry 1 800000h  # memory is 8M\nread4 WINDOW+1000h\n"),
            in_memory(DESK, "write PGTBL_CTL 800001h  # memory is 8M\nread GTT[1]  # the word at 800004h\n"),
            in_display(
                DESK,
                "write PGTBL_CTL 1\n\
                 write DRT 1           # the display cache is on\n\
                 write GTT[1] 3FF003h  # its last page\n\
                 read4 WINDOW+1000h\n\
                 write GTT[1] 400003h\n\
                 read4 WINDOW+1000h\n",
            ),
        ],
    },
    Code {
        refusal: Refusal::OutsideWindow,
        when: "The parser is to fetch at ring start + head offset, and that is not below the window's size: 64 MiB, or \
               32 MiB if device 0's register 72h has bit 0 set.",
        examples: &[example(
            DESK,
            "config write dev0.MISCC 1        # a window of 32 MiB\n\
             write LP_RING_START 2000000h\n\
             write LP_RING_TAIL 8\n\
             write LP_RING_LENGTH 1           # 4 KiB, enabled\n\
             run 1\n",
        )],
    },
    Code {
        refusal: Refusal::FenceIllFormed,
        when: "A processor's access through the window matches a fence, the lowest matching number counting, that has \
               size code 7, pitch code 6 or 7, the walk bit set, or a start that is no multiple of its size. The parser \
               is not fenced.",
        examples: &[example(DESK, "write FENCE0 71h  # valid, pitch code 7\nread4 WINDOW+ABCh\n")],
    },
    Code {
        refusal: Refusal::NotExactlyRegister,
        when: "An access in the 512 KiB at MMADR touches a listed register and is not exactly that register. Those at \
               20A0h, 20A4h, 20A8h and 20ACh have 2 bytes, and 3000h, 3001h and 3002h, which are listed on boards dc100 \
               and dc100-main only, 1; all others have 4.",
        examples: &[
            example(DESK, "read2 PGTBL_CTL\n"),
            in_display(DESK, "read DRAMCL  # 1 byte at 3001h\nread4 DRT    # 4 bytes at 3000h\n"),
        ],
    },
    Code {
        refusal: Refusal::RingOffset,
        when: "A run finds the ring's head or tail offset not below the ring's length. A ring that is not enabled ends \
               the run before that, with code 0; equal offsets end it after that.",
        examples: &[example(DESK, "write LP_RING_LENGTH 1  # 4 KiB, enabled\nwrite LP_RING_TAIL 1000h\nrun 1\n")],
    },
    Code {
        refusal: Refusal::UnknownInstruction,
        when: "The word that the parser fetched has bits 31:29 not zero, or bits 28:23 other than 00h (nothing), 02h \
               (user interrupt) and 04h (flush).",
        examples: &[example(
            DESK,
            "write PGTBL_CTL 1\n\
             entry 0 100000h\n\
             write4 100000h 00800000h  # bits 28:23 are 01h\n\
             write LP_RING_LENGTH 1    # 4 KiB, enabled\n\
             write LP_RING_TAIL 8\n\
             run 1\n",
        )],
    },
    Code {
        refusal: Refusal::Layout,
        when: "The record's kind is not 1 to 9; a flag is set that its kind does not have; byte 3 or bytes 12-15 are \
               not zero; a read or reset has data; a run or reset has a width or an address; or an I/O address is above \
               65,535. The list is damaged, or is no list of records.",
        examples: &[example("", "raw 01 04 00 00 00 00 01 00 00 00 00 00 00 00 00 00  # port 10000h\n")],
    },
    Code {
        refusal: Refusal::ForbiddenEntry,
        when: "SMRAM's lock, bit 1, is set, and a write of a table entry would store a word, its data AND 3FFFF007h, \
               that is valid (bit 0), of main memory (bits 2:1 are 00 or 11) and names a protected page (see 6). In \
               management mode too, and with translation on or off. Somebody aims the window or the ring at the key. \
               Which entry it was, the record tells: (its address - MMADR - 10000h) / 4. Any other word is stored: one \
               that is not valid, of type 01 or 10, of a page at or above the top of memory, or of one that is not \
               protected. An entry of a protected page that is there from before the lock stays there and is refused \
               when it is used, with 6. Where the table is in main memory (boards 82810-main and dc100-main), an \
               ordinary write of its word is not refused, so such an entry may come there after the lock, too; it is \
               refused when it is used all the same.",
        examples: &[
            example(DESK, "config write dev0.SMRAM 4Eh  # locked\nentry 1 100000h              # stored\nentry 1 A0000h\n"),
            in_memory(
                DESK,
                "write PGTBL_CTL 200001h\n\
                 config write dev0.SMRAM 4Eh  # locked\n\
                 write4 200004h A0001h        # an ordinary write of the word\n\
                 entry 1 A0000h\n",
            ),
        ],
    },
];

/// `mitrophel explain`
pub fn run(words: &[OsString]) -> Result<Status, Failure> {
    match words {
        [] => say(&list()),
        [word] => match named(&word.to_string_lossy()) {
            Some(code) => say(&code.text()),
            None => {
                Err(usage(&format!("expected a code, 1 to 13, 16 or {}, found '{}'", names().join(", "), shown(word))))
            }
        },
        _ => Err(usage("expected one code")),
    }
}

fn usage(message: &str) -> Failure {
    args::usage(GRAMMAR.command, message)
}

/// The short names of all codes.
pub fn names() -> Vec<&'static str> {
    CODES.iter().map(Code::name).collect()
}

fn named(text: &str) -> Option<&'static Code> {
    CODES.iter().find(|code| code.name().eq_ignore_ascii_case(text) || code.refusal.code().to_string() == text)
}

fn list() -> String {
    CODES
        .iter()
        .map(|code| paragraph(&format!("{:>2} {:<15}", code.refusal.code(), code.name()), code.reason()))
        .collect()
}

/// Text beside a heading.
fn paragraph(heading: &str, text: &str) -> String {
    let margin = heading.len() + 1;
    let lines = words::wrapped(text, WIDTH - margin);
    let blank = " ".repeat(heading.len());
    let headings = std::iter::once(heading).chain(std::iter::repeat(blank.as_str()));
    headings.zip(lines).map(|(heading, line)| format!("{heading} {line}\n")).collect()
}

impl Code {
    fn name(&self) -> &'static str {
        match self.refusal {
            Refusal::Arguments => ARGUMENTS,
            refusal => names::refusal_name(refusal),
        }
    }

    /// On every board.
    fn reason(&self) -> &'static str {
        names::refusal_reason(self.refusal, None)
    }

    fn text(&self) -> String {
        let heading = paragraph(&format!("{} {}:", self.refusal.code(), self.name()), self.reason());
        let when = paragraph("When  ", self.when);
        let (order, answer) = (self.order(), paragraph("Answer", &self.answer()));
        format!("{heading}\n{when}\n{order}\n{answer}\n{}", self.example())
    }

    /// What is looked at before this code and after it, for each kind of record that it is given to.
    fn order(&self) -> String {
        let code = self.refusal.code();
        if self.refusal == Refusal::Arguments {
            return paragraph("Order ", "Before any record.");
        }
        let marked = |other: &u8| if *other == code { format!("[{other}]") } else { other.to_string() };
        let ways = ORDERS.iter().filter(|(_, order)| order.contains(&code)).map(|(way, order)| {
            let order: Vec<String> = order.iter().map(marked).collect();
            format!("{way:<28} {}\n", order.join(", "))
        });
        let headings = std::iter::once("Order ").chain(std::iter::repeat("      "));
        headings.zip(ways).map(|(heading, way)| format!("{heading} {way}")).collect()
    }

    fn answer(&self) -> String {
        let in_run = ORDERS.iter().any(|(way, order)| *way == PARSER && order.contains(&self.refusal.code()));
        match self.refusal {
            Refusal::Arguments => {
                "None: the call gives 1 and touches neither memory, nor display cache, nor answers.".to_string()
            }
            refusal if names::holds_offset(refusal) => self.answer_in_window(in_run),
            refusal if refusal == Refusal::Layout || !in_run => {
                format!("The code and the interrupt line, all else zero. {UNCHANGED}")
            }
            _ => "The code, the interrupt line, the ring's head and the count of steps that the run completed, which \
                  stay done."
                .to_string(),
        }
    }

    /// Request 5 of document 02: "the offset before fencing for 9, after fencing for the others".
    fn answer_in_window(&self, in_run: bool) -> String {
        let fencing = if self.refusal == Refusal::FenceIllFormed { "before" } else { "after" };
        let run = match in_run {
            true => " A parser run keeps the steps that it completed, and its answer holds head and count instead.",
            false => "",
        };
        let register = match self.refusal {
            Refusal::PageProtected | Refusal::PageAboveMemory => {
                " The answer to an access to an entry's register has address 0."
            }
            _ => "",
        };
        format!(
            "The code, the interrupt line and, as address, the byte offset in the window {fencing} fencing; all else \
             zero. {UNCHANGED}{run}{register}"
        )
    }

    fn example(&self) -> String {
        let code = self.refusal.code();
        let mut text = match self.examples {
            [] => "Example, in C: 4096 bytes are no board's memory.\n\
                   gmch_replay(0, memory, 4096, records, 16, answers, 16, NULL, 0)\n"
                .to_string(),
            _ => format!("Example, for a shell: the last access is refused {code}.\n"),
        };
        for Example { board, note, start, own } in self.examples {
            let option = if *board == Board::default() { String::new() } else { format!(" --board {board}") };
            text.push_str(&format!("{note}mitrophel replay{option} - <<'END'\n{start}{own}END\n"));
        }
        text
    }
}

#[cfg(test)]
mod tests {
    use super::super::pair::Call;
    use super::super::trace;
    use super::*;
    use mitrophel::call::gmch_replay;
    use mitrophel::{record, reference};

    /// The last access of an example is refused with its code, and no other access is refused.
    fn check(refusal: Refusal, example: &Example, call: Call) {
        let Example { board, start, own, .. } = example;
        let records = trace::assemble(&format!("{start}{own}")).expect("a good trace").records;
        let (mut memory, mut answers) = (vec![0; 8 << 20], vec![0; records.len()]);
        let mut display = vec![0; board.display_bytes()];
        let result = call(board.number(), &mut memory, &records, &mut answers, &mut display);
        assert_eq!(result, 0, "{refusal}, board {board}");
        let mut codes: Vec<u8> = record::decode_answers(&answers).map(|answer| answer.code).collect();
        assert_eq!(codes.pop(), Some(refusal.code()));
        assert!(codes.iter().all(|code| *code == 0), "{refusal}, board {board}");
    }

    #[test]
    fn every_example_gives_its_code() {
        for (code, refusal) in CODES.iter().zip(Refusal::ALL) {
            assert_eq!(code.refusal, refusal);
            code.examples.iter().for_each(|example| check(refusal, example, gmch_replay));
            assert_eq!(code.examples.is_empty(), refusal == Refusal::Arguments);
        }
        assert_eq!(gmch_replay(0, &mut [0; 4096], &[0; 16], &mut [0; 16], &mut []), 1);
    }

    /// By the reference.
    #[test]
    fn an_example_for_each_memory_gives_its_code() {
        const PLAIN: Board = Board::I82810;
        for code in &CODES {
            code.examples.iter().for_each(|example| check(code.refusal, example, reference::replay));
            let boards: Vec<Board> = code.examples.iter().map(|example| example.board).collect();
            match code.refusal {
                Refusal::Arguments => assert_eq!(boards, []),
                Refusal::PageProtected | Refusal::ForbiddenEntry => assert_eq!(boards, [PLAIN, Board::I82810Main]),
                Refusal::PageAboveMemory => assert_eq!(boards, [PLAIN, Board::I82810Main, Board::Dc100]),
                Refusal::EntryType | Refusal::NotExactlyRegister => assert_eq!(boards, [PLAIN, Board::Dc100]),
                _ => assert_eq!(boards, [PLAIN]),
            }
        }
    }

    /// Every code of an answer has its place in an order, and no text is wider than a terminal.
    #[test]
    fn every_code_has_an_order_and_fits() {
        for code in &CODES {
            let text = code.text();
            assert!(text.lines().all(|line| line.len() <= WIDTH), "{text}");
            let place = format!("[{}]", code.refusal.code());
            assert_eq!(text.contains(&place), code.refusal != Refusal::Arguments, "{text}");
        }
        assert!(list().lines().all(|line| line.len() <= WIDTH));
    }
}
