//! The names of refusals, beside those of a trace.

pub use mitrophel::trace::names::*;
use mitrophel::{Answer, Board, Kind, Record, Refusal};

/// The refusals that an answer can hold, each with the short name that `--deny` takes.
pub const REFUSALS: [(Refusal, &str); 13] = [
    (Refusal::Width, "width"),
    (Refusal::TranslationOff, "translation-off"),
    (Refusal::EntryNotValid, "not-valid"),
    (Refusal::EntryType, "type"),
    (Refusal::PageProtected, "protected"),
    (Refusal::PageAboveMemory, "above-memory"),
    (Refusal::OutsideWindow, "outside-window"),
    (Refusal::FenceIllFormed, "fence"),
    (Refusal::NotExactlyRegister, "not-exact"),
    (Refusal::RingOffset, "ring"),
    (Refusal::UnknownInstruction, "instruction"),
    (Refusal::Layout, "layout"),
    (Refusal::ForbiddenEntry, "forbidden"),
];

/// The short name of a refusal that an answer can hold.
pub fn refusal_name(refusal: Refusal) -> &'static str {
    REFUSALS.iter().find(|(own, _)| *own == refusal).map_or("", |(_, name)| name)
}

/// The reason of a refusal, where nothing more is known of it than the board, or not even that. Where the table is in
/// main memory, a word of it gives codes 6 and 7, too; and where there is a display cache, entries of type 01 lead there.
pub const fn refusal_reason(refusal: Refusal, board: Option<Board>) -> &'static str {
    let (in_memory, display) = match board {
        Some(board) => (board.table_in_memory(), board.display_bytes() != 0),
        None => (true, true),
    };
    match (refusal, in_memory, display) {
        (Refusal::EntryType, _, true) if board.is_some() => "entry's type is 10, or 01 with the display cache off",
        (Refusal::EntryType, _, true) => "entry's type is 10, or 01 where no display cache is on",
        (Refusal::EntryType, _, false) => "entry's type is 01 or 10",
        (Refusal::PageProtected, true, _) => "entry's page or table word is protected",
        (Refusal::PageAboveMemory, false, false) => "entry's page is at or above the top of memory",
        (Refusal::PageAboveMemory, true, false) => "entry's page or table word is at or above the top of memory",
        (Refusal::PageAboveMemory, false, true) => {
            "entry's page is at or above the top of memory or of the display cache"
        }
        (Refusal::PageAboveMemory, true, true) => {
            "entry's page or table word is at or above the top of memory, or its page that of the display cache"
        }
        (refusal, _, _) => refusal.reason(),
    }
}

/// Whether the answer to an access through the window that is refused so holds the window offset: "Refusals 3 to 7 and
/// 9 of a window access" (request 5 of document 02).
pub const fn holds_offset(refusal: Refusal) -> bool {
    matches!(
        refusal,
        Refusal::TranslationOff
            | Refusal::EntryNotValid
            | Refusal::EntryType
            | Refusal::PageProtected
            | Refusal::PageAboveMemory
            | Refusal::FenceIllFormed
    )
}

/// The window offset in an answer, where the record is an access that was refused in the window.
pub fn refused_offset(record: &Record, answer: &Answer) -> Option<u32> {
    answer.refusal().filter(|refusal| holds_offset(*refusal))?;
    let by_processor = record.kind().is_some_and(Kind::is_processor);
    // The register of a table word in main memory is refused 6 and 7 too, with address 0. It stands at no multiple of
    // 512 KiB, as the window's first byte does.
    let in_window = answer.address != 0 || record.address.is_multiple_of(512 << 10);
    (by_processor && in_window).then_some(answer.address)
}

/// The reason of a refusal in the window, where nothing more is known of it than that, the board and the offset.
pub fn refusal_reason_at(refusal: Refusal, board: Board, offset: u32) -> String {
    let (entry, at) = (offset / 4096, format!("(window offset {offset:X}h)"));
    let of_entry = if board.table_in_memory() { "page or table word" } else { "page" };
    let (types, top) = match board.display_bytes() {
        0 => ("01 or 10", "the top of memory"),
        _ => ("10, or 01 with the display cache off", "the top of memory or of the display cache"),
    };
    match refusal {
        Refusal::TranslationOff => format!("translation is off {at}"),
        Refusal::EntryNotValid => format!("entry {entry} {at} is not valid"),
        Refusal::EntryType => format!("entry {entry} {at} has type {types}"),
        Refusal::PageProtected => format!("{of_entry} of entry {entry} {at} is protected"),
        Refusal::PageAboveMemory => format!("{of_entry} of entry {entry} {at} is at or above {top}"),
        Refusal::FenceIllFormed => format!("the matching fence {at} is ill-formed"),
        refusal => refusal_reason(refusal, Some(board)).to_string(),
    }
}

/// The table entry that a write was refused at the store of: request 9 of document 02. The answer has address 0, but the
/// record is exactly the entry's register, and MMADR is a multiple of 512 KiB.
pub fn forbidden_entry(record: &Record, answer: &Answer) -> Option<u32> {
    answer.refusal().filter(|refusal| *refusal == Refusal::ForbiddenEntry)?;
    entry_at(record.address % REGISTERS_BYTES)
}

/// The table entry for which a record was refused in the window or at the store, as record and answer tell.
pub fn refused_entry(record: &Record, answer: &Answer) -> Option<u32> {
    let in_window = || refused_offset(record, answer).map(|offset| offset / 4096);
    forbidden_entry(record, answer).or_else(in_window)
}

/// The reason of code 16, with the page in words.
pub fn forbidden_reason(entry: u32, page: &str) -> String {
    format!("entry {entry} would name {page}, and SMRAM is locked")
}

/// The refusal with this short name or number.
pub fn refusal_named(text: &str) -> Option<Refusal> {
    let matches =
        |(refusal, name): &&(Refusal, &str)| name.eq_ignore_ascii_case(text) || refusal.code().to_string() == text;
    REFUSALS.iter().find(matches).map(|(refusal, _)| *refusal)
}

#[cfg(test)]
mod tests {
    use super::super::load::Memory;
    use super::super::pair::{Pair, Step};
    use super::super::trace;
    use super::*;
    use mitrophel::reference::Rule;

    /// Record and answer tell the window's refusals from all others, by the rule that the reference names.
    #[test]
    fn an_offset_is_that_of_a_refusal_in_the_window() {
        let words = include_str!("../../../examples/request-5-word-of-the-table.trace");
        let codes = include_str!("../../../examples/request-5-where-it-was-refused.trace");
        let display = include_str!("../../../examples/request-11-display-cache.trace");
        // The first entry's register and the window's first byte: both are refused with address 0.
        let first = "write PGTBL_CTL A0001h\nread GTT[0]\nread4 WINDOW+0\nread1 WINDOW+1\n";
        let mut seen = [0; 2];
        for (board, text) in [
            (Board::I82810, codes.to_string()),
            (Board::Dc100Main, codes.to_string()),
            (Board::I82810Main, format!("{words}{first}")),
            (Board::I82810, format!("{words}{first}")),
            (Board::Dc100, display.to_string()),
            (Board::Dc100Main, display.to_string()),
        ] {
            let records = trace::assemble(&text).expect("a trace").records;
            let memory = Memory::zeros(board, 8 << 20);
            let mut pair = Pair::new(board, [memory.fresh(), memory.fresh()]);
            let each = |step: &Step<'_, '_>| {
                let refused = step.answer.code != 0;
                let in_window = refused && step.rule == Some(Rule::Window);
                let offset = refused_offset(&step.record, &step.answer);
                assert_eq!(offset, in_window.then_some(step.answer.address), "{board}: {}", step.record);
                seen[usize::from(in_window)] += usize::from(refused && step.answer.address == 0);
                Ok(())
            };
            pair.replay(&records, each).expect("the two agree");
        }
        assert!(seen[0] >= 12 && seen[1] >= 4, "{seen:?}");
    }

    #[test]
    fn words_for_a_refusal_in_the_window() {
        let told = |code, board| Refusal::from_code(code).map(|refusal| refusal_reason_at(refusal, board, 0x12ABC));
        let entry = "entry 18 (window offset 12ABCh)";
        for board in Board::ALL {
            let page = if board.table_in_memory() { "page or table word" } else { "page" };
            let (types, top) = match board {
                Board::I82810 | Board::I82810Main => ("01 or 10", "the top of memory"),
                Board::Dc100 | Board::Dc100Main => {
                    ("10, or 01 with the display cache off", "the top of memory or of the display cache")
                }
            };
            assert_eq!(told(3, board), Some("translation is off (window offset 12ABCh)".to_string()));
            assert_eq!(told(4, board), Some(format!("{entry} is not valid")));
            assert_eq!(told(5, board), Some(format!("{entry} has type {types}")));
            assert_eq!(told(6, board), Some(format!("{page} of {entry} is protected")));
            assert_eq!(told(7, board), Some(format!("{page} of {entry} is at or above {top}")));
            assert_eq!(told(9, board), Some("the matching fence (window offset 12ABCh) is ill-formed".to_string()));
            assert_eq!(told(10, board).as_deref(), Some(Refusal::NotExactlyRegister.reason()));
        }
        let with: Vec<u8> = Refusal::ALL.into_iter().filter(|own| holds_offset(*own)).map(Refusal::code).collect();
        assert_eq!(with, [3, 4, 5, 6, 7, 9]);
    }

    /// What is said of a parser's refusal and of all boards.
    #[test]
    fn a_reason_has_what_the_board_has() {
        let of = |refusal| Board::ALL.map(|board| refusal_reason(refusal, Some(board)));
        let types = of(Refusal::EntryType);
        assert_eq!(types.map(|reason| reason.contains("display cache")), [false, true, false, true]);
        let above = of(Refusal::PageAboveMemory);
        assert_eq!(above.map(|reason| reason.contains("display cache")), [false, true, false, true]);
        assert_eq!(above.map(|reason| reason.contains("table word")), [false, false, true, true]);
        assert_eq!(refusal_reason(Refusal::PageAboveMemory, None), above[3]);
        assert_eq!(refusal_reason(Refusal::EntryType, None), "entry's type is 10, or 01 where no display cache is on");
        assert_eq!(of(Refusal::Width), [Refusal::Width.reason(); 4]);
    }

    /// Request 9 of document 02: the answer has no address, so the record tells the entry, wherever the registers are.
    #[test]
    fn the_record_names_the_entry_that_is_not_stored() {
        let refused = Answer { code: 16, ..Answer::default() };
        for base in [0x0100_0000, 0xF000_0000, 0xFFF8_0000] {
            for entry in [0, 10, ENTRY_COUNT - 1] {
                let record = Record::write(base + entry_offset(entry), 4, 0xA_0001, false);
                assert_eq!(forbidden_entry(&record, &refused), Some(entry));
                for code in [0, 6, 7, 10] {
                    assert_eq!(forbidden_entry(&record, &Answer { code, ..Answer::default() }), None);
                }
            }
            assert_eq!(forbidden_entry(&Record::write(base + PGTBL_CTL, 4, 1, false), &refused), None);
        }
        let reason = forbidden_reason(10, "a protected page");
        assert_eq!(reason, "entry 10 would name a protected page, and SMRAM is locked");
    }

    #[test]
    fn every_refusal_has_a_name_and_a_number() {
        assert_eq!(refusal_named("protected"), Some(Refusal::PageProtected));
        assert_eq!(refusal_named("6"), Some(Refusal::PageProtected));
        assert_eq!(refusal_named("forbidden"), refusal_named("16"));
        assert_eq!(["1", "14", "15", "17"].map(refusal_named), [None; 4]);
        assert_eq!(REFUSALS.map(|(refusal, _)| refusal.code()), [2, 3, 4, 5, 6, 7, 8, 9, 10, 11, 12, 13, 16]);
    }
}
