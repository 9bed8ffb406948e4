//! Where window accesses were refused (request 5 of document 02): what random lists must have met of it.

use super::words::Meets;
use mitrophel::reference::Fence;
use mitrophel::{Answer, Board, Kind, Record};

/// What refuses a window access: its code, and whether its table word is to blame, where that is in main memory.
const CAUSES: [(u8, bool); 8] =
    [(3, false), (4, false), (5, false), (6, false), (6, true), (7, false), (7, true), (9, false)];

/// What may be the case when a window access is refused.
const FACTS: [&str; 10] = [
    "offset not 0",
    "offset no multiple of 4",
    "offset no multiple of 4096",
    "width 1",
    "width 2",
    "width 4",
    "data read",
    "code read",
    "write",
    "management mode",
];

fn facts(record: &Record, answer: &Answer) -> [bool; FACTS.len()] {
    [
        answer.address != 0,
        !answer.address.is_multiple_of(4),
        !answer.address.is_multiple_of(4096),
        record.width == 1,
        record.width == 2,
        record.width == 4,
        record.kind() == Some(Kind::DataRead),
        record.kind() == Some(Kind::CodeRead),
        record.kind() == Some(Kind::Write),
        record.is_management(),
    ]
}

/// For each cause, how often each fact was the case, and on each board how often a fence moved the offset. An ill-formed
/// fence counts where it would move it.
#[derive(Clone, Default)]
pub struct Places {
    facts: [[u64; FACTS.len()]; CAUSES.len()],
    moved: [[u64; Board::ALL.len()]; CAUSES.len()],
}

impl Places {
    /// Notes an access through the window that was refused; `by_word` says that its table word was.
    pub fn note(&mut self, board: usize, meets: &Meets, by_word: bool, record: &Record, answer: &Answer) {
        let Some(cause) = CAUSES.iter().position(|&cause| cause == (answer.code, by_word)) else { return };
        for (count, holds) in self.facts[cause].iter_mut().zip(facts(record, answer)) {
            *count += u64::from(holds);
        }
        let before = record.address.wrapping_sub(meets.window_base);
        let ill_formed = || meets.fences.map(Fence).into_iter().find(|fence| fence.matches(before));
        let after = match answer.code {
            9 => ill_formed().map_or(before, |fence| fence.tiled(before)),
            _ => answer.address,
        };
        self.moved[cause][board] += u64::from(after != before);
    }

    /// How many refusals showed an offset other than 0, with 3, 4, 5, 6, 7 and 9.
    pub fn shown(&self) -> [u64; 6] {
        [3, 4, 5, 6, 7, 9].map(|code| {
            let of_code = CAUSES.iter().zip(&self.facts).filter(|((cause, _), _)| *cause == code);
            of_code.map(|(_, facts)| facts[0]).sum()
        })
    }

    pub fn counts(&self) -> impl Iterator<Item = &u64> {
        self.facts.iter().flatten().chain(self.moved.iter().flatten())
    }

    pub fn counts_mut(&mut self) -> impl Iterator<Item = &mut u64> {
        self.facts.iter_mut().flatten().chain(self.moved.iter_mut().flatten())
    }

    /// What each of the counts is of; none for a table word on a board that has a private table.
    pub fn names() -> impl Iterator<Item = Option<String>> {
        let cause = |(code, by_word)| {
            format!("window access refused with {code}{}", if by_word { " for its table word" } else { "" })
        };
        let facts = CAUSES.into_iter().flat_map(move |of| FACTS.map(|fact| Some(format!("{}: {fact}", cause(of)))));
        let moved = CAUSES.into_iter().flat_map(move |of| {
            Board::ALL.map(|board| {
                let possible = !of.1 || board.table_in_memory();
                possible.then(|| format!("{}: offset moved by a fence, board {board}", cause(of)))
            })
        });
        facts.chain(moved)
    }
}
