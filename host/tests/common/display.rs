//! What random lists must have met of the display cache and its registers (request 11 of document 02).

use super::words::Meets;
use mitrophel::reference::{Fence, Rule, Touch};
use mitrophel::{Answer, Board, Kind, Record, Target, DISPLAY_BYTES};

const END: u32 = DISPLAY_BYTES as u32;

/// A record with its answer, and what it met.
pub struct Met<'a> {
    pub meets: &'a Meets,
    pub rule: Option<Rule>,
    /// The entry that it looked up, a run's last.
    pub entry: Option<u32>,
    /// Where it touched the display cache, a run's last fetch from there.
    pub touch: Option<Touch>,
    /// Whether an earlier record has written the display cache.
    pub written: bool,
    pub record: &'a Record,
    pub answer: &'a Answer,
}

impl Met<'_> {
    /// Whether its entry is of this type.
    fn of_type(&self, memory_type: u32) -> bool {
        self.entry.is_some_and(|entry| entry >> 1 & 3 == memory_type)
    }

    fn page(&self) -> u32 {
        self.entry.unwrap_or(0) & 0x3FFF_F000
    }

    fn is_run(&self) -> bool {
        self.record.kind() == Some(Kind::Run) && self.answer.code != 13
    }

    /// Whether it went through the window and reached the display cache.
    fn reached(&self) -> bool {
        self.rule == Some(Rule::Window) && self.answer.target() == Some(Target::DisplayCache)
    }

    /// Whether a fence moved its offset.
    fn fenced(&self) -> bool {
        let offset = self.record.address.wrapping_sub(self.meets.window_base);
        let fence = self.meets.fences.map(Fence).into_iter().find(|fence| fence.matches(offset));
        fence.is_some_and(|fence| fence.tiled(offset) != offset)
    }

    /// Whether main memory is protected where it reached the display cache.
    fn protected_beside(&self) -> bool {
        let address = self.answer.address;
        (0xA_0000..0xC_0000).contains(&address) && self.meets.compatible_protected
    }

    /// Whether it is an access of this shape to the registers, with this code.
    fn register(&self, write: bool, offset: u32, width: u8, code: u8) -> bool {
        let at = self.record.address.wrapping_sub(self.meets.registers_base);
        let kind = self.record.kind();
        let same_kind = if write { kind == Some(Kind::Write) } else { kind == Some(Kind::DataRead) };
        let same = same_kind && at == offset && self.record.width == width;
        self.rule == Some(Rule::Registers) && same && self.answer.code == code
    }
}

/// On which boards something can be met.
#[derive(Clone, Copy, PartialEq, Eq)]
enum On {
    /// Those that have a display cache.
    Own,
    /// The others.
    Others,
    All,
}

impl On {
    fn has(self, board: Board) -> bool {
        self == On::All || (self == On::Own) == (board.display_bytes() != 0)
    }
}

/// How many [`facts`] there are.
const FACTS: usize = 30;

/// What may be the case, on which boards, and whether it is.
fn facts(met: &Met) -> [(&'static str, On, bool); FACTS] {
    let Meets { display_on: on, display_registers, tom, .. } = *met.meets;
    let Met { record, answer, .. } = *met;
    let (reached, run) = (met.reached(), met.is_run());
    let write = record.kind() == Some(Kind::Write);
    let read = |width| reached && !write && record.width == width;
    let written = |width| reached && write && record.width == width;
    let display = met.of_type(1) && met.rule == Some(Rule::Window);
    let fetched = met.of_type(1) && run;
    let page = met.page();
    let reset = record.kind() == Some(Kind::Reset) && answer.code == 0;
    [
        ("read, width 1", On::Own, read(1)),
        ("read, width 2", On::Own, read(2)),
        ("read, width 4", On::Own, read(4)),
        ("written, width 1", On::Own, written(1)),
        ("written, width 2", On::Own, written(2)),
        ("written, width 4", On::Own, written(4)),
        ("code read", On::Own, reached && record.kind() == Some(Kind::CodeRead)),
        ("management mode", On::Own, reached && record.is_management()),
        ("offset moved by a fence", On::Own, reached && met.fenced()),
        ("page protected in main memory", On::Own, reached && met.protected_beside()),
        ("first word", On::Own, reached && answer.address < 4),
        ("last word", On::Own, reached && answer.address >= END - 4),
        ("read after a write of it", On::Own, reached && !write && met.written),
        ("entry not valid, cache on", On::Own, display && on && answer.code == 4),
        ("cache off, page below 4 MiB", On::Own, display && answer.code == 5 && page < END),
        ("cache off, page at or above 4 MiB", On::Own, display && answer.code == 5 && page >= END),
        ("page 4 MiB", On::Own, display && answer.code == 7 && page == END),
        ("page above 4 MiB, below TOM", On::Own, display && answer.code == 7 && END < page && page < tom),
        ("page at or above TOM", On::Own, display && answer.code == 7 && page >= tom),
        ("type 10, cache on", On::Own, met.of_type(2) && on && answer.code == 5),
        ("fetch", On::Own, run && met.touch.is_some() && answer.count > 0),
        ("fetch of an unknown instruction", On::Own, fetched && met.touch.is_some() && answer.code == 12),
        ("fetch: entry not valid, cache on", On::Own, fetched && on && answer.code == 4),
        ("fetch: cache off", On::Own, fetched && answer.code == 5),
        ("fetch: page at or above 4 MiB", On::Own, fetched && answer.code == 7),
        ("reset of a cache that was written", On::Own, reset && met.written),
        ("reset of other than the defaults", On::Own, reset && display_registers != [0x00, 0x17, 0x08]),
        ("type 01", On::Others, display && answer.code == 5),
        ("fetch: type 01", On::Others, fetched && answer.code == 5),
        ("type 10", On::All, met.of_type(2) && answer.code == 5),
    ]
}

/// An access to the registers by its offset and width, and its code where they are listed.
const SHAPES: [(u32, u8, u8); 8] = [
    (0x3000, 1, 0),
    (0x3001, 1, 0),
    (0x3002, 1, 0),
    (0x3003, 1, 0),
    (0x3000, 2, 10),
    (0x3001, 2, 10),
    (0x3002, 2, 10),
    (0x3000, 4, 10),
];

/// How often each fact was the case on each board, and each shape a read and a write of the registers.
#[derive(Clone, Default)]
pub struct Display {
    facts: [[u64; FACTS]; Board::ALL.len()],
    shapes: [[[u64; 2]; SHAPES.len()]; Board::ALL.len()],
}

impl Display {
    pub fn note(&mut self, board: usize, met: &Met) {
        for (count, (_, _, holds)) in self.facts[board].iter_mut().zip(facts(met)) {
            *count += u64::from(holds);
        }
        let listed = Board::ALL[board].display_bytes() != 0;
        for (counts, (offset, width, code)) in self.shapes[board].iter_mut().zip(SHAPES) {
            let code = if listed { code } else { 0 };
            for (count, write) in counts.iter_mut().zip([false, true]) {
                *count += u64::from(met.register(write, offset, width, code));
            }
        }
    }

    /// How many accesses and fetches reached the display cache.
    pub fn reached(&self) -> u64 {
        let own = Board::ALL.into_iter().zip(&self.facts).filter(|(board, _)| board.display_bytes() != 0);
        own.map(|(_, facts)| facts[..6].iter().sum::<u64>() + facts[20]).sum()
    }

    pub fn counts(&self) -> impl Iterator<Item = &u64> {
        self.facts.iter().flatten().chain(self.shapes.iter().flatten().flatten())
    }

    pub fn counts_mut(&mut self) -> impl Iterator<Item = &mut u64> {
        self.facts.iter_mut().flatten().chain(self.shapes.iter_mut().flatten().flatten())
    }

    /// What each of the counts is of; none for what cannot be on its board.
    pub fn names() -> impl Iterator<Item = Option<String>> {
        let met = Met {
            meets: &Meets::default(),
            rule: None,
            entry: None,
            touch: None,
            written: false,
            record: &Record::default(),
            answer: &Answer::default(),
        };
        let names = facts(&met).map(|(name, on, _)| (name, on));
        let facts = Board::ALL.into_iter().flat_map(move |board| {
            names.map(|(name, on)| on.has(board).then(|| format!("display cache: {name}, board {board}")))
        });
        let shapes = Board::ALL.into_iter().flat_map(|board| {
            SHAPES.into_iter().flat_map(move |(offset, width, _)| {
                ["read", "write"].map(|kind| Some(format!("{kind} of width {width} at {offset:X}h, board {board}")))
            })
        });
        facts.chain(shapes)
    }
}
