//! Writes to device 1's register E0h (request 3 of document 02): what random lists must have met of them.

use mitrophel::{Answer, Board, Kind, Record, Target};

const WIDTHS: [u8; 3] = [1, 2, 4];
/// Bits 1:0 of the data, and of the register, which holds no other from cold start.
const STATES: [&str; 4] = ["00", "01", "10", "11"];
const HELD: [usize; 2] = [0b00, 0b11];
const DISCARDED: [usize; 2] = [0b01, 0b10];

/// What becomes of bit 8.
const BIT_8: [&str; 2] = ["cleared", "set"];

/// The counts of one board.
#[derive(Clone, Default)]
struct Writes {
    /// At E0h, by width, state held and state written.
    states: [[[u64; STATES.len()]; HELD.len()]; WIDTHS.len()],
    /// At E0h in 2 and in 4 bytes with a state that is discarded, by what it makes of a bit 8 that was otherwise.
    beside: [[[u64; BIT_8.len()]; DISCARDED.len()]; 2],
    /// At E1h in 1 and in 2 bytes with data that would be discarded at E0h, and that changes bit 8: 01 sets it and 10
    /// clears it.
    past: [[u64; DISCARDED.len()]; 2],
}

/// For each board, how often each power state was written where each was held, and what became of bit 8 beside a state
/// that is discarded.
#[derive(Clone, Default)]
pub struct Power {
    boards: [Writes; Board::ALL.len()],
}

impl Power {
    /// Notes a record that met this value of the register.
    pub fn note(&mut self, board: usize, held: u16, record: &Record, answer: &Answer) {
        let register = answer.target() == Some(Target::Register) && record.kind() == Some(Kind::IoWrite);
        if !register || answer.code != 0 || !matches!(answer.address, 0x1E0 | 0x1E1) {
            return;
        }
        let writes = &mut self.boards[board];
        let width = WIDTHS.iter().position(|&width| width == record.width).expect("a width that is answered");
        let written = (record.data & 3) as usize;
        let discarded = DISCARDED.iter().position(|&state| state == written);
        let bit_8 = usize::from(held >> 8 & 1);
        if answer.address == 0x1E1 {
            if let Some(state) = discarded.filter(|_| written & 1 != bit_8) {
                writes.past[width][state] += 1;
            }
            return;
        }
        let state_held = HELD.iter().position(|&state| state == usize::from(held & 3)).expect("a supported state");
        writes.states[width][state_held][written] += 1;
        let bit_8_written = (record.data >> 8 & 1) as usize;
        if let Some(state) = discarded.filter(|_| width > 0 && bit_8_written != bit_8) {
            writes.beside[width - 1][state][bit_8_written] += 1;
        }
    }

    /// How many writes met state 00, and how many 11.
    pub fn held(&self) -> [u64; 2] {
        [0, 1].map(|held| self.states().map(|states| states[held].iter().sum::<u64>()).sum())
    }

    /// How many states were discarded.
    pub fn discarded(&self) -> u64 {
        self.states().flatten().map(|written| DISCARDED.iter().map(|&state| written[state]).sum::<u64>()).sum()
    }

    fn states(&self) -> impl Iterator<Item = &[[u64; STATES.len()]; HELD.len()]> {
        self.boards.iter().flat_map(|writes| &writes.states)
    }

    pub fn counts(&self) -> impl Iterator<Item = &u64> {
        self.boards.iter().flat_map(|writes| {
            let states = writes.states.iter().flatten().flatten();
            states.chain(writes.beside.iter().flatten().flatten()).chain(writes.past.iter().flatten())
        })
    }

    pub fn counts_mut(&mut self) -> impl Iterator<Item = &mut u64> {
        self.boards.iter_mut().flat_map(|writes| {
            let states = writes.states.iter_mut().flatten().flatten();
            states.chain(writes.beside.iter_mut().flatten().flatten()).chain(writes.past.iter_mut().flatten())
        })
    }

    /// What each of the counts is of.
    pub fn names() -> Vec<String> {
        let mut names = Vec::new();
        for board in Board::ALL {
            for width in WIDTHS {
                for held in HELD.map(|state| STATES[state]) {
                    names.extend(STATES.map(|written| {
                        format!("power state {written} written where {held} is held, width {width}, board {board}")
                    }));
                }
            }
            for width in &WIDTHS[1..] {
                for state in DISCARDED.map(|state| STATES[state]) {
                    names.extend(BIT_8.map(|what| {
                        format!("power state {state} written, bit 8 {what}: width {width}, board {board}")
                    }));
                }
            }
            for width in &WIDTHS[..2] {
                names.extend(DISCARDED.map(|state| {
                    let (state, what) = (STATES[state], BIT_8[state & 1]);
                    format!("{state} written at E1h, bit 8 {what}: width {width}, board {board}")
                }));
            }
        }
        names
    }
}
