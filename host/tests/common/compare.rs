//! The random comparison: lists with their expected answers and memory, and the check of a replay
//! against them.

use super::generate::{board, pristine_display, pristine_memory, table, Generator};
use super::{Coverage, Random};
use mitrophel::reference::{Table, Touch};
use mitrophel::{record, Answer, Board, Record};
use std::fmt::Write;

/// One random list and what the reference makes of it.
pub struct List {
    pub number: u64,
    pub board: u32,
    /// The memory's length.
    pub tom: usize,
    /// The display cache's.
    pub display: usize,
    pub records: Vec<u8>,
    pub answers: Vec<u8>,
    /// Where the reference wrote.
    pub writes: Vec<Touch>,
    /// The same in the display cache.
    pub display_writes: Vec<Touch>,
    pub coverage: Coverage,
}

/// Makes lists. `expected` is memory as the last list left it; a list starts from `pristine`, and
/// [`Lists::restore`] undoes what a list wrote. So it is with the display cache.
pub struct Lists {
    pub seed: u64,
    pub pristine: Vec<u8>,
    pub expected: Vec<u8>,
    pub pristine_display: Vec<u8>,
    pub expected_display: Vec<u8>,
    table: Box<Table>,
    /// The length of every list's memory, where it is not left to the list.
    tom: Option<usize>,
}

impl Lists {
    pub fn new(seed: u64) -> Lists {
        let pristine = pristine_memory();
        Lists::on(seed, [pristine.clone(), pristine], None)
    }

    /// Lists for a memory of this length, all zeros; pages that nobody touches cost nothing.
    pub fn on_zeros(seed: u64, tom: usize) -> Lists {
        Lists::on(seed, [vec![0; tom], vec![0; tom]], Some(tom))
    }

    fn on(seed: u64, [pristine, expected]: [Vec<u8>; 2], tom: Option<usize>) -> Lists {
        let pristine_display = pristine_display();
        let expected_display = pristine_display.clone();
        Lists { seed, pristine, expected, pristine_display, expected_display, table: table(), tom }
    }

    /// The list of this number. The same seed and number give the same list.
    pub fn make(&mut self, number: u64) -> List {
        let mut random = Random::for_list(self.seed, number);
        let (board, tom) = board(&mut random);
        let tom = self.tom.unwrap_or(tom);
        let actions = 10 + random.below(90);
        let display = Board::ALL[board as usize].display_bytes();
        let (memory, display_lent) = (&mut self.expected[..tom], &mut self.expected_display[..display]);
        let mut generator = Generator::new(random, board, memory, &mut self.table, display_lent);
        generator.fill(actions);
        let answers = generator.answers.iter().flat_map(|answer| answer.to_bytes()).collect();
        let watch = std::mem::take(generator.hub.observer());
        List {
            number,
            board,
            tom,
            display,
            records: record::encode(&generator.records),
            answers,
            writes: watch.writes,
            display_writes: watch.display_writes,
            coverage: watch.coverage,
        }
    }

    /// Both memories as they were before the list.
    pub fn restore(&mut self, list: &List) {
        undo(&mut self.expected, &self.pristine, &list.writes);
        undo(&mut self.expected_display, &self.pristine_display, &list.display_writes);
    }

    /// Whether a replay's answers and, where the reference wrote, its memories are the expected ones;
    /// else in words the first difference.
    pub fn check(&self, list: &List, answers: &[u8], memory: &[u8], display: &[u8]) -> Result<(), String> {
        if answers != list.answers {
            return Err(self.first_difference(list, answers));
        }
        let of_memory = (&list.writes, memory, &self.expected, "memory");
        let of_display = (&list.display_writes, display, &self.expected_display, "the display cache");
        for (writes, actual, expected, name) in [of_memory, of_display] {
            if let Some(touch) = writes.iter().find(|touch| actual[range(touch)] != expected[range(touch)]) {
                return Err(format!("{}: {name} differs at {:X}h", self.name(list), touch.address));
            }
        }
        Ok(())
    }

    fn name(&self, list: &List) -> String {
        format!("seed {}, list {} (board {}, {} MiB)", self.seed, list.number, list.board, list.tom >> 20)
    }

    fn first_difference(&self, list: &List, answers: &[u8]) -> String {
        let records: Vec<Record> = record::decode(&list.records).collect();
        let expected: Vec<Answer> = record::decode_answers(&list.answers).collect();
        let actual: Vec<Answer> = record::decode_answers(answers).collect();
        let at = (0..records.len()).find(|&i| expected[i] != actual[i]).unwrap_or(0);
        let mut text = format!("{}: the answer to record {at} differs\n", self.name(list));
        for i in at.saturating_sub(8)..at {
            let _ = writeln!(text, "  {i}: {} -> {}", records[i], expected[i]);
        }
        let _ = writeln!(text, "  {at}: {} {:?}", records[at], records[at]);
        let _ = writeln!(text, "  expected {:?}", expected[at]);
        let _ = writeln!(text, "  actual   {:?}", actual[at]);
        text
    }
}

/// Puts back what the writes changed.
pub fn undo(memory: &mut [u8], pristine: &[u8], writes: &[Touch]) {
    for touch in writes {
        memory[range(touch)].copy_from_slice(&pristine[range(touch)]);
    }
}

pub fn range(touch: &Touch) -> std::ops::Range<usize> {
    touch.address as usize..(touch.address + touch.width) as usize
}
