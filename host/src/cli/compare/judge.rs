//! What demand 3 allows to differ between two runs, and what it forbids.

use super::runs::{is_write, lands, Run, Scope};
use crate::cli::failure::Failure;
use crate::cli::load::List;
use mitrophel::Answer;

/// Asks that the two runs come to the lock in the same state, and with the same unprotected memory. Only the ring parser
/// and a table in main memory can have told them apart.
pub fn alike_at_lock(list: &List, scope: &Scope, runs: &[Run; 2]) -> Result<(), Failure> {
    let [one, two] = runs;
    let others = one.others_at_lock.as_ref().zip(two.others_at_lock.as_ref());
    let before = match others {
        None => "the parser ran over bytes that were not yet protected",
        Some(_) => "the parser ran over bytes that were not yet protected, or the table was there",
    };
    let register = one.at_lock.difference(&two.at_lock).map(|(name, _)| name);
    let byte = || Some(format!("the unprotected byte at {:X}h", others.and_then(|(one, two)| one.difference(two))?));
    let displays = one.display_at_lock.as_ref().zip(two.display_at_lock.as_ref());
    let display =
        || Some(format!("the display cache's byte at {:X}h", displays.and_then(|(one, two)| one.difference(two))?));
    let Some(name) = register.or_else(byte).or_else(display) else {
        return Ok(());
    };
    Err(Failure::input(format!(
        "{}: when the lock is set, {name} depends on the key: before, {before}; demand 3 speaks of two runs whose \
         registers and unprotected bytes are equal at the lock",
        list.place(scope.lock)
    )))
}

/// The fields of an answer, the value last.
#[derive(Clone, Copy, Debug, PartialEq, Eq)]
pub enum Field {
    Code,
    Target,
    Line,
    Reserved,
    Address,
    Count,
    Value,
}

impl Field {
    const ALL: [Field; 7] =
        [Field::Code, Field::Target, Field::Line, Field::Reserved, Field::Address, Field::Count, Field::Value];

    /// The first field in which two answers differ: the value only where nothing else does.
    pub fn differing(one: &Answer, two: &Answer) -> Option<Field> {
        Field::ALL.into_iter().find(|field| field.of(one) != field.of(two))
    }

    fn of(self, answer: &Answer) -> u32 {
        match self {
            Field::Code => answer.code.into(),
            Field::Target => answer.target.into(),
            Field::Line => answer.line.into(),
            Field::Reserved => answer.reserved.into(),
            Field::Address => answer.address,
            Field::Count => answer.count,
            Field::Value => answer.value,
        }
    }

    pub fn name(self) -> &'static str {
        match self {
            Field::Code => "code",
            Field::Target => "target",
            Field::Line => "interrupt line",
            Field::Reserved => "byte 3",
            Field::Address => "address",
            Field::Count => "count of steps",
            Field::Value => "value",
        }
    }
}

/// What demand 3 says of two answers that differ.
#[derive(Clone, Copy, Debug, PartialEq, Eq)]
pub enum Verdict {
    BeforeLock,
    /// The value of a management-mode read that lands in protected memory.
    Allowed,
    Forbidden,
}

/// A record that the two runs answer differently.
#[derive(Clone, Copy, Debug, PartialEq, Eq)]
pub struct Seen {
    pub index: usize,
    /// The first field that differs.
    pub field: Field,
    pub values: [u32; 2],
    pub verdict: Verdict,
}

/// Every record that the two runs answer differently.
pub fn seen(scope: &Scope, runs: &[Run; 2]) -> Vec<Seen> {
    let mut seen = Vec::new();
    for (index, (one, two)) in runs[0].answers.iter().zip(&runs[1].answers).enumerate() {
        let Some(field) = Field::differing(one, two) else { continue };
        let record = &runs[0].records[index];
        let read_of_the_key = !is_write(record) && lands(&scope.protected, record, one);
        let verdict = match field {
            _ if index <= scope.lock => Verdict::BeforeLock,
            Field::Value if read_of_the_key => Verdict::Allowed,
            _ => Verdict::Forbidden,
        };
        seen.push(Seen { index, field, values: [field.of(one), field.of(two)], verdict });
    }
    seen
}

/// Something that differs although demand 3 says that it cannot.
#[derive(Clone, Debug, PartialEq, Eq)]
pub enum Difference {
    Answer(Seen),
    /// A register or a table word.
    Register(String, [u32; 2]),
    /// An unprotected byte of main memory.
    Byte(usize, [u32; 2]),
    /// A byte of the display cache.
    Display(usize, [u32; 2]),
    /// A protected byte that no management-mode write reached, in one run.
    Unwritten(usize, usize),
    /// Other bytes are protected than at the lock, in one run, after this record.
    Moved(usize, usize),
}

/// The first thing that differs although demand 3 says that it cannot.
pub fn forbidden(scope: &Scope, runs: &[Run; 2]) -> Option<Difference> {
    let [one, two] = runs;
    let answer = seen(scope, runs).into_iter().find(|seen| seen.verdict == Verdict::Forbidden);
    let register = || one.at_end.difference(&two.at_end).map(|(name, values)| Difference::Register(name, values));
    let unwritten = |(run, own): (usize, &Run)| own.changed_unwritten(scope).map(|at| Difference::Unwritten(run, at));
    let moved = |(run, own): (usize, &Run)| own.moved.map(|index| Difference::Moved(run, index));
    answer
        .map(Difference::Answer)
        .or_else(register)
        .or_else(|| unprotected_byte(scope, one, two))
        .or_else(|| display_byte(one, two))
        .or_else(|| runs.iter().enumerate().find_map(unwritten))
        .or_else(|| runs.iter().enumerate().find_map(moved))
}

fn unprotected_byte(scope: &Scope, one: &Run, two: &Run) -> Option<Difference> {
    let (one, two) = (&one.lent.memory, &two.lent.memory);
    let at = scope.protected.difference_outside(one, two)?;
    Some(Difference::Byte(at, [one[at].into(), two[at].into()]))
}

/// The display cache counts as unprotected, all of it.
fn display_byte(one: &Run, two: &Run) -> Option<Difference> {
    let mut bytes = one.lent.display.iter().zip(&two.lent.display).enumerate();
    let (at, (&one, &two)) = bytes.find(|(_, (one, two))| one != two)?;
    Some(Difference::Display(at, [one.into(), two.into()]))
}

#[cfg(test)]
mod tests {
    use super::super::runs::{Protected, State};
    use super::*;
    use crate::cli::load::Lent;
    use crate::cli::names::Bases;
    use mitrophel::reference::Smram;
    use mitrophel::Record;

    /// A little memory with a protected part, and two runs that differ as demand 3 allows: record 0 sets the
    /// lock, record 2 reads what record 1 wrote.
    fn alike() -> (Scope, [Run; 2]) {
        let scope = Scope {
            lock: 0,
            end: 6,
            smram: Smram(0x4E),
            protected: Protected(vec![8..16, 24..32]),
            carriers: vec![1],
            bases: vec![Bases::default(); 6],
        };
        let state =
            State { registers: vec![("IIR".to_string(), 0), ("dev0.SMRAM".to_string(), 0x4E)], table: vec![7; 9] };
        let run = |key: u8| {
            let memory = |at: u32, value: u32| Answer { target: 1, address: at, value, ..Answer::default() };
            let word = u32::from_le_bytes([key; 4]);
            Run {
                records: vec![
                    Record::io_write(0xCFC, 1, 0x4E),
                    Record::write(8, 4, word, true),
                    Record::read(8, 4, true),
                    Record::read(0, 4, false),
                    Record::read(16, 4, true),
                    Record::run(3),
                ],
                answers: vec![
                    Answer { target: 2, address: 0x70, ..Answer::default() },
                    memory(8, 0),
                    memory(8, word),
                    memory(0, 0x55),
                    memory(16, 0x66),
                    Answer { address: 12, count: 3, ..Answer::default() },
                ],
                at_lock: state.clone(),
                at_end: state.clone(),
                kept: vec![0x99; 16],
                others_at_lock: None,
                display_at_lock: None,
                lent: Lent {
                    memory: [[0x11; 8], [key, key, key, key, 0x99, 0x99, 0x99, 0x99], [0x22; 8], [0x99; 8]].concat(),
                    display: vec![0x33; 32],
                },
                moved: None,
            }
        };
        (scope, [run(0xAA), run(0xBB)])
    }

    #[test]
    fn management_reads_of_the_key_may_differ() {
        let (scope, runs) = alike();
        assert_eq!(forbidden(&scope, &runs), None);
        let values = [0xAAAA_AAAA, 0xBBBB_BBBB];
        assert_eq!(seen(&scope, &runs), [Seen { index: 2, field: Field::Value, values, verdict: Verdict::Allowed }]);
    }

    type Change = fn(&mut Answer);

    #[test]
    fn every_field_of_every_answer_is_compared() {
        let changes: [(Field, Change); 7] = [
            (Field::Code, |answer| answer.code = 6),
            (Field::Target, |answer| answer.target = 3),
            (Field::Line, |answer| answer.line = 1),
            (Field::Reserved, |answer| answer.reserved = 1),
            (Field::Address, |answer| answer.address ^= 4),
            (Field::Count, |answer| answer.count += 1),
            (Field::Value, |answer| answer.value ^= 1),
        ];
        for (field, change) in changes {
            for index in 1..6 {
                let (scope, mut runs) = alike();
                change(&mut runs[1].answers[index]);
                let found = forbidden(&scope, &runs);
                if (field, index) == (Field::Value, 2) {
                    assert_eq!(found, None);
                    continue;
                }
                let Some(Difference::Answer(seen)) = found else { panic!("{field:?} of record {index}: {found:?}") };
                assert_eq!((seen.field, seen.index), (field, index));
            }
        }
    }

    #[test]
    fn answers_up_to_the_lock_are_not_judged() {
        let (mut scope, mut runs) = alike();
        scope.lock = 4;
        runs[1].answers[3].value = 0;
        runs[1].answers[4].count = 1;
        let verdicts: Vec<Verdict> = seen(&scope, &runs).iter().map(|seen| seen.verdict).collect();
        assert_eq!(verdicts, [Verdict::BeforeLock; 3]);
        runs[1].answers[5].count = 1;
        assert!(matches!(forbidden(&scope, &runs), Some(Difference::Answer(Seen { index: 5, .. }))));
    }

    #[test]
    fn registers_and_table_are_compared() {
        let (scope, mut runs) = alike();
        runs[1].at_end.table[8] = 0x1001;
        assert_eq!(forbidden(&scope, &runs), Some(Difference::Register("GTT[8]".to_string(), [7, 0x1001])));
        runs[1].at_end.registers[1].1 = 0x4F;
        assert_eq!(forbidden(&scope, &runs), Some(Difference::Register("dev0.SMRAM".to_string(), [0x4E, 0x4F])));
    }

    #[test]
    fn every_unprotected_byte_is_compared() {
        for at in (0..8).chain(16..24) {
            let (scope, mut runs) = alike();
            let byte = runs[0].lent.memory[at];
            runs[1].lent.memory[at] = 0xBB;
            assert_eq!(forbidden(&scope, &runs), Some(Difference::Byte(at, [byte.into(), 0xBB])));
        }
    }

    /// At the addresses of protected bytes too.
    #[test]
    fn every_byte_of_the_display_cache_is_compared() {
        for at in 0..32 {
            let (scope, mut runs) = alike();
            runs[1].lent.display[at] = 0xBB;
            assert_eq!(forbidden(&scope, &runs), Some(Difference::Display(at, [0x33, 0xBB])));
        }
    }

    #[test]
    fn a_protected_byte_changes_only_where_a_write_landed() {
        for (run, at) in [0, 1].into_iter().flat_map(|run| (8..16).chain(24..32).map(move |at| (run, at))) {
            let (scope, mut runs) = alike();
            runs[run].lent.memory[at] ^= 1;
            let expected = (at >= 12).then_some(Difference::Unwritten(run, at));
            assert_eq!(forbidden(&scope, &runs), expected);
        }
        let (scope, mut runs) = alike();
        for run in &mut runs {
            run.records[1] = Record::write(8, 2, 0, true);
        }
        assert_eq!(forbidden(&scope, &runs), Some(Difference::Unwritten(0, 10)));
    }

    #[test]
    fn the_same_bytes_must_stay_protected() {
        let (scope, mut runs) = alike();
        runs[1].moved = Some(3);
        assert_eq!(forbidden(&scope, &runs), Some(Difference::Moved(1, 3)));
    }
}
