//! The two runs of a trace.

use super::Key;
use crate::cli::blocks::Blocks;
use crate::cli::failure::Failure;
use crate::cli::load::{Lent, List, Memory};
use crate::cli::names::{self, Bases};
use crate::cli::pair::{Call, Hub, Pair};
use mitrophel::record;
use mitrophel::reference::Smram;
use mitrophel::{Answer, Board, Kind, Record, Target};
use std::cell::RefCell;
use std::collections::HashSet;
use std::iter;
use std::ops::Range;

/// What a trace is replayed on.
pub struct Machine<'a> {
    board: Board,
    memory: &'a Memory,
    call: Call,
    /// Memories that were used and are not needed any more.
    used: RefCell<Vec<Lent>>,
}

impl<'a> Machine<'a> {
    pub fn new(board: Board, memory: &'a Memory, call: Call) -> Machine<'a> {
        Machine { board, memory, call, used: RefCell::default() }
    }

    /// Both on memories as they are at the start, but for what `put` puts in main memory.
    fn pair(&self, put: impl Fn(&mut [u8])) -> Pair {
        let both = [(); 2].map(|()| {
            let used = self.used.borrow_mut().pop();
            let mut lent = used.map_or_else(|| self.memory.fresh(), |used| self.memory.renewed(used));
            put(&mut lent.memory);
            lent
        });
        Pair::by(self.board, both, self.call).without_values()
    }
}

/// The protected bytes: ranges of addresses, in order.
#[derive(Debug, Default, PartialEq, Eq)]
pub struct Protected(pub Vec<Range<usize>>);

impl Protected {
    pub fn of(hub: &Hub<'_>) -> Protected {
        Protected(hub.protected_ranges().map(|range| range.start as usize..range.end as usize).collect())
    }

    fn has(&self, address: usize) -> bool {
        self.0.iter().any(|range| range.contains(&address))
    }

    fn addresses(&self) -> impl Iterator<Item = usize> + '_ {
        self.0.iter().cloned().flatten()
    }

    pub fn bytes(&self) -> usize {
        self.0.iter().map(Range::len).sum()
    }

    /// The other bytes of a memory.
    pub fn others(&self, length: usize) -> Vec<Range<usize>> {
        let starts = iter::once(0).chain(self.0.iter().map(|range| range.end));
        let ends = self.0.iter().map(|range| range.start).chain(iter::once(length));
        starts.zip(ends).map(|(start, end)| start..end).collect()
    }

    /// The first other byte in which two memories of one length differ.
    pub fn difference_outside(&self, one: &[u8], two: &[u8]) -> Option<usize> {
        let others = self.others(one.len());
        let mut range = others.into_iter().find(|range| one[range.clone()] != two[range.clone()])?;
        range.find(|&at| one[at] != two[at])
    }

    pub fn in_words(&self) -> String {
        let ranges = self.0.iter().map(|range| format!("{:X}h-{:X}h", range.start, range.end - 1));
        ranges.collect::<Vec<_>>().join(" and ")
    }
}

/// "A management-mode access that lands in protected memory".
pub fn lands(protected: &Protected, record: &Record, answer: &Answer) -> bool {
    record.is_management() && reaches(protected, answer)
}

fn reaches(protected: &Protected, answer: &Answer) -> bool {
    let memory = answer.code == 0 && answer.target() == Some(Target::Memory);
    memory && protected.has(answer.address as usize)
}

pub fn is_write(record: &Record) -> bool {
    record.kind() == Some(Kind::Write)
}

/// What demand 3 speaks of in a trace: the records after the lock and before the next reset.
pub struct Scope {
    /// The record that sets the lock, from 0.
    pub lock: usize,
    /// One past the last record.
    pub end: usize,
    /// SMRAM after the lock.
    pub smram: Smram,
    pub protected: Protected,
    /// The management-mode writes that land in protected memory, before the lock too, in order.
    pub carriers: Vec<usize>,
    /// What the names stood for at each record.
    pub bases: Vec<Bases>,
}

impl Scope {
    /// Replays the trace as it is.
    pub fn of(machine: &Machine<'_>, list: &List) -> Result<Scope, Failure> {
        let mut pair = machine.pair(|_| ());
        let (mut locked, mut bases, mut answers) = (None, Vec::new(), Vec::new());
        for call in list.calls()? {
            answers.extend(pair.replay(&list.records[call], |step| {
                if locked.is_none() && step.hub.smram().locked() {
                    locked = Some((bases.len(), step.hub.smram(), Protected::of(step.hub)));
                }
                bases.push(step.bases);
                Ok(())
            })?);
        }
        machine.used.borrow_mut().extend(pair.into_both());
        let refused = |why: &str| Failure::input(format!("{}: {why}", list.name()));
        let lock = "expected a write that sets SMRAM's lock, bit 1, such as 'config write dev0.SMRAM 4Eh', found none";
        let missing = || refused(lock);
        let (lock, smram, protected) = locked.ok_or_else(missing)?;
        if protected.0.is_empty() {
            return Err(refused("the lock is set with no memory protected: there is no place for a key"));
        }
        let records: Vec<Record> = record::decode(&list.records).collect();
        let reset = records.iter().skip(lock + 1).position(|record| *record == Record::reset());
        let end = reset.map_or(records.len(), |after| lock + 1 + after);
        let both = records.iter().zip(record::decode_answers(&answers)).take(end).enumerate();
        let carries = |index: usize, record: &Record, answer: &Answer| {
            let may = record.is_management() || index < lock;
            may && record.kind().is_some_and(Kind::is_write) && reaches(&protected, answer)
        };
        let carriers =
            both.filter(|(index, (record, answer))| carries(*index, record, answer)).map(|(index, _)| index).collect();
        Ok(Scope { lock, end, smram, protected, carriers, bases })
    }

    /// The list up to the end, with the key's next bytes in each write that carries it.
    fn with_key(&self, list: &List, key: &Key) -> Vec<Record> {
        let mut records: Vec<Record> = record::decode(&list.records).take(self.end).collect();
        let mut next = key.repeated();
        for &index in &self.carriers {
            let mut data = [0; 4];
            for (byte, own) in data.iter_mut().take(records[index].width.into()).zip(&mut next) {
                *byte = own;
            }
            records[index].data = u32::from_le_bytes(data);
        }
        records
    }

    /// The records that demand 3 compares.
    pub fn compared(&self) -> Range<usize> {
        self.lock + 1..self.end
    }
}

/// Registers and table at one moment.
#[derive(Clone, Debug, Default, PartialEq, Eq)]
pub struct State {
    /// Each with its name.
    pub registers: Vec<(String, u32)>,
    /// The private one. Of a table in main memory the words in unprotected memory are among the unprotected bytes.
    pub table: Vec<u32>,
}

impl State {
    fn of(hub: &Hub<'_>) -> State {
        let mut registers = vec![("CF8h".to_string(), hub.config_address())];
        for (device, at) in (0..2).flat_map(|device| (0..256).map(move |at| (device, at))) {
            let byte = hub.config_byte(device, at).map(u32::from);
            registers.extend(byte.map(|byte| (names::config_register(device, at as u32, 1).0, byte)));
        }
        for row in names::MAPPED {
            registers.extend(hub.register(row.at).map(|value| (row.name.to_string(), value)));
        }
        State { registers, table: hub.table().to_vec() }
    }

    /// The first register or table word that differs, with both values.
    pub fn difference(&self, other: &State) -> Option<(String, [u32; 2])> {
        let register = self.registers.iter().zip(&other.registers).find(|(one, two)| one != two);
        if let Some((one, two)) = register {
            return Some((one.0.clone(), [one.1, two.1]));
        }
        let (entry, (one, two)) = self.table.iter().zip(&other.table).enumerate().find(|(_, (one, two))| one != two)?;
        Some((format!("GTT[{entry}]"), [*one, *two]))
    }
}

/// One run, as far as demand 3 speaks of it.
#[derive(Clone, Default)]
pub struct Run {
    pub records: Vec<Record>,
    pub answers: Vec<Answer>,
    pub at_lock: State,
    pub at_end: State,
    /// The protected bytes right after the lock, in order.
    pub kept: Vec<u8>,
    /// The other bytes right after the lock, where they may depend on the key: a table in main memory can have lain in
    /// the key's bytes, and its entries decide where others go. Private entries come from the list.
    pub others_at_lock: Option<Blocks>,
    /// The display cache then, for the same reason.
    pub display_at_lock: Option<Blocks>,
    /// Memory and display cache at the end.
    pub lent: Lent,
    /// The first record after which other bytes are protected than at the lock.
    pub moved: Option<usize>,
}

impl Run {
    pub fn of(machine: &Machine<'_>, list: &List, scope: &Scope, key: &Key) -> Result<Run, Failure> {
        let mut pair = machine.pair(|memory| {
            for (address, byte) in scope.protected.addresses().zip(key.repeated()) {
                memory[address] = byte;
            }
        });
        let mut run = Run { records: scope.with_key(list, key), ..Run::default() };
        let bytes = record::encode(&run.records);
        let (mut index, mut answers) = (0, Vec::new());
        // What is left out is cut in front of a reset, as the calls are.
        for call in list.calls()?.into_iter().filter(|call| call.start < bytes.len()) {
            let call = call.start..call.end.min(bytes.len());
            answers.extend(pair.replay(&bytes[call], |step| {
                run.note(scope, index, step.hub);
                index += 1;
                Ok(())
            })?);
        }
        run.answers = record::decode_answers(&answers).collect();
        let [lent, beside] = pair.into_both();
        run.lent = lent;
        machine.used.borrow_mut().push(beside);
        Ok(run)
    }

    /// Takes note of the hub after a record.
    fn note(&mut self, scope: &Scope, index: usize, hub: &Hub<'_>) {
        if index == scope.lock {
            self.at_lock = State::of(hub);
            self.kept = scope.protected.addresses().map(|address| hub.memory()[address]).collect();
            if hub.board().table_in_memory() {
                let (mut others, mut display) = (Blocks::default(), Blocks::default());
                for range in scope.protected.others(hub.memory().len()) {
                    others.keep(range.start, &hub.memory()[range]);
                }
                display.keep(0, hub.display());
                (self.others_at_lock, self.display_at_lock) = (Some(others), Some(display));
            }
        }
        if index + 1 == scope.end {
            self.at_end = State::of(hub);
        }
        // All bits but the error bit are the lock's to hold.
        if index > scope.lock && self.moved.is_none() && (hub.smram().0 ^ scope.smram.0) & !1 != 0 {
            self.moved = Some(index);
        }
    }

    /// The first protected byte that is not as it was at the lock though no management-mode write landed on it.
    pub fn changed_unwritten(&self, scope: &Scope) -> Option<usize> {
        let mut written = HashSet::new();
        for index in scope.compared() {
            let (record, answer) = (&self.records[index], &self.answers[index]);
            if is_write(record) && lands(&scope.protected, record, answer) {
                let start = answer.address as usize;
                written.extend(start..start + usize::from(record.width));
            }
        }
        let mut bytes = scope.protected.addresses().zip(&self.kept);
        let changed = bytes.find(|(address, kept)| self.lent.memory[*address] != **kept && !written.contains(address));
        changed.map(|(address, _)| address)
    }
}
