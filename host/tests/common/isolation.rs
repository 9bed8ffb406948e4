//! The two runs of document 01's demand 3.
//!
//! A call is always a cold start, so the state that demand 3 starts from is reached by a prefix that
//! ends with the lock set. Both runs replay the same prefix, from memories that differ only in bytes
//! that are protected once the lock is set and that the prefix neither reads nor writes: at the lock
//! the two memories still differ in exactly those bytes, and in nothing else has the prefix told them
//! apart. The rest of the list, the body, is demand 3's list. The reference, which replays the first
//! run, says which accesses land in protected memory. Where the table is in main memory, request 10 of
//! document 02 has demand 3 read "table words in unprotected memory": these are bytes of unprotected
//! memory, which is equal at the lock. Request 11: "Demand 3 counts this memory", the display cache, "as
//! unprotected, equal at the start"; it is equal at the end, too. Request 8: "demand 3 stands", with any value in PAMR
//! and FDHC at the lock and with any written later, since the lock holds neither.

use super::compare::{range, undo};
use super::generate::{board, pristine_display, pristine_memory, table, Generator};
use super::Random;
use mitrophel::reference::{Lsmm, Smram, Touch};
use mitrophel::{record, Answer, Board, Kind, Record};
use std::ops::Range;

/// What the trials met, so that a reader can see that they were not empty.
#[derive(Clone, Copy, Debug, Default)]
pub struct Tally {
    /// By board.
    pub trials: [u64; Board::ALL.len()],
    pub body_records: u64,
    /// Bytes in which the memories differed.
    pub differing_bytes: u64,
    /// Management reads that landed in protected memory, and those of them whose values differed.
    pub landing_reads: u64,
    pub different_values: u64,
    /// Management writes that landed in protected memory.
    pub landing_writes: u64,
    /// Refusals with code 6.
    pub protected_pages: u64,
    /// Uses of a table word that were refused because it is protected.
    pub protected_words: u64,
    /// Table writes that were refused with code 16, by board.
    pub forbidden_entries: [u64; Board::ALL.len()],
    /// Window accesses whose refusal showed an offset other than 0, with 3, 4, 5, 6, 7 and 9.
    pub shown_offsets: [u64; 6],
    /// Writes of a power state that met 00 and that met 11, and those that were discarded.
    pub power_states: [u64; 2],
    pub discarded_states: u64,
    /// Accesses and fetches that reached the display cache.
    pub display: u64,
    /// Accesses in C0000h-FFFFFh that went to the hub and to memory, and those that met the hole.
    pub shadow: [u64; 3],
    /// Writes that changed PAMR and FDHC.
    pub steered: [u64; 2],
    /// Parser runs that completed a step.
    pub runs: u64,
}

impl Tally {
    fn count_body(&mut self, answers: &[Answer]) {
        self.body_records += answers.len() as u64;
        self.protected_pages += answers.iter().filter(|answer| answer.code == 6).count() as u64;
        self.runs += answers.iter().filter(|answer| answer.count > 0).count() as u64;
    }
}

/// The protected bytes: "A0000h-BFFFFh if LSMM is 10 or 11, or HSEG acts; and the TSEG."
pub fn protected_ranges(smram: Smram, tom: usize) -> Vec<Range<usize>> {
    let mut ranges = Vec::new();
    if matches!(smram.lsmm(), Lsmm::ManagementCodeReads | Lsmm::ManagementAll) || smram.hseg_acts() {
        ranges.push(0xA_0000..0xC_0000);
    }
    ranges.push(tom - smram.tseg_bytes() as usize..tom);
    ranges
}

/// Management-mode reads and writes "are records of kinds 3 and 4, and of kind 5, with flag bit 0
/// set", and land "at a protected final address".
fn lands(record: &Record, landing: &Option<Touch>) -> bool {
    record.is_management()
        && record.kind().is_some_and(Kind::is_processor)
        && landing.is_some_and(|touch| touch.protected)
}

/// "equal byte for byte, except bytes 8-11 of management-mode writes that land there in the first run"
fn other_list(records: &[Record], landing: &[bool], random: &mut Random) -> Vec<Record> {
    let other = |(record, landing): (&Record, &bool)| match record.kind() {
        Some(Kind::Write) if *landing => Record { data: random.word(), ..*record },
        _ => *record,
    };
    records.iter().zip(landing).map(other).collect()
}

/// Trials of the two runs through `replay`, which answers whether the call succeeded. The first
/// violation in words, or what was met.
pub fn two_runs(
    seed: u64,
    trials: u64,
    replay: impl FnMut(u32, &mut [u8], &[u8], &mut [u8], &mut [u8]) -> bool,
) -> Result<Tally, String> {
    let pristine = pristine_memory();
    let [scratch, first, second] = std::array::from_fn(|_| pristine.clone());
    trials_on(Memories::new(None, pristine, [scratch, first, second]), seed, trials, replay)
}

/// The same on memories of this length, all zeros before the keys are in them.
pub fn two_runs_on_zeros(
    seed: u64,
    tom: usize,
    trials: u64,
    replay: impl FnMut(u32, &mut [u8], &[u8], &mut [u8], &mut [u8]) -> bool,
) -> Result<Tally, String> {
    let [pristine, scratch, first, second] = std::array::from_fn(|_| vec![0; tom]);
    trials_on(Memories::new(Some(tom), pristine, [scratch, first, second]), seed, trials, replay)
}

fn trials_on(
    mut memories: Memories,
    seed: u64,
    trials: u64,
    mut replay: impl FnMut(u32, &mut [u8], &[u8], &mut [u8], &mut [u8]) -> bool,
) -> Result<Tally, String> {
    let mut tally = Tally::default();
    for number in 0..trials {
        let mut trial = Trial::make(Random::for_list(seed ^ 0x0A11, number), &mut memories, &mut tally);
        let mut answers = [vec![0xA5; trial.first.len()], vec![0x5A; trial.second.len()]];
        let (board, tom) = (trial.board, trial.tom);
        let [first, second] = &mut answers;
        let displays = memories.displays.each_mut().map(|display| &mut display[..trial.display]);
        let [_, first_display, second_display] = displays;
        let good = replay(board, &mut memories.first[..tom], &trial.first, first, first_display)
            && replay(board, &mut memories.second[..tom], &trial.second, second, second_display);
        if !good {
            return Err(format!("seed {seed}, trial {number}: the call was refused"));
        }
        trial
            .check_answers(&answers, &mut tally)
            .and_then(|()| trial.check_memory(&memories))
            .map_err(|why| format!("seed {seed}, trial {number}: {why}"))?;
        memories.restore(&trial);
        tally.trials[board as usize] += 1;
    }
    Ok(tally)
}

/// Memory before a trial; as the reference leaves it; as each of the two runs leaves it. The display cache likewise.
struct Memories {
    /// The length of every trial's memory, where it is not left to the trial.
    tom: Option<usize>,
    pristine: Vec<u8>,
    scratch: Vec<u8>,
    first: Vec<u8>,
    second: Vec<u8>,
    pristine_display: Vec<u8>,
    /// The reference's, the first run's and the second's.
    displays: [Vec<u8>; 3],
}

impl Memories {
    fn new(tom: Option<usize>, pristine: Vec<u8>, [scratch, first, second]: [Vec<u8>; 3]) -> Memories {
        let pristine_display = pristine_display();
        let displays = std::array::from_fn(|_| pristine_display.clone());
        Memories { tom, pristine, scratch, first, second, pristine_display, displays }
    }

    fn restore(&mut self, trial: &Trial) {
        for display in &mut self.displays {
            undo(display, &self.pristine_display, &trial.display_writes);
        }
        for memory in [&mut self.scratch, &mut self.first, &mut self.second] {
            undo(memory, &self.pristine, &trial.writes);
            for bytes in &trial.protected {
                memory[bytes.clone()].copy_from_slice(&self.pristine[bytes.clone()]);
            }
        }
    }
}

struct Trial {
    board: u32,
    tom: usize,
    /// The two lists.
    first: Vec<u8>,
    second: Vec<u8>,
    /// How many records the prefix has.
    prefix: usize,
    /// Whether a record lands in protected memory; false in the prefix.
    landing: Vec<bool>,
    protected: Vec<Range<usize>>,
    /// The protected bytes at the lock, in the first run and in the second, with the bytes on which
    /// writes landed left out by [`Trial::check_memory`].
    at_lock: Vec<(Vec<u8>, Vec<u8>)>,
    landed: Vec<Touch>,
    writes: Vec<Touch>,
    /// The display cache's length, and where it was written.
    display: usize,
    display_writes: Vec<Touch>,
}

impl Trial {
    /// Makes the lists and sets the second memory.
    fn make(mut random: Random, memories: &mut Memories, tally: &mut Tally) -> Trial {
        let (board, tom) = board(&mut random);
        let tom = memories.tom.unwrap_or(tom);
        let (before, after) = (random.below(25), 20 + random.below(80));
        let mut table = table();
        let display = Board::ALL[board as usize].display_bytes();
        let (scratch, scratch_display) = (&mut memories.scratch[..tom], &mut memories.displays[0][..display]);
        let mut generator = Generator::new(random, board, scratch, &mut table, scratch_display);
        generator.hub.observer().note_reads = true;
        generator.fill(before);
        if !generator.hub.smram().locked() {
            let smram = generator.random.word() as u8;
            generator.set_smram(smram | 0x02);
        }

        let smram = generator.hub.smram();
        assert!(smram.locked(), "nothing hides device 0");
        let protected = protected_ranges(smram, tom);
        let copy = |bytes: &Range<usize>| generator.hub.memory()[bytes.clone()].to_vec();
        let at_lock: Vec<Vec<u8>> = protected.iter().map(copy).collect();
        let prefix = generator.records.len();
        let watch = generator.hub.observer();
        watch.note_reads = false;
        let prefix_writes = watch.writes.len();
        let prefix_coverage = watch.coverage.clone();
        let mut seen = std::mem::take(&mut watch.reads);
        seen.extend_from_slice(&watch.writes);

        generator.resets = false;
        generator.act_for(after);
        assert_eq!(generator.hub.smram().0 & 0xFE, smram.0 & 0xFE, "the lock holds the upper bits");

        let watch = std::mem::take(generator.hub.observer());
        let Generator { records, answers, mut random, .. } = generator;
        tally.count_body(&answers[prefix..]);
        tally.protected_words += watch.coverage.protected_words() - prefix_coverage.protected_words();
        let (refused, before) = (watch.coverage.forbidden.refused(), prefix_coverage.forbidden.refused());
        for (count, (refused, before)) in tally.forbidden_entries.iter_mut().zip(refused.into_iter().zip(before)) {
            *count += refused - before;
        }
        tally.display += watch.coverage.display.reached() - prefix_coverage.display.reached();
        let (shadow, before) = (&watch.coverage.shadow, &prefix_coverage.shadow);
        for (count, (seen, before)) in tally.shadow.iter_mut().zip(shadow.seen().into_iter().zip(before.seen())) {
            *count += seen - before;
        }
        let changed = shadow.changed_when_locked().into_iter().zip(before.changed_when_locked());
        for (count, (changed, before)) in tally.steered.iter_mut().zip(changed) {
            *count += changed - before;
        }
        let (shown, before) = (watch.coverage.places.shown(), prefix_coverage.places.shown());
        for (count, (shown, before)) in tally.shown_offsets.iter_mut().zip(shown.into_iter().zip(before)) {
            *count += shown - before;
        }
        let (power, before) = (&watch.coverage.power, &prefix_coverage.power);
        for (count, (held, before)) in tally.power_states.iter_mut().zip(power.held().into_iter().zip(before.held())) {
            *count += held - before;
        }
        tally.discarded_states += power.discarded() - before.discarded();
        let landing: Vec<bool> =
            (0..records.len()).map(|i| i >= prefix && lands(&records[i], &watch.landings[i])).collect();
        let mut trial = Trial {
            board,
            tom,
            first: record::encode(&records),
            second: record::encode(&other_list(&records, &landing, &mut random)),
            prefix,
            landing,
            protected,
            at_lock: Vec::new(),
            landed: watch.writes[prefix_writes..].iter().copied().filter(|touch| touch.protected).collect(),
            writes: watch.writes,
            display,
            display_writes: watch.display_writes,
        };
        trial.make_differ(at_lock, &seen, memories, &mut random, tally);
        trial
    }

    /// Changes the second memory in the protected bytes that the prefix did not see.
    fn make_differ(
        &mut self,
        at_lock: Vec<Vec<u8>>,
        seen: &[Touch],
        memories: &mut Memories,
        random: &mut Random,
        tally: &mut Tally,
    ) {
        let salt = random.word() as usize;
        for bytes in &self.protected {
            for at in bytes.clone() {
                memories.second[at] ^= (at.wrapping_mul(salt | 1) >> 7) as u8 | 1;
            }
        }
        undo(&mut memories.second, &memories.pristine, seen);
        for (bytes, first) in self.protected.iter().zip(at_lock) {
            let changes = memories.second[bytes.clone()].iter().zip(&memories.pristine[bytes.clone()]);
            let second: Vec<u8> = changes.zip(&first).map(|((new, old), first)| first ^ new ^ old).collect();
            tally.differing_bytes += first.iter().zip(&second).filter(|(first, second)| first != second).count() as u64;
            self.at_lock.push((first, second));
        }
    }

    /// "Answers are compared in all 16 bytes, except bytes 8-11 for a management-mode read that lands
    /// there."
    fn check_answers(&self, answers: &[Vec<u8>; 2], tally: &mut Tally) -> Result<(), String> {
        let records = record::decode(&self.first);
        let pairs = record::decode_answers(&answers[0]).zip(record::decode_answers(&answers[1]));
        for (i, (record, (first, second))) in records.zip(pairs).enumerate() {
            let read = record.kind().is_some_and(|kind| !kind.is_write());
            if self.landing[i] && read {
                tally.landing_reads += 1;
                tally.different_values += u64::from(first.value != second.value);
                if (Answer { value: second.value, ..first }) == second {
                    continue;
                }
            } else if first == second {
                tally.landing_writes += u64::from(self.landing[i]);
                continue;
            }
            let part = if i < self.prefix { "prefix" } else { "body" };
            return Err(format!("record {i} ({part}): {record}: {first:?} and {second:?}"));
        }
        Ok(())
    }

    /// Unprotected memory, the display cache with it, is equal in both runs, and a protected byte on which no write
    /// landed is in each run as it was at the lock.
    fn check_memory(&mut self, memories: &Memories) -> Result<(), String> {
        let [_, first, second] = &memories.displays;
        if first != second {
            return Err("the display cache differs".to_string());
        }
        let (first, second) = (&memories.first[..self.tom], &memories.second[..self.tom]);
        // The TSEG, empty or not, is the last range and ends at TOM.
        let mut from = 0;
        for bytes in &self.protected {
            if first[from..bytes.start] != second[from..bytes.start] {
                return Err(format!("unprotected memory differs between {from:X}h and {:X}h", bytes.start));
            }
            from = bytes.end;
        }
        for (bytes, (at_first, at_second)) in self.protected.iter().zip(&mut self.at_lock) {
            for touch in self.landed.iter().filter(|touch| bytes.contains(&(touch.address as usize))) {
                let inside = range(touch).start - bytes.start..range(touch).end - bytes.start;
                at_first[inside.clone()].copy_from_slice(&first[range(touch)]);
                at_second[inside].copy_from_slice(&second[range(touch)]);
            }
            if *at_first != first[bytes.clone()] || *at_second != second[bytes.clone()] {
                return Err(format!("a protected byte from {:X}h changed with no write landing on it", bytes.start));
            }
        }
        Ok(())
    }
}
