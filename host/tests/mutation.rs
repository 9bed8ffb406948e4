//! Whether the random comparison would notice: the reference with one deliberate fault at a time.

mod common;

use common::compare::{undo, List, Lists};
use common::isolation::{two_runs, two_runs_on_zeros, Tally};
use common::{blank_display, seed, Watch, MIB};
use mitrophel::faults::{Fault, OneFault};
use mitrophel::reference::{replay, replay_with, Unobserved};
use mitrophel::{Board, DISPLAY_BYTES, MOST_MEMORY};

/// How many lists the comparison may take to notice a fault. The random comparison itself replays
/// fifty times as many.
const LISTS: u64 = 400;

/// How many more on the largest memory, for the faults that smaller ones do not show.
const LARGE_LISTS: u64 = 100;

/// Lengths of memory for the faults that no list shows: request 6 of document 02, "Lengths just above are still code 1."
const LENGTHS: [usize; 6] =
    [512 * MIB, 520 * MIB, MOST_MEMORY - 8 * MIB, MOST_MEMORY, MOST_MEMORY + 1, MOST_MEMORY + 8 * MIB];

/// Whether a replay with this fault differs from what is expected on this list.
fn caught(lists: &Lists, list: &List, [memory, display]: [&mut [u8]; 2], fault: Fault) -> bool {
    let mut watch = Watch::default();
    let mut answers = vec![0; list.records.len()];
    let (memory_lent, display_lent) = (&mut memory[..list.tom], &mut display[..list.display]);
    let (records, watching, fault) = (&list.records, &mut watch, OneFault::new(fault));
    let result = replay_with(list.board, memory_lent, records, &mut answers, display_lent, watching, fault);
    let caught = result != 0 || lists.check(list, &answers, memory, display).is_err();
    undo(memory, &lists.pristine, &watch.writes);
    undo(display, &lists.pristine_display, &watch.display_writes);
    caught
}

/// Lengths of a display cache for the same: request 11 of document 02, "4 MiB for kinds 1 and 3, and of length 0 for the
/// others; else code 1."
const DISPLAY_LENGTHS: [usize; 4] = [0, DISPLAY_BYTES, DISPLAY_BYTES + 1, 2 * DISPLAY_BYTES];

/// Whether a replay with this fault has another result than the reference on a memory of this length.
fn caught_by_length(memory: &mut [u8], fault: Fault) -> bool {
    Board::ALL.map(Board::number).into_iter().any(|board| differs(board, memory, &mut blank_display(board), fault))
}

/// Whether it has with a display cache of this length.
fn caught_by_display(memory: &mut [u8], display: &mut [u8], fault: Fault) -> bool {
    Board::ALL.map(Board::number).into_iter().any(|board| differs(board, memory, display, fault))
}

fn differs(board: u32, memory: &mut [u8], display: &mut [u8], fault: Fault) -> bool {
    let result = replay_with(board, memory, &[], &mut [], display, Unobserved, OneFault::new(fault));
    result != replay(board, memory, &[], &mut [], display)
}

/// A fault, the first thing that noticed it, and how many did.
struct Noticed {
    fault: Fault,
    first: Option<String>,
    times: u64,
}

impl Noticed {
    fn note(&mut self, caught: bool, by: impl FnOnce() -> String) {
        if caught {
            self.first.get_or_insert_with(by);
            self.times += 1;
        }
    }
}

/// Each of the wrong references differs from document 01, or from request 3, 5, 6, 8, 9, 10 or 11 of document 02, in one
/// sentence, which its comment in `faults` states.
#[test]
fn every_wrong_reference_is_caught_by_the_random_comparison() {
    let seed = seed();
    let mut lists = Lists::new(seed);
    // The same for the lists of each memory.
    let mut display = lists.pristine_display.clone();
    let mut faults: Vec<_> = Fault::ALL.iter().map(|&fault| Noticed { fault, first: None, times: 0 }).collect();
    let mut on_list = |lists: &mut Lists, memory: &mut [u8], number: u64, faults: &mut [Noticed], name: &str| {
        let list = lists.make(number);
        for noticed in faults {
            let lent = [&mut *memory, &mut display];
            noticed.note(caught(lists, &list, lent, noticed.fault), || format!("{name} {number}"));
        }
        lists.restore(&list);
    };
    let mut memory = lists.pristine.clone();
    for number in 0..LISTS {
        on_list(&mut lists, &mut memory, number, &mut faults, "list");
    }
    // What is left needs more memory. Pages that nobody touches cost nothing.
    faults.sort_by_key(|noticed| noticed.first.is_none());
    let left = faults.partition_point(|noticed| noticed.first.is_some());
    let mut lists = Lists::on_zeros(seed, MOST_MEMORY);
    let mut memory = vec![0; MOST_MEMORY + 8 * MIB];
    for number in 0..LARGE_LISTS {
        on_list(&mut lists, &mut memory, number, &mut faults[left..], "large list");
    }
    for length in LENGTHS {
        for noticed in &mut faults[left..] {
            noticed.note(caught_by_length(&mut memory[..length], noticed.fault), || format!("{length} bytes"));
        }
    }
    let mut room = vec![0; 2 * DISPLAY_BYTES];
    for length in DISPLAY_LENGTHS {
        for noticed in &mut faults[left..] {
            let caught = caught_by_display(&mut memory[..8 * MIB], &mut room[..length], noticed.fault);
            noticed.note(caught, || format!("display {length}"));
        }
    }
    let lengths = LENGTHS.len() + DISPLAY_LENGTHS.len();
    println!("{:>16} {:>6}  of {LISTS} lists, {LARGE_LISTS} large lists, {lengths} lengths", "first", "times");
    for Noticed { fault, first, times } in &faults {
        println!("{:>16} {times:>6}  {fault:?}", first.as_deref().unwrap_or("never"));
    }
    let missed: Vec<_> = faults.iter().filter(|noticed| noticed.first.is_none()).map(|noticed| noticed.fault).collect();
    assert!(missed.is_empty(), "not caught: {missed:?}");
}

/// Faults that open protected memory, for the two runs of demand 3.
const LEAKS: [Fault; 23] = [
    Fault::ProtectionNotChecked,
    Fault::ProtectionOfOffset,
    Fault::ManagementExemptInWindow,
    Fault::LockDoesNotHold,
    Fault::ManagementDataReadsOpened,
    Fault::MastersReachManagementMemory,
    Fault::HsegOpensCompatibleRange,
    Fault::HsegActsBesideLsmm,
    Fault::LookupReadsProtectedWords,
    Fault::FetchReadsProtectedWords,
    Fault::RegisterReadsProtectedWords,
    Fault::RegisterWritesProtectedWords,
    Fault::ManagementReadsProtectedWords,
    Fault::ProtectionOfTableBase,
    Fault::EntryBeforeWord,
    Fault::ProtectedWordShown,
    Fault::DisplayReadFromMemory,
    Fault::DisplayWriteLandsInMemory,
    Fault::DisplayFetchReadsMemory,
    Fault::LockEndsCheckAtUse,
    Fault::LockEndsCheckOfWords,
    Fault::PamrCoversCompatible,
    Fault::ShadowAtTop,
];

/// Those that need more memory.
const LARGE_LEAKS: [Fault; 3] = [Fault::ProtectionOf29Bits, Fault::WordProtectionOf29Bits, Fault::TsegBelow512Mib];

/// "Useless models to try": demand 3's test must fail for a model that leaks.
#[test]
fn every_leak_is_caught_by_the_two_runs() {
    let seed = seed();
    for fault in LEAKS {
        assert_leaks(fault, |replay| two_runs(seed, 300, replay));
    }
    for fault in LARGE_LEAKS {
        assert_leaks(fault, |replay| two_runs_on_zeros(seed, MOST_MEMORY, 100, replay));
    }
}

type Replay<'a> = &'a dyn Fn(u32, &mut [u8], &[u8], &mut [u8], &mut [u8]) -> bool;

/// Asks that the trials of the reference with this fault end in a violation.
fn assert_leaks(fault: Fault, trials: impl FnOnce(Replay) -> Result<Tally, String>) {
    let outcome = trials(&|board, memory, records, answers, display| {
        replay_with(board, memory, records, answers, display, Unobserved, OneFault::new(fault)) == 0
    });
    match outcome {
        Err(why) => println!("{fault:?}: {}", why.lines().next().unwrap_or_default()),
        Ok(tally) => panic!("{fault:?} was not noticed: {tally:?}"),
    }
}
