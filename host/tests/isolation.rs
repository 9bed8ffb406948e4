//! Demand 3 as a test, through the call.

mod common;

use common::isolation::two_runs;
use common::{lists, seed};
use mitrophel::call;
use std::time::Instant;

/// "The two lists are equally long and equal byte for byte, except bytes 8-11 of management-mode
/// writes that land there in the first run. Answers are compared in all 16 bytes, except bytes 8-11
/// for a management-mode read that lands there." Request 5 of document 02: "The offset does not depend on protected
/// bytes, so demand 3 stands as it is." Request 8 has PAMR and FDHC, of which it says the same, and request 11: "Demand 3
/// counts this memory as unprotected, equal at the start."
#[test]
fn two_runs_that_differ_in_protected_memory_cannot_be_told_apart() {
    let started = Instant::now();
    let trials = lists(2_000).min(2_000);
    let outcome = two_runs(seed(), trials, |board, memory, records, answers, display| {
        call::gmch_replay(board, memory, records, answers, display) == 0
    });
    let tally = outcome.unwrap_or_else(|why| panic!("{why}"));
    println!("{tally:#?}");
    println!("{:.1} s", started.elapsed().as_secs_f64());
    // The trials must have had something to tell apart.
    assert!(tally.differing_bytes > 0);
    assert!(tally.different_values > 0);
    assert!(tally.landing_writes > 0);
    assert!(tally.trials.iter().all(|&trials| trials > 0));
    assert!(tally.protected_pages > 0);
    assert!(tally.protected_words > 0);
    assert!(tally.forbidden_entries.iter().all(|&refused| refused > 0));
    assert!(tally.shown_offsets.iter().all(|&shown| shown > 0));
    assert!(tally.power_states.iter().all(|&held| held > 0));
    assert!(tally.discarded_states > 0);
    assert!(tally.display > 0);
    assert!(tally.shadow.iter().all(|&accesses| accesses > 0));
    assert!(tally.steered.iter().all(|&writes| writes > 0));
    assert!(tally.runs > 0);
}
