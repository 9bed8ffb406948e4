//! The demo and its sample. What the demo does with wrong samples and wrong calls is tested beside its code.

mod cli;

use cli::{example, run, DONE};

/// The demo checks each expectation that `replay --check` finds in the sample, and the two keys.
#[test]
fn every_expectation_of_the_sample_is_checked() {
    let sample = example("desk.trace");
    let checked = run(&["replay", "--check", &sample]);
    assert_eq!((checked.status, checked.errors.as_str()), (DONE, ""), "{}", checked.text);
    let count = checked
        .text
        .strip_prefix(&format!("{sample}: "))
        .and_then(|rest| rest.strip_suffix(" expectations, all met\n"));
    let count: usize = count.and_then(|count| count.parse().ok()).expect("a number of expectations");
    let demo = run(&["demo"]);
    assert_eq!((demo.status, demo.errors.as_str()), (DONE, ""));
    let end = format!("\n{} outcomes checked: all as documents 01 and 02 have them.\n", count + 1);
    assert!(demo.text.ends_with(&end), "{}", demo.text);
}
