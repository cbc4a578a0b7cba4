//! The Rust's C functions do what the oracle does, so that the timings compare the same work.
#![cfg(reference)]

use oracle::call::Call;
use oracle::compare::compare;
use oracle::generate::many;
use oracle::reference::answer;
use oracle::refusal::refusal;

/// Draws the call none of refusals 1 to 4?
fn is_accepted(call: &Call) -> bool {
    refusal(call.routine, &call.flags, &call.views, &call.lengths()) == 0
}

#[test]
fn the_reference_functions_agree() {
    let report = compare(answer, many(3000, 14).filter(is_accepted));
    assert_eq!(report.first, None);
    assert!(report.calls.iter().flatten().all(|&count| count > 10), "{:?}", report.calls);
    let [done, .., singular] = report.answers;
    assert!(singular > 20 && done + singular == report.total(), "{:?}", report.answers);
}
