//! Netlib's reference BLAS, where it is linked: docs/DIFFERENCES.md says what it gives, and it agrees where no
//! difference is told.
#![cfg(all(reference, netlib))]

use oracle::answer::answer;
use oracle::call::Routine::*;
use oracle::call::{Call, Kind};
use oracle::compare::against;
use oracle::examples::{answer_of_netlib, calls, changed_after, changed_before};
use oracle::page::{NETLIB, text, wrong};

#[test]
fn the_page_has_what_netlib_gives() {
    assert_eq!(wrong(&text(), &NETLIB), [""; 0]);
}

#[test]
fn a_wrong_number_of_netlib_is_found() {
    let (right, changed) = ("- Rust: (5,5); Netlib: (5,0)\n", "- Rust: (5,0); Netlib: (5,5)\n");
    assert_eq!(text().matches(right).count(), 1);
    assert_eq!(wrong(&text().replace(right, changed), &NETLIB).len(), 1);
}

#[test]
fn the_examples_agree() {
    let report = against(answer_of_netlib, Kind::equal, |call| Some(answer(call)), calls());
    assert_eq!(report.first, None);
    assert!(report.calls.iter().flatten().all(|&count| count >= 200), "{:?}", report.calls);
}

#[cfg(capi)]
#[test]
fn the_c_interface_agrees_with_netlib() {
    let report = against(answer_of_netlib, Kind::equal, oracle::capi::answer, calls());
    assert_eq!(report.first, None);
}

#[test]
fn the_examples_find_a_changed_number() {
    for planted in [changed_before, changed_after] {
        let report = against(answer_of_netlib, Kind::equal, planted, calls());
        assert!(report.differ.iter().flatten().all(|&count| count > 0), "{:?}", report.differ);
    }
}

/// The settings in which both make the same operations in the same order, save for zeros, alpha 0 and ONE, and a
/// complex quotient.
fn same_operations(call: &Call) -> bool {
    let real = call.kind != Kind::Complex;
    match (call.routine, &call.flags[..]) {
        (Gemv, [trans]) | (Gemm, [trans, _]) | (Syrk | Herk, [_, trans]) => *trans != 0,
        (Trmv, [uplo, trans, _]) => (*uplo == 0) == (*trans == 0),
        (Trsv, [uplo, trans, unit]) => (*uplo == 0) != (*trans == 0) && (real || *unit == 1),
        (Trmm, [side, uplo, trans, _]) => *side == 0 && *uplo == 1 && *trans != 0,
        (Trsm, [0, uplo, trans, unit]) => (*uplo == 1 || *trans != 0) && (real || *unit == 1),
        (Trsm, [_, _, trans, unit]) => *trans == 0 && *unit == 1,
        _ => false,
    }
}

/// The call with full significands; what is 0 stays 0.
fn rounded(mut call: Call) -> Call {
    let cells = call.slabs.iter_mut().flatten().chain(&mut call.alpha).chain(&mut call.beta);
    cells.for_each(|cell| *cell = call.kind.cell(call.kind.number(*cell) * 0.7));
    call
}

/// On numbers that round, the two agree in these settings and in no other.
#[test]
fn the_same_operations_give_the_same_numbers() {
    let the_rust = |call: &mut Call| Some(answer(call));
    let settings: Vec<Call> = calls().collect();
    for calls in settings.chunk_by(|a, b| (a.routine, a.kind, &a.flags) == (b.routine, b.kind, &b.flags)) {
        let report = against(answer_of_netlib, Kind::equal, the_rust, calls.iter().cloned().map(rounded));
        let call = &calls[0];
        assert_eq!(report.differences() == 0, same_operations(call), "{}", call.show());
    }
}
