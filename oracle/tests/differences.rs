//! docs/DIFFERENCES.md says what the Rust gives.
#![cfg(reference)]

use oracle::answer::answer;
use oracle::call::Routine::*;
use oracle::call::{Call, Kind, Routine};
use oracle::compare::compare;
use oracle::generate::many;
use oracle::page::{RUST, text, wrong};

#[test]
fn the_page_has_what_the_rust_gives() {
    assert_eq!(wrong(&text(), &RUST), [""; 0]);
}

const ITEM: &str = "
- `her-W14`: complex her Lower, alpha 2, x [(1,1)], A [(1,5)]
  - Rust: (5,5); Netlib: (5,0)";

/// The page with her-W14's item changed.
fn changed(from: &str, to: &str) -> String {
    assert_eq!([text().matches(ITEM).count(), ITEM.matches(from).count()], [1, 1], "{from}");
    text().replace(ITEM, &ITEM.replace(from, to))
}

/// An item may be wrapped at any blank.
#[test]
fn a_wrapped_item_is_read() {
    for (from, to) in [("complex her", "complex\n  her"), (", x", ",\n  x"), ("; Netlib", ";\n    Netlib")] {
        assert_eq!(wrong(&changed(from, to), &RUST), [""; 0], "{to}");
    }
}

/// What is not in an item's form, and what no call makes, is found, and nothing beside it.
#[test]
fn a_wrong_item_is_found() {
    let edits = [
        ("her-W14", "her-W15"),
        ("Lower", "Upper"),
        ("Rust: (5,5); Netlib: (5,0)", "Rust: (5,0); Netlib: (5,5)"),
        ("  - Rust: (5,5); Netlib: (5,0)", ""),
        ("; Netlib: (5,0)", ""),
        ("Rust: (5,5); ", ""),
        ("(5,0)", "(5,0); Ours: (5,5)"),
        ("(5,0)", "(5,0)\n  - Ours: (5,5)"),
        ("  - Rust", "- Rust"),
        ("  - Rust", "  Rust"),
        ("\n  - Rust", "\n\n  - Rust"),
        (", x", ",\nx"),
        ("`her-W14`", "her-W14"),
        (ITEM, ""),
        (ITEM, &[ITEM, ITEM].concat()),
        (ITEM, &[ITEM, "\n- `W14-her`: her\n  - Rust: 1; Netlib: 1"].concat()),
        (ITEM, &[ITEM, "\n- W14-her: her\n  - Rust: 1; Netlib: 1"].concat()),
    ];
    for (from, to) in edits {
        let found = wrong(&changed(from, to), &RUST);
        let named = |fault: &String| ["her-W14", "her-W15", "W14-her"].iter().any(|name| fault.contains(name));
        assert!(!found.is_empty() && found.iter().all(named), "{to}: {found:?}");
    }
}

/// The routine without conjugates that a Hermitian one is on reals.
fn symmetric(routine: Routine) -> Routine {
    match routine {
        Hemm => Symm,
        Herk => Syrk,
        Her2k => Syr2k,
        other => other,
    }
}

/// On reals hemm and herk give symm's and syrk's bits; her2k does not give syr2k's.
#[test]
fn hermitian_routines_on_reals() {
    let on_reals = |call: &Call| call.kind != Kind::Complex && symmetric(call.routine) != call.routine;
    let as_symmetric = |call: &mut Call| {
        let routine = call.routine;
        call.routine = symmetric(routine);
        let given = answer(call);
        call.routine = routine;
        Some(given)
    };
    let report = compare(as_symmetric, many(100_000, 15).filter(on_reals));
    let differ = |routine: Routine| report.differ[routine as usize][..2].to_vec();
    assert!(report.calls[Hemm as usize][..2].iter().all(|&count| count > 2000), "{:?}", report.calls);
    assert_eq!([differ(Hemm), differ(Herk)], [[0, 0], [0, 0]]);
    assert!(differ(Her2k).iter().all(|&count| count > 100), "{:?}", differ(Her2k));
}
