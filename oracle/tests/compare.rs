//! The comparison finds nothing where there is nothing, and each planted fault.
#![cfg(reference)]

use oracle::answer::answer;
use oracle::call::Kind;
use oracle::compare::{compare, difference, first_difference};
use oracle::faults::FAULTS;
use oracle::format::{self, read_record};
use oracle::generate::many;
use oracle::list;

const CALLS: u64 = 20_000;

#[test]
fn the_oracle_agrees_with_itself() {
    let report = compare(|call| Some(answer(call)), many(CALLS, 11));
    assert_eq!((report.total(), report.differences()), (CALLS, 0));
    assert!(report.answers.iter().all(|&count| count > CALLS / 100), "{:?}", report.answers);
}

/// A view that fits and does not overlap shows as many elements as double.
#[test]
fn small_views_double_what_they_show() {
    for mut call in oracle::generate::every_small_view() {
        let before = call.target().to_vec();
        let shown = call.views[2].rows * call.views[2].cols * call.kind.width() as u64;
        let expected = if answer(&mut call) == 0 { shown } else { 0 };
        assert_eq!(call.target().iter().zip(&before).filter(|(a, b)| a != b).count() as u64, expected);
    }
}

#[test]
fn generated_calls_find_each_planted_fault() {
    for fault in &FAULTS {
        let found = first_difference(fault.answer, many(CALLS, 12));
        assert!(found.is_some(), "{} is not found in {CALLS} calls", fault.name);
    }
}

/// The list itself, without any generated call, finds each planted fault.
#[test]
fn the_list_finds_each_planted_fault() {
    let files: Vec<Vec<u8>> = list::FAMILIES
        .iter()
        .map(|family| std::fs::read(format!("{}/lists/{}.bin", env!("CARGO_MANIFEST_DIR"), family.name)).unwrap())
        .collect();
    for fault in &FAULTS {
        let found = files.iter().flat_map(|file| format::bodies(file)).map(read_record).any(|record| {
            let (mut ours, mut theirs) = (record.call.clone(), record.call.clone());
            *ours.slabs.last_mut().unwrap() = record.after.clone();
            let given = (fault.answer)(&mut theirs);
            difference(Kind::same, &record.call, (&ours, record.answer), (&theirs, given)).is_some()
        });
        assert!(found, "{} is not found by the list", fault.name);
    }
}

/// What is linked of the C interface agrees with the oracle.
#[cfg(capi)]
#[test]
fn the_c_interface_agrees() {
    use oracle::generate::every_small_view;
    let report = compare(oracle::capi::answer, many(CALLS, 13).chain(every_small_view()));
    assert_eq!(report.first, None);
}
