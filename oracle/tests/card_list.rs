//! The fixed list of card calls holds, covers what it should, and finds each planted fault. That it is made again
//! identically is held with the others'.
#![cfg(reference)]

use oracle::card::compare::difference;
use oracle::card::faults::{self, FAULTS};
use oracle::card::list::{self, Record};
use oracle::card::points::points;
use oracle::card::{Action, CardCall, NAN, answer, is_nan};
use oracle::format::bodies;

fn committed() -> Vec<u8> {
    std::fs::read(concat!(env!("CARGO_MANIFEST_DIR"), "/lists/card.bin")).expect("the list is there")
}

fn records() -> Vec<Record> {
    bodies(&committed()).into_iter().map(list::read_record).collect()
}

/// Does the candidate differ from the record?
fn differs(record: &Record, candidate: impl Fn(&mut CardCall) -> u8) -> Option<String> {
    let mut theirs = record.before.clone();
    let given = candidate(&mut theirs);
    difference(&record.before, (&record.after, record.answer), (&theirs, given))
}

#[test]
fn records_hold() {
    for record in records() {
        assert_eq!(differs(&record, answer), None);
    }
}

#[test]
fn bodies_are_read_back() {
    for body in bodies(&committed()) {
        assert!(list::body(&list::read_record(body)) == body && body.len() <= 4096);
    }
}

/// The size is as README.md has it.
#[test]
fn it_is_of_the_size_told() {
    let records = records();
    assert!((500..=700).contains(&records.len()) && committed().len() <= 700_000);
    assert!(records.iter().all(|record| record.before.slab.len() <= 144));
}

#[test]
fn the_points_are_there() {
    let records = records();
    for point in points() {
        assert!(records.iter().any(|record| record.before == point.before), "{}", point.name);
    }
}

#[test]
fn every_answer_is_there() {
    let records = records();
    for kind in [0, 1] {
        for (reading, answers) in [(true, &[0, 1, 2, 6, 7][..]), (false, &[0, 1, 2])] {
            for &answer in answers {
                let own = |r: &&Record| (r.before.is_reading(), r.before.kind(), r.answer) == (reading, kind, answer);
                assert!(records.iter().filter(own).count() >= 10, "reading {reading}, kind {kind}, answer {answer}");
            }
        }
    }
}

/// Accepted calls of each kind and way: NaNs of other patterns, both zeros, sums past 65,535, counts at a block's end,
/// longer slabs and buffers.
#[test]
fn special_calls_are_there() {
    let records = records();
    for (reading, kind) in [(true, 0), (true, 1), (false, 0), (false, 1)] {
        let own = |r: &&Record| (r.before.is_reading(), r.before.kind(), r.answer) == (reading, kind, 0);
        let own: Vec<&Record> = records.iter().filter(own).collect();
        let some = |what: &str, test: &dyn Fn(&Record) -> bool| {
            assert!(own.iter().any(|r| test(r)), "reading {reading}, kind {kind}: {what}");
        };
        let numbers = |r: &Record| match r.before.action {
            Action::Read => r.before.card[512..].chunks(8).map(|b| u64::from_le_bytes(b.try_into().unwrap())).collect(),
            Action::Write { .. } => r.before.slab.clone(),
        };
        let count = |r: &Record| match r.before.action {
            Action::Read => r.after.handed.rows * r.after.handed.cols * (1 + u64::from(kind)),
            Action::Write { rows, cols, .. } => rows * cols * (1 + u64::from(kind)),
        };
        some("a NaN of another pattern", &|r| numbers(r).iter().any(|&bits| is_nan(bits) && bits != NAN));
        some("-0", &|r| numbers(r).contains(&(1 << 63)));
        some("a sum past 65,535", &|r| {
            let sum = |block: &[u8]| block[..510].iter().map(|&byte| u32::from(byte)).sum::<u32>();
            r.after.card.chunks_exact(512).any(|block| sum(block) > 65_535)
        });
        let counts = if kind == 0 { [0, 1, 62, 63, 64, 126] } else { [0, 2, 62, 64, 124, 126] };
        for n in counts {
            some(&format!("{n} numbers"), &|r| count(r) == n);
        }
        some("a longer slab", &|r| r.before.slab.len() as u64 > count(r));
        some("an odd slab", &|r| r.before.slab.len() % 2 == 1);
        some("more than two data blocks", &|r| count(r) > 126);
        some("a longer buffer", &|r| reading || r.before.card.len() as u64 > r.after.handed.length);
    }
}

/// The list itself, without any generated call, finds each planted fault.
#[test]
fn the_list_finds_each_planted_fault() {
    let records = records();
    for fault in &FAULTS {
        let found = records.iter().any(|r| differs(r, |call| faults::answer(fault.slip, call)).is_some());
        assert!(found, "{} is not found by the list", fault.name);
    }
}
