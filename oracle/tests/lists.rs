//! The fixed list is what the oracle writes, its format is read back, and it covers what it should.
#![cfg(reference)]

use oracle::answer::answer;
use oracle::call::{Kind, Routine, View};
use oracle::format::{self, Record};
use oracle::list::{self, CHECK};
use oracle::refusal::refusal;

fn committed(name: &str) -> Vec<u8> {
    std::fs::read(format!("{}/lists/{name}.bin", env!("CARGO_MANIFEST_DIR"))).expect("the list is there")
}

fn records() -> Vec<Record> {
    let files = list::FAMILIES.iter().map(|family| committed(family.name));
    files.flat_map(|file| format::bodies(&file).into_iter().map(format::read_record).collect::<Vec<_>>()).collect()
}

#[test]
fn made_again_identically() {
    let mut bytes = 0;
    for (name, file) in list::files() {
        assert!(file == committed(name), "{name} differs from what is written now");
        bytes += file.len();
    }
    assert!(bytes < 2_700_000);
}

#[test]
fn records_hold() {
    for record in records() {
        let mut call = record.call.clone();
        assert_eq!(answer(&mut call), record.answer, "{}", record.call.show());
        let same = |(&a, &b)| call.kind.same(a, b);
        assert!(call.target().iter().zip(&record.after).all(same), "{}", record.call.show());
    }
}

#[test]
fn checks_hold() {
    for body in format::bodies(&committed(CHECK)) {
        let check = format::read_check(body);
        assert_eq!(refusal(check.routine, &check.flags, &check.views, &check.lengths), check.answer);
    }
}

#[test]
fn every_setting_and_every_answer_is_there() {
    let records = records();
    for routine in Routine::ALL {
        for kind in Kind::ALL {
            let some = |test: &dyn Fn(&Record) -> bool| {
                records.iter().any(|r| r.call.routine == routine && r.call.kind == kind && test(r))
            };
            for flags in routine.settings() {
                assert!(some(&|r| r.call.flags == flags && r.answer == 0), "{routine:?} {kind:?} {flags:?}");
            }
            for number in 0..=if routine.is_solve() { 5 } else { 4 } {
                assert!(some(&|r| r.answer == number), "{routine:?} {kind:?} answer {number}");
            }
            for size in [0, 1, 2, 3, 4, 5, 64] {
                let shown = |r: &Record| r.call.views.iter().any(|v| v.rows == size || v.cols == size);
                assert!(some(&|r| r.answer != 1 && shown(r)), "{routine:?} {kind:?} size {size}");
            }
            assert!(some(&|r| r.call.views.iter().any(|v| v.row_stride < 0 && v.rows > 1)));
            for stride in [i64::MIN, i64::MAX] {
                let end = |v: &View| v.row_stride == stride || v.col_stride == stride;
                assert!(some(&|r| r.answer == 0 && r.call.views.iter().any(end)));
            }
            assert!(some(&|r| r.answer == 0 && r.call.views.iter().any(|v| v.start == u64::MAX)));
            let odd = |r: &Record| r.answer == 0 && r.call.slabs.iter().any(|slab| slab.len() % 2 == 1);
            assert!(some(&odd), "{routine:?} {kind:?} odd slabs");
        }
    }
}

/// Cells of every class are computed with: NaN, infinities, both zeros, subnormals.
#[test]
fn special_numbers_are_there() {
    let records = records();
    for routine in Routine::ALL {
        for kind in Kind::ALL {
            let subnormal = |cell: u64| match kind {
                Kind::F32 => f32::from_bits(cell as u32).is_subnormal(),
                _ => f64::from_bits(cell).is_subnormal(),
            };
            let classes: [&dyn Fn(u64) -> bool; 6] = [
                &|cell| kind.is_nan(cell),
                &|cell| cell == kind.cell(f64::INFINITY),
                &|cell| cell == kind.cell(f64::NEG_INFINITY),
                &|cell| cell == kind.cell(0.0),
                &|cell| cell == kind.cell(-0.0),
                &subnormal,
            ];
            for (n, class) in classes.iter().enumerate() {
                let mut own = records.iter().filter(|r| (r.call.routine, r.call.kind, r.answer) == (routine, kind, 0));
                assert!(
                    own.any(|r| r.call.slabs.iter().flatten().any(|&cell| class(cell))),
                    "{routine:?} {kind:?} {n}"
                );
            }
        }
    }
}

/// A refused solve's zero pivot stands in each of three places, for each setting of its flags.
#[test]
fn zero_pivots_are_in_every_place() {
    let records = records();
    for routine in [Routine::Trsv, Routine::Trsm] {
        for flags in routine.settings().into_iter().filter(|flags| flags.last() == Some(&0)) {
            for kind in Kind::ALL {
                for pivot in 0..3 {
                    let zero = |r: &Record| {
                        let (view, width) = (r.call.views[0], kind.width());
                        let place = view.place(pivot, pivot) as usize * width;
                        r.call.slabs[0][place..place + width].iter().all(|&cell| kind.number(cell) == 0.0)
                    };
                    let mut own = records.iter().filter(|r| {
                        (r.call.routine, r.call.kind, r.answer) == (routine, kind, 5)
                            && r.call.flags == flags
                            && r.call.views[0].rows == 3
                    });
                    assert!(own.any(zero), "{routine:?} {kind:?} {flags:?} {pivot}");
                }
            }
        }
    }
}
