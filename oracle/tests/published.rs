//! The parts of control-rs that document 01 replaces, run to show what they do.
#![cfg(reference)]

use oracle::call::{Kind, View};
use oracle::number::Element;
use oracle::published::{ops, place};
use oracle::random::Random;
use oracle::refusal::{out_of_bounds, overlaps};
use oracle::value::{self, Pool};
use place::Offset;

/// Every operation on two cells, theirs and ours, gives the same bits.
fn same_operations<T: Element + ops::SaturatingAdd + ops::SaturatingSub + ops::SaturatingMul + ops::SaturatingDiv>(
    kind: Kind,
) {
    use oracle::number::{SaturatingAdd, SaturatingDiv, SaturatingMul, SaturatingSub};
    let bits = |number: T| {
        let mut cell = [0];
        number.write(&mut cell);
        cell[0]
    };
    let rng = &mut Random::new(5);
    for n in 0..100_000 {
        let pool = [Pool::Mixed, Pool::Any, Pool::Zeros][n % 3];
        let (a, b) = (T::read(&[value::cell(rng, kind, pool)]), T::read(&[value::cell(rng, kind, pool)]));
        let theirs = [
            ops::SaturatingAdd::saturating_add(&a, &b),
            ops::SaturatingSub::saturating_sub(&a, &b),
            ops::SaturatingMul::saturating_mul(&a, &b),
            ops::SaturatingDiv::saturating_div(&a, &b),
        ];
        let ours = [
            SaturatingAdd::saturating_add(&a, &b),
            SaturatingSub::saturating_sub(&a, &b),
            SaturatingMul::saturating_mul(&a, &b),
            SaturatingDiv::saturating_div(&a, &b),
        ];
        assert!(theirs.into_iter().zip(ours).all(|(x, y)| kind.same(bits(x), bits(y))));
    }
}

/// ops.rs clamps no float: its operations are the plain ones.
#[test]
fn floats_do_not_clamp() {
    assert_eq!(ops::SaturatingAdd::saturating_add(&f64::MAX, &f64::MAX), f64::INFINITY);
    same_operations::<f64>(Kind::F64);
    same_operations::<f32>(Kind::F32);
}

/// control-rs's `offset` stops at the end of i64; document 01 works the place out exactly.
#[test]
fn offset_saturates() {
    let theirs = place::Strides(isize::MAX, 0).offset(2, 0);
    let ours = View { start: 0, rows: 3, cols: 1, row_stride: i64::MAX, col_stride: 0 }.place(2, 0);
    assert_eq!(theirs, isize::MAX);
    assert_eq!(ours, 2 * i128::from(i64::MAX));
}

/// control-rs's own view begins at its slab's first element, so that W1's view is refused.
#[test]
fn windows_do_not_reach_back() {
    let view = View { start: 2, rows: 3, cols: 1, row_stride: -1, col_stride: 1 };
    assert!(!place::window_fits(3, (-1, 1), (3, 1)));
    assert!(!out_of_bounds(&view, 3));
}

/// control-rs accepts W2's target, two of whose elements are on one place.
#[test]
fn windows_may_double() {
    let view = View { start: 0, rows: 2, cols: 3, row_stride: 2, col_stride: 1 };
    assert!(place::window_fits(6, (2, 1), (2, 3)));
    assert!(overlaps(&view));
}
