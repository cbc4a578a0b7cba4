//! Refusals 1 to 4 from document 01's words, by brute force: every element, every pair of elements.

use crate::call::Routine::*;
use crate::call::{Routine, View};

/// The largest number of rows or columns that passes.
pub const LARGEST: u64 = 64;

/// The lowest refusal among 1 to 4 that the call meets, or 0. The lengths count elements.
pub fn refusal(routine: Routine, flags: &[u8], views: &[View], lengths: &[u64]) -> u8 {
    if views.iter().any(too_large) {
        1
    } else if views.iter().zip(lengths).any(|(view, &length)| out_of_bounds(view, length)) {
        2
    } else if !(flags_in_range(routine, flags) && shapes_fit(routine, flags, views)) {
        3
    } else if overlaps(views.last().unwrap()) {
        4
    } else {
        0
    }
}

/// Refusal 1 (oversize): more rows or columns than pass.
pub fn too_large(view: &View) -> bool {
    view.rows > LARGEST || view.cols > LARGEST
}

/// Refusal 2 (off the slab): some element is outside its slab.
pub fn out_of_bounds(view: &View, length: u64) -> bool {
    view.places().iter().any(|&place| place < 0 || place >= i128::from(length))
}

/// Refusal 4 (doubled cell): two elements share a place.
pub fn overlaps(view: &View) -> bool {
    let places = view.places();
    (0..places.len()).any(|i| (0..i).any(|j| places[i] == places[j]))
}

/// A flag from outside, as in the C interface, may have no meaning.
fn flags_in_range(routine: Routine, flags: &[u8]) -> bool {
    routine.flags().iter().zip(flags).all(|(flag, &value)| value < flag.values())
}

/// A vector's length; none for a view that is no vector.
fn length(view: &View) -> Option<u64> {
    (view.rows <= 1 || view.cols <= 1).then(|| view.rows * view.cols)
}

/// A square matrix's order.
fn order(view: &View) -> Option<u64> {
    (view.rows == view.cols).then_some(view.rows)
}

/// Rows and columns of op of the matrix.
fn op(trans: u8, view: &View) -> (u64, u64) {
    if trans == 0 { (view.rows, view.cols) } else { (view.cols, view.rows) }
}

/// The papers' shape rule, whose failure is refusal 3 (misfit).
fn shapes_fit(routine: Routine, flags: &[u8], views: &[View]) -> bool {
    let shape = |view: &View| (view.rows, view.cols);
    match (routine, views) {
        (Gemv, [a, x, y]) => {
            let (m, n) = op(flags[0], a);
            length(x) == Some(n) && length(y) == Some(m)
        }
        (Hemv, [a, x, y]) | (Her2, [x, y, a]) => order(a).is_some() && length(x) == order(a) && length(y) == order(a),
        (Her, [x, a]) | (Trmv | Trsv, [a, x]) => order(a).is_some() && length(x) == order(a),
        (Gemm, [a, b, c]) => {
            let ((m, k), (p, n)) = (op(flags[0], a), op(flags[1], b));
            k == p && shape(c) == (m, n)
        }
        (Symm | Hemm, [a, b, c]) => order(a) == Some(one_side(flags[0], c)) && shape(b) == shape(c),
        (Syrk | Herk, [a, c]) => order(c) == Some(op(flags[1], a).0),
        (Syr2k | Her2k, [a, b, c]) => order(c) == Some(op(flags[1], a).0) && shape(a) == shape(b),
        (Trmm | Trsm, [a, b]) => order(a) == Some(one_side(flags[0], b)),
        _ => unreachable!("{} has {} views", routine.name(), routine.views()),
    }
}

/// The rows that a left matrix meets, or the columns that a right one does.
fn one_side(side: u8, view: &View) -> u64 {
    if side == 0 { view.rows } else { view.cols }
}
