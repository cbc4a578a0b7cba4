//! Shapes for a routine and ways to lay them on a slab, good and bad.

use crate::call::Routine::*;
use crate::call::{Routine, View};
use crate::random::Random;
use crate::refusal::overlaps;

pub type Shape = (u64, u64);

/// A view and its slab's length in elements.
#[derive(Clone, Copy)]
pub struct Laid {
    pub view: View,
    pub length: u64,
}

/// Strides that only a dimension of at most one element can bear.
const WILD: [i64; 8] = [i64::MIN, i64::MIN + 1, i64::MAX, i64::MAX - 1, 1 << 62, -(1 << 62), 0, -1];

/// Starts for a view without elements.
const FAR: [u64; 6] = [0, 1, 7, 1 << 63, u64::MAX - 1, u64::MAX];

/// Shapes that fit, for the three sizes.
pub fn shapes(rng: &mut Random, routine: Routine, flags: &[u8], [m, n, k]: [u64; 3]) -> Vec<Shape> {
    let op = |trans: u8, rows, cols| if trans == 0 { (rows, cols) } else { (cols, rows) };
    let one_side = if flags[0] == 0 { m } else { n };
    match routine {
        Gemv => vec![op(flags[0], m, n), vector(rng, n), vector(rng, m)],
        Hemv => vec![(n, n), vector(rng, n), vector(rng, n)],
        Her => vec![vector(rng, n), (n, n)],
        Her2 => vec![vector(rng, n), vector(rng, n), (n, n)],
        Trmv | Trsv => vec![(n, n), vector(rng, n)],
        Gemm => vec![op(flags[0], m, k), op(flags[1], k, n), (m, n)],
        Symm | Hemm => vec![(one_side, one_side), (m, n), (m, n)],
        Syrk | Herk => vec![op(flags[1], n, k), (n, n)],
        Syr2k | Her2k => vec![op(flags[1], n, k), op(flags[1], n, k), (n, n)],
        Trmm | Trsm => vec![(one_side, one_side), (m, n)],
    }
}

/// A row or a column; one without elements may have any other dimension.
fn vector(rng: &mut Random, n: u64) -> Shape {
    let other = if n == 0 { rng.below(6) } else { 1 };
    if rng.once_in(2) { (n, other) } else { (other, n) }
}

/// Lays a shape so that it fits its slab and, for a target, no two elements meet.
pub fn lay(rng: &mut Random, (rows, cols): Shape, target: bool) -> Laid {
    if rows == 0 || cols == 0 {
        return nothing(rng, (rows, cols));
    }
    let (mut row_stride, mut col_stride) = strides(rng, (rows, cols), target);
    if rows == 1 && rng.once_in(3) {
        row_stride = rng.pick(&WILD);
    }
    if cols == 1 && rng.once_in(3) {
        col_stride = rng.pick(&WILD);
    }
    let before = if rng.once_in(2) { 0 } else { rng.below(4) };
    let behind = if rng.once_in(2) { 0 } else { rng.below(3) };
    around((rows, cols), (row_stride, col_stride), before, behind)
}

/// A view without elements, anywhere.
fn nothing(rng: &mut Random, (rows, cols): Shape) -> Laid {
    let mut stride = || if rng.once_in(2) { rng.between(-3, 3) } else { rng.pick(&WILD) };
    let (row_stride, col_stride) = (stride(), stride());
    Laid { view: View { start: rng.pick(&FAR), rows, cols, row_stride, col_stride }, length: rng.below(4) }
}

/// The shape with these strides, and a slab that reaches so far before and behind it.
pub fn around((rows, cols): Shape, (row_stride, col_stride): (i64, i64), before: u64, behind: u64) -> Laid {
    let origin = View { start: 0, rows, cols, row_stride, col_stride };
    let places = origin.places();
    let low = places.iter().min().copied().unwrap_or(0);
    let high = places.iter().max().copied().unwrap_or(-1);
    let start = u64::try_from(i128::from(before) - low).expect("a start in range");
    let length = u64::try_from(i128::from(start) + high + 1 + i128::from(behind)).expect("a length in range");
    Laid { view: View { start, ..origin }, length }
}

/// Strides of either sign; those of a view that is only read may be zero or bring elements together.
fn strides(rng: &mut Random, (rows, cols): Shape, target: bool) -> (i64, i64) {
    let (r, c) = (rows as i64, cols as i64);
    let pad = rng.between(0, 2);
    let step = rng.pick(&[1, 1, 1, 2]);
    let (mut row_stride, mut col_stride) = match rng.below(5) {
        0 => (c, 1),
        1 => (1, r),
        2 => (step * (c + pad), step),
        3 => (step, step * (r + pad)),
        _ => loose(rng, (rows, cols), target),
    };
    if rng.once_in(4) {
        row_stride = -row_stride;
    }
    if rng.once_in(4) {
        col_stride = -col_stride;
    }
    (row_stride, col_stride)
}

/// Small strides without a pattern.
fn loose(rng: &mut Random, (rows, cols): Shape, target: bool) -> (i64, i64) {
    for _ in 0..4 {
        let (row_stride, col_stride) = (rng.between(-4, 4), rng.between(-4, 4));
        let view = View { start: 0, rows, cols, row_stride, col_stride };
        if !target || !overlaps(&view) {
            return (row_stride, col_stride);
        }
    }
    (cols as i64, 1)
}

/// Makes a view too large.
pub fn enlarge(rng: &mut Random, laid: &mut Laid) {
    let size = rng.pick(&[65, 65, 65, 66, 128, 1 << 32, 1 << 63, u64::MAX]);
    let (one, other) = if rng.once_in(2) {
        (&mut laid.view.rows, &mut laid.view.cols)
    } else {
        (&mut laid.view.cols, &mut laid.view.rows)
    };
    *one = size;
    if rng.once_in(3) {
        *other = rng.below(2);
    }
}

/// Moves some element of a view off its slab, or tries to.
pub fn displace(rng: &mut Random, laid: &mut Laid) {
    let view = &mut laid.view;
    match rng.below(7) {
        0 | 1 => laid.length = around((view.rows, view.cols), small(view), 0, 0).length.saturating_sub(1),
        2 => laid.length = laid.length.saturating_sub(1),
        3 => view.start = view.start.wrapping_add(rng.pick(&[1, 2, 5, 1 << 63, u64::MAX])),
        4 => view.row_stride = rng.pick(&WILD),
        5 => view.col_stride = rng.pick(&WILD),
        _ => (view.row_stride, view.col_stride) = (rng.pick(&WILD), rng.pick(&WILD)),
    }
}

/// The strides that matter: those of a dimension of more than one element.
fn small(view: &View) -> (i64, i64) {
    let of = |size, stride| if size > 1 { stride } else { 0 };
    (of(view.rows, view.row_stride), of(view.cols, view.col_stride))
}

/// Spoils a shape, most often by one.
pub fn misshape(rng: &mut Random, shape: &mut Shape) {
    match rng.below(6) {
        0 => shape.0 += 1,
        1 => shape.1 += 1,
        2 => shape.0 = shape.0.saturating_sub(1),
        3 => shape.1 = shape.1.saturating_sub(1),
        4 => *shape = (shape.1, shape.0),
        _ => *shape = rng.pick(&[(2, 2), (2, 1), (1, 3), (3, 3), (0, 0), (0, 2)]),
    }
}

/// Lays a shape with two elements on one place, where it has two elements.
pub fn overlap(rng: &mut Random, shape: Shape) -> Laid {
    for _ in 0..20 {
        let strides = (rng.between(-3, 3), rng.between(-3, 3));
        let laid = around(shape, strides, rng.below(2), rng.below(2));
        if overlaps(&laid.view) {
            return laid;
        }
    }
    around(shape, (0, 0), 0, 0)
}

/// Lays a shape over a slab far too long to be filled: strides up to 2^56, places up to 2^63.
pub fn far(rng: &mut Random, (rows, cols): Shape) -> Laid {
    if rows == 0 || cols == 0 {
        return nothing(rng, (rows, cols));
    }
    let mut stride = || (rng.pick(&[1, 2, 3]) << rng.between(40, 54)) + rng.between(-1, 1);
    let (row_stride, col_stride) = (stride(), stride());
    let strides = (row_stride * rng.pick(&[1, -1]), col_stride * rng.pick(&[1, -1]));
    let before = rng.pick(&[0, 1, 1 << 62]);
    let mut laid = around((rows, cols), strides, before, rng.below(2));
    if rng.once_in(4) {
        laid.length -= 1;
    }
    laid
}

/// Lays a shape at the upper end of the places, with strides that lead back or across the end.
pub fn high(rng: &mut Random, (rows, cols): Shape) -> Laid {
    let start = rng.pick(&[u64::MAX, u64::MAX - 1, u64::MAX - 1, u64::MAX - 9, 1 << 63]);
    let (row_stride, col_stride) = (rng.between(-7, 1), rng.between(-2, 0));
    let view = View { start, rows, cols, row_stride, col_stride };
    Laid { view, length: rng.pick(&[u64::MAX, u64::MAX, u64::MAX - 1, i64::MAX as u64]) }
}

/// A small stand-in for a shape of many elements: strides 0 and 1 where it is only read.
pub fn thin(rng: &mut Random, (rows, cols): Shape, target: bool) -> Laid {
    if rows == 0 || cols == 0 {
        return nothing(rng, (rows, cols));
    }
    let strides = if target { (cols as i64, 1) } else { rng.pick(&[(0, 1), (1, 0), (0, 0), (0, -1), (-1, 0)]) };
    around((rows, cols), strides, rng.below(2), 0)
}
