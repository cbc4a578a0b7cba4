//! Planted faults: answers that are wrong in one way each, for the comparison to find.

use crate::answer::answer;
use crate::call::Routine::*;
use crate::call::{Call, Factor, Kind, View};
use crate::number::{Complex, Element, elements, store};
use crate::refusal::{out_of_bounds, refusal};

pub struct Fault {
    pub name: &'static str,
    pub answer: fn(&mut Call) -> u8,
}

pub const FAULTS: [Fault; 14] = [
    Fault { name: "a backward solve one row short", answer: backward_short },
    Fault { name: "a target untouched", answer: untouched },
    Fault { name: "a target cleared", answer: cleared },
    Fault { name: "every matrix singular", answer: always_singular },
    Fault { name: "beta 0 by multiplication", answer: beta_by_product },
    Fault { name: "pivots tested before solving", answer: pivots_first },
    Fault { name: "the left lower-transposed product from the last row", answer: wrong_walk },
    Fault { name: "a solve that handles its first row and copies the rest", answer: first_row_only },
    Fault { name: "a real factor part by part", answer: real_by_parts },
    Fault { name: "a write beside the view", answer: stray_write },
    Fault { name: "a write to a slab that is only read", answer: read_slab_written },
    Fault { name: "places by wrapping arithmetic, at the corners alone", answer: wrapped_corners },
    Fault { name: "the shape judged before the places", answer: shape_first },
    Fault { name: "overlap looked for in the triangle alone", answer: triangle_overlap },
];

fn refused(call: &Call) -> u8 {
    refusal(call.routine, &call.flags, &call.views, &call.lengths())
}

fn target_view(call: &Call) -> View {
    *call.views.last().unwrap()
}

/// Uplo, trans and diag of a triangular routine.
fn triangle(call: &Call) -> (u8, u8, u8) {
    let flags = &call.flags[call.flags.len() - 3..];
    (flags[0], flags[1], flags[2])
}

fn is_left(call: &Call) -> bool {
    matches!(call.routine, Trmv | Trsv) || call.flags[0] == 0
}

/// Is the last unknown solved first?
fn is_backward(call: &Call) -> bool {
    let (uplo, trans, _) = triangle(call);
    (uplo == 0) == (trans == 0)
}

/// Where row i of the target's column j is; a vector is the only column.
fn row(call: &Call, i: u64, j: u64) -> usize {
    let view = target_view(call);
    let vector = matches!(call.routine, Trmv | Trsv) && view.rows < view.cols;
    (if vector { view.place(j, i) } else { view.place(i, j) }) as usize
}

/// Rows and columns of the target, a vector being the only column.
fn extent(call: &Call) -> (u64, u64) {
    let view = target_view(call);
    if matches!(call.routine, Trmv | Trsv) { (view.rows * view.cols, 1) } else { (view.rows, view.cols) }
}

/// Puts an element of the target back.
fn put_back(call: &mut Call, before: &Call, place: usize) {
    let cells = place * call.kind.width()..(place + 1) * call.kind.width();
    call.slabs.last_mut().unwrap()[cells.clone()].copy_from_slice(&before.target()[cells]);
}

fn backward_short(call: &mut Call) -> u8 {
    let before = call.clone();
    let given = answer(call);
    if given == 0 && call.routine.is_solve() && is_left(call) && is_backward(call) && extent(call).0 > 0 {
        for j in 0..extent(call).1 {
            put_back(call, &before, row(call, 0, j));
        }
    }
    given
}

fn first_row_only(call: &mut Call) -> u8 {
    let before = call.clone();
    let given = answer(call);
    if given == 0 && call.routine.is_solve() && is_left(call) {
        let (rows, cols) = extent(call);
        let first = if is_backward(call) { rows.saturating_sub(1) } else { 0 };
        for (i, j) in (0..rows).flat_map(|i| (0..cols).map(move |j| (i, j))).filter(|&(i, _)| i != first) {
            put_back(call, &before, row(call, i, j));
        }
    }
    given
}

fn untouched(call: &mut Call) -> u8 {
    answer(&mut call.clone())
}

fn cleared(call: &mut Call) -> u8 {
    let given = answer(call);
    if given == 0 {
        for place in target_view(call).places() {
            let width = call.kind.width();
            call.slabs.last_mut().unwrap()[place as usize * width..][..width].fill(0);
        }
    }
    given
}

fn always_singular(call: &mut Call) -> u8 {
    if call.routine.is_solve() && refused(call) == 0 { 5 } else { answer(call) }
}

/// Applies the function to each element of the target that the routine writes.
fn each_written<T: Element>(call: &mut Call, change: impl Fn(T) -> T) {
    let view = target_view(call);
    let mut slab: Vec<T> = elements(call.target());
    for (r, c) in (0..view.rows).flat_map(|r| (0..view.cols).map(move |c| (r, c))) {
        if !call.routine.updates_triangle() || (if call.flags[0] == 0 { r <= c } else { r >= c }) {
            let place = view.place(r, c) as usize;
            slab[place] = change(slab[place]);
        }
    }
    store(&slab, call.slabs.last_mut().unwrap());
}

fn beta_as_element<T: Element>(call: &Call) -> T {
    match call.routine.beta() {
        Factor::Real => T::from_real(T::real(call.beta[0])),
        _ => T::read(&call.beta),
    }
}

fn multiply_by_zero<T: Element>(call: &mut Call) {
    let beta: T = beta_as_element(call);
    if beta.is_zero() {
        each_written::<T>(call, |element| beta.saturating_mul(&element));
        call.beta = [call.kind.cell(1.0), 0];
    }
}

fn beta_by_product(call: &mut Call) -> u8 {
    if refused(call) == 0 && call.routine.beta() != Factor::Nothing {
        match call.kind {
            Kind::F64 => multiply_by_zero::<f64>(call),
            Kind::F32 => multiply_by_zero::<f32>(call),
            Kind::Complex => multiply_by_zero::<Complex>(call),
        }
    }
    answer(call)
}

fn real_by_parts(call: &mut Call) -> u8 {
    let takes_real = call.routine.beta() == Factor::Real && call.kind == Kind::Complex;
    let beta = f64::from_bits(call.beta[0]);
    if refused(call) == 0 && takes_real && beta != 0.0 && beta != 1.0 {
        each_written::<Complex>(call, |element| Complex { re: beta * element.re, im: beta * element.im });
        call.beta = [1.0f64.to_bits(), 0];
    }
    answer(call)
}

fn pivots_first(call: &mut Call) -> u8 {
    if call.routine.is_solve() && refused(call) == 0 && triangle(call).2 == 0 && !target_view(call).is_empty() {
        let (a, width) = (call.views[0], call.kind.width());
        let zero = |k: u64| {
            let cells = &call.slabs[0][a.place(k, k) as usize * width..][..width];
            cells.iter().all(|&cell| call.kind.number(cell) == 0.0)
        };
        if (0..a.rows).any(zero) {
            return 5;
        }
    }
    answer(call)
}

/// Lower, transposed or conjugated, from the last row to the first: rows read what is written.
fn walk_up<T: Element>(call: &mut Call) {
    let (a, (rows, cols)) = (call.views[0], extent(call));
    let (_, trans, diag) = triangle(call);
    let alpha: T = if call.routine == Trmm { T::read(&call.alpha) } else { T::ONE };
    let matrix: Vec<T> = elements(&call.slabs[0]);
    let mut target: Vec<T> = elements(call.target());
    for (j, i) in (0..cols).flat_map(|j| (0..rows).rev().map(move |i| (j, i))) {
        let mut sum = T::ZERO;
        for k in i..rows {
            let stored = matrix[a.place(k, i) as usize];
            let read = if trans == 2 { stored.conj() } else { stored };
            let factor = if diag == 1 && k == i { T::ONE } else { read };
            sum = sum.saturating_add(&factor.saturating_mul(&target[row(call, k, j)]));
        }
        target[row(call, i, j)] = if call.routine == Trmm { alpha.saturating_mul(&sum) } else { sum };
    }
    store(&target, call.slabs.last_mut().unwrap());
}

fn wrong_walk(call: &mut Call) -> u8 {
    let product = matches!(call.routine, Trmv | Trmm) && refused(call) == 0;
    if !(product && is_left(call) && triangle(call).0 == 1 && triangle(call).1 != 0) {
        return answer(call);
    }
    match call.kind {
        Kind::F64 => walk_up::<f64>(call),
        Kind::F32 => walk_up::<f32>(call),
        Kind::Complex => walk_up::<Complex>(call),
    }
    0
}

/// Clears the target slab's last element where the view does not show it.
fn stray_write(call: &mut Call) -> u8 {
    let given = answer(call);
    let length = *call.lengths().last().unwrap();
    if given == 0 && length > 0 && !target_view(call).places().contains(&i128::from(length - 1)) {
        let slab = call.slabs.last_mut().unwrap();
        let last = (length as usize - 1) * call.kind.width();
        slab[last] = 0;
    }
    given
}

fn read_slab_written(call: &mut Call) -> u8 {
    let given = answer(call);
    if let Some(cell) = call.slabs[0].first_mut().filter(|_| given == 0) {
        *cell = 0;
    }
    given
}

/// Every corner inside, by arithmetic modulo 2^64?
fn corners_inside(view: &View, length: u64) -> bool {
    let place = |r: u64, c: u64| {
        let (r, c) = (r.wrapping_mul(view.row_stride as u64), c.wrapping_mul(view.col_stride as u64));
        view.start.wrapping_add(r).wrapping_add(c)
    };
    let (r, c) = (view.rows.wrapping_sub(1), view.cols.wrapping_sub(1));
    view.is_empty() || [(0, 0), (0, c), (r, 0), (r, c)].iter().all(|&(r, c)| place(r, c) < length)
}

fn wrapped_corners(call: &mut Call) -> u8 {
    let given = answer(call);
    let accepted = call.views.iter().zip(call.lengths()).all(|(view, length)| corners_inside(view, length));
    if given == 2 && accepted { 0 } else { given }
}

/// The call's answer if its views had slabs long enough.
fn on_long_slabs(call: &Call) -> u8 {
    let near = |view: &View| View { start: 1 << 63, ..*view };
    let views: Vec<View> = call.views.iter().map(near).collect();
    if views.iter().any(|view| out_of_bounds(view, u64::MAX)) {
        return 0;
    }
    refusal(call.routine, &call.flags, &views, &vec![u64::MAX; views.len()])
}

fn shape_first(call: &mut Call) -> u8 {
    let given = answer(call);
    if given == 2 && on_long_slabs(call) == 3 { 3 } else { given }
}

fn triangle_overlap(call: &mut Call) -> u8 {
    let given = answer(call);
    if given == 4 && call.routine.updates_triangle() {
        let (view, upper) = (target_view(call), call.flags[0] == 0);
        let elements = (0..view.rows).flat_map(|r| (0..view.cols).map(move |c| (r, c)));
        let written = elements.filter(|&(r, c)| if upper { r <= c } else { r >= c });
        let places: Vec<i128> = written.map(|(r, c)| view.place(r, c)).collect();
        let apart = (0..places.len()).all(|i| (0..i).all(|j| places[i] != places[j]));
        return if apart { 0 } else { 4 };
    }
    given
}
