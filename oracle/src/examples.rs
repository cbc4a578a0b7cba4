//! Netlib's examples: calls of all fifteen routines whose sums and quotients are exact, so that no order of operations
//! shows, and Netlib's answers are the Rust's and ours as numbers.

use crate::answer::answer;
use crate::call::Routine::*;
use crate::call::{Call, Kind, Routine};
use crate::corners;
use crate::layout::{self, Laid, Shape};
use crate::netlib;
use crate::random::Random;

/// Calls for each routine, kind and flag setting.
const EACH: usize = 100;

const SEED: u64 = 5;

/// Netlib's example program, and calls of every routine, kind and flag setting.
pub fn calls() -> impl Iterator<Item = Call> {
    let settings = |routine: Routine| routine.settings().into_iter().map(move |flags| (routine, flags));
    let all = Routine::ALL.into_iter().flat_map(settings).flat_map(|(routine, flags)| {
        Kind::ALL.into_iter().flat_map(move |kind| std::iter::repeat_n((routine, kind, flags.clone()), EACH))
    });
    let mut rng = Random::new(SEED);
    std::iter::once(program()).chain(all.map(move |(routine, kind, flags)| exact(&mut rng, routine, kind, &flags)))
}

/// cblas_example1.c of Netlib's CBLAS.
fn program() -> Call {
    let a = [1.0, 1.0, 3.0, 5.0, 2.0, 1.0, 4.0, 6.0, 3.0, 1.0, 5.0, 7.0, 4.0, 1.0, 6.0, 8.0];
    let matrices: [corners::Matrix; 3] = [(4, 4, &a), (4, 1, &[1.0, 2.0, 1.0, 1.0]), (4, 1, &[0.0; 4])];
    corners::call(Gemv, Kind::F64, &[0], [1.0, 0.0], [0.0, 0.0], &matrices).by_columns()
}

/// A call on whole numbers, small enough for every sum; a solve's pivots are powers of two, so that every quotient is
/// exact too; Hermitian diagonals are real.
fn exact(rng: &mut Random, routine: Routine, kind: Kind, flags: &[u8]) -> Call {
    let sizes = [1 + rng.below(4), 1 + rng.below(4), rng.below(5)];
    let shapes = layout::shapes(rng, routine, flags, sizes);
    let laid: Vec<Laid> =
        shapes.into_iter().enumerate().map(|(k, shape)| lay(rng, routine.is_vector(k), shape)).collect();
    let mut whole = |largest: i64| kind.cell(rng.between(-largest, largest) as f64);
    let mut slab = |k: usize, laid: &Laid| {
        let largest = if routine.is_solve() && k == 0 { 2 } else { 9 };
        (0..laid.length * kind.width() as u64).map(|_| whole(largest)).collect::<Vec<u64>>()
    };
    let slabs = laid.iter().enumerate().map(|(k, laid)| slab(k, laid)).collect();
    let [alpha, beta] = [(); 2].map(|()| [whole(3), whole(3)]);
    let views = laid.iter().map(|laid| laid.view).collect();
    let mut call = Call { routine, kind, flags: flags.to_vec(), alpha, beta, views, slabs };
    let hermitian = match routine {
        Hemv | Hemm => Some(0),
        Her | Her2 | Herk | Her2k => Some(call.views.len() - 1),
        _ => None,
    };
    if let Some(k) = hermitian.filter(|_| kind == Kind::Complex) {
        diagonal(&mut call, k, |element| element[1] = 0);
    }
    if routine.is_solve() && flags.last() == Some(&0) {
        diagonal(&mut call, 0, |element| {
            element.fill(0);
            element[rng.below(element.len() as u64) as usize] = kind.cell(rng.pick(&[0.5, 1.0, 2.0, -0.5, -1.0, -2.0]));
        });
    }
    call
}

/// Changes each diagonal element of the k-th view.
fn diagonal(call: &mut Call, k: usize, mut change: impl FnMut(&mut [u64])) {
    let (view, width) = (call.views[k], call.kind.width());
    for i in 0..view.rows {
        change(&mut call.slabs[k][view.place(i, i) as usize * width..][..width]);
    }
}

/// As Netlib takes it: a matrix by columns, of any leading dimension; a vector of any increment but 0.
fn lay(rng: &mut Random, vector: bool, shape: Shape) -> Laid {
    let increment = rng.pick(&[1, 1, 2, 3, -1, -2, -3]);
    let strides = if vector { (increment, increment) } else { (1, shape.0.max(1) as i64 + rng.between(0, 2)) };
    layout::around(shape, strides, rng.below(3), rng.below(3))
}

/// Netlib's answer, with the transpose that the papers allow for the one that document 01 reads so.
pub fn answer_of_netlib(call: &mut Call) -> Option<u8> {
    let flags = call.flags.clone();
    if call.kind == Kind::Complex {
        match (call.routine, flags.get(1)) {
            (Syrk | Syr2k, Some(2)) => call.flags[1] = 1,
            (Herk | Her2k, Some(1)) => call.flags[1] = 2,
            _ => {}
        }
    }
    let given = netlib::answer(call);
    call.flags = flags;
    given
}

/// The Rust's answer with one number of what is read changed before the call.
pub fn changed_before(call: &mut Call) -> Option<u8> {
    let read = call.slabs[0].clone();
    if !call.views[0].is_empty() {
        let first = call.views[0].start as usize * call.kind.width();
        call.slabs[0][first] = call.kind.cell(call.kind.number(read[first]) + 1.0);
    }
    let given = answer(call);
    call.slabs[0] = read;
    Some(given)
}

/// The Rust's answer with the last number of the target's slab changed after the call.
pub fn changed_after(call: &mut Call) -> Option<u8> {
    let (given, kind) = (answer(call), call.kind);
    let last = call.slabs.last_mut().unwrap().last_mut().unwrap();
    *last = kind.cell(kind.number(*last) + 1.0);
    Some(given)
}
