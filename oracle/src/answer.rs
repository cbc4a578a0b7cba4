//! What a call answers and leaves, by document 01's refusals and the Rust's kernels.

use crate::call::{Call, Kind, Routine};
use crate::default_blas::{DefaultBlas, level2, level3};
use crate::number::{Complex, Element, elements, store};
use crate::refusal::refusal;
use crate::storage::{DenseStorage, DenseStorageMut, Diag, LinAlgResult, Side, Strided, Trans, UpLo};

/// Runs the call in place and gives its answer, 0 to 5.
pub fn answer(call: &mut Call) -> u8 {
    match refusal(call.routine, &call.flags, &call.views, &call.lengths()) {
        0 => run(call),
        refused => refused,
    }
}

/// Runs a call that draws none of refusals 1 to 4.
fn run(call: &mut Call) -> u8 {
    let read = call.slabs[..call.slabs.len() - 1].to_vec();
    let done = match call.kind {
        Kind::F64 => run_over::<f64>(call),
        Kind::F32 => run_over::<f32>(call),
        Kind::Complex => run_over::<Complex>(call),
    };
    assert_eq!(read, call.slabs[..read.len()], "a slab that is only read has changed");
    if done.is_ok() { 0 } else { 5 }
}

fn run_over<T: Element>(call: &mut Call) -> LinAlgResult<()> {
    let scalars = Scalars::<T>::of(call);
    let mut slabs: Vec<Vec<T>> = call.slabs.iter().map(|slab| elements(slab)).collect();
    let (target, read) = slabs.split_last_mut().unwrap();
    let a = Strided::new(&*read[0], call.views[0]);
    let b = Strided::new(&*read[read.len() - 1], call.views[read.len() - 1]);
    let mut t = Strided::new(&mut **target, call.views[read.len()]);
    let done = kernel(call.routine, &call.flags, scalars, &a, &b, &mut t);
    for (slab, cells) in slabs.iter().zip(&mut call.slabs) {
        store(slab, cells);
    }
    done
}

/// A call's scalars, each as an element and as a real number.
#[derive(Clone, Copy)]
pub struct Scalars<T: Element> {
    alpha: T,
    real_alpha: T::Real,
    beta: T,
    real_beta: T::Real,
}

impl<T: Element> Scalars<T> {
    pub fn of(call: &Call) -> Self {
        Self::read(&call.alpha, &call.beta)
    }

    /// The scalars from their cells, two or more each.
    #[inline(always)]
    pub fn read(alpha: &[u64], beta: &[u64]) -> Self {
        Scalars {
            alpha: T::read(alpha),
            real_alpha: T::real(alpha[0]),
            beta: T::read(beta),
            real_beta: T::real(beta[0]),
        }
    }
}

/// The Rust's kernel: `a` and `b` are the views that are only read (the same one where there is
/// but one), `t` is the target.
#[inline(always)]
pub fn kernel<T: Element, S: DenseStorage<T>, M: DenseStorageMut<T>>(
    routine: Routine,
    flags: &[u8],
    scalars: Scalars<T>,
    a: &S,
    b: &S,
    t: &mut M,
) -> LinAlgResult<()> {
    use {level2::*, level3::*};
    let Scalars { alpha, real_alpha, beta, real_beta } = scalars;
    let side = |k: usize| Side::of(flags[k]);
    let uplo = |k: usize| UpLo::of(flags[k]);
    let trans = |k: usize| Trans::of(flags[k]);
    let diag = |k: usize| Diag::of(flags[k]);
    match routine {
        Routine::Gemv => DefaultBlas::gemv(trans(0), alpha, a, b, beta, t),
        Routine::Hemv => DefaultBlas::hemv(uplo(0), alpha, a, b, beta, t),
        Routine::Her => <DefaultBlas as Her<T, M, S>>::her(uplo(0), real_alpha, a, t),
        Routine::Her2 => DefaultBlas::her2(uplo(0), alpha, a, b, t),
        Routine::Trmv => DefaultBlas::trmv(uplo(0), trans(1), diag(2), a, t),
        Routine::Trsv => return DefaultBlas::trsv(uplo(0), trans(1), diag(2), a, t),
        Routine::Gemm => DefaultBlas::gemm(trans(0), trans(1), alpha, a, b, beta, t),
        Routine::Symm => DefaultBlas::symm(side(0), uplo(1), alpha, a, b, beta, t),
        Routine::Hemm => DefaultBlas::hemm(side(0), uplo(1), alpha, a, b, beta, t),
        Routine::Syrk => DefaultBlas::syrk(uplo(0), trans(1), alpha, a, beta, t),
        Routine::Herk => <DefaultBlas as Herk<T, S, M>>::herk(uplo(0), trans(1), real_alpha, a, real_beta, t),
        Routine::Syr2k => DefaultBlas::syr2k(uplo(0), trans(1), alpha, a, b, beta, t),
        Routine::Her2k => {
            <DefaultBlas as Her2k<T, S, S, M>>::her2k(uplo(0), trans(1), alpha, a, b, real_beta, t);
        }
        Routine::Trmm => DefaultBlas::trmm(side(0), uplo(1), trans(2), diag(3), alpha, a, t),
        Routine::Trsm => return DefaultBlas::trsm(side(0), uplo(1), trans(2), diag(3), alpha, a, t),
    }
    Ok(())
}
