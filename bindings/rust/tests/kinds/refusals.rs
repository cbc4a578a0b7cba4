//! Refusals 1 to 5, and what the target holds after them.

use crate::model::{all, source, target, triangle, Kind, Matrix, Whole, ZERO};
use crate::{both, pairs, SIDE, TRANS, UPLO};
use zirve_blas::level2::Trsv;
use zirve_blas::level3::{Gemm, Trsm};
use zirve_blas::{Diag, ProvedBlas, Refusal, Side, Strided, Trans, UpLo, View};

crate::every_kind! { target_refused source_refused trsv_singular trsm_singular nothing_to_solve }

const SQUARE: View = View::rows_of(2, 2);

/// Views of a slab of six that gemm and trsm refuse beside a square matrix of 2 rows, with the lowest number met.
const REFUSED: [(View, Refusal); 8] = [
    (View::rows_of(65, 0), Refusal::TooLarge),
    (View::rows_of(2, 65).at(9), Refusal::TooLarge),
    (SQUARE.at(3), Refusal::OutOfBounds),
    (View { start: 0, rs: -1, ..SQUARE }, Refusal::OutOfBounds),
    (View::by_rows(3, 2, 0).at(5), Refusal::OutOfBounds),
    (View::rows_of(3, 2), Refusal::ShapeMismatch),
    (View::by_rows(3, 2, 0), Refusal::ShapeMismatch),
    (View::by_rows(2, 2, 1), Refusal::Overlap),
];

fn slab<T: Kind>() -> Vec<T> {
    (1..7).map(|k| T::of(T::whole(k, -k))).collect()
}

/// The target's slab stays as it was, by gemm and by trsm.
fn target_refused<T: Kind>() {
    let a = Strided { slab: slab::<T>(), view: SQUARE };
    let one = T::of(T::whole(1, 0));
    for (view, refusal) in REFUSED {
        let c = || (Strided { slab: slab::<T>(), view }, slab::<T>());
        both!(T::gemm(Trans::NoTrans, Trans::NoTrans, one; a, a; one), c(), Err(refusal));
        both!(T::trsm(Side::Left, UpLo::Upper, Trans::NoTrans, Diag::NonUnit, one; a;), c(), Err(refusal));
    }
}

/// The same of the views that are read, save that those may have elements on one place.
fn source_refused<T: Kind>() {
    let b = Strided { slab: slab::<T>(), view: SQUARE };
    let one = T::of(T::whole(1, 0));
    for (view, refusal) in REFUSED.into_iter().filter(|(_, refusal)| *refusal != Refusal::Overlap) {
        let a = Strided { slab: slab::<T>(), view };
        let c = (b.clone(), slab::<T>());
        both!(T::gemm(Trans::NoTrans, Trans::NoTrans, one; a, b; one), c, Err(refusal));
    }
}

/// Whether a row (Left) or a column (Right) is solved before the zero pivot is met: where op(A) is upper triangular
/// rows go from the last to the first and columns from the first to the last, else the other way.
fn solved(side: Side, uplo: UpLo, trans: Trans, k: usize, pivot: usize) -> bool {
    let upper = (uplo == UpLo::Upper) == (trans == Trans::NoTrans);
    if (side == Side::Left) == upper {
        k > pivot
    } else {
        k < pivot
    }
}

/// The matrix with a zero in its diagonal.
fn with_zero(a: &Matrix, pivot: usize) -> Matrix {
    Matrix::new(a.rows, a.cols, |r, c| if r == pivot && c == pivot { ZERO } else { a.at(r, c) })
}

/// x is op(A) y for an A without the zero. What is solved before its pivot does not depend on it, and is y's.
fn trsv_singular<T: Kind>() {
    for (turn, (pivot, (uplo, trans))) in pairs(&[0, 1, 2], &pairs(&UPLO, &TRANS)).into_iter().enumerate() {
        let (a, y) = (Matrix::sample::<T>(3, 3, 0), Matrix::sample::<T>(3, 1, 1));
        let x = a.triangle(uplo, Diag::NonUnit).op(trans).times(&y);
        let solved = |r| solved(Side::Left, uplo, trans, r, pivot);
        let left = Matrix::new(3, 1, |r, c| if solved(r) { y.at(r, c) } else { x.at(r, c) });
        let a = source(&with_zero(&a, pivot), turn, triangle(uplo, Diag::NonUnit));
        let x = target(&x, &left, turn + 1, all);
        both!(T::trsv(uplo, trans, Diag::NonUnit; a;), x, Err(Refusal::Singular));
    }
}

/// What trsm leaves of a B of 3 rows and 3 columns, which is op(A) Y or Y op(A); what is solved is alpha Y.
fn left_by_trsm(side: Side, solved: impl Fn(usize) -> bool, alpha: Whole, b: &Matrix, y: &Matrix) -> Matrix {
    Matrix::new(3, 3, |r, c| match side {
        Side::Left if c == 0 && solved(r) => alpha * y.at(r, c),
        Side::Left => b.at(r, c),
        Side::Right if solved(c) => alpha * y.at(r, c),
        Side::Right => alpha * b.at(r, c),
    })
}

fn trsm_singular<T: Kind>() {
    let flags = pairs(&pairs(&[0, 1, 2], &SIDE), &pairs(&UPLO, &TRANS));
    for (turn, ((pivot, side), (uplo, trans))) in flags.into_iter().enumerate() {
        let (a, y, alpha) = (Matrix::sample::<T>(3, 3, 0), Matrix::sample::<T>(3, 3, 1), T::whole(2, -1));
        let op = a.triangle(uplo, Diag::NonUnit).op(trans);
        let b = if side == Side::Left { op.times(&y) } else { y.times(&op) };
        let left = left_by_trsm(side, |k| solved(side, uplo, trans, k, pivot), alpha, &b, &y);
        let a = source(&with_zero(&a, pivot), turn, triangle(uplo, Diag::NonUnit));
        let b = target(&b, &left, turn + 1, all);
        both!(T::trsm(side, uplo, trans, Diag::NonUnit, T::of(alpha); a;), b, Err(Refusal::Singular));
    }
}

/// No pivot is met where the target is empty or the diagonal is Unit.
fn nothing_to_solve<T: Kind>() {
    let (zero, one) = (T::of(ZERO), T::of(T::whole(1, 0)));
    let a = Strided { slab: vec![zero; 4], view: SQUARE };
    let b = |cols| (Strided { slab: slab::<T>(), view: View::rows_of(2, cols) }, slab::<T>());
    both!(T::trsm(Side::Left, UpLo::Upper, Trans::NoTrans, Diag::NonUnit, one; a;), b(0));
    both!(T::trsm(Side::Left, UpLo::Upper, Trans::NoTrans, Diag::Unit, one; a;), b(3));
}

#[test]
fn refusals_are_errors_with_the_numbers_of_the_c_interface() {
    use Refusal::{OutOfBounds, Overlap, ShapeMismatch, Singular, TooLarge};
    assert_eq!([TooLarge, OutOfBounds, ShapeMismatch, Overlap, Singular].map(Refusal::number), [1, 2, 3, 4, 5]);
    let error: Box<dyn std::error::Error> = Overlap.into();
    assert_eq!(error.to_string(), "two elements of the target share a place");
}
