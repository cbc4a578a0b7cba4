//! Every routine under every setting of its flags, against its formula over whole numbers.

use crate::model::{all, source, target, triangle, Kind, Matrix, Whole, ONE, ZERO};
use crate::{both, pairs, DIAG, SIDE, TRANS, UPLO};
use zirve_blas::level2::{Gemv, Hemv, Her, Her2, Trmv, Trsv};
use zirve_blas::level3::{Gemm, Hemm, Her2k, Herk, Symm, Syr2k, Syrk, Trmm, Trsm};
use zirve_blas::{Diag, ProvedBlas, Side, Trans, UpLo, View};

crate::every_kind! { gemv hemv her her2 trmv trsv gemm symm hemm syrk herk syr2k her2k trmm trsm
rank_2k_without_terms }

fn alpha<T: Kind>() -> Whole {
    T::whole(2, -1)
}

/// What clears the target, keeps it, or is a factor.
fn betas<T: Kind>() -> [Whole; 3] {
    [ZERO, ONE, T::whole(-1, 2)]
}

/// A product on one side or the other.
fn product(side: Side, a: &Matrix, b: &Matrix) -> Matrix {
    match side {
        Side::Left => a.times(b),
        Side::Right => b.times(a),
    }
}

/// A's size for a B of 2 rows and 3 columns.
fn size(side: Side) -> usize {
    match side {
        Side::Left => 2,
        Side::Right => 3,
    }
}

/// A term of a rank update, `flip` being the transpose that the routine means by any.
fn term(trans: Trans, flip: Trans, a: &Matrix, b: &Matrix) -> Matrix {
    match trans {
        Trans::NoTrans => a.times(&b.op(flip)),
        _ => a.op(flip).times(b),
    }
}

/// The terms and beta times the target, in the named triangle.
fn updated(uplo: UpLo, terms: &Matrix, beta: Whole, c: &Matrix) -> Matrix {
    terms.plus(&c.scaled(beta)).within(uplo, c)
}

/// The old elements that a rank update may read: where beta is 0, those outside the triangle.
fn old(uplo: UpLo, beta: Whole) -> impl Fn(usize, usize) -> bool {
    let named = triangle(uplo, Diag::NonUnit);
    move |r, c| beta != ZERO || !named(r, c)
}

fn gemv<T: Kind>() {
    for (turn, (trans, beta)) in pairs(&TRANS, &betas::<T>()).into_iter().enumerate() {
        let a = Matrix::sample::<T>(2, 3, 0);
        let op = a.op(trans);
        let (x, y) = (Matrix::sample::<T>(op.cols, 1, 1), Matrix::sample::<T>(op.rows, 1, 2));
        let new = op.times(&x).scaled(alpha::<T>()).plus(&y.scaled(beta));
        let (a, x) = (source(&a, turn, all), source(&x, turn + 1, all));
        let y = target(&y, &new, turn + 2, |_, _| beta != ZERO);
        both!(T::gemv(trans, T::of(alpha::<T>()); a, x; T::of(beta)), y);
    }
}

fn hemv<T: Kind>() {
    for (turn, (uplo, beta)) in pairs(&UPLO, &betas::<T>()).into_iter().enumerate() {
        let [a, x, y] = [(3, 0), (1, 1), (1, 2)].map(|(cols, seed)| Matrix::sample::<T>(3, cols, seed));
        let new = a.mirrored(uplo, Trans::ConjTrans).times(&x).scaled(alpha::<T>()).plus(&y.scaled(beta));
        let (a, x) = (source(&a, turn, triangle(uplo, Diag::NonUnit)), source(&x, turn + 1, all));
        let y = target(&y, &new, turn + 2, |_, _| beta != ZERO);
        both!(T::hemv(uplo, T::of(alpha::<T>()); a, x; T::of(beta)), y);
    }
}

fn her<T: Kind>() {
    for (turn, uplo) in UPLO.into_iter().enumerate() {
        let (x, a) = (Matrix::sample::<T>(3, 1, 0), Matrix::sample::<T>(3, 3, 1));
        let terms = term(Trans::NoTrans, Trans::ConjTrans, &x, &x).scaled(Whole { re: -2, im: 0 });
        let a = target(&a, &updated(uplo, &terms, ONE, &a), turn, all);
        let x = source(&x, turn + 1, all);
        both!(T::her(uplo, T::real(-2); x;), a);
    }
}

fn her2<T: Kind>() {
    for (turn, uplo) in UPLO.into_iter().enumerate() {
        let [x, y, a] = [(1, 0), (1, 1), (3, 2)].map(|(cols, seed)| Matrix::sample::<T>(3, cols, seed));
        let half = |alpha, x, y| term(Trans::NoTrans, Trans::ConjTrans, x, y).scaled(alpha);
        let terms = half(alpha::<T>(), &x, &y).plus(&half(alpha::<T>().conj(), &y, &x));
        let a = target(&a, &updated(uplo, &terms, ONE, &a), turn, all);
        let (x, y) = (source(&x, turn + 1, all), source(&y, turn + 2, all));
        both!(T::her2(uplo, T::of(alpha::<T>()); x, y;), a);
    }
}

fn trmv<T: Kind>() {
    for (turn, (uplo, (trans, diag))) in pairs(&UPLO, &pairs(&TRANS, &DIAG)).into_iter().enumerate() {
        let (a, x) = (Matrix::sample::<T>(3, 3, 0), Matrix::sample::<T>(3, 1, 1));
        let x = target(&x, &a.triangle(uplo, diag).op(trans).times(&x), turn, all);
        let a = source(&a, turn + 1, triangle(uplo, diag));
        both!(T::trmv(uplo, trans, diag; a;), x);
    }
}

/// The right-hand side is op(A) times what is to be found.
fn trsv<T: Kind>() {
    for (turn, (uplo, (trans, diag))) in pairs(&UPLO, &pairs(&TRANS, &DIAG)).into_iter().enumerate() {
        let (a, x) = (Matrix::sample::<T>(3, 3, 0), Matrix::sample::<T>(3, 1, 1));
        let x = target(&a.triangle(uplo, diag).op(trans).times(&x), &x, turn, all);
        let a = source(&a, turn + 1, triangle(uplo, diag));
        both!(T::trsv(uplo, trans, diag; a;), x);
    }
}

fn gemm<T: Kind>() {
    for (turn, (ta, (tb, beta))) in pairs(&TRANS, &pairs(&TRANS, &betas::<T>())).into_iter().enumerate() {
        let (a, b) = (Matrix::sample::<T>(2, 4, 0), Matrix::sample::<T>(4, 3, 1));
        // stored so that op(A) is 2 by 4 and op(B) 4 by 3
        let stored = |m: &Matrix, trans| if trans == Trans::NoTrans { m.clone() } else { m.op(Trans::Trans) };
        let (a, b, c) = (stored(&a, ta), stored(&b, tb), Matrix::sample::<T>(2, 3, 2));
        let new = a.op(ta).times(&b.op(tb)).scaled(alpha::<T>()).plus(&c.scaled(beta));
        let (a, b) = (source(&a, turn, all), source(&b, turn + 1, all));
        let c = target(&c, &new, turn + 2, |_, _| beta != ZERO);
        both!(T::gemm(ta, tb, T::of(alpha::<T>()); a, b; T::of(beta)), c);
    }
}

/// symm and hemm, which differ in the elements outside the triangle.
macro_rules! mirrored {
    ($routine:ident, $op:expr) => {
        fn $routine<T: Kind>() {
            for (turn, (side, (uplo, beta))) in pairs(&SIDE, &pairs(&UPLO, &betas::<T>())).into_iter().enumerate() {
                let a = Matrix::sample::<T>(size(side), size(side), 0);
                let (b, c) = (Matrix::sample::<T>(2, 3, 1), Matrix::sample::<T>(2, 3, 2));
                let new = product(side, &a.mirrored(uplo, $op), &b).scaled(alpha::<T>()).plus(&c.scaled(beta));
                let (a, b) = (source(&a, turn, triangle(uplo, Diag::NonUnit)), source(&b, turn + 1, all));
                let c = target(&c, &new, turn + 2, |_, _| beta != ZERO);
                both!(T::$routine(side, uplo, T::of(alpha::<T>()); a, b; T::of(beta)), c);
            }
        }
    };
}

mirrored!(symm, Trans::Trans);
mirrored!(hemm, Trans::ConjTrans);

fn syrk<T: Kind>() {
    for (turn, (uplo, (trans, beta))) in pairs(&UPLO, &pairs(&TRANS, &betas::<T>())).into_iter().enumerate() {
        let a = Matrix::sample::<T>(2, 3, 0);
        let terms = term(trans, Trans::Trans, &a, &a).scaled(alpha::<T>());
        let c = Matrix::sample::<T>(terms.rows, terms.cols, 1);
        let c = target(&c, &updated(uplo, &terms, beta, &c), turn, old(uplo, beta));
        let a = source(&a, turn + 1, all);
        both!(T::syrk(uplo, trans, T::of(alpha::<T>()); a; T::of(beta)), c);
    }
}

fn herk<T: Kind>() {
    for (turn, (uplo, (trans, beta))) in pairs(&UPLO, &pairs(&TRANS, &[0, 1, 3])).into_iter().enumerate() {
        let (a, real) = (Matrix::sample::<T>(2, 3, 0), Whole { re: beta, im: 0 });
        let terms = term(trans, Trans::ConjTrans, &a, &a).scaled(Whole { re: -2, im: 0 });
        let c = Matrix::sample::<T>(terms.rows, terms.cols, 1);
        let c = target(&c, &updated(uplo, &terms, real, &c), turn, old(uplo, real));
        let a = source(&a, turn + 1, all);
        both!(T::herk(uplo, trans, T::real(-2); a; T::real(beta)), c);
    }
}

fn syr2k<T: Kind>() {
    for (turn, (uplo, (trans, beta))) in pairs(&UPLO, &pairs(&TRANS, &betas::<T>())).into_iter().enumerate() {
        let (a, b) = (Matrix::sample::<T>(2, 3, 0), Matrix::sample::<T>(2, 3, 1));
        let half = |a, b| term(trans, Trans::Trans, a, b).scaled(alpha::<T>());
        let terms = half(&a, &b).plus(&half(&b, &a));
        let c = Matrix::sample::<T>(terms.rows, terms.cols, 2);
        let c = target(&c, &updated(uplo, &terms, beta, &c), turn, old(uplo, beta));
        let (a, b) = (source(&a, turn + 1, all), source(&b, turn + 2, all));
        both!(T::syr2k(uplo, trans, T::of(alpha::<T>()); a, b; T::of(beta)), c);
    }
}

fn her2k<T: Kind>() {
    for (turn, (uplo, (trans, beta))) in pairs(&UPLO, &pairs(&TRANS, &[0, 1, 3])).into_iter().enumerate() {
        let (a, b, real) = (Matrix::sample::<T>(2, 3, 0), Matrix::sample::<T>(2, 3, 1), Whole { re: beta, im: 0 });
        let half = |alpha, a, b| term(trans, Trans::ConjTrans, a, b).scaled(alpha);
        let terms = half(alpha::<T>(), &a, &b).plus(&half(alpha::<T>().conj(), &b, &a));
        let c = Matrix::sample::<T>(terms.rows, terms.cols, 2);
        let c = target(&c, &updated(uplo, &terms, real, &c), turn, old(uplo, real));
        let (a, b) = (source(&a, turn + 1, all), source(&b, turn + 2, all));
        both!(T::her2k(uplo, trans, T::of(alpha::<T>()); a, b; T::real(beta)), c);
    }
}

/// her2k multiplies by alpha inside its sum, syr2k what the sum gives: where there are no terms an alpha of NaN is in
/// syr2k's result alone. On reals with exact sums nothing else tells the two apart.
fn rank_2k_without_terms<T: Kind>() {
    let (empty, one) = (View::rows_of(1, 0), View::vector(1));
    let (old, mut c, mut d) = (T::of(ONE), [T::of(ONE)], [T::of(ONE)]);
    let (upper, no) = (UpLo::Upper, Trans::NoTrans);
    assert_eq!(T::her2k(upper, no, T::NAN, &[], empty, &[], empty, T::real(1), &mut c, one), Ok(()));
    assert_eq!(c, [old]);
    assert_eq!(T::syr2k(upper, no, T::NAN, &[], empty, &[], empty, old, &mut d, one), Ok(()));
    assert_ne!(d, [d[0]], "only NaN is not equal to itself");
}

fn trmm<T: Kind>() {
    let flags = pairs(&pairs(&SIDE, &UPLO), &pairs(&TRANS, &DIAG));
    for (turn, ((side, uplo), (trans, diag))) in flags.into_iter().enumerate() {
        let (a, b) = (Matrix::sample::<T>(size(side), size(side), 0), Matrix::sample::<T>(2, 3, 1));
        let new = product(side, &a.triangle(uplo, diag).op(trans), &b).scaled(alpha::<T>());
        let b = target(&b, &new, turn, all);
        let a = source(&a, turn + 1, triangle(uplo, diag));
        both!(T::trmm(side, uplo, trans, diag, T::of(alpha::<T>()); a;), b);
    }
}

/// B is the product of op(A) and some Y; what is to be found is alpha times Y.
fn trsm<T: Kind>() {
    let flags = pairs(&pairs(&SIDE, &UPLO), &pairs(&TRANS, &DIAG));
    for (turn, ((side, uplo), (trans, diag))) in flags.into_iter().enumerate() {
        let (a, y) = (Matrix::sample::<T>(size(side), size(side), 0), Matrix::sample::<T>(2, 3, 1));
        let b = product(side, &a.triangle(uplo, diag).op(trans), &y);
        let b = target(&b, &y.scaled(alpha::<T>()), turn, all);
        let a = source(&a, turn + 1, triangle(uplo, diag));
        both!(T::trsm(side, uplo, trans, diag, T::of(alpha::<T>()); a;), b);
    }
}
