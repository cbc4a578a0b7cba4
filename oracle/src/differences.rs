//! The smallest calls on which control-rs and Netlib's reference BLAS part, and those beside them on which they do not:
//! those of docs/DIFFERENCES.md, case by case.

use crate::call::Routine::*;
use crate::call::{Call, Kind, Routine};
use crate::corners::{self, Matrix, seen};

const NAN: f64 = f64::NAN;
const INF: f64 = f64::INFINITY;

// The flags' values.
const LEFT: u8 = 0;
const RIGHT: u8 = 1;
const UPPER: u8 = 0;
const LOWER: u8 = 1;
const N: u8 = 0;
const T: u8 = 1;
const C: u8 = 2;
const NON: u8 = 0;
const UNIT: u8 = 1;

type Named = (&'static str, Call);

/// Every call with its name.
pub fn calls() -> Vec<Named> {
    let cases = [
        alpha_zero(),
        hermitian_diagonals(),
        pivots(),
        quotients(),
        transposes(),
        place_of_alpha(),
        added_to_the_target(),
        order_of_terms(),
        empty_sums(),
        zeros(),
        signs_of_zero(),
        factors_of_one(),
        real_kinds(),
        standard(),
        views(),
    ];
    cases.into_iter().flatten().collect()
}

/// A call on f64, laid by columns, as Netlib takes it.
fn real(routine: Routine, flags: &[u8], alpha: f64, beta: f64, matrices: &[Matrix]) -> Call {
    corners::call(routine, Kind::F64, flags, [alpha, 0.0], [beta, 0.0], matrices).by_columns()
}

/// The same on complex numbers; beta is real.
fn complex(routine: Routine, flags: &[u8], alpha: [f64; 2], beta: f64, matrices: &[Matrix]) -> Call {
    corners::call(routine, Kind::Complex, flags, alpha, [beta, 0.0], matrices).by_columns()
}

/// One number, real or complex.
fn one(parts: &[f64]) -> Matrix<'_> {
    (1, 1, parts)
}

fn row(numbers: &[f64]) -> Matrix<'_> {
    (1, numbers.len() as u64, numbers)
}

fn column(numbers: &[f64]) -> Matrix<'_> {
    (numbers.len() as u64, 1, numbers)
}

fn square(numbers: &[f64]) -> Matrix<'_> {
    let n = numbers.len().isqrt() as u64;
    (n, n, numbers)
}

fn alpha_zero() -> Vec<Named> {
    let three = [one(&[NAN]), one(&[1.0]), one(&[1.0])];
    let two = [one(&[NAN]), one(&[1.0])];
    let (nan, unit): (&[f64], &[f64]) = (&[NAN, 0.0], &[1.0, 0.0]);
    let complex_three = [one(nan), one(unit), one(unit)];
    let zero = [0.0, 0.0];
    vec![
        ("gemv-alpha-0", real(Gemv, &[N], 0.0, 1.0, &three)),
        ("hemv-alpha-0", complex(Hemv, &[UPPER], zero, 1.0, &complex_three)),
        ("her-alpha-0", real(Her, &[UPPER], 0.0, 0.0, &two)),
        ("her2-alpha-0", real(Her2, &[UPPER], 0.0, 0.0, &three)),
        ("gemm-alpha-0", real(Gemm, &[N, N], 0.0, 1.0, &three)),
        ("symm-alpha-0", real(Symm, &[LEFT, UPPER], 0.0, 1.0, &three)),
        ("hemm-alpha-0", complex(Hemm, &[LEFT, UPPER], zero, 1.0, &complex_three)),
        ("syrk-alpha-0", real(Syrk, &[UPPER, N], 0.0, 1.0, &two)),
        ("herk-alpha-0", complex(Herk, &[UPPER, N], zero, 1.0, &[one(nan), one(unit)])),
        ("syr2k-alpha-0", real(Syr2k, &[UPPER, N], 0.0, 1.0, &three)),
        ("her2k-alpha-0", complex(Her2k, &[UPPER, N], zero, 1.0, &complex_three)),
        ("trmm-alpha-0", real(Trmm, &[LEFT, UPPER, N, NON], 0.0, 0.0, &[one(&[NAN]), one(&[3.0])])),
        ("trsm-alpha-0", real(Trsm, &[LEFT, UPPER, N, NON], 0.0, 0.0, &[one(&[1.0]), one(&[NAN])])),
        ("trsm-alpha-0-pivot", real(Trsm, &[LEFT, UPPER, N, NON], 0.0, 0.0, &[one(&[0.0]), one(&[3.0])])),
    ]
}

fn hermitian_diagonals() -> Vec<Named> {
    let alpha = [1.0, 0.0];
    let (a, unit, zero, old) = (one(&[1.0, 5.0]), one(&[1.0, 0.0]), one(&[0.0, 0.0]), one(&[7.0, 7.0]));
    vec![
        ("hemv-diagonal", complex(Hemv, &[UPPER], alpha, 0.0, &[a, unit, old])),
        ("hemm-diagonal", complex(Hemm, &[LEFT, UPPER], alpha, 0.0, &[a, unit, old])),
        ("her-W14", complex(Her, &[LOWER], [2.0, 0.0], 0.0, &[one(&[1.0, 1.0]), a])),
        ("her-diagonal-x-0", complex(Her, &[LOWER], alpha, 0.0, &[zero, a])),
        ("her-diagonal-rounded", complex(Her, &[LOWER], [0.1, 0.0], 0.0, &[one(&[3.0, 5.0]), zero])),
        ("her-diagonal-kept", complex(Her, &[LOWER], [0.0, 0.0], 0.0, &[unit, a])),
        ("her2-diagonal", complex(Her2, &[UPPER], alpha, 0.0, &[unit, unit, a])),
        ("herk-diagonal", complex(Herk, &[UPPER, N], alpha, 1.0, &[unit, a])),
        ("herk-diagonal-infinite", complex(Herk, &[UPPER, C], alpha, 0.0, &[one(&[0.0, 1e200]), old])),
        ("herk-diagonal-scaled", complex(Herk, &[UPPER, N], [0.0, 0.0], 2.0, &[unit, a])),
        ("herk-diagonal-kept", complex(Herk, &[UPPER, N], [0.0, 0.0], 1.0, &[unit, a])),
        ("herk-diagonal-empty", complex(Herk, &[UPPER, N], alpha, 1.0, &[(1, 0, &[]), a])),
        ("her2k-diagonal", complex(Her2k, &[UPPER, N], alpha, 1.0, &[unit, unit, a])),
    ]
}

fn pivots() -> Vec<Named> {
    let trsv = |trans, a: &[f64], x: &[f64]| real(Trsv, &[UPPER, trans, NON], 0.0, 0.0, &[square(a), column(x)]);
    let trsm = |side, b: f64| real(Trsm, &[side, UPPER, N, NON], 2.0, 0.0, &[one(&[0.0]), one(&[b])]);
    let w11: [Matrix; 2] = [square(&[1.0, 1.0, 0.0, 0.0]), row(&[3.0, 4.0])];
    vec![
        ("trsv-pivot", trsv(N, &[0.0], &[1.0])),
        ("trsv-pivot-0-by-0", trsv(N, &[0.0], &[0.0])),
        ("trsv-pivot-0-by-0-trans", trsv(T, &[0.0], &[0.0])),
        ("trsv-W10", trsv(N, &[0.0, 1.0, 9.0, 2.0], &[5.0, 4.0])),
        ("trsm-left-pivot", trsm(LEFT, 3.0)),
        ("trsm-left-pivot-0-by-0", trsm(LEFT, 0.0)),
        ("trsm-right-pivot", trsm(RIGHT, 3.0)),
        ("trsm-right-pivot-0-by-0", trsm(RIGHT, 0.0)),
        ("trsm-W11", real(Trsm, &[RIGHT, UPPER, N, NON], 2.0, 0.0, &w11)),
    ]
}

fn quotients() -> Vec<Named> {
    let trsv = |a: &[f64], x: &[f64]| complex(Trsv, &[UPPER, N, NON], [0.0; 2], 0.0, &[one(a), one(x)]);
    let trsm = |side, trans| real(Trsm, &[side, UPPER, trans, NON], 1.0, 0.0, &[one(&[3.0]), one(&[5.0])]);
    vec![
        ("trsv-quotient", real(Trsv, &[UPPER, N, NON], 0.0, 0.0, &[one(&[3.0]), one(&[5.0])])),
        ("trsm-left-quotient", trsm(LEFT, N)),
        ("trsm-right-quotient", trsm(RIGHT, N)),
        ("trsm-right-quotient-trans", trsm(RIGHT, T)),
        ("trsv-quotient-small", trsv(&[1e-200, 0.0], &[1.0, 0.0])),
        ("trsv-quotient-large", trsv(&[1e200, 0.0], &[1e200, 0.0])),
        ("trsv-quotient-rounded", trsv(&[1.0, 3.0], &[1.0, 0.0])),
    ]
}

fn transposes() -> Vec<Named> {
    let alpha = [1.0, 0.0];
    let (i, old) = (one(&[0.0, 1.0]), one(&[0.0, 0.0]));
    vec![
        ("syrk-conjtrans", complex(Syrk, &[UPPER, C], alpha, 0.0, &[i, old])),
        ("syr2k-conjtrans", complex(Syr2k, &[UPPER, C], alpha, 0.0, &[i, i, old])),
        ("herk-trans", complex(Herk, &[UPPER, T], alpha, 0.0, &[i, old])),
        ("her2k-trans", complex(Her2k, &[UPPER, T], alpha, 0.0, &[i, i, old])),
        ("syrk-conjtrans-real", real(Syrk, &[UPPER, C], 1.0, 0.0, &[one(&[3.0]), one(&[0.0])])),
        ("herk-trans-real", real(Herk, &[UPPER, T], 1.0, 0.0, &[one(&[3.0]), one(&[0.0])])),
    ]
}

fn place_of_alpha() -> Vec<Named> {
    let small = 1e-200;
    let (large, old) = (one(&[1e200]), one(&[0.0]));
    let three = |routine, flags: &[u8]| real(routine, flags, small, 0.0, &[large, large, old]);
    let two = |routine, flags: &[u8]| real(routine, flags, small, 0.0, &[large, old]);
    let trmm = |flags: &[u8]| real(Trmm, flags, small, 0.0, &[large, large]);
    let trsm = |flags: &[u8]| real(Trsm, flags, small, 0.0, &[one(&[1e-200]), large]);
    let her2k = |trans| {
        let huge = one(&[1e200, 0.0]);
        complex(Her2k, &[UPPER, trans], [small, 0.0], 0.0, &[huge, huge, one(&[0.0, 0.0])])
    };
    // The one element off the diagonal of the upper triangle is 1e200.
    let beside = square(&[0.0, 1e200, 0.0, 0.0]);
    let mirrored =
        |routine, flags: &[u8], x: &[f64]| real(routine, flags, small, 0.0, &[beside, column(x), column(&[0.0, 0.0])]);
    let zeros = square(&[0.0; 4]);
    vec![
        ("gemv-alpha-place", three(Gemv, &[N])),
        ("gemv-alpha-place-trans", three(Gemv, &[T])),
        ("gemm-alpha-place", three(Gemm, &[N, N])),
        ("gemm-alpha-place-trans-b", three(Gemm, &[N, T])),
        ("gemm-alpha-place-trans-a", three(Gemm, &[T, N])),
        ("hemv-alpha-place", mirrored(Hemv, &[UPPER], &[0.0, 1e200])),
        ("hemv-alpha-place-mirrored", mirrored(Hemv, &[UPPER], &[1e200, 0.0])),
        ("symm-alpha-place-left", mirrored(Symm, &[LEFT, UPPER], &[0.0, 1e200])),
        ("symm-alpha-place-mirrored", mirrored(Symm, &[LEFT, UPPER], &[1e200, 0.0])),
        ("symm-alpha-place-right", three(Symm, &[RIGHT, UPPER])),
        ("syrk-alpha-place", two(Syrk, &[UPPER, N])),
        ("syrk-alpha-place-trans", two(Syrk, &[UPPER, T])),
        ("syr2k-alpha-place", three(Syr2k, &[UPPER, N])),
        ("syr2k-alpha-place-trans", three(Syr2k, &[UPPER, T])),
        ("her2k-alpha-place", her2k(N)),
        ("her2k-alpha-place-conjtrans", her2k(C)),
        ("trmm-alpha-place-left", trmm(&[LEFT, UPPER, N, NON])),
        ("trmm-alpha-place-left-trans", trmm(&[LEFT, UPPER, T, NON])),
        ("trmm-alpha-place-right", trmm(&[RIGHT, UPPER, N, NON])),
        ("trmm-alpha-place-right-trans", trmm(&[RIGHT, UPPER, T, NON])),
        ("trsm-alpha-place-left", trsm(&[LEFT, UPPER, N, NON])),
        ("trsm-alpha-place-left-trans", trsm(&[LEFT, UPPER, T, NON])),
        ("trsm-alpha-place-right", trsm(&[RIGHT, UPPER, N, NON])),
        ("trsm-alpha-place-right-trans", trsm(&[RIGHT, UPPER, T, NON])),
        ("her-alpha-operand", real(Her, &[UPPER], small, 0.0, &[column(&[1e-200, 1e200]), zeros])),
        (
            "her2-alpha-operand",
            real(Her2, &[UPPER], small, 0.0, &[column(&[1e-200, 0.0]), column(&[0.0, 1e200]), zeros]),
        ),
        (
            "her2k-alpha-operand",
            real(Her2k, &[UPPER, N], small, 0.0, &[column(&[1e-200, 0.0]), column(&[0.0, 1e200]), zeros]),
        ),
    ]
}

fn added_to_the_target() -> Vec<Named> {
    let (ones, old, far) = (square(&[1.0; 4]), one(&[1e16]), square(&[1e16; 4]));
    let (across, down) = (row(&[1.0, 1.0]), column(&[1.0, 1.0]));
    let real = |routine, flags: &[u8], matrices: &[Matrix]| real(routine, flags, 1.0, 1.0, matrices);
    let unit = one(&[1.0, 0.0]);
    let complex = |routine, flags: &[u8], matrices: &[Matrix]| complex(routine, flags, [1.0, 0.0], 1.0, matrices);
    vec![
        ("gemv-target", real(Gemv, &[N], &[across, down, old])),
        ("gemv-target-trans", real(Gemv, &[T], &[down, down, old])),
        ("hemv-target", real(Hemv, &[UPPER], &[ones, down, column(&[1e16, 1e16])])),
        ("gemm-target", real(Gemm, &[N, N], &[across, down, old])),
        ("gemm-target-trans-a", real(Gemm, &[T, N], &[down, down, old])),
        ("symm-target-left", real(Symm, &[LEFT, UPPER], &[ones, down, column(&[1e16, 1e16])])),
        ("symm-target-right", real(Symm, &[RIGHT, UPPER], &[ones, across, row(&[1e16, 1e16])])),
        ("syrk-target", real(Syrk, &[UPPER, N], &[across, old])),
        ("syrk-target-trans", real(Syrk, &[UPPER, T], &[down, old])),
        ("syr2k-target", real(Syr2k, &[UPPER, N], &[one(&[1.0]), one(&[1.0]), old])),
        ("syr2k-target-trans", real(Syr2k, &[UPPER, T], &[one(&[1.0]), one(&[1.0]), old])),
        ("syr2k-sums-trans", by_sums(Syr2k, T)),
        ("her2k-target", real(Her2k, &[UPPER, N], &[one(&[1.0]), one(&[1.0]), old])),
        ("her2k-target-diagonal", complex(Her2k, &[UPPER, N], &[unit, unit, one(&[1e16, 0.0])])),
        ("her2-target", real(Her2, &[UPPER], &[down, down, far])),
        ("her2-target-diagonal", complex(Her2, &[UPPER], &[unit, unit, one(&[1e16, 0.0])])),
    ]
}

/// Two products for each index: added in one sum, or in two.
fn by_sums(routine: Routine, trans: u8) -> Call {
    real(routine, &[UPPER, trans], 1.0, 0.0, &[column(&[1e8, 1.0]), column(&[5e7, 1.0]), one(&[0.0])])
}

fn order_of_terms() -> Vec<Named> {
    let (three, solved) = ([1e16, -1e16, 1.0], [1e16, -1.0, 1e16]);
    // One row or column is full, beside ones on the diagonal.
    let top = [1.0, 1.0, 1.0, 0.0, 1.0, 0.0, 0.0, 0.0, 1.0];
    let bottom = [1.0, 0.0, 0.0, 0.0, 1.0, 0.0, 1.0, 1.0, 1.0];
    let left = [1.0, 0.0, 0.0, 1.0, 1.0, 0.0, 1.0, 0.0, 1.0];
    let right = [1.0, 0.0, 1.0, 0.0, 1.0, 1.0, 0.0, 0.0, 1.0];
    let v = |routine, flags: &[u8], a: &[f64], x: &[f64]| real(routine, flags, 1.0, 0.0, &[square(a), column(x)]);
    let m = |routine, flags: &[u8], a: &[f64], b: &[f64]| real(routine, flags, 1.0, 0.0, &[square(a), row(b)]);
    let s = |routine, flags: &[u8], x: Matrix, y: Matrix| real(routine, flags, 1.0, 0.0, &[square(&[1.0; 9]), x, y]);
    vec![
        ("trmv-order-lower", v(Trmv, &[LOWER, N, NON], &bottom, &three)),
        ("trmv-order-upper-trans", v(Trmv, &[UPPER, T, NON], &right, &three)),
        ("trsv-order-upper", v(Trsv, &[UPPER, N, NON], &top, &solved)),
        ("trsv-order-lower-trans", v(Trsv, &[LOWER, T, NON], &left, &solved)),
        ("trmm-order-left-lower", v(Trmm, &[LEFT, LOWER, N, NON], &bottom, &three)),
        ("trmm-order-left-upper-trans", v(Trmm, &[LEFT, UPPER, T, NON], &right, &three)),
        ("trmm-order-right-upper", m(Trmm, &[RIGHT, UPPER, N, NON], &right, &three)),
        ("trmm-order-right-lower-trans", m(Trmm, &[RIGHT, LOWER, T, NON], &bottom, &three)),
        ("trsm-order-left-upper", v(Trsm, &[LEFT, UPPER, N, NON], &top, &solved)),
        ("trsm-order-right-upper-trans", m(Trsm, &[RIGHT, UPPER, T, NON], &top, &solved)),
        ("hemv-order-lower", s(Hemv, &[LOWER], column(&three), column(&[0.0; 3]))),
        ("hemv-order-upper", s(Hemv, &[UPPER], column(&three), column(&[0.0; 3]))),
        ("symm-order-left-lower", s(Symm, &[LEFT, LOWER], column(&three), column(&[0.0; 3]))),
        ("symm-order-left-upper", s(Symm, &[LEFT, UPPER], column(&three), column(&[0.0; 3]))),
        ("symm-order-right", s(Symm, &[RIGHT, UPPER], row(&three), row(&[0.0; 3]))),
    ]
}

fn empty_sums() -> Vec<Named> {
    let (wide, tall): (Matrix, Matrix) = ((1, 0, &[]), (0, 1, &[]));
    let gemv = |alpha, beta, y: f64| real(Gemv, &[N], alpha, beta, &[wide, tall, one(&[y])]);
    let gemm = |alpha, beta, c: f64| real(Gemm, &[N, N], alpha, beta, &[wide, tall, one(&[c])]);
    vec![
        ("gemv-empty-beta", gemv(1.0, 3.0, 1.0)),
        ("gemv-empty-clear", gemv(1.0, 0.0, 1.0)),
        ("gemv-empty-alpha", gemv(INF, 1.0, 1.0)),
        ("gemv-empty-minus-0", gemv(1.0, 1.0, -0.0)),
        ("gemm-empty-beta", gemm(1.0, 3.0, 1.0)),
        ("gemm-empty-alpha", gemm(INF, 3.0, 1.0)),
        ("gemm-empty-alpha-trans", real(Gemm, &[T, N], INF, 3.0, &[tall, tall, one(&[1.0])])),
        ("gemm-empty-minus-0", gemm(1.0, 1.0, -0.0)),
        ("syrk-empty-alpha", real(Syrk, &[UPPER, N], INF, 1.0, &[wide, one(&[7.0])])),
        ("syr2k-empty-alpha", real(Syr2k, &[UPPER, N], INF, 1.0, &[wide, wide, one(&[7.0])])),
        ("her2k-empty-alpha", real(Her2k, &[UPPER, N], INF, 1.0, &[wide, wide, one(&[7.0])])),
        ("her2k-empty-alpha-trans", real(Her2k, &[UPPER, T], INF, 3.0, &[tall, tall, one(&[7.0])])),
    ]
}

fn zeros() -> Vec<Named> {
    // A NaN or a 0 above a diagonal of ones.
    let (nan, zero) = (square(&[1.0, NAN, 0.0, 1.0]), square(&[1.0, 0.0, 0.0, 1.0]));
    let v = |routine, flags: &[u8], x: &[f64]| real(routine, flags, 1.0, 0.0, &[nan, column(x)]);
    let m = |routine, flags: &[u8], b: &[f64]| real(routine, flags, 1.0, 0.0, &[zero, row(b)]);
    let old = square(&[0.0; 4]);
    let update = |routine, flags: &[u8], read: &[Matrix]| real(routine, flags, 1.0, 0.0, &[read, &[old]].concat());
    let scalar = |routine, flags: &[u8]| real(routine, flags, 1.0, 0.0, &[one(&[NAN]), one(&[0.0]), one(&[0.0])]);
    vec![
        ("trmv-zero-of-x", v(Trmv, &[UPPER, N, NON], &[1.0, 0.0])),
        ("trmv-zero-of-x-trans", v(Trmv, &[UPPER, T, NON], &[0.0, 1.0])),
        ("trsv-zero-of-x", v(Trsv, &[UPPER, N, NON], &[1.0, 0.0])),
        ("trsv-zero-of-x-trans", v(Trsv, &[UPPER, T, NON], &[0.0, 1.0])),
        ("trmm-zero-of-b", v(Trmm, &[LEFT, UPPER, N, NON], &[1.0, 0.0])),
        ("trmm-zero-of-b-trans", v(Trmm, &[LEFT, UPPER, T, NON], &[0.0, 1.0])),
        ("trsm-zero-of-b", v(Trsm, &[LEFT, UPPER, N, NON], &[1.0, 0.0])),
        ("trsm-zero-of-b-trans", v(Trsm, &[LEFT, UPPER, T, NON], &[0.0, 1.0])),
        ("trmm-zero-of-a", m(Trmm, &[RIGHT, UPPER, N, NON], &[NAN, 1.0])),
        ("trmm-zero-of-a-trans", m(Trmm, &[RIGHT, UPPER, T, NON], &[1.0, NAN])),
        ("trsm-zero-of-a", m(Trsm, &[RIGHT, UPPER, N, NON], &[NAN, 1.0])),
        ("trsm-zero-of-a-trans", m(Trsm, &[RIGHT, UPPER, T, NON], &[1.0, NAN])),
        ("her-zero-of-x", update(Her, &[UPPER], &[column(&[NAN, 0.0])])),
        ("her2-zeros", update(Her2, &[UPPER], &[column(&[NAN, 0.0]), column(&[1.0, 0.0])])),
        ("syrk-zero-of-a", update(Syrk, &[UPPER, N], &[column(&[NAN, 0.0])])),
        ("syrk-zero-of-a-trans", update(Syrk, &[UPPER, T], &[row(&[NAN, 0.0])])),
        ("syr2k-zeros", update(Syr2k, &[UPPER, N], &[column(&[NAN, 0.0]), column(&[1.0, 0.0])])),
        ("syr2k-zeros-trans", update(Syr2k, &[UPPER, T], &[row(&[NAN, 0.0]), row(&[1.0, 0.0])])),
        ("gemv-zero-of-x", scalar(Gemv, &[N])),
        ("hemv-zero-of-x", scalar(Hemv, &[UPPER])),
        ("gemm-zero-of-b", scalar(Gemm, &[N, N])),
        ("symm-zero-of-b", scalar(Symm, &[LEFT, UPPER])),
    ]
}

fn signs_of_zero() -> Vec<Named> {
    let three =
        |routine, flags: &[u8], alpha| real(routine, flags, alpha, 0.0, &[one(&[1.0]), one(&[0.0]), one(&[5.0])]);
    let two = |routine, flags: &[u8], alpha, b: f64| real(routine, flags, alpha, 0.0, &[one(&[1.0]), one(&[b])]);
    vec![
        ("gemv-minus-0", three(Gemv, &[N], -1.0)),
        ("gemm-minus-0", three(Gemm, &[N, N], -1.0)),
        ("gemm-minus-0-trans-a", three(Gemm, &[T, N], -1.0)),
        ("symm-minus-0-left", three(Symm, &[LEFT, UPPER], -1.0)),
        ("symm-minus-0-right", three(Symm, &[RIGHT, UPPER], -1.0)),
        ("syrk-minus-0-trans", real(Syrk, &[UPPER, T], -1.0, 0.0, &[one(&[0.0]), one(&[5.0])])),
        ("trmv-minus-0", two(Trmv, &[UPPER, N, NON], 0.0, -0.0)),
        ("trmv-minus-0-trans", two(Trmv, &[UPPER, T, NON], 0.0, -0.0)),
        ("trmm-minus-0", two(Trmm, &[LEFT, UPPER, N, NON], -1.0, 0.0)),
        ("trmm-minus-0-trans", two(Trmm, &[LEFT, UPPER, T, NON], -1.0, 0.0)),
        ("trsm-minus-0", real(Trsm, &[LEFT, UPPER, N, NON], 1.0, 0.0, &[one(&[-1.0]), one(&[0.0])])),
    ]
}

fn factors_of_one() -> Vec<Named> {
    let alpha = [1.0, 0.0];
    let (nine, unit, infinite) = (one(&[9.0, 9.0]), one(&[1.0, 0.0]), one(&[INF, 0.0]));
    let zero = one(&[0.0, 0.0]);
    let tri = |routine, flags: &[u8], b: Matrix| complex(routine, flags, alpha, 0.0, &[nine, b]);
    let keeps = |routine, flags: &[u8]| complex(routine, flags, alpha, 1.0, &[unit, zero, infinite]);
    let herk: [Matrix; 2] = [(2, 1, &[0.0; 4]), (2, 2, &[0.0, 0.0, 0.0, 0.0, 1.0, INF, 0.0, 0.0])];
    vec![
        ("trsm-one-minus-0", tri(Trsm, &[LEFT, UPPER, N, UNIT], one(&[0.0, -0.0]))),
        ("trsm-one-infinite", tri(Trsm, &[LEFT, UPPER, N, UNIT], infinite)),
        ("trsm-one-infinite-trans", tri(Trsm, &[LEFT, UPPER, T, UNIT], infinite)),
        ("trsm-one-infinite-right", tri(Trsm, &[RIGHT, UPPER, N, UNIT], infinite)),
        ("trsm-one-infinite-right-trans", tri(Trsm, &[RIGHT, UPPER, T, UNIT], infinite)),
        ("trmv-unit-infinite", tri(Trmv, &[UPPER, N, UNIT], infinite)),
        ("trmv-unit-infinite-trans", tri(Trmv, &[UPPER, T, UNIT], infinite)),
        ("trmm-unit-infinite", tri(Trmm, &[LEFT, UPPER, N, UNIT], infinite)),
        ("trmm-unit-infinite-trans", tri(Trmm, &[LEFT, UPPER, T, UNIT], infinite)),
        ("trmm-unit-infinite-right", tri(Trmm, &[RIGHT, UPPER, N, UNIT], infinite)),
        ("trmm-unit-infinite-right-trans", tri(Trmm, &[RIGHT, UPPER, T, UNIT], infinite)),
        ("gemv-beta-one", keeps(Gemv, &[N])),
        ("gemm-beta-one", keeps(Gemm, &[N, N])),
        ("gemm-beta-one-trans-a", keeps(Gemm, &[T, N])),
        ("symm-beta-one", keeps(Symm, &[LEFT, UPPER])),
        ("syrk-beta-one", complex(Syrk, &[UPPER, N], alpha, 1.0, &[unit, infinite])),
        ("syrk-beta-one-trans", complex(Syrk, &[UPPER, T], alpha, 1.0, &[unit, infinite])),
        ("herk-real-beta", complex(Herk, &[LOWER, N], [0.0; 2], 2.0, &herk)),
    ]
}

fn real_kinds() -> Vec<Named> {
    let (a, x, old) = (square(&[1.0, 2.0, 9.0, 3.0]), column(&[1.0, 1.0]), column(&[0.0, 0.0]));
    let zeros = square(&[0.0; 4]);
    let pair = |routine| real(routine, &[UPPER, N], 0.1, 0.0, &[one(&[3.0]), one(&[3.0]), one(&[0.0])]);
    vec![
        ("hemv-real", real(Hemv, &[UPPER], 1.0, 0.0, &[a, x, old])),
        ("her-real", real(Her, &[UPPER], 1.0, 0.0, &[column(&[1.0, 2.0]), zeros])),
        ("her2-real", real(Her2, &[UPPER], 1.0, 0.0, &[column(&[1.0, 2.0]), x, zeros])),
        ("hemm-real", real(Hemm, &[LEFT, UPPER], 1.0, 0.0, &[a, x, old])),
        ("herk-real", real(Herk, &[UPPER, N], 1.0, 0.0, &[column(&[1.0, 2.0]), zeros])),
        ("her2k-real", real(Her2k, &[UPPER, N], 1.0, 0.0, &[column(&[1.0, 2.0]), x, zeros])),
        ("her2k-real-rounded", pair(Her2k)),
        ("syr2k-real-rounded", pair(Syr2k)),
    ]
}

fn standard() -> Vec<Named> {
    let pair = |trans, a: Matrix, b: Matrix| {
        let c: Matrix = if a.2.len() == 2 { one(&[0.0; 2]) } else { (2, 2, &[0.0; 8]) };
        complex(Her2k, &[UPPER, trans], [0.0, 1.0], 0.0, &[a, b, c])
    };
    vec![
        ("trmm-for-trmv", real(Trmm, &[LEFT, UPPER, N, NON], 5.0, 0.0, &[one(&[2.0]), one(&[3.0])])),
        ("trsm-for-trsv", real(Trsm, &[LEFT, UPPER, N, NON], 5.0, 0.0, &[one(&[2.0]), one(&[4.0])])),
        ("herk-for-her", real(Herk, &[UPPER, N], 1.0, 3.0, &[one(&[2.0]), one(&[5.0])])),
        ("her2k-for-her2", real(Her2k, &[UPPER, N], 1.0, 3.0, &[one(&[2.0]), one(&[7.0]), one(&[5.0])])),
        ("her2k-conj", pair(C, one(&[1.0, 0.0]), one(&[0.0, 1.0]))),
        ("her2k-conj-beside", pair(C, (1, 2, &[1.0, 0.0, 0.0, 0.0]), (1, 2, &[0.0, 0.0, 1.0, 0.0]))),
        ("her2k-conj-notrans", pair(N, (2, 1, &[1.0, 0.0, 0.0, 0.0]), (2, 1, &[0.0, 0.0, 1.0, 0.0]))),
    ]
}

fn views() -> Vec<Named> {
    let dot = |x: Matrix| real(Gemv, &[N], 1.0, 0.0, &[row(&[1.0, 10.0]), x, one(&[0.0])]);
    let matrices = [square(&[1.0, 2.0, 3.0, 4.0]), column(&[1.0, 10.0]), column(&[0.0, 0.0])];
    let gemv = real(Gemv, &[N], 1.0, 0.0, &matrices);
    let her = real(Her, &[UPPER], 1.0, 0.0, &[column(&[1.0, 1.0]), square(&[0.0; 4])]);
    let gemm = real(Gemm, &[N, N], 0.0, 0.0, &[(2, 0, &[]), (0, 0, &[]), (2, 0, &[])]);
    vec![
        ("gemv-increment", seen(dot(column(&[1.0, 2.0])), 1, 1, -1, 2)),
        ("gemv-increment-start-0", seen(dot(column(&[1.0, 2.0])), 1, 0, -1, 2)),
        ("gemv-increment-0", seen(dot(column(&[1.0, 2.0])), 1, 0, 0, 2)),
        ("gemv-target-increment-0", seen(gemv.clone(), 2, 0, 0, 2)),
        ("gemv-leading", seen(gemv, 0, 0, 1, 1)),
        ("her-leading", seen(her, 1, 0, 1, 1)),
        ("gemm-leading-empty", seen(gemm, 0, 0, 1, 1)),
        ("gemv-65", real(Gemv, &[N], 1.0, 0.0, &[row(&[1.0; 65]), column(&[1.0; 65]), one(&[0.0])])),
    ]
}
