//! Calls with a name: document 01's worked examples, and the points that are easy to read otherwise.
//! Each is given with the answer and the target's slab that it leaves.

use crate::call::Routine::*;
use crate::call::{Call, Kind, Routine, View};
use Kind::{Complex, F64};

pub struct Corner {
    pub name: &'static str,
    pub call: Call,
    pub answer: u8,
    /// The target's slab afterwards, cell by cell.
    pub target: Vec<f64>,
}

const NAN: f64 = f64::NAN;
const INF: f64 = f64::INFINITY;
const ZERO: [f64; 2] = [0.0, 0.0];
const ONE: [f64; 2] = [1.0, 0.0];
const TWO: [f64; 2] = [2.0, 0.0];

/// Rows, columns and the cells, by rows.
pub type Matrix<'a> = (u64, u64, &'a [f64]);

/// A call on matrices that fill their slabs by rows.
pub fn call(routine: Routine, kind: Kind, flags: &[u8], alpha: [f64; 2], beta: [f64; 2], matrices: &[Matrix]) -> Call {
    let cells = |numbers: &[f64]| numbers.iter().map(|&number| kind.cell(number)).collect();
    Call {
        routine,
        kind,
        flags: flags.to_vec(),
        alpha: alpha.map(|part| kind.cell(part)),
        beta: beta.map(|part| kind.cell(part)),
        views: matrices
            .iter()
            .map(|&(rows, cols, _)| View { start: 0, rows, cols, row_stride: cols as i64, col_stride: 1 })
            .collect(),
        slabs: matrices.iter().map(|(_, _, numbers)| cells(numbers)).collect(),
    }
}

fn corner(name: &'static str, call: Call, answer: u8, target: &[f64]) -> Corner {
    Corner { name, call, answer, target: target.to_vec() }
}

/// The call with another view for its k-th argument.
pub fn seen(mut call: Call, k: usize, start: u64, row_stride: i64, col_stride: i64) -> Call {
    call.views[k] = View { start, row_stride, col_stride, ..call.views[k] };
    call
}

/// W1 to W14; W2 and W4 have two parts or a twin.
pub fn worked_examples() -> Vec<Corner> {
    let a: Matrix = (2, 2, &[1.0, 2.0, 3.0, 4.0]);
    let c: Matrix = (2, 2, &[1.0, 2.0, 3.0, 4.0]);
    let gemm = |m: &[Matrix]| call(Gemm, F64, &[0, 0], ONE, ZERO, m);
    let backwards = gemm(&[(3, 1, &[1.0, 2.0, 3.0]), (1, 1, &[1.0]), (3, 1, &[9.0; 3])]);
    let wide = gemm(&[(2, 1, &[1.0; 2]), (1, 3, &[1.0; 3]), (2, 3, &[7.0; 6])]);
    vec![
        corner("W1", seen(backwards, 0, 2, -1, 1), 0, &[3.0, 2.0, 1.0]),
        corner("W2, strides 2 and 1", seen(wide.clone(), 2, 0, 2, 1), 4, &[7.0; 6]),
        corner("W2, strides 3 and 1", wide, 0, &[1.0; 6]),
        corner("W3", call(Gemv, F64, &[0], TWO, ZERO, &[a, (2, 1, &[1.0, 1.0]), (2, 1, &[NAN, 5.0])]), 0, &[6.0, 14.0]),
        corner("W4", call(Gemv, F64, &[0], TWO, ONE, &[a, (2, 1, &[1.0, 1.0]), (2, 1, &[1.0, 1.0])]), 0, &[7.0, 15.0]),
        corner(
            "W5",
            call(Gemm, F64, &[0, 0], [5.0, 0.0], [3.0, 0.0], &[(2, 0, &[]), (0, 2, &[]), c]),
            0,
            &[3.0, 6.0, 9.0, 12.0],
        ),
        corner(
            "W6",
            call(
                Symm,
                F64,
                &[0, 1],
                ONE,
                ZERO,
                &[(2, 2, &[1.0, 99.0, 2.0, 3.0]), (2, 1, &[1.0, 0.0]), (2, 1, &[8.0, 8.0])],
            ),
            0,
            &[1.0, 2.0],
        ),
        corner(
            "W7",
            call(Syrk, F64, &[0, 0], ONE, ZERO, &[(2, 1, &[1.0, 2.0]), (2, 2, &[9.0; 4])]),
            0,
            &[1.0, 2.0, 9.0, 4.0],
        ),
        corner("W8", trv(Trmv, F64, &[0, 0, 0], &[2.0, 3.0, NAN, 4.0], &[1.0, 1.0]), 0, &[5.0, 4.0]),
        corner("W9", trv(Trsv, F64, &[1, 0, 1], &[0.0, 7.0, 3.0, 0.0], &[2.0, 7.0]), 0, &[2.0, 1.0]),
        corner("W10", trv(Trsv, F64, &[0, 0, 0], &[0.0, 1.0, 9.0, 2.0], &[5.0, 4.0]), 5, &[5.0, 2.0]),
        corner(
            "W11",
            call(Trsm, F64, &[1, 0, 0, 0], TWO, ZERO, &[(2, 2, &[1.0, 1.0, 0.0, 0.0]), (1, 2, &[3.0, 4.0])]),
            5,
            &[6.0, 8.0],
        ),
        corner("W12", call(Trsm, F64, &[0, 0, 0, 0], ONE, ZERO, &[(2, 2, &[0.0; 4]), (2, 0, &[])]), 0, &[]),
        corner(
            "W13",
            call(Gemv, Complex, &[2], ONE, ZERO, &[(1, 1, &[1.0, 2.0]), (1, 1, &[3.0, 0.0]), (1, 1, &[8.0, 8.0])]),
            0,
            &[3.0, -6.0],
        ),
        corner("W14", call(Her, Complex, &[1], TWO, ZERO, &[(1, 1, &[1.0, 1.0]), (1, 1, &[1.0, 5.0])]), 0, &[5.0, 5.0]),
    ]
}

/// trmv or trsv with a square matrix by rows and a column.
fn trv(routine: Routine, kind: Kind, flags: &[u8], a: &[f64], x: &[f64]) -> Call {
    let n = (x.len() / kind.width()) as u64;
    call(routine, kind, flags, ZERO, ZERO, &[(n, n, a), (n, 1, x)])
}

/// trmm or trsm with a matrix and a target of one element.
fn trm(routine: Routine, kind: Kind, flags: &[u8], alpha: [f64; 2], a: &[f64], b: &[f64]) -> Call {
    call(routine, kind, flags, alpha, ZERO, &[(1, 1, a), (1, 1, b)])
}

/// Document 01's slips: each is the call on which the slip would show.
pub fn slips() -> Vec<Corner> {
    let herk = |alpha, beta, a: &[f64], c: &[f64]| call(Herk, Complex, &[1, 0], alpha, beta, &[(2, 1, a), (2, 2, c)]);
    vec![
        corner(
            "beta 0 by multiplication",
            call(Gemm, F64, &[0, 0], ONE, ZERO, &[(1, 1, &[2.0]), (1, 1, &[3.0]), (1, 1, &[NAN])]),
            0,
            &[6.0],
        ),
        corner(
            "a real factor part by part",
            herk(ZERO, TWO, &[0.0; 4], &[0.0, 0.0, 5.0, 5.0, 1.0, INF, 0.0, 0.0]),
            0,
            &[0.0, 0.0, 5.0, 5.0, NAN, INF, 0.0, 0.0],
        ),
        corner("pivots before solving", trv(Trsv, F64, &[0, 0, 0], &[0.0, 1.0, 9.0, 2.0], &[5.0, 4.0]), 5, &[5.0, 2.0]),
        corner(
            "the left lower-transposed product from the last row",
            call(Trmm, F64, &[0, 1, 1, 0], ONE, ZERO, &[(2, 2, &[1.0, 99.0, 2.0, 3.0]), (2, 1, &[1.0, 1.0])]),
            0,
            &[3.0, 3.0],
        ),
    ]
}

/// Points of sums, alpha and signs of zero.
fn sums() -> Vec<Corner> {
    let pair: [Matrix; 3] = [(1, 2, &[1e8, 1.0]), (1, 2, &[5e7, 1.0]), (1, 1, &[3.0])];
    let none: [Matrix; 3] = [(1, 0, &[]), (1, 0, &[]), (1, 1, &[7.0])];
    let empty = |alpha, beta, y: f64| call(Gemv, F64, &[0], alpha, beta, &[(1, 0, &[]), (0, 1, &[]), (1, 1, &[y])]);
    let minus = [-1.0, 0.0];
    vec![
        corner("syr2k adds one product after the other", call(Syr2k, F64, &[0, 0], ONE, ZERO, &pair), 0, &[1e16]),
        corner("her2k adds one product after the other", call(Her2k, F64, &[0, 0], ONE, ZERO, &pair), 0, &[1e16]),
        corner("her2k has no outer alpha", call(Her2k, F64, &[0, 0], [INF, 0.0], ONE, &none), 0, &[7.0]),
        corner("syr2k has an outer alpha", call(Syr2k, F64, &[0, 0], [INF, 0.0], ONE, &none), 0, &[NAN]),
        corner("an empty sum meets alpha", empty([INF, 0.0], ONE, 1.0), 0, &[NAN]),
        corner("an empty sum is added to a scaled target", empty(ONE, [3.0, 0.0], 1.0), 0, &[3.0]),
        corner("an empty sum added to -0", empty(ONE, ONE, -0.0), 0, &[0.0]),
        corner("an empty sum, negated, added to -0", empty(minus, ONE, -0.0), 0, &[-0.0]),
        corner(
            "gemv adds to ZERO",
            call(Gemv, F64, &[0], minus, ZERO, &[(1, 1, &[-1.0]), (1, 1, &[0.0]), (1, 1, &[5.0])]),
            0,
            &[0.0],
        ),
        corner("trmm adds to nothing", trm(Trmm, F64, &[0, 0, 0, 0], minus, &[-1.0], &[0.0]), 0, &[-0.0]),
        corner(
            "beta -0 clears",
            call(Gemv, F64, &[0], ONE, [-0.0, 0.0], &[(1, 1, &[2.0]), (1, 1, &[3.0]), (1, 1, &[NAN])]),
            0,
            &[6.0],
        ),
        corner(
            "complex beta (1, -0) keeps",
            call(
                Gemv,
                Complex,
                &[0],
                ONE,
                [1.0, -0.0],
                &[(1, 1, &[1.0, 0.0]), (1, 1, &[0.0, 0.0]), (1, 1, &[1.0, INF])],
            ),
            0,
            &[1.0, INF],
        ),
        corner(
            "alpha 0 has no shortcut",
            call(Gemv, F64, &[0], ZERO, ONE, &[(1, 1, &[NAN]), (1, 1, &[1.0]), (1, 1, &[1.0])]),
            0,
            &[NAN],
        ),
    ]
}

/// Points of triangles and pivots.
fn triangles() -> Vec<Corner> {
    let unit = [0, 0, 0, 1];
    let rubbish = [9.0, 9.0];
    vec![
        corner("trsm multiplies by ONE", trm(Trsm, Complex, &unit, ONE, &rubbish, &[0.0, -0.0]), 0, &[0.0, 0.0]),
        corner(
            "trsm multiplies infinity by ONE",
            trm(Trsm, Complex, &unit, ONE, &rubbish, &[INF, 0.0]),
            0,
            &[INF, NAN],
        ),
        corner("trsv Unit leaves -0", trv(Trsv, Complex, &[0, 0, 1], &rubbish, &[0.0, -0.0]), 0, &[0.0, -0.0]),
        corner("trsv Unit leaves infinity", trv(Trsv, Complex, &[0, 0, 1], &rubbish, &[INF, 0.0]), 0, &[INF, 0.0]),
        corner("trmv Unit multiplies by ONE", trv(Trmv, Complex, &[0, 0, 1], &rubbish, &[INF, 0.0]), 0, &[INF, NAN]),
        corner(
            "trmm Unit multiplies by ONE, then by alpha",
            trm(Trmm, Complex, &unit, ONE, &rubbish, &[INF, 0.0]),
            0,
            &[NAN, NAN],
        ),
        corner("a left solve refused leaves B unscaled", trm(Trsm, F64, &[0; 4], TWO, &[0.0], &[3.0]), 5, &[3.0]),
        corner("a right solve refused leaves B scaled", trm(Trsm, F64, &[1, 0, 0, 0], TWO, &[0.0], &[3.0]), 5, &[6.0]),
        corner("pivot (-0, 2) is not zero", trv(Trsv, Complex, &[0, 0, 0], &[-0.0, 2.0], &[0.0, 2.0]), 0, &[1.0, -0.0]),
        corner(
            "pivot (1e-200, 0) is not zero",
            trv(Trsv, Complex, &[0, 0, 0], &[1e-200, 0.0], &[1.0, 0.0]),
            0,
            &[INF, NAN],
        ),
        corner("a NaN pivot is not zero", trv(Trsv, F64, &[0, 0, 0], &[NAN], &[1.0]), 0, &[NAN]),
        corner("pivot -0 is zero", trv(Trsv, F64, &[0, 0, 0], &[-0.0], &[1.0]), 5, &[1.0]),
        corner(
            "trmv spreads a NaN beside a zero",
            trv(Trmv, F64, &[0, 0, 0], &[1.0, NAN, 0.0, 1.0], &[1.0, 0.0]),
            0,
            &[NAN, 0.0],
        ),
    ]
}

/// Points of shapes and places.
fn shapes() -> Vec<Corner> {
    let trsm = |side: u8, b: Matrix| call(Trsm, F64, &[side, 0, 0, 0], ONE, ZERO, &[(2, 2, &[0.0; 4]), b]);
    let gemv = |a: Matrix, x: Matrix, y: Matrix| call(Gemv, F64, &[0], ONE, ONE, &[a, x, y]);
    let square = call(Syrk, F64, &[0, 0], ONE, ONE, &[(2, 1, &[1.0, 1.0]), (2, 2, &[7.0; 4])]);
    let reads = gemv((2, 2, &[3.0]), (2, 1, &[1.0, 2.0]), (2, 1, &[0.0, 0.0]));
    vec![
        corner("65 by 0 is too large", gemv((65, 0, &[]), (0, 1, &[]), (65, 1, &[])), 1, &[]),
        corner("64 by 0 passes", gemv((64, 0, &[]), (5, 0, &[]), (64, 1, &[1.0; 64])), 0, &[1.0; 64]),
        corner("0 by 5 is a vector of length 0", gemv((1, 0, &[]), (0, 5, &[]), (1, 1, &[4.0])), 0, &[4.0]),
        corner(
            "an empty view starts anywhere",
            seen(gemv((1, 0, &[]), (0, 5, &[]), (1, 1, &[4.0])), 1, u64::MAX, i64::MIN, i64::MAX),
            0,
            &[4.0],
        ),
        corner(
            "2 by 2 is no vector of length 4",
            gemv((1, 4, &[1.0; 4]), (2, 2, &[1.0; 4]), (1, 1, &[4.0])),
            3,
            &[4.0],
        ),
        corner(
            "A is square even for an empty target",
            call(Trmm, F64, &[0; 4], ONE, ZERO, &[(2, 3, &[0.0; 6]), (2, 0, &[])]),
            3,
            &[],
        ),
        corner("an empty left solve has no pivot", trsm(0, (2, 0, &[])), 0, &[]),
        corner("an empty right solve has no pivot", trsm(1, (0, 2, &[])), 0, &[]),
        corner("refusal 4 looks at the whole target", seen(square, 1, 0, 1, 1), 4, &[7.0; 4]),
        corner("a view that is only read may double", seen(reads, 0, 0, 0, 0), 0, &[9.0, 9.0]),
    ]
}

/// All the points that are easy to read otherwise.
pub fn points() -> Vec<Corner> {
    [sums(), triangles(), shapes()].into_iter().flatten().collect()
}

pub fn all() -> Vec<Corner> {
    [worked_examples(), slips(), points()].into_iter().flatten().collect()
}
