//! A naive model over whole complex numbers, and its matrices laid out in slabs of each number kind. The numbers are so
//! small that the floats' results are exact, whatever the order of rounding.

use std::fmt::Debug;
use std::ops::{Add, Mul};
use zirve_blas::{Complex, Diag, Number, Strided, Trans, UpLo, View};

/// A whole complex number.
#[derive(Clone, Copy, PartialEq)]
pub struct Whole {
    pub re: i32,
    pub im: i32,
}

pub const ZERO: Whole = Whole { re: 0, im: 0 };
pub const ONE: Whole = Whole { re: 1, im: 0 };

impl Whole {
    pub fn conj(self) -> Whole {
        Whole { im: -self.im, ..self }
    }
}

impl Add for Whole {
    type Output = Whole;

    fn add(self, other: Whole) -> Whole {
        Whole { re: self.re + other.re, im: self.im + other.im }
    }
}

impl Mul for Whole {
    type Output = Whole;

    fn mul(self, other: Whole) -> Whole {
        Whole { re: self.re * other.re - self.im * other.im, im: self.re * other.im + self.im * other.re }
    }
}

/// A number kind of the crate.
pub trait Kind: Number + PartialEq + Debug {
    /// What no routine may read.
    const NAN: Self;
    fn of(number: Whole) -> Self;
    fn real(number: i32) -> Self::Real;
    /// A number of this kind: a real kind has no imaginary part.
    fn whole(re: i32, im: i32) -> Whole;
}

macro_rules! real_kind {
    ($kind:ident) => {
        impl Kind for $kind {
            const NAN: $kind = $kind::NAN;

            fn of(number: Whole) -> $kind {
                assert_eq!(number.im, 0);
                number.re as $kind
            }

            fn real(number: i32) -> $kind {
                number as $kind
            }

            fn whole(re: i32, _: i32) -> Whole {
                Whole { re, im: 0 }
            }
        }
    };
}

real_kind!(f64);
real_kind!(f32);

impl Kind for Complex {
    const NAN: Complex = Complex::new(f64::NAN, f64::NAN);

    fn of(number: Whole) -> Complex {
        Complex::new(number.re.into(), number.im.into())
    }

    fn real(number: i32) -> f64 {
        number.into()
    }

    fn whole(re: i32, im: i32) -> Whole {
        Whole { re, im }
    }
}

#[derive(Clone)]
pub struct Matrix {
    pub rows: usize,
    pub cols: usize,
    numbers: Vec<Whole>,
}

impl Matrix {
    pub fn new(rows: usize, cols: usize, number: impl Fn(usize, usize) -> Whole) -> Matrix {
        Matrix { rows, cols, numbers: (0..rows * cols).map(|k| number(k / cols, k % cols)).collect() }
    }

    /// Numbers with no real part 0, which another `seed` changes.
    pub fn sample<T: Kind>(rows: usize, cols: usize, seed: usize) -> Matrix {
        Matrix::new(rows, cols, |r, c| {
            let k = 5 * r + 3 * c + 7 * seed;
            T::whole([1, -2, 3, 2, -1, -3][k % 6], k as i32 % 5 - 2)
        })
    }

    pub fn at(&self, r: usize, c: usize) -> Whole {
        self.numbers[r * self.cols + c]
    }

    /// op of the matrix.
    pub fn op(&self, trans: Trans) -> Matrix {
        match trans {
            Trans::NoTrans => self.clone(),
            Trans::Trans => Matrix::new(self.cols, self.rows, |r, c| self.at(c, r)),
            Trans::ConjTrans => Matrix::new(self.cols, self.rows, |r, c| self.at(c, r).conj()),
        }
    }

    pub fn times(&self, other: &Matrix) -> Matrix {
        assert_eq!(self.cols, other.rows);
        let element = |r, c| (0..self.cols).fold(ZERO, |sum, k| sum + self.at(r, k) * other.at(k, c));
        Matrix::new(self.rows, other.cols, element)
    }

    pub fn plus(&self, other: &Matrix) -> Matrix {
        Matrix::new(self.rows, self.cols, |r, c| self.at(r, c) + other.at(r, c))
    }

    pub fn scaled(&self, factor: Whole) -> Matrix {
        Matrix::new(self.rows, self.cols, |r, c| factor * self.at(r, c))
    }

    /// This matrix in the named triangle, the other outside it.
    pub fn within(&self, uplo: UpLo, other: &Matrix) -> Matrix {
        Matrix::new(self.rows, self.cols, |r, c| if in_triangle(uplo, r, c) { self.at(r, c) } else { other.at(r, c) })
    }

    /// The symmetric or Hermitian matrix of the named triangle: outside it, op of the matrix.
    pub fn mirrored(&self, uplo: UpLo, op: Trans) -> Matrix {
        self.within(uplo, &self.op(op))
    }

    /// The triangular matrix of the named triangle.
    pub fn triangle(&self, uplo: UpLo, diag: Diag) -> Matrix {
        let zero = Matrix::new(self.rows, self.cols, |_, _| ZERO);
        let unit = |r, c| if r == c && diag == Diag::Unit { ONE } else { self.at(r, c) };
        Matrix::new(self.rows, self.cols, unit).within(uplo, &zero)
    }
}

pub fn in_triangle(uplo: UpLo, r: usize, c: usize) -> bool {
    match uplo {
        UpLo::Upper => r <= c,
        UpLo::Lower => c <= r,
    }
}

/// A view of the shape: by rows, by columns or from the end to the beginning, none of them without gaps.
fn layout(rows: u64, cols: u64, turn: usize) -> View {
    match turn % 3 {
        0 => View::by_rows(rows, cols, cols + 1).at(2),
        1 => View::by_cols(rows, cols, rows + 2).at(1),
        _ => View { start: 30, rows, cols, rs: -(cols as i64) - 2, cs: -1 },
    }
}

/// The matrix in a slab, NaN where an element is not named, `gap` where the view has none.
fn laid<T: Kind>(matrix: &Matrix, turn: usize, gap: T, named: impl Fn(usize, usize) -> bool) -> Strided<Vec<T>> {
    let view = layout(matrix.rows as u64, matrix.cols as u64, turn);
    let mut slab = vec![gap; 32];
    for r in 0..matrix.rows {
        for c in 0..matrix.cols {
            let place = view.start as i64 + r as i64 * view.rs + c as i64 * view.cs;
            slab[place as usize] = if named(r, c) { T::of(matrix.at(r, c)) } else { T::NAN };
        }
    }
    Strided { slab, view }
}

/// All elements are named.
pub fn all(_: usize, _: usize) -> bool {
    true
}

/// Those of a triangle are, its diagonal where it is read.
pub fn triangle(uplo: UpLo, diag: Diag) -> impl Fn(usize, usize) -> bool {
    move |r, c| in_triangle(uplo, r, c) && (r != c || diag == Diag::NonUnit)
}

/// What is read, with NaN wherever it may not be.
pub fn source<T: Kind>(matrix: &Matrix, turn: usize, named: impl Fn(usize, usize) -> bool) -> Strided<Vec<T>> {
    laid(matrix, turn, T::NAN, named)
}

/// What is written, and its slab afterwards, with numbers in the gaps, so that a call is seen to leave them. Old
/// elements that are not named may not be read.
pub fn target<T: Kind>(
    old: &Matrix,
    new: &Matrix,
    turn: usize,
    named: impl Fn(usize, usize) -> bool,
) -> (Strided<Vec<T>>, Vec<T>) {
    let gap = T::of(Whole { re: 77, im: 0 });
    (laid(old, turn, gap, named), laid(new, turn, gap, all).slab)
}
