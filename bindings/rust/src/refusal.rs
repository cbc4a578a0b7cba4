//! The answers.

use core::{error, fmt};

/// Why a call was refused. The numbers are those of the C interface; the lowest met is the answer.
///
/// A call refused with 1 to 4 has changed nothing. What a solve leaves after 5 is said at [`Refusal::Singular`].
#[derive(Clone, Copy, Debug, PartialEq, Eq, PartialOrd, Ord)]
#[repr(u8)]
pub enum Refusal {
    /// A view has more than 64 rows or columns.
    TooLarge = 1,
    /// Some element of a view is outside its slab.
    OutOfBounds = 2,
    /// The shapes do not go together, a square matrix is not square, or a vector is no vector.
    ShapeMismatch = 3,
    /// Two elements of the target view share a place.
    Overlap = 4,
    /// `trsv` and `trsm` alone: `diag` is `NonUnit`, the target is not empty, and some diagonal element of A is zero.
    ///
    /// The pivots are met one after another while solving, so the target has changed:
    ///
    /// - **`trsv` and `trsm` with `Side::Left`**: in the first column, the rows that come before the first zero
    ///   pivot in solving order are solved. Nothing else is touched: not the rows from that pivot on, and not the
    ///   other columns, which are not multiplied by alpha either.
    /// - **`trsm` with `Side::Right`**: all of B is multiplied by alpha, and the columns that come before the first
    ///   zero pivot in solving order are solved.
    ///
    /// Solving order: from the left, rows go from the last to the first where op(A) is upper triangular, else from
    /// the first to the last; from the right, columns go from the first to the last where op(A) is upper
    /// triangular, else from the last to the first. op(A) is upper triangular for `Upper` with `NoTrans`, and for
    /// `Lower` with `Trans` or `ConjTrans`.
    ///
    /// ```
    /// use zirve_blas::{Diag, Number, Refusal, Side, Trans, UpLo, View};
    /// let solve = |side, a: &[f64], b: &mut [f64]| {
    ///     let square = View::rows_of(2, 2);
    ///     f64::trsm(side, UpLo::Upper, Trans::NoTrans, Diag::NonUnit, 2.0, a, square, b, square)
    /// };
    ///
    /// // the first pivot is zero: row 1 of the first column is solved, 2 · 6 / 4
    /// let mut b = [1.0, 2.0, 6.0, 8.0];
    /// assert_eq!(solve(Side::Left, &[0.0, 1.0, 0.0, 4.0], &mut b), Err(Refusal::Singular));
    /// assert_eq!(b, [1.0, 2.0, 3.0, 8.0]);
    ///
    /// // the second pivot is zero: all is doubled, and the first column divided by 4
    /// let mut b = [2.0, 3.0, 6.0, 7.0];
    /// assert_eq!(solve(Side::Right, &[4.0, 1.0, 0.0, 0.0], &mut b), Err(Refusal::Singular));
    /// assert_eq!(b, [1.0, 6.0, 3.0, 14.0]);
    /// ```
    Singular = 5,
}

impl Refusal {
    /// The number, 1 to 5.
    pub const fn number(self) -> u8 {
        self as u8
    }

    pub(crate) fn of(answer: u8) -> Result<(), Refusal> {
        match answer {
            0 => Ok(()),
            1 => Err(Refusal::TooLarge),
            2 => Err(Refusal::OutOfBounds),
            3 => Err(Refusal::ShapeMismatch),
            4 => Err(Refusal::Overlap),
            5 => Err(Refusal::Singular),
            _ => unreachable!("the kernels answer 0 to 5"),
        }
    }
}

impl fmt::Display for Refusal {
    fn fmt(&self, f: &mut fmt::Formatter<'_>) -> fmt::Result {
        f.write_str(match self {
            Refusal::TooLarge => "a view has more than 64 rows or columns",
            Refusal::OutOfBounds => "some element of a view is outside its slab",
            Refusal::ShapeMismatch => "the shapes do not go together",
            Refusal::Overlap => "two elements of the target share a place",
            Refusal::Singular => "a pivot is zero",
        })
    }
}

impl error::Error for Refusal {}
