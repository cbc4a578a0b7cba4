//! Views of slabs.

/// A matrix or a vector in a slab: element (r, c) is at start + r · rs + c · cs, counted in elements of the slab.
///
/// Every view may be passed: a routine answers [`Refusal::TooLarge`](crate::Refusal::TooLarge) or
/// [`Refusal::OutOfBounds`](crate::Refusal::OutOfBounds) to one that its slab cannot show. So the functions here
/// take all arguments and never panic. A leading dimension over `i64::MAX` and a start over `u64::MAX` are taken as
/// these bounds: they lead beyond the end of any slab, as the exact numbers do, so the answer is the same.
///
/// ```
/// use zirve_blas::View;
/// // rows 1 and 2, columns 1 to 3 of a matrix with 5 columns that is held row after row
/// const BLOCK: View = View::by_rows(2, 3, 5).at(6);
/// assert_eq!(BLOCK, View { start: 6, rows: 2, cols: 3, rs: 5, cs: 1 });
/// ```
#[derive(Clone, Copy, Debug, PartialEq, Eq)]
pub struct View {
    /// The place of element (0, 0).
    pub start: u64,
    /// The number of rows, at most 64.
    pub rows: u64,
    /// The number of columns, at most 64.
    pub cols: u64,
    /// The row stride: from an element to the one below it.
    pub rs: i64,
    /// The column stride: from an element to the one at its right.
    pub cs: i64,
}

impl View {
    /// A full matrix, row after row.
    pub const fn rows_of(rows: u64, cols: u64) -> View {
        View::by_rows(rows, cols, cols)
    }

    /// A full matrix, column after column.
    pub const fn cols_of(rows: u64, cols: u64) -> View {
        View::by_cols(rows, cols, rows)
    }

    /// A vector of n elements, one after another.
    pub const fn vector(n: u64) -> View {
        View::strided(n, 1)
    }

    /// A matrix row after row, `ld` elements from the beginning of a row to that of the next: CBLAS's row-major order.
    pub const fn by_rows(rows: u64, cols: u64, ld: u64) -> View {
        View { start: 0, rows, cols, rs: stride(ld), cs: 1 }
    }

    /// A matrix column after column, `ld` elements from the beginning of a column to that of the next: CBLAS's
    /// column-major order.
    pub const fn by_cols(rows: u64, cols: u64, ld: u64) -> View {
        View { start: 0, rows, cols, rs: 1, cs: stride(ld) }
    }

    /// A vector of n elements, `inc` from each to the next, as CBLAS has it: where `inc` is negative the first
    /// element is the last in the slab, at (n - 1) · (-inc). Where `inc` is 0 all elements are one, which a target
    /// may not have.
    ///
    /// ```
    /// use zirve_blas::View;
    /// assert_eq!(View::strided(3, 2), View { start: 0, rows: 3, cols: 1, rs: 2, cs: 1 });
    /// assert_eq!(View::strided(3, -2), View { start: 4, rows: 3, cols: 1, rs: -2, cs: 1 });
    /// assert_eq!(View::strided(0, -2).start, 0);
    /// ```
    pub const fn strided(n: u64, inc: i64) -> View {
        let last = n.saturating_sub(1).saturating_mul(inc.unsigned_abs());
        View { start: if inc < 0 { last } else { 0 }, rows: n, cols: 1, rs: inc, cs: 1 }
    }

    /// The same view, `by` elements further on in its slab.
    pub const fn at(self, by: u64) -> View {
        View { start: self.start.saturating_add(by), ..self }
    }
}

const fn stride(ld: u64) -> i64 {
    if ld > i64::MAX as u64 {
        i64::MAX
    } else {
        ld as i64
    }
}
