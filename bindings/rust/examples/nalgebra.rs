//! Column-major matrices, as nalgebra holds them, in the routines: whole, a block, a row. Nothing here is `unsafe`.

use zirve_blas::level3::Trsm;
use zirve_blas::{Diag, Number, ProvedBlas, Refusal, Side, Storage, StorageMut, Strided, Trans, UpLo, View};

/// Stands for nalgebra's `DMatrix<f64>`, on which this crate does not depend, with the names of its functions.
struct DMatrix {
    data: Vec<f64>,
    nrows: usize,
}

impl DMatrix {
    fn from_vec(nrows: usize, ncols: usize, data: Vec<f64>) -> DMatrix {
        assert_eq!(data.len(), nrows * ncols);
        DMatrix { data, nrows }
    }

    fn nrows(&self) -> usize {
        self.nrows
    }

    fn ncols(&self) -> usize {
        self.data.len() / self.nrows
    }

    fn as_slice(&self) -> &[f64] {
        &self.data
    }

    fn as_mut_slice(&mut self) -> &mut [f64] {
        &mut self.data
    }
}

/// All of the matrix.
fn whole(m: &DMatrix) -> View {
    View::cols_of(m.nrows() as u64, m.ncols() as u64)
}

/// A block that begins at the place, of the shape: nalgebra's `view`.
fn block(m: &DMatrix, (row, col): (usize, usize), (rows, cols): (usize, usize)) -> View {
    View::by_cols(rows as u64, cols as u64, m.nrows() as u64).at((row + col * m.nrows()) as u64)
}

/// A row, as a vector whose elements are a column apart.
fn row(m: &DMatrix, row: usize) -> View {
    View::strided(m.ncols() as u64, m.nrows() as i64).at(row as u64)
}

/// The matrix as an argument of `ProvedBlas`.
struct Proved(DMatrix);

impl Storage<f64> for Proved {
    fn lend(&self) -> Strided<&[f64]> {
        Strided { slab: self.0.as_slice(), view: whole(&self.0) }
    }
}

impl StorageMut<f64> for Proved {
    fn lend_mut(&mut self) -> Strided<&mut [f64]> {
        let view = whole(&self.0);
        Strided { slab: self.0.as_mut_slice(), view }
    }
}

fn main() -> Result<(), Refusal> {
    // [[1, 3, 5], [2, 4, 6]] times its row 1
    let a = DMatrix::from_vec(2, 3, vec![1.0, 2.0, 3.0, 4.0, 5.0, 6.0]);
    let mut y = [0.0; 2];
    let slab = a.as_slice();
    f64::gemv(Trans::NoTrans, 1.0, slab, whole(&a), slab, row(&a, 1), 0.0, &mut y, View::vector(2))?;
    assert_eq!(y, [44.0, 56.0]);

    // the lower right block of ones, less the last two columns of A times the first two
    let mut c = DMatrix::from_vec(3, 3, vec![1.0; 9]);
    let (left, right, corner) = (block(&a, (0, 0), (2, 2)), block(&a, (0, 1), (2, 2)), block(&c, (1, 1), (2, 2)));
    f64::gemm(Trans::NoTrans, Trans::NoTrans, -1.0, slab, right, slab, left, 1.0, c.as_mut_slice(), corner)?;
    assert_eq!(c.as_slice(), [1.0, 1.0, 1.0, 1.0, -12.0, -15.0, 1.0, -28.0, -35.0]);

    // [[2, 1], [0, 4]] X = [[4, 6], [8, 16]] solved, the element below the diagonal unread
    let upper = Proved(DMatrix::from_vec(2, 2, vec![2.0, f64::NAN, 1.0, 4.0]));
    let mut x = Proved(DMatrix::from_vec(2, 2, vec![4.0, 8.0, 6.0, 16.0]));
    ProvedBlas::trsm(Side::Left, UpLo::Upper, Trans::NoTrans, Diag::NonUnit, 1.0, &upper, &mut x)?;
    assert_eq!(x.0.as_slice(), [1.0, 2.0, 1.0, 4.0]);
    println!("three calls over column-major matrices, and their results");
    Ok(())
}

#[test]
fn results() {
    main().unwrap();
}
