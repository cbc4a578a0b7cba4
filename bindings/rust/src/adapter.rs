//! The routines under the names of control-rs's `DefaultBlas`.
//!
//! The traits of [`level2`] and [`level3`] have the names of control-rs's, their type parameters and their order of
//! arguments, so that `DefaultBlas::gemm(..)` becomes `ProvedBlas::gemm(..)`. Two things change:
//!
//! - Every routine returns its [`Refusal`], where control-rs's return nothing save the two solves, whose
//!   `LinAlgError::SingularMatrix` is [`Refusal::Singular`] here.
//! - An argument lends its slab with its view by [`Storage`], a target by [`StorageMut`].
//!
//! # These traits are namesakes
//!
//! [`Storage`], [`StorageMut`], the traits of the routines, and the flags `Trans`, `UpLo`, `Diag` and `Side` are
//! those of this crate, not of control-rs. A type that implements control-rs's `DenseStorage` or `Storage` does not
//! implement [`Storage`] by that, and a program cannot implement one crate's trait for another crate's type. Hence
//! a newtype of the program's own, six lines over [`Strided::of_ptr`]: `examples/control_rs.rs` has it over
//! control-rs's `DenseStorage`, `examples/nalgebra.rs` one over column-major matrices. What lends a slice needs none,
//! since [`Strided`] holds it with a view.
//!
//! ```
//! use zirve_blas::level3::Gemm;
//! use zirve_blas::{ProvedBlas, Refusal, Strided, Trans, View};
//!
//! fn main() -> Result<(), Refusal> {
//!     let square = View::cols_of(2, 2);
//!     let a = Strided { slab: [1.0, 3.0, 2.0, 4.0], view: square };
//!     let mut c = Strided { slab: [0.0; 4], view: square };
//!     ProvedBlas::gemm(Trans::NoTrans, Trans::Trans, 1.0, &a, &a, 0.0, &mut c)?;
//!     // [[1, 2], [3, 4]] times its transpose
//!     assert_eq!(c.slab, [5.0, 11.0, 11.0, 25.0]);
//!     Ok(())
//! }
//! ```

use crate::{Number, Refusal, View};

/// What has a slab and a view of it.
pub trait Storage<T> {
    /// The slab with its view, whose places count from the slab's first element. Any view may be shown, see [`View`].
    fn lend(&self) -> Strided<&[T]>;
}

/// The same, of a slab that may be written.
pub trait StorageMut<T>: Storage<T> {
    /// What [`Storage::lend`] lends, the slab to be written.
    fn lend_mut(&mut self) -> Strided<&mut [T]>;
}

/// Anything that lends a slice, with a view of it: an array, a `Vec`, a slice.
#[derive(Clone, Copy, Debug)]
pub struct Strided<S> {
    /// What lends the slab.
    pub slab: S,
    /// The view.
    pub view: View,
}

impl<T, S: AsRef<[T]>> Storage<T> for Strided<S> {
    fn lend(&self) -> Strided<&[T]> {
        Strided { slab: self.slab.as_ref(), view: self.view }
    }
}

impl<T, S: AsRef<[T]> + AsMut<[T]>> StorageMut<T> for Strided<S> {
    fn lend_mut(&mut self) -> Strided<&mut [T]> {
        Strided { slab: self.slab.as_mut(), view: self.view }
    }
}

impl<T> Strided<&[T]> {
    /// A matrix that is known by a pointer to its element (0, 0) and by its strides, which may be negative. The slab is
    /// what lies from the lowest of its places to the highest.
    ///
    /// ```
    /// use zirve_blas::{Strided, View};
    /// let numbers = [1.0, 2.0, 3.0, 4.0, 5.0];
    /// // SAFETY: places 4, 2 and 0 of the array, which stays as it is.
    /// let odd = unsafe { Strided::of_ptr(&numbers[4], 3, 1, -2, 1) };
    /// assert_eq!((odd.slab, odd.view), (&numbers[..], View::strided(3, -2)));
    /// ```
    ///
    /// # Safety
    ///
    /// If the matrix has an element, all that lies from its lowest place to its highest, with what the strides pass
    /// over, is of one buffer, can be read as long as the slab is lent, and is written by nobody in that time.
    pub unsafe fn of_ptr(first: *const T, rows: usize, cols: usize, rs: isize, cs: isize) -> Self {
        let view = View { start: 0, rows: rows as u64, cols: cols as u64, rs: rs as i64, cs: cs as i64 };
        if rows == 0 || cols == 0 {
            return Strided { slab: &[], view };
        }
        let (down, along) = ((rows as isize - 1) * rs, (cols as isize - 1) * cs);
        let (low, high) = (down.min(0) + along.min(0), down.max(0) + along.max(0));
        // SAFETY: `low` and `high` are the lowest and the highest place, counted from `first`, and the caller vouches
        // for what lies between.
        let slab = unsafe { core::slice::from_raw_parts(first.offset(low), (high - low) as usize + 1) };
        Strided { slab, view: view.at(low.unsigned_abs() as u64) }
    }
}

/// What takes the place of control-rs's `DefaultBlas`. Its functions are those of the traits in [`level2`] and
/// [`level3`], which a program brings in by their names; [`adapter`](crate::adapter) says what changes at a call.
#[derive(Clone, Copy, Debug)]
pub struct ProvedBlas;

/// One trait a routine: its type parameters besides T, its arguments, and what goes to the routine before the target.
macro_rules! traits {
    ($(#[$doc:meta])* $module:ident: $($trait:ident $routine:ident
        [$($storage:ident: $access:ident),*] ($($arg:ident: $type:ty),*) [$($value:expr),*] $target:ident;)*) => {
        $(#[$doc])*
        pub mod $module {
            use super::{Number, ProvedBlas, Refusal, Storage, StorageMut, Strided};
            #[allow(unused_imports)]
            use crate::{Diag, Side, Trans, UpLo};

            $(
            #[doc = concat!("The routine [`Number::", stringify!($routine), "`] over storages.")]
            pub trait $trait<T: Number, $($storage: $access<T>),*> {
                #[doc = concat!("What [`Number::", stringify!($routine), "`] does and answers.")]
                #[allow(clippy::too_many_arguments)]
                fn $routine($($arg: $type),*) -> Result<(), Refusal>;
            }

            impl<T: Number, $($storage: $access<T>),*> $trait<T, $($storage),*> for ProvedBlas {
                fn $routine($($arg: $type),*) -> Result<(), Refusal> {
                    let Strided { slab, view } = $target.lend_mut();
                    T::$routine($($value,)* slab, view)
                }
            }
            )*
        }
    };
}

traits! {
    /// Matrix and vector.
    level2:
    Gemv gemv [A: Storage, X: Storage, Y: StorageMut] (trans: Trans, alpha: T, a: &A, x: &X, beta: T, y: &mut Y)
        [trans, alpha, a.lend().slab, a.lend().view, x.lend().slab, x.lend().view, beta] y;
    Hemv hemv [A: Storage, X: Storage, Y: StorageMut] (uplo: UpLo, alpha: T, a: &A, x: &X, beta: T, y: &mut Y)
        [uplo, alpha, a.lend().slab, a.lend().view, x.lend().slab, x.lend().view, beta] y;
    Her her [A: StorageMut, X: Storage] (uplo: UpLo, alpha: T::Real, x: &X, a: &mut A)
        [uplo, alpha, x.lend().slab, x.lend().view] a;
    Her2 her2 [A: StorageMut, X: Storage, Y: Storage] (uplo: UpLo, alpha: T, x: &X, y: &Y, a: &mut A)
        [uplo, alpha, x.lend().slab, x.lend().view, y.lend().slab, y.lend().view] a;
    Trmv trmv [A: Storage, X: StorageMut] (uplo: UpLo, trans: Trans, diag: Diag, a: &A, x: &mut X)
        [uplo, trans, diag, a.lend().slab, a.lend().view] x;
    Trsv trsv [A: Storage, X: StorageMut] (uplo: UpLo, trans: Trans, diag: Diag, a: &A, x: &mut X)
        [uplo, trans, diag, a.lend().slab, a.lend().view] x;
}

traits! {
    /// Matrix and matrix.
    level3:
    Gemm gemm [A: Storage, B: Storage, C: StorageMut]
        (ta: Trans, tb: Trans, alpha: T, a: &A, b: &B, beta: T, c: &mut C)
        [ta, tb, alpha, a.lend().slab, a.lend().view, b.lend().slab, b.lend().view, beta] c;
    Symm symm [A: Storage, B: Storage, C: StorageMut]
        (side: Side, uplo: UpLo, alpha: T, a: &A, b: &B, beta: T, c: &mut C)
        [side, uplo, alpha, a.lend().slab, a.lend().view, b.lend().slab, b.lend().view, beta] c;
    Hemm hemm [A: Storage, B: Storage, C: StorageMut]
        (side: Side, uplo: UpLo, alpha: T, a: &A, b: &B, beta: T, c: &mut C)
        [side, uplo, alpha, a.lend().slab, a.lend().view, b.lend().slab, b.lend().view, beta] c;
    Syrk syrk [A: Storage, C: StorageMut] (uplo: UpLo, trans: Trans, alpha: T, a: &A, beta: T, c: &mut C)
        [uplo, trans, alpha, a.lend().slab, a.lend().view, beta] c;
    Herk herk [A: Storage, C: StorageMut] (uplo: UpLo, trans: Trans, alpha: T::Real, a: &A, beta: T::Real, c: &mut C)
        [uplo, trans, alpha, a.lend().slab, a.lend().view, beta] c;
    Syr2k syr2k [A: Storage, B: Storage, C: StorageMut]
        (uplo: UpLo, trans: Trans, alpha: T, a: &A, b: &B, beta: T, c: &mut C)
        [uplo, trans, alpha, a.lend().slab, a.lend().view, b.lend().slab, b.lend().view, beta] c;
    Her2k her2k [A: Storage, B: Storage, C: StorageMut]
        (uplo: UpLo, trans: Trans, alpha: T, a: &A, b: &B, beta: T::Real, c: &mut C)
        [uplo, trans, alpha, a.lend().slab, a.lend().view, b.lend().slab, b.lend().view, beta] c;
    Trmm trmm [A: Storage, B: StorageMut]
        (side: Side, uplo: UpLo, trans: Trans, diag: Diag, alpha: T, a: &A, b: &mut B)
        [side, uplo, trans, diag, alpha, a.lend().slab, a.lend().view] b;
    Trsm trsm [A: Storage, B: StorageMut]
        (side: Side, uplo: UpLo, trans: Trans, diag: Diag, alpha: T, a: &A, b: &mut B)
        [side, uplo, trans, diag, alpha, a.lend().slab, a.lend().view] b;
}
