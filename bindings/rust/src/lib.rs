//! Dense BLAS kernels, proved, for f64, f32 and complex numbers over strided views of slices.
//!
//! A routine is an associated function of its numbers, by the trait [`Number`]: `f64::gemm`, `Complex::trsv`. Each
//! matrix and each vector is a slab, which is a slice, and a [`View`] of it; the last is the target. The crate
//! needs no `std` and no allocator.
//!
//! ```
//! use zirve_blas::{Number, Refusal, Trans, View};
//!
//! fn main() -> Result<(), Refusal> {
//!     let a = [1.0, 2.0, 3.0, 4.0];
//!     let x = [1.0, 1.0];
//!     let mut y = [f64::NAN, 5.0];
//!     let (square, vector) = (View::rows_of(2, 2), View::vector(2));
//!     // y ← 2 A x + 0 y; with beta 0 the old y is not read
//!     f64::gemv(Trans::NoTrans, 2.0, &a, square, &x, vector, 0.0, &mut y, vector)?;
//!     assert_eq!(y, [6.0, 14.0]);
//!     Ok(())
//! }
//! ```
//!
//! # Answers
//!
//! A routine answers `Ok(())`, or the lowest [`Refusal`] met; it takes all arguments and does not panic. Refusals 1
//! to 4 have changed nothing. After [`Refusal::Singular`] the target holds what was solved before the zero pivot
//! was met, which is said there.
//!
//! # Cards
//!
//! [`card`] reads a matrix from the bytes of a card file and writes it there, with refusals of its own.
//!
//! # From control-rs
//!
//! [`ProvedBlas`] offers the routines under the names, type parameters and order of arguments of control-rs's
//! `DefaultBlas`. The traits are namesakes of control-rs's, not those; the page of [`adapter`] says what changes at a
//! call, and how a storage of control-rs is passed.
//!
//! # The archive
//!
//! The kernels are in an archive, which is linked statically: `target/libzirve_blas.a` of the repository, made by
//! `make archive` there, or the file that the environment variable `ZB_ARCHIVE` names when the crate is built, by its
//! absolute path. The file may have any name. An archive of f64's functions alone will do for a program that calls no
//! others. Where the file is missing, or not such an archive, the build fails with one line that says so.
//!
//! # The floating-point environment
//!
//! What is proved is proved of IEEE 754 arithmetic, rounded to nearest, ties to even. So a call wants the processor
//! set as a program finds it: rounding to nearest, flush-to-zero and denormals-are-zero off, exceptions masked. No Rust
//! program sets it otherwise by itself; a C part that is linked can, one built with `-ffast-math` for instance. The
//! exception flags after a call say nothing.

#![no_std]
#![deny(missing_docs)]

pub mod adapter;
pub mod card;
mod number;
mod refusal;
mod view;

pub use adapter::{level2, level3, ProvedBlas, Storage, StorageMut, Strided};
pub use number::{Complex, Number};
pub use refusal::Refusal;
pub use view::View;

/// op(A): the matrix, its transpose, or its conjugate transpose.
#[derive(Clone, Copy, Debug, PartialEq, Eq)]
#[repr(u8)]
pub enum Trans {
    /// A.
    NoTrans,
    /// Aᵀ.
    Trans,
    /// Aᴴ, which is Aᵀ for f64 and f32.
    ConjTrans,
}

/// The triangle that a routine reads or writes, with its diagonal.
#[derive(Clone, Copy, Debug, PartialEq, Eq)]
#[repr(u8)]
pub enum UpLo {
    /// On and above the diagonal.
    Upper,
    /// On and below the diagonal.
    Lower,
}

/// Whether the diagonal of a triangular matrix is read.
#[derive(Clone, Copy, Debug, PartialEq, Eq)]
#[repr(u8)]
pub enum Diag {
    /// It is.
    NonUnit,
    /// It is not, and counts as ones.
    Unit,
}

/// The side of A in a product or an equation.
#[derive(Clone, Copy, Debug, PartialEq, Eq)]
#[repr(u8)]
pub enum Side {
    /// A B, or A X = B.
    Left,
    /// B A, or X A = B.
    Right,
}
