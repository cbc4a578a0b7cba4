//! The routines of each number kind, over the functions of the archive.

use crate::{Diag, Refusal, Side, Trans, UpLo, View};
use core::mem::{size_of, size_of_val};

/// A real and an imaginary part, held together; two numbers of a slab.
#[derive(Clone, Copy, Debug, Default, PartialEq)]
#[repr(C)]
pub struct Complex {
    /// The real part.
    pub re: f64,
    /// The imaginary part.
    pub im: f64,
}

impl Complex {
    /// The number re + im · i.
    pub const fn new(re: f64, im: f64) -> Complex {
        Complex { re, im }
    }
}

/// Calls a function of the archive, whose parameters are gathered one after another: `flag`, `number` and `real`
/// scalars, `read` and `write` with a slab and its view.
macro_rules! call {
    ($kind:ident $cell:ty, $name:ident [$($type:ty,)*] [$($value:expr,)*]) => {{
        extern "C" {
            fn $name($(_: $type),*) -> u8;
        }
        // SAFETY: the pointers and lengths are those of slices, counted in floats, of which a `Complex` is two; the
        // target's slice is lent alone. The function asks nothing else of its arguments, reads and writes nothing but
        // these slices, and answers for all of them.
        Refusal::of(unsafe { $name($($value),*) })
    }};
    ($kind:ident $cell:ty, $name:ident [$($type:ty,)*] [$($value:expr,)*] flag $x:ident $($rest:tt)*) => {
        call!($kind $cell, $name [$($type,)* u8,] [$($value,)* $x as u8,] $($rest)*)
    };
    (complex $cell:ty, $name:ident [$($type:ty,)*] [$($value:expr,)*] number $x:ident $($rest:tt)*) => {
        call!(complex $cell, $name [$($type,)* $cell, $cell,] [$($value,)* $x.re, $x.im,] $($rest)*)
    };
    (real $cell:ty, $name:ident [$($type:ty,)*] [$($value:expr,)*] number $x:ident $($rest:tt)*) => {
        call!(real $cell, $name [$($type,)* $cell,] [$($value,)* $x,] $($rest)*)
    };
    ($kind:ident $cell:ty, $name:ident [$($type:ty,)*] [$($value:expr,)*] real $x:ident $($rest:tt)*) => {
        call!($kind $cell, $name [$($type,)* $cell,] [$($value,)* $x,] $($rest)*)
    };
    ($kind:ident $cell:ty, $name:ident [$($type:ty,)*] [$($value:expr,)*] read $x:ident $v:ident $($rest:tt)*) => {
        call!(@view $kind $cell, $name [$($type,)* *const $cell,] [$($value,)* $x.as_ptr().cast(),] $x $v $($rest)*)
    };
    ($kind:ident $cell:ty, $name:ident [$($type:ty,)*] [$($value:expr,)*] write $x:ident $v:ident $($rest:tt)*) => {
        call!(@view $kind $cell, $name [$($type,)* *mut $cell,] [$($value,)* $x.as_mut_ptr().cast(),] $x $v $($rest)*)
    };
    (@view $kind:ident $cell:ty, $name:ident [$($type:ty,)*] [$($value:expr,)*] $x:ident $v:ident $($rest:tt)*) => {
        call!($kind $cell, $name [$($type,)* usize, u64, u64, u64, i64, i64,]
            [$($value,)* size_of_val::<[Self]>($x) / size_of::<$cell>(), $v.start, $v.rows, $v.cols, $v.rs, $v.cs,]
            $($rest)*)
    };
}

/// Makes the trait, and what implements it, of one table. The routines are `inline`, so that a program asks the
/// linker for the functions that it calls and no others.
macro_rules! routines {
    ($($(#[$doc:meta])* $routine:ident($($arg:ident: $type:ty),*)
        $d:ident $s:ident $z:ident [$($way:ident $($of:ident)+),*];)*) => {
        /// A number kind with the fifteen routines. Slabs are slices, each with a view of its own; the last is the
        /// target.
        ///
        /// A call is refused for the lowest reason met, see [`Refusal`]; each routine can answer 1 to 4, and `trsv` and
        /// `trsm` 5 besides. Where beta is 0 the old target is not read. There is no shortcut for an alpha of 0.
        pub trait Number: Copy {
            /// The type of a real factor.
            type Real: Copy;
            $($(#[$doc])*
            #[allow(clippy::too_many_arguments)]
            fn $routine($($arg: $type),*) -> Result<(), Refusal>;)*
        }

        impl Number for f64 {
            type Real = f64;
            $(#[inline]
            fn $routine($($arg: $type),*) -> Result<(), Refusal> {
                call!(real f64, $d [] [] $($way $($of)+)*)
            })*
        }

        impl Number for f32 {
            type Real = f32;
            $(#[inline]
            fn $routine($($arg: $type),*) -> Result<(), Refusal> {
                call!(real f32, $s [] [] $($way $($of)+)*)
            })*
        }

        impl Number for Complex {
            type Real = f64;
            $(#[inline]
            fn $routine($($arg: $type),*) -> Result<(), Refusal> {
                call!(complex f64, $z [] [] $($way $($of)+)*)
            })*
        }
    };
}

routines! {
    /// y ← alpha op(A) x + beta y
    gemv(trans: Trans, alpha: Self, a: &[Self], va: View, x: &[Self], vx: View, beta: Self, y: &mut [Self], vy: View)
        zb_dgemv zb_sgemv zb_zgemv [flag trans, number alpha, read a va, read x vx, number beta, write y vy];
    /// y ← alpha A x + beta y, A Hermitian, of which the named triangle is read
    hemv(uplo: UpLo, alpha: Self, a: &[Self], va: View, x: &[Self], vx: View, beta: Self, y: &mut [Self], vy: View)
        zb_dhemv zb_shemv zb_zhemv [flag uplo, number alpha, read a va, read x vx, number beta, write y vy];
    /// A ← alpha x xᴴ + A in the named triangle, alpha real
    her(uplo: UpLo, alpha: Self::Real, x: &[Self], vx: View, a: &mut [Self], va: View)
        zb_dher zb_sher zb_zher [flag uplo, real alpha, read x vx, write a va];
    /// A ← alpha x yᴴ + conj(alpha) y xᴴ + A in the named triangle
    her2(uplo: UpLo, alpha: Self, x: &[Self], vx: View, y: &[Self], vy: View, a: &mut [Self], va: View)
        zb_dher2 zb_sher2 zb_zher2 [flag uplo, number alpha, read x vx, read y vy, write a va];
    /// x ← op(A) x, A triangular
    trmv(uplo: UpLo, trans: Trans, diag: Diag, a: &[Self], va: View, x: &mut [Self], vx: View)
        zb_dtrmv zb_strmv zb_ztrmv [flag uplo, flag trans, flag diag, read a va, write x vx];
    /// op(A) x = b solved, x holding b, A triangular
    ///
    /// After [`Refusal::Singular`] the elements of x that come before the first zero pivot in solving order are solved,
    /// and the others untouched. Solving order goes from the last element to the first where op(A) is upper triangular,
    /// else from the first to the last.
    trsv(uplo: UpLo, trans: Trans, diag: Diag, a: &[Self], va: View, x: &mut [Self], vx: View)
        zb_dtrsv zb_strsv zb_ztrsv [flag uplo, flag trans, flag diag, read a va, write x vx];
    /// C ← alpha op(A) op(B) + beta C
    gemm(ta: Trans, tb: Trans, alpha: Self, a: &[Self], va: View, b: &[Self], vb: View, beta: Self, c: &mut [Self],
        vc: View)
        zb_dgemm zb_sgemm zb_zgemm [flag ta, flag tb, number alpha, read a va, read b vb, number beta, write c vc];
    /// C ← alpha A B + beta C (Left) or alpha B A + beta C (Right), A symmetric, of which the named triangle is read
    symm(side: Side, uplo: UpLo, alpha: Self, a: &[Self], va: View, b: &[Self], vb: View, beta: Self, c: &mut [Self],
        vc: View)
        zb_dsymm zb_ssymm zb_zsymm [flag side, flag uplo, number alpha, read a va, read b vb, number beta, write c vc];
    /// C ← alpha A B + beta C (Left) or alpha B A + beta C (Right), A Hermitian, of which the named triangle is read
    hemm(side: Side, uplo: UpLo, alpha: Self, a: &[Self], va: View, b: &[Self], vb: View, beta: Self, c: &mut [Self],
        vc: View)
        zb_dhemm zb_shemm zb_zhemm [flag side, flag uplo, number alpha, read a va, read b vb, number beta, write c vc];
    /// C ← alpha A Aᵀ + beta C or alpha Aᵀ A + beta C in the named triangle; ConjTrans is taken as Trans
    syrk(uplo: UpLo, trans: Trans, alpha: Self, a: &[Self], va: View, beta: Self, c: &mut [Self], vc: View)
        zb_dsyrk zb_ssyrk zb_zsyrk [flag uplo, flag trans, number alpha, read a va, number beta, write c vc];
    /// C ← alpha A Aᴴ + beta C or alpha Aᴴ A + beta C in the named triangle, alpha and beta real; Trans is taken as
    /// ConjTrans
    herk(uplo: UpLo, trans: Trans, alpha: Self::Real, a: &[Self], va: View, beta: Self::Real, c: &mut [Self], vc: View)
        zb_dherk zb_sherk zb_zherk [flag uplo, flag trans, real alpha, read a va, real beta, write c vc];
    /// C ← alpha (A Bᵀ + B Aᵀ) + beta C or alpha (Aᵀ B + Bᵀ A) + beta C in the named triangle; ConjTrans is taken as
    /// Trans
    syr2k(uplo: UpLo, trans: Trans, alpha: Self, a: &[Self], va: View, b: &[Self], vb: View, beta: Self,
        c: &mut [Self], vc: View)
        zb_dsyr2k zb_ssyr2k zb_zsyr2k
        [flag uplo, flag trans, number alpha, read a va, read b vb, number beta, write c vc];
    /// C ← alpha A Bᴴ + conj(alpha) B Aᴴ + beta C or alpha Aᴴ B + conj(alpha) Bᴴ A + beta C in the named triangle, beta
    /// real; Trans is taken as ConjTrans
    her2k(uplo: UpLo, trans: Trans, alpha: Self, a: &[Self], va: View, b: &[Self], vb: View, beta: Self::Real,
        c: &mut [Self], vc: View)
        zb_dher2k zb_sher2k zb_zher2k
        [flag uplo, flag trans, number alpha, read a va, read b vb, real beta, write c vc];
    /// B ← alpha op(A) B (Left) or alpha B op(A) (Right), A triangular
    trmm(side: Side, uplo: UpLo, trans: Trans, diag: Diag, alpha: Self, a: &[Self], va: View, b: &mut [Self], vb: View)
        zb_dtrmm zb_strmm zb_ztrmm [flag side, flag uplo, flag trans, flag diag, number alpha, read a va, write b vb];
    /// op(A) X = alpha B (Left) or X op(A) = alpha B (Right) solved in B's place, A triangular
    ///
    /// After [`Refusal::Singular`] a left solve has solved the first column's rows that come before the first zero
    /// pivot in solving order, and touched nothing else. A right solve has multiplied all of B by alpha, and solved
    /// the columns that come before that pivot in solving order. [`Refusal::Singular`] has the orders and an
    /// example.
    trsm(side: Side, uplo: UpLo, trans: Trans, diag: Diag, alpha: Self, a: &[Self], va: View, b: &mut [Self], vb: View)
        zb_dtrsm zb_strsm zb_ztrsm [flag side, flag uplo, flag trans, flag diag, number alpha, read a va, write b vb];
}
