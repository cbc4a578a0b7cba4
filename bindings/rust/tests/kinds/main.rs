//! The routines and refusals in each number kind, by the functions of the numbers and by `ProvedBlas`.

mod model;
mod refusals;
mod routines;

use zirve_blas::{Diag, Side, Trans, UpLo};

const TRANS: [Trans; 3] = [Trans::NoTrans, Trans::Trans, Trans::ConjTrans];
const UPLO: [UpLo; 2] = [UpLo::Upper, UpLo::Lower];
const DIAG: [Diag; 2] = [Diag::NonUnit, Diag::Unit];
const SIDE: [Side; 2] = [Side::Left, Side::Right];

/// Each setting of two flags.
fn pairs<A: Copy, B: Copy>(first: &[A], second: &[B]) -> Vec<(A, B)> {
    first.iter().flat_map(|&a| second.iter().map(move |&b| (a, b))).collect()
}

/// Runs each of the functions in each number kind.
macro_rules! every_kind {
    ($($name:ident)*) => {
        $(mod $name {
            #[test]
            fn f64() {
                super::$name::<f64>();
            }

            #[test]
            fn f32() {
                super::$name::<f32>();
            }

            #[test]
            fn complex() {
                super::$name::<zirve_blas::Complex>();
            }
        })*
    };
}
use every_kind;

/// The call by both ways, each on a target of its own: flags and alpha, what is read, beta; the target before the call
/// and its slab afterwards; the answer, which is `Ok(())` where none is given.
macro_rules! both {
    ($call:ident::$routine:ident($($arg:tt)*), $target:expr) => {
        both!($call::$routine($($arg)*), $target, Ok(()))
    };
    ($kind:ident::$routine:ident($($lead:expr),*; $($read:ident),*; $($beta:expr)?), $target:expr, $answer:expr) => {{
        let (mut first, slab) = $target;
        let mut second = first.clone();
        let answer = $kind::$routine(
            $($lead,)* $(&$read.slab, $read.view,)* $($beta,)? &mut first.slab, first.view);
        assert_eq!((answer, &first.slab), ($answer, &slab));
        let answer = ProvedBlas::$routine($($lead,)* $(&$read,)* $($beta,)? &mut second);
        assert_eq!((answer, &second.slab), ($answer, &slab));
    }};
}
use both;
