//! Netlib's reference BLAS on the same calls and slabs, where the build finds it: matrices by columns, vectors of any
//! stride. Its functions take pointers alone, so that one caller serves all.

use crate::call::Routine::*;
use crate::call::{Call, Factor, Flag, Kind, Routine, View};
use crate::capi::{Arguments, Functions, answer_of};
use std::cell::Cell;

/// A Fortran function, before the number of its arguments is known.
type Function = unsafe extern "C" fn();

/// Gives the routine's function in each kind; a real kind has the symmetric routine for the Hermitian one.
macro_rules! functions {
    ($($routine:ident $f64:ident $f32:ident $complex:ident;)*) => {
        fn function(routine: Routine, kind: Kind) -> Function {
            match routine {
                $($routine => {
                    unsafe extern "C" {
                        fn $f64();
                        fn $f32();
                        fn $complex();
                    }
                    [$f64 as Function, $f32, $complex][kind as usize]
                })*
            }
        }
    };
}

functions! {
    Gemv dgemv_ sgemv_ zgemv_;
    Hemv dsymv_ ssymv_ zhemv_;
    Her dsyr_ ssyr_ zher_;
    Her2 dsyr2_ ssyr2_ zher2_;
    Trmv dtrmv_ strmv_ ztrmv_;
    Trsv dtrsv_ strsv_ ztrsv_;
    Gemm dgemm_ sgemm_ zgemm_;
    Symm dsymm_ ssymm_ zsymm_;
    Hemm dsymm_ ssymm_ zhemm_;
    Syrk dsyrk_ ssyrk_ zsyrk_;
    Herk dsyrk_ ssyrk_ zherk_;
    Syr2k dsyr2k_ ssyr2k_ zsyr2k_;
    Her2k dsyr2k_ ssyr2k_ zher2k_;
    Trmm dtrmm_ strmm_ ztrmm_;
    Trsm dtrsm_ strsm_ ztrsm_;
}

/// Calls the function with the words, each an address or a length.
macro_rules! apply {
    ($function:ident $words:ident; $($k:literal)*) => {{
        let function: unsafe extern "C" fn($(apply!(@word $k)),*) = std::mem::transmute($function);
        function($($words[$k]),*)
    }};
    (@word $k:literal) => { usize };
}

thread_local! {
    static ILLEGAL: Cell<i32> = const { Cell::new(0) };
}

/// In the place of the papers' error routine: notes the number of the argument that is refused.
#[unsafe(no_mangle)]
extern "C" fn xerbla_(_name: *const u8, argument: &i32, _length: usize) {
    ILLEGAL.set(*argument);
}

/// Netlib's, which answer 0 or the number of the illegal argument.
const NETLIB: Functions = Functions {
    f64: |routine, arguments| Some(run(routine, Kind::F64, arguments)),
    f32: |routine, arguments| Some(run(routine, Kind::F32, arguments)),
    complex: |routine, arguments| Some(run(routine, Kind::Complex, arguments)),
};

/// Runs the call in place: 0, or the number of the argument that Netlib refuses.
pub fn answer(call: &mut Call) -> Option<u8> {
    answer_of(&NETLIB, call)
}

/// The arguments stand in the papers' order: flags, sizes, alpha, what is read, beta, the target, and behind them the
/// lengths of the flags.
fn run<C>(routine: Routine, kind: Kind, arguments: &Arguments<C>) -> u8 {
    let views = &arguments.views[..routine.views()];
    let flags: Vec<u8> =
        routine.flags().iter().zip(arguments.flags).map(|(flag, value)| letter(*flag, value)).collect();
    let sizes = sizes(routine, &arguments.flags, views);
    let laid: Vec<(u64, i32)> = views.iter().enumerate().map(|(k, view)| laid(routine.is_vector(k), view)).collect();
    let matrix = |k: usize| {
        let first = arguments.slabs[k].0.wrapping_add(laid[k].0 as usize * kind.width());
        [first as usize, &raw const laid[k].1 as usize]
    };
    let scalar = |factor, at: usize| (factor != Factor::Nothing).then(|| &raw const arguments.scalars[at] as usize);
    let target = views.len() - 1;
    let mut words: Vec<usize> = flags.iter().map(|flag| &raw const *flag as usize).collect();
    words.extend(sizes.iter().map(|size| &raw const *size as usize));
    words.extend(scalar(routine.alpha(), 0));
    words.extend((0..target).flat_map(matrix));
    words.extend(scalar(routine.beta(), if routine.alpha() == Factor::Element { kind.width() } else { 1 }));
    words.extend(matrix(target));
    words.extend(flags.iter().map(|_| 1));
    let function = function(routine, kind);
    ILLEGAL.set(0);
    unsafe {
        match words.len() {
            8 => apply!(function words; 0 1 2 3 4 5 6 7),
            10 => apply!(function words; 0 1 2 3 4 5 6 7 8 9),
            11 => apply!(function words; 0 1 2 3 4 5 6 7 8 9 10),
            12 => apply!(function words; 0 1 2 3 4 5 6 7 8 9 10 11),
            14 => apply!(function words; 0 1 2 3 4 5 6 7 8 9 10 11 12 13),
            15 => apply!(function words; 0 1 2 3 4 5 6 7 8 9 10 11 12 13 14),
            words => unreachable!("no routine has {words} arguments"),
        }
    }
    ILLEGAL.get() as u8
}

fn letter(flag: Flag, value: u8) -> u8 {
    let letters: &[u8] = match flag {
        Flag::Side => b"LR",
        Flag::UpLo => b"UL",
        Flag::Trans => b"NTC",
        Flag::Diag => b"NU",
    };
    letters[usize::from(value)]
}

/// M, N and K, as many as the routine takes.
fn sizes(routine: Routine, flags: &[u8], views: &[View]) -> Vec<i32> {
    let (a, target) = (views[0], views[views.len() - 1]);
    let inner = |trans: u8| if trans == 0 { a.cols } else { a.rows };
    let sizes = match routine {
        Gemv => vec![a.rows, a.cols],
        Hemv | Trmv | Trsv => vec![a.rows],
        Her | Her2 => vec![target.rows],
        Gemm => vec![target.rows, target.cols, inner(flags[0])],
        Symm | Hemm | Trmm | Trsm => vec![target.rows, target.cols],
        Syrk | Herk | Syr2k | Her2k => vec![target.rows, inner(flags[1])],
    };
    sizes.into_iter().map(|size| size as i32).collect()
}

/// The place that Netlib is given, and a matrix's leading dimension or a vector's increment. A vector is given by its
/// lowest place, whatever its increment's sign, or by its slab's first where that is before it.
fn laid(vector: bool, view: &View) -> (u64, i32) {
    if vector {
        let (count, stride) =
            if view.rows >= view.cols { (view.rows, view.row_stride) } else { (view.cols, view.col_stride) };
        let reach = count.saturating_sub(1) as i64 * stride;
        return (view.start.saturating_add_signed(reach.min(0)), stride as i32);
    }
    assert!(view.row_stride == 1 || view.rows <= 1, "a matrix by columns");
    (view.start, view.col_stride as i32)
}
