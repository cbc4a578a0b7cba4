//! The Rust's kernels behind C functions of the names and the arguments that ours have, so that a call of one can be
//! timed beside a call of the other.

use crate::answer::{Scalars, kernel};
use crate::call::{Call, Routine};
use crate::capi::{THEIRS, answer_of, functions};
use crate::number::{Complex, Element};
use crate::storage::Pointer;

/// Defines functions. Of each argument it keeps the parameters and, in a list of their own, the flags, alpha's cells,
/// beta's cells and the views.
macro_rules! define {
    ($call:ident $theirs:ident $linked:ident $cell:ident $element:ident;
     $($routine:ident $name:ident $($letter:ident)*;)*) => {
        $(define!(@take $routine $name $cell $element; [] [] [] [] []; $($letter)*);)*
    };
    (@take $routine:ident $name:ident $cell:ident $element:ident;
     [$($parameter:tt)*] [$($flag:tt)*] $alpha:tt $beta:tt $views:tt; f $($rest:ident)*) => {
        define!(@take $routine $name $cell $element;
            [$($parameter)* flag: u8,] [$($flag)* flag,] $alpha $beta $views; $($rest)*);
    };
    // Alpha stands before the first view, beta behind it.
    (@take $routine:ident $name:ident $cell:ident $element:ident;
     [$($parameter:tt)*] $flags:tt [$($alpha:tt)*] $beta:tt []; s $($rest:ident)*) => {
        define!(@take $routine $name $cell $element;
            [$($parameter)* scalar: $cell,] $flags [$($alpha)* scalar.to_bits().into(),] $beta []; $($rest)*);
    };
    (@take $routine:ident $name:ident $cell:ident $element:ident;
     [$($parameter:tt)*] $flags:tt $alpha:tt [$($beta:tt)*] $views:tt; s $($rest:ident)*) => {
        define!(@take $routine $name $cell $element;
            [$($parameter)* scalar: $cell,] $flags $alpha [$($beta)* scalar.to_bits().into(),] $views; $($rest)*);
    };
    (@take $routine:ident $name:ident $cell:ident $element:ident;
     $parameters:tt $flags:tt $alpha:tt $beta:tt $views:tt; v $($rest:ident)*) => {
        define!(@view const $routine $name $cell $element; $parameters $flags $alpha $beta $views; $($rest)*);
    };
    (@take $routine:ident $name:ident $cell:ident $element:ident;
     $parameters:tt $flags:tt $alpha:tt $beta:tt $views:tt; w $($rest:ident)*) => {
        define!(@view mut $routine $name $cell $element; $parameters $flags $alpha $beta $views; $($rest)*);
    };
    (@view $access:tt $routine:ident $name:ident $cell:ident $element:ident;
     [$($parameter:tt)*] $flags:tt $alpha:tt $beta:tt [$($view:tt)*]; $($rest:ident)*) => {
        define!(@take $routine $name $cell $element; [
            $($parameter)*
            slab: *$access $cell,
            _length: usize,
            start: u64,
            rows: u64,
            cols: u64,
            row_stride: i64,
            col_stride: i64,
        ] $flags $alpha $beta [
            $($view)*
            Pointer {
                first: (slab as *mut $element).wrapping_add(start as usize),
                rows: rows as usize,
                cols: cols as usize,
                row_stride: row_stride as isize,
                col_stride: col_stride as isize,
            },
        ]; $($rest)*);
    };
    (@take $routine:ident $name:ident $cell:ident $element:ident;
     [$($parameter:tt)*] $flags:tt [$($alpha:tt)*] [$($beta:tt)*] $views:tt;) => {
        /// # Safety
        /// The call draws none of refusals 1 to 4.
        #[inline(never)]
        pub unsafe extern "C" fn $name($($parameter)*) -> u8 {
            let scalars = Scalars::<$element>::read(&[$($alpha)* 0, 0], &[$($beta)* 0, 0]);
            run(Routine::$routine, &$flags, scalars, $views)
        }
    };
}

functions!(define);

/// Runs the kernel over the views, of which the last is the target.
#[inline(always)]
fn run<T: Element, const N: usize>(
    routine: Routine,
    flags: &[u8],
    scalars: Scalars<T>,
    mut views: [Pointer<T>; N],
) -> u8 {
    let (target, read) = views.split_last_mut().unwrap();
    let done = kernel(routine, flags, scalars, &read[0], &read[read.len() - 1], target);
    if done.is_ok() { 0 } else { 5 }
}

/// Runs a call that draws none of refusals 1 to 4 through its function.
pub fn answer(call: &mut Call) -> Option<u8> {
    answer_of(&THEIRS, call)
}
