//! The C interface, for as many of its functions as the archive has, which the build tells; and the Rust's functions of
//! the same arguments, called in the same way.

use crate::call::{Call, Kind, Routine, View};
#[cfg(reference)]
use crate::reference;
#[cfg(any(reference, capi))]
use std::hint::black_box;

/// Cells before and behind each slab, which no call may write.
const GUARD: usize = 4;

/// A call's arguments.
pub struct Arguments<C> {
    pub flags: [u8; 4],
    pub scalars: [C; 4],
    pub views: [View; 3],
    pub slabs: [(*mut C, usize); 3],
}

impl<C: Copy + Default> Arguments<C> {
    /// The call's arguments, on the given slabs.
    pub fn of(call: &Call, cell: fn(u64) -> C, slabs: &[(*mut C, usize)]) -> Self {
        let mut arguments =
            Arguments { flags: [0; 4], scalars: [C::default(); 4], views: [call.views[0]; 3], slabs: [slabs[0]; 3] };
        arguments.flags[..call.flags.len()].copy_from_slice(&call.flags);
        for (to, from) in arguments.scalars.iter_mut().zip(call.scalars()) {
            *to = cell(from);
        }
        arguments.views[..call.views.len()].copy_from_slice(&call.views);
        arguments.slabs[..slabs.len()].copy_from_slice(slabs);
        arguments
    }
}

/// A call's arguments, handed out in order.
struct Hand<'a, C> {
    from: &'a Arguments<C>,
    flag: usize,
    scalar: usize,
    view: usize,
}

/// Used by those functions that are linked.
#[allow(dead_code)]
impl<C: Copy> Hand<'_, C> {
    fn flag(&mut self) -> u8 {
        self.flag += 1;
        self.from.flags[self.flag - 1]
    }

    fn scalar(&mut self) -> C {
        self.scalar += 1;
        self.from.scalars[self.scalar - 1]
    }

    /// The pointer, the first of a view's arguments.
    fn pointer(&mut self) -> *mut C {
        self.view += 1;
        self.from.slabs[self.view - 1].0
    }

    fn length(&self) -> usize {
        self.from.slabs[self.view - 1].1
    }

    fn shape(&self) -> View {
        self.from.views[self.view - 1]
    }
}

/// Hands every function of the interface to a macro: the routine, the name and the arguments, of which `f` is a flag,
/// `s` a scalar, `v` a view that is only read, `w` the target.
macro_rules! functions {
    ($take:ident) => {
        $take! {
            call_f64 theirs_f64 LINKED_F64 f64 f64;
            Gemv zb_dgemv f s v v s w;
            Hemv zb_dhemv f s v v s w;
            Her zb_dher f s v w;
            Her2 zb_dher2 f s v v w;
            Trmv zb_dtrmv f f f v w;
            Trsv zb_dtrsv f f f v w;
            Gemm zb_dgemm f f s v v s w;
            Symm zb_dsymm f f s v v s w;
            Hemm zb_dhemm f f s v v s w;
            Syrk zb_dsyrk f f s v s w;
            Herk zb_dherk f f s v s w;
            Syr2k zb_dsyr2k f f s v v s w;
            Her2k zb_dher2k f f s v v s w;
            Trmm zb_dtrmm f f f f s v w;
            Trsm zb_dtrsm f f f f s v w;
        }
        $take! {
            call_f32 theirs_f32 LINKED_F32 f32 f32;
            Gemv zb_sgemv f s v v s w;
            Hemv zb_shemv f s v v s w;
            Her zb_sher f s v w;
            Her2 zb_sher2 f s v v w;
            Trmv zb_strmv f f f v w;
            Trsv zb_strsv f f f v w;
            Gemm zb_sgemm f f s v v s w;
            Symm zb_ssymm f f s v v s w;
            Hemm zb_shemm f f s v v s w;
            Syrk zb_ssyrk f f s v s w;
            Herk zb_sherk f f s v s w;
            Syr2k zb_ssyr2k f f s v v s w;
            Her2k zb_sher2k f f s v v s w;
            Trmm zb_strmm f f f f s v w;
            Trsm zb_strsm f f f f s v w;
        }
        $take! {
            call_complex theirs_complex LINKED_COMPLEX f64 Complex;
            Gemv zb_zgemv f s s v v s s w;
            Hemv zb_zhemv f s s v v s s w;
            Her zb_zher f s v w;
            Her2 zb_zher2 f s s v v w;
            Trmv zb_ztrmv f f f v w;
            Trsv zb_ztrsv f f f v w;
            Gemm zb_zgemm f f s s v v s s w;
            Symm zb_zsymm f f s s v v s s w;
            Hemm zb_zhemm f f s s v v s s w;
            Syrk zb_zsyrk f f s s v s s w;
            Herk zb_zherk f f s v s w;
            Syr2k zb_zsyr2k f f s s v v s s w;
            Her2k zb_zher2k f f s s v v s w;
            Trmm zb_ztrmm f f f f s s v w;
            Trsm zb_ztrsm f f f f s s v w;
        }
    };
}
#[cfg(reference)]
pub(crate) use functions;

/// Calls the functions of one kind: ours, which it declares, and the Rust's. Both are called by pointers of one type,
/// behind which the compiler does not see.
macro_rules! interface {
    ($call:ident $theirs:ident $linked:ident $cell:ident $element:ident;
     $($routine:ident $name:ident $($letter:ident)*;)*) => {
        const $linked: [bool; 15] = [$(cfg!($name)),*];

        /// Our function's answer; none where it is not linked.
        #[allow(unused_mut)]
        fn $call(routine: Routine, arguments: &Arguments<$cell>) -> Option<u8> {
            let mut hand = Hand { from: arguments, flag: 0, scalar: 0, view: 0 };
            match routine {
                $(Routine::$routine => {
                    #[cfg($name)]
                    {
                        interface!(@types (@declare $name) $cell; []; $($letter)*);
                        let function: interface!(@types (@pointer) $cell; []; $($letter)*) = $name;
                        interface!(@call function hand; []; $($letter)*)
                    }
                    #[cfg(not($name))]
                    {
                        let _ = hand;
                        None
                    }
                })*
            }
        }

        /// The answer of the Rust's function.
        #[cfg(reference)]
        fn $theirs(routine: Routine, arguments: &Arguments<$cell>) -> Option<u8> {
            let mut hand = Hand { from: arguments, flag: 0, scalar: 0, view: 0 };
            match routine {
                $(Routine::$routine => {
                    let function: interface!(@types (@pointer) $cell; []; $($letter)*) = reference::$name;
                    interface!(@call function hand; []; $($letter)*)
                })*
            }
        }
    };
    (@types $then:tt $cell:ident; [$($done:ty,)*]; f $($rest:ident)*) => {
        interface!(@types $then $cell; [$($done,)* u8,]; $($rest)*)
    };
    (@types $then:tt $cell:ident; [$($done:ty,)*]; s $($rest:ident)*) => {
        interface!(@types $then $cell; [$($done,)* $cell,]; $($rest)*)
    };
    (@types $then:tt $cell:ident; [$($done:ty,)*]; v $($rest:ident)*) => {
        interface!(@types $then $cell; [$($done,)* *const $cell, usize, u64, u64, u64, i64, i64,]; $($rest)*)
    };
    (@types $then:tt $cell:ident; [$($done:ty,)*]; w $($rest:ident)*) => {
        interface!(@types $then $cell; [$($done,)* *mut $cell, usize, u64, u64, u64, i64, i64,]; $($rest)*)
    };
    (@types ($($then:tt)*) $cell:ident; $done:tt;) => {
        interface!($($then)* $done)
    };
    (@declare $name:ident [$($done:ty,)*]) => {
        unsafe extern "C" {
            fn $name($(_: $done),*) -> u8;
        }
    };
    (@pointer [$($done:ty,)*]) => {
        unsafe extern "C" fn($($done),*) -> u8
    };
    (@call $function:ident $from:ident; [$($done:expr,)*]; f $($rest:ident)*) => {
        interface!(@call $function $from; [$($done,)* $from.flag(),]; $($rest)*)
    };
    (@call $function:ident $from:ident; [$($done:expr,)*]; s $($rest:ident)*) => {
        interface!(@call $function $from; [$($done,)* $from.scalar(),]; $($rest)*)
    };
    (@call $function:ident $from:ident; [$($done:expr,)*]; v $($rest:ident)*) => {
        interface!(@call $function $from; [$($done,)*]; w $($rest)*)
    };
    (@call $function:ident $from:ident; [$($done:expr,)*]; w $($rest:ident)*) => {
        interface!(@call $function $from; [
            $($done,)*
            $from.pointer(),
            $from.length(),
            $from.shape().start,
            $from.shape().rows,
            $from.shape().cols,
            $from.shape().row_stride,
            $from.shape().col_stride,
        ]; $($rest)*)
    };
    (@call $function:ident $from:ident; [$($done:expr,)*];) => {
        Some(unsafe { black_box($function)($($done),*) })
    };
}

functions!(interface);

/// Calls the routine's function; no answer where it is not linked.
pub type Run<C> = fn(Routine, &Arguments<C>) -> Option<u8>;

/// A set of functions, by kind.
pub struct Functions {
    pub f64: Run<f64>,
    pub f32: Run<f32>,
    pub complex: Run<f64>,
}

pub const OURS: Functions = Functions { f64: call_f64, f32: call_f32, complex: call_complex };

/// The Rust's, which test nothing.
#[cfg(reference)]
pub const THEIRS: Functions = Functions { f64: theirs_f64, f32: theirs_f32, complex: theirs_complex };

/// Is the function linked?
pub fn is_linked(routine: Routine, kind: Kind) -> bool {
    [LINKED_F64, LINKED_F32, LINKED_COMPLEX][kind as usize][routine as usize]
}

/// How many of the 45 functions are linked.
pub fn linked() -> usize {
    Kind::ALL.iter().flat_map(|&kind| Routine::ALL.map(|routine| is_linked(routine, kind))).filter(|&on| on).count()
}

/// Runs the call through the C interface; no answer where the function is not linked.
pub fn answer(call: &mut Call) -> Option<u8> {
    answer_of(&OURS, call)
}

/// Runs the call through one of the functions.
pub fn answer_of(functions: &Functions, call: &mut Call) -> Option<u8> {
    match call.kind {
        Kind::F64 => guarded(call, f64::from_bits, f64::to_bits, functions.f64),
        Kind::F32 => guarded(call, |cell| f32::from_bits(cell as u32), |cell| u64::from(cell.to_bits()), functions.f32),
        Kind::Complex => guarded(call, f64::from_bits, f64::to_bits, functions.complex),
    }
}

/// Runs the call on slabs between guards; a guard that has changed ends the program.
fn guarded<C: Copy + Default>(call: &mut Call, cell: fn(u64) -> C, bits: fn(C) -> u64, run: Run<C>) -> Option<u8> {
    let guard = [cell(0x5a5a_5a5a_5a5a_5a5a); GUARD];
    let surround = |slab: &Vec<u64>| {
        let cells: Vec<C> = slab.iter().map(|&bits| cell(bits)).collect();
        [&guard, cells.as_slice(), &guard].concat()
    };
    let mut buffers: Vec<Vec<C>> = call.slabs.iter().map(surround).collect();
    let slabs: Vec<(*mut C, usize)> =
        buffers.iter_mut().map(|buffer| (buffer[GUARD..].as_mut_ptr(), buffer.len() - 2 * GUARD)).collect();
    let given = run(call.routine, &Arguments::of(call, cell, &slabs))?;
    for (buffer, slab) in buffers.into_iter().zip(&mut call.slabs) {
        let cells: Vec<u64> = buffer.into_iter().map(bits).collect();
        let (before, behind) = (&cells[..GUARD], &cells[cells.len() - GUARD..]);
        assert!(before.iter().chain(behind).all(|&cell| cell == bits(guard[0])), "a write beside a slab");
        slab.copy_from_slice(&cells[GUARD..cells.len() - GUARD]);
    }
    Some(given)
}
