//! The card functions of the C interface, for as many as the archive has, and the Rust's of the same arguments.

use super::reference;
use super::{Action, CardCall};
use std::hint::black_box;

pub type ReadFunction = unsafe extern "C" fn(*const u8, usize, *mut f64, usize, *mut u8, *mut u64, *mut u64) -> u8;
pub type WriteFunction = unsafe extern "C" fn(u64, u64, *const f64, usize, *mut u8, usize, *mut u64) -> u8;

/// A set of functions; a writer for each kind.
pub struct Functions {
    pub read: Option<ReadFunction>,
    pub write: [Option<WriteFunction>; 2],
}

/// The function, where it is linked.
macro_rules! linked {
    ($function:ident $name:ident($($parameter:ty),*)) => {{
        #[cfg($name)]
        unsafe extern "C" {
            fn $name($(_: $parameter),*) -> u8;
        }
        #[cfg($name)]
        let function: Option<$function> = Some($name);
        #[cfg(not($name))]
        let function: Option<$function> = None;
        function
    }};
}

pub const OURS: Functions = Functions {
    read: linked!(ReadFunction zb_card_read(*const u8, usize, *mut f64, usize, *mut u8, *mut u64, *mut u64)),
    write: [
        linked!(WriteFunction zb_dcard_write(u64, u64, *const f64, usize, *mut u8, usize, *mut u64)),
        linked!(WriteFunction zb_zcard_write(u64, u64, *const f64, usize, *mut u8, usize, *mut u64)),
    ],
};

/// The Rust's.
pub const THEIRS: Functions = Functions {
    read: Some(reference::zb_card_read),
    write: [Some(reference::zb_dcard_write), Some(reference::zb_zcard_write)],
};

/// How many of the three functions are linked.
pub fn linked() -> usize {
    usize::from(OURS.read.is_some()) + OURS.write.iter().flatten().count()
}

/// Bytes before and behind the card, and numbers before and behind the slab, which no call may write. The card begins
/// at an odd place.
const GUARD_BYTES: usize = 37;
const GUARD_NUMBERS: usize = 4;
const GUARD_BYTE: u8 = 0x5a;
const GUARD_NUMBER: u64 = 0x5a5a_5a5a_5a5a_5a5a;

/// Runs the call through the C interface; no answer where the function is not linked.
pub fn answer(call: &mut CardCall) -> Option<u8> {
    answer_of(&OURS, call)
}

/// Runs the call through one of the functions on memory between guards; a guard that has changed ends the program.
pub fn answer_of(functions: &Functions, call: &mut CardCall) -> Option<u8> {
    let guard = [GUARD_NUMBER; GUARD_NUMBERS];
    let numbers = [&guard, call.slab.as_slice(), &guard].concat();
    let mut slab: Vec<f64> = numbers.iter().map(|&bits| f64::from_bits(bits)).collect();
    let mut card = [&[GUARD_BYTE; GUARD_BYTES], call.card.as_slice(), &[GUARD_BYTE; GUARD_BYTES]].concat();
    let given = run(functions, call, &mut slab, &mut card)?;
    let slab: Vec<u64> = slab.into_iter().map(f64::to_bits).collect();
    call.slab = without_guards(slab, GUARD_NUMBERS, GUARD_NUMBER);
    call.card = without_guards(card, GUARD_BYTES, GUARD_BYTE);
    Some(given)
}

/// Calls the function on what lies between the guards.
fn run(functions: &Functions, call: &mut CardCall, slab: &mut [f64], card: &mut [u8]) -> Option<u8> {
    let (numbers, bytes) = (call.slab.len(), call.card.len());
    let (slab, card) = (slab[GUARD_NUMBERS..].as_mut_ptr(), card[GUARD_BYTES..].as_mut_ptr());
    let handed = &mut call.handed;
    match call.action {
        Action::Read => {
            let read = black_box(functions.read?);
            Some(unsafe { read(card, bytes, slab, numbers, &mut handed.kind, &mut handed.rows, &mut handed.cols) })
        }
        Action::Write { kind, rows, cols } => {
            let write = black_box(functions.write[usize::from(kind)]?);
            Some(unsafe { write(rows, cols, slab, numbers, card, bytes, &mut handed.length) })
        }
    }
}

/// What lies between the guards, which have to be as they were.
fn without_guards<T: Copy + PartialEq>(cells: Vec<T>, guard: usize, value: T) -> Vec<T> {
    let (before, rest) = cells.split_at(guard);
    let (between, behind) = rest.split_at(rest.len() - guard);
    assert!(before.iter().chain(behind).all(|&cell| cell == value), "a write beside the lent memory");
    between.to_vec()
}
