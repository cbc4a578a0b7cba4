//! Matrices on cards: files of blocks of 512 bytes.
//!
//! Block 0 names the shape and the kind, each block after it holds 63 numbers by their bits, and every block ends in
//! the sum of its bytes; include/zirve_blas.h of the repository has each byte's place. A matrix has no
//! [`View`](crate::View) here: it fills the front of its slab by rows, a complex element being two numbers, its real
//! and its imaginary part. The slab past the matrix, and the buffer past a written card, stay as they are.
//!
//! A card that is written and read back gives the same shape, kind and bits, save those of a NaN: one that is written
//! has the bits 7ff8000000000000, one that is read any bits of a NaN.
//!
//! ```
//! use zirve_blas::card::{self, Header, Kind, Refusal};
//!
//! fn main() -> Result<(), Refusal> {
//!     let matrix = [1.0, 2.0, 3.0, 4.0, 5.0, 6.0];
//!     let mut bytes = [0; card::length(Kind::Real, 2, 3)];
//!     assert_eq!(card::write(Kind::Real, 2, 3, &matrix, &mut bytes)?, 1024);
//!
//!     let mut slab = [0.0; 7];
//!     assert_eq!(card::read(&bytes, &mut slab)?, Header { kind: Kind::Real, rows: 2, cols: 3 });
//!     assert_eq!(slab, [1.0, 2.0, 3.0, 4.0, 5.0, 6.0, 0.0]);
//!
//!     bytes[600] ^= 1;
//!     assert_eq!(card::read(&bytes, &mut slab), Err(Refusal::Torn));
//!     Ok(())
//! }
//! ```

use core::{error, fmt};

/// The bytes of a block.
const BLOCK: u64 = 512;

/// The numbers of a data block.
const IN_BLOCK: u64 = 63;

/// What the elements of a card's matrix are.
#[derive(Clone, Copy, Debug, PartialEq, Eq)]
#[repr(u8)]
pub enum Kind {
    /// A number each.
    Real,
    /// Two numbers each, the real and the imaginary part.
    Complex,
}

impl Kind {
    fn of(byte: u8) -> Kind {
        match byte {
            0 => Kind::Real,
            1 => Kind::Complex,
            _ => unreachable!("a card that is read is of kind 0 or 1"),
        }
    }
}

/// What block 0 of a card names.
#[derive(Clone, Copy, Debug, PartialEq, Eq)]
pub struct Header {
    /// The kind of the elements.
    pub kind: Kind,
    /// The number of rows.
    pub rows: u64,
    /// The number of columns.
    pub cols: u64,
}

/// Why a card was not read or not written. A refused call has changed nothing. The numbers are those of the C
/// interface.
///
/// [`read`] judges [`Torn`](Refusal::Torn) over all blocks, then [`Wrong`](Refusal::Wrong), then
/// [`TooLarge`](Refusal::TooLarge), then [`TooShort`](Refusal::TooShort); [`write`](fn@write) judges the last two in
/// that order.
#[derive(Clone, Copy, Debug, PartialEq, Eq)]
#[repr(u8)]
pub enum Refusal {
    /// The matrix has more than 64 rows or columns.
    TooLarge = 1,
    /// The slab, or the buffer for the card, is too short.
    TooShort = 2,
    /// A block's sum fails, or the length is no whole number of blocks.
    Torn = 6,
    /// Any other departure from the form of a card; no bytes at all are one.
    Wrong = 7,
}

impl Refusal {
    /// The number: 1, 2, 6 or 7.
    pub const fn number(self) -> u8 {
        self as u8
    }

    fn of(answer: u8) -> Result<(), Refusal> {
        match answer {
            0 => Ok(()),
            1 => Err(Refusal::TooLarge),
            2 => Err(Refusal::TooShort),
            6 => Err(Refusal::Torn),
            7 => Err(Refusal::Wrong),
            _ => unreachable!("the functions for cards answer 0, 1, 2, 6 or 7"),
        }
    }
}

impl fmt::Display for Refusal {
    fn fmt(&self, f: &mut fmt::Formatter<'_>) -> fmt::Result {
        f.write_str(match self {
            Refusal::TooLarge => "the matrix has more than 64 rows or columns",
            Refusal::TooShort => "the slab or the card's buffer is too short",
            Refusal::Torn => "torn card",
            Refusal::Wrong => "wrong card",
        })
    }
}

impl error::Error for Refusal {}

/// The bytes of the card of a matrix. Every shape may be asked for; a length over `usize::MAX` is taken as that bound.
///
/// ```
/// use zirve_blas::card::{length, Kind};
/// assert_eq!([length(Kind::Real, 9, 7), length(Kind::Complex, 9, 7), length(Kind::Real, 0, 7)], [1024, 1536, 512]);
/// ```
pub const fn length(kind: Kind, rows: u64, cols: u64) -> usize {
    let numbers = rows.saturating_mul(cols).saturating_mul(kind as u64 + 1);
    let bytes = numbers.div_ceil(IN_BLOCK).saturating_add(1).saturating_mul(BLOCK);
    if bytes > usize::MAX as u64 {
        usize::MAX
    } else {
        bytes as usize
    }
}

/// Reads a card of either kind into the front of the slab, and gives its kind and shape.
///
/// ```
/// use zirve_blas::card::{read, Refusal};
/// let mut slab = [0.0; 4];
/// assert_eq!(read(&[], &mut slab), Err(Refusal::Wrong));
/// assert_eq!(read(&[0; 511], &mut slab), Err(Refusal::Torn));
/// ```
#[inline]
pub fn read(card: &[u8], slab: &mut [f64]) -> Result<Header, Refusal> {
    extern "C" {
        fn zb_card_read(
            card: *const u8,
            card_len: usize,
            slab: *mut f64,
            slab_len: usize,
            kind: *mut u8,
            rows: *mut u64,
            cols: *mut u64,
        ) -> u8;
    }
    let (mut kind, mut rows, mut cols) = (0, 0, 0);
    // SAFETY: the pointers and lengths are those of slices, counted in bytes and in numbers, and of three variables,
    // and all that may be written is lent alone. The function asks nothing else of its arguments, reads and writes
    // nothing but these, and answers for all of them.
    let answer = unsafe {
        zb_card_read(card.as_ptr(), card.len(), slab.as_mut_ptr(), slab.len(), &mut kind, &mut rows, &mut cols)
    };
    Refusal::of(answer)?;
    Ok(Header { kind: Kind::of(kind), rows, cols })
}

/// Writes the matrix in the front of the slab to a card in the front of the buffer, and gives the card's length, which
/// is [`length`] of the same arguments.
#[inline]
pub fn write(kind: Kind, rows: u64, cols: u64, slab: &[f64], card: &mut [u8]) -> Result<usize, Refusal> {
    type Write = unsafe extern "C" fn(u64, u64, *const f64, usize, *mut u8, usize, *mut u64) -> u8;
    extern "C" {
        fn zb_dcard_write(r: u64, c: u64, s: *const f64, n: usize, card: *mut u8, room: usize, length: *mut u64) -> u8;
        fn zb_zcard_write(r: u64, c: u64, s: *const f64, n: usize, card: *mut u8, room: usize, length: *mut u64) -> u8;
    }
    let function: Write = match kind {
        Kind::Real => zb_dcard_write,
        Kind::Complex => zb_zcard_write,
    };
    let mut length = 0;
    // SAFETY: the pointers and lengths are those of slices, counted in numbers and in bytes, and of a variable, and all
    // that may be written is lent alone. The function asks nothing else of its arguments, reads and writes nothing but
    // these, and answers for all of them.
    let answer = unsafe { function(rows, cols, slab.as_ptr(), slab.len(), card.as_mut_ptr(), card.len(), &mut length) };
    Refusal::of(answer)?;
    Ok(length as usize)
}
