//! The card calls as one would write them in Rust, behind C functions of the names and the arguments that ours have, so
//! that a call of one can be timed beside a call of the other.

use super::{BLOCK, LARGEST, SUM};
use std::slice::{from_raw_parts, from_raw_parts_mut};

const NUMBERS: usize = 63;

/// # Safety
/// The pointers are to so much memory as is told.
#[inline(never)]
pub unsafe extern "C" fn zb_card_read(
    card: *const u8,
    card_len: usize,
    slab: *mut f64,
    slab_len: usize,
    kind: *mut u8,
    rows: *mut u64,
    cols: *mut u64,
) -> u8 {
    unsafe {
        match read(from_raw_parts(card, card_len), from_raw_parts_mut(slab, slab_len)) {
            Ok(shape) => {
                (*kind, *rows, *cols) = shape;
                0
            }
            Err(answer) => answer,
        }
    }
}

macro_rules! writer {
    ($name:ident $kind:literal) => {
        /// # Safety
        /// The pointers are to so much memory as is told.
        #[inline(never)]
        pub unsafe extern "C" fn $name(
            rows: u64,
            cols: u64,
            slab: *const f64,
            slab_len: usize,
            card: *mut u8,
            card_len: usize,
            length: *mut u64,
        ) -> u8 {
            unsafe {
                match write($kind, rows, cols, from_raw_parts(slab, slab_len), from_raw_parts_mut(card, card_len)) {
                    Ok(written) => {
                        *length = written;
                        0
                    }
                    Err(answer) => answer,
                }
            }
        }
    };
}

writer!(zb_dcard_write 0);
writer!(zb_zcard_write 1);

fn sum(block: &[u8]) -> [u8; 2] {
    block[..SUM].iter().fold(0u16, |sum, &byte| sum.wrapping_add(u16::from(byte))).to_le_bytes()
}

fn read(card: &[u8], slab: &mut [f64]) -> Result<(u8, u64, u64), u8> {
    let blocks = card.chunks_exact(BLOCK);
    if !blocks.remainder().is_empty() || blocks.clone().any(|block| block[SUM..] != sum(block)) {
        return Err(6);
    }
    let (kind, rows, cols) = shape(card).ok_or(7)?;
    let count = (rows * cols) << kind;
    let data = card[BLOCK..].chunks_exact(BLOCK);
    if data.len() as u64 != count.div_ceil(NUMBERS as u64) {
        return Err(7);
    }
    let mut rest = count as usize;
    for (k, block) in data.clone().enumerate() {
        let used = rest.min(NUMBERS);
        rest -= used;
        if k >= 65_535 || block[504..506] != (k as u16 + 1).to_le_bytes() || !is_blank(block, 8 * used) {
            return Err(7);
        }
    }
    if rows > LARGEST || cols > LARGEST {
        return Err(1);
    }
    let slab = slab.get_mut(..count as usize).ok_or(2)?;
    for (numbers, block) in slab.chunks_mut(NUMBERS).zip(data) {
        for (number, bytes) in numbers.iter_mut().zip(block.chunks_exact(8)) {
            *number = f64::from_le_bytes(bytes.try_into().unwrap());
        }
    }
    Ok((kind, rows, cols))
}

/// Kind, rows and columns of a right header.
fn shape(card: &[u8]) -> Option<(u8, u64, u64)> {
    let header = card.get(..BLOCK)?;
    let size = |at: usize| u64::from(u16::from_le_bytes([header[at], header[at + 1]]));
    let right = header.starts_with(b"ARMM") && header[8] <= 1 && header[9..SUM].iter().all(|&byte| byte == 0);
    right.then(|| (header[8], size(4), size(6)))
}

/// Are a data block's bytes past its numbers zero, but for k and the sum?
fn is_blank(block: &[u8], used: usize) -> bool {
    block[used..504].iter().all(|&byte| byte == 0) && block[506..SUM] == [0; 4]
}

fn write(kind: u8, rows: u64, cols: u64, slab: &[f64], card: &mut [u8]) -> Result<u64, u8> {
    if rows > LARGEST || cols > LARGEST {
        return Err(1);
    }
    let count = ((rows * cols) << kind) as usize;
    let length = BLOCK * (1 + count.div_ceil(NUMBERS));
    let (slab, card) = slab.get(..count).zip(card.get_mut(..length)).ok_or(2)?;
    let (header, data) = card.split_at_mut(BLOCK);
    header.fill(0);
    header[..4].copy_from_slice(b"ARMM");
    (header[4], header[6], header[8]) = (rows as u8, cols as u8, kind);
    let stored = sum(header);
    header[SUM..].copy_from_slice(&stored);
    for (k, (block, numbers)) in data.chunks_exact_mut(BLOCK).zip(slab.chunks(NUMBERS)).enumerate() {
        for (bytes, number) in block.chunks_exact_mut(8).zip(numbers) {
            let bits = if number.is_nan() { super::NAN } else { number.to_bits() };
            bytes.copy_from_slice(&bits.to_le_bytes());
        }
        block[8 * numbers.len()..].fill(0);
        block[504..506].copy_from_slice(&(k as u16 + 1).to_le_bytes());
        let stored = sum(block);
        block[SUM..].copy_from_slice(&stored);
    }
    Ok(length as u64)
}
