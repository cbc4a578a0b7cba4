//! Numbers to compute with, by their bits.

use crate::call::Kind;
use crate::random::Random;

/// Where a slab's numbers come from.
#[derive(Clone, Copy, Debug, PartialEq, Eq)]
pub enum Pool {
    /// Small whole numbers.
    Whole,
    /// Numbers with a full significand and a small exponent.
    Fine,
    /// Fine ones, with every special number among them.
    Mixed,
    /// Any bits.
    Any,
    /// Zeros and ones of either sign, and little else.
    Zeros,
}

pub const POOLS: [Pool; 8] =
    [Pool::Whole, Pool::Fine, Pool::Mixed, Pool::Fine, Pool::Any, Pool::Mixed, Pool::Zeros, Pool::Whole];

const SPECIAL64: [u64; 16] = [
    0x7ff8_0000_0000_0000, // NaN
    0xfff8_0000_0000_0001, // NaN with a sign and a payload
    0x7ff0_0000_0000_0000, // infinity
    0xfff0_0000_0000_0000,
    0x0000_0000_0000_0000, // zero
    0x8000_0000_0000_0000,
    0x0000_0000_0000_0001, // the least subnormal
    0x8000_0000_0000_0001,
    0x000f_ffff_ffff_ffff, // the largest subnormal
    0x800f_ffff_ffff_ffff,
    0x0010_0000_0000_0000, // the least normal
    0x7fef_ffff_ffff_ffff, // the largest
    0xffef_ffff_ffff_ffff,
    0x3ff0_0000_0000_0001, // next above one
    0x3fef_ffff_ffff_ffff, // next below one
    0x1ff0_0000_0000_0000, // 2^-512: its square is subnormal or zero
];

const SPECIAL32: [u64; 16] = [
    0x7fc0_0000,
    0xffc0_0001,
    0x7f80_0000,
    0xff80_0000,
    0x0000_0000,
    0x8000_0000,
    0x0000_0001,
    0x8000_0001,
    0x007f_ffff,
    0x807f_ffff,
    0x0080_0000,
    0x7f7f_ffff,
    0xff7f_ffff,
    0x3f80_0001,
    0x3f7f_ffff,
    0x2000_0000,
];

/// Every special number of the kind's cells.
pub fn specials(kind: Kind) -> [u64; 16] {
    if kind == Kind::F32 { SPECIAL32 } else { SPECIAL64 }
}

fn fine(rng: &mut Random, kind: Kind) -> u64 {
    let (bits, exponent) = (rng.bits(), rng.below(7));
    match kind {
        Kind::F32 => (bits >> 63 << 31) | ((124 + exponent) << 23) | (bits & 0x7f_ffff),
        _ => (bits >> 63 << 63) | ((1020 + exponent) << 52) | (bits & 0xf_ffff_ffff_ffff),
    }
}

/// One cell.
pub fn cell(rng: &mut Random, kind: Kind, pool: Pool) -> u64 {
    match pool {
        Pool::Whole => kind.cell(rng.between(-9, 9) as f64),
        Pool::Fine => fine(rng, kind),
        Pool::Mixed if rng.once_in(4) => rng.pick(&specials(kind)),
        Pool::Mixed => fine(rng, kind),
        Pool::Any if kind == Kind::F32 => rng.bits() >> 32,
        Pool::Any => rng.bits(),
        Pool::Zeros => {
            let number = rng.pick(&[0.0, -0.0, 0.0, -0.0, 1.0, -1.0, 2.0, f64::INFINITY]);
            kind.cell(number)
        }
    }
}

/// A scalar's two cells: often one of the numbers that a kernel tests for.
pub fn scalar(rng: &mut Random, kind: Kind, pool: Pool) -> [u64; 2] {
    let parts = match rng.below(12) {
        0 | 1 => [1.0, 0.0],
        2 => [0.0, 0.0],
        3 => [-0.0, 0.0],
        4 => [1.0, -0.0],
        5 => [-1.0, 0.0],
        6 => [0.0, 1.0],
        7 => [2.0, -3.0],
        _ => return [cell(rng, kind, pool), cell(rng, kind, pool)],
    };
    parts.map(|part| kind.cell(part))
}
