//! Generated card calls, each drawn from a seed and a number alone; only the judge says what a call answers.

use super::damage::DAMAGES;
use super::{BLOCK, CardCall, card, count, data_blocks};
use crate::call::Kind;
use crate::random::Random;
use crate::value::{self, POOLS};

pub type Shape = (u16, u16);

/// Shapes whose numbers end before, at and behind the end of a block, in one kind or in both.
pub const EDGES: [Shape; 22] = [
    (1, 31),
    (31, 1),
    (32, 1),
    (4, 8),
    (1, 62),
    (62, 1),
    (1, 63),
    (63, 1),
    (7, 9),
    (21, 3),
    (1, 64),
    (64, 1),
    (8, 8),
    (5, 13),
    (5, 25),
    (2, 63),
    (63, 2),
    (6, 21),
    (14, 9),
    (2, 64),
    (64, 2),
    (16, 12),
];

/// Shapes that are refused, with few blocks.
pub const OVERSIZE: [Shape; 11] =
    [(65, 1), (1, 65), (0, 65), (65, 0), (66, 3), (100, 2), (1, 256), (256, 1), (70, 9), (65_535, 0), (0, 65_535)];

const OVERSIZE_LONG: [Shape; 4] = [(65, 64), (64, 65), (65, 65), (65_535, 1)];

const NANS: [u64; 7] = [
    0x7ff8_0000_0000_0000,
    0x7ff0_0000_0000_0001,
    0xfff0_0000_0000_0001,
    0xfff8_0000_0000_0000,
    0x7ff8_dead_beef_0001,
    0x7fff_ffff_ffff_ffff,
    0xffff_ffff_ffff_ffff,
];

/// Rows or columns of a writing call.
const SIZES: [u64; 16] = [0, 0, 1, 1, 2, 3, 5, 63, 64, 65, 66, 65_536, 65_537, 1 << 32, 1 << 63, u64::MAX];

/// Rows and columns of at most 5.
pub fn small(rng: &mut Random) -> Shape {
    (rng.below(6) as u16, rng.below(6) as u16)
}

/// A shape; most are small, and one in nine is refused.
fn shape(rng: &mut Random) -> Shape {
    match rng.below(18) {
        0..=7 => small(rng),
        8..=12 => rng.pick(&EDGES),
        13 => (rng.below(65) as u16, rng.below(8) as u16),
        14 => (rng.below(8) as u16, rng.below(65) as u16),
        15 if rng.once_in(4) => (64 - rng.below(20) as u16, 64 - rng.below(65) as u16),
        15 => rng.pick(&[(64, 64), (64, 3), (3, 64), (13, 13), (20, 20)]),
        16 if rng.once_in(30) => rng.pick(&OVERSIZE_LONG),
        _ => rng.pick(&OVERSIZE),
    }
}

/// So many numbers: of one pool, in one of three draws with NaNs of several patterns among them, in one of twelve all
/// with bytes that make the sums pass 65,535.
pub fn numbers(rng: &mut Random, count: u64) -> Vec<u64> {
    let (pool, style) = (rng.pick(&POOLS), rng.below(12));
    let number = |rng: &mut Random| match style {
        0..=3 if rng.once_in(4) => rng.pick(&NANS),
        4 => rng.pick(&[0xffef_ffff_ffff_ffff, 0xffff_ffff_ffff_ffff, 0xbfff_ffff_ffff_ffff]),
        _ => value::cell(rng, Kind::F64, pool),
    };
    (0..count).map(|_| number(rng)).collect()
}

/// A card without a departure; its shape may be too large.
pub fn good(rng: &mut Random, kind: u8, (rows, cols): Shape) -> Vec<u8> {
    let numbers = numbers(rng, count(kind, rows.into(), cols.into()));
    card(kind, rows, cols, &numbers)
}

/// A length near the one that is needed: as often as not the same, else longer or shorter.
pub fn near(rng: &mut Random, needed: u64, step: u64) -> u64 {
    match rng.below(12) {
        0..=5 => needed,
        6 => needed + 1,
        7 => needed + rng.below(step + 2),
        8 => needed.saturating_sub(1),
        9 => needed.saturating_sub(step),
        10 => rng.below(needed + 1),
        _ => rng.pick(&[0, needed / 2, needed + step]),
    }
}

/// A reading call on the card, whose slab is near what the shape needs.
pub fn reading(rng: &mut Random, kind: u8, shape: Shape, card: Vec<u8>) -> CardCall {
    let needed = count(kind, shape.0.into(), shape.1.into()).min(count(1, 64, 64));
    let length = near(rng, needed, 2);
    CardCall::read(card, numbers(rng, length))
}

/// A writing call on memory near what the shape needs, or near nothing where it is refused.
pub fn writing(rng: &mut Random, kind: u8, rows: u64, cols: u64) -> CardCall {
    let needed = if rows.max(cols) <= 64 { count(kind, rows, cols) } else { rng.below(4) };
    let slab = near(rng, needed, 2);
    let buffer = near(rng, BLOCK as u64 * (1 + data_blocks(needed)), BLOCK as u64);
    let old = rng.bits() as u8;
    CardCall::write(kind, rows, cols, numbers(rng, slab), vec![old; buffer as usize])
}

/// Rows and columns of a writing call: those of a card, or any.
pub fn any_size(rng: &mut Random) -> (u64, u64) {
    if rng.once_in(4) {
        return (rng.pick(&SIZES), rng.pick(&SIZES));
    }
    let (rows, cols) = shape(rng);
    (rows.into(), cols.into())
}

/// The n-th of many calls: of six four read, kinds in turn. Of seven reading calls about four are damaged, one of them
/// twice.
pub fn nth(seed: u64, n: u64) -> CardCall {
    let rng = &mut Random::new(seed ^ n.wrapping_mul(0xd134_2543_de82_ef95));
    let kind = (n % 2) as u8;
    if n % 6 >= 4 {
        let (rows, cols) = any_size(rng);
        return writing(rng, kind, rows, cols);
    }
    let shape = shape(rng);
    let mut card = good(rng, kind, shape);
    for _ in 0..rng.pick(&[0, 0, 0, 1, 1, 1, 2]) {
        let damage = rng.pick(&DAMAGES);
        (damage.on)(rng, &mut card);
    }
    reading(rng, kind, shape, card)
}

/// So many calls from a seed.
pub fn many(calls: u64, seed: u64) -> impl Iterator<Item = CardCall> {
    (0..calls).map(move |n| nth(seed, n))
}
