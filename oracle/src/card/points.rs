//! Card calls with a name: the points settled about cards, each by its smallest input. Each is given with its answer
//! and with what it leaves.

use super::{BLOCK, CardCall, Handed, NAN, card, seal};

pub struct Point {
    pub name: &'static str,
    pub before: CardCall,
    pub answer: u8,
    pub after: CardCall,
}

/// What every number of a slab is before a reading call.
pub const OLD_NUMBER: u64 = 0xc053_5000_0000_0000;
/// What every byte of a buffer is before a writing call.
pub const OLD_BYTE: u8 = 0xa5;

const F64: u8 = 0;
const COMPLEX: u8 = 1;
const MINUS_ZERO: u64 = 1 << 63;
const ONE: u64 = 0x3ff0_0000_0000_0000;
const TWO: u64 = 0x4000_0000_0000_0000;
/// Its bytes sum to 2,024, so that those of a full block pass 65,535.
const LOWEST: u64 = 0xffef_ffff_ffff_ffff;

/// A reading call on a slab of so many numbers.
pub fn reading(file: &[u8], slab: usize) -> CardCall {
    CardCall::read(file.to_vec(), vec![OLD_NUMBER; slab])
}

/// A reading call that is refused.
fn refused(name: &'static str, file: &[u8], slab: usize, answer: u8) -> Point {
    let before = reading(file, slab);
    Point { name, after: before.clone(), before, answer }
}

/// A reading call that is accepted, with the numbers that it leaves at the front of the slab.
fn accepted(name: &'static str, file: &[u8], slab: usize, shape: (u8, u64, u64), numbers: &[u64]) -> Point {
    let before = reading(file, slab);
    let mut after = before.clone();
    after.slab[..numbers.len()].copy_from_slice(numbers);
    after.handed = Handed { kind: shape.0, rows: shape.1, cols: shape.2, ..Handed::BEFORE };
    Point { name, before, answer: 0, after }
}

/// A writing call on a buffer of so many bytes.
pub fn writing((kind, rows, cols): (u8, u64, u64), slab: &[u64], buffer: usize) -> CardCall {
    CardCall::write(kind, rows, cols, slab.to_vec(), vec![OLD_BYTE; buffer])
}

fn unwritten(name: &'static str, shape: (u8, u64, u64), slab: &[u64], buffer: usize, answer: u8) -> Point {
    let before = writing(shape, slab, buffer);
    Point { name, after: before.clone(), before, answer }
}

fn written(name: &'static str, shape: (u8, u64, u64), slab: &[u64], buffer: usize, file: &[u8]) -> Point {
    let before = writing(shape, slab, buffer);
    let mut after = before.clone();
    after.card[..file.len()].copy_from_slice(file);
    after.handed = Handed { length: file.len() as u64, ..Handed::BEFORE };
    Point { name, before, answer: 0, after }
}

/// The file with one byte of a block changed and the sum made anew.
fn with(file: &[u8], block: usize, byte: usize, value: u8) -> Vec<u8> {
    let mut file = file.to_vec();
    file[BLOCK * block + byte] = value;
    seal(&mut file[BLOCK * block..][..BLOCK]);
    file
}

/// The file with a byte of a block made one larger and the sum left.
fn torn(file: &[u8], block: usize, byte: usize) -> Vec<u8> {
    let mut file = file.to_vec();
    file[BLOCK * block + byte] += 1;
    file
}

fn behind(file: &[u8], more: &[u8]) -> Vec<u8> {
    [file, more].concat()
}

/// The points whose files are short.
pub fn points() -> Vec<Point> {
    [lengths(), order(), departures(), sizes(), numbers(), slabs(), writers()].into_iter().flatten().collect()
}

fn lengths() -> Vec<Point> {
    let good = card(F64, 1, 1, &[ONE]);
    vec![
        refused("an empty file", &[], 4, 7),
        refused("one byte", &[0], 4, 6),
        refused("one byte too few", &good[..1023], 4, 6),
        refused("one byte too many", &behind(&good, &[0]), 4, 6),
        refused("a block of zeros", &[0; BLOCK], 4, 7),
        refused("a block of ones", &[1; BLOCK], 4, 6),
        refused("a block too many, of ones", &behind(&good, &[1; BLOCK]), 4, 6),
        refused("a block too many, of zeros", &behind(&good, &[0; BLOCK]), 4, 7),
        refused("a block too many, a copy", &behind(&good, &good[BLOCK..]), 4, 7),
        refused("a block too many, with the next k", &behind(&good, &with(&good, 1, 504, 2)[BLOCK..]), 4, 7),
        refused("a card twice", &behind(&good, &good), 4, 7),
        refused("the header missing", &good[BLOCK..], 4, 7),
        refused("the header alone", &good[..BLOCK], 4, 7),
        refused("64 numbers in one data block", &card(F64, 1, 64, &[ONE; 63]), 70, 7),
    ]
}

/// Calls that meet two refusals.
fn order() -> Vec<Point> {
    let two = card(F64, 1, 64, &[ONE; 64]);
    let large = card(F64, 65, 1, &[ONE; 65]);
    let wrong_large = with(&large, 1, 504, 2);
    vec![
        refused("wrong k in block 1, torn block 2", &torn(&with(&two, 1, 504, 2), 2, 0), 70, 6),
        refused("wrong letters, torn block 2", &torn(&with(&two, 0, 3, b'N'), 2, SUM_HIGH), 70, 6),
        refused("wrong letters, a part of a block", &with(&two, 0, 3, b'N')[..1030], 70, 6),
        refused("torn block 1, wrong k in block 2", &torn(&with(&two, 2, 504, 3), 1, 0), 70, 6),
        refused("oversize and wrong k", &wrong_large, 70, 7),
        refused("oversize and torn", &torn(&large, 2, 0), 70, 6),
        refused("oversize, wrong k and a short slab", &wrong_large, 0, 7),
        refused("oversize and a short slab", &large, 0, 1),
        refused("wrong k and a short slab", &with(&two, 2, 504, 1), 0, 7),
        refused("torn and a short slab", &torn(&two, 2, 7), 63, 6),
    ]
}

const SUM_HIGH: usize = 511;

fn departures() -> Vec<Point> {
    let good = card(F64, 1, 1, &[ONE]);
    let swapped = {
        let two = card(F64, 1, 64, &[ONE; 64]);
        [&two[..BLOCK], &two[2 * BLOCK..], &two[BLOCK..2 * BLOCK]].concat()
    };
    vec![
        refused("-0 past the matrix", &with(&good, 1, 503, 0x80), 4, 7),
        refused("a byte past the matrix", &with(&good, 1, 8, 1), 4, 7),
        refused("kind 2", &with(&good, 0, 8, 2), 4, 7),
        refused("kind 255", &with(&good, 0, 8, 255), 4, 7),
        refused("ARMN", &with(&good, 0, 3, b'N'), 4, 7),
        refused("aRMM", &with(&good, 0, 0, b'a'), 4, 7),
        refused("header's byte 9", &with(&good, 0, 9, 1), 4, 7),
        refused("header's byte 504", &with(&good, 0, 504, 1), 4, 7),
        refused("header's byte 509", &with(&good, 0, 509, 1), 4, 7),
        refused("data block's byte 506", &with(&good, 1, 506, 1), 4, 7),
        refused("data block's byte 509", &with(&good, 1, 509, 1), 4, 7),
        refused("k is 0", &with(&good, 1, 504, 0), 4, 7),
        refused("k is 257", &with(&good, 1, 505, 1), 4, 7),
        refused("two data blocks exchanged", &swapped, 70, 7),
        refused("a number of +0 torn", &torn(&card(F64, 1, 1, &[0]), 1, 0), 4, 6),
        refused("the sum's low byte", &torn(&good, 1, 510), 4, 6),
        refused("the sum's high byte", &torn(&good, 0, SUM_HIGH), 4, 6),
    ]
}

fn sizes() -> Vec<Point> {
    let large = card(F64, 65, 1, &[ONE; 65]);
    let numbers: Vec<u64> = (0..128).map(|n| f64::from(n).to_bits()).collect();
    vec![
        refused("65 by 1", &large, 70, 1),
        refused("65 by 1 with one data block", &large[..2 * BLOCK], 70, 7),
        refused("1 by 65 complex", &card(COMPLEX, 1, 65, &[ONE; 130]), 140, 1),
        refused("1 by 65 complex with the blocks of f64", &card(COMPLEX, 1, 65, &[ONE; 65]), 140, 7),
        refused("256 by 256, the header alone", &card(F64, 256, 256, &[]), 0, 7),
        refused("33,025 by 65,026 complex, 2^32 + 4 numbers, with 4", &card(COMPLEX, 33_025, 65_026, &[ONE; 4]), 4, 7),
        refused("0 by 65", &card(F64, 0, 65, &[]), 0, 1),
        refused("65,535 by 0 complex", &card(COMPLEX, 65_535, 0, &[]), 0, 1),
        refused("0 by 5 with a data block", &card(F64, 0, 5, &[0]), 0, 7),
        accepted("0 by 5", &card(F64, 0, 5, &[]), 0, (F64, 0, 5), &[]),
        accepted("0 by 5 on a slab", &card(F64, 0, 5, &[]), 3, (F64, 0, 5), &[]),
        accepted("64 by 0 complex", &card(COMPLEX, 64, 0, &[]), 1, (COMPLEX, 64, 0), &[]),
        accepted("0 by 0", &card(F64, 0, 0, &[]), 0, (F64, 0, 0), &[]),
        accepted("7 by 9", &card(F64, 7, 9, &numbers[..63]), 63, (F64, 7, 9), &numbers[..63]),
        accepted("64 by 1", &card(F64, 64, 1, &numbers[..64]), 65, (F64, 64, 1), &numbers[..64]),
        accepted("2 by 63", &card(F64, 2, 63, &numbers[..126]), 126, (F64, 2, 63), &numbers[..126]),
        accepted("9 by 7 complex", &card(COMPLEX, 9, 7, &numbers[..126]), 127, (COMPLEX, 9, 7), &numbers[..126]),
        accepted("1 by 64 complex", &card(COMPLEX, 1, 64, &numbers), 128, (COMPLEX, 1, 64), &numbers),
    ]
}

fn numbers() -> Vec<Point> {
    let one = |bits: u64| card(F64, 1, 1, &[bits]);
    let full = [LOWEST; 63];
    vec![
        accepted("a NaN with the least payload", &one(0x7ff0_0000_0000_0001), 2, (F64, 1, 1), &[NAN]),
        accepted("a NaN of ones", &one(u64::MAX), 1, (F64, 1, 1), &[NAN]),
        accepted("the written NaN", &one(NAN), 1, (F64, 1, 1), &[NAN]),
        accepted("-0", &one(MINUS_ZERO), 1, (F64, 1, 1), &[MINUS_ZERO]),
        accepted("a sum past 65,535", &card(F64, 63, 1, &full), 63, (F64, 63, 1), &full),
        written("a NaN with the least payload, written", (F64, 1, 1), &[0x7ff0_0000_0000_0001], 1024, &one(NAN)),
        written("a NaN of ones, written", (F64, 1, 1), &[u64::MAX], 1024, &one(NAN)),
        written("-0, written", (F64, 1, 1), &[MINUS_ZERO], 1024, &one(MINUS_ZERO)),
        written("a sum past 65,535, written", (F64, 63, 1), &full, 1024, &card(F64, 63, 1, &full)),
    ]
}

fn slabs() -> Vec<Point> {
    let (real, complex) = (card(F64, 1, 1, &[ONE]), card(COMPLEX, 1, 1, &[ONE, TWO]));
    vec![
        accepted("1 by 1", &real, 1, (F64, 1, 1), &[ONE]),
        accepted("1 by 1 on a longer slab", &real, 5, (F64, 1, 1), &[ONE]),
        refused("1 by 1 on an empty slab", &real, 0, 2),
        refused("1 by 1 complex on a slab of 1", &complex, 1, 2),
        accepted("1 by 1 complex on a slab of 2", &complex, 2, (COMPLEX, 1, 1), &[ONE, TWO]),
        accepted("1 by 1 complex on a slab of 3", &complex, 3, (COMPLEX, 1, 1), &[ONE, TWO]),
        refused("2 by 1 complex on a slab of 3", &card(COMPLEX, 2, 1, &[ONE; 4]), 3, 2),
    ]
}

fn writers() -> Vec<Point> {
    let (real, complex) = (card(F64, 1, 1, &[ONE]), card(COMPLEX, 1, 1, &[ONE, TWO]));
    let (five, two) = (card(F64, 0, 5, &[]), card(F64, 1, 64, &[ONE; 64]));
    vec![
        written("1 by 1, 1,024 bytes", (F64, 1, 1), &[ONE], 1024, &real),
        unwritten("1 by 1, 1,023 bytes", (F64, 1, 1), &[ONE], 1023, 2),
        written("1 by 1 on longer memory", (F64, 1, 1), &[ONE, TWO], 1030, &real),
        unwritten("1 by 1 from an empty slab", (F64, 1, 1), &[], 1024, 2),
        written("1 by 1 complex", (COMPLEX, 1, 1), &[ONE, TWO], 1024, &complex),
        written("1 by 1 complex from a slab of 3", (COMPLEX, 1, 1), &[ONE, TWO, ONE], 1536, &complex),
        unwritten("1 by 1 complex from a slab of 1", (COMPLEX, 1, 1), &[ONE], 1024, 2),
        written("0 by 5, written", (F64, 0, 5), &[], 512, &five),
        unwritten("0 by 5, 511 bytes", (F64, 0, 5), &[], 511, 2),
        unwritten("0 by 65, written", (F64, 0, 65), &[], 512, 1),
        unwritten("65 by 1 from nothing to nothing", (F64, 65, 1), &[], 0, 1),
        unwritten("2^63 by 2", (F64, 1 << 63, 2), &[ONE], 1024, 1),
        unwritten("2^63 by 1 complex", (COMPLEX, 1 << 63, 1), &[ONE], 1024, 1),
        unwritten("0 by 2^64 - 1 complex", (COMPLEX, 0, u64::MAX), &[], 512, 1),
        unwritten("65,537 by 1", (F64, 65_537, 1), &[ONE], 1024, 1),
        written("1 by 64, written", (F64, 1, 64), &[ONE; 64], 1536, &two),
        unwritten("1 by 64, 1,535 bytes", (F64, 1, 64), &[ONE; 64], 1535, 2),
        unwritten("64 by 64 from 144 numbers", (F64, 64, 64), &[ONE; 144], 1024, 2),
    ]
}

/// 65,535 by 64: the file of 34 MB has every block that it needs and k modulo 65,536, and is wrong.
pub fn largest() -> Point {
    refused("65,535 by 64", &card(F64, 65_535, 64, &vec![ONE; 65_535 * 64]), 4, 7)
}
