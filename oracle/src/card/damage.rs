//! Ways to damage a card. One that a card has no place for leaves it as it is.

// Some lengthen or shorten the card; all are of one type.
#![allow(clippy::ptr_arg)]

use super::generate::{Shape, small};
use super::{BLOCK, SUM, count, data_blocks, seal};
use crate::random::Random;

/// A way to damage a card.
#[derive(Clone, Copy)]
pub struct Damage {
    pub name: &'static str,
    pub on: fn(&mut Random, &mut Vec<u8>),
}

pub const DAMAGES: [Damage; 24] = [
    Damage { name: "a byte", on: any_byte },
    Damage { name: "a byte, the sum made anew", on: any_byte_sealed },
    Damage { name: "a sum", on: a_sum },
    Damage { name: "a sum's bytes exchanged", on: sum_exchanged },
    Damage { name: "a block cut", on: block_cut },
    Damage { name: "a block doubled", on: block_doubled },
    Damage { name: "two blocks swapped", on: blocks_swapped },
    Damage { name: "zeros added", on: |_, card| card.extend([0; BLOCK]) },
    Damage { name: "ones added", on: |_, card| card.extend([1; BLOCK]) },
    Damage { name: "a copy added", on: copy_added },
    Damage { name: "the next block added", on: next_added },
    Damage { name: "a part of a block added", on: part_added },
    Damage { name: "a part of a block cut", on: part_cut },
    Damage { name: "a wrong k", on: wrong_k },
    Damage { name: "other letters", on: other_letters },
    Damage { name: "a kind above 1", on: kind_above },
    Damage { name: "the other kind", on: other_kind },
    Damage { name: "the header's rest", on: header_rest },
    Damage { name: "a number past the matrix", on: past_matrix },
    Damage { name: "-0 past the matrix", on: minus_zero_past },
    Damage { name: "a data block's rest", on: data_rest },
    Damage { name: "another shape", on: other_shape },
    Damage { name: "a shape whose count wraps", on: wrapping_shape },
    Damage { name: "the last block torn behind a wrong k", on: torn_behind },
];

/// A whole block's number, from `first`.
fn some_block(rng: &mut Random, card: &[u8], first: usize) -> Option<usize> {
    let blocks = card.len() / BLOCK;
    (blocks > first).then(|| first + rng.below((blocks - first) as u64) as usize)
}

fn block(card: &mut [u8], k: usize) -> &mut [u8] {
    &mut card[BLOCK * k..BLOCK * (k + 1)]
}

/// Puts the byte and makes the sum anew.
fn put(card: &mut [u8], k: usize, byte: usize, value: u8) {
    let block = block(card, k);
    block[byte] = value;
    seal(block);
}

/// Another value than the byte has.
fn other(rng: &mut Random, byte: u8) -> u8 {
    if rng.once_in(3) { byte ^ (1 << rng.below(8)) } else { byte.wrapping_add(1 + rng.below(255) as u8) }
}

fn any_byte(rng: &mut Random, card: &mut Vec<u8>) {
    if !card.is_empty() {
        let at = rng.below(card.len() as u64) as usize;
        card[at] = other(rng, card[at]);
    }
}

fn any_byte_sealed(rng: &mut Random, card: &mut Vec<u8>) {
    if let Some(k) = some_block(rng, card, 0) {
        let byte = rng.below(SUM as u64) as usize;
        let value = other(rng, card[BLOCK * k + byte]);
        put(card, k, byte, value);
    }
}

fn a_sum(rng: &mut Random, card: &mut Vec<u8>) {
    if let Some(k) = some_block(rng, card, 0) {
        let at = BLOCK * k + rng.pick(&[SUM, SUM + 1]);
        card[at] = other(rng, card[at]);
    }
}

fn sum_exchanged(rng: &mut Random, card: &mut Vec<u8>) {
    if let Some(k) = some_block(rng, card, 0) {
        block(card, k).swap(SUM, SUM + 1);
    }
}

fn block_cut(rng: &mut Random, card: &mut Vec<u8>) {
    if let Some(k) = some_block(rng, card, 0) {
        card.drain(BLOCK * k..BLOCK * (k + 1));
    }
}

fn block_doubled(rng: &mut Random, card: &mut Vec<u8>) {
    if let Some(k) = some_block(rng, card, 0) {
        let copy = block(card, k).to_vec();
        card.splice(BLOCK * k..BLOCK * k, copy);
    }
}

fn blocks_swapped(rng: &mut Random, card: &mut Vec<u8>) {
    if let Some((i, j)) = some_block(rng, card, 0).zip(some_block(rng, card, 1)) {
        let (one, two) = (block(card, i).to_vec(), block(card, j).to_vec());
        block(card, i).copy_from_slice(&two);
        block(card, j).copy_from_slice(&one);
    }
}

fn copy_added(rng: &mut Random, card: &mut Vec<u8>) {
    if let Some(k) = some_block(rng, card, 0) {
        let copy = block(card, k).to_vec();
        card.extend(copy);
    }
}

/// Adds a data block without numbers that has the next k.
fn next_added(_: &mut Random, card: &mut Vec<u8>) {
    let k = card.len() / BLOCK;
    let mut next = [0; BLOCK];
    next[504..506].copy_from_slice(&(k as u16).to_le_bytes());
    seal(&mut next);
    card.extend(next);
}

/// Bytes that are less than a block.
fn part_of_block(rng: &mut Random) -> usize {
    let any = 1 + rng.below(511) as usize;
    rng.pick(&[1, 8, 256, 511, any])
}

fn part_added(rng: &mut Random, card: &mut Vec<u8>) {
    let part = part_of_block(rng);
    card.extend(vec![rng.below(2) as u8; part]);
}

fn part_cut(rng: &mut Random, card: &mut Vec<u8>) {
    let part = part_of_block(rng);
    card.truncate(card.len().saturating_sub(part));
}

fn wrong_k(rng: &mut Random, card: &mut Vec<u8>) {
    if let Some(k) = some_block(rng, card, 1) {
        let byte = rng.pick(&[504, 504, 505]);
        let value = card[BLOCK * k + byte];
        let any = other(rng, value);
        let value = rng.pick(&[value.wrapping_add(1), value.wrapping_sub(1), any]);
        put(card, k, byte, value);
    }
}

fn other_letters(rng: &mut Random, card: &mut Vec<u8>) {
    if card.len() >= BLOCK {
        let letters = rng.pick(&[*b"armm", *b"MMRA", *b"ARMN", *b"BRMM", *b"ASMM", *b"ARNM", [0; 4]]);
        card[..4].copy_from_slice(&letters);
        seal(block(card, 0));
    }
}

fn kind_above(rng: &mut Random, card: &mut Vec<u8>) {
    if card.len() >= BLOCK {
        let kind = rng.pick(&[2, 3, 128, 129, 255]);
        put(card, 0, 8, kind);
    }
}

fn other_kind(_: &mut Random, card: &mut Vec<u8>) {
    if card.len() >= BLOCK {
        let kind = card[8] ^ 1;
        put(card, 0, 8, kind);
    }
}

fn header_rest(rng: &mut Random, card: &mut Vec<u8>) {
    if card.len() >= BLOCK {
        let any = 9 + rng.below(501) as usize;
        let byte = rng.pick(&[9, 10, 503, 504, 505, 509, any]);
        let value = 1 + rng.below(255) as u8;
        put(card, 0, byte, value);
    }
}

/// Where the last block's numbers end, by the header's shape.
fn end_of_matrix(card: &[u8]) -> Option<usize> {
    let blocks = (card.len() / BLOCK) as u64;
    let size = |at: usize| card.get(at..at + 2).map(|bytes| u64::from(u16::from_le_bytes([bytes[0], bytes[1]])));
    let count = count(*card.get(8)?, size(4)?, size(6)?);
    (blocks > 1 && blocks == 1 + data_blocks(count)).then(|| 8 * ((count - 1) % 63 + 1) as usize)
}

fn past_matrix(rng: &mut Random, card: &mut Vec<u8>) {
    if let Some(end) = end_of_matrix(card).filter(|&end| end < 504) {
        let any = end + rng.below((504 - end) as u64) as usize;
        let (byte, value) = (rng.pick(&[end, 503, any]), 1 + rng.below(255) as u8);
        let last = card.len() / BLOCK - 1;
        put(card, last, byte, value);
    }
}

fn minus_zero_past(rng: &mut Random, card: &mut Vec<u8>) {
    if let Some(end) = end_of_matrix(card).filter(|&end| end < 504) {
        let byte = rng.pick(&[end + 7, 503]);
        let last = card.len() / BLOCK - 1;
        put(card, last, byte, 0x80);
    }
}

fn data_rest(rng: &mut Random, card: &mut Vec<u8>) {
    if let Some(k) = some_block(rng, card, 1) {
        let (byte, value) = (506 + rng.below(4) as usize, 1 + rng.below(255) as u8);
        put(card, k, byte, value);
    }
}

/// Puts rows and columns into the header.
fn put_shape(card: &mut [u8], (rows, cols): Shape) {
    if card.len() >= BLOCK {
        card[4..6].copy_from_slice(&rows.to_le_bytes());
        card[6..8].copy_from_slice(&cols.to_le_bytes());
        seal(block(card, 0));
    }
}

fn other_shape(rng: &mut Random, card: &mut Vec<u8>) {
    let Some(&[a, b, c, d]) = card.get(4..8) else { return };
    let (rows, cols) = (u16::from_le_bytes([a, b]), u16::from_le_bytes([c, d]));
    let shape = match rng.below(6) {
        0 => (cols, rows),
        1 => (rows.wrapping_add(1), cols),
        2 => (rows, cols.wrapping_sub(1)),
        3 => (rows, rng.pick(&[0, 64, 65, 256, 65_535])),
        4 => (u16::from_be_bytes([a, b]), u16::from_be_bytes([c, d])),
        _ => small(rng),
    };
    put_shape(card, shape);
}

/// A shape whose count of numbers is small modulo 65,536, on the blocks that so small a count needs.
fn wrapping_shape(rng: &mut Random, card: &mut Vec<u8>) {
    let shape = rng.pick(&[(256, 256), (512, 128), (1024, 64), (32_768, 2)]);
    card.truncate(BLOCK);
    put_shape(card, shape);
}

fn torn_behind(rng: &mut Random, card: &mut Vec<u8>) {
    wrong_k(rng, card);
    if let Some(last) = (card.len() / BLOCK).checked_sub(1) {
        let at = BLOCK * last + rng.below(BLOCK as u64) as usize;
        card[at] = other(rng, card[at]);
    }
}
