//! Timings of cards: reading and writing the largest, by our functions where they are linked and by the Rust's.

use super::capi::{Functions, OURS, THEIRS, answer_of};
use super::compare::difference;
use super::{CardCall, Handed, answer, card, count};
use crate::bench::{SAMPLES, lines, median, ratio, rounds, sample};
use crate::call::Kind;
use crate::random::Random;
use crate::value::{self, Pool};
use std::hint::black_box;
use std::ptr::copy_nonoverlapping;

/// Rows and columns.
const N: u64 = 64;
const COMPLEX: u8 = 1;

/// Prints a row for reading and one for writing: the Rust's time divided by ours, then megabytes of card a second.
pub fn print() {
    let (reading, writing) = calls();
    println!(
        "Cards, {N} by {N} complex, {} bytes: Rust's time / ours, both through the C interface, then megabytes (10^6 bytes) of card a second, for scale those of memcpy too; medians of {SAMPLES} samples",
        reading.card.len()
    );
    println!();
    println!("| call | kind | Rust / ours | Rust | ours | memcpy |");
    println!("|---|---|---|---|---|---|");
    for (name, call) in [("read", reading), ("write", writing)] {
        let times = times(&call);
        let speed = |time: &Option<f64>| {
            time.map_or(" - |".to_string(), |time| format!(" {:.0} |", 1000.0 * call.card.len() as f64 / time))
        };
        let speeds: String = times.iter().map(speed).collect();
        println!("| {name} | complex |{}{speeds}", ratio(times[0], times[1]));
    }
}

/// The card read into its numbers' slab, and written from it.
fn calls() -> (CardCall, CardCall) {
    let rng = &mut Random::new(N);
    let numbers: Vec<u64> = (0..count(COMPLEX, N, N)).map(|_| value::cell(rng, Kind::F64, Pool::Fine)).collect();
    let card = card(COMPLEX, N as u16, N as u16, &numbers);
    (CardCall::read(card.clone(), numbers.clone()), CardCall::write(COMPLEX, N, N, numbers, card))
}

/// Medians in nanoseconds of the Rust's function, of ours and of a memcpy of the card. A function that gives something
/// else than the judge ends the program.
fn times(call: &CardCall) -> [Option<f64>; 3] {
    let numbers: Vec<f64> = call.slab.iter().map(|&bits| f64::from_bits(bits)).collect();
    let bytes: Vec<f64> = call.card.chunks(8).map(|word| f64::from_le_bytes(word.try_into().unwrap())).collect();
    let (mut slab, mut card) = (lines(&numbers), lines(&bytes));
    let mut copy = card.clone();
    let (slab, card, length) = (slab.as_mut_ptr().cast::<f64>(), card.as_mut_ptr().cast::<u8>(), call.card.len());
    let sides = [&THEIRS, &OURS];
    let there = sides.map(|functions| is_right(functions, call));
    let mut works = black_box(sides).map(|functions| move || run(functions, call, slab, card));
    let mut copies = || unsafe { copy_nonoverlapping(card, black_box(copy.as_mut_ptr().cast()), black_box(length)) };
    let rounds = rounds(&mut works[0]);
    let mut times = [const { Vec::new() }; 3];
    for _ in 0..SAMPLES {
        for k in (0..2).filter(|&k| there[k]) {
            times[k].push(sample(&mut works[k], rounds));
        }
        times[2].push(sample(&mut copies, rounds));
    }
    times.map(median)
}

/// Is the set's function there? It has to do what the judge does.
fn is_right(functions: &Functions, call: &CardCall) -> bool {
    let (mut ours, mut theirs) = (call.clone(), call.clone());
    let Some(given) = answer_of(functions, &mut theirs) else { return false };
    let judged = answer(&mut ours);
    assert_eq!(difference(call, (&ours, judged), (&theirs, given)), None);
    true
}

/// Makes the call once, on memory of the lengths that it has.
fn run(functions: &Functions, call: &CardCall, slab: *mut f64, card: *mut u8) {
    let (numbers, bytes, mut handed) = (call.slab.len(), call.card.len(), Handed::BEFORE);
    let Handed { kind, rows, cols, length } = black_box(&mut handed);
    let given = match functions {
        Functions { read: Some(read), .. } if call.is_reading() => unsafe {
            read(card, bytes, slab, numbers, kind, rows, cols)
        },
        Functions { write: [_, Some(write)], .. } => unsafe { write(N, N, slab, numbers, card, bytes, length) },
        _ => return,
    };
    black_box(given);
}
