//! The fixed list of card calls and its bytes, as README.md describes them.

use super::compare::{ANSWERS, NAMES};
use super::damage::DAMAGES;
use super::generate::{self, EDGES, OVERSIZE, Shape, any_size, good, small};
use super::points::{OLD_BYTE, OLD_NUMBER, points};
use super::{Action, CardCall, Handed, NAN, answer, count, is_nan};
use crate::format::{LONGEST, bodies, file};
use crate::list::CELLS;
use crate::random::Random;

pub const NAME: &str = "card";
const SEED: u64 = 5;
/// Stands for the routine.
const CARD: u8 = 15;
/// The bytes of a body before its card and its numbers.
const HEAD: usize = 48;

/// A record: a call as it is before, its answer, and the call afterwards.
#[derive(Clone, Debug, PartialEq, Eq)]
pub struct Record {
    pub before: CardCall,
    pub answer: u8,
    pub after: CardCall,
}

impl Record {
    /// Runs the call on old numbers or old bytes; NaNs that are read are written in one form.
    fn of(mut before: CardCall) -> Self {
        match before.action {
            Action::Read => before.slab.fill(OLD_NUMBER),
            Action::Write { .. } => before.card.fill(OLD_BYTE),
        }
        let mut after = before.clone();
        let answer = answer(&mut after);
        if before.is_reading() {
            after.slab.iter_mut().filter(|bits| is_nan(**bits)).for_each(|bits| *bits = NAN);
        }
        Record { before, answer, after }
    }

    fn fits(&self) -> bool {
        self.before.slab.len() <= CELLS && HEAD + self.before.card.len() + 8 * self.before.slab.len() <= LONGEST
    }
}

/// Shapes of cards that are written, at a block's end in one kind or the other.
const WRITTEN: [Shape; 9] = [(0, 5), (1, 1), (31, 1), (4, 8), (62, 1), (7, 9), (8, 8), (2, 63), (2, 64)];

/// Every record.
pub fn records() -> Vec<Record> {
    let rng = &mut Random::new(SEED);
    let mut records: Vec<Record> = points().into_iter().map(|point| Record::of(point.before)).collect();
    for kind in [0, 1] {
        let short = |most: usize| move |shape: &Shape| numbers(kind, *shape) <= most as u64;
        let edges = EDGES.into_iter().filter(short(CELLS));
        records.extend(edges.map(|shape| read(rng, kind, |_| shape, 0)));
        records.extend((0..16).map(|_| read(rng, kind, small, 0)));
        for shape in OVERSIZE.into_iter().filter(short(130)) {
            records.extend((0..2).map(|_| read(rng, kind, |_| shape, 1)));
        }
        records.extend((0..12).map(|_| read(rng, kind, small, 2)));
        for damage in 0..DAMAGES.len() {
            records.extend((0..3).map(|_| damaged(rng, kind, &[damage], small)));
            if damage % 2 == usize::from(kind) {
                records.push(damaged(rng, kind, &[damage], |rng| rng.pick(&EDGES)));
            }
        }
        for _ in 0..10 {
            let ways = [0; 2].map(|_| rng.below(DAMAGES.len() as u64) as usize);
            records.push(damaged(rng, kind, &ways, small));
            records.push(damaged(rng, kind, &ways[..1], |rng| rng.pick(&OVERSIZE)));
        }
        let written = WRITTEN.into_iter().filter(short(CELLS));
        records.extend(written.map(|shape| write(rng, kind, |_| sizes(shape), 0)));
        records.extend((0..14).map(|_| write(rng, kind, |rng| sizes(small(rng)), 0)));
        records.extend((0..14).map(|_| write(rng, kind, any_size, 1)));
        records.extend((0..14).map(|_| write(rng, kind, |rng| sizes(small(rng)), 2)));
    }
    records
}

fn sizes((rows, cols): Shape) -> (u64, u64) {
    (rows.into(), cols.into())
}

fn numbers(kind: u8, shape: Shape) -> u64 {
    let (rows, cols) = sizes(shape);
    count(kind, rows, cols)
}

/// Calls until one fits in a record.
fn until_it_fits(mut next: impl FnMut() -> Option<CardCall>) -> Record {
    loop {
        if let Some(record) = next().map(Record::of).filter(Record::fits) {
            return record;
        }
    }
}

/// Reading a card without a departure, with the given answer.
fn read(rng: &mut Random, kind: u8, shape: impl Fn(&mut Random) -> Shape, aim: u8) -> Record {
    until_it_fits(|| {
        let shape = shape(rng);
        let card = good(rng, kind, shape);
        let mut call = generate::reading(rng, kind, shape, card);
        call.slab.truncate(CELLS);
        (answer(&mut call.clone()) == aim).then_some(call)
    })
}

/// Reading a card that is damaged in these ways, one after the other.
fn damaged(rng: &mut Random, kind: u8, ways: &[usize], shape: impl Fn(&mut Random) -> Shape) -> Record {
    until_it_fits(|| {
        let shape = shape(rng);
        let mut card = good(rng, kind, shape);
        let whole = card.clone();
        for &way in ways {
            (DAMAGES[way].on)(rng, &mut card);
        }
        (card != whole).then(|| generate::reading(rng, kind, shape, card))
    })
}

/// Writing with the given answer.
fn write(rng: &mut Random, kind: u8, shape: impl Fn(&mut Random) -> (u64, u64), aim: u8) -> Record {
    until_it_fits(|| {
        let (rows, cols) = shape(rng);
        let call = generate::writing(rng, kind, rows, cols);
        (answer(&mut call.clone()) == aim).then_some(call)
    })
}

/// A record's bytes without the length before them.
pub fn body(record: &Record) -> Vec<u8> {
    let Record { before, answer, after } = record;
    let Handed { kind, rows, cols, length } = after.handed;
    let accepted = *answer == 0;
    let words = match before.action {
        Action::Read if accepted => [rows, cols, kind.into()],
        Action::Read => [0; 3],
        Action::Write { rows, cols, .. } => [rows, cols, if accepted { length } else { 0 }],
    };
    let mut bytes = vec![CARD, 2 * before.kind(), *answer, u8::from(!before.is_reading()), 0, 0, 0, 0];
    for word in [&[before.slab.len() as u64], &words[..], &[before.card.len() as u64]].concat() {
        bytes.extend(word.to_le_bytes());
    }
    let numbers = after.slab.iter().flat_map(|bits| bits.to_le_bytes());
    match before.is_reading() {
        true => bytes.extend(after.card.iter().copied().chain(numbers)),
        false => bytes.extend(numbers.chain(after.card.iter().copied())),
    }
    bytes
}

/// The record of a body.
pub fn read_record(body: &[u8]) -> Record {
    assert!(body[0] == CARD && body[1].is_multiple_of(2) && body[4..8] == [0; 4]);
    let (kind, answer, reading) = (body[1] / 2, body[2], body[3] == 0);
    let word = |at: usize| u64::from_le_bytes(body[at..at + 8].try_into().unwrap());
    let [slab, rows, cols, handed, card] = [8, 16, 24, 32, 40].map(word);
    let (front, back) = body[HEAD..].split_at(if reading { card } else { 8 * slab } as usize);
    let (card_bytes, numbers) = if reading { (front, back) } else { (back, front) };
    assert!(card_bytes.len() as u64 == card && numbers.len() as u64 == 8 * slab);
    let numbers: Vec<u64> = numbers.chunks(8).map(|bytes| u64::from_le_bytes(bytes.try_into().unwrap())).collect();
    let (before, accepted) = match reading {
        true => {
            let call = CardCall::read(card_bytes.to_vec(), vec![OLD_NUMBER; numbers.len()]);
            (call, Handed { kind: handed as u8, rows, cols, ..Handed::BEFORE })
        }
        false => {
            let call = CardCall::write(kind, rows, cols, numbers.clone(), vec![OLD_BYTE; card_bytes.len()]);
            (call, Handed { length: handed, ..Handed::BEFORE })
        }
    };
    let handed = if answer == 0 { accepted } else { Handed::BEFORE };
    let after = CardCall { card: card_bytes.to_vec(), slab: numbers, handed, ..before };
    Record { before, answer, after }
}

/// The file's bytes.
pub fn bytes() -> Vec<u8> {
    file(&records().iter().map(body).collect::<Vec<_>>())
}

/// Counts of the file by call, kind and answer, as lines of a table.
pub fn counts(file: &[u8]) -> String {
    let bodies = bodies(file);
    let mut table = format!("{NAME}: {} calls, {} bytes\n", bodies.len(), file.len());
    for (way, names) in NAMES.iter().enumerate() {
        for (kind, name) in names.iter().enumerate() {
            let own = |answer: u8| {
                let same = |body: &&&[u8]| body[1..4] == [2 * kind as u8, answer, way as u8];
                bodies.iter().filter(same).count()
            };
            let cells: Vec<String> = ANSWERS.map(own).iter().map(|count| format!("{count:6}")).collect();
            table += &format!("  {name:15}{}\n", cells.concat());
        }
    }
    table
}
