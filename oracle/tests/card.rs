//! The judge of card calls: the points settled, each by its smallest input; cards byte by byte; round trips.

use oracle::card::capi::{THEIRS, answer_of};
use oracle::card::compare::{compare, difference};
use oracle::card::damage::{DAMAGES, Damage};
use oracle::card::faults::{self, Slip};
use oracle::card::generate::{EDGES, good, many, numbers};
use oracle::card::points::{self, OLD_BYTE, OLD_NUMBER, Point};
use oracle::card::{self, BLOCK, CardCall, Handed, answer, card, count, data_blocks, is_nan, seal};
use oracle::random::Random;

/// The point's answer, and what it hands back and leaves.
fn holds(point: &Point) {
    let mut call = point.before.clone();
    let given = answer(&mut call);
    assert_eq!(difference(&point.before, (&point.after, point.answer), (&call, given)), None, "{}", point.name);
}

#[test]
fn points_settled() {
    let points = points::points();
    points.iter().for_each(holds);
    for (way, reading) in [(0, true), (1, false)] {
        for number in [&[0, 1, 2, 6, 7][..], &[0, 1, 2]][way] {
            assert!(points.iter().any(|point| point.before.is_reading() == reading && point.answer == *number));
        }
    }
}

/// k past 65,535 stands on no card.
#[test]
fn sixty_five_thousand_rows() {
    let largest = points::largest();
    assert_eq!(largest.before.card.len(), 512 * 66_577);
    holds(&largest);
    assert_eq!(faults::answer(faults::K_WRAPS.slip, &mut largest.before.clone()), 1);
}

/// The card of (1.5, -2i), by hand.
#[test]
fn a_card_by_hand() {
    let mut file = [0; 1024];
    file[..9].copy_from_slice(&[b'A', b'R', b'M', b'M', 1, 0, 2, 0, 1]);
    file[510..512].copy_from_slice(&[0x31, 0x01]); // 65 + 82 + 77 + 77 + 1 + 2 + 1 = 305
    file[512..520].copy_from_slice(&[0, 0, 0, 0, 0, 0, 0xf8, 0x3f]);
    file[536..544].copy_from_slice(&[0, 0, 0, 0, 0, 0, 0, 0xc0]);
    file[1016] = 1;
    file[1022..].copy_from_slice(&[0xf8, 0x01]); // 248 + 63 + 192 + 1 = 504
    let slab = [1.5, 0.0, 0.0, -2.0].map(f64::to_bits);
    let mut writing = points::writing((1, 1, 2), &slab, 1025);
    assert_eq!(answer(&mut writing), 0);
    assert_eq!((&writing.card[..1024], writing.card[1024], writing.handed.length), (&file[..], OLD_BYTE, 1024));
    let mut reading = points::reading(&file, 5);
    assert_eq!(answer(&mut reading), 0);
    assert_eq!(reading.slab, [&slab[..], &[OLD_NUMBER]].concat());
    assert_eq!(reading.handed, Handed { kind: 1, rows: 1, cols: 2, ..Handed::BEFORE });
}

/// A byte changed and the sum left is answer 6, whichever it is.
#[test]
fn every_byte_is_in_a_sum() {
    let file = card(0, 8, 8, &[0xffef_ffff_ffff_ffff; 64]);
    for at in 0..file.len() {
        for change in [1, 0x80, 0xff] {
            let mut file = file.clone();
            file[at] ^= change;
            assert_eq!(answer(&mut points::reading(&file, 64)), 6, "byte {at}");
        }
    }
}

/// A byte changed and the sum made anew is answer 7, but in a number and where the shape shows the same zeros.
#[test]
fn every_byte_has_its_meaning() {
    let file = card(0, 1, 64, &[0x4000_0000_0000_0000; 64]);
    for at in (0..file.len()).filter(|at| at % BLOCK < 510) {
        let mut file = file.clone();
        file[at] ^= 2;
        seal(&mut file[at / BLOCK * BLOCK..][..BLOCK]);
        let expected = match at {
            512..1016 | 1024..1032 => 0,
            6 => 1, // 1 by 66
            _ => 7,
        };
        let given = answer(&mut points::reading(&file, 200));
        assert_eq!(given, expected, "byte {at}");
    }
}

/// A length that is no whole number of blocks is answer 6, any other but the card's own 7.
#[test]
fn every_length() {
    let file = [card(0, 8, 8, &[0x4000_0000_0000_0000; 64]), vec![0; 1024]].concat();
    for length in 0..=file.len() {
        let expected = match length {
            1536 => 0,
            length if length % 512 == 0 => 7,
            _ => 6,
        };
        assert_eq!(answer(&mut points::reading(&file[..length], 64)), expected, "{length} bytes");
    }
}

/// Writes, reads back, and holds shape, kind and bits against what was written.
fn round_trip(rng: &mut Random, kind: u8, rows: u64, cols: u64) {
    let count = count(kind, rows, cols);
    let longer = rng.below(3);
    let slab = numbers(rng, count + longer);
    let length = BLOCK * (1 + data_blocks(count)) as usize;
    let mut writing = points::writing((kind, rows, cols), &slab, length + 1);
    assert_eq!((answer(&mut writing), writing.handed.length), (0, length as u64));
    assert_eq!((writing.card.pop(), &writing.slab), (Some(OLD_BYTE), &slab));
    let mut reading = points::reading(&writing.card, slab.len());
    assert_eq!(answer(&mut reading), 0);
    assert_eq!(reading.handed, Handed { kind, rows, cols, ..Handed::BEFORE });
    let (read, rest) = reading.slab.split_at(count as usize);
    assert!(read.iter().zip(&slab).all(|(&a, &b)| a == b || (a == card::NAN && is_nan(b))));
    assert!(rest.iter().all(|&bits| bits == OLD_NUMBER));
}

#[test]
fn round_trips() {
    let rng = &mut Random::new(21);
    for kind in [0, 1] {
        for size in 0..=64 {
            for (rows, cols) in [(size, 1), (1, size), (size, 3), (5, size), (size, size)] {
                round_trip(rng, kind, rows, cols);
            }
        }
    }
}

/// What is read without a NaN is written as the same file.
#[test]
fn a_single_card() {
    let mut cards = 0;
    for mut call in many(6000, 22).filter(CardCall::is_reading) {
        let given = answer(&mut call);
        let Handed { kind, rows, cols, .. } = call.handed;
        if given != 0 || call.slab[..count(kind, rows, cols) as usize].iter().any(|&bits| is_nan(bits)) {
            continue;
        }
        let mut writing = points::writing((kind, rows, cols), &call.slab, call.card.len());
        assert_eq!(answer(&mut writing), 0);
        assert!(writing.card == call.card, "{}", call.show());
        cards += 1;
    }
    assert!(cards > 500, "{cards}");
}

/// Any bytes are judged: most are torn, and with sums made anew most are wrong.
#[test]
fn any_bytes() {
    let rng = &mut Random::new(23);
    let mut given = [0; 8];
    for n in 0..2000 {
        let length = rng.below(2049) as usize;
        let mut file: Vec<u8> = (0..length).map(|_| rng.bits() as u8).collect();
        if n % 2 == 0 {
            file.truncate(length / BLOCK * BLOCK);
            file.chunks_mut(BLOCK).for_each(seal);
        }
        let before = points::reading(&file, 8);
        let mut call = before.clone();
        given[usize::from(answer(&mut call))] += 1;
        assert_eq!(call, before);
    }
    assert!(given[6] > 900 && given[7] >= 1000 && given[6] + given[7] == 2000, "{given:?}");
}

/// The generated calls draw every answer.
#[test]
fn generated_calls_draw_every_answer() {
    let report = compare(|call| Some(answer(call)), many(6000, 24));
    assert_eq!((report.total(), report.differ), (6000, 0));
    let [reading, writing] = report.answers;
    assert!([0, 1, 2, 6, 7].iter().all(|&n| reading[n] > 100), "{reading:?}");
    assert!([0, 1, 2].iter().all(|&n| writing[n] > 100), "{writing:?}");
}

/// The answer that a way to damage a card always draws, if it is always the same.
fn answer_to(damage: &Damage) -> Option<u8> {
    match damage.name {
        "a byte, the sum made anew" | "the other kind" | "another shape" => None,
        "a byte" | "a sum" | "a sum's bytes exchanged" | "ones added" => Some(6),
        "a part of a block added" | "a part of a block cut" | "the last block torn behind a wrong k" => Some(6),
        _ => Some(7),
    }
}

#[test]
fn every_damage_has_its_answer() {
    let rng = &mut Random::new(29);
    for damage in &DAMAGES {
        let mut changed = 0;
        for n in 0..200 {
            let shape = rng.pick(&EDGES);
            let whole = good(rng, n % 2, shape);
            let mut file = whole.clone();
            (damage.on)(rng, &mut file);
            if file != whole {
                changed += 1;
                let given = answer(&mut points::reading(&file, 400));
                assert!(answer_to(damage).is_none_or(|expected| given == expected), "{}: {given}", damage.name);
            }
        }
        assert!(changed > 50, "{}: {changed}", damage.name);
    }
}

/// The reader and the writer that the faults are planted in, without a fault.
#[test]
fn a_second_opinion() {
    let report = compare(|call| Some(faults::answer(Slip::Nothing, call)), many(20_000, 25));
    assert_eq!(report.first, None);
    for point in points::points() {
        let mut call = point.before.clone();
        let given = faults::answer(Slip::Nothing, &mut call);
        assert_eq!(difference(&point.before, (&point.after, point.answer), (&call, given)), None, "{}", point.name);
    }
}

/// The Rust's C functions do what the judge does, so that the timings compare the same work.
#[test]
fn the_reference_functions_agree() {
    let named = points::points().into_iter().chain([points::largest()]).map(|point| point.before);
    let report = compare(|call| answer_of(&THEIRS, call), many(20_000, 26).chain(named));
    assert_eq!(report.first, None);
    assert!(report.calls.iter().flatten().all(|&calls| calls > 1000), "{:?}", report.calls);
}

#[test]
fn generated_calls_find_each_planted_fault() {
    for fault in &faults::FAULTS {
        let found = oracle::card::compare::first_difference(|call| faults::answer(fault.slip, call), many(2000, 27));
        assert!(found.is_some(), "{} is not found in 2000 calls", fault.name);
    }
}

/// What is linked of the C interface agrees with the judge.
#[cfg(zb_card_read)]
#[test]
fn the_c_interface_agrees() {
    let named = points::points().into_iter().map(|point| point.before);
    assert_eq!(compare(card::capi::answer, many(20_000, 28).chain(named)).first, None);
}
