//! Cards there and back, each departure from their form, the order of the answers, and what refusals leave.

use zirve_blas::card::{self, Header, Kind, Refusal};

const BLOCK: usize = 512;
const KINDS: [Kind; 2] = [Kind::Real, Kind::Complex];

/// A card made byte by byte, of as many numbers as are given.
fn by_hand(kind: u8, rows: u16, cols: u16, numbers: &[f64]) -> Vec<u8> {
    let mut card = [b"ARMM".as_slice(), &rows.to_le_bytes(), &cols.to_le_bytes(), &[kind]].concat();
    card.resize(BLOCK, 0);
    for (part, k) in numbers.chunks(63).zip(1u16..) {
        let mut block: Vec<u8> = part.iter().flat_map(|x| x.to_bits().to_le_bytes()).collect();
        block.resize(504, 0);
        block.extend(k.to_le_bytes());
        block.resize(BLOCK, 0);
        card.extend(block);
    }
    seal(&mut card);
    card
}

/// Makes the sums of all blocks.
fn seal(card: &mut [u8]) {
    for block in card.chunks_mut(BLOCK) {
        let sum: u16 = block[..510].iter().map(|&byte| u16::from(byte)).fold(0, u16::wrapping_add);
        block[510..].copy_from_slice(&sum.to_le_bytes());
    }
}

/// The card with one byte changed and the sums made anew.
fn with(card: &[u8], place: usize, byte: u8) -> Vec<u8> {
    let mut card = card.to_vec();
    card[place] = byte;
    seal(&mut card);
    card
}

/// So many numbers, both zeros and the infinities among the first, and no NaN.
fn numbers(count: usize) -> Vec<f64> {
    let special = [-0.0, 0.0, f64::INFINITY, f64::NEG_INFINITY, 5e-324];
    special.into_iter().chain((1..).map(|k| f64::from(k) / -3.0)).take(count).collect()
}

fn count(kind: Kind, rows: u64, cols: u64) -> usize {
    (rows * cols * (kind as u64 + 1)) as usize
}

fn bits(slab: &[f64]) -> Vec<u64> {
    slab.iter().map(|x| x.to_bits()).collect()
}

/// The answer to a card, with a slab for any matrix, which a refusal leaves as it is.
fn answer(card: &[u8]) -> Result<Header, Refusal> {
    answer_into(card, 2 * 64 * 64)
}

fn answer_into(card: &[u8], length: usize) -> Result<Header, Refusal> {
    let mut slab = vec![7.5; length];
    let answer = card::read(card, &mut slab);
    assert!(answer.is_ok() || slab == vec![7.5; length], "{answer:?}");
    answer
}

#[test]
fn cards_there_and_back() {
    for kind in KINDS {
        for (rows, cols) in [(0, 5), (5, 0), (1, 1), (2, 3), (7, 9), (8, 8), (63, 2), (64, 63), (64, 64)] {
            let matrix = numbers(count(kind, rows, cols));
            let wanted = by_hand(kind as u8, rows as u16, cols as u16, &matrix);
            let mut bytes = vec![0xa5; wanted.len() + 700];
            assert_eq!(card::write(kind, rows, cols, &matrix, &mut bytes), Ok(wanted.len()));
            assert_eq!(card::length(kind, rows, cols), wanted.len());
            assert_eq!((&bytes[..wanted.len()], &bytes[wanted.len()..]), (&wanted[..], &[0xa5; 700][..]));
            let mut slab = vec![7.5; matrix.len() + 3];
            assert_eq!(card::read(&wanted, &mut slab), Ok(Header { kind, rows, cols }));
            assert_eq!(bits(&slab), bits(&[&matrix[..], &[7.5; 3]].concat()));
        }
    }
}

#[test]
fn torn_cards() {
    let card = by_hand(0, 8, 8, &numbers(64));
    for length in [1, 511, card.len() - 1] {
        assert_eq!(answer(&card[..length]), Err(Refusal::Torn));
    }
    for place in [0, 9, 509, 510, 511, 512, 1015, 1535] {
        let mut torn = card.clone();
        torn[place] ^= 1;
        assert_eq!(answer(&torn), Err(Refusal::Torn), "byte {place}");
    }
    assert_eq!(answer(&[&card[..], &[1; BLOCK]].concat()), Err(Refusal::Torn));
}

#[test]
fn wrong_cards() {
    let card = by_hand(0, 1, 1, &[1.0]);
    let wrong = |card: &[u8]| assert_eq!(answer(card), Err(Refusal::Wrong));
    wrong(&[]);
    wrong(&[0; BLOCK]);
    wrong(&card[..BLOCK]);
    wrong(&[&card[..], &[0; BLOCK]].concat());
    for place in (0..4).chain([4, 5, 6, 7]).chain(9..510).chain(BLOCK + 8..BLOCK + 510) {
        wrong(&with(&card, place, card[place] ^ 0x80));
    }
    for kind in 2..=255 {
        wrong(&with(&card, 8, kind));
    }
}

#[test]
fn the_order_of_the_answers() {
    let mut card = with(&by_hand(0, 8, 8, &numbers(64)), BLOCK + 504, 2);
    card[2 * BLOCK] ^= 1;
    assert_eq!(answer(&card), Err(Refusal::Torn));
    let large = by_hand(0, 65, 1, &[0.0; 65]);
    assert_eq!(answer(&large), Err(Refusal::TooLarge));
    assert_eq!(answer_into(&large, 0), Err(Refusal::TooLarge));
    assert_eq!(answer(&large[..2 * BLOCK]), Err(Refusal::Wrong));
    assert_eq!(answer(&with(&large, BLOCK + 504, 2)), Err(Refusal::Wrong));
    assert_eq!(answer(&by_hand(0, 0, 65, &[])), Err(Refusal::TooLarge));
}

#[test]
fn slabs_too_short_to_read_into() {
    let card = by_hand(1, 1, 1, &[1.0, 2.0]);
    let header = Header { kind: Kind::Complex, rows: 1, cols: 1 };
    let answers = [0, 1, 2, 3].map(|length| answer_into(&card, length));
    assert_eq!(answers, [Err(Refusal::TooShort), Err(Refusal::TooShort), Ok(header), Ok(header)]);
    assert_eq!(answer_into(&by_hand(0, 0, 5, &[]), 0), Ok(Header { kind: Kind::Real, rows: 0, cols: 5 }));
}

#[test]
fn refused_writes_leave_the_buffer() {
    for kind in KINDS {
        let matrix = numbers(count(kind, 1, 1));
        let refused = |rows, cols, slab: &[f64], room, refusal| {
            let mut bytes = vec![0xa5; room];
            assert_eq!(card::write(kind, rows, cols, slab, &mut bytes), Err(refusal));
            assert_eq!(bytes, vec![0xa5; room]);
        };
        refused(65, 1, &numbers(130), 4096, Refusal::TooLarge);
        refused(0, 65, &[], 0, Refusal::TooLarge);
        refused(u64::MAX, u64::MAX, &[], 4096, Refusal::TooLarge);
        refused(1, 1, &matrix, 1023, Refusal::TooShort);
        refused(1, 1, &matrix[1..], 1024, Refusal::TooShort);
        assert_eq!(card::write(kind, 1, 1, &matrix, &mut [0; 1024]), Ok(1024));
    }
}

#[test]
fn nan_has_one_pattern_on_a_card() {
    let single = by_hand(0, 1, 1, &[f64::from_bits(0x7ff8_0000_0000_0000)]);
    for pattern in [0x7ff0_0000_0000_0001, 0x7fff_ffff_ffff_ffff, 0xfff8_0000_0000_0000, u64::MAX] {
        let (x, mut slab, mut bytes) = (f64::from_bits(pattern), [0.0], [0; 1024]);
        assert!(card::read(&by_hand(0, 1, 1, &[x]), &mut slab).is_ok() && slab[0].is_nan());
        assert_eq!(card::write(Kind::Real, 1, 1, &[x], &mut bytes), Ok(1024));
        assert_eq!(bytes, single[..]);
    }
}

#[test]
fn lengths_of_any_shape() {
    let real = [(0, 9), (1, 1), (63, 1), (64, 1), (64, 64)].map(|(rows, cols)| card::length(Kind::Real, rows, cols));
    assert_eq!(real, [512, 1024, 1024, 1536, 67 * 512]);
    assert_eq!(card::length(Kind::Complex, 64, 64), 132 * 512);
    assert_eq!(card::length(Kind::Complex, u64::MAX, u64::MAX), usize::MAX);
}

#[test]
fn refusals_are_errors_with_the_numbers_of_the_c_interface() {
    use Refusal::{TooLarge, TooShort, Torn, Wrong};
    assert_eq!([TooLarge, TooShort, Torn, Wrong].map(Refusal::number), [1, 2, 6, 7]);
    let error: Box<dyn std::error::Error> = Torn.into();
    assert_eq!(error.to_string(), "torn card");
}
