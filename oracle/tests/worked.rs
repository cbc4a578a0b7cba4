//! Document 01's worked examples, its slips, and the points that are easy to read otherwise.
#![cfg(reference)]

use oracle::answer::answer;
use oracle::call::{Call, Kind, Routine};
use oracle::corners::{self, Corner};

/// The corner's answer and target, to the bit, NaNs alike.
fn holds(corner: Corner) {
    let mut call = corner.call;
    let given = answer(&mut call);
    let target: Vec<f64> = call.target().iter().map(|&cell| call.kind.number(cell)).collect();
    let same = target.iter().zip(&corner.target).all(|(a, b)| call.kind.same(a.to_bits(), b.to_bits()));
    assert!(
        given == corner.answer && same && target.len() == corner.target.len(),
        "{}: answers {given} with {target:?}, not {} with {:?}",
        corner.name,
        corner.answer,
        corner.target
    );
}

/// A call on f64 told for f32; the worked examples' numbers are exact in both.
fn single(corner: Corner) -> Corner {
    let cells = |slab: &Vec<u64>| slab.iter().map(|&cell| Kind::F32.cell(f64::from_bits(cell))).collect();
    let scalar = |cells: [u64; 2]| cells.map(|cell| Kind::F32.cell(f64::from_bits(cell)));
    let Call { alpha, beta, ref slabs, .. } = corner.call;
    let slabs = slabs.iter().map(cells).collect();
    Corner { call: Call { kind: Kind::F32, alpha: scalar(alpha), beta: scalar(beta), slabs, ..corner.call }, ..corner }
}

/// The same, told for complex numbers whose imaginary parts are +0.
fn real_part(corner: Corner) -> Corner {
    let pairs = |slab: &Vec<u64>| slab.iter().flat_map(|&cell| [cell, 0]).collect();
    let slabs = corner.call.slabs.iter().map(pairs).collect();
    let target = corner.target.iter().flat_map(|&number| [number, 0.0]).collect();
    Corner { call: Call { kind: Kind::Complex, slabs, ..corner.call }, target, ..corner }
}

#[test]
fn worked_examples() {
    assert_eq!(corners::worked_examples().len(), 15);
    corners::worked_examples().into_iter().for_each(holds);
}

#[test]
fn worked_examples_in_single_precision() {
    corners::worked_examples().into_iter().filter(|corner| corner.call.kind == Kind::F64).map(single).for_each(holds);
}

#[test]
fn worked_examples_with_real_complex_numbers() {
    let plain = |corner: &Corner| corner.call.kind == Kind::F64;
    corners::worked_examples().into_iter().filter(plain).map(real_part).for_each(holds);
}

#[test]
fn slips() {
    corners::slips().into_iter().for_each(holds);
}

#[test]
fn points_easy_to_read_otherwise() {
    corners::points().into_iter().for_each(holds);
}

/// Scaling with beta 0 of either sign reads no old target, in every routine that takes beta.
#[test]
fn beta_zero_leaves_no_old_nan() {
    let (nan, one) = ([f64::NAN; 2], [1.0; 2]);
    for routine in Routine::ALL.into_iter().filter(|routine| routine.beta() != oracle::call::Factor::Nothing) {
        for kind in Kind::ALL {
            for beta in [0.0, -0.0] {
                let width = kind.width();
                let flags = vec![0; routine.flags().len()];
                let mut operands = vec![(1, 1, &one[..width]); routine.views()];
                *operands.last_mut().unwrap() = (1, 1, &nan[..width]);
                let mut call = corners::call(routine, kind, &flags, [1.0, 0.0], [beta, 0.0], &operands);
                assert_eq!(answer(&mut call), 0);
                assert!(!call.target().iter().any(|&cell| kind.is_nan(cell)), "{}", call.show());
            }
        }
    }
}

/// (1, infinity) times `from_real(1)` has NaN as its real part.
#[test]
fn real_factor_is_an_element() {
    use oracle::number::{Complex, SaturatingMul, Scalar};
    let product = Complex { re: 1.0, im: f64::INFINITY }.saturating_mul(&Complex::from_real(1.0));
    assert!(product.re.is_nan() && product.im == f64::INFINITY);
}

/// The order of a product's operands shows in no bits other than a NaN's.
#[test]
fn products_commute() {
    use oracle::number::{Complex, Element, SaturatingMul};
    let mut rng = oracle::random::Random::new(7);
    for _ in 0..100_000 {
        let mut element = || {
            let mut part = || oracle::value::cell(&mut rng, Kind::Complex, oracle::value::Pool::Mixed);
            Complex::read(&[part(), part()])
        };
        let (a, b) = (element(), element());
        let (p, q) = (a.saturating_mul(&b), b.saturating_mul(&a));
        assert!(Kind::F64.same(p.re.to_bits(), q.re.to_bits()) && Kind::F64.same(p.im.to_bits(), q.im.to_bits()));
    }
}
