//! What views show, and that every view can be made and passed.

use zirve_blas::{Number, Refusal, Strided, Trans, View};

const NO: Trans = Trans::NoTrans;

/// The slab 0, 1, 2, .., whose numbers are their own places.
fn slab() -> Vec<f64> {
    (0..24).map(f64::from).collect()
}

/// The places that a view shows, row by row: the view times the identity.
fn shown(view: View) -> Vec<f64> {
    let size = view.cols as usize;
    let identity: Vec<f64> = (0..size * size).map(|k| f64::from(u8::from(k % (size + 1) == 0))).collect();
    let mut places = vec![f64::NAN; view.rows as usize * size];
    let (square, full) = (View::rows_of(view.cols, view.cols), View::rows_of(view.rows, view.cols));
    assert_eq!(f64::gemm(NO, NO, 1.0, &slab(), view, &identity, square, 0.0, &mut places, full), Ok(()));
    places
}

/// The answer to a view, beside others that are empty and fit it.
fn answer(view: View) -> Result<(), Refusal> {
    let (b, c) = (View::rows_of(view.cols, 0), View::rows_of(view.rows, 0));
    f64::gemm(NO, NO, 1.0, &slab(), view, &[], b, 0.0, &mut [], c)
}

#[test]
fn matrices_by_rows_and_by_columns() {
    assert_eq!(shown(View::rows_of(2, 3)), [0.0, 1.0, 2.0, 3.0, 4.0, 5.0]);
    assert_eq!(shown(View::cols_of(2, 3)), [0.0, 2.0, 4.0, 1.0, 3.0, 5.0]);
    assert_eq!(shown(View::by_rows(2, 3, 5).at(6)), [6.0, 7.0, 8.0, 11.0, 12.0, 13.0]);
    assert_eq!(shown(View::by_cols(2, 3, 5).at(6)), [6.0, 11.0, 16.0, 7.0, 12.0, 17.0]);
}

#[test]
fn vectors_with_an_increment() {
    assert_eq!(shown(View::vector(3)), [0.0, 1.0, 2.0]);
    assert_eq!(shown(View::strided(3, 2)), [0.0, 2.0, 4.0]);
    assert_eq!(shown(View::strided(3, -2)), [4.0, 2.0, 0.0]);
    assert_eq!(shown(View::strided(3, -2).at(1)), [5.0, 3.0, 1.0]);
    assert_eq!(shown(View::strided(3, 0).at(7)), [7.0, 7.0, 7.0]);
    assert_eq!(shown(View::strided(1, -2)), [0.0]);
}

#[test]
fn empty_views_fit_any_slab() {
    for view in [View::strided(0, -2), View::strided(0, i64::MIN), View::vector(0).at(u64::MAX), View::rows_of(0, 3)] {
        assert_eq!(answer(view), Ok(()));
        assert_eq!(shown(view), []);
    }
}

#[test]
fn a_vector_with_a_negative_increment_starts_at_its_last_place() {
    assert_eq!(View::strided(3, -2).start, 4);
    assert_eq!(View::strided(0, -2).start, 0);
    assert_eq!(View::strided(3, i64::MIN).start, u64::MAX);
}

#[test]
fn views_are_made_in_constants() {
    const VIEWS: [View; 3] = [View::by_rows(1, 2, 3).at(4), View::by_cols(1, 2, 3).at(4), View::strided(2, -3)];
    assert_eq!(VIEWS.map(|view| view.start), [4, 4, 3]);
}

/// Were a leading dimension cut to 64 bits with a sign, `u64::MAX` would be the stride -1, and lead back into the slab.
#[test]
fn the_largest_numbers_lead_off_the_slab() {
    let far = u64::MAX;
    let off = [
        View::by_rows(2, 2, far).at(5),
        View::by_cols(2, 2, far).at(5),
        View::by_rows(2, 1, 1 << 63).at(5),
        View::strided(2, i64::MIN),
        View::strided(64, i64::MIN),
        View::strided(64, i64::MAX),
        View::vector(1).at(far).at(1),
    ];
    for view in off {
        assert_eq!(answer(view), Err(Refusal::OutOfBounds), "{view:?}");
    }
    for view in [View::rows_of(2, far), View::cols_of(far, 2), View::vector(far), View::strided(far, i64::MIN)] {
        assert_eq!(answer(view), Err(Refusal::TooLarge), "{view:?}");
    }
    assert_eq!(shown(View::by_rows(1, 2, far)), [0.0, 1.0]);
    assert_eq!(shown(View::by_cols(2, 1, far)), [0.0, 1.0]);
}

#[test]
fn a_pointer_and_strides_span_their_slab() {
    let slab = slab();
    for (first, rs, cs) in [(0, 5, 2), (10, -5, 2), (4, 5, -2), (14, -5, -2)] {
        // SAFETY: 3 rows and 3 columns from there lie on places 0 to 14 of the slab, which stays as it is.
        let matrix = unsafe { Strided::of_ptr(&slab[first], 3, 3, rs, cs) };
        assert_eq!(matrix.slab, &slab[..15]);
        assert_eq!(matrix.view, View { start: first as u64, rows: 3, cols: 3, rs: rs as i64, cs: cs as i64 });
    }
    // SAFETY: no element.
    let empty = unsafe { Strided::<&[f64]>::of_ptr(std::ptr::null(), 3, 0, -5, 2) };
    assert_eq!((empty.slab.len(), empty.view.start, empty.view.rows, empty.view.cols), (0, 0, 3, 0));
}
