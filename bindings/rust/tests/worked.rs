//! The worked examples of document 01, W1 to W14, some of them through `ProvedBlas`.

use zirve_blas::level2::{Her, Trsv};
use zirve_blas::level3::{Gemm, Symm, Trsm};
use zirve_blas::{Complex, Diag, Number, ProvedBlas, Refusal, Side, Strided, Trans, UpLo, View};

const V2: View = View::vector(2);
const M22: View = View::rows_of(2, 2);

fn complex(re: f64, im: f64) -> Complex {
    Complex::new(re, im)
}

#[test]
fn w1_a_view_may_run_backwards() {
    let mut y = [0.0];
    let (digits, slab, one) = ([100.0, 10.0, 1.0], [1.0, 2.0, 3.0], View::vector(1));
    let backwards = View { start: 2, rows: 3, cols: 1, rs: -1, cs: 1 };
    let row = View::rows_of(1, 3);
    assert_eq!(f64::gemv(Trans::NoTrans, 1.0, &digits, row, &slab, backwards, 0.0, &mut y, one), Ok(()));
    assert_eq!(y, [321.0]);
}

#[test]
fn w2_a_target_has_no_place_twice() {
    let (a, b) = (Strided { slab: [1.0, 2.0], view: V2 }, Strided { slab: [1.0; 3], view: View::rows_of(1, 3) });
    let mut c = Strided { slab: [9.0; 6], view: View::by_rows(2, 3, 2) };
    assert_eq!(ProvedBlas::gemm(Trans::NoTrans, Trans::NoTrans, 1.0, &a, &b, 0.0, &mut c), Err(Refusal::Overlap));
    assert_eq!(c.slab, [9.0; 6]);
    c.view = View::by_rows(2, 3, 3);
    assert_eq!(ProvedBlas::gemm(Trans::NoTrans, Trans::NoTrans, 1.0, &a, &b, 0.0, &mut c), Ok(()));
    assert_eq!(c.slab, [1.0, 1.0, 1.0, 2.0, 2.0, 2.0]);
}

#[test]
fn w3_gemv_does_not_read_the_old_target() {
    let mut y = [f64::NAN, 5.0];
    assert_eq!(f64::gemv(Trans::NoTrans, 2.0, &[1.0, 2.0, 3.0, 4.0], M22, &[1.0, 1.0], V2, 0.0, &mut y, V2), Ok(()));
    assert_eq!(y, [6.0, 14.0]);
}

#[test]
fn w4_gemv_in_f32() {
    let mut y = [1.0f32, 1.0];
    assert_eq!(f32::gemv(Trans::NoTrans, 2.0, &[1.0, 2.0, 3.0, 4.0], M22, &[1.0, 1.0], V2, 1.0, &mut y, V2), Ok(()));
    assert_eq!(y, [7.0, 15.0]);
}

#[test]
fn w5_gemm_without_terms_scales() {
    let mut c = [1.0, 2.0, 3.0, 4.0];
    let (a, b) = (View::rows_of(2, 0), View::rows_of(0, 2));
    assert_eq!(f64::gemm(Trans::NoTrans, Trans::NoTrans, 5.0, &[], a, &[], b, 3.0, &mut c, M22), Ok(()));
    assert_eq!(c, [3.0, 6.0, 9.0, 12.0]);
}

#[test]
fn w6_symm_reads_its_triangle() {
    let a = Strided { slab: [1.0, 99.0, 2.0, 3.0], view: M22 };
    let (b, mut c) = (Strided { slab: [1.0, 0.0], view: V2 }, Strided { slab: [9.0; 2], view: V2 });
    assert_eq!(ProvedBlas::symm(Side::Left, UpLo::Lower, 1.0, &a, &b, 0.0, &mut c), Ok(()));
    assert_eq!(c.slab, [1.0, 2.0]);
}

#[test]
fn w7_syrk_writes_its_triangle() {
    let mut c = [9.0; 4];
    assert_eq!(f64::syrk(UpLo::Upper, Trans::NoTrans, 1.0, &[1.0, 2.0], V2, 0.0, &mut c, M22), Ok(()));
    assert_eq!(c, [1.0, 2.0, 9.0, 4.0]);
}

#[test]
fn w8_trmv_skips_the_other_triangle() {
    let mut x = [1.0, 1.0];
    assert_eq!(
        f64::trmv(UpLo::Upper, Trans::NoTrans, Diag::NonUnit, &[2.0, 3.0, f64::NAN, 4.0], M22, &mut x, V2),
        Ok(())
    );
    assert_eq!(x, [5.0, 4.0]);
}

#[test]
fn w9_unit_solve_reads_no_diagonal() {
    let mut x = [2.0f32, 7.0];
    assert_eq!(f32::trsv(UpLo::Lower, Trans::NoTrans, Diag::Unit, &[0.0, 7.0, 3.0, 0.0], M22, &mut x, V2), Ok(()));
    assert_eq!(x, [2.0, 1.0]);
}

#[test]
fn w10_a_zero_pivot_leaves_what_was_solved_before_it() {
    let a = Strided { slab: [0.0, 1.0, 9.0, 2.0], view: M22 };
    let mut x = Strided { slab: [5.0, 4.0], view: V2 };
    let answer = ProvedBlas::trsv(UpLo::Upper, Trans::NoTrans, Diag::NonUnit, &a, &mut x);
    assert_eq!(answer, Err(Refusal::Singular));
    assert_eq!(answer.unwrap_err().number(), 5);
    assert_eq!(x.slab, [5.0, 2.0]);
}

#[test]
fn w11_a_right_solve_has_scaled_all_of_b() {
    let a = Strided { slab: vec![1.0, 1.0, 0.0, 0.0], view: M22 };
    let mut b = Strided { slab: vec![3.0, 4.0], view: View::rows_of(1, 2) };
    let answer = ProvedBlas::trsm(Side::Right, UpLo::Upper, Trans::NoTrans, Diag::NonUnit, 2.0, &a, &mut b);
    assert_eq!(answer, Err(Refusal::Singular));
    assert_eq!(b.slab, [6.0, 8.0]);
}

#[test]
fn w12_an_empty_target_meets_no_pivot() {
    let (a, empty) = ([0.0; 4], View::rows_of(2, 0));
    let answer = f64::trsm(Side::Left, UpLo::Upper, Trans::NoTrans, Diag::NonUnit, 1.0, &a, M22, &mut [], empty);
    assert_eq!(answer, Ok(()));
}

#[test]
fn w13_complex_gemv_conjugates() {
    let one = View::vector(1);
    let mut y = [complex(9.0, 9.0)];
    let a = [complex(1.0, 2.0)];
    let x = [complex(3.0, 0.0)];
    assert_eq!(
        Complex::gemv(Trans::ConjTrans, complex(1.0, 0.0), &a, one, &x, one, complex(0.0, 0.0), &mut y, one),
        Ok(())
    );
    assert_eq!(y, [complex(3.0, -6.0)]);
}

#[test]
fn w14_her_keeps_the_imaginary_part() {
    let one = View::vector(1);
    let mut a = Strided { slab: [complex(1.0, 5.0)], view: one };
    let x = Strided { slab: [complex(1.0, 1.0)], view: one };
    assert_eq!(ProvedBlas::her(UpLo::Lower, 2.0, &x, &mut a), Ok(()));
    assert_eq!(a.slab, [complex(5.0, 5.0)]);
}
