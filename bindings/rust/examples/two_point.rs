//! The two-point path through the bindings: two points are taught, a line through them is fitted by a forward and a
//! backward solve, and its waypoints are printed, beside those of a backward solve that ends one row short. Then
//! three refused calls.

use zirve_blas::{Diag, Number, Refusal, Side, Trans, UpLo, View};

const UPPER: [f64; 4] = [1.0, 2.0, 0.0, 4.0];
const PAIR: View = View::rows_of(2, 3);

fn report(what: &str, answer: Result<(), Refusal>) {
    match answer {
        Ok(()) => println!("{what:31}answer 0: done"),
        Err(Refusal::Singular) => println!("{what:31}answer 5: {}; what was solved before it stays", Refusal::Singular),
        Err(refusal) => println!("{what:31}answer {}: {refusal}", refusal.number()),
    }
}

fn pose(p: &[f64]) -> String {
    format!("{:7}{:7}{:7}", p[0], p[1], p[2])
}

fn pair(line: &[f64]) {
    println!("{}   /{}", pose(line), pose(&line[3..]));
}

/// op(A) X = B solved in the place of B.
fn solve(uplo: UpLo, diag: Diag, a: &[f64], b: &mut [f64], view: View) -> Result<(), Refusal> {
    f64::trsm(Side::Left, uplo, Trans::NoTrans, diag, 1.0, a, View::rows_of(2, 2), b, view)
}

/// The line at the stations 2 to 6.
fn waypoints(line: &[f64], way: &mut [f64]) -> Result<(), Refusal> {
    let stations = [1.0, 2.0, 1.0, 3.0, 1.0, 4.0, 1.0, 5.0, 1.0, 6.0];
    let no = Trans::NoTrans;
    f64::gemm(no, no, 1.0, &stations, View::rows_of(5, 2), line, PAIR, 0.0, way, View::rows_of(5, 3))
}

fn follow(taught: [f64; 6]) {
    // the lower and the upper factor of [[1, 2], [1, 6]]: a line's values at the two stations
    let lower = [1.0, 0.0, 1.0, 1.0];
    let mut line = taught;
    report("forward solve, Lower, Unit", solve(UpLo::Lower, Diag::Unit, &lower, &mut line, PAIR));
    let mut short = line;
    report("backward solve, Upper, NonUnit", solve(UpLo::Upper, Diag::NonUnit, &UPPER, &mut line, PAIR));
    short[3..].copy_from_slice(&line[3..]);
    let (mut way, mut wrong) = ([0.0; 15], [0.0; 15]);
    report("waypoints, gemm", waypoints(&line, &mut way));
    waypoints(&short, &mut wrong).unwrap();
    println!("\nWaypoints                            one row short");
    for (station, (right, wrong)) in (2..).zip(way.chunks(3).zip(wrong.chunks(3))) {
        println!("station {station} {}      {}", pose(right), pose(wrong));
    }
}

fn refused(what: &str, upper: &[f64], view: View) {
    let mut line = [10.0, 40.0, 6.0, 20.0, -20.0, 8.0];
    report(what, solve(UpLo::Upper, Diag::NonUnit, upper, &mut line, view));
    pair(&line);
}

fn main() {
    let taught = [10.0, 40.0, 6.0, 30.0, 20.0, 14.0];
    println!("Two points are taught, each at a station of the rail, counted from home (x, y, z):");
    println!("station 2 {}", pose(&taught));
    println!("station 6 {}", pose(&taught[3..]));
    println!("\nThe line through them");
    follow(taught);
    println!("\nRefused calls: the target before them, and after each");
    pair(&[10.0, 40.0, 6.0, 20.0, -20.0, 8.0]);
    refused("off-slab view, start 1", &UPPER, View { start: 1, ..PAIR });
    refused("overlapping target, stride 2", &UPPER, View { rs: 2, ..PAIR });
    refused("first pivot zero", &[0.0, 2.0, 0.0, 4.0], PAIR);
}
