//! Timings: the Rust's kernels and, where they are linked, ours, on the same calls, in turn; for scale some of OpenBLAS's
//! and Netlib's; last those of cards.

use crate::answer::{Scalars, kernel};
use crate::call::Routine::{Gemm, Symm, Trsm};
use crate::call::{Call, Kind, Routine, View};
use crate::capi::{Arguments, Functions, OURS, Run, THEIRS, answer_of};
use crate::card;
use crate::cblas::{NETLIB, OPENBLAS};
use crate::layout;
use crate::number::{Complex, Element, elements};
use crate::random::Random;
use crate::storage::Pointer;
use crate::value::{self, Pool};
use std::hint::black_box;
use std::ptr::copy_nonoverlapping;
use std::time::Instant;

const LARGEST: u64 = 64;
const SIZES: [u64; 6] = [2, 4, 8, 16, 32, LARGEST];
pub(crate) const SAMPLES: usize = 45;
/// A sample has as many calls as take the Rust's C function at least this long, in nanoseconds.
const SAMPLE: f64 = 200_000.0;

/// Who is timed in the table by layout.
const SIDES: [&str; 4] = ["Rust", "ours", "OpenBLAS", "Netlib"];

/// A layout of a call: its name, the routine's flags, and the stride of the columns.
struct Layout(&'static str, &'static [u8], u64);

const LAYOUTS: [(Routine, [Layout; 5]); 3] = [
    (
        Gemm,
        [
            Layout("as it is", &[0, 0], 1),
            Layout("A transposed", &[1, 0], 1),
            Layout("B transposed", &[0, 1], 1),
            Layout("both transposed", &[1, 1], 1),
            Layout("strided", &[0, 0], 3),
        ],
    ),
    (
        Symm,
        [
            Layout("as it is", &[0, 0], 1),
            Layout("Right", &[1, 0], 1),
            Layout("Lower", &[0, 1], 1),
            Layout("Right and Lower", &[1, 1], 1),
            Layout("strided", &[0, 0], 3),
        ],
    ),
    (
        Trsm,
        [
            Layout("as it is", &[0, 0, 0, 0], 1),
            Layout("Right", &[1, 0, 0, 0], 1),
            Layout("Lower", &[0, 1, 0, 0], 1),
            Layout("Trans", &[0, 0, 1, 0], 1),
            Layout("strided", &[0, 0, 0, 0], 3),
        ],
    ),
];

/// A call's medians in nanoseconds.
struct Times<const N: usize> {
    /// Each function's; none where it is not there.
    through_c: [Option<f64>; N],
    /// The Rust's kernel compiled into its caller.
    inlined: Option<f64>,
}

/// Prints two tables of our C functions beside the Rust's kernels, one of some of them by layout, and one of cards.
pub fn print() {
    let calls = Routine::ALL.iter().flat_map(|&routine| Kind::ALL.map(|kind| (routine, kind)));
    let row = |(routine, kind)| (routine, kind, SIZES.map(|n| by_rows(routine, kind, n)));
    let rows: Vec<(Routine, Kind, [Times<2>; 6])> = calls.map(row).collect();
    println!(
        "Rust's time / ours: medians of {SAMPLES} samples, each of as many calls as take the Rust's C function {} microseconds or more; square matrices by rows, every flag 0; last the nanoseconds of the largest call",
        SAMPLE / 1000.0
    );
    println!();
    println!("Through the C interface: both behind C functions of the same arguments, called alike");
    println!();
    table(&rows, |times| times.through_c[0]);
    println!();
    println!("The Rust's kernel called from Rust, compiled into its caller; ours as above");
    println!();
    table(&rows, |times| times.inlined);
    println!();
    println!(
        "By layout, n = {LARGEST}: Rust's time / ours, both through the C interface, then the nanoseconds of a call, for scale those of OpenBLAS and of Netlib's reference BLAS too (CBLAS, by rows, one thread)"
    );
    println!();
    layouts();
    println!();
    card::bench::print();
}

/// Prints a row for each routine and kind: the Rust's nanoseconds for a call divided by ours at each size, then both at the
/// largest.
fn table(rows: &[(Routine, Kind, [Times<2>; 6])], theirs: fn(&Times<2>) -> Option<f64>) {
    let sizes: String = SIZES.iter().map(|n| format!(" n = {n} |")).collect();
    println!("| routine | kind |{sizes} Rust | ours |");
    println!("|---|---|{}", "---|".repeat(SIZES.len() + 2));
    for (routine, kind, times) in rows {
        let ratios: String = times.iter().map(|times| ratio(theirs(times), times.through_c[1])).collect();
        let largest = &times[SIZES.len() - 1];
        let last = [theirs(largest), largest.through_c[1]].map(nanoseconds).concat();
        println!("| {} | {} |{ratios}{last}", routine.name(), kind.name());
    }
}

/// Prints a row for each layout: the Rust's nanoseconds for a call divided by ours, then each side's.
fn layouts() {
    println!("| routine | kind | layout | Rust / ours | {} |", SIDES.join(" | "));
    println!("|{}", "---|".repeat(4 + SIDES.len()));
    for (routine, layouts) in LAYOUTS {
        for kind in [Kind::F64, Kind::F32] {
            for layout in &layouts {
                let times = in_layout(routine, kind, layout);
                let cells = [ratio(times[0], times[1]), times.map(nanoseconds).concat()].concat();
                println!("| {} | {} | {} |{cells}", routine.name(), kind.name(), layout.0);
            }
        }
    }
    for library in [&OPENBLAS, &NETLIB].into_iter().filter(|library| !library.is_there()) {
        println!();
        println!("{} is not there ({})", library.name, library.package);
    }
}

pub(crate) fn ratio(theirs: Option<f64>, ours: Option<f64>) -> String {
    theirs.zip(ours).map_or(" - |".to_string(), |(theirs, ours)| format!(" {:.2} |", theirs / ours))
}

fn nanoseconds(time: Option<f64>) -> String {
    time.map_or(" - |".to_string(), |time| format!(" {time:.0} |"))
}

/// The Rust's and our times for the call by rows with every flag 0.
fn by_rows(routine: Routine, kind: Kind, n: u64) -> Times<2> {
    let flags = vec![0; routine.flags().len()];
    times(&call(routine, kind, &flags, n, 1), [&THEIRS, &OURS])
}

/// Each side's time for the call in the layout; a side that computes something else ends the program.
fn in_layout(routine: Routine, kind: Kind, &Layout(name, flags, step): &Layout) -> [Option<f64>; 4] {
    let call = call(routine, kind, flags, LARGEST, step);
    let sets = [&THEIRS, &OURS, &OPENBLAS.functions, &NETLIB.functions];
    for (side, set) in SIDES.iter().zip(sets) {
        assert!(is_close(&call, set), "{side} gives other numbers: {} {} {name}", routine.name(), kind.name());
    }
    times(&call, sets).through_c
}

/// Does the set's function, where it is there, give nearly what the Rust's gives? A difference is held against the
/// largest number, which has to be finite.
fn is_close(call: &Call, set: &Functions) -> bool {
    let after = |set: &Functions| {
        let mut call = call.clone();
        answer_of(set, &mut call)?;
        Some(call.target().iter().map(|&cell| call.kind.number(cell)).collect::<Vec<f64>>())
    };
    let Some((theirs, others)) = after(&THEIRS).zip(after(set)) else { return true };
    let largest = theirs.iter().fold(0.0, |largest: f64, number| largest.max(number.abs()));
    let tolerance = if call.kind == Kind::F32 { 1e-3 } else { 1e-9 };
    theirs.iter().zip(&others).all(|(a, b)| (a - b).abs() <= tolerance * largest)
}

/// The call's medians by each set's function.
fn times<const N: usize>(call: &Call, sets: [&Functions; N]) -> Times<N> {
    match call.kind {
        Kind::F64 => time::<f64, f64, N>(call, f64::from_bits, sets.map(|set| set.f64)),
        Kind::F32 => time::<f32, f32, N>(call, |cell| f32::from_bits(cell as u32), sets.map(|set| set.f32)),
        Kind::Complex => time::<Complex, f64, N>(call, f64::from_bits, sets.map(|set| set.complex)),
    }
}

/// A call on full matrices of n rows, by rows, with numbers between 1/8 and 16; `step` is the columns' stride.
fn call(routine: Routine, kind: Kind, flags: &[u8], n: u64, step: u64) -> Call {
    let rng = &mut Random::new(n);
    let shapes = layout::shapes(rng, routine, flags, [n; 3]);
    let view = |&(rows, cols): &(u64, u64)| {
        let (row_stride, col_stride) = ((step * cols) as i64, step as i64);
        View { start: 0, rows, cols, row_stride, col_stride }
    };
    let mut slab = |shape: &(u64, u64)| {
        let cells = shape.0 * shape.1 * step * kind.width() as u64;
        (0..cells).map(|_| value::cell(rng, kind, Pool::Fine)).collect()
    };
    let slabs = shapes.iter().map(&mut slab).collect();
    let scalar = |re: f64, im: f64| [kind.cell(re), kind.cell(im)];
    Call {
        routine,
        kind,
        flags: flags.to_vec(),
        alpha: scalar(0.75, 0.5),
        beta: scalar(0.5, 0.25),
        views: shapes.iter().map(view).collect(),
        slabs,
    }
}

/// The call's medians; each call begins with the target as it was.
fn time<T: Element, C: Copy + Default, const N: usize>(
    call: &Call,
    cell: fn(u64) -> C,
    functions: [Run<C>; N],
) -> Times<N> {
    let mut slabs: Vec<Vec<Line>> = call.slabs.iter().map(|slab| lines(&elements::<T>(slab))).collect();
    let before = slabs.last().unwrap().clone();
    let pointers: Vec<*mut T> = slabs.iter_mut().map(|slab| slab.as_mut_ptr().cast()).collect();
    let (target, count) = (pointers[pointers.len() - 1], call.target().len() / T::WIDTH);
    let restore = || unsafe { copy_nonoverlapping(before.as_ptr().cast(), target, count) };
    let lent: Vec<(*mut C, usize)> =
        pointers.iter().zip(&call.slabs).map(|(pointer, slab)| (pointer.cast(), slab.len())).collect();
    let arguments = &Arguments::of(call, cell, &lent);
    let through_c = |run: Run<C>| {
        move || {
            restore();
            black_box(run(call.routine, black_box(arguments)));
        }
    };
    let there = functions.map(|run| run(call.routine, arguments).is_some());
    let mut works = black_box(functions).map(through_c);
    let mut inlined = || {
        restore();
        reference::<T>(call, &pointers);
    };
    let rounds = rounds(&mut works[0]);
    let (mut times, mut inlined_times) = ([const { Vec::new() }; N], Vec::new());
    for _ in 0..SAMPLES {
        for k in (0..N).filter(|&k| there[k]) {
            times[k].push(sample(&mut works[k], rounds));
        }
        inlined_times.push(sample(&mut inlined, rounds));
    }
    Times { through_c: times.map(median), inlined: median(inlined_times) }
}

/// A line of the cache. Each slab begins with one, so that slabs lie on lines alike in every call.
#[derive(Clone, Copy)]
#[repr(align(64))]
#[allow(dead_code)]
pub(crate) struct Line([u8; 64]);

/// Lines with the elements in them.
pub(crate) fn lines<T: Element>(elements: &[T]) -> Vec<Line> {
    let mut lines = vec![Line([0; 64]); size_of_val(elements).div_ceil(64)];
    unsafe { copy_nonoverlapping(elements.as_ptr(), lines.as_mut_ptr().cast(), elements.len()) };
    lines
}

/// The Rust's kernel over views by pointer.
fn reference<T: Element>(call: &Call, pointers: &[*mut T]) {
    let view = |k: usize| {
        let View { rows, cols, row_stride, col_stride, .. } = call.views[k];
        let (row_stride, col_stride) = (row_stride as isize, col_stride as isize);
        Pointer { first: pointers[k], rows: rows as usize, cols: cols as usize, row_stride, col_stride }
    };
    let last = call.views.len() - 1;
    let (a, b, mut target) = (view(0), view(last - 1), view(last));
    let _ = black_box(kernel(call.routine, &call.flags, Scalars::<T>::of(call), &a, &b, &mut target));
}

/// How many rounds make a sample.
pub(crate) fn rounds(work: &mut impl FnMut()) -> u32 {
    let mut rounds = 1;
    while sample(work, rounds) * f64::from(rounds) < SAMPLE {
        rounds *= 2;
    }
    rounds
}

/// Nanoseconds a round. It is one function for all calls through C, and so the same code for all sides.
#[inline(never)]
pub(crate) fn sample(work: &mut impl FnMut(), rounds: u32) -> f64 {
    let begin = Instant::now();
    for _ in 0..rounds {
        work();
    }
    begin.elapsed().as_nanos() as f64 / f64::from(rounds)
}

pub(crate) fn median(mut times: Vec<f64>) -> Option<f64> {
    times.sort_by(f64::total_cmp);
    times.get(times.len() / 2).copied()
}
