//! The fixed list: calls with the answers that they draw and the targets that they leave, one file
//! for each family of kernels, one of refusals alone, and one of card calls.

use crate::call::Routine::*;
use crate::call::{Kind, Routine, View};
use crate::card;
use crate::corners;
use crate::format::{Check, LONGEST, Record, bodies, body, check_body, file, read_head};
use crate::generate::{self, Plan};
use crate::layout::{self, Laid};
use crate::random::Random;
use crate::refusal::refusal;
use crate::value::{self, POOLS, Pool};

/// The longest slab, in cells.
pub const CELLS: usize = 144;
/// A file of the list.
pub struct Family {
    pub name: &'static str,
    pub routines: &'static [Routine],
    seed: u64,
    /// Calls for each routine, kind and flag setting.
    plain: usize,
    /// Calls for each routine, kind and refusal.
    refused: usize,
}

pub const FAMILIES: [Family; 3] = [
    Family { name: "product", routines: &[Gemv, Hemv, Gemm, Symm, Hemm, Syrk, Herk], seed: 1, plain: 7, refused: 5 },
    Family { name: "rank", routines: &[Her, Her2, Syr2k, Her2k], seed: 2, plain: 9, refused: 5 },
    Family { name: "triangle", routines: &[Trmv, Trsv, Trmm, Trsm], seed: 3, plain: 4, refused: 5 },
];

/// The file of refusals alone: views and lengths, no numbers.
pub const CHECK: &str = "check";
const CHECK_SEED: u64 = 4;

/// The records of a family.
pub fn records(family: &Family) -> Vec<Record> {
    let rng = &mut Random::new(family.seed);
    let mut records: Vec<Record> = corners::all()
        .into_iter()
        .filter(|corner| family.routines.contains(&corner.call.routine))
        .map(|corner| Record::of(corner.call))
        .collect();
    for &routine in family.routines {
        for kind in Kind::ALL {
            for flags in routine.settings() {
                for n in 0..family.plain {
                    records.push(plain(rng, routine, kind, &flags, n));
                }
                if routine.is_solve() && flags.last() == Some(&0) {
                    records.extend((0..3).map(|pivot| singular(rng, routine, kind, &flags, pivot)));
                }
            }
            for aim in 1..=4 {
                records.extend((0..family.refused).map(|_| refused(rng, routine, kind, aim)));
            }
            records.extend((0..3).map(|n| special(rng, routine, kind, n)));
            records.extend((0..4).map(|n| large(rng, routine, kind, n)));
            records.extend([i64::MIN, i64::MAX].map(|stride| {
                accepted_with(rng, routine, kind, |view| view.row_stride == stride || view.col_stride == stride)
            }));
            records.push(accepted_with(rng, routine, kind, |view| view.start == u64::MAX));
        }
    }
    records
}

/// Calls until one fits in a record.
fn until_it_fits(mut next: impl FnMut() -> Option<Record>) -> Record {
    loop {
        if let Some(record) = next().filter(fits) {
            return record;
        }
    }
}

fn fits(record: &Record) -> bool {
    record.call.slabs.iter().all(|slab| slab.len() <= CELLS) && body(record).len() <= LONGEST
}

fn plain(rng: &mut Random, routine: Routine, kind: Kind, flags: &[u8], n: usize) -> Record {
    until_it_fits(|| {
        let plan = Plan { pool: POOLS[n % POOLS.len()], ..Plan::small(rng, 0) };
        Some(Record::of(generate::call(rng, routine, kind, flags, &plan)))
    })
}

fn refused(rng: &mut Random, routine: Routine, kind: Kind, aim: u8) -> Record {
    until_it_fits(|| {
        let flags = setting(rng, routine);
        let mut plan = Plan::small(rng, aim);
        if rng.once_in(3) {
            plan.aims[1] = rng.pick(&[2, 3, 4, 5]);
        }
        let record = Record::of(generate::call(rng, routine, kind, &flags, &plan));
        (record.answer == aim).then_some(record)
    })
}

/// An accepted call of size 3 in which every other cell is special; three of them show every one.
fn special(rng: &mut Random, routine: Routine, kind: Kind, n: usize) -> Record {
    until_it_fits(|| {
        let flags = setting(rng, routine);
        let plan = Plan { sizes: [3; 3], aims: [0, 0], pool: Pool::Fine };
        let mut call = generate::call(rng, routine, kind, &flags, &plan);
        for (k, cell) in call.slabs.iter_mut().flatten().step_by(2).enumerate() {
            *cell = value::specials(kind)[(6 * n + k) % 16];
        }
        Some(Record::of(call)).filter(|record| record.answer == 0)
    })
}

/// An accepted call with a view that is as told.
fn accepted_with(rng: &mut Random, routine: Routine, kind: Kind, told: impl Fn(&View) -> bool) -> Record {
    until_it_fits(|| {
        let flags = setting(rng, routine);
        let plan = Plan::small(rng, 0);
        let record = Record::of(generate::call(rng, routine, kind, &flags, &plan));
        (record.answer == 0 && record.call.views.iter().any(&told)).then_some(record)
    })
}

/// A solve of three unknowns with a zero pivot at the given place.
fn singular(rng: &mut Random, routine: Routine, kind: Kind, flags: &[u8], pivot: u64) -> Record {
    until_it_fits(|| {
        let plan = Plan { sizes: [3, 3, 3], aims: [0, 0], pool: rng.pick(&[Pool::Fine, Pool::Whole]) };
        let mut call = generate::call(rng, routine, kind, flags, &plan);
        let width = kind.width();
        let place = call.views[0].place(pivot, pivot) as usize * width;
        call.slabs[0][place..place + width].fill(kind.cell(rng.pick(&[0.0, -0.0])));
        let record = Record::of(call);
        (record.answer == 5).then_some(record)
    })
}

/// Sizes 64 and 65 on slabs that stay short.
fn large(rng: &mut Random, routine: Routine, kind: Kind, n: u64) -> Record {
    let size = if n % 4 == 3 { 65 } else { 64 };
    until_it_fits(|| {
        let flags = setting(rng, routine);
        let mut sizes = [0; 3].map(|_| rng.below(2));
        sizes[rng.below(3) as usize] = size;
        let plan = Plan { sizes, aims: [0, 0], pool: rng.pick(&POOLS) };
        let shapes = layout::shapes(rng, routine, &flags, plan.sizes);
        if !shapes.iter().any(|&(rows, cols)| rows == size || cols == size) {
            return None;
        }
        let last = shapes.len() - 1;
        let mut laid: Vec<Laid> = Vec::new();
        for (k, &shape) in shapes.iter().enumerate() {
            let squeezed = size == 65 && k == last;
            laid.push(layout::thin(rng, shape, k == last && !squeezed));
        }
        // A square target of 64 rows is too long for a record; a shorter slab refuses it.
        if routine.updates_triangle() && shapes[last].0 == 64 {
            laid[last].length = laid[last].length.min(40);
        }
        Some(Record::of(generate::fill(rng, routine, kind, &flags, &laid, &plan)))
    })
}

fn setting(rng: &mut Random, routine: Routine) -> Vec<u8> {
    let settings = routine.settings();
    settings[rng.below(settings.len() as u64) as usize].clone()
}

/// The checks: each routine and flag setting, accepted and refused, on slabs of any length.
pub fn checks() -> Vec<Check> {
    let rng = &mut Random::new(CHECK_SEED);
    let mut checks = Vec::new();
    for routine in Routine::ALL {
        let settings = routine.settings();
        for n in 0..settings.len().max(6) {
            let flags = &settings[n % settings.len()];
            for aims in [[0, 0], [1, 2], [2, 0], [2, 3], [3, 0], [3, 4], [4, 0]] {
                let plan = Plan { aims, ..Plan::small(rng, 0) };
                let laid = generate::views(rng, routine, flags, &plan);
                checks.push(check(routine, flags, &laid));
            }
            for way in 0..6 {
                checks.push(far_check(rng, routine, flags, way));
            }
        }
    }
    checks
}

/// A check with large sizes, long slabs or places at the upper end.
fn far_check(rng: &mut Random, routine: Routine, flags: &[u8], way: u64) -> Check {
    let sizes = match way {
        0 => [0; 3].map(|_| rng.pick(&[63, 64])),
        1 => [0; 3].map(|_| rng.pick(&[1, 64, 65])),
        2 | 3 => [0; 3].map(|_| rng.pick(&[1, 2, 3, 5, 64])),
        _ => [0; 3].map(|_| rng.below(4)),
    };
    let shapes = layout::shapes(rng, routine, flags, sizes);
    let last = shapes.len() - 1;
    let mut laid = Vec::new();
    for (k, &shape) in shapes.iter().enumerate() {
        laid.push(match way {
            0 | 1 => layout::lay(rng, shape, k == last),
            2 | 3 => layout::far(rng, shape),
            _ if rng.once_in(2) => layout::high(rng, shape),
            _ => layout::lay(rng, shape, k == last),
        });
    }
    check(routine, flags, &laid)
}

fn check(routine: Routine, flags: &[u8], laid: &[Laid]) -> Check {
    let views: Vec<View> = laid.iter().map(|laid| laid.view).collect();
    let lengths: Vec<u64> = laid.iter().map(|laid| laid.length).collect();
    let answer = refusal(routine, flags, &views, &lengths);
    Check { routine, flags: flags.to_vec(), views, lengths, answer }
}

/// Every file of the list: its name and its bytes.
pub fn files() -> Vec<(&'static str, Vec<u8>)> {
    let mut files = Vec::new();
    for family in &FAMILIES {
        files.push((family.name, file(&records(family).iter().map(body).collect::<Vec<_>>())));
    }
    files.push((CHECK, file(&checks().iter().map(check_body).collect::<Vec<_>>())));
    files.push((card::list::NAME, card::list::bytes()));
    files
}

/// Counts of a file by routine, kind and answer, as lines of a table.
pub fn counts(name: &str, file: &[u8]) -> String {
    let bodies = bodies(file);
    let mut table = format!("{name}: {} calls, {} bytes\n", bodies.len(), file.len());
    for routine in Routine::ALL {
        for (kind, kind_name) in ["f64", "f32", "complex", "-"].into_iter().enumerate() {
            let mut counts = [0; 6];
            for body in &bodies {
                let (r, k, answer, _) = read_head(body);
                if r == routine && usize::from(k) == kind {
                    counts[usize::from(answer)] += 1;
                }
            }
            if counts != [0; 6] {
                let cells: Vec<String> = counts.iter().map(|count| format!("{count:6}")).collect();
                table += &format!("  {:6} {kind_name:8}{}\n", routine.name(), cells.concat());
            }
        }
    }
    table
}
