//! Generated calls: each meant to draw a given answer, though only the oracle says what it draws.

use crate::call::{Call, Kind, Routine, View};
use crate::layout::{self, Laid, Shape};
use crate::random::Random;
use crate::value::{self, POOLS, Pool};

/// What a call is to be like.
#[derive(Clone, Copy, Debug)]
pub struct Plan {
    /// Sizes m, n and k.
    pub sizes: [u64; 3],
    /// The refusals that it is meant to meet, two at most; 0 stands for none.
    pub aims: [u8; 2],
    pub pool: Pool,
}

/// Most sizes are small; every size up to 5 comes.
const SMALL: [u64; 12] = [0, 1, 1, 2, 2, 2, 3, 3, 3, 4, 4, 5];

impl Plan {
    pub fn small(rng: &mut Random, aim: u8) -> Self {
        let sizes = [rng.pick(&SMALL), rng.pick(&SMALL), rng.pick(&SMALL)];
        Plan { sizes, aims: [aim, 0], pool: rng.pick(&POOLS) }
    }

    fn aims_at(&self, refusal: u8) -> bool {
        self.aims.contains(&refusal)
    }
}

/// Views and lengths for the plan; refusals 1 to 4 are aimed at here.
pub fn views(rng: &mut Random, routine: Routine, flags: &[u8], plan: &Plan) -> Vec<Laid> {
    let least = if plan.aims_at(4) { 2 } else { u64::from(plan.aims_at(5)) };
    let mut shapes = layout::shapes(rng, routine, flags, plan.sizes.map(|size| size.max(least)));
    let views = shapes.len() as u64;
    if plan.aims_at(3) {
        let guilty = rng.below(views) as usize;
        layout::misshape(rng, &mut shapes[guilty]);
    }
    let mut laid = lay_all(rng, &shapes);
    if plan.aims_at(4) {
        *laid.last_mut().unwrap() = layout::overlap(rng, *shapes.last().unwrap());
    }
    if plan.aims_at(2) {
        let guilty = rng.below(views) as usize;
        layout::displace(rng, &mut laid[guilty]);
    }
    if plan.aims_at(1) {
        let guilty = rng.below(views) as usize;
        layout::enlarge(rng, &mut laid[guilty]);
    }
    laid
}

fn lay_all(rng: &mut Random, shapes: &[Shape]) -> Vec<Laid> {
    let target = shapes.len() - 1;
    shapes.iter().enumerate().map(|(k, &shape)| layout::lay(rng, shape, k == target)).collect()
}

/// A call on the views: slabs filled from the plan's pool, shown and hidden places alike.
pub fn fill(rng: &mut Random, routine: Routine, kind: Kind, flags: &[u8], laid: &[Laid], plan: &Plan) -> Call {
    let slabs = laid.iter().map(|laid| {
        let odd = u64::from(kind == Kind::Complex && rng.once_in(4));
        let cells = laid.length * kind.width() as u64 + odd;
        (0..cells).map(|_| value::cell(rng, kind, plan.pool)).collect()
    });
    let slabs = slabs.collect();
    let mut call = Call {
        routine,
        kind,
        flags: flags.to_vec(),
        alpha: value::scalar(rng, kind, plan.pool),
        beta: value::scalar(rng, kind, plan.pool),
        views: laid.iter().map(|laid| laid.view).collect(),
        slabs,
    };
    if plan.aims_at(5) {
        clear_pivot(rng, &mut call);
    }
    if plan.aims_at(2) && kind == Kind::Complex && rng.once_in(3) {
        halve_last(rng, &mut call);
    }
    call
}

/// Puts a zero of either sign on some place of A's diagonal.
fn clear_pivot(rng: &mut Random, call: &mut Call) {
    let a: View = call.views[0];
    let pivot = rng.below(a.rows.max(1));
    let width = call.kind.width();
    let place = a.place(pivot, pivot);
    if a.is_empty() || place < 0 || place >= i128::from(call.lengths()[0]) {
        return;
    }
    for part in 0..width {
        call.slabs[0][place as usize * width + part] = call.kind.cell(rng.pick(&[0.0, -0.0]));
    }
}

/// Takes the imaginary part of a complex slab's last element away.
fn halve_last(rng: &mut Random, call: &mut Call) {
    let guilty = rng.below(call.slabs.len() as u64) as usize;
    let slab = &mut call.slabs[guilty];
    if slab.len().is_multiple_of(2) {
        slab.pop();
    }
}

pub fn call(rng: &mut Random, routine: Routine, kind: Kind, flags: &[u8], plan: &Plan) -> Call {
    let laid = views(rng, routine, flags, plan);
    fill(rng, routine, kind, flags, &laid, plan)
}

/// The n-th of many calls: every routine, kind and flag setting in turn, most with answer 0.
pub fn nth(seed: u64, n: u64) -> Call {
    let mut rng = Random::new(seed ^ n.wrapping_mul(0xd134_2543_de82_ef95));
    let routine = Routine::ALL[(n % 15) as usize];
    let kind = Kind::ALL[(n / 15 % 3) as usize];
    let settings = routine.settings();
    let mut flags = settings[(n / 45 % settings.len() as u64) as usize].clone();
    if rng.once_in(100) {
        let flag = rng.below(flags.len() as u64) as usize;
        flags[flag] = rng.pick(&[2, 3, 4, 255]);
    }
    let aim = rng.pick(&[0, 0, 0, 0, 0, 0, 1, 2, 2, 3, 3, 4, 5, 5]);
    let mut plan = Plan::small(&mut rng, aim);
    if rng.once_in(20) {
        plan.aims[1] = rng.pick(&[1, 2, 3, 4, 5]);
    }
    if rng.once_in(100) {
        plan.sizes = [0; 3].map(|_| rng.pick(&[1, 7, 8, 9, 16, 17, 31, 33, 63, 64, 64, 65]));
    }
    call(&mut rng, routine, kind, &flags, &plan)
}

/// So many calls from a seed.
pub fn many(calls: u64, seed: u64) -> impl Iterator<Item = Call> {
    (0..calls).map(move |n| nth(seed, n))
}

/// Every view of at most 3 rows and columns, strides from -3 to 3, start below 5 and length below 7, as gemm's
/// target: the product is empty and beta is 2, so that what doubles is what the view shows.
pub fn every_small_view() -> impl Iterator<Item = Call> {
    let sizes = [4, 4, 7, 7, 5, 7];
    (0..sizes.iter().product()).map(move |n: u64| {
        let mut rest = n;
        let [rows, cols, row_stride, col_stride, start, length] = sizes.map(|size| {
            let digit = rest % size;
            rest /= size;
            digit
        });
        let (row_stride, col_stride) = (row_stride as i64 - 3, col_stride as i64 - 3);
        let kind = Kind::ALL[(n % 3) as usize];
        let empty = |rows, cols| View { start: 0, rows, cols, row_stride: 1, col_stride: 1 };
        let cells = length * kind.width() as u64;
        Call {
            routine: Routine::Gemm,
            kind,
            flags: vec![0, 0],
            alpha: [kind.cell(1.0), 0],
            beta: [kind.cell(2.0), 0],
            views: vec![empty(rows, 0), empty(0, cols), View { start, rows, cols, row_stride, col_stride }],
            slabs: vec![vec![], vec![], (1..=cells).map(|cell| kind.cell(cell as f64)).collect()],
        }
    })
}
