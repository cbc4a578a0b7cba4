//! A call of a routine as plain data: numbers by their bits, so that it is the same for every kind.

/// The fifteen routines, numbered in this order.
#[derive(Clone, Copy, Debug, PartialEq, Eq)]
pub enum Routine {
    Gemv,
    Hemv,
    Her,
    Her2,
    Trmv,
    Trsv,
    Gemm,
    Symm,
    Hemm,
    Syrk,
    Herk,
    Syr2k,
    Her2k,
    Trmm,
    Trsm,
}

use Routine::*;

/// The flags, each with the Rust's order of its values.
#[derive(Clone, Copy, Debug, PartialEq, Eq)]
pub enum Flag {
    Side,
    UpLo,
    Trans,
    Diag,
}

impl Flag {
    /// How many values it has.
    pub fn values(self) -> u8 {
        if self == Flag::Trans { 3 } else { 2 }
    }
}

/// What a routine takes as alpha or as beta.
#[derive(Clone, Copy, Debug, PartialEq, Eq)]
pub enum Factor {
    Nothing,
    Element,
    Real,
}

impl Routine {
    pub const ALL: [Routine; 15] =
        [Gemv, Hemv, Her, Her2, Trmv, Trsv, Gemm, Symm, Hemm, Syrk, Herk, Syr2k, Her2k, Trmm, Trsm];

    pub fn name(self) -> &'static str {
        [
            "gemv", "hemv", "her", "her2", "trmv", "trsv", "gemm", "symm", "hemm", "syrk", "herk", "syr2k", "her2k",
            "trmm", "trsm",
        ][self as usize]
    }

    /// Its flags in the order of its arguments.
    pub fn flags(self) -> &'static [Flag] {
        match self {
            Gemv => &[Flag::Trans],
            Hemv | Her | Her2 => &[Flag::UpLo],
            Trmv | Trsv => &[Flag::UpLo, Flag::Trans, Flag::Diag],
            Gemm => &[Flag::Trans, Flag::Trans],
            Symm | Hemm => &[Flag::Side, Flag::UpLo],
            Syrk | Herk | Syr2k | Her2k => &[Flag::UpLo, Flag::Trans],
            Trmm | Trsm => &[Flag::Side, Flag::UpLo, Flag::Trans, Flag::Diag],
        }
    }

    /// Every setting of its flags.
    pub fn settings(self) -> Vec<Vec<u8>> {
        self.flags().iter().fold(vec![vec![]], |settings, flag| {
            let longer = |setting: &Vec<u8>, value| [setting.as_slice(), &[value]].concat();
            settings.iter().flat_map(|s| (0..flag.values()).map(move |value| longer(s, value))).collect()
        })
    }

    /// The number of its views; the last is the target.
    pub fn views(self) -> usize {
        match self {
            Her | Trmv | Trsv | Syrk | Herk | Trmm | Trsm => 2,
            _ => 3,
        }
    }

    /// Is its k-th view a vector?
    pub fn is_vector(self, k: usize) -> bool {
        match self {
            Gemv | Hemv => k > 0,
            Her => k == 0,
            Her2 => k < 2,
            Trmv | Trsv => k == 1,
            _ => false,
        }
    }

    pub fn alpha(self) -> Factor {
        match self {
            Trmv | Trsv => Factor::Nothing,
            Her | Herk => Factor::Real,
            _ => Factor::Element,
        }
    }

    pub fn beta(self) -> Factor {
        match self {
            Her | Her2 | Trmv | Trsv | Trmm | Trsm => Factor::Nothing,
            Herk | Her2k => Factor::Real,
            _ => Factor::Element,
        }
    }

    pub fn is_solve(self) -> bool {
        matches!(self, Trsv | Trsm)
    }

    /// Is only the named triangle of the target written?
    pub fn updates_triangle(self) -> bool {
        matches!(self, Her | Her2 | Syrk | Herk | Syr2k | Her2k)
    }
}

/// The element kinds, numbered in this order.
#[derive(Clone, Copy, Debug, PartialEq, Eq)]
pub enum Kind {
    F64,
    F32,
    Complex,
}

impl Kind {
    pub const ALL: [Kind; 3] = [Kind::F64, Kind::F32, Kind::Complex];

    pub fn name(self) -> &'static str {
        ["f64", "f32", "complex"][self as usize]
    }

    /// Cells to an element.
    pub fn width(self) -> usize {
        if self == Kind::Complex { 2 } else { 1 }
    }

    pub fn is_nan(self, cell: u64) -> bool {
        match self {
            Kind::F32 => f32::from_bits(cell as u32).is_nan(),
            _ => f64::from_bits(cell).is_nan(),
        }
    }

    /// The cell that holds the number, rounded once.
    pub fn cell(self, number: f64) -> u64 {
        match self {
            Kind::F32 => u64::from((number as f32).to_bits()),
            _ => number.to_bits(),
        }
    }

    pub fn number(self, cell: u64) -> f64 {
        match self {
            Kind::F32 => f64::from(f32::from_bits(cell as u32)),
            _ => f64::from_bits(cell),
        }
    }

    /// The same bits, every NaN being as every other.
    pub fn same(self, a: u64, b: u64) -> bool {
        a == b || (self.is_nan(a) && self.is_nan(b))
    }

    /// Equal as numbers: +0 equals -0, every NaN every NaN.
    pub fn equal(self, a: u64, b: u64) -> bool {
        self.same(a, b) || self.number(a) == self.number(b)
    }
}

/// Start, rows, columns and two signed strides, counted in elements.
#[derive(Clone, Copy, Debug, PartialEq, Eq)]
pub struct View {
    pub start: u64,
    pub rows: u64,
    pub cols: u64,
    pub row_stride: i64,
    pub col_stride: i64,
}

impl View {
    /// Where element (r, c) is, worked out exactly.
    pub fn place(&self, r: u64, c: u64) -> i128 {
        i128::from(self.start)
            + i128::from(r) * i128::from(self.row_stride)
            + i128::from(c) * i128::from(self.col_stride)
    }

    /// The places of all elements, by rows.
    pub fn places(&self) -> Vec<i128> {
        (0..self.rows).flat_map(|r| (0..self.cols).map(move |c| self.place(r, c))).collect()
    }

    pub fn is_empty(&self) -> bool {
        self.rows == 0 || self.cols == 0
    }
}

/// A routine with all its arguments; the last view and slab are the target's.
#[derive(Clone, Debug, PartialEq, Eq)]
pub struct Call {
    pub routine: Routine,
    pub kind: Kind,
    pub flags: Vec<u8>,
    /// Real and imaginary part; of a real factor, or in a real kind, the first alone counts.
    pub alpha: [u64; 2],
    pub beta: [u64; 2],
    pub views: Vec<View>,
    /// The cells of each slab.
    pub slabs: Vec<Vec<u64>>,
}

impl Call {
    /// The slabs' lengths in elements.
    pub fn lengths(&self) -> Vec<u64> {
        self.slabs.iter().map(|slab| (slab.len() / self.kind.width()) as u64).collect()
    }

    pub fn target(&self) -> &[u64] {
        self.slabs.last().unwrap()
    }

    /// The call with each view laid by columns on a slab that it fills.
    pub fn by_columns(mut self) -> Self {
        let width = self.kind.width();
        for (view, slab) in self.views.iter_mut().zip(&mut self.slabs) {
            let laid = View { start: 0, row_stride: 1, col_stride: view.rows.max(1) as i64, ..*view };
            let mut cells = vec![0; (view.rows * view.cols) as usize * width];
            for (from, to) in view.places().into_iter().zip(laid.places()) {
                cells[to as usize * width..][..width].copy_from_slice(&slab[from as usize * width..][..width]);
            }
            (*view, *slab) = (laid, cells);
        }
        self
    }

    /// The cells of the scalars in the order of the arguments.
    pub fn scalars(&self) -> Vec<u64> {
        let cells = |factor, value: &[u64; 2]| match factor {
            Factor::Nothing => vec![],
            Factor::Real => vec![value[0]],
            Factor::Element => value[..self.kind.width()].to_vec(),
        };
        [cells(self.routine.alpha(), &self.alpha), cells(self.routine.beta(), &self.beta)].concat()
    }

    /// The call in one line, for a message.
    pub fn show(&self) -> String {
        let numbers = |cells: &[u64]| cells.iter().map(|&cell| self.kind.number(cell)).collect::<Vec<_>>();
        let views = self.views.iter().zip(&self.slabs).map(|(v, slab)| {
            let View { start, rows, cols, row_stride, col_stride } = v;
            format!("[{rows} by {cols}, start {start}, strides {row_stride} {col_stride}, {:?}]", numbers(slab))
        });
        format!(
            "{} {} flags {:?} alpha {:?} beta {:?} {}",
            self.routine.name(),
            self.kind.name(),
            self.flags,
            numbers(&self.alpha),
            numbers(&self.beta),
            views.collect::<Vec<_>>().join(" ")
        )
    }
}
