//! The number kinds and the operations that the kernels ask of them, with document 01's meanings.
//! The traits bear the names that the kernels use; each operation on reals is IEEE 754's.

pub trait Zero {
    const ZERO: Self;
    fn is_zero(&self) -> bool;
}

pub trait One {
    const ONE: Self;
    fn is_one(&self) -> bool;
}

pub trait SaturatingAdd {
    fn saturating_add(&self, other: &Self) -> Self;
}

pub trait SaturatingSub {
    fn saturating_sub(&self, other: &Self) -> Self;
}

pub trait SaturatingMul {
    fn saturating_mul(&self, other: &Self) -> Self;
}

pub trait SaturatingDiv {
    fn saturating_div(&self, other: &Self) -> Self;
}

pub trait Scalar: Clone + Zero + One + SaturatingAdd + SaturatingSub + SaturatingMul {
    type Real: Copy;
    fn conj(self) -> Self;
    fn from_real(real: Self::Real) -> Self;
}

macro_rules! real {
    ($($real:ty),*) => {$(
        impl Zero for $real {
            const ZERO: Self = 0.0;
            fn is_zero(&self) -> bool { *self == 0.0 }
        }
        impl One for $real {
            const ONE: Self = 1.0;
            fn is_one(&self) -> bool { *self == 1.0 }
        }
        impl SaturatingAdd for $real {
            #[inline(always)]
            fn saturating_add(&self, other: &Self) -> Self { *self + *other }
        }
        impl SaturatingSub for $real {
            #[inline(always)]
            fn saturating_sub(&self, other: &Self) -> Self { *self - *other }
        }
        impl SaturatingMul for $real {
            #[inline(always)]
            fn saturating_mul(&self, other: &Self) -> Self { *self * *other }
        }
        impl SaturatingDiv for $real {
            #[inline(always)]
            fn saturating_div(&self, other: &Self) -> Self { *self / *other }
        }
        impl Scalar for $real {
            type Real = Self;
            #[inline(always)]
            fn conj(self) -> Self { self }
            #[inline(always)]
            fn from_real(real: Self) -> Self { real }
        }
    )*};
}

real!(f64, f32);

/// A real and an imaginary part, held together.
#[repr(C)]
#[derive(Clone, Copy, Debug, PartialEq)]
pub struct Complex {
    pub re: f64,
    pub im: f64,
}

impl Zero for Complex {
    const ZERO: Self = Complex { re: 0.0, im: 0.0 };
    fn is_zero(&self) -> bool {
        self.re == 0.0 && self.im == 0.0
    }
}

impl One for Complex {
    const ONE: Self = Complex { re: 1.0, im: 0.0 };
    fn is_one(&self) -> bool {
        self.re == 1.0 && self.im == 0.0
    }
}

impl SaturatingAdd for Complex {
    #[inline(always)]
    fn saturating_add(&self, other: &Self) -> Self {
        Complex { re: self.re + other.re, im: self.im + other.im }
    }
}

impl SaturatingSub for Complex {
    #[inline(always)]
    fn saturating_sub(&self, other: &Self) -> Self {
        Complex { re: self.re - other.re, im: self.im - other.im }
    }
}

impl SaturatingMul for Complex {
    #[inline(always)]
    fn saturating_mul(&self, other: &Self) -> Self {
        Complex { re: self.re * other.re - self.im * other.im, im: self.re * other.im + self.im * other.re }
    }
}

impl SaturatingDiv for Complex {
    #[inline(always)]
    fn saturating_div(&self, other: &Self) -> Self {
        let size = other.re * other.re + other.im * other.im;
        Complex {
            re: (self.re * other.re + self.im * other.im) / size,
            im: (self.im * other.re - self.re * other.im) / size,
        }
    }
}

impl Scalar for Complex {
    type Real = f64;
    #[inline(always)]
    fn conj(self) -> Self {
        Complex { re: self.re, im: -self.im }
    }
    #[inline(always)]
    fn from_real(real: f64) -> Self {
        Complex { re: real, im: 0.0 }
    }
}

/// An element as it stands in a slab: some cells, each given by its bits.
pub trait Element: Scalar + SaturatingDiv + Copy {
    /// Cells to an element.
    const WIDTH: usize;
    fn read(cells: &[u64]) -> Self;
    fn write(self, cells: &mut [u64]);
    /// A real factor from its cell.
    fn real(cell: u64) -> Self::Real;
}

impl Element for f64 {
    const WIDTH: usize = 1;
    fn read(cells: &[u64]) -> Self {
        f64::from_bits(cells[0])
    }
    fn write(self, cells: &mut [u64]) {
        cells[0] = self.to_bits();
    }
    fn real(cell: u64) -> f64 {
        f64::from_bits(cell)
    }
}

impl Element for f32 {
    const WIDTH: usize = 1;
    fn read(cells: &[u64]) -> Self {
        f32::from_bits(cells[0] as u32)
    }
    fn write(self, cells: &mut [u64]) {
        cells[0] = u64::from(self.to_bits());
    }
    fn real(cell: u64) -> f32 {
        f32::from_bits(cell as u32)
    }
}

impl Element for Complex {
    const WIDTH: usize = 2;
    fn read(cells: &[u64]) -> Self {
        Complex { re: f64::from_bits(cells[0]), im: f64::from_bits(cells[1]) }
    }
    fn write(self, cells: &mut [u64]) {
        cells[0] = self.re.to_bits();
        cells[1] = self.im.to_bits();
    }
    fn real(cell: u64) -> f64 {
        f64::from_bits(cell)
    }
}

/// The elements of a slab; an odd complex slab's last cell belongs to none.
pub fn elements<T: Element>(cells: &[u64]) -> Vec<T> {
    cells.chunks_exact(T::WIDTH).map(T::read).collect()
}

/// Writes the elements back; a cell that belongs to none stays.
pub fn store<T: Element>(elements: &[T], cells: &mut [u64]) {
    for (element, cells) in elements.iter().zip(cells.chunks_exact_mut(T::WIDTH)) {
        element.write(cells);
    }
}
