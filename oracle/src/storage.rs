//! The flags and the strided views that the kernels run over.

use crate::call::View;

#[derive(Clone, Copy, Debug, PartialEq, Eq)]
pub enum Trans {
    NoTrans,
    Trans,
    ConjTrans,
}

#[derive(Clone, Copy, Debug, PartialEq, Eq)]
pub enum UpLo {
    Upper,
    Lower,
}

#[derive(Clone, Copy, Debug, PartialEq, Eq)]
pub enum Diag {
    NonUnit,
    Unit,
}

#[derive(Clone, Copy, Debug, PartialEq, Eq)]
pub enum Side {
    Left,
    Right,
}

impl Trans {
    pub fn of(flag: u8) -> Self {
        match flag {
            0 => Trans::NoTrans,
            1 => Trans::Trans,
            2 => Trans::ConjTrans,
            _ => panic!("a flag out of its range"),
        }
    }
}

impl UpLo {
    pub fn of(flag: u8) -> Self {
        match flag {
            0 => UpLo::Upper,
            1 => UpLo::Lower,
            _ => panic!("a flag out of its range"),
        }
    }
}

impl Diag {
    pub fn of(flag: u8) -> Self {
        match flag {
            0 => Diag::NonUnit,
            1 => Diag::Unit,
            _ => panic!("a flag out of its range"),
        }
    }
}

impl Side {
    pub fn of(flag: u8) -> Self {
        match flag {
            0 => Side::Left,
            1 => Side::Right,
            _ => panic!("a flag out of its range"),
        }
    }
}

/// The kernels' one error.
#[derive(Clone, Copy, Debug, PartialEq, Eq)]
pub enum LinAlgError {
    SingularMatrix,
}

pub type LinAlgResult<T> = Result<T, LinAlgError>;

/// Read access as the kernels ask for it.
///
/// # Safety
/// The unchecked accesses want a row and a column of the view.
pub unsafe trait DenseStorage<T> {
    fn rows(&self) -> usize;
    fn cols(&self) -> usize;
    /// # Safety
    /// The row and the column are the view's.
    unsafe fn get_unchecked(&self, r: usize, c: usize) -> &T;
}

/// Write access as the kernels ask for it.
///
/// # Safety
/// As for reading.
pub unsafe trait DenseStorageMut<T>: DenseStorage<T> {
    /// # Safety
    /// The row and the column are the view's.
    unsafe fn set_unchecked(&mut self, r: usize, c: usize, value: T);
}

/// A view on its slab; an access outside the shape or the slab ends the program.
pub struct Strided<S> {
    slab: S,
    view: View,
}

impl<S> Strided<S> {
    pub fn new(slab: S, view: View) -> Self {
        Strided { slab, view }
    }

    fn place(&self, r: usize, c: usize) -> usize {
        assert!((r as u64) < self.view.rows && (c as u64) < self.view.cols);
        usize::try_from(self.view.place(r as u64, c as u64)).unwrap()
    }
}

unsafe impl<T, S: AsRef<[T]>> DenseStorage<T> for Strided<S> {
    fn rows(&self) -> usize {
        self.view.rows as usize
    }

    fn cols(&self) -> usize {
        self.view.cols as usize
    }

    unsafe fn get_unchecked(&self, r: usize, c: usize) -> &T {
        &self.slab.as_ref()[self.place(r, c)]
    }
}

unsafe impl<T, S: AsRef<[T]> + AsMut<[T]>> DenseStorageMut<T> for Strided<S> {
    unsafe fn set_unchecked(&mut self, r: usize, c: usize, value: T) {
        let place = self.place(r, c);
        self.slab.as_mut()[place] = value;
    }
}

/// A view by pointer and strides, with no test on access: what the timings use.
pub struct Pointer<T> {
    pub first: *mut T,
    pub rows: usize,
    pub cols: usize,
    pub row_stride: isize,
    pub col_stride: isize,
}

unsafe impl<T> DenseStorage<T> for Pointer<T> {
    #[inline(always)]
    fn rows(&self) -> usize {
        self.rows
    }

    #[inline(always)]
    fn cols(&self) -> usize {
        self.cols
    }

    #[inline(always)]
    unsafe fn get_unchecked(&self, r: usize, c: usize) -> &T {
        unsafe { &*self.first.offset(r as isize * self.row_stride + c as isize * self.col_stride) }
    }
}

unsafe impl<T> DenseStorageMut<T> for Pointer<T> {
    #[inline(always)]
    unsafe fn set_unchecked(&mut self, r: usize, c: usize, value: T) {
        unsafe { *self.first.offset(r as isize * self.row_stride + c as isize * self.col_stride) = value }
    }
}
