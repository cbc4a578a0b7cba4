//! Storages of control-rs as arguments of `ProvedBlas`: the newtype `Proved`.

use storage::{ArrayStorage, ContiguousStorageMut, DenseStorage};
use zirve_blas::level2::Gemv;
use zirve_blas::level3::Gemm;
use zirve_blas::{ProvedBlas, Refusal, Storage, StorageMut, Strided, Trans, View};

/// Any dense storage of control-rs, to be read; one without gaps to be written too.
struct Proved<S>(S);

impl<T, S: DenseStorage<T>> Storage<T> for Proved<S> {
    fn lend(&self) -> Strided<&[T]> {
        // SAFETY: who implements `DenseStorage` promises that all its places are in one buffer that can be read. The
        // slab is the part of it from the lowest place to the highest, and is lent no longer than the storage is.
        // Between its elements a storage may leave others out; they too are numbers of that buffer, which nobody writes
        // while the storage is lent, as with every storage that control-rs makes of a slice or of its own array.
        unsafe { Strided::of_ptr(self.0.as_ptr(), self.0.rows(), self.0.cols(), self.0.r_stride(), self.0.c_stride()) }
    }
}

impl<T, S: ContiguousStorageMut<T>> StorageMut<T> for Proved<S> {
    fn lend_mut(&mut self) -> Strided<&mut [T]> {
        let view = self.lend().view;
        Strided { slab: self.0.as_mut_slice(), view }
    }
}

fn main() -> Result<(), Refusal> {
    // [[1, 2], [3, 4]], column by column
    let a = Proved(ArrayStorage::from_array([[1.0, 3.0], [2.0, 4.0]]));
    let x = Proved(ArrayStorage::from_column([1.0, 10.0]));
    let mut y = Proved(ArrayStorage::from_column([0.0, 0.0]));
    ProvedBlas::gemv(Trans::NoTrans, 1.0, &a, &x, 0.0, &mut y)?;
    assert_eq!(y.0.as_slice(), [21.0, 43.0]);

    // a view of control-rs with negative strides: [[4, 3], [2, 1]]
    let reversed = Proved(a.0.reverse_view());
    ProvedBlas::gemv(Trans::NoTrans, 1.0, &reversed, &x, 0.0, &mut y)?;
    assert_eq!(y.0.as_slice(), [34.0, 12.0]);

    // a window as the target: the whole storage's slice, and a view of the window, which begins at row 1 of column 1
    let mut whole = ArrayStorage::from_array([[0.0; 3]; 3]);
    let mut window = Strided { slab: whole.as_mut_slice(), view: View::by_cols(2, 2, 3).at(4) };
    ProvedBlas::gemm(Trans::NoTrans, Trans::NoTrans, 1.0, &a, &reversed, 0.0, &mut window)?;
    assert_eq!(whole.as_slice(), [0.0, 0.0, 0.0, 0.0, 8.0, 20.0, 0.0, 5.0, 13.0]);
    println!("three calls over storages, and their results");
    Ok(())
}

#[test]
fn results() {
    main().unwrap();
}

/// Stands for control-rs, on which this crate does not depend: its names and signatures, as far as they are used here.
/// In a program that has it, `use control_rs::math::storage::{ArrayStorage, ContiguousStorageMut, DenseStorage}` takes
/// the place of this module.
mod storage {
    use std::marker::PhantomData;

    pub trait Dim {
        const USIZE: usize;
    }

    pub struct Const<const N: usize>;

    impl<const N: usize> Dim for Const<N> {
        const USIZE: usize = N;
    }

    /// # Safety
    /// `as_ptr` points to a buffer that can be read, and row · `r_stride` + column · `c_stride` from there is a
    /// place of it for every row and column.
    pub unsafe trait DenseStorage<T> {
        type R: Dim;
        type C: Dim;

        fn rows(&self) -> usize {
            Self::R::USIZE
        }

        fn cols(&self) -> usize {
            Self::C::USIZE
        }

        fn r_stride(&self) -> isize;
        fn c_stride(&self) -> isize;
        fn as_ptr(&self) -> *const T;

        fn reverse_view<'a>(&'a self) -> StorageView<'a, T, Self::R, Self::C>
        where
            Self: 'a,
        {
            let last = (self.rows() as isize - 1) * self.r_stride() + (self.cols() as isize - 1) * self.c_stride();
            let ptr = self.as_ptr().wrapping_offset(last);
            StorageView { ptr, r_stride: -self.r_stride(), c_stride: -self.c_stride(), of: PhantomData }
        }
    }

    /// # Safety
    /// As of `DenseStorage`; the slice holds all elements and no others.
    pub unsafe trait ContiguousStorageMut<T>: DenseStorage<T> {
        fn as_mut_slice(&mut self) -> &mut [T];
    }

    pub struct StorageView<'a, T, R: Dim, C: Dim> {
        ptr: *const T,
        r_stride: isize,
        c_stride: isize,
        of: PhantomData<(&'a [T], R, C)>,
    }

    // SAFETY: the pointer and the strides are made of those of the storage that it borrows.
    unsafe impl<T, R: Dim, C: Dim> DenseStorage<T> for StorageView<'_, T, R, C> {
        type R = R;
        type C = C;

        fn r_stride(&self) -> isize {
            self.r_stride
        }

        fn c_stride(&self) -> isize {
            self.c_stride
        }

        fn as_ptr(&self) -> *const T {
            self.ptr
        }
    }

    pub struct ArrayStorage<T, const R: usize, const C: usize> {
        data: [[T; R]; C],
    }

    impl<T, const R: usize, const C: usize> ArrayStorage<T, R, C> {
        pub const fn from_array(data: [[T; R]; C]) -> Self {
            ArrayStorage { data }
        }

        pub fn as_slice(&self) -> &[T] {
            self.data.as_flattened()
        }
    }

    impl<T, const N: usize> ArrayStorage<T, N, 1> {
        pub const fn from_column(data: [T; N]) -> Self {
            ArrayStorage { data: [data] }
        }
    }

    // SAFETY: the array's columns follow one another, each of R elements.
    unsafe impl<T, const R: usize, const C: usize> DenseStorage<T> for ArrayStorage<T, R, C> {
        type R = Const<R>;
        type C = Const<C>;

        fn r_stride(&self) -> isize {
            1
        }

        fn c_stride(&self) -> isize {
            R as isize
        }

        fn as_ptr(&self) -> *const T {
            self.data.as_ptr().cast()
        }
    }

    // SAFETY: the flattened array is all of it.
    unsafe impl<T, const R: usize, const C: usize> ContiguousStorageMut<T> for ArrayStorage<T, R, C> {
        fn as_mut_slice(&mut self) -> &mut [T] {
            self.data.as_flattened_mut()
        }
    }
}
