//! Parts of control-rs, unmodified, that document 01 replaces: they are run to show where the two part.
#![allow(warnings, clippy::all)]

/// Its operations on floats.
pub mod ops {
    use core::ops::{Add, Div, Mul, Neg, Sub};

    include!(concat!(env!("OUT_DIR"), "/ops.rs"));
}

/// Its place of an element, counted from the first, and its test of a window.
pub mod place {
    include!(concat!(env!("OUT_DIR"), "/place.rs"));

    pub struct Strides(pub isize, pub isize);

    impl Offset for Strides {
        fn r_stride(&self) -> isize {
            self.0
        }
        fn c_stride(&self) -> isize {
            self.1
        }
    }

    pub fn window_fits(len: usize, strides: (isize, isize), shape: (usize, usize)) -> bool {
        strided_window_fits(len, strides, shape)
    }
}
