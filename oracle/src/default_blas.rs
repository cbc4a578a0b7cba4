//! The fifteen dense kernels of control-rs's `DefaultBlas`, unmodified; the build takes them from
//! the published source.
#![allow(warnings, clippy::all)]

use crate::number::{One, Zero};
use crate::number::{SaturatingAdd, SaturatingDiv, SaturatingMul, SaturatingSub, Scalar};
use crate::storage::{DenseStorage, DenseStorageMut, Diag, LinAlgError, LinAlgResult, Side, Trans, UpLo};

include!(concat!(env!("OUT_DIR"), "/default_blas.rs"));
