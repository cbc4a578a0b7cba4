//! The oracle: control-rs's dense kernels, unmodified, with document 01's refusals, as the judge of
//! zirve-blas. Without the published source at build time most of it is left out.

/// What is said where the published source is not at hand.
pub const SKIPPED: &str = "oracle: ../shared/docs/src is not there, so there is no oracle; skipped";

/// What is said where Netlib's reference BLAS is not linked.
pub const NO_NETLIB: &str = "oracle: Netlib's reference BLAS is not there (libblas-dev); skipped";

#[cfg(reference)]
pub mod answer;
#[cfg(reference)]
pub mod bench;
pub mod call;
pub mod capi;
pub mod card;
#[cfg(reference)]
pub mod cblas;
#[cfg(reference)]
pub mod compare;
pub mod corners;
#[cfg(reference)]
pub mod default_blas;
#[cfg(reference)]
pub mod differences;
#[cfg(all(reference, netlib))]
pub mod examples;
#[cfg(reference)]
pub mod faults;
#[cfg(reference)]
pub mod format;
pub mod generate;
pub mod layout;
#[cfg(reference)]
pub mod list;
#[cfg(netlib)]
pub mod netlib;
pub mod number;
#[cfg(reference)]
pub mod page;
#[cfg(reference)]
pub mod published;
pub mod random;
#[cfg(reference)]
pub mod reference;
pub mod refusal;
pub mod storage;
pub mod value;
