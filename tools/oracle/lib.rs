//! The portable kernels of rav1d 1.1.0 as they stand in its text, driven by plain numbers.
//!
//! The script `build` lays beside this file the crate's `itx_1d.rs`, unmodified, and `itx_cut.rs`, three functions cut
//! out of its `itx.rs`. With `--cfg recorder` each pass tells its mark; without it nothing is added to the kernels.

#[cfg(recorder)]
pub mod calls;
#[cfg(recorder)]
pub mod cases;
#[cfg(recorder)]
pub mod compare;
pub mod exports;
#[cfg(recorder)]
pub mod format;
pub mod itx;
#[allow(dead_code)]
mod itx_1d;
pub mod shim;
#[cfg(recorder)]
pub mod words;

/// The path by which `itx_1d.rs` names its clip.
mod include {
    pub mod common {
        pub mod intops {
            pub use crate::shim::iclip;
        }
    }
}
