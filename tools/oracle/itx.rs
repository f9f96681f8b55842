//! The functions cut out of the crate's `itx.rs`, and the choice of their constant parameters at run time.

#[cfg(recorder)]
use crate::shim::recorder::{inv_dct16_half_1d, inv_dct32_half_1d, inv_dct4_half_1d, inv_dct8_half_1d};
#[cfg(recorder)]
use crate::shim::recorder::{rav1d_inv_dct16_1d_c, rav1d_inv_dct32_1d_c, rav1d_inv_dct4_1d_c, rav1d_inv_dct8_1d_c};

use crate::itx_1d::*;
use crate::shim::*;
use std::cmp;
use std::num::NonZeroUsize;

include!("itx_cut.rs");

/// A block's size and type, and the end of block: 0 or more.
#[derive(Clone, Copy)]
pub struct Plan {
    pub w: usize,
    pub h: usize,
    pub txtp: usize,
    pub eob: i32,
}

/// `inv_txfm_add_rust` on a plane with its offset and stride, both in pixels.
pub fn add<const W: usize, const H: usize, const TYPE: TxfmType, BD: BitDepth>(
    plane: &mut [BD::Pixel],
    offset: usize,
    stride: isize,
    coeff: &mut [BD::Coef],
    eob: i32,
    bd: BD,
) {
    let dst = Rav1dPictureDataComponentOffset::new::<BD>(plane, offset, stride);
    inv_txfm_add_rust::<W, H, TYPE, BD>(dst, coeff, eob, bd)
}

/// `add` by size.
pub fn add_by_plan<BD: BitDepth>(
    plane: &mut [BD::Pixel],
    offset: usize,
    stride: isize,
    coeff: &mut [BD::Coef],
    plan: Plan,
    bd: BD,
) {
    macro_rules! among {
        ($($w:literal x $h:literal),*) => {
            match (plan.w, plan.h) {
                $(($w, $h) => add_by_type::<$w, $h, BD>(plane, offset, stride, coeff, plan, bd),)*
                (w, h) => panic!("no size {w}x{h}"),
            }
        };
    }
    among!(
        4 x 4, 4 x 8, 4 x 16, 8 x 4, 8 x 8, 8 x 16, 8 x 32, 16 x 4, 16 x 8, 16 x 16, 16 x 32, 32 x 8, 32 x 16, 32 x 32
    )
}

/// `add` by type. All of the crate's types are here; which of them a size has is said in `cases`.
fn add_by_type<const W: usize, const H: usize, BD: BitDepth>(
    plane: &mut [BD::Pixel],
    offset: usize,
    stride: isize,
    coeff: &mut [BD::Coef],
    plan: Plan,
    bd: BD,
) {
    macro_rules! among {
        ($($name:ident),*) => {
            match plan.txtp as TxfmType {
                $($name => add::<W, H, $name, BD>(plane, offset, stride, coeff, plan.eob, bd),)*
                txtp => panic!("no type {txtp}"),
            }
        };
    }
    among!(
        DCT_DCT,
        ADST_DCT,
        DCT_ADST,
        ADST_ADST,
        FLIPADST_DCT,
        DCT_FLIPADST,
        FLIPADST_FLIPADST,
        ADST_FLIPADST,
        FLIPADST_ADST,
        IDTX,
        V_DCT,
        H_DCT,
        V_ADST,
        H_ADST,
        V_FLIPADST,
        H_FLIPADST,
        WHT_WHT
    )
}

/// The kind of a one-dimensional pass; its number is that of the records of `passes`.
#[derive(Clone, Copy, PartialEq, Eq, Debug)]
pub enum Kind {
    Dct,
    Identity,
    Wht,
    HalfDct,
    Adst,
    FlipAdst,
}

impl Kind {
    /// How many of n elements it reads.
    pub fn looked(self, n: usize) -> usize {
        if self == Kind::HalfDct {
            n / 2
        } else {
            n
        }
    }
}

/// The crate's pass of n points of a kind.
pub fn pass(kind: Kind, n: usize, c: &mut [i32], stride: usize, min: i32, max: i32) {
    let stride = NonZeroUsize::new(stride).expect("a stride above 0");
    let run: Itx1dFn = match (kind, n) {
        (Kind::Dct, 4) => rav1d_inv_dct4_1d_c,
        (Kind::Dct, 8) => rav1d_inv_dct8_1d_c,
        (Kind::Dct, 16) => rav1d_inv_dct16_1d_c,
        (Kind::Dct, 32) => rav1d_inv_dct32_1d_c,
        (Kind::HalfDct, 4) => inv_dct4_half_1d,
        (Kind::HalfDct, 8) => inv_dct8_half_1d,
        (Kind::HalfDct, 16) => inv_dct16_half_1d,
        (Kind::HalfDct, 32) => inv_dct32_half_1d,
        (Kind::Identity, 4) => rav1d_inv_identity4_1d_c,
        (Kind::Identity, 8) => rav1d_inv_identity8_1d_c,
        (Kind::Identity, 16) => rav1d_inv_identity16_1d_c,
        (Kind::Identity, 32) => rav1d_inv_identity32_1d_c,
        (Kind::Adst, 4) => rav1d_inv_adst4_1d_c,
        (Kind::FlipAdst, 4) => rav1d_inv_flipadst4_1d_c,
        (Kind::Wht, 4) => |c, stride, _, _| rav1d_inv_wht4_1d_c(c, stride),
        _ => panic!("no {kind:?} of {n} points"),
    };
    run(c, stride, min, max)
}
