//! The functions that `libsgrifomel.a` exports. A slice passes as a pointer, then a length.

macro_rules! passes {
    ($($name:ident),*) => {
        extern "C" {
            $(pub fn $name(c: *mut i32, len: usize, stride: usize, min: i32, max: i32) -> u64;)*
        }
    };
}

passes!(
    sgrifomel_inv_dct4_1d,
    sgrifomel_inv_dct8_1d,
    sgrifomel_inv_dct16_1d,
    sgrifomel_inv_dct32_1d,
    sgrifomel_inv_dct4_half_1d,
    sgrifomel_inv_dct8_half_1d,
    sgrifomel_inv_dct16_half_1d,
    sgrifomel_inv_dct32_half_1d,
    sgrifomel_inv_identity4_1d,
    sgrifomel_inv_identity8_1d,
    sgrifomel_inv_identity16_1d,
    sgrifomel_inv_identity32_1d,
    sgrifomel_inv_adst4_1d,
    sgrifomel_inv_flipadst4_1d
);

extern "C" {
    pub fn sgrifomel_inv_wht4_1d(c: *mut i32, len: usize, stride: usize) -> u64;
}

macro_rules! block {
    ($name:ident, $pixel:ty, $coef:ty, $last:ident: $number:ty $(, $depth:ident)?) => {
        extern "C" {
            pub fn $name(
                dst: *mut $pixel,
                dst_len: usize,
                offset: u32,
                stride_bytes: i32,
                columns: usize,
                rows: usize,
                coeff: *mut $coef,
                coeff_len: usize,
                $last: $number,
                w: usize,
                h: usize,
                txtp: usize,
                $($depth: usize,)?
            ) -> u64;
        }
    };
}

block!(sgrifomel_inv_txfm_add, u16, i32, eob: i32, depth);
block!(sgrifomel_inv_txfm_add_live, u16, i32, r: usize, depth);
block!(sgrifomel_inv_txfm_add_8bpc, u8, i16, eob: i32);
block!(sgrifomel_inv_txfm_add_live_8bpc, u8, i16, r: usize);
block!(sgrifomel_spec_inv_txfm_add, u16, i32, eob: i32, depth);
block!(sgrifomel_spec_inv_txfm_add_live, u16, i32, r: usize, depth);

extern "C" {
    pub fn sgrifomel_fwd_wht4x4(
        residual: *const i32,
        residual_len: usize,
        coeff: *mut i32,
        coeff_len: usize,
        depth: usize,
    ) -> u64;
}
