
// This stands after the crate's text, unmodified, in one file with it: its DCTs with `tx64` 1, which it calls from the 64-point DCT alone.

pub fn inv_dct4_half_1d(c: &mut [i32], stride: NonZeroUsize, min: c_int, max: c_int) {
    inv_dct4_1d_internal_c(c, stride, min, max, 1);
}

pub fn inv_dct8_half_1d(c: &mut [i32], stride: NonZeroUsize, min: c_int, max: c_int) {
    inv_dct8_1d_internal_c(c, stride, min, max, 1);
}

pub fn inv_dct16_half_1d(c: &mut [i32], stride: NonZeroUsize, min: c_int, max: c_int) {
    inv_dct16_1d_internal_c(c, stride, min, max, 1);
}

pub fn inv_dct32_half_1d(c: &mut [i32], stride: NonZeroUsize, min: c_int, max: c_int) {
    inv_dct32_1d_internal_c(c, stride, min, max, 1);
}
