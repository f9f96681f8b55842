//! What the kernels name and the text given does not have in a form that compiles alone: conversions, `BitDepth`, the
//! type numbers, the picture plane and `iclip`. Each has the meaning that its file in the crate gives it, and no more
//! of it than the kernels use.

use std::ffi::c_int;
use std::marker::PhantomData;
use std::mem::size_of;
use std::ops::Add;
use std::slice;

// include/common/bitdepth.rs: the conversions.

pub trait FromPrimitive<T> {
    fn from_prim(t: T) -> Self;
}

pub trait ToPrimitive<T> {
    fn to_prim(self) -> T;
}

impl<T, U: FromPrimitive<T>> ToPrimitive<U> for T {
    fn to_prim(self) -> U {
        U::from_prim(self)
    }
}

pub trait AsPrimitive: Sized {
    fn as_<T>(self) -> T
    where
        Self: ToPrimitive<T>,
    {
        self.to_prim()
    }
}

impl<T> AsPrimitive for T {}

macro_rules! from_primitive {
    ($($from:ty => $to:ty),*) => {
        $(impl FromPrimitive<$from> for $to {
            fn from_prim(t: $from) -> $to {
                t as $to
            }
        })*
    };
}

from_primitive!(u8 => i32, u16 => i32, i16 => i32, i32 => i32, i32 => i16, i32 => u8, i32 => u16);

// include/common/bitdepth.rs: the two widths.

pub trait BitDepth: Copy {
    const BITDEPTH: u8;

    type Pixel: Copy + FromPrimitive<i32> + ToPrimitive<i32>;
    type Coef: Copy + From<i16> + FromPrimitive<i32> + ToPrimitive<i32>;

    fn bitdepth_max(&self) -> Self::Pixel;

    /// By the crate's `clip` and not its `iclip`, so the recorder does not see it.
    fn iclip_pixel(&self, pixel: i32) -> Self::Pixel {
        pixel.max(0).min(self.bitdepth_max().as_()).as_()
    }
}

#[derive(Clone, Copy)]
pub struct BitDepth8;

impl BitDepth for BitDepth8 {
    const BITDEPTH: u8 = 8;

    type Pixel = u8;
    type Coef = i16;

    fn bitdepth_max(&self) -> u8 {
        u8::MAX
    }
}

#[derive(Clone, Copy)]
pub struct BitDepth16 {
    pub bitdepth_max: u16,
}

impl BitDepth for BitDepth16 {
    const BITDEPTH: u8 = 16;

    type Pixel = u16;
    type Coef = i32;

    fn bitdepth_max(&self) -> u16 {
        self.bitdepth_max
    }
}

// src/levels.rs: the type numbers.

pub type TxfmType = u8;

macro_rules! type_numbers {
    ($($name:ident = $number:literal),*) => { $(pub const $name: TxfmType = $number;)* };
}

type_numbers!(
    DCT_DCT = 0,
    ADST_DCT = 1,
    DCT_ADST = 2,
    ADST_ADST = 3,
    FLIPADST_DCT = 4,
    DCT_FLIPADST = 5,
    FLIPADST_FLIPADST = 6,
    ADST_FLIPADST = 7,
    FLIPADST_ADST = 8,
    IDTX = 9,
    V_DCT = 10,
    H_DCT = 11,
    V_ADST = 12,
    H_ADST = 13,
    V_FLIPADST = 14,
    H_FLIPADST = 15,
    WHT_WHT = 16
);

// include/dav1d/picture.rs, src/with_offset.rs, src/strided.rs: a place in a plane, with the stride in bytes.

#[derive(Clone, Copy)]
pub struct Rav1dPictureDataComponentOffset<'a> {
    start: *mut u8,
    byte_len: usize,
    stride: isize,
    offset: usize,
    plane: PhantomData<&'a mut [u8]>,
}

impl<'a> Rav1dPictureDataComponentOffset<'a> {
    pub fn new<BD: BitDepth>(plane: &'a mut [BD::Pixel], offset: usize, pixel_stride: isize) -> Self {
        Self {
            start: plane.as_mut_ptr().cast(),
            byte_len: size_of::<BD::Pixel>() * plane.len(),
            stride: size_of::<BD::Pixel>() as isize * pixel_stride,
            offset,
            plane: PhantomData,
        }
    }

    pub fn pixel_stride<BD: BitDepth>(&self) -> isize {
        self.stride / size_of::<BD::Pixel>() as isize
    }

    /// The kernels let go of each row before they ask for the next, so no two parts are held at a time.
    pub fn slice_mut<BD: BitDepth>(&self, len: usize) -> &'a mut [BD::Pixel] {
        let pixels = self.byte_len / size_of::<BD::Pixel>();
        assert!(self.offset <= pixels && len <= pixels - self.offset);
        // SAFETY: `start` is a plane of `pixels` pixels that is lent for 'a, and the part was just seen to be inside.
        unsafe { slice::from_raw_parts_mut(self.start.cast::<BD::Pixel>().add(self.offset), len) }
    }
}

impl Add<isize> for Rav1dPictureDataComponentOffset<'_> {
    type Output = Self;

    fn add(self, rhs: isize) -> Self {
        let offset = self.offset.wrapping_add_signed(rhs);
        Self { offset, ..self }
    }
}

// include/common/intops.rs.

#[inline]
pub fn iclip(v: c_int, min: c_int, max: c_int) -> c_int {
    let clipped = if v < min {
        min
    } else if v > max {
        max
    } else {
        v
    };
    #[cfg(recorder)]
    recorder::record(clipped != v);
    clipped
}

/// What `iclip` did, so that the mark can be told. Left out of a build that is timed.
#[cfg(recorder)]
pub mod recorder {
    use std::cell::Cell;
    use std::num::NonZeroUsize;

    thread_local! {
        /// Whether a call of `iclip` has changed its value.
        static CHANGED: Cell<bool> = const { Cell::new(false) };
        static MARK: Cell<bool> = const { Cell::new(false) };
    }

    pub fn record(changed: bool) {
        CHANGED.set(CHANGED.get() | changed);
    }

    /// Runs `work`, and says whether a DCT pass in it raised the mark.
    pub fn mark_of(work: impl FnOnce()) -> bool {
        MARK.set(false);
        work();
        MARK.get()
    }

    // Under the names that `inv_txfm_add_rust` calls: its passes then raise the mark with no edit of its text.
    // A DCT pass calls `iclip` for its own steps and those of its half; between the passes it is called outside of them.
    macro_rules! marked {
        ($($name:ident),*) => {
            $(pub fn $name(c: &mut [i32], stride: NonZeroUsize, min: i32, max: i32) {
                CHANGED.set(false);
                crate::itx_1d::$name(c, stride, min, max);
                MARK.set(MARK.get() | CHANGED.get());
            })*
        };
    }

    marked!(rav1d_inv_dct4_1d_c, rav1d_inv_dct8_1d_c, rav1d_inv_dct16_1d_c, rav1d_inv_dct32_1d_c);
    marked!(inv_dct4_half_1d, inv_dct8_half_1d, inv_dct16_half_1d, inv_dct32_half_1d);
}
