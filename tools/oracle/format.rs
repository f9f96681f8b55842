//! The block files of requests E1 and E11, versions 1 and 2, read and written; a refusal is its number.

use crate::calls::{BlockCall, Way};
use crate::cases;

/// In a file of version 1 a record's way is the plain call, in one of version 2 the live-row call. The coefficients are all
/// there, in buffer order.
pub struct Record {
    pub w: usize,
    pub h: usize,
    pub txtp: usize,
    pub depth: usize,
    pub way: Way,
    pub coeff: Vec<i32>,
    pub pixels: Vec<u16>,
}

/// Where in the buffer the coefficients of a record stand that its file has, in the order of the file: all of them, or the
/// live rows, row by row.
fn places(w: usize, h: usize, way: Way) -> Vec<usize> {
    match way {
        Way::Plain(_) => (0..w * h).collect(),
        Way::Live(r) => (0..r * w).map(|i| i / w + i % w * h).collect(),
    }
}

impl Record {
    /// The record's call on its own pixels, all of them visible.
    pub fn call(&self) -> BlockCall {
        BlockCall {
            pixel_bytes: 2,
            plane: self.pixels.clone(),
            offset: 0,
            stride: 2 * self.w as i32,
            columns: self.w,
            rows: self.h,
            coeff: self.coeff.clone(),
            way: self.way,
            w: self.w,
            h: self.h,
            txtp: self.txtp,
            depth: self.depth,
        }
    }

    /// The least r that covers the coefficients.
    pub fn live_rows(&self) -> usize {
        let live = self.coeff.iter().enumerate().filter(|&(_, &v)| v != 0);
        live.map(|(p, _)| p % self.h + 1).max().unwrap_or(1)
    }

    pub fn write(&self, out: &mut Vec<u8>) {
        let announced = match self.way {
            Way::Plain(eob) => eob as usize,
            Way::Live(r) => r,
        };
        for n in [self.w, self.h, self.txtp, self.depth, announced] {
            write_number(out, n as u32);
        }
        for at in places(self.w, self.h, self.way) {
            let v = self.coeff[at];
            write_number(out, (v << 1 ^ v >> 31) as u32);
        }
        for &p in &self.pixels {
            write_number(out, p.into());
        }
    }
}

pub fn write_number(out: &mut Vec<u8>, mut n: u32) {
    while n >= 128 {
        out.push(n as u8 | 128);
        n >>= 7;
    }
    out.push(n as u8);
}

/// What is left of a file.
pub struct Reader<'a>(pub &'a [u8]);

impl Reader<'_> {
    fn number(&mut self) -> Result<u32, u64> {
        let mut value = 0u64;
        for group in 0..5 {
            let (&byte, rest) = self.0.split_first().ok_or(15u64)?;
            self.0 = rest;
            value |= u64::from(byte & 127) << (7 * group);
            if byte < 128 {
                let value = u32::try_from(value).map_err(|_| 16u64)?;
                return if group > 0 && byte == 0 { Err(17) } else { Ok(value) };
            }
        }
        Err(16)
    }

    pub fn version(&mut self) -> Result<u32, u64> {
        match self.number()? {
            version @ (1 | 2) => Ok(version),
            _ => Err(18),
        }
    }

    pub fn record(&mut self, version: u32) -> Result<Record, u64> {
        let (w, h) = (self.number()? as usize, self.number()? as usize);
        if !cases::SIZES.contains(&(w, h)) {
            return Err(1);
        }
        let (txtp, depth, announced) = (self.number()? as usize, self.number()? as usize, self.number()?);
        let way = match version {
            1 => Way::Plain(i32::try_from(announced).map_err(|_| 16u64)?),
            _ => Way::Live(announced as usize),
        };
        if matches!(way, Way::Live(r) if !(1..=h).contains(&r)) {
            return Err(5);
        }
        let mut coeff = vec![0; w * h];
        for at in places(w, h, way) {
            let n = self.number()?;
            coeff[at] = (n >> 1) as i32 ^ -((n & 1) as i32);
        }
        let pixel = |n: u32| u16::try_from(n).map_err(|_| 19u64);
        let pixels = (0..w * h).map(|_| self.number().and_then(pixel)).collect::<Result<_, _>>()?;
        Ok(Record { w, h, txtp, depth, way, coeff, pixels })
    }
}
