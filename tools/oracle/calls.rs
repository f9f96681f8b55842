//! The public calls as values, each with the outcome that is wanted of it: the refusal that document 01's table gives,
//! else what the Rust does.

use crate::cases;
use crate::itx::{self, Kind, Plan};
use crate::shim::{recorder, BitDepth, BitDepth16, BitDepth8, FromPrimitive, ToPrimitive};

#[derive(Clone, Copy, PartialEq, Eq, Debug)]
pub struct Answer {
    pub number: u64,
    pub place: u64,
    pub mark: bool,
}

impl Answer {
    pub fn refused(number: u64, place: usize) -> Answer {
        let place = place as u64;
        Answer { number, place, mark: false }
    }

    pub fn accepted(mark: bool) -> Answer {
        Answer { number: 0, place: 0, mark }
    }

    /// As the exported functions pack it: the number in bits 0 to 7, the mark in bit 8, the place from bit 16 up. The bits
    /// between are 0.
    pub fn unpacked(word: u64) -> Answer {
        assert_eq!(word & 0xfe00, 0, "the answer is {word:#x}");
        Answer { number: word & 0xff, place: word >> 16, mark: word & 0x100 != 0 }
    }
}

/// A one-dimensional call. A WHT has no range, and its min and max are not looked at.
#[derive(Clone, Debug)]
pub struct PassCall {
    pub kind: Kind,
    pub n: usize,
    pub c: Vec<i32>,
    pub stride: usize,
    pub min: i32,
    pub max: i32,
}

impl PassCall {
    /// Numbers 11 to 14, in their order.
    fn refusal(&self) -> Option<Answer> {
        let in_range = |&&m: &&i32| self.min == -m && self.max == m - 1;
        let m = match self.kind {
            Kind::Wht => Some(&cases::WHT_LIMIT),
            _ => cases::LIMITS.iter().find(in_range),
        };
        let Some(&m) = m else {
            return Some(Answer::refused(11, 0));
        };
        if self.stride == 0 {
            return Some(Answer::refused(12, 0));
        }
        let last = (self.n as u128 - 1) * self.stride as u128;
        if self.c.len() as u128 <= last {
            return Some(Answer::refused(13, 0));
        }
        let outside = |&k: &usize| !(-m..m).contains(&self.c[k * self.stride]);
        (0..self.kind.looked(self.n)).find(outside).map(|k| Answer::refused(14, k))
    }

    pub fn wanted(&self) -> (Answer, Vec<i32>) {
        let mut c = self.c.clone();
        if let Some(refusal) = self.refusal() {
            return (refusal, c);
        }
        let run = || itx::pass(self.kind, self.n, &mut c, self.stride, self.min, self.max);
        let mark = recorder::mark_of(run);
        (Answer::accepted(mark), c)
    }
}

/// The plain call has an eob, the live-row call a number of rows.
#[derive(Clone, Copy, PartialEq, Eq, Debug)]
pub enum Way {
    Plain(i32),
    Live(usize),
}

/// A two-dimensional call. The stride counts bytes, the offset pixels; columns and rows are those that are visible. A pixel
/// has 2 bytes, or 1 in the calls of request E2, whose numbers are held here at the others' width.
#[derive(Clone, Debug)]
pub struct BlockCall {
    pub pixel_bytes: i32,
    pub plane: Vec<u16>,
    pub offset: u32,
    pub stride: i32,
    pub columns: usize,
    pub rows: usize,
    pub coeff: Vec<i32>,
    pub way: Way,
    pub w: usize,
    pub h: usize,
    pub txtp: usize,
    pub depth: usize,
}

impl BlockCall {
    /// Numbers 1 to 10, with request E5's 20 after 6, then request E6's 21: in their order.
    fn refusal(&self) -> Option<Answer> {
        let number = |number: u64, holds: bool| holds.then(|| Answer::refused(number, 0));
        let (w, h) = (self.w, self.h);
        number(1, !cases::SIZES.contains(&(w, h)))
            .or_else(|| number(2, !cases::has_type(w, h, self.txtp)))
            .or_else(|| number(3, !cases::DEPTHS.contains(&self.depth)))
            .or_else(|| number(4, matches!(self.way, Way::Plain(eob) if eob < 0)))
            .or_else(|| number(5, matches!(self.way, Way::Live(r) if !(1..=h).contains(&r))))
            .or_else(|| number(6, self.coeff.len() < w * h))
            .or_else(|| number(20, !(1..=w).contains(&self.columns) || !(1..=h).contains(&self.rows)))
            .or_else(|| number(7, self.stride % self.pixel_bytes != 0 || self.pixel_stride().unsigned_abs() < w as u32))
            .or_else(|| number(8, (0..self.rows).any(|y| self.row(y).is_none())))
            .or_else(|| self.offender(9, |v, _| !cases::row_range(self.depth).contains(&v)))
            .or_else(|| match self.way {
                Way::Live(r) => self.offender(10, |v, y| y >= r && v != 0),
                Way::Plain(_) => None,
            })
            .or_else(|| self.bright())
    }

    /// Refusal by the first coefficient, in buffer order, that `offends` with its value and row.
    fn offender(&self, number: u64, offends: impl Fn(i32, usize) -> bool) -> Option<Answer> {
        let place = (0..self.w * self.h).find(|&p| offends(self.coeff[p], p % self.h))?;
        Some(Answer::refused(number, place))
    }

    /// Refusal by the first visible pixel, row by row, above the depth's maximum.
    fn bright(&self) -> Option<Answer> {
        let maximum = cases::maximum(self.depth);
        let in_row = |(y, at): (usize, usize)| {
            let x = self.plane[at..][..self.columns].iter().position(|&p| p > maximum)?;
            Some(Answer::refused(21, y * self.w + x))
        };
        self.starts().enumerate().find_map(in_row)
    }

    fn pixel_stride(&self) -> i32 {
        self.stride / self.pixel_bytes
    }

    /// Where row y starts, if its visible part lies wholly inside the plane.
    fn row(&self, y: usize) -> Option<usize> {
        let start = i64::from(self.offset) + y as i64 * i64::from(self.pixel_stride());
        let start = usize::try_from(start).ok()?;
        (start + self.columns <= self.plane.len()).then_some(start)
    }

    /// Where the visible rows of a call start that is not refused by 8 or before it, the first first.
    fn starts(&self) -> impl Iterator<Item = usize> + '_ {
        (0..self.rows).filter_map(|y| self.row(y))
    }

    /// Where the first visible pixel stands and where the last one ends, also outside the plane, of any call.
    pub fn reach(&self) -> (i128, i128) {
        let first = i128::from(self.offset);
        let last = first + (self.rows as i128 - 1) * i128::from(self.pixel_stride());
        (first.min(last), first.max(last) + self.columns as i128)
    }

    pub fn is_whole(&self) -> bool {
        (self.columns, self.rows) == (self.w, self.h)
    }

    /// The call with its visible rows w pixels apart in a plane of so many pixels, 0 where they are not.
    fn laid_out(&self, pixels: usize) -> BlockCall {
        let mut plane = vec![0; pixels];
        for (to, at) in plane.chunks_mut(self.w).zip(self.starts()) {
            to[..self.columns].copy_from_slice(&self.plane[at..][..self.columns]);
        }
        BlockCall { plane, offset: 0, stride: self.dense(), ..self.clone() }
    }

    /// The stride of rows with nothing between them.
    fn dense(&self) -> i32 {
        self.pixel_bytes * self.w as i32
    }

    /// The call with nothing beyond its block, if it is smaller so.
    pub fn alone(&self) -> Option<BlockCall> {
        if self.refusal().is_some() {
            return None;
        }
        let pixels = (self.rows - 1) * self.w + self.columns;
        if self.plane.len() == pixels && self.stride == self.dense() {
            return None;
        }
        let coeff = self.coeff[..self.w * self.h].to_vec();
        Some(BlockCall { coeff, ..self.laid_out(pixels) })
    }

    /// The call at 8 bits a pixel and 16 a coefficient: each number loses what is above, and the depth is 8.
    pub fn narrow(&self) -> BlockCall {
        BlockCall {
            pixel_bytes: 1,
            plane: self.plane.iter().map(|&p| (p as u8).into()).collect(),
            stride: self.pixel_stride(),
            coeff: self.coeff.iter().map(|&v| (v as i16).into()).collect(),
            depth: 8,
            ..self.clone()
        }
    }

    /// A narrow call's numbers by the wide call, with twice the stride, if that fits.
    pub fn wide(&self) -> Option<BlockCall> {
        let stride = self.stride.checked_mul(2)?;
        (self.pixel_bytes == 1).then(|| BlockCall { pixel_bytes: 2, stride, ..self.clone() })
    }

    /// An accepted call on a padded plane: all is visible. A call that is whole is that already.
    pub fn padded(&self) -> BlockCall {
        if self.is_whole() {
            return self.clone();
        }
        BlockCall { columns: self.w, rows: self.h, ..self.laid_out(self.w * self.h) }
    }

    /// The plane with its visible pixels as they stand in `done`, the plane of the padded call after it.
    pub fn read_back(&self, padded: &BlockCall, done: &[u16]) -> Vec<u16> {
        let mut plane = self.plane.clone();
        for (at, from) in self.starts().zip(padded.starts()) {
            plane[at..][..self.columns].copy_from_slice(&done[from..][..self.columns]);
        }
        plane
    }

    /// The answer, the plane and the coefficients.
    pub fn wanted(&self) -> (Answer, Vec<u16>, Vec<i32>) {
        if let Some(refusal) = self.refusal() {
            return (refusal, self.plane.clone(), self.coeff.clone());
        }
        if self.depth == 8 {
            self.run(BitDepth8)
        } else {
            self.run(BitDepth16 { bitdepth_max: cases::maximum(self.depth) })
        }
    }

    /// What the Rust does with the numbers at its own widths, on a padded plane. Only the visible pixels are taken back
    /// from it: what lies beyond may not fit those widths, and by document 01 stays.
    fn run<BD: BitDepth>(&self, bd: BD) -> (Answer, Vec<u16>, Vec<i32>) {
        let padded = self.padded();
        // A live-row call is held to the Rust's at eob 1, which is never its shortcut.
        let eob = if let Way::Plain(eob) = self.way { eob } else { 1 };
        let plan = Plan { w: self.w, h: self.h, txtp: self.txtp, eob };
        let mut pixels: Vec<BD::Pixel> = padded.plane.iter().map(|&p| BD::Pixel::from_prim(p.into())).collect();
        let mut block: Vec<BD::Coef> = self.coeff[..self.w * self.h].iter().map(|&v| BD::Coef::from_prim(v)).collect();
        let (offset, stride) = (padded.offset as usize, padded.pixel_stride() as isize);
        let mark = recorder::mark_of(|| itx::add_by_plan(&mut pixels, offset, stride, &mut block, plan, bd));

        let wide = |p: BD::Pixel| -> i32 { p.to_prim() };
        let done: Vec<u16> = pixels.into_iter().map(|p| wide(p) as u16).collect();
        let mut coeff = self.coeff.clone();
        for (v, done) in coeff.iter_mut().zip(block) {
            *v = done.to_prim();
        }
        (Answer::accepted(mark), self.read_back(&padded, &done), coeff)
    }
}
