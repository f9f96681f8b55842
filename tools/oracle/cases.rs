//! Sizes, types and ranges of document 01, and random inputs over all of them.

use crate::calls::{BlockCall, PassCall, Way};
use crate::format::Record;
use crate::itx::Kind;
use crate::words;
use std::ops::Range;

pub const SIZES: [(usize, usize); 14] = [
    (4, 4),
    (4, 8),
    (4, 16),
    (8, 4),
    (8, 8),
    (8, 16),
    (8, 32),
    (16, 4),
    (16, 8),
    (16, 16),
    (16, 32),
    (32, 8),
    (32, 16),
    (32, 32),
];
pub const TYPES: [usize; 17] = [0, 1, 2, 3, 4, 5, 6, 7, 8, 9, 10, 11, 12, 13, 14, 15, 16];
pub const DEPTHS: [usize; 3] = [8, 10, 12];
/// The range of a pass is -m..m-1 with one of these as m.
pub const LIMITS: [i32; 3] = [32768, 131072, 524288];
pub const WHT_LIMIT: i32 = 16777216;

pub fn has_type(w: usize, h: usize, txtp: usize) -> bool {
    match txtp {
        0 | 9 => true,
        10 | 11 => w * h <= 128 || (w, h) == (16, 16),
        1..=8 | 12..=16 => (w, h) == (4, 4),
        _ => false,
    }
}

pub fn has_adst(txtp: usize) -> bool {
    matches!(txtp, 1..=8 | 12..=15)
}

fn row_limit(depth: usize) -> i32 {
    1 << (depth + 7)
}

pub fn row_range(depth: usize) -> Range<i32> {
    -row_limit(depth)..row_limit(depth)
}

pub fn maximum(depth: usize) -> u16 {
    (1 << depth) - 1
}

/// Each kind and length of pass with each of its ranges.
pub fn pass_shapes() -> Vec<(Kind, usize, i32)> {
    let mut shapes = vec![(Kind::Wht, 4, WHT_LIMIT)];
    for kind in [Kind::Dct, Kind::HalfDct, Kind::Identity] {
        for n in [4, 8, 16, 32] {
            shapes.extend(LIMITS.map(|m| (kind, n, m)));
        }
    }
    for kind in [Kind::Adst, Kind::FlipAdst] {
        shapes.extend(LIMITS.map(|m| (kind, 4, m)));
    }
    shapes
}

#[derive(Clone, Copy)]
pub struct Shape {
    pub w: usize,
    pub h: usize,
    pub txtp: usize,
    pub depth: usize,
}

/// Each size with each of its types and each depth.
pub fn block_shapes() -> Vec<Shape> {
    let mut shapes = Vec::new();
    for (w, h) in SIZES {
        for txtp in TYPES.into_iter().filter(|&txtp| has_type(w, h, txtp)) {
            shapes.extend(DEPTHS.map(|depth| Shape { w, h, txtp, depth }));
        }
    }
    shapes
}

/// SplitMix64: the same numbers from one seed on every machine.
pub struct Rng(pub u64);

impl Rng {
    pub fn word(&mut self) -> u64 {
        self.0 = self.0.wrapping_add(0x9e3779b97f4a7c15);
        let z = (self.0 ^ self.0 >> 30).wrapping_mul(0xbf58476d1ce4e5b9);
        let z = (z ^ z >> 27).wrapping_mul(0x94d049bb133111eb);
        z ^ z >> 31
    }

    /// 0 to n - 1.
    pub fn below(&mut self, n: usize) -> usize {
        (self.word() % n as u64) as usize
    }

    /// -m to m - 1.
    fn around(&mut self, m: i32) -> i32 {
        (self.word() % (2 * m as u64)) as i32 - m
    }

    /// A power of two from 2 to m, which is one too.
    fn limit(&mut self, m: i32) -> i32 {
        2 << self.below(m.ilog2() as usize)
    }

    pub fn pick<T: Copy>(&mut self, from: &[T]) -> T {
        from[self.below(from.len())]
    }

    pub fn any_i32(&mut self) -> i32 {
        self.word() as i32
    }
}

/// n numbers in -m..m-1, of one of the sorts that tell passes apart.
fn values(rng: &mut Rng, n: usize, m: i32) -> Vec<i32> {
    let ends = [-m, m - 1];
    let mut v = vec![0; n];
    match rng.below(9) {
        0 => {}
        1 => v[rng.below(n)] = rng.pick(&ends),
        2 => v[0] = rng.around(m),
        3 => v.fill_with(|| rng.around(m)),
        4 => {
            let small = rng.limit(m);
            v.fill_with(|| rng.around(small));
        }
        5 => (0..=rng.below(4)).for_each(|_| v[rng.below(n)] = rng.around(m)),
        6 => v.fill_with(|| match rng.pick(&ends) {
            end if end < 0 => end + rng.below(3) as i32,
            end => end - rng.below(3) as i32,
        }),
        7 => v.fill_with(|| rng.pick(&ends)),
        _ => near_the_clips(rng, &mut v, m),
    }
    v
}

/// A few numbers whose sizes add up to about m, so that some sums of them just reach an end and some just do not.
fn near_the_clips(rng: &mut Rng, v: &mut [i32], m: i32) {
    let mut left = m / 100 * (90 + rng.below(100) as i32);
    for _ in 0..=rng.below(4) {
        let size = (1 + rng.below(left as usize + 1) as i32).min(m - 1);
        v[rng.below(v.len())] = rng.pick(&[size, -size]);
        left = (left - size).max(0);
    }
}

/// An accepted pass. What stands between its elements and after them, and where it does not read, may be any number.
pub fn pass_call(rng: &mut Rng, (kind, n, m): (Kind, usize, i32), stride: usize) -> PassCall {
    let len = (n - 1) * stride + 1 + rng.below(4);
    let mut c: Vec<i32> = (0..len).map(|_| rng.any_i32()).collect();
    for (k, v) in values(rng, kind.looked(n), m).into_iter().enumerate() {
        c[k * stride] = v;
    }
    PassCall { kind, n, c, stride, min: -m, max: m - 1 }
}

/// The same call with something in it that is refused, or just not.
pub fn damage_pass(rng: &mut Rng, call: &mut PassCall) {
    let (min, max, stride) = (call.min, call.max, call.stride);
    match rng.below(6) {
        0 => call.min = rng.pick(&[min.wrapping_add(1), min.wrapping_sub(1), 0, i32::MIN, max]),
        1 => call.max = rng.pick(&[max.wrapping_add(1), max.wrapping_sub(1), 0, i32::MAX, 131071]),
        2 => call.stride = rng.pick(&[0, stride.saturating_add(1), usize::MAX, 1 << 62, 1 << 63]),
        3 => call.c.truncate(rng.below(call.c.len() + 1)),
        4 => call.c.truncate(stride.saturating_mul(call.n - 1)),
        _ => {
            let m = if call.kind == Kind::Wht { WHT_LIMIT } else { rng.pick(&LIMITS) };
            let value = rng.pick(&[m, -m - 1, i32::MAX, i32::MIN, m - 1, -m]);
            let at = stride.saturating_mul(rng.below(call.n));
            call.c.get_mut(at).into_iter().for_each(|v| *v = value);
        }
    }
}

/// w·h coefficients in buffer order: in all live rows, in the first few, or the first coefficient alone.
fn coefficients(rng: &mut Rng, shape: Shape, live: usize) -> Vec<i32> {
    let (w, h, m) = (shape.w, shape.h, row_limit(shape.depth));
    let rows = if rng.below(2) == 0 { live } else { 1 + rng.below(live) };
    let columns = if rng.below(3) != 0 { w } else { 1 + rng.below(w) };
    let mut coeff = vec![0; w * h];
    for (i, v) in values(rng, rows * columns, m).into_iter().enumerate() {
        coeff[i % rows + i / rows * h] = v;
    }
    if rng.below(8) == 0 {
        coeff[1..].fill(0);
    }
    coeff
}

/// Pixels up to the maximum; now and then it is half of them.
fn pixels(rng: &mut Rng, n: usize, depth: usize) -> Vec<u16> {
    let maximum = maximum(depth);
    let mut v = vec![rng.below(maximum as usize + 1) as u16; n];
    match rng.below(5) {
        0 => {}
        1 => v.fill_with(|| rng.pick(&[0, 1, maximum - 1, maximum])),
        2 => v.fill_with(|| maximum.min(rng.below(2 * maximum as usize) as u16)),
        _ => v.fill_with(|| rng.below(maximum as usize + 1) as u16),
    }
    v
}

fn eob(rng: &mut Rng, n: usize) -> i32 {
    let some = rng.below(n) as i32;
    rng.pick(&[0, 0, 1, 1, some, some, i32::MAX])
}

pub fn record(rng: &mut Rng, shape: Shape) -> Record {
    let Shape { w, h, txtp, depth } = shape;
    let way = Way::Plain(eob(rng, w * h));
    Record { w, h, txtp, depth, way, coeff: coefficients(rng, shape, h), pixels: pixels(rng, w * h, depth) }
}

/// A record with r live rows, of which the last is mostly not zero. In a large block most pixels take one byte, to keep a
/// file of all of them short.
pub fn live_record(rng: &mut Rng, shape: Shape, r: usize) -> Record {
    let Shape { w, h, txtp, depth } = shape;
    let mut coeff = coefficients(rng, shape, r);
    if rng.below(4) != 0 {
        let m = rng.limit(row_limit(depth));
        coeff[r - 1 + rng.below(w) * h] = rng.around(m);
    }
    let mut pixels = pixels(rng, w * h, depth);
    if w * h > 64 && rng.below(16) != 0 {
        pixels.fill_with(|| rng.below(128) as u16);
    }
    Record { w, h, txtp, depth, way: Way::Live(r), coeff, pixels }
}

/// A number past one end of -m..m-1: by one, by a few, by any, or by as much as can be.
fn past(rng: &mut Rng, m: i32) -> i32 {
    let most = i32::MAX - m;
    let (few, any) = (rng.below(100) as i32, rng.below(most as usize) as i32);
    let over = rng.pick(&[0, few, any, most]);
    rng.pick(&[m + over, -m - 1 - over])
}

/// A record for salvage (request E14): none, some or all of its coefficients are out of range, all in a large block of
/// identity. Now and then its type, its depth or a pixel is refused besides.
pub fn outside_record(rng: &mut Rng, shape: Shape) -> Record {
    let mut record = record(rng, shape);
    let (n, m) = (record.coeff.len(), row_limit(shape.depth));
    let all = rng.below(16) == 0 || n == 1024 && shape.txtp == 9;
    if all {
        record.coeff.fill_with(|| past(rng, m));
    } else {
        (0..rng.below(6)).for_each(|_| record.coeff[rng.below(n)] = past(rng, m));
    }
    match rng.below(16) {
        0 => record.txtp = rng.pick(&[10, 16, 17, 255, u32::MAX as usize]),
        1 => record.depth = rng.pick(&[0, 9, 11, 16, u32::MAX as usize]),
        2 => record.pixels[rng.below(n)] = rng.pick(&[maximum(shape.depth) + 1, u16::MAX]),
        _ => {}
    }
    record
}

/// How many columns and rows are visible: half of the time all.
fn visible(rng: &mut Rng, w: usize, h: usize) -> (usize, usize) {
    let some = (1 + rng.below(w), 1 + rng.below(h));
    rng.pick(&[(w, h), (w, h), (w, h), (w, some.1), (some.0, h), some])
}

/// The distance of two rows in pixels; for a single row any that a byte stride can say.
fn distance(rng: &mut Rng, w: usize, rows: usize) -> usize {
    let gap = rng.below(40);
    let near = w + rng.pick(&[0, 0, 1, 2, gap]);
    if rows > 1 {
        return near;
    }
    let far = w + rng.below((1 << 30) - w);
    rng.pick(&[near, near, far, (1 << 30) - 1])
}

/// A record's block in a plane: a stride of either sign, with gaps, any pixels beyond the block and where it is not
/// visible, and any coefficients beyond it. The plane often starts or ends with a visible pixel.
pub fn block_call(rng: &mut Rng, record: &Record) -> BlockCall {
    let (w, h) = (record.w, record.h);
    let (columns, rows) = visible(rng, w, h);
    let width = distance(rng, w, rows);
    let some = [rng.below(20), rng.below(20)];
    let [before, after] = some.map(|n| rng.pick(&[0, n]));
    let span = (rows - 1) * width;
    let down = rng.below(2) == 0;
    let offset = if down { before } else { before + span };
    let mut plane: Vec<u16> = (0..before + span + columns + after).map(|_| rng.word() as u16).collect();
    for y in 0..rows {
        let at = if down { offset + y * width } else { offset - y * width };
        plane[at..][..columns].copy_from_slice(&record.pixels[y * w..][..columns]);
    }
    let mut coeff = record.coeff.clone();
    coeff.extend((0..rng.below(9)).map(|_| rng.any_i32()));
    BlockCall {
        pixel_bytes: 2,
        plane,
        offset: offset as u32,
        stride: if down { 2 * width as i32 } else { -2 * width as i32 },
        columns,
        rows,
        coeff,
        way: record.way,
        w,
        h,
        txtp: record.txtp,
        depth: record.depth,
    }
}

/// The numbers by which a narrow call (request E2) can be refused, in the order of the checks.
const NARROW_REFUSALS: [u64; 9] = [1, 2, 4, 5, 6, 20, 7, 8, 10];

/// How a block is called, by turns: plain with eob 0, plain with another, live-row with an r that covers it.
fn way(rng: &mut Rng, record: &Record, turn: usize) -> Way {
    let (h, least) = (record.h, record.live_rows());
    match (turn % 3, record.way) {
        (0, _) => Way::Plain(0),
        (1, Way::Plain(eob)) => Way::Plain(eob.max(1)),
        _ => Way::Live(least + rng.below(h + 1 - least)),
    }
}

/// An accepted narrow call that has a record. Now and then only one row is visible, and the stride is about the last one
/// that can be doubled, or the last one there is.
fn narrow_call(rng: &mut Rng, shape: Shape, turn: usize) -> BlockCall {
    loop {
        let record = record(rng, shape);
        let mut call = BlockCall { way: way(rng, &record, turn), ..block_call(rng, &record).narrow() };
        if rng.below(10) == 0 {
            call.rows = 1;
            call.stride = rng.pick(&[i32::MIN, -(1 << 30) - 1, -(1 << 30), (1 << 30) - 1, 1 << 30, i32::MAX]);
        }
        if words::has_record(&call) {
            return call;
        }
    }
}

/// A small narrow call with damage that is answered by this number and has a record.
fn narrow_damaged(rng: &mut Rng, shapes: &[Shape], number: u64) -> BlockCall {
    loop {
        let (shape, turn) = (rng.pick(shapes), rng.below(3));
        let mut call = narrow_call(rng, shape, turn);
        for _ in 0..1 + rng.below(2) {
            damage_block(rng, &mut call);
        }
        // What the damage put in is brought to the width.
        let call = call.narrow();
        if words::has_record(&call) && call.wanted().0.number == number {
            return call;
        }
    }
}

/// `count` accepted calls over all sizes and types, by each way in turn; then, of small blocks, `refused` damaged calls of
/// every number that can occur, and as many that are accepted all the same.
pub fn narrow_calls(rng: &mut Rng, count: usize, refused: usize) -> Vec<BlockCall> {
    let mut shapes = block_shapes();
    shapes.retain(|shape| shape.depth == 8);
    let turns = (0..count).map(|at| (shapes[at % shapes.len()], at / shapes.len()));
    let mut calls: Vec<BlockCall> = turns.map(|(shape, turn)| narrow_call(rng, shape, turn)).collect();
    shapes.retain(|shape| shape.w * shape.h <= 64);
    for number in NARROW_REFUSALS.into_iter().chain([0]) {
        calls.extend((0..refused).map(|_| narrow_damaged(rng, &shapes, number)));
    }
    calls
}

/// The same call with something in it that is refused, or just not.
pub fn damage_block(rng: &mut Rng, call: &mut BlockCall) {
    let small = rng.below(70);
    let at = rng.below(call.coeff.len().max(1));
    match rng.below(17) {
        0 => call.w = rng.pick(&[0, 4, 8, 16, 32, 64, small, usize::MAX, 1 << 62]),
        1 => call.h = rng.pick(&[0, 4, 8, 16, 32, 64, small, usize::MAX, 1 << 62]),
        2 => call.txtp = rng.pick(&[small % 20, 256, usize::MAX]),
        3 => call.depth = rng.pick(&[small % 20, 264, usize::MAX]),
        4 => {
            call.way = match call.way {
                Way::Plain(_) => Way::Plain(rng.pick(&[-1, i32::MIN])),
                Way::Live(_) => Way::Live(rng.pick(&[0, call.h, call.h.wrapping_add(1), 1, usize::MAX])),
            }
        }
        5 => call.coeff.truncate(call.w.saturating_mul(call.h).saturating_sub(small % 2)),
        6 => {
            // Any pixel stride, and those about w.
            let [some, near] = [small as i32, (call.w.min(64) + small % 3) as i32 - 1].map(|n| call.pixel_bytes * n);
            let next = call.stride.saturating_add(1);
            call.stride = rng.pick(&[0, next, some, -some, near, -near, i32::MIN, i32::MAX]);
        }
        7 => call.plane.truncate(rng.below(call.plane.len() + 1)),
        8 => call.offset = rng.pick(&[0, call.offset.saturating_add(small as u32), small as u32, u32::MAX]),
        9 => {
            let m = rng.pick(&LIMITS);
            let value = rng.pick(&[m, -m - 1, i32::MAX, i32::MIN, m - 1, -m]);
            call.coeff.get_mut(at).into_iter().for_each(|v| *v = value);
        }
        10 => call.columns = visible_damaged(rng, call.columns, call.w),
        11 => call.rows = visible_damaged(rng, call.rows, call.h),
        12 => damage_ends(rng, call),
        13..=15 => brighten(rng, call),
        _ => call.coeff.get_mut(at).into_iter().for_each(|v| *v = 1),
    }
}

/// Up to three pixels above the maximum of a depth, or just not, visible or not; now and then after a coefficient that is
/// refused before them, or a stray.
fn brighten(rng: &mut Rng, call: &mut BlockCall) {
    for _ in 0..1 + rng.below(3) {
        let maximum = maximum(rng.pick(&DEPTHS));
        let above = maximum + 1 + rng.below(usize::from(u16::MAX - maximum)) as u16;
        let value = rng.pick(&[maximum, maximum + 1, maximum + 1, above, u16::MAX]);
        let at = rng.below(call.plane.len().max(1));
        call.plane.get_mut(at).into_iter().for_each(|p| *p = value);
    }
    if rng.below(4) == 0 {
        let at = rng.below(call.coeff.len().max(1));
        let value = rng.pick(&[1, i32::MAX, i32::MIN]);
        call.coeff.get_mut(at).into_iter().for_each(|v| *v = value);
    }
}

/// A number of visible columns or rows of a side, where there were so many.
fn visible_damaged(rng: &mut Rng, visible: usize, side: usize) -> usize {
    let more = visible.wrapping_add(1);
    rng.pick(&[0, side, side.wrapping_add(1), more, visible.wrapping_sub(1), usize::MAX, 1 << 62, 1 << 32])
}

/// The visible pixels moved to one end of the plane, or the plane's end to theirs; half of the time one pixel too far.
fn damage_ends(rng: &mut Rng, call: &mut BlockCall) {
    let ((first, end), len) = (call.reach(), call.plane.len() as i128);
    let over = rng.below(2) as i128;
    let by = rng.pick(&[-first - over, len - end + over, 0]);
    if by == 0 {
        usize::try_from(end - over).into_iter().for_each(|len| call.plane.truncate(len));
    }
    call.offset = u32::try_from(i128::from(call.offset) + by).unwrap_or(call.offset);
}
