//! Times 32x32 DCT_DCT blocks at depth 8 with four nonzero rows: the Rust's long way, and the live-row call (r = 4) and
//! the plain call of `libsgrifomel.a`, wide and narrow, on the same numbers. live_rows [BLOCKS [RUNS]]: each of the five does
//! BLOCKS blocks in RUNS runs.

use kernels::exports::*;
use kernels::itx;
use kernels::shim::{BitDepth8, DCT_DCT};
use std::env;
use std::hint::black_box;
use std::time::{Duration, Instant};

const SIDE: usize = 32;
const AREA: usize = SIDE * SIDE;
const LIVE_ROWS: usize = 4;
/// So many blocks are laid out, then timed together: the calls clear what they read, and laying out is not timed.
const BATCH: usize = 50;

/// Those that are timed, in the order of the report.
const NAMES: [&str; 5] =
    ["the Rust, long way", "live-row call, r = 4", "plain call", "narrow live-row call, r = 4", "narrow plain call"];

/// A batch at both widths: i32 and u16, and i16 and u8, which are the Rust's and the narrow calls'.
struct Batch {
    coeff: Vec<i32>,
    pixels: Vec<u16>,
    narrow_coeff: Vec<i16>,
    narrow_pixels: Vec<u8>,
}

impl Batch {
    /// Coefficients that shrink from the first on, as of a scan, in the first rows alone; pixels of every value.
    fn new() -> Batch {
        let mut state = 1u64;
        let mut random = || {
            state = state.wrapping_mul(6364136223846793005).wrapping_add(1442695040888963407);
            (state >> 33) as i32
        };
        let mut coeff = vec![0; BATCH * AREA];
        for (i, v) in coeff.iter_mut().enumerate() {
            let (row, column) = (i % SIDE, i % AREA / SIDE);
            if row < LIVE_ROWS {
                let size = 1 + 1500 / (1 + row + column) as i32;
                *v = random() % (2 * size) - size;
            }
        }
        let pixels: Vec<u16> = (0..BATCH * AREA).map(|_| (random() % 256) as u16).collect();
        let narrow_coeff = coeff.iter().map(|&v| v as i16).collect();
        let narrow_pixels = pixels.iter().map(|&p| p as u8).collect();
        Batch { coeff, pixels, narrow_coeff, narrow_pixels }
    }

    fn refill(&mut self, from: &Batch) {
        self.coeff.copy_from_slice(&from.coeff);
        self.pixels.copy_from_slice(&from.pixels);
        self.narrow_coeff.copy_from_slice(&from.narrow_coeff);
        self.narrow_pixels.copy_from_slice(&from.narrow_pixels);
    }

    /// One batch by one of those.
    fn time(&mut self, which: usize) -> Duration {
        let blocks = self.coeff.chunks_exact_mut(AREA).zip(self.pixels.chunks_exact_mut(AREA));
        let narrow = self.narrow_coeff.chunks_exact_mut(AREA).zip(self.narrow_pixels.chunks_exact_mut(AREA));
        let start = Instant::now();
        match which {
            0 => narrow.for_each(|(coeff, pixels)| rust(coeff, pixels)),
            1 => blocks.for_each(|(coeff, pixels)| live(coeff, pixels)),
            2 => blocks.for_each(|(coeff, pixels)| plain(coeff, pixels)),
            3 => narrow.for_each(|(coeff, pixels)| narrow_live(coeff, pixels)),
            _ => narrow.for_each(|(coeff, pixels)| narrow_plain(coeff, pixels)),
        }
        start.elapsed()
    }

    /// What a call has left, at the wider width.
    fn left(&self, which: usize) -> (Vec<u16>, Vec<i32>) {
        if let 1 | 2 = which {
            return (self.pixels.clone(), self.coeff.clone());
        }
        let coeff = self.narrow_coeff.iter().map(|&v| v.into());
        (self.narrow_pixels.iter().map(|&p| p.into()).collect(), coeff.collect())
    }
}

fn rust(coeff: &mut [i16], pixels: &mut [u8]) {
    itx::add::<SIDE, SIDE, DCT_DCT, BitDepth8>(pixels, 0, SIDE as isize, coeff, black_box(1), BitDepth8);
}

macro_rules! ours {
    ($name:ident, $pixel:ty, $coef:ty, $export:ident, $stride:literal, $last:expr $(, $depth:literal)?) => {
        fn $name(coeff: &mut [$coef], pixels: &mut [$pixel]) {
            let (dst, c) = (pixels.as_mut_ptr(), coeff.as_mut_ptr());
            // SAFETY: each pointer and length are those of one slice; the call asks for nothing else.
            let word =
                unsafe { $export(dst, AREA, 0, $stride, SIDE, SIDE, c, AREA, $last, SIDE, SIDE, 0 $(, $depth)?) };
            assert_eq!(word & 0xff, 0, "refused");
        }
    };
}

ours!(live, u16, i32, sgrifomel_inv_txfm_add_live, 64, LIVE_ROWS, 8);
ours!(plain, u16, i32, sgrifomel_inv_txfm_add, 64, 1, 8);
ours!(narrow_live, u8, i16, sgrifomel_inv_txfm_add_live_8bpc, 32, LIVE_ROWS);
ours!(narrow_plain, u8, i16, sgrifomel_inv_txfm_add_8bpc, 32, 1);

/// What is timed must be the same work: the pixels agree and all coefficients are cleared.
fn check(from: &Batch) {
    let mut batch = Batch::new();
    batch.time(0);
    let wanted = batch.left(0);
    assert!(wanted.0 != from.pixels && wanted.1.iter().all(|&v| v == 0));
    for which in 1..NAMES.len() {
        batch.refill(from);
        batch.time(which);
        assert!(batch.left(which) == wanted, "{} differs", NAMES[which]);
    }
}

fn main() {
    let mut words = env::args().skip(1).map(|word| word.parse::<usize>().expect("[BLOCKS [RUNS]]"));
    let (blocks, runs) = (words.next().unwrap_or(1_000_000), words.next().unwrap_or(10));
    let batches = blocks.div_ceil(runs * BATCH);
    let from = Batch::new();
    check(&from);

    let mut batch = Batch::new();
    let mut least = [Duration::MAX; NAMES.len()];
    for _ in 0..runs {
        let mut sum = [Duration::ZERO; NAMES.len()];
        for _ in 0..batches {
            for which in 0..NAMES.len() {
                batch.refill(&from);
                sum[which] += batch.time(which);
            }
        }
        for which in 0..NAMES.len() {
            least[which] = least[which].min(sum[which]);
        }
    }
    println!("{} blocks each in {runs} runs, alternating every {BATCH}; the least run:", runs * batches * BATCH);
    for (name, time) in NAMES.iter().zip(least) {
        let each = time.as_secs_f64() * 1e9 / (batches * BATCH) as f64;
        let ratio = time.as_secs_f64() / least[0].as_secs_f64();
        println!("{name}: {each:.0} ns a block, {ratio:.3} of the Rust's");
    }
}
