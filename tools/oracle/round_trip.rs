//! Writes random residuals by the exported writer and takes them back by the Rust's inverse and by the exported plain call:
//! round_trip [COUNT [SEED]], COUNT residuals for each depth. Refusals are held to request E10, written out here.

use kernels::calls::{Answer, BlockCall, Way};
use kernels::cases::{self, Rng};
use kernels::compare::{count_and_rng, first_difference, hold, nearer, Case};
use kernels::exports::{sgrifomel_fwd_wht4x4, sgrifomel_inv_txfm_add};

const WHT_WHT: usize = 16;

/// A residual, the coefficient buffer before the call, the depth, and a prediction for the way back.
#[derive(Clone)]
struct Residual {
    r: Vec<i32>,
    coeff: Vec<i32>,
    depth: usize,
    pixels: Vec<u16>,
    eob: i32,
}

impl Residual {
    /// Numbers 3, 6 and 23, in this order.
    fn wanted(&self) -> Answer {
        if !cases::DEPTHS.contains(&self.depth) {
            return Answer::refused(3, 0);
        }
        if self.r.len() < 16 || self.coeff.len() < 16 {
            return Answer::refused(6, 0);
        }
        let most = i32::from(cases::maximum(self.depth));
        match self.r[..16].iter().position(|&v| v < -most || v > most) {
            Some(place) => Answer::refused(23, place),
            None => Answer::accepted(false),
        }
    }

    fn got(&self) -> (Answer, Vec<i32>) {
        let mut coeff = self.coeff.clone();
        // SAFETY: each pointer and length are those of one vector; the call asks for nothing else.
        let word =
            unsafe { sgrifomel_fwd_wht4x4(self.r.as_ptr(), self.r.len(), coeff.as_mut_ptr(), coeff.len(), self.depth) };
        (Answer::unpacked(word), coeff)
    }

    /// The way back: p + r by the Rust, and by the exported call.
    fn back(&self, coeff: Vec<i32>) -> Option<String> {
        let sum: Vec<u16> = self.pixels.iter().zip(&self.r).map(|(&p, &r)| (i32::from(p) + r) as u16).collect();
        let (plane, way, depth) = (self.pixels.clone(), Way::Plain(self.eob), self.depth);
        let (columns, rows, w, h, txtp) = (4, 4, 4, 4, WHT_WHT);
        let (pixel_bytes, offset, stride) = (2, 0, 8);
        let call = BlockCall { pixel_bytes, plane, offset, stride, columns, rows, coeff, way, w, h, txtp, depth };
        let (answer, by_rust, _) = call.wanted();
        if answer != Answer::accepted(false) {
            return Some(format!("the plain call is to answer {answer:?}"));
        }
        let BlockCall { mut plane, mut coeff, .. } = call;
        let (dst, c, len, eob) = (plane.as_mut_ptr(), coeff.as_mut_ptr(), coeff.len(), self.eob);
        // SAFETY: as above.
        let word = unsafe { sgrifomel_inv_txfm_add(dst, 16, 0, 8, columns, rows, c, len, eob, w, h, txtp, depth) };
        if word != 0 {
            return Some(format!("the plain call answers {:?}", Answer::unpacked(word)));
        }
        first_difference("pixel by the Rust", &sum, &by_rust).or_else(|| first_difference("pixel", &sum, &plane))
    }
}

impl Case for Residual {
    fn difference(&self) -> Option<String> {
        let (wanted, (answer, coeff)) = (self.wanted(), self.got());
        if wanted != answer {
            return Some(format!("wanted {wanted:?}, here {answer:?}"));
        }
        let written = if answer.number == 0 { 16 } else { 0 };
        let stays = first_difference("coefficient that stays", &self.coeff[written..], &coeff[written..]);
        if stays.is_some() || written == 0 {
            return stays;
        }
        match coeff[..16].iter().find(|&&v| v % 4 != 0 || !cases::row_range(self.depth).contains(&v)) {
            Some(v) => Some(format!("coefficient {v}")),
            None => self.back(coeff),
        }
    }

    fn places(&self) -> usize {
        self.r.len()
    }

    fn smaller(&self, place: usize) -> Vec<Self> {
        let with = |v: i32| {
            let mut case = self.clone();
            case.r[place] = v;
            case
        };
        nearer(self.r[place]).into_iter().map(with).collect()
    }

    fn describe(&self) -> String {
        let Residual { r, coeff, depth, pixels, eob } = self;
        format!("depth {depth}, residual {r:?}, coefficients before {coeff:?}, eob {eob}, pixels {pixels:?}")
    }
}

/// Random numbers, numbers at the ends, line art, or small ones; a prediction that leaves each sum in range.
fn residual(rng: &mut Rng, depth: usize) -> Residual {
    let most = i32::from(cases::maximum(depth));
    let way = rng.below(4);
    let span = if way == 3 { 3 } else { most };
    let any = |rng: &mut Rng| rng.below(2 * span as usize + 1) as i32 - span;
    let number = |rng: &mut Rng| match way {
        1 => rng.pick(&[-most, most, most - 1, 1 - most]),
        2 => rng.pick(&[-most, 0, 0, most]),
        _ => any(rng),
    };
    let r: Vec<i32> = (0..16).map(|_| number(rng)).collect();
    let pixel = |rng: &mut Rng, &v: &i32| {
        let (low, high) = ((-v).max(0), (most - v).min(most));
        (low + rng.below((high - low) as usize + 1) as i32) as u16
    };
    let pixels = r.iter().map(|v| pixel(rng, v)).collect();
    let coeff = vec![77; 16 + rng.below(4)];
    Residual { r, coeff, depth, pixels, eob: rng.pick(&[0, 1, 16, i32::MAX]) }
}

/// What may refuse it, and what may not: numbers past the sixteenth.
fn damage(rng: &mut Rng, case: &mut Residual) {
    let most = i32::from(cases::maximum(case.depth.min(12)));
    match rng.below(6) {
        0 => case.depth = rng.pick(&[0, 7, 9, 11, 13, usize::MAX]),
        1 => case.r.truncate(rng.below(16)),
        2 => case.coeff.truncate(rng.below(16)),
        3 => case.r.extend([most + 1, i32::MIN, i32::MAX]),
        _ => {
            let place = rng.below(case.r.len().max(1));
            if let Some(v) = case.r.get_mut(place) {
                *v = rng.pick(&[most + 1, -most - 1, i32::MAX, i32::MIN]);
            }
        }
    }
}

fn main() {
    let (count, mut rng) = count_and_rng(350_000);
    for depth in cases::DEPTHS {
        let mut refused = 0;
        for i in 0..count {
            let mut case = residual(&mut rng, depth);
            for _ in 0..[0, 0, 0, 0, 0, 0, 0, 0, 1, 2][i % 10] {
                damage(&mut rng, &mut case);
            }
            refused += usize::from(case.wanted().number != 0);
            hold(&case);
        }
        println!("depth {depth}: {} residuals came back, {refused} refused as wanted", count - refused);
    }
}
