//! Compares the exported passes with the Rust: compare_1d [COUNT [SEED]], COUNT for each kind, length and range.

use kernels::calls::{Answer, PassCall};
use kernels::cases;
use kernels::compare::{count_and_rng, first_difference, hold, nearer, Case};
use kernels::exports::*;
use kernels::itx::Kind;

type Pass = unsafe extern "C" fn(c: *mut i32, len: usize, stride: usize, min: i32, max: i32) -> u64;

unsafe extern "C" fn wht4(c: *mut i32, len: usize, stride: usize, _min: i32, _max: i32) -> u64 {
    // SAFETY: as for the other passes.
    unsafe { sgrifomel_inv_wht4_1d(c, len, stride) }
}

fn got(call: &PassCall) -> (Answer, Vec<i32>) {
    let pass: Pass = match (call.kind, call.n) {
        (Kind::Dct, 4) => sgrifomel_inv_dct4_1d,
        (Kind::Dct, 8) => sgrifomel_inv_dct8_1d,
        (Kind::Dct, 16) => sgrifomel_inv_dct16_1d,
        (Kind::Dct, 32) => sgrifomel_inv_dct32_1d,
        (Kind::HalfDct, 4) => sgrifomel_inv_dct4_half_1d,
        (Kind::HalfDct, 8) => sgrifomel_inv_dct8_half_1d,
        (Kind::HalfDct, 16) => sgrifomel_inv_dct16_half_1d,
        (Kind::HalfDct, 32) => sgrifomel_inv_dct32_half_1d,
        (Kind::Identity, 4) => sgrifomel_inv_identity4_1d,
        (Kind::Identity, 8) => sgrifomel_inv_identity8_1d,
        (Kind::Identity, 16) => sgrifomel_inv_identity16_1d,
        (Kind::Identity, 32) => sgrifomel_inv_identity32_1d,
        (Kind::Adst, 4) => sgrifomel_inv_adst4_1d,
        (Kind::FlipAdst, 4) => sgrifomel_inv_flipadst4_1d,
        (Kind::Wht, 4) => wht4,
        (kind, n) => panic!("no {kind:?} of {n} points"),
    };
    let mut c = call.c.clone();
    // SAFETY: the pointer and the length are those of one vector; the passes ask for nothing else.
    let word = unsafe { pass(c.as_mut_ptr(), c.len(), call.stride, call.min, call.max) };
    (Answer::unpacked(word), c)
}

#[derive(Clone)]
struct Compared(PassCall);

impl Case for Compared {
    fn difference(&self) -> Option<String> {
        let ((wanted, after), (answer, c)) = (self.0.wanted(), got(&self.0));
        if wanted != answer {
            return Some(format!("wanted {wanted:?}, here {answer:?}"));
        }
        first_difference("element", &after, &c)
    }

    fn places(&self) -> usize {
        1 + self.0.c.len()
    }

    /// Place 0 is the stride and the length.
    fn smaller(&self, place: usize) -> Vec<Self> {
        let call = &self.0;
        if place == 0 {
            let elements = call.c.iter().copied().step_by(call.stride.max(1)).collect();
            let dense = (call.stride > 1).then(|| PassCall { c: elements, stride: 1, ..call.clone() });
            let shorter = call.c.split_last().map(|(_, rest)| PassCall { c: rest.to_vec(), ..call.clone() });
            return dense.into_iter().chain(shorter).map(Compared).collect();
        }
        let at = place - 1;
        let with = |v: i32| {
            let mut call = call.clone();
            call.c[at] = v;
            Compared(call)
        };
        nearer(call.c[at]).into_iter().map(with).collect()
    }

    fn describe(&self) -> String {
        let PassCall { kind, n, c, stride, min, max } = &self.0;
        format!("{kind:?} of {n} points, stride {stride}, range {min}..{max}, elements {c:?}")
    }
}

fn main() {
    let (count, mut rng) = count_and_rng(100_000);
    for shape in cases::pass_shapes() {
        let (mut marked, mut refused) = (0, 0);
        for i in 0..count {
            let long = rng.below(40);
            let stride = rng.pick(&[1, 1, 2, 3, 4, 5, shape.1, 1 + long]);
            let mut call = cases::pass_call(&mut rng, shape, stride);
            // A fifth of the calls is damaged, some of them twice: the first number that applies is the answer.
            for _ in 0..[0, 0, 0, 0, 1 + i / 5 % 2][i % 5] {
                cases::damage_pass(&mut rng, &mut call);
            }
            let (answer, _) = call.wanted();
            marked += usize::from(answer.mark);
            refused += usize::from(answer.number != 0);
            hold(&Compared(call));
        }
        let (kind, n, m) = shape;
        println!("{kind:?} {n}, range {m}: {count} calls the same, {marked} marked, {refused} refused");
    }
}
