//! Compares the exported calls with the Rust: compare_2d [COUNT [SEED]], COUNT blocks for each size, type and depth, each
//! by the plain call and by the live-row call with every r that covers it, half of them with some pixels not visible.
//! Some go by the second engine too, which is held to the Rust where there is no mark. Those at depth 8 go by the narrow
//! calls too, which are held to the Rust and to the wide calls.

use kernels::calls::{Answer, BlockCall, Way};
use kernels::cases::{self, Rng, Shape};
use kernels::compare::{count_and_rng, first_difference, hold, nearer, places_of, Case};
use kernels::exports::*;
use std::collections::BTreeMap;

/// The answer, the plane and the coefficients.
type Outcome = (Answer, Vec<u16>, Vec<i32>);

/// Of the exported calls: the port's, or that of request E8.
#[derive(Clone, Copy, PartialEq)]
enum Engine {
    First,
    Second,
}

impl Engine {
    /// Its number of refusal where the first engine's is `first`: the second refuses each ADST by 2.
    fn number(self, call: &BlockCall, first: u64) -> u64 {
        let lacks = self == Engine::Second && cases::has_adst(call.txtp);
        if lacks && first != 1 {
            2
        } else {
            first
        }
    }

    /// What the Rust does. Where it gives the mark the second engine goes its own way, but crops as it pads: it is held
    /// to itself on a padded plane.
    fn wanted(self, call: &BlockCall) -> Outcome {
        let (first, plane, coeff) = call.wanted();
        if self.number(call, first.number) != first.number {
            return (Answer::refused(2, 0), call.plane.clone(), call.coeff.clone());
        }
        if self == Engine::First || !first.mark {
            return (first, plane, coeff);
        }
        let padded = call.padded();
        let (_, done, _) = got(self, &padded);
        (Answer::accepted(false), call.read_back(&padded, &done), coeff)
    }
}

fn got(engine: Engine, call: &BlockCall) -> Outcome {
    let (mut plane, mut coeff) = (call.plane.clone(), call.coeff.clone());
    let &BlockCall { offset: at, stride, columns: x, rows: y, w, h, txtp: t, depth: d, .. } = call;
    macro_rules! by {
        ($name:ident, $plane:ident, $coeff:ident, $last:ident $(, $depth:ident)?) => {{
            let (dst, dst_len) = ($plane.as_mut_ptr(), $plane.len());
            let (c, c_len) = ($coeff.as_mut_ptr(), $coeff.len());
            // SAFETY: each pointer and length are those of one vector; the calls ask for nothing else.
            unsafe { $name(dst, dst_len, at, stride, x, y, c, c_len, $last, w, h, t $(, $depth)?) }
        }};
    }
    if call.pixel_bytes == 1 {
        let mut bytes: Vec<u8> = plane.into_iter().map(|p| p as u8).collect();
        let mut shorts: Vec<i16> = coeff.into_iter().map(|v| v as i16).collect();
        let word = match call.way {
            Way::Plain(eob) => by!(sgrifomel_inv_txfm_add_8bpc, bytes, shorts, eob),
            Way::Live(r) => by!(sgrifomel_inv_txfm_add_live_8bpc, bytes, shorts, r),
        };
        let (plane, coeff) = (bytes.into_iter().map(u16::from), shorts.into_iter().map(i32::from));
        return (Answer::unpacked(word), plane.collect(), coeff.collect());
    }
    let word = match (engine, call.way) {
        (Engine::First, Way::Plain(eob)) => by!(sgrifomel_inv_txfm_add, plane, coeff, eob, d),
        (Engine::First, Way::Live(r)) => by!(sgrifomel_inv_txfm_add_live, plane, coeff, r, d),
        (Engine::Second, Way::Plain(eob)) => by!(sgrifomel_spec_inv_txfm_add, plane, coeff, eob, d),
        (Engine::Second, Way::Live(r)) => by!(sgrifomel_spec_inv_txfm_add_live, plane, coeff, r, d),
    };
    (Answer::unpacked(word), plane, coeff)
}

/// In what an outcome differs from the one that is wanted of it.
fn apart(wanted: &Outcome, here: &Outcome) -> Option<String> {
    if wanted.0 != here.0 {
        return Some(format!("wanted {:?}, here {:?}", wanted.0, here.0));
    }
    first_difference("pixel", &wanted.1, &here.1).or_else(|| first_difference("coefficient", &wanted.2, &here.2))
}

#[derive(Clone)]
struct Compared(BlockCall, Engine);

impl Compared {
    /// The call changed by each of some values.
    fn each<V>(&self, values: impl IntoIterator<Item = V>, change: impl Fn(&mut BlockCall, V)) -> Vec<Compared> {
        let changed = |v| {
            let mut call = self.0.clone();
            change(&mut call, v);
            Compared(call, self.1)
        };
        values.into_iter().map(changed).collect()
    }
}

impl Case for Compared {
    fn difference(&self) -> Option<String> {
        let &Compared(ref call, engine) = self;
        let here = got(engine, call);
        let beside_wide = |wide| Some(format!("beside the wide call: {}", apart(&got(engine, &wide), &here)?));
        apart(&engine.wanted(call), &here).or_else(|| call.wide().and_then(beside_wide))
    }

    fn places(&self) -> usize {
        4 + self.0.coeff.len() + self.0.plane.len()
    }

    /// Place 0 is eob or r, 1 what lies beyond the block, 2 the visible columns, 3 the visible rows; then come the
    /// coefficients and the pixels.
    fn smaller(&self, place: usize) -> Vec<Self> {
        let call = &self.0;
        let pixels_from = 4 + call.coeff.len();
        match (place, call.way) {
            (0, Way::Plain(eob)) => self.each(nearer(eob), |c, eob| c.way = Way::Plain(eob)),
            (0, Way::Live(r)) => self.each(1..r.min(33), |c, r| c.way = Way::Live(r)),
            (1, _) => {
                let shorter_coeff = self.each(call.coeff.len().checked_sub(1), |c, len| c.coeff.truncate(len));
                let shorter_plane = self.each(call.plane.len().checked_sub(1), |c, len| c.plane.truncate(len));
                let alone = call.alone().map(|call| Compared(call, self.1));
                alone.into_iter().chain(shorter_coeff).chain(shorter_plane).collect()
            }
            (2, _) => self.each(1..call.columns.min(33), |c, columns| c.columns = columns),
            (3, _) => self.each(1..call.rows.min(33), |c, rows| c.rows = rows),
            _ if place < pixels_from => {
                let at = place - 4;
                self.each(nearer(call.coeff[at]), |c, v| c.coeff[at] = v)
            }
            _ => {
                let at = place - pixels_from;
                self.each(nearer(call.plane[at].into()), |c, v| c.plane[at] = v as u16)
            }
        }
    }

    fn describe(&self) -> String {
        let BlockCall { pixel_bytes, plane, offset, stride, columns, rows, coeff, way, w, h, txtp, depth } = &self.0;
        let (plane, coeff) = (places_of(plane), places_of(coeff));
        let engine = if self.1 == Engine::First { "first" } else { "second" };
        format!(
            "{engine} engine, bytes a pixel {pixel_bytes}, {w}x{h}, type {txtp}, depth {depth}, {way:?}, offset {offset}, \
             byte stride {stride}, {columns} columns and {rows} rows visible\nplane: {plane}\ncoefficients: {coeff}"
        )
    }
}

/// How many calls were made, and of them: held to the wide call too, accepted with not all visible, marked by the Rust,
/// refused by each number.
#[derive(Default)]
struct Counts {
    calls: usize,
    beside_wide: usize,
    cropped: usize,
    marked: usize,
    refused: BTreeMap<u64, usize>,
}

impl Counts {
    fn hold(&mut self, call: BlockCall, engine: Engine) {
        let (first, ..) = call.wanted();
        self.calls += 1;
        self.beside_wide += usize::from(call.wide().is_some());
        match engine.number(&call, first.number) {
            0 => {
                self.cropped += usize::from(!call.is_whole());
                self.marked += usize::from(first.mark);
            }
            number => *self.refused.entry(number).or_default() += 1,
        }
        hold(&Compared(call, engine));
    }

    fn add(&mut self, other: Counts) {
        self.calls += other.calls;
        self.beside_wide += other.beside_wide;
        self.cropped += other.cropped;
        self.marked += other.marked;
        for (number, count) in other.refused {
            *self.refused.entry(number).or_default() += count;
        }
    }

    fn report(&self, of: &str) {
        let Counts { calls, cropped, marked, refused, .. } = self;
        let refused: usize = refused.values().sum();
        println!("{of}: {calls} calls the same, {cropped} cropped, {marked} marked, {refused} refused");
    }

    fn report_numbers(&self) {
        let words: Vec<String> = self.refused.iter().map(|(number, count)| format!("{number}: {count}")).collect();
        println!("refused by number: {}", words.join(", "));
    }
}

/// Of the first engine's wide calls, of the second engine's, and of the narrow calls.
#[derive(Default)]
struct Sums {
    first: Counts,
    second: Counts,
    narrow: Counts,
}

/// One block by the plain call, by every live-row call that covers it, and both ways damaged. By the second engine once.
/// At depth 8 as well by the narrow calls.
fn compare_block(rng: &mut Rng, shape: Shape, sums: &mut Sums) {
    let record = cases::record(rng, shape);
    let plain = cases::block_call(rng, &record);
    let (h, least) = (shape.h, record.live_rows());
    let ways = [plain.way, Way::Live(least + rng.below(h + 1 - least))];
    // Twice now and then: the first number that applies is the answer.
    let mut damaged = |call: &BlockCall, way: Way| {
        let mut call = BlockCall { way, ..call.clone() };
        for _ in 0..1 + rng.below(2) {
            cases::damage_block(rng, &mut call);
        }
        call
    };
    let covering = |call: &BlockCall, counts: &mut Counts| {
        counts.hold(call.clone(), Engine::First);
        for r in least..=h {
            counts.hold(BlockCall { way: Way::Live(r), ..call.clone() }, Engine::First);
        }
    };
    covering(&plain, &mut sums.first);
    for way in ways {
        let call = damaged(&plain, way);
        sums.first.hold(call.clone(), Engine::First);
        sums.second.hold(call, Engine::Second);
    }
    if shape.depth == 8 {
        let plain = plain.narrow();
        covering(&plain, &mut sums.narrow);
        for way in ways {
            // What the damage put in is brought to the width.
            sums.narrow.hold(damaged(&plain, way).narrow(), Engine::First);
        }
    }
    sums.second.hold(BlockCall { way: rng.pick(&ways), ..plain }, Engine::Second);
}

fn main() {
    let (count, mut rng) = count_and_rng(400);
    let mut all = Sums::default();
    for shape in cases::block_shapes() {
        let mut sums = Sums::default();
        for _ in 0..count {
            compare_block(&mut rng, shape, &mut sums);
        }
        let Shape { w, h, txtp, depth } = shape;
        let of = format!("{w}x{h}, type {txtp}, depth {depth}");
        sums.first.report(&of);
        if depth == 8 {
            sums.narrow.report(&format!("{of}, narrow"));
        }
        all.first.add(sums.first);
        all.second.add(sums.second);
        all.narrow.add(sums.narrow);
    }
    for (of, counts) in [("in all", &all.first), ("second engine", &all.second), ("narrow", &all.narrow)] {
        counts.report(of);
        counts.report_numbers();
    }
    println!("narrow, held to the wide call too: {}", all.narrow.beside_wide);
}
