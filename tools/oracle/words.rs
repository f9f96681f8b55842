//! The lists that `crates/replay` replays, in words of 32 bits, low byte first.

use crate::calls::{Answer, BlockCall, Way};

/// The first words of narrow calls; those of passes are below (`Kind` in itx.rs).
const PLAIN: u32 = 6;
const LIVE: u32 = 7;

/// What `crates/replay` has room for.
const MOST_PIXELS: usize = 2048;
const MOST_COEFFICIENTS: usize = 1100;

/// A word, low byte first.
pub fn put(out: &mut Vec<u8>, word: i32) {
    out.extend(word.to_le_bytes());
}

/// Number, place and mark.
pub fn put_answer(out: &mut Vec<u8>, answer: Answer) {
    for word in [answer.number as i32, answer.place as i32, answer.mark.into()] {
        put(out, word);
    }
}

/// A narrow call's words before its pixels, if its numbers fit them and there is room for its record.
fn head(call: &BlockCall) -> Option<[i32; 11]> {
    let word = |n: usize| u32::try_from(n).ok().map(|n| n as i32);
    let (kind, last) = match call.way {
        Way::Plain(eob) => (PLAIN as i32, eob),
        Way::Live(r) => (LIVE as i32, word(r)?),
    };
    let (w, h, txtp) = (word(call.w)?, word(call.h)?, word(call.txtp)?);
    let (offset, stride) = (call.offset as i32, call.stride);
    let (columns, rows) = (word(call.columns)?, word(call.rows)?);
    let (pixels, coefficients) = (call.plane.len(), call.coeff.len());
    let room = pixels <= MOST_PIXELS && coefficients <= MOST_COEFFICIENTS;
    room.then_some([kind, last, w, h, txtp, offset, stride, columns, rows, pixels as i32, coefficients as i32])
}

/// Whether a narrow call has a record.
pub fn has_record(call: &BlockCall) -> bool {
    head(call).is_some()
}

/// A narrow call's pixels, a byte each, and coefficients, two bytes each.
fn put_numbers(out: &mut Vec<u8>, plane: &[u16], coeff: &[i32]) {
    out.extend(plane.iter().map(|&p| p as u8));
    out.extend(coeff.iter().flat_map(|&v| (v as i16).to_le_bytes()));
}

/// The record of a narrow call that has one.
pub fn put_call(out: &mut Vec<u8>, call: &BlockCall) {
    for word in head(call).expect("a call that has a record") {
        put(out, word);
    }
    put_numbers(out, &call.plane, &call.coeff);
}

/// What is wanted of a narrow call.
pub fn put_outcome(out: &mut Vec<u8>, call: &BlockCall) {
    let (answer, plane, coeff) = call.wanted();
    put_answer(out, answer);
    put_numbers(out, &plane, &coeff);
}

/// The first n bytes of what is left.
fn part<'a>(left: &mut &'a [u8], n: usize) -> Option<&'a [u8]> {
    let part = left.get(..n)?;
    *left = &left[n..];
    Some(part)
}

/// The next word.
fn word(left: &mut &[u8]) -> Option<u32> {
    part(left, 4)?.try_into().ok().map(u32::from_le_bytes)
}

/// The narrow call of the next record, if the list goes on with one that is whole.
pub fn next_call(left: &mut &[u8]) -> Option<BlockCall> {
    let mut next = || word(left);
    let (kind, last) = (next()?, next()?);
    let way = match kind {
        PLAIN => Way::Plain(last as i32),
        LIVE => Way::Live(last as usize),
        _ => return None,
    };
    let [w, h, txtp] = [next()?, next()?, next()?].map(|n| n as usize);
    let (offset, stride) = (next()?, next()? as i32);
    let [columns, rows, pixels, coefficients] = [next()?, next()?, next()?, next()?].map(|n| n as usize);
    let plane = part(left, pixels)?.iter().map(|&p| p.into()).collect();
    let coeff = part(left, 2 * coefficients)?.chunks(2).map(|v| i16::from_le_bytes([v[0], v[1]]).into()).collect();
    Some(BlockCall { pixel_bytes: 1, plane, offset, stride, columns, rows, coeff, way, w, h, txtp, depth: 8 })
}
