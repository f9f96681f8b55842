//! The oracle as a program over standard input and output; README.md says what each word of it does.

use kernels::calls::PassCall;
use kernels::cases::{self, Rng, Shape};
use kernels::format::{write_number, Reader, Record};
use kernels::itx::Kind;
use kernels::words::{next_call, put, put_answer, put_call, put_outcome};
use std::collections::BTreeMap;
use std::env;
use std::io::{self, Read, Write};
use std::process::exit;

const KINDS: [Kind; 6] = [Kind::Dct, Kind::Identity, Kind::Wht, Kind::HalfDct, Kind::Adst, Kind::FlipAdst];

fn main() {
    let words: Vec<String> = env::args().skip(1).collect();
    let words: Vec<&str> = words.iter().map(String::as_str).collect();
    let out = match words[..] {
        ["passes", seed, count] => passes(number(seed), number(count)),
        ["passes-done"] => passes_done(&input()),
        ["blocks", seed, count, ref only @ ..] => blocks(number(seed), number(count), only),
        ["blocks-live", seed, count, ref only @ ..] => blocks_live(number(seed), number(count), only),
        ["blocks-outside", seed, count, ref only @ ..] => blocks_outside(number(seed), number(count), only),
        ["blocks-done"] => blocks_done(&input()),
        ["totals"] => totals(&input()),
        ["blocks-8bpc", seed, count, refused] => blocks_8bpc(number(seed), number(count), number(refused)),
        ["blocks-8bpc-done"] => blocks_8bpc_done(&input()),
        _ => stop(
            "usage: oracle passes SEED COUNT | passes-done | blocks SEED COUNT [NAME=NUMBER..] | \
             blocks-live SEED COUNT [NAME=NUMBER..] | blocks-outside SEED COUNT [NAME=NUMBER..] | blocks-done | totals | \
             blocks-8bpc SEED COUNT REFUSED | blocks-8bpc-done",
        ),
    };
    if let Err(error) = io::stdout().write_all(&out) {
        stop(&format!("write failed: {error}"));
    }
}

fn stop(why: &str) -> ! {
    eprintln!("{why}");
    exit(2)
}

fn number(word: &str) -> u64 {
    word.parse().unwrap_or_else(|_| stop(&format!("not a number: {word}")))
}

fn input() -> Vec<u8> {
    let mut bytes = Vec::new();
    if let Err(error) = io::stdin().read_to_end(&mut bytes) {
        stop(&format!("read failed: {error}"));
    }
    bytes
}

fn passes(seed: u64, count: u64) -> Vec<u8> {
    let mut rng = Rng(seed);
    let mut out = Vec::new();
    for shape in cases::pass_shapes().into_iter().cycle().take(count as usize) {
        let stride = 1 + rng.below(5);
        let call = cases::pass_call(&mut rng, shape, stride);
        let (n, m) = (call.n as i32, shape.2);
        for word in [call.kind as i32, n, stride as i32, m, call.c.len() as i32] {
            put(&mut out, word);
        }
        call.c.iter().for_each(|&v| put(&mut out, v));
    }
    out
}

fn passes_done(bytes: &[u8]) -> Vec<u8> {
    let mut words = bytes.chunks(4).map(|word| match word.try_into() {
        Ok(word) => i32::from_le_bytes(word),
        Err(_) => stop("the input ends inside a word"),
    });
    let mut out = Vec::new();
    while let Some(kind) = words.next() {
        let mut next = || words.next().unwrap_or_else(|| stop("the input ends inside a record"));
        let [n, stride, m, len] = [next(), next(), next(), next()];
        let call = PassCall {
            kind: KINDS.into_iter().find(|&k| k as i32 == kind).unwrap_or_else(|| stop("there is no such kind")),
            n: n as usize,
            c: (0..len).map(|_| next()).collect(),
            stride: stride as usize,
            min: -m,
            max: m - 1,
        };
        let (answer, c) = call.wanted();
        put_answer(&mut out, answer);
        c.into_iter().for_each(|v| put(&mut out, v));
    }
    out
}

fn shapes(only: &[&str]) -> Vec<Shape> {
    let mut shapes = cases::block_shapes();
    for word in only {
        let (name, value) = word.split_once('=').unwrap_or_else(|| stop("expected NAME=NUMBER"));
        let field: fn(&Shape) -> usize = match name {
            "w" => |shape| shape.w,
            "h" => |shape| shape.h,
            "type" => |shape| shape.txtp,
            "depth" => |shape| shape.depth,
            _ => stop("NAME is w, h, type or depth"),
        };
        shapes.retain(|shape| field(shape) as u64 == number(value));
    }
    if shapes.is_empty() {
        stop("no block is like that");
    }
    shapes
}

/// The file of that version with a record for each of COUNT turns over `kinds`.
fn file<K: Copy>(version: u32, kinds: &[K], count: u64, mut record: impl FnMut(K) -> Record) -> Vec<u8> {
    let mut out = Vec::new();
    write_number(&mut out, version);
    for &kind in kinds.iter().cycle().take(count as usize) {
        record(kind).write(&mut out);
    }
    out
}

fn blocks(seed: u64, count: u64, only: &[&str]) -> Vec<u8> {
    let mut rng = Rng(seed);
    file(1, &shapes(only), count, |shape| cases::record(&mut rng, shape))
}

fn blocks_outside(seed: u64, count: u64, only: &[&str]) -> Vec<u8> {
    let mut rng = Rng(seed);
    file(1, &shapes(only), count, |shape| cases::outside_record(&mut rng, shape))
}

fn blocks_live(seed: u64, count: u64, only: &[&str]) -> Vec<u8> {
    let mut rng = Rng(seed);
    let with_rows = |shape: Shape| (1..=shape.h).map(move |r| (shape, r));
    let kinds: Vec<(Shape, usize)> = shapes(only).into_iter().flat_map(with_rows).collect();
    file(2, &kinds, count, |(shape, r)| cases::live_record(&mut rng, shape, r))
}

/// A record, and what its call left.
struct Done {
    record: Record,
    mark: bool,
    pixels: Vec<u16>,
    coeff: Vec<i32>,
}

fn done(record: Record) -> Result<Done, u64> {
    let (answer, pixels, coeff) = record.call().wanted();
    match answer.number {
        0 => Ok(Done { record, mark: answer.mark, pixels, coeff }),
        refusal => Err(refusal),
    }
}

/// The version of a file, its records done, and the line of the refusal before which they stand.
fn file_done(bytes: &[u8]) -> (Option<u32>, Vec<Done>, Option<String>) {
    let mut reader = Reader(bytes);
    let mut records = Vec::new();
    let version = match reader.version() {
        Ok(version) => version,
        Err(refusal) => return (None, records, Some(format!("refused 0 {refusal}"))),
    };
    while !reader.0.is_empty() {
        match reader.record(version).and_then(done) {
            Ok(done) => records.push(done),
            Err(refusal) => {
                let line = format!("refused {} {refusal}", records.len() + 1);
                return (Some(version), records, Some(line));
            }
        }
    }
    (Some(version), records, None)
}

fn blocks_done(bytes: &[u8]) -> Vec<u8> {
    let (version, records, refusal) = file_done(bytes);
    let mut out = Vec::new();
    version.into_iter().for_each(|version| write_number(&mut out, version));
    for Done { record, pixels, coeff, .. } in records {
        Record { pixels, coeff, ..record }.write(&mut out);
    }
    refusal.into_iter().for_each(|line| eprintln!("{line}"));
    out
}

/// Number 22 is not here: no file in memory has so many records.
fn totals(bytes: &[u8]) -> Vec<u8> {
    let (_, records, refusal) = file_done(bytes);
    if let Some(line) = refusal {
        return format!("{line}\n").into();
    }
    let (mut marked, mut change, mut largest, mut met) = (0u64, 0u64, 0, BTreeMap::new());
    for Done { record, mark, pixels, .. } in &records {
        marked += u64::from(*mark);
        for (before, after) in record.pixels.iter().zip(pixels) {
            let distance = before.abs_diff(*after);
            change += u64::from(distance);
            largest = largest.max(distance);
        }
        *met.entry((record.w, record.h, record.txtp)).or_insert(0u64) += 1;
    }
    let first = [format!("records {}\nmarked {marked}\nchange {change}\nlargest {largest}\n", records.len())];
    let met = met.iter().map(|((w, h, txtp), count)| format!("{w} {h} {txtp} {count}\n"));
    first.into_iter().chain(met).collect::<String>().into()
}

fn blocks_8bpc(seed: u64, count: u64, refused: u64) -> Vec<u8> {
    let mut out = Vec::new();
    for call in cases::narrow_calls(&mut Rng(seed), count as usize, refused as usize) {
        put_call(&mut out, &call);
    }
    out
}

fn blocks_8bpc_done(mut left: &[u8]) -> Vec<u8> {
    let mut out = Vec::new();
    while !left.is_empty() {
        let call = next_call(&mut left).unwrap_or_else(|| stop("there is no such record, or the input ends inside it"));
        put_outcome(&mut out, &call);
    }
    out
}
