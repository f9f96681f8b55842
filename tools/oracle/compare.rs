//! A comparison that stops at the first difference, with the smallest input that it can find.

use crate::cases::Rng;
use std::env;
use std::process::exit;

/// A call that is made on both sides.
pub trait Case: Clone {
    /// In what the two outcomes differ, if they do.
    fn difference(&self) -> Option<String>;

    /// In how many places the case may be made smaller.
    fn places(&self) -> usize;

    /// Cases that are smaller in one place, the smallest first.
    fn smaller(&self, place: usize) -> Vec<Self>;

    fn describe(&self) -> String;
}

/// Numbers nearer to 0 than v, 0 itself first.
pub fn nearer(v: i32) -> Vec<i32> {
    let mut nearer = vec![0, v / 2, v - v / 8, v - v.signum()];
    nearer.retain(|&n| n != v);
    nearer
}

/// The case made smaller, place by place, while it still differs.
fn smallest<C: Case>(mut case: C) -> C {
    loop {
        let mut changed = false;
        let mut place = 0;
        while place < case.places() {
            match case.smaller(place).into_iter().find(|c| c.difference().is_some()) {
                Some(smaller) => (case, changed) = (smaller, true),
                None => place += 1,
            }
        }
        if !changed {
            return case;
        }
    }
}

/// Stops the program if the two sides differ.
pub fn hold<C: Case>(case: &C) {
    if case.difference().is_some() {
        let case = smallest(case.clone());
        let difference = case.difference().unwrap_or_default();
        println!("DIFFERENT\n{}\n{difference}", case.describe());
        exit(1);
    }
}

/// The program's arguments: [COUNT [SEED]].
pub fn count_and_rng(count: usize) -> (usize, Rng) {
    let mut words = env::args().skip(1).map(|word| match word.parse() {
        Ok(number) => number,
        Err(_) => {
            eprintln!("usage: [COUNT [SEED]], not {word}");
            exit(2)
        }
    });
    let count = words.next().unwrap_or(count);
    (count, Rng(words.next().unwrap_or(1) as u64))
}

/// The numbers that are not 0, each with its place.
pub fn places_of<T: Copy + PartialEq + Into<i64>>(numbers: &[T]) -> String {
    let wide = numbers.iter().map(|&v| v.into()).enumerate();
    let words: Vec<String> = wide.filter(|&(_, v)| v != 0i64).map(|(at, v)| format!("{at}: {v}")).collect();
    format!("{} numbers, 0 but {{{}}}", numbers.len(), words.join(", "))
}

/// Where two lists of one length first differ.
pub fn first_difference<T: PartialEq + std::fmt::Display>(name: &str, wanted: &[T], got: &[T]) -> Option<String> {
    let at = (0..wanted.len()).find(|&at| wanted[at] != got[at])?;
    Some(format!("{name} {at}: wanted {}, here {}", wanted[at], got[at]))
}
