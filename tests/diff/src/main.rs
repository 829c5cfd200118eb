//! The proved library held against the independent reader on generated input: equal answers, equal lent memory, nothing changed on a refusal,
//! canary bytes around every lent buffer untouched.
//!
//! clp_diff [LINES] [SEED]: a million lines and seed 1 where none are given.

mod beginnings;
mod captures;
mod lent;
mod lines;
mod replies;
mod trees;

use clp_gen::Rng;
use std::time::Instant;

fn number(at: usize, otherwise: u64) -> u64 {
    std::env::args().nth(at).map_or(otherwise, |word| word.parse().expect("a number"))
}

fn main() {
    let lines = number(1, 1_000_000) as usize;
    let mut rng = Rng::new(number(2, 1));
    let began = Instant::now();
    let mut counts = lines::Counts::default();
    for _ in 0..lines {
        lines::compare(&mut rng, &mut counts);
    }
    let (terms, texts) = beginnings::compare(&mut rng, &mut counts);
    for _ in 0..lines / 100 {
        captures::compare(&mut rng);
    }
    for _ in 0..lines / 500 {
        trees::compare(&mut rng);
    }
    let mut of_replies = replies::Counts::default();
    for _ in 0..lines / 10 {
        replies::compare_reading(&mut rng, &mut of_replies);
    }
    for _ in 0..lines / 20 {
        replies::compare_writing(&mut rng, &mut of_replies);
        replies::compare_value(&mut rng, &mut of_replies);
    }
    counts.show();
    of_replies.show();
    println!("diff: {terms} lines and {texts} texts of beginnings with a byte after them");
    println!(
        "diff: {} lines, {} captures, {} trees, {} replies, {} records of replies, {} values: no difference ({:.1} s)",
        lines,
        lines / 100,
        lines / 500,
        lines / 10,
        lines / 20,
        lines / 20,
        began.elapsed().as_secs_f64()
    );
}
