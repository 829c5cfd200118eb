//! What comparing reads of a tree, counted: by the proved check, and by others beside it.

use crate::counted::{self, Count};
use crate::plain;
use crate::shapes::{Shape, SHAPES};
use crate::timing::seconds_of_both;
use smclp::face;
use std::hint::black_box;

const SIZES: [usize; 3] = [8, 64, 512];

/// The place of the first bad record, as the proved library answers it.
fn proved(tree: &[u8]) -> Option<usize> {
    match face::check_tree(tree) {
        face::Answer { number: 0, .. } => None,
        face::Answer { number, value } => {
            assert_eq!(number, face::REFUSED_TREE);
            Some(value as usize)
        }
    }
}

/// Bytes that comparing reads of one tree, in each way.
#[derive(Debug)]
struct Touched {
    whole: u64,
    to_difference: u64,
    without_marks: u64,
    now: Count,
}

impl Touched {
    /// Every way must answer as the proved library does.
    fn of(tree: &[u8]) -> Touched {
        let (whole, to_difference) = (plain::count_whole(tree), plain::count_to_difference(tree));
        let (without_marks, now) = (counted::check_without_marks(tree), counted::check(tree));
        let answers = [whole.0, to_difference.0, without_marks.0, now.0, plain::check_whole(tree)];
        assert_eq!(answers, [proved(tree); 5]);
        Touched { whole: whole.1, to_difference: to_difference.1, without_marks: without_marks.1.bytes, now: now.1 }
    }

    fn heading() -> String {
        format!(
            "{:<14} {:>7} {:>13} {:>13} {:>13} {:>9} {:>8} {:>9}",
            "tree", "records", "whole", "to difference", "parents first", "compared", "pairs", "now"
        )
    }

    fn row(&self, name: &str, records: usize) -> String {
        let Touched { whole, to_difference, without_marks, now } = self;
        format!(
            "{name:<14} {records:>7} {whole:>13} {to_difference:>13} {without_marks:>13} {:>9} {:>8} {:>9}",
            now.searches, now.pairs, now.bytes
        )
    }
}

/// Prints the table, with the times of the proved check and of plain comparing.
pub fn show() {
    println!("what comparing reads of a tree, in bytes; times are the best of several runs, the two in turns");
    println!("{} {:>11} {:>11}", Touched::heading(), "proved ns", "plain ns");
    for Shape { name, make } in SHAPES {
        for records in SIZES {
            let tree = make(records);
            let row = Touched::of(&tree).row(name, records);
            let (ours, plain) = seconds_of_both(
                || {
                    black_box(face::check_tree(black_box(&tree)));
                },
                || {
                    black_box(plain::check_whole(black_box(&tree)));
                },
            );
            println!("{row} {:>11.0} {:>11.0}", ours * 1e9, plain * 1e9);
        }
    }
}

#[cfg(test)]
mod tests {
    use super::*;
    use clp_gen::tree::{bytes_of, Node};
    use clp_gen::Rng;

    /// Most pairs that the check compares in a tree of so many records, and most bytes that comparing reads: a compared record's own parent, and of a pair
    /// a parent, two numbers, two lengths, and two tags up to the fifteenth letter. The sixteenth is read where all before it agree: among at most 52 good
    /// records, and between a twin and 52.
    fn most(records: usize) -> (u64, u64) {
        let pairs = |records: usize| records * records.saturating_sub(1) / 2;
        let good = records.saturating_sub(1);
        let alike = good / 52 * pairs(52) + pairs(good % 52) + good.min(52);
        (pairs(records) as u64, (38 * pairs(records) + 2 * alike + 2 * good) as u64)
    }

    /// All ways answer alike, and comparing stays below the most.
    fn hold(tree: &[u8]) -> Touched {
        let touched = Touched::of(tree);
        let (pairs, bytes) = most(tree.len().div_ceil(22).min(512));
        let now = touched.now;
        assert!(now.siblings <= now.pairs && now.pairs <= pairs && now.bytes <= bytes, "{now:?}");
        touched
    }

    #[test]
    fn every_way_answers_as_the_proved_library() {
        for Shape { name, make } in SHAPES {
            for records in (0..70).chain([511, 512]) {
                let good = make(records);
                // the form and the marks of a good record take 30 readings, and comparing takes none of these over
                assert_eq!(hold(&good).now.others, 30 * records as u64, "{name}, {records}");
                assert_eq!(proved(&good), None, "{name}, {records}");
                let Some(last) = records.checked_sub(1) else {
                    continue;
                };
                for earlier in [0, last / 2, last.saturating_sub(1)].into_iter().filter(|&earlier| earlier < last) {
                    let mut twin = good.clone();
                    twin.copy_within(22 * earlier..22 * earlier + 22, 22 * last);
                    hold(&twin);
                    assert_eq!(proved(&twin), Some(22 * last), "{name}, {records}, {earlier}");
                }
            }
        }
        let mut rng = Rng::new(5);
        for _ in 0..5_000 {
            hold(&clp_gen::tree::tree(&mut rng).bytes);
        }
    }

    /// Tags that begin and end alike have the same marks: each record is compared with all before it.
    #[test]
    fn the_most_pairs_are_reached() {
        let tag = |index: u16| [b"abcdefghijklm", &[b'a' + (index / 26) as u8, b'a' + (index % 26) as u8, b'p'][..]].concat();
        let nodes: Vec<Node> = (0..512).map(|index| Node { parent: 0, tag: tag(index), number: 1 }).collect();
        let now = hold(&bytes_of(&nodes)).now;
        assert_eq!((now.searches, now.pairs), (511, most(512).0));
    }

    /// A rack that letters its slots, 19 temperatures in each of 26: only the system and the first slot's records are compared with none.
    #[test]
    fn a_rack_of_lettered_slots_has_nearly_all_pairs() {
        let now = hold(&crate::shapes::lettered_slots(495)).now;
        assert_eq!((now.searches, now.pairs), (475, 122_075));
        for page in [include_str!("../../docs/SPEED.md"), include_str!("../../include/clp.h"), include_str!("../../README.md")] {
            assert!(page.contains(&grouped(now.pairs)));
        }
    }

    /// What is read of two records, told by hand: the later one's parent, then of both what the ones before don't decide.
    #[test]
    fn two_records_are_read_up_to_what_differs() {
        let node = |parent, tag: &[u8], number| Node { parent, tag: tag.to_vec(), number };
        let first = node(0, b"abcd", 256);
        let seconds = [
            (node(1, b"abcd", 256), 2 + 2, 0),
            (node(0, b"abcd", 257), 2 + 2 + 4, 1),
            (node(0, b"abcde", 256), 2 + 2 + 4 + 2, 1),
            (node(0, b"Abcd", 256), 2 + 2 + 4 + 2 + 2, 1),
            (node(0, b"abcD", 256), 2 + 2 + 4 + 2 + 8, 1),
            (first.clone(), 2 + 2 + 4 + 2 + 8, 1),
        ];
        for (second, bytes, siblings) in seconds {
            let is_twin = first == second;
            let tree = bytes_of(&[first.clone(), second]);
            let (place, count) = counted::check_without_marks(&tree);
            // the first record is compared with none; its parent is read all the same
            assert_eq!((count.bytes, count.pairs, count.siblings), (2 + bytes, 1, siblings), "{tree:?}");
            assert_eq!(place, is_twin.then_some(22));
            let (_, now) = counted::check(&tree);
            let expected = if is_twin { (1, 1, bytes) } else { (0, 0, 0) };
            assert_eq!((now.searches, now.pairs, now.bytes), expected, "{tree:?}");
        }
    }

    /// docs/SPEED.md has the counts of every tree, and the most that any tree can cost.
    #[test]
    fn the_page_has_what_is_counted() {
        let page = include_str!("../../docs/SPEED.md");
        let has = |row: &str| page.lines().any(|line| line.starts_with(row));
        assert!(has(&Touched::heading()), "{}", Touched::heading());
        for Shape { name, make } in SHAPES {
            for records in SIZES {
                let row = hold(&make(records)).row(name, records);
                assert!(has(&format!("{row} ")), "{row}");
            }
        }
        let (pairs, bytes) = most(512);
        for number in [pairs, bytes] {
            assert!(page.contains(&grouped(number)), "{}", grouped(number));
        }
    }

    /// A number with its digits in threes, as pages have it.
    fn grouped(number: u64) -> String {
        match number {
            0..1000 => number.to_string(),
            _ => format!("{},{:03}", grouped(number / 1000), number % 1000),
        }
    }
}
