//! Trees: check, full paths, and the instances that a text addresses.

use crate::lent::{size_near, Lent};
use crate::lines::{refused, same_writing};
use smclp::face;
use clp_gen::{tree, Rng};
use clp_reader::tree::{check_tree, full_path, resolve, Resolved};

pub fn compare(rng: &mut Rng) {
    let tree = tree::tree(rng);
    let expected = match check_tree(&tree.bytes) {
        Ok(_) => face::Answer { number: 0, value: 0 },
        Err(refusal) => refused(refusal),
    };
    assert_eq!(face::check_tree(&tree.bytes), expected);
    for _ in 0..10 {
        compare_path(rng, &tree.bytes);
        let default = tree::default_target(rng, &tree);
        let text = tree::path(rng, &tree, default);
        compare_resolving(rng, &text, &tree.bytes, usize::from(default));
    }
}

fn compare_path(rng: &mut Rng, tree: &[u8]) {
    let node = rng.below(tree.len() / 22 + 3);
    let mut room = vec![0; 22 * 520];
    let needed = full_path(tree, node, &mut room).unwrap_or(0);
    assert!(needed <= face::PATH_BYTES);
    let size = size_near(rng, needed, 200);
    let ours = |room: &mut [u8]| face::full_path(tree, node, room);
    let theirs = |room: &mut [u8]| full_path(tree, node, room);
    same_writing(rng, size, ours, theirs, b"full path");
}

pub fn compare_resolving(rng: &mut Rng, text: &[u8], tree: &[u8], default: usize) {
    let mut list = vec![0; 512];
    let needed = match resolve(text, tree, default, &mut list) {
        Ok(Resolved::Nodes(count)) => count,
        _ => 0,
    };
    let size = size_near(rng, needed, 20);
    let fill = |at: usize| (at as u16).wrapping_mul(977) ^ 0x5a5a;
    let (mut left, mut right) = (Lent::new(size, fill), Lent::new(size, fill));
    let answer = face::resolve(text, tree, default, left.room());
    let shown = text.escape_ascii();
    match resolve(text, tree, default, right.room()) {
        Err(refusal) => {
            assert_eq!(answer, refused(refusal), "{shown}");
            left.unchanged();
        }
        Ok(Resolved::Session) => {
            assert_eq!((answer.number, answer.value), (0, face::NONE), "{shown}");
            left.unchanged();
        }
        Ok(Resolved::Nodes(count)) => {
            assert_eq!((answer.number, answer.value), (0, count as u64), "{shown}");
            assert_eq!(left.wrote(count), right.wrote(count), "{shown}");
        }
    }
}
