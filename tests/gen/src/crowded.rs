//! Crowded trees: their records are nearly twins, so that a check has to compare them letter by letter.

use crate::rng::Rng;
use crate::tree::{bytes_of, Node, Tree};

/// A crowded tree, and what was made in it.
#[derive(Clone, Debug)]
pub struct Crowded {
    pub tree: Tree,
    pub pair: Option<Pair>,
}

/// Two records, by where they stand among all: the later was made of the earlier.
#[derive(Clone, Copy, Debug, PartialEq, Eq)]
pub struct Pair {
    pub earlier: usize,
    pub later: usize,
    /// None where they are twins.
    pub difference: Option<Difference>,
}

/// The one thing in which a record differs from another.
#[derive(Clone, Copy, Debug, PartialEq, Eq)]
pub enum Difference {
    Parent,
    Number,
    /// The case of one letter of the tag.
    Case,
    /// One letter more or less between the tag's ends.
    Length,
}

pub const DIFFERENCES: [Difference; 4] = [
    Difference::Parent,
    Difference::Number,
    Difference::Case,
    Difference::Length,
];

/// A crowded tree of at least two records: about half with one twin of an earlier record, some with
/// a record that differs from an earlier one in one thing, some as they were made.
pub fn crowded(rng: &mut Rng, count: usize) -> Crowded {
    let mut tree = crowded_tree(rng, count.max(2));
    let pair = match rng.below(4) {
        0 => None,
        1 => Some(make_different(rng, &mut tree)),
        _ => Some(make_twin(rng, &mut tree)),
    };
    Crowded { tree, pair }
}

/// At most so many nodes, from the root on, are parents in a crowded tree.
const PARENTS: usize = 4;

/// A tree by the rules with few parents, all low, and few numbers; its tags are of one length, begin
/// and end alike, and differ in one to three places between, all early or all late.
pub fn crowded_tree(rng: &mut Rng, count: usize) -> Tree {
    let length = rng.between(8, 16);
    let tag: Vec<u8> = (0..length).map(|_| letter(rng)).collect();
    let places = match rng.percent(50) {
        true => [1, 2, 3],
        false => [length - 2, length - 3, length - 4],
    };
    let parents = rng.between(1, PARENTS);
    let highest = *rng.pick(&[9, 65_535]);
    let numbers: Vec<u16> = (0..rng.between(1, 4)).map(|_| rng.between(1, highest) as u16).collect();
    let mut nodes: Vec<Node> = Vec::with_capacity(count);
    while nodes.len() < count {
        let mut node = Node {
            parent: rng.below(parents.min(nodes.len() + 1)) as u16,
            tag: tag.clone(),
            number: *rng.pick(&numbers),
        };
        for &place in &places[..rng.between(1, 3)] {
            node.tag[place] = letter(rng);
        }
        if !nodes.contains(&node) {
            nodes.push(node);
        }
    }
    Tree::of(nodes)
}

fn letter(rng: &mut Rng) -> u8 {
    let case = *rng.pick(b"aA");
    case + rng.below(26) as u8
}

/// An earlier and a later record.
fn two_records(rng: &mut Rng, tree: &Tree) -> (usize, usize) {
    let later = rng.between(1, tree.nodes.len() - 1);
    (rng.below(later), later)
}

/// Makes a record the twin of an earlier one.
fn make_twin(rng: &mut Rng, tree: &mut Tree) -> Pair {
    let (earlier, later) = two_records(rng, tree);
    tree.bytes.copy_within(earlier * 22..(earlier + 1) * 22, later * 22);
    tree.is_intact = false;
    Pair {
        earlier,
        later,
        difference: None,
    }
}

/// Makes a record the same as an earlier one but for one thing, and no other one's twin.
fn make_different(rng: &mut Rng, tree: &mut Tree) -> Pair {
    loop {
        let (earlier, later) = two_records(rng, tree);
        let difference = *rng.pick(&DIFFERENCES);
        let node = different(rng, &tree.nodes[earlier], later, difference);
        if node.number > 0 && !tree.nodes.contains(&node) {
            tree.nodes[later] = node;
            tree.bytes = bytes_of(&tree.nodes);
            return Pair {
                earlier,
                later,
                difference: Some(difference),
            };
        }
    }
}

/// A node that differs from `node` in one thing; it may stand at `later`.
fn different(rng: &mut Rng, node: &Node, later: usize, difference: Difference) -> Node {
    let mut node = node.clone();
    let inside = rng.between(1, node.tag.len() - 2);
    match difference {
        Difference::Parent => {
            let highest = later.min(PARENTS - 1);
            let step = rng.between(1, highest);
            node.parent = ((usize::from(node.parent) + step) % (highest + 1)) as u16;
        }
        Difference::Number => node.number ^= 1 << rng.below(16),
        Difference::Case => {
            let at = rng.below(node.tag.len());
            node.tag[at] ^= 0x20;
        }
        Difference::Length if node.tag.len() < 16 && rng.percent(50) => {
            node.tag.insert(inside, letter(rng));
        }
        Difference::Length => {
            node.tag.remove(inside);
        }
    }
    node
}
