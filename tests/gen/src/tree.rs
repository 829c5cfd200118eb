//! Trees as house records, paths into them, and default targets.

use crate::crowded::crowded;
use crate::damage::damage;
use crate::line::loose_target;
use crate::rng::Rng;
use crate::shout::shout;

pub const TAGS: [&str; 8] = [
    "system",
    "cpu",
    "disk",
    "a",
    "CPU",
    "sensor",
    "abcdefghijklmnop",
    "abcdefghijklmno",
];

pub fn tag(rng: &mut Rng) -> &'static [u8] {
    rng.pick_text(&TAGS)
}

/// A tag and a number as a path's segment.
pub fn segment_text(tag: &[u8], number: u16) -> Vec<u8> {
    let mut text = tag.to_vec();
    text.extend_from_slice(number.to_string().as_bytes());
    text
}

/// A node as it was made, before any damage to the tree's bytes.
#[derive(Clone, Debug, PartialEq, Eq)]
pub struct Node {
    pub parent: u16,
    pub tag: Vec<u8>,
    pub number: u16,
}

#[derive(Clone, Debug)]
pub struct Tree {
    /// Node i of the tree stands at i - 1.
    pub nodes: Vec<Node>,
    pub bytes: Vec<u8>,
    /// Made by the rules and left as made; more than 512 nodes pass the limit all the same.
    pub is_intact: bool,
}

impl Tree {
    /// The nodes as they are.
    pub fn of(nodes: Vec<Node>) -> Tree {
        let bytes = bytes_of(&nodes);
        Tree {
            nodes,
            bytes,
            is_intact: true,
        }
    }
}

/// One tree: intact, damaged, crowded, or noise; mostly small, some around 512 records.
pub fn tree(rng: &mut Rng) -> Tree {
    let count = count(rng);
    match rng.below(10) {
        0..=4 => intact_tree(rng, count),
        5..=7 => damaged_tree(rng, count),
        8 => crowded(rng, count).tree,
        _ => noise_tree(rng),
    }
}

/// How many records a tree has: mostly few, sometimes about as many as it may have.
pub fn count(rng: &mut Rng) -> usize {
    match rng.below(20) {
        0..=14 => rng.below(13),
        15..=17 => rng.below(70),
        _ => rng.between(505, 520),
    }
}

/// A tree by the rules; parents are drawn so that both wide and deep trees come.
pub fn intact_tree(rng: &mut Rng, count: usize) -> Tree {
    let deep_percent = *rng.pick(&[0, 20, 80, 100]);
    let tags = rng.between(1, TAGS.len());
    let mut nodes: Vec<Node> = Vec::with_capacity(count);
    for index in 0..count {
        let parent = if rng.percent(deep_percent) {
            index
        } else {
            rng.below(index + 1)
        };
        let tag = TAGS[rng.below(tags)].as_bytes().to_vec();
        let number = if rng.percent(95) {
            rng.between(1, 9)
        } else {
            rng.between(1, 65_535)
        };
        let mut node = Node {
            parent: parent as u16,
            tag,
            number: number as u16,
        };
        while nodes.contains(&node) {
            node.number = node.number % 65_535 + 1;
        }
        nodes.push(node);
    }
    Tree::of(nodes)
}

/// The nodes as house records of kind 16.
pub fn bytes_of(nodes: &[Node]) -> Vec<u8> {
    let mut bytes = Vec::with_capacity(nodes.len() * 22);
    for node in nodes {
        let mut tag_room = [0; 16];
        tag_room[..node.tag.len()].copy_from_slice(&node.tag);
        bytes.push(16);
        bytes.extend_from_slice(&node.parent.to_be_bytes());
        bytes.push(node.tag.len() as u8);
        bytes.extend_from_slice(&tag_room);
        bytes.extend_from_slice(&node.number.to_be_bytes());
    }
    bytes
}

fn damaged_tree(rng: &mut Rng, count: usize) -> Tree {
    let mut tree = intact_tree(rng, count.max(1));
    tree.is_intact = false;
    let at = rng.below(tree.nodes.len());
    let record = &mut tree.bytes[at * 22..(at + 1) * 22];
    match rng.below(10) {
        0 => record[0] = *rng.pick(&[0, 15, 17, 18, 255]),
        1 => record[1..3].copy_from_slice(&(at as u16 + 1).to_be_bytes()),
        2 => record[1] = rng.byte(),
        3 => record[3] = *rng.pick(&[0, 1, 15, 16, 17, 255]),
        4 => record[4 + rng.below(16)] = *rng.pick(b"\0a0_@[`{"),
        5 => record[20..22].fill(0),
        6 => {
            let left = rng.below(tree.bytes.len());
            tree.bytes.truncate(left);
        }
        7 => make_twin(rng, &mut tree),
        8 => {
            let more = rng.between(1, 30);
            tree.bytes.resize(tree.bytes.len() + more, 16);
        }
        _ => damage(rng, &mut tree.bytes),
    }
    tree
}

/// Makes one record the same as another.
fn make_twin(rng: &mut Rng, tree: &mut Tree) {
    let (from, to) = (rng.below(tree.nodes.len()), rng.below(tree.nodes.len()));
    tree.bytes.copy_within(from * 22..(from + 1) * 22, to * 22);
}

fn noise_tree(rng: &mut Rng) -> Tree {
    let length = rng.below(200);
    let bytes = (0..length)
        .map(|_| {
            if rng.percent(70) {
                *rng.pick(&[0, 1, 16, b'a'])
            } else {
                rng.byte()
            }
        })
        .collect();
    Tree {
        nodes: Vec::new(),
        bytes,
        is_intact: false,
    }
}

/// A default target for the tree: mostly one of its nodes, sometimes none.
pub fn default_target(rng: &mut Rng, tree: &Tree) -> u16 {
    match rng.below(20) {
        0 => rng.next() as u16,
        1 => tree.nodes.len() as u16 + 1,
        2 => tree.nodes.len() as u16,
        3..=8 => 0,
        _ => rng.below(tree.nodes.len() + 1) as u16,
    }
}

/// A target's text: mostly the way to some node of the tree, from the root or the default; now and
/// then its tags are in another case, or it is damaged.
pub fn path(rng: &mut Rng, tree: &Tree, default_target: u16) -> Vec<u8> {
    if tree.nodes.is_empty() || rng.percent(25) {
        return loose_target(rng);
    }
    let mut text = path_to_a_node(rng, tree, default_target);
    match rng.below(10) {
        0 => damage(rng, &mut text),
        1 | 2 => star_last_segment(&mut text),
        3 => shout(rng, &mut text),
        _ => {}
    }
    text
}

fn path_to_a_node(rng: &mut Rng, tree: &Tree, default_target: u16) -> Vec<u8> {
    let is_rooted = rng.percent(50);
    let start = if is_rooted { 0 } else { default_target };
    let mut segments = Vec::new();
    let mut node = start;
    for _ in 0..rng.between(1, 6) {
        match rng.below(10) {
            0 => segments.push(b".".to_vec()),
            1 => {
                segments.push(b"..".to_vec());
                node = parent(tree, node);
            }
            _ => {
                let Some(child) = child(rng, tree, node) else {
                    break;
                };
                let made = &tree.nodes[usize::from(child) - 1];
                segments.push(segment_text(&made.tag, made.number));
                node = child;
            }
        }
    }
    let separator: &[u8] = if rng.percent(75) { b"/" } else { b"\\" };
    let mut text = if is_rooted {
        separator.to_vec()
    } else {
        Vec::new()
    };
    text.extend_from_slice(&segments.join(separator));
    text
}

fn parent(tree: &Tree, node: u16) -> u16 {
    let index = usize::from(node).wrapping_sub(1);
    tree.nodes.get(index).map_or(0, |node| node.parent)
}

/// Some child of the node, searched from a random record on.
fn child(rng: &mut Rng, tree: &Tree, node: u16) -> Option<u16> {
    let count = tree.nodes.len();
    let first = rng.below(count);
    (0..count)
        .map(|step| (first + step) % count)
        .find(|&index| tree.nodes[index].parent == node)
        .map(|index| index as u16 + 1)
}

/// Puts `*` for the number of the last segment.
fn star_last_segment(text: &mut Vec<u8>) {
    while text.last().is_some_and(u8::is_ascii_digit) {
        text.pop();
    }
    text.push(b'*');
}
