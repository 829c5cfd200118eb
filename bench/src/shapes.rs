//! Trees whose check is measured, each in any size up to 512 records.

use clp_gen::tree::{bytes_of, Node};
use clp_gen::Rng;

pub struct Shape {
    pub name: &'static str,
    pub make: fn(usize) -> Vec<u8>,
}

pub const SHAPES: [Shape; 6] = [
    Shape { name: "one parent", make: one_parent },
    Shape { name: "many parents", make: many_parents },
    Shape { name: "chassis", make: chassis },
    Shape { name: "lettered slots", make: lettered_slots },
    Shape { name: "most bytes", make: most_bytes },
    Shape { name: "slowest", make: slowest },
];

fn node(parent: usize, tag: &[u8], number: usize) -> Node {
    Node { parent: parent as u16, tag: tag.to_vec(), number: number as u16 }
}

/// All below the root.
fn one_parent(count: usize) -> Vec<u8> {
    let nodes: Vec<Node> = (1..=count).map(|number| node(0, b"sensor", number)).collect();
    bytes_of(&nodes)
}

/// Two below each node.
fn many_parents(count: usize) -> Vec<u8> {
    let nodes: Vec<Node> = (0..count).map(|index| node(index / 2, b"slot", index % 2 + 1)).collect();
    bytes_of(&nodes)
}

/// A system, blades in it, two cpus in each blade, fourteen sensors in each cpu.
fn chassis(count: usize) -> Vec<u8> {
    let mut nodes = vec![node(0, b"system", 1)];
    for number in 1..=16 {
        let blade = nodes.len() + 1;
        nodes.push(node(1, b"blade", number));
        for number in 1..=2 {
            let cpu = nodes.len() + 1;
            nodes.push(node(blade, b"cpu", number));
            nodes.extend((1..=14).map(|number| node(cpu, b"sensor", number)));
        }
    }
    for number in 1..=15 {
        nodes.push(node(1, b"fan", number));
    }
    assert_eq!(nodes.len(), 512);
    bytes_of(&nodes[..count])
}

/// A system, and in it the temperatures of slots A to Z, the slot's letter in the tag: slotAtemp1, slotAtemp2 and so on, up to slotZtemp. As many for each
/// slot as come to so many records: 19 in 495. Tags of one length that begin and end alike, so from the second slot on each record is compared.
pub fn lettered_slots(count: usize) -> Vec<u8> {
    let mut nodes = vec![node(0, b"system", 1)];
    let each = count.saturating_sub(1).div_ceil(26).max(1);
    for index in 0..count.saturating_sub(1) {
        let tag = [b"slot", &[b'A' + (index / each) as u8][..], b"temp"].concat();
        nodes.push(node(1, &tag, index % each + 1));
    }
    bytes_of(&nodes[..count])
}

/// One parent, one number, tags of sixteen letters that differ in the last two alone: where two records are compared, almost all is read. A mark is told
/// by a tag's ends, so only the first record with each last letter is compared with none. More last letters make more pairs that agree up to the last
/// letter; one for 39 records makes up for the pairs that are not compared.
fn most_bytes(count: usize) -> Vec<u8> {
    let letters: Vec<u8> = (b'A'..=b'Z').chain(b'a'..=b'z').collect();
    let lasts = (count / 39).max(count.div_ceil(letters.len()));
    let tag = |index: usize| [&[b'a'; 14][..], &[letters[index / lasts], letters[index % lasts]]].concat();
    let nodes: Vec<Node> = (0..count).map(|index| node(0, &tag(index), 1)).collect();
    bytes_of(&nodes)
}

/// One parent, one number, tags of sixteen letters of which the last nine are `a` or `b`, in no order: where two tags part can't be foreseen.
fn slowest(count: usize) -> Vec<u8> {
    let tag = |index: usize| -> Vec<u8> { (0..16).rev().map(|bit| b"ab"[index >> bit & 1]).collect() };
    let mut nodes: Vec<Node> = (0..count).map(|index| node(0, &tag(index), 1)).collect();
    let mut rng = Rng::new(6);
    for last in (1..count).rev() {
        nodes.swap(last, rng.below(last + 1));
    }
    bytes_of(&nodes)
}
