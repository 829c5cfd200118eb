//! The tree of managed elements, and the instances in it that a target addresses.

use crate::face;
use crate::refusal::{accepted, Refusal};

/// A good tree: its records, a node for each. Node 0 is the root and has no record; record i, counted from 1, is node i.
///
/// ```
/// use smclp::{Resolved, Tree, TREE_NODES};
///
/// let records = [Tree::node(0, "system", 1), Tree::node(1, "cpu", 1), Tree::node(1, "cpu", 4)].concat();
/// let tree = Tree::new(&records)?;
/// let (mut list, mut room) = ([0; TREE_NODES], [0; 100]);
/// assert_eq!(tree.resolve(b"/system1/cpu*", 0, &mut list)?, Resolved::Nodes(&[2, 3]));
/// assert_eq!(tree.full_path(3, &mut room)?, b"/system1/cpu4");
/// # Ok::<(), smclp::Refusal>(())
/// ```
#[derive(Clone, Copy, Debug)]
pub struct Tree<'t> {
    records: &'t [u8],
}

impl<'t> Tree<'t> {
    /// Checks a tree's records, which are [`NODE_BYTES`](crate::NODE_BYTES) each; a bad one is refused as 15.
    ///
    /// ```
    /// use smclp::Tree;
    ///
    /// assert!(Tree::new(&[]).is_ok());
    /// let twice = [Tree::node(0, "cpu", 1); 2].concat();
    /// let refusal = Tree::new(&twice).unwrap_err();
    /// assert_eq!((refusal.number, refusal.place), (15, 22));
    /// ```
    pub fn new(records: &'t [u8]) -> Result<Tree<'t>, Refusal> {
        let answer = face::check_tree(records);
        accepted(answer.number, answer.value).map(|_| Tree { records })
    }

    /// The record of a node: its parent's number, a tag of up to 16 letters, and a number from 1 on. A tag or a number that no node can have makes a record that
    /// [`Tree::new`] refuses.
    ///
    /// ```
    /// use smclp::Tree;
    ///
    /// assert_eq!(&Tree::node(1, "cpu", 4), b"\x10\0\x01\x03cpu\0\0\0\0\0\0\0\0\0\0\0\0\0\0\x04");
    /// assert!(Tree::new(&Tree::node(0, "of_seventeen_bytes", 1)).is_err());
    /// ```
    pub fn node(parent: u16, tag: &str, number: u16) -> [u8; face::NODE_BYTES] {
        let mut record = [0; face::NODE_BYTES];
        record[0] = face::KIND_NODE;
        record[1..3].copy_from_slice(&parent.to_be_bytes());
        record[3] = u8::try_from(tag.len()).unwrap_or(u8::MAX);
        for (to, from) in record[4..20].iter_mut().zip(tag.bytes()) {
            *to = from;
        }
        record[20..].copy_from_slice(&number.to_be_bytes());
        record
    }

    /// Its records.
    ///
    /// ```
    /// use smclp::Tree;
    ///
    /// let records = Tree::node(0, "cpu", 1);
    /// assert_eq!(Tree::new(&records)?.records(), records);
    /// # Ok::<(), smclp::Refusal>(())
    /// ```
    pub fn records(&self) -> &'t [u8] {
        self.records
    }

    /// The instances that a target's text addresses from a default target, a node's number; an empty text is the default target. Their numbers are written into
    /// the list, for which [`TREE_NODES`](crate::TREE_NODES) are always enough.
    ///
    /// ```
    /// use smclp::{Resolved, Tree};
    ///
    /// let records = Tree::node(0, "cpu", 1);
    /// let tree = Tree::new(&records)?;
    /// let mut list = [0; 1];
    /// assert_eq!(tree.resolve(b"cpu1", 0, &mut list)?, Resolved::Nodes(&[1]));
    /// assert_eq!(tree.resolve(b"SESSION", 0, &mut list)?, Resolved::Session);
    /// let refusal = tree.resolve(b"cpu1/..", 2, &mut list).unwrap_err();
    /// assert_eq!((refusal.number, refusal.place), (16, 0));
    /// # Ok::<(), smclp::Refusal>(())
    /// ```
    pub fn resolve<'l>(
        &self,
        text: &[u8],
        default_target: u16,
        list: &'l mut [u16],
    ) -> Result<Resolved<'l>, Refusal> {
        let answer = face::resolve(text, self.records, default_target.into(), list);
        let count = accepted(answer.number, answer.value)?;
        Ok(match answer.value {
            face::SESSION => Resolved::Session,
            _ => Resolved::Nodes(&list[..count]),
        })
    }

    /// Writes the full path of a node. [`PATH_BYTES`](crate::PATH_BYTES) are always room enough. It takes a frame of stack for each node on the way to the root,
    /// up to [`STACK_PATH_BYTES`](crate::face::STACK_PATH_BYTES).
    ///
    /// ```
    /// use smclp::Tree;
    ///
    /// let mut room = [0; 1];
    /// let tree = Tree::new(&[])?;
    /// assert_eq!(tree.full_path(0, &mut room)?, b"/");
    /// assert_eq!(tree.full_path(1, &mut room).unwrap_err().number, 16);
    /// # Ok::<(), smclp::Refusal>(())
    /// ```
    pub fn full_path<'r>(&self, node: u16, room: &'r mut [u8]) -> Result<&'r [u8], Refusal> {
        let answer = face::full_path(self.records, node.into(), room);
        let length = accepted(answer.number, answer.value)?;
        Ok(&room[..length])
    }
}

/// What a target addresses.
#[derive(Clone, Copy, Debug, PartialEq, Eq)]
pub enum Resolved<'l> {
    /// The session itself.
    Session,
    /// These nodes, by their numbers, in the order of the tree's records.
    Nodes(&'l [u16]),
}
