//! Trees as the cases write them, what is asked of a tree, and what its check answers.

use crate::{hex, number_of, or_refused, pieces_of, Addressed, Case, Refused};

/// What a tree's check expects: that it finds nothing, or a refusal.
pub type Checked = Result<(), Refused>;

/// A text to resolve, from a default target and with room for so many node numbers.
#[derive(Debug, PartialEq, Eq)]
pub struct ToResolve {
    pub text: Vec<u8>,
    pub default_target: usize,
    pub room: usize,
}

/// What a case asks of its tree, with the answer.
#[derive(Debug, PartialEq, Eq)]
pub enum Asked {
    Check(Checked),
    Resolve(ToResolve, Addressed),
}

impl Case {
    /// The cell as a tree, in the bytes of its records.
    pub fn tree(&self, column: usize) -> Vec<u8> {
        self.cell(column, tree_of)
    }

    /// The row as what is asked of its tree: what, tree, arguments, answer, tree after. A check has
    /// no arguments, and neither of the two has a tree after.
    pub fn asked(&self) -> Asked {
        self.empty(4);
        match self.word(0, &["check", "resolve"]) {
            "check" => {
                self.empty(2);
                Asked::Check(self.checked(3))
            }
            _ => Asked::Resolve(self.cell(2, to_resolve_of), self.addressed(3)),
        }
    }

    /// The cell as what a tree's check answers.
    pub(crate) fn checked(&self, column: usize) -> Checked {
        let good = |cell: &str| (cell == "good").then_some(());
        self.since(self.cell(column, |cell| or_refused(cell, good)))
    }

    /// Stops the test where the cell is not empty.
    pub(crate) fn empty(&self, column: usize) {
        self.cell(column, |cell| cell.is_empty().then_some(()))
    }
}

/// Records joined by `; `, or `empty`.
fn tree_of(cell: &str) -> Option<Vec<u8>> {
    if cell == "empty" {
        return Some(Vec::new());
    }
    let records: Option<Vec<Vec<u8>>> = cell.split("; ").map(records_of).collect();
    Some(records?.concat())
}

/// The record that the words stand for, or the nodes of a run.
fn records_of(text: &str) -> Option<Vec<u8>> {
    let words: Vec<&str> = text.split(' ').collect();
    match words[..] {
        ["node", parent, tag, numbers] => {
            let (first, last) = run_of(numbers)?;
            let nodes = (first..=last).map(|number| node_of(16, parent, tag, number));
            Some(nodes.collect::<Option<Vec<Vec<u8>>>>()?.concat())
        }
        ["cnode", parent, tag, number, count] => {
            let mut record = node_of(18, parent, tag, number_of(number)?)?;
            record.extend(number_of(count)?.to_be_bytes());
            Some(record)
        }
        ["free"] => Some([&[17], [0; 21].as_slice()].concat()),
        ["cfree"] => Some([&[19], [0; 23].as_slice()].concat()),
        ["raw", digits] => raw_of(digits),
        _ => None,
    }
}

/// A node's record of this kind: parent, the tag's length, the tag in its room, number.
fn node_of(kind: u8, parent: &str, tag: &str, number: u16) -> Option<Vec<u8>> {
    let is_tag = (1..=16).contains(&tag.len()) && tag.bytes().all(|byte| byte.is_ascii_alphabetic());
    if !is_tag {
        return None;
    }
    let mut record = vec![kind];
    record.extend(number_of(parent)?.to_be_bytes());
    record.push(tag.len() as u8);
    record.extend(tag.bytes());
    record.resize(20, 0);
    record.extend(number.to_be_bytes());
    Some(record)
}

/// A number alone, or `FIRST..LAST`, a higher one.
fn run_of(text: &str) -> Option<(u16, u16)> {
    let Some((first, last)) = text.split_once("..") else {
        return number_of(text).map(|number| (number, number));
    };
    let (first, last) = (number_of(first)?, number_of(last)?);
    (first < last).then_some((first, last))
}

/// Bytes, at least one, in two digits each.
pub(crate) fn raw_of(digits: &str) -> Option<Vec<u8>> {
    let byte_of = |pair: &[u8]| match pair {
        [high, low] => Some(16 * hex(*high)? + hex(*low)?),
        _ => None,
    };
    let bytes: Vec<u8> = digits.as_bytes().chunks(2).map(byte_of).collect::<Option<_>>()?;
    (!bytes.is_empty()).then_some(bytes)
}

/// `BYTES from DEFAULT room ROOM`
fn to_resolve_of(cell: &'static str) -> Option<ToResolve> {
    let (text, rest) = pieces_of(cell.as_bytes())?;
    let rest = std::str::from_utf8(rest).ok()?.strip_prefix(" from ")?;
    let (default_target, room) = rest.split_once(" room ")?;
    Some(ToResolve {
        text,
        default_target: number_of(default_target)?.into(),
        room: number_of(room)?.into(),
    })
}

#[cfg(test)]
mod tests {
    use super::*;
    use crate::Vectors;

    /// Bytes in two digits each.
    fn digits_of(bytes: &[u8]) -> String {
        bytes.iter().map(|byte| format!("{byte:02x}")).collect()
    }

    #[test]
    fn trees_in_each_form() {
        let expected = [
            ("empty", ""),
            ("node 0 a 1", "10000001610000000000000000000000000000000001"),
            ("node 258 abcdefghijklmnop 65535", "100102106162636465666768696a6b6c6d6e6f70ffff"),
            ("node 65535 Zz 0", "10ffff025a7a00000000000000000000000000000000"),
            ("free", "11000000000000000000000000000000000000000000"),
            ("cnode 1 b 2 259", "120001016200000000000000000000000000000000020103"),
            ("cfree", "130000000000000000000000000000000000000000000000"),
            ("raw 00", "00"),
            ("raw 10fFe4", "10ffe4"),
            ("raw 10; free; raw 2a2b", "10110000000000000000000000000000000000000000002a2b"),
        ];
        for (cell, digits) in expected {
            let tree = tree_of(cell).map(|tree| digits_of(&tree));
            assert_eq!(tree.as_deref(), Some(digits), "{cell}");
        }
    }

    #[test]
    fn a_run_is_so_many_nodes() {
        assert_eq!(tree_of("node 0 a 1..3"), tree_of("node 0 a 1; node 0 a 2; node 0 a 3"));
        assert_eq!(tree_of("free; node 7 b 255..256"), tree_of("free; node 7 b 255; node 7 b 256"));
        let all = tree_of("node 0 a 1..513").unwrap();
        assert_eq!((all.len(), &all[11_264 + 20..]), (513 * 22, &[2, 1][..]));
    }

    #[test]
    fn trees_of_no_form() {
        let cells = [
            "",
            " ",
            "Empty",
            "empty ",
            "empty; empty",
            "empty; node 0 a 1",
            "node",
            "node 0 a",
            "node 0 a 1 ",
            " node 0 a 1",
            "node 0 a 1 2",
            "node  0 a 1",
            "node 0  1",
            "node 0 a1 1",
            "node 0 a_ 1",
            "node 0 \u{e4} 1",
            "node 0 abcdefghijklmnopq 1",
            "node a a 1",
            "node 00 a 1",
            "node -1 a 1",
            "node 65536 a 1",
            "node 0 a 65536",
            "node 0 a 01",
            "node 0 a +1",
            "node 0 a 1..",
            "node 0 a ..2",
            "node 0 a 1..1",
            "node 0 a 2..1",
            "node 0 a 1...3",
            "node 0 a 1..2..3",
            "node 0 a 1..02",
            "node 0..1 a 1",
            "Node 0 a 1",
            "node 0 a 1;",
            "node 0 a 1; ",
            "node 0 a 1;node 0 a 2",
            "node 0 a 1 ; node 0 a 2",
            "node 0 a 1, node 0 a 2",
            "cnode 0 a 1",
            "cnode 0 a 1 ",
            "cnode 0 a 1 65536",
            "cnode 0 a 1 0 0",
            "cnode 0 abcdefghijklmnopq 1 0",
            "free 1",
            "free ",
            "frees",
            "cfree 0",
            "raw",
            "raw ",
            "raw 1",
            "raw 100",
            "raw 1g",
            "raw 0x10",
            "raw 10 10",
            "10",
            "good",
            "b''",
        ];
        for cell in cells {
            assert_eq!(tree_of(cell), None, "{cell}");
        }
    }

    #[test]
    fn texts_to_resolve_in_each_form() {
        let expected: [(&str, &[u8], usize, usize); 4] = [
            ("b'' from 0 room 0", b"", 0, 0),
            ("b'/a1' from 2 room 65535", b"/a1", 2, 65_535),
            ("b'a from 1 room 2' from 513 room 1", b"a from 1 room 2", 513, 1),
            (r"b'a'*3 + b'\x27' from 1 room 10", b"aaa'", 1, 10),
        ];
        for (cell, text, default_target, room) in expected {
            let text = text.to_vec();
            let asked = ToResolve { text, default_target, room };
            assert_eq!(to_resolve_of(cell), Some(asked), "{cell}");
        }
    }

    #[test]
    fn texts_to_resolve_of_no_form() {
        let cells = [
            "",
            "b'a1'",
            "a1 from 0 room 1",
            "b'a1 from 0 room 1",
            "b'a1'from 0 room 1",
            "b'a1' from 0",
            "b'a1' room 1",
            "b'a1' from room 1",
            "b'a1' from 0 room",
            "b'a1' from 0 room ",
            "b'a1' from 0 room 1 ",
            "b'a1' from 0 room 01",
            "b'a1' from -1 room 1",
            "b'a1' from 65536 room 1",
            "b'a1' from 0 room 65536",
            "b'a1' from 0  room 1",
            "b'a1' room 1 from 0",
            "b'a1' + from 0 room 1",
            "b'a1' + b from 0 room 1",
            "b'a1' From 0 room 1",
        ];
        for cell in cells {
            assert_eq!(to_resolve_of(cell), None, "{cell}");
        }
    }

    /// What the one row of a file of five columns asks, with its tree; or what the test says as it stops.
    fn asked(row: &str) -> Result<(Vec<u8>, Asked), String> {
        let text: &'static str = format!("#\t\t\t\t\n{row}\n").leak();
        let read = move || {
            let cases = Vectors { name: "file", text, count: 1 }.cases(5);
            (cases[0].tree(1), cases[0].asked())
        };
        std::panic::catch_unwind(read).map_err(|said| said.downcast_ref::<String>().unwrap().clone())
    }

    #[test]
    fn rows_in_each_form() {
        let refused = |number, place| Err(Refused { number, place });
        assert_eq!(asked("check\tempty\t\tgood\t"), Ok((Vec::new(), Asked::Check(Ok(())))));
        let bad = asked("check\traw 10\t\trefusal 15 at 11264\t");
        assert_eq!(bad, Ok((vec![16], Asked::Check(refused(15, 11_264)))));
        let answers = [
            ("nodes 0", Ok(Some(vec![0]))),
            ("nodes 2 3", Ok(Some(vec![2, 3]))),
            ("session", Ok(None)),
            ("refusal 19 at 0", Err(Refused { number: 19, place: 0 })),
        ];
        for (answer, addressed) in answers {
            let asked = asked(&format!("resolve\traw 1011\tb'.' from 1 room 2\t{answer}\t"));
            let text = b".".to_vec();
            let target = ToResolve { text, default_target: 1, room: 2 };
            assert_eq!(asked, Ok((vec![16, 17], Asked::Resolve(target, addressed))));
        }
    }

    #[test]
    fn rows_of_no_form() {
        let rows = [
            ("add\tempty\t\tgood\t", "add"),
            ("Check\tempty\t\tgood\t", "Check"),
            ("\tempty\t\tgood\t", ""),
            ("check\t\t\tgood\t", ""),
            ("check\tnode\t\tgood\t", "node"),
            ("check\tempty\tb''\tgood\t", "b''"),
            ("check\tempty\t \tgood\t", " "),
            ("check\tempty\t\t\t", ""),
            ("check\tempty\t\tGood\t", "Good"),
            ("check\tempty\t\tgood \t", "good "),
            ("check\tempty\t\tnodes 0\t", "nodes 0"),
            ("check\tempty\t\trefusal 15\t", "refusal 15"),
            ("check\tempty\t\tgood\tempty", "empty"),
            ("check\tempty\t\tgood\t\r", "\r"),
            ("resolve\tempty\t\tnodes 0\t", ""),
            ("resolve\tempty\tb'' from 0 room 1\tgood\t", "good"),
            ("resolve\tempty\tb'' from 0 room 1\tnodes 0\tempty", "empty"),
        ];
        for (row, cell) in rows {
            assert_eq!(asked(row), Err(format!("file:2: of no form: {cell}")), "{row}");
        }
    }
}
