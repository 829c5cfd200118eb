//! The input of `treecases`: groups of a tree and its cases. A group is the length of the tree and
//! of the cases, two bytes each, high first, then the tree, then the cases. A case is a kind, two
//! numbers and the length of a text, the numbers and the length in two bytes, then the text.

use clp_vectors::{Asked, REQUEST_D};

use crate::stored::{put_number, MOST_BYTES};

const LETTERS: &str = "abcdefghijklmnop";
const MOST_RECORDS: usize = 512;

/// A node's record, good or bad, before it is bytes.
#[derive(Clone, Copy)]
struct Node {
    kind: u8,
    parent: usize,
    tag_length: u8,
    tag_room: [u8; 16],
    number: u16,
}

impl Node {
    /// A good record, as long as its tag is of letters and no other is its twin.
    fn new(parent: usize, tag: &str, number: u16) -> Node {
        let mut tag_room = [0; 16];
        tag_room[..tag.len()].copy_from_slice(tag.as_bytes());
        Node {
            kind: 16,
            parent,
            tag_length: tag.len() as u8,
            tag_room,
            number,
        }
    }

    fn of_kind(self, kind: u8) -> Node {
        Node { kind, ..self }
    }

    fn with_tag_length(self, tag_length: u8) -> Node {
        Node { tag_length, ..self }
    }

    /// The same with a byte at the end of the tag's room that the tag leaves free.
    fn with_last_byte(self, byte: u8) -> Node {
        let mut tag_room = self.tag_room;
        tag_room[15] = byte;
        Node { tag_room, ..self }
    }

    fn bytes(&self) -> Vec<u8> {
        let mut bytes = vec![self.kind];
        put_number(&mut bytes, self.parent);
        bytes.push(self.tag_length);
        bytes.extend(self.tag_room);
        put_number(&mut bytes, usize::from(self.number));
        bytes
    }

    fn segment(&self) -> String {
        let tag = &self.tag_room[..usize::from(self.tag_length)];
        format!("{}{}", String::from_utf8_lossy(tag), self.number)
    }
}

fn tree_bytes(nodes: &[Node]) -> Vec<u8> {
    nodes.iter().flat_map(Node::bytes).collect()
}

/// The full path of a node of a good tree.
fn path_of(nodes: &[Node], node: usize) -> String {
    if node == 0 {
        return "/".to_string();
    }
    let record = nodes[node - 1];
    let above = match record.parent {
        0 => String::new(),
        parent => path_of(nodes, parent),
    };
    format!("{above}/{}", record.segment())
}

/// The cases of one group.
#[derive(Default)]
struct Cases(Vec<u8>);

impl Cases {
    fn put(&mut self, kind: u8, first: usize, second: usize, text: &[u8]) {
        self.0.push(kind);
        put_number(&mut self.0, first);
        put_number(&mut self.0, second);
        put_number(&mut self.0, text.len());
        self.0.extend(text);
    }

    /// The full path of a node, into room of a size.
    fn path(&mut self, node: usize, room: usize) {
        self.put(1, node, room, b"");
    }

    /// A text resolved from a default target, into a list of a size.
    fn resolve(&mut self, default: usize, list: usize, text: &str) {
        self.put(2, default, list, text.as_bytes());
    }
}

fn put_group(input: &mut Vec<u8>, tree: &[u8], cases: Cases) {
    put_number(input, tree.len());
    put_number(input, cases.0.len());
    input.extend(tree);
    input.extend(cases.0);
}

/// The whole input.
pub fn input() -> Vec<u8> {
    let mut input = Vec::new();
    put_group(&mut input, &[], cases_without_a_tree());
    put_group(
        &mut input,
        &tree_bytes(&small_tree()),
        cases_of_the_small_tree(),
    );
    put_bad_records(&mut input);
    put_cut_records(&mut input);
    put_tags_alike(&mut input);
    put_deepest(&mut input);
    put_widest(&mut input);
    put_starred(&mut input);
    put_request_d(&mut input);
    put_crowds(&mut input);
    assert!(input.len() <= MOST_BYTES, "{} bytes", input.len());
    input
}

/// No record: the root is the only node.
fn cases_without_a_tree() -> Cases {
    let mut cases = Cases::default();
    cases.path(0, 1);
    cases.path(0, 0);
    cases.path(1, 5);
    cases.resolve(0, 3, "");
    cases.resolve(0, 0, "");
    for text in ["/", "\\", ".", "..", "./..", "a1", "a*", "SESSION"] {
        cases.resolve(0, 3, text);
    }
    cases.resolve(0, 0, "SESSION");
    cases.resolve(1, 3, "SESSION");
    cases.resolve(1, 3, "");
    cases.resolve(1, 3, "/");
    cases.resolve(0, 3, "/a1/");
    cases.resolve(0, 3, "x");
    cases
}

fn small_tree() -> Vec<Node> {
    vec![
        Node::new(0, "system", 1),
        Node::new(1, "cpu", 1),
        Node::new(1, "cpu", 4),
        Node::new(0, "system", 2),
        Node::new(4, "cpu", 1),
        Node::new(1, "fan", 65535),
        Node::new(2, "core", 10),
        Node::new(0, "A", 7),
        Node::new(1, "cpu", 3),
    ]
}

/// Texts that are resolved in the small tree, each from the root, from `/system1` and from
/// `/system1/cpu1`.
fn texts() -> Vec<String> {
    let rooted_and_not = [
        "/system1/cpu4",
        "\\system1\\cpu4",
        "/system1\\cpu1/core10",
        "system1",
        "cpu1",
        "./cpu1",
        "../system2/cpu1",
        "..",
        "../..",
        "../../system1",
    ];
    let starred_and_cased = [
        "cpu*",
        "/system1/cpu*",
        "/system1/Cpu*",
        "/system*",
        "/A7",
        "/a7",
        "/A*",
        "/A8",
    ];
    let missing_and_back = [
        "/system3/cpu1",
        "/system1/cpu2",
        "/system1/cpu2/core10",
        "cpu1/core10/../../cpu4",
        "cpu1/../cpu1/../fan65535",
    ];
    let numbers = ["fan65535", "fan65536", "fan0", "fan01", "fan", "fan065535"];
    let malformed = ["/", "//", "/system1/", "cpu*/core10", "*", "cpu**"];
    let sessions = ["SESSION", "SESSION1", "SESSION*", "session", "/SESSION"];
    let dots = [
        "",
        ".",
        "./.",
        "/.",
        "/..",
        "/./..",
        "/system1/..",
        "/system1/../..",
    ];
    let spaces = ["cpu1 ", " cpu1"];
    let mut texts: Vec<String> = rooted_and_not
        .iter()
        .chain(&starred_and_cased)
        .chain(&missing_and_back)
        .chain(&numbers)
        .chain(&malformed)
        .chain(&sessions)
        .chain(&dots)
        .chain(&spaces)
        .map(|text| text.to_string())
        .collect();
    // tags of 16 and 17 letters, and 16 and 17 segments
    for end in ["1", "*"] {
        texts.push(format!("{LETTERS}{end}"));
        texts.push(format!("{LETTERS}q{end}"));
    }
    for (start, end) in [("", "."), ("/", "."), ("", "cpu*")] {
        texts.push(format!("{start}{}{end}", "./".repeat(15)));
        texts.push(format!("{start}{}{end}", "./".repeat(16)));
    }
    texts
}

fn cases_of_the_small_tree() -> Cases {
    let nodes = small_tree();
    let mut cases = Cases::default();
    for node in 0..=nodes.len() {
        let length = path_of(&nodes, node).len();
        // room exact, one less, more, none
        for room in [length, length - 1, length + 3, 0] {
            cases.path(node, room);
        }
    }
    cases.path(nodes.len() + 1, 50);
    cases.path(65535, 50);
    for text in texts() {
        for default in 0..3 {
            cases.resolve(default, 4, &text);
        }
    }
    for text in ["/system1/cpu*", "cpu*", "/system1", ""] {
        for list in 0..=4 {
            cases.resolve(1, list, text);
        }
    }
    cases.resolve(9, 1, "");
    for text in ["", "/system1", "/system9", "/9"] {
        cases.resolve(10, 1, text);
    }
    cases.resolve(10, 0, "SESSION");
    cases.resolve(9, 0, "SESSION");
    cases.put(2, 0, 3, b"/\xff");
    cases.resolve(0, 3, "/system1\0");
    cases.resolve(65535, 1, "/system1");
    cases
}

/// Records that are bad as the next one after these, each in its own way, and then some that are
/// good at a limit.
fn records_to_try(earlier: &[Node]) -> Vec<Node> {
    let node = earlier.len() + 1;
    let bad = Node::new(0, "bad", 1);
    let mut tries: Vec<Node> = [node, node + 1, 65535]
        .map(|parent| Node { parent, ..bad })
        .to_vec();
    tries.extend([bad.of_kind(15), bad.of_kind(0)]);
    tries.push(Node::new(0, "", 1));
    tries.push(Node::new(0, LETTERS, 1).with_tag_length(17));
    tries.push(bad.with_tag_length(255));
    tries.extend(["ba1", "b@d", "b[d", "b`d", "b{d", "ba\0"].map(|tag| Node::new(0, tag, 1)));
    tries.push(Node::new(0, "badx", 1).with_tag_length(3));
    tries.push(bad.with_last_byte(1));
    tries.push(bad.with_tag_length(2));
    tries.push(Node { number: 0, ..bad });
    tries.push(Node::new(0, &LETTERS[..15], 1).with_last_byte(1));
    // twins of the first and of the third
    tries.extend(earlier.iter().step_by(2).take(2).copied());
    tries.push(Node::new(0, "good", 1));
    tries.push(Node::new(0, LETTERS, 65535));
    tries.push(Node::new(node - 1, "bad", 256));
    tries
}

fn put_bad_records(input: &mut Vec<u8>) {
    let small = small_tree();
    let others = [1, 2, 3].map(|number| Node::new(0, "other", number));
    let none: &[Node] = &[];
    // first, in the middle, last
    for (earlier, later) in [
        (none, &others[..]),
        (&small[..2], &others),
        (&small[..5], none),
    ] {
        for tried in records_to_try(earlier) {
            let mut cases = Cases::default();
            cases.path(0, 2);
            for text in ["/", "/other1", "..", "9"] {
                cases.resolve(0, 1, text);
            }
            cases.resolve(99, 1, "SESSION");
            put_group(
                input,
                &tree_bytes(&[earlier, &[tried], later].concat()),
                cases,
            );
        }
    }
}

/// Records cut after their kind, before their tag and before their last byte.
fn put_cut_records(input: &mut Vec<u8>) {
    let small = small_tree();
    for length in [1, 4, 21] {
        let piece = &small[0].bytes()[..length];
        for earlier in [tree_bytes(&small), Vec::new()] {
            let mut cases = Cases::default();
            cases.path(1, 30);
            cases.resolve(0, 3, "/system1");
            put_group(input, &[&earlier, piece].concat(), cases);
        }
    }
}

/// Records that differ in a tag's last letter, its case, its length, a number's byte or the parent.
fn put_tags_alike(input: &mut Vec<u8>) {
    let nodes = [
        Node::new(0, "ab", 1),
        Node::new(0, "a", 1),
        Node::new(0, "abc", 1),
        Node::new(0, "aB", 1),
        Node::new(0, "ab", 2),
        Node::new(0, "ab", 257),
        Node::new(1, "ab", 1),
        Node::new(0, "b", 1),
    ];
    let mut cases = Cases::default();
    cases.resolve(0, 5, "/ab*");
    for text in ["/ab257", "/ab1/ab*", "/a1"] {
        cases.resolve(0, 1, text);
    }
    put_group(input, &tree_bytes(&nodes), cases);
}

/// 512 records, each below the one before it.
fn put_deepest(input: &mut Vec<u8>) {
    let nodes: Vec<Node> = (0..MOST_RECORDS)
        .map(|above| Node::new(above, &LETTERS[..above % 16 + 1], above as u16 + 1))
        .collect();
    let mut cases = Cases::default();
    for node in [1, 2, 15, 16, 17, 255, 256, 511, 512] {
        let length = path_of(&nodes, node).len();
        cases.path(node, length);
        cases.path(node, length - 1);
    }
    cases.path(513, 12000);
    // full paths read back: 16 segments are the most that a target has
    for node in 15..=18 {
        cases.resolve(512, 1, &path_of(&nodes, node));
    }
    cases.resolve(512, 1, "..");
    let up = format!("..{}", "/..".repeat(15));
    for default in [512, 15, 16] {
        cases.resolve(default, 1, &up);
    }
    cases.resolve(512, 1, "");
    cases.resolve(513, 1, "");
    for text in ["p512", "p*", "o512"] {
        cases.resolve(511, 1, text);
    }
    put_group(input, &tree_bytes(&nodes), cases);
}

/// 512 children of the root, then 513, then 512 and a byte.
fn put_widest(input: &mut Vec<u8>) {
    let children = |count: usize| -> Vec<u8> {
        (1..=count)
            .flat_map(|number| Node::new(0, "n", number as u16).bytes())
            .collect()
    };
    let mut cases = Cases::default();
    for list in [512, 511, 513] {
        cases.resolve(0, list, "/n*");
    }
    cases.resolve(512, 600, "n*");
    cases.resolve(0, 1, "/n512");
    cases.resolve(0, 1, "/n513");
    cases.resolve(0, 512, "/m*");
    cases.path(512, 5);
    cases.path(512, 4);
    cases.path(513, 5);
    put_group(input, &children(MOST_RECORDS), cases);

    let mut cases = Cases::default();
    cases.resolve(0, 512, "/n*");
    cases.path(1, 9);
    put_group(input, &children(MOST_RECORDS + 1), cases);

    let mut cases = Cases::default();
    cases.resolve(0, 512, "/n1");
    cases.path(1, 9);
    let mut tree = children(MOST_RECORDS);
    tree.push(16);
    put_group(input, &tree, cases);
}

/// Children with a tag scattered among others: of two cases, and below two parents.
fn put_starred(input: &mut Vec<u8>) {
    let mut nodes = vec![Node::new(0, "top", 1)];
    for step in 0..MOST_RECORDS - 1 {
        let parent = usize::from(step % 3 == 0);
        let tag = if step % 2 == 0 { "Leaf" } else { "leaf" };
        nodes.push(Node::new(parent, tag, 60000 + step as u16));
    }
    let mut cases = Cases::default();
    cases.resolve(0, 90, "/top1/leaf*");
    cases.resolve(0, 90, "/top1/Leaf*");
    cases.resolve(0, 600, "/leaf*");
    cases.resolve(1, 85, "leaf*");
    cases.resolve(1, 84, "leaf*");
    put_group(input, &tree_bytes(&nodes), cases);
}

/// Request d's trees, and what its cases resolve in them.
fn put_request_d(input: &mut Vec<u8>) {
    for case in REQUEST_D.cases(5) {
        let mut cases = Cases::default();
        if let Asked::Resolve(asked, _) = case.asked() {
            cases.put(2, asked.default_target, asked.room, &asked.text);
        }
        put_group(input, &case.tree(1), cases);
    }
}

/// Records of one parent and one number whose tags have 16 letters and differ in the 14th and 15th alone.
fn crowd(count: usize) -> Vec<Node> {
    let letters: Vec<char> = ('a'..='z').collect();
    (0..count)
        .map(|step| {
            let (high, low) = (letters[step / 26], letters[step % 26]);
            Node::new(0, &format!("{}{high}{low}p", &LETTERS[..13]), 1)
        })
        .collect()
}

/// 512 of them; then with the last one a twin of the first, of one in the middle and of the one before
/// it, and the first one's twin but for its parent, and but for its number.
fn put_crowds(input: &mut Vec<u8>) {
    let all = crowd(MOST_RECORDS);
    let (last, others) = all.split_last().expect("512 records");
    let first = others[0];
    let under_another = Node { parent: 1, ..first };
    let of_another_number = Node { number: 2, ..first };
    for last in [*last, first, others[255], others[510], under_another, of_another_number] {
        put_crowd(input, &[others, &[last]].concat());
    }
}

/// The last one's full path, and what the first one's segment addresses, with a star too.
fn put_crowd(input: &mut Vec<u8>, nodes: &[Node]) {
    let segment = nodes[0].segment();
    let starred = segment.replace('1', "*");
    let mut cases = Cases::default();
    cases.path(nodes.len(), 40);
    cases.resolve(0, 2, &segment);
    cases.resolve(0, 2, &format!("/{starred}"));
    cases.resolve(1, 2, &segment);
    put_group(input, &tree_bytes(nodes), cases);
}
