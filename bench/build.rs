//! Takes the functions of the tree's check out of their proved sources as they stand there, so that what is counted is that code and not one like it.
//! Three things are changed: contracts go, `[u8]` is `Bytes` and a record's `[u8; LEN]` is `Row`, and three functions tell the meter that they begin.

use std::{env, fs, path::Path};

const TEXT: [&str; 4] = ["pair", "is_letter", "front_len", "letters_len"];
const TREE: [&str; 5] = ["be16", "zeros", "same_letters", "mixed", "check"];

/// What a function tells the meter first.
const TOLD: [(&str, &str); 3] = [
    ("twin", "let _search = meter::search();"),
    ("same_node", "meter::pair();"),
    ("same_segment", "meter::siblings();"),
];

fn main() {
    let text = source("../crates/text/src/lib.rt");
    let words = source("../crates/words/src/lib.rt");
    let tree = source("../crates/tree/src/lib.rt");
    let made = format!(
        "pub mod text {{\n    use super::Bytes;\n{}}}\n\npub mod words {{\n    {}\n}}\n\n{}\n#[derive(Clone, Copy)]\n{}\n{}\n{}",
        TEXT.map(|name| function(&text, name)).concat(),
        line(&words, "pub const NODE_LEN: "),
        line(&tree, "const LEN: "),
        counting(&piece(&tree, "struct Record<'a> {")),
        // the methods that the check calls stand in the first block
        TOLD.iter().fold(counting(&piece(&tree, "impl<'a> Record<'a> {")), |methods, told| telling(&methods, told)),
        TREE.map(|name| function(&tree, name)).concat(),
    );
    let out = env::var_os("OUT_DIR").expect("OUT_DIR");
    fs::write(Path::new(&out).join("check.rs"), made).expect("room for the functions");
}

fn source(path: &str) -> String {
    println!("cargo:rerun-if-changed={path}");
    fs::read_to_string(path).unwrap_or_else(|error| panic!("{path}: {error}"))
}

/// The line that begins with this in a source.
fn line<'a>(source: &'a str, begin: &str) -> &'a str {
    source.lines().find(|line| line.starts_with(begin)).unwrap_or_else(|| panic!("no {begin}"))
}

/// What begins with this in a source and goes on to the next closing brace at a line's start.
fn piece(source: &str, begin: &str) -> String {
    let start = source.find(&format!("\n{begin}")).unwrap_or_else(|| panic!("no {begin}")) + 1;
    let end = source[start..].find("\n}\n").expect("a closing brace") + 3;
    source[start..start + end].to_string()
}

/// The function of that name.
fn function(source: &str, name: &str) -> String {
    let begins = ["pub fn", "fn"].map(|begin| [format!("{begin} {name}("), format!("{begin} {name}<")]).concat();
    let begin = begins.iter().find(|begin| source.contains(&format!("\n{begin}"))).unwrap_or_else(|| panic!("no function {name}"));
    counting(&piece(source, begin))
}

/// A piece without its contracts, its bytes counted.
fn counting(piece: &str) -> String {
    let (contracts, code) = parted(piece);
    assert!(!contracts.is_empty(), "a contract in\n{piece}");
    code.join("\n").replace("[u8; LEN]", "Row").replace("[u8]", "Bytes") + "\n"
}

/// Methods, of which this one tells the meter that it begins.
fn telling(methods: &str, (name, what): &(&str, &str)) -> String {
    let (before, method) = methods.split_once(&format!("    fn {name}(")).unwrap_or_else(|| panic!("no method {name}"));
    let (head, body) = method.split_once("\n    {\n").expect("a brace on a line of its own");
    format!("{before}    fn {name}({head}\n    {{\n        {what}\n{body}")
}

/// A piece's lines: those of its contracts, whose clauses each go on to the brace that closes them, and the others.
fn parted(text: &str) -> (Vec<&str>, Vec<&str>) {
    let mut open = 0;
    text.lines().partition(|line| {
        let within = open > 0 || ["requires", "ensures", "ghost"].iter().any(|word| line.trim_start().starts_with(&format!("{word} ")));
        if within {
            open += line.matches('{').count();
            open -= line.matches('}').count();
        }
        within
    })
}
