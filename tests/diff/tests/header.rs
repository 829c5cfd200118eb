//! The crate smclp is held to include/clp.h in both directions: its constants, the numbers and names of its words, the structs and functions that it declares.

use smclp::{face, CommandOption, Operator, Verb};
use std::collections::{BTreeMap, BTreeSet};
use std::fmt::Debug;

const HEADER: &str = include_str!("../../../include/clp.h");
const CONSTANTS: &str = include_str!("../../../bindings/rust/src/face/constants.rs");
const RAW: &str = include_str!("../../../bindings/rust/src/face/raw.rs");
const FACE: &str = include_str!("../../../bindings/rust/src/face.rs");

/// The header without its comments.
fn code() -> String {
    let mut pieces = HEADER.split("/*");
    let first = pieces.next().unwrap().to_string();
    let ends = pieces.map(|piece| piece.split_once("*/").expect("a comment's end").1);
    ends.fold(first, |code, piece| code + piece)
}

/// What stands between two texts, each time.
fn between<'c>(code: &'c str, before: &'c str, after: &'c str) -> impl Iterator<Item = &'c str> {
    let pieces = code.split(before).skip(1);
    pieces.map(move |piece| piece.split_once(after).expect(after).0)
}

/// A text with one space for each run of spaces and ends of lines.
fn flat(text: &str) -> String {
    text.split_whitespace().collect::<Vec<_>>().join(" ")
}

type Constants = BTreeMap<String, u64>;

/// The members of the header's enums and the values that it defines, without `CLP_`.
fn of_the_header() -> Constants {
    let code = code();
    let members = between(&code, "enum {", "}").flat_map(|members| members.split(','));
    let members = members.map(|member| member.split_once(" = ").expect("NAME = NUMBER"));
    let members = members.map(|(name, number)| (name.trim(), number.trim().parse().unwrap()));
    let defined = code
        .lines()
        .filter_map(|line| line.strip_prefix("#define "));
    let defined = defined.filter_map(|line| line.trim().strip_suffix(" UINT64_MAX"));
    let all = members.chain(defined.map(|name| (name, u64::MAX)));
    all.map(|(name, number)| (name.strip_prefix("CLP_").expect(name).to_string(), number))
        .collect()
}

/// The constants of the crate's face, by their source.
fn of_the_face() -> Constants {
    let lines = CONSTANTS
        .lines()
        .filter_map(|line| line.strip_prefix("pub "));
    let constants = lines.map(|line| {
        let rest = line.strip_prefix("const ").expect("a constant");
        let (name, rest) = rest.split_once(": ").expect("NAME: TYPE");
        let (_, value) = rest.split_once(" = ").expect("TYPE = VALUE");
        let number = match value.trim_end_matches(';') {
            "u64::MAX" => u64::MAX,
            digits => digits.parse().expect("a number"),
        };
        (name.to_string(), number)
    });
    constants.collect()
}

#[test]
fn constants() {
    let header = of_the_header();
    assert_eq!(of_the_face(), header);
    let code = code();
    let names = code.split(|c: char| c != '_' && !c.is_ascii_alphanumeric());
    let names = names.filter_map(|name| name.strip_prefix("CLP_"));
    let names: BTreeSet<&str> = names
        .filter(|name| !["H", "FIELD"].contains(name))
        .collect();
    assert!(names.into_iter().eq(header.keys()));
    assert_eq!(face::TEXT_BYTES, 6 * face::READING_BYTES);
    assert_eq!(face::PATH_BYTES, 512 * (1 + 16 + 5));
}

/// Holds the words of one enum, with their names and numbers, to the header's names that begin so; `from` is held on every number.
fn assert_words<W: Debug + Copy>(
    prefix: &str,
    all: &[W],
    told: impl Fn(W) -> (String, u8),
    from: impl Fn(u8) -> Option<W>,
) {
    let header = of_the_header().into_iter();
    let words = header.filter_map(|(name, number)| {
        Some((name.strip_prefix(prefix)?.to_lowercase(), number as u8))
    });
    let mut words: Vec<(String, u8)> = words.filter(|(name, _)| name != "bytes").collect();
    words.sort_by_key(|word| word.1);
    assert_eq!(
        all.iter().map(|&word| told(word)).collect::<Vec<_>>(),
        words
    );
    for &word in all {
        assert_eq!(format!("{word:?}").to_lowercase(), told(word).0);
    }
    for number in 0..=u8::MAX {
        let expected = words.iter().find(|word| word.1 == number);
        assert_eq!(
            from(number).map(&told).as_ref(),
            expected,
            "{prefix}{number}"
        );
    }
}

#[test]
fn verbs_options_and_operators() {
    let told = |verb: Verb| (verb.name().to_string(), verb.number());
    assert_words("VERB_", &Verb::ALL, told, Verb::from_number);
    let told = |option: CommandOption| (option.name().to_string(), option.number());
    assert_words(
        "OPTION_",
        &CommandOption::ALL,
        told,
        CommandOption::from_number,
    );
    let told = |operator: Operator| (format!("{operator:?}").to_lowercase(), operator.number());
    assert_words("OPERATOR_", &Operator::ALL, told, Operator::from_number);
    for operator in Operator::ALL {
        assert_eq!(operator.sign(), "=".repeat(operator.number().into()));
    }
    assert_eq!(
        (Verb::Show.to_string(), CommandOption::Level.to_string()),
        ("show".into(), "level".into())
    );
    assert_eq!(Operator::Equals.to_string(), "==");
}

/// A C type, and the name after it, as Rust writes them.
fn in_rust(declared: &str) -> String {
    let (before, name) = declared.rsplit_once([' ', '*']).expect("TYPE NAME");
    let pointer = match (declared.contains('*'), declared.starts_with("const ")) {
        (true, true) => "*const ",
        (true, false) => "*mut ",
        _ => "",
    };
    let plain = match before
        .trim_start_matches("const ")
        .trim_end_matches([' ', '*'])
    {
        "uint8_t" => "u8",
        "uint16_t" => "u16",
        "uint64_t" => "u64",
        "size_t" => "usize",
        other => panic!("{other}: {declared}"),
    };
    format!("{name}: {pointer}{plain}")
}

/// The crate's name for a struct of the header.
fn struct_name(c_name: &str) -> String {
    let name = c_name.trim().strip_prefix("clp_").expect(c_name);
    format!("{}{}", name[..1].to_uppercase(), &name[1..])
}

#[test]
fn structs() {
    let code = code();
    let header = code.split("typedef struct {").skip(1).map(|piece| {
        let (fields, rest) = piece.split_once('}').expect("its end");
        let fields = fields
            .split_terminator(';')
            .map(flat)
            .filter(|field| !field.is_empty());
        let fields: Vec<String> = fields.map(|field| in_rust(&field)).collect();
        (
            struct_name(rest.split_once(';').expect("its name").0),
            fields,
        )
    });
    let declared = between(FACE, "#[repr(C)]\n", "\n}").map(|piece| {
        let (head, fields) = piece.split_once(" {\n").expect("its fields");
        let name = head
            .rsplit_once("pub struct ")
            .expect("its name")
            .1
            .to_string();
        let fields = fields
            .lines()
            .filter_map(|line| line.trim().strip_prefix("pub "));
        (
            name,
            fields
                .map(|field| field.trim_end_matches(',').to_string())
                .collect(),
        )
    });
    let (header, declared): (Vec<_>, Vec<_>) = (header.collect(), declared.collect());
    assert_eq!(declared, header);
    assert_eq!(header.len(), 4);
}

/// The functions of the header, in its order: name, parameters and answer, as raw.rs declares them.
fn functions() -> Vec<(String, String)> {
    let code = code();
    let prototypes = code
        .split(';')
        .filter(|piece| piece.contains("(") && !piece.contains('#'));
    let functions = prototypes.map(|prototype| {
        let prototype = flat(prototype);
        let (head, rest) = prototype.split_once('(').expect("(");
        let (answer, name) = head.rsplit_once(' ').expect("TYPE NAME");
        let parameters = rest
            .trim_end_matches(')')
            .split(", ")
            .map(in_rust)
            .collect::<Vec<_>>();
        let declared = format!("({}) -> {}", parameters.join(", "), struct_name(answer));
        (name.to_string(), declared)
    });
    functions.collect()
}

#[test]
fn declared_functions() {
    let declared = between(RAW, "pub fn ", ";").map(|function| {
        let function = flat(function).replace("( ", "(").replace(", )", ")");
        let (name, rest) = function.split_at(function.find('(').unwrap());
        (name.to_string(), rest.to_string())
    });
    assert_eq!(declared.collect::<Vec<_>>(), functions());
    let told = between(FACE, "\npub fn ", "(").map(|name| format!("clp_{name}"));
    assert!(told.eq(functions().into_iter().map(|(name, _)| name)));
}
