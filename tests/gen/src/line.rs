//! Lines: valid by the grammar with verbs, option names and `all` in any case, damaged, noise, at
//! the edges of every limit, near misses of a word in another case, options that the verb can't
//! have, and terms that are almost of their form.

use std::ops::Range;

use crate::almost::{almost, almost_line};
use crate::damage::{damage, LOADED_BYTES};
use crate::excluded::excluded_line;
use crate::form::Form;
use crate::options::{options_of, OptionRow, VERBS};
use crate::rng::Rng;
use crate::shout::{shout, NEXT_TO_LETTERS};
use crate::tree::{segment_text, tag, TAGS};

const EDGE_NUMBERS: [&str; 15] = [
    "0",
    "1",
    "9",
    "00",
    "01",
    "65534",
    "65535",
    "65536",
    "99999",
    "4294967294",
    "4294967295",
    "4294967296",
    "9999999999",
    "42949672950",
    "18446744073709551616",
];

const NAMES: [&str; 8] = [
    "Name",
    "a",
    "EnabledState",
    "Z_9",
    "x1",
    "cpu4",
    "SESSION",
    "all",
];

/// Pieces that make a line look like a command without being one.
const PIECES: [&str; 40] = [
    "show", "set", "help", "cd", "Show", "reset", "-f", "-force", "-level", "-l", "all", "-k", "0",
    "02", "-display", "-d", "-output", "a", "a=b", "a==b", "=", "==", "/", "\\", ".", "..",
    "/system1", "cpu*", "SESSION", "SESSION1", "(", ")", "(a,b)", "\"", "\"\"", "`", "` ", "-",
    "-source", ",",
];

/// Words that are no names to be shouted, with what stands before and after each: `SESSION`, items,
/// values, property names, topics, tags and locations, which are exact; and what is not quite
/// level's `all`.
const NEAR_WORDS: [(&str, &str, &str); 24] = [
    ("show ", "session", ""),
    ("cd ", "session", ""),
    ("show -l all ", "session", " Name"),
    ("set -f ", "session", " a=b"),
    ("show ", "session", "1"),
    ("show -d ", "all", ""),
    ("show -o ", "all", " /"),
    ("show -display a,", "all", ",b"),
    ("show -output ", "format", "=all"),
    ("show -d a=", "all", ""),
    ("show -o a=(b,", "all", ")"),
    ("help ", "show", ""),
    ("help -x ", "level all", ""),
    ("show / ", "all", ""),
    ("set ", "all", "=b"),
    ("set a==", "all", ""),
    ("cd /", "system", "1/cpu*"),
    ("load -source ", "all", ""),
    ("dump -destination ", "ftp", "://a"),
    ("cd -k ", "all", ""),
    ("show -l ", "al", ""),
    ("show -level ", "all", "x"),
    ("show -l \"", "all", "\""),
    ("show -l `", "all", ""),
];

/// Where the names of a line stand that match in either case: its verb, its option names without
/// the `-`, and level's `all`.
pub(crate) type Places = Vec<Range<usize>>;

/// A line made by the grammar, its names in lower case.
pub(crate) struct Made {
    pub line: Vec<u8>,
    pub names: Places,
    /// Empty where the line is blank.
    pub verb: &'static str,
    /// Where another option can be put in: after the verb, and after each option.
    pub gaps: Vec<usize>,
}

/// One line: about half are valid by the grammar, the others damaged, noise, at an edge, next to a
/// line with a shouted name, with an option that the verb can't have, or with a term that is almost
/// of its form.
pub fn line(rng: &mut Rng) -> Vec<u8> {
    match rng.below(100) {
        0..=49 => shouted_line(rng),
        50..=61 => {
            let mut line = shouted_line(rng);
            damage(rng, &mut line);
            line
        }
        62..=71 => almost_line(rng),
        72..=79 => edge_line(rng),
        80..=84 => near_miss(rng),
        85..=88 => excluded_line(rng),
        89..=94 => noise_of_pieces(rng),
        _ => noise_of_bytes(rng),
    }
}

/// A line made by the grammar, its names in lower case: a command of the benchmark. Only rarely
/// does it pass a limit of length or count.
pub fn valid_line(rng: &mut Rng) -> Vec<u8> {
    made_line(rng).line
}

/// The same with its verb, option names and level's `all` in upper case: the benchmark's too.
pub fn loud_line(rng: &mut Rng) -> Vec<u8> {
    let Made {
        mut line, names, ..
    } = made_line(rng);
    for name in names {
        line[name].make_ascii_uppercase();
    }
    line
}

/// A line made by the grammar, mostly with its names in lower case, otherwise each in any case.
pub fn shouted_line(rng: &mut Rng) -> Vec<u8> {
    let Made {
        mut line, names, ..
    } = made_line(rng);
    if rng.percent(40) {
        shout_some(rng, &mut line, names);
    }
    line
}

/// Shouts most of the texts at these places.
pub(crate) fn shout_some(rng: &mut Rng, line: &mut [u8], places: Places) {
    for place in places {
        if rng.percent(80) {
            shout(rng, &mut line[place]);
        }
    }
}

/// Appends a name, and notes its place.
fn put_word(word: &str, line: &mut Vec<u8>, names: &mut Places) {
    names.push(line.len()..line.len() + word.len());
    line.extend_from_slice(word.as_bytes());
}

/// A verb: show more often than others, and those that alone have an option a little.
fn drawn_verb(rng: &mut Rng) -> &'static str {
    match rng.below(20) {
        0..=6 => "show",
        7 => "load",
        8 => "dump",
        _ => *rng.pick(&VERBS),
    }
}

/// A line made by the grammar; now and then a blank one.
pub(crate) fn made_line(rng: &mut Rng) -> Made {
    let mut made = Made {
        line: Vec::new(),
        names: Places::new(),
        verb: "",
        gaps: Vec::new(),
    };
    if rng.percent(1) {
        made.line = vec![b' '; rng.below(4)];
        return made;
    }
    made.verb = drawn_verb(rng);
    put_word(made.verb, &mut made.line, &mut made.names);
    let count = rng.mostly_small(12);
    put_options(rng, count, &mut made);
    put_others(rng, made.verb, &mut made.line);
    if rng.percent(5) {
        put_spaces(rng, &mut made.line);
    }
    if rng.percent(5) {
        made.line.insert(0, b' ');
        for name in &mut made.names {
            *name = name.start + 1..name.end + 1;
        }
        for gap in &mut made.gaps {
            *gap += 1;
        }
    }
    made
}

/// A target and properties, or help's topics.
fn put_others(rng: &mut Rng, verb: &str, line: &mut Vec<u8>) {
    let count = rng.mostly_small(8);
    if verb == "help" {
        for _ in 0..count {
            put_term(rng, line, put_name);
        }
    } else if rng.percent(70) {
        put_term(rng, line, put_target);
        for _ in 0..count {
            put_term(rng, line, put_property);
        }
    } else {
        put_assignments(rng, count, line);
    }
}

/// A near miss of a shouted verb, option name or `all`: another byte in a letter's place; or another
/// case where bytes are exact.
pub fn near_miss(rng: &mut Rng) -> Vec<u8> {
    if rng.percent(40) {
        return missed_name(rng);
    }
    let (before, word, after) = *rng.pick(&NEAR_WORDS);
    let mut line = before.as_bytes().to_vec();
    if rng.percent(30) {
        let verb = before.find(' ').unwrap_or(0);
        shout(rng, &mut line[..verb]);
    }
    line.extend_from_slice(word.as_bytes());
    if rng.percent(80) {
        shout(rng, &mut line[before.len()..]);
    }
    line.extend_from_slice(after.as_bytes());
    line
}

/// A line by the grammar with one letter of a name lost to a byte next to the letters, or by
/// another bit than the one that makes its case.
fn missed_name(rng: &mut Rng) -> Vec<u8> {
    let Made {
        mut line, names, ..
    } = made_line(rng);
    if names.is_empty() {
        return line;
    }
    let name = rng.pick(&names).clone();
    if rng.percent(50) {
        shout(rng, &mut line[name.clone()]);
    }
    let at = rng.between(name.start, name.end - 1);
    line[at] = if rng.percent(60) {
        *rng.pick(NEXT_TO_LETTERS)
    } else {
        line[at] ^ rng.pick(&[0x01, 0x02, 0x04, 0x08, 0x10, 0x40, 0x80])
    };
    line
}

/// Properties where no target stands: the first of them must have an operator.
fn put_assignments(rng: &mut Rng, count: usize, line: &mut Vec<u8>) {
    for index in 0..count {
        if index == 0 {
            put_term(rng, line, put_assignment);
        } else {
            put_term(rng, line, put_property);
        }
    }
}

fn put_term(rng: &mut Rng, line: &mut Vec<u8>, put: fn(&mut Rng, &mut Vec<u8>)) {
    put_spaces(rng, line);
    put(rng, line);
}

pub(crate) fn put_spaces(rng: &mut Rng, line: &mut Vec<u8>) {
    let count = if rng.percent(92) {
        1
    } else {
        rng.between(2, 5)
    };
    line.resize(line.len() + count, b' ');
}

/// So many different options of the verb, or all that it has, in random order.
fn put_options(rng: &mut Rng, count: usize, made: &mut Made) {
    let mut options = options_of(made.verb);
    made.gaps.push(made.line.len());
    for index in 0..count.min(options.len()) {
        let other = rng.between(index, options.len() - 1);
        options.swap(index, other);
        put_option_name(rng, options[index], &mut made.line, &mut made.names);
        put_argument(rng, options[index], &mut made.line, &mut made.names);
        made.gaps.push(made.line.len());
    }
}

/// An option by its long or short name, with its `-`.
pub(crate) fn put_option_name(
    rng: &mut Rng,
    option: &OptionRow,
    line: &mut Vec<u8>,
    names: &mut Places,
) {
    put_spaces(rng, line);
    line.push(b'-');
    let name = if rng.percent(50) {
        option.long
    } else {
        option.short
    };
    put_word(name, line, names);
}

/// An argument of the option's form, if it takes one.
pub(crate) fn put_argument(
    rng: &mut Rng,
    option: &OptionRow,
    line: &mut Vec<u8>,
    names: &mut Places,
) {
    match option.argument {
        Some(Form::Location) => put_term(rng, line, put_location),
        Some(Form::Items) => put_term(rng, line, put_items),
        Some(Form::Keep) => put_term(rng, line, put_number),
        Some(Form::Level) if rng.percent(50) => {
            line.push(b' ');
            put_word("all", line, names);
        }
        Some(Form::Level) => put_term(rng, line, put_number),
        // No option takes a target, a property or a topic.
        _ => {}
    }
}

pub(crate) fn put_number(rng: &mut Rng, line: &mut Vec<u8>) {
    if rng.percent(3) {
        line.extend_from_slice(rng.pick_text(&EDGE_NUMBERS));
        return;
    }
    let number = rng.next() as u32 >> rng.below(32);
    line.extend_from_slice(number.to_string().as_bytes());
}

/// A source or destination: no unescaped quote, and no bare `-` at its start.
pub(crate) fn put_location(rng: &mut Rng, line: &mut Vec<u8>) {
    const SCHEMES: [&str; 5] = ["ftp://host/a.bin", "/system1/log1", "file:", "`-x", "\\a"];
    line.extend_from_slice(rng.pick_text(&SCHEMES));
    for _ in 0..rng.mostly_small(20) {
        let byte = *rng.pick(b"aZ0_:/\\.-=,()*@%` \"");
        put_escaped_outside(rng, byte, line);
    }
}

/// A byte outside quotes, escaped where it must be and sometimes where it need not.
fn put_escaped_outside(rng: &mut Rng, byte: u8, line: &mut Vec<u8>) {
    let can_be = b" `\",=-/\\.()*".contains(&byte);
    let must_be = b" `\"".contains(&byte);
    if must_be || (can_be && rng.percent(30)) {
        line.push(b'`');
    } else if !can_be && rng.percent(5) {
        // Before such a byte a GRAVE stands for itself.
        line.push(b'`');
    }
    line.push(byte);
}

pub(crate) fn put_items(rng: &mut Rng, line: &mut Vec<u8>) {
    for index in 0..rng.between(1, 4) {
        if index > 0 {
            line.push(b',');
        }
        put_name(rng, line);
        if rng.percent(50) {
            line.push(b'=');
            put_value(rng, line);
        }
    }
}

pub(crate) fn put_name(rng: &mut Rng, line: &mut Vec<u8>) {
    if rng.percent(80) {
        line.extend_from_slice(rng.pick_text(&NAMES));
        return;
    }
    let length = if rng.percent(5) {
        rng.between(62, 66)
    } else {
        rng.below(12)
    };
    line.push(*rng.pick(b"abcXYZ"));
    put_word_bytes(rng, length, line);
}

pub(crate) fn put_word_bytes(rng: &mut Rng, length: usize, line: &mut Vec<u8>) {
    for _ in 0..length {
        line.push(*rng.pick(b"abcxyzABCXYZ0189_"));
    }
}

pub(crate) fn put_property(rng: &mut Rng, line: &mut Vec<u8>) {
    if rng.percent(30) {
        put_name(rng, line);
    } else {
        put_assignment(rng, line);
    }
}

fn put_assignment(rng: &mut Rng, line: &mut Vec<u8>) {
    put_name(rng, line);
    line.extend_from_slice(if rng.percent(70) { b"=" } else { b"==" });
    put_value(rng, line);
}

fn put_value(rng: &mut Rng, line: &mut Vec<u8>) {
    if rng.percent(25) {
        put_list(rng, line);
    } else {
        put_item(rng, line);
    }
}

fn put_list(rng: &mut Rng, line: &mut Vec<u8>) {
    let count = if rng.percent(5) {
        rng.between(14, 17)
    } else {
        rng.between(1, 4)
    };
    line.push(b'(');
    for index in 0..count {
        if index > 0 {
            line.push(b',');
        }
        put_item(rng, line);
    }
    line.push(b')');
}

fn put_item(rng: &mut Rng, line: &mut Vec<u8>) {
    match rng.below(3) {
        0 => {
            let length = rng.between(1, 8);
            put_word_bytes(rng, length, line);
        }
        1 => put_plain_item(rng, line),
        _ => put_quoted_item(rng, line),
    }
}

/// A plain item: the bytes that would end it are escaped.
fn put_plain_item(rng: &mut Rng, line: &mut Vec<u8>) {
    for _ in 0..=rng.mostly_small(12) {
        let byte = *rng.pick(b"aZ0_:/\\.-*@ `\",=()");
        if b",=()".contains(&byte) {
            line.extend_from_slice(&[b'`', byte]);
        } else {
            put_escaped_outside(rng, byte, line);
        }
    }
}

/// A quoted item: inside, GRAVE and `"` are escaped, and a GRAVE before others is itself.
pub(crate) fn put_quoted_item(rng: &mut Rng, line: &mut Vec<u8>) {
    line.push(b'"');
    for _ in 0..rng.mostly_small(14) {
        match *rng.pick(b"aZ0_ ,=()-/\\.*:`\"~G") {
            b'G' => line.extend_from_slice(b"`x"),
            byte @ (b'`' | b'"') => line.extend_from_slice(&[b'`', byte]),
            byte => line.push(byte),
        }
    }
    line.push(b'"');
}

/// A target: `SESSION`, the root, or a path with either separator.
pub(crate) fn put_target(rng: &mut Rng, line: &mut Vec<u8>) {
    match rng.below(20) {
        0 => line.extend_from_slice(b"SESSION"),
        1 => line.push(separator(rng)),
        _ => put_path(rng, line),
    }
}

pub(crate) fn separator(rng: &mut Rng) -> u8 {
    if rng.percent(75) {
        b'/'
    } else {
        b'\\'
    }
}

fn put_path(rng: &mut Rng, line: &mut Vec<u8>) {
    if rng.percent(60) {
        line.push(separator(rng));
    }
    let count = if rng.percent(5) {
        rng.between(14, 17)
    } else {
        rng.between(1, 4)
    };
    for index in 1..=count {
        put_segment(rng, index == count, line);
        if index < count {
            line.push(separator(rng));
        }
    }
}

pub(crate) fn put_segment(rng: &mut Rng, is_last: bool, line: &mut Vec<u8>) {
    match rng.below(12) {
        0 => line.push(b'.'),
        1 => line.extend_from_slice(b".."),
        2 if is_last => {
            line.extend_from_slice(tag(rng));
            line.push(b'*');
        }
        _ => {
            let number = if rng.percent(95) {
                rng.between(1, 12)
            } else {
                rng.between(1, 65_535)
            };
            let tag = tag(rng).to_vec();
            line.extend_from_slice(&segment_text(&tag, number as u16));
        }
    }
}

/// A line at the edge of one limit of the paper, its verb shouted now and then.
pub fn edge_line(rng: &mut Rng) -> Vec<u8> {
    let mut line = line_at_an_edge(rng);
    if rng.percent(20) {
        let verb = line.iter().take_while(|&&byte| byte != b' ').count();
        shout(rng, &mut line[..verb]);
    }
    line
}

fn line_at_an_edge(rng: &mut Rng) -> Vec<u8> {
    match rng.below(11) {
        0 => line_of_about_1024(rng),
        1 => line_of_about_64_terms(rng),
        2 => line_of_about_32_properties(rng),
        3 => long_name(rng),
        4 => long_tag(rng),
        5 => edge_number(rng),
        6 => many_segments(rng),
        7 => repeated_option(rng),
        8 => option_at_the_end(rng),
        9 => growing_line(rng),
        _ => many_list_items(rng),
    }
}

/// 1,020 to 1,028 bytes: a valid beginning with a value or spaces that fill it up.
fn line_of_about_1024(rng: &mut Rng) -> Vec<u8> {
    let length = rng.between(1020, 1028);
    let mut line = valid_line(rng);
    match rng.below(4) {
        0 => line.resize(length, b' '),
        1 => {
            line.extend_from_slice(b" Name=");
            line.resize(length, b'x');
        }
        2 => {
            line.extend_from_slice(b" Name=\"");
            line.resize(length.saturating_sub(1), b' ');
            line.push(b'"');
        }
        _ => {
            while line.len() + 2 <= length {
                line.extend_from_slice(b"`.");
            }
            line.resize(length, b'`');
        }
    }
    line
}

/// About 1,024 bytes of short option names and of lists whose items grow where they are written canonically.
fn growing_line(rng: &mut Rng) -> Vec<u8> {
    let length = rng.between(1016, 1024);
    let mut line = b"show".to_vec();
    for option in [" -x", " -v", " -f", " -h", " -w", " -a", " -l 1"] {
        if rng.percent(80) {
            line.extend_from_slice(option.as_bytes());
        }
    }
    line.extend_from_slice(rng.pick_text(&[" -d ", " -o ", " -d a -o ", " "]));
    let most_items = rng.between(12, 16);
    let kinds = rng.between(1, 5);
    let parting = *rng.pick(b",, ");
    loop {
        line.extend_from_slice(b"a=(");
        for _ in 1..most_items {
            line.extend_from_slice(rng.pick_text(&["`x,", ":,", "`:`x,", "\"`x\",", "/`a,"][..kinds]));
            if line.len() + 8 > length {
                break;
            }
        }
        line.extend_from_slice(b"`x)");
        if line.len() + 8 > length {
            return line;
        }
        line.push(parting);
    }
}

/// 60 to 70 terms, sometimes with a dangling end that has to come first.
fn line_of_about_64_terms(rng: &mut Rng) -> Vec<u8> {
    let count = rng.between(60, 70);
    let mut line = b"show".to_vec();
    for _ in 1..count {
        let term = rng.pick_text(&[" a", " -f", " a=b", " /", "  \"\"", " ` "]);
        line.extend_from_slice(term);
    }
    match rng.below(6) {
        0 => line.push(b'`'),
        1 => line.extend_from_slice(b" \"open"),
        2 => line.push(0x7f),
        _ => {}
    }
    line
}

/// 30 to 34 properties or topics, with a late option or a bad one now and then.
fn line_of_about_32_properties(rng: &mut Rng) -> Vec<u8> {
    let count = rng.between(30, 34);
    let verb = rng.pick_text(&["set /", "help", "show a=b", "set -f SESSION"]);
    let mut line = verb.to_vec();
    for _ in 0..count {
        match rng.below(60) {
            0 => line.extend_from_slice(b" -f"),
            1 => line.extend_from_slice(b" 9"),
            2..=20 if !verb.starts_with(b"help") => line.extend_from_slice(b" a=\"b c\""),
            _ => line.extend_from_slice(b" Name"),
        }
    }
    if rng.percent(40) {
        let last = rng.pick_text(&[" -x", " 9", " a=", " ok"]);
        line.extend_from_slice(last);
    }
    line
}

/// Names of 63 to 66 bytes, as property, topic or item.
fn long_name(rng: &mut Rng) -> Vec<u8> {
    let before = rng.pick_text(&["show / ", "help ", "show -d ", "show -o a,", "set "]);
    let after = rng.pick_text(&["", "=b", "==\"b\"", "=(c,d)"]);
    let mut line = before.to_vec();
    line.push(b'n');
    let length = rng.between(62, 65);
    put_word_bytes(rng, length, &mut line);
    line.extend_from_slice(after);
    line
}

/// Tags of 15 to 18 letters, numbered or starred.
fn long_tag(rng: &mut Rng) -> Vec<u8> {
    let mut line = b"show /system1/".to_vec();
    let length = rng.between(15, 18);
    for _ in 0..length {
        line.push(*rng.pick(b"abcXYZ"));
    }
    let after = rng.pick_text(&["1", "*", "65535", "", "0"]);
    line.extend_from_slice(after);
    line
}

fn edge_number(rng: &mut Rng) -> Vec<u8> {
    let before = rng.pick_text(&[
        "show -level ",
        "show -k ",
        "show -keep ",
        "cd /cpu",
        "cd cpu",
        "cd ../disk",
    ]);
    let mut line = before.to_vec();
    line.extend_from_slice(rng.pick_text(&EDGE_NUMBERS));
    line
}

/// Options of which one may come twice, by the same name or the other, in any case.
fn repeated_option(rng: &mut Rng) -> Vec<u8> {
    let verb = drawn_verb(rng);
    let mut made = Made {
        line: verb.as_bytes().to_vec(),
        names: Places::new(),
        verb,
        gaps: Vec::new(),
    };
    for _ in 0..2 {
        let count = rng.between(1, 4);
        put_options(rng, count, &mut made);
    }
    if rng.percent(40) {
        shout_some(rng, &mut made.line, made.names);
    }
    made.line
}

/// Verbs with an option that takes an argument, and one that takes none.
const OPTIONS_AT_THE_END: [&str; 7] = [
    "show -l",
    "cd -keep",
    "reset -o",
    "show -display",
    "load -source",
    "dump -destination",
    "show -f",
];

/// An option whose argument is missing, or is itself an option.
fn option_at_the_end(rng: &mut Rng) -> Vec<u8> {
    let mut line = rng.pick_text(&OPTIONS_AT_THE_END).to_vec();
    let after = rng.pick_text(&["", " ", "   ", " -f", " -", " `-f", " -l 1"]);
    line.extend_from_slice(after);
    if rng.percent(30) {
        shout(rng, &mut line);
    }
    line
}

/// 15 to 18 segments.
fn many_segments(rng: &mut Rng) -> Vec<u8> {
    let mut line = b"cd ".to_vec();
    if rng.percent(50) {
        line.push(separator(rng));
    }
    let count = rng.between(15, 18);
    for index in 1..=count {
        let segment = rng.pick_text(&[".", "..", "a1"]);
        line.extend_from_slice(segment);
        if index < count || rng.percent(5) {
            line.push(separator(rng));
        }
    }
    line
}

/// Lists of 15 to 18 items.
fn many_list_items(rng: &mut Rng) -> Vec<u8> {
    let before = rng.pick_text(&["set a=(", "show -d a=(", "set a==("]);
    let mut line = before.to_vec();
    let count = rng.between(15, 18);
    for index in 0..count {
        if index > 0 {
            line.push(b',');
        }
        put_item(rng, &mut line);
    }
    line.push(b')');
    line
}

/// Words and marks of the dialect in no order, some of them shouted.
pub fn noise_of_pieces(rng: &mut Rng) -> Vec<u8> {
    let mut line = Vec::new();
    if rng.percent(80) {
        put_piece(rng, &VERBS, &mut line);
        line.push(b' ');
    }
    for _ in 0..rng.below(9) {
        put_piece(rng, &PIECES, &mut line);
        if rng.percent(60) {
            line.push(b' ');
        }
    }
    line
}

fn put_piece(rng: &mut Rng, pieces: &[&'static str], line: &mut Vec<u8>) {
    let start = line.len();
    line.extend_from_slice(rng.pick_text(pieces));
    if rng.percent(20) {
        shout(rng, &mut line[start..]);
    }
}

/// Bytes over a biased alphabet; a few lines have any byte at all.
pub fn noise_of_bytes(rng: &mut Rng) -> Vec<u8> {
    let length = if rng.percent(90) {
        rng.below(40)
    } else {
        rng.below(1100)
    };
    let odd_percent = *rng.pick(&[0, 0, 0, 2, 100]);
    let mut line = Vec::with_capacity(length + 5);
    if rng.percent(50) {
        line.extend_from_slice(b"set a=");
    }
    for _ in 0..length {
        let byte = if rng.percent(odd_percent) {
            rng.byte()
        } else {
            *rng.pick(LOADED_BYTES)
        };
        line.push(byte);
    }
    line
}

/// Texts handed to a resolver as a target: paths by grammar, damaged, almost of the form, in another
/// case, and noise.
pub fn loose_target(rng: &mut Rng) -> Vec<u8> {
    let mut text = Vec::new();
    match rng.below(12) {
        0 => {}
        1 => put_piece(rng, &PIECES, &mut text),
        2 => text = noise_of_bytes(rng),
        3 => {
            put_target(rng, &mut text);
            damage(rng, &mut text);
        }
        4 => {
            text.extend_from_slice(rng.pick_text(&TAGS));
            text.extend_from_slice(rng.pick_text(&EDGE_NUMBERS));
        }
        5 => {
            text.extend_from_slice(b"SESSION");
            shout(rng, &mut text);
        }
        6 | 7 => text = almost(rng, Form::Target),
        _ => put_target(rng, &mut text),
    }
    text
}
