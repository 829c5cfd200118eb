//! The program `clpexplain`: worked captures with their whole text, and its words held to README.md.

use clp_reader::explain::{explain_capture, refusal_words, Explainer};

const README: &str = include_str!("../../../README.md");

/// The whole text of a capture; `expected` has a line for each, and `WORDS` for a refusal's words.
fn assert_explained(capture: &[u8], expected: &[&str]) {
    let expected: Vec<String> = expected.iter().map(|line| with_words(line)).collect();
    let text = String::from_utf8(explain_capture(capture)).unwrap();
    assert!(text.is_empty() || text.ends_with('\n'));
    let lines: Vec<&str> = text.lines().collect();
    assert_eq!(lines, expected, "{}", capture.escape_ascii());
}

fn with_words(line: &str) -> String {
    let number = line.split("refused as ").nth(1);
    let number = number.and_then(|rest| rest.split(' ').next());
    let words = number.map_or("", |number| refusal_words(number.parse().unwrap()));
    line.replace("WORDS", words)
}

#[test]
fn the_parts_of_accepted_lines() {
    assert_explained(
        b"show -level 2 /system1/cpu* Name\n",
        &[
            "show -level 2 /system1/cpu* Name",
            "  verb show",
            "  option level: 2",
            "  target /system1/cpu*",
            "  property Name",
        ],
    );
    assert_explained(
        b"  SET -F  -k 0 Name=\"a b\" b==x c=(d,\"e\") f=` \r\n",
        &[
            "  SET -F  -k 0 Name=\"a b\" b==x c=(d,\"e\") f=` ",
            "  verb set",
            "  option force",
            "  option keep: 0",
            "  property Name = \"a b\"",
            "  property b == x",
            "  property c = (d,\"e\")",
            "  property f = ` ",
        ],
    );
    assert_explained(
        b"help -X show\nload -source ftp://h/`\"x\n",
        &[
            "help -X show",
            "  verb help",
            "  option examine",
            "  property show",
            "load -source ftp://h/`\"x",
            "  verb load",
            "  option source: ftp://h/`\"x",
        ],
    );
}

#[test]
fn the_mark_stands_under_the_byte_of_the_place() {
    assert_explained(
        b"set a=b=c\n",
        &["set a=b=c", "       ^", "  refused as 13 at 7: WORDS"],
    );
    assert_explained(
        b"show -level\n",
        &["show -level", "           ^", "  refused as 9 at 11: WORDS"],
    );
    assert_explained(b"no\n", &["no", "^", "  refused as 6 at 0: WORDS"]);
}

#[test]
fn other_bytes_take_four_columns() {
    assert_explained(
        b"cd\t\xff /\n",
        &["cd\\x09\\xFF /", "  ^", "  refused as 2 at 2: WORDS"],
    );
    // Only the first such byte is a place; a longer line's first 1,024 bytes may have more before it.
    let mut line = vec![0x0b; 2];
    line.resize(1100, b'x');
    let shown = format!("\\x0B\\x0B{}", "x".repeat(1022));
    let mark = format!("{}^", " ".repeat(1030));
    line.push(b'\n');
    assert_explained(&line, &[&shown, &mark, "  refused as 1 at 1024: WORDS"]);
}

#[test]
fn blank_lines_and_a_cut() {
    assert_explained(b"", &[]);
    assert_explained(b"\n  \r\n", &["  blank", "  blank"]);
    assert_explained(b"cd", &["  cut: the capture ends inside a line"]);
    assert_explained(
        b"cd\n`",
        &["cd", "  verb cd", "  cut: the capture ends inside a line"],
    );
    assert_explained(b"sh`\r\now\n", &["show", "  verb show"]);
}

#[test]
fn parts_of_a_capture_change_nothing() {
    let capture = b"show -l 02\r\n\r\nset a=\"b`\n c\" d\nreset \"os1\ncd`";
    let whole = explain_capture(capture);
    for length in 1..capture.len() {
        let (mut explainer, mut text) = (Explainer::new(), Vec::new());
        for part in capture.chunks(length) {
            explainer.explain_part(part, &mut text);
        }
        explainer.explain_end(&mut text);
        assert_eq!(text, whole, "parts of {length} bytes");
    }
}

#[test]
fn the_words_are_those_of_the_readme() {
    let mut page = README.lines();
    let mut numbers = Vec::new();
    // the table of lines, then that of replies
    for _ in 0..2 {
        assert!(page.any(|row| row.starts_with("| No. | What to look at |")));
        let rows = page.by_ref().skip(1);
        for row in rows.take_while(|row| row.starts_with('|')) {
            let (number, words) = row[2..].split_once(" | ").expect("two cells");
            let number = number.parse().expect("a number");
            assert_eq!(format!("{} |", refusal_words(number)), words);
            assert!(!refusal_words(number).is_empty());
            numbers.push(number);
        }
    }
    assert!(numbers.into_iter().eq(1..=25));
    assert_eq!((refusal_words(0), refusal_words(26)), ("", ""));
    let four = "the quote that opens there is not closed";
    assert_eq!(refusal_words(4), four);
}
