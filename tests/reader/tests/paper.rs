//! Document 01's own lines, its `clplist` example, and the boundaries to run and compare.

mod common;

use clp_reader::clplist::list_capture;
use clp_reader::path::is_target;
use clp_reader::tree::{check_tree, resolve, Resolved};
use common::{assert_same_text, numbered_nodes, read_text, repeated};

/// "Lines to check against", each with the text of its answer; `Show` as document 02's request a
/// has it, and the places of 10, 12 and 13 as its request c has them.
const LINES_TO_CHECK: [(&str, &str); 13] = [
    ("", "blank"),
    ("show", "verb 10"),
    ("show /system1/cpu4", "verb 10|target 5 13"),
    ("Show", "verb 10"),
    ("reset -f -force", "refusal 8 9"),
    ("show -level", "refusal 9 11"),
    ("show -level 02", "refusal 10 13"),
    ("set Name=\"a b\"", "verb 9|property 4 4 1 9 5"),
    ("set Name=a` b", "verb 9|property 4 4 1 9 4"),
    ("reset \"os1", "refusal 4 6"),
    ("reset /system1 -f", "refusal 11 15"),
    ("cd /system1/", "refusal 12 12"),
    ("set a=b=c", "refusal 13 7"),
];

#[test]
fn lines_to_check_against() {
    for (line, expected) in LINES_TO_CHECK {
        assert_same_text(line.as_bytes(), expected);
    }
}

#[test]
fn clplist_example() {
    let capture = b"show -level 2 /system1/cpu* Name\nreset \"os1\n\ncd";
    let expected = "verb 10\noption 8 12 1\ntarget 14 13\nproperty 28 4 0 32 0\n\
                    refusal 4 6\nblank\ncut\n";
    assert_eq!(String::from_utf8(list_capture(capture)).unwrap(), expected);
}

#[test]
fn length_of_1024_and_1025() {
    let mut line = repeated("set a=", "x", 1018, "");
    assert_eq!(line.len(), 1024);
    assert_same_text(&line, "verb 9|property 4 1 1 6 1018");
    line.push(b'\n');
    assert_eq!(list_capture(&line), b"verb 9\nproperty 4 1 1 6 1018\n");
    line.insert(6, b'x');
    assert_eq!(list_capture(&line), b"refusal 1 1024\n");
    line.pop();
    assert_same_text(&line, "refusal 1 1024");
}

#[test]
fn terms_64_and_65() {
    // Too many properties are met only where the number of terms is good.
    assert_same_text(&repeated("help", " a", 63, ""), "refusal 14 69");
    assert_same_text(&repeated("help", " a", 64, ""), "refusal 5 131");
}

#[test]
fn properties_32_and_33() {
    let text = read_text(&repeated("set /", " a=b", 32, ""));
    assert_eq!(text.lines().count(), 34);
    assert_same_text(&repeated("set /", " a=b", 33, ""), "refusal 14 134");
}

/// The records of a line with all options that its verb can have, each once, then a target and 32
/// properties: no other line of that verb has more. With one byte less of room it is 19.
fn most_records(verb: &str, options: &str) -> usize {
    // 64 terms are space enough: 1 verb, 14 for options of show, 1 target, 32 properties.
    let target = if verb == "help" { "" } else { " /" };
    let line = repeated(&format!("{verb} {options}{target}"), " a", 32, "");
    let mut room = [0xaa; 399];
    let length = clp_reader::reading::read(&line, &mut room).unwrap().length;
    assert!(room[length..].iter().all(|&byte| byte == 0xaa));
    let mut room = vec![0xaa; length - 1];
    let refusal = clp_reader::reading::read(&line, &mut room).unwrap_err();
    assert_eq!((refusal.number, refusal.place), (19, 0));
    assert!(room.iter().all(|&byte| byte == 0xaa));
    length
}

#[test]
fn the_most_that_the_records_of_each_verb_take() {
    // Since document 02's request b no verb has all twelve options, which would take them all.
    let show = most_records("show", "-a -d x -x -f -h -k 1 -l 1 -o x -v -w");
    assert_eq!(show, 2 + 10 * 6 + 5 + 32 * 10);
    assert_eq!(show, 387);
    let of_all = "-x -h -k 1 -o x -v";
    for (verb, more, options) in [
        ("cd", "-w", 6),
        ("create", "-w", 6),
        ("delete", "-f -w", 7),
        ("dump", "-destination x -f -w", 8),
        ("exit", "", 5),
        ("load", "-f -source x -w", 8),
        ("reset", "-f -w", 7),
        ("set", "-f -w", 7),
        ("start", "-f -w", 7),
        ("stop", "-f -w", 7),
        ("version", "-w", 6),
    ] {
        let length = most_records(verb, &format!("{of_all} {more}"));
        assert_eq!(length, 2 + options * 6 + 5 + 32 * 10, "{verb}");
    }
    let help = most_records("help", &format!("{of_all} -w"));
    assert_eq!(help, 2 + 6 * 6 + 32 * 10);
}

#[test]
fn number_65535_and_65536() {
    assert!(is_target(b"cpu65535") && !is_target(b"cpu65536"));
    assert!(!is_target(b"cpu0") && !is_target(b"cpu01") && !is_target(b"cpu"));
    assert_same_text(b"cd /cpu65535", "verb 1|target 3 9");
    assert_same_text(b"cd /cpu65536", "refusal 12 11");
}

#[test]
fn tag_of_16_and_17() {
    assert!(is_target(b"abcdefghijklmnop1") && !is_target(b"abcdefghijklmnopq1"));
    assert!(is_target(b"abcdefghijklmnop*") && !is_target(b"abcdefghijklmnopq*"));
}

#[test]
fn records_512_and_513() {
    let tree = numbered_nodes(512);
    assert_eq!(check_tree(&tree), Ok(512));
    let mut list = [0; 512];
    assert_eq!(
        resolve(b"/cpu*", &tree, 0, &mut list),
        Ok(Resolved::Nodes(512))
    );
    assert!(list
        .iter()
        .zip(1..)
        .all(|(&node, expected)| node == expected));
    let refusal = check_tree(&numbered_nodes(513)).unwrap_err();
    assert_eq!((refusal.number, refusal.place), (15, 512 * 22));
}

#[test]
fn a_joined_show_is_one_line() {
    assert_eq!(list_capture(b"sh`\r\now\n"), b"verb 10\n");
}

#[test]
fn slips_to_look_for() {
    // A pair of GRAVEs before LF joins nothing.
    assert_eq!(list_capture(b"cd``\ncd\n"), b"refusal 6 0\nverb 1\n");
    assert_same_text(b"show cpu4", "verb 10|target 5 4");
    assert_same_text(b"set a=b` c=d", "refusal 13 10");
    assert_same_text(b"set a=b` c", "verb 9|property 4 1 1 6 4");
    assert_eq!(list_capture(b"cd\r\ncd\r\n"), b"verb 1\nverb 1\n");
}
