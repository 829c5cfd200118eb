//! How long a canonical writing can be: the most by the rules, as the best choice of pieces for so many bytes, held against all short lines.

use clp_reader::canonical::write_canonical;

/// The bytes of a line, and of the longest writing.
const LINE: usize = 1024;
const REACHED: usize = 1976;

const HEADER: &str = include_str!("../../../include/clp.h");

const MOST_ITEMS: usize = 16;

/// By how much an item of so many bytes (a value, or one of a list) can grow: two quotes, and a GRAVE for each GRAVE that stands for itself, which the byte after it parts from the next.
/// (A byte that is escaped is written in as many bytes or in one less; an item that is quoted already gains no quotes.)
fn item_growth(bytes: usize) -> usize {
    2 + bytes / 2
}

/// By how much so many items of so many bytes in all can grow.
fn list_growth(items: usize, bytes: usize) -> usize {
    // items of one byte, then of two, then longer ones: each second byte beyond the first is a GRAVE's chance
    let spare = bytes - items;
    2 * items + if spare <= items { spare } else { items + (spare - items) / 2 }
}

/// For each number of bytes the most growth by names with values, each with what parts it from what stands before.
fn growth_of_values() -> Vec<usize> {
    let mut of_one = vec![0; LINE + 1];
    let mut note = |cost: usize, growth: usize| {
        if cost <= LINE {
            of_one[cost] = of_one[cost].max(growth);
        }
    };
    for bytes in 1..LINE {
        note(" a=".len() + bytes, item_growth(bytes));
        // a source or destination gains no quotes; counted with every verb, and never the best
        note(" -source ".len() + bytes, bytes / 2);
        for items in 1..=MOST_ITEMS.min(bytes) {
            note(" a=()".len() + bytes + items - 1, list_growth(items, bytes));
        }
    }
    let mut most = vec![0; LINE + 1];
    for bytes in 1..=LINE {
        let with_last = (1..=bytes).map(|cost| most[bytes - cost] + of_one[cost]).max();
        most[bytes] = with_last.unwrap_or(0).max(most[bytes - 1]);
    }
    most
}

/// What an option by its short name costs at least and gains. The argument of display and output is counted among the values.
const OPTIONS: [(u8, usize, usize); 10] = [
    (b'a', " -a".len(), "ll".len()),
    (b'd', " -d".len(), "isplay".len()),
    (b'x', " -x".len(), "examine".len() - 1),
    (b'f', " -f".len(), "orce".len()),
    (b'h', " -h".len(), "elp".len()),
    (b'k', " -k 1".len(), "eep".len()),
    (b'l', " -l 1".len(), "evel".len()),
    (b'o', " -o".len(), "utput".len()),
    (b'v', " -v".len(), "ersion".len()),
    (b'w', " -w".len(), "ait".len()),
];

/// The verbs, each with the options of a short name that it can have.
const VERBS: [(&str, &str); 13] = [
    ("cd", "xhkovw"),
    ("create", "xhkovw"),
    ("delete", "xfhkovw"),
    ("dump", "xfhkovw"),
    ("exit", "xhkov"),
    ("help", "xhkovw"),
    ("load", "xfhkovw"),
    ("reset", "xfhkovw"),
    ("set", "xfhkovw"),
    ("show", "adxfhklovw"),
    ("start", "xfhkovw"),
    ("stop", "xfhkovw"),
    ("version", "xhkovw"),
];

/// The most bytes that the writing of a line of so many bytes with this verb can have, by the pieces above.
fn most_written_by((verb, letters): (&str, &str), values: &[usize], bytes: usize) -> usize {
    let options: Vec<_> = OPTIONS.iter().filter(|option| letters.as_bytes().contains(&option.0)).collect();
    let choices = 0..1_usize << options.len();
    let written = choices.filter_map(|choice| {
        let chosen = options.iter().enumerate().filter(|(index, _)| choice >> index & 1 == 1);
        let (cost, growth) = chosen.fold((verb.len(), 0), |sum, (_, option)| (sum.0 + option.1, sum.1 + option.2));
        Some(bytes + growth + values[bytes.checked_sub(cost)?])
    });
    written.max().unwrap_or(bytes)
}

/// The same with any verb.
fn most_written(values: &[usize], bytes: usize) -> usize {
    VERBS.iter().map(|&verb| most_written_by(verb, values, bytes)).max().unwrap()
}

#[test]
fn no_choice_of_pieces_passes_the_most_and_one_line_reaches_it() {
    assert_eq!(most_written(&growth_of_values(), LINE), REACHED);
    let list = |items: &[&str]| format!("a=({})", items.join(","));
    let most = list(&["`x"; 16]);
    let rest = list(&["`x", ":", ":"]);
    let line = format!("show -x -v -f -h -w -o {most} -d {rest},{}", vec![&most[..]; 18].join(","));
    assert_eq!(line.len(), LINE);
    assert_eq!(write_canonical(line.as_bytes(), &mut [0; REACHED]), Ok(REACHED));
    let refused = write_canonical(line.as_bytes(), &mut [0; REACHED - 1]).unwrap_err();
    assert_eq!((refused.number, refused.place), (19, 0));
}

/// The header's room is enough: it is what could be reached before a verb had options of its own.
#[test]
fn the_headers_room_is_enough() {
    let constant = HEADER.lines().find_map(|line| line.trim_start().strip_prefix("CLP_CANONICAL_BYTES = "));
    let digits: String = constant.unwrap().chars().take_while(char::is_ascii_digit).collect();
    assert!(REACHED <= digits.parse().unwrap(), "{digits}");
}

/// Each verb has the options that are said here and no other, by what the reader refuses as 20.
#[test]
fn verbs_have_these_options() {
    for (verb, letters) in VERBS {
        for (letter, ..) in OPTIONS {
            let argument = if b"dklo".contains(&letter) { "all" } else { "" };
            let argument = if letter == b'k' { "1" } else { argument };
            let line = format!("{verb} -{} {argument}", char::from(letter));
            let refused = write_canonical(line.as_bytes(), &mut [0; 64]).err().map(|refusal| refusal.number);
            let expected = (!letters.contains(char::from(letter))).then_some(20);
            assert_eq!(refused, expected, "{line}");
        }
    }
}

/// Every line of a beginning, so many bytes of those that matter, and an end: none is written longer than the pieces allow; `cd` and `show`, alone, with `-x` and with `-x -v`, are written as long.
#[test]
fn short_lines_are_written_no_longer_than_the_pieces_allow() {
    let values = growth_of_values();
    for (beginning, most, end) in [("cd", 6, ""), ("cd a=(", 5, ")"), ("show", 6, ""), ("show -d a=:,", 5, ""), ("load -source ", 5, "")] {
        let verb = VERBS.iter().find(|(verb, _)| beginning.split(' ').next() == Some(verb));
        for length in 0..=most {
            let longest = longest_writing(beginning, length, end);
            let allowed = most_written_by(*verb.unwrap(), &values, beginning.len() + length + end.len());
            assert!(longest <= allowed, "{beginning} {length}: {longest} of {allowed}");
            let is_reached = ["cd", "show"].contains(&beginning) && length % 3 == 0;
            assert!(longest == allowed || !is_reached, "{beginning} {length}: {longest} of {allowed}");
        }
    }
}

fn longest_writing(beginning: &str, length: usize, end: &str) -> usize {
    const BYTES: &[u8] = b" -xvda=(),`:\"";
    let mut line = beginning.as_bytes().to_vec();
    let start = line.len();
    line.resize(start + length, BYTES[0]);
    line.extend_from_slice(end.as_bytes());
    let mut digits = vec![0; length];
    let mut longest = 0;
    loop {
        if let Ok(written) = write_canonical(&line, &mut [0; 64]) {
            longest = longest.max(written);
        }
        // the next text: count up in the digits
        let Some(at) = digits.iter().position(|&digit| digit + 1 < BYTES.len()) else {
            return longest;
        };
        for index in 0..at {
            digits[index] = 0;
            line[start + index] = BYTES[0];
        }
        digits[at] += 1;
        line[start + at] = BYTES[digits[at]];
    }
}
