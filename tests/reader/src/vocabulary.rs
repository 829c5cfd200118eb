//! The words of "The command": verbs, options long and short (Table 14 of DSP0214). By document
//! 02's request a they match in either case, and so does level's `all`.

use crate::bytes::{is_word, lowered, same_in_either_case};

pub(crate) const HELP_VERB: u8 = 6;

pub(crate) const DESTINATION: u8 = 2;
pub(crate) const DISPLAY: u8 = 3;
pub(crate) const KEEP: u8 = 7;
pub(crate) const LEVEL: u8 = 8;
pub(crate) const OUTPUT: u8 = 9;
pub(crate) const SOURCE: u8 = 10;

/// The most bytes of a name.
const MOST_NAME_BYTES: usize = 64;

const VERBS: [&str; 13] = [
    "cd", "create", "delete", "dump", "exit", "help", "load", "reset", "set", "show", "start",
    "stop", "version",
];

const OPTIONS: [&str; 12] = [
    "all",
    "destination",
    "display",
    "examine",
    "force",
    "help",
    "keep",
    "level",
    "output",
    "source",
    "version",
    "wait",
];

/// The verb's number, in either case. The first letter leaves few constant words to compare
/// with, so that no table is walked.
pub(crate) fn verb_number(word: &[u8]) -> Option<u8> {
    let is = |verb: &[u8]| same_in_either_case(word, verb);
    Some(match lowered(*word.first()?) {
        b'c' if is(b"cd") => 1,
        b'c' if is(b"create") => 2,
        b'd' if is(b"delete") => 3,
        b'd' if is(b"dump") => 4,
        b'e' if is(b"exit") => 5,
        b'h' if is(b"help") => HELP_VERB,
        b'l' if is(b"load") => 7,
        b'r' if is(b"reset") => 8,
        b's' if is(b"set") => 9,
        b's' if is(b"show") => 10,
        b's' if is(b"start") => 11,
        b's' if is(b"stop") => 12,
        b'v' if is(b"version") => 13,
        _ => return None,
    })
}

/// The option's number by its long or short name in either case, without the `-`.
pub(crate) fn option_number(name: &[u8]) -> Option<u8> {
    let is = |word: &[u8]| same_in_either_case(name, word);
    Some(match lowered(*name.first()?) {
        b'a' if is(b"all") || is(b"a") => 1,
        b'd' if is(b"destination") => DESTINATION,
        b'd' if is(b"display") || is(b"d") => DISPLAY,
        b'e' if is(b"examine") => 4,
        b'x' if is(b"x") => 4,
        b'f' if is(b"force") || is(b"f") => 5,
        b'h' if is(b"help") || is(b"h") => 6,
        b'k' if is(b"keep") || is(b"k") => KEEP,
        b'l' if is(b"level") || is(b"l") => LEVEL,
        b'o' if is(b"output") || is(b"o") => OUTPUT,
        b's' if is(b"source") => SOURCE,
        b'v' if is(b"version") || is(b"v") => 11,
        b'w' if is(b"wait") || is(b"w") => 12,
        _ => return None,
    })
}

/// Whether level's argument is its word `all`, in either case.
pub(crate) fn is_level_all(text: &[u8]) -> bool {
    same_in_either_case(text, b"all")
}

pub(crate) fn verb_word(number: u8) -> &'static [u8] {
    word_of(&VERBS, number)
}

pub(crate) fn option_word(number: u8) -> &'static [u8] {
    word_of(&OPTIONS, number)
}

/// The word of a number counted from 1, empty for a number that has none.
fn word_of(words: &[&'static str], number: u8) -> &'static [u8] {
    let index = usize::from(number).wrapping_sub(1);
    words.get(index).map_or(&[], |word| word.as_bytes())
}

pub(crate) fn takes_argument(option: u8) -> bool {
    matches!(
        option,
        DESTINATION | DISPLAY | KEEP | LEVEL | OUTPUT | SOURCE
    )
}

/// The length of the name that `text` begins with, if it begins with one of 1 to 64 bytes.
pub(crate) fn name_length(text: &[u8]) -> Option<usize> {
    if !text.first()?.is_ascii_alphabetic() {
        return None;
    }
    let length = text.iter().take_while(|&&byte| is_word(byte)).count();
    (length <= MOST_NAME_BYTES).then_some(length)
}

#[cfg(test)]
mod tests {
    use super::*;

    /// The text with each letter in lower or upper case, in all ways.
    fn in_each_case(word: &[u8]) -> impl Iterator<Item = Vec<u8>> + '_ {
        (0..1_u32 << word.len()).map(move |choice| {
            let letters = word.iter().enumerate();
            let upper = |at: usize| choice >> at & 1 == 1;
            letters
                .map(|(at, &byte)| if upper(at) { byte - 32 } else { byte })
                .collect()
        })
    }

    #[test]
    fn numbers_and_words_agree_in_each_case() {
        for number in 1..=13 {
            for word in in_each_case(verb_word(number)) {
                assert_eq!(verb_number(&word), Some(number));
            }
        }
        for number in 1..=12 {
            for word in in_each_case(option_word(number)) {
                assert_eq!(option_number(&word), Some(number));
            }
        }
        assert_eq!((verb_word(0), verb_word(14)), (&[][..], &[][..]));
        assert_eq!((option_word(0), option_word(13)), (&[][..], &[][..]));
    }

    #[test]
    fn short_names_are_those_of_table_14() {
        let numbers = (0..=255).filter_map(|byte| Some((byte, option_number(&[byte])?)));
        let expected = [
            (b'A', 1),
            (b'D', 3),
            (b'F', 5),
            (b'H', 6),
            (b'K', 7),
            (b'L', 8),
            (b'O', 9),
            (b'V', 11),
            (b'W', 12),
            (b'X', 4),
        ];
        let lower = expected.map(|(letter, number)| (letter + 32, number));
        assert!(numbers.eq(expected.into_iter().chain(lower)));
        assert!((0..=255).all(|byte| verb_number(&[byte]).is_none()));
    }

    #[test]
    fn levels_all_in_each_case() {
        assert!(in_each_case(b"all").all(|word| is_level_all(&word)));
        for text in ["", "al", "alls", "@ll", "0", "a ll"] {
            assert!(!is_level_all(text.as_bytes()), "{text}");
        }
    }
}
