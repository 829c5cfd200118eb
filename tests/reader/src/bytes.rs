//! The byte classes that several sections share.

pub(crate) const GRAVE: u8 = b'`';
pub(crate) const CR: u8 = b'\r';
pub(crate) const LF: u8 = b'\n';

/// The twelve bytes that a GRAVE outside quotes can escape.
const ESCAPABLE: [bool; 256] = table_of(b" `\",=-/\\.()*");

/// The bytes that end a plain value when bare, and GRAVE, which may escape one of them.
const ENDS_PLAIN_RUN: [bool; 256] = table_of(b"`\",()=");

/// The bytes that a scan for a term's end has to look at.
const PARTS_TERMS: [bool; 256] = table_of(b"` \"=");

const WORD: [bool; 256] =
    table_of(b"ABCDEFGHIJKLMNOPQRSTUVWXYZabcdefghijklmnopqrstuvwxyz0123456789_");

const fn table_of(members: &[u8]) -> [bool; 256] {
    let mut table = [false; 256];
    let mut i = 0;
    while i < members.len() {
        table[members[i] as usize] = true;
        i += 1;
    }
    table
}

/// Letters, digits and underscores.
pub(crate) fn is_word(byte: u8) -> bool {
    WORD[usize::from(byte)]
}

pub(crate) fn ends_plain_run(byte: u8) -> bool {
    ENDS_PLAIN_RUN[usize::from(byte)]
}

pub(crate) fn parts_terms(byte: u8) -> bool {
    PARTS_TERMS[usize::from(byte)]
}

/// A letter A to Z in lower case, every other byte as it is: the one place where case is folded.
#[inline]
pub(crate) fn lowered(byte: u8) -> u8 {
    byte.to_ascii_lowercase()
}

/// Whether both have the same bytes, letters in either case; folded byte by byte, never copied.
#[inline]
pub(crate) fn same_in_either_case(a: &[u8], b: &[u8]) -> bool {
    let same = |(&a, &b): (&u8, &u8)| lowered(a) == lowered(b);
    a.len() == b.len() && a.iter().zip(b).all(same)
}

/// Whether a GRAVE before `next` escapes it; inside quotes only GRAVE and `"` can be escaped.
pub(crate) fn grave_escapes(next: u8, in_quote: bool) -> bool {
    if in_quote {
        next == GRAVE || next == b'"'
    } else {
        ESCAPABLE[usize::from(next)]
    }
}

/// How many bytes the GRAVE at `at` takes: 2 with the byte it escapes, otherwise 1.
pub(crate) fn grave_width(text: &[u8], at: usize, in_quote: bool) -> usize {
    match text.get(at + 1) {
        Some(&next) if grave_escapes(next, in_quote) => 2,
        _ => 1,
    }
}

/// A decimal number up to `most` without leading zero, `0` itself apart.
pub(crate) fn decimal(text: &[u8], most: u32) -> Option<u32> {
    let well_begun = match text {
        [] => false,
        [b'0'] => true,
        [first, ..] => *first != b'0',
    };
    // Ten digits hold the largest number, and keep the sum within 64 bits.
    if !well_begun || text.len() > 10 {
        return None;
    }
    let mut sum: u64 = 0;
    for &byte in text {
        if !byte.is_ascii_digit() {
            return None;
        }
        sum = sum * 10 + u64::from(byte - b'0');
    }
    u32::try_from(sum).ok().filter(|&number| number <= most)
}

#[cfg(test)]
mod tests {
    use super::*;

    #[test]
    fn the_letters_a_to_z_alone_are_folded() {
        let upper = b"ABCDEFGHIJKLMNOPQRSTUVWXYZ";
        let lower = b"abcdefghijklmnopqrstuvwxyz";
        for byte in 0..=255 {
            let letter = upper.iter().position(|&letter| letter == byte);
            assert_eq!(lowered(byte), letter.map_or(byte, |at| lower[at]));
        }
    }

    #[test]
    fn either_case_is_compared_over_the_whole_length() {
        let same = |a: &str, b: &str| same_in_either_case(a.as_bytes(), b.as_bytes());
        assert!(same("", "") && same("aLl", "AlL") && same("0_[", "0_["));
        assert!(!same("all", "al") && !same("al", "all") && !same("", "a"));
        // Each pair differs in bit 5 alone.
        assert!(!same("[", "{") && !same("@", "`") && !same("\\", "|") && !same("a]", "a}"));
    }
}
