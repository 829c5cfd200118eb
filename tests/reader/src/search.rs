//! For tests alone: the longest beginning of a text found by trying endings, from nothing but a
//! test of whole texts.

use std::collections::HashMap;

/// The most bytes of an ending, and what they are drawn from.
///
/// This is enough for every form of the dialect. The most that is ever missing is the byte behind
/// a GRAVE, a closing quote and a closing parenthesis: `a")`. Otherwise one of these is: a number's
/// first digit or a tag's number (`1`), the rest of `all` (`all`, `ll` or `l`), a name, an item or
/// what follows `=` (`a`), a segment (`.`), a target (`/`). The other bytes are there so that an
/// ending which ought not to help is tried as well.
const MOST_BYTES: usize = 3;
const BYTES: &[u8] = b"a1\")(,=./*`SEIONLl";

/// A search by one test of whole texts, with what it has found so far.
pub struct Search<A> {
    accepts: A,
    endings: Vec<Vec<u8>>,
    found: HashMap<Vec<u8>, bool>,
}

impl<A: Fn(&[u8]) -> bool> Search<A> {
    pub fn new(accepts: A) -> Search<A> {
        Search {
            accepts,
            endings: endings(),
            found: HashMap::new(),
        }
    }

    /// The length of the longest beginning of the text that some ending makes acceptable; the empty
    /// one is always one.
    pub fn longest_beginning(&mut self, text: &[u8]) -> usize {
        let mut lengths = (1..=text.len()).rev();
        let found = lengths.find(|&length| self.can_be_completed(&text[..length]));
        found.unwrap_or(0)
    }

    /// Whether some ending, the empty one included, makes the beginning acceptable.
    pub fn can_be_completed(&mut self, beginning: &[u8]) -> bool {
        if let Some(&found) = self.found.get(beginning) {
            return found;
        }
        let mut text = beginning.to_vec();
        let found = self.endings.iter().any(|ending| {
            text.truncate(beginning.len());
            text.extend_from_slice(ending);
            (self.accepts)(&text)
        });
        self.found.insert(beginning.to_vec(), found);
        found
    }
}

/// All endings, the shortest first.
fn endings() -> Vec<Vec<u8>> {
    let mut all = vec![Vec::new()];
    let mut first_of_length = 0;
    for _ in 0..MOST_BYTES {
        let shorter = first_of_length..all.len();
        first_of_length = all.len();
        for index in shorter {
            for &byte in BYTES {
                all.push([&all[index][..], &[byte]].concat());
            }
        }
    }
    all
}

#[cfg(test)]
mod tests {
    use super::*;

    #[test]
    fn each_ending_of_up_to_3_bytes_comes_once() {
        let mut all = endings();
        assert!(all.windows(2).all(|two| two[0].len() <= two[1].len()));
        all.sort();
        all.dedup();
        assert_eq!(all.len(), 1 + 18 + 18 * 18 + 18 * 18 * 18);
    }

    #[test]
    fn the_longest_beginning_by_a_test_of_whole_texts() {
        let words: [&[u8]; 3] = [b"a", b"abc)))", b"x1"];
        let mut search = Search::new(|text: &[u8]| words.contains(&text));
        // Three bytes of an ending are tried, four are not.
        for (text, length) in [
            ("", 0),
            ("ab", 1),
            ("abc", 3),
            ("abcx", 3),
            ("x2", 1),
            ("y", 0),
        ] {
            assert_eq!(search.longest_beginning(text.as_bytes()), length, "{text}");
        }
        assert!(search.can_be_completed(b"x") && !search.can_be_completed(b"ab"));
    }
}
