//! The crate's words for each refusal are those of README.md's two tables, as the independent reader finds them there.

use clp_reader::explain::refusal_words;
use smclp::Refusal;

#[test]
fn the_words_are_those_of_the_readme() {
    for number in 0..=u8::MAX {
        let words = refusal_words(number);
        let refusal = Refusal {
            number: number.into(),
            place: 7,
        };
        assert_eq!(refusal.words(), words);
        assert_eq!(
            refusal.to_string(),
            format!("refused as {number} at 7: {words}")
        );
        assert_eq!(words.is_empty(), !(1..=25).contains(&number), "{number}");
    }
}
