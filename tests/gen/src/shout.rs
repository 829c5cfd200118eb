//! Letters in the other case, and bytes that stand next to letters.

use crate::rng::Rng;

/// The bytes directly before and after the letters; each differs from one of the others in bit 5
/// alone, as a letter does from its other case.
pub const NEXT_TO_LETTERS: &[u8] = b"@[`{";

/// Writes a text in upper case, with one capital in front, or each letter in either case.
pub fn shout(rng: &mut Rng, text: &mut [u8]) {
    match rng.below(3) {
        0 => text.make_ascii_uppercase(),
        1 => {
            text.make_ascii_lowercase();
            if let Some(first) = text.iter_mut().find(|byte| byte.is_ascii_lowercase()) {
                first.make_ascii_uppercase();
            }
        }
        _ => {
            for byte in text.iter_mut().filter(|byte| byte.is_ascii_alphabetic()) {
                if rng.percent(50) {
                    *byte ^= 0x20;
                }
            }
        }
    }
}
