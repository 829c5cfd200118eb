//! Damage to bytes: what a tap loses, doubles or garbles.

use crate::rng::Rng;

/// The bytes that the dialect gives a meaning, with a few that it does not.
pub const LOADED_BYTES: &[u8] = b"  ``\"\",,==--//\\\\..(())**aZsS019_:;~!";

/// Damages `bytes` at one to three places.
pub fn damage(rng: &mut Rng, bytes: &mut Vec<u8>) {
    for _ in 0..rng.between(1, 3) {
        damage_once(rng, bytes);
    }
}

fn damage_once(rng: &mut Rng, bytes: &mut Vec<u8>) {
    if bytes.is_empty() {
        bytes.push(*rng.pick(LOADED_BYTES));
        return;
    }
    let at = rng.below(bytes.len());
    match rng.below(7) {
        0 => {
            bytes.remove(at);
        }
        1 => bytes.insert(at, bytes[at]),
        2 => {
            let other = rng.below(bytes.len());
            bytes.swap(at, other);
        }
        3 => {
            let next = (at + 1).min(bytes.len() - 1);
            bytes.swap(at, next);
        }
        4 => bytes[at] ^= 1 << rng.below(8),
        5 => bytes[at] = *rng.pick(LOADED_BYTES),
        _ => bytes.insert(at, *rng.pick(LOADED_BYTES)),
    }
}
