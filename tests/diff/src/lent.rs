//! Lent memory with canary bytes around it, filled with what no answer would leave by chance.

use clp_gen::Rng;

pub const EDGE: usize = 16;

/// A buffer of a given length between two canaries, lent to one library, and what it held before.
pub struct Lent<T> {
    all: Vec<T>,
    before: Vec<T>,
}

impl<T: Copy + PartialEq + std::fmt::Debug> Lent<T> {
    pub fn new(length: usize, fill: impl Fn(usize) -> T) -> Lent<T> {
        let all: Vec<T> = (0..length + 2 * EDGE).map(fill).collect();
        Lent {
            before: all.clone(),
            all,
        }
    }

    pub fn room(&mut self) -> &mut [T] {
        let end = self.all.len() - EDGE;
        &mut self.all[EDGE..end]
    }

    /// The room's first members, once it is known that nothing after them and nothing around the room has changed.
    pub fn wrote(&self, length: usize) -> &[T] {
        let end = EDGE + length;
        assert_eq!(self.all[..EDGE], self.before[..EDGE], "before the room");
        assert_eq!(self.all[end..], self.before[end..], "past the answer");
        &self.all[EDGE..end]
    }

    pub fn unchanged(&self) {
        self.wrote(0);
    }
}

impl Lent<u8> {
    /// A copy of some bytes, lent to be read.
    pub fn of(bytes: &[u8]) -> Lent<u8> {
        let inside = |at: usize| at.checked_sub(EDGE).and_then(|at| bytes.get(at));
        Lent::new(bytes.len(), |at| {
            inside(at).copied().unwrap_or(at as u8 ^ 0x5a)
        })
    }

    pub fn bytes(&self) -> &[u8] {
        &self.all[EDGE..self.all.len() - EDGE]
    }
}

/// A room of bytes with a random fill.
pub fn bytes(rng: &mut Rng, length: usize) -> Lent<u8> {
    let salt = rng.byte();
    Lent::new(length, |at| (at as u8).wrapping_mul(37) ^ salt)
}

/// A size near one that is needed, or any.
pub fn size_near(rng: &mut Rng, needed: usize, most: usize) -> usize {
    match rng.below(4) {
        0 => needed,
        1 => needed.saturating_sub(1),
        2 => needed + 1 + rng.below(8),
        _ => rng.below(most + 1),
    }
}
