//! A small seeded source of numbers (splitmix64), so that every run can be repeated.

#[derive(Clone, Debug)]
pub struct Rng {
    state: u64,
}

impl Rng {
    pub fn new(seed: u64) -> Rng {
        Rng { state: seed }
    }

    pub fn next(&mut self) -> u64 {
        self.state = self.state.wrapping_add(0x9e37_79b9_7f4a_7c15);
        let mut mixed = self.state;
        mixed = (mixed ^ (mixed >> 30)).wrapping_mul(0xbf58_476d_1ce4_e5b9);
        mixed = (mixed ^ (mixed >> 27)).wrapping_mul(0x94d0_49bb_1331_11eb);
        mixed ^ (mixed >> 31)
    }

    /// A number below `bound`, 0 where the bound is 0.
    pub fn below(&mut self, bound: usize) -> usize {
        ((u128::from(self.next()) * bound as u128) >> 64) as usize
    }

    /// A number from `low` to `high`, both included.
    pub fn between(&mut self, low: usize, high: usize) -> usize {
        low + self.below(high - low + 1)
    }

    /// True in `of_hundred` of a hundred cases.
    pub fn percent(&mut self, of_hundred: usize) -> bool {
        self.below(100) < of_hundred
    }

    pub fn byte(&mut self) -> u8 {
        self.next() as u8
    }

    /// One member of a list that is not empty.
    pub fn pick<'m, T>(&mut self, members: &'m [T]) -> &'m T {
        &members[self.below(members.len())]
    }

    /// The bytes of one text of a list that is not empty.
    pub fn pick_text(&mut self, texts: &[&'static str]) -> &'static [u8] {
        self.pick(texts).as_bytes()
    }

    /// Small numbers mostly, now and then one up to `most`.
    pub fn mostly_small(&mut self, most: usize) -> usize {
        let bound = if self.percent(90) { most.min(4) } else { most };
        self.between(0, bound)
    }
}
