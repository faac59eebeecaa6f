//! splitmix64, and four streams for each case of a seed.
pub struct Rng(u64);

fn mix(mut z: u64) -> u64 {
    z = (z ^ (z >> 30)).wrapping_mul(0xBF58476D1CE4E5B9);
    z = (z ^ (z >> 27)).wrapping_mul(0x94D049BB133111EB);
    z ^ (z >> 31)
}

impl Rng {
    pub fn new(seed: u64) -> Rng {
        Rng(seed)
    }
    /// Case number `case` of a seed: the same whatever cases were run before it.
    pub fn of_case(seed: u64, case: u64) -> Rng {
        Rng(mix(mix(seed.wrapping_add(0x9E3779B97F4A7C15)) ^ case))
    }
    /// The same for its time orders, so that they and the joins don't depend on each other.
    pub fn of_orders(seed: u64, case: u64) -> Rng {
        Rng(mix(!Rng::of_case(seed, case).0))
    }
    /// And for its calls of withdraw and reinstate.
    pub fn of_turns(seed: u64, case: u64) -> Rng {
        Rng(mix(!Rng::of_orders(seed, case).0))
    }
    /// And for its calls for least and greatest values.
    pub fn of_pairs(seed: u64, case: u64) -> Rng {
        Rng(mix(!Rng::of_turns(seed, case).0))
    }
    pub fn next(&mut self) -> u64 {
        self.0 = self.0.wrapping_add(0x9E3779B97F4A7C15);
        mix(self.0)
    }
    pub fn below(&mut self, n: u64) -> u64 {
        self.next() % n
    }
    pub fn index(&mut self, n: usize) -> usize {
        self.below(n as u64) as usize
    }
    /// low to high, both counted
    pub fn between(&mut self, low: u64, high: u64) -> u64 {
        low + self.below(high - low + 1)
    }
    pub fn one_in(&mut self, n: u64) -> bool {
        self.below(n) == 0
    }
    pub fn pick<T: Copy>(&mut self, list: &[T]) -> T {
        list[self.index(list.len())]
    }
}
