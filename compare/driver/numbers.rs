//! Numbers that look random and are the same for the same seed (splitmix64).

pub struct Numbers(u64);

impl Numbers {
    pub fn new(seed: u64) -> Self {
        Self(seed)
    }

    pub fn next(&mut self) -> u64 {
        self.0 = self.0.wrapping_add(0x9E37_79B9_7F4A_7C15);
        let mut z = self.0;
        z = (z ^ (z >> 30)).wrapping_mul(0xBF58_476D_1CE4_E5B9);
        z = (z ^ (z >> 27)).wrapping_mul(0x94D0_49BB_1331_11EB);
        z ^ (z >> 31)
    }

    /// Below `end`, which is not 0.
    pub fn below(&mut self, end: usize) -> usize {
        (self.next() % end as u64) as usize
    }

    /// From `low` to `high`, both included.
    pub fn from_to(&mut self, low: usize, high: usize) -> usize {
        low + self.below(high - low + 1)
    }

    /// True once in `times`.
    pub fn once_in(&mut self, times: usize) -> bool {
        self.below(times) == 0
    }

    pub fn one_of<T: Copy>(&mut self, values: &[T]) -> T {
        values[self.below(values.len())]
    }

    /// From 1 to `high`, small ones as often as large ones.
    pub fn spread(&mut self, high: usize) -> usize {
        let bits = usize::BITS - high.leading_zeros();
        let top = (1usize << self.from_to(1, bits as usize)) - 1;
        self.from_to(1, top.min(high))
    }

    pub fn bytes(&mut self, count: usize) -> Vec<u8> {
        match self.below(4) {
            // counts of people: small, the upper bytes 0
            0 => (0..count).map(|i| if i % 2 == 0 { self.below(60) as u8 } else { 0 }).collect(),
            1 => vec![self.one_of(&[0x00, 0x01, 0x7f, 0x80, 0xff]); count],
            _ => (0..count).map(|_| self.next() as u8).collect(),
        }
    }
}
