//! A small repeatable source of numbers (splitmix64).

pub struct Random(u64);

impl Random {
    /// Each seed gives its own list of numbers, the same on every run.
    pub fn new(seed: u64) -> Random {
        Random(seed)
    }

    pub fn number(&mut self) -> u64 {
        self.0 = self.0.wrapping_add(0x9E37_79B9_7F4A_7C15);
        let z = (self.0 ^ self.0 >> 30).wrapping_mul(0xBF58_476D_1CE4_E5B9);
        let z = (z ^ z >> 27).wrapping_mul(0x94D0_49BB_1331_11EB);
        z ^ z >> 31
    }

    pub fn byte(&mut self) -> u8 {
        (self.number() >> 56) as u8
    }

    /// 0 to limit - 1.
    pub fn below(&mut self, limit: u64) -> u64 {
        self.number() % limit
    }

    /// True once in so many times.
    pub fn once_in(&mut self, times: u64) -> bool {
        self.below(times) == 0
    }

    /// A number of any length, so that small ones occur too.
    pub fn any_length(&mut self) -> u64 {
        self.number() >> self.below(64)
    }

    pub fn pick<T: Copy>(&mut self, from: &[T]) -> T {
        from[self.below(from.len() as u64) as usize]
    }

    pub fn fill(&mut self, bytes: &mut [u8]) {
        bytes.fill_with(|| self.byte());
    }

    /// The whole cut into pieces of up to so many elements; some of them are empty.
    pub fn pieces<'a, T>(&mut self, whole: &'a [T], most: u64) -> Vec<&'a [T]> {
        let mut pieces = Vec::new();
        let mut rest = whole;
        while !rest.is_empty() {
            let length = self.below(most + 1) as usize;
            let (piece, after) = rest.split_at(length.min(rest.len()));
            pieces.push(piece);
            rest = after;
        }
        pieces
    }
}
