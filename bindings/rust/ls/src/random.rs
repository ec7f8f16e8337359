//! Random numbers and texts for tests, always the same.

/// Numbers that follow from a first one.
pub struct Numbers(pub u64);

impl Numbers {
    /// Returns a number below a limit.
    pub fn below(&mut self, limit: usize) -> usize {
        self.0 = self
            .0
            .wrapping_mul(6_364_136_223_846_793_005)
            .wrapping_add(1_442_695_040_888_963_407);
        (self.0 >> 33) as usize % limit
    }

    /// Returns a text of at most so many pieces.
    pub fn text(&mut self, most: usize) -> String {
        let pieces = ["a", "\n", "\r", "\r\n", "ä", "😀", "xyz", " "];
        (0..self.below(most + 1))
            .map(|_| pieces[self.below(pieces.len())])
            .collect()
    }
}
