// SPDX-License-Identifier: Apache-2.0 OR BSD-3-Clause
//! Pseudo-random numbers, the same in every run from the same seed.

#[derive(Clone)]
pub struct Draw(pub u64);

impl Draw {
    /// Returns a number less than `bound`, which is at most 2^31.
    pub fn below(&mut self, bound: u64) -> u64 {
        let multiplied = self.0.wrapping_mul(6_364_136_223_846_793_005);
        self.0 = multiplied.wrapping_add(1_442_695_040_888_963_407);
        (self.0 >> 33) % bound
    }
}
