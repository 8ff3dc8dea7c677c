// SPDX-License-Identifier: BSD-2-Clause OR GPL-2.0-or-later
//! Numbers that look like chance, the same ones in every run.

/// Begins with a seed, which is not 0.
pub struct Generator(pub u64);

impl Generator {
    pub fn below(&mut self, limit: u64) -> u64 {
        self.0 ^= self.0 << 13;
        self.0 ^= self.0 >> 7;
        self.0 ^= self.0 << 17;
        self.0 % limit
    }
}
