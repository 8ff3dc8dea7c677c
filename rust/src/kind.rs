// SPDX-License-Identifier: BSD-2-Clause OR GPL-2.0-or-later
//! The kinds of boards.

/// The kind of a board. No board is told from another by its devicetree: the caller says which one it is.
#[derive(Clone, Copy, Debug, Default, PartialEq, Eq, Hash)]
pub enum Kind {
    /// ARM v7 or later, 32 bits: MPIDRs of one cell.
    Arm32 = 32,
    /// ARM v8, 64 bits: MPIDRs of one cell or two.
    #[default]
    Arm64 = 64,
    /// RISC-V: hart ids of one cell, any value.
    Riscv = 5,
}

impl Kind {
    /// All kinds.
    pub const ALL: [Kind; 3] = [Kind::Arm32, Kind::Arm64, Kind::Riscv];

    /// The board number, which the C calls take as `width`.
    pub const fn number(self) -> u32 {
        self as u32
    }

    /// Whether `reg` is an MPIDR, so that there is a hash of all and a slot for each. A hart id has neither.
    pub const fn has_mpidrs(self) -> bool {
        !matches!(self, Kind::Riscv)
    }
}
