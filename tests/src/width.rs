// SPDX-License-Identifier: BSD-2-Clause OR GPL-2.0-or-later
//! The board numbers that rule 1 allows; the calls take them as the width.

pub const ARM32: u32 = 32;
pub const ARM64: u32 = 64;
pub const RISCV: u32 = 5;

pub const WIDTHS: [u32; 3] = [ARM32, ARM64, RISCV];

/// Boards whose processors have an MPIDR, and so a slot.
pub const ARM_WIDTHS: [u32; 2] = [ARM32, ARM64];

/// Numbers of no board, close to one in their value or their bits.
pub const UNKNOWN_WIDTHS: [u32; 14] = [
    0,
    1,
    4,
    6,
    7,
    16,
    31,
    33,
    63,
    65,
    1 << 31 | RISCV,
    1 << 16 | RISCV,
    0x4000_0000,
    u32::MAX,
];

/// The most address cells of a board.
pub fn most_cells(width: u32) -> u32 {
    if width == ARM64 {
        2
    } else {
        1
    }
}
