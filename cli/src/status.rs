// SPDX-License-Identifier: BSD-2-Clause OR GPL-2.0-or-later
//! The exit status. The highest one of all files counts.

pub const ACCEPTED: u8 = 0;
pub const REFUSED: u8 = 1;
/// Wrong usage, too, and output that cannot be written.
pub const UNREADABLE: u8 = 2;
