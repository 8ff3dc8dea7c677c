// SPDX-License-Identifier: BSD-2-Clause OR GPL-2.0-or-later
//! A blob whose property names are the ends of one long string.

use super::blob::join;

/// Properties of `/cpus`, each with a name of its own in a strings block of
/// `bytes` bytes that has no zero byte but the last.
pub fn overlapping_names(props: u32, bytes: usize) -> Vec<u8> {
    let mut cells = vec![[0, 0, 0, 1], [0; 4]];
    cells.extend([[0, 0, 0, 1], *b"cpus", [0; 4]]);
    for name in 0..props {
        cells.extend([[0, 0, 0, 3], [0; 4], name.to_be_bytes()]);
    }
    cells.extend([[0, 0, 0, 2], [0, 0, 0, 2], [0, 0, 0, 9]]);
    let mut strings = vec![b'x'; bytes];
    strings[bytes - 1] = 0;
    join(&cells.concat(), &strings)
}
