// SPDX-License-Identifier: BSD-2-Clause OR GPL-2.0-or-later
//! The slot of each MPIDR of a list, and the refusal of one that is not in it.
//!
//!     cargo run --manifest-path rust/Cargo.toml --target-dir target/rust --example list_slots

fn main() {
    let list = [0x0, 0x1, 0x100, 0x101];
    for mpidr in [0x0, 0x1, 0x100, 0x101, 0x10000] {
        match sunderwath::list_slot(mpidr, &list) {
            Ok(slot) => println!("mpidr {mpidr:#x}: slot {slot}"),
            Err(refusal) => println!("mpidr {mpidr:#x}: refused, number {}", refusal.number()),
        }
    }
}
