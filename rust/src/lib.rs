// SPDX-License-Identifier: BSD-2-Clause OR GPL-2.0-or-later
//! Reads the processor topology of an ARM or RISC-V board: a flattened devicetree, or its `/cpus` subtree as three plain tables.
//!
//! It either hands back one [`Row`] for each processor (its place in the map, its MPIDR and its save slot, or its hart id), or a
//! [`Refusal`] with the first [`Rule`] broken, its place and the property to mend, and leaves the row buffer as it was. It never
//! guesses: a missing map is told, an unknown processor is told, a gap is a gap.
//!
//! ```
//! use sunderwath::{read_blob, rows_of_bytes, Kind, MAX_CPUS, ROW_BYTES};
//! # mod support { include!(concat!(env!("CARGO_MANIFEST_DIR"), "/tests/support/blob.rs")); }
//! # let blob = support::two_cores([0x0, 0x100], [2, 1]);
//!
//! let mut buffer = [0; MAX_CPUS * ROW_BYTES];
//! let count = read_blob(Kind::Arm64, &blob, &mut buffer)?;
//! for row in rows_of_bytes(Kind::Arm64, &buffer).take(count) {
//!     println!("core {} has MPIDR {:#x} and save slot {:?}", row.core, row.reg, row.slot);
//! }
//! # let rows = rows_of_bytes(Kind::Arm64, &buffer).take(count);
//! # assert!(rows.map(|row| (row.core, row.reg, row.slot)).eq([(0, 0x100, Some(1)), (1, 0x0, Some(0))]));
//! # Ok::<(), sunderwath::Refusal>(())
//! ```
//!
//! A board that breaks a rule is refused:
//!
//! ```
//! use sunderwath::{read_blob, Kind, Rule, MAX_CPUS, ROW_BYTES};
//! # mod support { include!(concat!(env!("CARGO_MANIFEST_DIR"), "/tests/support/blob.rs")); }
//! # let blob = support::two_cores([0x0, 0x100], [2, 7]);
//!
//! let mut buffer = [0; MAX_CPUS * ROW_BYTES];
//! let refusal = read_blob(Kind::Arm64, &blob, &mut buffer).unwrap_err();
//! assert_eq!(refusal.rule, Rule::CpuMapPhandle);
//! assert_eq!(
//!     refusal.to_string(),
//!     "24 (cpu_map_phandle) at node 6, property 9: cpu must be the phandle of a cpu node"
//! );
//! ```
//!
//! # What is proved, and what is not
//!
//! The archive that this crate links, `libsunderwath.a`, is made from proved code: for all inputs, no call reads or writes out of
//! bounds, each one returns, and answers and rows are what the rules say. This crate is not proved: it lends slices to the calls
//! and gives names to the words that they write, and is tested. Neither are the compiler's back end and the stack: reading tables
//! needs about 17 KB of it at most, reading a blob about 50 KB, as `include/sunderwath.h` states.
//!
//! # Building
//!
//! `scripts/archive.sh` writes the archive where the build looks for it; `SUNDERWATH_LIB_DIR` names another folder by its full
//! path. A C compiler (`CC`, or else `cc`; for another processor `TARGET_CC`) compiles the texts of the rules. Firmware takes the
//! crate without its feature `std`; it needs no heap, and `memset` and `memcpy`, which `compiler_builtins` has.

#![no_std]
#![warn(missing_docs)]
#![deny(unsafe_op_in_unsafe_fn)]

#[cfg(any(feature = "std", test))]
extern crate std;

#[cfg(not(target_pointer_width = "64"))]
compile_error!("the library is for 64-bit processors; check a 32-bit board on the build machine");

mod answer;
mod boards;
pub mod calls;
#[cfg(test)]
mod header;
mod kind;
pub mod layout;
mod lists;
mod place;
mod plans;
mod raw;
mod refusal;
mod row;
mod rule;
mod tables;
mod texts;
mod told;

pub use answer::{Board, Hash, Records};
pub use boards::{read_blob, read_flat, read_tables, read_tables_slots};
pub use kind::Kind;
pub use layout::{
    ANSWER_WORDS, BLOB_MAX_NODES, BLOB_MAX_PROPERTIES, BYTES_ANSWER, FLAT_ANSWER_WORDS, GAP,
    MAX_BLOB, MAX_CPUS, MAX_NODES, MAX_PLAN, MAX_POOL, MAX_PROPERTIES, MAX_TABLE, MAX_TABLE_BITS,
    MPIDR_BYTES, NODE_WORDS, NONE, NO_PROPERTY, PROPERTY_WORDS, ROW_BYTES, ROW_WORDS,
};
pub use lists::{list_hash, list_slot, slot};
pub use place::Place;
pub use plans::{plan_check, plan_make, plan_slot, Plan};
pub use refusal::Refusal;
pub use row::{rows, rows_of_bytes, Row};
pub use rule::Rule;
pub use tables::Tables;
pub use texts::texts;

/// The version of the library, as the header has it.
pub const VERSION: &str = env!("SUNDERWATH_VERSION");

#[cfg(test)]
mod tests {
    use super::*;

    /// Cargo.toml cannot take the version out of the header.
    #[test]
    fn version_of_the_package() {
        assert_eq!(VERSION, env!("CARGO_PKG_VERSION"));
    }

    #[test]
    fn board_numbers_of_the_header() {
        let constants = header::constants();
        let there = ["ARM32", "ARM64", "RISCV"].map(|name| constants[name]);
        assert_eq!(Kind::ALL.map(|kind| u64::from(kind.number())), there);
        assert_eq!(Kind::default(), Kind::Arm64);
        assert_eq!(Kind::ALL.map(Kind::has_mpidrs), [true, true, false]);
    }
}
