// SPDX-License-Identifier: BSD-2-Clause OR GPL-2.0-or-later
//! An independent second reader of board tables and what is needed to compare
//! it with the library: calls, generators, and fast versions for benchmarks.

pub mod answer;
pub mod build;
pub mod cases;
pub mod compare;
pub mod compare_blob;
pub mod compare_flat;
pub mod compare_list;
pub mod compare_plan;
pub mod compare_slots;
pub mod counts;
pub mod dtc;
pub mod fast;
#[cfg(feature = "fdt")]
pub mod fdt;
pub mod ffi;
pub mod lent;
pub mod plan_answer;
pub mod plan_claims;
pub mod rng;
pub mod second;
pub mod timing;
pub mod width;
