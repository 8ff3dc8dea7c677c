// SPDX-License-Identifier: BSD-2-Clause OR GPL-2.0-or-later
//! Runs the program, and the parts of it that read blobs, on the sample boards and on blobs made token by token. Needs dtc, python3
//! and script.

mod blobs;
mod boards;
mod builder;
mod check;
mod closed;
mod damaged;
mod formats;
mod generator;
mod hostile;
mod large;
mod live;
mod messages;
mod names;
mod notes;
mod objects;
mod operands;
mod planner;
mod plans;
mod reports;
mod riscv;
mod run;
mod schema;
mod several;
mod slots;
mod sources;
mod streams;
mod trees;
mod usage;
