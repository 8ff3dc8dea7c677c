// SPDX-License-Identifier: BSD-2-Clause OR GPL-2.0-or-later
//! The parts of the `sunderwath` command: arguments, files, long blobs cut down to
//! /cpus, messages, output. The library decides what is accepted.

mod arguments;
pub mod board;
pub mod compatible;
pub mod cut;
pub mod details;
pub mod escape;
pub mod fault;
pub mod flat;
pub mod header;
pub mod help;
pub mod input;
pub mod kind;
pub mod layout;
pub mod options;
pub mod output;
pub mod plan;
pub mod program;
pub mod report;
pub mod status;
pub mod stream;
pub mod streams;
pub mod tables;
pub mod terminal;
mod topology;
