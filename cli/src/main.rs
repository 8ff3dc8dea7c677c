// SPDX-License-Identifier: BSD-2-Clause OR GPL-2.0-or-later
//! sunderwath: check and print the processor topology of a devicetree.

use std::process::ExitCode;
use sunderwath::VERSION;
use sunderwath_cli::escape::for_terminal;
use sunderwath_cli::help::{HINT, USAGE};
use sunderwath_cli::options::{self, Request};
use sunderwath_cli::program;
use sunderwath_cli::status::{ACCEPTED, UNREADABLE};
use sunderwath_cli::streams::{complain, Printer};

fn main() -> ExitCode {
    let status = match options::parse(std::env::args_os().skip(1)) {
        Ok(Request::Help) => print(USAGE),
        Ok(Request::Version) => print(&format!("Version: sunderwath {VERSION}\n")),
        Ok(Request::Run(options)) => program::run(&options),
        Err(error) => {
            complain(&format!("sunderwath: {}\n{HINT}", for_terminal(&error)));
            UNREADABLE
        }
    };
    ExitCode::from(status)
}

fn print(text: &str) -> u8 {
    let mut printer = Printer::default();
    printer.print(text);
    printer.status(ACCEPTED)
}
