// SPDX-License-Identifier: BSD-2-Clause OR GPL-2.0-or-later
//! Standard output and standard error, whether somebody reads them or not.

use crate::status::UNREADABLE;
use std::io::{self, Write};

/// A line on standard error. Where nobody reads it, the status has to do.
pub fn complain(line: &str) {
    let _ = io::stderr().write_all(format!("{line}\n").as_bytes());
}

/// Why something failed, as other programs say it: without the error's number.
pub fn reason(error: &io::Error) -> String {
    let text = error.to_string();
    match text.split_once(" (os error ") {
        Some((words, _)) => words.to_string(),
        None => text,
    }
}

/// Standard output, as far as it can be written.
#[derive(Debug, Default)]
pub struct Printer {
    /// Nothing more is written.
    closed: bool,
    /// Something could not be written. A reader that has gone away is no error.
    failed: bool,
}

impl Printer {
    /// The status, given that of what was printed.
    pub fn status(&self, status: u8) -> u8 {
        if self.failed {
            UNREADABLE
        } else {
            status
        }
    }

    pub fn print(&mut self, text: &str) {
        if self.closed {
            return;
        }
        let mut output = io::stdout().lock();
        let written = output.write_all(text.as_bytes());
        if let Err(error) = written.and_then(|()| output.flush()) {
            self.closed = true;
            if error.kind() != io::ErrorKind::BrokenPipe {
                self.failed = true;
                complain(&format!("sunderwath: cannot write: {}", reason(&error)));
            }
        }
    }
}
