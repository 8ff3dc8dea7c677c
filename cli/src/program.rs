// SPDX-License-Identifier: BSD-2-Clause OR GPL-2.0-or-later
//! Reads the files one after the other, prints what is asked for, and gives the status.

use crate::board;
use crate::details::Told;
use crate::escape::for_terminal;
use crate::flat::{self, Reading};
use crate::layout::Layout;
use crate::options::{Drawing, Format, Options};
use crate::plan;
use crate::report::Report;
use crate::status::{ACCEPTED, REFUSED, UNREADABLE};
use crate::streams::{complain, Printer};
use crate::tables::Tables;
use crate::{compatible, input, output, terminal};
use std::ffi::OsStr;
use sunderwath::Refusal;

/// One file: its name's characters, and how it is read.
struct Job<'a> {
    options: &'a Options,
    file: String,
}

impl Job<'_> {
    /// One line on standard error that begins with the file's name.
    fn tell(&self, message: &str) {
        if !self.options.quiet {
            complain(&format!("{}: {message}", for_terminal(&self.file)));
        }
    }

    /// The text of an accepted board. Only `--slots` needs a table of slots, which not every board has.
    fn text(&self, tables: &Tables) -> Result<String, Refusal> {
        let kind = self.options.kind();
        let board = || match self.options.plan {
            true => board::read_planned(kind, tables),
            false => board::read(kind, tables),
        };
        Ok(match self.options.format {
            Format::Table => output::table(tables, &board()?),
            Format::Parsable => output::parsable(tables, &board()?),
            Format::Json => output::json(&self.file, tables, &board()?),
            Format::Tree(drawing) if has_lines(drawing) => output::drawn_tree(tables, &board()?),
            Format::Tree(_) => output::tree(tables, &board()?),
            Format::Slots => output::slots(tables, &board::read_slots(kind, tables)?),
        })
    }

    /// What is told of a board that is accepted where there is no plan to print.
    fn plan_note(&self) -> Option<&'static str> {
        let Options { plan, check, .. } = self.options;
        let nothing = *plan && !*check && !self.options.kind().has_mpidrs();
        nothing.then_some(plan::NOTHING)
    }

    /// The text of the board, or why it is refused; notes are told.
    fn read(&self, bytes: Vec<u8>) -> Result<String, Report> {
        let Reading { tables, note } =
            flat::read(bytes).map_err(|fault| Report::of_blob(&fault))?;
        // A check reads most blobs in this way; whether it was the right check is news.
        let note = note.filter(|_| !self.options.check);
        let other_kind = match self.options.board {
            Some(_) => None,
            None => compatible::note(&tables),
        };
        for note in [note, other_kind].into_iter().flatten() {
            self.tell(&format!("note: {}", for_terminal(&note)));
        }
        let text = self.text(&tables).map_err(|refusal| {
            Report::of_board(&Told {
                tables: &tables,
                kind: self.options.kind(),
                refusal,
            })
        })?;
        if let Some(note) = self.plan_note() {
            self.tell(&format!("note: {note}"));
        }
        Ok(text)
    }

    /// What is printed of a file, if anything, and its status.
    fn run(&self, operand: &OsStr) -> (Option<String>, u8) {
        let bytes = match input::read(operand) {
            Ok(bytes) => bytes,
            Err(message) => {
                complain(&for_terminal(&message));
                return (None, UNREADABLE);
            }
        };
        match self.read(bytes) {
            Ok(text) => ((!self.options.check).then_some(text), ACCEPTED),
            Err(report) => {
                self.tell(&report.to_string());
                let json = self.options.format == Format::Json;
                (json.then(|| report.json(&self.file)), REFUSED)
            }
        }
    }
}

fn has_lines(drawing: Drawing) -> bool {
    match drawing {
        Drawing::Ascii => false,
        Drawing::Utf8 => true,
        Drawing::Auto => terminal::shows_lines(),
    }
}

/// Goes on behind a file that is refused or cannot be read.
pub fn run(options: &Options) -> u8 {
    let mut printer = Printer::default();
    let mut layout = Layout::of(options);
    let mut status = ACCEPTED;
    printer.print(layout.start());
    for operand in &options.files {
        let file = input::name(operand);
        let job = Job { options, file };
        let (text, own) = job.run(operand);
        status = status.max(own);
        if let Some(text) = text {
            printer.print(&layout.add(&job.file, &text));
        }
    }
    printer.print(layout.end());
    printer.status(status)
}
