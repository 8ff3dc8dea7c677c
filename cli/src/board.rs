// SPDX-License-Identifier: BSD-2-Clause OR GPL-2.0-or-later
//! Reads the tables of a board: its rows, with or without a plan, or the row of each slot.

use crate::plan::Planned;
use crate::tables::Tables;
use sunderwath::{Hash, Kind, Refusal, Row, GAP, MAX_CPUS, MAX_TABLE, ROW_WORDS};

/// The words of rows for every board.
const MOST_WORDS: usize = ROW_WORDS * MAX_CPUS;

/// A board that the library accepts.
#[derive(Clone, Debug, PartialEq, Eq)]
pub struct Board {
    pub kind: Kind,
    pub hash: Hash,
    pub rows: Vec<Row>,
    /// The plan, where one was asked for.
    pub planned: Option<Planned>,
}

impl Board {
    fn of(board: &sunderwath::Board, words: &[u32]) -> Self {
        Board {
            kind: board.kind,
            hash: board.hash,
            rows: board.rows(words).collect(),
            planned: None,
        }
    }

    /// With a plan for its MPIDRs. The library refuses none to a board that it accepts.
    fn planned(mut self) -> Result<Self, Refusal> {
        self.planned = Some(match self.kind.has_mpidrs() {
            true => Planned::of_mpidrs(&self.rows)?,
            false => Planned::of_harts(&self.rows),
        });
        Ok(self)
    }
}

/// Reads the tables of a board of the given kind.
pub fn read(kind: Kind, tables: &Tables) -> Result<Board, Refusal> {
    let mut words = vec![0; MOST_WORDS];
    let board = sunderwath::read_tables(kind, tables.lent(), &mut words)?;
    Ok(Board::of(&board, &words))
}

/// The same, with a plan.
pub fn read_planned(kind: Kind, tables: &Tables) -> Result<Board, Refusal> {
    read(kind, tables)?.planned()
}

/// The same, slot after slot: the row of the processor that has it.
pub fn read_slots(kind: Kind, tables: &Tables) -> Result<Vec<Option<Row>>, Refusal> {
    let mut words = vec![0; MOST_WORDS];
    let mut table = vec![0; MAX_TABLE];
    let board = sunderwath::read_tables_slots(kind, tables.lent(), &mut words, &mut table)?;
    let board = Board::of(&board, &words);
    let row = |&entry: &u32| (entry != GAP).then(|| board.rows[entry as usize]);
    Ok(table[..1 << board.hash.bits].iter().map(row).collect())
}
