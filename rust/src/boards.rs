// SPDX-License-Identifier: BSD-2-Clause OR GPL-2.0-or-later
//! Reading a board: from tables, or from a flattened devicetree.

use crate::layout::{ANSWER_WORDS, BYTES_ANSWER, FLAT_ANSWER_WORDS, FLAT_NODES, FLAT_PROPERTIES};
use crate::told::{told, told_bytes, told_place};
use crate::{calls, Board, Kind, Records, Refusal, Tables};

/// Fills the tables of the `/cpus` subtree of a flattened devicetree: each node and each property once, in the order of the blob.
///
/// The blob is the pool of these records: lend it to [`read_tables`] with [`NODE_WORDS`](crate::NODE_WORDS) and
/// [`PROPERTY_WORDS`](crate::PROPERTY_WORDS) times the counts as the words of the tables. Lend the blob alone: bytes behind the
/// header's total size are not looked at, but the limit counts them.
///
/// # Errors
///
/// Rules 31 to 35; no word of the tables has changed then.
pub fn read_flat(blob: &[u8], nodes: &mut [u32], props: &mut [u32]) -> Result<Records, Refusal> {
    let mut answer = [0; FLAT_ANSWER_WORDS];
    let number = calls::read_flat(blob, nodes, props, &mut answer);
    told_place(number, &answer)?;
    Ok(Records {
        nodes: answer[FLAT_NODES] as usize,
        properties: answer[FLAT_PROPERTIES] as usize,
    })
}

/// Reads a board and writes one row for each processor, [`ROW_WORDS`](crate::ROW_WORDS) words each, in the order of the map's
/// leaves. [`Board::rows`] gives them by name. Words behind the last row stay as they are.
///
/// # Errors
///
/// Rules 2 to 27, 36 and 37; no word of the rows has changed then.
pub fn read_tables(kind: Kind, tables: Tables<'_>, rows: &mut [u32]) -> Result<Board, Refusal> {
    let mut answer = [0; ANSWER_WORDS];
    let number = calls::read_tables(kind.number(), tables, rows, &mut answer);
    told(number, &answer)?;
    Ok(Board::of_words(kind, &answer))
}

/// The same, and fills a table from slot to row beside the rows: entry s is the number of the row whose slot is s, or
/// [`GAP`](crate::GAP) where no processor has it. `1 << hash.bits` entries are filled, on a RISC-V board one, a gap. A table of
/// [`MAX_TABLE`](crate::MAX_TABLE) entries is never too short.
///
/// # Errors
///
/// Rules 2 to 27 and 36 to 39; no word of the rows and no entry of the table has changed then.
pub fn read_tables_slots(
    kind: Kind,
    tables: Tables<'_>,
    rows: &mut [u32],
    table: &mut [u32],
) -> Result<Board, Refusal> {
    let mut answer = [0; ANSWER_WORDS];
    let number = calls::read_tables_slots(kind.number(), tables, rows, table, &mut answer);
    told(number, &answer)?;
    Ok(Board::of_words(kind, &answer))
}

/// Reads a board from a flattened devicetree, and writes one row for each processor, [`ROW_BYTES`](crate::ROW_BYTES) bytes each.
/// Gives back how many; [`rows_of_bytes`](crate::rows_of_bytes) gives them by name. A buffer for [`MAX_CPUS`](crate::MAX_CPUS)
/// rows is never too short.
///
/// Its tables are on the stack, with room for [`BLOB_MAX_PROPERTIES`](crate::BLOB_MAX_PROPERTIES) properties of `/cpus`: a board
/// with more is refused by rule 35, and read by [`read_flat`] and [`read_tables`].
///
/// # Errors
///
/// Rules 31 to 35, and those of [`read_tables`]; no byte of the rows has changed then.
pub fn read_blob(kind: Kind, blob: &[u8], rows: &mut [u8]) -> Result<usize, Refusal> {
    let mut answer = [0; BYTES_ANSWER];
    let number = calls::read_blob(kind.number(), blob, rows, &mut answer);
    told_bytes(number, &answer).map(|count| count as usize)
}
