// SPDX-License-Identifier: BSD-2-Clause OR GPL-2.0-or-later
//! A text form of a board, so that a disagreement can be run again.

use super::Board;
use std::fmt::Write;

/// Lines `width`, `room`, `node`, `prop` and `pool`, words and bytes in hex.
/// A last line may hold fewer words than a record.
pub fn write(board: &Board) -> String {
    let mut text = format!("width {}\nroom {}\n", board.width, board.room);
    for (word, table, size) in [("node", &board.nodes, 3), ("prop", &board.props, 5)] {
        for record in table.chunks(size) {
            text.push_str(word);
            for value in record {
                write!(text, " {value:x}").expect("strings can be written to");
            }
            text.push('\n');
        }
    }
    for bytes in board.pool.chunks(32) {
        text.push_str("pool ");
        for byte in bytes {
            write!(text, "{byte:02x}").expect("strings can be written to");
        }
        text.push('\n');
    }
    text
}

pub fn read(text: &str) -> Result<Board, String> {
    let mut board = Board {
        width: 0,
        nodes: Vec::new(),
        props: Vec::new(),
        pool: Vec::new(),
        room: 0,
    };
    for (at, line) in text.lines().enumerate() {
        read_line(&mut board, line).ok_or(format!("line {}: cannot read '{line}'", at + 1))?;
    }
    Ok(board)
}

fn read_line(board: &mut Board, line: &str) -> Option<()> {
    let (word, rest) = line.split_once(' ').unwrap_or((line, ""));
    match word {
        "" | "#" => {}
        "width" => board.width = rest.parse().ok()?,
        "room" => board.room = rest.parse().ok()?,
        "node" => read_words(&mut board.nodes, rest)?,
        "prop" => read_words(&mut board.props, rest)?,
        "pool" => read_bytes(&mut board.pool, rest)?,
        _ => return None,
    }
    Some(())
}

fn read_words(words: &mut Vec<u32>, text: &str) -> Option<()> {
    for word in text.split_whitespace() {
        words.push(u32::from_str_radix(word, 16).ok()?);
    }
    Some(())
}

fn read_bytes(bytes: &mut Vec<u8>, text: &str) -> Option<()> {
    for pair in text.as_bytes().chunks(2) {
        let pair = std::str::from_utf8(pair).ok()?;
        bytes.push(u8::from_str_radix(pair, 16).ok()?);
    }
    Some(())
}

#[cfg(test)]
mod tests {
    use super::*;
    use crate::build::damage::garbage;
    use crate::rng::Rng;

    #[test]
    fn what_is_written_reads_back() {
        let mut rng = Rng::new(7);
        for _ in 0..1000 {
            let board = garbage(&mut rng);
            assert_eq!(read(&write(&board)), Ok(board));
        }
    }
}
