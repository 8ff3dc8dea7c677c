// SPDX-License-Identifier: BSD-2-Clause OR GPL-2.0-or-later
//! A blob with the words lent for its tables: text form and shrinking.

use super::flat::*;
use std::fmt::Write;
use std::time::{Duration, Instant};

/// No further tries after this time.
const LIMIT: Duration = Duration::from_secs(20);

#[derive(Clone, Debug, PartialEq, Eq)]
pub struct FlatCase {
    pub blob: Vec<u8>,
    /// Words of the node table.
    pub nodes: usize,
    /// Words of the property table.
    pub props: usize,
}

/// Lines `nodes`, `props` and `blob`, the bytes in hex.
pub fn write_text(case: &FlatCase) -> String {
    let mut text = format!("nodes {}\nprops {}\n", case.nodes, case.props);
    for bytes in case.blob.chunks(32) {
        text.push_str("blob ");
        for byte in bytes {
            write!(text, "{byte:02x}").expect("strings can be written to");
        }
        text.push('\n');
    }
    text
}

pub fn read_text(text: &str) -> Result<FlatCase, String> {
    let mut case = FlatCase {
        blob: Vec::new(),
        nodes: 0,
        props: 0,
    };
    for (at, line) in text.lines().enumerate() {
        read_line(&mut case, line).ok_or(format!("line {}: cannot read '{line}'", at + 1))?;
    }
    Ok(case)
}

fn read_line(case: &mut FlatCase, line: &str) -> Option<()> {
    let (word, rest) = line.split_once(' ').unwrap_or((line, ""));
    match word {
        "" | "#" => {}
        "nodes" => case.nodes = rest.parse().ok()?,
        "props" => case.props = rest.parse().ok()?,
        "blob" => {
            for pair in rest.as_bytes().chunks(2) {
                let pair = std::str::from_utf8(pair).ok()?;
                case.blob.push(u8::from_str_radix(pair, 16).ok()?);
            }
        }
        _ => return None,
    }
    Some(())
}

/// Makes a failing case smaller, as long as it still fails.
pub fn shrink(case: &FlatCase, fails: &dyn Fn(&FlatCase) -> bool) -> FlatCase {
    let start = Instant::now();
    let mut best = case.clone();
    loop {
        let before = best.clone();
        for without in [without_words, without_strings, without_tail, without_room] {
            shrink_by(&mut best, without, fails, start);
        }
        if best == before || start.elapsed() > LIMIT {
            return best;
        }
    }
}

/// A case without the parts from one number to another, if it has them.
type Without = fn(&FlatCase, usize, usize) -> Option<FlatCase>;

/// Takes out runs of parts, first long and then short ones.
fn shrink_by(
    best: &mut FlatCase,
    without: Without,
    fails: &dyn Fn(&FlatCase) -> bool,
    start: Instant,
) {
    let mut step = MOST_PARTS;
    while step > 0 {
        let mut from = 0;
        while start.elapsed() < LIMIT {
            match without(best, from, from + step) {
                None => break,
                Some(next) if fails(&next) => *best = next,
                Some(_) => from += step,
            }
        }
        step /= 2;
    }
}

/// More than the words of any blob.
const MOST_PARTS: usize = 1 << 15;

/// Removes bytes and moves the blocks behind them; `size_at` is the header's
/// word of the block that loses them.
fn without_bytes(case: &FlatCase, from: usize, to: usize, size_at: usize) -> Option<FlatCase> {
    let mut next = case.clone();
    let gone = (to - from) as u32;
    let size = word(&next.blob, size_at).checked_sub(gone)?;
    let total = word(&next.blob, TOTAL_AT).checked_sub(gone)?;
    next.blob.drain(from..to);
    for at in [STRUCTURE_AT, STRINGS_AT] {
        let offset = word(&next.blob, at);
        if offset as usize >= to {
            set_word(&mut next.blob, at, offset - gone);
        }
    }
    set_word(&mut next.blob, size_at, size);
    set_word(&mut next.blob, TOTAL_AT, total);
    Some(next)
}

/// The part of a block that is behind the header and in the blob.
fn part(case: &FlatCase, offset_at: usize, from: usize, to: usize) -> Option<(usize, usize)> {
    if case.blob.len() < HEADER_BYTES {
        return None;
    }
    let start = word(&case.blob, offset_at) as usize;
    let inside = start >= HEADER_BYTES && start.checked_add(to)? <= case.blob.len();
    inside.then_some((start + from, start + to))
}

fn without_words(case: &FlatCase, from: usize, to: usize) -> Option<FlatCase> {
    let (from, to) = part(case, STRUCTURE_AT, 4 * from, 4 * to)?;
    without_bytes(case, from, to, STRUCTURE_SIZE_AT)
}

fn without_strings(case: &FlatCase, from: usize, to: usize) -> Option<FlatCase> {
    let (from, to) = part(case, STRINGS_AT, from, to)?;
    without_bytes(case, from, to, STRINGS_SIZE_AT)
}

/// Without the last bytes, the total size as it was.
fn without_tail(case: &FlatCase, from: usize, to: usize) -> Option<FlatCase> {
    let length = case.blob.len().checked_sub(to)?;
    let mut next = case.clone();
    next.blob.drain(length..length + to - from);
    Some(next)
}

/// With less room for the tables.
fn without_room(case: &FlatCase, from: usize, to: usize) -> Option<FlatCase> {
    let mut next = case.clone();
    if to > case.nodes.max(case.props) {
        return None;
    }
    next.nodes = next.nodes.saturating_sub(to - from);
    next.props = next.props.saturating_sub(to - from);
    Some(next)
}

#[cfg(test)]
mod tests {
    use super::*;
    use crate::build::flat_form::{write, Form};
    use crate::build::flat_mix::any_case;
    use crate::build::flat_trees::sample;
    use crate::rng::Rng;

    #[test]
    fn what_is_written_reads_back() {
        let mut rng = Rng::new(8);
        for _ in 0..300 {
            let case = any_case(&mut rng);
            assert_eq!(read_text(&write_text(&case)), Ok(case));
        }
    }

    /// A failure that needs one token keeps little more than that.
    #[test]
    fn only_what_fails_is_kept() {
        let case = FlatCase {
            blob: write(&items(&sample()), &Form::default()),
            nodes: 90,
            props: 90,
        };
        let is_end = |w: &[u8]| w == END.to_be_bytes();
        let fails = |c: &FlatCase| c.blob.len() >= 40 && c.blob[40..].chunks(4).any(is_end);
        let small = shrink(&case, &fails);
        assert!(fails(&small) && small.blob.len() <= 60);
        assert_eq!((small.nodes, small.props), (0, 0));
    }
}
