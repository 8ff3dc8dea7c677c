// SPDX-License-Identifier: BSD-2-Clause OR GPL-2.0-or-later
//! Makes a failing board smaller, as long as it still fails.

use super::Board;
use std::time::{Duration, Instant};

/// No further tries after this time.
const LIMIT: Duration = Duration::from_secs(20);

struct Shrinker<'a> {
    best: Board,
    fails: &'a dyn Fn(&Board) -> bool,
    start: Instant,
}

/// Tries removals until none of them keeps the failure.
pub fn shrink(board: &Board, fails: &dyn Fn(&Board) -> bool) -> Board {
    let mut shrinker = Shrinker {
        best: board.clone(),
        fails,
        start: Instant::now(),
    };
    loop {
        let before = shrinker.best.clone();
        shrinker.remove(|board| board.node_count() - 1, without_records);
        shrinker.remove(Board::prop_count, without_props);
        shrinker.cut_ends();
        shrinker.remove(|board| board.pool.len(), without_bytes);
        if shrinker.best == before || shrinker.late() {
            return shrinker.best;
        }
    }
}

impl Shrinker<'_> {
    fn late(&self) -> bool {
        self.start.elapsed() > LIMIT
    }

    fn accept(&mut self, next: Board) -> bool {
        let better = !self.late() && next != self.best && (self.fails)(&next);
        if better {
            self.best = next;
        }
        better
    }

    /// Removes runs of items, from the last, first long and then short ones.
    fn remove(
        &mut self,
        count: impl Fn(&Board) -> usize,
        without: impl Fn(&Board, usize, usize) -> Board,
    ) {
        if self.best.nodes.len() < 3 {
            return;
        }
        let mut step = count(&self.best);
        while step > 0 && !self.late() {
            let mut end = count(&self.best);
            while end >= step {
                let next = without(&self.best, end - step, end);
                self.accept(next);
                end -= step;
            }
            step /= 2;
        }
    }

    fn cut_ends(&mut self) {
        for cut in [pop_node_word, pop_prop_word] {
            loop {
                let mut next = self.best.clone();
                cut(&mut next);
                if !self.accept(next) {
                    break;
                }
            }
        }
    }
}

fn pop_node_word(board: &mut Board) {
    board.nodes.pop();
}

fn pop_prop_word(board: &mut Board) {
    board.props.pop();
}

fn without_props(board: &Board, from: usize, to: usize) -> Board {
    let mut next = board.clone();
    next.props.drain(5 * from..5 * to);
    next
}

/// Without records `from + 1` to `to`; record 0 always stays.
fn without_records(board: &Board, from: usize, to: usize) -> Board {
    let remove = |board: Board, record: usize| without_record(board, record + 1);
    (from..to).rev().fold(board.clone(), remove)
}

/// Removes a record with its properties; its children go to its parent.
fn without_record(mut board: Board, record: usize) -> Board {
    let gone = record as u32;
    let parent = board.nodes[3 * record];
    let lower = |word: &mut u32| {
        if *word > gone && *word != u32::MAX {
            *word -= 1;
        }
    };
    board.nodes.drain(3 * record..3 * record + 3);
    for node in board.nodes.chunks_mut(3) {
        if node[0] == gone {
            node[0] = parent;
        }
        lower(&mut node[0]);
    }
    let kept = board.props.chunks(5).filter(|prop| prop[0] != gone);
    board.props = kept.flatten().copied().collect();
    board
        .props
        .chunks_mut(5)
        .for_each(|prop| lower(&mut prop[0]));
    board
}

/// Removes bytes of the pool, moving later offsets down.
fn without_bytes(board: &Board, from: usize, to: usize) -> Board {
    let mut next = board.clone();
    next.pool.drain(from..to);
    let lower = |offset: &mut u32| {
        if *offset as usize >= to {
            *offset -= (to - from) as u32;
        }
    };
    for node in next.nodes.chunks_mut(3) {
        node.iter_mut().skip(1).take(1).for_each(lower);
    }
    for prop in next.props.chunks_mut(5) {
        prop.iter_mut().skip(1).step_by(2).take(2).for_each(lower);
    }
    next
}

#[cfg(test)]
mod tests {
    use super::*;
    use crate::build::worked::example_1;

    /// A failure that needs one record and one property keeps just these.
    #[test]
    fn only_what_fails_is_kept() {
        let board = Board::of(64, &example_1());
        let fails = |b: &Board| {
            let named = |n: &[u32]| n.len() == 3 && n[2] == 7 && n[0] != u32::MAX;
            b.nodes.chunks(3).any(named) && b.prop_count() > 0
        };
        let small = shrink(&board, &fails);
        assert!(fails(&small));
        assert_eq!((small.node_count(), small.prop_count()), (2, 1));
        assert!(small.pool.is_empty());
    }
}
