// SPDX-License-Identifier: BSD-2-Clause OR GPL-2.0-or-later
//! Number 33. The specification says what a whole stream is. The first token at
//! fault is the last one of the shortest list of tokens, from the first on, that
//! no further tokens make whole.

use super::flat::Refusal;
use super::flat_tokens::{Placed, Token};
use super::flat_why::Why;

/// A token without its data.
#[derive(Clone, Copy, PartialEq, Eq)]
enum Kind {
    Begin,
    EndNode,
    Property,
    Nop,
    End,
    Bad,
}

fn kind((_, token): &Placed) -> Kind {
    match token {
        Token::Begin { .. } => Kind::Begin,
        Token::EndNode => Kind::EndNode,
        Token::Property { .. } => Kind::Property,
        Token::Nop => Kind::Nop,
        Token::End => Kind::End,
        Token::Bad(_) => Kind::Bad,
    }
}

fn count(kinds: &[Kind], kind: Kind) -> usize {
    kinds.iter().filter(|&&k| k == kind).count()
}

/// One node and the end token, NOPs apart. The node is open after each of its
/// tokens but the last, and no property follows the end of a child.
fn whole(stream: &[Kind]) -> bool {
    let before = match stream.split_last() {
        Some((Kind::End, before)) => before,
        _ => return false,
    };
    let node: Vec<Kind> = before.iter().copied().filter(|&k| k != Kind::Nop).collect();
    let depths: Vec<isize> = depths(&node).collect();
    let (last, inner) = match depths.split_last() {
        Some(parts) => parts,
        None => return false,
    };
    node[0] == Kind::Begin
        && *last == 0
        && inner.iter().all(|&depth| depth > 0)
        && count(&node, Kind::End) + count(&node, Kind::Bad) == 0
        && !node
            .windows(2)
            .any(|two| two == [Kind::EndNode, Kind::Property])
}

/// How many nodes are open after each token.
fn depths(kinds: &[Kind]) -> impl Iterator<Item = isize> + '_ {
    kinds.iter().scan(0, |depth, kind| {
        *depth += match kind {
            Kind::Begin => 1,
            Kind::EndNode => -1,
            _ => 0,
        };
        Some(*depth)
    })
}

/// Whether further tokens make a list whole: a root if there is none, the ends
/// of the open nodes and the end token will, or nothing does.
fn can_be_completed(start: &[Kind]) -> bool {
    let mut stream = start.to_vec();
    if count(start, Kind::End) == 0 {
        if count(start, Kind::Begin) == 0 {
            stream.push(Kind::Begin);
        }
        let begun = count(&stream, Kind::Begin);
        let open = begun.saturating_sub(count(&stream, Kind::EndNode));
        stream.extend(std::iter::repeat(Kind::EndNode).take(open));
        stream.push(Kind::End);
    }
    whole(&stream)
}

/// Why the list is no stream, and where. What cannot be completed cannot be
/// completed with more tokens either, so halving finds the shortest such list.
pub fn first_fault(list: &[Placed], block_end: usize) -> Option<Refusal> {
    let kinds: Vec<Kind> = list.iter().map(kind).collect();
    if whole(&kinds) {
        return None;
    }
    let lengths: Vec<usize> = (1..=kinds.len()).collect();
    let sound = lengths.partition_point(|&length| can_be_completed(&kinds[..length]));
    match list.get(sound) {
        Some((place, token)) => Some((reason(&kinds[..sound], token), *place)),
        None => Some((Why::RunOut, block_end)),
    }
}

/// Names the fault of a token behind tokens that can be completed.
fn reason(before: &[Kind], token: &Token) -> Why {
    let begun = count(before, Kind::Begin);
    let open = begun > count(before, Kind::EndNode);
    match token {
        _ if count(before, Kind::End) > 0 => Why::AfterEnd,
        Token::Bad(why) => *why,
        Token::Property { .. } if open => Why::PropertyAfterChild,
        Token::Property { .. } => Why::PropertyOutside,
        Token::EndNode => Why::EndNodeOutside,
        Token::End if begun == 0 => Why::EndBeforeRoot,
        Token::End => Why::EndInside,
        Token::Begin { .. } => Why::SecondRoot,
        Token::Nop => unreachable!("a NOP before the end token breaks nothing"),
    }
}

#[cfg(test)]
mod tests {
    use super::*;

    const ALL: [Kind; 5] = [
        Kind::Begin,
        Kind::EndNode,
        Kind::Property,
        Kind::Nop,
        Kind::End,
    ];

    /// Every list of tokens up to a length.
    fn lists(length: usize) -> Vec<Vec<Kind>> {
        let mut all = vec![Vec::new()];
        let mut longest = all.clone();
        for _ in 0..length {
            let longer = |list: &Vec<Kind>| ALL.map(|kind| [list.as_slice(), &[kind]].concat());
            longest = longest.iter().flat_map(longer).collect();
            all.extend(longest.iter().cloned());
        }
        all
    }

    /// A node of the specification's grammar: what is left behind it.
    fn node(list: &[Kind]) -> Option<&[Kind]> {
        let mut rest = list.strip_prefix(&[Kind::Begin])?;
        while let [Kind::Property | Kind::Nop, behind @ ..] = rest {
            rest = behind;
        }
        loop {
            rest = match rest {
                [Kind::Nop, behind @ ..] => behind,
                [Kind::Begin, ..] => node(rest)?,
                _ => return rest.strip_prefix(&[Kind::EndNode]),
            }
        }
    }

    fn skip_nops(mut list: &[Kind]) -> &[Kind] {
        while let [Kind::Nop, behind @ ..] = list {
            list = behind;
        }
        list
    }

    /// A whole stream is what the grammar derives.
    #[test]
    fn whole_streams_are_those_of_the_grammar() {
        let by_grammar = |list| node(skip_nops(list)).map(skip_nops) == Some(&[Kind::End]);
        let lists = lists(8);
        for list in &lists {
            assert_eq!(whole(list), by_grammar(list));
        }
        let sound = lists.iter().filter(|list| whole(list)).count();
        println!("{sound} of {} lists are whole", lists.len());
        assert!(sound > 300);
    }

    /// A list that is the start of a whole one can be completed. Up to three
    /// tokens need no more than four behind them.
    #[test]
    fn starts_of_whole_streams_can_be_completed() {
        let whole: Vec<_> = lists(7).into_iter().filter(|list| whole(list)).collect();
        for list in lists(3) {
            let started = whole.iter().any(|stream| stream.starts_with(&list));
            assert_eq!(can_be_completed(&list), started);
        }
    }
}
