// SPDX-License-Identifier: BSD-2-Clause OR GPL-2.0-or-later
//! Looking a property up: what the call answers, and what W4 fixes of it.

use super::rules::breaks;
use super::tables::Tables;

const MISSING: u32 = u32::MAX;

/// Whether a record is a property of the node with that name. A name that is not
/// all in the pool is none.
fn is_match(t: &Tables, prop: usize, node: u32, name: &[u8]) -> bool {
    t.prop_node(prop) == node && t.prop_name(prop) == Some(name)
}

fn lowest_match(t: &Tables, node: u32, name: &[u8]) -> Option<usize> {
    (0..t.prop_count()).find(|&p| is_match(t, p, node, name))
}

/// The lowest property of `node` named `name` whose name is in the pool.
pub fn find_property(props: &[u32], pool: &[u8], node: u32, name: &[u8]) -> u32 {
    let tables = Tables::new(0, &[], props, pool, 0);
    lowest_match(&tables, node, name).map_or(MISSING, |p| p as u32)
}

/// What W4 fixes: the lowest match before the first record that breaks rule 7; or
/// that there is no match, if no record breaks it. None where the papers leave the
/// answer free.
pub fn fixed_lookup(t: &Tables, node: u32, name: &[u8]) -> Option<u32> {
    let count = t.prop_count();
    let sound = (0..count).find(|&p| breaks(t, 7, p)).unwrap_or(count);
    match (0..sound).find(|&p| is_match(t, p, node, name)) {
        Some(p) => Some(p as u32),
        None => (sound == count).then_some(MISSING),
    }
}

/// Which records break rule 7, seen from the lowest match.
#[derive(Clone, Copy, Debug, PartialEq, Eq)]
pub enum Standing {
    SoundWithMatch,
    BrokenOnlyAfter,
    /// The match itself, and none before it.
    BrokenAt,
    BrokenBefore,
    SoundWithout,
    BrokenWithout,
}

impl Standing {
    pub const ALL: [Standing; 6] = [
        Standing::SoundWithMatch,
        Standing::BrokenOnlyAfter,
        Standing::BrokenAt,
        Standing::BrokenBefore,
        Standing::SoundWithout,
        Standing::BrokenWithout,
    ];

    pub fn of(t: &Tables, node: u32, name: &[u8]) -> Standing {
        let any_broken = |from, to| (from..to).any(|p| breaks(t, 7, p));
        let count = t.prop_count();
        match lowest_match(t, node, name) {
            None if any_broken(0, count) => Standing::BrokenWithout,
            None => Standing::SoundWithout,
            Some(found) if any_broken(0, found) => Standing::BrokenBefore,
            Some(found) if breaks(t, 7, found) => Standing::BrokenAt,
            Some(found) if any_broken(found + 1, count) => Standing::BrokenOnlyAfter,
            Some(_) => Standing::SoundWithMatch,
        }
    }
}
