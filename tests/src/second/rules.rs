// SPDX-License-Identifier: BSD-2-Clause OR GPL-2.0-or-later
//! Rules 1 to 27, 36 and 37: one predicate for each number, and the stages in
//! order.

use super::rows::ROW_WORDS;
use super::second_place::refusal;
use super::tables::{cells, Kind, Tables};
use crate::answer::Answer;
use crate::width::{ARM64, RISCV, WIDTHS};
use std::ops::RangeInclusive;

/// Which places a stage looks at.
#[derive(Clone, Copy)]
enum Places {
    Zero,
    Records,
    RecordsFromOne,
    Properties,
    Cpus,
}

/// The stages in the order of checking, with the numbers that each tells.
const STAGES: [(RangeInclusive<u32>, Places); 17] = [
    (1..=1, Places::Zero),
    (2..=2, Places::Zero),
    (3..=3, Places::Zero),
    (4..=4, Places::Zero),
    (5..=6, Places::Records),
    (7..=8, Places::Properties),
    (9..=9, Places::Zero),
    (36..=36, Places::Zero),
    (37..=37, Places::Zero),
    (10..=10, Places::Zero),
    (11..=13, Places::Cpus),
    (15..=15, Places::Zero),
    (16..=16, Places::Records),
    (17..=17, Places::Cpus),
    (18..=25, Places::RecordsFromOne),
    (26..=26, Places::Cpus),
    (27..=27, Places::Zero),
];

/// The stage that tells a number.
pub fn stage_of(number: u32) -> Option<usize> {
    STAGES
        .iter()
        .position(|(numbers, _)| numbers.contains(&number))
}

/// The first refusal told, looking at the stages up to that of number `last`.
pub fn told(tables: &Tables, last: u32) -> Option<Answer> {
    let last = stage_of(last).expect("a number that is told");
    STAGES[..=last].iter().find_map(|(numbers, places)| {
        places_of(tables, *places).find_map(|place| {
            let number = numbers.clone().find(|&n| breaks(tables, n, place))?;
            Some(refusal(tables, number, place))
        })
    })
}

/// The places of a stage, rising.
fn places_of<'t>(tables: &'t Tables, places: Places) -> Box<dyn Iterator<Item = usize> + 't> {
    match places {
        Places::Zero => Box::new(0..1),
        Places::Records => Box::new(0..tables.node_count()),
        Places::RecordsFromOne => Box::new(1..tables.node_count()),
        Places::Properties => Box::new(0..tables.prop_count()),
        Places::Cpus => Box::new(tables.cpus().iter().copied()),
    }
}

/// Whether `place` breaks rule `number`. Asked when no earlier stage is broken.
pub fn breaks(t: &Tables, number: u32, place: usize) -> bool {
    match number {
        1 => !WIDTHS.contains(&t.width),
        2 => !t.whole_nodes() || !(1..=1024).contains(&t.node_count()),
        3 => !t.whole_props() || t.prop_count() > 4096,
        4 => t.pool.len() > 65536,
        5 => !(1..=64).contains(&t.name_length(place)) || t.name(place).is_none(),
        6 => parent_out_of_order(t, place),
        7 => bad_property(t, place),
        8 => !bad_property(t, place) && repeats_earlier(t, place),
        9 => t.name(0) != Some(b"cpus"),
        10 => !(1..=256).contains(&t.cpus().len()),
        11 => t.value(place, b"device_type") != Some(b"cpu\0"),
        12 => bad_reg(t, place),
        13 => same_as_earlier_cpu(t, place, b"reg"),
        15 => t.map().is_none(),
        16 => t.map() != Some(place) && t.name(place) == Some(b"cpu-map"),
        17 => bad_phandle(t, place),
        18 => t.map() != Some(place) && !t.in_map(place) && t.kind(place).is_some(),
        19 => t.in_map(place) && t.kind(place).is_none(),
        20 => t.in_map(place) && !kind_allowed(t, place),
        21 => t.in_map(place) && (number_too_high(t, place) || number_taken(t, place)),
        22 => t.in_map(place) && nested_too_deep(t, place),
        23 => empty_group(t, place),
        24 => t.is_leaf(place) && t.cpu_of(place).is_none(),
        25 => t.is_leaf(place) && names_cpu_again(t, place),
        26 => !(1..t.node_count()).any(|r| t.is_leaf(r) && t.cpu_of(r) == Some(place)),
        27 => t.room < ROW_WORDS * t.cpus().len(),
        36 => !address_cells(t).map_or(false, |cells| cells == 1 || t.width == ARM64),
        37 => t.value(0, b"#size-cells") != Some(&[0, 0, 0, 0]),
        _ => false,
    }
}

fn parent_out_of_order(t: &Tables, record: usize) -> bool {
    let parent = t.parent_word(record);
    if record == 0 {
        return parent != u32::MAX;
    }
    let before = record - 1;
    parent as usize != before && !t.ancestors(before).any(|a| a == parent as usize)
}

fn bad_property(t: &Tables, prop: usize) -> bool {
    t.prop_node(prop) as usize >= t.node_count()
        || !(1..=31).contains(&t.prop_name_length(prop))
        || t.prop_name(prop).is_none()
        || t.prop_value(prop).is_none()
}

fn repeats_earlier(t: &Tables, prop: usize) -> bool {
    (0..prop).any(|earlier| {
        t.prop_node(earlier) == t.prop_node(prop) && t.prop_name(earlier) == t.prop_name(prop)
    })
}

/// The address cells, if the value is four bytes of 1 or 2.
fn address_cells(t: &Tables) -> Option<usize> {
    match t.value(0, b"#address-cells") {
        Some([0, 0, 0, 1]) => Some(1),
        Some([0, 0, 0, 2]) => Some(2),
        _ => None,
    }
}

/// Upper and lower cell of a cpu record's `reg`, if it has the right length.
pub fn reg(t: &Tables, cpu: usize) -> Option<(u32, u32)> {
    let value = t.value(cpu, b"reg")?;
    match (address_cells(t)?, value.len()) {
        (1, 4) => Some((0, cells(value)[0])),
        (2, 8) => Some((cells(value)[0], cells(value)[1])),
        _ => None,
    }
}

/// A hart id has any value, an MPIDR the affinity bits only.
fn bad_reg(t: &Tables, cpu: usize) -> bool {
    !reg(t, cpu).map_or(false, |(upper, lower)| {
        t.width == RISCV || affinity_bits(upper, lower)
    })
}

fn affinity_bits(upper: u32, lower: u32) -> bool {
    (8..32).all(|at| (upper >> at) & 1 == 0) && (24..32).all(|at| (lower >> at) & 1 == 0)
}

fn same_as_earlier_cpu(t: &Tables, cpu: usize, name: &[u8]) -> bool {
    t.cpus()
        .iter()
        .filter(|&&earlier| earlier < cpu)
        .any(|&earlier| t.value(earlier, name) == t.value(cpu, name))
}

fn bad_phandle(t: &Tables, cpu: usize) -> bool {
    let sound = t.value(cpu, b"phandle").map_or(false, |value| {
        value.len() == 4 && value.iter().any(|&b| b != 0) && value.iter().any(|&b| b != 0xFF)
    });
    !sound || same_as_earlier_cpu(t, cpu, b"phandle")
}

/// The kinds that may stand under a parent in the map.
fn kinds_under(t: &Tables, parent: usize) -> &'static [Kind] {
    if t.map() == Some(parent) {
        return &[Kind::Socket, Kind::Cluster];
    }
    match t.kind(parent) {
        Some(Kind::Socket) => &[Kind::Cluster],
        Some(Kind::Cluster) => &[Kind::Cluster, Kind::Core],
        Some(Kind::Core) => &[Kind::Thread],
        Some(Kind::Thread) | None => &[],
    }
}

/// Allowed under its parent, and of the kind of the parent's first child.
fn kind_allowed(t: &Tables, record: usize) -> bool {
    let (kind, parent) = match (t.kind(record), t.parent(record)) {
        (Some(kind), Some(parent)) => (kind, parent),
        _ => return false,
    };
    let first = t.children(parent)[0];
    kinds_under(t, parent).contains(&kind) && t.kind(first) == Some(kind)
}

fn number(t: &Tables, record: usize) -> Option<u32> {
    t.topology(record).map(|(_, number)| number)
}

/// The records with the same parent, earlier and later ones and the record itself.
fn siblings<'t>(t: &'t Tables, record: usize) -> &'t [usize] {
    t.parent(record).map_or(&[], |parent| t.children(parent))
}

/// The number is not below the count of siblings.
fn number_too_high(t: &Tables, record: usize) -> bool {
    number(t, record).map_or(false, |number| number as usize >= siblings(t, record).len())
}

/// The number equals that of an earlier sibling, of whatever kind.
fn number_taken(t: &Tables, record: usize) -> bool {
    let mut earlier = siblings(t, record).iter().filter(|&&other| other < record);
    number(t, record).map_or(false, |own| {
        earlier.any(|&other| number(t, other) == Some(own))
    })
}

fn nested_too_deep(t: &Tables, record: usize) -> bool {
    let is_cluster = |r: usize| t.kind(r) == Some(Kind::Cluster);
    is_cluster(record) && t.ancestors(record).filter(|&a| is_cluster(a)).count() > 3
}

fn empty_group(t: &Tables, record: usize) -> bool {
    let group = t.map() == Some(record)
        || t.in_map(record) && matches!(t.kind(record), Some(Kind::Socket | Kind::Cluster));
    group && t.children(record).is_empty()
}

fn names_cpu_again(t: &Tables, leaf: usize) -> bool {
    let cpu = t.cpu_of(leaf);
    cpu.is_some() && (1..leaf).any(|earlier| t.is_leaf(earlier) && t.cpu_of(earlier) == cpu)
}
