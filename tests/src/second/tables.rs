// SPDX-License-Identifier: BSD-2-Clause OR GPL-2.0-or-later
//! What the tables say of records, names, properties and ancestors.

use super::once::Once;

const NODE_WORDS: usize = 3;
const PROP_WORDS: usize = 5;

#[derive(Clone, Copy, Debug, PartialEq, Eq)]
pub enum Kind {
    Socket,
    Cluster,
    Core,
    Thread,
}

const KINDS: [(&[u8], Kind); 4] = [
    (b"socket", Kind::Socket),
    (b"cluster", Kind::Cluster),
    (b"core", Kind::Core),
    (b"thread", Kind::Thread),
];

/// A board as it is lent, with lists that are worked out when first asked for.
pub struct Tables<'a> {
    pub width: u32,
    pub nodes: &'a [u32],
    pub props: &'a [u32],
    pub pool: &'a [u8],
    /// Words of the row buffer.
    pub room: usize,
    cpus: Once<Vec<usize>>,
    map: Once<Option<usize>>,
    props_of: Once<Vec<Vec<usize>>>,
    children_of: Once<Vec<Vec<usize>>>,
    named: Once<Vec<Option<usize>>>,
}

impl<'a> Tables<'a> {
    pub fn new(
        width: u32,
        nodes: &'a [u32],
        props: &'a [u32],
        pool: &'a [u8],
        room: usize,
    ) -> Self {
        Tables {
            width,
            nodes,
            props,
            pool,
            room,
            cpus: Once::new(),
            map: Once::new(),
            props_of: Once::new(),
            children_of: Once::new(),
            named: Once::new(),
        }
    }

    pub fn node_count(&self) -> usize {
        self.nodes.len() / NODE_WORDS
    }

    pub fn prop_count(&self) -> usize {
        self.props.len() / PROP_WORDS
    }

    pub fn whole_nodes(&self) -> bool {
        self.nodes.len() % NODE_WORDS == 0
    }

    pub fn whole_props(&self) -> bool {
        self.props.len() % PROP_WORDS == 0
    }

    /// The pool's bytes from `offset`, if all of them are in the pool.
    fn range(&self, offset: u32, length: u32) -> Option<&'a [u8]> {
        let end = u64::from(offset) + u64::from(length);
        (end <= self.pool.len() as u64).then(|| &self.pool[offset as usize..end as usize])
    }

    pub fn parent_word(&self, record: usize) -> u32 {
        self.nodes[NODE_WORDS * record]
    }

    pub fn name_length(&self, record: usize) -> u32 {
        self.nodes[NODE_WORDS * record + 2]
    }

    pub fn name(&self, record: usize) -> Option<&'a [u8]> {
        self.range(
            self.nodes[NODE_WORDS * record + 1],
            self.name_length(record),
        )
    }

    pub fn prop_node(&self, prop: usize) -> u32 {
        self.props[PROP_WORDS * prop]
    }

    pub fn prop_name_length(&self, prop: usize) -> u32 {
        self.props[PROP_WORDS * prop + 2]
    }

    pub fn prop_name(&self, prop: usize) -> Option<&'a [u8]> {
        self.range(
            self.props[PROP_WORDS * prop + 1],
            self.prop_name_length(prop),
        )
    }

    pub fn prop_value(&self, prop: usize) -> Option<&'a [u8]> {
        let at = PROP_WORDS * prop;
        self.range(self.props[at + 3], self.props[at + 4])
    }

    /// Record 0 has no parent. A parent that is no lower record is none.
    pub fn parent(&self, record: usize) -> Option<usize> {
        let parent = self.parent_word(record) as usize;
        (record > 0 && parent < record).then_some(parent)
    }

    pub fn ancestors(&self, record: usize) -> impl Iterator<Item = usize> + '_ {
        std::iter::successors(self.parent(record), |&r| self.parent(r))
    }

    pub fn below(&self, record: usize, other: usize) -> bool {
        self.ancestors(record).any(|a| a == other)
    }

    pub fn children(&self, record: usize) -> &[usize] {
        &self.children_of.get_or_init(|| {
            let mut children = vec![Vec::new(); self.node_count()];
            for child in 1..self.node_count() {
                if let Some(parent) = self.parent(child) {
                    children[parent].push(child);
                }
            }
            children
        })[record]
    }

    /// The property record of a name; rule 8 sees to it that there is one at most.
    pub fn property(&self, record: usize, name: &[u8]) -> Option<usize> {
        let lists = self.props_of.get_or_init(|| {
            let mut lists = vec![Vec::new(); self.node_count()];
            for prop in 0..self.prop_count() {
                lists[self.prop_node(prop) as usize].push(prop);
            }
            lists
        });
        let named = |&&p: &&usize| self.prop_name(p) == Some(name);
        lists[record].iter().find(named).copied()
    }

    pub fn value(&self, record: usize, name: &[u8]) -> Option<&'a [u8]> {
        self.prop_value(self.property(record, name)?)
    }

    /// Children of record 0 named `cpu` or beginning `cpu@`.
    pub fn cpus(&self) -> &[usize] {
        self.cpus.get_or_init(|| {
            (1..self.node_count())
                .filter(|&r| self.parent(r) == Some(0))
                .filter(|&r| matches!(self.name(r), Some(b"cpu" | [b'c', b'p', b'u', b'@', ..])))
                .collect()
        })
    }

    /// The lowest child of record 0 named `cpu-map`.
    pub fn map(&self) -> Option<usize> {
        *self.map.get_or_init(|| {
            (1..self.node_count())
                .find(|&r| self.parent(r) == Some(0) && self.name(r) == Some(b"cpu-map"))
        })
    }

    pub fn in_map(&self, record: usize) -> bool {
        self.map().map_or(false, |map| self.below(record, map))
    }

    /// Kind and number of a record with a topology name.
    pub fn topology(&self, record: usize) -> Option<(Kind, u32)> {
        topology_name(self.name(record)?)
    }

    pub fn kind(&self, record: usize) -> Option<Kind> {
        self.topology(record).map(|(kind, _)| kind)
    }

    /// A thread or a childless core, below the map.
    pub fn is_leaf(&self, record: usize) -> bool {
        self.in_map(record)
            && match self.kind(record) {
                Some(Kind::Thread) => true,
                Some(Kind::Core) => self.children(record).is_empty(),
                _ => false,
            }
    }

    /// The cpu record that a leaf names.
    pub fn cpu_of(&self, leaf: usize) -> Option<usize> {
        let all = || (0..self.node_count()).map(|r| self.look_up(r)).collect();
        self.named.get_or_init(all)[leaf]
    }

    fn look_up(&self, leaf: usize) -> Option<usize> {
        let asked = self.value(leaf, b"cpu").filter(|v| v.len() == 4)?;
        let named = |&&cpu: &&usize| self.value(cpu, b"phandle") == Some(asked);
        self.cpus().iter().find(named).copied()
    }
}

/// Kind and number of a topology name.
pub fn topology_name(name: &[u8]) -> Option<(Kind, u32)> {
    KINDS.iter().find_map(|(word, kind)| {
        let digits = name.strip_prefix(*word)?;
        Some((*kind, number(digits)?))
    })
}

/// 1 to 4 decimal digits, no leading zero except `0` itself.
fn number(digits: &[u8]) -> Option<u32> {
    let sound = (1..=4).contains(&digits.len())
        && digits.iter().all(u8::is_ascii_digit)
        && (digits[0] != b'0' || digits.len() == 1);
    sound.then(|| {
        digits
            .iter()
            .fold(0, |sum, digit| 10 * sum + u32::from(digit - b'0'))
    })
}

/// The big-endian cells of a value of whole cells.
pub fn cells(value: &[u8]) -> Vec<u32> {
    value
        .chunks(4)
        .map(|cell| cell.iter().fold(0, |sum, &b| sum << 8 | u32::from(b)))
        .collect()
}
