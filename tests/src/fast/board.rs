// SPDX-License-Identifier: BSD-2-Clause OR GPL-2.0-or-later
//! The whole board in linear passes over the tables.

use super::hash::{layout, slot};
use super::tables::{check, slice};
use crate::answer::{Answer, NO_PROPERTY};
use crate::width::{ARM64, RISCV};

const GAP: u32 = u32::MAX;
const NONE: u32 = u32::MAX;
const CPU_LIMIT: usize = 256;
const ROW_WORDS: usize = 12;
const SLOT_WORD: usize = 11;
const AFFINITY: u64 = 0xFF_00FF_FFFF;

#[derive(Clone, Copy, PartialEq, Eq)]
enum Kind {
    Other,
    Map,
    Socket,
    Cluster,
    Core,
    Thread,
}

/// What one pass over a record finds out.
#[derive(Clone, Copy)]
struct Node {
    parent: u32,
    kind: Kind,
    number: u32,
    children: u32,
    first_kind: Kind,
    clusters: u32,
    in_map: bool,
    /// The property records that matter, or NO_PROPERTY.
    reg: u32,
    phandle: u32,
    device_type: u32,
    cpu: u32,
}

struct Cpu {
    record: u32,
    /// The MPIDR, or the hart id of a RISC-V board.
    mpidr: u64,
    phandle: u32,
    named: bool,
}

struct Reader<'a> {
    nodes: &'a [u32],
    props: &'a [u32],
    pool: &'a [u8],
    facts: Vec<Node>,
    cpus: Vec<Cpu>,
    address_cells: u32,
    size_cells: u32,
}

fn topology(name: &[u8]) -> (Kind, u32) {
    let (kind, digits) = match name {
        [b's', b'o', b'c', b'k', b'e', b't', rest @ ..] => (Kind::Socket, rest),
        [b'c', b'l', b'u', b's', b't', b'e', b'r', rest @ ..] => (Kind::Cluster, rest),
        [b'c', b'o', b'r', b'e', rest @ ..] => (Kind::Core, rest),
        [b't', b'h', b'r', b'e', b'a', b'd', rest @ ..] => (Kind::Thread, rest),
        _ => return (Kind::Other, 0),
    };
    let leading_zero = digits.len() > 1 && digits[0] == b'0';
    if digits.is_empty() || digits.len() > 4 || leading_zero {
        return (Kind::Other, 0);
    }
    let mut number = 0;
    for &digit in digits {
        if !digit.is_ascii_digit() {
            return (Kind::Other, 0);
        }
        number = 10 * number + u32::from(digit - b'0');
    }
    (kind, number)
}

fn cell(value: &[u8]) -> Option<u32> {
    Some(u32::from_be_bytes(value.try_into().ok()?))
}

impl<'a> Reader<'a> {
    fn name(&self, record: usize) -> &'a [u8] {
        slice(
            self.pool,
            self.nodes[3 * record + 1],
            self.nodes[3 * record + 2],
        )
    }

    /// The value of a property record, or None where there is none.
    fn value(&self, prop: u32) -> Option<&'a [u8]> {
        if prop == NO_PROPERTY {
            return None;
        }
        let words = &self.props[5 * prop as usize..];
        Some(slice(self.pool, words[3], words[4]))
    }

    fn new(nodes: &'a [u32], props: &'a [u32], pool: &'a [u8]) -> Self {
        let none = Node {
            parent: NONE,
            kind: Kind::Other,
            number: 0,
            children: 0,
            first_kind: Kind::Other,
            clusters: 0,
            in_map: false,
            reg: NO_PROPERTY,
            phandle: NO_PROPERTY,
            device_type: NO_PROPERTY,
            cpu: NO_PROPERTY,
        };
        let mut reader = Reader {
            nodes,
            props,
            pool,
            facts: vec![none; nodes.len() / 3],
            cpus: Vec::new(),
            address_cells: NO_PROPERTY,
            size_cells: NO_PROPERTY,
        };
        reader.sort_properties();
        reader
    }

    fn sort_properties(&mut self) {
        for (at, prop) in self.props.chunks_exact(5).enumerate() {
            let node = &mut self.facts[prop[0] as usize];
            let at = at as u32;
            match slice(self.pool, prop[1], prop[2]) {
                b"reg" => node.reg = at,
                b"phandle" => node.phandle = at,
                b"device_type" => node.device_type = at,
                b"cpu" => node.cpu = at,
                b"#address-cells" if prop[0] == 0 => self.address_cells = at,
                b"#size-cells" if prop[0] == 0 => self.size_cells = at,
                _ => {}
            }
        }
    }

    /// 9, 36 and 37; gives the number of address cells back.
    fn read_cpus_node(&self, width: u32) -> Result<usize, Answer> {
        if self.name(0) != b"cpus" {
            return Err(Answer::refusal(9, 0));
        }
        let cells = self.value(self.address_cells).and_then(cell).unwrap_or(0);
        let most = if width == ARM64 { 2 } else { 1 };
        if cells == 0 || cells > most {
            return Err(Answer::refusal(36, 0).of_property(self.address_cells));
        }
        if self.value(self.size_cells).and_then(cell) != Some(0) {
            return Err(Answer::refusal(37, 0).of_property(self.size_cells));
        }
        Ok(cells as usize)
    }

    /// 10.
    fn list_cpus(&mut self) -> Result<(), Answer> {
        for record in 1..self.facts.len() {
            if self.nodes[3 * record] == 0 {
                let name = self.name(record);
                if name == b"cpu" || name.starts_with(b"cpu@") {
                    self.cpus.push(Cpu {
                        record: record as u32,
                        mpidr: 0,
                        phandle: 0,
                        named: false,
                    });
                }
            }
        }
        if self.cpus.is_empty() || self.cpus.len() > CPU_LIMIT {
            return Err(Answer::refusal(10, 0));
        }
        Ok(())
    }

    /// The value of a `reg` of so many cells with no bit outside of these.
    fn reg(&self, prop: u32, cells: usize, bits: u64) -> Option<u64> {
        let value = self.value(prop).filter(|v| v.len() == 4 * cells)?;
        let mut wide = [0; 8];
        wide[8 - value.len()..].copy_from_slice(value);
        let mpidr = u64::from_be_bytes(wide);
        (mpidr & !bits == 0).then_some(mpidr)
    }

    /// 11 to 13.
    fn read_cpu_nodes(&mut self, cells: usize, bits: u64) -> Result<(), Answer> {
        for at in 0..self.cpus.len() {
            let record = self.cpus[at].record as usize;
            let fact = &self.facts[record];
            if self.value(fact.device_type) != Some(b"cpu\0") {
                return Err(Answer::refusal(11, record).of_property(fact.device_type));
            }
            let refusal = || Answer::refusal(12, record).of_property(fact.reg);
            let mpidr = self.reg(fact.reg, cells, bits).ok_or_else(refusal)?;
            if self.cpus[..at].iter().any(|cpu| cpu.mpidr == mpidr) {
                return Err(Answer::refusal(13, record));
            }
            self.cpus[at].mpidr = mpidr;
        }
        Ok(())
    }

    /// 15 and 16; marks the map.
    fn find_map(&mut self) -> Result<(), Answer> {
        let mut other = None;
        let mut map = None;
        for record in 1..self.facts.len() {
            if self.name(record) == b"cpu-map" {
                if map.is_none() && self.nodes[3 * record] == 0 {
                    map = Some(record);
                } else {
                    other = other.or(Some(record));
                }
            }
        }
        let map = map.ok_or_else(|| Answer::refusal(15, 0))?;
        self.facts[map].kind = Kind::Map;
        match other {
            Some(other) => Err(Answer::refusal(16, other)),
            None => Ok(()),
        }
    }

    /// 17.
    fn read_phandles(&mut self) -> Result<(), Answer> {
        for at in 0..self.cpus.len() {
            let record = self.cpus[at].record as usize;
            let prop = self.facts[record].phandle;
            let phandle = self.value(prop).and_then(cell).unwrap_or(0);
            let taken = self.cpus[..at].iter().any(|cpu| cpu.phandle == phandle);
            if phandle == 0 || phandle == u32::MAX || taken {
                return Err(Answer::refusal(17, record).of_property(prop));
            }
            self.cpus[at].phandle = phandle;
        }
        Ok(())
    }

    /// Kinds, numbers, children and cluster depth of all records.
    fn read_shape(&mut self) {
        for record in 1..self.facts.len() {
            let parent = self.nodes[3 * record] as usize;
            let above = self.facts[parent];
            let in_map = above.in_map || above.kind == Kind::Map;
            if self.facts[record].kind != Kind::Map {
                let (kind, number) = topology(self.name(record));
                self.facts[record].kind = kind;
                self.facts[record].number = number;
            }
            let kind = self.facts[record].kind;
            let fact = &mut self.facts[record];
            fact.parent = parent as u32;
            fact.in_map = in_map;
            fact.clusters = above.clusters + u32::from(above.in_map && above.kind == Kind::Cluster);
            if above.children == 0 {
                self.facts[parent].first_kind = kind;
            }
            self.facts[parent].children += 1;
        }
    }

    fn kind_allowed(&self, kind: Kind, above: &Node) -> bool {
        let listed = match above.kind {
            Kind::Map => matches!(kind, Kind::Socket | Kind::Cluster),
            Kind::Socket => kind == Kind::Cluster,
            Kind::Cluster => matches!(kind, Kind::Cluster | Kind::Core),
            Kind::Core => kind == Kind::Thread,
            Kind::Thread | Kind::Other => false,
        };
        listed && kind == above.first_kind
    }

    /// 18 to 25 of one record; `earlier` is the count of siblings before it if these
    /// stand in the order of their numbers from 0, and NONE otherwise.
    fn check_record(&mut self, record: usize, earlier: u32) -> u32 {
        let fact = self.facts[record];
        let group = matches!(fact.kind, Kind::Map | Kind::Socket | Kind::Cluster);
        if !fact.in_map {
            return match fact.kind {
                Kind::Other => 0,
                Kind::Map if fact.children == 0 => 23,
                Kind::Map => 0,
                _ => 18,
            };
        }
        let above = &self.facts[fact.parent as usize];
        if fact.kind == Kind::Other {
            19
        } else if !self.kind_allowed(fact.kind, above) {
            20
        } else if fact.number != earlier
            && (fact.number >= above.children || self.number_taken(record))
        {
            21
        } else if fact.kind == Kind::Cluster && fact.clusters > 3 {
            22
        } else if group && fact.children == 0 {
            23
        } else if fact.kind == Kind::Thread || fact.kind == Kind::Core && fact.children == 0 {
            self.check_leaf(fact.cpu)
        } else {
            0
        }
    }

    /// Whether an earlier sibling has the number. Rule 19 holds of them all, so each has one.
    fn number_taken(&self, record: usize) -> bool {
        let Node { parent, number, .. } = self.facts[record];
        let mut before = self.facts[parent as usize + 1..record].iter();
        before.any(|other| other.parent == parent && other.number == number)
    }

    /// 24 and 25.
    fn check_leaf(&mut self, prop: u32) -> u32 {
        let asked = self.value(prop).and_then(cell);
        let cpu = match asked.and_then(|p| self.cpu_at(p)) {
            Some(at) => &mut self.cpus[at],
            None => return 24,
        };
        let again = cpu.named;
        cpu.named = true;
        if again {
            25
        } else {
            0
        }
    }

    fn cpu_at(&self, phandle: u32) -> Option<usize> {
        self.cpus.iter().position(|cpu| cpu.phandle == phandle)
    }

    fn check_map(&mut self) -> Result<(), Answer> {
        let mut earlier = vec![0; self.facts.len()];
        for record in 1..self.facts.len() {
            let fact = self.facts[record];
            let earlier = &mut earlier[fact.parent as usize];
            match self.check_record(record, *earlier) {
                0 if fact.number == *earlier => *earlier += 1,
                0 => *earlier = NONE,
                24 => return Err(Answer::refusal(24, record).of_property(fact.cpu)),
                number => return Err(Answer::refusal(number, record)),
            }
        }
        match self.cpus.iter().find(|cpu| !cpu.named) {
            Some(cpu) => Err(Answer::refusal(26, cpu.record as usize)),
            None => Ok(()),
        }
    }

    /// The rows and the answer of an accepted board. Hart ids have no hash: the
    /// mask is empty, and no row has a slot.
    fn write(&self, width: u32, rows: &mut [u32]) -> Answer {
        let (first, count) = (self.cpus[0].mpidr, self.cpus.len());
        let mask = match width {
            RISCV => 0,
            _ => self.cpus.iter().fold(0, |m, cpu| m | cpu.mpidr ^ first),
        };
        let (shifts, bits) = layout(mask);
        self.write_rows(mask, &shifts, rows);
        if width == RISCV {
            let written = rows.chunks_exact_mut(ROW_WORDS).take(count);
            written.for_each(|row| row[SLOT_WORD] = GAP);
        }
        Answer {
            count: count as u32,
            mask,
            shifts,
            bits,
            ..Answer::default()
        }
    }

    fn write_rows(&self, mask: u64, shifts: &[u32; 4], rows: &mut [u32]) {
        let leaves = self.facts.iter().enumerate().filter(|(_, fact)| {
            fact.in_map
                && (fact.kind == Kind::Thread || fact.kind == Kind::Core && fact.children == 0)
        });
        for ((leaf, _), row) in leaves.zip(rows.chunks_exact_mut(ROW_WORDS)) {
            self.write_row(leaf, mask, shifts, row);
        }
    }

    fn write_row(&self, leaf: usize, mask: u64, shifts: &[u32; 4], row: &mut [u32]) {
        row[4..11].fill(GAP);
        let phandle = self.value(self.facts[leaf].cpu).and_then(cell);
        let cpu = &self.cpus[phandle.and_then(|p| self.cpu_at(p)).unwrap_or(0)];
        row[0] = leaf as u32;
        row[1] = cpu.record;
        row[2] = (cpu.mpidr >> 32) as u32;
        row[3] = cpu.mpidr as u32;
        row[11] = slot(cpu.mpidr, mask, shifts);
        let mut at = leaf;
        loop {
            let fact = &self.facts[at];
            match fact.kind {
                Kind::Thread => row[10] = fact.number,
                Kind::Core => row[9] = fact.number,
                Kind::Cluster => row[5 + fact.clusters as usize] = fact.number,
                Kind::Socket => row[4] = fact.number,
                Kind::Map | Kind::Other => return,
            }
            at = fact.parent as usize;
        }
    }
}

/// The answer of a board; rows are written on acceptance alone.
pub fn read_tables(
    width: u32,
    nodes: &[u32],
    props: &[u32],
    pool: &[u8],
    rows: &mut [u32],
) -> Answer {
    read(width, nodes, props, pool, rows).unwrap_or_else(|refusal| refusal)
}

fn read(
    width: u32,
    nodes: &[u32],
    props: &[u32],
    pool: &[u8],
    rows: &mut [u32],
) -> Result<Answer, Answer> {
    check(width, nodes, props, pool)?;
    let mut reader = Reader::new(nodes, props, pool);
    let cells = reader.read_cpus_node(width)?;
    reader.list_cpus()?;
    let bits = if width == RISCV { u64::MAX } else { AFFINITY };
    reader.read_cpu_nodes(cells, bits)?;
    reader.find_map()?;
    reader.read_phandles()?;
    reader.read_shape();
    reader.check_map()?;
    if rows.len() < ROW_WORDS * reader.cpus.len() {
        return Err(Answer::refusal(27, 0));
    }
    Ok(reader.write(width, rows))
}
