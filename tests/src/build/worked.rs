// SPDX-License-Identifier: BSD-2-Clause OR GPL-2.0-or-later
//! The worked boards: the whole case of the scope paper and the three examples
//! of document 000.

use super::{cell, Node};

/// A cpus node with the given number of address cells.
pub fn cpus_node(cells: u32) -> Node {
    Node::new("cpus")
        .with("#address-cells", cell(cells))
        .with("#size-cells", cell(0))
}

/// A cpu node with all it needs.
pub fn cpu_node(cells: u32, mpidr: u64, phandle: u32) -> Node {
    let bytes = mpidr.to_be_bytes();
    Node::new(format!("cpu@{mpidr:x}"))
        .with("device_type", b"cpu\0")
        .with("reg", &bytes[8 - 4 * cells as usize..])
        .with("phandle", cell(phandle))
}

/// A leaf that names a cpu node.
pub fn leaf(name: &str, phandle: u32) -> Node {
    Node::new(name).with("cpu", cell(phandle))
}

/// Group nodes `name0`, `name1` and so on.
pub fn group(name: &str, number: usize, children: Vec<Node>) -> Node {
    Node {
        children,
        ..Node::new(format!("{name}{number}"))
    }
}

/// The whole case, width 64.
pub fn whole_case() -> Node {
    let cores = vec![leaf("core0", 2), leaf("core1", 1)];
    cpus_node(1)
        .child(Node::new("cpu-map").child(group("cluster", 0, cores)))
        .child(cpu_node(1, 0x0, 1))
        .child(cpu_node(1, 0x100, 2))
}

/// The MPIDR of cpu node `at` of example 1.
pub fn example_1_mpidr(at: u64) -> u64 {
    (at & 1) | (at >> 1 & 1) << 8 | (at >> 2 & 1) << 16 | (at >> 3) << 32
}

/// Example 1, width 64: 16 threads in clusters of clusters.
pub fn example_1() -> Node {
    let core = |number: usize, first: u32| {
        let threads = vec![leaf("thread0", first), leaf("thread1", first + 1)];
        group("core", number, threads)
    };
    let inner = |number: usize, first: u32| {
        group("cluster", number, vec![core(0, first), core(1, first + 2)])
    };
    let outer = |number: usize, first: u32| {
        group(
            "cluster",
            number,
            vec![inner(0, first), inner(1, first + 4)],
        )
    };
    let socket = group("socket", 0, vec![outer(0, 1), outer(1, 9)]);
    let mut cpus = cpus_node(2).child(Node::new("cpu-map").child(socket));
    for at in 0..16 {
        let cpu = cpu_node(2, example_1_mpidr(at), at as u32 + 1)
            .with("compatible", b"arm,cortex-a57\0")
            .with("enable-method", b"spin-table\0")
            .with("cpu-release-addr", [0, 0, 0, 0, 0x20, 0, 0, 0]);
        cpus.children.push(cpu);
    }
    cpus
}

/// Example 2, width 32: two clusters of four cores.
pub fn example_2() -> Node {
    let mut map = Node::new("cpu-map");
    let mut cpus = cpus_node(1);
    let mut nodes = Vec::new();
    for cluster in 0..2u32 {
        let mut cores = Vec::new();
        for core in 0..4u32 {
            let phandle = 4 * cluster + core + 1;
            cores.push(leaf(&format!("core{core}"), phandle));
            let model: &[u8] = if cluster == 0 {
                b"arm,cortex-a15\0"
            } else {
                b"arm,cortex-a7\0"
            };
            let cpu = cpu_node(1, u64::from(cluster << 8 | core), phandle);
            nodes.push(cpu.with("compatible", model));
        }
        map.children.push(group("cluster", cluster as usize, cores));
    }
    cpus.children.push(map);
    cpus.children.extend(nodes);
    cpus
}

/// Example 3 as printed, with a phandle on each cpu.
pub fn example_3() -> Node {
    let mut cores = vec![leaf("core0", 1), leaf("core1", 2)];
    cores.push(Node::new("core2").with("cpu0", cell(2)));
    cores.push(Node::new("core3").with("cpu0", cell(3)));
    let socket = group("socket", 0, vec![group("cluster", 0, cores)]);
    let mut cpus = cpus_node(1).child(Node::new("cpu-map").child(socket));
    for at in 1..=4 {
        let cpu = cpu_node(1, at, at as u32);
        let model = b"sifive,rocket0\0riscv\0";
        cpus.children.push(cpu.with("compatible", model));
    }
    cpus
}

/// Example 3 with `cpu0` corrected to `cpu`.
pub fn example_3_corrected() -> Node {
    let mut cpus = example_3();
    for core in ["core2", "core3"] {
        let at = cpus.find(&["cpu-map", "socket0", "cluster0", core]);
        for (name, _) in &mut cpus.at(at.expect("it is there")).props {
            *name = b"cpu".to_vec();
        }
    }
    cpus
}

/// Example 3 without the phandle of the last cpu.
pub fn example_3_without_phandle() -> Node {
    let mut cpus = example_3();
    let last = cpus.find(&["cpu@4"]).expect("it is there");
    cpus.at(last).remove("phandle");
    cpus
}

/// One cluster of childless cores with these MPIDRs, of two cells.
pub fn cores(mpidrs: &[u64]) -> Node {
    cores_of(2, mpidrs)
}

/// The same with these hart ids, of one cell.
pub fn harts(ids: &[u32]) -> Node {
    let ids: Vec<u64> = ids.iter().copied().map(u64::from).collect();
    cores_of(1, &ids)
}

/// Hart ids with gaps between them; three have bits that no MPIDR has.
pub const SPARSE_HARTS: [u32; 5] = [0, 5, 0x8000_0000, 0x0100_0000, 0xFF00_0000];

fn cores_of(cells: u32, regs: &[u64]) -> Node {
    let leaves = (0..regs.len())
        .map(|at| leaf(&format!("core{at}"), at as u32 + 1))
        .collect();
    let map = Node::new("cpu-map").child(group("cluster", 0, leaves));
    let mut root = cpus_node(cells).child(map);
    for (at, &reg) in regs.iter().enumerate() {
        root.children.push(cpu_node(cells, reg, at as u32 + 1));
    }
    root
}

/// A map of nested clusters with one core inside.
pub fn nested(depth: usize) -> Node {
    let mut inner = leaf("core0", 1);
    for _ in 0..depth {
        inner = group("cluster", 0, vec![inner]);
    }
    let map = Node::new("cpu-map").child(inner);
    cpus_node(1).child(map).child(cpu_node(1, 0, 1))
}

/// A cluster with `cluster0` and then `core1`.
pub fn cluster_beside_core() -> Node {
    let mut root = cores(&[0, 1]);
    root.at(2).children[0] = group("cluster", 0, vec![leaf("core0", 1)]);
    root
}

/// Two cpus that leaves name, and one that none names.
pub fn unmapped_cpu() -> Node {
    cores(&[0, 1]).child(cpu_node(2, 2, 3))
}

/// One lone socket, with a core of two threads beside a core of none.
pub fn lone_socket() -> Node {
    let threads = vec![leaf("thread0", 1), leaf("thread1", 2)];
    let cores = vec![group("core", 0, threads), leaf("core1", 3)];
    let socket = group("socket", 0, vec![group("cluster", 0, cores)]);
    let mut root = cpus_node(1).child(Node::new("cpu-map").child(socket));
    for at in 0..3 {
        root.children.push(cpu_node(1, at, at as u32 + 1));
    }
    root
}
