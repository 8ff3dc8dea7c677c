// SPDX-License-Identifier: BSD-2-Clause OR GPL-2.0-or-later
//! What the cpu nodes are compatible with, where that says another kind of board than the one that was read. It decides nothing.

use crate::kind::Wording;
use crate::tables::Tables;
use sunderwath::Kind;

/// The string that every hart has, as the RISC-V cpus binding asks for.
const HART: &[u8] = b"riscv";

/// The cores of ARM v7 with an MPIDR that the ARM cpus binding names.
const V7: [&[u8]; 16] = [
    b"arm,cortex-a5",
    b"arm,cortex-a7",
    b"arm,cortex-a8",
    b"arm,cortex-a9",
    b"arm,cortex-a12",
    b"arm,cortex-a15",
    b"arm,cortex-a17",
    b"arm,cortex-r4",
    b"arm,cortex-r5",
    b"arm,cortex-r7",
    b"brcm,brahma-b15",
    b"marvell,pj4a",
    b"marvell,pj4b",
    b"marvell,sheeva-v7",
    b"qcom,krait",
    b"qcom,scorpion",
];

/// The kind of board that has such a core, where the string leaves no doubt and it is not the default.
fn kind(string: &[u8]) -> Option<Kind> {
    if string == HART {
        Some(Kind::Riscv)
    } else if V7.contains(&string) {
        Some(Kind::Arm32)
    } else {
        None
    }
}

/// The first string of a list, each with its zero byte, that tells the kind.
fn telling(value: &[u8]) -> Option<(&[u8], Kind)> {
    let strings = value.split_inclusive(|&byte| byte == 0);
    strings
        .filter_map(|string| string.strip_suffix(&[0]))
        .find_map(|string| Some((string, kind(string)?)))
}

/// For a board that was read as the default kind: the first cpu node that tells another one, and the option to give.
pub fn note(tables: &Tables) -> Option<String> {
    tables.cpus().find_map(|cpu| {
        let (string, kind) = telling(tables.find_value(cpu, "compatible")?)?;
        Some(format!(
            "{} is compatible with \"{}\": read as {}; give --board {}",
            tables.path(cpu),
            String::from_utf8_lossy(string),
            Kind::default().name(),
            kind.name()
        ))
    })
}

#[cfg(test)]
mod tests {
    use super::*;

    #[test]
    fn one_string_of_the_list() {
        let kind = |value| telling(value).map(|(_, kind)| kind);
        assert_eq!(kind(b"riscv\0"), Some(Kind::Riscv));
        assert_eq!(kind(b"sifive,u54\0riscv\0"), Some(Kind::Riscv));
        assert_eq!(kind(b"arm,cortex-a7\0"), Some(Kind::Arm32));
        assert_eq!(kind(b"qcom,krait\0x\0"), Some(Kind::Arm32));
        for other in [
            &b""[..],
            b"\0",
            b"riscv",
            b"x\0riscv",
            b"riscv64\0",
            b"xriscv\0",
            b"riscv,cpu-intc\0",
            b"RISCV\0",
            b"arm,cortex-a53\0",
            b"arm,cortex-a57\0arm,armv8\0",
            b"arm,cortex-a72\0",
            b"arm,cortex-a7x\0",
            b"arm,cortex-a\0",
        ] {
            assert_eq!(kind(other), None, "{}", String::from_utf8_lossy(other));
        }
    }

    /// The first string that tells something, whatever stands behind it.
    #[test]
    fn first_string() {
        let both = telling(b"x\0arm,cortex-a9\0riscv\0");
        assert_eq!(both, Some((&b"arm,cortex-a9"[..], Kind::Arm32)));
    }

    const NODES: [(u32, &str); 6] = [
        (0, "cpus"),
        (0, "l2-cache"),
        (0, "cpu@0"),
        (2, "cpu@9"),
        (0, "cpu@1"),
        (0, "cpu@2"),
    ];

    /// The note for nodes that are compatible with these strings.
    fn told(nodes: &[(u32, &[u8])]) -> Option<String> {
        let bare = Tables::of_nodes(&NODES);
        let with =
            |tables: Tables, (node, value): &(u32, &[u8])| tables.with(*node, "compatible", value);
        note(&nodes.iter().fold(bare, with))
    }

    #[test]
    fn first_cpu_node() {
        let expected =
            "/cpus/cpu@1 is compatible with \"riscv\": read as arm64; give --board riscv";
        let arm: (u32, &[u8]) = (2, b"arm,cortex-a53\0");
        let two = told(&[arm, (4, b"x\0riscv\0"), (5, b"arm,cortex-a7\0")]);
        assert_eq!(two.unwrap(), expected);
        let expected =
            "/cpus/cpu@2 is compatible with \"arm,cortex-a7\": read as arm64; give --board arm32";
        assert_eq!(told(&[(5, b"arm,cortex-a7\0")]).unwrap(), expected);
        assert_eq!(told(&[arm]), None);
        assert_eq!(told(&[]), None);
    }

    /// The cpus node, a cache and a node below a cpu node may say what they like.
    #[test]
    fn other_nodes() {
        let riscv = &b"riscv\0"[..];
        assert_eq!(told(&[(0, riscv), (1, riscv), (3, riscv)]), None);
        let other = Tables::of_nodes(&NODES).with(2, "compatible-x", riscv);
        assert_eq!(note(&other), None);
    }
}
