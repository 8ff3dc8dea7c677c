// SPDX-License-Identifier: BSD-2-Clause OR GPL-2.0-or-later
//! The sample boards: accepted or refused, and with which words.

use crate::riscv;
use crate::run::{board, boards, run, text};
use std::fs;

/// Accepted boards with MPIDRs, with the number of processors and the hash line.
pub const ACCEPTED: [(&str, usize, &str); 11] = [
    (
        "example1",
        16,
        "hash: mask 0x100010101, shifts 0 7 14 29, bits 4",
    ),
    ("example2", 8, "hash: mask 0x103, shifts 0 6 13 29, bits 3"),
    (
        "whole-case",
        2,
        "hash: mask 0x100, shifts 0 8 15 31, bits 1",
    ),
    ("mixed-smt", 3, "hash: mask 0x3, shifts 0 6 14 30, bits 2"),
    (
        "two-sockets",
        4,
        "hash: mask 0x100000001, shifts 0 7 15 31, bits 2",
    ),
    (
        "four-clusters",
        2,
        "hash: mask 0x1, shifts 0 7 15 31, bits 1",
    ),
    ("sparse-hash", 2, "hash: mask 0x5, shifts 0 5 13 29, bits 3"),
    ("real-life", 4, "hash: mask 0x101, shifts 0 7 14 30, bits 2"),
    (
        "vendor-order",
        4,
        "hash: mask 0x101, shifts 0 7 14 30, bits 2",
    ),
    (
        "wide-hash",
        3,
        "hash: mask 0x1181, shifts 0 0 3 19, bits 13",
    ),
    (
        "three-levels",
        6,
        "hash: mask 0x10101, shifts 0 7 14 29, bits 3",
    ),
];

/// Boards that are refused as ARM boards of 64 bits, with number, check name and path.
pub const REFUSED: [(&str, u32, &str, &str); 26] = [
    (
        "example3",
        24,
        "cpu_map_phandle",
        "/cpus/cpu-map/socket0/cluster0/core2",
    ),
    (
        "example3-corrected",
        25,
        "cpu_map_cpu_repeated",
        "/cpus/cpu-map/socket0/cluster0/core2",
    ),
    ("example3-no-phandle", 17, "cpu_phandle", "/cpus/cpu@4"),
    ("refused-10-no-cpu", 10, "cpu_count", "/cpus"),
    (
        "refused-11-device-type",
        11,
        "cpu_device_type",
        "/cpus/cpu@1",
    ),
    ("refused-12-high-bits", 12, "cpu_reg", "/cpus/cpu@80000001"),
    ("refused-12-reg", 12, "cpu_reg", "/cpus/cpu@1000000"),
    (
        "refused-13-same-reg",
        13,
        "duplicate_cpu_reg",
        "/cpus/cpu@1",
    ),
    (
        "refused-13-same-hart",
        13,
        "duplicate_cpu_reg",
        "/cpus/cpu@2",
    ),
    ("refused-15-no-map", 15, "cpu_map_missing", "/cpus"),
    (
        "refused-16-second-map",
        16,
        "cpu_map_duplicate",
        "/cpus/cpu@1/cpu-map",
    ),
    ("refused-17-no-phandle", 17, "cpu_phandle", "/cpus/cpu@1"),
    (
        "refused-18-outside",
        18,
        "topology_outside_map",
        "/cpus/core0",
    ),
    (
        "refused-19-name",
        19,
        "cpu_map_name",
        "/cpus/cpu-map/cluster0/core01",
    ),
    (
        "refused-20-kinds-mixed",
        20,
        "cpu_map_kind",
        "/cpus/cpu-map/cluster0/core1",
    ),
    (
        "refused-20-cores-in-map",
        20,
        "cpu_map_kind",
        "/cpus/cpu-map/core0",
    ),
    (
        "refused-21-order",
        21,
        "cpu_map_order",
        "/cpus/cpu-map/cluster0/core6",
    ),
    (
        "refused-22-five-clusters",
        22,
        "cpu_map_depth",
        "/cpus/cpu-map/cluster0/cluster0/cluster0/cluster0/cluster0",
    ),
    (
        "refused-23-empty-cluster",
        23,
        "cpu_map_empty",
        "/cpus/cpu-map/cluster1",
    ),
    (
        "refused-24-cpu0",
        24,
        "cpu_map_phandle",
        "/cpus/cpu-map/cluster0/core1",
    ),
    (
        "refused-24-no-cpu",
        24,
        "cpu_map_phandle",
        "/cpus/cpu-map/cluster0/core1",
    ),
    (
        "refused-25-cpu-twice",
        25,
        "cpu_map_cpu_repeated",
        "/cpus/cpu-map/cluster0/core1",
    ),
    ("refused-26-unmapped", 26, "cpu_unmapped", "/cpus/cpu@2"),
    ("refused-34-no-cpus", 34, "blob_cpus", "/"),
    (
        "refused-36-address-cells",
        36,
        "cpus_address_cells",
        "/cpus",
    ),
    ("refused-37-size-cells", 37, "cpus_size_cells", "/cpus"),
];

/// The names of all sample boards.
pub fn names() -> Vec<String> {
    let mut found: Vec<String> = fs::read_dir(boards())
        .expect("the folder is there")
        .map(|entry| entry.expect("it can be read").path())
        .filter(|path| path.extension() == Some("dts".as_ref()))
        .map(|path| path.file_stem().unwrap().to_str().unwrap().to_string())
        .collect();
    found.sort();
    found
}

/// Some boards are refused as ARM boards and as RISC-V boards.
#[test]
fn every_board_is_listed_here() {
    let mut listed: Vec<String> = ACCEPTED.iter().map(|b| b.0.to_string()).collect();
    listed.extend(REFUSED.iter().map(|b| b.0.to_string()));
    listed.extend(riscv::ACCEPTED.iter().map(|b| b.0.to_string()));
    listed.extend(riscv::REFUSED.iter().map(|b| b.0.to_string()));
    listed.sort();
    listed.dedup();
    assert_eq!(listed, names());
}

#[test]
fn accepted_boards() {
    for (name, count, hash) in ACCEPTED {
        let width = if name == "example2" { "32" } else { "64" };
        let output = run(&["--width", width, &board(name)]);
        assert_eq!(output.status.code(), Some(0), "{name}");
        assert_eq!(text(&output.stderr), "");
        let lines: Vec<&str> = text(&output.stdout).lines().collect();
        assert_eq!(lines.len(), count + 2, "{name}");
        let header: Vec<&str> = lines[0].split_whitespace().collect();
        assert_eq!(
            header.join(" "),
            "LEAF CPU MPIDR SOCKET CLUSTER CORE THREAD SLOT"
        );
        assert!(lines[1..=count]
            .iter()
            .all(|line| line.split_whitespace().count() == 8));
        assert_eq!(lines[count + 1], hash, "{name}");
    }
}

#[test]
fn refused_boards() {
    for (name, number, check, path) in REFUSED {
        let file = board(name);
        let output = run(&["--board", "arm64", &file]);
        assert_eq!(output.status.code(), Some(1), "{name}");
        assert_eq!(text(&output.stdout), "");
        let start = format!("{file}: ERROR {number} ({check}): {path}: ");
        let message = text(&output.stderr);
        assert!(message.starts_with(&start), "{message}");
        assert_eq!(message.lines().count(), 1);
        let quiet = run(&["-q", &file]);
        assert_eq!(quiet.status.code(), Some(1), "{name}");
        assert!(quiet.stdout.is_empty() && quiet.stderr.is_empty());
    }
}

/// What stands there, at the end of the message.
const DETAILS: [(&str, &str); 19] = [
    ("example3", "no property cpu (it has cpu0)"),
    (
        "example3-corrected",
        "/cpus/cpu-map/socket0/cluster0/core1 names /cpus/cpu@2, phandle 0x2",
    ),
    ("example3-no-phandle", "no property phandle"),
    ("refused-10-no-cpu", "0 cpu nodes"),
    ("refused-11-device-type", "no property device_type"),
    (
        "refused-12-high-bits",
        "reg 0x80000001 has bits outside 0xff00ffffff",
    ),
    ("refused-12-reg", "reg 0x1000000 has bits outside 0xffffff"),
    ("refused-13-same-reg", "reg 0x0 is that of /cpus/cpu@0"),
    ("refused-13-same-hart", "reg 0x1 is that of /cpus/cpu@1"),
    ("refused-16-second-map", "the map is /cpus/cpu-map"),
    ("refused-17-no-phandle", "no property phandle"),
    ("refused-21-order", "core6, of 6 siblings"),
    ("refused-24-cpu0", "no property cpu (it has cpu0)"),
    (
        "refused-24-no-cpu",
        "no property cpu (it has no properties)",
    ),
    (
        "refused-25-cpu-twice",
        "/cpus/cpu-map/cluster0/core0 names /cpus/cpu@0, phandle 0x1",
    ),
    ("refused-26-unmapped", "its phandle is 0x40"),
    ("refused-34-no-cpus", "it has 0"),
    (
        "refused-36-address-cells",
        "#address-cells is 3; board arm64 allows 1 or 2",
    ),
    ("refused-37-size-cells", "no property #size-cells"),
];

#[test]
fn details_of_refused_boards() {
    for (name, details) in DETAILS {
        let output = run(&[&board(name)]);
        let message = text(&output.stderr);
        assert!(message.ends_with(&format!(" ({details})\n")), "{message}");
    }
    let file = board("refused-15-no-map");
    let expected = format!("{file}: ERROR 15 (cpu_map_missing): /cpus: no cpu-map; 2 cpu nodes\n");
    assert_eq!(text(&run(&[&file]).stderr), expected);
}
