// SPDX-License-Identifier: BSD-2-Clause OR GPL-2.0-or-later
//! Reads the boards that QEMU makes for its `virt` machines, ARM and RISC-V, where QEMU is installed.

use std::collections::HashSet;
use std::path::{Path, PathBuf};
use std::process::{Command, Stdio};

/// The options of a machine of two NUMA nodes, which RISC-V makes a cluster each.
const TWO_NODES: &str = "-m 256 \
    -object memory-backend-ram,id=m0,size=128M -object memory-backend-ram,id=m1,size=128M \
    -numa node,memdev=m0 -numa node,memdev=m1";

/// The blob of a machine with these options, or nothing where QEMU is not installed or makes none.
fn dump(architecture: &str, machine: &str, options: &str, file: &Path) -> Option<()> {
    let status = Command::new(format!("qemu-system-{architecture}"))
        .args(["-M", &format!("{machine},dumpdtb={}", file.display())])
        .args(["-nodefaults", "-display", "none"])
        .args(options.split_whitespace())
        .stdout(Stdio::null())
        .stderr(Stdio::null())
        .status()
        .ok()?;
    status.success().then_some(())
}

fn file(name: &str) -> PathBuf {
    PathBuf::from(env!("CARGO_TARGET_TMPDIR")).join(format!("qemu-{name}.dtb"))
}

/// What the program prints of a board, which it accepts, and whether it asks for an option.
fn printed(options: &[&str], file: &Path) -> (String, bool) {
    let output = Command::new(env!("CARGO_BIN_EXE_sunderwath"))
        .args(options)
        .arg(file)
        .output()
        .expect("the program starts");
    let [text, told] =
        [output.stdout, output.stderr].map(|bytes| String::from_utf8(bytes).expect("it is text"));
    assert!(output.status.success(), "{told}");
    (text, told.contains("give --board"))
}

/// The last column of each line under the header: the slots.
fn slots(output: &str) -> Vec<&str> {
    let lines = output.lines().skip(1);
    lines
        .filter(|line| !line.starts_with("hash:"))
        .filter_map(|line| line.split_whitespace().last())
        .collect()
}

#[test]
fn boards_of_qemu() {
    let shapes = [
        (1, "1"),
        (4, "4"),
        (8, "cpus=8,sockets=2,clusters=2,cores=2"),
        (12, "cpus=12,sockets=3,clusters=1,cores=4"),
        (16, "cpus=16,sockets=2,clusters=2,cores=2,threads=2"),
    ];
    for (index, (cpus, shape)) in shapes.into_iter().enumerate() {
        let path = file(&format!("arm-{index}"));
        let options = format!("-cpu cortex-a57 -smp {shape}");
        if dump("aarch64", "virt,gic-version=3", &options, &path).is_none() {
            println!("no board of {shape} from QEMU: not read");
            continue;
        }
        let (text, asked) = printed(&[], &path);
        assert!(!asked, "{shape}");
        let slots = slots(&text);
        assert_eq!(slots.len(), cpus, "{shape}:\n{text}");
        let apart: HashSet<_> = slots.iter().collect();
        assert_eq!(apart.len(), cpus, "{shape}:\n{text}");
        println!("{shape}: {cpus} processors, slots apart");
    }
}

/// The leaf and the columns behind the cpu node's name for clusters of so many harts, which are numbered through.
fn rows(clusters: &[usize]) -> Vec<String> {
    let cores = |(cluster, &cores)| (0..cores).map(move |core| (cluster, core));
    let leaves = clusters.iter().enumerate().flat_map(cores);
    let row =
        |(hart, (cluster, core))| format!("cluster{cluster}/core{core},{hart},,{cluster},{core},,");
    leaves.enumerate().map(row).collect()
}

/// The same columns of each line that `--parse` prints.
fn found(output: &str) -> Vec<String> {
    let lines = output.lines().filter(|line| !line.starts_with('#'));
    let without_cpu = |line: &str| {
        let columns: Vec<&str> = line.split(',').collect();
        [&columns[..1], &columns[2..]].concat().join(",")
    };
    lines.map(without_cpu).collect()
}

#[test]
fn riscv_boards_of_qemu() {
    let shapes: [(&[usize], &str, &str); 6] = [
        (&[1], "-smp 1", ""),
        (&[4], "-smp 4", ""),
        (&[8], "-smp cpus=8,sockets=2,cores=4", ""),
        (&[2, 2], "-smp cpus=4,sockets=2,cores=2", TWO_NODES),
        (&[8, 8], "-smp cpus=16,sockets=2,cores=8", TWO_NODES),
        (&[32], "-smp 32", ""),
    ];
    for (index, (clusters, shape, nodes)) in shapes.into_iter().enumerate() {
        let path = file(&format!("riscv-{index}"));
        let options = format!("{shape} {nodes}");
        if dump("riscv64", "virt", &options, &path).is_none() {
            println!("no RISC-V board of {shape} from QEMU: not read");
            continue;
        }
        let (text, asked) = printed(&["-p", "--board", "riscv"], &path);
        assert!(!asked && printed(&[], &path).1, "{shape}");
        assert_eq!(found(&text), rows(clusters), "{shape}");
        println!("RISC-V, {shape}: {clusters:?} harts");
    }
}
