// SPDX-License-Identifier: BSD-2-Clause OR GPL-2.0-or-later
//! RISC-V boards: hart ids in place of MPIDRs, no hash and no slots, in every format, and what refuses such a board.

use crate::builder::Builder;
use crate::run::{board, run, run_on_input, text};
use sunderwath::texts as check_and_sentence;

/// Accepted boards, with the rows that `--parse` prints.
pub const ACCEPTED: [(&str, &str); 4] = [
    (
        "hifive-unleashed",
        "\
cluster0/core0,cpu@0,0,,0,0,,
cluster0/core1,cpu@1,1,,0,1,,
cluster0/core2,cpu@2,2,,0,2,,
cluster0/core3,cpu@3,3,,0,3,,
cluster0/core4,cpu@4,4,,0,4,,
",
    ),
    (
        "qemu-riscv-numa",
        "\
cluster0/core0,cpu@0,0,,0,0,,
cluster0/core1,cpu@1,1,,0,1,,
cluster1/core0,cpu@2,2,,1,0,,
cluster1/core1,cpu@3,3,,1,1,,
",
    ),
    (
        "qemu-riscv-virt",
        "\
cluster0/core0,cpu@0,0,,0,0,,
cluster0/core1,cpu@1,1,,0,1,,
cluster0/core2,cpu@2,2,,0,2,,
cluster0/core3,cpu@3,3,,0,3,,
",
    ),
    (
        "sparse-harts",
        "\
cluster0/core0,cpu@1000,4096,,0,0,,
cluster0/core1,cpu@40,64,,0,1,,
cluster0/core2,cpu@1,1,,0,2,,
",
    ),
];

/// Refused boards, with number, path and what stands there.
pub const REFUSED: [(&str, u32, &str, &str); 5] = [
    (
        "example3",
        24,
        "/cpus/cpu-map/socket0/cluster0/core2",
        "no property cpu (it has cpu0)",
    ),
    (
        "example3-corrected",
        25,
        "/cpus/cpu-map/socket0/cluster0/core2",
        "/cpus/cpu-map/socket0/cluster0/core1 names /cpus/cpu@2, phandle 0x2",
    ),
    (
        "example3-no-phandle",
        17,
        "/cpus/cpu@4",
        "no property phandle",
    ),
    (
        "refused-13-same-hart",
        13,
        "/cpus/cpu@2",
        "hart id 1 is that of /cpus/cpu@1",
    ),
    (
        "riscv-two-cells",
        36,
        "/cpus",
        "#address-cells is 2; board riscv allows 1",
    ),
];

const PARSABLE: &str = "# leaf,cpu,hart,socket,cluster,core,thread,slot\n";

/// What is printed on standard output for a board that is accepted, without a word on standard error.
fn printed(options: &[&str], name: &str) -> String {
    let output = run(&[options, &[&board(name)]].concat());
    assert_eq!(text(&output.stderr), "", "{name}");
    assert_eq!(output.status.code(), Some(0), "{name}");
    text(&output.stdout).to_string()
}

#[test]
fn accepted_boards() {
    for (name, rows) in ACCEPTED {
        let expected = format!("{PARSABLE}{rows}");
        assert_eq!(printed(&["-p", "--board", "riscv"], name), expected);
        assert_eq!(printed(&["-p", "--width", "5"], name), expected);
        assert_eq!(printed(&["-s", "-b", "riscv"], name), "0 -\n");
    }
}

/// The line of a refusal.
fn line(file: &str, number: u32, node: &str, details: &str) -> String {
    let (check, sentence) = check_and_sentence(number);
    format!("{file}: ERROR {number} ({check}): {node}: {sentence} ({details})\n")
}

#[test]
fn refused_boards() {
    for (name, number, node, details) in REFUSED {
        let file = board(name);
        for format in ["-p", "-t", "-s"] {
            let output = run(&["--board", "riscv", format, &file]);
            assert_eq!(text(&output.stderr), line(&file, number, node, details));
            assert_eq!(text(&output.stdout), "");
            assert_eq!(output.status.code(), Some(1), "{name}");
        }
    }
}

const TABLE: &str = "\
LEAF           CPU      HART SOCKET CLUSTER CORE THREAD SLOT
cluster0/core0 cpu@1000 4096 -      0       0    -      -
cluster0/core1 cpu@40   64   -      0       1    -      -
cluster0/core2 cpu@1    1    -      0       2    -      -
";

#[test]
fn table() {
    assert_eq!(printed(&["-b", "riscv"], "sparse-harts"), TABLE);
}

#[test]
fn manual_shows_the_table() {
    let manual = include_str!("../../../docs/sunderwath.1");
    let example = format!("$ sunderwath \\-\\-board riscv board.dtb\n{TABLE}");
    assert!(manual.contains(&example), "{example}");
}

const TREE: &str = "\
cpu-map
  cluster0
    core0: cpu@0, hart 0, slot -
    core1: cpu@1, hart 1, slot -
  cluster1
    core0: cpu@2, hart 2, slot -
    core1: cpu@3, hart 3, slot -
";

#[test]
fn tree() {
    assert_eq!(printed(&["-t", "-b", "riscv"], "qemu-riscv-numa"), TREE);
}

/// A row of the object.
fn member(core: u32, cpu: &str, hart: u32) -> String {
    format!(
        "    {{\"leaf\": \"/cpus/cpu-map/cluster0/core{core}\", \"cpu\": \"/cpus/{cpu}\", \"hart\": {hart}, \
         \"socket\": null, \"clusters\": [0], \"core\": {core}, \"thread\": null, \"slot\": null}}"
    )
}

#[test]
fn object() {
    let rows = [(0, "cpu@1000", 4096), (1, "cpu@40", 64), (2, "cpu@1", 1)];
    let rows = rows.map(|(core, cpu, hart)| member(core, cpu, hart));
    let file = board("sparse-harts");
    let members = format!("  \"schema\": 2,\n  \"file\": \"{file}\",\n  \"width\": 5,");
    let members = members + "\n  \"board\": \"riscv\",\n  \"count\": 3,";
    let rows = rows.join(",\n");
    let expected = format!("{{\n{members}\n  \"rows\": [\n{rows}\n  ]\n}}\n");
    assert_eq!(printed(&["-j", "-b", "riscv"], "sparse-harts"), expected);
}

/// A board of one cluster whose cpu nodes have these values in `reg`.
fn with_regs(regs: &[&[u32]]) -> Vec<u8> {
    let cpu = |board: Builder, (at, reg): (u32, &&[u32])| {
        let board = board.open_cpu(&format!("cpu@{at}")).cells("reg", reg);
        board.cell("phandle", at + 1).close()
    };
    let board = (0..)
        .zip(regs)
        .fold(Builder::rooted().open_cpus(1), cpu)
        .begin("cpu-map")
        .begin("cluster0");
    let core = |board: Builder, core: u32| board.leaf(&format!("core{core}"), core + 1);
    let board = (0..regs.len() as u32).fold(board, core);
    board.close().close().close().finish()
}

/// The hart ids are those of the rows, in decimal, whatever bits they have; an MPIDR has 24 bits.
#[test]
fn any_hart_id() {
    let harts = [u32::MAX, 0, 0x8000_0000, 1 << 24, 5, u32::MAX - 1];
    let regs: Vec<[u32; 1]> = harts.iter().map(|&hart| [hart]).collect();
    let regs: Vec<&[u32]> = regs.iter().map(|reg| &reg[..]).collect();
    let blob = with_regs(&regs);
    let output = run_on_input(&["-p", "-b", "riscv", "-"], &blob);
    let row = |(at, hart)| format!("cluster0/core{at},cpu@{at},{hart},,0,{at},,\n");
    let rows: String = harts.iter().enumerate().map(row).collect();
    assert_eq!(text(&output.stdout), format!("{PARSABLE}{rows}"));
    let object = run_on_input(&["-j", "-b", "riscv", "-"], &blob);
    assert!(text(&object.stdout).contains("\"hart\": 4294967295, "));
    let narrow = run_on_input(&["-b", "arm64", "-"], &blob);
    assert!(text(&narrow.stderr).contains("ERROR 12 "));
}

/// What is told of a board that is refused.
fn told(blob: &[u8]) -> String {
    let output = run_on_input(&["-b", "riscv", "-"], blob);
    assert_eq!(output.status.code(), Some(1));
    assert_eq!(text(&output.stdout), "");
    text(&output.stderr).to_string()
}

/// Only the length of `reg` can be wrong: there is no word of bits.
#[test]
fn reg() {
    let reg = |reg: &[u32]| told(&with_regs(&[&[0], reg]));
    let of = |bytes| format!("reg has {bytes} bytes; #address-cells 1 asks for 4");
    assert_eq!(reg(&[0, 1]), line("-", 12, "/cpus/cpu@1", &of(8)));
    assert_eq!(reg(&[]), line("-", 12, "/cpus/cpu@1", &of(0)));
    let missing = Builder::rooted().open_cpus(1).open_cpu("cpu@0");
    let missing = told(&missing.close().close().finish());
    assert_eq!(missing, line("-", 12, "/cpus/cpu@0", "no property reg"));
}

#[test]
fn same_hart() {
    let highest = told(&with_regs(&[&[0], &[u32::MAX], &[1], &[u32::MAX]]));
    let details = "hart id 4294967295 is that of /cpus/cpu@1";
    assert_eq!(highest, line("-", 13, "/cpus/cpu@3", details));
    let lowest = told(&with_regs(&[&[0], &[0]]));
    let details = "hart id 0 is that of /cpus/cpu@0";
    assert_eq!(lowest, line("-", 13, "/cpus/cpu@1", details));
}

#[test]
fn address_cells() {
    let told = |cells| told(&Builder::rooted().open_cpus(cells).close().finish());
    for cells in [0, 2, 3, u32::MAX] {
        let details = format!("#address-cells is {cells}; board riscv allows 1");
        assert_eq!(told(cells), line("-", 36, "/cpus", &details));
    }
    assert_eq!(told(1), line("-", 10, "/cpus", "0 cpu nodes"));
}
