// SPDX-License-Identifier: BSD-2-Clause OR GPL-2.0-or-later
//! What is printed: tables, other formats, and details of messages.

use crate::run::{board, compiled, run, run_on_input, text};

#[test]
fn table_of_the_whole_case() {
    let output = run(&[&board("whole-case")]);
    let expected = "\
LEAF           CPU     MPIDR SOCKET CLUSTER CORE THREAD SLOT
cluster0/core0 cpu@100 0x100 -      0       0    -      1
cluster0/core1 cpu@0   0x0   -      0       1    -      0
hash: mask 0x100, shifts 0 8 15 31, bits 1
";
    assert_eq!(text(&output.stdout), expected);
}

/// Rows stand in the order of the leaves, so clusters and cores fall.
#[test]
fn table_of_the_vendor_order() {
    let output = run(&[&board("vendor-order")]);
    let expected = "\
LEAF           CPU     MPIDR SOCKET CLUSTER CORE THREAD SLOT
cluster1/core1 cpu@101 0x101 -      1       1    -      3
cluster1/core0 cpu@100 0x100 -      1       0    -      2
cluster0/core1 cpu@1   0x1   -      0       1    -      1
cluster0/core0 cpu@0   0x0   -      0       0    -      0
hash: mask 0x101, shifts 0 7 14 30, bits 2
";
    assert_eq!(text(&output.stdout), expected);
}

#[test]
fn other_formats() {
    let parsable = run(&["-p", &board("mixed-smt")]);
    let expected = "\
# mask=0x3 shifts=0,6,14,30 bits=2
# leaf,cpu,mpidr,socket,cluster,core,thread,slot
cluster0/core0/thread0,cpu@0,0x0,,0,0,0,0
cluster0/core0/thread1,cpu@1,0x1,,0,0,1,1
cluster0/core1,cpu@2,0x2,,0,1,,2
";
    assert_eq!(text(&parsable.stdout), expected);
    let tree = run(&["--tree", &board("mixed-smt")]);
    let expected = "\
cpu-map
  cluster0
    core0
      thread0: cpu@0, mpidr 0x0, slot 0
      thread1: cpu@1, mpidr 0x1, slot 1
    core1: cpu@2, mpidr 0x2, slot 2
hash: mask 0x3, shifts 0 6 14 30, bits 2
";
    assert_eq!(text(&tree.stdout), expected);
    assert!(include_str!("../../../docs/sunderwath.1").contains(expected));
    let file = board("whole-case");
    let json = run(&["--json", &file]);
    let expected = r#"{
  "schema": 2,
  "file": "FILE",
  "width": 64,
  "board": "arm64",
  "count": 2,
  "mask": "0x100",
  "shifts": [0, 8, 15, 31],
  "bits": 1,
  "rows": [
    {"leaf": "/cpus/cpu-map/cluster0/core0", "cpu": "/cpus/cpu@100", "mpidr": "0x100", "socket": null, "clusters": [0], "core": 0, "thread": null, "slot": 1},
    {"leaf": "/cpus/cpu-map/cluster0/core1", "cpu": "/cpus/cpu@0", "mpidr": "0x0", "socket": null, "clusters": [0], "core": 1, "thread": null, "slot": 0}
  ]
}
"#;
    assert_eq!(text(&json.stdout), expected.replace("FILE", &file));
}

/// The sentence of 21, before the details.
const NUMBERS: &str = "siblings must have the numbers from 0 to one less than their count, \
                       each once, in any order";

#[test]
fn message_of_a_gap() {
    let file = board("refused-21-order");
    let output = run(&[&file]);
    let expected = format!(
        "{file}: ERROR 21 (cpu_map_order): /cpus/cpu-map/cluster0/core6: \
         {NUMBERS} (core6, of 6 siblings)\n"
    );
    assert_eq!(text(&output.stderr), expected);
}

/// A blob with `core0` twice, which dtc does not make of a source.
#[test]
fn message_of_a_repeated_number() {
    let mut bytes = compiled("whole-case");
    let name = bytes.windows(6).position(|window| window == b"core1\0");
    bytes[name.expect("the name is there") + 4] = b'0';
    let output = run_on_input(&["-"], &bytes);
    assert_eq!(output.status.code(), Some(1));
    let expected = format!(
        "-: ERROR 21 (cpu_map_order): /cpus/cpu-map/cluster0/core0: \
         {NUMBERS} (core0, the number of an earlier sibling, child 1 of 2)\n"
    );
    assert_eq!(text(&output.stderr), expected);
}

#[test]
fn width_decides_the_cells() {
    let output = run(&["--width", "32", &board("example1")]);
    assert_eq!(output.status.code(), Some(1));
    let message = text(&output.stderr);
    assert!(message.contains("ERROR 36 (cpus_address_cells): /cpus: "));
    assert!(message.ends_with(" (#address-cells is 2; board arm32 allows 1)\n"));
    let named = run(&["--board", "arm32", &board("example1")]);
    assert_eq!(named, output);
}
