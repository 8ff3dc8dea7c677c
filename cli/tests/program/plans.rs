// SPDX-License-Identifier: BSD-2-Clause OR GPL-2.0-or-later
//! What `--plan` adds to a table, to `--parse` and to `--json`.

use crate::boards::names;
use crate::builder::with_mpidrs;
use crate::riscv;
use crate::run::{board, boards, run, run_in, run_on_input, text};

/// What is printed of a board that is accepted, without a word on standard error.
pub fn printed(arguments: &[&str], blob: &[u8]) -> String {
    let output = run_on_input(&[arguments, &["-"]].concat(), blob);
    assert_eq!(text(&output.stderr), "", "{arguments:?}");
    assert_eq!(output.status.code(), Some(0), "{arguments:?}");
    text(&output.stdout).to_string()
}

const SPARSE: &str = "\
LEAF           CPU   MPIDR SOCKET CLUSTER CORE THREAD SLOT PLANNED
cluster0/core0 cpu@0 0x0   -      0       0    -      0    0
cluster0/core1 cpu@5 0x5   -      0       1    -      5    1
hash: mask 0x5, shifts 0 5 13 29, bits 3
plan: positions 2, slots 8 before, 2 after, 6 saved
";

#[test]
fn tables() {
    let file = board("sparse-hash");
    for arguments in [["--plan", &file], [&file, "--plan"]] {
        let output = run(&arguments);
        assert_eq!(text(&output.stdout), SPARSE);
        assert_eq!((text(&output.stderr), output.status.code()), ("", Some(0)));
    }
    let output = run(&["--plan", &board("three-levels")]);
    let expected = "\
LEAF                   CPU       MPIDR   SOCKET CLUSTER CORE THREAD SLOT PLANNED
cluster0/core0/thread0 cpu@0     0x0     -      0       0    0      0    0
cluster0/core0/thread1 cpu@1     0x1     -      0       0    1      1    1
cluster0/core1/thread0 cpu@100   0x100   -      0       1    0      2    2
cluster0/core1/thread1 cpu@101   0x101   -      0       1    1      3    3
cluster1/core0         cpu@10000 0x10000 -      1       0    -      4    4
cluster1/core1         cpu@10100 0x10100 -      1       1    -      6    6
hash: mask 0x10101, shifts 0 7 14 29, bits 3
plan: positions 0 8 16, slots 8 before, 8 after, 0 saved
";
    assert_eq!(text(&output.stdout), expected);
}

#[test]
fn manual_shows_the_table() {
    let manual = include_str!("../../../docs/sunderwath.1");
    let example = format!("$ sunderwath \\-\\-plan board.dtb\n{SPARSE}");
    assert!(manual.contains(&example), "{example}");
    assert!(manual.contains("\n.BR \"# positions=2 slots_before=8 slots_after=2 saved=6\" ,\n"));
    assert!(manual.contains(&format!("\nboard.dtb: {NOTE}")));
}

#[test]
fn parsable() {
    let output = run(&["-p", "--plan", &board("sparse-hash")]);
    let expected = "\
# mask=0x5 shifts=0,5,13,29 bits=3
# positions=2 slots_before=8 slots_after=2 saved=6
# leaf,cpu,mpidr,socket,cluster,core,thread,slot,planned
cluster0/core0,cpu@0,0x0,,0,0,,0,0
cluster0/core1,cpu@5,0x5,,0,1,,5,1
";
    assert_eq!(text(&output.stdout), expected);
}

#[test]
fn objects() {
    let file = board("wide-hash");
    let output = run(&["--json", "--plan", &file]);
    let expected = r#"{
  "schema": 2,
  "file": "FILE",
  "width": 64,
  "board": "arm64",
  "count": 3,
  "mask": "0x1181",
  "shifts": [0, 0, 3, 19],
  "bits": 13,
  "plan": {"positions": [7, 12], "slots_before": 8192, "slots_after": 4, "saved": 8188},
  "rows": [
    {"leaf": "/cpus/cpu-map/cluster0/core0", "cpu": "/cpus/cpu@0", "mpidr": "0x0", "socket": null, "clusters": [0], "core": 0, "thread": null, "slot": 0, "planned": 0},
    {"leaf": "/cpus/cpu-map/cluster0/core1", "cpu": "/cpus/cpu@81", "mpidr": "0x81", "socket": null, "clusters": [0], "core": 1, "thread": null, "slot": 129, "planned": 1},
    {"leaf": "/cpus/cpu-map/cluster1/core0", "cpu": "/cpus/cpu@1100", "mpidr": "0x1100", "socket": null, "clusters": [1], "core": 0, "thread": null, "slot": 4352, "planned": 2}
  ]
}
"#;
    assert_eq!(text(&output.stdout), expected.replace("FILE", &file));
}

/// No position for one processor, and as many as there are affinity bits where each is needed.
#[test]
fn fewest_and_most_positions() {
    let one = with_mpidrs(&[0x123]);
    let table = printed(&["--plan"], &one);
    let line = "plan: positions none, slots 1 before, 1 after, 0 saved\n";
    assert!(table.ends_with(&format!("bits 0\n{line}")), "{table}");
    let values = printed(&["--plan", "-p"], &one);
    assert!(values.contains("\n# positions= slots_before=1 slots_after=1 saved=0\n"));
    let object = printed(&["--plan", "-j"], &one);
    let member = "\"plan\": {\"positions\": [], \"slots_before\": 1, \"slots_after\": 1, ";
    assert!(object.contains(member), "{object}");
    let bits = (0..24).chain(32..40);
    let each: Vec<u64> = bits.clone().map(|bit| 1 << bit).chain([0]).collect();
    let positions: Vec<String> = bits.map(|bit: u32| bit.to_string()).collect();
    let line = format!(
        "plan: positions {}, slots 4294967296 before, 4294967296 after, 0 saved\n",
        positions.join(" ")
    );
    assert!(printed(&["--plan"], &with_mpidrs(&each)).ends_with(&line));
    let two = printed(&["--plan"], &with_mpidrs(&[0, 0xFF_00FF_FFFF]));
    let line = "plan: positions 39, slots 4294967296 before, 2 after, 4294967294 saved\n";
    assert!(two.ends_with(line), "{two}");
}

/// The last column of a line and all before it.
fn split_last(line: &str) -> (&str, &str) {
    line.rsplit_once(',').expect("there are columns")
}

/// Nothing but the comment and the last column is added.
#[test]
fn the_rest_stays() {
    for name in names() {
        let file = board(&name);
        let [plain, planned] = [&["-p", &file][..], &["--plan", "-p", &file]].map(run);
        assert_eq!(plain.status, planned.status, "{name}");
        assert_eq!(text(&plain.stderr), text(&planned.stderr), "{name}");
        let lines = text(&planned.stdout).lines();
        let without = |line: &str| match line.starts_with("# mask=") {
            true => format!("{line}\n"),
            false => format!("{}\n", split_last(line).0),
        };
        let rest = lines.filter(|line| !line.starts_with("# positions="));
        let rest: String = rest.map(without).collect();
        assert_eq!(rest, text(&plain.stdout), "{name}");
    }
}

/// What is told of a RISC-V board that is accepted, behind the file's name.
const NOTE: &str = "note: a RISC-V board has no MPIDRs: nothing to plan\n";

#[test]
fn riscv_boards() {
    for (name, rows) in riscv::ACCEPTED {
        let file = board(name);
        let output = run(&["--plan", "-p", "-b", "riscv", &file]);
        let header = "# leaf,cpu,hart,socket,cluster,core,thread,slot,planned\n";
        let rows = rows.replace('\n', ",\n");
        assert_eq!(text(&output.stdout), format!("{header}{rows}"), "{name}");
        assert_eq!(text(&output.stderr), format!("{file}: {NOTE}"));
        assert_eq!(output.status.code(), Some(0));
        let quiet = run(&["--plan", "-qpb", "riscv", &file]);
        assert_eq!((text(&quiet.stderr), quiet.stdout), ("", output.stdout));
    }
    let file = board("sparse-harts");
    let table = run(&["--plan", "-b", "riscv", &file]);
    let expected = "\
LEAF           CPU      HART SOCKET CLUSTER CORE THREAD SLOT PLANNED
cluster0/core0 cpu@1000 4096 -      0       0    -      -    -
cluster0/core1 cpu@40   64   -      0       1    -      -    -
cluster0/core2 cpu@1    1    -      0       2    -      -    -
";
    assert_eq!(text(&table.stdout), expected);
    assert_eq!(text(&table.stderr), format!("{file}: {NOTE}"));
}

#[test]
fn riscv_object() {
    let file = board("sparse-harts");
    let [plain, planned] = [
        &["-qjb", "riscv", &file][..],
        &["--plan", "-qjb", "riscv", &file],
    ]
    .map(|arguments| text(&run(arguments).stdout).to_string());
    let count = "  \"count\": 3,\n";
    assert_eq!(plain.matches(count).count(), 1);
    let expected = plain.replace(count, &format!("{count}  \"plan\": null,\n"));
    let slot = "\"slot\": null}";
    assert_eq!(plain.matches(slot).count(), 3);
    let expected = expected.replace(slot, "\"slot\": null, \"planned\": null}");
    assert_eq!(planned, expected);
}

/// A board that is refused has no note on plans, whatever its kind.
#[test]
fn refused_riscv_boards() {
    for (name, ..) in riscv::REFUSED {
        let file = board(name);
        let [plain, planned] = [
            &["-b", "riscv", &file][..],
            &["--plan", "-b", "riscv", &file],
        ];
        assert_eq!(run(planned), run(plain), "{name}");
    }
}

/// Nothing is said of boards that are accepted, and of the others what is said without a plan.
#[test]
fn check() {
    for kind in ["arm64", "riscv"] {
        for name in names() {
            let file = board(&name);
            for options in ["-cb", "-cjb", "-cpb"] {
                let planned = run(&["--plan", options, kind, &file]);
                assert_eq!(planned, run(&[options, kind, &file]), "{name}");
            }
        }
    }
}

/// Each file has what it has alone, in its own plan.
#[test]
fn several_files() {
    let files = ["sparse-hash.dts", "wide-hash.dts"];
    let printed = |arguments: &[&str]| {
        let arguments: Vec<&[u8]> = arguments.iter().map(|text| text.as_bytes()).collect();
        let output = run_in(&boards(), &arguments);
        assert_eq!((text(&output.stderr), output.status.code()), ("", Some(0)));
        text(&output.stdout).to_string()
    };
    let both = |option: &str| printed(&["--plan", option, files[0], files[1]]);
    let alone = |option: &str| files.map(|file| printed(&["--plan", option, file]));
    let [first, second] = alone("-q");
    let headings = format!("{}:\n{first}\n{}:\n{second}", files[0], files[1]);
    assert_eq!(both("-q"), headings);
    assert!(first.ends_with("6 saved\n") && second.ends_with("8188 saved\n"));
    let [first, second] = alone("-p");
    let comments = format!("# file={}\n{first}# file={}\n{second}", files[0], files[1]);
    assert_eq!(both("-p"), comments);
    let indented = |object: String| object.trim_end().replace('\n', "\n  ");
    let [first, second] = alone("-j").map(indented);
    assert_eq!(both("-j"), format!("[\n  {first},\n  {second}\n]\n"));
}
