// SPDX-License-Identifier: BSD-2-Clause OR GPL-2.0-or-later
//! Names with characters that have to be escaped: once, and in the way of each format.

use crate::builder::Builder;
use crate::run::{run_on_input, text};

/// A board of one processor whose cpu node has this name.
fn named(name: &[u8]) -> Vec<u8> {
    let board = Builder::rooted().open_cpus(1).begin("cpu-map");
    let board = board.begin("cluster0").leaf("core0", 1).close().close();
    let board = board.begin_bytes(name).prop("device_type", b"cpu\0");
    let board = board.cell("reg", 0).cell("phandle", 1).close();
    board.close().finish()
}

/// What is printed for the board in a format.
fn printed(format: &str, name: &[u8]) -> String {
    let output = run_on_input(&[format, "-"], &named(name));
    assert_eq!(output.status.code(), Some(0));
    text(&output.stdout).to_string()
}

#[test]
fn json() {
    let names: [(&[u8], &str); 7] = [
        (b"cpu@0", "cpu@0"),
        (b"cpu@\\", r"cpu@\\"),
        (b"cpu@\"0\"", r#"cpu@\"0\""#),
        (b"cpu@'0'", "cpu@'0'"),
        (b"cpu@\n\t\x1b\x7f", r"cpu@\u000a\u0009\u001b\u007f"),
        ("cpu@\u{e9}\u{4e00}".as_bytes(), "cpu@\u{e9}\u{4e00}"),
        (b"cpu@\xe9\x80\\", "cpu@\u{e9}\\u0080\\\\"),
    ];
    for (name, escaped) in names {
        let field = format!("\"cpu\": \"/cpus/{escaped}\", ");
        let object = printed("--json", name);
        assert!(object.contains(&field), "{object}");
    }
}

#[test]
fn values_among_commas() {
    let names: [(&[u8], &str); 7] = [
        (b"cpu@0", "cpu@0"),
        (b"cpu@0,1", "\"cpu@0,1\""),
        (b"cpu@\"", "\"cpu@\"\"\""),
        (b"cpu@\",\"", "\"cpu@\"\",\"\"\""),
        (b"cpu@\n", "\"cpu@\n\""),
        (b"cpu@\\'", "cpu@\\'"),
        (b"cpu@\xe9", "cpu@\u{e9}"),
    ];
    for (name, value) in names {
        let lines = printed("-p", name);
        let end = format!("\ncluster0/core0,{value},0x0,,0,0,,0\n");
        assert!(lines.ends_with(&end), "{lines}");
    }
}

/// What people read has no character that a terminal would act on.
#[test]
fn tables_and_trees() {
    let name = b"cpu@\x1b[2J\n\\\"";
    let shown = r#"cpu@\u{1b}[2J\n\\""#;
    let table = printed("--width=64", name);
    let row = format!("\ncluster0/core0 {shown} 0x0 ");
    assert!(table.contains(&row), "{table}");
    let tree = printed("--tree", name);
    let leaf = format!("    core0: {shown}, mpidr 0x0, slot 0\n");
    assert!(tree.contains(&leaf), "{tree}");
}

/// In a refusal: the line is escaped for people, the object for programs.
#[test]
fn refusals() {
    let board = Builder::rooted().open_cpus(1);
    let first = board.open_cpu("cpu@\"\\").cell("reg", 0).close();
    let board = first.open_cpu("cpu@\n").cell("reg", 0).close();
    let output = run_on_input(&["--json", "-"], &board.close().finish());
    let object = text(&output.stdout);
    assert!(
        object.contains(r#""node": "/cpus/cpu@\u000a","#),
        "{object}"
    );
    let end = r#"(reg 0x0 is that of /cpus/cpu@\"\\)""#;
    assert!(object.ends_with(&format!("{end}\n}}\n")), "{object}");
    let line = text(&output.stderr);
    let start = r"-: ERROR 13 (duplicate_cpu_reg): /cpus/cpu@\n: ";
    assert!(line.starts_with(start), "{line}");
    let end = "(reg 0x0 is that of /cpus/cpu@\"\\\\)\n";
    assert!(line.ends_with(end), "{line}");
}
