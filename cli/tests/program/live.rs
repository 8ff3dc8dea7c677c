// SPDX-License-Identifier: BSD-2-Clause OR GPL-2.0-or-later
//! Directories that hold a live tree, as /proc/device-tree does: a node is a directory, a property a file.

use crate::boards::names;
use crate::run::{board, compiled, directory, linked, run, run_in, run_on_input, text};
use std::fs::{self, Permissions};
use std::os::unix::ffi::OsStrExt;
use std::os::unix::fs::PermissionsExt;
use std::path::Path;
use std::process::{Command, Output};
use sunderwath_cli::flat;

/// Makes a directory of a sample board's /cpus.
fn grown(into: &Path, blob: Vec<u8>) {
    let tables = flat::read(blob).expect("the blob can be read").tables;
    let path = |node: u32| into.join(tables.path(node).trim_start_matches('/'));
    for node in 0..tables.node_count() as u32 {
        fs::create_dir_all(path(node)).expect("the directory is made");
        for property in tables.properties(node) {
            let file = path(node).join(tables.property_name(property));
            fs::write(file, tables.value(property)).expect("the file is written");
        }
    }
}

/// The lines of an output in an order of their own, as directories have none.
fn lines(bytes: &[u8]) -> Vec<&str> {
    let mut lines: Vec<&str> = text(bytes).lines().collect();
    lines.sort_unstable();
    lines
}

/// Number, check name and path; what else is said may depend on the order.
fn head(bytes: &[u8]) -> Option<&str> {
    let line = text(bytes).lines().next()?;
    Some(line.split(": ").nth(1).expect("the line has parts"))
}

#[test]
fn every_board() {
    let (mut accepted, mut refused) = (0, 0);
    for name in names().iter().filter(|name| *name != "refused-34-no-cpus") {
        let tree = directory(&format!("live-{name}"));
        grown(&tree, compiled(name));
        let tree = tree.to_str().expect("the path is text");
        let from_tree = run(&["-p", "-b", "arm64", tree]);
        let from_file = run(&["-p", "-b", "arm64", &board(name)]);
        assert_eq!(from_tree.status, from_file.status, "{name}");
        assert_eq!(lines(&from_tree.stdout), lines(&from_file.stdout), "{name}");
        assert_eq!(head(&from_tree.stderr), head(&from_file.stderr), "{name}");
        match from_tree.status.success() {
            true => accepted += 1,
            false => refused += 1,
        }
    }
    assert!(accepted >= 10 && refused >= 20, "{accepted}, {refused}");
}

/// Names decide the order, not the directory.
#[test]
fn order_stays_the_same() {
    let tree = directory("live-order");
    grown(&tree, compiled("vendor-order"));
    let output = run_in(&tree, &[b"-p", b"."]);
    let leaves: Vec<&str> = text(&output.stdout)
        .lines()
        .filter(|line| !line.starts_with('#'))
        .filter_map(|line| line.split(',').next())
        .collect();
    let sorted = [
        "cluster0/core0",
        "cluster0/core1",
        "cluster1/core0",
        "cluster1/core1",
    ];
    assert_eq!(leaves, sorted);
}

/// Through a link, below any name, and with a slash behind it.
#[test]
fn operands() {
    let place = directory("live-operands");
    for name in [&b"tree"[..], b"-tree", b"--", b"\xff", b"a.dts", b"a\nb"] {
        let tree = place.join(std::ffi::OsStr::from_bytes(name));
        grown(&tree, compiled("whole-case"));
        let output = run_in(&place, &[b"-p", b"--", name]);
        assert_eq!(text(&output.stderr), "");
        assert_eq!(text(&output.stdout).lines().count(), 4);
    }
    let _link = linked(&place, "link", "tree");
    let expected = run_in(&place, &[b"tree"]).stdout;
    for operand in [&b"link"[..], b"link/", b"./tree/."] {
        assert_eq!(run_in(&place, &[operand]).stdout, expected);
    }
}

/// What dtc would find wrong is left to the rules: nothing else is told.
#[test]
fn trees_with_errors() {
    let tree = directory("live-errors");
    grown(&tree, compiled("whole-case"));
    fs::copy(
        tree.join("cpus/cpu@0/phandle"),
        tree.join("cpus/cpu@100/phandle"),
    )
    .expect("copied");
    let output = run_in(&tree, &[b"."]);
    let message = text(&output.stderr);
    assert!(
        message.starts_with(".: ERROR 17 (cpu_phandle): /cpus/cpu@100: "),
        "{message}"
    );
    assert_eq!(
        (message.lines().count(), output.status.code()),
        (1, Some(1))
    );
}

/// The program under another user where this one is root, who can read everything.
fn by_a_user(program: &Path, tree: &Path) -> Output {
    let id = Command::new("id").arg("-u").output().expect("id starts");
    let mut command = match text(&id.stdout).trim() {
        "0" => {
            let mut other = Command::new("setpriv");
            other.args(["--reuid=65534", "--regid=65534", "--clear-groups"]);
            other.arg(program);
            other
        }
        _ => Command::new(program),
    };
    command.arg(tree).output().expect("the program starts")
}

/// A property that cannot be read is not told as missing.
#[test]
fn unreadable_properties() {
    let place = std::env::temp_dir().join(format!("sunderwath-live-{}", std::process::id()));
    let (program, tree) = (place.join("program"), place.join("tree"));
    grown(&tree, compiled("whole-case"));
    fs::set_permissions(&place, Permissions::from_mode(0o755)).expect("it can be entered");
    fs::copy(env!("CARGO_BIN_EXE_sunderwath"), &program).expect("the program is copied");
    let accepted = by_a_user(&program, &tree);
    let property = tree.join("cpus/cpu@100/reg");
    fs::set_permissions(&property, Permissions::from_mode(0)).expect("the mode is set");
    let output = by_a_user(&program, &tree);
    fs::remove_dir_all(&place).expect("the directory is removed");
    let told = text(&accepted.stderr);
    if told.starts_with("setpriv: ") {
        println!("no other user can start the program: not tried");
        return;
    }
    assert_eq!((told, accepted.status.code()), ("", Some(0)));
    let path = property.to_str().expect("the path is text");
    let expected = format!("Couldn't open blob from '{path}': Permission denied\n");
    assert_eq!(text(&output.stderr), expected);
    assert_eq!(output.status.code(), Some(2));
}

/// Any other directory is a root without cpus, and is not walked: the file in this one has no end.
#[test]
fn directories_without_cpus() {
    let place = directory("live-none");
    let output = run_in(&place, &[b"--json", b"."]);
    let expected = ".: ERROR 34 (blob_cpus): /: \
                    the root must have exactly one child named cpus (it has 0)\n";
    assert_eq!(text(&output.stderr), expected);
    assert!(text(&output.stdout).contains("\"number\": 34,"));
    assert_eq!(output.status.code(), Some(1));
    let file = fs::File::create(place.join("large")).expect("the file is made");
    file.set_len(1 << 40).expect("it has a hole");
    fs::write(place.join("cpus"), "a file").expect("the file is written");
    assert_eq!(text(&run_in(&place, &[b"."]).stderr), expected);
    let root = run(&["/"]);
    assert_eq!(text(&root.stderr), expected.replacen('.', "/", 1));
}

/// A tree that is too large for the library is cut down as a blob is.
#[test]
fn large_trees() {
    let tree = directory("live-large");
    grown(&tree, compiled("whole-case"));
    fs::write(tree.join("filler"), vec![0x55; 70_000]).expect("the file is written");
    let output = run_in(&tree, &[b"-p", b"."]);
    assert!(text(&output.stderr).ends_with(" bytes: only /cpus was read\n"));
    let small = run_on_input(&["-p", "-"], &compiled("whole-case"));
    assert_eq!(lines(&output.stdout), lines(&small.stdout));
}
