// SPDX-License-Identifier: BSD-2-Clause OR GPL-2.0-or-later
//! The object that `--json` prints for a refusal.

use crate::builder::{patched, small, Builder};
use crate::run::{board, run, run_on_input, text};

/// The object printed for a blob that is refused, and the line beside it.
fn told(blob: &[u8]) -> (String, String) {
    let output = run_on_input(&["--json", "-"], blob);
    assert_eq!(output.status.code(), Some(1));
    let [object, line] = [&output.stdout, &output.stderr].map(|bytes| text(bytes).to_string());
    assert_eq!(line, text(&run_on_input(&["-"], blob).stderr));
    (object, line)
}

/// An object of these fields, which are JSON already but for the file.
fn object(file: &str, fields: [&str; 6]) -> String {
    let [number, check, place, node, property, message] = fields;
    format!(
        "{{\n  \"schema\": 2,\n  \"file\": \"{file}\",\n  \"number\": {number},\n  \
         \"check\": {check},\n  \"place\": {place},\n  \"node\": {node},\n  \
         \"property\": {property},\n  \"message\": {message}\n}}\n"
    )
}

#[test]
fn boards() {
    let file = board("refused-24-cpu0");
    let output = run(&["--json", &file]);
    let fields = [
        "24",
        "\"cpu_map_phandle\"",
        "4",
        "\"/cpus/cpu-map/cluster0/core1\"",
        "\"cpu\"",
        "\"cpu must be the phandle of a cpu node (no property cpu (it has cpu0))\"",
    ];
    assert_eq!(text(&output.stdout), object(&file, fields));
    assert_eq!(output.status.code(), Some(1));
    let line = text(&output.stderr);
    assert!(line.starts_with(&format!("{file}: ERROR 24 ")), "{line}");
}

#[test]
fn manual_shows_an_object() {
    let manual = include_str!("../../../docs/sunderwath.1");
    let file = board("refused-24-cpu0");
    let output = run(&["-q", "--json", &file]);
    let object = text(&output.stdout).replace(&file, "board.dtb");
    assert!(manual.contains(&object), "{object}");
}

/// Six numbers name a property, missing or not, and so do 7 and 8.
#[test]
fn properties() {
    let named = [
        ("refused-11-device-type", "\"device_type\""),
        ("refused-12-high-bits", "\"reg\""),
        ("refused-13-same-reg", "null"),
        ("refused-15-no-map", "null"),
        ("refused-17-no-phandle", "\"phandle\""),
        ("refused-24-no-cpu", "\"cpu\""),
        ("refused-25-cpu-twice", "null"),
        ("refused-26-unmapped", "null"),
        ("refused-36-address-cells", "\"#address-cells\""),
        ("refused-37-size-cells", "\"#size-cells\""),
    ];
    for (name, property) in named {
        let output = run(&["-j", &board(name)]);
        let field = format!("\n  \"property\": {property},\n");
        assert!(text(&output.stdout).contains(&field), "{name}");
    }
    let board = Builder::rooted()
        .begin("cpus")
        .cell("reg", 0)
        .cell("reg", 1);
    let (object, _) = told(&board.close().finish());
    let second = "\"place\": 1,\n  \"node\": \"/cpus\",\n  \"property\": \"reg\",\n";
    assert!(object.contains(second), "{object}");
}

/// A blob has no node but the root for 34, and no property.
#[test]
fn blobs() {
    let magic = patched(&small(), 0, 1);
    let fields = [
        "31",
        "\"blob_header\"",
        "0",
        "null",
        "null",
        "\"not a devicetree blob that can be read (magic 0x00000001, not 0xd00dfeed)\"",
    ];
    assert_eq!(told(&magic).0, object("-", fields));
    let none = Builder::rooted().finish();
    let fields = [
        "34",
        "\"blob_cpus\"",
        "0",
        "\"/\"",
        "null",
        "\"the root must have exactly one child named cpus (it has 0)\"",
    ];
    assert_eq!(told(&none).0, object("-", fields));
}

/// The offset of 33 counts from the start of the file, in a long blob too.
#[test]
fn structures() {
    for padding in [0, 70_000] {
        let board = Builder::rooted().padding(padding).begin("cpus");
        let place = board.offset();
        let blob = board.words(&[5]).close().finish();
        let message = format!(
            "\"at offset {place:#x}: the token stream breaks the specification's structure \
             (unknown token 0x00000005)\""
        );
        let place = place.to_string();
        let fields = ["33", "\"blob_structure\"", &place, "null", "null", &message];
        assert_eq!(told(&blob).0, object("-", fields));
    }
}

/// What is too long behind the cut is refused by an object as well.
#[test]
fn cut_blobs() {
    let board = Builder::rooted().begin("cpus").prop("a", &[0; 70_000]);
    let (object, line) = told(&board.close().finish());
    assert!(object.contains("\"number\": 31,"), "{object}");
    assert_eq!(line.lines().count(), 1);
    let board = Builder::rooted().padding(70_000).begin("cpus").close();
    let (object, line) = told(&board.finish());
    assert!(object.contains("\"number\": 36,"), "{object}");
    assert!(object.starts_with("{\n") && object.ends_with("\n}\n"));
    assert_eq!(line.lines().count(), 2);
}

/// `-q` keeps standard error empty; the object is what was asked for.
#[test]
fn quiet() {
    let file = board("refused-15-no-map");
    let quiet = run(&["-q", "--json", &file]);
    assert_eq!(quiet.stdout, run(&["--json", &file]).stdout);
    assert_eq!(text(&quiet.stderr), "");
    assert_eq!(quiet.status.code(), Some(1));
}

/// Other formats print nothing for a refusal, and wrong usage has no object.
#[test]
fn no_objects() {
    let file = board("refused-15-no-map");
    for format in ["-p", "-t", "-s"] {
        assert_eq!(text(&run(&[format, &file]).stdout), "");
    }
    let missing = run(&["--json", "no-such-file.dtb"]);
    assert_eq!(missing.status.code(), Some(2));
    assert_eq!(text(&missing.stdout), "");
}
