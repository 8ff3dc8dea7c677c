// SPDX-License-Identifier: BSD-2-Clause OR GPL-2.0-or-later
//! The boards in `boards/`, compiled with dtc.

use std::path::{Path, PathBuf};
use std::process::Command;

/// Each `.dts` file, by name.
pub fn sources() -> Vec<PathBuf> {
    let folder = Path::new(env!("CARGO_MANIFEST_DIR")).join("../boards");
    let files = std::fs::read_dir(folder).expect("boards/ can be read");
    let mut list: Vec<PathBuf> = files
        .map(|file| file.expect("boards/ can be read").path())
        .filter(|path| path.extension().map_or(false, |e| e == "dts"))
        .collect();
    list.sort();
    list
}

/// Options that change a blob's layout and not its tree.
pub const LAYOUTS: [&[&str]; 4] = [&["-R", "3"], &["-p", "77"], &["-S", "8192"], &["-b", "1"]];

pub fn compiled(source: &Path, options: &[&str]) -> Vec<u8> {
    let mut command = Command::new("dtc");
    command.args(["-q", "-I", "dts", "-O", "dtb"]).args(options);
    let output = command.arg(source).output().expect("dtc can be started");
    assert!(output.status.success(), "{}", source.display());
    output.stdout
}

/// The number that boards/README.md says is told of a board.
pub fn number_of(source: &Path) -> u32 {
    let name = source.file_stem().expect("it has a name").to_string_lossy();
    match name.strip_prefix("refused-") {
        Some(rest) => rest[..2].parse().expect("two digits"),
        None if name == "example3" => 24,
        None if name == "example3-corrected" => 25,
        None if name == "example3-no-phandle" => 17,
        None => 0,
    }
}

/// The sources of RISC-V boards, and the number told of each when it is read as
/// one.
const RISCV_SOURCES: [(&str, u32); 9] = [
    ("example3", 24),
    ("example3-corrected", 25),
    ("example3-no-phandle", 17),
    ("hifive-unleashed", 0),
    ("qemu-riscv-numa", 0),
    ("qemu-riscv-virt", 0),
    ("refused-13-same-hart", 13),
    ("riscv-two-cells", 36),
    ("sparse-harts", 0),
];

/// The number told of a RISC-V board, None where the board is another.
pub fn riscv_number_of(source: &Path) -> Option<u32> {
    let name = source.file_stem().expect("it has a name").to_string_lossy();
    let listed = RISCV_SOURCES.iter().find(|(other, _)| *other == name);
    listed.map(|&(_, number)| number)
}

/// Whether a cpu of a source says that it is a RISC-V one.
pub fn names_riscv(source: &Path) -> bool {
    let text = std::fs::read_to_string(source).expect("it can be read");
    text.contains("\"riscv\"")
}
