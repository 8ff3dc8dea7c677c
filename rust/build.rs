// SPDX-License-Identifier: BSD-2-Clause OR GPL-2.0-or-later
//! Links the proved archive and the texts of its numbers, and takes the version out of the header.

use std::env;
use std::fs;
use std::path::{Path, PathBuf};
use std::process::{exit, Command};

fn main() {
    let mut root = PathBuf::from(variable("CARGO_MANIFEST_DIR"));
    root.pop();
    archive(&root.join("target/archive"));
    texts(&root.join("include"));
    version(&root.join("include/sunderwath.h"));
}

/// A variable that cargo sets for every build script.
fn variable(name: &str) -> String {
    env::var(name).unwrap_or_else(|_| fail(&format!("cargo did not set {name}")))
}

/// Ends the build with a message, without the words of a panic.
fn fail(message: &str) -> ! {
    eprintln!("sunderwath: {message}");
    exit(1);
}

/// The folder of the archive for the processor that is compiled for.
fn archive_folder(archives: &Path) -> PathBuf {
    println!("cargo:rerun-if-env-changed=SUNDERWATH_LIB_DIR");
    if let Some(folder) = env::var_os("SUNDERWATH_LIB_DIR") {
        return PathBuf::from(folder);
    }
    let folder = archives.join(variable("CARGO_CFG_TARGET_ARCH"));
    if variable("TARGET").starts_with("riscv64imac") {
        return folder.join("rv64imac");
    }
    folder
}

fn archive(archives: &Path) {
    let folder = archive_folder(archives);
    let archive = folder.join("libsunderwath.a");
    if !archive.exists() {
        fail(&format!(
            "{} does not exist: scripts/archive.sh x86_64, aarch64 or riscv64 makes it, \
             or SUNDERWATH_LIB_DIR names the folder of another one by its full path",
            archive.display()
        ));
    }
    println!("cargo:rerun-if-changed={}", archive.display());
    println!("cargo:rustc-link-search=native={}", folder.display());
    println!("cargo:rustc-link-lib=static=sunderwath");
}

/// The C compiler with its options: CC or `cc`; for another processor TARGET_CC or Debian's cross compiler.
fn compiler() -> Command {
    let arch = variable("CARGO_CFG_TARGET_ARCH");
    let (name, default) = match variable("HOST").starts_with(&arch) {
        true => ("CC", "cc".to_string()),
        false => ("TARGET_CC", format!("{arch}-linux-gnu-gcc")),
    };
    println!("cargo:rerun-if-env-changed={name}");
    let named = env::var(name).unwrap_or_default();
    let mut words = named.split_whitespace();
    let mut command = Command::new(words.next().unwrap_or(&default));
    command.args(words);
    command
}

/// As the archive for the same processor is compiled, so that the linker takes both.
fn target_flags() -> &'static [&'static str] {
    let target = variable("TARGET");
    if target.starts_with("riscv64imac") {
        &["-march=rv64imac", "-mabi=lp64", "-mcmodel=medany"]
    } else if target.starts_with("aarch64-unknown-none") {
        &["-mgeneral-regs-only", "-mstrict-align"]
    } else if target.starts_with("riscv64") {
        &["-mcmodel=medany"]
    } else {
        &["-fPIC"]
    }
}

/// Compiles sunderwath_text.c, which needs no C library.
fn texts(include: &Path) {
    let out = PathBuf::from(variable("OUT_DIR"));
    let source = include.join("sunderwath_text.c");
    let object = out.join("sunderwath_text.o");
    let archive = out.join("libsunderwath_text.a");
    println!("cargo:rerun-if-changed={}", source.display());
    let flags = ["-std=c99", "-O2", "-ffreestanding"];
    let mut compile = compiler();
    compile.args(flags).args(target_flags());
    run(compile.arg("-c").arg(&source).arg("-o").arg(&object));
    // An archive that is there already could hold an older object.
    let _ = fs::remove_file(&archive);
    run(Command::new("ar").arg("crs").arg(&archive).arg(&object));
    println!("cargo:rustc-link-search=native={}", out.display());
    println!("cargo:rustc-link-lib=static=sunderwath_text");
}

fn run(command: &mut Command) {
    match command.status() {
        Ok(status) if status.success() => (),
        Ok(status) => fail(&format!("{command:?}: {status}")),
        Err(error) => fail(&format!("{command:?} cannot be started: {error}")),
    }
}

/// The version stands in the header alone.
fn version(header: &Path) {
    println!("cargo:rerun-if-changed={}", header.display());
    let text = fs::read_to_string(header)
        .unwrap_or_else(|error| fail(&format!("{}: {error}", header.display())));
    let version = text
        .lines()
        .find_map(|line| line.strip_prefix("#define SUNDERWATH_VERSION \""))
        .and_then(|rest| rest.strip_suffix('"'))
        .unwrap_or_else(|| fail("the header states no SUNDERWATH_VERSION"));
    println!("cargo:rustc-env=SUNDERWATH_VERSION={version}");
}
