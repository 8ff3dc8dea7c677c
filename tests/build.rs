// SPDX-License-Identifier: BSD-2-Clause OR GPL-2.0-or-later
//! Compiles and links the C reader over libfdt, where the benchmarks are to time it. The archive comes with the crate `sunderwath`.

use std::env;
use std::path::{Path, PathBuf};
use std::process::Command;

fn main() {
    let here = PathBuf::from(env::var("CARGO_MANIFEST_DIR").expect("set by cargo"));
    let source = here.join("c/bench_fdt.c");
    println!("cargo:rerun-if-changed={}", source.display());
    if env::var_os("CARGO_FEATURE_FDT").is_some() {
        fdt_reader(&source);
    }
}

/// Compiles the C reader over libfdt that the benchmark times.
fn fdt_reader(source: &Path) {
    let out = PathBuf::from(env::var("OUT_DIR").expect("set by cargo"));
    let object = out.join("bench_fdt.o");
    let archive = out.join("libbench_fdt.a");
    run(Command::new("gcc")
        .args([
            "-std=c11", "-O3", "-Wall", "-Wextra", "-Werror", "-fPIC", "-c",
        ])
        .arg(source)
        .arg("-o")
        .arg(&object));
    run(Command::new("ar").arg("crs").arg(&archive).arg(&object));
    println!("cargo:rustc-link-search=native={}", out.display());
    println!("cargo:rustc-link-lib=static=bench_fdt");
    println!("cargo:rustc-link-lib=dylib=fdt");
}

fn run(command: &mut Command) {
    let status = command.status().expect("the C tools can be started");
    assert!(status.success(), "{command:?} failed");
}
