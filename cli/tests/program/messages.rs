// SPDX-License-Identifier: BSD-2-Clause OR GPL-2.0-or-later
//! Messages that name the property and what it holds, for every number that speaks of the contents of a board.

use crate::builder::Builder;
use crate::run::{refusal, run_on_input, text};
use sunderwath::texts as check_and_sentence;

/// Closes the cpus node; the board is refused with this number at this node and with these details.
fn told(board: Builder, number: u32, node: &str, details: &str) {
    let (check, sentence) = check_and_sentence(number);
    let expected = format!("-: ERROR {number} ({check}): {node}: {sentence} ({details})\n");
    assert_eq!(refusal(&board.close().finish()), expected);
}

/// A cpus node that is open, without cell counts.
fn bare() -> Builder {
    Builder::rooted().begin("cpus")
}

/// A cpus node that is open, with the cell counts.
fn cpus(address_cells: u32) -> Builder {
    Builder::rooted().open_cpus(address_cells)
}

#[test]
fn address_cells() {
    let told = |board: Builder, details: &str| {
        told(board.cell("#size-cells", 0).cpu(0), 36, "/cpus", details);
    };
    let with = |value: &[u32]| bare().cells("#address-cells", value);
    told(with(&[0]), "#address-cells is 0; board arm64 allows 1 or 2");
    told(with(&[3]), "#address-cells is 3; board arm64 allows 1 or 2");
    told(with(&[1, 0]), "#address-cells has 8 bytes, not 4");
    told(with(&[]), "#address-cells has 0 bytes, not 4");
    let byte = bare().prop("#address-cells", &[1]);
    told(byte, "#address-cells has 1 byte, not 4");
    told(bare(), "no property #address-cells");
    let near = bare().cell("address-cells", 1);
    told(near, "no property #address-cells (it has address-cells)");
}

#[test]
fn address_cells_of_width_32() {
    let blob = cpus(2).cpu(0).close().finish();
    let output = run_on_input(&["-w", "32", "-"], &blob);
    let expected = "-: ERROR 36 (cpus_address_cells): /cpus: \
        #address-cells must be one cell, with a value that the board allows \
        (#address-cells is 2; board arm32 allows 1)\n";
    assert_eq!(text(&output.stderr), expected);
}

#[test]
fn size_cells() {
    let told = |board: Builder, details: &str| told(board, 37, "/cpus", details);
    let with = |value: &[u32]| {
        let board = bare().cell("#address-cells", 1);
        board.cells("#size-cells", value).cpu(0)
    };
    told(with(&[1]), "#size-cells is 1, not 0");
    told(with(&[0, 0]), "#size-cells has 8 bytes, not 4");
    told(with(&[]), "#size-cells has 0 bytes, not 4");
    let address = bare().cell("#address-cells", 2);
    told(address.clone(), "no property #size-cells");
    let near = address.cell("size-cells", 0).cell("#size-cell", 0);
    told(
        near,
        "no property #size-cells (it has size-cells, #size-cell)",
    );
}

/// Of nodes and of properties.
#[test]
fn lengths_of_names() {
    let long = "n".repeat(65);
    let node = |name: &str| cpus(1).begin(name).close();
    told(node(""), 5, "/cpus/", "its name has 0 bytes");
    let path = format!("/cpus/{long}");
    told(node(&long), 5, &path, "its name has 65 bytes");
    let property = |name: &str| cpus(1).cell(name, 0);
    told(property(""), 7, "/cpus: ", "its name has 0 bytes");
    let place = format!("/cpus: {}", &long[..32]);
    told(property(&long[..32]), 7, &place, "its name has 32 bytes");
}

#[test]
fn count_of_cpus() {
    told(cpus(1), 10, "/cpus", "0 cpu nodes");
    let other = cpus(1).begin("cpus").cpu(0).close();
    told(other, 10, "/cpus", "0 cpu nodes");
    let many = (0..257).fold(cpus(1), |board, number| board.cpu(number));
    told(many, 10, "/cpus", "257 cpu nodes");
}

#[test]
fn device_type() {
    let told = |cpu: Builder, details: &str| {
        told(cpu.cell("reg", 1).close(), 11, "/cpus/cpu@1", details);
    };
    let cpu = || cpus(1).cpu(0).begin("cpu@1");
    let with = |value: &[u8]| cpu().prop("device_type", value);
    told(with(b"cpux\0"), "device_type is \"cpux\"");
    told(with(b"cpu\0cpu\0"), "device_type is \"cpu\", \"cpu\"");
    told(with(b""), "device_type is empty");
    let bytes = "device_type is [63 70 75], without a final zero byte";
    told(with(b"cpu"), bytes);
    let bytes = "device_type is [63 70 75 00 00], which is no plain string";
    told(with(b"cpu\0\0"), bytes);
    told(cpu(), "no property device_type");
    let near = cpu().prop("device-type", b"cpu\0");
    told(near, "no property device_type (it has device-type)");
}

#[test]
fn reg() {
    let told = |board: Builder, details: &str| {
        told(board.close(), 12, "/cpus/cpu@1", details);
    };
    let cpu = |cells| cpus(cells).open_cpu("cpu@1");
    let with = |cells, value: &[u32]| cpu(cells).cells("reg", value);
    let two = "reg 0x80000001 has bits outside 0xff00ffffff";
    told(with(2, &[0, 0x8000_0001]), two);
    let upper = "reg 0x10000000000 has bits outside 0xff00ffffff";
    told(with(2, &[0x100, 0]), upper);
    let one = "reg 0x80000001 has bits outside 0xffffff";
    told(with(1, &[0x8000_0001]), one);
    let short = "reg has 4 bytes; #address-cells 2 asks for 8";
    told(with(2, &[1]), short);
    let long = "reg has 8 bytes; #address-cells 1 asks for 4";
    told(with(1, &[0, 1]), long);
    let empty = "reg has 0 bytes; #address-cells 1 asks for 4";
    told(with(1, &[]), empty);
    told(cpu(2), "no property reg");
    let near = "no property reg (it has Reg, reg-names)";
    told(cpu(1).cell("Reg", 1).cell("reg-names", 1), near);
    let blank = "no property reg (it has \"reg \")";
    told(cpu(1).cell("reg ", 1), blank);
}

#[test]
fn same_reg() {
    let two =
        |board: Builder, name: &str, reg: [u32; 2]| board.open_cpu(name).cells("reg", &reg).close();
    let board = two(cpus(2), "cpu@0", [0, 0]);
    let board = two(board, "cpu@100000002", [1, 2]);
    let board = two(board, "cpu@3", [1, 2]);
    let details = "reg 0x100000002 is that of /cpus/cpu@100000002";
    told(two(board, "cpu@4", [1, 2]), 13, "/cpus/cpu@3", details);
    let twins = two(two(cpus(2), "cpu@0", [0, 0]), "cpu@0", [0, 0]);
    let details = "reg 0x0 is that of an earlier node with this path";
    told(twins, 13, "/cpus/cpu@0", details);
}

#[test]
fn no_map() {
    let message = |cpus: u32| {
        let board = (0..cpus).fold(Builder::rooted().open_cpus(1), Builder::cpu);
        refusal(&board.close().finish())
    };
    let start = "-: ERROR 15 (cpu_map_missing): /cpus: no cpu-map; ";
    assert_eq!(message(4), format!("{start}4 cpu nodes\n"));
    assert_eq!(message(1), format!("{start}1 cpu node\n"));
}

#[test]
fn second_map() {
    let inner = cpus(1).open_cpu("cpu@0").cell("reg", 0);
    let inner = inner.begin("cpu-map").close().close();
    let board = inner.begin("cpu-map").close();
    let details = "the map is /cpus/cpu-map";
    told(board, 16, "/cpus/cpu@0/cpu-map", details);
    let twins = cpus(1).cpu(0).begin("cpu-map").close();
    let twins = twins.begin("cpu-map").close();
    let details = "the map is the first one with this path";
    told(twins, 16, "/cpus/cpu-map", details);
}

/// A board whose second cpu node has no phandle yet, and a map.
fn before_phandle() -> Builder {
    let board = cpus(1).begin("cpu-map").close().cpu(0);
    board.open_cpu("cpu@1").cell("reg", 1)
}

#[test]
fn phandle() {
    let told = |board: Builder, details: &str| {
        told(board.close(), 17, "/cpus/cpu@1", details);
    };
    let with = |value: &[u32]| before_phandle().cells("phandle", value);
    told(before_phandle(), "no property phandle");
    let old = before_phandle().cell("linux,phandle", 2);
    told(old, "no property phandle (it has linux,phandle)");
    told(with(&[0]), "phandle is 0");
    told(with(&[u32::MAX]), "phandle is 0xffffffff");
    told(with(&[1]), "phandle 0x1 is that of /cpus/cpu@0");
    told(with(&[2, 0]), "phandle has 8 bytes, not 4");
    told(with(&[]), "phandle has 0 bytes, not 4");
    let twin = cpus(1).begin("cpu-map").close().cpu(1).open_cpu("cpu@1");
    let twin = twin.cell("reg", 0).cell("phandle", 2);
    told(
        twin,
        "phandle 0x2 is that of an earlier node with this path",
    );
}

/// A board of two processors and a cache, whose second core is open.
fn before_cpu() -> Builder {
    let board = cpus(1).cpu(0).cpu(1);
    let board = board.begin("l2-cache").cell("phandle", 7).close();
    let board = board.begin("cpu-map").begin("cluster0");
    board.leaf("core0", 1).begin("core1")
}

#[test]
fn leaf_without_a_cpu_node() {
    let told = |core: Builder, details: &str| {
        let board = core.close().close().close();
        told(board, 24, "/cpus/cpu-map/cluster0/core1", details);
    };
    let with = |name: &str, value: &[u32]| before_cpu().cells(name, value);
    told(with("cpu", &[9]), "cpu 0x9 is the phandle of no cpu node");
    let cache = "cpu 0x7 is the phandle of /cpus/l2-cache, which is no cpu node";
    told(with("cpu", &[7]), cache);
    told(with("cpu", &[1, 2]), "cpu has 8 bytes, not 4");
    told(with("cpu0", &[2]), "no property cpu (it has cpu0)");
    let two = with("cpu0", &[2]).cell("other", 0);
    told(two, "no property cpu (it has cpu0, other)");
    told(before_cpu(), "no property cpu (it has no properties)");
    let many = (0..10).fold(before_cpu(), |core, number| {
        core.cell(&format!("p{number}"), 0)
    });
    let some = "no property cpu (it has p0, p1, p2, p3, p4, p5, p6, p7 and 2 more)";
    told(many, some);
}

/// A core with children is no leaf, whatever its `cpu` says, and a cache with the same phandle is no cpu node.
#[test]
fn leaf_with_the_cpu_of_another() {
    let cache = cpus(1).begin("l2-cache").cell("phandle", 2).close();
    let board = cache.cpu(0).cpu(1).begin("cpu-map").begin("cluster0");
    let threads = board.begin("core0").cell("cpu", 2);
    let threads = threads.leaf("thread0", 1).leaf("thread1", 2).close();
    let board = threads.leaf("core1", 2).close().close();
    let details = "/cpus/cpu-map/cluster0/core0/thread1 names /cpus/cpu@1, phandle 0x2";
    told(board, 25, "/cpus/cpu-map/cluster0/core1", details);
}

#[test]
fn cpu_without_a_leaf() {
    let board = cpus(1).begin("cpu-map").begin("cluster0");
    let board = board.leaf("core0", 1).close().close().cpu(0).cpu(15);
    told(board, 26, "/cpus/cpu@15", "its phandle is 0x10");
}
