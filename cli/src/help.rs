// SPDX-License-Identifier: BSD-2-Clause OR GPL-2.0-or-later
//! What `--help` prints.

pub const USAGE: &str = "\
Usage: sunderwath [OPTION]... FILE...

Check the processor topology of devicetrees and print one line per processor.
FILE is a blob (.dtb), a source (.dts, compiled by dtc), a directory that holds
a live tree (/proc/device-tree), or - for a blob or a source on standard input.

  -b, --board arm32|arm64|riscv
                 kind of board: ARM v7, ARM v8 (default) or RISC-V
  -w, --width 32|64|5
                 the same by its number: 32 ARM v7, 64 ARM v8, 5 RISC-V
  -c, --check    print only why boards are refused
  -p, --parse    print comma-separated values, with comments after #
  -j, --json     print JSON, and why a board is refused as an object
  -t, --tree[=ascii|utf8]
                 print the cpu-map as a tree, indented or with lines; by
                 default with lines on a terminal that has UTF-8
  -s, --slots    print each slot and the processor that has it, - for none
      --plan     with a table, -p or -j: print a plan for fewer slots, too: bit
                 positions that tell the MPIDRs apart, and each slot under it
  -q, --quiet    print no note, and no message when a board is refused
  -h, --help     print this help
  -V, --version  print the version

Exit status: 0 all accepted, 1 any refused, 2 wrong usage or any unreadable file.
";

/// Behind what is wrong with the arguments.
pub const HINT: &str = "Try 'sunderwath --help' for more information.";
