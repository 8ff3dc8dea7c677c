#!/usr/bin/env python3
# SPDX-License-Identifier: BSD-2-Clause OR GPL-2.0-or-later
"""damage.py BLOB FOLDER: damaged variants of a devicetree blob that QEMU made for four processors.

Each variant is BLOB with one fault, made in place, so that everything else stays where it was, or with its two blocks
in another order. It is written as FOLDER/NAME.dtb, and a line "NAME NUMBER LENT" is printed: the number of the rule that
the fault breaks, 0 where the variant is accepted, and how many bytes the firmware should lend: those of the header where
there is no magic, else as many as the header states.
"""
import struct
import sys

MAGIC, HEADER_BYTES = 0xD00DFEED, 40
TOTAL, STRUCTURE, STRINGS, VERSION, COMPATIBLE, STRINGS_SIZE, STRUCTURE_SIZE = 4, 8, 12, 20, 24, 32, 36
BEGIN_NODE, END_NODE, PROP, NOP, END = 1, 2, 3, 4, 9


class Blob:
    """A blob, and where its nodes and properties stand."""

    def __init__(self, data):
        self.data = bytearray(data)
        self.nodes = {}  # path: (offset of the token, offset behind the node's last token)
        self.props = {}  # (path, name): offset of the token
        self.end = 0  # offset of FDT_END
        self.walk()

    def word(self, at):
        return struct.unpack_from(">I", self.data, at)[0]

    def put(self, at, value):
        struct.pack_into(">I", self.data, at, value)

    def add(self, at, value):
        self.put(at, self.word(at) + value)

    def text(self, at):
        return self.data[at:self.data.index(0, at)].decode()

    def walk(self):
        at, path = self.word(STRUCTURE), []
        while True:
            token, start = self.word(at), at
            at += 4
            if token == BEGIN_NODE:
                name = self.text(at)
                path.append((name, start))
                at += len(name) // 4 * 4 + 4
            elif token == END_NODE:
                here = "/".join(name for name, _ in path)
                self.nodes[here] = (path.pop()[1], at)
            elif token == PROP:
                size, name = self.word(at), self.text(self.word(STRINGS) + self.word(at + 4))
                self.props["/".join(n for n, _ in path), name] = start
                at += 8 + (size + 3) // 4 * 4
            elif token == END:
                self.end = start
                return

    def rename(self, path, name):
        """Another name for a node; words that are left over become FDT_NOP."""
        at = self.nodes[path][0] + 4
        room = len(self.text(at)) // 4 * 4 + 4
        used = len(name) // 4 * 4 + 4
        assert used <= room, (path, name)
        self.data[at:at + room] = name.encode().ljust(used, b"\0") + struct.pack(">I", NOP) * ((room - used) // 4)

    def remove(self, path):
        start, behind = self.nodes[path]
        for at in range(start, behind, 4):
            self.put(at, NOP)

    def value(self, path, name):
        """The offset of a property's first cell."""
        return self.props[path, name] + 12

    def call_it(self, path, name, other):
        """Another name for a property, one that the strings block has."""
        strings = self.word(STRINGS)
        at = self.data.index(b"\0" + other.encode() + b"\0", strings) + 1
        self.put(self.props[path, name] + 8, at - strings)


    def strings_first(self):
        """The structure block behind the strings block, each as it was."""
        structure, strings = self.word(STRUCTURE), self.word(STRINGS)
        assert structure < strings
        tokens = self.data[structure:structure + self.word(STRUCTURE_SIZE)]
        names = self.data[strings:strings + self.word(STRINGS_SIZE)]
        names += bytes(-len(names) % 4)
        self.put(STRINGS, structure)
        self.put(STRUCTURE, structure + len(names))
        self.put(TOTAL, structure + len(names) + len(tokens))
        self.data[structure:] = names + tokens


def cpus(blob):
    return [path for path in blob.nodes if path.startswith("/cpus/cpu@") and path.count("/") == 2]


def header_faults(add):
    add("magic", 31, lambda b: b.put(0, 0xD00DFEEE))
    add("total-0", 31, lambda b: b.put(TOTAL, 0))
    add("total-39", 31, lambda b: b.put(TOTAL, 39))
    add("version-16", 31, lambda b: b.put(VERSION, 16))
    add("compatible-18", 31, lambda b: b.put(COMPATIBLE, 18))
    add("strings-first", 0, Blob.strings_first)
    add("structure-odd", 32, lambda b: b.add(STRUCTURE, 2))
    add("structure-size-odd", 32, lambda b: b.add(STRUCTURE_SIZE, -2))
    add("structure-far", 32, lambda b: b.put(STRUCTURE, 0xFFFFFFFC))
    add("strings-outside", 32, lambda b: b.put(STRINGS_SIZE, b.word(TOTAL) - b.word(STRINGS) + 1))
    add("strings-far", 32, lambda b: b.put(STRINGS, 0xFFFFFFFF))


def stream_faults(add):
    add("token", 33, lambda b: b.put(b.nodes["/cpus"][0], 5))
    add("no-end", 33, lambda b: b.put(b.end, NOP))
    add("no-blocks", 33, lambda b: [b.put(at, 0) for at in (STRUCTURE, STRUCTURE_SIZE, STRINGS, STRINGS_SIZE)])
    add("end-early", 33, lambda b: b.put(b.nodes["/cpus/cpu@1"][0], END))
    add("node-not-ended", 33, lambda b: b.put(b.nodes["/cpus/cpu@1"][1] - 4, NOP))
    add("value-far", 33, lambda b: b.put(b.props["/cpus/cpu@0", "reg"] + 4, 0xFFFFFFF0))
    add("name-far", 33, lambda b: b.put(b.props["/cpus/cpu@0", "reg"] + 8, b.word(STRINGS_SIZE)))
    add("no-cpus", 34, lambda b: b.rename("/cpus", "cpux"))
    add("two-cpus", 34, lambda b: b.rename("/chosen", "cpus"))


def cpu_faults(add, riscv):
    add("same-property", 8, lambda b: b.call_it("/cpus/cpu@1", "reg", "phandle"))
    add("address-cells", 36, lambda b: b.put(b.value("/cpus", "#address-cells"), 3))
    add("size-cells", 37, lambda b: b.put(b.value("/cpus", "#size-cells"), 1))
    add("no-cpu", 10, lambda b: [b.rename(path, "xpu@0") for path in cpus(b)])
    add("device-type", 11, lambda b: b.put(b.value("/cpus/cpu@2", "device_type"), 0x63707800))
    add("no-reg", 12, lambda b: b.call_it("/cpus/cpu@2", "reg", "#size-cells"))
    add("same-reg", 13, lambda b: b.put(b.value("/cpus/cpu@3", "reg"), 1))
    # A hart id may have any value.
    add("reg-bit-24", 0 if riscv else 12, lambda b: b.put(b.value("/cpus/cpu@3", "reg"), 0x01000003))
    add("other-reg", 0, lambda b: b.put(b.value("/cpus/cpu@0", "reg"), 0xFF00))


def map_faults(add, level, phandle):
    """`level` is the path of the cluster with four cores, `phandle` that of cpu@0."""
    add("no-map", 15, lambda b: b.rename("/cpus/cpu-map", "cpu-mop"))
    add("two-maps", 16, lambda b: b.rename("/cpus/cpu@3", "cpu-map"))
    add("no-phandle", 17, lambda b: b.call_it("/cpus/cpu@1", "phandle", "#size-cells"))
    add("phandle-0", 17, lambda b: b.put(b.value("/cpus/cpu@2", "phandle"), 0))
    add("same-phandle", 17, lambda b: b.put(b.value("/cpus/cpu@3", "phandle"), phandle))
    add("outside-map", 18, lambda b: [b.remove(level + "/core3"), b.rename("/cpus/cpu@3", "core3")])
    add("map-name", 19, lambda b: b.rename(level + "/core1", "core01"))
    add("map-kind", 20, lambda b: b.rename(level + "/core1", "socket1"))
    add("map-order", 21, lambda b: b.rename(level + "/core3", "core4"))
    add("map-twice", 21, lambda b: b.rename(level + "/core3", "core2"))
    add("map-empty", 23, lambda b: [b.remove(f"{level}/core{k}") for k in range(4)])
    add("leaf-0", 24, lambda b: b.put(b.value(level + "/core2", "cpu"), 0))
    add("leaf-no-cpu", 24, lambda b: b.call_it(level + "/core1", "cpu", "reg"))
    add("leaf-again", 25, lambda b: b.put(b.value(level + "/core2", "cpu"), phandle))
    add("cpu-unmapped", 26, lambda b: b.remove(level + "/core3"))


def main():
    source, folder = sys.argv[1:]
    with open(source, "rb") as file:
        whole = file.read()
    sound = Blob(whole)
    sockets = "/cpus/cpu-map/socket0" in sound.nodes

    def add(name, number, edit):
        blob = Blob(whole)
        edit(blob)
        assert blob.data != sound.data, name
        with open(f"{folder}/{name}.dtb", "wb") as file:
            file.write(blob.data)
        print(name, number, blob.word(TOTAL) if blob.word(0) == MAGIC else HEADER_BYTES)

    header_faults(add)
    stream_faults(add)
    cpu_faults(add, not sockets)
    level = "/cpus/cpu-map" + ("/socket0" if sockets else "") + "/cluster0"
    map_faults(add, level, sound.word(sound.value("/cpus/cpu@0", "phandle")))


main()
