# SPDX-License-Identifier: BSD-2-Clause OR GPL-2.0-or-later
"""What fdtget says of a blob, beside what the command line says: a second look that shares no code with the reader."""

import subprocess

# Told before the map is looked for; a board with one of them may have a map or not.
BEFORE_THE_MAP = {5, 7, 8, 9, 10, 11, 12, 13, 31, 32, 33, 35, 36, 37}

# Where Linux has the four affinity levels of an MPIDR.
LEVELS = (0, 8, 16, 32)


class Disagreement(Exception):
    pass


def demand(holds, words):
    if not holds:
        raise Disagreement(words)


def fdtget(*words):
    """The lines that fdtget prints; None where it fails."""
    done = subprocess.run(["fdtget", *words], stdout=subprocess.PIPE, stderr=subprocess.DEVNULL)
    return done.stdout.decode("ascii", "replace").splitlines() if done.returncode == 0 else None


def has_map(blob):
    return "cpu-map" in (fdtget("-l", blob, "/cpus") or [])


def check_refusal(blob, number):
    """A map is there exactly where the number says that one was found."""
    if number == 34:
        demand((fdtget("-l", blob, "/") or []).count("cpus") != 1, "34, but the root has one cpus")
    elif number == 15:
        demand(fdtget("-l", blob, "/cpus") is not None and not has_map(blob), "15, but there is a cpu-map, or no /cpus")
    elif number not in BEFORE_THE_MAP:
        demand(has_map(blob), f"{number}, but there is no cpu-map")


def number_of(cells):
    """The number that cells in hex make, the upper one first."""
    value = 0
    for cell in cells.split():
        value = value << 32 | int(cell, 16)
    return value


def identity(row):
    """The MPIDR of a row, or its hart id."""
    return int(row["mpidr"], 16) if "mpidr" in row else row["hart"]


def check_rows(blob, rows):
    """Each cpu node has a row, whose leaf refers to it by its phandle, and whose number is its reg."""
    cpus = [name for name in fdtget("-l", blob, "/cpus") if name.split("@")[0] == "cpu"]
    demand(sorted("/cpus/" + name for name in cpus) == sorted(row["cpu"] for row in rows), "the rows are not those of the cpu nodes")
    asked = []
    for row in rows:
        asked += [row["leaf"], "cpu", row["cpu"], "phandle", row["cpu"], "reg"]
    lines = fdtget("-t", "x", blob, *asked)
    demand(lines is not None and len(lines) == 3 * len(rows), "a property of a row is not there")
    for k, row in enumerate(rows):
        cpu, phandle, reg = lines[3 * k : 3 * k + 3]
        demand(cpu == phandle, f"{row['leaf']} does not refer to {row['cpu']}")
        demand(number_of(reg) == identity(row), f"{row['cpu']} has another reg")


def linux_hash(mpidrs):
    """Mask, shifts and bits as Linux computes them (smp_build_mpidr_hash)."""
    mask = 0
    for mpidr in mpidrs:
        mask |= mpidr ^ mpidrs[0]
    shifts, bits = [], 0
    for level in LEVELS:
        part = mask >> level & 0xFF
        low = (part & -part).bit_length() - 1 if part else 0
        shifts.append(level + low - bits)
        bits += part.bit_length() - low
    return mask, shifts, bits


def check_hash(told):
    """Mask, shifts, bits and slots are Linux's, and no two processors share a slot. A RISC-V board has none of them."""
    rows = told["rows"]
    if told["board"] == "riscv":
        demand(all(row["slot"] is None for row in rows), "a hart has a slot")
        return
    mask, shifts, bits = linux_hash([identity(row) for row in rows])
    demand((int(told["mask"], 16), told["shifts"], told["bits"]) == (mask, shifts, bits), "another hash than Linux's")
    for row in rows:
        slot = 0
        for level, shift in zip(LEVELS, shifts):
            slot |= (identity(row) & mask & 0xFF << level) >> shift
        demand(slot == row["slot"], f"{row['cpu']}: another slot than Linux's")
    demand(len({row["slot"] for row in rows}) == len(rows), "two processors share a slot")


def check_accepted(blob, told):
    demand(has_map(blob), "read, but there is no cpu-map")
    demand(told["count"] == len(told["rows"]) > 0, "another count than rows")
    check_rows(blob, told["rows"])
    check_hash(told)
