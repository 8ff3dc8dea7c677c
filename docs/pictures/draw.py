# SPDX-License-Identifier: BSD-2-Clause OR GPL-2.0-or-later
"""Draws the pictures: draw.py BOARD PRINTED FOLDER

BOARD is the source's name and PRINTED the file with what `sunderwath --json` printed of it. Writes board.json, board.svg and layers.svg
to FOLDER. board.json has what the picture needs of the printed object; layers.svg is drawn from TEXTS.
"""

import json
import pathlib
import sys

import board
import layers

HERE = pathlib.Path(__file__).resolve().parent
TEXTS = (HERE / "layers.txt", HERE / "../../crates.txt", HERE / "../../include/sunderwath.h")
MEMBERS = ("width", "board", "count", "mask", "shifts", "bits")
ROW = ("leaf", "cpu", "mpidr", "socket", "clusters", "core", "thread", "slot")


def needed(printed):
    """The members that the picture needs."""
    return {**{name: printed[name] for name in MEMBERS}, "rows": [{name: row[name] for name in ROW} for row in printed["rows"]]}


def as_text(kept):
    """JSON with a line for each member and each row."""
    members = [f'  {json.dumps(name)}: {json.dumps(value)}' for name, value in kept.items() if name != "rows"]
    rows = ",\n".join("    " + json.dumps(row) for row in kept["rows"])
    return "{\n" + ",\n".join(members) + ',\n  "rows": [\n' + rows + "\n  ]\n}\n"


def main():
    source, printed, folder = sys.argv[1:]
    kept = needed(json.loads(pathlib.Path(printed).read_text()))
    texts = [file.read_text() for file in TEXTS]
    files = {"board.json": as_text(kept), "board.svg": board.draw(kept, source), "layers.svg": layers.draw(*texts)}
    for name, text in files.items():
        pathlib.Path(folder, name).write_text(text)


if __name__ == "__main__":
    main()
