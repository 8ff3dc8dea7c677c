# SPDX-License-Identifier: BSD-2-Clause OR GPL-2.0-or-later
"""The picture of one board: its map and rows, the way from MPIDR to slot, and the slots."""

import rows
import slots
from svg import Canvas

WIDTH = 900
MARGIN = 30
MOST_BITS = 3


def description(board):
    lines = [f"{name(row)} has MPIDR {row['mpidr']} and slot {row['slot']}" for row in board["rows"]]
    return f"The mask is {board['mask']}, the shifts are {' '.join(map(str, board['shifts']))}. " + "; ".join(lines) + "."


def name(row):
    return "/".join(rows.steps(row))


def draw(board, source):
    """The picture of what the command line printed of a board with MPIDRs and a hash of a few bits."""
    if not 0 < board["bits"] <= MOST_BITS:
        raise ValueError(f"there is no room for slots of {board['bits']} bits")
    canvas = Canvas(WIDTH, f"{source}: the map, a row for each processor, and its slot", description(board))
    canvas.text(MARGIN, 38, f"One board: {source}", "title")
    below = rows.draw(canvas, board["rows"], 72)
    below = slots.draw_bits(canvas, board, below + 44)
    below = slots.draw_slots(canvas, board, below + 44)
    return canvas.document(below + 24)
