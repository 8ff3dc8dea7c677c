# SPDX-License-Identifier: BSD-2-Clause OR GPL-2.0-or-later
"""The way from MPIDR to slot: the bits under the mask, each level moved right by its shift, joined; and the slots."""

from rows import steps

LEFT = 30
RIGHT = 870
BITS = 290
CELL = 13
GROUP = 8 * CELL + 10
HEIGHT = 23
RESULT = 758
SLOT_CELL = 34

# Where an MPIDR has its affinity levels, and a colour for each: dark for lines and words, light for cells.
LEVELS = (0, 8, 16, 32)
DARK = ("#1d5fc4", "#a34a06", "#12703a", "#6a35c9")
LIGHT = ("#d8e6fd", "#fde5c9", "#d3f0dc", "#e8defb")


def group_x(level):
    return BITS + (3 - level) * GROUP


def bit_x(level, bit):
    """The middle of a bit's cell."""
    return group_x(level) + (7 - bit) * CELL + CELL / 2


def levels_of(board):
    """The levels that the mask has bits of, the uppermost first, each with the bits of the mask in it."""
    mask = int(board["mask"], 16)
    parts = [(level, mask >> LEVELS[level] & 0xFF) for level in (3, 2, 1, 0)]
    return [(level, part) for level, part in parts if part]


def draw_value(canvas, y, value, mask):
    """The four levels of a value bit by bit; those under the mask stand out."""
    for level, start in enumerate(LEVELS):
        for bit in range(8):
            x, word = bit_x(level, bit), str(value >> start + bit & 1)
            if mask >> start + bit & 1:
                canvas.box(x - CELL / 2 + 0.5, y - 9, CELL - 1, 18, LIGHT[level], DARK[level], rx=3)
                canvas.text(x, y + 4, word, "mono bold", "middle", DARK[level])
            else:
                canvas.text(x, y + 4, word, "mono", "middle", "#a9b4c0")


def draw_parts(canvas, y, row, board):
    """The level's bits after their shift, joined, and the slot that they are."""
    x = RESULT
    for k, (level, part) in enumerate(levels_of(board)):
        if k:
            canvas.text(x, y + 4, "|", "mono faint", "middle")
            x += 14
        moved = (int(row["mpidr"], 16) & part << LEVELS[level]) >> board["shifts"][level]
        canvas.text(x, y + 4, str(moved), "mono bold", "middle", DARK[level])
        x += 14
    canvas.text(x, y + 4, "=", "mono faint", "middle")
    canvas.text(x + 18, y + 4, str(row["slot"]), "mono bold", "middle")


def draw_heads(canvas, board, y):
    for level in range(4):
        used = any(level == one for one, _ in levels_of(board))
        canvas.text(group_x(level) + 4 * CELL, y - 14, f"Aff{level}", "small bold", "middle", DARK[level] if used else "#8795a5")
        low = LEVELS[level]
        canvas.text(group_x(level) + 4 * CELL, y, f"bits {low + 7}..{low}", "small faint", "middle")


def slot_bits_x(board, level, part):
    """The middle of the cells that a level's bits have in the slot."""
    low = (part & -part).bit_length() - 1
    first = LEVELS[level] + low - board["shifts"][level]
    width = part.bit_length() - low
    return RESULT - SLOT_CELL / 2 + (board["bits"] - first - width / 2) * SLOT_CELL


def draw_moves(canvas, board, y):
    """A line for each level from its bits down to their cells in the slot. Lines of upper levels run lower, so that none cross."""
    used = levels_of(board)
    bottom = y + 20 * len(used) + 22
    for k, (level, part) in enumerate(used):
        low, high = (part & -part).bit_length() - 1, part.bit_length() - 1
        x, turn = (bit_x(level, low) + bit_x(level, high)) / 2, y + 20 * (len(used) - k)
        end = slot_bits_x(board, level, part)
        canvas.arrow([(x, y), (x, turn), (end, turn), (end, bottom)], DARK[level])
        canvas.text(x + 6, turn - 5, f">> {board['shifts'][level]}", "mono bold", fill=DARK[level])
        width = (high - low + 1) * SLOT_CELL
        canvas.box(end - width / 2, bottom, width, 22, LIGHT[level], DARK[level])
        bits = f"bit {LEVELS[level] + low - board['shifts'][level]}"
        canvas.text(end, bottom + 15, bits, "small", "middle", DARK[level])
    canvas.text(RESULT - SLOT_CELL / 2 - 12, bottom + 15, "joined: the slot", "", "end")
    return bottom + 22


def draw_bits(canvas, board, top):
    """The part with the bits of each MPIDR; gives the height below it."""
    mask = int(board["mask"], 16)
    canvas.text(LEFT, top, "From MPIDR to slot", "heading")
    canvas.text(LEFT, top + 20, "the bits in which the MPIDRs differ (the mask), each level moved right by its shift, joined", "faint")
    draw_heads(canvas, board, top + 62)
    y = top + 82
    canvas.text(LEFT, y + 4, "mask", "mono bold")
    canvas.text(LEFT + 180, y + 4, board["mask"], "mono")
    draw_value(canvas, y, mask, mask)
    canvas.text(RESULT - 4, y + 4, "moved | joined", "small faint")
    canvas.path([(LEFT, y + 16), (RIGHT, y + 16)], "#c9d3de")
    y += 9
    for row in board["rows"]:
        y += HEIGHT
        canvas.text(LEFT, y + 4, "/".join(steps(row)), "mono")
        canvas.text(LEFT + 180, y + 4, row["mpidr"], "mono")
        draw_value(canvas, y, int(row["mpidr"], 16), mask)
        draw_parts(canvas, y, row, board)
    return draw_moves(canvas, board, y + 14)


def draw_slot(canvas, x, y, slot, row):
    """One slot with the processor that has it, or a gap."""
    width = 96
    if row is None:
        canvas.box(x, y, width, 88, "none", stroke_dasharray="4 4")
        canvas.text(x + width / 2, y + 58, "gap", "faint", "middle")
    else:
        canvas.box(x, y, width, 88)
        for k, step in enumerate(steps(row)):
            canvas.text(x + width / 2, y + 42 + 16 * k, step, "mono", "middle")
    canvas.text(x + width / 2, y + 21, str(slot), "mono bold" if row else "mono faint", "middle")


def draw_slots(canvas, board, top):
    """The part with the slots; gives the height below it."""
    owners = {row["slot"]: row for row in board["rows"]}
    count = 1 << board["bits"]
    canvas.text(LEFT, top, f"The {count} slots", "heading")
    canvas.text(LEFT, top + 20, "where code that wakes a processor finds the registers that it saved; no two processors share one", "faint")
    step = (RIGHT - LEFT - 96) / (count - 1)
    for slot in range(count):
        draw_slot(canvas, LEFT + slot * step, top + 34, slot, owners.get(slot))
    return top + 34 + 88
