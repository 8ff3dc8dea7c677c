# SPDX-License-Identifier: BSD-2-Clause OR GPL-2.0-or-later
"""The map as a tree from left to right, and beside each leaf its row."""

LEFT = 30
STEP = 94
BOX = 74
HEIGHT = 32
TABLE = 404
COLUMNS = [("CPU", 404), ("MPIDR", 490), ("SOCKET", 574), ("CLUSTER", 642), ("CORE", 714), ("THREAD", 768), ("SLOT", 832)]


def steps(row):
    """The names from the map to the leaf."""
    return row["leaf"].split("/cpu-map/", 1)[1].split("/")


def words(row):
    """What the columns have of a row; a gap is None."""
    clusters = "/".join(map(str, row["clusters"])) if row["clusters"] else None
    return [row["cpu"].rsplit("/", 1)[1], row["mpidr"], row["socket"], clusters, row["core"], row["thread"], row["slot"]]


def node(canvas, depth, y, label):
    x = LEFT + depth * STEP
    canvas.box(x, y - 11, BOX, 22)
    canvas.text(x + BOX / 2, y + 4, label, "mono", "middle")


def join(canvas, depth, y, child):
    """A line from a node to its child one step to the right."""
    start, end = LEFT + depth * STEP + BOX, LEFT + (depth + 1) * STEP
    middle = (start + end) / 2
    canvas.path([(start, y), (middle, y), (middle, child), (end, child)])


def draw_tree(canvas, label, leaves, depth):
    """A node and what is below it: leaves are pairs of the steps that are left and a height. Gives the node's height."""
    if not leaves[0][0]:
        y = leaves[0][1]
        canvas.path([(LEFT + depth * STEP + BOX, y), (TABLE - 6, y)], stroke_dasharray="2 4")
    else:
        groups = {}
        for path, height in leaves:
            groups.setdefault(path[0], []).append((path[1:], height))
        children = [draw_tree(canvas, child, below, depth + 1) for child, below in groups.items()]
        y = (children[0] + children[-1]) / 2
        for child in children:
            join(canvas, depth, y, child)
    node(canvas, depth, y, label)
    return y


def draw_row(canvas, y, row):
    for (_, x), word in zip(COLUMNS, words(row)):
        if word is None:
            canvas.box(x - 4, y - 10, 22, 20, "none", stroke_dasharray="3 3")
            canvas.text(x + 7, y + 4, "-", "mono faint", "middle")
        else:
            canvas.text(x, y + 4, str(word), "mono bold" if x == COLUMNS[-1][1] else "mono")


def draw(canvas, rows, top):
    """The part with map and rows; gives the height below it."""
    canvas.text(LEFT, top, "The map", "heading")
    canvas.text(TABLE, top, "A row for each leaf", "heading")
    canvas.text(LEFT, top + 20, "as the devicetree has it", "faint")
    canvas.text(TABLE, top + 20, "in the order of the leaves; - is a gap: the map states nothing there", "faint")
    for label, x in COLUMNS:
        canvas.text(x, top + 46, label, "mono small faint")
    heights = [top + 70 + k * HEIGHT for k in range(len(rows))]
    for y, row in zip(heights, rows):
        draw_row(canvas, y, row)
    draw_tree(canvas, "cpu-map", [(steps(row), y) for y, row in zip(heights, rows)], 0)
    return heights[-1] + HEIGHT / 2
