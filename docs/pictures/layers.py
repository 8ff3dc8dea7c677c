# SPDX-License-Identifier: BSD-2-Clause OR GPL-2.0-or-later
"""The picture of the crates in layers, the lowest at the bottom."""

import textwrap

import crates
from svg import Canvas

WIDTH = 900
MARGIN = 24
INSIDE = 8
GAP = 10
LETTER = 6.6
FILLS = ("#e6ebf2", "#e3eefb", "#e2f3ee", "#fdf0dc", "#f7e8f1", "#e9e6fa", "#eef2e0")


def columns(count):
    """How many cards stand side by side."""
    return {1: 1, 2: 2, 4: 2}.get(count, 3)


def wrapped(crate, width):
    """The lines of what a crate holds."""
    return textwrap.wrap(crate.words, int((width - 20) / LETTER))


def draw_card(canvas, x, y, size, crate):
    width, height = size
    canvas.box(x, y, width, height)
    canvas.text(x + 10, y + 20, crate.name, "mono bold")
    if crate.numbers:
        canvas.text(x + width - 10, y + 20, crate.numbers, "small bold", "end", "#a34a06")
    for k, line in enumerate(wrapped(crate, width)):
        canvas.text(x + 10, y + 39 + 15 * k, line, "small")
    canvas.text(x + 10, y + height - 9, "on " + (", ".join(crate.on) or "no other crate"), "mono small faint")


def draw_layer(canvas, layer, y, fill):
    """A band with the cards of a layer; gives the height below it."""
    across = columns(len(layer.crates))
    step = (WIDTH - 2 * MARGIN - 2 * INSIDE + GAP) / across
    card = 54 + 15 * max(len(wrapped(crate, step - GAP)) for crate in layer.crates)
    height = 30 + -(-len(layer.crates) // across) * (card + GAP)
    canvas.box(MARGIN, y, WIDTH - 2 * MARGIN, height, fill, "none")
    canvas.text(MARGIN + INSIDE + 2, y + 21, layer.name, "heading")
    for k, crate in enumerate(layer.crates):
        row, column = divmod(k, across)
        draw_card(canvas, MARGIN + INSIDE + column * step, y + 30 + row * (card + GAP), (step - GAP, card), crate)
    return y + height


def description(layers):
    lines = [f"{layer.name}: {', '.join(crate.name for crate in layer.crates)}" for layer in layers]
    return "From the lowest layer to the highest. " + "; ".join(lines) + "."


def draw(layers_text, crates_text, header_text):
    layers = crates.read(layers_text, crates_text)
    crates.check_numbers(layers, header_text)
    canvas = Canvas(WIDTH, "The crates in layers, and the numbers that each tells", description(layers))
    canvas.text(MARGIN, 36, "The layers", "title")
    canvas.text(MARGIN, 58, "each crate with the numbers that it tells, and the crates that it stands on directly", "faint")
    y = 74
    for k, layer in reversed(list(enumerate(layers))):
        y = draw_layer(canvas, layer, y, FILLS[k % len(FILLS)]) + 8
    return canvas.document(y + 12)
