# SPDX-License-Identifier: BSD-2-Clause OR GPL-2.0-or-later
"""SVG by hand: a canvas with a background of its own, and the few shapes that the pictures need."""

from xml.sax.saxutils import escape, quoteattr

STYLE = """
text { fill: #1b2733; font: 13px system-ui, -apple-system, 'Segoe UI', Roboto, 'DejaVu Sans', sans-serif; }
.mono { font-family: ui-monospace, SFMono-Regular, Menlo, Consolas, 'DejaVu Sans Mono', monospace; font-size: 12px; }
.title { font-size: 19px; font-weight: 600; }
.heading { font-size: 15px; font-weight: 600; }
.small { font-size: 11px; }
.faint { fill: #5c6b7a; }
.bold { font-weight: 600; }
"""

LINE = "#8795a5"


def number(value):
    """A coordinate without a fraction where it has none."""
    return f"{value:.1f}".rstrip("0").rstrip(".")


def attributes(pairs):
    return "".join(f" {name.replace('_', '-')}={quoteattr(number(value) if isinstance(value, (int, float)) else value)}"
                   for name, value in pairs.items() if value is not None)


class Canvas:
    """A picture of a width, as high as what is drawn on it needs."""

    def __init__(self, width, title, description):
        self.width, self.title, self.description, self.parts = width, title, description, []

    def box(self, x, y, width, height, fill="#ffffff", stroke=LINE, **more):
        pairs = {"x": x, "y": y, "width": width, "height": height, "rx": 5, "fill": fill, "stroke": stroke, **more}
        self.parts.append(f"<rect{attributes(pairs)}/>")

    def text(self, x, y, words, style="", anchor=None, fill=None):
        """Words on a base line; a colour of their own goes before the style's."""
        pairs = {"x": x, "y": y, "class": style or None, "text_anchor": anchor, "style": f"fill: {fill}" if fill else None}
        self.parts.append(f"<text{attributes(pairs)}>{escape(words)}</text>")

    def path(self, points, stroke=LINE, **more):
        """Straight lines from point to point."""
        steps = " ".join(f"{'L' if k else 'M'}{number(x)} {number(y)}" for k, (x, y) in enumerate(points))
        self.parts.append(f"<path{attributes(dict(d=steps, fill='none', stroke=stroke, **more))}/>")

    def arrow(self, points, stroke=LINE):
        """Straight lines, and a head at the last point, which is reached downwards."""
        x, y = points[-1]
        self.path([*points[:-1], (x, y - 5)], stroke, stroke_width=1.6)
        self.parts.append(f'<path d="M{number(x - 4)} {number(y - 7)} h8 l-4 7 z" fill="{stroke}"/>')

    def document(self, height):
        head = f'<svg xmlns="http://www.w3.org/2000/svg" width="{self.width}" height="{number(height)}"'
        view = f'viewBox="0 0 {self.width} {number(height)}" role="img" aria-labelledby="title desc">'
        ground = f"<rect{attributes(dict(x=0.5, y=0.5, width=self.width - 1, height=height - 1, rx=8, fill='#f7f9fc', stroke='#c9d3de'))}/>"
        names = [f'<title id="title">{escape(self.title)}</title>', f'<desc id="desc">{escape(self.description)}</desc>']
        return "\n".join([f"{head} {view}", *names, f"<style>{STYLE}</style>", ground, *self.parts, "</svg>", ""])
