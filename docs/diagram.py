"""What the pictures of this folder are drawn with: listings of a fund, and diagrams in powers of ten.

The listing program is built by `scripts/build listing`.
"""

import re
import subprocess
from math import log10
from pathlib import Path

ROOT = Path(__file__).resolve().parent.parent
PROGRAM = ROOT / "target" / "bin" / "listing"
UNIT = 10 ** 12

WIDTH, HEIGHT = 860, 360         # of each diagram
LEFT, RIGHT, TOP, BOTTOM = 80, 20, 50, 50


def listing(data):
    """The figures of a listing by their keys, and its cells; of a refused fund one figure, `refused`."""
    text = subprocess.run([PROGRAM], input=data, capture_output=True, check=True).stdout.decode()
    figures = {}
    cells = []
    for line in text.splitlines():
        key, value = line.split("=")
        if key == "cell":
            cells.append(tuple(int(word) for word in value.split(",")))
        else:
            figures[key] = value
    return figures, cells


def with_header(data, key, number):
    """The file with another number in this header line."""
    return re.sub(rb"(?m)^%s=\d+" % key, b"%s=%d" % (key, number), data)


class Diagram:
    """One diagram: powers of ten upwards, whole numbers to the right."""

    def __init__(self, top, title, across, most, low, high, marks=None):
        self.top, self.most, self.low, self.high = top + TOP, most, low, high
        self.parts = [text(LEFT, top + 24, title, 15)]
        for power in range(low, high + 1, 2):
            y = self.y(10.0 ** power)
            self.parts.append(f'<line x1="{LEFT}" y1="{y:.1f}" x2="{WIDTH - RIGHT}" y2="{y:.1f}" stroke="#dddddd"/>')
            self.parts.append(text(LEFT - 8, y + 4, f"10^{power}" if power else "1", 12, "end"))
        self.parts.append(text(WIDTH - RIGHT, self.top + HEIGHT - BOTTOM - TOP + 36, across, 12, "end"))
        for x in marks or range(0, most + 1, 50):
            self.parts.append(text(self.x(x), self.top + HEIGHT - BOTTOM - TOP + 18, str(x), 12, "middle"))

    def x(self, amount):
        return LEFT + (WIDTH - LEFT - RIGHT) * amount / self.most

    def y(self, value):
        share = (log10(max(value, 10.0 ** self.low)) - self.low) / (self.high - self.low)
        return self.top + (HEIGHT - TOP - BOTTOM) * (1 - share)

    def line(self, points, colour, label, place):
        path = " ".join(f"{self.x(x):.1f},{self.y(v):.1f}" for x, v in points)
        self.parts.append(f'<polyline points="{path}" fill="none" stroke="{colour}" stroke-width="1.5"/>')
        self.label(colour, label, place)

    def bars(self, points, colour, label, place, width=None):
        wide = f' stroke-width="{width}"' if width else ""
        for x, v in points:
            if v > 10.0 ** self.low:
                self.parts.append(f'<line x1="{self.x(x):.1f}" y1="{self.y(10.0 ** self.low):.1f}" x2="{self.x(x):.1f}" y2="{self.y(v):.1f}" stroke="{colour}"{wide}/>')
        self.label(colour, label, place)

    def label(self, colour, label, place):
        y = self.top + 14 + 18 * place
        self.parts.append(f'<rect x="{WIDTH - 330}" y="{y - 9}" width="12" height="10" fill="{colour}"/>')
        self.parts.append(text(WIDTH - 312, y, label, 12))


def text(x, y, words, size, anchor="start"):
    return f'<text x="{x:.1f}" y="{y:.1f}" font-family="sans-serif" font-size="{size}" text-anchor="{anchor}">{words}</text>'


def draw(path, *diagrams):
    """The diagrams one below the other."""
    height = len(diagrams) * HEIGHT
    parts = [part for diagram in diagrams for part in diagram.parts]
    path.write_text(f'<svg xmlns="http://www.w3.org/2000/svg" width="{WIDTH}" height="{height}" viewBox="0 0 {WIDTH} {height}">\n<rect width="100%" height="100%" fill="white"/>\n' + "\n".join(parts) + "\n</svg>\n")
