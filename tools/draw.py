#!/usr/bin/env python3
"""Draws the figure of a figure text as SVG, with the names of its objects.

    python3 tools/draw.py < FIGURE > PICTURE.svg        or        python3 tools/draw.py FIGURE

It takes the lines `point`, `line` and `circle` of the text, by docs/figures.md, and leaves out the
literals: what is true in the figure is said by `elements figure`. A line that is drawn goes on beyond
the picture; a circle is drawn with the root of its square as its radius. It needs Python 3.8 or later,
and ends with the status 2 where a line of an object has no form.
"""

import re
import sys
from html import escape
from math import hypot, sqrt

SIZE = 480  # the longer side of the picture, without its margin
MARGIN = 40
COUNTS = {"point": 2, "line": 4, "circle": 3}  # the numbers of each object
NUMBER = re.compile(r"0|-?[1-9][0-9]*")
NAME = re.compile(r"[A-Za-z][A-Za-z0-9_']{0,15}")
STYLE = """
  line, circle { stroke: #335; stroke-width: 1.5; fill: none }
  .dot { fill: #b22; stroke: none }
  text { font: italic 16px serif; fill: #111 }
"""


def objects_of(text):
    """The objects of a figure text, in order: a word, a name, and numbers."""
    found = []
    for number, line in enumerate(text.splitlines(), 1):
        words = line.split()
        if not words or words[0] not in COUNTS:
            continue
        name, numbers = words[1:2], words[2:]
        if (len(numbers) != COUNTS[words[0]] or not NAME.fullmatch(name[0])
                or not all(NUMBER.fullmatch(n) for n in numbers)):
            sys.exit(fault(number))
        found.append((words[0], name[0], [int(n) for n in numbers]))
    return found


def fault(number):
    print(f"line {number} has no form", file=sys.stderr)
    return 2


def box_of(objects):
    """The least box with all points, circles, and the points by which lines are given."""
    xs, ys = [], []
    for word, _, (x, y, *rest) in objects:
        reach = sqrt(max(rest[0], 0)) if word == "circle" else 0
        xs += [x - reach, x + reach]
        ys += [y - reach, y + reach]
    if not xs:
        return 0, 0, 1, 1
    # a figure that is flat, or one point, gets some room
    room = max(max(xs) - min(xs), max(ys) - min(ys), 2) / 8
    return min(xs) - room, min(ys) - room, max(xs) + room, max(ys) + room


class Picture:
    """The lines of a picture; y grows upwards in the figure and downwards here."""

    def __init__(self, objects):
        self.box = box_of(objects)
        left, low, right, high = self.box
        self.scale = SIZE / max(right - left, high - low)
        self.middle = (left + right) / 2, (low + high) / 2
        self.lines = []

    def at(self, x, y):
        left, _, _, high = self.box
        return MARGIN + (x - left) * self.scale, MARGIN + (high - y) * self.scale

    def put(self, form, *numbers):
        self.lines.append("  " + form.format(*(f"{n:.2f}" for n in numbers)))

    def name(self, name, x, y, dx, dy):
        """A name beside a place, so many pixels away."""
        px, py = self.at(x, y)
        self.put('<text x="{}" y="{}">' + escape(name) + "</text>", px + dx, py + dy)

    def point(self, name, x, y):
        self.put('<circle class="dot" cx="{}" cy="{}" r="3.5"/>', *self.at(x, y))
        aside = 8 if x >= self.middle[0] else -16
        self.name(name, x, y, aside, -8 if y >= self.middle[1] else 18)

    def line(self, name, x, y, dx, dy):
        """The part of the line that goes through the picture, and some more at both ends."""
        if dx == dy == 0:
            return
        left, low, right, high = self.box
        size = hypot(dx, dy)
        ux, uy = dx / size, dy / size
        far = ((right + left) / 2 - x) * ux + ((high + low) / 2 - y) * uy
        reach = hypot(right - left, high - low)
        ends = clipped(x, y, ux, uy, far - reach, far + reach, self.box)
        if ends is None:
            return
        (ax, ay), (bx, by) = ends
        self.put('<line x1="{}" y1="{}" x2="{}" y2="{}"/>', *self.at(ax, ay), *self.at(bx, by))
        self.name(name, bx, by, 6 if ux >= 0 else -18, 5)

    def circle(self, name, x, y, square):
        radius = sqrt(max(square, 0))
        self.put('<circle cx="{}" cy="{}" r="{}"/>', *self.at(x, y), radius * self.scale)
        self.name(name, x - radius * 0.71, y + radius * 0.71, -16, -4)

    def text(self):
        left, low, right, high = self.box
        width = 2 * MARGIN + (right - left) * self.scale
        height = 2 * MARGIN + (high - low) * self.scale
        head = f'<svg xmlns="http://www.w3.org/2000/svg" width="{width:.0f}" height="{height:.0f}">'
        return "\n".join([head, f"<style>{STYLE}</style>", *self.lines, "</svg>", ""])


def clipped(x, y, ux, uy, first, last, box):
    """The ends of the part of a line that lies in a box, or nothing."""
    left, low, right, high = box
    for start, way, least, most in ((x, ux, left, right), (y, uy, low, high)):
        if way == 0:
            if not least <= start <= most:
                return None
            continue
        near, far = sorted(((least - start) / way, (most - start) / way))
        first, last = max(first, near), min(last, far)
    if first > last:
        return None
    return (x + first * ux, y + first * uy), (x + last * ux, y + last * uy)


def main():
    if sys.argv[1:]:
        with open(sys.argv[1], encoding="ascii") as file:
            text = file.read()
    else:
        text = sys.stdin.read()
    objects = objects_of(text)
    picture = Picture(objects)
    # points last, so that they lie over the lines
    for word, name, numbers in sorted(objects, key=lambda o: o[0] == "point"):
        getattr(picture, word)(name, *numbers)
    sys.stdout.write(picture.text())


if __name__ == "__main__":
    main()
