#!/usr/bin/env python3
"""Draws a chip and its record, which is what place or boxes prints: python3 pictures/draw.py CHIP RECORD > OUT.svg

A viewer outside the promise: nothing proves it, and it does not check that a placement is the least. The record is what counts.
"""
import itertools
import math
import sys
from collections import Counter

sys.dont_write_bytecode = True

from texts import MOST, Refused, apart, need, read_chip, read_record

WIDE, HIGH, EDGE, COLUMNS = 760, 600, 60, 6  # pixels of the drawing and its margin; columns of the list of nets
PIN, LABEL = 7, 36  # pixels: half a pin; the least distance of two numbers of an axis
AWAY, LIST = 14, 96  # pixels from the drawing to an axis, and to the list of nets
# 32 colours, each two at least 15.9 apart by CIEDE2000, and patterns of lines; a net takes one of each
COLOURS = ("a30 a0f 080 07b f47 a80 804 f72 0a9 238 054 766 540 b8c 4ac 775 "
           "8a0 89f 958 b87 708 f12 577 f0c 66a 532 250 a55 963 045 889 546").split()
DASHES = "none", "7 3", "2 2", "9 3 2 3"
KEY = ("; round: pin of a macro; square: pad; the number in a pin is that of its net",
       "pins at one spot are drawn in a row, the first of them at the spot; hollow: farther out than drawn")
PAGE = """<svg xmlns="http://www.w3.org/2000/svg" width="{wide}" height="{high}" viewBox="0 0 {wide} {high}">
<desc>{note}</desc><style>
text{{font-family:sans-serif;fill:#222;stroke:white;stroke-width:3;stroke-linejoin:round;paint-order:stroke}}
.die{{fill:url(#grid);stroke:#222;stroke-width:2}} .fix{{fill:url(#hatch);stroke:#777}}
.macro{{fill:#cfe3f7;stroke:#222;stroke-width:1.5}} .axis{{fill:none;stroke:#777}}
.net{{fill:none;stroke:currentColor;stroke-width:1.4}}
.pin{{fill:currentColor;stroke:white}} .pin+text{{fill:white;stroke:none}}
.far{{fill:white;stroke:currentColor;stroke-width:1.5}} .far+text{{fill:currentColor;stroke:none}}
</style><pattern id="hatch" width="6" height="6" patternUnits="userSpaceOnUse" patternTransform="rotate(45)">
<path d="M0,0V6" stroke="#bbb" stroke-width="7"/></pattern>
<pattern id="grid" x="{left}" y="{low}" width="{cell}" height="{cell}" patternUnits="userSpaceOnUse">
<path d="M0,0H{cell}M0,0V{cell}" stroke="#ccc"/></pattern>
<rect width="{wide}" height="{high}" fill="white"/>
{parts}
</svg>"""


def text(x, y, size, words, anchor="middle"):
    return f'<text x="{x:.1f}" y="{y:.1f}" dy=".35em" font-size="{size:.1f}" text-anchor="{anchor}">{words}</text>'


def line(kind, points, more=""):
    return f'<path class="{kind}"{more} d="M' + "L".join(f"{x:.1f},{y:.1f}" for x, y in points) + '"/>'


def places(left, top, right, low):
    """Middles and sizes for a number in a box of pixels: the largest first, and of each size from the middle outwards."""
    steps = sorted(itertools.product(range(-4, 5), repeat=2), key=lambda step: step[0] ** 2 + step[1] ** 2)
    for part in (0.5, 0.35, 0.25):
        size = max(11, min(48, part * min(right - left, low - top)))
        wide, high = max(0, right - left - size), max(0, low - top - size)
        for i, j in steps:
            yield (left + right + i / 4 * wide) / 2, (top + low + j / 4 * high) / 2, size


class View:
    """Tracks to pixels, y upwards: the die, and around it what the points need, as far as a reach."""

    def __init__(self, w, h, points, reach):
        xs, ys = [0, w] + [point[0] for point in points], [0, h] + [point[1] for point in points]
        self.x0, self.x1 = max(min(xs), -reach), min(max(xs), w + reach)
        self.y0, self.y1 = max(min(ys), -reach), min(max(ys), h + reach)
        self.scale = min(WIDE / (self.x1 - self.x0), HIGH / (self.y1 - self.y0))
        self.left = EDGE + (WIDE - self.scale * (self.x1 - self.x0)) / 2
        self.bottom = EDGE + self.scale * (self.y1 - self.y0)
        steps = (digit * 10 ** zeros for zeros in range(5) for digit in (1, 2, 5))
        self.step = next(step for step in steps if step * self.scale >= LABEL)
        self.pins, self.marks = Counter(), []  # how many pins a pixel has; where they are drawn

    def at(self, x, y):
        """The pixel of a spot; a spot outside the view goes to its edge."""
        x, y = min(max(x, self.x0), self.x1), min(max(y, self.y0), self.y1)
        return self.left + (x - self.x0) * self.scale, self.bottom - (y - self.y0) * self.scale

    def box(self, kind, x, y, w, h, title, grow=0, more=""):
        (left, low), (right, top) = self.at(x, y), self.at(x + w, y + h)
        return (f'<rect class="{kind}" x="{left - grow:.1f}" y="{top - grow:.1f}" width="{right - left + 2 * grow:.1f}" '
                f'height="{low - top + 2 * grow:.1f}"{more}><title>{title}</title></rect>')

    def axes(self, x0, y0, x1, y1):
        """Axes below and to the left of that part of the view, with a number at each grid line."""
        (left, low), (right, top) = self.at(x0, y0), self.at(x1, y1)
        left, low = left - AWAY, low + AWAY
        out = [line("axis", [(left + AWAY, low), (right, low)]), line("axis", [(left, low - AWAY), (left, top)])]
        for x in range(-(-x0 // self.step) * self.step, x1 + 1, self.step):
            at = self.at(x, 0)[0]
            out += [line("axis", [(at, low), (at, low + 4)]), text(at, low + 12, 11, x)]
        for y in range(-(-y0 // self.step) * self.step, y1 + 1, self.step):
            at = self.at(0, y)[1]
            out += [line("axis", [(left, at), (left - 4, at)]), text(left - 7, at, 11, y, "end")]
        return out

    def pin(self, x, y, pad, k, name):
        """A pin with the number of its net, at its pixel or beside the pins that were drawn there before."""
        kind, (left, low) = "pin" if self.x0 <= x <= self.x1 and self.y0 <= y <= self.y1 else "far", self.at(x, y)
        self.pins[left, low] += 1
        left += (self.pins[left, low] - 1) * (2 * PIN - 3) * (1 if left < EDGE + WIDE / 2 else -1)
        self.marks.append((left, low))
        return (f'<rect class="{kind}" x="{left - PIN:.1f}" y="{low - PIN:.1f}" width="{2 * PIN}" height="{2 * PIN}" '
                f'rx="{1 if pad else PIN}"><title>{name}, at {x},{y}</title></rect>' + text(left, low, 9, k))

    def net(self, k, weight, pins):
        """Net k: its line in the list; the box around its pins, grown so that a flat one shows; its pins with its number."""
        left, low = EDGE + k % COLUMNS * WIDE / COLUMNS, self.bottom + LIST + k // COLUMNS * 18
        (x, right, y, top), name = ends_of(pins), f"net {k + 1}, w {weight}"
        dash = f' stroke-dasharray="{DASHES[k % len(DASHES)]}"'
        out = [line("net", [(left, low), (left + 30, low)], dash), text(left + 35, low, 12, name, "start"),
               self.box("net", x, y, right - x, top - y, name, PIN + 1 + k % 4, dash)]
        out += [self.pin(*pin, k + 1, name) for pin in pins]
        return [f'<g color="#{COLOURS[k]}">', *out, "</g>"]

    def number(self, k, x, y, w, h):
        """The number of a macro, where it covers the fewest pins."""
        (left, low), (right, top) = self.at(x, y), self.at(x + w, y + h)

        def covered(place):
            a, b, size = place
            return sum(abs(x - a) < PIN + size / 3 and abs(y - b) < PIN + size / 2.4 for x, y in self.marks)
        return text(*min(places(left, top, right, low), key=covered), k)


def beside(w, h, macros):
    """Corners to the right of the die, in columns as high as the die or the highest macro."""
    high, gap = max([h] + [size[1] for size in macros]), max([w, h] + sum(macros, [])) // 16 + 1
    x, y, right, corners = w + gap, 0, 0, []
    for wide, tall in macros:
        if y + tall > high:
            x, y = right + gap, 0
        corners.append([x, y])
        y, right = y + tall + gap, max(right, x + wide)
    return corners


def ends_of(pins):
    """The box of a net: left, right, bottom, top."""
    xs, ys = [pin[0] for pin in pins], [pin[1] for pin in pins]
    return [min(xs), max(xs), min(ys), max(ys)]


def nets_of(chip, corners):
    """The weight of each net, and its pins: x, y, and whether it is a pad."""
    nets, corners = [], [(0, 0), *corners]
    for word, values in chip:
        if word == "net":
            nets.append((values[0], []))
        elif word == "pin":
            m, x, y = values
            nets[-1][1].append((corners[m][0] + x, corners[m][1] + y, m == 0))
    return nets


def need_of_chip(w, h, fixes, boxes, nets, wl):
    """The legality and the length of a record beside its chip (document 02, Card 1); draw() has tested the count."""
    need(all(x + wide <= w and y + tall <= h for x, y, wide, tall in boxes), "a macro leaves the die")
    need(all(apart(box, other) for k, box in enumerate(boxes) for other in boxes[:k] + fixes), "a macro overlaps another or a fix")
    ends = ((weight, ends_of(pins)) for weight, pins in nets)
    length = sum(weight * (right - left + top - bottom) for weight, (left, right, bottom, top) in ends)
    need(length == wl, f"its wl is {wl}, and the wirelength is {length}")


def need_of_boxes(printed, nets):
    """The box lines after a record, where there are any (document 02, Card 2); a none record gets none."""
    own = [[k, *ends_of(pins)] for k, (_, pins) in enumerate(nets, 1)]
    need(len(printed) in (0, len(own)), f"it has {len(printed)} box lines, expected {len(own)}")
    for line, (k, left, right, bottom, top) in zip(printed, own):
        need(line == [k, left, right, bottom, top], f"expected box,n,{k},l,{left},r,{right},b,{bottom},t,{top}")


def draw(chip, record):
    (w, h), placed = chip[0][1], record[0][0] == "least"
    fixes, macros = ([values for word, values in chip if word == kind] for kind in ("fix", "mac"))
    corners = [values[1:] for word, values in record if word == "at"] if placed else beside(w, h, macros)
    need(len(corners) == len(macros), f"it places {len(corners)} macros, and the chip has {len(macros)}")
    nets = nets_of(chip, corners) if placed else []
    pins, boxes = [pin for _, pins in nets for pin in pins], [corner + size for corner, size in zip(corners, macros)]
    if placed:
        need_of_chip(w, h, fixes, boxes, nets, record[0][1][0])
    need_of_boxes([values for word, values in record if word == "box"], nets)
    view = View(w, h, pins + corners + [(x + a, y + b) for x, y, a, b in boxes], max(w, h) if placed else math.inf)
    out = [view.box("die", 0, 0, w, h, "die"), *(view.box("fix", *fix, "fix") for fix in fixes)]
    out += [view.box("macro", *box, f"macro {k}, {box[2]} x {box[3]}") for k, box in enumerate(boxes, 1)]
    for k, net in enumerate(nets):
        out += view.net(k, *net)
    out += [view.number(k, *box) for k, box in enumerate(boxes, 1)]
    out += view.axes(view.x0, view.y0, view.x1, view.y1) if placed else view.axes(0, 0, w, h)
    (left, low), wide, note = view.at(0, 0), WIDE + 2 * EDGE, __doc__.split("\n\n")[1].strip()
    high = round(view.bottom + LIST + -(-len(nets) // COLUMNS) * 18 + 24)
    head = f"least, wl {record[0][1][0]}" if placed else "none: no legal placement; the macros are drawn beside the die"
    out += [text(wide / 2, 24, 18, head), text(wide / 2, high - 14, 11, note),
            text(wide / 2, view.bottom + 54, 12, f"die {w} x {h}; hatched: fix{KEY[0] if nets else ''}")]
    out += [text(wide / 2, view.bottom + 70, 12, KEY[1])] if nets else []
    return PAGE.format(wide=wide, high=high, note=note, left=left, low=low, cell=view.step * view.scale, parts="\n".join(out))


def read(path, kind, reader):
    """What a file holds; where it is no such text, the program ends with one line and status 1."""
    try:
        with open(path, "rb") as file:
            return reader(file.read(MOST + 1).decode("latin-1"))
    except OSError as error:
        sys.exit(f"draw.py: {path}: {error.strerror}")
    except Refused as refused:
        sys.exit(f"draw.py: {path} is no {kind}: {refused}")


if __name__ == "__main__":
    if len(sys.argv) != 3:
        print("usage: python3 pictures/draw.py CHIP RECORD > OUT.svg", file=sys.stderr)
        sys.exit(2)
    chip, record = read(sys.argv[1], "chip", read_chip), read(sys.argv[2], "record", read_record)
    try:
        print(draw(chip, record))
    except Refused as refused:
        sys.exit(f"draw.py: {sys.argv[2]} is no record of this chip: {refused}")
