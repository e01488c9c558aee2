"""A picture of times: place against the baseline, one dot for each chip, both axes logarithmic."""
import math

WIDE, HIGH, LEFT, TOP, RIGHT, BOTTOM, SIZE = 1000, 720, 80, 70, 80, 60, 11
BESIDE = 15  # pixels from a dot to a name that needs no line
STYLE = ("text{font-family:sans-serif;fill:#222;stroke:white;stroke-width:3;stroke-linejoin:round;paint-order:stroke}"
         ".grid{stroke:#e8e8e8}.ratio{stroke:#aaa;stroke-dasharray:5 4}.lead{stroke:#7aa0c4}"
         ".dot{fill:#2266aa;stroke:white}")


def text(x, y, words, size=SIZE, anchor="start", more=""):
    return f'<text x="{x:.1f}" y="{y:.1f}" font-size="{size}" text-anchor="{anchor}"{more}>{words}</text>'


def line(kind, x, y, x2, y2):
    return f'<line class="{kind}" x1="{x:.1f}" y1="{y:.1f}" x2="{x2:.1f}" y2="{y2:.1f}"/>'


def time(power):
    """Ten to a power, in seconds, as a text."""
    unit, name = next((unit, name) for unit, name in ((0, "s"), (-3, "ms"), (-6, "us"), (-9, "ns")) if power >= unit)
    return f"{10 ** (power - unit)} {name}"


class Scale:
    """Powers of ten to pixels. Both axes begin and end at a whole power."""

    def __init__(self, points):
        xs, ys = zip(*points)
        self.x0, self.y0 = math.floor(min(xs) - 0.3), math.floor(min(ys))
        self.x1, self.y1 = max(self.x0 + 1, math.ceil(max(xs))), max(self.y0 + 1, math.ceil(max(ys)))
        ratios = [y - x for x, y in points]
        self.ratios = range(min(0, math.floor(min(ratios))), max(2, math.ceil(max(ratios))) + 1)

    def x(self, power):
        return LEFT + (power - self.x0) / (self.x1 - self.x0) * (WIDE - LEFT - RIGHT)

    def y(self, power):
        return HIGH - BOTTOM - (power - self.y0) / (self.y1 - self.y0) * (HIGH - TOP - BOTTOM)

    def frame(self):
        """Grid lines with their times."""
        out = []
        for power in range(self.x0, self.x1 + 1):
            out += [line("grid", self.x(power), TOP, self.x(power), HIGH - BOTTOM),
                    text(self.x(power), HIGH - BOTTOM + 18, time(power), 12, "middle")]
        for power in range(self.y0, self.y1 + 1):
            out += [line("grid", LEFT, self.y(power), WIDE - RIGHT, self.y(power)),
                    text(LEFT - 8, self.y(power) + 4, time(power), 12, "end")]
        return out

    def diagonals(self):
        """A line for each power of ten as a ratio, with its number outside the frame at its upper end."""
        out = []
        for ratio in self.ratios:
            low, high = max(self.x0, self.y0 - ratio), min(self.x1, self.y1 - ratio)
            if low < high:
                x, y, name = self.x(high), self.y(high + ratio), f"ratio {10.0 ** ratio:,g}"
                out += [line("ratio", self.x(low), self.y(low + ratio), x, y),
                        text(x + 6, y + 4, name, 12) if high == self.x1 else text(x, y - 8, name, 12, "middle")]
        return out


def meet(box, boxes):
    left, top, right, low = box
    return any(left < r and l < right and top < b and t < low for l, t, r, b in boxes)


def inside(box):
    return LEFT < box[0] and TOP < box[1] and box[2] < WIDE - RIGHT and box[3] < HIGH - BOTTOM


def nearest(box, x, y):
    """The spot of a box that is nearest to x, y."""
    return min(max(x, box[0]), box[2]), min(max(y, box[1]), box[3])


def lead(box, x, y):
    """Small boxes along the line from a dot to a box."""
    x2, y2 = nearest(box, x, y)
    spots = [(x + (x2 - x) * k / 12, y + (y2 - y) * k / 12) for k in range(1, 12)]
    return [(left - 1, top - 1, left + 1, top + 1) for left, top in spots]


def spots(x, y, wide):
    """Boxes for a name around a dot with their distances, the nearest first."""
    for far in range(9, 200, 6):
        for turn in (0, 8, 4, 12, 2, 6, 10, 14, 1, 3, 5, 7, 9, 11, 13, 15):
            side, up = math.cos(turn * math.pi / 8), math.sin(turn * math.pi / 8)
            left = x + far * side - (0 if side > 0.1 else wide if side < -0.1 else wide / 2)
            yield far, (left, y - far * up - SIZE / 2, left + wide, y - far * up + SIZE / 2)


def labels(dots):
    """The name of each dot, crowded ones first: beside it where no other dot is as near, else at the end of a line."""
    out, named = [], []
    for name, x, y in sorted(dots, key=lambda dot: sum(math.dist(dot[1:], other[1:]) > 60 for other in dots)):
        others = [(left, top) for _, left, top in dots if (left, top) != (x, y)]
        taken = named + [(left - 6, top - 6, left + 6, top + 6) for left, top in others]
        for far, box in spots(x, y, 0.58 * SIZE * len(name)):
            if not inside(box) or meet(box, taken):
                continue
            line_to = lead(box, x, y)
            if far <= BESIDE and all(math.dist(nearest(box, *other), other) > far + 3 for other in others):
                break
            if far > BESIDE and not any(meet(spot, taken) for spot in line_to):
                named += line_to
                out.append(line("lead", x, y, *nearest(box, x, y)))
                break
        named.append(box)
        out.append(text(box[0], box[3] - 2, name))
    return out


def picture(points, title, across, up):
    """An SVG of points (name, seconds across, seconds up)."""
    powers = [(math.log10(x), math.log10(y)) for _, x, y in points]
    scale = Scale(powers)
    dots = [(name, scale.x(x), scale.y(y)) for (name, _, _), (x, y) in zip(points, powers)]
    out = [f'<svg xmlns="http://www.w3.org/2000/svg" width="{WIDE}" height="{HIGH}" viewBox="0 0 {WIDE} {HIGH}">',
           f"<style>{STYLE}</style>", f'<rect width="{WIDE}" height="{HIGH}" fill="white"/>',
           text(WIDE / 2, 30, title, 16, "middle"), text(WIDE / 2, HIGH - 14, across, 13, "middle"),
           text(18, HIGH / 2, up, 13, "middle", f' transform="rotate(-90 18 {HIGH / 2})"'), *scale.frame(),
           *scale.diagonals(), *labels(dots)]
    out += [f'<circle class="dot" cx="{x:.1f}" cy="{y:.1f}" r="5"><title>{name}</title></circle>' for name, x, y in dots]
    return "\n".join(out + ["</svg>"]) + "\n"
