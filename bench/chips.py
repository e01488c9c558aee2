"""Chips and records as the benchmark needs them: read, written, given letters, made at random or to a plan."""
import itertools
import math
from collections import namedtuple

# fixes: (x, y, w, h); macros: (w, h); nets: (weight, [(m, x, y), ..])
Chip = namedtuple("Chip", "die fixes macros nets")


def lines_of(path):
    """The lines of a chip or a record: the word, and the values without their names."""
    with open(path, encoding="ascii") as file:
        parts = [line.rstrip("\n").split(",") for line in file]
    return [(part[0], tuple(int(value) for value in part[2::2])) for part in parts]


def read_chip(path):
    lines = lines_of(path)
    die, fixes, macros = ([values for word, values in lines if word == kind] for kind in ("die", "fix", "mac"))
    nets = []
    for word, values in lines:
        if word == "net":
            nets.append((values[0], []))
        elif word == "pin":
            nets[-1][1].append(values)
    return Chip(die[0], fixes, macros, nets)


def chip_text(chip):
    """The text of a chip file."""
    lines = ["die,w,{},h,{}".format(*chip.die)] + ["fix,x,{},y,{},w,{},h,{}".format(*fix) for fix in chip.fixes]
    lines += ["mac,w,{},h,{}".format(*size) for size in chip.macros]
    for weight, pins in chip.nets:
        lines += [f"net,w,{weight}"] + ["pin,m,{},x,{},y,{}".format(*pin) for pin in pins]
    return "\n".join(lines + ["end", ""])


def read_record(path):
    """The wirelength, None for `none`, and the corner of each macro."""
    lines = lines_of(path)
    return (lines[0][1] or (None,))[0], [values[1:] for word, values in lines if word == "at"]


def counts(chip):
    """Macros, fixes, nets and pins."""
    return len(chip.macros), len(chip.fixes), len(chip.nets), sum(len(pins) for _, pins in chip.nets)


def letter(first, second):
    """A letter that two rectangles keep, where they do not overlap."""
    (x, y, w, h), (x2, y2, w2, h2) = first, second
    if x + w <= x2:
        return "L"
    if x2 + w2 <= x:
        return "R"
    return "B" if y + h <= y2 else "A"


def overlap(first, second):
    (x, y, w, h), (x2, y2, w2, h2) = first, second
    return x < x2 + w2 and x2 < x + w and y < y2 + h2 and y2 < y + h


def letters_of(chip, corners):
    """The letters that a legal placement keeps."""
    macros = [corner + size for corner, size in zip(corners, chip.macros)]
    pairs = itertools.chain(itertools.combinations(macros, 2), itertools.product(macros, chip.fixes))
    return "".join(letter(first, second) for first, second in pairs)


def pair_count(chip):
    n, k = len(chip.macros), len(chip.fixes)
    return n * (n - 1) // 2 + n * k


def random_fixes(rng, die, count):
    """So many fixes that lie in the die and do not overlap."""
    fixes = []
    while len(fixes) < count:
        w, h = rng.randint(20, 100), rng.randint(20, 100)
        fix = rng.randint(0, die[0] - w), rng.randint(0, die[1] - h), w, h
        if not any(overlap(fix, other) for other in fixes):
            fixes.append(fix)
    return fixes


def random_chip(rng, macros, nets, pins, fixes=0):
    """A chip of that size, in the ranges of the baseline's `lab fits`."""
    die = rng.randint(300, 1024), rng.randint(300, 1024)
    sizes = [die] + [(rng.randint(20, 250), rng.randint(20, 250)) for _ in range(macros)]
    made = []
    for rest in reversed(range(nets)):  # at least two pins for each net that follows
        share = min(rng.randint(2, 6), pins - 2 * rest) if rest else pins
        pins -= share
        weight, nodes = rng.randint(1, 1000), []
        for _ in range(share):
            m = rng.randint(0, macros)
            nodes.append((m, rng.randint(0, sizes[m][0]), rng.randint(0, sizes[m][1])))
        made.append((weight, nodes))
    return Chip(die, random_fixes(rng, die, fixes), sizes[1:], made)


def clique(sides):
    """Squares of these sides, every two joined by a net of two pins in their middles; they fill 35% of the die."""
    die = math.isqrt(sum(side * side for side in sides) * 100 // 35)
    middles = [(m, side // 2, side // 2) for m, side in enumerate(sides, 1)]
    return Chip((die, die), [], [(side, side) for side in sides],
                [(1, list(pins)) for pins in itertools.combinations(middles, 2)])


def deep_chip():
    """A row of 16 places, the first eight under fixes, the others for eight macros: its search goes 92 letters deep."""
    return Chip((16, 1), [(x, 0, 1, 1) for x in range(8)], [(1, 1)] * 8, [])


def few_letters(rng, macros):
    """Letters on few pairs: for each axis up to 14 draws of two macros, kept where the first comes first."""
    pairs = list(itertools.combinations(range(macros), 2))
    string = ["."] * len(pairs)
    for low in "LB":
        for _ in range(rng.randint(0, 14)):
            drawn = rng.randrange(macros), rng.randrange(macros)
            if drawn in pairs and string[pairs.index(drawn)] == ".":
                string[pairs.index(drawn)] = low
    return "".join(string)


def random_letters(rng, chip, tries=1000):
    """All letters of a chip without fixes, off a random legal placement; None where a macro found no room."""
    placed = []
    for w, h in chip.macros:
        drawn = ((rng.randint(0, chip.die[0] - w), rng.randint(0, chip.die[1] - h), w, h) for _ in range(tries))
        free = next((spot for spot in drawn if not any(overlap(spot, other) for other in placed)), None)
        if free is None:
            return None
        placed.append(free)
    return letters_of(chip, [spot[:2] for spot in placed])
