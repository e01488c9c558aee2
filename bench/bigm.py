#!/usr/bin/env python3
"""The mixed integer program of a chip as a CPLEX LP file: python3 bench/bigm.py CHIP > OUT.lp

The linear program of source 000, section 5.3, with the letters left open: each pair has four binary
variables, one for each letter, and one of them is 1. The bound of a letter at 0 is loosened by the least
amount that lets every position in the die through. Positions are not declared whole: once the letters
stand, the program is the dual of a flow, so one of its least solutions is whole and has the same length.
"""
import itertools
import sys

import chips

AXES = (("x", 0, "L", "R"), ("y", 1, "B", "A"))


def pair_rows(chip, axis):
    """The bounds of both letters of an axis, for each pair, in the order of the letters."""
    name, i, low, high = axis
    side, macros = chip.die[i], list(enumerate(chip.macros, 1))
    k = 0
    for (a, size), (b, other) in itertools.combinations(macros, 2):
        k += 1
        yield f"{name}{b} - {name}{a} - {side} {low}{k} >= {size[i] - side}"
        yield f"{name}{a} - {name}{b} - {side} {high}{k} >= {other[i] - side}"
    for (a, size), fix in itertools.product(macros, chip.fixes):
        k += 1
        start, end = fix[i], fix[i] + fix[i + 2]
        yield f"- {name}{a} - {side - start} {low}{k} >= {size[i] - side}"
        yield f"{name}{a} - {end} {high}{k} >= 0"


def net_rows(chip, axis):
    """Each net's greatest and least pin."""
    name, i = axis[:2]
    for k, (_, pins) in enumerate(chip.nets, 1):
        for m, *spot in pins:
            minus, plus = (f"- {name}{m} ", f"{name}{m} ") if m else ("", "")
            yield f"hi{name}{k} {minus}>= {spot[i]}"
            yield f"{plus}- lo{name}{k} >= {-spot[i]}"


def program(chip):
    """The text of the LP file. The variable `zero` keeps every part of it from being empty."""
    pairs = range(1, chips.pair_count(chip) + 1)
    nets = list(enumerate(chip.nets, 1))
    rows = [f"L{k} + R{k} + B{k} + A{k} = 1" for k in pairs] + ["zero = 0"]
    bounds = ["0 <= zero <= 0"]
    goal = ["0 zero"]
    for axis in AXES:
        name, i = axis[:2]
        rows += [*pair_rows(chip, axis), *net_rows(chip, axis)]
        bounds += [f"0 <= {name}{m} <= {chip.die[i] - size[i]}" for m, size in enumerate(chip.macros, 1)]
        bounds += [f"{end}{name}{k} free" for k, _ in nets for end in ("hi", "lo")]
        goal += [f"+ {net[0]} hi{name}{k} - {net[0]} lo{name}{k}" for k, net in nets]
    parts = (("Minimize", ["length:"] + goal), ("Subject To", rows), ("Bounds", bounds),
             ("Binaries", [f"{letter}{k}" for k in pairs for letter in "LRBA"]))
    return "".join(f"{head}\n" + "".join(f" {line}\n" for line in lines) for head, lines in parts) + "End\n"


if __name__ == "__main__":
    if len(sys.argv) != 2:
        sys.exit(__doc__)
    print(program(chips.read_chip(sys.argv[1])), end="")
