"""The measurements as Markdown tables."""
import math

from chips import counts
from fittimes import share_of_none
from solvers import SOLVERS, agrees


def digits(number, count=3):
    """A number to so many digits, without an exponent."""
    return f"{number:,.{max(0, count - 1 - math.floor(math.log10(number)))}f}" if number else "0"


def ms(seconds):
    return digits(1000 * seconds)


def ratio(one, other):
    return digits(one / other, 2)


def table(heads, rows):
    return "\n".join(f"| {' | '.join(line)} |" for line in [heads, ["---"] * len(heads), *rows]) + "\n"


def place_table(rows):
    heads = ["Chip", "Macros, fixes, nets, pins", "Baseline's fits", "Its nodes", "Baseline (ms)",
             "place, a process (ms)", "Peak (KB)", "Record", "Library, less reading (ms)", "Library / baseline"]
    return table(heads, [place_line(row) for row in rows] + total_lines(rows))


def place_line(row):
    return [row.name, ", ".join(map(str, counts(row.chip))), f"{row.search.fits:,}", f"{row.search.nodes:,}",
            ms(row.search.seconds), ms(row.place.seconds), f"{row.place.kilobytes:,}",
            "same" if row.same else "**other**", ms(row.library), ratio(row.library, row.search.seconds)]


def total_lines(rows):
    """The sums, and the chip with the greatest ratio."""
    library, search = sum(row.library for row in rows), sum(row.search.seconds for row in rows)
    worst = max(rows, key=lambda row: row.library / row.search.seconds)
    return [[f"in all, {len(rows)}", "", f"{sum(row.search.fits for row in rows):,}",
             f"{sum(row.search.nodes for row in rows):,}", ms(search), ms(sum(row.place.seconds for row in rows)),
             f"at most {max(row.place.kilobytes for row in rows):,}", f"{sum(row.same for row in rows)} same",
             ms(library), ratio(library, search)],
            [f"greatest ratio: {worst.name}", *[""] * 8, ratio(worst.library, worst.search.seconds)]]


def solver_cells(answer, wl, limit):
    """The time, and the least length beside the record's."""
    if answer is None:
        return ["not installed", "-"]
    seconds, length = answer
    if length == "late":
        return [f"> {1000 * limit:,}", "-"]
    return [ms(seconds), "same" if agrees(length, wl) else "none" if length is None else str(length)]


def solver_table(rows, limit):
    heads = ["Chip", "Wirelength", "place (ms)"]
    for solver in SOLVERS:
        heads += [f"{solver} (ms)", "Its length"]
    return table(heads, [[row.name, "none" if row.wl is None else f"{row.wl:,}", ms(row.place.seconds)]
                         + [cell for solver in SOLVERS for cell in solver_cells(row.solvers[solver], row.wl, limit)]
                         for row in rows])


def sized_table(sizes, lemon):
    heads = ["Random chips", "Letters on", "Fits", "No fit", "Library, less reading (us)", "Reading (us)",
             "Baseline, an axis twice (us)", "Library / baseline"] + ["LEMON, two axes (us)", "Library / LEMON"] * lemon
    return table(heads, [sized_line(one, lemon) for one in sizes])


def sized_line(one, lemon):
    axes = [digits(2 * one.baseline), ratio(one.fits.micros, 2 * one.baseline)] if one.baseline else ["-", "-"]
    return ["{} macros, {} nets, {} pins".format(*one.size), f"{one.letters} of the pairs", f"{len(one.fits.lengths)}",
            f"{share_of_none(one.fits.lengths):.0%}", digits(one.fits.micros), digits(one.fits.reading), *axes,
            *([digits(one.fits.lemon), ratio(one.fits.micros, one.fits.lemon)] if lemon else [])]


def group_table(groups, lemon):
    heads = ["Macros, fixes, nets, pins", "Chips"]
    for letters in ("All dots", "The record's letters", "Random letters"):
        heads += [f"{letters} (us)"] + ["LEMON (us)"] * lemon
    return table(heads + ["No fit, random"], [group_line(one, lemon) for one in groups])


def group_line(one, lemon):
    cells = [", ".join(map(str, one.counts)), str(one.chips)]
    for fits in (one.dots, one.kept, one.random):
        cells += [digits(fits.micros) if fits else "-"] + [digits(fits.lemon) if fits else "-"] * lemon
    return cells + [f"{share_of_none(one.random.lengths):.0%}"]


def above(late, words):
    """A number that a run had reached when it was ended."""
    return f"> {words}" if late else words


def clique_table(rows):
    heads = ["Squares", "Sides", "Baseline's nodes", "Baseline (s)", "place (s)", "place, times one square less",
             "place / baseline", "Wirelength"]
    before = {(row.kind, row.count): row for row in rows}
    return table(heads, [clique_line(row, before.get((row.kind, row.count - 1))) for row in rows])


def clique_line(row, before):
    """A clique, and the one with one square less where that one came to an end."""
    sides = sorted({row.sides[0], row.sides[-1]})
    return [f"{row.count} {'equal' if len(sides) == 1 else 'nearly equal'}", " to ".join(map(str, sides)),
            above(row.search.late, f"{row.search.nodes:,}"), above(row.search.late, digits(row.search.seconds)),
            above(row.late, digits(row.place)),
            above(row.late, ratio(row.place, before.place)) if before and not before.late else "-",
            clique_ratio(row), "-" if row.length is None else f"{row.length:,}"]


def clique_ratio(row):
    """place to the baseline, or what is known of it where one of them was ended."""
    if row.late and row.search.late:
        return "-"
    return ("> " if row.late else "< " if row.search.late else "") + ratio(row.place, row.search.seconds)
