"""Cliques, the hard chips: squares on a loose die, every two joined by a net. How times grow with their number."""
import re
import signal
import sys
from collections import namedtuple

import chips
import measure
from measure import WORK

COUNTS, SIDE = (6, 7, 8), 100
LATE = 128 + signal.SIGXCPU  # how a run over its limit ends
KINDS = {
    "equal": lambda count: [SIDE] * count,
    "near": lambda count: [SIDE + k for k in range(count)],  # no two equal: the rule for equal macros says nothing
}

Clique = namedtuple("Clique", "kind count sides place late length search")


def named(text):
    """The cliques (kind, count) with the text in their names, such as clique-near-8."""
    return [(kind, count) for kind in KINDS for count in COUNTS if text in f"clique-{kind}-{count}"]


def length_of(record):
    """The wirelength of a record's text, None for any other text."""
    told = re.match(rb"least,wl,(\d+)\n", record)
    return int(told[1]) if told else None


def measured(kind, count, limit):
    """place and the baseline on a clique, each ended after so many seconds, with a line on standard error."""
    sides, path = KINDS[kind](count), WORK / f"clique-{kind}-{count}.chip"
    path.write_text(chips.chip_text(chips.clique(sides)))
    run, search = measure.place(path, limit), measure.baseline(path, limit)
    print(f"{path.stem}: place {run.seconds:.3g} s, baseline {search.seconds:.3g} s", file=sys.stderr)
    late = run.ended == LATE
    return Clique(kind, count, sides, limit if late else run.seconds, late, length_of(run.printed),
                  search._replace(seconds=limit) if search.late else search)


def faults(rows):
    """Runs of place that printed no record, and lengths that are not the baseline's where both came to an end."""
    for row in rows:
        if not row.late and row.length is None:
            yield f"clique-{row.kind}-{row.count}: place printed no record"
        elif not row.late and not row.search.late and row.length != row.search.length:
            yield f"clique-{row.kind}-{row.count}: place found {row.length}, the baseline {row.search.length}"
