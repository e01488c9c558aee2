"""The chips of the folder: place as a process, the search through the library, the baseline, the solvers."""
import sys
from collections import namedtuple

import chips
import measure
import solvers

Row = namedtuple("Row", "name chip wl place library same search solvers")  # library: seconds, less reading


def in_rounds(path):
    """place, the library's calls and the baseline's searches, a list of each."""
    rounds = [(measure.place(path), measure.library(path), measure.baseline(path)) for _ in range(measure.ROUNDS)]
    return zip(*rounds)


def less_reading(calls):
    """The least seconds of the library's calls, the least for reading the chip's text taken off."""
    return max(measure.GRAIN, min(call.seconds for call in calls) - min(call.reading for call in calls))


def measured(path, limit):
    """All measurements of one chip, with a line on standard error."""
    record = path.with_suffix(".record")
    chip, (wl, _), stored = chips.read_chip(path), chips.read_record(record), record.read_bytes()
    places, calls, searches = in_rounds(path)
    same = {stored} == {run.printed for run in places} | {call.record for call in calls}
    place = min(places)._replace(kilobytes=max(run.kilobytes for run in places))
    row = Row(path.stem, chip, wl, place, less_reading(calls), same, min(searches),
              {solver: solvers.solve(solver, chip, limit) for solver in solvers.SOLVERS})
    print(f"{row.name}: {1000 * row.library:.3g} ms, baseline {1000 * row.search.seconds:.3g} ms", file=sys.stderr)
    return row


def faults(rows):
    """Answers that contradict a record."""
    for row in rows:
        if not row.same:
            yield f"{row.name}: place or the library wrote another record"
        if row.search.length != row.wl:
            yield f"{row.name}: the baseline found {row.search.length}, the record says {row.wl}"
        for solver, answer in row.solvers.items():
            if answer and not isinstance(answer[1], str) and not solvers.agrees(answer[1], row.wl):
                yield f"{row.name}: {solver} found {answer[1]}, the record says {row.wl}"
