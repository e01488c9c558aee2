"""Two mixed integer solvers on the program of bench/bigm.py, where they are installed."""
import re
import shutil

import bigm
from measure import WORK, timed

SOLVERS = {
    "glpsol": lambda lp, out: ["glpsol", "--lp", lp, "-w", out],
    "cbc": lambda lp, out: ["cbc", lp, "-solve", "-solution", out],
}


def found_by(solver, out):
    """The least length that a solver wrote, None for no placement, a text for neither."""
    text = out.read_text() if out.exists() else ""
    if solver == "glpsol":
        told = re.search(r"^s mip \d+ \d+ ([on]) (\S+)", text, re.M)
        optimal, empty = told and told[1] == "o", told and told[1] == "n"
    else:
        told = re.match(r"(Optimal|Infeasible|Integer infeasible) - objective value +(\S+)", text)
        optimal, empty = told and told[1] == "Optimal", told and told[1] != "Optimal"
    return float(told[2]) if optimal else None if empty else "no answer"


def solve(solver, chip, limit):
    """A solver on the chip's mixed integer program: seconds and length, or None where it is not installed."""
    if not shutil.which(solver):
        return None
    lp, out = WORK / "chip.lp", WORK / "solution"
    lp.write_text(bigm.program(chip))
    out.unlink(missing_ok=True)
    run = timed(SOLVERS[solver](lp, out), limit)
    return run.seconds, "late" if run.ended >= 128 else found_by(solver, out)


def agrees(length, wl):
    """Whether a solver's length, a floating number, is the record's."""
    if length is None or wl is None:
        return length is wl
    return isinstance(length, float) and abs(length - wl) <= 0.5 + 1e-6 * wl
