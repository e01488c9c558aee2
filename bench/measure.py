"""What bench/run measures with. Every time is processor time, of one run or the mean of several.

Other work on the machine makes a time longer and never shorter, so what is short enough is measured in rounds, one
thing after the other in each, and the least counts.
"""
import math
import os
import re
import subprocess
from collections import namedtuple
from pathlib import Path

ROOT = Path(__file__).resolve().parent.parent
WORK = ROOT / "target" / "bench"
PLACE = ROOT / "crates" / "place" / "out" / "place"
LAB = WORK / "baseline" / "release" / "lab"
ENOUGH, ROUNDS = 0.1, 3  # seconds: what is shorter is repeated until all runs of a round have taken as long
MOST_RUNS, GRAIN = 2000, 1e-6  # of the baseline: runs on a chip, seconds that its clock tells apart
ALL_RULES = "p27 child D2 f"  # the baseline's search with warm fits and all rules

Run = namedtuple("Run", "seconds kilobytes ended printed")
Call = namedtuple("Call", "seconds reading record")  # of the library; reading is a part of the seconds
Search = namedtuple("Search", "seconds fits nodes length late")


def timed(words, limit=0, source=os.devnull):
    """Runs a program under bench/timed.c, ended after so many seconds where the limit is not 0."""
    with open(source, "rb") as file:
        words = [WORK / "timed", str(limit), str(ENOUGH), WORK / "out", *words]
        said = subprocess.run(words, stdin=file, stdout=subprocess.PIPE, text=True, check=True).stdout.split()
    return Run(float(said[1]), int(said[2]), int(said[3]), (WORK / "out").read_bytes())


def place(chip, limit=0):
    """A run of place as a process: with its start, reading and writing."""
    return timed([PLACE], limit, chip)


def place_start():
    """Seconds of a run on an empty text, which is refused: the start of the process."""
    return min(timed([PLACE]).seconds for _ in range(ROUNDS))


def library(chip, *service, enough=ENOUGH):
    """The static library's call from chip text to record text, and its reading of the text, without a process.

    The service is the design desk's, or `quote`, the page's."""
    with open(chip, "rb") as file:
        words = [WORK / "searches", str(enough), *service]
        said = subprocess.run(words, stdin=file, stdout=subprocess.PIPE, check=True).stdout
    times, record = said.split(b"\n", 1)
    return Call(*(float(micros) / 1e6 for micros in times.split()), record)


def baseline(chip, limit=1e9):
    """The baseline's search: its own clock, without the start of a process and the reading of the chip."""
    def lines(times):
        run = subprocess.run([LAB, "bench", str(limit), ALL_RULES] + [chip] * times,
                             stdout=subprocess.PIPE, text=True, check=True)
        return re.findall(r"\|\s*(\d+) fits\|\s*(\d+) nodes\|\s*([\d.]+) ms\|\s*(\w+)\|(ok|CAP)", run.stdout)

    found = lines(1)
    times = min(MOST_RUNS, math.ceil(ENOUGH / max(GRAIN, float(found[0][2]) / 1000)))
    found = lines(times) if times > 1 else found
    fits, nodes, _, length, end = found[0]
    seconds = max(GRAIN, sum(float(line[2]) for line in found) / len(found) / 1000)
    return Search(seconds, int(fits), int(nodes), None if length == "none" else int(length), end == "CAP")
