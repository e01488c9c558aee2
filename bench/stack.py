"""The stack that place needs where its search goes 92 letters deep."""
import subprocess

import chips
from measure import PLACE

STEP, MOST = 64, 8192  # kilobytes


def record():
    """The record of chips.deep_chip(): every placement has length 0, so the macros stand in their order."""
    return "\n".join(["least,wl,0", *(f"at,m,{m},x,{m + 7},y,0" for m in range(1, 9)), "done", ""])


def enough(kilobytes):
    """Whether place prints the record with a stack of that size."""
    words = ["sh", "-c", f'ulimit -c 0; ulimit -s {kilobytes}; exec "$0"', PLACE]
    run = subprocess.run(words, input=chips.chip_text(chips.deep_chip()), stdout=subprocess.PIPE,
                         stderr=subprocess.DEVNULL, text=True, env={})
    return run.stdout == record()


def least():
    """The least multiple of 64 KB that is enough, found by halving; None where 8 MB are not enough."""
    low, high = 0, MOST // STEP
    if not enough(MOST):
        return None
    while high - low > 1:
        middle = (low + high) // 2
        low, high = (low, middle) if enough(STEP * middle) else (middle, high)
    return STEP * high
