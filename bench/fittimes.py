"""Times of one fit: the static library's, two axes of LEMON's network simplex, and an axis of the baseline."""
import random
import re
import subprocess
from collections import namedtuple

import chips
from measure import ENOUGH, LAB, ROUNDS, WORK

SIZES = ((8, 32, 128), (8, 16, 48), (4, 8, 20))  # macros, nets, pins: those of `lab fits`
CHIPS, STRINGS = 60, 5  # chips of a size, letter strings for each: as many as `lab fits` has
RANDOM_STRINGS = 20  # random letter strings for a chip of the folder

Fits = namedtuple("Fits", "micros reading lengths lemon faults")
Sized = namedtuple("Sized", "size letters fits baseline")
Group = namedtuple("Group", "counts chips dots kept random")


def run(program, path):
    """The times and the lengths, None for no fit, that a program of bench/ prints for a file of cases."""
    with open(path, "rb") as file:
        words = [WORK / program, str(ENOUGH)]
        *answers, times = subprocess.run(words, stdin=file, stdout=subprocess.PIPE, text=True,
                                         check=True).stdout.splitlines()
    return [float(time) for time in times.split()], [None if line == "no" else int(line.split()[1]) for line in answers]


def in_rounds(programs, path):
    """For each program the least of its times, and its lengths. The programs take turns."""
    rounds = [[run(program, path) for program in programs] for _ in range(ROUNDS)]
    for runs in zip(*rounds):
        yield [min(times) for times in zip(*(times for times, _ in runs))], runs[0][1]


def fits(name, cases):
    """Cases (letters, path), kept in NAME.cases, through the library and, where it is built, through LEMON."""
    path = WORK / f"{name}.cases"
    path.write_text("".join(f"{letters} {chip}\n" for letters, chip in cases))
    programs = ["fits", "lemon"] if (WORK / "lemon").exists() else ["fits"]
    found = dict(zip(programs, in_rounds(programs, path)))
    (micros, reading), lengths = found["fits"]
    (lemon,), others = found.get("lemon", ([None], lengths))
    faults = [f"{chip.stem}, letters {letters}: the fit has length {length}, LEMON found {other}"
              for (letters, chip), length, other in zip(cases, lengths, others) if length != other]
    return Fits(micros - reading, reading, lengths, lemon, faults)


def share_of_none(lengths):
    return lengths.count(None) / len(lengths)


def baseline_axes():
    """For each size the baseline's microseconds for one axis from nothing, the least of the rounds."""
    said = [subprocess.run([LAB, "fits"], stdout=subprocess.PIPE, text=True, check=True).stdout for _ in range(ROUNDS)]
    found = re.findall(r"n(\d+) (\d+) nets (\d+) pins: .*?contracted ([\d.]+)", "".join(said))
    return {size: min(float(line[3]) for line in found if tuple(map(int, line[:3])) == size) for size in SIZES}


def drawn(rng, placing, size):
    """Random chips of a size, written to files, each with letters on few pairs, on none and on all."""
    few, dots, full = [], [], []
    for k in range(CHIPS):
        chip, path = chips.random_chip(rng, *size), WORK / f"{'-'.join(map(str, size))}-{k}.chip"
        path.write_text(chips.chip_text(chip))
        few += [(chips.few_letters(rng, size[0]), path) for _ in range(STRINGS)]
        dots.append(("." * chips.pair_count(chip), path))
        full += [(chips.random_letters(placing, chip), path) for _ in range(STRINGS)]
    return few, dots, [case for case in full if case[0]]


def sized():
    """The random chips of each size. The baseline draws few letters only."""
    rng, placing, axes, out = random.Random(1), random.Random(3), baseline_axes(), []
    for size in SIZES:
        name = "-".join(map(str, size))
        few, dots, full = drawn(rng, placing, size)
        out += [Sized(size, "few", fits(name, few), axes[size]), Sized(size, "none", fits(f"{name}-dots", dots), None),
                Sized(size, "all", fits(f"{name}-all", full), None)]
    return out


def of_records(read):
    """The fits of the letters that the records keep, held against the records; None where no chip has a placement."""
    kept = [(chips.letters_of(chip, corners), path, wl) for path, chip, (wl, corners) in read if wl is not None]
    if not kept:
        return None
    made = fits("kept", [case[:2] for case in kept])
    wrong = [f"{path.stem}: the fit of the record's letters has length {length}, the record {wl}"
             for (_, path, wl), length in zip(kept, made.lengths) if length != wl]
    return made._replace(faults=made.faults + wrong)


def group(rng, counts, paths):
    """Chips of the same counts: no letters, the letters that the records keep, random letters."""
    read = [(path, chips.read_chip(path), chips.read_record(path.with_suffix(".record"))) for path in paths]
    strings = [("".join(rng.choices("LRBA.", k=chips.pair_count(chip))), path)
               for path, chip, _ in read for _ in range(RANDOM_STRINGS)]
    return Group(counts, len(paths), fits("dots", [("." * chips.pair_count(chip), path) for path, chip, _ in read]),
                 of_records(read), fits("random", strings))


def groups(paths):
    """The chips of the folder by their counts, the largest first."""
    rng, by_counts = random.Random(2), {}
    for path in paths:
        by_counts.setdefault(chips.counts(chips.read_chip(path)), []).append(path)
    return [group(rng, counts, by_counts[counts]) for counts in sorted(by_counts, reverse=True)]


def faults(sizes, of_folder):
    """Lengths of fits that contradict LEMON's or a record."""
    all_fits = [one.fits for one in sizes] + [fit for one in of_folder for fit in (one.dots, one.kept, one.random)]
    return [fault for fit in all_fits if fit for fault in fit.faults]
