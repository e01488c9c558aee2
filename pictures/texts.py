"""Chips and records as the viewer reads them. A text that is neither is refused: Refused says in which line and why."""
import re

MOST = 16384  # bytes of a text
SIZE, SPOT, SPAN, END = (1, 1024), (0, 1023), (-4096, 4096), (-4096, 5120)
# the fields of each word with their ranges, how many lines it may have, and the words that may follow it in each kind of text,
# None where the text may be over; box lines are no part of a record, but the program boxes prints them after it
FIELDS = {"die": {"w": SIZE, "h": SIZE}, "fix": {"x": SPOT, "y": SPOT, "w": SIZE, "h": SIZE}, "mac": {"w": SIZE, "h": SIZE},
          "net": {"w": (1, 1000)}, "pin": {"m": (0, 8), "x": SPAN, "y": SPAN}, "end": {},
          "least": {"wl": (0, 589824000)}, "at": {"m": (1, 8), "x": (0, 1024), "y": (0, 1024)}, "none": {}, "done": {},
          "box": {"n": (1, 32), "l": END, "r": END, "b": END, "t": END}}
COUNTS = {"fix": 8, "mac": 8, "net": 32, "pin": 128, "at": 8, "box": 32}
CHIP = {"": ["die"], "die": ["fix", "mac", "net", "end"], "fix": ["fix", "mac", "net", "end"], "mac": ["mac", "net", "end"],
        "net": ["pin"], "pin": ["pin", "net", "end"], "end": [None]}
RECORD = {"": ["least", "none"], "least": ["at", "done"], "at": ["at", "done"], "none": ["done"], "done": ["box", None],
          "box": ["box", None]}


class Refused(Exception):
    pass


def need(holds, words):
    if not holds:
        raise Refused(words)


def apart(first, second):
    (x, y, w, h), (x2, y2, w2, h2) = first, second
    return x + w <= x2 or x2 + w2 <= x or y + h <= y2 or y2 + h2 <= y


def values_of(word, line):
    """The values of a line of that word, each a number in its range."""
    fields = FIELDS[word].items()
    form = re.fullmatch(word + "".join(f",{name},(0|-?[1-9][0-9]{{0,8}})" for name, _ in fields) + "\n", line)
    values = [int(value) for value in form.groups()] if form else []
    need(form and all(least <= value <= most for value, (_, (least, most)) in zip(values, fields)),
         "expected " + word + "".join(f",{name},{least}..{most}" for name, (least, most) in fields))
    return values


def line_after(before, line, follows):
    """The word and the values of a line, where it may stand after the lines before."""
    need(line.endswith("\n"), "it does not end with LF")
    word, next_words = re.match("[^,\n]*", line).group(), follows[before[-1][0] if before else ""]
    need(word in next_words, "expected " + " or ".join(word or "no further line" for word in next_words))
    same, macros = ([values for other, values in before if other == kind] for kind in (word, "mac"))
    need(len(same) < COUNTS.get(word, 1), f"more than {COUNTS.get(word)} {word} lines")
    values = values_of(word, line)
    if word == "pin":
        need(values[0] <= len(macros), f"there is no macro {values[0]}")
    if word == "at":
        need(values[0] == len(same) + 1, f"expected macro {len(same) + 1}")
    if word == "fix":
        (x, y, w, h), (wide, high) = values, before[0][1]
        need(x + w <= wide and y + h <= high, "the fix leaves the die")
        need(all(apart(values, other) for other in same), "the fix overlaps an earlier one")
    return word, values


def lines_of(text, follows):
    """The lines of a text of that kind: of each the word and the values without their names."""
    need(len(text) <= MOST, f"longer than {MOST} bytes")
    lines = []
    try:
        for line in re.findall(r"[^\n]+\Z|[^\n]*\n", text):
            lines.append(line_after(lines, line, follows))
        need(None in follows[lines[-1][0] if lines else ""], "the text is over too early")
    except Refused as refused:
        raise Refused(f"line {len(lines) + 1}: {refused}") from None
    return lines


def read_chip(text):
    return lines_of(text, CHIP)


def read_record(text):
    """A record, box lines after it or not, and not the line that place and boxes print where they refuse the chip."""
    refusal = re.fullmatch("refused,no,([0-9]+),line,([0-9]+)\n", text)
    need(not refusal, refusal and f"the chip was refused, number {refusal[1]}, line {refusal[2]}")
    return lines_of(text, RECORD)
