#!/usr/bin/env python3
"""Brings the repository's own definitions and lemmas to snake case: `boxAt` and `pin-added` become `box_at` and `pin_added`.

usage: tools/respell.py [--check]      at the top of the repository, once, after the kit's port.py

Names that the kit declares keep their spelling, and so do types, modules, names that Rattle makes for proofs, functions and fields of src/, strings,
inputs and outputs. --check writes nothing and prints what would fall together. It goes by text; the check decides.
"""

import collections
import glob
import os
import re
import sys

W = r"[^\s(){}.;,@\"«»\[\]\\]+"
TOKEN = re.compile(r"--[^\n]*|//[^\n]*|\"(?:[^\"\\\n]|\\.)*\"|'(?:[^'\\\n]|\\.)'|«[^»]*»|" + W + r"|\.|\s+|.")
DECL = re.compile(r"(?m)^([ \t]*)((?:(?:abbrev|unfoldable|opaque|irreducible|inline)\s+)*(?:pub\s+)?)((?:" + W + r"[ \t]+)*" + W + r")[ \t]*:(?=\s)")
def plain(name):
    s = re.sub(r"(?<=[a-z0-9])([A-Z])", lambda m: "_" + m.group(1), name)
    return s.replace("-", "_").replace("′", "'").lower()


def snake(name):
    """The new spelling. Where a definition and a lemma would fall together, the lemma ends in _law."""
    return plain(name) + ("_law" if name in LAWS else "")


def is_old(name):
    return bool(re.fullmatch(r"[a-z][A-Za-z0-9ℕℤ₀-₉'_-]*", name)) and ("-" in name or bool(re.search(r"[a-z0-9][A-Z]", name)))


def read(path):
    with open(path, encoding="utf-8", newline="") as f:
        return f.read()


def files():
    for pattern in ("crates/*/specs/**/*.antt", "crates/*/proofs/**/*.antt"):
        yield from sorted(p for p in glob.glob(pattern, recursive=True))


def walk(path):
    return os.path.basename(path) in ("Proof.antt", "Answers.antt", "Invariants.antt")


def uses(text):
    """The imports of a file: (module, name, local name)."""
    for m in re.finditer(r"(?m)^(?:ghost |pub )*use ([^\s{;]+?)\.\{([^}]*)\}", text):
        for it in m.group(2).split(","):
            it = it.strip()
            if it:
                a, _, b = it.partition(" as ")
                yield m.group(1), a.strip(), (b or a).strip()
    for m in re.finditer(r"(?m)^(?:ghost |pub )*use ([^\s{;]+) as ([^\s;]+)", text):
        yield m.group(1), "", m.group(2)


def declared():
    names, fields = collections.Counter(), set()
    for p in files():
        text = read(p)
        for m in DECL.finditer(text):
            for n in m.group(3).split():
                if not is_old(n):
                    continue
                after = text[m.end() : m.end() + 60]
                if walk(p) and (re.match(r"\s*tie\.", after) or re.match(r"\s*goal\.", after) or n.endswith("-spec")):
                    continue
                names[n] += 1
                if m.group(1):
                    fields.add(n)
        for m in re.finditer(r"(?m)^ +(?:pub )?(" + W + r")(?= \{|$)", text):
            pass
        for module, name, local in uses(text):
            if own(module) and is_old(local) and local != name and not walk(p):
                names[local] += 1
    return names, fields


def own(module):
    return any(module == "Rattle." + c or module.startswith("Rattle." + c + ".") for c in CRATES)


CRATES = set(os.listdir("crates"))
NAMES, FIELDS = declared()


def laws():
    """Names that fall together with a definition's name, and are not that definition's."""
    by, in_specs = collections.defaultdict(set), set()
    for p in files():
        if walk(p):
            continue
        for m in DECL.finditer(read(p)):
            for n in m.group(3).split():
                if re.fullmatch(r"[a-z][A-Za-z0-9ℕℤ₀-₉'_-]*", n):
                    by[plain(n)].add(n)
                    if "/specs/" in p:
                        in_specs.add(n)
    for new, them in by.items():
        if len(them) > 1:
            first = sorted(them, key=lambda n: (n not in in_specs, "-" in n, not is_old(n), n))[0]
            yield from them - {first}


LAWS = set(laws())
for name in LAWS:
    NAMES[name] += 1
# port.py has turned some already; pages and must-fail edits still have their old spelling.
TURNED = {m for p in files() if not walk(p) for d in DECL.finditer(read(p)) for m in d.group(3).split()}


def turn(path, text):
    """The text with the names turned."""
    kit = {local for module, _, local in uses(text) if not own(module)}
    local = {alias for module, name, alias in uses(text) if not name}
    is_walk, is_rt, is_edit = walk(path), path.endswith(".rt"), path.endswith(".edit")
    out, last, chain = [], "", []
    in_use = False
    for m in TOKEN.finditer(text):
        t = m.group(0)
        if t.startswith(("--", "//")) and not is_edit:
            out.append(re.sub(r"`([^`]*)`", lambda q: "`" + turn_words(q.group(1)) + "`", t))
            last = t
            continue
        if t == "\n" or "\n" in t:
            in_use = False
        if t in ("use", "open"):
            in_use = True
        if t == ".":
            if last != "." and not last.isspace():
                chain.append(last)
        elif last != ".":
            chain = []
        n = turn_word(t) if is_edit and "-" not in t else t
        if t in NAMES and t not in kit and (is_old(t) or not (is_rt or is_edit)):
            if last == ".":
                if not is_old(t) and chain[:1] and chain[0] not in local:
                    out.append(t)
                    last = t
                    continue
                head = chain[0] if chain else ""
                if "-" not in t and is_old(t) or not is_walk or in_use or t in FIELDS or head in local:
                    if head not in ("tie", "goal"):
                        n = snake(t)
            elif not (is_walk and re.match(r"\s*:\s*(tie|goal)\.", text[m.end() :]) or is_walk and t.endswith("-spec")):
                if not is_walk or "-" not in t or t not in answers(text):
                    n = snake(t)
        out.append(n)
        last = t
    return "".join(out)


def answers(text):
    """Names of answers in a walk: they are Rattle's."""
    key = hash(text)
    if key not in ANSWERS:
        ANSWERS.clear()
        ANSWERS[key] = set(re.findall(r"(?m)^(?:abbrev |pub )*(\S+) : (?:tie|goal)\.", text)) | set(re.findall(r"(?m)^pub (\S+-spec) :", text))
    return ANSWERS[key]


ANSWERS = {}


def turn_word(name):
    if name in NAMES:
        return snake(name) if is_old(name) else name
    return plain(name) if is_old(name) and plain(name) in TURNED else name


def turn_words(text):
    return re.sub(W, lambda m: turn_word(m.group(0)), text)


def falls():
    """Names that fall together, where both stand in one file."""
    by = collections.defaultdict(set)
    for n in NAMES:
        by[snake(n)].add(n)
    named = set()
    for p in list(files()) + sorted(glob.glob("crates/*/src/**/*.rt", recursive=True)):
        text = read(p)
        kit = {local for module, _, local in uses(text) if not own(module)}
        words = set(re.findall(r"(?<![.\w])" + W, re.sub(r"--[^\n]*|//[^\n]*", "", text)))
        for w in words:
            if w in NAMES and w not in kit:
                others = ((by[snake(w)] | {snake(w)}) - {w}) & words
                if others:
                    yield p, w, sorted(others)


def main(argv):
    if argv == ["--check"]:
        for p, w, others in falls():
            print(p, w, *others)
        return 0
    for p in list(files()) + sorted(glob.glob("crates/*/src/**/*.rt", recursive=True)) + sorted(glob.glob("crates/*/must-fail/*.edit")):
        text = read(p)
        new = turn(p, text)
        if new != text:
            with open(p, "w", encoding="utf-8", newline="") as f:
                f.write(new)
    for p in ["README.md"] + sorted(glob.glob("docs/*.md")):
        text = read(p)
        new = re.sub(r"`([^`\n]*)`", lambda q: "`" + turn_words(q.group(1)) + "`", text)
        if new != text:
            with open(p, "w", encoding="utf-8", newline="") as f:
                f.write(new)
    return 0


if __name__ == "__main__":
    raise SystemExit(main(sys.argv[1:]))
