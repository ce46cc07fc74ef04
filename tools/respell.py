#!/usr/bin/env python3
"""Brings the names of this repository's own definitions and lemmas to today's spelling, once, after port.py: words in snake case, types in camel case.

usage: python3 tools/respell.py        at the top of the repository

Turned: names with a dash that specs/ or proofs/ declare, wherever ghost text names them (not in comments and strings), in the edits of must-fail/ too, and in
backquotes in the pages. Kept: functions of src/, what Rattle itself names (a goal's answer, a loop's invariant), C names, inputs and outputs.
"""
import collections
import os
import re

# types whose plain spelling another name has already
OWN = {"Too-deep": "StandsTooDeep", "Two-sided": "TwoSidedOperation"}
WORD = r"[^\s(){}\[\];,.`\"]+"
MARKS = r"(?:(?:pattern|unfoldable|abbrev|pub)\s+)*"


def files(*endings):
    for folder, dirs, names in os.walk("."):
        dirs[:] = sorted(d for d in dirs if d not in ("out", "target", ".git", "tools"))
        for name in sorted(names):
            if name.endswith(endings) and not os.path.islink(os.path.join(folder, name)):
                yield os.path.join(folder, name)


def read(path):
    with open(path, encoding="utf-8") as f:
        return f.read()


def declared(text):
    """The names that a file of specs/ or proofs/ declares, but for answers to what Rattle asks."""
    for line in re.sub(r"--.*", "", text).split("\n"):
        it = re.match(rf"\s*{MARKS}(?:data|record)\s+({WORD})", line)
        if it:
            yield it.group(1)
            continue
        it = re.match(rf"\s*{MARKS}((?:[^\s:(){{}}\[\]∷.,;=|]+\s+)+)(?:\{{[^}}]*\}}\s*)?:\s(.*)", line)
        if it and not line.strip().startswith(("use", "λ", "let", "elim", "in ")) and not it.group(2).strip().startswith("tie."):
            yield from it.group(1).split()


def target(name):
    if name in OWN:
        return OWN[name]
    if name[0].isupper():
        return "".join(w[:1].upper() + w[1:] for w in name.split("-"))
    return name.replace("-", "_")


def turn(text, new, comment):
    """Ghost text with its names turned; comments and strings stay."""
    parts = re.split(rf"({comment}[^\n]*|b?\"(?:[^\"\\\n]|\\.)*\")", text)
    return "".join(p if i % 2 else re.sub(WORD, lambda m: new.get(m.group(0), m.group(0)), p) for i, p in enumerate(parts))


def older(text, names):
    """Text that port.py does not turn: names that it turned elsewhere, and the signs of the older form."""

    def name(m):
        w = m.group(0)
        return target(w) if "-" in w and w[0].isalpha() and target(w) in names else w

    text = re.sub(WORD, name, text.replace("′", "'").replace("Rattle·", "Rattle."))
    text = re.sub(r"\((\w+) \.(\w+)\)", r"\1.\2", text)
    return re.sub(r"(?<=\w) \.(?=\w)", ".", re.sub(r"(?<=[{, ])_([∷+]+)_(?=[,} ])", r"◌\1◌", text))


def main():
    names = set()
    for path in files(".antt"):
        names.update(declared(read(path)))
    new = {n: target(n) for n in sorted(names) if "-" in n and n[0].isalpha() and not re.search(r"-\d+$", n)}
    together = collections.defaultdict(set)
    for n, t in new.items():
        together[t].add(n)
    for t, ns in sorted(together.items()):
        if len(ns) > 1 or t in names:
            print("fall together:", t, sorted(ns), "and one of that name" if t in names else "")
    all_names = names | set(new.values())
    turned = 0
    for path in files(".antt", ".rt", ".edit", ".md"):
        text = read(path)
        if path.endswith(".antt"):
            to = turn(text, new, "--")
        elif path.endswith(".rt"):
            to = turn(text, new, "//")
        elif path.endswith(".edit"):
            ghost = "file: src/" not in text
            to = "\n".join(older(turn(l, new, "--"), all_names) if ghost and l.startswith(("old:", "new:")) else l for l in text.split("\n"))
        else:
            to = re.sub(r"`[^`\n]+`", lambda m: older(turn(m.group(0), new, "--"), all_names), text)
        if to != text:
            turned += 1
            with open(path, "w", encoding="utf-8") as f:
                f.write(to)
    print(len(new), "names,", turned, "files")


if __name__ == "__main__":
    main()
