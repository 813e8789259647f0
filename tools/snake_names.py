#!/usr/bin/env python3
"""Spells this repository's own definitions and lemmas in snake case, and its facts in camel case, in crates/.

usage: python3 tools/snake_names.py          at the top of the repository, once, after the kit's port.py

A name is changed where a file of specs/ or proofs/ declares it with a dash. The names that Rattle makes (of goals, invariants and
measures, and what stands behind `c.`, `w.`, `l.` or `goal.`) stay, and so do the must-fail edits. The spelling
of a fact is given in FACTS.
"""
import os
import re

WORD = r"[^\s(){}\[\],;:.«»\"`]+"
DECLARES = re.compile(r"^\s*(?:(?:abbrev|unfoldable|pub|data|record|ruleset|infix[lr]?|module|mutual)\s+)*(" + WORD + r")\s*(?:\{[^}]*\}\s*|\([^)]*\)\s*)*:")
GOAL = re.compile(r"^(?:abbrev\s+|pub\s+)*(" + WORD + r") : goal\.")
MADE = re.compile(r"(?<![\w.)-])(?:c|w|l|goal)(?:\." + WORD + r")+")
FACTS = {"Move-within": "MoveWithin"}


def files(root, endings):
    for folder, dirs, names in os.walk(os.path.join(root, "crates")):
        dirs[:] = sorted(d for d in dirs if d != "out")
        for n in sorted(names):
            if n.endswith(endings):
                yield os.path.join(folder, n)


def read(path):
    with open(path, encoding="utf-8") as f:
        return f.read()


def own_names(root):
    own, goals = set(), set()
    for path in files(root, (".antt",)):
        for line in read(path).splitlines():
            goal = GOAL.match(line)
            if goal:
                goals.add(goal.group(1))
                continue
            told = DECLARES.match(line.split("--")[0])
            if told and re.match(r"[A-Za-z][\w'-]*$", told.group(1)) and "-" in told.group(1):
                own.add(told.group(1))
    return own - goals


def respelled(text, names):
    spot = re.compile(r"(?<![\w'→·-])(" + "|".join(sorted(map(re.escape, names), key=len, reverse=True)) + r")(?![\w'→·-])")
    parts, at = [], 0
    for made in MADE.finditer(text):
        parts.append(spot.sub(lambda m: names[m.group(1)], text[at : made.start()]))
        parts.append(made.group(0))
        at = made.end()
    parts.append(spot.sub(lambda m: names[m.group(1)], text[at:]))
    return "".join(parts)


def main():
    names = {n: FACTS.get(n, n.replace("-", "_")) for n in own_names(".")}
    for path in files(".", (".antt", ".rt")):
        old = read(path)
        new = respelled(old, names)
        if new != old:
            with open(path, "w", encoding="utf-8") as f:
                f.write(new)
    print(len(names), "names")


if __name__ == "__main__":
    main()
