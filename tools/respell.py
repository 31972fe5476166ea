#!/usr/bin/env python3
"""Turns the repository's own definitions, lemmas and fields from dashes to snake case, and its own types to camel case.

usage: python3 tools/respell.py [--dry]      at the top of the repository, once, after the kit's port.py

A name is the repository's own if a file of specs/ or proofs/ declares it. Names of the library and those that Rattle
makes of the code are left alone. It prints the new names that stand in specs/ or proofs/ already, and goes on: look at each
before you commit. A module or a path of goals of the same name is no clash.
"""
import re
import sys
from pathlib import Path

TOKEN = re.compile(r"[^\s(){}\[\],;.«»⌜⌝⟨⟩@]+")
DECLARED = re.compile(r"^\s*(?:(?:abbrev|unfoldable)\s+)?(?:pub\s+)?([^\s(){}\[\],;.:@]+(?:\s+[^\s(){}\[\],;.:@]+)*)\s+:\s+(.*)$")
TYPED = re.compile(r"^\s*(?:pub\s+)?(?:data|record)\s+([^\s(){}]+)")
BOUND = re.compile(r"[({]\s*([^(){}:]+?)\s+:\s")
FIELD = re.compile(r"^\s+(?:pub\s+)?([^\s(){}\[\],;.:@]+)\s+:\s")
LET = re.compile(r"\blet\s+([^\s(){}]+)\s+(?::|=)")
LAMBDA = re.compile(r"λ\s+([^.]*?)\.(?=\s)")
# names that would be the library's
APART = {"bit-and": "bit_of_and"}
WORDS = ("abbrev", "unfoldable", "pub", "data", "record", "let", "where", "module", "use", "ruleset")


def comment(line):
    return line.strip().startswith(("--", "//"))


def own_files():
    return [p for d in ("specs", "proofs") for p in sorted(Path("crates").glob(f"*/{d}/**/*.antt"))]


def declared(path):
    """The names with a dash that a file declares: at the top, in records and data, in where, let, binders and patterns."""
    names = set()
    for line in path.read_text(encoding="utf-8").splitlines():
        if comment(line) or line.startswith("use "):
            continue
        m = DECLARED.match(line)
        if m and "goal." not in m.group(2) and "need." not in m.group(2):
            names.update(w for w in m.group(1).split() if w not in WORDS)
        m = TYPED.match(line)
        if m:
            names.add(m.group(1))
        for m in BOUND.finditer(line):
            names.update(m.group(1).split())
        names.update(LET.findall(line))
        for m in LAMBDA.finditer(line):
            names.update(re.findall(r"[^\s(){},:]+", m.group(1)))
    return {n for n in names if "-" in n and re.fullmatch(r"[A-Za-z][\w'-]*", n)}


def fields(path):
    """The names of the fields of the records that a file declares."""
    names, inside = set(), False
    for line in path.read_text(encoding="utf-8").splitlines():
        if re.match(r"^\s*(?:pub\s+)?record\s", line):
            inside = True
        elif line.strip() and not line.startswith(" "):
            inside = False
        m = FIELD.match(line)
        if inside and m:
            names.add(m.group(1))
    return names


def imported(path):
    """The names that a file brings in from outside the repository."""
    names = set()
    own = "|".join(sorted(p.name for p in Path("crates").iterdir()))
    for line in path.read_text(encoding="utf-8").splitlines():
        m = re.match(r"^(?:ghost )?use ([^{;]*)\.\{([^}]*)\};?$", line.strip())
        if m and not re.match(rf"Rattle\.(?:{own})\.", m.group(1)):
            names.update(w.strip() for w in m.group(2).split(","))
    return names


def respelled(name):
    if name[0].isupper():
        return "".join(w[:1].upper() + w[1:] for w in name.split("-"))
    return name.replace("-", "_")


def turn(line, turned, members):
    """A line in the new spelling. Behind a dot stands a field, and what Rattle makes of the code has names of its own there."""

    def one(m):
        name = m.group(0)
        behind_dot = m.start() and line[m.start() - 1] == "."
        return turned.get(name, name) if not behind_dot or name in members else name

    return TOKEN.sub(one, line)


def texts():
    return own_files() + sorted(Path("crates").glob("*/src/**/*.rt")) + sorted(Path("crates").glob("*/must-fail/*.edit"))


def main():
    own = set().union(*(declared(p) for p in own_files()))
    foreign = set().union(*(imported(p) for p in texts()))
    members = set().union(*(fields(p) for p in own_files()))
    turned = {n: APART.get(n, respelled(n)) for n in own - foreign}
    print("left, since the library has them:", " ".join(sorted(own & foreign)))
    present = set().union(*(TOKEN.findall(p.read_text(encoding="utf-8")) for p in own_files()))
    together = sorted(f"{n} -> {t}" for n, t in turned.items() if t in present)
    together += sorted(f"{n}, {o} -> {t}" for n, t in turned.items() for o, u in turned.items() if n < o and t == u)
    print("fall together:", *(together or ["none"]), sep="\n  ")
    if "--dry" in sys.argv:
        print(" ".join(sorted(turned)))
        print("fields:", " ".join(sorted(members & set(turned))))
        return
    for p in texts():
        old = p.read_text(encoding="utf-8")
        lines = [l if comment(l) else turn(l, turned, members) for l in old.splitlines(keepends=True)]
        new = "".join(lines)
        if new != old:
            p.write_text(new, encoding="utf-8")


main()
