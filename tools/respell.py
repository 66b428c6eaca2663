#!/usr/bin/env python3
"""Brings the names of this repository's definitions and lemmas to today's spelling.

Run once at the top of the repository, after the kit's port/port.py. Types and facts get upper camel case
(`None-holds` becomes `NoneHolds`), all other names snake case (`not-threes` becomes `not_threes`).
It turns the names that specs/ and proofs/ define, wherever they stand as words of their own in specs/,
proofs/, src/ and must-fail/; in comments only between backquotes. Names that Rattle makes (goals,
invariants, measures) and names given by `as` stay. It stops where two names that it turns would fall
together, and prints a line `look:` where a new name stands somewhere already.
"""
import glob
import re
import sys

ANTT = sorted(
    glob.glob("crates/*/specs/**/*.antt", recursive=True)
    + glob.glob("crates/*/proofs/**/*.antt", recursive=True)
)
RUST = sorted(glob.glob("crates/*/src/**/*.rt", recursive=True))
EDITS = sorted(glob.glob("crates/*/must-fail/*.edit"))

WORD = re.compile(r"[^\s(){}\[\],;:.\"`«»⌜⌝λ]+")
HEAD = re.compile(r"^\s*((?:(?:abbrev|unfoldable|pub|data|record|ruleset)\s+)*)([^\s(){}\[\],;:.\"`]+)\s*(.*)$")
OPERATORS = {"*ℤ-+ℤ", "+ℤ-*ℤ"}  # the dash joins the names of two operators


def defined():
    """Each name with a dash, or a type's with an underscore, that a file of specs/ or proofs/ defines."""
    names = set()
    for path in ANTT:
        for line in open(path, encoding="utf-8"):
            if line.lstrip().startswith("--") or line.startswith("use "):
                continue
            found = HEAD.match(line)
            if not found:
                continue
            words, name, rest = found.groups()
            if ": goal." in line or not (rest.startswith(": ") or words):
                continue
            if "-" in name or (name[0].isupper() and "_" in name):
                names.add(name)
    return names - OPERATORS


def respelled(name):
    if name[0].isupper():
        return "".join(part[:1].upper() + part[1:] for part in re.split("[-_]", name))
    return name.replace("negℤ", "neg_ℤ").replace("-", "_")


def main():
    table = {name: respelled(name) for name in defined()}
    if len(set(table.values())) != len(table):
        sys.exit("two names would fall together")
    texts = {path: open(path, encoding="utf-8").read() for path in ANTT + RUST + EDITS}
    antt = {word for path in ANTT for word in WORD.findall(texts[path])}
    for name, new in sorted(table.items()):
        if new in antt:
            print(f"look: {new}, from {name}, stands in specs/ or proofs/ already")

    def turn(text, within_quotes):
        if within_quotes:
            return re.sub(r"`[^`]*`", lambda q: turn(q.group(), False), text)
        return WORD.sub(lambda w: table.get(w.group(), w.group()), text)

    for path, text in texts.items():
        comment = "//" if path.endswith(".rt") else "--"
        lines = []
        for line in text.split("\n"):
            code, mark, rest = line.partition(comment)
            lines.append(turn(code, False) + mark + turn(rest, True))
        new = "\n".join(lines)
        if new != text:
            open(path, "w", encoding="utf-8").write(new)
    for name, new in sorted(table.items()):
        print(f"{name} -> {new}")


main()
