#!/usr/bin/env python3
"""The crates as one picture, from crates.txt: which stands on which.

usage: crates.py | dot -Tsvg > crates.svg

An arrow goes from a crate to one that it stands on, unless that is so by another arrow already. Crates of the kit are
left out. Crates that stand on the database are grouped, and so are programs and tests.
"""
from pathlib import Path

ROOT = Path(__file__).resolve().parent.parent.parent
DATABASE = {"sqlite", "sqlrows", "sqltables"}
TESTS = ("transcripts",)
GROUPS = [
    ("values and objects", "#eef3fa", ["basis", "calendar", "names", "policy", "objects", "accounts", "lifecycle", "statements"]),
    ("the wire", "#f3eefa", ["protocol", "eppforms", "eppcommands", "jsonobjects", "eppreplies", "streams", "frames"]),
    ("the rules", "#e3f3e6", ["model", "facts", "rules", "decisions", "isolation", "concerns"]),
    ("the book and the registry", "#fbf0e3", ["states", "books", "mapbook", "registry", "runs", "eppwire"]),
    ("the public", "#e6f4f4", ["zonefile", "rdap", "wires", "server", "operator", "listening"]),
]


def read():
    """What each crate stands on, of these crates alone."""
    lines = [it for it in (ROOT / "crates.txt").read_text().splitlines() if it and not it.startswith("#")]
    below = {name.strip(): rest.split() for name, rest in (it.split(":", 1) for it in lines)}
    return {name: [it for it in rest if it in below] for name, rest in below.items()}, {
        name for name, rest in below.items() if DATABASE & set(rest)}


def reached(below):
    """All that a crate stands on, by one arrow or many."""
    all_below = {}

    def of(name):
        if name not in all_below:
            all_below[name] = set(below[name]).union(*[of(it) for it in below[name]])
        return all_below[name]

    for name in below:
        of(name)
    return all_below


def groups(below, rows):
    grouped, left = [], dict.fromkeys(below)
    for title, colour, names in GROUPS:
        grouped.append((title, colour, [it for it in names if it in left]))
    grouped.append(("programs", "#ffffff", [it for it in ("script", "memory", "takeover", "bookfiles", "tldreg") if it in left]))
    grouped.append(("tests", "#f2f2f2", [it for it in TESTS if it in left]))
    taken = {it for _, _, names in grouped for it in names}
    grouped.append(("the tables", "#f7e6ee", [it for it in below if it in rows and it not in taken]))
    taken |= rows
    grouped.append(("others", "#ffffff", [it for it in below if it not in taken]))
    return [it for it in grouped if it[2]]


def main():
    below, rows = read()
    all_below = reached(below)
    print('digraph crates {\n  graph [fontname="Helvetica", rankdir=TB, ranksep=0.5, nodesep=0.25, fontsize=14];')
    print('  node [fontname="Helvetica", fontsize=12, shape=box, style="rounded,filled"];\n  edge [color="#777777", arrowsize=0.6];')
    for number, (title, colour, names) in enumerate(groups(below, rows)):
        print(f'  subgraph cluster_{number} {{\n    label="{title}"; style="rounded"; color="#bbbbbb";')
        for it in names:
            print(f'    {it} [fillcolor="{colour}"];')
        print("  }")
    for name, rest in below.items():
        for it in rest:
            if not any(it in all_below[other] for other in rest if other != it):
                print(f"  {name} -> {it};")
    print("}")


main()
