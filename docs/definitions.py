#!/usr/bin/env python3
"""The index of definitions, from the beginning of each file of crates/*/specs, in the order of crates.txt.

usage: definitions.py > DEFINITIONS.md
       definitions.py --check     the status is 1 unless DEFINITIONS.md is that

Of the first sentence the page has what comes before a colon or a semicolon. Definitions of a crate's own functions
(specs/inner) are left out.
"""
import re
import sys
from pathlib import Path

ROOT = Path(__file__).resolve().parent.parent
PAGE = ROOT / "docs/DEFINITIONS.md"
HEAD = """# Definitions

For who looks for a word of a contract: each file of `crates/*/specs`, the lowest crate first. `docs/definitions.py` makes this page from the files' first lines. Files in `specs/inner` are left out: no promise of the registry names what they define ([READING.md](READING.md)).
"""


def crates():
    """The crates and their headings, in the order of crates.txt."""
    for line in (ROOT / "crates.txt").read_text().splitlines():
        if line.startswith("# ") and not line.startswith("# The crates"):
            yield "heading", line[2:]
        elif ":" in line and not line.startswith("#"):
            yield "crate", line.split(":")[0].split()[0]


def first_sentence(path):
    """What the remark says that a file begins with, and the standards that it names."""
    words = []
    for line in path.read_text().splitlines():
        if not line.startswith("-- "):
            break
        words.append(line[3:])
    text = " ".join(words)
    sources = "; ".join(it.split(": ")[0] for it in re.findall(r"\(((?:RFC|UTS)[^)]*)\)", text))
    sentence = re.split(r"[.:;](?:\s|$)", re.sub(r" \((?:RFC|UTS)[^)]*\)", "", text))[0].strip()
    sentence = re.sub(r",? and how (?:they lie|it lies) in (?:their|its) table", "", sentence.replace(", how they lie in their table", ""))
    return sentence[:1].lower() + sentence[1:] if not re.match(r"[A-Z]{2}|`", sentence) else sentence, sources


def page():
    parts, open_heading = [HEAD], None
    for kind, name in crates():
        if kind == "heading":
            open_heading = name
            continue
        files = [it for it in sorted((ROOT / f"crates/{name}/specs").glob("*.antt")) if it.stem not in ("Lib", "inner")]
        if not files:
            continue
        if open_heading:
            parts.append(f"\n## {open_heading}\n")
            parts.append("\n|crate|file|defines|standard|\n|---|---|---|---|\n")
            open_heading = None
        for it in files:
            what, sources = first_sentence(it)
            parts.append(f"|{'' if it is not files[0] else name}|`{it.stem}`|{what.replace('|', chr(92) + '|')}|{sources}|\n")
    return "".join(parts)


def main(words):
    if words == ["--check"]:
        if PAGE.read_text() == page():
            return 0
        print("definitions: docs/DEFINITIONS.md isn't what docs/definitions.py makes")
        return 1
    print(page(), end="")
    return 0


sys.exit(main(sys.argv[1:]))
