#!/usr/bin/env python3
"""Tries the wrong bodies that aren't part of the gate: those of bench/wrong-bodies/CRATE/NAME.edit.

    python3 bench/wrong_bodies.py [--goals] CRATE..    those of these crates, or of all where none is named

Each has to be refused, as those of crates/CRATE/must-fail are, beside which `rt must-fail` tries them. It builds libraries as
`rt check` does. With --goals the line that refuses each is written into
bench/wrong-bodies/GOALS.md. The status is 1 if one is still proved, or can't be applied.
"""
import os
import re
import shutil
import subprocess
import sys
from pathlib import Path

ROOT = Path(__file__).resolve().parent.parent
EDITS = ROOT / "bench/wrong-bodies"
GOALS = EDITS / "GOALS.md"
HEAD = "| crate | wrong body | refused at |\n| --- | --- | --- |\n"


def tried(crate):
    """What `rt must-fail` says of the crate's wrong bodies, by their names. They stand among those of the gate meanwhile."""
    to = ROOT / f"crates/{crate}/must-fail"
    was_there, put = to.is_dir(), []
    try:
        to.mkdir(exist_ok=True)
        for it in (EDITS / crate).glob("*.edit"):
            put.append(to / it.name)
            shutil.copy(it, to)
        ran = subprocess.run(["rt", "must-fail", crate], cwd=ROOT, stdout=subprocess.PIPE, stderr=subprocess.STDOUT, text=True)
    finally:
        for it in put:
            it.unlink(missing_ok=True)
        if not was_there:
            to.rmdir()
    found = {}
    for line in ran.stdout.split("\n"):
        at = re.search(rf"must-fail {crate}/(\S+)\.edit: (.*)", line)
        if at:
            found[at[1]] = at[2]
    return found


def written(goals):
    """Writes the lines that refused them into the table, in the place of older ones."""
    rows = dict(goals)
    for line in GOALS.read_text().split("\n") if GOALS.exists() else []:
        cells = [it.strip() for it in line.strip("|").split(" | ")]
        if len(cells) == 3 and cells[0] not in ("crate", "---"):
            rows.setdefault((cells[0], cells[1]), cells[2])
    GOALS.write_text(HEAD + "".join(f"| {crate} | {name} | {goal} |\n" for (crate, name), goal in sorted(rows.items())))


def main(words):
    keeps = "--goals" in words
    crates = [it for it in words if it != "--goals"] or sorted(it.name for it in EDITS.iterdir() if it.is_dir())
    goals, well = {}, True
    for crate in crates:
        found = tried(crate)
        for name in sorted(it.stem for it in (EDITS / crate).glob("*.edit")):
            said = found.get(name, "not tried")
            print(f"{crate}/{name}: {said}", flush=True)
            well = well and said.startswith("refused")
            goals[crate, name] = re.sub(r"^refused, as it must be(: note: |: )?", "", said).replace("|", "\\|")[:140]
    if keeps:
        written(goals)
    return 0 if well else 1


if __name__ == "__main__":
    os.environ.pop("RT_JOBS", None)
    sys.exit(main(sys.argv[1:]))
