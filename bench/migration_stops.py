"""Stops `tldreg migrate` at each call that writes, truncates or syncs a file.

usage: python3 migration_stops.py TLDREG     (the program as rt ci builds it; strace has to be there)

`.ci/schema1.sql` makes a file of the schema before this one. `migrate` takes it over undisturbed first; then again and
again into a new file, killed by strace before its first such call, before its second, and so on until it passes. Each
time the new file has to have no table, or every row that it has where nothing was disturbed; the earlier file is what
it was; and `migrate` tried again takes it over where nothing was there, and refuses (`open: schema`) where all was.
Printed is how many stops left nothing, and how many all. The status is 0 if all is well, else 1.
"""
import shutil
import sqlite3
import subprocess
import sys
import tempfile
from pathlib import Path

ROOT = Path(__file__).resolve().parent.parent
POLICY = ROOT / "examples/policy.toml"
CALLS = "pwrite64,write,ftruncate,fsync,fdatasync"


def rows_of(file):
    """All rows of all tables of a copy of the file and its log, which stay as they are."""
    with tempfile.TemporaryDirectory() as folder:
        copy = Path(folder, "copy.db")
        for end in ["", "-wal"]:
            if Path(f"{file}{end}").exists():
                shutil.copy(f"{file}{end}", f"{copy}{end}")
        if not copy.exists():
            return {}
        if copy.stat().st_size <= 4096 and copy.read_bytes()[:1] in (b"", b"\0"):
            return {}  # its first page is still being made, and the next opening makes it anew
        base = sqlite3.connect(copy)
        names = [name for name, in base.execute("SELECT name FROM sqlite_master WHERE type = 'table' ORDER BY name")]
        rows = {name: base.execute(f"SELECT * FROM {name} ORDER BY id").fetchall() for name in names}
        sound = base.execute("PRAGMA integrity_check").fetchall()
        base.close()
        assert sound == [("ok",)], sound
        return rows


def migrate(program, old, new, at=None):
    words = [program, "migrate", POLICY, old, new]
    if at is not None:
        words = ["strace", "-f", "-qq", "-o", "/dev/null", "-e", f"inject={CALLS}:signal=KILL:when={at}", *words]
    return subprocess.run(words, capture_output=True, text=True, timeout=60)


def tried(program, folder, at, before, whole):
    """Whether the new file has all rows after a stop before that call; None where it passed."""
    old, new = folder / "old.db", folder / f"{at}.db"
    passed = migrate(program, old, new, at).returncode == 0
    left = rows_of(new)
    assert left in ({}, whole), f"stop {at}: a part is left"
    assert rows_of(old) == before, f"stop {at}: the earlier file isn't what it was"
    again = migrate(program, old, new)
    wanted = (1, "open: schema\n") if left else (0, "")
    assert (again.returncode, again.stderr) == wanted, f"stop {at}: {again}"
    assert rows_of(new) == whole, f"stop {at}: not whole in the end"
    return None if passed else bool(left)


def main(program):
    with tempfile.TemporaryDirectory() as name:
        folder = Path(name)
        made = sqlite3.connect(folder / "old.db")
        made.executescript((ROOT / ".ci/schema1.sql").read_text())
        made.close()
        before = rows_of(folder / "old.db")
        assert migrate(program, folder / "old.db", folder / "new.db").returncode == 0
        whole, found = rows_of(folder / "new.db"), {True: 0, False: 0}
        at = 1
        while (left := tried(program, folder, at, before, whole)) is not None:
            found[left] += 1
            at += 1
        print(f"stopped before each of {at - 1} calls: {found[False]} left nothing, {found[True]} all, none a part")


if __name__ == "__main__":
    main(sys.argv[1])
