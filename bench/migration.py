"""How long a file of the schema before this one takes to be taken over.

usage: python3 migration.py TLDREG [DOMAINS..]     (the program as rt ci builds it)

For each number of domains (1,000 and 100,000 where none is given) a client creates that many over frames in a file of this
schema; its rows, without what is new, go into the tables of the schema before, whose texts `.ci/schema1.sql` has; and
`tldreg migrate` takes that file over. Printed are seconds from the program's start to its end, its peak memory, and
megabytes of both files.
"""
import os
import sqlite3
import subprocess
import sys
import tempfile
import time

import openings
import rows


def to_schema_1(new, old):
    """The rows of a file of this schema in the tables of the schema before."""
    text = (rows.HERE.parent / ".ci/schema1.sql").read_text()
    made = sqlite3.connect(old)
    made.executescript("".join(line + "\n" for line in text.splitlines() if line.startswith(("CREATE", "--"))))
    made.execute("ATTACH ? AS new", (new,))
    for name, in made.execute("SELECT name FROM main.sqlite_master WHERE type = 'table' ORDER BY rowid").fetchall():
        columns = ", ".join(column[1] for column in made.execute(f"PRAGMA main.table_info({name})"))
        made.execute(f"INSERT INTO main.{name} ({columns}) SELECT {columns} FROM new.{name}")
    made.execute("UPDATE main.meta SET version = 1")
    made.commit()
    made.close()


def migrated(program, domains, folder, port):
    new, old, taken = (os.path.join(folder, f"{name}.{domains}.db") for name in ("new", "old", "taken"))
    openings.fill(program, new, domains, port)
    to_schema_1(new, old)
    begun = time.perf_counter()
    process = subprocess.Popen([program, "migrate", openings.POLICY, old, taken])
    _, status, usage = os.wait4(process.pid, 0)
    seconds = time.perf_counter() - begun
    assert status == 0, status
    files = [openings.size(file) + openings.size(f"{file}-wal") for file in (old, taken)]
    return seconds, usage.ru_utime + usage.ru_stime, usage.ru_maxrss * 1024, files


def main(words):
    print("domains  seconds  of the processor  peak MB  old MB  new MB")
    for place, domains in enumerate([int(word) for word in words[1:]] or [1000, 100000]):
        with tempfile.TemporaryDirectory(dir="/var/tmp") as folder:
            seconds, worked, peak, files = migrated(words[0], domains, folder, 7790 + place)
            sizes = "  ".join(f"{size / openings.MEGABYTE:6.1f}" for size in files)
            print(f"{domains:7}  {seconds:7.2f}  {worked:16.2f}  {peak / openings.MEGABYTE:7.1f}  {sizes}", flush=True)


if __name__ == "__main__":
    main(sys.argv[1:])
