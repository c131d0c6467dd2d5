"""How long a file takes to be opened, and how long the log beside it becomes.

usage: python3 openings.py TLDREG [DOMAINS..]     (the program as rt ci builds it)
       python3 openings.py BEFORE,AFTER [DOMAINS..]     (two programs beside each other)

For each number of domains (1,000, 10,000 and 100,000 where none is given) a client creates that many over frames, 1,000
written at once, under the example policy. The program is ended by a signal, as at a crash, and started again. Printed
are, each of one run:

file, log   megabytes of the database file and of the log beside it at the end of the creates, and of the log at its
            longest while they were made
opening     seconds from the program's start until it listens, by when the file was read whole and opened, and how many
            of them the processor worked for it; its peak memory until then, and megabytes that it read by then
            where there are several programs, the first fills the file and each opens it, turn about, RUNS times: the
            least of each number
lapse       seconds of one command when the domains have become older and each renews itself before it is judged, all
            in one transaction; megabytes of the log afterwards
"""
import os
import sqlite3
import subprocess
import sys
import tempfile
import time
from datetime import datetime, timezone
from pathlib import Path

import make_script
import rows

RUNS = 3
POLICY = str(rows.HERE.parent / "examples" / "policy.toml")
MEGABYTE = 10 ** 6


def size(path):
    return os.path.getsize(path) if os.path.exists(path) else 0


def moment():
    return f"{datetime.now(timezone.utc):%Y-%m-%dT%H:%M:%SZ}"


def end(server):
    server.kill()
    server.wait()


def fill(program, file, domains, port):
    """Creates the domains, and returns how long the log was at its longest."""
    subprocess.run([program, "deposit", POLICY, file, moment(), "alfa", str(10 ** 12)], check=True,
                   stdout=subprocess.DEVNULL)
    server = rows.served(program, POLICY, file, port)
    client, longest = rows.Client(port, "alfa"), 0
    client.send([make_script.CONTACT])
    for first in range(1, domains + 1, 1000):
        client.send([make_script.create(number) for number in range(first, min(first + 1000, domains + 1))])
        longest = max(longest, size(f"{file}-wal"))
    client.close()
    end(server)
    return longest


def of_process(server, name):
    """A number that the system keeps of a process: kilobytes of status, bytes of io."""
    for part in ("status", "io"):
        for line in Path(f"/proc/{server.pid}/{part}").read_text().splitlines():
            if line.startswith(f"{name}:"):
                return int(line.split()[1])
    raise KeyError(name)


def processor_seconds(server):
    words = Path(f"/proc/{server.pid}/stat").read_text().rsplit(")", 1)[1].split()
    return sum(int(it) for it in words[11:13]) / os.sysconf("SC_CLK_TCK")


def opening(program, file, port):
    begun = time.perf_counter()
    server = rows.served(program, POLICY, file, port)
    while not listens(port):
        assert server.poll() is None, "serve has ended"
        time.sleep(0.0005)
    seconds = time.perf_counter() - begun
    peak, read, worked = of_process(server, "VmHWM") * 1024, of_process(server, "rchar"), processor_seconds(server)
    end(server)
    return seconds, worked, peak / MEGABYTE, read / MEGABYTE


def listens(port):
    """Whether a port of this machine is listened on: no connection is made, which the program would serve."""
    wanted = f"0100007F:{port:04X}"
    lines = Path("/proc/net/tcp").read_text().splitlines()[1:]
    return any(line.split()[1] == wanted and line.split()[3] == "0A" for line in lines)


def lapse(program, file, port):
    older = 370 * 86400
    database = sqlite3.connect(file)
    database.executescript(f"UPDATE domain SET created = created - {older}, due = due - {older}; UPDATE link SET due = due - {older}; UPDATE line SET recorded = "
                           f"recorded - {older}, started = started - {older};")
    database.close()
    server = rows.served(program, POLICY, file, port)
    client = rows.Client(port, "alfa")
    begun = time.perf_counter()
    client.send([{"cmd": "balance"}])
    seconds = time.perf_counter() - begun
    client.close()
    end(server)
    return seconds


def tell(domains, there, opened, end=""):
    seconds, worked, peak, read = opened
    print(f"{domains:7} {there[0]:6.1f} {there[1]:6.1f} {there[2]:7.1f} | {seconds:7.2f} {worked:6.2f} {peak:5.0f} "
          f"{read:6.1f} |{end}", flush=True)


def main(words):
    programs = words[0].split(",")
    print("domains   file    log longest | opening worked  peak   read | lapse    log")
    for place, domains in enumerate([int(word) for word in words[1:]] or [1000, 10000, 100000]):
        with tempfile.TemporaryDirectory(dir="/var/tmp") as folder:
            file, port = os.path.join(folder, "registry.db"), 7720 + 40 * place
            longest = fill(programs[0], file, domains, port)
            there = [size(file) / MEGABYTE, size(f"{file}-wal") / MEGABYTE, longest / MEGABYTE]
            if len(programs) == 1:
                opened = opening(programs[0], file, port + 1)
                lapsed, log = lapse(programs[0], file, port + 2), size(f"{file}-wal") / MEGABYTE
                tell(domains, there, opened, f" {lapsed:5.1f} {log:6.1f}")
                continue
            opened = [[opening(program, file, port + 1 + run * len(programs) + at)
                       for at, program in enumerate(programs)] for run in range(RUNS)]
            for runs in zip(*opened):
                tell(domains, there, [min(numbers) for numbers in zip(*runs)])


if __name__ == "__main__":
    main(sys.argv[1:])
