"""Which statement of a create costs what, in ours and in the floor.

usage: python3 statements.py TLDREG FLOOR     (the program as rt ci builds it; the floor, built by floor/build.sh; valgrind)

For a database in memory and one on a file, with 1,000 domains, under the example policy with prices of 0: how often one
create runs each statement, what one run of it takes, in microseconds, and its part of the create. First ours: a line
stands for the calls from one function above the database into it (into the crates `sqltables` and `sqlrows`, or into the
library where these are compiled away), by callgrind's instructions of 200 creates, as a share of the processor's time of
a create. What makes less than a hundredth isn't printed, and the last line is what lies outside. Then the floor's
statements by their names, measured.
"""
import os
import re
import subprocess
import sys
import tempfile
from collections import defaultdict
from pathlib import Path

import make_script
import rows
import shares


BELOW = re.compile(r"[<&]*(sqltables|sqlrows|sqlite|sqlite_\w*)::")


def bare(function):
    """A function's path without the numbers of its types."""
    return re.sub(r"(::)?<#[0-9a-f]+>", "", function)


def counted(path):
    """Of a file of callgrind's: all instructions, and by call into the database how often and how many."""
    whole, calls, costs = 0, defaultdict(int), defaultdict(int)
    caller = callee = ""
    times = None
    for line in open(path):
        if line.startswith("fn="):
            caller = line[3:].strip()
        elif line.startswith("cfn="):
            callee = line[4:].strip()
        elif line.startswith("calls="):
            times = int(line[6:].split()[0])
        elif re.match(r"[0-9+*-]", line):
            cost = int(line.split()[1])
            if times is None:
                whole += cost
            elif BELOW.match(callee) and not BELOW.match(caller):
                name = bare(callee).split("::")[-1], bare(caller)
                calls[name] += times
                costs[name] += cost
            times = None
    return whole, calls, costs


def control(word, server):
    subprocess.run(["callgrind_control", word, str(server.pid)], stdout=subprocess.DEVNULL, stderr=subprocess.DEVNULL, check=True)


def ours(program, file, port, folder):
    """By call into the database: how often a create makes it, and what one takes; and the whole create, in microseconds."""
    policy = shares.policy_of(folder)
    _, own, system = shares.timed(program, policy, file, port)["create"]
    out = os.path.join(folder, "callgrind")
    words = ["valgrind", "--quiet", "--tool=callgrind", "--compress-strings=no", "--compress-pos=no", f"--callgrind-out-file={out}"]
    again = file if file == ":memory:" else f"{file}.counted"
    server = subprocess.Popen([*words, program, "serve", policy, again, str(port + 1)], stderr=subprocess.DEVNULL)
    client = rows.Client(port + 1, "alfa")
    client.send([make_script.CONTACT])
    client.send(shares.payloads("create", 1, shares.DOMAINS))
    control("--zero", server)
    client.send(shares.payloads("create", shares.DOMAINS + 1, shares.COUNTED))
    control("--dump", server)
    dump = max(Path(folder).glob("callgrind.*"), key=lambda it: int(it.suffix[1:]))
    whole, calls, costs = counted(dump)
    client.close()
    server.kill()
    server.wait()
    of = (own + system) * shares.COUNTED / whole
    return {name: (calls[name] / shares.COUNTED, costs[name] * of / calls[name]) for name in calls}, own + system


def floor(program, database):
    ran = subprocess.run([program, database, str(shares.DOMAINS), str(shares.DOMAINS), "each"], check=True, text=True, stdout=subprocess.PIPE)
    told = [line.split()[1:] for line in ran.stdout.splitlines() if line.startswith("statement ")]
    return {name: (float(runs), float(cost)) for name, runs, cost in told}


def show(where, whose, found, whole):
    rest = whole
    for name, (runs, cost) in sorted(found.items(), key=lambda it: -it[1][0] * it[1][1]):
        rest -= runs * cost
        if runs * cost >= whole / 100:
            text = name if isinstance(name, str) else f"{name[0]} from {name[1]}"
            print(f"{where:7} {whose:6} {runs:5.1f} {cost:8.2f} {100 * runs * cost / whole:6.1f} %  {text}")
    print(f"{where:7} {whose:6} {'':5} {rest:8.2f} {100 * rest / whole:6.1f} %  outside, of {whole:.0f}", flush=True)


def main(words):
    program, beneath = words
    print("where   whose   runs     each     part  statement")
    for place, where in enumerate(("memory", "file")):
        with tempfile.TemporaryDirectory(dir="/var/tmp") as folder:
            at = ":memory:" if where == "memory" else os.path.join(folder, "registry.db")
            show(where, "ours", *ours(program, at, 7900 + 2 * place, folder))
            below = floor(beneath, ":memory:" if where == "memory" else os.path.join(folder, "floor.db"))
            show(where, "floor", below, sum(runs * cost for runs, cost in below.values()))


if __name__ == "__main__":
    main(sys.argv[1:])
