"""What of a frame's time is JSON's, the rules' and the database's.

usage: python3 shares.py TLDREG     (the program as rt ci builds it; valgrind on the path)

For a database in memory and one on a file, with 1,000 domains, under the example policy with prices of 0, it prints of
creates and of checks, in microseconds a frame, 1,000 frames written at once over loopback: the whole time, the
processor's in the program and in the system, and what is left, which is waiting (for the disk, above all). Then, of the
instructions of the program itself, which callgrind counts over 200 frames: the share of reading and printing JSON (what is
called in the crates `eppcommands` and `eppreplies`), of the database (what is called in `sqlbook` and below it, the
library's own with it), and of all else (the rules, frames, sessions).
"""
import os
import re
import subprocess
import sys
import tempfile
import time
from pathlib import Path

import make_script
import rows

JSON = {"eppcommands", "eppforms", "eppreplies", "serde_json"}
ROWS = {"sqlrows", "sqltables", "sqlcolumns"}
ABOVE = {"books", "registry", "mapbook", "eppwire", "frames", "server", "tldreg", "script"}
DOMAINS = 1000
COUNTED = 200


def is_of_database(crate):
    return crate in ROWS or crate.startswith("sql")


def crate_of(function):
    return function.lstrip("<&").split("::")[0]


def shares(path):
    """The instructions of a file of callgrind's: all, JSON's and the database's."""
    whole = json = database = 0
    caller = callee = ""
    is_call = False
    for line in open(path):
        if line.startswith("fn="):
            caller = crate_of(line[3:].strip())
        elif line.startswith("cfn="):
            callee = crate_of(line[4:].strip())
        elif line.startswith("calls="):
            is_call = True
        elif re.match(r"[0-9+*-]", line):
            cost = int(line.split()[1])
            if not is_call:
                whole += cost
            elif caller in ABOVE and callee in JSON:
                json += cost
            elif caller in ABOVE and is_of_database(callee):
                database += cost
            is_call = False
    return whole, json, database


def policy_of(folder):
    policy = os.path.join(folder, "free.toml")
    text = (rows.HERE.parent / "examples" / "policy.toml").read_text()
    Path(policy).write_text(re.sub(r"^(create|renew|transfer) = 800$", r"\1 = 0", text, flags=re.M))
    return policy


def used(pid):
    fields = Path(f"/proc/{pid}/stat").read_text().rsplit(")", 1)[1].split()
    tick = os.sysconf("SC_CLK_TCK")
    return int(fields[11]) / tick, int(fields[12]) / tick


def payloads(kind, first, count):
    return [rows.payload(kind, number, "") for number in range(first, first + count)]


def timed(program, policy, file, port):
    """Microseconds a frame, of creates and of checks: all, the program's, the system's."""
    server = rows.served(program, policy, file, port)
    client = rows.Client(port, "alfa")
    client.send([make_script.CONTACT])
    client.send(payloads("create", 1, DOMAINS))
    told = {}
    for kind, first in (("create", DOMAINS + 1), ("check", 1)):
        frames = payloads(kind, first, DOMAINS) * (1 if kind == "create" else 3)
        before, begun = used(server.pid), time.perf_counter()
        client.send(frames)
        whole, after = time.perf_counter() - begun, used(server.pid)
        told[kind] = [it / len(frames) * 1e6 for it in (whole, after[0] - before[0], after[1] - before[1])]
    client.close()
    server.kill()
    server.wait()
    return told


def counted(program, policy, file, port, folder):
    """The shares of creates and of checks."""
    out = os.path.join(folder, "callgrind")
    words = ["valgrind", "--quiet", "--tool=callgrind", "--compress-strings=no", "--compress-pos=no", f"--callgrind-out-file={out}"]
    server = subprocess.Popen([*words, program, "serve", policy, file, str(port)], stderr=subprocess.DEVNULL)
    client = rows.Client(port, "alfa")
    client.send([make_script.CONTACT])
    client.send(payloads("create", 1, DOMAINS))
    told = {}
    for kind, first in (("create", DOMAINS + 1), ("check", 1)):
        subprocess.run(["callgrind_control", "--zero", str(server.pid)], stdout=subprocess.DEVNULL, check=True)
        client.send(payloads(kind, first, COUNTED))
        subprocess.run(["callgrind_control", f"--dump={kind}", str(server.pid)], stdout=subprocess.DEVNULL, check=True)
        dumps = sorted(Path(folder).glob("callgrind.*"), key=lambda it: int(it.suffix[1:]))
        told[kind] = shares(dumps[-1])
    client.close()
    server.kill()
    server.wait()
    for it in Path(folder).glob("callgrind*"):
        it.unlink()
    return told


def main(words):
    program = words[0]
    print("where   command     whole  program  system  waiting   JSON  database   else")
    for place, (where, name) in enumerate((("memory", ":memory:"), ("file", "registry.db"))):
        with tempfile.TemporaryDirectory(dir="/var/tmp") as folder:
            policy, port = policy_of(folder), 7800 + 2 * place
            file = name if where == "memory" else os.path.join(folder, name)
            times = timed(program, policy, file, port)
            again = name if where == "memory" else os.path.join(folder, f"counted-{name}")
            parts = counted(program, policy, again, port + 1, folder)
            for kind, (whole, own, system) in times.items():
                all_of, json, database = parts[kind]
                split = [100 * it / all_of for it in (json, database, all_of - json - database)]
                print(f"{where:7} {kind:8} {whole:8.0f} {own:8.0f} {system:7.0f} {whole - own - system:8.0f}"
                      + "".join(f"{it:8.1f} %" for it in split), flush=True)


if __name__ == "__main__":
    main(sys.argv[1:])
