"""What a command costs in a registry over rows, and the floor beside it, in one run.

usage: python3 rows.py TLDREG FLOOR [DOMAINS..]     (the program; the floor, built by floor/build.sh)

For each number of domains (1,000, 10,000 and 100,000 where none is given) it prints, in microseconds a command:

memory   `tldreg serve` over a database in memory, under the example policy with prices of 0, since no deposit can be
         sent over a connection; no transfers, since the machine's clock doesn't reach the end of a lock
file     the same over a file, with a deposit and prices, in the folder that TMPDIR names, or in /var/tmp

Each command is a frame, 1,000 of them written at once over loopback, and the time is that until the last reply.
Beside each stands what the floor says of such a database.
"""
import json
import os
import re
import socket
import subprocess
import sys
import tempfile
import time
from datetime import datetime, timedelta, timezone
from pathlib import Path

import make_script

HERE = Path(__file__).resolve().parent
COMMANDS = 2000
KINDS = ["check", "info", "balance", "create", "renew", "request"]
LATER = 100 * 86400


def name(number):
    return make_script.name(number)


def payload(kind, number, expires):
    return {
        "check": {"cmd": "check", "names": [name(number), f"free{number:06}.test"], "obj": "domain"},
        "info": {"cmd": "info", "name": name(number), "obj": "domain"},
        "balance": {"cmd": "balance"},
        "create": make_script.create(number),
        "renew": {"cmd": "renew", "expires": expires, "name": name(number), "obj": "domain"},
        "request": {"cmd": "transfer", "name": name(number), "obj": "domain", "op": "request",
                    "secret": "foo-secret"},
    }[kind]


def subjects(kind, domains):
    """The domains that the commands are about, spread over all, or new ones."""
    if kind == "create":
        return [domains + at + 1 for at in range(COMMANDS)]
    count = min(COMMANDS, domains)
    return [at * (domains // count) + 1 for at in range(count)]


# ---- the program

class Client:
    def __init__(self, port, registrar):
        for _ in range(2000):
            try:
                self.connection = socket.create_connection(("127.0.0.1", port))
                break
            except OSError:
                time.sleep(0.05)
        self.stream = self.connection.makefile("rb")
        self.send([{"cmd": "login", "id": registrar, "pw": f"pass-{registrar}", "version": "1.0"}])

    def reply(self):
        length = int.from_bytes(self.stream.read(4), "big")
        return json.loads(self.stream.read(length - 4))

    def send(self, payloads):
        for first in range(0, len(payloads), 1000):
            some = payloads[first:first + 1000]
            texts = [json.dumps(said, separators=(",", ":")).encode() for said in some]
            self.connection.sendall(b"".join((len(text) + 4).to_bytes(4, "big") + text for text in texts))
            for _ in some:
                told = self.reply()
                assert told.get("code", 1000) < 2000, told

    def close(self):
        self.stream.close()
        self.connection.close()


def served(program, policy, file, port):
    return subprocess.Popen([program, "serve", policy, file, str(port)])


def fill_and_time(client, domains):
    client.send([make_script.CONTACT])
    begun = time.perf_counter()
    client.send([make_script.create(number) for number in range(1, domains + 1)])
    costs = {"(filling)": (time.perf_counter() - begun) / domains}
    expires = f"{datetime.now(timezone.utc) + timedelta(days=365):%Y-%m-%d}"
    for kind in KINDS[:-1]:
        costs[kind] = timed(client, kind, domains, expires)
    return costs


def in_memory(program, domains, folder, port):
    policy = os.path.join(folder, "free.toml")
    text = (HERE.parent / "examples" / "policy.toml").read_text()
    Path(policy).write_text(re.sub(r"^(create|renew|transfer) = 800$", r"\1 = 0", text, flags=re.M))
    server = served(program, policy, ":memory:", port)
    alfa = Client(port, "alfa")
    costs = fill_and_time(alfa, domains)
    alfa.close()
    server.kill()
    server.wait()
    return costs


def on_file(program, domains, folder, port):
    policy = str(HERE.parent / "examples" / "policy.toml")
    file = os.path.join(folder, f"{domains}.db")
    moment = f"{datetime.now(timezone.utc):%Y-%m-%dT%H:%M:%SZ}"
    for registrar in ("alfa", "beta"):
        subprocess.run([program, "deposit", policy, file, moment, registrar, str(10 ** 12)], check=True,
                       stdout=subprocess.DEVNULL)
    server = served(program, policy, file, port)
    alfa = Client(port, "alfa")
    costs = fill_and_time(alfa, domains)
    alfa.close()
    server.kill()
    server.wait()
    # no transfer before the lock has ended, so the domains become a hundred days older
    older = (f"UPDATE domain SET created = created - {LATER}, due = due - {LATER}; UPDATE link SET due = due - {LATER}; UPDATE line SET recorded = "
             f"recorded - {LATER}, started = started - {LATER}, ends = ends - {LATER};")
    subprocess.run(["sqlite3", file, older], check=True)
    server = served(program, policy, file, port)
    beta = Client(port, "beta")
    costs["request"] = timed(beta, "request", domains, "")
    beta.close()
    server.kill()
    server.wait()
    return costs


def timed(client, kind, domains, expires):
    numbers = subjects(kind, domains)
    begun = time.perf_counter()
    client.send([payload(kind, number, expires) for number in numbers])
    return (time.perf_counter() - begun) / len(numbers)


# ---- the floor

def floor(program, database, domains):
    done = subprocess.run([program, database, str(domains), str(min(COMMANDS, domains))], check=True, text=True,
                          stdout=subprocess.PIPE)
    return {word: float(cost) / 1e6 for word, cost in (line.split() for line in done.stdout.splitlines())}


def show(where, domains, costs, floors):
    for kind, cost in costs.items():
        below = floors.get(kind)
        ratio = "" if below is None else f"{below * 1e6:9.1f} {cost / below:6.2f}"
        print(f"{where:7} {domains:7} {kind:10} {cost * 1e6:9.1f} {ratio}", flush=True)


def main(words):
    program, beneath = words[:2]
    print("where   domains command        ours     floor  ratio")
    for place, domains in enumerate([int(word) for word in words[2:]] or [1000, 10000, 100000]):
        with tempfile.TemporaryDirectory(dir=os.environ.get("TMPDIR", "/var/tmp")) as folder:
            port = 7700 + 2 * place
            show("memory", domains, in_memory(program, domains, folder, port), floor(beneath, ":memory:", domains))
            floors = floor(beneath, os.path.join(folder, "floor.db"), domains)
            show("file", domains, on_file(program, domains, folder, port + 1), floors)


if __name__ == "__main__":
    main(sys.argv[1:])
