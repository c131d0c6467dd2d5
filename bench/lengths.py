"""What tables of lengths of periods cost a command over rows.

usage: python3 lengths.py TLDREG     (the program as rt ci builds it)

The example policy with prices of 0 gets 0, 3 and 300 tables `[[days_from]]`, the first from tomorrow on, each a day later. Under
each, on a new file in /dev/shm where there is one, 1,000 domains are created, and then 1,000 are renewed and 1,000
checks made, 1,000 frames written at once. Printed are microseconds a command, and the ratio to the policy without
tables, of the best of three turns.
"""
import os
import re
import sys
import tempfile
from datetime import datetime, timedelta, timezone
from pathlib import Path

import rows

DOMAINS = 1000
TURNS = 3
LENGTHS = "add = 10\nauto_renew = 30\nrenew = 10\ntransfer = 10\nredemption = 20\nrestore = 3\npending_delete = 2\nanswer = 3\nlock = 30\n"


def policy_with(tables, folder):
    text = (rows.HERE.parent / "examples" / "policy.toml").read_text()
    text = re.sub(r"^(create|renew|transfer) = 800$", r"\1 = 0", text, flags=re.M)
    first = datetime.now(timezone.utc) + timedelta(days=1)
    dated = "".join(f'[[days_from]]\nfrom = "{first + timedelta(days=at):%Y-%m-%dT%H:%M:%SZ}"\n{LENGTHS}' for at in range(tables))
    policy = Path(folder, f"{tables}.toml")
    policy.write_text(text.replace("[prices]\n", dated + "[prices]\n"))
    return str(policy)


def costs_under(program, tables, folder, port):
    file = os.path.join(folder, f"{tables}.{port}.db")
    server = rows.served(program, policy_with(tables, folder), file, port)
    client = rows.Client(port, "alfa")
    costs = rows.fill_and_time(client, DOMAINS)
    client.close()
    server.kill()
    server.wait()
    return {"create": costs["(filling)"], "check": costs["check"], "renew": costs["renew"]}


def main(words):
    with tempfile.TemporaryDirectory(dir="/dev/shm" if os.path.isdir("/dev/shm") else None) as folder:
        best = {}
        for turn in range(TURNS):
            for place, tables in enumerate([0, 3, 300]):
                for kind, cost in costs_under(words[0], tables, folder, 7750 + 10 * turn + place).items():
                    best[tables, kind] = min(cost, best.get((tables, kind), cost))
        print("tables command    microseconds  ratio")
        for (tables, kind), cost in best.items():
            print(f"{tables:6} {kind:10} {cost * 1e6:12.1f} {cost / best[0, kind]:6.2f}")


if __name__ == "__main__":
    main(sys.argv[1:])
