"""How long the zone of a file takes to be written, and what memory it takes.

usage: python3 zone.py TLDREG [DOMAINS..]     (the program as rt ci builds it)

For each number of domains (1,000, 10,000 and 100,000 where none is given) a client creates that many over frames, each
of which names one host outside the zone, under the example policy. Then `tldreg zone` prints the zone of the file, RUNS
times. Printed are the least seconds from its start to its end, how many of them the processor worked, its peak memory
in megabytes, and the zone's lines.
"""
import os
import resource
import subprocess
import sys
import tempfile
import time

import make_script
import openings
import rows

RUNS = 3
HOST = {"cmd": "create", "name": "ns1.host.example", "obj": "host"}


def fill(program, file, domains, port):
    subprocess.run([program, "deposit", openings.POLICY, file, openings.moment(), "alfa", str(10 ** 12)], check=True,
                   stdout=subprocess.DEVNULL)
    server = rows.served(program, openings.POLICY, file, port)
    client = rows.Client(port, "alfa")
    client.send([make_script.CONTACT, HOST])
    client.send([{**make_script.create(number), "hosts": [HOST["name"]]} for number in range(1, domains + 1)])
    client.close()
    openings.end(server)


def zone(program, file, out):
    begun, before = time.perf_counter(), resource.getrusage(resource.RUSAGE_CHILDREN)
    with open(out, "wb") as it:
        subprocess.run([program, "zone", openings.POLICY, file, openings.moment()], check=True, stdout=it)
    after = resource.getrusage(resource.RUSAGE_CHILDREN)
    worked = after.ru_utime + after.ru_stime - before.ru_utime - before.ru_stime
    return time.perf_counter() - begun, worked


def peak(program, file):
    """Megabytes that the program takes at most, by a process that has no other child."""
    code = ("import resource, subprocess, sys; subprocess.run(sys.argv[1:], check=True, stdout=subprocess.DEVNULL); "
            "print(resource.getrusage(resource.RUSAGE_CHILDREN).ru_maxrss)")
    ran = subprocess.run([sys.executable, "-c", code, program, "zone", openings.POLICY, file, openings.moment()],
                         check=True, capture_output=True, text=True)
    return int(ran.stdout) * 1024 / openings.MEGABYTE


def main(words):
    program, port = os.path.abspath(words[0]), 7490
    print("domains | seconds  worked  peak |   lines")
    for domains in [int(it) for it in words[1:]] or [1000, 10000, 100000]:
        port += 1
        with tempfile.TemporaryDirectory(dir=os.environ.get("TMPDIR", "/var/tmp")) as folder:
            file, out = os.path.join(folder, "registry.db"), os.path.join(folder, "zone")
            fill(program, file, domains, port)
            seconds, worked = min(zone(program, file, out) for _ in range(RUNS))
            with open(out, "rb") as it:
                lines = sum(1 for _ in it)
            print(f"{domains:7} | {seconds:7.2f} {worked:7.2f} {peak(program, file):5.0f} | {lines:7}", flush=True)


if __name__ == "__main__":
    main(sys.argv[1:])
