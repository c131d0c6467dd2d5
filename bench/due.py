"""What a command costs while the names of another registrar are due, in one run.

usage: python3 due.py TLDREG TRANSCRIPTS [DOMAINS]     (the programs as rt ci builds them; 20,000 domains)

Under the example policy beta creates that many domains in one second, so that all expire in one second a year later.
Printed are milliseconds a command:

rows     `tldreg run` over rows in memory: alfa's checks of two names before that second and behind it, while beta's
         names wait; beta's first command behind it, by which all of them lapse; and a settlement of 1,000 of them
maps     the same checks over ordered maps, by `transcripts`, which runs a script over both
file     `tldreg serve` over a file: the same checks, before and behind (beta's domains are made older between two runs)

Each time of a script is what it takes beyond the script of the creates alone. The least of three runs counts.
"""
import json
import os
import subprocess
import sys
import tempfile
import time
from datetime import datetime, timezone
from pathlib import Path

import books
import make_script
import rows

POLICY = rows.HERE.parent / "examples" / "policy.toml"
CHECKS = 500
EARLY, LATE = "2028-06-01T00:00:00Z", "2029-06-01T00:00:00Z"
OLDER = 370 * 86400
TURNS = 3


def line(moment, caller, said):
    return f"{moment} {caller} {json.dumps(said, separators=(',', ':'))}\n"


def contact(registrar):
    return {**make_script.CONTACT, "name": f"c-{registrar}"}


def create(number, registrar="beta"):
    return {**make_script.create(number), "registrant": f"c-{registrar}"}


def check(number):
    return {"cmd": "check", "names": ["own.test", f"free{number:06}.test"], "obj": "domain"}


def creates(domains):
    lines = [line("2028-01-01T00:00:00Z", "operator", {"order": "deposit", "registrar": it, "cents": 10 ** 12})
             for it in ("alfa", "beta")]
    lines += [line("2028-01-01T00:00:00Z", it, contact(it)) for it in ("alfa", "beta")]
    lines += [line("2028-01-01T00:00:00Z", "alfa", {**create(0, "alfa"), "name": "own.test"})]
    return lines + [line("2028-01-01T00:00:00Z", "beta", create(number)) for number in range(1, domains + 1)]


def checks(moment):
    return [line(moment, "alfa", check(number)) for number in range(CHECKS)]


def seconds(words, folder, lines):
    """The least processor seconds of a program over a script, and what it printed."""
    script = Path(folder, "script")
    script.write_text("".join(lines))
    times = [books.seconds(words, folder, script) for _ in range(TURNS)]
    return min(it[0] for it in times), times[0][1]


def over_rows(tldreg, folder, first):
    base = seconds([tldreg, "run", "policy.toml"], folder, first)[0]

    def beyond(lines):
        return (seconds([tldreg, "run", "policy.toml"], folder, first + lines)[0] - base) / len(lines) * 1000

    settle = {"order": "settle", "at_most": 1000}
    return [("check, nothing due", beyond(checks(EARLY))), ("check, all due", beyond(checks(LATE))),
            ("beta's first", beyond([line(LATE, "beta", {"cmd": "balance"})])),
            ("settlement of 1,000", beyond([line(LATE, "operator", settle)] * 5))]


def over_maps(tldreg, transcripts, folder, first):
    def both(lines):
        """Beyond what `tldreg` takes over rows, which `transcripts` does first."""
        alone, told = seconds([tldreg, "run", "policy.toml"], folder, lines)
        text = "transcript: due\npolicy: policy.toml\n\n" + "".join(
            f"C: {said}S: {reply}\n" for said, reply in zip(lines, told.splitlines()))
        Path(folder, "due.transcript").write_text(text)
        return seconds([transcripts, "due.transcript"], folder, [])[0] - alone

    base = both(first)
    return [(word, (both(first + checks(moment)) - base) / CHECKS * 1000)
            for word, moment in (("check, nothing due", EARLY), ("check, all due", LATE))]


def timed(port, file, tldreg, registrar, payloads):
    server = rows.served(tldreg, str(POLICY), file, port)
    client = rows.Client(port, registrar)
    begun = time.perf_counter()
    client.send(payloads)
    took = (time.perf_counter() - begun) / len(payloads) * 1000
    client.close()
    server.kill()
    server.wait()
    return took


def on_file(tldreg, folder, domains):
    file, moment = os.path.join(folder, "registry.db"), f"{datetime.now(timezone.utc):%Y-%m-%dT%H:%M:%SZ}"
    for registrar in ("alfa", "beta"):
        subprocess.run([tldreg, "deposit", str(POLICY), file, moment, registrar, str(10 ** 12)], check=True,
                       stdout=subprocess.DEVNULL)
    timed(7801, file, tldreg, "beta", [contact("beta")] + [create(number) for number in range(1, domains + 1)])
    timed(7802, file, tldreg, "alfa", [contact("alfa"), {**create(0, "alfa"), "name": "own.test"}])
    said = [check(number) for number in range(CHECKS)]
    early = timed(7803, file, tldreg, "alfa", said)
    subprocess.run(["sqlite3", file, f"UPDATE domain SET created = created - {OLDER}, due = due - {OLDER} WHERE name <> "
                    f"'own.test'; UPDATE link SET due = (SELECT due FROM domain WHERE domain.id = link.domain); UPDATE line "
                    f"SET recorded = recorded - {OLDER}, started = started - {OLDER};"], check=True)
    late = timed(7804, file, tldreg, "alfa", said)
    return [("check, nothing due", early), ("check, all due", late),
            ("beta's first", timed(7805, file, tldreg, "beta", [{"cmd": "balance"}]))]


def main(words):
    tldreg, transcripts = (os.path.abspath(word) for word in words[:2])
    domains = int(words[2]) if len(words) > 2 else 20000
    with tempfile.TemporaryDirectory(dir="/var/tmp") as folder:
        Path(folder, "policy.toml").write_text(POLICY.read_text())
        first = creates(domains)
        for word, found in (("rows", over_rows(tldreg, folder, first)), ("maps", over_maps(tldreg, transcripts, folder, first)),
                            ("file", on_file(tldreg, folder, domains))):
            print(word, "".join(f"{what} {took:.3f}".ljust(32) for what, took in found), flush=True)


if __name__ == "__main__":
    main(sys.argv[1:])
