"""Prints a script of N lines for `tldreg run`.

usage: python3 make_script.py N [checks | renewals | refunds | lapse | transfers]

The first line is the operator's deposit, which pays for all; the second creates the contact that the
domains name. The other lines are alfa's but where another is named, under examples/policy.toml, each a
second after the one before:

checks    (what is printed where nothing else is asked) creates of domains and checks in turn; a check
          asks for the name before it and for one that is free
renewals  for each domain its create, its renewal by a year, and the balance
refunds   creates of domains, and then the deletion of each in its add grace, which gives the charge back
lapse     creates alone; the last line is a check two years later, by when each domain has expired
transfers a third creates; a hundred days later, a third requests of beta's for one domain after the
          other, and a third alfa's approvals; the third line is a deposit to beta
"""
import json
import sys
from datetime import datetime, timedelta

START = datetime(2028, 1, 1)

CONTACT = {"cmd": "create", "mail": "ann@alfa.example", "name": "c-alfa", "obj": "contact",
           "postal": {"cc": "DE", "city": "Town", "name": "Ann", "street": ["Road 1"]},
           "secret": "key-alfa"}


def name(number):
    return f"n{number:06}.test"


def create(number):
    return {"cmd": "create", "name": name(number), "obj": "domain", "registrant": "c-alfa",
            "secret": "foo-secret"}


def check(number):
    return {"cmd": "check", "names": [name(number), f"free{number:06}.test"], "obj": "domain"}


def expires(line):
    """The expiry of what was created in the line before."""
    return f"{START + timedelta(seconds=line - 1):%Y-%m-%d}".replace("2028", "2029")


def checks(line, lines):
    return create(line // 2) if line % 2 == 0 else check(line // 2)


def renewals(line, lines):
    number = (line - 2) // 3
    return (create(number), {"cmd": "renew", "expires": expires(line), "name": name(number), "obj": "domain"},
            {"cmd": "balance"})[(line - 2) % 3]


def refunds(line, lines):
    part, number = divmod(line - 2, (lines - 2) // 2)
    return create(number) if part == 0 else {"cmd": "delete", "name": name(number), "obj": "domain"}


def lapse(line, lines):
    return create(line) if line + 1 < lines else check(line - 1)


def transfers(line, lines):
    part, number = divmod(line - 3, (lines - 3) // 3)
    if part == 0:
        return create(number)
    said = {"cmd": "transfer", "name": name(number), "obj": "domain", "op": "request", "secret": "foo-secret"}
    return said if part == 1 else {"cmd": "transfer", "name": name(number), "obj": "domain", "op": "approve"}


KINDS = {"checks": checks, "renewals": renewals, "refunds": refunds, "lapse": lapse, "transfers": transfers}


def main(words):
    kind = KINDS.get(words[1] if len(words) > 1 else "checks")
    if len(words) not in (1, 2) or not words[0].isdecimal() or kind is None:
        sys.exit(__doc__)
    lines = int(words[0])
    if kind is transfers:
        lines -= lines % 3
    if kind is refunds:
        lines -= lines % 2
    for line in range(lines):
        moment = START + timedelta(seconds=line)
        part = (line - 3) // ((lines - 3) // 3) if kind is transfers else 0
        if part > 0:
            moment += timedelta(days=100)
        if kind is lapse and line + 1 == lines:
            moment = datetime(2030, 1, 1)
        first = {0: {"order": "deposit", "registrar": "alfa", "cents": 1_000_000_000_000}, 1: CONTACT}
        if kind is transfers:
            first[2] = {"order": "deposit", "registrar": "beta", "cents": 1_000_000_000_000}
        caller = "operator" if "order" in first.get(line, {}) else "beta" if part == 1 else "alfa"
        said = first[line] if line in first else kind(line, lines)
        print(f"{moment:%Y-%m-%dT%H:%M:%SZ} {caller} {json.dumps(said, separators=(',', ':'))}")


if __name__ == "__main__":
    main(sys.argv[1:])
