"""What would be found after a power failure, at each call of the running program on its two files.

usage: python3 power_failures.py TLDREG [SEED]     (the program; strace on the path)

`tldreg serve` works under strace on a file with 91 domains, while a client creates ten more, one after the other, in
the midst of which the log is written back. So what was written and synchronised is known, and when each create was
answered. Behind each such call the two files are made as a power failure might leave them:

- all that was written is there, as where the program alone is killed
- nothing of what was written since the last synchronisation is
- of these writes some are, whole, and others not
- of each of them some sectors of 512 bytes are; below the old end of the file the others are as they were, and beyond
  it there is rubbish, or nothing

The program opens each such state, and SQLite's own library reads it then: the domains are those of the first creates,
all that were answered and at most the next, and balance and counter are those of as many. Printed is how many states
there were, and each that is wrong.
"""
import hashlib
import os
import random
import re
import shutil
import signal
import sqlite3
import subprocess
import sys
import tempfile

import make_script
import openings
import rows

BEFORE, MORE, DRAWN, SECTOR, PORT = 91, 10, 6, 512, 7781
DEPOSIT, PRICE = 10 ** 12, 800
NAMES = [make_script.name(number) for number in range(1, BEFORE + MORE + 1)]
CALLS = "pwrite64,fdatasync,fsync,ftruncate,openat,sendto,write"
REFUSED = '{"code":2303,"msg":"Object does not exist"}\n'


class File:
    """What was written to a file, what is synchronised of it, and what was changed since: bytes at a place, or the
    length."""

    def __init__(self, path):
        with open(path, "rb") as it:
            self.now = bytearray(it.read())
        self.sync()

    def sync(self):
        self.synced, self.since = bytes(self.now), []

    def change(self, at, data):
        change(self.now, at, data)
        self.since.append((at, data))

    def left(self, chance, how):
        if how == "written":
            return bytes(self.now)
        state = bytearray(self.synced)
        for at, data in self.since if how != "synchronised" else []:
            if data is None or how == "writes":
                if chance.random() < 0.5:
                    change(state, at, data)
            else:
                self.tear(chance, state, at, data)
        return bytes(state)

    def tear(self, chance, state, at, data):
        for first in [at, *range((at // SECTOR + 1) * SECTOR, at + len(data), SECTOR)]:
            last = min((first // SECTOR + 1) * SECTOR, at + len(data))
            beyond = max(first, len(self.synced))
            if chance.random() < 0.5:
                change(state, first, data[first - at:last - at])
            elif beyond < last and chance.random() < 0.5:
                change(state, beyond, chance.randbytes(last - beyond))


def change(state, at, data):
    """Puts bytes at a place, or gives a length where there are none."""
    end = at if data is None else at + len(data)
    state.extend(b"\0" * (end - len(state)))
    if data is None:
        del state[end:]
    else:
        state[at:end] = data


# ---- the work

def create(client, numbers):
    for number in numbers:
        client.send([make_script.create(number)])


def record(program, folder):
    """Works on a file, and returns what lay in it and in its log at first, and each call then."""
    before, file, trace = (os.path.join(folder, name) for name in ("before.db", "registry.db", "trace"))
    openings.fill(program, before, BEFORE, PORT)
    for end in ("", "-wal"):
        shutil.copy(before + end, file + end)
    words = ["strace", "-f", "-xx", "-s", "1000000", "-e", f"trace={CALLS}", "-o", trace, program, "serve",
             openings.POLICY, file, str(PORT + 1)]
    server = subprocess.Popen(words, start_new_session=True)
    try:
        client = rows.Client(PORT + 1, "alfa")
        create(client, range(BEFORE + 1, BEFORE + MORE + 1))
        client.close()
    finally:
        os.killpg(server.pid, signal.SIGTERM)
        server.wait()
    return File(before), File(f"{before}-wal"), trace


def events(trace, database, log):
    """Does each call to the two files, and says whether it was an answer to a create."""
    opened = {}
    for line in open(trace):
        call = re.match(r"\d+ +(\w+)\((.*)\) += (\d+)$", line)
        if call is None:
            continue
        name, words, got = call.groups()
        texts = [bytes.fromhex(it.replace("\\x", "")) for it in re.findall(r'"([^"]*)"', words)]
        if name == "openat":
            opened[int(got)] = {b"db": database, b"db-wal": log}.get(texts[0].rsplit(b".", 1)[-1])
            continue
        file = opened.get(int(words.split(",")[0]))
        if file is None:
            if texts and b'"exDate"' in texts[0]:
                yield True
            continue
        if name == "pwrite64":
            assert int(got) == len(texts[0]), line[-100:]
            file.change(int(words.rsplit(", ", 1)[1]), texts[0])
        elif name == "ftruncate":
            file.change(int(words.rsplit(", ", 1)[1]), None)
        else:
            assert name in ("fdatasync", "fsync"), line[-100:]
            file.sync()
        yield False


# ---- what is found

def fault(program, folder, state, answered):
    """What is wrong in a state of the two files, which the program opens, if anything is."""
    file = os.path.join(folder, "state.db")
    for end, data in zip(("", "-wal"), state):
        with open(file + end, "wb") as it:
            it.write(data)
    words = [program, "deposit", openings.POLICY, file, openings.moment(), "nobody", "1"]
    said = subprocess.run(words, stdout=subprocess.PIPE, stderr=subprocess.STDOUT, text=True, timeout=60).stdout
    if said != REFUSED:
        return f"not opened: {said}"
    database = sqlite3.connect(file)
    there = [name for name, in database.execute("SELECT name FROM domain ORDER BY name")]
    account = database.execute("SELECT commands, balance FROM account WHERE ident = 'alfa'").fetchone()
    whole = database.execute("PRAGMA integrity_check").fetchall() + database.execute("PRAGMA foreign_key_check").fetchall()
    database.close()
    wanted = (len(there) + 1, (DEPOSIT - PRICE * len(there)).to_bytes(16, "big"))
    is_right = there == NAMES[:len(there)] and answered <= len(there) <= answered + 1
    return None if is_right and account == wanted and whole == [("ok",)] else f"{there}, {account}, {whole}"


def main(words):
    program, seed = os.path.abspath(words[0]), int(words[1]) if len(words) > 1 else 1
    chance, seen, wrong, answered = random.Random(seed), set(), 0, BEFORE
    with tempfile.TemporaryDirectory(dir="/var/tmp") as folder:
        database, log, trace = record(program, folder)
        for is_answer in events(trace, database, log):
            answered += is_answer
            for how in ["written", "synchronised", *["writes"] * DRAWN, *["sectors"] * DRAWN]:
                state = database.left(chance, how), log.left(chance, how)
                sums = answered, *(hashlib.sha256(it).digest() for it in state)
                if sums not in seen:
                    seen.add(sums)
                    found = fault(program, folder, state, answered)
                    if found:
                        wrong += 1
                        print(f"WRONG, {how}, {answered} answered: {found}")
    print(f"seed {seed}: {answered - BEFORE} creates answered, {len(seen)} states, {wrong} wrong")
    return wrong > 0


if __name__ == "__main__":
    sys.exit(main(sys.argv[1:]))
