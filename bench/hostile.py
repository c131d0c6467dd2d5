#!/usr/bin/env python3
"""Sends frames and heads made by chance to `tldreg serve` over loopback, and looks at what comes back.

usage: bench/hostile.py [--frames N] [--heads N] [--seconds S] [--seed N] [--peers] [PROGRAM]

PROGRAM is crates/tldreg/out/tldreg where none is given, which `rt ci` and `rt run` leave. SEED is a number that
everything is drawn from; it is drawn by chance where none is given, and printed. No more than so many frames and so
many heads are sent (20,000 each), for no longer than so many seconds (60).

A session is of commands that are well formed, bent in their members or in their bytes, of JSON that is none, of
lengths that are none, and of chance bytes; cut anywhere, and sent in one piece or in many. A head is one of the
registry's own, bent in its words, its fields or its bytes, cut anywhere. In a few connections the client goes away
before it has read its answer.

Wanted: the program goes on; what comes back is frames, one for each frame that was sent, of the codes of
docs/REPLIES.md, in compact text whose members are in order, with the svTRID that is next; or it is one answer of
docs/RDAP.md. In the end alfa's balance is what its replies say it is, its command counter is that of its replies,
and the file is sound and passes examples/audit.sql. With --peers clients that would keep the port, each in another
way, and a program without a descriptor to spare are looked at besides, which takes four minutes: the next client is
served within the limit of docs/SESSIONS.md and five seconds.

The status is 0 if all is well, else 1, and then the bytes of the connection that went wrong stay in a file.
"""
import argparse
import json
import random
import re
import resource
import select
import shutil
import signal
import socket
import sqlite3
import struct
import subprocess
import sys
import tempfile
import threading
import time
from datetime import datetime, timezone
from pathlib import Path

ROOT = Path(__file__).resolve().parent.parent
PROGRAM = ROOT / "crates/tldreg/out/tldreg"
POLICY = ROOT / "examples/policy.toml"
AUDIT = ROOT / "examples/audit.sql"
DEPOSIT = 10 ** 12
PATIENCE = 60
# A frame's whole length, its own four bytes included (RFC 5734, 4).
LEAST, MOST = 6, 65_540


class Wrong(Exception):
    """What must not be."""


def expect(holds, what):
    if not holds:
        raise Wrong(what)


# ---- what may come back

CODES = {int(code): text for code, text in
         re.findall(r"^\| (\d{4}) \| (.+) \|$", (ROOT / "docs/REPLIES.md").read_text(), re.M)}
CLOSING = b'{"code":2500,"msg":"Command failed; server closing connection","svTRID":"ANON"}'
REASONS = {200: "OK", 400: "Bad Request", 404: "Not Found", 405: "Method Not Allowed"}


def compact(value):
    return json.dumps(value, sort_keys=True, separators=(",", ":"), ensure_ascii=False).encode()


def frames_in(stream):
    """The payloads of whole frames, and how the bytes end: 'closed', 'cut' or 'length'."""
    payloads, at = [], 0
    while len(stream) - at >= 4:
        total = int.from_bytes(stream[at:at + 4], "big")
        if not LEAST <= total <= MOST:
            return payloads, "length"
        if len(stream) - at < total:
            return payloads, "cut"
        payloads.append(stream[at + 4:at + total])
        at += total
    return payloads, "closed" if at == len(stream) else "cut"


def replies_in(stream):
    replies, at = [], 0
    while at < len(stream):
        total = int.from_bytes(stream[at:at + 4], "big")
        expect(len(stream) - at >= max(total, 4), "a reply is cut")
        replies.append(stream[at + 4:at + total])
        at += max(total, 4)
    return replies


class Accounts:
    """What the replies say of the accounts so far."""

    def __init__(self):
        self.balance, self.commands, self.seen = DEPOSIT, {"alfa": 0, "beta": 0}, {}

    def take(self, text, loose):
        """One reply. `loose` are registrars whose replies weren't all read."""
        reply = json.loads(text)
        expect(compact(reply) == text, f"not compact, or not in order: {text}")
        if "greeting" in reply:
            expect(set(reply) == {"greeting"} and reply["greeting"]["server"] == "tldreg", f"greeting: {text}")
            return 0
        code, who = reply["code"], reply["svTRID"]
        expect(set(reply) <= {"clTRID", "code", "data", "msg", "svTRID"}, f"members: {text}")
        expect(CODES.get(code) == reply["msg"], f"code and text: {text}")
        expect(code not in (2400, 2500), f"gave up: {text}")
        self.seen[code] = self.seen.get(code, 0) + 1
        if who != "ANON":
            registrar, number = who.split("-")
            least = self.commands[registrar] + 1
            expect(int(number) >= least if registrar in loose else int(number) == least, f"svTRID: {text}, {least}")
            self.commands[registrar] = int(number)
            if registrar == "alfa":
                told = reply.get("data", {})
                self.balance += int(told.get("refund", 0)) - int(told.get("charge", 0))
        return code


def judge_session(sent, told, accounts):
    """All that a session was told, where its client read to the end."""
    (payloads, ending), replies = frames_in(sent), replies_in(told)
    for place, text in enumerate(replies[:len(payloads)]):
        if accounts.take(text, {"beta"}) == 1500:
            expect(place + 1 == len(replies), "a reply behind the one to a logout")
            return
    expect(len(replies) >= len(payloads), f"{len(replies)} replies to {len(payloads)} frames")
    expect(replies[len(payloads):] == ([CLOSING] if ending == "length" else []), f"behind the replies: {replies[-1:]}")


def judge_head(told, seen):
    """One answer, and which."""
    head, _, body = told.partition(b"\r\n\r\n")
    code = int(told[9:12])
    fields = ["Content-Type: application/rdap+json", f"Content-Length: {len(body)}"]
    fields += ["Allow: GET"] * (code == 405) + ["Connection: close"]
    expect(head.decode() == "\r\n".join([f"HTTP/1.1 {code} {REASONS.get(code)}", *fields]), f"head: {told[:300]}")
    value = json.loads(body)
    expect(compact(value) == body and value["rdapConformance"] == ["rdap_level_0"], f"body: {body}")
    if code != 200:
        wanted = {"errorCode": code, "rdapConformance": ["rdap_level_0"], "title": REASONS[code]}
        expect(value == wanted, f"body: {body}")
    seen[code] = seen.get(code, 0) + 1
    return code


# ---- what is sent

NAMES = ["foo.test", "bar.test", "ns1.foo.test", "ns2.example.net", "nic.test", "b\u00fccher.test", "a_.test", "test", ""]
PEOPLE = ["c-alfa", "c-beta", "c-other", "c_"]
POSTAL = {"cc": "DE", "city": "Town", "name": "Ann", "street": ["Road 1"]}
TEXTS = ["", "x", "\u0000", "\ud800", "\U0001f600" * 70, "a" * 1001, "1.0", "{}", "\"\\", "clientHold", "2029-02-30", "+1.2"]
VALUES = [None, True, 0, -1, 1, 11, 2 ** 64, 1.5, 1e308, [], {}, [[]], ["x"] * 21, {"": None}, [None], {"statuses": ["ok"]}]
WORDS = ["cmd", "obj", "op", "name", "names", "id", "pw", "version", "clTRID", "secret", "years", "expires", "add", "rem",
         "chg", "postal", "hosts", "addrs", "statuses", "admin", "tech", "registrant", "mail", "voice", "reason", "x", ""]


def login(registrar):
    return {"cmd": "login", "id": registrar, "pw": f"pass-{registrar}", "version": "1.0"}


def frame(payload):
    return (len(payload) + 4).to_bytes(4, "big") + payload


class Chance(random.Random):
    """What is drawn."""

    def command(self):
        name, who, kind = self.choice(NAMES), self.choice(PEOPLE), self.choice(["contact", "domain", "host"])
        label = f"{self.choice('abcdef')}{self.randrange(10_000)}.test"
        today = f"{datetime.now(timezone.utc).year + self.randrange(3)}-{datetime.now(timezone.utc):%m-%d}"
        return self.choice([
            {"cmd": "hello"}, {"cmd": "balance"}, login(self.choice(["alfa", "beta", "nobody"])), {"cmd": "logout"},
            {"cmd": "check", "names": [name, label], "obj": kind}, {"cmd": "info", "name": name, "obj": kind},
            {"cmd": "info", "name": name, "obj": kind, "secret": "foo-secret"},
            {"cmd": "create", "name": label, "obj": "domain", "registrant": who, "secret": "foo-secret", "years": 1},
            {"cmd": "create", "hosts": ["ns1.foo.test"], "name": "foo.test", "obj": "domain", "registrant": "c-alfa",
             "secret": "foo-secret"},
            {"addrs": ["192.0.2.1", "::1"], "cmd": "create", "name": "ns1.foo.test", "obj": "host"},
            {"cmd": "create", "mail": "ann@alfa.example", "name": who, "obj": "contact", "postal": POSTAL,
             "secret": "key-alfa"},
            {"cmd": "delete", "name": self.choice([name, label, who]), "obj": kind},
            {"cmd": "renew", "expires": today, "name": name, "obj": "domain", "years": 1},
            {"add": {"statuses": ["clientHold"]}, "cmd": "update", "name": name, "obj": "domain"},
            {"cmd": "update", "name": name, "obj": "domain", "rem": {"statuses": ["clientHold"]}},
            {"chg": {"name": "ns9.foo.test"}, "cmd": "update", "name": "ns1.foo.test", "obj": "host"},
            {"chg": {"voice": "+49.1234"}, "cmd": "update", "name": who, "obj": "contact"},
            {"cmd": "transfer", "name": name, "obj": "domain", "op": self.choice(["query", "approve", "cancel", "reject"])},
            {"cmd": "transfer", "name": name, "obj": "domain", "op": "request", "secret": "foo-secret"},
            {"cmd": "poll", "op": "req"}, {"cmd": "poll", "id": "C1", "op": "ack"},
            {"cmd": "restore", "name": name, "op": "request"},
        ])

    def value(self):
        return self.choice([self.choice(TEXTS), self.choice(VALUES), self.choice(NAMES), self.command()])

    def bent_members(self, value):
        value = dict(value)
        for _ in range(self.randrange(1, 3)):
            word = self.choice(WORDS) if self.random() < 0.3 else self.choice(sorted(value) or ["x"])
            if self.random() < 0.3:
                value.pop(word, None)
            elif isinstance(value.get(word), dict) and self.random() < 0.5:
                value[word] = self.bent_members(value[word])
            else:
                value[word] = self.value()
        return value

    def bent_bytes(self, data):
        data = bytearray(data)
        for _ in range(self.randrange(1, 4)):
            at, kind = self.randrange(len(data) + 1), self.randrange(4)
            if kind == 0:
                data[at:at] = self.randbytes(self.randrange(1, 5))
            elif kind == 1:
                del data[at:at + self.randrange(1, 9)]
            elif kind == 2:
                data[at:at + 1] = bytes([self.choice(b"\x00\"\\{}[],:019eE.-+ \r\n\x7f\x80\xc0\xed\xff")])
            else:
                data[at:at] = data[:self.randrange(20)]
        return bytes(data)

    def odd_payload(self):
        return self.choice([
            lambda: b"[" * self.choice([1, 127, 128, 129, 5_000]),
            lambda: b'{"a":' * self.choice([126, 127, 128, 9_000]) + b"1" + b"}" * self.choice([0, 126, 127, 128]),
            lambda: b" " * self.randrange(2, 65_519) + b'{"cmd":"balance"}',
            lambda: b'{"cmd":"balance","cmd":"balance"}',
            lambda: b'{"cmd":"balance","clTRID":"\\ud83d\\ude00\\u0041"}',
            lambda: b"1" * self.choice([2, 400, 60_000]),
            lambda: b'{"cmd":"check","obj":"domain","names":[' + b",".join([b'"a.test"'] * self.choice([20, 21, 6_000])) + b"]}",
            lambda: b"-" + b"0" * self.randrange(1, 9) + b"e" + b"9" * self.randrange(1, 9),
            lambda: self.randbytes(self.randrange(2, 300)),
        ])()

    def payload(self):
        kind = self.random()
        text = json.dumps(self.command(), ensure_ascii=self.random() < 0.5).encode()
        if kind < 0.35:
            payload = text
        elif kind < 0.65:
            payload = json.dumps(self.bent_members(self.command())).encode()
        elif kind < 0.9:
            payload = self.bent_bytes(text)
        else:
            payload = self.odd_payload()
        return (payload + b"  ")[:MOST - 4] if len(payload) < 2 else payload[:MOST - 4]

    def session(self, first):
        """The bytes of a session that begins with this login, and how many frames they're meant for."""
        payloads = [compact(login(first))] if first else []
        while len(payloads) < 150 and self.random() < 0.98:
            payload = self.payload()
            # in the middle of it few log out, since what comes then isn't looked at
            if b"logout" not in payload or self.random() < 0.1:
                payloads.append(payload)
        data = b"".join(map(frame, payloads))
        kind = self.random()
        if kind < 0.1:
            data += self.choice([0, 4, 5, 65_541, 2 ** 24, 2 ** 32 - 1]).to_bytes(4, "big") + self.randbytes(9)
        elif kind < 0.2:
            data = data[:self.randrange(len(data) + 1)]
        elif kind < 0.25:
            data += b"\0" + self.randbytes(self.randrange(40))
        return data, len(payloads)

    def head(self):
        """The bytes of a request."""
        path = self.choice(["/help", "/domain/foo.test", "/domain/" + self.choice(NAMES[:4] + NAMES[6:]),
                            "/nameserver/ns1.foo.test", "/entity/c-alfa", "/entity/" + self.choice(PEOPLE), "/", "*",
                            "/help?x=1", "/domain/foo%2Etest", "/domain//", "/entity/" + "a" * self.choice([2, 16, 17, 9_000]),
                            "/help#", "http://x/help", "/DOMAIN/foo.test", "/domain/foo.test/", "/nameserver/", "//help"])
        method = self.choice(["GET"] * 6 + ["POST", "HEAD", "get", "GETT", "", "X" * 300, "GE\u00a0T"])
        version = self.choice(["HTTP/1.1"] * 6 + ["HTTP/1.0", "HTTP/2.0", "HTTP/1.2", "http/1.1", "", "HTTP/1.1 "])
        end = self.choice(["\r\n"] * 5 + ["\n", "\r", "\n\r"])
        fields = [self.choice(["a: b", "Host: x", "a:", ": b", "a b", " folded", "a: \x00", "a: \x7f", "a:\tb", "x" * 500 + ": y"])
                  for _ in range(self.choice([0, 0, 1, 2, 5, 63, 64, 65, 70]) if self.random() < 0.5 else 0)]
        data = "".join(it + end for it in [f"{method} {path} {version}", *fields, ""]).encode()
        kind = self.random()
        if kind < 0.15:
            data = data[:self.randrange(len(data) + 1)]
        elif kind < 0.4:
            data = self.bent_bytes(data)
        elif kind < 0.5:
            data += self.randbytes(self.randrange(200))
        elif kind < 0.55:
            data = b"\r\n" * self.randrange(1, 5_000) + data
        # a first byte 0 is a frame's, and no byte is a session without one
        return data if data and data[0] else b"G" + data

    def pieces(self, data):
        if self.random() < 0.8 or not data:
            return [data]
        cuts = sorted(self.randrange(len(data)) for _ in range(self.randrange(1, 12)))
        return [data[first:last] for first, last in zip([0, *cuts], [*cuts, len(data)])]


# ---- the program

def free_port():
    with socket.socket() as it:
        it.bind(("127.0.0.1", 0))
        return it.getsockname()[1]


class Server:
    """The program, serving a file. It is ended when the block is left."""

    def __init__(self, program, database):
        self.words, self.port = [program, "serve", POLICY, database], free_port()

    def __enter__(self):
        self.process = subprocess.Popen([*self.words, str(self.port)], stdin=subprocess.DEVNULL,
                                        stdout=subprocess.DEVNULL, stderr=subprocess.PIPE)
        until = time.monotonic() + PATIENCE
        while time.monotonic() < until:
            try:
                self.connect().close()
                return self
            except ConnectionError:
                time.sleep(0.01)
            self.goes_on()
        self.end()
        raise Wrong("serve doesn't listen")

    def __exit__(self, *_):
        self.end()

    def end(self):
        if self.process.poll() is None:
            self.process.send_signal(signal.SIGKILL)
        self.process.wait(PATIENCE)
        self.process.stderr.close()

    def goes_on(self):
        status = self.process.poll()
        expect(status is None, f"serve ended with {status}")

    def connect(self):
        it = socket.create_connection(("127.0.0.1", self.port), timeout=PATIENCE)
        it.setsockopt(socket.IPPROTO_TCP, socket.TCP_NODELAY, 1)
        return it

    def exchange(self, pieces):
        """Sends all pieces and then no more, and reads up to the end. Nothing of it may fail, whatever the pieces
        have behind a logout or a length that no frame has: what is told is read to its end."""
        with self.connect() as it:
            for piece in pieces:
                it.sendall(piece)
            it.shutdown(socket.SHUT_WR)
            return read_to_end(it)

    def leave(self, pieces):
        """Sends all pieces, and is gone."""
        with self.connect() as it:
            it.setsockopt(socket.SOL_SOCKET, socket.SO_LINGER, struct.pack("ii", 1, 0))
            try:
                for piece in pieces:
                    it.sendall(piece)
            except OSError:
                pass

    def memory(self):
        """What the process holds, in kilobytes."""
        return int(re.search(r"VmRSS:\s+(\d+)", Path(f"/proc/{self.process.pid}/status").read_text())[1])


def read_to_end(it):
    told = bytearray()
    while piece := it.recv(1 << 16):
        told += piece
    return bytes(told)


# ---- the connections

class Run:
    """What was sent so far, and what came back."""

    def __init__(self, server, chance, wanted):
        self.server, self.chance, self.wanted = server, chance, wanted
        self.accounts, self.answers = Accounts(), {}
        self.frames = self.heads = self.sessions = self.left = 0
        self.sent = b""

    def turn(self):
        """One connection of a kind of which there are to be more, or one that is left."""
        kinds = [it for it, count in (("session", self.frames), ("head", self.heads)) if count < self.wanted[it]]
        if kinds:
            kind = "leave" if self.chance.random() < 0.02 else self.chance.choice(kinds)
            {"session": self.session, "head": self.some_heads, "leave": self.leave}[kind]()
        return bool(kinds)

    def session(self):
        self.sent, count = self.chance.session(self.chance.choice(["alfa", "alfa", "alfa", "beta", None]))
        told = self.server.exchange(self.chance.pieces(self.sent))
        # a length that no frame has may begin as a head does
        if self.sent[:1] > b"\0":
            return judge_head(told, self.answers)
        judge_session(self.sent, told, self.accounts)
        self.frames, self.sessions = self.frames + count, self.sessions + 1

    def some_heads(self):
        # a session has many frames, and a connection one head
        for _ in range(20):
            self.sent = self.chance.head()
            judge_head(self.server.exchange(self.chance.pieces(self.sent)), self.answers)
            self.heads += 1

    def leave(self):
        # beta alone, so that alfa's replies are all read
        self.sent = self.chance.choice([lambda: self.chance.session("beta")[0], self.chance.head])()
        self.server.leave(self.chance.pieces(self.sent))
        self.left += 1

    def last(self):
        """What alfa's account has in the end."""
        payloads = [login("alfa"), {"cmd": "balance"}]
        self.sent = b"".join(frame(compact(it)) for it in payloads)
        replies = [json.loads(it) for it in replies_in(self.server.exchange([self.sent]))]
        wanted = (str(self.accounts.balance), f"alfa-{self.accounts.commands['alfa'] + 1}")
        expect((replies[1]["data"]["balance"], replies[1]["svTRID"]) == wanted, f"{replies[1]} in place of {wanted}")


def hello(server):
    """Whether a client is answered, and after how long."""
    began = time.monotonic()
    with server.connect() as it:
        it.settimeout(2 * PATIENCE)
        it.sendall(frame(b'{"cmd":"hello"}'))
        it.shutdown(socket.SHUT_WR)
        expect(b'"greeting"' in read_to_end(it), "no greeting")
    return time.monotonic() - began


def fill(it):
    """Asks for greetings and reads none, until for three seconds nothing more is taken."""
    it.settimeout(3)
    try:
        while True:
            it.sendall(frame(b'{"cmd":"hello"}') * 1_000)
    except OSError:
        pass


# The limits of docs/SESSIONS.md, 'How long', in seconds, and what others wait at most besides.
FRAME, LOGIN, STILL, SESSION, BESIDES = 30, 30, 10, 60, 5
HELLO = frame(b'{"cmd":"hello"}')
ALFA = frame(b'{"cmd":"login","id":"alfa","pw":"pass-alfa","version":"1.0"}')


def peers(server):
    """Clients that would keep the port, each before one that says hello; and a program without a descriptor to spare."""
    big = (60_004).to_bytes(4, "big")
    for what, most, first, again, reads in [
        ("a silent client", 0, b"", b"", False), ("half a frame", STILL, big + b"{", b"", False),
        ("a frame that drips", FRAME, big + b"{", b" ", False), ("half a head", STILL, b"GET /he", b"", False),
        ("a head that drips", STILL, b"GET /help HTTP/1.1\r\na: ", b"a", False),
        ("hello without end", LOGIN, HELLO, HELLO, True), ("a session without end", SESSION, ALFA, HELLO, True),
        ("a session that stands still", STILL, ALFA, b"", False),
    ]:
        with server.connect() as keeper:
            keep(keeper, first, again, reads)
            behind(what, most, server)
    with server.connect() as deaf:
        fill(deaf)
        behind("a client that takes no reply", STILL, server)
    idle = [server.connect() for _ in range(900)]
    behind(f"{len(idle)} idle connections", 0, server)
    for it in idle:
        it.close()
    want_of_descriptors(server)


def keep(keeper, first, again, reads):
    """Sends this, and then that five times a second, until the connection ends; in the background."""
    def go():
        try:
            while again:
                time.sleep(0.2)
                keeper.sendall(again)
                if reads:
                    keeper.recv(65_536)
        except OSError:
            pass
    keeper.sendall(first)
    threading.Thread(target=go, daemon=True).start()


def behind(what, most, server):
    time.sleep(0.5)
    waited = hello(server)
    expect(waited < most + BESIDES, f"behind {what}: {waited:.1f} seconds")
    print(f"hostile: the one behind {what} was served after {waited:.1f} seconds", flush=True)


def want_of_descriptors(server):
    # the last connection is let go by then
    time.sleep(1)
    held = len(list(Path(f"/proc/{server.process.pid}/fd").iterdir()))
    before = resource.prlimit(server.process.pid, resource.RLIMIT_NOFILE)
    resource.prlimit(server.process.pid, resource.RLIMIT_NOFILE, (held, before[1]))
    with server.connect() as waiting:
        waiting.sendall(frame(b'{"cmd":"hello"}'))
        expect(not select.select([waiting], [], [], 2)[0], "a client is answered without a descriptor for it")
        server.goes_on()
        resource.prlimit(server.process.pid, resource.RLIMIT_NOFILE, before)
        waiting.shutdown(socket.SHUT_WR)
        expect(b'"greeting"' in read_to_end(waiting), "no greeting once there are descriptors again")
    print("hostile: one was served once there were descriptors again", flush=True)


# ---- the file

def statements(text):
    statement = ""
    for line in text.splitlines(keepends=True):
        if statement or not line.startswith("--") and line.strip():
            statement += line
        if sqlite3.complete_statement(statement):
            yield statement
            statement = ""


def audit(database):
    connection = sqlite3.connect(database)
    try:
        said = [row for it in ["PRAGMA integrity_check", *statements(AUDIT.read_text())]
                for row in connection.execute(it).fetchall()]
    finally:
        connection.close()
    expect(set(said) == {("ok",)}, f"audit: {said[:5]}")


def deposit(program, database):
    words = [program, "deposit", POLICY, database, f"{datetime.now(timezone.utc):%Y-%m-%dT%H:%M:%SZ}", "alfa"]
    subprocess.run([*words, str(DEPOSIT)], check=True, timeout=PATIENCE, stdout=subprocess.DEVNULL)


def words_of(words):
    parser = argparse.ArgumentParser(usage=__doc__.split("\n\n")[1].removeprefix("usage: "))
    parser.add_argument("--frames", type=int, default=20_000)
    parser.add_argument("--heads", type=int, default=20_000)
    parser.add_argument("--seconds", type=float, default=60)
    parser.add_argument("--seed", type=int, default=random.SystemRandom().randrange(10 ** 6))
    parser.add_argument("--peers", action="store_true")
    parser.add_argument("program", nargs="?", default=PROGRAM)
    return parser.parse_args(words)


def work(words, folder):
    program, database = Path(words.program).resolve(), Path(folder, "registry.db")
    deposit(program, database)
    with Server(program, database) as server:
        run = Run(server, Chance(words.seed), {"session": words.frames, "head": words.heads})
        began, before = time.monotonic(), server.memory()
        try:
            while time.monotonic() - began < words.seconds and run.turn():
                server.goes_on()
            run.last()
        except (Wrong, OSError, ValueError, KeyError):
            Path(folder, "sent").write_bytes(run.sent)
            print(f"hostile: the program's status is {server.process.poll()}; {folder}/sent is what was sent")
            raise
        print(f"hostile: {run.frames} frames in {run.sessions} sessions, {run.heads} heads, {run.left} clients that went away, "
              f"{time.monotonic() - began:.0f} seconds, {before} kB before and {server.memory()} kB after", flush=True)
        print(f"hostile: codes {dict(sorted(run.accounts.seen.items()))}, answers {dict(sorted(run.answers.items()))}", flush=True)
        if words.peers:
            peers(server)
    audit(database)


def main(words):
    words = words_of(words)
    print(f"hostile: seed {words.seed}", flush=True)
    folder = tempfile.mkdtemp(prefix="tldreg-hostile-")
    try:
        work(words, folder)
    except (Wrong, OSError, ValueError, KeyError) as it:
        print(f"hostile: wrong: {it!r}; the files are in {folder}")
        return 1
    shutil.rmtree(folder)
    print("hostile: all is well")
    return 0


if __name__ == "__main__":
    sys.exit(main(sys.argv[1:]))
