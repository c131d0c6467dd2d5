#!/usr/bin/env python3
"""A client of `tldreg serve`: a command a run, or a tour.

usage: client.py [OPTION ...] PORT [COMMAND [WORD ...] [MEMBER=VALUE ...]]

    client.py 7700                                                 the tour
    client.py 7700 check a.test b.test                             a name without a full stop is a contact's, one with
    client.py 7700 info foo.test secret=foo-secret                 one a domain's, any other a host's; obj=host says else
    client.py 7700 create c-alfa mail=a@alfa.example secret=key-alfa \\
        postal.name=Ann postal.street="Road 1" postal.city=Town postal.cc=DE
    client.py 7700 create foo.test registrant=c-alfa secret=foo-secret years=2
    client.py 7700 create ns1.foo.test addrs=192.0.2.1 addrs=2001:db8::1
    client.py 7700 update foo.test add.hosts=ns1.foo.test chg.secret=bar-secret
    client.py 7700 renew foo.test 2030-01-01 years=1
    client.py 7700 delete foo.test
    client.py 7700 transfer request foo.test secret=foo-secret     and query, approve, reject, cancel
    client.py 7700 restore request foo.test
    client.py 7700 restore report foo.test pre=.. post=.. delTime=.. resTime=.. reason=.. statements=.. statements=..
    client.py 7700 balance                                         and hello, login, logout
    client.py 7700 poll; client.py 7700 ack C1; client.py 7700 drain
    client.py 7700 send '{"cmd":"balance"}'                        an object as it stands

A member with a full stop is inside an object; a list has its member once for each item. `drain` takes all messages out.

    -v, --verbose        prints all frames: > what goes out, < what comes back
    --login ID:PASSWORD  who logs in; else the variable TLDREG_LOGIN, else alfa:pass-alfa
    --host HOST          127.0.0.1 if it isn't said
    --ca FILE            speaks TLS, and trusts what this file has; --cert FILE and --key FILE are the client's own

A command logs in first, prints its reply, and logs out. The status is 0 where its code is below 2000, else 1; 2 for a
command line of another form. The tour says hello, logs in, checks, creates a contact and a domain, polls and logs out.
No deposit can be sent over a connection, so its domain is answered 2104 where the policy has a price for it. Run a
second time, the contact is there, and its create answers 2302.
"""
import argparse
import json
import os
import socket
import ssl
import sys

LISTS = {"addrs", "admin", "hosts", "names", "statements", "statuses", "street", "tech"}
# the members that words without `=` stand for
WORDS = {"hello": [], "login": [], "logout": [], "balance": [], "poll": [], "drain": [], "ack": ["id"],
         "info": ["name"], "create": ["name"], "update": ["name"], "delete": ["name"], "renew": ["name", "expires"],
         "transfer": ["op", "name"], "restore": ["op", "name"], "send": ["object"]}
HAVE_KIND = {"check", "info", "create", "update", "delete", "renew", "transfer"}


class Usage(Exception):
    """A command line of another form."""


class Connection:
    def __init__(self, options):
        self.verbose = options.verbose
        self.socket = socket.create_connection((options.host, options.port))
        if options.ca:
            context = ssl.create_default_context(cafile=options.ca)
            if options.cert:
                context.load_cert_chain(options.cert, options.key)
            self.socket = context.wrap_socket(self.socket, server_hostname=options.host)

    def __enter__(self):
        return self

    def __exit__(self, *_):
        self.socket.close()

    def read_exactly(self, count):
        data = b""
        while len(data) < count:
            piece = self.socket.recv(count - len(data))
            if not piece:
                raise EOFError("the server closed the connection")
            data += piece
        return data

    def ask(self, payload):
        """Sends one frame and reads one: the length counts its own four bytes (RFC 5734, 4)."""
        text = json.dumps(payload, ensure_ascii=False).encode()
        if self.verbose:
            print(">", text.decode())
        self.socket.sendall((len(text) + 4).to_bytes(4, "big") + text)
        length = int.from_bytes(self.read_exactly(4), "big")
        reply = self.read_exactly(length - 4).decode()
        if self.verbose:
            print("<", reply)
        return json.loads(reply)

    def login(self, who, **members):
        name, _, password = who.partition(":")
        return self.ask({"cmd": "login", "id": name, "pw": password, "version": "1.0", **members})


# ---- a command

def kind_of(name):
    return ["contact", "domain"][name.count(".")] if name.count(".") < 2 else "host"


def put(payload, member, value):
    """Puts a member in, into the object that stands before its last full stop."""
    *outer, last = member.split(".")
    for it in outer:
        payload = payload.setdefault(it, {})
    if last in LISTS:
        payload.setdefault(last, []).append(value)
    else:
        payload[last] = int(value) if last == "years" else value


def payload_of(command, words):
    """The JSON object of a command line."""
    if command == "send":
        return json.loads(words[0])
    payload = {"cmd": {"drain": "poll", "ack": "poll"}.get(command, command)}
    plain = [it for it in words if "=" not in it]
    members = ["names"] * max(1, len(plain)) if command == "check" else WORDS.get(command)
    if members is None:
        raise Usage(f"no such command: {command}")
    if len(plain) != len(members):
        raise Usage(f"{command} takes {' '.join(members).upper() or 'no word'}, and MEMBER=VALUE")
    for member, value in zip(members, plain):
        put(payload, member, value)
    for word in words:
        if "=" in word:
            put(payload, *word.split("=", 1))
    if command in ("poll", "drain", "ack"):
        payload["op"] = "ack" if command == "ack" else "req"
    if command in HAVE_KIND:
        payload.setdefault("obj", kind_of(plain[-1] if command != "renew" else plain[0]))
    return payload


def drain(connection):
    """Prints each message and takes it out."""
    while True:
        reply = connection.ask({"cmd": "poll", "op": "req"})
        if reply["code"] != 1301:
            return reply
        print(json.dumps(reply, ensure_ascii=False, separators=(",", ":")))
        connection.ask({"cmd": "poll", "op": "ack", "id": reply["data"]["id"]})


def run(options):
    """Does a command in a session of its own, and gives its reply."""
    payload = payload_of(options.command, options.words)
    with Connection(options) as connection:
        if options.command == "hello":
            return connection.ask(payload)
        if options.command == "login":
            return connection.login(options.login, **payload)
        opened = connection.login(options.login)
        if opened["code"] != 1000:
            return opened
        reply = drain(connection) if options.command == "drain" else connection.ask(payload)
        if reply["code"] not in (1500, 2500):
            connection.ask({"cmd": "logout"})
        return reply


# ---- the tour

def tour(options):
    options.verbose = True
    postal = {"cc": "DE", "city": "Town", "name": "Ann", "street": ["Road 1"]}
    contact = {"mail": "ann@alfa.example", "name": "c-alfa", "postal": postal, "secret": "key-alfa"}
    domain = {"name": "foo.test", "registrant": "c-alfa", "secret": "foo-secret"}
    with Connection(options) as registry:
        registry.ask({"cmd": "hello"})
        registry.login(options.login)
        registry.ask({"cmd": "check", "names": ["foo.test", "nic.test"], "obj": "domain"})
        registry.ask({"cmd": "create", "obj": "contact", **contact})
        registry.ask({"cmd": "create", "obj": "domain", **domain})
        registry.ask({"cmd": "poll", "op": "req"})
        registry.ask({"cmd": "logout"})
        print("closed" if registry.socket.recv(1) == b"" else "still open")


def options_of(words):
    options = argparse.ArgumentParser(add_help=False)
    options.add_argument("-h", "--help", action="store_true")
    options.add_argument("-v", "--verbose", action="store_true")
    options.add_argument("--login", default=os.environ.get("TLDREG_LOGIN", "alfa:pass-alfa"))
    options.add_argument("--host", default="127.0.0.1")
    for it in ("--ca", "--cert", "--key"):
        options.add_argument(it)
    options.add_argument("port", type=int, nargs="?")
    options.add_argument("command", nargs="?")
    options.add_argument("words", nargs="*")
    return options.parse_intermixed_args(words)


def main(words):
    options = options_of(words)
    if options.help or options.port is None:
        print(__doc__.strip())
        return 0 if options.help else 2
    if options.command is None:
        tour(options)
        return 0
    try:
        reply = run(options)
    except (Usage, ValueError) as wrong:
        print(f"client.py: {wrong}", file=sys.stderr)
        return 2
    except (EOFError, OSError) as wrong:
        print(f"client.py: {wrong}", file=sys.stderr)
        return 1
    if not options.verbose:
        print(json.dumps(reply, ensure_ascii=False, separators=(",", ":")))
    return 0 if reply.get("code", 1000) < 2000 else 1


if __name__ == "__main__":
    sys.exit(main(sys.argv[1:]))
