"""Frames and look-ups a second of `tldreg serve` over loopback, by one client.

usage: python3 serve_client.py PORT N

The policy's prices have to be 0, since no deposit can be sent over a connection. Logs in as alfa, creates the contact
`c-alfa` and N domains, and checks each, once by waiting for each reply and once by writing 1,000 frames before it
reads their replies. Every command has to be accepted. Then it asks for each domain over HTTP, a connection each.
"""
import json
import socket
import sys
import time

CONTACT = {"cmd": "create", "mail": "ann@alfa.example", "name": "c-alfa", "obj": "contact",
           "postal": {"cc": "DE", "city": "Town", "name": "Ann", "street": ["Road 1"]}, "secret": "key-alfa"}


def create(name):
    return {"cmd": "create", "name": name, "obj": "domain", "registrant": "c-alfa", "secret": "foo-secret"}


def check(name):
    return {"cmd": "check", "names": [name], "obj": "domain"}


def frame(payload):
    text = json.dumps(payload, separators=(",", ":")).encode()
    return (len(text) + 4).to_bytes(4, "big") + text


def replies(stream, count):
    for _ in range(count):
        length = int.from_bytes(stream.read(4), "big")
        reply = json.loads(stream.read(length - 4))
        assert reply["code"] == 1000, reply


def timed(connection, stream, word, payloads, at_once):
    frames = [frame(payload) for payload in payloads]
    start = time.perf_counter()
    for first in range(0, len(frames), at_once):
        some = frames[first:first + at_once]
        connection.sendall(b"".join(some))
        replies(stream, len(some))
    seconds = time.perf_counter() - start
    print(f"{word}, {at_once} at once: {len(frames)} frames in {seconds:.3f} s, {len(frames) / seconds:.0f} a second")


def look_up(port, names):
    start = time.perf_counter()
    for name in names:
        with socket.create_connection(("127.0.0.1", port)) as connection:
            connection.sendall(f"GET /domain/{name} HTTP/1.1\r\nHost: x\r\n\r\n".encode())
            answer = connection.makefile("rb").read()
        assert answer.startswith(b"HTTP/1.1 200 "), answer
    seconds = time.perf_counter() - start
    print(f"domain over HTTP: {len(names)} look-ups in {seconds:.3f} s, {len(names) / seconds:.0f} a second")


def main():
    port, count = int(sys.argv[1]), int(sys.argv[2])
    with socket.create_connection(("127.0.0.1", port)) as connection:
        connection.setsockopt(socket.IPPROTO_TCP, socket.TCP_NODELAY, 1)
        with connection.makefile("rb") as stream:
            first = [{"cmd": "login", "id": "alfa", "pw": "pass-alfa", "version": "1.0"}, CONTACT]
            timed(connection, stream, "login and contact", first, 1)
            for word, at_once in (("a", 1), ("b", 1000)):
                names = [f"{word}{number:06}.test" for number in range(count)]
                timed(connection, stream, "create", [create(name) for name in names], at_once)
                timed(connection, stream, "check", [check(name) for name in names], at_once)
    look_up(port, [f"a{number:06}.test" for number in range(count)])


main()
