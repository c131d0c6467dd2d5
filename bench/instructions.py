"""What the library takes for each statement, and what the stock library takes for the same, in instructions.

usage: python3 instructions.py TLDREG FLOOR   (the program as rt ci builds it; the floor, built by floor/build.sh where
                                               valgrind's header is; valgrind and gdb on the path)

A database in memory with 1,000 domains, under the example policy with prices of 0. Of each command (a check of two
names, an info, a balance, a create, a renewal) the instructions of each statement that it has the database run are
counted, by callgrind, which no other work and no clock touches: those of the functions of the library's own crates,
without what they call of others (allocation, copies of bytes), so at the least; then those of the floor, all of them. It
prints of each command how many statements it runs, the instructions of them, and those of the whole command, and then of
each statement, by the name of its text, what one run takes (the least of the runs in these commands) here and there.
"""
import os
import re
import subprocess
import sys
import tempfile
import time
from pathlib import Path

import make_script
import rows
import shares

SOURCES = rows.HERE.parent / "crates" / "sqltables" / "src"
CONSTANT = re.compile(r'^const ([A-Z_]+): &str =\s*"([^"]*)";', re.M)
DOMAINS = 1000
KINDS = ["check", "info", "balance", "create", "renew"]
CALL = re.compile(r"sqlite::.*::(query_all|execute)(::<#[0-9a-f]+>)?$")
OWN = re.compile(r"[<&]*sqlite(_\w+)?::")
PATTERNS = ["sqlite::connection::Connection::query_all*", "sqlite::connection::Connection::execute::*"]


# a statement's text is the third argument of such a call, and the fourth is its length
TOLD = ('python print("STATEMENT", bytes(gdb.selected_inferior().read_memory(int(gdb.parse_and_eval("$rdx")), '
        'int(gdb.parse_and_eval("$rcx")))).decode())')


def names():
    """The names of the texts, as the floor has them. A row that is there is replaced, where the floor puts it."""
    return {text: f"{file.stem.upper()}_{name.replace('REPLACE', 'PUT')}" for file in SOURCES.glob("*.rt") for name, text in CONSTANT.findall(file.read_text())}


def texts(program):
    """The texts of the statements of each command, in their order, by gdb."""
    symbols = subprocess.run(["nm", program], check=True, text=True, stdout=subprocess.PIPE).stdout
    calls = [line.split()[2] for line in symbols.splitlines() if len(line.split()) > 2 and CALL.match(line.split()[2])]
    expires = "2029-06-01"
    said = [make_script.CONTACT, *(make_script.create(at) for at in range(1, 4))]
    said += [rows.payload(kind, 4 if kind == "create" else 2, expires) for kind in KINDS]
    script = "".join(f"2028-06-01T00:00:{at:02}Z alfa {rows.json.dumps(it)}\n" for at, it in enumerate(said))
    with tempfile.TemporaryDirectory() as folder:
        policy = shares.policy_of(folder)
        Path(folder, "in").write_text(script)
        words = ["set pagination off"]
        for call in calls:
            words += [f"break *'{call}'", "commands", "silent", TOLD, "continue", "end"]
        words += [f"run run {policy} < {folder}/in > {folder}/out"]
        Path(folder, "gdb").write_text("\n".join(words))
        ran = subprocess.run(["gdb", "-q", "-batch", "-x", f"{folder}/gdb", program], text=True, stdout=subprocess.PIPE, stderr=subprocess.DEVNULL)
        replies = Path(folder, "out").read_text().splitlines()
    if any('"code":1' not in reply for reply in replies):
        sys.exit(f"instructions: a line isn't accepted: {replies}")
    found = [line[len("STATEMENT "):] for line in ran.stdout.splitlines() if line.startswith("STATEMENT ")]
    return [group.strip("\n").split("\n") for group in "\n".join(found).split("BEGIN\n")][-len(KINDS):]


def control(word, server):
    subprocess.run(["callgrind_control", word, str(server.pid)], stdout=subprocess.DEVNULL, stderr=subprocess.DEVNULL, check=True)


def cost(path):
    return int(re.search(r"^totals: (\d+)", path.read_text(errors="replace"), re.M)[1])


def own_cost(path):
    """The instructions of the library's own functions, without what they call of others."""
    total, is_own, is_call = 0, False, False
    for line in open(path, errors="replace"):
        if line.startswith("fn="):
            is_own = bool(OWN.match(line[3:]))
        elif line.startswith("calls="):
            is_call = True
        elif re.match(r"[0-9+*-]", line):
            if is_own and not is_call:
                total += int(line.split()[1])
            is_call = False
    return total


def parts(folder):
    """The files that callgrind left, in their order."""
    return sorted((it for it in Path(folder).glob("callgrind.*")), key=lambda it: int(it.suffix[1:]))


def ours(program, port):
    """Of each command what each of its statements took in the library's own functions, and the whole of it. A command is
    sent twice, so that its statements are understood already; the second counts."""
    with tempfile.TemporaryDirectory() as folder:
        words = ["valgrind", "--quiet", "--tool=callgrind", "--compress-strings=no", "--compress-pos=no", "--instr-atstart=no",
                 f"--callgrind-out-file={folder}/callgrind", *(f"--dump-after={pattern}" for pattern in PATTERNS)]
        server = subprocess.Popen([*words, program, "serve", shares.policy_of(folder), ":memory:", str(port)], stdout=subprocess.DEVNULL, stderr=subprocess.DEVNULL)
        client = rows.Client(port, "alfa")
        client.send([make_script.CONTACT])
        client.send([make_script.create(at) for at in range(1, DOMAINS + 1)])
        today = time.gmtime()
        expires = f"{today.tm_year + 1}-{today.tm_mon:02}-{today.tm_mday:02}"
        control("--instr=on", server)
        found = []
        for kind in KINDS:
            for turn in range(2):
                time.sleep(1.1)
                control("--dump", server)
                for it in parts(folder):
                    it.unlink()
                client.send([rows.payload(kind, (DOMAINS if kind == "create" else 500) + turn + 1, expires)])
                control("--dump", server)
            found.append(([own_cost(it) for it in parts(folder)][:-1], sum(cost(it) for it in parts(folder))))
        client.close()
        server.kill()
        server.wait()
    return found


def floors(program, folder):
    out = os.path.join(folder, "callgrind")
    subprocess.run(["valgrind", "--quiet", "--tool=callgrind", f"--callgrind-out-file={out}", program, ":memory:", str(DOMAINS), "2", "counted"],
                   check=True, stdout=subprocess.DEVNULL, stderr=subprocess.DEVNULL)
    found, command = [], []
    for it in parts(folder):
        why = re.search(r"^desc: Trigger: Client Request: (.*)$", it.read_text(errors="replace"), re.M)
        if why:
            command.append((why[1], cost(it)))
            if why[1] == "COMMIT":
                found.append(command)
                command = []
    return found[1:2 * len(KINDS):2]


def main(words):
    program, beneath = words
    called = names()
    sent = texts(program)
    here = ours(program, 7960)
    with tempfile.TemporaryDirectory() as folder:
        stock = floors(beneath, folder)
    least, other = {}, {}
    print("| command | statements | in the library | in all | the floor's | instructions | library to floor | all to floor |")
    print("| --- | --- | --- | --- | --- | --- | --- | --- |")
    for kind, said, (each, whole), floor in zip(KINDS, sent, here, stock):
        said = ["BEGIN", *said]
        if len(said) != len(each):
            sys.exit(f"instructions: {kind} runs {len(said)} statements in one registry and {len(each)} in the other")
        below = sum(count for _, count in floor)
        print(f"| {kind} | {len(each)} | {sum(each):,} | {whole:,} | {len(floor)} | {below:,} | {sum(each) / below:.2f} | {whole / below:.2f} |")
        for text, count in zip(said, each):
            name = called.get(text, text)
            least[name] = min(count, least.get(name, count))
        for name, count in floor:
            other[name] = min(count, other.get(name, count))
    print("\n| statement | instructions | stock | ratio |\n| --- | --- | --- | --- |")
    for name, count in sorted(least.items(), key=lambda it: -it[1]):
        print(f"| {name} | {count:,} | {other[name]:,} | {count / other[name]:.2f} |" if name in other else f"| {name} | {count:,} | | |")


if __name__ == "__main__":
    main(sys.argv[1:])
