#!/usr/bin/env python3
"""What the merge gate costs, crate by crate, in processor minutes.

    python3 bench/gate.py                    runs rt ci --anew and writes the table of bench/GATE.md; ends as rt ci ends
    python3 bench/gate.py over FILE CRATE..  runs rt ci over those crates (all, where none is named) with what earlier runs kept,
                                             and adds to FILE what each part took; where none is named, writes the table of FILE
    python3 bench/gate.py functions CRATE..  which functions take the prover most, without tests and with them; libraries must be built
    python3 bench/gate.py plants CRATE..     the counts of rt plant

From the repository's root, with rt on the path, and nothing else running.
"""
import contextlib
import importlib.machinery
import importlib.util
import os
import re
import shutil
import subprocess
import sys
import threading
import time

sys.dont_write_bytecode = True
RT = os.path.realpath(shutil.which("rt"))
sys.path.insert(0, os.path.dirname(RT))
PART = "| {:<12} | {:>6} | {:>6} | {:>6} | {:>6} | {:>5} |"


def module(name, path):
    loader = importlib.machinery.SourceFileLoader(name, path)
    made = importlib.util.module_from_spec(importlib.util.spec_from_loader(name, loader))
    sys.modules[name] = made
    loader.exec_module(made)
    return made


def gate(anew=True, names=(), note=lambda key, seconds: None):
    """Runs rt ci in this process. Returns its status, each child's processor seconds under its crate and part, the edits of
    each crate, and the wall time; notes each child's seconds when it ends."""
    rt = module("rt_gate", RT)
    spent, edits, names_of, lock = {}, {}, {}, threading.Lock()
    started, waits = subprocess.Popen.__init__, os.waitpid

    def start(self, args, *given, **named):
        started(self, args, *given, **named)
        words = [str(it) for it in args] if isinstance(args, (list, tuple)) else [str(args)]
        crate = words[words.index("--crate-name") + 1] if "--crate-name" in words else os.path.basename(str(named.get("cwd") or "rest"))
        part = "edits" if "rt-edit-" in str(named.get("cwd")) else "tests" if "--test" in words or crate.endswith("_tests") else "proof"
        names_of[self.pid] = (crate.removesuffix("_tests"), part)

    def wait(pid, flags):
        found, status, used = os.wait4(pid, flags)
        if found:
            with lock:
                key, seconds = names_of.pop(found, ("rest", "proof")), used.ru_utime + used.ru_stime
                spent[key] = spent.get(key, 0) + seconds
                note(key, seconds)
        return found, status

    added = rt.add_edits

    def count_edits(tasks, crate, found, *given, **named):
        edits[crate.name] = len(found)
        return added(tasks, crate, found, *given, **named)

    subprocess.Popen.__init__, os.waitpid, rt.add_edits = start, wait, count_edits
    began = time.time()
    status = rt.ci(anew, names)
    subprocess.Popen.__init__, os.waitpid = started, waits
    return status, spent, edits, time.time() - began


def anew():
    status, spent, edits, seconds = gate()
    write_table(spent, edits, f"one `rt ci`, whose wall time was {seconds / 60:.0f} min on {os.cpu_count()} processors")
    return status


def over(path, names):
    """Runs rt ci with what is kept, and adds what each child took to the file, a line each: several such runs are one gate from
    nothing."""
    path = os.path.abspath(path)

    def note(key, seconds):
        with open(path, "a") as it:
            print(*key, f"{seconds:.2f}", file=it)

    status, _, edits, _ = gate(False, names, note)
    if not names:
        spent = {}
        for line in open(path):
            crate, part, seconds = line.split()
            spent[crate, part] = spent.get((crate, part), 0) + float(seconds)
        write_table(spent, edits, f"one `rt ci` from nothing, in parts that keep what they proved, on {os.cpu_count()} processors")
    return status


def write_table(spent, edits, what):
    crates = [line.split(":")[0] for line in open("crates.txt") if re.match(r"\w+.*:", line)]
    others = sorted({crate for crate, _ in spent} - set(crates))
    rows, sums = [], [0.0, 0.0, 0.0]
    for crate in crates:
        parts = [spent.get((crate, part), 0) / 60 for part in ("proof", "tests", "edits")]
        sums = [a + b for a, b in zip(sums, parts)]
        rows.append(PART.format(crate, *[f"{it:.1f}" for it in (*parts, sum(parts))], edits.get(crate, 0)))
    rest = sum(value for (crate, _), value in spent.items() if crate in others) / 60
    head = [PART.format("crate", "proof", "tests", "edits", "sum", "count"), "| --- | --- | --- | --- | --- | --- |"]
    last = PART.format("all", *[f"{it:.1f}" for it in (*sums, sum(sums))], sum(edits.values()))
    table = "\n".join([*head, *rows, last])
    said = f"Processor minutes of {what}; linking and running the programs took {rest:.1f} more."
    put("gate", f"{said}\n\n{table}\n")


def put(mark, text):
    """Puts a text between its marks in bench/GATE.md."""
    path = "bench/GATE.md"
    page = open(path).read()
    first, end = f"<!-- {mark} -->\n", f"<!-- end of {mark} -->"
    before, after = page.split(first)[0], page.split(end)[1]
    with open(path, "w") as it:
        it.write(f"{before}{first}{text}{end}{after}")


# Where the prover writes each module of a check from nothing, when it has done it.
MODULES = "/tmp/rattle-logic-built-locked-{}-0"
# The modules of a function.
PARTS = r"(\.(Lts|Given|View|Proof|Tie|Goals|Answers|Met|Layout|Code|Mir|Invariants|Statement|Symbol|Kinds[-0-9]*|Instances|TheLinks|decls))+$"


def module_times(pid, is_over):
    """When each module was written by the prover of this number, until it is over: its name and the time."""
    found = {}
    while True:
        last = is_over()
        with contextlib.suppress(FileNotFoundError), os.scandir(MODULES.format(pid)) as folder:
            for it in folder:
                if it.name.endswith(".oantt") and it.name not in found:
                    with contextlib.suppress(FileNotFoundError):
                        found[it.name] = it.stat().st_mtime
        if last:
            return found
        time.sleep(0.3)


def by_function(crate, times, began):
    """The seconds of each function, which are those of its modules, and of each other module; a module's are those since the
    one before it was written."""
    spent, last = {}, began
    for name, at in sorted(times.items(), key=lambda it: it[1]):
        what = re.sub(PARTS, "", name.removesuffix(".oantt").removeprefix(f"Rattle-{crate}-").removeprefix("proofs."))
        what = what if spent else "(before the first module)"
        spent[what] = spent.get(what, 0) + at - last
        last = at
    return spent


def functions(names):
    """Checks each crate from nothing, one job, and lists the functions, and the lemmas' modules, that take most."""
    rtlib = module("rtlib", os.path.join(os.path.dirname(RT), "rtlib.py"))
    crates = {it.name: it for it in rtlib.crates_below(os.getcwd())}
    for name in names:
        for tests in (False, True):
            crate = crates[name]
            if tests and not crate.has_tests():
                continue
            words = [rtlib.RATTLE, "check", *crate.words(["--jobs", "1"], tests=tests, keeps=False)]
            began = time.time()
            ran = subprocess.Popen(words, cwd=crate.folder, stdin=subprocess.DEVNULL, stdout=subprocess.DEVNULL, stderr=subprocess.DEVNULL)
            spent = by_function(name, module_times(ran.pid, lambda: ran.poll() is not None), began)
            print(f"{name}{' with its tests' if tests else ''}: {time.time() - began:.0f} s")
            for what, seconds in sorted(spent.items(), key=lambda it: -it[1])[:12]:
                if seconds >= 5:
                    print(f"  {seconds:5.1f}  {what}")


def plants(names):
    for name in names:
        ran = subprocess.run(["rt", "plant", "--minutes", "10"], cwd=f"crates/{name}", stdout=subprocess.PIPE, stderr=subprocess.STDOUT, text=True, errors="replace")
        lines = ran.stdout.rstrip("\n").split("\n")
        print(f"{name}: {lines[-1]}")
        print("\n".join(f"  {it}" for it in lines if re.match(r"proves\b", it)))


def main(words):
    if words[:1] == ["functions"]:
        return functions(words[1:])
    if words[:1] == ["plants"]:
        return plants(words[1:])
    if words[:1] == ["over"]:
        return over(words[1], words[2:])
    return anew()


sys.exit(main(sys.argv[1:]))
