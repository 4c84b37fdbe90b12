#!/usr/bin/env python3.12
"""How long scripts take, beside the Python that runs this file (CPython 3.12) and beside the import machine alone.

    python3.12 bench/run_rate.py                     builds the program and that of `machine_rate.py` in scratch repositories
                                                     with `rt run`, which proves the crates, an hour on a new machine
    python3.12 bench/run_rate.py PROGRAM [MACHINE]   measures these; without the second, the machine is not measured

Each script does one kind of work, once and twice as often; its time is that of its process without
that of an empty script. CPython is timed inside its process, without its start. Ends with status 1 where a bound of the
table below is passed, where twice the work takes more than 2.2 times the time, or where an event takes too much memory.
"""
import os
import pathlib
import subprocess
import sys
import tempfile
import time

import check_rate
import machine_rate
import scratch

TURNS = 20_000
ROUNDS = 7
FUEL = "--fuel=2000000"
MOST_BYTES_OF_AN_EVENT = 112
LEAST_PART_OF_THE_MACHINE = 0.5
MOST_OF_AN_EMPTY_SCRIPT = 0.06

COUNTING = "i = 0\nwhile i < TURNS:\n    i = i + 1\n"


def in_function(before, turn):
    """A script whose function takes so many turns, each with this work."""
    body = ["i = 0", "while i < TURNS:", "    i = i + 1"] + ["    " + line for line in turn]
    return before + "def work():\n" + "".join(f"    {line}\n" for line in body) + "work()\n"


# what is done in each turn, with how many times CPython's time it may take
SCRIPTS = {
    "counting at module level": (COUNTING, 20),
    "counting in a function": (in_function("", []), 12),
    "calls of a small function": (in_function("def same(x):\n    return x\n", ["same(i)"]), 20),
    "attribute reads": (in_function("import shelf\n", ["shelf.book"]), 20),
    "imports of a loaded module": (in_function("import shelf\n", ["import shelf"]), 8),
    "texts and lists": (in_function("", ["[i, 'a' + 'b'] == [i, 'ab']"]), 15),
    "tries that raise": (in_function("", ["try:", "    raise ValueError", "except ValueError:", "    pass"]), 15),
}

TIMED = """import sys, time
source = compile(open(sys.argv[1]).read(), sys.argv[1], "exec")
began = time.perf_counter()
exec(source, {"__name__": "__main__"})
print(time.perf_counter() - began)
"""


def measure(words, folder):
    """The seconds of one process, and what it wrote."""
    reader, writer = os.pipe()
    began = time.perf_counter()
    child = subprocess.Popen(words, cwd=folder, stdout=writer)
    os.close(writer)
    with os.fdopen(reader) as pipe:
        written = pipe.read()
    _, status = os.waitpid(child.pid, 0)
    spent = time.perf_counter() - began
    child.returncode = os.waitstatus_to_exitcode(status)
    if child.returncode != 0:
        sys.exit(f"{words} ended with status {child.returncode}")
    return spent, written


def best(words, folder):
    """The least time of several runs."""
    return min(measure(words, folder)[0] for _ in range(ROUNDS))


def in_cpython(script, folder):
    """The least time that CPython takes for a script, in seconds."""
    return min(float(measure([sys.executable, "-c", TIMED, script], folder)[1]) for _ in range(ROUNDS))


def write_scripts(folder):
    (folder / "shelf.py").write_text("book = 1\n")
    (folder / "empty.py").write_text("")
    for number, (script, _) in enumerate(SCRIPTS.values()):
        for times in (1, 2):
            (folder / f"s{number}_{times}.py").write_text(script.replace("TURNS", str(times * TURNS)))


def events_a_second(program):
    """The rate of the machine alone."""
    runs = [machine_rate.measure(program, 10_000) for _ in range(ROUNDS)]
    return max(events / (spent / 1e9) for events, _, spent, _ in runs)


def compare(program, folder, empty):
    """Runs each script in both, and says which bounds are passed."""
    passed = []
    for number, (name, (_, bound)) in enumerate(SCRIPTS.items()):
        times = []
        for twice in (1, 2):
            spent = best([program, "run", FUEL, f"s{number}_{twice}.py"], folder)
            times.append(spent - empty)
        other = in_cpython(f"s{number}_1.py", folder)
        print(f"{name}: {times[0] * 1e3:.1f} ms, CPython {other * 1e3:.1f} ms ({times[0] / other:.2f} times), twice {times[1] / times[0]:.2f}")
        if times[0] > bound * other or times[1] > 2.2 * times[0]:
            passed.append(name)
    return passed


def programs(top):
    """The program and that of the machine, which may be missing: those of the words, or built here."""
    if sys.argv[1:]:
        given = [pathlib.Path(word).resolve() for word in sys.argv[1:]]
        return given[0], given[1] if given[1:] else None
    for part in ("machine", "program"):
        (top / part).mkdir()
    crate, _ = scratch.run(top / "machine", "machine_rate", machine_rate.PROGRAM, ["import_machine"])
    return scratch.build(top / "program", "pyimport_main"), crate / "out" / "machine_rate"


def main():
    with tempfile.TemporaryDirectory() as top:
        top = pathlib.Path(top)
        program, machine = programs(top)
        folder = top / "scripts"
        folder.mkdir()
        write_scripts(folder)
        empty = best([program, "run", "empty.py"], folder)
        python = best([sys.executable, "empty.py"], folder)
        print(f"an empty script: {empty * 1e3:.1f} ms, CPython {python * 1e3:.1f} ms")
        passed = [] if empty <= MOST_OF_AN_EMPTY_SCRIPT * python else ["an empty script"]
        passed += compare(program, folder, empty)
        spent = best([program, "run", FUEL, "s0_2.py"], folder)
        least, most = (check_rate.peak([program, "run", FUEL, script], folder) for script in ("empty.py", "s0_2.py"))
        events = 2 * TURNS * 3
        rate, size = events / (spent - empty), (most - least) / events
        print(f"{rate:.0f} events a second; {size:.0f} bytes an event")
        if machine:
            alone = events_a_second(machine)
            print(f"the machine alone: {alone:.0f} events a second")
            if rate < LEAST_PART_OF_THE_MACHINE * alone:
                passed.append("events a second")
        if size > MOST_BYTES_OF_AN_EVENT:
            passed.append("memory")
    if passed:
        sys.exit("bounds passed: " + ", ".join(passed))


if __name__ == "__main__":
    main()
