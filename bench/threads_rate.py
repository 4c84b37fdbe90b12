#!/usr/bin/env python3.12
"""How long scripts take that run at once, beside the Python that runs this file (CPython 3.12) with threads.

    python3.12 bench/threads_rate.py            builds the program in a scratch repository with `rt run`, which proves the
                                                crates, an hour on a new machine
    python3.12 bench/threads_rate.py PROGRAM    measures this one

Makes a real folder with sets of 500 modules, and runs 1, 2, 4, 8 and 16 scripts, of which each imports a set: first sets
of their own, then all the same. The time of a run is that of its process without that of an empty script; CPython is timed
inside its process, without its start, with the scripts compiled before and no bytecode files. Prints each time, how many
times that of one script it is, and how many times CPython's. Ends with status 1 where four scripts with sets of their own
take more than MOST_SHARE of four times the time of one.
"""
import pathlib
import sys
import tempfile

import scratch
from import_rate import FUEL, importing, measure, write

SCRIPTS = (1, 2, 4, 8, 16)
MODULES = 500
# a body that gives the parser something to do, which stands outside the turn
BODY = "x = 1\ndef f(a, b):\n    return [a, b, a + b]\n" + "".join(f"v{n} = {n} + x\n" for n in range(20))
AT_ONCE, MOST_SHARE = 4, 0.5

TIMED = """import sys, threading, time
sys.path.insert(0, "")
sources = [compile(open(name).read(), name, "exec") for name in sys.argv[1:]]
threads = [threading.Thread(target=exec, args=(source, {"__name__": "__main__"})) for source in sources]
began = time.perf_counter()
for thread in threads: thread.start()
for thread in threads: thread.join()
print(time.perf_counter() - began)
"""


def files(is_shared):
    """The modules and the scripts: of each script a set of its own, or one for all."""
    made = {}
    for s in range(max(SCRIPTS)):
        names = [f"m{0 if is_shared else s}_{n}" for n in range(MODULES)]
        made[f"s{s}.py"] = importing(names)
        made.update({f"{name}.py": BODY for name in names})
    return made


def report(program, folder, start, name):
    """Measures the scripts of a folder, prints it, and gives the seconds by the number of scripts."""
    seconds = {}
    for count in SCRIPTS:
        scripts = [f"s{s}.py" for s in range(count)]
        seconds[count] = max(measure([program, "run", FUEL, *scripts], folder)[0] - start, 1e-9)
        cpython = float(measure([sys.executable, "-I", "-S", "-B", "-c", TIMED, *scripts], folder)[1])
        print(f"{count} scripts, {name}: {seconds[count] * 1e3:.1f} ms,", end=" ")
        print(f"{seconds[count] / seconds[1]:.2f} times one; CPython {cpython * 1e3:.1f} ms ({seconds[count] / cpython:.2f} times)")
    return seconds


def main():
    with tempfile.TemporaryDirectory() as top:
        top = pathlib.Path(top)
        (top / "program").mkdir()
        program = pathlib.Path(sys.argv[1]).resolve() if sys.argv[1:] else scratch.build(top / "program", "pyimport_main")
        write(top / "empty", {"main.py": ""})
        start = measure([program, "run", "main.py"], top / "empty")[0]
        seconds = {}
        for name, is_shared in (("sets of their own", False), ("one set", True)):
            folder = top / name.replace(" ", "_")
            write(folder, files(is_shared))
            seconds[is_shared] = report(program, folder, start, name)
    share = seconds[False][AT_ONCE] / (AT_ONCE * seconds[False][1])
    print(f"{AT_ONCE} scripts at once take {share:.2f} of the time that they take one after another")
    sys.exit(1 if share > MOST_SHARE else 0)


if __name__ == "__main__":
    main()
